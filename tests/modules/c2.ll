; ModuleID = 'c.c'
source_filename = "c.c"
target datalayout = "e-m:e-p270:32:32-p271:32:32-p272:64:64-i64:64-i128:128-f80:128-n8:16:32:64-S128"
target triple = "x86_64-pc-linux-gnu"

%struct.node = type { ptr, i64 }

@first = internal global %struct.node { ptr @second, i64 10 }, align 8
@second = internal global %struct.node { ptr @third, i64 20 }, align 8
@third = internal global %struct.node { ptr null, i64 30 }, align 8

; Function Attrs: nofree norecurse nosync nounwind memory(read, inaccessiblemem: none) uwtable
define dso_local i64 @sum(ptr noundef readonly %n) local_unnamed_addr #0 {
entry:
  %tobool.not4 = icmp eq ptr %n, null
  br i1 %tobool.not4, label %while.end, label %while.body

while.body:                                       ; preds = %entry, %while.body
  %s.06 = phi i64 [ %add, %while.body ], [ 0, %entry ]
  %n.addr.05 = phi ptr [ %1, %while.body ], [ %n, %entry ]
  %value = getelementptr inbounds i8, ptr %n.addr.05, i64 8
  %0 = load i64, ptr %value, align 8, !tbaa !5
  %add = add nsw i64 %0, %s.06
  %1 = load ptr, ptr %n.addr.05, align 8, !tbaa !11
  %tobool.not = icmp eq ptr %1, null
  br i1 %tobool.not, label %while.end, label %while.body, !llvm.loop !12

while.end:                                        ; preds = %while.body, %entry
  %s.0.lcssa = phi i64 [ 0, %entry ], [ %add, %while.body ]
  ret i64 %s.0.lcssa
}

; Function Attrs: nofree norecurse nosync nounwind memory(readwrite, inaccessiblemem: none) uwtable
define dso_local noundef ptr @reverse(ptr noundef %n) local_unnamed_addr #1 {
entry:
  %tobool.not6 = icmp eq ptr %n, null
  br i1 %tobool.not6, label %while.end, label %while.body

while.body:                                       ; preds = %entry, %while.body
  %n.addr.08 = phi ptr [ %0, %while.body ], [ %n, %entry ]
  %r.07 = phi ptr [ %n.addr.08, %while.body ], [ null, %entry ]
  %0 = load ptr, ptr %n.addr.08, align 8, !tbaa !11
  store ptr %r.07, ptr %n.addr.08, align 8, !tbaa !11
  %tobool.not = icmp eq ptr %0, null
  br i1 %tobool.not, label %while.end, label %while.body, !llvm.loop !14

while.end:                                        ; preds = %while.body, %entry
  %r.0.lcssa = phi ptr [ null, %entry ], [ %n.addr.08, %while.body ]
  ret ptr %r.0.lcssa
}

; Function Attrs: nofree norecurse nosync nounwind memory(readwrite, inaccessiblemem: none) uwtable
define dso_local i32 @main() local_unnamed_addr #1 {
entry:
  br label %while.body.i

while.body.i:                                     ; preds = %while.body.i, %entry
  %n.addr.08.i = phi ptr [ %0, %while.body.i ], [ @first, %entry ]
  %r.07.i = phi ptr [ %n.addr.08.i, %while.body.i ], [ null, %entry ]
  %0 = load ptr, ptr %n.addr.08.i, align 8, !tbaa !11
  store ptr %r.07.i, ptr %n.addr.08.i, align 8, !tbaa !11
  %tobool.not.i = icmp eq ptr %0, null
  br i1 %tobool.not.i, label %while.body.i2.preheader, label %while.body.i, !llvm.loop !14

while.body.i2.preheader:                          ; preds = %while.body.i
  %value.i4 = getelementptr inbounds i8, ptr %n.addr.08.i, i64 8
  %1 = load i64, ptr %value.i4, align 8, !tbaa !5
  %tobool.not.i35 = icmp eq ptr %r.07.i, null
  br i1 %tobool.not.i35, label %sum.exit, label %while.body.i2thread-pre-split, !llvm.loop !12

while.body.i2thread-pre-split:                    ; preds = %while.body.i2.preheader, %while.body.i2thread-pre-split
  %add.i6 = phi i64 [ %add.i, %while.body.i2thread-pre-split ], [ %1, %while.body.i2.preheader ]
  %2 = phi ptr [ %.pr, %while.body.i2thread-pre-split ], [ %r.07.i, %while.body.i2.preheader ]
  %.pr = load ptr, ptr %2, align 8, !tbaa !11
  %value.i = getelementptr inbounds i8, ptr %2, i64 8
  %3 = load i64, ptr %value.i, align 8, !tbaa !5
  %add.i = add nsw i64 %3, %add.i6
  %tobool.not.i3 = icmp eq ptr %.pr, null
  br i1 %tobool.not.i3, label %sum.exit, label %while.body.i2thread-pre-split, !llvm.loop !12

sum.exit:                                         ; preds = %while.body.i2thread-pre-split, %while.body.i2.preheader
  %add.i.lcssa = phi i64 [ %1, %while.body.i2.preheader ], [ %add.i, %while.body.i2thread-pre-split ]
  %conv = trunc i64 %add.i.lcssa to i32
  ret i32 %conv
}

attributes #0 = { nofree norecurse nosync nounwind memory(read, inaccessiblemem: none) uwtable "min-legal-vector-width"="0" "no-trapping-math"="true" "stack-protector-buffer-size"="8" "target-cpu"="x86-64" "target-features"="+cmov,+cx8,+fxsr,+mmx,+sse,+sse2,+x87" "tune-cpu"="generic" }
attributes #1 = { nofree norecurse nosync nounwind memory(readwrite, inaccessiblemem: none) uwtable "min-legal-vector-width"="0" "no-trapping-math"="true" "stack-protector-buffer-size"="8" "target-cpu"="x86-64" "target-features"="+cmov,+cx8,+fxsr,+mmx,+sse,+sse2,+x87" "tune-cpu"="generic" }

!llvm.module.flags = !{!0, !1, !2, !3}
!llvm.ident = !{!4}

!0 = !{i32 1, !"wchar_size", i32 4}
!1 = !{i32 8, !"PIC Level", i32 2}
!2 = !{i32 7, !"PIE Level", i32 2}
!3 = !{i32 7, !"uwtable", i32 2}
!4 = !{!"Debian clang version 19.1.7 (3~deb12u1)"}
!5 = !{!6, !10, i64 8}
!6 = !{!"node", !7, i64 0, !10, i64 8}
!7 = !{!"any pointer", !8, i64 0}
!8 = !{!"omnipotent char", !9, i64 0}
!9 = !{!"Simple C/C++ TBAA"}
!10 = !{!"long", !8, i64 0}
!11 = !{!6, !7, i64 0}
!12 = distinct !{!12, !13}
!13 = !{!"llvm.loop.mustprogress"}
!14 = distinct !{!14, !13}
