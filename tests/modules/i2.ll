; ModuleID = 'i.c'
source_filename = "i.c"
target datalayout = "e-m:e-p270:32:32-p271:32:32-p272:64:64-i64:64-i128:128-f80:128-n8:16:32:64-S128"
target triple = "x86_64-pc-linux-gnu"

@state = internal unnamed_addr global i32 1, align 4

; Function Attrs: mustprogress nofree norecurse nosync nounwind willreturn memory(readwrite, argmem: none, inaccessiblemem: none) uwtable
define dso_local i32 @next() local_unnamed_addr #0 {
entry:
  %0 = load i32, ptr @state, align 4, !tbaa !5
  %shl = shl i32 %0, 13
  %xor = xor i32 %shl, %0
  %shr = lshr i32 %xor, 17
  %xor1 = xor i32 %shr, %xor
  %shl2 = shl i32 %xor1, 5
  %xor3 = xor i32 %shl2, %xor1
  store i32 %xor3, ptr @state, align 4, !tbaa !5
  ret i32 %xor3
}

; Function Attrs: nofree norecurse nosync nounwind memory(argmem: readwrite) uwtable
define dso_local void @sort(ptr nocapture noundef %a, i32 noundef %n) local_unnamed_addr #1 {
entry:
  %cmp26 = icmp sgt i32 %n, 1
  br i1 %cmp26, label %for.body.preheader, label %for.cond.cleanup

for.body.preheader:                               ; preds = %entry
  %wide.trip.count = zext nneg i32 %n to i64
  br label %for.body

for.cond.cleanup:                                 ; preds = %while.end, %entry
  ret void

for.body:                                         ; preds = %for.body.preheader, %while.end
  %indvars.iv = phi i64 [ 1, %for.body.preheader ], [ %indvars.iv.next, %while.end ]
  %arrayidx = getelementptr inbounds i32, ptr %a, i64 %indvars.iv
  %0 = load i32, ptr %arrayidx, align 4, !tbaa !5
  %1 = trunc nuw nsw i64 %indvars.iv to i32
  br label %land.rhs

land.rhs:                                         ; preds = %for.body, %while.body
  %j.025 = phi i32 [ %1, %for.body ], [ %dec, %while.body ]
  %2 = zext nneg i32 %j.025 to i64
  %3 = getelementptr i32, ptr %a, i64 %2
  %arrayidx3 = getelementptr i8, ptr %3, i64 -4
  %4 = load i32, ptr %arrayidx3, align 4, !tbaa !5
  %cmp4 = icmp sgt i32 %4, %0
  br i1 %cmp4, label %while.body, label %while.end

while.body:                                       ; preds = %land.rhs
  store i32 %4, ptr %3, align 4, !tbaa !5
  %dec = add nsw i32 %j.025, -1
  %cmp1 = icmp sgt i32 %j.025, 1
  br i1 %cmp1, label %land.rhs, label %while.end, !llvm.loop !9

while.end:                                        ; preds = %while.body, %land.rhs
  %j.0.lcssa = phi i32 [ 0, %while.body ], [ %j.025, %land.rhs ]
  %idxprom10 = sext i32 %j.0.lcssa to i64
  %arrayidx11 = getelementptr inbounds i32, ptr %a, i64 %idxprom10
  store i32 %0, ptr %arrayidx11, align 4, !tbaa !5
  %indvars.iv.next = add nuw nsw i64 %indvars.iv, 1
  %exitcond.not = icmp eq i64 %indvars.iv.next, %wide.trip.count
  br i1 %exitcond.not, label %for.cond.cleanup, label %for.body, !llvm.loop !11
}

; Function Attrs: mustprogress nocallback nofree nosync nounwind willreturn memory(argmem: readwrite)
declare void @llvm.lifetime.start.p0(i64 immarg, ptr nocapture) #2

; Function Attrs: mustprogress nocallback nofree nosync nounwind willreturn memory(argmem: readwrite)
declare void @llvm.lifetime.end.p0(i64 immarg, ptr nocapture) #2

; Function Attrs: nofree norecurse nosync nounwind memory(readwrite, argmem: none, inaccessiblemem: none) uwtable
define dso_local range(i32 0, 128) i32 @main() local_unnamed_addr #3 {
entry:
  %a = alloca [16 x i32], align 16
  call void @llvm.lifetime.start.p0(i64 64, ptr nonnull %a) #4
  %state.promoted = load i32, ptr @state, align 4, !tbaa !5
  br label %for.body

for.body.i.preheader:                             ; preds = %for.body
  store i32 %xor3.i.1, ptr @state, align 4, !tbaa !5
  br label %for.body.i

for.body.i:                                       ; preds = %for.body.i.preheader, %while.end.i
  %indvars.iv.i = phi i64 [ %indvars.iv.next.i, %while.end.i ], [ 1, %for.body.i.preheader ]
  %arrayidx.i = getelementptr inbounds i32, ptr %a, i64 %indvars.iv.i
  %0 = load i32, ptr %arrayidx.i, align 4, !tbaa !5
  %1 = trunc nuw nsw i64 %indvars.iv.i to i32
  br label %land.rhs.i

land.rhs.i:                                       ; preds = %while.body.i, %for.body.i
  %j.025.i = phi i32 [ %1, %for.body.i ], [ %dec.i, %while.body.i ]
  %2 = zext nneg i32 %j.025.i to i64
  %3 = getelementptr i32, ptr %a, i64 %2
  %arrayidx3.i = getelementptr i8, ptr %3, i64 -4
  %4 = load i32, ptr %arrayidx3.i, align 4, !tbaa !5
  %cmp4.i = icmp sgt i32 %4, %0
  br i1 %cmp4.i, label %while.body.i, label %while.end.i

while.body.i:                                     ; preds = %land.rhs.i
  store i32 %4, ptr %3, align 4, !tbaa !5
  %dec.i = add nsw i32 %j.025.i, -1
  %cmp1.i = icmp sgt i32 %j.025.i, 1
  br i1 %cmp1.i, label %land.rhs.i, label %while.end.i, !llvm.loop !9

while.end.i:                                      ; preds = %while.body.i, %land.rhs.i
  %j.0.lcssa.i = phi i32 [ 0, %while.body.i ], [ %j.025.i, %land.rhs.i ]
  %idxprom10.i = sext i32 %j.0.lcssa.i to i64
  %arrayidx11.i = getelementptr inbounds i32, ptr %a, i64 %idxprom10.i
  store i32 %0, ptr %arrayidx11.i, align 4, !tbaa !5
  %indvars.iv.next.i = add nuw nsw i64 %indvars.iv.i, 1
  %exitcond.not.i = icmp eq i64 %indvars.iv.next.i, 16
  br i1 %exitcond.not.i, label %for.body5.preheader, label %for.body.i, !llvm.loop !11

for.body5.preheader:                              ; preds = %while.end.i
  %5 = load i32, ptr %a, align 16, !tbaa !5
  %mul.1 = mul nsw i32 %5, 3
  %arrayidx7.1 = getelementptr inbounds i8, ptr %a, i64 4
  %6 = load i32, ptr %arrayidx7.1, align 4, !tbaa !5
  %add.1 = add nsw i32 %6, %mul.1
  %mul.2 = mul nsw i32 %add.1, 3
  %arrayidx7.2 = getelementptr inbounds i8, ptr %a, i64 8
  %7 = load i32, ptr %arrayidx7.2, align 8, !tbaa !5
  %add.2 = add nsw i32 %7, %mul.2
  %mul.3 = mul nsw i32 %add.2, 3
  %arrayidx7.3 = getelementptr inbounds i8, ptr %a, i64 12
  %8 = load i32, ptr %arrayidx7.3, align 4, !tbaa !5
  %add.3 = add nsw i32 %8, %mul.3
  %mul.4 = mul nsw i32 %add.3, 3
  %arrayidx7.4 = getelementptr inbounds i8, ptr %a, i64 16
  %9 = load i32, ptr %arrayidx7.4, align 16, !tbaa !5
  %add.4 = add nsw i32 %9, %mul.4
  %mul.5 = mul nsw i32 %add.4, 3
  %arrayidx7.5 = getelementptr inbounds i8, ptr %a, i64 20
  %10 = load i32, ptr %arrayidx7.5, align 4, !tbaa !5
  %add.5 = add nsw i32 %10, %mul.5
  %mul.6 = mul nsw i32 %add.5, 3
  %arrayidx7.6 = getelementptr inbounds i8, ptr %a, i64 24
  %11 = load i32, ptr %arrayidx7.6, align 8, !tbaa !5
  %add.6 = add nsw i32 %11, %mul.6
  %mul.7 = mul nsw i32 %add.6, 3
  %arrayidx7.7 = getelementptr inbounds i8, ptr %a, i64 28
  %12 = load i32, ptr %arrayidx7.7, align 4, !tbaa !5
  %add.7 = add nsw i32 %12, %mul.7
  %mul.8 = mul nsw i32 %add.7, 3
  %arrayidx7.8 = getelementptr inbounds i8, ptr %a, i64 32
  %13 = load i32, ptr %arrayidx7.8, align 16, !tbaa !5
  %add.8 = add nsw i32 %13, %mul.8
  %mul.9 = mul nsw i32 %add.8, 3
  %arrayidx7.9 = getelementptr inbounds i8, ptr %a, i64 36
  %14 = load i32, ptr %arrayidx7.9, align 4, !tbaa !5
  %add.9 = add nsw i32 %14, %mul.9
  %mul.10 = mul nsw i32 %add.9, 3
  %arrayidx7.10 = getelementptr inbounds i8, ptr %a, i64 40
  %15 = load i32, ptr %arrayidx7.10, align 8, !tbaa !5
  %add.10 = add nsw i32 %15, %mul.10
  %mul.11 = mul nsw i32 %add.10, 3
  %arrayidx7.11 = getelementptr inbounds i8, ptr %a, i64 44
  %16 = load i32, ptr %arrayidx7.11, align 4, !tbaa !5
  %add.11 = add nsw i32 %16, %mul.11
  %mul.12 = mul nsw i32 %add.11, 3
  %arrayidx7.12 = getelementptr inbounds i8, ptr %a, i64 48
  %17 = load i32, ptr %arrayidx7.12, align 16, !tbaa !5
  %add.12 = add nsw i32 %17, %mul.12
  %mul.13 = mul nsw i32 %add.12, 3
  %arrayidx7.13 = getelementptr inbounds i8, ptr %a, i64 52
  %18 = load i32, ptr %arrayidx7.13, align 4, !tbaa !5
  %add.13 = add nsw i32 %18, %mul.13
  %mul.14 = mul nsw i32 %add.13, 3
  %arrayidx7.14 = getelementptr inbounds i8, ptr %a, i64 56
  %19 = load i32, ptr %arrayidx7.14, align 8, !tbaa !5
  %add.14 = add nsw i32 %19, %mul.14
  %mul.15 = mul nsw i32 %add.14, 3
  %arrayidx7.15 = getelementptr inbounds i8, ptr %a, i64 60
  %20 = load i32, ptr %arrayidx7.15, align 4, !tbaa !5
  %add.15 = add nsw i32 %20, %mul.15
  %and11 = and i32 %add.15, 127
  call void @llvm.lifetime.end.p0(i64 64, ptr nonnull %a) #4
  ret i32 %and11

for.body:                                         ; preds = %for.body, %entry
  %indvars.iv = phi i64 [ 0, %entry ], [ %indvars.iv.next.1, %for.body ]
  %xor3.i1718 = phi i32 [ %state.promoted, %entry ], [ %xor3.i.1, %for.body ]
  %shl.i = shl i32 %xor3.i1718, 13
  %xor.i = xor i32 %shl.i, %xor3.i1718
  %shr.i = lshr i32 %xor.i, 17
  %xor1.i = xor i32 %shr.i, %xor.i
  %shl2.i = shl i32 %xor1.i, 5
  %xor3.i = xor i32 %shl2.i, %xor1.i
  %and = and i32 %xor3.i, 255
  %arrayidx = getelementptr inbounds [16 x i32], ptr %a, i64 0, i64 %indvars.iv
  store i32 %and, ptr %arrayidx, align 8, !tbaa !5
  %indvars.iv.next = or disjoint i64 %indvars.iv, 1
  %shl.i.1 = shl i32 %xor3.i, 13
  %xor.i.1 = xor i32 %shl.i.1, %xor3.i
  %shr.i.1 = lshr i32 %xor.i.1, 17
  %xor1.i.1 = xor i32 %shr.i.1, %xor.i.1
  %shl2.i.1 = shl i32 %xor1.i.1, 5
  %xor3.i.1 = xor i32 %shl2.i.1, %xor1.i.1
  %and.1 = and i32 %xor3.i.1, 255
  %arrayidx.1 = getelementptr inbounds [16 x i32], ptr %a, i64 0, i64 %indvars.iv.next
  store i32 %and.1, ptr %arrayidx.1, align 4, !tbaa !5
  %indvars.iv.next.1 = add nuw nsw i64 %indvars.iv, 2
  %exitcond.not.1 = icmp eq i64 %indvars.iv.next.1, 16
  br i1 %exitcond.not.1, label %for.body.i.preheader, label %for.body, !llvm.loop !12
}

attributes #0 = { mustprogress nofree norecurse nosync nounwind willreturn memory(readwrite, argmem: none, inaccessiblemem: none) uwtable "min-legal-vector-width"="0" "no-trapping-math"="true" "stack-protector-buffer-size"="8" "target-cpu"="x86-64" "target-features"="+cmov,+cx8,+fxsr,+mmx,+sse,+sse2,+x87" "tune-cpu"="generic" }
attributes #1 = { nofree norecurse nosync nounwind memory(argmem: readwrite) uwtable "min-legal-vector-width"="0" "no-trapping-math"="true" "stack-protector-buffer-size"="8" "target-cpu"="x86-64" "target-features"="+cmov,+cx8,+fxsr,+mmx,+sse,+sse2,+x87" "tune-cpu"="generic" }
attributes #2 = { mustprogress nocallback nofree nosync nounwind willreturn memory(argmem: readwrite) }
attributes #3 = { nofree norecurse nosync nounwind memory(readwrite, argmem: none, inaccessiblemem: none) uwtable "min-legal-vector-width"="0" "no-trapping-math"="true" "stack-protector-buffer-size"="8" "target-cpu"="x86-64" "target-features"="+cmov,+cx8,+fxsr,+mmx,+sse,+sse2,+x87" "tune-cpu"="generic" }
attributes #4 = { nounwind }

!llvm.module.flags = !{!0, !1, !2, !3}
!llvm.ident = !{!4}

!0 = !{i32 1, !"wchar_size", i32 4}
!1 = !{i32 8, !"PIC Level", i32 2}
!2 = !{i32 7, !"PIE Level", i32 2}
!3 = !{i32 7, !"uwtable", i32 2}
!4 = !{!"Debian clang version 19.1.7 (3~deb12u1)"}
!5 = !{!6, !6, i64 0}
!6 = !{!"int", !7, i64 0}
!7 = !{!"omnipotent char", !8, i64 0}
!8 = !{!"Simple C/C++ TBAA"}
!9 = distinct !{!9, !10}
!10 = !{!"llvm.loop.mustprogress"}
!11 = distinct !{!11, !10}
!12 = distinct !{!12, !10}
