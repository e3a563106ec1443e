; ModuleID = 'sieve.c'
source_filename = "sieve.c"
target datalayout = "e-m:e-p270:32:32-p271:32:32-p272:64:64-i64:64-i128:128-f80:128-n8:16:32:64-S128"
target triple = "x86_64-pc-linux-gnu"

@composite = internal unnamed_addr global [1000 x i8] zeroinitializer, align 16

; Function Attrs: nofree norecurse nosync nounwind memory(readwrite, argmem: none, inaccessiblemem: none) uwtable
define dso_local i32 @main() local_unnamed_addr #0 {
  br label %2

1:                                                ; preds = %21
  ret i32 %22

2:                                                ; preds = %0, %21
  %3 = phi i64 [ 5, %0 ], [ %24, %21 ]
  %4 = phi i64 [ 2, %0 ], [ %23, %21 ]
  %5 = phi i32 [ 4, %0 ], [ %26, %21 ]
  %6 = phi i32 [ 0, %0 ], [ %22, %21 ]
  %7 = getelementptr inbounds [1000 x i8], ptr @composite, i64 0, i64 %4
  %8 = load i8, ptr %7, align 1, !tbaa !5
  %9 = icmp eq i8 %8, 0
  br i1 %9, label %10, label %21

10:                                               ; preds = %2
  %11 = add nsw i32 %6, 1
  %12 = mul nuw nsw i64 %4, %4
  %13 = icmp ult i64 %12, 1000
  br i1 %13, label %14, label %21

14:                                               ; preds = %10
  %15 = zext i32 %5 to i64
  br label %16

16:                                               ; preds = %14, %16
  %17 = phi i64 [ %19, %16 ], [ %15, %14 ]
  %18 = getelementptr inbounds [1000 x i8], ptr @composite, i64 0, i64 %17
  store i8 1, ptr %18, align 1, !tbaa !5
  %19 = add nuw nsw i64 %17, %4
  %20 = icmp ult i64 %19, 1000
  br i1 %20, label %16, label %21, !llvm.loop !8

21:                                               ; preds = %16, %10, %2
  %22 = phi i32 [ %6, %2 ], [ %11, %10 ], [ %11, %16 ]
  %23 = add nuw nsw i64 %4, 1
  %24 = add nuw nsw i64 %3, 2
  %25 = trunc nuw nsw i64 %3 to i32
  %26 = add i32 %5, %25
  %27 = icmp eq i64 %23, 1000
  br i1 %27, label %1, label %2, !llvm.loop !10
}

attributes #0 = { nofree norecurse nosync nounwind memory(readwrite, argmem: none, inaccessiblemem: none) uwtable "min-legal-vector-width"="0" "no-trapping-math"="true" "stack-protector-buffer-size"="8" "target-cpu"="x86-64" "target-features"="+cmov,+cx8,+fxsr,+mmx,+sse,+sse2,+x87" "tune-cpu"="generic" }

!llvm.module.flags = !{!0, !1, !2, !3}
!llvm.ident = !{!4}

!0 = !{i32 1, !"wchar_size", i32 4}
!1 = !{i32 8, !"PIC Level", i32 2}
!2 = !{i32 7, !"PIE Level", i32 2}
!3 = !{i32 7, !"uwtable", i32 2}
!4 = !{!"Debian clang version 19.1.7 (3~deb12u1)"}
!5 = !{!6, !6, i64 0}
!6 = !{!"omnipotent char", !7, i64 0}
!7 = !{!"Simple C/C++ TBAA"}
!8 = distinct !{!8, !9}
!9 = !{!"llvm.loop.mustprogress"}
!10 = distinct !{!10, !9}
