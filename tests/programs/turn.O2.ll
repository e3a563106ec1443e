; ModuleID = 'turn.c'
source_filename = "turn.c"
target datalayout = "e-m:e-p270:32:32-p271:32:32-p272:64:64-i64:64-i128:128-f80:128-n8:16:32:64-S128"
target triple = "x86_64-pc-linux-gnu"

; Function Attrs: nofree nounwind uwtable
define dso_local i32 @main() local_unnamed_addr #0 {
  %1 = alloca [64 x i8], align 16
  call void @llvm.lifetime.start.p0(i64 64, ptr nonnull %1) #3
  br label %2

2:                                                ; preds = %0, %25
  %3 = phi i32 [ 0, %0 ], [ %24, %25 ]
  %4 = phi i32 [ 0, %0 ], [ %27, %25 ]
  br label %5

5:                                                ; preds = %2, %47
  %6 = phi i32 [ %50, %47 ], [ %3, %2 ]
  %7 = icmp slt i32 %6, 64
  br label %8

8:                                                ; preds = %5, %28
  %9 = tail call i32 @getchar() #4
  switch i32 %9, label %28 [
    i32 -1, label %10
    i32 10, label %10
  ]

10:                                               ; preds = %8, %8
  %11 = icmp eq i32 %9, -1
  %12 = icmp sgt i32 %6, 0
  br i1 %12, label %13, label %23

13:                                               ; preds = %10
  %14 = zext nneg i32 %6 to i64
  br label %15

15:                                               ; preds = %13, %15
  %16 = phi i64 [ %14, %13 ], [ %17, %15 ]
  %17 = add nsw i64 %16, -1
  %18 = getelementptr inbounds [64 x i8], ptr %1, i64 0, i64 %17
  %19 = load i8, ptr %18, align 1, !tbaa !3
  %20 = sext i8 %19 to i32
  %21 = tail call i32 @putchar(i32 noundef %20) #4
  %22 = icmp ugt i64 %16, 1
  br i1 %22, label %15, label %23, !llvm.loop !6

23:                                               ; preds = %15, %10
  %24 = phi i32 [ %6, %10 ], [ 0, %15 ]
  br i1 %11, label %53, label %25

25:                                               ; preds = %23
  %26 = tail call i32 @putchar(i32 noundef 10) #4
  %27 = add nuw nsw i32 %4, 1
  br label %2

28:                                               ; preds = %8
  br i1 %7, label %29, label %8

29:                                               ; preds = %28
  %30 = add i32 %9, -97
  %31 = icmp ult i32 %30, 26
  br i1 %31, label %32, label %38

32:                                               ; preds = %29
  %33 = add nsw i32 %9, -84
  %34 = add nsw i32 %9, -110
  %35 = icmp ult i32 %33, 26
  %36 = select i1 %35, i32 %33, i32 %34
  %37 = add nuw nsw i32 %36, 97
  br label %47

38:                                               ; preds = %29
  %39 = add i32 %9, -65
  %40 = icmp ult i32 %39, 26
  br i1 %40, label %41, label %47

41:                                               ; preds = %38
  %42 = add nsw i32 %9, -52
  %43 = add nsw i32 %9, -78
  %44 = icmp ult i32 %42, 26
  %45 = select i1 %44, i32 %42, i32 %43
  %46 = add nuw nsw i32 %45, 65
  br label %47

47:                                               ; preds = %32, %38, %41
  %48 = phi i32 [ %37, %32 ], [ %46, %41 ], [ %9, %38 ]
  %49 = trunc i32 %48 to i8
  %50 = add nsw i32 %6, 1
  %51 = sext i32 %6 to i64
  %52 = getelementptr inbounds [64 x i8], ptr %1, i64 0, i64 %51
  store i8 %49, ptr %52, align 1, !tbaa !3
  br label %5

53:                                               ; preds = %23
  call void @llvm.lifetime.end.p0(i64 64, ptr nonnull %1) #3
  ret i32 %4
}

; Function Attrs: mustprogress nocallback nofree nosync nounwind willreturn memory(argmem: readwrite)
declare void @llvm.lifetime.start.p0(i64 immarg, ptr nocapture) #1

; Function Attrs: nofree nounwind
declare dso_local noundef i32 @getchar() local_unnamed_addr #2

; Function Attrs: nofree nounwind
declare dso_local noundef i32 @putchar(i32 noundef) local_unnamed_addr #2

; Function Attrs: mustprogress nocallback nofree nosync nounwind willreturn memory(argmem: readwrite)
declare void @llvm.lifetime.end.p0(i64 immarg, ptr nocapture) #1

attributes #0 = { nofree nounwind uwtable "min-legal-vector-width"="0" "no-builtin-calloc" "no-trapping-math"="true" "stack-protector-buffer-size"="8" "target-cpu"="x86-64" "target-features"="+cmov,+cx8,+fxsr,-aes,-avx,-avx10.1-256,-avx10.1-512,-avx2,-avx512bf16,-avx512bitalg,-avx512bw,-avx512cd,-avx512dq,-avx512f,-avx512fp16,-avx512ifma,-avx512vbmi,-avx512vbmi2,-avx512vl,-avx512vnni,-avx512vp2intersect,-avx512vpopcntdq,-avxifma,-avxneconvert,-avxvnni,-avxvnniint16,-avxvnniint8,-f16c,-fma,-fma4,-gfni,-kl,-mmx,-pclmul,-sha,-sha512,-sm3,-sm4,-sse,-sse2,-sse3,-sse4.1,-sse4.2,-sse4a,-ssse3,-vaes,-vpclmulqdq,-widekl,-x87,-xop" "tune-cpu"="generic" }
attributes #1 = { mustprogress nocallback nofree nosync nounwind willreturn memory(argmem: readwrite) }
attributes #2 = { nofree nounwind "no-builtin-calloc" "no-trapping-math"="true" "stack-protector-buffer-size"="8" "target-cpu"="x86-64" "target-features"="+cmov,+cx8,+fxsr,-aes,-avx,-avx10.1-256,-avx10.1-512,-avx2,-avx512bf16,-avx512bitalg,-avx512bw,-avx512cd,-avx512dq,-avx512f,-avx512fp16,-avx512ifma,-avx512vbmi,-avx512vbmi2,-avx512vl,-avx512vnni,-avx512vp2intersect,-avx512vpopcntdq,-avxifma,-avxneconvert,-avxvnni,-avxvnniint16,-avxvnniint8,-f16c,-fma,-fma4,-gfni,-kl,-mmx,-pclmul,-sha,-sha512,-sm3,-sm4,-sse,-sse2,-sse3,-sse4.1,-sse4.2,-sse4a,-ssse3,-vaes,-vpclmulqdq,-widekl,-x87,-xop" "tune-cpu"="generic" }
attributes #3 = { nounwind }
attributes #4 = { "no-builtin-calloc" }

!llvm.module.flags = !{!0, !1}
!llvm.ident = !{!2}

!0 = !{i32 1, !"wchar_size", i32 4}
!1 = !{i32 7, !"uwtable", i32 2}
!2 = !{!"Debian clang version 19.1.7 (3~deb12u1)"}
!3 = !{!4, !4, i64 0}
!4 = !{!"omnipotent char", !5, i64 0}
!5 = !{!"Simple C/C++ TBAA"}
!6 = distinct !{!6, !7}
!7 = !{!"llvm.loop.mustprogress"}
