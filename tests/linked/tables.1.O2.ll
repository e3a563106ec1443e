; ModuleID = 'tables.1.c'
source_filename = "tables.1.c"
target datalayout = "e-m:e-p270:32:32-p271:32:32-p272:64:64-i64:64-i128:128-f80:128-n8:16:32:64-S128"
target triple = "x86_64-pc-linux-gnu"

@prime_count = external dso_local local_unnamed_addr global i32, align 4
@primes = external dso_local local_unnamed_addr constant [0 x i32], align 4
@weights = external dso_local local_unnamed_addr constant [0 x i8], align 1
@words = external dso_local local_unnamed_addr constant [0 x ptr], align 8
@.str = private unnamed_addr constant [4 x i8] c"%s \00", align 1
@.str.1 = private unnamed_addr constant [4 x i8] c"%d\0A\00", align 1

; Function Attrs: nofree nounwind uwtable
define dso_local range(i32 -255, 256) i32 @main() local_unnamed_addr #0 {
  %1 = load i32, ptr @prime_count, align 4, !tbaa !3
  %2 = icmp sgt i32 %1, 0
  br i1 %2, label %3, label %28

3:                                                ; preds = %0
  %4 = zext nneg i32 %1 to i64
  %5 = and i64 %4, 3
  %6 = icmp ult i32 %1, 4
  br i1 %6, label %9, label %7

7:                                                ; preds = %3
  %8 = and i64 %4, 2147483644
  br label %32

9:                                                ; preds = %32, %3
  %10 = phi i32 [ poison, %3 ], [ %66, %32 ]
  %11 = phi i64 [ 0, %3 ], [ %67, %32 ]
  %12 = phi i32 [ 0, %3 ], [ %66, %32 ]
  %13 = icmp eq i64 %5, 0
  br i1 %13, label %28, label %14

14:                                               ; preds = %9, %14
  %15 = phi i64 [ %25, %14 ], [ %11, %9 ]
  %16 = phi i32 [ %24, %14 ], [ %12, %9 ]
  %17 = phi i64 [ %26, %14 ], [ 0, %9 ]
  %18 = getelementptr inbounds [0 x i32], ptr @primes, i64 0, i64 %15
  %19 = load i32, ptr %18, align 4, !tbaa !3
  %20 = getelementptr inbounds [0 x i8], ptr @weights, i64 0, i64 %15
  %21 = load i8, ptr %20, align 1, !tbaa !7
  %22 = zext i8 %21 to i32
  %23 = mul nsw i32 %19, %22
  %24 = add nsw i32 %23, %16
  %25 = add nuw nsw i64 %15, 1
  %26 = add i64 %17, 1
  %27 = icmp eq i64 %26, %5
  br i1 %27, label %28, label %14, !llvm.loop !8

28:                                               ; preds = %9, %14, %0
  %29 = phi i32 [ 0, %0 ], [ %10, %9 ], [ %24, %14 ]
  %30 = load ptr, ptr @words, align 8, !tbaa !10
  %31 = icmp eq ptr %30, null
  br i1 %31, label %70, label %73

32:                                               ; preds = %32, %7
  %33 = phi i64 [ 0, %7 ], [ %67, %32 ]
  %34 = phi i32 [ 0, %7 ], [ %66, %32 ]
  %35 = phi i64 [ 0, %7 ], [ %68, %32 ]
  %36 = getelementptr inbounds [0 x i32], ptr @primes, i64 0, i64 %33
  %37 = load i32, ptr %36, align 4, !tbaa !3
  %38 = getelementptr inbounds [0 x i8], ptr @weights, i64 0, i64 %33
  %39 = load i8, ptr %38, align 1, !tbaa !7
  %40 = zext i8 %39 to i32
  %41 = mul nsw i32 %37, %40
  %42 = add nsw i32 %41, %34
  %43 = or disjoint i64 %33, 1
  %44 = getelementptr inbounds [0 x i32], ptr @primes, i64 0, i64 %43
  %45 = load i32, ptr %44, align 4, !tbaa !3
  %46 = getelementptr inbounds [0 x i8], ptr @weights, i64 0, i64 %43
  %47 = load i8, ptr %46, align 1, !tbaa !7
  %48 = zext i8 %47 to i32
  %49 = mul nsw i32 %45, %48
  %50 = add nsw i32 %49, %42
  %51 = or disjoint i64 %33, 2
  %52 = getelementptr inbounds [0 x i32], ptr @primes, i64 0, i64 %51
  %53 = load i32, ptr %52, align 4, !tbaa !3
  %54 = getelementptr inbounds [0 x i8], ptr @weights, i64 0, i64 %51
  %55 = load i8, ptr %54, align 1, !tbaa !7
  %56 = zext i8 %55 to i32
  %57 = mul nsw i32 %53, %56
  %58 = add nsw i32 %57, %50
  %59 = or disjoint i64 %33, 3
  %60 = getelementptr inbounds [0 x i32], ptr @primes, i64 0, i64 %59
  %61 = load i32, ptr %60, align 4, !tbaa !3
  %62 = getelementptr inbounds [0 x i8], ptr @weights, i64 0, i64 %59
  %63 = load i8, ptr %62, align 1, !tbaa !7
  %64 = zext i8 %63 to i32
  %65 = mul nsw i32 %61, %64
  %66 = add nsw i32 %65, %58
  %67 = add nuw nsw i64 %33, 4
  %68 = add i64 %35, 4
  %69 = icmp eq i64 %68, %8
  br i1 %69, label %9, label %32, !llvm.loop !12

70:                                               ; preds = %73, %28
  %71 = tail call i32 (ptr, ...) @printf(ptr noundef nonnull dereferenceable(1) @.str.1, i32 noundef %29) #2
  %72 = srem i32 %29, 256
  ret i32 %72

73:                                               ; preds = %28, %73
  %74 = phi i64 [ %77, %73 ], [ 0, %28 ]
  %75 = phi ptr [ %79, %73 ], [ %30, %28 ]
  %76 = tail call i32 (ptr, ...) @printf(ptr noundef nonnull dereferenceable(1) @.str, ptr noundef nonnull %75) #2
  %77 = add nuw nsw i64 %74, 1
  %78 = getelementptr inbounds [0 x ptr], ptr @words, i64 0, i64 %77
  %79 = load ptr, ptr %78, align 8, !tbaa !10
  %80 = icmp eq ptr %79, null
  br i1 %80, label %70, label %73, !llvm.loop !14
}

; Function Attrs: nofree nounwind
declare dso_local noundef i32 @printf(ptr nocapture noundef readonly, ...) local_unnamed_addr #1

attributes #0 = { nofree nounwind uwtable "min-legal-vector-width"="0" "no-builtin-calloc" "no-trapping-math"="true" "stack-protector-buffer-size"="8" "target-cpu"="x86-64" "target-features"="+cmov,+cx8,+fxsr,-aes,-avx,-avx10.1-256,-avx10.1-512,-avx2,-avx512bf16,-avx512bitalg,-avx512bw,-avx512cd,-avx512dq,-avx512f,-avx512fp16,-avx512ifma,-avx512vbmi,-avx512vbmi2,-avx512vl,-avx512vnni,-avx512vp2intersect,-avx512vpopcntdq,-avxifma,-avxneconvert,-avxvnni,-avxvnniint16,-avxvnniint8,-f16c,-fma,-fma4,-gfni,-kl,-mmx,-pclmul,-sha,-sha512,-sm3,-sm4,-sse,-sse2,-sse3,-sse4.1,-sse4.2,-sse4a,-ssse3,-vaes,-vpclmulqdq,-widekl,-x87,-xop" "tune-cpu"="generic" }
attributes #1 = { nofree nounwind "no-builtin-calloc" "no-trapping-math"="true" "stack-protector-buffer-size"="8" "target-cpu"="x86-64" "target-features"="+cmov,+cx8,+fxsr,-aes,-avx,-avx10.1-256,-avx10.1-512,-avx2,-avx512bf16,-avx512bitalg,-avx512bw,-avx512cd,-avx512dq,-avx512f,-avx512fp16,-avx512ifma,-avx512vbmi,-avx512vbmi2,-avx512vl,-avx512vnni,-avx512vp2intersect,-avx512vpopcntdq,-avxifma,-avxneconvert,-avxvnni,-avxvnniint16,-avxvnniint8,-f16c,-fma,-fma4,-gfni,-kl,-mmx,-pclmul,-sha,-sha512,-sm3,-sm4,-sse,-sse2,-sse3,-sse4.1,-sse4.2,-sse4a,-ssse3,-vaes,-vpclmulqdq,-widekl,-x87,-xop" "tune-cpu"="generic" }
attributes #2 = { "no-builtin-calloc" }

!llvm.module.flags = !{!0, !1}
!llvm.ident = !{!2}

!0 = !{i32 1, !"wchar_size", i32 4}
!1 = !{i32 7, !"uwtable", i32 2}
!2 = !{!"Debian clang version 19.1.7 (3~deb12u1)"}
!3 = !{!4, !4, i64 0}
!4 = !{!"int", !5, i64 0}
!5 = !{!"omnipotent char", !6, i64 0}
!6 = !{!"Simple C/C++ TBAA"}
!7 = !{!5, !5, i64 0}
!8 = distinct !{!8, !9}
!9 = !{!"llvm.loop.unroll.disable"}
!10 = !{!11, !11, i64 0}
!11 = !{!"any pointer", !5, i64 0}
!12 = distinct !{!12, !13}
!13 = !{!"llvm.loop.mustprogress"}
!14 = distinct !{!14, !13}
