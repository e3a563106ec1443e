; ModuleID = 'wide.2.c'
source_filename = "wide.2.c"
target datalayout = "e-m:e-p270:32:32-p271:32:32-p272:64:64-i64:64-i128:128-f80:128-n8:16:32:64-S128"
target triple = "x86_64-pc-linux-gnu"

@limit = dso_local local_unnamed_addr constant i128 1267650600228229401496703205376, align 16

; Function Attrs: nofree nosync nounwind memory(none) uwtable
define dso_local { i64, i64 } @power(i64 noundef %0, i64 noundef %1, i32 noundef %2) local_unnamed_addr #0 {
  %4 = zext i64 %1 to i128
  %5 = shl nuw i128 %4, 64
  %6 = zext i64 %0 to i128
  %7 = or disjoint i128 %5, %6
  %8 = icmp eq i32 %2, 0
  br i1 %8, label %34, label %9

9:                                                ; preds = %3
  %10 = and i32 %2, 1
  %11 = icmp eq i32 %10, 0
  br i1 %11, label %25, label %12

12:                                               ; preds = %9
  %13 = add nsw i32 %2, -1
  %14 = tail call { i64, i64 } @power(i64 noundef %0, i64 noundef %1, i32 noundef %13) #2
  %15 = extractvalue { i64, i64 } %14, 0
  %16 = extractvalue { i64, i64 } %14, 1
  %17 = zext i64 %16 to i128
  %18 = shl nuw i128 %17, 64
  %19 = zext i64 %15 to i128
  %20 = or disjoint i128 %18, %19
  %21 = mul i128 %20, %7
  %22 = trunc i128 %21 to i64
  %23 = lshr i128 %21, 64
  %24 = trunc nuw i128 %23 to i64
  br label %34

25:                                               ; preds = %9
  %26 = mul i128 %7, %7
  %27 = lshr exact i32 %2, 1
  %28 = trunc i128 %26 to i64
  %29 = lshr i128 %26, 64
  %30 = trunc nuw i128 %29 to i64
  %31 = tail call { i64, i64 } @power(i64 noundef %28, i64 noundef %30, i32 noundef %27) #2
  %32 = extractvalue { i64, i64 } %31, 0
  %33 = extractvalue { i64, i64 } %31, 1
  br label %34

34:                                               ; preds = %12, %25, %3
  %35 = phi i64 [ 1, %3 ], [ %22, %12 ], [ %32, %25 ]
  %36 = phi i64 [ 0, %3 ], [ %24, %12 ], [ %33, %25 ]
  %37 = insertvalue { i64, i64 } poison, i64 %35, 0
  %38 = insertvalue { i64, i64 } %37, i64 %36, 1
  ret { i64, i64 } %38
}

; Function Attrs: nofree norecurse nosync nounwind memory(none) uwtable
define dso_local i32 @digits(i64 noundef %0, i64 noundef %1) local_unnamed_addr #1 {
  %3 = zext i64 %1 to i128
  %4 = shl nuw i128 %3, 64
  %5 = zext i64 %0 to i128
  %6 = or disjoint i128 %4, %5
  %7 = icmp ult i128 %6, 10
  br i1 %7, label %16, label %8

8:                                                ; preds = %2, %8
  %9 = phi i128 [ %11, %8 ], [ %6, %2 ]
  %10 = phi i32 [ %12, %8 ], [ 0, %2 ]
  %11 = udiv i128 %9, 10
  %12 = add i32 %10, 1
  %13 = icmp ult i128 %9, 100
  br i1 %13, label %14, label %8

14:                                               ; preds = %8
  %15 = add i32 %10, 2
  br label %16

16:                                               ; preds = %14, %2
  %17 = phi i32 [ 1, %2 ], [ %15, %14 ]
  ret i32 %17
}

attributes #0 = { nofree nosync nounwind memory(none) uwtable "min-legal-vector-width"="0" "no-builtin-calloc" "no-trapping-math"="true" "stack-protector-buffer-size"="8" "target-cpu"="x86-64" "target-features"="+cmov,+cx8,+fxsr,-aes,-avx,-avx10.1-256,-avx10.1-512,-avx2,-avx512bf16,-avx512bitalg,-avx512bw,-avx512cd,-avx512dq,-avx512f,-avx512fp16,-avx512ifma,-avx512vbmi,-avx512vbmi2,-avx512vl,-avx512vnni,-avx512vp2intersect,-avx512vpopcntdq,-avxifma,-avxneconvert,-avxvnni,-avxvnniint16,-avxvnniint8,-f16c,-fma,-fma4,-gfni,-kl,-mmx,-pclmul,-sha,-sha512,-sm3,-sm4,-sse,-sse2,-sse3,-sse4.1,-sse4.2,-sse4a,-ssse3,-vaes,-vpclmulqdq,-widekl,-x87,-xop" "tune-cpu"="generic" }
attributes #1 = { nofree norecurse nosync nounwind memory(none) uwtable "min-legal-vector-width"="0" "no-builtin-calloc" "no-trapping-math"="true" "stack-protector-buffer-size"="8" "target-cpu"="x86-64" "target-features"="+cmov,+cx8,+fxsr,-aes,-avx,-avx10.1-256,-avx10.1-512,-avx2,-avx512bf16,-avx512bitalg,-avx512bw,-avx512cd,-avx512dq,-avx512f,-avx512fp16,-avx512ifma,-avx512vbmi,-avx512vbmi2,-avx512vl,-avx512vnni,-avx512vp2intersect,-avx512vpopcntdq,-avxifma,-avxneconvert,-avxvnni,-avxvnniint16,-avxvnniint8,-f16c,-fma,-fma4,-gfni,-kl,-mmx,-pclmul,-sha,-sha512,-sm3,-sm4,-sse,-sse2,-sse3,-sse4.1,-sse4.2,-sse4a,-ssse3,-vaes,-vpclmulqdq,-widekl,-x87,-xop" "tune-cpu"="generic" }
attributes #2 = { "no-builtin-calloc" }

!llvm.module.flags = !{!0, !1}
!llvm.ident = !{!2}

!0 = !{i32 1, !"wchar_size", i32 4}
!1 = !{i32 7, !"uwtable", i32 2}
!2 = !{!"Debian clang version 19.1.7 (3~deb12u1)"}
