; ModuleID = 'calls.1.c'
source_filename = "calls.1.c"
target datalayout = "e-m:e-p270:32:32-p271:32:32-p272:64:64-i64:64-i128:128-f80:128-n8:16:32:64-S128"
target triple = "x86_64-pc-linux-gnu"

; Function Attrs: nounwind uwtable
define dso_local range(i32 -2147483647, -2147483648) i32 @steps(i32 noundef %0) local_unnamed_addr #0 {
  %2 = icmp eq i32 %0, 1
  br i1 %2, label %15, label %3

3:                                                ; preds = %1
  %4 = and i32 %0, 1
  %5 = icmp eq i32 %4, 0
  br i1 %5, label %10, label %6

6:                                                ; preds = %3
  %7 = mul nsw i32 %0, 3
  %8 = add nsw i32 %7, 1
  %9 = tail call i32 @steps(i32 noundef %8) #3
  br label %12

10:                                               ; preds = %3
  %11 = tail call i32 @half(i32 noundef %0) #4
  br label %12

12:                                               ; preds = %10, %6
  %13 = phi i32 [ %9, %6 ], [ %11, %10 ]
  %14 = add nsw i32 %13, 1
  br label %15

15:                                               ; preds = %1, %12
  %16 = phi i32 [ %14, %12 ], [ 0, %1 ]
  ret i32 %16
}

declare dso_local i32 @half(i32 noundef) local_unnamed_addr #1

; Function Attrs: nounwind uwtable
define dso_local range(i32 -2147483647, -2147483648) i32 @main() local_unnamed_addr #0 {
  %1 = tail call i32 @steps(i32 noundef 1) #3
  %2 = add nsw i32 %1, 48
  %3 = tail call i32 @putchar(i32 noundef %2) #3
  %4 = tail call i32 @steps(i32 noundef 2) #3
  %5 = add nsw i32 %4, 48
  %6 = tail call i32 @putchar(i32 noundef %5) #3
  %7 = tail call i32 @steps(i32 noundef 3) #3
  %8 = add nsw i32 %7, 48
  %9 = tail call i32 @putchar(i32 noundef %8) #3
  %10 = tail call i32 @steps(i32 noundef 4) #3
  %11 = add nsw i32 %10, 48
  %12 = tail call i32 @putchar(i32 noundef %11) #3
  %13 = tail call i32 @steps(i32 noundef 5) #3
  %14 = add nsw i32 %13, 48
  %15 = tail call i32 @putchar(i32 noundef %14) #3
  %16 = tail call i32 @steps(i32 noundef 6) #3
  %17 = add nsw i32 %16, 48
  %18 = tail call i32 @putchar(i32 noundef %17) #3
  %19 = tail call i32 @steps(i32 noundef 7) #3
  %20 = add nsw i32 %19, 48
  %21 = tail call i32 @putchar(i32 noundef %20) #3
  %22 = tail call i32 @steps(i32 noundef 8) #3
  %23 = add nsw i32 %22, 48
  %24 = tail call i32 @putchar(i32 noundef %23) #3
  %25 = tail call i32 @steps(i32 noundef 9) #3
  %26 = add nsw i32 %25, 48
  %27 = tail call i32 @putchar(i32 noundef %26) #3
  %28 = tail call i32 @putchar(i32 noundef 10) #3
  %29 = tail call i32 @steps(i32 noundef 27) #3
  ret i32 %29
}

; Function Attrs: nofree nounwind
declare dso_local noundef i32 @putchar(i32 noundef) local_unnamed_addr #2

attributes #0 = { nounwind uwtable "min-legal-vector-width"="0" "no-builtin-calloc" "no-trapping-math"="true" "stack-protector-buffer-size"="8" "target-cpu"="x86-64" "target-features"="+cmov,+cx8,+fxsr,-aes,-avx,-avx10.1-256,-avx10.1-512,-avx2,-avx512bf16,-avx512bitalg,-avx512bw,-avx512cd,-avx512dq,-avx512f,-avx512fp16,-avx512ifma,-avx512vbmi,-avx512vbmi2,-avx512vl,-avx512vnni,-avx512vp2intersect,-avx512vpopcntdq,-avxifma,-avxneconvert,-avxvnni,-avxvnniint16,-avxvnniint8,-f16c,-fma,-fma4,-gfni,-kl,-mmx,-pclmul,-sha,-sha512,-sm3,-sm4,-sse,-sse2,-sse3,-sse4.1,-sse4.2,-sse4a,-ssse3,-vaes,-vpclmulqdq,-widekl,-x87,-xop" "tune-cpu"="generic" }
attributes #1 = { "no-builtin-calloc" "no-trapping-math"="true" "stack-protector-buffer-size"="8" "target-cpu"="x86-64" "target-features"="+cmov,+cx8,+fxsr,-aes,-avx,-avx10.1-256,-avx10.1-512,-avx2,-avx512bf16,-avx512bitalg,-avx512bw,-avx512cd,-avx512dq,-avx512f,-avx512fp16,-avx512ifma,-avx512vbmi,-avx512vbmi2,-avx512vl,-avx512vnni,-avx512vp2intersect,-avx512vpopcntdq,-avxifma,-avxneconvert,-avxvnni,-avxvnniint16,-avxvnniint8,-f16c,-fma,-fma4,-gfni,-kl,-mmx,-pclmul,-sha,-sha512,-sm3,-sm4,-sse,-sse2,-sse3,-sse4.1,-sse4.2,-sse4a,-ssse3,-vaes,-vpclmulqdq,-widekl,-x87,-xop" "tune-cpu"="generic" }
attributes #2 = { nofree nounwind "no-builtin-calloc" "no-trapping-math"="true" "stack-protector-buffer-size"="8" "target-cpu"="x86-64" "target-features"="+cmov,+cx8,+fxsr,-aes,-avx,-avx10.1-256,-avx10.1-512,-avx2,-avx512bf16,-avx512bitalg,-avx512bw,-avx512cd,-avx512dq,-avx512f,-avx512fp16,-avx512ifma,-avx512vbmi,-avx512vbmi2,-avx512vl,-avx512vnni,-avx512vp2intersect,-avx512vpopcntdq,-avxifma,-avxneconvert,-avxvnni,-avxvnniint16,-avxvnniint8,-f16c,-fma,-fma4,-gfni,-kl,-mmx,-pclmul,-sha,-sha512,-sm3,-sm4,-sse,-sse2,-sse3,-sse4.1,-sse4.2,-sse4a,-ssse3,-vaes,-vpclmulqdq,-widekl,-x87,-xop" "tune-cpu"="generic" }
attributes #3 = { "no-builtin-calloc" }
attributes #4 = { nounwind "no-builtin-calloc" }

!llvm.module.flags = !{!0, !1}
!llvm.ident = !{!2}

!0 = !{i32 1, !"wchar_size", i32 4}
!1 = !{i32 7, !"uwtable", i32 2}
!2 = !{!"Debian clang version 19.1.7 (3~deb12u1)"}
