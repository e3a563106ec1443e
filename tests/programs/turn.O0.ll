; ModuleID = 'turn.c'
source_filename = "turn.c"
target datalayout = "e-m:e-p270:32:32-p271:32:32-p272:64:64-i64:64-i128:128-f80:128-n8:16:32:64-S128"
target triple = "x86_64-pc-linux-gnu"

; Function Attrs: noinline nounwind optnone uwtable
define dso_local i32 @main() #0 {
  %1 = alloca i32, align 4
  %2 = alloca [64 x i8], align 16
  %3 = alloca i32, align 4
  %4 = alloca i32, align 4
  %5 = alloca i32, align 4
  store i32 0, ptr %1, align 4
  store i32 0, ptr %3, align 4
  store i32 0, ptr %4, align 4
  br label %6

6:                                                ; preds = %45, %0
  %7 = call i32 @getchar() #2
  store i32 %7, ptr %5, align 4
  %8 = load i32, ptr %5, align 4
  %9 = icmp eq i32 %8, 10
  br i1 %9, label %13, label %10

10:                                               ; preds = %6
  %11 = load i32, ptr %5, align 4
  %12 = icmp eq i32 %11, -1
  br i1 %12, label %13, label %33

13:                                               ; preds = %10, %6
  br label %14

14:                                               ; preds = %17, %13
  %15 = load i32, ptr %3, align 4
  %16 = icmp sgt i32 %15, 0
  br i1 %16, label %17, label %25

17:                                               ; preds = %14
  %18 = load i32, ptr %3, align 4
  %19 = add nsw i32 %18, -1
  store i32 %19, ptr %3, align 4
  %20 = sext i32 %19 to i64
  %21 = getelementptr inbounds [64 x i8], ptr %2, i64 0, i64 %20
  %22 = load i8, ptr %21, align 1
  %23 = sext i8 %22 to i32
  %24 = call i32 @putchar(i32 noundef %23) #2
  br label %14, !llvm.loop !4

25:                                               ; preds = %14
  %26 = load i32, ptr %5, align 4
  %27 = icmp eq i32 %26, -1
  br i1 %27, label %28, label %29

28:                                               ; preds = %25
  br label %46

29:                                               ; preds = %25
  %30 = call i32 @putchar(i32 noundef 10) #2
  %31 = load i32, ptr %4, align 4
  %32 = add nsw i32 %31, 1
  store i32 %32, ptr %4, align 4
  br label %45

33:                                               ; preds = %10
  %34 = load i32, ptr %3, align 4
  %35 = icmp slt i32 %34, 64
  br i1 %35, label %36, label %44

36:                                               ; preds = %33
  %37 = load i32, ptr %5, align 4
  %38 = call i32 @turned(i32 noundef %37) #2
  %39 = trunc i32 %38 to i8
  %40 = load i32, ptr %3, align 4
  %41 = add nsw i32 %40, 1
  store i32 %41, ptr %3, align 4
  %42 = sext i32 %40 to i64
  %43 = getelementptr inbounds [64 x i8], ptr %2, i64 0, i64 %42
  store i8 %39, ptr %43, align 1
  br label %44

44:                                               ; preds = %36, %33
  br label %45

45:                                               ; preds = %44, %29
  br label %6

46:                                               ; preds = %28
  %47 = load i32, ptr %4, align 4
  ret i32 %47
}

declare dso_local i32 @getchar() #1

declare dso_local i32 @putchar(i32 noundef) #1

; Function Attrs: noinline nounwind optnone uwtable
define internal i32 @turned(i32 noundef %0) #0 {
  %2 = alloca i32, align 4
  %3 = alloca i32, align 4
  store i32 %0, ptr %3, align 4
  %4 = load i32, ptr %3, align 4
  %5 = icmp sge i32 %4, 97
  br i1 %5, label %6, label %15

6:                                                ; preds = %1
  %7 = load i32, ptr %3, align 4
  %8 = icmp sle i32 %7, 122
  br i1 %8, label %9, label %15

9:                                                ; preds = %6
  %10 = load i32, ptr %3, align 4
  %11 = sub nsw i32 %10, 97
  %12 = add nsw i32 %11, 13
  %13 = srem i32 %12, 26
  %14 = add nsw i32 97, %13
  store i32 %14, ptr %2, align 4
  br label %29

15:                                               ; preds = %6, %1
  %16 = load i32, ptr %3, align 4
  %17 = icmp sge i32 %16, 65
  br i1 %17, label %18, label %27

18:                                               ; preds = %15
  %19 = load i32, ptr %3, align 4
  %20 = icmp sle i32 %19, 90
  br i1 %20, label %21, label %27

21:                                               ; preds = %18
  %22 = load i32, ptr %3, align 4
  %23 = sub nsw i32 %22, 65
  %24 = add nsw i32 %23, 13
  %25 = srem i32 %24, 26
  %26 = add nsw i32 65, %25
  store i32 %26, ptr %2, align 4
  br label %29

27:                                               ; preds = %18, %15
  %28 = load i32, ptr %3, align 4
  store i32 %28, ptr %2, align 4
  br label %29

29:                                               ; preds = %27, %21, %9
  %30 = load i32, ptr %2, align 4
  ret i32 %30
}

attributes #0 = { noinline nounwind optnone uwtable "frame-pointer"="all" "min-legal-vector-width"="0" "no-builtin-calloc" "no-trapping-math"="true" "stack-protector-buffer-size"="8" "target-cpu"="x86-64" "target-features"="+cmov,+cx8,+fxsr,-aes,-avx,-avx10.1-256,-avx10.1-512,-avx2,-avx512bf16,-avx512bitalg,-avx512bw,-avx512cd,-avx512dq,-avx512f,-avx512fp16,-avx512ifma,-avx512vbmi,-avx512vbmi2,-avx512vl,-avx512vnni,-avx512vp2intersect,-avx512vpopcntdq,-avxifma,-avxneconvert,-avxvnni,-avxvnniint16,-avxvnniint8,-f16c,-fma,-fma4,-gfni,-kl,-mmx,-pclmul,-sha,-sha512,-sm3,-sm4,-sse,-sse2,-sse3,-sse4.1,-sse4.2,-sse4a,-ssse3,-vaes,-vpclmulqdq,-widekl,-x87,-xop" "tune-cpu"="generic" }
attributes #1 = { "frame-pointer"="all" "no-builtin-calloc" "no-trapping-math"="true" "stack-protector-buffer-size"="8" "target-cpu"="x86-64" "target-features"="+cmov,+cx8,+fxsr,-aes,-avx,-avx10.1-256,-avx10.1-512,-avx2,-avx512bf16,-avx512bitalg,-avx512bw,-avx512cd,-avx512dq,-avx512f,-avx512fp16,-avx512ifma,-avx512vbmi,-avx512vbmi2,-avx512vl,-avx512vnni,-avx512vp2intersect,-avx512vpopcntdq,-avxifma,-avxneconvert,-avxvnni,-avxvnniint16,-avxvnniint8,-f16c,-fma,-fma4,-gfni,-kl,-mmx,-pclmul,-sha,-sha512,-sm3,-sm4,-sse,-sse2,-sse3,-sse4.1,-sse4.2,-sse4a,-ssse3,-vaes,-vpclmulqdq,-widekl,-x87,-xop" "tune-cpu"="generic" }
attributes #2 = { "no-builtin-calloc" }

!llvm.module.flags = !{!0, !1, !2}
!llvm.ident = !{!3}

!0 = !{i32 1, !"wchar_size", i32 4}
!1 = !{i32 7, !"uwtable", i32 2}
!2 = !{i32 7, !"frame-pointer", i32 2}
!3 = !{!"Debian clang version 19.1.7 (3~deb12u1)"}
!4 = distinct !{!4, !5}
!5 = !{!"llvm.loop.mustprogress"}
