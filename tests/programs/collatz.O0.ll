; ModuleID = 'collatz.c'
source_filename = "collatz.c"
target datalayout = "e-m:e-p270:32:32-p271:32:32-p272:64:64-i64:64-i128:128-f80:128-n8:16:32:64-S128"
target triple = "x86_64-pc-linux-gnu"

@.str = private unnamed_addr constant [14 x i8] c"%lu takes %u\0A\00", align 1
@lengths = internal global [4096 x i16] zeroinitializer, align 16

; Function Attrs: noinline nounwind optnone uwtable
define dso_local i32 @main() #0 {
  %1 = alloca i32, align 4
  %2 = alloca i32, align 4
  %3 = alloca i64, align 8
  %4 = alloca i64, align 8
  %5 = alloca i32, align 4
  store i32 0, ptr %1, align 4
  store i32 0, ptr %2, align 4
  store i64 0, ptr %3, align 8
  store i64 1, ptr %4, align 8
  br label %6

6:                                                ; preds = %19, %0
  %7 = load i64, ptr %4, align 8
  %8 = icmp ult i64 %7, 3000
  br i1 %8, label %9, label %22

9:                                                ; preds = %6
  %10 = load i64, ptr %4, align 8
  %11 = call i32 @length(i64 noundef %10) #2
  store i32 %11, ptr %5, align 4
  %12 = load i32, ptr %5, align 4
  %13 = load i32, ptr %2, align 4
  %14 = icmp ugt i32 %12, %13
  br i1 %14, label %15, label %18

15:                                               ; preds = %9
  %16 = load i32, ptr %5, align 4
  store i32 %16, ptr %2, align 4
  %17 = load i64, ptr %4, align 8
  store i64 %17, ptr %3, align 8
  br label %18

18:                                               ; preds = %15, %9
  br label %19

19:                                               ; preds = %18
  %20 = load i64, ptr %4, align 8
  %21 = add i64 %20, 1
  store i64 %21, ptr %4, align 8
  br label %6, !llvm.loop !4

22:                                               ; preds = %6
  %23 = load i64, ptr %3, align 8
  %24 = load i32, ptr %2, align 4
  %25 = call i32 (ptr, ...) @printf(ptr noundef @.str, i64 noundef %23, i32 noundef %24) #2
  %26 = load i32, ptr %2, align 4
  ret i32 %26
}

; Function Attrs: noinline nounwind optnone uwtable
define internal i32 @length(i64 noundef %0) #0 {
  %2 = alloca i32, align 4
  %3 = alloca i64, align 8
  %4 = alloca i32, align 4
  store i64 %0, ptr %3, align 8
  %5 = load i64, ptr %3, align 8
  %6 = icmp eq i64 %5, 1
  br i1 %6, label %7, label %8

7:                                                ; preds = %1
  store i32 1, ptr %2, align 4
  br label %47

8:                                                ; preds = %1
  %9 = load i64, ptr %3, align 8
  %10 = icmp ult i64 %9, 4096
  br i1 %10, label %11, label %22

11:                                               ; preds = %8
  %12 = load i64, ptr %3, align 8
  %13 = getelementptr inbounds [4096 x i16], ptr @lengths, i64 0, i64 %12
  %14 = load i16, ptr %13, align 2
  %15 = zext i16 %14 to i32
  %16 = icmp ne i32 %15, 0
  br i1 %16, label %17, label %22

17:                                               ; preds = %11
  %18 = load i64, ptr %3, align 8
  %19 = getelementptr inbounds [4096 x i16], ptr @lengths, i64 0, i64 %18
  %20 = load i16, ptr %19, align 2
  %21 = zext i16 %20 to i32
  store i32 %21, ptr %2, align 4
  br label %47

22:                                               ; preds = %11, %8
  %23 = load i64, ptr %3, align 8
  %24 = urem i64 %23, 2
  %25 = icmp ne i64 %24, 0
  br i1 %25, label %26, label %31

26:                                               ; preds = %22
  %27 = load i64, ptr %3, align 8
  %28 = mul i64 3, %27
  %29 = add i64 %28, 1
  %30 = call i32 @length(i64 noundef %29) #2
  br label %35

31:                                               ; preds = %22
  %32 = load i64, ptr %3, align 8
  %33 = udiv i64 %32, 2
  %34 = call i32 @length(i64 noundef %33) #2
  br label %35

35:                                               ; preds = %31, %26
  %36 = phi i32 [ %30, %26 ], [ %34, %31 ]
  %37 = add i32 1, %36
  store i32 %37, ptr %4, align 4
  %38 = load i64, ptr %3, align 8
  %39 = icmp ult i64 %38, 4096
  br i1 %39, label %40, label %45

40:                                               ; preds = %35
  %41 = load i32, ptr %4, align 4
  %42 = trunc i32 %41 to i16
  %43 = load i64, ptr %3, align 8
  %44 = getelementptr inbounds [4096 x i16], ptr @lengths, i64 0, i64 %43
  store i16 %42, ptr %44, align 2
  br label %45

45:                                               ; preds = %40, %35
  %46 = load i32, ptr %4, align 4
  store i32 %46, ptr %2, align 4
  br label %47

47:                                               ; preds = %45, %17, %7
  %48 = load i32, ptr %2, align 4
  ret i32 %48
}

declare dso_local i32 @printf(ptr noundef, ...) #1

attributes #0 = { noinline nounwind optnone uwtable "frame-pointer"="all" "min-legal-vector-width"="0" "no-builtin-calloc" "no-trapping-math"="true" "stack-protector-buffer-size"="8" "target-cpu"="x86-64" "target-features"="+cmov,+cx8,+fxsr,-aes,-avx,-avx10.1-256,-avx10.1-512,-avx2,-avx512bf16,-avx512bitalg,-avx512bw,-avx512cd,-avx512dq,-avx512f,-avx512fp16,-avx512ifma,-avx512vbmi,-avx512vbmi2,-avx512vl,-avx512vnni,-avx512vp2intersect,-avx512vpopcntdq,-avxifma,-avxneconvert,-avxvnni,-avxvnniint16,-avxvnniint8,-f16c,-fma,-fma4,-gfni,-kl,-mmx,-pclmul,-sha,-sha512,-sm3,-sm4,-sse,-sse2,-sse3,-sse4.1,-sse4.2,-sse4a,-ssse3,-vaes,-vpclmulqdq,-widekl,-x87,-xop" "tune-cpu"="generic" }
attributes #1 = { "frame-pointer"="all" "no-builtin-calloc" "no-trapping-math"="true" "stack-protector-buffer-size"="8" "target-cpu"="x86-64" "target-features"="+cmov,+cx8,+fxsr,-aes,-avx,-avx10.1-256,-avx10.1-512,-avx2,-avx512bf16,-avx512bitalg,-avx512bw,-avx512cd,-avx512dq,-avx512f,-avx512fp16,-avx512ifma,-avx512vbmi,-avx512vbmi2,-avx512vl,-avx512vnni,-avx512vp2intersect,-avx512vpopcntdq,-avxifma,-avxneconvert,-avxvnni,-avxvnniint16,-avxvnniint8,-f16c,-fma,-fma4,-gfni,-kl,-mmx,-pclmul,-sha,-sha512,-sm3,-sm4,-sse,-sse2,-sse3,-sse4.1,-sse4.2,-sse4a,-ssse3,-vaes,-vpclmulqdq,-widekl,-x87,-xop" "tune-cpu"="generic" }
attributes #2 = { "no-builtin-calloc" }

!llvm.module.flags = !{!0, !1, !2}
!llvm.ident = !{!3}

!0 = !{i32 1, !"wchar_size", i32 4}
!1 = !{i32 7, !"uwtable", i32 2}
!2 = !{i32 7, !"frame-pointer", i32 2}
!3 = !{!"Debian clang version 19.1.7 (3~deb12u1)"}
!4 = distinct !{!4, !5}
!5 = !{!"llvm.loop.mustprogress"}
