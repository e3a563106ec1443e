; ModuleID = 'powers.c'
source_filename = "powers.c"
target datalayout = "e-m:e-p270:32:32-p271:32:32-p272:64:64-i64:64-i128:128-f80:128-n8:16:32:64-S128"
target triple = "x86_64-pc-linux-gnu"

@.str = private unnamed_addr constant [5 x i8] c"%lu\0A\00", align 1
@.str.1 = private unnamed_addr constant [17 x i8] c"%ld %ld %ld %lu\0A\00", align 1
@is_prime.bases = internal constant [12 x i64] [i64 2, i64 3, i64 5, i64 7, i64 11, i64 13, i64 17, i64 19, i64 23, i64 29, i64 31, i64 37], align 16

; Function Attrs: noinline nounwind optnone uwtable
define dso_local i32 @main() #0 {
  %1 = alloca i32, align 4
  %2 = alloca i64, align 8
  %3 = alloca i64, align 8
  %4 = alloca i64, align 8
  %5 = alloca i64, align 8
  %6 = alloca i64, align 8
  store i32 0, ptr %1, align 4
  store i64 0, ptr %2, align 8
  store i64 1000000000000000000, ptr %3, align 8
  br label %7

7:                                                ; preds = %20, %0
  %8 = load i64, ptr %2, align 8
  %9 = icmp ult i64 %8, 3
  br i1 %9, label %10, label %21

10:                                               ; preds = %7
  %11 = load i64, ptr %3, align 8
  %12 = add i64 %11, 1
  store i64 %12, ptr %3, align 8
  %13 = call i32 @is_prime(i64 noundef %12) #2
  %14 = icmp ne i32 %13, 0
  br i1 %14, label %15, label %20

15:                                               ; preds = %10
  %16 = load i64, ptr %2, align 8
  %17 = add i64 %16, 1
  store i64 %17, ptr %2, align 8
  %18 = load i64, ptr %3, align 8
  %19 = call i32 (ptr, ...) @printf(ptr noundef @.str, i64 noundef %18) #2
  br label %20

20:                                               ; preds = %15, %10
  br label %7, !llvm.loop !4

21:                                               ; preds = %7
  %22 = call i64 @divisor(i64 noundef -123456789012, i64 noundef 987654321, ptr noundef %4, ptr noundef %5) #2
  store i64 %22, ptr %6, align 8
  %23 = load i64, ptr %6, align 8
  %24 = load i64, ptr %4, align 8
  %25 = load i64, ptr %5, align 8
  %26 = call i64 @power(i64 noundef 7, i64 noundef 560, i64 noundef 561) #2
  %27 = call i32 (ptr, ...) @printf(ptr noundef @.str.1, i64 noundef %23, i64 noundef %24, i64 noundef %25, i64 noundef %26) #2
  %28 = call i32 @is_prime(i64 noundef 4759123141) #2
  %29 = mul nsw i32 %28, 2
  %30 = load i64, ptr %6, align 8
  %31 = load i64, ptr %4, align 8
  %32 = sext i64 %31 to i128
  %33 = mul nsw i128 %32, -123456789012
  %34 = load i64, ptr %5, align 8
  %35 = sext i64 %34 to i128
  %36 = mul nsw i128 %35, 987654321
  %37 = add nsw i128 %33, %36
  %38 = trunc i128 %37 to i64
  %39 = icmp eq i64 %30, %38
  %40 = zext i1 %39 to i32
  %41 = add nsw i32 %29, %40
  ret i32 %41
}

; Function Attrs: noinline nounwind optnone uwtable
define internal i32 @is_prime(i64 noundef %0) #0 {
  %2 = alloca i32, align 4
  %3 = alloca i64, align 8
  %4 = alloca i32, align 4
  %5 = alloca i64, align 8
  %6 = alloca i32, align 4
  %7 = alloca i32, align 4
  %8 = alloca i64, align 8
  %9 = alloca i32, align 4
  %10 = alloca i32, align 4
  store i64 %0, ptr %3, align 8
  %11 = load i64, ptr %3, align 8
  %12 = icmp ult i64 %11, 2
  br i1 %12, label %13, label %14

13:                                               ; preds = %1
  store i32 0, ptr %2, align 4
  br label %105

14:                                               ; preds = %1
  store i32 0, ptr %4, align 4
  br label %15

15:                                               ; preds = %35, %14
  %16 = load i32, ptr %4, align 4
  %17 = icmp slt i32 %16, 12
  br i1 %17, label %18, label %38

18:                                               ; preds = %15
  %19 = load i64, ptr %3, align 8
  %20 = load i32, ptr %4, align 4
  %21 = sext i32 %20 to i64
  %22 = getelementptr inbounds [12 x i64], ptr @is_prime.bases, i64 0, i64 %21
  %23 = load i64, ptr %22, align 8
  %24 = urem i64 %19, %23
  %25 = icmp eq i64 %24, 0
  br i1 %25, label %26, label %34

26:                                               ; preds = %18
  %27 = load i64, ptr %3, align 8
  %28 = load i32, ptr %4, align 4
  %29 = sext i32 %28 to i64
  %30 = getelementptr inbounds [12 x i64], ptr @is_prime.bases, i64 0, i64 %29
  %31 = load i64, ptr %30, align 8
  %32 = icmp eq i64 %27, %31
  %33 = zext i1 %32 to i32
  store i32 %33, ptr %2, align 4
  br label %105

34:                                               ; preds = %18
  br label %35

35:                                               ; preds = %34
  %36 = load i32, ptr %4, align 4
  %37 = add nsw i32 %36, 1
  store i32 %37, ptr %4, align 4
  br label %15, !llvm.loop !6

38:                                               ; preds = %15
  %39 = load i64, ptr %3, align 8
  %40 = sub i64 %39, 1
  store i64 %40, ptr %5, align 8
  store i32 0, ptr %6, align 4
  br label %41

41:                                               ; preds = %49, %38
  %42 = load i64, ptr %5, align 8
  %43 = and i64 %42, 1
  %44 = icmp ne i64 %43, 0
  %45 = xor i1 %44, true
  br i1 %45, label %46, label %52

46:                                               ; preds = %41
  %47 = load i32, ptr %6, align 4
  %48 = add nsw i32 %47, 1
  store i32 %48, ptr %6, align 4
  br label %49

49:                                               ; preds = %46
  %50 = load i64, ptr %5, align 8
  %51 = lshr i64 %50, 1
  store i64 %51, ptr %5, align 8
  br label %41, !llvm.loop !7

52:                                               ; preds = %41
  store i32 0, ptr %7, align 4
  br label %53

53:                                               ; preds = %101, %52
  %54 = load i32, ptr %7, align 4
  %55 = icmp slt i32 %54, 12
  br i1 %55, label %56, label %104

56:                                               ; preds = %53
  %57 = load i32, ptr %7, align 4
  %58 = sext i32 %57 to i64
  %59 = getelementptr inbounds [12 x i64], ptr @is_prime.bases, i64 0, i64 %58
  %60 = load i64, ptr %59, align 8
  %61 = load i64, ptr %5, align 8
  %62 = load i64, ptr %3, align 8
  %63 = call i64 @power(i64 noundef %60, i64 noundef %61, i64 noundef %62) #2
  store i64 %63, ptr %8, align 8
  %64 = load i64, ptr %8, align 8
  %65 = icmp ne i64 %64, 1
  br i1 %65, label %66, label %71

66:                                               ; preds = %56
  %67 = load i64, ptr %8, align 8
  %68 = load i64, ptr %3, align 8
  %69 = sub i64 %68, 1
  %70 = icmp ne i64 %67, %69
  br label %71

71:                                               ; preds = %66, %56
  %72 = phi i1 [ false, %56 ], [ %70, %66 ]
  %73 = zext i1 %72 to i32
  store i32 %73, ptr %9, align 4
  store i32 1, ptr %10, align 4
  br label %74

74:                                               ; preds = %93, %71
  %75 = load i32, ptr %9, align 4
  %76 = icmp ne i32 %75, 0
  br i1 %76, label %77, label %81

77:                                               ; preds = %74
  %78 = load i32, ptr %10, align 4
  %79 = load i32, ptr %6, align 4
  %80 = icmp slt i32 %78, %79
  br label %81

81:                                               ; preds = %77, %74
  %82 = phi i1 [ false, %74 ], [ %80, %77 ]
  br i1 %82, label %83, label %96

83:                                               ; preds = %81
  %84 = load i64, ptr %8, align 8
  %85 = load i64, ptr %8, align 8
  %86 = load i64, ptr %3, align 8
  %87 = call i64 @product(i64 noundef %84, i64 noundef %85, i64 noundef %86) #2
  store i64 %87, ptr %8, align 8
  %88 = load i64, ptr %8, align 8
  %89 = load i64, ptr %3, align 8
  %90 = sub i64 %89, 1
  %91 = icmp ne i64 %88, %90
  %92 = zext i1 %91 to i32
  store i32 %92, ptr %9, align 4
  br label %93

93:                                               ; preds = %83
  %94 = load i32, ptr %10, align 4
  %95 = add nsw i32 %94, 1
  store i32 %95, ptr %10, align 4
  br label %74, !llvm.loop !8

96:                                               ; preds = %81
  %97 = load i32, ptr %9, align 4
  %98 = icmp ne i32 %97, 0
  br i1 %98, label %99, label %100

99:                                               ; preds = %96
  store i32 0, ptr %2, align 4
  br label %105

100:                                              ; preds = %96
  br label %101

101:                                              ; preds = %100
  %102 = load i32, ptr %7, align 4
  %103 = add nsw i32 %102, 1
  store i32 %103, ptr %7, align 4
  br label %53, !llvm.loop !9

104:                                              ; preds = %53
  store i32 1, ptr %2, align 4
  br label %105

105:                                              ; preds = %104, %99, %26, %13
  %106 = load i32, ptr %2, align 4
  ret i32 %106
}

declare dso_local i32 @printf(ptr noundef, ...) #1

; Function Attrs: noinline nounwind optnone uwtable
define internal i64 @divisor(i64 noundef %0, i64 noundef %1, ptr noundef %2, ptr noundef %3) #0 {
  %5 = alloca i64, align 8
  %6 = alloca i64, align 8
  %7 = alloca i64, align 8
  %8 = alloca ptr, align 8
  %9 = alloca ptr, align 8
  %10 = alloca i64, align 8
  %11 = alloca i64, align 8
  %12 = alloca i64, align 8
  store i64 %0, ptr %6, align 8
  store i64 %1, ptr %7, align 8
  store ptr %2, ptr %8, align 8
  store ptr %3, ptr %9, align 8
  %13 = load i64, ptr %7, align 8
  %14 = icmp eq i64 %13, 0
  br i1 %14, label %15, label %32

15:                                               ; preds = %4
  %16 = load i64, ptr %6, align 8
  %17 = icmp slt i64 %16, 0
  %18 = zext i1 %17 to i64
  %19 = select i1 %17, i32 -1, i32 1
  %20 = sext i32 %19 to i64
  %21 = load ptr, ptr %8, align 8
  store i64 %20, ptr %21, align 8
  %22 = load ptr, ptr %9, align 8
  store i64 0, ptr %22, align 8
  %23 = load i64, ptr %6, align 8
  %24 = icmp slt i64 %23, 0
  br i1 %24, label %25, label %28

25:                                               ; preds = %15
  %26 = load i64, ptr %6, align 8
  %27 = sub nsw i64 0, %26
  br label %30

28:                                               ; preds = %15
  %29 = load i64, ptr %6, align 8
  br label %30

30:                                               ; preds = %28, %25
  %31 = phi i64 [ %27, %25 ], [ %29, %28 ]
  store i64 %31, ptr %5, align 8
  br label %49

32:                                               ; preds = %4
  %33 = load i64, ptr %7, align 8
  %34 = load i64, ptr %6, align 8
  %35 = load i64, ptr %7, align 8
  %36 = srem i64 %34, %35
  %37 = call i64 @divisor(i64 noundef %33, i64 noundef %36, ptr noundef %10, ptr noundef %11) #2
  store i64 %37, ptr %12, align 8
  %38 = load i64, ptr %11, align 8
  %39 = load ptr, ptr %8, align 8
  store i64 %38, ptr %39, align 8
  %40 = load i64, ptr %10, align 8
  %41 = load i64, ptr %6, align 8
  %42 = load i64, ptr %7, align 8
  %43 = sdiv i64 %41, %42
  %44 = load i64, ptr %11, align 8
  %45 = mul nsw i64 %43, %44
  %46 = sub nsw i64 %40, %45
  %47 = load ptr, ptr %9, align 8
  store i64 %46, ptr %47, align 8
  %48 = load i64, ptr %12, align 8
  store i64 %48, ptr %5, align 8
  br label %49

49:                                               ; preds = %32, %30
  %50 = load i64, ptr %5, align 8
  ret i64 %50
}

; Function Attrs: noinline nounwind optnone uwtable
define internal i64 @power(i64 noundef %0, i64 noundef %1, i64 noundef %2) #0 {
  %4 = alloca i64, align 8
  %5 = alloca i64, align 8
  %6 = alloca i64, align 8
  %7 = alloca i64, align 8
  store i64 %0, ptr %4, align 8
  store i64 %1, ptr %5, align 8
  store i64 %2, ptr %6, align 8
  store i64 1, ptr %7, align 8
  %8 = load i64, ptr %6, align 8
  %9 = load i64, ptr %4, align 8
  %10 = urem i64 %9, %8
  store i64 %10, ptr %4, align 8
  br label %11

11:                                               ; preds = %28, %3
  %12 = load i64, ptr %5, align 8
  %13 = icmp ne i64 %12, 0
  br i1 %13, label %14, label %31

14:                                               ; preds = %11
  %15 = load i64, ptr %5, align 8
  %16 = and i64 %15, 1
  %17 = icmp ne i64 %16, 0
  br i1 %17, label %18, label %23

18:                                               ; preds = %14
  %19 = load i64, ptr %7, align 8
  %20 = load i64, ptr %4, align 8
  %21 = load i64, ptr %6, align 8
  %22 = call i64 @product(i64 noundef %19, i64 noundef %20, i64 noundef %21) #2
  store i64 %22, ptr %7, align 8
  br label %23

23:                                               ; preds = %18, %14
  %24 = load i64, ptr %4, align 8
  %25 = load i64, ptr %4, align 8
  %26 = load i64, ptr %6, align 8
  %27 = call i64 @product(i64 noundef %24, i64 noundef %25, i64 noundef %26) #2
  store i64 %27, ptr %4, align 8
  br label %28

28:                                               ; preds = %23
  %29 = load i64, ptr %5, align 8
  %30 = lshr i64 %29, 1
  store i64 %30, ptr %5, align 8
  br label %11, !llvm.loop !10

31:                                               ; preds = %11
  %32 = load i64, ptr %7, align 8
  ret i64 %32
}

; Function Attrs: noinline nounwind optnone uwtable
define internal i64 @product(i64 noundef %0, i64 noundef %1, i64 noundef %2) #0 {
  %4 = alloca i64, align 8
  %5 = alloca i64, align 8
  %6 = alloca i64, align 8
  store i64 %0, ptr %4, align 8
  store i64 %1, ptr %5, align 8
  store i64 %2, ptr %6, align 8
  %7 = load i64, ptr %4, align 8
  %8 = zext i64 %7 to i128
  %9 = load i64, ptr %5, align 8
  %10 = zext i64 %9 to i128
  %11 = mul i128 %8, %10
  %12 = load i64, ptr %6, align 8
  %13 = zext i64 %12 to i128
  %14 = urem i128 %11, %13
  %15 = trunc i128 %14 to i64
  ret i64 %15
}

attributes #0 = { noinline nounwind optnone uwtable "frame-pointer"="all" "min-legal-vector-width"="0" "no-builtin-calloc" "no-trapping-math"="true" "stack-protector-buffer-size"="8" "target-cpu"="x86-64" "target-features"="+cmov,+cx8,+fxsr,-aes,-avx,-avx10.1-256,-avx10.1-512,-avx2,-avx512bf16,-avx512bitalg,-avx512bw,-avx512cd,-avx512dq,-avx512f,-avx512fp16,-avx512ifma,-avx512vbmi,-avx512vbmi2,-avx512vl,-avx512vnni,-avx512vp2intersect,-avx512vpopcntdq,-avxifma,-avxneconvert,-avxvnni,-avxvnniint16,-avxvnniint8,-f16c,-fma,-fma4,-gfni,-kl,-mmx,-pclmul,-sha,-sha512,-sm3,-sm4,-sse,-sse2,-sse3,-sse4.1,-sse4.2,-sse4a,-ssse3,-vaes,-vpclmulqdq,-widekl,-x87,-xop" "tune-cpu"="generic" }
attributes #1 = { "frame-pointer"="all" "no-builtin-calloc" "no-trapping-math"="true" "stack-protector-buffer-size"="8" "target-cpu"="x86-64" "target-features"="+cmov,+cx8,+fxsr,-aes,-avx,-avx10.1-256,-avx10.1-512,-avx2,-avx512bf16,-avx512bitalg,-avx512bw,-avx512cd,-avx512dq,-avx512f,-avx512fp16,-avx512ifma,-avx512vbmi,-avx512vbmi2,-avx512vl,-avx512vnni,-avx512vp2intersect,-avx512vpopcntdq,-avxifma,-avxneconvert,-avxvnni,-avxvnniint16,-avxvnniint8,-f16c,-fma,-fma4,-gfni,-kl,-mmx,-pclmul,-sha,-sha512,-sm3,-sm4,-sse,-sse2,-sse3,-sse4.1,-sse4.2,-sse4a,-ssse3,-vaes,-vpclmulqdq,-widekl,-x87,-xop" "tune-cpu"="generic" }
attributes #2 = { "no-builtin-calloc" }

!llvm.module.flags = !{!0, !1, !2}
!llvm.ident = !{!3}

!0 = !{i32 1, !"wchar_size", i32 4}
!1 = !{i32 7, !"uwtable", i32 2}
!2 = !{i32 7, !"frame-pointer", i32 2}
!3 = !{!"Debian clang version 19.1.7 (3~deb12u1)"}
!4 = distinct !{!4, !5}
!5 = !{!"llvm.loop.mustprogress"}
!6 = distinct !{!6, !5}
!7 = distinct !{!7, !5}
!8 = distinct !{!8, !5}
!9 = distinct !{!9, !5}
!10 = distinct !{!10, !5}
