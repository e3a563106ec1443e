; ModuleID = 'wide.c'
source_filename = "wide.c"
target datalayout = "e-m:e-p270:32:32-p271:32:32-p272:64:64-i64:64-i128:128-f80:128-n8:16:32:64-S128"
target triple = "x86_64-pc-linux-gnu"

@.str = private unnamed_addr constant [10 x i8] c"%d %d %d\0A\00", align 1

; Function Attrs: noinline nounwind optnone uwtable
define dso_local i32 @main() #0 {
  %1 = alloca i32, align 4
  %2 = alloca i128, align 16
  %3 = alloca i128, align 16
  %4 = alloca i128, align 16
  %5 = alloca i32, align 4
  %6 = alloca i128, align 16
  %7 = alloca i32, align 4
  %8 = alloca i128, align 16
  %9 = alloca i128, align 16
  %10 = alloca i128, align 16
  %11 = alloca i128, align 16
  %12 = alloca i128, align 16
  %13 = alloca i128, align 16
  %14 = alloca i128, align 16
  %15 = alloca i128, align 16
  %16 = alloca i128, align 16
  %17 = alloca i128, align 16
  %18 = alloca i128, align 16
  %19 = alloca i128, align 16
  %20 = alloca i128, align 16
  store i32 0, ptr %1, align 4
  store i128 1, ptr %2, align 16
  store i128 0, ptr %3, align 16
  store i128 1, ptr %4, align 16
  store i32 2, ptr %5, align 4
  br label %21

21:                                               ; preds = %29, %0
  %22 = load i32, ptr %5, align 4
  %23 = icmp ule i32 %22, 33
  br i1 %23, label %24, label %32

24:                                               ; preds = %21
  %25 = load i32, ptr %5, align 4
  %26 = zext i32 %25 to i128
  %27 = load i128, ptr %2, align 16
  %28 = mul i128 %27, %26
  store i128 %28, ptr %2, align 16
  br label %29

29:                                               ; preds = %24
  %30 = load i32, ptr %5, align 4
  %31 = add i32 %30, 1
  store i32 %31, ptr %5, align 4
  br label %21, !llvm.loop !4

32:                                               ; preds = %21
  %33 = load i128, ptr %2, align 16
  store i128 %33, ptr %6, align 16
  %34 = getelementptr inbounds { i64, i64 }, ptr %6, i32 0, i32 0
  %35 = load i64, ptr %34, align 16
  %36 = getelementptr inbounds { i64, i64 }, ptr %6, i32 0, i32 1
  %37 = load i64, ptr %36, align 8
  call void @print(i64 noundef %35, i64 noundef %37) #2
  store i32 0, ptr %7, align 4
  br label %38

38:                                               ; preds = %47, %32
  %39 = load i32, ptr %7, align 4
  %40 = icmp slt i32 %39, 180
  br i1 %40, label %41, label %50

41:                                               ; preds = %38
  %42 = load i128, ptr %3, align 16
  %43 = load i128, ptr %4, align 16
  %44 = add i128 %42, %43
  store i128 %44, ptr %8, align 16
  %45 = load i128, ptr %4, align 16
  store i128 %45, ptr %3, align 16
  %46 = load i128, ptr %8, align 16
  store i128 %46, ptr %4, align 16
  br label %47

47:                                               ; preds = %41
  %48 = load i32, ptr %7, align 4
  %49 = add nsw i32 %48, 1
  store i32 %49, ptr %7, align 4
  br label %38, !llvm.loop !6

50:                                               ; preds = %38
  %51 = load i128, ptr %3, align 16
  store i128 %51, ptr %9, align 16
  %52 = getelementptr inbounds { i64, i64 }, ptr %9, i32 0, i32 0
  %53 = load i64, ptr %52, align 16
  %54 = getelementptr inbounds { i64, i64 }, ptr %9, i32 0, i32 1
  %55 = load i64, ptr %54, align 8
  call void @print(i64 noundef %53, i64 noundef %55) #2
  store i128 3, ptr %10, align 16
  %56 = getelementptr inbounds { i64, i64 }, ptr %10, i32 0, i32 0
  %57 = load i64, ptr %56, align 16
  %58 = getelementptr inbounds { i64, i64 }, ptr %10, i32 0, i32 1
  %59 = load i64, ptr %58, align 8
  %60 = call { i64, i64 } @power(i64 noundef %57, i64 noundef %59, i32 noundef 80) #2
  %61 = getelementptr inbounds { i64, i64 }, ptr %11, i32 0, i32 0
  %62 = extractvalue { i64, i64 } %60, 0
  store i64 %62, ptr %61, align 16
  %63 = getelementptr inbounds { i64, i64 }, ptr %11, i32 0, i32 1
  %64 = extractvalue { i64, i64 } %60, 1
  store i64 %64, ptr %63, align 8
  %65 = load i128, ptr %11, align 16
  store i128 %65, ptr %12, align 16
  %66 = getelementptr inbounds { i64, i64 }, ptr %12, i32 0, i32 0
  %67 = load i64, ptr %66, align 16
  %68 = getelementptr inbounds { i64, i64 }, ptr %12, i32 0, i32 1
  %69 = load i64, ptr %68, align 8
  call void @print(i64 noundef %67, i64 noundef %69) #2
  store i128 -1, ptr %13, align 16
  %70 = getelementptr inbounds { i64, i64 }, ptr %13, i32 0, i32 0
  %71 = load i64, ptr %70, align 16
  %72 = getelementptr inbounds { i64, i64 }, ptr %13, i32 0, i32 1
  %73 = load i64, ptr %72, align 8
  call void @print(i64 noundef %71, i64 noundef %73) #2
  store i128 10, ptr %15, align 16
  %74 = getelementptr inbounds { i64, i64 }, ptr %15, i32 0, i32 0
  %75 = load i64, ptr %74, align 16
  %76 = getelementptr inbounds { i64, i64 }, ptr %15, i32 0, i32 1
  %77 = load i64, ptr %76, align 8
  %78 = call { i64, i64 } @power(i64 noundef %75, i64 noundef %77, i32 noundef 30) #2
  %79 = getelementptr inbounds { i64, i64 }, ptr %16, i32 0, i32 0
  %80 = extractvalue { i64, i64 } %78, 0
  store i64 %80, ptr %79, align 16
  %81 = getelementptr inbounds { i64, i64 }, ptr %16, i32 0, i32 1
  %82 = extractvalue { i64, i64 } %78, 1
  store i64 %82, ptr %81, align 8
  %83 = load i128, ptr %16, align 16
  %84 = sub nsw i128 0, %83
  %85 = sdiv i128 %84, 7
  store i128 %85, ptr %14, align 16
  store i128 10, ptr %18, align 16
  %86 = getelementptr inbounds { i64, i64 }, ptr %18, i32 0, i32 0
  %87 = load i64, ptr %86, align 16
  %88 = getelementptr inbounds { i64, i64 }, ptr %18, i32 0, i32 1
  %89 = load i64, ptr %88, align 8
  %90 = call { i64, i64 } @power(i64 noundef %87, i64 noundef %89, i32 noundef 30) #2
  %91 = getelementptr inbounds { i64, i64 }, ptr %19, i32 0, i32 0
  %92 = extractvalue { i64, i64 } %90, 0
  store i64 %92, ptr %91, align 16
  %93 = getelementptr inbounds { i64, i64 }, ptr %19, i32 0, i32 1
  %94 = extractvalue { i64, i64 } %90, 1
  store i64 %94, ptr %93, align 8
  %95 = load i128, ptr %19, align 16
  %96 = sub nsw i128 0, %95
  %97 = srem i128 %96, 7
  store i128 %97, ptr %17, align 16
  %98 = load i128, ptr %14, align 16
  %99 = sub nsw i128 0, %98
  store i128 %99, ptr %20, align 16
  %100 = getelementptr inbounds { i64, i64 }, ptr %20, i32 0, i32 0
  %101 = load i64, ptr %100, align 16
  %102 = getelementptr inbounds { i64, i64 }, ptr %20, i32 0, i32 1
  %103 = load i64, ptr %102, align 8
  call void @print(i64 noundef %101, i64 noundef %103) #2
  %104 = load i128, ptr %17, align 16
  %105 = trunc i128 %104 to i32
  %106 = load i128, ptr %14, align 16
  %107 = ashr i128 %106, 100
  %108 = trunc i128 %107 to i32
  %109 = load i128, ptr %14, align 16
  %110 = load i128, ptr %17, align 16
  %111 = icmp slt i128 %109, %110
  %112 = zext i1 %111 to i32
  %113 = call i32 (ptr, ...) @printf(ptr noundef @.str, i32 noundef %105, i32 noundef %108, i32 noundef %112) #2
  %114 = load i128, ptr %2, align 16
  %115 = lshr i128 %114, 64
  %116 = urem i128 %115, 200
  %117 = trunc i128 %116 to i32
  %118 = load i128, ptr %3, align 16
  %119 = load i128, ptr %4, align 16
  %120 = icmp ugt i128 %118, %119
  %121 = zext i1 %120 to i32
  %122 = add nsw i32 %117, %121
  ret i32 %122
}

; Function Attrs: noinline nounwind optnone uwtable
define internal void @print(i64 noundef %0, i64 noundef %1) #0 {
  %3 = alloca i128, align 16
  %4 = alloca i128, align 16
  %5 = alloca [40 x i8], align 16
  %6 = alloca i32, align 4
  %7 = getelementptr inbounds { i64, i64 }, ptr %3, i32 0, i32 0
  store i64 %0, ptr %7, align 16
  %8 = getelementptr inbounds { i64, i64 }, ptr %3, i32 0, i32 1
  store i64 %1, ptr %8, align 8
  %9 = load i128, ptr %3, align 16
  store i128 %9, ptr %4, align 16
  store i32 40, ptr %6, align 4
  br label %10

10:                                               ; preds = %20, %2
  %11 = load i128, ptr %4, align 16
  %12 = urem i128 %11, 10
  %13 = trunc i128 %12 to i32
  %14 = add nsw i32 48, %13
  %15 = trunc i32 %14 to i8
  %16 = load i32, ptr %6, align 4
  %17 = add nsw i32 %16, -1
  store i32 %17, ptr %6, align 4
  %18 = sext i32 %17 to i64
  %19 = getelementptr inbounds [40 x i8], ptr %5, i64 0, i64 %18
  store i8 %15, ptr %19, align 1
  br label %20

20:                                               ; preds = %10
  %21 = load i128, ptr %4, align 16
  %22 = udiv i128 %21, 10
  store i128 %22, ptr %4, align 16
  %23 = icmp ne i128 %22, 0
  br i1 %23, label %10, label %24, !llvm.loop !7

24:                                               ; preds = %20
  br label %25

25:                                               ; preds = %35, %24
  %26 = load i32, ptr %6, align 4
  %27 = icmp slt i32 %26, 40
  br i1 %27, label %28, label %38

28:                                               ; preds = %25
  %29 = load i32, ptr %6, align 4
  %30 = sext i32 %29 to i64
  %31 = getelementptr inbounds [40 x i8], ptr %5, i64 0, i64 %30
  %32 = load i8, ptr %31, align 1
  %33 = sext i8 %32 to i32
  %34 = call i32 @putchar(i32 noundef %33) #2
  br label %35

35:                                               ; preds = %28
  %36 = load i32, ptr %6, align 4
  %37 = add nsw i32 %36, 1
  store i32 %37, ptr %6, align 4
  br label %25, !llvm.loop !8

38:                                               ; preds = %25
  %39 = call i32 @putchar(i32 noundef 10) #2
  ret void
}

; Function Attrs: noinline nounwind optnone uwtable
define internal { i64, i64 } @power(i64 noundef %0, i64 noundef %1, i32 noundef %2) #0 {
  %4 = alloca i128, align 16
  %5 = alloca i128, align 16
  %6 = alloca i128, align 16
  %7 = alloca i32, align 4
  %8 = alloca i128, align 16
  %9 = getelementptr inbounds { i64, i64 }, ptr %5, i32 0, i32 0
  store i64 %0, ptr %9, align 16
  %10 = getelementptr inbounds { i64, i64 }, ptr %5, i32 0, i32 1
  store i64 %1, ptr %10, align 8
  %11 = load i128, ptr %5, align 16
  store i128 %11, ptr %6, align 16
  store i32 %2, ptr %7, align 4
  store i128 1, ptr %8, align 16
  br label %12

12:                                               ; preds = %24, %3
  %13 = load i32, ptr %7, align 4
  %14 = icmp ne i32 %13, 0
  br i1 %14, label %15, label %30

15:                                               ; preds = %12
  %16 = load i32, ptr %7, align 4
  %17 = and i32 %16, 1
  %18 = icmp ne i32 %17, 0
  br i1 %18, label %19, label %23

19:                                               ; preds = %15
  %20 = load i128, ptr %6, align 16
  %21 = load i128, ptr %8, align 16
  %22 = mul i128 %21, %20
  store i128 %22, ptr %8, align 16
  br label %23

23:                                               ; preds = %19, %15
  br label %24

24:                                               ; preds = %23
  %25 = load i32, ptr %7, align 4
  %26 = lshr i32 %25, 1
  store i32 %26, ptr %7, align 4
  %27 = load i128, ptr %6, align 16
  %28 = load i128, ptr %6, align 16
  %29 = mul i128 %28, %27
  store i128 %29, ptr %6, align 16
  br label %12, !llvm.loop !9

30:                                               ; preds = %12
  %31 = load i128, ptr %8, align 16
  store i128 %31, ptr %4, align 16
  %32 = load { i64, i64 }, ptr %4, align 16
  ret { i64, i64 } %32
}

declare dso_local i32 @printf(ptr noundef, ...) #1

declare dso_local i32 @putchar(i32 noundef) #1

attributes #0 = { noinline nounwind optnone uwtable "frame-pointer"="all" "min-legal-vector-width"="0" "no-builtin-calloc" "no-trapping-math"="true" "stack-protector-buffer-size"="8" "target-cpu"="x86-64" "target-features"="+cmov,+cx8,+fxsr,-aes,-avx,-avx10.1-256,-avx10.1-512,-avx2,-avx512bf16,-avx512bitalg,-avx512bw,-avx512cd,-avx512dq,-avx512f,-avx512fp16,-avx512ifma,-avx512vbmi,-avx512vbmi2,-avx512vl,-avx512vnni,-avx512vp2intersect,-avx512vpopcntdq,-avxifma,-avxneconvert,-avxvnni,-avxvnniint16,-avxvnniint8,-f16c,-fma,-fma4,-gfni,-kl,-mmx,-pclmul,-sha,-sha512,-sm3,-sm4,-sse,-sse2,-sse3,-sse4.1,-sse4.2,-sse4a,-ssse3,-vaes,-vpclmulqdq,-widekl,-x87,-xop" "tune-cpu"="generic" }
attributes #1 = { "frame-pointer"="all" "no-builtin-calloc" "no-trapping-math"="true" "stack-protector-buffer-size"="8" "target-cpu"="x86-64" "target-features"="+cmov,+cx8,+fxsr,-aes,-avx,-avx10.1-256,-avx10.1-512,-avx2,-avx512bf16,-avx512bitalg,-avx512bw,-avx512cd,-avx512dq,-avx512f,-avx512fp16,-avx512ifma,-avx512vbmi,-avx512vbmi2,-avx512vl,-avx512vnni,-avx512vp2intersect,-avx512vpopcntdq,-avxifma,-avxneconvert,-avxvnni,-avxvnniint16,-avxvnniint8,-f16c,-fma,-fma4,-gfni,-kl,-mmx,-pclmul,-sha,-sha512,-sm3,-sm4,-sse,-sse2,-sse3,-sse4.1,-sse4.2,-sse4a,-ssse3,-vaes,-vpclmulqdq,-widekl,-x87,-xop" "tune-cpu"="generic" }
attributes #2 = { "no-builtin-calloc" }

!llvm.module.flags = !{!0, !1, !2}
!llvm.ident = !{!3}

!0 = !{i32 1, !"wchar_size", i32 4}
!1 = !{i32 7, !"uwtable", i32 2}
!2 = !{i32 7, !"frame-pointer", i32 2}
!3 = !{!"Debian clang version 19.1.7 (3~deb12u1)"}
!4 = distinct !{!4, !5}
!5 = !{!"llvm.loop.mustprogress"}
!6 = distinct !{!6, !5}
!7 = distinct !{!7, !5}
!8 = distinct !{!8, !5}
!9 = distinct !{!9, !5}
