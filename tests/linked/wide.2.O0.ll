; ModuleID = 'wide.2.c'
source_filename = "wide.2.c"
target datalayout = "e-m:e-p270:32:32-p271:32:32-p272:64:64-i64:64-i128:128-f80:128-n8:16:32:64-S128"
target triple = "x86_64-pc-linux-gnu"

@limit = dso_local constant i128 1267650600228229401496703205376, align 16

; Function Attrs: noinline nounwind optnone uwtable
define dso_local { i64, i64 } @power(i64 noundef %0, i64 noundef %1, i32 noundef %2) #0 {
  %4 = alloca i128, align 16
  %5 = alloca i128, align 16
  %6 = alloca i128, align 16
  %7 = alloca i32, align 4
  %8 = alloca i128, align 16
  %9 = alloca i128, align 16
  %10 = alloca i128, align 16
  %11 = alloca i128, align 16
  %12 = getelementptr inbounds { i64, i64 }, ptr %5, i32 0, i32 0
  store i64 %0, ptr %12, align 16
  %13 = getelementptr inbounds { i64, i64 }, ptr %5, i32 0, i32 1
  store i64 %1, ptr %13, align 8
  %14 = load i128, ptr %5, align 16
  store i128 %14, ptr %6, align 16
  store i32 %2, ptr %7, align 4
  %15 = load i32, ptr %7, align 4
  %16 = icmp eq i32 %15, 0
  br i1 %16, label %17, label %18

17:                                               ; preds = %3
  br label %56

18:                                               ; preds = %3
  %19 = load i32, ptr %7, align 4
  %20 = urem i32 %19, 2
  %21 = icmp ne i32 %20, 0
  br i1 %21, label %22, label %38

22:                                               ; preds = %18
  %23 = load i128, ptr %6, align 16
  %24 = load i128, ptr %6, align 16
  %25 = load i32, ptr %7, align 4
  %26 = sub i32 %25, 1
  store i128 %24, ptr %8, align 16
  %27 = getelementptr inbounds { i64, i64 }, ptr %8, i32 0, i32 0
  %28 = load i64, ptr %27, align 16
  %29 = getelementptr inbounds { i64, i64 }, ptr %8, i32 0, i32 1
  %30 = load i64, ptr %29, align 8
  %31 = call { i64, i64 } @power(i64 noundef %28, i64 noundef %30, i32 noundef %26) #1
  %32 = getelementptr inbounds { i64, i64 }, ptr %9, i32 0, i32 0
  %33 = extractvalue { i64, i64 } %31, 0
  store i64 %33, ptr %32, align 16
  %34 = getelementptr inbounds { i64, i64 }, ptr %9, i32 0, i32 1
  %35 = extractvalue { i64, i64 } %31, 1
  store i64 %35, ptr %34, align 8
  %36 = load i128, ptr %9, align 16
  %37 = mul i128 %23, %36
  br label %54

38:                                               ; preds = %18
  %39 = load i128, ptr %6, align 16
  %40 = load i128, ptr %6, align 16
  %41 = mul i128 %39, %40
  %42 = load i32, ptr %7, align 4
  %43 = udiv i32 %42, 2
  store i128 %41, ptr %10, align 16
  %44 = getelementptr inbounds { i64, i64 }, ptr %10, i32 0, i32 0
  %45 = load i64, ptr %44, align 16
  %46 = getelementptr inbounds { i64, i64 }, ptr %10, i32 0, i32 1
  %47 = load i64, ptr %46, align 8
  %48 = call { i64, i64 } @power(i64 noundef %45, i64 noundef %47, i32 noundef %43) #1
  %49 = getelementptr inbounds { i64, i64 }, ptr %11, i32 0, i32 0
  %50 = extractvalue { i64, i64 } %48, 0
  store i64 %50, ptr %49, align 16
  %51 = getelementptr inbounds { i64, i64 }, ptr %11, i32 0, i32 1
  %52 = extractvalue { i64, i64 } %48, 1
  store i64 %52, ptr %51, align 8
  %53 = load i128, ptr %11, align 16
  br label %54

54:                                               ; preds = %38, %22
  %55 = phi i128 [ %37, %22 ], [ %53, %38 ]
  br label %56

56:                                               ; preds = %54, %17
  %57 = phi i128 [ 1, %17 ], [ %55, %54 ]
  store i128 %57, ptr %4, align 16
  %58 = load { i64, i64 }, ptr %4, align 16
  ret { i64, i64 } %58
}

; Function Attrs: noinline nounwind optnone uwtable
define dso_local i32 @digits(i64 noundef %0, i64 noundef %1) #0 {
  %3 = alloca i128, align 16
  %4 = alloca i128, align 16
  %5 = alloca i128, align 16
  %6 = getelementptr inbounds { i64, i64 }, ptr %3, i32 0, i32 0
  store i64 %0, ptr %6, align 16
  %7 = getelementptr inbounds { i64, i64 }, ptr %3, i32 0, i32 1
  store i64 %1, ptr %7, align 8
  %8 = load i128, ptr %3, align 16
  store i128 %8, ptr %4, align 16
  %9 = load i128, ptr %4, align 16
  %10 = icmp ult i128 %9, 10
  br i1 %10, label %11, label %12

11:                                               ; preds = %2
  br label %21

12:                                               ; preds = %2
  %13 = load i128, ptr %4, align 16
  %14 = udiv i128 %13, 10
  store i128 %14, ptr %5, align 16
  %15 = getelementptr inbounds { i64, i64 }, ptr %5, i32 0, i32 0
  %16 = load i64, ptr %15, align 16
  %17 = getelementptr inbounds { i64, i64 }, ptr %5, i32 0, i32 1
  %18 = load i64, ptr %17, align 8
  %19 = call i32 @digits(i64 noundef %16, i64 noundef %18) #1
  %20 = add i32 1, %19
  br label %21

21:                                               ; preds = %12, %11
  %22 = phi i32 [ 1, %11 ], [ %20, %12 ]
  ret i32 %22
}

attributes #0 = { noinline nounwind optnone uwtable "frame-pointer"="all" "min-legal-vector-width"="0" "no-builtin-calloc" "no-trapping-math"="true" "stack-protector-buffer-size"="8" "target-cpu"="x86-64" "target-features"="+cmov,+cx8,+fxsr,-aes,-avx,-avx10.1-256,-avx10.1-512,-avx2,-avx512bf16,-avx512bitalg,-avx512bw,-avx512cd,-avx512dq,-avx512f,-avx512fp16,-avx512ifma,-avx512vbmi,-avx512vbmi2,-avx512vl,-avx512vnni,-avx512vp2intersect,-avx512vpopcntdq,-avxifma,-avxneconvert,-avxvnni,-avxvnniint16,-avxvnniint8,-f16c,-fma,-fma4,-gfni,-kl,-mmx,-pclmul,-sha,-sha512,-sm3,-sm4,-sse,-sse2,-sse3,-sse4.1,-sse4.2,-sse4a,-ssse3,-vaes,-vpclmulqdq,-widekl,-x87,-xop" "tune-cpu"="generic" }
attributes #1 = { "no-builtin-calloc" }

!llvm.module.flags = !{!0, !1, !2}
!llvm.ident = !{!3}

!0 = !{i32 1, !"wchar_size", i32 4}
!1 = !{i32 7, !"uwtable", i32 2}
!2 = !{i32 7, !"frame-pointer", i32 2}
!3 = !{!"Debian clang version 19.1.7 (3~deb12u1)"}
