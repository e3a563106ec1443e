; ModuleID = 'format.c'
source_filename = "format.c"
target datalayout = "e-m:e-p270:32:32-p271:32:32-p272:64:64-i64:64-i128:128-f80:128-n8:16:32:64-S128"
target triple = "x86_64-pc-linux-gnu"

@.str = private unnamed_addr constant [30 x i8] c"%d|%i|%5d|%-5d|%05d|%+d|% d|\0A\00", align 1
@.str.1 = private unnamed_addr constant [31 x i8] c"%u|%x|%X|%o|%10x|%-10X|%010o|\0A\00", align 1
@.str.2 = private unnamed_addr constant [29 x i8] c"%hhd|%hd|%hhu|%hu|%hhx|%ho|\0A\00", align 1
@.str.3 = private unnamed_addr constant [32 x i8] c"%ld|%lld|%lu|%llx|%jd|%zu|%td|\0A\00", align 1
@.str.4 = private unnamed_addr constant [44 x i8] c"%.3d|%.0d|%8.5d|%-8.5d|%+.2d|%.10x|%08.3d|\0A\00", align 1
@.str.5 = private unnamed_addr constant [18 x i8] c"%c%c%c|%3c|%-3c|\0A\00", align 1
@.str.6 = private unnamed_addr constant [30 x i8] c"%s|%10s|%-10s|%.2s|%8.3s|%s|\0A\00", align 1
@.str.7 = private unnamed_addr constant [5 x i8] c"text\00", align 1
@.str.8 = private unnamed_addr constant [6 x i8] c"right\00", align 1
@.str.9 = private unnamed_addr constant [5 x i8] c"left\00", align 1
@.str.10 = private unnamed_addr constant [8 x i8] c"cut off\00", align 1
@.str.11 = private unnamed_addr constant [7 x i8] c"abcdef\00", align 1
@.str.12 = private unnamed_addr constant [1 x i8] zeroinitializer, align 1
@.str.13 = private unnamed_addr constant [28 x i8] c"100%% of %d%%, and nothing\0A\00", align 1
@.str.14 = private unnamed_addr constant [13 x i8] c"%d %d %d %u\0A\00", align 1
@.str.15 = private unnamed_addr constant [9 x i8] c"%ld %ld\0A\00", align 1
@.str.16 = private unnamed_addr constant [15 x i8] c"no conversion\0A\00", align 1
@.str.17 = private unnamed_addr constant [3 x i8] c"%s\00", align 1
@.str.18 = private unnamed_addr constant [10 x i8] c"%5s%-5s|\0A\00", align 1
@.str.19 = private unnamed_addr constant [2 x i8] c"x\00", align 1
@.str.20 = private unnamed_addr constant [2 x i8] c"y\00", align 1
@.str.21 = private unnamed_addr constant [4 x i8] c"%d\0A\00", align 1

; Function Attrs: noinline nounwind optnone uwtable
define dso_local i32 @main() #0 {
  %1 = alloca i32, align 4
  %2 = alloca i8, align 1
  %3 = alloca i16, align 2
  %4 = alloca i32, align 4
  %5 = alloca i64, align 8
  %6 = alloca i32, align 4
  store i32 0, ptr %1, align 4
  store i8 -77, ptr %2, align 1
  store i16 -12345, ptr %3, align 2
  store i32 -1234567, ptr %4, align 4
  store i64 -1234567890123456789, ptr %5, align 8
  store i32 0, ptr %6, align 4
  %7 = call i32 (ptr, ...) @printf(ptr noundef @.str, i32 noundef 42, i32 noundef -42, i32 noundef 42, i32 noundef 42, i32 noundef 42, i32 noundef 42, i32 noundef 42) #2
  %8 = load i32, ptr %6, align 4
  %9 = add nsw i32 %8, %7
  store i32 %9, ptr %6, align 4
  %10 = call i32 (ptr, ...) @printf(ptr noundef @.str.1, i32 noundef -1294967296, i32 noundef 48879, i32 noundef 48879, i32 noundef 511, i32 noundef 48879, i32 noundef 48879, i32 noundef 511) #2
  %11 = load i32, ptr %6, align 4
  %12 = add nsw i32 %11, %10
  store i32 %12, ptr %6, align 4
  %13 = load i8, ptr %2, align 1
  %14 = sext i8 %13 to i32
  %15 = load i16, ptr %3, align 2
  %16 = sext i16 %15 to i32
  %17 = load i8, ptr %2, align 1
  %18 = sext i8 %17 to i32
  %19 = load i16, ptr %3, align 2
  %20 = sext i16 %19 to i32
  %21 = load i8, ptr %2, align 1
  %22 = sext i8 %21 to i32
  %23 = load i16, ptr %3, align 2
  %24 = sext i16 %23 to i32
  %25 = call i32 (ptr, ...) @printf(ptr noundef @.str.2, i32 noundef %14, i32 noundef %16, i32 noundef %18, i32 noundef %20, i32 noundef %22, i32 noundef %24) #2
  %26 = load i32, ptr %6, align 4
  %27 = add nsw i32 %26, %25
  store i32 %27, ptr %6, align 4
  %28 = load i64, ptr %5, align 8
  %29 = load i64, ptr %5, align 8
  %30 = call i32 (ptr, ...) @printf(ptr noundef @.str.3, i64 noundef %28, i64 noundef -9, i64 noundef -1, i64 noundef -81985529216486896, i64 noundef %29, i64 noundef 99, i64 noundef -5) #2
  %31 = load i32, ptr %6, align 4
  %32 = add nsw i32 %31, %30
  store i32 %32, ptr %6, align 4
  %33 = call i32 (ptr, ...) @printf(ptr noundef @.str.4, i32 noundef 7, i32 noundef 0, i32 noundef -42, i32 noundef -42, i32 noundef 3, i32 noundef 255, i32 noundef 12) #2
  %34 = load i32, ptr %6, align 4
  %35 = add nsw i32 %34, %33
  store i32 %35, ptr %6, align 4
  %36 = call i32 (ptr, ...) @printf(ptr noundef @.str.5, i32 noundef 97, i32 noundef 98, i32 noundef 355, i32 noundef 100, i32 noundef 101) #2
  %37 = load i32, ptr %6, align 4
  %38 = add nsw i32 %37, %36
  store i32 %38, ptr %6, align 4
  %39 = call i32 (ptr, ...) @printf(ptr noundef @.str.6, ptr noundef @.str.7, ptr noundef @.str.8, ptr noundef @.str.9, ptr noundef @.str.10, ptr noundef @.str.11, ptr noundef @.str.12) #2
  %40 = load i32, ptr %6, align 4
  %41 = add nsw i32 %40, %39
  store i32 %41, ptr %6, align 4
  %42 = load i32, ptr %4, align 4
  %43 = call i32 (ptr, ...) @printf(ptr noundef @.str.13, i32 noundef %42) #2
  %44 = load i32, ptr %6, align 4
  %45 = add nsw i32 %44, %43
  store i32 %45, ptr %6, align 4
  %46 = call i32 (ptr, ...) @printf(ptr noundef @.str.14, i32 noundef 2147483647, i32 noundef -2147483648, i32 noundef 0, i32 noundef -1) #2
  %47 = load i32, ptr %6, align 4
  %48 = add nsw i32 %47, %46
  store i32 %48, ptr %6, align 4
  %49 = call i32 (ptr, ...) @printf(ptr noundef @.str.15, i64 noundef 9223372036854775807, i64 noundef -9223372036854775808) #2
  %50 = load i32, ptr %6, align 4
  %51 = add nsw i32 %50, %49
  store i32 %51, ptr %6, align 4
  %52 = call i32 (ptr, ...) @printf(ptr noundef @.str.16) #2
  %53 = load i32, ptr %6, align 4
  %54 = add nsw i32 %53, %52
  store i32 %54, ptr %6, align 4
  %55 = call i32 (ptr, ...) @printf(ptr noundef @.str.17, ptr noundef @.str.12) #2
  %56 = load i32, ptr %6, align 4
  %57 = add nsw i32 %56, %55
  store i32 %57, ptr %6, align 4
  %58 = call i32 (ptr, ...) @printf(ptr noundef @.str.18, ptr noundef @.str.19, ptr noundef @.str.20) #2
  %59 = load i32, ptr %6, align 4
  %60 = add nsw i32 %59, %58
  store i32 %60, ptr %6, align 4
  %61 = load i32, ptr %6, align 4
  %62 = call i32 (ptr, ...) @printf(ptr noundef @.str.21, i32 noundef %61) #2
  %63 = load i32, ptr %6, align 4
  %64 = and i32 %63, 127
  ret i32 %64
}

declare dso_local i32 @printf(ptr noundef, ...) #1

attributes #0 = { noinline nounwind optnone uwtable "frame-pointer"="all" "min-legal-vector-width"="0" "no-builtin-calloc" "no-trapping-math"="true" "stack-protector-buffer-size"="8" "target-cpu"="x86-64" "target-features"="+cmov,+cx8,+fxsr,-aes,-avx,-avx10.1-256,-avx10.1-512,-avx2,-avx512bf16,-avx512bitalg,-avx512bw,-avx512cd,-avx512dq,-avx512f,-avx512fp16,-avx512ifma,-avx512vbmi,-avx512vbmi2,-avx512vl,-avx512vnni,-avx512vp2intersect,-avx512vpopcntdq,-avxifma,-avxneconvert,-avxvnni,-avxvnniint16,-avxvnniint8,-f16c,-fma,-fma4,-gfni,-kl,-mmx,-pclmul,-sha,-sha512,-sm3,-sm4,-sse,-sse2,-sse3,-sse4.1,-sse4.2,-sse4a,-ssse3,-vaes,-vpclmulqdq,-widekl,-x87,-xop" "tune-cpu"="generic" }
attributes #1 = { "frame-pointer"="all" "no-builtin-calloc" "no-trapping-math"="true" "stack-protector-buffer-size"="8" "target-cpu"="x86-64" "target-features"="+cmov,+cx8,+fxsr,-aes,-avx,-avx10.1-256,-avx10.1-512,-avx2,-avx512bf16,-avx512bitalg,-avx512bw,-avx512cd,-avx512dq,-avx512f,-avx512fp16,-avx512ifma,-avx512vbmi,-avx512vbmi2,-avx512vl,-avx512vnni,-avx512vp2intersect,-avx512vpopcntdq,-avxifma,-avxneconvert,-avxvnni,-avxvnniint16,-avxvnniint8,-f16c,-fma,-fma4,-gfni,-kl,-mmx,-pclmul,-sha,-sha512,-sm3,-sm4,-sse,-sse2,-sse3,-sse4.1,-sse4.2,-sse4a,-ssse3,-vaes,-vpclmulqdq,-widekl,-x87,-xop" "tune-cpu"="generic" }
attributes #2 = { "no-builtin-calloc" }

!llvm.module.flags = !{!0, !1, !2}
!llvm.ident = !{!3}

!0 = !{i32 1, !"wchar_size", i32 4}
!1 = !{i32 7, !"uwtable", i32 2}
!2 = !{i32 7, !"frame-pointer", i32 2}
!3 = !{!"Debian clang version 19.1.7 (3~deb12u1)"}
