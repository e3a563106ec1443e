; ModuleID = 'bounds.c'
source_filename = "bounds.c"
target datalayout = "e-m:e-p270:32:32-p271:32:32-p272:64:64-i64:64-i128:128-f80:128-n8:16:32:64-S128"
target triple = "x86_64-pc-linux-gnu"

@.str = private unnamed_addr constant [8 x i8] c"%d %ld\0A\00", align 1
@.str.1 = private unnamed_addr constant [7 x i8] c"%d %d\0A\00", align 1
@.str.2 = private unnamed_addr constant [8 x i8] c"%d %lu\0A\00", align 1
@.str.3 = private unnamed_addr constant [13 x i8] c"%d %d %u %u\0A\00", align 1

; Function Attrs: noinline nounwind optnone uwtable
define dso_local i32 @main() #0 {
  %1 = alloca i32, align 4
  %2 = alloca i32, align 4
  %3 = alloca i64, align 8
  %4 = alloca i64, align 8
  %5 = alloca i8, align 1
  %6 = alloca i64, align 8
  %7 = alloca i64, align 8
  %8 = alloca i32, align 4
  %9 = alloca i32, align 4
  %10 = alloca i32, align 4
  %11 = alloca i32, align 4
  %12 = alloca i8, align 1
  %13 = alloca i32, align 4
  %14 = alloca i16, align 2
  %15 = alloca i32, align 4
  store i32 0, ptr %1, align 4
  store i32 0, ptr %2, align 4
  store i64 1, ptr %4, align 8
  store i64 3, ptr %7, align 8
  br label %16

16:                                               ; preds = %25, %0
  %17 = load i64, ptr %4, align 8
  %18 = load i64, ptr %7, align 8
  %19 = call { i64, i1 } @llvm.smul.with.overflow.i64(i64 %17, i64 %18)
  %20 = extractvalue { i64, i1 } %19, 1
  %21 = extractvalue { i64, i1 } %19, 0
  store i64 %21, ptr %3, align 8
  %22 = xor i1 %20, true
  br i1 %22, label %23, label %30

23:                                               ; preds = %16
  %24 = load i64, ptr %3, align 8
  store i64 %24, ptr %4, align 8
  br label %25

25:                                               ; preds = %23
  %26 = load i64, ptr %7, align 8
  %27 = add nsw i64 %26, 2
  store i64 %27, ptr %7, align 8
  %28 = load i32, ptr %2, align 4
  %29 = add nsw i32 %28, 1
  store i32 %29, ptr %2, align 4
  br label %16, !llvm.loop !4

30:                                               ; preds = %16
  %31 = load i32, ptr %2, align 4
  %32 = load i64, ptr %4, align 8
  %33 = call i32 (ptr, ...) @printf(ptr noundef @.str, i32 noundef %31, i64 noundef %32) #3
  store i32 -128, ptr %8, align 4
  br label %34

34:                                               ; preds = %57, %30
  %35 = load i32, ptr %8, align 4
  %36 = icmp slt i32 %35, 128
  br i1 %36, label %37, label %60

37:                                               ; preds = %34
  store i32 -128, ptr %9, align 4
  br label %38

38:                                               ; preds = %53, %37
  %39 = load i32, ptr %9, align 4
  %40 = icmp slt i32 %39, 128
  br i1 %40, label %41, label %56

41:                                               ; preds = %38
  %42 = load i32, ptr %8, align 4
  %43 = trunc i32 %42 to i8
  %44 = load i32, ptr %9, align 4
  %45 = trunc i32 %44 to i8
  %46 = call { i8, i1 } @llvm.ssub.with.overflow.i8(i8 %43, i8 %45)
  %47 = extractvalue { i8, i1 } %46, 1
  %48 = extractvalue { i8, i1 } %46, 0
  store i8 %48, ptr %5, align 1
  %49 = xor i1 %47, true
  %50 = zext i1 %49 to i32
  %51 = load i32, ptr %2, align 4
  %52 = add nsw i32 %51, %50
  store i32 %52, ptr %2, align 4
  br label %53

53:                                               ; preds = %41
  %54 = load i32, ptr %9, align 4
  %55 = add nsw i32 %54, 15
  store i32 %55, ptr %9, align 4
  br label %38, !llvm.loop !6

56:                                               ; preds = %38
  br label %57

57:                                               ; preds = %56
  %58 = load i32, ptr %8, align 4
  %59 = add nsw i32 %58, 17
  store i32 %59, ptr %8, align 4
  br label %34, !llvm.loop !7

60:                                               ; preds = %34
  %61 = load i32, ptr %2, align 4
  %62 = load i8, ptr %5, align 1
  %63 = sext i8 %62 to i32
  %64 = call i32 (ptr, ...) @printf(ptr noundef @.str.1, i32 noundef %61, i32 noundef %63) #3
  %65 = call { i64, i1 } @llvm.usub.with.overflow.i64(i64 5, i64 7)
  %66 = extractvalue { i64, i1 } %65, 1
  %67 = extractvalue { i64, i1 } %65, 0
  store i64 %67, ptr %6, align 8
  %68 = zext i1 %66 to i32
  %69 = load i64, ptr %6, align 8
  %70 = call i32 (ptr, ...) @printf(ptr noundef @.str.2, i32 noundef %68, i64 noundef %69) #3
  store i32 2000000000, ptr %10, align 4
  store i32 0, ptr %11, align 4
  br label %71

71:                                               ; preds = %77, %60
  %72 = load i32, ptr %11, align 4
  %73 = icmp slt i32 %72, 5
  br i1 %73, label %74, label %80

74:                                               ; preds = %71
  %75 = load i32, ptr %10, align 4
  %76 = call i32 @within(i32 noundef %75, i32 noundef 100000000) #3
  store i32 %76, ptr %10, align 4
  br label %77

77:                                               ; preds = %74
  %78 = load i32, ptr %11, align 4
  %79 = add nsw i32 %78, 1
  store i32 %79, ptr %11, align 4
  br label %71, !llvm.loop !8

80:                                               ; preds = %71
  store i8 3, ptr %12, align 1
  store i32 0, ptr %13, align 4
  br label %81

81:                                               ; preds = %88, %80
  %82 = load i32, ptr %13, align 4
  %83 = icmp slt i32 %82, 9
  br i1 %83, label %84, label %91

84:                                               ; preds = %81
  %85 = load i8, ptr %12, align 1
  %86 = load i8, ptr %12, align 1
  %87 = call zeroext i8 @lit(i8 noundef zeroext %85, i8 noundef zeroext %86) #3
  store i8 %87, ptr %12, align 1
  br label %88

88:                                               ; preds = %84
  %89 = load i32, ptr %13, align 4
  %90 = add nsw i32 %89, 1
  store i32 %90, ptr %13, align 4
  br label %81, !llvm.loop !9

91:                                               ; preds = %81
  store i16 1000, ptr %14, align 2
  store i32 0, ptr %15, align 4
  br label %92

92:                                               ; preds = %101, %91
  %93 = load i32, ptr %15, align 4
  %94 = icmp slt i32 %93, 9
  br i1 %94, label %95, label %104

95:                                               ; preds = %92
  %96 = load i16, ptr %14, align 2
  %97 = load i32, ptr %15, align 4
  %98 = mul nsw i32 %97, 40
  %99 = trunc i32 %98 to i16
  %100 = call zeroext i16 @dimmed(i16 noundef zeroext %96, i16 noundef zeroext %99) #3
  store i16 %100, ptr %14, align 2
  br label %101

101:                                              ; preds = %95
  %102 = load i32, ptr %15, align 4
  %103 = add nsw i32 %102, 1
  store i32 %103, ptr %15, align 4
  br label %92, !llvm.loop !10

104:                                              ; preds = %92
  %105 = load i32, ptr %10, align 4
  %106 = call i32 @within(i32 noundef -2000000000, i32 noundef -2000000000) #3
  %107 = load i8, ptr %12, align 1
  %108 = zext i8 %107 to i32
  %109 = load i16, ptr %14, align 2
  %110 = zext i16 %109 to i32
  %111 = call i32 (ptr, ...) @printf(ptr noundef @.str.3, i32 noundef %105, i32 noundef %106, i32 noundef %108, i32 noundef %110) #3
  %112 = load i32, ptr %2, align 4
  %113 = and i32 %112, 255
  ret i32 %113
}

; Function Attrs: nocallback nofree nosync nounwind speculatable willreturn memory(none)
declare { i64, i1 } @llvm.smul.with.overflow.i64(i64, i64) #1

declare dso_local i32 @printf(ptr noundef, ...) #2

; Function Attrs: nocallback nofree nosync nounwind speculatable willreturn memory(none)
declare { i8, i1 } @llvm.ssub.with.overflow.i8(i8, i8) #1

; Function Attrs: nocallback nofree nosync nounwind speculatable willreturn memory(none)
declare { i64, i1 } @llvm.usub.with.overflow.i64(i64, i64) #1

; Function Attrs: noinline nounwind optnone uwtable
define internal i32 @within(i32 noundef %0, i32 noundef %1) #0 {
  %3 = alloca i32, align 4
  %4 = alloca i32, align 4
  %5 = alloca i32, align 4
  %6 = alloca i32, align 4
  store i32 %0, ptr %4, align 4
  store i32 %1, ptr %5, align 4
  %7 = load i32, ptr %4, align 4
  %8 = load i32, ptr %5, align 4
  %9 = call { i32, i1 } @llvm.sadd.with.overflow.i32(i32 %7, i32 %8)
  %10 = extractvalue { i32, i1 } %9, 1
  %11 = extractvalue { i32, i1 } %9, 0
  store i32 %11, ptr %6, align 4
  br i1 %10, label %12, label %17

12:                                               ; preds = %2
  %13 = load i32, ptr %4, align 4
  %14 = icmp slt i32 %13, 0
  %15 = zext i1 %14 to i64
  %16 = select i1 %14, i32 -2147483648, i32 2147483647
  store i32 %16, ptr %3, align 4
  br label %19

17:                                               ; preds = %2
  %18 = load i32, ptr %6, align 4
  store i32 %18, ptr %3, align 4
  br label %19

19:                                               ; preds = %17, %12
  %20 = load i32, ptr %3, align 4
  ret i32 %20
}

; Function Attrs: noinline nounwind optnone uwtable
define internal zeroext i8 @lit(i8 noundef zeroext %0, i8 noundef zeroext %1) #0 {
  %3 = alloca i8, align 1
  %4 = alloca i8, align 1
  %5 = alloca i8, align 1
  store i8 %0, ptr %3, align 1
  store i8 %1, ptr %4, align 1
  %6 = load i8, ptr %3, align 1
  %7 = load i8, ptr %4, align 1
  %8 = call { i8, i1 } @llvm.uadd.with.overflow.i8(i8 %6, i8 %7)
  %9 = extractvalue { i8, i1 } %8, 1
  %10 = extractvalue { i8, i1 } %8, 0
  store i8 %10, ptr %5, align 1
  br i1 %9, label %11, label %12

11:                                               ; preds = %2
  br label %15

12:                                               ; preds = %2
  %13 = load i8, ptr %5, align 1
  %14 = zext i8 %13 to i32
  br label %15

15:                                               ; preds = %12, %11
  %16 = phi i32 [ 255, %11 ], [ %14, %12 ]
  %17 = trunc i32 %16 to i8
  ret i8 %17
}

; Function Attrs: noinline nounwind optnone uwtable
define internal zeroext i16 @dimmed(i16 noundef zeroext %0, i16 noundef zeroext %1) #0 {
  %3 = alloca i16, align 2
  %4 = alloca i16, align 2
  store i16 %0, ptr %3, align 2
  store i16 %1, ptr %4, align 2
  %5 = load i16, ptr %3, align 2
  %6 = zext i16 %5 to i32
  %7 = load i16, ptr %4, align 2
  %8 = zext i16 %7 to i32
  %9 = icmp sgt i32 %6, %8
  br i1 %9, label %10, label %18

10:                                               ; preds = %2
  %11 = load i16, ptr %3, align 2
  %12 = zext i16 %11 to i32
  %13 = load i16, ptr %4, align 2
  %14 = zext i16 %13 to i32
  %15 = sub nsw i32 %12, %14
  %16 = trunc i32 %15 to i16
  %17 = zext i16 %16 to i32
  br label %19

18:                                               ; preds = %2
  br label %19

19:                                               ; preds = %18, %10
  %20 = phi i32 [ %17, %10 ], [ 0, %18 ]
  %21 = trunc i32 %20 to i16
  ret i16 %21
}

; Function Attrs: nocallback nofree nosync nounwind speculatable willreturn memory(none)
declare { i32, i1 } @llvm.sadd.with.overflow.i32(i32, i32) #1

; Function Attrs: nocallback nofree nosync nounwind speculatable willreturn memory(none)
declare { i8, i1 } @llvm.uadd.with.overflow.i8(i8, i8) #1

attributes #0 = { noinline nounwind optnone uwtable "frame-pointer"="all" "min-legal-vector-width"="0" "no-builtin-calloc" "no-trapping-math"="true" "stack-protector-buffer-size"="8" "target-cpu"="x86-64" "target-features"="+cmov,+cx8,+fxsr,-aes,-avx,-avx10.1-256,-avx10.1-512,-avx2,-avx512bf16,-avx512bitalg,-avx512bw,-avx512cd,-avx512dq,-avx512f,-avx512fp16,-avx512ifma,-avx512vbmi,-avx512vbmi2,-avx512vl,-avx512vnni,-avx512vp2intersect,-avx512vpopcntdq,-avxifma,-avxneconvert,-avxvnni,-avxvnniint16,-avxvnniint8,-f16c,-fma,-fma4,-gfni,-kl,-mmx,-pclmul,-sha,-sha512,-sm3,-sm4,-sse,-sse2,-sse3,-sse4.1,-sse4.2,-sse4a,-ssse3,-vaes,-vpclmulqdq,-widekl,-x87,-xop" "tune-cpu"="generic" }
attributes #1 = { nocallback nofree nosync nounwind speculatable willreturn memory(none) }
attributes #2 = { "frame-pointer"="all" "no-builtin-calloc" "no-trapping-math"="true" "stack-protector-buffer-size"="8" "target-cpu"="x86-64" "target-features"="+cmov,+cx8,+fxsr,-aes,-avx,-avx10.1-256,-avx10.1-512,-avx2,-avx512bf16,-avx512bitalg,-avx512bw,-avx512cd,-avx512dq,-avx512f,-avx512fp16,-avx512ifma,-avx512vbmi,-avx512vbmi2,-avx512vl,-avx512vnni,-avx512vp2intersect,-avx512vpopcntdq,-avxifma,-avxneconvert,-avxvnni,-avxvnniint16,-avxvnniint8,-f16c,-fma,-fma4,-gfni,-kl,-mmx,-pclmul,-sha,-sha512,-sm3,-sm4,-sse,-sse2,-sse3,-sse4.1,-sse4.2,-sse4a,-ssse3,-vaes,-vpclmulqdq,-widekl,-x87,-xop" "tune-cpu"="generic" }
attributes #3 = { "no-builtin-calloc" }

!llvm.module.flags = !{!0, !1, !2}
!llvm.ident = !{!3}

!0 = !{i32 1, !"wchar_size", i32 4}
!1 = !{i32 7, !"uwtable", i32 2}
!2 = !{i32 7, !"frame-pointer", i32 2}
!3 = !{!"Debian clang version 19.1.7 (3~deb12u1)"}
!4 = distinct !{!4, !5}
!5 = !{!"llvm.loop.mustprogress"}
!6 = distinct !{!6, !5}
!7 = distinct !{!7, !5}
!8 = distinct !{!8, !5}
!9 = distinct !{!9, !5}
!10 = distinct !{!10, !5}
