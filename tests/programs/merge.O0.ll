; ModuleID = 'merge.c'
source_filename = "merge.c"
target datalayout = "e-m:e-p270:32:32-p271:32:32-p272:64:64-i64:64-i128:128-f80:128-n8:16:32:64-S128"
target triple = "x86_64-pc-linux-gnu"

@first = internal global [300 x i64] zeroinitializer, align 16
@second = internal global [300 x i64] zeroinitializer, align 16
@.str = private unnamed_addr constant [14 x i8] c"%llu %llu %d\0A\00", align 1

; Function Attrs: noinline nounwind optnone uwtable
define dso_local i32 @main() #0 {
  %1 = alloca i32, align 4
  %2 = alloca i64, align 8
  %3 = alloca i32, align 4
  %4 = alloca i32, align 4
  %5 = alloca i32, align 4
  %6 = alloca i32, align 4
  store i32 0, ptr %1, align 4
  store i64 88172645463325252, ptr %2, align 8
  store i32 0, ptr %3, align 4
  br label %7

7:                                                ; preds = %27, %0
  %8 = load i32, ptr %3, align 4
  %9 = icmp slt i32 %8, 300
  br i1 %9, label %10, label %30

10:                                               ; preds = %7
  %11 = load i64, ptr %2, align 8
  %12 = shl i64 %11, 13
  %13 = load i64, ptr %2, align 8
  %14 = xor i64 %13, %12
  store i64 %14, ptr %2, align 8
  %15 = load i64, ptr %2, align 8
  %16 = lshr i64 %15, 7
  %17 = load i64, ptr %2, align 8
  %18 = xor i64 %17, %16
  store i64 %18, ptr %2, align 8
  %19 = load i64, ptr %2, align 8
  %20 = shl i64 %19, 17
  %21 = load i64, ptr %2, align 8
  %22 = xor i64 %21, %20
  store i64 %22, ptr %2, align 8
  %23 = load i64, ptr %2, align 8
  %24 = load i32, ptr %3, align 4
  %25 = sext i32 %24 to i64
  %26 = getelementptr inbounds [300 x i64], ptr @first, i64 0, i64 %25
  store i64 %23, ptr %26, align 8
  br label %27

27:                                               ; preds = %10
  %28 = load i32, ptr %3, align 4
  %29 = add nsw i32 %28, 1
  store i32 %29, ptr %3, align 4
  br label %7, !llvm.loop !4

30:                                               ; preds = %7
  store i32 0, ptr %4, align 4
  store i32 1, ptr %5, align 4
  br label %31

31:                                               ; preds = %39, %30
  %32 = load i32, ptr %5, align 4
  %33 = icmp slt i32 %32, 300
  br i1 %33, label %34, label %42

34:                                               ; preds = %31
  %35 = load i32, ptr %5, align 4
  %36 = call i32 @merge_runs(ptr noundef @first, ptr noundef @second, i32 noundef %35) #3
  %37 = load i32, ptr %4, align 4
  %38 = add nsw i32 %37, %36
  store i32 %38, ptr %4, align 4
  call void @llvm.memcpy.p0.p0.i64(ptr align 16 @first, ptr align 16 @second, i64 2400, i1 false)
  br label %39

39:                                               ; preds = %34
  %40 = load i32, ptr %5, align 4
  %41 = mul nsw i32 %40, 2
  store i32 %41, ptr %5, align 4
  br label %31, !llvm.loop !6

42:                                               ; preds = %31
  store i32 1, ptr %6, align 4
  br label %43

43:                                               ; preds = %59, %42
  %44 = load i32, ptr %6, align 4
  %45 = icmp slt i32 %44, 300
  br i1 %45, label %46, label %62

46:                                               ; preds = %43
  %47 = load i32, ptr %6, align 4
  %48 = sub nsw i32 %47, 1
  %49 = sext i32 %48 to i64
  %50 = getelementptr inbounds [300 x i64], ptr @first, i64 0, i64 %49
  %51 = load i64, ptr %50, align 8
  %52 = load i32, ptr %6, align 4
  %53 = sext i32 %52 to i64
  %54 = getelementptr inbounds [300 x i64], ptr @first, i64 0, i64 %53
  %55 = load i64, ptr %54, align 8
  %56 = icmp ugt i64 %51, %55
  br i1 %56, label %57, label %58

57:                                               ; preds = %46
  store i32 255, ptr %1, align 4
  br label %69

58:                                               ; preds = %46
  br label %59

59:                                               ; preds = %58
  %60 = load i32, ptr %6, align 4
  %61 = add nsw i32 %60, 1
  store i32 %61, ptr %6, align 4
  br label %43, !llvm.loop !7

62:                                               ; preds = %43
  %63 = load i64, ptr @first, align 16
  %64 = load i64, ptr getelementptr inbounds ([300 x i64], ptr @first, i64 0, i64 299), align 8
  %65 = load i32, ptr %4, align 4
  %66 = call i32 (ptr, ...) @printf(ptr noundef @.str, i64 noundef %63, i64 noundef %64, i32 noundef %65) #3
  %67 = load i32, ptr %4, align 4
  %68 = and i32 %67, 127
  store i32 %68, ptr %1, align 4
  br label %69

69:                                               ; preds = %62, %57
  %70 = load i32, ptr %1, align 4
  ret i32 %70
}

; Function Attrs: noinline nounwind optnone uwtable
define internal i32 @merge_runs(ptr noundef %0, ptr noundef %1, i32 noundef %2) #0 {
  %4 = alloca ptr, align 8
  %5 = alloca ptr, align 8
  %6 = alloca i32, align 4
  %7 = alloca i32, align 4
  %8 = alloca i32, align 4
  %9 = alloca i32, align 4
  %10 = alloca i32, align 4
  %11 = alloca i32, align 4
  %12 = alloca i32, align 4
  %13 = alloca i32, align 4
  store ptr %0, ptr %4, align 8
  store ptr %1, ptr %5, align 8
  store i32 %2, ptr %6, align 4
  store i32 0, ptr %7, align 4
  store i32 0, ptr %8, align 4
  br label %14

14:                                               ; preds = %102, %3
  %15 = load i32, ptr %8, align 4
  %16 = icmp slt i32 %15, 300
  br i1 %16, label %17, label %107

17:                                               ; preds = %14
  %18 = load i32, ptr %8, align 4
  %19 = load i32, ptr %6, align 4
  %20 = add nsw i32 %18, %19
  %21 = icmp slt i32 %20, 300
  br i1 %21, label %22, label %26

22:                                               ; preds = %17
  %23 = load i32, ptr %8, align 4
  %24 = load i32, ptr %6, align 4
  %25 = add nsw i32 %23, %24
  br label %27

26:                                               ; preds = %17
  br label %27

27:                                               ; preds = %26, %22
  %28 = phi i32 [ %25, %22 ], [ 300, %26 ]
  store i32 %28, ptr %9, align 4
  %29 = load i32, ptr %8, align 4
  %30 = load i32, ptr %6, align 4
  %31 = mul nsw i32 2, %30
  %32 = add nsw i32 %29, %31
  %33 = icmp slt i32 %32, 300
  br i1 %33, label %34, label %39

34:                                               ; preds = %27
  %35 = load i32, ptr %8, align 4
  %36 = load i32, ptr %6, align 4
  %37 = mul nsw i32 2, %36
  %38 = add nsw i32 %35, %37
  br label %40

39:                                               ; preds = %27
  br label %40

40:                                               ; preds = %39, %34
  %41 = phi i32 [ %38, %34 ], [ 300, %39 ]
  store i32 %41, ptr %10, align 4
  %42 = load i32, ptr %8, align 4
  store i32 %42, ptr %11, align 4
  %43 = load i32, ptr %9, align 4
  store i32 %43, ptr %12, align 4
  %44 = load i32, ptr %8, align 4
  store i32 %44, ptr %13, align 4
  br label %45

45:                                               ; preds = %98, %40
  %46 = load i32, ptr %13, align 4
  %47 = load i32, ptr %10, align 4
  %48 = icmp slt i32 %46, %47
  br i1 %48, label %49, label %101

49:                                               ; preds = %45
  %50 = load i32, ptr %11, align 4
  %51 = load i32, ptr %9, align 4
  %52 = icmp slt i32 %50, %51
  br i1 %52, label %53, label %80

53:                                               ; preds = %49
  %54 = load i32, ptr %12, align 4
  %55 = load i32, ptr %10, align 4
  %56 = icmp sge i32 %54, %55
  br i1 %56, label %69, label %57

57:                                               ; preds = %53
  %58 = load ptr, ptr %4, align 8
  %59 = load i32, ptr %11, align 4
  %60 = sext i32 %59 to i64
  %61 = getelementptr inbounds i64, ptr %58, i64 %60
  %62 = load i64, ptr %61, align 8
  %63 = load ptr, ptr %4, align 8
  %64 = load i32, ptr %12, align 4
  %65 = sext i32 %64 to i64
  %66 = getelementptr inbounds i64, ptr %63, i64 %65
  %67 = load i64, ptr %66, align 8
  %68 = icmp ule i64 %62, %67
  br i1 %68, label %69, label %80

69:                                               ; preds = %57, %53
  %70 = load ptr, ptr %4, align 8
  %71 = load i32, ptr %11, align 4
  %72 = add nsw i32 %71, 1
  store i32 %72, ptr %11, align 4
  %73 = sext i32 %71 to i64
  %74 = getelementptr inbounds i64, ptr %70, i64 %73
  %75 = load i64, ptr %74, align 8
  %76 = load ptr, ptr %5, align 8
  %77 = load i32, ptr %13, align 4
  %78 = sext i32 %77 to i64
  %79 = getelementptr inbounds i64, ptr %76, i64 %78
  store i64 %75, ptr %79, align 8
  br label %97

80:                                               ; preds = %57, %49
  %81 = load ptr, ptr %4, align 8
  %82 = load i32, ptr %12, align 4
  %83 = add nsw i32 %82, 1
  store i32 %83, ptr %12, align 4
  %84 = sext i32 %82 to i64
  %85 = getelementptr inbounds i64, ptr %81, i64 %84
  %86 = load i64, ptr %85, align 8
  %87 = load ptr, ptr %5, align 8
  %88 = load i32, ptr %13, align 4
  %89 = sext i32 %88 to i64
  %90 = getelementptr inbounds i64, ptr %87, i64 %89
  store i64 %86, ptr %90, align 8
  %91 = load i32, ptr %11, align 4
  %92 = load i32, ptr %9, align 4
  %93 = icmp slt i32 %91, %92
  %94 = zext i1 %93 to i32
  %95 = load i32, ptr %7, align 4
  %96 = add nsw i32 %95, %94
  store i32 %96, ptr %7, align 4
  br label %97

97:                                               ; preds = %80, %69
  br label %98

98:                                               ; preds = %97
  %99 = load i32, ptr %13, align 4
  %100 = add nsw i32 %99, 1
  store i32 %100, ptr %13, align 4
  br label %45, !llvm.loop !8

101:                                              ; preds = %45
  br label %102

102:                                              ; preds = %101
  %103 = load i32, ptr %6, align 4
  %104 = mul nsw i32 2, %103
  %105 = load i32, ptr %8, align 4
  %106 = add nsw i32 %105, %104
  store i32 %106, ptr %8, align 4
  br label %14, !llvm.loop !9

107:                                              ; preds = %14
  %108 = load i32, ptr %7, align 4
  ret i32 %108
}

; Function Attrs: nocallback nofree nounwind willreturn memory(argmem: readwrite)
declare void @llvm.memcpy.p0.p0.i64(ptr noalias nocapture writeonly, ptr noalias nocapture readonly, i64, i1 immarg) #1

declare dso_local i32 @printf(ptr noundef, ...) #2

attributes #0 = { noinline nounwind optnone uwtable "frame-pointer"="all" "min-legal-vector-width"="0" "no-builtin-calloc" "no-trapping-math"="true" "stack-protector-buffer-size"="8" "target-cpu"="x86-64" "target-features"="+cmov,+cx8,+fxsr,-aes,-avx,-avx10.1-256,-avx10.1-512,-avx2,-avx512bf16,-avx512bitalg,-avx512bw,-avx512cd,-avx512dq,-avx512f,-avx512fp16,-avx512ifma,-avx512vbmi,-avx512vbmi2,-avx512vl,-avx512vnni,-avx512vp2intersect,-avx512vpopcntdq,-avxifma,-avxneconvert,-avxvnni,-avxvnniint16,-avxvnniint8,-f16c,-fma,-fma4,-gfni,-kl,-mmx,-pclmul,-sha,-sha512,-sm3,-sm4,-sse,-sse2,-sse3,-sse4.1,-sse4.2,-sse4a,-ssse3,-vaes,-vpclmulqdq,-widekl,-x87,-xop" "tune-cpu"="generic" }
attributes #1 = { nocallback nofree nounwind willreturn memory(argmem: readwrite) }
attributes #2 = { "frame-pointer"="all" "no-builtin-calloc" "no-trapping-math"="true" "stack-protector-buffer-size"="8" "target-cpu"="x86-64" "target-features"="+cmov,+cx8,+fxsr,-aes,-avx,-avx10.1-256,-avx10.1-512,-avx2,-avx512bf16,-avx512bitalg,-avx512bw,-avx512cd,-avx512dq,-avx512f,-avx512fp16,-avx512ifma,-avx512vbmi,-avx512vbmi2,-avx512vl,-avx512vnni,-avx512vp2intersect,-avx512vpopcntdq,-avxifma,-avxneconvert,-avxvnni,-avxvnniint16,-avxvnniint8,-f16c,-fma,-fma4,-gfni,-kl,-mmx,-pclmul,-sha,-sha512,-sm3,-sm4,-sse,-sse2,-sse3,-sse4.1,-sse4.2,-sse4a,-ssse3,-vaes,-vpclmulqdq,-widekl,-x87,-xop" "tune-cpu"="generic" }
attributes #3 = { "no-builtin-calloc" }

!llvm.module.flags = !{!0, !1, !2}
!llvm.ident = !{!3}

!0 = !{i32 1, !"wchar_size", i32 4}
!1 = !{i32 7, !"uwtable", i32 2}
!2 = !{i32 7, !"frame-pointer", i32 2}
!3 = !{!"Debian clang version 19.1.7 (3~deb12u1)"}
!4 = distinct !{!4, !5}
!5 = !{!"llvm.loop.mustprogress"}
!6 = distinct !{!6, !5}
!7 = distinct !{!7, !5}
!8 = distinct !{!8, !5}
!9 = distinct !{!9, !5}
