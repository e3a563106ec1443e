; ModuleID = 'life.c'
source_filename = "life.c"
target datalayout = "e-m:e-p270:32:32-p271:32:32-p272:64:64-i64:64-i128:128-f80:128-n8:16:32:64-S128"
target triple = "x86_64-pc-linux-gnu"

@main.boards = internal global [2 x [10 x [14 x i8]]] zeroinitializer, align 16
@main.glider = internal global [3 x ptr] [ptr @.str, ptr @.str.1, ptr @.str.2], align 16
@.str = private unnamed_addr constant [4 x i8] c".#.\00", align 1
@.str.1 = private unnamed_addr constant [4 x i8] c"..#\00", align 1
@.str.2 = private unnamed_addr constant [4 x i8] c"###\00", align 1

; Function Attrs: noinline nounwind optnone uwtable
define dso_local i32 @main() #0 {
  %1 = alloca i32, align 4
  %2 = alloca i32, align 4
  %3 = alloca i32, align 4
  %4 = alloca i32, align 4
  %5 = alloca i32, align 4
  %6 = alloca i32, align 4
  %7 = alloca i32, align 4
  %8 = alloca i32, align 4
  store i32 0, ptr %1, align 4
  call void @llvm.memset.p0.i64(ptr align 16 @main.boards, i8 0, i64 280, i1 false)
  store i32 0, ptr %2, align 4
  br label %9

9:                                                ; preds = %41, %0
  %10 = load i32, ptr %2, align 4
  %11 = icmp slt i32 %10, 3
  br i1 %11, label %12, label %44

12:                                               ; preds = %9
  store i32 0, ptr %3, align 4
  br label %13

13:                                               ; preds = %37, %12
  %14 = load i32, ptr %3, align 4
  %15 = icmp slt i32 %14, 3
  br i1 %15, label %16, label %40

16:                                               ; preds = %13
  %17 = load i32, ptr %2, align 4
  %18 = sext i32 %17 to i64
  %19 = getelementptr inbounds [3 x ptr], ptr @main.glider, i64 0, i64 %18
  %20 = load ptr, ptr %19, align 8
  %21 = load i32, ptr %3, align 4
  %22 = sext i32 %21 to i64
  %23 = getelementptr inbounds i8, ptr %20, i64 %22
  %24 = load i8, ptr %23, align 1
  %25 = sext i8 %24 to i32
  %26 = icmp eq i32 %25, 35
  %27 = zext i1 %26 to i32
  %28 = trunc i32 %27 to i8
  %29 = load i32, ptr %2, align 4
  %30 = add nsw i32 %29, 1
  %31 = sext i32 %30 to i64
  %32 = getelementptr inbounds [10 x [14 x i8]], ptr @main.boards, i64 0, i64 %31
  %33 = load i32, ptr %3, align 4
  %34 = add nsw i32 %33, 1
  %35 = sext i32 %34 to i64
  %36 = getelementptr inbounds [14 x i8], ptr %32, i64 0, i64 %35
  store i8 %28, ptr %36, align 1
  br label %37

37:                                               ; preds = %16
  %38 = load i32, ptr %3, align 4
  %39 = add nsw i32 %38, 1
  store i32 %39, ptr %3, align 4
  br label %13, !llvm.loop !4

40:                                               ; preds = %13
  br label %41

41:                                               ; preds = %40
  %42 = load i32, ptr %2, align 4
  %43 = add nsw i32 %42, 1
  store i32 %43, ptr %2, align 4
  br label %9, !llvm.loop !6

44:                                               ; preds = %9
  store i32 5, ptr %4, align 4
  br label %45

45:                                               ; preds = %52, %44
  %46 = load i32, ptr %4, align 4
  %47 = icmp slt i32 %46, 12
  br i1 %47, label %48, label %55

48:                                               ; preds = %45
  %49 = load i32, ptr %4, align 4
  %50 = sext i32 %49 to i64
  %51 = getelementptr inbounds [14 x i8], ptr getelementptr inbounds ([10 x [14 x i8]], ptr @main.boards, i64 0, i64 7), i64 0, i64 %50
  store i8 1, ptr %51, align 1
  br label %52

52:                                               ; preds = %48
  %53 = load i32, ptr %4, align 4
  %54 = add nsw i32 %53, 1
  store i32 %54, ptr %4, align 4
  br label %45, !llvm.loop !7

55:                                               ; preds = %45
  store i32 0, ptr %5, align 4
  store i32 0, ptr %6, align 4
  br label %56

56:                                               ; preds = %72, %55
  %57 = load i32, ptr %6, align 4
  %58 = icmp slt i32 %57, 30
  br i1 %58, label %59, label %75

59:                                               ; preds = %56
  %60 = load i32, ptr %6, align 4
  %61 = srem i32 %60, 2
  %62 = sext i32 %61 to i64
  %63 = getelementptr inbounds [2 x [10 x [14 x i8]]], ptr @main.boards, i64 0, i64 %62
  %64 = getelementptr inbounds [10 x [14 x i8]], ptr %63, i64 0, i64 0
  %65 = load i32, ptr %6, align 4
  %66 = srem i32 %65, 2
  %67 = sub nsw i32 1, %66
  %68 = sext i32 %67 to i64
  %69 = getelementptr inbounds [2 x [10 x [14 x i8]]], ptr @main.boards, i64 0, i64 %68
  %70 = getelementptr inbounds [10 x [14 x i8]], ptr %69, i64 0, i64 0
  %71 = call i32 @turn(ptr noundef %64, ptr noundef %70) #3
  store i32 %71, ptr %5, align 4
  br label %72

72:                                               ; preds = %59
  %73 = load i32, ptr %6, align 4
  %74 = add nsw i32 %73, 1
  store i32 %74, ptr %6, align 4
  br label %56, !llvm.loop !8

75:                                               ; preds = %56
  store i32 0, ptr %7, align 4
  br label %76

76:                                               ; preds = %101, %75
  %77 = load i32, ptr %7, align 4
  %78 = icmp slt i32 %77, 10
  br i1 %78, label %79, label %104

79:                                               ; preds = %76
  store i32 0, ptr %8, align 4
  br label %80

80:                                               ; preds = %96, %79
  %81 = load i32, ptr %8, align 4
  %82 = icmp slt i32 %81, 14
  br i1 %82, label %83, label %99

83:                                               ; preds = %80
  %84 = load i32, ptr %7, align 4
  %85 = sext i32 %84 to i64
  %86 = getelementptr inbounds [10 x [14 x i8]], ptr @main.boards, i64 0, i64 %85
  %87 = load i32, ptr %8, align 4
  %88 = sext i32 %87 to i64
  %89 = getelementptr inbounds [14 x i8], ptr %86, i64 0, i64 %88
  %90 = load i8, ptr %89, align 1
  %91 = zext i8 %90 to i32
  %92 = icmp ne i32 %91, 0
  %93 = zext i1 %92 to i64
  %94 = select i1 %92, i32 35, i32 46
  %95 = call i32 @putchar(i32 noundef %94) #3
  br label %96

96:                                               ; preds = %83
  %97 = load i32, ptr %8, align 4
  %98 = add nsw i32 %97, 1
  store i32 %98, ptr %8, align 4
  br label %80, !llvm.loop !9

99:                                               ; preds = %80
  %100 = call i32 @putchar(i32 noundef 10) #3
  br label %101

101:                                              ; preds = %99
  %102 = load i32, ptr %7, align 4
  %103 = add nsw i32 %102, 1
  store i32 %103, ptr %7, align 4
  br label %76, !llvm.loop !10

104:                                              ; preds = %76
  %105 = load i32, ptr %5, align 4
  ret i32 %105
}

; Function Attrs: nocallback nofree nounwind willreturn memory(argmem: write)
declare void @llvm.memset.p0.i64(ptr nocapture writeonly, i8, i64, i1 immarg) #1

; Function Attrs: noinline nounwind optnone uwtable
define internal i32 @turn(ptr noundef %0, ptr noundef %1) #0 {
  %3 = alloca ptr, align 8
  %4 = alloca ptr, align 8
  %5 = alloca i32, align 4
  %6 = alloca i32, align 4
  %7 = alloca i32, align 4
  %8 = alloca i32, align 4
  store ptr %0, ptr %3, align 8
  store ptr %1, ptr %4, align 8
  store i32 0, ptr %5, align 4
  store i32 0, ptr %6, align 4
  br label %9

9:                                                ; preds = %65, %2
  %10 = load i32, ptr %6, align 4
  %11 = icmp slt i32 %10, 10
  br i1 %11, label %12, label %68

12:                                               ; preds = %9
  store i32 0, ptr %7, align 4
  br label %13

13:                                               ; preds = %61, %12
  %14 = load i32, ptr %7, align 4
  %15 = icmp slt i32 %14, 14
  br i1 %15, label %16, label %64

16:                                               ; preds = %13
  %17 = load ptr, ptr %3, align 8
  %18 = load i32, ptr %6, align 4
  %19 = load i32, ptr %7, align 4
  %20 = call i32 @around(ptr noundef %17, i32 noundef %18, i32 noundef %19) #3
  store i32 %20, ptr %8, align 4
  %21 = load i32, ptr %8, align 4
  %22 = icmp eq i32 %21, 3
  br i1 %22, label %39, label %23

23:                                               ; preds = %16
  %24 = load i32, ptr %8, align 4
  %25 = icmp eq i32 %24, 2
  br i1 %25, label %26, label %37

26:                                               ; preds = %23
  %27 = load ptr, ptr %3, align 8
  %28 = load i32, ptr %6, align 4
  %29 = sext i32 %28 to i64
  %30 = getelementptr inbounds [14 x i8], ptr %27, i64 %29
  %31 = load i32, ptr %7, align 4
  %32 = sext i32 %31 to i64
  %33 = getelementptr inbounds [14 x i8], ptr %30, i64 0, i64 %32
  %34 = load i8, ptr %33, align 1
  %35 = zext i8 %34 to i32
  %36 = icmp ne i32 %35, 0
  br label %37

37:                                               ; preds = %26, %23
  %38 = phi i1 [ false, %23 ], [ %36, %26 ]
  br label %39

39:                                               ; preds = %37, %16
  %40 = phi i1 [ true, %16 ], [ %38, %37 ]
  %41 = zext i1 %40 to i32
  %42 = trunc i32 %41 to i8
  %43 = load ptr, ptr %4, align 8
  %44 = load i32, ptr %6, align 4
  %45 = sext i32 %44 to i64
  %46 = getelementptr inbounds [14 x i8], ptr %43, i64 %45
  %47 = load i32, ptr %7, align 4
  %48 = sext i32 %47 to i64
  %49 = getelementptr inbounds [14 x i8], ptr %46, i64 0, i64 %48
  store i8 %42, ptr %49, align 1
  %50 = load ptr, ptr %4, align 8
  %51 = load i32, ptr %6, align 4
  %52 = sext i32 %51 to i64
  %53 = getelementptr inbounds [14 x i8], ptr %50, i64 %52
  %54 = load i32, ptr %7, align 4
  %55 = sext i32 %54 to i64
  %56 = getelementptr inbounds [14 x i8], ptr %53, i64 0, i64 %55
  %57 = load i8, ptr %56, align 1
  %58 = zext i8 %57 to i32
  %59 = load i32, ptr %5, align 4
  %60 = add nsw i32 %59, %58
  store i32 %60, ptr %5, align 4
  br label %61

61:                                               ; preds = %39
  %62 = load i32, ptr %7, align 4
  %63 = add nsw i32 %62, 1
  store i32 %63, ptr %7, align 4
  br label %13, !llvm.loop !11

64:                                               ; preds = %13
  br label %65

65:                                               ; preds = %64
  %66 = load i32, ptr %6, align 4
  %67 = add nsw i32 %66, 1
  store i32 %67, ptr %6, align 4
  br label %9, !llvm.loop !12

68:                                               ; preds = %9
  %69 = load i32, ptr %5, align 4
  ret i32 %69
}

declare dso_local i32 @putchar(i32 noundef) #2

; Function Attrs: noinline nounwind optnone uwtable
define internal i32 @around(ptr noundef %0, i32 noundef %1, i32 noundef %2) #0 {
  %4 = alloca ptr, align 8
  %5 = alloca i32, align 4
  %6 = alloca i32, align 4
  %7 = alloca i32, align 4
  %8 = alloca i32, align 4
  %9 = alloca i32, align 4
  store ptr %0, ptr %4, align 8
  store i32 %1, ptr %5, align 4
  store i32 %2, ptr %6, align 4
  store i32 0, ptr %7, align 4
  store i32 -1, ptr %8, align 4
  br label %10

10:                                               ; preds = %48, %3
  %11 = load i32, ptr %8, align 4
  %12 = icmp sle i32 %11, 1
  br i1 %12, label %13, label %51

13:                                               ; preds = %10
  store i32 -1, ptr %9, align 4
  br label %14

14:                                               ; preds = %44, %13
  %15 = load i32, ptr %9, align 4
  %16 = icmp sle i32 %15, 1
  br i1 %16, label %17, label %47

17:                                               ; preds = %14
  %18 = load i32, ptr %8, align 4
  %19 = icmp ne i32 %18, 0
  br i1 %19, label %23, label %20

20:                                               ; preds = %17
  %21 = load i32, ptr %9, align 4
  %22 = icmp ne i32 %21, 0
  br i1 %22, label %23, label %43

23:                                               ; preds = %20, %17
  %24 = load ptr, ptr %4, align 8
  %25 = load i32, ptr %5, align 4
  %26 = load i32, ptr %8, align 4
  %27 = add nsw i32 %25, %26
  %28 = add nsw i32 %27, 10
  %29 = srem i32 %28, 10
  %30 = sext i32 %29 to i64
  %31 = getelementptr inbounds [14 x i8], ptr %24, i64 %30
  %32 = load i32, ptr %6, align 4
  %33 = load i32, ptr %9, align 4
  %34 = add nsw i32 %32, %33
  %35 = add nsw i32 %34, 14
  %36 = srem i32 %35, 14
  %37 = sext i32 %36 to i64
  %38 = getelementptr inbounds [14 x i8], ptr %31, i64 0, i64 %37
  %39 = load i8, ptr %38, align 1
  %40 = zext i8 %39 to i32
  %41 = load i32, ptr %7, align 4
  %42 = add nsw i32 %41, %40
  store i32 %42, ptr %7, align 4
  br label %43

43:                                               ; preds = %23, %20
  br label %44

44:                                               ; preds = %43
  %45 = load i32, ptr %9, align 4
  %46 = add nsw i32 %45, 1
  store i32 %46, ptr %9, align 4
  br label %14, !llvm.loop !13

47:                                               ; preds = %14
  br label %48

48:                                               ; preds = %47
  %49 = load i32, ptr %8, align 4
  %50 = add nsw i32 %49, 1
  store i32 %50, ptr %8, align 4
  br label %10, !llvm.loop !14

51:                                               ; preds = %10
  %52 = load i32, ptr %7, align 4
  ret i32 %52
}

attributes #0 = { noinline nounwind optnone uwtable "frame-pointer"="all" "min-legal-vector-width"="0" "no-builtin-calloc" "no-trapping-math"="true" "stack-protector-buffer-size"="8" "target-cpu"="x86-64" "target-features"="+cmov,+cx8,+fxsr,-aes,-avx,-avx10.1-256,-avx10.1-512,-avx2,-avx512bf16,-avx512bitalg,-avx512bw,-avx512cd,-avx512dq,-avx512f,-avx512fp16,-avx512ifma,-avx512vbmi,-avx512vbmi2,-avx512vl,-avx512vnni,-avx512vp2intersect,-avx512vpopcntdq,-avxifma,-avxneconvert,-avxvnni,-avxvnniint16,-avxvnniint8,-f16c,-fma,-fma4,-gfni,-kl,-mmx,-pclmul,-sha,-sha512,-sm3,-sm4,-sse,-sse2,-sse3,-sse4.1,-sse4.2,-sse4a,-ssse3,-vaes,-vpclmulqdq,-widekl,-x87,-xop" "tune-cpu"="generic" }
attributes #1 = { nocallback nofree nounwind willreturn memory(argmem: write) }
attributes #2 = { "frame-pointer"="all" "no-builtin-calloc" "no-trapping-math"="true" "stack-protector-buffer-size"="8" "target-cpu"="x86-64" "target-features"="+cmov,+cx8,+fxsr,-aes,-avx,-avx10.1-256,-avx10.1-512,-avx2,-avx512bf16,-avx512bitalg,-avx512bw,-avx512cd,-avx512dq,-avx512f,-avx512fp16,-avx512ifma,-avx512vbmi,-avx512vbmi2,-avx512vl,-avx512vnni,-avx512vp2intersect,-avx512vpopcntdq,-avxifma,-avxneconvert,-avxvnni,-avxvnniint16,-avxvnniint8,-f16c,-fma,-fma4,-gfni,-kl,-mmx,-pclmul,-sha,-sha512,-sm3,-sm4,-sse,-sse2,-sse3,-sse4.1,-sse4.2,-sse4a,-ssse3,-vaes,-vpclmulqdq,-widekl,-x87,-xop" "tune-cpu"="generic" }
attributes #3 = { "no-builtin-calloc" }

!llvm.module.flags = !{!0, !1, !2}
!llvm.ident = !{!3}

!0 = !{i32 1, !"wchar_size", i32 4}
!1 = !{i32 7, !"uwtable", i32 2}
!2 = !{i32 7, !"frame-pointer", i32 2}
!3 = !{!"Debian clang version 19.1.7 (3~deb12u1)"}
!4 = distinct !{!4, !5}
!5 = !{!"llvm.loop.mustprogress"}
!6 = distinct !{!6, !5}
!7 = distinct !{!7, !5}
!8 = distinct !{!8, !5}
!9 = distinct !{!9, !5}
!10 = distinct !{!10, !5}
!11 = distinct !{!11, !5}
!12 = distinct !{!12, !5}
!13 = distinct !{!13, !5}
!14 = distinct !{!14, !5}
