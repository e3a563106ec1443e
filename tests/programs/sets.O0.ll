; ModuleID = 'sets.c'
source_filename = "sets.c"
target datalayout = "e-m:e-p270:32:32-p271:32:32-p272:64:64-i64:64-i128:128-f80:128-n8:16:32:64-S128"
target triple = "x86_64-pc-linux-gnu"

%struct.Set = type { [16 x i64] }

@.str = private unnamed_addr constant [16 x i8] c"%d %d %d %d %d\0A\00", align 1
@.str.1 = private unnamed_addr constant [5 x i8] c"%d%c\00", align 1

; Function Attrs: noinline nounwind optnone uwtable
define dso_local i32 @main() #0 {
  %1 = alloca i32, align 4
  %2 = alloca %struct.Set, align 8
  %3 = alloca %struct.Set, align 8
  %4 = alloca %struct.Set, align 8
  %5 = alloca i32, align 4
  %6 = alloca i32, align 4
  %7 = alloca i32, align 4
  %8 = alloca i32, align 4
  %9 = alloca i32, align 4
  %10 = alloca %struct.Set, align 8
  %11 = alloca %struct.Set, align 8
  %12 = alloca i32, align 4
  store i32 0, ptr %1, align 4
  call void @llvm.memset.p0.i64(ptr align 8 %2, i8 -1, i64 128, i1 false)
  call void @llvm.memset.p0.i64(ptr align 8 %3, i8 0, i64 128, i1 false)
  call void @llvm.memcpy.p0.p0.i64(ptr align 8 %4, ptr align 8 %3, i64 128, i1 false)
  %13 = getelementptr inbounds %struct.Set, ptr %2, i32 0, i32 0
  %14 = getelementptr inbounds [16 x i64], ptr %13, i64 0, i64 0
  %15 = load i64, ptr %14, align 8
  %16 = and i64 %15, -4
  store i64 %16, ptr %14, align 8
  store i32 2, ptr %5, align 4
  br label %17

17:                                               ; preds = %53, %0
  %18 = load i32, ptr %5, align 4
  %19 = load i32, ptr %5, align 4
  %20 = mul i32 %18, %19
  %21 = icmp ult i32 %20, 1024
  br i1 %21, label %22, label %56

22:                                               ; preds = %17
  %23 = load i32, ptr %5, align 4
  %24 = load i32, ptr %5, align 4
  %25 = mul i32 %23, %24
  store i32 %25, ptr %6, align 4
  br label %26

26:                                               ; preds = %48, %22
  %27 = load i32, ptr %5, align 4
  %28 = call i32 @has(ptr noundef %2, i32 noundef %27) #5
  %29 = icmp ne i32 %28, 0
  br i1 %29, label %30, label %33

30:                                               ; preds = %26
  %31 = load i32, ptr %6, align 4
  %32 = icmp ult i32 %31, 1024
  br label %33

33:                                               ; preds = %30, %26
  %34 = phi i1 [ false, %26 ], [ %32, %30 ]
  br i1 %34, label %35, label %52

35:                                               ; preds = %33
  %36 = load i32, ptr %6, align 4
  %37 = urem i32 %36, 64
  %38 = zext i32 %37 to i64
  %39 = shl i64 1, %38
  %40 = xor i64 %39, -1
  %41 = getelementptr inbounds %struct.Set, ptr %2, i32 0, i32 0
  %42 = load i32, ptr %6, align 4
  %43 = udiv i32 %42, 64
  %44 = zext i32 %43 to i64
  %45 = getelementptr inbounds [16 x i64], ptr %41, i64 0, i64 %44
  %46 = load i64, ptr %45, align 8
  %47 = and i64 %46, %40
  store i64 %47, ptr %45, align 8
  br label %48

48:                                               ; preds = %35
  %49 = load i32, ptr %5, align 4
  %50 = load i32, ptr %6, align 4
  %51 = add i32 %50, %49
  store i32 %51, ptr %6, align 4
  br label %26, !llvm.loop !4

52:                                               ; preds = %33
  br label %53

53:                                               ; preds = %52
  %54 = load i32, ptr %5, align 4
  %55 = add i32 %54, 1
  store i32 %55, ptr %5, align 4
  br label %17, !llvm.loop !6

56:                                               ; preds = %17
  store i32 0, ptr %7, align 4
  br label %57

57:                                               ; preds = %66, %56
  %58 = load i32, ptr %7, align 4
  %59 = load i32, ptr %7, align 4
  %60 = mul i32 %58, %59
  %61 = icmp ult i32 %60, 1024
  br i1 %61, label %62, label %69

62:                                               ; preds = %57
  %63 = load i32, ptr %7, align 4
  %64 = load i32, ptr %7, align 4
  %65 = mul i32 %63, %64
  call void @put(ptr noundef %3, i32 noundef %65) #5
  br label %66

66:                                               ; preds = %62
  %67 = load i32, ptr %7, align 4
  %68 = add i32 %67, 1
  store i32 %68, ptr %7, align 4
  br label %57, !llvm.loop !7

69:                                               ; preds = %57
  %70 = call i32 @next(ptr noundef %3, i32 noundef 0) #5
  store i32 %70, ptr %8, align 4
  br label %71

71:                                               ; preds = %90, %69
  %72 = load i32, ptr %8, align 4
  %73 = icmp slt i32 %72, 1024
  br i1 %73, label %74, label %94

74:                                               ; preds = %71
  %75 = load i32, ptr %8, align 4
  store i32 %75, ptr %9, align 4
  br label %76

76:                                               ; preds = %85, %74
  %77 = load i32, ptr %8, align 4
  %78 = load i32, ptr %9, align 4
  %79 = add nsw i32 %77, %78
  %80 = icmp slt i32 %79, 1024
  br i1 %80, label %81, label %89

81:                                               ; preds = %76
  %82 = load i32, ptr %8, align 4
  %83 = load i32, ptr %9, align 4
  %84 = add nsw i32 %82, %83
  call void @put(ptr noundef %4, i32 noundef %84) #5
  br label %85

85:                                               ; preds = %81
  %86 = load i32, ptr %9, align 4
  %87 = add nsw i32 %86, 1
  %88 = call i32 @next(ptr noundef %3, i32 noundef %87) #5
  store i32 %88, ptr %9, align 4
  br label %76, !llvm.loop !8

89:                                               ; preds = %76
  br label %90

90:                                               ; preds = %89
  %91 = load i32, ptr %8, align 4
  %92 = add nsw i32 %91, 1
  %93 = call i32 @next(ptr noundef %3, i32 noundef %92) #5
  store i32 %93, ptr %8, align 4
  br label %71, !llvm.loop !9

94:                                               ; preds = %71
  call void @join(ptr noundef %10, ptr noundef %2, ptr noundef %4, i64 noundef 0) #5
  call void @join(ptr noundef %11, ptr noundef %2, ptr noundef %3, i64 noundef -1) #5
  %95 = call i32 @count(ptr noundef %2) #5
  %96 = call i32 @count(ptr noundef %3) #5
  %97 = call i32 @count(ptr noundef %4) #5
  %98 = call i32 @count(ptr noundef %10) #5
  %99 = call i32 @count(ptr noundef %11) #5
  %100 = call i32 (ptr, ...) @printf(ptr noundef @.str, i32 noundef %95, i32 noundef %96, i32 noundef %97, i32 noundef %98, i32 noundef %99) #5
  %101 = call i32 @next(ptr noundef %10, i32 noundef 900) #5
  store i32 %101, ptr %12, align 4
  br label %102

102:                                              ; preds = %114, %94
  %103 = load i32, ptr %12, align 4
  %104 = icmp slt i32 %103, 1024
  br i1 %104, label %105, label %118

105:                                              ; preds = %102
  %106 = load i32, ptr %12, align 4
  %107 = load i32, ptr %12, align 4
  %108 = add nsw i32 %107, 1
  %109 = call i32 @next(ptr noundef %10, i32 noundef %108) #5
  %110 = icmp slt i32 %109, 1024
  %111 = zext i1 %110 to i64
  %112 = select i1 %110, i32 32, i32 10
  %113 = call i32 (ptr, ...) @printf(ptr noundef @.str.1, i32 noundef %106, i32 noundef %112) #5
  br label %114

114:                                              ; preds = %105
  %115 = load i32, ptr %12, align 4
  %116 = add nsw i32 %115, 1
  %117 = call i32 @next(ptr noundef %10, i32 noundef %116) #5
  store i32 %117, ptr %12, align 4
  br label %102, !llvm.loop !10

118:                                              ; preds = %102
  %119 = call i32 @count(ptr noundef %10) #5
  ret i32 %119
}

; Function Attrs: nocallback nofree nounwind willreturn memory(argmem: write)
declare void @llvm.memset.p0.i64(ptr nocapture writeonly, i8, i64, i1 immarg) #1

; Function Attrs: nocallback nofree nounwind willreturn memory(argmem: readwrite)
declare void @llvm.memcpy.p0.p0.i64(ptr noalias nocapture writeonly, ptr noalias nocapture readonly, i64, i1 immarg) #2

; Function Attrs: noinline nounwind optnone uwtable
define internal i32 @has(ptr noundef %0, i32 noundef %1) #0 {
  %3 = alloca ptr, align 8
  %4 = alloca i32, align 4
  store ptr %0, ptr %3, align 8
  store i32 %1, ptr %4, align 4
  %5 = load ptr, ptr %3, align 8
  %6 = getelementptr inbounds %struct.Set, ptr %5, i32 0, i32 0
  %7 = load i32, ptr %4, align 4
  %8 = udiv i32 %7, 64
  %9 = zext i32 %8 to i64
  %10 = getelementptr inbounds [16 x i64], ptr %6, i64 0, i64 %9
  %11 = load i64, ptr %10, align 8
  %12 = load i32, ptr %4, align 4
  %13 = urem i32 %12, 64
  %14 = zext i32 %13 to i64
  %15 = lshr i64 %11, %14
  %16 = and i64 %15, 1
  %17 = trunc i64 %16 to i32
  ret i32 %17
}

; Function Attrs: noinline nounwind optnone uwtable
define internal void @put(ptr noundef %0, i32 noundef %1) #0 {
  %3 = alloca ptr, align 8
  %4 = alloca i32, align 4
  store ptr %0, ptr %3, align 8
  store i32 %1, ptr %4, align 4
  %5 = load i32, ptr %4, align 4
  %6 = urem i32 %5, 64
  %7 = zext i32 %6 to i64
  %8 = shl i64 1, %7
  %9 = load ptr, ptr %3, align 8
  %10 = getelementptr inbounds %struct.Set, ptr %9, i32 0, i32 0
  %11 = load i32, ptr %4, align 4
  %12 = udiv i32 %11, 64
  %13 = zext i32 %12 to i64
  %14 = getelementptr inbounds [16 x i64], ptr %10, i64 0, i64 %13
  %15 = load i64, ptr %14, align 8
  %16 = or i64 %15, %8
  store i64 %16, ptr %14, align 8
  ret void
}

; Function Attrs: noinline nounwind optnone uwtable
define internal i32 @next(ptr noundef %0, i32 noundef %1) #0 {
  %3 = alloca i32, align 4
  %4 = alloca ptr, align 8
  %5 = alloca i32, align 4
  %6 = alloca i32, align 4
  %7 = alloca i64, align 8
  store ptr %0, ptr %4, align 8
  store i32 %1, ptr %5, align 4
  %8 = load i32, ptr %5, align 4
  %9 = sdiv i32 %8, 64
  store i32 %9, ptr %6, align 4
  br label %10

10:                                               ; preds = %42, %2
  %11 = load i32, ptr %6, align 4
  %12 = icmp slt i32 %11, 16
  br i1 %12, label %13, label %45

13:                                               ; preds = %10
  %14 = load ptr, ptr %4, align 8
  %15 = getelementptr inbounds %struct.Set, ptr %14, i32 0, i32 0
  %16 = load i32, ptr %6, align 4
  %17 = sext i32 %16 to i64
  %18 = getelementptr inbounds [16 x i64], ptr %15, i64 0, i64 %17
  %19 = load i64, ptr %18, align 8
  store i64 %19, ptr %7, align 8
  %20 = load i32, ptr %6, align 4
  %21 = load i32, ptr %5, align 4
  %22 = sdiv i32 %21, 64
  %23 = icmp eq i32 %20, %22
  br i1 %23, label %24, label %31

24:                                               ; preds = %13
  %25 = load i32, ptr %5, align 4
  %26 = srem i32 %25, 64
  %27 = zext i32 %26 to i64
  %28 = shl i64 -1, %27
  %29 = load i64, ptr %7, align 8
  %30 = and i64 %29, %28
  store i64 %30, ptr %7, align 8
  br label %31

31:                                               ; preds = %24, %13
  %32 = load i64, ptr %7, align 8
  %33 = icmp ne i64 %32, 0
  br i1 %33, label %34, label %41

34:                                               ; preds = %31
  %35 = load i32, ptr %6, align 4
  %36 = mul nsw i32 %35, 64
  %37 = load i64, ptr %7, align 8
  %38 = call i64 @llvm.cttz.i64(i64 %37, i1 true)
  %39 = trunc i64 %38 to i32
  %40 = add nsw i32 %36, %39
  store i32 %40, ptr %3, align 4
  br label %46

41:                                               ; preds = %31
  br label %42

42:                                               ; preds = %41
  %43 = load i32, ptr %6, align 4
  %44 = add nsw i32 %43, 1
  store i32 %44, ptr %6, align 4
  br label %10, !llvm.loop !11

45:                                               ; preds = %10
  store i32 1024, ptr %3, align 4
  br label %46

46:                                               ; preds = %45, %34
  %47 = load i32, ptr %3, align 4
  ret i32 %47
}

; Function Attrs: noinline nounwind optnone uwtable
define internal void @join(ptr noundef %0, ptr noundef %1, ptr noundef %2, i64 noundef %3) #0 {
  %5 = alloca ptr, align 8
  %6 = alloca ptr, align 8
  %7 = alloca ptr, align 8
  %8 = alloca i64, align 8
  %9 = alloca i32, align 4
  %10 = alloca i32, align 4
  store ptr %0, ptr %5, align 8
  store ptr %1, ptr %6, align 8
  store ptr %2, ptr %7, align 8
  store i64 %3, ptr %8, align 8
  store i32 0, ptr %9, align 4
  br label %11

11:                                               ; preds = %37, %4
  %12 = load i32, ptr %9, align 4
  %13 = icmp slt i32 %12, 16
  br i1 %13, label %14, label %40

14:                                               ; preds = %11
  %15 = load ptr, ptr %6, align 8
  %16 = getelementptr inbounds %struct.Set, ptr %15, i32 0, i32 0
  %17 = load i32, ptr %9, align 4
  %18 = sext i32 %17 to i64
  %19 = getelementptr inbounds [16 x i64], ptr %16, i64 0, i64 %18
  %20 = load i64, ptr %19, align 8
  %21 = load i64, ptr %8, align 8
  %22 = xor i64 %20, %21
  %23 = load ptr, ptr %7, align 8
  %24 = getelementptr inbounds %struct.Set, ptr %23, i32 0, i32 0
  %25 = load i32, ptr %9, align 4
  %26 = sext i32 %25 to i64
  %27 = getelementptr inbounds [16 x i64], ptr %24, i64 0, i64 %26
  %28 = load i64, ptr %27, align 8
  %29 = load i64, ptr %8, align 8
  %30 = xor i64 %28, %29
  %31 = and i64 %22, %30
  %32 = load ptr, ptr %5, align 8
  %33 = getelementptr inbounds %struct.Set, ptr %32, i32 0, i32 0
  %34 = load i32, ptr %9, align 4
  %35 = sext i32 %34 to i64
  %36 = getelementptr inbounds [16 x i64], ptr %33, i64 0, i64 %35
  store i64 %31, ptr %36, align 8
  br label %37

37:                                               ; preds = %14
  %38 = load i32, ptr %9, align 4
  %39 = add nsw i32 %38, 1
  store i32 %39, ptr %9, align 4
  br label %11, !llvm.loop !12

40:                                               ; preds = %11
  store i32 0, ptr %10, align 4
  br label %41

41:                                               ; preds = %53, %40
  %42 = load i32, ptr %10, align 4
  %43 = icmp slt i32 %42, 16
  br i1 %43, label %44, label %56

44:                                               ; preds = %41
  %45 = load i64, ptr %8, align 8
  %46 = load ptr, ptr %5, align 8
  %47 = getelementptr inbounds %struct.Set, ptr %46, i32 0, i32 0
  %48 = load i32, ptr %10, align 4
  %49 = sext i32 %48 to i64
  %50 = getelementptr inbounds [16 x i64], ptr %47, i64 0, i64 %49
  %51 = load i64, ptr %50, align 8
  %52 = xor i64 %51, %45
  store i64 %52, ptr %50, align 8
  br label %53

53:                                               ; preds = %44
  %54 = load i32, ptr %10, align 4
  %55 = add nsw i32 %54, 1
  store i32 %55, ptr %10, align 4
  br label %41, !llvm.loop !13

56:                                               ; preds = %41
  ret void
}

declare dso_local i32 @printf(ptr noundef, ...) #3

; Function Attrs: noinline nounwind optnone uwtable
define internal i32 @count(ptr noundef %0) #0 {
  %2 = alloca ptr, align 8
  %3 = alloca i32, align 4
  %4 = alloca i32, align 4
  store ptr %0, ptr %2, align 8
  store i32 0, ptr %3, align 4
  store i32 0, ptr %4, align 4
  br label %5

5:                                                ; preds = %19, %1
  %6 = load i32, ptr %4, align 4
  %7 = icmp slt i32 %6, 16
  br i1 %7, label %8, label %22

8:                                                ; preds = %5
  %9 = load ptr, ptr %2, align 8
  %10 = getelementptr inbounds %struct.Set, ptr %9, i32 0, i32 0
  %11 = load i32, ptr %4, align 4
  %12 = sext i32 %11 to i64
  %13 = getelementptr inbounds [16 x i64], ptr %10, i64 0, i64 %12
  %14 = load i64, ptr %13, align 8
  %15 = call i64 @llvm.ctpop.i64(i64 %14)
  %16 = trunc i64 %15 to i32
  %17 = load i32, ptr %3, align 4
  %18 = add nsw i32 %17, %16
  store i32 %18, ptr %3, align 4
  br label %19

19:                                               ; preds = %8
  %20 = load i32, ptr %4, align 4
  %21 = add nsw i32 %20, 1
  store i32 %21, ptr %4, align 4
  br label %5, !llvm.loop !14

22:                                               ; preds = %5
  %23 = load i32, ptr %3, align 4
  ret i32 %23
}

; Function Attrs: nocallback nofree nosync nounwind speculatable willreturn memory(none)
declare i64 @llvm.cttz.i64(i64, i1 immarg) #4

; Function Attrs: nocallback nofree nosync nounwind speculatable willreturn memory(none)
declare i64 @llvm.ctpop.i64(i64) #4

attributes #0 = { noinline nounwind optnone uwtable "frame-pointer"="all" "min-legal-vector-width"="0" "no-builtin-calloc" "no-trapping-math"="true" "stack-protector-buffer-size"="8" "target-cpu"="x86-64" "target-features"="+cmov,+cx8,+fxsr,-aes,-avx,-avx10.1-256,-avx10.1-512,-avx2,-avx512bf16,-avx512bitalg,-avx512bw,-avx512cd,-avx512dq,-avx512f,-avx512fp16,-avx512ifma,-avx512vbmi,-avx512vbmi2,-avx512vl,-avx512vnni,-avx512vp2intersect,-avx512vpopcntdq,-avxifma,-avxneconvert,-avxvnni,-avxvnniint16,-avxvnniint8,-f16c,-fma,-fma4,-gfni,-kl,-mmx,-pclmul,-sha,-sha512,-sm3,-sm4,-sse,-sse2,-sse3,-sse4.1,-sse4.2,-sse4a,-ssse3,-vaes,-vpclmulqdq,-widekl,-x87,-xop" "tune-cpu"="generic" }
attributes #1 = { nocallback nofree nounwind willreturn memory(argmem: write) }
attributes #2 = { nocallback nofree nounwind willreturn memory(argmem: readwrite) }
attributes #3 = { "frame-pointer"="all" "no-builtin-calloc" "no-trapping-math"="true" "stack-protector-buffer-size"="8" "target-cpu"="x86-64" "target-features"="+cmov,+cx8,+fxsr,-aes,-avx,-avx10.1-256,-avx10.1-512,-avx2,-avx512bf16,-avx512bitalg,-avx512bw,-avx512cd,-avx512dq,-avx512f,-avx512fp16,-avx512ifma,-avx512vbmi,-avx512vbmi2,-avx512vl,-avx512vnni,-avx512vp2intersect,-avx512vpopcntdq,-avxifma,-avxneconvert,-avxvnni,-avxvnniint16,-avxvnniint8,-f16c,-fma,-fma4,-gfni,-kl,-mmx,-pclmul,-sha,-sha512,-sm3,-sm4,-sse,-sse2,-sse3,-sse4.1,-sse4.2,-sse4a,-ssse3,-vaes,-vpclmulqdq,-widekl,-x87,-xop" "tune-cpu"="generic" }
attributes #4 = { nocallback nofree nosync nounwind speculatable willreturn memory(none) }
attributes #5 = { "no-builtin-calloc" }

!llvm.module.flags = !{!0, !1, !2}
!llvm.ident = !{!3}

!0 = !{i32 1, !"wchar_size", i32 4}
!1 = !{i32 7, !"uwtable", i32 2}
!2 = !{i32 7, !"frame-pointer", i32 2}
!3 = !{!"Debian clang version 19.1.7 (3~deb12u1)"}
!4 = distinct !{!4, !5}
!5 = !{!"llvm.loop.mustprogress"}
!6 = distinct !{!6, !5}
!7 = distinct !{!7, !5}
!8 = distinct !{!8, !5}
!9 = distinct !{!9, !5}
!10 = distinct !{!10, !5}
!11 = distinct !{!11, !5}
!12 = distinct !{!12, !5}
!13 = distinct !{!13, !5}
!14 = distinct !{!14, !5}
