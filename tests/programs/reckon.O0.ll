; ModuleID = 'reckon.c'
source_filename = "reckon.c"
target datalayout = "e-m:e-p270:32:32-p271:32:32-p272:64:64-i64:64-i128:128-f80:128-n8:16:32:64-S128"
target triple = "x86_64-pc-linux-gnu"

%struct.Reader = type { ptr, i32, [26 x i64] }

@main.lines = internal global [8 x ptr] [ptr @.str, ptr @.str.1, ptr @.str.2, ptr @.str.3, ptr @.str.4, ptr @.str.5, ptr @.str.6, ptr @.str.7], align 16
@.str = private unnamed_addr constant [10 x i8] c"1 + 2 * 3\00", align 1
@.str.1 = private unnamed_addr constant [13 x i8] c"(1 + 2) * -3\00", align 1
@.str.2 = private unnamed_addr constant [16 x i8] c"x = 7 * (y = 6)\00", align 1
@.str.3 = private unnamed_addr constant [20 x i8] c"x / y - 100 / 7 / 2\00", align 1
@.str.4 = private unnamed_addr constant [7 x i8] c"2 * (3\00", align 1
@.str.5 = private unnamed_addr constant [13 x i8] c"4 / (x - 42)\00", align 1
@.str.6 = private unnamed_addr constant [4 x i8] c"* 2\00", align 1
@.str.7 = private unnamed_addr constant [28 x i8] c"a = b = c = 12345678901 * 3\00", align 1
@.str.8 = private unnamed_addr constant [16 x i8] c"wrong %d at %c\0A\00", align 1
@.str.9 = private unnamed_addr constant [5 x i8] c"%ld\0A\00", align 1

; Function Attrs: noinline nounwind optnone uwtable
define dso_local i32 @main() #0 {
  %1 = alloca i32, align 4
  %2 = alloca %struct.Reader, align 8
  %3 = alloca i32, align 4
  %4 = alloca i32, align 4
  %5 = alloca i64, align 8
  store i32 0, ptr %1, align 4
  call void @llvm.memset.p0.i64(ptr align 8 %2, i8 0, i64 224, i1 false)
  store i32 0, ptr %3, align 4
  store i32 0, ptr %4, align 4
  br label %6

6:                                                ; preds = %43, %0
  %7 = load i32, ptr %4, align 4
  %8 = icmp slt i32 %7, 8
  br i1 %8, label %9, label %46

9:                                                ; preds = %6
  %10 = load i32, ptr %4, align 4
  %11 = sext i32 %10 to i64
  %12 = getelementptr inbounds [8 x ptr], ptr @main.lines, i64 0, i64 %11
  %13 = load ptr, ptr %12, align 8
  %14 = getelementptr inbounds %struct.Reader, ptr %2, i32 0, i32 0
  store ptr %13, ptr %14, align 8
  %15 = getelementptr inbounds %struct.Reader, ptr %2, i32 0, i32 1
  store i32 0, ptr %15, align 8
  %16 = call i64 @sum(ptr noundef %2) #3
  store i64 %16, ptr %5, align 8
  %17 = getelementptr inbounds %struct.Reader, ptr %2, i32 0, i32 1
  %18 = load i32, ptr %17, align 8
  %19 = icmp ne i32 %18, 0
  br i1 %19, label %20, label %39

20:                                               ; preds = %9
  %21 = load i32, ptr %3, align 4
  %22 = add nsw i32 %21, 1
  store i32 %22, ptr %3, align 4
  %23 = getelementptr inbounds %struct.Reader, ptr %2, i32 0, i32 1
  %24 = load i32, ptr %23, align 8
  %25 = getelementptr inbounds %struct.Reader, ptr %2, i32 0, i32 0
  %26 = load ptr, ptr %25, align 8
  %27 = load i8, ptr %26, align 1
  %28 = sext i8 %27 to i32
  %29 = icmp ne i32 %28, 0
  br i1 %29, label %30, label %35

30:                                               ; preds = %20
  %31 = getelementptr inbounds %struct.Reader, ptr %2, i32 0, i32 0
  %32 = load ptr, ptr %31, align 8
  %33 = load i8, ptr %32, align 1
  %34 = sext i8 %33 to i32
  br label %36

35:                                               ; preds = %20
  br label %36

36:                                               ; preds = %35, %30
  %37 = phi i32 [ %34, %30 ], [ 46, %35 ]
  %38 = call i32 (ptr, ...) @printf(ptr noundef @.str.8, i32 noundef %24, i32 noundef %37) #3
  br label %42

39:                                               ; preds = %9
  %40 = load i64, ptr %5, align 8
  %41 = call i32 (ptr, ...) @printf(ptr noundef @.str.9, i64 noundef %40) #3
  br label %42

42:                                               ; preds = %39, %36
  br label %43

43:                                               ; preds = %42
  %44 = load i32, ptr %4, align 4
  %45 = add nsw i32 %44, 1
  store i32 %45, ptr %4, align 4
  br label %6, !llvm.loop !4

46:                                               ; preds = %6
  %47 = load i32, ptr %3, align 4
  %48 = mul nsw i32 %47, 10
  %49 = getelementptr inbounds %struct.Reader, ptr %2, i32 0, i32 2
  %50 = getelementptr inbounds [26 x i64], ptr %49, i64 0, i64 23
  %51 = load i64, ptr %50, align 8
  %52 = srem i64 %51, 10
  %53 = trunc i64 %52 to i32
  %54 = add nsw i32 %48, %53
  ret i32 %54
}

; Function Attrs: nocallback nofree nounwind willreturn memory(argmem: write)
declare void @llvm.memset.p0.i64(ptr nocapture writeonly, i8, i64, i1 immarg) #1

; Function Attrs: noinline nounwind optnone uwtable
define internal i64 @sum(ptr noundef %0) #0 {
  %2 = alloca ptr, align 8
  %3 = alloca i64, align 8
  store ptr %0, ptr %2, align 8
  %4 = load ptr, ptr %2, align 8
  %5 = call i64 @product(ptr noundef %4) #3
  store i64 %5, ptr %3, align 8
  br label %6

6:                                                ; preds = %27, %1
  %7 = load ptr, ptr %2, align 8
  %8 = call i32 @takes(ptr noundef %7, i8 noundef signext 43) #3
  %9 = icmp ne i32 %8, 0
  br i1 %9, label %10, label %15

10:                                               ; preds = %6
  %11 = load ptr, ptr %2, align 8
  %12 = call i64 @product(ptr noundef %11) #3
  %13 = load i64, ptr %3, align 8
  %14 = add nsw i64 %13, %12
  store i64 %14, ptr %3, align 8
  br label %27

15:                                               ; preds = %6
  %16 = load ptr, ptr %2, align 8
  %17 = call i32 @takes(ptr noundef %16, i8 noundef signext 45) #3
  %18 = icmp ne i32 %17, 0
  br i1 %18, label %19, label %24

19:                                               ; preds = %15
  %20 = load ptr, ptr %2, align 8
  %21 = call i64 @product(ptr noundef %20) #3
  %22 = load i64, ptr %3, align 8
  %23 = sub nsw i64 %22, %21
  store i64 %23, ptr %3, align 8
  br label %26

24:                                               ; preds = %15
  %25 = load i64, ptr %3, align 8
  ret i64 %25

26:                                               ; preds = %19
  br label %27

27:                                               ; preds = %26, %10
  br label %6
}

declare dso_local i32 @printf(ptr noundef, ...) #2

; Function Attrs: noinline nounwind optnone uwtable
define internal i64 @product(ptr noundef %0) #0 {
  %2 = alloca i64, align 8
  %3 = alloca ptr, align 8
  %4 = alloca i64, align 8
  %5 = alloca i64, align 8
  store ptr %0, ptr %3, align 8
  %6 = load ptr, ptr %3, align 8
  %7 = call i64 @atom(ptr noundef %6) #3
  store i64 %7, ptr %4, align 8
  br label %8

8:                                                ; preds = %36, %1
  %9 = load ptr, ptr %3, align 8
  %10 = call i32 @takes(ptr noundef %9, i8 noundef signext 42) #3
  %11 = icmp ne i32 %10, 0
  br i1 %11, label %12, label %17

12:                                               ; preds = %8
  %13 = load ptr, ptr %3, align 8
  %14 = call i64 @atom(ptr noundef %13) #3
  %15 = load i64, ptr %4, align 8
  %16 = mul nsw i64 %15, %14
  store i64 %16, ptr %4, align 8
  br label %36

17:                                               ; preds = %8
  %18 = load ptr, ptr %3, align 8
  %19 = call i32 @takes(ptr noundef %18, i8 noundef signext 47) #3
  %20 = icmp ne i32 %19, 0
  br i1 %20, label %21, label %33

21:                                               ; preds = %17
  %22 = load ptr, ptr %3, align 8
  %23 = call i64 @atom(ptr noundef %22) #3
  store i64 %23, ptr %5, align 8
  %24 = load i64, ptr %5, align 8
  %25 = icmp eq i64 %24, 0
  br i1 %25, label %26, label %29

26:                                               ; preds = %21
  %27 = load ptr, ptr %3, align 8
  %28 = getelementptr inbounds %struct.Reader, ptr %27, i32 0, i32 1
  store i32 3, ptr %28, align 8
  store i64 0, ptr %2, align 8
  br label %37

29:                                               ; preds = %21
  %30 = load i64, ptr %5, align 8
  %31 = load i64, ptr %4, align 8
  %32 = sdiv i64 %31, %30
  store i64 %32, ptr %4, align 8
  br label %35

33:                                               ; preds = %17
  %34 = load i64, ptr %4, align 8
  store i64 %34, ptr %2, align 8
  br label %37

35:                                               ; preds = %29
  br label %36

36:                                               ; preds = %35, %12
  br label %8

37:                                               ; preds = %33, %26
  %38 = load i64, ptr %2, align 8
  ret i64 %38
}

; Function Attrs: noinline nounwind optnone uwtable
define internal i32 @takes(ptr noundef %0, i8 noundef signext %1) #0 {
  %3 = alloca ptr, align 8
  %4 = alloca i8, align 1
  store ptr %0, ptr %3, align 8
  store i8 %1, ptr %4, align 1
  %5 = load ptr, ptr %3, align 8
  call void @skip(ptr noundef %5) #3
  %6 = load ptr, ptr %3, align 8
  %7 = getelementptr inbounds %struct.Reader, ptr %6, i32 0, i32 0
  %8 = load ptr, ptr %7, align 8
  %9 = load i8, ptr %8, align 1
  %10 = sext i8 %9 to i32
  %11 = load i8, ptr %4, align 1
  %12 = sext i8 %11 to i32
  %13 = icmp eq i32 %10, %12
  br i1 %13, label %14, label %19

14:                                               ; preds = %2
  %15 = load ptr, ptr %3, align 8
  %16 = getelementptr inbounds %struct.Reader, ptr %15, i32 0, i32 0
  %17 = load ptr, ptr %16, align 8
  %18 = getelementptr inbounds i8, ptr %17, i32 1
  store ptr %18, ptr %16, align 8
  br label %20

19:                                               ; preds = %2
  br label %20

20:                                               ; preds = %19, %14
  %21 = phi i32 [ 1, %14 ], [ 0, %19 ]
  ret i32 %21
}

; Function Attrs: noinline nounwind optnone uwtable
define internal i64 @atom(ptr noundef %0) #0 {
  %2 = alloca i64, align 8
  %3 = alloca ptr, align 8
  %4 = alloca i64, align 8
  %5 = alloca i32, align 4
  %6 = alloca i64, align 8
  store ptr %0, ptr %3, align 8
  %7 = load ptr, ptr %3, align 8
  call void @skip(ptr noundef %7) #3
  %8 = load ptr, ptr %3, align 8
  %9 = call i32 @takes(ptr noundef %8, i8 noundef signext 40) #3
  %10 = icmp ne i32 %9, 0
  br i1 %10, label %11, label %22

11:                                               ; preds = %1
  %12 = load ptr, ptr %3, align 8
  %13 = call i64 @sum(ptr noundef %12) #3
  store i64 %13, ptr %4, align 8
  %14 = load ptr, ptr %3, align 8
  %15 = call i32 @takes(ptr noundef %14, i8 noundef signext 41) #3
  %16 = icmp ne i32 %15, 0
  br i1 %16, label %20, label %17

17:                                               ; preds = %11
  %18 = load ptr, ptr %3, align 8
  %19 = getelementptr inbounds %struct.Reader, ptr %18, i32 0, i32 1
  store i32 1, ptr %19, align 8
  br label %20

20:                                               ; preds = %17, %11
  %21 = load i64, ptr %4, align 8
  store i64 %21, ptr %2, align 8
  br label %120

22:                                               ; preds = %1
  %23 = load ptr, ptr %3, align 8
  %24 = call i32 @takes(ptr noundef %23, i8 noundef signext 45) #3
  %25 = icmp ne i32 %24, 0
  br i1 %25, label %26, label %30

26:                                               ; preds = %22
  %27 = load ptr, ptr %3, align 8
  %28 = call i64 @atom(ptr noundef %27) #3
  %29 = sub nsw i64 0, %28
  store i64 %29, ptr %2, align 8
  br label %120

30:                                               ; preds = %22
  %31 = load ptr, ptr %3, align 8
  %32 = getelementptr inbounds %struct.Reader, ptr %31, i32 0, i32 0
  %33 = load ptr, ptr %32, align 8
  %34 = load i8, ptr %33, align 1
  %35 = sext i8 %34 to i32
  %36 = icmp sge i32 %35, 97
  br i1 %36, label %37, label %72

37:                                               ; preds = %30
  %38 = load ptr, ptr %3, align 8
  %39 = getelementptr inbounds %struct.Reader, ptr %38, i32 0, i32 0
  %40 = load ptr, ptr %39, align 8
  %41 = load i8, ptr %40, align 1
  %42 = sext i8 %41 to i32
  %43 = icmp sle i32 %42, 122
  br i1 %43, label %44, label %72

44:                                               ; preds = %37
  %45 = load ptr, ptr %3, align 8
  %46 = getelementptr inbounds %struct.Reader, ptr %45, i32 0, i32 0
  %47 = load ptr, ptr %46, align 8
  %48 = getelementptr inbounds i8, ptr %47, i32 1
  store ptr %48, ptr %46, align 8
  %49 = load i8, ptr %47, align 1
  %50 = sext i8 %49 to i32
  %51 = sub nsw i32 %50, 97
  store i32 %51, ptr %5, align 4
  %52 = load ptr, ptr %3, align 8
  %53 = call i32 @takes(ptr noundef %52, i8 noundef signext 61) #3
  %54 = icmp ne i32 %53, 0
  br i1 %54, label %55, label %63

55:                                               ; preds = %44
  %56 = load ptr, ptr %3, align 8
  %57 = call i64 @sum(ptr noundef %56) #3
  %58 = load ptr, ptr %3, align 8
  %59 = getelementptr inbounds %struct.Reader, ptr %58, i32 0, i32 2
  %60 = load i32, ptr %5, align 4
  %61 = sext i32 %60 to i64
  %62 = getelementptr inbounds [26 x i64], ptr %59, i64 0, i64 %61
  store i64 %57, ptr %62, align 8
  br label %70

63:                                               ; preds = %44
  %64 = load ptr, ptr %3, align 8
  %65 = getelementptr inbounds %struct.Reader, ptr %64, i32 0, i32 2
  %66 = load i32, ptr %5, align 4
  %67 = sext i32 %66 to i64
  %68 = getelementptr inbounds [26 x i64], ptr %65, i64 0, i64 %67
  %69 = load i64, ptr %68, align 8
  br label %70

70:                                               ; preds = %63, %55
  %71 = phi i64 [ %57, %55 ], [ %69, %63 ]
  store i64 %71, ptr %2, align 8
  br label %120

72:                                               ; preds = %37, %30
  %73 = load ptr, ptr %3, align 8
  %74 = getelementptr inbounds %struct.Reader, ptr %73, i32 0, i32 0
  %75 = load ptr, ptr %74, align 8
  %76 = load i8, ptr %75, align 1
  %77 = sext i8 %76 to i32
  %78 = icmp slt i32 %77, 48
  br i1 %78, label %86, label %79

79:                                               ; preds = %72
  %80 = load ptr, ptr %3, align 8
  %81 = getelementptr inbounds %struct.Reader, ptr %80, i32 0, i32 0
  %82 = load ptr, ptr %81, align 8
  %83 = load i8, ptr %82, align 1
  %84 = sext i8 %83 to i32
  %85 = icmp sgt i32 %84, 57
  br i1 %85, label %86, label %89

86:                                               ; preds = %79, %72
  %87 = load ptr, ptr %3, align 8
  %88 = getelementptr inbounds %struct.Reader, ptr %87, i32 0, i32 1
  store i32 2, ptr %88, align 8
  store i64 0, ptr %2, align 8
  br label %120

89:                                               ; preds = %79
  store i64 0, ptr %6, align 8
  br label %90

90:                                               ; preds = %106, %89
  %91 = load ptr, ptr %3, align 8
  %92 = getelementptr inbounds %struct.Reader, ptr %91, i32 0, i32 0
  %93 = load ptr, ptr %92, align 8
  %94 = load i8, ptr %93, align 1
  %95 = sext i8 %94 to i32
  %96 = icmp sge i32 %95, 48
  br i1 %96, label %97, label %104

97:                                               ; preds = %90
  %98 = load ptr, ptr %3, align 8
  %99 = getelementptr inbounds %struct.Reader, ptr %98, i32 0, i32 0
  %100 = load ptr, ptr %99, align 8
  %101 = load i8, ptr %100, align 1
  %102 = sext i8 %101 to i32
  %103 = icmp sle i32 %102, 57
  br label %104

104:                                              ; preds = %97, %90
  %105 = phi i1 [ false, %90 ], [ %103, %97 ]
  br i1 %105, label %106, label %118

106:                                              ; preds = %104
  %107 = load i64, ptr %6, align 8
  %108 = mul nsw i64 %107, 10
  %109 = load ptr, ptr %3, align 8
  %110 = getelementptr inbounds %struct.Reader, ptr %109, i32 0, i32 0
  %111 = load ptr, ptr %110, align 8
  %112 = getelementptr inbounds i8, ptr %111, i32 1
  store ptr %112, ptr %110, align 8
  %113 = load i8, ptr %111, align 1
  %114 = sext i8 %113 to i32
  %115 = sub nsw i32 %114, 48
  %116 = sext i32 %115 to i64
  %117 = add nsw i64 %108, %116
  store i64 %117, ptr %6, align 8
  br label %90, !llvm.loop !6

118:                                              ; preds = %104
  %119 = load i64, ptr %6, align 8
  store i64 %119, ptr %2, align 8
  br label %120

120:                                              ; preds = %118, %86, %70, %26, %20
  %121 = load i64, ptr %2, align 8
  ret i64 %121
}

; Function Attrs: noinline nounwind optnone uwtable
define internal void @skip(ptr noundef %0) #0 {
  %2 = alloca ptr, align 8
  store ptr %0, ptr %2, align 8
  br label %3

3:                                                ; preds = %10, %1
  %4 = load ptr, ptr %2, align 8
  %5 = getelementptr inbounds %struct.Reader, ptr %4, i32 0, i32 0
  %6 = load ptr, ptr %5, align 8
  %7 = load i8, ptr %6, align 1
  %8 = sext i8 %7 to i32
  %9 = icmp eq i32 %8, 32
  br i1 %9, label %10, label %15

10:                                               ; preds = %3
  %11 = load ptr, ptr %2, align 8
  %12 = getelementptr inbounds %struct.Reader, ptr %11, i32 0, i32 0
  %13 = load ptr, ptr %12, align 8
  %14 = getelementptr inbounds i8, ptr %13, i32 1
  store ptr %14, ptr %12, align 8
  br label %3, !llvm.loop !7

15:                                               ; preds = %3
  ret void
}

attributes #0 = { noinline nounwind optnone uwtable "frame-pointer"="all" "min-legal-vector-width"="0" "no-builtin-calloc" "no-trapping-math"="true" "stack-protector-buffer-size"="8" "target-cpu"="x86-64" "target-features"="+cmov,+cx8,+fxsr,-aes,-avx,-avx10.1-256,-avx10.1-512,-avx2,-avx512bf16,-avx512bitalg,-avx512bw,-avx512cd,-avx512dq,-avx512f,-avx512fp16,-avx512ifma,-avx512vbmi,-avx512vbmi2,-avx512vl,-avx512vnni,-avx512vp2intersect,-avx512vpopcntdq,-avxifma,-avxneconvert,-avxvnni,-avxvnniint16,-avxvnniint8,-f16c,-fma,-fma4,-gfni,-kl,-mmx,-pclmul,-sha,-sha512,-sm3,-sm4,-sse,-sse2,-sse3,-sse4.1,-sse4.2,-sse4a,-ssse3,-vaes,-vpclmulqdq,-widekl,-x87,-xop" "tune-cpu"="generic" }
attributes #1 = { nocallback nofree nounwind willreturn memory(argmem: write) }
attributes #2 = { "frame-pointer"="all" "no-builtin-calloc" "no-trapping-math"="true" "stack-protector-buffer-size"="8" "target-cpu"="x86-64" "target-features"="+cmov,+cx8,+fxsr,-aes,-avx,-avx10.1-256,-avx10.1-512,-avx2,-avx512bf16,-avx512bitalg,-avx512bw,-avx512cd,-avx512dq,-avx512f,-avx512fp16,-avx512ifma,-avx512vbmi,-avx512vbmi2,-avx512vl,-avx512vnni,-avx512vp2intersect,-avx512vpopcntdq,-avxifma,-avxneconvert,-avxvnni,-avxvnniint16,-avxvnniint8,-f16c,-fma,-fma4,-gfni,-kl,-mmx,-pclmul,-sha,-sha512,-sm3,-sm4,-sse,-sse2,-sse3,-sse4.1,-sse4.2,-sse4a,-ssse3,-vaes,-vpclmulqdq,-widekl,-x87,-xop" "tune-cpu"="generic" }
attributes #3 = { "no-builtin-calloc" }

!llvm.module.flags = !{!0, !1, !2}
!llvm.ident = !{!3}

!0 = !{i32 1, !"wchar_size", i32 4}
!1 = !{i32 7, !"uwtable", i32 2}
!2 = !{i32 7, !"frame-pointer", i32 2}
!3 = !{!"Debian clang version 19.1.7 (3~deb12u1)"}
!4 = distinct !{!4, !5}
!5 = !{!"llvm.loop.mustprogress"}
!6 = distinct !{!6, !5}
!7 = distinct !{!7, !5}
