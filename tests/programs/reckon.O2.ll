; ModuleID = 'reckon.c'
source_filename = "reckon.c"
target datalayout = "e-m:e-p270:32:32-p271:32:32-p272:64:64-i64:64-i128:128-f80:128-n8:16:32:64-S128"
target triple = "x86_64-pc-linux-gnu"

%struct.Reader = type { ptr, i32, [26 x i64] }

@main.lines = internal unnamed_addr constant [8 x ptr] [ptr @.str, ptr @.str.1, ptr @.str.2, ptr @.str.3, ptr @.str.4, ptr @.str.5, ptr @.str.6, ptr @.str.7], align 16
@.str = private unnamed_addr constant [10 x i8] c"1 + 2 * 3\00", align 1
@.str.1 = private unnamed_addr constant [13 x i8] c"(1 + 2) * -3\00", align 1
@.str.2 = private unnamed_addr constant [16 x i8] c"x = 7 * (y = 6)\00", align 1
@.str.3 = private unnamed_addr constant [20 x i8] c"x / y - 100 / 7 / 2\00", align 1
@.str.4 = private unnamed_addr constant [7 x i8] c"2 * (3\00", align 1
@.str.5 = private unnamed_addr constant [13 x i8] c"4 / (x - 42)\00", align 1
@.str.6 = private unnamed_addr constant [4 x i8] c"* 2\00", align 1
@.str.7 = private unnamed_addr constant [28 x i8] c"a = b = c = 12345678901 * 3\00", align 1
@.str.8 = private unnamed_addr constant [16 x i8] c"wrong %d at %c\0A\00", align 1
@.str.9 = private unnamed_addr constant [5 x i8] c"%ld\0A\00", align 1

; Function Attrs: nofree nounwind uwtable
define dso_local i32 @main() local_unnamed_addr #0 {
  %1 = alloca %struct.Reader, align 8
  call void @llvm.lifetime.start.p0(i64 224, ptr nonnull %1) #5
  %2 = getelementptr inbounds i8, ptr %1, i64 8
  call void @llvm.memset.p0.i64(ptr noundef nonnull align 8 dereferenceable(224) %2, i8 0, i64 216, i1 false)
  %3 = getelementptr inbounds i8, ptr %1, i64 8
  br label %11

4:                                                ; preds = %29
  %5 = mul nsw i32 %30, 10
  %6 = getelementptr inbounds i8, ptr %1, i64 200
  %7 = load i64, ptr %6, align 8, !tbaa !3
  %8 = srem i64 %7, 10
  %9 = trunc nsw i64 %8 to i32
  %10 = add nsw i32 %5, %9
  call void @llvm.lifetime.end.p0(i64 224, ptr nonnull %1) #5
  ret i32 %10

11:                                               ; preds = %0, %29
  %12 = phi i64 [ 0, %0 ], [ %31, %29 ]
  %13 = phi i32 [ 0, %0 ], [ %30, %29 ]
  %14 = getelementptr inbounds [8 x ptr], ptr @main.lines, i64 0, i64 %12
  %15 = load ptr, ptr %14, align 8, !tbaa !7
  store ptr %15, ptr %1, align 8, !tbaa !9
  store i32 0, ptr %3, align 8, !tbaa !12
  %16 = call fastcc i64 @sum(ptr noundef nonnull %1) #6
  %17 = load i32, ptr %3, align 8, !tbaa !12
  %18 = icmp eq i32 %17, 0
  br i1 %18, label %27, label %19

19:                                               ; preds = %11
  %20 = add nsw i32 %13, 1
  %21 = load ptr, ptr %1, align 8, !tbaa !9
  %22 = load i8, ptr %21, align 1, !tbaa !13
  %23 = icmp eq i8 %22, 0
  %24 = select i1 %23, i8 46, i8 %22
  %25 = sext i8 %24 to i32
  %26 = tail call i32 (ptr, ...) @printf(ptr noundef nonnull dereferenceable(1) @.str.8, i32 noundef %17, i32 noundef %25) #6
  br label %29

27:                                               ; preds = %11
  %28 = tail call i32 (ptr, ...) @printf(ptr noundef nonnull dereferenceable(1) @.str.9, i64 noundef %16) #6
  br label %29

29:                                               ; preds = %27, %19
  %30 = phi i32 [ %20, %19 ], [ %13, %27 ]
  %31 = add nuw nsw i64 %12, 1
  %32 = icmp eq i64 %31, 8
  br i1 %32, label %4, label %11, !llvm.loop !14
}

; Function Attrs: mustprogress nocallback nofree nosync nounwind willreturn memory(argmem: readwrite)
declare void @llvm.lifetime.start.p0(i64 immarg, ptr nocapture) #1

; Function Attrs: mustprogress nocallback nofree nounwind willreturn memory(argmem: write)
declare void @llvm.memset.p0.i64(ptr nocapture writeonly, i8, i64, i1 immarg) #2

; Function Attrs: nofree nosync nounwind memory(read, argmem: readwrite, inaccessiblemem: none) uwtable
define internal fastcc i64 @sum(ptr nocapture noundef %0) unnamed_addr #3 {
  %2 = tail call fastcc i64 @atom(ptr noundef %0) #6
  br label %3

3:                                                ; preds = %28, %1
  %4 = phi i64 [ %2, %1 ], [ %29, %28 ]
  %5 = load ptr, ptr %0, align 8, !tbaa !9
  %6 = load i8, ptr %5, align 1, !tbaa !13
  %7 = icmp eq i8 %6, 32
  br i1 %7, label %8, label %13

8:                                                ; preds = %3, %8
  %9 = phi ptr [ %10, %8 ], [ %5, %3 ]
  %10 = getelementptr inbounds i8, ptr %9, i64 1
  store ptr %10, ptr %0, align 8, !tbaa !9
  %11 = load i8, ptr %10, align 1, !tbaa !13
  %12 = icmp eq i8 %11, 32
  br i1 %12, label %8, label %13, !llvm.loop !16

13:                                               ; preds = %8, %3
  %14 = phi i8 [ %6, %3 ], [ %11, %8 ]
  %15 = phi ptr [ %5, %3 ], [ %10, %8 ]
  switch i8 %14, label %30 [
    i8 42, label %16
    i8 47, label %20
  ]

16:                                               ; preds = %13
  %17 = getelementptr inbounds i8, ptr %15, i64 1
  store ptr %17, ptr %0, align 8, !tbaa !9
  %18 = tail call fastcc i64 @atom(ptr noundef nonnull %0) #6
  %19 = mul nsw i64 %18, %4
  br label %28

20:                                               ; preds = %13
  %21 = getelementptr inbounds i8, ptr %15, i64 1
  store ptr %21, ptr %0, align 8, !tbaa !9
  %22 = tail call fastcc i64 @atom(ptr noundef nonnull %0) #6
  %23 = icmp eq i64 %22, 0
  br i1 %23, label %24, label %26

24:                                               ; preds = %20
  %25 = getelementptr inbounds i8, ptr %0, i64 8
  store i32 3, ptr %25, align 8, !tbaa !12
  br label %30

26:                                               ; preds = %20
  %27 = sdiv i64 %4, %22
  br label %28

28:                                               ; preds = %26, %16
  %29 = phi i64 [ %19, %16 ], [ %27, %26 ]
  br label %3

30:                                               ; preds = %13, %24
  %31 = phi i64 [ 0, %24 ], [ %4, %13 ]
  %32 = getelementptr inbounds i8, ptr %0, i64 8
  br label %33

33:                                               ; preds = %110, %30
  %34 = phi i64 [ %31, %30 ], [ %111, %110 ]
  %35 = load ptr, ptr %0, align 8, !tbaa !9
  %36 = load i8, ptr %35, align 1, !tbaa !13
  %37 = icmp eq i8 %36, 32
  br i1 %37, label %38, label %43

38:                                               ; preds = %33, %38
  %39 = phi ptr [ %40, %38 ], [ %35, %33 ]
  %40 = getelementptr inbounds i8, ptr %39, i64 1
  store ptr %40, ptr %0, align 8, !tbaa !9
  %41 = load i8, ptr %40, align 1, !tbaa !13
  %42 = icmp eq i8 %41, 32
  br i1 %42, label %38, label %43, !llvm.loop !16

43:                                               ; preds = %38, %33
  %44 = phi i8 [ %36, %33 ], [ %41, %38 ]
  %45 = phi ptr [ %35, %33 ], [ %40, %38 ]
  switch i8 %44, label %112 [
    i8 43, label %46
    i8 45, label %78
  ]

46:                                               ; preds = %43
  %47 = getelementptr inbounds i8, ptr %45, i64 1
  store ptr %47, ptr %0, align 8, !tbaa !9
  %48 = tail call fastcc i64 @atom(ptr noundef nonnull %0) #6
  br label %49

49:                                               ; preds = %73, %46
  %50 = phi i64 [ %48, %46 ], [ %74, %73 ]
  %51 = load ptr, ptr %0, align 8, !tbaa !9
  %52 = load i8, ptr %51, align 1, !tbaa !13
  %53 = icmp eq i8 %52, 32
  br i1 %53, label %54, label %59

54:                                               ; preds = %49, %54
  %55 = phi ptr [ %56, %54 ], [ %51, %49 ]
  %56 = getelementptr inbounds i8, ptr %55, i64 1
  store ptr %56, ptr %0, align 8, !tbaa !9
  %57 = load i8, ptr %56, align 1, !tbaa !13
  %58 = icmp eq i8 %57, 32
  br i1 %58, label %54, label %59, !llvm.loop !16

59:                                               ; preds = %54, %49
  %60 = phi i8 [ %52, %49 ], [ %57, %54 ]
  %61 = phi ptr [ %51, %49 ], [ %56, %54 ]
  switch i8 %60, label %75 [
    i8 42, label %62
    i8 47, label %66
  ]

62:                                               ; preds = %59
  %63 = getelementptr inbounds i8, ptr %61, i64 1
  store ptr %63, ptr %0, align 8, !tbaa !9
  %64 = tail call fastcc i64 @atom(ptr noundef nonnull %0) #6
  %65 = mul nsw i64 %64, %50
  br label %73

66:                                               ; preds = %59
  %67 = getelementptr inbounds i8, ptr %61, i64 1
  store ptr %67, ptr %0, align 8, !tbaa !9
  %68 = tail call fastcc i64 @atom(ptr noundef nonnull %0) #6
  %69 = icmp eq i64 %68, 0
  br i1 %69, label %70, label %71

70:                                               ; preds = %66
  store i32 3, ptr %32, align 8, !tbaa !12
  br label %75

71:                                               ; preds = %66
  %72 = sdiv i64 %50, %68
  br label %73

73:                                               ; preds = %71, %62
  %74 = phi i64 [ %65, %62 ], [ %72, %71 ]
  br label %49

75:                                               ; preds = %59, %70
  %76 = phi i64 [ 0, %70 ], [ %50, %59 ]
  %77 = add nsw i64 %76, %34
  br label %110

78:                                               ; preds = %43
  %79 = getelementptr inbounds i8, ptr %45, i64 1
  store ptr %79, ptr %0, align 8, !tbaa !9
  %80 = tail call fastcc i64 @atom(ptr noundef nonnull %0) #6
  br label %81

81:                                               ; preds = %105, %78
  %82 = phi i64 [ %80, %78 ], [ %106, %105 ]
  %83 = load ptr, ptr %0, align 8, !tbaa !9
  %84 = load i8, ptr %83, align 1, !tbaa !13
  %85 = icmp eq i8 %84, 32
  br i1 %85, label %86, label %91

86:                                               ; preds = %81, %86
  %87 = phi ptr [ %88, %86 ], [ %83, %81 ]
  %88 = getelementptr inbounds i8, ptr %87, i64 1
  store ptr %88, ptr %0, align 8, !tbaa !9
  %89 = load i8, ptr %88, align 1, !tbaa !13
  %90 = icmp eq i8 %89, 32
  br i1 %90, label %86, label %91, !llvm.loop !16

91:                                               ; preds = %86, %81
  %92 = phi i8 [ %84, %81 ], [ %89, %86 ]
  %93 = phi ptr [ %83, %81 ], [ %88, %86 ]
  switch i8 %92, label %107 [
    i8 42, label %94
    i8 47, label %98
  ]

94:                                               ; preds = %91
  %95 = getelementptr inbounds i8, ptr %93, i64 1
  store ptr %95, ptr %0, align 8, !tbaa !9
  %96 = tail call fastcc i64 @atom(ptr noundef nonnull %0) #6
  %97 = mul nsw i64 %96, %82
  br label %105

98:                                               ; preds = %91
  %99 = getelementptr inbounds i8, ptr %93, i64 1
  store ptr %99, ptr %0, align 8, !tbaa !9
  %100 = tail call fastcc i64 @atom(ptr noundef nonnull %0) #6
  %101 = icmp eq i64 %100, 0
  br i1 %101, label %102, label %103

102:                                              ; preds = %98
  store i32 3, ptr %32, align 8, !tbaa !12
  br label %107

103:                                              ; preds = %98
  %104 = sdiv i64 %82, %100
  br label %105

105:                                              ; preds = %103, %94
  %106 = phi i64 [ %97, %94 ], [ %104, %103 ]
  br label %81

107:                                              ; preds = %91, %102
  %108 = phi i64 [ 0, %102 ], [ %82, %91 ]
  %109 = sub nsw i64 %34, %108
  br label %110

110:                                              ; preds = %107, %75
  %111 = phi i64 [ %77, %75 ], [ %109, %107 ]
  br label %33

112:                                              ; preds = %43
  ret i64 %34
}

; Function Attrs: nofree nounwind
declare dso_local noundef i32 @printf(ptr nocapture noundef readonly, ...) local_unnamed_addr #4

; Function Attrs: mustprogress nocallback nofree nosync nounwind willreturn memory(argmem: readwrite)
declare void @llvm.lifetime.end.p0(i64 immarg, ptr nocapture) #1

; Function Attrs: nofree nosync nounwind memory(read, argmem: readwrite, inaccessiblemem: none) uwtable
define internal fastcc i64 @atom(ptr nocapture noundef %0) unnamed_addr #3 {
  %2 = load ptr, ptr %0, align 8, !tbaa !9
  %3 = load i8, ptr %2, align 1, !tbaa !13
  %4 = icmp eq i8 %3, 32
  br i1 %4, label %5, label %10

5:                                                ; preds = %1, %5
  %6 = phi ptr [ %7, %5 ], [ %2, %1 ]
  %7 = getelementptr inbounds i8, ptr %6, i64 1
  store ptr %7, ptr %0, align 8, !tbaa !9
  %8 = load i8, ptr %7, align 1, !tbaa !13
  %9 = icmp eq i8 %8, 32
  br i1 %9, label %5, label %10, !llvm.loop !16

10:                                               ; preds = %5, %1
  %11 = phi i8 [ %3, %1 ], [ %8, %5 ]
  %12 = phi ptr [ %2, %1 ], [ %7, %5 ]
  switch i8 %11, label %38 [
    i8 40, label %13
    i8 45, label %34
  ]

13:                                               ; preds = %10
  %14 = getelementptr inbounds i8, ptr %12, i64 1
  store ptr %14, ptr %0, align 8, !tbaa !9
  %15 = tail call fastcc i64 @sum(ptr noundef nonnull %0) #6
  %16 = load ptr, ptr %0, align 8, !tbaa !9
  %17 = load i8, ptr %16, align 1, !tbaa !13
  %18 = icmp eq i8 %17, 32
  br i1 %18, label %19, label %24

19:                                               ; preds = %13, %19
  %20 = phi ptr [ %21, %19 ], [ %16, %13 ]
  %21 = getelementptr inbounds i8, ptr %20, i64 1
  store ptr %21, ptr %0, align 8, !tbaa !9
  %22 = load i8, ptr %21, align 1, !tbaa !13
  %23 = icmp eq i8 %22, 32
  br i1 %23, label %19, label %24, !llvm.loop !16

24:                                               ; preds = %19, %13
  %25 = phi i8 [ %17, %13 ], [ %22, %19 ]
  %26 = phi ptr [ %16, %13 ], [ %21, %19 ]
  %27 = icmp eq i8 %25, 41
  br i1 %27, label %28, label %30

28:                                               ; preds = %24
  %29 = getelementptr inbounds i8, ptr %26, i64 1
  store ptr %29, ptr %0, align 8, !tbaa !9
  br label %32

30:                                               ; preds = %24
  %31 = getelementptr inbounds i8, ptr %0, i64 8
  store i32 1, ptr %31, align 8, !tbaa !12
  br label %32

32:                                               ; preds = %28, %57, %63, %30, %71, %73, %34
  %33 = phi i64 [ %37, %34 ], [ 0, %71 ], [ %15, %30 ], [ %15, %28 ], [ %59, %57 ], [ %67, %63 ], [ %81, %73 ]
  ret i64 %33

34:                                               ; preds = %10
  %35 = getelementptr inbounds i8, ptr %12, i64 1
  store ptr %35, ptr %0, align 8, !tbaa !9
  %36 = tail call fastcc i64 @atom(ptr noundef nonnull %0) #6
  %37 = sub nsw i64 0, %36
  br label %32

38:                                               ; preds = %10
  %39 = add i8 %11, -97
  %40 = icmp ult i8 %39, 26
  br i1 %40, label %41, label %68

41:                                               ; preds = %38
  %42 = getelementptr inbounds i8, ptr %12, i64 1
  store ptr %42, ptr %0, align 8, !tbaa !9
  %43 = load i8, ptr %12, align 1, !tbaa !13
  %44 = sext i8 %43 to i32
  %45 = add nsw i32 %44, -97
  %46 = load i8, ptr %42, align 1, !tbaa !13
  %47 = icmp eq i8 %46, 32
  br i1 %47, label %48, label %53

48:                                               ; preds = %41, %48
  %49 = phi ptr [ %50, %48 ], [ %42, %41 ]
  %50 = getelementptr inbounds i8, ptr %49, i64 1
  store ptr %50, ptr %0, align 8, !tbaa !9
  %51 = load i8, ptr %50, align 1, !tbaa !13
  %52 = icmp eq i8 %51, 32
  br i1 %52, label %48, label %53, !llvm.loop !16

53:                                               ; preds = %48, %41
  %54 = phi i8 [ %46, %41 ], [ %51, %48 ]
  %55 = phi ptr [ %12, %41 ], [ %49, %48 ]
  %56 = icmp eq i8 %54, 61
  br i1 %56, label %57, label %63

57:                                               ; preds = %53
  %58 = getelementptr inbounds i8, ptr %55, i64 2
  store ptr %58, ptr %0, align 8, !tbaa !9
  %59 = tail call fastcc i64 @sum(ptr noundef nonnull %0) #6
  %60 = getelementptr inbounds i8, ptr %0, i64 16
  %61 = sext i32 %45 to i64
  %62 = getelementptr inbounds [26 x i64], ptr %60, i64 0, i64 %61
  store i64 %59, ptr %62, align 8, !tbaa !3
  br label %32

63:                                               ; preds = %53
  %64 = getelementptr inbounds i8, ptr %0, i64 16
  %65 = sext i32 %45 to i64
  %66 = getelementptr inbounds [26 x i64], ptr %64, i64 0, i64 %65
  %67 = load i64, ptr %66, align 8, !tbaa !3
  br label %32

68:                                               ; preds = %38
  %69 = add i8 %11, -58
  %70 = icmp ult i8 %69, -10
  br i1 %70, label %71, label %73

71:                                               ; preds = %68
  %72 = getelementptr inbounds i8, ptr %0, i64 8
  store i32 2, ptr %72, align 8, !tbaa !12
  br label %32

73:                                               ; preds = %68, %73
  %74 = phi i64 [ %81, %73 ], [ 0, %68 ]
  %75 = phi ptr [ %77, %73 ], [ %12, %68 ]
  %76 = mul nsw i64 %74, 10
  %77 = getelementptr inbounds i8, ptr %75, i64 1
  store ptr %77, ptr %0, align 8, !tbaa !9
  %78 = load i8, ptr %75, align 1, !tbaa !13
  %79 = sext i8 %78 to i64
  %80 = add i64 %76, -48
  %81 = add i64 %80, %79
  %82 = load i8, ptr %77, align 1, !tbaa !13
  %83 = add i8 %82, -48
  %84 = icmp ult i8 %83, 10
  br i1 %84, label %73, label %32, !llvm.loop !17
}

attributes #0 = { nofree nounwind uwtable "min-legal-vector-width"="0" "no-builtin-calloc" "no-trapping-math"="true" "stack-protector-buffer-size"="8" "target-cpu"="x86-64" "target-features"="+cmov,+cx8,+fxsr,-aes,-avx,-avx10.1-256,-avx10.1-512,-avx2,-avx512bf16,-avx512bitalg,-avx512bw,-avx512cd,-avx512dq,-avx512f,-avx512fp16,-avx512ifma,-avx512vbmi,-avx512vbmi2,-avx512vl,-avx512vnni,-avx512vp2intersect,-avx512vpopcntdq,-avxifma,-avxneconvert,-avxvnni,-avxvnniint16,-avxvnniint8,-f16c,-fma,-fma4,-gfni,-kl,-mmx,-pclmul,-sha,-sha512,-sm3,-sm4,-sse,-sse2,-sse3,-sse4.1,-sse4.2,-sse4a,-ssse3,-vaes,-vpclmulqdq,-widekl,-x87,-xop" "tune-cpu"="generic" }
attributes #1 = { mustprogress nocallback nofree nosync nounwind willreturn memory(argmem: readwrite) }
attributes #2 = { mustprogress nocallback nofree nounwind willreturn memory(argmem: write) }
attributes #3 = { nofree nosync nounwind memory(read, argmem: readwrite, inaccessiblemem: none) uwtable "min-legal-vector-width"="0" "no-builtin-calloc" "no-trapping-math"="true" "stack-protector-buffer-size"="8" "target-cpu"="x86-64" "target-features"="+cmov,+cx8,+fxsr,-aes,-avx,-avx10.1-256,-avx10.1-512,-avx2,-avx512bf16,-avx512bitalg,-avx512bw,-avx512cd,-avx512dq,-avx512f,-avx512fp16,-avx512ifma,-avx512vbmi,-avx512vbmi2,-avx512vl,-avx512vnni,-avx512vp2intersect,-avx512vpopcntdq,-avxifma,-avxneconvert,-avxvnni,-avxvnniint16,-avxvnniint8,-f16c,-fma,-fma4,-gfni,-kl,-mmx,-pclmul,-sha,-sha512,-sm3,-sm4,-sse,-sse2,-sse3,-sse4.1,-sse4.2,-sse4a,-ssse3,-vaes,-vpclmulqdq,-widekl,-x87,-xop" "tune-cpu"="generic" }
attributes #4 = { nofree nounwind "no-builtin-calloc" "no-trapping-math"="true" "stack-protector-buffer-size"="8" "target-cpu"="x86-64" "target-features"="+cmov,+cx8,+fxsr,-aes,-avx,-avx10.1-256,-avx10.1-512,-avx2,-avx512bf16,-avx512bitalg,-avx512bw,-avx512cd,-avx512dq,-avx512f,-avx512fp16,-avx512ifma,-avx512vbmi,-avx512vbmi2,-avx512vl,-avx512vnni,-avx512vp2intersect,-avx512vpopcntdq,-avxifma,-avxneconvert,-avxvnni,-avxvnniint16,-avxvnniint8,-f16c,-fma,-fma4,-gfni,-kl,-mmx,-pclmul,-sha,-sha512,-sm3,-sm4,-sse,-sse2,-sse3,-sse4.1,-sse4.2,-sse4a,-ssse3,-vaes,-vpclmulqdq,-widekl,-x87,-xop" "tune-cpu"="generic" }
attributes #5 = { nounwind }
attributes #6 = { "no-builtin-calloc" }

!llvm.module.flags = !{!0, !1}
!llvm.ident = !{!2}

!0 = !{i32 1, !"wchar_size", i32 4}
!1 = !{i32 7, !"uwtable", i32 2}
!2 = !{!"Debian clang version 19.1.7 (3~deb12u1)"}
!3 = !{!4, !4, i64 0}
!4 = !{!"long", !5, i64 0}
!5 = !{!"omnipotent char", !6, i64 0}
!6 = !{!"Simple C/C++ TBAA"}
!7 = !{!8, !8, i64 0}
!8 = !{!"any pointer", !5, i64 0}
!9 = !{!10, !8, i64 0}
!10 = !{!"", !8, i64 0, !11, i64 8, !5, i64 16}
!11 = !{!"int", !5, i64 0}
!12 = !{!10, !11, i64 8}
!13 = !{!5, !5, i64 0}
!14 = distinct !{!14, !15}
!15 = !{!"llvm.loop.mustprogress"}
!16 = distinct !{!16, !15}
!17 = distinct !{!17, !15}
