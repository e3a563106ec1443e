; ModuleID = 'quick.c'
source_filename = "quick.c"
target datalayout = "e-m:e-p270:32:32-p271:32:32-p272:64:64-i64:64-i128:128-f80:128-n8:16:32:64-S128"
target triple = "x86_64-pc-linux-gnu"

%struct.Row = type { i16, i8, i64 }

@__const.main.orders = private unnamed_addr constant [2 x ptr] [ptr @by_key, ptr @by_value], align 16

; Function Attrs: noinline nounwind optnone uwtable
define dso_local i32 @main() #0 {
  %1 = alloca i32, align 4
  %2 = alloca [24 x %struct.Row], align 16
  %3 = alloca i32, align 4
  %4 = alloca %struct.Row, align 8
  %5 = alloca [2 x ptr], align 16
  %6 = alloca i64, align 8
  %7 = alloca i32, align 4
  %8 = alloca i32, align 4
  store i32 0, ptr %1, align 4
  store i32 0, ptr %3, align 4
  br label %9

9:                                                ; preds = %35, %0
  %10 = load i32, ptr %3, align 4
  %11 = icmp slt i32 %10, 24
  br i1 %11, label %12, label %38

12:                                               ; preds = %9
  %13 = load i32, ptr %3, align 4
  %14 = sext i32 %13 to i64
  %15 = getelementptr inbounds [24 x %struct.Row], ptr %2, i64 0, i64 %14
  %16 = getelementptr inbounds %struct.Row, ptr %4, i32 0, i32 0
  %17 = load i32, ptr %3, align 4
  %18 = mul nsw i32 %17, 37
  %19 = srem i32 %18, 24
  %20 = sub nsw i32 %19, 12
  %21 = trunc i32 %20 to i16
  store i16 %21, ptr %16, align 8
  %22 = getelementptr inbounds %struct.Row, ptr %4, i32 0, i32 1
  %23 = load i32, ptr %3, align 4
  %24 = add nsw i32 97, %23
  %25 = trunc i32 %24 to i8
  store i8 %25, ptr %22, align 2
  %26 = getelementptr inbounds %struct.Row, ptr %4, i32 0, i32 2
  %27 = load i32, ptr %3, align 4
  %28 = sext i32 %27 to i64
  %29 = load i32, ptr %3, align 4
  %30 = sext i32 %29 to i64
  %31 = mul nsw i64 %28, %30
  %32 = mul nsw i64 %31, 7919
  %33 = srem i64 %32, 101
  %34 = sub nsw i64 %33, 50
  store i64 %34, ptr %26, align 8
  call void @llvm.memcpy.p0.p0.i64(ptr align 16 %15, ptr align 8 %4, i64 16, i1 false)
  br label %35

35:                                               ; preds = %12
  %36 = load i32, ptr %3, align 4
  %37 = add nsw i32 %36, 1
  store i32 %37, ptr %3, align 4
  br label %9, !llvm.loop !4

38:                                               ; preds = %9
  call void @llvm.memcpy.p0.p0.i64(ptr align 16 %5, ptr align 16 @__const.main.orders, i64 16, i1 false)
  store i64 0, ptr %6, align 8
  store i32 0, ptr %7, align 4
  br label %39

39:                                               ; preds = %72, %38
  %40 = load i32, ptr %7, align 4
  %41 = icmp slt i32 %40, 2
  br i1 %41, label %42, label %75

42:                                               ; preds = %39
  %43 = getelementptr inbounds [24 x %struct.Row], ptr %2, i64 0, i64 0
  %44 = load i32, ptr %7, align 4
  %45 = sext i32 %44 to i64
  %46 = getelementptr inbounds [2 x ptr], ptr %5, i64 0, i64 %45
  %47 = load ptr, ptr %46, align 8
  call void @sort(ptr noundef %43, i64 noundef 24, i64 noundef 16, ptr noundef %47) #3
  store i32 0, ptr %8, align 4
  br label %48

48:                                               ; preds = %67, %42
  %49 = load i32, ptr %8, align 4
  %50 = icmp slt i32 %49, 24
  br i1 %50, label %51, label %70

51:                                               ; preds = %48
  %52 = load i32, ptr %8, align 4
  %53 = sext i32 %52 to i64
  %54 = getelementptr inbounds [24 x %struct.Row], ptr %2, i64 0, i64 %53
  %55 = getelementptr inbounds %struct.Row, ptr %54, i32 0, i32 1
  %56 = load i8, ptr %55, align 2
  %57 = sext i8 %56 to i32
  %58 = call i32 @putchar(i32 noundef %57) #3
  %59 = load i64, ptr %6, align 8
  %60 = mul i64 %59, 31
  %61 = load i32, ptr %8, align 4
  %62 = sext i32 %61 to i64
  %63 = getelementptr inbounds [24 x %struct.Row], ptr %2, i64 0, i64 %62
  %64 = getelementptr inbounds %struct.Row, ptr %63, i32 0, i32 2
  %65 = load i64, ptr %64, align 8
  %66 = add i64 %60, %65
  store i64 %66, ptr %6, align 8
  br label %67

67:                                               ; preds = %51
  %68 = load i32, ptr %8, align 4
  %69 = add nsw i32 %68, 1
  store i32 %69, ptr %8, align 4
  br label %48, !llvm.loop !6

70:                                               ; preds = %48
  %71 = call i32 @putchar(i32 noundef 10) #3
  br label %72

72:                                               ; preds = %70
  %73 = load i32, ptr %7, align 4
  %74 = add nsw i32 %73, 1
  store i32 %74, ptr %7, align 4
  br label %39, !llvm.loop !7

75:                                               ; preds = %39
  %76 = load i64, ptr %6, align 8
  %77 = urem i64 %76, 251
  %78 = trunc i64 %77 to i32
  ret i32 %78
}

; Function Attrs: nocallback nofree nounwind willreturn memory(argmem: readwrite)
declare void @llvm.memcpy.p0.p0.i64(ptr noalias nocapture writeonly, ptr noalias nocapture readonly, i64, i1 immarg) #1

; Function Attrs: noinline nounwind optnone uwtable
define internal i32 @by_key(ptr noundef %0, ptr noundef %1) #0 {
  %3 = alloca ptr, align 8
  %4 = alloca ptr, align 8
  store ptr %0, ptr %3, align 8
  store ptr %1, ptr %4, align 8
  %5 = load ptr, ptr %3, align 8
  %6 = getelementptr inbounds %struct.Row, ptr %5, i32 0, i32 0
  %7 = load i16, ptr %6, align 8
  %8 = sext i16 %7 to i32
  %9 = load ptr, ptr %4, align 8
  %10 = getelementptr inbounds %struct.Row, ptr %9, i32 0, i32 0
  %11 = load i16, ptr %10, align 8
  %12 = sext i16 %11 to i32
  %13 = sub nsw i32 %8, %12
  ret i32 %13
}

; Function Attrs: noinline nounwind optnone uwtable
define internal i32 @by_value(ptr noundef %0, ptr noundef %1) #0 {
  %3 = alloca ptr, align 8
  %4 = alloca ptr, align 8
  %5 = alloca i64, align 8
  %6 = alloca i64, align 8
  store ptr %0, ptr %3, align 8
  store ptr %1, ptr %4, align 8
  %7 = load ptr, ptr %3, align 8
  %8 = getelementptr inbounds %struct.Row, ptr %7, i32 0, i32 2
  %9 = load i64, ptr %8, align 8
  store i64 %9, ptr %5, align 8
  %10 = load ptr, ptr %4, align 8
  %11 = getelementptr inbounds %struct.Row, ptr %10, i32 0, i32 2
  %12 = load i64, ptr %11, align 8
  store i64 %12, ptr %6, align 8
  %13 = load i64, ptr %5, align 8
  %14 = load i64, ptr %6, align 8
  %15 = icmp sgt i64 %13, %14
  %16 = zext i1 %15 to i32
  %17 = load i64, ptr %5, align 8
  %18 = load i64, ptr %6, align 8
  %19 = icmp slt i64 %17, %18
  %20 = zext i1 %19 to i32
  %21 = sub nsw i32 %16, %20
  ret i32 %21
}

; Function Attrs: noinline nounwind optnone uwtable
define internal void @sort(ptr noundef %0, i64 noundef %1, i64 noundef %2, ptr noundef %3) #0 {
  %5 = alloca ptr, align 8
  %6 = alloca i64, align 8
  %7 = alloca i64, align 8
  %8 = alloca ptr, align 8
  %9 = alloca i64, align 8
  %10 = alloca i64, align 8
  store ptr %0, ptr %5, align 8
  store i64 %1, ptr %6, align 8
  store i64 %2, ptr %7, align 8
  store ptr %3, ptr %8, align 8
  br label %11

11:                                               ; preds = %54, %4
  %12 = load i64, ptr %6, align 8
  %13 = icmp sgt i64 %12, 1
  br i1 %13, label %14, label %76

14:                                               ; preds = %11
  store i64 0, ptr %9, align 8
  %15 = load ptr, ptr %5, align 8
  %16 = load ptr, ptr %5, align 8
  %17 = load i64, ptr %6, align 8
  %18 = sdiv i64 %17, 2
  %19 = load i64, ptr %7, align 8
  %20 = mul i64 %18, %19
  %21 = getelementptr inbounds i8, ptr %16, i64 %20
  %22 = load i64, ptr %7, align 8
  call void @swap(ptr noundef %15, ptr noundef %21, i64 noundef %22) #3
  store i64 1, ptr %10, align 8
  br label %23

23:                                               ; preds = %51, %14
  %24 = load i64, ptr %10, align 8
  %25 = load i64, ptr %6, align 8
  %26 = icmp slt i64 %24, %25
  br i1 %26, label %27, label %54

27:                                               ; preds = %23
  %28 = load ptr, ptr %8, align 8
  %29 = load ptr, ptr %5, align 8
  %30 = load i64, ptr %10, align 8
  %31 = load i64, ptr %7, align 8
  %32 = mul i64 %30, %31
  %33 = getelementptr inbounds i8, ptr %29, i64 %32
  %34 = load ptr, ptr %5, align 8
  %35 = call i32 %28(ptr noundef %33, ptr noundef %34) #3
  %36 = icmp slt i32 %35, 0
  br i1 %36, label %37, label %50

37:                                               ; preds = %27
  %38 = load ptr, ptr %5, align 8
  %39 = load i64, ptr %9, align 8
  %40 = add nsw i64 %39, 1
  store i64 %40, ptr %9, align 8
  %41 = load i64, ptr %7, align 8
  %42 = mul i64 %40, %41
  %43 = getelementptr inbounds i8, ptr %38, i64 %42
  %44 = load ptr, ptr %5, align 8
  %45 = load i64, ptr %10, align 8
  %46 = load i64, ptr %7, align 8
  %47 = mul i64 %45, %46
  %48 = getelementptr inbounds i8, ptr %44, i64 %47
  %49 = load i64, ptr %7, align 8
  call void @swap(ptr noundef %43, ptr noundef %48, i64 noundef %49) #3
  br label %50

50:                                               ; preds = %37, %27
  br label %51

51:                                               ; preds = %50
  %52 = load i64, ptr %10, align 8
  %53 = add nsw i64 %52, 1
  store i64 %53, ptr %10, align 8
  br label %23, !llvm.loop !8

54:                                               ; preds = %23
  %55 = load ptr, ptr %5, align 8
  %56 = load ptr, ptr %5, align 8
  %57 = load i64, ptr %9, align 8
  %58 = load i64, ptr %7, align 8
  %59 = mul i64 %57, %58
  %60 = getelementptr inbounds i8, ptr %56, i64 %59
  %61 = load i64, ptr %7, align 8
  call void @swap(ptr noundef %55, ptr noundef %60, i64 noundef %61) #3
  %62 = load ptr, ptr %5, align 8
  %63 = load i64, ptr %9, align 8
  %64 = load i64, ptr %7, align 8
  %65 = load ptr, ptr %8, align 8
  call void @sort(ptr noundef %62, i64 noundef %63, i64 noundef %64, ptr noundef %65) #3
  %66 = load i64, ptr %9, align 8
  %67 = add nsw i64 %66, 1
  %68 = load i64, ptr %7, align 8
  %69 = mul i64 %67, %68
  %70 = load ptr, ptr %5, align 8
  %71 = getelementptr inbounds i8, ptr %70, i64 %69
  store ptr %71, ptr %5, align 8
  %72 = load i64, ptr %9, align 8
  %73 = add nsw i64 %72, 1
  %74 = load i64, ptr %6, align 8
  %75 = sub nsw i64 %74, %73
  store i64 %75, ptr %6, align 8
  br label %11, !llvm.loop !9

76:                                               ; preds = %11
  ret void
}

declare dso_local i32 @putchar(i32 noundef) #2

; Function Attrs: noinline nounwind optnone uwtable
define internal void @swap(ptr noundef %0, ptr noundef %1, i64 noundef %2) #0 {
  %4 = alloca ptr, align 8
  %5 = alloca ptr, align 8
  %6 = alloca i64, align 8
  %7 = alloca [32 x i8], align 16
  store ptr %0, ptr %4, align 8
  store ptr %1, ptr %5, align 8
  store i64 %2, ptr %6, align 8
  %8 = getelementptr inbounds [32 x i8], ptr %7, i64 0, i64 0
  %9 = load ptr, ptr %4, align 8
  %10 = load i64, ptr %6, align 8
  call void @llvm.memcpy.p0.p0.i64(ptr align 16 %8, ptr align 1 %9, i64 %10, i1 false)
  %11 = load ptr, ptr %4, align 8
  %12 = load ptr, ptr %5, align 8
  %13 = load i64, ptr %6, align 8
  call void @llvm.memcpy.p0.p0.i64(ptr align 1 %11, ptr align 1 %12, i64 %13, i1 false)
  %14 = load ptr, ptr %5, align 8
  %15 = getelementptr inbounds [32 x i8], ptr %7, i64 0, i64 0
  %16 = load i64, ptr %6, align 8
  call void @llvm.memcpy.p0.p0.i64(ptr align 1 %14, ptr align 16 %15, i64 %16, i1 false)
  ret void
}

attributes #0 = { noinline nounwind optnone uwtable "frame-pointer"="all" "min-legal-vector-width"="0" "no-builtin-calloc" "no-trapping-math"="true" "stack-protector-buffer-size"="8" "target-cpu"="x86-64" "target-features"="+cmov,+cx8,+fxsr,-aes,-avx,-avx10.1-256,-avx10.1-512,-avx2,-avx512bf16,-avx512bitalg,-avx512bw,-avx512cd,-avx512dq,-avx512f,-avx512fp16,-avx512ifma,-avx512vbmi,-avx512vbmi2,-avx512vl,-avx512vnni,-avx512vp2intersect,-avx512vpopcntdq,-avxifma,-avxneconvert,-avxvnni,-avxvnniint16,-avxvnniint8,-f16c,-fma,-fma4,-gfni,-kl,-mmx,-pclmul,-sha,-sha512,-sm3,-sm4,-sse,-sse2,-sse3,-sse4.1,-sse4.2,-sse4a,-ssse3,-vaes,-vpclmulqdq,-widekl,-x87,-xop" "tune-cpu"="generic" }
attributes #1 = { nocallback nofree nounwind willreturn memory(argmem: readwrite) }
attributes #2 = { "frame-pointer"="all" "no-builtin-calloc" "no-trapping-math"="true" "stack-protector-buffer-size"="8" "target-cpu"="x86-64" "target-features"="+cmov,+cx8,+fxsr,-aes,-avx,-avx10.1-256,-avx10.1-512,-avx2,-avx512bf16,-avx512bitalg,-avx512bw,-avx512cd,-avx512dq,-avx512f,-avx512fp16,-avx512ifma,-avx512vbmi,-avx512vbmi2,-avx512vl,-avx512vnni,-avx512vp2intersect,-avx512vpopcntdq,-avxifma,-avxneconvert,-avxvnni,-avxvnniint16,-avxvnniint8,-f16c,-fma,-fma4,-gfni,-kl,-mmx,-pclmul,-sha,-sha512,-sm3,-sm4,-sse,-sse2,-sse3,-sse4.1,-sse4.2,-sse4a,-ssse3,-vaes,-vpclmulqdq,-widekl,-x87,-xop" "tune-cpu"="generic" }
attributes #3 = { "no-builtin-calloc" }

!llvm.module.flags = !{!0, !1, !2}
!llvm.ident = !{!3}

!0 = !{i32 1, !"wchar_size", i32 4}
!1 = !{i32 7, !"uwtable", i32 2}
!2 = !{i32 7, !"frame-pointer", i32 2}
!3 = !{!"Debian clang version 19.1.7 (3~deb12u1)"}
!4 = distinct !{!4, !5}
!5 = !{!"llvm.loop.mustprogress"}
!6 = distinct !{!6, !5}
!7 = distinct !{!7, !5}
!8 = distinct !{!8, !5}
!9 = distinct !{!9, !5}
