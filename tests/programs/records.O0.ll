; ModuleID = 'records.c'
source_filename = "records.c"
target datalayout = "e-m:e-p270:32:32-p271:32:32-p272:64:64-i64:64-i128:128-f80:128-n8:16:32:64-S128"
target triple = "x86_64-pc-linux-gnu"

%struct.Line = type { %struct.Point, %struct.Point, [3 x i8], [2 x %union.Cell] }
%struct.Point = type { i32, i32 }
%union.Cell = type { i32 }
%struct.Large = type { i64, i64, i64 }
%struct.Packed = type <{ i8, i32, i16 }>
%struct.Colour = type { i16, [2 x i8] }
%struct.Padded = type { i8, i32, i16 }

@__const.main.line = private unnamed_addr constant %struct.Line { %struct.Point { i32 1, i32 2 }, %struct.Point { i32 11, i32 32 }, [3 x i8] c"ab\00", [2 x %union.Cell] [%union.Cell { i32 305419896 }, %union.Cell zeroinitializer] }, align 4
@__const.main.large = private unnamed_addr constant %struct.Large { i64 1, i64 2, i64 3 }, align 8
@__const.main.packed = private unnamed_addr constant %struct.Packed <{ i8 112, i32 -2, i16 3 }>, align 1
@.str = private unnamed_addr constant [16 x i8] c"%d %d %d %d %s\0A\00", align 1
@.str.1 = private unnamed_addr constant [19 x i8] c"%02x %02x %04x %u\0A\00", align 1
@.str.2 = private unnamed_addr constant [13 x i8] c"%ld %ld %ld\0A\00", align 1
@.str.3 = private unnamed_addr constant [15 x i8] c"%lu %lu %d %c\0A\00", align 1

; Function Attrs: noinline nounwind optnone uwtable
define dso_local i32 @main() #0 {
  %1 = alloca i32, align 4
  %2 = alloca %struct.Line, align 4
  %3 = alloca %struct.Colour, align 4
  %4 = alloca %struct.Point, align 4
  %5 = alloca %struct.Large, align 8
  %6 = alloca i32, align 4
  %7 = alloca %struct.Large, align 8
  %8 = alloca %struct.Packed, align 1
  %9 = alloca %struct.Padded, align 4
  %10 = alloca %struct.Line, align 4
  store i32 0, ptr %1, align 4
  call void @llvm.memcpy.p0.p0.i64(ptr align 4 %2, ptr align 4 @__const.main.line, i64 28, i1 false)
  %11 = getelementptr inbounds %struct.Line, ptr %2, i32 0, i32 3
  %12 = getelementptr inbounds [2 x %union.Cell], ptr %11, i64 0, i64 1
  %13 = load i16, ptr %3, align 4
  %14 = and i16 %13, -32
  %15 = or i16 %14, 31
  store i16 %15, ptr %3, align 4
  %16 = load i16, ptr %3, align 4
  %17 = and i16 %16, -2017
  %18 = or i16 %17, 1344
  store i16 %18, ptr %3, align 4
  %19 = load i16, ptr %3, align 4
  %20 = and i16 %19, 2047
  %21 = or i16 %20, 14336
  store i16 %21, ptr %3, align 4
  call void @llvm.memcpy.p0.p0.i64(ptr align 4 %12, ptr align 4 %3, i64 4, i1 false)
  %22 = call i64 @middle(ptr noundef %2) #3
  store i64 %22, ptr %4, align 4
  call void @llvm.memcpy.p0.p0.i64(ptr align 8 %5, ptr align 8 @__const.main.large, i64 24, i1 false)
  store i32 0, ptr %6, align 4
  br label %23

23:                                               ; preds = %28, %0
  %24 = load i32, ptr %6, align 4
  %25 = icmp slt i32 %24, 20
  br i1 %25, label %26, label %31

26:                                               ; preds = %23
  %27 = load i32, ptr %6, align 4
  call void @grown(ptr dead_on_unwind writable sret(%struct.Large) align 8 %7, ptr noundef %5, i32 noundef %27) #3
  call void @llvm.memcpy.p0.p0.i64(ptr align 8 %5, ptr align 8 %7, i64 24, i1 false)
  br label %28

28:                                               ; preds = %26
  %29 = load i32, ptr %6, align 4
  %30 = add nsw i32 %29, 1
  store i32 %30, ptr %6, align 4
  br label %23, !llvm.loop !4

31:                                               ; preds = %23
  call void @llvm.memcpy.p0.p0.i64(ptr align 1 %8, ptr align 1 @__const.main.packed, i64 7, i1 false)
  %32 = getelementptr inbounds %struct.Padded, ptr %9, i32 0, i32 0
  %33 = getelementptr inbounds %struct.Packed, ptr %8, i32 0, i32 0
  %34 = load i8, ptr %33, align 1
  store i8 %34, ptr %32, align 4
  %35 = getelementptr inbounds %struct.Padded, ptr %9, i32 0, i32 1
  %36 = getelementptr inbounds %struct.Packed, ptr %8, i32 0, i32 1
  %37 = load i32, ptr %36, align 1
  store i32 %37, ptr %35, align 4
  %38 = getelementptr inbounds %struct.Padded, ptr %9, i32 0, i32 2
  %39 = getelementptr inbounds %struct.Packed, ptr %8, i32 0, i32 2
  %40 = load i16, ptr %39, align 1
  store i16 %40, ptr %38, align 4
  %41 = getelementptr inbounds %struct.Point, ptr %4, i32 0, i32 0
  %42 = load i32, ptr %41, align 4
  %43 = getelementptr inbounds %struct.Point, ptr %4, i32 0, i32 1
  %44 = load i32, ptr %43, align 4
  %45 = getelementptr inbounds %struct.Line, ptr %2, i32 0, i32 0
  %46 = load i64, ptr %45, align 4
  %47 = load i64, ptr %4, align 4
  %48 = call i32 @span(i64 %46, i64 %47) #3
  %49 = call i32 @area(ptr noundef %2) #3
  %50 = getelementptr inbounds %struct.Line, ptr %2, i32 0, i32 2
  %51 = getelementptr inbounds [3 x i8], ptr %50, i64 0, i64 0
  %52 = call i32 (ptr, ...) @printf(ptr noundef @.str, i32 noundef %42, i32 noundef %44, i32 noundef %48, i32 noundef %49, ptr noundef %51) #3
  %53 = getelementptr inbounds %struct.Line, ptr %2, i32 0, i32 3
  %54 = getelementptr inbounds [2 x %union.Cell], ptr %53, i64 0, i64 0
  %55 = getelementptr inbounds [4 x i8], ptr %54, i64 0, i64 0
  %56 = load i8, ptr %55, align 4
  %57 = zext i8 %56 to i32
  %58 = getelementptr inbounds %struct.Line, ptr %2, i32 0, i32 3
  %59 = getelementptr inbounds [2 x %union.Cell], ptr %58, i64 0, i64 0
  %60 = getelementptr inbounds [4 x i8], ptr %59, i64 0, i64 3
  %61 = load i8, ptr %60, align 1
  %62 = zext i8 %61 to i32
  %63 = getelementptr inbounds %struct.Line, ptr %2, i32 0, i32 3
  %64 = getelementptr inbounds [2 x %union.Cell], ptr %63, i64 0, i64 1
  %65 = load i32, ptr %64, align 4
  %66 = getelementptr inbounds %struct.Line, ptr %2, i32 0, i32 3
  %67 = getelementptr inbounds [2 x %union.Cell], ptr %66, i64 0, i64 1
  %68 = load i16, ptr %67, align 4
  %69 = lshr i16 %68, 5
  %70 = and i16 %69, 63
  %71 = zext i16 %70 to i32
  %72 = call i32 (ptr, ...) @printf(ptr noundef @.str.1, i32 noundef %57, i32 noundef %62, i32 noundef %65, i32 noundef %71) #3
  %73 = getelementptr inbounds %struct.Large, ptr %5, i32 0, i32 0
  %74 = load i64, ptr %73, align 8
  %75 = getelementptr inbounds %struct.Large, ptr %5, i32 0, i32 1
  %76 = load i64, ptr %75, align 8
  %77 = getelementptr inbounds %struct.Large, ptr %5, i32 0, i32 2
  %78 = load i64, ptr %77, align 8
  %79 = call i32 (ptr, ...) @printf(ptr noundef @.str.2, i64 noundef %74, i64 noundef %76, i64 noundef %78) #3
  %80 = getelementptr inbounds %struct.Padded, ptr %9, i32 0, i32 1
  %81 = load i32, ptr %80, align 4
  %82 = getelementptr inbounds %struct.Padded, ptr %9, i32 0, i32 2
  %83 = load i16, ptr %82, align 4
  %84 = sext i16 %83 to i32
  %85 = mul nsw i32 %81, %84
  %86 = getelementptr inbounds %struct.Packed, ptr %8, i32 0, i32 0
  %87 = load i8, ptr %86, align 1
  %88 = sext i8 %87 to i32
  %89 = call i32 (ptr, ...) @printf(ptr noundef @.str.3, i64 noundef 12, i64 noundef 7, i32 noundef %85, i32 noundef %88) #3
  call void @llvm.memcpy.p0.p0.i64(ptr align 4 %10, ptr align 4 %2, i64 28, i1 false)
  %90 = getelementptr inbounds %struct.Line, ptr %10, i32 0, i32 1
  %91 = getelementptr inbounds %struct.Point, ptr %90, i32 0, i32 1
  %92 = load i32, ptr %91, align 4
  %93 = add nsw i32 %92, 10
  store i32 %93, ptr %91, align 4
  %94 = call i32 @area(ptr noundef %10) #3
  %95 = call i32 @area(ptr noundef %2) #3
  %96 = sub nsw i32 %94, %95
  %97 = add nsw i32 %96, 28
  ret i32 %97
}

; Function Attrs: nocallback nofree nounwind willreturn memory(argmem: readwrite)
declare void @llvm.memcpy.p0.p0.i64(ptr noalias nocapture writeonly, ptr noalias nocapture readonly, i64, i1 immarg) #1

; Function Attrs: noinline nounwind optnone uwtable
define internal i64 @middle(ptr noundef %0) #0 {
  %2 = alloca %struct.Point, align 4
  %3 = alloca ptr, align 8
  store ptr %0, ptr %3, align 8
  %4 = getelementptr inbounds %struct.Point, ptr %2, i32 0, i32 0
  %5 = load ptr, ptr %3, align 8
  %6 = getelementptr inbounds %struct.Line, ptr %5, i32 0, i32 0
  %7 = getelementptr inbounds %struct.Point, ptr %6, i32 0, i32 0
  %8 = load i32, ptr %7, align 4
  %9 = load ptr, ptr %3, align 8
  %10 = getelementptr inbounds %struct.Line, ptr %9, i32 0, i32 1
  %11 = getelementptr inbounds %struct.Point, ptr %10, i32 0, i32 0
  %12 = load i32, ptr %11, align 4
  %13 = add nsw i32 %8, %12
  %14 = sdiv i32 %13, 2
  store i32 %14, ptr %4, align 4
  %15 = getelementptr inbounds %struct.Point, ptr %2, i32 0, i32 1
  %16 = load ptr, ptr %3, align 8
  %17 = getelementptr inbounds %struct.Line, ptr %16, i32 0, i32 0
  %18 = getelementptr inbounds %struct.Point, ptr %17, i32 0, i32 1
  %19 = load i32, ptr %18, align 4
  %20 = load ptr, ptr %3, align 8
  %21 = getelementptr inbounds %struct.Line, ptr %20, i32 0, i32 1
  %22 = getelementptr inbounds %struct.Point, ptr %21, i32 0, i32 1
  %23 = load i32, ptr %22, align 4
  %24 = add nsw i32 %19, %23
  %25 = sdiv i32 %24, 2
  store i32 %25, ptr %15, align 4
  %26 = load i64, ptr %2, align 4
  ret i64 %26
}

; Function Attrs: noinline nounwind optnone uwtable
define internal void @grown(ptr dead_on_unwind noalias writable sret(%struct.Large) align 8 %0, ptr noundef %1, i32 noundef %2) #0 {
  %4 = alloca ptr, align 8
  %5 = alloca i32, align 4
  store ptr %1, ptr %4, align 8
  store i32 %2, ptr %5, align 4
  %6 = getelementptr inbounds %struct.Large, ptr %0, i32 0, i32 0
  %7 = load ptr, ptr %4, align 8
  %8 = getelementptr inbounds %struct.Large, ptr %7, i32 0, i32 1
  %9 = load i64, ptr %8, align 8
  store i64 %9, ptr %6, align 8
  %10 = getelementptr inbounds %struct.Large, ptr %0, i32 0, i32 1
  %11 = load ptr, ptr %4, align 8
  %12 = getelementptr inbounds %struct.Large, ptr %11, i32 0, i32 2
  %13 = load i64, ptr %12, align 8
  store i64 %13, ptr %10, align 8
  %14 = getelementptr inbounds %struct.Large, ptr %0, i32 0, i32 2
  %15 = load ptr, ptr %4, align 8
  %16 = getelementptr inbounds %struct.Large, ptr %15, i32 0, i32 0
  %17 = load i64, ptr %16, align 8
  %18 = load i32, ptr %5, align 4
  %19 = sext i32 %18 to i64
  %20 = add nsw i64 %17, %19
  store i64 %20, ptr %14, align 8
  ret void
}

declare dso_local i32 @printf(ptr noundef, ...) #2

; Function Attrs: noinline nounwind optnone uwtable
define internal i32 @span(i64 %0, i64 %1) #0 {
  %3 = alloca %struct.Point, align 4
  %4 = alloca %struct.Point, align 4
  store i64 %0, ptr %3, align 4
  store i64 %1, ptr %4, align 4
  %5 = getelementptr inbounds %struct.Point, ptr %4, i32 0, i32 0
  %6 = load i32, ptr %5, align 4
  %7 = getelementptr inbounds %struct.Point, ptr %3, i32 0, i32 0
  %8 = load i32, ptr %7, align 4
  %9 = sub nsw i32 %6, %8
  %10 = getelementptr inbounds %struct.Point, ptr %4, i32 0, i32 1
  %11 = load i32, ptr %10, align 4
  %12 = add nsw i32 %9, %11
  %13 = getelementptr inbounds %struct.Point, ptr %3, i32 0, i32 1
  %14 = load i32, ptr %13, align 4
  %15 = sub nsw i32 %12, %14
  ret i32 %15
}

; Function Attrs: noinline nounwind optnone uwtable
define internal i32 @area(ptr noundef %0) #0 {
  %2 = alloca ptr, align 8
  store ptr %0, ptr %2, align 8
  %3 = load ptr, ptr %2, align 8
  %4 = getelementptr inbounds %struct.Line, ptr %3, i32 0, i32 1
  %5 = getelementptr inbounds %struct.Point, ptr %4, i32 0, i32 0
  %6 = load i32, ptr %5, align 4
  %7 = load ptr, ptr %2, align 8
  %8 = getelementptr inbounds %struct.Line, ptr %7, i32 0, i32 0
  %9 = getelementptr inbounds %struct.Point, ptr %8, i32 0, i32 0
  %10 = load i32, ptr %9, align 4
  %11 = sub nsw i32 %6, %10
  %12 = load ptr, ptr %2, align 8
  %13 = getelementptr inbounds %struct.Line, ptr %12, i32 0, i32 1
  %14 = getelementptr inbounds %struct.Point, ptr %13, i32 0, i32 1
  %15 = load i32, ptr %14, align 4
  %16 = load ptr, ptr %2, align 8
  %17 = getelementptr inbounds %struct.Line, ptr %16, i32 0, i32 0
  %18 = getelementptr inbounds %struct.Point, ptr %17, i32 0, i32 1
  %19 = load i32, ptr %18, align 4
  %20 = sub nsw i32 %15, %19
  %21 = mul nsw i32 %11, %20
  ret i32 %21
}

attributes #0 = { noinline nounwind optnone uwtable "frame-pointer"="all" "min-legal-vector-width"="0" "no-builtin-calloc" "no-trapping-math"="true" "stack-protector-buffer-size"="8" "target-cpu"="x86-64" "target-features"="+cmov,+cx8,+fxsr,-aes,-avx,-avx10.1-256,-avx10.1-512,-avx2,-avx512bf16,-avx512bitalg,-avx512bw,-avx512cd,-avx512dq,-avx512f,-avx512fp16,-avx512ifma,-avx512vbmi,-avx512vbmi2,-avx512vl,-avx512vnni,-avx512vp2intersect,-avx512vpopcntdq,-avxifma,-avxneconvert,-avxvnni,-avxvnniint16,-avxvnniint8,-f16c,-fma,-fma4,-gfni,-kl,-mmx,-pclmul,-sha,-sha512,-sm3,-sm4,-sse,-sse2,-sse3,-sse4.1,-sse4.2,-sse4a,-ssse3,-vaes,-vpclmulqdq,-widekl,-x87,-xop" "tune-cpu"="generic" }
attributes #1 = { nocallback nofree nounwind willreturn memory(argmem: readwrite) }
attributes #2 = { "frame-pointer"="all" "no-builtin-calloc" "no-trapping-math"="true" "stack-protector-buffer-size"="8" "target-cpu"="x86-64" "target-features"="+cmov,+cx8,+fxsr,-aes,-avx,-avx10.1-256,-avx10.1-512,-avx2,-avx512bf16,-avx512bitalg,-avx512bw,-avx512cd,-avx512dq,-avx512f,-avx512fp16,-avx512ifma,-avx512vbmi,-avx512vbmi2,-avx512vl,-avx512vnni,-avx512vp2intersect,-avx512vpopcntdq,-avxifma,-avxneconvert,-avxvnni,-avxvnniint16,-avxvnniint8,-f16c,-fma,-fma4,-gfni,-kl,-mmx,-pclmul,-sha,-sha512,-sm3,-sm4,-sse,-sse2,-sse3,-sse4.1,-sse4.2,-sse4a,-ssse3,-vaes,-vpclmulqdq,-widekl,-x87,-xop" "tune-cpu"="generic" }
attributes #3 = { "no-builtin-calloc" }

!llvm.module.flags = !{!0, !1, !2}
!llvm.ident = !{!3}

!0 = !{i32 1, !"wchar_size", i32 4}
!1 = !{i32 7, !"uwtable", i32 2}
!2 = !{i32 7, !"frame-pointer", i32 2}
!3 = !{!"Debian clang version 19.1.7 (3~deb12u1)"}
!4 = distinct !{!4, !5}
!5 = !{!"llvm.loop.mustprogress"}
