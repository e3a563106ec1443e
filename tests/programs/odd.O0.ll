; ModuleID = 'odd.c'
source_filename = "odd.c"
target datalayout = "e-m:e-p270:32:32-p271:32:32-p272:64:64-i64:64-i128:128-f80:128-n8:16:32:64-S128"
target triple = "x86_64-pc-linux-gnu"

%struct.All = type { i8, i32, i64, i128 }

@__const.main.a = private unnamed_addr constant %struct.All { i8 1, i32 -1, i64 1, i128 7 }, align 8
@.str = private unnamed_addr constant [11 x i8] c"%u %d %lu\0A\00", align 1
@.str.1 = private unnamed_addr constant [9 x i8] c"%ld %lu\0A\00", align 1
@.str.2 = private unnamed_addr constant [8 x i8] c"%lx %d\0A\00", align 1

; Function Attrs: noinline nounwind optnone uwtable
define dso_local i32 @main() #0 {
  %1 = alloca i32, align 4
  %2 = alloca %struct.All, align 8
  %3 = alloca i32, align 4
  %4 = alloca i64, align 8
  store i32 0, ptr %1, align 4
  call void @llvm.memcpy.p0.p0.i64(ptr align 8 %2, ptr align 8 @__const.main.a, i64 32, i1 false)
  store i32 0, ptr %3, align 4
  br label %5

5:                                                ; preds = %9, %0
  %6 = load i32, ptr %3, align 4
  %7 = icmp slt i32 %6, 60
  br i1 %7, label %8, label %12

8:                                                ; preds = %5
  call void @step(ptr noundef %2) #3
  br label %9

9:                                                ; preds = %8
  %10 = load i32, ptr %3, align 4
  %11 = add nsw i32 %10, 1
  store i32 %11, ptr %3, align 4
  br label %5, !llvm.loop !4

12:                                               ; preds = %5
  %13 = getelementptr inbounds %struct.All, ptr %2, i32 0, i32 0
  %14 = load i8, ptr %13, align 8
  %15 = trunc i8 %14 to i3
  %16 = zext i3 %15 to i32
  %17 = getelementptr inbounds %struct.All, ptr %2, i32 0, i32 1
  %18 = load i32, ptr %17, align 4
  %19 = trunc i32 %18 to i17
  %20 = sext i17 %19 to i32
  %21 = getelementptr inbounds %struct.All, ptr %2, i32 0, i32 2
  %22 = load i64, ptr %21, align 8
  %23 = trunc i64 %22 to i37
  %24 = zext i37 %23 to i64
  %25 = call i32 (ptr, ...) @printf(ptr noundef @.str, i32 noundef %16, i32 noundef %20, i64 noundef %24) #3
  %26 = getelementptr inbounds %struct.All, ptr %2, i32 0, i32 3
  %27 = load i128, ptr %26, align 8
  %28 = trunc i128 %27 to i100
  %29 = ashr i100 %28, 50
  %30 = trunc i100 %29 to i64
  %31 = getelementptr inbounds %struct.All, ptr %2, i32 0, i32 3
  %32 = load i128, ptr %31, align 8
  %33 = trunc i128 %32 to i100
  %34 = trunc i100 %33 to i64
  %35 = and i64 %34, 4294967295
  %36 = call i32 (ptr, ...) @printf(ptr noundef @.str.1, i64 noundef %30, i64 noundef %35) #3
  %37 = getelementptr inbounds %struct.All, ptr %2, i32 0, i32 2
  %38 = load i64, ptr %37, align 8
  %39 = trunc i64 %38 to i37
  %40 = shl i37 %39, 5
  %41 = getelementptr inbounds %struct.All, ptr %2, i32 0, i32 2
  %42 = load i64, ptr %41, align 8
  %43 = trunc i64 %42 to i37
  %44 = lshr i37 %43, 32
  %45 = or i37 %40, %44
  %46 = zext i37 %45 to i64
  store i64 %46, ptr %4, align 8
  %47 = load i64, ptr %4, align 8
  %48 = trunc i64 %47 to i37
  %49 = zext i37 %48 to i64
  %50 = getelementptr inbounds %struct.All, ptr %2, i32 0, i32 1
  %51 = load i32, ptr %50, align 4
  %52 = trunc i32 %51 to i17
  %53 = getelementptr inbounds %struct.All, ptr %2, i32 0, i32 0
  %54 = load i8, ptr %53, align 8
  %55 = trunc i8 %54 to i3
  %56 = zext i3 %55 to i17
  %57 = icmp slt i17 %52, %56
  %58 = zext i1 %57 to i32
  %59 = call i32 (ptr, ...) @printf(ptr noundef @.str.2, i64 noundef %49, i32 noundef %58) #3
  %60 = getelementptr inbounds %struct.All, ptr %2, i32 0, i32 2
  %61 = load i64, ptr %60, align 8
  %62 = trunc i64 %61 to i37
  %63 = urem i37 %62, 199
  %64 = trunc i37 %63 to i32
  ret i32 %64
}

; Function Attrs: nocallback nofree nounwind willreturn memory(argmem: readwrite)
declare void @llvm.memcpy.p0.p0.i64(ptr noalias nocapture writeonly, ptr noalias nocapture readonly, i64, i1 immarg) #1

; Function Attrs: noinline nounwind optnone uwtable
define internal void @step(ptr noundef %0) #0 {
  %2 = alloca ptr, align 8
  store ptr %0, ptr %2, align 8
  %3 = load ptr, ptr %2, align 8
  %4 = getelementptr inbounds %struct.All, ptr %3, i32 0, i32 0
  %5 = load i8, ptr %4, align 8
  %6 = trunc i8 %5 to i3
  %7 = zext i3 %6 to i32
  %8 = add nsw i32 %7, 5
  %9 = trunc i32 %8 to i3
  %10 = zext i3 %9 to i8
  store i8 %10, ptr %4, align 8
  %11 = load ptr, ptr %2, align 8
  %12 = getelementptr inbounds %struct.All, ptr %11, i32 0, i32 1
  %13 = load i32, ptr %12, align 4
  %14 = trunc i32 %13 to i17
  %15 = sext i17 %14 to i32
  %16 = mul nsw i32 %15, 3
  %17 = srem i32 %16, 60000
  %18 = load ptr, ptr %2, align 8
  %19 = getelementptr inbounds %struct.All, ptr %18, i32 0, i32 0
  %20 = load i8, ptr %19, align 8
  %21 = trunc i8 %20 to i3
  %22 = zext i3 %21 to i32
  %23 = sub nsw i32 %17, %22
  %24 = trunc i32 %23 to i17
  %25 = load ptr, ptr %2, align 8
  %26 = getelementptr inbounds %struct.All, ptr %25, i32 0, i32 1
  %27 = sext i17 %24 to i32
  store i32 %27, ptr %26, align 4
  %28 = load ptr, ptr %2, align 8
  %29 = getelementptr inbounds %struct.All, ptr %28, i32 0, i32 2
  %30 = load i64, ptr %29, align 8
  %31 = trunc i64 %30 to i37
  %32 = zext i37 %31 to i64
  %33 = mul i64 %32, 6364136223
  %34 = load ptr, ptr %2, align 8
  %35 = getelementptr inbounds %struct.All, ptr %34, i32 0, i32 0
  %36 = load i8, ptr %35, align 8
  %37 = trunc i8 %36 to i3
  %38 = zext i3 %37 to i37
  %39 = zext i37 %38 to i64
  %40 = add i64 %33, %39
  %41 = trunc i64 %40 to i37
  %42 = load ptr, ptr %2, align 8
  %43 = getelementptr inbounds %struct.All, ptr %42, i32 0, i32 2
  %44 = zext i37 %41 to i64
  store i64 %44, ptr %43, align 8
  %45 = load ptr, ptr %2, align 8
  %46 = getelementptr inbounds %struct.All, ptr %45, i32 0, i32 3
  %47 = load i128, ptr %46, align 8
  %48 = trunc i128 %47 to i100
  %49 = mul nsw i100 %48, -3
  %50 = sdiv i100 %49, 2
  %51 = load ptr, ptr %2, align 8
  %52 = getelementptr inbounds %struct.All, ptr %51, i32 0, i32 1
  %53 = load i32, ptr %52, align 4
  %54 = trunc i32 %53 to i17
  %55 = sext i17 %54 to i100
  %56 = add nsw i100 %50, %55
  %57 = load ptr, ptr %2, align 8
  %58 = getelementptr inbounds %struct.All, ptr %57, i32 0, i32 3
  %59 = sext i100 %56 to i128
  store i128 %59, ptr %58, align 8
  ret void
}

declare dso_local i32 @printf(ptr noundef, ...) #2

attributes #0 = { noinline nounwind optnone uwtable "frame-pointer"="all" "min-legal-vector-width"="0" "no-builtin-calloc" "no-trapping-math"="true" "stack-protector-buffer-size"="8" "target-cpu"="x86-64" "target-features"="+cmov,+cx8,+fxsr,-aes,-avx,-avx10.1-256,-avx10.1-512,-avx2,-avx512bf16,-avx512bitalg,-avx512bw,-avx512cd,-avx512dq,-avx512f,-avx512fp16,-avx512ifma,-avx512vbmi,-avx512vbmi2,-avx512vl,-avx512vnni,-avx512vp2intersect,-avx512vpopcntdq,-avxifma,-avxneconvert,-avxvnni,-avxvnniint16,-avxvnniint8,-f16c,-fma,-fma4,-gfni,-kl,-mmx,-pclmul,-sha,-sha512,-sm3,-sm4,-sse,-sse2,-sse3,-sse4.1,-sse4.2,-sse4a,-ssse3,-vaes,-vpclmulqdq,-widekl,-x87,-xop" "tune-cpu"="generic" }
attributes #1 = { nocallback nofree nounwind willreturn memory(argmem: readwrite) }
attributes #2 = { "frame-pointer"="all" "no-builtin-calloc" "no-trapping-math"="true" "stack-protector-buffer-size"="8" "target-cpu"="x86-64" "target-features"="+cmov,+cx8,+fxsr,-aes,-avx,-avx10.1-256,-avx10.1-512,-avx2,-avx512bf16,-avx512bitalg,-avx512bw,-avx512cd,-avx512dq,-avx512f,-avx512fp16,-avx512ifma,-avx512vbmi,-avx512vbmi2,-avx512vl,-avx512vnni,-avx512vp2intersect,-avx512vpopcntdq,-avxifma,-avxneconvert,-avxvnni,-avxvnniint16,-avxvnniint8,-f16c,-fma,-fma4,-gfni,-kl,-mmx,-pclmul,-sha,-sha512,-sm3,-sm4,-sse,-sse2,-sse3,-sse4.1,-sse4.2,-sse4a,-ssse3,-vaes,-vpclmulqdq,-widekl,-x87,-xop" "tune-cpu"="generic" }
attributes #3 = { "no-builtin-calloc" }

!llvm.module.flags = !{!0, !1, !2}
!llvm.ident = !{!3}

!0 = !{i32 1, !"wchar_size", i32 4}
!1 = !{i32 7, !"uwtable", i32 2}
!2 = !{i32 7, !"frame-pointer", i32 2}
!3 = !{!"Debian clang version 19.1.7 (3~deb12u1)"}
!4 = distinct !{!4, !5}
!5 = !{!"llvm.loop.mustprogress"}
