; ModuleID = 'code.c'
source_filename = "code.c"
target datalayout = "e-m:e-p270:32:32-p271:32:32-p272:64:64-i64:64-i128:128-f80:128-n8:16:32:64-S128"
target triple = "x86_64-pc-linux-gnu"

%struct.Step = type { i32, i32 }

@code = internal constant [34 x %struct.Step] [%struct.Step { i32 0, i32 2 }, %struct.Step { i32 2, i32 0 }, %struct.Step { i32 1, i32 0 }, %struct.Step { i32 0, i32 60 }, %struct.Step { i32 6, i32 0 }, %struct.Step { i32 8, i32 33 }, %struct.Step { i32 0, i32 2 }, %struct.Step { i32 2, i32 1 }, %struct.Step { i32 1, i32 1 }, %struct.Step { i32 1, i32 1 }, %struct.Step { i32 4, i32 0 }, %struct.Step { i32 1, i32 0 }, %struct.Step { i32 0, i32 1 }, %struct.Step { i32 3, i32 0 }, %struct.Step { i32 6, i32 0 }, %struct.Step { i32 8, i32 26 }, %struct.Step { i32 1, i32 0 }, %struct.Step { i32 1, i32 1 }, %struct.Step { i32 5, i32 0 }, %struct.Step { i32 8, i32 28 }, %struct.Step { i32 1, i32 1 }, %struct.Step { i32 0, i32 1 }, %struct.Step { i32 3, i32 0 }, %struct.Step { i32 2, i32 1 }, %struct.Step { i32 7, i32 8 }, %struct.Step { i32 10, i32 0 }, %struct.Step { i32 1, i32 0 }, %struct.Step { i32 9, i32 0 }, %struct.Step { i32 1, i32 0 }, %struct.Step { i32 0, i32 1 }, %struct.Step { i32 3, i32 0 }, %struct.Step { i32 2, i32 0 }, %struct.Step { i32 7, i32 2 }, %struct.Step { i32 10, i32 0 }], align 16
@.str = private unnamed_addr constant [10 x i8] c"%d %d %d\0A\00", align 1
@.str.1 = private unnamed_addr constant [5 x i8] c"%d%c\00", align 1

; Function Attrs: noinline nounwind optnone uwtable
define dso_local i32 @main() #0 {
  %1 = alloca i32, align 4
  %2 = alloca [2 x i32], align 4
  %3 = alloca i32, align 4
  %4 = alloca i32, align 4
  store i32 0, ptr %1, align 4
  call void @llvm.memset.p0.i64(ptr align 4 %2, i8 0, i64 8, i1 false)
  %5 = getelementptr inbounds [2 x i32], ptr %2, i64 0, i64 0
  %6 = call i32 @run(ptr noundef @code, ptr noundef %5, i32 noundef 20000) #3
  store i32 %6, ptr %3, align 4
  %7 = getelementptr inbounds [2 x i32], ptr %2, i64 0, i64 0
  %8 = call i32 @run(ptr noundef @code, ptr noundef %7, i32 noundef 100) #3
  store i32 %8, ptr %4, align 4
  %9 = load i32, ptr %3, align 4
  %10 = getelementptr inbounds [2 x i32], ptr %2, i64 0, i64 0
  %11 = load i32, ptr %10, align 4
  %12 = load i32, ptr %4, align 4
  %13 = call i32 (ptr, ...) @printf(ptr noundef @.str, i32 noundef %9, i32 noundef %11, i32 noundef %12) #3
  %14 = load i32, ptr %3, align 4
  %15 = and i32 %14, 127
  ret i32 %15
}

; Function Attrs: nocallback nofree nounwind willreturn memory(argmem: write)
declare void @llvm.memset.p0.i64(ptr nocapture writeonly, i8, i64, i1 immarg) #1

; Function Attrs: noinline nounwind optnone uwtable
define internal i32 @run(ptr noundef %0, ptr noundef %1, i32 noundef %2) #0 {
  %4 = alloca i32, align 4
  %5 = alloca ptr, align 8
  %6 = alloca ptr, align 8
  %7 = alloca i32, align 4
  %8 = alloca [16 x i32], align 16
  %9 = alloca i32, align 4
  %10 = alloca i32, align 4
  %11 = alloca i32, align 4
  %12 = alloca i32, align 4
  %13 = alloca ptr, align 8
  store ptr %0, ptr %5, align 8
  store ptr %1, ptr %6, align 8
  store i32 %2, ptr %7, align 4
  store i32 0, ptr %9, align 4
  store i32 0, ptr %10, align 4
  store i32 0, ptr %11, align 4
  store i32 0, ptr %12, align 4
  br label %14

14:                                               ; preds = %148, %3
  %15 = load i32, ptr %12, align 4
  %16 = load i32, ptr %7, align 4
  %17 = icmp slt i32 %15, %16
  br i1 %17, label %18, label %151

18:                                               ; preds = %14
  %19 = load ptr, ptr %5, align 8
  %20 = load i32, ptr %11, align 4
  %21 = add nsw i32 %20, 1
  store i32 %21, ptr %11, align 4
  %22 = sext i32 %20 to i64
  %23 = getelementptr inbounds %struct.Step, ptr %19, i64 %22
  store ptr %23, ptr %13, align 8
  %24 = load ptr, ptr %13, align 8
  %25 = getelementptr inbounds %struct.Step, ptr %24, i32 0, i32 0
  %26 = load i32, ptr %25, align 4
  switch i32 %26, label %145 [
    i32 0, label %27
    i32 1, label %35
    i32 2, label %47
    i32 3, label %59
    i32 4, label %72
    i32 5, label %85
    i32 6, label %98
    i32 7, label %116
    i32 8, label %120
    i32 9, label %132
  ]

27:                                               ; preds = %18
  %28 = load ptr, ptr %13, align 8
  %29 = getelementptr inbounds %struct.Step, ptr %28, i32 0, i32 1
  %30 = load i32, ptr %29, align 4
  %31 = load i32, ptr %9, align 4
  %32 = add nsw i32 %31, 1
  store i32 %32, ptr %9, align 4
  %33 = sext i32 %31 to i64
  %34 = getelementptr inbounds [16 x i32], ptr %8, i64 0, i64 %33
  store i32 %30, ptr %34, align 4
  br label %147

35:                                               ; preds = %18
  %36 = load ptr, ptr %6, align 8
  %37 = load ptr, ptr %13, align 8
  %38 = getelementptr inbounds %struct.Step, ptr %37, i32 0, i32 1
  %39 = load i32, ptr %38, align 4
  %40 = sext i32 %39 to i64
  %41 = getelementptr inbounds i32, ptr %36, i64 %40
  %42 = load i32, ptr %41, align 4
  %43 = load i32, ptr %9, align 4
  %44 = add nsw i32 %43, 1
  store i32 %44, ptr %9, align 4
  %45 = sext i32 %43 to i64
  %46 = getelementptr inbounds [16 x i32], ptr %8, i64 0, i64 %45
  store i32 %42, ptr %46, align 4
  br label %147

47:                                               ; preds = %18
  %48 = load i32, ptr %9, align 4
  %49 = add nsw i32 %48, -1
  store i32 %49, ptr %9, align 4
  %50 = sext i32 %49 to i64
  %51 = getelementptr inbounds [16 x i32], ptr %8, i64 0, i64 %50
  %52 = load i32, ptr %51, align 4
  %53 = load ptr, ptr %6, align 8
  %54 = load ptr, ptr %13, align 8
  %55 = getelementptr inbounds %struct.Step, ptr %54, i32 0, i32 1
  %56 = load i32, ptr %55, align 4
  %57 = sext i32 %56 to i64
  %58 = getelementptr inbounds i32, ptr %53, i64 %57
  store i32 %52, ptr %58, align 4
  br label %147

59:                                               ; preds = %18
  %60 = load i32, ptr %9, align 4
  %61 = add nsw i32 %60, -1
  store i32 %61, ptr %9, align 4
  %62 = load i32, ptr %9, align 4
  %63 = sext i32 %62 to i64
  %64 = getelementptr inbounds [16 x i32], ptr %8, i64 0, i64 %63
  %65 = load i32, ptr %64, align 4
  %66 = load i32, ptr %9, align 4
  %67 = sub nsw i32 %66, 1
  %68 = sext i32 %67 to i64
  %69 = getelementptr inbounds [16 x i32], ptr %8, i64 0, i64 %68
  %70 = load i32, ptr %69, align 4
  %71 = add nsw i32 %70, %65
  store i32 %71, ptr %69, align 4
  br label %147

72:                                               ; preds = %18
  %73 = load i32, ptr %9, align 4
  %74 = add nsw i32 %73, -1
  store i32 %74, ptr %9, align 4
  %75 = load i32, ptr %9, align 4
  %76 = sext i32 %75 to i64
  %77 = getelementptr inbounds [16 x i32], ptr %8, i64 0, i64 %76
  %78 = load i32, ptr %77, align 4
  %79 = load i32, ptr %9, align 4
  %80 = sub nsw i32 %79, 1
  %81 = sext i32 %80 to i64
  %82 = getelementptr inbounds [16 x i32], ptr %8, i64 0, i64 %81
  %83 = load i32, ptr %82, align 4
  %84 = mul nsw i32 %83, %78
  store i32 %84, ptr %82, align 4
  br label %147

85:                                               ; preds = %18
  %86 = load i32, ptr %9, align 4
  %87 = add nsw i32 %86, -1
  store i32 %87, ptr %9, align 4
  %88 = load i32, ptr %9, align 4
  %89 = sext i32 %88 to i64
  %90 = getelementptr inbounds [16 x i32], ptr %8, i64 0, i64 %89
  %91 = load i32, ptr %90, align 4
  %92 = load i32, ptr %9, align 4
  %93 = sub nsw i32 %92, 1
  %94 = sext i32 %93 to i64
  %95 = getelementptr inbounds [16 x i32], ptr %8, i64 0, i64 %94
  %96 = load i32, ptr %95, align 4
  %97 = srem i32 %96, %91
  store i32 %97, ptr %95, align 4
  br label %147

98:                                               ; preds = %18
  %99 = load i32, ptr %9, align 4
  %100 = add nsw i32 %99, -1
  store i32 %100, ptr %9, align 4
  %101 = load i32, ptr %9, align 4
  %102 = sub nsw i32 %101, 1
  %103 = sext i32 %102 to i64
  %104 = getelementptr inbounds [16 x i32], ptr %8, i64 0, i64 %103
  %105 = load i32, ptr %104, align 4
  %106 = load i32, ptr %9, align 4
  %107 = sext i32 %106 to i64
  %108 = getelementptr inbounds [16 x i32], ptr %8, i64 0, i64 %107
  %109 = load i32, ptr %108, align 4
  %110 = icmp slt i32 %105, %109
  %111 = zext i1 %110 to i32
  %112 = load i32, ptr %9, align 4
  %113 = sub nsw i32 %112, 1
  %114 = sext i32 %113 to i64
  %115 = getelementptr inbounds [16 x i32], ptr %8, i64 0, i64 %114
  store i32 %111, ptr %115, align 4
  br label %147

116:                                              ; preds = %18
  %117 = load ptr, ptr %13, align 8
  %118 = getelementptr inbounds %struct.Step, ptr %117, i32 0, i32 1
  %119 = load i32, ptr %118, align 4
  store i32 %119, ptr %11, align 4
  br label %147

120:                                              ; preds = %18
  %121 = load i32, ptr %9, align 4
  %122 = add nsw i32 %121, -1
  store i32 %122, ptr %9, align 4
  %123 = sext i32 %122 to i64
  %124 = getelementptr inbounds [16 x i32], ptr %8, i64 0, i64 %123
  %125 = load i32, ptr %124, align 4
  %126 = icmp ne i32 %125, 0
  br i1 %126, label %131, label %127

127:                                              ; preds = %120
  %128 = load ptr, ptr %13, align 8
  %129 = getelementptr inbounds %struct.Step, ptr %128, i32 0, i32 1
  %130 = load i32, ptr %129, align 4
  store i32 %130, ptr %11, align 4
  br label %131

131:                                              ; preds = %127, %120
  br label %147

132:                                              ; preds = %18
  %133 = load i32, ptr %9, align 4
  %134 = add nsw i32 %133, -1
  store i32 %134, ptr %9, align 4
  %135 = sext i32 %134 to i64
  %136 = getelementptr inbounds [16 x i32], ptr %8, i64 0, i64 %135
  %137 = load i32, ptr %136, align 4
  %138 = load i32, ptr %10, align 4
  %139 = add nsw i32 %138, 1
  store i32 %139, ptr %10, align 4
  %140 = srem i32 %139, 6
  %141 = icmp ne i32 %140, 0
  %142 = zext i1 %141 to i64
  %143 = select i1 %141, i32 32, i32 10
  %144 = call i32 (ptr, ...) @printf(ptr noundef @.str.1, i32 noundef %137, i32 noundef %143) #3
  br label %147

145:                                              ; preds = %18
  %146 = load i32, ptr %12, align 4
  store i32 %146, ptr %4, align 4
  br label %152

147:                                              ; preds = %132, %131, %116, %98, %85, %72, %59, %47, %35, %27
  br label %148

148:                                              ; preds = %147
  %149 = load i32, ptr %12, align 4
  %150 = add nsw i32 %149, 1
  store i32 %150, ptr %12, align 4
  br label %14, !llvm.loop !4

151:                                              ; preds = %14
  store i32 -1, ptr %4, align 4
  br label %152

152:                                              ; preds = %151, %145
  %153 = load i32, ptr %4, align 4
  ret i32 %153
}

declare dso_local i32 @printf(ptr noundef, ...) #2

attributes #0 = { noinline nounwind optnone uwtable "frame-pointer"="all" "min-legal-vector-width"="0" "no-builtin-calloc" "no-trapping-math"="true" "stack-protector-buffer-size"="8" "target-cpu"="x86-64" "target-features"="+cmov,+cx8,+fxsr,-aes,-avx,-avx10.1-256,-avx10.1-512,-avx2,-avx512bf16,-avx512bitalg,-avx512bw,-avx512cd,-avx512dq,-avx512f,-avx512fp16,-avx512ifma,-avx512vbmi,-avx512vbmi2,-avx512vl,-avx512vnni,-avx512vp2intersect,-avx512vpopcntdq,-avxifma,-avxneconvert,-avxvnni,-avxvnniint16,-avxvnniint8,-f16c,-fma,-fma4,-gfni,-kl,-mmx,-pclmul,-sha,-sha512,-sm3,-sm4,-sse,-sse2,-sse3,-sse4.1,-sse4.2,-sse4a,-ssse3,-vaes,-vpclmulqdq,-widekl,-x87,-xop" "tune-cpu"="generic" }
attributes #1 = { nocallback nofree nounwind willreturn memory(argmem: write) }
attributes #2 = { "frame-pointer"="all" "no-builtin-calloc" "no-trapping-math"="true" "stack-protector-buffer-size"="8" "target-cpu"="x86-64" "target-features"="+cmov,+cx8,+fxsr,-aes,-avx,-avx10.1-256,-avx10.1-512,-avx2,-avx512bf16,-avx512bitalg,-avx512bw,-avx512cd,-avx512dq,-avx512f,-avx512fp16,-avx512ifma,-avx512vbmi,-avx512vbmi2,-avx512vl,-avx512vnni,-avx512vp2intersect,-avx512vpopcntdq,-avxifma,-avxneconvert,-avxvnni,-avxvnniint16,-avxvnniint8,-f16c,-fma,-fma4,-gfni,-kl,-mmx,-pclmul,-sha,-sha512,-sm3,-sm4,-sse,-sse2,-sse3,-sse4.1,-sse4.2,-sse4a,-ssse3,-vaes,-vpclmulqdq,-widekl,-x87,-xop" "tune-cpu"="generic" }
attributes #3 = { "no-builtin-calloc" }

!llvm.module.flags = !{!0, !1, !2}
!llvm.ident = !{!3}

!0 = !{i32 1, !"wchar_size", i32 4}
!1 = !{i32 7, !"uwtable", i32 2}
!2 = !{i32 7, !"frame-pointer", i32 2}
!3 = !{!"Debian clang version 19.1.7 (3~deb12u1)"}
!4 = distinct !{!4, !5}
!5 = !{!"llvm.loop.mustprogress"}
