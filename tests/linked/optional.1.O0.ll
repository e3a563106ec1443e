; ModuleID = 'optional.1.c'
source_filename = "optional.1.c"
target datalayout = "e-m:e-p270:32:32-p271:32:32-p272:64:64-i64:64-i128:128-f80:128-n8:16:32:64-S128"
target triple = "x86_64-pc-linux-gnu"

@.str = private unnamed_addr constant [13 x i8] c"%d %d %d %d\0A\00", align 1
@here = extern_weak dso_local global i32, align 4
@nowhere = extern_weak dso_local global i32, align 4

; Function Attrs: noinline nounwind optnone uwtable
define dso_local i32 @main() #0 {
  %1 = alloca i32, align 4
  store i32 0, ptr %1, align 4
  %2 = icmp ne ptr @here, null
  %3 = zext i1 %2 to i32
  %4 = icmp ne ptr @nowhere, null
  %5 = zext i1 %4 to i32
  %6 = icmp ne ptr @present, null
  %7 = zext i1 %6 to i32
  %8 = icmp ne ptr @absent, null
  %9 = zext i1 %8 to i32
  %10 = call i32 (ptr, ...) @printf(ptr noundef @.str, i32 noundef %3, i32 noundef %5, i32 noundef %7, i32 noundef %9) #2
  %11 = icmp ne ptr @here, null
  br i1 %11, label %12, label %14

12:                                               ; preds = %0
  %13 = load i32, ptr @here, align 4
  br label %15

14:                                               ; preds = %0
  br label %15

15:                                               ; preds = %14, %12
  %16 = phi i32 [ %13, %12 ], [ 1, %14 ]
  %17 = icmp ne ptr @nowhere, null
  br i1 %17, label %18, label %20

18:                                               ; preds = %15
  %19 = load i32, ptr @nowhere, align 4
  br label %21

20:                                               ; preds = %15
  br label %21

21:                                               ; preds = %20, %18
  %22 = phi i32 [ %19, %18 ], [ 2, %20 ]
  %23 = add nsw i32 %16, %22
  %24 = icmp ne ptr @present, null
  br i1 %24, label %25, label %27

25:                                               ; preds = %21
  %26 = call i32 @present(i32 noundef 30) #2
  br label %28

27:                                               ; preds = %21
  br label %28

28:                                               ; preds = %27, %25
  %29 = phi i32 [ %26, %25 ], [ 4, %27 ]
  %30 = add nsw i32 %23, %29
  %31 = icmp ne ptr @absent, null
  br i1 %31, label %32, label %34

32:                                               ; preds = %28
  %33 = call i32 @absent(i32 noundef 50) #2
  br label %35

34:                                               ; preds = %28
  br label %35

35:                                               ; preds = %34, %32
  %36 = phi i32 [ %33, %32 ], [ 8, %34 ]
  %37 = add nsw i32 %30, %36
  %38 = call ptr @where() #2
  %39 = icmp eq ptr %38, @here
  %40 = zext i1 %39 to i32
  %41 = add nsw i32 %37, %40
  ret i32 %41
}

declare dso_local i32 @printf(ptr noundef, ...) #1

declare extern_weak dso_local i32 @present(i32 noundef) #1

declare extern_weak dso_local i32 @absent(i32 noundef) #1

declare dso_local ptr @where() #1

attributes #0 = { noinline nounwind optnone uwtable "frame-pointer"="all" "min-legal-vector-width"="0" "no-builtin-calloc" "no-trapping-math"="true" "stack-protector-buffer-size"="8" "target-cpu"="x86-64" "target-features"="+cmov,+cx8,+fxsr,-aes,-avx,-avx10.1-256,-avx10.1-512,-avx2,-avx512bf16,-avx512bitalg,-avx512bw,-avx512cd,-avx512dq,-avx512f,-avx512fp16,-avx512ifma,-avx512vbmi,-avx512vbmi2,-avx512vl,-avx512vnni,-avx512vp2intersect,-avx512vpopcntdq,-avxifma,-avxneconvert,-avxvnni,-avxvnniint16,-avxvnniint8,-f16c,-fma,-fma4,-gfni,-kl,-mmx,-pclmul,-sha,-sha512,-sm3,-sm4,-sse,-sse2,-sse3,-sse4.1,-sse4.2,-sse4a,-ssse3,-vaes,-vpclmulqdq,-widekl,-x87,-xop" "tune-cpu"="generic" }
attributes #1 = { "frame-pointer"="all" "no-builtin-calloc" "no-trapping-math"="true" "stack-protector-buffer-size"="8" "target-cpu"="x86-64" "target-features"="+cmov,+cx8,+fxsr,-aes,-avx,-avx10.1-256,-avx10.1-512,-avx2,-avx512bf16,-avx512bitalg,-avx512bw,-avx512cd,-avx512dq,-avx512f,-avx512fp16,-avx512ifma,-avx512vbmi,-avx512vbmi2,-avx512vl,-avx512vnni,-avx512vp2intersect,-avx512vpopcntdq,-avxifma,-avxneconvert,-avxvnni,-avxvnniint16,-avxvnniint8,-f16c,-fma,-fma4,-gfni,-kl,-mmx,-pclmul,-sha,-sha512,-sm3,-sm4,-sse,-sse2,-sse3,-sse4.1,-sse4.2,-sse4a,-ssse3,-vaes,-vpclmulqdq,-widekl,-x87,-xop" "tune-cpu"="generic" }
attributes #2 = { "no-builtin-calloc" }

!llvm.module.flags = !{!0, !1, !2}
!llvm.ident = !{!3}

!0 = !{i32 1, !"wchar_size", i32 4}
!1 = !{i32 7, !"uwtable", i32 2}
!2 = !{i32 7, !"frame-pointer", i32 2}
!3 = !{!"Debian clang version 19.1.7 (3~deb12u1)"}
