; ModuleID = 'matrix.c'
source_filename = "matrix.c"
target datalayout = "e-m:e-p270:32:32-p271:32:32-p272:64:64-i64:64-i128:128-f80:128-n8:16:32:64-S128"
target triple = "x86_64-pc-linux-gnu"

; Function Attrs: noinline nounwind optnone uwtable
define dso_local i32 @main() #0 {
  %1 = alloca i32, align 4
  %2 = alloca [3 x [3 x i64]], align 16
  %3 = alloca [3 x [3 x i64]], align 16
  %4 = alloca i64, align 8
  store i32 0, ptr %1, align 4
  call void @llvm.memset.p0.i64(ptr align 16 %2, i8 0, i64 72, i1 false)
  %5 = getelementptr inbounds [3 x [3 x i64]], ptr %2, i32 0, i32 0
  %6 = getelementptr inbounds [3 x i64], ptr %5, i32 0, i32 0
  store i64 1, ptr %6, align 16
  %7 = getelementptr inbounds [3 x i64], ptr %5, i32 0, i32 1
  store i64 1, ptr %7, align 8
  %8 = getelementptr inbounds [3 x [3 x i64]], ptr %2, i32 0, i32 1
  %9 = getelementptr inbounds [3 x i64], ptr %8, i32 0, i32 1
  store i64 1, ptr %9, align 8
  %10 = getelementptr inbounds [3 x i64], ptr %8, i32 0, i32 2
  store i64 1, ptr %10, align 8
  %11 = getelementptr inbounds [3 x [3 x i64]], ptr %2, i32 0, i32 2
  %12 = getelementptr inbounds [3 x i64], ptr %11, i32 0, i32 0
  store i64 1, ptr %12, align 16
  %13 = getelementptr inbounds [3 x i64], ptr %11, i32 0, i32 2
  store i64 1, ptr %13, align 16
  call void @llvm.memset.p0.i64(ptr align 16 %3, i8 0, i64 72, i1 false)
  %14 = getelementptr inbounds [3 x [3 x i64]], ptr %3, i32 0, i32 0
  %15 = getelementptr inbounds [3 x i64], ptr %14, i32 0, i32 0
  store i64 1, ptr %15, align 16
  %16 = getelementptr inbounds [3 x [3 x i64]], ptr %3, i32 0, i32 1
  %17 = getelementptr inbounds [3 x i64], ptr %16, i32 0, i32 1
  store i64 1, ptr %17, align 8
  %18 = getelementptr inbounds [3 x [3 x i64]], ptr %3, i32 0, i32 2
  %19 = getelementptr inbounds [3 x i64], ptr %18, i32 0, i32 2
  store i64 1, ptr %19, align 16
  store i64 1000, ptr %4, align 8
  br label %20

20:                                               ; preds = %35, %0
  %21 = load i64, ptr %4, align 8
  %22 = icmp ne i64 %21, 0
  br i1 %22, label %23, label %38

23:                                               ; preds = %20
  %24 = load i64, ptr %4, align 8
  %25 = and i64 %24, 1
  %26 = icmp ne i64 %25, 0
  br i1 %26, label %27, label %31

27:                                               ; preds = %23
  %28 = getelementptr inbounds [3 x [3 x i64]], ptr %3, i64 0, i64 0
  %29 = getelementptr inbounds [3 x [3 x i64]], ptr %3, i64 0, i64 0
  %30 = getelementptr inbounds [3 x [3 x i64]], ptr %2, i64 0, i64 0
  call void @multiply(ptr noundef %28, ptr noundef %29, ptr noundef %30)
  br label %31

31:                                               ; preds = %27, %23
  %32 = getelementptr inbounds [3 x [3 x i64]], ptr %2, i64 0, i64 0
  %33 = getelementptr inbounds [3 x [3 x i64]], ptr %2, i64 0, i64 0
  %34 = getelementptr inbounds [3 x [3 x i64]], ptr %2, i64 0, i64 0
  call void @multiply(ptr noundef %32, ptr noundef %33, ptr noundef %34)
  br label %35

35:                                               ; preds = %31
  %36 = load i64, ptr %4, align 8
  %37 = lshr i64 %36, 1
  store i64 %37, ptr %4, align 8
  br label %20, !llvm.loop !6

38:                                               ; preds = %20
  %39 = getelementptr inbounds [3 x [3 x i64]], ptr %3, i64 0, i64 0
  %40 = getelementptr inbounds [3 x i64], ptr %39, i64 0, i64 0
  %41 = load i64, ptr %40, align 16
  %42 = getelementptr inbounds [3 x [3 x i64]], ptr %3, i64 0, i64 1
  %43 = getelementptr inbounds [3 x i64], ptr %42, i64 0, i64 2
  %44 = load i64, ptr %43, align 8
  %45 = xor i64 %41, %44
  %46 = getelementptr inbounds [3 x [3 x i64]], ptr %3, i64 0, i64 2
  %47 = getelementptr inbounds [3 x i64], ptr %46, i64 0, i64 1
  %48 = load i64, ptr %47, align 8
  %49 = lshr i64 %48, 8
  %50 = xor i64 %45, %49
  %51 = and i64 %50, 255
  %52 = trunc i64 %51 to i32
  ret i32 %52
}

; Function Attrs: nocallback nofree nounwind willreturn memory(argmem: write)
declare void @llvm.memset.p0.i64(ptr nocapture writeonly, i8, i64, i1 immarg) #1

; Function Attrs: noinline nounwind optnone uwtable
define internal void @multiply(ptr noundef %0, ptr noundef %1, ptr noundef %2) #0 {
  %4 = alloca ptr, align 8
  %5 = alloca ptr, align 8
  %6 = alloca ptr, align 8
  %7 = alloca [3 x [3 x i64]], align 16
  %8 = alloca i32, align 4
  %9 = alloca i32, align 4
  %10 = alloca i32, align 4
  %11 = alloca i32, align 4
  %12 = alloca i32, align 4
  store ptr %0, ptr %4, align 8
  store ptr %1, ptr %5, align 8
  store ptr %2, ptr %6, align 8
  store i32 0, ptr %8, align 4
  br label %13

13:                                               ; preds = %71, %3
  %14 = load i32, ptr %8, align 4
  %15 = icmp slt i32 %14, 3
  br i1 %15, label %16, label %74

16:                                               ; preds = %13
  store i32 0, ptr %9, align 4
  br label %17

17:                                               ; preds = %67, %16
  %18 = load i32, ptr %9, align 4
  %19 = icmp slt i32 %18, 3
  br i1 %19, label %20, label %70

20:                                               ; preds = %17
  %21 = load i32, ptr %8, align 4
  %22 = sext i32 %21 to i64
  %23 = getelementptr inbounds [3 x [3 x i64]], ptr %7, i64 0, i64 %22
  %24 = load i32, ptr %9, align 4
  %25 = sext i32 %24 to i64
  %26 = getelementptr inbounds [3 x i64], ptr %23, i64 0, i64 %25
  store i64 0, ptr %26, align 8
  store i32 0, ptr %10, align 4
  br label %27

27:                                               ; preds = %63, %20
  %28 = load i32, ptr %10, align 4
  %29 = icmp slt i32 %28, 3
  br i1 %29, label %30, label %66

30:                                               ; preds = %27
  %31 = load i32, ptr %8, align 4
  %32 = sext i32 %31 to i64
  %33 = getelementptr inbounds [3 x [3 x i64]], ptr %7, i64 0, i64 %32
  %34 = load i32, ptr %9, align 4
  %35 = sext i32 %34 to i64
  %36 = getelementptr inbounds [3 x i64], ptr %33, i64 0, i64 %35
  %37 = load i64, ptr %36, align 8
  %38 = load ptr, ptr %5, align 8
  %39 = load i32, ptr %8, align 4
  %40 = sext i32 %39 to i64
  %41 = getelementptr inbounds [3 x i64], ptr %38, i64 %40
  %42 = load i32, ptr %10, align 4
  %43 = sext i32 %42 to i64
  %44 = getelementptr inbounds [3 x i64], ptr %41, i64 0, i64 %43
  %45 = load i64, ptr %44, align 8
  %46 = load ptr, ptr %6, align 8
  %47 = load i32, ptr %10, align 4
  %48 = sext i32 %47 to i64
  %49 = getelementptr inbounds [3 x i64], ptr %46, i64 %48
  %50 = load i32, ptr %9, align 4
  %51 = sext i32 %50 to i64
  %52 = getelementptr inbounds [3 x i64], ptr %49, i64 0, i64 %51
  %53 = load i64, ptr %52, align 8
  %54 = mul i64 %45, %53
  %55 = add i64 %37, %54
  %56 = urem i64 %55, 1000000007
  %57 = load i32, ptr %8, align 4
  %58 = sext i32 %57 to i64
  %59 = getelementptr inbounds [3 x [3 x i64]], ptr %7, i64 0, i64 %58
  %60 = load i32, ptr %9, align 4
  %61 = sext i32 %60 to i64
  %62 = getelementptr inbounds [3 x i64], ptr %59, i64 0, i64 %61
  store i64 %56, ptr %62, align 8
  br label %63

63:                                               ; preds = %30
  %64 = load i32, ptr %10, align 4
  %65 = add nsw i32 %64, 1
  store i32 %65, ptr %10, align 4
  br label %27, !llvm.loop !8

66:                                               ; preds = %27
  br label %67

67:                                               ; preds = %66
  %68 = load i32, ptr %9, align 4
  %69 = add nsw i32 %68, 1
  store i32 %69, ptr %9, align 4
  br label %17, !llvm.loop !9

70:                                               ; preds = %17
  br label %71

71:                                               ; preds = %70
  %72 = load i32, ptr %8, align 4
  %73 = add nsw i32 %72, 1
  store i32 %73, ptr %8, align 4
  br label %13, !llvm.loop !10

74:                                               ; preds = %13
  store i32 0, ptr %11, align 4
  br label %75

75:                                               ; preds = %101, %74
  %76 = load i32, ptr %11, align 4
  %77 = icmp slt i32 %76, 3
  br i1 %77, label %78, label %104

78:                                               ; preds = %75
  store i32 0, ptr %12, align 4
  br label %79

79:                                               ; preds = %97, %78
  %80 = load i32, ptr %12, align 4
  %81 = icmp slt i32 %80, 3
  br i1 %81, label %82, label %100

82:                                               ; preds = %79
  %83 = load i32, ptr %11, align 4
  %84 = sext i32 %83 to i64
  %85 = getelementptr inbounds [3 x [3 x i64]], ptr %7, i64 0, i64 %84
  %86 = load i32, ptr %12, align 4
  %87 = sext i32 %86 to i64
  %88 = getelementptr inbounds [3 x i64], ptr %85, i64 0, i64 %87
  %89 = load i64, ptr %88, align 8
  %90 = load ptr, ptr %4, align 8
  %91 = load i32, ptr %11, align 4
  %92 = sext i32 %91 to i64
  %93 = getelementptr inbounds [3 x i64], ptr %90, i64 %92
  %94 = load i32, ptr %12, align 4
  %95 = sext i32 %94 to i64
  %96 = getelementptr inbounds [3 x i64], ptr %93, i64 0, i64 %95
  store i64 %89, ptr %96, align 8
  br label %97

97:                                               ; preds = %82
  %98 = load i32, ptr %12, align 4
  %99 = add nsw i32 %98, 1
  store i32 %99, ptr %12, align 4
  br label %79, !llvm.loop !11

100:                                              ; preds = %79
  br label %101

101:                                              ; preds = %100
  %102 = load i32, ptr %11, align 4
  %103 = add nsw i32 %102, 1
  store i32 %103, ptr %11, align 4
  br label %75, !llvm.loop !12

104:                                              ; preds = %75
  ret void
}

attributes #0 = { noinline nounwind optnone uwtable "frame-pointer"="all" "min-legal-vector-width"="0" "no-trapping-math"="true" "stack-protector-buffer-size"="8" "target-cpu"="x86-64" "target-features"="+cmov,+cx8,+fxsr,+mmx,+sse,+sse2,+x87" "tune-cpu"="generic" }
attributes #1 = { nocallback nofree nounwind willreturn memory(argmem: write) }

!llvm.module.flags = !{!0, !1, !2, !3, !4}
!llvm.ident = !{!5}

!0 = !{i32 1, !"wchar_size", i32 4}
!1 = !{i32 8, !"PIC Level", i32 2}
!2 = !{i32 7, !"PIE Level", i32 2}
!3 = !{i32 7, !"uwtable", i32 2}
!4 = !{i32 7, !"frame-pointer", i32 2}
!5 = !{!"Debian clang version 19.1.7 (3~deb12u1)"}
!6 = distinct !{!6, !7}
!7 = !{!"llvm.loop.mustprogress"}
!8 = distinct !{!8, !7}
!9 = distinct !{!9, !7}
!10 = distinct !{!10, !7}
!11 = distinct !{!11, !7}
!12 = distinct !{!12, !7}
