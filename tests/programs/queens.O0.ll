; ModuleID = 'queens.c'
source_filename = "queens.c"
target datalayout = "e-m:e-p270:32:32-p271:32:32-p272:64:64-i64:64-i128:128-f80:128-n8:16:32:64-S128"
target triple = "x86_64-pc-linux-gnu"

%struct.board = type { i32, i32, i32 }
%struct.count = type { i32, i32 }

@.str = private unnamed_addr constant [14 x i8] c"%d %d of %5d\0A\00", align 1

; Function Attrs: noinline nounwind optnone uwtable
define dso_local i32 @main() #0 {
  %1 = alloca i32, align 4
  %2 = alloca %struct.board, align 4
  %3 = alloca %struct.count, align 4
  %4 = alloca %struct.count, align 4
  store i32 0, ptr %1, align 4
  call void @llvm.memset.p0.i64(ptr align 4 %2, i8 0, i64 12, i1 false)
  %5 = call i64 @place(i32 noundef 6, i32 noundef 0, ptr noundef %2)
  store i64 %5, ptr %3, align 4
  %6 = call i64 @place(i32 noundef 7, i32 noundef 0, ptr noundef %2)
  store i64 %6, ptr %4, align 4
  %7 = getelementptr inbounds %struct.count, ptr %3, i32 0, i32 0
  %8 = load i32, ptr %7, align 4
  %9 = getelementptr inbounds %struct.count, ptr %4, i32 0, i32 0
  %10 = load i32, ptr %9, align 4
  %11 = getelementptr inbounds %struct.count, ptr %4, i32 0, i32 1
  %12 = load i32, ptr %11, align 4
  %13 = call i32 (ptr, ...) @printf(ptr noundef @.str, i32 noundef %8, i32 noundef %10, i32 noundef %12)
  %14 = getelementptr inbounds %struct.count, ptr %3, i32 0, i32 0
  %15 = load i32, ptr %14, align 4
  %16 = mul nsw i32 %15, 50
  %17 = getelementptr inbounds %struct.count, ptr %4, i32 0, i32 0
  %18 = load i32, ptr %17, align 4
  %19 = add nsw i32 %16, %18
  %20 = getelementptr inbounds %struct.count, ptr %4, i32 0, i32 1
  %21 = load i32, ptr %20, align 4
  %22 = add nsw i32 %19, %21
  %23 = and i32 %22, 255
  ret i32 %23
}

; Function Attrs: nocallback nofree nounwind willreturn memory(argmem: write)
declare void @llvm.memset.p0.i64(ptr nocapture writeonly, i8, i64, i1 immarg) #1

; Function Attrs: noinline nounwind optnone uwtable
define internal i64 @place(i32 noundef %0, i32 noundef %1, ptr noundef %2) #0 {
  %4 = alloca %struct.count, align 4
  %5 = alloca i32, align 4
  %6 = alloca i32, align 4
  %7 = alloca ptr, align 8
  %8 = alloca i32, align 4
  %9 = alloca i32, align 4
  %10 = alloca i32, align 4
  %11 = alloca i32, align 4
  %12 = alloca %struct.board, align 4
  %13 = alloca %struct.count, align 4
  store i32 %0, ptr %5, align 4
  store i32 %1, ptr %6, align 4
  store ptr %2, ptr %7, align 8
  call void @llvm.memset.p0.i64(ptr align 4 %4, i8 0, i64 8, i1 false)
  %14 = load i32, ptr %6, align 4
  %15 = load i32, ptr %5, align 4
  %16 = icmp eq i32 %14, %15
  br i1 %16, label %17, label %19

17:                                               ; preds = %3
  %18 = getelementptr inbounds %struct.count, ptr %4, i32 0, i32 0
  store i32 1, ptr %18, align 4
  br label %96

19:                                               ; preds = %3
  store i32 0, ptr %8, align 4
  br label %20

20:                                               ; preds = %92, %19
  %21 = load i32, ptr %8, align 4
  %22 = load i32, ptr %5, align 4
  %23 = icmp slt i32 %21, %22
  br i1 %23, label %24, label %95

24:                                               ; preds = %20
  %25 = load i32, ptr %8, align 4
  %26 = shl i32 1, %25
  store i32 %26, ptr %9, align 4
  %27 = load i32, ptr %6, align 4
  %28 = load i32, ptr %8, align 4
  %29 = add nsw i32 %27, %28
  %30 = shl i32 1, %29
  store i32 %30, ptr %10, align 4
  %31 = load i32, ptr %6, align 4
  %32 = load i32, ptr %8, align 4
  %33 = sub nsw i32 %31, %32
  %34 = load i32, ptr %5, align 4
  %35 = add nsw i32 %33, %34
  %36 = shl i32 1, %35
  store i32 %36, ptr %11, align 4
  %37 = getelementptr inbounds %struct.count, ptr %4, i32 0, i32 1
  %38 = load i32, ptr %37, align 4
  %39 = add nsw i32 %38, 1
  store i32 %39, ptr %37, align 4
  %40 = load ptr, ptr %7, align 8
  %41 = getelementptr inbounds %struct.board, ptr %40, i32 0, i32 0
  %42 = load i32, ptr %41, align 4
  %43 = load i32, ptr %9, align 4
  %44 = and i32 %42, %43
  %45 = load ptr, ptr %7, align 8
  %46 = getelementptr inbounds %struct.board, ptr %45, i32 0, i32 1
  %47 = load i32, ptr %46, align 4
  %48 = load i32, ptr %10, align 4
  %49 = and i32 %47, %48
  %50 = or i32 %44, %49
  %51 = load ptr, ptr %7, align 8
  %52 = getelementptr inbounds %struct.board, ptr %51, i32 0, i32 2
  %53 = load i32, ptr %52, align 4
  %54 = load i32, ptr %11, align 4
  %55 = and i32 %53, %54
  %56 = or i32 %50, %55
  %57 = icmp ne i32 %56, 0
  br i1 %57, label %58, label %59

58:                                               ; preds = %24
  br label %92

59:                                               ; preds = %24
  %60 = getelementptr inbounds %struct.board, ptr %12, i32 0, i32 0
  %61 = load ptr, ptr %7, align 8
  %62 = getelementptr inbounds %struct.board, ptr %61, i32 0, i32 0
  %63 = load i32, ptr %62, align 4
  %64 = load i32, ptr %9, align 4
  %65 = or i32 %63, %64
  store i32 %65, ptr %60, align 4
  %66 = getelementptr inbounds %struct.board, ptr %12, i32 0, i32 1
  %67 = load ptr, ptr %7, align 8
  %68 = getelementptr inbounds %struct.board, ptr %67, i32 0, i32 1
  %69 = load i32, ptr %68, align 4
  %70 = load i32, ptr %10, align 4
  %71 = or i32 %69, %70
  store i32 %71, ptr %66, align 4
  %72 = getelementptr inbounds %struct.board, ptr %12, i32 0, i32 2
  %73 = load ptr, ptr %7, align 8
  %74 = getelementptr inbounds %struct.board, ptr %73, i32 0, i32 2
  %75 = load i32, ptr %74, align 4
  %76 = load i32, ptr %11, align 4
  %77 = or i32 %75, %76
  store i32 %77, ptr %72, align 4
  %78 = load i32, ptr %5, align 4
  %79 = load i32, ptr %6, align 4
  %80 = add nsw i32 %79, 1
  %81 = call i64 @place(i32 noundef %78, i32 noundef %80, ptr noundef %12)
  store i64 %81, ptr %13, align 4
  %82 = getelementptr inbounds %struct.count, ptr %13, i32 0, i32 0
  %83 = load i32, ptr %82, align 4
  %84 = getelementptr inbounds %struct.count, ptr %4, i32 0, i32 0
  %85 = load i32, ptr %84, align 4
  %86 = add nsw i32 %85, %83
  store i32 %86, ptr %84, align 4
  %87 = getelementptr inbounds %struct.count, ptr %13, i32 0, i32 1
  %88 = load i32, ptr %87, align 4
  %89 = getelementptr inbounds %struct.count, ptr %4, i32 0, i32 1
  %90 = load i32, ptr %89, align 4
  %91 = add nsw i32 %90, %88
  store i32 %91, ptr %89, align 4
  br label %92

92:                                               ; preds = %59, %58
  %93 = load i32, ptr %8, align 4
  %94 = add nsw i32 %93, 1
  store i32 %94, ptr %8, align 4
  br label %20, !llvm.loop !6

95:                                               ; preds = %20
  br label %96

96:                                               ; preds = %95, %17
  %97 = load i64, ptr %4, align 4
  ret i64 %97
}

declare i32 @printf(ptr noundef, ...) #2

attributes #0 = { noinline nounwind optnone uwtable "frame-pointer"="all" "min-legal-vector-width"="0" "no-trapping-math"="true" "stack-protector-buffer-size"="8" "target-cpu"="x86-64" "target-features"="+cmov,+cx8,+fxsr,+mmx,+sse,+sse2,+x87" "tune-cpu"="generic" }
attributes #1 = { nocallback nofree nounwind willreturn memory(argmem: write) }
attributes #2 = { "frame-pointer"="all" "no-trapping-math"="true" "stack-protector-buffer-size"="8" "target-cpu"="x86-64" "target-features"="+cmov,+cx8,+fxsr,+mmx,+sse,+sse2,+x87" "tune-cpu"="generic" }

!llvm.module.flags = !{!0, !1, !2, !3, !4}
!llvm.ident = !{!5}

!0 = !{i32 1, !"wchar_size", i32 4}
!1 = !{i32 8, !"PIC Level", i32 2}
!2 = !{i32 7, !"PIE Level", i32 2}
!3 = !{i32 7, !"uwtable", i32 2}
!4 = !{i32 7, !"frame-pointer", i32 2}
!5 = !{!"Debian clang version 19.1.7 (3~deb12u1)"}
!6 = distinct !{!6, !7}
!7 = !{!"llvm.loop.mustprogress"}
