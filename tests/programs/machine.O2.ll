; ModuleID = 'machine.c'
source_filename = "machine.c"
target datalayout = "e-m:e-p270:32:32-p271:32:32-p272:64:64-i64:64-i128:128-f80:128-n8:16:32:64-S128"
target triple = "x86_64-pc-linux-gnu"

@code = internal unnamed_addr constant [14 x i8] c"\00\05\04\000\01\05\00\01\03\04\06\02\07", align 1

; Function Attrs: nofree nounwind uwtable
define dso_local range(i32 -2147483647, -2147483648) i32 @main() local_unnamed_addr #0 {
  %1 = alloca [16 x i32], align 16
  call void @llvm.lifetime.start.p0(i64 64, ptr nonnull %1) #3
  br label %2

2:                                                ; preds = %75, %0
  %3 = phi i32 [ 0, %0 ], [ %76, %75 ]
  %4 = phi i32 [ 0, %0 ], [ %77, %75 ]
  %5 = phi i32 [ 0, %0 ], [ %6, %75 ]
  %6 = add nuw nsw i32 %5, 1
  %7 = add nsw i32 %4, 1
  %8 = sext i32 %4 to i64
  %9 = getelementptr inbounds [14 x i8], ptr @code, i64 0, i64 %8
  %10 = load i8, ptr %9, align 1, !tbaa !5
  switch i8 %10, label %75 [
    i8 0, label %11
    i8 1, label %20
    i8 2, label %30
    i8 3, label %40
    i8 4, label %50
    i8 5, label %58
    i8 6, label %64
    i8 7, label %80
  ]

11:                                               ; preds = %2
  %12 = add nsw i32 %4, 2
  %13 = sext i32 %7 to i64
  %14 = getelementptr inbounds [14 x i8], ptr @code, i64 0, i64 %13
  %15 = load i8, ptr %14, align 1, !tbaa !5
  %16 = sext i8 %15 to i32
  %17 = add nsw i32 %3, 1
  %18 = sext i32 %3 to i64
  %19 = getelementptr inbounds [16 x i32], ptr %1, i64 0, i64 %18
  store i32 %16, ptr %19, align 4, !tbaa !8
  br label %75

20:                                               ; preds = %2
  %21 = add nsw i32 %3, -1
  %22 = sext i32 %21 to i64
  %23 = getelementptr inbounds [16 x i32], ptr %1, i64 0, i64 %22
  %24 = load i32, ptr %23, align 4, !tbaa !8
  %25 = add nsw i32 %3, -2
  %26 = sext i32 %25 to i64
  %27 = getelementptr inbounds [16 x i32], ptr %1, i64 0, i64 %26
  %28 = load i32, ptr %27, align 4, !tbaa !8
  %29 = add nsw i32 %28, %24
  store i32 %29, ptr %27, align 4, !tbaa !8
  br label %75

30:                                               ; preds = %2
  %31 = add nsw i32 %3, -1
  %32 = sext i32 %31 to i64
  %33 = getelementptr inbounds [16 x i32], ptr %1, i64 0, i64 %32
  %34 = load i32, ptr %33, align 4, !tbaa !8
  %35 = add nsw i32 %3, -2
  %36 = sext i32 %35 to i64
  %37 = getelementptr inbounds [16 x i32], ptr %1, i64 0, i64 %36
  %38 = load i32, ptr %37, align 4, !tbaa !8
  %39 = mul nsw i32 %38, %34
  store i32 %39, ptr %37, align 4, !tbaa !8
  br label %75

40:                                               ; preds = %2
  %41 = add nsw i32 %3, -1
  %42 = sext i32 %41 to i64
  %43 = getelementptr inbounds [16 x i32], ptr %1, i64 0, i64 %42
  %44 = load i32, ptr %43, align 4, !tbaa !8
  %45 = add nsw i32 %3, -2
  %46 = sext i32 %45 to i64
  %47 = getelementptr inbounds [16 x i32], ptr %1, i64 0, i64 %46
  %48 = load i32, ptr %47, align 4, !tbaa !8
  %49 = sub nsw i32 %48, %44
  store i32 %49, ptr %47, align 4, !tbaa !8
  br label %75

50:                                               ; preds = %2
  %51 = add nsw i32 %3, -1
  %52 = sext i32 %51 to i64
  %53 = getelementptr inbounds [16 x i32], ptr %1, i64 0, i64 %52
  %54 = load i32, ptr %53, align 4, !tbaa !8
  %55 = sext i32 %3 to i64
  %56 = getelementptr inbounds [16 x i32], ptr %1, i64 0, i64 %55
  store i32 %54, ptr %56, align 4, !tbaa !8
  %57 = add nsw i32 %3, 1
  br label %75

58:                                               ; preds = %2
  %59 = add nsw i32 %3, -1
  %60 = sext i32 %59 to i64
  %61 = getelementptr inbounds [16 x i32], ptr %1, i64 0, i64 %60
  %62 = load i32, ptr %61, align 4, !tbaa !8
  %63 = tail call i32 @putchar(i32 noundef %62)
  br label %75

64:                                               ; preds = %2
  %65 = add nsw i32 %3, -1
  %66 = sext i32 %65 to i64
  %67 = getelementptr inbounds [16 x i32], ptr %1, i64 0, i64 %66
  %68 = load i32, ptr %67, align 4, !tbaa !8
  %69 = icmp eq i32 %68, 0
  br i1 %69, label %78, label %70

70:                                               ; preds = %64
  %71 = sext i32 %7 to i64
  %72 = getelementptr inbounds [14 x i8], ptr @code, i64 0, i64 %71
  %73 = load i8, ptr %72, align 1, !tbaa !5
  %74 = sext i8 %73 to i32
  br label %75

75:                                               ; preds = %70, %78, %2, %58, %50, %40, %30, %20, %11
  %76 = phi i32 [ %3, %2 ], [ %65, %70 ], [ %65, %78 ], [ %59, %58 ], [ %57, %50 ], [ %41, %40 ], [ %31, %30 ], [ %21, %20 ], [ %17, %11 ]
  %77 = phi i32 [ %7, %2 ], [ %74, %70 ], [ %79, %78 ], [ %7, %58 ], [ %7, %50 ], [ %7, %40 ], [ %7, %30 ], [ %7, %20 ], [ %12, %11 ]
  br label %2

78:                                               ; preds = %64
  %79 = add nsw i32 %4, 2
  br label %75

80:                                               ; preds = %2
  %81 = tail call i32 @putchar(i32 noundef 10)
  call void @llvm.lifetime.end.p0(i64 64, ptr nonnull %1) #3
  ret i32 %6
}

; Function Attrs: mustprogress nocallback nofree nosync nounwind willreturn memory(argmem: readwrite)
declare void @llvm.lifetime.start.p0(i64 immarg, ptr nocapture) #1

; Function Attrs: nofree nounwind
declare noundef i32 @putchar(i32 noundef) local_unnamed_addr #2

; Function Attrs: mustprogress nocallback nofree nosync nounwind willreturn memory(argmem: readwrite)
declare void @llvm.lifetime.end.p0(i64 immarg, ptr nocapture) #1

attributes #0 = { nofree nounwind uwtable "min-legal-vector-width"="0" "no-trapping-math"="true" "stack-protector-buffer-size"="8" "target-cpu"="x86-64" "target-features"="+cmov,+cx8,+fxsr,+mmx,+sse,+sse2,+x87" "tune-cpu"="generic" }
attributes #1 = { mustprogress nocallback nofree nosync nounwind willreturn memory(argmem: readwrite) }
attributes #2 = { nofree nounwind "no-trapping-math"="true" "stack-protector-buffer-size"="8" "target-cpu"="x86-64" "target-features"="+cmov,+cx8,+fxsr,+mmx,+sse,+sse2,+x87" "tune-cpu"="generic" }
attributes #3 = { nounwind }

!llvm.module.flags = !{!0, !1, !2, !3}
!llvm.ident = !{!4}

!0 = !{i32 1, !"wchar_size", i32 4}
!1 = !{i32 8, !"PIC Level", i32 2}
!2 = !{i32 7, !"PIE Level", i32 2}
!3 = !{i32 7, !"uwtable", i32 2}
!4 = !{!"Debian clang version 19.1.7 (3~deb12u1)"}
!5 = !{!6, !6, i64 0}
!6 = !{!"omnipotent char", !7, i64 0}
!7 = !{!"Simple C/C++ TBAA"}
!8 = !{!9, !9, i64 0}
!9 = !{!"int", !6, i64 0}
