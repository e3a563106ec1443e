; ModuleID = 'code.c'
source_filename = "code.c"
target datalayout = "e-m:e-p270:32:32-p271:32:32-p272:64:64-i64:64-i128:128-f80:128-n8:16:32:64-S128"
target triple = "x86_64-pc-linux-gnu"

%struct.Step = type { i32, i32 }

@code = internal unnamed_addr constant [34 x %struct.Step] [%struct.Step { i32 0, i32 2 }, %struct.Step { i32 2, i32 0 }, %struct.Step { i32 1, i32 0 }, %struct.Step { i32 0, i32 60 }, %struct.Step { i32 6, i32 0 }, %struct.Step { i32 8, i32 33 }, %struct.Step { i32 0, i32 2 }, %struct.Step { i32 2, i32 1 }, %struct.Step { i32 1, i32 1 }, %struct.Step { i32 1, i32 1 }, %struct.Step { i32 4, i32 0 }, %struct.Step { i32 1, i32 0 }, %struct.Step { i32 0, i32 1 }, %struct.Step { i32 3, i32 0 }, %struct.Step { i32 6, i32 0 }, %struct.Step { i32 8, i32 26 }, %struct.Step { i32 1, i32 0 }, %struct.Step { i32 1, i32 1 }, %struct.Step { i32 5, i32 0 }, %struct.Step { i32 8, i32 28 }, %struct.Step { i32 1, i32 1 }, %struct.Step { i32 0, i32 1 }, %struct.Step { i32 3, i32 0 }, %struct.Step { i32 2, i32 1 }, %struct.Step { i32 7, i32 8 }, %struct.Step { i32 10, i32 0 }, %struct.Step { i32 1, i32 0 }, %struct.Step { i32 9, i32 0 }, %struct.Step { i32 1, i32 0 }, %struct.Step { i32 0, i32 1 }, %struct.Step { i32 3, i32 0 }, %struct.Step { i32 2, i32 0 }, %struct.Step { i32 7, i32 2 }, %struct.Step { i32 10, i32 0 }], align 16
@.str = private unnamed_addr constant [10 x i8] c"%d %d %d\0A\00", align 1
@.str.1 = private unnamed_addr constant [5 x i8] c"%d%c\00", align 1

; Function Attrs: nofree nounwind uwtable
define dso_local range(i32 0, 128) i32 @main() local_unnamed_addr #0 {
  %1 = alloca [2 x i32], align 8
  call void @llvm.lifetime.start.p0(i64 8, ptr nonnull %1) #3
  store i64 0, ptr %1, align 8
  %2 = call fastcc i32 @run(ptr noundef nonnull %1, i32 noundef 20000) #4
  %3 = call fastcc i32 @run(ptr noundef nonnull %1, i32 noundef 100) #4
  %4 = load i32, ptr %1, align 8, !tbaa !3
  %5 = tail call i32 (ptr, ...) @printf(ptr noundef nonnull dereferenceable(1) @.str, i32 noundef %2, i32 noundef %4, i32 noundef %3) #4
  %6 = and i32 %2, 127
  call void @llvm.lifetime.end.p0(i64 8, ptr nonnull %1) #3
  ret i32 %6
}

; Function Attrs: mustprogress nocallback nofree nosync nounwind willreturn memory(argmem: readwrite)
declare void @llvm.lifetime.start.p0(i64 immarg, ptr nocapture) #1

; Function Attrs: nofree nounwind uwtable
define internal fastcc i32 @run(ptr nocapture noundef %0, i32 noundef %1) unnamed_addr #0 {
  %3 = alloca [16 x i32], align 16
  call void @llvm.lifetime.start.p0(i64 64, ptr nonnull %3) #3
  %4 = icmp sgt i32 %1, 0
  br i1 %4, label %5, label %107

5:                                                ; preds = %2, %101
  %6 = phi i32 [ %105, %101 ], [ 0, %2 ]
  %7 = phi i32 [ %104, %101 ], [ 0, %2 ]
  %8 = phi i32 [ %103, %101 ], [ 0, %2 ]
  %9 = phi i32 [ %102, %101 ], [ 0, %2 ]
  %10 = add nsw i32 %7, 1
  %11 = sext i32 %7 to i64
  %12 = getelementptr inbounds %struct.Step, ptr @code, i64 %11
  %13 = load i32, ptr %12, align 8, !tbaa !7
  switch i32 %13, label %107 [
    i32 0, label %14
    i32 1, label %20
    i32 2, label %29
    i32 3, label %38
    i32 4, label %48
    i32 5, label %58
    i32 6, label %68
    i32 7, label %79
    i32 8, label %82
    i32 9, label %91
  ]

14:                                               ; preds = %5
  %15 = getelementptr inbounds i8, ptr %12, i64 4
  %16 = load i32, ptr %15, align 4, !tbaa !9
  %17 = add nsw i32 %9, 1
  %18 = sext i32 %9 to i64
  %19 = getelementptr inbounds [16 x i32], ptr %3, i64 0, i64 %18
  store i32 %16, ptr %19, align 4, !tbaa !3
  br label %101

20:                                               ; preds = %5
  %21 = getelementptr inbounds i8, ptr %12, i64 4
  %22 = load i32, ptr %21, align 4, !tbaa !9
  %23 = sext i32 %22 to i64
  %24 = getelementptr inbounds i32, ptr %0, i64 %23
  %25 = load i32, ptr %24, align 4, !tbaa !3
  %26 = add nsw i32 %9, 1
  %27 = sext i32 %9 to i64
  %28 = getelementptr inbounds [16 x i32], ptr %3, i64 0, i64 %27
  store i32 %25, ptr %28, align 4, !tbaa !3
  br label %101

29:                                               ; preds = %5
  %30 = add nsw i32 %9, -1
  %31 = sext i32 %30 to i64
  %32 = getelementptr inbounds [16 x i32], ptr %3, i64 0, i64 %31
  %33 = load i32, ptr %32, align 4, !tbaa !3
  %34 = getelementptr inbounds i8, ptr %12, i64 4
  %35 = load i32, ptr %34, align 4, !tbaa !9
  %36 = sext i32 %35 to i64
  %37 = getelementptr inbounds i32, ptr %0, i64 %36
  store i32 %33, ptr %37, align 4, !tbaa !3
  br label %101

38:                                               ; preds = %5
  %39 = add nsw i32 %9, -1
  %40 = sext i32 %39 to i64
  %41 = getelementptr inbounds [16 x i32], ptr %3, i64 0, i64 %40
  %42 = load i32, ptr %41, align 4, !tbaa !3
  %43 = add nsw i32 %9, -2
  %44 = sext i32 %43 to i64
  %45 = getelementptr inbounds [16 x i32], ptr %3, i64 0, i64 %44
  %46 = load i32, ptr %45, align 4, !tbaa !3
  %47 = add nsw i32 %46, %42
  store i32 %47, ptr %45, align 4, !tbaa !3
  br label %101

48:                                               ; preds = %5
  %49 = add nsw i32 %9, -1
  %50 = sext i32 %49 to i64
  %51 = getelementptr inbounds [16 x i32], ptr %3, i64 0, i64 %50
  %52 = load i32, ptr %51, align 4, !tbaa !3
  %53 = add nsw i32 %9, -2
  %54 = sext i32 %53 to i64
  %55 = getelementptr inbounds [16 x i32], ptr %3, i64 0, i64 %54
  %56 = load i32, ptr %55, align 4, !tbaa !3
  %57 = mul nsw i32 %56, %52
  store i32 %57, ptr %55, align 4, !tbaa !3
  br label %101

58:                                               ; preds = %5
  %59 = add nsw i32 %9, -1
  %60 = sext i32 %59 to i64
  %61 = getelementptr inbounds [16 x i32], ptr %3, i64 0, i64 %60
  %62 = load i32, ptr %61, align 4, !tbaa !3
  %63 = add nsw i32 %9, -2
  %64 = sext i32 %63 to i64
  %65 = getelementptr inbounds [16 x i32], ptr %3, i64 0, i64 %64
  %66 = load i32, ptr %65, align 4, !tbaa !3
  %67 = srem i32 %66, %62
  store i32 %67, ptr %65, align 4, !tbaa !3
  br label %101

68:                                               ; preds = %5
  %69 = add nsw i32 %9, -1
  %70 = add nsw i32 %9, -2
  %71 = sext i32 %70 to i64
  %72 = getelementptr inbounds [16 x i32], ptr %3, i64 0, i64 %71
  %73 = load i32, ptr %72, align 4, !tbaa !3
  %74 = sext i32 %69 to i64
  %75 = getelementptr inbounds [16 x i32], ptr %3, i64 0, i64 %74
  %76 = load i32, ptr %75, align 4, !tbaa !3
  %77 = icmp slt i32 %73, %76
  %78 = zext i1 %77 to i32
  store i32 %78, ptr %72, align 4, !tbaa !3
  br label %101

79:                                               ; preds = %5
  %80 = getelementptr inbounds i8, ptr %12, i64 4
  %81 = load i32, ptr %80, align 4, !tbaa !9
  br label %101

82:                                               ; preds = %5
  %83 = add nsw i32 %9, -1
  %84 = sext i32 %83 to i64
  %85 = getelementptr inbounds [16 x i32], ptr %3, i64 0, i64 %84
  %86 = load i32, ptr %85, align 4, !tbaa !3
  %87 = icmp eq i32 %86, 0
  br i1 %87, label %88, label %101

88:                                               ; preds = %82
  %89 = getelementptr inbounds i8, ptr %12, i64 4
  %90 = load i32, ptr %89, align 4, !tbaa !9
  br label %101

91:                                               ; preds = %5
  %92 = add nsw i32 %9, -1
  %93 = sext i32 %92 to i64
  %94 = getelementptr inbounds [16 x i32], ptr %3, i64 0, i64 %93
  %95 = load i32, ptr %94, align 4, !tbaa !3
  %96 = add nsw i32 %8, 1
  %97 = srem i32 %96, 6
  %98 = icmp eq i32 %97, 0
  %99 = select i1 %98, i32 10, i32 32
  %100 = tail call i32 (ptr, ...) @printf(ptr noundef nonnull dereferenceable(1) @.str.1, i32 noundef %95, i32 noundef %99) #4
  br label %101

101:                                              ; preds = %82, %88, %91, %79, %68, %58, %48, %38, %29, %20, %14
  %102 = phi i32 [ %17, %14 ], [ %26, %20 ], [ %30, %29 ], [ %39, %38 ], [ %49, %48 ], [ %59, %58 ], [ %69, %68 ], [ %9, %79 ], [ %83, %88 ], [ %83, %82 ], [ %92, %91 ]
  %103 = phi i32 [ %8, %14 ], [ %8, %20 ], [ %8, %29 ], [ %8, %38 ], [ %8, %48 ], [ %8, %58 ], [ %8, %68 ], [ %8, %79 ], [ %8, %88 ], [ %8, %82 ], [ %96, %91 ]
  %104 = phi i32 [ %10, %14 ], [ %10, %20 ], [ %10, %29 ], [ %10, %38 ], [ %10, %48 ], [ %10, %58 ], [ %10, %68 ], [ %81, %79 ], [ %90, %88 ], [ %10, %82 ], [ %10, %91 ]
  %105 = add nuw nsw i32 %6, 1
  %106 = icmp eq i32 %105, %1
  br i1 %106, label %107, label %5, !llvm.loop !10

107:                                              ; preds = %101, %5, %2
  %108 = phi i32 [ -1, %2 ], [ %6, %5 ], [ -1, %101 ]
  call void @llvm.lifetime.end.p0(i64 64, ptr nonnull %3) #3
  ret i32 %108
}

; Function Attrs: nofree nounwind
declare dso_local noundef i32 @printf(ptr nocapture noundef readonly, ...) local_unnamed_addr #2

; Function Attrs: mustprogress nocallback nofree nosync nounwind willreturn memory(argmem: readwrite)
declare void @llvm.lifetime.end.p0(i64 immarg, ptr nocapture) #1

attributes #0 = { nofree nounwind uwtable "min-legal-vector-width"="0" "no-builtin-calloc" "no-trapping-math"="true" "stack-protector-buffer-size"="8" "target-cpu"="x86-64" "target-features"="+cmov,+cx8,+fxsr,-aes,-avx,-avx10.1-256,-avx10.1-512,-avx2,-avx512bf16,-avx512bitalg,-avx512bw,-avx512cd,-avx512dq,-avx512f,-avx512fp16,-avx512ifma,-avx512vbmi,-avx512vbmi2,-avx512vl,-avx512vnni,-avx512vp2intersect,-avx512vpopcntdq,-avxifma,-avxneconvert,-avxvnni,-avxvnniint16,-avxvnniint8,-f16c,-fma,-fma4,-gfni,-kl,-mmx,-pclmul,-sha,-sha512,-sm3,-sm4,-sse,-sse2,-sse3,-sse4.1,-sse4.2,-sse4a,-ssse3,-vaes,-vpclmulqdq,-widekl,-x87,-xop" "tune-cpu"="generic" }
attributes #1 = { mustprogress nocallback nofree nosync nounwind willreturn memory(argmem: readwrite) }
attributes #2 = { nofree nounwind "no-builtin-calloc" "no-trapping-math"="true" "stack-protector-buffer-size"="8" "target-cpu"="x86-64" "target-features"="+cmov,+cx8,+fxsr,-aes,-avx,-avx10.1-256,-avx10.1-512,-avx2,-avx512bf16,-avx512bitalg,-avx512bw,-avx512cd,-avx512dq,-avx512f,-avx512fp16,-avx512ifma,-avx512vbmi,-avx512vbmi2,-avx512vl,-avx512vnni,-avx512vp2intersect,-avx512vpopcntdq,-avxifma,-avxneconvert,-avxvnni,-avxvnniint16,-avxvnniint8,-f16c,-fma,-fma4,-gfni,-kl,-mmx,-pclmul,-sha,-sha512,-sm3,-sm4,-sse,-sse2,-sse3,-sse4.1,-sse4.2,-sse4a,-ssse3,-vaes,-vpclmulqdq,-widekl,-x87,-xop" "tune-cpu"="generic" }
attributes #3 = { nounwind }
attributes #4 = { "no-builtin-calloc" }

!llvm.module.flags = !{!0, !1}
!llvm.ident = !{!2}

!0 = !{i32 1, !"wchar_size", i32 4}
!1 = !{i32 7, !"uwtable", i32 2}
!2 = !{!"Debian clang version 19.1.7 (3~deb12u1)"}
!3 = !{!4, !4, i64 0}
!4 = !{!"int", !5, i64 0}
!5 = !{!"omnipotent char", !6, i64 0}
!6 = !{!"Simple C/C++ TBAA"}
!7 = !{!8, !4, i64 0}
!8 = !{!"", !4, i64 0, !4, i64 4}
!9 = !{!8, !4, i64 4}
!10 = distinct !{!10, !11}
!11 = !{!"llvm.loop.mustprogress"}
