; ModuleID = 'maze.c'
source_filename = "maze.c"
target datalayout = "e-m:e-p270:32:32-p271:32:32-p272:64:64-i64:64-i128:128-f80:128-n8:16:32:64-S128"
target triple = "x86_64-pc-linux-gnu"

%struct.Place = type { i16, i16 }

@maze = internal unnamed_addr constant [7 x [16 x i8]] [[16 x i8] c"###############\00", [16 x i8] c"#S..#.....#...#\00", [16 x i8] c"###.#.###.#.#.#\00", [16 x i8] c"#...#.#.#...#.#\00", [16 x i8] c"#.###.#.#####.#\00", [16 x i8] c"#.......#....E#\00", [16 x i8] c"###############\00"], align 16

; Function Attrs: nofree nounwind uwtable
define dso_local i32 @main() local_unnamed_addr #0 {
  %1 = alloca [16 x %struct.Place], align 16
  %2 = alloca [7 x [15 x %struct.Place]], align 16
  %3 = alloca [7 x [15 x i32]], align 16
  %4 = alloca [7 x [16 x i8]], align 16
  call void @llvm.lifetime.start.p0(i64 64, ptr nonnull %1) #6
  call void @llvm.lifetime.start.p0(i64 420, ptr nonnull %2) #6
  call void @llvm.lifetime.start.p0(i64 420, ptr nonnull %3) #6
  call void @llvm.lifetime.start.p0(i64 112, ptr nonnull %4) #6
  call void @llvm.memcpy.p0.p0.i64(ptr noundef nonnull align 16 dereferenceable(112) %4, ptr noundef nonnull align 16 dereferenceable(112) @maze, i64 112, i1 false)
  call void @llvm.memset.p0.i64(ptr noundef nonnull align 16 dereferenceable(420) %3, i8 -1, i64 420, i1 false)
  %5 = getelementptr inbounds i8, ptr %3, i64 64
  store i32 0, ptr %5, align 16, !tbaa !3
  store i16 1, ptr %1, align 16, !tbaa !7
  %6 = getelementptr inbounds i8, ptr %1, i64 2
  store i16 1, ptr %6, align 2, !tbaa !7
  br label %7

7:                                                ; preds = %0, %117
  %8 = phi i32 [ 0, %0 ], [ %17, %117 ]
  %9 = phi i32 [ 1, %0 ], [ %119, %117 ]
  %10 = phi i32 [ 0, %0 ], [ %118, %117 ]
  %11 = sext i32 %8 to i64
  %12 = getelementptr inbounds [16 x %struct.Place], ptr %1, i64 0, i64 %11
  %13 = load i16, ptr %12, align 4, !tbaa !7
  %14 = getelementptr inbounds i8, ptr %12, i64 2
  %15 = load i16, ptr %14, align 2, !tbaa !7
  %16 = add nsw i32 %8, 1
  %17 = srem i32 %16, 16
  %18 = add nsw i32 %9, -1
  %19 = sext i16 %13 to i64
  %20 = sext i16 %15 to i64
  %21 = getelementptr inbounds [7 x [15 x i32]], ptr %3, i64 0, i64 %19, i64 %20
  %22 = add i16 %15, 1
  %23 = sext i16 %22 to i64
  %24 = getelementptr inbounds [7 x [16 x i8]], ptr @maze, i64 0, i64 %19, i64 %23
  %25 = load i8, ptr %24, align 1, !tbaa !9
  %26 = icmp eq i8 %25, 35
  br i1 %26, label %42, label %27

27:                                               ; preds = %7
  %28 = getelementptr inbounds [7 x [15 x i32]], ptr %3, i64 0, i64 %19, i64 %23
  %29 = load i32, ptr %28, align 4, !tbaa !3
  %30 = icmp sgt i32 %29, -1
  br i1 %30, label %42, label %31

31:                                               ; preds = %27
  %32 = load i32, ptr %21, align 4, !tbaa !3
  %33 = add nsw i32 %32, 1
  store i32 %33, ptr %28, align 4, !tbaa !3
  %34 = getelementptr inbounds [7 x [15 x %struct.Place]], ptr %2, i64 0, i64 %19, i64 %23
  store i16 %13, ptr %34, align 4, !tbaa !7
  %35 = getelementptr inbounds i8, ptr %34, i64 2
  store i16 %15, ptr %35, align 2, !tbaa !7
  %36 = add nsw i32 %18, %17
  %37 = srem i32 %36, 16
  %38 = sext i32 %37 to i64
  %39 = getelementptr inbounds [16 x %struct.Place], ptr %1, i64 0, i64 %38
  store i16 %13, ptr %39, align 4, !tbaa !7
  %40 = getelementptr inbounds i8, ptr %39, i64 2
  store i16 %22, ptr %40, align 2, !tbaa !7
  %41 = tail call i32 @llvm.smax.i32(i32 %9, i32 %10)
  br label %42

42:                                               ; preds = %7, %27, %31
  %43 = phi i32 [ %41, %31 ], [ %10, %27 ], [ %10, %7 ]
  %44 = phi i32 [ %9, %31 ], [ %18, %27 ], [ %18, %7 ]
  %45 = add i16 %13, 1
  %46 = sext i16 %45 to i64
  %47 = getelementptr inbounds [7 x [16 x i8]], ptr @maze, i64 0, i64 %46, i64 %20
  %48 = load i8, ptr %47, align 1, !tbaa !9
  %49 = icmp eq i8 %48, 35
  br i1 %49, label %67, label %50

50:                                               ; preds = %42
  %51 = getelementptr inbounds [7 x [15 x i32]], ptr %3, i64 0, i64 %46, i64 %20
  %52 = load i32, ptr %51, align 4, !tbaa !3
  %53 = icmp sgt i32 %52, -1
  br i1 %53, label %67, label %54

54:                                               ; preds = %50
  %55 = load i32, ptr %21, align 4, !tbaa !3
  %56 = add nsw i32 %55, 1
  store i32 %56, ptr %51, align 4, !tbaa !3
  %57 = getelementptr inbounds [7 x [15 x %struct.Place]], ptr %2, i64 0, i64 %46, i64 %20
  store i16 %13, ptr %57, align 4, !tbaa !7
  %58 = getelementptr inbounds i8, ptr %57, i64 2
  store i16 %15, ptr %58, align 2, !tbaa !7
  %59 = add nsw i32 %44, 1
  %60 = add nsw i32 %44, %17
  %61 = srem i32 %60, 16
  %62 = sext i32 %61 to i64
  %63 = getelementptr inbounds [16 x %struct.Place], ptr %1, i64 0, i64 %62
  store i16 %45, ptr %63, align 4, !tbaa !7
  %64 = getelementptr inbounds i8, ptr %63, i64 2
  store i16 %15, ptr %64, align 2, !tbaa !7
  %65 = icmp slt i32 %44, %43
  %66 = select i1 %65, i32 %43, i32 %59
  br label %67

67:                                               ; preds = %54, %50, %42
  %68 = phi i32 [ %66, %54 ], [ %43, %50 ], [ %43, %42 ]
  %69 = phi i32 [ %59, %54 ], [ %44, %50 ], [ %44, %42 ]
  %70 = add i16 %15, -1
  %71 = sext i16 %70 to i64
  %72 = getelementptr inbounds [7 x [16 x i8]], ptr @maze, i64 0, i64 %19, i64 %71
  %73 = load i8, ptr %72, align 1, !tbaa !9
  %74 = icmp eq i8 %73, 35
  br i1 %74, label %92, label %75

75:                                               ; preds = %67
  %76 = getelementptr inbounds [7 x [15 x i32]], ptr %3, i64 0, i64 %19, i64 %71
  %77 = load i32, ptr %76, align 4, !tbaa !3
  %78 = icmp sgt i32 %77, -1
  br i1 %78, label %92, label %79

79:                                               ; preds = %75
  %80 = load i32, ptr %21, align 4, !tbaa !3
  %81 = add nsw i32 %80, 1
  store i32 %81, ptr %76, align 4, !tbaa !3
  %82 = getelementptr inbounds [7 x [15 x %struct.Place]], ptr %2, i64 0, i64 %19, i64 %71
  store i16 %13, ptr %82, align 4, !tbaa !7
  %83 = getelementptr inbounds i8, ptr %82, i64 2
  store i16 %15, ptr %83, align 2, !tbaa !7
  %84 = add nsw i32 %69, 1
  %85 = add nsw i32 %69, %17
  %86 = srem i32 %85, 16
  %87 = sext i32 %86 to i64
  %88 = getelementptr inbounds [16 x %struct.Place], ptr %1, i64 0, i64 %87
  store i16 %13, ptr %88, align 4, !tbaa !7
  %89 = getelementptr inbounds i8, ptr %88, i64 2
  store i16 %70, ptr %89, align 2, !tbaa !7
  %90 = icmp slt i32 %69, %68
  %91 = select i1 %90, i32 %68, i32 %84
  br label %92

92:                                               ; preds = %79, %75, %67
  %93 = phi i32 [ %91, %79 ], [ %68, %75 ], [ %68, %67 ]
  %94 = phi i32 [ %84, %79 ], [ %69, %75 ], [ %69, %67 ]
  %95 = add i16 %13, -1
  %96 = sext i16 %95 to i64
  %97 = getelementptr inbounds [7 x [16 x i8]], ptr @maze, i64 0, i64 %96, i64 %20
  %98 = load i8, ptr %97, align 1, !tbaa !9
  %99 = icmp eq i8 %98, 35
  br i1 %99, label %117, label %100

100:                                              ; preds = %92
  %101 = getelementptr inbounds [7 x [15 x i32]], ptr %3, i64 0, i64 %96, i64 %20
  %102 = load i32, ptr %101, align 4, !tbaa !3
  %103 = icmp sgt i32 %102, -1
  br i1 %103, label %117, label %104

104:                                              ; preds = %100
  %105 = load i32, ptr %21, align 4, !tbaa !3
  %106 = add nsw i32 %105, 1
  store i32 %106, ptr %101, align 4, !tbaa !3
  %107 = getelementptr inbounds [7 x [15 x %struct.Place]], ptr %2, i64 0, i64 %96, i64 %20
  store i16 %13, ptr %107, align 4, !tbaa !7
  %108 = getelementptr inbounds i8, ptr %107, i64 2
  store i16 %15, ptr %108, align 2, !tbaa !7
  %109 = add nsw i32 %94, 1
  %110 = add nsw i32 %94, %17
  %111 = srem i32 %110, 16
  %112 = sext i32 %111 to i64
  %113 = getelementptr inbounds [16 x %struct.Place], ptr %1, i64 0, i64 %112
  store i16 %95, ptr %113, align 4, !tbaa !7
  %114 = getelementptr inbounds i8, ptr %113, i64 2
  store i16 %15, ptr %114, align 2, !tbaa !7
  %115 = icmp slt i32 %94, %93
  %116 = select i1 %115, i32 %93, i32 %109
  br label %117

117:                                              ; preds = %104, %100, %92
  %118 = phi i32 [ %116, %104 ], [ %93, %100 ], [ %93, %92 ]
  %119 = phi i32 [ %109, %104 ], [ %94, %100 ], [ %94, %92 ]
  %120 = icmp eq i32 %119, 0
  br i1 %120, label %121, label %7, !llvm.loop !10

121:                                              ; preds = %117
  %122 = getelementptr inbounds i8, ptr %3, i64 352
  %123 = load i32, ptr %122, align 16, !tbaa !3
  %124 = icmp slt i32 %123, 0
  br i1 %124, label %162, label %125

125:                                              ; preds = %121
  %126 = getelementptr inbounds i8, ptr %2, i64 352
  %127 = load i16, ptr %126, align 16, !tbaa !7
  %128 = getelementptr inbounds i8, ptr %2, i64 354
  %129 = load i16, ptr %128, align 2, !tbaa !7
  %130 = icmp ne i16 %127, 1
  %131 = icmp ne i16 %129, 1
  %132 = select i1 %130, i1 true, i1 %131
  br i1 %132, label %149, label %133

133:                                              ; preds = %149, %125
  %134 = call i32 @puts(ptr noundef nonnull dereferenceable(1) %4) #7
  %135 = getelementptr inbounds i8, ptr %4, i64 16
  %136 = call i32 @puts(ptr noundef nonnull dereferenceable(1) %135) #7
  %137 = getelementptr inbounds i8, ptr %4, i64 32
  %138 = call i32 @puts(ptr noundef nonnull dereferenceable(1) %137) #7
  %139 = getelementptr inbounds i8, ptr %4, i64 48
  %140 = call i32 @puts(ptr noundef nonnull dereferenceable(1) %139) #7
  %141 = getelementptr inbounds i8, ptr %4, i64 64
  %142 = call i32 @puts(ptr noundef nonnull dereferenceable(1) %141) #7
  %143 = getelementptr inbounds i8, ptr %4, i64 80
  %144 = call i32 @puts(ptr noundef nonnull dereferenceable(1) %143) #7
  %145 = getelementptr inbounds i8, ptr %4, i64 96
  %146 = call i32 @puts(ptr noundef nonnull dereferenceable(1) %145) #7
  %147 = shl nsw i32 %123, 2
  %148 = add nsw i32 %147, %118
  br label %162

149:                                              ; preds = %125, %149
  %150 = phi i16 [ %158, %149 ], [ %129, %125 ]
  %151 = phi i16 [ %156, %149 ], [ %127, %125 ]
  %152 = sext i16 %151 to i64
  %153 = sext i16 %150 to i64
  %154 = getelementptr inbounds [7 x [16 x i8]], ptr %4, i64 0, i64 %152, i64 %153
  store i8 43, ptr %154, align 1, !tbaa !9
  %155 = getelementptr inbounds [7 x [15 x %struct.Place]], ptr %2, i64 0, i64 %152, i64 %153
  %156 = load i16, ptr %155, align 4, !tbaa !7
  %157 = getelementptr inbounds i8, ptr %155, i64 2
  %158 = load i16, ptr %157, align 2, !tbaa !7
  %159 = icmp ne i16 %156, 1
  %160 = icmp ne i16 %158, 1
  %161 = select i1 %159, i1 true, i1 %160
  br i1 %161, label %149, label %133, !llvm.loop !12

162:                                              ; preds = %121, %133
  %163 = phi i32 [ %148, %133 ], [ 1, %121 ]
  call void @llvm.lifetime.end.p0(i64 112, ptr nonnull %4) #6
  call void @llvm.lifetime.end.p0(i64 420, ptr nonnull %3) #6
  call void @llvm.lifetime.end.p0(i64 420, ptr nonnull %2) #6
  call void @llvm.lifetime.end.p0(i64 64, ptr nonnull %1) #6
  ret i32 %163
}

; Function Attrs: mustprogress nocallback nofree nosync nounwind willreturn memory(argmem: readwrite)
declare void @llvm.lifetime.start.p0(i64 immarg, ptr nocapture) #1

; Function Attrs: mustprogress nocallback nofree nounwind willreturn memory(argmem: write)
declare void @llvm.memset.p0.i64(ptr nocapture writeonly, i8, i64, i1 immarg) #2

; Function Attrs: mustprogress nocallback nofree nounwind willreturn memory(argmem: readwrite)
declare void @llvm.memcpy.p0.p0.i64(ptr noalias nocapture writeonly, ptr noalias nocapture readonly, i64, i1 immarg) #3

; Function Attrs: mustprogress nocallback nofree nosync nounwind willreturn memory(argmem: readwrite)
declare void @llvm.lifetime.end.p0(i64 immarg, ptr nocapture) #1

; Function Attrs: nofree nounwind
declare dso_local noundef i32 @puts(ptr nocapture noundef readonly) local_unnamed_addr #4

; Function Attrs: nocallback nofree nosync nounwind speculatable willreturn memory(none)
declare i32 @llvm.smax.i32(i32, i32) #5

attributes #0 = { nofree nounwind uwtable "min-legal-vector-width"="0" "no-builtin-calloc" "no-trapping-math"="true" "stack-protector-buffer-size"="8" "target-cpu"="x86-64" "target-features"="+cmov,+cx8,+fxsr,-aes,-avx,-avx10.1-256,-avx10.1-512,-avx2,-avx512bf16,-avx512bitalg,-avx512bw,-avx512cd,-avx512dq,-avx512f,-avx512fp16,-avx512ifma,-avx512vbmi,-avx512vbmi2,-avx512vl,-avx512vnni,-avx512vp2intersect,-avx512vpopcntdq,-avxifma,-avxneconvert,-avxvnni,-avxvnniint16,-avxvnniint8,-f16c,-fma,-fma4,-gfni,-kl,-mmx,-pclmul,-sha,-sha512,-sm3,-sm4,-sse,-sse2,-sse3,-sse4.1,-sse4.2,-sse4a,-ssse3,-vaes,-vpclmulqdq,-widekl,-x87,-xop" "tune-cpu"="generic" }
attributes #1 = { mustprogress nocallback nofree nosync nounwind willreturn memory(argmem: readwrite) }
attributes #2 = { mustprogress nocallback nofree nounwind willreturn memory(argmem: write) }
attributes #3 = { mustprogress nocallback nofree nounwind willreturn memory(argmem: readwrite) }
attributes #4 = { nofree nounwind "no-builtin-calloc" "no-trapping-math"="true" "stack-protector-buffer-size"="8" "target-cpu"="x86-64" "target-features"="+cmov,+cx8,+fxsr,-aes,-avx,-avx10.1-256,-avx10.1-512,-avx2,-avx512bf16,-avx512bitalg,-avx512bw,-avx512cd,-avx512dq,-avx512f,-avx512fp16,-avx512ifma,-avx512vbmi,-avx512vbmi2,-avx512vl,-avx512vnni,-avx512vp2intersect,-avx512vpopcntdq,-avxifma,-avxneconvert,-avxvnni,-avxvnniint16,-avxvnniint8,-f16c,-fma,-fma4,-gfni,-kl,-mmx,-pclmul,-sha,-sha512,-sm3,-sm4,-sse,-sse2,-sse3,-sse4.1,-sse4.2,-sse4a,-ssse3,-vaes,-vpclmulqdq,-widekl,-x87,-xop" "tune-cpu"="generic" }
attributes #5 = { nocallback nofree nosync nounwind speculatable willreturn memory(none) }
attributes #6 = { nounwind }
attributes #7 = { "no-builtin-calloc" }

!llvm.module.flags = !{!0, !1}
!llvm.ident = !{!2}

!0 = !{i32 1, !"wchar_size", i32 4}
!1 = !{i32 7, !"uwtable", i32 2}
!2 = !{!"Debian clang version 19.1.7 (3~deb12u1)"}
!3 = !{!4, !4, i64 0}
!4 = !{!"int", !5, i64 0}
!5 = !{!"omnipotent char", !6, i64 0}
!6 = !{!"Simple C/C++ TBAA"}
!7 = !{!8, !8, i64 0}
!8 = !{!"short", !5, i64 0}
!9 = !{!5, !5, i64 0}
!10 = distinct !{!10, !11}
!11 = !{!"llvm.loop.mustprogress"}
!12 = distinct !{!12, !11}
