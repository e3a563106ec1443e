; ModuleID = 'orders.c'
source_filename = "orders.c"
target datalayout = "e-m:e-p270:32:32-p271:32:32-p272:64:64-i64:64-i128:128-f80:128-n8:16:32:64-S128"
target triple = "x86_64-pc-linux-gnu"

@__const.main.letters = private unnamed_addr constant [6 x i8] c"abcde\00", align 1
@.str = private unnamed_addr constant [4 x i8] c"%d \00", align 1
@.str.1 = private unnamed_addr constant [10 x i8] c"%d of %d\0A\00", align 1

; Function Attrs: nofree nounwind uwtable
define dso_local i32 @main() local_unnamed_addr #0 {
  %1 = alloca [6 x i8], align 1
  %2 = alloca [6 x i32], align 16
  call void @llvm.lifetime.start.p0(i64 6, ptr nonnull %1) #5
  call void @llvm.memcpy.p0.p0.i64(ptr noundef nonnull align 1 dereferenceable(6) %1, ptr noundef nonnull align 1 dereferenceable(6) @__const.main.letters, i64 6, i1 false)
  call void @llvm.lifetime.start.p0(i64 24, ptr nonnull %2) #5
  call void @llvm.memset.p0.i64(ptr noundef nonnull align 16 dereferenceable(24) %2, i8 0, i64 24, i1 false)
  %3 = getelementptr inbounds i8, ptr %1, i64 3
  %4 = getelementptr inbounds i8, ptr %1, i64 2
  %5 = getelementptr inbounds i8, ptr %1, i64 1
  %6 = getelementptr inbounds i8, ptr %1, i64 4
  br label %7

7:                                                ; preds = %159, %0
  %8 = phi i32 [ 0, %0 ], [ %10, %159 ]
  %9 = phi i32 [ 0, %0 ], [ %55, %159 ]
  %10 = add nuw nsw i32 %8, 1
  %11 = urem i32 %8, 24
  %12 = icmp eq i32 %11, 0
  br i1 %12, label %13, label %15

13:                                               ; preds = %7
  %14 = call i32 @puts(ptr noundef nonnull dereferenceable(1) %1) #6
  br label %15

15:                                               ; preds = %13, %7
  %16 = load i8, ptr %1, align 1, !tbaa !3
  %17 = load i8, ptr %5, align 1, !tbaa !3
  %18 = load i8, ptr %4, align 1, !tbaa !3
  %19 = load i8, ptr %3, align 1, !tbaa !3
  %20 = load i8, ptr %6, align 1, !tbaa !3
  %21 = icmp sgt i8 %16, %17
  %22 = icmp sgt i8 %16, %18
  %23 = xor i1 %21, %22
  %24 = icmp sgt i8 %16, %19
  %25 = xor i1 %23, %24
  %26 = icmp sgt i8 %16, %20
  %27 = xor i1 %25, %26
  %28 = icmp sgt i8 %17, %18
  %29 = xor i1 %28, %27
  %30 = icmp sgt i8 %17, %19
  %31 = xor i1 %30, %29
  %32 = icmp sgt i8 %17, %20
  %33 = xor i1 %32, %31
  %34 = icmp sgt i8 %18, %19
  %35 = xor i1 %34, %33
  %36 = icmp sgt i8 %18, %20
  %37 = xor i1 %36, %35
  %38 = icmp sle i8 %19, %20
  %39 = xor i1 %38, %37
  %40 = zext i1 %39 to i32
  br label %41

41:                                               ; preds = %41, %15
  %42 = phi i32 [ %51, %41 ], [ 1, %15 ]
  %43 = phi i32 [ %50, %41 ], [ 0, %15 ]
  %44 = phi i32 [ %45, %41 ], [ 0, %15 ]
  %45 = or i32 %44, %42
  %46 = sext i32 %43 to i64
  %47 = getelementptr inbounds i8, ptr %1, i64 %46
  %48 = load i8, ptr %47, align 1, !tbaa !3
  %49 = sext i8 %48 to i32
  %50 = add nsw i32 %49, -97
  %51 = shl nuw nsw i32 1, %50
  %52 = and i32 %51, %45
  %53 = icmp eq i32 %52, 0
  br i1 %53, label %41, label %54, !llvm.loop !6

54:                                               ; preds = %41
  %55 = add nuw nsw i32 %9, %40
  %56 = and i32 %45, 2
  %57 = icmp eq i32 %56, 0
  br i1 %57, label %58, label %71

58:                                               ; preds = %54, %58
  %59 = phi i32 [ %68, %58 ], [ 2, %54 ]
  %60 = phi i32 [ %67, %58 ], [ 1, %54 ]
  %61 = phi i32 [ %62, %58 ], [ %45, %54 ]
  %62 = or i32 %61, %59
  %63 = sext i32 %60 to i64
  %64 = getelementptr inbounds i8, ptr %1, i64 %63
  %65 = load i8, ptr %64, align 1, !tbaa !3
  %66 = sext i8 %65 to i32
  %67 = add nsw i32 %66, -97
  %68 = shl nuw nsw i32 1, %67
  %69 = and i32 %68, %62
  %70 = icmp eq i32 %69, 0
  br i1 %70, label %58, label %71, !llvm.loop !6

71:                                               ; preds = %58, %54
  %72 = phi i32 [ %45, %54 ], [ %62, %58 ]
  %73 = phi i32 [ 1, %54 ], [ 2, %58 ]
  %74 = and i32 %72, 4
  %75 = icmp eq i32 %74, 0
  br i1 %75, label %76, label %91

76:                                               ; preds = %71, %76
  %77 = phi i32 [ %86, %76 ], [ 4, %71 ]
  %78 = phi i32 [ %85, %76 ], [ 2, %71 ]
  %79 = phi i32 [ %80, %76 ], [ %72, %71 ]
  %80 = or i32 %79, %77
  %81 = sext i32 %78 to i64
  %82 = getelementptr inbounds i8, ptr %1, i64 %81
  %83 = load i8, ptr %82, align 1, !tbaa !3
  %84 = sext i8 %83 to i32
  %85 = add nsw i32 %84, -97
  %86 = shl nuw nsw i32 1, %85
  %87 = and i32 %86, %80
  %88 = icmp eq i32 %87, 0
  br i1 %88, label %76, label %89, !llvm.loop !6

89:                                               ; preds = %76
  %90 = add nuw nsw i32 %73, 1
  br label %91

91:                                               ; preds = %89, %71
  %92 = phi i32 [ %72, %71 ], [ %80, %89 ]
  %93 = phi i32 [ %73, %71 ], [ %90, %89 ]
  %94 = and i32 %92, 8
  %95 = icmp eq i32 %94, 0
  br i1 %95, label %96, label %111

96:                                               ; preds = %91, %96
  %97 = phi i32 [ %106, %96 ], [ 8, %91 ]
  %98 = phi i32 [ %105, %96 ], [ 3, %91 ]
  %99 = phi i32 [ %100, %96 ], [ %92, %91 ]
  %100 = or i32 %99, %97
  %101 = sext i32 %98 to i64
  %102 = getelementptr inbounds i8, ptr %1, i64 %101
  %103 = load i8, ptr %102, align 1, !tbaa !3
  %104 = sext i8 %103 to i32
  %105 = add nsw i32 %104, -97
  %106 = shl nuw nsw i32 1, %105
  %107 = and i32 %106, %100
  %108 = icmp eq i32 %107, 0
  br i1 %108, label %96, label %109, !llvm.loop !6

109:                                              ; preds = %96
  %110 = add nuw nsw i32 %93, 1
  br label %111

111:                                              ; preds = %109, %91
  %112 = phi i32 [ %92, %91 ], [ %100, %109 ]
  %113 = phi i32 [ %93, %91 ], [ %110, %109 ]
  %114 = lshr i32 %112, 4
  %115 = and i32 %114, 1
  %116 = xor i32 %115, 1
  %117 = add nuw nsw i32 %116, %113
  %118 = zext nneg i32 %117 to i64
  %119 = getelementptr inbounds [6 x i32], ptr %2, i64 0, i64 %118
  %120 = load i32, ptr %119, align 4, !tbaa !8
  %121 = add nsw i32 %120, 1
  store i32 %121, ptr %119, align 4, !tbaa !8
  %122 = icmp slt i8 %19, %20
  br i1 %122, label %123, label %127

123:                                              ; preds = %131, %129, %127, %111
  %124 = phi i8 [ %19, %111 ], [ %18, %127 ], [ %17, %129 ], [ %16, %131 ]
  %125 = phi ptr [ %3, %111 ], [ %4, %127 ], [ %5, %129 ], [ %1, %131 ]
  %126 = phi i64 [ 4, %111 ], [ 3, %127 ], [ 2, %129 ], [ 1, %131 ]
  br label %151

127:                                              ; preds = %111
  %128 = icmp slt i8 %18, %19
  br i1 %128, label %123, label %129

129:                                              ; preds = %127
  %130 = icmp slt i8 %17, %18
  br i1 %130, label %123, label %131

131:                                              ; preds = %129
  %132 = icmp slt i8 %16, %17
  br i1 %132, label %123, label %133, !llvm.loop !10

133:                                              ; preds = %131
  %134 = getelementptr inbounds i8, ptr %2, i64 4
  %135 = load i32, ptr %134, align 4, !tbaa !8
  %136 = tail call i32 (ptr, ...) @printf(ptr noundef nonnull dereferenceable(1) @.str, i32 noundef %135) #6
  %137 = getelementptr inbounds i8, ptr %2, i64 8
  %138 = load i32, ptr %137, align 8, !tbaa !8
  %139 = tail call i32 (ptr, ...) @printf(ptr noundef nonnull dereferenceable(1) @.str, i32 noundef %138) #6
  %140 = getelementptr inbounds i8, ptr %2, i64 12
  %141 = load i32, ptr %140, align 4, !tbaa !8
  %142 = tail call i32 (ptr, ...) @printf(ptr noundef nonnull dereferenceable(1) @.str, i32 noundef %141) #6
  %143 = getelementptr inbounds i8, ptr %2, i64 16
  %144 = load i32, ptr %143, align 16, !tbaa !8
  %145 = tail call i32 (ptr, ...) @printf(ptr noundef nonnull dereferenceable(1) @.str, i32 noundef %144) #6
  %146 = getelementptr inbounds i8, ptr %2, i64 20
  %147 = load i32, ptr %146, align 4, !tbaa !8
  %148 = tail call i32 (ptr, ...) @printf(ptr noundef nonnull dereferenceable(1) @.str, i32 noundef %147) #6
  %149 = tail call i32 (ptr, ...) @printf(ptr noundef nonnull dereferenceable(1) @.str.1, i32 noundef %55, i32 noundef %10) #6
  %150 = add nuw nsw i32 %55, %10
  call void @llvm.lifetime.end.p0(i64 24, ptr nonnull %2) #5
  call void @llvm.lifetime.end.p0(i64 6, ptr nonnull %1) #5
  ret i32 %150

151:                                              ; preds = %151, %123
  %152 = phi i64 [ %156, %151 ], [ 4, %123 ]
  %153 = getelementptr inbounds i8, ptr %1, i64 %152
  %154 = load i8, ptr %153, align 1, !tbaa !3
  %155 = icmp sgt i8 %154, %124
  %156 = add nsw i64 %152, -1
  br i1 %155, label %157, label %151, !llvm.loop !11

157:                                              ; preds = %151
  %158 = getelementptr inbounds i8, ptr %1, i64 %152
  store i8 %154, ptr %125, align 1, !tbaa !3
  store i8 %124, ptr %158, align 1, !tbaa !3
  br i1 %122, label %159, label %160

159:                                              ; preds = %160, %157
  br label %7

160:                                              ; preds = %157, %160
  %161 = phi i64 [ %167, %160 ], [ 4, %157 ]
  %162 = phi i64 [ %168, %160 ], [ %126, %157 ]
  %163 = getelementptr inbounds i8, ptr %1, i64 %162
  %164 = load i8, ptr %163, align 1, !tbaa !3
  %165 = getelementptr inbounds i8, ptr %1, i64 %161
  %166 = load i8, ptr %165, align 1, !tbaa !3
  store i8 %166, ptr %163, align 1, !tbaa !3
  store i8 %164, ptr %165, align 1, !tbaa !3
  %167 = add nsw i64 %161, -1
  %168 = add nuw nsw i64 %162, 1
  %169 = icmp ult i64 %168, %167
  br i1 %169, label %160, label %159, !llvm.loop !12
}

; Function Attrs: mustprogress nocallback nofree nosync nounwind willreturn memory(argmem: readwrite)
declare void @llvm.lifetime.start.p0(i64 immarg, ptr nocapture) #1

; Function Attrs: mustprogress nocallback nofree nounwind willreturn memory(argmem: readwrite)
declare void @llvm.memcpy.p0.p0.i64(ptr noalias nocapture writeonly, ptr noalias nocapture readonly, i64, i1 immarg) #2

; Function Attrs: mustprogress nocallback nofree nounwind willreturn memory(argmem: write)
declare void @llvm.memset.p0.i64(ptr nocapture writeonly, i8, i64, i1 immarg) #3

; Function Attrs: nofree nounwind
declare dso_local noundef i32 @puts(ptr nocapture noundef readonly) local_unnamed_addr #4

; Function Attrs: nofree nounwind
declare dso_local noundef i32 @printf(ptr nocapture noundef readonly, ...) local_unnamed_addr #4

; Function Attrs: mustprogress nocallback nofree nosync nounwind willreturn memory(argmem: readwrite)
declare void @llvm.lifetime.end.p0(i64 immarg, ptr nocapture) #1

attributes #0 = { nofree nounwind uwtable "min-legal-vector-width"="0" "no-builtin-calloc" "no-trapping-math"="true" "stack-protector-buffer-size"="8" "target-cpu"="x86-64" "target-features"="+cmov,+cx8,+fxsr,-aes,-avx,-avx10.1-256,-avx10.1-512,-avx2,-avx512bf16,-avx512bitalg,-avx512bw,-avx512cd,-avx512dq,-avx512f,-avx512fp16,-avx512ifma,-avx512vbmi,-avx512vbmi2,-avx512vl,-avx512vnni,-avx512vp2intersect,-avx512vpopcntdq,-avxifma,-avxneconvert,-avxvnni,-avxvnniint16,-avxvnniint8,-f16c,-fma,-fma4,-gfni,-kl,-mmx,-pclmul,-sha,-sha512,-sm3,-sm4,-sse,-sse2,-sse3,-sse4.1,-sse4.2,-sse4a,-ssse3,-vaes,-vpclmulqdq,-widekl,-x87,-xop" "tune-cpu"="generic" }
attributes #1 = { mustprogress nocallback nofree nosync nounwind willreturn memory(argmem: readwrite) }
attributes #2 = { mustprogress nocallback nofree nounwind willreturn memory(argmem: readwrite) }
attributes #3 = { mustprogress nocallback nofree nounwind willreturn memory(argmem: write) }
attributes #4 = { nofree nounwind "no-builtin-calloc" "no-trapping-math"="true" "stack-protector-buffer-size"="8" "target-cpu"="x86-64" "target-features"="+cmov,+cx8,+fxsr,-aes,-avx,-avx10.1-256,-avx10.1-512,-avx2,-avx512bf16,-avx512bitalg,-avx512bw,-avx512cd,-avx512dq,-avx512f,-avx512fp16,-avx512ifma,-avx512vbmi,-avx512vbmi2,-avx512vl,-avx512vnni,-avx512vp2intersect,-avx512vpopcntdq,-avxifma,-avxneconvert,-avxvnni,-avxvnniint16,-avxvnniint8,-f16c,-fma,-fma4,-gfni,-kl,-mmx,-pclmul,-sha,-sha512,-sm3,-sm4,-sse,-sse2,-sse3,-sse4.1,-sse4.2,-sse4a,-ssse3,-vaes,-vpclmulqdq,-widekl,-x87,-xop" "tune-cpu"="generic" }
attributes #5 = { nounwind }
attributes #6 = { "no-builtin-calloc" }

!llvm.module.flags = !{!0, !1}
!llvm.ident = !{!2}

!0 = !{i32 1, !"wchar_size", i32 4}
!1 = !{i32 7, !"uwtable", i32 2}
!2 = !{!"Debian clang version 19.1.7 (3~deb12u1)"}
!3 = !{!4, !4, i64 0}
!4 = !{!"omnipotent char", !5, i64 0}
!5 = !{!"Simple C/C++ TBAA"}
!6 = distinct !{!6, !7}
!7 = !{!"llvm.loop.mustprogress"}
!8 = !{!9, !9, i64 0}
!9 = !{!"int", !4, i64 0}
!10 = distinct !{!10, !7}
!11 = distinct !{!11, !7}
!12 = distinct !{!12, !7}
