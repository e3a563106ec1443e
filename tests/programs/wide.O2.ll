; ModuleID = 'wide.c'
source_filename = "wide.c"
target datalayout = "e-m:e-p270:32:32-p271:32:32-p272:64:64-i64:64-i128:128-f80:128-n8:16:32:64-S128"
target triple = "x86_64-pc-linux-gnu"

@.str = private unnamed_addr constant [10 x i8] c"%d %d %d\0A\00", align 1

; Function Attrs: nofree nounwind uwtable
define dso_local range(i32 0, 201) i32 @main() local_unnamed_addr #0 {
  %1 = alloca [40 x i8], align 16
  %2 = alloca [40 x i8], align 16
  %3 = alloca [40 x i8], align 16
  %4 = alloca [40 x i8], align 16
  %5 = alloca [40 x i8], align 16
  call void @llvm.lifetime.start.p0(i64 40, ptr nonnull %5) #3
  br label %6

6:                                                ; preds = %18, %0
  %7 = phi i64 [ 40, %0 ], [ %22, %18 ]
  %8 = phi i128 [ 8683317618811886495518194401280000000, %0 ], [ %24, %18 ]
  %9 = freeze i128 %8
  %10 = udiv i128 %9, 10
  %11 = mul i128 %10, 10
  %12 = sub i128 %9, %11
  %13 = trunc nuw nsw i128 %12 to i8
  %14 = or disjoint i8 %13, 48
  %15 = add nsw i64 %7, -1
  %16 = getelementptr inbounds [40 x i8], ptr %5, i64 0, i64 %15
  store i8 %14, ptr %16, align 1, !tbaa !3
  %17 = icmp ult i128 %8, 10
  br i1 %17, label %25, label %18, !llvm.loop !6

18:                                               ; preds = %6
  %19 = urem i128 %10, 10
  %20 = trunc nuw nsw i128 %19 to i8
  %21 = or disjoint i8 %20, 48
  %22 = add nsw i64 %7, -2
  %23 = getelementptr inbounds [40 x i8], ptr %5, i64 0, i64 %22
  store i8 %21, ptr %23, align 2, !tbaa !3
  %24 = udiv i128 %8, 100
  br label %6

25:                                               ; preds = %6, %25
  %26 = phi i64 [ %31, %25 ], [ 3, %6 ]
  %27 = getelementptr inbounds [40 x i8], ptr %5, i64 0, i64 %26
  %28 = load i8, ptr %27, align 1, !tbaa !3
  %29 = sext i8 %28 to i32
  %30 = tail call i32 @putchar(i32 noundef %29) #4
  %31 = add nuw nsw i64 %26, 1
  %32 = icmp eq i64 %31, 40
  br i1 %32, label %33, label %25, !llvm.loop !8

33:                                               ; preds = %25
  %34 = tail call i32 @putchar(i32 noundef 10) #4
  call void @llvm.lifetime.end.p0(i64 40, ptr nonnull %5) #3
  br label %158

35:                                               ; preds = %158
  call void @llvm.lifetime.start.p0(i64 40, ptr nonnull %4) #3
  br label %36

36:                                               ; preds = %36, %35
  %37 = phi i64 [ %49, %36 ], [ 39, %35 ]
  %38 = phi i64 [ %46, %36 ], [ 40, %35 ]
  %39 = phi i128 [ %41, %36 ], [ %172, %35 ]
  %40 = freeze i128 %39
  %41 = udiv i128 %40, 10
  %42 = mul i128 %41, 10
  %43 = sub i128 %40, %42
  %44 = trunc nuw nsw i128 %43 to i8
  %45 = or disjoint i8 %44, 48
  %46 = add nsw i64 %38, -1
  %47 = getelementptr inbounds [40 x i8], ptr %4, i64 0, i64 %46
  store i8 %45, ptr %47, align 1, !tbaa !3
  %48 = icmp ult i128 %39, 10
  %49 = add i64 %37, -1
  br i1 %48, label %50, label %36, !llvm.loop !6

50:                                               ; preds = %36
  %51 = icmp slt i64 %38, 41
  br i1 %51, label %52, label %61

52:                                               ; preds = %50, %52
  %53 = phi i64 [ %58, %52 ], [ %37, %50 ]
  %54 = getelementptr inbounds [40 x i8], ptr %4, i64 0, i64 %53
  %55 = load i8, ptr %54, align 1, !tbaa !3
  %56 = sext i8 %55 to i32
  %57 = tail call i32 @putchar(i32 noundef %56) #4
  %58 = add nsw i64 %53, 1
  %59 = and i64 %58, 4294967295
  %60 = icmp eq i64 %59, 40
  br i1 %60, label %61, label %52, !llvm.loop !8

61:                                               ; preds = %52, %50
  %62 = tail call i32 @putchar(i32 noundef 10) #4
  call void @llvm.lifetime.end.p0(i64 40, ptr nonnull %4) #3
  call void @llvm.lifetime.start.p0(i64 40, ptr nonnull %3) #3
  br label %63

63:                                               ; preds = %75, %61
  %64 = phi i64 [ 40, %61 ], [ %79, %75 ]
  %65 = phi i128 [ 147808829414345923316083210206383297601, %61 ], [ %81, %75 ]
  %66 = freeze i128 %65
  %67 = udiv i128 %66, 10
  %68 = mul i128 %67, 10
  %69 = sub i128 %66, %68
  %70 = trunc nuw nsw i128 %69 to i8
  %71 = or disjoint i8 %70, 48
  %72 = add nsw i64 %64, -1
  %73 = getelementptr inbounds [40 x i8], ptr %3, i64 0, i64 %72
  store i8 %71, ptr %73, align 1, !tbaa !3
  %74 = icmp ult i128 %65, 10
  br i1 %74, label %82, label %75, !llvm.loop !6

75:                                               ; preds = %63
  %76 = urem i128 %67, 10
  %77 = trunc nuw nsw i128 %76 to i8
  %78 = or disjoint i8 %77, 48
  %79 = add nsw i64 %64, -2
  %80 = getelementptr inbounds [40 x i8], ptr %3, i64 0, i64 %79
  store i8 %78, ptr %80, align 2, !tbaa !3
  %81 = udiv i128 %65, 100
  br label %63

82:                                               ; preds = %63, %82
  %83 = phi i64 [ %88, %82 ], [ 1, %63 ]
  %84 = getelementptr inbounds [40 x i8], ptr %3, i64 0, i64 %83
  %85 = load i8, ptr %84, align 1, !tbaa !3
  %86 = sext i8 %85 to i32
  %87 = tail call i32 @putchar(i32 noundef %86) #4
  %88 = add nuw nsw i64 %83, 1
  %89 = icmp eq i64 %88, 40
  br i1 %89, label %90, label %82, !llvm.loop !8

90:                                               ; preds = %82
  %91 = tail call i32 @putchar(i32 noundef 10) #4
  call void @llvm.lifetime.end.p0(i64 40, ptr nonnull %3) #3
  call void @llvm.lifetime.start.p0(i64 40, ptr nonnull %2) #3
  br label %92

92:                                               ; preds = %104, %90
  %93 = phi i64 [ 40, %90 ], [ %108, %104 ]
  %94 = phi i128 [ -1, %90 ], [ %110, %104 ]
  %95 = freeze i128 %94
  %96 = udiv i128 %95, 10
  %97 = mul i128 %96, 10
  %98 = sub i128 %95, %97
  %99 = trunc nuw nsw i128 %98 to i8
  %100 = or disjoint i8 %99, 48
  %101 = add nsw i64 %93, -1
  %102 = getelementptr inbounds [40 x i8], ptr %2, i64 0, i64 %101
  store i8 %100, ptr %102, align 1, !tbaa !3
  %103 = icmp ult i128 %94, 10
  br i1 %103, label %111, label %104, !llvm.loop !6

104:                                              ; preds = %92
  %105 = urem i128 %96, 10
  %106 = trunc nuw nsw i128 %105 to i8
  %107 = or disjoint i8 %106, 48
  %108 = add nsw i64 %93, -2
  %109 = getelementptr inbounds [40 x i8], ptr %2, i64 0, i64 %108
  store i8 %107, ptr %109, align 2, !tbaa !3
  %110 = udiv i128 %94, 100
  br label %92

111:                                              ; preds = %92, %111
  %112 = phi i64 [ %117, %111 ], [ 1, %92 ]
  %113 = getelementptr inbounds [40 x i8], ptr %2, i64 0, i64 %112
  %114 = load i8, ptr %113, align 1, !tbaa !3
  %115 = sext i8 %114 to i32
  %116 = tail call i32 @putchar(i32 noundef %115) #4
  %117 = add nuw nsw i64 %112, 1
  %118 = icmp eq i64 %117, 40
  br i1 %118, label %119, label %111, !llvm.loop !8

119:                                              ; preds = %111
  %120 = tail call i32 @putchar(i32 noundef 10) #4
  call void @llvm.lifetime.end.p0(i64 40, ptr nonnull %2) #3
  call void @llvm.lifetime.start.p0(i64 40, ptr nonnull %1) #3
  br label %121

121:                                              ; preds = %121, %119
  %122 = phi i64 [ 39, %119 ], [ %140, %121 ]
  %123 = phi i64 [ 40, %119 ], [ %136, %121 ]
  %124 = phi i128 [ 142857142857142857142857142857, %119 ], [ %138, %121 ]
  %125 = freeze i128 %124
  %126 = udiv i128 %125, 10
  %127 = mul i128 %126, 10
  %128 = sub i128 %125, %127
  %129 = trunc nuw nsw i128 %128 to i8
  %130 = or disjoint i8 %129, 48
  %131 = add nsw i64 %123, -1
  %132 = getelementptr inbounds [40 x i8], ptr %1, i64 0, i64 %131
  store i8 %130, ptr %132, align 1, !tbaa !3
  %133 = urem i128 %126, 10
  %134 = trunc nuw nsw i128 %133 to i8
  %135 = or disjoint i8 %134, 48
  %136 = add nsw i64 %123, -2
  %137 = getelementptr inbounds [40 x i8], ptr %1, i64 0, i64 %136
  store i8 %135, ptr %137, align 2, !tbaa !3
  %138 = udiv i128 %124, 100
  %139 = icmp ult i128 %124, 100
  %140 = add nsw i64 %122, -2
  br i1 %139, label %141, label %121, !llvm.loop !6

141:                                              ; preds = %121
  %142 = add nsw i64 %122, -1
  %143 = icmp slt i64 %123, 42
  br i1 %143, label %144, label %153

144:                                              ; preds = %141, %144
  %145 = phi i64 [ %150, %144 ], [ %142, %141 ]
  %146 = getelementptr inbounds [40 x i8], ptr %1, i64 0, i64 %145
  %147 = load i8, ptr %146, align 1, !tbaa !3
  %148 = sext i8 %147 to i32
  %149 = tail call i32 @putchar(i32 noundef %148) #4
  %150 = add nsw i64 %145, 1
  %151 = and i64 %150, 4294967295
  %152 = icmp eq i64 %151, 40
  br i1 %152, label %153, label %144, !llvm.loop !8

153:                                              ; preds = %144, %141
  %154 = tail call i32 @putchar(i32 noundef 10) #4
  call void @llvm.lifetime.end.p0(i64 40, ptr nonnull %1) #3
  %155 = tail call i32 (ptr, ...) @printf(ptr noundef nonnull dereferenceable(1) @.str, i32 noundef -1, i32 noundef -1, i32 noundef 1) #4
  %156 = icmp ugt i128 %172, %173
  %157 = select i1 %156, i32 31, i32 30
  ret i32 %157

158:                                              ; preds = %158, %33
  %159 = phi i128 [ 0, %33 ], [ %172, %158 ]
  %160 = phi i128 [ 1, %33 ], [ %173, %158 ]
  %161 = phi i32 [ 0, %33 ], [ %174, %158 ]
  %162 = add i128 %159, %160
  %163 = add i128 %160, %162
  %164 = add i128 %162, %163
  %165 = add i128 %163, %164
  %166 = add i128 %164, %165
  %167 = add i128 %165, %166
  %168 = add i128 %166, %167
  %169 = add i128 %167, %168
  %170 = add i128 %168, %169
  %171 = add i128 %169, %170
  %172 = add i128 %170, %171
  %173 = add i128 %171, %172
  %174 = add nuw nsw i32 %161, 12
  %175 = icmp eq i32 %174, 180
  br i1 %175, label %35, label %158, !llvm.loop !9
}

; Function Attrs: mustprogress nocallback nofree nosync nounwind willreturn memory(argmem: readwrite)
declare void @llvm.lifetime.start.p0(i64 immarg, ptr nocapture) #1

; Function Attrs: mustprogress nocallback nofree nosync nounwind willreturn memory(argmem: readwrite)
declare void @llvm.lifetime.end.p0(i64 immarg, ptr nocapture) #1

; Function Attrs: nofree nounwind
declare dso_local noundef i32 @printf(ptr nocapture noundef readonly, ...) local_unnamed_addr #2

; Function Attrs: nofree nounwind
declare dso_local noundef i32 @putchar(i32 noundef) local_unnamed_addr #2

attributes #0 = { nofree nounwind uwtable "min-legal-vector-width"="0" "no-builtin-calloc" "no-trapping-math"="true" "stack-protector-buffer-size"="8" "target-cpu"="x86-64" "target-features"="+cmov,+cx8,+fxsr,-aes,-avx,-avx10.1-256,-avx10.1-512,-avx2,-avx512bf16,-avx512bitalg,-avx512bw,-avx512cd,-avx512dq,-avx512f,-avx512fp16,-avx512ifma,-avx512vbmi,-avx512vbmi2,-avx512vl,-avx512vnni,-avx512vp2intersect,-avx512vpopcntdq,-avxifma,-avxneconvert,-avxvnni,-avxvnniint16,-avxvnniint8,-f16c,-fma,-fma4,-gfni,-kl,-mmx,-pclmul,-sha,-sha512,-sm3,-sm4,-sse,-sse2,-sse3,-sse4.1,-sse4.2,-sse4a,-ssse3,-vaes,-vpclmulqdq,-widekl,-x87,-xop" "tune-cpu"="generic" }
attributes #1 = { mustprogress nocallback nofree nosync nounwind willreturn memory(argmem: readwrite) }
attributes #2 = { nofree nounwind "no-builtin-calloc" "no-trapping-math"="true" "stack-protector-buffer-size"="8" "target-cpu"="x86-64" "target-features"="+cmov,+cx8,+fxsr,-aes,-avx,-avx10.1-256,-avx10.1-512,-avx2,-avx512bf16,-avx512bitalg,-avx512bw,-avx512cd,-avx512dq,-avx512f,-avx512fp16,-avx512ifma,-avx512vbmi,-avx512vbmi2,-avx512vl,-avx512vnni,-avx512vp2intersect,-avx512vpopcntdq,-avxifma,-avxneconvert,-avxvnni,-avxvnniint16,-avxvnniint8,-f16c,-fma,-fma4,-gfni,-kl,-mmx,-pclmul,-sha,-sha512,-sm3,-sm4,-sse,-sse2,-sse3,-sse4.1,-sse4.2,-sse4a,-ssse3,-vaes,-vpclmulqdq,-widekl,-x87,-xop" "tune-cpu"="generic" }
attributes #3 = { nounwind }
attributes #4 = { "no-builtin-calloc" }

!llvm.module.flags = !{!0, !1}
!llvm.ident = !{!2}

!0 = !{i32 1, !"wchar_size", i32 4}
!1 = !{i32 7, !"uwtable", i32 2}
!2 = !{!"Debian clang version 19.1.7 (3~deb12u1)"}
!3 = !{!4, !4, i64 0}
!4 = !{!"omnipotent char", !5, i64 0}
!5 = !{!"Simple C/C++ TBAA"}
!6 = distinct !{!6, !7}
!7 = !{!"llvm.loop.mustprogress"}
!8 = distinct !{!8, !7}
!9 = distinct !{!9, !7}
