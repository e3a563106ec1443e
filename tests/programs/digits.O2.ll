; ModuleID = 'digits.c'
source_filename = "digits.c"
target datalayout = "e-m:e-p270:32:32-p271:32:32-p272:64:64-i64:64-i128:128-f80:128-n8:16:32:64-S128"
target triple = "x86_64-pc-linux-gnu"

@.str = private unnamed_addr constant [7 x i8] c"%d %d\0A\00", align 1
@.str.1 = private unnamed_addr constant [3 x i8] c"%u\00", align 1
@.str.2 = private unnamed_addr constant [5 x i8] c"%09u\00", align 1

; Function Attrs: nounwind uwtable
define dso_local range(i32 0, 256) i32 @main() local_unnamed_addr #0 {
  %1 = tail call noalias dereferenceable_or_null(80) ptr @malloc(i64 noundef 80) #6
  %2 = icmp eq ptr %1, null
  br i1 %2, label %3, label %4

3:                                                ; preds = %0
  tail call void @exit(i32 noundef 2) #7
  unreachable

4:                                                ; preds = %0
  store i32 1, ptr %1, align 4, !tbaa !3
  %5 = tail call noalias dereferenceable_or_null(160) ptr @malloc(i64 noundef 160) #6
  %6 = icmp eq ptr %5, null
  br i1 %6, label %7, label %8

7:                                                ; preds = %4
  tail call void @exit(i32 noundef 2) #7
  unreachable

8:                                                ; preds = %4
  store i32 1, ptr %5, align 4, !tbaa !3
  br label %9

9:                                                ; preds = %8, %43
  %10 = phi i64 [ 2, %8 ], [ %45, %43 ]
  %11 = phi i64 [ 85899345921, %8 ], [ %44, %43 ]
  %12 = trunc i64 %11 to i32
  %13 = icmp sgt i32 %12, 0
  br i1 %13, label %14, label %43

14:                                               ; preds = %9
  %15 = and i64 %11, 2147483647
  %16 = tail call i64 @llvm.umax.i64(i64 %15, i64 1)
  br label %23

17:                                               ; preds = %23
  %18 = icmp ugt i64 %30, 999999999
  %19 = lshr i64 %11, 32
  %20 = trunc nuw i64 %19 to i32
  %21 = icmp slt i32 %12, %20
  %22 = select i1 %18, i1 %21, i1 false
  br i1 %22, label %36, label %43

23:                                               ; preds = %23, %14
  %24 = phi i64 [ 0, %14 ], [ %34, %23 ]
  %25 = phi i64 [ 0, %14 ], [ %33, %23 ]
  %26 = getelementptr inbounds i32, ptr %1, i64 %24
  %27 = load i32, ptr %26, align 4, !tbaa !3
  %28 = zext i32 %27 to i64
  %29 = mul nuw nsw i64 %10, %28
  %30 = add nuw nsw i64 %29, %25
  %31 = urem i64 %30, 1000000000
  %32 = trunc nuw nsw i64 %31 to i32
  store i32 %32, ptr %26, align 4, !tbaa !3
  %33 = udiv i64 %30, 1000000000
  %34 = add nuw nsw i64 %24, 1
  %35 = icmp eq i64 %34, %16
  br i1 %35, label %17, label %23, !llvm.loop !7

36:                                               ; preds = %17
  %37 = trunc nuw i64 %33 to i32
  %38 = add nuw nsw i64 %11, 1
  %39 = and i64 %38, 4294967295
  %40 = and i64 %11, -4294967296
  %41 = or disjoint i64 %39, %40
  %42 = getelementptr inbounds i32, ptr %1, i64 %15
  store i32 %37, ptr %42, align 4, !tbaa !3
  br label %43

43:                                               ; preds = %9, %17, %36
  %44 = phi i64 [ %11, %17 ], [ %41, %36 ], [ %11, %9 ]
  %45 = add nuw nsw i64 %10, 1
  %46 = icmp eq i64 %45, 71
  br i1 %46, label %135, label %9, !llvm.loop !9

47:                                               ; preds = %169
  %48 = trunc i64 %44 to i32
  %49 = shl i64 %44, 32
  %50 = ashr exact i64 %49, 30
  %51 = getelementptr i8, ptr %1, i64 %50
  %52 = getelementptr i8, ptr %51, i64 -4
  %53 = load i32, ptr %52, align 4, !tbaa !3
  %54 = tail call i32 (ptr, ...) @printf(ptr noundef nonnull dereferenceable(1) @.str.1, i32 noundef %53) #8
  %55 = icmp sgt i32 %48, 1
  br i1 %55, label %56, label %66

56:                                               ; preds = %47
  %57 = add i64 %44, 4294967295
  %58 = and i64 %57, 4294967295
  br label %59

59:                                               ; preds = %59, %56
  %60 = phi i64 [ %58, %56 ], [ %61, %59 ]
  %61 = add nsw i64 %60, -1
  %62 = getelementptr inbounds i32, ptr %1, i64 %61
  %63 = load i32, ptr %62, align 4, !tbaa !3
  %64 = tail call i32 (ptr, ...) @printf(ptr noundef nonnull dereferenceable(1) @.str.2, i32 noundef %63) #8
  %65 = icmp ugt i64 %60, 1
  br i1 %65, label %59, label %66, !llvm.loop !10

66:                                               ; preds = %59, %47
  %67 = tail call i32 @putchar(i32 noundef 10) #8
  %68 = trunc i64 %170 to i32
  %69 = shl i64 %170, 32
  %70 = ashr exact i64 %69, 30
  %71 = getelementptr i8, ptr %5, i64 %70
  %72 = getelementptr i8, ptr %71, i64 -4
  %73 = load i32, ptr %72, align 4, !tbaa !3
  %74 = tail call i32 (ptr, ...) @printf(ptr noundef nonnull dereferenceable(1) @.str.1, i32 noundef %73) #8
  %75 = icmp sgt i32 %68, 1
  br i1 %75, label %76, label %86

76:                                               ; preds = %66
  %77 = add i64 %170, 4294967295
  %78 = and i64 %77, 4294967295
  br label %79

79:                                               ; preds = %79, %76
  %80 = phi i64 [ %78, %76 ], [ %81, %79 ]
  %81 = add nsw i64 %80, -1
  %82 = getelementptr inbounds i32, ptr %5, i64 %81
  %83 = load i32, ptr %82, align 4, !tbaa !3
  %84 = tail call i32 (ptr, ...) @printf(ptr noundef nonnull dereferenceable(1) @.str.2, i32 noundef %83) #8
  %85 = icmp ugt i64 %80, 1
  br i1 %85, label %79, label %86, !llvm.loop !10

86:                                               ; preds = %79, %66
  %87 = tail call i32 @putchar(i32 noundef 10) #8
  %88 = icmp sgt i32 %48, 0
  br i1 %88, label %89, label %108

89:                                               ; preds = %86
  %90 = and i64 %44, 2147483647
  br label %91

91:                                               ; preds = %97, %89
  %92 = phi i64 [ 0, %89 ], [ %99, %97 ]
  %93 = phi i32 [ 0, %89 ], [ %98, %97 ]
  %94 = getelementptr inbounds i32, ptr %1, i64 %92
  %95 = load i32, ptr %94, align 4, !tbaa !3
  %96 = icmp eq i32 %95, 0
  br i1 %96, label %97, label %101

97:                                               ; preds = %101, %91
  %98 = phi i32 [ %93, %91 ], [ %105, %101 ]
  %99 = add nuw nsw i64 %92, 1
  %100 = icmp eq i64 %99, %90
  br i1 %100, label %108, label %91, !llvm.loop !11

101:                                              ; preds = %91, %101
  %102 = phi i32 [ %106, %101 ], [ %95, %91 ]
  %103 = phi i32 [ %105, %101 ], [ %93, %91 ]
  %104 = urem i32 %102, 10
  %105 = add nsw i32 %104, %103
  %106 = udiv i32 %102, 10
  %107 = icmp ult i32 %102, 10
  br i1 %107, label %97, label %101, !llvm.loop !12

108:                                              ; preds = %97, %86
  %109 = phi i32 [ 0, %86 ], [ %98, %97 ]
  %110 = icmp sgt i32 %68, 0
  br i1 %110, label %111, label %130

111:                                              ; preds = %108
  %112 = and i64 %170, 2147483647
  br label %113

113:                                              ; preds = %119, %111
  %114 = phi i64 [ 0, %111 ], [ %121, %119 ]
  %115 = phi i32 [ 0, %111 ], [ %120, %119 ]
  %116 = getelementptr inbounds i32, ptr %5, i64 %114
  %117 = load i32, ptr %116, align 4, !tbaa !3
  %118 = icmp eq i32 %117, 0
  br i1 %118, label %119, label %123

119:                                              ; preds = %123, %113
  %120 = phi i32 [ %115, %113 ], [ %127, %123 ]
  %121 = add nuw nsw i64 %114, 1
  %122 = icmp eq i64 %121, %112
  br i1 %122, label %130, label %113, !llvm.loop !11

123:                                              ; preds = %113, %123
  %124 = phi i32 [ %128, %123 ], [ %117, %113 ]
  %125 = phi i32 [ %127, %123 ], [ %115, %113 ]
  %126 = urem i32 %124, 10
  %127 = add nsw i32 %126, %125
  %128 = udiv i32 %124, 10
  %129 = icmp ult i32 %124, 10
  br i1 %129, label %119, label %123, !llvm.loop !12

130:                                              ; preds = %119, %108
  %131 = phi i32 [ 0, %108 ], [ %120, %119 ]
  %132 = tail call i32 (ptr, ...) @printf(ptr noundef nonnull dereferenceable(1) @.str, i32 noundef %109, i32 noundef %131) #8
  tail call void @free(ptr noundef %1) #9
  tail call void @free(ptr noundef %5) #9
  %133 = add nsw i32 %131, %109
  %134 = and i32 %133, 255
  ret i32 %134

135:                                              ; preds = %43, %169
  %136 = phi i32 [ %171, %169 ], [ 0, %43 ]
  %137 = phi i64 [ %170, %169 ], [ 171798691841, %43 ]
  %138 = trunc i64 %137 to i32
  %139 = icmp sgt i32 %138, 0
  br i1 %139, label %140, label %169

140:                                              ; preds = %135
  %141 = and i64 %137, 2147483647
  %142 = tail call i64 @llvm.umax.i64(i64 %141, i64 1)
  br label %149

143:                                              ; preds = %149
  %144 = icmp ugt i64 %156, 999999999
  %145 = lshr i64 %137, 32
  %146 = trunc nuw i64 %145 to i32
  %147 = icmp slt i32 %138, %146
  %148 = select i1 %144, i1 %147, i1 false
  br i1 %148, label %162, label %169

149:                                              ; preds = %140, %149
  %150 = phi i64 [ %160, %149 ], [ 0, %140 ]
  %151 = phi i64 [ %159, %149 ], [ 0, %140 ]
  %152 = getelementptr inbounds i32, ptr %5, i64 %150
  %153 = load i32, ptr %152, align 4, !tbaa !3
  %154 = zext i32 %153 to i64
  %155 = shl nuw nsw i64 %154, 3
  %156 = add nuw nsw i64 %155, %151
  %157 = urem i64 %156, 1000000000
  %158 = trunc nuw nsw i64 %157 to i32
  store i32 %158, ptr %152, align 4, !tbaa !3
  %159 = udiv i64 %156, 1000000000
  %160 = add nuw nsw i64 %150, 1
  %161 = icmp eq i64 %160, %142
  br i1 %161, label %143, label %149, !llvm.loop !7

162:                                              ; preds = %143
  %163 = trunc nuw nsw i64 %159 to i32
  %164 = add nuw nsw i64 %137, 1
  %165 = and i64 %164, 4294967295
  %166 = and i64 %137, -4294967296
  %167 = or disjoint i64 %165, %166
  %168 = getelementptr inbounds i32, ptr %5, i64 %141
  store i32 %163, ptr %168, align 4, !tbaa !3
  br label %169

169:                                              ; preds = %135, %143, %162
  %170 = phi i64 [ %137, %143 ], [ %167, %162 ], [ %137, %135 ]
  %171 = add nuw nsw i32 %136, 1
  %172 = icmp eq i32 %171, 100
  br i1 %172, label %47, label %135, !llvm.loop !13
}

; Function Attrs: nofree nounwind
declare dso_local noundef i32 @printf(ptr nocapture noundef readonly, ...) local_unnamed_addr #1

; Function Attrs: mustprogress nounwind willreturn allockind("free") memory(argmem: readwrite, inaccessiblemem: readwrite)
declare dso_local void @free(ptr allocptr nocapture noundef) local_unnamed_addr #2

; Function Attrs: mustprogress nofree nounwind willreturn allockind("alloc,uninitialized") allocsize(0) memory(inaccessiblemem: readwrite)
declare dso_local noalias noundef ptr @malloc(i64 noundef) local_unnamed_addr #3

; Function Attrs: noreturn nounwind
declare dso_local void @exit(i32 noundef) local_unnamed_addr #4

; Function Attrs: nofree nounwind
declare dso_local noundef i32 @putchar(i32 noundef) local_unnamed_addr #1

; Function Attrs: nocallback nofree nosync nounwind speculatable willreturn memory(none)
declare i64 @llvm.umax.i64(i64, i64) #5

attributes #0 = { nounwind uwtable "min-legal-vector-width"="0" "no-builtin-calloc" "no-trapping-math"="true" "stack-protector-buffer-size"="8" "target-cpu"="x86-64" "target-features"="+cmov,+cx8,+fxsr,-aes,-avx,-avx10.1-256,-avx10.1-512,-avx2,-avx512bf16,-avx512bitalg,-avx512bw,-avx512cd,-avx512dq,-avx512f,-avx512fp16,-avx512ifma,-avx512vbmi,-avx512vbmi2,-avx512vl,-avx512vnni,-avx512vp2intersect,-avx512vpopcntdq,-avxifma,-avxneconvert,-avxvnni,-avxvnniint16,-avxvnniint8,-f16c,-fma,-fma4,-gfni,-kl,-mmx,-pclmul,-sha,-sha512,-sm3,-sm4,-sse,-sse2,-sse3,-sse4.1,-sse4.2,-sse4a,-ssse3,-vaes,-vpclmulqdq,-widekl,-x87,-xop" "tune-cpu"="generic" }
attributes #1 = { nofree nounwind "no-builtin-calloc" "no-trapping-math"="true" "stack-protector-buffer-size"="8" "target-cpu"="x86-64" "target-features"="+cmov,+cx8,+fxsr,-aes,-avx,-avx10.1-256,-avx10.1-512,-avx2,-avx512bf16,-avx512bitalg,-avx512bw,-avx512cd,-avx512dq,-avx512f,-avx512fp16,-avx512ifma,-avx512vbmi,-avx512vbmi2,-avx512vl,-avx512vnni,-avx512vp2intersect,-avx512vpopcntdq,-avxifma,-avxneconvert,-avxvnni,-avxvnniint16,-avxvnniint8,-f16c,-fma,-fma4,-gfni,-kl,-mmx,-pclmul,-sha,-sha512,-sm3,-sm4,-sse,-sse2,-sse3,-sse4.1,-sse4.2,-sse4a,-ssse3,-vaes,-vpclmulqdq,-widekl,-x87,-xop" "tune-cpu"="generic" }
attributes #2 = { mustprogress nounwind willreturn allockind("free") memory(argmem: readwrite, inaccessiblemem: readwrite) "alloc-family"="malloc" "no-builtin-calloc" "no-trapping-math"="true" "stack-protector-buffer-size"="8" "target-cpu"="x86-64" "target-features"="+cmov,+cx8,+fxsr,-aes,-avx,-avx10.1-256,-avx10.1-512,-avx2,-avx512bf16,-avx512bitalg,-avx512bw,-avx512cd,-avx512dq,-avx512f,-avx512fp16,-avx512ifma,-avx512vbmi,-avx512vbmi2,-avx512vl,-avx512vnni,-avx512vp2intersect,-avx512vpopcntdq,-avxifma,-avxneconvert,-avxvnni,-avxvnniint16,-avxvnniint8,-f16c,-fma,-fma4,-gfni,-kl,-mmx,-pclmul,-sha,-sha512,-sm3,-sm4,-sse,-sse2,-sse3,-sse4.1,-sse4.2,-sse4a,-ssse3,-vaes,-vpclmulqdq,-widekl,-x87,-xop" "tune-cpu"="generic" }
attributes #3 = { mustprogress nofree nounwind willreturn allockind("alloc,uninitialized") allocsize(0) memory(inaccessiblemem: readwrite) "alloc-family"="malloc" "no-builtin-calloc" "no-trapping-math"="true" "stack-protector-buffer-size"="8" "target-cpu"="x86-64" "target-features"="+cmov,+cx8,+fxsr,-aes,-avx,-avx10.1-256,-avx10.1-512,-avx2,-avx512bf16,-avx512bitalg,-avx512bw,-avx512cd,-avx512dq,-avx512f,-avx512fp16,-avx512ifma,-avx512vbmi,-avx512vbmi2,-avx512vl,-avx512vnni,-avx512vp2intersect,-avx512vpopcntdq,-avxifma,-avxneconvert,-avxvnni,-avxvnniint16,-avxvnniint8,-f16c,-fma,-fma4,-gfni,-kl,-mmx,-pclmul,-sha,-sha512,-sm3,-sm4,-sse,-sse2,-sse3,-sse4.1,-sse4.2,-sse4a,-ssse3,-vaes,-vpclmulqdq,-widekl,-x87,-xop" "tune-cpu"="generic" }
attributes #4 = { noreturn nounwind "no-builtin-calloc" "no-trapping-math"="true" "stack-protector-buffer-size"="8" "target-cpu"="x86-64" "target-features"="+cmov,+cx8,+fxsr,-aes,-avx,-avx10.1-256,-avx10.1-512,-avx2,-avx512bf16,-avx512bitalg,-avx512bw,-avx512cd,-avx512dq,-avx512f,-avx512fp16,-avx512ifma,-avx512vbmi,-avx512vbmi2,-avx512vl,-avx512vnni,-avx512vp2intersect,-avx512vpopcntdq,-avxifma,-avxneconvert,-avxvnni,-avxvnniint16,-avxvnniint8,-f16c,-fma,-fma4,-gfni,-kl,-mmx,-pclmul,-sha,-sha512,-sm3,-sm4,-sse,-sse2,-sse3,-sse4.1,-sse4.2,-sse4a,-ssse3,-vaes,-vpclmulqdq,-widekl,-x87,-xop" "tune-cpu"="generic" }
attributes #5 = { nocallback nofree nosync nounwind speculatable willreturn memory(none) }
attributes #6 = { nounwind allocsize(0) "no-builtin-calloc" }
attributes #7 = { noreturn nounwind "no-builtin-calloc" }
attributes #8 = { "no-builtin-calloc" }
attributes #9 = { nounwind "no-builtin-calloc" }

!llvm.module.flags = !{!0, !1}
!llvm.ident = !{!2}

!0 = !{i32 1, !"wchar_size", i32 4}
!1 = !{i32 7, !"uwtable", i32 2}
!2 = !{!"Debian clang version 19.1.7 (3~deb12u1)"}
!3 = !{!4, !4, i64 0}
!4 = !{!"int", !5, i64 0}
!5 = !{!"omnipotent char", !6, i64 0}
!6 = !{!"Simple C/C++ TBAA"}
!7 = distinct !{!7, !8}
!8 = !{!"llvm.loop.mustprogress"}
!9 = distinct !{!9, !8}
!10 = distinct !{!10, !8}
!11 = distinct !{!11, !8}
!12 = distinct !{!12, !8}
!13 = distinct !{!13, !8}
