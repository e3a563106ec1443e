; ModuleID = 'heap.c'
source_filename = "heap.c"
target datalayout = "e-m:e-p270:32:32-p271:32:32-p272:64:64-i64:64-i128:128-f80:128-n8:16:32:64-S128"
target triple = "x86_64-pc-linux-gnu"

@.str = private unnamed_addr constant [16 x i8] c"%d %d %d %d %d\0A\00", align 1

; Function Attrs: nounwind uwtable
define dso_local range(i32 0, 128) i32 @main() local_unnamed_addr #0 {
  %1 = tail call noalias dereferenceable_or_null(800) ptr @malloc(i64 noundef 800) #4
  %2 = icmp eq ptr %1, null
  br i1 %2, label %136, label %82

3:                                                ; preds = %82, %36
  %4 = phi i32 [ %5, %36 ], [ 100, %82 ]
  %5 = add nsw i32 %4, -1
  %6 = shl nuw nsw i32 %5, 1
  %7 = or disjoint i32 %6, 1
  br label %8

8:                                                ; preds = %32, %3
  %9 = phi i32 [ %34, %32 ], [ %7, %3 ]
  %10 = phi i32 [ %33, %32 ], [ %6, %3 ]
  %11 = phi i32 [ %24, %32 ], [ %5, %3 ]
  %12 = icmp slt i32 %10, 198
  br i1 %12, label %13, label %23

13:                                               ; preds = %8
  %14 = add nsw i32 %10, 2
  %15 = sext i32 %14 to i64
  %16 = getelementptr inbounds i32, ptr %1, i64 %15
  %17 = load i32, ptr %16, align 4, !tbaa !3
  %18 = sext i32 %9 to i64
  %19 = getelementptr inbounds i32, ptr %1, i64 %18
  %20 = load i32, ptr %19, align 4, !tbaa !3
  %21 = icmp sgt i32 %17, %20
  %22 = select i1 %21, i32 %14, i32 %9
  br label %23

23:                                               ; preds = %13, %8
  %24 = phi i32 [ %9, %8 ], [ %22, %13 ]
  %25 = sext i32 %11 to i64
  %26 = getelementptr inbounds i32, ptr %1, i64 %25
  %27 = load i32, ptr %26, align 4, !tbaa !3
  %28 = sext i32 %24 to i64
  %29 = getelementptr inbounds i32, ptr %1, i64 %28
  %30 = load i32, ptr %29, align 4, !tbaa !3
  %31 = icmp slt i32 %27, %30
  br i1 %31, label %32, label %36

32:                                               ; preds = %23
  store i32 %30, ptr %26, align 4, !tbaa !3
  store i32 %27, ptr %29, align 4, !tbaa !3
  %33 = shl nsw i32 %24, 1
  %34 = or disjoint i32 %33, 1
  %35 = icmp slt i32 %34, 200
  br i1 %35, label %8, label %36, !llvm.loop !7

36:                                               ; preds = %32, %23
  %37 = icmp ugt i32 %4, 1
  br i1 %37, label %3, label %38, !llvm.loop !9

38:                                               ; preds = %36
  %39 = load i32, ptr %1, align 4, !tbaa !3
  %40 = getelementptr inbounds i8, ptr %1, i64 796
  %41 = load i32, ptr %40, align 4, !tbaa !3
  store i32 %41, ptr %1, align 4, !tbaa !3
  store i32 %39, ptr %40, align 4, !tbaa !3
  br label %42

42:                                               ; preds = %38, %73
  %43 = phi i64 [ 199, %38 ], [ %74, %73 ]
  br label %44

44:                                               ; preds = %42, %68
  %45 = phi i32 [ %70, %68 ], [ 1, %42 ]
  %46 = phi i32 [ %69, %68 ], [ 0, %42 ]
  %47 = phi i32 [ %60, %68 ], [ 0, %42 ]
  %48 = add nsw i32 %46, 2
  %49 = sext i32 %48 to i64
  %50 = icmp sgt i64 %43, %49
  br i1 %50, label %51, label %59

51:                                               ; preds = %44
  %52 = getelementptr inbounds i32, ptr %1, i64 %49
  %53 = load i32, ptr %52, align 4, !tbaa !3
  %54 = sext i32 %45 to i64
  %55 = getelementptr inbounds i32, ptr %1, i64 %54
  %56 = load i32, ptr %55, align 4, !tbaa !3
  %57 = icmp sgt i32 %53, %56
  %58 = select i1 %57, i32 %48, i32 %45
  br label %59

59:                                               ; preds = %51, %44
  %60 = phi i32 [ %45, %44 ], [ %58, %51 ]
  %61 = sext i32 %47 to i64
  %62 = getelementptr inbounds i32, ptr %1, i64 %61
  %63 = load i32, ptr %62, align 4, !tbaa !3
  %64 = sext i32 %60 to i64
  %65 = getelementptr inbounds i32, ptr %1, i64 %64
  %66 = load i32, ptr %65, align 4, !tbaa !3
  %67 = icmp slt i32 %63, %66
  br i1 %67, label %68, label %73

68:                                               ; preds = %59
  store i32 %66, ptr %62, align 4, !tbaa !3
  store i32 %63, ptr %65, align 4, !tbaa !3
  %69 = shl nsw i32 %60, 1
  %70 = or disjoint i32 %69, 1
  %71 = sext i32 %70 to i64
  %72 = icmp sgt i64 %43, %71
  br i1 %72, label %44, label %73, !llvm.loop !7

73:                                               ; preds = %68, %59
  %74 = add nsw i64 %43, -1
  %75 = load i32, ptr %1, align 4, !tbaa !3
  %76 = getelementptr inbounds i32, ptr %1, i64 %74
  %77 = load i32, ptr %76, align 4, !tbaa !3
  store i32 %77, ptr %1, align 4, !tbaa !3
  store i32 %75, ptr %76, align 4, !tbaa !3
  %78 = icmp eq i64 %74, 1
  br i1 %78, label %79, label %42

79:                                               ; preds = %73
  %80 = getelementptr i8, ptr %1, i64 4
  %81 = getelementptr i8, ptr %1, i64 8
  br label %111

82:                                               ; preds = %0, %82
  %83 = phi i64 [ %98, %82 ], [ 0, %0 ]
  %84 = phi i32 [ %93, %82 ], [ 12345, %0 ]
  %85 = mul i32 %84, 1103515245
  %86 = add i32 %85, 12345
  %87 = lshr i32 %86, 16
  %88 = and i32 %87, 32767
  %89 = add nsw i32 %88, -16384
  %90 = getelementptr inbounds i32, ptr %1, i64 %83
  store i32 %89, ptr %90, align 4, !tbaa !3
  %91 = or disjoint i64 %83, 1
  %92 = mul i32 %86, 1103515245
  %93 = add i32 %92, 12345
  %94 = lshr i32 %93, 16
  %95 = and i32 %94, 32767
  %96 = add nsw i32 %95, -16384
  %97 = getelementptr inbounds i32, ptr %1, i64 %91
  store i32 %96, ptr %97, align 4, !tbaa !3
  %98 = add nuw nsw i64 %83, 2
  %99 = icmp eq i64 %98, 200
  br i1 %99, label %3, label %82, !llvm.loop !10

100:                                              ; preds = %111
  %101 = load i32, ptr %1, align 4, !tbaa !3
  %102 = getelementptr inbounds i8, ptr %1, i64 4
  %103 = load i32, ptr %102, align 4, !tbaa !3
  %104 = getelementptr inbounds i8, ptr %1, i64 400
  %105 = load i32, ptr %104, align 4, !tbaa !3
  %106 = load i32, ptr %40, align 4, !tbaa !3
  %107 = tail call i32 (ptr, ...) @printf(ptr noundef nonnull dereferenceable(1) @.str, i32 noundef %127, i32 noundef %101, i32 noundef %103, i32 noundef %105, i32 noundef %106) #5
  %108 = getelementptr inbounds i8, ptr %1, i64 264
  %109 = load i32, ptr %108, align 4, !tbaa !3
  %110 = and i32 %109, 127
  tail call void @free(ptr noundef nonnull %1) #6
  br label %136

111:                                              ; preds = %130, %79
  %112 = phi i64 [ 1, %79 ], [ %135, %130 ]
  %113 = phi i32 [ 1, %79 ], [ %134, %130 ]
  %114 = getelementptr i32, ptr %1, i64 %112
  %115 = getelementptr i8, ptr %114, i64 -4
  %116 = load i32, ptr %115, align 4, !tbaa !3
  %117 = load i32, ptr %114, align 4, !tbaa !3
  %118 = icmp sgt i32 %116, %117
  %119 = getelementptr i32, ptr %80, i64 %112
  %120 = load i32, ptr %119, align 4, !tbaa !3
  %121 = icmp sgt i32 %117, %120
  %122 = getelementptr i32, ptr %81, i64 %112
  %123 = load i32, ptr %122, align 4, !tbaa !3
  %124 = icmp sgt i32 %120, %123
  %125 = select i1 %124, i1 true, i1 %121
  %126 = select i1 %125, i1 true, i1 %118
  %127 = select i1 %126, i32 0, i32 %113
  %128 = add nuw nsw i64 %112, 3
  %129 = icmp eq i64 %128, 200
  br i1 %129, label %100, label %130, !llvm.loop !11

130:                                              ; preds = %111
  %131 = getelementptr i32, ptr %1, i64 %128
  %132 = load i32, ptr %131, align 4, !tbaa !3
  %133 = icmp sgt i32 %123, %132
  %134 = select i1 %133, i32 0, i32 %127
  %135 = add nuw nsw i64 %112, 4
  br label %111

136:                                              ; preds = %0, %100
  %137 = phi i32 [ %110, %100 ], [ 1, %0 ]
  ret i32 %137
}

; Function Attrs: mustprogress nofree nounwind willreturn allockind("alloc,uninitialized") allocsize(0) memory(inaccessiblemem: readwrite)
declare dso_local noalias noundef ptr @malloc(i64 noundef) local_unnamed_addr #1

; Function Attrs: nofree nounwind
declare dso_local noundef i32 @printf(ptr nocapture noundef readonly, ...) local_unnamed_addr #2

; Function Attrs: mustprogress nounwind willreturn allockind("free") memory(argmem: readwrite, inaccessiblemem: readwrite)
declare dso_local void @free(ptr allocptr nocapture noundef) local_unnamed_addr #3

attributes #0 = { nounwind uwtable "min-legal-vector-width"="0" "no-builtin-calloc" "no-trapping-math"="true" "stack-protector-buffer-size"="8" "target-cpu"="x86-64" "target-features"="+cmov,+cx8,+fxsr,-aes,-avx,-avx10.1-256,-avx10.1-512,-avx2,-avx512bf16,-avx512bitalg,-avx512bw,-avx512cd,-avx512dq,-avx512f,-avx512fp16,-avx512ifma,-avx512vbmi,-avx512vbmi2,-avx512vl,-avx512vnni,-avx512vp2intersect,-avx512vpopcntdq,-avxifma,-avxneconvert,-avxvnni,-avxvnniint16,-avxvnniint8,-f16c,-fma,-fma4,-gfni,-kl,-mmx,-pclmul,-sha,-sha512,-sm3,-sm4,-sse,-sse2,-sse3,-sse4.1,-sse4.2,-sse4a,-ssse3,-vaes,-vpclmulqdq,-widekl,-x87,-xop" "tune-cpu"="generic" }
attributes #1 = { mustprogress nofree nounwind willreturn allockind("alloc,uninitialized") allocsize(0) memory(inaccessiblemem: readwrite) "alloc-family"="malloc" "no-builtin-calloc" "no-trapping-math"="true" "stack-protector-buffer-size"="8" "target-cpu"="x86-64" "target-features"="+cmov,+cx8,+fxsr,-aes,-avx,-avx10.1-256,-avx10.1-512,-avx2,-avx512bf16,-avx512bitalg,-avx512bw,-avx512cd,-avx512dq,-avx512f,-avx512fp16,-avx512ifma,-avx512vbmi,-avx512vbmi2,-avx512vl,-avx512vnni,-avx512vp2intersect,-avx512vpopcntdq,-avxifma,-avxneconvert,-avxvnni,-avxvnniint16,-avxvnniint8,-f16c,-fma,-fma4,-gfni,-kl,-mmx,-pclmul,-sha,-sha512,-sm3,-sm4,-sse,-sse2,-sse3,-sse4.1,-sse4.2,-sse4a,-ssse3,-vaes,-vpclmulqdq,-widekl,-x87,-xop" "tune-cpu"="generic" }
attributes #2 = { nofree nounwind "no-builtin-calloc" "no-trapping-math"="true" "stack-protector-buffer-size"="8" "target-cpu"="x86-64" "target-features"="+cmov,+cx8,+fxsr,-aes,-avx,-avx10.1-256,-avx10.1-512,-avx2,-avx512bf16,-avx512bitalg,-avx512bw,-avx512cd,-avx512dq,-avx512f,-avx512fp16,-avx512ifma,-avx512vbmi,-avx512vbmi2,-avx512vl,-avx512vnni,-avx512vp2intersect,-avx512vpopcntdq,-avxifma,-avxneconvert,-avxvnni,-avxvnniint16,-avxvnniint8,-f16c,-fma,-fma4,-gfni,-kl,-mmx,-pclmul,-sha,-sha512,-sm3,-sm4,-sse,-sse2,-sse3,-sse4.1,-sse4.2,-sse4a,-ssse3,-vaes,-vpclmulqdq,-widekl,-x87,-xop" "tune-cpu"="generic" }
attributes #3 = { mustprogress nounwind willreturn allockind("free") memory(argmem: readwrite, inaccessiblemem: readwrite) "alloc-family"="malloc" "no-builtin-calloc" "no-trapping-math"="true" "stack-protector-buffer-size"="8" "target-cpu"="x86-64" "target-features"="+cmov,+cx8,+fxsr,-aes,-avx,-avx10.1-256,-avx10.1-512,-avx2,-avx512bf16,-avx512bitalg,-avx512bw,-avx512cd,-avx512dq,-avx512f,-avx512fp16,-avx512ifma,-avx512vbmi,-avx512vbmi2,-avx512vl,-avx512vnni,-avx512vp2intersect,-avx512vpopcntdq,-avxifma,-avxneconvert,-avxvnni,-avxvnniint16,-avxvnniint8,-f16c,-fma,-fma4,-gfni,-kl,-mmx,-pclmul,-sha,-sha512,-sm3,-sm4,-sse,-sse2,-sse3,-sse4.1,-sse4.2,-sse4a,-ssse3,-vaes,-vpclmulqdq,-widekl,-x87,-xop" "tune-cpu"="generic" }
attributes #4 = { nounwind allocsize(0) "no-builtin-calloc" }
attributes #5 = { "no-builtin-calloc" }
attributes #6 = { nounwind "no-builtin-calloc" }

!llvm.module.flags = !{!0, !1}
!llvm.ident = !{!2}

!0 = !{i32 1, !"wchar_size", i32 4}
!1 = !{i32 7, !"uwtable", i32 2}
!2 = !{!"Debian clang version 19.1.7 (3~deb12u1)"}
!3 = !{!4, !4, i64 0}
!4 = !{!"int", !5, i64 0}
!5 = !{!"omnipotent char", !6, i64 0}
!6 = !{!"Simple C/C++ TBAA"}
!7 = distinct !{!7, !8}
!8 = !{!"llvm.loop.mustprogress"}
!9 = distinct !{!9, !8}
!10 = distinct !{!10, !8}
!11 = distinct !{!11, !8}
