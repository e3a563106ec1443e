; ModuleID = 'merge.c'
source_filename = "merge.c"
target datalayout = "e-m:e-p270:32:32-p271:32:32-p272:64:64-i64:64-i128:128-f80:128-n8:16:32:64-S128"
target triple = "x86_64-pc-linux-gnu"

@first = internal unnamed_addr global [300 x i64] zeroinitializer, align 16
@second = internal unnamed_addr global [300 x i64] zeroinitializer, align 16
@.str = private unnamed_addr constant [14 x i8] c"%llu %llu %d\0A\00", align 1

; Function Attrs: nofree nounwind uwtable
define dso_local range(i32 0, 256) i32 @main() local_unnamed_addr #0 {
  br label %1

1:                                                ; preds = %1, %0
  %2 = phi i64 [ 0, %0 ], [ %19, %1 ]
  %3 = phi i64 [ 88172645463325252, %0 ], [ %17, %1 ]
  %4 = shl i64 %3, 13
  %5 = xor i64 %4, %3
  %6 = lshr i64 %5, 7
  %7 = xor i64 %6, %5
  %8 = shl i64 %7, 17
  %9 = xor i64 %8, %7
  %10 = getelementptr inbounds [300 x i64], ptr @first, i64 0, i64 %2
  store i64 %9, ptr %10, align 16, !tbaa !3
  %11 = or disjoint i64 %2, 1
  %12 = shl i64 %9, 13
  %13 = xor i64 %12, %9
  %14 = lshr i64 %13, 7
  %15 = xor i64 %14, %13
  %16 = shl i64 %15, 17
  %17 = xor i64 %16, %15
  %18 = getelementptr inbounds [300 x i64], ptr @first, i64 0, i64 %11
  store i64 %17, ptr %18, align 8, !tbaa !3
  %19 = add nuw nsw i64 %2, 2
  %20 = icmp eq i64 %19, 300
  br i1 %20, label %23, label %1, !llvm.loop !7

21:                                               ; preds = %78
  %22 = load i64, ptr @first, align 16, !tbaa !3
  br label %100

23:                                               ; preds = %1, %78
  %24 = phi i32 [ %26, %78 ], [ 1, %1 ]
  %25 = phi i32 [ %79, %78 ], [ 0, %1 ]
  %26 = shl nuw nsw i32 %24, 1
  %27 = zext nneg i32 %26 to i64
  br label %31

28:                                               ; preds = %72, %31
  %29 = phi i32 [ %33, %31 ], [ %73, %72 ]
  %30 = icmp slt i32 %38, 300
  br i1 %30, label %31, label %78, !llvm.loop !9

31:                                               ; preds = %28, %23
  %32 = phi i64 [ 0, %23 ], [ %37, %28 ]
  %33 = phi i32 [ 0, %23 ], [ %29, %28 ]
  %34 = trunc i64 %32 to i32
  %35 = add nuw nsw i32 %24, %34
  %36 = tail call i32 @llvm.smin.i32(i32 %35, i32 300)
  %37 = add nuw nsw i64 %32, %27
  %38 = trunc i64 %37 to i32
  %39 = tail call i32 @llvm.smin.i32(i32 %38, i32 300)
  %40 = icmp sgt i32 %39, %34
  br i1 %40, label %41, label %28

41:                                               ; preds = %31
  %42 = sext i32 %39 to i64
  br label %43

43:                                               ; preds = %72, %41
  %44 = phi i64 [ %32, %41 ], [ %76, %72 ]
  %45 = phi i32 [ %36, %41 ], [ %75, %72 ]
  %46 = phi i32 [ %34, %41 ], [ %74, %72 ]
  %47 = phi i32 [ %33, %41 ], [ %73, %72 ]
  %48 = icmp slt i32 %46, %36
  br i1 %48, label %53, label %49

49:                                               ; preds = %43
  %50 = sext i32 %45 to i64
  %51 = getelementptr inbounds i64, ptr @first, i64 %50
  %52 = load i64, ptr %51, align 8, !tbaa !3
  br label %66

53:                                               ; preds = %43
  %54 = icmp slt i32 %45, %39
  %55 = sext i32 %46 to i64
  %56 = getelementptr inbounds i64, ptr @first, i64 %55
  %57 = load i64, ptr %56, align 8, !tbaa !3
  br i1 %54, label %58, label %63

58:                                               ; preds = %53
  %59 = sext i32 %45 to i64
  %60 = getelementptr inbounds i64, ptr @first, i64 %59
  %61 = load i64, ptr %60, align 8, !tbaa !3
  %62 = icmp ugt i64 %57, %61
  br i1 %62, label %66, label %63

63:                                               ; preds = %58, %53
  %64 = add nsw i32 %46, 1
  %65 = getelementptr inbounds i64, ptr @second, i64 %44
  store i64 %57, ptr %65, align 8, !tbaa !3
  br label %72

66:                                               ; preds = %58, %49
  %67 = phi i64 [ %52, %49 ], [ %61, %58 ]
  %68 = add nsw i32 %45, 1
  %69 = getelementptr inbounds i64, ptr @second, i64 %44
  store i64 %67, ptr %69, align 8, !tbaa !3
  %70 = zext i1 %48 to i32
  %71 = add nsw i32 %47, %70
  br label %72

72:                                               ; preds = %66, %63
  %73 = phi i32 [ %47, %63 ], [ %71, %66 ]
  %74 = phi i32 [ %64, %63 ], [ %46, %66 ]
  %75 = phi i32 [ %45, %63 ], [ %68, %66 ]
  %76 = add nuw nsw i64 %44, 1
  %77 = icmp ult i64 %76, %42
  br i1 %77, label %43, label %28, !llvm.loop !10

78:                                               ; preds = %28
  %79 = add nsw i32 %29, %25
  tail call void @llvm.memcpy.p0.p0.i64(ptr noundef nonnull align 16 dereferenceable(2400) @first, ptr noundef nonnull align 16 dereferenceable(2400) @second, i64 2400, i1 false)
  %80 = icmp ult i32 %24, 150
  br i1 %80, label %23, label %21, !llvm.loop !11

81:                                               ; preds = %100
  %82 = add nuw nsw i64 %102, 1
  %83 = getelementptr inbounds [300 x i64], ptr @first, i64 0, i64 %82
  %84 = load i64, ptr %83, align 8, !tbaa !3
  %85 = icmp ugt i64 %104, %84
  br i1 %85, label %110, label %86

86:                                               ; preds = %81
  %87 = add nuw nsw i64 %102, 2
  %88 = getelementptr inbounds [300 x i64], ptr @first, i64 0, i64 %87
  %89 = load i64, ptr %88, align 8, !tbaa !3
  %90 = icmp ugt i64 %84, %89
  br i1 %90, label %110, label %91

91:                                               ; preds = %86
  %92 = add nuw nsw i64 %102, 3
  %93 = icmp eq i64 %92, 300
  br i1 %93, label %106, label %94, !llvm.loop !12

94:                                               ; preds = %91
  %95 = getelementptr inbounds [300 x i64], ptr @first, i64 0, i64 %92
  %96 = load i64, ptr %95, align 8, !tbaa !3
  %97 = icmp ugt i64 %89, %96
  br i1 %97, label %110, label %98

98:                                               ; preds = %94
  %99 = add nuw nsw i64 %102, 4
  br label %100

100:                                              ; preds = %98, %21
  %101 = phi i64 [ %22, %21 ], [ %96, %98 ]
  %102 = phi i64 [ 1, %21 ], [ %99, %98 ]
  %103 = getelementptr inbounds [300 x i64], ptr @first, i64 0, i64 %102
  %104 = load i64, ptr %103, align 8, !tbaa !3
  %105 = icmp ugt i64 %101, %104
  br i1 %105, label %110, label %81

106:                                              ; preds = %91
  %107 = load i64, ptr getelementptr inbounds (i8, ptr @first, i64 2392), align 8, !tbaa !3
  %108 = tail call i32 (ptr, ...) @printf(ptr noundef nonnull dereferenceable(1) @.str, i64 noundef %22, i64 noundef %107, i32 noundef %79) #4
  %109 = and i32 %79, 127
  br label %110

110:                                              ; preds = %100, %81, %86, %94, %106
  %111 = phi i32 [ %109, %106 ], [ 255, %94 ], [ 255, %86 ], [ 255, %81 ], [ 255, %100 ]
  ret i32 %111
}

; Function Attrs: mustprogress nocallback nofree nounwind willreturn memory(argmem: readwrite)
declare void @llvm.memcpy.p0.p0.i64(ptr noalias nocapture writeonly, ptr noalias nocapture readonly, i64, i1 immarg) #1

; Function Attrs: nofree nounwind
declare dso_local noundef i32 @printf(ptr nocapture noundef readonly, ...) local_unnamed_addr #2

; Function Attrs: nocallback nofree nosync nounwind speculatable willreturn memory(none)
declare i32 @llvm.smin.i32(i32, i32) #3

attributes #0 = { nofree nounwind uwtable "min-legal-vector-width"="0" "no-builtin-calloc" "no-trapping-math"="true" "stack-protector-buffer-size"="8" "target-cpu"="x86-64" "target-features"="+cmov,+cx8,+fxsr,-aes,-avx,-avx10.1-256,-avx10.1-512,-avx2,-avx512bf16,-avx512bitalg,-avx512bw,-avx512cd,-avx512dq,-avx512f,-avx512fp16,-avx512ifma,-avx512vbmi,-avx512vbmi2,-avx512vl,-avx512vnni,-avx512vp2intersect,-avx512vpopcntdq,-avxifma,-avxneconvert,-avxvnni,-avxvnniint16,-avxvnniint8,-f16c,-fma,-fma4,-gfni,-kl,-mmx,-pclmul,-sha,-sha512,-sm3,-sm4,-sse,-sse2,-sse3,-sse4.1,-sse4.2,-sse4a,-ssse3,-vaes,-vpclmulqdq,-widekl,-x87,-xop" "tune-cpu"="generic" }
attributes #1 = { mustprogress nocallback nofree nounwind willreturn memory(argmem: readwrite) }
attributes #2 = { nofree nounwind "no-builtin-calloc" "no-trapping-math"="true" "stack-protector-buffer-size"="8" "target-cpu"="x86-64" "target-features"="+cmov,+cx8,+fxsr,-aes,-avx,-avx10.1-256,-avx10.1-512,-avx2,-avx512bf16,-avx512bitalg,-avx512bw,-avx512cd,-avx512dq,-avx512f,-avx512fp16,-avx512ifma,-avx512vbmi,-avx512vbmi2,-avx512vl,-avx512vnni,-avx512vp2intersect,-avx512vpopcntdq,-avxifma,-avxneconvert,-avxvnni,-avxvnniint16,-avxvnniint8,-f16c,-fma,-fma4,-gfni,-kl,-mmx,-pclmul,-sha,-sha512,-sm3,-sm4,-sse,-sse2,-sse3,-sse4.1,-sse4.2,-sse4a,-ssse3,-vaes,-vpclmulqdq,-widekl,-x87,-xop" "tune-cpu"="generic" }
attributes #3 = { nocallback nofree nosync nounwind speculatable willreturn memory(none) }
attributes #4 = { "no-builtin-calloc" }

!llvm.module.flags = !{!0, !1}
!llvm.ident = !{!2}

!0 = !{i32 1, !"wchar_size", i32 4}
!1 = !{i32 7, !"uwtable", i32 2}
!2 = !{!"Debian clang version 19.1.7 (3~deb12u1)"}
!3 = !{!4, !4, i64 0}
!4 = !{!"long", !5, i64 0}
!5 = !{!"omnipotent char", !6, i64 0}
!6 = !{!"Simple C/C++ TBAA"}
!7 = distinct !{!7, !8}
!8 = !{!"llvm.loop.mustprogress"}
!9 = distinct !{!9, !8}
!10 = distinct !{!10, !8}
!11 = distinct !{!11, !8}
!12 = distinct !{!12, !8}
