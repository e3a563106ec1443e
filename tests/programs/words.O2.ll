; ModuleID = 'words.c'
source_filename = "words.c"
target datalayout = "e-m:e-p270:32:32-p271:32:32-p272:64:64-i64:64-i128:128-f80:128-n8:16:32:64-S128"
target triple = "x86_64-pc-linux-gnu"

%struct.Word = type { [12 x i8], i32 }

@text = internal constant [74 x i8] c"The cat and the dog and THE bird; a cat, a Dog, an owl: and then the end.\00", align 16
@known = internal unnamed_addr global i32 0, align 4
@.str = private unnamed_addr constant [9 x i8] c"%-6s%2d\0A\00", align 1
@words = internal global [20 x %struct.Word] zeroinitializer, align 16

; Function Attrs: nofree nounwind uwtable
define dso_local range(i32 -2147483645, -2147483648) i32 @main() local_unnamed_addr #0 {
  %1 = alloca [12 x i8], align 1
  br label %5

2:                                                ; preds = %14
  %3 = load i32, ptr @known, align 4, !tbaa !3
  %4 = icmp sgt i32 %3, 0
  br i1 %4, label %148, label %144

5:                                                ; preds = %0, %14
  %6 = phi i8 [ 84, %0 ], [ %15, %14 ]
  %7 = phi ptr [ @text, %0 ], [ %16, %14 ]
  %8 = and i8 %6, -33
  %9 = add i8 %8, -91
  %10 = icmp ult i8 %9, -26
  br i1 %10, label %11, label %18

11:                                               ; preds = %5
  %12 = getelementptr inbounds i8, ptr %7, i64 1
  %13 = load i8, ptr %12, align 1, !tbaa !7
  br label %14

14:                                               ; preds = %11, %140
  %15 = phi i8 [ %20, %140 ], [ %13, %11 ]
  %16 = phi ptr [ %19, %140 ], [ %12, %11 ]
  %17 = icmp eq i8 %15, 0
  br i1 %17, label %2, label %5, !llvm.loop !8

18:                                               ; preds = %5, %18
  %19 = phi ptr [ %24, %18 ], [ %7, %5 ]
  %20 = load i8, ptr %19, align 1, !tbaa !7
  %21 = and i8 %20, -33
  %22 = add i8 %21, -91
  %23 = icmp ult i8 %22, -26
  %24 = getelementptr inbounds i8, ptr %19, i64 1
  br i1 %23, label %25, label %18, !llvm.loop !10

25:                                               ; preds = %18
  %26 = ptrtoint ptr %19 to i64
  %27 = ptrtoint ptr %7 to i64
  %28 = sub i64 %26, %27
  call void @llvm.lifetime.start.p0(i64 12, ptr nonnull %1) #6
  call void @llvm.memset.p0.i64(ptr noundef nonnull align 1 dereferenceable(12) %1, i8 0, i64 12, i1 false)
  %29 = tail call i64 @llvm.umin.i64(i64 %28, i64 11)
  %30 = icmp eq ptr %19, %7
  br i1 %30, label %47, label %31

31:                                               ; preds = %25
  %32 = and i64 %29, 1
  %33 = icmp eq i64 %28, 1
  br i1 %33, label %36, label %34

34:                                               ; preds = %31
  %35 = and i64 %29, 14
  br label %54

36:                                               ; preds = %54, %31
  %37 = phi i64 [ 0, %31 ], [ %72, %54 ]
  %38 = icmp eq i64 %32, 0
  br i1 %38, label %47, label %39

39:                                               ; preds = %36
  %40 = getelementptr inbounds i8, ptr %7, i64 %37
  %41 = load i8, ptr %40, align 1, !tbaa !7
  %42 = add i8 %41, -65
  %43 = icmp ult i8 %42, 26
  %44 = add nuw nsw i8 %41, 32
  %45 = select i1 %43, i8 %44, i8 %41
  %46 = getelementptr inbounds [12 x i8], ptr %1, i64 0, i64 %37
  store i8 %45, ptr %46, align 1, !tbaa !7
  br label %47

47:                                               ; preds = %39, %36, %25
  %48 = load i32, ptr @known, align 4, !tbaa !3
  %49 = icmp sgt i32 %48, 0
  br i1 %49, label %50, label %131

50:                                               ; preds = %47
  %51 = load i8, ptr %1, align 1
  %52 = icmp eq i8 %51, 0
  %53 = zext nneg i32 %48 to i64
  br label %75

54:                                               ; preds = %54, %34
  %55 = phi i64 [ 0, %34 ], [ %72, %54 ]
  %56 = phi i64 [ 0, %34 ], [ %73, %54 ]
  %57 = getelementptr inbounds i8, ptr %7, i64 %55
  %58 = load i8, ptr %57, align 1, !tbaa !7
  %59 = add i8 %58, -65
  %60 = icmp ult i8 %59, 26
  %61 = add nuw nsw i8 %58, 32
  %62 = select i1 %60, i8 %61, i8 %58
  %63 = getelementptr inbounds [12 x i8], ptr %1, i64 0, i64 %55
  store i8 %62, ptr %63, align 1, !tbaa !7
  %64 = or disjoint i64 %55, 1
  %65 = getelementptr inbounds i8, ptr %7, i64 %64
  %66 = load i8, ptr %65, align 1, !tbaa !7
  %67 = add i8 %66, -65
  %68 = icmp ult i8 %67, 26
  %69 = add nuw nsw i8 %66, 32
  %70 = select i1 %68, i8 %69, i8 %66
  %71 = getelementptr inbounds [12 x i8], ptr %1, i64 0, i64 %64
  store i8 %70, ptr %71, align 1, !tbaa !7
  %72 = add nuw nsw i64 %55, 2
  %73 = add i64 %56, 2
  %74 = icmp eq i64 %73, %35
  br i1 %74, label %36, label %54, !llvm.loop !11

75:                                               ; preds = %98, %50
  %76 = phi i64 [ 0, %50 ], [ %99, %98 ]
  %77 = getelementptr inbounds [20 x %struct.Word], ptr @words, i64 0, i64 %76
  %78 = load i8, ptr %77, align 16, !tbaa !7
  %79 = icmp eq i8 %78, 0
  br i1 %79, label %97, label %80

80:                                               ; preds = %75, %86
  %81 = phi i8 [ %89, %86 ], [ %78, %75 ]
  %82 = phi ptr [ %88, %86 ], [ %1, %75 ]
  %83 = phi ptr [ %87, %86 ], [ %77, %75 ]
  %84 = load i8, ptr %82, align 1, !tbaa !7
  %85 = icmp eq i8 %81, %84
  br i1 %85, label %86, label %93

86:                                               ; preds = %80
  %87 = getelementptr inbounds i8, ptr %83, i64 1
  %88 = getelementptr inbounds i8, ptr %82, i64 1
  %89 = load i8, ptr %87, align 1, !tbaa !7
  %90 = icmp eq i8 %89, 0
  br i1 %90, label %91, label %80, !llvm.loop !12

91:                                               ; preds = %86
  %92 = load i8, ptr %88, align 1, !tbaa !7
  br label %93

93:                                               ; preds = %80, %91
  %94 = phi i8 [ %92, %91 ], [ %84, %80 ]
  %95 = phi i8 [ 0, %91 ], [ %81, %80 ]
  %96 = icmp ult i8 %95, %94
  br i1 %96, label %98, label %101

97:                                               ; preds = %75
  br i1 %52, label %101, label %98

98:                                               ; preds = %97, %93
  %99 = add nuw nsw i64 %76, 1
  %100 = icmp eq i64 %99, %53
  br i1 %100, label %131, label %75, !llvm.loop !13

101:                                              ; preds = %97, %93
  %102 = trunc nuw nsw i64 %76 to i32
  %103 = and i64 %76, 4294967295
  %104 = getelementptr inbounds [20 x %struct.Word], ptr @words, i64 0, i64 %103
  %105 = load i8, ptr %104, align 16, !tbaa !7
  %106 = icmp eq i8 %105, 0
  br i1 %106, label %122, label %107

107:                                              ; preds = %101, %113
  %108 = phi i8 [ %116, %113 ], [ %105, %101 ]
  %109 = phi ptr [ %115, %113 ], [ %1, %101 ]
  %110 = phi ptr [ %114, %113 ], [ %104, %101 ]
  %111 = load i8, ptr %109, align 1, !tbaa !7
  %112 = icmp eq i8 %108, %111
  br i1 %112, label %113, label %118

113:                                              ; preds = %107
  %114 = getelementptr inbounds i8, ptr %110, i64 1
  %115 = getelementptr inbounds i8, ptr %109, i64 1
  %116 = load i8, ptr %114, align 1, !tbaa !7
  %117 = icmp eq i8 %116, 0
  br i1 %117, label %118, label %107, !llvm.loop !12

118:                                              ; preds = %113, %107
  %119 = phi ptr [ %109, %107 ], [ %115, %113 ]
  %120 = phi i8 [ %108, %107 ], [ 0, %113 ]
  %121 = zext i8 %120 to i32
  br label %122

122:                                              ; preds = %118, %101
  %123 = phi ptr [ %1, %101 ], [ %119, %118 ]
  %124 = phi i32 [ 0, %101 ], [ %121, %118 ]
  %125 = load i8, ptr %123, align 1, !tbaa !7
  %126 = zext i8 %125 to i32
  %127 = icmp eq i32 %124, %126
  br i1 %127, label %128, label %131

128:                                              ; preds = %122
  %129 = getelementptr inbounds i8, ptr %104, i64 12
  %130 = load i32, ptr %129, align 4, !tbaa !14
  br label %140

131:                                              ; preds = %98, %122, %47
  %132 = phi i32 [ %102, %122 ], [ 0, %47 ], [ %48, %98 ]
  %133 = zext nneg i32 %132 to i64
  %134 = getelementptr inbounds %struct.Word, ptr @words, i64 %133
  %135 = getelementptr inbounds i8, ptr %134, i64 16
  %136 = sub nsw i32 %48, %132
  %137 = sext i32 %136 to i64
  %138 = shl nsw i64 %137, 4
  tail call void @llvm.memmove.p0.p0.i64(ptr nonnull align 16 %135, ptr nonnull align 16 %134, i64 %138, i1 false)
  call void @llvm.memcpy.p0.p0.i64(ptr noundef nonnull align 16 dereferenceable(12) %134, ptr noundef nonnull align 1 dereferenceable(12) %1, i64 12, i1 false)
  %139 = getelementptr inbounds i8, ptr %134, i64 12
  store i32 1, ptr %139, align 4, !tbaa !14
  br label %140

140:                                              ; preds = %128, %131
  %141 = phi i32 [ %48, %131 ], [ %130, %128 ]
  %142 = phi ptr [ @known, %131 ], [ %129, %128 ]
  %143 = add nsw i32 %141, 1
  store i32 %143, ptr %142, align 4, !tbaa !3
  call void @llvm.lifetime.end.p0(i64 12, ptr nonnull %1) #6
  br label %14

144:                                              ; preds = %148, %2
  %145 = phi i32 [ %3, %2 ], [ %155, %148 ]
  %146 = mul nsw i32 %145, 10
  %147 = add nsw i32 %146, 3
  ret i32 %147

148:                                              ; preds = %2, %148
  %149 = phi i64 [ %154, %148 ], [ 0, %2 ]
  %150 = getelementptr inbounds [20 x %struct.Word], ptr @words, i64 0, i64 %149
  %151 = getelementptr inbounds i8, ptr %150, i64 12
  %152 = load i32, ptr %151, align 4, !tbaa !14
  %153 = tail call i32 (ptr, ...) @printf(ptr noundef nonnull dereferenceable(1) @.str, ptr noundef nonnull %150, i32 noundef %152) #7
  %154 = add nuw nsw i64 %149, 1
  %155 = load i32, ptr @known, align 4, !tbaa !3
  %156 = sext i32 %155 to i64
  %157 = icmp slt i64 %154, %156
  br i1 %157, label %148, label %144, !llvm.loop !16
}

; Function Attrs: mustprogress nocallback nofree nosync nounwind willreturn memory(argmem: readwrite)
declare void @llvm.lifetime.start.p0(i64 immarg, ptr nocapture) #1

; Function Attrs: mustprogress nocallback nofree nosync nounwind willreturn memory(argmem: readwrite)
declare void @llvm.lifetime.end.p0(i64 immarg, ptr nocapture) #1

; Function Attrs: nofree nounwind
declare dso_local noundef i32 @printf(ptr nocapture noundef readonly, ...) local_unnamed_addr #2

; Function Attrs: mustprogress nocallback nofree nounwind willreturn memory(argmem: write)
declare void @llvm.memset.p0.i64(ptr nocapture writeonly, i8, i64, i1 immarg) #3

; Function Attrs: mustprogress nocallback nofree nounwind willreturn memory(argmem: readwrite)
declare void @llvm.memmove.p0.p0.i64(ptr nocapture writeonly, ptr nocapture readonly, i64, i1 immarg) #4

; Function Attrs: mustprogress nocallback nofree nounwind willreturn memory(argmem: readwrite)
declare void @llvm.memcpy.p0.p0.i64(ptr noalias nocapture writeonly, ptr noalias nocapture readonly, i64, i1 immarg) #4

; Function Attrs: nocallback nofree nosync nounwind speculatable willreturn memory(none)
declare i64 @llvm.umin.i64(i64, i64) #5

attributes #0 = { nofree nounwind uwtable "min-legal-vector-width"="0" "no-builtin-calloc" "no-trapping-math"="true" "stack-protector-buffer-size"="8" "target-cpu"="x86-64" "target-features"="+cmov,+cx8,+fxsr,-aes,-avx,-avx10.1-256,-avx10.1-512,-avx2,-avx512bf16,-avx512bitalg,-avx512bw,-avx512cd,-avx512dq,-avx512f,-avx512fp16,-avx512ifma,-avx512vbmi,-avx512vbmi2,-avx512vl,-avx512vnni,-avx512vp2intersect,-avx512vpopcntdq,-avxifma,-avxneconvert,-avxvnni,-avxvnniint16,-avxvnniint8,-f16c,-fma,-fma4,-gfni,-kl,-mmx,-pclmul,-sha,-sha512,-sm3,-sm4,-sse,-sse2,-sse3,-sse4.1,-sse4.2,-sse4a,-ssse3,-vaes,-vpclmulqdq,-widekl,-x87,-xop" "tune-cpu"="generic" }
attributes #1 = { mustprogress nocallback nofree nosync nounwind willreturn memory(argmem: readwrite) }
attributes #2 = { nofree nounwind "no-builtin-calloc" "no-trapping-math"="true" "stack-protector-buffer-size"="8" "target-cpu"="x86-64" "target-features"="+cmov,+cx8,+fxsr,-aes,-avx,-avx10.1-256,-avx10.1-512,-avx2,-avx512bf16,-avx512bitalg,-avx512bw,-avx512cd,-avx512dq,-avx512f,-avx512fp16,-avx512ifma,-avx512vbmi,-avx512vbmi2,-avx512vl,-avx512vnni,-avx512vp2intersect,-avx512vpopcntdq,-avxifma,-avxneconvert,-avxvnni,-avxvnniint16,-avxvnniint8,-f16c,-fma,-fma4,-gfni,-kl,-mmx,-pclmul,-sha,-sha512,-sm3,-sm4,-sse,-sse2,-sse3,-sse4.1,-sse4.2,-sse4a,-ssse3,-vaes,-vpclmulqdq,-widekl,-x87,-xop" "tune-cpu"="generic" }
attributes #3 = { mustprogress nocallback nofree nounwind willreturn memory(argmem: write) }
attributes #4 = { mustprogress nocallback nofree nounwind willreturn memory(argmem: readwrite) }
attributes #5 = { nocallback nofree nosync nounwind speculatable willreturn memory(none) }
attributes #6 = { nounwind }
attributes #7 = { "no-builtin-calloc" }

!llvm.module.flags = !{!0, !1}
!llvm.ident = !{!2}

!0 = !{i32 1, !"wchar_size", i32 4}
!1 = !{i32 7, !"uwtable", i32 2}
!2 = !{!"Debian clang version 19.1.7 (3~deb12u1)"}
!3 = !{!4, !4, i64 0}
!4 = !{!"int", !5, i64 0}
!5 = !{!"omnipotent char", !6, i64 0}
!6 = !{!"Simple C/C++ TBAA"}
!7 = !{!5, !5, i64 0}
!8 = distinct !{!8, !9}
!9 = !{!"llvm.loop.mustprogress"}
!10 = distinct !{!10, !9}
!11 = distinct !{!11, !9}
!12 = distinct !{!12, !9}
!13 = distinct !{!13, !9}
!14 = !{!15, !4, i64 12}
!15 = !{!"", !5, i64 0, !4, i64 12}
!16 = distinct !{!16, !9}
