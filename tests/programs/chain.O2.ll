; ModuleID = 'chain.c'
source_filename = "chain.c"
target datalayout = "e-m:e-p270:32:32-p271:32:32-p272:64:64-i64:64-i128:128-f80:128-n8:16:32:64-S128"
target triple = "x86_64-pc-linux-gnu"

@__const.main.between = private unnamed_addr constant [3 x i8] c", \00", align 1
@.str = private unnamed_addr constant [13 x i8] c"%ld %ld %ld\0A\00", align 1
@.str.1 = private unnamed_addr constant [6 x i8] c"%s%ld\00", align 1
@.str.2 = private unnamed_addr constant [1 x i8] zeroinitializer, align 1

; Function Attrs: nounwind uwtable
define dso_local i32 @main() local_unnamed_addr #0 {
  %1 = alloca ptr, align 8
  %2 = alloca [3 x i8], align 1
  %3 = tail call noalias dereferenceable_or_null(16) ptr @malloc(i64 noundef 16) #8
  %4 = icmp eq ptr %3, null
  br i1 %4, label %5, label %6

5:                                                ; preds = %38, %34, %30, %26, %22, %18, %14, %10, %6, %0
  tail call void @exit(i32 noundef 3) #9
  unreachable

6:                                                ; preds = %0
  store i64 19, ptr %3, align 8, !tbaa !3
  %7 = getelementptr inbounds i8, ptr %3, i64 8
  store ptr null, ptr %7, align 8, !tbaa !9
  %8 = tail call noalias dereferenceable_or_null(16) ptr @malloc(i64 noundef 16) #8
  %9 = icmp eq ptr %8, null
  br i1 %9, label %5, label %10

10:                                               ; preds = %6
  store i64 17, ptr %8, align 8, !tbaa !3
  %11 = getelementptr inbounds i8, ptr %8, i64 8
  store ptr %3, ptr %11, align 8, !tbaa !9
  %12 = tail call noalias dereferenceable_or_null(16) ptr @malloc(i64 noundef 16) #8
  %13 = icmp eq ptr %12, null
  br i1 %13, label %5, label %14

14:                                               ; preds = %10
  store i64 15, ptr %12, align 8, !tbaa !3
  %15 = getelementptr inbounds i8, ptr %12, i64 8
  store ptr %8, ptr %15, align 8, !tbaa !9
  %16 = tail call noalias dereferenceable_or_null(16) ptr @malloc(i64 noundef 16) #8
  %17 = icmp eq ptr %16, null
  br i1 %17, label %5, label %18

18:                                               ; preds = %14
  store i64 13, ptr %16, align 8, !tbaa !3
  %19 = getelementptr inbounds i8, ptr %16, i64 8
  store ptr %12, ptr %19, align 8, !tbaa !9
  %20 = tail call noalias dereferenceable_or_null(16) ptr @malloc(i64 noundef 16) #8
  %21 = icmp eq ptr %20, null
  br i1 %21, label %5, label %22

22:                                               ; preds = %18
  store i64 11, ptr %20, align 8, !tbaa !3
  %23 = getelementptr inbounds i8, ptr %20, i64 8
  store ptr %16, ptr %23, align 8, !tbaa !9
  %24 = tail call noalias dereferenceable_or_null(16) ptr @malloc(i64 noundef 16) #8
  %25 = icmp eq ptr %24, null
  br i1 %25, label %5, label %26

26:                                               ; preds = %22
  store i64 9, ptr %24, align 8, !tbaa !3
  %27 = getelementptr inbounds i8, ptr %24, i64 8
  store ptr %20, ptr %27, align 8, !tbaa !9
  %28 = tail call noalias dereferenceable_or_null(16) ptr @malloc(i64 noundef 16) #8
  %29 = icmp eq ptr %28, null
  br i1 %29, label %5, label %30

30:                                               ; preds = %26
  store i64 7, ptr %28, align 8, !tbaa !3
  %31 = getelementptr inbounds i8, ptr %28, i64 8
  store ptr %24, ptr %31, align 8, !tbaa !9
  %32 = tail call noalias dereferenceable_or_null(16) ptr @malloc(i64 noundef 16) #8
  %33 = icmp eq ptr %32, null
  br i1 %33, label %5, label %34

34:                                               ; preds = %30
  store i64 5, ptr %32, align 8, !tbaa !3
  %35 = getelementptr inbounds i8, ptr %32, i64 8
  store ptr %28, ptr %35, align 8, !tbaa !9
  %36 = tail call noalias dereferenceable_or_null(16) ptr @malloc(i64 noundef 16) #8
  %37 = icmp eq ptr %36, null
  br i1 %37, label %5, label %38

38:                                               ; preds = %34
  store i64 3, ptr %36, align 8, !tbaa !3
  %39 = getelementptr inbounds i8, ptr %36, i64 8
  store ptr %32, ptr %39, align 8, !tbaa !9
  %40 = tail call noalias dereferenceable_or_null(16) ptr @malloc(i64 noundef 16) #8
  %41 = icmp eq ptr %40, null
  br i1 %41, label %5, label %42

42:                                               ; preds = %38
  store i64 1, ptr %40, align 8, !tbaa !3
  %43 = getelementptr inbounds i8, ptr %40, i64 8
  store ptr %36, ptr %43, align 8, !tbaa !9
  %44 = tail call noalias dereferenceable_or_null(16) ptr @malloc(i64 noundef 16) #8
  %45 = icmp eq ptr %44, null
  br i1 %45, label %115, label %116

46:                                               ; preds = %135
  store i64 36, ptr %137, align 8, !tbaa !3
  %47 = getelementptr inbounds i8, ptr %137, i64 8
  store ptr %133, ptr %47, align 8, !tbaa !9
  br label %48

48:                                               ; preds = %46, %48
  %49 = phi ptr [ %52, %48 ], [ %137, %46 ]
  %50 = phi ptr [ %49, %48 ], [ null, %46 ]
  %51 = getelementptr inbounds i8, ptr %49, i64 8
  %52 = load ptr, ptr %51, align 8, !tbaa !9
  store ptr %50, ptr %51, align 8, !tbaa !9
  %53 = icmp eq ptr %52, null
  br i1 %53, label %54, label %48, !llvm.loop !10

54:                                               ; preds = %48
  call void @llvm.lifetime.start.p0(i64 8, ptr nonnull %1)
  store ptr null, ptr %1, align 8, !tbaa !12
  br label %55

55:                                               ; preds = %54, %55
  %56 = phi ptr [ %63, %55 ], [ %1, %54 ]
  %57 = phi ptr [ %66, %55 ], [ %49, %54 ]
  %58 = phi ptr [ %65, %55 ], [ %40, %54 ]
  %59 = load i64, ptr %58, align 8, !tbaa !3
  %60 = load i64, ptr %57, align 8, !tbaa !3
  %61 = icmp sgt i64 %59, %60
  %62 = select i1 %61, ptr %57, ptr %58
  store ptr %62, ptr %56, align 8, !tbaa !12
  %63 = getelementptr inbounds i8, ptr %62, i64 8
  %64 = load ptr, ptr %63, align 8, !tbaa !9
  %65 = select i1 %61, ptr %58, ptr %64
  %66 = select i1 %61, ptr %64, ptr %57
  %67 = icmp ne ptr %65, null
  %68 = icmp ne ptr %66, null
  %69 = select i1 %67, i1 %68, i1 false
  br i1 %69, label %55, label %70, !llvm.loop !13

70:                                               ; preds = %55
  %71 = load ptr, ptr %1, align 8, !tbaa !12
  %72 = select i1 %67, ptr %65, ptr %66
  store ptr %72, ptr %63, align 8, !tbaa !12
  call void @llvm.lifetime.end.p0(i64 8, ptr nonnull %1)
  call void @llvm.lifetime.start.p0(i64 3, ptr nonnull %2) #10
  call void @llvm.memcpy.p0.p0.i64(ptr noundef nonnull align 1 dereferenceable(3) %2, ptr noundef nonnull align 1 dereferenceable(3) @__const.main.between, i64 3, i1 false)
  %73 = icmp eq ptr %71, null
  br i1 %73, label %80, label %74

74:                                               ; preds = %70
  %75 = load i64, ptr %71, align 8, !tbaa !3
  %76 = tail call i32 (ptr, ...) @printf(ptr noundef nonnull dereferenceable(1) @.str.1, ptr noundef nonnull @.str.2, i64 noundef %75) #11
  %77 = getelementptr inbounds i8, ptr %71, i64 8
  %78 = load ptr, ptr %77, align 8, !tbaa !9
  %79 = icmp eq ptr %78, null
  br i1 %79, label %92, label %83

80:                                               ; preds = %70
  %81 = tail call i32 @putchar(i32 noundef 10) #11
  %82 = tail call i32 (ptr, ...) @printf(ptr noundef nonnull dereferenceable(1) @.str, i64 noundef 0, i64 noundef 0, i64 noundef 1) #11
  br label %144

83:                                               ; preds = %74, %83
  %84 = phi ptr [ %90, %83 ], [ %78, %74 ]
  %85 = phi i64 [ %88, %83 ], [ 1, %74 ]
  %86 = load i64, ptr %84, align 8, !tbaa !3
  %87 = call i32 (ptr, ...) @printf(ptr noundef nonnull dereferenceable(1) @.str.1, ptr noundef nonnull %2, i64 noundef %86) #11
  %88 = add nuw nsw i64 %85, 1
  %89 = getelementptr inbounds i8, ptr %84, i64 8
  %90 = load ptr, ptr %89, align 8, !tbaa !9
  %91 = icmp eq ptr %90, null
  br i1 %91, label %92, label %83, !llvm.loop !14

92:                                               ; preds = %83, %74
  %93 = phi i64 [ 1, %74 ], [ %88, %83 ]
  %94 = call i32 @putchar(i32 noundef 10) #11
  br label %95

95:                                               ; preds = %92, %95
  %96 = phi ptr [ %101, %95 ], [ %71, %92 ]
  %97 = phi i64 [ %99, %95 ], [ 0, %92 ]
  %98 = load i64, ptr %96, align 8, !tbaa !3
  %99 = add nsw i64 %98, %97
  %100 = getelementptr inbounds i8, ptr %96, i64 8
  %101 = load ptr, ptr %100, align 8, !tbaa !9
  %102 = icmp eq ptr %101, null
  br i1 %102, label %103, label %95, !llvm.loop !16

103:                                              ; preds = %95, %103
  %104 = phi ptr [ %111, %103 ], [ %71, %95 ]
  %105 = phi i64 [ %109, %103 ], [ 1, %95 ]
  %106 = load i64, ptr %104, align 8, !tbaa !3
  %107 = mul nsw i64 %105, 31
  %108 = add nsw i64 %107, %106
  %109 = srem i64 %108, 10007
  %110 = getelementptr inbounds i8, ptr %104, i64 8
  %111 = load ptr, ptr %110, align 8, !tbaa !9
  %112 = icmp eq ptr %111, null
  br i1 %112, label %113, label %103, !llvm.loop !16

113:                                              ; preds = %103
  %114 = call i32 (ptr, ...) @printf(ptr noundef nonnull dereferenceable(1) @.str, i64 noundef %93, i64 noundef %99, i64 noundef %109) #11
  br i1 %73, label %144, label %139

115:                                              ; preds = %135, %131, %127, %123, %119, %116, %42
  tail call void @exit(i32 noundef 3) #9
  unreachable

116:                                              ; preds = %42
  %117 = tail call noalias dereferenceable_or_null(16) ptr @malloc(i64 noundef 16) #8
  %118 = icmp eq ptr %117, null
  tail call void @llvm.memset.p0.i64(ptr noundef nonnull align 8 dereferenceable(16) %44, i8 0, i64 16, i1 false)
  br i1 %118, label %115, label %119

119:                                              ; preds = %116
  store i64 1, ptr %117, align 8, !tbaa !3
  %120 = getelementptr inbounds i8, ptr %117, i64 8
  store ptr %44, ptr %120, align 8, !tbaa !9
  %121 = tail call noalias dereferenceable_or_null(16) ptr @malloc(i64 noundef 16) #8
  %122 = icmp eq ptr %121, null
  br i1 %122, label %115, label %123

123:                                              ; preds = %119
  store i64 4, ptr %121, align 8, !tbaa !3
  %124 = getelementptr inbounds i8, ptr %121, i64 8
  store ptr %117, ptr %124, align 8, !tbaa !9
  %125 = tail call noalias dereferenceable_or_null(16) ptr @malloc(i64 noundef 16) #8
  %126 = icmp eq ptr %125, null
  br i1 %126, label %115, label %127

127:                                              ; preds = %123
  store i64 9, ptr %125, align 8, !tbaa !3
  %128 = getelementptr inbounds i8, ptr %125, i64 8
  store ptr %121, ptr %128, align 8, !tbaa !9
  %129 = tail call noalias dereferenceable_or_null(16) ptr @malloc(i64 noundef 16) #8
  %130 = icmp eq ptr %129, null
  br i1 %130, label %115, label %131

131:                                              ; preds = %127
  store i64 16, ptr %129, align 8, !tbaa !3
  %132 = getelementptr inbounds i8, ptr %129, i64 8
  store ptr %125, ptr %132, align 8, !tbaa !9
  %133 = tail call noalias dereferenceable_or_null(16) ptr @malloc(i64 noundef 16) #8
  %134 = icmp eq ptr %133, null
  br i1 %134, label %115, label %135

135:                                              ; preds = %131
  store i64 25, ptr %133, align 8, !tbaa !3
  %136 = getelementptr inbounds i8, ptr %133, i64 8
  store ptr %129, ptr %136, align 8, !tbaa !9
  %137 = tail call noalias dereferenceable_or_null(16) ptr @malloc(i64 noundef 16) #8
  %138 = icmp eq ptr %137, null
  br i1 %138, label %115, label %46

139:                                              ; preds = %113, %139
  %140 = phi ptr [ %142, %139 ], [ %71, %113 ]
  %141 = getelementptr inbounds i8, ptr %140, i64 8
  %142 = load ptr, ptr %141, align 8, !tbaa !9
  call void @free(ptr noundef nonnull %140) #12
  %143 = icmp eq ptr %142, null
  br i1 %143, label %144, label %139, !llvm.loop !17

144:                                              ; preds = %139, %80, %113
  %145 = phi i64 [ 0, %80 ], [ %93, %113 ], [ %93, %139 ]
  %146 = trunc i64 %145 to i32
  call void @llvm.lifetime.end.p0(i64 3, ptr nonnull %2) #10
  ret i32 %146
}

; Function Attrs: mustprogress nocallback nofree nosync nounwind willreturn memory(argmem: readwrite)
declare void @llvm.lifetime.start.p0(i64 immarg, ptr nocapture) #1

; Function Attrs: mustprogress nocallback nofree nosync nounwind willreturn memory(argmem: readwrite)
declare void @llvm.lifetime.end.p0(i64 immarg, ptr nocapture) #1

; Function Attrs: mustprogress nocallback nofree nounwind willreturn memory(argmem: readwrite)
declare void @llvm.memcpy.p0.p0.i64(ptr noalias nocapture writeonly, ptr noalias nocapture readonly, i64, i1 immarg) #2

; Function Attrs: nofree nounwind
declare dso_local noundef i32 @putchar(i32 noundef) local_unnamed_addr #3

; Function Attrs: nofree nounwind
declare dso_local noundef i32 @printf(ptr nocapture noundef readonly, ...) local_unnamed_addr #3

; Function Attrs: mustprogress nounwind willreturn allockind("free") memory(argmem: readwrite, inaccessiblemem: readwrite)
declare dso_local void @free(ptr allocptr nocapture noundef) local_unnamed_addr #4

; Function Attrs: mustprogress nofree nounwind willreturn allockind("alloc,uninitialized") allocsize(0) memory(inaccessiblemem: readwrite)
declare dso_local noalias noundef ptr @malloc(i64 noundef) local_unnamed_addr #5

; Function Attrs: noreturn nounwind
declare dso_local void @exit(i32 noundef) local_unnamed_addr #6

; Function Attrs: nocallback nofree nounwind willreturn memory(argmem: write)
declare void @llvm.memset.p0.i64(ptr nocapture writeonly, i8, i64, i1 immarg) #7

attributes #0 = { nounwind uwtable "min-legal-vector-width"="0" "no-builtin-calloc" "no-trapping-math"="true" "stack-protector-buffer-size"="8" "target-cpu"="x86-64" "target-features"="+cmov,+cx8,+fxsr,-aes,-avx,-avx10.1-256,-avx10.1-512,-avx2,-avx512bf16,-avx512bitalg,-avx512bw,-avx512cd,-avx512dq,-avx512f,-avx512fp16,-avx512ifma,-avx512vbmi,-avx512vbmi2,-avx512vl,-avx512vnni,-avx512vp2intersect,-avx512vpopcntdq,-avxifma,-avxneconvert,-avxvnni,-avxvnniint16,-avxvnniint8,-f16c,-fma,-fma4,-gfni,-kl,-mmx,-pclmul,-sha,-sha512,-sm3,-sm4,-sse,-sse2,-sse3,-sse4.1,-sse4.2,-sse4a,-ssse3,-vaes,-vpclmulqdq,-widekl,-x87,-xop" "tune-cpu"="generic" }
attributes #1 = { mustprogress nocallback nofree nosync nounwind willreturn memory(argmem: readwrite) }
attributes #2 = { mustprogress nocallback nofree nounwind willreturn memory(argmem: readwrite) }
attributes #3 = { nofree nounwind "no-builtin-calloc" "no-trapping-math"="true" "stack-protector-buffer-size"="8" "target-cpu"="x86-64" "target-features"="+cmov,+cx8,+fxsr,-aes,-avx,-avx10.1-256,-avx10.1-512,-avx2,-avx512bf16,-avx512bitalg,-avx512bw,-avx512cd,-avx512dq,-avx512f,-avx512fp16,-avx512ifma,-avx512vbmi,-avx512vbmi2,-avx512vl,-avx512vnni,-avx512vp2intersect,-avx512vpopcntdq,-avxifma,-avxneconvert,-avxvnni,-avxvnniint16,-avxvnniint8,-f16c,-fma,-fma4,-gfni,-kl,-mmx,-pclmul,-sha,-sha512,-sm3,-sm4,-sse,-sse2,-sse3,-sse4.1,-sse4.2,-sse4a,-ssse3,-vaes,-vpclmulqdq,-widekl,-x87,-xop" "tune-cpu"="generic" }
attributes #4 = { mustprogress nounwind willreturn allockind("free") memory(argmem: readwrite, inaccessiblemem: readwrite) "alloc-family"="malloc" "no-builtin-calloc" "no-trapping-math"="true" "stack-protector-buffer-size"="8" "target-cpu"="x86-64" "target-features"="+cmov,+cx8,+fxsr,-aes,-avx,-avx10.1-256,-avx10.1-512,-avx2,-avx512bf16,-avx512bitalg,-avx512bw,-avx512cd,-avx512dq,-avx512f,-avx512fp16,-avx512ifma,-avx512vbmi,-avx512vbmi2,-avx512vl,-avx512vnni,-avx512vp2intersect,-avx512vpopcntdq,-avxifma,-avxneconvert,-avxvnni,-avxvnniint16,-avxvnniint8,-f16c,-fma,-fma4,-gfni,-kl,-mmx,-pclmul,-sha,-sha512,-sm3,-sm4,-sse,-sse2,-sse3,-sse4.1,-sse4.2,-sse4a,-ssse3,-vaes,-vpclmulqdq,-widekl,-x87,-xop" "tune-cpu"="generic" }
attributes #5 = { mustprogress nofree nounwind willreturn allockind("alloc,uninitialized") allocsize(0) memory(inaccessiblemem: readwrite) "alloc-family"="malloc" "no-builtin-calloc" "no-trapping-math"="true" "stack-protector-buffer-size"="8" "target-cpu"="x86-64" "target-features"="+cmov,+cx8,+fxsr,-aes,-avx,-avx10.1-256,-avx10.1-512,-avx2,-avx512bf16,-avx512bitalg,-avx512bw,-avx512cd,-avx512dq,-avx512f,-avx512fp16,-avx512ifma,-avx512vbmi,-avx512vbmi2,-avx512vl,-avx512vnni,-avx512vp2intersect,-avx512vpopcntdq,-avxifma,-avxneconvert,-avxvnni,-avxvnniint16,-avxvnniint8,-f16c,-fma,-fma4,-gfni,-kl,-mmx,-pclmul,-sha,-sha512,-sm3,-sm4,-sse,-sse2,-sse3,-sse4.1,-sse4.2,-sse4a,-ssse3,-vaes,-vpclmulqdq,-widekl,-x87,-xop" "tune-cpu"="generic" }
attributes #6 = { noreturn nounwind "no-builtin-calloc" "no-trapping-math"="true" "stack-protector-buffer-size"="8" "target-cpu"="x86-64" "target-features"="+cmov,+cx8,+fxsr,-aes,-avx,-avx10.1-256,-avx10.1-512,-avx2,-avx512bf16,-avx512bitalg,-avx512bw,-avx512cd,-avx512dq,-avx512f,-avx512fp16,-avx512ifma,-avx512vbmi,-avx512vbmi2,-avx512vl,-avx512vnni,-avx512vp2intersect,-avx512vpopcntdq,-avxifma,-avxneconvert,-avxvnni,-avxvnniint16,-avxvnniint8,-f16c,-fma,-fma4,-gfni,-kl,-mmx,-pclmul,-sha,-sha512,-sm3,-sm4,-sse,-sse2,-sse3,-sse4.1,-sse4.2,-sse4a,-ssse3,-vaes,-vpclmulqdq,-widekl,-x87,-xop" "tune-cpu"="generic" }
attributes #7 = { nocallback nofree nounwind willreturn memory(argmem: write) }
attributes #8 = { nounwind allocsize(0) "no-builtin-calloc" }
attributes #9 = { noreturn nounwind "no-builtin-calloc" }
attributes #10 = { nounwind }
attributes #11 = { "no-builtin-calloc" }
attributes #12 = { nounwind "no-builtin-calloc" }

!llvm.module.flags = !{!0, !1}
!llvm.ident = !{!2}

!0 = !{i32 1, !"wchar_size", i32 4}
!1 = !{i32 7, !"uwtable", i32 2}
!2 = !{!"Debian clang version 19.1.7 (3~deb12u1)"}
!3 = !{!4, !5, i64 0}
!4 = !{!"Link", !5, i64 0, !8, i64 8}
!5 = !{!"long", !6, i64 0}
!6 = !{!"omnipotent char", !7, i64 0}
!7 = !{!"Simple C/C++ TBAA"}
!8 = !{!"any pointer", !6, i64 0}
!9 = !{!4, !8, i64 8}
!10 = distinct !{!10, !11}
!11 = !{!"llvm.loop.mustprogress"}
!12 = !{!8, !8, i64 0}
!13 = distinct !{!13, !11}
!14 = distinct !{!14, !11, !15}
!15 = !{!"llvm.loop.peeled.count", i32 1}
!16 = distinct !{!16, !11}
!17 = distinct !{!17, !11}
