; ModuleID = 'common.c'
source_filename = "common.c"
target datalayout = "e-m:e-p270:32:32-p271:32:32-p272:64:64-i64:64-i128:128-f80:128-n8:16:32:64-S128"
target triple = "x86_64-pc-linux-gnu"

@.str = private unnamed_addr constant [26 x i8] c"the quick brown fox jumps\00", align 1
@.str.1 = private unnamed_addr constant [28 x i8] c"over a lazy but quicker dog\00", align 1
@.str.2 = private unnamed_addr constant [9 x i8] c"%d [%s]\0A\00", align 1
@.str.3 = private unnamed_addr constant [10 x i8] c"%d %d %d\0A\00", align 1
@.str.4 = private unnamed_addr constant [7 x i8] c"kitten\00", align 1
@.str.5 = private unnamed_addr constant [8 x i8] c"sitting\00", align 1
@.str.6 = private unnamed_addr constant [1 x i8] zeroinitializer, align 1
@.str.7 = private unnamed_addr constant [4 x i8] c"abc\00", align 1
@.str.8 = private unnamed_addr constant [13 x i8] c"intermediate\00", align 1
@.str.9 = private unnamed_addr constant [12 x i8] c"interpreter\00", align 1
@common.lengths = internal unnamed_addr global [40 x [40 x i8]] zeroinitializer, align 16

; Function Attrs: nofree nounwind uwtable
define dso_local i32 @main() local_unnamed_addr #0 {
  %1 = alloca [40 x i8], align 16
  call void @llvm.lifetime.start.p0(i64 40, ptr nonnull %1) #7
  tail call void @llvm.memset.p0.i64(ptr noundef nonnull align 16 dereferenceable(1600) @common.lengths, i8 0, i64 1600, i1 false)
  br label %2

2:                                                ; preds = %7, %0
  %3 = phi i64 [ 24, %0 ], [ %8, %7 ]
  %4 = add nuw nsw i64 %3, 1
  %5 = getelementptr inbounds i8, ptr @.str, i64 %3
  %6 = load i8, ptr %5, align 1, !tbaa !3
  br label %10

7:                                                ; preds = %26
  %8 = add nsw i64 %3, -1
  %9 = icmp eq i64 %3, 0
  br i1 %9, label %31, label %2, !llvm.loop !6

10:                                               ; preds = %26, %2
  %11 = phi i64 [ 26, %2 ], [ %29, %26 ]
  %12 = add nuw nsw i64 %11, 1
  %13 = getelementptr inbounds i8, ptr @.str.1, i64 %11
  %14 = load i8, ptr %13, align 1, !tbaa !3
  %15 = icmp eq i8 %6, %14
  br i1 %15, label %16, label %20

16:                                               ; preds = %10
  %17 = getelementptr inbounds [40 x [40 x i8]], ptr @common.lengths, i64 0, i64 %4, i64 %12
  %18 = load i8, ptr %17, align 1, !tbaa !3
  %19 = add i8 %18, 1
  br label %26

20:                                               ; preds = %10
  %21 = getelementptr inbounds [40 x [40 x i8]], ptr @common.lengths, i64 0, i64 %3, i64 %12
  %22 = load i8, ptr %21, align 1, !tbaa !3
  %23 = getelementptr inbounds [40 x [40 x i8]], ptr @common.lengths, i64 0, i64 %4, i64 %11
  %24 = load i8, ptr %23, align 1, !tbaa !3
  %25 = tail call i8 @llvm.umax.i8(i8 %24, i8 %22)
  br label %26

26:                                               ; preds = %20, %16
  %27 = phi i8 [ %19, %16 ], [ %25, %20 ]
  %28 = getelementptr inbounds [40 x [40 x i8]], ptr @common.lengths, i64 0, i64 %3, i64 %11
  store i8 %27, ptr %28, align 1, !tbaa !3
  %29 = add nsw i64 %11, -1
  %30 = icmp eq i64 %11, 0
  br i1 %30, label %7, label %10, !llvm.loop !8

31:                                               ; preds = %7, %60
  %32 = phi i32 [ %63, %60 ], [ 0, %7 ]
  %33 = phi i32 [ %62, %60 ], [ 0, %7 ]
  %34 = phi i32 [ %61, %60 ], [ 0, %7 ]
  %35 = sext i32 %33 to i64
  %36 = getelementptr inbounds i8, ptr @.str, i64 %35
  %37 = load i8, ptr %36, align 1, !tbaa !3
  %38 = sext i32 %32 to i64
  %39 = getelementptr inbounds i8, ptr @.str.1, i64 %38
  %40 = load i8, ptr %39, align 1, !tbaa !3
  %41 = icmp eq i8 %37, %40
  br i1 %41, label %42, label %48

42:                                               ; preds = %31
  %43 = add nsw i32 %34, 1
  %44 = sext i32 %34 to i64
  %45 = getelementptr inbounds i8, ptr %1, i64 %44
  store i8 %37, ptr %45, align 1, !tbaa !3
  %46 = add nsw i32 %33, 1
  %47 = add nsw i32 %32, 1
  br label %60

48:                                               ; preds = %31
  %49 = add nsw i32 %33, 1
  %50 = sext i32 %49 to i64
  %51 = getelementptr inbounds [40 x [40 x i8]], ptr @common.lengths, i64 0, i64 %50, i64 %38
  %52 = load i8, ptr %51, align 1, !tbaa !3
  %53 = add nsw i32 %32, 1
  %54 = sext i32 %53 to i64
  %55 = getelementptr inbounds [40 x [40 x i8]], ptr @common.lengths, i64 0, i64 %35, i64 %54
  %56 = load i8, ptr %55, align 1, !tbaa !3
  %57 = icmp ult i8 %52, %56
  %58 = select i1 %57, i32 %33, i32 %49
  %59 = select i1 %57, i32 %53, i32 %32
  br label %60

60:                                               ; preds = %48, %42
  %61 = phi i32 [ %43, %42 ], [ %34, %48 ]
  %62 = phi i32 [ %46, %42 ], [ %58, %48 ]
  %63 = phi i32 [ %47, %42 ], [ %59, %48 ]
  %64 = icmp slt i32 %62, 25
  %65 = icmp slt i32 %63, 27
  %66 = select i1 %64, i1 %65, i1 false
  br i1 %66, label %31, label %67, !llvm.loop !9

67:                                               ; preds = %60
  %68 = sext i32 %61 to i64
  %69 = getelementptr inbounds i8, ptr %1, i64 %68
  store i8 0, ptr %69, align 1, !tbaa !3
  %70 = call i32 (ptr, ...) @printf(ptr noundef nonnull dereferenceable(1) @.str.2, i32 noundef %61, ptr noundef nonnull %1) #8
  %71 = call fastcc i32 @distance(ptr noundef nonnull @.str.4, ptr noundef nonnull @.str.5) #8
  %72 = call fastcc i32 @distance(ptr noundef nonnull @.str.6, ptr noundef nonnull @.str.7) #8
  %73 = call fastcc i32 @distance(ptr noundef nonnull @.str.8, ptr noundef nonnull @.str.9) #8
  %74 = call i32 (ptr, ...) @printf(ptr noundef nonnull dereferenceable(1) @.str.3, i32 noundef %71, i32 noundef %72, i32 noundef %73) #8
  %75 = call fastcc i32 @distance(ptr noundef nonnull @.str, ptr noundef nonnull %1) #8
  %76 = shl nsw i32 %75, 1
  %77 = add nsw i32 %76, %61
  call void @llvm.lifetime.end.p0(i64 40, ptr nonnull %1) #7
  ret i32 %77
}

; Function Attrs: mustprogress nocallback nofree nosync nounwind willreturn memory(argmem: readwrite)
declare void @llvm.lifetime.start.p0(i64 immarg, ptr nocapture) #1

; Function Attrs: nofree nounwind
declare dso_local noundef i32 @printf(ptr nocapture noundef readonly, ...) local_unnamed_addr #2

; Function Attrs: nofree nounwind memory(argmem: read) uwtable
define internal fastcc i32 @distance(ptr nocapture noundef readonly %0, ptr nocapture noundef readonly %1) unnamed_addr #3 {
  %3 = alloca [2 x [40 x i32]], align 16
  call void @llvm.lifetime.start.p0(i64 320, ptr nonnull %3) #7
  %4 = tail call i64 @strlen(ptr noundef nonnull dereferenceable(1) %1) #9
  %5 = trunc i64 %4 to i32
  %6 = icmp slt i32 %5, 0
  br i1 %6, label %26, label %7

7:                                                ; preds = %2
  %8 = add nuw nsw i64 %4, 1
  %9 = and i64 %8, 4294967295
  %10 = add nsw i64 %9, -1
  %11 = and i64 %8, 7
  %12 = icmp ult i64 %10, 7
  br i1 %12, label %15, label %13

13:                                               ; preds = %7
  %14 = sub nsw i64 %9, %11
  br label %33

15:                                               ; preds = %33, %7
  %16 = phi i64 [ 0, %7 ], [ %59, %33 ]
  %17 = icmp eq i64 %11, 0
  br i1 %17, label %26, label %18

18:                                               ; preds = %15, %18
  %19 = phi i64 [ %23, %18 ], [ %16, %15 ]
  %20 = phi i64 [ %24, %18 ], [ 0, %15 ]
  %21 = getelementptr inbounds [40 x i32], ptr %3, i64 0, i64 %19
  %22 = trunc nuw nsw i64 %19 to i32
  store i32 %22, ptr %21, align 4, !tbaa !10
  %23 = add nuw nsw i64 %19, 1
  %24 = add i64 %20, 1
  %25 = icmp eq i64 %24, %11
  br i1 %25, label %26, label %18, !llvm.loop !12

26:                                               ; preds = %15, %18, %2
  %27 = load i8, ptr %0, align 1, !tbaa !3
  %28 = icmp eq i8 %27, 0
  br i1 %28, label %62, label %29

29:                                               ; preds = %26
  %30 = icmp slt i32 %5, 1
  %31 = add i64 %4, 1
  %32 = and i64 %31, 4294967295
  br label %69

33:                                               ; preds = %33, %13
  %34 = phi i64 [ 0, %13 ], [ %59, %33 ]
  %35 = phi i64 [ 0, %13 ], [ %60, %33 ]
  %36 = getelementptr inbounds [40 x i32], ptr %3, i64 0, i64 %34
  %37 = trunc nuw nsw i64 %34 to i32
  store i32 %37, ptr %36, align 16, !tbaa !10
  %38 = or disjoint i64 %34, 1
  %39 = getelementptr inbounds [40 x i32], ptr %3, i64 0, i64 %38
  %40 = trunc nuw nsw i64 %38 to i32
  store i32 %40, ptr %39, align 4, !tbaa !10
  %41 = or disjoint i64 %34, 2
  %42 = getelementptr inbounds [40 x i32], ptr %3, i64 0, i64 %41
  %43 = trunc nuw nsw i64 %41 to i32
  store i32 %43, ptr %42, align 8, !tbaa !10
  %44 = or disjoint i64 %34, 3
  %45 = getelementptr inbounds [40 x i32], ptr %3, i64 0, i64 %44
  %46 = trunc nuw nsw i64 %44 to i32
  store i32 %46, ptr %45, align 4, !tbaa !10
  %47 = or disjoint i64 %34, 4
  %48 = getelementptr inbounds [40 x i32], ptr %3, i64 0, i64 %47
  %49 = trunc nuw nsw i64 %47 to i32
  store i32 %49, ptr %48, align 16, !tbaa !10
  %50 = or disjoint i64 %34, 5
  %51 = getelementptr inbounds [40 x i32], ptr %3, i64 0, i64 %50
  %52 = trunc nuw nsw i64 %50 to i32
  store i32 %52, ptr %51, align 4, !tbaa !10
  %53 = or disjoint i64 %34, 6
  %54 = getelementptr inbounds [40 x i32], ptr %3, i64 0, i64 %53
  %55 = trunc nuw nsw i64 %53 to i32
  store i32 %55, ptr %54, align 8, !tbaa !10
  %56 = or disjoint i64 %34, 7
  %57 = getelementptr inbounds [40 x i32], ptr %3, i64 0, i64 %56
  %58 = trunc nuw nsw i64 %56 to i32
  store i32 %58, ptr %57, align 4, !tbaa !10
  %59 = add nuw nsw i64 %34, 8
  %60 = add i64 %35, 8
  %61 = icmp eq i64 %60, %14
  br i1 %61, label %15, label %33, !llvm.loop !14

62:                                               ; preds = %78, %26
  %63 = tail call i64 @strlen(ptr noundef nonnull dereferenceable(1) %0) #9
  %64 = and i64 %63, 1
  %65 = shl i64 %4, 32
  %66 = ashr exact i64 %65, 32
  %67 = getelementptr inbounds [2 x [40 x i32]], ptr %3, i64 0, i64 %64, i64 %66
  %68 = load i32, ptr %67, align 4, !tbaa !10
  call void @llvm.lifetime.end.p0(i64 320, ptr nonnull %3) #7
  ret i32 %68

69:                                               ; preds = %29, %78
  %70 = phi i64 [ 1, %29 ], [ %79, %78 ]
  %71 = phi i8 [ %27, %29 ], [ %81, %78 ]
  %72 = phi i64 [ 0, %29 ], [ %70, %78 ]
  %73 = trunc nuw nsw i64 %70 to i32
  %74 = and i64 %70, 1
  %75 = getelementptr inbounds [2 x [40 x i32]], ptr %3, i64 0, i64 %74
  %76 = and i64 %72, 1
  %77 = getelementptr inbounds [2 x [40 x i32]], ptr %3, i64 0, i64 %76
  store i32 %73, ptr %75, align 16, !tbaa !10
  br i1 %30, label %78, label %83

78:                                               ; preds = %83, %69
  %79 = add nuw nsw i64 %70, 1
  %80 = getelementptr inbounds i8, ptr %0, i64 %70
  %81 = load i8, ptr %80, align 1, !tbaa !3
  %82 = icmp eq i8 %81, 0
  br i1 %82, label %62, label %69, !llvm.loop !15

83:                                               ; preds = %69, %83
  %84 = phi i32 [ %98, %83 ], [ %73, %69 ]
  %85 = phi i64 [ %100, %83 ], [ 1, %69 ]
  %86 = add nsw i64 %85, -1
  %87 = getelementptr inbounds i32, ptr %77, i64 %86
  %88 = load i32, ptr %87, align 4, !tbaa !10
  %89 = getelementptr inbounds i8, ptr %1, i64 %86
  %90 = load i8, ptr %89, align 1, !tbaa !3
  %91 = icmp ne i8 %71, %90
  %92 = zext i1 %91 to i32
  %93 = add nsw i32 %88, %92
  %94 = getelementptr inbounds i32, ptr %77, i64 %85
  %95 = load i32, ptr %94, align 4, !tbaa !10
  %96 = tail call noundef i32 @llvm.smin.i32(i32 %95, i32 %84)
  %97 = add nsw i32 %96, 1
  %98 = tail call noundef i32 @llvm.smin.i32(i32 %93, i32 %97)
  %99 = getelementptr inbounds i32, ptr %75, i64 %85
  store i32 %98, ptr %99, align 4, !tbaa !10
  %100 = add nuw nsw i64 %85, 1
  %101 = icmp eq i64 %100, %32
  br i1 %101, label %78, label %83, !llvm.loop !16
}

; Function Attrs: mustprogress nocallback nofree nosync nounwind willreturn memory(argmem: readwrite)
declare void @llvm.lifetime.end.p0(i64 immarg, ptr nocapture) #1

; Function Attrs: mustprogress nofree nounwind willreturn memory(argmem: read)
declare dso_local i64 @strlen(ptr nocapture noundef) local_unnamed_addr #4

; Function Attrs: mustprogress nocallback nofree nounwind willreturn memory(argmem: write)
declare void @llvm.memset.p0.i64(ptr nocapture writeonly, i8, i64, i1 immarg) #5

; Function Attrs: nocallback nofree nosync nounwind speculatable willreturn memory(none)
declare i8 @llvm.umax.i8(i8, i8) #6

; Function Attrs: nocallback nofree nosync nounwind speculatable willreturn memory(none)
declare i32 @llvm.smin.i32(i32, i32) #6

attributes #0 = { nofree nounwind uwtable "min-legal-vector-width"="0" "no-builtin-calloc" "no-trapping-math"="true" "stack-protector-buffer-size"="8" "target-cpu"="x86-64" "target-features"="+cmov,+cx8,+fxsr,-aes,-avx,-avx10.1-256,-avx10.1-512,-avx2,-avx512bf16,-avx512bitalg,-avx512bw,-avx512cd,-avx512dq,-avx512f,-avx512fp16,-avx512ifma,-avx512vbmi,-avx512vbmi2,-avx512vl,-avx512vnni,-avx512vp2intersect,-avx512vpopcntdq,-avxifma,-avxneconvert,-avxvnni,-avxvnniint16,-avxvnniint8,-f16c,-fma,-fma4,-gfni,-kl,-mmx,-pclmul,-sha,-sha512,-sm3,-sm4,-sse,-sse2,-sse3,-sse4.1,-sse4.2,-sse4a,-ssse3,-vaes,-vpclmulqdq,-widekl,-x87,-xop" "tune-cpu"="generic" }
attributes #1 = { mustprogress nocallback nofree nosync nounwind willreturn memory(argmem: readwrite) }
attributes #2 = { nofree nounwind "no-builtin-calloc" "no-trapping-math"="true" "stack-protector-buffer-size"="8" "target-cpu"="x86-64" "target-features"="+cmov,+cx8,+fxsr,-aes,-avx,-avx10.1-256,-avx10.1-512,-avx2,-avx512bf16,-avx512bitalg,-avx512bw,-avx512cd,-avx512dq,-avx512f,-avx512fp16,-avx512ifma,-avx512vbmi,-avx512vbmi2,-avx512vl,-avx512vnni,-avx512vp2intersect,-avx512vpopcntdq,-avxifma,-avxneconvert,-avxvnni,-avxvnniint16,-avxvnniint8,-f16c,-fma,-fma4,-gfni,-kl,-mmx,-pclmul,-sha,-sha512,-sm3,-sm4,-sse,-sse2,-sse3,-sse4.1,-sse4.2,-sse4a,-ssse3,-vaes,-vpclmulqdq,-widekl,-x87,-xop" "tune-cpu"="generic" }
attributes #3 = { nofree nounwind memory(argmem: read) uwtable "min-legal-vector-width"="0" "no-builtin-calloc" "no-trapping-math"="true" "stack-protector-buffer-size"="8" "target-cpu"="x86-64" "target-features"="+cmov,+cx8,+fxsr,-aes,-avx,-avx10.1-256,-avx10.1-512,-avx2,-avx512bf16,-avx512bitalg,-avx512bw,-avx512cd,-avx512dq,-avx512f,-avx512fp16,-avx512ifma,-avx512vbmi,-avx512vbmi2,-avx512vl,-avx512vnni,-avx512vp2intersect,-avx512vpopcntdq,-avxifma,-avxneconvert,-avxvnni,-avxvnniint16,-avxvnniint8,-f16c,-fma,-fma4,-gfni,-kl,-mmx,-pclmul,-sha,-sha512,-sm3,-sm4,-sse,-sse2,-sse3,-sse4.1,-sse4.2,-sse4a,-ssse3,-vaes,-vpclmulqdq,-widekl,-x87,-xop" "tune-cpu"="generic" }
attributes #4 = { mustprogress nofree nounwind willreturn memory(argmem: read) "no-builtin-calloc" "no-trapping-math"="true" "stack-protector-buffer-size"="8" "target-cpu"="x86-64" "target-features"="+cmov,+cx8,+fxsr,-aes,-avx,-avx10.1-256,-avx10.1-512,-avx2,-avx512bf16,-avx512bitalg,-avx512bw,-avx512cd,-avx512dq,-avx512f,-avx512fp16,-avx512ifma,-avx512vbmi,-avx512vbmi2,-avx512vl,-avx512vnni,-avx512vp2intersect,-avx512vpopcntdq,-avxifma,-avxneconvert,-avxvnni,-avxvnniint16,-avxvnniint8,-f16c,-fma,-fma4,-gfni,-kl,-mmx,-pclmul,-sha,-sha512,-sm3,-sm4,-sse,-sse2,-sse3,-sse4.1,-sse4.2,-sse4a,-ssse3,-vaes,-vpclmulqdq,-widekl,-x87,-xop" "tune-cpu"="generic" }
attributes #5 = { mustprogress nocallback nofree nounwind willreturn memory(argmem: write) }
attributes #6 = { nocallback nofree nosync nounwind speculatable willreturn memory(none) }
attributes #7 = { nounwind }
attributes #8 = { "no-builtin-calloc" }
attributes #9 = { nounwind willreturn memory(read) "no-builtin-calloc" }

!llvm.module.flags = !{!0, !1}
!llvm.ident = !{!2}

!0 = !{i32 1, !"wchar_size", i32 4}
!1 = !{i32 7, !"uwtable", i32 2}
!2 = !{!"Debian clang version 19.1.7 (3~deb12u1)"}
!3 = !{!4, !4, i64 0}
!4 = !{!"omnipotent char", !5, i64 0}
!5 = !{!"Simple C/C++ TBAA"}
!6 = distinct !{!6, !7}
!7 = !{!"llvm.loop.mustprogress"}
!8 = distinct !{!8, !7}
!9 = distinct !{!9, !7}
!10 = !{!11, !11, i64 0}
!11 = !{!"int", !4, i64 0}
!12 = distinct !{!12, !13}
!13 = !{!"llvm.loop.unroll.disable"}
!14 = distinct !{!14, !7}
!15 = distinct !{!15, !7}
!16 = distinct !{!16, !7}
