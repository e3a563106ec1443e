; ModuleID = 'quick.c'
source_filename = "quick.c"
target datalayout = "e-m:e-p270:32:32-p271:32:32-p272:64:64-i64:64-i128:128-f80:128-n8:16:32:64-S128"
target triple = "x86_64-pc-linux-gnu"

%struct.Row = type { i16, i8, i64 }

; Function Attrs: nounwind uwtable
define dso_local range(i32 0, 251) i32 @main() local_unnamed_addr #0 {
  %1 = alloca [24 x %struct.Row], align 16
  call void @llvm.lifetime.start.p0(i64 384, ptr nonnull %1) #5
  br label %2

2:                                                ; preds = %0, %2
  %3 = phi i64 [ 0, %0 ], [ %19, %2 ]
  %4 = trunc i64 %3 to i32
  %5 = getelementptr inbounds [24 x %struct.Row], ptr %1, i64 0, i64 %3
  %6 = trunc i64 %3 to i16
  %7 = mul nuw nsw i16 %6, 37
  %8 = urem i16 %7, 24
  %9 = add nsw i16 %8, -12
  %10 = trunc i64 %3 to i8
  %11 = add nuw nsw i8 %10, 97
  %12 = mul nuw nsw i32 %4, 7919
  %13 = mul i32 %12, %4
  %14 = urem i32 %13, 101
  %15 = zext nneg i32 %14 to i64
  %16 = add nsw i64 %15, -50
  store i16 %9, ptr %5, align 16, !tbaa !3
  %17 = getelementptr inbounds i8, ptr %5, i64 2
  store i8 %11, ptr %17, align 2, !tbaa !7
  %18 = getelementptr inbounds i8, ptr %5, i64 8
  store i64 %16, ptr %18, align 8, !tbaa !8
  %19 = add nuw nsw i64 %3, 1
  %20 = icmp eq i64 %19, 24
  br i1 %20, label %21, label %2, !llvm.loop !10

21:                                               ; preds = %2
  call fastcc void @sort(ptr noundef nonnull %1, i64 noundef 24, ptr noundef nonnull @by_key) #6
  br label %42

22:                                               ; preds = %42
  %23 = call i32 @putchar(i32 noundef 10) #6
  call fastcc void @sort(ptr noundef nonnull %1, i64 noundef 24, ptr noundef nonnull @by_value) #6
  br label %24

24:                                               ; preds = %24, %22
  %25 = phi i64 [ 0, %22 ], [ %36, %24 ]
  %26 = phi i64 [ %53, %22 ], [ %35, %24 ]
  %27 = getelementptr inbounds [24 x %struct.Row], ptr %1, i64 0, i64 %25
  %28 = getelementptr inbounds i8, ptr %27, i64 2
  %29 = load i8, ptr %28, align 2, !tbaa !12
  %30 = sext i8 %29 to i32
  %31 = call i32 @putchar(i32 noundef %30) #6
  %32 = mul i64 %26, 31
  %33 = getelementptr inbounds i8, ptr %27, i64 8
  %34 = load i64, ptr %33, align 8, !tbaa !14
  %35 = add i64 %34, %32
  %36 = add nuw nsw i64 %25, 1
  %37 = icmp eq i64 %36, 24
  br i1 %37, label %38, label %24, !llvm.loop !15

38:                                               ; preds = %24
  %39 = call i32 @putchar(i32 noundef 10) #6
  %40 = urem i64 %35, 251
  %41 = trunc nuw nsw i64 %40 to i32
  call void @llvm.lifetime.end.p0(i64 384, ptr nonnull %1) #5
  ret i32 %41

42:                                               ; preds = %21, %42
  %43 = phi i64 [ 0, %21 ], [ %54, %42 ]
  %44 = phi i64 [ 0, %21 ], [ %53, %42 ]
  %45 = getelementptr inbounds [24 x %struct.Row], ptr %1, i64 0, i64 %43
  %46 = getelementptr inbounds i8, ptr %45, i64 2
  %47 = load i8, ptr %46, align 2, !tbaa !12
  %48 = sext i8 %47 to i32
  %49 = call i32 @putchar(i32 noundef %48) #6
  %50 = mul i64 %44, 31
  %51 = getelementptr inbounds i8, ptr %45, i64 8
  %52 = load i64, ptr %51, align 8, !tbaa !14
  %53 = add i64 %52, %50
  %54 = add nuw nsw i64 %43, 1
  %55 = icmp eq i64 %54, 24
  br i1 %55, label %22, label %42, !llvm.loop !15
}

; Function Attrs: mustprogress nocallback nofree nosync nounwind willreturn memory(argmem: readwrite)
declare void @llvm.lifetime.start.p0(i64 immarg, ptr nocapture) #1

; Function Attrs: mustprogress nocallback nofree nounwind willreturn memory(argmem: readwrite)
declare void @llvm.memcpy.p0.p0.i64(ptr noalias nocapture writeonly, ptr noalias nocapture readonly, i64, i1 immarg) #2

; Function Attrs: mustprogress nocallback nofree nosync nounwind willreturn memory(argmem: readwrite)
declare void @llvm.lifetime.end.p0(i64 immarg, ptr nocapture) #1

; Function Attrs: mustprogress nofree norecurse nosync nounwind willreturn memory(argmem: read) uwtable
define internal range(i32 -65535, 65536) i32 @by_key(ptr nocapture noundef readonly %0, ptr nocapture noundef readonly %1) #3 {
  %3 = load i16, ptr %0, align 8, !tbaa !16
  %4 = sext i16 %3 to i32
  %5 = load i16, ptr %1, align 8, !tbaa !16
  %6 = sext i16 %5 to i32
  %7 = sub nsw i32 %4, %6
  ret i32 %7
}

; Function Attrs: mustprogress nofree norecurse nosync nounwind willreturn memory(argmem: read) uwtable
define internal range(i32 -1, 2) i32 @by_value(ptr nocapture noundef readonly %0, ptr nocapture noundef readonly %1) #3 {
  %3 = getelementptr inbounds i8, ptr %0, i64 8
  %4 = load i64, ptr %3, align 8, !tbaa !14
  %5 = getelementptr inbounds i8, ptr %1, i64 8
  %6 = load i64, ptr %5, align 8, !tbaa !14
  %7 = icmp sgt i64 %4, %6
  %8 = zext i1 %7 to i32
  %9 = icmp slt i64 %4, %6
  %10 = sext i1 %9 to i32
  %11 = add nsw i32 %10, %8
  ret i32 %11
}

; Function Attrs: nounwind uwtable
define internal fastcc void @sort(ptr noundef %0, i64 noundef %1, ptr nocapture noundef readonly %2) unnamed_addr #0 {
  %4 = alloca [32 x i8], align 16
  %5 = alloca [32 x i8], align 16
  %6 = alloca [32 x i8], align 16
  %7 = icmp sgt i64 %1, 1
  br i1 %7, label %8, label %37

8:                                                ; preds = %3, %14
  %9 = phi ptr [ %19, %14 ], [ %0, %3 ]
  %10 = phi i64 [ %20, %14 ], [ %1, %3 ]
  %11 = shl i64 %10, 3
  %12 = and i64 %11, -16
  %13 = getelementptr inbounds i8, ptr %9, i64 %12
  call void @llvm.lifetime.start.p0(i64 32, ptr nonnull %6)
  call void @llvm.memcpy.p0.p0.i64(ptr noundef nonnull align 16 dereferenceable(16) %6, ptr noundef nonnull align 1 dereferenceable(16) %9, i64 16, i1 false)
  tail call void @llvm.memcpy.p0.p0.i64(ptr noundef nonnull align 1 dereferenceable(16) %9, ptr noundef nonnull align 1 dereferenceable(16) %13, i64 16, i1 false)
  call void @llvm.memcpy.p0.p0.i64(ptr noundef nonnull align 1 dereferenceable(16) %13, ptr noundef nonnull align 16 dereferenceable(16) %6, i64 16, i1 false)
  call void @llvm.lifetime.end.p0(i64 32, ptr nonnull %6)
  br label %22

14:                                               ; preds = %33
  %15 = shl i64 %34, 4
  %16 = getelementptr inbounds i8, ptr %9, i64 %15
  call void @llvm.lifetime.start.p0(i64 32, ptr nonnull %5)
  call void @llvm.memcpy.p0.p0.i64(ptr noundef nonnull align 16 dereferenceable(16) %5, ptr noundef nonnull align 1 dereferenceable(16) %9, i64 16, i1 false)
  tail call void @llvm.memcpy.p0.p0.i64(ptr noundef nonnull align 1 dereferenceable(16) %9, ptr noundef nonnull align 1 dereferenceable(16) %16, i64 16, i1 false)
  call void @llvm.memcpy.p0.p0.i64(ptr noundef nonnull align 1 dereferenceable(16) %16, ptr noundef nonnull align 16 dereferenceable(16) %5, i64 16, i1 false)
  call void @llvm.lifetime.end.p0(i64 32, ptr nonnull %5)
  tail call fastcc void @sort(ptr noundef %9, i64 noundef %34, ptr noundef %2) #6
  %17 = add nsw i64 %34, 1
  %18 = shl i64 %17, 4
  %19 = getelementptr inbounds i8, ptr %9, i64 %18
  %20 = sub nsw i64 %10, %17
  %21 = icmp sgt i64 %20, 1
  br i1 %21, label %8, label %37, !llvm.loop !17

22:                                               ; preds = %8, %33
  %23 = phi i64 [ 1, %8 ], [ %35, %33 ]
  %24 = phi i64 [ 0, %8 ], [ %34, %33 ]
  %25 = shl i64 %23, 4
  %26 = getelementptr inbounds i8, ptr %9, i64 %25
  %27 = tail call i32 %2(ptr noundef %26, ptr noundef %9) #7
  %28 = icmp slt i32 %27, 0
  br i1 %28, label %29, label %33

29:                                               ; preds = %22
  %30 = add nsw i64 %24, 1
  %31 = shl i64 %30, 4
  %32 = getelementptr inbounds i8, ptr %9, i64 %31
  call void @llvm.lifetime.start.p0(i64 32, ptr nonnull %4)
  call void @llvm.memcpy.p0.p0.i64(ptr noundef nonnull align 16 dereferenceable(16) %4, ptr noundef nonnull align 1 dereferenceable(16) %32, i64 16, i1 false)
  tail call void @llvm.memcpy.p0.p0.i64(ptr noundef nonnull align 1 dereferenceable(16) %32, ptr noundef nonnull align 1 dereferenceable(16) %26, i64 16, i1 false)
  call void @llvm.memcpy.p0.p0.i64(ptr noundef nonnull align 1 dereferenceable(16) %26, ptr noundef nonnull align 16 dereferenceable(16) %4, i64 16, i1 false)
  call void @llvm.lifetime.end.p0(i64 32, ptr nonnull %4)
  br label %33

33:                                               ; preds = %22, %29
  %34 = phi i64 [ %30, %29 ], [ %24, %22 ]
  %35 = add nuw nsw i64 %23, 1
  %36 = icmp eq i64 %35, %10
  br i1 %36, label %14, label %22, !llvm.loop !18

37:                                               ; preds = %14, %3
  ret void
}

; Function Attrs: nofree nounwind
declare dso_local noundef i32 @putchar(i32 noundef) local_unnamed_addr #4

attributes #0 = { nounwind uwtable "min-legal-vector-width"="0" "no-builtin-calloc" "no-trapping-math"="true" "stack-protector-buffer-size"="8" "target-cpu"="x86-64" "target-features"="+cmov,+cx8,+fxsr,-aes,-avx,-avx10.1-256,-avx10.1-512,-avx2,-avx512bf16,-avx512bitalg,-avx512bw,-avx512cd,-avx512dq,-avx512f,-avx512fp16,-avx512ifma,-avx512vbmi,-avx512vbmi2,-avx512vl,-avx512vnni,-avx512vp2intersect,-avx512vpopcntdq,-avxifma,-avxneconvert,-avxvnni,-avxvnniint16,-avxvnniint8,-f16c,-fma,-fma4,-gfni,-kl,-mmx,-pclmul,-sha,-sha512,-sm3,-sm4,-sse,-sse2,-sse3,-sse4.1,-sse4.2,-sse4a,-ssse3,-vaes,-vpclmulqdq,-widekl,-x87,-xop" "tune-cpu"="generic" }
attributes #1 = { mustprogress nocallback nofree nosync nounwind willreturn memory(argmem: readwrite) }
attributes #2 = { mustprogress nocallback nofree nounwind willreturn memory(argmem: readwrite) }
attributes #3 = { mustprogress nofree norecurse nosync nounwind willreturn memory(argmem: read) uwtable "min-legal-vector-width"="0" "no-builtin-calloc" "no-trapping-math"="true" "stack-protector-buffer-size"="8" "target-cpu"="x86-64" "target-features"="+cmov,+cx8,+fxsr,-aes,-avx,-avx10.1-256,-avx10.1-512,-avx2,-avx512bf16,-avx512bitalg,-avx512bw,-avx512cd,-avx512dq,-avx512f,-avx512fp16,-avx512ifma,-avx512vbmi,-avx512vbmi2,-avx512vl,-avx512vnni,-avx512vp2intersect,-avx512vpopcntdq,-avxifma,-avxneconvert,-avxvnni,-avxvnniint16,-avxvnniint8,-f16c,-fma,-fma4,-gfni,-kl,-mmx,-pclmul,-sha,-sha512,-sm3,-sm4,-sse,-sse2,-sse3,-sse4.1,-sse4.2,-sse4a,-ssse3,-vaes,-vpclmulqdq,-widekl,-x87,-xop" "tune-cpu"="generic" }
attributes #4 = { nofree nounwind "no-builtin-calloc" "no-trapping-math"="true" "stack-protector-buffer-size"="8" "target-cpu"="x86-64" "target-features"="+cmov,+cx8,+fxsr,-aes,-avx,-avx10.1-256,-avx10.1-512,-avx2,-avx512bf16,-avx512bitalg,-avx512bw,-avx512cd,-avx512dq,-avx512f,-avx512fp16,-avx512ifma,-avx512vbmi,-avx512vbmi2,-avx512vl,-avx512vnni,-avx512vp2intersect,-avx512vpopcntdq,-avxifma,-avxneconvert,-avxvnni,-avxvnniint16,-avxvnniint8,-f16c,-fma,-fma4,-gfni,-kl,-mmx,-pclmul,-sha,-sha512,-sm3,-sm4,-sse,-sse2,-sse3,-sse4.1,-sse4.2,-sse4a,-ssse3,-vaes,-vpclmulqdq,-widekl,-x87,-xop" "tune-cpu"="generic" }
attributes #5 = { nounwind }
attributes #6 = { "no-builtin-calloc" }
attributes #7 = { nounwind "no-builtin-calloc" }

!llvm.module.flags = !{!0, !1}
!llvm.ident = !{!2}

!0 = !{i32 1, !"wchar_size", i32 4}
!1 = !{i32 7, !"uwtable", i32 2}
!2 = !{!"Debian clang version 19.1.7 (3~deb12u1)"}
!3 = !{!4, !4, i64 0}
!4 = !{!"short", !5, i64 0}
!5 = !{!"omnipotent char", !6, i64 0}
!6 = !{!"Simple C/C++ TBAA"}
!7 = !{!5, !5, i64 0}
!8 = !{!9, !9, i64 0}
!9 = !{!"long", !5, i64 0}
!10 = distinct !{!10, !11}
!11 = !{!"llvm.loop.mustprogress"}
!12 = !{!13, !5, i64 2}
!13 = !{!"", !4, i64 0, !5, i64 2, !9, i64 8}
!14 = !{!13, !9, i64 8}
!15 = distinct !{!15, !11}
!16 = !{!13, !4, i64 0}
!17 = distinct !{!17, !11}
!18 = distinct !{!18, !11}
