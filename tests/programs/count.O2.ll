; ModuleID = 'count.c'
source_filename = "count.c"
target datalayout = "e-m:e-p270:32:32-p271:32:32-p272:64:64-i64:64-i128:128-f80:128-n8:16:32:64-S128"
target triple = "x86_64-pc-linux-gnu"

@.str = private unnamed_addr constant [11 x i8] c"%7d%8d%8d\0A\00", align 1
@.str.1 = private unnamed_addr constant [9 x i8] c"%02x %d\0A\00", align 1

; Function Attrs: nofree nounwind uwtable
define dso_local range(i32 0, 2) i32 @main() local_unnamed_addr #0 {
  %1 = alloca [256 x i32], align 16
  call void @llvm.lifetime.start.p0(i64 1024, ptr nonnull %1) #4
  call void @llvm.memset.p0.i64(ptr noundef nonnull align 16 dereferenceable(1024) %1, i8 0, i64 1024, i1 false)
  %2 = tail call i32 @getchar() #5
  %3 = icmp eq i32 %2, -1
  br i1 %3, label %4, label %8

4:                                                ; preds = %8, %0
  %5 = phi i32 [ 0, %0 ], [ %29, %8 ]
  %6 = phi i32 [ 0, %0 ], [ %21, %8 ]
  %7 = phi i32 [ 0, %0 ], [ %14, %8 ]
  br label %41

8:                                                ; preds = %0, %8
  %9 = phi i32 [ %31, %8 ], [ %2, %0 ]
  %10 = phi i1 [ %30, %8 ], [ true, %0 ]
  %11 = phi i32 [ %14, %8 ], [ 0, %0 ]
  %12 = phi i32 [ %21, %8 ], [ 0, %0 ]
  %13 = phi i32 [ %29, %8 ], [ 0, %0 ]
  %14 = add nuw nsw i32 %11, 1
  %15 = sext i32 %9 to i64
  %16 = getelementptr inbounds [256 x i32], ptr %1, i64 0, i64 %15
  %17 = load i32, ptr %16, align 4, !tbaa !3
  %18 = add nsw i32 %17, 1
  store i32 %18, ptr %16, align 4, !tbaa !3
  %19 = icmp eq i32 %9, 10
  %20 = zext i1 %19 to i32
  %21 = add nuw nsw i32 %12, %20
  %22 = icmp ugt i32 %9, 32
  %23 = zext nneg i32 %9 to i33
  %24 = lshr i33 4294965759, %23
  %25 = trunc i33 %24 to i1
  %26 = select i1 %22, i1 true, i1 %25
  %27 = and i1 %10, %26
  %28 = zext i1 %27 to i32
  %29 = add nuw nsw i32 %13, %28
  %30 = xor i1 %26, true
  %31 = tail call i32 @getchar() #5
  %32 = icmp eq i32 %31, -1
  br i1 %32, label %4, label %8, !llvm.loop !7

33:                                               ; preds = %41
  %34 = tail call i32 (ptr, ...) @printf(ptr noundef nonnull dereferenceable(1) @.str, i32 noundef %6, i32 noundef %5, i32 noundef %7) #5
  %35 = sext i32 %69 to i64
  %36 = getelementptr inbounds [256 x i32], ptr %1, i64 0, i64 %35
  %37 = load i32, ptr %36, align 4, !tbaa !3
  %38 = tail call i32 (ptr, ...) @printf(ptr noundef nonnull dereferenceable(1) @.str.1, i32 noundef %69, i32 noundef %37) #5
  %39 = icmp eq i32 %7, 0
  %40 = zext i1 %39 to i32
  call void @llvm.lifetime.end.p0(i64 1024, ptr nonnull %1) #4
  ret i32 %40

41:                                               ; preds = %41, %4
  %42 = phi i64 [ 1, %4 ], [ %70, %41 ]
  %43 = phi i32 [ 0, %4 ], [ %69, %41 ]
  %44 = getelementptr inbounds [256 x i32], ptr %1, i64 0, i64 %42
  %45 = load i32, ptr %44, align 4, !tbaa !3
  %46 = sext i32 %43 to i64
  %47 = getelementptr inbounds [256 x i32], ptr %1, i64 0, i64 %46
  %48 = load i32, ptr %47, align 4, !tbaa !3
  %49 = icmp sgt i32 %45, %48
  %50 = trunc nuw nsw i64 %42 to i32
  %51 = select i1 %49, i32 %50, i32 %43
  %52 = add nuw nsw i64 %42, 1
  %53 = getelementptr inbounds [256 x i32], ptr %1, i64 0, i64 %52
  %54 = load i32, ptr %53, align 4, !tbaa !3
  %55 = sext i32 %51 to i64
  %56 = getelementptr inbounds [256 x i32], ptr %1, i64 0, i64 %55
  %57 = load i32, ptr %56, align 4, !tbaa !3
  %58 = icmp sgt i32 %54, %57
  %59 = trunc nuw nsw i64 %52 to i32
  %60 = select i1 %58, i32 %59, i32 %51
  %61 = add nuw nsw i64 %42, 2
  %62 = getelementptr inbounds [256 x i32], ptr %1, i64 0, i64 %61
  %63 = load i32, ptr %62, align 4, !tbaa !3
  %64 = sext i32 %60 to i64
  %65 = getelementptr inbounds [256 x i32], ptr %1, i64 0, i64 %64
  %66 = load i32, ptr %65, align 4, !tbaa !3
  %67 = icmp sgt i32 %63, %66
  %68 = trunc nuw nsw i64 %61 to i32
  %69 = select i1 %67, i32 %68, i32 %60
  %70 = add nuw nsw i64 %42, 3
  %71 = icmp eq i64 %70, 256
  br i1 %71, label %33, label %41, !llvm.loop !9
}

; Function Attrs: mustprogress nocallback nofree nosync nounwind willreturn memory(argmem: readwrite)
declare void @llvm.lifetime.start.p0(i64 immarg, ptr nocapture) #1

; Function Attrs: mustprogress nocallback nofree nounwind willreturn memory(argmem: write)
declare void @llvm.memset.p0.i64(ptr nocapture writeonly, i8, i64, i1 immarg) #2

; Function Attrs: nofree nounwind
declare dso_local noundef i32 @getchar() local_unnamed_addr #3

; Function Attrs: mustprogress nocallback nofree nosync nounwind willreturn memory(argmem: readwrite)
declare void @llvm.lifetime.end.p0(i64 immarg, ptr nocapture) #1

; Function Attrs: nofree nounwind
declare dso_local noundef i32 @printf(ptr nocapture noundef readonly, ...) local_unnamed_addr #3

attributes #0 = { nofree nounwind uwtable "min-legal-vector-width"="0" "no-builtin-calloc" "no-trapping-math"="true" "stack-protector-buffer-size"="8" "target-cpu"="x86-64" "target-features"="+cmov,+cx8,+fxsr,-aes,-avx,-avx10.1-256,-avx10.1-512,-avx2,-avx512bf16,-avx512bitalg,-avx512bw,-avx512cd,-avx512dq,-avx512f,-avx512fp16,-avx512ifma,-avx512vbmi,-avx512vbmi2,-avx512vl,-avx512vnni,-avx512vp2intersect,-avx512vpopcntdq,-avxifma,-avxneconvert,-avxvnni,-avxvnniint16,-avxvnniint8,-f16c,-fma,-fma4,-gfni,-kl,-mmx,-pclmul,-sha,-sha512,-sm3,-sm4,-sse,-sse2,-sse3,-sse4.1,-sse4.2,-sse4a,-ssse3,-vaes,-vpclmulqdq,-widekl,-x87,-xop" "tune-cpu"="generic" }
attributes #1 = { mustprogress nocallback nofree nosync nounwind willreturn memory(argmem: readwrite) }
attributes #2 = { mustprogress nocallback nofree nounwind willreturn memory(argmem: write) }
attributes #3 = { nofree nounwind "no-builtin-calloc" "no-trapping-math"="true" "stack-protector-buffer-size"="8" "target-cpu"="x86-64" "target-features"="+cmov,+cx8,+fxsr,-aes,-avx,-avx10.1-256,-avx10.1-512,-avx2,-avx512bf16,-avx512bitalg,-avx512bw,-avx512cd,-avx512dq,-avx512f,-avx512fp16,-avx512ifma,-avx512vbmi,-avx512vbmi2,-avx512vl,-avx512vnni,-avx512vp2intersect,-avx512vpopcntdq,-avxifma,-avxneconvert,-avxvnni,-avxvnniint16,-avxvnniint8,-f16c,-fma,-fma4,-gfni,-kl,-mmx,-pclmul,-sha,-sha512,-sm3,-sm4,-sse,-sse2,-sse3,-sse4.1,-sse4.2,-sse4a,-ssse3,-vaes,-vpclmulqdq,-widekl,-x87,-xop" "tune-cpu"="generic" }
attributes #4 = { nounwind }
attributes #5 = { "no-builtin-calloc" }

!llvm.module.flags = !{!0, !1}
!llvm.ident = !{!2}

!0 = !{i32 1, !"wchar_size", i32 4}
!1 = !{i32 7, !"uwtable", i32 2}
!2 = !{!"Debian clang version 19.1.7 (3~deb12u1)"}
!3 = !{!4, !4, i64 0}
!4 = !{!"int", !5, i64 0}
!5 = !{!"omnipotent char", !6, i64 0}
!6 = !{!"Simple C/C++ TBAA"}
!7 = distinct !{!7, !8}
!8 = !{!"llvm.loop.mustprogress"}
!9 = distinct !{!9, !8}
