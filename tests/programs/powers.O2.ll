; ModuleID = 'powers.c'
source_filename = "powers.c"
target datalayout = "e-m:e-p270:32:32-p271:32:32-p272:64:64-i64:64-i128:128-f80:128-n8:16:32:64-S128"
target triple = "x86_64-pc-linux-gnu"

@.str = private unnamed_addr constant [5 x i8] c"%lu\0A\00", align 1
@.str.1 = private unnamed_addr constant [17 x i8] c"%ld %ld %ld %lu\0A\00", align 1
@is_prime.bases = internal unnamed_addr constant [12 x i64] [i64 2, i64 3, i64 5, i64 7, i64 11, i64 13, i64 17, i64 19, i64 23, i64 29, i64 31, i64 37], align 16

; Function Attrs: nofree nounwind uwtable
define dso_local i32 @main() local_unnamed_addr #0 {
  %1 = alloca i64, align 8
  %2 = alloca i64, align 8
  br label %3

3:                                                ; preds = %0, %12
  %4 = phi i64 [ 0, %0 ], [ %13, %12 ]
  %5 = phi i64 [ 1000000000000000000, %0 ], [ %6, %12 ]
  %6 = add i64 %5, 1
  %7 = tail call fastcc i32 @is_prime(i64 noundef %6) #6
  %8 = icmp eq i32 %7, 0
  br i1 %8, label %12, label %9

9:                                                ; preds = %3
  %10 = add nuw nsw i64 %4, 1
  %11 = tail call i32 (ptr, ...) @printf(ptr noundef nonnull dereferenceable(1) @.str, i64 noundef %6) #6
  br label %12

12:                                               ; preds = %9, %3
  %13 = phi i64 [ %10, %9 ], [ %4, %3 ]
  %14 = icmp ult i64 %13, 3
  br i1 %14, label %3, label %15, !llvm.loop !3

15:                                               ; preds = %12
  call void @llvm.lifetime.start.p0(i64 8, ptr nonnull %1) #7
  call void @llvm.lifetime.start.p0(i64 8, ptr nonnull %2) #7
  %16 = call fastcc i64 @divisor(i64 noundef -123456789012, i64 noundef 987654321, ptr noundef nonnull %1, ptr noundef nonnull %2) #6
  %17 = load i64, ptr %1, align 8, !tbaa !5
  %18 = load i64, ptr %2, align 8, !tbaa !5
  %19 = tail call i32 (ptr, ...) @printf(ptr noundef nonnull dereferenceable(1) @.str.1, i64 noundef %16, i64 noundef %17, i64 noundef %18, i64 noundef 1) #6
  br label %23

20:                                               ; preds = %50, %50, %51
  %21 = add nuw nsw i64 %24, 1
  %22 = icmp eq i64 %21, 12
  br i1 %22, label %56, label %23, !llvm.loop !9

23:                                               ; preds = %20, %15
  %24 = phi i64 [ 0, %15 ], [ %21, %20 ]
  %25 = getelementptr inbounds [12 x i64], ptr @is_prime.bases, i64 0, i64 %24
  %26 = load i64, ptr %25, align 8, !tbaa !5
  %27 = urem i64 %26, 4759123141
  br label %28

28:                                               ; preds = %42, %23
  %29 = phi i64 [ 1, %23 ], [ %44, %42 ]
  %30 = phi i64 [ %27, %23 ], [ %47, %42 ]
  %31 = phi i64 [ 1189780785, %23 ], [ %48, %42 ]
  %32 = and i64 %31, 1
  %33 = icmp eq i64 %32, 0
  br i1 %33, label %34, label %36

34:                                               ; preds = %28
  %35 = zext i64 %30 to i128
  br label %42

36:                                               ; preds = %28
  %37 = zext i64 %29 to i128
  %38 = zext i64 %30 to i128
  %39 = mul nuw i128 %38, %37
  %40 = urem i128 %39, 4759123141
  %41 = trunc nuw nsw i128 %40 to i64
  br label %42

42:                                               ; preds = %36, %34
  %43 = phi i128 [ %35, %34 ], [ %38, %36 ]
  %44 = phi i64 [ %29, %34 ], [ %41, %36 ]
  %45 = mul nuw i128 %43, %43
  %46 = urem i128 %45, 4759123141
  %47 = trunc nuw nsw i128 %46 to i64
  %48 = lshr i64 %31, 1
  %49 = icmp ult i64 %31, 2
  br i1 %49, label %50, label %28, !llvm.loop !10

50:                                               ; preds = %42
  switch i64 %44, label %51 [
    i64 4759123140, label %20
    i64 1, label %20
  ]

51:                                               ; preds = %50
  %52 = zext i64 %44 to i128
  %53 = mul nuw i128 %52, %52
  %54 = urem i128 %53, 4759123141
  %55 = icmp eq i128 %54, 4759123140
  br i1 %55, label %20, label %56

56:                                               ; preds = %51, %20
  %57 = phi i32 [ 2, %20 ], [ 0, %51 ]
  %58 = mul i64 %17, -123456789012
  %59 = mul i64 %18, 987654321
  %60 = add i64 %59, %58
  %61 = icmp eq i64 %16, %60
  %62 = zext i1 %61 to i32
  %63 = or disjoint i32 %57, %62
  call void @llvm.lifetime.end.p0(i64 8, ptr nonnull %2) #7
  call void @llvm.lifetime.end.p0(i64 8, ptr nonnull %1) #7
  ret i32 %63
}

; Function Attrs: mustprogress nocallback nofree nosync nounwind willreturn memory(argmem: readwrite)
declare void @llvm.lifetime.start.p0(i64 immarg, ptr nocapture) #1

; Function Attrs: nofree norecurse nosync nounwind memory(none) uwtable
define internal fastcc i32 @is_prime(i64 noundef %0) unnamed_addr #2 {
  %2 = icmp ult i64 %0, 2
  br i1 %2, label %106, label %3

3:                                                ; preds = %1
  %4 = and i64 %0, 1
  %5 = icmp eq i64 %4, 0
  br i1 %5, label %39, label %6

6:                                                ; preds = %3
  %7 = urem i64 %0, 3
  %8 = icmp eq i64 %7, 0
  br i1 %8, label %39, label %9

9:                                                ; preds = %6
  %10 = urem i64 %0, 5
  %11 = icmp eq i64 %10, 0
  br i1 %11, label %39, label %12

12:                                               ; preds = %9
  %13 = urem i64 %0, 7
  %14 = icmp eq i64 %13, 0
  br i1 %14, label %39, label %15

15:                                               ; preds = %12
  %16 = urem i64 %0, 11
  %17 = icmp eq i64 %16, 0
  br i1 %17, label %39, label %18

18:                                               ; preds = %15
  %19 = urem i64 %0, 13
  %20 = icmp eq i64 %19, 0
  br i1 %20, label %39, label %21

21:                                               ; preds = %18
  %22 = urem i64 %0, 17
  %23 = icmp eq i64 %22, 0
  br i1 %23, label %39, label %24

24:                                               ; preds = %21
  %25 = urem i64 %0, 19
  %26 = icmp eq i64 %25, 0
  br i1 %26, label %39, label %27

27:                                               ; preds = %24
  %28 = urem i64 %0, 23
  %29 = icmp eq i64 %28, 0
  br i1 %29, label %39, label %30

30:                                               ; preds = %27
  %31 = urem i64 %0, 29
  %32 = icmp eq i64 %31, 0
  br i1 %32, label %39, label %33

33:                                               ; preds = %30
  %34 = urem i64 %0, 31
  %35 = icmp eq i64 %34, 0
  br i1 %35, label %39, label %36

36:                                               ; preds = %33
  %37 = urem i64 %0, 37
  %38 = icmp eq i64 %37, 0
  br i1 %38, label %39, label %42

39:                                               ; preds = %36, %33, %30, %27, %24, %21, %18, %15, %12, %9, %6, %3
  %40 = phi i64 [ 2, %3 ], [ 3, %6 ], [ 5, %9 ], [ 7, %12 ], [ 11, %15 ], [ 13, %18 ], [ 17, %21 ], [ 19, %24 ], [ 23, %27 ], [ 29, %30 ], [ 31, %33 ], [ 37, %36 ]
  %41 = icmp eq i64 %40, %0
  br label %106

42:                                               ; preds = %36
  %43 = add nsw i64 %0, -1
  br label %48

44:                                               ; preds = %48
  %45 = icmp eq i64 %50, 0
  %46 = zext i64 %0 to i128
  %47 = icmp ne i32 %49, 0
  br label %58

48:                                               ; preds = %42, %48
  %49 = phi i32 [ %51, %48 ], [ 0, %42 ]
  %50 = phi i64 [ %52, %48 ], [ %43, %42 ]
  %51 = add nuw nsw i32 %49, 1
  %52 = lshr exact i64 %50, 1
  %53 = and i64 %50, 2
  %54 = icmp eq i64 %53, 0
  br i1 %54, label %48, label %44, !llvm.loop !11

55:                                               ; preds = %58, %91
  %56 = add nuw nsw i64 %59, 1
  %57 = icmp eq i64 %56, 12
  br i1 %57, label %104, label %58, !llvm.loop !9

58:                                               ; preds = %44, %55
  %59 = phi i64 [ 0, %44 ], [ %56, %55 ]
  br i1 %45, label %55, label %60

60:                                               ; preds = %58
  %61 = getelementptr inbounds [12 x i64], ptr @is_prime.bases, i64 0, i64 %59
  %62 = load i64, ptr %61, align 8, !tbaa !5
  %63 = urem i64 %62, %0
  br label %64

64:                                               ; preds = %78, %60
  %65 = phi i64 [ 1, %60 ], [ %80, %78 ]
  %66 = phi i64 [ %63, %60 ], [ %83, %78 ]
  %67 = phi i64 [ %52, %60 ], [ %84, %78 ]
  %68 = and i64 %67, 1
  %69 = icmp eq i64 %68, 0
  br i1 %69, label %70, label %72

70:                                               ; preds = %64
  %71 = zext i64 %66 to i128
  br label %78

72:                                               ; preds = %64
  %73 = zext i64 %65 to i128
  %74 = zext i64 %66 to i128
  %75 = mul nuw i128 %74, %73
  %76 = urem i128 %75, %46
  %77 = trunc nuw i128 %76 to i64
  br label %78

78:                                               ; preds = %72, %70
  %79 = phi i128 [ %71, %70 ], [ %74, %72 ]
  %80 = phi i64 [ %65, %70 ], [ %77, %72 ]
  %81 = mul nuw i128 %79, %79
  %82 = urem i128 %81, %46
  %83 = trunc nuw i128 %82 to i64
  %84 = lshr i64 %67, 1
  %85 = icmp ult i64 %67, 2
  br i1 %85, label %86, label %64, !llvm.loop !10

86:                                               ; preds = %78
  %87 = icmp ne i64 %80, 1
  %88 = icmp ne i64 %80, %43
  %89 = and i1 %87, %88
  %90 = select i1 %89, i1 %47, i1 false
  br i1 %90, label %93, label %91

91:                                               ; preds = %93, %86
  %92 = phi i1 [ %89, %86 ], [ %100, %93 ]
  br i1 %92, label %106, label %55

93:                                               ; preds = %86, %93
  %94 = phi i32 [ %101, %93 ], [ 1, %86 ]
  %95 = phi i64 [ %99, %93 ], [ %80, %86 ]
  %96 = zext i64 %95 to i128
  %97 = mul nuw i128 %96, %96
  %98 = urem i128 %97, %46
  %99 = trunc nuw i128 %98 to i64
  %100 = icmp ne i64 %43, %99
  %101 = add nuw nsw i32 %94, 1
  %102 = icmp ult i32 %94, %49
  %103 = select i1 %100, i1 %102, i1 false
  br i1 %103, label %93, label %91, !llvm.loop !12

104:                                              ; preds = %55
  %105 = icmp ugt i64 %59, 10
  br label %106

106:                                              ; preds = %91, %104, %39, %1
  %107 = phi i1 [ %41, %39 ], [ false, %1 ], [ %105, %104 ], [ false, %91 ]
  %108 = zext i1 %107 to i32
  ret i32 %108
}

; Function Attrs: nofree nounwind
declare dso_local noundef i32 @printf(ptr nocapture noundef readonly, ...) local_unnamed_addr #3

; Function Attrs: nofree nosync nounwind memory(argmem: write) uwtable
define internal fastcc range(i64 -123456789012, 123456789013) i64 @divisor(i64 noundef %0, i64 noundef %1, ptr nocapture noundef writeonly %2, ptr nocapture noundef writeonly %3) unnamed_addr #4 {
  %5 = alloca i64, align 8
  %6 = alloca i64, align 8
  %7 = icmp eq i64 %1, 0
  br i1 %7, label %8, label %12

8:                                                ; preds = %4
  %9 = icmp sgt i64 %0, -1
  %10 = select i1 %9, i64 1, i64 -1
  %11 = tail call i64 @llvm.abs.i64(i64 %0, i1 true)
  br label %20

12:                                               ; preds = %4
  call void @llvm.lifetime.start.p0(i64 8, ptr nonnull %5) #7
  call void @llvm.lifetime.start.p0(i64 8, ptr nonnull %6) #7
  %13 = srem i64 %0, %1
  %14 = call fastcc i64 @divisor(i64 noundef %1, i64 noundef %13, ptr noundef nonnull %5, ptr noundef nonnull %6) #6
  %15 = load i64, ptr %6, align 8, !tbaa !5
  %16 = load i64, ptr %5, align 8, !tbaa !5
  %17 = sdiv i64 %0, %1
  %18 = mul nsw i64 %17, %15
  %19 = sub nsw i64 %16, %18
  call void @llvm.lifetime.end.p0(i64 8, ptr nonnull %6) #7
  call void @llvm.lifetime.end.p0(i64 8, ptr nonnull %5) #7
  br label %20

20:                                               ; preds = %12, %8
  %21 = phi i64 [ %10, %8 ], [ %15, %12 ]
  %22 = phi i64 [ 0, %8 ], [ %19, %12 ]
  %23 = phi i64 [ %11, %8 ], [ %14, %12 ]
  store i64 %21, ptr %2, align 8
  store i64 %22, ptr %3, align 8
  ret i64 %23
}

; Function Attrs: mustprogress nocallback nofree nosync nounwind willreturn memory(argmem: readwrite)
declare void @llvm.lifetime.end.p0(i64 immarg, ptr nocapture) #1

; Function Attrs: nocallback nofree nosync nounwind speculatable willreturn memory(none)
declare i64 @llvm.abs.i64(i64, i1 immarg) #5

attributes #0 = { nofree nounwind uwtable "min-legal-vector-width"="0" "no-builtin-calloc" "no-trapping-math"="true" "stack-protector-buffer-size"="8" "target-cpu"="x86-64" "target-features"="+cmov,+cx8,+fxsr,-aes,-avx,-avx10.1-256,-avx10.1-512,-avx2,-avx512bf16,-avx512bitalg,-avx512bw,-avx512cd,-avx512dq,-avx512f,-avx512fp16,-avx512ifma,-avx512vbmi,-avx512vbmi2,-avx512vl,-avx512vnni,-avx512vp2intersect,-avx512vpopcntdq,-avxifma,-avxneconvert,-avxvnni,-avxvnniint16,-avxvnniint8,-f16c,-fma,-fma4,-gfni,-kl,-mmx,-pclmul,-sha,-sha512,-sm3,-sm4,-sse,-sse2,-sse3,-sse4.1,-sse4.2,-sse4a,-ssse3,-vaes,-vpclmulqdq,-widekl,-x87,-xop" "tune-cpu"="generic" }
attributes #1 = { mustprogress nocallback nofree nosync nounwind willreturn memory(argmem: readwrite) }
attributes #2 = { nofree norecurse nosync nounwind memory(none) uwtable "min-legal-vector-width"="0" "no-builtin-calloc" "no-trapping-math"="true" "stack-protector-buffer-size"="8" "target-cpu"="x86-64" "target-features"="+cmov,+cx8,+fxsr,-aes,-avx,-avx10.1-256,-avx10.1-512,-avx2,-avx512bf16,-avx512bitalg,-avx512bw,-avx512cd,-avx512dq,-avx512f,-avx512fp16,-avx512ifma,-avx512vbmi,-avx512vbmi2,-avx512vl,-avx512vnni,-avx512vp2intersect,-avx512vpopcntdq,-avxifma,-avxneconvert,-avxvnni,-avxvnniint16,-avxvnniint8,-f16c,-fma,-fma4,-gfni,-kl,-mmx,-pclmul,-sha,-sha512,-sm3,-sm4,-sse,-sse2,-sse3,-sse4.1,-sse4.2,-sse4a,-ssse3,-vaes,-vpclmulqdq,-widekl,-x87,-xop" "tune-cpu"="generic" }
attributes #3 = { nofree nounwind "no-builtin-calloc" "no-trapping-math"="true" "stack-protector-buffer-size"="8" "target-cpu"="x86-64" "target-features"="+cmov,+cx8,+fxsr,-aes,-avx,-avx10.1-256,-avx10.1-512,-avx2,-avx512bf16,-avx512bitalg,-avx512bw,-avx512cd,-avx512dq,-avx512f,-avx512fp16,-avx512ifma,-avx512vbmi,-avx512vbmi2,-avx512vl,-avx512vnni,-avx512vp2intersect,-avx512vpopcntdq,-avxifma,-avxneconvert,-avxvnni,-avxvnniint16,-avxvnniint8,-f16c,-fma,-fma4,-gfni,-kl,-mmx,-pclmul,-sha,-sha512,-sm3,-sm4,-sse,-sse2,-sse3,-sse4.1,-sse4.2,-sse4a,-ssse3,-vaes,-vpclmulqdq,-widekl,-x87,-xop" "tune-cpu"="generic" }
attributes #4 = { nofree nosync nounwind memory(argmem: write) uwtable "min-legal-vector-width"="0" "no-builtin-calloc" "no-trapping-math"="true" "stack-protector-buffer-size"="8" "target-cpu"="x86-64" "target-features"="+cmov,+cx8,+fxsr,-aes,-avx,-avx10.1-256,-avx10.1-512,-avx2,-avx512bf16,-avx512bitalg,-avx512bw,-avx512cd,-avx512dq,-avx512f,-avx512fp16,-avx512ifma,-avx512vbmi,-avx512vbmi2,-avx512vl,-avx512vnni,-avx512vp2intersect,-avx512vpopcntdq,-avxifma,-avxneconvert,-avxvnni,-avxvnniint16,-avxvnniint8,-f16c,-fma,-fma4,-gfni,-kl,-mmx,-pclmul,-sha,-sha512,-sm3,-sm4,-sse,-sse2,-sse3,-sse4.1,-sse4.2,-sse4a,-ssse3,-vaes,-vpclmulqdq,-widekl,-x87,-xop" "tune-cpu"="generic" }
attributes #5 = { nocallback nofree nosync nounwind speculatable willreturn memory(none) }
attributes #6 = { "no-builtin-calloc" }
attributes #7 = { nounwind }

!llvm.module.flags = !{!0, !1}
!llvm.ident = !{!2}

!0 = !{i32 1, !"wchar_size", i32 4}
!1 = !{i32 7, !"uwtable", i32 2}
!2 = !{!"Debian clang version 19.1.7 (3~deb12u1)"}
!3 = distinct !{!3, !4}
!4 = !{!"llvm.loop.mustprogress"}
!5 = !{!6, !6, i64 0}
!6 = !{!"long", !7, i64 0}
!7 = !{!"omnipotent char", !8, i64 0}
!8 = !{!"Simple C/C++ TBAA"}
!9 = distinct !{!9, !4}
!10 = distinct !{!10, !4}
!11 = distinct !{!11, !4}
!12 = distinct !{!12, !4}
