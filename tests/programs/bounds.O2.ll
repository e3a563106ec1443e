; ModuleID = 'bounds.c'
source_filename = "bounds.c"
target datalayout = "e-m:e-p270:32:32-p271:32:32-p272:64:64-i64:64-i128:128-f80:128-n8:16:32:64-S128"
target triple = "x86_64-pc-linux-gnu"

@.str = private unnamed_addr constant [8 x i8] c"%d %ld\0A\00", align 1
@.str.1 = private unnamed_addr constant [7 x i8] c"%d %d\0A\00", align 1
@.str.2 = private unnamed_addr constant [8 x i8] c"%d %lu\0A\00", align 1
@.str.3 = private unnamed_addr constant [13 x i8] c"%d %d %u %u\0A\00", align 1

; Function Attrs: nofree nounwind uwtable
define dso_local range(i32 0, 256) i32 @main() local_unnamed_addr #0 {
  br label %3

1:                                                ; preds = %3
  %2 = tail call i32 (ptr, ...) @printf(ptr noundef nonnull dereferenceable(1) @.str, i32 noundef %9, i64 noundef %7) #4
  br label %12

3:                                                ; preds = %0, %3
  %4 = phi { i64, i1 } [ { i64 3, i1 false }, %0 ], [ %10, %3 ]
  %5 = phi i64 [ 3, %0 ], [ %8, %3 ]
  %6 = phi i32 [ 0, %0 ], [ %9, %3 ]
  %7 = extractvalue { i64, i1 } %4, 0
  %8 = add nuw nsw i64 %5, 2
  %9 = add nuw nsw i32 %6, 1
  %10 = tail call { i64, i1 } @llvm.smul.with.overflow.i64(i64 %7, i64 %8)
  %11 = extractvalue { i64, i1 } %10, 1
  br i1 %11, label %1, label %3, !llvm.loop !3

12:                                               ; preds = %1, %12
  %13 = phi i32 [ -128, %1 ], [ %72, %12 ]
  %14 = phi i32 [ %9, %1 ], [ %71, %12 ]
  %15 = trunc i32 %13 to i8
  %16 = lshr i32 %13, 7
  %17 = and i32 %16, 1
  %18 = add nsw i32 %14, %17
  %19 = icmp slt i8 %15, 15
  %20 = zext i1 %19 to i32
  %21 = add nsw i32 %18, %20
  %22 = icmp slt i8 %15, 30
  %23 = zext i1 %22 to i32
  %24 = add nsw i32 %21, %23
  %25 = icmp slt i8 %15, 45
  %26 = zext i1 %25 to i32
  %27 = add nsw i32 %24, %26
  %28 = icmp slt i8 %15, 60
  %29 = zext i1 %28 to i32
  %30 = add nsw i32 %27, %29
  %31 = icmp slt i8 %15, 75
  %32 = zext i1 %31 to i32
  %33 = add nsw i32 %30, %32
  %34 = icmp slt i8 %15, 90
  %35 = zext i1 %34 to i32
  %36 = add nsw i32 %33, %35
  %37 = icmp slt i8 %15, 105
  %38 = zext i1 %37 to i32
  %39 = add nsw i32 %36, %38
  %40 = icmp slt i8 %15, 120
  %41 = zext i1 %40 to i32
  %42 = add nsw i32 %39, %41
  %43 = icmp sgt i8 %15, -122
  %44 = zext i1 %43 to i32
  %45 = add nsw i32 %42, %44
  %46 = icmp sgt i8 %15, -107
  %47 = zext i1 %46 to i32
  %48 = add nsw i32 %45, %47
  %49 = icmp sgt i8 %15, -92
  %50 = zext i1 %49 to i32
  %51 = add nsw i32 %48, %50
  %52 = icmp sgt i8 %15, -77
  %53 = zext i1 %52 to i32
  %54 = add nsw i32 %51, %53
  %55 = icmp sgt i8 %15, -62
  %56 = zext i1 %55 to i32
  %57 = add nsw i32 %54, %56
  %58 = icmp sgt i8 %15, -47
  %59 = zext i1 %58 to i32
  %60 = add nsw i32 %57, %59
  %61 = icmp sgt i8 %15, -32
  %62 = zext i1 %61 to i32
  %63 = add nsw i32 %60, %62
  %64 = icmp sgt i8 %15, -17
  %65 = zext i1 %64 to i32
  %66 = add nsw i32 %63, %65
  %67 = tail call { i8, i1 } @llvm.sadd.with.overflow.i8(i8 %15, i8 -127)
  %68 = extractvalue { i8, i1 } %67, 1
  %69 = xor i1 %68, true
  %70 = zext i1 %69 to i32
  %71 = add nsw i32 %66, %70
  %72 = add nsw i32 %13, 17
  %73 = icmp slt i32 %13, 111
  br i1 %73, label %12, label %74, !llvm.loop !5

74:                                               ; preds = %12
  %75 = extractvalue { i8, i1 } %67, 0
  %76 = sext i8 %75 to i32
  %77 = tail call i32 (ptr, ...) @printf(ptr noundef nonnull dereferenceable(1) @.str.1, i32 noundef %71, i32 noundef %76) #4
  %78 = tail call i32 (ptr, ...) @printf(ptr noundef nonnull dereferenceable(1) @.str.2, i32 noundef 1, i64 noundef -2) #4
  %79 = tail call i32 (ptr, ...) @printf(ptr noundef nonnull dereferenceable(1) @.str.3, i32 noundef 2147483647, i32 noundef -2147483648, i32 noundef 255, i32 noundef 0) #4
  %80 = and i32 %71, 255
  ret i32 %80
}

; Function Attrs: mustprogress nocallback nofree nosync nounwind speculatable willreturn memory(none)
declare { i64, i1 } @llvm.smul.with.overflow.i64(i64, i64) #1

; Function Attrs: nofree nounwind
declare dso_local noundef i32 @printf(ptr nocapture noundef readonly, ...) local_unnamed_addr #2

; Function Attrs: nocallback nofree nosync nounwind speculatable willreturn memory(none)
declare { i8, i1 } @llvm.sadd.with.overflow.i8(i8, i8) #3

attributes #0 = { nofree nounwind uwtable "min-legal-vector-width"="0" "no-builtin-calloc" "no-trapping-math"="true" "stack-protector-buffer-size"="8" "target-cpu"="x86-64" "target-features"="+cmov,+cx8,+fxsr,-aes,-avx,-avx10.1-256,-avx10.1-512,-avx2,-avx512bf16,-avx512bitalg,-avx512bw,-avx512cd,-avx512dq,-avx512f,-avx512fp16,-avx512ifma,-avx512vbmi,-avx512vbmi2,-avx512vl,-avx512vnni,-avx512vp2intersect,-avx512vpopcntdq,-avxifma,-avxneconvert,-avxvnni,-avxvnniint16,-avxvnniint8,-f16c,-fma,-fma4,-gfni,-kl,-mmx,-pclmul,-sha,-sha512,-sm3,-sm4,-sse,-sse2,-sse3,-sse4.1,-sse4.2,-sse4a,-ssse3,-vaes,-vpclmulqdq,-widekl,-x87,-xop" "tune-cpu"="generic" }
attributes #1 = { mustprogress nocallback nofree nosync nounwind speculatable willreturn memory(none) }
attributes #2 = { nofree nounwind "no-builtin-calloc" "no-trapping-math"="true" "stack-protector-buffer-size"="8" "target-cpu"="x86-64" "target-features"="+cmov,+cx8,+fxsr,-aes,-avx,-avx10.1-256,-avx10.1-512,-avx2,-avx512bf16,-avx512bitalg,-avx512bw,-avx512cd,-avx512dq,-avx512f,-avx512fp16,-avx512ifma,-avx512vbmi,-avx512vbmi2,-avx512vl,-avx512vnni,-avx512vp2intersect,-avx512vpopcntdq,-avxifma,-avxneconvert,-avxvnni,-avxvnniint16,-avxvnniint8,-f16c,-fma,-fma4,-gfni,-kl,-mmx,-pclmul,-sha,-sha512,-sm3,-sm4,-sse,-sse2,-sse3,-sse4.1,-sse4.2,-sse4a,-ssse3,-vaes,-vpclmulqdq,-widekl,-x87,-xop" "tune-cpu"="generic" }
attributes #3 = { nocallback nofree nosync nounwind speculatable willreturn memory(none) }
attributes #4 = { "no-builtin-calloc" }

!llvm.module.flags = !{!0, !1}
!llvm.ident = !{!2}

!0 = !{i32 1, !"wchar_size", i32 4}
!1 = !{i32 7, !"uwtable", i32 2}
!2 = !{!"Debian clang version 19.1.7 (3~deb12u1)"}
!3 = distinct !{!3, !4}
!4 = !{!"llvm.loop.mustprogress"}
!5 = distinct !{!5, !4}
