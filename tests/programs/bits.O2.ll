; ModuleID = 'bits.c'
source_filename = "bits.c"
target datalayout = "e-m:e-p270:32:32-p271:32:32-p272:64:64-i64:64-i128:128-f80:128-n8:16:32:64-S128"
target triple = "x86_64-pc-linux-gnu"

; Function Attrs: nofree norecurse nosync nounwind memory(argmem: read) uwtable
define dso_local range(i32 0, 256) i32 @main(i32 noundef %0, ptr nocapture noundef readonly %1) local_unnamed_addr #0 {
  %3 = add i32 %0, 305419896
  %4 = sext i32 %0 to i64
  %5 = getelementptr inbounds ptr, ptr %1, i64 %4
  %6 = load ptr, ptr %5, align 8, !tbaa !5
  %7 = icmp ne ptr %6, null
  %8 = zext i1 %7 to i32
  %9 = add i32 %3, %8
  br label %12

10:                                               ; preds = %12
  %11 = and i32 %42, 255
  ret i32 %11

12:                                               ; preds = %2, %12
  %13 = phi i32 [ 0, %2 ], [ %43, %12 ]
  %14 = phi i32 [ 0, %2 ], [ %42, %12 ]
  %15 = phi i32 [ %9, %2 ], [ %18, %12 ]
  %16 = tail call noundef i32 @llvm.fshl.i32(i32 %15, i32 %15, i32 %13)
  %17 = mul i32 %16, -1640531535
  %18 = add i32 %17, %13
  %19 = tail call range(i32 0, 33) i32 @llvm.ctpop.i32(i32 %18)
  %20 = or i32 %18, 1
  %21 = tail call range(i32 0, 32) i32 @llvm.ctlz.i32(i32 %20, i1 true)
  %22 = mul nuw nsw i32 %21, 3
  %23 = or i32 %18, 32768
  %24 = tail call range(i32 0, 16) i32 @llvm.cttz.i32(i32 %23, i1 true)
  %25 = add i32 %19, %14
  %26 = add i32 %25, %24
  %27 = add i32 %26, %22
  %28 = and i32 %18, 255
  %29 = xor i32 %27, %28
  %30 = icmp slt i32 %18, 0
  %31 = ashr i32 %18, 28
  %32 = select i1 %30, i32 %31, i32 1
  %33 = add i32 %29, %32
  %34 = zext i32 %18 to i64
  %35 = shl nuw i64 %34, 32
  %36 = zext i32 %33 to i64
  %37 = or disjoint i64 %35, %36
  %38 = zext i64 %37 to i128
  %39 = mul nuw i128 %38, 11400714819323198485
  %40 = lshr i128 %39, 64
  %41 = trunc i128 %40 to i32
  %42 = add i32 %33, %41
  %43 = add nuw nsw i32 %13, 1
  %44 = icmp eq i32 %43, 40
  br i1 %44, label %10, label %12, !llvm.loop !9
}

; Function Attrs: mustprogress nocallback nofree nosync nounwind speculatable willreturn memory(none)
declare i32 @llvm.ctpop.i32(i32) #1

; Function Attrs: mustprogress nocallback nofree nosync nounwind speculatable willreturn memory(none)
declare i32 @llvm.ctlz.i32(i32, i1 immarg) #1

; Function Attrs: mustprogress nocallback nofree nosync nounwind speculatable willreturn memory(none)
declare i32 @llvm.cttz.i32(i32, i1 immarg) #1

; Function Attrs: nocallback nofree nosync nounwind speculatable willreturn memory(none)
declare i32 @llvm.fshl.i32(i32, i32, i32) #2

attributes #0 = { nofree norecurse nosync nounwind memory(argmem: read) uwtable "min-legal-vector-width"="0" "no-trapping-math"="true" "stack-protector-buffer-size"="8" "target-cpu"="x86-64" "target-features"="+cmov,+cx8,+fxsr,+mmx,+sse,+sse2,+x87" "tune-cpu"="generic" }
attributes #1 = { mustprogress nocallback nofree nosync nounwind speculatable willreturn memory(none) }
attributes #2 = { nocallback nofree nosync nounwind speculatable willreturn memory(none) }

!llvm.module.flags = !{!0, !1, !2, !3}
!llvm.ident = !{!4}

!0 = !{i32 1, !"wchar_size", i32 4}
!1 = !{i32 8, !"PIC Level", i32 2}
!2 = !{i32 7, !"PIE Level", i32 2}
!3 = !{i32 7, !"uwtable", i32 2}
!4 = !{!"Debian clang version 19.1.7 (3~deb12u1)"}
!5 = !{!6, !6, i64 0}
!6 = !{!"any pointer", !7, i64 0}
!7 = !{!"omnipotent char", !8, i64 0}
!8 = !{!"Simple C/C++ TBAA"}
!9 = distinct !{!9, !10}
!10 = !{!"llvm.loop.mustprogress"}
