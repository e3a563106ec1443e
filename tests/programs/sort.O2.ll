; ModuleID = 'sort.c'
source_filename = "sort.c"
target datalayout = "e-m:e-p270:32:32-p271:32:32-p272:64:64-i64:64-i128:128-f80:128-n8:16:32:64-S128"
target triple = "x86_64-pc-linux-gnu"

%struct.pair = type { i16, i64 }

@orders = internal unnamed_addr constant [2 x ptr] [ptr @by_key, ptr @by_value], align 16

; Function Attrs: nounwind uwtable
define dso_local void @sort(ptr noundef %0, i32 noundef %1, ptr nocapture noundef readonly %2) local_unnamed_addr #0 {
  %4 = alloca %struct.pair, align 8
  %5 = icmp sgt i32 %1, 1
  br i1 %5, label %6, label %8

6:                                                ; preds = %3
  %7 = zext nneg i32 %1 to i64
  br label %9

8:                                                ; preds = %21, %3
  ret void

9:                                                ; preds = %6, %21
  %10 = phi i64 [ 1, %6 ], [ %26, %21 ]
  call void @llvm.lifetime.start.p0(i64 16, ptr nonnull %4) #4
  %11 = getelementptr inbounds %struct.pair, ptr %0, i64 %10
  call void @llvm.memcpy.p0.p0.i64(ptr noundef nonnull align 8 dereferenceable(16) %4, ptr noundef nonnull align 8 dereferenceable(16) %11, i64 16, i1 false), !tbaa.struct !5
  br label %12

12:                                               ; preds = %9, %18
  %13 = phi i64 [ %10, %9 ], [ %19, %18 ]
  %14 = getelementptr %struct.pair, ptr %0, i64 %13
  %15 = getelementptr i8, ptr %14, i64 -16
  %16 = call i32 %2(ptr noundef nonnull %4, ptr noundef %15) #4
  %17 = icmp slt i32 %16, 0
  br i1 %17, label %18, label %21

18:                                               ; preds = %12
  call void @llvm.memcpy.p0.p0.i64(ptr noundef nonnull align 8 dereferenceable(16) %14, ptr noundef nonnull align 8 dereferenceable(16) %15, i64 16, i1 false), !tbaa.struct !5
  %19 = add nsw i64 %13, -1
  %20 = icmp sgt i64 %13, 1
  br i1 %20, label %12, label %21, !llvm.loop !12

21:                                               ; preds = %18, %12
  %22 = phi i64 [ 0, %18 ], [ %13, %12 ]
  %23 = shl i64 %22, 32
  %24 = ashr exact i64 %23, 28
  %25 = getelementptr inbounds i8, ptr %0, i64 %24
  call void @llvm.memcpy.p0.p0.i64(ptr noundef nonnull align 8 dereferenceable(16) %25, ptr noundef nonnull align 8 dereferenceable(16) %4, i64 16, i1 false), !tbaa.struct !5
  call void @llvm.lifetime.end.p0(i64 16, ptr nonnull %4) #4
  %26 = add nuw nsw i64 %10, 1
  %27 = icmp eq i64 %26, %7
  br i1 %27, label %8, label %9, !llvm.loop !14
}

; Function Attrs: mustprogress nocallback nofree nosync nounwind willreturn memory(argmem: readwrite)
declare void @llvm.lifetime.start.p0(i64 immarg, ptr nocapture) #1

; Function Attrs: mustprogress nocallback nofree nounwind willreturn memory(argmem: readwrite)
declare void @llvm.memcpy.p0.p0.i64(ptr noalias nocapture writeonly, ptr noalias nocapture readonly, i64, i1 immarg) #2

; Function Attrs: mustprogress nocallback nofree nosync nounwind willreturn memory(argmem: readwrite)
declare void @llvm.lifetime.end.p0(i64 immarg, ptr nocapture) #1

; Function Attrs: nounwind uwtable
define dso_local range(i32 0, 256) i32 @main() local_unnamed_addr #0 {
  %1 = alloca %struct.pair, align 8
  %2 = alloca [8 x %struct.pair], align 16
  call void @llvm.lifetime.start.p0(i64 128, ptr nonnull %2) #4
  store i16 -11300, ptr %2, align 16, !tbaa !15
  %3 = getelementptr inbounds i8, ptr %2, i64 8
  store i64 1037511031, ptr %3, align 8, !tbaa !17
  %4 = getelementptr inbounds i8, ptr %2, i64 16
  store i16 -22780, ptr %4, align 16, !tbaa !15
  %5 = getelementptr inbounds i8, ptr %2, i64 24
  store i64 622315608, ptr %5, align 8, !tbaa !17
  %6 = getelementptr inbounds i8, ptr %2, i64 32
  store i16 -10651, ptr %6, align 16, !tbaa !15
  %7 = getelementptr inbounds i8, ptr %2, i64 40
  store i64 3840608805, ptr %7, align 8, !tbaa !17
  %8 = getelementptr inbounds i8, ptr %2, i64 48
  store i16 3498, ptr %8, align 16, !tbaa !15
  %9 = getelementptr inbounds i8, ptr %2, i64 56
  store i64 3638684782, ptr %9, align 8, !tbaa !17
  %10 = getelementptr inbounds i8, ptr %2, i64 64
  store i16 -15841, ptr %10, align 16, !tbaa !15
  %11 = getelementptr inbounds i8, ptr %2, i64 72
  store i64 3448854915, ptr %11, align 8, !tbaa !17
  %12 = getelementptr inbounds i8, ptr %2, i64 80
  store i16 16045, ptr %12, align 16, !tbaa !15
  %13 = getelementptr inbounds i8, ptr %2, i64 88
  store i64 1746673524, ptr %13, align 8, !tbaa !17
  %14 = getelementptr inbounds i8, ptr %2, i64 96
  store i16 -13027, ptr %14, align 16, !tbaa !15
  %15 = getelementptr inbounds i8, ptr %2, i64 104
  store i64 1140474641, ptr %15, align 8, !tbaa !17
  %16 = getelementptr inbounds i8, ptr %2, i64 112
  store i16 -20646, ptr %16, align 16, !tbaa !15
  %17 = getelementptr inbounds i8, ptr %2, i64 120
  store i64 34346474, ptr %17, align 8, !tbaa !17
  br label %20

18:                                               ; preds = %45
  %19 = and i32 %109, 255
  call void @llvm.lifetime.end.p0(i64 128, ptr nonnull %2) #4
  ret i32 %19

20:                                               ; preds = %0, %45
  %21 = phi i1 [ true, %0 ], [ false, %45 ]
  %22 = phi i64 [ 0, %0 ], [ 1, %45 ]
  %23 = phi i32 [ 0, %0 ], [ %109, %45 ]
  %24 = getelementptr inbounds [2 x ptr], ptr @orders, i64 0, i64 %22
  %25 = load ptr, ptr %24, align 8, !tbaa !18
  br label %26

26:                                               ; preds = %38, %20
  %27 = phi i64 [ 1, %20 ], [ %43, %38 ]
  call void @llvm.lifetime.start.p0(i64 16, ptr nonnull %1) #4
  %28 = getelementptr inbounds %struct.pair, ptr %2, i64 %27
  call void @llvm.memcpy.p0.p0.i64(ptr noundef nonnull align 8 dereferenceable(16) %1, ptr noundef nonnull align 16 dereferenceable(16) %28, i64 16, i1 false), !tbaa.struct !5
  br label %29

29:                                               ; preds = %35, %26
  %30 = phi i64 [ %27, %26 ], [ %36, %35 ]
  %31 = getelementptr %struct.pair, ptr %2, i64 %30
  %32 = getelementptr i8, ptr %31, i64 -16
  %33 = call i32 %25(ptr noundef nonnull %1, ptr noundef %32) #4
  %34 = icmp slt i32 %33, 0
  br i1 %34, label %35, label %38

35:                                               ; preds = %29
  call void @llvm.memcpy.p0.p0.i64(ptr noundef nonnull align 16 dereferenceable(16) %31, ptr noundef nonnull align 16 dereferenceable(16) %32, i64 16, i1 false), !tbaa.struct !5
  %36 = add nsw i64 %30, -1
  %37 = icmp sgt i64 %30, 1
  br i1 %37, label %29, label %38, !llvm.loop !12

38:                                               ; preds = %35, %29
  %39 = phi i64 [ 0, %35 ], [ %30, %29 ]
  %40 = shl i64 %39, 32
  %41 = ashr exact i64 %40, 28
  %42 = getelementptr inbounds i8, ptr %2, i64 %41
  call void @llvm.memcpy.p0.p0.i64(ptr noundef nonnull align 16 dereferenceable(16) %42, ptr noundef nonnull align 8 dereferenceable(16) %1, i64 16, i1 false), !tbaa.struct !5
  call void @llvm.lifetime.end.p0(i64 16, ptr nonnull %1) #4
  %43 = add nuw nsw i64 %27, 1
  %44 = icmp eq i64 %43, 8
  br i1 %44, label %45, label %26, !llvm.loop !14

45:                                               ; preds = %38
  %46 = mul i32 %23, 31
  %47 = load i16, ptr %2, align 16, !tbaa !15
  %48 = zext i16 %47 to i32
  %49 = add i32 %46, %48
  %50 = load i64, ptr %3, align 8, !tbaa !17
  %51 = trunc i64 %50 to i32
  %52 = and i32 %51, 15
  %53 = add i32 %49, %52
  %54 = mul i32 %53, 31
  %55 = load i16, ptr %4, align 16, !tbaa !15
  %56 = zext i16 %55 to i32
  %57 = add i32 %54, %56
  %58 = load i64, ptr %5, align 8, !tbaa !17
  %59 = trunc i64 %58 to i32
  %60 = and i32 %59, 15
  %61 = add i32 %57, %60
  %62 = mul i32 %61, 31
  %63 = load i16, ptr %6, align 16, !tbaa !15
  %64 = zext i16 %63 to i32
  %65 = add i32 %62, %64
  %66 = load i64, ptr %7, align 8, !tbaa !17
  %67 = trunc i64 %66 to i32
  %68 = and i32 %67, 15
  %69 = add i32 %65, %68
  %70 = mul i32 %69, 31
  %71 = load i16, ptr %8, align 16, !tbaa !15
  %72 = zext i16 %71 to i32
  %73 = add i32 %70, %72
  %74 = load i64, ptr %9, align 8, !tbaa !17
  %75 = trunc i64 %74 to i32
  %76 = and i32 %75, 15
  %77 = add i32 %73, %76
  %78 = mul i32 %77, 31
  %79 = load i16, ptr %10, align 16, !tbaa !15
  %80 = zext i16 %79 to i32
  %81 = add i32 %78, %80
  %82 = load i64, ptr %11, align 8, !tbaa !17
  %83 = trunc i64 %82 to i32
  %84 = and i32 %83, 15
  %85 = add i32 %81, %84
  %86 = mul i32 %85, 31
  %87 = load i16, ptr %12, align 16, !tbaa !15
  %88 = zext i16 %87 to i32
  %89 = add i32 %86, %88
  %90 = load i64, ptr %13, align 8, !tbaa !17
  %91 = trunc i64 %90 to i32
  %92 = and i32 %91, 15
  %93 = add i32 %89, %92
  %94 = mul i32 %93, 31
  %95 = load i16, ptr %14, align 16, !tbaa !15
  %96 = zext i16 %95 to i32
  %97 = add i32 %94, %96
  %98 = load i64, ptr %15, align 8, !tbaa !17
  %99 = trunc i64 %98 to i32
  %100 = and i32 %99, 15
  %101 = add i32 %97, %100
  %102 = mul i32 %101, 31
  %103 = load i16, ptr %16, align 16, !tbaa !15
  %104 = zext i16 %103 to i32
  %105 = add i32 %102, %104
  %106 = load i64, ptr %17, align 8, !tbaa !17
  %107 = trunc i64 %106 to i32
  %108 = and i32 %107, 15
  %109 = add i32 %105, %108
  br i1 %21, label %20, label %18, !llvm.loop !20
}

; Function Attrs: mustprogress nofree norecurse nosync nounwind willreturn memory(argmem: read) uwtable
define internal range(i32 -65535, 65536) i32 @by_key(ptr nocapture noundef readonly %0, ptr nocapture noundef readonly %1) #3 {
  %3 = load i16, ptr %0, align 8, !tbaa !15
  %4 = sext i16 %3 to i32
  %5 = load i16, ptr %1, align 8, !tbaa !15
  %6 = sext i16 %5 to i32
  %7 = sub nsw i32 %4, %6
  ret i32 %7
}

; Function Attrs: mustprogress nofree norecurse nosync nounwind willreturn memory(argmem: read) uwtable
define internal range(i32 -1, 2) i32 @by_value(ptr nocapture noundef readonly %0, ptr nocapture noundef readonly %1) #3 {
  %3 = getelementptr inbounds i8, ptr %0, i64 8
  %4 = load i64, ptr %3, align 8, !tbaa !17
  %5 = getelementptr inbounds i8, ptr %1, i64 8
  %6 = load i64, ptr %5, align 8, !tbaa !17
  %7 = icmp sgt i64 %4, %6
  %8 = zext i1 %7 to i32
  %9 = icmp slt i64 %4, %6
  %10 = sext i1 %9 to i32
  %11 = add nsw i32 %10, %8
  ret i32 %11
}

attributes #0 = { nounwind uwtable "min-legal-vector-width"="0" "no-trapping-math"="true" "stack-protector-buffer-size"="8" "target-cpu"="x86-64" "target-features"="+cmov,+cx8,+fxsr,+mmx,+sse,+sse2,+x87" "tune-cpu"="generic" }
attributes #1 = { mustprogress nocallback nofree nosync nounwind willreturn memory(argmem: readwrite) }
attributes #2 = { mustprogress nocallback nofree nounwind willreturn memory(argmem: readwrite) }
attributes #3 = { mustprogress nofree norecurse nosync nounwind willreturn memory(argmem: read) uwtable "min-legal-vector-width"="0" "no-trapping-math"="true" "stack-protector-buffer-size"="8" "target-cpu"="x86-64" "target-features"="+cmov,+cx8,+fxsr,+mmx,+sse,+sse2,+x87" "tune-cpu"="generic" }
attributes #4 = { nounwind }

!llvm.module.flags = !{!0, !1, !2, !3}
!llvm.ident = !{!4}

!0 = !{i32 1, !"wchar_size", i32 4}
!1 = !{i32 8, !"PIC Level", i32 2}
!2 = !{i32 7, !"PIE Level", i32 2}
!3 = !{i32 7, !"uwtable", i32 2}
!4 = !{!"Debian clang version 19.1.7 (3~deb12u1)"}
!5 = !{i64 0, i64 2, !6, i64 8, i64 8, !10}
!6 = !{!7, !7, i64 0}
!7 = !{!"short", !8, i64 0}
!8 = !{!"omnipotent char", !9, i64 0}
!9 = !{!"Simple C/C++ TBAA"}
!10 = !{!11, !11, i64 0}
!11 = !{!"long", !8, i64 0}
!12 = distinct !{!12, !13}
!13 = !{!"llvm.loop.mustprogress"}
!14 = distinct !{!14, !13}
!15 = !{!16, !7, i64 0}
!16 = !{!"pair", !7, i64 0, !11, i64 8}
!17 = !{!16, !11, i64 8}
!18 = !{!19, !19, i64 0}
!19 = !{!"any pointer", !8, i64 0}
!20 = distinct !{!20, !13}
