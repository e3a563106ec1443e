; ModuleID = 'matrix.c'
source_filename = "matrix.c"
target datalayout = "e-m:e-p270:32:32-p271:32:32-p272:64:64-i64:64-i128:128-f80:128-n8:16:32:64-S128"
target triple = "x86_64-pc-linux-gnu"

; Function Attrs: nofree norecurse nosync nounwind memory(none) uwtable
define dso_local range(i32 0, 256) i32 @main() local_unnamed_addr #0 {
  %1 = alloca [3 x [3 x i64]], align 16
  %2 = alloca [3 x [3 x i64]], align 16
  %3 = alloca [3 x [3 x i64]], align 16
  %4 = alloca [3 x [3 x i64]], align 16
  call void @llvm.lifetime.start.p0(i64 72, ptr nonnull %3) #4
  %5 = getelementptr inbounds i8, ptr %3, i64 16
  call void @llvm.memset.p0.i64(ptr noundef nonnull align 16 dereferenceable(72) %5, i8 0, i64 48, i1 false)
  store i64 1, ptr %3, align 16
  %6 = getelementptr inbounds i8, ptr %3, i64 8
  store i64 1, ptr %6, align 8
  %7 = getelementptr inbounds i8, ptr %3, i64 32
  store i64 1, ptr %7, align 16
  %8 = getelementptr inbounds i8, ptr %3, i64 40
  store i64 1, ptr %8, align 8
  %9 = getelementptr inbounds i8, ptr %3, i64 48
  store i64 1, ptr %9, align 16
  %10 = getelementptr inbounds i8, ptr %3, i64 64
  store i64 1, ptr %10, align 16
  call void @llvm.lifetime.start.p0(i64 72, ptr nonnull %4) #4
  call void @llvm.memset.p0.i64(ptr noundef nonnull align 16 dereferenceable(72) %4, i8 0, i64 64, i1 false)
  store i64 1, ptr %4, align 16
  %11 = getelementptr inbounds i8, ptr %4, i64 32
  store i64 1, ptr %11, align 16
  %12 = getelementptr inbounds i8, ptr %4, i64 64
  store i64 1, ptr %12, align 16
  %13 = getelementptr inbounds i8, ptr %3, i64 24
  %14 = getelementptr inbounds i8, ptr %3, i64 56
  %15 = getelementptr inbounds i8, ptr %3, i64 16
  br label %27

16:                                               ; preds = %117
  %17 = load i64, ptr %4, align 16, !tbaa !5
  %18 = getelementptr inbounds i8, ptr %4, i64 40
  %19 = load i64, ptr %18, align 8, !tbaa !5
  %20 = xor i64 %19, %17
  %21 = getelementptr inbounds i8, ptr %4, i64 56
  %22 = load i64, ptr %21, align 8, !tbaa !5
  %23 = lshr i64 %22, 8
  %24 = xor i64 %20, %23
  %25 = trunc i64 %24 to i32
  %26 = and i32 %25, 255
  call void @llvm.lifetime.end.p0(i64 72, ptr nonnull %4) #4
  call void @llvm.lifetime.end.p0(i64 72, ptr nonnull %3) #4
  ret i32 %26

27:                                               ; preds = %0, %117
  %28 = phi i64 [ 1000, %0 ], [ %118, %117 ]
  %29 = and i64 %28, 1
  %30 = icmp eq i64 %29, 0
  %31 = load i64, ptr %3, align 16, !tbaa !5
  %32 = load i64, ptr %13, align 8, !tbaa !5
  %33 = load i64, ptr %9, align 16, !tbaa !5
  %34 = load i64, ptr %6, align 8, !tbaa !5
  %35 = load i64, ptr %7, align 16, !tbaa !5
  %36 = load i64, ptr %14, align 8, !tbaa !5
  %37 = load i64, ptr %15, align 16, !tbaa !5
  %38 = load i64, ptr %8, align 8, !tbaa !5
  %39 = load i64, ptr %10, align 16, !tbaa !5
  br i1 %30, label %79, label %40

40:                                               ; preds = %27
  call void @llvm.lifetime.start.p0(i64 72, ptr nonnull %2) #4
  br label %41

41:                                               ; preds = %41, %40
  %42 = phi i64 [ 0, %40 ], [ %76, %41 ]
  %43 = getelementptr inbounds [3 x i64], ptr %4, i64 %42, i64 0
  %44 = getelementptr inbounds [3 x [3 x i64]], ptr %2, i64 0, i64 %42, i64 0
  %45 = load i64, ptr %43, align 8, !tbaa !5
  %46 = mul i64 %45, %31
  %47 = urem i64 %46, 1000000007
  %48 = getelementptr inbounds [3 x i64], ptr %4, i64 %42, i64 1
  %49 = load i64, ptr %48, align 8, !tbaa !5
  %50 = mul i64 %49, %32
  %51 = add i64 %50, %47
  %52 = urem i64 %51, 1000000007
  %53 = getelementptr inbounds [3 x i64], ptr %4, i64 %42, i64 2
  %54 = load i64, ptr %53, align 8, !tbaa !5
  %55 = mul i64 %54, %33
  %56 = add i64 %52, %55
  %57 = urem i64 %56, 1000000007
  store i64 %57, ptr %44, align 8, !tbaa !5
  %58 = getelementptr inbounds [3 x [3 x i64]], ptr %2, i64 0, i64 %42, i64 1
  %59 = mul i64 %45, %34
  %60 = urem i64 %59, 1000000007
  %61 = mul i64 %49, %35
  %62 = add i64 %61, %60
  %63 = urem i64 %62, 1000000007
  %64 = mul i64 %54, %36
  %65 = add i64 %63, %64
  %66 = urem i64 %65, 1000000007
  store i64 %66, ptr %58, align 8, !tbaa !5
  %67 = getelementptr inbounds [3 x [3 x i64]], ptr %2, i64 0, i64 %42, i64 2
  %68 = mul i64 %45, %37
  %69 = urem i64 %68, 1000000007
  %70 = mul i64 %49, %38
  %71 = add i64 %70, %69
  %72 = urem i64 %71, 1000000007
  %73 = mul i64 %54, %39
  %74 = add i64 %72, %73
  %75 = urem i64 %74, 1000000007
  store i64 %75, ptr %67, align 8, !tbaa !5
  %76 = add nuw nsw i64 %42, 1
  %77 = icmp eq i64 %76, 3
  br i1 %77, label %78, label %41, !llvm.loop !9

78:                                               ; preds = %41
  call void @llvm.memcpy.p0.p0.i64(ptr noundef nonnull align 16 dereferenceable(72) %4, ptr noundef nonnull align 16 dereferenceable(72) %2, i64 72, i1 false), !tbaa !5
  call void @llvm.lifetime.end.p0(i64 72, ptr nonnull %2) #4
  br label %79

79:                                               ; preds = %78, %27
  call void @llvm.lifetime.start.p0(i64 72, ptr nonnull %1) #4
  br label %80

80:                                               ; preds = %80, %79
  %81 = phi i64 [ 0, %79 ], [ %115, %80 ]
  %82 = getelementptr inbounds [3 x i64], ptr %3, i64 %81, i64 0
  %83 = getelementptr inbounds [3 x [3 x i64]], ptr %1, i64 0, i64 %81, i64 0
  %84 = load i64, ptr %82, align 8, !tbaa !5
  %85 = mul i64 %84, %31
  %86 = urem i64 %85, 1000000007
  %87 = getelementptr inbounds [3 x i64], ptr %3, i64 %81, i64 1
  %88 = load i64, ptr %87, align 8, !tbaa !5
  %89 = mul i64 %88, %32
  %90 = add i64 %89, %86
  %91 = urem i64 %90, 1000000007
  %92 = getelementptr inbounds [3 x i64], ptr %3, i64 %81, i64 2
  %93 = load i64, ptr %92, align 8, !tbaa !5
  %94 = mul i64 %93, %33
  %95 = add i64 %91, %94
  %96 = urem i64 %95, 1000000007
  store i64 %96, ptr %83, align 8, !tbaa !5
  %97 = getelementptr inbounds [3 x [3 x i64]], ptr %1, i64 0, i64 %81, i64 1
  %98 = mul i64 %84, %34
  %99 = urem i64 %98, 1000000007
  %100 = mul i64 %88, %35
  %101 = add i64 %100, %99
  %102 = urem i64 %101, 1000000007
  %103 = mul i64 %93, %36
  %104 = add i64 %102, %103
  %105 = urem i64 %104, 1000000007
  store i64 %105, ptr %97, align 8, !tbaa !5
  %106 = getelementptr inbounds [3 x [3 x i64]], ptr %1, i64 0, i64 %81, i64 2
  %107 = mul i64 %84, %37
  %108 = urem i64 %107, 1000000007
  %109 = mul i64 %88, %38
  %110 = add i64 %109, %108
  %111 = urem i64 %110, 1000000007
  %112 = mul i64 %93, %39
  %113 = add i64 %111, %112
  %114 = urem i64 %113, 1000000007
  store i64 %114, ptr %106, align 8, !tbaa !5
  %115 = add nuw nsw i64 %81, 1
  %116 = icmp eq i64 %115, 3
  br i1 %116, label %117, label %80, !llvm.loop !9

117:                                              ; preds = %80
  call void @llvm.memcpy.p0.p0.i64(ptr noundef nonnull align 16 dereferenceable(72) %3, ptr noundef nonnull align 16 dereferenceable(72) %1, i64 72, i1 false), !tbaa !5
  call void @llvm.lifetime.end.p0(i64 72, ptr nonnull %1) #4
  %118 = lshr i64 %28, 1
  %119 = icmp ult i64 %28, 2
  br i1 %119, label %16, label %27, !llvm.loop !11
}

; Function Attrs: mustprogress nocallback nofree nosync nounwind willreturn memory(argmem: readwrite)
declare void @llvm.lifetime.start.p0(i64 immarg, ptr nocapture) #1

; Function Attrs: mustprogress nocallback nofree nounwind willreturn memory(argmem: write)
declare void @llvm.memset.p0.i64(ptr nocapture writeonly, i8, i64, i1 immarg) #2

; Function Attrs: mustprogress nocallback nofree nosync nounwind willreturn memory(argmem: readwrite)
declare void @llvm.lifetime.end.p0(i64 immarg, ptr nocapture) #1

; Function Attrs: nocallback nofree nounwind willreturn memory(argmem: readwrite)
declare void @llvm.memcpy.p0.p0.i64(ptr noalias nocapture writeonly, ptr noalias nocapture readonly, i64, i1 immarg) #3

attributes #0 = { nofree norecurse nosync nounwind memory(none) uwtable "min-legal-vector-width"="0" "no-trapping-math"="true" "stack-protector-buffer-size"="8" "target-cpu"="x86-64" "target-features"="+cmov,+cx8,+fxsr,+mmx,+sse,+sse2,+x87" "tune-cpu"="generic" }
attributes #1 = { mustprogress nocallback nofree nosync nounwind willreturn memory(argmem: readwrite) }
attributes #2 = { mustprogress nocallback nofree nounwind willreturn memory(argmem: write) }
attributes #3 = { nocallback nofree nounwind willreturn memory(argmem: readwrite) }
attributes #4 = { nounwind }

!llvm.module.flags = !{!0, !1, !2, !3}
!llvm.ident = !{!4}

!0 = !{i32 1, !"wchar_size", i32 4}
!1 = !{i32 8, !"PIC Level", i32 2}
!2 = !{i32 7, !"PIE Level", i32 2}
!3 = !{i32 7, !"uwtable", i32 2}
!4 = !{!"Debian clang version 19.1.7 (3~deb12u1)"}
!5 = !{!6, !6, i64 0}
!6 = !{!"long", !7, i64 0}
!7 = !{!"omnipotent char", !8, i64 0}
!8 = !{!"Simple C/C++ TBAA"}
!9 = distinct !{!9, !10}
!10 = !{!"llvm.loop.mustprogress"}
!11 = distinct !{!11, !10}
