; ModuleID = 'queens.c'
source_filename = "queens.c"
target datalayout = "e-m:e-p270:32:32-p271:32:32-p272:64:64-i64:64-i128:128-f80:128-n8:16:32:64-S128"
target triple = "x86_64-pc-linux-gnu"

%struct.board = type { i32, i32, i32 }

@.str = private unnamed_addr constant [14 x i8] c"%d %d of %5d\0A\00", align 1

; Function Attrs: nofree nounwind uwtable
define dso_local range(i32 0, 256) i32 @main() local_unnamed_addr #0 {
  %1 = alloca %struct.board, align 4
  call void @llvm.lifetime.start.p0(i64 12, ptr nonnull %1) #5
  call void @llvm.memset.p0.i64(ptr noundef nonnull align 4 dereferenceable(12) %1, i8 0, i64 12, i1 false)
  %2 = call fastcc i64 @place(i32 noundef 6, i32 noundef 0, ptr noundef nonnull %1)
  %3 = trunc i64 %2 to i32
  %4 = call fastcc i64 @place(i32 noundef 7, i32 noundef 0, ptr noundef nonnull %1)
  %5 = trunc i64 %4 to i32
  %6 = lshr i64 %4, 32
  %7 = trunc nuw i64 %6 to i32
  %8 = tail call i32 (ptr, ...) @printf(ptr noundef nonnull dereferenceable(1) @.str, i32 noundef %3, i32 noundef %5, i32 noundef %7)
  %9 = mul nsw i32 %3, 50
  %10 = add nsw i32 %9, %5
  %11 = add nsw i32 %10, %7
  %12 = and i32 %11, 255
  call void @llvm.lifetime.end.p0(i64 12, ptr nonnull %1) #5
  ret i32 %12
}

; Function Attrs: mustprogress nocallback nofree nosync nounwind willreturn memory(argmem: readwrite)
declare void @llvm.lifetime.start.p0(i64 immarg, ptr nocapture) #1

; Function Attrs: mustprogress nocallback nofree nounwind willreturn memory(argmem: write)
declare void @llvm.memset.p0.i64(ptr nocapture writeonly, i8, i64, i1 immarg) #2

; Function Attrs: nofree nosync nounwind memory(argmem: read) uwtable
define internal fastcc i64 @place(i32 noundef %0, i32 noundef %1, ptr nocapture noundef readonly %2) unnamed_addr #3 {
  %4 = alloca %struct.board, align 4
  %5 = icmp eq i32 %1, %0
  br i1 %5, label %54, label %6

6:                                                ; preds = %3
  %7 = icmp sgt i32 %0, 0
  br i1 %7, label %8, label %54

8:                                                ; preds = %6
  %9 = add i32 %1, %0
  %10 = load i32, ptr %2, align 4, !tbaa !5
  %11 = getelementptr inbounds i8, ptr %2, i64 4
  %12 = load i32, ptr %11, align 4, !tbaa !10
  %13 = getelementptr inbounds i8, ptr %2, i64 8
  %14 = load i32, ptr %13, align 4, !tbaa !11
  %15 = getelementptr inbounds i8, ptr %4, i64 4
  %16 = getelementptr inbounds i8, ptr %4, i64 8
  %17 = add nsw i32 %1, 1
  br label %23

18:                                               ; preds = %49
  %19 = zext i32 %50 to i64
  %20 = shl nuw i64 %19, 32
  %21 = zext i32 %51 to i64
  %22 = or disjoint i64 %20, %21
  br label %54

23:                                               ; preds = %8, %49
  %24 = phi i32 [ 0, %8 ], [ %51, %49 ]
  %25 = phi i32 [ 0, %8 ], [ %50, %49 ]
  %26 = phi i32 [ 0, %8 ], [ %52, %49 ]
  %27 = shl nuw nsw i32 1, %26
  %28 = add nsw i32 %26, %1
  %29 = shl nuw i32 1, %28
  %30 = sub i32 %9, %26
  %31 = shl nuw i32 1, %30
  %32 = add nsw i32 %25, 1
  %33 = and i32 %10, %27
  %34 = and i32 %12, %29
  %35 = or i32 %34, %33
  %36 = and i32 %14, %31
  %37 = or i32 %35, %36
  %38 = icmp eq i32 %37, 0
  br i1 %38, label %39, label %49

39:                                               ; preds = %23
  call void @llvm.lifetime.start.p0(i64 12, ptr nonnull %4) #5
  %40 = or i32 %10, %27
  store i32 %40, ptr %4, align 4, !tbaa !5
  %41 = or i32 %12, %29
  store i32 %41, ptr %15, align 4, !tbaa !10
  %42 = or i32 %14, %31
  store i32 %42, ptr %16, align 4, !tbaa !11
  %43 = call fastcc i64 @place(i32 noundef %0, i32 noundef %17, ptr noundef nonnull %4)
  %44 = trunc i64 %43 to i32
  %45 = lshr i64 %43, 32
  %46 = trunc nuw i64 %45 to i32
  %47 = add nsw i32 %24, %44
  %48 = add nsw i32 %32, %46
  call void @llvm.lifetime.end.p0(i64 12, ptr nonnull %4) #5
  br label %49

49:                                               ; preds = %23, %39
  %50 = phi i32 [ %48, %39 ], [ %32, %23 ]
  %51 = phi i32 [ %47, %39 ], [ %24, %23 ]
  %52 = add nuw nsw i32 %26, 1
  %53 = icmp eq i32 %52, %0
  br i1 %53, label %18, label %23, !llvm.loop !12

54:                                               ; preds = %6, %18, %3
  %55 = phi i64 [ 1, %3 ], [ 0, %6 ], [ %22, %18 ]
  ret i64 %55
}

; Function Attrs: nofree nounwind
declare noundef i32 @printf(ptr nocapture noundef readonly, ...) local_unnamed_addr #4

; Function Attrs: mustprogress nocallback nofree nosync nounwind willreturn memory(argmem: readwrite)
declare void @llvm.lifetime.end.p0(i64 immarg, ptr nocapture) #1

attributes #0 = { nofree nounwind uwtable "min-legal-vector-width"="0" "no-trapping-math"="true" "stack-protector-buffer-size"="8" "target-cpu"="x86-64" "target-features"="+cmov,+cx8,+fxsr,+mmx,+sse,+sse2,+x87" "tune-cpu"="generic" }
attributes #1 = { mustprogress nocallback nofree nosync nounwind willreturn memory(argmem: readwrite) }
attributes #2 = { mustprogress nocallback nofree nounwind willreturn memory(argmem: write) }
attributes #3 = { nofree nosync nounwind memory(argmem: read) uwtable "min-legal-vector-width"="0" "no-trapping-math"="true" "stack-protector-buffer-size"="8" "target-cpu"="x86-64" "target-features"="+cmov,+cx8,+fxsr,+mmx,+sse,+sse2,+x87" "tune-cpu"="generic" }
attributes #4 = { nofree nounwind "no-trapping-math"="true" "stack-protector-buffer-size"="8" "target-cpu"="x86-64" "target-features"="+cmov,+cx8,+fxsr,+mmx,+sse,+sse2,+x87" "tune-cpu"="generic" }
attributes #5 = { nounwind }

!llvm.module.flags = !{!0, !1, !2, !3}
!llvm.ident = !{!4}

!0 = !{i32 1, !"wchar_size", i32 4}
!1 = !{i32 8, !"PIC Level", i32 2}
!2 = !{i32 7, !"PIE Level", i32 2}
!3 = !{i32 7, !"uwtable", i32 2}
!4 = !{!"Debian clang version 19.1.7 (3~deb12u1)"}
!5 = !{!6, !7, i64 0}
!6 = !{!"board", !7, i64 0, !7, i64 4, !7, i64 8}
!7 = !{!"int", !8, i64 0}
!8 = !{!"omnipotent char", !9, i64 0}
!9 = !{!"Simple C/C++ TBAA"}
!10 = !{!6, !7, i64 4}
!11 = !{!6, !7, i64 8}
!12 = distinct !{!12, !13}
!13 = !{!"llvm.loop.mustprogress"}
