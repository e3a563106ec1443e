; ModuleID = 'list.c'
source_filename = "list.c"
target datalayout = "e-m:e-p270:32:32-p271:32:32-p272:64:64-i64:64-i128:128-f80:128-n8:16:32:64-S128"
target triple = "x86_64-pc-linux-gnu"

; Function Attrs: nounwind uwtable
define dso_local range(i32 -250, 251) i32 @main() local_unnamed_addr #0 {
  %1 = tail call noalias noundef dereferenceable_or_null(16) ptr @malloc(i64 noundef 16) #3
  store i32 1, ptr %1, align 8, !tbaa !5
  %2 = getelementptr inbounds i8, ptr %1, i64 8
  store ptr null, ptr %2, align 8, !tbaa !11
  %3 = tail call noalias noundef dereferenceable_or_null(16) ptr @malloc(i64 noundef 16) #3
  store i32 4, ptr %3, align 8, !tbaa !5
  %4 = getelementptr inbounds i8, ptr %3, i64 8
  store ptr %1, ptr %4, align 8, !tbaa !11
  %5 = tail call noalias noundef dereferenceable_or_null(16) ptr @malloc(i64 noundef 16) #3
  store i32 9, ptr %5, align 8, !tbaa !5
  %6 = getelementptr inbounds i8, ptr %5, i64 8
  store ptr %3, ptr %6, align 8, !tbaa !11
  %7 = tail call noalias noundef dereferenceable_or_null(16) ptr @malloc(i64 noundef 16) #3
  store i32 16, ptr %7, align 8, !tbaa !5
  %8 = getelementptr inbounds i8, ptr %7, i64 8
  store ptr %5, ptr %8, align 8, !tbaa !11
  %9 = tail call noalias noundef dereferenceable_or_null(16) ptr @malloc(i64 noundef 16) #3
  store i32 25, ptr %9, align 8, !tbaa !5
  %10 = getelementptr inbounds i8, ptr %9, i64 8
  store ptr %7, ptr %10, align 8, !tbaa !11
  %11 = tail call noalias noundef dereferenceable_or_null(16) ptr @malloc(i64 noundef 16) #3
  store i32 36, ptr %11, align 8, !tbaa !5
  %12 = getelementptr inbounds i8, ptr %11, i64 8
  store ptr %9, ptr %12, align 8, !tbaa !11
  %13 = tail call noalias noundef dereferenceable_or_null(16) ptr @malloc(i64 noundef 16) #3
  store i32 49, ptr %13, align 8, !tbaa !5
  %14 = getelementptr inbounds i8, ptr %13, i64 8
  store ptr %11, ptr %14, align 8, !tbaa !11
  %15 = tail call noalias noundef dereferenceable_or_null(16) ptr @malloc(i64 noundef 16) #3
  store i32 64, ptr %15, align 8, !tbaa !5
  %16 = getelementptr inbounds i8, ptr %15, i64 8
  store ptr %13, ptr %16, align 8, !tbaa !11
  %17 = tail call noalias noundef dereferenceable_or_null(16) ptr @malloc(i64 noundef 16) #3
  store i32 81, ptr %17, align 8, !tbaa !5
  %18 = getelementptr inbounds i8, ptr %17, i64 8
  store ptr %15, ptr %18, align 8, !tbaa !11
  %19 = tail call noalias noundef dereferenceable_or_null(16) ptr @malloc(i64 noundef 16) #3
  store i32 100, ptr %19, align 8, !tbaa !5
  %20 = getelementptr inbounds i8, ptr %19, i64 8
  store ptr %17, ptr %20, align 8, !tbaa !11
  br label %21

21:                                               ; preds = %0, %21
  %22 = phi ptr [ %25, %21 ], [ %19, %0 ]
  %23 = phi ptr [ %22, %21 ], [ null, %0 ]
  %24 = getelementptr inbounds i8, ptr %22, i64 8
  %25 = load ptr, ptr %24, align 8, !tbaa !11
  store ptr %23, ptr %24, align 8, !tbaa !11
  %26 = icmp eq ptr %25, null
  br i1 %26, label %27, label %21, !llvm.loop !12

27:                                               ; preds = %21, %27
  %28 = phi ptr [ %32, %27 ], [ %22, %21 ]
  %29 = phi i32 [ %33, %27 ], [ 1, %21 ]
  %30 = phi i32 [ %36, %27 ], [ 0, %21 ]
  %31 = getelementptr inbounds i8, ptr %28, i64 8
  %32 = load ptr, ptr %31, align 8, !tbaa !11
  %33 = add nuw nsw i32 %29, 1
  %34 = load i32, ptr %28, align 8, !tbaa !5
  %35 = mul nsw i32 %34, %29
  %36 = add nsw i32 %35, %30
  tail call void @free(ptr noundef nonnull %28) #4
  %37 = icmp eq ptr %32, null
  br i1 %37, label %38, label %27, !llvm.loop !14

38:                                               ; preds = %27
  %39 = srem i32 %36, 251
  ret i32 %39
}

; Function Attrs: mustprogress nounwind willreturn allockind("free") memory(argmem: readwrite, inaccessiblemem: readwrite)
declare void @free(ptr allocptr nocapture noundef) local_unnamed_addr #1

; Function Attrs: mustprogress nofree nounwind willreturn allockind("alloc,uninitialized") allocsize(0) memory(inaccessiblemem: readwrite)
declare noalias noundef ptr @malloc(i64 noundef) local_unnamed_addr #2

attributes #0 = { nounwind uwtable "min-legal-vector-width"="0" "no-trapping-math"="true" "stack-protector-buffer-size"="8" "target-cpu"="x86-64" "target-features"="+cmov,+cx8,+fxsr,+mmx,+sse,+sse2,+x87" "tune-cpu"="generic" }
attributes #1 = { mustprogress nounwind willreturn allockind("free") memory(argmem: readwrite, inaccessiblemem: readwrite) "alloc-family"="malloc" "no-trapping-math"="true" "stack-protector-buffer-size"="8" "target-cpu"="x86-64" "target-features"="+cmov,+cx8,+fxsr,+mmx,+sse,+sse2,+x87" "tune-cpu"="generic" }
attributes #2 = { mustprogress nofree nounwind willreturn allockind("alloc,uninitialized") allocsize(0) memory(inaccessiblemem: readwrite) "alloc-family"="malloc" "no-trapping-math"="true" "stack-protector-buffer-size"="8" "target-cpu"="x86-64" "target-features"="+cmov,+cx8,+fxsr,+mmx,+sse,+sse2,+x87" "tune-cpu"="generic" }
attributes #3 = { nounwind allocsize(0) }
attributes #4 = { nounwind }

!llvm.module.flags = !{!0, !1, !2, !3}
!llvm.ident = !{!4}

!0 = !{i32 1, !"wchar_size", i32 4}
!1 = !{i32 8, !"PIC Level", i32 2}
!2 = !{i32 7, !"PIE Level", i32 2}
!3 = !{i32 7, !"uwtable", i32 2}
!4 = !{!"Debian clang version 19.1.7 (3~deb12u1)"}
!5 = !{!6, !7, i64 0}
!6 = !{!"node", !7, i64 0, !10, i64 8}
!7 = !{!"int", !8, i64 0}
!8 = !{!"omnipotent char", !9, i64 0}
!9 = !{!"Simple C/C++ TBAA"}
!10 = !{!"any pointer", !8, i64 0}
!11 = !{!6, !10, i64 8}
!12 = distinct !{!12, !13}
!13 = !{!"llvm.loop.mustprogress"}
!14 = distinct !{!14, !13}
