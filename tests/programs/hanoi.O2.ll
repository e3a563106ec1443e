; ModuleID = 'hanoi.c'
source_filename = "hanoi.c"
target datalayout = "e-m:e-p270:32:32-p271:32:32-p272:64:64-i64:64-i128:128-f80:128-n8:16:32:64-S128"
target triple = "x86_64-pc-linux-gnu"

%struct.Tower = type { [8 x i32], i32 }

@towers = internal unnamed_addr global [3 x %struct.Tower] zeroinitializer, align 16
@moves = internal unnamed_addr global i32 0, align 4
@.str = private unnamed_addr constant [14 x i8] c"%d: %c to %c\0A\00", align 1

; Function Attrs: nounwind uwtable
define dso_local i32 @main() local_unnamed_addr #0 {
  %1 = load i32, ptr getelementptr inbounds (i8, ptr @towers, i64 32), align 16, !tbaa !3
  %2 = add nsw i32 %1, 1
  store i32 %2, ptr getelementptr inbounds (i8, ptr @towers, i64 32), align 16, !tbaa !3
  %3 = sext i32 %1 to i64
  %4 = getelementptr inbounds [8 x i32], ptr @towers, i64 0, i64 %3
  store i32 7, ptr %4, align 4, !tbaa !8
  %5 = load i32, ptr getelementptr inbounds (i8, ptr @towers, i64 32), align 16, !tbaa !3
  %6 = add nsw i32 %5, 1
  store i32 %6, ptr getelementptr inbounds (i8, ptr @towers, i64 32), align 16, !tbaa !3
  %7 = sext i32 %5 to i64
  %8 = getelementptr inbounds [8 x i32], ptr @towers, i64 0, i64 %7
  store i32 6, ptr %8, align 4, !tbaa !8
  %9 = load i32, ptr getelementptr inbounds (i8, ptr @towers, i64 32), align 16, !tbaa !3
  %10 = add nsw i32 %9, 1
  store i32 %10, ptr getelementptr inbounds (i8, ptr @towers, i64 32), align 16, !tbaa !3
  %11 = sext i32 %9 to i64
  %12 = getelementptr inbounds [8 x i32], ptr @towers, i64 0, i64 %11
  store i32 5, ptr %12, align 4, !tbaa !8
  %13 = load i32, ptr getelementptr inbounds (i8, ptr @towers, i64 32), align 16, !tbaa !3
  %14 = add nsw i32 %13, 1
  store i32 %14, ptr getelementptr inbounds (i8, ptr @towers, i64 32), align 16, !tbaa !3
  %15 = sext i32 %13 to i64
  %16 = getelementptr inbounds [8 x i32], ptr @towers, i64 0, i64 %15
  store i32 4, ptr %16, align 4, !tbaa !8
  %17 = load i32, ptr getelementptr inbounds (i8, ptr @towers, i64 32), align 16, !tbaa !3
  %18 = add nsw i32 %17, 1
  store i32 %18, ptr getelementptr inbounds (i8, ptr @towers, i64 32), align 16, !tbaa !3
  %19 = sext i32 %17 to i64
  %20 = getelementptr inbounds [8 x i32], ptr @towers, i64 0, i64 %19
  store i32 3, ptr %20, align 4, !tbaa !8
  %21 = load i32, ptr getelementptr inbounds (i8, ptr @towers, i64 32), align 16, !tbaa !3
  %22 = add nsw i32 %21, 1
  store i32 %22, ptr getelementptr inbounds (i8, ptr @towers, i64 32), align 16, !tbaa !3
  %23 = sext i32 %21 to i64
  %24 = getelementptr inbounds [8 x i32], ptr @towers, i64 0, i64 %23
  store i32 2, ptr %24, align 4, !tbaa !8
  %25 = load i32, ptr getelementptr inbounds (i8, ptr @towers, i64 32), align 16, !tbaa !3
  %26 = add nsw i32 %25, 1
  store i32 %26, ptr getelementptr inbounds (i8, ptr @towers, i64 32), align 16, !tbaa !3
  %27 = sext i32 %25 to i64
  %28 = getelementptr inbounds [8 x i32], ptr @towers, i64 0, i64 %27
  store i32 1, ptr %28, align 4, !tbaa !8
  tail call fastcc void @carry(i32 noundef 7, i32 noundef 0, i32 noundef 2, i32 noundef 1) #4
  %29 = load i32, ptr @moves, align 4, !tbaa !8
  %30 = tail call fastcc i32 @ackermann(i32 noundef 2, i32 noundef 9) #4
  %31 = add nsw i32 %30, %29
  %32 = load i32, ptr getelementptr inbounds (i8, ptr @towers, i64 104), align 8, !tbaa !3
  %33 = add nsw i32 %31, %32
  ret i32 %33
}

; Function Attrs: nounwind uwtable
define internal fastcc void @carry(i32 noundef %0, i32 noundef %1, i32 noundef %2, i32 noundef %3) unnamed_addr #0 {
  %5 = icmp eq i32 %0, 0
  br i1 %5, label %46, label %6

6:                                                ; preds = %4
  %7 = zext nneg i32 %2 to i64
  %8 = getelementptr inbounds [3 x %struct.Tower], ptr @towers, i64 0, i64 %7
  %9 = getelementptr inbounds i8, ptr %8, i64 32
  %10 = add nuw nsw i32 %2, 65
  br label %11

11:                                               ; preds = %6, %44
  %12 = phi i32 [ %3, %6 ], [ %13, %44 ]
  %13 = phi i32 [ %1, %6 ], [ %12, %44 ]
  %14 = phi i32 [ %0, %6 ], [ %15, %44 ]
  %15 = add nsw i32 %14, -1
  tail call fastcc void @carry(i32 noundef %15, i32 noundef %13, i32 noundef %12, i32 noundef %2) #4
  %16 = zext nneg i32 %13 to i64
  %17 = getelementptr inbounds [3 x %struct.Tower], ptr @towers, i64 0, i64 %16
  %18 = getelementptr inbounds i8, ptr %17, i64 32
  %19 = load i32, ptr %18, align 4, !tbaa !3
  %20 = add nsw i32 %19, -1
  store i32 %20, ptr %18, align 4, !tbaa !3
  %21 = sext i32 %20 to i64
  %22 = getelementptr inbounds [8 x i32], ptr %17, i64 0, i64 %21
  %23 = load i32, ptr %22, align 4, !tbaa !8
  %24 = load i32, ptr %9, align 4, !tbaa !3
  %25 = icmp eq i32 %24, 0
  br i1 %25, label %33, label %26

26:                                               ; preds = %11
  %27 = add nsw i32 %24, -1
  %28 = sext i32 %27 to i64
  %29 = getelementptr inbounds [8 x i32], ptr %8, i64 0, i64 %28
  %30 = load i32, ptr %29, align 4, !tbaa !8
  %31 = icmp slt i32 %30, %23
  br i1 %31, label %32, label %33

32:                                               ; preds = %26
  tail call void @exit(i32 noundef 99) #5
  unreachable

33:                                               ; preds = %26, %11
  %34 = add nsw i32 %24, 1
  store i32 %34, ptr %9, align 4, !tbaa !3
  %35 = sext i32 %24 to i64
  %36 = getelementptr inbounds [8 x i32], ptr %8, i64 0, i64 %35
  store i32 %23, ptr %36, align 4, !tbaa !8
  %37 = load i32, ptr @moves, align 4, !tbaa !8
  %38 = add nsw i32 %37, 1
  store i32 %38, ptr @moves, align 4, !tbaa !8
  %39 = and i32 %38, -2147483633
  %40 = icmp eq i32 %39, 1
  br i1 %40, label %41, label %44

41:                                               ; preds = %33
  %42 = add nuw nsw i32 %13, 65
  %43 = tail call i32 (ptr, ...) @printf(ptr noundef nonnull dereferenceable(1) @.str, i32 noundef %23, i32 noundef %42, i32 noundef %10) #4
  br label %44

44:                                               ; preds = %33, %41
  %45 = icmp eq i32 %15, 0
  br i1 %45, label %46, label %11

46:                                               ; preds = %44, %4
  ret void
}

; Function Attrs: nofree nosync nounwind memory(none) uwtable
define internal fastcc i32 @ackermann(i32 noundef %0, i32 noundef %1) unnamed_addr #1 {
  %3 = icmp eq i32 %0, 0
  br i1 %3, label %4, label %7

4:                                                ; preds = %11, %2
  %5 = phi i32 [ %1, %2 ], [ %12, %11 ]
  %6 = add i32 %5, 1
  ret i32 %6

7:                                                ; preds = %2, %11
  %8 = phi i32 [ %12, %11 ], [ %1, %2 ]
  %9 = phi i32 [ %13, %11 ], [ %0, %2 ]
  %10 = icmp eq i32 %8, 0
  br i1 %10, label %11, label %15

11:                                               ; preds = %7, %15
  %12 = phi i32 [ %17, %15 ], [ 1, %7 ]
  %13 = add nsw i32 %9, -1
  %14 = icmp eq i32 %13, 0
  br i1 %14, label %4, label %7

15:                                               ; preds = %7
  %16 = add i32 %8, -1
  %17 = tail call fastcc i32 @ackermann(i32 noundef %9, i32 noundef %16) #4
  br label %11
}

; Function Attrs: noreturn nounwind
declare dso_local void @exit(i32 noundef) local_unnamed_addr #2

; Function Attrs: nofree nounwind
declare dso_local noundef i32 @printf(ptr nocapture noundef readonly, ...) local_unnamed_addr #3

attributes #0 = { nounwind uwtable "min-legal-vector-width"="0" "no-builtin-calloc" "no-trapping-math"="true" "stack-protector-buffer-size"="8" "target-cpu"="x86-64" "target-features"="+cmov,+cx8,+fxsr,-aes,-avx,-avx10.1-256,-avx10.1-512,-avx2,-avx512bf16,-avx512bitalg,-avx512bw,-avx512cd,-avx512dq,-avx512f,-avx512fp16,-avx512ifma,-avx512vbmi,-avx512vbmi2,-avx512vl,-avx512vnni,-avx512vp2intersect,-avx512vpopcntdq,-avxifma,-avxneconvert,-avxvnni,-avxvnniint16,-avxvnniint8,-f16c,-fma,-fma4,-gfni,-kl,-mmx,-pclmul,-sha,-sha512,-sm3,-sm4,-sse,-sse2,-sse3,-sse4.1,-sse4.2,-sse4a,-ssse3,-vaes,-vpclmulqdq,-widekl,-x87,-xop" "tune-cpu"="generic" }
attributes #1 = { nofree nosync nounwind memory(none) uwtable "min-legal-vector-width"="0" "no-builtin-calloc" "no-trapping-math"="true" "stack-protector-buffer-size"="8" "target-cpu"="x86-64" "target-features"="+cmov,+cx8,+fxsr,-aes,-avx,-avx10.1-256,-avx10.1-512,-avx2,-avx512bf16,-avx512bitalg,-avx512bw,-avx512cd,-avx512dq,-avx512f,-avx512fp16,-avx512ifma,-avx512vbmi,-avx512vbmi2,-avx512vl,-avx512vnni,-avx512vp2intersect,-avx512vpopcntdq,-avxifma,-avxneconvert,-avxvnni,-avxvnniint16,-avxvnniint8,-f16c,-fma,-fma4,-gfni,-kl,-mmx,-pclmul,-sha,-sha512,-sm3,-sm4,-sse,-sse2,-sse3,-sse4.1,-sse4.2,-sse4a,-ssse3,-vaes,-vpclmulqdq,-widekl,-x87,-xop" "tune-cpu"="generic" }
attributes #2 = { noreturn nounwind "no-builtin-calloc" "no-trapping-math"="true" "stack-protector-buffer-size"="8" "target-cpu"="x86-64" "target-features"="+cmov,+cx8,+fxsr,-aes,-avx,-avx10.1-256,-avx10.1-512,-avx2,-avx512bf16,-avx512bitalg,-avx512bw,-avx512cd,-avx512dq,-avx512f,-avx512fp16,-avx512ifma,-avx512vbmi,-avx512vbmi2,-avx512vl,-avx512vnni,-avx512vp2intersect,-avx512vpopcntdq,-avxifma,-avxneconvert,-avxvnni,-avxvnniint16,-avxvnniint8,-f16c,-fma,-fma4,-gfni,-kl,-mmx,-pclmul,-sha,-sha512,-sm3,-sm4,-sse,-sse2,-sse3,-sse4.1,-sse4.2,-sse4a,-ssse3,-vaes,-vpclmulqdq,-widekl,-x87,-xop" "tune-cpu"="generic" }
attributes #3 = { nofree nounwind "no-builtin-calloc" "no-trapping-math"="true" "stack-protector-buffer-size"="8" "target-cpu"="x86-64" "target-features"="+cmov,+cx8,+fxsr,-aes,-avx,-avx10.1-256,-avx10.1-512,-avx2,-avx512bf16,-avx512bitalg,-avx512bw,-avx512cd,-avx512dq,-avx512f,-avx512fp16,-avx512ifma,-avx512vbmi,-avx512vbmi2,-avx512vl,-avx512vnni,-avx512vp2intersect,-avx512vpopcntdq,-avxifma,-avxneconvert,-avxvnni,-avxvnniint16,-avxvnniint8,-f16c,-fma,-fma4,-gfni,-kl,-mmx,-pclmul,-sha,-sha512,-sm3,-sm4,-sse,-sse2,-sse3,-sse4.1,-sse4.2,-sse4a,-ssse3,-vaes,-vpclmulqdq,-widekl,-x87,-xop" "tune-cpu"="generic" }
attributes #4 = { "no-builtin-calloc" }
attributes #5 = { noreturn nounwind "no-builtin-calloc" }

!llvm.module.flags = !{!0, !1}
!llvm.ident = !{!2}

!0 = !{i32 1, !"wchar_size", i32 4}
!1 = !{i32 7, !"uwtable", i32 2}
!2 = !{!"Debian clang version 19.1.7 (3~deb12u1)"}
!3 = !{!4, !7, i64 32}
!4 = !{!"", !5, i64 0, !7, i64 32}
!5 = !{!"omnipotent char", !6, i64 0}
!6 = !{!"Simple C/C++ TBAA"}
!7 = !{!"int", !5, i64 0}
!8 = !{!7, !7, i64 0}
