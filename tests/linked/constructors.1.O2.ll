; ModuleID = 'constructors.1.c'
source_filename = "constructors.1.c"
target datalayout = "e-m:e-p270:32:32-p271:32:32-p272:64:64-i64:64-i128:128-f80:128-n8:16:32:64-S128"
target triple = "x86_64-pc-linux-gnu"

@order = dso_local local_unnamed_addr global i32 1, align 4
@llvm.global_ctors = appending global [2 x { i32, ptr, ptr }] [{ i32, ptr, ptr } { i32 200, ptr @a, ptr null }, { i32, ptr, ptr } { i32 65535, ptr @b, ptr null }]

; Function Attrs: nofree nounwind uwtable
define dso_local void @add_outside(i32 noundef %0) local_unnamed_addr #0 {
  %2 = tail call i32 @putchar(i32 noundef %0) #2
  %3 = load i32, ptr @order, align 4, !tbaa !3
  %4 = mul nsw i32 %3, 3
  %5 = srem i32 %4, 251
  %6 = add nsw i32 %5, %0
  store i32 %6, ptr @order, align 4, !tbaa !3
  ret void
}

; Function Attrs: nofree nounwind uwtable
define internal void @a() #0 {
  %1 = tail call i32 @putchar(i32 noundef 97) #2
  %2 = load i32, ptr @order, align 4, !tbaa !3
  %3 = mul nsw i32 %2, 3
  %4 = srem i32 %3, 251
  %5 = add nsw i32 %4, 97
  store i32 %5, ptr @order, align 4, !tbaa !3
  ret void
}

; Function Attrs: nofree nounwind uwtable
define internal void @b() #0 {
  %1 = tail call i32 @putchar(i32 noundef 98) #2
  %2 = load i32, ptr @order, align 4, !tbaa !3
  %3 = mul nsw i32 %2, 3
  %4 = srem i32 %3, 251
  %5 = add nsw i32 %4, 98
  store i32 %5, ptr @order, align 4, !tbaa !3
  ret void
}

; Function Attrs: nofree nounwind uwtable
define dso_local range(i32 -255, 256) i32 @main() local_unnamed_addr #0 {
  %1 = tail call i32 @putchar(i32 noundef 10) #2
  %2 = load i32, ptr @order, align 4, !tbaa !3
  %3 = srem i32 %2, 256
  ret i32 %3
}

; Function Attrs: nofree nounwind
declare dso_local noundef i32 @putchar(i32 noundef) local_unnamed_addr #1

attributes #0 = { nofree nounwind uwtable "min-legal-vector-width"="0" "no-builtin-calloc" "no-trapping-math"="true" "stack-protector-buffer-size"="8" "target-cpu"="x86-64" "target-features"="+cmov,+cx8,+fxsr,-aes,-avx,-avx10.1-256,-avx10.1-512,-avx2,-avx512bf16,-avx512bitalg,-avx512bw,-avx512cd,-avx512dq,-avx512f,-avx512fp16,-avx512ifma,-avx512vbmi,-avx512vbmi2,-avx512vl,-avx512vnni,-avx512vp2intersect,-avx512vpopcntdq,-avxifma,-avxneconvert,-avxvnni,-avxvnniint16,-avxvnniint8,-f16c,-fma,-fma4,-gfni,-kl,-mmx,-pclmul,-sha,-sha512,-sm3,-sm4,-sse,-sse2,-sse3,-sse4.1,-sse4.2,-sse4a,-ssse3,-vaes,-vpclmulqdq,-widekl,-x87,-xop" "tune-cpu"="generic" }
attributes #1 = { nofree nounwind "no-builtin-calloc" "no-trapping-math"="true" "stack-protector-buffer-size"="8" "target-cpu"="x86-64" "target-features"="+cmov,+cx8,+fxsr,-aes,-avx,-avx10.1-256,-avx10.1-512,-avx2,-avx512bf16,-avx512bitalg,-avx512bw,-avx512cd,-avx512dq,-avx512f,-avx512fp16,-avx512ifma,-avx512vbmi,-avx512vbmi2,-avx512vl,-avx512vnni,-avx512vp2intersect,-avx512vpopcntdq,-avxifma,-avxneconvert,-avxvnni,-avxvnniint16,-avxvnniint8,-f16c,-fma,-fma4,-gfni,-kl,-mmx,-pclmul,-sha,-sha512,-sm3,-sm4,-sse,-sse2,-sse3,-sse4.1,-sse4.2,-sse4a,-ssse3,-vaes,-vpclmulqdq,-widekl,-x87,-xop" "tune-cpu"="generic" }
attributes #2 = { "no-builtin-calloc" }

!llvm.module.flags = !{!0, !1}
!llvm.ident = !{!2}

!0 = !{i32 1, !"wchar_size", i32 4}
!1 = !{i32 7, !"uwtable", i32 2}
!2 = !{!"Debian clang version 19.1.7 (3~deb12u1)"}
!3 = !{!4, !4, i64 0}
!4 = !{!"int", !5, i64 0}
!5 = !{!"omnipotent char", !6, i64 0}
!6 = !{!"Simple C/C++ TBAA"}
