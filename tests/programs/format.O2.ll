; ModuleID = 'format.c'
source_filename = "format.c"
target datalayout = "e-m:e-p270:32:32-p271:32:32-p272:64:64-i64:64-i128:128-f80:128-n8:16:32:64-S128"
target triple = "x86_64-pc-linux-gnu"

@.str = private unnamed_addr constant [30 x i8] c"%d|%i|%5d|%-5d|%05d|%+d|% d|\0A\00", align 1
@.str.1 = private unnamed_addr constant [31 x i8] c"%u|%x|%X|%o|%10x|%-10X|%010o|\0A\00", align 1
@.str.2 = private unnamed_addr constant [29 x i8] c"%hhd|%hd|%hhu|%hu|%hhx|%ho|\0A\00", align 1
@.str.3 = private unnamed_addr constant [32 x i8] c"%ld|%lld|%lu|%llx|%jd|%zu|%td|\0A\00", align 1
@.str.4 = private unnamed_addr constant [44 x i8] c"%.3d|%.0d|%8.5d|%-8.5d|%+.2d|%.10x|%08.3d|\0A\00", align 1
@.str.5 = private unnamed_addr constant [18 x i8] c"%c%c%c|%3c|%-3c|\0A\00", align 1
@.str.6 = private unnamed_addr constant [30 x i8] c"%s|%10s|%-10s|%.2s|%8.3s|%s|\0A\00", align 1
@.str.7 = private unnamed_addr constant [5 x i8] c"text\00", align 1
@.str.8 = private unnamed_addr constant [6 x i8] c"right\00", align 1
@.str.9 = private unnamed_addr constant [5 x i8] c"left\00", align 1
@.str.10 = private unnamed_addr constant [8 x i8] c"cut off\00", align 1
@.str.11 = private unnamed_addr constant [7 x i8] c"abcdef\00", align 1
@.str.12 = private unnamed_addr constant [1 x i8] zeroinitializer, align 1
@.str.13 = private unnamed_addr constant [28 x i8] c"100%% of %d%%, and nothing\0A\00", align 1
@.str.14 = private unnamed_addr constant [13 x i8] c"%d %d %d %u\0A\00", align 1
@.str.15 = private unnamed_addr constant [9 x i8] c"%ld %ld\0A\00", align 1
@.str.16 = private unnamed_addr constant [15 x i8] c"no conversion\0A\00", align 1
@.str.17 = private unnamed_addr constant [3 x i8] c"%s\00", align 1
@.str.18 = private unnamed_addr constant [10 x i8] c"%5s%-5s|\0A\00", align 1
@.str.19 = private unnamed_addr constant [2 x i8] c"x\00", align 1
@.str.20 = private unnamed_addr constant [2 x i8] c"y\00", align 1
@.str.21 = private unnamed_addr constant [4 x i8] c"%d\0A\00", align 1

; Function Attrs: nofree nounwind uwtable
define dso_local noundef range(i32 0, 128) i32 @main() local_unnamed_addr #0 {
  %1 = tail call i32 (ptr, ...) @printf(ptr noundef nonnull dereferenceable(1) @.str, i32 noundef 42, i32 noundef -42, i32 noundef 42, i32 noundef 42, i32 noundef 42, i32 noundef 42, i32 noundef 42) #2
  %2 = tail call i32 (ptr, ...) @printf(ptr noundef nonnull dereferenceable(1) @.str.1, i32 noundef -1294967296, i32 noundef 48879, i32 noundef 48879, i32 noundef 511, i32 noundef 48879, i32 noundef 48879, i32 noundef 511) #2
  %3 = add nsw i32 %2, %1
  %4 = tail call i32 (ptr, ...) @printf(ptr noundef nonnull dereferenceable(1) @.str.2, i32 noundef -77, i32 noundef -12345, i32 noundef -77, i32 noundef -12345, i32 noundef -77, i32 noundef -12345) #2
  %5 = add nsw i32 %3, %4
  %6 = tail call i32 (ptr, ...) @printf(ptr noundef nonnull dereferenceable(1) @.str.3, i64 noundef -1234567890123456789, i64 noundef -9, i64 noundef -1, i64 noundef -81985529216486896, i64 noundef -1234567890123456789, i64 noundef 99, i64 noundef -5) #2
  %7 = add nsw i32 %5, %6
  %8 = tail call i32 (ptr, ...) @printf(ptr noundef nonnull dereferenceable(1) @.str.4, i32 noundef 7, i32 noundef 0, i32 noundef -42, i32 noundef -42, i32 noundef 3, i32 noundef 255, i32 noundef 12) #2
  %9 = add nsw i32 %7, %8
  %10 = tail call i32 (ptr, ...) @printf(ptr noundef nonnull dereferenceable(1) @.str.5, i32 noundef 97, i32 noundef 98, i32 noundef 355, i32 noundef 100, i32 noundef 101) #2
  %11 = add nsw i32 %9, %10
  %12 = tail call i32 (ptr, ...) @printf(ptr noundef nonnull dereferenceable(1) @.str.6, ptr noundef nonnull @.str.7, ptr noundef nonnull @.str.8, ptr noundef nonnull @.str.9, ptr noundef nonnull @.str.10, ptr noundef nonnull @.str.11, ptr noundef nonnull @.str.12) #2
  %13 = add nsw i32 %11, %12
  %14 = tail call i32 (ptr, ...) @printf(ptr noundef nonnull dereferenceable(1) @.str.13, i32 noundef -1234567) #2
  %15 = add nsw i32 %13, %14
  %16 = tail call i32 (ptr, ...) @printf(ptr noundef nonnull dereferenceable(1) @.str.14, i32 noundef 2147483647, i32 noundef -2147483648, i32 noundef 0, i32 noundef -1) #2
  %17 = add nsw i32 %15, %16
  %18 = tail call i32 (ptr, ...) @printf(ptr noundef nonnull dereferenceable(1) @.str.15, i64 noundef 9223372036854775807, i64 noundef -9223372036854775808) #2
  %19 = add nsw i32 %17, %18
  %20 = tail call i32 (ptr, ...) @printf(ptr noundef nonnull dereferenceable(1) @.str.16) #2
  %21 = add nsw i32 %19, %20
  %22 = tail call i32 (ptr, ...) @printf(ptr noundef nonnull dereferenceable(1) @.str.17, ptr noundef nonnull @.str.12) #2
  %23 = add nsw i32 %21, %22
  %24 = tail call i32 (ptr, ...) @printf(ptr noundef nonnull dereferenceable(1) @.str.18, ptr noundef nonnull @.str.19, ptr noundef nonnull @.str.20) #2
  %25 = add nsw i32 %23, %24
  %26 = tail call i32 (ptr, ...) @printf(ptr noundef nonnull dereferenceable(1) @.str.21, i32 noundef %25) #2
  %27 = and i32 %25, 127
  ret i32 %27
}

; Function Attrs: nofree nounwind
declare dso_local noundef i32 @printf(ptr nocapture noundef readonly, ...) local_unnamed_addr #1

attributes #0 = { nofree nounwind uwtable "min-legal-vector-width"="0" "no-builtin-calloc" "no-trapping-math"="true" "stack-protector-buffer-size"="8" "target-cpu"="x86-64" "target-features"="+cmov,+cx8,+fxsr,-aes,-avx,-avx10.1-256,-avx10.1-512,-avx2,-avx512bf16,-avx512bitalg,-avx512bw,-avx512cd,-avx512dq,-avx512f,-avx512fp16,-avx512ifma,-avx512vbmi,-avx512vbmi2,-avx512vl,-avx512vnni,-avx512vp2intersect,-avx512vpopcntdq,-avxifma,-avxneconvert,-avxvnni,-avxvnniint16,-avxvnniint8,-f16c,-fma,-fma4,-gfni,-kl,-mmx,-pclmul,-sha,-sha512,-sm3,-sm4,-sse,-sse2,-sse3,-sse4.1,-sse4.2,-sse4a,-ssse3,-vaes,-vpclmulqdq,-widekl,-x87,-xop" "tune-cpu"="generic" }
attributes #1 = { nofree nounwind "no-builtin-calloc" "no-trapping-math"="true" "stack-protector-buffer-size"="8" "target-cpu"="x86-64" "target-features"="+cmov,+cx8,+fxsr,-aes,-avx,-avx10.1-256,-avx10.1-512,-avx2,-avx512bf16,-avx512bitalg,-avx512bw,-avx512cd,-avx512dq,-avx512f,-avx512fp16,-avx512ifma,-avx512vbmi,-avx512vbmi2,-avx512vl,-avx512vnni,-avx512vp2intersect,-avx512vpopcntdq,-avxifma,-avxneconvert,-avxvnni,-avxvnniint16,-avxvnniint8,-f16c,-fma,-fma4,-gfni,-kl,-mmx,-pclmul,-sha,-sha512,-sm3,-sm4,-sse,-sse2,-sse3,-sse4.1,-sse4.2,-sse4a,-ssse3,-vaes,-vpclmulqdq,-widekl,-x87,-xop" "tune-cpu"="generic" }
attributes #2 = { "no-builtin-calloc" }

!llvm.module.flags = !{!0, !1}
!llvm.ident = !{!2}

!0 = !{i32 1, !"wchar_size", i32 4}
!1 = !{i32 7, !"uwtable", i32 2}
!2 = !{!"Debian clang version 19.1.7 (3~deb12u1)"}
