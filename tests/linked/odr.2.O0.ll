; ModuleID = 'odr.2.c'
source_filename = "odr.2.c"
target datalayout = "e-m:o-p270:32:32-p271:32:32-p272:64:64-i64:64-i128:128-f80:128-n8:16:32:64-S128"
target triple = "x86_64-apple-macosx10.15.0"

@_ZN5TimesILi7EE5callsE = weak_odr global i32 0, align 4
@shared = linkonce_odr global i32 40, align 4
@_ZZ5addediE3sum = linkonce_odr global i32 0, align 4
@_ZN5TimesILi3EE5callsE = linkonce_odr global i32 0, align 4

; Function Attrs: mustprogress noinline nounwind optnone ssp uwtable
define weak_odr noundef i32 @_ZN5TimesILi7EE2ofEi(i32 noundef %0) #0 align 2 {
  %2 = alloca i32, align 4
  store i32 %0, ptr %2, align 4
  %3 = load i32, ptr @_ZN5TimesILi7EE5callsE, align 4
  %4 = add nsw i32 %3, 1
  store i32 %4, ptr @_ZN5TimesILi7EE5callsE, align 4
  %5 = load i32, ptr %2, align 4
  %6 = mul nsw i32 %5, 7
  ret i32 %6
}

; Function Attrs: mustprogress noinline nounwind optnone ssp uwtable
define noundef i32 @_Z9elsewherei(i32 noundef %0) #0 {
  %2 = alloca i32, align 4
  store i32 %0, ptr %2, align 4
  %3 = load i32, ptr %2, align 4
  %4 = call noundef i32 @_Z5addedi(i32 noundef %3) #1
  %5 = call noundef i32 @_ZN5TimesILi3EE2ofEi(i32 noundef %4) #1
  %6 = load i32, ptr @shared, align 4
  %7 = call noundef i32 @_ZN5TimesILi7EE2ofEi(i32 noundef %6) #1
  %8 = add nsw i32 %5, %7
  ret i32 %8
}

; Function Attrs: mustprogress noinline nounwind optnone ssp uwtable
define linkonce_odr noundef i32 @_ZN5TimesILi3EE2ofEi(i32 noundef %0) #0 align 2 {
  %2 = alloca i32, align 4
  store i32 %0, ptr %2, align 4
  %3 = load i32, ptr @_ZN5TimesILi3EE5callsE, align 4
  %4 = add nsw i32 %3, 1
  store i32 %4, ptr @_ZN5TimesILi3EE5callsE, align 4
  %5 = load i32, ptr %2, align 4
  %6 = mul nsw i32 %5, 3
  ret i32 %6
}

; Function Attrs: mustprogress noinline nounwind optnone ssp uwtable
define linkonce_odr noundef i32 @_Z5addedi(i32 noundef %0) #0 {
  %2 = alloca i32, align 4
  store i32 %0, ptr %2, align 4
  %3 = load i32, ptr %2, align 4
  %4 = load i32, ptr @_ZZ5addediE3sum, align 4
  %5 = add nsw i32 %4, %3
  store i32 %5, ptr @_ZZ5addediE3sum, align 4
  ret i32 %5
}

attributes #0 = { mustprogress noinline nounwind optnone ssp uwtable "frame-pointer"="all" "min-legal-vector-width"="0" "no-builtin-calloc" "no-trapping-math"="true" "stack-protector-buffer-size"="8" "target-cpu"="penryn" "target-features"="+cmov,+cx16,+cx8,+fxsr,+sahf,-aes,-avx,-avx10.1-256,-avx10.1-512,-avx2,-avx512bf16,-avx512bitalg,-avx512bw,-avx512cd,-avx512dq,-avx512f,-avx512fp16,-avx512ifma,-avx512vbmi,-avx512vbmi2,-avx512vl,-avx512vnni,-avx512vp2intersect,-avx512vpopcntdq,-avxifma,-avxneconvert,-avxvnni,-avxvnniint16,-avxvnniint8,-f16c,-fma,-fma4,-gfni,-kl,-mmx,-pclmul,-sha,-sha512,-sm3,-sm4,-sse,-sse2,-sse3,-sse4.1,-sse4.2,-sse4a,-ssse3,-vaes,-vpclmulqdq,-widekl,-x87,-xop" "tune-cpu"="generic" }
attributes #1 = { "no-builtin-calloc" }

!llvm.module.flags = !{!0, !1, !2, !3}
!llvm.ident = !{!4}

!0 = !{i32 1, !"wchar_size", i32 4}
!1 = !{i32 8, !"PIC Level", i32 2}
!2 = !{i32 7, !"uwtable", i32 2}
!3 = !{i32 7, !"frame-pointer", i32 2}
!4 = !{!"Debian clang version 19.1.7 (3~deb12u1)"}
