; ModuleID = 'f.c'
source_filename = "f.c"
target datalayout = "e-m:e-p270:32:32-p271:32:32-p272:64:64-i64:64-i128:128-f80:128-n8:16:32:64-S128"
target triple = "x86_64-pc-linux-gnu"

; Function Attrs: noinline nounwind optnone uwtable
define dso_local { i64, i64 } @multiply(i64 noundef %a, i64 noundef %b) #0 {
entry:
  %retval = alloca i128, align 16
  %a.addr = alloca i64, align 8
  %b.addr = alloca i64, align 8
  store i64 %a, ptr %a.addr, align 8
  store i64 %b, ptr %b.addr, align 8
  %0 = load i64, ptr %a.addr, align 8
  %conv = zext i64 %0 to i128
  %1 = load i64, ptr %b.addr, align 8
  %conv1 = zext i64 %1 to i128
  %mul = mul i128 %conv, %conv1
  store i128 %mul, ptr %retval, align 16
  %2 = load { i64, i64 }, ptr %retval, align 16
  ret { i64, i64 } %2
}

; Function Attrs: noinline nounwind optnone uwtable
define dso_local { i64, i64 } @shift(i64 noundef %x.coerce0, i64 noundef %x.coerce1, i32 noundef %n) #0 {
entry:
  %retval = alloca i128, align 16
  %x = alloca i128, align 16
  %x.addr = alloca i128, align 16
  %n.addr = alloca i32, align 4
  %0 = getelementptr inbounds { i64, i64 }, ptr %x, i32 0, i32 0
  store i64 %x.coerce0, ptr %0, align 16
  %1 = getelementptr inbounds { i64, i64 }, ptr %x, i32 0, i32 1
  store i64 %x.coerce1, ptr %1, align 8
  %x1 = load i128, ptr %x, align 16
  store i128 %x1, ptr %x.addr, align 16
  store i32 %n, ptr %n.addr, align 4
  %2 = load i128, ptr %x.addr, align 16
  %3 = load i32, ptr %n.addr, align 4
  %sh_prom = zext i32 %3 to i128
  %shl = shl i128 %2, %sh_prom
  %4 = load i128, ptr %x.addr, align 16
  %shr = ashr i128 %4, 3
  %xor = xor i128 %shl, %shr
  %5 = load i128, ptr %x.addr, align 16
  %shr2 = lshr i128 %5, 7
  %xor3 = xor i128 %xor, %shr2
  store i128 %xor3, ptr %retval, align 16
  %6 = load { i64, i64 }, ptr %retval, align 16
  ret { i64, i64 } %6
}

; Function Attrs: noinline nounwind optnone uwtable
define dso_local i32 @main() #0 {
entry:
  %retval = alloca i32, align 4
  %m = alloca i128, align 16
  %coerce = alloca i128, align 16
  %coerce1 = alloca i128, align 16
  %coerce3 = alloca i128, align 16
  store i32 0, ptr %retval, align 4
  %call = call { i64, i64 } @multiply(i64 noundef -81985529216486896, i64 noundef 81985529216486895)
  %0 = getelementptr inbounds { i64, i64 }, ptr %coerce, i32 0, i32 0
  %1 = extractvalue { i64, i64 } %call, 0
  store i64 %1, ptr %0, align 16
  %2 = getelementptr inbounds { i64, i64 }, ptr %coerce, i32 0, i32 1
  %3 = extractvalue { i64, i64 } %call, 1
  store i64 %3, ptr %2, align 8
  %4 = load i128, ptr %coerce, align 16
  store i128 %4, ptr %m, align 16
  %5 = load i128, ptr %m, align 16
  %shr = lshr i128 %5, 64
  %conv = trunc i128 %shr to i32
  %6 = load i128, ptr %m, align 16
  store i128 %6, ptr %coerce1, align 16
  %7 = getelementptr inbounds { i64, i64 }, ptr %coerce1, i32 0, i32 0
  %8 = load i64, ptr %7, align 16
  %9 = getelementptr inbounds { i64, i64 }, ptr %coerce1, i32 0, i32 1
  %10 = load i64, ptr %9, align 8
  %call2 = call { i64, i64 } @shift(i64 noundef %8, i64 noundef %10, i32 noundef 5)
  %11 = getelementptr inbounds { i64, i64 }, ptr %coerce3, i32 0, i32 0
  %12 = extractvalue { i64, i64 } %call2, 0
  store i64 %12, ptr %11, align 16
  %13 = getelementptr inbounds { i64, i64 }, ptr %coerce3, i32 0, i32 1
  %14 = extractvalue { i64, i64 } %call2, 1
  store i64 %14, ptr %13, align 8
  %15 = load i128, ptr %coerce3, align 16
  %conv4 = trunc i128 %15 to i32
  %xor = xor i32 %conv, %conv4
  ret i32 %xor
}

attributes #0 = { noinline nounwind optnone uwtable "frame-pointer"="all" "min-legal-vector-width"="0" "no-trapping-math"="true" "stack-protector-buffer-size"="8" "target-cpu"="x86-64" "target-features"="+cmov,+cx8,+fxsr,+mmx,+sse,+sse2,+x87" "tune-cpu"="generic" }

!llvm.module.flags = !{!0, !1, !2, !3, !4}
!llvm.ident = !{!5}

!0 = !{i32 1, !"wchar_size", i32 4}
!1 = !{i32 8, !"PIC Level", i32 2}
!2 = !{i32 7, !"PIE Level", i32 2}
!3 = !{i32 7, !"uwtable", i32 2}
!4 = !{i32 7, !"frame-pointer", i32 2}
!5 = !{!"Debian clang version 19.1.7 (3~deb12u1)"}
