; ModuleID = 'j.c'
source_filename = "j.c"
target datalayout = "e-m:e-p270:32:32-p271:32:32-p272:64:64-i64:64-i128:128-f80:128-n8:16:32:64-S128"
target triple = "x86_64-pc-linux-gnu"

@counter = dso_local global i32 3, align 4

; Function Attrs: noinline nounwind optnone uwtable
define weak dso_local i32 @hook(i32 noundef %x) #0 {
entry:
  %x.addr = alloca i32, align 4
  store i32 %x, ptr %x.addr, align 4
  %0 = load i32, ptr %x.addr, align 4
  ret i32 %0
}

; Function Attrs: noinline nounwind optnone uwtable
define dso_local i64 @pick(i1 noundef zeroext %c, i64 noundef %a, i64 noundef %b) #0 {
entry:
  %c.addr = alloca i8, align 1
  %a.addr = alloca i64, align 8
  %b.addr = alloca i64, align 8
  %storedv = zext i1 %c to i8
  store i8 %storedv, ptr %c.addr, align 1
  store i64 %a, ptr %a.addr, align 8
  store i64 %b, ptr %b.addr, align 8
  %0 = load i8, ptr %c.addr, align 1
  %loadedv = trunc i8 %0 to i1
  br i1 %loadedv, label %cond.true, label %cond.false

cond.true:                                        ; preds = %entry
  %1 = load i64, ptr %a.addr, align 8
  br label %cond.end

cond.false:                                       ; preds = %entry
  %2 = load i64, ptr %b.addr, align 8
  br label %cond.end

cond.end:                                         ; preds = %cond.false, %cond.true
  %cond = phi i64 [ %1, %cond.true ], [ %2, %cond.false ]
  ret i64 %cond
}

; Function Attrs: noinline nounwind optnone uwtable
define dso_local double @half(i32 noundef %x) #0 {
entry:
  %x.addr = alloca i32, align 4
  store i32 %x, ptr %x.addr, align 4
  %0 = load i32, ptr %x.addr, align 4
  %conv = sitofp i32 %0 to double
  %div = fdiv double %conv, 2.000000e+00
  ret double %div
}

; Function Attrs: noinline nounwind optnone uwtable
define dso_local i32 @main() #0 {
entry:
  %retval = alloca i32, align 4
  store i32 0, ptr %retval, align 4
  br label %on

on:                                               ; preds = %entry
  %0 = load i32, ptr @counter, align 4
  %inc = add nsw i32 %0, 1
  store i32 %inc, ptr @counter, align 4
  %1 = load i32, ptr @counter, align 4
  %conv = trunc i32 %1 to i16
  %call = call zeroext i1 @even(i16 noundef signext %conv)
  %call1 = call i32 @hook(i32 noundef 1)
  %conv2 = sext i32 %call1 to i64
  %call3 = call i32 @hook(i32 noundef 2)
  %conv4 = sext i32 %call3 to i64
  %call5 = call i64 @pick(i1 noundef zeroext %call, i64 noundef %conv2, i64 noundef %conv4)
  %conv6 = trunc i64 %call5 to i32
  ret i32 %conv6
}

; Function Attrs: noinline nounwind optnone uwtable
define internal zeroext i1 @even(i16 noundef signext %x) #0 {
entry:
  %x.addr = alloca i16, align 2
  store i16 %x, ptr %x.addr, align 2
  %0 = load i16, ptr %x.addr, align 2
  %conv = sext i16 %0 to i32
  %and = and i32 %conv, 1
  %cmp = icmp eq i32 %and, 0
  ret i1 %cmp
}

attributes #0 = { noinline nounwind optnone uwtable "frame-pointer"="all" "min-legal-vector-width"="0" "no-trapping-math"="true" "stack-protector-buffer-size"="8" "target-cpu"="x86-64" "target-features"="+cmov,+cx8,+fxsr,+mmx,+sse,+sse2,+x87" "tune-cpu"="generic" }

!llvm.module.flags = !{!0, !1, !2, !3, !4}
!llvm.ident = !{!5}

!0 = !{i32 1, !"wchar_size", i32 4}
!1 = !{i32 8, !"PIC Level", i32 2}
!2 = !{i32 7, !"PIE Level", i32 2}
!3 = !{i32 7, !"uwtable", i32 2}
!4 = !{i32 7, !"frame-pointer", i32 2}
!5 = !{!"Debian clang version 19.1.7 (3~deb12u1)"}
