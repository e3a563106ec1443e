; ModuleID = 'g.c'
source_filename = "g.c"
target datalayout = "e-m:e-p270:32:32-p271:32:32-p272:64:64-i64:64-i128:128-f80:128-n8:16:32:64-S128"
target triple = "x86_64-pc-linux-gnu"

@table = internal constant [2 x ptr] [ptr @twice, ptr @square], align 16

; Function Attrs: noinline nounwind optnone uwtable
define dso_local i32 @apply(i32 noundef %which, i32 noundef %x) #0 {
entry:
  %which.addr = alloca i32, align 4
  %x.addr = alloca i32, align 4
  store i32 %which, ptr %which.addr, align 4
  store i32 %x, ptr %x.addr, align 4
  %0 = load i32, ptr %which.addr, align 4
  %and = and i32 %0, 1
  %idxprom = sext i32 %and to i64
  %arrayidx = getelementptr inbounds [2 x ptr], ptr @table, i64 0, i64 %idxprom
  %1 = load ptr, ptr %arrayidx, align 8
  %2 = load i32, ptr %x.addr, align 4
  %call = call i32 %1(i32 noundef %2)
  ret i32 %call
}

; Function Attrs: noinline nounwind optnone uwtable
define dso_local i32 @main() #0 {
entry:
  %retval = alloca i32, align 4
  %p = alloca ptr, align 8
  %r = alloca i32, align 4
  store i32 0, ptr %retval, align 4
  %call = call ptr @malloc(i64 noundef 16) #3
  store ptr %call, ptr %p, align 8
  %call1 = call i32 @apply(i32 noundef 0, i32 noundef 3)
  %0 = load ptr, ptr %p, align 8
  %arrayidx = getelementptr inbounds i32, ptr %0, i64 0
  store i32 %call1, ptr %arrayidx, align 4
  %call2 = call i32 @apply(i32 noundef 1, i32 noundef 4)
  %1 = load ptr, ptr %p, align 8
  %arrayidx3 = getelementptr inbounds i32, ptr %1, i64 1
  store i32 %call2, ptr %arrayidx3, align 4
  %2 = load ptr, ptr %p, align 8
  %arrayidx4 = getelementptr inbounds i32, ptr %2, i64 0
  %3 = load i32, ptr %arrayidx4, align 4
  %4 = load ptr, ptr %p, align 8
  %arrayidx5 = getelementptr inbounds i32, ptr %4, i64 1
  %5 = load i32, ptr %arrayidx5, align 4
  %add = add nsw i32 %3, %5
  store i32 %add, ptr %r, align 4
  %6 = load ptr, ptr %p, align 8
  call void @free(ptr noundef %6)
  %7 = load i32, ptr %r, align 4
  ret i32 %7
}

; Function Attrs: allocsize(0)
declare ptr @malloc(i64 noundef) #1

declare void @free(ptr noundef) #2

; Function Attrs: noinline nounwind optnone uwtable
define internal i32 @twice(i32 noundef %x) #0 {
entry:
  %x.addr = alloca i32, align 4
  store i32 %x, ptr %x.addr, align 4
  %0 = load i32, ptr %x.addr, align 4
  %mul = mul nsw i32 2, %0
  ret i32 %mul
}

; Function Attrs: noinline nounwind optnone uwtable
define internal i32 @square(i32 noundef %x) #0 {
entry:
  %x.addr = alloca i32, align 4
  store i32 %x, ptr %x.addr, align 4
  %0 = load i32, ptr %x.addr, align 4
  %1 = load i32, ptr %x.addr, align 4
  %mul = mul nsw i32 %0, %1
  ret i32 %mul
}

attributes #0 = { noinline nounwind optnone uwtable "frame-pointer"="all" "min-legal-vector-width"="0" "no-trapping-math"="true" "stack-protector-buffer-size"="8" "target-cpu"="x86-64" "target-features"="+cmov,+cx8,+fxsr,+mmx,+sse,+sse2,+x87" "tune-cpu"="generic" }
attributes #1 = { allocsize(0) "frame-pointer"="all" "no-trapping-math"="true" "stack-protector-buffer-size"="8" "target-cpu"="x86-64" "target-features"="+cmov,+cx8,+fxsr,+mmx,+sse,+sse2,+x87" "tune-cpu"="generic" }
attributes #2 = { "frame-pointer"="all" "no-trapping-math"="true" "stack-protector-buffer-size"="8" "target-cpu"="x86-64" "target-features"="+cmov,+cx8,+fxsr,+mmx,+sse,+sse2,+x87" "tune-cpu"="generic" }
attributes #3 = { allocsize(0) }

!llvm.module.flags = !{!0, !1, !2, !3, !4}
!llvm.ident = !{!5}

!0 = !{i32 1, !"wchar_size", i32 4}
!1 = !{i32 8, !"PIC Level", i32 2}
!2 = !{i32 7, !"PIE Level", i32 2}
!3 = !{i32 7, !"uwtable", i32 2}
!4 = !{i32 7, !"frame-pointer", i32 2}
!5 = !{!"Debian clang version 19.1.7 (3~deb12u1)"}
