; ModuleID = 'c.c'
source_filename = "c.c"
target datalayout = "e-m:e-p270:32:32-p271:32:32-p272:64:64-i64:64-i128:128-f80:128-n8:16:32:64-S128"
target triple = "x86_64-pc-linux-gnu"

%struct.node = type { ptr, i64 }

@first = internal global %struct.node { ptr @second, i64 10 }, align 8
@second = internal global %struct.node { ptr @third, i64 20 }, align 8
@third = internal global %struct.node { ptr null, i64 30 }, align 8

; Function Attrs: noinline nounwind optnone uwtable
define dso_local i64 @sum(ptr noundef %n) #0 {
entry:
  %n.addr = alloca ptr, align 8
  %s = alloca i64, align 8
  store ptr %n, ptr %n.addr, align 8
  store i64 0, ptr %s, align 8
  br label %while.cond

while.cond:                                       ; preds = %while.body, %entry
  %0 = load ptr, ptr %n.addr, align 8
  %tobool = icmp ne ptr %0, null
  br i1 %tobool, label %while.body, label %while.end

while.body:                                       ; preds = %while.cond
  %1 = load ptr, ptr %n.addr, align 8
  %value = getelementptr inbounds %struct.node, ptr %1, i32 0, i32 1
  %2 = load i64, ptr %value, align 8
  %3 = load i64, ptr %s, align 8
  %add = add nsw i64 %3, %2
  store i64 %add, ptr %s, align 8
  %4 = load ptr, ptr %n.addr, align 8
  %next = getelementptr inbounds %struct.node, ptr %4, i32 0, i32 0
  %5 = load ptr, ptr %next, align 8
  store ptr %5, ptr %n.addr, align 8
  br label %while.cond, !llvm.loop !6

while.end:                                        ; preds = %while.cond
  %6 = load i64, ptr %s, align 8
  ret i64 %6
}

; Function Attrs: noinline nounwind optnone uwtable
define dso_local ptr @reverse(ptr noundef %n) #0 {
entry:
  %n.addr = alloca ptr, align 8
  %r = alloca ptr, align 8
  %k = alloca ptr, align 8
  store ptr %n, ptr %n.addr, align 8
  store ptr null, ptr %r, align 8
  br label %while.cond

while.cond:                                       ; preds = %while.body, %entry
  %0 = load ptr, ptr %n.addr, align 8
  %tobool = icmp ne ptr %0, null
  br i1 %tobool, label %while.body, label %while.end

while.body:                                       ; preds = %while.cond
  %1 = load ptr, ptr %n.addr, align 8
  %next = getelementptr inbounds %struct.node, ptr %1, i32 0, i32 0
  %2 = load ptr, ptr %next, align 8
  store ptr %2, ptr %k, align 8
  %3 = load ptr, ptr %r, align 8
  %4 = load ptr, ptr %n.addr, align 8
  %next1 = getelementptr inbounds %struct.node, ptr %4, i32 0, i32 0
  store ptr %3, ptr %next1, align 8
  %5 = load ptr, ptr %n.addr, align 8
  store ptr %5, ptr %r, align 8
  %6 = load ptr, ptr %k, align 8
  store ptr %6, ptr %n.addr, align 8
  br label %while.cond, !llvm.loop !8

while.end:                                        ; preds = %while.cond
  %7 = load ptr, ptr %r, align 8
  ret ptr %7
}

; Function Attrs: noinline nounwind optnone uwtable
define dso_local i32 @main() #0 {
entry:
  %retval = alloca i32, align 4
  store i32 0, ptr %retval, align 4
  %call = call ptr @reverse(ptr noundef @first)
  %call1 = call i64 @sum(ptr noundef %call)
  %conv = trunc i64 %call1 to i32
  ret i32 %conv
}

attributes #0 = { noinline nounwind optnone uwtable "frame-pointer"="all" "min-legal-vector-width"="0" "no-trapping-math"="true" "stack-protector-buffer-size"="8" "target-cpu"="x86-64" "target-features"="+cmov,+cx8,+fxsr,+mmx,+sse,+sse2,+x87" "tune-cpu"="generic" }

!llvm.module.flags = !{!0, !1, !2, !3, !4}
!llvm.ident = !{!5}

!0 = !{i32 1, !"wchar_size", i32 4}
!1 = !{i32 8, !"PIC Level", i32 2}
!2 = !{i32 7, !"PIE Level", i32 2}
!3 = !{i32 7, !"uwtable", i32 2}
!4 = !{i32 7, !"frame-pointer", i32 2}
!5 = !{!"Debian clang version 19.1.7 (3~deb12u1)"}
!6 = distinct !{!6, !7}
!7 = !{!"llvm.loop.mustprogress"}
!8 = distinct !{!8, !7}
