; ModuleID = 'a.c'
source_filename = "a.c"
target datalayout = "e-m:e-p270:32:32-p271:32:32-p272:64:64-i64:64-i128:128-f80:128-n8:16:32:64-S128"
target triple = "x86_64-pc-linux-gnu"

%struct.rect = type { %struct.point, %struct.point, i8 }
%struct.point = type { i32, i32 }

@box = internal global %struct.rect { %struct.point { i32 1, i32 2 }, %struct.point { i32 3, i32 4 }, i8 98 }, align 4

; Function Attrs: noinline nounwind optnone uwtable
define dso_local i32 @area(ptr noundef %r) #0 {
entry:
  %r.addr = alloca ptr, align 8
  store ptr %r, ptr %r.addr, align 8
  %0 = load ptr, ptr %r.addr, align 8
  %high = getelementptr inbounds %struct.rect, ptr %0, i32 0, i32 1
  %x = getelementptr inbounds %struct.point, ptr %high, i32 0, i32 0
  %1 = load i32, ptr %x, align 4
  %2 = load ptr, ptr %r.addr, align 8
  %low = getelementptr inbounds %struct.rect, ptr %2, i32 0, i32 0
  %x1 = getelementptr inbounds %struct.point, ptr %low, i32 0, i32 0
  %3 = load i32, ptr %x1, align 4
  %sub = sub nsw i32 %1, %3
  %4 = load ptr, ptr %r.addr, align 8
  %high2 = getelementptr inbounds %struct.rect, ptr %4, i32 0, i32 1
  %y = getelementptr inbounds %struct.point, ptr %high2, i32 0, i32 1
  %5 = load i32, ptr %y, align 4
  %6 = load ptr, ptr %r.addr, align 8
  %low3 = getelementptr inbounds %struct.rect, ptr %6, i32 0, i32 0
  %y4 = getelementptr inbounds %struct.point, ptr %low3, i32 0, i32 1
  %7 = load i32, ptr %y4, align 4
  %sub5 = sub nsw i32 %5, %7
  %mul = mul nsw i32 %sub, %sub5
  ret i32 %mul
}

; Function Attrs: noinline nounwind optnone uwtable
define dso_local i32 @main() #0 {
entry:
  %retval = alloca i32, align 4
  store i32 0, ptr %retval, align 4
  %call = call i32 @area(ptr noundef @box)
  ret i32 %call
}

attributes #0 = { noinline nounwind optnone uwtable "frame-pointer"="all" "min-legal-vector-width"="0" "no-trapping-math"="true" "stack-protector-buffer-size"="8" "target-cpu"="x86-64" "target-features"="+cmov,+cx8,+fxsr,+mmx,+sse,+sse2,+x87" "tune-cpu"="generic" }

!llvm.module.flags = !{!0, !1, !2, !3, !4}
!llvm.ident = !{!5}

!0 = !{i32 1, !"wchar_size", i32 4}
!1 = !{i32 8, !"PIC Level", i32 2}
!2 = !{i32 7, !"PIE Level", i32 2}
!3 = !{i32 7, !"uwtable", i32 2}
!4 = !{i32 7, !"frame-pointer", i32 2}
!5 = !{!"Debian clang version 19.1.7 (3~deb12u1)"}
