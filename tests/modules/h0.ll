; ModuleID = 'h.c'
source_filename = "h.c"
target datalayout = "e-m:e-p270:32:32-p271:32:32-p272:64:64-i64:64-i128:128-f80:128-n8:16:32:64-S128"
target triple = "x86_64-pc-linux-gnu"

%struct.wire = type <{ i8, i16, i32 }>
%union.both = type { i32 }
%struct.flags = type { i16, [2 x i8] }

@__const.main.f = private unnamed_addr constant { i8, i8, [2 x i8] } { i8 -115, i8 125, [2 x i8] undef }, align 4
@w = internal global %struct.wire <{ i8 1, i16 4660, i32 -559038737 }>, align 1

; Function Attrs: noinline nounwind optnone uwtable
define dso_local i32 @main() #0 {
entry:
  %retval = alloca i32, align 4
  %u = alloca %union.both, align 4
  %f = alloca %struct.flags, align 4
  store i32 0, ptr %retval, align 4
  store i32 16909060, ptr %u, align 4
  call void @llvm.memcpy.p0.p0.i64(ptr align 4 %f, ptr align 4 @__const.main.f, i64 4, i1 false)
  %bf.load = load i16, ptr %f, align 4
  %bf.lshr = lshr i16 %bf.load, 3
  %bf.clear = and i16 %bf.lshr, 31
  %bf.cast = zext i16 %bf.clear to i32
  %add = add nsw i32 %bf.cast, 2
  %0 = trunc i32 %add to i16
  %bf.load1 = load i16, ptr %f, align 4
  %bf.value = and i16 %0, 31
  %bf.shl = shl i16 %bf.value, 3
  %bf.clear2 = and i16 %bf.load1, -249
  %bf.set = or i16 %bf.clear2, %bf.shl
  store i16 %bf.set, ptr %f, align 4
  %bf.result.cast = zext i16 %bf.value to i32
  %1 = load i16, ptr getelementptr inbounds (%struct.wire, ptr @w, i32 0, i32 1), align 1
  %conv = zext i16 %1 to i32
  %xor = xor i32 %conv, 255
  %conv3 = trunc i32 %xor to i16
  store i16 %conv3, ptr getelementptr inbounds (%struct.wire, ptr @w, i32 0, i32 1), align 1
  %arrayidx = getelementptr inbounds [4 x i8], ptr %u, i64 0, i64 0
  %2 = load i8, ptr %arrayidx, align 4
  %conv4 = sext i8 %2 to i32
  %bf.load5 = load i16, ptr %f, align 4
  %bf.clear6 = and i16 %bf.load5, 7
  %bf.cast7 = zext i16 %bf.clear6 to i32
  %add8 = add nsw i32 %conv4, %bf.cast7
  %bf.load9 = load i16, ptr %f, align 4
  %bf.lshr10 = lshr i16 %bf.load9, 3
  %bf.clear11 = and i16 %bf.lshr10, 31
  %bf.cast12 = zext i16 %bf.clear11 to i32
  %add13 = add nsw i32 %add8, %bf.cast12
  %bf.load14 = load i16, ptr %f, align 4
  %bf.shl15 = shl i16 %bf.load14, 1
  %bf.ashr = ashr i16 %bf.shl15, 9
  %bf.cast16 = sext i16 %bf.ashr to i32
  %add17 = add nsw i32 %add13, %bf.cast16
  %3 = load i8, ptr @w, align 1
  %conv18 = zext i8 %3 to i32
  %add19 = add nsw i32 %add17, %conv18
  %4 = load i16, ptr getelementptr inbounds (%struct.wire, ptr @w, i32 0, i32 1), align 1
  %conv20 = zext i16 %4 to i32
  %add21 = add nsw i32 %add19, %conv20
  %5 = load i32, ptr getelementptr inbounds (%struct.wire, ptr @w, i32 0, i32 2), align 1
  %add22 = add nsw i32 %add21, %5
  ret i32 %add22
}

; Function Attrs: nocallback nofree nounwind willreturn memory(argmem: readwrite)
declare void @llvm.memcpy.p0.p0.i64(ptr noalias nocapture writeonly, ptr noalias nocapture readonly, i64, i1 immarg) #1

attributes #0 = { noinline nounwind optnone uwtable "frame-pointer"="all" "min-legal-vector-width"="0" "no-trapping-math"="true" "stack-protector-buffer-size"="8" "target-cpu"="x86-64" "target-features"="+cmov,+cx8,+fxsr,+mmx,+sse,+sse2,+x87" "tune-cpu"="generic" }
attributes #1 = { nocallback nofree nounwind willreturn memory(argmem: readwrite) }

!llvm.module.flags = !{!0, !1, !2, !3, !4}
!llvm.ident = !{!5}

!0 = !{i32 1, !"wchar_size", i32 4}
!1 = !{i32 8, !"PIC Level", i32 2}
!2 = !{i32 7, !"PIE Level", i32 2}
!3 = !{i32 7, !"uwtable", i32 2}
!4 = !{i32 7, !"frame-pointer", i32 2}
!5 = !{!"Debian clang version 19.1.7 (3~deb12u1)"}
