; ModuleID = 'j.c'
source_filename = "j.c"
target datalayout = "e-m:e-p270:32:32-p271:32:32-p272:64:64-i64:64-i128:128-f80:128-n8:16:32:64-S128"
target triple = "x86_64-pc-linux-gnu"

@counter = dso_local local_unnamed_addr global i32 3, align 4

; Function Attrs: nounwind uwtable
define weak dso_local i32 @hook(i32 noundef %x) local_unnamed_addr #0 {
entry:
  ret i32 %x
}

; Function Attrs: mustprogress nofree norecurse nosync nounwind willreturn memory(none) uwtable
define dso_local noundef i64 @pick(i1 noundef zeroext %c, i64 noundef %a, i64 noundef %b) local_unnamed_addr #1 {
entry:
  %cond = select i1 %c, i64 %a, i64 %b
  ret i64 %cond
}

; Function Attrs: mustprogress nofree norecurse nosync nounwind willreturn memory(none) uwtable
define dso_local noundef double @half(i32 noundef %x) local_unnamed_addr #1 {
entry:
  %conv = sitofp i32 %x to double
  %div = fmul double %conv, 5.000000e-01
  ret double %div
}

; Function Attrs: nounwind uwtable
define dso_local i32 @main() local_unnamed_addr #0 {
entry:
  %0 = load i32, ptr @counter, align 4, !tbaa !5
  %inc = add nsw i32 %0, 1
  store i32 %inc, ptr @counter, align 4, !tbaa !5
  %1 = and i32 %0, 1
  %cmp.i.not = icmp eq i32 %1, 0
  %call1 = tail call i32 @hook(i32 noundef 1)
  %call3 = tail call i32 @hook(i32 noundef 2)
  %cond.i.v = select i1 %cmp.i.not, i32 %call3, i32 %call1
  ret i32 %cond.i.v
}

attributes #0 = { nounwind uwtable "min-legal-vector-width"="0" "no-trapping-math"="true" "stack-protector-buffer-size"="8" "target-cpu"="x86-64" "target-features"="+cmov,+cx8,+fxsr,+mmx,+sse,+sse2,+x87" "tune-cpu"="generic" }
attributes #1 = { mustprogress nofree norecurse nosync nounwind willreturn memory(none) uwtable "min-legal-vector-width"="0" "no-trapping-math"="true" "stack-protector-buffer-size"="8" "target-cpu"="x86-64" "target-features"="+cmov,+cx8,+fxsr,+mmx,+sse,+sse2,+x87" "tune-cpu"="generic" }

!llvm.module.flags = !{!0, !1, !2, !3}
!llvm.ident = !{!4}

!0 = !{i32 1, !"wchar_size", i32 4}
!1 = !{i32 8, !"PIC Level", i32 2}
!2 = !{i32 7, !"PIE Level", i32 2}
!3 = !{i32 7, !"uwtable", i32 2}
!4 = !{!"Debian clang version 19.1.7 (3~deb12u1)"}
!5 = !{!6, !6, i64 0}
!6 = !{!"int", !7, i64 0}
!7 = !{!"omnipotent char", !8, i64 0}
!8 = !{!"Simple C/C++ TBAA"}
