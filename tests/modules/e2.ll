; ModuleID = 'e.c'
source_filename = "e.c"
target datalayout = "e-m:e-p270:32:32-p271:32:32-p272:64:64-i64:64-i128:128-f80:128-n8:16:32:64-S128"
target triple = "x86_64-pc-linux-gnu"

; Function Attrs: nofree norecurse nosync nounwind memory(none) uwtable
define dso_local i32 @gcd(i32 noundef %a, i32 noundef %b) local_unnamed_addr #0 {
entry:
  %cmp4 = icmp eq i32 %b, 0
  br i1 %cmp4, label %cond.end, label %cond.false

cond.false:                                       ; preds = %entry, %cond.false
  %b.tr6 = phi i32 [ %rem, %cond.false ], [ %b, %entry ]
  %a.tr5 = phi i32 [ %b.tr6, %cond.false ], [ %a, %entry ]
  %rem = srem i32 %a.tr5, %b.tr6
  %cmp = icmp eq i32 %rem, 0
  br i1 %cmp, label %cond.end, label %cond.false

cond.end:                                         ; preds = %cond.false, %entry
  %a.tr.lcssa = phi i32 [ %a, %entry ], [ %b.tr6, %cond.false ]
  ret i32 %a.tr.lcssa
}

; Function Attrs: nofree nosync nounwind memory(none) uwtable
define dso_local range(i32 -2147483647, -2147483648) i32 @ack(i32 noundef %m, i32 noundef %n) local_unnamed_addr #1 {
entry:
  %cmp13 = icmp eq i32 %m, 0
  br i1 %cmp13, label %if.then, label %if.end

if.then:                                          ; preds = %tailrecurse.backedge, %entry
  %n.tr.lcssa = phi i32 [ %n, %entry ], [ %n.tr.be, %tailrecurse.backedge ]
  %add = add nsw i32 %n.tr.lcssa, 1
  ret i32 %add

if.end:                                           ; preds = %entry, %tailrecurse.backedge
  %n.tr15 = phi i32 [ %n.tr.be, %tailrecurse.backedge ], [ %n, %entry ]
  %m.tr14 = phi i32 [ %m.tr.be, %tailrecurse.backedge ], [ %m, %entry ]
  %cmp1 = icmp eq i32 %n.tr15, 0
  br i1 %cmp1, label %tailrecurse.backedge, label %if.end3

tailrecurse.backedge:                             ; preds = %if.end, %if.end3
  %n.tr.be = phi i32 [ %call6, %if.end3 ], [ 1, %if.end ]
  %m.tr.be = add nsw i32 %m.tr14, -1
  %cmp = icmp eq i32 %m.tr.be, 0
  br i1 %cmp, label %if.then, label %if.end

if.end3:                                          ; preds = %if.end
  %sub5 = add nsw i32 %n.tr15, -1
  %call6 = tail call i32 @ack(i32 noundef %m.tr14, i32 noundef %sub5)
  br label %tailrecurse.backedge
}

; Function Attrs: nofree nosync nounwind memory(none) uwtable
define dso_local i32 @main() local_unnamed_addr #1 {
entry:
  %call = tail call fastcc i32 @fib(i32 noundef 10)
  br label %cond.false.i

cond.false.i:                                     ; preds = %cond.false.i, %entry
  %b.tr6.i = phi i32 [ %rem.i, %cond.false.i ], [ 36, %entry ]
  %a.tr5.i = phi i32 [ %b.tr6.i, %cond.false.i ], [ 48, %entry ]
  %rem.i = urem i32 %a.tr5.i, %b.tr6.i
  %cmp.i = icmp eq i32 %rem.i, 0
  br i1 %cmp.i, label %gcd.exit, label %cond.false.i

gcd.exit:                                         ; preds = %cond.false.i
  %add = add nsw i32 %b.tr6.i, %call
  %call2 = tail call i32 @ack(i32 noundef 2, i32 noundef 3)
  %add3 = add nsw i32 %add, %call2
  ret i32 %add3
}

; Function Attrs: nofree nosync nounwind memory(none) uwtable
define internal fastcc i32 @fib(i32 noundef %n) unnamed_addr #1 {
entry:
  %cmp6 = icmp slt i32 %n, 2
  br i1 %cmp6, label %cond.end, label %cond.false

cond.false:                                       ; preds = %entry, %cond.false
  %n.tr8 = phi i32 [ %sub1, %cond.false ], [ %n, %entry ]
  %accumulator.tr7 = phi i32 [ %add, %cond.false ], [ 0, %entry ]
  %sub = add nsw i32 %n.tr8, -1
  %call = tail call fastcc i32 @fib(i32 noundef %sub)
  %sub1 = add nsw i32 %n.tr8, -2
  %add = add nsw i32 %call, %accumulator.tr7
  %cmp = icmp ult i32 %n.tr8, 4
  br i1 %cmp, label %cond.end, label %cond.false

cond.end:                                         ; preds = %cond.false, %entry
  %accumulator.tr.lcssa = phi i32 [ 0, %entry ], [ %add, %cond.false ]
  %n.tr.lcssa = phi i32 [ %n, %entry ], [ %sub1, %cond.false ]
  %accumulator.ret.tr = add nsw i32 %n.tr.lcssa, %accumulator.tr.lcssa
  ret i32 %accumulator.ret.tr
}

attributes #0 = { nofree norecurse nosync nounwind memory(none) uwtable "min-legal-vector-width"="0" "no-trapping-math"="true" "stack-protector-buffer-size"="8" "target-cpu"="x86-64" "target-features"="+cmov,+cx8,+fxsr,+mmx,+sse,+sse2,+x87" "tune-cpu"="generic" }
attributes #1 = { nofree nosync nounwind memory(none) uwtable "min-legal-vector-width"="0" "no-trapping-math"="true" "stack-protector-buffer-size"="8" "target-cpu"="x86-64" "target-features"="+cmov,+cx8,+fxsr,+mmx,+sse,+sse2,+x87" "tune-cpu"="generic" }

!llvm.module.flags = !{!0, !1, !2, !3}
!llvm.ident = !{!4}

!0 = !{i32 1, !"wchar_size", i32 4}
!1 = !{i32 8, !"PIC Level", i32 2}
!2 = !{i32 7, !"PIE Level", i32 2}
!3 = !{i32 7, !"uwtable", i32 2}
!4 = !{!"Debian clang version 19.1.7 (3~deb12u1)"}
