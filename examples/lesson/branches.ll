define i32 @main(i32 %count, ptr %words) {
  %alone = icmp eq i32 %count, 1
  br i1 %alone, label %none, label %some
none:
  ret i32 0
some:
  %arguments = sub i32 %count, 1
  ret i32 %arguments
}
