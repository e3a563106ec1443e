@state = internal global i32 40

define i32 @next() {
  %old = load i32, ptr @state
  %new = add i32 %old, 1
  store i32 %new, ptr @state
  ret i32 %new
}
