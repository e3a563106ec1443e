; 40 + 2, as the status of the program
define i32 @main() {
  %1 = add i32 40, 2
  ret i32 %1
}
