define i32 @main() {
  %sum = add i32 3, 4          ; %sum is an i32: an integer of 32 bits
  %product = mul i32 %sum, 6
  ret i32 %product
}
