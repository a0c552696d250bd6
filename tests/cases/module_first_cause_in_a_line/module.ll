define i32 @main() {
  %x = add i32 1, 2
  %x = add i32 null, 1
  ret i32 0
}
