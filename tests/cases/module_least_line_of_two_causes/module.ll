@g = global i32 0
define i32 @main() {
  %x = add i32 null, 1
  %y = add i32 %no, 1
  ret i32 0
}
