@h = global i32 null
define i32 @main() {
  %x = add i32 1 2
  ret i32 0
}
