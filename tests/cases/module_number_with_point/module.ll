@g = global i32 0.5
define i32 @main() {
  ret i32 0
}
