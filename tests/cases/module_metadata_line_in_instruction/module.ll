@g = global i32 0
define i32 @main() {
  store i32 1,
!x 2
  ptr @g
  ret i32 0
}
