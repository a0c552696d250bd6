define i32 @main() {
  add i32 64, 1
  call i32 @putchar(i32 %1)
  ret i32 0
}
declare i32 @pthread_join(i64, ptr)
declare i32 @putchar(i32)
