define i32 @main() {
  %c = call i32 @pthread_join(i64 9, , align 8 ptr null)
  ret i32 0
}
declare i32 @pthread_join(i64, ptr)
declare i32 @putchar(i32)
