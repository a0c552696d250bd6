@g = global i32 0
@t = global i64 0
@u = global i64 0
declare i32 @pthread_create(ptr, ptr, ptr, ptr)
declare i32 @pthread_join(i64, ptr)
declare i32 @putchar(i32)
define ptr @a(ptr %q) {
  store i32 65, ptr @g
  ret ptr null
}
define ptr @b(ptr %q) {
  store i32 66, ptr @g
  ret ptr null
}
define i32 @main() {
  %c = call i32 @pthread_create(ptr @t, ptr null, ptr @a, ptr null)
  %d = call i32 @pthread_create(ptr @u, ptr null, ptr @b, ptr null)
  ret i32 0
}
