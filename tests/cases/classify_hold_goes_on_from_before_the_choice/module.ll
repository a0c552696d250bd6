@g = global i32 0
@t = global i64 0
declare i32 @pthread_create(ptr, ptr, ptr, ptr)
declare i32 @pthread_join(i64, ptr)
declare i32 @putchar(i32)
define ptr @a(ptr %q) {
  store i32 65, ptr @g
  ret ptr null
}
define ptr @b(ptr %q) {
  %j = call i32 @pthread_join(i64 1, ptr null)
  store i32 66, ptr @g
  ret ptr null
}
define ptr @d(ptr %q) {
  %p = call i32 @putchar(i32 68)
  ret ptr null
}
define i32 @main() {
  %c = call i32 @pthread_create(ptr @t, ptr null, ptr @a, ptr null)
  %e = call i32 @pthread_create(ptr @t, ptr null, ptr @b, ptr null)
  %f = call i32 @pthread_create(ptr @t, ptr null, ptr @d, ptr null)
  %h = call i32 @pthread_create(ptr @t, ptr null, ptr @d, ptr null)
  %j = call i32 @pthread_join(i64 2, ptr null)
  %v = load i32, ptr @g
  %p = call i32 @putchar(i32 %v)
  ret i32 0
}
