@g = global i32 64
@t = global i64 0
declare i32 @pthread_create(ptr, ptr, ptr, ptr)
declare i32 @pthread_join(i64, ptr)
declare i32 @putchar(i32)
define ptr @a(ptr %q) {
  %l = load i32, ptr %q
  %m = add i32 %l, 1
  store i32 %m, ptr @g
  ret ptr null
}
define i32 @main() {
  %c = call i32 @pthread_create(ptr @t, ptr null, ptr @a, ptr @g)
  %s = load i64, ptr @t
  %j = call i32 @pthread_join(i64 %s, ptr null)
  %v = load i32, ptr @g
  %p = call i32 @putchar(i32 %v)
  ret i32 0
}
