@t = global i64 0
declare i32 @pthread_create(ptr, ptr, ptr, ptr)
declare i32 @pthread_join(i64, ptr)
declare i32 @putchar(i32)
define ptr @a(ptr %q) {
  ret ptr null
}
define i32 @main() {
  %c0 = call i32 @pthread_create(ptr @t, ptr null, ptr @a, ptr null)
  %c1 = call i32 @pthread_create(ptr @t, ptr null, ptr @a, ptr null)
  %c2 = call i32 @pthread_create(ptr @t, ptr null, ptr @a, ptr null)
  %c3 = call i32 @pthread_create(ptr @t, ptr null, ptr @a, ptr null)
  %c4 = call i32 @pthread_create(ptr @t, ptr null, ptr @a, ptr null)
  %c5 = call i32 @pthread_create(ptr @t, ptr null, ptr @a, ptr null)
  %c6 = call i32 @pthread_create(ptr @t, ptr null, ptr @a, ptr null)
  %c7 = call i32 @pthread_create(ptr @t, ptr null, ptr @a, ptr null)
  %c8 = call i32 @pthread_create(ptr @t, ptr null, ptr @a, ptr null)
  %c9 = call i32 @pthread_create(ptr @t, ptr null, ptr @a, ptr null)
  %c10 = call i32 @pthread_create(ptr @t, ptr null, ptr @a, ptr null)
  %c11 = call i32 @pthread_create(ptr @t, ptr null, ptr @a, ptr null)
  %c12 = call i32 @pthread_create(ptr @t, ptr null, ptr @a, ptr null)
  %c13 = call i32 @pthread_create(ptr @t, ptr null, ptr @a, ptr null)
  %c14 = call i32 @pthread_create(ptr @t, ptr null, ptr @a, ptr null)
  %c15 = call i32 @pthread_create(ptr @t, ptr null, ptr @a, ptr null)
  %p = call i32 @putchar(i32 %c15)
  ret i32 0
}
