; A module of one function.
@count = global i32 0, align 4

define i32 @main() {
  %old = load i32, ptr @count, align 4
  %new = add nsw i32 %old, 1
  store i32 %new, ptr @count, align 4
  ret i32 %new
}
