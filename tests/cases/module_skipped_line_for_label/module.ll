define i32 @main() {
  br label %target
target:
  ret i32 0
}
