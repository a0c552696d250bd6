define i32 @main() {
  br label %next
next:
  ret i64 0
}
