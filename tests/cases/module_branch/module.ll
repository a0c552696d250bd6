define i32 @main() {
  br label %next
next:
  ret i32 0
}
