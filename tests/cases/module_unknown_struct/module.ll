%a = type { %b, %a }
define i32 @main() {
  ret i32 0
}
