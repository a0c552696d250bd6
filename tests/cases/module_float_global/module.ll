@g = global float 0.0
define i32 @main() {
  ret i32 0
}
