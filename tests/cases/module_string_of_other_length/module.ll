@s = constant [2 x i8] c"a\\5C\00"
define i32 @main() {
  ret i32 0
}
