; main returns at once
define i32 @main() {
  ret i32 42
}
