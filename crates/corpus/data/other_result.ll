define i64 @f() {
  ret i32 1
}
