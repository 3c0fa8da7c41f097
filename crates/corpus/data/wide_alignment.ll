define i64 @f() {
  %p = alloca i64, align 32
  ret i64 0
}
