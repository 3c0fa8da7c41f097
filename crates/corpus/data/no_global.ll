define i64 @f() {
  %a = load i64, ptr @cell
  ret i64 %a
}
