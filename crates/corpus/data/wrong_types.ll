define void @f(i64 %a, i32 %b) {
  %c = add i64 %a, 1
  %d = add i64 %c, %b
  ret void
}
