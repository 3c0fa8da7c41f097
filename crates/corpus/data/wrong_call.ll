define void @f() {
  %a = call i64 @g(i64 1, i64 2)
  ret void
}
define i64 @g(i64 %a) {
  ret i64 %a
}
