@cell = global i64 5
define i64 @f(i8 %a, i1 %b, ptr %p) {
  ret i64 1
}
define void @"a b"() {
  ret void
}
