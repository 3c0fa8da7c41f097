%t = type { i64, %t }
define void @f() {
  ret void
}
