define void @f() {
  br label %out
}
