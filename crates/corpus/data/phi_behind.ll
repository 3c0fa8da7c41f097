define void @f() {
  br label %next
next:
  %a = add i64 1, 2
  %b = phi i64 [ 3, %0 ]
  ret void
}
