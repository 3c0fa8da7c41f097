define void @f(i8 %a) {
  switch i8 %a, label %out [
    i8 1, label %out
    i8 1, label %out
  ]
out:
  ret void
}
