define i64 @twice(i64 %a) {
entry:
  %b = add i64 %a, %a
  br label %out
out:
  ret i64 %b
}
