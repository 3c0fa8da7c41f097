define i64 @f(i1 %c) {
entry:
  br i1 %c, label %left, label %right
left:
  %x = add i64 1, 2
  br label %join
right:
  br label %join
join:
  ret i64 %x
}
