; Refused: the sum is computed on one of the two ways to its use.
define i64 @pick(i1 %which, i64 %a) {
entry:
  br i1 %which, label %left, label %right

left:
  %sum = add i64 %a, 1
  br label %join

right:
  br label %join

join:
  ret i64 %sum
}
