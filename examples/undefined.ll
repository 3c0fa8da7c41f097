; Calls that have no meaning, beside ones that have: the meaning says when.
define i8 @divide(i8 %a, i8 %b) {
  %quotient = sdiv i8 %a, %b
  ret i8 %quotient
}

define i32 @add(i32 %a, i32 %b) {
  %sum = add nsw i32 %a, %b
  ret i32 %sum
}

define i32 @ignored(i32 %a, i32 %b) {
  %sum = add nsw i32 %a, %b
  ret i32 %a
}
