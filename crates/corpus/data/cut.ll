define i64 @add(i64 %a, i64 %b) {
  %s = add i64 %a,