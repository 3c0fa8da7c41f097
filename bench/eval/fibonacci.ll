define i64 @fibonacci(i64 %n) {
  %small = icmp slt i64 %n, 2
  br i1 %small, label %done, label %more
more:
  %m = sub i64 %n, 1
  %k = sub i64 %n, 2
  %a = call i64 @fibonacci(i64 %m)
  %b = call i64 @fibonacci(i64 %k)
  %s = add i64 %a, %b
  ret i64 %s
done:
  ret i64 %n
}
