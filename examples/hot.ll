; A small function that a loop calls: with 100 entries it is hot, and is translated again.
define i64 @step(i64 %x) {
  %double = shl i64 %x, 1
  %sum = add i64 %double, %x
  %next = xor i64 %sum, 5
  ret i64 %next
}

define i64 @many(i64 %n) {
entry:
  br label %test

test:
  %i = phi i64 [ 0, %entry ], [ %i.next, %more ]
  %x = phi i64 [ 1, %entry ], [ %y, %more ]
  %ends = icmp eq i64 %i, %n
  br i1 %ends, label %done, label %more

more:
  %y = call i64 @step(i64 %x)
  %i.next = add i64 %i, 1
  br label %test

done:
  ret i64 %x
}
