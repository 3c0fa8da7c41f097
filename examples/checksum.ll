; A checksum of the front of a text, after Fletcher, and how often it was asked for: two globals and a loop.
@text = constant [11 x i8] c"hello world"
@asked = global i64 0

define i32 @checksum(i64 %length) {
entry:
  %before = load i64, ptr @asked
  %now = add i64 %before, 1
  store i64 %now, ptr @asked
  br label %test

test:
  %i = phi i64 [ 0, %entry ], [ %next, %more ]
  %low = phi i32 [ 0, %entry ], [ %low.next, %more ]
  %high = phi i32 [ 0, %entry ], [ %high.next, %more ]
  %ends = icmp uge i64 %i, %length
  br i1 %ends, label %done, label %more

more:
  %place = getelementptr [11 x i8], ptr @text, i64 0, i64 %i
  %byte = load i8, ptr %place
  %wide = zext i8 %byte to i32
  %low.sum = add i32 %low, %wide
  %low.next = urem i32 %low.sum, 255
  %high.sum = add i32 %high, %low.next
  %high.next = urem i32 %high.sum, 255
  %next = add i64 %i, 1
  br label %test

done:
  %shifted = shl i32 %high, 8
  %both = or i32 %shifted, %low
  ret i32 %both
}

define i64 @times() {
  %1 = load i64, ptr @asked
  ret i64 %1
}
