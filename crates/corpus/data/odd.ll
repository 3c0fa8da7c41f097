; Widths that clang seldom writes, by hand.
define i5 @counted(i5 %from, i5 %step, i33 %times) {
entry:
  %none = icmp eq i33 %times, 0
  br i1 %none, label %done, label %loop
loop:
  %n = phi i33 [ 0, %entry ], [ %m, %loop ]
  %x = phi i5 [ %from, %entry ], [ %y, %loop ]
  %y = add i5 %x, %step
  %m = add nuw i33 %n, 1
  %more = icmp ult i33 %m, %times
  br i1 %more, label %loop, label %done
done:
  %r = phi i5 [ %from, %entry ], [ %y, %loop ]
  ret i5 %r
}

define i33 @mixed(i33 %a, i7 %b, i63 %c) {
  %s = sext i7 %b to i33
  %z = zext i7 %b to i63
  %m = mul i33 %a, %s
  %x = xor i63 %c, %z
  %t = trunc i63 %x to i33
  %q = lshr i33 %m, 3
  %h = ashr i33 %t, 5
  %r = sub i33 %q, %h
  ret i33 %r
}

define i63 @quotients(i63 %a, i63 %b) {
  %bad = icmp eq i63 %b, 0
  br i1 %bad, label %none, label %some
some:
  %q = sdiv i63 %a, %b
  %r = srem i63 %a, %b
  %u = udiv i63 %a, %b
  %v = urem i63 %a, %b
  %1 = mul i63 %q, 3
  %2 = add i63 %1, %r
  %3 = xor i63 %u, %v
  %4 = add i63 %2, %3
  ret i63 %4
none:
  ret i63 -1
}

define i7 @named(i7 %a) {
  switch i7 %a, label %other [
    i7 0, label %zero
    i7 -64, label %least
    i7 63, label %most
    i7 -1, label %minus
  ]
zero:
  ret i7 10
least:
  ret i7 20
most:
  ret i7 30
minus:
  ret i7 40
other:
  %h = ashr i7 %a, 1
  ret i7 %h
}

define i1 @both(i1 %a, i1 %b, i1 %c) {
  %1 = add i1 %a, %b
  %2 = mul i1 %b, %c
  %3 = icmp slt i1 %1, %2
  %4 = select i1 %c, i1 %3, i1 %1
  ret i1 %4
}

define i17 @bounded(i17 %a, i17 %b) {
  %m = call i17 @llvm.smax.i17(i17 %a, i17 %b)
  %n = call i17 @llvm.umin.i17(i17 %a, i17 %b)
  %d = sub i17 %m, %n
  %e = call i17 @llvm.abs.i17(i17 %d, i1 false)
  %f = freeze i17 %e
  ret i17 %f
}

define i12 @through(i12 %n) {
  %z = icmp eq i12 %n, 0
  br i1 %z, label %out, label %more
more:
  %m = add i12 %n, -1
  %r = call i12 @through(i12 %m)
  %k = mul i12 %r, 3
  %s = add i12 %k, %n
  ret i12 %s
out:
  ret i12 7
}

declare i17 @llvm.smax.i17(i17, i17)
declare i17 @llvm.umin.i17(i17, i17)
declare i17 @llvm.abs.i17(i17, i1)
