define i64 @loop(i64 %a) {
entry:
  br label %body
body:
  %x = phi i64 [ %a, %entry ], [ %s, %body ]
  %i = phi i64 [ 0, %entry ], [ %j, %body ]
  %j = add i64 %i, 1
  %m = mul i64 %x, 6364136223846793005
  %s = lshr i64 %m, 3
  %c = icmp eq i64 %j, 4611686018427387904
  br i1 %c, label %out, label %body
out:
  ret i64 %x
}
