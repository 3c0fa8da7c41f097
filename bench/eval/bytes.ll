define i64 @bytes(i64 %n) {
entry:
  %p = alloca [1024 x i64], align 16
  call void @llvm.memset.p0.i64(ptr %p, i8 1, i64 8192, i1 false)
  br label %loop
loop:
  %i = phi i64 [ 0, %entry ], [ %j, %loop ]
  %k = and i64 %i, 1023
  %q = getelementptr [1024 x i64], ptr %p, i64 0, i64 %k
  %x = load i64, ptr %q, align 8
  %y = add i64 %x, %i
  store i64 %y, ptr %q, align 8
  %j = add i64 %i, 1
  %c = icmp eq i64 %j, %n
  br i1 %c, label %out, label %loop
out:
  ret i64 %y
}
