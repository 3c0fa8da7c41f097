define void @f(i1 %a) {
entry:
  br i1 %a, label %left, label %join
left:
  br label %join
join:
  %b = phi i64 [ 1, %left ]
  ret void
}
