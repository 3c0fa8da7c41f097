define void @f() {
entry:
  br label %next
next:
  br label %entry
}
