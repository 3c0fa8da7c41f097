define void @f(i1, i1, i1, i1, i1, i1, i1, i1, i1) {
  ret void
}
