define i65 @f() {
  ret i65 1
}
