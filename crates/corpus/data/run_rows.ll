define i1 @add_1(i1 %a, i1 %b) {
  %r = add i1 %a, %b
  ret i1 %r
}
define i5 @add_5(i5 %a, i5 %b) {
  %r = add i5 %a, %b
  ret i5 %r
}
define i8 @add_8(i8 %a, i8 %b) {
  %r = add i8 %a, %b
  ret i8 %r
}
define i31 @add_31(i31 %a, i31 %b) {
  %r = add i31 %a, %b
  ret i31 %r
}
define i32 @add_32(i32 %a, i32 %b) {
  %r = add i32 %a, %b
  ret i32 %r
}
define i33 @add_33(i33 %a, i33 %b) {
  %r = add i33 %a, %b
  ret i33 %r
}
define i63 @add_63(i63 %a, i63 %b) {
  %r = add i63 %a, %b
  ret i63 %r
}
define i64 @add_64(i64 %a, i64 %b) {
  %r = add i64 %a, %b
  ret i64 %r
}
define i1 @add_nuw_1(i1 %a, i1 %b) {
  %r = add nuw i1 %a, %b
  ret i1 %r
}
define i5 @add_nuw_5(i5 %a, i5 %b) {
  %r = add nuw i5 %a, %b
  ret i5 %r
}
define i8 @add_nuw_8(i8 %a, i8 %b) {
  %r = add nuw i8 %a, %b
  ret i8 %r
}
define i31 @add_nuw_31(i31 %a, i31 %b) {
  %r = add nuw i31 %a, %b
  ret i31 %r
}
define i32 @add_nuw_32(i32 %a, i32 %b) {
  %r = add nuw i32 %a, %b
  ret i32 %r
}
define i33 @add_nuw_33(i33 %a, i33 %b) {
  %r = add nuw i33 %a, %b
  ret i33 %r
}
define i63 @add_nuw_63(i63 %a, i63 %b) {
  %r = add nuw i63 %a, %b
  ret i63 %r
}
define i64 @add_nuw_64(i64 %a, i64 %b) {
  %r = add nuw i64 %a, %b
  ret i64 %r
}
define i1 @add_nsw_1(i1 %a, i1 %b) {
  %r = add nsw i1 %a, %b
  ret i1 %r
}
define i5 @add_nsw_5(i5 %a, i5 %b) {
  %r = add nsw i5 %a, %b
  ret i5 %r
}
define i8 @add_nsw_8(i8 %a, i8 %b) {
  %r = add nsw i8 %a, %b
  ret i8 %r
}
define i31 @add_nsw_31(i31 %a, i31 %b) {
  %r = add nsw i31 %a, %b
  ret i31 %r
}
define i32 @add_nsw_32(i32 %a, i32 %b) {
  %r = add nsw i32 %a, %b
  ret i32 %r
}
define i33 @add_nsw_33(i33 %a, i33 %b) {
  %r = add nsw i33 %a, %b
  ret i33 %r
}
define i63 @add_nsw_63(i63 %a, i63 %b) {
  %r = add nsw i63 %a, %b
  ret i63 %r
}
define i64 @add_nsw_64(i64 %a, i64 %b) {
  %r = add nsw i64 %a, %b
  ret i64 %r
}
define i1 @add_nuw_nsw_1(i1 %a, i1 %b) {
  %r = add nuw nsw i1 %a, %b
  ret i1 %r
}
define i5 @add_nuw_nsw_5(i5 %a, i5 %b) {
  %r = add nuw nsw i5 %a, %b
  ret i5 %r
}
define i8 @add_nuw_nsw_8(i8 %a, i8 %b) {
  %r = add nuw nsw i8 %a, %b
  ret i8 %r
}
define i31 @add_nuw_nsw_31(i31 %a, i31 %b) {
  %r = add nuw nsw i31 %a, %b
  ret i31 %r
}
define i32 @add_nuw_nsw_32(i32 %a, i32 %b) {
  %r = add nuw nsw i32 %a, %b
  ret i32 %r
}
define i33 @add_nuw_nsw_33(i33 %a, i33 %b) {
  %r = add nuw nsw i33 %a, %b
  ret i33 %r
}
define i63 @add_nuw_nsw_63(i63 %a, i63 %b) {
  %r = add nuw nsw i63 %a, %b
  ret i63 %r
}
define i64 @add_nuw_nsw_64(i64 %a, i64 %b) {
  %r = add nuw nsw i64 %a, %b
  ret i64 %r
}
define i1 @sub_1(i1 %a, i1 %b) {
  %r = sub i1 %a, %b
  ret i1 %r
}
define i5 @sub_5(i5 %a, i5 %b) {
  %r = sub i5 %a, %b
  ret i5 %r
}
define i8 @sub_8(i8 %a, i8 %b) {
  %r = sub i8 %a, %b
  ret i8 %r
}
define i31 @sub_31(i31 %a, i31 %b) {
  %r = sub i31 %a, %b
  ret i31 %r
}
define i32 @sub_32(i32 %a, i32 %b) {
  %r = sub i32 %a, %b
  ret i32 %r
}
define i33 @sub_33(i33 %a, i33 %b) {
  %r = sub i33 %a, %b
  ret i33 %r
}
define i63 @sub_63(i63 %a, i63 %b) {
  %r = sub i63 %a, %b
  ret i63 %r
}
define i64 @sub_64(i64 %a, i64 %b) {
  %r = sub i64 %a, %b
  ret i64 %r
}
define i1 @sub_nuw_1(i1 %a, i1 %b) {
  %r = sub nuw i1 %a, %b
  ret i1 %r
}
define i5 @sub_nuw_5(i5 %a, i5 %b) {
  %r = sub nuw i5 %a, %b
  ret i5 %r
}
define i8 @sub_nuw_8(i8 %a, i8 %b) {
  %r = sub nuw i8 %a, %b
  ret i8 %r
}
define i31 @sub_nuw_31(i31 %a, i31 %b) {
  %r = sub nuw i31 %a, %b
  ret i31 %r
}
define i32 @sub_nuw_32(i32 %a, i32 %b) {
  %r = sub nuw i32 %a, %b
  ret i32 %r
}
define i33 @sub_nuw_33(i33 %a, i33 %b) {
  %r = sub nuw i33 %a, %b
  ret i33 %r
}
define i63 @sub_nuw_63(i63 %a, i63 %b) {
  %r = sub nuw i63 %a, %b
  ret i63 %r
}
define i64 @sub_nuw_64(i64 %a, i64 %b) {
  %r = sub nuw i64 %a, %b
  ret i64 %r
}
define i1 @sub_nsw_1(i1 %a, i1 %b) {
  %r = sub nsw i1 %a, %b
  ret i1 %r
}
define i5 @sub_nsw_5(i5 %a, i5 %b) {
  %r = sub nsw i5 %a, %b
  ret i5 %r
}
define i8 @sub_nsw_8(i8 %a, i8 %b) {
  %r = sub nsw i8 %a, %b
  ret i8 %r
}
define i31 @sub_nsw_31(i31 %a, i31 %b) {
  %r = sub nsw i31 %a, %b
  ret i31 %r
}
define i32 @sub_nsw_32(i32 %a, i32 %b) {
  %r = sub nsw i32 %a, %b
  ret i32 %r
}
define i33 @sub_nsw_33(i33 %a, i33 %b) {
  %r = sub nsw i33 %a, %b
  ret i33 %r
}
define i63 @sub_nsw_63(i63 %a, i63 %b) {
  %r = sub nsw i63 %a, %b
  ret i63 %r
}
define i64 @sub_nsw_64(i64 %a, i64 %b) {
  %r = sub nsw i64 %a, %b
  ret i64 %r
}
define i1 @sub_nuw_nsw_1(i1 %a, i1 %b) {
  %r = sub nuw nsw i1 %a, %b
  ret i1 %r
}
define i5 @sub_nuw_nsw_5(i5 %a, i5 %b) {
  %r = sub nuw nsw i5 %a, %b
  ret i5 %r
}
define i8 @sub_nuw_nsw_8(i8 %a, i8 %b) {
  %r = sub nuw nsw i8 %a, %b
  ret i8 %r
}
define i31 @sub_nuw_nsw_31(i31 %a, i31 %b) {
  %r = sub nuw nsw i31 %a, %b
  ret i31 %r
}
define i32 @sub_nuw_nsw_32(i32 %a, i32 %b) {
  %r = sub nuw nsw i32 %a, %b
  ret i32 %r
}
define i33 @sub_nuw_nsw_33(i33 %a, i33 %b) {
  %r = sub nuw nsw i33 %a, %b
  ret i33 %r
}
define i63 @sub_nuw_nsw_63(i63 %a, i63 %b) {
  %r = sub nuw nsw i63 %a, %b
  ret i63 %r
}
define i64 @sub_nuw_nsw_64(i64 %a, i64 %b) {
  %r = sub nuw nsw i64 %a, %b
  ret i64 %r
}
define i1 @mul_1(i1 %a, i1 %b) {
  %r = mul i1 %a, %b
  ret i1 %r
}
define i5 @mul_5(i5 %a, i5 %b) {
  %r = mul i5 %a, %b
  ret i5 %r
}
define i8 @mul_8(i8 %a, i8 %b) {
  %r = mul i8 %a, %b
  ret i8 %r
}
define i31 @mul_31(i31 %a, i31 %b) {
  %r = mul i31 %a, %b
  ret i31 %r
}
define i32 @mul_32(i32 %a, i32 %b) {
  %r = mul i32 %a, %b
  ret i32 %r
}
define i33 @mul_33(i33 %a, i33 %b) {
  %r = mul i33 %a, %b
  ret i33 %r
}
define i63 @mul_63(i63 %a, i63 %b) {
  %r = mul i63 %a, %b
  ret i63 %r
}
define i64 @mul_64(i64 %a, i64 %b) {
  %r = mul i64 %a, %b
  ret i64 %r
}
define i1 @mul_nuw_1(i1 %a, i1 %b) {
  %r = mul nuw i1 %a, %b
  ret i1 %r
}
define i5 @mul_nuw_5(i5 %a, i5 %b) {
  %r = mul nuw i5 %a, %b
  ret i5 %r
}
define i8 @mul_nuw_8(i8 %a, i8 %b) {
  %r = mul nuw i8 %a, %b
  ret i8 %r
}
define i31 @mul_nuw_31(i31 %a, i31 %b) {
  %r = mul nuw i31 %a, %b
  ret i31 %r
}
define i32 @mul_nuw_32(i32 %a, i32 %b) {
  %r = mul nuw i32 %a, %b
  ret i32 %r
}
define i33 @mul_nuw_33(i33 %a, i33 %b) {
  %r = mul nuw i33 %a, %b
  ret i33 %r
}
define i63 @mul_nuw_63(i63 %a, i63 %b) {
  %r = mul nuw i63 %a, %b
  ret i63 %r
}
define i64 @mul_nuw_64(i64 %a, i64 %b) {
  %r = mul nuw i64 %a, %b
  ret i64 %r
}
define i1 @mul_nsw_1(i1 %a, i1 %b) {
  %r = mul nsw i1 %a, %b
  ret i1 %r
}
define i5 @mul_nsw_5(i5 %a, i5 %b) {
  %r = mul nsw i5 %a, %b
  ret i5 %r
}
define i8 @mul_nsw_8(i8 %a, i8 %b) {
  %r = mul nsw i8 %a, %b
  ret i8 %r
}
define i31 @mul_nsw_31(i31 %a, i31 %b) {
  %r = mul nsw i31 %a, %b
  ret i31 %r
}
define i32 @mul_nsw_32(i32 %a, i32 %b) {
  %r = mul nsw i32 %a, %b
  ret i32 %r
}
define i33 @mul_nsw_33(i33 %a, i33 %b) {
  %r = mul nsw i33 %a, %b
  ret i33 %r
}
define i63 @mul_nsw_63(i63 %a, i63 %b) {
  %r = mul nsw i63 %a, %b
  ret i63 %r
}
define i64 @mul_nsw_64(i64 %a, i64 %b) {
  %r = mul nsw i64 %a, %b
  ret i64 %r
}
define i1 @mul_nuw_nsw_1(i1 %a, i1 %b) {
  %r = mul nuw nsw i1 %a, %b
  ret i1 %r
}
define i5 @mul_nuw_nsw_5(i5 %a, i5 %b) {
  %r = mul nuw nsw i5 %a, %b
  ret i5 %r
}
define i8 @mul_nuw_nsw_8(i8 %a, i8 %b) {
  %r = mul nuw nsw i8 %a, %b
  ret i8 %r
}
define i31 @mul_nuw_nsw_31(i31 %a, i31 %b) {
  %r = mul nuw nsw i31 %a, %b
  ret i31 %r
}
define i32 @mul_nuw_nsw_32(i32 %a, i32 %b) {
  %r = mul nuw nsw i32 %a, %b
  ret i32 %r
}
define i33 @mul_nuw_nsw_33(i33 %a, i33 %b) {
  %r = mul nuw nsw i33 %a, %b
  ret i33 %r
}
define i63 @mul_nuw_nsw_63(i63 %a, i63 %b) {
  %r = mul nuw nsw i63 %a, %b
  ret i63 %r
}
define i64 @mul_nuw_nsw_64(i64 %a, i64 %b) {
  %r = mul nuw nsw i64 %a, %b
  ret i64 %r
}
define i1 @shl_1(i1 %a, i1 %b) {
  %r = shl i1 %a, %b
  ret i1 %r
}
define i1 @shl_1_unused(i1 %a, i1 %b) {
  %x = shl i1 %a, %b
  %r = add i1 0, 1
  ret i1 %r
}
define i5 @shl_5(i5 %a, i5 %b) {
  %r = shl i5 %a, %b
  ret i5 %r
}
define i1 @shl_5_unused(i5 %a, i5 %b) {
  %x = shl i5 %a, %b
  %r = add i1 0, 1
  ret i1 %r
}
define i8 @shl_8(i8 %a, i8 %b) {
  %r = shl i8 %a, %b
  ret i8 %r
}
define i1 @shl_8_unused(i8 %a, i8 %b) {
  %x = shl i8 %a, %b
  %r = add i1 0, 1
  ret i1 %r
}
define i31 @shl_31(i31 %a, i31 %b) {
  %r = shl i31 %a, %b
  ret i31 %r
}
define i1 @shl_31_unused(i31 %a, i31 %b) {
  %x = shl i31 %a, %b
  %r = add i1 0, 1
  ret i1 %r
}
define i32 @shl_32(i32 %a, i32 %b) {
  %r = shl i32 %a, %b
  ret i32 %r
}
define i1 @shl_32_unused(i32 %a, i32 %b) {
  %x = shl i32 %a, %b
  %r = add i1 0, 1
  ret i1 %r
}
define i33 @shl_33(i33 %a, i33 %b) {
  %r = shl i33 %a, %b
  ret i33 %r
}
define i1 @shl_33_unused(i33 %a, i33 %b) {
  %x = shl i33 %a, %b
  %r = add i1 0, 1
  ret i1 %r
}
define i63 @shl_63(i63 %a, i63 %b) {
  %r = shl i63 %a, %b
  ret i63 %r
}
define i1 @shl_63_unused(i63 %a, i63 %b) {
  %x = shl i63 %a, %b
  %r = add i1 0, 1
  ret i1 %r
}
define i64 @shl_64(i64 %a, i64 %b) {
  %r = shl i64 %a, %b
  ret i64 %r
}
define i1 @shl_64_unused(i64 %a, i64 %b) {
  %x = shl i64 %a, %b
  %r = add i1 0, 1
  ret i1 %r
}
define i1 @shl_nuw_1(i1 %a, i1 %b) {
  %r = shl nuw i1 %a, %b
  ret i1 %r
}
define i1 @shl_nuw_1_unused(i1 %a, i1 %b) {
  %x = shl nuw i1 %a, %b
  %r = add i1 0, 1
  ret i1 %r
}
define i5 @shl_nuw_5(i5 %a, i5 %b) {
  %r = shl nuw i5 %a, %b
  ret i5 %r
}
define i1 @shl_nuw_5_unused(i5 %a, i5 %b) {
  %x = shl nuw i5 %a, %b
  %r = add i1 0, 1
  ret i1 %r
}
define i8 @shl_nuw_8(i8 %a, i8 %b) {
  %r = shl nuw i8 %a, %b
  ret i8 %r
}
define i1 @shl_nuw_8_unused(i8 %a, i8 %b) {
  %x = shl nuw i8 %a, %b
  %r = add i1 0, 1
  ret i1 %r
}
define i31 @shl_nuw_31(i31 %a, i31 %b) {
  %r = shl nuw i31 %a, %b
  ret i31 %r
}
define i1 @shl_nuw_31_unused(i31 %a, i31 %b) {
  %x = shl nuw i31 %a, %b
  %r = add i1 0, 1
  ret i1 %r
}
define i32 @shl_nuw_32(i32 %a, i32 %b) {
  %r = shl nuw i32 %a, %b
  ret i32 %r
}
define i1 @shl_nuw_32_unused(i32 %a, i32 %b) {
  %x = shl nuw i32 %a, %b
  %r = add i1 0, 1
  ret i1 %r
}
define i33 @shl_nuw_33(i33 %a, i33 %b) {
  %r = shl nuw i33 %a, %b
  ret i33 %r
}
define i1 @shl_nuw_33_unused(i33 %a, i33 %b) {
  %x = shl nuw i33 %a, %b
  %r = add i1 0, 1
  ret i1 %r
}
define i63 @shl_nuw_63(i63 %a, i63 %b) {
  %r = shl nuw i63 %a, %b
  ret i63 %r
}
define i1 @shl_nuw_63_unused(i63 %a, i63 %b) {
  %x = shl nuw i63 %a, %b
  %r = add i1 0, 1
  ret i1 %r
}
define i64 @shl_nuw_64(i64 %a, i64 %b) {
  %r = shl nuw i64 %a, %b
  ret i64 %r
}
define i1 @shl_nuw_64_unused(i64 %a, i64 %b) {
  %x = shl nuw i64 %a, %b
  %r = add i1 0, 1
  ret i1 %r
}
define i1 @shl_nsw_1(i1 %a, i1 %b) {
  %r = shl nsw i1 %a, %b
  ret i1 %r
}
define i1 @shl_nsw_1_unused(i1 %a, i1 %b) {
  %x = shl nsw i1 %a, %b
  %r = add i1 0, 1
  ret i1 %r
}
define i5 @shl_nsw_5(i5 %a, i5 %b) {
  %r = shl nsw i5 %a, %b
  ret i5 %r
}
define i1 @shl_nsw_5_unused(i5 %a, i5 %b) {
  %x = shl nsw i5 %a, %b
  %r = add i1 0, 1
  ret i1 %r
}
define i8 @shl_nsw_8(i8 %a, i8 %b) {
  %r = shl nsw i8 %a, %b
  ret i8 %r
}
define i1 @shl_nsw_8_unused(i8 %a, i8 %b) {
  %x = shl nsw i8 %a, %b
  %r = add i1 0, 1
  ret i1 %r
}
define i31 @shl_nsw_31(i31 %a, i31 %b) {
  %r = shl nsw i31 %a, %b
  ret i31 %r
}
define i1 @shl_nsw_31_unused(i31 %a, i31 %b) {
  %x = shl nsw i31 %a, %b
  %r = add i1 0, 1
  ret i1 %r
}
define i32 @shl_nsw_32(i32 %a, i32 %b) {
  %r = shl nsw i32 %a, %b
  ret i32 %r
}
define i1 @shl_nsw_32_unused(i32 %a, i32 %b) {
  %x = shl nsw i32 %a, %b
  %r = add i1 0, 1
  ret i1 %r
}
define i33 @shl_nsw_33(i33 %a, i33 %b) {
  %r = shl nsw i33 %a, %b
  ret i33 %r
}
define i1 @shl_nsw_33_unused(i33 %a, i33 %b) {
  %x = shl nsw i33 %a, %b
  %r = add i1 0, 1
  ret i1 %r
}
define i63 @shl_nsw_63(i63 %a, i63 %b) {
  %r = shl nsw i63 %a, %b
  ret i63 %r
}
define i1 @shl_nsw_63_unused(i63 %a, i63 %b) {
  %x = shl nsw i63 %a, %b
  %r = add i1 0, 1
  ret i1 %r
}
define i64 @shl_nsw_64(i64 %a, i64 %b) {
  %r = shl nsw i64 %a, %b
  ret i64 %r
}
define i1 @shl_nsw_64_unused(i64 %a, i64 %b) {
  %x = shl nsw i64 %a, %b
  %r = add i1 0, 1
  ret i1 %r
}
define i1 @shl_nuw_nsw_1(i1 %a, i1 %b) {
  %r = shl nuw nsw i1 %a, %b
  ret i1 %r
}
define i1 @shl_nuw_nsw_1_unused(i1 %a, i1 %b) {
  %x = shl nuw nsw i1 %a, %b
  %r = add i1 0, 1
  ret i1 %r
}
define i5 @shl_nuw_nsw_5(i5 %a, i5 %b) {
  %r = shl nuw nsw i5 %a, %b
  ret i5 %r
}
define i1 @shl_nuw_nsw_5_unused(i5 %a, i5 %b) {
  %x = shl nuw nsw i5 %a, %b
  %r = add i1 0, 1
  ret i1 %r
}
define i8 @shl_nuw_nsw_8(i8 %a, i8 %b) {
  %r = shl nuw nsw i8 %a, %b
  ret i8 %r
}
define i1 @shl_nuw_nsw_8_unused(i8 %a, i8 %b) {
  %x = shl nuw nsw i8 %a, %b
  %r = add i1 0, 1
  ret i1 %r
}
define i31 @shl_nuw_nsw_31(i31 %a, i31 %b) {
  %r = shl nuw nsw i31 %a, %b
  ret i31 %r
}
define i1 @shl_nuw_nsw_31_unused(i31 %a, i31 %b) {
  %x = shl nuw nsw i31 %a, %b
  %r = add i1 0, 1
  ret i1 %r
}
define i32 @shl_nuw_nsw_32(i32 %a, i32 %b) {
  %r = shl nuw nsw i32 %a, %b
  ret i32 %r
}
define i1 @shl_nuw_nsw_32_unused(i32 %a, i32 %b) {
  %x = shl nuw nsw i32 %a, %b
  %r = add i1 0, 1
  ret i1 %r
}
define i33 @shl_nuw_nsw_33(i33 %a, i33 %b) {
  %r = shl nuw nsw i33 %a, %b
  ret i33 %r
}
define i1 @shl_nuw_nsw_33_unused(i33 %a, i33 %b) {
  %x = shl nuw nsw i33 %a, %b
  %r = add i1 0, 1
  ret i1 %r
}
define i63 @shl_nuw_nsw_63(i63 %a, i63 %b) {
  %r = shl nuw nsw i63 %a, %b
  ret i63 %r
}
define i1 @shl_nuw_nsw_63_unused(i63 %a, i63 %b) {
  %x = shl nuw nsw i63 %a, %b
  %r = add i1 0, 1
  ret i1 %r
}
define i64 @shl_nuw_nsw_64(i64 %a, i64 %b) {
  %r = shl nuw nsw i64 %a, %b
  ret i64 %r
}
define i1 @shl_nuw_nsw_64_unused(i64 %a, i64 %b) {
  %x = shl nuw nsw i64 %a, %b
  %r = add i1 0, 1
  ret i1 %r
}
define i1 @udiv_1(i1 %a, i1 %b) {
  %r = udiv i1 %a, %b
  ret i1 %r
}
define i1 @udiv_1_unused(i1 %a, i1 %b) {
  %x = udiv i1 %a, %b
  %r = add i1 0, 1
  ret i1 %r
}
define i5 @udiv_5(i5 %a, i5 %b) {
  %r = udiv i5 %a, %b
  ret i5 %r
}
define i1 @udiv_5_unused(i5 %a, i5 %b) {
  %x = udiv i5 %a, %b
  %r = add i1 0, 1
  ret i1 %r
}
define i8 @udiv_8(i8 %a, i8 %b) {
  %r = udiv i8 %a, %b
  ret i8 %r
}
define i1 @udiv_8_unused(i8 %a, i8 %b) {
  %x = udiv i8 %a, %b
  %r = add i1 0, 1
  ret i1 %r
}
define i31 @udiv_31(i31 %a, i31 %b) {
  %r = udiv i31 %a, %b
  ret i31 %r
}
define i1 @udiv_31_unused(i31 %a, i31 %b) {
  %x = udiv i31 %a, %b
  %r = add i1 0, 1
  ret i1 %r
}
define i32 @udiv_32(i32 %a, i32 %b) {
  %r = udiv i32 %a, %b
  ret i32 %r
}
define i1 @udiv_32_unused(i32 %a, i32 %b) {
  %x = udiv i32 %a, %b
  %r = add i1 0, 1
  ret i1 %r
}
define i33 @udiv_33(i33 %a, i33 %b) {
  %r = udiv i33 %a, %b
  ret i33 %r
}
define i1 @udiv_33_unused(i33 %a, i33 %b) {
  %x = udiv i33 %a, %b
  %r = add i1 0, 1
  ret i1 %r
}
define i63 @udiv_63(i63 %a, i63 %b) {
  %r = udiv i63 %a, %b
  ret i63 %r
}
define i1 @udiv_63_unused(i63 %a, i63 %b) {
  %x = udiv i63 %a, %b
  %r = add i1 0, 1
  ret i1 %r
}
define i64 @udiv_64(i64 %a, i64 %b) {
  %r = udiv i64 %a, %b
  ret i64 %r
}
define i1 @udiv_64_unused(i64 %a, i64 %b) {
  %x = udiv i64 %a, %b
  %r = add i1 0, 1
  ret i1 %r
}
define i1 @udiv_exact_1(i1 %a, i1 %b) {
  %r = udiv exact i1 %a, %b
  ret i1 %r
}
define i1 @udiv_exact_1_unused(i1 %a, i1 %b) {
  %x = udiv exact i1 %a, %b
  %r = add i1 0, 1
  ret i1 %r
}
define i5 @udiv_exact_5(i5 %a, i5 %b) {
  %r = udiv exact i5 %a, %b
  ret i5 %r
}
define i1 @udiv_exact_5_unused(i5 %a, i5 %b) {
  %x = udiv exact i5 %a, %b
  %r = add i1 0, 1
  ret i1 %r
}
define i8 @udiv_exact_8(i8 %a, i8 %b) {
  %r = udiv exact i8 %a, %b
  ret i8 %r
}
define i1 @udiv_exact_8_unused(i8 %a, i8 %b) {
  %x = udiv exact i8 %a, %b
  %r = add i1 0, 1
  ret i1 %r
}
define i31 @udiv_exact_31(i31 %a, i31 %b) {
  %r = udiv exact i31 %a, %b
  ret i31 %r
}
define i1 @udiv_exact_31_unused(i31 %a, i31 %b) {
  %x = udiv exact i31 %a, %b
  %r = add i1 0, 1
  ret i1 %r
}
define i32 @udiv_exact_32(i32 %a, i32 %b) {
  %r = udiv exact i32 %a, %b
  ret i32 %r
}
define i1 @udiv_exact_32_unused(i32 %a, i32 %b) {
  %x = udiv exact i32 %a, %b
  %r = add i1 0, 1
  ret i1 %r
}
define i33 @udiv_exact_33(i33 %a, i33 %b) {
  %r = udiv exact i33 %a, %b
  ret i33 %r
}
define i1 @udiv_exact_33_unused(i33 %a, i33 %b) {
  %x = udiv exact i33 %a, %b
  %r = add i1 0, 1
  ret i1 %r
}
define i63 @udiv_exact_63(i63 %a, i63 %b) {
  %r = udiv exact i63 %a, %b
  ret i63 %r
}
define i1 @udiv_exact_63_unused(i63 %a, i63 %b) {
  %x = udiv exact i63 %a, %b
  %r = add i1 0, 1
  ret i1 %r
}
define i64 @udiv_exact_64(i64 %a, i64 %b) {
  %r = udiv exact i64 %a, %b
  ret i64 %r
}
define i1 @udiv_exact_64_unused(i64 %a, i64 %b) {
  %x = udiv exact i64 %a, %b
  %r = add i1 0, 1
  ret i1 %r
}
define i1 @sdiv_1(i1 %a, i1 %b) {
  %r = sdiv i1 %a, %b
  ret i1 %r
}
define i1 @sdiv_1_unused(i1 %a, i1 %b) {
  %x = sdiv i1 %a, %b
  %r = add i1 0, 1
  ret i1 %r
}
define i5 @sdiv_5(i5 %a, i5 %b) {
  %r = sdiv i5 %a, %b
  ret i5 %r
}
define i1 @sdiv_5_unused(i5 %a, i5 %b) {
  %x = sdiv i5 %a, %b
  %r = add i1 0, 1
  ret i1 %r
}
define i8 @sdiv_8(i8 %a, i8 %b) {
  %r = sdiv i8 %a, %b
  ret i8 %r
}
define i1 @sdiv_8_unused(i8 %a, i8 %b) {
  %x = sdiv i8 %a, %b
  %r = add i1 0, 1
  ret i1 %r
}
define i31 @sdiv_31(i31 %a, i31 %b) {
  %r = sdiv i31 %a, %b
  ret i31 %r
}
define i1 @sdiv_31_unused(i31 %a, i31 %b) {
  %x = sdiv i31 %a, %b
  %r = add i1 0, 1
  ret i1 %r
}
define i32 @sdiv_32(i32 %a, i32 %b) {
  %r = sdiv i32 %a, %b
  ret i32 %r
}
define i1 @sdiv_32_unused(i32 %a, i32 %b) {
  %x = sdiv i32 %a, %b
  %r = add i1 0, 1
  ret i1 %r
}
define i33 @sdiv_33(i33 %a, i33 %b) {
  %r = sdiv i33 %a, %b
  ret i33 %r
}
define i1 @sdiv_33_unused(i33 %a, i33 %b) {
  %x = sdiv i33 %a, %b
  %r = add i1 0, 1
  ret i1 %r
}
define i63 @sdiv_63(i63 %a, i63 %b) {
  %r = sdiv i63 %a, %b
  ret i63 %r
}
define i1 @sdiv_63_unused(i63 %a, i63 %b) {
  %x = sdiv i63 %a, %b
  %r = add i1 0, 1
  ret i1 %r
}
define i64 @sdiv_64(i64 %a, i64 %b) {
  %r = sdiv i64 %a, %b
  ret i64 %r
}
define i1 @sdiv_64_unused(i64 %a, i64 %b) {
  %x = sdiv i64 %a, %b
  %r = add i1 0, 1
  ret i1 %r
}
define i1 @sdiv_exact_1(i1 %a, i1 %b) {
  %r = sdiv exact i1 %a, %b
  ret i1 %r
}
define i1 @sdiv_exact_1_unused(i1 %a, i1 %b) {
  %x = sdiv exact i1 %a, %b
  %r = add i1 0, 1
  ret i1 %r
}
define i5 @sdiv_exact_5(i5 %a, i5 %b) {
  %r = sdiv exact i5 %a, %b
  ret i5 %r
}
define i1 @sdiv_exact_5_unused(i5 %a, i5 %b) {
  %x = sdiv exact i5 %a, %b
  %r = add i1 0, 1
  ret i1 %r
}
define i8 @sdiv_exact_8(i8 %a, i8 %b) {
  %r = sdiv exact i8 %a, %b
  ret i8 %r
}
define i1 @sdiv_exact_8_unused(i8 %a, i8 %b) {
  %x = sdiv exact i8 %a, %b
  %r = add i1 0, 1
  ret i1 %r
}
define i31 @sdiv_exact_31(i31 %a, i31 %b) {
  %r = sdiv exact i31 %a, %b
  ret i31 %r
}
define i1 @sdiv_exact_31_unused(i31 %a, i31 %b) {
  %x = sdiv exact i31 %a, %b
  %r = add i1 0, 1
  ret i1 %r
}
define i32 @sdiv_exact_32(i32 %a, i32 %b) {
  %r = sdiv exact i32 %a, %b
  ret i32 %r
}
define i1 @sdiv_exact_32_unused(i32 %a, i32 %b) {
  %x = sdiv exact i32 %a, %b
  %r = add i1 0, 1
  ret i1 %r
}
define i33 @sdiv_exact_33(i33 %a, i33 %b) {
  %r = sdiv exact i33 %a, %b
  ret i33 %r
}
define i1 @sdiv_exact_33_unused(i33 %a, i33 %b) {
  %x = sdiv exact i33 %a, %b
  %r = add i1 0, 1
  ret i1 %r
}
define i63 @sdiv_exact_63(i63 %a, i63 %b) {
  %r = sdiv exact i63 %a, %b
  ret i63 %r
}
define i1 @sdiv_exact_63_unused(i63 %a, i63 %b) {
  %x = sdiv exact i63 %a, %b
  %r = add i1 0, 1
  ret i1 %r
}
define i64 @sdiv_exact_64(i64 %a, i64 %b) {
  %r = sdiv exact i64 %a, %b
  ret i64 %r
}
define i1 @sdiv_exact_64_unused(i64 %a, i64 %b) {
  %x = sdiv exact i64 %a, %b
  %r = add i1 0, 1
  ret i1 %r
}
define i1 @lshr_1(i1 %a, i1 %b) {
  %r = lshr i1 %a, %b
  ret i1 %r
}
define i5 @lshr_5(i5 %a, i5 %b) {
  %r = lshr i5 %a, %b
  ret i5 %r
}
define i8 @lshr_8(i8 %a, i8 %b) {
  %r = lshr i8 %a, %b
  ret i8 %r
}
define i31 @lshr_31(i31 %a, i31 %b) {
  %r = lshr i31 %a, %b
  ret i31 %r
}
define i32 @lshr_32(i32 %a, i32 %b) {
  %r = lshr i32 %a, %b
  ret i32 %r
}
define i33 @lshr_33(i33 %a, i33 %b) {
  %r = lshr i33 %a, %b
  ret i33 %r
}
define i63 @lshr_63(i63 %a, i63 %b) {
  %r = lshr i63 %a, %b
  ret i63 %r
}
define i64 @lshr_64(i64 %a, i64 %b) {
  %r = lshr i64 %a, %b
  ret i64 %r
}
define i1 @lshr_exact_1(i1 %a, i1 %b) {
  %r = lshr exact i1 %a, %b
  ret i1 %r
}
define i5 @lshr_exact_5(i5 %a, i5 %b) {
  %r = lshr exact i5 %a, %b
  ret i5 %r
}
define i8 @lshr_exact_8(i8 %a, i8 %b) {
  %r = lshr exact i8 %a, %b
  ret i8 %r
}
define i31 @lshr_exact_31(i31 %a, i31 %b) {
  %r = lshr exact i31 %a, %b
  ret i31 %r
}
define i32 @lshr_exact_32(i32 %a, i32 %b) {
  %r = lshr exact i32 %a, %b
  ret i32 %r
}
define i33 @lshr_exact_33(i33 %a, i33 %b) {
  %r = lshr exact i33 %a, %b
  ret i33 %r
}
define i63 @lshr_exact_63(i63 %a, i63 %b) {
  %r = lshr exact i63 %a, %b
  ret i63 %r
}
define i64 @lshr_exact_64(i64 %a, i64 %b) {
  %r = lshr exact i64 %a, %b
  ret i64 %r
}
define i1 @ashr_1(i1 %a, i1 %b) {
  %r = ashr i1 %a, %b
  ret i1 %r
}
define i5 @ashr_5(i5 %a, i5 %b) {
  %r = ashr i5 %a, %b
  ret i5 %r
}
define i8 @ashr_8(i8 %a, i8 %b) {
  %r = ashr i8 %a, %b
  ret i8 %r
}
define i31 @ashr_31(i31 %a, i31 %b) {
  %r = ashr i31 %a, %b
  ret i31 %r
}
define i32 @ashr_32(i32 %a, i32 %b) {
  %r = ashr i32 %a, %b
  ret i32 %r
}
define i33 @ashr_33(i33 %a, i33 %b) {
  %r = ashr i33 %a, %b
  ret i33 %r
}
define i63 @ashr_63(i63 %a, i63 %b) {
  %r = ashr i63 %a, %b
  ret i63 %r
}
define i64 @ashr_64(i64 %a, i64 %b) {
  %r = ashr i64 %a, %b
  ret i64 %r
}
define i1 @ashr_exact_1(i1 %a, i1 %b) {
  %r = ashr exact i1 %a, %b
  ret i1 %r
}
define i5 @ashr_exact_5(i5 %a, i5 %b) {
  %r = ashr exact i5 %a, %b
  ret i5 %r
}
define i8 @ashr_exact_8(i8 %a, i8 %b) {
  %r = ashr exact i8 %a, %b
  ret i8 %r
}
define i31 @ashr_exact_31(i31 %a, i31 %b) {
  %r = ashr exact i31 %a, %b
  ret i31 %r
}
define i32 @ashr_exact_32(i32 %a, i32 %b) {
  %r = ashr exact i32 %a, %b
  ret i32 %r
}
define i33 @ashr_exact_33(i33 %a, i33 %b) {
  %r = ashr exact i33 %a, %b
  ret i33 %r
}
define i63 @ashr_exact_63(i63 %a, i63 %b) {
  %r = ashr exact i63 %a, %b
  ret i63 %r
}
define i64 @ashr_exact_64(i64 %a, i64 %b) {
  %r = ashr exact i64 %a, %b
  ret i64 %r
}
define i1 @urem_1(i1 %a, i1 %b) {
  %r = urem i1 %a, %b
  ret i1 %r
}
define i1 @urem_1_unused(i1 %a, i1 %b) {
  %x = urem i1 %a, %b
  %r = add i1 0, 1
  ret i1 %r
}
define i5 @urem_5(i5 %a, i5 %b) {
  %r = urem i5 %a, %b
  ret i5 %r
}
define i1 @urem_5_unused(i5 %a, i5 %b) {
  %x = urem i5 %a, %b
  %r = add i1 0, 1
  ret i1 %r
}
define i8 @urem_8(i8 %a, i8 %b) {
  %r = urem i8 %a, %b
  ret i8 %r
}
define i1 @urem_8_unused(i8 %a, i8 %b) {
  %x = urem i8 %a, %b
  %r = add i1 0, 1
  ret i1 %r
}
define i31 @urem_31(i31 %a, i31 %b) {
  %r = urem i31 %a, %b
  ret i31 %r
}
define i1 @urem_31_unused(i31 %a, i31 %b) {
  %x = urem i31 %a, %b
  %r = add i1 0, 1
  ret i1 %r
}
define i32 @urem_32(i32 %a, i32 %b) {
  %r = urem i32 %a, %b
  ret i32 %r
}
define i1 @urem_32_unused(i32 %a, i32 %b) {
  %x = urem i32 %a, %b
  %r = add i1 0, 1
  ret i1 %r
}
define i33 @urem_33(i33 %a, i33 %b) {
  %r = urem i33 %a, %b
  ret i33 %r
}
define i1 @urem_33_unused(i33 %a, i33 %b) {
  %x = urem i33 %a, %b
  %r = add i1 0, 1
  ret i1 %r
}
define i63 @urem_63(i63 %a, i63 %b) {
  %r = urem i63 %a, %b
  ret i63 %r
}
define i1 @urem_63_unused(i63 %a, i63 %b) {
  %x = urem i63 %a, %b
  %r = add i1 0, 1
  ret i1 %r
}
define i64 @urem_64(i64 %a, i64 %b) {
  %r = urem i64 %a, %b
  ret i64 %r
}
define i1 @urem_64_unused(i64 %a, i64 %b) {
  %x = urem i64 %a, %b
  %r = add i1 0, 1
  ret i1 %r
}
define i1 @srem_1(i1 %a, i1 %b) {
  %r = srem i1 %a, %b
  ret i1 %r
}
define i1 @srem_1_unused(i1 %a, i1 %b) {
  %x = srem i1 %a, %b
  %r = add i1 0, 1
  ret i1 %r
}
define i5 @srem_5(i5 %a, i5 %b) {
  %r = srem i5 %a, %b
  ret i5 %r
}
define i1 @srem_5_unused(i5 %a, i5 %b) {
  %x = srem i5 %a, %b
  %r = add i1 0, 1
  ret i1 %r
}
define i8 @srem_8(i8 %a, i8 %b) {
  %r = srem i8 %a, %b
  ret i8 %r
}
define i1 @srem_8_unused(i8 %a, i8 %b) {
  %x = srem i8 %a, %b
  %r = add i1 0, 1
  ret i1 %r
}
define i31 @srem_31(i31 %a, i31 %b) {
  %r = srem i31 %a, %b
  ret i31 %r
}
define i1 @srem_31_unused(i31 %a, i31 %b) {
  %x = srem i31 %a, %b
  %r = add i1 0, 1
  ret i1 %r
}
define i32 @srem_32(i32 %a, i32 %b) {
  %r = srem i32 %a, %b
  ret i32 %r
}
define i1 @srem_32_unused(i32 %a, i32 %b) {
  %x = srem i32 %a, %b
  %r = add i1 0, 1
  ret i1 %r
}
define i33 @srem_33(i33 %a, i33 %b) {
  %r = srem i33 %a, %b
  ret i33 %r
}
define i1 @srem_33_unused(i33 %a, i33 %b) {
  %x = srem i33 %a, %b
  %r = add i1 0, 1
  ret i1 %r
}
define i63 @srem_63(i63 %a, i63 %b) {
  %r = srem i63 %a, %b
  ret i63 %r
}
define i1 @srem_63_unused(i63 %a, i63 %b) {
  %x = srem i63 %a, %b
  %r = add i1 0, 1
  ret i1 %r
}
define i64 @srem_64(i64 %a, i64 %b) {
  %r = srem i64 %a, %b
  ret i64 %r
}
define i1 @srem_64_unused(i64 %a, i64 %b) {
  %x = srem i64 %a, %b
  %r = add i1 0, 1
  ret i1 %r
}
define i1 @and_1(i1 %a, i1 %b) {
  %r = and i1 %a, %b
  ret i1 %r
}
define i5 @and_5(i5 %a, i5 %b) {
  %r = and i5 %a, %b
  ret i5 %r
}
define i8 @and_8(i8 %a, i8 %b) {
  %r = and i8 %a, %b
  ret i8 %r
}
define i31 @and_31(i31 %a, i31 %b) {
  %r = and i31 %a, %b
  ret i31 %r
}
define i32 @and_32(i32 %a, i32 %b) {
  %r = and i32 %a, %b
  ret i32 %r
}
define i33 @and_33(i33 %a, i33 %b) {
  %r = and i33 %a, %b
  ret i33 %r
}
define i63 @and_63(i63 %a, i63 %b) {
  %r = and i63 %a, %b
  ret i63 %r
}
define i64 @and_64(i64 %a, i64 %b) {
  %r = and i64 %a, %b
  ret i64 %r
}
define i1 @xor_1(i1 %a, i1 %b) {
  %r = xor i1 %a, %b
  ret i1 %r
}
define i5 @xor_5(i5 %a, i5 %b) {
  %r = xor i5 %a, %b
  ret i5 %r
}
define i8 @xor_8(i8 %a, i8 %b) {
  %r = xor i8 %a, %b
  ret i8 %r
}
define i31 @xor_31(i31 %a, i31 %b) {
  %r = xor i31 %a, %b
  ret i31 %r
}
define i32 @xor_32(i32 %a, i32 %b) {
  %r = xor i32 %a, %b
  ret i32 %r
}
define i33 @xor_33(i33 %a, i33 %b) {
  %r = xor i33 %a, %b
  ret i33 %r
}
define i63 @xor_63(i63 %a, i63 %b) {
  %r = xor i63 %a, %b
  ret i63 %r
}
define i64 @xor_64(i64 %a, i64 %b) {
  %r = xor i64 %a, %b
  ret i64 %r
}
define i1 @or_1(i1 %a, i1 %b) {
  %r = or i1 %a, %b
  ret i1 %r
}
define i5 @or_5(i5 %a, i5 %b) {
  %r = or i5 %a, %b
  ret i5 %r
}
define i8 @or_8(i8 %a, i8 %b) {
  %r = or i8 %a, %b
  ret i8 %r
}
define i31 @or_31(i31 %a, i31 %b) {
  %r = or i31 %a, %b
  ret i31 %r
}
define i32 @or_32(i32 %a, i32 %b) {
  %r = or i32 %a, %b
  ret i32 %r
}
define i33 @or_33(i33 %a, i33 %b) {
  %r = or i33 %a, %b
  ret i33 %r
}
define i63 @or_63(i63 %a, i63 %b) {
  %r = or i63 %a, %b
  ret i63 %r
}
define i64 @or_64(i64 %a, i64 %b) {
  %r = or i64 %a, %b
  ret i64 %r
}
define i1 @or_disjoint_1(i1 %a, i1 %b) {
  %r = or disjoint i1 %a, %b
  ret i1 %r
}
define i5 @or_disjoint_5(i5 %a, i5 %b) {
  %r = or disjoint i5 %a, %b
  ret i5 %r
}
define i8 @or_disjoint_8(i8 %a, i8 %b) {
  %r = or disjoint i8 %a, %b
  ret i8 %r
}
define i31 @or_disjoint_31(i31 %a, i31 %b) {
  %r = or disjoint i31 %a, %b
  ret i31 %r
}
define i32 @or_disjoint_32(i32 %a, i32 %b) {
  %r = or disjoint i32 %a, %b
  ret i32 %r
}
define i33 @or_disjoint_33(i33 %a, i33 %b) {
  %r = or disjoint i33 %a, %b
  ret i33 %r
}
define i63 @or_disjoint_63(i63 %a, i63 %b) {
  %r = or disjoint i63 %a, %b
  ret i63 %r
}
define i64 @or_disjoint_64(i64 %a, i64 %b) {
  %r = or disjoint i64 %a, %b
  ret i64 %r
}
define i1 @eq_1(i1 %a, i1 %b) {
  %r = icmp eq i1 %a, %b
  ret i1 %r
}
define i1 @eq_5(i5 %a, i5 %b) {
  %r = icmp eq i5 %a, %b
  ret i1 %r
}
define i1 @eq_8(i8 %a, i8 %b) {
  %r = icmp eq i8 %a, %b
  ret i1 %r
}
define i1 @eq_samesign_8(i8 %a, i8 %b) {
  %r = icmp samesign eq i8 %a, %b
  ret i1 %r
}
define i1 @eq_31(i31 %a, i31 %b) {
  %r = icmp eq i31 %a, %b
  ret i1 %r
}
define i1 @eq_32(i32 %a, i32 %b) {
  %r = icmp eq i32 %a, %b
  ret i1 %r
}
define i1 @eq_33(i33 %a, i33 %b) {
  %r = icmp eq i33 %a, %b
  ret i1 %r
}
define i1 @eq_63(i63 %a, i63 %b) {
  %r = icmp eq i63 %a, %b
  ret i1 %r
}
define i1 @eq_64(i64 %a, i64 %b) {
  %r = icmp eq i64 %a, %b
  ret i1 %r
}
define i1 @eq_samesign_64(i64 %a, i64 %b) {
  %r = icmp samesign eq i64 %a, %b
  ret i1 %r
}
define i1 @ne_1(i1 %a, i1 %b) {
  %r = icmp ne i1 %a, %b
  ret i1 %r
}
define i1 @ne_5(i5 %a, i5 %b) {
  %r = icmp ne i5 %a, %b
  ret i1 %r
}
define i1 @ne_8(i8 %a, i8 %b) {
  %r = icmp ne i8 %a, %b
  ret i1 %r
}
define i1 @ne_samesign_8(i8 %a, i8 %b) {
  %r = icmp samesign ne i8 %a, %b
  ret i1 %r
}
define i1 @ne_31(i31 %a, i31 %b) {
  %r = icmp ne i31 %a, %b
  ret i1 %r
}
define i1 @ne_32(i32 %a, i32 %b) {
  %r = icmp ne i32 %a, %b
  ret i1 %r
}
define i1 @ne_33(i33 %a, i33 %b) {
  %r = icmp ne i33 %a, %b
  ret i1 %r
}
define i1 @ne_63(i63 %a, i63 %b) {
  %r = icmp ne i63 %a, %b
  ret i1 %r
}
define i1 @ne_64(i64 %a, i64 %b) {
  %r = icmp ne i64 %a, %b
  ret i1 %r
}
define i1 @ne_samesign_64(i64 %a, i64 %b) {
  %r = icmp samesign ne i64 %a, %b
  ret i1 %r
}
define i1 @ugt_1(i1 %a, i1 %b) {
  %r = icmp ugt i1 %a, %b
  ret i1 %r
}
define i1 @ugt_5(i5 %a, i5 %b) {
  %r = icmp ugt i5 %a, %b
  ret i1 %r
}
define i1 @ugt_8(i8 %a, i8 %b) {
  %r = icmp ugt i8 %a, %b
  ret i1 %r
}
define i1 @ugt_samesign_8(i8 %a, i8 %b) {
  %r = icmp samesign ugt i8 %a, %b
  ret i1 %r
}
define i1 @ugt_31(i31 %a, i31 %b) {
  %r = icmp ugt i31 %a, %b
  ret i1 %r
}
define i1 @ugt_32(i32 %a, i32 %b) {
  %r = icmp ugt i32 %a, %b
  ret i1 %r
}
define i1 @ugt_33(i33 %a, i33 %b) {
  %r = icmp ugt i33 %a, %b
  ret i1 %r
}
define i1 @ugt_63(i63 %a, i63 %b) {
  %r = icmp ugt i63 %a, %b
  ret i1 %r
}
define i1 @ugt_64(i64 %a, i64 %b) {
  %r = icmp ugt i64 %a, %b
  ret i1 %r
}
define i1 @ugt_samesign_64(i64 %a, i64 %b) {
  %r = icmp samesign ugt i64 %a, %b
  ret i1 %r
}
define i1 @uge_1(i1 %a, i1 %b) {
  %r = icmp uge i1 %a, %b
  ret i1 %r
}
define i1 @uge_5(i5 %a, i5 %b) {
  %r = icmp uge i5 %a, %b
  ret i1 %r
}
define i1 @uge_8(i8 %a, i8 %b) {
  %r = icmp uge i8 %a, %b
  ret i1 %r
}
define i1 @uge_samesign_8(i8 %a, i8 %b) {
  %r = icmp samesign uge i8 %a, %b
  ret i1 %r
}
define i1 @uge_31(i31 %a, i31 %b) {
  %r = icmp uge i31 %a, %b
  ret i1 %r
}
define i1 @uge_32(i32 %a, i32 %b) {
  %r = icmp uge i32 %a, %b
  ret i1 %r
}
define i1 @uge_33(i33 %a, i33 %b) {
  %r = icmp uge i33 %a, %b
  ret i1 %r
}
define i1 @uge_63(i63 %a, i63 %b) {
  %r = icmp uge i63 %a, %b
  ret i1 %r
}
define i1 @uge_64(i64 %a, i64 %b) {
  %r = icmp uge i64 %a, %b
  ret i1 %r
}
define i1 @uge_samesign_64(i64 %a, i64 %b) {
  %r = icmp samesign uge i64 %a, %b
  ret i1 %r
}
define i1 @ult_1(i1 %a, i1 %b) {
  %r = icmp ult i1 %a, %b
  ret i1 %r
}
define i1 @ult_5(i5 %a, i5 %b) {
  %r = icmp ult i5 %a, %b
  ret i1 %r
}
define i1 @ult_8(i8 %a, i8 %b) {
  %r = icmp ult i8 %a, %b
  ret i1 %r
}
define i1 @ult_samesign_8(i8 %a, i8 %b) {
  %r = icmp samesign ult i8 %a, %b
  ret i1 %r
}
define i1 @ult_31(i31 %a, i31 %b) {
  %r = icmp ult i31 %a, %b
  ret i1 %r
}
define i1 @ult_32(i32 %a, i32 %b) {
  %r = icmp ult i32 %a, %b
  ret i1 %r
}
define i1 @ult_33(i33 %a, i33 %b) {
  %r = icmp ult i33 %a, %b
  ret i1 %r
}
define i1 @ult_63(i63 %a, i63 %b) {
  %r = icmp ult i63 %a, %b
  ret i1 %r
}
define i1 @ult_64(i64 %a, i64 %b) {
  %r = icmp ult i64 %a, %b
  ret i1 %r
}
define i1 @ult_samesign_64(i64 %a, i64 %b) {
  %r = icmp samesign ult i64 %a, %b
  ret i1 %r
}
define i1 @ule_1(i1 %a, i1 %b) {
  %r = icmp ule i1 %a, %b
  ret i1 %r
}
define i1 @ule_5(i5 %a, i5 %b) {
  %r = icmp ule i5 %a, %b
  ret i1 %r
}
define i1 @ule_8(i8 %a, i8 %b) {
  %r = icmp ule i8 %a, %b
  ret i1 %r
}
define i1 @ule_samesign_8(i8 %a, i8 %b) {
  %r = icmp samesign ule i8 %a, %b
  ret i1 %r
}
define i1 @ule_31(i31 %a, i31 %b) {
  %r = icmp ule i31 %a, %b
  ret i1 %r
}
define i1 @ule_32(i32 %a, i32 %b) {
  %r = icmp ule i32 %a, %b
  ret i1 %r
}
define i1 @ule_33(i33 %a, i33 %b) {
  %r = icmp ule i33 %a, %b
  ret i1 %r
}
define i1 @ule_63(i63 %a, i63 %b) {
  %r = icmp ule i63 %a, %b
  ret i1 %r
}
define i1 @ule_64(i64 %a, i64 %b) {
  %r = icmp ule i64 %a, %b
  ret i1 %r
}
define i1 @ule_samesign_64(i64 %a, i64 %b) {
  %r = icmp samesign ule i64 %a, %b
  ret i1 %r
}
define i1 @sgt_1(i1 %a, i1 %b) {
  %r = icmp sgt i1 %a, %b
  ret i1 %r
}
define i1 @sgt_5(i5 %a, i5 %b) {
  %r = icmp sgt i5 %a, %b
  ret i1 %r
}
define i1 @sgt_8(i8 %a, i8 %b) {
  %r = icmp sgt i8 %a, %b
  ret i1 %r
}
define i1 @sgt_samesign_8(i8 %a, i8 %b) {
  %r = icmp samesign sgt i8 %a, %b
  ret i1 %r
}
define i1 @sgt_31(i31 %a, i31 %b) {
  %r = icmp sgt i31 %a, %b
  ret i1 %r
}
define i1 @sgt_32(i32 %a, i32 %b) {
  %r = icmp sgt i32 %a, %b
  ret i1 %r
}
define i1 @sgt_33(i33 %a, i33 %b) {
  %r = icmp sgt i33 %a, %b
  ret i1 %r
}
define i1 @sgt_63(i63 %a, i63 %b) {
  %r = icmp sgt i63 %a, %b
  ret i1 %r
}
define i1 @sgt_64(i64 %a, i64 %b) {
  %r = icmp sgt i64 %a, %b
  ret i1 %r
}
define i1 @sgt_samesign_64(i64 %a, i64 %b) {
  %r = icmp samesign sgt i64 %a, %b
  ret i1 %r
}
define i1 @sge_1(i1 %a, i1 %b) {
  %r = icmp sge i1 %a, %b
  ret i1 %r
}
define i1 @sge_5(i5 %a, i5 %b) {
  %r = icmp sge i5 %a, %b
  ret i1 %r
}
define i1 @sge_8(i8 %a, i8 %b) {
  %r = icmp sge i8 %a, %b
  ret i1 %r
}
define i1 @sge_samesign_8(i8 %a, i8 %b) {
  %r = icmp samesign sge i8 %a, %b
  ret i1 %r
}
define i1 @sge_31(i31 %a, i31 %b) {
  %r = icmp sge i31 %a, %b
  ret i1 %r
}
define i1 @sge_32(i32 %a, i32 %b) {
  %r = icmp sge i32 %a, %b
  ret i1 %r
}
define i1 @sge_33(i33 %a, i33 %b) {
  %r = icmp sge i33 %a, %b
  ret i1 %r
}
define i1 @sge_63(i63 %a, i63 %b) {
  %r = icmp sge i63 %a, %b
  ret i1 %r
}
define i1 @sge_64(i64 %a, i64 %b) {
  %r = icmp sge i64 %a, %b
  ret i1 %r
}
define i1 @sge_samesign_64(i64 %a, i64 %b) {
  %r = icmp samesign sge i64 %a, %b
  ret i1 %r
}
define i1 @slt_1(i1 %a, i1 %b) {
  %r = icmp slt i1 %a, %b
  ret i1 %r
}
define i1 @slt_5(i5 %a, i5 %b) {
  %r = icmp slt i5 %a, %b
  ret i1 %r
}
define i1 @slt_8(i8 %a, i8 %b) {
  %r = icmp slt i8 %a, %b
  ret i1 %r
}
define i1 @slt_samesign_8(i8 %a, i8 %b) {
  %r = icmp samesign slt i8 %a, %b
  ret i1 %r
}
define i1 @slt_31(i31 %a, i31 %b) {
  %r = icmp slt i31 %a, %b
  ret i1 %r
}
define i1 @slt_32(i32 %a, i32 %b) {
  %r = icmp slt i32 %a, %b
  ret i1 %r
}
define i1 @slt_33(i33 %a, i33 %b) {
  %r = icmp slt i33 %a, %b
  ret i1 %r
}
define i1 @slt_63(i63 %a, i63 %b) {
  %r = icmp slt i63 %a, %b
  ret i1 %r
}
define i1 @slt_64(i64 %a, i64 %b) {
  %r = icmp slt i64 %a, %b
  ret i1 %r
}
define i1 @slt_samesign_64(i64 %a, i64 %b) {
  %r = icmp samesign slt i64 %a, %b
  ret i1 %r
}
define i1 @sle_1(i1 %a, i1 %b) {
  %r = icmp sle i1 %a, %b
  ret i1 %r
}
define i1 @sle_5(i5 %a, i5 %b) {
  %r = icmp sle i5 %a, %b
  ret i1 %r
}
define i1 @sle_8(i8 %a, i8 %b) {
  %r = icmp sle i8 %a, %b
  ret i1 %r
}
define i1 @sle_samesign_8(i8 %a, i8 %b) {
  %r = icmp samesign sle i8 %a, %b
  ret i1 %r
}
define i1 @sle_31(i31 %a, i31 %b) {
  %r = icmp sle i31 %a, %b
  ret i1 %r
}
define i1 @sle_32(i32 %a, i32 %b) {
  %r = icmp sle i32 %a, %b
  ret i1 %r
}
define i1 @sle_33(i33 %a, i33 %b) {
  %r = icmp sle i33 %a, %b
  ret i1 %r
}
define i1 @sle_63(i63 %a, i63 %b) {
  %r = icmp sle i63 %a, %b
  ret i1 %r
}
define i1 @sle_64(i64 %a, i64 %b) {
  %r = icmp sle i64 %a, %b
  ret i1 %r
}
define i1 @sle_samesign_64(i64 %a, i64 %b) {
  %r = icmp samesign sle i64 %a, %b
  ret i1 %r
}
define i1 @trunc_5_1(i5 %a) {
  %r = trunc i5 %a to i1
  ret i1 %r
}
define i5 @zext_1_5(i1 %a) {
  %r = zext i1 %a to i5
  ret i5 %r
}
define i5 @zext_nneg_1_5(i1 %a) {
  %r = zext nneg i1 %a to i5
  ret i5 %r
}
define i5 @sext_1_5(i1 %a) {
  %r = sext i1 %a to i5
  ret i5 %r
}
define i1 @trunc_8_1(i8 %a) {
  %r = trunc i8 %a to i1
  ret i1 %r
}
define i8 @zext_1_8(i1 %a) {
  %r = zext i1 %a to i8
  ret i8 %r
}
define i8 @zext_nneg_1_8(i1 %a) {
  %r = zext nneg i1 %a to i8
  ret i8 %r
}
define i8 @sext_1_8(i1 %a) {
  %r = sext i1 %a to i8
  ret i8 %r
}
define i1 @trunc_31_1(i31 %a) {
  %r = trunc i31 %a to i1
  ret i1 %r
}
define i31 @zext_1_31(i1 %a) {
  %r = zext i1 %a to i31
  ret i31 %r
}
define i31 @zext_nneg_1_31(i1 %a) {
  %r = zext nneg i1 %a to i31
  ret i31 %r
}
define i31 @sext_1_31(i1 %a) {
  %r = sext i1 %a to i31
  ret i31 %r
}
define i1 @trunc_32_1(i32 %a) {
  %r = trunc i32 %a to i1
  ret i1 %r
}
define i32 @zext_1_32(i1 %a) {
  %r = zext i1 %a to i32
  ret i32 %r
}
define i32 @zext_nneg_1_32(i1 %a) {
  %r = zext nneg i1 %a to i32
  ret i32 %r
}
define i32 @sext_1_32(i1 %a) {
  %r = sext i1 %a to i32
  ret i32 %r
}
define i1 @trunc_33_1(i33 %a) {
  %r = trunc i33 %a to i1
  ret i1 %r
}
define i33 @zext_1_33(i1 %a) {
  %r = zext i1 %a to i33
  ret i33 %r
}
define i33 @zext_nneg_1_33(i1 %a) {
  %r = zext nneg i1 %a to i33
  ret i33 %r
}
define i33 @sext_1_33(i1 %a) {
  %r = sext i1 %a to i33
  ret i33 %r
}
define i1 @trunc_63_1(i63 %a) {
  %r = trunc i63 %a to i1
  ret i1 %r
}
define i63 @zext_1_63(i1 %a) {
  %r = zext i1 %a to i63
  ret i63 %r
}
define i63 @zext_nneg_1_63(i1 %a) {
  %r = zext nneg i1 %a to i63
  ret i63 %r
}
define i63 @sext_1_63(i1 %a) {
  %r = sext i1 %a to i63
  ret i63 %r
}
define i1 @trunc_64_1(i64 %a) {
  %r = trunc i64 %a to i1
  ret i1 %r
}
define i64 @zext_1_64(i1 %a) {
  %r = zext i1 %a to i64
  ret i64 %r
}
define i64 @zext_nneg_1_64(i1 %a) {
  %r = zext nneg i1 %a to i64
  ret i64 %r
}
define i64 @sext_1_64(i1 %a) {
  %r = sext i1 %a to i64
  ret i64 %r
}
define i5 @trunc_8_5(i8 %a) {
  %r = trunc i8 %a to i5
  ret i5 %r
}
define i8 @zext_5_8(i5 %a) {
  %r = zext i5 %a to i8
  ret i8 %r
}
define i8 @zext_nneg_5_8(i5 %a) {
  %r = zext nneg i5 %a to i8
  ret i8 %r
}
define i8 @sext_5_8(i5 %a) {
  %r = sext i5 %a to i8
  ret i8 %r
}
define i5 @trunc_31_5(i31 %a) {
  %r = trunc i31 %a to i5
  ret i5 %r
}
define i31 @zext_5_31(i5 %a) {
  %r = zext i5 %a to i31
  ret i31 %r
}
define i31 @zext_nneg_5_31(i5 %a) {
  %r = zext nneg i5 %a to i31
  ret i31 %r
}
define i31 @sext_5_31(i5 %a) {
  %r = sext i5 %a to i31
  ret i31 %r
}
define i5 @trunc_32_5(i32 %a) {
  %r = trunc i32 %a to i5
  ret i5 %r
}
define i32 @zext_5_32(i5 %a) {
  %r = zext i5 %a to i32
  ret i32 %r
}
define i32 @zext_nneg_5_32(i5 %a) {
  %r = zext nneg i5 %a to i32
  ret i32 %r
}
define i32 @sext_5_32(i5 %a) {
  %r = sext i5 %a to i32
  ret i32 %r
}
define i5 @trunc_33_5(i33 %a) {
  %r = trunc i33 %a to i5
  ret i5 %r
}
define i33 @zext_5_33(i5 %a) {
  %r = zext i5 %a to i33
  ret i33 %r
}
define i33 @zext_nneg_5_33(i5 %a) {
  %r = zext nneg i5 %a to i33
  ret i33 %r
}
define i33 @sext_5_33(i5 %a) {
  %r = sext i5 %a to i33
  ret i33 %r
}
define i5 @trunc_63_5(i63 %a) {
  %r = trunc i63 %a to i5
  ret i5 %r
}
define i63 @zext_5_63(i5 %a) {
  %r = zext i5 %a to i63
  ret i63 %r
}
define i63 @zext_nneg_5_63(i5 %a) {
  %r = zext nneg i5 %a to i63
  ret i63 %r
}
define i63 @sext_5_63(i5 %a) {
  %r = sext i5 %a to i63
  ret i63 %r
}
define i5 @trunc_64_5(i64 %a) {
  %r = trunc i64 %a to i5
  ret i5 %r
}
define i64 @zext_5_64(i5 %a) {
  %r = zext i5 %a to i64
  ret i64 %r
}
define i64 @zext_nneg_5_64(i5 %a) {
  %r = zext nneg i5 %a to i64
  ret i64 %r
}
define i64 @sext_5_64(i5 %a) {
  %r = sext i5 %a to i64
  ret i64 %r
}
define i8 @trunc_31_8(i31 %a) {
  %r = trunc i31 %a to i8
  ret i8 %r
}
define i8 @trunc_nuw_31_8(i31 %a) {
  %r = trunc nuw i31 %a to i8
  ret i8 %r
}
define i8 @trunc_nsw_31_8(i31 %a) {
  %r = trunc nsw i31 %a to i8
  ret i8 %r
}
define i8 @trunc_nuw_nsw_31_8(i31 %a) {
  %r = trunc nuw nsw i31 %a to i8
  ret i8 %r
}
define i31 @zext_8_31(i8 %a) {
  %r = zext i8 %a to i31
  ret i31 %r
}
define i31 @zext_nneg_8_31(i8 %a) {
  %r = zext nneg i8 %a to i31
  ret i31 %r
}
define i31 @sext_8_31(i8 %a) {
  %r = sext i8 %a to i31
  ret i31 %r
}
define i8 @trunc_32_8(i32 %a) {
  %r = trunc i32 %a to i8
  ret i8 %r
}
define i8 @trunc_nuw_32_8(i32 %a) {
  %r = trunc nuw i32 %a to i8
  ret i8 %r
}
define i8 @trunc_nsw_32_8(i32 %a) {
  %r = trunc nsw i32 %a to i8
  ret i8 %r
}
define i8 @trunc_nuw_nsw_32_8(i32 %a) {
  %r = trunc nuw nsw i32 %a to i8
  ret i8 %r
}
define i32 @zext_8_32(i8 %a) {
  %r = zext i8 %a to i32
  ret i32 %r
}
define i32 @zext_nneg_8_32(i8 %a) {
  %r = zext nneg i8 %a to i32
  ret i32 %r
}
define i32 @sext_8_32(i8 %a) {
  %r = sext i8 %a to i32
  ret i32 %r
}
define i8 @trunc_33_8(i33 %a) {
  %r = trunc i33 %a to i8
  ret i8 %r
}
define i8 @trunc_nuw_33_8(i33 %a) {
  %r = trunc nuw i33 %a to i8
  ret i8 %r
}
define i8 @trunc_nsw_33_8(i33 %a) {
  %r = trunc nsw i33 %a to i8
  ret i8 %r
}
define i8 @trunc_nuw_nsw_33_8(i33 %a) {
  %r = trunc nuw nsw i33 %a to i8
  ret i8 %r
}
define i33 @zext_8_33(i8 %a) {
  %r = zext i8 %a to i33
  ret i33 %r
}
define i33 @zext_nneg_8_33(i8 %a) {
  %r = zext nneg i8 %a to i33
  ret i33 %r
}
define i33 @sext_8_33(i8 %a) {
  %r = sext i8 %a to i33
  ret i33 %r
}
define i8 @trunc_63_8(i63 %a) {
  %r = trunc i63 %a to i8
  ret i8 %r
}
define i8 @trunc_nuw_63_8(i63 %a) {
  %r = trunc nuw i63 %a to i8
  ret i8 %r
}
define i8 @trunc_nsw_63_8(i63 %a) {
  %r = trunc nsw i63 %a to i8
  ret i8 %r
}
define i8 @trunc_nuw_nsw_63_8(i63 %a) {
  %r = trunc nuw nsw i63 %a to i8
  ret i8 %r
}
define i63 @zext_8_63(i8 %a) {
  %r = zext i8 %a to i63
  ret i63 %r
}
define i63 @zext_nneg_8_63(i8 %a) {
  %r = zext nneg i8 %a to i63
  ret i63 %r
}
define i63 @sext_8_63(i8 %a) {
  %r = sext i8 %a to i63
  ret i63 %r
}
define i8 @trunc_64_8(i64 %a) {
  %r = trunc i64 %a to i8
  ret i8 %r
}
define i8 @trunc_nuw_64_8(i64 %a) {
  %r = trunc nuw i64 %a to i8
  ret i8 %r
}
define i8 @trunc_nsw_64_8(i64 %a) {
  %r = trunc nsw i64 %a to i8
  ret i8 %r
}
define i8 @trunc_nuw_nsw_64_8(i64 %a) {
  %r = trunc nuw nsw i64 %a to i8
  ret i8 %r
}
define i64 @zext_8_64(i8 %a) {
  %r = zext i8 %a to i64
  ret i64 %r
}
define i64 @zext_nneg_8_64(i8 %a) {
  %r = zext nneg i8 %a to i64
  ret i64 %r
}
define i64 @sext_8_64(i8 %a) {
  %r = sext i8 %a to i64
  ret i64 %r
}
define i31 @trunc_32_31(i32 %a) {
  %r = trunc i32 %a to i31
  ret i31 %r
}
define i32 @zext_31_32(i31 %a) {
  %r = zext i31 %a to i32
  ret i32 %r
}
define i32 @zext_nneg_31_32(i31 %a) {
  %r = zext nneg i31 %a to i32
  ret i32 %r
}
define i32 @sext_31_32(i31 %a) {
  %r = sext i31 %a to i32
  ret i32 %r
}
define i31 @trunc_33_31(i33 %a) {
  %r = trunc i33 %a to i31
  ret i31 %r
}
define i33 @zext_31_33(i31 %a) {
  %r = zext i31 %a to i33
  ret i33 %r
}
define i33 @zext_nneg_31_33(i31 %a) {
  %r = zext nneg i31 %a to i33
  ret i33 %r
}
define i33 @sext_31_33(i31 %a) {
  %r = sext i31 %a to i33
  ret i33 %r
}
define i31 @trunc_63_31(i63 %a) {
  %r = trunc i63 %a to i31
  ret i31 %r
}
define i63 @zext_31_63(i31 %a) {
  %r = zext i31 %a to i63
  ret i63 %r
}
define i63 @zext_nneg_31_63(i31 %a) {
  %r = zext nneg i31 %a to i63
  ret i63 %r
}
define i63 @sext_31_63(i31 %a) {
  %r = sext i31 %a to i63
  ret i63 %r
}
define i31 @trunc_64_31(i64 %a) {
  %r = trunc i64 %a to i31
  ret i31 %r
}
define i64 @zext_31_64(i31 %a) {
  %r = zext i31 %a to i64
  ret i64 %r
}
define i64 @zext_nneg_31_64(i31 %a) {
  %r = zext nneg i31 %a to i64
  ret i64 %r
}
define i64 @sext_31_64(i31 %a) {
  %r = sext i31 %a to i64
  ret i64 %r
}
define i32 @trunc_33_32(i33 %a) {
  %r = trunc i33 %a to i32
  ret i32 %r
}
define i32 @trunc_nuw_33_32(i33 %a) {
  %r = trunc nuw i33 %a to i32
  ret i32 %r
}
define i32 @trunc_nsw_33_32(i33 %a) {
  %r = trunc nsw i33 %a to i32
  ret i32 %r
}
define i32 @trunc_nuw_nsw_33_32(i33 %a) {
  %r = trunc nuw nsw i33 %a to i32
  ret i32 %r
}
define i33 @zext_32_33(i32 %a) {
  %r = zext i32 %a to i33
  ret i33 %r
}
define i33 @zext_nneg_32_33(i32 %a) {
  %r = zext nneg i32 %a to i33
  ret i33 %r
}
define i33 @sext_32_33(i32 %a) {
  %r = sext i32 %a to i33
  ret i33 %r
}
define i32 @trunc_63_32(i63 %a) {
  %r = trunc i63 %a to i32
  ret i32 %r
}
define i32 @trunc_nuw_63_32(i63 %a) {
  %r = trunc nuw i63 %a to i32
  ret i32 %r
}
define i32 @trunc_nsw_63_32(i63 %a) {
  %r = trunc nsw i63 %a to i32
  ret i32 %r
}
define i32 @trunc_nuw_nsw_63_32(i63 %a) {
  %r = trunc nuw nsw i63 %a to i32
  ret i32 %r
}
define i63 @zext_32_63(i32 %a) {
  %r = zext i32 %a to i63
  ret i63 %r
}
define i63 @zext_nneg_32_63(i32 %a) {
  %r = zext nneg i32 %a to i63
  ret i63 %r
}
define i63 @sext_32_63(i32 %a) {
  %r = sext i32 %a to i63
  ret i63 %r
}
define i32 @trunc_64_32(i64 %a) {
  %r = trunc i64 %a to i32
  ret i32 %r
}
define i32 @trunc_nuw_64_32(i64 %a) {
  %r = trunc nuw i64 %a to i32
  ret i32 %r
}
define i32 @trunc_nsw_64_32(i64 %a) {
  %r = trunc nsw i64 %a to i32
  ret i32 %r
}
define i32 @trunc_nuw_nsw_64_32(i64 %a) {
  %r = trunc nuw nsw i64 %a to i32
  ret i32 %r
}
define i64 @zext_32_64(i32 %a) {
  %r = zext i32 %a to i64
  ret i64 %r
}
define i64 @zext_nneg_32_64(i32 %a) {
  %r = zext nneg i32 %a to i64
  ret i64 %r
}
define i64 @sext_32_64(i32 %a) {
  %r = sext i32 %a to i64
  ret i64 %r
}
define i33 @trunc_63_33(i63 %a) {
  %r = trunc i63 %a to i33
  ret i33 %r
}
define i63 @zext_33_63(i33 %a) {
  %r = zext i33 %a to i63
  ret i63 %r
}
define i63 @zext_nneg_33_63(i33 %a) {
  %r = zext nneg i33 %a to i63
  ret i63 %r
}
define i63 @sext_33_63(i33 %a) {
  %r = sext i33 %a to i63
  ret i63 %r
}
define i33 @trunc_64_33(i64 %a) {
  %r = trunc i64 %a to i33
  ret i33 %r
}
define i64 @zext_33_64(i33 %a) {
  %r = zext i33 %a to i64
  ret i64 %r
}
define i64 @zext_nneg_33_64(i33 %a) {
  %r = zext nneg i33 %a to i64
  ret i64 %r
}
define i64 @sext_33_64(i33 %a) {
  %r = sext i33 %a to i64
  ret i64 %r
}
define i63 @trunc_64_63(i64 %a) {
  %r = trunc i64 %a to i63
  ret i63 %r
}
define i64 @zext_63_64(i63 %a) {
  %r = zext i63 %a to i64
  ret i64 %r
}
define i64 @zext_nneg_63_64(i63 %a) {
  %r = zext nneg i63 %a to i64
  ret i64 %r
}
define i64 @sext_63_64(i63 %a) {
  %r = sext i63 %a to i64
  ret i64 %r
}
define i1 @select_1(i1 %a, i1 %b, i1 %c) {
  %r = select i1 %a, i1 %b, i1 %c
  ret i1 %r
}
define i1 @freeze_1(i1 %a) {
  %r = freeze i1 %a
  ret i1 %r
}
define i5 @select_5(i1 %a, i5 %b, i5 %c) {
  %r = select i1 %a, i5 %b, i5 %c
  ret i5 %r
}
define i5 @freeze_5(i5 %a) {
  %r = freeze i5 %a
  ret i5 %r
}
define i8 @select_8(i1 %a, i8 %b, i8 %c) {
  %r = select i1 %a, i8 %b, i8 %c
  ret i8 %r
}
define i8 @freeze_8(i8 %a) {
  %r = freeze i8 %a
  ret i8 %r
}
define i31 @select_31(i1 %a, i31 %b, i31 %c) {
  %r = select i1 %a, i31 %b, i31 %c
  ret i31 %r
}
define i31 @freeze_31(i31 %a) {
  %r = freeze i31 %a
  ret i31 %r
}
define i32 @select_32(i1 %a, i32 %b, i32 %c) {
  %r = select i1 %a, i32 %b, i32 %c
  ret i32 %r
}
define i32 @freeze_32(i32 %a) {
  %r = freeze i32 %a
  ret i32 %r
}
define i33 @select_33(i1 %a, i33 %b, i33 %c) {
  %r = select i1 %a, i33 %b, i33 %c
  ret i33 %r
}
define i33 @freeze_33(i33 %a) {
  %r = freeze i33 %a
  ret i33 %r
}
define i63 @select_63(i1 %a, i63 %b, i63 %c) {
  %r = select i1 %a, i63 %b, i63 %c
  ret i63 %r
}
define i63 @freeze_63(i63 %a) {
  %r = freeze i63 %a
  ret i63 %r
}
define i64 @select_64(i1 %a, i64 %b, i64 %c) {
  %r = select i1 %a, i64 %b, i64 %c
  ret i64 %r
}
define i64 @freeze_64(i64 %a) {
  %r = freeze i64 %a
  ret i64 %r
}
define i8 @select_spares_poison(i8 %a) {
  %r = select i1 true, i8 %a, i8 poison
  ret i8 %r
}
define i1 @smax_1(i1 %a, i1 %b) {
  %r = call i1 @llvm.smax.i1(i1 %a, i1 %b)
  ret i1 %r
}
define i1 @smin_1(i1 %a, i1 %b) {
  %r = call i1 @llvm.smin.i1(i1 %a, i1 %b)
  ret i1 %r
}
define i1 @umax_1(i1 %a, i1 %b) {
  %r = call i1 @llvm.umax.i1(i1 %a, i1 %b)
  ret i1 %r
}
define i1 @umin_1(i1 %a, i1 %b) {
  %r = call i1 @llvm.umin.i1(i1 %a, i1 %b)
  ret i1 %r
}
define i1 @abs_true_1(i1 %a) {
  %r = call i1 @llvm.abs.i1(i1 %a, i1 true)
  ret i1 %r
}
define i1 @abs_false_1(i1 %a) {
  %r = call i1 @llvm.abs.i1(i1 %a, i1 false)
  ret i1 %r
}
define i5 @smax_5(i5 %a, i5 %b) {
  %r = call i5 @llvm.smax.i5(i5 %a, i5 %b)
  ret i5 %r
}
define i5 @smin_5(i5 %a, i5 %b) {
  %r = call i5 @llvm.smin.i5(i5 %a, i5 %b)
  ret i5 %r
}
define i5 @umax_5(i5 %a, i5 %b) {
  %r = call i5 @llvm.umax.i5(i5 %a, i5 %b)
  ret i5 %r
}
define i5 @umin_5(i5 %a, i5 %b) {
  %r = call i5 @llvm.umin.i5(i5 %a, i5 %b)
  ret i5 %r
}
define i5 @abs_true_5(i5 %a) {
  %r = call i5 @llvm.abs.i5(i5 %a, i1 true)
  ret i5 %r
}
define i5 @abs_false_5(i5 %a) {
  %r = call i5 @llvm.abs.i5(i5 %a, i1 false)
  ret i5 %r
}
define i8 @smax_8(i8 %a, i8 %b) {
  %r = call i8 @llvm.smax.i8(i8 %a, i8 %b)
  ret i8 %r
}
define i8 @smin_8(i8 %a, i8 %b) {
  %r = call i8 @llvm.smin.i8(i8 %a, i8 %b)
  ret i8 %r
}
define i8 @umax_8(i8 %a, i8 %b) {
  %r = call i8 @llvm.umax.i8(i8 %a, i8 %b)
  ret i8 %r
}
define i8 @umin_8(i8 %a, i8 %b) {
  %r = call i8 @llvm.umin.i8(i8 %a, i8 %b)
  ret i8 %r
}
define i8 @abs_true_8(i8 %a) {
  %r = call i8 @llvm.abs.i8(i8 %a, i1 true)
  ret i8 %r
}
define i8 @abs_false_8(i8 %a) {
  %r = call i8 @llvm.abs.i8(i8 %a, i1 false)
  ret i8 %r
}
define i31 @smax_31(i31 %a, i31 %b) {
  %r = call i31 @llvm.smax.i31(i31 %a, i31 %b)
  ret i31 %r
}
define i31 @smin_31(i31 %a, i31 %b) {
  %r = call i31 @llvm.smin.i31(i31 %a, i31 %b)
  ret i31 %r
}
define i31 @umax_31(i31 %a, i31 %b) {
  %r = call i31 @llvm.umax.i31(i31 %a, i31 %b)
  ret i31 %r
}
define i31 @umin_31(i31 %a, i31 %b) {
  %r = call i31 @llvm.umin.i31(i31 %a, i31 %b)
  ret i31 %r
}
define i31 @abs_true_31(i31 %a) {
  %r = call i31 @llvm.abs.i31(i31 %a, i1 true)
  ret i31 %r
}
define i31 @abs_false_31(i31 %a) {
  %r = call i31 @llvm.abs.i31(i31 %a, i1 false)
  ret i31 %r
}
define i32 @smax_32(i32 %a, i32 %b) {
  %r = call i32 @llvm.smax.i32(i32 %a, i32 %b)
  ret i32 %r
}
define i32 @smin_32(i32 %a, i32 %b) {
  %r = call i32 @llvm.smin.i32(i32 %a, i32 %b)
  ret i32 %r
}
define i32 @umax_32(i32 %a, i32 %b) {
  %r = call i32 @llvm.umax.i32(i32 %a, i32 %b)
  ret i32 %r
}
define i32 @umin_32(i32 %a, i32 %b) {
  %r = call i32 @llvm.umin.i32(i32 %a, i32 %b)
  ret i32 %r
}
define i32 @abs_true_32(i32 %a) {
  %r = call i32 @llvm.abs.i32(i32 %a, i1 true)
  ret i32 %r
}
define i32 @abs_false_32(i32 %a) {
  %r = call i32 @llvm.abs.i32(i32 %a, i1 false)
  ret i32 %r
}
define i33 @smax_33(i33 %a, i33 %b) {
  %r = call i33 @llvm.smax.i33(i33 %a, i33 %b)
  ret i33 %r
}
define i33 @smin_33(i33 %a, i33 %b) {
  %r = call i33 @llvm.smin.i33(i33 %a, i33 %b)
  ret i33 %r
}
define i33 @umax_33(i33 %a, i33 %b) {
  %r = call i33 @llvm.umax.i33(i33 %a, i33 %b)
  ret i33 %r
}
define i33 @umin_33(i33 %a, i33 %b) {
  %r = call i33 @llvm.umin.i33(i33 %a, i33 %b)
  ret i33 %r
}
define i33 @abs_true_33(i33 %a) {
  %r = call i33 @llvm.abs.i33(i33 %a, i1 true)
  ret i33 %r
}
define i33 @abs_false_33(i33 %a) {
  %r = call i33 @llvm.abs.i33(i33 %a, i1 false)
  ret i33 %r
}
define i63 @smax_63(i63 %a, i63 %b) {
  %r = call i63 @llvm.smax.i63(i63 %a, i63 %b)
  ret i63 %r
}
define i63 @smin_63(i63 %a, i63 %b) {
  %r = call i63 @llvm.smin.i63(i63 %a, i63 %b)
  ret i63 %r
}
define i63 @umax_63(i63 %a, i63 %b) {
  %r = call i63 @llvm.umax.i63(i63 %a, i63 %b)
  ret i63 %r
}
define i63 @umin_63(i63 %a, i63 %b) {
  %r = call i63 @llvm.umin.i63(i63 %a, i63 %b)
  ret i63 %r
}
define i63 @abs_true_63(i63 %a) {
  %r = call i63 @llvm.abs.i63(i63 %a, i1 true)
  ret i63 %r
}
define i63 @abs_false_63(i63 %a) {
  %r = call i63 @llvm.abs.i63(i63 %a, i1 false)
  ret i63 %r
}
define i64 @smax_64(i64 %a, i64 %b) {
  %r = call i64 @llvm.smax.i64(i64 %a, i64 %b)
  ret i64 %r
}
define i64 @smin_64(i64 %a, i64 %b) {
  %r = call i64 @llvm.smin.i64(i64 %a, i64 %b)
  ret i64 %r
}
define i64 @umax_64(i64 %a, i64 %b) {
  %r = call i64 @llvm.umax.i64(i64 %a, i64 %b)
  ret i64 %r
}
define i64 @umin_64(i64 %a, i64 %b) {
  %r = call i64 @llvm.umin.i64(i64 %a, i64 %b)
  ret i64 %r
}
define i64 @abs_true_64(i64 %a) {
  %r = call i64 @llvm.abs.i64(i64 %a, i1 true)
  ret i64 %r
}
define i64 @abs_false_64(i64 %a) {
  %r = call i64 @llvm.abs.i64(i64 %a, i1 false)
  ret i64 %r
}
define i8 @store_load_8(i8 %a) {
  %p = alloca i8
  store i8 %a, ptr %p
  %r = load i8, ptr %p
  ret i8 %r
}
define i8 @edge_of_memory_8(i64 %a) {
  %p = alloca [16 x i8]
  %q = getelementptr i8, ptr %p, i64 %a
  store i8 0, ptr %q
  %r = load i8, ptr %q
  ret i8 %r
}
define i16 @store_load_16(i16 %a) {
  %p = alloca i16
  store i16 %a, ptr %p
  %r = load i16, ptr %p
  ret i16 %r
}
define i16 @edge_of_memory_16(i64 %a) {
  %p = alloca [16 x i8]
  %q = getelementptr i8, ptr %p, i64 %a
  store i16 0, ptr %q
  %r = load i16, ptr %q
  ret i16 %r
}
define i32 @store_load_32(i32 %a) {
  %p = alloca i32
  store i32 %a, ptr %p
  %r = load i32, ptr %p
  ret i32 %r
}
define i32 @edge_of_memory_32(i64 %a) {
  %p = alloca [16 x i8]
  %q = getelementptr i8, ptr %p, i64 %a
  store i32 0, ptr %q
  %r = load i32, ptr %q
  ret i32 %r
}
define i64 @store_load_64(i64 %a) {
  %p = alloca i64
  store i64 %a, ptr %p
  %r = load i64, ptr %p
  ret i64 %r
}
define i64 @edge_of_memory_64(i64 %a) {
  %p = alloca [16 x i8]
  %q = getelementptr i8, ptr %p, i64 %a
  store i64 0, ptr %q
  %r = load i64, ptr %q
  ret i64 %r
}
define i8 @bytes_of_a_number(i32 %a, i64 %b) {
  %p = alloca i32
  store i32 %a, ptr %p
  %q = getelementptr i8, ptr %p, i64 %b
  %r = load i8, ptr %q
  ret i8 %r
}
define i64 @place_of_alloca() {
  %p = alloca i8
  %r = ptrtoint ptr %p to i64
  ret i64 %r
}
define i64 @place_of_the_next() {
  %o = alloca [17 x i8]
  %p = alloca i8
  %r = ptrtoint ptr %p to i64
  ret i64 %r
}
define i64 @place_behind_a_call(i64 %a) {
  %o = call i64 @place_of_alloca()
  %p = alloca i8
  %r = ptrtoint ptr %p to i64
  ret i64 %r
}
define i64 @pointer_of_8(i8 %a) {
  %p = inttoptr i8 %a to ptr
  %r = ptrtoint ptr %p to i64
  ret i64 %r
}
define i8 @number_of_pointer_8(i64 %a) {
  %p = inttoptr i64 %a to ptr
  %r = ptrtoint ptr %p to i8
  ret i8 %r
}
define i8 @bitcast_8(i8 %a) {
  %r = bitcast i8 %a to i8
  ret i8 %r
}
define i64 @index_of_8(i8 %a) {
  %q = getelementptr i32, ptr null, i8 %a
  %r = ptrtoint ptr %q to i64
  ret i64 %r
}
define i64 @pointer_of_32(i32 %a) {
  %p = inttoptr i32 %a to ptr
  %r = ptrtoint ptr %p to i64
  ret i64 %r
}
define i32 @number_of_pointer_32(i64 %a) {
  %p = inttoptr i64 %a to ptr
  %r = ptrtoint ptr %p to i32
  ret i32 %r
}
define i32 @bitcast_32(i32 %a) {
  %r = bitcast i32 %a to i32
  ret i32 %r
}
define i64 @index_of_32(i32 %a) {
  %q = getelementptr i32, ptr null, i32 %a
  %r = ptrtoint ptr %q to i64
  ret i64 %r
}
define i64 @pointer_of_33(i33 %a) {
  %p = inttoptr i33 %a to ptr
  %r = ptrtoint ptr %p to i64
  ret i64 %r
}
define i33 @number_of_pointer_33(i64 %a) {
  %p = inttoptr i64 %a to ptr
  %r = ptrtoint ptr %p to i33
  ret i33 %r
}
define i33 @bitcast_33(i33 %a) {
  %r = bitcast i33 %a to i33
  ret i33 %r
}
define i64 @index_of_33(i33 %a) {
  %q = getelementptr i32, ptr null, i33 %a
  %r = ptrtoint ptr %q to i64
  ret i64 %r
}
define i64 @pointer_of_64(i64 %a) {
  %p = inttoptr i64 %a to ptr
  %r = ptrtoint ptr %p to i64
  ret i64 %r
}
define i64 @number_of_pointer_64(i64 %a) {
  %p = inttoptr i64 %a to ptr
  %r = ptrtoint ptr %p to i64
  ret i64 %r
}
define i64 @bitcast_64(i64 %a) {
  %r = bitcast i64 %a to i64
  ret i64 %r
}
define i64 @index_of_64(i64 %a) {
  %q = getelementptr i32, ptr null, i64 %a
  %r = ptrtoint ptr %q to i64
  ret i64 %r
}
define i64 @field_and_element(i64 %a, i64 %b) {
  %q = getelementptr {i8, [3 x i64]}, ptr null, i64 %a, i32 1, i64 %b
  %r = ptrtoint ptr %q to i64
  ret i64 %r
}
define i32 @memmove_onto_itself(i32 %a, i64 %b) {
  %p = alloca [2 x i32]
  store i32 %a, ptr %p
  %q = getelementptr i8, ptr %p, i64 %b
  call void @llvm.memmove.p0.p0.i64(ptr %q, ptr %p, i64 4, i1 false)
  %r = load i32, ptr %p
  ret i32 %r
}
define i32 @memmove_apart(i32 %a, i64 %b) {
  %p = alloca [2 x i32]
  store i32 %a, ptr %p
  %q = getelementptr i8, ptr %p, i64 %b
  %s = getelementptr i32, ptr %p, i64 1
  call void @llvm.memmove.p0.p0.i64(ptr %s, ptr %p, i64 4, i1 false)
  %r = load i32, ptr %s
  ret i32 %r
}
define i64 @memmove_of_null(i64 %a) {
  call void @llvm.memmove.p0.p0.i64(ptr null, ptr null, i64 %a, i1 false)
  %r = add i64 %a, 1
  ret i64 %r
}
define i32 @memcpy_onto_itself(i32 %a, i64 %b) {
  %p = alloca [2 x i32]
  store i32 %a, ptr %p
  %q = getelementptr i8, ptr %p, i64 %b
  call void @llvm.memcpy.p0.p0.i64(ptr %q, ptr %p, i64 4, i1 false)
  %r = load i32, ptr %p
  ret i32 %r
}
define i32 @memcpy_apart(i32 %a, i64 %b) {
  %p = alloca [2 x i32]
  store i32 %a, ptr %p
  %q = getelementptr i8, ptr %p, i64 %b
  %s = getelementptr i32, ptr %p, i64 1
  call void @llvm.memcpy.p0.p0.i64(ptr %s, ptr %p, i64 4, i1 false)
  %r = load i32, ptr %s
  ret i32 %r
}
define i64 @memcpy_of_null(i64 %a) {
  call void @llvm.memcpy.p0.p0.i64(ptr null, ptr null, i64 %a, i1 false)
  %r = add i64 %a, 1
  ret i64 %r
}
define i32 @memset(i8 %a, i64 %b) {
  %p = alloca i32
  store i32 0, ptr %p
  call void @llvm.memset.p0.i64(ptr %p, i8 %a, i64 %b, i1 false)
  %r = load i32, ptr %p
  ret i32 %r
}
define i8 @switch_1(i1 %a) {
  switch i1 %a, label %other [ i1 false, label %none  i1 true, label %all ]
other:
  br label %out
none:
  br label %out
all:
  br label %out
out:
  %r = phi i8 [ 3, %other ], [ 1, %none ], [ 2, %all ]
  ret i8 %r
}
define i8 @switch_8(i8 %a) {
  switch i8 %a, label %other [ i8 0, label %none  i8 -1, label %all ]
other:
  br label %out
none:
  br label %out
all:
  br label %out
out:
  %r = phi i8 [ 3, %other ], [ 1, %none ], [ 2, %all ]
  ret i8 %r
}
define i8 @switch_33(i33 %a) {
  switch i33 %a, label %other [ i33 0, label %none  i33 -1, label %all ]
other:
  br label %out
none:
  br label %out
all:
  br label %out
out:
  %r = phi i8 [ 3, %other ], [ 1, %none ], [ 2, %all ]
  ret i8 %r
}
define i8 @switch_64(i64 %a) {
  switch i64 %a, label %other [ i64 0, label %none  i64 -1, label %all ]
other:
  br label %out
none:
  br label %out
all:
  br label %out
out:
  %r = phi i8 [ 3, %other ], [ 1, %none ], [ 2, %all ]
  ret i8 %r
}
define i8 @branch(i1 %a) {
  br i1 %a, label %x, label %y
x:
  br label %out
y:
  br label %out
out:
  %r = phi i8 [ 1, %x ], [ 2, %y ]
  ret i8 %r
}
define i8 @unreachable_is_reached(i1 %a) {
  br i1 %a, label %x, label %out
x:
  unreachable
out:
  %r = add i8 1, 2
  ret i8 %r
}
define i8 @poison_unused(i8 %a) {
  %x = call i8 @poison_unused_by(i8 poison)
  %r = add i8 %x, %a
  ret i8 %r
}
define i8 @poison_unused_by(i8 %a) {
  %x = add i8 %a, 1
  %r = add i8 0, 1
  ret i8 %r
}
define i8 @phis_at_once(i8 %a) {
  br label %loop
loop:
  %x = phi i8 [ 1, %0 ], [ %y, %loop ]
  %y = phi i8 [ 2, %0 ], [ %x, %loop ]
  %i = phi i8 [ 0, %0 ], [ %j, %loop ]
  %j = add i8 %i, 1
  %c = icmp ugt i8 %j, %a
  br i1 %c, label %out, label %loop
out:
  %r = add i8 %x, 0
  ret i8 %r
}
define i64 @room_in_recursion(i64 %a) {
  %p = alloca i64
  store i64 %a, ptr %p
  %q = ptrtoint ptr %p to i64
  %z = icmp eq i64 %a, 0
  br i1 %z, label %out, label %more
more:
  %b = add i64 %a, -1
  %s = call i64 @room_in_recursion(i64 %b)
  br label %out
out:
  %t = phi i64 [ 0, %0 ], [ %s, %more ]
  %o = load i64, ptr %p
  %r = add i64 %t, %o
  ret i64 %r
}
define i64 @top_in_recursion(i64 %a) {
  %p = alloca i64
  store i64 %a, ptr %p
  %q = ptrtoint ptr %p to i64
  %z = icmp eq i64 %a, 0
  br i1 %z, label %out, label %more
more:
  %b = add i64 %a, -1
  %s = call i64 @top_in_recursion(i64 %b)
  br label %out
out:
  %r = phi i64 [ %q, %0 ], [ %s, %more ]
  ret i64 %r
}
define i64 @top_behind_a_call(i64 %a) {
  %o = call i64 @room_in_recursion(i64 %a)
  %p = alloca [3 x i64]
  %q = alloca i8
  %x = ptrtoint ptr %p to i64
  %y = ptrtoint ptr %q to i64
  %z = shl i64 %x, 8
  %d = sub i64 %y, %x
  %r = add i64 %z, %d
  ret i64 %r
}
define i64 @move_up_32(i64 %a, i64 %b) {
  %p = alloca [2 x i64]
  %x = ptrtoint ptr %p to i64
  %y = add i64 %x, %b
  %q = inttoptr i64 %y to ptr
  store i64 %a, ptr %p
  call void @llvm.memmove.p0.p0.i32(ptr %q, ptr %p, i32 8, i1 false)
  %r = load i64, ptr %q
  ret i64 %r
}
define i64 @move_down_32(i64 %a, i64 %b) {
  %p = alloca [2 x i64]
  %x = ptrtoint ptr %p to i64
  %y = add i64 %x, %b
  %q = inttoptr i64 %y to ptr
  store i64 %a, ptr %q
  call void @llvm.memmove.p0.p0.i32(ptr %p, ptr %q, i32 8, i1 false)
  %r = load i64, ptr %p
  ret i64 %r
}
define i64 @copy_up_32(i64 %a, i64 %b) {
  %p = alloca [2 x i64]
  %x = ptrtoint ptr %p to i64
  %y = add i64 %x, %b
  %q = inttoptr i64 %y to ptr
  store i64 %a, ptr %p
  call void @llvm.memcpy.p0.p0.i32(ptr %q, ptr %p, i32 8, i1 false)
  %r = load i64, ptr %q
  ret i64 %r
}
define i64 @fill_32(i8 %a, i32 %b) {
  %p = alloca i64
  store i64 -1, ptr %p
  call void @llvm.memset.p0.i32(ptr %p, i8 %a, i32 %b, i1 false)
  %r = load i64, ptr %p
  ret i64 %r
}
define i32 @memmove_of_nothing_32(i32 %a) {
  call void @llvm.memmove.p0.p0.i32(ptr null, ptr null, i32 %a, i1 false)
  %r = add i32 %a, 1
  ret i32 %r
}
define i32 @memcpy_of_nothing_32(i32 %a) {
  call void @llvm.memcpy.p0.p0.i32(ptr null, ptr null, i32 %a, i1 false)
  %r = add i32 %a, 1
  ret i32 %r
}
define i32 @memset_of_nothing_32(i32 %a) {
  call void @llvm.memset.p0.i32(ptr null, i8 1, i32 %a, i1 false)
  %r = add i32 %a, 1
  ret i32 %r
}
define i64 @move_up_64(i64 %a, i64 %b) {
  %p = alloca [2 x i64]
  %x = ptrtoint ptr %p to i64
  %y = add i64 %x, %b
  %q = inttoptr i64 %y to ptr
  store i64 %a, ptr %p
  call void @llvm.memmove.p0.p0.i64(ptr %q, ptr %p, i64 8, i1 false)
  %r = load i64, ptr %q
  ret i64 %r
}
define i64 @move_down_64(i64 %a, i64 %b) {
  %p = alloca [2 x i64]
  %x = ptrtoint ptr %p to i64
  %y = add i64 %x, %b
  %q = inttoptr i64 %y to ptr
  store i64 %a, ptr %q
  call void @llvm.memmove.p0.p0.i64(ptr %p, ptr %q, i64 8, i1 false)
  %r = load i64, ptr %p
  ret i64 %r
}
define i64 @copy_up_64(i64 %a, i64 %b) {
  %p = alloca [2 x i64]
  %x = ptrtoint ptr %p to i64
  %y = add i64 %x, %b
  %q = inttoptr i64 %y to ptr
  store i64 %a, ptr %p
  call void @llvm.memcpy.p0.p0.i64(ptr %q, ptr %p, i64 8, i1 false)
  %r = load i64, ptr %q
  ret i64 %r
}
define i64 @fill_64(i8 %a, i64 %b) {
  %p = alloca i64
  store i64 -1, ptr %p
  call void @llvm.memset.p0.i64(ptr %p, i8 %a, i64 %b, i1 false)
  %r = load i64, ptr %p
  ret i64 %r
}
define i64 @memmove_of_nothing_64(i64 %a) {
  call void @llvm.memmove.p0.p0.i64(ptr null, ptr null, i64 %a, i1 false)
  %r = add i64 %a, 1
  ret i64 %r
}
define i64 @memcpy_of_nothing_64(i64 %a) {
  call void @llvm.memcpy.p0.p0.i64(ptr null, ptr null, i64 %a, i1 false)
  %r = add i64 %a, 1
  ret i64 %r
}
define i64 @memset_of_nothing_64(i64 %a) {
  call void @llvm.memset.p0.i64(ptr null, i8 1, i64 %a, i1 false)
  %r = add i64 %a, 1
  ret i64 %r
}
