@g = global [131073 x i64] zeroinitializer
