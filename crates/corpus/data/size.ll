@g = global [4294967297 x i8] zeroinitializer
