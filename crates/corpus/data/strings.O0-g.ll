; ModuleID = 'strings.c'
source_filename = "strings.c"
target datalayout = "e-m:e-p:64:64-i64:64-i128:128-n32:64-S128"
target triple = "riscv64-unknown-linux-gnu"

@lines = internal constant [4 x ptr] [ptr @.str, ptr @.str.1, ptr @.str.2, ptr @.str.3], align 8, !dbg !0
@.str = private unnamed_addr constant [26 x i8] c"able was I ere I saw elba\00", align 1, !dbg !10
@.str.1 = private unnamed_addr constant [13 x i8] c"a man a plan\00", align 1, !dbg !16
@.str.2 = private unnamed_addr constant [1 x i8] zeroinitializer, align 1, !dbg !21
@.str.3 = private unnamed_addr constant [15 x i8] c"  two   words \00", align 1, !dbg !26
@buffer = internal global [24 x i8] zeroinitializer, align 1, !dbg !36
@.str.4 = private unnamed_addr constant [17 x i8] c"0123456789abcdef\00", align 1, !dbg !31

; Function Attrs: noinline nounwind optnone
define dso_local signext i32 @length_of(i32 noundef signext %0) #0 !dbg !58 {
  %2 = alloca i32, align 4
  store i32 %0, ptr %2, align 4
    #dbg_declare(ptr %2, !62, !DIExpression(), !63)
  %3 = load i32, ptr %2, align 4, !dbg !64
  %4 = and i32 %3, 3, !dbg !65
  %5 = sext i32 %4 to i64, !dbg !66
  %6 = getelementptr inbounds [4 x ptr], ptr @lines, i64 0, i64 %5, !dbg !66
  %7 = load ptr, ptr %6, align 8, !dbg !66
  %8 = call signext i32 @length(ptr noundef %7) #1, !dbg !67
  ret i32 %8, !dbg !68
}

; Function Attrs: noinline nounwind optnone
define internal signext i32 @length(ptr noundef %0) #0 !dbg !69 {
  %2 = alloca ptr, align 8
  %3 = alloca ptr, align 8
  store ptr %0, ptr %2, align 8
    #dbg_declare(ptr %2, !72, !DIExpression(), !73)
    #dbg_declare(ptr %3, !74, !DIExpression(), !75)
  %4 = load ptr, ptr %2, align 8, !dbg !76
  store ptr %4, ptr %3, align 8, !dbg !75
  br label %5, !dbg !77

5:                                                ; preds = %9, %1
  %6 = load ptr, ptr %3, align 8, !dbg !78
  %7 = load i8, ptr %6, align 1, !dbg !79
  %8 = icmp ne i8 %7, 0, !dbg !77
  br i1 %8, label %9, label %12, !dbg !77

9:                                                ; preds = %5
  %10 = load ptr, ptr %3, align 8, !dbg !80
  %11 = getelementptr inbounds i8, ptr %10, i32 1, !dbg !80
  store ptr %11, ptr %3, align 8, !dbg !80
  br label %5, !dbg !77, !llvm.loop !81

12:                                               ; preds = %5
  %13 = load ptr, ptr %3, align 8, !dbg !83
  %14 = load ptr, ptr %2, align 8, !dbg !84
  %15 = ptrtoint ptr %13 to i64, !dbg !85
  %16 = ptrtoint ptr %14 to i64, !dbg !85
  %17 = sub i64 %15, %16, !dbg !85
  %18 = trunc i64 %17 to i32, !dbg !86
  ret i32 %18, !dbg !87
}

; Function Attrs: noinline nounwind optnone
define dso_local signext i32 @words_of(i32 noundef signext %0) #0 !dbg !88 {
  %2 = alloca i32, align 4
  %3 = alloca i32, align 4
  %4 = alloca i32, align 4
  %5 = alloca ptr, align 8
  store i32 %0, ptr %2, align 4
    #dbg_declare(ptr %2, !89, !DIExpression(), !90)
    #dbg_declare(ptr %3, !91, !DIExpression(), !92)
  store i32 0, ptr %3, align 4, !dbg !92
    #dbg_declare(ptr %4, !93, !DIExpression(), !94)
  store i32 0, ptr %4, align 4, !dbg !94
    #dbg_declare(ptr %5, !95, !DIExpression(), !97)
  %6 = load i32, ptr %2, align 4, !dbg !98
  %7 = and i32 %6, 3, !dbg !99
  %8 = sext i32 %7 to i64, !dbg !100
  %9 = getelementptr inbounds [4 x ptr], ptr @lines, i64 0, i64 %8, !dbg !100
  %10 = load ptr, ptr %9, align 8, !dbg !100
  store ptr %10, ptr %5, align 8, !dbg !97
  br label %11, !dbg !101

11:                                               ; preds = %29, %1
  %12 = load ptr, ptr %5, align 8, !dbg !102
  %13 = load i8, ptr %12, align 1, !dbg !104
  %14 = icmp ne i8 %13, 0, !dbg !105
  br i1 %14, label %15, label %32, !dbg !105

15:                                               ; preds = %11
  %16 = load ptr, ptr %5, align 8, !dbg !106
  %17 = load i8, ptr %16, align 1, !dbg !109
  %18 = zext i8 %17 to i32, !dbg !109
  %19 = icmp eq i32 %18, 32, !dbg !110
  br i1 %19, label %20, label %21, !dbg !111

20:                                               ; preds = %15
  store i32 0, ptr %4, align 4, !dbg !112
  br label %28, !dbg !113

21:                                               ; preds = %15
  %22 = load i32, ptr %4, align 4, !dbg !114
  %23 = icmp ne i32 %22, 0, !dbg !114
  br i1 %23, label %27, label %24, !dbg !116

24:                                               ; preds = %21
  store i32 1, ptr %4, align 4, !dbg !117
  %25 = load i32, ptr %3, align 4, !dbg !119
  %26 = add nsw i32 %25, 1, !dbg !119
  store i32 %26, ptr %3, align 4, !dbg !119
  br label %27, !dbg !120

27:                                               ; preds = %24, %21
  br label %28

28:                                               ; preds = %27, %20
  br label %29, !dbg !121

29:                                               ; preds = %28
  %30 = load ptr, ptr %5, align 8, !dbg !122
  %31 = getelementptr inbounds i8, ptr %30, i32 1, !dbg !122
  store ptr %31, ptr %5, align 8, !dbg !122
  br label %11, !dbg !123, !llvm.loop !124

32:                                               ; preds = %11
  %33 = load i32, ptr %3, align 4, !dbg !126
  ret i32 %33, !dbg !127
}

; Function Attrs: noinline nounwind optnone
define dso_local zeroext i1 @is_palindrome(i32 noundef signext %0) #0 !dbg !128 {
  %2 = alloca i32, align 4
  %3 = alloca ptr, align 8
  %4 = alloca i32, align 4
  %5 = alloca i32, align 4
  store i32 %0, ptr %2, align 4
    #dbg_declare(ptr %2, !132, !DIExpression(), !133)
    #dbg_declare(ptr %3, !134, !DIExpression(), !135)
  %6 = load i32, ptr %2, align 4, !dbg !136
  %7 = and i32 %6, 3, !dbg !137
  %8 = sext i32 %7 to i64, !dbg !138
  %9 = getelementptr inbounds [4 x ptr], ptr @lines, i64 0, i64 %8, !dbg !138
  %10 = load ptr, ptr %9, align 8, !dbg !138
  store ptr %10, ptr %3, align 8, !dbg !135
    #dbg_declare(ptr %4, !139, !DIExpression(), !140)
  store i32 0, ptr %4, align 4, !dbg !140
    #dbg_declare(ptr %5, !141, !DIExpression(), !142)
  %11 = load ptr, ptr %3, align 8, !dbg !143
  %12 = call signext i32 @length(ptr noundef %11) #1, !dbg !144
  %13 = sub nsw i32 %12, 1, !dbg !145
  store i32 %13, ptr %5, align 4, !dbg !142
  br label %14, !dbg !146

14:                                               ; preds = %34, %1
  %15 = load i32, ptr %4, align 4, !dbg !147
  %16 = load i32, ptr %5, align 4, !dbg !148
  %17 = icmp slt i32 %15, %16, !dbg !149
  br i1 %17, label %18, label %32, !dbg !150

18:                                               ; preds = %14
  %19 = load ptr, ptr %3, align 8, !dbg !151
  %20 = load i32, ptr %4, align 4, !dbg !152
  %21 = sext i32 %20 to i64, !dbg !151
  %22 = getelementptr inbounds i8, ptr %19, i64 %21, !dbg !151
  %23 = load i8, ptr %22, align 1, !dbg !151
  %24 = zext i8 %23 to i32, !dbg !151
  %25 = load ptr, ptr %3, align 8, !dbg !153
  %26 = load i32, ptr %5, align 4, !dbg !154
  %27 = sext i32 %26 to i64, !dbg !153
  %28 = getelementptr inbounds i8, ptr %25, i64 %27, !dbg !153
  %29 = load i8, ptr %28, align 1, !dbg !153
  %30 = zext i8 %29 to i32, !dbg !153
  %31 = icmp eq i32 %24, %30, !dbg !155
  br label %32

32:                                               ; preds = %18, %14
  %33 = phi i1 [ false, %14 ], [ %31, %18 ], !dbg !156
  br i1 %33, label %34, label %39, !dbg !146

34:                                               ; preds = %32
  %35 = load i32, ptr %4, align 4, !dbg !157
  %36 = add nsw i32 %35, 1, !dbg !157
  store i32 %36, ptr %4, align 4, !dbg !157
  %37 = load i32, ptr %5, align 4, !dbg !158
  %38 = add nsw i32 %37, -1, !dbg !158
  store i32 %38, ptr %5, align 4, !dbg !158
  br label %14, !dbg !146, !llvm.loop !159

39:                                               ; preds = %32
  %40 = load i32, ptr %4, align 4, !dbg !160
  %41 = load i32, ptr %5, align 4, !dbg !161
  %42 = icmp sge i32 %40, %41, !dbg !162
  ret i1 %42, !dbg !163
}

; Function Attrs: noinline nounwind optnone
define dso_local i64 @digit_sum(i64 noundef %0, i32 noundef signext %1) #0 !dbg !164 {
  %3 = alloca i64, align 8
  %4 = alloca i32, align 4
  %5 = alloca i64, align 8
  %6 = alloca ptr, align 8
  store i64 %0, ptr %3, align 8
    #dbg_declare(ptr %3, !168, !DIExpression(), !169)
  store i32 %1, ptr %4, align 4
    #dbg_declare(ptr %4, !170, !DIExpression(), !171)
    #dbg_declare(ptr %5, !172, !DIExpression(), !173)
  store i64 0, ptr %5, align 8, !dbg !173
    #dbg_declare(ptr %6, !174, !DIExpression(), !177)
  %7 = load i64, ptr %3, align 8, !dbg !178
  %8 = load i32, ptr %4, align 4, !dbg !179
  %9 = call ptr @digits(i64 noundef %7, i32 noundef signext %8) #1, !dbg !180
  store ptr %9, ptr %6, align 8, !dbg !177
  br label %10, !dbg !181

10:                                               ; preds = %21, %2
  %11 = load ptr, ptr %6, align 8, !dbg !182
  %12 = load i8, ptr %11, align 1, !dbg !184
  %13 = icmp ne i8 %12, 0, !dbg !185
  br i1 %13, label %14, label %24, !dbg !185

14:                                               ; preds = %10
  %15 = load i64, ptr %5, align 8, !dbg !186
  %16 = mul nsw i64 %15, 3, !dbg !187
  %17 = load ptr, ptr %6, align 8, !dbg !188
  %18 = load i8, ptr %17, align 1, !dbg !189
  %19 = zext i8 %18 to i64, !dbg !189
  %20 = add nsw i64 %16, %19, !dbg !190
  store i64 %20, ptr %5, align 8, !dbg !191
  br label %21, !dbg !192

21:                                               ; preds = %14
  %22 = load ptr, ptr %6, align 8, !dbg !193
  %23 = getelementptr inbounds i8, ptr %22, i32 1, !dbg !193
  store ptr %23, ptr %6, align 8, !dbg !193
  br label %10, !dbg !194, !llvm.loop !195

24:                                               ; preds = %10
  %25 = load i64, ptr %5, align 8, !dbg !197
  ret i64 %25, !dbg !198
}

; Function Attrs: noinline nounwind optnone
define internal ptr @digits(i64 noundef %0, i32 noundef signext %1) #0 !dbg !199 {
  %3 = alloca i64, align 8
  %4 = alloca i32, align 4
  %5 = alloca ptr, align 8
  %6 = alloca i64, align 8
  store i64 %0, ptr %3, align 8
    #dbg_declare(ptr %3, !202, !DIExpression(), !203)
  store i32 %1, ptr %4, align 4
    #dbg_declare(ptr %4, !204, !DIExpression(), !205)
    #dbg_declare(ptr %5, !206, !DIExpression(), !207)
  store ptr getelementptr inbounds (i8, ptr @buffer, i64 23), ptr %5, align 8, !dbg !207
    #dbg_declare(ptr %6, !208, !DIExpression(), !209)
  %7 = load i64, ptr %3, align 8, !dbg !210
  %8 = icmp slt i64 %7, 0, !dbg !211
  br i1 %8, label %9, label %12, !dbg !210

9:                                                ; preds = %2
  %10 = load i64, ptr %3, align 8, !dbg !212
  %11 = sub i64 0, %10, !dbg !213
  br label %14, !dbg !210

12:                                               ; preds = %2
  %13 = load i64, ptr %3, align 8, !dbg !214
  br label %14, !dbg !210

14:                                               ; preds = %12, %9
  %15 = phi i64 [ %11, %9 ], [ %13, %12 ], !dbg !210
  store i64 %15, ptr %6, align 8, !dbg !209
  %16 = load ptr, ptr %5, align 8, !dbg !215
  store i8 0, ptr %16, align 1, !dbg !216
  br label %17, !dbg !217

17:                                               ; preds = %30, %14
  %18 = load i64, ptr %6, align 8, !dbg !218
  %19 = load i32, ptr %4, align 4, !dbg !220
  %20 = zext i32 %19 to i64, !dbg !221
  %21 = urem i64 %18, %20, !dbg !222
  %22 = getelementptr inbounds [17 x i8], ptr @.str.4, i64 0, i64 %21, !dbg !223
  %23 = load i8, ptr %22, align 1, !dbg !223
  %24 = load ptr, ptr %5, align 8, !dbg !224
  %25 = getelementptr inbounds i8, ptr %24, i32 -1, !dbg !224
  store ptr %25, ptr %5, align 8, !dbg !224
  store i8 %23, ptr %25, align 1, !dbg !225
  %26 = load i32, ptr %4, align 4, !dbg !226
  %27 = zext i32 %26 to i64, !dbg !227
  %28 = load i64, ptr %6, align 8, !dbg !228
  %29 = udiv i64 %28, %27, !dbg !228
  store i64 %29, ptr %6, align 8, !dbg !228
  br label %30, !dbg !229

30:                                               ; preds = %17
  %31 = load i64, ptr %6, align 8, !dbg !230
  %32 = icmp ne i64 %31, 0, !dbg !229
  br i1 %32, label %17, label %33, !dbg !229, !llvm.loop !231

33:                                               ; preds = %30
  %34 = load i64, ptr %3, align 8, !dbg !233
  %35 = icmp slt i64 %34, 0, !dbg !235
  br i1 %35, label %36, label %39, !dbg !236

36:                                               ; preds = %33
  %37 = load ptr, ptr %5, align 8, !dbg !237
  %38 = getelementptr inbounds i8, ptr %37, i32 -1, !dbg !237
  store ptr %38, ptr %5, align 8, !dbg !237
  store i8 45, ptr %38, align 1, !dbg !238
  br label %39, !dbg !239

39:                                               ; preds = %36, %33
  %40 = load ptr, ptr %5, align 8, !dbg !240
  ret ptr %40, !dbg !241
}

; Function Attrs: noinline nounwind optnone
define dso_local i64 @there_and_back(i64 noundef %0) #0 !dbg !242 {
  %2 = alloca i64, align 8
  store i64 %0, ptr %2, align 8
    #dbg_declare(ptr %2, !245, !DIExpression(), !246)
  %3 = load i64, ptr %2, align 8, !dbg !247
  %4 = call ptr @digits(i64 noundef %3, i32 noundef signext 10) #1, !dbg !248
  %5 = call i64 @read_number(ptr noundef %4) #1, !dbg !249
  ret i64 %5, !dbg !250
}

; Function Attrs: noinline nounwind optnone
define internal i64 @read_number(ptr noundef %0) #0 !dbg !251 {
  %2 = alloca ptr, align 8
  %3 = alloca i64, align 8
  %4 = alloca i32, align 4
  store ptr %0, ptr %2, align 8
    #dbg_declare(ptr %2, !254, !DIExpression(), !255)
    #dbg_declare(ptr %3, !256, !DIExpression(), !257)
  store i64 0, ptr %3, align 8, !dbg !257
    #dbg_declare(ptr %4, !258, !DIExpression(), !259)
  %5 = load ptr, ptr %2, align 8, !dbg !260
  %6 = load i8, ptr %5, align 1, !dbg !261
  %7 = zext i8 %6 to i32, !dbg !261
  %8 = icmp eq i32 %7, 45, !dbg !262
  %9 = zext i1 %8 to i32, !dbg !262
  store i32 %9, ptr %4, align 4, !dbg !259
  %10 = load i32, ptr %4, align 4, !dbg !263
  %11 = load ptr, ptr %2, align 8, !dbg !265
  %12 = sext i32 %10 to i64, !dbg !265
  %13 = getelementptr inbounds i8, ptr %11, i64 %12, !dbg !265
  store ptr %13, ptr %2, align 8, !dbg !265
  br label %14, !dbg !266

14:                                               ; preds = %35, %1
  %15 = load ptr, ptr %2, align 8, !dbg !267
  %16 = load i8, ptr %15, align 1, !dbg !269
  %17 = zext i8 %16 to i32, !dbg !269
  %18 = icmp sge i32 %17, 48, !dbg !270
  br i1 %18, label %19, label %24, !dbg !271

19:                                               ; preds = %14
  %20 = load ptr, ptr %2, align 8, !dbg !272
  %21 = load i8, ptr %20, align 1, !dbg !273
  %22 = zext i8 %21 to i32, !dbg !273
  %23 = icmp sle i32 %22, 57, !dbg !274
  br label %24

24:                                               ; preds = %19, %14
  %25 = phi i1 [ false, %14 ], [ %23, %19 ], !dbg !275
  br i1 %25, label %26, label %38, !dbg !276

26:                                               ; preds = %24
  %27 = load i64, ptr %3, align 8, !dbg !277
  %28 = mul nsw i64 %27, 10, !dbg !278
  %29 = load ptr, ptr %2, align 8, !dbg !279
  %30 = load i8, ptr %29, align 1, !dbg !280
  %31 = zext i8 %30 to i32, !dbg !280
  %32 = sub nsw i32 %31, 48, !dbg !281
  %33 = sext i32 %32 to i64, !dbg !282
  %34 = add nsw i64 %28, %33, !dbg !283
  store i64 %34, ptr %3, align 8, !dbg !284
  br label %35, !dbg !285

35:                                               ; preds = %26
  %36 = load ptr, ptr %2, align 8, !dbg !286
  %37 = getelementptr inbounds i8, ptr %36, i32 1, !dbg !286
  store ptr %37, ptr %2, align 8, !dbg !286
  br label %14, !dbg !287, !llvm.loop !288

38:                                               ; preds = %24
  %39 = load i32, ptr %4, align 4, !dbg !290
  %40 = icmp ne i32 %39, 0, !dbg !290
  br i1 %40, label %41, label %44, !dbg !290

41:                                               ; preds = %38
  %42 = load i64, ptr %3, align 8, !dbg !291
  %43 = sub nsw i64 0, %42, !dbg !292
  br label %46, !dbg !290

44:                                               ; preds = %38
  %45 = load i64, ptr %3, align 8, !dbg !293
  br label %46, !dbg !290

46:                                               ; preds = %44, %41
  %47 = phi i64 [ %43, %41 ], [ %45, %44 ], !dbg !290
  ret i64 %47, !dbg !294
}

; Function Attrs: noinline nounwind optnone
define dso_local signext i32 @compared(i32 noundef signext %0, i32 noundef signext %1) #0 !dbg !295 {
  %3 = alloca i32, align 4
  %4 = alloca i32, align 4
  %5 = alloca ptr, align 8
  %6 = alloca ptr, align 8
  store i32 %0, ptr %3, align 4
    #dbg_declare(ptr %3, !298, !DIExpression(), !299)
  store i32 %1, ptr %4, align 4
    #dbg_declare(ptr %4, !300, !DIExpression(), !301)
    #dbg_declare(ptr %5, !302, !DIExpression(), !303)
  %7 = load i32, ptr %3, align 4, !dbg !304
  %8 = and i32 %7, 3, !dbg !305
  %9 = sext i32 %8 to i64, !dbg !306
  %10 = getelementptr inbounds [4 x ptr], ptr @lines, i64 0, i64 %9, !dbg !306
  %11 = load ptr, ptr %10, align 8, !dbg !306
  store ptr %11, ptr %5, align 8, !dbg !303
    #dbg_declare(ptr %6, !307, !DIExpression(), !308)
  %12 = load i32, ptr %4, align 4, !dbg !309
  %13 = and i32 %12, 3, !dbg !310
  %14 = sext i32 %13 to i64, !dbg !311
  %15 = getelementptr inbounds [4 x ptr], ptr @lines, i64 0, i64 %14, !dbg !311
  %16 = load ptr, ptr %15, align 8, !dbg !311
  store ptr %16, ptr %6, align 8, !dbg !308
  br label %17, !dbg !312

17:                                               ; preds = %32, %2
  %18 = load ptr, ptr %5, align 8, !dbg !313
  %19 = load i8, ptr %18, align 1, !dbg !314
  %20 = zext i8 %19 to i32, !dbg !314
  %21 = icmp ne i32 %20, 0, !dbg !314
  br i1 %21, label %22, label %30, !dbg !315

22:                                               ; preds = %17
  %23 = load ptr, ptr %5, align 8, !dbg !316
  %24 = load i8, ptr %23, align 1, !dbg !317
  %25 = zext i8 %24 to i32, !dbg !317
  %26 = load ptr, ptr %6, align 8, !dbg !318
  %27 = load i8, ptr %26, align 1, !dbg !319
  %28 = zext i8 %27 to i32, !dbg !319
  %29 = icmp eq i32 %25, %28, !dbg !320
  br label %30

30:                                               ; preds = %22, %17
  %31 = phi i1 [ false, %17 ], [ %29, %22 ], !dbg !321
  br i1 %31, label %32, label %37, !dbg !312

32:                                               ; preds = %30
  %33 = load ptr, ptr %5, align 8, !dbg !322
  %34 = getelementptr inbounds i8, ptr %33, i32 1, !dbg !322
  store ptr %34, ptr %5, align 8, !dbg !322
  %35 = load ptr, ptr %6, align 8, !dbg !323
  %36 = getelementptr inbounds i8, ptr %35, i32 1, !dbg !323
  store ptr %36, ptr %6, align 8, !dbg !323
  br label %17, !dbg !312, !llvm.loop !324

37:                                               ; preds = %30
  %38 = load ptr, ptr %5, align 8, !dbg !325
  %39 = load i8, ptr %38, align 1, !dbg !326
  %40 = zext i8 %39 to i32, !dbg !327
  %41 = load ptr, ptr %6, align 8, !dbg !328
  %42 = load i8, ptr %41, align 1, !dbg !329
  %43 = zext i8 %42 to i32, !dbg !330
  %44 = sub nsw i32 %40, %43, !dbg !331
  ret i32 %44, !dbg !332
}

attributes #0 = { noinline nounwind optnone "frame-pointer"="all" "no-builtins" "no-trapping-math"="true" "stack-protector-buffer-size"="8" "target-cpu"="generic-rv64" "target-features"="+64bit,+m,+relax,+zmmul,-a,-b,-c,-d,-e,-experimental-smmpm,-experimental-smnpm,-experimental-ssnpm,-experimental-sspm,-experimental-ssqosid,-experimental-supm,-experimental-zacas,-experimental-zalasr,-experimental-zicfilp,-experimental-zicfiss,-f,-h,-shcounterenw,-shgatpa,-shtvala,-shvsatpa,-shvstvala,-shvstvecd,-smaia,-smcdeleg,-smcsrind,-smepmp,-smstateen,-ssaia,-ssccfg,-ssccptr,-sscofpmf,-sscounterenw,-sscsrind,-ssstateen,-ssstrict,-sstc,-sstvala,-sstvecd,-ssu64xl,-svade,-svadu,-svbare,-svinval,-svnapot,-svpbmt,-v,-xcvalu,-xcvbi,-xcvbitmanip,-xcvelw,-xcvmac,-xcvmem,-xcvsimd,-xsfcease,-xsfvcp,-xsfvfnrclipxfqf,-xsfvfwmaccqqq,-xsfvqmaccdod,-xsfvqmaccqoq,-xsifivecdiscarddlone,-xsifivecflushdlone,-xtheadba,-xtheadbb,-xtheadbs,-xtheadcmo,-xtheadcondmov,-xtheadfmemidx,-xtheadmac,-xtheadmemidx,-xtheadmempair,-xtheadsync,-xtheadvdot,-xventanacondops,-xwchc,-za128rs,-za64rs,-zaamo,-zabha,-zalrsc,-zama16b,-zawrs,-zba,-zbb,-zbc,-zbkb,-zbkc,-zbkx,-zbs,-zca,-zcb,-zcd,-zce,-zcf,-zcmop,-zcmp,-zcmt,-zdinx,-zfa,-zfbfmin,-zfh,-zfhmin,-zfinx,-zhinx,-zhinxmin,-zic64b,-zicbom,-zicbop,-zicboz,-ziccamoa,-ziccif,-zicclsm,-ziccrse,-zicntr,-zicond,-zicsr,-zifencei,-zihintntl,-zihintpause,-zihpm,-zimop,-zk,-zkn,-zknd,-zkne,-zknh,-zkr,-zks,-zksed,-zksh,-zkt,-ztso,-zvbb,-zvbc,-zve32f,-zve32x,-zve64d,-zve64f,-zve64x,-zvfbfmin,-zvfbfwma,-zvfh,-zvfhmin,-zvkb,-zvkg,-zvkn,-zvknc,-zvkned,-zvkng,-zvknha,-zvknhb,-zvks,-zvksc,-zvksed,-zvksg,-zvksh,-zvkt,-zvl1024b,-zvl128b,-zvl16384b,-zvl2048b,-zvl256b,-zvl32768b,-zvl32b,-zvl4096b,-zvl512b,-zvl64b,-zvl65536b,-zvl8192b" }
attributes #1 = { nobuiltin "no-builtins" }

!llvm.dbg.cu = !{!2}
!llvm.module.flags = !{!47, !48, !49, !50, !51, !53, !54, !55, !56}
!llvm.ident = !{!57}

!0 = !DIGlobalVariableExpression(var: !1, expr: !DIExpression())
!1 = distinct !DIGlobalVariable(name: "lines", scope: !2, file: !3, line: 2, type: !41, isLocal: true, isDefinition: true)
!2 = distinct !DICompileUnit(language: DW_LANG_C11, file: !3, producer: "Debian clang version 19.1.7 (3~deb12u1)", isOptimized: false, runtimeVersion: 0, emissionKind: FullDebug, retainedTypes: !4, globals: !9, splitDebugInlining: false, nameTableKind: None)
!3 = !DIFile(filename: "strings.c", directory: ".", checksumkind: CSK_MD5, checksum: "79fe854463482ce7e28c598dd804d369")
!4 = !{!5, !6, !7, !8}
!5 = !DIBasicType(name: "unsigned char", size: 8, encoding: DW_ATE_unsigned_char)
!6 = !DIBasicType(name: "int", size: 32, encoding: DW_ATE_signed)
!7 = !DIBasicType(name: "unsigned long", size: 64, encoding: DW_ATE_unsigned)
!8 = !DIBasicType(name: "unsigned int", size: 32, encoding: DW_ATE_unsigned)
!9 = !{!10, !16, !21, !26, !0, !31, !36}
!10 = !DIGlobalVariableExpression(var: !11, expr: !DIExpression())
!11 = distinct !DIGlobalVariable(scope: null, file: !3, line: 2, type: !12, isLocal: true, isDefinition: true)
!12 = !DICompositeType(tag: DW_TAG_array_type, baseType: !13, size: 208, elements: !14)
!13 = !DIBasicType(name: "char", size: 8, encoding: DW_ATE_unsigned_char)
!14 = !{!15}
!15 = !DISubrange(count: 26)
!16 = !DIGlobalVariableExpression(var: !17, expr: !DIExpression())
!17 = distinct !DIGlobalVariable(scope: null, file: !3, line: 2, type: !18, isLocal: true, isDefinition: true)
!18 = !DICompositeType(tag: DW_TAG_array_type, baseType: !13, size: 104, elements: !19)
!19 = !{!20}
!20 = !DISubrange(count: 13)
!21 = !DIGlobalVariableExpression(var: !22, expr: !DIExpression())
!22 = distinct !DIGlobalVariable(scope: null, file: !3, line: 2, type: !23, isLocal: true, isDefinition: true)
!23 = !DICompositeType(tag: DW_TAG_array_type, baseType: !13, size: 8, elements: !24)
!24 = !{!25}
!25 = !DISubrange(count: 1)
!26 = !DIGlobalVariableExpression(var: !27, expr: !DIExpression())
!27 = distinct !DIGlobalVariable(scope: null, file: !3, line: 2, type: !28, isLocal: true, isDefinition: true)
!28 = !DICompositeType(tag: DW_TAG_array_type, baseType: !13, size: 120, elements: !29)
!29 = !{!30}
!30 = !DISubrange(count: 15)
!31 = !DIGlobalVariableExpression(var: !32, expr: !DIExpression())
!32 = distinct !DIGlobalVariable(scope: null, file: !3, line: 33, type: !33, isLocal: true, isDefinition: true)
!33 = !DICompositeType(tag: DW_TAG_array_type, baseType: !13, size: 136, elements: !34)
!34 = !{!35}
!35 = !DISubrange(count: 17)
!36 = !DIGlobalVariableExpression(var: !37, expr: !DIExpression())
!37 = distinct !DIGlobalVariable(name: "buffer", scope: !2, file: !3, line: 27, type: !38, isLocal: true, isDefinition: true)
!38 = !DICompositeType(tag: DW_TAG_array_type, baseType: !13, size: 192, elements: !39)
!39 = !{!40}
!40 = !DISubrange(count: 24)
!41 = !DICompositeType(tag: DW_TAG_array_type, baseType: !42, size: 256, elements: !45)
!42 = !DIDerivedType(tag: DW_TAG_const_type, baseType: !43)
!43 = !DIDerivedType(tag: DW_TAG_pointer_type, baseType: !44, size: 64)
!44 = !DIDerivedType(tag: DW_TAG_const_type, baseType: !13)
!45 = !{!46}
!46 = !DISubrange(count: 4)
!47 = !{i32 7, !"Dwarf Version", i32 5}
!48 = !{i32 2, !"Debug Info Version", i32 3}
!49 = !{i32 1, !"wchar_size", i32 4}
!50 = !{i32 1, !"target-abi", !"lp64"}
!51 = !{i32 6, !"riscv-isa", !52}
!52 = !{!"rv64i2p1_m2p0_zmmul1p0"}
!53 = !{i32 8, !"PIC Level", i32 2}
!54 = !{i32 7, !"PIE Level", i32 2}
!55 = !{i32 7, !"frame-pointer", i32 2}
!56 = !{i32 8, !"SmallDataLimit", i32 8}
!57 = !{!"Debian clang version 19.1.7 (3~deb12u1)"}
!58 = distinct !DISubprogram(name: "length_of", scope: !3, file: !3, line: 8, type: !59, scopeLine: 8, flags: DIFlagPrototyped, spFlags: DISPFlagDefinition, unit: !2, retainedNodes: !61)
!59 = !DISubroutineType(types: !60)
!60 = !{!6, !6}
!61 = !{}
!62 = !DILocalVariable(name: "i", arg: 1, scope: !58, file: !3, line: 8, type: !6)
!63 = !DILocation(line: 8, column: 19, scope: !58)
!64 = !DILocation(line: 8, column: 44, scope: !58)
!65 = !DILocation(line: 8, column: 46, scope: !58)
!66 = !DILocation(line: 8, column: 38, scope: !58)
!67 = !DILocation(line: 8, column: 31, scope: !58)
!68 = !DILocation(line: 8, column: 24, scope: !58)
!69 = distinct !DISubprogram(name: "length", scope: !3, file: !3, line: 3, type: !70, scopeLine: 3, flags: DIFlagPrototyped, spFlags: DISPFlagLocalToUnit | DISPFlagDefinition, unit: !2, retainedNodes: !61)
!70 = !DISubroutineType(types: !71)
!71 = !{!6, !43}
!72 = !DILocalVariable(name: "s", arg: 1, scope: !69, file: !3, line: 3, type: !43)
!73 = !DILocation(line: 3, column: 31, scope: !69)
!74 = !DILocalVariable(name: "p", scope: !69, file: !3, line: 4, type: !43)
!75 = !DILocation(line: 4, column: 17, scope: !69)
!76 = !DILocation(line: 4, column: 21, scope: !69)
!77 = !DILocation(line: 5, column: 5, scope: !69)
!78 = !DILocation(line: 5, column: 13, scope: !69)
!79 = !DILocation(line: 5, column: 12, scope: !69)
!80 = !DILocation(line: 5, column: 17, scope: !69)
!81 = distinct !{!81, !77, !80, !82}
!82 = !{!"llvm.loop.mustprogress"}
!83 = !DILocation(line: 6, column: 18, scope: !69)
!84 = !DILocation(line: 6, column: 22, scope: !69)
!85 = !DILocation(line: 6, column: 20, scope: !69)
!86 = !DILocation(line: 6, column: 12, scope: !69)
!87 = !DILocation(line: 6, column: 5, scope: !69)
!88 = distinct !DISubprogram(name: "words_of", scope: !3, file: !3, line: 9, type: !59, scopeLine: 9, flags: DIFlagPrototyped, spFlags: DISPFlagDefinition, unit: !2, retainedNodes: !61)
!89 = !DILocalVariable(name: "i", arg: 1, scope: !88, file: !3, line: 9, type: !6)
!90 = !DILocation(line: 9, column: 18, scope: !88)
!91 = !DILocalVariable(name: "n", scope: !88, file: !3, line: 10, type: !6)
!92 = !DILocation(line: 10, column: 9, scope: !88)
!93 = !DILocalVariable(name: "in", scope: !88, file: !3, line: 10, type: !6)
!94 = !DILocation(line: 10, column: 16, scope: !88)
!95 = !DILocalVariable(name: "p", scope: !96, file: !3, line: 11, type: !43)
!96 = distinct !DILexicalBlock(scope: !88, file: !3, line: 11, column: 5)
!97 = !DILocation(line: 11, column: 22, scope: !96)
!98 = !DILocation(line: 11, column: 32, scope: !96)
!99 = !DILocation(line: 11, column: 34, scope: !96)
!100 = !DILocation(line: 11, column: 26, scope: !96)
!101 = !DILocation(line: 11, column: 10, scope: !96)
!102 = !DILocation(line: 11, column: 41, scope: !103)
!103 = distinct !DILexicalBlock(scope: !96, file: !3, line: 11, column: 5)
!104 = !DILocation(line: 11, column: 40, scope: !103)
!105 = !DILocation(line: 11, column: 5, scope: !96)
!106 = !DILocation(line: 12, column: 14, scope: !107)
!107 = distinct !DILexicalBlock(scope: !108, file: !3, line: 12, column: 13)
!108 = distinct !DILexicalBlock(scope: !103, file: !3, line: 11, column: 49)
!109 = !DILocation(line: 12, column: 13, scope: !107)
!110 = !DILocation(line: 12, column: 16, scope: !107)
!111 = !DILocation(line: 12, column: 13, scope: !108)
!112 = !DILocation(line: 13, column: 16, scope: !107)
!113 = !DILocation(line: 13, column: 13, scope: !107)
!114 = !DILocation(line: 14, column: 19, scope: !115)
!115 = distinct !DILexicalBlock(scope: !107, file: !3, line: 14, column: 18)
!116 = !DILocation(line: 14, column: 18, scope: !107)
!117 = !DILocation(line: 15, column: 16, scope: !118)
!118 = distinct !DILexicalBlock(scope: !115, file: !3, line: 14, column: 23)
!119 = !DILocation(line: 16, column: 14, scope: !118)
!120 = !DILocation(line: 17, column: 9, scope: !118)
!121 = !DILocation(line: 18, column: 5, scope: !108)
!122 = !DILocation(line: 11, column: 45, scope: !103)
!123 = !DILocation(line: 11, column: 5, scope: !103)
!124 = distinct !{!124, !105, !125, !82}
!125 = !DILocation(line: 18, column: 5, scope: !96)
!126 = !DILocation(line: 19, column: 12, scope: !88)
!127 = !DILocation(line: 19, column: 5, scope: !88)
!128 = distinct !DISubprogram(name: "is_palindrome", scope: !3, file: !3, line: 21, type: !129, scopeLine: 21, flags: DIFlagPrototyped, spFlags: DISPFlagDefinition, unit: !2, retainedNodes: !61)
!129 = !DISubroutineType(types: !130)
!130 = !{!131, !6}
!131 = !DIBasicType(name: "_Bool", size: 8, encoding: DW_ATE_boolean)
!132 = !DILocalVariable(name: "i", arg: 1, scope: !128, file: !3, line: 21, type: !6)
!133 = !DILocation(line: 21, column: 25, scope: !128)
!134 = !DILocalVariable(name: "s", scope: !128, file: !3, line: 22, type: !43)
!135 = !DILocation(line: 22, column: 17, scope: !128)
!136 = !DILocation(line: 22, column: 27, scope: !128)
!137 = !DILocation(line: 22, column: 29, scope: !128)
!138 = !DILocation(line: 22, column: 21, scope: !128)
!139 = !DILocalVariable(name: "a", scope: !128, file: !3, line: 23, type: !6)
!140 = !DILocation(line: 23, column: 9, scope: !128)
!141 = !DILocalVariable(name: "b", scope: !128, file: !3, line: 23, type: !6)
!142 = !DILocation(line: 23, column: 16, scope: !128)
!143 = !DILocation(line: 23, column: 27, scope: !128)
!144 = !DILocation(line: 23, column: 20, scope: !128)
!145 = !DILocation(line: 23, column: 30, scope: !128)
!146 = !DILocation(line: 24, column: 5, scope: !128)
!147 = !DILocation(line: 24, column: 12, scope: !128)
!148 = !DILocation(line: 24, column: 16, scope: !128)
!149 = !DILocation(line: 24, column: 14, scope: !128)
!150 = !DILocation(line: 24, column: 18, scope: !128)
!151 = !DILocation(line: 24, column: 21, scope: !128)
!152 = !DILocation(line: 24, column: 23, scope: !128)
!153 = !DILocation(line: 24, column: 29, scope: !128)
!154 = !DILocation(line: 24, column: 31, scope: !128)
!155 = !DILocation(line: 24, column: 26, scope: !128)
!156 = !DILocation(line: 0, scope: !128)
!157 = !DILocation(line: 24, column: 36, scope: !128)
!158 = !DILocation(line: 24, column: 41, scope: !128)
!159 = distinct !{!159, !146, !158, !82}
!160 = !DILocation(line: 25, column: 12, scope: !128)
!161 = !DILocation(line: 25, column: 17, scope: !128)
!162 = !DILocation(line: 25, column: 14, scope: !128)
!163 = !DILocation(line: 25, column: 5, scope: !128)
!164 = distinct !DISubprogram(name: "digit_sum", scope: !3, file: !3, line: 39, type: !165, scopeLine: 39, flags: DIFlagPrototyped, spFlags: DISPFlagDefinition, unit: !2, retainedNodes: !61)
!165 = !DISubroutineType(types: !166)
!166 = !{!167, !167, !6}
!167 = !DIBasicType(name: "long", size: 64, encoding: DW_ATE_signed)
!168 = !DILocalVariable(name: "n", arg: 1, scope: !164, file: !3, line: 39, type: !167)
!169 = !DILocation(line: 39, column: 21, scope: !164)
!170 = !DILocalVariable(name: "base", arg: 2, scope: !164, file: !3, line: 39, type: !6)
!171 = !DILocation(line: 39, column: 28, scope: !164)
!172 = !DILocalVariable(name: "sum", scope: !164, file: !3, line: 40, type: !167)
!173 = !DILocation(line: 40, column: 10, scope: !164)
!174 = !DILocalVariable(name: "p", scope: !175, file: !3, line: 41, type: !176)
!175 = distinct !DILexicalBlock(scope: !164, file: !3, line: 41, column: 5)
!176 = !DIDerivedType(tag: DW_TAG_pointer_type, baseType: !13, size: 64)
!177 = !DILocation(line: 41, column: 16, scope: !175)
!178 = !DILocation(line: 41, column: 27, scope: !175)
!179 = !DILocation(line: 41, column: 30, scope: !175)
!180 = !DILocation(line: 41, column: 20, scope: !175)
!181 = !DILocation(line: 41, column: 10, scope: !175)
!182 = !DILocation(line: 41, column: 38, scope: !183)
!183 = distinct !DILexicalBlock(scope: !175, file: !3, line: 41, column: 5)
!184 = !DILocation(line: 41, column: 37, scope: !183)
!185 = !DILocation(line: 41, column: 5, scope: !175)
!186 = !DILocation(line: 41, column: 52, scope: !183)
!187 = !DILocation(line: 41, column: 56, scope: !183)
!188 = !DILocation(line: 41, column: 63, scope: !183)
!189 = !DILocation(line: 41, column: 62, scope: !183)
!190 = !DILocation(line: 41, column: 60, scope: !183)
!191 = !DILocation(line: 41, column: 50, scope: !183)
!192 = !DILocation(line: 41, column: 46, scope: !183)
!193 = !DILocation(line: 41, column: 42, scope: !183)
!194 = !DILocation(line: 41, column: 5, scope: !183)
!195 = distinct !{!195, !185, !196, !82}
!196 = !DILocation(line: 41, column: 63, scope: !175)
!197 = !DILocation(line: 42, column: 12, scope: !164)
!198 = !DILocation(line: 42, column: 5, scope: !164)
!199 = distinct !DISubprogram(name: "digits", scope: !3, file: !3, line: 28, type: !200, scopeLine: 28, flags: DIFlagPrototyped, spFlags: DISPFlagLocalToUnit | DISPFlagDefinition, unit: !2, retainedNodes: !61)
!200 = !DISubroutineType(types: !201)
!201 = !{!176, !167, !6}
!202 = !DILocalVariable(name: "n", arg: 1, scope: !199, file: !3, line: 28, type: !167)
!203 = !DILocation(line: 28, column: 26, scope: !199)
!204 = !DILocalVariable(name: "base", arg: 2, scope: !199, file: !3, line: 28, type: !6)
!205 = !DILocation(line: 28, column: 33, scope: !199)
!206 = !DILocalVariable(name: "p", scope: !199, file: !3, line: 29, type: !176)
!207 = !DILocation(line: 29, column: 11, scope: !199)
!208 = !DILocalVariable(name: "m", scope: !199, file: !3, line: 30, type: !7)
!209 = !DILocation(line: 30, column: 19, scope: !199)
!210 = !DILocation(line: 30, column: 23, scope: !199)
!211 = !DILocation(line: 30, column: 25, scope: !199)
!212 = !DILocation(line: 30, column: 52, scope: !199)
!213 = !DILocation(line: 30, column: 35, scope: !199)
!214 = !DILocation(line: 30, column: 71, scope: !199)
!215 = !DILocation(line: 31, column: 6, scope: !199)
!216 = !DILocation(line: 31, column: 8, scope: !199)
!217 = !DILocation(line: 32, column: 5, scope: !199)
!218 = !DILocation(line: 33, column: 35, scope: !219)
!219 = distinct !DILexicalBlock(scope: !199, file: !3, line: 32, column: 8)
!220 = !DILocation(line: 33, column: 49, scope: !219)
!221 = !DILocation(line: 33, column: 39, scope: !219)
!222 = !DILocation(line: 33, column: 37, scope: !219)
!223 = !DILocation(line: 33, column: 16, scope: !219)
!224 = !DILocation(line: 33, column: 10, scope: !219)
!225 = !DILocation(line: 33, column: 14, scope: !219)
!226 = !DILocation(line: 34, column: 24, scope: !219)
!227 = !DILocation(line: 34, column: 14, scope: !219)
!228 = !DILocation(line: 34, column: 11, scope: !219)
!229 = !DILocation(line: 35, column: 5, scope: !219)
!230 = !DILocation(line: 35, column: 14, scope: !199)
!231 = distinct !{!231, !217, !232, !82}
!232 = !DILocation(line: 35, column: 15, scope: !199)
!233 = !DILocation(line: 36, column: 9, scope: !234)
!234 = distinct !DILexicalBlock(scope: !199, file: !3, line: 36, column: 9)
!235 = !DILocation(line: 36, column: 11, scope: !234)
!236 = !DILocation(line: 36, column: 9, scope: !199)
!237 = !DILocation(line: 36, column: 17, scope: !234)
!238 = !DILocation(line: 36, column: 21, scope: !234)
!239 = !DILocation(line: 36, column: 16, scope: !234)
!240 = !DILocation(line: 37, column: 12, scope: !199)
!241 = !DILocation(line: 37, column: 5, scope: !199)
!242 = distinct !DISubprogram(name: "there_and_back", scope: !3, file: !3, line: 50, type: !243, scopeLine: 50, flags: DIFlagPrototyped, spFlags: DISPFlagDefinition, unit: !2, retainedNodes: !61)
!243 = !DISubroutineType(types: !244)
!244 = !{!167, !167}
!245 = !DILocalVariable(name: "n", arg: 1, scope: !242, file: !3, line: 50, type: !167)
!246 = !DILocation(line: 50, column: 26, scope: !242)
!247 = !DILocation(line: 50, column: 57, scope: !242)
!248 = !DILocation(line: 50, column: 50, scope: !242)
!249 = !DILocation(line: 50, column: 38, scope: !242)
!250 = !DILocation(line: 50, column: 31, scope: !242)
!251 = distinct !DISubprogram(name: "read_number", scope: !3, file: !3, line: 44, type: !252, scopeLine: 44, flags: DIFlagPrototyped, spFlags: DISPFlagLocalToUnit | DISPFlagDefinition, unit: !2, retainedNodes: !61)
!252 = !DISubroutineType(types: !253)
!253 = !{!167, !43}
!254 = !DILocalVariable(name: "s", arg: 1, scope: !251, file: !3, line: 44, type: !43)
!255 = !DILocation(line: 44, column: 37, scope: !251)
!256 = !DILocalVariable(name: "n", scope: !251, file: !3, line: 45, type: !167)
!257 = !DILocation(line: 45, column: 10, scope: !251)
!258 = !DILocalVariable(name: "minus", scope: !251, file: !3, line: 46, type: !6)
!259 = !DILocation(line: 46, column: 9, scope: !251)
!260 = !DILocation(line: 46, column: 18, scope: !251)
!261 = !DILocation(line: 46, column: 17, scope: !251)
!262 = !DILocation(line: 46, column: 20, scope: !251)
!263 = !DILocation(line: 47, column: 15, scope: !264)
!264 = distinct !DILexicalBlock(scope: !251, file: !3, line: 47, column: 5)
!265 = !DILocation(line: 47, column: 12, scope: !264)
!266 = !DILocation(line: 47, column: 10, scope: !264)
!267 = !DILocation(line: 47, column: 23, scope: !268)
!268 = distinct !DILexicalBlock(scope: !264, file: !3, line: 47, column: 5)
!269 = !DILocation(line: 47, column: 22, scope: !268)
!270 = !DILocation(line: 47, column: 25, scope: !268)
!271 = !DILocation(line: 47, column: 32, scope: !268)
!272 = !DILocation(line: 47, column: 36, scope: !268)
!273 = !DILocation(line: 47, column: 35, scope: !268)
!274 = !DILocation(line: 47, column: 38, scope: !268)
!275 = !DILocation(line: 0, scope: !268)
!276 = !DILocation(line: 47, column: 5, scope: !264)
!277 = !DILocation(line: 47, column: 55, scope: !268)
!278 = !DILocation(line: 47, column: 57, scope: !268)
!279 = !DILocation(line: 47, column: 66, scope: !268)
!280 = !DILocation(line: 47, column: 65, scope: !268)
!281 = !DILocation(line: 47, column: 68, scope: !268)
!282 = !DILocation(line: 47, column: 64, scope: !268)
!283 = !DILocation(line: 47, column: 62, scope: !268)
!284 = !DILocation(line: 47, column: 53, scope: !268)
!285 = !DILocation(line: 47, column: 51, scope: !268)
!286 = !DILocation(line: 47, column: 47, scope: !268)
!287 = !DILocation(line: 47, column: 5, scope: !268)
!288 = distinct !{!288, !276, !289, !82}
!289 = !DILocation(line: 47, column: 73, scope: !264)
!290 = !DILocation(line: 48, column: 12, scope: !251)
!291 = !DILocation(line: 48, column: 21, scope: !251)
!292 = !DILocation(line: 48, column: 20, scope: !251)
!293 = !DILocation(line: 48, column: 25, scope: !251)
!294 = !DILocation(line: 48, column: 5, scope: !251)
!295 = distinct !DISubprogram(name: "compared", scope: !3, file: !3, line: 51, type: !296, scopeLine: 51, flags: DIFlagPrototyped, spFlags: DISPFlagDefinition, unit: !2, retainedNodes: !61)
!296 = !DISubroutineType(types: !297)
!297 = !{!6, !6, !6}
!298 = !DILocalVariable(name: "i", arg: 1, scope: !295, file: !3, line: 51, type: !6)
!299 = !DILocation(line: 51, column: 18, scope: !295)
!300 = !DILocalVariable(name: "j", arg: 2, scope: !295, file: !3, line: 51, type: !6)
!301 = !DILocation(line: 51, column: 25, scope: !295)
!302 = !DILocalVariable(name: "a", scope: !295, file: !3, line: 52, type: !43)
!303 = !DILocation(line: 52, column: 17, scope: !295)
!304 = !DILocation(line: 52, column: 27, scope: !295)
!305 = !DILocation(line: 52, column: 29, scope: !295)
!306 = !DILocation(line: 52, column: 21, scope: !295)
!307 = !DILocalVariable(name: "b", scope: !295, file: !3, line: 52, type: !43)
!308 = !DILocation(line: 52, column: 36, scope: !295)
!309 = !DILocation(line: 52, column: 46, scope: !295)
!310 = !DILocation(line: 52, column: 48, scope: !295)
!311 = !DILocation(line: 52, column: 40, scope: !295)
!312 = !DILocation(line: 53, column: 5, scope: !295)
!313 = !DILocation(line: 53, column: 13, scope: !295)
!314 = !DILocation(line: 53, column: 12, scope: !295)
!315 = !DILocation(line: 53, column: 15, scope: !295)
!316 = !DILocation(line: 53, column: 19, scope: !295)
!317 = !DILocation(line: 53, column: 18, scope: !295)
!318 = !DILocation(line: 53, column: 25, scope: !295)
!319 = !DILocation(line: 53, column: 24, scope: !295)
!320 = !DILocation(line: 53, column: 21, scope: !295)
!321 = !DILocation(line: 0, scope: !295)
!322 = !DILocation(line: 53, column: 29, scope: !295)
!323 = !DILocation(line: 53, column: 34, scope: !295)
!324 = distinct !{!324, !312, !323, !82}
!325 = !DILocation(line: 54, column: 28, scope: !295)
!326 = !DILocation(line: 54, column: 27, scope: !295)
!327 = !DILocation(line: 54, column: 12, scope: !295)
!328 = !DILocation(line: 54, column: 48, scope: !295)
!329 = !DILocation(line: 54, column: 47, scope: !295)
!330 = !DILocation(line: 54, column: 32, scope: !295)
!331 = !DILocation(line: 54, column: 30, scope: !295)
!332 = !DILocation(line: 54, column: 5, scope: !295)
