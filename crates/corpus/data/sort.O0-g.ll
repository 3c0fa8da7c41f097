; ModuleID = 'sort.c'
source_filename = "sort.c"
target datalayout = "e-m:e-p:64:64-i64:64-i128:128-n32:64-S128"
target triple = "riscv64-unknown-linux-gnu"

@xs = internal global [64 x i32] zeroinitializer, align 4, !dbg !0
@seed = internal global i32 0, align 4, !dbg !8
@ys = internal global [64 x i32] zeroinitializer, align 4, !dbg !11

; Function Attrs: noinline nounwind optnone
define dso_local i64 @insertion(i32 noundef signext %0, i32 noundef signext %1) #0 !dbg !27 {
  %3 = alloca i32, align 4
  %4 = alloca i32, align 4
  %5 = alloca i32, align 4
  %6 = alloca i32, align 4
  %7 = alloca i32, align 4
  store i32 %0, ptr %3, align 4
    #dbg_declare(ptr %3, !31, !DIExpression(), !32)
  store i32 %1, ptr %4, align 4
    #dbg_declare(ptr %4, !33, !DIExpression(), !34)
  %8 = load i32, ptr %3, align 4, !dbg !35
  %9 = load i32, ptr %4, align 4, !dbg !36
  call void @fill(i32 noundef signext %8, i32 noundef signext %9) #2, !dbg !37
    #dbg_declare(ptr %5, !38, !DIExpression(), !40)
  store i32 1, ptr %5, align 4, !dbg !40
  br label %10, !dbg !41

10:                                               ; preds = %51, %2
  %11 = load i32, ptr %5, align 4, !dbg !42
  %12 = load i32, ptr %3, align 4, !dbg !44
  %13 = icmp slt i32 %11, %12, !dbg !45
  br i1 %13, label %14, label %54, !dbg !46

14:                                               ; preds = %10
    #dbg_declare(ptr %6, !47, !DIExpression(), !49)
  %15 = load i32, ptr %5, align 4, !dbg !50
  %16 = sext i32 %15 to i64, !dbg !51
  %17 = getelementptr inbounds [64 x i32], ptr @xs, i64 0, i64 %16, !dbg !51
  %18 = load i32, ptr %17, align 4, !dbg !51
  store i32 %18, ptr %6, align 4, !dbg !49
    #dbg_declare(ptr %7, !52, !DIExpression(), !53)
  %19 = load i32, ptr %5, align 4, !dbg !54
  %20 = sub nsw i32 %19, 1, !dbg !55
  store i32 %20, ptr %7, align 4, !dbg !53
  br label %21, !dbg !56

21:                                               ; preds = %42, %14
  %22 = load i32, ptr %7, align 4, !dbg !57
  %23 = icmp sge i32 %22, 0, !dbg !60
  br i1 %23, label %24, label %31, !dbg !61

24:                                               ; preds = %21
  %25 = load i32, ptr %7, align 4, !dbg !62
  %26 = sext i32 %25 to i64, !dbg !63
  %27 = getelementptr inbounds [64 x i32], ptr @xs, i64 0, i64 %26, !dbg !63
  %28 = load i32, ptr %27, align 4, !dbg !63
  %29 = load i32, ptr %6, align 4, !dbg !64
  %30 = icmp sgt i32 %28, %29, !dbg !65
  br label %31

31:                                               ; preds = %24, %21
  %32 = phi i1 [ false, %21 ], [ %30, %24 ], !dbg !66
  br i1 %32, label %33, label %45, !dbg !67

33:                                               ; preds = %31
  %34 = load i32, ptr %7, align 4, !dbg !68
  %35 = sext i32 %34 to i64, !dbg !69
  %36 = getelementptr inbounds [64 x i32], ptr @xs, i64 0, i64 %35, !dbg !69
  %37 = load i32, ptr %36, align 4, !dbg !69
  %38 = load i32, ptr %7, align 4, !dbg !70
  %39 = add nsw i32 %38, 1, !dbg !71
  %40 = sext i32 %39 to i64, !dbg !72
  %41 = getelementptr inbounds [64 x i32], ptr @xs, i64 0, i64 %40, !dbg !72
  store i32 %37, ptr %41, align 4, !dbg !73
  br label %42, !dbg !72

42:                                               ; preds = %33
  %43 = load i32, ptr %7, align 4, !dbg !74
  %44 = add nsw i32 %43, -1, !dbg !74
  store i32 %44, ptr %7, align 4, !dbg !74
  br label %21, !dbg !75, !llvm.loop !76

45:                                               ; preds = %31
  %46 = load i32, ptr %6, align 4, !dbg !79
  %47 = load i32, ptr %7, align 4, !dbg !80
  %48 = add nsw i32 %47, 1, !dbg !81
  %49 = sext i32 %48 to i64, !dbg !82
  %50 = getelementptr inbounds [64 x i32], ptr @xs, i64 0, i64 %49, !dbg !82
  store i32 %46, ptr %50, align 4, !dbg !83
  br label %51, !dbg !84

51:                                               ; preds = %45
  %52 = load i32, ptr %5, align 4, !dbg !85
  %53 = add nsw i32 %52, 1, !dbg !85
  store i32 %53, ptr %5, align 4, !dbg !85
  br label %10, !dbg !86, !llvm.loop !87

54:                                               ; preds = %10
  %55 = load i32, ptr %3, align 4, !dbg !89
  %56 = call i64 @shown(i32 noundef signext %55) #2, !dbg !90
  ret i64 %56, !dbg !91
}

; Function Attrs: noinline nounwind optnone
define internal void @fill(i32 noundef signext %0, i32 noundef signext %1) #0 !dbg !92 {
  %3 = alloca i32, align 4
  %4 = alloca i32, align 4
  %5 = alloca i32, align 4
  store i32 %0, ptr %3, align 4
    #dbg_declare(ptr %3, !95, !DIExpression(), !96)
  store i32 %1, ptr %4, align 4
    #dbg_declare(ptr %4, !97, !DIExpression(), !98)
  %6 = load i32, ptr %4, align 4, !dbg !99
  store i32 %6, ptr @seed, align 4, !dbg !100
    #dbg_declare(ptr %5, !101, !DIExpression(), !103)
  store i32 0, ptr %5, align 4, !dbg !103
  br label %7, !dbg !104

7:                                                ; preds = %22, %2
  %8 = load i32, ptr %5, align 4, !dbg !105
  %9 = load i32, ptr %3, align 4, !dbg !107
  %10 = icmp slt i32 %8, %9, !dbg !108
  br i1 %10, label %11, label %25, !dbg !109

11:                                               ; preds = %7
  %12 = load i32, ptr @seed, align 4, !dbg !110
  %13 = mul i32 %12, 1103515245, !dbg !112
  %14 = add i32 %13, 12345, !dbg !113
  store i32 %14, ptr @seed, align 4, !dbg !114
  %15 = load i32, ptr @seed, align 4, !dbg !115
  %16 = lshr i32 %15, 16, !dbg !116
  %17 = srem i32 %16, 1000, !dbg !117
  %18 = sub nsw i32 %17, 500, !dbg !118
  %19 = load i32, ptr %5, align 4, !dbg !119
  %20 = sext i32 %19 to i64, !dbg !120
  %21 = getelementptr inbounds [64 x i32], ptr @xs, i64 0, i64 %20, !dbg !120
  store i32 %18, ptr %21, align 4, !dbg !121
  br label %22, !dbg !122

22:                                               ; preds = %11
  %23 = load i32, ptr %5, align 4, !dbg !123
  %24 = add nsw i32 %23, 1, !dbg !123
  store i32 %24, ptr %5, align 4, !dbg !123
  br label %7, !dbg !124, !llvm.loop !125

25:                                               ; preds = %7
  ret void, !dbg !127
}

; Function Attrs: noinline nounwind optnone
define internal i64 @shown(i32 noundef signext %0) #0 !dbg !128 {
  %2 = alloca i32, align 4
  %3 = alloca i64, align 8
  %4 = alloca i32, align 4
  store i32 %0, ptr %2, align 4
    #dbg_declare(ptr %2, !131, !DIExpression(), !132)
    #dbg_declare(ptr %3, !133, !DIExpression(), !134)
  store i64 0, ptr %3, align 8, !dbg !134
    #dbg_declare(ptr %4, !135, !DIExpression(), !137)
  store i32 0, ptr %4, align 4, !dbg !137
  br label %5, !dbg !138

5:                                                ; preds = %37, %1
  %6 = load i32, ptr %4, align 4, !dbg !139
  %7 = load i32, ptr %2, align 4, !dbg !141
  %8 = icmp slt i32 %6, %7, !dbg !142
  br i1 %8, label %9, label %40, !dbg !143

9:                                                ; preds = %5
  %10 = load i64, ptr %3, align 8, !dbg !144
  %11 = mul i64 %10, 31, !dbg !145
  %12 = load i32, ptr %4, align 4, !dbg !146
  %13 = sext i32 %12 to i64, !dbg !147
  %14 = getelementptr inbounds [64 x i32], ptr @xs, i64 0, i64 %13, !dbg !147
  %15 = load i32, ptr %14, align 4, !dbg !147
  %16 = sext i32 %15 to i64, !dbg !148
  %17 = add i64 %11, %16, !dbg !149
  %18 = load i32, ptr %4, align 4, !dbg !150
  %19 = icmp ne i32 %18, 0, !dbg !150
  br i1 %19, label %20, label %31, !dbg !151

20:                                               ; preds = %9
  %21 = load i32, ptr %4, align 4, !dbg !152
  %22 = sub nsw i32 %21, 1, !dbg !153
  %23 = sext i32 %22 to i64, !dbg !154
  %24 = getelementptr inbounds [64 x i32], ptr @xs, i64 0, i64 %23, !dbg !154
  %25 = load i32, ptr %24, align 4, !dbg !154
  %26 = load i32, ptr %4, align 4, !dbg !155
  %27 = sext i32 %26 to i64, !dbg !156
  %28 = getelementptr inbounds [64 x i32], ptr @xs, i64 0, i64 %27, !dbg !156
  %29 = load i32, ptr %28, align 4, !dbg !156
  %30 = icmp sgt i32 %25, %29, !dbg !157
  br label %31

31:                                               ; preds = %20, %9
  %32 = phi i1 [ false, %9 ], [ %30, %20 ], !dbg !158
  %33 = zext i1 %32 to i64, !dbg !150
  %34 = select i1 %32, i32 1000000, i32 0, !dbg !150
  %35 = zext i32 %34 to i64, !dbg !159
  %36 = add i64 %17, %35, !dbg !160
  store i64 %36, ptr %3, align 8, !dbg !161
  br label %37, !dbg !162

37:                                               ; preds = %31
  %38 = load i32, ptr %4, align 4, !dbg !163
  %39 = add nsw i32 %38, 1, !dbg !163
  store i32 %39, ptr %4, align 4, !dbg !163
  br label %5, !dbg !164, !llvm.loop !165

40:                                               ; preds = %5
  %41 = load i64, ptr %3, align 8, !dbg !167
  ret i64 %41, !dbg !168
}

; Function Attrs: noinline nounwind optnone
define dso_local i64 @quicksort(i32 noundef signext %0, i32 noundef signext %1) #0 !dbg !169 {
  %3 = alloca i32, align 4
  %4 = alloca i32, align 4
  store i32 %0, ptr %3, align 4
    #dbg_declare(ptr %3, !170, !DIExpression(), !171)
  store i32 %1, ptr %4, align 4
    #dbg_declare(ptr %4, !172, !DIExpression(), !173)
  %5 = load i32, ptr %3, align 4, !dbg !174
  %6 = load i32, ptr %4, align 4, !dbg !175
  call void @fill(i32 noundef signext %5, i32 noundef signext %6) #2, !dbg !176
  %7 = load i32, ptr %3, align 4, !dbg !177
  %8 = sub nsw i32 %7, 1, !dbg !178
  call void @quick(i32 noundef signext 0, i32 noundef signext %8) #2, !dbg !179
  %9 = load i32, ptr %3, align 4, !dbg !180
  %10 = call i64 @shown(i32 noundef signext %9) #2, !dbg !181
  ret i64 %10, !dbg !182
}

; Function Attrs: noinline nounwind optnone
define internal void @quick(i32 noundef signext %0, i32 noundef signext %1) #0 !dbg !183 {
  %3 = alloca i32, align 4
  %4 = alloca i32, align 4
  %5 = alloca i32, align 4
  %6 = alloca i32, align 4
  %7 = alloca i32, align 4
  store i32 %0, ptr %3, align 4
    #dbg_declare(ptr %3, !186, !DIExpression(), !187)
  store i32 %1, ptr %4, align 4
    #dbg_declare(ptr %4, !188, !DIExpression(), !189)
  %8 = load i32, ptr %3, align 4, !dbg !190
  %9 = load i32, ptr %4, align 4, !dbg !192
  %10 = icmp sge i32 %8, %9, !dbg !193
  br i1 %10, label %11, label %12, !dbg !194

11:                                               ; preds = %2
  br label %67, !dbg !195

12:                                               ; preds = %2
    #dbg_declare(ptr %5, !196, !DIExpression(), !197)
  %13 = load i32, ptr %3, align 4, !dbg !198
  %14 = load i32, ptr %4, align 4, !dbg !199
  %15 = add nsw i32 %13, %14, !dbg !200
  %16 = sdiv i32 %15, 2, !dbg !201
  %17 = sext i32 %16 to i64, !dbg !202
  %18 = getelementptr inbounds [64 x i32], ptr @xs, i64 0, i64 %17, !dbg !202
  %19 = load i32, ptr %18, align 4, !dbg !202
  store i32 %19, ptr %5, align 4, !dbg !197
    #dbg_declare(ptr %6, !203, !DIExpression(), !204)
  %20 = load i32, ptr %3, align 4, !dbg !205
  store i32 %20, ptr %6, align 4, !dbg !204
    #dbg_declare(ptr %7, !206, !DIExpression(), !207)
  %21 = load i32, ptr %4, align 4, !dbg !208
  store i32 %21, ptr %7, align 4, !dbg !207
  br label %22, !dbg !209

22:                                               ; preds = %61, %12
  %23 = load i32, ptr %6, align 4, !dbg !210
  %24 = load i32, ptr %7, align 4, !dbg !211
  %25 = icmp sle i32 %23, %24, !dbg !212
  br i1 %25, label %26, label %62, !dbg !209

26:                                               ; preds = %22
  br label %27, !dbg !213

27:                                               ; preds = %34, %26
  %28 = load i32, ptr %6, align 4, !dbg !215
  %29 = sext i32 %28 to i64, !dbg !216
  %30 = getelementptr inbounds [64 x i32], ptr @xs, i64 0, i64 %29, !dbg !216
  %31 = load i32, ptr %30, align 4, !dbg !216
  %32 = load i32, ptr %5, align 4, !dbg !217
  %33 = icmp slt i32 %31, %32, !dbg !218
  br i1 %33, label %34, label %37, !dbg !213

34:                                               ; preds = %27
  %35 = load i32, ptr %6, align 4, !dbg !219
  %36 = add nsw i32 %35, 1, !dbg !219
  store i32 %36, ptr %6, align 4, !dbg !219
  br label %27, !dbg !213, !llvm.loop !220

37:                                               ; preds = %27
  br label %38, !dbg !221

38:                                               ; preds = %45, %37
  %39 = load i32, ptr %7, align 4, !dbg !222
  %40 = sext i32 %39 to i64, !dbg !223
  %41 = getelementptr inbounds [64 x i32], ptr @xs, i64 0, i64 %40, !dbg !223
  %42 = load i32, ptr %41, align 4, !dbg !223
  %43 = load i32, ptr %5, align 4, !dbg !224
  %44 = icmp sgt i32 %42, %43, !dbg !225
  br i1 %44, label %45, label %48, !dbg !221

45:                                               ; preds = %38
  %46 = load i32, ptr %7, align 4, !dbg !226
  %47 = add nsw i32 %46, -1, !dbg !226
  store i32 %47, ptr %7, align 4, !dbg !226
  br label %38, !dbg !221, !llvm.loop !227

48:                                               ; preds = %38
  %49 = load i32, ptr %6, align 4, !dbg !228
  %50 = load i32, ptr %7, align 4, !dbg !230
  %51 = icmp sle i32 %49, %50, !dbg !231
  br i1 %51, label %52, label %61, !dbg !232

52:                                               ; preds = %48
  %53 = load i32, ptr %6, align 4, !dbg !233
  %54 = add nsw i32 %53, 1, !dbg !233
  store i32 %54, ptr %6, align 4, !dbg !233
  %55 = sext i32 %53 to i64, !dbg !234
  %56 = getelementptr inbounds [64 x i32], ptr @xs, i64 0, i64 %55, !dbg !234
  %57 = load i32, ptr %7, align 4, !dbg !235
  %58 = add nsw i32 %57, -1, !dbg !235
  store i32 %58, ptr %7, align 4, !dbg !235
  %59 = sext i32 %57 to i64, !dbg !236
  %60 = getelementptr inbounds [64 x i32], ptr @xs, i64 0, i64 %59, !dbg !236
  call void @swap(ptr noundef %56, ptr noundef %60) #2, !dbg !237
  br label %61, !dbg !237

61:                                               ; preds = %52, %48
  br label %22, !dbg !209, !llvm.loop !238

62:                                               ; preds = %22
  %63 = load i32, ptr %3, align 4, !dbg !240
  %64 = load i32, ptr %7, align 4, !dbg !241
  call void @quick(i32 noundef signext %63, i32 noundef signext %64) #2, !dbg !242
  %65 = load i32, ptr %6, align 4, !dbg !243
  %66 = load i32, ptr %4, align 4, !dbg !244
  call void @quick(i32 noundef signext %65, i32 noundef signext %66) #2, !dbg !245
  br label %67, !dbg !246

67:                                               ; preds = %62, %11
  ret void, !dbg !246
}

; Function Attrs: noinline nounwind optnone
define dso_local i64 @heapsort(i32 noundef signext %0, i32 noundef signext %1) #0 !dbg !247 {
  %3 = alloca i32, align 4
  %4 = alloca i32, align 4
  %5 = alloca i32, align 4
  %6 = alloca i32, align 4
  store i32 %0, ptr %3, align 4
    #dbg_declare(ptr %3, !248, !DIExpression(), !249)
  store i32 %1, ptr %4, align 4
    #dbg_declare(ptr %4, !250, !DIExpression(), !251)
  %7 = load i32, ptr %3, align 4, !dbg !252
  %8 = load i32, ptr %4, align 4, !dbg !253
  call void @fill(i32 noundef signext %7, i32 noundef signext %8) #2, !dbg !254
    #dbg_declare(ptr %5, !255, !DIExpression(), !257)
  %9 = load i32, ptr %3, align 4, !dbg !258
  %10 = sdiv i32 %9, 2, !dbg !259
  %11 = sub nsw i32 %10, 1, !dbg !260
  store i32 %11, ptr %5, align 4, !dbg !257
  br label %12, !dbg !261

12:                                               ; preds = %18, %2
  %13 = load i32, ptr %5, align 4, !dbg !262
  %14 = icmp sge i32 %13, 0, !dbg !264
  br i1 %14, label %15, label %21, !dbg !265

15:                                               ; preds = %12
  %16 = load i32, ptr %5, align 4, !dbg !266
  %17 = load i32, ptr %3, align 4, !dbg !267
  call void @sift(i32 noundef signext %16, i32 noundef signext %17) #2, !dbg !268
  br label %18, !dbg !268

18:                                               ; preds = %15
  %19 = load i32, ptr %5, align 4, !dbg !269
  %20 = add nsw i32 %19, -1, !dbg !269
  store i32 %20, ptr %5, align 4, !dbg !269
  br label %12, !dbg !270, !llvm.loop !271

21:                                               ; preds = %12
    #dbg_declare(ptr %6, !273, !DIExpression(), !275)
  %22 = load i32, ptr %3, align 4, !dbg !276
  %23 = sub nsw i32 %22, 1, !dbg !277
  store i32 %23, ptr %6, align 4, !dbg !275
  br label %24, !dbg !278

24:                                               ; preds = %32, %21
  %25 = load i32, ptr %6, align 4, !dbg !279
  %26 = icmp sgt i32 %25, 0, !dbg !281
  br i1 %26, label %27, label %35, !dbg !282

27:                                               ; preds = %24
  %28 = load i32, ptr %6, align 4, !dbg !283
  %29 = sext i32 %28 to i64, !dbg !285
  %30 = getelementptr inbounds [64 x i32], ptr @xs, i64 0, i64 %29, !dbg !285
  call void @swap(ptr noundef @xs, ptr noundef %30) #2, !dbg !286
  %31 = load i32, ptr %6, align 4, !dbg !287
  call void @sift(i32 noundef signext 0, i32 noundef signext %31) #2, !dbg !288
  br label %32, !dbg !289

32:                                               ; preds = %27
  %33 = load i32, ptr %6, align 4, !dbg !290
  %34 = add nsw i32 %33, -1, !dbg !290
  store i32 %34, ptr %6, align 4, !dbg !290
  br label %24, !dbg !291, !llvm.loop !292

35:                                               ; preds = %24
  %36 = load i32, ptr %3, align 4, !dbg !294
  %37 = call i64 @shown(i32 noundef signext %36) #2, !dbg !295
  ret i64 %37, !dbg !296
}

; Function Attrs: noinline nounwind optnone
define internal void @sift(i32 noundef signext %0, i32 noundef signext %1) #0 !dbg !297 {
  %3 = alloca i32, align 4
  %4 = alloca i32, align 4
  %5 = alloca i32, align 4
  store i32 %0, ptr %3, align 4
    #dbg_declare(ptr %3, !298, !DIExpression(), !299)
  store i32 %1, ptr %4, align 4
    #dbg_declare(ptr %4, !300, !DIExpression(), !301)
  br label %6, !dbg !302

6:                                                ; preds = %44, %2
    #dbg_declare(ptr %5, !303, !DIExpression(), !307)
  %7 = load i32, ptr %3, align 4, !dbg !308
  %8 = mul nsw i32 2, %7, !dbg !309
  %9 = add nsw i32 %8, 1, !dbg !310
  store i32 %9, ptr %5, align 4, !dbg !307
  %10 = load i32, ptr %5, align 4, !dbg !311
  %11 = load i32, ptr %4, align 4, !dbg !313
  %12 = icmp sge i32 %10, %11, !dbg !314
  br i1 %12, label %13, label %14, !dbg !315

13:                                               ; preds = %6
  br label %52, !dbg !316

14:                                               ; preds = %6
  %15 = load i32, ptr %5, align 4, !dbg !317
  %16 = add nsw i32 %15, 1, !dbg !319
  %17 = load i32, ptr %4, align 4, !dbg !320
  %18 = icmp slt i32 %16, %17, !dbg !321
  br i1 %18, label %19, label %33, !dbg !322

19:                                               ; preds = %14
  %20 = load i32, ptr %5, align 4, !dbg !323
  %21 = sext i32 %20 to i64, !dbg !324
  %22 = getelementptr inbounds [64 x i32], ptr @xs, i64 0, i64 %21, !dbg !324
  %23 = load i32, ptr %22, align 4, !dbg !324
  %24 = load i32, ptr %5, align 4, !dbg !325
  %25 = add nsw i32 %24, 1, !dbg !326
  %26 = sext i32 %25 to i64, !dbg !327
  %27 = getelementptr inbounds [64 x i32], ptr @xs, i64 0, i64 %26, !dbg !327
  %28 = load i32, ptr %27, align 4, !dbg !327
  %29 = icmp slt i32 %23, %28, !dbg !328
  br i1 %29, label %30, label %33, !dbg !329

30:                                               ; preds = %19
  %31 = load i32, ptr %5, align 4, !dbg !330
  %32 = add nsw i32 %31, 1, !dbg !330
  store i32 %32, ptr %5, align 4, !dbg !330
  br label %33, !dbg !331

33:                                               ; preds = %30, %19, %14
  %34 = load i32, ptr %3, align 4, !dbg !332
  %35 = sext i32 %34 to i64, !dbg !334
  %36 = getelementptr inbounds [64 x i32], ptr @xs, i64 0, i64 %35, !dbg !334
  %37 = load i32, ptr %36, align 4, !dbg !334
  %38 = load i32, ptr %5, align 4, !dbg !335
  %39 = sext i32 %38 to i64, !dbg !336
  %40 = getelementptr inbounds [64 x i32], ptr @xs, i64 0, i64 %39, !dbg !336
  %41 = load i32, ptr %40, align 4, !dbg !336
  %42 = icmp sge i32 %37, %41, !dbg !337
  br i1 %42, label %43, label %44, !dbg !338

43:                                               ; preds = %33
  br label %52, !dbg !339

44:                                               ; preds = %33
  %45 = load i32, ptr %3, align 4, !dbg !340
  %46 = sext i32 %45 to i64, !dbg !341
  %47 = getelementptr inbounds [64 x i32], ptr @xs, i64 0, i64 %46, !dbg !341
  %48 = load i32, ptr %5, align 4, !dbg !342
  %49 = sext i32 %48 to i64, !dbg !343
  %50 = getelementptr inbounds [64 x i32], ptr @xs, i64 0, i64 %49, !dbg !343
  call void @swap(ptr noundef %47, ptr noundef %50) #2, !dbg !344
  %51 = load i32, ptr %5, align 4, !dbg !345
  store i32 %51, ptr %3, align 4, !dbg !346
  br label %6, !dbg !347, !llvm.loop !348

52:                                               ; preds = %43, %13
  ret void, !dbg !351
}

; Function Attrs: noinline nounwind optnone
define internal void @swap(ptr noundef %0, ptr noundef %1) #0 !dbg !352 {
  %3 = alloca ptr, align 8
  %4 = alloca ptr, align 8
  %5 = alloca i32, align 4
  store ptr %0, ptr %3, align 8
    #dbg_declare(ptr %3, !356, !DIExpression(), !357)
  store ptr %1, ptr %4, align 8
    #dbg_declare(ptr %4, !358, !DIExpression(), !359)
    #dbg_declare(ptr %5, !360, !DIExpression(), !361)
  %6 = load ptr, ptr %3, align 8, !dbg !362
  %7 = load i32, ptr %6, align 4, !dbg !363
  store i32 %7, ptr %5, align 4, !dbg !361
  %8 = load ptr, ptr %4, align 8, !dbg !364
  %9 = load i32, ptr %8, align 4, !dbg !365
  %10 = load ptr, ptr %3, align 8, !dbg !366
  store i32 %9, ptr %10, align 4, !dbg !367
  %11 = load i32, ptr %5, align 4, !dbg !368
  %12 = load ptr, ptr %4, align 8, !dbg !369
  store i32 %11, ptr %12, align 4, !dbg !370
  ret void, !dbg !371
}

; Function Attrs: noinline nounwind optnone
define dso_local i64 @mergesort(i32 noundef signext %0, i32 noundef signext %1) #0 !dbg !372 {
  %3 = alloca i32, align 4
  %4 = alloca i32, align 4
  store i32 %0, ptr %3, align 4
    #dbg_declare(ptr %3, !373, !DIExpression(), !374)
  store i32 %1, ptr %4, align 4
    #dbg_declare(ptr %4, !375, !DIExpression(), !376)
  %5 = load i32, ptr %3, align 4, !dbg !377
  %6 = load i32, ptr %4, align 4, !dbg !378
  call void @fill(i32 noundef signext %5, i32 noundef signext %6) #2, !dbg !379
  %7 = load i32, ptr %3, align 4, !dbg !380
  call void @merge(i32 noundef signext 0, i32 noundef signext %7) #2, !dbg !381
  %8 = load i32, ptr %3, align 4, !dbg !382
  %9 = call i64 @shown(i32 noundef signext %8) #2, !dbg !383
  ret i64 %9, !dbg !384
}

; Function Attrs: noinline nounwind optnone
define internal void @merge(i32 noundef signext %0, i32 noundef signext %1) #0 !dbg !385 {
  %3 = alloca i32, align 4
  %4 = alloca i32, align 4
  %5 = alloca i32, align 4
  %6 = alloca i32, align 4
  %7 = alloca i32, align 4
  %8 = alloca i32, align 4
  store i32 %0, ptr %3, align 4
    #dbg_declare(ptr %3, !386, !DIExpression(), !387)
  store i32 %1, ptr %4, align 4
    #dbg_declare(ptr %4, !388, !DIExpression(), !389)
  %9 = load i32, ptr %4, align 4, !dbg !390
  %10 = load i32, ptr %3, align 4, !dbg !392
  %11 = sub nsw i32 %9, %10, !dbg !393
  %12 = icmp slt i32 %11, 2, !dbg !394
  br i1 %12, label %13, label %14, !dbg !395

13:                                               ; preds = %2
  br label %82, !dbg !396

14:                                               ; preds = %2
    #dbg_declare(ptr %5, !397, !DIExpression(), !398)
  %15 = load i32, ptr %3, align 4, !dbg !399
  %16 = load i32, ptr %4, align 4, !dbg !400
  %17 = load i32, ptr %3, align 4, !dbg !401
  %18 = sub nsw i32 %16, %17, !dbg !402
  %19 = sdiv i32 %18, 2, !dbg !403
  %20 = add nsw i32 %15, %19, !dbg !404
  store i32 %20, ptr %5, align 4, !dbg !398
    #dbg_declare(ptr %6, !405, !DIExpression(), !406)
  %21 = load i32, ptr %3, align 4, !dbg !407
  store i32 %21, ptr %6, align 4, !dbg !406
    #dbg_declare(ptr %7, !408, !DIExpression(), !409)
  %22 = load i32, ptr %5, align 4, !dbg !410
  store i32 %22, ptr %7, align 4, !dbg !409
  %23 = load i32, ptr %3, align 4, !dbg !411
  %24 = load i32, ptr %5, align 4, !dbg !412
  call void @merge(i32 noundef signext %23, i32 noundef signext %24) #2, !dbg !413
  %25 = load i32, ptr %5, align 4, !dbg !414
  %26 = load i32, ptr %4, align 4, !dbg !415
  call void @merge(i32 noundef signext %25, i32 noundef signext %26) #2, !dbg !416
    #dbg_declare(ptr %8, !417, !DIExpression(), !419)
  %27 = load i32, ptr %3, align 4, !dbg !420
  store i32 %27, ptr %8, align 4, !dbg !419
  br label %28, !dbg !421

28:                                               ; preds = %67, %14
  %29 = load i32, ptr %8, align 4, !dbg !422
  %30 = load i32, ptr %4, align 4, !dbg !424
  %31 = icmp slt i32 %29, %30, !dbg !425
  br i1 %31, label %32, label %70, !dbg !426

32:                                               ; preds = %28
  %33 = load i32, ptr %7, align 4, !dbg !427
  %34 = load i32, ptr %4, align 4, !dbg !428
  %35 = icmp sge i32 %33, %34, !dbg !429
  br i1 %35, label %50, label %36, !dbg !430

36:                                               ; preds = %32
  %37 = load i32, ptr %6, align 4, !dbg !431
  %38 = load i32, ptr %5, align 4, !dbg !432
  %39 = icmp slt i32 %37, %38, !dbg !433
  br i1 %39, label %40, label %56, !dbg !434

40:                                               ; preds = %36
  %41 = load i32, ptr %6, align 4, !dbg !435
  %42 = sext i32 %41 to i64, !dbg !436
  %43 = getelementptr inbounds [64 x i32], ptr @xs, i64 0, i64 %42, !dbg !436
  %44 = load i32, ptr %43, align 4, !dbg !436
  %45 = load i32, ptr %7, align 4, !dbg !437
  %46 = sext i32 %45 to i64, !dbg !438
  %47 = getelementptr inbounds [64 x i32], ptr @xs, i64 0, i64 %46, !dbg !438
  %48 = load i32, ptr %47, align 4, !dbg !438
  %49 = icmp sle i32 %44, %48, !dbg !439
  br i1 %49, label %50, label %56, !dbg !427

50:                                               ; preds = %40, %32
  %51 = load i32, ptr %6, align 4, !dbg !440
  %52 = add nsw i32 %51, 1, !dbg !440
  store i32 %52, ptr %6, align 4, !dbg !440
  %53 = sext i32 %51 to i64, !dbg !441
  %54 = getelementptr inbounds [64 x i32], ptr @xs, i64 0, i64 %53, !dbg !441
  %55 = load i32, ptr %54, align 4, !dbg !441
  br label %62, !dbg !427

56:                                               ; preds = %40, %36
  %57 = load i32, ptr %7, align 4, !dbg !442
  %58 = add nsw i32 %57, 1, !dbg !442
  store i32 %58, ptr %7, align 4, !dbg !442
  %59 = sext i32 %57 to i64, !dbg !443
  %60 = getelementptr inbounds [64 x i32], ptr @xs, i64 0, i64 %59, !dbg !443
  %61 = load i32, ptr %60, align 4, !dbg !443
  br label %62, !dbg !427

62:                                               ; preds = %56, %50
  %63 = phi i32 [ %55, %50 ], [ %61, %56 ], !dbg !427
  %64 = load i32, ptr %8, align 4, !dbg !444
  %65 = sext i32 %64 to i64, !dbg !445
  %66 = getelementptr inbounds [64 x i32], ptr @ys, i64 0, i64 %65, !dbg !445
  store i32 %63, ptr %66, align 4, !dbg !446
  br label %67, !dbg !445

67:                                               ; preds = %62
  %68 = load i32, ptr %8, align 4, !dbg !447
  %69 = add nsw i32 %68, 1, !dbg !447
  store i32 %69, ptr %8, align 4, !dbg !447
  br label %28, !dbg !448, !llvm.loop !449

70:                                               ; preds = %28
  %71 = load i32, ptr %3, align 4, !dbg !451
  %72 = sext i32 %71 to i64, !dbg !452
  %73 = getelementptr inbounds [64 x i32], ptr @xs, i64 0, i64 %72, !dbg !452
  %74 = load i32, ptr %3, align 4, !dbg !453
  %75 = sext i32 %74 to i64, !dbg !454
  %76 = getelementptr inbounds [64 x i32], ptr @ys, i64 0, i64 %75, !dbg !454
  %77 = load i32, ptr %4, align 4, !dbg !455
  %78 = load i32, ptr %3, align 4, !dbg !456
  %79 = sub nsw i32 %77, %78, !dbg !457
  %80 = sext i32 %79 to i64, !dbg !458
  %81 = mul i64 %80, 4, !dbg !459
  call void @llvm.memcpy.p0.p0.i64(ptr align 4 %73, ptr align 4 %76, i64 %81, i1 false), !dbg !460
  br label %82, !dbg !461

82:                                               ; preds = %70, %13
  ret void, !dbg !461
}

; Function Attrs: nocallback nofree nounwind willreturn memory(argmem: readwrite)
declare void @llvm.memcpy.p0.p0.i64(ptr noalias nocapture writeonly, ptr noalias nocapture readonly, i64, i1 immarg) #1

attributes #0 = { noinline nounwind optnone "frame-pointer"="all" "no-builtins" "no-trapping-math"="true" "stack-protector-buffer-size"="8" "target-cpu"="generic-rv64" "target-features"="+64bit,+m,+relax,+zmmul,-a,-b,-c,-d,-e,-experimental-smmpm,-experimental-smnpm,-experimental-ssnpm,-experimental-sspm,-experimental-ssqosid,-experimental-supm,-experimental-zacas,-experimental-zalasr,-experimental-zicfilp,-experimental-zicfiss,-f,-h,-shcounterenw,-shgatpa,-shtvala,-shvsatpa,-shvstvala,-shvstvecd,-smaia,-smcdeleg,-smcsrind,-smepmp,-smstateen,-ssaia,-ssccfg,-ssccptr,-sscofpmf,-sscounterenw,-sscsrind,-ssstateen,-ssstrict,-sstc,-sstvala,-sstvecd,-ssu64xl,-svade,-svadu,-svbare,-svinval,-svnapot,-svpbmt,-v,-xcvalu,-xcvbi,-xcvbitmanip,-xcvelw,-xcvmac,-xcvmem,-xcvsimd,-xsfcease,-xsfvcp,-xsfvfnrclipxfqf,-xsfvfwmaccqqq,-xsfvqmaccdod,-xsfvqmaccqoq,-xsifivecdiscarddlone,-xsifivecflushdlone,-xtheadba,-xtheadbb,-xtheadbs,-xtheadcmo,-xtheadcondmov,-xtheadfmemidx,-xtheadmac,-xtheadmemidx,-xtheadmempair,-xtheadsync,-xtheadvdot,-xventanacondops,-xwchc,-za128rs,-za64rs,-zaamo,-zabha,-zalrsc,-zama16b,-zawrs,-zba,-zbb,-zbc,-zbkb,-zbkc,-zbkx,-zbs,-zca,-zcb,-zcd,-zce,-zcf,-zcmop,-zcmp,-zcmt,-zdinx,-zfa,-zfbfmin,-zfh,-zfhmin,-zfinx,-zhinx,-zhinxmin,-zic64b,-zicbom,-zicbop,-zicboz,-ziccamoa,-ziccif,-zicclsm,-ziccrse,-zicntr,-zicond,-zicsr,-zifencei,-zihintntl,-zihintpause,-zihpm,-zimop,-zk,-zkn,-zknd,-zkne,-zknh,-zkr,-zks,-zksed,-zksh,-zkt,-ztso,-zvbb,-zvbc,-zve32f,-zve32x,-zve64d,-zve64f,-zve64x,-zvfbfmin,-zvfbfwma,-zvfh,-zvfhmin,-zvkb,-zvkg,-zvkn,-zvknc,-zvkned,-zvkng,-zvknha,-zvknhb,-zvks,-zvksc,-zvksed,-zvksg,-zvksh,-zvkt,-zvl1024b,-zvl128b,-zvl16384b,-zvl2048b,-zvl256b,-zvl32768b,-zvl32b,-zvl4096b,-zvl512b,-zvl64b,-zvl65536b,-zvl8192b" }
attributes #1 = { nocallback nofree nounwind willreturn memory(argmem: readwrite) }
attributes #2 = { nobuiltin "no-builtins" }

!llvm.dbg.cu = !{!2}
!llvm.module.flags = !{!16, !17, !18, !19, !20, !22, !23, !24, !25}
!llvm.ident = !{!26}

!0 = !DIGlobalVariableExpression(var: !1, expr: !DIExpression())
!1 = distinct !DIGlobalVariable(name: "xs", scope: !2, file: !3, line: 2, type: !13, isLocal: true, isDefinition: true)
!2 = distinct !DICompileUnit(language: DW_LANG_C11, file: !3, producer: "Debian clang version 19.1.7 (3~deb12u1)", isOptimized: false, runtimeVersion: 0, emissionKind: FullDebug, retainedTypes: !4, globals: !7, splitDebugInlining: false, nameTableKind: None)
!3 = !DIFile(filename: "sort.c", directory: ".", checksumkind: CSK_MD5, checksum: "2242dd9c970d314cb813cadfbdcaeb22")
!4 = !{!5, !6}
!5 = !DIBasicType(name: "int", size: 32, encoding: DW_ATE_signed)
!6 = !DIBasicType(name: "unsigned long", size: 64, encoding: DW_ATE_unsigned)
!7 = !{!0, !8, !11}
!8 = !DIGlobalVariableExpression(var: !9, expr: !DIExpression())
!9 = distinct !DIGlobalVariable(name: "seed", scope: !2, file: !3, line: 3, type: !10, isLocal: true, isDefinition: true)
!10 = !DIBasicType(name: "unsigned int", size: 32, encoding: DW_ATE_unsigned)
!11 = !DIGlobalVariableExpression(var: !12, expr: !DIExpression())
!12 = distinct !DIGlobalVariable(name: "ys", scope: !2, file: !3, line: 65, type: !13, isLocal: true, isDefinition: true)
!13 = !DICompositeType(tag: DW_TAG_array_type, baseType: !5, size: 2048, elements: !14)
!14 = !{!15}
!15 = !DISubrange(count: 64)
!16 = !{i32 7, !"Dwarf Version", i32 5}
!17 = !{i32 2, !"Debug Info Version", i32 3}
!18 = !{i32 1, !"wchar_size", i32 4}
!19 = !{i32 1, !"target-abi", !"lp64"}
!20 = !{i32 6, !"riscv-isa", !21}
!21 = !{!"rv64i2p1_m2p0_zmmul1p0"}
!22 = !{i32 8, !"PIC Level", i32 2}
!23 = !{i32 7, !"PIE Level", i32 2}
!24 = !{i32 7, !"frame-pointer", i32 2}
!25 = !{i32 8, !"SmallDataLimit", i32 8}
!26 = !{!"Debian clang version 19.1.7 (3~deb12u1)"}
!27 = distinct !DISubprogram(name: "insertion", scope: !3, file: !3, line: 21, type: !28, scopeLine: 21, flags: DIFlagPrototyped, spFlags: DISPFlagDefinition, unit: !2, retainedNodes: !30)
!28 = !DISubroutineType(types: !29)
!29 = !{!6, !5, !10}
!30 = !{}
!31 = !DILocalVariable(name: "n", arg: 1, scope: !27, file: !3, line: 21, type: !5)
!32 = !DILocation(line: 21, column: 29, scope: !27)
!33 = !DILocalVariable(name: "from", arg: 2, scope: !27, file: !3, line: 21, type: !10)
!34 = !DILocation(line: 21, column: 41, scope: !27)
!35 = !DILocation(line: 22, column: 10, scope: !27)
!36 = !DILocation(line: 22, column: 13, scope: !27)
!37 = !DILocation(line: 22, column: 5, scope: !27)
!38 = !DILocalVariable(name: "i", scope: !39, file: !3, line: 23, type: !5)
!39 = distinct !DILexicalBlock(scope: !27, file: !3, line: 23, column: 5)
!40 = !DILocation(line: 23, column: 14, scope: !39)
!41 = !DILocation(line: 23, column: 10, scope: !39)
!42 = !DILocation(line: 23, column: 21, scope: !43)
!43 = distinct !DILexicalBlock(scope: !39, file: !3, line: 23, column: 5)
!44 = !DILocation(line: 23, column: 25, scope: !43)
!45 = !DILocation(line: 23, column: 23, scope: !43)
!46 = !DILocation(line: 23, column: 5, scope: !39)
!47 = !DILocalVariable(name: "k", scope: !48, file: !3, line: 24, type: !5)
!48 = distinct !DILexicalBlock(scope: !43, file: !3, line: 23, column: 33)
!49 = !DILocation(line: 24, column: 13, scope: !48)
!50 = !DILocation(line: 24, column: 20, scope: !48)
!51 = !DILocation(line: 24, column: 17, scope: !48)
!52 = !DILocalVariable(name: "j", scope: !48, file: !3, line: 24, type: !5)
!53 = !DILocation(line: 24, column: 24, scope: !48)
!54 = !DILocation(line: 24, column: 28, scope: !48)
!55 = !DILocation(line: 24, column: 30, scope: !48)
!56 = !DILocation(line: 25, column: 9, scope: !48)
!57 = !DILocation(line: 25, column: 16, scope: !58)
!58 = distinct !DILexicalBlock(scope: !59, file: !3, line: 25, column: 9)
!59 = distinct !DILexicalBlock(scope: !48, file: !3, line: 25, column: 9)
!60 = !DILocation(line: 25, column: 18, scope: !58)
!61 = !DILocation(line: 25, column: 23, scope: !58)
!62 = !DILocation(line: 25, column: 29, scope: !58)
!63 = !DILocation(line: 25, column: 26, scope: !58)
!64 = !DILocation(line: 25, column: 34, scope: !58)
!65 = !DILocation(line: 25, column: 32, scope: !58)
!66 = !DILocation(line: 0, scope: !58)
!67 = !DILocation(line: 25, column: 9, scope: !59)
!68 = !DILocation(line: 25, column: 57, scope: !58)
!69 = !DILocation(line: 25, column: 54, scope: !58)
!70 = !DILocation(line: 25, column: 45, scope: !58)
!71 = !DILocation(line: 25, column: 47, scope: !58)
!72 = !DILocation(line: 25, column: 42, scope: !58)
!73 = !DILocation(line: 25, column: 52, scope: !58)
!74 = !DILocation(line: 25, column: 38, scope: !58)
!75 = !DILocation(line: 25, column: 9, scope: !58)
!76 = distinct !{!76, !67, !77, !78}
!77 = !DILocation(line: 25, column: 58, scope: !59)
!78 = !{!"llvm.loop.mustprogress"}
!79 = !DILocation(line: 26, column: 21, scope: !48)
!80 = !DILocation(line: 26, column: 12, scope: !48)
!81 = !DILocation(line: 26, column: 14, scope: !48)
!82 = !DILocation(line: 26, column: 9, scope: !48)
!83 = !DILocation(line: 26, column: 19, scope: !48)
!84 = !DILocation(line: 27, column: 5, scope: !48)
!85 = !DILocation(line: 23, column: 29, scope: !43)
!86 = !DILocation(line: 23, column: 5, scope: !43)
!87 = distinct !{!87, !46, !88, !78}
!88 = !DILocation(line: 27, column: 5, scope: !39)
!89 = !DILocation(line: 28, column: 18, scope: !27)
!90 = !DILocation(line: 28, column: 12, scope: !27)
!91 = !DILocation(line: 28, column: 5, scope: !27)
!92 = distinct !DISubprogram(name: "fill", scope: !3, file: !3, line: 4, type: !93, scopeLine: 4, flags: DIFlagPrototyped, spFlags: DISPFlagLocalToUnit | DISPFlagDefinition, unit: !2, retainedNodes: !30)
!93 = !DISubroutineType(types: !94)
!94 = !{null, !5, !10}
!95 = !DILocalVariable(name: "n", arg: 1, scope: !92, file: !3, line: 4, type: !5)
!96 = !DILocation(line: 4, column: 22, scope: !92)
!97 = !DILocalVariable(name: "from", arg: 2, scope: !92, file: !3, line: 4, type: !10)
!98 = !DILocation(line: 4, column: 34, scope: !92)
!99 = !DILocation(line: 5, column: 12, scope: !92)
!100 = !DILocation(line: 5, column: 10, scope: !92)
!101 = !DILocalVariable(name: "i", scope: !102, file: !3, line: 6, type: !5)
!102 = distinct !DILexicalBlock(scope: !92, file: !3, line: 6, column: 5)
!103 = !DILocation(line: 6, column: 14, scope: !102)
!104 = !DILocation(line: 6, column: 10, scope: !102)
!105 = !DILocation(line: 6, column: 21, scope: !106)
!106 = distinct !DILexicalBlock(scope: !102, file: !3, line: 6, column: 5)
!107 = !DILocation(line: 6, column: 25, scope: !106)
!108 = !DILocation(line: 6, column: 23, scope: !106)
!109 = !DILocation(line: 6, column: 5, scope: !102)
!110 = !DILocation(line: 7, column: 16, scope: !111)
!111 = distinct !DILexicalBlock(scope: !106, file: !3, line: 6, column: 33)
!112 = !DILocation(line: 7, column: 21, scope: !111)
!113 = !DILocation(line: 7, column: 35, scope: !111)
!114 = !DILocation(line: 7, column: 14, scope: !111)
!115 = !DILocation(line: 8, column: 23, scope: !111)
!116 = !DILocation(line: 8, column: 28, scope: !111)
!117 = !DILocation(line: 8, column: 35, scope: !111)
!118 = !DILocation(line: 8, column: 42, scope: !111)
!119 = !DILocation(line: 8, column: 12, scope: !111)
!120 = !DILocation(line: 8, column: 9, scope: !111)
!121 = !DILocation(line: 8, column: 15, scope: !111)
!122 = !DILocation(line: 9, column: 5, scope: !111)
!123 = !DILocation(line: 6, column: 29, scope: !106)
!124 = !DILocation(line: 6, column: 5, scope: !106)
!125 = distinct !{!125, !109, !126, !78}
!126 = !DILocation(line: 9, column: 5, scope: !102)
!127 = !DILocation(line: 10, column: 1, scope: !92)
!128 = distinct !DISubprogram(name: "shown", scope: !3, file: !3, line: 11, type: !129, scopeLine: 11, flags: DIFlagPrototyped, spFlags: DISPFlagLocalToUnit | DISPFlagDefinition, unit: !2, retainedNodes: !30)
!129 = !DISubroutineType(types: !130)
!130 = !{!6, !5}
!131 = !DILocalVariable(name: "n", arg: 1, scope: !128, file: !3, line: 11, type: !5)
!132 = !DILocation(line: 11, column: 32, scope: !128)
!133 = !DILocalVariable(name: "sum", scope: !128, file: !3, line: 12, type: !6)
!134 = !DILocation(line: 12, column: 19, scope: !128)
!135 = !DILocalVariable(name: "i", scope: !136, file: !3, line: 13, type: !5)
!136 = distinct !DILexicalBlock(scope: !128, file: !3, line: 13, column: 5)
!137 = !DILocation(line: 13, column: 14, scope: !136)
!138 = !DILocation(line: 13, column: 10, scope: !136)
!139 = !DILocation(line: 13, column: 21, scope: !140)
!140 = distinct !DILexicalBlock(scope: !136, file: !3, line: 13, column: 5)
!141 = !DILocation(line: 13, column: 25, scope: !140)
!142 = !DILocation(line: 13, column: 23, scope: !140)
!143 = !DILocation(line: 13, column: 5, scope: !136)
!144 = !DILocation(line: 13, column: 39, scope: !140)
!145 = !DILocation(line: 13, column: 43, scope: !140)
!146 = !DILocation(line: 13, column: 68, scope: !140)
!147 = !DILocation(line: 13, column: 65, scope: !140)
!148 = !DILocation(line: 13, column: 50, scope: !140)
!149 = !DILocation(line: 13, column: 48, scope: !140)
!150 = !DILocation(line: 13, column: 74, scope: !140)
!151 = !DILocation(line: 13, column: 76, scope: !140)
!152 = !DILocation(line: 13, column: 82, scope: !140)
!153 = !DILocation(line: 13, column: 84, scope: !140)
!154 = !DILocation(line: 13, column: 79, scope: !140)
!155 = !DILocation(line: 13, column: 94, scope: !140)
!156 = !DILocation(line: 13, column: 91, scope: !140)
!157 = !DILocation(line: 13, column: 89, scope: !140)
!158 = !DILocation(line: 0, scope: !140)
!159 = !DILocation(line: 13, column: 73, scope: !140)
!160 = !DILocation(line: 13, column: 71, scope: !140)
!161 = !DILocation(line: 13, column: 37, scope: !140)
!162 = !DILocation(line: 13, column: 33, scope: !140)
!163 = !DILocation(line: 13, column: 29, scope: !140)
!164 = !DILocation(line: 13, column: 5, scope: !140)
!165 = distinct !{!165, !143, !166, !78}
!166 = !DILocation(line: 13, column: 112, scope: !136)
!167 = !DILocation(line: 14, column: 12, scope: !128)
!168 = !DILocation(line: 14, column: 5, scope: !128)
!169 = distinct !DISubprogram(name: "quicksort", scope: !3, file: !3, line: 41, type: !28, scopeLine: 41, flags: DIFlagPrototyped, spFlags: DISPFlagDefinition, unit: !2, retainedNodes: !30)
!170 = !DILocalVariable(name: "n", arg: 1, scope: !169, file: !3, line: 41, type: !5)
!171 = !DILocation(line: 41, column: 29, scope: !169)
!172 = !DILocalVariable(name: "from", arg: 2, scope: !169, file: !3, line: 41, type: !10)
!173 = !DILocation(line: 41, column: 41, scope: !169)
!174 = !DILocation(line: 42, column: 10, scope: !169)
!175 = !DILocation(line: 42, column: 13, scope: !169)
!176 = !DILocation(line: 42, column: 5, scope: !169)
!177 = !DILocation(line: 43, column: 14, scope: !169)
!178 = !DILocation(line: 43, column: 16, scope: !169)
!179 = !DILocation(line: 43, column: 5, scope: !169)
!180 = !DILocation(line: 44, column: 18, scope: !169)
!181 = !DILocation(line: 44, column: 12, scope: !169)
!182 = !DILocation(line: 44, column: 5, scope: !169)
!183 = distinct !DISubprogram(name: "quick", scope: !3, file: !3, line: 30, type: !184, scopeLine: 30, flags: DIFlagPrototyped, spFlags: DISPFlagLocalToUnit | DISPFlagDefinition, unit: !2, retainedNodes: !30)
!184 = !DISubroutineType(types: !185)
!185 = !{null, !5, !5}
!186 = !DILocalVariable(name: "low", arg: 1, scope: !183, file: !3, line: 30, type: !5)
!187 = !DILocation(line: 30, column: 23, scope: !183)
!188 = !DILocalVariable(name: "high", arg: 2, scope: !183, file: !3, line: 30, type: !5)
!189 = !DILocation(line: 30, column: 32, scope: !183)
!190 = !DILocation(line: 31, column: 9, scope: !191)
!191 = distinct !DILexicalBlock(scope: !183, file: !3, line: 31, column: 9)
!192 = !DILocation(line: 31, column: 16, scope: !191)
!193 = !DILocation(line: 31, column: 13, scope: !191)
!194 = !DILocation(line: 31, column: 9, scope: !183)
!195 = !DILocation(line: 31, column: 22, scope: !191)
!196 = !DILocalVariable(name: "pivot", scope: !183, file: !3, line: 32, type: !5)
!197 = !DILocation(line: 32, column: 9, scope: !183)
!198 = !DILocation(line: 32, column: 21, scope: !183)
!199 = !DILocation(line: 32, column: 27, scope: !183)
!200 = !DILocation(line: 32, column: 25, scope: !183)
!201 = !DILocation(line: 32, column: 33, scope: !183)
!202 = !DILocation(line: 32, column: 17, scope: !183)
!203 = !DILocalVariable(name: "i", scope: !183, file: !3, line: 32, type: !5)
!204 = !DILocation(line: 32, column: 39, scope: !183)
!205 = !DILocation(line: 32, column: 43, scope: !183)
!206 = !DILocalVariable(name: "j", scope: !183, file: !3, line: 32, type: !5)
!207 = !DILocation(line: 32, column: 48, scope: !183)
!208 = !DILocation(line: 32, column: 52, scope: !183)
!209 = !DILocation(line: 33, column: 5, scope: !183)
!210 = !DILocation(line: 33, column: 12, scope: !183)
!211 = !DILocation(line: 33, column: 17, scope: !183)
!212 = !DILocation(line: 33, column: 14, scope: !183)
!213 = !DILocation(line: 34, column: 9, scope: !214)
!214 = distinct !DILexicalBlock(scope: !183, file: !3, line: 33, column: 20)
!215 = !DILocation(line: 34, column: 19, scope: !214)
!216 = !DILocation(line: 34, column: 16, scope: !214)
!217 = !DILocation(line: 34, column: 24, scope: !214)
!218 = !DILocation(line: 34, column: 22, scope: !214)
!219 = !DILocation(line: 34, column: 32, scope: !214)
!220 = distinct !{!220, !213, !219, !78}
!221 = !DILocation(line: 35, column: 9, scope: !214)
!222 = !DILocation(line: 35, column: 19, scope: !214)
!223 = !DILocation(line: 35, column: 16, scope: !214)
!224 = !DILocation(line: 35, column: 24, scope: !214)
!225 = !DILocation(line: 35, column: 22, scope: !214)
!226 = !DILocation(line: 35, column: 32, scope: !214)
!227 = distinct !{!227, !221, !226, !78}
!228 = !DILocation(line: 36, column: 13, scope: !229)
!229 = distinct !DILexicalBlock(scope: !214, file: !3, line: 36, column: 13)
!230 = !DILocation(line: 36, column: 18, scope: !229)
!231 = !DILocation(line: 36, column: 15, scope: !229)
!232 = !DILocation(line: 36, column: 13, scope: !214)
!233 = !DILocation(line: 36, column: 31, scope: !229)
!234 = !DILocation(line: 36, column: 27, scope: !229)
!235 = !DILocation(line: 36, column: 41, scope: !229)
!236 = !DILocation(line: 36, column: 37, scope: !229)
!237 = !DILocation(line: 36, column: 21, scope: !229)
!238 = distinct !{!238, !209, !239, !78}
!239 = !DILocation(line: 37, column: 5, scope: !183)
!240 = !DILocation(line: 38, column: 11, scope: !183)
!241 = !DILocation(line: 38, column: 16, scope: !183)
!242 = !DILocation(line: 38, column: 5, scope: !183)
!243 = !DILocation(line: 39, column: 11, scope: !183)
!244 = !DILocation(line: 39, column: 14, scope: !183)
!245 = !DILocation(line: 39, column: 5, scope: !183)
!246 = !DILocation(line: 40, column: 1, scope: !183)
!247 = distinct !DISubprogram(name: "heapsort", scope: !3, file: !3, line: 56, type: !28, scopeLine: 56, flags: DIFlagPrototyped, spFlags: DISPFlagDefinition, unit: !2, retainedNodes: !30)
!248 = !DILocalVariable(name: "n", arg: 1, scope: !247, file: !3, line: 56, type: !5)
!249 = !DILocation(line: 56, column: 28, scope: !247)
!250 = !DILocalVariable(name: "from", arg: 2, scope: !247, file: !3, line: 56, type: !10)
!251 = !DILocation(line: 56, column: 40, scope: !247)
!252 = !DILocation(line: 57, column: 10, scope: !247)
!253 = !DILocation(line: 57, column: 13, scope: !247)
!254 = !DILocation(line: 57, column: 5, scope: !247)
!255 = !DILocalVariable(name: "i", scope: !256, file: !3, line: 58, type: !5)
!256 = distinct !DILexicalBlock(scope: !247, file: !3, line: 58, column: 5)
!257 = !DILocation(line: 58, column: 14, scope: !256)
!258 = !DILocation(line: 58, column: 18, scope: !256)
!259 = !DILocation(line: 58, column: 20, scope: !256)
!260 = !DILocation(line: 58, column: 24, scope: !256)
!261 = !DILocation(line: 58, column: 10, scope: !256)
!262 = !DILocation(line: 58, column: 29, scope: !263)
!263 = distinct !DILexicalBlock(scope: !256, file: !3, line: 58, column: 5)
!264 = !DILocation(line: 58, column: 31, scope: !263)
!265 = !DILocation(line: 58, column: 5, scope: !256)
!266 = !DILocation(line: 58, column: 47, scope: !263)
!267 = !DILocation(line: 58, column: 50, scope: !263)
!268 = !DILocation(line: 58, column: 42, scope: !263)
!269 = !DILocation(line: 58, column: 38, scope: !263)
!270 = !DILocation(line: 58, column: 5, scope: !263)
!271 = distinct !{!271, !265, !272, !78}
!272 = !DILocation(line: 58, column: 51, scope: !256)
!273 = !DILocalVariable(name: "i", scope: !274, file: !3, line: 59, type: !5)
!274 = distinct !DILexicalBlock(scope: !247, file: !3, line: 59, column: 5)
!275 = !DILocation(line: 59, column: 14, scope: !274)
!276 = !DILocation(line: 59, column: 18, scope: !274)
!277 = !DILocation(line: 59, column: 20, scope: !274)
!278 = !DILocation(line: 59, column: 10, scope: !274)
!279 = !DILocation(line: 59, column: 25, scope: !280)
!280 = distinct !DILexicalBlock(scope: !274, file: !3, line: 59, column: 5)
!281 = !DILocation(line: 59, column: 27, scope: !280)
!282 = !DILocation(line: 59, column: 5, scope: !274)
!283 = !DILocation(line: 60, column: 26, scope: !284)
!284 = distinct !DILexicalBlock(scope: !280, file: !3, line: 59, column: 37)
!285 = !DILocation(line: 60, column: 23, scope: !284)
!286 = !DILocation(line: 60, column: 9, scope: !284)
!287 = !DILocation(line: 61, column: 17, scope: !284)
!288 = !DILocation(line: 61, column: 9, scope: !284)
!289 = !DILocation(line: 62, column: 5, scope: !284)
!290 = !DILocation(line: 59, column: 33, scope: !280)
!291 = !DILocation(line: 59, column: 5, scope: !280)
!292 = distinct !{!292, !282, !293, !78}
!293 = !DILocation(line: 62, column: 5, scope: !274)
!294 = !DILocation(line: 63, column: 18, scope: !247)
!295 = !DILocation(line: 63, column: 12, scope: !247)
!296 = !DILocation(line: 63, column: 5, scope: !247)
!297 = distinct !DISubprogram(name: "sift", scope: !3, file: !3, line: 46, type: !184, scopeLine: 46, flags: DIFlagPrototyped, spFlags: DISPFlagLocalToUnit | DISPFlagDefinition, unit: !2, retainedNodes: !30)
!298 = !DILocalVariable(name: "root", arg: 1, scope: !297, file: !3, line: 46, type: !5)
!299 = !DILocation(line: 46, column: 22, scope: !297)
!300 = !DILocalVariable(name: "n", arg: 2, scope: !297, file: !3, line: 46, type: !5)
!301 = !DILocation(line: 46, column: 32, scope: !297)
!302 = !DILocation(line: 47, column: 5, scope: !297)
!303 = !DILocalVariable(name: "child", scope: !304, file: !3, line: 48, type: !5)
!304 = distinct !DILexicalBlock(scope: !305, file: !3, line: 47, column: 14)
!305 = distinct !DILexicalBlock(scope: !306, file: !3, line: 47, column: 5)
!306 = distinct !DILexicalBlock(scope: !297, file: !3, line: 47, column: 5)
!307 = !DILocation(line: 48, column: 13, scope: !304)
!308 = !DILocation(line: 48, column: 25, scope: !304)
!309 = !DILocation(line: 48, column: 23, scope: !304)
!310 = !DILocation(line: 48, column: 30, scope: !304)
!311 = !DILocation(line: 49, column: 13, scope: !312)
!312 = distinct !DILexicalBlock(scope: !304, file: !3, line: 49, column: 13)
!313 = !DILocation(line: 49, column: 22, scope: !312)
!314 = !DILocation(line: 49, column: 19, scope: !312)
!315 = !DILocation(line: 49, column: 13, scope: !304)
!316 = !DILocation(line: 49, column: 25, scope: !312)
!317 = !DILocation(line: 50, column: 13, scope: !318)
!318 = distinct !DILexicalBlock(scope: !304, file: !3, line: 50, column: 13)
!319 = !DILocation(line: 50, column: 19, scope: !318)
!320 = !DILocation(line: 50, column: 25, scope: !318)
!321 = !DILocation(line: 50, column: 23, scope: !318)
!322 = !DILocation(line: 50, column: 27, scope: !318)
!323 = !DILocation(line: 50, column: 33, scope: !318)
!324 = !DILocation(line: 50, column: 30, scope: !318)
!325 = !DILocation(line: 50, column: 45, scope: !318)
!326 = !DILocation(line: 50, column: 51, scope: !318)
!327 = !DILocation(line: 50, column: 42, scope: !318)
!328 = !DILocation(line: 50, column: 40, scope: !318)
!329 = !DILocation(line: 50, column: 13, scope: !304)
!330 = !DILocation(line: 50, column: 62, scope: !318)
!331 = !DILocation(line: 50, column: 57, scope: !318)
!332 = !DILocation(line: 51, column: 16, scope: !333)
!333 = distinct !DILexicalBlock(scope: !304, file: !3, line: 51, column: 13)
!334 = !DILocation(line: 51, column: 13, scope: !333)
!335 = !DILocation(line: 51, column: 28, scope: !333)
!336 = !DILocation(line: 51, column: 25, scope: !333)
!337 = !DILocation(line: 51, column: 22, scope: !333)
!338 = !DILocation(line: 51, column: 13, scope: !304)
!339 = !DILocation(line: 51, column: 36, scope: !333)
!340 = !DILocation(line: 52, column: 18, scope: !304)
!341 = !DILocation(line: 52, column: 15, scope: !304)
!342 = !DILocation(line: 52, column: 29, scope: !304)
!343 = !DILocation(line: 52, column: 26, scope: !304)
!344 = !DILocation(line: 52, column: 9, scope: !304)
!345 = !DILocation(line: 53, column: 16, scope: !304)
!346 = !DILocation(line: 53, column: 14, scope: !304)
!347 = !DILocation(line: 47, column: 5, scope: !305)
!348 = distinct !{!348, !349, !350}
!349 = !DILocation(line: 47, column: 5, scope: !306)
!350 = !DILocation(line: 54, column: 5, scope: !306)
!351 = !DILocation(line: 55, column: 1, scope: !297)
!352 = distinct !DISubprogram(name: "swap", scope: !3, file: !3, line: 16, type: !353, scopeLine: 16, flags: DIFlagPrototyped, spFlags: DISPFlagLocalToUnit | DISPFlagDefinition, unit: !2, retainedNodes: !30)
!353 = !DISubroutineType(types: !354)
!354 = !{null, !355, !355}
!355 = !DIDerivedType(tag: DW_TAG_pointer_type, baseType: !5, size: 64)
!356 = !DILocalVariable(name: "a", arg: 1, scope: !352, file: !3, line: 16, type: !355)
!357 = !DILocation(line: 16, column: 23, scope: !352)
!358 = !DILocalVariable(name: "b", arg: 2, scope: !352, file: !3, line: 16, type: !355)
!359 = !DILocation(line: 16, column: 31, scope: !352)
!360 = !DILocalVariable(name: "t", scope: !352, file: !3, line: 17, type: !5)
!361 = !DILocation(line: 17, column: 9, scope: !352)
!362 = !DILocation(line: 17, column: 14, scope: !352)
!363 = !DILocation(line: 17, column: 13, scope: !352)
!364 = !DILocation(line: 18, column: 11, scope: !352)
!365 = !DILocation(line: 18, column: 10, scope: !352)
!366 = !DILocation(line: 18, column: 6, scope: !352)
!367 = !DILocation(line: 18, column: 8, scope: !352)
!368 = !DILocation(line: 19, column: 10, scope: !352)
!369 = !DILocation(line: 19, column: 6, scope: !352)
!370 = !DILocation(line: 19, column: 8, scope: !352)
!371 = !DILocation(line: 20, column: 1, scope: !352)
!372 = distinct !DISubprogram(name: "mergesort", scope: !3, file: !3, line: 74, type: !28, scopeLine: 74, flags: DIFlagPrototyped, spFlags: DISPFlagDefinition, unit: !2, retainedNodes: !30)
!373 = !DILocalVariable(name: "n", arg: 1, scope: !372, file: !3, line: 74, type: !5)
!374 = !DILocation(line: 74, column: 29, scope: !372)
!375 = !DILocalVariable(name: "from", arg: 2, scope: !372, file: !3, line: 74, type: !10)
!376 = !DILocation(line: 74, column: 41, scope: !372)
!377 = !DILocation(line: 75, column: 10, scope: !372)
!378 = !DILocation(line: 75, column: 13, scope: !372)
!379 = !DILocation(line: 75, column: 5, scope: !372)
!380 = !DILocation(line: 76, column: 14, scope: !372)
!381 = !DILocation(line: 76, column: 5, scope: !372)
!382 = !DILocation(line: 77, column: 18, scope: !372)
!383 = !DILocation(line: 77, column: 12, scope: !372)
!384 = !DILocation(line: 77, column: 5, scope: !372)
!385 = distinct !DISubprogram(name: "merge", scope: !3, file: !3, line: 66, type: !184, scopeLine: 66, flags: DIFlagPrototyped, spFlags: DISPFlagLocalToUnit | DISPFlagDefinition, unit: !2, retainedNodes: !30)
!386 = !DILocalVariable(name: "low", arg: 1, scope: !385, file: !3, line: 66, type: !5)
!387 = !DILocation(line: 66, column: 23, scope: !385)
!388 = !DILocalVariable(name: "high", arg: 2, scope: !385, file: !3, line: 66, type: !5)
!389 = !DILocation(line: 66, column: 32, scope: !385)
!390 = !DILocation(line: 67, column: 9, scope: !391)
!391 = distinct !DILexicalBlock(scope: !385, file: !3, line: 67, column: 9)
!392 = !DILocation(line: 67, column: 16, scope: !391)
!393 = !DILocation(line: 67, column: 14, scope: !391)
!394 = !DILocation(line: 67, column: 20, scope: !391)
!395 = !DILocation(line: 67, column: 9, scope: !385)
!396 = !DILocation(line: 67, column: 25, scope: !391)
!397 = !DILocalVariable(name: "middle", scope: !385, file: !3, line: 68, type: !5)
!398 = !DILocation(line: 68, column: 9, scope: !385)
!399 = !DILocation(line: 68, column: 18, scope: !385)
!400 = !DILocation(line: 68, column: 25, scope: !385)
!401 = !DILocation(line: 68, column: 32, scope: !385)
!402 = !DILocation(line: 68, column: 30, scope: !385)
!403 = !DILocation(line: 68, column: 37, scope: !385)
!404 = !DILocation(line: 68, column: 22, scope: !385)
!405 = !DILocalVariable(name: "i", scope: !385, file: !3, line: 68, type: !5)
!406 = !DILocation(line: 68, column: 42, scope: !385)
!407 = !DILocation(line: 68, column: 46, scope: !385)
!408 = !DILocalVariable(name: "j", scope: !385, file: !3, line: 68, type: !5)
!409 = !DILocation(line: 68, column: 51, scope: !385)
!410 = !DILocation(line: 68, column: 55, scope: !385)
!411 = !DILocation(line: 69, column: 11, scope: !385)
!412 = !DILocation(line: 69, column: 16, scope: !385)
!413 = !DILocation(line: 69, column: 5, scope: !385)
!414 = !DILocation(line: 70, column: 11, scope: !385)
!415 = !DILocation(line: 70, column: 19, scope: !385)
!416 = !DILocation(line: 70, column: 5, scope: !385)
!417 = !DILocalVariable(name: "k", scope: !418, file: !3, line: 71, type: !5)
!418 = distinct !DILexicalBlock(scope: !385, file: !3, line: 71, column: 5)
!419 = !DILocation(line: 71, column: 14, scope: !418)
!420 = !DILocation(line: 71, column: 18, scope: !418)
!421 = !DILocation(line: 71, column: 10, scope: !418)
!422 = !DILocation(line: 71, column: 23, scope: !423)
!423 = distinct !DILexicalBlock(scope: !418, file: !3, line: 71, column: 5)
!424 = !DILocation(line: 71, column: 27, scope: !423)
!425 = !DILocation(line: 71, column: 25, scope: !423)
!426 = !DILocation(line: 71, column: 5, scope: !418)
!427 = !DILocation(line: 71, column: 46, scope: !423)
!428 = !DILocation(line: 71, column: 51, scope: !423)
!429 = !DILocation(line: 71, column: 48, scope: !423)
!430 = !DILocation(line: 71, column: 56, scope: !423)
!431 = !DILocation(line: 71, column: 60, scope: !423)
!432 = !DILocation(line: 71, column: 64, scope: !423)
!433 = !DILocation(line: 71, column: 62, scope: !423)
!434 = !DILocation(line: 71, column: 71, scope: !423)
!435 = !DILocation(line: 71, column: 77, scope: !423)
!436 = !DILocation(line: 71, column: 74, scope: !423)
!437 = !DILocation(line: 71, column: 86, scope: !423)
!438 = !DILocation(line: 71, column: 83, scope: !423)
!439 = !DILocation(line: 71, column: 80, scope: !423)
!440 = !DILocation(line: 71, column: 96, scope: !423)
!441 = !DILocation(line: 71, column: 92, scope: !423)
!442 = !DILocation(line: 71, column: 106, scope: !423)
!443 = !DILocation(line: 71, column: 102, scope: !423)
!444 = !DILocation(line: 71, column: 41, scope: !423)
!445 = !DILocation(line: 71, column: 38, scope: !423)
!446 = !DILocation(line: 71, column: 44, scope: !423)
!447 = !DILocation(line: 71, column: 34, scope: !423)
!448 = !DILocation(line: 71, column: 5, scope: !423)
!449 = distinct !{!449, !426, !450, !78}
!450 = !DILocation(line: 71, column: 108, scope: !418)
!451 = !DILocation(line: 72, column: 26, scope: !385)
!452 = !DILocation(line: 72, column: 23, scope: !385)
!453 = !DILocation(line: 72, column: 36, scope: !385)
!454 = !DILocation(line: 72, column: 33, scope: !385)
!455 = !DILocation(line: 72, column: 58, scope: !385)
!456 = !DILocation(line: 72, column: 65, scope: !385)
!457 = !DILocation(line: 72, column: 63, scope: !385)
!458 = !DILocation(line: 72, column: 42, scope: !385)
!459 = !DILocation(line: 72, column: 70, scope: !385)
!460 = !DILocation(line: 72, column: 5, scope: !385)
!461 = !DILocation(line: 73, column: 1, scope: !385)
