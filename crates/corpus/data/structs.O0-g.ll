; ModuleID = 'structs.c'
source_filename = "structs.c"
target datalayout = "e-m:e-p:64:64-i64:64-i128:128-n32:64-S128"
target triple = "riscv64-unknown-linux-gnu"

%struct.box = type { %struct.point, %struct.point, i8, i64 }
%struct.point = type { i16, i16 }
%struct.tight = type <{ i8, i32, i16 }>
%struct.flags = type { i32 }
%union.either = type { i32 }

@boxes = internal global [3 x %struct.box] [%struct.box { %struct.point zeroinitializer, %struct.point { i16 3, i16 4 }, i8 7, i64 100 }, %struct.box { %struct.point { i16 -2, i16 -2 }, %struct.point { i16 2, i16 2 }, i8 -56, i64 -5 }, %struct.box { %struct.point { i16 5, i16 5 }, %struct.point { i16 5, i16 9 }, i8 0, i64 1099511627776 }], align 8, !dbg !0
@tights = internal global [4 x %struct.tight] zeroinitializer, align 1, !dbg !9

; Function Attrs: noinline nounwind optnone
define dso_local signext i32 @area_of(i32 noundef signext %0) #0 !dbg !44 {
  %2 = alloca i32, align 4
  store i32 %0, ptr %2, align 4
    #dbg_declare(ptr %2, !49, !DIExpression(), !50)
  %3 = load i32, ptr %2, align 4, !dbg !51
  %4 = urem i32 %3, 3, !dbg !52
  %5 = zext i32 %4 to i64, !dbg !53
  %6 = getelementptr inbounds [3 x %struct.box], ptr @boxes, i64 0, i64 %5, !dbg !53
  %7 = call signext i32 @area(ptr noundef %6) #3, !dbg !54
  ret i32 %7, !dbg !55
}

; Function Attrs: noinline nounwind optnone
define internal signext i32 @area(ptr noundef %0) #0 !dbg !56 {
  %2 = alloca ptr, align 8
  store ptr %0, ptr %2, align 8
    #dbg_declare(ptr %2, !61, !DIExpression(), !62)
  %3 = load ptr, ptr %2, align 8, !dbg !63
  %4 = getelementptr inbounds %struct.box, ptr %3, i32 0, i32 1, !dbg !64
  %5 = getelementptr inbounds %struct.point, ptr %4, i32 0, i32 0, !dbg !65
  %6 = load i16, ptr %5, align 4, !dbg !65
  %7 = sext i16 %6 to i32, !dbg !63
  %8 = load ptr, ptr %2, align 8, !dbg !66
  %9 = getelementptr inbounds %struct.box, ptr %8, i32 0, i32 0, !dbg !67
  %10 = getelementptr inbounds %struct.point, ptr %9, i32 0, i32 0, !dbg !68
  %11 = load i16, ptr %10, align 8, !dbg !68
  %12 = sext i16 %11 to i32, !dbg !66
  %13 = sub nsw i32 %7, %12, !dbg !69
  %14 = load ptr, ptr %2, align 8, !dbg !70
  %15 = getelementptr inbounds %struct.box, ptr %14, i32 0, i32 1, !dbg !71
  %16 = getelementptr inbounds %struct.point, ptr %15, i32 0, i32 1, !dbg !72
  %17 = load i16, ptr %16, align 2, !dbg !72
  %18 = sext i16 %17 to i32, !dbg !70
  %19 = load ptr, ptr %2, align 8, !dbg !73
  %20 = getelementptr inbounds %struct.box, ptr %19, i32 0, i32 0, !dbg !74
  %21 = getelementptr inbounds %struct.point, ptr %20, i32 0, i32 1, !dbg !75
  %22 = load i16, ptr %21, align 2, !dbg !75
  %23 = sext i16 %22 to i32, !dbg !73
  %24 = sub nsw i32 %18, %23, !dbg !76
  %25 = mul nsw i32 %13, %24, !dbg !77
  ret i32 %25, !dbg !78
}

; Function Attrs: noinline nounwind optnone
define dso_local i64 @weight() #0 !dbg !79 {
  %1 = alloca i64, align 8
  %2 = alloca ptr, align 8
    #dbg_declare(ptr %1, !82, !DIExpression(), !83)
  store i64 0, ptr %1, align 8, !dbg !83
    #dbg_declare(ptr %2, !84, !DIExpression(), !87)
  store ptr @boxes, ptr %2, align 8, !dbg !87
  br label %3, !dbg !88

3:                                                ; preds = %17, %0
  %4 = load ptr, ptr %2, align 8, !dbg !89
  %5 = icmp ult ptr %4, getelementptr inbounds (%struct.box, ptr @boxes, i64 3), !dbg !91
  br i1 %5, label %6, label %20, !dbg !92

6:                                                ; preds = %3
  %7 = load ptr, ptr %2, align 8, !dbg !93
  %8 = getelementptr inbounds %struct.box, ptr %7, i32 0, i32 3, !dbg !94
  %9 = load i64, ptr %8, align 8, !dbg !94
  %10 = load ptr, ptr %2, align 8, !dbg !95
  %11 = getelementptr inbounds %struct.box, ptr %10, i32 0, i32 2, !dbg !96
  %12 = load i8, ptr %11, align 8, !dbg !96
  %13 = zext i8 %12 to i64, !dbg !95
  %14 = add nsw i64 %9, %13, !dbg !97
  %15 = load i64, ptr %1, align 8, !dbg !98
  %16 = add nsw i64 %15, %14, !dbg !98
  store i64 %16, ptr %1, align 8, !dbg !98
  br label %17, !dbg !99

17:                                               ; preds = %6
  %18 = load ptr, ptr %2, align 8, !dbg !100
  %19 = getelementptr inbounds %struct.box, ptr %18, i32 1, !dbg !100
  store ptr %19, ptr %2, align 8, !dbg !100
  br label %3, !dbg !101, !llvm.loop !102

20:                                               ; preds = %3
  %21 = load i64, ptr %1, align 8, !dbg !105
  ret i64 %21, !dbg !106
}

; Function Attrs: noinline nounwind optnone
define dso_local signext i32 @joined_area(i32 noundef signext %0, i32 noundef signext %1) #0 !dbg !107 {
  %3 = alloca i32, align 4
  %4 = alloca i32, align 4
  %5 = alloca %struct.box, align 8
  store i32 %0, ptr %3, align 4
    #dbg_declare(ptr %3, !110, !DIExpression(), !111)
  store i32 %1, ptr %4, align 4
    #dbg_declare(ptr %4, !112, !DIExpression(), !113)
    #dbg_declare(ptr %5, !114, !DIExpression(), !115)
  %6 = load i32, ptr %3, align 4, !dbg !116
  %7 = urem i32 %6, 3, !dbg !117
  %8 = zext i32 %7 to i64, !dbg !118
  %9 = getelementptr inbounds [3 x %struct.box], ptr @boxes, i64 0, i64 %8, !dbg !118
  %10 = load i32, ptr %4, align 4, !dbg !119
  %11 = urem i32 %10, 3, !dbg !120
  %12 = zext i32 %11 to i64, !dbg !121
  %13 = getelementptr inbounds [3 x %struct.box], ptr @boxes, i64 0, i64 %12, !dbg !121
  call void @joined(ptr noundef %9, ptr noundef %13, ptr noundef %5) #3, !dbg !122
  %14 = call signext i32 @area(ptr noundef %5) #3, !dbg !123
  ret i32 %14, !dbg !124
}

; Function Attrs: noinline nounwind optnone
define internal void @joined(ptr noundef %0, ptr noundef %1, ptr noundef %2) #0 !dbg !125 {
  %4 = alloca ptr, align 8
  %5 = alloca ptr, align 8
  %6 = alloca ptr, align 8
  store ptr %0, ptr %4, align 8
    #dbg_declare(ptr %4, !128, !DIExpression(), !129)
  store ptr %1, ptr %5, align 8
    #dbg_declare(ptr %5, !130, !DIExpression(), !131)
  store ptr %2, ptr %6, align 8
    #dbg_declare(ptr %6, !132, !DIExpression(), !133)
  %7 = load ptr, ptr %6, align 8, !dbg !134
  %8 = load ptr, ptr %4, align 8, !dbg !135
  call void @llvm.memcpy.p0.p0.i64(ptr align 8 %7, ptr align 8 %8, i64 24, i1 false), !dbg !136
  %9 = load ptr, ptr %5, align 8, !dbg !137
  %10 = getelementptr inbounds %struct.box, ptr %9, i32 0, i32 0, !dbg !139
  %11 = getelementptr inbounds %struct.point, ptr %10, i32 0, i32 0, !dbg !140
  %12 = load i16, ptr %11, align 8, !dbg !140
  %13 = sext i16 %12 to i32, !dbg !137
  %14 = load ptr, ptr %6, align 8, !dbg !141
  %15 = getelementptr inbounds %struct.box, ptr %14, i32 0, i32 0, !dbg !142
  %16 = getelementptr inbounds %struct.point, ptr %15, i32 0, i32 0, !dbg !143
  %17 = load i16, ptr %16, align 8, !dbg !143
  %18 = sext i16 %17 to i32, !dbg !141
  %19 = icmp slt i32 %13, %18, !dbg !144
  br i1 %19, label %20, label %28, !dbg !145

20:                                               ; preds = %3
  %21 = load ptr, ptr %5, align 8, !dbg !146
  %22 = getelementptr inbounds %struct.box, ptr %21, i32 0, i32 0, !dbg !147
  %23 = getelementptr inbounds %struct.point, ptr %22, i32 0, i32 0, !dbg !148
  %24 = load i16, ptr %23, align 8, !dbg !148
  %25 = load ptr, ptr %6, align 8, !dbg !149
  %26 = getelementptr inbounds %struct.box, ptr %25, i32 0, i32 0, !dbg !150
  %27 = getelementptr inbounds %struct.point, ptr %26, i32 0, i32 0, !dbg !151
  store i16 %24, ptr %27, align 8, !dbg !152
  br label %28, !dbg !149

28:                                               ; preds = %20, %3
  %29 = load ptr, ptr %5, align 8, !dbg !153
  %30 = getelementptr inbounds %struct.box, ptr %29, i32 0, i32 0, !dbg !155
  %31 = getelementptr inbounds %struct.point, ptr %30, i32 0, i32 1, !dbg !156
  %32 = load i16, ptr %31, align 2, !dbg !156
  %33 = sext i16 %32 to i32, !dbg !153
  %34 = load ptr, ptr %6, align 8, !dbg !157
  %35 = getelementptr inbounds %struct.box, ptr %34, i32 0, i32 0, !dbg !158
  %36 = getelementptr inbounds %struct.point, ptr %35, i32 0, i32 1, !dbg !159
  %37 = load i16, ptr %36, align 2, !dbg !159
  %38 = sext i16 %37 to i32, !dbg !157
  %39 = icmp slt i32 %33, %38, !dbg !160
  br i1 %39, label %40, label %48, !dbg !161

40:                                               ; preds = %28
  %41 = load ptr, ptr %5, align 8, !dbg !162
  %42 = getelementptr inbounds %struct.box, ptr %41, i32 0, i32 0, !dbg !163
  %43 = getelementptr inbounds %struct.point, ptr %42, i32 0, i32 1, !dbg !164
  %44 = load i16, ptr %43, align 2, !dbg !164
  %45 = load ptr, ptr %6, align 8, !dbg !165
  %46 = getelementptr inbounds %struct.box, ptr %45, i32 0, i32 0, !dbg !166
  %47 = getelementptr inbounds %struct.point, ptr %46, i32 0, i32 1, !dbg !167
  store i16 %44, ptr %47, align 2, !dbg !168
  br label %48, !dbg !165

48:                                               ; preds = %40, %28
  %49 = load ptr, ptr %5, align 8, !dbg !169
  %50 = getelementptr inbounds %struct.box, ptr %49, i32 0, i32 1, !dbg !171
  %51 = getelementptr inbounds %struct.point, ptr %50, i32 0, i32 0, !dbg !172
  %52 = load i16, ptr %51, align 4, !dbg !172
  %53 = sext i16 %52 to i32, !dbg !169
  %54 = load ptr, ptr %6, align 8, !dbg !173
  %55 = getelementptr inbounds %struct.box, ptr %54, i32 0, i32 1, !dbg !174
  %56 = getelementptr inbounds %struct.point, ptr %55, i32 0, i32 0, !dbg !175
  %57 = load i16, ptr %56, align 4, !dbg !175
  %58 = sext i16 %57 to i32, !dbg !173
  %59 = icmp sgt i32 %53, %58, !dbg !176
  br i1 %59, label %60, label %68, !dbg !177

60:                                               ; preds = %48
  %61 = load ptr, ptr %5, align 8, !dbg !178
  %62 = getelementptr inbounds %struct.box, ptr %61, i32 0, i32 1, !dbg !179
  %63 = getelementptr inbounds %struct.point, ptr %62, i32 0, i32 0, !dbg !180
  %64 = load i16, ptr %63, align 4, !dbg !180
  %65 = load ptr, ptr %6, align 8, !dbg !181
  %66 = getelementptr inbounds %struct.box, ptr %65, i32 0, i32 1, !dbg !182
  %67 = getelementptr inbounds %struct.point, ptr %66, i32 0, i32 0, !dbg !183
  store i16 %64, ptr %67, align 4, !dbg !184
  br label %68, !dbg !181

68:                                               ; preds = %60, %48
  %69 = load ptr, ptr %5, align 8, !dbg !185
  %70 = getelementptr inbounds %struct.box, ptr %69, i32 0, i32 1, !dbg !187
  %71 = getelementptr inbounds %struct.point, ptr %70, i32 0, i32 1, !dbg !188
  %72 = load i16, ptr %71, align 2, !dbg !188
  %73 = sext i16 %72 to i32, !dbg !185
  %74 = load ptr, ptr %6, align 8, !dbg !189
  %75 = getelementptr inbounds %struct.box, ptr %74, i32 0, i32 1, !dbg !190
  %76 = getelementptr inbounds %struct.point, ptr %75, i32 0, i32 1, !dbg !191
  %77 = load i16, ptr %76, align 2, !dbg !191
  %78 = sext i16 %77 to i32, !dbg !189
  %79 = icmp sgt i32 %73, %78, !dbg !192
  br i1 %79, label %80, label %88, !dbg !193

80:                                               ; preds = %68
  %81 = load ptr, ptr %5, align 8, !dbg !194
  %82 = getelementptr inbounds %struct.box, ptr %81, i32 0, i32 1, !dbg !195
  %83 = getelementptr inbounds %struct.point, ptr %82, i32 0, i32 1, !dbg !196
  %84 = load i16, ptr %83, align 2, !dbg !196
  %85 = load ptr, ptr %6, align 8, !dbg !197
  %86 = getelementptr inbounds %struct.box, ptr %85, i32 0, i32 1, !dbg !198
  %87 = getelementptr inbounds %struct.point, ptr %86, i32 0, i32 1, !dbg !199
  store i16 %84, ptr %87, align 2, !dbg !200
  br label %88, !dbg !197

88:                                               ; preds = %80, %68
  ret void, !dbg !201
}

; Function Attrs: noinline nounwind optnone
define dso_local signext i32 @packed(i32 noundef signext %0) #0 !dbg !202 {
  %2 = alloca i32, align 4
  %3 = alloca i32, align 4
  %4 = alloca i32, align 4
  %5 = alloca i32, align 4
  store i32 %0, ptr %2, align 4
    #dbg_declare(ptr %2, !205, !DIExpression(), !206)
    #dbg_declare(ptr %3, !207, !DIExpression(), !208)
  store i32 0, ptr %3, align 4, !dbg !208
    #dbg_declare(ptr %4, !209, !DIExpression(), !211)
  store i32 0, ptr %4, align 4, !dbg !211
  br label %6, !dbg !212

6:                                                ; preds = %34, %1
  %7 = load i32, ptr %4, align 4, !dbg !213
  %8 = icmp slt i32 %7, 4, !dbg !215
  br i1 %8, label %9, label %37, !dbg !216

9:                                                ; preds = %6
  %10 = load i32, ptr %2, align 4, !dbg !217
  %11 = load i32, ptr %4, align 4, !dbg !219
  %12 = add nsw i32 %10, %11, !dbg !220
  %13 = trunc i32 %12 to i8, !dbg !221
  %14 = load i32, ptr %4, align 4, !dbg !222
  %15 = sext i32 %14 to i64, !dbg !223
  %16 = getelementptr inbounds [4 x %struct.tight], ptr @tights, i64 0, i64 %15, !dbg !223
  %17 = getelementptr inbounds %struct.tight, ptr %16, i32 0, i32 0, !dbg !224
  store i8 %13, ptr %17, align 1, !dbg !225
  %18 = load i32, ptr %2, align 4, !dbg !226
  %19 = load i32, ptr %4, align 4, !dbg !227
  %20 = add nsw i32 %19, 1, !dbg !228
  %21 = mul nsw i32 %18, %20, !dbg !229
  %22 = load i32, ptr %4, align 4, !dbg !230
  %23 = sext i32 %22 to i64, !dbg !231
  %24 = getelementptr inbounds [4 x %struct.tight], ptr @tights, i64 0, i64 %23, !dbg !231
  %25 = getelementptr inbounds %struct.tight, ptr %24, i32 0, i32 1, !dbg !232
  store i32 %21, ptr %25, align 1, !dbg !233
  %26 = load i32, ptr %2, align 4, !dbg !234
  %27 = load i32, ptr %4, align 4, !dbg !235
  %28 = ashr i32 %26, %27, !dbg !236
  %29 = trunc i32 %28 to i16, !dbg !237
  %30 = load i32, ptr %4, align 4, !dbg !238
  %31 = sext i32 %30 to i64, !dbg !239
  %32 = getelementptr inbounds [4 x %struct.tight], ptr @tights, i64 0, i64 %31, !dbg !239
  %33 = getelementptr inbounds %struct.tight, ptr %32, i32 0, i32 2, !dbg !240
  store i16 %29, ptr %33, align 1, !dbg !241
  br label %34, !dbg !242

34:                                               ; preds = %9
  %35 = load i32, ptr %4, align 4, !dbg !243
  %36 = add nsw i32 %35, 1, !dbg !243
  store i32 %36, ptr %4, align 4, !dbg !243
  br label %6, !dbg !244, !llvm.loop !245

37:                                               ; preds = %6
    #dbg_declare(ptr %5, !247, !DIExpression(), !249)
  store i32 0, ptr %5, align 4, !dbg !249
  br label %38, !dbg !250

38:                                               ; preds = %64, %37
  %39 = load i32, ptr %5, align 4, !dbg !251
  %40 = icmp slt i32 %39, 4, !dbg !253
  br i1 %40, label %41, label %67, !dbg !254

41:                                               ; preds = %38
  %42 = load i32, ptr %5, align 4, !dbg !255
  %43 = sext i32 %42 to i64, !dbg !256
  %44 = getelementptr inbounds [4 x %struct.tight], ptr @tights, i64 0, i64 %43, !dbg !256
  %45 = getelementptr inbounds %struct.tight, ptr %44, i32 0, i32 0, !dbg !257
  %46 = load i8, ptr %45, align 1, !dbg !257
  %47 = zext i8 %46 to i32, !dbg !256
  %48 = load i32, ptr %5, align 4, !dbg !258
  %49 = sext i32 %48 to i64, !dbg !259
  %50 = getelementptr inbounds [4 x %struct.tight], ptr @tights, i64 0, i64 %49, !dbg !259
  %51 = getelementptr inbounds %struct.tight, ptr %50, i32 0, i32 1, !dbg !260
  %52 = load i32, ptr %51, align 1, !dbg !260
  %53 = mul nsw i32 %52, 3, !dbg !261
  %54 = add nsw i32 %47, %53, !dbg !262
  %55 = load i32, ptr %5, align 4, !dbg !263
  %56 = sext i32 %55 to i64, !dbg !264
  %57 = getelementptr inbounds [4 x %struct.tight], ptr @tights, i64 0, i64 %56, !dbg !264
  %58 = getelementptr inbounds %struct.tight, ptr %57, i32 0, i32 2, !dbg !265
  %59 = load i16, ptr %58, align 1, !dbg !265
  %60 = sext i16 %59 to i32, !dbg !264
  %61 = sub nsw i32 %54, %60, !dbg !266
  %62 = load i32, ptr %3, align 4, !dbg !267
  %63 = add nsw i32 %62, %61, !dbg !267
  store i32 %63, ptr %3, align 4, !dbg !267
  br label %64, !dbg !268

64:                                               ; preds = %41
  %65 = load i32, ptr %5, align 4, !dbg !269
  %66 = add nsw i32 %65, 1, !dbg !269
  store i32 %66, ptr %5, align 4, !dbg !269
  br label %38, !dbg !270, !llvm.loop !271

67:                                               ; preds = %38
  %68 = load i32, ptr %3, align 4, !dbg !273
  %69 = add nsw i32 %68, 7, !dbg !274
  ret i32 %69, !dbg !275
}

; Function Attrs: noinline nounwind optnone
define dso_local signext i32 @fields(i32 noundef signext %0, i32 noundef signext %1, i32 noundef signext %2, i32 noundef signext %3) #0 !dbg !276 {
  %5 = alloca i32, align 4
  %6 = alloca i32, align 4
  %7 = alloca i32, align 4
  %8 = alloca i32, align 4
  %9 = alloca %struct.flags, align 4
  store i32 %0, ptr %5, align 4
    #dbg_declare(ptr %5, !279, !DIExpression(), !280)
  store i32 %1, ptr %6, align 4
    #dbg_declare(ptr %6, !281, !DIExpression(), !282)
  store i32 %2, ptr %7, align 4
    #dbg_declare(ptr %7, !283, !DIExpression(), !284)
  store i32 %3, ptr %8, align 4
    #dbg_declare(ptr %8, !285, !DIExpression(), !286)
    #dbg_declare(ptr %9, !287, !DIExpression(), !294)
  call void @llvm.memset.p0.i64(ptr align 4 %9, i8 0, i64 4, i1 false), !dbg !294
  %10 = load i32, ptr %5, align 4, !dbg !295
  %11 = load i32, ptr %9, align 4, !dbg !296
  %12 = and i32 %10, 7, !dbg !296
  %13 = and i32 %11, -8, !dbg !296
  %14 = or i32 %13, %12, !dbg !296
  store i32 %14, ptr %9, align 4, !dbg !296
  %15 = load i32, ptr %6, align 4, !dbg !297
  %16 = load i32, ptr %9, align 4, !dbg !298
  %17 = and i32 %15, 31, !dbg !298
  %18 = shl i32 %17, 3, !dbg !298
  %19 = and i32 %16, -249, !dbg !298
  %20 = or i32 %19, %18, !dbg !298
  store i32 %20, ptr %9, align 4, !dbg !298
  %21 = load i32, ptr %7, align 4, !dbg !299
  %22 = load i32, ptr %9, align 4, !dbg !300
  %23 = and i32 %21, 2047, !dbg !300
  %24 = shl i32 %23, 8, !dbg !300
  %25 = and i32 %22, -524033, !dbg !300
  %26 = or i32 %25, %24, !dbg !300
  store i32 %26, ptr %9, align 4, !dbg !300
  %27 = load i32, ptr %8, align 4, !dbg !301
  %28 = load i32, ptr %9, align 4, !dbg !302
  %29 = and i32 %27, 63, !dbg !302
  %30 = shl i32 %29, 19, !dbg !302
  %31 = and i32 %28, -33030145, !dbg !302
  %32 = or i32 %31, %30, !dbg !302
  store i32 %32, ptr %9, align 4, !dbg !302
  %33 = shl i32 %29, 26, !dbg !302
  %34 = ashr i32 %33, 26, !dbg !302
  %35 = load i32, ptr %9, align 4, !dbg !303
  %36 = and i32 %35, 7, !dbg !303
  %37 = load i32, ptr %9, align 4, !dbg !304
  %38 = lshr i32 %37, 3, !dbg !304
  %39 = and i32 %38, 31, !dbg !304
  %40 = mul nsw i32 %39, 10, !dbg !305
  %41 = add nsw i32 %36, %40, !dbg !306
  %42 = load i32, ptr %9, align 4, !dbg !307
  %43 = lshr i32 %42, 8, !dbg !307
  %44 = and i32 %43, 2047, !dbg !307
  %45 = mul nsw i32 %44, 1000, !dbg !308
  %46 = add nsw i32 %41, %45, !dbg !309
  %47 = load i32, ptr %9, align 4, !dbg !310
  %48 = shl i32 %47, 7, !dbg !310
  %49 = ashr i32 %48, 26, !dbg !310
  %50 = add nsw i32 %46, %49, !dbg !311
  ret i32 %50, !dbg !312
}

; Function Attrs: nocallback nofree nounwind willreturn memory(argmem: write)
declare void @llvm.memset.p0.i64(ptr nocapture writeonly, i8, i64, i1 immarg) #1

; Function Attrs: noinline nounwind optnone
define dso_local signext i32 @reordered(i32 noundef signext %0) #0 !dbg !313 {
  %2 = alloca i32, align 4
  %3 = alloca %union.either, align 4
  %4 = alloca i32, align 4
  %5 = alloca i8, align 1
  store i32 %0, ptr %2, align 4
    #dbg_declare(ptr %2, !316, !DIExpression(), !317)
    #dbg_declare(ptr %3, !318, !DIExpression(), !324)
  %6 = load i32, ptr %2, align 4, !dbg !325
  store i32 %6, ptr %3, align 4, !dbg !326
    #dbg_declare(ptr %4, !327, !DIExpression(), !329)
  store i32 0, ptr %4, align 4, !dbg !329
  br label %7, !dbg !330

7:                                                ; preds = %28, %1
  %8 = load i32, ptr %4, align 4, !dbg !331
  %9 = icmp slt i32 %8, 2, !dbg !333
  br i1 %9, label %10, label %31, !dbg !334

10:                                               ; preds = %7
    #dbg_declare(ptr %5, !335, !DIExpression(), !337)
  %11 = load i32, ptr %4, align 4, !dbg !338
  %12 = sext i32 %11 to i64, !dbg !339
  %13 = getelementptr inbounds [4 x i8], ptr %3, i64 0, i64 %12, !dbg !339
  %14 = load i8, ptr %13, align 1, !dbg !339
  store i8 %14, ptr %5, align 1, !dbg !337
  %15 = load i32, ptr %4, align 4, !dbg !340
  %16 = sub nsw i32 3, %15, !dbg !341
  %17 = sext i32 %16 to i64, !dbg !342
  %18 = getelementptr inbounds [4 x i8], ptr %3, i64 0, i64 %17, !dbg !342
  %19 = load i8, ptr %18, align 1, !dbg !342
  %20 = load i32, ptr %4, align 4, !dbg !343
  %21 = sext i32 %20 to i64, !dbg !344
  %22 = getelementptr inbounds [4 x i8], ptr %3, i64 0, i64 %21, !dbg !344
  store i8 %19, ptr %22, align 1, !dbg !345
  %23 = load i8, ptr %5, align 1, !dbg !346
  %24 = load i32, ptr %4, align 4, !dbg !347
  %25 = sub nsw i32 3, %24, !dbg !348
  %26 = sext i32 %25 to i64, !dbg !349
  %27 = getelementptr inbounds [4 x i8], ptr %3, i64 0, i64 %26, !dbg !349
  store i8 %23, ptr %27, align 1, !dbg !350
  br label %28, !dbg !351

28:                                               ; preds = %10
  %29 = load i32, ptr %4, align 4, !dbg !352
  %30 = add nsw i32 %29, 1, !dbg !352
  store i32 %30, ptr %4, align 4, !dbg !352
  br label %7, !dbg !353, !llvm.loop !354

31:                                               ; preds = %7
  %32 = load i32, ptr %3, align 4, !dbg !356
  ret i32 %32, !dbg !357
}

; Function Attrs: noinline nounwind optnone
define dso_local signext i32 @moved(i32 noundef signext %0, i32 noundef signext %1) #0 !dbg !358 {
  %3 = alloca i32, align 4
  %4 = alloca i32, align 4
  %5 = alloca %struct.box, align 8
  store i32 %0, ptr %3, align 4
    #dbg_declare(ptr %3, !361, !DIExpression(), !362)
  store i32 %1, ptr %4, align 4
    #dbg_declare(ptr %4, !363, !DIExpression(), !364)
    #dbg_declare(ptr %5, !365, !DIExpression(), !366)
  %6 = load i32, ptr %3, align 4, !dbg !367
  %7 = urem i32 %6, 3, !dbg !368
  %8 = zext i32 %7 to i64, !dbg !369
  %9 = getelementptr inbounds [3 x %struct.box], ptr @boxes, i64 0, i64 %8, !dbg !369
  call void @llvm.memcpy.p0.p0.i64(ptr align 8 %5, ptr align 8 %9, i64 24, i1 false), !dbg !369
  %10 = getelementptr inbounds %struct.box, ptr %5, i32 0, i32 0, !dbg !370
  %11 = getelementptr inbounds %struct.point, ptr %10, i32 0, i32 0, !dbg !371
  %12 = load i16, ptr %11, align 8, !dbg !371
  %13 = sext i16 %12 to i32, !dbg !372
  %14 = load i32, ptr %4, align 4, !dbg !373
  %15 = add nsw i32 %13, %14, !dbg !374
  %16 = trunc i32 %15 to i16, !dbg !375
  %17 = getelementptr inbounds %struct.box, ptr %5, i32 0, i32 0, !dbg !376
  %18 = getelementptr inbounds %struct.point, ptr %17, i32 0, i32 0, !dbg !377
  store i16 %16, ptr %18, align 8, !dbg !378
  %19 = call signext i32 @area(ptr noundef %5) #3, !dbg !379
  %20 = load i32, ptr %3, align 4, !dbg !380
  %21 = urem i32 %20, 3, !dbg !381
  %22 = zext i32 %21 to i64, !dbg !382
  %23 = getelementptr inbounds [3 x %struct.box], ptr @boxes, i64 0, i64 %22, !dbg !382
  %24 = call signext i32 @area(ptr noundef %23) #3, !dbg !383
  %25 = sub nsw i32 %19, %24, !dbg !384
  ret i32 %25, !dbg !385
}

; Function Attrs: nocallback nofree nounwind willreturn memory(argmem: readwrite)
declare void @llvm.memcpy.p0.p0.i64(ptr noalias nocapture writeonly, ptr noalias nocapture readonly, i64, i1 immarg) #2

attributes #0 = { noinline nounwind optnone "frame-pointer"="all" "no-builtins" "no-trapping-math"="true" "stack-protector-buffer-size"="8" "target-cpu"="generic-rv64" "target-features"="+64bit,+m,+relax,+zmmul,-a,-b,-c,-d,-e,-experimental-smmpm,-experimental-smnpm,-experimental-ssnpm,-experimental-sspm,-experimental-ssqosid,-experimental-supm,-experimental-zacas,-experimental-zalasr,-experimental-zicfilp,-experimental-zicfiss,-f,-h,-shcounterenw,-shgatpa,-shtvala,-shvsatpa,-shvstvala,-shvstvecd,-smaia,-smcdeleg,-smcsrind,-smepmp,-smstateen,-ssaia,-ssccfg,-ssccptr,-sscofpmf,-sscounterenw,-sscsrind,-ssstateen,-ssstrict,-sstc,-sstvala,-sstvecd,-ssu64xl,-svade,-svadu,-svbare,-svinval,-svnapot,-svpbmt,-v,-xcvalu,-xcvbi,-xcvbitmanip,-xcvelw,-xcvmac,-xcvmem,-xcvsimd,-xsfcease,-xsfvcp,-xsfvfnrclipxfqf,-xsfvfwmaccqqq,-xsfvqmaccdod,-xsfvqmaccqoq,-xsifivecdiscarddlone,-xsifivecflushdlone,-xtheadba,-xtheadbb,-xtheadbs,-xtheadcmo,-xtheadcondmov,-xtheadfmemidx,-xtheadmac,-xtheadmemidx,-xtheadmempair,-xtheadsync,-xtheadvdot,-xventanacondops,-xwchc,-za128rs,-za64rs,-zaamo,-zabha,-zalrsc,-zama16b,-zawrs,-zba,-zbb,-zbc,-zbkb,-zbkc,-zbkx,-zbs,-zca,-zcb,-zcd,-zce,-zcf,-zcmop,-zcmp,-zcmt,-zdinx,-zfa,-zfbfmin,-zfh,-zfhmin,-zfinx,-zhinx,-zhinxmin,-zic64b,-zicbom,-zicbop,-zicboz,-ziccamoa,-ziccif,-zicclsm,-ziccrse,-zicntr,-zicond,-zicsr,-zifencei,-zihintntl,-zihintpause,-zihpm,-zimop,-zk,-zkn,-zknd,-zkne,-zknh,-zkr,-zks,-zksed,-zksh,-zkt,-ztso,-zvbb,-zvbc,-zve32f,-zve32x,-zve64d,-zve64f,-zve64x,-zvfbfmin,-zvfbfwma,-zvfh,-zvfhmin,-zvkb,-zvkg,-zvkn,-zvknc,-zvkned,-zvkng,-zvknha,-zvknhb,-zvks,-zvksc,-zvksed,-zvksg,-zvksh,-zvkt,-zvl1024b,-zvl128b,-zvl16384b,-zvl2048b,-zvl256b,-zvl32768b,-zvl32b,-zvl4096b,-zvl512b,-zvl64b,-zvl65536b,-zvl8192b" }
attributes #1 = { nocallback nofree nounwind willreturn memory(argmem: write) }
attributes #2 = { nocallback nofree nounwind willreturn memory(argmem: readwrite) }
attributes #3 = { nobuiltin "no-builtins" }

!llvm.dbg.cu = !{!2}
!llvm.module.flags = !{!33, !34, !35, !36, !37, !39, !40, !41, !42}
!llvm.ident = !{!43}

!0 = !DIGlobalVariableExpression(var: !1, expr: !DIExpression())
!1 = distinct !DIGlobalVariable(name: "boxes", scope: !2, file: !3, line: 23, type: !19, isLocal: true, isDefinition: true)
!2 = distinct !DICompileUnit(language: DW_LANG_C11, file: !3, producer: "Debian clang version 19.1.7 (3~deb12u1)", isOptimized: false, runtimeVersion: 0, emissionKind: FullDebug, retainedTypes: !4, globals: !8, splitDebugInlining: false, nameTableKind: None)
!3 = !DIFile(filename: "structs.c", directory: ".", checksumkind: CSK_MD5, checksum: "a2c7cc1ed275754bda8e2e1cf612dec9")
!4 = !{!5, !6, !7}
!5 = !DIBasicType(name: "unsigned char", size: 8, encoding: DW_ATE_unsigned_char)
!6 = !DIBasicType(name: "short", size: 16, encoding: DW_ATE_signed)
!7 = !DIBasicType(name: "int", size: 32, encoding: DW_ATE_signed)
!8 = !{!9, !0}
!9 = !DIGlobalVariableExpression(var: !10, expr: !DIExpression())
!10 = distinct !DIGlobalVariable(name: "tights", scope: !2, file: !3, line: 43, type: !11, isLocal: true, isDefinition: true)
!11 = !DICompositeType(tag: DW_TAG_array_type, baseType: !12, size: 224, elements: !17)
!12 = distinct !DICompositeType(tag: DW_TAG_structure_type, name: "tight", file: !3, line: 10, size: 56, elements: !13)
!13 = !{!14, !15, !16}
!14 = !DIDerivedType(tag: DW_TAG_member, name: "tag", scope: !12, file: !3, line: 11, baseType: !5, size: 8)
!15 = !DIDerivedType(tag: DW_TAG_member, name: "number", scope: !12, file: !3, line: 12, baseType: !7, size: 32, offset: 8)
!16 = !DIDerivedType(tag: DW_TAG_member, name: "rest", scope: !12, file: !3, line: 13, baseType: !6, size: 16, offset: 40)
!17 = !{!18}
!18 = !DISubrange(count: 4)
!19 = !DICompositeType(tag: DW_TAG_array_type, baseType: !20, size: 576, elements: !31)
!20 = distinct !DICompositeType(tag: DW_TAG_structure_type, name: "box", file: !3, line: 5, size: 192, elements: !21)
!21 = !{!22, !27, !28, !29}
!22 = !DIDerivedType(tag: DW_TAG_member, name: "low", scope: !20, file: !3, line: 6, baseType: !23, size: 32)
!23 = distinct !DICompositeType(tag: DW_TAG_structure_type, name: "point", file: !3, line: 2, size: 32, elements: !24)
!24 = !{!25, !26}
!25 = !DIDerivedType(tag: DW_TAG_member, name: "x", scope: !23, file: !3, line: 3, baseType: !6, size: 16)
!26 = !DIDerivedType(tag: DW_TAG_member, name: "y", scope: !23, file: !3, line: 3, baseType: !6, size: 16, offset: 16)
!27 = !DIDerivedType(tag: DW_TAG_member, name: "high", scope: !20, file: !3, line: 6, baseType: !23, size: 32, offset: 32)
!28 = !DIDerivedType(tag: DW_TAG_member, name: "colour", scope: !20, file: !3, line: 7, baseType: !5, size: 8, offset: 64)
!29 = !DIDerivedType(tag: DW_TAG_member, name: "weight", scope: !20, file: !3, line: 8, baseType: !30, size: 64, offset: 128)
!30 = !DIBasicType(name: "long", size: 64, encoding: DW_ATE_signed)
!31 = !{!32}
!32 = !DISubrange(count: 3)
!33 = !{i32 7, !"Dwarf Version", i32 5}
!34 = !{i32 2, !"Debug Info Version", i32 3}
!35 = !{i32 1, !"wchar_size", i32 4}
!36 = !{i32 1, !"target-abi", !"lp64"}
!37 = !{i32 6, !"riscv-isa", !38}
!38 = !{!"rv64i2p1_m2p0_zmmul1p0"}
!39 = !{i32 8, !"PIC Level", i32 2}
!40 = !{i32 7, !"PIE Level", i32 2}
!41 = !{i32 7, !"frame-pointer", i32 2}
!42 = !{i32 8, !"SmallDataLimit", i32 8}
!43 = !{!"Debian clang version 19.1.7 (3~deb12u1)"}
!44 = distinct !DISubprogram(name: "area_of", scope: !3, file: !3, line: 25, type: !45, scopeLine: 25, flags: DIFlagPrototyped, spFlags: DISPFlagDefinition, unit: !2, retainedNodes: !48)
!45 = !DISubroutineType(types: !46)
!46 = !{!7, !47}
!47 = !DIBasicType(name: "unsigned int", size: 32, encoding: DW_ATE_unsigned)
!48 = !{}
!49 = !DILocalVariable(name: "i", arg: 1, scope: !44, file: !3, line: 25, type: !47)
!50 = !DILocation(line: 25, column: 22, scope: !44)
!51 = !DILocation(line: 25, column: 46, scope: !44)
!52 = !DILocation(line: 25, column: 48, scope: !44)
!53 = !DILocation(line: 25, column: 40, scope: !44)
!54 = !DILocation(line: 25, column: 34, scope: !44)
!55 = !DILocation(line: 25, column: 27, scope: !44)
!56 = distinct !DISubprogram(name: "area", scope: !3, file: !3, line: 24, type: !57, scopeLine: 24, flags: DIFlagPrototyped, spFlags: DISPFlagLocalToUnit | DISPFlagDefinition, unit: !2, retainedNodes: !48)
!57 = !DISubroutineType(types: !58)
!58 = !{!7, !59}
!59 = !DIDerivedType(tag: DW_TAG_pointer_type, baseType: !60, size: 64)
!60 = !DIDerivedType(tag: DW_TAG_const_type, baseType: !20)
!61 = !DILocalVariable(name: "b", arg: 1, scope: !56, file: !3, line: 24, type: !59)
!62 = !DILocation(line: 24, column: 35, scope: !56)
!63 = !DILocation(line: 24, column: 48, scope: !56)
!64 = !DILocation(line: 24, column: 51, scope: !56)
!65 = !DILocation(line: 24, column: 56, scope: !56)
!66 = !DILocation(line: 24, column: 60, scope: !56)
!67 = !DILocation(line: 24, column: 63, scope: !56)
!68 = !DILocation(line: 24, column: 67, scope: !56)
!69 = !DILocation(line: 24, column: 58, scope: !56)
!70 = !DILocation(line: 24, column: 73, scope: !56)
!71 = !DILocation(line: 24, column: 76, scope: !56)
!72 = !DILocation(line: 24, column: 81, scope: !56)
!73 = !DILocation(line: 24, column: 85, scope: !56)
!74 = !DILocation(line: 24, column: 88, scope: !56)
!75 = !DILocation(line: 24, column: 92, scope: !56)
!76 = !DILocation(line: 24, column: 83, scope: !56)
!77 = !DILocation(line: 24, column: 70, scope: !56)
!78 = !DILocation(line: 24, column: 40, scope: !56)
!79 = distinct !DISubprogram(name: "weight", scope: !3, file: !3, line: 26, type: !80, scopeLine: 26, flags: DIFlagPrototyped, spFlags: DISPFlagDefinition, unit: !2, retainedNodes: !48)
!80 = !DISubroutineType(types: !81)
!81 = !{!30}
!82 = !DILocalVariable(name: "sum", scope: !79, file: !3, line: 27, type: !30)
!83 = !DILocation(line: 27, column: 10, scope: !79)
!84 = !DILocalVariable(name: "b", scope: !85, file: !3, line: 28, type: !86)
!85 = distinct !DILexicalBlock(scope: !79, file: !3, line: 28, column: 5)
!86 = !DIDerivedType(tag: DW_TAG_pointer_type, baseType: !20, size: 64)
!87 = !DILocation(line: 28, column: 22, scope: !85)
!88 = !DILocation(line: 28, column: 10, scope: !85)
!89 = !DILocation(line: 28, column: 33, scope: !90)
!90 = distinct !DILexicalBlock(scope: !85, file: !3, line: 28, column: 5)
!91 = !DILocation(line: 28, column: 35, scope: !90)
!92 = !DILocation(line: 28, column: 5, scope: !85)
!93 = !DILocation(line: 28, column: 60, scope: !90)
!94 = !DILocation(line: 28, column: 63, scope: !90)
!95 = !DILocation(line: 28, column: 72, scope: !90)
!96 = !DILocation(line: 28, column: 75, scope: !90)
!97 = !DILocation(line: 28, column: 70, scope: !90)
!98 = !DILocation(line: 28, column: 57, scope: !90)
!99 = !DILocation(line: 28, column: 53, scope: !90)
!100 = !DILocation(line: 28, column: 49, scope: !90)
!101 = !DILocation(line: 28, column: 5, scope: !90)
!102 = distinct !{!102, !92, !103, !104}
!103 = !DILocation(line: 28, column: 75, scope: !85)
!104 = !{!"llvm.loop.mustprogress"}
!105 = !DILocation(line: 29, column: 12, scope: !79)
!106 = !DILocation(line: 29, column: 5, scope: !79)
!107 = distinct !DISubprogram(name: "joined_area", scope: !3, file: !3, line: 38, type: !108, scopeLine: 38, flags: DIFlagPrototyped, spFlags: DISPFlagDefinition, unit: !2, retainedNodes: !48)
!108 = !DISubroutineType(types: !109)
!109 = !{!7, !47, !47}
!110 = !DILocalVariable(name: "i", arg: 1, scope: !107, file: !3, line: 38, type: !47)
!111 = !DILocation(line: 38, column: 26, scope: !107)
!112 = !DILocalVariable(name: "j", arg: 2, scope: !107, file: !3, line: 38, type: !47)
!113 = !DILocation(line: 38, column: 38, scope: !107)
!114 = !DILocalVariable(name: "b", scope: !107, file: !3, line: 39, type: !20)
!115 = !DILocation(line: 39, column: 16, scope: !107)
!116 = !DILocation(line: 40, column: 19, scope: !107)
!117 = !DILocation(line: 40, column: 21, scope: !107)
!118 = !DILocation(line: 40, column: 13, scope: !107)
!119 = !DILocation(line: 40, column: 34, scope: !107)
!120 = !DILocation(line: 40, column: 36, scope: !107)
!121 = !DILocation(line: 40, column: 28, scope: !107)
!122 = !DILocation(line: 40, column: 5, scope: !107)
!123 = !DILocation(line: 41, column: 12, scope: !107)
!124 = !DILocation(line: 41, column: 5, scope: !107)
!125 = distinct !DISubprogram(name: "joined", scope: !3, file: !3, line: 31, type: !126, scopeLine: 31, flags: DIFlagPrototyped, spFlags: DISPFlagLocalToUnit | DISPFlagDefinition, unit: !2, retainedNodes: !48)
!126 = !DISubroutineType(types: !127)
!127 = !{null, !86, !86, !86}
!128 = !DILocalVariable(name: "a", arg: 1, scope: !125, file: !3, line: 31, type: !86)
!129 = !DILocation(line: 31, column: 32, scope: !125)
!130 = !DILocalVariable(name: "b", arg: 2, scope: !125, file: !3, line: 31, type: !86)
!131 = !DILocation(line: 31, column: 47, scope: !125)
!132 = !DILocalVariable(name: "to", arg: 3, scope: !125, file: !3, line: 31, type: !86)
!133 = !DILocation(line: 31, column: 62, scope: !125)
!134 = !DILocation(line: 32, column: 6, scope: !125)
!135 = !DILocation(line: 32, column: 12, scope: !125)
!136 = !DILocation(line: 32, column: 11, scope: !125)
!137 = !DILocation(line: 33, column: 9, scope: !138)
!138 = distinct !DILexicalBlock(scope: !125, file: !3, line: 33, column: 9)
!139 = !DILocation(line: 33, column: 12, scope: !138)
!140 = !DILocation(line: 33, column: 16, scope: !138)
!141 = !DILocation(line: 33, column: 20, scope: !138)
!142 = !DILocation(line: 33, column: 24, scope: !138)
!143 = !DILocation(line: 33, column: 28, scope: !138)
!144 = !DILocation(line: 33, column: 18, scope: !138)
!145 = !DILocation(line: 33, column: 9, scope: !125)
!146 = !DILocation(line: 33, column: 43, scope: !138)
!147 = !DILocation(line: 33, column: 46, scope: !138)
!148 = !DILocation(line: 33, column: 50, scope: !138)
!149 = !DILocation(line: 33, column: 31, scope: !138)
!150 = !DILocation(line: 33, column: 35, scope: !138)
!151 = !DILocation(line: 33, column: 39, scope: !138)
!152 = !DILocation(line: 33, column: 41, scope: !138)
!153 = !DILocation(line: 34, column: 9, scope: !154)
!154 = distinct !DILexicalBlock(scope: !125, file: !3, line: 34, column: 9)
!155 = !DILocation(line: 34, column: 12, scope: !154)
!156 = !DILocation(line: 34, column: 16, scope: !154)
!157 = !DILocation(line: 34, column: 20, scope: !154)
!158 = !DILocation(line: 34, column: 24, scope: !154)
!159 = !DILocation(line: 34, column: 28, scope: !154)
!160 = !DILocation(line: 34, column: 18, scope: !154)
!161 = !DILocation(line: 34, column: 9, scope: !125)
!162 = !DILocation(line: 34, column: 43, scope: !154)
!163 = !DILocation(line: 34, column: 46, scope: !154)
!164 = !DILocation(line: 34, column: 50, scope: !154)
!165 = !DILocation(line: 34, column: 31, scope: !154)
!166 = !DILocation(line: 34, column: 35, scope: !154)
!167 = !DILocation(line: 34, column: 39, scope: !154)
!168 = !DILocation(line: 34, column: 41, scope: !154)
!169 = !DILocation(line: 35, column: 9, scope: !170)
!170 = distinct !DILexicalBlock(scope: !125, file: !3, line: 35, column: 9)
!171 = !DILocation(line: 35, column: 12, scope: !170)
!172 = !DILocation(line: 35, column: 17, scope: !170)
!173 = !DILocation(line: 35, column: 21, scope: !170)
!174 = !DILocation(line: 35, column: 25, scope: !170)
!175 = !DILocation(line: 35, column: 30, scope: !170)
!176 = !DILocation(line: 35, column: 19, scope: !170)
!177 = !DILocation(line: 35, column: 9, scope: !125)
!178 = !DILocation(line: 35, column: 46, scope: !170)
!179 = !DILocation(line: 35, column: 49, scope: !170)
!180 = !DILocation(line: 35, column: 54, scope: !170)
!181 = !DILocation(line: 35, column: 33, scope: !170)
!182 = !DILocation(line: 35, column: 37, scope: !170)
!183 = !DILocation(line: 35, column: 42, scope: !170)
!184 = !DILocation(line: 35, column: 44, scope: !170)
!185 = !DILocation(line: 36, column: 9, scope: !186)
!186 = distinct !DILexicalBlock(scope: !125, file: !3, line: 36, column: 9)
!187 = !DILocation(line: 36, column: 12, scope: !186)
!188 = !DILocation(line: 36, column: 17, scope: !186)
!189 = !DILocation(line: 36, column: 21, scope: !186)
!190 = !DILocation(line: 36, column: 25, scope: !186)
!191 = !DILocation(line: 36, column: 30, scope: !186)
!192 = !DILocation(line: 36, column: 19, scope: !186)
!193 = !DILocation(line: 36, column: 9, scope: !125)
!194 = !DILocation(line: 36, column: 46, scope: !186)
!195 = !DILocation(line: 36, column: 49, scope: !186)
!196 = !DILocation(line: 36, column: 54, scope: !186)
!197 = !DILocation(line: 36, column: 33, scope: !186)
!198 = !DILocation(line: 36, column: 37, scope: !186)
!199 = !DILocation(line: 36, column: 42, scope: !186)
!200 = !DILocation(line: 36, column: 44, scope: !186)
!201 = !DILocation(line: 37, column: 1, scope: !125)
!202 = distinct !DISubprogram(name: "packed", scope: !3, file: !3, line: 44, type: !203, scopeLine: 44, flags: DIFlagPrototyped, spFlags: DISPFlagDefinition, unit: !2, retainedNodes: !48)
!203 = !DISubroutineType(types: !204)
!204 = !{!7, !7}
!205 = !DILocalVariable(name: "n", arg: 1, scope: !202, file: !3, line: 44, type: !7)
!206 = !DILocation(line: 44, column: 16, scope: !202)
!207 = !DILocalVariable(name: "sum", scope: !202, file: !3, line: 45, type: !7)
!208 = !DILocation(line: 45, column: 9, scope: !202)
!209 = !DILocalVariable(name: "i", scope: !210, file: !3, line: 46, type: !7)
!210 = distinct !DILexicalBlock(scope: !202, file: !3, line: 46, column: 5)
!211 = !DILocation(line: 46, column: 14, scope: !210)
!212 = !DILocation(line: 46, column: 10, scope: !210)
!213 = !DILocation(line: 46, column: 21, scope: !214)
!214 = distinct !DILexicalBlock(scope: !210, file: !3, line: 46, column: 5)
!215 = !DILocation(line: 46, column: 23, scope: !214)
!216 = !DILocation(line: 46, column: 5, scope: !210)
!217 = !DILocation(line: 47, column: 41, scope: !218)
!218 = distinct !DILexicalBlock(scope: !214, file: !3, line: 46, column: 33)
!219 = !DILocation(line: 47, column: 45, scope: !218)
!220 = !DILocation(line: 47, column: 43, scope: !218)
!221 = !DILocation(line: 47, column: 25, scope: !218)
!222 = !DILocation(line: 47, column: 16, scope: !218)
!223 = !DILocation(line: 47, column: 9, scope: !218)
!224 = !DILocation(line: 47, column: 19, scope: !218)
!225 = !DILocation(line: 47, column: 23, scope: !218)
!226 = !DILocation(line: 48, column: 28, scope: !218)
!227 = !DILocation(line: 48, column: 33, scope: !218)
!228 = !DILocation(line: 48, column: 35, scope: !218)
!229 = !DILocation(line: 48, column: 30, scope: !218)
!230 = !DILocation(line: 48, column: 16, scope: !218)
!231 = !DILocation(line: 48, column: 9, scope: !218)
!232 = !DILocation(line: 48, column: 19, scope: !218)
!233 = !DILocation(line: 48, column: 26, scope: !218)
!234 = !DILocation(line: 49, column: 34, scope: !218)
!235 = !DILocation(line: 49, column: 39, scope: !218)
!236 = !DILocation(line: 49, column: 36, scope: !218)
!237 = !DILocation(line: 49, column: 26, scope: !218)
!238 = !DILocation(line: 49, column: 16, scope: !218)
!239 = !DILocation(line: 49, column: 9, scope: !218)
!240 = !DILocation(line: 49, column: 19, scope: !218)
!241 = !DILocation(line: 49, column: 24, scope: !218)
!242 = !DILocation(line: 50, column: 5, scope: !218)
!243 = !DILocation(line: 46, column: 29, scope: !214)
!244 = !DILocation(line: 46, column: 5, scope: !214)
!245 = distinct !{!245, !216, !246, !104}
!246 = !DILocation(line: 50, column: 5, scope: !210)
!247 = !DILocalVariable(name: "i", scope: !248, file: !3, line: 51, type: !7)
!248 = distinct !DILexicalBlock(scope: !202, file: !3, line: 51, column: 5)
!249 = !DILocation(line: 51, column: 14, scope: !248)
!250 = !DILocation(line: 51, column: 10, scope: !248)
!251 = !DILocation(line: 51, column: 21, scope: !252)
!252 = distinct !DILexicalBlock(scope: !248, file: !3, line: 51, column: 5)
!253 = !DILocation(line: 51, column: 23, scope: !252)
!254 = !DILocation(line: 51, column: 5, scope: !248)
!255 = !DILocation(line: 51, column: 47, scope: !252)
!256 = !DILocation(line: 51, column: 40, scope: !252)
!257 = !DILocation(line: 51, column: 50, scope: !252)
!258 = !DILocation(line: 51, column: 63, scope: !252)
!259 = !DILocation(line: 51, column: 56, scope: !252)
!260 = !DILocation(line: 51, column: 66, scope: !252)
!261 = !DILocation(line: 51, column: 73, scope: !252)
!262 = !DILocation(line: 51, column: 54, scope: !252)
!263 = !DILocation(line: 51, column: 86, scope: !252)
!264 = !DILocation(line: 51, column: 79, scope: !252)
!265 = !DILocation(line: 51, column: 89, scope: !252)
!266 = !DILocation(line: 51, column: 77, scope: !252)
!267 = !DILocation(line: 51, column: 37, scope: !252)
!268 = !DILocation(line: 51, column: 33, scope: !252)
!269 = !DILocation(line: 51, column: 29, scope: !252)
!270 = !DILocation(line: 51, column: 5, scope: !252)
!271 = distinct !{!271, !254, !272, !104}
!272 = !DILocation(line: 51, column: 89, scope: !248)
!273 = !DILocation(line: 52, column: 12, scope: !202)
!274 = !DILocation(line: 52, column: 16, scope: !202)
!275 = !DILocation(line: 52, column: 5, scope: !202)
!276 = distinct !DISubprogram(name: "fields", scope: !3, file: !3, line: 54, type: !277, scopeLine: 54, flags: DIFlagPrototyped, spFlags: DISPFlagDefinition, unit: !2, retainedNodes: !48)
!277 = !DISubroutineType(types: !278)
!278 = !{!7, !47, !47, !47, !7}
!279 = !DILocalVariable(name: "a", arg: 1, scope: !276, file: !3, line: 54, type: !47)
!280 = !DILocation(line: 54, column: 21, scope: !276)
!281 = !DILocalVariable(name: "b", arg: 2, scope: !276, file: !3, line: 54, type: !47)
!282 = !DILocation(line: 54, column: 33, scope: !276)
!283 = !DILocalVariable(name: "c", arg: 3, scope: !276, file: !3, line: 54, type: !47)
!284 = !DILocation(line: 54, column: 45, scope: !276)
!285 = !DILocalVariable(name: "d", arg: 4, scope: !276, file: !3, line: 54, type: !7)
!286 = !DILocation(line: 54, column: 52, scope: !276)
!287 = !DILocalVariable(name: "f", scope: !276, file: !3, line: 55, type: !288)
!288 = distinct !DICompositeType(tag: DW_TAG_structure_type, name: "flags", file: !3, line: 15, size: 32, elements: !289)
!289 = !{!290, !291, !292, !293}
!290 = !DIDerivedType(tag: DW_TAG_member, name: "a", scope: !288, file: !3, line: 16, baseType: !47, size: 3, flags: DIFlagBitField, extraData: i64 0)
!291 = !DIDerivedType(tag: DW_TAG_member, name: "b", scope: !288, file: !3, line: 16, baseType: !47, size: 5, offset: 3, flags: DIFlagBitField, extraData: i64 0)
!292 = !DIDerivedType(tag: DW_TAG_member, name: "c", scope: !288, file: !3, line: 16, baseType: !47, size: 11, offset: 8, flags: DIFlagBitField, extraData: i64 0)
!293 = !DIDerivedType(tag: DW_TAG_member, name: "d", scope: !288, file: !3, line: 17, baseType: !7, size: 6, offset: 19, flags: DIFlagBitField, extraData: i64 0)
!294 = !DILocation(line: 55, column: 18, scope: !276)
!295 = !DILocation(line: 56, column: 11, scope: !276)
!296 = !DILocation(line: 56, column: 9, scope: !276)
!297 = !DILocation(line: 57, column: 11, scope: !276)
!298 = !DILocation(line: 57, column: 9, scope: !276)
!299 = !DILocation(line: 58, column: 11, scope: !276)
!300 = !DILocation(line: 58, column: 9, scope: !276)
!301 = !DILocation(line: 59, column: 11, scope: !276)
!302 = !DILocation(line: 59, column: 9, scope: !276)
!303 = !DILocation(line: 60, column: 20, scope: !276)
!304 = !DILocation(line: 60, column: 26, scope: !276)
!305 = !DILocation(line: 60, column: 28, scope: !276)
!306 = !DILocation(line: 60, column: 22, scope: !276)
!307 = !DILocation(line: 60, column: 37, scope: !276)
!308 = !DILocation(line: 60, column: 39, scope: !276)
!309 = !DILocation(line: 60, column: 33, scope: !276)
!310 = !DILocation(line: 60, column: 51, scope: !276)
!311 = !DILocation(line: 60, column: 47, scope: !276)
!312 = !DILocation(line: 60, column: 5, scope: !276)
!313 = distinct !DISubprogram(name: "reordered", scope: !3, file: !3, line: 62, type: !314, scopeLine: 62, flags: DIFlagPrototyped, spFlags: DISPFlagDefinition, unit: !2, retainedNodes: !48)
!314 = !DISubroutineType(types: !315)
!315 = !{!47, !47}
!316 = !DILocalVariable(name: "x", arg: 1, scope: !313, file: !3, line: 62, type: !47)
!317 = !DILocation(line: 62, column: 29, scope: !313)
!318 = !DILocalVariable(name: "e", scope: !313, file: !3, line: 63, type: !319)
!319 = distinct !DICompositeType(tag: DW_TAG_union_type, name: "either", file: !3, line: 19, size: 32, elements: !320)
!320 = !{!321, !322}
!321 = !DIDerivedType(tag: DW_TAG_member, name: "whole", scope: !319, file: !3, line: 20, baseType: !47, size: 32)
!322 = !DIDerivedType(tag: DW_TAG_member, name: "parts", scope: !319, file: !3, line: 21, baseType: !323, size: 32)
!323 = !DICompositeType(tag: DW_TAG_array_type, baseType: !5, size: 32, elements: !17)
!324 = !DILocation(line: 63, column: 18, scope: !313)
!325 = !DILocation(line: 64, column: 15, scope: !313)
!326 = !DILocation(line: 64, column: 13, scope: !313)
!327 = !DILocalVariable(name: "i", scope: !328, file: !3, line: 65, type: !7)
!328 = distinct !DILexicalBlock(scope: !313, file: !3, line: 65, column: 5)
!329 = !DILocation(line: 65, column: 14, scope: !328)
!330 = !DILocation(line: 65, column: 10, scope: !328)
!331 = !DILocation(line: 65, column: 21, scope: !332)
!332 = distinct !DILexicalBlock(scope: !328, file: !3, line: 65, column: 5)
!333 = !DILocation(line: 65, column: 23, scope: !332)
!334 = !DILocation(line: 65, column: 5, scope: !328)
!335 = !DILocalVariable(name: "t", scope: !336, file: !3, line: 66, type: !5)
!336 = distinct !DILexicalBlock(scope: !332, file: !3, line: 65, column: 33)
!337 = !DILocation(line: 66, column: 23, scope: !336)
!338 = !DILocation(line: 66, column: 35, scope: !336)
!339 = !DILocation(line: 66, column: 27, scope: !336)
!340 = !DILocation(line: 67, column: 34, scope: !336)
!341 = !DILocation(line: 67, column: 32, scope: !336)
!342 = !DILocation(line: 67, column: 22, scope: !336)
!343 = !DILocation(line: 67, column: 17, scope: !336)
!344 = !DILocation(line: 67, column: 9, scope: !336)
!345 = !DILocation(line: 67, column: 20, scope: !336)
!346 = !DILocation(line: 68, column: 26, scope: !336)
!347 = !DILocation(line: 68, column: 21, scope: !336)
!348 = !DILocation(line: 68, column: 19, scope: !336)
!349 = !DILocation(line: 68, column: 9, scope: !336)
!350 = !DILocation(line: 68, column: 24, scope: !336)
!351 = !DILocation(line: 69, column: 5, scope: !336)
!352 = !DILocation(line: 65, column: 29, scope: !332)
!353 = !DILocation(line: 65, column: 5, scope: !332)
!354 = distinct !{!354, !334, !355, !104}
!355 = !DILocation(line: 69, column: 5, scope: !328)
!356 = !DILocation(line: 70, column: 14, scope: !313)
!357 = !DILocation(line: 70, column: 5, scope: !313)
!358 = distinct !DISubprogram(name: "moved", scope: !3, file: !3, line: 72, type: !359, scopeLine: 72, flags: DIFlagPrototyped, spFlags: DISPFlagDefinition, unit: !2, retainedNodes: !48)
!359 = !DISubroutineType(types: !360)
!360 = !{!7, !47, !7}
!361 = !DILocalVariable(name: "i", arg: 1, scope: !358, file: !3, line: 72, type: !47)
!362 = !DILocation(line: 72, column: 20, scope: !358)
!363 = !DILocalVariable(name: "by", arg: 2, scope: !358, file: !3, line: 72, type: !7)
!364 = !DILocation(line: 72, column: 27, scope: !358)
!365 = !DILocalVariable(name: "b", scope: !358, file: !3, line: 73, type: !20)
!366 = !DILocation(line: 73, column: 16, scope: !358)
!367 = !DILocation(line: 73, column: 26, scope: !358)
!368 = !DILocation(line: 73, column: 28, scope: !358)
!369 = !DILocation(line: 73, column: 20, scope: !358)
!370 = !DILocation(line: 74, column: 25, scope: !358)
!371 = !DILocation(line: 74, column: 29, scope: !358)
!372 = !DILocation(line: 74, column: 23, scope: !358)
!373 = !DILocation(line: 74, column: 33, scope: !358)
!374 = !DILocation(line: 74, column: 31, scope: !358)
!375 = !DILocation(line: 74, column: 15, scope: !358)
!376 = !DILocation(line: 74, column: 7, scope: !358)
!377 = !DILocation(line: 74, column: 11, scope: !358)
!378 = !DILocation(line: 74, column: 13, scope: !358)
!379 = !DILocation(line: 75, column: 12, scope: !358)
!380 = !DILocation(line: 75, column: 35, scope: !358)
!381 = !DILocation(line: 75, column: 37, scope: !358)
!382 = !DILocation(line: 75, column: 29, scope: !358)
!383 = !DILocation(line: 75, column: 23, scope: !358)
!384 = !DILocation(line: 75, column: 21, scope: !358)
!385 = !DILocation(line: 75, column: 5, scope: !358)
