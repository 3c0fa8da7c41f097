; ModuleID = 'sort.c'
source_filename = "sort.c"
target datalayout = "e-m:e-p:64:64-i64:64-i128:128-n32:64-S128"
target triple = "riscv64-unknown-linux-gnu"

@xs = internal unnamed_addr global [64 x i32] zeroinitializer, align 4, !dbg !0
@ys = internal unnamed_addr global [64 x i32] zeroinitializer, align 4, !dbg !11

; Function Attrs: nofree norecurse nosync nounwind memory(readwrite, argmem: none, inaccessiblemem: none)
define dso_local i64 @insertion(i32 noundef signext %0, i32 noundef signext %1) local_unnamed_addr #0 !dbg !27 {
    #dbg_value(i32 %0, !31, !DIExpression(), !39)
    #dbg_value(i32 %1, !32, !DIExpression(), !39)
    #dbg_value(i32 %0, !40, !DIExpression(), !48)
    #dbg_value(i32 %1, !45, !DIExpression(), !48)
    #dbg_value(i32 0, !46, !DIExpression(), !50)
    #dbg_value(i32 0, !46, !DIExpression(), !50)
  %3 = icmp sgt i32 %0, 0, !dbg !51
  br i1 %3, label %4, label %47, !dbg !53

4:                                                ; preds = %2
  %5 = zext nneg i32 %0 to i64, !dbg !51
  br label %6, !dbg !53

6:                                                ; preds = %6, %4
  %7 = phi i64 [ 0, %4 ], [ %17, %6 ]
  %8 = phi i32 [ %1, %4 ], [ %10, %6 ]
    #dbg_value(i64 %7, !46, !DIExpression(), !50)
  %9 = mul i32 %8, 1103515245, !dbg !54
  %10 = add i32 %9, 12345, !dbg !56
  %11 = lshr i32 %10, 16, !dbg !57
  %12 = trunc nuw i32 %11 to i16, !dbg !58
  %13 = urem i16 %12, 1000, !dbg !58
  %14 = zext nneg i16 %13 to i32, !dbg !58
  %15 = add nsw i32 %14, -500, !dbg !59
  %16 = getelementptr inbounds [64 x i32], ptr @xs, i64 0, i64 %7, !dbg !60
  store i32 %15, ptr %16, align 4, !dbg !61, !tbaa !62
  %17 = add nuw nsw i64 %7, 1, !dbg !66
    #dbg_value(i64 %17, !46, !DIExpression(), !50)
  %18 = icmp eq i64 %17, %5, !dbg !51
  br i1 %18, label %19, label %6, !dbg !53, !llvm.loop !67

19:                                               ; preds = %6
    #dbg_value(i32 1, !33, !DIExpression(), !71)
  %20 = icmp eq i32 %0, 1, !dbg !72
  br i1 %20, label %23, label %21, !dbg !73

21:                                               ; preds = %19
  %22 = zext nneg i32 %0 to i64, !dbg !72
  br label %49, !dbg !73

23:                                               ; preds = %64, %19
    #dbg_value(i32 %0, !74, !DIExpression(), !82)
    #dbg_value(i64 0, !79, !DIExpression(), !82)
    #dbg_value(i32 0, !80, !DIExpression(), !84)
  br i1 %3, label %24, label %47, !dbg !85

24:                                               ; preds = %23
  %25 = zext nneg i32 %0 to i64, !dbg !86
  br label %26, !dbg !85

26:                                               ; preds = %42, %24
  %27 = phi i64 [ 0, %24 ], [ %45, %42 ]
  %28 = phi i64 [ 0, %24 ], [ %44, %42 ]
    #dbg_value(i64 %27, !80, !DIExpression(), !84)
    #dbg_value(i64 %28, !79, !DIExpression(), !82)
  %29 = mul i64 %28, 31, !dbg !88
  %30 = getelementptr inbounds [64 x i32], ptr @xs, i64 0, i64 %27, !dbg !89
  %31 = load i32, ptr %30, align 4, !dbg !89, !tbaa !62
  %32 = sext i32 %31 to i64, !dbg !90
  %33 = add i64 %29, %32, !dbg !91
  %34 = icmp eq i64 %27, 0, !dbg !92
  br i1 %34, label %42, label %35, !dbg !93

35:                                               ; preds = %26
  %36 = add nsw i64 %27, -1, !dbg !94
  %37 = getelementptr inbounds [64 x i32], ptr @xs, i64 0, i64 %36, !dbg !95
  %38 = load i32, ptr %37, align 4, !dbg !95, !tbaa !62
  %39 = icmp sgt i32 %38, %31, !dbg !96
  %40 = freeze i1 %39
  %41 = select i1 %40, i64 1000000, i64 0, !dbg !97
  br label %42, !dbg !97

42:                                               ; preds = %35, %26
  %43 = phi i64 [ 0, %26 ], [ %41, %35 ], !dbg !97
  %44 = add i64 %33, %43, !dbg !98
    #dbg_value(i64 %44, !79, !DIExpression(), !82)
  %45 = add nuw nsw i64 %27, 1, !dbg !99
    #dbg_value(i64 %45, !80, !DIExpression(), !84)
  %46 = icmp eq i64 %45, %25, !dbg !86
  br i1 %46, label %47, label %26, !dbg !85, !llvm.loop !100

47:                                               ; preds = %42, %2, %23
  %48 = phi i64 [ 0, %23 ], [ 0, %2 ], [ %44, %42 ], !dbg !82
  ret i64 %48, !dbg !102

49:                                               ; preds = %21, %64
  %50 = phi i64 [ 1, %21 ], [ %69, %64 ]
    #dbg_value(i64 %50, !33, !DIExpression(), !71)
  %51 = getelementptr inbounds [64 x i32], ptr @xs, i64 0, i64 %50, !dbg !103
  %52 = load i32, ptr %51, align 4, !dbg !103, !tbaa !62
    #dbg_value(i32 %52, !35, !DIExpression(), !104)
    #dbg_value(i64 %50, !38, !DIExpression(DW_OP_constu, 1, DW_OP_minus, DW_OP_stack_value), !104)
  br label %53, !dbg !105

53:                                               ; preds = %49, %60
  %54 = phi i64 [ %50, %49 ], [ %63, %60 ]
  %55 = add i64 %54, 4294967295, !dbg !104
  %56 = and i64 %55, 4294967295, !dbg !108
  %57 = getelementptr inbounds [64 x i32], ptr @xs, i64 0, i64 %56, !dbg !108
  %58 = load i32, ptr %57, align 4, !dbg !108, !tbaa !62
  %59 = icmp sgt i32 %58, %52, !dbg !109
  br i1 %59, label %60, label %64, !dbg !110

60:                                               ; preds = %53
  %61 = getelementptr inbounds [64 x i32], ptr @xs, i64 0, i64 %54, !dbg !111
  store i32 %58, ptr %61, align 4, !dbg !112, !tbaa !62
    #dbg_value(i64 %55, !38, !DIExpression(DW_OP_constu, 1, DW_OP_minus, DW_OP_stack_value), !104)
  %62 = icmp sgt i64 %54, 1, !dbg !113
  %63 = add nsw i64 %54, -1, !dbg !104
  br i1 %62, label %53, label %64, !dbg !105, !llvm.loop !114

64:                                               ; preds = %60, %53
  %65 = phi i64 [ 0, %60 ], [ %54, %53 ]
  %66 = shl i64 %65, 32, !dbg !116
  %67 = ashr exact i64 %66, 32, !dbg !116
  %68 = getelementptr inbounds [64 x i32], ptr @xs, i64 0, i64 %67, !dbg !116
  store i32 %52, ptr %68, align 4, !dbg !117, !tbaa !62
  %69 = add nuw nsw i64 %50, 1, !dbg !118
    #dbg_value(i64 %69, !33, !DIExpression(), !71)
  %70 = icmp eq i64 %69, %22, !dbg !72
  br i1 %70, label %23, label %49, !dbg !73, !llvm.loop !119
}

; Function Attrs: nofree nosync nounwind memory(readwrite, inaccessiblemem: none)
define dso_local i64 @quicksort(i32 noundef signext %0, i32 noundef signext %1) local_unnamed_addr #1 !dbg !121 {
    #dbg_value(i32 %0, !123, !DIExpression(), !125)
    #dbg_value(i32 %1, !124, !DIExpression(), !125)
    #dbg_value(i32 %0, !40, !DIExpression(), !126)
    #dbg_value(i32 %1, !45, !DIExpression(), !126)
    #dbg_value(i32 0, !46, !DIExpression(), !128)
    #dbg_value(i32 0, !46, !DIExpression(), !128)
  %3 = icmp sgt i32 %0, 0, !dbg !129
  br i1 %3, label %6, label %4, !dbg !130

4:                                                ; preds = %2
  %5 = add nsw i32 %0, -1, !dbg !131
  tail call fastcc void @quick(i32 noundef signext 0, i32 noundef signext %5) #4, !dbg !132
    #dbg_value(i32 %0, !74, !DIExpression(), !133)
    #dbg_value(i64 0, !79, !DIExpression(), !133)
    #dbg_value(i32 0, !80, !DIExpression(), !135)
  br label %44, !dbg !136

6:                                                ; preds = %2
  %7 = zext nneg i32 %0 to i64, !dbg !129
  br label %8, !dbg !130

8:                                                ; preds = %8, %6
  %9 = phi i64 [ 0, %6 ], [ %19, %8 ]
  %10 = phi i32 [ %1, %6 ], [ %12, %8 ]
    #dbg_value(i64 %9, !46, !DIExpression(), !128)
  %11 = mul i32 %10, 1103515245, !dbg !137
  %12 = add i32 %11, 12345, !dbg !138
  %13 = lshr i32 %12, 16, !dbg !139
  %14 = trunc nuw i32 %13 to i16, !dbg !140
  %15 = urem i16 %14, 1000, !dbg !140
  %16 = zext nneg i16 %15 to i32, !dbg !140
  %17 = add nsw i32 %16, -500, !dbg !141
  %18 = getelementptr inbounds [64 x i32], ptr @xs, i64 0, i64 %9, !dbg !142
  store i32 %17, ptr %18, align 4, !dbg !143, !tbaa !62
  %19 = add nuw nsw i64 %9, 1, !dbg !144
    #dbg_value(i64 %19, !46, !DIExpression(), !128)
  %20 = icmp eq i64 %19, %7, !dbg !129
  br i1 %20, label %21, label %8, !dbg !130, !llvm.loop !145

21:                                               ; preds = %8
  %22 = add nsw i32 %0, -1, !dbg !131
  tail call fastcc void @quick(i32 noundef signext 0, i32 noundef signext %22) #4, !dbg !132
    #dbg_value(i32 %0, !74, !DIExpression(), !133)
    #dbg_value(i64 0, !79, !DIExpression(), !133)
    #dbg_value(i32 0, !80, !DIExpression(), !135)
  br label %23, !dbg !136

23:                                               ; preds = %39, %21
  %24 = phi i64 [ 0, %21 ], [ %42, %39 ]
  %25 = phi i64 [ 0, %21 ], [ %41, %39 ]
    #dbg_value(i64 %24, !80, !DIExpression(), !135)
    #dbg_value(i64 %25, !79, !DIExpression(), !133)
  %26 = mul i64 %25, 31, !dbg !147
  %27 = getelementptr inbounds [64 x i32], ptr @xs, i64 0, i64 %24, !dbg !148
  %28 = load i32, ptr %27, align 4, !dbg !148, !tbaa !62
  %29 = sext i32 %28 to i64, !dbg !149
  %30 = add i64 %26, %29, !dbg !150
  %31 = icmp eq i64 %24, 0, !dbg !151
  br i1 %31, label %39, label %32, !dbg !152

32:                                               ; preds = %23
  %33 = add nsw i64 %24, -1, !dbg !153
  %34 = getelementptr inbounds [64 x i32], ptr @xs, i64 0, i64 %33, !dbg !154
  %35 = load i32, ptr %34, align 4, !dbg !154, !tbaa !62
  %36 = icmp sgt i32 %35, %28, !dbg !155
  %37 = freeze i1 %36
  %38 = select i1 %37, i64 1000000, i64 0, !dbg !156
  br label %39, !dbg !156

39:                                               ; preds = %32, %23
  %40 = phi i64 [ 0, %23 ], [ %38, %32 ], !dbg !156
  %41 = add i64 %30, %40, !dbg !157
    #dbg_value(i64 %41, !79, !DIExpression(), !133)
  %42 = add nuw nsw i64 %24, 1, !dbg !158
    #dbg_value(i64 %42, !80, !DIExpression(), !135)
  %43 = icmp eq i64 %42, %7, !dbg !159
  br i1 %43, label %44, label %23, !dbg !136, !llvm.loop !160

44:                                               ; preds = %39, %4
  %45 = phi i64 [ 0, %4 ], [ %41, %39 ], !dbg !133
  ret i64 %45, !dbg !162
}

; Function Attrs: nofree nosync nounwind memory(readwrite, argmem: none, inaccessiblemem: none)
define internal fastcc void @quick(i32 noundef signext %0, i32 noundef signext %1) unnamed_addr #2 !dbg !163 {
    #dbg_value(i32 %0, !167, !DIExpression(), !172)
    #dbg_value(i32 %1, !168, !DIExpression(), !172)
  %3 = icmp slt i32 %0, %1, !dbg !173
  br i1 %3, label %4, label %42, !dbg !175

4:                                                ; preds = %2, %40
  %5 = phi i32 [ %37, %40 ], [ %0, %2 ]
    #dbg_value(i32 %5, !167, !DIExpression(), !172)
  %6 = add nsw i32 %5, %1, !dbg !176
  %7 = sdiv i32 %6, 2, !dbg !177
  %8 = sext i32 %7 to i64, !dbg !178
  %9 = getelementptr inbounds [64 x i32], ptr @xs, i64 0, i64 %8, !dbg !178
  %10 = load i32, ptr %9, align 4, !dbg !178, !tbaa !62
    #dbg_value(i32 %10, !169, !DIExpression(), !172)
    #dbg_value(i32 %5, !170, !DIExpression(), !172)
    #dbg_value(i32 %1, !171, !DIExpression(), !172)
  br label %11, !dbg !179

11:                                               ; preds = %4, %36
  %12 = phi i32 [ %1, %4 ], [ %38, %36 ]
  %13 = phi i32 [ %5, %4 ], [ %37, %36 ]
    #dbg_value(i32 %12, !171, !DIExpression(), !172)
    #dbg_value(i32 %13, !170, !DIExpression(), !172)
  %14 = sext i32 %13 to i64, !dbg !180
  br label %15, !dbg !180

15:                                               ; preds = %15, %11
  %16 = phi i64 [ %20, %15 ], [ %14, %11 ], !dbg !172
    #dbg_value(i64 %16, !170, !DIExpression(), !172)
  %17 = getelementptr inbounds [64 x i32], ptr @xs, i64 0, i64 %16, !dbg !182
  %18 = load i32, ptr %17, align 4, !dbg !182, !tbaa !62
  %19 = icmp slt i32 %18, %10, !dbg !183
  %20 = add nsw i64 %16, 1, !dbg !184
    #dbg_value(i64 %20, !170, !DIExpression(), !172)
  br i1 %19, label %15, label %21, !dbg !180, !llvm.loop !185

21:                                               ; preds = %15
  %22 = sext i32 %12 to i64, !dbg !186
  br label %23, !dbg !186

23:                                               ; preds = %23, %21
  %24 = phi i64 [ %28, %23 ], [ %22, %21 ], !dbg !172
    #dbg_value(i64 %24, !171, !DIExpression(), !172)
  %25 = getelementptr inbounds [64 x i32], ptr @xs, i64 0, i64 %24, !dbg !187
  %26 = load i32, ptr %25, align 4, !dbg !187, !tbaa !62
  %27 = icmp sgt i32 %26, %10, !dbg !188
  %28 = add nsw i64 %24, -1, !dbg !189
    #dbg_value(i64 %28, !171, !DIExpression(), !172)
  br i1 %27, label %23, label %29, !dbg !186, !llvm.loop !190

29:                                               ; preds = %23
  %30 = trunc nsw i64 %16 to i32, !dbg !186
  %31 = trunc nsw i64 %24 to i32, !dbg !191
  %32 = icmp sgt i64 %16, %24, !dbg !191
  br i1 %32, label %36, label %33, !dbg !193

33:                                               ; preds = %29
  %34 = add nsw i32 %30, 1, !dbg !194
    #dbg_value(i32 %34, !170, !DIExpression(), !172)
  %35 = add nsw i32 %31, -1, !dbg !195
    #dbg_value(i32 %35, !171, !DIExpression(), !172)
    #dbg_value(ptr %17, !196, !DIExpression(), !204)
    #dbg_value(ptr %25, !202, !DIExpression(), !204)
    #dbg_value(i32 %18, !203, !DIExpression(), !204)
  store i32 %26, ptr %17, align 4, !dbg !206, !tbaa !62
  store i32 %18, ptr %25, align 4, !dbg !207, !tbaa !62
  br label %36, !dbg !208

36:                                               ; preds = %33, %29
  %37 = phi i32 [ %34, %33 ], [ %30, %29 ], !dbg !172
  %38 = phi i32 [ %35, %33 ], [ %31, %29 ], !dbg !172
    #dbg_value(i32 %38, !171, !DIExpression(), !172)
    #dbg_value(i32 %37, !170, !DIExpression(), !172)
  %39 = icmp sgt i32 %37, %38, !dbg !209
  br i1 %39, label %40, label %11, !dbg !179, !llvm.loop !210

40:                                               ; preds = %36
  tail call fastcc void @quick(i32 noundef signext %5, i32 noundef signext %38) #4, !dbg !212
    #dbg_value(i32 %37, !167, !DIExpression(), !172)
    #dbg_value(i32 %1, !168, !DIExpression(), !172)
  %41 = icmp slt i32 %37, %1, !dbg !173
  br i1 %41, label %4, label %42, !dbg !175

42:                                               ; preds = %40, %2
  ret void, !dbg !213
}

; Function Attrs: nofree norecurse nosync nounwind memory(readwrite, argmem: none, inaccessiblemem: none)
define dso_local i64 @heapsort(i32 noundef signext %0, i32 noundef signext %1) local_unnamed_addr #0 !dbg !214 {
    #dbg_value(i32 %0, !216, !DIExpression(), !222)
    #dbg_value(i32 %1, !217, !DIExpression(), !222)
    #dbg_value(i32 %0, !40, !DIExpression(), !223)
    #dbg_value(i32 %1, !45, !DIExpression(), !223)
    #dbg_value(i32 0, !46, !DIExpression(), !225)
    #dbg_value(i32 0, !46, !DIExpression(), !225)
  %3 = icmp sgt i32 %0, 0, !dbg !226
  br i1 %3, label %4, label %86, !dbg !227

4:                                                ; preds = %2
  %5 = zext nneg i32 %0 to i64, !dbg !226
  br label %6, !dbg !227

6:                                                ; preds = %6, %4
  %7 = phi i64 [ 0, %4 ], [ %17, %6 ]
  %8 = phi i32 [ %1, %4 ], [ %10, %6 ]
    #dbg_value(i64 %7, !46, !DIExpression(), !225)
  %9 = mul i32 %8, 1103515245, !dbg !228
  %10 = add i32 %9, 12345, !dbg !229
  %11 = lshr i32 %10, 16, !dbg !230
  %12 = trunc nuw i32 %11 to i16, !dbg !231
  %13 = urem i16 %12, 1000, !dbg !231
  %14 = zext nneg i16 %13 to i32, !dbg !231
  %15 = add nsw i32 %14, -500, !dbg !232
  %16 = getelementptr inbounds [64 x i32], ptr @xs, i64 0, i64 %7, !dbg !233
  store i32 %15, ptr %16, align 4, !dbg !234, !tbaa !62
  %17 = add nuw nsw i64 %7, 1, !dbg !235
    #dbg_value(i64 %17, !46, !DIExpression(), !225)
  %18 = icmp eq i64 %17, %5, !dbg !226
  br i1 %18, label %19, label %6, !dbg !227, !llvm.loop !236

19:                                               ; preds = %6
    #dbg_value(i32 %0, !218, !DIExpression(DW_OP_constu, 2, DW_OP_div, DW_OP_constu, 1, DW_OP_minus, DW_OP_stack_value), !238)
  %20 = icmp eq i32 %0, 1, !dbg !239
  br i1 %20, label %62, label %21, !dbg !241

21:                                               ; preds = %19
  %22 = lshr i32 %0, 1, !dbg !242
    #dbg_value(i32 %22, !218, !DIExpression(DW_OP_constu, 1, DW_OP_minus, DW_OP_stack_value), !238)
  br label %26, !dbg !241

23:                                               ; preds = %60
    #dbg_value(i32 %0, !220, !DIExpression(DW_OP_constu, 1, DW_OP_minus, DW_OP_stack_value), !243)
  br i1 %20, label %62, label %24, !dbg !244

24:                                               ; preds = %23
  %25 = zext nneg i32 %0 to i64, !dbg !244
  br label %88, !dbg !244

26:                                               ; preds = %21, %60
  %27 = phi i32 [ %28, %60 ], [ %22, %21 ]
    #dbg_value(i32 %27, !218, !DIExpression(DW_OP_constu, 1, DW_OP_minus, DW_OP_stack_value), !238)
  %28 = add nsw i32 %27, -1, !dbg !245
    #dbg_value(i32 %28, !218, !DIExpression(), !238)
    #dbg_value(i32 %28, !246, !DIExpression(), !254)
    #dbg_value(i32 %0, !249, !DIExpression(), !254)
  %29 = shl nuw nsw i32 %28, 1, !dbg !256
  %30 = or disjoint i32 %29, 1, !dbg !257
  %31 = icmp slt i32 %30, %0, !dbg !258
  br i1 %31, label %32, label %60, !dbg !260

32:                                               ; preds = %26, %56
  %33 = phi i32 [ %58, %56 ], [ %30, %26 ]
  %34 = phi i32 [ %57, %56 ], [ %29, %26 ]
  %35 = phi i32 [ %48, %56 ], [ %28, %26 ]
    #dbg_value(i32 %35, !246, !DIExpression(), !254)
  %36 = add nsw i32 %34, 2, !dbg !261
  %37 = icmp slt i32 %36, %0, !dbg !263
  br i1 %37, label %38, label %47, !dbg !264

38:                                               ; preds = %32
  %39 = sext i32 %33 to i64, !dbg !265
  %40 = getelementptr inbounds [64 x i32], ptr @xs, i64 0, i64 %39, !dbg !265
  %41 = load i32, ptr %40, align 4, !dbg !265, !tbaa !62
  %42 = sext i32 %36 to i64, !dbg !266
  %43 = getelementptr inbounds [64 x i32], ptr @xs, i64 0, i64 %42, !dbg !266
  %44 = load i32, ptr %43, align 4, !dbg !266, !tbaa !62
  %45 = icmp slt i32 %41, %44, !dbg !267
  %46 = select i1 %45, i32 %36, i32 %33, !dbg !268
  br label %47, !dbg !268

47:                                               ; preds = %38, %32
  %48 = phi i32 [ %33, %32 ], [ %46, %38 ], !dbg !269
    #dbg_value(i32 %48, !250, !DIExpression(), !269)
  %49 = sext i32 %35 to i64, !dbg !270
  %50 = getelementptr inbounds [64 x i32], ptr @xs, i64 0, i64 %49, !dbg !270
  %51 = load i32, ptr %50, align 4, !dbg !270, !tbaa !62
  %52 = sext i32 %48 to i64, !dbg !272
  %53 = getelementptr inbounds [64 x i32], ptr @xs, i64 0, i64 %52, !dbg !272
  %54 = load i32, ptr %53, align 4, !dbg !272, !tbaa !62
  %55 = icmp slt i32 %51, %54, !dbg !273
  br i1 %55, label %56, label %60, !dbg !274

56:                                               ; preds = %47
    #dbg_value(ptr %50, !196, !DIExpression(), !275)
    #dbg_value(ptr %53, !202, !DIExpression(), !275)
    #dbg_value(i32 %51, !203, !DIExpression(), !275)
  store i32 %54, ptr %50, align 4, !dbg !277, !tbaa !62
  store i32 %51, ptr %53, align 4, !dbg !278, !tbaa !62
    #dbg_value(i32 %48, !246, !DIExpression(), !254)
  %57 = shl nsw i32 %48, 1, !dbg !256
  %58 = or disjoint i32 %57, 1, !dbg !257
    #dbg_value(i32 %58, !250, !DIExpression(), !269)
  %59 = icmp slt i32 %58, %0, !dbg !258
  br i1 %59, label %32, label %60, !dbg !260

60:                                               ; preds = %47, %56, %26
    #dbg_value(i32 poison, !246, !DIExpression(), !254)
    #dbg_value(i32 %28, !218, !DIExpression(DW_OP_constu, 1, DW_OP_minus, DW_OP_stack_value), !238)
  %61 = icmp sgt i32 %27, 1, !dbg !239
  br i1 %61, label %26, label %23, !dbg !241, !llvm.loop !279

62:                                               ; preds = %88, %124, %19, %23
    #dbg_value(i32 %0, !74, !DIExpression(), !281)
    #dbg_value(i64 0, !79, !DIExpression(), !281)
    #dbg_value(i32 0, !80, !DIExpression(), !283)
  br i1 %3, label %63, label %86, !dbg !284

63:                                               ; preds = %62
  %64 = zext nneg i32 %0 to i64, !dbg !285
  br label %65, !dbg !284

65:                                               ; preds = %81, %63
  %66 = phi i64 [ 0, %63 ], [ %84, %81 ]
  %67 = phi i64 [ 0, %63 ], [ %83, %81 ]
    #dbg_value(i64 %66, !80, !DIExpression(), !283)
    #dbg_value(i64 %67, !79, !DIExpression(), !281)
  %68 = mul i64 %67, 31, !dbg !286
  %69 = getelementptr inbounds [64 x i32], ptr @xs, i64 0, i64 %66, !dbg !287
  %70 = load i32, ptr %69, align 4, !dbg !287, !tbaa !62
  %71 = sext i32 %70 to i64, !dbg !288
  %72 = add i64 %68, %71, !dbg !289
  %73 = icmp eq i64 %66, 0, !dbg !290
  br i1 %73, label %81, label %74, !dbg !291

74:                                               ; preds = %65
  %75 = add nsw i64 %66, -1, !dbg !292
  %76 = getelementptr inbounds [64 x i32], ptr @xs, i64 0, i64 %75, !dbg !293
  %77 = load i32, ptr %76, align 4, !dbg !293, !tbaa !62
  %78 = icmp sgt i32 %77, %70, !dbg !294
  %79 = freeze i1 %78
  %80 = select i1 %79, i64 1000000, i64 0, !dbg !295
  br label %81, !dbg !295

81:                                               ; preds = %74, %65
  %82 = phi i64 [ 0, %65 ], [ %80, %74 ], !dbg !295
  %83 = add i64 %72, %82, !dbg !296
    #dbg_value(i64 %83, !79, !DIExpression(), !281)
  %84 = add nuw nsw i64 %66, 1, !dbg !297
    #dbg_value(i64 %84, !80, !DIExpression(), !283)
  %85 = icmp eq i64 %84, %64, !dbg !285
  br i1 %85, label %86, label %65, !dbg !284, !llvm.loop !298

86:                                               ; preds = %81, %2, %62
  %87 = phi i64 [ 0, %62 ], [ 0, %2 ], [ %83, %81 ], !dbg !281
  ret i64 %87, !dbg !300

88:                                               ; preds = %24, %124
  %89 = phi i64 [ %25, %24 ], [ %90, %124 ]
    #dbg_value(i64 %89, !220, !DIExpression(DW_OP_constu, 1, DW_OP_minus, DW_OP_stack_value), !243)
  %90 = add nsw i64 %89, -1, !dbg !301
    #dbg_value(i64 %90, !220, !DIExpression(), !243)
  %91 = getelementptr inbounds [64 x i32], ptr @xs, i64 0, i64 %90, !dbg !302
    #dbg_value(ptr @xs, !196, !DIExpression(), !305)
    #dbg_value(ptr %91, !202, !DIExpression(), !305)
  %92 = load i32, ptr @xs, align 4, !dbg !307, !tbaa !62
    #dbg_value(i32 %92, !203, !DIExpression(), !305)
  %93 = load i32, ptr %91, align 4, !dbg !308, !tbaa !62
  store i32 %93, ptr @xs, align 4, !dbg !309, !tbaa !62
  store i32 %92, ptr %91, align 4, !dbg !310, !tbaa !62
    #dbg_value(i32 0, !246, !DIExpression(), !311)
    #dbg_value(i64 %90, !249, !DIExpression(), !311)
  %94 = icmp ugt i64 %90, 1, !dbg !313
  br i1 %94, label %95, label %62, !dbg !314

95:                                               ; preds = %88, %119
  %96 = phi i32 [ %121, %119 ], [ 1, %88 ]
  %97 = phi i32 [ %120, %119 ], [ 0, %88 ]
  %98 = phi i32 [ %111, %119 ], [ 0, %88 ]
    #dbg_value(i32 %98, !246, !DIExpression(), !311)
  %99 = add nsw i32 %97, 2, !dbg !315
  %100 = sext i32 %99 to i64, !dbg !316
  %101 = icmp sgt i64 %90, %100, !dbg !316
  br i1 %101, label %102, label %110, !dbg !317

102:                                              ; preds = %95
  %103 = sext i32 %96 to i64, !dbg !318
  %104 = getelementptr inbounds [64 x i32], ptr @xs, i64 0, i64 %103, !dbg !318
  %105 = load i32, ptr %104, align 4, !dbg !318, !tbaa !62
  %106 = getelementptr inbounds [64 x i32], ptr @xs, i64 0, i64 %100, !dbg !319
  %107 = load i32, ptr %106, align 4, !dbg !319, !tbaa !62
  %108 = icmp slt i32 %105, %107, !dbg !320
  %109 = select i1 %108, i32 %99, i32 %96, !dbg !321
  br label %110, !dbg !321

110:                                              ; preds = %102, %95
  %111 = phi i32 [ %96, %95 ], [ %109, %102 ], !dbg !322
    #dbg_value(i32 %111, !250, !DIExpression(), !322)
  %112 = sext i32 %98 to i64, !dbg !323
  %113 = getelementptr inbounds [64 x i32], ptr @xs, i64 0, i64 %112, !dbg !323
  %114 = load i32, ptr %113, align 4, !dbg !323, !tbaa !62
  %115 = sext i32 %111 to i64, !dbg !324
  %116 = getelementptr inbounds [64 x i32], ptr @xs, i64 0, i64 %115, !dbg !324
  %117 = load i32, ptr %116, align 4, !dbg !324, !tbaa !62
  %118 = icmp slt i32 %114, %117, !dbg !325
  br i1 %118, label %119, label %124, !dbg !326

119:                                              ; preds = %110
    #dbg_value(ptr %113, !196, !DIExpression(), !327)
    #dbg_value(ptr %116, !202, !DIExpression(), !327)
    #dbg_value(i32 %114, !203, !DIExpression(), !327)
  store i32 %117, ptr %113, align 4, !dbg !329, !tbaa !62
  store i32 %114, ptr %116, align 4, !dbg !330, !tbaa !62
    #dbg_value(i32 %111, !246, !DIExpression(), !311)
  %120 = shl nsw i32 %111, 1, !dbg !331
  %121 = or disjoint i32 %120, 1, !dbg !332
    #dbg_value(i32 %121, !250, !DIExpression(), !322)
  %122 = sext i32 %121 to i64, !dbg !313
  %123 = icmp sgt i64 %90, %122, !dbg !313
  br i1 %123, label %95, label %124, !dbg !314

124:                                              ; preds = %110, %119
    #dbg_value(i32 poison, !246, !DIExpression(), !311)
    #dbg_value(i64 %90, !220, !DIExpression(DW_OP_constu, 1, DW_OP_minus, DW_OP_stack_value), !243)
  %125 = icmp sgt i64 %89, 2, !dbg !333
  br i1 %125, label %88, label %62, !dbg !244, !llvm.loop !334
}

; Function Attrs: nofree nosync nounwind memory(readwrite, inaccessiblemem: none)
define dso_local i64 @mergesort(i32 noundef signext %0, i32 noundef signext %1) local_unnamed_addr #1 !dbg !336 {
    #dbg_value(i32 %0, !338, !DIExpression(), !340)
    #dbg_value(i32 %1, !339, !DIExpression(), !340)
    #dbg_value(i32 %0, !40, !DIExpression(), !341)
    #dbg_value(i32 %1, !45, !DIExpression(), !341)
    #dbg_value(i32 0, !46, !DIExpression(), !343)
    #dbg_value(i32 0, !46, !DIExpression(), !343)
  %3 = icmp sgt i32 %0, 0, !dbg !344
  br i1 %3, label %5, label %4, !dbg !345

4:                                                ; preds = %2
  tail call fastcc void @merge(i32 noundef signext 0, i32 noundef signext %0) #4, !dbg !346
    #dbg_value(i32 %0, !74, !DIExpression(), !347)
    #dbg_value(i64 0, !79, !DIExpression(), !347)
    #dbg_value(i32 0, !80, !DIExpression(), !349)
  br label %42, !dbg !350

5:                                                ; preds = %2
  %6 = zext nneg i32 %0 to i64, !dbg !344
  br label %7, !dbg !345

7:                                                ; preds = %7, %5
  %8 = phi i64 [ 0, %5 ], [ %18, %7 ]
  %9 = phi i32 [ %1, %5 ], [ %11, %7 ]
    #dbg_value(i64 %8, !46, !DIExpression(), !343)
  %10 = mul i32 %9, 1103515245, !dbg !351
  %11 = add i32 %10, 12345, !dbg !352
  %12 = lshr i32 %11, 16, !dbg !353
  %13 = trunc nuw i32 %12 to i16, !dbg !354
  %14 = urem i16 %13, 1000, !dbg !354
  %15 = zext nneg i16 %14 to i32, !dbg !354
  %16 = add nsw i32 %15, -500, !dbg !355
  %17 = getelementptr inbounds [64 x i32], ptr @xs, i64 0, i64 %8, !dbg !356
  store i32 %16, ptr %17, align 4, !dbg !357, !tbaa !62
  %18 = add nuw nsw i64 %8, 1, !dbg !358
    #dbg_value(i64 %18, !46, !DIExpression(), !343)
  %19 = icmp eq i64 %18, %6, !dbg !344
  br i1 %19, label %20, label %7, !dbg !345, !llvm.loop !359

20:                                               ; preds = %7
  tail call fastcc void @merge(i32 noundef signext 0, i32 noundef signext %0) #4, !dbg !346
    #dbg_value(i32 %0, !74, !DIExpression(), !347)
    #dbg_value(i64 0, !79, !DIExpression(), !347)
    #dbg_value(i32 0, !80, !DIExpression(), !349)
  br label %21, !dbg !350

21:                                               ; preds = %37, %20
  %22 = phi i64 [ 0, %20 ], [ %40, %37 ]
  %23 = phi i64 [ 0, %20 ], [ %39, %37 ]
    #dbg_value(i64 %22, !80, !DIExpression(), !349)
    #dbg_value(i64 %23, !79, !DIExpression(), !347)
  %24 = mul i64 %23, 31, !dbg !361
  %25 = getelementptr inbounds [64 x i32], ptr @xs, i64 0, i64 %22, !dbg !362
  %26 = load i32, ptr %25, align 4, !dbg !362, !tbaa !62
  %27 = sext i32 %26 to i64, !dbg !363
  %28 = add i64 %24, %27, !dbg !364
  %29 = icmp eq i64 %22, 0, !dbg !365
  br i1 %29, label %37, label %30, !dbg !366

30:                                               ; preds = %21
  %31 = add nsw i64 %22, -1, !dbg !367
  %32 = getelementptr inbounds [64 x i32], ptr @xs, i64 0, i64 %31, !dbg !368
  %33 = load i32, ptr %32, align 4, !dbg !368, !tbaa !62
  %34 = icmp sgt i32 %33, %26, !dbg !369
  %35 = freeze i1 %34
  %36 = select i1 %35, i64 1000000, i64 0, !dbg !370
  br label %37, !dbg !370

37:                                               ; preds = %30, %21
  %38 = phi i64 [ 0, %21 ], [ %36, %30 ], !dbg !370
  %39 = add i64 %28, %38, !dbg !371
    #dbg_value(i64 %39, !79, !DIExpression(), !347)
  %40 = add nuw nsw i64 %22, 1, !dbg !372
    #dbg_value(i64 %40, !80, !DIExpression(), !349)
  %41 = icmp eq i64 %40, %6, !dbg !373
  br i1 %41, label %42, label %21, !dbg !350, !llvm.loop !374

42:                                               ; preds = %37, %4
  %43 = phi i64 [ 0, %4 ], [ %39, %37 ], !dbg !347
  ret i64 %43, !dbg !376
}

; Function Attrs: nofree nosync nounwind memory(readwrite, argmem: none, inaccessiblemem: none)
define internal fastcc void @merge(i32 noundef signext %0, i32 noundef signext %1) unnamed_addr #2 !dbg !377 {
    #dbg_value(i32 %0, !379, !DIExpression(), !386)
    #dbg_value(i32 %1, !380, !DIExpression(), !386)
  %3 = sub nsw i32 %1, %0, !dbg !387
  %4 = icmp slt i32 %3, 2, !dbg !389
  br i1 %4, label %45, label %5, !dbg !390

5:                                                ; preds = %2
  %6 = lshr i32 %3, 1, !dbg !391
  %7 = add nsw i32 %6, %0, !dbg !392
    #dbg_value(i32 %7, !381, !DIExpression(), !386)
    #dbg_value(i32 %0, !382, !DIExpression(), !386)
    #dbg_value(i32 %7, !383, !DIExpression(), !386)
  tail call fastcc void @merge(i32 noundef signext %0, i32 noundef signext %7) #4, !dbg !393
  tail call fastcc void @merge(i32 noundef signext %7, i32 noundef signext %1) #4, !dbg !394
    #dbg_value(i32 %0, !384, !DIExpression(), !395)
    #dbg_value(i32 %7, !383, !DIExpression(), !386)
    #dbg_value(i32 %0, !382, !DIExpression(), !386)
  %8 = icmp slt i32 %0, %1, !dbg !396
  %9 = zext i32 %0 to i64, !dbg !386
  br i1 %8, label %15, label %10, !dbg !398

10:                                               ; preds = %34, %5
  %11 = getelementptr inbounds [64 x i32], ptr @xs, i64 0, i64 %9, !dbg !399
  %12 = getelementptr inbounds [64 x i32], ptr @ys, i64 0, i64 %9, !dbg !400
  %13 = zext nneg i32 %3 to i64, !dbg !401
  %14 = shl nuw nsw i64 %13, 2, !dbg !402
  tail call void @llvm.memcpy.p0.p0.i64(ptr nonnull align 4 %11, ptr nonnull align 4 %12, i64 %14, i1 false), !dbg !403
  br label %45, !dbg !404

15:                                               ; preds = %5, %34
  %16 = phi i64 [ %42, %34 ], [ %9, %5 ]
  %17 = phi i32 [ %36, %34 ], [ %7, %5 ]
  %18 = phi i32 [ %35, %34 ], [ %0, %5 ]
    #dbg_value(i64 %16, !384, !DIExpression(), !395)
    #dbg_value(i32 %17, !383, !DIExpression(), !386)
    #dbg_value(i32 %18, !382, !DIExpression(), !386)
  %19 = icmp slt i32 %17, %1, !dbg !405
  br i1 %19, label %20, label %30, !dbg !406

20:                                               ; preds = %15
  %21 = icmp slt i32 %18, %7, !dbg !407
  br i1 %21, label %22, label %32, !dbg !408

22:                                               ; preds = %20
  %23 = zext nneg i32 %18 to i64, !dbg !409
  %24 = getelementptr inbounds [64 x i32], ptr @xs, i64 0, i64 %23, !dbg !409
  %25 = load i32, ptr %24, align 4, !dbg !409, !tbaa !62
  %26 = zext nneg i32 %17 to i64, !dbg !410
  %27 = getelementptr inbounds [64 x i32], ptr @xs, i64 0, i64 %26, !dbg !410
  %28 = load i32, ptr %27, align 4, !dbg !410, !tbaa !62
  %29 = icmp sgt i32 %25, %28, !dbg !411
  br i1 %29, label %32, label %30, !dbg !412

30:                                               ; preds = %22, %15
  %31 = add nuw nsw i32 %18, 1, !dbg !413
    #dbg_value(i32 %31, !382, !DIExpression(), !386)
  br label %34, !dbg !412

32:                                               ; preds = %22, %20
  %33 = add nuw nsw i32 %17, 1, !dbg !414
    #dbg_value(i32 %33, !383, !DIExpression(), !386)
  br label %34, !dbg !412

34:                                               ; preds = %32, %30
  %35 = phi i32 [ %31, %30 ], [ %18, %32 ], !dbg !386
  %36 = phi i32 [ %17, %30 ], [ %33, %32 ], !dbg !386
  %37 = phi i32 [ %18, %30 ], [ %17, %32 ]
  %38 = zext i32 %37 to i64, !dbg !415
  %39 = getelementptr inbounds [64 x i32], ptr @xs, i64 0, i64 %38, !dbg !415
  %40 = load i32, ptr %39, align 4, !dbg !412, !tbaa !62
    #dbg_value(i32 %36, !383, !DIExpression(), !386)
    #dbg_value(i32 %35, !382, !DIExpression(), !386)
  %41 = getelementptr inbounds [64 x i32], ptr @ys, i64 0, i64 %16, !dbg !416
  store i32 %40, ptr %41, align 4, !dbg !417, !tbaa !62
  %42 = add nuw nsw i64 %16, 1, !dbg !418
    #dbg_value(i64 %42, !384, !DIExpression(), !395)
  %43 = trunc nuw i64 %42 to i32, !dbg !396
  %44 = icmp slt i32 %43, %1, !dbg !396
  br i1 %44, label %15, label %10, !dbg !398, !llvm.loop !419

45:                                               ; preds = %2, %10
  ret void, !dbg !404
}

; Function Attrs: mustprogress nocallback nofree nounwind willreturn memory(argmem: readwrite)
declare void @llvm.memcpy.p0.p0.i64(ptr noalias nocapture writeonly, ptr noalias nocapture readonly, i64, i1 immarg) #3

attributes #0 = { nofree norecurse nosync nounwind memory(readwrite, argmem: none, inaccessiblemem: none) "no-builtins" "no-trapping-math"="true" "stack-protector-buffer-size"="8" "target-cpu"="generic-rv64" "target-features"="+64bit,+m,+relax,+zmmul,-a,-b,-c,-d,-e,-experimental-smmpm,-experimental-smnpm,-experimental-ssnpm,-experimental-sspm,-experimental-ssqosid,-experimental-supm,-experimental-zacas,-experimental-zalasr,-experimental-zicfilp,-experimental-zicfiss,-f,-h,-shcounterenw,-shgatpa,-shtvala,-shvsatpa,-shvstvala,-shvstvecd,-smaia,-smcdeleg,-smcsrind,-smepmp,-smstateen,-ssaia,-ssccfg,-ssccptr,-sscofpmf,-sscounterenw,-sscsrind,-ssstateen,-ssstrict,-sstc,-sstvala,-sstvecd,-ssu64xl,-svade,-svadu,-svbare,-svinval,-svnapot,-svpbmt,-v,-xcvalu,-xcvbi,-xcvbitmanip,-xcvelw,-xcvmac,-xcvmem,-xcvsimd,-xsfcease,-xsfvcp,-xsfvfnrclipxfqf,-xsfvfwmaccqqq,-xsfvqmaccdod,-xsfvqmaccqoq,-xsifivecdiscarddlone,-xsifivecflushdlone,-xtheadba,-xtheadbb,-xtheadbs,-xtheadcmo,-xtheadcondmov,-xtheadfmemidx,-xtheadmac,-xtheadmemidx,-xtheadmempair,-xtheadsync,-xtheadvdot,-xventanacondops,-xwchc,-za128rs,-za64rs,-zaamo,-zabha,-zalrsc,-zama16b,-zawrs,-zba,-zbb,-zbc,-zbkb,-zbkc,-zbkx,-zbs,-zca,-zcb,-zcd,-zce,-zcf,-zcmop,-zcmp,-zcmt,-zdinx,-zfa,-zfbfmin,-zfh,-zfhmin,-zfinx,-zhinx,-zhinxmin,-zic64b,-zicbom,-zicbop,-zicboz,-ziccamoa,-ziccif,-zicclsm,-ziccrse,-zicntr,-zicond,-zicsr,-zifencei,-zihintntl,-zihintpause,-zihpm,-zimop,-zk,-zkn,-zknd,-zkne,-zknh,-zkr,-zks,-zksed,-zksh,-zkt,-ztso,-zvbb,-zvbc,-zve32f,-zve32x,-zve64d,-zve64f,-zve64x,-zvfbfmin,-zvfbfwma,-zvfh,-zvfhmin,-zvkb,-zvkg,-zvkn,-zvknc,-zvkned,-zvkng,-zvknha,-zvknhb,-zvks,-zvksc,-zvksed,-zvksg,-zvksh,-zvkt,-zvl1024b,-zvl128b,-zvl16384b,-zvl2048b,-zvl256b,-zvl32768b,-zvl32b,-zvl4096b,-zvl512b,-zvl64b,-zvl65536b,-zvl8192b" }
attributes #1 = { nofree nosync nounwind memory(readwrite, inaccessiblemem: none) "no-builtins" "no-trapping-math"="true" "stack-protector-buffer-size"="8" "target-cpu"="generic-rv64" "target-features"="+64bit,+m,+relax,+zmmul,-a,-b,-c,-d,-e,-experimental-smmpm,-experimental-smnpm,-experimental-ssnpm,-experimental-sspm,-experimental-ssqosid,-experimental-supm,-experimental-zacas,-experimental-zalasr,-experimental-zicfilp,-experimental-zicfiss,-f,-h,-shcounterenw,-shgatpa,-shtvala,-shvsatpa,-shvstvala,-shvstvecd,-smaia,-smcdeleg,-smcsrind,-smepmp,-smstateen,-ssaia,-ssccfg,-ssccptr,-sscofpmf,-sscounterenw,-sscsrind,-ssstateen,-ssstrict,-sstc,-sstvala,-sstvecd,-ssu64xl,-svade,-svadu,-svbare,-svinval,-svnapot,-svpbmt,-v,-xcvalu,-xcvbi,-xcvbitmanip,-xcvelw,-xcvmac,-xcvmem,-xcvsimd,-xsfcease,-xsfvcp,-xsfvfnrclipxfqf,-xsfvfwmaccqqq,-xsfvqmaccdod,-xsfvqmaccqoq,-xsifivecdiscarddlone,-xsifivecflushdlone,-xtheadba,-xtheadbb,-xtheadbs,-xtheadcmo,-xtheadcondmov,-xtheadfmemidx,-xtheadmac,-xtheadmemidx,-xtheadmempair,-xtheadsync,-xtheadvdot,-xventanacondops,-xwchc,-za128rs,-za64rs,-zaamo,-zabha,-zalrsc,-zama16b,-zawrs,-zba,-zbb,-zbc,-zbkb,-zbkc,-zbkx,-zbs,-zca,-zcb,-zcd,-zce,-zcf,-zcmop,-zcmp,-zcmt,-zdinx,-zfa,-zfbfmin,-zfh,-zfhmin,-zfinx,-zhinx,-zhinxmin,-zic64b,-zicbom,-zicbop,-zicboz,-ziccamoa,-ziccif,-zicclsm,-ziccrse,-zicntr,-zicond,-zicsr,-zifencei,-zihintntl,-zihintpause,-zihpm,-zimop,-zk,-zkn,-zknd,-zkne,-zknh,-zkr,-zks,-zksed,-zksh,-zkt,-ztso,-zvbb,-zvbc,-zve32f,-zve32x,-zve64d,-zve64f,-zve64x,-zvfbfmin,-zvfbfwma,-zvfh,-zvfhmin,-zvkb,-zvkg,-zvkn,-zvknc,-zvkned,-zvkng,-zvknha,-zvknhb,-zvks,-zvksc,-zvksed,-zvksg,-zvksh,-zvkt,-zvl1024b,-zvl128b,-zvl16384b,-zvl2048b,-zvl256b,-zvl32768b,-zvl32b,-zvl4096b,-zvl512b,-zvl64b,-zvl65536b,-zvl8192b" }
attributes #2 = { nofree nosync nounwind memory(readwrite, argmem: none, inaccessiblemem: none) "no-builtins" "no-trapping-math"="true" "stack-protector-buffer-size"="8" "target-cpu"="generic-rv64" "target-features"="+64bit,+m,+relax,+zmmul,-a,-b,-c,-d,-e,-experimental-smmpm,-experimental-smnpm,-experimental-ssnpm,-experimental-sspm,-experimental-ssqosid,-experimental-supm,-experimental-zacas,-experimental-zalasr,-experimental-zicfilp,-experimental-zicfiss,-f,-h,-shcounterenw,-shgatpa,-shtvala,-shvsatpa,-shvstvala,-shvstvecd,-smaia,-smcdeleg,-smcsrind,-smepmp,-smstateen,-ssaia,-ssccfg,-ssccptr,-sscofpmf,-sscounterenw,-sscsrind,-ssstateen,-ssstrict,-sstc,-sstvala,-sstvecd,-ssu64xl,-svade,-svadu,-svbare,-svinval,-svnapot,-svpbmt,-v,-xcvalu,-xcvbi,-xcvbitmanip,-xcvelw,-xcvmac,-xcvmem,-xcvsimd,-xsfcease,-xsfvcp,-xsfvfnrclipxfqf,-xsfvfwmaccqqq,-xsfvqmaccdod,-xsfvqmaccqoq,-xsifivecdiscarddlone,-xsifivecflushdlone,-xtheadba,-xtheadbb,-xtheadbs,-xtheadcmo,-xtheadcondmov,-xtheadfmemidx,-xtheadmac,-xtheadmemidx,-xtheadmempair,-xtheadsync,-xtheadvdot,-xventanacondops,-xwchc,-za128rs,-za64rs,-zaamo,-zabha,-zalrsc,-zama16b,-zawrs,-zba,-zbb,-zbc,-zbkb,-zbkc,-zbkx,-zbs,-zca,-zcb,-zcd,-zce,-zcf,-zcmop,-zcmp,-zcmt,-zdinx,-zfa,-zfbfmin,-zfh,-zfhmin,-zfinx,-zhinx,-zhinxmin,-zic64b,-zicbom,-zicbop,-zicboz,-ziccamoa,-ziccif,-zicclsm,-ziccrse,-zicntr,-zicond,-zicsr,-zifencei,-zihintntl,-zihintpause,-zihpm,-zimop,-zk,-zkn,-zknd,-zkne,-zknh,-zkr,-zks,-zksed,-zksh,-zkt,-ztso,-zvbb,-zvbc,-zve32f,-zve32x,-zve64d,-zve64f,-zve64x,-zvfbfmin,-zvfbfwma,-zvfh,-zvfhmin,-zvkb,-zvkg,-zvkn,-zvknc,-zvkned,-zvkng,-zvknha,-zvknhb,-zvks,-zvksc,-zvksed,-zvksg,-zvksh,-zvkt,-zvl1024b,-zvl128b,-zvl16384b,-zvl2048b,-zvl256b,-zvl32768b,-zvl32b,-zvl4096b,-zvl512b,-zvl64b,-zvl65536b,-zvl8192b" }
attributes #3 = { mustprogress nocallback nofree nounwind willreturn memory(argmem: readwrite) }
attributes #4 = { nobuiltin "no-builtins" }

!llvm.dbg.cu = !{!2}
!llvm.module.flags = !{!16, !17, !18, !19, !20, !22, !23, !24, !25}
!llvm.ident = !{!26}

!0 = !DIGlobalVariableExpression(var: !1, expr: !DIExpression())
!1 = distinct !DIGlobalVariable(name: "xs", scope: !2, file: !3, line: 2, type: !13, isLocal: true, isDefinition: true)
!2 = distinct !DICompileUnit(language: DW_LANG_C11, file: !3, producer: "Debian clang version 19.1.7 (3~deb12u1)", isOptimized: true, runtimeVersion: 0, emissionKind: FullDebug, retainedTypes: !4, globals: !7, splitDebugInlining: false, nameTableKind: None)
!3 = !DIFile(filename: "sort.c", directory: ".", checksumkind: CSK_MD5, checksum: "2242dd9c970d314cb813cadfbdcaeb22")
!4 = !{!5, !6}
!5 = !DIBasicType(name: "int", size: 32, encoding: DW_ATE_signed)
!6 = !DIBasicType(name: "unsigned long", size: 64, encoding: DW_ATE_unsigned)
!7 = !{!0, !8, !11}
!8 = !DIGlobalVariableExpression(var: !9, expr: !DIExpression())
!9 = distinct !DIGlobalVariable(name: "seed", scope: !2, file: !3, line: 3, type: !10, isLocal: true, isDefinition: true)
!10 = !DIBasicType(name: "unsigned int", size: 32, encoding: DW_ATE_unsigned)
!11 = !DIGlobalVariableExpression(var: !12, expr: !DIExpression())
!12 = distinct !DIGlobalVariable(name: "ys", scope: !2, file: !3, line: 65, type: !13, isLocal: true, isDefinition: true)
!13 = !DICompositeType(tag: DW_TAG_array_type, baseType: !5, size: 2048, elements: !14)
!14 = !{!15}
!15 = !DISubrange(count: 64)
!16 = !{i32 7, !"Dwarf Version", i32 5}
!17 = !{i32 2, !"Debug Info Version", i32 3}
!18 = !{i32 1, !"wchar_size", i32 4}
!19 = !{i32 1, !"target-abi", !"lp64"}
!20 = !{i32 6, !"riscv-isa", !21}
!21 = !{!"rv64i2p1_m2p0_zmmul1p0"}
!22 = !{i32 8, !"PIC Level", i32 2}
!23 = !{i32 7, !"PIE Level", i32 2}
!24 = !{i32 8, !"SmallDataLimit", i32 8}
!25 = !{i32 7, !"debug-info-assignment-tracking", i1 true}
!26 = !{!"Debian clang version 19.1.7 (3~deb12u1)"}
!27 = distinct !DISubprogram(name: "insertion", scope: !3, file: !3, line: 21, type: !28, scopeLine: 21, flags: DIFlagPrototyped | DIFlagAllCallsDescribed, spFlags: DISPFlagDefinition | DISPFlagOptimized, unit: !2, retainedNodes: !30)
!28 = !DISubroutineType(types: !29)
!29 = !{!6, !5, !10}
!30 = !{!31, !32, !33, !35, !38}
!31 = !DILocalVariable(name: "n", arg: 1, scope: !27, file: !3, line: 21, type: !5)
!32 = !DILocalVariable(name: "from", arg: 2, scope: !27, file: !3, line: 21, type: !10)
!33 = !DILocalVariable(name: "i", scope: !34, file: !3, line: 23, type: !5)
!34 = distinct !DILexicalBlock(scope: !27, file: !3, line: 23, column: 5)
!35 = !DILocalVariable(name: "k", scope: !36, file: !3, line: 24, type: !5)
!36 = distinct !DILexicalBlock(scope: !37, file: !3, line: 23, column: 33)
!37 = distinct !DILexicalBlock(scope: !34, file: !3, line: 23, column: 5)
!38 = !DILocalVariable(name: "j", scope: !36, file: !3, line: 24, type: !5)
!39 = !DILocation(line: 0, scope: !27)
!40 = !DILocalVariable(name: "n", arg: 1, scope: !41, file: !3, line: 4, type: !5)
!41 = distinct !DISubprogram(name: "fill", scope: !3, file: !3, line: 4, type: !42, scopeLine: 4, flags: DIFlagPrototyped | DIFlagAllCallsDescribed, spFlags: DISPFlagLocalToUnit | DISPFlagDefinition | DISPFlagOptimized, unit: !2, retainedNodes: !44)
!42 = !DISubroutineType(types: !43)
!43 = !{null, !5, !10}
!44 = !{!40, !45, !46}
!45 = !DILocalVariable(name: "from", arg: 2, scope: !41, file: !3, line: 4, type: !10)
!46 = !DILocalVariable(name: "i", scope: !47, file: !3, line: 6, type: !5)
!47 = distinct !DILexicalBlock(scope: !41, file: !3, line: 6, column: 5)
!48 = !DILocation(line: 0, scope: !41, inlinedAt: !49)
!49 = distinct !DILocation(line: 22, column: 5, scope: !27)
!50 = !DILocation(line: 0, scope: !47, inlinedAt: !49)
!51 = !DILocation(line: 6, column: 23, scope: !52, inlinedAt: !49)
!52 = distinct !DILexicalBlock(scope: !47, file: !3, line: 6, column: 5)
!53 = !DILocation(line: 6, column: 5, scope: !47, inlinedAt: !49)
!54 = !DILocation(line: 7, column: 21, scope: !55, inlinedAt: !49)
!55 = distinct !DILexicalBlock(scope: !52, file: !3, line: 6, column: 33)
!56 = !DILocation(line: 7, column: 35, scope: !55, inlinedAt: !49)
!57 = !DILocation(line: 8, column: 28, scope: !55, inlinedAt: !49)
!58 = !DILocation(line: 8, column: 35, scope: !55, inlinedAt: !49)
!59 = !DILocation(line: 8, column: 42, scope: !55, inlinedAt: !49)
!60 = !DILocation(line: 8, column: 9, scope: !55, inlinedAt: !49)
!61 = !DILocation(line: 8, column: 15, scope: !55, inlinedAt: !49)
!62 = !{!63, !63, i64 0}
!63 = !{!"int", !64, i64 0}
!64 = !{!"omnipotent char", !65, i64 0}
!65 = !{!"Simple C/C++ TBAA"}
!66 = !DILocation(line: 6, column: 29, scope: !52, inlinedAt: !49)
!67 = distinct !{!67, !53, !68, !69, !70}
!68 = !DILocation(line: 9, column: 5, scope: !47, inlinedAt: !49)
!69 = !{!"llvm.loop.mustprogress"}
!70 = !{!"llvm.loop.unroll.disable"}
!71 = !DILocation(line: 0, scope: !34)
!72 = !DILocation(line: 23, column: 23, scope: !37)
!73 = !DILocation(line: 23, column: 5, scope: !34)
!74 = !DILocalVariable(name: "n", arg: 1, scope: !75, file: !3, line: 11, type: !5)
!75 = distinct !DISubprogram(name: "shown", scope: !3, file: !3, line: 11, type: !76, scopeLine: 11, flags: DIFlagPrototyped | DIFlagAllCallsDescribed, spFlags: DISPFlagLocalToUnit | DISPFlagDefinition | DISPFlagOptimized, unit: !2, retainedNodes: !78)
!76 = !DISubroutineType(types: !77)
!77 = !{!6, !5}
!78 = !{!74, !79, !80}
!79 = !DILocalVariable(name: "sum", scope: !75, file: !3, line: 12, type: !6)
!80 = !DILocalVariable(name: "i", scope: !81, file: !3, line: 13, type: !5)
!81 = distinct !DILexicalBlock(scope: !75, file: !3, line: 13, column: 5)
!82 = !DILocation(line: 0, scope: !75, inlinedAt: !83)
!83 = distinct !DILocation(line: 28, column: 12, scope: !27)
!84 = !DILocation(line: 0, scope: !81, inlinedAt: !83)
!85 = !DILocation(line: 13, column: 5, scope: !81, inlinedAt: !83)
!86 = !DILocation(line: 13, column: 23, scope: !87, inlinedAt: !83)
!87 = distinct !DILexicalBlock(scope: !81, file: !3, line: 13, column: 5)
!88 = !DILocation(line: 13, column: 43, scope: !87, inlinedAt: !83)
!89 = !DILocation(line: 13, column: 65, scope: !87, inlinedAt: !83)
!90 = !DILocation(line: 13, column: 50, scope: !87, inlinedAt: !83)
!91 = !DILocation(line: 13, column: 48, scope: !87, inlinedAt: !83)
!92 = !DILocation(line: 13, column: 74, scope: !87, inlinedAt: !83)
!93 = !DILocation(line: 13, column: 76, scope: !87, inlinedAt: !83)
!94 = !DILocation(line: 13, column: 84, scope: !87, inlinedAt: !83)
!95 = !DILocation(line: 13, column: 79, scope: !87, inlinedAt: !83)
!96 = !DILocation(line: 13, column: 89, scope: !87, inlinedAt: !83)
!97 = !DILocation(line: 13, column: 73, scope: !87, inlinedAt: !83)
!98 = !DILocation(line: 13, column: 71, scope: !87, inlinedAt: !83)
!99 = !DILocation(line: 13, column: 29, scope: !87, inlinedAt: !83)
!100 = distinct !{!100, !85, !101, !69, !70}
!101 = !DILocation(line: 13, column: 112, scope: !81, inlinedAt: !83)
!102 = !DILocation(line: 28, column: 5, scope: !27)
!103 = !DILocation(line: 24, column: 17, scope: !36)
!104 = !DILocation(line: 0, scope: !36)
!105 = !DILocation(line: 25, column: 23, scope: !106)
!106 = distinct !DILexicalBlock(scope: !107, file: !3, line: 25, column: 9)
!107 = distinct !DILexicalBlock(scope: !36, file: !3, line: 25, column: 9)
!108 = !DILocation(line: 25, column: 26, scope: !106)
!109 = !DILocation(line: 25, column: 32, scope: !106)
!110 = !DILocation(line: 25, column: 9, scope: !107)
!111 = !DILocation(line: 25, column: 42, scope: !106)
!112 = !DILocation(line: 25, column: 52, scope: !106)
!113 = !DILocation(line: 25, column: 18, scope: !106)
!114 = distinct !{!114, !110, !115, !69, !70}
!115 = !DILocation(line: 25, column: 58, scope: !107)
!116 = !DILocation(line: 26, column: 9, scope: !36)
!117 = !DILocation(line: 26, column: 19, scope: !36)
!118 = !DILocation(line: 23, column: 29, scope: !37)
!119 = distinct !{!119, !73, !120, !69, !70}
!120 = !DILocation(line: 27, column: 5, scope: !34)
!121 = distinct !DISubprogram(name: "quicksort", scope: !3, file: !3, line: 41, type: !28, scopeLine: 41, flags: DIFlagPrototyped | DIFlagAllCallsDescribed, spFlags: DISPFlagDefinition | DISPFlagOptimized, unit: !2, retainedNodes: !122)
!122 = !{!123, !124}
!123 = !DILocalVariable(name: "n", arg: 1, scope: !121, file: !3, line: 41, type: !5)
!124 = !DILocalVariable(name: "from", arg: 2, scope: !121, file: !3, line: 41, type: !10)
!125 = !DILocation(line: 0, scope: !121)
!126 = !DILocation(line: 0, scope: !41, inlinedAt: !127)
!127 = distinct !DILocation(line: 42, column: 5, scope: !121)
!128 = !DILocation(line: 0, scope: !47, inlinedAt: !127)
!129 = !DILocation(line: 6, column: 23, scope: !52, inlinedAt: !127)
!130 = !DILocation(line: 6, column: 5, scope: !47, inlinedAt: !127)
!131 = !DILocation(line: 43, column: 16, scope: !121)
!132 = !DILocation(line: 43, column: 5, scope: !121)
!133 = !DILocation(line: 0, scope: !75, inlinedAt: !134)
!134 = distinct !DILocation(line: 44, column: 12, scope: !121)
!135 = !DILocation(line: 0, scope: !81, inlinedAt: !134)
!136 = !DILocation(line: 13, column: 5, scope: !81, inlinedAt: !134)
!137 = !DILocation(line: 7, column: 21, scope: !55, inlinedAt: !127)
!138 = !DILocation(line: 7, column: 35, scope: !55, inlinedAt: !127)
!139 = !DILocation(line: 8, column: 28, scope: !55, inlinedAt: !127)
!140 = !DILocation(line: 8, column: 35, scope: !55, inlinedAt: !127)
!141 = !DILocation(line: 8, column: 42, scope: !55, inlinedAt: !127)
!142 = !DILocation(line: 8, column: 9, scope: !55, inlinedAt: !127)
!143 = !DILocation(line: 8, column: 15, scope: !55, inlinedAt: !127)
!144 = !DILocation(line: 6, column: 29, scope: !52, inlinedAt: !127)
!145 = distinct !{!145, !130, !146, !69, !70}
!146 = !DILocation(line: 9, column: 5, scope: !47, inlinedAt: !127)
!147 = !DILocation(line: 13, column: 43, scope: !87, inlinedAt: !134)
!148 = !DILocation(line: 13, column: 65, scope: !87, inlinedAt: !134)
!149 = !DILocation(line: 13, column: 50, scope: !87, inlinedAt: !134)
!150 = !DILocation(line: 13, column: 48, scope: !87, inlinedAt: !134)
!151 = !DILocation(line: 13, column: 74, scope: !87, inlinedAt: !134)
!152 = !DILocation(line: 13, column: 76, scope: !87, inlinedAt: !134)
!153 = !DILocation(line: 13, column: 84, scope: !87, inlinedAt: !134)
!154 = !DILocation(line: 13, column: 79, scope: !87, inlinedAt: !134)
!155 = !DILocation(line: 13, column: 89, scope: !87, inlinedAt: !134)
!156 = !DILocation(line: 13, column: 73, scope: !87, inlinedAt: !134)
!157 = !DILocation(line: 13, column: 71, scope: !87, inlinedAt: !134)
!158 = !DILocation(line: 13, column: 29, scope: !87, inlinedAt: !134)
!159 = !DILocation(line: 13, column: 23, scope: !87, inlinedAt: !134)
!160 = distinct !{!160, !136, !161, !69, !70}
!161 = !DILocation(line: 13, column: 112, scope: !81, inlinedAt: !134)
!162 = !DILocation(line: 44, column: 5, scope: !121)
!163 = distinct !DISubprogram(name: "quick", scope: !3, file: !3, line: 30, type: !164, scopeLine: 30, flags: DIFlagPrototyped | DIFlagAllCallsDescribed, spFlags: DISPFlagLocalToUnit | DISPFlagDefinition | DISPFlagOptimized, unit: !2, retainedNodes: !166)
!164 = !DISubroutineType(types: !165)
!165 = !{null, !5, !5}
!166 = !{!167, !168, !169, !170, !171}
!167 = !DILocalVariable(name: "low", arg: 1, scope: !163, file: !3, line: 30, type: !5)
!168 = !DILocalVariable(name: "high", arg: 2, scope: !163, file: !3, line: 30, type: !5)
!169 = !DILocalVariable(name: "pivot", scope: !163, file: !3, line: 32, type: !5)
!170 = !DILocalVariable(name: "i", scope: !163, file: !3, line: 32, type: !5)
!171 = !DILocalVariable(name: "j", scope: !163, file: !3, line: 32, type: !5)
!172 = !DILocation(line: 0, scope: !163)
!173 = !DILocation(line: 31, column: 13, scope: !174)
!174 = distinct !DILexicalBlock(scope: !163, file: !3, line: 31, column: 9)
!175 = !DILocation(line: 31, column: 9, scope: !163)
!176 = !DILocation(line: 32, column: 25, scope: !163)
!177 = !DILocation(line: 32, column: 33, scope: !163)
!178 = !DILocation(line: 32, column: 17, scope: !163)
!179 = !DILocation(line: 33, column: 5, scope: !163)
!180 = !DILocation(line: 34, column: 9, scope: !181)
!181 = distinct !DILexicalBlock(scope: !163, file: !3, line: 33, column: 20)
!182 = !DILocation(line: 34, column: 16, scope: !181)
!183 = !DILocation(line: 34, column: 22, scope: !181)
!184 = !DILocation(line: 34, column: 32, scope: !181)
!185 = distinct !{!185, !180, !184, !69, !70}
!186 = !DILocation(line: 35, column: 9, scope: !181)
!187 = !DILocation(line: 35, column: 16, scope: !181)
!188 = !DILocation(line: 35, column: 22, scope: !181)
!189 = !DILocation(line: 35, column: 32, scope: !181)
!190 = distinct !{!190, !186, !189, !69, !70}
!191 = !DILocation(line: 36, column: 15, scope: !192)
!192 = distinct !DILexicalBlock(scope: !181, file: !3, line: 36, column: 13)
!193 = !DILocation(line: 36, column: 13, scope: !181)
!194 = !DILocation(line: 36, column: 31, scope: !192)
!195 = !DILocation(line: 36, column: 41, scope: !192)
!196 = !DILocalVariable(name: "a", arg: 1, scope: !197, file: !3, line: 16, type: !200)
!197 = distinct !DISubprogram(name: "swap", scope: !3, file: !3, line: 16, type: !198, scopeLine: 16, flags: DIFlagPrototyped | DIFlagAllCallsDescribed, spFlags: DISPFlagLocalToUnit | DISPFlagDefinition | DISPFlagOptimized, unit: !2, retainedNodes: !201)
!198 = !DISubroutineType(types: !199)
!199 = !{null, !200, !200}
!200 = !DIDerivedType(tag: DW_TAG_pointer_type, baseType: !5, size: 64)
!201 = !{!196, !202, !203}
!202 = !DILocalVariable(name: "b", arg: 2, scope: !197, file: !3, line: 16, type: !200)
!203 = !DILocalVariable(name: "t", scope: !197, file: !3, line: 17, type: !5)
!204 = !DILocation(line: 0, scope: !197, inlinedAt: !205)
!205 = distinct !DILocation(line: 36, column: 21, scope: !192)
!206 = !DILocation(line: 18, column: 8, scope: !197, inlinedAt: !205)
!207 = !DILocation(line: 19, column: 8, scope: !197, inlinedAt: !205)
!208 = !DILocation(line: 36, column: 21, scope: !192)
!209 = !DILocation(line: 33, column: 14, scope: !163)
!210 = distinct !{!210, !179, !211, !69, !70}
!211 = !DILocation(line: 37, column: 5, scope: !163)
!212 = !DILocation(line: 38, column: 5, scope: !163)
!213 = !DILocation(line: 40, column: 1, scope: !163)
!214 = distinct !DISubprogram(name: "heapsort", scope: !3, file: !3, line: 56, type: !28, scopeLine: 56, flags: DIFlagPrototyped | DIFlagAllCallsDescribed, spFlags: DISPFlagDefinition | DISPFlagOptimized, unit: !2, retainedNodes: !215)
!215 = !{!216, !217, !218, !220}
!216 = !DILocalVariable(name: "n", arg: 1, scope: !214, file: !3, line: 56, type: !5)
!217 = !DILocalVariable(name: "from", arg: 2, scope: !214, file: !3, line: 56, type: !10)
!218 = !DILocalVariable(name: "i", scope: !219, file: !3, line: 58, type: !5)
!219 = distinct !DILexicalBlock(scope: !214, file: !3, line: 58, column: 5)
!220 = !DILocalVariable(name: "i", scope: !221, file: !3, line: 59, type: !5)
!221 = distinct !DILexicalBlock(scope: !214, file: !3, line: 59, column: 5)
!222 = !DILocation(line: 0, scope: !214)
!223 = !DILocation(line: 0, scope: !41, inlinedAt: !224)
!224 = distinct !DILocation(line: 57, column: 5, scope: !214)
!225 = !DILocation(line: 0, scope: !47, inlinedAt: !224)
!226 = !DILocation(line: 6, column: 23, scope: !52, inlinedAt: !224)
!227 = !DILocation(line: 6, column: 5, scope: !47, inlinedAt: !224)
!228 = !DILocation(line: 7, column: 21, scope: !55, inlinedAt: !224)
!229 = !DILocation(line: 7, column: 35, scope: !55, inlinedAt: !224)
!230 = !DILocation(line: 8, column: 28, scope: !55, inlinedAt: !224)
!231 = !DILocation(line: 8, column: 35, scope: !55, inlinedAt: !224)
!232 = !DILocation(line: 8, column: 42, scope: !55, inlinedAt: !224)
!233 = !DILocation(line: 8, column: 9, scope: !55, inlinedAt: !224)
!234 = !DILocation(line: 8, column: 15, scope: !55, inlinedAt: !224)
!235 = !DILocation(line: 6, column: 29, scope: !52, inlinedAt: !224)
!236 = distinct !{!236, !227, !237, !69, !70}
!237 = !DILocation(line: 9, column: 5, scope: !47, inlinedAt: !224)
!238 = !DILocation(line: 0, scope: !219)
!239 = !DILocation(line: 58, column: 31, scope: !240)
!240 = distinct !DILexicalBlock(scope: !219, file: !3, line: 58, column: 5)
!241 = !DILocation(line: 58, column: 5, scope: !219)
!242 = !DILocation(line: 58, column: 20, scope: !219)
!243 = !DILocation(line: 0, scope: !221)
!244 = !DILocation(line: 59, column: 5, scope: !221)
!245 = !DILocation(line: 58, scope: !219)
!246 = !DILocalVariable(name: "root", arg: 1, scope: !247, file: !3, line: 46, type: !5)
!247 = distinct !DISubprogram(name: "sift", scope: !3, file: !3, line: 46, type: !164, scopeLine: 46, flags: DIFlagPrototyped | DIFlagAllCallsDescribed, spFlags: DISPFlagLocalToUnit | DISPFlagDefinition | DISPFlagOptimized, unit: !2, retainedNodes: !248)
!248 = !{!246, !249, !250}
!249 = !DILocalVariable(name: "n", arg: 2, scope: !247, file: !3, line: 46, type: !5)
!250 = !DILocalVariable(name: "child", scope: !251, file: !3, line: 48, type: !5)
!251 = distinct !DILexicalBlock(scope: !252, file: !3, line: 47, column: 14)
!252 = distinct !DILexicalBlock(scope: !253, file: !3, line: 47, column: 5)
!253 = distinct !DILexicalBlock(scope: !247, file: !3, line: 47, column: 5)
!254 = !DILocation(line: 0, scope: !247, inlinedAt: !255)
!255 = distinct !DILocation(line: 58, column: 42, scope: !240)
!256 = !DILocation(line: 48, column: 23, scope: !251, inlinedAt: !255)
!257 = !DILocation(line: 48, column: 30, scope: !251, inlinedAt: !255)
!258 = !DILocation(line: 49, column: 19, scope: !259, inlinedAt: !255)
!259 = distinct !DILexicalBlock(scope: !251, file: !3, line: 49, column: 13)
!260 = !DILocation(line: 49, column: 13, scope: !251, inlinedAt: !255)
!261 = !DILocation(line: 50, column: 19, scope: !262, inlinedAt: !255)
!262 = distinct !DILexicalBlock(scope: !251, file: !3, line: 50, column: 13)
!263 = !DILocation(line: 50, column: 23, scope: !262, inlinedAt: !255)
!264 = !DILocation(line: 50, column: 27, scope: !262, inlinedAt: !255)
!265 = !DILocation(line: 50, column: 30, scope: !262, inlinedAt: !255)
!266 = !DILocation(line: 50, column: 42, scope: !262, inlinedAt: !255)
!267 = !DILocation(line: 50, column: 40, scope: !262, inlinedAt: !255)
!268 = !DILocation(line: 50, column: 13, scope: !251, inlinedAt: !255)
!269 = !DILocation(line: 0, scope: !251, inlinedAt: !255)
!270 = !DILocation(line: 51, column: 13, scope: !271, inlinedAt: !255)
!271 = distinct !DILexicalBlock(scope: !251, file: !3, line: 51, column: 13)
!272 = !DILocation(line: 51, column: 25, scope: !271, inlinedAt: !255)
!273 = !DILocation(line: 51, column: 22, scope: !271, inlinedAt: !255)
!274 = !DILocation(line: 51, column: 13, scope: !251, inlinedAt: !255)
!275 = !DILocation(line: 0, scope: !197, inlinedAt: !276)
!276 = distinct !DILocation(line: 52, column: 9, scope: !251, inlinedAt: !255)
!277 = !DILocation(line: 18, column: 8, scope: !197, inlinedAt: !276)
!278 = !DILocation(line: 19, column: 8, scope: !197, inlinedAt: !276)
!279 = distinct !{!279, !241, !280, !69, !70}
!280 = !DILocation(line: 58, column: 51, scope: !219)
!281 = !DILocation(line: 0, scope: !75, inlinedAt: !282)
!282 = distinct !DILocation(line: 63, column: 12, scope: !214)
!283 = !DILocation(line: 0, scope: !81, inlinedAt: !282)
!284 = !DILocation(line: 13, column: 5, scope: !81, inlinedAt: !282)
!285 = !DILocation(line: 13, column: 23, scope: !87, inlinedAt: !282)
!286 = !DILocation(line: 13, column: 43, scope: !87, inlinedAt: !282)
!287 = !DILocation(line: 13, column: 65, scope: !87, inlinedAt: !282)
!288 = !DILocation(line: 13, column: 50, scope: !87, inlinedAt: !282)
!289 = !DILocation(line: 13, column: 48, scope: !87, inlinedAt: !282)
!290 = !DILocation(line: 13, column: 74, scope: !87, inlinedAt: !282)
!291 = !DILocation(line: 13, column: 76, scope: !87, inlinedAt: !282)
!292 = !DILocation(line: 13, column: 84, scope: !87, inlinedAt: !282)
!293 = !DILocation(line: 13, column: 79, scope: !87, inlinedAt: !282)
!294 = !DILocation(line: 13, column: 89, scope: !87, inlinedAt: !282)
!295 = !DILocation(line: 13, column: 73, scope: !87, inlinedAt: !282)
!296 = !DILocation(line: 13, column: 71, scope: !87, inlinedAt: !282)
!297 = !DILocation(line: 13, column: 29, scope: !87, inlinedAt: !282)
!298 = distinct !{!298, !284, !299, !69, !70}
!299 = !DILocation(line: 13, column: 112, scope: !81, inlinedAt: !282)
!300 = !DILocation(line: 63, column: 5, scope: !214)
!301 = !DILocation(line: 59, scope: !221)
!302 = !DILocation(line: 60, column: 23, scope: !303)
!303 = distinct !DILexicalBlock(scope: !304, file: !3, line: 59, column: 37)
!304 = distinct !DILexicalBlock(scope: !221, file: !3, line: 59, column: 5)
!305 = !DILocation(line: 0, scope: !197, inlinedAt: !306)
!306 = distinct !DILocation(line: 60, column: 9, scope: !303)
!307 = !DILocation(line: 17, column: 13, scope: !197, inlinedAt: !306)
!308 = !DILocation(line: 18, column: 10, scope: !197, inlinedAt: !306)
!309 = !DILocation(line: 18, column: 8, scope: !197, inlinedAt: !306)
!310 = !DILocation(line: 19, column: 8, scope: !197, inlinedAt: !306)
!311 = !DILocation(line: 0, scope: !247, inlinedAt: !312)
!312 = distinct !DILocation(line: 61, column: 9, scope: !303)
!313 = !DILocation(line: 49, column: 19, scope: !259, inlinedAt: !312)
!314 = !DILocation(line: 49, column: 13, scope: !251, inlinedAt: !312)
!315 = !DILocation(line: 50, column: 19, scope: !262, inlinedAt: !312)
!316 = !DILocation(line: 50, column: 23, scope: !262, inlinedAt: !312)
!317 = !DILocation(line: 50, column: 27, scope: !262, inlinedAt: !312)
!318 = !DILocation(line: 50, column: 30, scope: !262, inlinedAt: !312)
!319 = !DILocation(line: 50, column: 42, scope: !262, inlinedAt: !312)
!320 = !DILocation(line: 50, column: 40, scope: !262, inlinedAt: !312)
!321 = !DILocation(line: 50, column: 13, scope: !251, inlinedAt: !312)
!322 = !DILocation(line: 0, scope: !251, inlinedAt: !312)
!323 = !DILocation(line: 51, column: 13, scope: !271, inlinedAt: !312)
!324 = !DILocation(line: 51, column: 25, scope: !271, inlinedAt: !312)
!325 = !DILocation(line: 51, column: 22, scope: !271, inlinedAt: !312)
!326 = !DILocation(line: 51, column: 13, scope: !251, inlinedAt: !312)
!327 = !DILocation(line: 0, scope: !197, inlinedAt: !328)
!328 = distinct !DILocation(line: 52, column: 9, scope: !251, inlinedAt: !312)
!329 = !DILocation(line: 18, column: 8, scope: !197, inlinedAt: !328)
!330 = !DILocation(line: 19, column: 8, scope: !197, inlinedAt: !328)
!331 = !DILocation(line: 48, column: 23, scope: !251, inlinedAt: !312)
!332 = !DILocation(line: 48, column: 30, scope: !251, inlinedAt: !312)
!333 = !DILocation(line: 59, column: 27, scope: !304)
!334 = distinct !{!334, !244, !335, !69, !70}
!335 = !DILocation(line: 62, column: 5, scope: !221)
!336 = distinct !DISubprogram(name: "mergesort", scope: !3, file: !3, line: 74, type: !28, scopeLine: 74, flags: DIFlagPrototyped | DIFlagAllCallsDescribed, spFlags: DISPFlagDefinition | DISPFlagOptimized, unit: !2, retainedNodes: !337)
!337 = !{!338, !339}
!338 = !DILocalVariable(name: "n", arg: 1, scope: !336, file: !3, line: 74, type: !5)
!339 = !DILocalVariable(name: "from", arg: 2, scope: !336, file: !3, line: 74, type: !10)
!340 = !DILocation(line: 0, scope: !336)
!341 = !DILocation(line: 0, scope: !41, inlinedAt: !342)
!342 = distinct !DILocation(line: 75, column: 5, scope: !336)
!343 = !DILocation(line: 0, scope: !47, inlinedAt: !342)
!344 = !DILocation(line: 6, column: 23, scope: !52, inlinedAt: !342)
!345 = !DILocation(line: 6, column: 5, scope: !47, inlinedAt: !342)
!346 = !DILocation(line: 76, column: 5, scope: !336)
!347 = !DILocation(line: 0, scope: !75, inlinedAt: !348)
!348 = distinct !DILocation(line: 77, column: 12, scope: !336)
!349 = !DILocation(line: 0, scope: !81, inlinedAt: !348)
!350 = !DILocation(line: 13, column: 5, scope: !81, inlinedAt: !348)
!351 = !DILocation(line: 7, column: 21, scope: !55, inlinedAt: !342)
!352 = !DILocation(line: 7, column: 35, scope: !55, inlinedAt: !342)
!353 = !DILocation(line: 8, column: 28, scope: !55, inlinedAt: !342)
!354 = !DILocation(line: 8, column: 35, scope: !55, inlinedAt: !342)
!355 = !DILocation(line: 8, column: 42, scope: !55, inlinedAt: !342)
!356 = !DILocation(line: 8, column: 9, scope: !55, inlinedAt: !342)
!357 = !DILocation(line: 8, column: 15, scope: !55, inlinedAt: !342)
!358 = !DILocation(line: 6, column: 29, scope: !52, inlinedAt: !342)
!359 = distinct !{!359, !345, !360, !69, !70}
!360 = !DILocation(line: 9, column: 5, scope: !47, inlinedAt: !342)
!361 = !DILocation(line: 13, column: 43, scope: !87, inlinedAt: !348)
!362 = !DILocation(line: 13, column: 65, scope: !87, inlinedAt: !348)
!363 = !DILocation(line: 13, column: 50, scope: !87, inlinedAt: !348)
!364 = !DILocation(line: 13, column: 48, scope: !87, inlinedAt: !348)
!365 = !DILocation(line: 13, column: 74, scope: !87, inlinedAt: !348)
!366 = !DILocation(line: 13, column: 76, scope: !87, inlinedAt: !348)
!367 = !DILocation(line: 13, column: 84, scope: !87, inlinedAt: !348)
!368 = !DILocation(line: 13, column: 79, scope: !87, inlinedAt: !348)
!369 = !DILocation(line: 13, column: 89, scope: !87, inlinedAt: !348)
!370 = !DILocation(line: 13, column: 73, scope: !87, inlinedAt: !348)
!371 = !DILocation(line: 13, column: 71, scope: !87, inlinedAt: !348)
!372 = !DILocation(line: 13, column: 29, scope: !87, inlinedAt: !348)
!373 = !DILocation(line: 13, column: 23, scope: !87, inlinedAt: !348)
!374 = distinct !{!374, !350, !375, !69, !70}
!375 = !DILocation(line: 13, column: 112, scope: !81, inlinedAt: !348)
!376 = !DILocation(line: 77, column: 5, scope: !336)
!377 = distinct !DISubprogram(name: "merge", scope: !3, file: !3, line: 66, type: !164, scopeLine: 66, flags: DIFlagPrototyped | DIFlagAllCallsDescribed, spFlags: DISPFlagLocalToUnit | DISPFlagDefinition | DISPFlagOptimized, unit: !2, retainedNodes: !378)
!378 = !{!379, !380, !381, !382, !383, !384}
!379 = !DILocalVariable(name: "low", arg: 1, scope: !377, file: !3, line: 66, type: !5)
!380 = !DILocalVariable(name: "high", arg: 2, scope: !377, file: !3, line: 66, type: !5)
!381 = !DILocalVariable(name: "middle", scope: !377, file: !3, line: 68, type: !5)
!382 = !DILocalVariable(name: "i", scope: !377, file: !3, line: 68, type: !5)
!383 = !DILocalVariable(name: "j", scope: !377, file: !3, line: 68, type: !5)
!384 = !DILocalVariable(name: "k", scope: !385, file: !3, line: 71, type: !5)
!385 = distinct !DILexicalBlock(scope: !377, file: !3, line: 71, column: 5)
!386 = !DILocation(line: 0, scope: !377)
!387 = !DILocation(line: 67, column: 14, scope: !388)
!388 = distinct !DILexicalBlock(scope: !377, file: !3, line: 67, column: 9)
!389 = !DILocation(line: 67, column: 20, scope: !388)
!390 = !DILocation(line: 67, column: 9, scope: !377)
!391 = !DILocation(line: 68, column: 37, scope: !377)
!392 = !DILocation(line: 68, column: 22, scope: !377)
!393 = !DILocation(line: 69, column: 5, scope: !377)
!394 = !DILocation(line: 70, column: 5, scope: !377)
!395 = !DILocation(line: 0, scope: !385)
!396 = !DILocation(line: 71, column: 25, scope: !397)
!397 = distinct !DILexicalBlock(scope: !385, file: !3, line: 71, column: 5)
!398 = !DILocation(line: 71, column: 5, scope: !385)
!399 = !DILocation(line: 72, column: 23, scope: !377)
!400 = !DILocation(line: 72, column: 33, scope: !377)
!401 = !DILocation(line: 72, column: 42, scope: !377)
!402 = !DILocation(line: 72, column: 70, scope: !377)
!403 = !DILocation(line: 72, column: 5, scope: !377)
!404 = !DILocation(line: 73, column: 1, scope: !377)
!405 = !DILocation(line: 71, column: 48, scope: !397)
!406 = !DILocation(line: 71, column: 56, scope: !397)
!407 = !DILocation(line: 71, column: 62, scope: !397)
!408 = !DILocation(line: 71, column: 71, scope: !397)
!409 = !DILocation(line: 71, column: 74, scope: !397)
!410 = !DILocation(line: 71, column: 83, scope: !397)
!411 = !DILocation(line: 71, column: 80, scope: !397)
!412 = !DILocation(line: 71, column: 46, scope: !397)
!413 = !DILocation(line: 71, column: 96, scope: !397)
!414 = !DILocation(line: 71, column: 106, scope: !397)
!415 = !DILocation(line: 71, scope: !397)
!416 = !DILocation(line: 71, column: 38, scope: !397)
!417 = !DILocation(line: 71, column: 44, scope: !397)
!418 = !DILocation(line: 71, column: 34, scope: !397)
!419 = distinct !{!419, !398, !420, !69, !70}
!420 = !DILocation(line: 71, column: 108, scope: !385)
