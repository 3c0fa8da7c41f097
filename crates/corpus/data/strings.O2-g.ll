; ModuleID = 'strings.c'
source_filename = "strings.c"
target datalayout = "e-m:e-p:64:64-i64:64-i128:128-n32:64-S128"
target triple = "riscv64-unknown-linux-gnu"

@lines = internal unnamed_addr constant [4 x ptr] [ptr @.str, ptr @.str.1, ptr @.str.2, ptr @.str.3], align 8, !dbg !0
@.str = private unnamed_addr constant [26 x i8] c"able was I ere I saw elba\00", align 1, !dbg !10
@.str.1 = private unnamed_addr constant [13 x i8] c"a man a plan\00", align 1, !dbg !16
@.str.2 = private unnamed_addr constant [1 x i8] zeroinitializer, align 1, !dbg !21
@.str.3 = private unnamed_addr constant [15 x i8] c"  two   words \00", align 1, !dbg !26
@buffer = internal unnamed_addr global [24 x i8] zeroinitializer, align 1, !dbg !36
@.str.4 = private unnamed_addr constant [17 x i8] c"0123456789abcdef\00", align 1, !dbg !31

; Function Attrs: nofree norecurse nosync nounwind memory(read, inaccessiblemem: none)
define dso_local signext i32 @length_of(i32 noundef signext %0) local_unnamed_addr #0 !dbg !58 {
    #dbg_value(i32 %0, !62, !DIExpression(), !63)
  %2 = and i32 %0, 3, !dbg !64
  %3 = zext nneg i32 %2 to i64, !dbg !65
  %4 = getelementptr inbounds [4 x ptr], ptr @lines, i64 0, i64 %3, !dbg !65
  %5 = load ptr, ptr %4, align 8, !dbg !65, !tbaa !66
    #dbg_value(ptr %5, !70, !DIExpression(), !76)
    #dbg_value(ptr %5, !75, !DIExpression(), !76)
  br label %6, !dbg !78

6:                                                ; preds = %6, %1
  %7 = phi ptr [ %5, %1 ], [ %10, %6 ], !dbg !76
    #dbg_value(ptr %7, !75, !DIExpression(), !76)
  %8 = load i8, ptr %7, align 1, !dbg !79, !tbaa !80
  %9 = icmp eq i8 %8, 0, !dbg !78
  %10 = getelementptr inbounds i8, ptr %7, i64 1, !dbg !81
    #dbg_value(ptr %10, !75, !DIExpression(), !76)
  br i1 %9, label %11, label %6, !dbg !78, !llvm.loop !82

11:                                               ; preds = %6
  %12 = ptrtoint ptr %7 to i64, !dbg !85
  %13 = ptrtoint ptr %5 to i64, !dbg !85
  %14 = sub i64 %12, %13, !dbg !85
  %15 = trunc i64 %14 to i32, !dbg !86
  ret i32 %15, !dbg !87
}

; Function Attrs: nofree norecurse nosync nounwind memory(read, inaccessiblemem: none)
define dso_local signext i32 @words_of(i32 noundef signext %0) local_unnamed_addr #0 !dbg !88 {
    #dbg_value(i32 %0, !90, !DIExpression(), !95)
    #dbg_value(i32 0, !91, !DIExpression(), !95)
    #dbg_value(i32 0, !92, !DIExpression(), !95)
  %2 = and i32 %0, 3, !dbg !96
  %3 = zext nneg i32 %2 to i64, !dbg !97
  %4 = getelementptr inbounds [4 x ptr], ptr @lines, i64 0, i64 %3, !dbg !97
  %5 = load ptr, ptr %4, align 8, !dbg !97, !tbaa !66
    #dbg_value(ptr %5, !93, !DIExpression(), !98)
  br label %6, !dbg !99

6:                                                ; preds = %16, %1
  %7 = phi i32 [ 0, %1 ], [ %17, %16 ], !dbg !100
  %8 = phi i32 [ 0, %1 ], [ %18, %16 ], !dbg !95
  %9 = phi ptr [ %5, %1 ], [ %19, %16 ], !dbg !101
    #dbg_value(ptr %9, !93, !DIExpression(), !98)
    #dbg_value(i32 %8, !92, !DIExpression(), !95)
    #dbg_value(i32 %7, !91, !DIExpression(), !95)
  %10 = load i8, ptr %9, align 1, !dbg !102, !tbaa !80
  switch i8 %10, label %12 [
    i8 0, label %11
    i8 32, label %16
  ], !dbg !104

11:                                               ; preds = %6
  ret i32 %7, !dbg !105

12:                                               ; preds = %6
  %13 = icmp eq i32 %8, 0, !dbg !106
  %14 = zext i1 %13 to i32, !dbg !110
  %15 = add nsw i32 %7, %14, !dbg !110
  br label %16, !dbg !110

16:                                               ; preds = %12, %6
  %17 = phi i32 [ %7, %6 ], [ %15, %12 ], !dbg !95
  %18 = phi i32 [ 0, %6 ], [ 1, %12 ], !dbg !95
    #dbg_value(i32 %18, !92, !DIExpression(), !95)
    #dbg_value(i32 %17, !91, !DIExpression(), !95)
  %19 = getelementptr inbounds i8, ptr %9, i64 1, !dbg !111
    #dbg_value(ptr %19, !93, !DIExpression(), !98)
  br label %6, !dbg !112, !llvm.loop !113
}

; Function Attrs: nofree norecurse nosync nounwind memory(read, inaccessiblemem: none)
define dso_local zeroext i1 @is_palindrome(i32 noundef signext %0) local_unnamed_addr #0 !dbg !115 {
    #dbg_value(i32 %0, !120, !DIExpression(), !124)
  %2 = and i32 %0, 3, !dbg !125
  %3 = zext nneg i32 %2 to i64, !dbg !126
  %4 = getelementptr inbounds [4 x ptr], ptr @lines, i64 0, i64 %3, !dbg !126
  %5 = load ptr, ptr %4, align 8, !dbg !126, !tbaa !66
    #dbg_value(ptr %5, !121, !DIExpression(), !124)
    #dbg_value(i32 0, !122, !DIExpression(), !124)
    #dbg_value(ptr %5, !70, !DIExpression(), !127)
    #dbg_value(ptr %5, !75, !DIExpression(), !127)
  br label %6, !dbg !129

6:                                                ; preds = %6, %1
  %7 = phi i32 [ %12, %6 ], [ -1, %1 ], !dbg !127
  %8 = phi ptr [ %11, %6 ], [ %5, %1 ], !dbg !127
    #dbg_value(ptr %8, !75, !DIExpression(), !127)
  %9 = load i8, ptr %8, align 1, !dbg !130, !tbaa !80
  %10 = icmp eq i8 %9, 0, !dbg !129
  %11 = getelementptr inbounds i8, ptr %8, i64 1, !dbg !131
    #dbg_value(ptr %11, !75, !DIExpression(), !127)
  %12 = add i32 %7, 1, !dbg !129
  br i1 %10, label %13, label %6, !dbg !129, !llvm.loop !132

13:                                               ; preds = %6
  %14 = ptrtoint ptr %8 to i64, !dbg !133
  %15 = ptrtoint ptr %5 to i64, !dbg !133
  %16 = sub i64 %14, %15, !dbg !133
  %17 = trunc i64 %16 to i32, !dbg !134
    #dbg_value(i32 %17, !123, !DIExpression(DW_OP_constu, 1, DW_OP_minus, DW_OP_stack_value), !124)
  %18 = add nsw i32 %17, -1, !dbg !124
  %19 = icmp sgt i32 %17, 1, !dbg !135
  br i1 %19, label %20, label %41, !dbg !136

20:                                               ; preds = %13
  %21 = sext i32 %7 to i64, !dbg !137
  br label %22, !dbg !137

22:                                               ; preds = %20, %32
  %23 = phi i64 [ 0, %20 ], [ %33, %32 ]
  %24 = phi i64 [ %21, %20 ], [ %35, %32 ]
  %25 = phi i32 [ %18, %20 ], [ %36, %32 ]
  %26 = phi i32 [ 0, %20 ], [ %34, %32 ]
    #dbg_value(i64 %23, !122, !DIExpression(), !124)
  %27 = getelementptr inbounds i8, ptr %5, i64 %23, !dbg !138
  %28 = load i8, ptr %27, align 1, !dbg !138, !tbaa !80
  %29 = getelementptr inbounds i8, ptr %5, i64 %24, !dbg !139
  %30 = load i8, ptr %29, align 1, !dbg !139, !tbaa !80
  %31 = icmp eq i8 %28, %30, !dbg !140
  br i1 %31, label %32, label %38, !dbg !137

32:                                               ; preds = %22
  %33 = add nuw nsw i64 %23, 1, !dbg !141
  %34 = add nuw nsw i32 %26, 1, !dbg !141
    #dbg_value(i64 %33, !122, !DIExpression(), !124)
    #dbg_value(i64 %24, !123, !DIExpression(DW_OP_constu, 1, DW_OP_minus, DW_OP_stack_value), !124)
  %35 = add nsw i64 %24, -1, !dbg !124
  %36 = add nsw i32 %25, -1, !dbg !124
    #dbg_value(i64 %35, !123, !DIExpression(), !124)
  %37 = icmp slt i64 %33, %35, !dbg !135
  br i1 %37, label %22, label %41, !dbg !136, !llvm.loop !142

38:                                               ; preds = %22
  %39 = trunc nuw nsw i64 %24 to i32
  %40 = trunc nuw nsw i64 %23 to i32
  br label %41, !dbg !144

41:                                               ; preds = %32, %38, %13
  %42 = phi i32 [ 0, %13 ], [ %40, %38 ], [ %34, %32 ], !dbg !124
  %43 = phi i32 [ %18, %13 ], [ %39, %38 ], [ %36, %32 ], !dbg !124
  %44 = icmp sge i32 %42, %43, !dbg !144
  ret i1 %44, !dbg !145
}

; Function Attrs: nofree norecurse nosync nounwind memory(readwrite, inaccessiblemem: none)
define dso_local i64 @digit_sum(i64 noundef %0, i32 noundef signext %1) local_unnamed_addr #1 !dbg !146 {
    #dbg_value(i64 %0, !151, !DIExpression(), !157)
    #dbg_value(i32 %1, !152, !DIExpression(), !157)
    #dbg_value(i64 0, !153, !DIExpression(), !157)
    #dbg_value(i64 %0, !158, !DIExpression(), !166)
    #dbg_value(i32 %1, !163, !DIExpression(), !166)
    #dbg_value(ptr getelementptr inbounds (i8, ptr @buffer, i64 23), !164, !DIExpression(), !166)
  %3 = tail call i64 @llvm.abs.i64(i64 %0, i1 false), !dbg !168
    #dbg_value(i64 %3, !165, !DIExpression(), !166)
  store i8 0, ptr getelementptr inbounds (i8, ptr @buffer, i64 23), align 1, !dbg !169, !tbaa !80
  %4 = zext i32 %1 to i64
  br label %5, !dbg !170

5:                                                ; preds = %5, %2
  %6 = phi ptr [ getelementptr inbounds (i8, ptr @buffer, i64 23), %2 ], [ %14, %5 ], !dbg !166
  %7 = phi i64 [ %3, %2 ], [ %9, %5 ], !dbg !166
    #dbg_value(i64 %7, !165, !DIExpression(), !166)
    #dbg_value(ptr %6, !164, !DIExpression(), !166)
  %8 = freeze i64 %7, !dbg !171
  %9 = udiv i64 %8, %4, !dbg !171
  %10 = mul i64 %9, %4, !dbg !173
  %11 = sub i64 %8, %10, !dbg !173
  %12 = getelementptr inbounds [17 x i8], ptr @.str.4, i64 0, i64 %11, !dbg !174
  %13 = load i8, ptr %12, align 1, !dbg !174, !tbaa !80
  %14 = getelementptr inbounds i8, ptr %6, i64 -1, !dbg !175
    #dbg_value(ptr %14, !164, !DIExpression(), !166)
  store i8 %13, ptr %14, align 1, !dbg !176, !tbaa !80
    #dbg_value(i64 %9, !165, !DIExpression(), !166)
  %15 = icmp ult i64 %7, %4, !dbg !177
  br i1 %15, label %16, label %5, !dbg !177, !llvm.loop !178

16:                                               ; preds = %5
  %17 = icmp slt i64 %0, 0, !dbg !180
  br i1 %17, label %18, label %20, !dbg !181

18:                                               ; preds = %16
  %19 = getelementptr inbounds i8, ptr %6, i64 -2, !dbg !182
    #dbg_value(ptr %19, !164, !DIExpression(), !166)
  store i8 45, ptr %19, align 1, !dbg !184, !tbaa !80
    #dbg_value(ptr %19, !154, !DIExpression(), !185)
    #dbg_value(i64 0, !153, !DIExpression(), !157)
  br label %22, !dbg !186

20:                                               ; preds = %16
    #dbg_value(ptr %14, !164, !DIExpression(), !166)
    #dbg_value(ptr %14, !154, !DIExpression(), !185)
    #dbg_value(i64 0, !153, !DIExpression(), !157)
  %21 = icmp eq i64 %11, 16, !dbg !186
  br i1 %21, label %25, label %22, !dbg !186

22:                                               ; preds = %18, %20
  %23 = phi i8 [ %13, %20 ], [ 45, %18 ]
  %24 = phi ptr [ %14, %20 ], [ %19, %18 ]
  br label %27, !dbg !186

25:                                               ; preds = %27, %20
  %26 = phi i64 [ 0, %20 ], [ %33, %27 ], !dbg !157
  ret i64 %26, !dbg !187

27:                                               ; preds = %22, %27
  %28 = phi i8 [ %35, %27 ], [ %23, %22 ]
  %29 = phi ptr [ %34, %27 ], [ %24, %22 ]
  %30 = phi i64 [ %33, %27 ], [ 0, %22 ]
    #dbg_value(ptr %29, !154, !DIExpression(), !185)
    #dbg_value(i64 %30, !153, !DIExpression(), !157)
  %31 = mul nsw i64 %30, 3, !dbg !188
  %32 = zext i8 %28 to i64, !dbg !190
  %33 = add nsw i64 %31, %32, !dbg !191
    #dbg_value(i64 %33, !153, !DIExpression(), !157)
  %34 = getelementptr inbounds i8, ptr %29, i64 1, !dbg !192
    #dbg_value(ptr %34, !154, !DIExpression(), !185)
  %35 = load i8, ptr %34, align 1, !dbg !193, !tbaa !80
  %36 = icmp eq i8 %35, 0, !dbg !186
  br i1 %36, label %25, label %27, !dbg !186, !llvm.loop !194
}

; Function Attrs: nofree norecurse nosync nounwind memory(readwrite, inaccessiblemem: none)
define dso_local i64 @there_and_back(i64 noundef %0) local_unnamed_addr #1 !dbg !196 {
    #dbg_value(i64 %0, !200, !DIExpression(), !201)
    #dbg_value(i64 %0, !158, !DIExpression(), !202)
    #dbg_value(i32 10, !163, !DIExpression(), !202)
    #dbg_value(ptr getelementptr inbounds (i8, ptr @buffer, i64 23), !164, !DIExpression(), !202)
  %2 = tail call i64 @llvm.abs.i64(i64 %0, i1 false), !dbg !204
    #dbg_value(i64 %2, !165, !DIExpression(), !202)
  store i8 0, ptr getelementptr inbounds (i8, ptr @buffer, i64 23), align 1, !dbg !205, !tbaa !80
  br label %3, !dbg !206

3:                                                ; preds = %3, %1
  %4 = phi ptr [ getelementptr inbounds (i8, ptr @buffer, i64 23), %1 ], [ %12, %3 ], !dbg !202
  %5 = phi i64 [ %2, %1 ], [ %7, %3 ], !dbg !202
    #dbg_value(i64 %5, !165, !DIExpression(), !202)
    #dbg_value(ptr %4, !164, !DIExpression(), !202)
  %6 = freeze i64 %5, !dbg !207
  %7 = udiv i64 %6, 10, !dbg !207
  %8 = mul i64 %7, 10, !dbg !208
  %9 = sub i64 %6, %8, !dbg !208
  %10 = getelementptr inbounds [17 x i8], ptr @.str.4, i64 0, i64 %9, !dbg !209
  %11 = load i8, ptr %10, align 1, !dbg !209, !tbaa !80
  %12 = getelementptr inbounds i8, ptr %4, i64 -1, !dbg !210
    #dbg_value(ptr %12, !164, !DIExpression(), !202)
  store i8 %11, ptr %12, align 1, !dbg !211, !tbaa !80
    #dbg_value(i64 %7, !165, !DIExpression(), !202)
  %13 = icmp ult i64 %5, 10, !dbg !212
  br i1 %13, label %14, label %3, !dbg !212, !llvm.loop !213

14:                                               ; preds = %3
  %15 = icmp slt i64 %0, 0, !dbg !215
  br i1 %15, label %16, label %18, !dbg !216

16:                                               ; preds = %14
  %17 = getelementptr inbounds i8, ptr %4, i64 -2, !dbg !217
    #dbg_value(ptr %17, !164, !DIExpression(), !202)
  store i8 45, ptr %17, align 1, !dbg !218, !tbaa !80
  br label %18, !dbg !219

18:                                               ; preds = %14, %16
  %19 = phi i8 [ 45, %16 ], [ %11, %14 ], !dbg !220
  %20 = phi i64 [ -2, %16 ], [ -1, %14 ], !dbg !202
  %21 = getelementptr inbounds i8, ptr %4, i64 %20, !dbg !217
    #dbg_value(ptr poison, !164, !DIExpression(), !202)
    #dbg_value(ptr poison, !225, !DIExpression(), !229)
    #dbg_value(i64 0, !226, !DIExpression(), !229)
  %22 = icmp eq i8 %19, 45, !dbg !230
  %23 = zext i1 %22 to i64, !dbg !231
    #dbg_value(i64 %23, !227, !DIExpression(), !229)
  %24 = getelementptr inbounds i8, ptr %21, i64 %23, !dbg !231
    #dbg_value(ptr %24, !225, !DIExpression(), !229)
    #dbg_value(i64 0, !226, !DIExpression(), !229)
  %25 = load i8, ptr %24, align 1, !dbg !233, !tbaa !80
  %26 = add i8 %25, -48, !dbg !235
  %27 = icmp ult i8 %26, 10, !dbg !235
  br i1 %27, label %28, label %40, !dbg !235

28:                                               ; preds = %18, %28
  %29 = phi i8 [ %37, %28 ], [ %25, %18 ]
  %30 = phi ptr [ %36, %28 ], [ %24, %18 ]
  %31 = phi i64 [ %35, %28 ], [ 0, %18 ]
    #dbg_value(ptr %30, !225, !DIExpression(), !229)
    #dbg_value(i64 %31, !226, !DIExpression(), !229)
  %32 = mul nsw i64 %31, 10, !dbg !236
  %33 = and i8 %29, 15, !dbg !237
  %34 = zext nneg i8 %33 to i64, !dbg !237
  %35 = add nsw i64 %32, %34, !dbg !238
    #dbg_value(i64 %35, !226, !DIExpression(), !229)
  %36 = getelementptr inbounds i8, ptr %30, i64 1, !dbg !239
    #dbg_value(ptr %36, !225, !DIExpression(), !229)
  %37 = load i8, ptr %36, align 1, !dbg !233, !tbaa !80
  %38 = add i8 %37, -48, !dbg !235
  %39 = icmp ult i8 %38, 10, !dbg !235
  br i1 %39, label %28, label %40, !dbg !235, !llvm.loop !240

40:                                               ; preds = %28, %18
  %41 = phi i64 [ 0, %18 ], [ %35, %28 ], !dbg !229
  %42 = sub nsw i64 0, %41, !dbg !243
  %43 = select i1 %22, i64 %42, i64 %41, !dbg !243
  ret i64 %43, !dbg !244
}

; Function Attrs: nofree norecurse nosync nounwind memory(read, inaccessiblemem: none)
define dso_local signext range(i32 -255, 256) i32 @compared(i32 noundef signext %0, i32 noundef signext %1) local_unnamed_addr #0 !dbg !245 {
    #dbg_value(i32 %0, !249, !DIExpression(), !253)
    #dbg_value(i32 %1, !250, !DIExpression(), !253)
  %3 = and i32 %0, 3, !dbg !254
  %4 = zext nneg i32 %3 to i64, !dbg !255
  %5 = getelementptr inbounds [4 x ptr], ptr @lines, i64 0, i64 %4, !dbg !255
  %6 = load ptr, ptr %5, align 8, !dbg !255, !tbaa !66
    #dbg_value(ptr %6, !251, !DIExpression(), !253)
  %7 = and i32 %1, 3, !dbg !256
  %8 = zext nneg i32 %7 to i64, !dbg !257
  %9 = getelementptr inbounds [4 x ptr], ptr @lines, i64 0, i64 %8, !dbg !257
  %10 = load ptr, ptr %9, align 8, !dbg !257, !tbaa !66
    #dbg_value(ptr %10, !252, !DIExpression(), !253)
    #dbg_value(ptr %6, !251, !DIExpression(), !253)
  %11 = load i8, ptr %6, align 1, !dbg !258, !tbaa !80
  %12 = icmp eq i8 %11, 0, !dbg !258
  br i1 %12, label %28, label %13, !dbg !259

13:                                               ; preds = %2, %19
  %14 = phi i8 [ %22, %19 ], [ %11, %2 ]
  %15 = phi ptr [ %21, %19 ], [ %10, %2 ]
  %16 = phi ptr [ %20, %19 ], [ %6, %2 ]
    #dbg_value(ptr %15, !252, !DIExpression(), !253)
    #dbg_value(ptr %16, !251, !DIExpression(), !253)
  %17 = load i8, ptr %15, align 1, !dbg !260, !tbaa !80
  %18 = icmp eq i8 %14, %17, !dbg !261
  br i1 %18, label %19, label %24, !dbg !262

19:                                               ; preds = %13
  %20 = getelementptr inbounds i8, ptr %16, i64 1, !dbg !263
    #dbg_value(ptr %20, !251, !DIExpression(), !253)
  %21 = getelementptr inbounds i8, ptr %15, i64 1, !dbg !264
    #dbg_value(ptr %21, !252, !DIExpression(), !253)
  %22 = load i8, ptr %20, align 1, !dbg !258, !tbaa !80
  %23 = icmp eq i8 %22, 0, !dbg !258
  br i1 %23, label %24, label %13, !dbg !259, !llvm.loop !265

24:                                               ; preds = %19, %13
  %25 = phi ptr [ %15, %13 ], [ %21, %19 ]
  %26 = phi i8 [ %14, %13 ], [ 0, %19 ]
  %27 = zext i8 %26 to i32, !dbg !266
  br label %28, !dbg !266

28:                                               ; preds = %24, %2
  %29 = phi ptr [ %10, %2 ], [ %25, %24 ], !dbg !253
  %30 = phi i32 [ 0, %2 ], [ %27, %24 ], !dbg !258
  %31 = load i8, ptr %29, align 1, !dbg !267, !tbaa !80
  %32 = zext i8 %31 to i32, !dbg !268
  %33 = sub nsw i32 %30, %32, !dbg !269
  ret i32 %33, !dbg !270
}

; Function Attrs: nocallback nofree nosync nounwind speculatable willreturn memory(none)
declare i64 @llvm.abs.i64(i64, i1 immarg) #2

attributes #0 = { nofree norecurse nosync nounwind memory(read, inaccessiblemem: none) "no-builtins" "no-trapping-math"="true" "stack-protector-buffer-size"="8" "target-cpu"="generic-rv64" "target-features"="+64bit,+m,+relax,+zmmul,-a,-b,-c,-d,-e,-experimental-smmpm,-experimental-smnpm,-experimental-ssnpm,-experimental-sspm,-experimental-ssqosid,-experimental-supm,-experimental-zacas,-experimental-zalasr,-experimental-zicfilp,-experimental-zicfiss,-f,-h,-shcounterenw,-shgatpa,-shtvala,-shvsatpa,-shvstvala,-shvstvecd,-smaia,-smcdeleg,-smcsrind,-smepmp,-smstateen,-ssaia,-ssccfg,-ssccptr,-sscofpmf,-sscounterenw,-sscsrind,-ssstateen,-ssstrict,-sstc,-sstvala,-sstvecd,-ssu64xl,-svade,-svadu,-svbare,-svinval,-svnapot,-svpbmt,-v,-xcvalu,-xcvbi,-xcvbitmanip,-xcvelw,-xcvmac,-xcvmem,-xcvsimd,-xsfcease,-xsfvcp,-xsfvfnrclipxfqf,-xsfvfwmaccqqq,-xsfvqmaccdod,-xsfvqmaccqoq,-xsifivecdiscarddlone,-xsifivecflushdlone,-xtheadba,-xtheadbb,-xtheadbs,-xtheadcmo,-xtheadcondmov,-xtheadfmemidx,-xtheadmac,-xtheadmemidx,-xtheadmempair,-xtheadsync,-xtheadvdot,-xventanacondops,-xwchc,-za128rs,-za64rs,-zaamo,-zabha,-zalrsc,-zama16b,-zawrs,-zba,-zbb,-zbc,-zbkb,-zbkc,-zbkx,-zbs,-zca,-zcb,-zcd,-zce,-zcf,-zcmop,-zcmp,-zcmt,-zdinx,-zfa,-zfbfmin,-zfh,-zfhmin,-zfinx,-zhinx,-zhinxmin,-zic64b,-zicbom,-zicbop,-zicboz,-ziccamoa,-ziccif,-zicclsm,-ziccrse,-zicntr,-zicond,-zicsr,-zifencei,-zihintntl,-zihintpause,-zihpm,-zimop,-zk,-zkn,-zknd,-zkne,-zknh,-zkr,-zks,-zksed,-zksh,-zkt,-ztso,-zvbb,-zvbc,-zve32f,-zve32x,-zve64d,-zve64f,-zve64x,-zvfbfmin,-zvfbfwma,-zvfh,-zvfhmin,-zvkb,-zvkg,-zvkn,-zvknc,-zvkned,-zvkng,-zvknha,-zvknhb,-zvks,-zvksc,-zvksed,-zvksg,-zvksh,-zvkt,-zvl1024b,-zvl128b,-zvl16384b,-zvl2048b,-zvl256b,-zvl32768b,-zvl32b,-zvl4096b,-zvl512b,-zvl64b,-zvl65536b,-zvl8192b" }
attributes #1 = { nofree norecurse nosync nounwind memory(readwrite, inaccessiblemem: none) "no-builtins" "no-trapping-math"="true" "stack-protector-buffer-size"="8" "target-cpu"="generic-rv64" "target-features"="+64bit,+m,+relax,+zmmul,-a,-b,-c,-d,-e,-experimental-smmpm,-experimental-smnpm,-experimental-ssnpm,-experimental-sspm,-experimental-ssqosid,-experimental-supm,-experimental-zacas,-experimental-zalasr,-experimental-zicfilp,-experimental-zicfiss,-f,-h,-shcounterenw,-shgatpa,-shtvala,-shvsatpa,-shvstvala,-shvstvecd,-smaia,-smcdeleg,-smcsrind,-smepmp,-smstateen,-ssaia,-ssccfg,-ssccptr,-sscofpmf,-sscounterenw,-sscsrind,-ssstateen,-ssstrict,-sstc,-sstvala,-sstvecd,-ssu64xl,-svade,-svadu,-svbare,-svinval,-svnapot,-svpbmt,-v,-xcvalu,-xcvbi,-xcvbitmanip,-xcvelw,-xcvmac,-xcvmem,-xcvsimd,-xsfcease,-xsfvcp,-xsfvfnrclipxfqf,-xsfvfwmaccqqq,-xsfvqmaccdod,-xsfvqmaccqoq,-xsifivecdiscarddlone,-xsifivecflushdlone,-xtheadba,-xtheadbb,-xtheadbs,-xtheadcmo,-xtheadcondmov,-xtheadfmemidx,-xtheadmac,-xtheadmemidx,-xtheadmempair,-xtheadsync,-xtheadvdot,-xventanacondops,-xwchc,-za128rs,-za64rs,-zaamo,-zabha,-zalrsc,-zama16b,-zawrs,-zba,-zbb,-zbc,-zbkb,-zbkc,-zbkx,-zbs,-zca,-zcb,-zcd,-zce,-zcf,-zcmop,-zcmp,-zcmt,-zdinx,-zfa,-zfbfmin,-zfh,-zfhmin,-zfinx,-zhinx,-zhinxmin,-zic64b,-zicbom,-zicbop,-zicboz,-ziccamoa,-ziccif,-zicclsm,-ziccrse,-zicntr,-zicond,-zicsr,-zifencei,-zihintntl,-zihintpause,-zihpm,-zimop,-zk,-zkn,-zknd,-zkne,-zknh,-zkr,-zks,-zksed,-zksh,-zkt,-ztso,-zvbb,-zvbc,-zve32f,-zve32x,-zve64d,-zve64f,-zve64x,-zvfbfmin,-zvfbfwma,-zvfh,-zvfhmin,-zvkb,-zvkg,-zvkn,-zvknc,-zvkned,-zvkng,-zvknha,-zvknhb,-zvks,-zvksc,-zvksed,-zvksg,-zvksh,-zvkt,-zvl1024b,-zvl128b,-zvl16384b,-zvl2048b,-zvl256b,-zvl32768b,-zvl32b,-zvl4096b,-zvl512b,-zvl64b,-zvl65536b,-zvl8192b" }
attributes #2 = { nocallback nofree nosync nounwind speculatable willreturn memory(none) }

!llvm.dbg.cu = !{!2}
!llvm.module.flags = !{!47, !48, !49, !50, !51, !53, !54, !55, !56}
!llvm.ident = !{!57}

!0 = !DIGlobalVariableExpression(var: !1, expr: !DIExpression())
!1 = distinct !DIGlobalVariable(name: "lines", scope: !2, file: !3, line: 2, type: !41, isLocal: true, isDefinition: true)
!2 = distinct !DICompileUnit(language: DW_LANG_C11, file: !3, producer: "Debian clang version 19.1.7 (3~deb12u1)", isOptimized: true, runtimeVersion: 0, emissionKind: FullDebug, retainedTypes: !4, globals: !9, splitDebugInlining: false, nameTableKind: None)
!3 = !DIFile(filename: "strings.c", directory: ".", checksumkind: CSK_MD5, checksum: "79fe854463482ce7e28c598dd804d369")
!4 = !{!5, !6, !7, !8}
!5 = !DIBasicType(name: "unsigned char", size: 8, encoding: DW_ATE_unsigned_char)
!6 = !DIBasicType(name: "int", size: 32, encoding: DW_ATE_signed)
!7 = !DIBasicType(name: "unsigned long", size: 64, encoding: DW_ATE_unsigned)
!8 = !DIBasicType(name: "unsigned int", size: 32, encoding: DW_ATE_unsigned)
!9 = !{!10, !16, !21, !26, !0, !31, !36}
!10 = !DIGlobalVariableExpression(var: !11, expr: !DIExpression())
!11 = distinct !DIGlobalVariable(scope: null, file: !3, line: 2, type: !12, isLocal: true, isDefinition: true)
!12 = !DICompositeType(tag: DW_TAG_array_type, baseType: !13, size: 208, elements: !14)
!13 = !DIBasicType(name: "char", size: 8, encoding: DW_ATE_unsigned_char)
!14 = !{!15}
!15 = !DISubrange(count: 26)
!16 = !DIGlobalVariableExpression(var: !17, expr: !DIExpression())
!17 = distinct !DIGlobalVariable(scope: null, file: !3, line: 2, type: !18, isLocal: true, isDefinition: true)
!18 = !DICompositeType(tag: DW_TAG_array_type, baseType: !13, size: 104, elements: !19)
!19 = !{!20}
!20 = !DISubrange(count: 13)
!21 = !DIGlobalVariableExpression(var: !22, expr: !DIExpression())
!22 = distinct !DIGlobalVariable(scope: null, file: !3, line: 2, type: !23, isLocal: true, isDefinition: true)
!23 = !DICompositeType(tag: DW_TAG_array_type, baseType: !13, size: 8, elements: !24)
!24 = !{!25}
!25 = !DISubrange(count: 1)
!26 = !DIGlobalVariableExpression(var: !27, expr: !DIExpression())
!27 = distinct !DIGlobalVariable(scope: null, file: !3, line: 2, type: !28, isLocal: true, isDefinition: true)
!28 = !DICompositeType(tag: DW_TAG_array_type, baseType: !13, size: 120, elements: !29)
!29 = !{!30}
!30 = !DISubrange(count: 15)
!31 = !DIGlobalVariableExpression(var: !32, expr: !DIExpression())
!32 = distinct !DIGlobalVariable(scope: null, file: !3, line: 33, type: !33, isLocal: true, isDefinition: true)
!33 = !DICompositeType(tag: DW_TAG_array_type, baseType: !13, size: 136, elements: !34)
!34 = !{!35}
!35 = !DISubrange(count: 17)
!36 = !DIGlobalVariableExpression(var: !37, expr: !DIExpression())
!37 = distinct !DIGlobalVariable(name: "buffer", scope: !2, file: !3, line: 27, type: !38, isLocal: true, isDefinition: true)
!38 = !DICompositeType(tag: DW_TAG_array_type, baseType: !13, size: 192, elements: !39)
!39 = !{!40}
!40 = !DISubrange(count: 24)
!41 = !DICompositeType(tag: DW_TAG_array_type, baseType: !42, size: 256, elements: !45)
!42 = !DIDerivedType(tag: DW_TAG_const_type, baseType: !43)
!43 = !DIDerivedType(tag: DW_TAG_pointer_type, baseType: !44, size: 64)
!44 = !DIDerivedType(tag: DW_TAG_const_type, baseType: !13)
!45 = !{!46}
!46 = !DISubrange(count: 4)
!47 = !{i32 7, !"Dwarf Version", i32 5}
!48 = !{i32 2, !"Debug Info Version", i32 3}
!49 = !{i32 1, !"wchar_size", i32 4}
!50 = !{i32 1, !"target-abi", !"lp64"}
!51 = !{i32 6, !"riscv-isa", !52}
!52 = !{!"rv64i2p1_m2p0_zmmul1p0"}
!53 = !{i32 8, !"PIC Level", i32 2}
!54 = !{i32 7, !"PIE Level", i32 2}
!55 = !{i32 8, !"SmallDataLimit", i32 8}
!56 = !{i32 7, !"debug-info-assignment-tracking", i1 true}
!57 = !{!"Debian clang version 19.1.7 (3~deb12u1)"}
!58 = distinct !DISubprogram(name: "length_of", scope: !3, file: !3, line: 8, type: !59, scopeLine: 8, flags: DIFlagPrototyped | DIFlagAllCallsDescribed, spFlags: DISPFlagDefinition | DISPFlagOptimized, unit: !2, retainedNodes: !61)
!59 = !DISubroutineType(types: !60)
!60 = !{!6, !6}
!61 = !{!62}
!62 = !DILocalVariable(name: "i", arg: 1, scope: !58, file: !3, line: 8, type: !6)
!63 = !DILocation(line: 0, scope: !58)
!64 = !DILocation(line: 8, column: 46, scope: !58)
!65 = !DILocation(line: 8, column: 38, scope: !58)
!66 = !{!67, !67, i64 0}
!67 = !{!"any pointer", !68, i64 0}
!68 = !{!"omnipotent char", !69, i64 0}
!69 = !{!"Simple C/C++ TBAA"}
!70 = !DILocalVariable(name: "s", arg: 1, scope: !71, file: !3, line: 3, type: !43)
!71 = distinct !DISubprogram(name: "length", scope: !3, file: !3, line: 3, type: !72, scopeLine: 3, flags: DIFlagPrototyped | DIFlagAllCallsDescribed, spFlags: DISPFlagLocalToUnit | DISPFlagDefinition | DISPFlagOptimized, unit: !2, retainedNodes: !74)
!72 = !DISubroutineType(types: !73)
!73 = !{!6, !43}
!74 = !{!70, !75}
!75 = !DILocalVariable(name: "p", scope: !71, file: !3, line: 4, type: !43)
!76 = !DILocation(line: 0, scope: !71, inlinedAt: !77)
!77 = distinct !DILocation(line: 8, column: 31, scope: !58)
!78 = !DILocation(line: 5, column: 5, scope: !71, inlinedAt: !77)
!79 = !DILocation(line: 5, column: 12, scope: !71, inlinedAt: !77)
!80 = !{!68, !68, i64 0}
!81 = !DILocation(line: 5, column: 17, scope: !71, inlinedAt: !77)
!82 = distinct !{!82, !78, !81, !83, !84}
!83 = !{!"llvm.loop.mustprogress"}
!84 = !{!"llvm.loop.unroll.disable"}
!85 = !DILocation(line: 6, column: 20, scope: !71, inlinedAt: !77)
!86 = !DILocation(line: 6, column: 12, scope: !71, inlinedAt: !77)
!87 = !DILocation(line: 8, column: 24, scope: !58)
!88 = distinct !DISubprogram(name: "words_of", scope: !3, file: !3, line: 9, type: !59, scopeLine: 9, flags: DIFlagPrototyped | DIFlagAllCallsDescribed, spFlags: DISPFlagDefinition | DISPFlagOptimized, unit: !2, retainedNodes: !89)
!89 = !{!90, !91, !92, !93}
!90 = !DILocalVariable(name: "i", arg: 1, scope: !88, file: !3, line: 9, type: !6)
!91 = !DILocalVariable(name: "n", scope: !88, file: !3, line: 10, type: !6)
!92 = !DILocalVariable(name: "in", scope: !88, file: !3, line: 10, type: !6)
!93 = !DILocalVariable(name: "p", scope: !94, file: !3, line: 11, type: !43)
!94 = distinct !DILexicalBlock(scope: !88, file: !3, line: 11, column: 5)
!95 = !DILocation(line: 0, scope: !88)
!96 = !DILocation(line: 11, column: 34, scope: !94)
!97 = !DILocation(line: 11, column: 26, scope: !94)
!98 = !DILocation(line: 0, scope: !94)
!99 = !DILocation(line: 11, column: 10, scope: !94)
!100 = !DILocation(line: 10, column: 9, scope: !88)
!101 = !DILocation(line: 11, scope: !94)
!102 = !DILocation(line: 11, column: 40, scope: !103)
!103 = distinct !DILexicalBlock(scope: !94, file: !3, line: 11, column: 5)
!104 = !DILocation(line: 11, column: 5, scope: !94)
!105 = !DILocation(line: 19, column: 5, scope: !88)
!106 = !DILocation(line: 14, column: 19, scope: !107)
!107 = distinct !DILexicalBlock(scope: !108, file: !3, line: 14, column: 18)
!108 = distinct !DILexicalBlock(scope: !109, file: !3, line: 12, column: 13)
!109 = distinct !DILexicalBlock(scope: !103, file: !3, line: 11, column: 49)
!110 = !DILocation(line: 14, column: 18, scope: !108)
!111 = !DILocation(line: 11, column: 45, scope: !103)
!112 = !DILocation(line: 11, column: 5, scope: !103)
!113 = distinct !{!113, !104, !114, !83, !84}
!114 = !DILocation(line: 18, column: 5, scope: !94)
!115 = distinct !DISubprogram(name: "is_palindrome", scope: !3, file: !3, line: 21, type: !116, scopeLine: 21, flags: DIFlagPrototyped | DIFlagAllCallsDescribed, spFlags: DISPFlagDefinition | DISPFlagOptimized, unit: !2, retainedNodes: !119)
!116 = !DISubroutineType(types: !117)
!117 = !{!118, !6}
!118 = !DIBasicType(name: "_Bool", size: 8, encoding: DW_ATE_boolean)
!119 = !{!120, !121, !122, !123}
!120 = !DILocalVariable(name: "i", arg: 1, scope: !115, file: !3, line: 21, type: !6)
!121 = !DILocalVariable(name: "s", scope: !115, file: !3, line: 22, type: !43)
!122 = !DILocalVariable(name: "a", scope: !115, file: !3, line: 23, type: !6)
!123 = !DILocalVariable(name: "b", scope: !115, file: !3, line: 23, type: !6)
!124 = !DILocation(line: 0, scope: !115)
!125 = !DILocation(line: 22, column: 29, scope: !115)
!126 = !DILocation(line: 22, column: 21, scope: !115)
!127 = !DILocation(line: 0, scope: !71, inlinedAt: !128)
!128 = distinct !DILocation(line: 23, column: 20, scope: !115)
!129 = !DILocation(line: 5, column: 5, scope: !71, inlinedAt: !128)
!130 = !DILocation(line: 5, column: 12, scope: !71, inlinedAt: !128)
!131 = !DILocation(line: 5, column: 17, scope: !71, inlinedAt: !128)
!132 = distinct !{!132, !129, !131, !83, !84}
!133 = !DILocation(line: 6, column: 20, scope: !71, inlinedAt: !128)
!134 = !DILocation(line: 6, column: 12, scope: !71, inlinedAt: !128)
!135 = !DILocation(line: 24, column: 14, scope: !115)
!136 = !DILocation(line: 24, column: 18, scope: !115)
!137 = !DILocation(line: 24, column: 5, scope: !115)
!138 = !DILocation(line: 24, column: 21, scope: !115)
!139 = !DILocation(line: 24, column: 29, scope: !115)
!140 = !DILocation(line: 24, column: 26, scope: !115)
!141 = !DILocation(line: 24, column: 36, scope: !115)
!142 = distinct !{!142, !137, !143, !83, !84}
!143 = !DILocation(line: 24, column: 41, scope: !115)
!144 = !DILocation(line: 25, column: 14, scope: !115)
!145 = !DILocation(line: 25, column: 5, scope: !115)
!146 = distinct !DISubprogram(name: "digit_sum", scope: !3, file: !3, line: 39, type: !147, scopeLine: 39, flags: DIFlagPrototyped | DIFlagAllCallsDescribed, spFlags: DISPFlagDefinition | DISPFlagOptimized, unit: !2, retainedNodes: !150)
!147 = !DISubroutineType(types: !148)
!148 = !{!149, !149, !6}
!149 = !DIBasicType(name: "long", size: 64, encoding: DW_ATE_signed)
!150 = !{!151, !152, !153, !154}
!151 = !DILocalVariable(name: "n", arg: 1, scope: !146, file: !3, line: 39, type: !149)
!152 = !DILocalVariable(name: "base", arg: 2, scope: !146, file: !3, line: 39, type: !6)
!153 = !DILocalVariable(name: "sum", scope: !146, file: !3, line: 40, type: !149)
!154 = !DILocalVariable(name: "p", scope: !155, file: !3, line: 41, type: !156)
!155 = distinct !DILexicalBlock(scope: !146, file: !3, line: 41, column: 5)
!156 = !DIDerivedType(tag: DW_TAG_pointer_type, baseType: !13, size: 64)
!157 = !DILocation(line: 0, scope: !146)
!158 = !DILocalVariable(name: "n", arg: 1, scope: !159, file: !3, line: 28, type: !149)
!159 = distinct !DISubprogram(name: "digits", scope: !3, file: !3, line: 28, type: !160, scopeLine: 28, flags: DIFlagPrototyped | DIFlagAllCallsDescribed, spFlags: DISPFlagLocalToUnit | DISPFlagDefinition | DISPFlagOptimized, unit: !2, retainedNodes: !162)
!160 = !DISubroutineType(types: !161)
!161 = !{!156, !149, !6}
!162 = !{!158, !163, !164, !165}
!163 = !DILocalVariable(name: "base", arg: 2, scope: !159, file: !3, line: 28, type: !6)
!164 = !DILocalVariable(name: "p", scope: !159, file: !3, line: 29, type: !156)
!165 = !DILocalVariable(name: "m", scope: !159, file: !3, line: 30, type: !7)
!166 = !DILocation(line: 0, scope: !159, inlinedAt: !167)
!167 = distinct !DILocation(line: 41, column: 20, scope: !155)
!168 = !DILocation(line: 30, column: 23, scope: !159, inlinedAt: !167)
!169 = !DILocation(line: 31, column: 8, scope: !159, inlinedAt: !167)
!170 = !DILocation(line: 32, column: 5, scope: !159, inlinedAt: !167)
!171 = !DILocation(line: 34, column: 11, scope: !172, inlinedAt: !167)
!172 = distinct !DILexicalBlock(scope: !159, file: !3, line: 32, column: 8)
!173 = !DILocation(line: 33, column: 37, scope: !172, inlinedAt: !167)
!174 = !DILocation(line: 33, column: 16, scope: !172, inlinedAt: !167)
!175 = !DILocation(line: 33, column: 10, scope: !172, inlinedAt: !167)
!176 = !DILocation(line: 33, column: 14, scope: !172, inlinedAt: !167)
!177 = !DILocation(line: 35, column: 5, scope: !172, inlinedAt: !167)
!178 = distinct !{!178, !170, !179, !83, !84}
!179 = !DILocation(line: 35, column: 15, scope: !159, inlinedAt: !167)
!180 = !DILocation(line: 30, column: 25, scope: !159, inlinedAt: !167)
!181 = !DILocation(line: 36, column: 9, scope: !159, inlinedAt: !167)
!182 = !DILocation(line: 36, column: 17, scope: !183, inlinedAt: !167)
!183 = distinct !DILexicalBlock(scope: !159, file: !3, line: 36, column: 9)
!184 = !DILocation(line: 36, column: 21, scope: !183, inlinedAt: !167)
!185 = !DILocation(line: 0, scope: !155)
!186 = !DILocation(line: 41, column: 5, scope: !155)
!187 = !DILocation(line: 42, column: 5, scope: !146)
!188 = !DILocation(line: 41, column: 56, scope: !189)
!189 = distinct !DILexicalBlock(scope: !155, file: !3, line: 41, column: 5)
!190 = !DILocation(line: 41, column: 62, scope: !189)
!191 = !DILocation(line: 41, column: 60, scope: !189)
!192 = !DILocation(line: 41, column: 42, scope: !189)
!193 = !DILocation(line: 41, column: 37, scope: !189)
!194 = distinct !{!194, !186, !195, !83, !84}
!195 = !DILocation(line: 41, column: 63, scope: !155)
!196 = distinct !DISubprogram(name: "there_and_back", scope: !3, file: !3, line: 50, type: !197, scopeLine: 50, flags: DIFlagPrototyped | DIFlagAllCallsDescribed, spFlags: DISPFlagDefinition | DISPFlagOptimized, unit: !2, retainedNodes: !199)
!197 = !DISubroutineType(types: !198)
!198 = !{!149, !149}
!199 = !{!200}
!200 = !DILocalVariable(name: "n", arg: 1, scope: !196, file: !3, line: 50, type: !149)
!201 = !DILocation(line: 0, scope: !196)
!202 = !DILocation(line: 0, scope: !159, inlinedAt: !203)
!203 = distinct !DILocation(line: 50, column: 50, scope: !196)
!204 = !DILocation(line: 30, column: 23, scope: !159, inlinedAt: !203)
!205 = !DILocation(line: 31, column: 8, scope: !159, inlinedAt: !203)
!206 = !DILocation(line: 32, column: 5, scope: !159, inlinedAt: !203)
!207 = !DILocation(line: 34, column: 11, scope: !172, inlinedAt: !203)
!208 = !DILocation(line: 33, column: 37, scope: !172, inlinedAt: !203)
!209 = !DILocation(line: 33, column: 16, scope: !172, inlinedAt: !203)
!210 = !DILocation(line: 33, column: 10, scope: !172, inlinedAt: !203)
!211 = !DILocation(line: 33, column: 14, scope: !172, inlinedAt: !203)
!212 = !DILocation(line: 35, column: 5, scope: !172, inlinedAt: !203)
!213 = distinct !{!213, !206, !214, !83, !84}
!214 = !DILocation(line: 35, column: 15, scope: !159, inlinedAt: !203)
!215 = !DILocation(line: 30, column: 25, scope: !159, inlinedAt: !203)
!216 = !DILocation(line: 36, column: 9, scope: !159, inlinedAt: !203)
!217 = !DILocation(line: 36, column: 17, scope: !183, inlinedAt: !203)
!218 = !DILocation(line: 36, column: 21, scope: !183, inlinedAt: !203)
!219 = !DILocation(line: 36, column: 16, scope: !183, inlinedAt: !203)
!220 = !DILocation(line: 46, column: 17, scope: !221, inlinedAt: !228)
!221 = distinct !DISubprogram(name: "read_number", scope: !3, file: !3, line: 44, type: !222, scopeLine: 44, flags: DIFlagPrototyped | DIFlagAllCallsDescribed, spFlags: DISPFlagLocalToUnit | DISPFlagDefinition | DISPFlagOptimized, unit: !2, retainedNodes: !224)
!222 = !DISubroutineType(types: !223)
!223 = !{!149, !43}
!224 = !{!225, !226, !227}
!225 = !DILocalVariable(name: "s", arg: 1, scope: !221, file: !3, line: 44, type: !43)
!226 = !DILocalVariable(name: "n", scope: !221, file: !3, line: 45, type: !149)
!227 = !DILocalVariable(name: "minus", scope: !221, file: !3, line: 46, type: !6)
!228 = distinct !DILocation(line: 50, column: 38, scope: !196)
!229 = !DILocation(line: 0, scope: !221, inlinedAt: !228)
!230 = !DILocation(line: 46, column: 20, scope: !221, inlinedAt: !228)
!231 = !DILocation(line: 47, column: 12, scope: !232, inlinedAt: !228)
!232 = distinct !DILexicalBlock(scope: !221, file: !3, line: 47, column: 5)
!233 = !DILocation(line: 47, column: 22, scope: !234, inlinedAt: !228)
!234 = distinct !DILexicalBlock(scope: !232, file: !3, line: 47, column: 5)
!235 = !DILocation(line: 47, column: 32, scope: !234, inlinedAt: !228)
!236 = !DILocation(line: 47, column: 57, scope: !234, inlinedAt: !228)
!237 = !DILocation(line: 47, column: 64, scope: !234, inlinedAt: !228)
!238 = !DILocation(line: 47, column: 62, scope: !234, inlinedAt: !228)
!239 = !DILocation(line: 47, column: 47, scope: !234, inlinedAt: !228)
!240 = distinct !{!240, !241, !242, !83, !84}
!241 = !DILocation(line: 47, column: 5, scope: !232, inlinedAt: !228)
!242 = !DILocation(line: 47, column: 73, scope: !232, inlinedAt: !228)
!243 = !DILocation(line: 48, column: 12, scope: !221, inlinedAt: !228)
!244 = !DILocation(line: 50, column: 31, scope: !196)
!245 = distinct !DISubprogram(name: "compared", scope: !3, file: !3, line: 51, type: !246, scopeLine: 51, flags: DIFlagPrototyped | DIFlagAllCallsDescribed, spFlags: DISPFlagDefinition | DISPFlagOptimized, unit: !2, retainedNodes: !248)
!246 = !DISubroutineType(types: !247)
!247 = !{!6, !6, !6}
!248 = !{!249, !250, !251, !252}
!249 = !DILocalVariable(name: "i", arg: 1, scope: !245, file: !3, line: 51, type: !6)
!250 = !DILocalVariable(name: "j", arg: 2, scope: !245, file: !3, line: 51, type: !6)
!251 = !DILocalVariable(name: "a", scope: !245, file: !3, line: 52, type: !43)
!252 = !DILocalVariable(name: "b", scope: !245, file: !3, line: 52, type: !43)
!253 = !DILocation(line: 0, scope: !245)
!254 = !DILocation(line: 52, column: 29, scope: !245)
!255 = !DILocation(line: 52, column: 21, scope: !245)
!256 = !DILocation(line: 52, column: 48, scope: !245)
!257 = !DILocation(line: 52, column: 40, scope: !245)
!258 = !DILocation(line: 53, column: 12, scope: !245)
!259 = !DILocation(line: 53, column: 15, scope: !245)
!260 = !DILocation(line: 53, column: 24, scope: !245)
!261 = !DILocation(line: 53, column: 21, scope: !245)
!262 = !DILocation(line: 53, column: 5, scope: !245)
!263 = !DILocation(line: 53, column: 29, scope: !245)
!264 = !DILocation(line: 53, column: 34, scope: !245)
!265 = distinct !{!265, !262, !264, !83, !84}
!266 = !DILocation(line: 54, column: 12, scope: !245)
!267 = !DILocation(line: 54, column: 47, scope: !245)
!268 = !DILocation(line: 54, column: 32, scope: !245)
!269 = !DILocation(line: 54, column: 30, scope: !245)
!270 = !DILocation(line: 54, column: 5, scope: !245)
