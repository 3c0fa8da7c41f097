; ModuleID = 'sort.c'
source_filename = "sort.c"
target datalayout = "e-m:e-p:64:64-i64:64-i128:128-n32:64-S128"
target triple = "riscv64-unknown-linux-gnu"

@xs = internal unnamed_addr global [64 x i32] zeroinitializer, align 4
@ys = internal unnamed_addr global [64 x i32] zeroinitializer, align 4

; Function Attrs: nofree norecurse nosync nounwind memory(readwrite, argmem: none, inaccessiblemem: none)
define dso_local i64 @insertion(i32 noundef signext %0, i32 noundef signext %1) local_unnamed_addr #0 {
  %3 = icmp sgt i32 %0, 0
  br i1 %3, label %4, label %47

4:                                                ; preds = %2
  %5 = zext nneg i32 %0 to i64
  br label %6

6:                                                ; preds = %6, %4
  %7 = phi i64 [ 0, %4 ], [ %17, %6 ]
  %8 = phi i32 [ %1, %4 ], [ %10, %6 ]
  %9 = mul i32 %8, 1103515245
  %10 = add i32 %9, 12345
  %11 = lshr i32 %10, 16
  %12 = trunc nuw i32 %11 to i16
  %13 = urem i16 %12, 1000
  %14 = zext nneg i16 %13 to i32
  %15 = add nsw i32 %14, -500
  %16 = getelementptr inbounds [64 x i32], ptr @xs, i64 0, i64 %7
  store i32 %15, ptr %16, align 4, !tbaa !8
  %17 = add nuw nsw i64 %7, 1
  %18 = icmp eq i64 %17, %5
  br i1 %18, label %19, label %6, !llvm.loop !12

19:                                               ; preds = %6
  %20 = icmp eq i32 %0, 1
  br i1 %20, label %23, label %21

21:                                               ; preds = %19
  %22 = zext nneg i32 %0 to i64
  br label %49

23:                                               ; preds = %64, %19
  br i1 %3, label %24, label %47

24:                                               ; preds = %23
  %25 = zext nneg i32 %0 to i64
  br label %26

26:                                               ; preds = %42, %24
  %27 = phi i64 [ 0, %24 ], [ %45, %42 ]
  %28 = phi i64 [ 0, %24 ], [ %44, %42 ]
  %29 = mul i64 %28, 31
  %30 = getelementptr inbounds [64 x i32], ptr @xs, i64 0, i64 %27
  %31 = load i32, ptr %30, align 4, !tbaa !8
  %32 = sext i32 %31 to i64
  %33 = add i64 %29, %32
  %34 = icmp eq i64 %27, 0
  br i1 %34, label %42, label %35

35:                                               ; preds = %26
  %36 = add nsw i64 %27, -1
  %37 = getelementptr inbounds [64 x i32], ptr @xs, i64 0, i64 %36
  %38 = load i32, ptr %37, align 4, !tbaa !8
  %39 = icmp sgt i32 %38, %31
  %40 = freeze i1 %39
  %41 = select i1 %40, i64 1000000, i64 0
  br label %42

42:                                               ; preds = %35, %26
  %43 = phi i64 [ 0, %26 ], [ %41, %35 ]
  %44 = add i64 %33, %43
  %45 = add nuw nsw i64 %27, 1
  %46 = icmp eq i64 %45, %25
  br i1 %46, label %47, label %26, !llvm.loop !15

47:                                               ; preds = %42, %2, %23
  %48 = phi i64 [ 0, %23 ], [ 0, %2 ], [ %44, %42 ]
  ret i64 %48

49:                                               ; preds = %21, %64
  %50 = phi i64 [ 1, %21 ], [ %69, %64 ]
  %51 = getelementptr inbounds [64 x i32], ptr @xs, i64 0, i64 %50
  %52 = load i32, ptr %51, align 4, !tbaa !8
  br label %53

53:                                               ; preds = %49, %60
  %54 = phi i64 [ %50, %49 ], [ %63, %60 ]
  %55 = add i64 %54, 4294967295
  %56 = and i64 %55, 4294967295
  %57 = getelementptr inbounds [64 x i32], ptr @xs, i64 0, i64 %56
  %58 = load i32, ptr %57, align 4, !tbaa !8
  %59 = icmp sgt i32 %58, %52
  br i1 %59, label %60, label %64

60:                                               ; preds = %53
  %61 = getelementptr inbounds [64 x i32], ptr @xs, i64 0, i64 %54
  store i32 %58, ptr %61, align 4, !tbaa !8
  %62 = icmp sgt i64 %54, 1
  %63 = add nsw i64 %54, -1
  br i1 %62, label %53, label %64, !llvm.loop !16

64:                                               ; preds = %60, %53
  %65 = phi i64 [ 0, %60 ], [ %54, %53 ]
  %66 = shl i64 %65, 32
  %67 = ashr exact i64 %66, 32
  %68 = getelementptr inbounds [64 x i32], ptr @xs, i64 0, i64 %67
  store i32 %52, ptr %68, align 4, !tbaa !8
  %69 = add nuw nsw i64 %50, 1
  %70 = icmp eq i64 %69, %22
  br i1 %70, label %23, label %49, !llvm.loop !17
}

; Function Attrs: nofree nosync nounwind memory(readwrite, inaccessiblemem: none)
define dso_local i64 @quicksort(i32 noundef signext %0, i32 noundef signext %1) local_unnamed_addr #1 {
  %3 = icmp sgt i32 %0, 0
  br i1 %3, label %6, label %4

4:                                                ; preds = %2
  %5 = add nsw i32 %0, -1
  tail call fastcc void @quick(i32 noundef signext 0, i32 noundef signext %5) #4
  br label %44

6:                                                ; preds = %2
  %7 = zext nneg i32 %0 to i64
  br label %8

8:                                                ; preds = %8, %6
  %9 = phi i64 [ 0, %6 ], [ %19, %8 ]
  %10 = phi i32 [ %1, %6 ], [ %12, %8 ]
  %11 = mul i32 %10, 1103515245
  %12 = add i32 %11, 12345
  %13 = lshr i32 %12, 16
  %14 = trunc nuw i32 %13 to i16
  %15 = urem i16 %14, 1000
  %16 = zext nneg i16 %15 to i32
  %17 = add nsw i32 %16, -500
  %18 = getelementptr inbounds [64 x i32], ptr @xs, i64 0, i64 %9
  store i32 %17, ptr %18, align 4, !tbaa !8
  %19 = add nuw nsw i64 %9, 1
  %20 = icmp eq i64 %19, %7
  br i1 %20, label %21, label %8, !llvm.loop !12

21:                                               ; preds = %8
  %22 = add nsw i32 %0, -1
  tail call fastcc void @quick(i32 noundef signext 0, i32 noundef signext %22) #4
  br label %23

23:                                               ; preds = %39, %21
  %24 = phi i64 [ 0, %21 ], [ %42, %39 ]
  %25 = phi i64 [ 0, %21 ], [ %41, %39 ]
  %26 = mul i64 %25, 31
  %27 = getelementptr inbounds [64 x i32], ptr @xs, i64 0, i64 %24
  %28 = load i32, ptr %27, align 4, !tbaa !8
  %29 = sext i32 %28 to i64
  %30 = add i64 %26, %29
  %31 = icmp eq i64 %24, 0
  br i1 %31, label %39, label %32

32:                                               ; preds = %23
  %33 = add nsw i64 %24, -1
  %34 = getelementptr inbounds [64 x i32], ptr @xs, i64 0, i64 %33
  %35 = load i32, ptr %34, align 4, !tbaa !8
  %36 = icmp sgt i32 %35, %28
  %37 = freeze i1 %36
  %38 = select i1 %37, i64 1000000, i64 0
  br label %39

39:                                               ; preds = %32, %23
  %40 = phi i64 [ 0, %23 ], [ %38, %32 ]
  %41 = add i64 %30, %40
  %42 = add nuw nsw i64 %24, 1
  %43 = icmp eq i64 %42, %7
  br i1 %43, label %44, label %23, !llvm.loop !15

44:                                               ; preds = %39, %4
  %45 = phi i64 [ 0, %4 ], [ %41, %39 ]
  ret i64 %45
}

; Function Attrs: nofree nosync nounwind memory(readwrite, argmem: none, inaccessiblemem: none)
define internal fastcc void @quick(i32 noundef signext %0, i32 noundef signext %1) unnamed_addr #2 {
  %3 = icmp slt i32 %0, %1
  br i1 %3, label %4, label %42

4:                                                ; preds = %2, %40
  %5 = phi i32 [ %37, %40 ], [ %0, %2 ]
  %6 = add nsw i32 %5, %1
  %7 = sdiv i32 %6, 2
  %8 = sext i32 %7 to i64
  %9 = getelementptr inbounds [64 x i32], ptr @xs, i64 0, i64 %8
  %10 = load i32, ptr %9, align 4, !tbaa !8
  br label %11

11:                                               ; preds = %4, %36
  %12 = phi i32 [ %1, %4 ], [ %38, %36 ]
  %13 = phi i32 [ %5, %4 ], [ %37, %36 ]
  %14 = sext i32 %13 to i64
  br label %15

15:                                               ; preds = %15, %11
  %16 = phi i64 [ %20, %15 ], [ %14, %11 ]
  %17 = getelementptr inbounds [64 x i32], ptr @xs, i64 0, i64 %16
  %18 = load i32, ptr %17, align 4, !tbaa !8
  %19 = icmp slt i32 %18, %10
  %20 = add nsw i64 %16, 1
  br i1 %19, label %15, label %21, !llvm.loop !18

21:                                               ; preds = %15
  %22 = sext i32 %12 to i64
  br label %23

23:                                               ; preds = %23, %21
  %24 = phi i64 [ %28, %23 ], [ %22, %21 ]
  %25 = getelementptr inbounds [64 x i32], ptr @xs, i64 0, i64 %24
  %26 = load i32, ptr %25, align 4, !tbaa !8
  %27 = icmp sgt i32 %26, %10
  %28 = add nsw i64 %24, -1
  br i1 %27, label %23, label %29, !llvm.loop !19

29:                                               ; preds = %23
  %30 = trunc nsw i64 %16 to i32
  %31 = trunc nsw i64 %24 to i32
  %32 = icmp sgt i64 %16, %24
  br i1 %32, label %36, label %33

33:                                               ; preds = %29
  %34 = add nsw i32 %30, 1
  %35 = add nsw i32 %31, -1
  store i32 %26, ptr %17, align 4, !tbaa !8
  store i32 %18, ptr %25, align 4, !tbaa !8
  br label %36

36:                                               ; preds = %33, %29
  %37 = phi i32 [ %34, %33 ], [ %30, %29 ]
  %38 = phi i32 [ %35, %33 ], [ %31, %29 ]
  %39 = icmp sgt i32 %37, %38
  br i1 %39, label %40, label %11, !llvm.loop !20

40:                                               ; preds = %36
  tail call fastcc void @quick(i32 noundef signext %5, i32 noundef signext %38) #4
  %41 = icmp slt i32 %37, %1
  br i1 %41, label %4, label %42

42:                                               ; preds = %40, %2
  ret void
}

; Function Attrs: nofree norecurse nosync nounwind memory(readwrite, argmem: none, inaccessiblemem: none)
define dso_local i64 @heapsort(i32 noundef signext %0, i32 noundef signext %1) local_unnamed_addr #0 {
  %3 = icmp sgt i32 %0, 0
  br i1 %3, label %4, label %86

4:                                                ; preds = %2
  %5 = zext nneg i32 %0 to i64
  br label %6

6:                                                ; preds = %6, %4
  %7 = phi i64 [ 0, %4 ], [ %17, %6 ]
  %8 = phi i32 [ %1, %4 ], [ %10, %6 ]
  %9 = mul i32 %8, 1103515245
  %10 = add i32 %9, 12345
  %11 = lshr i32 %10, 16
  %12 = trunc nuw i32 %11 to i16
  %13 = urem i16 %12, 1000
  %14 = zext nneg i16 %13 to i32
  %15 = add nsw i32 %14, -500
  %16 = getelementptr inbounds [64 x i32], ptr @xs, i64 0, i64 %7
  store i32 %15, ptr %16, align 4, !tbaa !8
  %17 = add nuw nsw i64 %7, 1
  %18 = icmp eq i64 %17, %5
  br i1 %18, label %19, label %6, !llvm.loop !12

19:                                               ; preds = %6
  %20 = icmp eq i32 %0, 1
  br i1 %20, label %62, label %21

21:                                               ; preds = %19
  %22 = lshr i32 %0, 1
  br label %26

23:                                               ; preds = %60
  br i1 %20, label %62, label %24

24:                                               ; preds = %23
  %25 = zext nneg i32 %0 to i64
  br label %88

26:                                               ; preds = %21, %60
  %27 = phi i32 [ %28, %60 ], [ %22, %21 ]
  %28 = add nsw i32 %27, -1
  %29 = shl nuw nsw i32 %28, 1
  %30 = or disjoint i32 %29, 1
  %31 = icmp slt i32 %30, %0
  br i1 %31, label %32, label %60

32:                                               ; preds = %26, %56
  %33 = phi i32 [ %58, %56 ], [ %30, %26 ]
  %34 = phi i32 [ %57, %56 ], [ %29, %26 ]
  %35 = phi i32 [ %48, %56 ], [ %28, %26 ]
  %36 = add nsw i32 %34, 2
  %37 = icmp slt i32 %36, %0
  br i1 %37, label %38, label %47

38:                                               ; preds = %32
  %39 = sext i32 %33 to i64
  %40 = getelementptr inbounds [64 x i32], ptr @xs, i64 0, i64 %39
  %41 = load i32, ptr %40, align 4, !tbaa !8
  %42 = sext i32 %36 to i64
  %43 = getelementptr inbounds [64 x i32], ptr @xs, i64 0, i64 %42
  %44 = load i32, ptr %43, align 4, !tbaa !8
  %45 = icmp slt i32 %41, %44
  %46 = select i1 %45, i32 %36, i32 %33
  br label %47

47:                                               ; preds = %38, %32
  %48 = phi i32 [ %33, %32 ], [ %46, %38 ]
  %49 = sext i32 %35 to i64
  %50 = getelementptr inbounds [64 x i32], ptr @xs, i64 0, i64 %49
  %51 = load i32, ptr %50, align 4, !tbaa !8
  %52 = sext i32 %48 to i64
  %53 = getelementptr inbounds [64 x i32], ptr @xs, i64 0, i64 %52
  %54 = load i32, ptr %53, align 4, !tbaa !8
  %55 = icmp slt i32 %51, %54
  br i1 %55, label %56, label %60

56:                                               ; preds = %47
  store i32 %54, ptr %50, align 4, !tbaa !8
  store i32 %51, ptr %53, align 4, !tbaa !8
  %57 = shl nsw i32 %48, 1
  %58 = or disjoint i32 %57, 1
  %59 = icmp slt i32 %58, %0
  br i1 %59, label %32, label %60

60:                                               ; preds = %47, %56, %26
  %61 = icmp sgt i32 %27, 1
  br i1 %61, label %26, label %23, !llvm.loop !21

62:                                               ; preds = %88, %124, %19, %23
  br i1 %3, label %63, label %86

63:                                               ; preds = %62
  %64 = zext nneg i32 %0 to i64
  br label %65

65:                                               ; preds = %81, %63
  %66 = phi i64 [ 0, %63 ], [ %84, %81 ]
  %67 = phi i64 [ 0, %63 ], [ %83, %81 ]
  %68 = mul i64 %67, 31
  %69 = getelementptr inbounds [64 x i32], ptr @xs, i64 0, i64 %66
  %70 = load i32, ptr %69, align 4, !tbaa !8
  %71 = sext i32 %70 to i64
  %72 = add i64 %68, %71
  %73 = icmp eq i64 %66, 0
  br i1 %73, label %81, label %74

74:                                               ; preds = %65
  %75 = add nsw i64 %66, -1
  %76 = getelementptr inbounds [64 x i32], ptr @xs, i64 0, i64 %75
  %77 = load i32, ptr %76, align 4, !tbaa !8
  %78 = icmp sgt i32 %77, %70
  %79 = freeze i1 %78
  %80 = select i1 %79, i64 1000000, i64 0
  br label %81

81:                                               ; preds = %74, %65
  %82 = phi i64 [ 0, %65 ], [ %80, %74 ]
  %83 = add i64 %72, %82
  %84 = add nuw nsw i64 %66, 1
  %85 = icmp eq i64 %84, %64
  br i1 %85, label %86, label %65, !llvm.loop !15

86:                                               ; preds = %81, %2, %62
  %87 = phi i64 [ 0, %62 ], [ 0, %2 ], [ %83, %81 ]
  ret i64 %87

88:                                               ; preds = %24, %124
  %89 = phi i64 [ %25, %24 ], [ %90, %124 ]
  %90 = add nsw i64 %89, -1
  %91 = getelementptr inbounds [64 x i32], ptr @xs, i64 0, i64 %90
  %92 = load i32, ptr @xs, align 4, !tbaa !8
  %93 = load i32, ptr %91, align 4, !tbaa !8
  store i32 %93, ptr @xs, align 4, !tbaa !8
  store i32 %92, ptr %91, align 4, !tbaa !8
  %94 = icmp ugt i64 %90, 1
  br i1 %94, label %95, label %62

95:                                               ; preds = %88, %119
  %96 = phi i32 [ %121, %119 ], [ 1, %88 ]
  %97 = phi i32 [ %120, %119 ], [ 0, %88 ]
  %98 = phi i32 [ %111, %119 ], [ 0, %88 ]
  %99 = add nsw i32 %97, 2
  %100 = sext i32 %99 to i64
  %101 = icmp sgt i64 %90, %100
  br i1 %101, label %102, label %110

102:                                              ; preds = %95
  %103 = sext i32 %96 to i64
  %104 = getelementptr inbounds [64 x i32], ptr @xs, i64 0, i64 %103
  %105 = load i32, ptr %104, align 4, !tbaa !8
  %106 = getelementptr inbounds [64 x i32], ptr @xs, i64 0, i64 %100
  %107 = load i32, ptr %106, align 4, !tbaa !8
  %108 = icmp slt i32 %105, %107
  %109 = select i1 %108, i32 %99, i32 %96
  br label %110

110:                                              ; preds = %102, %95
  %111 = phi i32 [ %96, %95 ], [ %109, %102 ]
  %112 = sext i32 %98 to i64
  %113 = getelementptr inbounds [64 x i32], ptr @xs, i64 0, i64 %112
  %114 = load i32, ptr %113, align 4, !tbaa !8
  %115 = sext i32 %111 to i64
  %116 = getelementptr inbounds [64 x i32], ptr @xs, i64 0, i64 %115
  %117 = load i32, ptr %116, align 4, !tbaa !8
  %118 = icmp slt i32 %114, %117
  br i1 %118, label %119, label %124

119:                                              ; preds = %110
  store i32 %117, ptr %113, align 4, !tbaa !8
  store i32 %114, ptr %116, align 4, !tbaa !8
  %120 = shl nsw i32 %111, 1
  %121 = or disjoint i32 %120, 1
  %122 = sext i32 %121 to i64
  %123 = icmp sgt i64 %90, %122
  br i1 %123, label %95, label %124

124:                                              ; preds = %110, %119
  %125 = icmp sgt i64 %89, 2
  br i1 %125, label %88, label %62, !llvm.loop !22
}

; Function Attrs: nofree nosync nounwind memory(readwrite, inaccessiblemem: none)
define dso_local i64 @mergesort(i32 noundef signext %0, i32 noundef signext %1) local_unnamed_addr #1 {
  %3 = icmp sgt i32 %0, 0
  br i1 %3, label %5, label %4

4:                                                ; preds = %2
  tail call fastcc void @merge(i32 noundef signext 0, i32 noundef signext %0) #4
  br label %42

5:                                                ; preds = %2
  %6 = zext nneg i32 %0 to i64
  br label %7

7:                                                ; preds = %7, %5
  %8 = phi i64 [ 0, %5 ], [ %18, %7 ]
  %9 = phi i32 [ %1, %5 ], [ %11, %7 ]
  %10 = mul i32 %9, 1103515245
  %11 = add i32 %10, 12345
  %12 = lshr i32 %11, 16
  %13 = trunc nuw i32 %12 to i16
  %14 = urem i16 %13, 1000
  %15 = zext nneg i16 %14 to i32
  %16 = add nsw i32 %15, -500
  %17 = getelementptr inbounds [64 x i32], ptr @xs, i64 0, i64 %8
  store i32 %16, ptr %17, align 4, !tbaa !8
  %18 = add nuw nsw i64 %8, 1
  %19 = icmp eq i64 %18, %6
  br i1 %19, label %20, label %7, !llvm.loop !12

20:                                               ; preds = %7
  tail call fastcc void @merge(i32 noundef signext 0, i32 noundef signext %0) #4
  br label %21

21:                                               ; preds = %37, %20
  %22 = phi i64 [ 0, %20 ], [ %40, %37 ]
  %23 = phi i64 [ 0, %20 ], [ %39, %37 ]
  %24 = mul i64 %23, 31
  %25 = getelementptr inbounds [64 x i32], ptr @xs, i64 0, i64 %22
  %26 = load i32, ptr %25, align 4, !tbaa !8
  %27 = sext i32 %26 to i64
  %28 = add i64 %24, %27
  %29 = icmp eq i64 %22, 0
  br i1 %29, label %37, label %30

30:                                               ; preds = %21
  %31 = add nsw i64 %22, -1
  %32 = getelementptr inbounds [64 x i32], ptr @xs, i64 0, i64 %31
  %33 = load i32, ptr %32, align 4, !tbaa !8
  %34 = icmp sgt i32 %33, %26
  %35 = freeze i1 %34
  %36 = select i1 %35, i64 1000000, i64 0
  br label %37

37:                                               ; preds = %30, %21
  %38 = phi i64 [ 0, %21 ], [ %36, %30 ]
  %39 = add i64 %28, %38
  %40 = add nuw nsw i64 %22, 1
  %41 = icmp eq i64 %40, %6
  br i1 %41, label %42, label %21, !llvm.loop !15

42:                                               ; preds = %37, %4
  %43 = phi i64 [ 0, %4 ], [ %39, %37 ]
  ret i64 %43
}

; Function Attrs: nofree nosync nounwind memory(readwrite, argmem: none, inaccessiblemem: none)
define internal fastcc void @merge(i32 noundef signext %0, i32 noundef signext %1) unnamed_addr #2 {
  %3 = sub nsw i32 %1, %0
  %4 = icmp slt i32 %3, 2
  br i1 %4, label %45, label %5

5:                                                ; preds = %2
  %6 = lshr i32 %3, 1
  %7 = add nsw i32 %6, %0
  tail call fastcc void @merge(i32 noundef signext %0, i32 noundef signext %7) #4
  tail call fastcc void @merge(i32 noundef signext %7, i32 noundef signext %1) #4
  %8 = icmp slt i32 %0, %1
  %9 = zext i32 %0 to i64
  br i1 %8, label %15, label %10

10:                                               ; preds = %34, %5
  %11 = getelementptr inbounds [64 x i32], ptr @xs, i64 0, i64 %9
  %12 = getelementptr inbounds [64 x i32], ptr @ys, i64 0, i64 %9
  %13 = zext nneg i32 %3 to i64
  %14 = shl nuw nsw i64 %13, 2
  tail call void @llvm.memcpy.p0.p0.i64(ptr nonnull align 4 %11, ptr nonnull align 4 %12, i64 %14, i1 false)
  br label %45

15:                                               ; preds = %5, %34
  %16 = phi i64 [ %42, %34 ], [ %9, %5 ]
  %17 = phi i32 [ %36, %34 ], [ %7, %5 ]
  %18 = phi i32 [ %35, %34 ], [ %0, %5 ]
  %19 = icmp slt i32 %17, %1
  br i1 %19, label %20, label %30

20:                                               ; preds = %15
  %21 = icmp slt i32 %18, %7
  br i1 %21, label %22, label %32

22:                                               ; preds = %20
  %23 = zext nneg i32 %18 to i64
  %24 = getelementptr inbounds [64 x i32], ptr @xs, i64 0, i64 %23
  %25 = load i32, ptr %24, align 4, !tbaa !8
  %26 = zext nneg i32 %17 to i64
  %27 = getelementptr inbounds [64 x i32], ptr @xs, i64 0, i64 %26
  %28 = load i32, ptr %27, align 4, !tbaa !8
  %29 = icmp sgt i32 %25, %28
  br i1 %29, label %32, label %30

30:                                               ; preds = %22, %15
  %31 = add nuw nsw i32 %18, 1
  br label %34

32:                                               ; preds = %22, %20
  %33 = add nuw nsw i32 %17, 1
  br label %34

34:                                               ; preds = %32, %30
  %35 = phi i32 [ %31, %30 ], [ %18, %32 ]
  %36 = phi i32 [ %17, %30 ], [ %33, %32 ]
  %37 = phi i32 [ %18, %30 ], [ %17, %32 ]
  %38 = zext i32 %37 to i64
  %39 = getelementptr inbounds [64 x i32], ptr @xs, i64 0, i64 %38
  %40 = load i32, ptr %39, align 4, !tbaa !8
  %41 = getelementptr inbounds [64 x i32], ptr @ys, i64 0, i64 %16
  store i32 %40, ptr %41, align 4, !tbaa !8
  %42 = add nuw nsw i64 %16, 1
  %43 = trunc nuw i64 %42 to i32
  %44 = icmp slt i32 %43, %1
  br i1 %44, label %15, label %10, !llvm.loop !23

45:                                               ; preds = %2, %10
  ret void
}

; Function Attrs: mustprogress nocallback nofree nounwind willreturn memory(argmem: readwrite)
declare void @llvm.memcpy.p0.p0.i64(ptr noalias nocapture writeonly, ptr noalias nocapture readonly, i64, i1 immarg) #3

attributes #0 = { nofree norecurse nosync nounwind memory(readwrite, argmem: none, inaccessiblemem: none) "no-builtins" "no-trapping-math"="true" "stack-protector-buffer-size"="8" "target-cpu"="generic-rv64" "target-features"="+64bit,+m,+relax,+zmmul,-a,-b,-c,-d,-e,-experimental-smmpm,-experimental-smnpm,-experimental-ssnpm,-experimental-sspm,-experimental-ssqosid,-experimental-supm,-experimental-zacas,-experimental-zalasr,-experimental-zicfilp,-experimental-zicfiss,-f,-h,-shcounterenw,-shgatpa,-shtvala,-shvsatpa,-shvstvala,-shvstvecd,-smaia,-smcdeleg,-smcsrind,-smepmp,-smstateen,-ssaia,-ssccfg,-ssccptr,-sscofpmf,-sscounterenw,-sscsrind,-ssstateen,-ssstrict,-sstc,-sstvala,-sstvecd,-ssu64xl,-svade,-svadu,-svbare,-svinval,-svnapot,-svpbmt,-v,-xcvalu,-xcvbi,-xcvbitmanip,-xcvelw,-xcvmac,-xcvmem,-xcvsimd,-xsfcease,-xsfvcp,-xsfvfnrclipxfqf,-xsfvfwmaccqqq,-xsfvqmaccdod,-xsfvqmaccqoq,-xsifivecdiscarddlone,-xsifivecflushdlone,-xtheadba,-xtheadbb,-xtheadbs,-xtheadcmo,-xtheadcondmov,-xtheadfmemidx,-xtheadmac,-xtheadmemidx,-xtheadmempair,-xtheadsync,-xtheadvdot,-xventanacondops,-xwchc,-za128rs,-za64rs,-zaamo,-zabha,-zalrsc,-zama16b,-zawrs,-zba,-zbb,-zbc,-zbkb,-zbkc,-zbkx,-zbs,-zca,-zcb,-zcd,-zce,-zcf,-zcmop,-zcmp,-zcmt,-zdinx,-zfa,-zfbfmin,-zfh,-zfhmin,-zfinx,-zhinx,-zhinxmin,-zic64b,-zicbom,-zicbop,-zicboz,-ziccamoa,-ziccif,-zicclsm,-ziccrse,-zicntr,-zicond,-zicsr,-zifencei,-zihintntl,-zihintpause,-zihpm,-zimop,-zk,-zkn,-zknd,-zkne,-zknh,-zkr,-zks,-zksed,-zksh,-zkt,-ztso,-zvbb,-zvbc,-zve32f,-zve32x,-zve64d,-zve64f,-zve64x,-zvfbfmin,-zvfbfwma,-zvfh,-zvfhmin,-zvkb,-zvkg,-zvkn,-zvknc,-zvkned,-zvkng,-zvknha,-zvknhb,-zvks,-zvksc,-zvksed,-zvksg,-zvksh,-zvkt,-zvl1024b,-zvl128b,-zvl16384b,-zvl2048b,-zvl256b,-zvl32768b,-zvl32b,-zvl4096b,-zvl512b,-zvl64b,-zvl65536b,-zvl8192b" }
attributes #1 = { nofree nosync nounwind memory(readwrite, inaccessiblemem: none) "no-builtins" "no-trapping-math"="true" "stack-protector-buffer-size"="8" "target-cpu"="generic-rv64" "target-features"="+64bit,+m,+relax,+zmmul,-a,-b,-c,-d,-e,-experimental-smmpm,-experimental-smnpm,-experimental-ssnpm,-experimental-sspm,-experimental-ssqosid,-experimental-supm,-experimental-zacas,-experimental-zalasr,-experimental-zicfilp,-experimental-zicfiss,-f,-h,-shcounterenw,-shgatpa,-shtvala,-shvsatpa,-shvstvala,-shvstvecd,-smaia,-smcdeleg,-smcsrind,-smepmp,-smstateen,-ssaia,-ssccfg,-ssccptr,-sscofpmf,-sscounterenw,-sscsrind,-ssstateen,-ssstrict,-sstc,-sstvala,-sstvecd,-ssu64xl,-svade,-svadu,-svbare,-svinval,-svnapot,-svpbmt,-v,-xcvalu,-xcvbi,-xcvbitmanip,-xcvelw,-xcvmac,-xcvmem,-xcvsimd,-xsfcease,-xsfvcp,-xsfvfnrclipxfqf,-xsfvfwmaccqqq,-xsfvqmaccdod,-xsfvqmaccqoq,-xsifivecdiscarddlone,-xsifivecflushdlone,-xtheadba,-xtheadbb,-xtheadbs,-xtheadcmo,-xtheadcondmov,-xtheadfmemidx,-xtheadmac,-xtheadmemidx,-xtheadmempair,-xtheadsync,-xtheadvdot,-xventanacondops,-xwchc,-za128rs,-za64rs,-zaamo,-zabha,-zalrsc,-zama16b,-zawrs,-zba,-zbb,-zbc,-zbkb,-zbkc,-zbkx,-zbs,-zca,-zcb,-zcd,-zce,-zcf,-zcmop,-zcmp,-zcmt,-zdinx,-zfa,-zfbfmin,-zfh,-zfhmin,-zfinx,-zhinx,-zhinxmin,-zic64b,-zicbom,-zicbop,-zicboz,-ziccamoa,-ziccif,-zicclsm,-ziccrse,-zicntr,-zicond,-zicsr,-zifencei,-zihintntl,-zihintpause,-zihpm,-zimop,-zk,-zkn,-zknd,-zkne,-zknh,-zkr,-zks,-zksed,-zksh,-zkt,-ztso,-zvbb,-zvbc,-zve32f,-zve32x,-zve64d,-zve64f,-zve64x,-zvfbfmin,-zvfbfwma,-zvfh,-zvfhmin,-zvkb,-zvkg,-zvkn,-zvknc,-zvkned,-zvkng,-zvknha,-zvknhb,-zvks,-zvksc,-zvksed,-zvksg,-zvksh,-zvkt,-zvl1024b,-zvl128b,-zvl16384b,-zvl2048b,-zvl256b,-zvl32768b,-zvl32b,-zvl4096b,-zvl512b,-zvl64b,-zvl65536b,-zvl8192b" }
attributes #2 = { nofree nosync nounwind memory(readwrite, argmem: none, inaccessiblemem: none) "no-builtins" "no-trapping-math"="true" "stack-protector-buffer-size"="8" "target-cpu"="generic-rv64" "target-features"="+64bit,+m,+relax,+zmmul,-a,-b,-c,-d,-e,-experimental-smmpm,-experimental-smnpm,-experimental-ssnpm,-experimental-sspm,-experimental-ssqosid,-experimental-supm,-experimental-zacas,-experimental-zalasr,-experimental-zicfilp,-experimental-zicfiss,-f,-h,-shcounterenw,-shgatpa,-shtvala,-shvsatpa,-shvstvala,-shvstvecd,-smaia,-smcdeleg,-smcsrind,-smepmp,-smstateen,-ssaia,-ssccfg,-ssccptr,-sscofpmf,-sscounterenw,-sscsrind,-ssstateen,-ssstrict,-sstc,-sstvala,-sstvecd,-ssu64xl,-svade,-svadu,-svbare,-svinval,-svnapot,-svpbmt,-v,-xcvalu,-xcvbi,-xcvbitmanip,-xcvelw,-xcvmac,-xcvmem,-xcvsimd,-xsfcease,-xsfvcp,-xsfvfnrclipxfqf,-xsfvfwmaccqqq,-xsfvqmaccdod,-xsfvqmaccqoq,-xsifivecdiscarddlone,-xsifivecflushdlone,-xtheadba,-xtheadbb,-xtheadbs,-xtheadcmo,-xtheadcondmov,-xtheadfmemidx,-xtheadmac,-xtheadmemidx,-xtheadmempair,-xtheadsync,-xtheadvdot,-xventanacondops,-xwchc,-za128rs,-za64rs,-zaamo,-zabha,-zalrsc,-zama16b,-zawrs,-zba,-zbb,-zbc,-zbkb,-zbkc,-zbkx,-zbs,-zca,-zcb,-zcd,-zce,-zcf,-zcmop,-zcmp,-zcmt,-zdinx,-zfa,-zfbfmin,-zfh,-zfhmin,-zfinx,-zhinx,-zhinxmin,-zic64b,-zicbom,-zicbop,-zicboz,-ziccamoa,-ziccif,-zicclsm,-ziccrse,-zicntr,-zicond,-zicsr,-zifencei,-zihintntl,-zihintpause,-zihpm,-zimop,-zk,-zkn,-zknd,-zkne,-zknh,-zkr,-zks,-zksed,-zksh,-zkt,-ztso,-zvbb,-zvbc,-zve32f,-zve32x,-zve64d,-zve64f,-zve64x,-zvfbfmin,-zvfbfwma,-zvfh,-zvfhmin,-zvkb,-zvkg,-zvkn,-zvknc,-zvkned,-zvkng,-zvknha,-zvknhb,-zvks,-zvksc,-zvksed,-zvksg,-zvksh,-zvkt,-zvl1024b,-zvl128b,-zvl16384b,-zvl2048b,-zvl256b,-zvl32768b,-zvl32b,-zvl4096b,-zvl512b,-zvl64b,-zvl65536b,-zvl8192b" }
attributes #3 = { mustprogress nocallback nofree nounwind willreturn memory(argmem: readwrite) }
attributes #4 = { nobuiltin "no-builtins" }

!llvm.module.flags = !{!0, !1, !2, !4, !5, !6}
!llvm.ident = !{!7}

!0 = !{i32 1, !"wchar_size", i32 4}
!1 = !{i32 1, !"target-abi", !"lp64"}
!2 = !{i32 6, !"riscv-isa", !3}
!3 = !{!"rv64i2p1_m2p0_zmmul1p0"}
!4 = !{i32 8, !"PIC Level", i32 2}
!5 = !{i32 7, !"PIE Level", i32 2}
!6 = !{i32 8, !"SmallDataLimit", i32 8}
!7 = !{!"Debian clang version 19.1.7 (3~deb12u1)"}
!8 = !{!9, !9, i64 0}
!9 = !{!"int", !10, i64 0}
!10 = !{!"omnipotent char", !11, i64 0}
!11 = !{!"Simple C/C++ TBAA"}
!12 = distinct !{!12, !13, !14}
!13 = !{!"llvm.loop.mustprogress"}
!14 = !{!"llvm.loop.unroll.disable"}
!15 = distinct !{!15, !13, !14}
!16 = distinct !{!16, !13, !14}
!17 = distinct !{!17, !13, !14}
!18 = distinct !{!18, !13, !14}
!19 = distinct !{!19, !13, !14}
!20 = distinct !{!20, !13, !14}
!21 = distinct !{!21, !13, !14}
!22 = distinct !{!22, !13, !14}
!23 = distinct !{!23, !13, !14}
