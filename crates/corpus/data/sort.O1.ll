; ModuleID = 'sort.c'
source_filename = "sort.c"
target datalayout = "e-m:e-p:64:64-i64:64-i128:128-n32:64-S128"
target triple = "riscv64-unknown-linux-gnu"

@xs = internal unnamed_addr global [64 x i32] zeroinitializer, align 4
@ys = internal unnamed_addr global [64 x i32] zeroinitializer, align 4

; Function Attrs: nofree norecurse nosync nounwind memory(readwrite, argmem: none, inaccessiblemem: none)
define dso_local i64 @insertion(i32 noundef signext %0, i32 noundef signext %1) local_unnamed_addr #0 {
  %3 = icmp sgt i32 %0, 0
  br i1 %3, label %4, label %17

4:                                                ; preds = %2
  %5 = zext nneg i32 %0 to i64
  br label %6

6:                                                ; preds = %6, %4
  %7 = phi i64 [ 0, %4 ], [ %15, %6 ]
  %8 = phi i32 [ %1, %4 ], [ %10, %6 ]
  %9 = mul i32 %8, 1103515245
  %10 = add i32 %9, 12345
  %11 = lshr i32 %10, 16
  %12 = urem i32 %11, 1000
  %13 = add nsw i32 %12, -500
  %14 = getelementptr inbounds [64 x i32], ptr @xs, i64 0, i64 %7
  store i32 %13, ptr %14, align 4, !tbaa !8
  %15 = add nuw nsw i64 %7, 1
  %16 = icmp eq i64 %15, %5
  br i1 %16, label %17, label %6, !llvm.loop !12

17:                                               ; preds = %6, %2
  %18 = icmp sgt i32 %0, 1
  br i1 %18, label %19, label %21

19:                                               ; preds = %17
  %20 = zext nneg i32 %0 to i64
  br label %46

21:                                               ; preds = %61, %17
  br i1 %3, label %22, label %44

22:                                               ; preds = %21
  %23 = zext nneg i32 %0 to i64
  br label %24

24:                                               ; preds = %38, %22
  %25 = phi i64 [ 0, %22 ], [ %42, %38 ]
  %26 = phi i64 [ 0, %22 ], [ %41, %38 ]
  %27 = mul i64 %26, 31
  %28 = getelementptr inbounds [64 x i32], ptr @xs, i64 0, i64 %25
  %29 = load i32, ptr %28, align 4, !tbaa !8
  %30 = sext i32 %29 to i64
  %31 = add i64 %27, %30
  %32 = icmp eq i64 %25, 0
  br i1 %32, label %38, label %33

33:                                               ; preds = %24
  %34 = add nsw i64 %25, -1
  %35 = getelementptr inbounds [64 x i32], ptr @xs, i64 0, i64 %34
  %36 = load i32, ptr %35, align 4, !tbaa !8
  %37 = icmp sgt i32 %36, %29
  br label %38

38:                                               ; preds = %33, %24
  %39 = phi i1 [ false, %24 ], [ %37, %33 ]
  %40 = select i1 %39, i64 1000000, i64 0
  %41 = add i64 %31, %40
  %42 = add nuw nsw i64 %25, 1
  %43 = icmp eq i64 %42, %23
  br i1 %43, label %44, label %24, !llvm.loop !15

44:                                               ; preds = %38, %21
  %45 = phi i64 [ 0, %21 ], [ %41, %38 ]
  ret i64 %45

46:                                               ; preds = %19, %61
  %47 = phi i64 [ 1, %19 ], [ %66, %61 ]
  %48 = getelementptr inbounds [64 x i32], ptr @xs, i64 0, i64 %47
  %49 = load i32, ptr %48, align 4, !tbaa !8
  br label %50

50:                                               ; preds = %46, %57
  %51 = phi i64 [ %47, %46 ], [ %60, %57 ]
  %52 = add i64 %51, 4294967295
  %53 = and i64 %52, 4294967295
  %54 = getelementptr inbounds [64 x i32], ptr @xs, i64 0, i64 %53
  %55 = load i32, ptr %54, align 4, !tbaa !8
  %56 = icmp sgt i32 %55, %49
  br i1 %56, label %57, label %61

57:                                               ; preds = %50
  %58 = getelementptr inbounds [64 x i32], ptr @xs, i64 0, i64 %51
  store i32 %55, ptr %58, align 4, !tbaa !8
  %59 = icmp sgt i64 %51, 1
  %60 = add nsw i64 %51, -1
  br i1 %59, label %50, label %61, !llvm.loop !16

61:                                               ; preds = %57, %50
  %62 = phi i64 [ 0, %57 ], [ %51, %50 ]
  %63 = shl i64 %62, 32
  %64 = ashr exact i64 %63, 32
  %65 = getelementptr inbounds [64 x i32], ptr @xs, i64 0, i64 %64
  store i32 %49, ptr %65, align 4, !tbaa !8
  %66 = add nuw nsw i64 %47, 1
  %67 = icmp eq i64 %66, %20
  br i1 %67, label %21, label %46, !llvm.loop !17
}

; Function Attrs: nofree nosync nounwind memory(readwrite, inaccessiblemem: none)
define dso_local i64 @quicksort(i32 noundef signext %0, i32 noundef signext %1) local_unnamed_addr #1 {
  %3 = icmp sgt i32 %0, 0
  br i1 %3, label %4, label %41

4:                                                ; preds = %2
  %5 = zext nneg i32 %0 to i64
  br label %8

6:                                                ; preds = %8
  %7 = add nsw i32 %0, -1
  tail call fastcc void @quick(i32 noundef signext 0, i32 noundef signext %7) #4
  br i1 %3, label %19, label %43

8:                                                ; preds = %8, %4
  %9 = phi i64 [ 0, %4 ], [ %17, %8 ]
  %10 = phi i32 [ %1, %4 ], [ %12, %8 ]
  %11 = mul i32 %10, 1103515245
  %12 = add i32 %11, 12345
  %13 = lshr i32 %12, 16
  %14 = urem i32 %13, 1000
  %15 = add nsw i32 %14, -500
  %16 = getelementptr inbounds [64 x i32], ptr @xs, i64 0, i64 %9
  store i32 %15, ptr %16, align 4, !tbaa !8
  %17 = add nuw nsw i64 %9, 1
  %18 = icmp eq i64 %17, %5
  br i1 %18, label %6, label %8, !llvm.loop !12

19:                                               ; preds = %6
  %20 = zext nneg i32 %0 to i64
  br label %21

21:                                               ; preds = %35, %19
  %22 = phi i64 [ 0, %19 ], [ %39, %35 ]
  %23 = phi i64 [ 0, %19 ], [ %38, %35 ]
  %24 = mul i64 %23, 31
  %25 = getelementptr inbounds [64 x i32], ptr @xs, i64 0, i64 %22
  %26 = load i32, ptr %25, align 4, !tbaa !8
  %27 = sext i32 %26 to i64
  %28 = add i64 %24, %27
  %29 = icmp eq i64 %22, 0
  br i1 %29, label %35, label %30

30:                                               ; preds = %21
  %31 = add nsw i64 %22, -1
  %32 = getelementptr inbounds [64 x i32], ptr @xs, i64 0, i64 %31
  %33 = load i32, ptr %32, align 4, !tbaa !8
  %34 = icmp sgt i32 %33, %26
  br label %35

35:                                               ; preds = %30, %21
  %36 = phi i1 [ false, %21 ], [ %34, %30 ]
  %37 = select i1 %36, i64 1000000, i64 0
  %38 = add i64 %28, %37
  %39 = add nuw nsw i64 %22, 1
  %40 = icmp eq i64 %39, %20
  br i1 %40, label %43, label %21, !llvm.loop !15

41:                                               ; preds = %2
  %42 = add nsw i32 %0, -1
  tail call fastcc void @quick(i32 noundef signext 0, i32 noundef signext %42) #4
  br label %43

43:                                               ; preds = %35, %41, %6
  %44 = phi i64 [ 0, %6 ], [ 0, %41 ], [ %38, %35 ]
  ret i64 %44
}

; Function Attrs: nofree nosync nounwind memory(readwrite, argmem: none, inaccessiblemem: none)
define internal fastcc void @quick(i32 noundef signext %0, i32 noundef signext %1) unnamed_addr #2 {
  br label %3

3:                                                ; preds = %41, %2
  %4 = phi i32 [ %0, %2 ], [ %38, %41 ]
  %5 = icmp slt i32 %4, %1
  br i1 %5, label %6, label %42

6:                                                ; preds = %3
  %7 = add nsw i32 %1, %4
  %8 = sdiv i32 %7, 2
  %9 = sext i32 %8 to i64
  %10 = getelementptr inbounds [64 x i32], ptr @xs, i64 0, i64 %9
  %11 = load i32, ptr %10, align 4, !tbaa !8
  br label %12

12:                                               ; preds = %6, %37
  %13 = phi i32 [ %1, %6 ], [ %39, %37 ]
  %14 = phi i32 [ %4, %6 ], [ %38, %37 ]
  %15 = sext i32 %14 to i64
  br label %16

16:                                               ; preds = %16, %12
  %17 = phi i64 [ %21, %16 ], [ %15, %12 ]
  %18 = getelementptr inbounds [64 x i32], ptr @xs, i64 0, i64 %17
  %19 = load i32, ptr %18, align 4, !tbaa !8
  %20 = icmp slt i32 %19, %11
  %21 = add nsw i64 %17, 1
  br i1 %20, label %16, label %22, !llvm.loop !18

22:                                               ; preds = %16
  %23 = sext i32 %13 to i64
  br label %24

24:                                               ; preds = %24, %22
  %25 = phi i64 [ %29, %24 ], [ %23, %22 ]
  %26 = getelementptr inbounds [64 x i32], ptr @xs, i64 0, i64 %25
  %27 = load i32, ptr %26, align 4, !tbaa !8
  %28 = icmp sgt i32 %27, %11
  %29 = add nsw i64 %25, -1
  br i1 %28, label %24, label %30, !llvm.loop !19

30:                                               ; preds = %24
  %31 = trunc nsw i64 %17 to i32
  %32 = trunc nsw i64 %25 to i32
  %33 = icmp sgt i64 %17, %25
  br i1 %33, label %37, label %34

34:                                               ; preds = %30
  %35 = add nsw i32 %31, 1
  %36 = add nsw i32 %32, -1
  store i32 %27, ptr %18, align 4, !tbaa !8
  store i32 %19, ptr %26, align 4, !tbaa !8
  br label %37

37:                                               ; preds = %34, %30
  %38 = phi i32 [ %35, %34 ], [ %31, %30 ]
  %39 = phi i32 [ %36, %34 ], [ %32, %30 ]
  %40 = icmp sgt i32 %38, %39
  br i1 %40, label %41, label %12, !llvm.loop !20

41:                                               ; preds = %37
  tail call fastcc void @quick(i32 noundef signext %4, i32 noundef signext %39) #4
  br label %3

42:                                               ; preds = %3
  ret void
}

; Function Attrs: nofree norecurse nosync nounwind memory(readwrite, argmem: none, inaccessiblemem: none)
define dso_local i64 @heapsort(i32 noundef signext %0, i32 noundef signext %1) local_unnamed_addr #0 {
  %3 = icmp sgt i32 %0, 0
  br i1 %3, label %4, label %17

4:                                                ; preds = %2
  %5 = zext nneg i32 %0 to i64
  br label %6

6:                                                ; preds = %6, %4
  %7 = phi i64 [ 0, %4 ], [ %15, %6 ]
  %8 = phi i32 [ %1, %4 ], [ %10, %6 ]
  %9 = mul i32 %8, 1103515245
  %10 = add i32 %9, 12345
  %11 = lshr i32 %10, 16
  %12 = urem i32 %11, 1000
  %13 = add nsw i32 %12, -500
  %14 = getelementptr inbounds [64 x i32], ptr @xs, i64 0, i64 %7
  store i32 %13, ptr %14, align 4, !tbaa !8
  %15 = add nuw nsw i64 %7, 1
  %16 = icmp eq i64 %15, %5
  br i1 %16, label %17, label %6, !llvm.loop !12

17:                                               ; preds = %6, %2
  %18 = icmp sgt i32 %0, 1
  br i1 %18, label %19, label %23

19:                                               ; preds = %17
  %20 = lshr i32 %0, 1
  br label %27

21:                                               ; preds = %57
  %22 = icmp sgt i32 %28, 1
  br i1 %22, label %27, label %23, !llvm.loop !21

23:                                               ; preds = %21, %17
  %24 = icmp sgt i32 %0, 1
  br i1 %24, label %25, label %62

25:                                               ; preds = %23
  %26 = zext nneg i32 %0 to i64
  br label %87

27:                                               ; preds = %19, %21
  %28 = phi i32 [ %29, %21 ], [ %20, %19 ]
  %29 = add nsw i32 %28, -1
  br label %30

30:                                               ; preds = %57, %27
  %31 = phi i32 [ %29, %27 ], [ %58, %57 ]
  %32 = shl nsw i32 %31, 1
  %33 = or disjoint i32 %32, 1
  %34 = icmp slt i32 %33, %0
  br i1 %34, label %35, label %57

35:                                               ; preds = %30
  %36 = add nsw i32 %32, 2
  %37 = icmp slt i32 %36, %0
  br i1 %37, label %38, label %47

38:                                               ; preds = %35
  %39 = sext i32 %33 to i64
  %40 = getelementptr inbounds [64 x i32], ptr @xs, i64 0, i64 %39
  %41 = load i32, ptr %40, align 4, !tbaa !8
  %42 = sext i32 %36 to i64
  %43 = getelementptr inbounds [64 x i32], ptr @xs, i64 0, i64 %42
  %44 = load i32, ptr %43, align 4, !tbaa !8
  %45 = icmp slt i32 %41, %44
  %46 = select i1 %45, i32 %36, i32 %33
  br label %47

47:                                               ; preds = %38, %35
  %48 = phi i32 [ %33, %35 ], [ %46, %38 ]
  %49 = sext i32 %31 to i64
  %50 = getelementptr inbounds [64 x i32], ptr @xs, i64 0, i64 %49
  %51 = load i32, ptr %50, align 4, !tbaa !8
  %52 = sext i32 %48 to i64
  %53 = getelementptr inbounds [64 x i32], ptr @xs, i64 0, i64 %52
  %54 = load i32, ptr %53, align 4, !tbaa !8
  %55 = icmp slt i32 %51, %54
  br i1 %55, label %56, label %57

56:                                               ; preds = %47
  store i32 %54, ptr %50, align 4, !tbaa !8
  store i32 %51, ptr %53, align 4, !tbaa !8
  br label %57

57:                                               ; preds = %56, %47, %30
  %58 = phi i32 [ %48, %56 ], [ %31, %30 ], [ %31, %47 ]
  %59 = phi i1 [ true, %56 ], [ false, %30 ], [ false, %47 ]
  br i1 %59, label %30, label %21, !llvm.loop !21

60:                                               ; preds = %122
  %61 = icmp sgt i64 %88, 2
  br i1 %61, label %87, label %62, !llvm.loop !22

62:                                               ; preds = %60, %23
  br i1 %3, label %63, label %85

63:                                               ; preds = %62
  %64 = zext nneg i32 %0 to i64
  br label %65

65:                                               ; preds = %79, %63
  %66 = phi i64 [ 0, %63 ], [ %83, %79 ]
  %67 = phi i64 [ 0, %63 ], [ %82, %79 ]
  %68 = mul i64 %67, 31
  %69 = getelementptr inbounds [64 x i32], ptr @xs, i64 0, i64 %66
  %70 = load i32, ptr %69, align 4, !tbaa !8
  %71 = sext i32 %70 to i64
  %72 = add i64 %68, %71
  %73 = icmp eq i64 %66, 0
  br i1 %73, label %79, label %74

74:                                               ; preds = %65
  %75 = add nsw i64 %66, -1
  %76 = getelementptr inbounds [64 x i32], ptr @xs, i64 0, i64 %75
  %77 = load i32, ptr %76, align 4, !tbaa !8
  %78 = icmp sgt i32 %77, %70
  br label %79

79:                                               ; preds = %74, %65
  %80 = phi i1 [ false, %65 ], [ %78, %74 ]
  %81 = select i1 %80, i64 1000000, i64 0
  %82 = add i64 %72, %81
  %83 = add nuw nsw i64 %66, 1
  %84 = icmp eq i64 %83, %64
  br i1 %84, label %85, label %65, !llvm.loop !15

85:                                               ; preds = %79, %62
  %86 = phi i64 [ 0, %62 ], [ %82, %79 ]
  ret i64 %86

87:                                               ; preds = %25, %60
  %88 = phi i64 [ %26, %25 ], [ %89, %60 ]
  %89 = add nsw i64 %88, -1
  %90 = getelementptr inbounds [64 x i32], ptr @xs, i64 0, i64 %89
  %91 = load i32, ptr @xs, align 4, !tbaa !8
  %92 = load i32, ptr %90, align 4, !tbaa !8
  store i32 %92, ptr @xs, align 4, !tbaa !8
  store i32 %91, ptr %90, align 4, !tbaa !8
  br label %93

93:                                               ; preds = %122, %87
  %94 = phi i32 [ 0, %87 ], [ %123, %122 ]
  %95 = shl nsw i32 %94, 1
  %96 = or disjoint i32 %95, 1
  %97 = sext i32 %96 to i64
  %98 = icmp sgt i64 %89, %97
  br i1 %98, label %99, label %122

99:                                               ; preds = %93
  %100 = add nsw i32 %95, 2
  %101 = sext i32 %100 to i64
  %102 = icmp sgt i64 %89, %101
  br i1 %102, label %103, label %112

103:                                              ; preds = %99
  %104 = sext i32 %96 to i64
  %105 = getelementptr inbounds [64 x i32], ptr @xs, i64 0, i64 %104
  %106 = load i32, ptr %105, align 4, !tbaa !8
  %107 = sext i32 %100 to i64
  %108 = getelementptr inbounds [64 x i32], ptr @xs, i64 0, i64 %107
  %109 = load i32, ptr %108, align 4, !tbaa !8
  %110 = icmp slt i32 %106, %109
  %111 = select i1 %110, i32 %100, i32 %96
  br label %112

112:                                              ; preds = %103, %99
  %113 = phi i32 [ %96, %99 ], [ %111, %103 ]
  %114 = sext i32 %94 to i64
  %115 = getelementptr inbounds [64 x i32], ptr @xs, i64 0, i64 %114
  %116 = load i32, ptr %115, align 4, !tbaa !8
  %117 = sext i32 %113 to i64
  %118 = getelementptr inbounds [64 x i32], ptr @xs, i64 0, i64 %117
  %119 = load i32, ptr %118, align 4, !tbaa !8
  %120 = icmp slt i32 %116, %119
  br i1 %120, label %121, label %122

121:                                              ; preds = %112
  store i32 %119, ptr %115, align 4, !tbaa !8
  store i32 %116, ptr %118, align 4, !tbaa !8
  br label %122

122:                                              ; preds = %121, %112, %93
  %123 = phi i32 [ %113, %121 ], [ %94, %93 ], [ %94, %112 ]
  %124 = phi i1 [ true, %121 ], [ false, %93 ], [ false, %112 ]
  br i1 %124, label %93, label %60, !llvm.loop !22
}

; Function Attrs: nofree nosync nounwind memory(readwrite, inaccessiblemem: none)
define dso_local i64 @mergesort(i32 noundef signext %0, i32 noundef signext %1) local_unnamed_addr #1 {
  %3 = icmp sgt i32 %0, 0
  br i1 %3, label %4, label %40

4:                                                ; preds = %2
  %5 = zext nneg i32 %0 to i64
  br label %7

6:                                                ; preds = %7
  tail call fastcc void @merge(i32 noundef signext 0, i32 noundef signext %0) #4
  br i1 %3, label %18, label %41

7:                                                ; preds = %7, %4
  %8 = phi i64 [ 0, %4 ], [ %16, %7 ]
  %9 = phi i32 [ %1, %4 ], [ %11, %7 ]
  %10 = mul i32 %9, 1103515245
  %11 = add i32 %10, 12345
  %12 = lshr i32 %11, 16
  %13 = urem i32 %12, 1000
  %14 = add nsw i32 %13, -500
  %15 = getelementptr inbounds [64 x i32], ptr @xs, i64 0, i64 %8
  store i32 %14, ptr %15, align 4, !tbaa !8
  %16 = add nuw nsw i64 %8, 1
  %17 = icmp eq i64 %16, %5
  br i1 %17, label %6, label %7, !llvm.loop !12

18:                                               ; preds = %6
  %19 = zext nneg i32 %0 to i64
  br label %20

20:                                               ; preds = %34, %18
  %21 = phi i64 [ 0, %18 ], [ %38, %34 ]
  %22 = phi i64 [ 0, %18 ], [ %37, %34 ]
  %23 = mul i64 %22, 31
  %24 = getelementptr inbounds [64 x i32], ptr @xs, i64 0, i64 %21
  %25 = load i32, ptr %24, align 4, !tbaa !8
  %26 = sext i32 %25 to i64
  %27 = add i64 %23, %26
  %28 = icmp eq i64 %21, 0
  br i1 %28, label %34, label %29

29:                                               ; preds = %20
  %30 = add nsw i64 %21, -1
  %31 = getelementptr inbounds [64 x i32], ptr @xs, i64 0, i64 %30
  %32 = load i32, ptr %31, align 4, !tbaa !8
  %33 = icmp sgt i32 %32, %25
  br label %34

34:                                               ; preds = %29, %20
  %35 = phi i1 [ false, %20 ], [ %33, %29 ]
  %36 = select i1 %35, i64 1000000, i64 0
  %37 = add i64 %27, %36
  %38 = add nuw nsw i64 %21, 1
  %39 = icmp eq i64 %38, %19
  br i1 %39, label %41, label %20, !llvm.loop !15

40:                                               ; preds = %2
  tail call fastcc void @merge(i32 noundef signext 0, i32 noundef signext %0) #4
  br label %41

41:                                               ; preds = %34, %40, %6
  %42 = phi i64 [ 0, %6 ], [ 0, %40 ], [ %37, %34 ]
  ret i64 %42
}

; Function Attrs: nofree nosync nounwind memory(readwrite, argmem: none, inaccessiblemem: none)
define internal fastcc void @merge(i32 noundef signext %0, i32 noundef signext %1) unnamed_addr #2 {
  %3 = sub nsw i32 %1, %0
  %4 = icmp slt i32 %3, 2
  br i1 %4, label %47, label %5

5:                                                ; preds = %2
  %6 = lshr i32 %3, 1
  %7 = add nsw i32 %6, %0
  tail call fastcc void @merge(i32 noundef signext %0, i32 noundef signext %7) #4
  tail call fastcc void @merge(i32 noundef signext %7, i32 noundef signext %1) #4
  %8 = icmp slt i32 %0, %1
  br i1 %8, label %9, label %11

9:                                                ; preds = %5
  %10 = zext i32 %0 to i64
  br label %17

11:                                               ; preds = %36, %5
  %12 = zext nneg i32 %0 to i64
  %13 = getelementptr inbounds [64 x i32], ptr @xs, i64 0, i64 %12
  %14 = getelementptr inbounds [64 x i32], ptr @ys, i64 0, i64 %12
  %15 = zext nneg i32 %3 to i64
  %16 = shl nuw nsw i64 %15, 2
  tail call void @llvm.memcpy.p0.p0.i64(ptr nonnull align 4 %13, ptr nonnull align 4 %14, i64 %16, i1 false)
  br label %47

17:                                               ; preds = %9, %36
  %18 = phi i64 [ %10, %9 ], [ %44, %36 ]
  %19 = phi i32 [ %7, %9 ], [ %38, %36 ]
  %20 = phi i32 [ %0, %9 ], [ %37, %36 ]
  %21 = icmp slt i32 %19, %1
  br i1 %21, label %22, label %32

22:                                               ; preds = %17
  %23 = icmp slt i32 %20, %7
  br i1 %23, label %24, label %34

24:                                               ; preds = %22
  %25 = zext nneg i32 %20 to i64
  %26 = getelementptr inbounds [64 x i32], ptr @xs, i64 0, i64 %25
  %27 = load i32, ptr %26, align 4, !tbaa !8
  %28 = zext nneg i32 %19 to i64
  %29 = getelementptr inbounds [64 x i32], ptr @xs, i64 0, i64 %28
  %30 = load i32, ptr %29, align 4, !tbaa !8
  %31 = icmp sgt i32 %27, %30
  br i1 %31, label %34, label %32

32:                                               ; preds = %24, %17
  %33 = add nuw nsw i32 %20, 1
  br label %36

34:                                               ; preds = %24, %22
  %35 = add nuw nsw i32 %19, 1
  br label %36

36:                                               ; preds = %34, %32
  %37 = phi i32 [ %33, %32 ], [ %20, %34 ]
  %38 = phi i32 [ %19, %32 ], [ %35, %34 ]
  %39 = phi i32 [ %20, %32 ], [ %19, %34 ]
  %40 = zext i32 %39 to i64
  %41 = getelementptr inbounds [64 x i32], ptr @xs, i64 0, i64 %40
  %42 = load i32, ptr %41, align 4, !tbaa !8
  %43 = getelementptr inbounds [64 x i32], ptr @ys, i64 0, i64 %18
  store i32 %42, ptr %43, align 4, !tbaa !8
  %44 = add nuw nsw i64 %18, 1
  %45 = trunc nuw i64 %44 to i32
  %46 = icmp slt i32 %45, %1
  br i1 %46, label %17, label %11, !llvm.loop !23

47:                                               ; preds = %2, %11
  ret void
}

; Function Attrs: mustprogress nocallback nofree nounwind willreturn memory(argmem: readwrite)
declare void @llvm.memcpy.p0.p0.i64(ptr noalias nocapture writeonly, ptr noalias nocapture readonly, i64, i1 immarg) #3

attributes #0 = { nofree norecurse nosync nounwind memory(readwrite, argmem: none, inaccessiblemem: none) "no-builtins" "no-trapping-math"="true" "stack-protector-buffer-size"="8" "target-cpu"="generic-rv64" "target-features"="+64bit,+m,+relax,+zmmul,-a,-b,-c,-d,-e,-experimental-smmpm,-experimental-smnpm,-experimental-ssnpm,-experimental-sspm,-experimental-ssqosid,-experimental-supm,-experimental-zacas,-experimental-zalasr,-experimental-zicfilp,-experimental-zicfiss,-f,-h,-shcounterenw,-shgatpa,-shtvala,-shvsatpa,-shvstvala,-shvstvecd,-smaia,-smcdeleg,-smcsrind,-smepmp,-smstateen,-ssaia,-ssccfg,-ssccptr,-sscofpmf,-sscounterenw,-sscsrind,-ssstateen,-ssstrict,-sstc,-sstvala,-sstvecd,-ssu64xl,-svade,-svadu,-svbare,-svinval,-svnapot,-svpbmt,-v,-xcvalu,-xcvbi,-xcvbitmanip,-xcvelw,-xcvmac,-xcvmem,-xcvsimd,-xsfcease,-xsfvcp,-xsfvfnrclipxfqf,-xsfvfwmaccqqq,-xsfvqmaccdod,-xsfvqmaccqoq,-xsifivecdiscarddlone,-xsifivecflushdlone,-xtheadba,-xtheadbb,-xtheadbs,-xtheadcmo,-xtheadcondmov,-xtheadfmemidx,-xtheadmac,-xtheadmemidx,-xtheadmempair,-xtheadsync,-xtheadvdot,-xventanacondops,-xwchc,-za128rs,-za64rs,-zaamo,-zabha,-zalrsc,-zama16b,-zawrs,-zba,-zbb,-zbc,-zbkb,-zbkc,-zbkx,-zbs,-zca,-zcb,-zcd,-zce,-zcf,-zcmop,-zcmp,-zcmt,-zdinx,-zfa,-zfbfmin,-zfh,-zfhmin,-zfinx,-zhinx,-zhinxmin,-zic64b,-zicbom,-zicbop,-zicboz,-ziccamoa,-ziccif,-zicclsm,-ziccrse,-zicntr,-zicond,-zicsr,-zifencei,-zihintntl,-zihintpause,-zihpm,-zimop,-zk,-zkn,-zknd,-zkne,-zknh,-zkr,-zks,-zksed,-zksh,-zkt,-ztso,-zvbb,-zvbc,-zve32f,-zve32x,-zve64d,-zve64f,-zve64x,-zvfbfmin,-zvfbfwma,-zvfh,-zvfhmin,-zvkb,-zvkg,-zvkn,-zvknc,-zvkned,-zvkng,-zvknha,-zvknhb,-zvks,-zvksc,-zvksed,-zvksg,-zvksh,-zvkt,-zvl1024b,-zvl128b,-zvl16384b,-zvl2048b,-zvl256b,-zvl32768b,-zvl32b,-zvl4096b,-zvl512b,-zvl64b,-zvl65536b,-zvl8192b" }
attributes #1 = { nofree nosync nounwind memory(readwrite, inaccessiblemem: none) "no-builtins" "no-trapping-math"="true" "stack-protector-buffer-size"="8" "target-cpu"="generic-rv64" "target-features"="+64bit,+m,+relax,+zmmul,-a,-b,-c,-d,-e,-experimental-smmpm,-experimental-smnpm,-experimental-ssnpm,-experimental-sspm,-experimental-ssqosid,-experimental-supm,-experimental-zacas,-experimental-zalasr,-experimental-zicfilp,-experimental-zicfiss,-f,-h,-shcounterenw,-shgatpa,-shtvala,-shvsatpa,-shvstvala,-shvstvecd,-smaia,-smcdeleg,-smcsrind,-smepmp,-smstateen,-ssaia,-ssccfg,-ssccptr,-sscofpmf,-sscounterenw,-sscsrind,-ssstateen,-ssstrict,-sstc,-sstvala,-sstvecd,-ssu64xl,-svade,-svadu,-svbare,-svinval,-svnapot,-svpbmt,-v,-xcvalu,-xcvbi,-xcvbitmanip,-xcvelw,-xcvmac,-xcvmem,-xcvsimd,-xsfcease,-xsfvcp,-xsfvfnrclipxfqf,-xsfvfwmaccqqq,-xsfvqmaccdod,-xsfvqmaccqoq,-xsifivecdiscarddlone,-xsifivecflushdlone,-xtheadba,-xtheadbb,-xtheadbs,-xtheadcmo,-xtheadcondmov,-xtheadfmemidx,-xtheadmac,-xtheadmemidx,-xtheadmempair,-xtheadsync,-xtheadvdot,-xventanacondops,-xwchc,-za128rs,-za64rs,-zaamo,-zabha,-zalrsc,-zama16b,-zawrs,-zba,-zbb,-zbc,-zbkb,-zbkc,-zbkx,-zbs,-zca,-zcb,-zcd,-zce,-zcf,-zcmop,-zcmp,-zcmt,-zdinx,-zfa,-zfbfmin,-zfh,-zfhmin,-zfinx,-zhinx,-zhinxmin,-zic64b,-zicbom,-zicbop,-zicboz,-ziccamoa,-ziccif,-zicclsm,-ziccrse,-zicntr,-zicond,-zicsr,-zifencei,-zihintntl,-zihintpause,-zihpm,-zimop,-zk,-zkn,-zknd,-zkne,-zknh,-zkr,-zks,-zksed,-zksh,-zkt,-ztso,-zvbb,-zvbc,-zve32f,-zve32x,-zve64d,-zve64f,-zve64x,-zvfbfmin,-zvfbfwma,-zvfh,-zvfhmin,-zvkb,-zvkg,-zvkn,-zvknc,-zvkned,-zvkng,-zvknha,-zvknhb,-zvks,-zvksc,-zvksed,-zvksg,-zvksh,-zvkt,-zvl1024b,-zvl128b,-zvl16384b,-zvl2048b,-zvl256b,-zvl32768b,-zvl32b,-zvl4096b,-zvl512b,-zvl64b,-zvl65536b,-zvl8192b" }
attributes #2 = { nofree nosync nounwind memory(readwrite, argmem: none, inaccessiblemem: none) "no-builtins" "no-trapping-math"="true" "stack-protector-buffer-size"="8" "target-cpu"="generic-rv64" "target-features"="+64bit,+m,+relax,+zmmul,-a,-b,-c,-d,-e,-experimental-smmpm,-experimental-smnpm,-experimental-ssnpm,-experimental-sspm,-experimental-ssqosid,-experimental-supm,-experimental-zacas,-experimental-zalasr,-experimental-zicfilp,-experimental-zicfiss,-f,-h,-shcounterenw,-shgatpa,-shtvala,-shvsatpa,-shvstvala,-shvstvecd,-smaia,-smcdeleg,-smcsrind,-smepmp,-smstateen,-ssaia,-ssccfg,-ssccptr,-sscofpmf,-sscounterenw,-sscsrind,-ssstateen,-ssstrict,-sstc,-sstvala,-sstvecd,-ssu64xl,-svade,-svadu,-svbare,-svinval,-svnapot,-svpbmt,-v,-xcvalu,-xcvbi,-xcvbitmanip,-xcvelw,-xcvmac,-xcvmem,-xcvsimd,-xsfcease,-xsfvcp,-xsfvfnrclipxfqf,-xsfvfwmaccqqq,-xsfvqmaccdod,-xsfvqmaccqoq,-xsifivecdiscarddlone,-xsifivecflushdlone,-xtheadba,-xtheadbb,-xtheadbs,-xtheadcmo,-xtheadcondmov,-xtheadfmemidx,-xtheadmac,-xtheadmemidx,-xtheadmempair,-xtheadsync,-xtheadvdot,-xventanacondops,-xwchc,-za128rs,-za64rs,-zaamo,-zabha,-zalrsc,-zama16b,-zawrs,-zba,-zbb,-zbc,-zbkb,-zbkc,-zbkx,-zbs,-zca,-zcb,-zcd,-zce,-zcf,-zcmop,-zcmp,-zcmt,-zdinx,-zfa,-zfbfmin,-zfh,-zfhmin,-zfinx,-zhinx,-zhinxmin,-zic64b,-zicbom,-zicbop,-zicboz,-ziccamoa,-ziccif,-zicclsm,-ziccrse,-zicntr,-zicond,-zicsr,-zifencei,-zihintntl,-zihintpause,-zihpm,-zimop,-zk,-zkn,-zknd,-zkne,-zknh,-zkr,-zks,-zksed,-zksh,-zkt,-ztso,-zvbb,-zvbc,-zve32f,-zve32x,-zve64d,-zve64f,-zve64x,-zvfbfmin,-zvfbfwma,-zvfh,-zvfhmin,-zvkb,-zvkg,-zvkn,-zvknc,-zvkned,-zvkng,-zvknha,-zvknhb,-zvks,-zvksc,-zvksed,-zvksg,-zvksh,-zvkt,-zvl1024b,-zvl128b,-zvl16384b,-zvl2048b,-zvl256b,-zvl32768b,-zvl32b,-zvl4096b,-zvl512b,-zvl64b,-zvl65536b,-zvl8192b" }
attributes #3 = { mustprogress nocallback nofree nounwind willreturn memory(argmem: readwrite) }
attributes #4 = { nobuiltin "no-builtins" }

!llvm.module.flags = !{!0, !1, !2, !4, !5, !6}
!llvm.ident = !{!7}

!0 = !{i32 1, !"wchar_size", i32 4}
!1 = !{i32 1, !"target-abi", !"lp64"}
!2 = !{i32 6, !"riscv-isa", !3}
!3 = !{!"rv64i2p1_m2p0_zmmul1p0"}
!4 = !{i32 8, !"PIC Level", i32 2}
!5 = !{i32 7, !"PIE Level", i32 2}
!6 = !{i32 8, !"SmallDataLimit", i32 8}
!7 = !{!"Debian clang version 19.1.7 (3~deb12u1)"}
!8 = !{!9, !9, i64 0}
!9 = !{!"int", !10, i64 0}
!10 = !{!"omnipotent char", !11, i64 0}
!11 = !{!"Simple C/C++ TBAA"}
!12 = distinct !{!12, !13, !14}
!13 = !{!"llvm.loop.mustprogress"}
!14 = !{!"llvm.loop.unroll.disable"}
!15 = distinct !{!15, !13, !14}
!16 = distinct !{!16, !13, !14}
!17 = distinct !{!17, !13, !14}
!18 = distinct !{!18, !13, !14}
!19 = distinct !{!19, !13, !14}
!20 = distinct !{!20, !13, !14}
!21 = distinct !{!21, !13, !14}
!22 = distinct !{!22, !13, !14}
!23 = distinct !{!23, !13, !14}
