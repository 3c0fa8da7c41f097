; ModuleID = 'structs.c'
source_filename = "structs.c"
target datalayout = "e-m:e-p:64:64-i64:64-i128:128-n32:64-S128"
target triple = "riscv64-unknown-linux-gnu"

%struct.box = type { %struct.point, %struct.point, i8, i64 }
%struct.point = type { i16, i16 }
%struct.tight = type <{ i8, i32, i16 }>
%struct.flags = type { i32 }
%union.either = type { i32 }

@boxes = internal global [3 x %struct.box] [%struct.box { %struct.point zeroinitializer, %struct.point { i16 3, i16 4 }, i8 7, i64 100 }, %struct.box { %struct.point { i16 -2, i16 -2 }, %struct.point { i16 2, i16 2 }, i8 -56, i64 -5 }, %struct.box { %struct.point { i16 5, i16 5 }, %struct.point { i16 5, i16 9 }, i8 0, i64 1099511627776 }], align 8
@tights = internal global [4 x %struct.tight] zeroinitializer, align 1

; Function Attrs: noinline nounwind optnone
define dso_local signext i32 @area_of(i32 noundef signext %0) #0 {
  %2 = alloca i32, align 4
  store i32 %0, ptr %2, align 4
  %3 = load i32, ptr %2, align 4
  %4 = urem i32 %3, 3
  %5 = zext i32 %4 to i64
  %6 = getelementptr inbounds [3 x %struct.box], ptr @boxes, i64 0, i64 %5
  %7 = call signext i32 @area(ptr noundef %6) #3
  ret i32 %7
}

; Function Attrs: noinline nounwind optnone
define internal signext i32 @area(ptr noundef %0) #0 {
  %2 = alloca ptr, align 8
  store ptr %0, ptr %2, align 8
  %3 = load ptr, ptr %2, align 8
  %4 = getelementptr inbounds %struct.box, ptr %3, i32 0, i32 1
  %5 = getelementptr inbounds %struct.point, ptr %4, i32 0, i32 0
  %6 = load i16, ptr %5, align 4
  %7 = sext i16 %6 to i32
  %8 = load ptr, ptr %2, align 8
  %9 = getelementptr inbounds %struct.box, ptr %8, i32 0, i32 0
  %10 = getelementptr inbounds %struct.point, ptr %9, i32 0, i32 0
  %11 = load i16, ptr %10, align 8
  %12 = sext i16 %11 to i32
  %13 = sub nsw i32 %7, %12
  %14 = load ptr, ptr %2, align 8
  %15 = getelementptr inbounds %struct.box, ptr %14, i32 0, i32 1
  %16 = getelementptr inbounds %struct.point, ptr %15, i32 0, i32 1
  %17 = load i16, ptr %16, align 2
  %18 = sext i16 %17 to i32
  %19 = load ptr, ptr %2, align 8
  %20 = getelementptr inbounds %struct.box, ptr %19, i32 0, i32 0
  %21 = getelementptr inbounds %struct.point, ptr %20, i32 0, i32 1
  %22 = load i16, ptr %21, align 2
  %23 = sext i16 %22 to i32
  %24 = sub nsw i32 %18, %23
  %25 = mul nsw i32 %13, %24
  ret i32 %25
}

; Function Attrs: noinline nounwind optnone
define dso_local i64 @weight() #0 {
  %1 = alloca i64, align 8
  %2 = alloca ptr, align 8
  store i64 0, ptr %1, align 8
  store ptr @boxes, ptr %2, align 8
  br label %3

3:                                                ; preds = %17, %0
  %4 = load ptr, ptr %2, align 8
  %5 = icmp ult ptr %4, getelementptr inbounds (%struct.box, ptr @boxes, i64 3)
  br i1 %5, label %6, label %20

6:                                                ; preds = %3
  %7 = load ptr, ptr %2, align 8
  %8 = getelementptr inbounds %struct.box, ptr %7, i32 0, i32 3
  %9 = load i64, ptr %8, align 8
  %10 = load ptr, ptr %2, align 8
  %11 = getelementptr inbounds %struct.box, ptr %10, i32 0, i32 2
  %12 = load i8, ptr %11, align 8
  %13 = zext i8 %12 to i64
  %14 = add nsw i64 %9, %13
  %15 = load i64, ptr %1, align 8
  %16 = add nsw i64 %15, %14
  store i64 %16, ptr %1, align 8
  br label %17

17:                                               ; preds = %6
  %18 = load ptr, ptr %2, align 8
  %19 = getelementptr inbounds %struct.box, ptr %18, i32 1
  store ptr %19, ptr %2, align 8
  br label %3, !llvm.loop !9

20:                                               ; preds = %3
  %21 = load i64, ptr %1, align 8
  ret i64 %21
}

; Function Attrs: noinline nounwind optnone
define dso_local signext i32 @joined_area(i32 noundef signext %0, i32 noundef signext %1) #0 {
  %3 = alloca i32, align 4
  %4 = alloca i32, align 4
  %5 = alloca %struct.box, align 8
  store i32 %0, ptr %3, align 4
  store i32 %1, ptr %4, align 4
  %6 = load i32, ptr %3, align 4
  %7 = urem i32 %6, 3
  %8 = zext i32 %7 to i64
  %9 = getelementptr inbounds [3 x %struct.box], ptr @boxes, i64 0, i64 %8
  %10 = load i32, ptr %4, align 4
  %11 = urem i32 %10, 3
  %12 = zext i32 %11 to i64
  %13 = getelementptr inbounds [3 x %struct.box], ptr @boxes, i64 0, i64 %12
  call void @joined(ptr noundef %9, ptr noundef %13, ptr noundef %5) #3
  %14 = call signext i32 @area(ptr noundef %5) #3
  ret i32 %14
}

; Function Attrs: noinline nounwind optnone
define internal void @joined(ptr noundef %0, ptr noundef %1, ptr noundef %2) #0 {
  %4 = alloca ptr, align 8
  %5 = alloca ptr, align 8
  %6 = alloca ptr, align 8
  store ptr %0, ptr %4, align 8
  store ptr %1, ptr %5, align 8
  store ptr %2, ptr %6, align 8
  %7 = load ptr, ptr %6, align 8
  %8 = load ptr, ptr %4, align 8
  call void @llvm.memcpy.p0.p0.i64(ptr align 8 %7, ptr align 8 %8, i64 24, i1 false)
  %9 = load ptr, ptr %5, align 8
  %10 = getelementptr inbounds %struct.box, ptr %9, i32 0, i32 0
  %11 = getelementptr inbounds %struct.point, ptr %10, i32 0, i32 0
  %12 = load i16, ptr %11, align 8
  %13 = sext i16 %12 to i32
  %14 = load ptr, ptr %6, align 8
  %15 = getelementptr inbounds %struct.box, ptr %14, i32 0, i32 0
  %16 = getelementptr inbounds %struct.point, ptr %15, i32 0, i32 0
  %17 = load i16, ptr %16, align 8
  %18 = sext i16 %17 to i32
  %19 = icmp slt i32 %13, %18
  br i1 %19, label %20, label %28

20:                                               ; preds = %3
  %21 = load ptr, ptr %5, align 8
  %22 = getelementptr inbounds %struct.box, ptr %21, i32 0, i32 0
  %23 = getelementptr inbounds %struct.point, ptr %22, i32 0, i32 0
  %24 = load i16, ptr %23, align 8
  %25 = load ptr, ptr %6, align 8
  %26 = getelementptr inbounds %struct.box, ptr %25, i32 0, i32 0
  %27 = getelementptr inbounds %struct.point, ptr %26, i32 0, i32 0
  store i16 %24, ptr %27, align 8
  br label %28

28:                                               ; preds = %20, %3
  %29 = load ptr, ptr %5, align 8
  %30 = getelementptr inbounds %struct.box, ptr %29, i32 0, i32 0
  %31 = getelementptr inbounds %struct.point, ptr %30, i32 0, i32 1
  %32 = load i16, ptr %31, align 2
  %33 = sext i16 %32 to i32
  %34 = load ptr, ptr %6, align 8
  %35 = getelementptr inbounds %struct.box, ptr %34, i32 0, i32 0
  %36 = getelementptr inbounds %struct.point, ptr %35, i32 0, i32 1
  %37 = load i16, ptr %36, align 2
  %38 = sext i16 %37 to i32
  %39 = icmp slt i32 %33, %38
  br i1 %39, label %40, label %48

40:                                               ; preds = %28
  %41 = load ptr, ptr %5, align 8
  %42 = getelementptr inbounds %struct.box, ptr %41, i32 0, i32 0
  %43 = getelementptr inbounds %struct.point, ptr %42, i32 0, i32 1
  %44 = load i16, ptr %43, align 2
  %45 = load ptr, ptr %6, align 8
  %46 = getelementptr inbounds %struct.box, ptr %45, i32 0, i32 0
  %47 = getelementptr inbounds %struct.point, ptr %46, i32 0, i32 1
  store i16 %44, ptr %47, align 2
  br label %48

48:                                               ; preds = %40, %28
  %49 = load ptr, ptr %5, align 8
  %50 = getelementptr inbounds %struct.box, ptr %49, i32 0, i32 1
  %51 = getelementptr inbounds %struct.point, ptr %50, i32 0, i32 0
  %52 = load i16, ptr %51, align 4
  %53 = sext i16 %52 to i32
  %54 = load ptr, ptr %6, align 8
  %55 = getelementptr inbounds %struct.box, ptr %54, i32 0, i32 1
  %56 = getelementptr inbounds %struct.point, ptr %55, i32 0, i32 0
  %57 = load i16, ptr %56, align 4
  %58 = sext i16 %57 to i32
  %59 = icmp sgt i32 %53, %58
  br i1 %59, label %60, label %68

60:                                               ; preds = %48
  %61 = load ptr, ptr %5, align 8
  %62 = getelementptr inbounds %struct.box, ptr %61, i32 0, i32 1
  %63 = getelementptr inbounds %struct.point, ptr %62, i32 0, i32 0
  %64 = load i16, ptr %63, align 4
  %65 = load ptr, ptr %6, align 8
  %66 = getelementptr inbounds %struct.box, ptr %65, i32 0, i32 1
  %67 = getelementptr inbounds %struct.point, ptr %66, i32 0, i32 0
  store i16 %64, ptr %67, align 4
  br label %68

68:                                               ; preds = %60, %48
  %69 = load ptr, ptr %5, align 8
  %70 = getelementptr inbounds %struct.box, ptr %69, i32 0, i32 1
  %71 = getelementptr inbounds %struct.point, ptr %70, i32 0, i32 1
  %72 = load i16, ptr %71, align 2
  %73 = sext i16 %72 to i32
  %74 = load ptr, ptr %6, align 8
  %75 = getelementptr inbounds %struct.box, ptr %74, i32 0, i32 1
  %76 = getelementptr inbounds %struct.point, ptr %75, i32 0, i32 1
  %77 = load i16, ptr %76, align 2
  %78 = sext i16 %77 to i32
  %79 = icmp sgt i32 %73, %78
  br i1 %79, label %80, label %88

80:                                               ; preds = %68
  %81 = load ptr, ptr %5, align 8
  %82 = getelementptr inbounds %struct.box, ptr %81, i32 0, i32 1
  %83 = getelementptr inbounds %struct.point, ptr %82, i32 0, i32 1
  %84 = load i16, ptr %83, align 2
  %85 = load ptr, ptr %6, align 8
  %86 = getelementptr inbounds %struct.box, ptr %85, i32 0, i32 1
  %87 = getelementptr inbounds %struct.point, ptr %86, i32 0, i32 1
  store i16 %84, ptr %87, align 2
  br label %88

88:                                               ; preds = %80, %68
  ret void
}

; Function Attrs: noinline nounwind optnone
define dso_local signext i32 @packed(i32 noundef signext %0) #0 {
  %2 = alloca i32, align 4
  %3 = alloca i32, align 4
  %4 = alloca i32, align 4
  %5 = alloca i32, align 4
  store i32 %0, ptr %2, align 4
  store i32 0, ptr %3, align 4
  store i32 0, ptr %4, align 4
  br label %6

6:                                                ; preds = %34, %1
  %7 = load i32, ptr %4, align 4
  %8 = icmp slt i32 %7, 4
  br i1 %8, label %9, label %37

9:                                                ; preds = %6
  %10 = load i32, ptr %2, align 4
  %11 = load i32, ptr %4, align 4
  %12 = add nsw i32 %10, %11
  %13 = trunc i32 %12 to i8
  %14 = load i32, ptr %4, align 4
  %15 = sext i32 %14 to i64
  %16 = getelementptr inbounds [4 x %struct.tight], ptr @tights, i64 0, i64 %15
  %17 = getelementptr inbounds %struct.tight, ptr %16, i32 0, i32 0
  store i8 %13, ptr %17, align 1
  %18 = load i32, ptr %2, align 4
  %19 = load i32, ptr %4, align 4
  %20 = add nsw i32 %19, 1
  %21 = mul nsw i32 %18, %20
  %22 = load i32, ptr %4, align 4
  %23 = sext i32 %22 to i64
  %24 = getelementptr inbounds [4 x %struct.tight], ptr @tights, i64 0, i64 %23
  %25 = getelementptr inbounds %struct.tight, ptr %24, i32 0, i32 1
  store i32 %21, ptr %25, align 1
  %26 = load i32, ptr %2, align 4
  %27 = load i32, ptr %4, align 4
  %28 = ashr i32 %26, %27
  %29 = trunc i32 %28 to i16
  %30 = load i32, ptr %4, align 4
  %31 = sext i32 %30 to i64
  %32 = getelementptr inbounds [4 x %struct.tight], ptr @tights, i64 0, i64 %31
  %33 = getelementptr inbounds %struct.tight, ptr %32, i32 0, i32 2
  store i16 %29, ptr %33, align 1
  br label %34

34:                                               ; preds = %9
  %35 = load i32, ptr %4, align 4
  %36 = add nsw i32 %35, 1
  store i32 %36, ptr %4, align 4
  br label %6, !llvm.loop !11

37:                                               ; preds = %6
  store i32 0, ptr %5, align 4
  br label %38

38:                                               ; preds = %64, %37
  %39 = load i32, ptr %5, align 4
  %40 = icmp slt i32 %39, 4
  br i1 %40, label %41, label %67

41:                                               ; preds = %38
  %42 = load i32, ptr %5, align 4
  %43 = sext i32 %42 to i64
  %44 = getelementptr inbounds [4 x %struct.tight], ptr @tights, i64 0, i64 %43
  %45 = getelementptr inbounds %struct.tight, ptr %44, i32 0, i32 0
  %46 = load i8, ptr %45, align 1
  %47 = zext i8 %46 to i32
  %48 = load i32, ptr %5, align 4
  %49 = sext i32 %48 to i64
  %50 = getelementptr inbounds [4 x %struct.tight], ptr @tights, i64 0, i64 %49
  %51 = getelementptr inbounds %struct.tight, ptr %50, i32 0, i32 1
  %52 = load i32, ptr %51, align 1
  %53 = mul nsw i32 %52, 3
  %54 = add nsw i32 %47, %53
  %55 = load i32, ptr %5, align 4
  %56 = sext i32 %55 to i64
  %57 = getelementptr inbounds [4 x %struct.tight], ptr @tights, i64 0, i64 %56
  %58 = getelementptr inbounds %struct.tight, ptr %57, i32 0, i32 2
  %59 = load i16, ptr %58, align 1
  %60 = sext i16 %59 to i32
  %61 = sub nsw i32 %54, %60
  %62 = load i32, ptr %3, align 4
  %63 = add nsw i32 %62, %61
  store i32 %63, ptr %3, align 4
  br label %64

64:                                               ; preds = %41
  %65 = load i32, ptr %5, align 4
  %66 = add nsw i32 %65, 1
  store i32 %66, ptr %5, align 4
  br label %38, !llvm.loop !12

67:                                               ; preds = %38
  %68 = load i32, ptr %3, align 4
  %69 = add nsw i32 %68, 7
  ret i32 %69
}

; Function Attrs: noinline nounwind optnone
define dso_local signext i32 @fields(i32 noundef signext %0, i32 noundef signext %1, i32 noundef signext %2, i32 noundef signext %3) #0 {
  %5 = alloca i32, align 4
  %6 = alloca i32, align 4
  %7 = alloca i32, align 4
  %8 = alloca i32, align 4
  %9 = alloca %struct.flags, align 4
  store i32 %0, ptr %5, align 4
  store i32 %1, ptr %6, align 4
  store i32 %2, ptr %7, align 4
  store i32 %3, ptr %8, align 4
  call void @llvm.memset.p0.i64(ptr align 4 %9, i8 0, i64 4, i1 false)
  %10 = load i32, ptr %5, align 4
  %11 = load i32, ptr %9, align 4
  %12 = and i32 %10, 7
  %13 = and i32 %11, -8
  %14 = or i32 %13, %12
  store i32 %14, ptr %9, align 4
  %15 = load i32, ptr %6, align 4
  %16 = load i32, ptr %9, align 4
  %17 = and i32 %15, 31
  %18 = shl i32 %17, 3
  %19 = and i32 %16, -249
  %20 = or i32 %19, %18
  store i32 %20, ptr %9, align 4
  %21 = load i32, ptr %7, align 4
  %22 = load i32, ptr %9, align 4
  %23 = and i32 %21, 2047
  %24 = shl i32 %23, 8
  %25 = and i32 %22, -524033
  %26 = or i32 %25, %24
  store i32 %26, ptr %9, align 4
  %27 = load i32, ptr %8, align 4
  %28 = load i32, ptr %9, align 4
  %29 = and i32 %27, 63
  %30 = shl i32 %29, 19
  %31 = and i32 %28, -33030145
  %32 = or i32 %31, %30
  store i32 %32, ptr %9, align 4
  %33 = shl i32 %29, 26
  %34 = ashr i32 %33, 26
  %35 = load i32, ptr %9, align 4
  %36 = and i32 %35, 7
  %37 = load i32, ptr %9, align 4
  %38 = lshr i32 %37, 3
  %39 = and i32 %38, 31
  %40 = mul nsw i32 %39, 10
  %41 = add nsw i32 %36, %40
  %42 = load i32, ptr %9, align 4
  %43 = lshr i32 %42, 8
  %44 = and i32 %43, 2047
  %45 = mul nsw i32 %44, 1000
  %46 = add nsw i32 %41, %45
  %47 = load i32, ptr %9, align 4
  %48 = shl i32 %47, 7
  %49 = ashr i32 %48, 26
  %50 = add nsw i32 %46, %49
  ret i32 %50
}

; Function Attrs: nocallback nofree nounwind willreturn memory(argmem: write)
declare void @llvm.memset.p0.i64(ptr nocapture writeonly, i8, i64, i1 immarg) #1

; Function Attrs: noinline nounwind optnone
define dso_local signext i32 @reordered(i32 noundef signext %0) #0 {
  %2 = alloca i32, align 4
  %3 = alloca %union.either, align 4
  %4 = alloca i32, align 4
  %5 = alloca i8, align 1
  store i32 %0, ptr %2, align 4
  %6 = load i32, ptr %2, align 4
  store i32 %6, ptr %3, align 4
  store i32 0, ptr %4, align 4
  br label %7

7:                                                ; preds = %28, %1
  %8 = load i32, ptr %4, align 4
  %9 = icmp slt i32 %8, 2
  br i1 %9, label %10, label %31

10:                                               ; preds = %7
  %11 = load i32, ptr %4, align 4
  %12 = sext i32 %11 to i64
  %13 = getelementptr inbounds [4 x i8], ptr %3, i64 0, i64 %12
  %14 = load i8, ptr %13, align 1
  store i8 %14, ptr %5, align 1
  %15 = load i32, ptr %4, align 4
  %16 = sub nsw i32 3, %15
  %17 = sext i32 %16 to i64
  %18 = getelementptr inbounds [4 x i8], ptr %3, i64 0, i64 %17
  %19 = load i8, ptr %18, align 1
  %20 = load i32, ptr %4, align 4
  %21 = sext i32 %20 to i64
  %22 = getelementptr inbounds [4 x i8], ptr %3, i64 0, i64 %21
  store i8 %19, ptr %22, align 1
  %23 = load i8, ptr %5, align 1
  %24 = load i32, ptr %4, align 4
  %25 = sub nsw i32 3, %24
  %26 = sext i32 %25 to i64
  %27 = getelementptr inbounds [4 x i8], ptr %3, i64 0, i64 %26
  store i8 %23, ptr %27, align 1
  br label %28

28:                                               ; preds = %10
  %29 = load i32, ptr %4, align 4
  %30 = add nsw i32 %29, 1
  store i32 %30, ptr %4, align 4
  br label %7, !llvm.loop !13

31:                                               ; preds = %7
  %32 = load i32, ptr %3, align 4
  ret i32 %32
}

; Function Attrs: noinline nounwind optnone
define dso_local signext i32 @moved(i32 noundef signext %0, i32 noundef signext %1) #0 {
  %3 = alloca i32, align 4
  %4 = alloca i32, align 4
  %5 = alloca %struct.box, align 8
  store i32 %0, ptr %3, align 4
  store i32 %1, ptr %4, align 4
  %6 = load i32, ptr %3, align 4
  %7 = urem i32 %6, 3
  %8 = zext i32 %7 to i64
  %9 = getelementptr inbounds [3 x %struct.box], ptr @boxes, i64 0, i64 %8
  call void @llvm.memcpy.p0.p0.i64(ptr align 8 %5, ptr align 8 %9, i64 24, i1 false)
  %10 = getelementptr inbounds %struct.box, ptr %5, i32 0, i32 0
  %11 = getelementptr inbounds %struct.point, ptr %10, i32 0, i32 0
  %12 = load i16, ptr %11, align 8
  %13 = sext i16 %12 to i32
  %14 = load i32, ptr %4, align 4
  %15 = add nsw i32 %13, %14
  %16 = trunc i32 %15 to i16
  %17 = getelementptr inbounds %struct.box, ptr %5, i32 0, i32 0
  %18 = getelementptr inbounds %struct.point, ptr %17, i32 0, i32 0
  store i16 %16, ptr %18, align 8
  %19 = call signext i32 @area(ptr noundef %5) #3
  %20 = load i32, ptr %3, align 4
  %21 = urem i32 %20, 3
  %22 = zext i32 %21 to i64
  %23 = getelementptr inbounds [3 x %struct.box], ptr @boxes, i64 0, i64 %22
  %24 = call signext i32 @area(ptr noundef %23) #3
  %25 = sub nsw i32 %19, %24
  ret i32 %25
}

; Function Attrs: nocallback nofree nounwind willreturn memory(argmem: readwrite)
declare void @llvm.memcpy.p0.p0.i64(ptr noalias nocapture writeonly, ptr noalias nocapture readonly, i64, i1 immarg) #2

attributes #0 = { noinline nounwind optnone "frame-pointer"="all" "no-builtins" "no-trapping-math"="true" "stack-protector-buffer-size"="8" "target-cpu"="generic-rv64" "target-features"="+64bit,+m,+relax,+zmmul,-a,-b,-c,-d,-e,-experimental-smmpm,-experimental-smnpm,-experimental-ssnpm,-experimental-sspm,-experimental-ssqosid,-experimental-supm,-experimental-zacas,-experimental-zalasr,-experimental-zicfilp,-experimental-zicfiss,-f,-h,-shcounterenw,-shgatpa,-shtvala,-shvsatpa,-shvstvala,-shvstvecd,-smaia,-smcdeleg,-smcsrind,-smepmp,-smstateen,-ssaia,-ssccfg,-ssccptr,-sscofpmf,-sscounterenw,-sscsrind,-ssstateen,-ssstrict,-sstc,-sstvala,-sstvecd,-ssu64xl,-svade,-svadu,-svbare,-svinval,-svnapot,-svpbmt,-v,-xcvalu,-xcvbi,-xcvbitmanip,-xcvelw,-xcvmac,-xcvmem,-xcvsimd,-xsfcease,-xsfvcp,-xsfvfnrclipxfqf,-xsfvfwmaccqqq,-xsfvqmaccdod,-xsfvqmaccqoq,-xsifivecdiscarddlone,-xsifivecflushdlone,-xtheadba,-xtheadbb,-xtheadbs,-xtheadcmo,-xtheadcondmov,-xtheadfmemidx,-xtheadmac,-xtheadmemidx,-xtheadmempair,-xtheadsync,-xtheadvdot,-xventanacondops,-xwchc,-za128rs,-za64rs,-zaamo,-zabha,-zalrsc,-zama16b,-zawrs,-zba,-zbb,-zbc,-zbkb,-zbkc,-zbkx,-zbs,-zca,-zcb,-zcd,-zce,-zcf,-zcmop,-zcmp,-zcmt,-zdinx,-zfa,-zfbfmin,-zfh,-zfhmin,-zfinx,-zhinx,-zhinxmin,-zic64b,-zicbom,-zicbop,-zicboz,-ziccamoa,-ziccif,-zicclsm,-ziccrse,-zicntr,-zicond,-zicsr,-zifencei,-zihintntl,-zihintpause,-zihpm,-zimop,-zk,-zkn,-zknd,-zkne,-zknh,-zkr,-zks,-zksed,-zksh,-zkt,-ztso,-zvbb,-zvbc,-zve32f,-zve32x,-zve64d,-zve64f,-zve64x,-zvfbfmin,-zvfbfwma,-zvfh,-zvfhmin,-zvkb,-zvkg,-zvkn,-zvknc,-zvkned,-zvkng,-zvknha,-zvknhb,-zvks,-zvksc,-zvksed,-zvksg,-zvksh,-zvkt,-zvl1024b,-zvl128b,-zvl16384b,-zvl2048b,-zvl256b,-zvl32768b,-zvl32b,-zvl4096b,-zvl512b,-zvl64b,-zvl65536b,-zvl8192b" }
attributes #1 = { nocallback nofree nounwind willreturn memory(argmem: write) }
attributes #2 = { nocallback nofree nounwind willreturn memory(argmem: readwrite) }
attributes #3 = { nobuiltin "no-builtins" }

!llvm.module.flags = !{!0, !1, !2, !4, !5, !6, !7}
!llvm.ident = !{!8}

!0 = !{i32 1, !"wchar_size", i32 4}
!1 = !{i32 1, !"target-abi", !"lp64"}
!2 = !{i32 6, !"riscv-isa", !3}
!3 = !{!"rv64i2p1_m2p0_zmmul1p0"}
!4 = !{i32 8, !"PIC Level", i32 2}
!5 = !{i32 7, !"PIE Level", i32 2}
!6 = !{i32 7, !"frame-pointer", i32 2}
!7 = !{i32 8, !"SmallDataLimit", i32 8}
!8 = !{!"Debian clang version 19.1.7 (3~deb12u1)"}
!9 = distinct !{!9, !10}
!10 = !{!"llvm.loop.mustprogress"}
!11 = distinct !{!11, !10}
!12 = distinct !{!12, !10}
!13 = distinct !{!13, !10}
