; ModuleID = 'base64.c'
source_filename = "base64.c"
target datalayout = "e-m:e-p:64:64-i64:64-i128:128-n32:64-S128"
target triple = "riscv64-unknown-linux-gnu"

@coded = internal global [48 x i8] zeroinitializer, align 1
@in = internal global [32 x i8] zeroinitializer, align 1
@back = internal global [32 x i8] zeroinitializer, align 1
@alphabet = internal constant [65 x i8] c"ABCDEFGHIJKLMNOPQRSTUVWXYZabcdefghijklmnopqrstuvwxyz0123456789+/\00", align 1

; Function Attrs: noinline nounwind optnone
define dso_local i64 @coded_sum(i32 noundef signext %0, i32 noundef signext %1) #0 {
  %3 = alloca i32, align 4
  %4 = alloca i32, align 4
  %5 = alloca i32, align 4
  %6 = alloca i64, align 8
  %7 = alloca i32, align 4
  store i32 %0, ptr %3, align 4
  store i32 %1, ptr %4, align 4
  %8 = load i32, ptr %3, align 4
  %9 = load i32, ptr %4, align 4
  call void @fill(i32 noundef signext %8, i32 noundef signext %9) #1
  %10 = load i32, ptr %3, align 4
  %11 = call signext i32 @encode(i32 noundef signext %10) #1
  store i32 %11, ptr %5, align 4
  %12 = load i32, ptr %5, align 4
  %13 = sext i32 %12 to i64
  store i64 %13, ptr %6, align 8
  store i32 0, ptr %7, align 4
  br label %14

14:                                               ; preds = %27, %2
  %15 = load i32, ptr %7, align 4
  %16 = load i32, ptr %5, align 4
  %17 = icmp slt i32 %15, %16
  br i1 %17, label %18, label %30

18:                                               ; preds = %14
  %19 = load i64, ptr %6, align 8
  %20 = mul i64 %19, 7
  %21 = load i32, ptr %7, align 4
  %22 = sext i32 %21 to i64
  %23 = getelementptr inbounds [48 x i8], ptr @coded, i64 0, i64 %22
  %24 = load i8, ptr %23, align 1
  %25 = zext i8 %24 to i64
  %26 = add i64 %20, %25
  store i64 %26, ptr %6, align 8
  br label %27

27:                                               ; preds = %18
  %28 = load i32, ptr %7, align 4
  %29 = add nsw i32 %28, 1
  store i32 %29, ptr %7, align 4
  br label %14, !llvm.loop !9

30:                                               ; preds = %14
  %31 = load i64, ptr %6, align 8
  ret i64 %31
}

; Function Attrs: noinline nounwind optnone
define internal void @fill(i32 noundef signext %0, i32 noundef signext %1) #0 {
  %3 = alloca i32, align 4
  %4 = alloca i32, align 4
  %5 = alloca i32, align 4
  store i32 %0, ptr %3, align 4
  store i32 %1, ptr %4, align 4
  store i32 0, ptr %5, align 4
  br label %6

6:                                                ; preds = %20, %2
  %7 = load i32, ptr %5, align 4
  %8 = load i32, ptr %3, align 4
  %9 = icmp slt i32 %7, %8
  br i1 %9, label %10, label %23

10:                                               ; preds = %6
  %11 = load i32, ptr %4, align 4
  %12 = lshr i32 %11, 8
  %13 = trunc i32 %12 to i8
  %14 = load i32, ptr %5, align 4
  %15 = sext i32 %14 to i64
  %16 = getelementptr inbounds [32 x i8], ptr @in, i64 0, i64 %15
  store i8 %13, ptr %16, align 1
  %17 = load i32, ptr %4, align 4
  %18 = mul i32 %17, 69069
  %19 = add i32 %18, 5
  store i32 %19, ptr %4, align 4
  br label %20

20:                                               ; preds = %10
  %21 = load i32, ptr %5, align 4
  %22 = add nsw i32 %21, 1
  store i32 %22, ptr %5, align 4
  br label %6, !llvm.loop !11

23:                                               ; preds = %6
  ret void
}

; Function Attrs: noinline nounwind optnone
define internal signext i32 @encode(i32 noundef signext %0) #0 {
  %2 = alloca i32, align 4
  %3 = alloca i32, align 4
  %4 = alloca i32, align 4
  %5 = alloca i32, align 4
  store i32 %0, ptr %2, align 4
  store i32 0, ptr %3, align 4
  store i32 0, ptr %4, align 4
  br label %6

6:                                                ; preds = %104, %1
  %7 = load i32, ptr %4, align 4
  %8 = load i32, ptr %2, align 4
  %9 = icmp slt i32 %7, %8
  br i1 %9, label %10, label %107

10:                                               ; preds = %6
  %11 = load i32, ptr %4, align 4
  %12 = sext i32 %11 to i64
  %13 = getelementptr inbounds [32 x i8], ptr @in, i64 0, i64 %12
  %14 = load i8, ptr %13, align 1
  %15 = zext i8 %14 to i32
  %16 = shl i32 %15, 16
  store i32 %16, ptr %5, align 4
  %17 = load i32, ptr %4, align 4
  %18 = add nsw i32 %17, 1
  %19 = load i32, ptr %2, align 4
  %20 = icmp slt i32 %18, %19
  br i1 %20, label %21, label %31

21:                                               ; preds = %10
  %22 = load i32, ptr %4, align 4
  %23 = add nsw i32 %22, 1
  %24 = sext i32 %23 to i64
  %25 = getelementptr inbounds [32 x i8], ptr @in, i64 0, i64 %24
  %26 = load i8, ptr %25, align 1
  %27 = zext i8 %26 to i32
  %28 = shl i32 %27, 8
  %29 = load i32, ptr %5, align 4
  %30 = or i32 %29, %28
  store i32 %30, ptr %5, align 4
  br label %31

31:                                               ; preds = %21, %10
  %32 = load i32, ptr %4, align 4
  %33 = add nsw i32 %32, 2
  %34 = load i32, ptr %2, align 4
  %35 = icmp slt i32 %33, %34
  br i1 %35, label %36, label %45

36:                                               ; preds = %31
  %37 = load i32, ptr %4, align 4
  %38 = add nsw i32 %37, 2
  %39 = sext i32 %38 to i64
  %40 = getelementptr inbounds [32 x i8], ptr @in, i64 0, i64 %39
  %41 = load i8, ptr %40, align 1
  %42 = zext i8 %41 to i32
  %43 = load i32, ptr %5, align 4
  %44 = or i32 %43, %42
  store i32 %44, ptr %5, align 4
  br label %45

45:                                               ; preds = %36, %31
  %46 = load i32, ptr %5, align 4
  %47 = lshr i32 %46, 18
  %48 = zext i32 %47 to i64
  %49 = getelementptr inbounds [65 x i8], ptr @alphabet, i64 0, i64 %48
  %50 = load i8, ptr %49, align 1
  %51 = load i32, ptr %3, align 4
  %52 = add nsw i32 %51, 1
  store i32 %52, ptr %3, align 4
  %53 = sext i32 %51 to i64
  %54 = getelementptr inbounds [48 x i8], ptr @coded, i64 0, i64 %53
  store i8 %50, ptr %54, align 1
  %55 = load i32, ptr %5, align 4
  %56 = lshr i32 %55, 12
  %57 = and i32 %56, 63
  %58 = zext i32 %57 to i64
  %59 = getelementptr inbounds [65 x i8], ptr @alphabet, i64 0, i64 %58
  %60 = load i8, ptr %59, align 1
  %61 = load i32, ptr %3, align 4
  %62 = add nsw i32 %61, 1
  store i32 %62, ptr %3, align 4
  %63 = sext i32 %61 to i64
  %64 = getelementptr inbounds [48 x i8], ptr @coded, i64 0, i64 %63
  store i8 %60, ptr %64, align 1
  %65 = load i32, ptr %4, align 4
  %66 = add nsw i32 %65, 1
  %67 = load i32, ptr %2, align 4
  %68 = icmp slt i32 %66, %67
  br i1 %68, label %69, label %77

69:                                               ; preds = %45
  %70 = load i32, ptr %5, align 4
  %71 = lshr i32 %70, 6
  %72 = and i32 %71, 63
  %73 = zext i32 %72 to i64
  %74 = getelementptr inbounds [65 x i8], ptr @alphabet, i64 0, i64 %73
  %75 = load i8, ptr %74, align 1
  %76 = zext i8 %75 to i32
  br label %78

77:                                               ; preds = %45
  br label %78

78:                                               ; preds = %77, %69
  %79 = phi i32 [ %76, %69 ], [ 61, %77 ]
  %80 = trunc i32 %79 to i8
  %81 = load i32, ptr %3, align 4
  %82 = add nsw i32 %81, 1
  store i32 %82, ptr %3, align 4
  %83 = sext i32 %81 to i64
  %84 = getelementptr inbounds [48 x i8], ptr @coded, i64 0, i64 %83
  store i8 %80, ptr %84, align 1
  %85 = load i32, ptr %4, align 4
  %86 = add nsw i32 %85, 2
  %87 = load i32, ptr %2, align 4
  %88 = icmp slt i32 %86, %87
  br i1 %88, label %89, label %96

89:                                               ; preds = %78
  %90 = load i32, ptr %5, align 4
  %91 = and i32 %90, 63
  %92 = zext i32 %91 to i64
  %93 = getelementptr inbounds [65 x i8], ptr @alphabet, i64 0, i64 %92
  %94 = load i8, ptr %93, align 1
  %95 = zext i8 %94 to i32
  br label %97

96:                                               ; preds = %78
  br label %97

97:                                               ; preds = %96, %89
  %98 = phi i32 [ %95, %89 ], [ 61, %96 ]
  %99 = trunc i32 %98 to i8
  %100 = load i32, ptr %3, align 4
  %101 = add nsw i32 %100, 1
  store i32 %101, ptr %3, align 4
  %102 = sext i32 %100 to i64
  %103 = getelementptr inbounds [48 x i8], ptr @coded, i64 0, i64 %102
  store i8 %99, ptr %103, align 1
  br label %104

104:                                              ; preds = %97
  %105 = load i32, ptr %4, align 4
  %106 = add nsw i32 %105, 3
  store i32 %106, ptr %4, align 4
  br label %6, !llvm.loop !12

107:                                              ; preds = %6
  %108 = load i32, ptr %3, align 4
  ret i32 %108
}

; Function Attrs: noinline nounwind optnone
define dso_local signext i32 @comes_back(i32 noundef signext %0, i32 noundef signext %1) #0 {
  %3 = alloca i32, align 4
  %4 = alloca i32, align 4
  %5 = alloca i32, align 4
  %6 = alloca i32, align 4
  store i32 %0, ptr %4, align 4
  store i32 %1, ptr %5, align 4
  %7 = load i32, ptr %4, align 4
  %8 = load i32, ptr %5, align 4
  call void @fill(i32 noundef signext %7, i32 noundef signext %8) #1
  %9 = load i32, ptr %4, align 4
  %10 = call signext i32 @encode(i32 noundef signext %9) #1
  %11 = call signext i32 @decode(i32 noundef signext %10) #1
  %12 = load i32, ptr %4, align 4
  %13 = icmp ne i32 %11, %12
  br i1 %13, label %14, label %15

14:                                               ; preds = %2
  store i32 -1, ptr %3, align 4
  br label %40

15:                                               ; preds = %2
  store i32 0, ptr %6, align 4
  br label %16

16:                                               ; preds = %35, %15
  %17 = load i32, ptr %6, align 4
  %18 = load i32, ptr %4, align 4
  %19 = icmp slt i32 %17, %18
  br i1 %19, label %20, label %38

20:                                               ; preds = %16
  %21 = load i32, ptr %6, align 4
  %22 = sext i32 %21 to i64
  %23 = getelementptr inbounds [32 x i8], ptr @in, i64 0, i64 %22
  %24 = load i8, ptr %23, align 1
  %25 = zext i8 %24 to i32
  %26 = load i32, ptr %6, align 4
  %27 = sext i32 %26 to i64
  %28 = getelementptr inbounds [32 x i8], ptr @back, i64 0, i64 %27
  %29 = load i8, ptr %28, align 1
  %30 = zext i8 %29 to i32
  %31 = icmp ne i32 %25, %30
  br i1 %31, label %32, label %34

32:                                               ; preds = %20
  %33 = load i32, ptr %6, align 4
  store i32 %33, ptr %3, align 4
  br label %40

34:                                               ; preds = %20
  br label %35

35:                                               ; preds = %34
  %36 = load i32, ptr %6, align 4
  %37 = add nsw i32 %36, 1
  store i32 %37, ptr %6, align 4
  br label %16, !llvm.loop !13

38:                                               ; preds = %16
  %39 = load i32, ptr %4, align 4
  store i32 %39, ptr %3, align 4
  br label %40

40:                                               ; preds = %38, %32, %14
  %41 = load i32, ptr %3, align 4
  ret i32 %41
}

; Function Attrs: noinline nounwind optnone
define internal signext i32 @decode(i32 noundef signext %0) #0 {
  %2 = alloca i32, align 4
  %3 = alloca i32, align 4
  %4 = alloca i32, align 4
  %5 = alloca i32, align 4
  %6 = alloca i32, align 4
  %7 = alloca i32, align 4
  %8 = alloca i32, align 4
  store i32 %0, ptr %2, align 4
  store i32 0, ptr %3, align 4
  store i32 0, ptr %4, align 4
  br label %9

9:                                                ; preds = %74, %1
  %10 = load i32, ptr %4, align 4
  %11 = load i32, ptr %2, align 4
  %12 = icmp slt i32 %10, %11
  br i1 %12, label %13, label %77

13:                                               ; preds = %9
  %14 = load i32, ptr %4, align 4
  %15 = sext i32 %14 to i64
  %16 = getelementptr inbounds [48 x i8], ptr @coded, i64 0, i64 %15
  %17 = load i8, ptr %16, align 1
  %18 = call signext i32 @value(i8 noundef zeroext %17) #1
  store i32 %18, ptr %5, align 4
  %19 = load i32, ptr %4, align 4
  %20 = add nsw i32 %19, 1
  %21 = sext i32 %20 to i64
  %22 = getelementptr inbounds [48 x i8], ptr @coded, i64 0, i64 %21
  %23 = load i8, ptr %22, align 1
  %24 = call signext i32 @value(i8 noundef zeroext %23) #1
  store i32 %24, ptr %6, align 4
  %25 = load i32, ptr %4, align 4
  %26 = add nsw i32 %25, 2
  %27 = sext i32 %26 to i64
  %28 = getelementptr inbounds [48 x i8], ptr @coded, i64 0, i64 %27
  %29 = load i8, ptr %28, align 1
  %30 = call signext i32 @value(i8 noundef zeroext %29) #1
  store i32 %30, ptr %7, align 4
  %31 = load i32, ptr %4, align 4
  %32 = add nsw i32 %31, 3
  %33 = sext i32 %32 to i64
  %34 = getelementptr inbounds [48 x i8], ptr @coded, i64 0, i64 %33
  %35 = load i8, ptr %34, align 1
  %36 = call signext i32 @value(i8 noundef zeroext %35) #1
  store i32 %36, ptr %8, align 4
  %37 = load i32, ptr %5, align 4
  %38 = shl i32 %37, 2
  %39 = load i32, ptr %6, align 4
  %40 = ashr i32 %39, 4
  %41 = or i32 %38, %40
  %42 = trunc i32 %41 to i8
  %43 = load i32, ptr %3, align 4
  %44 = add nsw i32 %43, 1
  store i32 %44, ptr %3, align 4
  %45 = sext i32 %43 to i64
  %46 = getelementptr inbounds [32 x i8], ptr @back, i64 0, i64 %45
  store i8 %42, ptr %46, align 1
  %47 = load i32, ptr %7, align 4
  %48 = icmp sge i32 %47, 0
  br i1 %48, label %49, label %60

49:                                               ; preds = %13
  %50 = load i32, ptr %6, align 4
  %51 = shl i32 %50, 4
  %52 = load i32, ptr %7, align 4
  %53 = ashr i32 %52, 2
  %54 = or i32 %51, %53
  %55 = trunc i32 %54 to i8
  %56 = load i32, ptr %3, align 4
  %57 = add nsw i32 %56, 1
  store i32 %57, ptr %3, align 4
  %58 = sext i32 %56 to i64
  %59 = getelementptr inbounds [32 x i8], ptr @back, i64 0, i64 %58
  store i8 %55, ptr %59, align 1
  br label %60

60:                                               ; preds = %49, %13
  %61 = load i32, ptr %8, align 4
  %62 = icmp sge i32 %61, 0
  br i1 %62, label %63, label %73

63:                                               ; preds = %60
  %64 = load i32, ptr %7, align 4
  %65 = shl i32 %64, 6
  %66 = load i32, ptr %8, align 4
  %67 = or i32 %65, %66
  %68 = trunc i32 %67 to i8
  %69 = load i32, ptr %3, align 4
  %70 = add nsw i32 %69, 1
  store i32 %70, ptr %3, align 4
  %71 = sext i32 %69 to i64
  %72 = getelementptr inbounds [32 x i8], ptr @back, i64 0, i64 %71
  store i8 %68, ptr %72, align 1
  br label %73

73:                                               ; preds = %63, %60
  br label %74

74:                                               ; preds = %73
  %75 = load i32, ptr %4, align 4
  %76 = add nsw i32 %75, 4
  store i32 %76, ptr %4, align 4
  br label %9, !llvm.loop !14

77:                                               ; preds = %9
  %78 = load i32, ptr %3, align 4
  ret i32 %78
}

; Function Attrs: noinline nounwind optnone
define internal signext i32 @value(i8 noundef zeroext %0) #0 {
  %2 = alloca i32, align 4
  %3 = alloca i8, align 1
  store i8 %0, ptr %3, align 1
  %4 = load i8, ptr %3, align 1
  %5 = zext i8 %4 to i32
  %6 = icmp sge i32 %5, 65
  br i1 %6, label %7, label %15

7:                                                ; preds = %1
  %8 = load i8, ptr %3, align 1
  %9 = zext i8 %8 to i32
  %10 = icmp sle i32 %9, 90
  br i1 %10, label %11, label %15

11:                                               ; preds = %7
  %12 = load i8, ptr %3, align 1
  %13 = zext i8 %12 to i32
  %14 = sub nsw i32 %13, 65
  store i32 %14, ptr %2, align 4
  br label %47

15:                                               ; preds = %7, %1
  %16 = load i8, ptr %3, align 1
  %17 = zext i8 %16 to i32
  %18 = icmp sge i32 %17, 97
  br i1 %18, label %19, label %28

19:                                               ; preds = %15
  %20 = load i8, ptr %3, align 1
  %21 = zext i8 %20 to i32
  %22 = icmp sle i32 %21, 122
  br i1 %22, label %23, label %28

23:                                               ; preds = %19
  %24 = load i8, ptr %3, align 1
  %25 = zext i8 %24 to i32
  %26 = sub nsw i32 %25, 97
  %27 = add nsw i32 %26, 26
  store i32 %27, ptr %2, align 4
  br label %47

28:                                               ; preds = %19, %15
  %29 = load i8, ptr %3, align 1
  %30 = zext i8 %29 to i32
  %31 = icmp sge i32 %30, 48
  br i1 %31, label %32, label %41

32:                                               ; preds = %28
  %33 = load i8, ptr %3, align 1
  %34 = zext i8 %33 to i32
  %35 = icmp sle i32 %34, 57
  br i1 %35, label %36, label %41

36:                                               ; preds = %32
  %37 = load i8, ptr %3, align 1
  %38 = zext i8 %37 to i32
  %39 = sub nsw i32 %38, 48
  %40 = add nsw i32 %39, 52
  store i32 %40, ptr %2, align 4
  br label %47

41:                                               ; preds = %32, %28
  %42 = load i8, ptr %3, align 1
  %43 = zext i8 %42 to i32
  switch i32 %43, label %46 [
    i32 43, label %44
    i32 47, label %45
  ]

44:                                               ; preds = %41
  store i32 62, ptr %2, align 4
  br label %47

45:                                               ; preds = %41
  store i32 63, ptr %2, align 4
  br label %47

46:                                               ; preds = %41
  store i32 -1, ptr %2, align 4
  br label %47

47:                                               ; preds = %46, %45, %44, %36, %23, %11
  %48 = load i32, ptr %2, align 4
  ret i32 %48
}

attributes #0 = { noinline nounwind optnone "frame-pointer"="all" "no-builtins" "no-trapping-math"="true" "stack-protector-buffer-size"="8" "target-cpu"="generic-rv64" "target-features"="+64bit,+m,+relax,+zmmul,-a,-b,-c,-d,-e,-experimental-smmpm,-experimental-smnpm,-experimental-ssnpm,-experimental-sspm,-experimental-ssqosid,-experimental-supm,-experimental-zacas,-experimental-zalasr,-experimental-zicfilp,-experimental-zicfiss,-f,-h,-shcounterenw,-shgatpa,-shtvala,-shvsatpa,-shvstvala,-shvstvecd,-smaia,-smcdeleg,-smcsrind,-smepmp,-smstateen,-ssaia,-ssccfg,-ssccptr,-sscofpmf,-sscounterenw,-sscsrind,-ssstateen,-ssstrict,-sstc,-sstvala,-sstvecd,-ssu64xl,-svade,-svadu,-svbare,-svinval,-svnapot,-svpbmt,-v,-xcvalu,-xcvbi,-xcvbitmanip,-xcvelw,-xcvmac,-xcvmem,-xcvsimd,-xsfcease,-xsfvcp,-xsfvfnrclipxfqf,-xsfvfwmaccqqq,-xsfvqmaccdod,-xsfvqmaccqoq,-xsifivecdiscarddlone,-xsifivecflushdlone,-xtheadba,-xtheadbb,-xtheadbs,-xtheadcmo,-xtheadcondmov,-xtheadfmemidx,-xtheadmac,-xtheadmemidx,-xtheadmempair,-xtheadsync,-xtheadvdot,-xventanacondops,-xwchc,-za128rs,-za64rs,-zaamo,-zabha,-zalrsc,-zama16b,-zawrs,-zba,-zbb,-zbc,-zbkb,-zbkc,-zbkx,-zbs,-zca,-zcb,-zcd,-zce,-zcf,-zcmop,-zcmp,-zcmt,-zdinx,-zfa,-zfbfmin,-zfh,-zfhmin,-zfinx,-zhinx,-zhinxmin,-zic64b,-zicbom,-zicbop,-zicboz,-ziccamoa,-ziccif,-zicclsm,-ziccrse,-zicntr,-zicond,-zicsr,-zifencei,-zihintntl,-zihintpause,-zihpm,-zimop,-zk,-zkn,-zknd,-zkne,-zknh,-zkr,-zks,-zksed,-zksh,-zkt,-ztso,-zvbb,-zvbc,-zve32f,-zve32x,-zve64d,-zve64f,-zve64x,-zvfbfmin,-zvfbfwma,-zvfh,-zvfhmin,-zvkb,-zvkg,-zvkn,-zvknc,-zvkned,-zvkng,-zvknha,-zvknhb,-zvks,-zvksc,-zvksed,-zvksg,-zvksh,-zvkt,-zvl1024b,-zvl128b,-zvl16384b,-zvl2048b,-zvl256b,-zvl32768b,-zvl32b,-zvl4096b,-zvl512b,-zvl64b,-zvl65536b,-zvl8192b" }
attributes #1 = { nobuiltin "no-builtins" }

!llvm.module.flags = !{!0, !1, !2, !4, !5, !6, !7}
!llvm.ident = !{!8}

!0 = !{i32 1, !"wchar_size", i32 4}
!1 = !{i32 1, !"target-abi", !"lp64"}
!2 = !{i32 6, !"riscv-isa", !3}
!3 = !{!"rv64i2p1_m2p0_zmmul1p0"}
!4 = !{i32 8, !"PIC Level", i32 2}
!5 = !{i32 7, !"PIE Level", i32 2}
!6 = !{i32 7, !"frame-pointer", i32 2}
!7 = !{i32 8, !"SmallDataLimit", i32 8}
!8 = !{!"Debian clang version 19.1.7 (3~deb12u1)"}
!9 = distinct !{!9, !10}
!10 = !{!"llvm.loop.mustprogress"}
!11 = distinct !{!11, !10}
!12 = distinct !{!12, !10}
!13 = distinct !{!13, !10}
!14 = distinct !{!14, !10}
