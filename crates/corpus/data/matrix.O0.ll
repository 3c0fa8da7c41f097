; ModuleID = 'matrix.c'
source_filename = "matrix.c"
target datalayout = "e-m:e-p:64:64-i64:64-i128:128-n32:64-S128"
target triple = "riscv64-unknown-linux-gnu"

%struct.two = type { [2 x [2 x i64]] }

@__const.fibonacci.power = private unnamed_addr constant %struct.two { [2 x [2 x i64]] [[2 x i64] [i64 1, i64 1], [2 x i64] [i64 1, i64 0]] }, align 8
@__const.fibonacci.result = private unnamed_addr constant %struct.two { [2 x [2 x i64]] [[2 x i64] [i64 1, i64 0], [2 x i64] [i64 0, i64 1]] }, align 8
@product = internal global [4 x [4 x i32]] zeroinitializer, align 4
@left = internal constant [4 x [4 x i32]] [[4 x i32] [i32 1, i32 2, i32 3, i32 4], [4 x i32] [i32 5, i32 6, i32 7, i32 8], [4 x i32] [i32 -1, i32 0, i32 2, i32 -3], [4 x i32] [i32 9, i32 -9, i32 1, i32 1]], align 4
@right = internal constant [4 x [4 x i32]] [[4 x i32] [i32 2, i32 0, i32 1, i32 -1], [4 x i32] [i32 1, i32 1, i32 1, i32 1], [4 x i32] [i32 0, i32 3, i32 0, i32 7], [4 x i32] [i32 -4, i32 2, i32 5, i32 6]], align 4

; Function Attrs: noinline nounwind optnone
define dso_local i64 @fibonacci(i32 noundef signext %0) #0 {
  %2 = alloca i32, align 4
  %3 = alloca %struct.two, align 8
  %4 = alloca %struct.two, align 8
  %5 = alloca %struct.two, align 8
  store i32 %0, ptr %2, align 4
  call void @llvm.memcpy.p0.p0.i64(ptr align 8 %3, ptr align 8 @__const.fibonacci.power, i64 32, i1 false)
  call void @llvm.memcpy.p0.p0.i64(ptr align 8 %4, ptr align 8 @__const.fibonacci.result, i64 32, i1 false)
  br label %6

6:                                                ; preds = %15, %1
  %7 = load i32, ptr %2, align 4
  %8 = icmp ne i32 %7, 0
  br i1 %8, label %9, label %18

9:                                                ; preds = %6
  %10 = load i32, ptr %2, align 4
  %11 = and i32 %10, 1
  %12 = icmp ne i32 %11, 0
  br i1 %12, label %13, label %14

13:                                               ; preds = %9
  call void @by(ptr noundef %4, ptr noundef %3, ptr noundef %5) #2
  call void @llvm.memcpy.p0.p0.i64(ptr align 8 %4, ptr align 8 %5, i64 32, i1 false)
  br label %14

14:                                               ; preds = %13, %9
  call void @by(ptr noundef %3, ptr noundef %3, ptr noundef %5) #2
  call void @llvm.memcpy.p0.p0.i64(ptr align 8 %3, ptr align 8 %5, i64 32, i1 false)
  br label %15

15:                                               ; preds = %14
  %16 = load i32, ptr %2, align 4
  %17 = lshr i32 %16, 1
  store i32 %17, ptr %2, align 4
  br label %6, !llvm.loop !9

18:                                               ; preds = %6
  %19 = getelementptr inbounds %struct.two, ptr %4, i32 0, i32 0
  %20 = getelementptr inbounds [2 x [2 x i64]], ptr %19, i64 0, i64 0
  %21 = getelementptr inbounds [2 x i64], ptr %20, i64 0, i64 1
  %22 = load i64, ptr %21, align 8
  ret i64 %22
}

; Function Attrs: nocallback nofree nounwind willreturn memory(argmem: readwrite)
declare void @llvm.memcpy.p0.p0.i64(ptr noalias nocapture writeonly, ptr noalias nocapture readonly, i64, i1 immarg) #1

; Function Attrs: noinline nounwind optnone
define internal void @by(ptr noundef %0, ptr noundef %1, ptr noundef %2) #0 {
  %4 = alloca ptr, align 8
  %5 = alloca ptr, align 8
  %6 = alloca ptr, align 8
  %7 = alloca i32, align 4
  %8 = alloca i32, align 4
  %9 = alloca i64, align 8
  %10 = alloca i32, align 4
  store ptr %0, ptr %4, align 8
  store ptr %1, ptr %5, align 8
  store ptr %2, ptr %6, align 8
  store i32 0, ptr %7, align 4
  br label %11

11:                                               ; preds = %61, %3
  %12 = load i32, ptr %7, align 4
  %13 = icmp slt i32 %12, 2
  br i1 %13, label %14, label %64

14:                                               ; preds = %11
  store i32 0, ptr %8, align 4
  br label %15

15:                                               ; preds = %57, %14
  %16 = load i32, ptr %8, align 4
  %17 = icmp slt i32 %16, 2
  br i1 %17, label %18, label %60

18:                                               ; preds = %15
  store i64 0, ptr %9, align 8
  store i32 0, ptr %10, align 4
  br label %19

19:                                               ; preds = %44, %18
  %20 = load i32, ptr %10, align 4
  %21 = icmp slt i32 %20, 2
  br i1 %21, label %22, label %47

22:                                               ; preds = %19
  %23 = load ptr, ptr %4, align 8
  %24 = getelementptr inbounds %struct.two, ptr %23, i32 0, i32 0
  %25 = load i32, ptr %7, align 4
  %26 = sext i32 %25 to i64
  %27 = getelementptr inbounds [2 x [2 x i64]], ptr %24, i64 0, i64 %26
  %28 = load i32, ptr %10, align 4
  %29 = sext i32 %28 to i64
  %30 = getelementptr inbounds [2 x i64], ptr %27, i64 0, i64 %29
  %31 = load i64, ptr %30, align 8
  %32 = load ptr, ptr %5, align 8
  %33 = getelementptr inbounds %struct.two, ptr %32, i32 0, i32 0
  %34 = load i32, ptr %10, align 4
  %35 = sext i32 %34 to i64
  %36 = getelementptr inbounds [2 x [2 x i64]], ptr %33, i64 0, i64 %35
  %37 = load i32, ptr %8, align 4
  %38 = sext i32 %37 to i64
  %39 = getelementptr inbounds [2 x i64], ptr %36, i64 0, i64 %38
  %40 = load i64, ptr %39, align 8
  %41 = mul i64 %31, %40
  %42 = load i64, ptr %9, align 8
  %43 = add i64 %42, %41
  store i64 %43, ptr %9, align 8
  br label %44

44:                                               ; preds = %22
  %45 = load i32, ptr %10, align 4
  %46 = add nsw i32 %45, 1
  store i32 %46, ptr %10, align 4
  br label %19, !llvm.loop !11

47:                                               ; preds = %19
  %48 = load i64, ptr %9, align 8
  %49 = load ptr, ptr %6, align 8
  %50 = getelementptr inbounds %struct.two, ptr %49, i32 0, i32 0
  %51 = load i32, ptr %7, align 4
  %52 = sext i32 %51 to i64
  %53 = getelementptr inbounds [2 x [2 x i64]], ptr %50, i64 0, i64 %52
  %54 = load i32, ptr %8, align 4
  %55 = sext i32 %54 to i64
  %56 = getelementptr inbounds [2 x i64], ptr %53, i64 0, i64 %55
  store i64 %48, ptr %56, align 8
  br label %57

57:                                               ; preds = %47
  %58 = load i32, ptr %8, align 4
  %59 = add nsw i32 %58, 1
  store i32 %59, ptr %8, align 4
  br label %15, !llvm.loop !12

60:                                               ; preds = %15
  br label %61

61:                                               ; preds = %60
  %62 = load i32, ptr %7, align 4
  %63 = add nsw i32 %62, 1
  store i32 %63, ptr %7, align 4
  br label %11, !llvm.loop !13

64:                                               ; preds = %11
  ret void
}

; Function Attrs: noinline nounwind optnone
define dso_local signext i32 @trace_of_product() #0 {
  %1 = alloca i32, align 4
  %2 = alloca i32, align 4
  %3 = alloca i32, align 4
  %4 = alloca i32, align 4
  %5 = alloca i32, align 4
  store i32 0, ptr %1, align 4
  store i32 0, ptr %2, align 4
  br label %6

6:                                                ; preds = %55, %0
  %7 = load i32, ptr %2, align 4
  %8 = icmp slt i32 %7, 4
  br i1 %8, label %9, label %58

9:                                                ; preds = %6
  store i32 0, ptr %3, align 4
  br label %10

10:                                               ; preds = %51, %9
  %11 = load i32, ptr %3, align 4
  %12 = icmp slt i32 %11, 4
  br i1 %12, label %13, label %54

13:                                               ; preds = %10
  %14 = load i32, ptr %2, align 4
  %15 = sext i32 %14 to i64
  %16 = getelementptr inbounds [4 x [4 x i32]], ptr @product, i64 0, i64 %15
  %17 = load i32, ptr %3, align 4
  %18 = sext i32 %17 to i64
  %19 = getelementptr inbounds [4 x i32], ptr %16, i64 0, i64 %18
  store i32 0, ptr %19, align 4
  store i32 0, ptr %4, align 4
  br label %20

20:                                               ; preds = %47, %13
  %21 = load i32, ptr %4, align 4
  %22 = icmp slt i32 %21, 4
  br i1 %22, label %23, label %50

23:                                               ; preds = %20
  %24 = load i32, ptr %2, align 4
  %25 = sext i32 %24 to i64
  %26 = getelementptr inbounds [4 x [4 x i32]], ptr @left, i64 0, i64 %25
  %27 = load i32, ptr %4, align 4
  %28 = sext i32 %27 to i64
  %29 = getelementptr inbounds [4 x i32], ptr %26, i64 0, i64 %28
  %30 = load i32, ptr %29, align 4
  %31 = load i32, ptr %4, align 4
  %32 = sext i32 %31 to i64
  %33 = getelementptr inbounds [4 x [4 x i32]], ptr @right, i64 0, i64 %32
  %34 = load i32, ptr %3, align 4
  %35 = sext i32 %34 to i64
  %36 = getelementptr inbounds [4 x i32], ptr %33, i64 0, i64 %35
  %37 = load i32, ptr %36, align 4
  %38 = mul nsw i32 %30, %37
  %39 = load i32, ptr %2, align 4
  %40 = sext i32 %39 to i64
  %41 = getelementptr inbounds [4 x [4 x i32]], ptr @product, i64 0, i64 %40
  %42 = load i32, ptr %3, align 4
  %43 = sext i32 %42 to i64
  %44 = getelementptr inbounds [4 x i32], ptr %41, i64 0, i64 %43
  %45 = load i32, ptr %44, align 4
  %46 = add nsw i32 %45, %38
  store i32 %46, ptr %44, align 4
  br label %47

47:                                               ; preds = %23
  %48 = load i32, ptr %4, align 4
  %49 = add nsw i32 %48, 1
  store i32 %49, ptr %4, align 4
  br label %20, !llvm.loop !14

50:                                               ; preds = %20
  br label %51

51:                                               ; preds = %50
  %52 = load i32, ptr %3, align 4
  %53 = add nsw i32 %52, 1
  store i32 %53, ptr %3, align 4
  br label %10, !llvm.loop !15

54:                                               ; preds = %10
  br label %55

55:                                               ; preds = %54
  %56 = load i32, ptr %2, align 4
  %57 = add nsw i32 %56, 1
  store i32 %57, ptr %2, align 4
  br label %6, !llvm.loop !16

58:                                               ; preds = %6
  store i32 0, ptr %5, align 4
  br label %59

59:                                               ; preds = %72, %58
  %60 = load i32, ptr %5, align 4
  %61 = icmp slt i32 %60, 4
  br i1 %61, label %62, label %75

62:                                               ; preds = %59
  %63 = load i32, ptr %5, align 4
  %64 = sext i32 %63 to i64
  %65 = getelementptr inbounds [4 x [4 x i32]], ptr @product, i64 0, i64 %64
  %66 = load i32, ptr %5, align 4
  %67 = sext i32 %66 to i64
  %68 = getelementptr inbounds [4 x i32], ptr %65, i64 0, i64 %67
  %69 = load i32, ptr %68, align 4
  %70 = load i32, ptr %1, align 4
  %71 = add nsw i32 %70, %69
  store i32 %71, ptr %1, align 4
  br label %72

72:                                               ; preds = %62
  %73 = load i32, ptr %5, align 4
  %74 = add nsw i32 %73, 1
  store i32 %74, ptr %5, align 4
  br label %59, !llvm.loop !17

75:                                               ; preds = %59
  %76 = load i32, ptr %1, align 4
  ret i32 %76
}

; Function Attrs: noinline nounwind optnone
define dso_local signext i32 @entry(i32 noundef signext %0, i32 noundef signext %1) #0 {
  %3 = alloca i32, align 4
  %4 = alloca i32, align 4
  store i32 %0, ptr %3, align 4
  store i32 %1, ptr %4, align 4
  %5 = call signext i32 @trace_of_product() #2
  %6 = load i32, ptr %3, align 4
  %7 = and i32 %6, 3
  %8 = sext i32 %7 to i64
  %9 = getelementptr inbounds [4 x [4 x i32]], ptr @product, i64 0, i64 %8
  %10 = load i32, ptr %4, align 4
  %11 = and i32 %10, 3
  %12 = sext i32 %11 to i64
  %13 = getelementptr inbounds [4 x i32], ptr %9, i64 0, i64 %12
  %14 = load i32, ptr %13, align 4
  ret i32 %14
}

; Function Attrs: noinline nounwind optnone
define dso_local i64 @circulant(i64 noundef %0, i64 noundef %1, i64 noundef %2) #0 {
  %4 = alloca i64, align 8
  %5 = alloca i64, align 8
  %6 = alloca i64, align 8
  %7 = alloca [3 x [3 x i64]], align 8
  store i64 %0, ptr %4, align 8
  store i64 %1, ptr %5, align 8
  store i64 %2, ptr %6, align 8
  %8 = load i64, ptr %4, align 8
  store i64 %8, ptr %7, align 8
  %9 = getelementptr inbounds i64, ptr %7, i64 1
  %10 = load i64, ptr %5, align 8
  store i64 %10, ptr %9, align 8
  %11 = getelementptr inbounds i64, ptr %7, i64 2
  %12 = load i64, ptr %6, align 8
  store i64 %12, ptr %11, align 8
  %13 = getelementptr inbounds [3 x i64], ptr %7, i64 1
  %14 = load i64, ptr %5, align 8
  store i64 %14, ptr %13, align 8
  %15 = getelementptr inbounds i64, ptr %13, i64 1
  %16 = load i64, ptr %6, align 8
  store i64 %16, ptr %15, align 8
  %17 = getelementptr inbounds i64, ptr %13, i64 2
  %18 = load i64, ptr %4, align 8
  store i64 %18, ptr %17, align 8
  %19 = getelementptr inbounds [3 x i64], ptr %7, i64 2
  %20 = load i64, ptr %6, align 8
  store i64 %20, ptr %19, align 8
  %21 = getelementptr inbounds i64, ptr %19, i64 1
  %22 = load i64, ptr %4, align 8
  store i64 %22, ptr %21, align 8
  %23 = getelementptr inbounds i64, ptr %19, i64 2
  %24 = load i64, ptr %5, align 8
  store i64 %24, ptr %23, align 8
  %25 = getelementptr inbounds [3 x [3 x i64]], ptr %7, i64 0, i64 0
  %26 = getelementptr inbounds [3 x i64], ptr %25, i64 0, i64 0
  %27 = load i64, ptr %26, align 8
  %28 = getelementptr inbounds [3 x [3 x i64]], ptr %7, i64 0, i64 1
  %29 = getelementptr inbounds [3 x i64], ptr %28, i64 0, i64 1
  %30 = load i64, ptr %29, align 8
  %31 = getelementptr inbounds [3 x [3 x i64]], ptr %7, i64 0, i64 2
  %32 = getelementptr inbounds [3 x i64], ptr %31, i64 0, i64 2
  %33 = load i64, ptr %32, align 8
  %34 = mul nsw i64 %30, %33
  %35 = getelementptr inbounds [3 x [3 x i64]], ptr %7, i64 0, i64 1
  %36 = getelementptr inbounds [3 x i64], ptr %35, i64 0, i64 2
  %37 = load i64, ptr %36, align 8
  %38 = getelementptr inbounds [3 x [3 x i64]], ptr %7, i64 0, i64 2
  %39 = getelementptr inbounds [3 x i64], ptr %38, i64 0, i64 1
  %40 = load i64, ptr %39, align 8
  %41 = mul nsw i64 %37, %40
  %42 = sub nsw i64 %34, %41
  %43 = mul nsw i64 %27, %42
  %44 = getelementptr inbounds [3 x [3 x i64]], ptr %7, i64 0, i64 0
  %45 = getelementptr inbounds [3 x i64], ptr %44, i64 0, i64 1
  %46 = load i64, ptr %45, align 8
  %47 = getelementptr inbounds [3 x [3 x i64]], ptr %7, i64 0, i64 1
  %48 = getelementptr inbounds [3 x i64], ptr %47, i64 0, i64 0
  %49 = load i64, ptr %48, align 8
  %50 = getelementptr inbounds [3 x [3 x i64]], ptr %7, i64 0, i64 2
  %51 = getelementptr inbounds [3 x i64], ptr %50, i64 0, i64 2
  %52 = load i64, ptr %51, align 8
  %53 = mul nsw i64 %49, %52
  %54 = getelementptr inbounds [3 x [3 x i64]], ptr %7, i64 0, i64 1
  %55 = getelementptr inbounds [3 x i64], ptr %54, i64 0, i64 2
  %56 = load i64, ptr %55, align 8
  %57 = getelementptr inbounds [3 x [3 x i64]], ptr %7, i64 0, i64 2
  %58 = getelementptr inbounds [3 x i64], ptr %57, i64 0, i64 0
  %59 = load i64, ptr %58, align 8
  %60 = mul nsw i64 %56, %59
  %61 = sub nsw i64 %53, %60
  %62 = mul nsw i64 %46, %61
  %63 = sub nsw i64 %43, %62
  %64 = getelementptr inbounds [3 x [3 x i64]], ptr %7, i64 0, i64 0
  %65 = getelementptr inbounds [3 x i64], ptr %64, i64 0, i64 2
  %66 = load i64, ptr %65, align 8
  %67 = getelementptr inbounds [3 x [3 x i64]], ptr %7, i64 0, i64 1
  %68 = getelementptr inbounds [3 x i64], ptr %67, i64 0, i64 0
  %69 = load i64, ptr %68, align 8
  %70 = getelementptr inbounds [3 x [3 x i64]], ptr %7, i64 0, i64 2
  %71 = getelementptr inbounds [3 x i64], ptr %70, i64 0, i64 1
  %72 = load i64, ptr %71, align 8
  %73 = mul nsw i64 %69, %72
  %74 = getelementptr inbounds [3 x [3 x i64]], ptr %7, i64 0, i64 1
  %75 = getelementptr inbounds [3 x i64], ptr %74, i64 0, i64 1
  %76 = load i64, ptr %75, align 8
  %77 = getelementptr inbounds [3 x [3 x i64]], ptr %7, i64 0, i64 2
  %78 = getelementptr inbounds [3 x i64], ptr %77, i64 0, i64 0
  %79 = load i64, ptr %78, align 8
  %80 = mul nsw i64 %76, %79
  %81 = sub nsw i64 %73, %80
  %82 = mul nsw i64 %66, %81
  %83 = add nsw i64 %63, %82
  ret i64 %83
}

attributes #0 = { noinline nounwind optnone "frame-pointer"="all" "no-builtins" "no-trapping-math"="true" "stack-protector-buffer-size"="8" "target-cpu"="generic-rv64" "target-features"="+64bit,+m,+relax,+zmmul,-a,-b,-c,-d,-e,-experimental-smmpm,-experimental-smnpm,-experimental-ssnpm,-experimental-sspm,-experimental-ssqosid,-experimental-supm,-experimental-zacas,-experimental-zalasr,-experimental-zicfilp,-experimental-zicfiss,-f,-h,-shcounterenw,-shgatpa,-shtvala,-shvsatpa,-shvstvala,-shvstvecd,-smaia,-smcdeleg,-smcsrind,-smepmp,-smstateen,-ssaia,-ssccfg,-ssccptr,-sscofpmf,-sscounterenw,-sscsrind,-ssstateen,-ssstrict,-sstc,-sstvala,-sstvecd,-ssu64xl,-svade,-svadu,-svbare,-svinval,-svnapot,-svpbmt,-v,-xcvalu,-xcvbi,-xcvbitmanip,-xcvelw,-xcvmac,-xcvmem,-xcvsimd,-xsfcease,-xsfvcp,-xsfvfnrclipxfqf,-xsfvfwmaccqqq,-xsfvqmaccdod,-xsfvqmaccqoq,-xsifivecdiscarddlone,-xsifivecflushdlone,-xtheadba,-xtheadbb,-xtheadbs,-xtheadcmo,-xtheadcondmov,-xtheadfmemidx,-xtheadmac,-xtheadmemidx,-xtheadmempair,-xtheadsync,-xtheadvdot,-xventanacondops,-xwchc,-za128rs,-za64rs,-zaamo,-zabha,-zalrsc,-zama16b,-zawrs,-zba,-zbb,-zbc,-zbkb,-zbkc,-zbkx,-zbs,-zca,-zcb,-zcd,-zce,-zcf,-zcmop,-zcmp,-zcmt,-zdinx,-zfa,-zfbfmin,-zfh,-zfhmin,-zfinx,-zhinx,-zhinxmin,-zic64b,-zicbom,-zicbop,-zicboz,-ziccamoa,-ziccif,-zicclsm,-ziccrse,-zicntr,-zicond,-zicsr,-zifencei,-zihintntl,-zihintpause,-zihpm,-zimop,-zk,-zkn,-zknd,-zkne,-zknh,-zkr,-zks,-zksed,-zksh,-zkt,-ztso,-zvbb,-zvbc,-zve32f,-zve32x,-zve64d,-zve64f,-zve64x,-zvfbfmin,-zvfbfwma,-zvfh,-zvfhmin,-zvkb,-zvkg,-zvkn,-zvknc,-zvkned,-zvkng,-zvknha,-zvknhb,-zvks,-zvksc,-zvksed,-zvksg,-zvksh,-zvkt,-zvl1024b,-zvl128b,-zvl16384b,-zvl2048b,-zvl256b,-zvl32768b,-zvl32b,-zvl4096b,-zvl512b,-zvl64b,-zvl65536b,-zvl8192b" }
attributes #1 = { nocallback nofree nounwind willreturn memory(argmem: readwrite) }
attributes #2 = { nobuiltin "no-builtins" }

!llvm.module.flags = !{!0, !1, !2, !4, !5, !6, !7}
!llvm.ident = !{!8}

!0 = !{i32 1, !"wchar_size", i32 4}
!1 = !{i32 1, !"target-abi", !"lp64"}
!2 = !{i32 6, !"riscv-isa", !3}
!3 = !{!"rv64i2p1_m2p0_zmmul1p0"}
!4 = !{i32 8, !"PIC Level", i32 2}
!5 = !{i32 7, !"PIE Level", i32 2}
!6 = !{i32 7, !"frame-pointer", i32 2}
!7 = !{i32 8, !"SmallDataLimit", i32 8}
!8 = !{!"Debian clang version 19.1.7 (3~deb12u1)"}
!9 = distinct !{!9, !10}
!10 = !{!"llvm.loop.mustprogress"}
!11 = distinct !{!11, !10}
!12 = distinct !{!12, !10}
!13 = distinct !{!13, !10}
!14 = distinct !{!14, !10}
!15 = distinct !{!15, !10}
!16 = distinct !{!16, !10}
!17 = distinct !{!17, !10}
