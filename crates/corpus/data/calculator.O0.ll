; ModuleID = 'calculator.c'
source_filename = "calculator.c"
target datalayout = "e-m:e-p:64:64-i64:64-i128:128-n32:64-S128"
target triple = "riscv64-unknown-linux-gnu"

@texts = internal constant [6 x ptr] [ptr @.str, ptr @.str.1, ptr @.str.2, ptr @.str.3, ptr @.str.4, ptr @.str.5], align 8
@at = internal global ptr null, align 8
@.str = private unnamed_addr constant [6 x i8] c"1+2*3\00", align 1
@.str.1 = private unnamed_addr constant [8 x i8] c"(1+2)*3\00", align 1
@.str.2 = private unnamed_addr constant [8 x i8] c"100-7-3\00", align 1
@.str.3 = private unnamed_addr constant [14 x i8] c"2*(3+(4-1))*5\00", align 1
@.str.4 = private unnamed_addr constant [5 x i8] c"-8/3\00", align 1
@.str.5 = private unnamed_addr constant [14 x i8] c"((((9))))%4+0\00", align 1

; Function Attrs: noinline nounwind optnone
define dso_local i64 @value_of(i32 noundef signext %0) #0 {
  %2 = alloca i32, align 4
  store i32 %0, ptr %2, align 4
  %3 = load i32, ptr %2, align 4
  %4 = urem i32 %3, 6
  %5 = zext i32 %4 to i64
  %6 = getelementptr inbounds [6 x ptr], ptr @texts, i64 0, i64 %5
  %7 = load ptr, ptr %6, align 8
  store ptr %7, ptr @at, align 8
  %8 = call i64 @sum() #1
  ret i64 %8
}

; Function Attrs: noinline nounwind optnone
define internal i64 @sum() #0 {
  %1 = alloca i64, align 8
  %2 = call i64 @product() #1
  store i64 %2, ptr %1, align 8
  br label %3

3:                                                ; preds = %29, %0
  %4 = load ptr, ptr @at, align 8
  %5 = load i8, ptr %4, align 1
  %6 = zext i8 %5 to i32
  %7 = icmp eq i32 %6, 43
  br i1 %7, label %13, label %8

8:                                                ; preds = %3
  %9 = load ptr, ptr @at, align 8
  %10 = load i8, ptr %9, align 1
  %11 = zext i8 %10 to i32
  %12 = icmp eq i32 %11, 45
  br label %13

13:                                               ; preds = %8, %3
  %14 = phi i1 [ true, %3 ], [ %12, %8 ]
  br i1 %14, label %15, label %30

15:                                               ; preds = %13
  %16 = load ptr, ptr @at, align 8
  %17 = getelementptr inbounds i8, ptr %16, i32 1
  store ptr %17, ptr @at, align 8
  %18 = load i8, ptr %16, align 1
  %19 = zext i8 %18 to i32
  %20 = icmp eq i32 %19, 43
  br i1 %20, label %21, label %25

21:                                               ; preds = %15
  %22 = call i64 @product() #1
  %23 = load i64, ptr %1, align 8
  %24 = add nsw i64 %23, %22
  store i64 %24, ptr %1, align 8
  br label %29

25:                                               ; preds = %15
  %26 = call i64 @product() #1
  %27 = load i64, ptr %1, align 8
  %28 = sub nsw i64 %27, %26
  store i64 %28, ptr %1, align 8
  br label %29

29:                                               ; preds = %25, %21
  br label %3, !llvm.loop !9

30:                                               ; preds = %13
  %31 = load i64, ptr %1, align 8
  ret i64 %31
}

; Function Attrs: noinline nounwind optnone
define dso_local signext i32 @read_of(i32 noundef signext %0) #0 {
  %2 = alloca i32, align 4
  store i32 %0, ptr %2, align 4
  %3 = load i32, ptr %2, align 4
  %4 = call i64 @value_of(i32 noundef signext %3) #1
  %5 = load ptr, ptr @at, align 8
  %6 = load i32, ptr %2, align 4
  %7 = urem i32 %6, 6
  %8 = zext i32 %7 to i64
  %9 = getelementptr inbounds [6 x ptr], ptr @texts, i64 0, i64 %8
  %10 = load ptr, ptr %9, align 8
  %11 = ptrtoint ptr %5 to i64
  %12 = ptrtoint ptr %10 to i64
  %13 = sub i64 %11, %12
  %14 = trunc i64 %13 to i32
  ret i32 %14
}

; Function Attrs: noinline nounwind optnone
define internal i64 @product() #0 {
  %1 = alloca i64, align 8
  %2 = alloca i64, align 8
  %3 = alloca i8, align 1
  %4 = alloca i64, align 8
  %5 = call i64 @atom() #1
  store i64 %5, ptr %2, align 8
  br label %6

6:                                                ; preds = %52, %0
  %7 = load ptr, ptr @at, align 8
  %8 = load i8, ptr %7, align 1
  store i8 %8, ptr %3, align 1
  %9 = load i8, ptr %3, align 1
  %10 = zext i8 %9 to i32
  %11 = icmp ne i32 %10, 42
  br i1 %11, label %12, label %22

12:                                               ; preds = %6
  %13 = load i8, ptr %3, align 1
  %14 = zext i8 %13 to i32
  %15 = icmp ne i32 %14, 47
  br i1 %15, label %16, label %22

16:                                               ; preds = %12
  %17 = load i8, ptr %3, align 1
  %18 = zext i8 %17 to i32
  %19 = icmp ne i32 %18, 37
  br i1 %19, label %20, label %22

20:                                               ; preds = %16
  %21 = load i64, ptr %2, align 8
  store i64 %21, ptr %1, align 8
  br label %53

22:                                               ; preds = %16, %12, %6
  %23 = load ptr, ptr @at, align 8
  %24 = getelementptr inbounds i8, ptr %23, i32 1
  store ptr %24, ptr @at, align 8
  %25 = call i64 @atom() #1
  store i64 %25, ptr %4, align 8
  %26 = load i8, ptr %3, align 1
  %27 = zext i8 %26 to i32
  %28 = icmp eq i32 %27, 42
  br i1 %28, label %29, label %33

29:                                               ; preds = %22
  %30 = load i64, ptr %4, align 8
  %31 = load i64, ptr %2, align 8
  %32 = mul nsw i64 %31, %30
  store i64 %32, ptr %2, align 8
  br label %52

33:                                               ; preds = %22
  %34 = load i64, ptr %4, align 8
  %35 = icmp eq i64 %34, 0
  br i1 %35, label %36, label %37

36:                                               ; preds = %33
  store i64 -1, ptr %1, align 8
  br label %53

37:                                               ; preds = %33
  %38 = load i8, ptr %3, align 1
  %39 = zext i8 %38 to i32
  %40 = icmp eq i32 %39, 47
  br i1 %40, label %41, label %45

41:                                               ; preds = %37
  %42 = load i64, ptr %2, align 8
  %43 = load i64, ptr %4, align 8
  %44 = sdiv i64 %42, %43
  br label %49

45:                                               ; preds = %37
  %46 = load i64, ptr %2, align 8
  %47 = load i64, ptr %4, align 8
  %48 = srem i64 %46, %47
  br label %49

49:                                               ; preds = %45, %41
  %50 = phi i64 [ %44, %41 ], [ %48, %45 ]
  store i64 %50, ptr %2, align 8
  br label %51

51:                                               ; preds = %49
  br label %52

52:                                               ; preds = %51, %29
  br label %6

53:                                               ; preds = %36, %20
  %54 = load i64, ptr %1, align 8
  ret i64 %54
}

; Function Attrs: noinline nounwind optnone
define internal i64 @atom() #0 {
  %1 = alloca i64, align 8
  %2 = alloca i64, align 8
  %3 = alloca i64, align 8
  %4 = load ptr, ptr @at, align 8
  %5 = load i8, ptr %4, align 1
  %6 = zext i8 %5 to i32
  %7 = icmp eq i32 %6, 45
  br i1 %7, label %8, label %13

8:                                                ; preds = %0
  %9 = load ptr, ptr @at, align 8
  %10 = getelementptr inbounds i8, ptr %9, i32 1
  store ptr %10, ptr @at, align 8
  %11 = call i64 @atom() #1
  %12 = sub nsw i64 0, %11
  store i64 %12, ptr %1, align 8
  br label %56

13:                                               ; preds = %0
  %14 = load ptr, ptr @at, align 8
  %15 = load i8, ptr %14, align 1
  %16 = zext i8 %15 to i32
  %17 = icmp eq i32 %16, 40
  br i1 %17, label %18, label %31

18:                                               ; preds = %13
  %19 = load ptr, ptr @at, align 8
  %20 = getelementptr inbounds i8, ptr %19, i32 1
  store ptr %20, ptr @at, align 8
  %21 = call i64 @sum() #1
  store i64 %21, ptr %2, align 8
  %22 = load ptr, ptr @at, align 8
  %23 = load i8, ptr %22, align 1
  %24 = zext i8 %23 to i32
  %25 = icmp eq i32 %24, 41
  br i1 %25, label %26, label %29

26:                                               ; preds = %18
  %27 = load ptr, ptr @at, align 8
  %28 = getelementptr inbounds i8, ptr %27, i32 1
  store ptr %28, ptr @at, align 8
  br label %29

29:                                               ; preds = %26, %18
  %30 = load i64, ptr %2, align 8
  store i64 %30, ptr %1, align 8
  br label %56

31:                                               ; preds = %13
  store i64 0, ptr %3, align 8
  br label %32

32:                                               ; preds = %44, %31
  %33 = load ptr, ptr @at, align 8
  %34 = load i8, ptr %33, align 1
  %35 = zext i8 %34 to i32
  %36 = icmp sge i32 %35, 48
  br i1 %36, label %37, label %42

37:                                               ; preds = %32
  %38 = load ptr, ptr @at, align 8
  %39 = load i8, ptr %38, align 1
  %40 = zext i8 %39 to i32
  %41 = icmp sle i32 %40, 57
  br label %42

42:                                               ; preds = %37, %32
  %43 = phi i1 [ false, %32 ], [ %41, %37 ]
  br i1 %43, label %44, label %54

44:                                               ; preds = %42
  %45 = load i64, ptr %3, align 8
  %46 = mul nsw i64 %45, 10
  %47 = load ptr, ptr @at, align 8
  %48 = getelementptr inbounds i8, ptr %47, i32 1
  store ptr %48, ptr @at, align 8
  %49 = load i8, ptr %47, align 1
  %50 = zext i8 %49 to i32
  %51 = sub nsw i32 %50, 48
  %52 = sext i32 %51 to i64
  %53 = add nsw i64 %46, %52
  store i64 %53, ptr %3, align 8
  br label %32, !llvm.loop !11

54:                                               ; preds = %42
  %55 = load i64, ptr %3, align 8
  store i64 %55, ptr %1, align 8
  br label %56

56:                                               ; preds = %54, %29, %8
  %57 = load i64, ptr %1, align 8
  ret i64 %57
}

attributes #0 = { noinline nounwind optnone "frame-pointer"="all" "no-builtins" "no-trapping-math"="true" "stack-protector-buffer-size"="8" "target-cpu"="generic-rv64" "target-features"="+64bit,+m,+relax,+zmmul,-a,-b,-c,-d,-e,-experimental-smmpm,-experimental-smnpm,-experimental-ssnpm,-experimental-sspm,-experimental-ssqosid,-experimental-supm,-experimental-zacas,-experimental-zalasr,-experimental-zicfilp,-experimental-zicfiss,-f,-h,-shcounterenw,-shgatpa,-shtvala,-shvsatpa,-shvstvala,-shvstvecd,-smaia,-smcdeleg,-smcsrind,-smepmp,-smstateen,-ssaia,-ssccfg,-ssccptr,-sscofpmf,-sscounterenw,-sscsrind,-ssstateen,-ssstrict,-sstc,-sstvala,-sstvecd,-ssu64xl,-svade,-svadu,-svbare,-svinval,-svnapot,-svpbmt,-v,-xcvalu,-xcvbi,-xcvbitmanip,-xcvelw,-xcvmac,-xcvmem,-xcvsimd,-xsfcease,-xsfvcp,-xsfvfnrclipxfqf,-xsfvfwmaccqqq,-xsfvqmaccdod,-xsfvqmaccqoq,-xsifivecdiscarddlone,-xsifivecflushdlone,-xtheadba,-xtheadbb,-xtheadbs,-xtheadcmo,-xtheadcondmov,-xtheadfmemidx,-xtheadmac,-xtheadmemidx,-xtheadmempair,-xtheadsync,-xtheadvdot,-xventanacondops,-xwchc,-za128rs,-za64rs,-zaamo,-zabha,-zalrsc,-zama16b,-zawrs,-zba,-zbb,-zbc,-zbkb,-zbkc,-zbkx,-zbs,-zca,-zcb,-zcd,-zce,-zcf,-zcmop,-zcmp,-zcmt,-zdinx,-zfa,-zfbfmin,-zfh,-zfhmin,-zfinx,-zhinx,-zhinxmin,-zic64b,-zicbom,-zicbop,-zicboz,-ziccamoa,-ziccif,-zicclsm,-ziccrse,-zicntr,-zicond,-zicsr,-zifencei,-zihintntl,-zihintpause,-zihpm,-zimop,-zk,-zkn,-zknd,-zkne,-zknh,-zkr,-zks,-zksed,-zksh,-zkt,-ztso,-zvbb,-zvbc,-zve32f,-zve32x,-zve64d,-zve64f,-zve64x,-zvfbfmin,-zvfbfwma,-zvfh,-zvfhmin,-zvkb,-zvkg,-zvkn,-zvknc,-zvkned,-zvkng,-zvknha,-zvknhb,-zvks,-zvksc,-zvksed,-zvksg,-zvksh,-zvkt,-zvl1024b,-zvl128b,-zvl16384b,-zvl2048b,-zvl256b,-zvl32768b,-zvl32b,-zvl4096b,-zvl512b,-zvl64b,-zvl65536b,-zvl8192b" }
attributes #1 = { nobuiltin "no-builtins" }

!llvm.module.flags = !{!0, !1, !2, !4, !5, !6, !7}
!llvm.ident = !{!8}

!0 = !{i32 1, !"wchar_size", i32 4}
!1 = !{i32 1, !"target-abi", !"lp64"}
!2 = !{i32 6, !"riscv-isa", !3}
!3 = !{!"rv64i2p1_m2p0_zmmul1p0"}
!4 = !{i32 8, !"PIC Level", i32 2}
!5 = !{i32 7, !"PIE Level", i32 2}
!6 = !{i32 7, !"frame-pointer", i32 2}
!7 = !{i32 8, !"SmallDataLimit", i32 8}
!8 = !{!"Debian clang version 19.1.7 (3~deb12u1)"}
!9 = distinct !{!9, !10}
!10 = !{!"llvm.loop.mustprogress"}
!11 = distinct !{!11, !10}
