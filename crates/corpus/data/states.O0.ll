; ModuleID = 'states.c'
source_filename = "states.c"
target datalayout = "e-m:e-p:64:64-i64:64-i128:128-n32:64-S128"
target triple = "riscv64-unknown-linux-gnu"

@texts = internal constant [8 x ptr] [ptr @.str, ptr @.str.1, ptr @.str.2, ptr @.str.3, ptr @.str.4, ptr @.str.5, ptr @.str.6, ptr @.str.7], align 8
@source = internal constant [31 x i8] c"a/b /* c*d */ e // f\0A g /**/ h\00", align 1
@.str = private unnamed_addr constant [3 x i8] c"12\00", align 1
@.str.1 = private unnamed_addr constant [6 x i8] c"-3.25\00", align 1
@.str.2 = private unnamed_addr constant [6 x i8] c"+7e10\00", align 1
@.str.3 = private unnamed_addr constant [3 x i8] c"1.\00", align 1
@.str.4 = private unnamed_addr constant [2 x i8] c"x\00", align 1
@.str.5 = private unnamed_addr constant [1 x i8] zeroinitializer, align 1
@.str.6 = private unnamed_addr constant [5 x i8] c"9.5e\00", align 1
@.str.7 = private unnamed_addr constant [8 x i8] c"0.125e3\00", align 1

; Function Attrs: noinline nounwind optnone
define dso_local zeroext i1 @is_number(i32 noundef signext %0) #0 {
  %2 = alloca i32, align 4
  %3 = alloca i32, align 4
  %4 = alloca ptr, align 8
  store i32 %0, ptr %2, align 4
  store i32 0, ptr %3, align 4
  %5 = load i32, ptr %2, align 4
  %6 = and i32 %5, 7
  %7 = zext i32 %6 to i64
  %8 = getelementptr inbounds [8 x ptr], ptr @texts, i64 0, i64 %7
  %9 = load ptr, ptr %8, align 8
  store ptr %9, ptr %4, align 8
  br label %10

10:                                               ; preds = %19, %1
  %11 = load ptr, ptr %4, align 8
  %12 = load i8, ptr %11, align 1
  %13 = icmp ne i8 %12, 0
  br i1 %13, label %14, label %22

14:                                               ; preds = %10
  %15 = load i32, ptr %3, align 4
  %16 = load ptr, ptr %4, align 8
  %17 = load i8, ptr %16, align 1
  %18 = call signext i32 @next(i32 noundef signext %15, i8 noundef zeroext %17) #1
  store i32 %18, ptr %3, align 4
  br label %19

19:                                               ; preds = %14
  %20 = load ptr, ptr %4, align 8
  %21 = getelementptr inbounds i8, ptr %20, i32 1
  store ptr %21, ptr %4, align 8
  br label %10, !llvm.loop !9

22:                                               ; preds = %10
  %23 = load i32, ptr %3, align 4
  %24 = icmp eq i32 %23, 2
  br i1 %24, label %31, label %25

25:                                               ; preds = %22
  %26 = load i32, ptr %3, align 4
  %27 = icmp eq i32 %26, 4
  br i1 %27, label %31, label %28

28:                                               ; preds = %25
  %29 = load i32, ptr %3, align 4
  %30 = icmp eq i32 %29, 6
  br label %31

31:                                               ; preds = %28, %25, %22
  %32 = phi i1 [ true, %25 ], [ true, %22 ], [ %30, %28 ]
  ret i1 %32
}

; Function Attrs: noinline nounwind optnone
define internal signext i32 @next(i32 noundef signext %0, i8 noundef zeroext %1) #0 {
  %3 = alloca i32, align 4
  %4 = alloca i32, align 4
  %5 = alloca i8, align 1
  %6 = alloca i32, align 4
  store i32 %0, ptr %4, align 4
  store i8 %1, ptr %5, align 1
  %7 = load i8, ptr %5, align 1
  %8 = zext i8 %7 to i32
  %9 = icmp sge i32 %8, 48
  br i1 %9, label %10, label %14

10:                                               ; preds = %2
  %11 = load i8, ptr %5, align 1
  %12 = zext i8 %11 to i32
  %13 = icmp sle i32 %12, 57
  br label %14

14:                                               ; preds = %10, %2
  %15 = phi i1 [ false, %2 ], [ %13, %10 ]
  %16 = zext i1 %15 to i32
  store i32 %16, ptr %6, align 4
  %17 = load i32, ptr %4, align 4
  switch i32 %17, label %77 [
    i32 0, label %18
    i32 1, label %32
    i32 2, label %37
    i32 3, label %52
    i32 4, label %57
    i32 5, label %67
    i32 6, label %72
  ]

18:                                               ; preds = %14
  %19 = load i8, ptr %5, align 1
  %20 = zext i8 %19 to i32
  %21 = icmp eq i32 %20, 45
  br i1 %21, label %26, label %22

22:                                               ; preds = %18
  %23 = load i8, ptr %5, align 1
  %24 = zext i8 %23 to i32
  %25 = icmp eq i32 %24, 43
  br i1 %25, label %26, label %27

26:                                               ; preds = %22, %18
  store i32 1, ptr %3, align 4
  br label %78

27:                                               ; preds = %22
  %28 = load i32, ptr %6, align 4
  %29 = icmp ne i32 %28, 0
  %30 = zext i1 %29 to i64
  %31 = select i1 %29, i32 2, i32 7
  store i32 %31, ptr %3, align 4
  br label %78

32:                                               ; preds = %14
  %33 = load i32, ptr %6, align 4
  %34 = icmp ne i32 %33, 0
  %35 = zext i1 %34 to i64
  %36 = select i1 %34, i32 2, i32 7
  store i32 %36, ptr %3, align 4
  br label %78

37:                                               ; preds = %14
  %38 = load i32, ptr %6, align 4
  %39 = icmp ne i32 %38, 0
  br i1 %39, label %40, label %41

40:                                               ; preds = %37
  store i32 2, ptr %3, align 4
  br label %78

41:                                               ; preds = %37
  %42 = load i8, ptr %5, align 1
  %43 = zext i8 %42 to i32
  %44 = icmp eq i32 %43, 46
  br i1 %44, label %45, label %46

45:                                               ; preds = %41
  store i32 3, ptr %3, align 4
  br label %78

46:                                               ; preds = %41
  %47 = load i8, ptr %5, align 1
  %48 = zext i8 %47 to i32
  %49 = icmp eq i32 %48, 101
  %50 = zext i1 %49 to i64
  %51 = select i1 %49, i32 5, i32 7
  store i32 %51, ptr %3, align 4
  br label %78

52:                                               ; preds = %14
  %53 = load i32, ptr %6, align 4
  %54 = icmp ne i32 %53, 0
  %55 = zext i1 %54 to i64
  %56 = select i1 %54, i32 4, i32 7
  store i32 %56, ptr %3, align 4
  br label %78

57:                                               ; preds = %14
  %58 = load i32, ptr %6, align 4
  %59 = icmp ne i32 %58, 0
  br i1 %59, label %60, label %61

60:                                               ; preds = %57
  store i32 4, ptr %3, align 4
  br label %78

61:                                               ; preds = %57
  %62 = load i8, ptr %5, align 1
  %63 = zext i8 %62 to i32
  %64 = icmp eq i32 %63, 101
  %65 = zext i1 %64 to i64
  %66 = select i1 %64, i32 5, i32 7
  store i32 %66, ptr %3, align 4
  br label %78

67:                                               ; preds = %14
  %68 = load i32, ptr %6, align 4
  %69 = icmp ne i32 %68, 0
  %70 = zext i1 %69 to i64
  %71 = select i1 %69, i32 6, i32 7
  store i32 %71, ptr %3, align 4
  br label %78

72:                                               ; preds = %14
  %73 = load i32, ptr %6, align 4
  %74 = icmp ne i32 %73, 0
  %75 = zext i1 %74 to i64
  %76 = select i1 %74, i32 6, i32 7
  store i32 %76, ptr %3, align 4
  br label %78

77:                                               ; preds = %14
  store i32 7, ptr %3, align 4
  br label %78

78:                                               ; preds = %77, %72, %67, %61, %60, %52, %46, %45, %40, %32, %27, %26
  %79 = load i32, ptr %3, align 4
  ret i32 %79
}

; Function Attrs: noinline nounwind optnone
define dso_local signext i32 @lamp(i32 noundef signext %0) #0 {
  %2 = alloca i32, align 4
  %3 = alloca i32, align 4
  %4 = alloca i32, align 4
  store i32 %0, ptr %2, align 4
  store i32 0, ptr %3, align 4
  store i32 3, ptr %4, align 4
  br label %5

5:                                                ; preds = %20, %13, %1
  %6 = load i32, ptr %2, align 4
  %7 = add i32 %6, -1
  store i32 %7, ptr %2, align 4
  %8 = icmp ne i32 %6, 0
  br i1 %8, label %9, label %21

9:                                                ; preds = %5
  %10 = load i32, ptr %4, align 4
  %11 = add nsw i32 %10, -1
  store i32 %11, ptr %4, align 4
  %12 = icmp ne i32 %11, 0
  br i1 %12, label %13, label %14

13:                                               ; preds = %9
  br label %5, !llvm.loop !11

14:                                               ; preds = %9
  %15 = load i32, ptr %3, align 4
  switch i32 %15, label %20 [
    i32 0, label %16
    i32 1, label %17
    i32 2, label %18
    i32 3, label %19
  ]

16:                                               ; preds = %14
  store i32 1, ptr %3, align 4
  store i32 1, ptr %4, align 4
  br label %20

17:                                               ; preds = %14
  store i32 2, ptr %3, align 4
  store i32 3, ptr %4, align 4
  br label %20

18:                                               ; preds = %14
  store i32 3, ptr %3, align 4
  store i32 1, ptr %4, align 4
  br label %20

19:                                               ; preds = %14
  store i32 0, ptr %3, align 4
  store i32 3, ptr %4, align 4
  br label %20

20:                                               ; preds = %14, %19, %18, %17, %16
  br label %5, !llvm.loop !11

21:                                               ; preds = %5
  %22 = load i32, ptr %3, align 4
  %23 = mul nsw i32 %22, 10
  %24 = load i32, ptr %4, align 4
  %25 = add nsw i32 %23, %24
  ret i32 %25
}

; Function Attrs: noinline nounwind optnone
define dso_local signext i32 @without_comments() #0 {
  %1 = alloca i32, align 4
  %2 = alloca i32, align 4
  %3 = alloca i32, align 4
  %4 = alloca i8, align 1
  store i32 0, ptr %1, align 4
  store i32 0, ptr %2, align 4
  store i32 0, ptr %3, align 4
  br label %5

5:                                                ; preds = %76, %0
  %6 = load i32, ptr %3, align 4
  %7 = sext i32 %6 to i64
  %8 = getelementptr inbounds [31 x i8], ptr @source, i64 0, i64 %7
  %9 = load i8, ptr %8, align 1
  %10 = icmp ne i8 %9, 0
  br i1 %10, label %11, label %79

11:                                               ; preds = %5
  %12 = load i32, ptr %3, align 4
  %13 = sext i32 %12 to i64
  %14 = getelementptr inbounds [31 x i8], ptr @source, i64 0, i64 %13
  %15 = load i8, ptr %14, align 1
  store i8 %15, ptr %4, align 1
  %16 = load i32, ptr %1, align 4
  switch i32 %16, label %75 [
    i32 0, label %17
    i32 1, label %28
    i32 2, label %46
    i32 3, label %52
    i32 4, label %65
  ]

17:                                               ; preds = %11
  %18 = load i8, ptr %4, align 1
  %19 = zext i8 %18 to i32
  %20 = icmp eq i32 %19, 47
  br i1 %20, label %21, label %22

21:                                               ; preds = %17
  store i32 1, ptr %1, align 4
  br label %27

22:                                               ; preds = %17
  %23 = load i8, ptr %4, align 1
  %24 = zext i8 %23 to i32
  %25 = load i32, ptr %2, align 4
  %26 = add nsw i32 %25, %24
  store i32 %26, ptr %2, align 4
  br label %27

27:                                               ; preds = %22, %21
  br label %75

28:                                               ; preds = %11
  %29 = load i8, ptr %4, align 1
  %30 = zext i8 %29 to i32
  %31 = icmp eq i32 %30, 42
  br i1 %31, label %32, label %33

32:                                               ; preds = %28
  store i32 2, ptr %1, align 4
  br label %45

33:                                               ; preds = %28
  %34 = load i8, ptr %4, align 1
  %35 = zext i8 %34 to i32
  %36 = icmp eq i32 %35, 47
  br i1 %36, label %37, label %38

37:                                               ; preds = %33
  store i32 4, ptr %1, align 4
  br label %44

38:                                               ; preds = %33
  %39 = load i8, ptr %4, align 1
  %40 = zext i8 %39 to i32
  %41 = add nsw i32 47, %40
  %42 = load i32, ptr %2, align 4
  %43 = add nsw i32 %42, %41
  store i32 %43, ptr %2, align 4
  store i32 0, ptr %1, align 4
  br label %44

44:                                               ; preds = %38, %37
  br label %45

45:                                               ; preds = %44, %32
  br label %75

46:                                               ; preds = %11
  %47 = load i8, ptr %4, align 1
  %48 = zext i8 %47 to i32
  %49 = icmp eq i32 %48, 42
  br i1 %49, label %50, label %51

50:                                               ; preds = %46
  store i32 3, ptr %1, align 4
  br label %51

51:                                               ; preds = %50, %46
  br label %75

52:                                               ; preds = %11
  %53 = load i8, ptr %4, align 1
  %54 = zext i8 %53 to i32
  %55 = icmp eq i32 %54, 47
  br i1 %55, label %56, label %57

56:                                               ; preds = %52
  br label %63

57:                                               ; preds = %52
  %58 = load i8, ptr %4, align 1
  %59 = zext i8 %58 to i32
  %60 = icmp eq i32 %59, 42
  %61 = zext i1 %60 to i64
  %62 = select i1 %60, i32 3, i32 2
  br label %63

63:                                               ; preds = %57, %56
  %64 = phi i32 [ 0, %56 ], [ %62, %57 ]
  store i32 %64, ptr %1, align 4
  br label %75

65:                                               ; preds = %11
  %66 = load i8, ptr %4, align 1
  %67 = zext i8 %66 to i32
  %68 = icmp eq i32 %67, 10
  br i1 %68, label %69, label %74

69:                                               ; preds = %65
  %70 = load i8, ptr %4, align 1
  %71 = zext i8 %70 to i32
  %72 = load i32, ptr %2, align 4
  %73 = add nsw i32 %72, %71
  store i32 %73, ptr %2, align 4
  store i32 0, ptr %1, align 4
  br label %74

74:                                               ; preds = %69, %65
  br label %75

75:                                               ; preds = %74, %11, %63, %51, %45, %27
  br label %76

76:                                               ; preds = %75
  %77 = load i32, ptr %3, align 4
  %78 = add nsw i32 %77, 1
  store i32 %78, ptr %3, align 4
  br label %5, !llvm.loop !12

79:                                               ; preds = %5
  %80 = load i32, ptr %2, align 4
  ret i32 %80
}

attributes #0 = { noinline nounwind optnone "frame-pointer"="all" "no-builtins" "no-trapping-math"="true" "stack-protector-buffer-size"="8" "target-cpu"="generic-rv64" "target-features"="+64bit,+m,+relax,+zmmul,-a,-b,-c,-d,-e,-experimental-smmpm,-experimental-smnpm,-experimental-ssnpm,-experimental-sspm,-experimental-ssqosid,-experimental-supm,-experimental-zacas,-experimental-zalasr,-experimental-zicfilp,-experimental-zicfiss,-f,-h,-shcounterenw,-shgatpa,-shtvala,-shvsatpa,-shvstvala,-shvstvecd,-smaia,-smcdeleg,-smcsrind,-smepmp,-smstateen,-ssaia,-ssccfg,-ssccptr,-sscofpmf,-sscounterenw,-sscsrind,-ssstateen,-ssstrict,-sstc,-sstvala,-sstvecd,-ssu64xl,-svade,-svadu,-svbare,-svinval,-svnapot,-svpbmt,-v,-xcvalu,-xcvbi,-xcvbitmanip,-xcvelw,-xcvmac,-xcvmem,-xcvsimd,-xsfcease,-xsfvcp,-xsfvfnrclipxfqf,-xsfvfwmaccqqq,-xsfvqmaccdod,-xsfvqmaccqoq,-xsifivecdiscarddlone,-xsifivecflushdlone,-xtheadba,-xtheadbb,-xtheadbs,-xtheadcmo,-xtheadcondmov,-xtheadfmemidx,-xtheadmac,-xtheadmemidx,-xtheadmempair,-xtheadsync,-xtheadvdot,-xventanacondops,-xwchc,-za128rs,-za64rs,-zaamo,-zabha,-zalrsc,-zama16b,-zawrs,-zba,-zbb,-zbc,-zbkb,-zbkc,-zbkx,-zbs,-zca,-zcb,-zcd,-zce,-zcf,-zcmop,-zcmp,-zcmt,-zdinx,-zfa,-zfbfmin,-zfh,-zfhmin,-zfinx,-zhinx,-zhinxmin,-zic64b,-zicbom,-zicbop,-zicboz,-ziccamoa,-ziccif,-zicclsm,-ziccrse,-zicntr,-zicond,-zicsr,-zifencei,-zihintntl,-zihintpause,-zihpm,-zimop,-zk,-zkn,-zknd,-zkne,-zknh,-zkr,-zks,-zksed,-zksh,-zkt,-ztso,-zvbb,-zvbc,-zve32f,-zve32x,-zve64d,-zve64f,-zve64x,-zvfbfmin,-zvfbfwma,-zvfh,-zvfhmin,-zvkb,-zvkg,-zvkn,-zvknc,-zvkned,-zvkng,-zvknha,-zvknhb,-zvks,-zvksc,-zvksed,-zvksg,-zvksh,-zvkt,-zvl1024b,-zvl128b,-zvl16384b,-zvl2048b,-zvl256b,-zvl32768b,-zvl32b,-zvl4096b,-zvl512b,-zvl64b,-zvl65536b,-zvl8192b" }
attributes #1 = { nobuiltin "no-builtins" }

!llvm.module.flags = !{!0, !1, !2, !4, !5, !6, !7}
!llvm.ident = !{!8}

!0 = !{i32 1, !"wchar_size", i32 4}
!1 = !{i32 1, !"target-abi", !"lp64"}
!2 = !{i32 6, !"riscv-isa", !3}
!3 = !{!"rv64i2p1_m2p0_zmmul1p0"}
!4 = !{i32 8, !"PIC Level", i32 2}
!5 = !{i32 7, !"PIE Level", i32 2}
!6 = !{i32 7, !"frame-pointer", i32 2}
!7 = !{i32 8, !"SmallDataLimit", i32 8}
!8 = !{!"Debian clang version 19.1.7 (3~deb12u1)"}
!9 = distinct !{!9, !10}
!10 = !{!"llvm.loop.mustprogress"}
!11 = distinct !{!11, !10}
!12 = distinct !{!12, !10}
