; ModuleID = 'gcd.c'
source_filename = "gcd.c"
target datalayout = "e-m:e-p:64:64-i64:64-i128:128-n32:64-S128"
target triple = "riscv64-unknown-linux-gnu"

; Function Attrs: noinline nounwind optnone
define dso_local signext i32 @gcd(i32 noundef signext %0, i32 noundef signext %1) #0 {
  %3 = alloca i32, align 4
  %4 = alloca i32, align 4
  %5 = alloca i32, align 4
  store i32 %0, ptr %3, align 4
  store i32 %1, ptr %4, align 4
  br label %6

6:                                                ; preds = %9, %2
  %7 = load i32, ptr %4, align 4
  %8 = icmp ne i32 %7, 0
  br i1 %8, label %9, label %15

9:                                                ; preds = %6
  %10 = load i32, ptr %3, align 4
  %11 = load i32, ptr %4, align 4
  %12 = urem i32 %10, %11
  store i32 %12, ptr %5, align 4
  %13 = load i32, ptr %4, align 4
  store i32 %13, ptr %3, align 4
  %14 = load i32, ptr %5, align 4
  store i32 %14, ptr %4, align 4
  br label %6, !llvm.loop !9

15:                                               ; preds = %6
  %16 = load i32, ptr %3, align 4
  ret i32 %16
}

; Function Attrs: noinline nounwind optnone
define dso_local i64 @gcd_by_calls(i64 noundef %0, i64 noundef %1) #0 {
  %3 = alloca i64, align 8
  %4 = alloca i64, align 8
  store i64 %0, ptr %3, align 8
  store i64 %1, ptr %4, align 8
  %5 = load i64, ptr %4, align 8
  %6 = icmp eq i64 %5, 0
  br i1 %6, label %7, label %17

7:                                                ; preds = %2
  %8 = load i64, ptr %3, align 8
  %9 = icmp slt i64 %8, 0
  br i1 %9, label %10, label %13

10:                                               ; preds = %7
  %11 = load i64, ptr %3, align 8
  %12 = sub nsw i64 0, %11
  br label %15

13:                                               ; preds = %7
  %14 = load i64, ptr %3, align 8
  br label %15

15:                                               ; preds = %13, %10
  %16 = phi i64 [ %12, %10 ], [ %14, %13 ]
  br label %23

17:                                               ; preds = %2
  %18 = load i64, ptr %4, align 8
  %19 = load i64, ptr %3, align 8
  %20 = load i64, ptr %4, align 8
  %21 = srem i64 %19, %20
  %22 = call i64 @gcd_by_calls(i64 noundef %18, i64 noundef %21) #1
  br label %23

23:                                               ; preds = %17, %15
  %24 = phi i64 [ %16, %15 ], [ %22, %17 ]
  ret i64 %24
}

; Function Attrs: noinline nounwind optnone
define dso_local i64 @lcm(i32 noundef signext %0, i32 noundef signext %1) #0 {
  %3 = alloca i32, align 4
  %4 = alloca i32, align 4
  store i32 %0, ptr %3, align 4
  store i32 %1, ptr %4, align 4
  %5 = load i32, ptr %3, align 4
  %6 = icmp ne i32 %5, 0
  br i1 %6, label %7, label %21

7:                                                ; preds = %2
  %8 = load i32, ptr %4, align 4
  %9 = icmp ne i32 %8, 0
  br i1 %9, label %10, label %21

10:                                               ; preds = %7
  %11 = load i32, ptr %3, align 4
  %12 = zext i32 %11 to i64
  %13 = load i32, ptr %3, align 4
  %14 = load i32, ptr %4, align 4
  %15 = call signext i32 @gcd(i32 noundef signext %13, i32 noundef signext %14) #1
  %16 = zext i32 %15 to i64
  %17 = udiv i64 %12, %16
  %18 = load i32, ptr %4, align 4
  %19 = zext i32 %18 to i64
  %20 = mul i64 %17, %19
  br label %22

21:                                               ; preds = %7, %2
  br label %22

22:                                               ; preds = %21, %10
  %23 = phi i64 [ %20, %10 ], [ 0, %21 ]
  ret i64 %23
}

; Function Attrs: noinline nounwind optnone
define dso_local i64 @inverse(i64 noundef %0, i64 noundef %1) #0 {
  %3 = alloca i64, align 8
  %4 = alloca i64, align 8
  %5 = alloca i64, align 8
  %6 = alloca i64, align 8
  %7 = alloca i64, align 8
  %8 = alloca i64, align 8
  %9 = alloca i64, align 8
  %10 = alloca i64, align 8
  %11 = alloca i64, align 8
  %12 = alloca i64, align 8
  store i64 %0, ptr %4, align 8
  store i64 %1, ptr %5, align 8
  %13 = load i64, ptr %5, align 8
  store i64 %13, ptr %6, align 8
  %14 = load i64, ptr %4, align 8
  %15 = load i64, ptr %5, align 8
  %16 = srem i64 %14, %15
  store i64 %16, ptr %7, align 8
  store i64 0, ptr %8, align 8
  store i64 1, ptr %9, align 8
  br label %17

17:                                               ; preds = %20, %2
  %18 = load i64, ptr %7, align 8
  %19 = icmp ne i64 %18, 0
  br i1 %19, label %20, label %38

20:                                               ; preds = %17
  %21 = load i64, ptr %6, align 8
  %22 = load i64, ptr %7, align 8
  %23 = sdiv i64 %21, %22
  store i64 %23, ptr %10, align 8
  %24 = load i64, ptr %6, align 8
  %25 = load i64, ptr %10, align 8
  %26 = load i64, ptr %7, align 8
  %27 = mul nsw i64 %25, %26
  %28 = sub nsw i64 %24, %27
  store i64 %28, ptr %11, align 8
  %29 = load i64, ptr %8, align 8
  %30 = load i64, ptr %10, align 8
  %31 = load i64, ptr %9, align 8
  %32 = mul nsw i64 %30, %31
  %33 = sub nsw i64 %29, %32
  store i64 %33, ptr %12, align 8
  %34 = load i64, ptr %7, align 8
  store i64 %34, ptr %6, align 8
  %35 = load i64, ptr %11, align 8
  store i64 %35, ptr %7, align 8
  %36 = load i64, ptr %9, align 8
  store i64 %36, ptr %8, align 8
  %37 = load i64, ptr %12, align 8
  store i64 %37, ptr %9, align 8
  br label %17, !llvm.loop !11

38:                                               ; preds = %17
  %39 = load i64, ptr %6, align 8
  %40 = icmp ne i64 %39, 1
  br i1 %40, label %41, label %42

41:                                               ; preds = %38
  store i64 -1, ptr %3, align 8
  br label %53

42:                                               ; preds = %38
  %43 = load i64, ptr %8, align 8
  %44 = icmp slt i64 %43, 0
  br i1 %44, label %45, label %49

45:                                               ; preds = %42
  %46 = load i64, ptr %8, align 8
  %47 = load i64, ptr %5, align 8
  %48 = add nsw i64 %46, %47
  br label %51

49:                                               ; preds = %42
  %50 = load i64, ptr %8, align 8
  br label %51

51:                                               ; preds = %49, %45
  %52 = phi i64 [ %48, %45 ], [ %50, %49 ]
  store i64 %52, ptr %3, align 8
  br label %53

53:                                               ; preds = %51, %41
  %54 = load i64, ptr %3, align 8
  ret i64 %54
}

; Function Attrs: noinline nounwind optnone
define dso_local signext i32 @binary_gcd(i32 noundef signext %0, i32 noundef signext %1) #0 {
  %3 = alloca i32, align 4
  %4 = alloca i32, align 4
  %5 = alloca i32, align 4
  %6 = alloca i32, align 4
  %7 = alloca i32, align 4
  store i32 %0, ptr %4, align 4
  store i32 %1, ptr %5, align 4
  store i32 0, ptr %6, align 4
  %8 = load i32, ptr %4, align 4
  %9 = icmp ne i32 %8, 0
  br i1 %9, label %12, label %10

10:                                               ; preds = %2
  %11 = load i32, ptr %5, align 4
  store i32 %11, ptr %3, align 4
  br label %70

12:                                               ; preds = %2
  %13 = load i32, ptr %5, align 4
  %14 = icmp ne i32 %13, 0
  br i1 %14, label %17, label %15

15:                                               ; preds = %12
  %16 = load i32, ptr %4, align 4
  store i32 %16, ptr %3, align 4
  br label %70

17:                                               ; preds = %12
  br label %18

18:                                               ; preds = %25, %17
  %19 = load i32, ptr %4, align 4
  %20 = load i32, ptr %5, align 4
  %21 = or i32 %19, %20
  %22 = and i32 %21, 1
  %23 = icmp ne i32 %22, 0
  %24 = xor i1 %23, true
  br i1 %24, label %25, label %32

25:                                               ; preds = %18
  %26 = load i32, ptr %4, align 4
  %27 = lshr i32 %26, 1
  store i32 %27, ptr %4, align 4
  %28 = load i32, ptr %5, align 4
  %29 = lshr i32 %28, 1
  store i32 %29, ptr %5, align 4
  %30 = load i32, ptr %6, align 4
  %31 = add nsw i32 %30, 1
  store i32 %31, ptr %6, align 4
  br label %18, !llvm.loop !12

32:                                               ; preds = %18
  br label %33

33:                                               ; preds = %38, %32
  %34 = load i32, ptr %4, align 4
  %35 = and i32 %34, 1
  %36 = icmp ne i32 %35, 0
  %37 = xor i1 %36, true
  br i1 %37, label %38, label %41

38:                                               ; preds = %33
  %39 = load i32, ptr %4, align 4
  %40 = lshr i32 %39, 1
  store i32 %40, ptr %4, align 4
  br label %33, !llvm.loop !13

41:                                               ; preds = %33
  br label %42

42:                                               ; preds = %63, %41
  br label %43

43:                                               ; preds = %48, %42
  %44 = load i32, ptr %5, align 4
  %45 = and i32 %44, 1
  %46 = icmp ne i32 %45, 0
  %47 = xor i1 %46, true
  br i1 %47, label %48, label %51

48:                                               ; preds = %43
  %49 = load i32, ptr %5, align 4
  %50 = lshr i32 %49, 1
  store i32 %50, ptr %5, align 4
  br label %43, !llvm.loop !14

51:                                               ; preds = %43
  %52 = load i32, ptr %4, align 4
  %53 = load i32, ptr %5, align 4
  %54 = icmp ugt i32 %52, %53
  br i1 %54, label %55, label %59

55:                                               ; preds = %51
  %56 = load i32, ptr %4, align 4
  store i32 %56, ptr %7, align 4
  %57 = load i32, ptr %5, align 4
  store i32 %57, ptr %4, align 4
  %58 = load i32, ptr %7, align 4
  store i32 %58, ptr %5, align 4
  br label %59

59:                                               ; preds = %55, %51
  %60 = load i32, ptr %4, align 4
  %61 = load i32, ptr %5, align 4
  %62 = sub i32 %61, %60
  store i32 %62, ptr %5, align 4
  br label %63

63:                                               ; preds = %59
  %64 = load i32, ptr %5, align 4
  %65 = icmp ne i32 %64, 0
  br i1 %65, label %42, label %66, !llvm.loop !15

66:                                               ; preds = %63
  %67 = load i32, ptr %4, align 4
  %68 = load i32, ptr %6, align 4
  %69 = shl i32 %67, %68
  store i32 %69, ptr %3, align 4
  br label %70

70:                                               ; preds = %66, %15, %10
  %71 = load i32, ptr %3, align 4
  ret i32 %71
}

attributes #0 = { noinline nounwind optnone "frame-pointer"="all" "no-builtins" "no-trapping-math"="true" "stack-protector-buffer-size"="8" "target-cpu"="generic-rv64" "target-features"="+64bit,+m,+relax,+zmmul,-a,-b,-c,-d,-e,-experimental-smmpm,-experimental-smnpm,-experimental-ssnpm,-experimental-sspm,-experimental-ssqosid,-experimental-supm,-experimental-zacas,-experimental-zalasr,-experimental-zicfilp,-experimental-zicfiss,-f,-h,-shcounterenw,-shgatpa,-shtvala,-shvsatpa,-shvstvala,-shvstvecd,-smaia,-smcdeleg,-smcsrind,-smepmp,-smstateen,-ssaia,-ssccfg,-ssccptr,-sscofpmf,-sscounterenw,-sscsrind,-ssstateen,-ssstrict,-sstc,-sstvala,-sstvecd,-ssu64xl,-svade,-svadu,-svbare,-svinval,-svnapot,-svpbmt,-v,-xcvalu,-xcvbi,-xcvbitmanip,-xcvelw,-xcvmac,-xcvmem,-xcvsimd,-xsfcease,-xsfvcp,-xsfvfnrclipxfqf,-xsfvfwmaccqqq,-xsfvqmaccdod,-xsfvqmaccqoq,-xsifivecdiscarddlone,-xsifivecflushdlone,-xtheadba,-xtheadbb,-xtheadbs,-xtheadcmo,-xtheadcondmov,-xtheadfmemidx,-xtheadmac,-xtheadmemidx,-xtheadmempair,-xtheadsync,-xtheadvdot,-xventanacondops,-xwchc,-za128rs,-za64rs,-zaamo,-zabha,-zalrsc,-zama16b,-zawrs,-zba,-zbb,-zbc,-zbkb,-zbkc,-zbkx,-zbs,-zca,-zcb,-zcd,-zce,-zcf,-zcmop,-zcmp,-zcmt,-zdinx,-zfa,-zfbfmin,-zfh,-zfhmin,-zfinx,-zhinx,-zhinxmin,-zic64b,-zicbom,-zicbop,-zicboz,-ziccamoa,-ziccif,-zicclsm,-ziccrse,-zicntr,-zicond,-zicsr,-zifencei,-zihintntl,-zihintpause,-zihpm,-zimop,-zk,-zkn,-zknd,-zkne,-zknh,-zkr,-zks,-zksed,-zksh,-zkt,-ztso,-zvbb,-zvbc,-zve32f,-zve32x,-zve64d,-zve64f,-zve64x,-zvfbfmin,-zvfbfwma,-zvfh,-zvfhmin,-zvkb,-zvkg,-zvkn,-zvknc,-zvkned,-zvkng,-zvknha,-zvknhb,-zvks,-zvksc,-zvksed,-zvksg,-zvksh,-zvkt,-zvl1024b,-zvl128b,-zvl16384b,-zvl2048b,-zvl256b,-zvl32768b,-zvl32b,-zvl4096b,-zvl512b,-zvl64b,-zvl65536b,-zvl8192b" }
attributes #1 = { nobuiltin "no-builtins" }

!llvm.module.flags = !{!0, !1, !2, !4, !5, !6, !7}
!llvm.ident = !{!8}

!0 = !{i32 1, !"wchar_size", i32 4}
!1 = !{i32 1, !"target-abi", !"lp64"}
!2 = !{i32 6, !"riscv-isa", !3}
!3 = !{!"rv64i2p1_m2p0_zmmul1p0"}
!4 = !{i32 8, !"PIC Level", i32 2}
!5 = !{i32 7, !"PIE Level", i32 2}
!6 = !{i32 7, !"frame-pointer", i32 2}
!7 = !{i32 8, !"SmallDataLimit", i32 8}
!8 = !{!"Debian clang version 19.1.7 (3~deb12u1)"}
!9 = distinct !{!9, !10}
!10 = !{!"llvm.loop.mustprogress"}
!11 = distinct !{!11, !10}
!12 = distinct !{!12, !10}
!13 = distinct !{!13, !10}
!14 = distinct !{!14, !10}
!15 = distinct !{!15, !10}
