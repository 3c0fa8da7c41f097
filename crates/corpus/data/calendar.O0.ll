; ModuleID = 'calendar.c'
source_filename = "calendar.c"
target datalayout = "e-m:e-p:64:64-i64:64-i128:128-n32:64-S128"
target triple = "riscv64-unknown-linux-gnu"

@lengths = internal constant [12 x i8] c"\1F\1C\1F\1E\1F\1E\1F\1F\1E\1F\1E\1F", align 1

; Function Attrs: noinline nounwind optnone
define dso_local zeroext i1 @is_leap(i32 noundef signext %0) #0 {
  %2 = alloca i32, align 4
  store i32 %0, ptr %2, align 4
  %3 = load i32, ptr %2, align 4
  %4 = srem i32 %3, 4
  %5 = icmp eq i32 %4, 0
  br i1 %5, label %6, label %10

6:                                                ; preds = %1
  %7 = load i32, ptr %2, align 4
  %8 = srem i32 %7, 100
  %9 = icmp ne i32 %8, 0
  br i1 %9, label %14, label %10

10:                                               ; preds = %6, %1
  %11 = load i32, ptr %2, align 4
  %12 = srem i32 %11, 400
  %13 = icmp eq i32 %12, 0
  br label %14

14:                                               ; preds = %10, %6
  %15 = phi i1 [ true, %6 ], [ %13, %10 ]
  ret i1 %15
}

; Function Attrs: noinline nounwind optnone
define dso_local signext i32 @days_in(i32 noundef signext %0, i32 noundef signext %1) #0 {
  %3 = alloca i32, align 4
  %4 = alloca i32, align 4
  %5 = alloca i32, align 4
  store i32 %0, ptr %4, align 4
  store i32 %1, ptr %5, align 4
  %6 = load i32, ptr %5, align 4
  %7 = icmp slt i32 %6, 1
  br i1 %7, label %11, label %8

8:                                                ; preds = %2
  %9 = load i32, ptr %5, align 4
  %10 = icmp sgt i32 %9, 12
  br i1 %10, label %11, label %12

11:                                               ; preds = %8, %2
  store i32 0, ptr %3, align 4
  br label %28

12:                                               ; preds = %8
  %13 = load i32, ptr %5, align 4
  %14 = icmp eq i32 %13, 2
  br i1 %14, label %15, label %19

15:                                               ; preds = %12
  %16 = load i32, ptr %4, align 4
  %17 = call zeroext i1 @is_leap(i32 noundef signext %16) #1
  br i1 %17, label %18, label %19

18:                                               ; preds = %15
  br label %26

19:                                               ; preds = %15, %12
  %20 = load i32, ptr %5, align 4
  %21 = sub nsw i32 %20, 1
  %22 = sext i32 %21 to i64
  %23 = getelementptr inbounds [12 x i8], ptr @lengths, i64 0, i64 %22
  %24 = load i8, ptr %23, align 1
  %25 = zext i8 %24 to i32
  br label %26

26:                                               ; preds = %19, %18
  %27 = phi i32 [ 29, %18 ], [ %25, %19 ]
  store i32 %27, ptr %3, align 4
  br label %28

28:                                               ; preds = %26, %11
  %29 = load i32, ptr %3, align 4
  ret i32 %29
}

; Function Attrs: noinline nounwind optnone
define dso_local i64 @day_number(i64 noundef %0, i32 noundef signext %1, i32 noundef signext %2) #0 {
  %4 = alloca i64, align 8
  %5 = alloca i32, align 4
  %6 = alloca i32, align 4
  %7 = alloca i64, align 8
  %8 = alloca i32, align 4
  %9 = alloca i32, align 4
  %10 = alloca i32, align 4
  store i64 %0, ptr %4, align 8
  store i32 %1, ptr %5, align 4
  store i32 %2, ptr %6, align 4
  %11 = load i32, ptr %5, align 4
  %12 = icmp ule i32 %11, 2
  %13 = zext i1 %12 to i32
  %14 = sext i32 %13 to i64
  %15 = load i64, ptr %4, align 8
  %16 = sub nsw i64 %15, %14
  store i64 %16, ptr %4, align 8
  %17 = load i64, ptr %4, align 8
  %18 = icmp sge i64 %17, 0
  br i1 %18, label %19, label %21

19:                                               ; preds = %3
  %20 = load i64, ptr %4, align 8
  br label %24

21:                                               ; preds = %3
  %22 = load i64, ptr %4, align 8
  %23 = sub nsw i64 %22, 399
  br label %24

24:                                               ; preds = %21, %19
  %25 = phi i64 [ %20, %19 ], [ %23, %21 ]
  %26 = sdiv i64 %25, 400
  store i64 %26, ptr %7, align 8
  %27 = load i64, ptr %4, align 8
  %28 = load i64, ptr %7, align 8
  %29 = mul nsw i64 %28, 400
  %30 = sub nsw i64 %27, %29
  %31 = trunc i64 %30 to i32
  store i32 %31, ptr %8, align 4
  %32 = load i32, ptr %5, align 4
  %33 = icmp ugt i32 %32, 2
  br i1 %33, label %34, label %37

34:                                               ; preds = %24
  %35 = load i32, ptr %5, align 4
  %36 = sub i32 %35, 3
  br label %40

37:                                               ; preds = %24
  %38 = load i32, ptr %5, align 4
  %39 = add i32 %38, 9
  br label %40

40:                                               ; preds = %37, %34
  %41 = phi i32 [ %36, %34 ], [ %39, %37 ]
  %42 = mul i32 153, %41
  %43 = add i32 %42, 2
  %44 = udiv i32 %43, 5
  %45 = load i32, ptr %6, align 4
  %46 = add i32 %44, %45
  %47 = sub i32 %46, 1
  store i32 %47, ptr %9, align 4
  %48 = load i32, ptr %8, align 4
  %49 = mul i32 %48, 365
  %50 = load i32, ptr %8, align 4
  %51 = udiv i32 %50, 4
  %52 = add i32 %49, %51
  %53 = load i32, ptr %8, align 4
  %54 = udiv i32 %53, 100
  %55 = sub i32 %52, %54
  %56 = load i32, ptr %9, align 4
  %57 = add i32 %55, %56
  store i32 %57, ptr %10, align 4
  %58 = load i64, ptr %7, align 8
  %59 = mul nsw i64 %58, 146097
  %60 = load i32, ptr %10, align 4
  %61 = zext i32 %60 to i64
  %62 = add nsw i64 %59, %61
  %63 = sub nsw i64 %62, 719468
  ret i64 %63
}

; Function Attrs: noinline nounwind optnone
define dso_local signext i32 @weekday(i64 noundef %0, i32 noundef signext %1, i32 noundef signext %2) #0 {
  %4 = alloca i64, align 8
  %5 = alloca i32, align 4
  %6 = alloca i32, align 4
  %7 = alloca i64, align 8
  store i64 %0, ptr %4, align 8
  store i32 %1, ptr %5, align 4
  store i32 %2, ptr %6, align 4
  %8 = load i64, ptr %4, align 8
  %9 = load i32, ptr %5, align 4
  %10 = load i32, ptr %6, align 4
  %11 = call i64 @day_number(i64 noundef %8, i32 noundef signext %9, i32 noundef signext %10) #1
  store i64 %11, ptr %7, align 8
  %12 = load i64, ptr %7, align 8
  %13 = icmp sge i64 %12, -4
  br i1 %13, label %14, label %18

14:                                               ; preds = %3
  %15 = load i64, ptr %7, align 8
  %16 = add nsw i64 %15, 4
  %17 = srem i64 %16, 7
  br label %23

18:                                               ; preds = %3
  %19 = load i64, ptr %7, align 8
  %20 = add nsw i64 %19, 5
  %21 = srem i64 %20, 7
  %22 = add nsw i64 %21, 6
  br label %23

23:                                               ; preds = %18, %14
  %24 = phi i64 [ %17, %14 ], [ %22, %18 ]
  %25 = trunc i64 %24 to i32
  ret i32 %25
}

; Function Attrs: noinline nounwind optnone
define dso_local signext i32 @season(i32 noundef signext %0) #0 {
  %2 = alloca i32, align 4
  %3 = alloca i32, align 4
  store i32 %0, ptr %3, align 4
  %4 = load i32, ptr %3, align 4
  switch i32 %4, label %9 [
    i32 12, label %5
    i32 1, label %5
    i32 2, label %5
    i32 3, label %6
    i32 4, label %6
    i32 5, label %6
    i32 6, label %7
    i32 7, label %7
    i32 8, label %7
    i32 9, label %8
    i32 10, label %8
    i32 11, label %8
  ]

5:                                                ; preds = %1, %1, %1
  store i32 0, ptr %2, align 4
  br label %10

6:                                                ; preds = %1, %1, %1
  store i32 1, ptr %2, align 4
  br label %10

7:                                                ; preds = %1, %1, %1
  store i32 2, ptr %2, align 4
  br label %10

8:                                                ; preds = %1, %1, %1
  store i32 3, ptr %2, align 4
  br label %10

9:                                                ; preds = %1
  store i32 -1, ptr %2, align 4
  br label %10

10:                                               ; preds = %9, %8, %7, %6, %5
  %11 = load i32, ptr %2, align 4
  ret i32 %11
}

; Function Attrs: noinline nounwind optnone
define dso_local i64 @seconds(i32 noundef signext %0, i32 noundef signext %1, i32 noundef signext %2) #0 {
  %4 = alloca i32, align 4
  %5 = alloca i32, align 4
  %6 = alloca i32, align 4
  store i32 %0, ptr %4, align 4
  store i32 %1, ptr %5, align 4
  store i32 %2, ptr %6, align 4
  %7 = load i32, ptr %4, align 4
  %8 = sext i32 %7 to i64
  %9 = mul nsw i64 %8, 3600
  %10 = load i32, ptr %5, align 4
  %11 = sext i32 %10 to i64
  %12 = mul nsw i64 %11, 60
  %13 = add nsw i64 %9, %12
  %14 = load i32, ptr %6, align 4
  %15 = sext i32 %14 to i64
  %16 = add nsw i64 %13, %15
  ret i64 %16
}

; Function Attrs: noinline nounwind optnone
define dso_local signext i32 @clock_of(i64 noundef %0) #0 {
  %2 = alloca i64, align 8
  %3 = alloca i64, align 8
  store i64 %0, ptr %2, align 8
  %4 = load i64, ptr %2, align 8
  %5 = srem i64 %4, 86400
  store i64 %5, ptr %3, align 8
  %6 = load i64, ptr %3, align 8
  %7 = icmp slt i64 %6, 0
  br i1 %7, label %8, label %11

8:                                                ; preds = %1
  %9 = load i64, ptr %3, align 8
  %10 = add nsw i64 %9, 86400
  store i64 %10, ptr %3, align 8
  br label %11

11:                                               ; preds = %8, %1
  %12 = load i64, ptr %3, align 8
  %13 = sdiv i64 %12, 3600
  %14 = mul nsw i64 %13, 10000
  %15 = load i64, ptr %3, align 8
  %16 = sdiv i64 %15, 60
  %17 = srem i64 %16, 60
  %18 = mul nsw i64 %17, 100
  %19 = add nsw i64 %14, %18
  %20 = load i64, ptr %3, align 8
  %21 = srem i64 %20, 60
  %22 = add nsw i64 %19, %21
  %23 = trunc i64 %22 to i32
  ret i32 %23
}

attributes #0 = { noinline nounwind optnone "frame-pointer"="all" "no-builtins" "no-trapping-math"="true" "stack-protector-buffer-size"="8" "target-cpu"="generic-rv64" "target-features"="+64bit,+m,+relax,+zmmul,-a,-b,-c,-d,-e,-experimental-smmpm,-experimental-smnpm,-experimental-ssnpm,-experimental-sspm,-experimental-ssqosid,-experimental-supm,-experimental-zacas,-experimental-zalasr,-experimental-zicfilp,-experimental-zicfiss,-f,-h,-shcounterenw,-shgatpa,-shtvala,-shvsatpa,-shvstvala,-shvstvecd,-smaia,-smcdeleg,-smcsrind,-smepmp,-smstateen,-ssaia,-ssccfg,-ssccptr,-sscofpmf,-sscounterenw,-sscsrind,-ssstateen,-ssstrict,-sstc,-sstvala,-sstvecd,-ssu64xl,-svade,-svadu,-svbare,-svinval,-svnapot,-svpbmt,-v,-xcvalu,-xcvbi,-xcvbitmanip,-xcvelw,-xcvmac,-xcvmem,-xcvsimd,-xsfcease,-xsfvcp,-xsfvfnrclipxfqf,-xsfvfwmaccqqq,-xsfvqmaccdod,-xsfvqmaccqoq,-xsifivecdiscarddlone,-xsifivecflushdlone,-xtheadba,-xtheadbb,-xtheadbs,-xtheadcmo,-xtheadcondmov,-xtheadfmemidx,-xtheadmac,-xtheadmemidx,-xtheadmempair,-xtheadsync,-xtheadvdot,-xventanacondops,-xwchc,-za128rs,-za64rs,-zaamo,-zabha,-zalrsc,-zama16b,-zawrs,-zba,-zbb,-zbc,-zbkb,-zbkc,-zbkx,-zbs,-zca,-zcb,-zcd,-zce,-zcf,-zcmop,-zcmp,-zcmt,-zdinx,-zfa,-zfbfmin,-zfh,-zfhmin,-zfinx,-zhinx,-zhinxmin,-zic64b,-zicbom,-zicbop,-zicboz,-ziccamoa,-ziccif,-zicclsm,-ziccrse,-zicntr,-zicond,-zicsr,-zifencei,-zihintntl,-zihintpause,-zihpm,-zimop,-zk,-zkn,-zknd,-zkne,-zknh,-zkr,-zks,-zksed,-zksh,-zkt,-ztso,-zvbb,-zvbc,-zve32f,-zve32x,-zve64d,-zve64f,-zve64x,-zvfbfmin,-zvfbfwma,-zvfh,-zvfhmin,-zvkb,-zvkg,-zvkn,-zvknc,-zvkned,-zvkng,-zvknha,-zvknhb,-zvks,-zvksc,-zvksed,-zvksg,-zvksh,-zvkt,-zvl1024b,-zvl128b,-zvl16384b,-zvl2048b,-zvl256b,-zvl32768b,-zvl32b,-zvl4096b,-zvl512b,-zvl64b,-zvl65536b,-zvl8192b" }
attributes #1 = { nobuiltin "no-builtins" }

!llvm.module.flags = !{!0, !1, !2, !4, !5, !6, !7}
!llvm.ident = !{!8}

!0 = !{i32 1, !"wchar_size", i32 4}
!1 = !{i32 1, !"target-abi", !"lp64"}
!2 = !{i32 6, !"riscv-isa", !3}
!3 = !{!"rv64i2p1_m2p0_zmmul1p0"}
!4 = !{i32 8, !"PIC Level", i32 2}
!5 = !{i32 7, !"PIE Level", i32 2}
!6 = !{i32 7, !"frame-pointer", i32 2}
!7 = !{i32 8, !"SmallDataLimit", i32 8}
!8 = !{!"Debian clang version 19.1.7 (3~deb12u1)"}
