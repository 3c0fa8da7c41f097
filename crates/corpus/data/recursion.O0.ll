; ModuleID = 'recursion.c'
source_filename = "recursion.c"
target datalayout = "e-m:e-p:64:64-i64:64-i128:128-n32:64-S128"
target triple = "riscv64-unknown-linux-gnu"

@moves = internal global i64 0, align 8

; Function Attrs: noinline nounwind optnone
define dso_local signext i32 @ack(i32 noundef signext %0, i32 noundef signext %1) #0 {
  %3 = alloca i32, align 4
  %4 = alloca i32, align 4
  store i32 %0, ptr %3, align 4
  store i32 %1, ptr %4, align 4
  %5 = load i32, ptr %3, align 4
  %6 = load i32, ptr %4, align 4
  %7 = call signext i32 @ackermann(i32 noundef signext %5, i32 noundef signext %6) #1
  ret i32 %7
}

; Function Attrs: noinline nounwind optnone
define internal signext i32 @ackermann(i32 noundef signext %0, i32 noundef signext %1) #0 {
  %3 = alloca i32, align 4
  %4 = alloca i32, align 4
  store i32 %0, ptr %3, align 4
  store i32 %1, ptr %4, align 4
  %5 = load i32, ptr %3, align 4
  %6 = icmp eq i32 %5, 0
  br i1 %6, label %7, label %10

7:                                                ; preds = %2
  %8 = load i32, ptr %4, align 4
  %9 = add nsw i32 %8, 1
  br label %27

10:                                               ; preds = %2
  %11 = load i32, ptr %4, align 4
  %12 = icmp eq i32 %11, 0
  br i1 %12, label %13, label %17

13:                                               ; preds = %10
  %14 = load i32, ptr %3, align 4
  %15 = sub nsw i32 %14, 1
  %16 = call signext i32 @ackermann(i32 noundef signext %15, i32 noundef signext 1) #1
  br label %25

17:                                               ; preds = %10
  %18 = load i32, ptr %3, align 4
  %19 = sub nsw i32 %18, 1
  %20 = load i32, ptr %3, align 4
  %21 = load i32, ptr %4, align 4
  %22 = sub nsw i32 %21, 1
  %23 = call signext i32 @ackermann(i32 noundef signext %20, i32 noundef signext %22) #1
  %24 = call signext i32 @ackermann(i32 noundef signext %19, i32 noundef signext %23) #1
  br label %25

25:                                               ; preds = %17, %13
  %26 = phi i32 [ %16, %13 ], [ %24, %17 ]
  br label %27

27:                                               ; preds = %25, %7
  %28 = phi i32 [ %9, %7 ], [ %26, %25 ]
  ret i32 %28
}

; Function Attrs: noinline nounwind optnone
define dso_local zeroext i1 @is_even(i32 noundef signext %0) #0 {
  %2 = alloca i32, align 4
  store i32 %0, ptr %2, align 4
  %3 = load i32, ptr %2, align 4
  %4 = icmp eq i32 %3, 0
  br i1 %4, label %9, label %5

5:                                                ; preds = %1
  %6 = load i32, ptr %2, align 4
  %7 = sub i32 %6, 1
  %8 = call zeroext i1 @is_odd(i32 noundef signext %7) #1
  br label %9

9:                                                ; preds = %5, %1
  %10 = phi i1 [ true, %1 ], [ %8, %5 ]
  ret i1 %10
}

; Function Attrs: noinline nounwind optnone
define internal zeroext i1 @is_odd(i32 noundef signext %0) #0 {
  %2 = alloca i32, align 4
  store i32 %0, ptr %2, align 4
  %3 = load i32, ptr %2, align 4
  %4 = icmp ne i32 %3, 0
  br i1 %4, label %5, label %9

5:                                                ; preds = %1
  %6 = load i32, ptr %2, align 4
  %7 = sub i32 %6, 1
  %8 = call zeroext i1 @is_even(i32 noundef signext %7) #1
  br label %9

9:                                                ; preds = %5, %1
  %10 = phi i1 [ false, %1 ], [ %8, %5 ]
  ret i1 %10
}

; Function Attrs: noinline nounwind optnone
define dso_local i64 @towers(i32 noundef signext %0) #0 {
  %2 = alloca i32, align 4
  store i32 %0, ptr %2, align 4
  store i64 0, ptr @moves, align 8
  %3 = load i32, ptr %2, align 4
  call void @hanoi(i32 noundef signext %3, i32 noundef signext 0, i32 noundef signext 2, i32 noundef signext 1) #1
  %4 = load i64, ptr @moves, align 8
  ret i64 %4
}

; Function Attrs: noinline nounwind optnone
define internal void @hanoi(i32 noundef signext %0, i32 noundef signext %1, i32 noundef signext %2, i32 noundef signext %3) #0 {
  %5 = alloca i32, align 4
  %6 = alloca i32, align 4
  %7 = alloca i32, align 4
  %8 = alloca i32, align 4
  store i32 %0, ptr %5, align 4
  store i32 %1, ptr %6, align 4
  store i32 %2, ptr %7, align 4
  store i32 %3, ptr %8, align 4
  %9 = load i32, ptr %5, align 4
  %10 = icmp eq i32 %9, 0
  br i1 %10, label %11, label %12

11:                                               ; preds = %4
  br label %31

12:                                               ; preds = %4
  %13 = load i32, ptr %5, align 4
  %14 = sub nsw i32 %13, 1
  %15 = load i32, ptr %6, align 4
  %16 = load i32, ptr %8, align 4
  %17 = load i32, ptr %7, align 4
  call void @hanoi(i32 noundef signext %14, i32 noundef signext %15, i32 noundef signext %16, i32 noundef signext %17) #1
  %18 = load i64, ptr @moves, align 8
  %19 = mul i64 %18, 3
  %20 = load i32, ptr %6, align 4
  %21 = sext i32 %20 to i64
  %22 = add i64 %19, %21
  %23 = load i32, ptr %7, align 4
  %24 = sext i32 %23 to i64
  %25 = sub i64 %22, %24
  store i64 %25, ptr @moves, align 8
  %26 = load i32, ptr %5, align 4
  %27 = sub nsw i32 %26, 1
  %28 = load i32, ptr %8, align 4
  %29 = load i32, ptr %7, align 4
  %30 = load i32, ptr %6, align 4
  call void @hanoi(i32 noundef signext %27, i32 noundef signext %28, i32 noundef signext %29, i32 noundef signext %30) #1
  br label %31

31:                                               ; preds = %12, %11
  ret void
}

; Function Attrs: noinline nounwind optnone
define dso_local i64 @tribonacci(i32 noundef signext %0) #0 {
  %2 = alloca i32, align 4
  store i32 %0, ptr %2, align 4
  %3 = load i32, ptr %2, align 4
  %4 = icmp slt i32 %3, 2
  br i1 %4, label %5, label %6

5:                                                ; preds = %1
  br label %24

6:                                                ; preds = %1
  %7 = load i32, ptr %2, align 4
  %8 = icmp eq i32 %7, 2
  br i1 %8, label %9, label %10

9:                                                ; preds = %6
  br label %22

10:                                               ; preds = %6
  %11 = load i32, ptr %2, align 4
  %12 = sub nsw i32 %11, 1
  %13 = call i64 @tribonacci(i32 noundef signext %12) #1
  %14 = load i32, ptr %2, align 4
  %15 = sub nsw i32 %14, 2
  %16 = call i64 @tribonacci(i32 noundef signext %15) #1
  %17 = add nsw i64 %13, %16
  %18 = load i32, ptr %2, align 4
  %19 = sub nsw i32 %18, 3
  %20 = call i64 @tribonacci(i32 noundef signext %19) #1
  %21 = add nsw i64 %17, %20
  br label %22

22:                                               ; preds = %10, %9
  %23 = phi i64 [ 1, %9 ], [ %21, %10 ]
  br label %24

24:                                               ; preds = %22, %5
  %25 = phi i64 [ 0, %5 ], [ %23, %22 ]
  ret i64 %25
}

; Function Attrs: noinline nounwind optnone
define dso_local signext i32 @josephus(i32 noundef signext %0, i32 noundef signext %1) #0 {
  %3 = alloca i32, align 4
  %4 = alloca i32, align 4
  store i32 %0, ptr %3, align 4
  store i32 %1, ptr %4, align 4
  %5 = load i32, ptr %3, align 4
  %6 = icmp eq i32 %5, 1
  br i1 %6, label %7, label %8

7:                                                ; preds = %2
  br label %17

8:                                                ; preds = %2
  %9 = load i32, ptr %3, align 4
  %10 = sub nsw i32 %9, 1
  %11 = load i32, ptr %4, align 4
  %12 = call signext i32 @josephus(i32 noundef signext %10, i32 noundef signext %11) #1
  %13 = load i32, ptr %4, align 4
  %14 = add nsw i32 %12, %13
  %15 = load i32, ptr %3, align 4
  %16 = srem i32 %14, %15
  br label %17

17:                                               ; preds = %8, %7
  %18 = phi i32 [ 0, %7 ], [ %16, %8 ]
  ret i32 %18
}

; Function Attrs: noinline nounwind optnone
define dso_local signext i32 @hofstadter_f(i32 noundef signext %0) #0 {
  %2 = alloca i32, align 4
  store i32 %0, ptr %2, align 4
  %3 = load i32, ptr %2, align 4
  %4 = icmp eq i32 %3, 0
  br i1 %4, label %5, label %6

5:                                                ; preds = %1
  br label %13

6:                                                ; preds = %1
  %7 = load i32, ptr %2, align 4
  %8 = load i32, ptr %2, align 4
  %9 = sub nsw i32 %8, 1
  %10 = call signext i32 @hofstadter_f(i32 noundef signext %9) #1
  %11 = call signext i32 @hofstadter_m(i32 noundef signext %10) #1
  %12 = sub nsw i32 %7, %11
  br label %13

13:                                               ; preds = %6, %5
  %14 = phi i32 [ 1, %5 ], [ %12, %6 ]
  ret i32 %14
}

; Function Attrs: noinline nounwind optnone
define internal signext i32 @hofstadter_m(i32 noundef signext %0) #0 {
  %2 = alloca i32, align 4
  store i32 %0, ptr %2, align 4
  %3 = load i32, ptr %2, align 4
  %4 = icmp eq i32 %3, 0
  br i1 %4, label %5, label %6

5:                                                ; preds = %1
  br label %13

6:                                                ; preds = %1
  %7 = load i32, ptr %2, align 4
  %8 = load i32, ptr %2, align 4
  %9 = sub nsw i32 %8, 1
  %10 = call signext i32 @hofstadter_m(i32 noundef signext %9) #1
  %11 = call signext i32 @hofstadter_f(i32 noundef signext %10) #1
  %12 = sub nsw i32 %7, %11
  br label %13

13:                                               ; preds = %6, %5
  %14 = phi i32 [ 0, %5 ], [ %12, %6 ]
  ret i32 %14
}

; Function Attrs: noinline nounwind optnone
define dso_local i64 @power(i64 noundef %0, i32 noundef signext %1) #0 {
  %3 = alloca i64, align 8
  %4 = alloca i64, align 8
  %5 = alloca i32, align 4
  %6 = alloca i64, align 8
  store i64 %0, ptr %4, align 8
  store i32 %1, ptr %5, align 4
  %7 = load i32, ptr %5, align 4
  %8 = icmp eq i32 %7, 0
  br i1 %8, label %9, label %10

9:                                                ; preds = %2
  store i64 1, ptr %3, align 8
  br label %30

10:                                               ; preds = %2
  %11 = load i64, ptr %4, align 8
  %12 = load i32, ptr %5, align 4
  %13 = udiv i32 %12, 2
  %14 = call i64 @power(i64 noundef %11, i32 noundef signext %13) #1
  store i64 %14, ptr %6, align 8
  %15 = load i32, ptr %5, align 4
  %16 = and i32 %15, 1
  %17 = icmp ne i32 %16, 0
  br i1 %17, label %18, label %24

18:                                               ; preds = %10
  %19 = load i64, ptr %6, align 8
  %20 = load i64, ptr %6, align 8
  %21 = mul i64 %19, %20
  %22 = load i64, ptr %4, align 8
  %23 = mul i64 %21, %22
  br label %28

24:                                               ; preds = %10
  %25 = load i64, ptr %6, align 8
  %26 = load i64, ptr %6, align 8
  %27 = mul i64 %25, %26
  br label %28

28:                                               ; preds = %24, %18
  %29 = phi i64 [ %23, %18 ], [ %27, %24 ]
  store i64 %29, ptr %3, align 8
  br label %30

30:                                               ; preds = %28, %9
  %31 = load i64, ptr %3, align 8
  ret i64 %31
}

; Function Attrs: noinline nounwind optnone
define dso_local signext i32 @sum_of_eight(i32 noundef signext %0, i64 noundef %1, i16 noundef signext %2, i8 noundef signext %3, i32 noundef signext %4, i16 noundef zeroext %5, i8 noundef zeroext %6, i1 noundef zeroext %7) #0 {
  %9 = alloca i32, align 4
  %10 = alloca i64, align 8
  %11 = alloca i16, align 2
  %12 = alloca i8, align 1
  %13 = alloca i32, align 4
  %14 = alloca i16, align 2
  %15 = alloca i8, align 1
  %16 = alloca i8, align 1
  store i32 %0, ptr %9, align 4
  store i64 %1, ptr %10, align 8
  store i16 %2, ptr %11, align 2
  store i8 %3, ptr %12, align 1
  store i32 %4, ptr %13, align 4
  store i16 %5, ptr %14, align 2
  store i8 %6, ptr %15, align 1
  %17 = zext i1 %7 to i8
  store i8 %17, ptr %16, align 1
  %18 = load i32, ptr %9, align 4
  %19 = sext i32 %18 to i64
  %20 = load i64, ptr %10, align 8
  %21 = mul nsw i64 %20, 2
  %22 = add nsw i64 %19, %21
  %23 = load i16, ptr %11, align 2
  %24 = sext i16 %23 to i32
  %25 = mul nsw i32 %24, 3
  %26 = sext i32 %25 to i64
  %27 = add nsw i64 %22, %26
  %28 = load i8, ptr %12, align 1
  %29 = sext i8 %28 to i32
  %30 = mul nsw i32 %29, 4
  %31 = sext i32 %30 to i64
  %32 = add nsw i64 %27, %31
  %33 = load i32, ptr %13, align 4
  %34 = zext i32 %33 to i64
  %35 = mul nsw i64 %34, 5
  %36 = add nsw i64 %32, %35
  %37 = load i16, ptr %14, align 2
  %38 = zext i16 %37 to i32
  %39 = mul nsw i32 %38, 6
  %40 = sext i32 %39 to i64
  %41 = add nsw i64 %36, %40
  %42 = load i8, ptr %15, align 1
  %43 = zext i8 %42 to i32
  %44 = mul nsw i32 %43, 7
  %45 = sext i32 %44 to i64
  %46 = add nsw i64 %41, %45
  %47 = load i8, ptr %16, align 1
  %48 = trunc i8 %47 to i1
  %49 = zext i1 %48 to i32
  %50 = mul nsw i32 %49, 8
  %51 = sext i32 %50 to i64
  %52 = add nsw i64 %46, %51
  %53 = trunc i64 %52 to i32
  ret i32 %53
}

; Function Attrs: noinline nounwind optnone
define dso_local signext i32 @through(i32 noundef signext %0) #0 {
  %2 = alloca i32, align 4
  store i32 %0, ptr %2, align 4
  %3 = load i32, ptr %2, align 4
  %4 = icmp sle i32 %3, 0
  br i1 %4, label %5, label %6

5:                                                ; preds = %1
  br label %22

6:                                                ; preds = %1
  %7 = load i32, ptr %2, align 4
  %8 = load i32, ptr %2, align 4
  %9 = sub nsw i32 0, %8
  %10 = sext i32 %9 to i64
  %11 = load i32, ptr %2, align 4
  %12 = trunc i32 %11 to i16
  %13 = load i32, ptr %2, align 4
  %14 = sub nsw i32 0, %13
  %15 = trunc i32 %14 to i8
  %16 = load i32, ptr %2, align 4
  %17 = call signext i32 @sum_of_eight(i32 noundef signext %7, i64 noundef %10, i16 noundef signext %12, i8 noundef signext %15, i32 noundef signext %16, i16 noundef zeroext 3, i8 noundef zeroext -56, i1 noundef zeroext true) #1
  %18 = load i32, ptr %2, align 4
  %19 = sub nsw i32 %18, 1
  %20 = call signext i32 @through(i32 noundef signext %19) #1
  %21 = add nsw i32 %17, %20
  br label %22

22:                                               ; preds = %6, %5
  %23 = phi i32 [ 0, %5 ], [ %21, %6 ]
  ret i32 %23
}

attributes #0 = { noinline nounwind optnone "frame-pointer"="all" "no-builtins" "no-trapping-math"="true" "stack-protector-buffer-size"="8" "target-cpu"="generic-rv64" "target-features"="+64bit,+m,+relax,+zmmul,-a,-b,-c,-d,-e,-experimental-smmpm,-experimental-smnpm,-experimental-ssnpm,-experimental-sspm,-experimental-ssqosid,-experimental-supm,-experimental-zacas,-experimental-zalasr,-experimental-zicfilp,-experimental-zicfiss,-f,-h,-shcounterenw,-shgatpa,-shtvala,-shvsatpa,-shvstvala,-shvstvecd,-smaia,-smcdeleg,-smcsrind,-smepmp,-smstateen,-ssaia,-ssccfg,-ssccptr,-sscofpmf,-sscounterenw,-sscsrind,-ssstateen,-ssstrict,-sstc,-sstvala,-sstvecd,-ssu64xl,-svade,-svadu,-svbare,-svinval,-svnapot,-svpbmt,-v,-xcvalu,-xcvbi,-xcvbitmanip,-xcvelw,-xcvmac,-xcvmem,-xcvsimd,-xsfcease,-xsfvcp,-xsfvfnrclipxfqf,-xsfvfwmaccqqq,-xsfvqmaccdod,-xsfvqmaccqoq,-xsifivecdiscarddlone,-xsifivecflushdlone,-xtheadba,-xtheadbb,-xtheadbs,-xtheadcmo,-xtheadcondmov,-xtheadfmemidx,-xtheadmac,-xtheadmemidx,-xtheadmempair,-xtheadsync,-xtheadvdot,-xventanacondops,-xwchc,-za128rs,-za64rs,-zaamo,-zabha,-zalrsc,-zama16b,-zawrs,-zba,-zbb,-zbc,-zbkb,-zbkc,-zbkx,-zbs,-zca,-zcb,-zcd,-zce,-zcf,-zcmop,-zcmp,-zcmt,-zdinx,-zfa,-zfbfmin,-zfh,-zfhmin,-zfinx,-zhinx,-zhinxmin,-zic64b,-zicbom,-zicbop,-zicboz,-ziccamoa,-ziccif,-zicclsm,-ziccrse,-zicntr,-zicond,-zicsr,-zifencei,-zihintntl,-zihintpause,-zihpm,-zimop,-zk,-zkn,-zknd,-zkne,-zknh,-zkr,-zks,-zksed,-zksh,-zkt,-ztso,-zvbb,-zvbc,-zve32f,-zve32x,-zve64d,-zve64f,-zve64x,-zvfbfmin,-zvfbfwma,-zvfh,-zvfhmin,-zvkb,-zvkg,-zvkn,-zvknc,-zvkned,-zvkng,-zvknha,-zvknhb,-zvks,-zvksc,-zvksed,-zvksg,-zvksh,-zvkt,-zvl1024b,-zvl128b,-zvl16384b,-zvl2048b,-zvl256b,-zvl32768b,-zvl32b,-zvl4096b,-zvl512b,-zvl64b,-zvl65536b,-zvl8192b" }
attributes #1 = { nobuiltin "no-builtins" }

!llvm.module.flags = !{!0, !1, !2, !4, !5, !6, !7}
!llvm.ident = !{!8}

!0 = !{i32 1, !"wchar_size", i32 4}
!1 = !{i32 1, !"target-abi", !"lp64"}
!2 = !{i32 6, !"riscv-isa", !3}
!3 = !{!"rv64i2p1_m2p0_zmmul1p0"}
!4 = !{i32 8, !"PIC Level", i32 2}
!5 = !{i32 7, !"PIE Level", i32 2}
!6 = !{i32 7, !"frame-pointer", i32 2}
!7 = !{i32 8, !"SmallDataLimit", i32 8}
!8 = !{!"Debian clang version 19.1.7 (3~deb12u1)"}
