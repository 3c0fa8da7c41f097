; ModuleID = 'utf8.c'
source_filename = "utf8.c"
target datalayout = "e-m:e-p:64:64-i64:64-i128:128-n32:64-S128"
target triple = "riscv64-unknown-linux-gnu"

@bytes = internal global [4 x i8] zeroinitializer, align 1
@point_again.kept = internal constant [5 x i8] c"\00\7F\1F\0F\07", align 1
@text = internal constant [22 x i8] c"na\C3\AFve caf\C3\A9 \E2\82\AC \F0\9F\98\80\00", align 1

; Function Attrs: noinline nounwind optnone
define dso_local signext i32 @coded(i32 noundef signext %0) #0 {
  %2 = alloca i32, align 4
  %3 = alloca i32, align 4
  %4 = alloca i32, align 4
  %5 = alloca i32, align 4
  store i32 %0, ptr %2, align 4
  store i32 0, ptr %3, align 4
  %6 = load i32, ptr %2, align 4
  %7 = call signext i32 @put(i32 noundef signext %6) #1
  store i32 %7, ptr %4, align 4
  store i32 0, ptr %5, align 4
  br label %8

8:                                                ; preds = %21, %1
  %9 = load i32, ptr %5, align 4
  %10 = load i32, ptr %4, align 4
  %11 = icmp slt i32 %9, %10
  br i1 %11, label %12, label %24

12:                                               ; preds = %8
  %13 = load i32, ptr %3, align 4
  %14 = shl i32 %13, 8
  %15 = load i32, ptr %5, align 4
  %16 = sext i32 %15 to i64
  %17 = getelementptr inbounds [4 x i8], ptr @bytes, i64 0, i64 %16
  %18 = load i8, ptr %17, align 1
  %19 = zext i8 %18 to i32
  %20 = or i32 %14, %19
  store i32 %20, ptr %3, align 4
  br label %21

21:                                               ; preds = %12
  %22 = load i32, ptr %5, align 4
  %23 = add nsw i32 %22, 1
  store i32 %23, ptr %5, align 4
  br label %8, !llvm.loop !9

24:                                               ; preds = %8
  %25 = load i32, ptr %3, align 4
  ret i32 %25
}

; Function Attrs: noinline nounwind optnone
define internal signext i32 @put(i32 noundef signext %0) #0 {
  %2 = alloca i32, align 4
  %3 = alloca i32, align 4
  store i32 %0, ptr %3, align 4
  %4 = load i32, ptr %3, align 4
  %5 = icmp ult i32 %4, 128
  br i1 %5, label %6, label %9

6:                                                ; preds = %1
  %7 = load i32, ptr %3, align 4
  %8 = trunc i32 %7 to i8
  store i8 %8, ptr @bytes, align 1
  store i32 1, ptr %2, align 4
  br label %68

9:                                                ; preds = %1
  %10 = load i32, ptr %3, align 4
  %11 = icmp ult i32 %10, 2048
  br i1 %11, label %12, label %21

12:                                               ; preds = %9
  %13 = load i32, ptr %3, align 4
  %14 = lshr i32 %13, 6
  %15 = or i32 192, %14
  %16 = trunc i32 %15 to i8
  store i8 %16, ptr @bytes, align 1
  %17 = load i32, ptr %3, align 4
  %18 = and i32 %17, 63
  %19 = or i32 128, %18
  %20 = trunc i32 %19 to i8
  store i8 %20, ptr getelementptr inbounds ([4 x i8], ptr @bytes, i64 0, i64 1), align 1
  store i32 2, ptr %2, align 4
  br label %68

21:                                               ; preds = %9
  %22 = load i32, ptr %3, align 4
  %23 = icmp ult i32 %22, 65536
  br i1 %23, label %24, label %45

24:                                               ; preds = %21
  %25 = load i32, ptr %3, align 4
  %26 = icmp uge i32 %25, 55296
  br i1 %26, label %27, label %31

27:                                               ; preds = %24
  %28 = load i32, ptr %3, align 4
  %29 = icmp ult i32 %28, 57344
  br i1 %29, label %30, label %31

30:                                               ; preds = %27
  store i32 0, ptr %2, align 4
  br label %68

31:                                               ; preds = %27, %24
  %32 = load i32, ptr %3, align 4
  %33 = lshr i32 %32, 12
  %34 = or i32 224, %33
  %35 = trunc i32 %34 to i8
  store i8 %35, ptr @bytes, align 1
  %36 = load i32, ptr %3, align 4
  %37 = lshr i32 %36, 6
  %38 = and i32 %37, 63
  %39 = or i32 128, %38
  %40 = trunc i32 %39 to i8
  store i8 %40, ptr getelementptr inbounds ([4 x i8], ptr @bytes, i64 0, i64 1), align 1
  %41 = load i32, ptr %3, align 4
  %42 = and i32 %41, 63
  %43 = or i32 128, %42
  %44 = trunc i32 %43 to i8
  store i8 %44, ptr getelementptr inbounds ([4 x i8], ptr @bytes, i64 0, i64 2), align 1
  store i32 3, ptr %2, align 4
  br label %68

45:                                               ; preds = %21
  %46 = load i32, ptr %3, align 4
  %47 = icmp ult i32 %46, 1114112
  br i1 %47, label %48, label %67

48:                                               ; preds = %45
  %49 = load i32, ptr %3, align 4
  %50 = lshr i32 %49, 18
  %51 = or i32 240, %50
  %52 = trunc i32 %51 to i8
  store i8 %52, ptr @bytes, align 1
  %53 = load i32, ptr %3, align 4
  %54 = lshr i32 %53, 12
  %55 = and i32 %54, 63
  %56 = or i32 128, %55
  %57 = trunc i32 %56 to i8
  store i8 %57, ptr getelementptr inbounds ([4 x i8], ptr @bytes, i64 0, i64 1), align 1
  %58 = load i32, ptr %3, align 4
  %59 = lshr i32 %58, 6
  %60 = and i32 %59, 63
  %61 = or i32 128, %60
  %62 = trunc i32 %61 to i8
  store i8 %62, ptr getelementptr inbounds ([4 x i8], ptr @bytes, i64 0, i64 2), align 1
  %63 = load i32, ptr %3, align 4
  %64 = and i32 %63, 63
  %65 = or i32 128, %64
  %66 = trunc i32 %65 to i8
  store i8 %66, ptr getelementptr inbounds ([4 x i8], ptr @bytes, i64 0, i64 3), align 1
  store i32 4, ptr %2, align 4
  br label %68

67:                                               ; preds = %45
  store i32 0, ptr %2, align 4
  br label %68

68:                                               ; preds = %67, %48, %31, %30, %12, %6
  %69 = load i32, ptr %2, align 4
  ret i32 %69
}

; Function Attrs: noinline nounwind optnone
define dso_local signext i32 @point_again(i32 noundef signext %0) #0 {
  %2 = alloca i32, align 4
  %3 = alloca i32, align 4
  %4 = alloca i32, align 4
  %5 = alloca i32, align 4
  %6 = alloca i32, align 4
  store i32 %0, ptr %3, align 4
  %7 = load i32, ptr %3, align 4
  %8 = call signext i32 @put(i32 noundef signext %7) #1
  store i32 %8, ptr %4, align 4
  %9 = load i32, ptr %4, align 4
  %10 = icmp eq i32 %9, 0
  br i1 %10, label %11, label %12

11:                                               ; preds = %1
  store i32 -1, ptr %2, align 4
  br label %46

12:                                               ; preds = %1
  %13 = load i8, ptr @bytes, align 1
  %14 = call signext i32 @length_by_first(i8 noundef zeroext %13) #1
  %15 = load i32, ptr %4, align 4
  %16 = icmp ne i32 %14, %15
  br i1 %16, label %17, label %18

17:                                               ; preds = %12
  store i32 -2, ptr %2, align 4
  br label %46

18:                                               ; preds = %12
  %19 = load i8, ptr @bytes, align 1
  %20 = zext i8 %19 to i32
  %21 = load i32, ptr %4, align 4
  %22 = sext i32 %21 to i64
  %23 = getelementptr inbounds [5 x i8], ptr @point_again.kept, i64 0, i64 %22
  %24 = load i8, ptr %23, align 1
  %25 = zext i8 %24 to i32
  %26 = and i32 %20, %25
  store i32 %26, ptr %5, align 4
  store i32 1, ptr %6, align 4
  br label %27

27:                                               ; preds = %41, %18
  %28 = load i32, ptr %6, align 4
  %29 = load i32, ptr %4, align 4
  %30 = icmp slt i32 %28, %29
  br i1 %30, label %31, label %44

31:                                               ; preds = %27
  %32 = load i32, ptr %5, align 4
  %33 = shl i32 %32, 6
  %34 = load i32, ptr %6, align 4
  %35 = sext i32 %34 to i64
  %36 = getelementptr inbounds [4 x i8], ptr @bytes, i64 0, i64 %35
  %37 = load i8, ptr %36, align 1
  %38 = zext i8 %37 to i32
  %39 = and i32 %38, 63
  %40 = or i32 %33, %39
  store i32 %40, ptr %5, align 4
  br label %41

41:                                               ; preds = %31
  %42 = load i32, ptr %6, align 4
  %43 = add nsw i32 %42, 1
  store i32 %43, ptr %6, align 4
  br label %27, !llvm.loop !11

44:                                               ; preds = %27
  %45 = load i32, ptr %5, align 4
  store i32 %45, ptr %2, align 4
  br label %46

46:                                               ; preds = %44, %17, %11
  %47 = load i32, ptr %2, align 4
  ret i32 %47
}

; Function Attrs: noinline nounwind optnone
define internal signext i32 @length_by_first(i8 noundef zeroext %0) #0 {
  %2 = alloca i32, align 4
  %3 = alloca i8, align 1
  store i8 %0, ptr %3, align 1
  %4 = load i8, ptr %3, align 1
  %5 = zext i8 %4 to i32
  %6 = ashr i32 %5, 4
  switch i32 %6, label %11 [
    i32 12, label %7
    i32 13, label %7
    i32 14, label %8
    i32 15, label %9
    i32 8, label %10
    i32 9, label %10
    i32 10, label %10
    i32 11, label %10
  ]

7:                                                ; preds = %1, %1
  store i32 2, ptr %2, align 4
  br label %12

8:                                                ; preds = %1
  store i32 3, ptr %2, align 4
  br label %12

9:                                                ; preds = %1
  store i32 4, ptr %2, align 4
  br label %12

10:                                               ; preds = %1, %1, %1, %1
  store i32 0, ptr %2, align 4
  br label %12

11:                                               ; preds = %1
  store i32 1, ptr %2, align 4
  br label %12

12:                                               ; preds = %11, %10, %9, %8, %7
  %13 = load i32, ptr %2, align 4
  ret i32 %13
}

; Function Attrs: noinline nounwind optnone
define dso_local signext i32 @points() #0 {
  %1 = alloca i32, align 4
  %2 = alloca ptr, align 8
  store i32 0, ptr %1, align 4
  store ptr @text, ptr %2, align 8
  br label %3

3:                                                ; preds = %17, %0
  %4 = load ptr, ptr %2, align 8
  %5 = load i8, ptr %4, align 1
  %6 = icmp ne i8 %5, 0
  br i1 %6, label %7, label %20

7:                                                ; preds = %3
  %8 = load ptr, ptr %2, align 8
  %9 = load i8, ptr %8, align 1
  %10 = zext i8 %9 to i32
  %11 = and i32 %10, 192
  %12 = icmp ne i32 %11, 128
  br i1 %12, label %13, label %16

13:                                               ; preds = %7
  %14 = load i32, ptr %1, align 4
  %15 = add nsw i32 %14, 1
  store i32 %15, ptr %1, align 4
  br label %16

16:                                               ; preds = %13, %7
  br label %17

17:                                               ; preds = %16
  %18 = load ptr, ptr %2, align 8
  %19 = getelementptr inbounds i8, ptr %18, i32 1
  store ptr %19, ptr %2, align 8
  br label %3, !llvm.loop !12

20:                                               ; preds = %3
  %21 = load i32, ptr %1, align 4
  ret i32 %21
}

attributes #0 = { noinline nounwind optnone "frame-pointer"="all" "no-builtins" "no-trapping-math"="true" "stack-protector-buffer-size"="8" "target-cpu"="generic-rv64" "target-features"="+64bit,+m,+relax,+zmmul,-a,-b,-c,-d,-e,-experimental-smmpm,-experimental-smnpm,-experimental-ssnpm,-experimental-sspm,-experimental-ssqosid,-experimental-supm,-experimental-zacas,-experimental-zalasr,-experimental-zicfilp,-experimental-zicfiss,-f,-h,-shcounterenw,-shgatpa,-shtvala,-shvsatpa,-shvstvala,-shvstvecd,-smaia,-smcdeleg,-smcsrind,-smepmp,-smstateen,-ssaia,-ssccfg,-ssccptr,-sscofpmf,-sscounterenw,-sscsrind,-ssstateen,-ssstrict,-sstc,-sstvala,-sstvecd,-ssu64xl,-svade,-svadu,-svbare,-svinval,-svnapot,-svpbmt,-v,-xcvalu,-xcvbi,-xcvbitmanip,-xcvelw,-xcvmac,-xcvmem,-xcvsimd,-xsfcease,-xsfvcp,-xsfvfnrclipxfqf,-xsfvfwmaccqqq,-xsfvqmaccdod,-xsfvqmaccqoq,-xsifivecdiscarddlone,-xsifivecflushdlone,-xtheadba,-xtheadbb,-xtheadbs,-xtheadcmo,-xtheadcondmov,-xtheadfmemidx,-xtheadmac,-xtheadmemidx,-xtheadmempair,-xtheadsync,-xtheadvdot,-xventanacondops,-xwchc,-za128rs,-za64rs,-zaamo,-zabha,-zalrsc,-zama16b,-zawrs,-zba,-zbb,-zbc,-zbkb,-zbkc,-zbkx,-zbs,-zca,-zcb,-zcd,-zce,-zcf,-zcmop,-zcmp,-zcmt,-zdinx,-zfa,-zfbfmin,-zfh,-zfhmin,-zfinx,-zhinx,-zhinxmin,-zic64b,-zicbom,-zicbop,-zicboz,-ziccamoa,-ziccif,-zicclsm,-ziccrse,-zicntr,-zicond,-zicsr,-zifencei,-zihintntl,-zihintpause,-zihpm,-zimop,-zk,-zkn,-zknd,-zkne,-zknh,-zkr,-zks,-zksed,-zksh,-zkt,-ztso,-zvbb,-zvbc,-zve32f,-zve32x,-zve64d,-zve64f,-zve64x,-zvfbfmin,-zvfbfwma,-zvfh,-zvfhmin,-zvkb,-zvkg,-zvkn,-zvknc,-zvkned,-zvkng,-zvknha,-zvknhb,-zvks,-zvksc,-zvksed,-zvksg,-zvksh,-zvkt,-zvl1024b,-zvl128b,-zvl16384b,-zvl2048b,-zvl256b,-zvl32768b,-zvl32b,-zvl4096b,-zvl512b,-zvl64b,-zvl65536b,-zvl8192b" }
attributes #1 = { nobuiltin "no-builtins" }

!llvm.module.flags = !{!0, !1, !2, !4, !5, !6, !7}
!llvm.ident = !{!8}

!0 = !{i32 1, !"wchar_size", i32 4}
!1 = !{i32 1, !"target-abi", !"lp64"}
!2 = !{i32 6, !"riscv-isa", !3}
!3 = !{!"rv64i2p1_m2p0_zmmul1p0"}
!4 = !{i32 8, !"PIC Level", i32 2}
!5 = !{i32 7, !"PIE Level", i32 2}
!6 = !{i32 7, !"frame-pointer", i32 2}
!7 = !{i32 8, !"SmallDataLimit", i32 8}
!8 = !{!"Debian clang version 19.1.7 (3~deb12u1)"}
!9 = distinct !{!9, !10}
!10 = !{!"llvm.loop.mustprogress"}
!11 = distinct !{!11, !10}
!12 = distinct !{!12, !10}
