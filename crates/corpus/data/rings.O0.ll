; ModuleID = 'rings.c'
source_filename = "rings.c"
target datalayout = "e-m:e-p:64:64-i64:64-i128:128-n32:64-S128"
target triple = "riscv64-unknown-linux-gnu"

%struct.ring = type { [8 x i32], i32, i32 }
%struct.event = type { i32, i16 }

@ring = internal global %struct.ring zeroinitializer, align 4
@many = internal global i32 0, align 4
@heap = internal global [32 x %struct.event] zeroinitializer, align 4
@first.top = internal global %struct.event zeroinitializer, align 4

; Function Attrs: noinline nounwind optnone
define dso_local i64 @passed(i32 noundef signext %0, i32 noundef signext %1) #0 {
  %3 = alloca i32, align 4
  %4 = alloca i32, align 4
  %5 = alloca i64, align 8
  %6 = alloca i32, align 4
  %7 = alloca i32, align 4
  %8 = alloca i32, align 4
  store i32 %0, ptr %3, align 4
  store i32 %1, ptr %4, align 4
  store i64 0, ptr %5, align 8
  store i32 0, ptr %7, align 4
  store i32 -2, ptr getelementptr inbounds (%struct.ring, ptr @ring, i32 0, i32 2), align 4
  store i32 -2, ptr getelementptr inbounds (%struct.ring, ptr @ring, i32 0, i32 1), align 4
  store i32 0, ptr %8, align 4
  br label %9

9:                                                ; preds = %35, %2
  %10 = load i32, ptr %8, align 4
  %11 = load i32, ptr %3, align 4
  %12 = icmp slt i32 %10, %11
  br i1 %12, label %13, label %38

13:                                               ; preds = %9
  %14 = load i32, ptr %8, align 4
  %15 = call signext i32 @put(ptr noundef @ring, i32 noundef signext %14) #2
  %16 = icmp ne i32 %15, 0
  br i1 %16, label %20, label %17

17:                                               ; preds = %13
  %18 = load i32, ptr %7, align 4
  %19 = add nsw i32 %18, 1
  store i32 %19, ptr %7, align 4
  br label %20

20:                                               ; preds = %17, %13
  %21 = load i32, ptr %8, align 4
  %22 = load i32, ptr %4, align 4
  %23 = srem i32 %21, %22
  %24 = icmp eq i32 %23, 0
  br i1 %24, label %25, label %34

25:                                               ; preds = %20
  %26 = call signext i32 @take(ptr noundef @ring, ptr noundef %6) #2
  %27 = icmp ne i32 %26, 0
  br i1 %27, label %28, label %34

28:                                               ; preds = %25
  %29 = load i64, ptr %5, align 8
  %30 = mul nsw i64 %29, 3
  %31 = load i32, ptr %6, align 4
  %32 = sext i32 %31 to i64
  %33 = add nsw i64 %30, %32
  store i64 %33, ptr %5, align 8
  br label %34

34:                                               ; preds = %28, %25, %20
  br label %35

35:                                               ; preds = %34
  %36 = load i32, ptr %8, align 4
  %37 = add nsw i32 %36, 1
  store i32 %37, ptr %8, align 4
  br label %9, !llvm.loop !9

38:                                               ; preds = %9
  br label %39

39:                                               ; preds = %42, %38
  %40 = call signext i32 @take(ptr noundef @ring, ptr noundef %6) #2
  %41 = icmp ne i32 %40, 0
  br i1 %41, label %42, label %48

42:                                               ; preds = %39
  %43 = load i64, ptr %5, align 8
  %44 = mul nsw i64 %43, 3
  %45 = load i32, ptr %6, align 4
  %46 = sext i32 %45 to i64
  %47 = add nsw i64 %44, %46
  store i64 %47, ptr %5, align 8
  br label %39, !llvm.loop !11

48:                                               ; preds = %39
  %49 = load i64, ptr %5, align 8
  %50 = mul nsw i64 %49, 100
  %51 = load i32, ptr %7, align 4
  %52 = sext i32 %51 to i64
  %53 = add nsw i64 %50, %52
  ret i64 %53
}

; Function Attrs: noinline nounwind optnone
define internal signext i32 @put(ptr noundef %0, i32 noundef signext %1) #0 {
  %3 = alloca i32, align 4
  %4 = alloca ptr, align 8
  %5 = alloca i32, align 4
  store ptr %0, ptr %4, align 8
  store i32 %1, ptr %5, align 4
  %6 = load ptr, ptr %4, align 8
  %7 = getelementptr inbounds %struct.ring, ptr %6, i32 0, i32 2
  %8 = load i32, ptr %7, align 4
  %9 = load ptr, ptr %4, align 8
  %10 = getelementptr inbounds %struct.ring, ptr %9, i32 0, i32 1
  %11 = load i32, ptr %10, align 4
  %12 = sub i32 %8, %11
  %13 = icmp eq i32 %12, 8
  br i1 %13, label %14, label %15

14:                                               ; preds = %2
  store i32 0, ptr %3, align 4
  br label %26

15:                                               ; preds = %2
  %16 = load i32, ptr %5, align 4
  %17 = load ptr, ptr %4, align 8
  %18 = getelementptr inbounds %struct.ring, ptr %17, i32 0, i32 0
  %19 = load ptr, ptr %4, align 8
  %20 = getelementptr inbounds %struct.ring, ptr %19, i32 0, i32 2
  %21 = load i32, ptr %20, align 4
  %22 = add i32 %21, 1
  store i32 %22, ptr %20, align 4
  %23 = and i32 %21, 7
  %24 = zext i32 %23 to i64
  %25 = getelementptr inbounds [8 x i32], ptr %18, i64 0, i64 %24
  store i32 %16, ptr %25, align 4
  store i32 1, ptr %3, align 4
  br label %26

26:                                               ; preds = %15, %14
  %27 = load i32, ptr %3, align 4
  ret i32 %27
}

; Function Attrs: noinline nounwind optnone
define internal signext i32 @take(ptr noundef %0, ptr noundef %1) #0 {
  %3 = alloca i32, align 4
  %4 = alloca ptr, align 8
  %5 = alloca ptr, align 8
  store ptr %0, ptr %4, align 8
  store ptr %1, ptr %5, align 8
  %6 = load ptr, ptr %4, align 8
  %7 = getelementptr inbounds %struct.ring, ptr %6, i32 0, i32 2
  %8 = load i32, ptr %7, align 4
  %9 = load ptr, ptr %4, align 8
  %10 = getelementptr inbounds %struct.ring, ptr %9, i32 0, i32 1
  %11 = load i32, ptr %10, align 4
  %12 = icmp eq i32 %8, %11
  br i1 %12, label %13, label %14

13:                                               ; preds = %2
  store i32 0, ptr %3, align 4
  br label %26

14:                                               ; preds = %2
  %15 = load ptr, ptr %4, align 8
  %16 = getelementptr inbounds %struct.ring, ptr %15, i32 0, i32 0
  %17 = load ptr, ptr %4, align 8
  %18 = getelementptr inbounds %struct.ring, ptr %17, i32 0, i32 1
  %19 = load i32, ptr %18, align 4
  %20 = add i32 %19, 1
  store i32 %20, ptr %18, align 4
  %21 = and i32 %19, 7
  %22 = zext i32 %21 to i64
  %23 = getelementptr inbounds [8 x i32], ptr %16, i64 0, i64 %22
  %24 = load i32, ptr %23, align 4
  %25 = load ptr, ptr %5, align 8
  store i32 %24, ptr %25, align 4
  store i32 1, ptr %3, align 4
  br label %26

26:                                               ; preds = %14, %13
  %27 = load i32, ptr %3, align 4
  ret i32 %27
}

; Function Attrs: noinline nounwind optnone
define dso_local i64 @happened(i32 noundef signext %0) #0 {
  %2 = alloca i32, align 4
  %3 = alloca i64, align 8
  %4 = alloca ptr, align 8
  %5 = alloca i32, align 4
  %6 = alloca i16, align 2
  store i32 %0, ptr %2, align 4
  store i64 0, ptr %3, align 8
  store i32 0, ptr @many, align 4
  call void @plan(i32 noundef signext 3, i16 noundef signext 1) #2
  call void @plan(i32 noundef signext 1, i16 noundef signext 2) #2
  call void @plan(i32 noundef signext 2, i16 noundef signext 3) #2
  br label %7

7:                                                ; preds = %40, %1
  %8 = load i32, ptr %2, align 4
  %9 = add nsw i32 %8, -1
  store i32 %9, ptr %2, align 4
  %10 = icmp sgt i32 %8, 0
  br i1 %10, label %11, label %14

11:                                               ; preds = %7
  %12 = load i32, ptr @many, align 4
  %13 = icmp ne i32 %12, 0
  br label %14

14:                                               ; preds = %11, %7
  %15 = phi i1 [ false, %7 ], [ %13, %11 ]
  br i1 %15, label %16, label %41

16:                                               ; preds = %14
  %17 = call ptr @first() #2
  store ptr %17, ptr %4, align 8
  %18 = load ptr, ptr %4, align 8
  %19 = getelementptr inbounds %struct.event, ptr %18, i32 0, i32 0
  %20 = load i32, ptr %19, align 4
  store i32 %20, ptr %5, align 4
  %21 = load ptr, ptr %4, align 8
  %22 = getelementptr inbounds %struct.event, ptr %21, i32 0, i32 1
  %23 = load i16, ptr %22, align 4
  store i16 %23, ptr %6, align 2
  %24 = load i64, ptr %3, align 8
  %25 = mul nsw i64 %24, 5
  %26 = load i16, ptr %6, align 2
  %27 = sext i16 %26 to i64
  %28 = add nsw i64 %25, %27
  store i64 %28, ptr %3, align 8
  %29 = load i32, ptr %5, align 4
  %30 = load i16, ptr %6, align 2
  %31 = sext i16 %30 to i32
  %32 = mul nsw i32 %31, 2
  %33 = add nsw i32 %29, %32
  %34 = load i16, ptr %6, align 2
  call void @plan(i32 noundef signext %33, i16 noundef signext %34) #2
  %35 = load i32, ptr %5, align 4
  %36 = icmp eq i32 %35, 7
  br i1 %36, label %37, label %40

37:                                               ; preds = %16
  %38 = load i32, ptr %5, align 4
  %39 = add nsw i32 %38, 1
  call void @plan(i32 noundef signext %39, i16 noundef signext 4) #2
  br label %40

40:                                               ; preds = %37, %16
  br label %7, !llvm.loop !12

41:                                               ; preds = %14
  %42 = load i64, ptr %3, align 8
  ret i64 %42
}

; Function Attrs: noinline nounwind optnone
define internal void @plan(i32 noundef signext %0, i16 noundef signext %1) #0 {
  %3 = alloca i32, align 4
  %4 = alloca i16, align 2
  %5 = alloca i32, align 4
  store i32 %0, ptr %3, align 4
  store i16 %1, ptr %4, align 2
  %6 = load i32, ptr @many, align 4
  %7 = add nsw i32 %6, 1
  store i32 %7, ptr @many, align 4
  store i32 %6, ptr %5, align 4
  br label %8

8:                                                ; preds = %23, %2
  %9 = load i32, ptr %5, align 4
  %10 = icmp sgt i32 %9, 0
  br i1 %10, label %11, label %21

11:                                               ; preds = %8
  %12 = load i32, ptr %5, align 4
  %13 = sub nsw i32 %12, 1
  %14 = sdiv i32 %13, 2
  %15 = sext i32 %14 to i64
  %16 = getelementptr inbounds [32 x %struct.event], ptr @heap, i64 0, i64 %15
  %17 = getelementptr inbounds %struct.event, ptr %16, i32 0, i32 0
  %18 = load i32, ptr %17, align 4
  %19 = load i32, ptr %3, align 4
  %20 = icmp sgt i32 %18, %19
  br label %21

21:                                               ; preds = %11, %8
  %22 = phi i1 [ false, %8 ], [ %20, %11 ]
  br i1 %22, label %23, label %35

23:                                               ; preds = %21
  %24 = load i32, ptr %5, align 4
  %25 = sext i32 %24 to i64
  %26 = getelementptr inbounds [32 x %struct.event], ptr @heap, i64 0, i64 %25
  %27 = load i32, ptr %5, align 4
  %28 = sub nsw i32 %27, 1
  %29 = sdiv i32 %28, 2
  %30 = sext i32 %29 to i64
  %31 = getelementptr inbounds [32 x %struct.event], ptr @heap, i64 0, i64 %30
  call void @llvm.memcpy.p0.p0.i64(ptr align 4 %26, ptr align 4 %31, i64 8, i1 false)
  %32 = load i32, ptr %5, align 4
  %33 = sub nsw i32 %32, 1
  %34 = sdiv i32 %33, 2
  store i32 %34, ptr %5, align 4
  br label %8, !llvm.loop !13

35:                                               ; preds = %21
  %36 = load i32, ptr %3, align 4
  %37 = load i32, ptr %5, align 4
  %38 = sext i32 %37 to i64
  %39 = getelementptr inbounds [32 x %struct.event], ptr @heap, i64 0, i64 %38
  %40 = getelementptr inbounds %struct.event, ptr %39, i32 0, i32 0
  store i32 %36, ptr %40, align 4
  %41 = load i16, ptr %4, align 2
  %42 = load i32, ptr %5, align 4
  %43 = sext i32 %42 to i64
  %44 = getelementptr inbounds [32 x %struct.event], ptr @heap, i64 0, i64 %43
  %45 = getelementptr inbounds %struct.event, ptr %44, i32 0, i32 1
  store i16 %41, ptr %45, align 4
  ret void
}

; Function Attrs: noinline nounwind optnone
define internal ptr @first() #0 {
  %1 = alloca %struct.event, align 4
  %2 = alloca i32, align 4
  %3 = alloca i32, align 4
  call void @llvm.memcpy.p0.p0.i64(ptr align 4 @first.top, ptr align 4 @heap, i64 8, i1 false)
  %4 = load i32, ptr @many, align 4
  %5 = add nsw i32 %4, -1
  store i32 %5, ptr @many, align 4
  %6 = sext i32 %5 to i64
  %7 = getelementptr inbounds [32 x %struct.event], ptr @heap, i64 0, i64 %6
  call void @llvm.memcpy.p0.p0.i64(ptr align 4 %1, ptr align 4 %7, i64 8, i1 false)
  store i32 0, ptr %2, align 4
  br label %8

8:                                                ; preds = %47, %0
  %9 = load i32, ptr %2, align 4
  %10 = mul nsw i32 2, %9
  %11 = add nsw i32 %10, 1
  store i32 %11, ptr %3, align 4
  %12 = load i32, ptr %3, align 4
  %13 = load i32, ptr @many, align 4
  %14 = icmp sge i32 %12, %13
  br i1 %14, label %15, label %16

15:                                               ; preds = %8
  br label %55

16:                                               ; preds = %8
  %17 = load i32, ptr %3, align 4
  %18 = add nsw i32 %17, 1
  %19 = load i32, ptr @many, align 4
  %20 = icmp slt i32 %18, %19
  br i1 %20, label %21, label %37

21:                                               ; preds = %16
  %22 = load i32, ptr %3, align 4
  %23 = add nsw i32 %22, 1
  %24 = sext i32 %23 to i64
  %25 = getelementptr inbounds [32 x %struct.event], ptr @heap, i64 0, i64 %24
  %26 = getelementptr inbounds %struct.event, ptr %25, i32 0, i32 0
  %27 = load i32, ptr %26, align 4
  %28 = load i32, ptr %3, align 4
  %29 = sext i32 %28 to i64
  %30 = getelementptr inbounds [32 x %struct.event], ptr @heap, i64 0, i64 %29
  %31 = getelementptr inbounds %struct.event, ptr %30, i32 0, i32 0
  %32 = load i32, ptr %31, align 4
  %33 = icmp slt i32 %27, %32
  br i1 %33, label %34, label %37

34:                                               ; preds = %21
  %35 = load i32, ptr %3, align 4
  %36 = add nsw i32 %35, 1
  store i32 %36, ptr %3, align 4
  br label %37

37:                                               ; preds = %34, %21, %16
  %38 = load i32, ptr %3, align 4
  %39 = sext i32 %38 to i64
  %40 = getelementptr inbounds [32 x %struct.event], ptr @heap, i64 0, i64 %39
  %41 = getelementptr inbounds %struct.event, ptr %40, i32 0, i32 0
  %42 = load i32, ptr %41, align 4
  %43 = getelementptr inbounds %struct.event, ptr %1, i32 0, i32 0
  %44 = load i32, ptr %43, align 4
  %45 = icmp sge i32 %42, %44
  br i1 %45, label %46, label %47

46:                                               ; preds = %37
  br label %55

47:                                               ; preds = %37
  %48 = load i32, ptr %2, align 4
  %49 = sext i32 %48 to i64
  %50 = getelementptr inbounds [32 x %struct.event], ptr @heap, i64 0, i64 %49
  %51 = load i32, ptr %3, align 4
  %52 = sext i32 %51 to i64
  %53 = getelementptr inbounds [32 x %struct.event], ptr @heap, i64 0, i64 %52
  call void @llvm.memcpy.p0.p0.i64(ptr align 4 %50, ptr align 4 %53, i64 8, i1 false)
  %54 = load i32, ptr %3, align 4
  store i32 %54, ptr %2, align 4
  br label %8

55:                                               ; preds = %46, %15
  %56 = load i32, ptr %2, align 4
  %57 = sext i32 %56 to i64
  %58 = getelementptr inbounds [32 x %struct.event], ptr @heap, i64 0, i64 %57
  call void @llvm.memcpy.p0.p0.i64(ptr align 4 %58, ptr align 4 %1, i64 8, i1 false)
  ret ptr @first.top
}

; Function Attrs: nocallback nofree nounwind willreturn memory(argmem: readwrite)
declare void @llvm.memcpy.p0.p0.i64(ptr noalias nocapture writeonly, ptr noalias nocapture readonly, i64, i1 immarg) #1

attributes #0 = { noinline nounwind optnone "frame-pointer"="all" "no-builtins" "no-trapping-math"="true" "stack-protector-buffer-size"="8" "target-cpu"="generic-rv64" "target-features"="+64bit,+m,+relax,+zmmul,-a,-b,-c,-d,-e,-experimental-smmpm,-experimental-smnpm,-experimental-ssnpm,-experimental-sspm,-experimental-ssqosid,-experimental-supm,-experimental-zacas,-experimental-zalasr,-experimental-zicfilp,-experimental-zicfiss,-f,-h,-shcounterenw,-shgatpa,-shtvala,-shvsatpa,-shvstvala,-shvstvecd,-smaia,-smcdeleg,-smcsrind,-smepmp,-smstateen,-ssaia,-ssccfg,-ssccptr,-sscofpmf,-sscounterenw,-sscsrind,-ssstateen,-ssstrict,-sstc,-sstvala,-sstvecd,-ssu64xl,-svade,-svadu,-svbare,-svinval,-svnapot,-svpbmt,-v,-xcvalu,-xcvbi,-xcvbitmanip,-xcvelw,-xcvmac,-xcvmem,-xcvsimd,-xsfcease,-xsfvcp,-xsfvfnrclipxfqf,-xsfvfwmaccqqq,-xsfvqmaccdod,-xsfvqmaccqoq,-xsifivecdiscarddlone,-xsifivecflushdlone,-xtheadba,-xtheadbb,-xtheadbs,-xtheadcmo,-xtheadcondmov,-xtheadfmemidx,-xtheadmac,-xtheadmemidx,-xtheadmempair,-xtheadsync,-xtheadvdot,-xventanacondops,-xwchc,-za128rs,-za64rs,-zaamo,-zabha,-zalrsc,-zama16b,-zawrs,-zba,-zbb,-zbc,-zbkb,-zbkc,-zbkx,-zbs,-zca,-zcb,-zcd,-zce,-zcf,-zcmop,-zcmp,-zcmt,-zdinx,-zfa,-zfbfmin,-zfh,-zfhmin,-zfinx,-zhinx,-zhinxmin,-zic64b,-zicbom,-zicbop,-zicboz,-ziccamoa,-ziccif,-zicclsm,-ziccrse,-zicntr,-zicond,-zicsr,-zifencei,-zihintntl,-zihintpause,-zihpm,-zimop,-zk,-zkn,-zknd,-zkne,-zknh,-zkr,-zks,-zksed,-zksh,-zkt,-ztso,-zvbb,-zvbc,-zve32f,-zve32x,-zve64d,-zve64f,-zve64x,-zvfbfmin,-zvfbfwma,-zvfh,-zvfhmin,-zvkb,-zvkg,-zvkn,-zvknc,-zvkned,-zvkng,-zvknha,-zvknhb,-zvks,-zvksc,-zvksed,-zvksg,-zvksh,-zvkt,-zvl1024b,-zvl128b,-zvl16384b,-zvl2048b,-zvl256b,-zvl32768b,-zvl32b,-zvl4096b,-zvl512b,-zvl64b,-zvl65536b,-zvl8192b" }
attributes #1 = { nocallback nofree nounwind willreturn memory(argmem: readwrite) }
attributes #2 = { nobuiltin "no-builtins" }

!llvm.module.flags = !{!0, !1, !2, !4, !5, !6, !7}
!llvm.ident = !{!8}

!0 = !{i32 1, !"wchar_size", i32 4}
!1 = !{i32 1, !"target-abi", !"lp64"}
!2 = !{i32 6, !"riscv-isa", !3}
!3 = !{!"rv64i2p1_m2p0_zmmul1p0"}
!4 = !{i32 8, !"PIC Level", i32 2}
!5 = !{i32 7, !"PIE Level", i32 2}
!6 = !{i32 7, !"frame-pointer", i32 2}
!7 = !{i32 8, !"SmallDataLimit", i32 8}
!8 = !{!"Debian clang version 19.1.7 (3~deb12u1)"}
!9 = distinct !{!9, !10}
!10 = !{!"llvm.loop.mustprogress"}
!11 = distinct !{!11, !10}
!12 = distinct !{!12, !10}
!13 = distinct !{!13, !10}
