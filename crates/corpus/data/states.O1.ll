; ModuleID = 'states.c'
source_filename = "states.c"
target datalayout = "e-m:e-p:64:64-i64:64-i128:128-n32:64-S128"
target triple = "riscv64-unknown-linux-gnu"

@texts = internal unnamed_addr constant [8 x ptr] [ptr @.str, ptr @.str.1, ptr @.str.2, ptr @.str.3, ptr @.str.4, ptr @.str.5, ptr @.str.6, ptr @.str.7], align 8
@source = internal unnamed_addr constant [31 x i8] c"a/b /* c*d */ e // f\0A g /**/ h\00", align 1
@.str = private unnamed_addr constant [3 x i8] c"12\00", align 1
@.str.1 = private unnamed_addr constant [6 x i8] c"-3.25\00", align 1
@.str.2 = private unnamed_addr constant [6 x i8] c"+7e10\00", align 1
@.str.3 = private unnamed_addr constant [3 x i8] c"1.\00", align 1
@.str.4 = private unnamed_addr constant [2 x i8] c"x\00", align 1
@.str.5 = private unnamed_addr constant [1 x i8] zeroinitializer, align 1
@.str.6 = private unnamed_addr constant [5 x i8] c"9.5e\00", align 1
@.str.7 = private unnamed_addr constant [8 x i8] c"0.125e3\00", align 1
@switch.table.lamp = private unnamed_addr constant [4 x i32] [i32 1, i32 2, i32 3, i32 0], align 4
@switch.table.lamp.8 = private unnamed_addr constant [4 x i32] [i32 1, i32 3, i32 1, i32 3], align 4

; Function Attrs: nofree norecurse nosync nounwind memory(read, inaccessiblemem: none)
define dso_local noundef zeroext i1 @is_number(i32 noundef signext %0) local_unnamed_addr #0 {
  %2 = and i32 %0, 7
  %3 = zext nneg i32 %2 to i64
  %4 = getelementptr inbounds [8 x ptr], ptr @texts, i64 0, i64 %3
  %5 = load ptr, ptr %4, align 8, !tbaa !8
  %6 = load i8, ptr %5, align 1, !tbaa !12
  %7 = icmp eq i8 %6, 0
  br i1 %7, label %8, label %15

8:                                                ; preds = %42, %1
  %9 = phi i32 [ 0, %1 ], [ %43, %42 ]
  %10 = icmp ult i32 %9, 7
  %11 = trunc nsw i32 %9 to i7
  %12 = lshr i7 -44, %11
  %13 = trunc i7 %12 to i1
  %14 = select i1 %10, i1 %13, i1 false
  ret i1 %14

15:                                               ; preds = %1, %42
  %16 = phi i8 [ %45, %42 ], [ %6, %1 ]
  %17 = phi ptr [ %44, %42 ], [ %5, %1 ]
  %18 = phi i32 [ %43, %42 ], [ 0, %1 ]
  %19 = add i8 %16, -48
  %20 = icmp ult i8 %19, 10
  switch i32 %18, label %42 [
    i32 0, label %21
    i32 1, label %24
    i32 2, label %26
    i32 3, label %32
    i32 4, label %34
    i32 5, label %38
    i32 6, label %40
  ]

21:                                               ; preds = %15
  switch i8 %16, label %22 [
    i8 45, label %42
    i8 43, label %42
  ]

22:                                               ; preds = %21
  %23 = select i1 %20, i32 2, i32 7
  br label %42

24:                                               ; preds = %15
  %25 = select i1 %20, i32 2, i32 7
  br label %42

26:                                               ; preds = %15
  br i1 %20, label %42, label %27

27:                                               ; preds = %26
  %28 = icmp eq i8 %16, 46
  br i1 %28, label %42, label %29

29:                                               ; preds = %27
  %30 = icmp eq i8 %16, 101
  %31 = select i1 %30, i32 5, i32 7
  br label %42

32:                                               ; preds = %15
  %33 = select i1 %20, i32 4, i32 7
  br label %42

34:                                               ; preds = %15
  br i1 %20, label %42, label %35

35:                                               ; preds = %34
  %36 = icmp eq i8 %16, 101
  %37 = select i1 %36, i32 5, i32 7
  br label %42

38:                                               ; preds = %15
  %39 = select i1 %20, i32 6, i32 7
  br label %42

40:                                               ; preds = %15
  %41 = select i1 %20, i32 6, i32 7
  br label %42

42:                                               ; preds = %15, %21, %21, %22, %24, %26, %27, %29, %32, %34, %35, %38, %40
  %43 = phi i32 [ %41, %40 ], [ %39, %38 ], [ %37, %35 ], [ %33, %32 ], [ %31, %29 ], [ %25, %24 ], [ %23, %22 ], [ 1, %21 ], [ 1, %21 ], [ 2, %26 ], [ 3, %27 ], [ 4, %34 ], [ 7, %15 ]
  %44 = getelementptr inbounds i8, ptr %17, i64 1
  %45 = load i8, ptr %44, align 1, !tbaa !12
  %46 = icmp eq i8 %45, 0
  br i1 %46, label %8, label %15, !llvm.loop !13
}

; Function Attrs: nofree norecurse nosync nounwind memory(none)
define dso_local signext i32 @lamp(i32 noundef signext %0) local_unnamed_addr #1 {
  br label %2

2:                                                ; preds = %19, %1
  %3 = phi i32 [ %15, %19 ], [ %0, %1 ]
  %4 = phi i32 [ %22, %19 ], [ 0, %1 ]
  %5 = phi i32 [ %25, %19 ], [ 3, %1 ]
  %6 = icmp ult i32 %4, 4
  br label %7

7:                                                ; preds = %2, %18
  %8 = phi i32 [ %15, %18 ], [ %3, %2 ]
  %9 = phi i32 [ 0, %18 ], [ %5, %2 ]
  br label %10

10:                                               ; preds = %7, %14
  %11 = phi i32 [ %15, %14 ], [ %8, %7 ]
  %12 = phi i32 [ %16, %14 ], [ %9, %7 ]
  %13 = icmp eq i32 %11, 0
  br i1 %13, label %26, label %14

14:                                               ; preds = %10
  %15 = add i32 %11, -1
  %16 = add nsw i32 %12, -1
  %17 = icmp eq i32 %16, 0
  br i1 %17, label %18, label %10, !llvm.loop !16

18:                                               ; preds = %14
  br i1 %6, label %19, label %7, !llvm.loop !16

19:                                               ; preds = %18
  %20 = zext nneg i32 %4 to i64
  %21 = getelementptr inbounds [4 x i32], ptr @switch.table.lamp, i64 0, i64 %20
  %22 = load i32, ptr %21, align 4
  %23 = zext nneg i32 %4 to i64
  %24 = getelementptr inbounds [4 x i32], ptr @switch.table.lamp.8, i64 0, i64 %23
  %25 = load i32, ptr %24, align 4
  br label %2, !llvm.loop !16

26:                                               ; preds = %10
  %27 = mul nsw i32 %4, 10
  %28 = add nsw i32 %27, %12
  ret i32 %28
}

; Function Attrs: nofree norecurse nosync nounwind memory(none)
define dso_local signext i32 @without_comments() local_unnamed_addr #1 {
  br label %2

1:                                                ; preds = %45
  ret i32 %46

2:                                                ; preds = %0, %45
  %3 = phi i64 [ 0, %0 ], [ %48, %45 ]
  %4 = phi i8 [ 97, %0 ], [ %50, %45 ]
  %5 = phi i32 [ 0, %0 ], [ %47, %45 ]
  %6 = phi i32 [ 0, %0 ], [ %46, %45 ]
  switch i32 %5, label %45 [
    i32 0, label %7
    i32 1, label %14
    i32 2, label %26
    i32 3, label %31
    i32 4, label %40
  ]

7:                                                ; preds = %2
  %8 = lshr i64 151195666, %3
  %9 = and i64 %8, 1
  %10 = icmp eq i64 %9, 0
  br i1 %10, label %11, label %45

11:                                               ; preds = %7
  %12 = zext i8 %4 to i32
  %13 = add nsw i32 %6, %12
  br label %45

14:                                               ; preds = %2
  %15 = zext i8 %4 to i32
  %16 = lshr i64 100665632, %3
  %17 = and i64 %16, 1
  %18 = icmp eq i64 %17, 0
  br i1 %18, label %19, label %45

19:                                               ; preds = %14
  %20 = lshr i64 151195666, %3
  %21 = and i64 %20, 1
  %22 = icmp eq i64 %21, 0
  br i1 %22, label %23, label %45

23:                                               ; preds = %19
  %24 = add i32 %6, 47
  %25 = add i32 %24, %15
  br label %45

26:                                               ; preds = %2
  %27 = lshr i64 100665632, %3
  %28 = and i64 %27, 1
  %29 = icmp eq i64 %28, 0
  %30 = select i1 %29, i32 2, i32 3
  br label %45

31:                                               ; preds = %2
  %32 = lshr i64 151195666, %3
  %33 = and i64 %32, 1
  %34 = icmp eq i64 %33, 0
  %35 = lshr i64 100665632, %3
  %36 = and i64 %35, 1
  %37 = icmp eq i64 %36, 0
  %38 = select i1 %37, i32 2, i32 3
  %39 = select i1 %34, i32 %38, i32 0
  br label %45

40:                                               ; preds = %2
  %41 = icmp eq i64 %3, 20
  %42 = add nsw i32 %6, 10
  %43 = select i1 %41, i32 %42, i32 %6
  %44 = select i1 %41, i32 0, i32 4
  br label %45

45:                                               ; preds = %40, %26, %19, %14, %7, %23, %11, %2, %31
  %46 = phi i32 [ %6, %2 ], [ %6, %31 ], [ %25, %23 ], [ %13, %11 ], [ %6, %7 ], [ %6, %14 ], [ %6, %19 ], [ %6, %26 ], [ %43, %40 ]
  %47 = phi i32 [ %5, %2 ], [ %39, %31 ], [ 0, %23 ], [ 0, %11 ], [ 1, %7 ], [ 2, %14 ], [ 4, %19 ], [ %30, %26 ], [ %44, %40 ]
  %48 = add nuw nsw i64 %3, 1
  %49 = getelementptr inbounds [31 x i8], ptr @source, i64 0, i64 %48
  %50 = load i8, ptr %49, align 1, !tbaa !12
  %51 = icmp eq i64 %48, 30
  br i1 %51, label %1, label %2, !llvm.loop !17
}

attributes #0 = { nofree norecurse nosync nounwind memory(read, inaccessiblemem: none) "no-builtins" "no-trapping-math"="true" "stack-protector-buffer-size"="8" "target-cpu"="generic-rv64" "target-features"="+64bit,+m,+relax,+zmmul,-a,-b,-c,-d,-e,-experimental-smmpm,-experimental-smnpm,-experimental-ssnpm,-experimental-sspm,-experimental-ssqosid,-experimental-supm,-experimental-zacas,-experimental-zalasr,-experimental-zicfilp,-experimental-zicfiss,-f,-h,-shcounterenw,-shgatpa,-shtvala,-shvsatpa,-shvstvala,-shvstvecd,-smaia,-smcdeleg,-smcsrind,-smepmp,-smstateen,-ssaia,-ssccfg,-ssccptr,-sscofpmf,-sscounterenw,-sscsrind,-ssstateen,-ssstrict,-sstc,-sstvala,-sstvecd,-ssu64xl,-svade,-svadu,-svbare,-svinval,-svnapot,-svpbmt,-v,-xcvalu,-xcvbi,-xcvbitmanip,-xcvelw,-xcvmac,-xcvmem,-xcvsimd,-xsfcease,-xsfvcp,-xsfvfnrclipxfqf,-xsfvfwmaccqqq,-xsfvqmaccdod,-xsfvqmaccqoq,-xsifivecdiscarddlone,-xsifivecflushdlone,-xtheadba,-xtheadbb,-xtheadbs,-xtheadcmo,-xtheadcondmov,-xtheadfmemidx,-xtheadmac,-xtheadmemidx,-xtheadmempair,-xtheadsync,-xtheadvdot,-xventanacondops,-xwchc,-za128rs,-za64rs,-zaamo,-zabha,-zalrsc,-zama16b,-zawrs,-zba,-zbb,-zbc,-zbkb,-zbkc,-zbkx,-zbs,-zca,-zcb,-zcd,-zce,-zcf,-zcmop,-zcmp,-zcmt,-zdinx,-zfa,-zfbfmin,-zfh,-zfhmin,-zfinx,-zhinx,-zhinxmin,-zic64b,-zicbom,-zicbop,-zicboz,-ziccamoa,-ziccif,-zicclsm,-ziccrse,-zicntr,-zicond,-zicsr,-zifencei,-zihintntl,-zihintpause,-zihpm,-zimop,-zk,-zkn,-zknd,-zkne,-zknh,-zkr,-zks,-zksed,-zksh,-zkt,-ztso,-zvbb,-zvbc,-zve32f,-zve32x,-zve64d,-zve64f,-zve64x,-zvfbfmin,-zvfbfwma,-zvfh,-zvfhmin,-zvkb,-zvkg,-zvkn,-zvknc,-zvkned,-zvkng,-zvknha,-zvknhb,-zvks,-zvksc,-zvksed,-zvksg,-zvksh,-zvkt,-zvl1024b,-zvl128b,-zvl16384b,-zvl2048b,-zvl256b,-zvl32768b,-zvl32b,-zvl4096b,-zvl512b,-zvl64b,-zvl65536b,-zvl8192b" }
attributes #1 = { nofree norecurse nosync nounwind memory(none) "no-builtins" "no-trapping-math"="true" "stack-protector-buffer-size"="8" "target-cpu"="generic-rv64" "target-features"="+64bit,+m,+relax,+zmmul,-a,-b,-c,-d,-e,-experimental-smmpm,-experimental-smnpm,-experimental-ssnpm,-experimental-sspm,-experimental-ssqosid,-experimental-supm,-experimental-zacas,-experimental-zalasr,-experimental-zicfilp,-experimental-zicfiss,-f,-h,-shcounterenw,-shgatpa,-shtvala,-shvsatpa,-shvstvala,-shvstvecd,-smaia,-smcdeleg,-smcsrind,-smepmp,-smstateen,-ssaia,-ssccfg,-ssccptr,-sscofpmf,-sscounterenw,-sscsrind,-ssstateen,-ssstrict,-sstc,-sstvala,-sstvecd,-ssu64xl,-svade,-svadu,-svbare,-svinval,-svnapot,-svpbmt,-v,-xcvalu,-xcvbi,-xcvbitmanip,-xcvelw,-xcvmac,-xcvmem,-xcvsimd,-xsfcease,-xsfvcp,-xsfvfnrclipxfqf,-xsfvfwmaccqqq,-xsfvqmaccdod,-xsfvqmaccqoq,-xsifivecdiscarddlone,-xsifivecflushdlone,-xtheadba,-xtheadbb,-xtheadbs,-xtheadcmo,-xtheadcondmov,-xtheadfmemidx,-xtheadmac,-xtheadmemidx,-xtheadmempair,-xtheadsync,-xtheadvdot,-xventanacondops,-xwchc,-za128rs,-za64rs,-zaamo,-zabha,-zalrsc,-zama16b,-zawrs,-zba,-zbb,-zbc,-zbkb,-zbkc,-zbkx,-zbs,-zca,-zcb,-zcd,-zce,-zcf,-zcmop,-zcmp,-zcmt,-zdinx,-zfa,-zfbfmin,-zfh,-zfhmin,-zfinx,-zhinx,-zhinxmin,-zic64b,-zicbom,-zicbop,-zicboz,-ziccamoa,-ziccif,-zicclsm,-ziccrse,-zicntr,-zicond,-zicsr,-zifencei,-zihintntl,-zihintpause,-zihpm,-zimop,-zk,-zkn,-zknd,-zkne,-zknh,-zkr,-zks,-zksed,-zksh,-zkt,-ztso,-zvbb,-zvbc,-zve32f,-zve32x,-zve64d,-zve64f,-zve64x,-zvfbfmin,-zvfbfwma,-zvfh,-zvfhmin,-zvkb,-zvkg,-zvkn,-zvknc,-zvkned,-zvkng,-zvknha,-zvknhb,-zvks,-zvksc,-zvksed,-zvksg,-zvksh,-zvkt,-zvl1024b,-zvl128b,-zvl16384b,-zvl2048b,-zvl256b,-zvl32768b,-zvl32b,-zvl4096b,-zvl512b,-zvl64b,-zvl65536b,-zvl8192b" }

!llvm.module.flags = !{!0, !1, !2, !4, !5, !6}
!llvm.ident = !{!7}

!0 = !{i32 1, !"wchar_size", i32 4}
!1 = !{i32 1, !"target-abi", !"lp64"}
!2 = !{i32 6, !"riscv-isa", !3}
!3 = !{!"rv64i2p1_m2p0_zmmul1p0"}
!4 = !{i32 8, !"PIC Level", i32 2}
!5 = !{i32 7, !"PIE Level", i32 2}
!6 = !{i32 8, !"SmallDataLimit", i32 8}
!7 = !{!"Debian clang version 19.1.7 (3~deb12u1)"}
!8 = !{!9, !9, i64 0}
!9 = !{!"any pointer", !10, i64 0}
!10 = !{!"omnipotent char", !11, i64 0}
!11 = !{!"Simple C/C++ TBAA"}
!12 = !{!10, !10, i64 0}
!13 = distinct !{!13, !14, !15}
!14 = !{!"llvm.loop.mustprogress"}
!15 = !{!"llvm.loop.unroll.disable"}
!16 = distinct !{!16, !14, !15}
!17 = distinct !{!17, !14, !15}
