; ModuleID = 'calculator.c'
source_filename = "calculator.c"
target datalayout = "e-m:e-p:64:64-i64:64-i128:128-n32:64-S128"
target triple = "riscv64-unknown-linux-gnu"

@texts = internal unnamed_addr constant [6 x ptr] [ptr @.str, ptr @.str.1, ptr @.str.2, ptr @.str.3, ptr @.str.4, ptr @.str.5], align 8
@at = internal unnamed_addr global ptr null, align 8
@.str = private unnamed_addr constant [6 x i8] c"1+2*3\00", align 1
@.str.1 = private unnamed_addr constant [8 x i8] c"(1+2)*3\00", align 1
@.str.2 = private unnamed_addr constant [8 x i8] c"100-7-3\00", align 1
@.str.3 = private unnamed_addr constant [14 x i8] c"2*(3+(4-1))*5\00", align 1
@.str.4 = private unnamed_addr constant [5 x i8] c"-8/3\00", align 1
@.str.5 = private unnamed_addr constant [14 x i8] c"((((9))))%4+0\00", align 1

; Function Attrs: nofree nosync nounwind memory(readwrite, inaccessiblemem: none)
define dso_local i64 @value_of(i32 noundef signext %0) local_unnamed_addr #0 {
  %2 = urem i32 %0, 6
  %3 = zext nneg i32 %2 to i64
  %4 = getelementptr inbounds [6 x ptr], ptr @texts, i64 0, i64 %3
  %5 = load ptr, ptr %4, align 8, !tbaa !8
  store ptr %5, ptr @at, align 8, !tbaa !8
  %6 = tail call fastcc i64 @sum() #2
  ret i64 %6
}

; Function Attrs: nofree nosync nounwind memory(readwrite, argmem: read, inaccessiblemem: none)
define internal fastcc i64 @sum() unnamed_addr #1 {
  %1 = tail call fastcc i64 @atom() #2
  br label %2

2:                                                ; preds = %22, %0
  %3 = phi i64 [ %1, %0 ], [ %23, %22 ]
  %4 = load ptr, ptr @at, align 8, !tbaa !8
  %5 = load i8, ptr %4, align 1, !tbaa !12
  switch i8 %5, label %14 [
    i8 47, label %6
    i8 42, label %6
    i8 37, label %6
  ]

6:                                                ; preds = %2, %2, %2
  %7 = getelementptr inbounds i8, ptr %4, i64 1
  store ptr %7, ptr @at, align 8, !tbaa !8
  %8 = tail call fastcc i64 @atom() #2
  %9 = icmp eq i8 %5, 42
  br i1 %9, label %10, label %12

10:                                               ; preds = %6
  %11 = mul nsw i64 %8, %3
  br label %22

12:                                               ; preds = %6
  %13 = icmp eq i64 %8, 0
  br i1 %13, label %14, label %16

14:                                               ; preds = %2, %12
  %15 = phi i64 [ %3, %2 ], [ -1, %12 ]
  br label %24

16:                                               ; preds = %12
  %17 = icmp eq i8 %5, 47
  br i1 %17, label %18, label %20

18:                                               ; preds = %16
  %19 = sdiv i64 %3, %8
  br label %22

20:                                               ; preds = %16
  %21 = srem i64 %3, %8
  br label %22

22:                                               ; preds = %20, %18, %10
  %23 = phi i64 [ %11, %10 ], [ %19, %18 ], [ %21, %20 ]
  br label %2, !llvm.loop !13

24:                                               ; preds = %78, %14
  %25 = phi i64 [ %15, %14 ], [ %79, %78 ]
  %26 = load ptr, ptr @at, align 8, !tbaa !8
  %27 = load i8, ptr %26, align 1, !tbaa !12
  switch i8 %27, label %80 [
    i8 43, label %28
    i8 45, label %28
  ]

28:                                               ; preds = %24, %24
  %29 = getelementptr inbounds i8, ptr %26, i64 1
  store ptr %29, ptr @at, align 8, !tbaa !8
  %30 = icmp eq i8 %27, 43
  %31 = tail call fastcc i64 @atom() #2
  br i1 %30, label %32, label %55

32:                                               ; preds = %28, %50
  %33 = phi i64 [ %51, %50 ], [ %31, %28 ]
  %34 = load ptr, ptr @at, align 8, !tbaa !8
  %35 = load i8, ptr %34, align 1, !tbaa !12
  switch i8 %35, label %52 [
    i8 47, label %36
    i8 42, label %36
    i8 37, label %36
  ]

36:                                               ; preds = %32, %32, %32
  %37 = getelementptr inbounds i8, ptr %34, i64 1
  store ptr %37, ptr @at, align 8, !tbaa !8
  %38 = tail call fastcc i64 @atom() #2
  %39 = icmp eq i8 %35, 42
  br i1 %39, label %40, label %42

40:                                               ; preds = %36
  %41 = mul nsw i64 %38, %33
  br label %50

42:                                               ; preds = %36
  %43 = icmp eq i64 %38, 0
  br i1 %43, label %52, label %44

44:                                               ; preds = %42
  %45 = icmp eq i8 %35, 47
  br i1 %45, label %46, label %48

46:                                               ; preds = %44
  %47 = sdiv i64 %33, %38
  br label %50

48:                                               ; preds = %44
  %49 = srem i64 %33, %38
  br label %50

50:                                               ; preds = %48, %46, %40
  %51 = phi i64 [ %41, %40 ], [ %47, %46 ], [ %49, %48 ]
  br label %32, !llvm.loop !13

52:                                               ; preds = %32, %42
  %53 = phi i64 [ -1, %42 ], [ %33, %32 ]
  %54 = add nsw i64 %53, %25
  br label %78

55:                                               ; preds = %28, %73
  %56 = phi i64 [ %74, %73 ], [ %31, %28 ]
  %57 = load ptr, ptr @at, align 8, !tbaa !8
  %58 = load i8, ptr %57, align 1, !tbaa !12
  switch i8 %58, label %75 [
    i8 47, label %59
    i8 42, label %59
    i8 37, label %59
  ]

59:                                               ; preds = %55, %55, %55
  %60 = getelementptr inbounds i8, ptr %57, i64 1
  store ptr %60, ptr @at, align 8, !tbaa !8
  %61 = tail call fastcc i64 @atom() #2
  %62 = icmp eq i8 %58, 42
  br i1 %62, label %63, label %65

63:                                               ; preds = %59
  %64 = mul nsw i64 %61, %56
  br label %73

65:                                               ; preds = %59
  %66 = icmp eq i64 %61, 0
  br i1 %66, label %75, label %67

67:                                               ; preds = %65
  %68 = icmp eq i8 %58, 47
  br i1 %68, label %69, label %71

69:                                               ; preds = %67
  %70 = sdiv i64 %56, %61
  br label %73

71:                                               ; preds = %67
  %72 = srem i64 %56, %61
  br label %73

73:                                               ; preds = %71, %69, %63
  %74 = phi i64 [ %64, %63 ], [ %70, %69 ], [ %72, %71 ]
  br label %55, !llvm.loop !13

75:                                               ; preds = %55, %65
  %76 = phi i64 [ -1, %65 ], [ %56, %55 ]
  %77 = sub nsw i64 %25, %76
  br label %78

78:                                               ; preds = %75, %52
  %79 = phi i64 [ %54, %52 ], [ %77, %75 ]
  br label %24, !llvm.loop !15

80:                                               ; preds = %24
  ret i64 %25
}

; Function Attrs: nofree nosync nounwind memory(readwrite, inaccessiblemem: none)
define dso_local signext i32 @read_of(i32 noundef signext %0) local_unnamed_addr #0 {
  %2 = urem i32 %0, 6
  %3 = zext nneg i32 %2 to i64
  %4 = getelementptr inbounds [6 x ptr], ptr @texts, i64 0, i64 %3
  %5 = load ptr, ptr %4, align 8, !tbaa !8
  store ptr %5, ptr @at, align 8, !tbaa !8
  %6 = tail call fastcc i64 @sum() #2
  %7 = load ptr, ptr @at, align 8, !tbaa !8
  %8 = ptrtoint ptr %7 to i64
  %9 = ptrtoint ptr %5 to i64
  %10 = sub i64 %8, %9
  %11 = trunc i64 %10 to i32
  ret i32 %11
}

; Function Attrs: nofree nosync nounwind memory(readwrite, argmem: read, inaccessiblemem: none)
define internal fastcc i64 @atom() unnamed_addr #1 {
  %1 = load ptr, ptr @at, align 8, !tbaa !8
  %2 = load i8, ptr %1, align 1, !tbaa !12
  switch i8 %2, label %3 [
    i8 45, label %9
    i8 40, label %13
  ]

3:                                                ; preds = %0
  %4 = add i8 %2, -48
  %5 = icmp ult i8 %4, 10
  br i1 %5, label %21, label %7

6:                                                ; preds = %21
  store ptr %26, ptr @at, align 8, !tbaa !8
  br label %7

7:                                                ; preds = %13, %19, %6, %3, %9
  %8 = phi i64 [ %12, %9 ], [ %15, %19 ], [ %15, %13 ], [ %29, %6 ], [ 0, %3 ]
  ret i64 %8

9:                                                ; preds = %0
  %10 = getelementptr inbounds i8, ptr %1, i64 1
  store ptr %10, ptr @at, align 8, !tbaa !8
  %11 = tail call fastcc i64 @atom() #2
  %12 = sub nsw i64 0, %11
  br label %7

13:                                               ; preds = %0
  %14 = getelementptr inbounds i8, ptr %1, i64 1
  store ptr %14, ptr @at, align 8, !tbaa !8
  %15 = tail call fastcc i64 @sum() #2
  %16 = load ptr, ptr @at, align 8, !tbaa !8
  %17 = load i8, ptr %16, align 1, !tbaa !12
  %18 = icmp eq i8 %17, 41
  br i1 %18, label %19, label %7

19:                                               ; preds = %13
  %20 = getelementptr inbounds i8, ptr %16, i64 1
  store ptr %20, ptr @at, align 8, !tbaa !8
  br label %7

21:                                               ; preds = %3, %21
  %22 = phi i8 [ %30, %21 ], [ %2, %3 ]
  %23 = phi i64 [ %29, %21 ], [ 0, %3 ]
  %24 = phi ptr [ %26, %21 ], [ %1, %3 ]
  %25 = mul nsw i64 %23, 10
  %26 = getelementptr inbounds i8, ptr %24, i64 1
  %27 = zext nneg i8 %22 to i64
  %28 = add i64 %25, -48
  %29 = add i64 %28, %27
  %30 = load i8, ptr %26, align 1, !tbaa !12
  %31 = add i8 %30, -48
  %32 = icmp ult i8 %31, 10
  br i1 %32, label %21, label %6, !llvm.loop !17
}

attributes #0 = { nofree nosync nounwind memory(readwrite, inaccessiblemem: none) "no-builtins" "no-trapping-math"="true" "stack-protector-buffer-size"="8" "target-cpu"="generic-rv64" "target-features"="+64bit,+m,+relax,+zmmul,-a,-b,-c,-d,-e,-experimental-smmpm,-experimental-smnpm,-experimental-ssnpm,-experimental-sspm,-experimental-ssqosid,-experimental-supm,-experimental-zacas,-experimental-zalasr,-experimental-zicfilp,-experimental-zicfiss,-f,-h,-shcounterenw,-shgatpa,-shtvala,-shvsatpa,-shvstvala,-shvstvecd,-smaia,-smcdeleg,-smcsrind,-smepmp,-smstateen,-ssaia,-ssccfg,-ssccptr,-sscofpmf,-sscounterenw,-sscsrind,-ssstateen,-ssstrict,-sstc,-sstvala,-sstvecd,-ssu64xl,-svade,-svadu,-svbare,-svinval,-svnapot,-svpbmt,-v,-xcvalu,-xcvbi,-xcvbitmanip,-xcvelw,-xcvmac,-xcvmem,-xcvsimd,-xsfcease,-xsfvcp,-xsfvfnrclipxfqf,-xsfvfwmaccqqq,-xsfvqmaccdod,-xsfvqmaccqoq,-xsifivecdiscarddlone,-xsifivecflushdlone,-xtheadba,-xtheadbb,-xtheadbs,-xtheadcmo,-xtheadcondmov,-xtheadfmemidx,-xtheadmac,-xtheadmemidx,-xtheadmempair,-xtheadsync,-xtheadvdot,-xventanacondops,-xwchc,-za128rs,-za64rs,-zaamo,-zabha,-zalrsc,-zama16b,-zawrs,-zba,-zbb,-zbc,-zbkb,-zbkc,-zbkx,-zbs,-zca,-zcb,-zcd,-zce,-zcf,-zcmop,-zcmp,-zcmt,-zdinx,-zfa,-zfbfmin,-zfh,-zfhmin,-zfinx,-zhinx,-zhinxmin,-zic64b,-zicbom,-zicbop,-zicboz,-ziccamoa,-ziccif,-zicclsm,-ziccrse,-zicntr,-zicond,-zicsr,-zifencei,-zihintntl,-zihintpause,-zihpm,-zimop,-zk,-zkn,-zknd,-zkne,-zknh,-zkr,-zks,-zksed,-zksh,-zkt,-ztso,-zvbb,-zvbc,-zve32f,-zve32x,-zve64d,-zve64f,-zve64x,-zvfbfmin,-zvfbfwma,-zvfh,-zvfhmin,-zvkb,-zvkg,-zvkn,-zvknc,-zvkned,-zvkng,-zvknha,-zvknhb,-zvks,-zvksc,-zvksed,-zvksg,-zvksh,-zvkt,-zvl1024b,-zvl128b,-zvl16384b,-zvl2048b,-zvl256b,-zvl32768b,-zvl32b,-zvl4096b,-zvl512b,-zvl64b,-zvl65536b,-zvl8192b" }
attributes #1 = { nofree nosync nounwind memory(readwrite, argmem: read, inaccessiblemem: none) "no-builtins" "no-trapping-math"="true" "stack-protector-buffer-size"="8" "target-cpu"="generic-rv64" "target-features"="+64bit,+m,+relax,+zmmul,-a,-b,-c,-d,-e,-experimental-smmpm,-experimental-smnpm,-experimental-ssnpm,-experimental-sspm,-experimental-ssqosid,-experimental-supm,-experimental-zacas,-experimental-zalasr,-experimental-zicfilp,-experimental-zicfiss,-f,-h,-shcounterenw,-shgatpa,-shtvala,-shvsatpa,-shvstvala,-shvstvecd,-smaia,-smcdeleg,-smcsrind,-smepmp,-smstateen,-ssaia,-ssccfg,-ssccptr,-sscofpmf,-sscounterenw,-sscsrind,-ssstateen,-ssstrict,-sstc,-sstvala,-sstvecd,-ssu64xl,-svade,-svadu,-svbare,-svinval,-svnapot,-svpbmt,-v,-xcvalu,-xcvbi,-xcvbitmanip,-xcvelw,-xcvmac,-xcvmem,-xcvsimd,-xsfcease,-xsfvcp,-xsfvfnrclipxfqf,-xsfvfwmaccqqq,-xsfvqmaccdod,-xsfvqmaccqoq,-xsifivecdiscarddlone,-xsifivecflushdlone,-xtheadba,-xtheadbb,-xtheadbs,-xtheadcmo,-xtheadcondmov,-xtheadfmemidx,-xtheadmac,-xtheadmemidx,-xtheadmempair,-xtheadsync,-xtheadvdot,-xventanacondops,-xwchc,-za128rs,-za64rs,-zaamo,-zabha,-zalrsc,-zama16b,-zawrs,-zba,-zbb,-zbc,-zbkb,-zbkc,-zbkx,-zbs,-zca,-zcb,-zcd,-zce,-zcf,-zcmop,-zcmp,-zcmt,-zdinx,-zfa,-zfbfmin,-zfh,-zfhmin,-zfinx,-zhinx,-zhinxmin,-zic64b,-zicbom,-zicbop,-zicboz,-ziccamoa,-ziccif,-zicclsm,-ziccrse,-zicntr,-zicond,-zicsr,-zifencei,-zihintntl,-zihintpause,-zihpm,-zimop,-zk,-zkn,-zknd,-zkne,-zknh,-zkr,-zks,-zksed,-zksh,-zkt,-ztso,-zvbb,-zvbc,-zve32f,-zve32x,-zve64d,-zve64f,-zve64x,-zvfbfmin,-zvfbfwma,-zvfh,-zvfhmin,-zvkb,-zvkg,-zvkn,-zvknc,-zvkned,-zvkng,-zvknha,-zvknhb,-zvks,-zvksc,-zvksed,-zvksg,-zvksh,-zvkt,-zvl1024b,-zvl128b,-zvl16384b,-zvl2048b,-zvl256b,-zvl32768b,-zvl32b,-zvl4096b,-zvl512b,-zvl64b,-zvl65536b,-zvl8192b" }
attributes #2 = { nobuiltin "no-builtins" }

!llvm.module.flags = !{!0, !1, !2, !4, !5, !6}
!llvm.ident = !{!7}

!0 = !{i32 1, !"wchar_size", i32 4}
!1 = !{i32 1, !"target-abi", !"lp64"}
!2 = !{i32 6, !"riscv-isa", !3}
!3 = !{!"rv64i2p1_m2p0_zmmul1p0"}
!4 = !{i32 8, !"PIC Level", i32 2}
!5 = !{i32 7, !"PIE Level", i32 2}
!6 = !{i32 8, !"SmallDataLimit", i32 8}
!7 = !{!"Debian clang version 19.1.7 (3~deb12u1)"}
!8 = !{!9, !9, i64 0}
!9 = !{!"any pointer", !10, i64 0}
!10 = !{!"omnipotent char", !11, i64 0}
!11 = !{!"Simple C/C++ TBAA"}
!12 = !{!10, !10, i64 0}
!13 = distinct !{!13, !14}
!14 = !{!"llvm.loop.unroll.disable"}
!15 = distinct !{!15, !16, !14}
!16 = !{!"llvm.loop.mustprogress"}
!17 = distinct !{!17, !16, !14}
