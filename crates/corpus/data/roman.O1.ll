; ModuleID = 'roman.c'
source_filename = "roman.c"
target datalayout = "e-m:e-p:64:64-i64:64-i128:128-n32:64-S128"
target triple = "riscv64-unknown-linux-gnu"

@text = internal unnamed_addr global [20 x i8] zeroinitializer, align 1
@values = internal unnamed_addr constant [13 x i16] [i16 1000, i16 900, i16 500, i16 400, i16 100, i16 90, i16 50, i16 40, i16 10, i16 9, i16 5, i16 4, i16 1], align 2
@signs = internal unnamed_addr constant [13 x ptr] [ptr @.str, ptr @.str.1, ptr @.str.2, ptr @.str.3, ptr @.str.4, ptr @.str.5, ptr @.str.6, ptr @.str.7, ptr @.str.8, ptr @.str.9, ptr @.str.10, ptr @.str.11, ptr @.str.12], align 8
@.str = private unnamed_addr constant [2 x i8] c"M\00", align 1
@.str.1 = private unnamed_addr constant [3 x i8] c"CM\00", align 1
@.str.2 = private unnamed_addr constant [2 x i8] c"D\00", align 1
@.str.3 = private unnamed_addr constant [3 x i8] c"CD\00", align 1
@.str.4 = private unnamed_addr constant [2 x i8] c"C\00", align 1
@.str.5 = private unnamed_addr constant [3 x i8] c"XC\00", align 1
@.str.6 = private unnamed_addr constant [2 x i8] c"L\00", align 1
@.str.7 = private unnamed_addr constant [3 x i8] c"XL\00", align 1
@.str.8 = private unnamed_addr constant [2 x i8] c"X\00", align 1
@.str.9 = private unnamed_addr constant [3 x i8] c"IX\00", align 1
@.str.10 = private unnamed_addr constant [2 x i8] c"V\00", align 1
@.str.11 = private unnamed_addr constant [3 x i8] c"IV\00", align 1
@.str.12 = private unnamed_addr constant [2 x i8] c"I\00", align 1

; Function Attrs: nofree norecurse nosync nounwind memory(readwrite, argmem: read, inaccessiblemem: none)
define dso_local signext i32 @length_of(i32 noundef signext %0) local_unnamed_addr #0 {
  br label %2

2:                                                ; preds = %35, %1
  %3 = phi i64 [ 0, %1 ], [ %38, %35 ]
  %4 = phi i32 [ 0, %1 ], [ %37, %35 ]
  %5 = phi i32 [ %0, %1 ], [ %36, %35 ]
  %6 = getelementptr inbounds [13 x i16], ptr @values, i64 0, i64 %3
  %7 = load i16, ptr %6, align 2, !tbaa !8
  %8 = sext i16 %7 to i32
  %9 = icmp slt i32 %5, %8
  br i1 %9, label %35, label %10

10:                                               ; preds = %2
  %11 = getelementptr inbounds [13 x ptr], ptr @signs, i64 0, i64 %3
  %12 = load ptr, ptr %11, align 8, !tbaa !12
  br label %13

13:                                               ; preds = %22, %10
  %14 = phi i32 [ %4, %10 ], [ %23, %22 ]
  %15 = phi i32 [ %5, %10 ], [ %24, %22 ]
  %16 = load i8, ptr %12, align 1, !tbaa !14
  %17 = icmp eq i8 %16, 0
  br i1 %17, label %22, label %18

18:                                               ; preds = %13
  %19 = sext i32 %14 to i64
  br label %26

20:                                               ; preds = %26
  %21 = trunc nsw i64 %30 to i32
  br label %22

22:                                               ; preds = %20, %13
  %23 = phi i32 [ %14, %13 ], [ %21, %20 ]
  %24 = sub nsw i32 %15, %8
  %25 = icmp slt i32 %24, %8
  br i1 %25, label %35, label %13, !llvm.loop !15

26:                                               ; preds = %26, %18
  %27 = phi i64 [ %19, %18 ], [ %30, %26 ]
  %28 = phi i8 [ %16, %18 ], [ %33, %26 ]
  %29 = phi ptr [ %12, %18 ], [ %32, %26 ]
  %30 = add nsw i64 %27, 1
  %31 = getelementptr inbounds [20 x i8], ptr @text, i64 0, i64 %27
  store i8 %28, ptr %31, align 1, !tbaa !14
  %32 = getelementptr inbounds i8, ptr %29, i64 1
  %33 = load i8, ptr %32, align 1, !tbaa !14
  %34 = icmp eq i8 %33, 0
  br i1 %34, label %20, label %26, !llvm.loop !18

35:                                               ; preds = %22, %2
  %36 = phi i32 [ %5, %2 ], [ %24, %22 ]
  %37 = phi i32 [ %4, %2 ], [ %23, %22 ]
  %38 = add nuw nsw i64 %3, 1
  %39 = icmp eq i64 %38, 13
  br i1 %39, label %40, label %2, !llvm.loop !19

40:                                               ; preds = %35
  %41 = sext i32 %37 to i64
  %42 = getelementptr inbounds [20 x i8], ptr @text, i64 0, i64 %41
  store i8 0, ptr %42, align 1, !tbaa !14
  ret i32 %37
}

; Function Attrs: nofree norecurse nosync nounwind memory(readwrite, argmem: read, inaccessiblemem: none)
define dso_local signext i32 @again(i32 noundef signext %0) local_unnamed_addr #0 {
  br label %2

2:                                                ; preds = %35, %1
  %3 = phi i64 [ 0, %1 ], [ %38, %35 ]
  %4 = phi i32 [ 0, %1 ], [ %37, %35 ]
  %5 = phi i32 [ %0, %1 ], [ %36, %35 ]
  %6 = getelementptr inbounds [13 x i16], ptr @values, i64 0, i64 %3
  %7 = load i16, ptr %6, align 2, !tbaa !8
  %8 = sext i16 %7 to i32
  %9 = icmp slt i32 %5, %8
  br i1 %9, label %35, label %10

10:                                               ; preds = %2
  %11 = getelementptr inbounds [13 x ptr], ptr @signs, i64 0, i64 %3
  %12 = load ptr, ptr %11, align 8, !tbaa !12
  br label %13

13:                                               ; preds = %22, %10
  %14 = phi i32 [ %4, %10 ], [ %23, %22 ]
  %15 = phi i32 [ %5, %10 ], [ %24, %22 ]
  %16 = load i8, ptr %12, align 1, !tbaa !14
  %17 = icmp eq i8 %16, 0
  br i1 %17, label %22, label %18

18:                                               ; preds = %13
  %19 = sext i32 %14 to i64
  br label %26

20:                                               ; preds = %26
  %21 = trunc nsw i64 %30 to i32
  br label %22

22:                                               ; preds = %20, %13
  %23 = phi i32 [ %14, %13 ], [ %21, %20 ]
  %24 = sub nsw i32 %15, %8
  %25 = icmp slt i32 %24, %8
  br i1 %25, label %35, label %13, !llvm.loop !15

26:                                               ; preds = %26, %18
  %27 = phi i64 [ %19, %18 ], [ %30, %26 ]
  %28 = phi i8 [ %16, %18 ], [ %33, %26 ]
  %29 = phi ptr [ %12, %18 ], [ %32, %26 ]
  %30 = add nsw i64 %27, 1
  %31 = getelementptr inbounds [20 x i8], ptr @text, i64 0, i64 %27
  store i8 %28, ptr %31, align 1, !tbaa !14
  %32 = getelementptr inbounds i8, ptr %29, i64 1
  %33 = load i8, ptr %32, align 1, !tbaa !14
  %34 = icmp eq i8 %33, 0
  br i1 %34, label %20, label %26, !llvm.loop !18

35:                                               ; preds = %22, %2
  %36 = phi i32 [ %5, %2 ], [ %24, %22 ]
  %37 = phi i32 [ %4, %2 ], [ %23, %22 ]
  %38 = add nuw nsw i64 %3, 1
  %39 = icmp eq i64 %38, 13
  br i1 %39, label %40, label %2, !llvm.loop !19

40:                                               ; preds = %35
  %41 = sext i32 %37 to i64
  %42 = getelementptr inbounds [20 x i8], ptr @text, i64 0, i64 %41
  store i8 0, ptr %42, align 1, !tbaa !14
  br label %43

43:                                               ; preds = %66, %40
  %44 = phi ptr [ @text, %40 ], [ %57, %66 ]
  %45 = phi i32 [ 0, %40 ], [ %71, %66 ]
  %46 = load i8, ptr %44, align 1, !tbaa !14
  switch i8 %46, label %54 [
    i8 0, label %47
    i8 73, label %55
    i8 86, label %48
    i8 88, label %49
    i8 76, label %50
    i8 67, label %51
    i8 68, label %52
    i8 77, label %53
  ]

47:                                               ; preds = %43
  ret i32 %45

48:                                               ; preds = %43
  br label %55

49:                                               ; preds = %43
  br label %55

50:                                               ; preds = %43
  br label %55

51:                                               ; preds = %43
  br label %55

52:                                               ; preds = %43
  br label %55

53:                                               ; preds = %43
  br label %55

54:                                               ; preds = %43
  br label %55

55:                                               ; preds = %43, %48, %49, %50, %51, %52, %53, %54
  %56 = phi i32 [ 0, %54 ], [ 1000, %53 ], [ 500, %52 ], [ 100, %51 ], [ 50, %50 ], [ 10, %49 ], [ 5, %48 ], [ 1, %43 ]
  %57 = getelementptr inbounds i8, ptr %44, i64 1
  %58 = load i8, ptr %57, align 1, !tbaa !14
  switch i8 %58, label %65 [
    i8 73, label %66
    i8 86, label %59
    i8 88, label %60
    i8 76, label %61
    i8 67, label %62
    i8 68, label %63
    i8 77, label %64
  ]

59:                                               ; preds = %55
  br label %66

60:                                               ; preds = %55
  br label %66

61:                                               ; preds = %55
  br label %66

62:                                               ; preds = %55
  br label %66

63:                                               ; preds = %55
  br label %66

64:                                               ; preds = %55
  br label %66

65:                                               ; preds = %55
  br label %66

66:                                               ; preds = %55, %59, %60, %61, %62, %63, %64, %65
  %67 = phi i32 [ 0, %65 ], [ 1000, %64 ], [ 500, %63 ], [ 100, %62 ], [ 50, %61 ], [ 10, %60 ], [ 5, %59 ], [ 1, %55 ]
  %68 = icmp ult i32 %56, %67
  %69 = sub nsw i32 0, %56
  %70 = select i1 %68, i32 %69, i32 %56
  %71 = add nsw i32 %70, %45
  br label %43, !llvm.loop !20
}

; Function Attrs: nofree norecurse nosync nounwind memory(readwrite, argmem: read, inaccessiblemem: none)
define dso_local i64 @spelled(i32 noundef signext %0) local_unnamed_addr #0 {
  br label %2

2:                                                ; preds = %35, %1
  %3 = phi i64 [ 0, %1 ], [ %38, %35 ]
  %4 = phi i32 [ 0, %1 ], [ %37, %35 ]
  %5 = phi i32 [ %0, %1 ], [ %36, %35 ]
  %6 = getelementptr inbounds [13 x i16], ptr @values, i64 0, i64 %3
  %7 = load i16, ptr %6, align 2, !tbaa !8
  %8 = sext i16 %7 to i32
  %9 = icmp slt i32 %5, %8
  br i1 %9, label %35, label %10

10:                                               ; preds = %2
  %11 = getelementptr inbounds [13 x ptr], ptr @signs, i64 0, i64 %3
  %12 = load ptr, ptr %11, align 8, !tbaa !12
  br label %13

13:                                               ; preds = %22, %10
  %14 = phi i32 [ %4, %10 ], [ %23, %22 ]
  %15 = phi i32 [ %5, %10 ], [ %24, %22 ]
  %16 = load i8, ptr %12, align 1, !tbaa !14
  %17 = icmp eq i8 %16, 0
  br i1 %17, label %22, label %18

18:                                               ; preds = %13
  %19 = sext i32 %14 to i64
  br label %26

20:                                               ; preds = %26
  %21 = trunc nsw i64 %30 to i32
  br label %22

22:                                               ; preds = %20, %13
  %23 = phi i32 [ %14, %13 ], [ %21, %20 ]
  %24 = sub nsw i32 %15, %8
  %25 = icmp slt i32 %24, %8
  br i1 %25, label %35, label %13, !llvm.loop !15

26:                                               ; preds = %26, %18
  %27 = phi i64 [ %19, %18 ], [ %30, %26 ]
  %28 = phi i8 [ %16, %18 ], [ %33, %26 ]
  %29 = phi ptr [ %12, %18 ], [ %32, %26 ]
  %30 = add nsw i64 %27, 1
  %31 = getelementptr inbounds [20 x i8], ptr @text, i64 0, i64 %27
  store i8 %28, ptr %31, align 1, !tbaa !14
  %32 = getelementptr inbounds i8, ptr %29, i64 1
  %33 = load i8, ptr %32, align 1, !tbaa !14
  %34 = icmp eq i8 %33, 0
  br i1 %34, label %20, label %26, !llvm.loop !18

35:                                               ; preds = %22, %2
  %36 = phi i32 [ %5, %2 ], [ %24, %22 ]
  %37 = phi i32 [ %4, %2 ], [ %23, %22 ]
  %38 = add nuw nsw i64 %3, 1
  %39 = icmp eq i64 %38, 13
  br i1 %39, label %40, label %2, !llvm.loop !19

40:                                               ; preds = %35
  %41 = sext i32 %37 to i64
  %42 = getelementptr inbounds [20 x i8], ptr @text, i64 0, i64 %41
  store i8 0, ptr %42, align 1, !tbaa !14
  %43 = load i8, ptr @text, align 1, !tbaa !14
  %44 = icmp eq i8 %43, 0
  br i1 %44, label %45, label %47

45:                                               ; preds = %47, %40
  %46 = phi i64 [ 0, %40 ], [ %54, %47 ]
  ret i64 %46

47:                                               ; preds = %40, %47
  %48 = phi i8 [ %56, %47 ], [ %43, %40 ]
  %49 = phi ptr [ %55, %47 ], [ @text, %40 ]
  %50 = phi i64 [ %54, %47 ], [ 0, %40 ]
  %51 = mul nsw i64 %50, 29
  %52 = zext i8 %48 to i64
  %53 = add i64 %51, -64
  %54 = add i64 %53, %52
  %55 = getelementptr inbounds i8, ptr %49, i64 1
  %56 = load i8, ptr %55, align 1, !tbaa !14
  %57 = icmp eq i8 %56, 0
  br i1 %57, label %45, label %47, !llvm.loop !21
}

attributes #0 = { nofree norecurse nosync nounwind memory(readwrite, argmem: read, inaccessiblemem: none) "no-builtins" "no-trapping-math"="true" "stack-protector-buffer-size"="8" "target-cpu"="generic-rv64" "target-features"="+64bit,+m,+relax,+zmmul,-a,-b,-c,-d,-e,-experimental-smmpm,-experimental-smnpm,-experimental-ssnpm,-experimental-sspm,-experimental-ssqosid,-experimental-supm,-experimental-zacas,-experimental-zalasr,-experimental-zicfilp,-experimental-zicfiss,-f,-h,-shcounterenw,-shgatpa,-shtvala,-shvsatpa,-shvstvala,-shvstvecd,-smaia,-smcdeleg,-smcsrind,-smepmp,-smstateen,-ssaia,-ssccfg,-ssccptr,-sscofpmf,-sscounterenw,-sscsrind,-ssstateen,-ssstrict,-sstc,-sstvala,-sstvecd,-ssu64xl,-svade,-svadu,-svbare,-svinval,-svnapot,-svpbmt,-v,-xcvalu,-xcvbi,-xcvbitmanip,-xcvelw,-xcvmac,-xcvmem,-xcvsimd,-xsfcease,-xsfvcp,-xsfvfnrclipxfqf,-xsfvfwmaccqqq,-xsfvqmaccdod,-xsfvqmaccqoq,-xsifivecdiscarddlone,-xsifivecflushdlone,-xtheadba,-xtheadbb,-xtheadbs,-xtheadcmo,-xtheadcondmov,-xtheadfmemidx,-xtheadmac,-xtheadmemidx,-xtheadmempair,-xtheadsync,-xtheadvdot,-xventanacondops,-xwchc,-za128rs,-za64rs,-zaamo,-zabha,-zalrsc,-zama16b,-zawrs,-zba,-zbb,-zbc,-zbkb,-zbkc,-zbkx,-zbs,-zca,-zcb,-zcd,-zce,-zcf,-zcmop,-zcmp,-zcmt,-zdinx,-zfa,-zfbfmin,-zfh,-zfhmin,-zfinx,-zhinx,-zhinxmin,-zic64b,-zicbom,-zicbop,-zicboz,-ziccamoa,-ziccif,-zicclsm,-ziccrse,-zicntr,-zicond,-zicsr,-zifencei,-zihintntl,-zihintpause,-zihpm,-zimop,-zk,-zkn,-zknd,-zkne,-zknh,-zkr,-zks,-zksed,-zksh,-zkt,-ztso,-zvbb,-zvbc,-zve32f,-zve32x,-zve64d,-zve64f,-zve64x,-zvfbfmin,-zvfbfwma,-zvfh,-zvfhmin,-zvkb,-zvkg,-zvkn,-zvknc,-zvkned,-zvkng,-zvknha,-zvknhb,-zvks,-zvksc,-zvksed,-zvksg,-zvksh,-zvkt,-zvl1024b,-zvl128b,-zvl16384b,-zvl2048b,-zvl256b,-zvl32768b,-zvl32b,-zvl4096b,-zvl512b,-zvl64b,-zvl65536b,-zvl8192b" }

!llvm.module.flags = !{!0, !1, !2, !4, !5, !6}
!llvm.ident = !{!7}

!0 = !{i32 1, !"wchar_size", i32 4}
!1 = !{i32 1, !"target-abi", !"lp64"}
!2 = !{i32 6, !"riscv-isa", !3}
!3 = !{!"rv64i2p1_m2p0_zmmul1p0"}
!4 = !{i32 8, !"PIC Level", i32 2}
!5 = !{i32 7, !"PIE Level", i32 2}
!6 = !{i32 8, !"SmallDataLimit", i32 8}
!7 = !{!"Debian clang version 19.1.7 (3~deb12u1)"}
!8 = !{!9, !9, i64 0}
!9 = !{!"short", !10, i64 0}
!10 = !{!"omnipotent char", !11, i64 0}
!11 = !{!"Simple C/C++ TBAA"}
!12 = !{!13, !13, i64 0}
!13 = !{!"any pointer", !10, i64 0}
!14 = !{!10, !10, i64 0}
!15 = distinct !{!15, !16, !17}
!16 = !{!"llvm.loop.mustprogress"}
!17 = !{!"llvm.loop.unroll.disable"}
!18 = distinct !{!18, !16, !17}
!19 = distinct !{!19, !16, !17}
!20 = distinct !{!20, !16, !17}
!21 = distinct !{!21, !16, !17}
