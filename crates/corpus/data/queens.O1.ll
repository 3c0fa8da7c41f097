; ModuleID = 'queens.c'
source_filename = "queens.c"
target datalayout = "e-m:e-p:64:64-i64:64-i128:128-n32:64-S128"
target triple = "riscv64-unknown-linux-gnu"

@at = internal unnamed_addr global [8 x i8] zeroinitializer, align 1

; Function Attrs: nofree nosync nounwind memory(none)
define dso_local signext i32 @queens(i32 noundef signext %0) local_unnamed_addr #0 {
  %2 = shl nsw i32 -1, %0
  %3 = xor i32 %2, -1
  %4 = tail call fastcc signext i32 @place(i32 noundef signext %3, i32 noundef signext 0, i32 noundef signext 0, i32 noundef signext 0) #2
  ret i32 %4
}

; Function Attrs: nofree nosync nounwind memory(none)
define internal fastcc signext i32 @place(i32 noundef signext %0, i32 noundef signext %1, i32 noundef signext %2, i32 noundef signext %3) unnamed_addr #0 {
  %5 = icmp eq i32 %1, %0
  br i1 %5, label %26, label %6

6:                                                ; preds = %4
  %7 = or i32 %2, %1
  %8 = or i32 %7, %3
  %9 = xor i32 %8, -1
  %10 = and i32 %9, %0
  %11 = icmp eq i32 %10, 0
  br i1 %11, label %26, label %12

12:                                               ; preds = %6, %12
  %13 = phi i32 [ %17, %12 ], [ %10, %6 ]
  %14 = phi i32 [ %24, %12 ], [ 0, %6 ]
  %15 = sub i32 0, %13
  %16 = and i32 %13, %15
  %17 = xor i32 %16, %13
  %18 = or i32 %16, %1
  %19 = or i32 %16, %2
  %20 = shl i32 %19, 1
  %21 = or i32 %16, %3
  %22 = lshr i32 %21, 1
  %23 = tail call fastcc signext i32 @place(i32 noundef signext %0, i32 noundef signext %18, i32 noundef signext %20, i32 noundef signext %22) #2
  %24 = add nsw i32 %23, %14
  %25 = icmp eq i32 %16, %13
  br i1 %25, label %26, label %12, !llvm.loop !8

26:                                               ; preds = %12, %6, %4
  %27 = phi i32 [ 1, %4 ], [ 0, %6 ], [ %24, %12 ]
  ret i32 %27
}

; Function Attrs: nofree norecurse nosync nounwind memory(readwrite, argmem: none, inaccessiblemem: none)
define dso_local signext i32 @first_by_columns(i32 noundef signext %0) local_unnamed_addr #1 {
  %2 = icmp sgt i32 %0, 0
  br i1 %2, label %3, label %13

3:                                                ; preds = %1, %64
  %4 = phi i32 [ %66, %64 ], [ 0, %1 ]
  %5 = phi i32 [ %65, %64 ], [ 0, %1 ]
  %6 = icmp slt i32 %4, %0
  br i1 %6, label %7, label %55

7:                                                ; preds = %3
  %8 = icmp slt i32 %5, 1
  %9 = zext nneg i32 %5 to i64
  %10 = load i8, ptr @at, align 1
  %11 = sext i8 %10 to i32
  %12 = sub i32 0, %5
  br label %17

13:                                               ; preds = %64, %1
  %14 = icmp sgt i32 %0, 0
  br i1 %14, label %15, label %78

15:                                               ; preds = %13
  %16 = zext nneg i32 %0 to i64
  br label %68

17:                                               ; preds = %7, %47
  %18 = phi i32 [ %4, %7 ], [ %48, %47 ]
  br i1 %8, label %45, label %19

19:                                               ; preds = %17
  %20 = sub nsw i32 %11, %18
  %21 = icmp eq i32 %18, %11
  %22 = icmp eq i32 %20, %5
  %23 = icmp eq i32 %20, %12
  %24 = or i1 %22, %23
  %25 = select i1 %21, i1 true, i1 %24
  br i1 %25, label %47, label %26

26:                                               ; preds = %19, %30
  %27 = phi i64 [ %28, %30 ], [ 0, %19 ]
  %28 = add nuw nsw i64 %27, 1
  %29 = icmp eq i64 %28, %9
  br i1 %29, label %43, label %30, !llvm.loop !11

30:                                               ; preds = %26
  %31 = getelementptr inbounds [8 x i8], ptr @at, i64 0, i64 %28
  %32 = load i8, ptr %31, align 1, !tbaa !12
  %33 = sext i8 %32 to i32
  %34 = sub nsw i32 %33, %18
  %35 = icmp eq i32 %18, %33
  %36 = trunc i64 %28 to i32
  %37 = sub i32 %5, %36
  %38 = icmp eq i32 %34, %37
  %39 = sub i32 %36, %5
  %40 = icmp eq i32 %34, %39
  %41 = or i1 %38, %40
  %42 = select i1 %35, i1 true, i1 %41
  br i1 %42, label %43, label %26, !llvm.loop !11

43:                                               ; preds = %26, %30
  %44 = icmp uge i64 %28, %9
  br label %45

45:                                               ; preds = %43, %17
  %46 = phi i1 [ %8, %17 ], [ %44, %43 ]
  br i1 %46, label %50, label %47

47:                                               ; preds = %19, %45
  %48 = add i32 %18, 1
  %49 = icmp eq i32 %48, %0
  br i1 %49, label %55, label %17, !llvm.loop !15

50:                                               ; preds = %45
  %51 = trunc i32 %18 to i8
  %52 = add nsw i32 %5, 1
  %53 = sext i32 %5 to i64
  %54 = getelementptr inbounds [8 x i8], ptr @at, i64 0, i64 %53
  store i8 %51, ptr %54, align 1, !tbaa !12
  br label %64

55:                                               ; preds = %47, %3
  %56 = icmp eq i32 %5, 0
  br i1 %56, label %78, label %57

57:                                               ; preds = %55
  %58 = add nsw i32 %5, -1
  %59 = sext i32 %58 to i64
  %60 = getelementptr inbounds [8 x i8], ptr @at, i64 0, i64 %59
  %61 = load i8, ptr %60, align 1, !tbaa !12
  %62 = sext i8 %61 to i32
  %63 = add nsw i32 %62, 1
  br label %64

64:                                               ; preds = %57, %50
  %65 = phi i32 [ %52, %50 ], [ %58, %57 ]
  %66 = phi i32 [ 0, %50 ], [ %63, %57 ]
  %67 = icmp slt i32 %65, %0
  br i1 %67, label %3, label %13, !llvm.loop !16

68:                                               ; preds = %15, %68
  %69 = phi i64 [ 0, %15 ], [ %76, %68 ]
  %70 = phi i32 [ 0, %15 ], [ %75, %68 ]
  %71 = mul nsw i32 %70, 10
  %72 = getelementptr inbounds [8 x i8], ptr @at, i64 0, i64 %69
  %73 = load i8, ptr %72, align 1, !tbaa !12
  %74 = sext i8 %73 to i32
  %75 = add nsw i32 %71, %74
  %76 = add nuw nsw i64 %69, 1
  %77 = icmp eq i64 %76, %16
  br i1 %77, label %78, label %68, !llvm.loop !17

78:                                               ; preds = %55, %68, %13
  %79 = phi i32 [ 0, %13 ], [ %75, %68 ], [ -1, %55 ]
  ret i32 %79
}

attributes #0 = { nofree nosync nounwind memory(none) "no-builtins" "no-trapping-math"="true" "stack-protector-buffer-size"="8" "target-cpu"="generic-rv64" "target-features"="+64bit,+m,+relax,+zmmul,-a,-b,-c,-d,-e,-experimental-smmpm,-experimental-smnpm,-experimental-ssnpm,-experimental-sspm,-experimental-ssqosid,-experimental-supm,-experimental-zacas,-experimental-zalasr,-experimental-zicfilp,-experimental-zicfiss,-f,-h,-shcounterenw,-shgatpa,-shtvala,-shvsatpa,-shvstvala,-shvstvecd,-smaia,-smcdeleg,-smcsrind,-smepmp,-smstateen,-ssaia,-ssccfg,-ssccptr,-sscofpmf,-sscounterenw,-sscsrind,-ssstateen,-ssstrict,-sstc,-sstvala,-sstvecd,-ssu64xl,-svade,-svadu,-svbare,-svinval,-svnapot,-svpbmt,-v,-xcvalu,-xcvbi,-xcvbitmanip,-xcvelw,-xcvmac,-xcvmem,-xcvsimd,-xsfcease,-xsfvcp,-xsfvfnrclipxfqf,-xsfvfwmaccqqq,-xsfvqmaccdod,-xsfvqmaccqoq,-xsifivecdiscarddlone,-xsifivecflushdlone,-xtheadba,-xtheadbb,-xtheadbs,-xtheadcmo,-xtheadcondmov,-xtheadfmemidx,-xtheadmac,-xtheadmemidx,-xtheadmempair,-xtheadsync,-xtheadvdot,-xventanacondops,-xwchc,-za128rs,-za64rs,-zaamo,-zabha,-zalrsc,-zama16b,-zawrs,-zba,-zbb,-zbc,-zbkb,-zbkc,-zbkx,-zbs,-zca,-zcb,-zcd,-zce,-zcf,-zcmop,-zcmp,-zcmt,-zdinx,-zfa,-zfbfmin,-zfh,-zfhmin,-zfinx,-zhinx,-zhinxmin,-zic64b,-zicbom,-zicbop,-zicboz,-ziccamoa,-ziccif,-zicclsm,-ziccrse,-zicntr,-zicond,-zicsr,-zifencei,-zihintntl,-zihintpause,-zihpm,-zimop,-zk,-zkn,-zknd,-zkne,-zknh,-zkr,-zks,-zksed,-zksh,-zkt,-ztso,-zvbb,-zvbc,-zve32f,-zve32x,-zve64d,-zve64f,-zve64x,-zvfbfmin,-zvfbfwma,-zvfh,-zvfhmin,-zvkb,-zvkg,-zvkn,-zvknc,-zvkned,-zvkng,-zvknha,-zvknhb,-zvks,-zvksc,-zvksed,-zvksg,-zvksh,-zvkt,-zvl1024b,-zvl128b,-zvl16384b,-zvl2048b,-zvl256b,-zvl32768b,-zvl32b,-zvl4096b,-zvl512b,-zvl64b,-zvl65536b,-zvl8192b" }
attributes #1 = { nofree norecurse nosync nounwind memory(readwrite, argmem: none, inaccessiblemem: none) "no-builtins" "no-trapping-math"="true" "stack-protector-buffer-size"="8" "target-cpu"="generic-rv64" "target-features"="+64bit,+m,+relax,+zmmul,-a,-b,-c,-d,-e,-experimental-smmpm,-experimental-smnpm,-experimental-ssnpm,-experimental-sspm,-experimental-ssqosid,-experimental-supm,-experimental-zacas,-experimental-zalasr,-experimental-zicfilp,-experimental-zicfiss,-f,-h,-shcounterenw,-shgatpa,-shtvala,-shvsatpa,-shvstvala,-shvstvecd,-smaia,-smcdeleg,-smcsrind,-smepmp,-smstateen,-ssaia,-ssccfg,-ssccptr,-sscofpmf,-sscounterenw,-sscsrind,-ssstateen,-ssstrict,-sstc,-sstvala,-sstvecd,-ssu64xl,-svade,-svadu,-svbare,-svinval,-svnapot,-svpbmt,-v,-xcvalu,-xcvbi,-xcvbitmanip,-xcvelw,-xcvmac,-xcvmem,-xcvsimd,-xsfcease,-xsfvcp,-xsfvfnrclipxfqf,-xsfvfwmaccqqq,-xsfvqmaccdod,-xsfvqmaccqoq,-xsifivecdiscarddlone,-xsifivecflushdlone,-xtheadba,-xtheadbb,-xtheadbs,-xtheadcmo,-xtheadcondmov,-xtheadfmemidx,-xtheadmac,-xtheadmemidx,-xtheadmempair,-xtheadsync,-xtheadvdot,-xventanacondops,-xwchc,-za128rs,-za64rs,-zaamo,-zabha,-zalrsc,-zama16b,-zawrs,-zba,-zbb,-zbc,-zbkb,-zbkc,-zbkx,-zbs,-zca,-zcb,-zcd,-zce,-zcf,-zcmop,-zcmp,-zcmt,-zdinx,-zfa,-zfbfmin,-zfh,-zfhmin,-zfinx,-zhinx,-zhinxmin,-zic64b,-zicbom,-zicbop,-zicboz,-ziccamoa,-ziccif,-zicclsm,-ziccrse,-zicntr,-zicond,-zicsr,-zifencei,-zihintntl,-zihintpause,-zihpm,-zimop,-zk,-zkn,-zknd,-zkne,-zknh,-zkr,-zks,-zksed,-zksh,-zkt,-ztso,-zvbb,-zvbc,-zve32f,-zve32x,-zve64d,-zve64f,-zve64x,-zvfbfmin,-zvfbfwma,-zvfh,-zvfhmin,-zvkb,-zvkg,-zvkn,-zvknc,-zvkned,-zvkng,-zvknha,-zvknhb,-zvks,-zvksc,-zvksed,-zvksg,-zvksh,-zvkt,-zvl1024b,-zvl128b,-zvl16384b,-zvl2048b,-zvl256b,-zvl32768b,-zvl32b,-zvl4096b,-zvl512b,-zvl64b,-zvl65536b,-zvl8192b" }
attributes #2 = { nobuiltin "no-builtins" }

!llvm.module.flags = !{!0, !1, !2, !4, !5, !6}
!llvm.ident = !{!7}

!0 = !{i32 1, !"wchar_size", i32 4}
!1 = !{i32 1, !"target-abi", !"lp64"}
!2 = !{i32 6, !"riscv-isa", !3}
!3 = !{!"rv64i2p1_m2p0_zmmul1p0"}
!4 = !{i32 8, !"PIC Level", i32 2}
!5 = !{i32 7, !"PIE Level", i32 2}
!6 = !{i32 8, !"SmallDataLimit", i32 8}
!7 = !{!"Debian clang version 19.1.7 (3~deb12u1)"}
!8 = distinct !{!8, !9, !10}
!9 = !{!"llvm.loop.mustprogress"}
!10 = !{!"llvm.loop.unroll.disable"}
!11 = distinct !{!11, !9, !10}
!12 = !{!13, !13, i64 0}
!13 = !{!"omnipotent char", !14, i64 0}
!14 = !{!"Simple C/C++ TBAA"}
!15 = distinct !{!15, !9, !10}
!16 = distinct !{!16, !9, !10}
!17 = distinct !{!17, !9, !10}
