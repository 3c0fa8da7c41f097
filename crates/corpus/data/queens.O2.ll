; ModuleID = 'queens.c'
source_filename = "queens.c"
target datalayout = "e-m:e-p:64:64-i64:64-i128:128-n32:64-S128"
target triple = "riscv64-unknown-linux-gnu"

@at = internal unnamed_addr global [8 x i8] zeroinitializer, align 1

; Function Attrs: nofree nosync nounwind memory(none)
define dso_local signext i32 @queens(i32 noundef signext %0) local_unnamed_addr #0 {
  %2 = shl nsw i32 -1, %0
  %3 = xor i32 %2, -1
  %4 = tail call fastcc signext i32 @place(i32 noundef signext %3, i32 noundef signext 0, i32 noundef signext 0, i32 noundef signext 0) #2
  ret i32 %4
}

; Function Attrs: nofree nosync nounwind memory(none)
define internal fastcc signext i32 @place(i32 noundef signext %0, i32 noundef signext %1, i32 noundef signext %2, i32 noundef signext %3) unnamed_addr #0 {
  %5 = icmp eq i32 %1, %0
  br i1 %5, label %26, label %6

6:                                                ; preds = %4
  %7 = or i32 %2, %1
  %8 = or i32 %7, %3
  %9 = xor i32 %8, -1
  %10 = and i32 %9, %0
  %11 = icmp eq i32 %10, 0
  br i1 %11, label %26, label %12

12:                                               ; preds = %6, %12
  %13 = phi i32 [ %17, %12 ], [ %10, %6 ]
  %14 = phi i32 [ %24, %12 ], [ 0, %6 ]
  %15 = sub i32 0, %13
  %16 = and i32 %13, %15
  %17 = xor i32 %16, %13
  %18 = or i32 %16, %1
  %19 = or i32 %16, %2
  %20 = shl i32 %19, 1
  %21 = or i32 %16, %3
  %22 = lshr i32 %21, 1
  %23 = tail call fastcc signext i32 @place(i32 noundef signext %0, i32 noundef signext %18, i32 noundef signext %20, i32 noundef signext %22) #2
  %24 = add nsw i32 %23, %14
  %25 = icmp eq i32 %16, %13
  br i1 %25, label %26, label %12, !llvm.loop !8

26:                                               ; preds = %12, %6, %4
  %27 = phi i32 [ 1, %4 ], [ 0, %6 ], [ %24, %12 ]
  ret i32 %27
}

; Function Attrs: nofree norecurse nosync nounwind memory(readwrite, argmem: none, inaccessiblemem: none)
define dso_local signext i32 @first_by_columns(i32 noundef signext %0) local_unnamed_addr #1 {
  %2 = icmp sgt i32 %0, 0
  br i1 %2, label %3, label %76

3:                                                ; preds = %1, %62
  %4 = phi i32 [ %64, %62 ], [ 0, %1 ]
  %5 = phi i32 [ %63, %62 ], [ 0, %1 ]
  %6 = icmp slt i32 %4, %0
  br i1 %6, label %7, label %53

7:                                                ; preds = %3
  %8 = icmp slt i32 %5, 1
  %9 = zext nneg i32 %5 to i64
  %10 = load i8, ptr @at, align 1
  %11 = sext i8 %10 to i32
  %12 = sub i32 0, %5
  br label %16

13:                                               ; preds = %62
  br i1 %2, label %14, label %76

14:                                               ; preds = %13
  %15 = zext nneg i32 %0 to i64
  br label %66

16:                                               ; preds = %7, %44
  %17 = phi i32 [ %4, %7 ], [ %45, %44 ]
  br i1 %8, label %47, label %18

18:                                               ; preds = %16
  %19 = sub nsw i32 %11, %17
  %20 = icmp eq i32 %17, %11
  %21 = icmp eq i32 %19, %5
  %22 = icmp eq i32 %19, %12
  %23 = or i1 %21, %22
  %24 = select i1 %20, i1 true, i1 %23
  br i1 %24, label %44, label %25

25:                                               ; preds = %18, %29
  %26 = phi i64 [ %27, %29 ], [ 0, %18 ]
  %27 = add nuw nsw i64 %26, 1
  %28 = icmp eq i64 %27, %9
  br i1 %28, label %42, label %29, !llvm.loop !11

29:                                               ; preds = %25
  %30 = getelementptr inbounds [8 x i8], ptr @at, i64 0, i64 %27
  %31 = load i8, ptr %30, align 1, !tbaa !12
  %32 = sext i8 %31 to i32
  %33 = sub nsw i32 %32, %17
  %34 = icmp eq i32 %17, %32
  %35 = trunc i64 %27 to i32
  %36 = sub i32 %5, %35
  %37 = icmp eq i32 %33, %36
  %38 = sub i32 %35, %5
  %39 = icmp eq i32 %33, %38
  %40 = or i1 %37, %39
  %41 = select i1 %34, i1 true, i1 %40
  br i1 %41, label %42, label %25, !llvm.loop !11

42:                                               ; preds = %29, %25
  %43 = icmp ult i64 %27, %9
  br i1 %43, label %44, label %47

44:                                               ; preds = %18, %42
  %45 = add i32 %17, 1
  %46 = icmp eq i32 %45, %0
  br i1 %46, label %53, label %16, !llvm.loop !15

47:                                               ; preds = %16, %42
  %48 = phi i32 [ %4, %16 ], [ %17, %42 ]
  %49 = trunc i32 %48 to i8
  %50 = add nsw i32 %5, 1
  %51 = sext i32 %5 to i64
  %52 = getelementptr inbounds [8 x i8], ptr @at, i64 0, i64 %51
  store i8 %49, ptr %52, align 1, !tbaa !12
  br label %62

53:                                               ; preds = %44, %3
  %54 = icmp eq i32 %5, 0
  br i1 %54, label %76, label %55

55:                                               ; preds = %53
  %56 = add nsw i32 %5, -1
  %57 = sext i32 %56 to i64
  %58 = getelementptr inbounds [8 x i8], ptr @at, i64 0, i64 %57
  %59 = load i8, ptr %58, align 1, !tbaa !12
  %60 = sext i8 %59 to i32
  %61 = add nsw i32 %60, 1
  br label %62

62:                                               ; preds = %55, %47
  %63 = phi i32 [ %50, %47 ], [ %56, %55 ]
  %64 = phi i32 [ 0, %47 ], [ %61, %55 ]
  %65 = icmp slt i32 %63, %0
  br i1 %65, label %3, label %13, !llvm.loop !16

66:                                               ; preds = %14, %66
  %67 = phi i64 [ 0, %14 ], [ %74, %66 ]
  %68 = phi i32 [ 0, %14 ], [ %73, %66 ]
  %69 = mul nsw i32 %68, 10
  %70 = getelementptr inbounds [8 x i8], ptr @at, i64 0, i64 %67
  %71 = load i8, ptr %70, align 1, !tbaa !12
  %72 = sext i8 %71 to i32
  %73 = add nsw i32 %69, %72
  %74 = add nuw nsw i64 %67, 1
  %75 = icmp eq i64 %74, %15
  br i1 %75, label %76, label %66, !llvm.loop !17

76:                                               ; preds = %53, %66, %1, %13
  %77 = phi i32 [ 0, %13 ], [ 0, %1 ], [ %73, %66 ], [ -1, %53 ]
  ret i32 %77
}

attributes #0 = { nofree nosync nounwind memory(none) "no-builtins" "no-trapping-math"="true" "stack-protector-buffer-size"="8" "target-cpu"="generic-rv64" "target-features"="+64bit,+m,+relax,+zmmul,-a,-b,-c,-d,-e,-experimental-smmpm,-experimental-smnpm,-experimental-ssnpm,-experimental-sspm,-experimental-ssqosid,-experimental-supm,-experimental-zacas,-experimental-zalasr,-experimental-zicfilp,-experimental-zicfiss,-f,-h,-shcounterenw,-shgatpa,-shtvala,-shvsatpa,-shvstvala,-shvstvecd,-smaia,-smcdeleg,-smcsrind,-smepmp,-smstateen,-ssaia,-ssccfg,-ssccptr,-sscofpmf,-sscounterenw,-sscsrind,-ssstateen,-ssstrict,-sstc,-sstvala,-sstvecd,-ssu64xl,-svade,-svadu,-svbare,-svinval,-svnapot,-svpbmt,-v,-xcvalu,-xcvbi,-xcvbitmanip,-xcvelw,-xcvmac,-xcvmem,-xcvsimd,-xsfcease,-xsfvcp,-xsfvfnrclipxfqf,-xsfvfwmaccqqq,-xsfvqmaccdod,-xsfvqmaccqoq,-xsifivecdiscarddlone,-xsifivecflushdlone,-xtheadba,-xtheadbb,-xtheadbs,-xtheadcmo,-xtheadcondmov,-xtheadfmemidx,-xtheadmac,-xtheadmemidx,-xtheadmempair,-xtheadsync,-xtheadvdot,-xventanacondops,-xwchc,-za128rs,-za64rs,-zaamo,-zabha,-zalrsc,-zama16b,-zawrs,-zba,-zbb,-zbc,-zbkb,-zbkc,-zbkx,-zbs,-zca,-zcb,-zcd,-zce,-zcf,-zcmop,-zcmp,-zcmt,-zdinx,-zfa,-zfbfmin,-zfh,-zfhmin,-zfinx,-zhinx,-zhinxmin,-zic64b,-zicbom,-zicbop,-zicboz,-ziccamoa,-ziccif,-zicclsm,-ziccrse,-zicntr,-zicond,-zicsr,-zifencei,-zihintntl,-zihintpause,-zihpm,-zimop,-zk,-zkn,-zknd,-zkne,-zknh,-zkr,-zks,-zksed,-zksh,-zkt,-ztso,-zvbb,-zvbc,-zve32f,-zve32x,-zve64d,-zve64f,-zve64x,-zvfbfmin,-zvfbfwma,-zvfh,-zvfhmin,-zvkb,-zvkg,-zvkn,-zvknc,-zvkned,-zvkng,-zvknha,-zvknhb,-zvks,-zvksc,-zvksed,-zvksg,-zvksh,-zvkt,-zvl1024b,-zvl128b,-zvl16384b,-zvl2048b,-zvl256b,-zvl32768b,-zvl32b,-zvl4096b,-zvl512b,-zvl64b,-zvl65536b,-zvl8192b" }
attributes #1 = { nofree norecurse nosync nounwind memory(readwrite, argmem: none, inaccessiblemem: none) "no-builtins" "no-trapping-math"="true" "stack-protector-buffer-size"="8" "target-cpu"="generic-rv64" "target-features"="+64bit,+m,+relax,+zmmul,-a,-b,-c,-d,-e,-experimental-smmpm,-experimental-smnpm,-experimental-ssnpm,-experimental-sspm,-experimental-ssqosid,-experimental-supm,-experimental-zacas,-experimental-zalasr,-experimental-zicfilp,-experimental-zicfiss,-f,-h,-shcounterenw,-shgatpa,-shtvala,-shvsatpa,-shvstvala,-shvstvecd,-smaia,-smcdeleg,-smcsrind,-smepmp,-smstateen,-ssaia,-ssccfg,-ssccptr,-sscofpmf,-sscounterenw,-sscsrind,-ssstateen,-ssstrict,-sstc,-sstvala,-sstvecd,-ssu64xl,-svade,-svadu,-svbare,-svinval,-svnapot,-svpbmt,-v,-xcvalu,-xcvbi,-xcvbitmanip,-xcvelw,-xcvmac,-xcvmem,-xcvsimd,-xsfcease,-xsfvcp,-xsfvfnrclipxfqf,-xsfvfwmaccqqq,-xsfvqmaccdod,-xsfvqmaccqoq,-xsifivecdiscarddlone,-xsifivecflushdlone,-xtheadba,-xtheadbb,-xtheadbs,-xtheadcmo,-xtheadcondmov,-xtheadfmemidx,-xtheadmac,-xtheadmemidx,-xtheadmempair,-xtheadsync,-xtheadvdot,-xventanacondops,-xwchc,-za128rs,-za64rs,-zaamo,-zabha,-zalrsc,-zama16b,-zawrs,-zba,-zbb,-zbc,-zbkb,-zbkc,-zbkx,-zbs,-zca,-zcb,-zcd,-zce,-zcf,-zcmop,-zcmp,-zcmt,-zdinx,-zfa,-zfbfmin,-zfh,-zfhmin,-zfinx,-zhinx,-zhinxmin,-zic64b,-zicbom,-zicbop,-zicboz,-ziccamoa,-ziccif,-zicclsm,-ziccrse,-zicntr,-zicond,-zicsr,-zifencei,-zihintntl,-zihintpause,-zihpm,-zimop,-zk,-zkn,-zknd,-zkne,-zknh,-zkr,-zks,-zksed,-zksh,-zkt,-ztso,-zvbb,-zvbc,-zve32f,-zve32x,-zve64d,-zve64f,-zve64x,-zvfbfmin,-zvfbfwma,-zvfh,-zvfhmin,-zvkb,-zvkg,-zvkn,-zvknc,-zvkned,-zvkng,-zvknha,-zvknhb,-zvks,-zvksc,-zvksed,-zvksg,-zvksh,-zvkt,-zvl1024b,-zvl128b,-zvl16384b,-zvl2048b,-zvl256b,-zvl32768b,-zvl32b,-zvl4096b,-zvl512b,-zvl64b,-zvl65536b,-zvl8192b" }
attributes #2 = { nobuiltin "no-builtins" }

!llvm.module.flags = !{!0, !1, !2, !4, !5, !6}
!llvm.ident = !{!7}

!0 = !{i32 1, !"wchar_size", i32 4}
!1 = !{i32 1, !"target-abi", !"lp64"}
!2 = !{i32 6, !"riscv-isa", !3}
!3 = !{!"rv64i2p1_m2p0_zmmul1p0"}
!4 = !{i32 8, !"PIC Level", i32 2}
!5 = !{i32 7, !"PIE Level", i32 2}
!6 = !{i32 8, !"SmallDataLimit", i32 8}
!7 = !{!"Debian clang version 19.1.7 (3~deb12u1)"}
!8 = distinct !{!8, !9, !10}
!9 = !{!"llvm.loop.mustprogress"}
!10 = !{!"llvm.loop.unroll.disable"}
!11 = distinct !{!11, !9, !10}
!12 = !{!13, !13, i64 0}
!13 = !{!"omnipotent char", !14, i64 0}
!14 = !{!"Simple C/C++ TBAA"}
!15 = distinct !{!15, !9, !10}
!16 = distinct !{!16, !9, !10}
!17 = distinct !{!17, !9, !10}
