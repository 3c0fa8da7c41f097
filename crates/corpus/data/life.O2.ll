; ModuleID = 'life.c'
source_filename = "life.c"
target datalayout = "e-m:e-p:64:64-i64:64-i128:128-n32:64-S128"
target triple = "riscv64-unknown-linux-gnu"

; Function Attrs: nofree norecurse nosync nounwind memory(none)
define dso_local i64 @after(i64 noundef %0, i32 noundef signext %1) local_unnamed_addr #0 {
  %3 = icmp sgt i32 %1, 0
  br i1 %3, label %4, label %64

4:                                                ; preds = %2, %61
  %5 = phi i32 [ %62, %61 ], [ %1, %2 ]
  %6 = phi i64 [ %58, %61 ], [ %0, %2 ]
  br label %7

7:                                                ; preds = %16, %4
  %8 = phi i64 [ 0, %4 ], [ %17, %16 ]
  %9 = phi i64 [ 0, %4 ], [ %58, %16 ]
  %10 = shl nuw nsw i64 %8, 3
  %11 = trunc nuw nsw i64 %8 to i32
  br label %12

12:                                               ; preds = %57, %7
  %13 = phi i64 [ 0, %7 ], [ %59, %57 ]
  %14 = phi i64 [ %9, %7 ], [ %58, %57 ]
  %15 = trunc nuw nsw i64 %13 to i32
  br label %19

16:                                               ; preds = %57
  %17 = add nuw nsw i64 %8, 1
  %18 = icmp eq i64 %17, 8
  br i1 %18, label %61, label %7, !llvm.loop !8

19:                                               ; preds = %25, %12
  %20 = phi i32 [ %26, %25 ], [ -1, %12 ]
  %21 = phi i32 [ %43, %25 ], [ 0, %12 ]
  %22 = add nsw i32 %20, %11
  %23 = shl i32 %22, 3
  %24 = and i32 %23, 56
  br label %28

25:                                               ; preds = %42
  %26 = add nsw i32 %20, 1
  %27 = icmp eq i32 %26, 2
  br i1 %27, label %46, label %19, !llvm.loop !11

28:                                               ; preds = %42, %19
  %29 = phi i32 [ -1, %19 ], [ %44, %42 ]
  %30 = phi i32 [ %21, %19 ], [ %43, %42 ]
  %31 = or i32 %29, %20
  %32 = icmp eq i32 %31, 0
  br i1 %32, label %42, label %33

33:                                               ; preds = %28
  %34 = add nsw i32 %29, %15
  %35 = and i32 %34, 7
  %36 = or disjoint i32 %35, %24
  %37 = zext nneg i32 %36 to i64
  %38 = lshr i64 %6, %37
  %39 = trunc i64 %38 to i32
  %40 = and i32 %39, 1
  %41 = add nsw i32 %40, %30
  br label %42

42:                                               ; preds = %33, %28
  %43 = phi i32 [ %41, %33 ], [ %30, %28 ]
  %44 = add nsw i32 %29, 1
  %45 = icmp eq i32 %44, 2
  br i1 %45, label %25, label %28, !llvm.loop !12

46:                                               ; preds = %25
  %47 = add nuw nsw i64 %13, %10
  switch i32 %43, label %57 [
    i32 3, label %48
    i32 2, label %50
  ]

48:                                               ; preds = %46
  %49 = shl nuw i64 1, %47
  br label %54

50:                                               ; preds = %46
  %51 = shl nuw i64 1, %47
  %52 = and i64 %51, %6
  %53 = icmp eq i64 %52, 0
  br i1 %53, label %57, label %54

54:                                               ; preds = %50, %48
  %55 = phi i64 [ %49, %48 ], [ %51, %50 ]
  %56 = or i64 %55, %14
  br label %57

57:                                               ; preds = %54, %50, %46
  %58 = phi i64 [ %56, %54 ], [ %14, %50 ], [ %14, %46 ]
  %59 = add nuw nsw i64 %13, 1
  %60 = icmp eq i64 %59, 8
  br i1 %60, label %16, label %12, !llvm.loop !13

61:                                               ; preds = %16
  %62 = add nsw i32 %5, -1
  %63 = icmp sgt i32 %5, 1
  br i1 %63, label %4, label %64, !llvm.loop !14

64:                                               ; preds = %61, %2
  %65 = phi i64 [ %0, %2 ], [ %58, %61 ]
  ret i64 %65
}

attributes #0 = { nofree norecurse nosync nounwind memory(none) "no-builtins" "no-trapping-math"="true" "stack-protector-buffer-size"="8" "target-cpu"="generic-rv64" "target-features"="+64bit,+m,+relax,+zmmul,-a,-b,-c,-d,-e,-experimental-smmpm,-experimental-smnpm,-experimental-ssnpm,-experimental-sspm,-experimental-ssqosid,-experimental-supm,-experimental-zacas,-experimental-zalasr,-experimental-zicfilp,-experimental-zicfiss,-f,-h,-shcounterenw,-shgatpa,-shtvala,-shvsatpa,-shvstvala,-shvstvecd,-smaia,-smcdeleg,-smcsrind,-smepmp,-smstateen,-ssaia,-ssccfg,-ssccptr,-sscofpmf,-sscounterenw,-sscsrind,-ssstateen,-ssstrict,-sstc,-sstvala,-sstvecd,-ssu64xl,-svade,-svadu,-svbare,-svinval,-svnapot,-svpbmt,-v,-xcvalu,-xcvbi,-xcvbitmanip,-xcvelw,-xcvmac,-xcvmem,-xcvsimd,-xsfcease,-xsfvcp,-xsfvfnrclipxfqf,-xsfvfwmaccqqq,-xsfvqmaccdod,-xsfvqmaccqoq,-xsifivecdiscarddlone,-xsifivecflushdlone,-xtheadba,-xtheadbb,-xtheadbs,-xtheadcmo,-xtheadcondmov,-xtheadfmemidx,-xtheadmac,-xtheadmemidx,-xtheadmempair,-xtheadsync,-xtheadvdot,-xventanacondops,-xwchc,-za128rs,-za64rs,-zaamo,-zabha,-zalrsc,-zama16b,-zawrs,-zba,-zbb,-zbc,-zbkb,-zbkc,-zbkx,-zbs,-zca,-zcb,-zcd,-zce,-zcf,-zcmop,-zcmp,-zcmt,-zdinx,-zfa,-zfbfmin,-zfh,-zfhmin,-zfinx,-zhinx,-zhinxmin,-zic64b,-zicbom,-zicbop,-zicboz,-ziccamoa,-ziccif,-zicclsm,-ziccrse,-zicntr,-zicond,-zicsr,-zifencei,-zihintntl,-zihintpause,-zihpm,-zimop,-zk,-zkn,-zknd,-zkne,-zknh,-zkr,-zks,-zksed,-zksh,-zkt,-ztso,-zvbb,-zvbc,-zve32f,-zve32x,-zve64d,-zve64f,-zve64x,-zvfbfmin,-zvfbfwma,-zvfh,-zvfhmin,-zvkb,-zvkg,-zvkn,-zvknc,-zvkned,-zvkng,-zvknha,-zvknhb,-zvks,-zvksc,-zvksed,-zvksg,-zvksh,-zvkt,-zvl1024b,-zvl128b,-zvl16384b,-zvl2048b,-zvl256b,-zvl32768b,-zvl32b,-zvl4096b,-zvl512b,-zvl64b,-zvl65536b,-zvl8192b" }

!llvm.module.flags = !{!0, !1, !2, !4, !5, !6}
!llvm.ident = !{!7}

!0 = !{i32 1, !"wchar_size", i32 4}
!1 = !{i32 1, !"target-abi", !"lp64"}
!2 = !{i32 6, !"riscv-isa", !3}
!3 = !{!"rv64i2p1_m2p0_zmmul1p0"}
!4 = !{i32 8, !"PIC Level", i32 2}
!5 = !{i32 7, !"PIE Level", i32 2}
!6 = !{i32 8, !"SmallDataLimit", i32 8}
!7 = !{!"Debian clang version 19.1.7 (3~deb12u1)"}
!8 = distinct !{!8, !9, !10}
!9 = !{!"llvm.loop.mustprogress"}
!10 = !{!"llvm.loop.unroll.disable"}
!11 = distinct !{!11, !9, !10}
!12 = distinct !{!12, !9, !10}
!13 = distinct !{!13, !9, !10}
!14 = distinct !{!14, !9, !10}
