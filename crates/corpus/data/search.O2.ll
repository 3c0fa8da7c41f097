; ModuleID = 'search.c'
source_filename = "search.c"
target datalayout = "e-m:e-p:64:64-i64:64-i128:128-n32:64-S128"
target triple = "riscv64-unknown-linux-gnu"

@keys = internal unnamed_addr constant [16 x i16] [i16 -300, i16 -20, i16 -7, i16 -1, i16 0, i16 1, i16 2, i16 3, i16 5, i16 8, i16 13, i16 21, i16 34, i16 55, i16 89, i16 144], align 2

; Function Attrs: nofree norecurse nosync nounwind memory(none)
define dso_local signext i32 @find(i16 noundef signext %0) local_unnamed_addr #0 {
  br label %2

2:                                                ; preds = %1, %11
  %3 = phi i32 [ 15, %1 ], [ %16, %11 ]
  %4 = phi i32 [ 0, %1 ], [ %15, %11 ]
  %5 = add nsw i32 %3, %4
  %6 = sdiv i32 %5, 2
  %7 = sext i32 %6 to i64
  %8 = getelementptr inbounds [16 x i16], ptr @keys, i64 0, i64 %7
  %9 = load i16, ptr %8, align 2, !tbaa !8
  %10 = icmp eq i16 %9, %0
  br i1 %10, label %20, label %11

11:                                               ; preds = %2
  %12 = icmp slt i16 %9, %0
  %13 = add nsw i32 %6, 1
  %14 = add nsw i32 %6, -1
  %15 = select i1 %12, i32 %13, i32 %4
  %16 = select i1 %12, i32 %3, i32 %14
  %17 = icmp sgt i32 %15, %16
  br i1 %17, label %18, label %2

18:                                               ; preds = %11
  %19 = xor i32 %15, -1
  br label %20

20:                                               ; preds = %2, %18
  %21 = phi i32 [ %19, %18 ], [ %6, %2 ]
  ret i32 %21
}

; Function Attrs: nofree norecurse nosync nounwind memory(none)
define dso_local signext i32 @first_not_below(i32 noundef signext %0) local_unnamed_addr #0 {
  br label %2

2:                                                ; preds = %1, %2
  %3 = phi i32 [ 0, %1 ], [ %16, %2 ]
  %4 = phi i32 [ 16, %1 ], [ %14, %2 ]
  %5 = lshr i32 %4, 1
  %6 = add nuw nsw i32 %3, %5
  %7 = zext nneg i32 %6 to i64
  %8 = getelementptr inbounds [16 x i16], ptr @keys, i64 0, i64 %7
  %9 = load i16, ptr %8, align 2, !tbaa !8
  %10 = sext i16 %9 to i32
  %11 = icmp slt i32 %10, %0
  %12 = add nuw nsw i32 %5, 1
  %13 = sub nsw i32 %4, %12
  %14 = select i1 %11, i32 %13, i32 %5
  %15 = select i1 %11, i32 %12, i32 0
  %16 = add nuw nsw i32 %15, %3
  %17 = icmp sgt i32 %14, 0
  br i1 %17, label %2, label %18, !llvm.loop !12

18:                                               ; preds = %2
  ret i32 %16
}

; Function Attrs: nofree norecurse nosync nounwind memory(none)
define dso_local signext i32 @root(i32 noundef signext %0) local_unnamed_addr #0 {
  br label %2

2:                                                ; preds = %1, %2
  %3 = phi i32 [ 0, %1 ], [ %10, %2 ]
  %4 = phi i32 [ 65536, %1 ], [ %9, %2 ]
  %5 = add i32 %3, %4
  %6 = lshr i32 %5, 1
  %7 = mul i32 %6, %6
  %8 = icmp ugt i32 %7, %0
  %9 = select i1 %8, i32 %6, i32 %4
  %10 = select i1 %8, i32 %3, i32 %6
  %11 = sub i32 %9, %10
  %12 = icmp ugt i32 %11, 1
  br i1 %12, label %2, label %13, !llvm.loop !15

13:                                               ; preds = %2
  ret i32 %10
}

attributes #0 = { nofree norecurse nosync nounwind memory(none) "no-builtins" "no-trapping-math"="true" "stack-protector-buffer-size"="8" "target-cpu"="generic-rv64" "target-features"="+64bit,+m,+relax,+zmmul,-a,-b,-c,-d,-e,-experimental-smmpm,-experimental-smnpm,-experimental-ssnpm,-experimental-sspm,-experimental-ssqosid,-experimental-supm,-experimental-zacas,-experimental-zalasr,-experimental-zicfilp,-experimental-zicfiss,-f,-h,-shcounterenw,-shgatpa,-shtvala,-shvsatpa,-shvstvala,-shvstvecd,-smaia,-smcdeleg,-smcsrind,-smepmp,-smstateen,-ssaia,-ssccfg,-ssccptr,-sscofpmf,-sscounterenw,-sscsrind,-ssstateen,-ssstrict,-sstc,-sstvala,-sstvecd,-ssu64xl,-svade,-svadu,-svbare,-svinval,-svnapot,-svpbmt,-v,-xcvalu,-xcvbi,-xcvbitmanip,-xcvelw,-xcvmac,-xcvmem,-xcvsimd,-xsfcease,-xsfvcp,-xsfvfnrclipxfqf,-xsfvfwmaccqqq,-xsfvqmaccdod,-xsfvqmaccqoq,-xsifivecdiscarddlone,-xsifivecflushdlone,-xtheadba,-xtheadbb,-xtheadbs,-xtheadcmo,-xtheadcondmov,-xtheadfmemidx,-xtheadmac,-xtheadmemidx,-xtheadmempair,-xtheadsync,-xtheadvdot,-xventanacondops,-xwchc,-za128rs,-za64rs,-zaamo,-zabha,-zalrsc,-zama16b,-zawrs,-zba,-zbb,-zbc,-zbkb,-zbkc,-zbkx,-zbs,-zca,-zcb,-zcd,-zce,-zcf,-zcmop,-zcmp,-zcmt,-zdinx,-zfa,-zfbfmin,-zfh,-zfhmin,-zfinx,-zhinx,-zhinxmin,-zic64b,-zicbom,-zicbop,-zicboz,-ziccamoa,-ziccif,-zicclsm,-ziccrse,-zicntr,-zicond,-zicsr,-zifencei,-zihintntl,-zihintpause,-zihpm,-zimop,-zk,-zkn,-zknd,-zkne,-zknh,-zkr,-zks,-zksed,-zksh,-zkt,-ztso,-zvbb,-zvbc,-zve32f,-zve32x,-zve64d,-zve64f,-zve64x,-zvfbfmin,-zvfbfwma,-zvfh,-zvfhmin,-zvkb,-zvkg,-zvkn,-zvknc,-zvkned,-zvkng,-zvknha,-zvknhb,-zvks,-zvksc,-zvksed,-zvksg,-zvksh,-zvkt,-zvl1024b,-zvl128b,-zvl16384b,-zvl2048b,-zvl256b,-zvl32768b,-zvl32b,-zvl4096b,-zvl512b,-zvl64b,-zvl65536b,-zvl8192b" }

!llvm.module.flags = !{!0, !1, !2, !4, !5, !6}
!llvm.ident = !{!7}

!0 = !{i32 1, !"wchar_size", i32 4}
!1 = !{i32 1, !"target-abi", !"lp64"}
!2 = !{i32 6, !"riscv-isa", !3}
!3 = !{!"rv64i2p1_m2p0_zmmul1p0"}
!4 = !{i32 8, !"PIC Level", i32 2}
!5 = !{i32 7, !"PIE Level", i32 2}
!6 = !{i32 8, !"SmallDataLimit", i32 8}
!7 = !{!"Debian clang version 19.1.7 (3~deb12u1)"}
!8 = !{!9, !9, i64 0}
!9 = !{!"short", !10, i64 0}
!10 = !{!"omnipotent char", !11, i64 0}
!11 = !{!"Simple C/C++ TBAA"}
!12 = distinct !{!12, !13, !14}
!13 = !{!"llvm.loop.mustprogress"}
!14 = !{!"llvm.loop.unroll.disable"}
!15 = distinct !{!15, !13, !14}
