; ModuleID = 'fixed.c'
source_filename = "fixed.c"
target datalayout = "e-m:e-p:64:64-i64:64-i128:128-n32:64-S128"
target triple = "riscv64-unknown-linux-gnu"

; Function Attrs: nofree norecurse nosync nounwind memory(none)
define dso_local signext i32 @square_root(i32 noundef signext %0) local_unnamed_addr #0 {
  %2 = icmp slt i32 %0, 1
  br i1 %2, label %19, label %3

3:                                                ; preds = %1
  %4 = icmp ugt i32 %0, 65536
  %5 = lshr i32 %0, 1
  %6 = select i1 %4, i32 %5, i32 65536
  %7 = zext nneg i32 %0 to i64
  %8 = shl nuw nsw i64 %7, 16
  br label %9

9:                                                ; preds = %3, %9
  %10 = phi i32 [ 0, %3 ], [ %17, %9 ]
  %11 = phi i32 [ %6, %3 ], [ %16, %9 ]
  %12 = sext i32 %11 to i64
  %13 = sdiv i64 %8, %12
  %14 = trunc i64 %13 to i32
  %15 = add nsw i32 %11, %14
  %16 = sdiv i32 %15, 2
  %17 = add nuw nsw i32 %10, 1
  %18 = icmp eq i32 %17, 20
  br i1 %18, label %19, label %9, !llvm.loop !8

19:                                               ; preds = %9, %1
  %20 = phi i32 [ 0, %1 ], [ %16, %9 ]
  ret i32 %20
}

; Function Attrs: nofree norecurse nosync nounwind memory(none)
define dso_local signext i32 @sine(i32 noundef signext %0) local_unnamed_addr #0 {
  %2 = sext i32 %0 to i64
  %3 = shl nsw i64 %2, 16
  %4 = mul i64 %3, %2
  %5 = ashr i64 %4, 32
  br label %7

6:                                                ; preds = %7
  ret i32 %19

7:                                                ; preds = %1, %7
  %8 = phi i32 [ 2, %1 ], [ %20, %7 ]
  %9 = phi i32 [ %0, %1 ], [ %19, %7 ]
  %10 = phi i32 [ %0, %1 ], [ %18, %7 ]
  %11 = sext i32 %10 to i64
  %12 = mul nsw i64 %5, %11
  %13 = lshr i64 %12, 16
  %14 = trunc i64 %13 to i32
  %15 = or disjoint i32 %8, 1
  %16 = mul nuw nsw i32 %15, %8
  %17 = sdiv i32 %14, %16
  %18 = sub nsw i32 0, %17
  %19 = sub i32 %9, %17
  %20 = add nuw nsw i32 %8, 2
  %21 = icmp ult i32 %8, 12
  br i1 %21, label %7, label %6, !llvm.loop !11
}

; Function Attrs: nofree norecurse nosync nounwind memory(none)
define dso_local signext i32 @exponential(i32 noundef signext %0) local_unnamed_addr #0 {
  %2 = sext i32 %0 to i64
  br label %4

3:                                                ; preds = %4
  ret i32 %13

4:                                                ; preds = %1, %4
  %5 = phi i32 [ 1, %1 ], [ %14, %4 ]
  %6 = phi i32 [ 65536, %1 ], [ %13, %4 ]
  %7 = phi i32 [ 65536, %1 ], [ %12, %4 ]
  %8 = sext i32 %7 to i64
  %9 = mul nsw i64 %8, %2
  %10 = lshr i64 %9, 16
  %11 = trunc i64 %10 to i32
  %12 = sdiv i32 %11, %5
  %13 = add nsw i32 %12, %6
  %14 = add nuw nsw i32 %5, 1
  %15 = icmp eq i32 %14, 12
  br i1 %15, label %3, label %4, !llvm.loop !12
}

; Function Attrs: mustprogress nofree norecurse nosync nounwind willreturn memory(none)
define dso_local signext i16 @saturated(i16 noundef signext %0, i16 noundef signext %1) local_unnamed_addr #1 {
  %3 = sext i16 %0 to i32
  %4 = sext i16 %1 to i32
  %5 = add nsw i32 %4, %3
  %6 = tail call i32 @llvm.smax.i32(i32 %5, i32 -30000)
  %7 = tail call i32 @llvm.smin.i32(i32 %6, i32 30000)
  %8 = trunc nsw i32 %7 to i16
  ret i16 %8
}

; Function Attrs: nofree norecurse nosync nounwind memory(none)
define dso_local signext i32 @isqrt(i32 noundef signext %0) local_unnamed_addr #0 {
  br label %2

2:                                                ; preds = %2, %1
  %3 = phi i32 [ 1073741824, %1 ], [ %5, %2 ]
  %4 = icmp ugt i32 %3, %0
  %5 = lshr i32 %3, 2
  br i1 %4, label %2, label %6, !llvm.loop !13

6:                                                ; preds = %2
  %7 = icmp eq i32 %3, 0
  br i1 %7, label %21, label %8

8:                                                ; preds = %6, %8
  %9 = phi i32 [ %19, %8 ], [ %3, %6 ]
  %10 = phi i32 [ %18, %8 ], [ 0, %6 ]
  %11 = phi i32 [ %16, %8 ], [ %0, %6 ]
  %12 = add nuw i32 %9, %10
  %13 = icmp ult i32 %11, %12
  %14 = lshr i32 %10, 1
  %15 = select i1 %13, i32 0, i32 %12
  %16 = sub i32 %11, %15
  %17 = select i1 %13, i32 0, i32 %9
  %18 = add nuw i32 %17, %14
  %19 = lshr i32 %9, 2
  %20 = icmp ult i32 %9, 4
  br i1 %20, label %21, label %8, !llvm.loop !14

21:                                               ; preds = %8, %6
  %22 = phi i32 [ 0, %6 ], [ %18, %8 ]
  ret i32 %22
}

; Function Attrs: nocallback nofree nosync nounwind speculatable willreturn memory(none)
declare i32 @llvm.smax.i32(i32, i32) #2

; Function Attrs: nocallback nofree nosync nounwind speculatable willreturn memory(none)
declare i32 @llvm.smin.i32(i32, i32) #2

attributes #0 = { nofree norecurse nosync nounwind memory(none) "no-builtins" "no-trapping-math"="true" "stack-protector-buffer-size"="8" "target-cpu"="generic-rv64" "target-features"="+64bit,+m,+relax,+zmmul,-a,-b,-c,-d,-e,-experimental-smmpm,-experimental-smnpm,-experimental-ssnpm,-experimental-sspm,-experimental-ssqosid,-experimental-supm,-experimental-zacas,-experimental-zalasr,-experimental-zicfilp,-experimental-zicfiss,-f,-h,-shcounterenw,-shgatpa,-shtvala,-shvsatpa,-shvstvala,-shvstvecd,-smaia,-smcdeleg,-smcsrind,-smepmp,-smstateen,-ssaia,-ssccfg,-ssccptr,-sscofpmf,-sscounterenw,-sscsrind,-ssstateen,-ssstrict,-sstc,-sstvala,-sstvecd,-ssu64xl,-svade,-svadu,-svbare,-svinval,-svnapot,-svpbmt,-v,-xcvalu,-xcvbi,-xcvbitmanip,-xcvelw,-xcvmac,-xcvmem,-xcvsimd,-xsfcease,-xsfvcp,-xsfvfnrclipxfqf,-xsfvfwmaccqqq,-xsfvqmaccdod,-xsfvqmaccqoq,-xsifivecdiscarddlone,-xsifivecflushdlone,-xtheadba,-xtheadbb,-xtheadbs,-xtheadcmo,-xtheadcondmov,-xtheadfmemidx,-xtheadmac,-xtheadmemidx,-xtheadmempair,-xtheadsync,-xtheadvdot,-xventanacondops,-xwchc,-za128rs,-za64rs,-zaamo,-zabha,-zalrsc,-zama16b,-zawrs,-zba,-zbb,-zbc,-zbkb,-zbkc,-zbkx,-zbs,-zca,-zcb,-zcd,-zce,-zcf,-zcmop,-zcmp,-zcmt,-zdinx,-zfa,-zfbfmin,-zfh,-zfhmin,-zfinx,-zhinx,-zhinxmin,-zic64b,-zicbom,-zicbop,-zicboz,-ziccamoa,-ziccif,-zicclsm,-ziccrse,-zicntr,-zicond,-zicsr,-zifencei,-zihintntl,-zihintpause,-zihpm,-zimop,-zk,-zkn,-zknd,-zkne,-zknh,-zkr,-zks,-zksed,-zksh,-zkt,-ztso,-zvbb,-zvbc,-zve32f,-zve32x,-zve64d,-zve64f,-zve64x,-zvfbfmin,-zvfbfwma,-zvfh,-zvfhmin,-zvkb,-zvkg,-zvkn,-zvknc,-zvkned,-zvkng,-zvknha,-zvknhb,-zvks,-zvksc,-zvksed,-zvksg,-zvksh,-zvkt,-zvl1024b,-zvl128b,-zvl16384b,-zvl2048b,-zvl256b,-zvl32768b,-zvl32b,-zvl4096b,-zvl512b,-zvl64b,-zvl65536b,-zvl8192b" }
attributes #1 = { mustprogress nofree norecurse nosync nounwind willreturn memory(none) "no-builtins" "no-trapping-math"="true" "stack-protector-buffer-size"="8" "target-cpu"="generic-rv64" "target-features"="+64bit,+m,+relax,+zmmul,-a,-b,-c,-d,-e,-experimental-smmpm,-experimental-smnpm,-experimental-ssnpm,-experimental-sspm,-experimental-ssqosid,-experimental-supm,-experimental-zacas,-experimental-zalasr,-experimental-zicfilp,-experimental-zicfiss,-f,-h,-shcounterenw,-shgatpa,-shtvala,-shvsatpa,-shvstvala,-shvstvecd,-smaia,-smcdeleg,-smcsrind,-smepmp,-smstateen,-ssaia,-ssccfg,-ssccptr,-sscofpmf,-sscounterenw,-sscsrind,-ssstateen,-ssstrict,-sstc,-sstvala,-sstvecd,-ssu64xl,-svade,-svadu,-svbare,-svinval,-svnapot,-svpbmt,-v,-xcvalu,-xcvbi,-xcvbitmanip,-xcvelw,-xcvmac,-xcvmem,-xcvsimd,-xsfcease,-xsfvcp,-xsfvfnrclipxfqf,-xsfvfwmaccqqq,-xsfvqmaccdod,-xsfvqmaccqoq,-xsifivecdiscarddlone,-xsifivecflushdlone,-xtheadba,-xtheadbb,-xtheadbs,-xtheadcmo,-xtheadcondmov,-xtheadfmemidx,-xtheadmac,-xtheadmemidx,-xtheadmempair,-xtheadsync,-xtheadvdot,-xventanacondops,-xwchc,-za128rs,-za64rs,-zaamo,-zabha,-zalrsc,-zama16b,-zawrs,-zba,-zbb,-zbc,-zbkb,-zbkc,-zbkx,-zbs,-zca,-zcb,-zcd,-zce,-zcf,-zcmop,-zcmp,-zcmt,-zdinx,-zfa,-zfbfmin,-zfh,-zfhmin,-zfinx,-zhinx,-zhinxmin,-zic64b,-zicbom,-zicbop,-zicboz,-ziccamoa,-ziccif,-zicclsm,-ziccrse,-zicntr,-zicond,-zicsr,-zifencei,-zihintntl,-zihintpause,-zihpm,-zimop,-zk,-zkn,-zknd,-zkne,-zknh,-zkr,-zks,-zksed,-zksh,-zkt,-ztso,-zvbb,-zvbc,-zve32f,-zve32x,-zve64d,-zve64f,-zve64x,-zvfbfmin,-zvfbfwma,-zvfh,-zvfhmin,-zvkb,-zvkg,-zvkn,-zvknc,-zvkned,-zvkng,-zvknha,-zvknhb,-zvks,-zvksc,-zvksed,-zvksg,-zvksh,-zvkt,-zvl1024b,-zvl128b,-zvl16384b,-zvl2048b,-zvl256b,-zvl32768b,-zvl32b,-zvl4096b,-zvl512b,-zvl64b,-zvl65536b,-zvl8192b" }
attributes #2 = { nocallback nofree nosync nounwind speculatable willreturn memory(none) }

!llvm.module.flags = !{!0, !1, !2, !4, !5, !6}
!llvm.ident = !{!7}

!0 = !{i32 1, !"wchar_size", i32 4}
!1 = !{i32 1, !"target-abi", !"lp64"}
!2 = !{i32 6, !"riscv-isa", !3}
!3 = !{!"rv64i2p1_m2p0_zmmul1p0"}
!4 = !{i32 8, !"PIC Level", i32 2}
!5 = !{i32 7, !"PIE Level", i32 2}
!6 = !{i32 8, !"SmallDataLimit", i32 8}
!7 = !{!"Debian clang version 19.1.7 (3~deb12u1)"}
!8 = distinct !{!8, !9, !10}
!9 = !{!"llvm.loop.mustprogress"}
!10 = !{!"llvm.loop.unroll.disable"}
!11 = distinct !{!11, !9, !10}
!12 = distinct !{!12, !9, !10}
!13 = distinct !{!13, !9, !10}
!14 = distinct !{!14, !9, !10}
