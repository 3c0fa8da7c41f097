; ModuleID = 'collatz.c'
source_filename = "collatz.c"
target datalayout = "e-m:e-p:64:64-i64:64-i128:128-n32:64-S128"
target triple = "riscv64-unknown-linux-gnu"

; Function Attrs: nofree norecurse nosync nounwind memory(none)
define dso_local i64 @steps(i64 noundef %0) local_unnamed_addr #0 {
  %2 = icmp eq i64 %0, 1
  br i1 %2, label %14, label %3

3:                                                ; preds = %1, %3
  %4 = phi i64 [ %12, %3 ], [ 0, %1 ]
  %5 = phi i64 [ %11, %3 ], [ %0, %1 ]
  %6 = and i64 %5, 1
  %7 = icmp eq i64 %6, 0
  %8 = mul nsw i64 %5, 3
  %9 = add nsw i64 %8, 1
  %10 = ashr exact i64 %5, 1
  %11 = select i1 %7, i64 %10, i64 %9
  %12 = add nuw nsw i64 %4, 1
  %13 = icmp eq i64 %11, 1
  br i1 %13, label %14, label %3, !llvm.loop !8

14:                                               ; preds = %3, %1
  %15 = phi i64 [ 0, %1 ], [ %12, %3 ]
  ret i64 %15
}

; Function Attrs: nofree norecurse nosync nounwind memory(none)
define dso_local i64 @highest(i64 noundef %0) local_unnamed_addr #0 {
  %2 = icmp eq i64 %0, 1
  br i1 %2, label %14, label %3

3:                                                ; preds = %1, %3
  %4 = phi i64 [ %6, %3 ], [ %0, %1 ]
  %5 = phi i64 [ %12, %3 ], [ %0, %1 ]
  %6 = tail call i64 @llvm.umax.i64(i64 %5, i64 %4)
  %7 = and i64 %5, 1
  %8 = icmp eq i64 %7, 0
  %9 = mul i64 %5, 3
  %10 = add i64 %9, 1
  %11 = lshr exact i64 %5, 1
  %12 = select i1 %8, i64 %11, i64 %10
  %13 = icmp eq i64 %12, 1
  br i1 %13, label %14, label %3, !llvm.loop !11

14:                                               ; preds = %3, %1
  %15 = phi i64 [ 1, %1 ], [ %6, %3 ]
  ret i64 %15
}

; Function Attrs: nofree norecurse nosync nounwind memory(none)
define dso_local signext i32 @longest_below(i32 noundef signext %0) local_unnamed_addr #0 {
  %2 = icmp sgt i32 %0, 1
  br i1 %2, label %3, label %5

3:                                                ; preds = %1
  %4 = zext nneg i32 %0 to i64
  br label %7

5:                                                ; preds = %23, %1
  %6 = phi i32 [ 1, %1 ], [ %28, %23 ]
  ret i32 %6

7:                                                ; preds = %3, %23
  %8 = phi i64 [ 1, %3 ], [ %29, %23 ]
  %9 = phi i32 [ 1, %3 ], [ %28, %23 ]
  %10 = phi i64 [ 0, %3 ], [ %26, %23 ]
  %11 = icmp eq i64 %8, 1
  br i1 %11, label %23, label %12

12:                                               ; preds = %7, %12
  %13 = phi i64 [ %21, %12 ], [ 0, %7 ]
  %14 = phi i64 [ %20, %12 ], [ %8, %7 ]
  %15 = and i64 %14, 1
  %16 = icmp eq i64 %15, 0
  %17 = mul nsw i64 %14, 3
  %18 = add nsw i64 %17, 1
  %19 = ashr exact i64 %14, 1
  %20 = select i1 %16, i64 %19, i64 %18
  %21 = add nuw nsw i64 %13, 1
  %22 = icmp eq i64 %20, 1
  br i1 %22, label %23, label %12, !llvm.loop !8

23:                                               ; preds = %12, %7
  %24 = phi i64 [ 0, %7 ], [ %21, %12 ]
  %25 = icmp sgt i64 %24, %10
  %26 = tail call i64 @llvm.smax.i64(i64 %24, i64 %10)
  %27 = trunc nuw nsw i64 %8 to i32
  %28 = select i1 %25, i32 %27, i32 %9
  %29 = add nuw nsw i64 %8, 1
  %30 = icmp eq i64 %29, %4
  br i1 %30, label %5, label %7, !llvm.loop !12
}

; Function Attrs: nocallback nofree nosync nounwind speculatable willreturn memory(none)
declare i64 @llvm.umax.i64(i64, i64) #1

; Function Attrs: nocallback nofree nosync nounwind speculatable willreturn memory(none)
declare i64 @llvm.smax.i64(i64, i64) #1

attributes #0 = { nofree norecurse nosync nounwind memory(none) "no-builtins" "no-trapping-math"="true" "stack-protector-buffer-size"="8" "target-cpu"="generic-rv64" "target-features"="+64bit,+m,+relax,+zmmul,-a,-b,-c,-d,-e,-experimental-smmpm,-experimental-smnpm,-experimental-ssnpm,-experimental-sspm,-experimental-ssqosid,-experimental-supm,-experimental-zacas,-experimental-zalasr,-experimental-zicfilp,-experimental-zicfiss,-f,-h,-shcounterenw,-shgatpa,-shtvala,-shvsatpa,-shvstvala,-shvstvecd,-smaia,-smcdeleg,-smcsrind,-smepmp,-smstateen,-ssaia,-ssccfg,-ssccptr,-sscofpmf,-sscounterenw,-sscsrind,-ssstateen,-ssstrict,-sstc,-sstvala,-sstvecd,-ssu64xl,-svade,-svadu,-svbare,-svinval,-svnapot,-svpbmt,-v,-xcvalu,-xcvbi,-xcvbitmanip,-xcvelw,-xcvmac,-xcvmem,-xcvsimd,-xsfcease,-xsfvcp,-xsfvfnrclipxfqf,-xsfvfwmaccqqq,-xsfvqmaccdod,-xsfvqmaccqoq,-xsifivecdiscarddlone,-xsifivecflushdlone,-xtheadba,-xtheadbb,-xtheadbs,-xtheadcmo,-xtheadcondmov,-xtheadfmemidx,-xtheadmac,-xtheadmemidx,-xtheadmempair,-xtheadsync,-xtheadvdot,-xventanacondops,-xwchc,-za128rs,-za64rs,-zaamo,-zabha,-zalrsc,-zama16b,-zawrs,-zba,-zbb,-zbc,-zbkb,-zbkc,-zbkx,-zbs,-zca,-zcb,-zcd,-zce,-zcf,-zcmop,-zcmp,-zcmt,-zdinx,-zfa,-zfbfmin,-zfh,-zfhmin,-zfinx,-zhinx,-zhinxmin,-zic64b,-zicbom,-zicbop,-zicboz,-ziccamoa,-ziccif,-zicclsm,-ziccrse,-zicntr,-zicond,-zicsr,-zifencei,-zihintntl,-zihintpause,-zihpm,-zimop,-zk,-zkn,-zknd,-zkne,-zknh,-zkr,-zks,-zksed,-zksh,-zkt,-ztso,-zvbb,-zvbc,-zve32f,-zve32x,-zve64d,-zve64f,-zve64x,-zvfbfmin,-zvfbfwma,-zvfh,-zvfhmin,-zvkb,-zvkg,-zvkn,-zvknc,-zvkned,-zvkng,-zvknha,-zvknhb,-zvks,-zvksc,-zvksed,-zvksg,-zvksh,-zvkt,-zvl1024b,-zvl128b,-zvl16384b,-zvl2048b,-zvl256b,-zvl32768b,-zvl32b,-zvl4096b,-zvl512b,-zvl64b,-zvl65536b,-zvl8192b" }
attributes #1 = { nocallback nofree nosync nounwind speculatable willreturn memory(none) }

!llvm.module.flags = !{!0, !1, !2, !4, !5, !6}
!llvm.ident = !{!7}

!0 = !{i32 1, !"wchar_size", i32 4}
!1 = !{i32 1, !"target-abi", !"lp64"}
!2 = !{i32 6, !"riscv-isa", !3}
!3 = !{!"rv64i2p1_m2p0_zmmul1p0"}
!4 = !{i32 8, !"PIC Level", i32 2}
!5 = !{i32 7, !"PIE Level", i32 2}
!6 = !{i32 8, !"SmallDataLimit", i32 8}
!7 = !{!"Debian clang version 19.1.7 (3~deb12u1)"}
!8 = distinct !{!8, !9, !10}
!9 = !{!"llvm.loop.mustprogress"}
!10 = !{!"llvm.loop.unroll.disable"}
!11 = distinct !{!11, !9, !10}
!12 = distinct !{!12, !9, !10}
