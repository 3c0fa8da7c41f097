; ModuleID = 'gcd.c'
source_filename = "gcd.c"
target datalayout = "e-m:e-p:64:64-i64:64-i128:128-n32:64-S128"
target triple = "riscv64-unknown-linux-gnu"

; Function Attrs: nofree norecurse nosync nounwind memory(none)
define dso_local signext i32 @gcd(i32 noundef signext %0, i32 noundef signext %1) local_unnamed_addr #0 {
  %3 = icmp eq i32 %1, 0
  br i1 %3, label %9, label %4

4:                                                ; preds = %2, %4
  %5 = phi i32 [ %6, %4 ], [ %0, %2 ]
  %6 = phi i32 [ %7, %4 ], [ %1, %2 ]
  %7 = urem i32 %5, %6
  %8 = icmp eq i32 %7, 0
  br i1 %8, label %9, label %4, !llvm.loop !8

9:                                                ; preds = %4, %2
  %10 = phi i32 [ %0, %2 ], [ %6, %4 ]
  ret i32 %10
}

; Function Attrs: nofree norecurse nosync nounwind memory(none)
define dso_local i64 @gcd_by_calls(i64 noundef %0, i64 noundef %1) local_unnamed_addr #0 {
  %3 = icmp eq i64 %1, 0
  br i1 %3, label %4, label %7

4:                                                ; preds = %7, %2
  %5 = phi i64 [ %0, %2 ], [ %8, %7 ]
  %6 = tail call i64 @llvm.abs.i64(i64 %5, i1 true)
  ret i64 %6

7:                                                ; preds = %2, %7
  %8 = phi i64 [ %10, %7 ], [ %1, %2 ]
  %9 = phi i64 [ %8, %7 ], [ %0, %2 ]
  %10 = srem i64 %9, %8
  %11 = icmp eq i64 %10, 0
  br i1 %11, label %4, label %7
}

; Function Attrs: nofree norecurse nosync nounwind memory(none)
define dso_local range(i64 0, -8589934590) i64 @lcm(i32 noundef signext %0, i32 noundef signext %1) local_unnamed_addr #0 {
  %3 = icmp ne i32 %0, 0
  %4 = icmp ne i32 %1, 0
  %5 = and i1 %3, %4
  br i1 %5, label %6, label %16

6:                                                ; preds = %2, %6
  %7 = phi i32 [ %8, %6 ], [ %0, %2 ]
  %8 = phi i32 [ %9, %6 ], [ %1, %2 ]
  %9 = urem i32 %7, %8
  %10 = icmp eq i32 %9, 0
  br i1 %10, label %11, label %6, !llvm.loop !8

11:                                               ; preds = %6
  %12 = udiv i32 %0, %8
  %13 = zext i32 %12 to i64
  %14 = zext i32 %1 to i64
  %15 = mul nuw i64 %13, %14
  br label %16

16:                                               ; preds = %2, %11
  %17 = phi i64 [ %15, %11 ], [ 0, %2 ]
  ret i64 %17
}

; Function Attrs: nofree norecurse nosync nounwind memory(none)
define dso_local i64 @inverse(i64 noundef %0, i64 noundef %1) local_unnamed_addr #0 {
  %3 = srem i64 %0, %1
  %4 = icmp eq i64 %3, 0
  br i1 %4, label %20, label %5

5:                                                ; preds = %2, %5
  %6 = phi i64 [ %7, %5 ], [ %1, %2 ]
  %7 = phi i64 [ %12, %5 ], [ %3, %2 ]
  %8 = phi i64 [ %14, %5 ], [ 1, %2 ]
  %9 = phi i64 [ %8, %5 ], [ 0, %2 ]
  %10 = sdiv i64 %6, %7
  %11 = mul i64 %10, %7
  %12 = sub i64 %6, %11
  %13 = mul i64 %10, %8
  %14 = sub i64 %9, %13
  %15 = icmp eq i64 %12, 0
  br i1 %15, label %16, label %5, !llvm.loop !11

16:                                               ; preds = %5
  %17 = icmp slt i64 %8, 0
  %18 = select i1 %17, i64 %1, i64 0
  %19 = add nsw i64 %18, %8
  br label %20

20:                                               ; preds = %2, %16
  %21 = phi i64 [ %7, %16 ], [ %1, %2 ]
  %22 = phi i64 [ %19, %16 ], [ 0, %2 ]
  %23 = icmp eq i64 %21, 1
  %24 = select i1 %23, i64 %22, i64 -1
  ret i64 %24
}

; Function Attrs: nofree norecurse nosync nounwind memory(none)
define dso_local signext i32 @binary_gcd(i32 noundef signext %0, i32 noundef signext %1) local_unnamed_addr #0 {
  %3 = icmp eq i32 %0, 0
  br i1 %3, label %44, label %4

4:                                                ; preds = %2
  %5 = icmp eq i32 %1, 0
  br i1 %5, label %44, label %6

6:                                                ; preds = %4
  %7 = or i32 %1, %0
  %8 = and i32 %7, 1
  %9 = icmp eq i32 %8, 0
  br i1 %9, label %14, label %10

10:                                               ; preds = %14, %6
  %11 = phi i32 [ %0, %6 ], [ %18, %14 ]
  %12 = phi i32 [ %1, %6 ], [ %19, %14 ]
  %13 = phi i32 [ 0, %6 ], [ %20, %14 ]
  br label %24

14:                                               ; preds = %6, %14
  %15 = phi i32 [ %20, %14 ], [ 0, %6 ]
  %16 = phi i32 [ %19, %14 ], [ %1, %6 ]
  %17 = phi i32 [ %18, %14 ], [ %0, %6 ]
  %18 = lshr i32 %17, 1
  %19 = lshr i32 %16, 1
  %20 = add nuw nsw i32 %15, 1
  %21 = or i32 %19, %18
  %22 = and i32 %21, 1
  %23 = icmp eq i32 %22, 0
  br i1 %23, label %14, label %10, !llvm.loop !12

24:                                               ; preds = %24, %10
  %25 = phi i32 [ %28, %24 ], [ %11, %10 ]
  %26 = and i32 %25, 1
  %27 = icmp eq i32 %26, 0
  %28 = lshr exact i32 %25, 1
  br i1 %27, label %24, label %29, !llvm.loop !13

29:                                               ; preds = %24, %37
  %30 = phi i32 [ %38, %37 ], [ %25, %24 ]
  %31 = phi i32 [ %40, %37 ], [ %12, %24 ]
  br label %32

32:                                               ; preds = %32, %29
  %33 = phi i32 [ %31, %29 ], [ %36, %32 ]
  %34 = and i32 %33, 1
  %35 = icmp eq i32 %34, 0
  %36 = lshr exact i32 %33, 1
  br i1 %35, label %32, label %37, !llvm.loop !14

37:                                               ; preds = %32
  %38 = tail call i32 @llvm.umin.i32(i32 %30, i32 %33)
  %39 = tail call i32 @llvm.umax.i32(i32 %30, i32 %33)
  %40 = sub i32 %39, %38
  %41 = icmp eq i32 %40, 0
  br i1 %41, label %42, label %29, !llvm.loop !15

42:                                               ; preds = %37
  %43 = shl i32 %38, %13
  br label %44

44:                                               ; preds = %4, %2, %42
  %45 = phi i32 [ %43, %42 ], [ %1, %2 ], [ %0, %4 ]
  ret i32 %45
}

; Function Attrs: nocallback nofree nosync nounwind speculatable willreturn memory(none)
declare i64 @llvm.abs.i64(i64, i1 immarg) #1

; Function Attrs: nocallback nofree nosync nounwind speculatable willreturn memory(none)
declare i32 @llvm.umin.i32(i32, i32) #1

; Function Attrs: nocallback nofree nosync nounwind speculatable willreturn memory(none)
declare i32 @llvm.umax.i32(i32, i32) #1

attributes #0 = { nofree norecurse nosync nounwind memory(none) "no-builtins" "no-trapping-math"="true" "stack-protector-buffer-size"="8" "target-cpu"="generic-rv64" "target-features"="+64bit,+m,+relax,+zmmul,-a,-b,-c,-d,-e,-experimental-smmpm,-experimental-smnpm,-experimental-ssnpm,-experimental-sspm,-experimental-ssqosid,-experimental-supm,-experimental-zacas,-experimental-zalasr,-experimental-zicfilp,-experimental-zicfiss,-f,-h,-shcounterenw,-shgatpa,-shtvala,-shvsatpa,-shvstvala,-shvstvecd,-smaia,-smcdeleg,-smcsrind,-smepmp,-smstateen,-ssaia,-ssccfg,-ssccptr,-sscofpmf,-sscounterenw,-sscsrind,-ssstateen,-ssstrict,-sstc,-sstvala,-sstvecd,-ssu64xl,-svade,-svadu,-svbare,-svinval,-svnapot,-svpbmt,-v,-xcvalu,-xcvbi,-xcvbitmanip,-xcvelw,-xcvmac,-xcvmem,-xcvsimd,-xsfcease,-xsfvcp,-xsfvfnrclipxfqf,-xsfvfwmaccqqq,-xsfvqmaccdod,-xsfvqmaccqoq,-xsifivecdiscarddlone,-xsifivecflushdlone,-xtheadba,-xtheadbb,-xtheadbs,-xtheadcmo,-xtheadcondmov,-xtheadfmemidx,-xtheadmac,-xtheadmemidx,-xtheadmempair,-xtheadsync,-xtheadvdot,-xventanacondops,-xwchc,-za128rs,-za64rs,-zaamo,-zabha,-zalrsc,-zama16b,-zawrs,-zba,-zbb,-zbc,-zbkb,-zbkc,-zbkx,-zbs,-zca,-zcb,-zcd,-zce,-zcf,-zcmop,-zcmp,-zcmt,-zdinx,-zfa,-zfbfmin,-zfh,-zfhmin,-zfinx,-zhinx,-zhinxmin,-zic64b,-zicbom,-zicbop,-zicboz,-ziccamoa,-ziccif,-zicclsm,-ziccrse,-zicntr,-zicond,-zicsr,-zifencei,-zihintntl,-zihintpause,-zihpm,-zimop,-zk,-zkn,-zknd,-zkne,-zknh,-zkr,-zks,-zksed,-zksh,-zkt,-ztso,-zvbb,-zvbc,-zve32f,-zve32x,-zve64d,-zve64f,-zve64x,-zvfbfmin,-zvfbfwma,-zvfh,-zvfhmin,-zvkb,-zvkg,-zvkn,-zvknc,-zvkned,-zvkng,-zvknha,-zvknhb,-zvks,-zvksc,-zvksed,-zvksg,-zvksh,-zvkt,-zvl1024b,-zvl128b,-zvl16384b,-zvl2048b,-zvl256b,-zvl32768b,-zvl32b,-zvl4096b,-zvl512b,-zvl64b,-zvl65536b,-zvl8192b" }
attributes #1 = { nocallback nofree nosync nounwind speculatable willreturn memory(none) }

!llvm.module.flags = !{!0, !1, !2, !4, !5, !6}
!llvm.ident = !{!7}

!0 = !{i32 1, !"wchar_size", i32 4}
!1 = !{i32 1, !"target-abi", !"lp64"}
!2 = !{i32 6, !"riscv-isa", !3}
!3 = !{!"rv64i2p1_m2p0_zmmul1p0"}
!4 = !{i32 8, !"PIC Level", i32 2}
!5 = !{i32 7, !"PIE Level", i32 2}
!6 = !{i32 8, !"SmallDataLimit", i32 8}
!7 = !{!"Debian clang version 19.1.7 (3~deb12u1)"}
!8 = distinct !{!8, !9, !10}
!9 = !{!"llvm.loop.mustprogress"}
!10 = !{!"llvm.loop.unroll.disable"}
!11 = distinct !{!11, !9, !10}
!12 = distinct !{!12, !9, !10}
!13 = distinct !{!13, !9, !10}
!14 = distinct !{!14, !9, !10}
!15 = distinct !{!15, !9, !10}
