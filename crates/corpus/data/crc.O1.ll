; ModuleID = 'crc.c'
source_filename = "crc.c"
target datalayout = "e-m:e-p:64:64-i64:64-i128:128-n32:64-S128"
target triple = "riscv64-unknown-linux-gnu"

@text = internal unnamed_addr constant [44 x i8] c"The quick brown fox jumps over the lazy dog\00", align 1
@table = internal unnamed_addr global [256 x i16] zeroinitializer, align 2

; Function Attrs: nofree norecurse nosync nounwind memory(none)
define dso_local signext i32 @crc32(i32 noundef signext %0) local_unnamed_addr #0 {
  %2 = icmp sgt i32 %0, 0
  br i1 %2, label %3, label %7

3:                                                ; preds = %1
  %4 = zext nneg i32 %0 to i64
  br label %9

5:                                                ; preds = %16
  %6 = xor i32 %26, -1
  br label %7

7:                                                ; preds = %5, %1
  %8 = phi i32 [ 0, %1 ], [ %6, %5 ]
  ret i32 %8

9:                                                ; preds = %3, %16
  %10 = phi i64 [ 0, %3 ], [ %17, %16 ]
  %11 = phi i32 [ -1, %3 ], [ %26, %16 ]
  %12 = getelementptr inbounds [44 x i8], ptr @text, i64 0, i64 %10
  %13 = load i8, ptr %12, align 1, !tbaa !8
  %14 = zext i8 %13 to i32
  %15 = xor i32 %11, %14
  br label %19

16:                                               ; preds = %19
  %17 = add nuw nsw i64 %10, 1
  %18 = icmp eq i64 %17, %4
  br i1 %18, label %5, label %9, !llvm.loop !11

19:                                               ; preds = %9, %19
  %20 = phi i32 [ 0, %9 ], [ %27, %19 ]
  %21 = phi i32 [ %15, %9 ], [ %26, %19 ]
  %22 = lshr i32 %21, 1
  %23 = and i32 %21, 1
  %24 = icmp eq i32 %23, 0
  %25 = select i1 %24, i32 0, i32 -306674912
  %26 = xor i32 %25, %22
  %27 = add nuw nsw i32 %20, 1
  %28 = icmp eq i32 %27, 8
  br i1 %28, label %16, label %19, !llvm.loop !14
}

; Function Attrs: nofree norecurse nosync nounwind memory(readwrite, argmem: none, inaccessiblemem: none)
define dso_local zeroext i16 @crc16(i32 noundef signext %0) local_unnamed_addr #1 {
  br label %2

2:                                                ; preds = %6, %1
  %3 = phi i64 [ 0, %1 ], [ %8, %6 ]
  %4 = trunc i64 %3 to i16
  %5 = shl nuw i16 %4, 8
  br label %14

6:                                                ; preds = %14
  %7 = getelementptr inbounds [256 x i16], ptr @table, i64 0, i64 %3
  store i16 %20, ptr %7, align 2, !tbaa !15
  %8 = add nuw nsw i64 %3, 1
  %9 = icmp eq i64 %8, 256
  br i1 %9, label %10, label %2, !llvm.loop !17

10:                                               ; preds = %6
  %11 = icmp sgt i32 %0, 0
  br i1 %11, label %12, label %23

12:                                               ; preds = %10
  %13 = zext nneg i32 %0 to i64
  br label %25

14:                                               ; preds = %14, %2
  %15 = phi i32 [ 0, %2 ], [ %21, %14 ]
  %16 = phi i16 [ %5, %2 ], [ %20, %14 ]
  %17 = shl i16 %16, 1
  %18 = xor i16 %17, 4129
  %19 = icmp slt i16 %16, 0
  %20 = select i1 %19, i16 %18, i16 %17
  %21 = add nuw nsw i32 %15, 1
  %22 = icmp eq i32 %21, 8
  br i1 %22, label %6, label %14, !llvm.loop !18

23:                                               ; preds = %25, %10
  %24 = phi i16 [ -1, %10 ], [ %37, %25 ]
  ret i16 %24

25:                                               ; preds = %12, %25
  %26 = phi i64 [ 0, %12 ], [ %38, %25 ]
  %27 = phi i16 [ -1, %12 ], [ %37, %25 ]
  %28 = shl i16 %27, 8
  %29 = lshr i16 %27, 8
  %30 = getelementptr inbounds [44 x i8], ptr @text, i64 0, i64 %26
  %31 = load i8, ptr %30, align 1, !tbaa !8
  %32 = zext i8 %31 to i16
  %33 = xor i16 %29, %32
  %34 = zext nneg i16 %33 to i64
  %35 = getelementptr inbounds [256 x i16], ptr @table, i64 0, i64 %34
  %36 = load i16, ptr %35, align 2, !tbaa !15
  %37 = xor i16 %36, %28
  %38 = add nuw nsw i64 %26, 1
  %39 = icmp eq i64 %38, %13
  br i1 %39, label %23, label %25, !llvm.loop !19
}

; Function Attrs: nofree norecurse nosync nounwind memory(none)
define dso_local signext i32 @adler(i32 noundef signext %0) local_unnamed_addr #0 {
  %2 = icmp sgt i32 %0, 0
  br i1 %2, label %3, label %8

3:                                                ; preds = %1
  %4 = zext nneg i32 %0 to i64
  br label %10

5:                                                ; preds = %10
  %6 = shl nuw i32 %20, 16
  %7 = or disjoint i32 %6, %18
  br label %8

8:                                                ; preds = %5, %1
  %9 = phi i32 [ 1, %1 ], [ %7, %5 ]
  ret i32 %9

10:                                               ; preds = %3, %10
  %11 = phi i64 [ 0, %3 ], [ %21, %10 ]
  %12 = phi i32 [ 0, %3 ], [ %20, %10 ]
  %13 = phi i32 [ 1, %3 ], [ %18, %10 ]
  %14 = getelementptr inbounds [44 x i8], ptr @text, i64 0, i64 %11
  %15 = load i8, ptr %14, align 1, !tbaa !8
  %16 = zext i8 %15 to i32
  %17 = add nuw nsw i32 %13, %16
  %18 = urem i32 %17, 65521
  %19 = add nuw nsw i32 %18, %12
  %20 = urem i32 %19, 65521
  %21 = add nuw nsw i64 %11, 1
  %22 = icmp eq i64 %21, %4
  br i1 %22, label %5, label %10, !llvm.loop !20
}

; Function Attrs: nofree norecurse nosync nounwind memory(none)
define dso_local zeroext i8 @parity(i64 noundef %0) local_unnamed_addr #0 {
  %2 = icmp eq i64 %0, 0
  br i1 %2, label %10, label %3

3:                                                ; preds = %1, %3
  %4 = phi i8 [ %7, %3 ], [ 0, %1 ]
  %5 = phi i64 [ %8, %3 ], [ %0, %1 ]
  %6 = trunc i64 %5 to i8
  %7 = xor i8 %4, %6
  %8 = lshr i64 %5, 8
  %9 = icmp ult i64 %5, 256
  br i1 %9, label %10, label %3, !llvm.loop !21

10:                                               ; preds = %3, %1
  %11 = phi i8 [ 0, %1 ], [ %7, %3 ]
  ret i8 %11
}

attributes #0 = { nofree norecurse nosync nounwind memory(none) "no-builtins" "no-trapping-math"="true" "stack-protector-buffer-size"="8" "target-cpu"="generic-rv64" "target-features"="+64bit,+m,+relax,+zmmul,-a,-b,-c,-d,-e,-experimental-smmpm,-experimental-smnpm,-experimental-ssnpm,-experimental-sspm,-experimental-ssqosid,-experimental-supm,-experimental-zacas,-experimental-zalasr,-experimental-zicfilp,-experimental-zicfiss,-f,-h,-shcounterenw,-shgatpa,-shtvala,-shvsatpa,-shvstvala,-shvstvecd,-smaia,-smcdeleg,-smcsrind,-smepmp,-smstateen,-ssaia,-ssccfg,-ssccptr,-sscofpmf,-sscounterenw,-sscsrind,-ssstateen,-ssstrict,-sstc,-sstvala,-sstvecd,-ssu64xl,-svade,-svadu,-svbare,-svinval,-svnapot,-svpbmt,-v,-xcvalu,-xcvbi,-xcvbitmanip,-xcvelw,-xcvmac,-xcvmem,-xcvsimd,-xsfcease,-xsfvcp,-xsfvfnrclipxfqf,-xsfvfwmaccqqq,-xsfvqmaccdod,-xsfvqmaccqoq,-xsifivecdiscarddlone,-xsifivecflushdlone,-xtheadba,-xtheadbb,-xtheadbs,-xtheadcmo,-xtheadcondmov,-xtheadfmemidx,-xtheadmac,-xtheadmemidx,-xtheadmempair,-xtheadsync,-xtheadvdot,-xventanacondops,-xwchc,-za128rs,-za64rs,-zaamo,-zabha,-zalrsc,-zama16b,-zawrs,-zba,-zbb,-zbc,-zbkb,-zbkc,-zbkx,-zbs,-zca,-zcb,-zcd,-zce,-zcf,-zcmop,-zcmp,-zcmt,-zdinx,-zfa,-zfbfmin,-zfh,-zfhmin,-zfinx,-zhinx,-zhinxmin,-zic64b,-zicbom,-zicbop,-zicboz,-ziccamoa,-ziccif,-zicclsm,-ziccrse,-zicntr,-zicond,-zicsr,-zifencei,-zihintntl,-zihintpause,-zihpm,-zimop,-zk,-zkn,-zknd,-zkne,-zknh,-zkr,-zks,-zksed,-zksh,-zkt,-ztso,-zvbb,-zvbc,-zve32f,-zve32x,-zve64d,-zve64f,-zve64x,-zvfbfmin,-zvfbfwma,-zvfh,-zvfhmin,-zvkb,-zvkg,-zvkn,-zvknc,-zvkned,-zvkng,-zvknha,-zvknhb,-zvks,-zvksc,-zvksed,-zvksg,-zvksh,-zvkt,-zvl1024b,-zvl128b,-zvl16384b,-zvl2048b,-zvl256b,-zvl32768b,-zvl32b,-zvl4096b,-zvl512b,-zvl64b,-zvl65536b,-zvl8192b" }
attributes #1 = { nofree norecurse nosync nounwind memory(readwrite, argmem: none, inaccessiblemem: none) "no-builtins" "no-trapping-math"="true" "stack-protector-buffer-size"="8" "target-cpu"="generic-rv64" "target-features"="+64bit,+m,+relax,+zmmul,-a,-b,-c,-d,-e,-experimental-smmpm,-experimental-smnpm,-experimental-ssnpm,-experimental-sspm,-experimental-ssqosid,-experimental-supm,-experimental-zacas,-experimental-zalasr,-experimental-zicfilp,-experimental-zicfiss,-f,-h,-shcounterenw,-shgatpa,-shtvala,-shvsatpa,-shvstvala,-shvstvecd,-smaia,-smcdeleg,-smcsrind,-smepmp,-smstateen,-ssaia,-ssccfg,-ssccptr,-sscofpmf,-sscounterenw,-sscsrind,-ssstateen,-ssstrict,-sstc,-sstvala,-sstvecd,-ssu64xl,-svade,-svadu,-svbare,-svinval,-svnapot,-svpbmt,-v,-xcvalu,-xcvbi,-xcvbitmanip,-xcvelw,-xcvmac,-xcvmem,-xcvsimd,-xsfcease,-xsfvcp,-xsfvfnrclipxfqf,-xsfvfwmaccqqq,-xsfvqmaccdod,-xsfvqmaccqoq,-xsifivecdiscarddlone,-xsifivecflushdlone,-xtheadba,-xtheadbb,-xtheadbs,-xtheadcmo,-xtheadcondmov,-xtheadfmemidx,-xtheadmac,-xtheadmemidx,-xtheadmempair,-xtheadsync,-xtheadvdot,-xventanacondops,-xwchc,-za128rs,-za64rs,-zaamo,-zabha,-zalrsc,-zama16b,-zawrs,-zba,-zbb,-zbc,-zbkb,-zbkc,-zbkx,-zbs,-zca,-zcb,-zcd,-zce,-zcf,-zcmop,-zcmp,-zcmt,-zdinx,-zfa,-zfbfmin,-zfh,-zfhmin,-zfinx,-zhinx,-zhinxmin,-zic64b,-zicbom,-zicbop,-zicboz,-ziccamoa,-ziccif,-zicclsm,-ziccrse,-zicntr,-zicond,-zicsr,-zifencei,-zihintntl,-zihintpause,-zihpm,-zimop,-zk,-zkn,-zknd,-zkne,-zknh,-zkr,-zks,-zksed,-zksh,-zkt,-ztso,-zvbb,-zvbc,-zve32f,-zve32x,-zve64d,-zve64f,-zve64x,-zvfbfmin,-zvfbfwma,-zvfh,-zvfhmin,-zvkb,-zvkg,-zvkn,-zvknc,-zvkned,-zvkng,-zvknha,-zvknhb,-zvks,-zvksc,-zvksed,-zvksg,-zvksh,-zvkt,-zvl1024b,-zvl128b,-zvl16384b,-zvl2048b,-zvl256b,-zvl32768b,-zvl32b,-zvl4096b,-zvl512b,-zvl64b,-zvl65536b,-zvl8192b" }

!llvm.module.flags = !{!0, !1, !2, !4, !5, !6}
!llvm.ident = !{!7}

!0 = !{i32 1, !"wchar_size", i32 4}
!1 = !{i32 1, !"target-abi", !"lp64"}
!2 = !{i32 6, !"riscv-isa", !3}
!3 = !{!"rv64i2p1_m2p0_zmmul1p0"}
!4 = !{i32 8, !"PIC Level", i32 2}
!5 = !{i32 7, !"PIE Level", i32 2}
!6 = !{i32 8, !"SmallDataLimit", i32 8}
!7 = !{!"Debian clang version 19.1.7 (3~deb12u1)"}
!8 = !{!9, !9, i64 0}
!9 = !{!"omnipotent char", !10, i64 0}
!10 = !{!"Simple C/C++ TBAA"}
!11 = distinct !{!11, !12, !13}
!12 = !{!"llvm.loop.mustprogress"}
!13 = !{!"llvm.loop.unroll.disable"}
!14 = distinct !{!14, !12, !13}
!15 = !{!16, !16, i64 0}
!16 = !{!"short", !9, i64 0}
!17 = distinct !{!17, !12, !13}
!18 = distinct !{!18, !12, !13}
!19 = distinct !{!19, !12, !13}
!20 = distinct !{!20, !12, !13}
!21 = distinct !{!21, !12, !13}
