; ModuleID = 'bigint.c'
source_filename = "bigint.c"
target datalayout = "e-m:e-p:64:64-i64:64-i128:128-n32:64-S128"
target triple = "riscv64-unknown-linux-gnu"

@a = internal unnamed_addr global [16 x i32] zeroinitializer, align 4
@b = internal unnamed_addr global [16 x i32] zeroinitializer, align 4
@c = internal unnamed_addr global [16 x i32] zeroinitializer, align 4

; Function Attrs: nofree norecurse nosync nounwind memory(readwrite, argmem: none, inaccessiblemem: none)
define dso_local signext i32 @digits_of_factorial(i32 noundef signext %0) local_unnamed_addr #0 {
  br label %2

2:                                                ; preds = %2, %1
  %3 = phi i64 [ 0, %1 ], [ %5, %2 ]
  %4 = getelementptr inbounds i32, ptr @a, i64 %3
  store i32 0, ptr %4, align 4, !tbaa !8
  %5 = add nuw nsw i64 %3, 1
  %6 = icmp eq i64 %5, 16
  br i1 %6, label %7, label %2, !llvm.loop !12

7:                                                ; preds = %2
  store i32 1, ptr @a, align 4, !tbaa !8
  store i32 0, ptr getelementptr inbounds (i8, ptr @a, i64 4), align 4, !tbaa !8
  %8 = icmp ult i32 %0, 2
  br i1 %8, label %30, label %9

9:                                                ; preds = %7
  %10 = add i32 %0, 1
  %11 = tail call i32 @llvm.umax.i32(i32 %10, i32 3)
  %12 = zext i32 %11 to i64
  br label %13

13:                                               ; preds = %9, %27
  %14 = phi i64 [ 2, %9 ], [ %28, %27 ]
  br label %15

15:                                               ; preds = %15, %13
  %16 = phi i64 [ 0, %13 ], [ %25, %15 ]
  %17 = phi i64 [ 0, %13 ], [ %24, %15 ]
  %18 = getelementptr inbounds i32, ptr @a, i64 %16
  %19 = load i32, ptr %18, align 4, !tbaa !8
  %20 = zext i32 %19 to i64
  %21 = mul nuw i64 %14, %20
  %22 = add nuw i64 %21, %17
  %23 = trunc i64 %22 to i32
  store i32 %23, ptr %18, align 4, !tbaa !8
  %24 = lshr i64 %22, 32
  %25 = add nuw nsw i64 %16, 1
  %26 = icmp eq i64 %25, 16
  br i1 %26, label %27, label %15, !llvm.loop !15

27:                                               ; preds = %15
  %28 = add nuw nsw i64 %14, 1
  %29 = icmp eq i64 %28, %12
  br i1 %29, label %30, label %13, !llvm.loop !16

30:                                               ; preds = %27, %7
  br label %31

31:                                               ; preds = %30, %61
  %32 = phi i32 [ %63, %61 ], [ 0, %30 ]
  %33 = load i32, ptr @a, align 4, !tbaa !8
  %34 = icmp eq i32 %33, 0
  br i1 %34, label %35, label %45

35:                                               ; preds = %31, %39
  %36 = phi i64 [ %37, %39 ], [ 0, %31 ]
  %37 = add nuw nsw i64 %36, 1
  %38 = icmp eq i64 %37, 16
  br i1 %38, label %64, label %39, !llvm.loop !17

39:                                               ; preds = %35
  %40 = getelementptr inbounds i32, ptr @a, i64 %37
  %41 = load i32, ptr %40, align 4, !tbaa !8
  %42 = icmp eq i32 %41, 0
  br i1 %42, label %35, label %43, !llvm.loop !17

43:                                               ; preds = %39
  %44 = icmp ugt i64 %36, 14
  br i1 %44, label %64, label %45

45:                                               ; preds = %31, %43
  br label %46

46:                                               ; preds = %45, %46
  %47 = phi i64 [ %59, %46 ], [ 15, %45 ]
  %48 = phi i64 [ %58, %46 ], [ 0, %45 ]
  %49 = shl nuw nsw i64 %48, 32
  %50 = getelementptr inbounds i32, ptr @a, i64 %47
  %51 = load i32, ptr %50, align 4, !tbaa !8
  %52 = zext i32 %51 to i64
  %53 = or disjoint i64 %49, %52
  %54 = freeze i64 %53
  %55 = udiv i64 %54, 10
  %56 = trunc i64 %55 to i32
  store i32 %56, ptr %50, align 4, !tbaa !8
  %57 = mul i64 %55, 10
  %58 = sub i64 %54, %57
  %59 = add nsw i64 %47, -1
  %60 = icmp eq i64 %47, 0
  br i1 %60, label %61, label %46, !llvm.loop !18

61:                                               ; preds = %46
  %62 = trunc nuw nsw i64 %58 to i32
  %63 = add nuw nsw i32 %32, %62
  br label %31, !llvm.loop !19

64:                                               ; preds = %43, %35
  ret i32 %32
}

; Function Attrs: nofree norecurse nosync nounwind memory(readwrite, argmem: none, inaccessiblemem: none)
define dso_local signext range(i32 0, -1) i32 @fibonacci_modulo(i32 noundef signext %0, i32 noundef signext %1) local_unnamed_addr #0 {
  br label %3

3:                                                ; preds = %3, %2
  %4 = phi i64 [ 0, %2 ], [ %6, %3 ]
  %5 = getelementptr inbounds i32, ptr @a, i64 %4
  store i32 0, ptr %5, align 4, !tbaa !8
  %6 = add nuw nsw i64 %4, 1
  %7 = icmp eq i64 %6, 16
  br i1 %7, label %8, label %3, !llvm.loop !12

8:                                                ; preds = %3
  store i32 0, ptr @a, align 4, !tbaa !8
  store i32 0, ptr getelementptr inbounds (i8, ptr @a, i64 4), align 4, !tbaa !8
  br label %9

9:                                                ; preds = %9, %8
  %10 = phi i64 [ 0, %8 ], [ %12, %9 ]
  %11 = getelementptr inbounds i32, ptr @b, i64 %10
  store i32 0, ptr %11, align 4, !tbaa !8
  %12 = add nuw nsw i64 %10, 1
  %13 = icmp eq i64 %12, 16
  br i1 %13, label %14, label %9, !llvm.loop !12

14:                                               ; preds = %9
  store i32 1, ptr @b, align 4, !tbaa !8
  store i32 0, ptr getelementptr inbounds (i8, ptr @b, i64 4), align 4, !tbaa !8
  %15 = icmp sgt i32 %0, 0
  br i1 %15, label %16, label %18

16:                                               ; preds = %14, %53
  %17 = phi i32 [ %54, %53 ], [ 0, %14 ]
  br label %37

18:                                               ; preds = %53, %14
  %19 = zext i32 %1 to i64
  br label %20

20:                                               ; preds = %20, %18
  %21 = phi i64 [ 15, %18 ], [ %33, %20 ]
  %22 = phi i64 [ 0, %18 ], [ %32, %20 ]
  %23 = shl nuw i64 %22, 32
  %24 = getelementptr inbounds i32, ptr @a, i64 %21
  %25 = load i32, ptr %24, align 4, !tbaa !8
  %26 = zext i32 %25 to i64
  %27 = or disjoint i64 %23, %26
  %28 = freeze i64 %27
  %29 = udiv i64 %28, %19
  %30 = trunc i64 %29 to i32
  store i32 %30, ptr %24, align 4, !tbaa !8
  %31 = mul i64 %29, %19
  %32 = sub i64 %28, %31
  %33 = add nsw i64 %21, -1
  %34 = icmp eq i64 %21, 0
  br i1 %34, label %35, label %20, !llvm.loop !18

35:                                               ; preds = %20
  %36 = trunc nuw i64 %32 to i32
  ret i32 %36

37:                                               ; preds = %16, %37
  %38 = phi i64 [ %51, %37 ], [ 0, %16 ]
  %39 = phi i64 [ %50, %37 ], [ 0, %16 ]
  %40 = getelementptr inbounds i32, ptr @a, i64 %38
  %41 = load i32, ptr %40, align 4, !tbaa !8
  %42 = zext i32 %41 to i64
  %43 = getelementptr inbounds i32, ptr @b, i64 %38
  %44 = load i32, ptr %43, align 4, !tbaa !8
  %45 = zext i32 %44 to i64
  %46 = add nuw nsw i64 %39, %42
  %47 = add nuw nsw i64 %46, %45
  %48 = trunc i64 %47 to i32
  %49 = getelementptr inbounds i32, ptr @c, i64 %38
  store i32 %48, ptr %49, align 4, !tbaa !8
  %50 = lshr i64 %47, 32
  %51 = add nuw nsw i64 %38, 1
  %52 = icmp eq i64 %51, 16
  br i1 %52, label %56, label %37, !llvm.loop !20

53:                                               ; preds = %56
  %54 = add nuw nsw i32 %17, 1
  %55 = icmp eq i32 %54, %0
  br i1 %55, label %18, label %16, !llvm.loop !21

56:                                               ; preds = %37, %56
  %57 = phi i64 [ %63, %56 ], [ 0, %37 ]
  %58 = getelementptr inbounds [16 x i32], ptr @b, i64 0, i64 %57
  %59 = load i32, ptr %58, align 4, !tbaa !8
  %60 = getelementptr inbounds [16 x i32], ptr @a, i64 0, i64 %57
  store i32 %59, ptr %60, align 4, !tbaa !8
  %61 = getelementptr inbounds [16 x i32], ptr @c, i64 0, i64 %57
  %62 = load i32, ptr %61, align 4, !tbaa !8
  store i32 %62, ptr %58, align 4, !tbaa !8
  %63 = add nuw nsw i64 %57, 1
  %64 = icmp eq i64 %63, 16
  br i1 %64, label %53, label %56, !llvm.loop !22
}

; Function Attrs: mustprogress nofree norecurse nosync nounwind willreturn memory(none)
define dso_local i64 @high_product(i64 noundef %0, i64 noundef %1) local_unnamed_addr #1 {
  %3 = and i64 %0, 4294967295
  %4 = lshr i64 %0, 32
  %5 = and i64 %1, 4294967295
  %6 = lshr i64 %1, 32
  %7 = mul nuw i64 %5, %3
  %8 = mul nuw i64 %6, %3
  %9 = mul nuw i64 %5, %4
  %10 = mul nuw i64 %6, %4
  %11 = lshr i64 %7, 32
  %12 = and i64 %8, 4294967295
  %13 = add nuw nsw i64 %11, %12
  %14 = and i64 %9, 4294967295
  %15 = add nuw nsw i64 %13, %14
  %16 = lshr i64 %8, 32
  %17 = add nuw i64 %16, %10
  %18 = lshr i64 %9, 32
  %19 = add nuw i64 %17, %18
  %20 = lshr i64 %15, 32
  %21 = add nuw i64 %19, %20
  ret i64 %21
}

; Function Attrs: nocallback nofree nosync nounwind speculatable willreturn memory(none)
declare i32 @llvm.umax.i32(i32, i32) #2

attributes #0 = { nofree norecurse nosync nounwind memory(readwrite, argmem: none, inaccessiblemem: none) "no-builtins" "no-trapping-math"="true" "stack-protector-buffer-size"="8" "target-cpu"="generic-rv64" "target-features"="+64bit,+m,+relax,+zmmul,-a,-b,-c,-d,-e,-experimental-smmpm,-experimental-smnpm,-experimental-ssnpm,-experimental-sspm,-experimental-ssqosid,-experimental-supm,-experimental-zacas,-experimental-zalasr,-experimental-zicfilp,-experimental-zicfiss,-f,-h,-shcounterenw,-shgatpa,-shtvala,-shvsatpa,-shvstvala,-shvstvecd,-smaia,-smcdeleg,-smcsrind,-smepmp,-smstateen,-ssaia,-ssccfg,-ssccptr,-sscofpmf,-sscounterenw,-sscsrind,-ssstateen,-ssstrict,-sstc,-sstvala,-sstvecd,-ssu64xl,-svade,-svadu,-svbare,-svinval,-svnapot,-svpbmt,-v,-xcvalu,-xcvbi,-xcvbitmanip,-xcvelw,-xcvmac,-xcvmem,-xcvsimd,-xsfcease,-xsfvcp,-xsfvfnrclipxfqf,-xsfvfwmaccqqq,-xsfvqmaccdod,-xsfvqmaccqoq,-xsifivecdiscarddlone,-xsifivecflushdlone,-xtheadba,-xtheadbb,-xtheadbs,-xtheadcmo,-xtheadcondmov,-xtheadfmemidx,-xtheadmac,-xtheadmemidx,-xtheadmempair,-xtheadsync,-xtheadvdot,-xventanacondops,-xwchc,-za128rs,-za64rs,-zaamo,-zabha,-zalrsc,-zama16b,-zawrs,-zba,-zbb,-zbc,-zbkb,-zbkc,-zbkx,-zbs,-zca,-zcb,-zcd,-zce,-zcf,-zcmop,-zcmp,-zcmt,-zdinx,-zfa,-zfbfmin,-zfh,-zfhmin,-zfinx,-zhinx,-zhinxmin,-zic64b,-zicbom,-zicbop,-zicboz,-ziccamoa,-ziccif,-zicclsm,-ziccrse,-zicntr,-zicond,-zicsr,-zifencei,-zihintntl,-zihintpause,-zihpm,-zimop,-zk,-zkn,-zknd,-zkne,-zknh,-zkr,-zks,-zksed,-zksh,-zkt,-ztso,-zvbb,-zvbc,-zve32f,-zve32x,-zve64d,-zve64f,-zve64x,-zvfbfmin,-zvfbfwma,-zvfh,-zvfhmin,-zvkb,-zvkg,-zvkn,-zvknc,-zvkned,-zvkng,-zvknha,-zvknhb,-zvks,-zvksc,-zvksed,-zvksg,-zvksh,-zvkt,-zvl1024b,-zvl128b,-zvl16384b,-zvl2048b,-zvl256b,-zvl32768b,-zvl32b,-zvl4096b,-zvl512b,-zvl64b,-zvl65536b,-zvl8192b" }
attributes #1 = { mustprogress nofree norecurse nosync nounwind willreturn memory(none) "no-builtins" "no-trapping-math"="true" "stack-protector-buffer-size"="8" "target-cpu"="generic-rv64" "target-features"="+64bit,+m,+relax,+zmmul,-a,-b,-c,-d,-e,-experimental-smmpm,-experimental-smnpm,-experimental-ssnpm,-experimental-sspm,-experimental-ssqosid,-experimental-supm,-experimental-zacas,-experimental-zalasr,-experimental-zicfilp,-experimental-zicfiss,-f,-h,-shcounterenw,-shgatpa,-shtvala,-shvsatpa,-shvstvala,-shvstvecd,-smaia,-smcdeleg,-smcsrind,-smepmp,-smstateen,-ssaia,-ssccfg,-ssccptr,-sscofpmf,-sscounterenw,-sscsrind,-ssstateen,-ssstrict,-sstc,-sstvala,-sstvecd,-ssu64xl,-svade,-svadu,-svbare,-svinval,-svnapot,-svpbmt,-v,-xcvalu,-xcvbi,-xcvbitmanip,-xcvelw,-xcvmac,-xcvmem,-xcvsimd,-xsfcease,-xsfvcp,-xsfvfnrclipxfqf,-xsfvfwmaccqqq,-xsfvqmaccdod,-xsfvqmaccqoq,-xsifivecdiscarddlone,-xsifivecflushdlone,-xtheadba,-xtheadbb,-xtheadbs,-xtheadcmo,-xtheadcondmov,-xtheadfmemidx,-xtheadmac,-xtheadmemidx,-xtheadmempair,-xtheadsync,-xtheadvdot,-xventanacondops,-xwchc,-za128rs,-za64rs,-zaamo,-zabha,-zalrsc,-zama16b,-zawrs,-zba,-zbb,-zbc,-zbkb,-zbkc,-zbkx,-zbs,-zca,-zcb,-zcd,-zce,-zcf,-zcmop,-zcmp,-zcmt,-zdinx,-zfa,-zfbfmin,-zfh,-zfhmin,-zfinx,-zhinx,-zhinxmin,-zic64b,-zicbom,-zicbop,-zicboz,-ziccamoa,-ziccif,-zicclsm,-ziccrse,-zicntr,-zicond,-zicsr,-zifencei,-zihintntl,-zihintpause,-zihpm,-zimop,-zk,-zkn,-zknd,-zkne,-zknh,-zkr,-zks,-zksed,-zksh,-zkt,-ztso,-zvbb,-zvbc,-zve32f,-zve32x,-zve64d,-zve64f,-zve64x,-zvfbfmin,-zvfbfwma,-zvfh,-zvfhmin,-zvkb,-zvkg,-zvkn,-zvknc,-zvkned,-zvkng,-zvknha,-zvknhb,-zvks,-zvksc,-zvksed,-zvksg,-zvksh,-zvkt,-zvl1024b,-zvl128b,-zvl16384b,-zvl2048b,-zvl256b,-zvl32768b,-zvl32b,-zvl4096b,-zvl512b,-zvl64b,-zvl65536b,-zvl8192b" }
attributes #2 = { nocallback nofree nosync nounwind speculatable willreturn memory(none) }

!llvm.module.flags = !{!0, !1, !2, !4, !5, !6}
!llvm.ident = !{!7}

!0 = !{i32 1, !"wchar_size", i32 4}
!1 = !{i32 1, !"target-abi", !"lp64"}
!2 = !{i32 6, !"riscv-isa", !3}
!3 = !{!"rv64i2p1_m2p0_zmmul1p0"}
!4 = !{i32 8, !"PIC Level", i32 2}
!5 = !{i32 7, !"PIE Level", i32 2}
!6 = !{i32 8, !"SmallDataLimit", i32 8}
!7 = !{!"Debian clang version 19.1.7 (3~deb12u1)"}
!8 = !{!9, !9, i64 0}
!9 = !{!"int", !10, i64 0}
!10 = !{!"omnipotent char", !11, i64 0}
!11 = !{!"Simple C/C++ TBAA"}
!12 = distinct !{!12, !13, !14}
!13 = !{!"llvm.loop.mustprogress"}
!14 = !{!"llvm.loop.unroll.disable"}
!15 = distinct !{!15, !13, !14}
!16 = distinct !{!16, !13, !14}
!17 = distinct !{!17, !13, !14}
!18 = distinct !{!18, !13, !14}
!19 = distinct !{!19, !13, !14}
!20 = distinct !{!20, !13, !14}
!21 = distinct !{!21, !13, !14}
!22 = distinct !{!22, !13, !14}
