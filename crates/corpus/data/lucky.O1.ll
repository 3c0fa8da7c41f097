; ModuleID = 'lucky.c'
source_filename = "lucky.c"
target datalayout = "e-m:e-p:64:64-i64:64-i128:128-n32:64-S128"
target triple = "riscv64-unknown-linux-gnu"

@out = internal unnamed_addr global [512 x i8] zeroinitializer, align 1

; Function Attrs: nofree norecurse nosync nounwind memory(readwrite, argmem: none, inaccessiblemem: none)
define dso_local signext i32 @lucky(i32 noundef signext %0) local_unnamed_addr #0 {
  %2 = icmp sgt i32 %0, 0
  br i1 %2, label %3, label %5

3:                                                ; preds = %1
  %4 = zext nneg i32 %0 to i64
  br label %9

5:                                                ; preds = %9, %1
  %6 = icmp sgt i32 %0, 1
  %7 = icmp sgt i32 %0, 1
  %8 = sext i32 %0 to i64
  br label %14

9:                                                ; preds = %3, %9
  %10 = phi i64 [ 0, %3 ], [ %12, %9 ]
  %11 = getelementptr inbounds [512 x i8], ptr @out, i64 0, i64 %10
  store i8 0, ptr %11, align 1, !tbaa !8
  %12 = add nuw nsw i64 %10, 1
  %13 = icmp eq i64 %12, %4
  br i1 %13, label %5, label %9, !llvm.loop !11

14:                                               ; preds = %36, %5
  %15 = phi i32 [ %39, %36 ], [ 1, %5 ]
  br i1 %6, label %16, label %32

16:                                               ; preds = %14, %25
  %17 = phi i64 [ %27, %25 ], [ 1, %14 ]
  %18 = phi i32 [ %26, %25 ], [ %15, %14 ]
  %19 = getelementptr inbounds [512 x i8], ptr @out, i64 0, i64 %17
  %20 = load i8, ptr %19, align 1, !tbaa !8
  %21 = icmp eq i8 %20, 0
  br i1 %21, label %22, label %25

22:                                               ; preds = %16
  %23 = add nsw i32 %18, -1
  %24 = icmp eq i32 %18, 0
  br i1 %24, label %30, label %25

25:                                               ; preds = %22, %16
  %26 = phi i32 [ %18, %16 ], [ %23, %22 ]
  %27 = add nuw nsw i64 %17, 2
  %28 = trunc nuw i64 %27 to i32
  %29 = icmp slt i32 %28, %0
  br i1 %29, label %16, label %32, !llvm.loop !14

30:                                               ; preds = %22
  %31 = trunc nuw nsw i64 %17 to i32
  br label %32

32:                                               ; preds = %25, %30, %14
  %33 = phi i32 [ 0, %14 ], [ %31, %30 ], [ 0, %25 ]
  %34 = icmp eq i32 %33, 0
  br i1 %34, label %58, label %35

35:                                               ; preds = %32
  br i1 %7, label %40, label %36

36:                                               ; preds = %53, %35
  %37 = phi i32 [ 0, %35 ], [ %55, %53 ]
  %38 = icmp eq i32 %37, 0
  %39 = add nuw nsw i32 %15, 1
  br i1 %38, label %58, label %14, !llvm.loop !15

40:                                               ; preds = %35, %53
  %41 = phi i64 [ %56, %53 ], [ 1, %35 ]
  %42 = phi i32 [ %55, %53 ], [ 0, %35 ]
  %43 = phi i32 [ %54, %53 ], [ 0, %35 ]
  %44 = getelementptr inbounds [512 x i8], ptr @out, i64 0, i64 %41
  %45 = load i8, ptr %44, align 1, !tbaa !8
  %46 = icmp eq i8 %45, 0
  br i1 %46, label %47, label %53

47:                                               ; preds = %40
  %48 = add nsw i32 %43, 1
  %49 = srem i32 %48, %33
  %50 = icmp eq i32 %49, 0
  br i1 %50, label %51, label %53

51:                                               ; preds = %47
  store i8 1, ptr %44, align 1, !tbaa !8
  %52 = add nsw i32 %42, 1
  br label %53

53:                                               ; preds = %47, %51, %40
  %54 = phi i32 [ %43, %40 ], [ %48, %51 ], [ %48, %47 ]
  %55 = phi i32 [ %42, %40 ], [ %52, %51 ], [ %42, %47 ]
  %56 = add nuw nsw i64 %41, 2
  %57 = icmp slt i64 %56, %8
  br i1 %57, label %40, label %36, !llvm.loop !16

58:                                               ; preds = %32, %36
  %59 = icmp sgt i32 %0, 1
  br i1 %59, label %60, label %62

60:                                               ; preds = %58
  %61 = zext nneg i32 %0 to i64
  br label %64

62:                                               ; preds = %64, %58
  %63 = phi i32 [ 0, %58 ], [ %72, %64 ]
  ret i32 %63

64:                                               ; preds = %60, %64
  %65 = phi i64 [ 1, %60 ], [ %73, %64 ]
  %66 = phi i32 [ 0, %60 ], [ %72, %64 ]
  %67 = getelementptr inbounds [512 x i8], ptr @out, i64 0, i64 %65
  %68 = load i8, ptr %67, align 1, !tbaa !8
  %69 = icmp eq i8 %68, 0
  %70 = trunc nuw nsw i64 %65 to i32
  %71 = select i1 %69, i32 %70, i32 0
  %72 = add nuw nsw i32 %71, %66
  %73 = add nuw nsw i64 %65, 2
  %74 = icmp ult i64 %73, %61
  br i1 %74, label %64, label %62, !llvm.loop !17
}

attributes #0 = { nofree norecurse nosync nounwind memory(readwrite, argmem: none, inaccessiblemem: none) "no-builtins" "no-trapping-math"="true" "stack-protector-buffer-size"="8" "target-cpu"="generic-rv64" "target-features"="+64bit,+m,+relax,+zmmul,-a,-b,-c,-d,-e,-experimental-smmpm,-experimental-smnpm,-experimental-ssnpm,-experimental-sspm,-experimental-ssqosid,-experimental-supm,-experimental-zacas,-experimental-zalasr,-experimental-zicfilp,-experimental-zicfiss,-f,-h,-shcounterenw,-shgatpa,-shtvala,-shvsatpa,-shvstvala,-shvstvecd,-smaia,-smcdeleg,-smcsrind,-smepmp,-smstateen,-ssaia,-ssccfg,-ssccptr,-sscofpmf,-sscounterenw,-sscsrind,-ssstateen,-ssstrict,-sstc,-sstvala,-sstvecd,-ssu64xl,-svade,-svadu,-svbare,-svinval,-svnapot,-svpbmt,-v,-xcvalu,-xcvbi,-xcvbitmanip,-xcvelw,-xcvmac,-xcvmem,-xcvsimd,-xsfcease,-xsfvcp,-xsfvfnrclipxfqf,-xsfvfwmaccqqq,-xsfvqmaccdod,-xsfvqmaccqoq,-xsifivecdiscarddlone,-xsifivecflushdlone,-xtheadba,-xtheadbb,-xtheadbs,-xtheadcmo,-xtheadcondmov,-xtheadfmemidx,-xtheadmac,-xtheadmemidx,-xtheadmempair,-xtheadsync,-xtheadvdot,-xventanacondops,-xwchc,-za128rs,-za64rs,-zaamo,-zabha,-zalrsc,-zama16b,-zawrs,-zba,-zbb,-zbc,-zbkb,-zbkc,-zbkx,-zbs,-zca,-zcb,-zcd,-zce,-zcf,-zcmop,-zcmp,-zcmt,-zdinx,-zfa,-zfbfmin,-zfh,-zfhmin,-zfinx,-zhinx,-zhinxmin,-zic64b,-zicbom,-zicbop,-zicboz,-ziccamoa,-ziccif,-zicclsm,-ziccrse,-zicntr,-zicond,-zicsr,-zifencei,-zihintntl,-zihintpause,-zihpm,-zimop,-zk,-zkn,-zknd,-zkne,-zknh,-zkr,-zks,-zksed,-zksh,-zkt,-ztso,-zvbb,-zvbc,-zve32f,-zve32x,-zve64d,-zve64f,-zve64x,-zvfbfmin,-zvfbfwma,-zvfh,-zvfhmin,-zvkb,-zvkg,-zvkn,-zvknc,-zvkned,-zvkng,-zvknha,-zvknhb,-zvks,-zvksc,-zvksed,-zvksg,-zvksh,-zvkt,-zvl1024b,-zvl128b,-zvl16384b,-zvl2048b,-zvl256b,-zvl32768b,-zvl32b,-zvl4096b,-zvl512b,-zvl64b,-zvl65536b,-zvl8192b" }

!llvm.module.flags = !{!0, !1, !2, !4, !5, !6}
!llvm.ident = !{!7}

!0 = !{i32 1, !"wchar_size", i32 4}
!1 = !{i32 1, !"target-abi", !"lp64"}
!2 = !{i32 6, !"riscv-isa", !3}
!3 = !{!"rv64i2p1_m2p0_zmmul1p0"}
!4 = !{i32 8, !"PIC Level", i32 2}
!5 = !{i32 7, !"PIE Level", i32 2}
!6 = !{i32 8, !"SmallDataLimit", i32 8}
!7 = !{!"Debian clang version 19.1.7 (3~deb12u1)"}
!8 = !{!9, !9, i64 0}
!9 = !{!"omnipotent char", !10, i64 0}
!10 = !{!"Simple C/C++ TBAA"}
!11 = distinct !{!11, !12, !13}
!12 = !{!"llvm.loop.mustprogress"}
!13 = !{!"llvm.loop.unroll.disable"}
!14 = distinct !{!14, !12, !13}
!15 = distinct !{!15, !13}
!16 = distinct !{!16, !12, !13}
!17 = distinct !{!17, !12, !13}
