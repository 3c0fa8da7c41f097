; ModuleID = 'lucky.c'
source_filename = "lucky.c"
target datalayout = "e-m:e-p:64:64-i64:64-i128:128-n32:64-S128"
target triple = "riscv64-unknown-linux-gnu"

@out = internal unnamed_addr global [512 x i8] zeroinitializer, align 1

; Function Attrs: nofree norecurse nosync nounwind memory(readwrite, argmem: none, inaccessiblemem: none)
define dso_local signext i32 @lucky(i32 noundef signext %0) local_unnamed_addr #0 {
  %2 = icmp sgt i32 %0, 0
  br i1 %2, label %3, label %56

3:                                                ; preds = %1
  %4 = zext nneg i32 %0 to i64
  br label %9

5:                                                ; preds = %9
  %6 = icmp eq i32 %0, 1
  br i1 %6, label %56, label %7

7:                                                ; preds = %5
  %8 = zext nneg i32 %0 to i64
  br label %14

9:                                                ; preds = %3, %9
  %10 = phi i64 [ 0, %3 ], [ %12, %9 ]
  %11 = getelementptr inbounds [512 x i8], ptr @out, i64 0, i64 %10
  store i8 0, ptr %11, align 1, !tbaa !8
  %12 = add nuw nsw i64 %10, 1
  %13 = icmp eq i64 %12, %4
  br i1 %13, label %5, label %9, !llvm.loop !11

14:                                               ; preds = %32, %7
  %15 = phi i32 [ 1, %7 ], [ %34, %32 ]
  br label %16

16:                                               ; preds = %14, %25
  %17 = phi i64 [ %27, %25 ], [ 1, %14 ]
  %18 = phi i32 [ %26, %25 ], [ %15, %14 ]
  %19 = getelementptr inbounds [512 x i8], ptr @out, i64 0, i64 %17
  %20 = load i8, ptr %19, align 1, !tbaa !8
  %21 = icmp eq i8 %20, 0
  br i1 %21, label %22, label %25

22:                                               ; preds = %16
  %23 = add nsw i32 %18, -1
  %24 = icmp eq i32 %18, 0
  br i1 %24, label %30, label %25

25:                                               ; preds = %22, %16
  %26 = phi i32 [ %18, %16 ], [ %23, %22 ]
  %27 = add nuw nsw i64 %17, 2
  %28 = trunc nuw i64 %27 to i32
  %29 = icmp slt i32 %28, %0
  br i1 %29, label %16, label %53, !llvm.loop !14

30:                                               ; preds = %22
  %31 = trunc nuw nsw i64 %17 to i32
  br label %35

32:                                               ; preds = %48
  %33 = icmp eq i32 %50, 0
  %34 = add nuw nsw i32 %15, 1
  br i1 %33, label %53, label %14

35:                                               ; preds = %30, %48
  %36 = phi i64 [ 1, %30 ], [ %51, %48 ]
  %37 = phi i32 [ 0, %30 ], [ %50, %48 ]
  %38 = phi i32 [ 0, %30 ], [ %49, %48 ]
  %39 = getelementptr inbounds [512 x i8], ptr @out, i64 0, i64 %36
  %40 = load i8, ptr %39, align 1, !tbaa !8
  %41 = icmp eq i8 %40, 0
  br i1 %41, label %42, label %48

42:                                               ; preds = %35
  %43 = add nsw i32 %38, 1
  %44 = srem i32 %43, %31
  %45 = icmp eq i32 %44, 0
  br i1 %45, label %46, label %48

46:                                               ; preds = %42
  store i8 1, ptr %39, align 1, !tbaa !8
  %47 = add nsw i32 %37, 1
  br label %48

48:                                               ; preds = %42, %46, %35
  %49 = phi i32 [ %38, %35 ], [ %43, %46 ], [ %43, %42 ]
  %50 = phi i32 [ %37, %35 ], [ %47, %46 ], [ %37, %42 ]
  %51 = add nuw nsw i64 %36, 2
  %52 = icmp ult i64 %51, %8
  br i1 %52, label %35, label %32, !llvm.loop !15

53:                                               ; preds = %32, %25
  br i1 %6, label %56, label %54

54:                                               ; preds = %53
  %55 = zext nneg i32 %0 to i64
  br label %58

56:                                               ; preds = %58, %1, %5, %53
  %57 = phi i32 [ 0, %53 ], [ 0, %5 ], [ 0, %1 ], [ %66, %58 ]
  ret i32 %57

58:                                               ; preds = %54, %58
  %59 = phi i64 [ 1, %54 ], [ %67, %58 ]
  %60 = phi i32 [ 0, %54 ], [ %66, %58 ]
  %61 = getelementptr inbounds [512 x i8], ptr @out, i64 0, i64 %59
  %62 = load i8, ptr %61, align 1, !tbaa !8
  %63 = icmp eq i8 %62, 0
  %64 = trunc nuw nsw i64 %59 to i32
  %65 = select i1 %63, i32 %64, i32 0
  %66 = add nuw nsw i32 %65, %60
  %67 = add nuw nsw i64 %59, 2
  %68 = icmp ult i64 %67, %55
  br i1 %68, label %58, label %56, !llvm.loop !16
}

attributes #0 = { nofree norecurse nosync nounwind memory(readwrite, argmem: none, inaccessiblemem: none) "no-builtins" "no-trapping-math"="true" "stack-protector-buffer-size"="8" "target-cpu"="generic-rv64" "target-features"="+64bit,+m,+relax,+zmmul,-a,-b,-c,-d,-e,-experimental-smmpm,-experimental-smnpm,-experimental-ssnpm,-experimental-sspm,-experimental-ssqosid,-experimental-supm,-experimental-zacas,-experimental-zalasr,-experimental-zicfilp,-experimental-zicfiss,-f,-h,-shcounterenw,-shgatpa,-shtvala,-shvsatpa,-shvstvala,-shvstvecd,-smaia,-smcdeleg,-smcsrind,-smepmp,-smstateen,-ssaia,-ssccfg,-ssccptr,-sscofpmf,-sscounterenw,-sscsrind,-ssstateen,-ssstrict,-sstc,-sstvala,-sstvecd,-ssu64xl,-svade,-svadu,-svbare,-svinval,-svnapot,-svpbmt,-v,-xcvalu,-xcvbi,-xcvbitmanip,-xcvelw,-xcvmac,-xcvmem,-xcvsimd,-xsfcease,-xsfvcp,-xsfvfnrclipxfqf,-xsfvfwmaccqqq,-xsfvqmaccdod,-xsfvqmaccqoq,-xsifivecdiscarddlone,-xsifivecflushdlone,-xtheadba,-xtheadbb,-xtheadbs,-xtheadcmo,-xtheadcondmov,-xtheadfmemidx,-xtheadmac,-xtheadmemidx,-xtheadmempair,-xtheadsync,-xtheadvdot,-xventanacondops,-xwchc,-za128rs,-za64rs,-zaamo,-zabha,-zalrsc,-zama16b,-zawrs,-zba,-zbb,-zbc,-zbkb,-zbkc,-zbkx,-zbs,-zca,-zcb,-zcd,-zce,-zcf,-zcmop,-zcmp,-zcmt,-zdinx,-zfa,-zfbfmin,-zfh,-zfhmin,-zfinx,-zhinx,-zhinxmin,-zic64b,-zicbom,-zicbop,-zicboz,-ziccamoa,-ziccif,-zicclsm,-ziccrse,-zicntr,-zicond,-zicsr,-zifencei,-zihintntl,-zihintpause,-zihpm,-zimop,-zk,-zkn,-zknd,-zkne,-zknh,-zkr,-zks,-zksed,-zksh,-zkt,-ztso,-zvbb,-zvbc,-zve32f,-zve32x,-zve64d,-zve64f,-zve64x,-zvfbfmin,-zvfbfwma,-zvfh,-zvfhmin,-zvkb,-zvkg,-zvkn,-zvknc,-zvkned,-zvkng,-zvknha,-zvknhb,-zvks,-zvksc,-zvksed,-zvksg,-zvksh,-zvkt,-zvl1024b,-zvl128b,-zvl16384b,-zvl2048b,-zvl256b,-zvl32768b,-zvl32b,-zvl4096b,-zvl512b,-zvl64b,-zvl65536b,-zvl8192b" }

!llvm.module.flags = !{!0, !1, !2, !4, !5, !6}
!llvm.ident = !{!7}

!0 = !{i32 1, !"wchar_size", i32 4}
!1 = !{i32 1, !"target-abi", !"lp64"}
!2 = !{i32 6, !"riscv-isa", !3}
!3 = !{!"rv64i2p1_m2p0_zmmul1p0"}
!4 = !{i32 8, !"PIC Level", i32 2}
!5 = !{i32 7, !"PIE Level", i32 2}
!6 = !{i32 8, !"SmallDataLimit", i32 8}
!7 = !{!"Debian clang version 19.1.7 (3~deb12u1)"}
!8 = !{!9, !9, i64 0}
!9 = !{!"omnipotent char", !10, i64 0}
!10 = !{!"Simple C/C++ TBAA"}
!11 = distinct !{!11, !12, !13}
!12 = !{!"llvm.loop.mustprogress"}
!13 = !{!"llvm.loop.unroll.disable"}
!14 = distinct !{!14, !12, !13}
!15 = distinct !{!15, !12, !13}
!16 = distinct !{!16, !12, !13}
