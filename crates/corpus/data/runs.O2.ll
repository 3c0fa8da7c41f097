; ModuleID = 'runs.c'
source_filename = "runs.c"
target datalayout = "e-m:e-p:64:64-i64:64-i128:128-n32:64-S128"
target triple = "riscv64-unknown-linux-gnu"

@from = internal unnamed_addr global [64 x i8] zeroinitializer, align 1
@to = internal unnamed_addr global [64 x i8] zeroinitializer, align 1
@packed = internal unnamed_addr global [130 x i8] zeroinitializer, align 1

; Function Attrs: nofree norecurse nosync nounwind memory(readwrite, argmem: none, inaccessiblemem: none)
define dso_local signext i32 @packed_length(i32 noundef signext %0) local_unnamed_addr #0 {
  br label %2

2:                                                ; preds = %2, %1
  %3 = phi i64 [ 0, %1 ], [ %14, %2 ]
  %4 = phi i32 [ %0, %1 ], [ %13, %2 ]
  %5 = lshr i32 %4, 28
  %6 = trunc nuw nsw i32 %5 to i8
  %7 = getelementptr inbounds [64 x i8], ptr @from, i64 0, i64 %3
  store i8 %6, ptr %7, align 1, !tbaa !8
  %8 = trunc i64 %3 to i8
  %9 = urem i8 %8, 3
  %10 = icmp eq i8 %9, 2
  %11 = mul i32 %4, 22695477
  %12 = add i32 %11, 1
  %13 = select i1 %10, i32 %12, i32 %4
  %14 = add nuw nsw i64 %3, 1
  %15 = icmp eq i64 %14, 64
  br i1 %15, label %16, label %2, !llvm.loop !11

16:                                               ; preds = %2
  %17 = load i8, ptr getelementptr inbounds (i8, ptr @from, i64 63), align 1
  br label %18

18:                                               ; preds = %41, %16
  %19 = phi i64 [ 0, %16 ], [ %48, %41 ]
  %20 = phi i32 [ 0, %16 ], [ %44, %41 ]
  %21 = icmp eq i32 %20, 63
  br i1 %21, label %41, label %22

22:                                               ; preds = %18
  %23 = zext nneg i32 %20 to i64
  %24 = getelementptr inbounds [64 x i8], ptr @from, i64 0, i64 %23
  %25 = load i8, ptr %24, align 1, !tbaa !8
  %26 = sub nuw nsw i32 64, %20
  %27 = sub nuw nsw i64 64, %23
  br label %28

28:                                               ; preds = %35, %22
  %29 = phi i64 [ %31, %35 ], [ %23, %22 ]
  %30 = phi i64 [ %36, %35 ], [ 1, %22 ]
  %31 = add nuw nsw i64 %29, 1
  %32 = getelementptr inbounds [64 x i8], ptr @from, i64 0, i64 %31
  %33 = load i8, ptr %32, align 1, !tbaa !8
  %34 = icmp eq i8 %33, %25
  br i1 %34, label %35, label %38

35:                                               ; preds = %28
  %36 = add nuw nsw i64 %30, 1
  %37 = icmp eq i64 %36, %27
  br i1 %37, label %41, label %28, !llvm.loop !14

38:                                               ; preds = %28
  %39 = trunc nuw nsw i64 %31 to i32
  %40 = trunc nuw nsw i64 %30 to i32
  br label %41

41:                                               ; preds = %35, %38, %18
  %42 = phi i8 [ %17, %18 ], [ %25, %38 ], [ %25, %35 ]
  %43 = phi i32 [ 1, %18 ], [ %40, %38 ], [ %26, %35 ]
  %44 = phi i32 [ 64, %18 ], [ %39, %38 ], [ 64, %35 ]
  %45 = trunc i32 %43 to i8
  %46 = or disjoint i64 %19, 1
  %47 = getelementptr inbounds [130 x i8], ptr @packed, i64 0, i64 %19
  store i8 %45, ptr %47, align 1, !tbaa !8
  %48 = add nuw nsw i64 %19, 2
  %49 = getelementptr inbounds [130 x i8], ptr @packed, i64 0, i64 %46
  store i8 %42, ptr %49, align 1, !tbaa !8
  %50 = icmp ult i32 %44, 64
  br i1 %50, label %18, label %51, !llvm.loop !15

51:                                               ; preds = %41
  %52 = trunc nuw i64 %48 to i32
  ret i32 %52
}

; Function Attrs: nofree norecurse nosync nounwind memory(readwrite, argmem: none, inaccessiblemem: none)
define dso_local signext i32 @comes_back(i32 noundef signext %0) local_unnamed_addr #0 {
  br label %2

2:                                                ; preds = %2, %1
  %3 = phi i64 [ 0, %1 ], [ %14, %2 ]
  %4 = phi i32 [ %0, %1 ], [ %13, %2 ]
  %5 = lshr i32 %4, 28
  %6 = trunc nuw nsw i32 %5 to i8
  %7 = getelementptr inbounds [64 x i8], ptr @from, i64 0, i64 %3
  store i8 %6, ptr %7, align 1, !tbaa !8
  %8 = trunc i64 %3 to i8
  %9 = urem i8 %8, 3
  %10 = icmp eq i8 %9, 2
  %11 = mul i32 %4, 22695477
  %12 = add i32 %11, 1
  %13 = select i1 %10, i32 %12, i32 %4
  %14 = add nuw nsw i64 %3, 1
  %15 = icmp eq i64 %14, 64
  br i1 %15, label %16, label %2, !llvm.loop !11

16:                                               ; preds = %2
  %17 = load i8, ptr getelementptr inbounds (i8, ptr @from, i64 63), align 1
  br label %18

18:                                               ; preds = %41, %16
  %19 = phi i64 [ 0, %16 ], [ %48, %41 ]
  %20 = phi i32 [ 0, %16 ], [ %44, %41 ]
  %21 = icmp eq i32 %20, 63
  br i1 %21, label %41, label %22

22:                                               ; preds = %18
  %23 = zext nneg i32 %20 to i64
  %24 = getelementptr inbounds [64 x i8], ptr @from, i64 0, i64 %23
  %25 = load i8, ptr %24, align 1, !tbaa !8
  %26 = sub nuw nsw i32 64, %20
  %27 = sub nuw nsw i64 64, %23
  br label %28

28:                                               ; preds = %35, %22
  %29 = phi i64 [ %31, %35 ], [ %23, %22 ]
  %30 = phi i64 [ %36, %35 ], [ 1, %22 ]
  %31 = add nuw nsw i64 %29, 1
  %32 = getelementptr inbounds [64 x i8], ptr @from, i64 0, i64 %31
  %33 = load i8, ptr %32, align 1, !tbaa !8
  %34 = icmp eq i8 %33, %25
  br i1 %34, label %35, label %38

35:                                               ; preds = %28
  %36 = add nuw nsw i64 %30, 1
  %37 = icmp eq i64 %36, %27
  br i1 %37, label %41, label %28, !llvm.loop !14

38:                                               ; preds = %28
  %39 = trunc nuw nsw i64 %31 to i32
  %40 = trunc nuw nsw i64 %30 to i32
  br label %41

41:                                               ; preds = %35, %38, %18
  %42 = phi i8 [ %17, %18 ], [ %25, %38 ], [ %25, %35 ]
  %43 = phi i32 [ 1, %18 ], [ %40, %38 ], [ %26, %35 ]
  %44 = phi i32 [ 64, %18 ], [ %39, %38 ], [ 64, %35 ]
  %45 = trunc i32 %43 to i8
  %46 = or disjoint i64 %19, 1
  %47 = getelementptr inbounds [130 x i8], ptr @packed, i64 0, i64 %19
  store i8 %45, ptr %47, align 1, !tbaa !8
  %48 = add nuw nsw i64 %19, 2
  %49 = getelementptr inbounds [130 x i8], ptr @packed, i64 0, i64 %46
  store i8 %42, ptr %49, align 1, !tbaa !8
  %50 = icmp ult i32 %44, 64
  br i1 %50, label %18, label %51, !llvm.loop !15

51:                                               ; preds = %41
  %52 = trunc nuw i64 %48 to i32
  %53 = icmp sgt i32 %52, 0
  br i1 %53, label %54, label %85

54:                                               ; preds = %51
  %55 = and i64 %48, 2147483646
  br label %56

56:                                               ; preds = %56, %54
  %57 = phi i64 [ 0, %54 ], [ %69, %56 ]
  %58 = phi i32 [ 0, %54 ], [ %68, %56 ]
  %59 = zext nneg i32 %58 to i64
  %60 = getelementptr inbounds i8, ptr @to, i64 %59
  %61 = or disjoint i64 %57, 1
  %62 = getelementptr inbounds [130 x i8], ptr @packed, i64 0, i64 %61
  %63 = load i8, ptr %62, align 1, !tbaa !8
  %64 = getelementptr inbounds [130 x i8], ptr @packed, i64 0, i64 %57
  %65 = load i8, ptr %64, align 1, !tbaa !8
  %66 = zext i8 %65 to i64
  tail call void @llvm.memset.p0.i64(ptr nonnull align 1 %60, i8 %63, i64 %66, i1 false)
  %67 = zext i8 %65 to i32
  %68 = add nuw nsw i32 %58, %67
  %69 = add nuw nsw i64 %57, 2
  %70 = icmp ult i64 %69, %55
  br i1 %70, label %56, label %71, !llvm.loop !16

71:                                               ; preds = %56
  %72 = icmp eq i32 %68, 0
  br i1 %72, label %85, label %73

73:                                               ; preds = %71
  %74 = zext nneg i32 %68 to i64
  br label %78

75:                                               ; preds = %78
  %76 = add nuw nsw i64 %79, 1
  %77 = icmp eq i64 %76, %74
  br i1 %77, label %85, label %78, !llvm.loop !17

78:                                               ; preds = %73, %75
  %79 = phi i64 [ 0, %73 ], [ %76, %75 ]
  %80 = getelementptr inbounds [64 x i8], ptr @from, i64 0, i64 %79
  %81 = load i8, ptr %80, align 1, !tbaa !8
  %82 = getelementptr inbounds [64 x i8], ptr @to, i64 0, i64 %79
  %83 = load i8, ptr %82, align 1, !tbaa !8
  %84 = icmp eq i8 %81, %83
  br i1 %84, label %75, label %85

85:                                               ; preds = %75, %78, %51, %71
  %86 = phi i32 [ %68, %71 ], [ 0, %51 ], [ -1, %78 ], [ %68, %75 ]
  ret i32 %86
}

; Function Attrs: mustprogress nocallback nofree nosync nounwind willreturn memory(argmem: readwrite)
declare void @llvm.lifetime.start.p0(i64 immarg, ptr nocapture) #1

; Function Attrs: mustprogress nocallback nofree nosync nounwind willreturn memory(argmem: readwrite)
declare void @llvm.lifetime.end.p0(i64 immarg, ptr nocapture) #1

; Function Attrs: nofree norecurse nosync nounwind memory(none)
define dso_local i64 @moved(i32 noundef signext %0, i32 noundef signext %1, i32 noundef signext %2) local_unnamed_addr #2 {
  %4 = alloca [32 x i8], align 1
  call void @llvm.lifetime.start.p0(i64 32, ptr nonnull %4) #5
  br label %11

5:                                                ; preds = %11
  %6 = sext i32 %1 to i64
  %7 = getelementptr inbounds i8, ptr %4, i64 %6
  %8 = sext i32 %0 to i64
  %9 = getelementptr inbounds i8, ptr %4, i64 %8
  %10 = sext i32 %2 to i64
  call void @llvm.memmove.p0.p0.i64(ptr nonnull align 1 %7, ptr nonnull align 1 %9, i64 %10, i1 false)
  br label %19

11:                                               ; preds = %3, %11
  %12 = phi i64 [ 0, %3 ], [ %16, %11 ]
  %13 = mul nuw nsw i64 %12, %12
  %14 = trunc i64 %13 to i8
  %15 = getelementptr inbounds [32 x i8], ptr %4, i64 0, i64 %12
  store i8 %14, ptr %15, align 1, !tbaa !8
  %16 = add nuw nsw i64 %12, 1
  %17 = icmp eq i64 %16, 32
  br i1 %17, label %5, label %11, !llvm.loop !18

18:                                               ; preds = %19
  call void @llvm.lifetime.end.p0(i64 32, ptr nonnull %4) #5
  ret i64 %26

19:                                               ; preds = %5, %19
  %20 = phi i64 [ 0, %5 ], [ %27, %19 ]
  %21 = phi i64 [ 0, %5 ], [ %26, %19 ]
  %22 = mul nsw i64 %21, 3
  %23 = getelementptr inbounds [32 x i8], ptr %4, i64 0, i64 %20
  %24 = load i8, ptr %23, align 1, !tbaa !8
  %25 = zext i8 %24 to i64
  %26 = add nsw i64 %22, %25
  %27 = add nuw nsw i64 %20, 1
  %28 = icmp eq i64 %27, 32
  br i1 %28, label %18, label %19, !llvm.loop !19
}

; Function Attrs: mustprogress nocallback nofree nounwind willreturn memory(argmem: readwrite)
declare void @llvm.memmove.p0.p0.i64(ptr nocapture writeonly, ptr nocapture readonly, i64, i1 immarg) #3

; Function Attrs: nofree norecurse nosync nounwind memory(none)
define dso_local i64 @cleared(i32 noundef signext %0) local_unnamed_addr #2 {
  %2 = alloca [8 x i64], align 8
  call void @llvm.lifetime.start.p0(i64 64, ptr nonnull %2) #5
  br label %5

3:                                                ; preds = %5
  %4 = sext i32 %0 to i64
  call void @llvm.memset.p0.i64(ptr nonnull align 8 %2, i8 90, i64 %4, i1 false)
  br label %12

5:                                                ; preds = %1, %5
  %6 = phi i64 [ 0, %1 ], [ %9, %5 ]
  %7 = xor i64 %6, -1
  %8 = getelementptr inbounds [8 x i64], ptr %2, i64 0, i64 %6
  store i64 %7, ptr %8, align 8, !tbaa !20
  %9 = add nuw nsw i64 %6, 1
  %10 = icmp eq i64 %9, 8
  br i1 %10, label %3, label %5, !llvm.loop !22

11:                                               ; preds = %12
  call void @llvm.lifetime.end.p0(i64 64, ptr nonnull %2) #5
  ret i64 %18

12:                                               ; preds = %3, %12
  %13 = phi i64 [ 0, %3 ], [ %19, %12 ]
  %14 = phi i64 [ 0, %3 ], [ %18, %12 ]
  %15 = getelementptr inbounds [8 x i64], ptr %2, i64 0, i64 %13
  %16 = load i64, ptr %15, align 8, !tbaa !20
  %17 = shl i64 %16, %13
  %18 = xor i64 %17, %14
  %19 = add nuw nsw i64 %13, 1
  %20 = icmp eq i64 %19, 8
  br i1 %20, label %11, label %12, !llvm.loop !23
}

; Function Attrs: mustprogress nocallback nofree nounwind willreturn memory(argmem: write)
declare void @llvm.memset.p0.i64(ptr nocapture writeonly, i8, i64, i1 immarg) #4

attributes #0 = { nofree norecurse nosync nounwind memory(readwrite, argmem: none, inaccessiblemem: none) "no-builtins" "no-trapping-math"="true" "stack-protector-buffer-size"="8" "target-cpu"="generic-rv64" "target-features"="+64bit,+m,+relax,+zmmul,-a,-b,-c,-d,-e,-experimental-smmpm,-experimental-smnpm,-experimental-ssnpm,-experimental-sspm,-experimental-ssqosid,-experimental-supm,-experimental-zacas,-experimental-zalasr,-experimental-zicfilp,-experimental-zicfiss,-f,-h,-shcounterenw,-shgatpa,-shtvala,-shvsatpa,-shvstvala,-shvstvecd,-smaia,-smcdeleg,-smcsrind,-smepmp,-smstateen,-ssaia,-ssccfg,-ssccptr,-sscofpmf,-sscounterenw,-sscsrind,-ssstateen,-ssstrict,-sstc,-sstvala,-sstvecd,-ssu64xl,-svade,-svadu,-svbare,-svinval,-svnapot,-svpbmt,-v,-xcvalu,-xcvbi,-xcvbitmanip,-xcvelw,-xcvmac,-xcvmem,-xcvsimd,-xsfcease,-xsfvcp,-xsfvfnrclipxfqf,-xsfvfwmaccqqq,-xsfvqmaccdod,-xsfvqmaccqoq,-xsifivecdiscarddlone,-xsifivecflushdlone,-xtheadba,-xtheadbb,-xtheadbs,-xtheadcmo,-xtheadcondmov,-xtheadfmemidx,-xtheadmac,-xtheadmemidx,-xtheadmempair,-xtheadsync,-xtheadvdot,-xventanacondops,-xwchc,-za128rs,-za64rs,-zaamo,-zabha,-zalrsc,-zama16b,-zawrs,-zba,-zbb,-zbc,-zbkb,-zbkc,-zbkx,-zbs,-zca,-zcb,-zcd,-zce,-zcf,-zcmop,-zcmp,-zcmt,-zdinx,-zfa,-zfbfmin,-zfh,-zfhmin,-zfinx,-zhinx,-zhinxmin,-zic64b,-zicbom,-zicbop,-zicboz,-ziccamoa,-ziccif,-zicclsm,-ziccrse,-zicntr,-zicond,-zicsr,-zifencei,-zihintntl,-zihintpause,-zihpm,-zimop,-zk,-zkn,-zknd,-zkne,-zknh,-zkr,-zks,-zksed,-zksh,-zkt,-ztso,-zvbb,-zvbc,-zve32f,-zve32x,-zve64d,-zve64f,-zve64x,-zvfbfmin,-zvfbfwma,-zvfh,-zvfhmin,-zvkb,-zvkg,-zvkn,-zvknc,-zvkned,-zvkng,-zvknha,-zvknhb,-zvks,-zvksc,-zvksed,-zvksg,-zvksh,-zvkt,-zvl1024b,-zvl128b,-zvl16384b,-zvl2048b,-zvl256b,-zvl32768b,-zvl32b,-zvl4096b,-zvl512b,-zvl64b,-zvl65536b,-zvl8192b" }
attributes #1 = { mustprogress nocallback nofree nosync nounwind willreturn memory(argmem: readwrite) }
attributes #2 = { nofree norecurse nosync nounwind memory(none) "no-builtins" "no-trapping-math"="true" "stack-protector-buffer-size"="8" "target-cpu"="generic-rv64" "target-features"="+64bit,+m,+relax,+zmmul,-a,-b,-c,-d,-e,-experimental-smmpm,-experimental-smnpm,-experimental-ssnpm,-experimental-sspm,-experimental-ssqosid,-experimental-supm,-experimental-zacas,-experimental-zalasr,-experimental-zicfilp,-experimental-zicfiss,-f,-h,-shcounterenw,-shgatpa,-shtvala,-shvsatpa,-shvstvala,-shvstvecd,-smaia,-smcdeleg,-smcsrind,-smepmp,-smstateen,-ssaia,-ssccfg,-ssccptr,-sscofpmf,-sscounterenw,-sscsrind,-ssstateen,-ssstrict,-sstc,-sstvala,-sstvecd,-ssu64xl,-svade,-svadu,-svbare,-svinval,-svnapot,-svpbmt,-v,-xcvalu,-xcvbi,-xcvbitmanip,-xcvelw,-xcvmac,-xcvmem,-xcvsimd,-xsfcease,-xsfvcp,-xsfvfnrclipxfqf,-xsfvfwmaccqqq,-xsfvqmaccdod,-xsfvqmaccqoq,-xsifivecdiscarddlone,-xsifivecflushdlone,-xtheadba,-xtheadbb,-xtheadbs,-xtheadcmo,-xtheadcondmov,-xtheadfmemidx,-xtheadmac,-xtheadmemidx,-xtheadmempair,-xtheadsync,-xtheadvdot,-xventanacondops,-xwchc,-za128rs,-za64rs,-zaamo,-zabha,-zalrsc,-zama16b,-zawrs,-zba,-zbb,-zbc,-zbkb,-zbkc,-zbkx,-zbs,-zca,-zcb,-zcd,-zce,-zcf,-zcmop,-zcmp,-zcmt,-zdinx,-zfa,-zfbfmin,-zfh,-zfhmin,-zfinx,-zhinx,-zhinxmin,-zic64b,-zicbom,-zicbop,-zicboz,-ziccamoa,-ziccif,-zicclsm,-ziccrse,-zicntr,-zicond,-zicsr,-zifencei,-zihintntl,-zihintpause,-zihpm,-zimop,-zk,-zkn,-zknd,-zkne,-zknh,-zkr,-zks,-zksed,-zksh,-zkt,-ztso,-zvbb,-zvbc,-zve32f,-zve32x,-zve64d,-zve64f,-zve64x,-zvfbfmin,-zvfbfwma,-zvfh,-zvfhmin,-zvkb,-zvkg,-zvkn,-zvknc,-zvkned,-zvkng,-zvknha,-zvknhb,-zvks,-zvksc,-zvksed,-zvksg,-zvksh,-zvkt,-zvl1024b,-zvl128b,-zvl16384b,-zvl2048b,-zvl256b,-zvl32768b,-zvl32b,-zvl4096b,-zvl512b,-zvl64b,-zvl65536b,-zvl8192b" }
attributes #3 = { mustprogress nocallback nofree nounwind willreturn memory(argmem: readwrite) }
attributes #4 = { mustprogress nocallback nofree nounwind willreturn memory(argmem: write) }
attributes #5 = { nounwind }

!llvm.module.flags = !{!0, !1, !2, !4, !5, !6}
!llvm.ident = !{!7}

!0 = !{i32 1, !"wchar_size", i32 4}
!1 = !{i32 1, !"target-abi", !"lp64"}
!2 = !{i32 6, !"riscv-isa", !3}
!3 = !{!"rv64i2p1_m2p0_zmmul1p0"}
!4 = !{i32 8, !"PIC Level", i32 2}
!5 = !{i32 7, !"PIE Level", i32 2}
!6 = !{i32 8, !"SmallDataLimit", i32 8}
!7 = !{!"Debian clang version 19.1.7 (3~deb12u1)"}
!8 = !{!9, !9, i64 0}
!9 = !{!"omnipotent char", !10, i64 0}
!10 = !{!"Simple C/C++ TBAA"}
!11 = distinct !{!11, !12, !13}
!12 = !{!"llvm.loop.mustprogress"}
!13 = !{!"llvm.loop.unroll.disable"}
!14 = distinct !{!14, !12, !13}
!15 = distinct !{!15, !12, !13}
!16 = distinct !{!16, !12, !13}
!17 = distinct !{!17, !12, !13}
!18 = distinct !{!18, !12, !13}
!19 = distinct !{!19, !12, !13}
!20 = !{!21, !21, i64 0}
!21 = !{!"long", !9, i64 0}
!22 = distinct !{!22, !12, !13}
!23 = distinct !{!23, !12, !13}
