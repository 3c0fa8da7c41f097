; ModuleID = 'runs.c'
source_filename = "runs.c"
target datalayout = "e-m:e-p:64:64-i64:64-i128:128-n32:64-S128"
target triple = "riscv64-unknown-linux-gnu"

@from = internal unnamed_addr global [64 x i8] zeroinitializer, align 1
@to = internal unnamed_addr global [64 x i8] zeroinitializer, align 1
@packed = internal unnamed_addr global [130 x i8] zeroinitializer, align 1

; Function Attrs: nofree norecurse nosync nounwind memory(readwrite, argmem: none, inaccessiblemem: none)
define dso_local signext i32 @packed_length(i32 noundef signext %0) local_unnamed_addr #0 {
  br label %2

2:                                                ; preds = %2, %1
  %3 = phi i64 [ 0, %1 ], [ %14, %2 ]
  %4 = phi i32 [ %0, %1 ], [ %13, %2 ]
  %5 = lshr i32 %4, 28
  %6 = trunc nuw nsw i32 %5 to i8
  %7 = getelementptr inbounds [64 x i8], ptr @from, i64 0, i64 %3
  store i8 %6, ptr %7, align 1, !tbaa !8
  %8 = trunc nuw nsw i64 %3 to i32
  %9 = urem i32 %8, 3
  %10 = icmp eq i32 %9, 2
  %11 = mul i32 %4, 22695477
  %12 = add i32 %11, 1
  %13 = select i1 %10, i32 %12, i32 %4
  %14 = add nuw nsw i64 %3, 1
  %15 = icmp eq i64 %14, 64
  br i1 %15, label %16, label %2, !llvm.loop !11

16:                                               ; preds = %2, %45
  %17 = phi i64 [ %54, %45 ], [ 0, %2 ]
  %18 = phi i32 [ %47, %45 ], [ 0, %2 ]
  %19 = add nuw nsw i32 %18, 1
  %20 = icmp eq i32 %18, 63
  br i1 %20, label %45, label %21

21:                                               ; preds = %16
  %22 = zext nneg i32 %18 to i64
  %23 = getelementptr inbounds [64 x i8], ptr @from, i64 0, i64 %22
  %24 = load i8, ptr %23, align 1, !tbaa !8
  %25 = sub nsw i32 62, %18
  %26 = tail call i32 @llvm.umin.i32(i32 %25, i32 253)
  %27 = add nuw nsw i32 %26, 2
  %28 = zext nneg i32 %27 to i64
  %29 = tail call i32 @llvm.umin.i32(i32 %25, i32 253)
  %30 = add nuw nsw i32 %29, 2
  br label %31

31:                                               ; preds = %38, %21
  %32 = phi i64 [ 1, %21 ], [ %39, %38 ]
  %33 = phi i32 [ %19, %21 ], [ %41, %38 ]
  %34 = zext nneg i32 %33 to i64
  %35 = getelementptr inbounds [64 x i8], ptr @from, i64 0, i64 %34
  %36 = load i8, ptr %35, align 1, !tbaa !8
  %37 = icmp eq i8 %36, %24
  br i1 %37, label %38, label %43

38:                                               ; preds = %31
  %39 = add nuw nsw i64 %32, 1
  %40 = trunc i64 %39 to i32
  %41 = add nuw nsw i32 %18, %40
  %42 = icmp eq i64 %39, %28
  br i1 %42, label %45, label %31, !llvm.loop !14

43:                                               ; preds = %31
  %44 = trunc nuw nsw i64 %32 to i32
  br label %45

45:                                               ; preds = %38, %43, %16
  %46 = phi i32 [ 1, %16 ], [ %44, %43 ], [ %30, %38 ]
  %47 = phi i32 [ %19, %16 ], [ %33, %43 ], [ %41, %38 ]
  %48 = trunc i32 %46 to i8
  %49 = or disjoint i64 %17, 1
  %50 = getelementptr inbounds [130 x i8], ptr @packed, i64 0, i64 %17
  store i8 %48, ptr %50, align 1, !tbaa !8
  %51 = zext nneg i32 %18 to i64
  %52 = getelementptr inbounds [64 x i8], ptr @from, i64 0, i64 %51
  %53 = load i8, ptr %52, align 1, !tbaa !8
  %54 = add nuw nsw i64 %17, 2
  %55 = getelementptr inbounds [130 x i8], ptr @packed, i64 0, i64 %49
  store i8 %53, ptr %55, align 1, !tbaa !8
  %56 = icmp ult i32 %47, 64
  br i1 %56, label %16, label %57, !llvm.loop !15

57:                                               ; preds = %45
  %58 = trunc nuw i64 %54 to i32
  ret i32 %58
}

; Function Attrs: nofree norecurse nosync nounwind memory(readwrite, argmem: none, inaccessiblemem: none)
define dso_local signext i32 @comes_back(i32 noundef signext %0) local_unnamed_addr #0 {
  br label %2

2:                                                ; preds = %2, %1
  %3 = phi i64 [ 0, %1 ], [ %14, %2 ]
  %4 = phi i32 [ %0, %1 ], [ %13, %2 ]
  %5 = lshr i32 %4, 28
  %6 = trunc nuw nsw i32 %5 to i8
  %7 = getelementptr inbounds [64 x i8], ptr @from, i64 0, i64 %3
  store i8 %6, ptr %7, align 1, !tbaa !8
  %8 = trunc nuw nsw i64 %3 to i32
  %9 = urem i32 %8, 3
  %10 = icmp eq i32 %9, 2
  %11 = mul i32 %4, 22695477
  %12 = add i32 %11, 1
  %13 = select i1 %10, i32 %12, i32 %4
  %14 = add nuw nsw i64 %3, 1
  %15 = icmp eq i64 %14, 64
  br i1 %15, label %16, label %2, !llvm.loop !11

16:                                               ; preds = %2, %45
  %17 = phi i64 [ %54, %45 ], [ 0, %2 ]
  %18 = phi i32 [ %47, %45 ], [ 0, %2 ]
  %19 = add nuw nsw i32 %18, 1
  %20 = icmp eq i32 %18, 63
  br i1 %20, label %45, label %21

21:                                               ; preds = %16
  %22 = zext nneg i32 %18 to i64
  %23 = getelementptr inbounds [64 x i8], ptr @from, i64 0, i64 %22
  %24 = load i8, ptr %23, align 1, !tbaa !8
  %25 = sub nsw i32 62, %18
  %26 = tail call i32 @llvm.umin.i32(i32 %25, i32 253)
  %27 = add nuw nsw i32 %26, 2
  %28 = zext nneg i32 %27 to i64
  %29 = tail call i32 @llvm.umin.i32(i32 %25, i32 253)
  %30 = add nuw nsw i32 %29, 2
  br label %31

31:                                               ; preds = %38, %21
  %32 = phi i64 [ 1, %21 ], [ %39, %38 ]
  %33 = phi i32 [ %19, %21 ], [ %41, %38 ]
  %34 = zext nneg i32 %33 to i64
  %35 = getelementptr inbounds [64 x i8], ptr @from, i64 0, i64 %34
  %36 = load i8, ptr %35, align 1, !tbaa !8
  %37 = icmp eq i8 %36, %24
  br i1 %37, label %38, label %43

38:                                               ; preds = %31
  %39 = add nuw nsw i64 %32, 1
  %40 = trunc i64 %39 to i32
  %41 = add nuw nsw i32 %18, %40
  %42 = icmp eq i64 %39, %28
  br i1 %42, label %45, label %31, !llvm.loop !14

43:                                               ; preds = %31
  %44 = trunc nuw nsw i64 %32 to i32
  br label %45

45:                                               ; preds = %38, %43, %16
  %46 = phi i32 [ 1, %16 ], [ %44, %43 ], [ %30, %38 ]
  %47 = phi i32 [ %19, %16 ], [ %33, %43 ], [ %41, %38 ]
  %48 = trunc i32 %46 to i8
  %49 = or disjoint i64 %17, 1
  %50 = getelementptr inbounds [130 x i8], ptr @packed, i64 0, i64 %17
  store i8 %48, ptr %50, align 1, !tbaa !8
  %51 = zext nneg i32 %18 to i64
  %52 = getelementptr inbounds [64 x i8], ptr @from, i64 0, i64 %51
  %53 = load i8, ptr %52, align 1, !tbaa !8
  %54 = add nuw nsw i64 %17, 2
  %55 = getelementptr inbounds [130 x i8], ptr @packed, i64 0, i64 %49
  store i8 %53, ptr %55, align 1, !tbaa !8
  %56 = icmp ult i32 %47, 64
  br i1 %56, label %16, label %57, !llvm.loop !15

57:                                               ; preds = %45
  %58 = trunc nuw i64 %54 to i32
  %59 = icmp sgt i32 %58, 0
  br i1 %59, label %60, label %77

60:                                               ; preds = %57
  %61 = and i64 %54, 2147483646
  br label %62

62:                                               ; preds = %62, %60
  %63 = phi i64 [ 0, %60 ], [ %75, %62 ]
  %64 = phi i32 [ 0, %60 ], [ %74, %62 ]
  %65 = zext nneg i32 %64 to i64
  %66 = getelementptr inbounds i8, ptr @to, i64 %65
  %67 = or disjoint i64 %63, 1
  %68 = getelementptr inbounds [130 x i8], ptr @packed, i64 0, i64 %67
  %69 = load i8, ptr %68, align 1, !tbaa !8
  %70 = getelementptr inbounds [130 x i8], ptr @packed, i64 0, i64 %63
  %71 = load i8, ptr %70, align 1, !tbaa !8
  %72 = zext i8 %71 to i64
  tail call void @llvm.memset.p0.i64(ptr nonnull align 1 %66, i8 %69, i64 %72, i1 false)
  %73 = zext i8 %71 to i32
  %74 = add nuw nsw i32 %64, %73
  %75 = add nuw nsw i64 %63, 2
  %76 = icmp ult i64 %75, %61
  br i1 %76, label %62, label %77, !llvm.loop !16

77:                                               ; preds = %62, %57
  %78 = phi i32 [ 0, %57 ], [ %74, %62 ]
  %79 = icmp sgt i32 %78, 0
  br i1 %79, label %80, label %92

80:                                               ; preds = %77
  %81 = zext nneg i32 %78 to i64
  br label %85

82:                                               ; preds = %85
  %83 = add nuw nsw i64 %86, 1
  %84 = icmp eq i64 %83, %81
  br i1 %84, label %92, label %85, !llvm.loop !17

85:                                               ; preds = %80, %82
  %86 = phi i64 [ 0, %80 ], [ %83, %82 ]
  %87 = getelementptr inbounds [64 x i8], ptr @from, i64 0, i64 %86
  %88 = load i8, ptr %87, align 1, !tbaa !8
  %89 = getelementptr inbounds [64 x i8], ptr @to, i64 0, i64 %86
  %90 = load i8, ptr %89, align 1, !tbaa !8
  %91 = icmp eq i8 %88, %90
  br i1 %91, label %82, label %92

92:                                               ; preds = %82, %85, %77
  %93 = phi i32 [ %78, %77 ], [ %78, %82 ], [ -1, %85 ]
  ret i32 %93
}

; Function Attrs: mustprogress nocallback nofree nosync nounwind willreturn memory(argmem: readwrite)
declare void @llvm.lifetime.start.p0(i64 immarg, ptr nocapture) #1

; Function Attrs: mustprogress nocallback nofree nosync nounwind willreturn memory(argmem: readwrite)
declare void @llvm.lifetime.end.p0(i64 immarg, ptr nocapture) #1

; Function Attrs: nofree norecurse nosync nounwind memory(none)
define dso_local i64 @moved(i32 noundef signext %0, i32 noundef signext %1, i32 noundef signext %2) local_unnamed_addr #2 {
  %4 = alloca [32 x i8], align 1
  call void @llvm.lifetime.start.p0(i64 32, ptr nonnull %4) #6
  br label %11

5:                                                ; preds = %11
  %6 = sext i32 %1 to i64
  %7 = getelementptr inbounds i8, ptr %4, i64 %6
  %8 = sext i32 %0 to i64
  %9 = getelementptr inbounds i8, ptr %4, i64 %8
  %10 = sext i32 %2 to i64
  call void @llvm.memmove.p0.p0.i64(ptr nonnull align 1 %7, ptr nonnull align 1 %9, i64 %10, i1 false)
  br label %19

11:                                               ; preds = %3, %11
  %12 = phi i64 [ 0, %3 ], [ %16, %11 ]
  %13 = mul nuw nsw i64 %12, %12
  %14 = trunc i64 %13 to i8
  %15 = getelementptr inbounds [32 x i8], ptr %4, i64 0, i64 %12
  store i8 %14, ptr %15, align 1, !tbaa !8
  %16 = add nuw nsw i64 %12, 1
  %17 = icmp eq i64 %16, 32
  br i1 %17, label %5, label %11, !llvm.loop !18

18:                                               ; preds = %19
  call void @llvm.lifetime.end.p0(i64 32, ptr nonnull %4) #6
  ret i64 %26

19:                                               ; preds = %5, %19
  %20 = phi i64 [ 0, %5 ], [ %27, %19 ]
  %21 = phi i64 [ 0, %5 ], [ %26, %19 ]
  %22 = mul nsw i64 %21, 3
  %23 = getelementptr inbounds [32 x i8], ptr %4, i64 0, i64 %20
  %24 = load i8, ptr %23, align 1, !tbaa !8
  %25 = zext i8 %24 to i64
  %26 = add nsw i64 %22, %25
  %27 = add nuw nsw i64 %20, 1
  %28 = icmp eq i64 %27, 32
  br i1 %28, label %18, label %19, !llvm.loop !19
}

; Function Attrs: mustprogress nocallback nofree nounwind willreturn memory(argmem: readwrite)
declare void @llvm.memmove.p0.p0.i64(ptr nocapture writeonly, ptr nocapture readonly, i64, i1 immarg) #3

; Function Attrs: nofree norecurse nosync nounwind memory(none)
define dso_local i64 @cleared(i32 noundef signext %0) local_unnamed_addr #2 {
  %2 = alloca [8 x i64], align 8
  call void @llvm.lifetime.start.p0(i64 64, ptr nonnull %2) #6
  br label %5

3:                                                ; preds = %5
  %4 = sext i32 %0 to i64
  call void @llvm.memset.p0.i64(ptr nonnull align 8 %2, i8 90, i64 %4, i1 false)
  br label %12

5:                                                ; preds = %1, %5
  %6 = phi i64 [ 0, %1 ], [ %9, %5 ]
  %7 = xor i64 %6, -1
  %8 = getelementptr inbounds [8 x i64], ptr %2, i64 0, i64 %6
  store i64 %7, ptr %8, align 8, !tbaa !20
  %9 = add nuw nsw i64 %6, 1
  %10 = icmp eq i64 %9, 8
  br i1 %10, label %3, label %5, !llvm.loop !22

11:                                               ; preds = %12
  call void @llvm.lifetime.end.p0(i64 64, ptr nonnull %2) #6
  ret i64 %18

12:                                               ; preds = %3, %12
  %13 = phi i64 [ 0, %3 ], [ %19, %12 ]
  %14 = phi i64 [ 0, %3 ], [ %18, %12 ]
  %15 = getelementptr inbounds [8 x i64], ptr %2, i64 0, i64 %13
  %16 = load i64, ptr %15, align 8, !tbaa !20
  %17 = shl i64 %16, %13
  %18 = xor i64 %17, %14
  %19 = add nuw nsw i64 %13, 1
  %20 = icmp eq i64 %19, 8
  br i1 %20, label %11, label %12, !llvm.loop !23
}

; Function Attrs: mustprogress nocallback nofree nounwind willreturn memory(argmem: write)
declare void @llvm.memset.p0.i64(ptr nocapture writeonly, i8, i64, i1 immarg) #4

; Function Attrs: nocallback nofree nosync nounwind speculatable willreturn memory(none)
declare i32 @llvm.umin.i32(i32, i32) #5

attributes #0 = { nofree norecurse nosync nounwind memory(readwrite, argmem: none, inaccessiblemem: none) "no-builtins" "no-trapping-math"="true" "stack-protector-buffer-size"="8" "target-cpu"="generic-rv64" "target-features"="+64bit,+m,+relax,+zmmul,-a,-b,-c,-d,-e,-experimental-smmpm,-experimental-smnpm,-experimental-ssnpm,-experimental-sspm,-experimental-ssqosid,-experimental-supm,-experimental-zacas,-experimental-zalasr,-experimental-zicfilp,-experimental-zicfiss,-f,-h,-shcounterenw,-shgatpa,-shtvala,-shvsatpa,-shvstvala,-shvstvecd,-smaia,-smcdeleg,-smcsrind,-smepmp,-smstateen,-ssaia,-ssccfg,-ssccptr,-sscofpmf,-sscounterenw,-sscsrind,-ssstateen,-ssstrict,-sstc,-sstvala,-sstvecd,-ssu64xl,-svade,-svadu,-svbare,-svinval,-svnapot,-svpbmt,-v,-xcvalu,-xcvbi,-xcvbitmanip,-xcvelw,-xcvmac,-xcvmem,-xcvsimd,-xsfcease,-xsfvcp,-xsfvfnrclipxfqf,-xsfvfwmaccqqq,-xsfvqmaccdod,-xsfvqmaccqoq,-xsifivecdiscarddlone,-xsifivecflushdlone,-xtheadba,-xtheadbb,-xtheadbs,-xtheadcmo,-xtheadcondmov,-xtheadfmemidx,-xtheadmac,-xtheadmemidx,-xtheadmempair,-xtheadsync,-xtheadvdot,-xventanacondops,-xwchc,-za128rs,-za64rs,-zaamo,-zabha,-zalrsc,-zama16b,-zawrs,-zba,-zbb,-zbc,-zbkb,-zbkc,-zbkx,-zbs,-zca,-zcb,-zcd,-zce,-zcf,-zcmop,-zcmp,-zcmt,-zdinx,-zfa,-zfbfmin,-zfh,-zfhmin,-zfinx,-zhinx,-zhinxmin,-zic64b,-zicbom,-zicbop,-zicboz,-ziccamoa,-ziccif,-zicclsm,-ziccrse,-zicntr,-zicond,-zicsr,-zifencei,-zihintntl,-zihintpause,-zihpm,-zimop,-zk,-zkn,-zknd,-zkne,-zknh,-zkr,-zks,-zksed,-zksh,-zkt,-ztso,-zvbb,-zvbc,-zve32f,-zve32x,-zve64d,-zve64f,-zve64x,-zvfbfmin,-zvfbfwma,-zvfh,-zvfhmin,-zvkb,-zvkg,-zvkn,-zvknc,-zvkned,-zvkng,-zvknha,-zvknhb,-zvks,-zvksc,-zvksed,-zvksg,-zvksh,-zvkt,-zvl1024b,-zvl128b,-zvl16384b,-zvl2048b,-zvl256b,-zvl32768b,-zvl32b,-zvl4096b,-zvl512b,-zvl64b,-zvl65536b,-zvl8192b" }
attributes #1 = { mustprogress nocallback nofree nosync nounwind willreturn memory(argmem: readwrite) }
attributes #2 = { nofree norecurse nosync nounwind memory(none) "no-builtins" "no-trapping-math"="true" "stack-protector-buffer-size"="8" "target-cpu"="generic-rv64" "target-features"="+64bit,+m,+relax,+zmmul,-a,-b,-c,-d,-e,-experimental-smmpm,-experimental-smnpm,-experimental-ssnpm,-experimental-sspm,-experimental-ssqosid,-experimental-supm,-experimental-zacas,-experimental-zalasr,-experimental-zicfilp,-experimental-zicfiss,-f,-h,-shcounterenw,-shgatpa,-shtvala,-shvsatpa,-shvstvala,-shvstvecd,-smaia,-smcdeleg,-smcsrind,-smepmp,-smstateen,-ssaia,-ssccfg,-ssccptr,-sscofpmf,-sscounterenw,-sscsrind,-ssstateen,-ssstrict,-sstc,-sstvala,-sstvecd,-ssu64xl,-svade,-svadu,-svbare,-svinval,-svnapot,-svpbmt,-v,-xcvalu,-xcvbi,-xcvbitmanip,-xcvelw,-xcvmac,-xcvmem,-xcvsimd,-xsfcease,-xsfvcp,-xsfvfnrclipxfqf,-xsfvfwmaccqqq,-xsfvqmaccdod,-xsfvqmaccqoq,-xsifivecdiscarddlone,-xsifivecflushdlone,-xtheadba,-xtheadbb,-xtheadbs,-xtheadcmo,-xtheadcondmov,-xtheadfmemidx,-xtheadmac,-xtheadmemidx,-xtheadmempair,-xtheadsync,-xtheadvdot,-xventanacondops,-xwchc,-za128rs,-za64rs,-zaamo,-zabha,-zalrsc,-zama16b,-zawrs,-zba,-zbb,-zbc,-zbkb,-zbkc,-zbkx,-zbs,-zca,-zcb,-zcd,-zce,-zcf,-zcmop,-zcmp,-zcmt,-zdinx,-zfa,-zfbfmin,-zfh,-zfhmin,-zfinx,-zhinx,-zhinxmin,-zic64b,-zicbom,-zicbop,-zicboz,-ziccamoa,-ziccif,-zicclsm,-ziccrse,-zicntr,-zicond,-zicsr,-zifencei,-zihintntl,-zihintpause,-zihpm,-zimop,-zk,-zkn,-zknd,-zkne,-zknh,-zkr,-zks,-zksed,-zksh,-zkt,-ztso,-zvbb,-zvbc,-zve32f,-zve32x,-zve64d,-zve64f,-zve64x,-zvfbfmin,-zvfbfwma,-zvfh,-zvfhmin,-zvkb,-zvkg,-zvkn,-zvknc,-zvkned,-zvkng,-zvknha,-zvknhb,-zvks,-zvksc,-zvksed,-zvksg,-zvksh,-zvkt,-zvl1024b,-zvl128b,-zvl16384b,-zvl2048b,-zvl256b,-zvl32768b,-zvl32b,-zvl4096b,-zvl512b,-zvl64b,-zvl65536b,-zvl8192b" }
attributes #3 = { mustprogress nocallback nofree nounwind willreturn memory(argmem: readwrite) }
attributes #4 = { mustprogress nocallback nofree nounwind willreturn memory(argmem: write) }
attributes #5 = { nocallback nofree nosync nounwind speculatable willreturn memory(none) }
attributes #6 = { nounwind }

!llvm.module.flags = !{!0, !1, !2, !4, !5, !6}
!llvm.ident = !{!7}

!0 = !{i32 1, !"wchar_size", i32 4}
!1 = !{i32 1, !"target-abi", !"lp64"}
!2 = !{i32 6, !"riscv-isa", !3}
!3 = !{!"rv64i2p1_m2p0_zmmul1p0"}
!4 = !{i32 8, !"PIC Level", i32 2}
!5 = !{i32 7, !"PIE Level", i32 2}
!6 = !{i32 8, !"SmallDataLimit", i32 8}
!7 = !{!"Debian clang version 19.1.7 (3~deb12u1)"}
!8 = !{!9, !9, i64 0}
!9 = !{!"omnipotent char", !10, i64 0}
!10 = !{!"Simple C/C++ TBAA"}
!11 = distinct !{!11, !12, !13}
!12 = !{!"llvm.loop.mustprogress"}
!13 = !{!"llvm.loop.unroll.disable"}
!14 = distinct !{!14, !12, !13}
!15 = distinct !{!15, !12, !13}
!16 = distinct !{!16, !12, !13}
!17 = distinct !{!17, !12, !13}
!18 = distinct !{!18, !12, !13}
!19 = distinct !{!19, !12, !13}
!20 = !{!21, !21, i64 0}
!21 = !{!"long", !9, i64 0}
!22 = distinct !{!22, !12, !13}
!23 = distinct !{!23, !12, !13}
