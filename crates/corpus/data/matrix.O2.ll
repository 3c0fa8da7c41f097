; ModuleID = 'matrix.c'
source_filename = "matrix.c"
target datalayout = "e-m:e-p:64:64-i64:64-i128:128-n32:64-S128"
target triple = "riscv64-unknown-linux-gnu"

%struct.two = type { [2 x [2 x i64]] }

@__const.fibonacci.power = private unnamed_addr constant %struct.two { [2 x [2 x i64]] [[2 x i64] [i64 1, i64 1], [2 x i64] [i64 1, i64 0]] }, align 8
@__const.fibonacci.result = private unnamed_addr constant %struct.two { [2 x [2 x i64]] [[2 x i64] [i64 1, i64 0], [2 x i64] [i64 0, i64 1]] }, align 8
@product = internal unnamed_addr global [4 x [4 x i32]] zeroinitializer, align 4
@left = internal unnamed_addr constant [4 x [4 x i32]] [[4 x i32] [i32 1, i32 2, i32 3, i32 4], [4 x i32] [i32 5, i32 6, i32 7, i32 8], [4 x i32] [i32 -1, i32 0, i32 2, i32 -3], [4 x i32] [i32 9, i32 -9, i32 1, i32 1]], align 4
@right = internal unnamed_addr constant [4 x [4 x i32]] [[4 x i32] [i32 2, i32 0, i32 1, i32 -1], [4 x i32] [i32 1, i32 1, i32 1, i32 1], [4 x i32] [i32 0, i32 3, i32 0, i32 7], [4 x i32] [i32 -4, i32 2, i32 5, i32 6]], align 4

; Function Attrs: nofree norecurse nosync nounwind memory(none)
define dso_local i64 @fibonacci(i32 noundef signext %0) local_unnamed_addr #0 {
  %2 = alloca %struct.two, align 8
  %3 = alloca %struct.two, align 8
  %4 = alloca %struct.two, align 8
  call void @llvm.lifetime.start.p0(i64 32, ptr nonnull %2) #5
  call void @llvm.memcpy.p0.p0.i64(ptr noundef nonnull align 8 dereferenceable(32) %2, ptr noundef nonnull align 8 dereferenceable(32) @__const.fibonacci.power, i64 32, i1 false)
  call void @llvm.lifetime.start.p0(i64 32, ptr nonnull %3) #5
  call void @llvm.memcpy.p0.p0.i64(ptr noundef nonnull align 8 dereferenceable(32) %3, ptr noundef nonnull align 8 dereferenceable(32) @__const.fibonacci.result, i64 32, i1 false)
  call void @llvm.lifetime.start.p0(i64 32, ptr nonnull %4) #5
  %5 = icmp eq i32 %0, 0
  br i1 %5, label %56, label %6

6:                                                ; preds = %1, %50
  %7 = phi i32 [ %51, %50 ], [ %0, %1 ]
  %8 = and i32 %7, 1
  %9 = icmp eq i32 %8, 0
  br i1 %9, label %30, label %10

10:                                               ; preds = %6, %16
  %11 = phi i1 [ false, %16 ], [ true, %6 ]
  %12 = phi i64 [ 1, %16 ], [ 0, %6 ]
  br label %13

13:                                               ; preds = %17, %10
  %14 = phi i1 [ true, %10 ], [ false, %17 ]
  %15 = phi i64 [ 0, %10 ], [ 1, %17 ]
  br label %19

16:                                               ; preds = %17
  br i1 %11, label %10, label %29, !llvm.loop !8

17:                                               ; preds = %19
  %18 = getelementptr inbounds [2 x [2 x i64]], ptr %4, i64 0, i64 %12, i64 %15
  store i64 %28, ptr %18, align 8, !tbaa !11
  br i1 %14, label %13, label %16, !llvm.loop !15

19:                                               ; preds = %19, %13
  %20 = phi i1 [ true, %13 ], [ false, %19 ]
  %21 = phi i64 [ 0, %13 ], [ 1, %19 ]
  %22 = phi i64 [ 0, %13 ], [ %28, %19 ]
  %23 = getelementptr inbounds [2 x [2 x i64]], ptr %3, i64 0, i64 %12, i64 %21
  %24 = load i64, ptr %23, align 8, !tbaa !11
  %25 = getelementptr inbounds [2 x [2 x i64]], ptr %2, i64 0, i64 %21, i64 %15
  %26 = load i64, ptr %25, align 8, !tbaa !11
  %27 = mul i64 %26, %24
  %28 = add i64 %27, %22
  br i1 %20, label %19, label %17, !llvm.loop !16

29:                                               ; preds = %16
  call void @llvm.memcpy.p0.p0.i64(ptr noundef nonnull align 8 dereferenceable(32) %3, ptr noundef nonnull align 8 dereferenceable(32) %4, i64 32, i1 false), !tbaa.struct !17
  br label %30

30:                                               ; preds = %29, %6
  br label %31

31:                                               ; preds = %30, %37
  %32 = phi i1 [ false, %37 ], [ true, %30 ]
  %33 = phi i64 [ 1, %37 ], [ 0, %30 ]
  br label %34

34:                                               ; preds = %38, %31
  %35 = phi i1 [ true, %31 ], [ false, %38 ]
  %36 = phi i64 [ 0, %31 ], [ 1, %38 ]
  br label %40

37:                                               ; preds = %38
  br i1 %32, label %31, label %50, !llvm.loop !8

38:                                               ; preds = %40
  %39 = getelementptr inbounds [2 x [2 x i64]], ptr %4, i64 0, i64 %33, i64 %36
  store i64 %49, ptr %39, align 8, !tbaa !11
  br i1 %35, label %34, label %37, !llvm.loop !15

40:                                               ; preds = %40, %34
  %41 = phi i1 [ true, %34 ], [ false, %40 ]
  %42 = phi i64 [ 0, %34 ], [ 1, %40 ]
  %43 = phi i64 [ 0, %34 ], [ %49, %40 ]
  %44 = getelementptr inbounds [2 x [2 x i64]], ptr %2, i64 0, i64 %33, i64 %42
  %45 = load i64, ptr %44, align 8, !tbaa !11
  %46 = getelementptr inbounds [2 x [2 x i64]], ptr %2, i64 0, i64 %42, i64 %36
  %47 = load i64, ptr %46, align 8, !tbaa !11
  %48 = mul i64 %47, %45
  %49 = add i64 %48, %43
  br i1 %41, label %40, label %38, !llvm.loop !16

50:                                               ; preds = %37
  call void @llvm.memcpy.p0.p0.i64(ptr noundef nonnull align 8 dereferenceable(32) %2, ptr noundef nonnull align 8 dereferenceable(32) %4, i64 32, i1 false), !tbaa.struct !17
  %51 = lshr i32 %7, 1
  %52 = icmp ult i32 %7, 2
  br i1 %52, label %53, label %6, !llvm.loop !19

53:                                               ; preds = %50
  %54 = getelementptr inbounds i8, ptr %3, i64 8
  %55 = load i64, ptr %54, align 8, !tbaa !11
  br label %56

56:                                               ; preds = %53, %1
  %57 = phi i64 [ %55, %53 ], [ 0, %1 ]
  call void @llvm.lifetime.end.p0(i64 32, ptr nonnull %4) #5
  call void @llvm.lifetime.end.p0(i64 32, ptr nonnull %3) #5
  call void @llvm.lifetime.end.p0(i64 32, ptr nonnull %2) #5
  ret i64 %57
}

; Function Attrs: mustprogress nocallback nofree nosync nounwind willreturn memory(argmem: readwrite)
declare void @llvm.lifetime.start.p0(i64 immarg, ptr nocapture) #1

; Function Attrs: mustprogress nocallback nofree nounwind willreturn memory(argmem: readwrite)
declare void @llvm.memcpy.p0.p0.i64(ptr noalias nocapture writeonly, ptr noalias nocapture readonly, i64, i1 immarg) #2

; Function Attrs: mustprogress nocallback nofree nosync nounwind willreturn memory(argmem: readwrite)
declare void @llvm.lifetime.end.p0(i64 immarg, ptr nocapture) #1

; Function Attrs: nofree norecurse nosync nounwind memory(readwrite, argmem: none, inaccessiblemem: none)
define dso_local signext i32 @trace_of_product() local_unnamed_addr #3 {
  br label %1

1:                                                ; preds = %0, %3
  %2 = phi i64 [ 0, %0 ], [ %4, %3 ]
  br label %6

3:                                                ; preds = %9
  %4 = add nuw nsw i64 %2, 1
  %5 = icmp eq i64 %4, 4
  br i1 %5, label %24, label %1, !llvm.loop !20

6:                                                ; preds = %1, %9
  %7 = phi i64 [ 0, %1 ], [ %10, %9 ]
  %8 = getelementptr inbounds [4 x [4 x i32]], ptr @product, i64 0, i64 %2, i64 %7
  br label %12

9:                                                ; preds = %12
  store i32 %20, ptr %8, align 4, !tbaa !21
  %10 = add nuw nsw i64 %7, 1
  %11 = icmp eq i64 %10, 4
  br i1 %11, label %3, label %6, !llvm.loop !23

12:                                               ; preds = %6, %12
  %13 = phi i64 [ 0, %6 ], [ %21, %12 ]
  %14 = phi i32 [ 0, %6 ], [ %20, %12 ]
  %15 = getelementptr inbounds [4 x [4 x i32]], ptr @left, i64 0, i64 %2, i64 %13
  %16 = load i32, ptr %15, align 4, !tbaa !21
  %17 = getelementptr inbounds [4 x [4 x i32]], ptr @right, i64 0, i64 %13, i64 %7
  %18 = load i32, ptr %17, align 4, !tbaa !21
  %19 = mul nsw i32 %18, %16
  %20 = add nsw i32 %14, %19
  %21 = add nuw nsw i64 %13, 1
  %22 = icmp eq i64 %21, 4
  br i1 %22, label %9, label %12, !llvm.loop !24

23:                                               ; preds = %24
  ret i32 %29

24:                                               ; preds = %3, %24
  %25 = phi i64 [ %30, %24 ], [ 0, %3 ]
  %26 = phi i32 [ %29, %24 ], [ 0, %3 ]
  %27 = getelementptr inbounds [4 x [4 x i32]], ptr @product, i64 0, i64 %25, i64 %25
  %28 = load i32, ptr %27, align 4, !tbaa !21
  %29 = add nsw i32 %28, %26
  %30 = add nuw nsw i64 %25, 1
  %31 = icmp eq i64 %30, 4
  br i1 %31, label %23, label %24, !llvm.loop !25
}

; Function Attrs: nofree norecurse nosync nounwind memory(readwrite, argmem: none, inaccessiblemem: none)
define dso_local signext i32 @entry(i32 noundef signext %0, i32 noundef signext %1) local_unnamed_addr #3 {
  br label %3

3:                                                ; preds = %5, %2
  %4 = phi i64 [ 0, %2 ], [ %6, %5 ]
  br label %15

5:                                                ; preds = %17
  %6 = add nuw nsw i64 %4, 1
  %7 = icmp eq i64 %6, 4
  br i1 %7, label %8, label %3, !llvm.loop !20

8:                                                ; preds = %5
  %9 = and i32 %0, 3
  %10 = zext nneg i32 %9 to i64
  %11 = and i32 %1, 3
  %12 = zext nneg i32 %11 to i64
  %13 = getelementptr inbounds [4 x [4 x i32]], ptr @product, i64 0, i64 %10, i64 %12
  %14 = load i32, ptr %13, align 4, !tbaa !21
  ret i32 %14

15:                                               ; preds = %17, %3
  %16 = phi i64 [ 0, %3 ], [ %19, %17 ]
  br label %21

17:                                               ; preds = %21
  %18 = getelementptr inbounds [4 x [4 x i32]], ptr @product, i64 0, i64 %4, i64 %16
  store i32 %29, ptr %18, align 4, !tbaa !21
  %19 = add nuw nsw i64 %16, 1
  %20 = icmp eq i64 %19, 4
  br i1 %20, label %5, label %15, !llvm.loop !23

21:                                               ; preds = %21, %15
  %22 = phi i64 [ 0, %15 ], [ %30, %21 ]
  %23 = phi i32 [ 0, %15 ], [ %29, %21 ]
  %24 = getelementptr inbounds [4 x [4 x i32]], ptr @left, i64 0, i64 %4, i64 %22
  %25 = load i32, ptr %24, align 4, !tbaa !21
  %26 = getelementptr inbounds [4 x [4 x i32]], ptr @right, i64 0, i64 %22, i64 %16
  %27 = load i32, ptr %26, align 4, !tbaa !21
  %28 = mul nsw i32 %27, %25
  %29 = add nsw i32 %28, %23
  %30 = add nuw nsw i64 %22, 1
  %31 = icmp eq i64 %30, 4
  br i1 %31, label %17, label %21, !llvm.loop !24
}

; Function Attrs: mustprogress nofree norecurse nosync nounwind willreturn memory(none)
define dso_local i64 @circulant(i64 noundef %0, i64 noundef %1, i64 noundef %2) local_unnamed_addr #4 {
  %4 = mul nsw i64 %2, %1
  %5 = mul nsw i64 %0, %0
  %6 = sub nsw i64 %4, %5
  %7 = mul nsw i64 %6, %0
  %8 = mul nsw i64 %1, %1
  %9 = mul nsw i64 %2, %0
  %10 = sub i64 %9, %8
  %11 = mul i64 %10, %1
  %12 = add i64 %11, %7
  %13 = mul nsw i64 %1, %0
  %14 = mul nsw i64 %2, %2
  %15 = sub nsw i64 %13, %14
  %16 = mul nsw i64 %15, %2
  %17 = add nsw i64 %12, %16
  ret i64 %17
}

attributes #0 = { nofree norecurse nosync nounwind memory(none) "no-builtins" "no-trapping-math"="true" "stack-protector-buffer-size"="8" "target-cpu"="generic-rv64" "target-features"="+64bit,+m,+relax,+zmmul,-a,-b,-c,-d,-e,-experimental-smmpm,-experimental-smnpm,-experimental-ssnpm,-experimental-sspm,-experimental-ssqosid,-experimental-supm,-experimental-zacas,-experimental-zalasr,-experimental-zicfilp,-experimental-zicfiss,-f,-h,-shcounterenw,-shgatpa,-shtvala,-shvsatpa,-shvstvala,-shvstvecd,-smaia,-smcdeleg,-smcsrind,-smepmp,-smstateen,-ssaia,-ssccfg,-ssccptr,-sscofpmf,-sscounterenw,-sscsrind,-ssstateen,-ssstrict,-sstc,-sstvala,-sstvecd,-ssu64xl,-svade,-svadu,-svbare,-svinval,-svnapot,-svpbmt,-v,-xcvalu,-xcvbi,-xcvbitmanip,-xcvelw,-xcvmac,-xcvmem,-xcvsimd,-xsfcease,-xsfvcp,-xsfvfnrclipxfqf,-xsfvfwmaccqqq,-xsfvqmaccdod,-xsfvqmaccqoq,-xsifivecdiscarddlone,-xsifivecflushdlone,-xtheadba,-xtheadbb,-xtheadbs,-xtheadcmo,-xtheadcondmov,-xtheadfmemidx,-xtheadmac,-xtheadmemidx,-xtheadmempair,-xtheadsync,-xtheadvdot,-xventanacondops,-xwchc,-za128rs,-za64rs,-zaamo,-zabha,-zalrsc,-zama16b,-zawrs,-zba,-zbb,-zbc,-zbkb,-zbkc,-zbkx,-zbs,-zca,-zcb,-zcd,-zce,-zcf,-zcmop,-zcmp,-zcmt,-zdinx,-zfa,-zfbfmin,-zfh,-zfhmin,-zfinx,-zhinx,-zhinxmin,-zic64b,-zicbom,-zicbop,-zicboz,-ziccamoa,-ziccif,-zicclsm,-ziccrse,-zicntr,-zicond,-zicsr,-zifencei,-zihintntl,-zihintpause,-zihpm,-zimop,-zk,-zkn,-zknd,-zkne,-zknh,-zkr,-zks,-zksed,-zksh,-zkt,-ztso,-zvbb,-zvbc,-zve32f,-zve32x,-zve64d,-zve64f,-zve64x,-zvfbfmin,-zvfbfwma,-zvfh,-zvfhmin,-zvkb,-zvkg,-zvkn,-zvknc,-zvkned,-zvkng,-zvknha,-zvknhb,-zvks,-zvksc,-zvksed,-zvksg,-zvksh,-zvkt,-zvl1024b,-zvl128b,-zvl16384b,-zvl2048b,-zvl256b,-zvl32768b,-zvl32b,-zvl4096b,-zvl512b,-zvl64b,-zvl65536b,-zvl8192b" }
attributes #1 = { mustprogress nocallback nofree nosync nounwind willreturn memory(argmem: readwrite) }
attributes #2 = { mustprogress nocallback nofree nounwind willreturn memory(argmem: readwrite) }
attributes #3 = { nofree norecurse nosync nounwind memory(readwrite, argmem: none, inaccessiblemem: none) "no-builtins" "no-trapping-math"="true" "stack-protector-buffer-size"="8" "target-cpu"="generic-rv64" "target-features"="+64bit,+m,+relax,+zmmul,-a,-b,-c,-d,-e,-experimental-smmpm,-experimental-smnpm,-experimental-ssnpm,-experimental-sspm,-experimental-ssqosid,-experimental-supm,-experimental-zacas,-experimental-zalasr,-experimental-zicfilp,-experimental-zicfiss,-f,-h,-shcounterenw,-shgatpa,-shtvala,-shvsatpa,-shvstvala,-shvstvecd,-smaia,-smcdeleg,-smcsrind,-smepmp,-smstateen,-ssaia,-ssccfg,-ssccptr,-sscofpmf,-sscounterenw,-sscsrind,-ssstateen,-ssstrict,-sstc,-sstvala,-sstvecd,-ssu64xl,-svade,-svadu,-svbare,-svinval,-svnapot,-svpbmt,-v,-xcvalu,-xcvbi,-xcvbitmanip,-xcvelw,-xcvmac,-xcvmem,-xcvsimd,-xsfcease,-xsfvcp,-xsfvfnrclipxfqf,-xsfvfwmaccqqq,-xsfvqmaccdod,-xsfvqmaccqoq,-xsifivecdiscarddlone,-xsifivecflushdlone,-xtheadba,-xtheadbb,-xtheadbs,-xtheadcmo,-xtheadcondmov,-xtheadfmemidx,-xtheadmac,-xtheadmemidx,-xtheadmempair,-xtheadsync,-xtheadvdot,-xventanacondops,-xwchc,-za128rs,-za64rs,-zaamo,-zabha,-zalrsc,-zama16b,-zawrs,-zba,-zbb,-zbc,-zbkb,-zbkc,-zbkx,-zbs,-zca,-zcb,-zcd,-zce,-zcf,-zcmop,-zcmp,-zcmt,-zdinx,-zfa,-zfbfmin,-zfh,-zfhmin,-zfinx,-zhinx,-zhinxmin,-zic64b,-zicbom,-zicbop,-zicboz,-ziccamoa,-ziccif,-zicclsm,-ziccrse,-zicntr,-zicond,-zicsr,-zifencei,-zihintntl,-zihintpause,-zihpm,-zimop,-zk,-zkn,-zknd,-zkne,-zknh,-zkr,-zks,-zksed,-zksh,-zkt,-ztso,-zvbb,-zvbc,-zve32f,-zve32x,-zve64d,-zve64f,-zve64x,-zvfbfmin,-zvfbfwma,-zvfh,-zvfhmin,-zvkb,-zvkg,-zvkn,-zvknc,-zvkned,-zvkng,-zvknha,-zvknhb,-zvks,-zvksc,-zvksed,-zvksg,-zvksh,-zvkt,-zvl1024b,-zvl128b,-zvl16384b,-zvl2048b,-zvl256b,-zvl32768b,-zvl32b,-zvl4096b,-zvl512b,-zvl64b,-zvl65536b,-zvl8192b" }
attributes #4 = { mustprogress nofree norecurse nosync nounwind willreturn memory(none) "no-builtins" "no-trapping-math"="true" "stack-protector-buffer-size"="8" "target-cpu"="generic-rv64" "target-features"="+64bit,+m,+relax,+zmmul,-a,-b,-c,-d,-e,-experimental-smmpm,-experimental-smnpm,-experimental-ssnpm,-experimental-sspm,-experimental-ssqosid,-experimental-supm,-experimental-zacas,-experimental-zalasr,-experimental-zicfilp,-experimental-zicfiss,-f,-h,-shcounterenw,-shgatpa,-shtvala,-shvsatpa,-shvstvala,-shvstvecd,-smaia,-smcdeleg,-smcsrind,-smepmp,-smstateen,-ssaia,-ssccfg,-ssccptr,-sscofpmf,-sscounterenw,-sscsrind,-ssstateen,-ssstrict,-sstc,-sstvala,-sstvecd,-ssu64xl,-svade,-svadu,-svbare,-svinval,-svnapot,-svpbmt,-v,-xcvalu,-xcvbi,-xcvbitmanip,-xcvelw,-xcvmac,-xcvmem,-xcvsimd,-xsfcease,-xsfvcp,-xsfvfnrclipxfqf,-xsfvfwmaccqqq,-xsfvqmaccdod,-xsfvqmaccqoq,-xsifivecdiscarddlone,-xsifivecflushdlone,-xtheadba,-xtheadbb,-xtheadbs,-xtheadcmo,-xtheadcondmov,-xtheadfmemidx,-xtheadmac,-xtheadmemidx,-xtheadmempair,-xtheadsync,-xtheadvdot,-xventanacondops,-xwchc,-za128rs,-za64rs,-zaamo,-zabha,-zalrsc,-zama16b,-zawrs,-zba,-zbb,-zbc,-zbkb,-zbkc,-zbkx,-zbs,-zca,-zcb,-zcd,-zce,-zcf,-zcmop,-zcmp,-zcmt,-zdinx,-zfa,-zfbfmin,-zfh,-zfhmin,-zfinx,-zhinx,-zhinxmin,-zic64b,-zicbom,-zicbop,-zicboz,-ziccamoa,-ziccif,-zicclsm,-ziccrse,-zicntr,-zicond,-zicsr,-zifencei,-zihintntl,-zihintpause,-zihpm,-zimop,-zk,-zkn,-zknd,-zkne,-zknh,-zkr,-zks,-zksed,-zksh,-zkt,-ztso,-zvbb,-zvbc,-zve32f,-zve32x,-zve64d,-zve64f,-zve64x,-zvfbfmin,-zvfbfwma,-zvfh,-zvfhmin,-zvkb,-zvkg,-zvkn,-zvknc,-zvkned,-zvkng,-zvknha,-zvknhb,-zvks,-zvksc,-zvksed,-zvksg,-zvksh,-zvkt,-zvl1024b,-zvl128b,-zvl16384b,-zvl2048b,-zvl256b,-zvl32768b,-zvl32b,-zvl4096b,-zvl512b,-zvl64b,-zvl65536b,-zvl8192b" }
attributes #5 = { nounwind }

!llvm.module.flags = !{!0, !1, !2, !4, !5, !6}
!llvm.ident = !{!7}

!0 = !{i32 1, !"wchar_size", i32 4}
!1 = !{i32 1, !"target-abi", !"lp64"}
!2 = !{i32 6, !"riscv-isa", !3}
!3 = !{!"rv64i2p1_m2p0_zmmul1p0"}
!4 = !{i32 8, !"PIC Level", i32 2}
!5 = !{i32 7, !"PIE Level", i32 2}
!6 = !{i32 8, !"SmallDataLimit", i32 8}
!7 = !{!"Debian clang version 19.1.7 (3~deb12u1)"}
!8 = distinct !{!8, !9, !10}
!9 = !{!"llvm.loop.mustprogress"}
!10 = !{!"llvm.loop.unroll.disable"}
!11 = !{!12, !12, i64 0}
!12 = !{!"long", !13, i64 0}
!13 = !{!"omnipotent char", !14, i64 0}
!14 = !{!"Simple C/C++ TBAA"}
!15 = distinct !{!15, !9, !10}
!16 = distinct !{!16, !9, !10}
!17 = !{i64 0, i64 32, !18}
!18 = !{!13, !13, i64 0}
!19 = distinct !{!19, !9, !10}
!20 = distinct !{!20, !9, !10}
!21 = !{!22, !22, i64 0}
!22 = !{!"int", !13, i64 0}
!23 = distinct !{!23, !9, !10}
!24 = distinct !{!24, !9, !10}
!25 = distinct !{!25, !9, !10}
