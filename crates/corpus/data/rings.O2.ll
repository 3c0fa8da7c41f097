; ModuleID = 'rings.c'
source_filename = "rings.c"
target datalayout = "e-m:e-p:64:64-i64:64-i128:128-n32:64-S128"
target triple = "riscv64-unknown-linux-gnu"

%struct.ring = type { [8 x i32], i32, i32 }
%struct.event = type { i32, i16 }

@ring = internal unnamed_addr global %struct.ring zeroinitializer, align 4
@heap = internal unnamed_addr global [32 x %struct.event] zeroinitializer, align 8

; Function Attrs: nofree norecurse nosync nounwind memory(readwrite, argmem: none, inaccessiblemem: none)
define dso_local i64 @passed(i32 noundef signext %0, i32 noundef signext %1) local_unnamed_addr #0 {
  store i32 -2, ptr getelementptr inbounds (i8, ptr @ring, i64 36), align 4, !tbaa !8
  store i32 -2, ptr getelementptr inbounds (i8, ptr @ring, i64 32), align 4, !tbaa !13
  %3 = icmp sgt i32 %0, 0
  br i1 %3, label %7, label %56

4:                                                ; preds = %38
  %5 = sext i32 %24 to i64
  %6 = icmp eq i32 %23, %39
  br i1 %6, label %56, label %43

7:                                                ; preds = %2, %38
  %8 = phi i32 [ %41, %38 ], [ 0, %2 ]
  %9 = phi i32 [ %24, %38 ], [ 0, %2 ]
  %10 = phi i64 [ %40, %38 ], [ 0, %2 ]
  %11 = phi i32 [ %23, %38 ], [ -2, %2 ]
  %12 = phi i32 [ %39, %38 ], [ -2, %2 ]
  %13 = sub i32 %11, %12
  %14 = icmp eq i32 %13, 8
  br i1 %14, label %20, label %15

15:                                               ; preds = %7
  %16 = add i32 %11, 1
  store i32 %16, ptr getelementptr inbounds (i8, ptr @ring, i64 36), align 4, !tbaa !8
  %17 = and i32 %11, 7
  %18 = zext nneg i32 %17 to i64
  %19 = getelementptr inbounds [8 x i32], ptr @ring, i64 0, i64 %18
  store i32 %8, ptr %19, align 4, !tbaa !14
  br label %22

20:                                               ; preds = %7
  %21 = add nsw i32 %9, 1
  br label %22

22:                                               ; preds = %15, %20
  %23 = phi i32 [ %11, %20 ], [ %16, %15 ]
  %24 = phi i32 [ %21, %20 ], [ %9, %15 ]
  %25 = srem i32 %8, %1
  %26 = icmp ne i32 %25, 0
  %27 = icmp eq i32 %23, %12
  %28 = or i1 %26, %27
  br i1 %28, label %38, label %29

29:                                               ; preds = %22
  %30 = add i32 %12, 1
  store i32 %30, ptr getelementptr inbounds (i8, ptr @ring, i64 32), align 4, !tbaa !13
  %31 = and i32 %12, 7
  %32 = zext nneg i32 %31 to i64
  %33 = getelementptr inbounds [8 x i32], ptr @ring, i64 0, i64 %32
  %34 = load i32, ptr %33, align 4, !tbaa !14
  %35 = mul nsw i64 %10, 3
  %36 = sext i32 %34 to i64
  %37 = add nsw i64 %35, %36
  br label %38

38:                                               ; preds = %22, %29
  %39 = phi i32 [ %30, %29 ], [ %12, %22 ]
  %40 = phi i64 [ %37, %29 ], [ %10, %22 ]
  %41 = add nuw nsw i32 %8, 1
  %42 = icmp eq i32 %41, %0
  br i1 %42, label %4, label %7, !llvm.loop !15

43:                                               ; preds = %4, %43
  %44 = phi i64 [ %53, %43 ], [ %40, %4 ]
  %45 = phi i32 [ %46, %43 ], [ %39, %4 ]
  %46 = add i32 %45, 1
  %47 = and i32 %45, 7
  %48 = zext nneg i32 %47 to i64
  %49 = getelementptr inbounds [8 x i32], ptr @ring, i64 0, i64 %48
  %50 = load i32, ptr %49, align 4, !tbaa !14
  %51 = mul nsw i64 %44, 3
  %52 = sext i32 %50 to i64
  %53 = add nsw i64 %51, %52
  %54 = icmp eq i32 %23, %46
  br i1 %54, label %55, label %43, !llvm.loop !18

55:                                               ; preds = %43
  store i32 %23, ptr getelementptr inbounds (i8, ptr @ring, i64 32), align 4, !tbaa !13
  br label %56

56:                                               ; preds = %2, %55, %4
  %57 = phi i64 [ %5, %55 ], [ %5, %4 ], [ 0, %2 ]
  %58 = phi i64 [ %53, %55 ], [ %40, %4 ], [ 0, %2 ]
  %59 = mul nsw i64 %58, 100
  %60 = add nsw i64 %59, %57
  ret i64 %60
}

; Function Attrs: nofree norecurse nosync nounwind memory(readwrite, argmem: none, inaccessiblemem: none)
define dso_local i64 @happened(i32 noundef signext %0) local_unnamed_addr #0 {
  store i32 3, ptr @heap, align 8, !tbaa !19
  store i16 1, ptr getelementptr inbounds (i8, ptr @heap, i64 4), align 4, !tbaa !22
  %2 = load i64, ptr @heap, align 8
  store i64 %2, ptr getelementptr inbounds (i8, ptr @heap, i64 8), align 8
  store i32 1, ptr @heap, align 8, !tbaa !19
  store i16 2, ptr getelementptr inbounds (i8, ptr @heap, i64 4), align 4, !tbaa !22
  store i32 2, ptr getelementptr inbounds (i8, ptr @heap, i64 16), align 8, !tbaa !19
  store i16 3, ptr getelementptr inbounds (i8, ptr @heap, i64 20), align 4, !tbaa !22
  %3 = icmp sgt i32 %0, 0
  br i1 %3, label %4, label %107

4:                                                ; preds = %1, %102
  %5 = phi i32 [ %8, %102 ], [ %0, %1 ]
  %6 = phi i64 [ %55, %102 ], [ 0, %1 ]
  %7 = phi i32 [ %103, %102 ], [ 3, %1 ]
  %8 = add nsw i32 %5, -1
  %9 = load i64, ptr @heap, align 8
  %10 = add nsw i32 %7, -1
  %11 = sext i32 %10 to i64
  %12 = getelementptr inbounds [32 x %struct.event], ptr @heap, i64 0, i64 %11
  %13 = load i32, ptr %12, align 8, !tbaa !14
  %14 = getelementptr inbounds i8, ptr %12, i64 4
  %15 = load i32, ptr %14, align 4
  %16 = icmp sgt i32 %7, 2
  %17 = trunc i64 %9 to i32
  %18 = lshr i64 %9, 32
  %19 = trunc i64 %18 to i16
  br i1 %16, label %20, label %48

20:                                               ; preds = %4, %42
  %21 = phi i32 [ %46, %42 ], [ 1, %4 ]
  %22 = phi i32 [ %45, %42 ], [ 0, %4 ]
  %23 = phi i32 [ %36, %42 ], [ 0, %4 ]
  %24 = add nsw i32 %22, 2
  %25 = icmp slt i32 %24, %10
  br i1 %25, label %26, label %35

26:                                               ; preds = %20
  %27 = sext i32 %24 to i64
  %28 = getelementptr inbounds [32 x %struct.event], ptr @heap, i64 0, i64 %27
  %29 = load i32, ptr %28, align 8, !tbaa !19
  %30 = sext i32 %21 to i64
  %31 = getelementptr inbounds [32 x %struct.event], ptr @heap, i64 0, i64 %30
  %32 = load i32, ptr %31, align 8, !tbaa !19
  %33 = icmp slt i32 %29, %32
  %34 = select i1 %33, i32 %24, i32 %21
  br label %35

35:                                               ; preds = %26, %20
  %36 = phi i32 [ %21, %20 ], [ %34, %26 ]
  %37 = sext i32 %36 to i64
  %38 = getelementptr inbounds [32 x %struct.event], ptr @heap, i64 0, i64 %37
  %39 = load i32, ptr %38, align 8, !tbaa !19
  %40 = icmp slt i32 %39, %13
  %41 = sext i32 %23 to i64
  br i1 %40, label %42, label %48

42:                                               ; preds = %35
  %43 = getelementptr inbounds [32 x %struct.event], ptr @heap, i64 0, i64 %41
  %44 = load i64, ptr %38, align 8
  store i64 %44, ptr %43, align 8
  %45 = shl nsw i32 %36, 1
  %46 = or disjoint i32 %45, 1
  %47 = icmp slt i32 %46, %10
  br i1 %47, label %20, label %48

48:                                               ; preds = %42, %35, %4
  %49 = phi i64 [ 0, %4 ], [ %37, %42 ], [ %41, %35 ]
  %50 = getelementptr inbounds [32 x %struct.event], ptr @heap, i64 0, i64 %49
  store i32 %13, ptr %50, align 8, !tbaa !14
  %51 = getelementptr inbounds i8, ptr %50, i64 4
  store i32 %15, ptr %51, align 4
  %52 = mul nsw i64 %6, 5
  %53 = shl i64 %18, 48
  %54 = ashr exact i64 %53, 48
  %55 = add nsw i64 %52, %54
  %56 = sext i16 %19 to i32
  %57 = shl nsw i32 %56, 1
  %58 = add nsw i32 %57, %17
  %59 = icmp sgt i32 %7, 1
  br i1 %59, label %60, label %76

60:                                               ; preds = %48, %68
  %61 = phi i32 [ %63, %68 ], [ %10, %48 ]
  %62 = add nsw i32 %61, -1
  %63 = lshr i32 %62, 1
  %64 = zext nneg i32 %63 to i64
  %65 = getelementptr inbounds [32 x %struct.event], ptr @heap, i64 0, i64 %64
  %66 = load i32, ptr %65, align 8, !tbaa !19
  %67 = icmp sgt i32 %66, %58
  br i1 %67, label %68, label %73

68:                                               ; preds = %60
  %69 = zext nneg i32 %61 to i64
  %70 = getelementptr inbounds [32 x %struct.event], ptr @heap, i64 0, i64 %69
  %71 = load i64, ptr %65, align 8
  store i64 %71, ptr %70, align 8
  %72 = icmp ult i32 %62, 2
  br i1 %72, label %73, label %60, !llvm.loop !23

73:                                               ; preds = %68, %60
  %74 = phi i32 [ %63, %68 ], [ %61, %60 ]
  %75 = zext nneg i32 %74 to i64
  br label %76

76:                                               ; preds = %73, %48
  %77 = phi i64 [ %75, %73 ], [ %11, %48 ]
  %78 = getelementptr inbounds [32 x %struct.event], ptr @heap, i64 0, i64 %77
  store i32 %58, ptr %78, align 8, !tbaa !19
  %79 = getelementptr inbounds i8, ptr %78, i64 4
  store i16 %19, ptr %79, align 4, !tbaa !22
  %80 = icmp eq i32 %17, 7
  br i1 %80, label %81, label %102

81:                                               ; preds = %76
  %82 = add nsw i32 %7, 1
  %83 = icmp sgt i32 %7, 0
  br i1 %83, label %84, label %97

84:                                               ; preds = %81, %92
  %85 = phi i32 [ %87, %92 ], [ %7, %81 ]
  %86 = add nsw i32 %85, -1
  %87 = lshr i32 %86, 1
  %88 = zext nneg i32 %87 to i64
  %89 = getelementptr inbounds [32 x %struct.event], ptr @heap, i64 0, i64 %88
  %90 = load i32, ptr %89, align 8, !tbaa !19
  %91 = icmp sgt i32 %90, 8
  br i1 %91, label %92, label %97

92:                                               ; preds = %84
  %93 = zext nneg i32 %85 to i64
  %94 = getelementptr inbounds [32 x %struct.event], ptr @heap, i64 0, i64 %93
  %95 = load i64, ptr %89, align 8
  store i64 %95, ptr %94, align 8
  %96 = icmp ult i32 %86, 2
  br i1 %96, label %97, label %84, !llvm.loop !23

97:                                               ; preds = %84, %92, %81
  %98 = phi i32 [ %7, %81 ], [ %85, %84 ], [ %87, %92 ]
  %99 = sext i32 %98 to i64
  %100 = getelementptr inbounds [32 x %struct.event], ptr @heap, i64 0, i64 %99
  store i32 8, ptr %100, align 8, !tbaa !19
  %101 = getelementptr inbounds i8, ptr %100, i64 4
  store i16 4, ptr %101, align 4, !tbaa !22
  br label %102

102:                                              ; preds = %97, %76
  %103 = phi i32 [ %82, %97 ], [ %7, %76 ]
  %104 = icmp sgt i32 %5, 1
  %105 = icmp ne i32 %103, 0
  %106 = select i1 %104, i1 %105, i1 false
  br i1 %106, label %4, label %107, !llvm.loop !24

107:                                              ; preds = %102, %1
  %108 = phi i64 [ 0, %1 ], [ %55, %102 ]
  ret i64 %108
}

attributes #0 = { nofree norecurse nosync nounwind memory(readwrite, argmem: none, inaccessiblemem: none) "no-builtins" "no-trapping-math"="true" "stack-protector-buffer-size"="8" "target-cpu"="generic-rv64" "target-features"="+64bit,+m,+relax,+zmmul,-a,-b,-c,-d,-e,-experimental-smmpm,-experimental-smnpm,-experimental-ssnpm,-experimental-sspm,-experimental-ssqosid,-experimental-supm,-experimental-zacas,-experimental-zalasr,-experimental-zicfilp,-experimental-zicfiss,-f,-h,-shcounterenw,-shgatpa,-shtvala,-shvsatpa,-shvstvala,-shvstvecd,-smaia,-smcdeleg,-smcsrind,-smepmp,-smstateen,-ssaia,-ssccfg,-ssccptr,-sscofpmf,-sscounterenw,-sscsrind,-ssstateen,-ssstrict,-sstc,-sstvala,-sstvecd,-ssu64xl,-svade,-svadu,-svbare,-svinval,-svnapot,-svpbmt,-v,-xcvalu,-xcvbi,-xcvbitmanip,-xcvelw,-xcvmac,-xcvmem,-xcvsimd,-xsfcease,-xsfvcp,-xsfvfnrclipxfqf,-xsfvfwmaccqqq,-xsfvqmaccdod,-xsfvqmaccqoq,-xsifivecdiscarddlone,-xsifivecflushdlone,-xtheadba,-xtheadbb,-xtheadbs,-xtheadcmo,-xtheadcondmov,-xtheadfmemidx,-xtheadmac,-xtheadmemidx,-xtheadmempair,-xtheadsync,-xtheadvdot,-xventanacondops,-xwchc,-za128rs,-za64rs,-zaamo,-zabha,-zalrsc,-zama16b,-zawrs,-zba,-zbb,-zbc,-zbkb,-zbkc,-zbkx,-zbs,-zca,-zcb,-zcd,-zce,-zcf,-zcmop,-zcmp,-zcmt,-zdinx,-zfa,-zfbfmin,-zfh,-zfhmin,-zfinx,-zhinx,-zhinxmin,-zic64b,-zicbom,-zicbop,-zicboz,-ziccamoa,-ziccif,-zicclsm,-ziccrse,-zicntr,-zicond,-zicsr,-zifencei,-zihintntl,-zihintpause,-zihpm,-zimop,-zk,-zkn,-zknd,-zkne,-zknh,-zkr,-zks,-zksed,-zksh,-zkt,-ztso,-zvbb,-zvbc,-zve32f,-zve32x,-zve64d,-zve64f,-zve64x,-zvfbfmin,-zvfbfwma,-zvfh,-zvfhmin,-zvkb,-zvkg,-zvkn,-zvknc,-zvkned,-zvkng,-zvknha,-zvknhb,-zvks,-zvksc,-zvksed,-zvksg,-zvksh,-zvkt,-zvl1024b,-zvl128b,-zvl16384b,-zvl2048b,-zvl256b,-zvl32768b,-zvl32b,-zvl4096b,-zvl512b,-zvl64b,-zvl65536b,-zvl8192b" }

!llvm.module.flags = !{!0, !1, !2, !4, !5, !6}
!llvm.ident = !{!7}

!0 = !{i32 1, !"wchar_size", i32 4}
!1 = !{i32 1, !"target-abi", !"lp64"}
!2 = !{i32 6, !"riscv-isa", !3}
!3 = !{!"rv64i2p1_m2p0_zmmul1p0"}
!4 = !{i32 8, !"PIC Level", i32 2}
!5 = !{i32 7, !"PIE Level", i32 2}
!6 = !{i32 8, !"SmallDataLimit", i32 8}
!7 = !{!"Debian clang version 19.1.7 (3~deb12u1)"}
!8 = !{!9, !12, i64 36}
!9 = !{!"ring", !10, i64 0, !12, i64 32, !12, i64 36}
!10 = !{!"omnipotent char", !11, i64 0}
!11 = !{!"Simple C/C++ TBAA"}
!12 = !{!"int", !10, i64 0}
!13 = !{!9, !12, i64 32}
!14 = !{!12, !12, i64 0}
!15 = distinct !{!15, !16, !17}
!16 = !{!"llvm.loop.mustprogress"}
!17 = !{!"llvm.loop.unroll.disable"}
!18 = distinct !{!18, !16, !17}
!19 = !{!20, !12, i64 0}
!20 = !{!"event", !12, i64 0, !21, i64 4}
!21 = !{!"short", !10, i64 0}
!22 = !{!20, !21, i64 4}
!23 = distinct !{!23, !16, !17}
!24 = distinct !{!24, !16, !17}
