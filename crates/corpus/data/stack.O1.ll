; ModuleID = 'stack.c'
source_filename = "stack.c"
target datalayout = "e-m:e-p:64:64-i64:64-i128:128-n32:64-S128"
target triple = "riscv64-unknown-linux-gnu"

@programs = internal unnamed_addr constant [3 x ptr] [ptr @sums, ptr @countdown, ptr @cube], align 8
@sums = internal constant [18 x i8] c"\00\00\08\07\10\01\05\00\FF\01\05\06\02\0A\0A\0A\09\0A", align 1
@countdown = internal constant [9 x i8] c"\04\07\08\00\FF\01\06\00\0A", align 1
@cube = internal constant [5 x i8] c"\04\04\03\03\0A", align 1

; Function Attrs: nofree norecurse nosync nounwind memory(read, inaccessiblemem: none)
define dso_local i64 @ran(i32 noundef signext %0, i64 noundef %1, i32 noundef signext %2) local_unnamed_addr #0 {
  %4 = alloca [16 x i64], align 8
  %5 = icmp ugt i32 %0, 2
  br i1 %5, label %118, label %6

6:                                                ; preds = %3
  %7 = zext nneg i32 %0 to i64
  %8 = getelementptr inbounds [3 x ptr], ptr @programs, i64 0, i64 %7
  %9 = load ptr, ptr %8, align 8, !tbaa !8
  call void @llvm.lifetime.start.p0(i64 128, ptr nonnull %4) #2
  store i64 %1, ptr %4, align 8, !tbaa !12
  %10 = icmp sgt i32 %2, 0
  br i1 %10, label %11, label %116

11:                                               ; preds = %6, %112
  %12 = phi i32 [ %15, %112 ], [ %2, %6 ]
  %13 = phi i32 [ %114, %112 ], [ 0, %6 ]
  %14 = phi i32 [ %113, %112 ], [ 1, %6 ]
  %15 = add nsw i32 %12, -1
  %16 = add nsw i32 %13, 1
  %17 = sext i32 %13 to i64
  %18 = getelementptr inbounds i8, ptr %9, i64 %17
  %19 = load i8, ptr %18, align 1, !tbaa !14
  switch i8 %19, label %116 [
    i8 0, label %20
    i8 1, label %29
    i8 2, label %39
    i8 3, label %49
    i8 4, label %59
    i8 8, label %67
    i8 9, label %75
    i8 5, label %77
    i8 6, label %86
    i8 7, label %91
    i8 10, label %104
  ]

20:                                               ; preds = %11
  %21 = add nsw i32 %13, 2
  %22 = sext i32 %16 to i64
  %23 = getelementptr inbounds i8, ptr %9, i64 %22
  %24 = load i8, ptr %23, align 1, !tbaa !14
  %25 = sext i8 %24 to i64
  %26 = add nsw i32 %14, 1
  %27 = sext i32 %14 to i64
  %28 = getelementptr inbounds [16 x i64], ptr %4, i64 0, i64 %27
  store i64 %25, ptr %28, align 8, !tbaa !12
  br label %112

29:                                               ; preds = %11
  %30 = add nsw i32 %14, -1
  %31 = sext i32 %30 to i64
  %32 = getelementptr inbounds [16 x i64], ptr %4, i64 0, i64 %31
  %33 = load i64, ptr %32, align 8, !tbaa !12
  %34 = add nsw i32 %14, -2
  %35 = sext i32 %34 to i64
  %36 = getelementptr inbounds [16 x i64], ptr %4, i64 0, i64 %35
  %37 = load i64, ptr %36, align 8, !tbaa !12
  %38 = add nsw i64 %37, %33
  store i64 %38, ptr %36, align 8, !tbaa !12
  br label %112

39:                                               ; preds = %11
  %40 = add nsw i32 %14, -1
  %41 = sext i32 %40 to i64
  %42 = getelementptr inbounds [16 x i64], ptr %4, i64 0, i64 %41
  %43 = load i64, ptr %42, align 8, !tbaa !12
  %44 = add nsw i32 %14, -2
  %45 = sext i32 %44 to i64
  %46 = getelementptr inbounds [16 x i64], ptr %4, i64 0, i64 %45
  %47 = load i64, ptr %46, align 8, !tbaa !12
  %48 = sub nsw i64 %47, %43
  store i64 %48, ptr %46, align 8, !tbaa !12
  br label %112

49:                                               ; preds = %11
  %50 = add nsw i32 %14, -1
  %51 = sext i32 %50 to i64
  %52 = getelementptr inbounds [16 x i64], ptr %4, i64 0, i64 %51
  %53 = load i64, ptr %52, align 8, !tbaa !12
  %54 = add nsw i32 %14, -2
  %55 = sext i32 %54 to i64
  %56 = getelementptr inbounds [16 x i64], ptr %4, i64 0, i64 %55
  %57 = load i64, ptr %56, align 8, !tbaa !12
  %58 = mul nsw i64 %57, %53
  store i64 %58, ptr %56, align 8, !tbaa !12
  br label %112

59:                                               ; preds = %11
  %60 = add nsw i32 %14, -1
  %61 = sext i32 %60 to i64
  %62 = getelementptr inbounds [16 x i64], ptr %4, i64 0, i64 %61
  %63 = load i64, ptr %62, align 8, !tbaa !12
  %64 = sext i32 %14 to i64
  %65 = getelementptr inbounds [16 x i64], ptr %4, i64 0, i64 %64
  store i64 %63, ptr %65, align 8, !tbaa !12
  %66 = add nsw i32 %14, 1
  br label %112

67:                                               ; preds = %11
  %68 = add nsw i32 %14, -2
  %69 = sext i32 %68 to i64
  %70 = getelementptr inbounds [16 x i64], ptr %4, i64 0, i64 %69
  %71 = load i64, ptr %70, align 8, !tbaa !12
  %72 = sext i32 %14 to i64
  %73 = getelementptr inbounds [16 x i64], ptr %4, i64 0, i64 %72
  store i64 %71, ptr %73, align 8, !tbaa !12
  %74 = add nsw i32 %14, 1
  br label %112

75:                                               ; preds = %11
  %76 = add nsw i32 %14, -1
  br label %112

77:                                               ; preds = %11
  %78 = add nsw i32 %14, -1
  %79 = sext i32 %78 to i64
  %80 = getelementptr inbounds [16 x i64], ptr %4, i64 0, i64 %79
  %81 = load i64, ptr %80, align 8, !tbaa !12
  %82 = add nsw i32 %14, -2
  %83 = sext i32 %82 to i64
  %84 = getelementptr inbounds [16 x i64], ptr %4, i64 0, i64 %83
  %85 = load i64, ptr %84, align 8, !tbaa !12
  store i64 %85, ptr %80, align 8, !tbaa !12
  store i64 %81, ptr %84, align 8, !tbaa !12
  br label %112

86:                                               ; preds = %11
  %87 = sext i32 %16 to i64
  %88 = getelementptr inbounds i8, ptr %9, i64 %87
  %89 = load i8, ptr %88, align 1, !tbaa !14
  %90 = sext i8 %89 to i32
  br label %112

91:                                               ; preds = %11
  %92 = add nsw i32 %14, -1
  %93 = sext i32 %92 to i64
  %94 = getelementptr inbounds [16 x i64], ptr %4, i64 0, i64 %93
  %95 = load i64, ptr %94, align 8, !tbaa !12
  %96 = icmp eq i64 %95, 0
  br i1 %96, label %97, label %102

97:                                               ; preds = %91
  %98 = sext i32 %16 to i64
  %99 = getelementptr inbounds i8, ptr %9, i64 %98
  %100 = load i8, ptr %99, align 1, !tbaa !14
  %101 = sext i8 %100 to i32
  br label %112

102:                                              ; preds = %91
  %103 = add nsw i32 %13, 2
  br label %112

104:                                              ; preds = %11
  %105 = add nsw i32 %14, -1
  %106 = sext i32 %105 to i64
  %107 = getelementptr inbounds [16 x i64], ptr %4, i64 0, i64 %106
  %108 = load i64, ptr %107, align 8, !tbaa !12
  %109 = mul nsw i64 %108, 100
  %110 = sext i32 %14 to i64
  %111 = add nsw i64 %109, %110
  br label %116

112:                                              ; preds = %97, %102, %86, %77, %75, %67, %59, %49, %39, %29, %20
  %113 = phi i32 [ %14, %97 ], [ %14, %102 ], [ %14, %86 ], [ %14, %77 ], [ %76, %75 ], [ %74, %67 ], [ %66, %59 ], [ %50, %49 ], [ %40, %39 ], [ %30, %29 ], [ %26, %20 ]
  %114 = phi i32 [ %101, %97 ], [ %103, %102 ], [ %90, %86 ], [ %16, %77 ], [ %16, %75 ], [ %16, %67 ], [ %16, %59 ], [ %16, %49 ], [ %16, %39 ], [ %16, %29 ], [ %21, %20 ]
  %115 = icmp sgt i32 %12, 1
  br i1 %115, label %11, label %116, !llvm.loop !15

116:                                              ; preds = %11, %112, %6, %104
  %117 = phi i64 [ %111, %104 ], [ -3, %6 ], [ -3, %112 ], [ -2, %11 ]
  call void @llvm.lifetime.end.p0(i64 128, ptr nonnull %4) #2
  br label %118

118:                                              ; preds = %3, %116
  %119 = phi i64 [ %117, %116 ], [ -1, %3 ]
  ret i64 %119
}

; Function Attrs: mustprogress nocallback nofree nosync nounwind willreturn memory(argmem: readwrite)
declare void @llvm.lifetime.start.p0(i64 immarg, ptr nocapture) #1

; Function Attrs: mustprogress nocallback nofree nosync nounwind willreturn memory(argmem: readwrite)
declare void @llvm.lifetime.end.p0(i64 immarg, ptr nocapture) #1

attributes #0 = { nofree norecurse nosync nounwind memory(read, inaccessiblemem: none) "no-builtins" "no-trapping-math"="true" "stack-protector-buffer-size"="8" "target-cpu"="generic-rv64" "target-features"="+64bit,+m,+relax,+zmmul,-a,-b,-c,-d,-e,-experimental-smmpm,-experimental-smnpm,-experimental-ssnpm,-experimental-sspm,-experimental-ssqosid,-experimental-supm,-experimental-zacas,-experimental-zalasr,-experimental-zicfilp,-experimental-zicfiss,-f,-h,-shcounterenw,-shgatpa,-shtvala,-shvsatpa,-shvstvala,-shvstvecd,-smaia,-smcdeleg,-smcsrind,-smepmp,-smstateen,-ssaia,-ssccfg,-ssccptr,-sscofpmf,-sscounterenw,-sscsrind,-ssstateen,-ssstrict,-sstc,-sstvala,-sstvecd,-ssu64xl,-svade,-svadu,-svbare,-svinval,-svnapot,-svpbmt,-v,-xcvalu,-xcvbi,-xcvbitmanip,-xcvelw,-xcvmac,-xcvmem,-xcvsimd,-xsfcease,-xsfvcp,-xsfvfnrclipxfqf,-xsfvfwmaccqqq,-xsfvqmaccdod,-xsfvqmaccqoq,-xsifivecdiscarddlone,-xsifivecflushdlone,-xtheadba,-xtheadbb,-xtheadbs,-xtheadcmo,-xtheadcondmov,-xtheadfmemidx,-xtheadmac,-xtheadmemidx,-xtheadmempair,-xtheadsync,-xtheadvdot,-xventanacondops,-xwchc,-za128rs,-za64rs,-zaamo,-zabha,-zalrsc,-zama16b,-zawrs,-zba,-zbb,-zbc,-zbkb,-zbkc,-zbkx,-zbs,-zca,-zcb,-zcd,-zce,-zcf,-zcmop,-zcmp,-zcmt,-zdinx,-zfa,-zfbfmin,-zfh,-zfhmin,-zfinx,-zhinx,-zhinxmin,-zic64b,-zicbom,-zicbop,-zicboz,-ziccamoa,-ziccif,-zicclsm,-ziccrse,-zicntr,-zicond,-zicsr,-zifencei,-zihintntl,-zihintpause,-zihpm,-zimop,-zk,-zkn,-zknd,-zkne,-zknh,-zkr,-zks,-zksed,-zksh,-zkt,-ztso,-zvbb,-zvbc,-zve32f,-zve32x,-zve64d,-zve64f,-zve64x,-zvfbfmin,-zvfbfwma,-zvfh,-zvfhmin,-zvkb,-zvkg,-zvkn,-zvknc,-zvkned,-zvkng,-zvknha,-zvknhb,-zvks,-zvksc,-zvksed,-zvksg,-zvksh,-zvkt,-zvl1024b,-zvl128b,-zvl16384b,-zvl2048b,-zvl256b,-zvl32768b,-zvl32b,-zvl4096b,-zvl512b,-zvl64b,-zvl65536b,-zvl8192b" }
attributes #1 = { mustprogress nocallback nofree nosync nounwind willreturn memory(argmem: readwrite) }
attributes #2 = { nounwind }

!llvm.module.flags = !{!0, !1, !2, !4, !5, !6}
!llvm.ident = !{!7}

!0 = !{i32 1, !"wchar_size", i32 4}
!1 = !{i32 1, !"target-abi", !"lp64"}
!2 = !{i32 6, !"riscv-isa", !3}
!3 = !{!"rv64i2p1_m2p0_zmmul1p0"}
!4 = !{i32 8, !"PIC Level", i32 2}
!5 = !{i32 7, !"PIE Level", i32 2}
!6 = !{i32 8, !"SmallDataLimit", i32 8}
!7 = !{!"Debian clang version 19.1.7 (3~deb12u1)"}
!8 = !{!9, !9, i64 0}
!9 = !{!"any pointer", !10, i64 0}
!10 = !{!"omnipotent char", !11, i64 0}
!11 = !{!"Simple C/C++ TBAA"}
!12 = !{!13, !13, i64 0}
!13 = !{!"long", !10, i64 0}
!14 = !{!10, !10, i64 0}
!15 = distinct !{!15, !16, !17}
!16 = !{!"llvm.loop.mustprogress"}
!17 = !{!"llvm.loop.unroll.disable"}
