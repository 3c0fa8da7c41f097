; ModuleID = 'permutations.c'
source_filename = "permutations.c"
target datalayout = "e-m:e-p:64:64-i64:64-i128:128-n32:64-S128"
target triple = "riscv64-unknown-linux-gnu"

@order = internal unnamed_addr global [8 x i8] zeroinitializer, align 1

; Function Attrs: nofree norecurse nosync nounwind memory(readwrite, argmem: none, inaccessiblemem: none)
define dso_local signext i32 @orders(i32 noundef signext %0) local_unnamed_addr #0 {
  %2 = icmp sgt i32 %0, 0
  br i1 %2, label %3, label %60

3:                                                ; preds = %1
  %4 = zext nneg i32 %0 to i64
  br label %5

5:                                                ; preds = %5, %3
  %6 = phi i64 [ 0, %3 ], [ %9, %5 ]
  %7 = trunc i64 %6 to i8
  %8 = getelementptr inbounds [8 x i8], ptr @order, i64 0, i64 %6
  store i8 %7, ptr %8, align 1, !tbaa !8
  %9 = add nuw nsw i64 %6, 1
  %10 = icmp eq i64 %9, %4
  br i1 %10, label %11, label %5, !llvm.loop !11

11:                                               ; preds = %5
  %12 = add nsw i32 %0, -1
  %13 = icmp eq i32 %0, 1
  br i1 %13, label %60, label %14

14:                                               ; preds = %11
  %15 = add nsw i32 %0, -2
  %16 = zext nneg i32 %12 to i64
  %17 = getelementptr inbounds [8 x i8], ptr @order, i64 0, i64 %16
  %18 = zext nneg i32 %0 to i64
  %19 = add nsw i64 %18, -1
  br label %20

20:                                               ; preds = %58, %14
  %21 = phi i32 [ 1, %14 ], [ %59, %58 ]
  %22 = load i8, ptr %17, align 1, !tbaa !8
  br label %23

23:                                               ; preds = %31, %20
  %24 = phi i8 [ %22, %20 ], [ %29, %31 ]
  %25 = phi i32 [ %12, %20 ], [ %34, %31 ]
  %26 = phi i32 [ %15, %20 ], [ %32, %31 ]
  %27 = zext nneg i32 %26 to i64
  %28 = getelementptr inbounds [8 x i8], ptr @order, i64 0, i64 %27
  %29 = load i8, ptr %28, align 1, !tbaa !8
  %30 = icmp ult i8 %29, %24
  br i1 %30, label %35, label %31

31:                                               ; preds = %23
  %32 = add nsw i32 %26, -1
  %33 = icmp sgt i32 %26, 0
  %34 = add nsw i32 %25, -1
  br i1 %33, label %23, label %60, !llvm.loop !14

35:                                               ; preds = %23, %35
  %36 = phi i64 [ %40, %35 ], [ %19, %23 ]
  %37 = getelementptr inbounds [8 x i8], ptr @order, i64 0, i64 %36
  %38 = load i8, ptr %37, align 1, !tbaa !8
  %39 = icmp ugt i8 %38, %29
  %40 = add nsw i64 %36, -1
  br i1 %39, label %41, label %35, !llvm.loop !15

41:                                               ; preds = %35
  %42 = add nuw nsw i32 %26, 1
  store i8 %38, ptr %28, align 1, !tbaa !8
  store i8 %29, ptr %37, align 1, !tbaa !8
  %43 = icmp slt i32 %42, %12
  br i1 %43, label %44, label %58

44:                                               ; preds = %41
  %45 = zext i32 %25 to i64
  br label %46

46:                                               ; preds = %46, %44
  %47 = phi i64 [ %19, %44 ], [ %53, %46 ]
  %48 = phi i64 [ %45, %44 ], [ %54, %46 ]
  %49 = getelementptr inbounds [8 x i8], ptr @order, i64 0, i64 %48
  %50 = load i8, ptr %49, align 1, !tbaa !8
  %51 = getelementptr inbounds [8 x i8], ptr @order, i64 0, i64 %47
  %52 = load i8, ptr %51, align 1, !tbaa !8
  store i8 %52, ptr %49, align 1, !tbaa !8
  store i8 %50, ptr %51, align 1, !tbaa !8
  %53 = add nsw i64 %47, -1
  %54 = add nuw nsw i64 %48, 1
  %55 = shl i64 %54, 32
  %56 = ashr exact i64 %55, 32
  %57 = icmp slt i64 %56, %53
  br i1 %57, label %46, label %58, !llvm.loop !16

58:                                               ; preds = %46, %41
  %59 = add nuw nsw i32 %21, 1
  br label %20

60:                                               ; preds = %31, %1, %11
  %61 = phi i32 [ 1, %11 ], [ 1, %1 ], [ %21, %31 ]
  ret i32 %61
}

; Function Attrs: nofree norecurse nosync nounwind memory(readwrite, argmem: none, inaccessiblemem: none)
define dso_local signext i32 @order_number(i32 noundef signext %0, i32 noundef signext %1) local_unnamed_addr #0 {
  %3 = icmp sgt i32 %0, 0
  br i1 %3, label %4, label %12

4:                                                ; preds = %2
  %5 = zext nneg i32 %0 to i64
  br label %6

6:                                                ; preds = %6, %4
  %7 = phi i64 [ 0, %4 ], [ %10, %6 ]
  %8 = trunc i64 %7 to i8
  %9 = getelementptr inbounds [8 x i8], ptr @order, i64 0, i64 %7
  store i8 %8, ptr %9, align 1, !tbaa !8
  %10 = add nuw nsw i64 %7, 1
  %11 = icmp eq i64 %10, %5
  br i1 %11, label %12, label %6, !llvm.loop !11

12:                                               ; preds = %6, %2
  %13 = icmp sgt i32 %1, 0
  br i1 %13, label %14, label %63

14:                                               ; preds = %12
  %15 = add i32 %0, -1
  %16 = icmp sgt i32 %0, 1
  %17 = add nsw i32 %0, -2
  %18 = zext nneg i32 %15 to i64
  %19 = getelementptr inbounds [8 x i8], ptr @order, i64 0, i64 %18
  %20 = zext nneg i32 %0 to i64
  %21 = add nsw i64 %20, -1
  br i1 %16, label %22, label %63

22:                                               ; preds = %14, %61
  %23 = phi i32 [ %24, %61 ], [ %1, %14 ]
  %24 = add nsw i32 %23, -1
  %25 = load i8, ptr %19, align 1, !tbaa !8
  br label %26

26:                                               ; preds = %34, %22
  %27 = phi i8 [ %25, %22 ], [ %32, %34 ]
  %28 = phi i32 [ %15, %22 ], [ %37, %34 ]
  %29 = phi i32 [ %17, %22 ], [ %35, %34 ]
  %30 = zext nneg i32 %29 to i64
  %31 = getelementptr inbounds [8 x i8], ptr @order, i64 0, i64 %30
  %32 = load i8, ptr %31, align 1, !tbaa !8
  %33 = icmp ult i8 %32, %27
  br i1 %33, label %38, label %34

34:                                               ; preds = %26
  %35 = add nsw i32 %29, -1
  %36 = icmp sgt i32 %29, 0
  %37 = add nsw i32 %28, -1
  br i1 %36, label %26, label %63, !llvm.loop !14

38:                                               ; preds = %26, %38
  %39 = phi i64 [ %43, %38 ], [ %21, %26 ]
  %40 = getelementptr inbounds [8 x i8], ptr @order, i64 0, i64 %39
  %41 = load i8, ptr %40, align 1, !tbaa !8
  %42 = icmp ugt i8 %41, %32
  %43 = add nsw i64 %39, -1
  br i1 %42, label %44, label %38, !llvm.loop !15

44:                                               ; preds = %38
  %45 = add nuw nsw i32 %29, 1
  store i8 %41, ptr %31, align 1, !tbaa !8
  store i8 %32, ptr %40, align 1, !tbaa !8
  %46 = icmp slt i32 %45, %15
  br i1 %46, label %47, label %61

47:                                               ; preds = %44
  %48 = zext i32 %28 to i64
  br label %49

49:                                               ; preds = %49, %47
  %50 = phi i64 [ %21, %47 ], [ %56, %49 ]
  %51 = phi i64 [ %48, %47 ], [ %57, %49 ]
  %52 = getelementptr inbounds [8 x i8], ptr @order, i64 0, i64 %51
  %53 = load i8, ptr %52, align 1, !tbaa !8
  %54 = getelementptr inbounds [8 x i8], ptr @order, i64 0, i64 %50
  %55 = load i8, ptr %54, align 1, !tbaa !8
  store i8 %55, ptr %52, align 1, !tbaa !8
  store i8 %53, ptr %54, align 1, !tbaa !8
  %56 = add nsw i64 %50, -1
  %57 = add nuw nsw i64 %51, 1
  %58 = shl i64 %57, 32
  %59 = ashr exact i64 %58, 32
  %60 = icmp slt i64 %59, %56
  br i1 %60, label %49, label %61, !llvm.loop !16

61:                                               ; preds = %49, %44
  %62 = icmp sgt i32 %23, 1
  br i1 %62, label %22, label %63, !llvm.loop !17

63:                                               ; preds = %61, %34, %12, %14
  br i1 %3, label %64, label %76

64:                                               ; preds = %63
  %65 = zext nneg i32 %0 to i64
  br label %66

66:                                               ; preds = %66, %64
  %67 = phi i64 [ 0, %64 ], [ %74, %66 ]
  %68 = phi i32 [ 0, %64 ], [ %73, %66 ]
  %69 = shl nsw i32 %68, 3
  %70 = getelementptr inbounds [8 x i8], ptr @order, i64 0, i64 %67
  %71 = load i8, ptr %70, align 1, !tbaa !8
  %72 = zext i8 %71 to i32
  %73 = add nsw i32 %69, %72
  %74 = add nuw nsw i64 %67, 1
  %75 = icmp eq i64 %74, %65
  br i1 %75, label %76, label %66, !llvm.loop !18

76:                                               ; preds = %66, %63
  %77 = phi i32 [ 0, %63 ], [ %73, %66 ]
  ret i32 %77
}

; Function Attrs: nofree norecurse nosync nounwind memory(readwrite, argmem: none, inaccessiblemem: none)
define dso_local signext i32 @even_ones(i32 noundef signext %0) local_unnamed_addr #0 {
  %2 = icmp sgt i32 %0, 0
  br i1 %2, label %3, label %85

3:                                                ; preds = %1
  %4 = zext nneg i32 %0 to i64
  br label %5

5:                                                ; preds = %5, %3
  %6 = phi i64 [ 0, %3 ], [ %9, %5 ]
  %7 = trunc i64 %6 to i8
  %8 = getelementptr inbounds [8 x i8], ptr @order, i64 0, i64 %6
  store i8 %7, ptr %8, align 1, !tbaa !8
  %9 = add nuw nsw i64 %6, 1
  %10 = icmp eq i64 %9, %4
  br i1 %10, label %11, label %5, !llvm.loop !11

11:                                               ; preds = %5
  %12 = add nsw i32 %0, -1
  %13 = icmp eq i32 %0, 1
  %14 = add nsw i32 %0, -2
  %15 = zext nneg i32 %12 to i64
  %16 = getelementptr inbounds [8 x i8], ptr @order, i64 0, i64 %15
  %17 = add nsw i64 %4, -1
  br label %18

18:                                               ; preds = %70, %11
  %19 = phi i32 [ 0, %11 ], [ %46, %70 ]
  br label %24

20:                                               ; preds = %33, %24
  %21 = phi i32 [ %27, %24 ], [ %40, %33 ]
  %22 = add nuw nsw i64 %26, 1
  %23 = icmp eq i64 %28, %4
  br i1 %23, label %43, label %24, !llvm.loop !19

24:                                               ; preds = %20, %18
  %25 = phi i64 [ 0, %18 ], [ %28, %20 ]
  %26 = phi i64 [ 1, %18 ], [ %22, %20 ]
  %27 = phi i32 [ 0, %18 ], [ %21, %20 ]
  %28 = add nuw nsw i64 %25, 1
  %29 = icmp ult i64 %28, %4
  br i1 %29, label %30, label %20

30:                                               ; preds = %24
  %31 = getelementptr inbounds [8 x i8], ptr @order, i64 0, i64 %25
  %32 = load i8, ptr %31, align 1, !tbaa !8
  br label %33

33:                                               ; preds = %33, %30
  %34 = phi i64 [ %26, %30 ], [ %41, %33 ]
  %35 = phi i32 [ %27, %30 ], [ %40, %33 ]
  %36 = getelementptr inbounds [8 x i8], ptr @order, i64 0, i64 %34
  %37 = load i8, ptr %36, align 1, !tbaa !8
  %38 = icmp ugt i8 %32, %37
  %39 = zext i1 %38 to i32
  %40 = add nsw i32 %35, %39
  %41 = add nuw nsw i64 %34, 1
  %42 = icmp eq i64 %41, %4
  br i1 %42, label %20, label %33, !llvm.loop !20

43:                                               ; preds = %20
  %44 = and i32 %21, 1
  %45 = xor i32 %44, 1
  %46 = add nuw nsw i32 %45, %19
  br i1 %13, label %85, label %47

47:                                               ; preds = %43
  %48 = load i8, ptr %16, align 1, !tbaa !8
  br label %49

49:                                               ; preds = %57, %47
  %50 = phi i8 [ %48, %47 ], [ %55, %57 ]
  %51 = phi i32 [ %12, %47 ], [ %60, %57 ]
  %52 = phi i32 [ %14, %47 ], [ %58, %57 ]
  %53 = zext nneg i32 %52 to i64
  %54 = getelementptr inbounds [8 x i8], ptr @order, i64 0, i64 %53
  %55 = load i8, ptr %54, align 1, !tbaa !8
  %56 = icmp ult i8 %55, %50
  br i1 %56, label %61, label %57

57:                                               ; preds = %49
  %58 = add nsw i32 %52, -1
  %59 = icmp sgt i32 %52, 0
  %60 = add nsw i32 %51, -1
  br i1 %59, label %49, label %85, !llvm.loop !14

61:                                               ; preds = %49, %61
  %62 = phi i64 [ %66, %61 ], [ %17, %49 ]
  %63 = getelementptr inbounds [8 x i8], ptr @order, i64 0, i64 %62
  %64 = load i8, ptr %63, align 1, !tbaa !8
  %65 = icmp ugt i8 %64, %55
  %66 = add nsw i64 %62, -1
  br i1 %65, label %67, label %61, !llvm.loop !15

67:                                               ; preds = %61
  %68 = add nuw nsw i32 %52, 1
  store i8 %64, ptr %54, align 1, !tbaa !8
  store i8 %55, ptr %63, align 1, !tbaa !8
  %69 = icmp slt i32 %68, %12
  br i1 %69, label %71, label %70

70:                                               ; preds = %73, %67
  br label %18

71:                                               ; preds = %67
  %72 = zext i32 %51 to i64
  br label %73

73:                                               ; preds = %73, %71
  %74 = phi i64 [ %17, %71 ], [ %80, %73 ]
  %75 = phi i64 [ %72, %71 ], [ %81, %73 ]
  %76 = getelementptr inbounds [8 x i8], ptr @order, i64 0, i64 %75
  %77 = load i8, ptr %76, align 1, !tbaa !8
  %78 = getelementptr inbounds [8 x i8], ptr @order, i64 0, i64 %74
  %79 = load i8, ptr %78, align 1, !tbaa !8
  store i8 %79, ptr %76, align 1, !tbaa !8
  store i8 %77, ptr %78, align 1, !tbaa !8
  %80 = add nsw i64 %74, -1
  %81 = add nuw nsw i64 %75, 1
  %82 = shl i64 %81, 32
  %83 = ashr exact i64 %82, 32
  %84 = icmp slt i64 %83, %80
  br i1 %84, label %73, label %70, !llvm.loop !16

85:                                               ; preds = %43, %57, %1
  %86 = phi i32 [ 1, %1 ], [ %46, %57 ], [ %46, %43 ]
  ret i32 %86
}

; Function Attrs: nofree norecurse nosync nounwind memory(none)
define dso_local signext i32 @subsets(i32 noundef signext %0, i32 noundef signext %1) local_unnamed_addr #1 {
  %3 = icmp eq i32 %0, 31
  br i1 %3, label %10, label %4

4:                                                ; preds = %2
  %5 = shl nuw nsw i32 1, %0
  %6 = icmp sgt i32 %0, 0
  br label %7

7:                                                ; preds = %4, %12
  %8 = phi i32 [ 0, %4 ], [ %17, %12 ]
  %9 = phi i32 [ 0, %4 ], [ %16, %12 ]
  br i1 %6, label %19, label %12

10:                                               ; preds = %12, %2
  %11 = phi i32 [ 0, %2 ], [ %16, %12 ]
  ret i32 %11

12:                                               ; preds = %19, %7
  %13 = phi i32 [ 0, %7 ], [ %27, %19 ]
  %14 = icmp eq i32 %13, %1
  %15 = zext i1 %14 to i32
  %16 = add nuw nsw i32 %9, %15
  %17 = add nuw nsw i32 %8, 1
  %18 = icmp eq i32 %17, %5
  br i1 %18, label %10, label %7, !llvm.loop !21

19:                                               ; preds = %7, %19
  %20 = phi i32 [ %25, %19 ], [ 0, %7 ]
  %21 = phi i32 [ %27, %19 ], [ 0, %7 ]
  %22 = shl nuw i32 1, %20
  %23 = and i32 %22, %8
  %24 = icmp eq i32 %23, 0
  %25 = add nuw nsw i32 %20, 1
  %26 = select i1 %24, i32 0, i32 %25
  %27 = add nuw nsw i32 %26, %21
  %28 = icmp eq i32 %25, %0
  br i1 %28, label %12, label %19, !llvm.loop !22
}

attributes #0 = { nofree norecurse nosync nounwind memory(readwrite, argmem: none, inaccessiblemem: none) "no-builtins" "no-trapping-math"="true" "stack-protector-buffer-size"="8" "target-cpu"="generic-rv64" "target-features"="+64bit,+m,+relax,+zmmul,-a,-b,-c,-d,-e,-experimental-smmpm,-experimental-smnpm,-experimental-ssnpm,-experimental-sspm,-experimental-ssqosid,-experimental-supm,-experimental-zacas,-experimental-zalasr,-experimental-zicfilp,-experimental-zicfiss,-f,-h,-shcounterenw,-shgatpa,-shtvala,-shvsatpa,-shvstvala,-shvstvecd,-smaia,-smcdeleg,-smcsrind,-smepmp,-smstateen,-ssaia,-ssccfg,-ssccptr,-sscofpmf,-sscounterenw,-sscsrind,-ssstateen,-ssstrict,-sstc,-sstvala,-sstvecd,-ssu64xl,-svade,-svadu,-svbare,-svinval,-svnapot,-svpbmt,-v,-xcvalu,-xcvbi,-xcvbitmanip,-xcvelw,-xcvmac,-xcvmem,-xcvsimd,-xsfcease,-xsfvcp,-xsfvfnrclipxfqf,-xsfvfwmaccqqq,-xsfvqmaccdod,-xsfvqmaccqoq,-xsifivecdiscarddlone,-xsifivecflushdlone,-xtheadba,-xtheadbb,-xtheadbs,-xtheadcmo,-xtheadcondmov,-xtheadfmemidx,-xtheadmac,-xtheadmemidx,-xtheadmempair,-xtheadsync,-xtheadvdot,-xventanacondops,-xwchc,-za128rs,-za64rs,-zaamo,-zabha,-zalrsc,-zama16b,-zawrs,-zba,-zbb,-zbc,-zbkb,-zbkc,-zbkx,-zbs,-zca,-zcb,-zcd,-zce,-zcf,-zcmop,-zcmp,-zcmt,-zdinx,-zfa,-zfbfmin,-zfh,-zfhmin,-zfinx,-zhinx,-zhinxmin,-zic64b,-zicbom,-zicbop,-zicboz,-ziccamoa,-ziccif,-zicclsm,-ziccrse,-zicntr,-zicond,-zicsr,-zifencei,-zihintntl,-zihintpause,-zihpm,-zimop,-zk,-zkn,-zknd,-zkne,-zknh,-zkr,-zks,-zksed,-zksh,-zkt,-ztso,-zvbb,-zvbc,-zve32f,-zve32x,-zve64d,-zve64f,-zve64x,-zvfbfmin,-zvfbfwma,-zvfh,-zvfhmin,-zvkb,-zvkg,-zvkn,-zvknc,-zvkned,-zvkng,-zvknha,-zvknhb,-zvks,-zvksc,-zvksed,-zvksg,-zvksh,-zvkt,-zvl1024b,-zvl128b,-zvl16384b,-zvl2048b,-zvl256b,-zvl32768b,-zvl32b,-zvl4096b,-zvl512b,-zvl64b,-zvl65536b,-zvl8192b" }
attributes #1 = { nofree norecurse nosync nounwind memory(none) "no-builtins" "no-trapping-math"="true" "stack-protector-buffer-size"="8" "target-cpu"="generic-rv64" "target-features"="+64bit,+m,+relax,+zmmul,-a,-b,-c,-d,-e,-experimental-smmpm,-experimental-smnpm,-experimental-ssnpm,-experimental-sspm,-experimental-ssqosid,-experimental-supm,-experimental-zacas,-experimental-zalasr,-experimental-zicfilp,-experimental-zicfiss,-f,-h,-shcounterenw,-shgatpa,-shtvala,-shvsatpa,-shvstvala,-shvstvecd,-smaia,-smcdeleg,-smcsrind,-smepmp,-smstateen,-ssaia,-ssccfg,-ssccptr,-sscofpmf,-sscounterenw,-sscsrind,-ssstateen,-ssstrict,-sstc,-sstvala,-sstvecd,-ssu64xl,-svade,-svadu,-svbare,-svinval,-svnapot,-svpbmt,-v,-xcvalu,-xcvbi,-xcvbitmanip,-xcvelw,-xcvmac,-xcvmem,-xcvsimd,-xsfcease,-xsfvcp,-xsfvfnrclipxfqf,-xsfvfwmaccqqq,-xsfvqmaccdod,-xsfvqmaccqoq,-xsifivecdiscarddlone,-xsifivecflushdlone,-xtheadba,-xtheadbb,-xtheadbs,-xtheadcmo,-xtheadcondmov,-xtheadfmemidx,-xtheadmac,-xtheadmemidx,-xtheadmempair,-xtheadsync,-xtheadvdot,-xventanacondops,-xwchc,-za128rs,-za64rs,-zaamo,-zabha,-zalrsc,-zama16b,-zawrs,-zba,-zbb,-zbc,-zbkb,-zbkc,-zbkx,-zbs,-zca,-zcb,-zcd,-zce,-zcf,-zcmop,-zcmp,-zcmt,-zdinx,-zfa,-zfbfmin,-zfh,-zfhmin,-zfinx,-zhinx,-zhinxmin,-zic64b,-zicbom,-zicbop,-zicboz,-ziccamoa,-ziccif,-zicclsm,-ziccrse,-zicntr,-zicond,-zicsr,-zifencei,-zihintntl,-zihintpause,-zihpm,-zimop,-zk,-zkn,-zknd,-zkne,-zknh,-zkr,-zks,-zksed,-zksh,-zkt,-ztso,-zvbb,-zvbc,-zve32f,-zve32x,-zve64d,-zve64f,-zve64x,-zvfbfmin,-zvfbfwma,-zvfh,-zvfhmin,-zvkb,-zvkg,-zvkn,-zvknc,-zvkned,-zvkng,-zvknha,-zvknhb,-zvks,-zvksc,-zvksed,-zvksg,-zvksh,-zvkt,-zvl1024b,-zvl128b,-zvl16384b,-zvl2048b,-zvl256b,-zvl32768b,-zvl32b,-zvl4096b,-zvl512b,-zvl64b,-zvl65536b,-zvl8192b" }

!llvm.module.flags = !{!0, !1, !2, !4, !5, !6}
!llvm.ident = !{!7}

!0 = !{i32 1, !"wchar_size", i32 4}
!1 = !{i32 1, !"target-abi", !"lp64"}
!2 = !{i32 6, !"riscv-isa", !3}
!3 = !{!"rv64i2p1_m2p0_zmmul1p0"}
!4 = !{i32 8, !"PIC Level", i32 2}
!5 = !{i32 7, !"PIE Level", i32 2}
!6 = !{i32 8, !"SmallDataLimit", i32 8}
!7 = !{!"Debian clang version 19.1.7 (3~deb12u1)"}
!8 = !{!9, !9, i64 0}
!9 = !{!"omnipotent char", !10, i64 0}
!10 = !{!"Simple C/C++ TBAA"}
!11 = distinct !{!11, !12, !13}
!12 = !{!"llvm.loop.mustprogress"}
!13 = !{!"llvm.loop.unroll.disable"}
!14 = distinct !{!14, !12, !13}
!15 = distinct !{!15, !12, !13}
!16 = distinct !{!16, !12, !13}
!17 = distinct !{!17, !12, !13}
!18 = distinct !{!18, !12, !13}
!19 = distinct !{!19, !12, !13}
!20 = distinct !{!20, !12, !13}
!21 = distinct !{!21, !12, !13}
!22 = distinct !{!22, !12, !13}
