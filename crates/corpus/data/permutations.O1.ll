; ModuleID = 'permutations.c'
source_filename = "permutations.c"
target datalayout = "e-m:e-p:64:64-i64:64-i128:128-n32:64-S128"
target triple = "riscv64-unknown-linux-gnu"

@order = internal unnamed_addr global [8 x i8] zeroinitializer, align 1

; Function Attrs: nofree norecurse nosync nounwind memory(readwrite, argmem: none, inaccessiblemem: none)
define dso_local signext i32 @orders(i32 noundef signext %0) local_unnamed_addr #0 {
  %2 = icmp sgt i32 %0, 0
  br i1 %2, label %3, label %11

3:                                                ; preds = %1
  %4 = zext nneg i32 %0 to i64
  br label %5

5:                                                ; preds = %5, %3
  %6 = phi i64 [ 0, %3 ], [ %9, %5 ]
  %7 = trunc i64 %6 to i8
  %8 = getelementptr inbounds [8 x i8], ptr @order, i64 0, i64 %6
  store i8 %7, ptr %8, align 1, !tbaa !8
  %9 = add nuw nsw i64 %6, 1
  %10 = icmp eq i64 %9, %4
  br i1 %10, label %11, label %5, !llvm.loop !11

11:                                               ; preds = %5, %1
  %12 = add nsw i32 %0, -2
  %13 = add i32 %0, -1
  %14 = icmp sgt i32 %0, 1
  %15 = sext i32 %13 to i64
  br label %16

16:                                               ; preds = %62, %11
  %17 = phi i32 [ 1, %11 ], [ %63, %62 ]
  br i1 %14, label %18, label %31

18:                                               ; preds = %16, %28
  %19 = phi i32 [ %29, %28 ], [ %12, %16 ]
  %20 = zext nneg i32 %19 to i64
  %21 = getelementptr inbounds [8 x i8], ptr @order, i64 0, i64 %20
  %22 = load i8, ptr %21, align 1, !tbaa !8
  %23 = add nuw nsw i32 %19, 1
  %24 = zext nneg i32 %23 to i64
  %25 = getelementptr inbounds [8 x i8], ptr @order, i64 0, i64 %24
  %26 = load i8, ptr %25, align 1, !tbaa !8
  %27 = icmp ult i8 %22, %26
  br i1 %27, label %31, label %28

28:                                               ; preds = %18
  %29 = add nsw i32 %19, -1
  %30 = icmp sgt i32 %19, 0
  br i1 %30, label %18, label %31, !llvm.loop !14

31:                                               ; preds = %28, %18, %16
  %32 = phi i32 [ %12, %16 ], [ %19, %18 ], [ -1, %28 ]
  %33 = icmp slt i32 %32, 0
  br i1 %33, label %64, label %34

34:                                               ; preds = %31
  %35 = zext nneg i32 %32 to i64
  %36 = getelementptr inbounds [8 x i8], ptr @order, i64 0, i64 %35
  %37 = load i8, ptr %36, align 1, !tbaa !8
  br label %38

38:                                               ; preds = %38, %34
  %39 = phi i64 [ %43, %38 ], [ %15, %34 ]
  %40 = getelementptr inbounds [8 x i8], ptr @order, i64 0, i64 %39
  %41 = load i8, ptr %40, align 1, !tbaa !8
  %42 = icmp ugt i8 %41, %37
  %43 = add nsw i64 %39, -1
  br i1 %42, label %44, label %38, !llvm.loop !15

44:                                               ; preds = %38
  store i8 %41, ptr %36, align 1, !tbaa !8
  store i8 %37, ptr %40, align 1, !tbaa !8
  %45 = add nuw nsw i32 %32, 1
  %46 = icmp slt i32 %45, %13
  br i1 %46, label %47, label %61

47:                                               ; preds = %44
  %48 = add nuw nsw i64 %35, 1
  br label %49

49:                                               ; preds = %49, %47
  %50 = phi i64 [ %15, %47 ], [ %56, %49 ]
  %51 = phi i64 [ %48, %47 ], [ %57, %49 ]
  %52 = getelementptr inbounds [8 x i8], ptr @order, i64 0, i64 %51
  %53 = load i8, ptr %52, align 1, !tbaa !8
  %54 = getelementptr inbounds [8 x i8], ptr @order, i64 0, i64 %50
  %55 = load i8, ptr %54, align 1, !tbaa !8
  store i8 %55, ptr %52, align 1, !tbaa !8
  store i8 %53, ptr %54, align 1, !tbaa !8
  %56 = add nsw i64 %50, -1
  %57 = add nuw nsw i64 %51, 1
  %58 = shl i64 %57, 32
  %59 = ashr exact i64 %58, 32
  %60 = icmp slt i64 %59, %56
  br i1 %60, label %49, label %61, !llvm.loop !16

61:                                               ; preds = %49, %44
  br i1 %33, label %64, label %62

62:                                               ; preds = %61
  %63 = add nuw nsw i32 %17, 1
  br label %16, !llvm.loop !17

64:                                               ; preds = %31, %61
  ret i32 %17
}

; Function Attrs: nofree norecurse nosync nounwind memory(readwrite, argmem: none, inaccessiblemem: none)
define dso_local signext i32 @order_number(i32 noundef signext %0, i32 noundef signext %1) local_unnamed_addr #0 {
  %3 = icmp sgt i32 %0, 0
  br i1 %3, label %4, label %12

4:                                                ; preds = %2
  %5 = zext nneg i32 %0 to i64
  br label %6

6:                                                ; preds = %6, %4
  %7 = phi i64 [ 0, %4 ], [ %10, %6 ]
  %8 = trunc i64 %7 to i8
  %9 = getelementptr inbounds [8 x i8], ptr @order, i64 0, i64 %7
  store i8 %8, ptr %9, align 1, !tbaa !8
  %10 = add nuw nsw i64 %7, 1
  %11 = icmp eq i64 %10, %5
  br i1 %11, label %12, label %6, !llvm.loop !11

12:                                               ; preds = %6, %2
  %13 = add nsw i32 %0, -2
  %14 = add i32 %0, -1
  %15 = icmp sgt i32 %0, 1
  %16 = sext i32 %14 to i64
  br label %17

17:                                               ; preds = %65, %12
  %18 = phi i32 [ %1, %12 ], [ %21, %65 ]
  %19 = icmp sgt i32 %18, 0
  br i1 %19, label %20, label %66

20:                                               ; preds = %17
  %21 = add nsw i32 %18, -1
  br i1 %15, label %22, label %35

22:                                               ; preds = %20, %32
  %23 = phi i32 [ %33, %32 ], [ %13, %20 ]
  %24 = zext nneg i32 %23 to i64
  %25 = getelementptr inbounds [8 x i8], ptr @order, i64 0, i64 %24
  %26 = load i8, ptr %25, align 1, !tbaa !8
  %27 = add nuw nsw i32 %23, 1
  %28 = zext nneg i32 %27 to i64
  %29 = getelementptr inbounds [8 x i8], ptr @order, i64 0, i64 %28
  %30 = load i8, ptr %29, align 1, !tbaa !8
  %31 = icmp ult i8 %26, %30
  br i1 %31, label %35, label %32

32:                                               ; preds = %22
  %33 = add nsw i32 %23, -1
  %34 = icmp sgt i32 %23, 0
  br i1 %34, label %22, label %35, !llvm.loop !14

35:                                               ; preds = %32, %22, %20
  %36 = phi i32 [ %13, %20 ], [ %23, %22 ], [ -1, %32 ]
  %37 = icmp slt i32 %36, 0
  br i1 %37, label %66, label %38

38:                                               ; preds = %35
  %39 = zext nneg i32 %36 to i64
  %40 = getelementptr inbounds [8 x i8], ptr @order, i64 0, i64 %39
  %41 = load i8, ptr %40, align 1, !tbaa !8
  br label %42

42:                                               ; preds = %42, %38
  %43 = phi i64 [ %47, %42 ], [ %16, %38 ]
  %44 = getelementptr inbounds [8 x i8], ptr @order, i64 0, i64 %43
  %45 = load i8, ptr %44, align 1, !tbaa !8
  %46 = icmp ugt i8 %45, %41
  %47 = add nsw i64 %43, -1
  br i1 %46, label %48, label %42, !llvm.loop !15

48:                                               ; preds = %42
  store i8 %45, ptr %40, align 1, !tbaa !8
  store i8 %41, ptr %44, align 1, !tbaa !8
  %49 = add nuw nsw i32 %36, 1
  %50 = icmp slt i32 %49, %14
  br i1 %50, label %51, label %65

51:                                               ; preds = %48
  %52 = add nuw nsw i64 %39, 1
  br label %53

53:                                               ; preds = %53, %51
  %54 = phi i64 [ %16, %51 ], [ %60, %53 ]
  %55 = phi i64 [ %52, %51 ], [ %61, %53 ]
  %56 = getelementptr inbounds [8 x i8], ptr @order, i64 0, i64 %55
  %57 = load i8, ptr %56, align 1, !tbaa !8
  %58 = getelementptr inbounds [8 x i8], ptr @order, i64 0, i64 %54
  %59 = load i8, ptr %58, align 1, !tbaa !8
  store i8 %59, ptr %56, align 1, !tbaa !8
  store i8 %57, ptr %58, align 1, !tbaa !8
  %60 = add nsw i64 %54, -1
  %61 = add nuw nsw i64 %55, 1
  %62 = shl i64 %61, 32
  %63 = ashr exact i64 %62, 32
  %64 = icmp slt i64 %63, %60
  br i1 %64, label %53, label %65, !llvm.loop !16

65:                                               ; preds = %53, %48
  br i1 %37, label %66, label %17, !llvm.loop !18

66:                                               ; preds = %35, %17, %65
  br i1 %3, label %67, label %79

67:                                               ; preds = %66
  %68 = zext nneg i32 %0 to i64
  br label %69

69:                                               ; preds = %69, %67
  %70 = phi i64 [ 0, %67 ], [ %77, %69 ]
  %71 = phi i32 [ 0, %67 ], [ %76, %69 ]
  %72 = shl nsw i32 %71, 3
  %73 = getelementptr inbounds [8 x i8], ptr @order, i64 0, i64 %70
  %74 = load i8, ptr %73, align 1, !tbaa !8
  %75 = zext i8 %74 to i32
  %76 = add nsw i32 %72, %75
  %77 = add nuw nsw i64 %70, 1
  %78 = icmp eq i64 %77, %68
  br i1 %78, label %79, label %69, !llvm.loop !19

79:                                               ; preds = %69, %66
  %80 = phi i32 [ 0, %66 ], [ %76, %69 ]
  ret i32 %80
}

; Function Attrs: nofree norecurse nosync nounwind memory(readwrite, argmem: none, inaccessiblemem: none)
define dso_local signext i32 @even_ones(i32 noundef signext %0) local_unnamed_addr #0 {
  %2 = icmp sgt i32 %0, 0
  br i1 %2, label %3, label %11

3:                                                ; preds = %1
  %4 = zext nneg i32 %0 to i64
  br label %5

5:                                                ; preds = %5, %3
  %6 = phi i64 [ 0, %3 ], [ %9, %5 ]
  %7 = trunc i64 %6 to i8
  %8 = getelementptr inbounds [8 x i8], ptr @order, i64 0, i64 %6
  store i8 %7, ptr %8, align 1, !tbaa !8
  %9 = add nuw nsw i64 %6, 1
  %10 = icmp eq i64 %9, %4
  br i1 %10, label %11, label %5, !llvm.loop !11

11:                                               ; preds = %5, %1
  %12 = add nsw i32 %0, -2
  %13 = add i32 %0, -1
  %14 = icmp sgt i32 %0, 1
  %15 = zext nneg i32 %0 to i64
  %16 = sext i32 %13 to i64
  br label %17

17:                                               ; preds = %90, %11
  %18 = phi i32 [ 0, %11 ], [ %46, %90 ]
  br i1 %2, label %23, label %42

19:                                               ; preds = %32, %23
  %20 = phi i32 [ %26, %23 ], [ %39, %32 ]
  %21 = add nuw nsw i64 %25, 1
  %22 = icmp eq i64 %27, %15
  br i1 %22, label %42, label %23, !llvm.loop !20

23:                                               ; preds = %17, %19
  %24 = phi i64 [ %27, %19 ], [ 0, %17 ]
  %25 = phi i64 [ %21, %19 ], [ 1, %17 ]
  %26 = phi i32 [ %20, %19 ], [ 0, %17 ]
  %27 = add nuw nsw i64 %24, 1
  %28 = icmp ult i64 %27, %15
  br i1 %28, label %29, label %19

29:                                               ; preds = %23
  %30 = getelementptr inbounds [8 x i8], ptr @order, i64 0, i64 %24
  %31 = load i8, ptr %30, align 1, !tbaa !8
  br label %32

32:                                               ; preds = %32, %29
  %33 = phi i64 [ %25, %29 ], [ %40, %32 ]
  %34 = phi i32 [ %26, %29 ], [ %39, %32 ]
  %35 = getelementptr inbounds [8 x i8], ptr @order, i64 0, i64 %33
  %36 = load i8, ptr %35, align 1, !tbaa !8
  %37 = icmp ugt i8 %31, %36
  %38 = zext i1 %37 to i32
  %39 = add nsw i32 %34, %38
  %40 = add nuw nsw i64 %33, 1
  %41 = icmp eq i64 %40, %15
  br i1 %41, label %19, label %32, !llvm.loop !21

42:                                               ; preds = %19, %17
  %43 = phi i32 [ 0, %17 ], [ %20, %19 ]
  %44 = and i32 %43, 1
  %45 = xor i32 %44, 1
  %46 = add nuw nsw i32 %45, %18
  br i1 %14, label %47, label %60

47:                                               ; preds = %42, %57
  %48 = phi i32 [ %58, %57 ], [ %12, %42 ]
  %49 = zext nneg i32 %48 to i64
  %50 = getelementptr inbounds [8 x i8], ptr @order, i64 0, i64 %49
  %51 = load i8, ptr %50, align 1, !tbaa !8
  %52 = add nuw nsw i32 %48, 1
  %53 = zext nneg i32 %52 to i64
  %54 = getelementptr inbounds [8 x i8], ptr @order, i64 0, i64 %53
  %55 = load i8, ptr %54, align 1, !tbaa !8
  %56 = icmp ult i8 %51, %55
  br i1 %56, label %60, label %57

57:                                               ; preds = %47
  %58 = add nsw i32 %48, -1
  %59 = icmp sgt i32 %48, 0
  br i1 %59, label %47, label %60, !llvm.loop !14

60:                                               ; preds = %57, %47, %42
  %61 = phi i32 [ %12, %42 ], [ %48, %47 ], [ -1, %57 ]
  %62 = icmp slt i32 %61, 0
  br i1 %62, label %91, label %63

63:                                               ; preds = %60
  %64 = zext nneg i32 %61 to i64
  %65 = getelementptr inbounds [8 x i8], ptr @order, i64 0, i64 %64
  %66 = load i8, ptr %65, align 1, !tbaa !8
  br label %67

67:                                               ; preds = %67, %63
  %68 = phi i64 [ %72, %67 ], [ %16, %63 ]
  %69 = getelementptr inbounds [8 x i8], ptr @order, i64 0, i64 %68
  %70 = load i8, ptr %69, align 1, !tbaa !8
  %71 = icmp ugt i8 %70, %66
  %72 = add nsw i64 %68, -1
  br i1 %71, label %73, label %67, !llvm.loop !15

73:                                               ; preds = %67
  store i8 %70, ptr %65, align 1, !tbaa !8
  store i8 %66, ptr %69, align 1, !tbaa !8
  %74 = add nuw nsw i32 %61, 1
  %75 = icmp slt i32 %74, %13
  br i1 %75, label %76, label %90

76:                                               ; preds = %73
  %77 = add nuw nsw i64 %64, 1
  br label %78

78:                                               ; preds = %78, %76
  %79 = phi i64 [ %16, %76 ], [ %85, %78 ]
  %80 = phi i64 [ %77, %76 ], [ %86, %78 ]
  %81 = getelementptr inbounds [8 x i8], ptr @order, i64 0, i64 %80
  %82 = load i8, ptr %81, align 1, !tbaa !8
  %83 = getelementptr inbounds [8 x i8], ptr @order, i64 0, i64 %79
  %84 = load i8, ptr %83, align 1, !tbaa !8
  store i8 %84, ptr %81, align 1, !tbaa !8
  store i8 %82, ptr %83, align 1, !tbaa !8
  %85 = add nsw i64 %79, -1
  %86 = add nuw nsw i64 %80, 1
  %87 = shl i64 %86, 32
  %88 = ashr exact i64 %87, 32
  %89 = icmp slt i64 %88, %85
  br i1 %89, label %78, label %90, !llvm.loop !16

90:                                               ; preds = %78, %73
  br i1 %62, label %91, label %17, !llvm.loop !22

91:                                               ; preds = %60, %90
  ret i32 %46
}

; Function Attrs: nofree norecurse nosync nounwind memory(none)
define dso_local signext i32 @subsets(i32 noundef signext %0, i32 noundef signext %1) local_unnamed_addr #1 {
  %3 = icmp eq i32 %0, 31
  br i1 %3, label %11, label %4

4:                                                ; preds = %2
  %5 = shl nuw i32 1, %0
  %6 = icmp sgt i32 %0, 0
  %7 = tail call i32 @llvm.smax.i32(i32 %5, i32 1)
  br label %8

8:                                                ; preds = %4, %13
  %9 = phi i32 [ 0, %4 ], [ %18, %13 ]
  %10 = phi i32 [ 0, %4 ], [ %17, %13 ]
  br i1 %6, label %20, label %13

11:                                               ; preds = %13, %2
  %12 = phi i32 [ 0, %2 ], [ %17, %13 ]
  ret i32 %12

13:                                               ; preds = %20, %8
  %14 = phi i32 [ 0, %8 ], [ %28, %20 ]
  %15 = icmp eq i32 %14, %1
  %16 = zext i1 %15 to i32
  %17 = add nuw nsw i32 %10, %16
  %18 = add nuw nsw i32 %9, 1
  %19 = icmp eq i32 %18, %7
  br i1 %19, label %11, label %8, !llvm.loop !23

20:                                               ; preds = %8, %20
  %21 = phi i32 [ %26, %20 ], [ 0, %8 ]
  %22 = phi i32 [ %28, %20 ], [ 0, %8 ]
  %23 = shl nuw i32 1, %21
  %24 = and i32 %23, %9
  %25 = icmp eq i32 %24, 0
  %26 = add nuw nsw i32 %21, 1
  %27 = select i1 %25, i32 0, i32 %26
  %28 = add nuw nsw i32 %27, %22
  %29 = icmp eq i32 %26, %0
  br i1 %29, label %13, label %20, !llvm.loop !24
}

; Function Attrs: nocallback nofree nosync nounwind speculatable willreturn memory(none)
declare i32 @llvm.smax.i32(i32, i32) #2

attributes #0 = { nofree norecurse nosync nounwind memory(readwrite, argmem: none, inaccessiblemem: none) "no-builtins" "no-trapping-math"="true" "stack-protector-buffer-size"="8" "target-cpu"="generic-rv64" "target-features"="+64bit,+m,+relax,+zmmul,-a,-b,-c,-d,-e,-experimental-smmpm,-experimental-smnpm,-experimental-ssnpm,-experimental-sspm,-experimental-ssqosid,-experimental-supm,-experimental-zacas,-experimental-zalasr,-experimental-zicfilp,-experimental-zicfiss,-f,-h,-shcounterenw,-shgatpa,-shtvala,-shvsatpa,-shvstvala,-shvstvecd,-smaia,-smcdeleg,-smcsrind,-smepmp,-smstateen,-ssaia,-ssccfg,-ssccptr,-sscofpmf,-sscounterenw,-sscsrind,-ssstateen,-ssstrict,-sstc,-sstvala,-sstvecd,-ssu64xl,-svade,-svadu,-svbare,-svinval,-svnapot,-svpbmt,-v,-xcvalu,-xcvbi,-xcvbitmanip,-xcvelw,-xcvmac,-xcvmem,-xcvsimd,-xsfcease,-xsfvcp,-xsfvfnrclipxfqf,-xsfvfwmaccqqq,-xsfvqmaccdod,-xsfvqmaccqoq,-xsifivecdiscarddlone,-xsifivecflushdlone,-xtheadba,-xtheadbb,-xtheadbs,-xtheadcmo,-xtheadcondmov,-xtheadfmemidx,-xtheadmac,-xtheadmemidx,-xtheadmempair,-xtheadsync,-xtheadvdot,-xventanacondops,-xwchc,-za128rs,-za64rs,-zaamo,-zabha,-zalrsc,-zama16b,-zawrs,-zba,-zbb,-zbc,-zbkb,-zbkc,-zbkx,-zbs,-zca,-zcb,-zcd,-zce,-zcf,-zcmop,-zcmp,-zcmt,-zdinx,-zfa,-zfbfmin,-zfh,-zfhmin,-zfinx,-zhinx,-zhinxmin,-zic64b,-zicbom,-zicbop,-zicboz,-ziccamoa,-ziccif,-zicclsm,-ziccrse,-zicntr,-zicond,-zicsr,-zifencei,-zihintntl,-zihintpause,-zihpm,-zimop,-zk,-zkn,-zknd,-zkne,-zknh,-zkr,-zks,-zksed,-zksh,-zkt,-ztso,-zvbb,-zvbc,-zve32f,-zve32x,-zve64d,-zve64f,-zve64x,-zvfbfmin,-zvfbfwma,-zvfh,-zvfhmin,-zvkb,-zvkg,-zvkn,-zvknc,-zvkned,-zvkng,-zvknha,-zvknhb,-zvks,-zvksc,-zvksed,-zvksg,-zvksh,-zvkt,-zvl1024b,-zvl128b,-zvl16384b,-zvl2048b,-zvl256b,-zvl32768b,-zvl32b,-zvl4096b,-zvl512b,-zvl64b,-zvl65536b,-zvl8192b" }
attributes #1 = { nofree norecurse nosync nounwind memory(none) "no-builtins" "no-trapping-math"="true" "stack-protector-buffer-size"="8" "target-cpu"="generic-rv64" "target-features"="+64bit,+m,+relax,+zmmul,-a,-b,-c,-d,-e,-experimental-smmpm,-experimental-smnpm,-experimental-ssnpm,-experimental-sspm,-experimental-ssqosid,-experimental-supm,-experimental-zacas,-experimental-zalasr,-experimental-zicfilp,-experimental-zicfiss,-f,-h,-shcounterenw,-shgatpa,-shtvala,-shvsatpa,-shvstvala,-shvstvecd,-smaia,-smcdeleg,-smcsrind,-smepmp,-smstateen,-ssaia,-ssccfg,-ssccptr,-sscofpmf,-sscounterenw,-sscsrind,-ssstateen,-ssstrict,-sstc,-sstvala,-sstvecd,-ssu64xl,-svade,-svadu,-svbare,-svinval,-svnapot,-svpbmt,-v,-xcvalu,-xcvbi,-xcvbitmanip,-xcvelw,-xcvmac,-xcvmem,-xcvsimd,-xsfcease,-xsfvcp,-xsfvfnrclipxfqf,-xsfvfwmaccqqq,-xsfvqmaccdod,-xsfvqmaccqoq,-xsifivecdiscarddlone,-xsifivecflushdlone,-xtheadba,-xtheadbb,-xtheadbs,-xtheadcmo,-xtheadcondmov,-xtheadfmemidx,-xtheadmac,-xtheadmemidx,-xtheadmempair,-xtheadsync,-xtheadvdot,-xventanacondops,-xwchc,-za128rs,-za64rs,-zaamo,-zabha,-zalrsc,-zama16b,-zawrs,-zba,-zbb,-zbc,-zbkb,-zbkc,-zbkx,-zbs,-zca,-zcb,-zcd,-zce,-zcf,-zcmop,-zcmp,-zcmt,-zdinx,-zfa,-zfbfmin,-zfh,-zfhmin,-zfinx,-zhinx,-zhinxmin,-zic64b,-zicbom,-zicbop,-zicboz,-ziccamoa,-ziccif,-zicclsm,-ziccrse,-zicntr,-zicond,-zicsr,-zifencei,-zihintntl,-zihintpause,-zihpm,-zimop,-zk,-zkn,-zknd,-zkne,-zknh,-zkr,-zks,-zksed,-zksh,-zkt,-ztso,-zvbb,-zvbc,-zve32f,-zve32x,-zve64d,-zve64f,-zve64x,-zvfbfmin,-zvfbfwma,-zvfh,-zvfhmin,-zvkb,-zvkg,-zvkn,-zvknc,-zvkned,-zvkng,-zvknha,-zvknhb,-zvks,-zvksc,-zvksed,-zvksg,-zvksh,-zvkt,-zvl1024b,-zvl128b,-zvl16384b,-zvl2048b,-zvl256b,-zvl32768b,-zvl32b,-zvl4096b,-zvl512b,-zvl64b,-zvl65536b,-zvl8192b" }
attributes #2 = { nocallback nofree nosync nounwind speculatable willreturn memory(none) }

!llvm.module.flags = !{!0, !1, !2, !4, !5, !6}
!llvm.ident = !{!7}

!0 = !{i32 1, !"wchar_size", i32 4}
!1 = !{i32 1, !"target-abi", !"lp64"}
!2 = !{i32 6, !"riscv-isa", !3}
!3 = !{!"rv64i2p1_m2p0_zmmul1p0"}
!4 = !{i32 8, !"PIC Level", i32 2}
!5 = !{i32 7, !"PIE Level", i32 2}
!6 = !{i32 8, !"SmallDataLimit", i32 8}
!7 = !{!"Debian clang version 19.1.7 (3~deb12u1)"}
!8 = !{!9, !9, i64 0}
!9 = !{!"omnipotent char", !10, i64 0}
!10 = !{!"Simple C/C++ TBAA"}
!11 = distinct !{!11, !12, !13}
!12 = !{!"llvm.loop.mustprogress"}
!13 = !{!"llvm.loop.unroll.disable"}
!14 = distinct !{!14, !12, !13}
!15 = distinct !{!15, !12, !13}
!16 = distinct !{!16, !12, !13}
!17 = distinct !{!17, !12, !13}
!18 = distinct !{!18, !12, !13}
!19 = distinct !{!19, !12, !13}
!20 = distinct !{!20, !12, !13}
!21 = distinct !{!21, !12, !13}
!22 = distinct !{!22, !12, !13}
!23 = distinct !{!23, !12, !13}
!24 = distinct !{!24, !12, !13}
