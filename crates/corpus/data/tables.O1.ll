; ModuleID = 'tables.c'
source_filename = "tables.c"
target datalayout = "e-m:e-p:64:64-i64:64-i128:128-n32:64-S128"
target triple = "riscv64-unknown-linux-gnu"

@knapsack.best = internal unnamed_addr global [65 x i32] zeroinitializer, align 4
@weights = internal unnamed_addr constant [6 x i32] [i32 3, i32 4, i32 5, i32 9, i32 14, i32 2], align 4
@worths = internal unnamed_addr constant [6 x i32] [i32 3, i32 4, i32 4, i32 10, i32 15, i32 1], align 4
@words = internal unnamed_addr constant [4 x ptr] [ptr @.str, ptr @.str.1, ptr @.str.2, ptr @.str.3], align 8
@ways_to_pay.coins = internal unnamed_addr constant [5 x i32] [i32 1, i32 5, i32 10, i32 25, i32 50], align 4
@.str = private unnamed_addr constant [7 x i8] c"kitten\00", align 1
@.str.1 = private unnamed_addr constant [8 x i8] c"sitting\00", align 1
@.str.2 = private unnamed_addr constant [9 x i8] c"saturday\00", align 1
@.str.3 = private unnamed_addr constant [7 x i8] c"sunday\00", align 1

; Function Attrs: nofree norecurse nosync nounwind memory(readwrite, argmem: none, inaccessiblemem: none)
define dso_local signext i32 @knapsack(i32 noundef signext %0) local_unnamed_addr #0 {
  %2 = icmp slt i32 %0, 0
  br i1 %2, label %6, label %3

3:                                                ; preds = %1
  %4 = add nuw i32 %0, 1
  %5 = zext i32 %4 to i64
  br label %8

6:                                                ; preds = %8, %1
  %7 = sext i32 %0 to i64
  br label %13

8:                                                ; preds = %3, %8
  %9 = phi i64 [ 0, %3 ], [ %11, %8 ]
  %10 = getelementptr inbounds [65 x i32], ptr @knapsack.best, i64 0, i64 %9
  store i32 0, ptr %10, align 4, !tbaa !8
  %11 = add nuw nsw i64 %9, 1
  %12 = icmp eq i64 %11, %5
  br i1 %12, label %6, label %8, !llvm.loop !12

13:                                               ; preds = %6, %27
  %14 = phi i64 [ 0, %6 ], [ %28, %27 ]
  %15 = getelementptr inbounds [6 x i32], ptr @weights, i64 0, i64 %14
  %16 = load i32, ptr %15, align 4, !tbaa !8
  %17 = icmp sgt i32 %16, %0
  br i1 %17, label %27, label %18

18:                                               ; preds = %13
  %19 = getelementptr inbounds [6 x i32], ptr @worths, i64 0, i64 %14
  %20 = load i32, ptr %19, align 4, !tbaa !8
  %21 = sext i32 %16 to i64
  %22 = sext i32 %16 to i64
  br label %30

23:                                               ; preds = %27
  %24 = sext i32 %0 to i64
  %25 = getelementptr inbounds [65 x i32], ptr @knapsack.best, i64 0, i64 %24
  %26 = load i32, ptr %25, align 4, !tbaa !8
  ret i32 %26

27:                                               ; preds = %40, %13
  %28 = add nuw nsw i64 %14, 1
  %29 = icmp eq i64 %28, 6
  br i1 %29, label %23, label %13, !llvm.loop !15

30:                                               ; preds = %18, %40
  %31 = phi i64 [ %7, %18 ], [ %41, %40 ]
  %32 = sub nsw i64 %31, %21
  %33 = getelementptr inbounds [65 x i32], ptr @knapsack.best, i64 0, i64 %32
  %34 = load i32, ptr %33, align 4, !tbaa !8
  %35 = add nsw i32 %20, %34
  %36 = getelementptr inbounds [65 x i32], ptr @knapsack.best, i64 0, i64 %31
  %37 = load i32, ptr %36, align 4, !tbaa !8
  %38 = icmp sgt i32 %35, %37
  br i1 %38, label %39, label %40

39:                                               ; preds = %30
  store i32 %35, ptr %36, align 4, !tbaa !8
  br label %40

40:                                               ; preds = %39, %30
  %41 = add nsw i64 %31, -1
  %42 = icmp sgt i64 %31, %22
  br i1 %42, label %30, label %27, !llvm.loop !16
}

; Function Attrs: mustprogress nocallback nofree nosync nounwind willreturn memory(argmem: readwrite)
declare void @llvm.lifetime.start.p0(i64 immarg, ptr nocapture) #1

; Function Attrs: mustprogress nocallback nofree nosync nounwind willreturn memory(argmem: readwrite)
declare void @llvm.lifetime.end.p0(i64 immarg, ptr nocapture) #1

; Function Attrs: nofree norecurse nosync nounwind memory(read, inaccessiblemem: none)
define dso_local signext i32 @edits(i32 noundef signext %0, i32 noundef signext %1) local_unnamed_addr #2 {
  %3 = alloca [12 x i32], align 4
  %4 = and i32 %0, 3
  %5 = zext nneg i32 %4 to i64
  %6 = getelementptr inbounds [4 x ptr], ptr @words, i64 0, i64 %5
  %7 = load ptr, ptr %6, align 8, !tbaa !17
  %8 = and i32 %1, 3
  %9 = zext nneg i32 %8 to i64
  %10 = getelementptr inbounds [4 x ptr], ptr @words, i64 0, i64 %9
  %11 = load ptr, ptr %10, align 8, !tbaa !17
  br label %12

12:                                               ; preds = %12, %2
  %13 = phi i32 [ %19, %12 ], [ 0, %2 ]
  %14 = phi i64 [ %18, %12 ], [ 0, %2 ]
  %15 = getelementptr inbounds i8, ptr %7, i64 %14
  %16 = load i8, ptr %15, align 1, !tbaa !19
  %17 = icmp eq i8 %16, 0
  %18 = add nuw nsw i64 %14, 1
  %19 = add i32 %13, 1
  br i1 %17, label %20, label %12, !llvm.loop !20

20:                                               ; preds = %12, %20
  %21 = phi i32 [ %27, %20 ], [ 0, %12 ]
  %22 = phi i64 [ %26, %20 ], [ 0, %12 ]
  %23 = getelementptr inbounds i8, ptr %11, i64 %22
  %24 = load i8, ptr %23, align 1, !tbaa !19
  %25 = icmp eq i8 %24, 0
  %26 = add nuw nsw i64 %22, 1
  %27 = add i32 %21, 1
  br i1 %25, label %28, label %20, !llvm.loop !20

28:                                               ; preds = %20
  call void @llvm.lifetime.start.p0(i64 48, ptr nonnull %3) #5
  %29 = tail call i32 @llvm.smax.i32(i32 %21, i32 0)
  %30 = add nuw i32 %29, 1
  %31 = zext i32 %30 to i64
  br label %45

32:                                               ; preds = %45
  %33 = icmp eq i64 %14, 0
  br i1 %33, label %52, label %34

34:                                               ; preds = %32
  %35 = load i32, ptr %3, align 4, !tbaa !8
  %36 = getelementptr i8, ptr %7, i64 -1
  %37 = icmp eq i64 %22, 0
  %38 = tail call i32 @llvm.smax.i32(i32 %21, i32 1)
  %39 = add nuw i32 %38, 1
  %40 = tail call i32 @llvm.smax.i32(i32 %13, i32 1)
  %41 = add nuw i32 %40, 1
  %42 = zext i32 %41 to i64
  %43 = zext i32 %39 to i64
  %44 = getelementptr i8, ptr %11, i64 -1
  br label %57

45:                                               ; preds = %28, %45
  %46 = phi i64 [ 0, %28 ], [ %49, %45 ]
  %47 = getelementptr inbounds [12 x i32], ptr %3, i64 0, i64 %46
  %48 = trunc nuw nsw i64 %46 to i32
  store i32 %48, ptr %47, align 4, !tbaa !8
  %49 = add nuw nsw i64 %46, 1
  %50 = icmp eq i64 %49, %31
  br i1 %50, label %32, label %45, !llvm.loop !21

51:                                               ; preds = %64
  store i32 %60, ptr %3, align 4
  br label %52

52:                                               ; preds = %51, %32
  %53 = shl i64 %22, 32
  %54 = ashr exact i64 %53, 32
  %55 = getelementptr inbounds [12 x i32], ptr %3, i64 0, i64 %54
  %56 = load i32, ptr %55, align 4, !tbaa !8
  call void @llvm.lifetime.end.p0(i64 48, ptr nonnull %3) #5
  ret i32 %56

57:                                               ; preds = %34, %64
  %58 = phi i64 [ 1, %34 ], [ %65, %64 ]
  %59 = phi i32 [ %35, %34 ], [ %66, %64 ]
  %60 = trunc nuw nsw i64 %58 to i32
  br i1 %37, label %64, label %61

61:                                               ; preds = %57
  %62 = getelementptr i8, ptr %36, i64 %58
  %63 = load i8, ptr %62, align 1, !tbaa !19
  br label %68

64:                                               ; preds = %68, %57
  %65 = add nuw nsw i64 %58, 1
  %66 = trunc nuw nsw i64 %58 to i32
  %67 = icmp eq i64 %65, %42
  br i1 %67, label %51, label %57, !llvm.loop !22

68:                                               ; preds = %61, %68
  %69 = phi i32 [ %60, %61 ], [ %83, %68 ]
  %70 = phi i64 [ 1, %61 ], [ %84, %68 ]
  %71 = phi i32 [ %59, %61 ], [ %78, %68 ]
  %72 = getelementptr i8, ptr %44, i64 %70
  %73 = load i8, ptr %72, align 1, !tbaa !19
  %74 = icmp ne i8 %63, %73
  %75 = zext i1 %74 to i32
  %76 = add nsw i32 %71, %75
  %77 = getelementptr inbounds [12 x i32], ptr %3, i64 0, i64 %70
  %78 = load i32, ptr %77, align 4, !tbaa !8
  %79 = add nsw i32 %69, 1
  %80 = icmp sgt i32 %76, %78
  %81 = add nsw i32 %78, 1
  %82 = select i1 %80, i32 %81, i32 %76
  %83 = tail call i32 @llvm.smin.i32(i32 %82, i32 %79)
  store i32 %83, ptr %77, align 4, !tbaa !8
  %84 = add nuw nsw i64 %70, 1
  %85 = icmp eq i64 %84, %43
  br i1 %85, label %64, label %68, !llvm.loop !23
}

; Function Attrs: nofree norecurse nosync nounwind memory(none)
define dso_local i64 @binomial(i32 noundef signext %0, i32 noundef signext %1) local_unnamed_addr #3 {
  %3 = alloca [40 x i64], align 8
  call void @llvm.lifetime.start.p0(i64 320, ptr nonnull %3) #5
  %4 = icmp slt i32 %0, 0
  br i1 %4, label %8, label %5

5:                                                ; preds = %2
  %6 = add nuw i32 %0, 1
  %7 = zext i32 %6 to i64
  br label %12

8:                                                ; preds = %16, %2
  %9 = sext i32 %1 to i64
  %10 = getelementptr inbounds [40 x i64], ptr %3, i64 0, i64 %9
  %11 = load i64, ptr %10, align 8, !tbaa !24
  call void @llvm.lifetime.end.p0(i64 320, ptr nonnull %3) #5
  ret i64 %11

12:                                               ; preds = %5, %16
  %13 = phi i64 [ 0, %5 ], [ %17, %16 ]
  %14 = getelementptr inbounds [40 x i64], ptr %3, i64 0, i64 %13
  store i64 1, ptr %14, align 8, !tbaa !24
  %15 = icmp ugt i64 %13, 1
  br i1 %15, label %19, label %16

16:                                               ; preds = %19, %12
  %17 = add nuw nsw i64 %13, 1
  %18 = icmp eq i64 %17, %7
  br i1 %18, label %8, label %12, !llvm.loop !26

19:                                               ; preds = %12, %19
  %20 = phi i64 [ %31, %19 ], [ %13, %12 ]
  %21 = add i64 %20, 4294967295
  %22 = add i64 %20, 4294967294
  %23 = and i64 %22, 4294967295
  %24 = getelementptr inbounds [40 x i64], ptr %3, i64 0, i64 %23
  %25 = load i64, ptr %24, align 8, !tbaa !24
  %26 = and i64 %21, 4294967295
  %27 = getelementptr inbounds [40 x i64], ptr %3, i64 0, i64 %26
  %28 = load i64, ptr %27, align 8, !tbaa !24
  %29 = add nsw i64 %28, %25
  store i64 %29, ptr %27, align 8, !tbaa !24
  %30 = icmp sgt i64 %20, 2
  %31 = add nsw i64 %20, -1
  br i1 %30, label %19, label %16, !llvm.loop !27
}

; Function Attrs: nofree norecurse nosync nounwind memory(none)
define dso_local signext i32 @ways_to_pay(i32 noundef signext %0) local_unnamed_addr #3 {
  %2 = alloca [101 x i32], align 4
  call void @llvm.lifetime.start.p0(i64 404, ptr nonnull %2) #5
  store i32 1, ptr %2, align 4, !tbaa !8
  %3 = icmp slt i32 %0, 1
  br i1 %3, label %7, label %4

4:                                                ; preds = %1
  %5 = add nuw i32 %0, 1
  %6 = zext i32 %5 to i64
  br label %9

7:                                                ; preds = %9, %1
  %8 = add i32 %0, 1
  br label %18

9:                                                ; preds = %4, %9
  %10 = phi i64 [ 1, %4 ], [ %12, %9 ]
  %11 = getelementptr inbounds [101 x i32], ptr %2, i64 0, i64 %10
  store i32 0, ptr %11, align 4, !tbaa !8
  %12 = add nuw nsw i64 %10, 1
  %13 = icmp eq i64 %12, %6
  br i1 %13, label %7, label %9, !llvm.loop !28

14:                                               ; preds = %26
  %15 = sext i32 %0 to i64
  %16 = getelementptr inbounds [101 x i32], ptr %2, i64 0, i64 %15
  %17 = load i32, ptr %16, align 4, !tbaa !8
  call void @llvm.lifetime.end.p0(i64 404, ptr nonnull %2) #5
  ret i32 %17

18:                                               ; preds = %7, %26
  %19 = phi i64 [ 0, %7 ], [ %27, %26 ]
  %20 = getelementptr inbounds [5 x i32], ptr @ways_to_pay.coins, i64 0, i64 %19
  %21 = load i32, ptr %20, align 4, !tbaa !8
  %22 = icmp sgt i32 %21, %0
  br i1 %22, label %26, label %23

23:                                               ; preds = %18
  %24 = sext i32 %21 to i64
  %25 = sext i32 %21 to i64
  br label %29

26:                                               ; preds = %29, %18
  %27 = add nuw nsw i64 %19, 1
  %28 = icmp eq i64 %27, 5
  br i1 %28, label %14, label %18, !llvm.loop !29

29:                                               ; preds = %23, %29
  %30 = phi i64 [ %24, %23 ], [ %37, %29 ]
  %31 = sub nsw i64 %30, %25
  %32 = getelementptr inbounds [101 x i32], ptr %2, i64 0, i64 %31
  %33 = load i32, ptr %32, align 4, !tbaa !8
  %34 = getelementptr inbounds [101 x i32], ptr %2, i64 0, i64 %30
  %35 = load i32, ptr %34, align 4, !tbaa !8
  %36 = add nsw i32 %35, %33
  store i32 %36, ptr %34, align 4, !tbaa !8
  %37 = add nsw i64 %30, 1
  %38 = trunc i64 %37 to i32
  %39 = icmp eq i32 %8, %38
  br i1 %39, label %26, label %29, !llvm.loop !30
}

; Function Attrs: nocallback nofree nosync nounwind speculatable willreturn memory(none)
declare i32 @llvm.smin.i32(i32, i32) #4

; Function Attrs: nocallback nofree nosync nounwind speculatable willreturn memory(none)
declare i32 @llvm.smax.i32(i32, i32) #4

attributes #0 = { nofree norecurse nosync nounwind memory(readwrite, argmem: none, inaccessiblemem: none) "no-builtins" "no-trapping-math"="true" "stack-protector-buffer-size"="8" "target-cpu"="generic-rv64" "target-features"="+64bit,+m,+relax,+zmmul,-a,-b,-c,-d,-e,-experimental-smmpm,-experimental-smnpm,-experimental-ssnpm,-experimental-sspm,-experimental-ssqosid,-experimental-supm,-experimental-zacas,-experimental-zalasr,-experimental-zicfilp,-experimental-zicfiss,-f,-h,-shcounterenw,-shgatpa,-shtvala,-shvsatpa,-shvstvala,-shvstvecd,-smaia,-smcdeleg,-smcsrind,-smepmp,-smstateen,-ssaia,-ssccfg,-ssccptr,-sscofpmf,-sscounterenw,-sscsrind,-ssstateen,-ssstrict,-sstc,-sstvala,-sstvecd,-ssu64xl,-svade,-svadu,-svbare,-svinval,-svnapot,-svpbmt,-v,-xcvalu,-xcvbi,-xcvbitmanip,-xcvelw,-xcvmac,-xcvmem,-xcvsimd,-xsfcease,-xsfvcp,-xsfvfnrclipxfqf,-xsfvfwmaccqqq,-xsfvqmaccdod,-xsfvqmaccqoq,-xsifivecdiscarddlone,-xsifivecflushdlone,-xtheadba,-xtheadbb,-xtheadbs,-xtheadcmo,-xtheadcondmov,-xtheadfmemidx,-xtheadmac,-xtheadmemidx,-xtheadmempair,-xtheadsync,-xtheadvdot,-xventanacondops,-xwchc,-za128rs,-za64rs,-zaamo,-zabha,-zalrsc,-zama16b,-zawrs,-zba,-zbb,-zbc,-zbkb,-zbkc,-zbkx,-zbs,-zca,-zcb,-zcd,-zce,-zcf,-zcmop,-zcmp,-zcmt,-zdinx,-zfa,-zfbfmin,-zfh,-zfhmin,-zfinx,-zhinx,-zhinxmin,-zic64b,-zicbom,-zicbop,-zicboz,-ziccamoa,-ziccif,-zicclsm,-ziccrse,-zicntr,-zicond,-zicsr,-zifencei,-zihintntl,-zihintpause,-zihpm,-zimop,-zk,-zkn,-zknd,-zkne,-zknh,-zkr,-zks,-zksed,-zksh,-zkt,-ztso,-zvbb,-zvbc,-zve32f,-zve32x,-zve64d,-zve64f,-zve64x,-zvfbfmin,-zvfbfwma,-zvfh,-zvfhmin,-zvkb,-zvkg,-zvkn,-zvknc,-zvkned,-zvkng,-zvknha,-zvknhb,-zvks,-zvksc,-zvksed,-zvksg,-zvksh,-zvkt,-zvl1024b,-zvl128b,-zvl16384b,-zvl2048b,-zvl256b,-zvl32768b,-zvl32b,-zvl4096b,-zvl512b,-zvl64b,-zvl65536b,-zvl8192b" }
attributes #1 = { mustprogress nocallback nofree nosync nounwind willreturn memory(argmem: readwrite) }
attributes #2 = { nofree norecurse nosync nounwind memory(read, inaccessiblemem: none) "no-builtins" "no-trapping-math"="true" "stack-protector-buffer-size"="8" "target-cpu"="generic-rv64" "target-features"="+64bit,+m,+relax,+zmmul,-a,-b,-c,-d,-e,-experimental-smmpm,-experimental-smnpm,-experimental-ssnpm,-experimental-sspm,-experimental-ssqosid,-experimental-supm,-experimental-zacas,-experimental-zalasr,-experimental-zicfilp,-experimental-zicfiss,-f,-h,-shcounterenw,-shgatpa,-shtvala,-shvsatpa,-shvstvala,-shvstvecd,-smaia,-smcdeleg,-smcsrind,-smepmp,-smstateen,-ssaia,-ssccfg,-ssccptr,-sscofpmf,-sscounterenw,-sscsrind,-ssstateen,-ssstrict,-sstc,-sstvala,-sstvecd,-ssu64xl,-svade,-svadu,-svbare,-svinval,-svnapot,-svpbmt,-v,-xcvalu,-xcvbi,-xcvbitmanip,-xcvelw,-xcvmac,-xcvmem,-xcvsimd,-xsfcease,-xsfvcp,-xsfvfnrclipxfqf,-xsfvfwmaccqqq,-xsfvqmaccdod,-xsfvqmaccqoq,-xsifivecdiscarddlone,-xsifivecflushdlone,-xtheadba,-xtheadbb,-xtheadbs,-xtheadcmo,-xtheadcondmov,-xtheadfmemidx,-xtheadmac,-xtheadmemidx,-xtheadmempair,-xtheadsync,-xtheadvdot,-xventanacondops,-xwchc,-za128rs,-za64rs,-zaamo,-zabha,-zalrsc,-zama16b,-zawrs,-zba,-zbb,-zbc,-zbkb,-zbkc,-zbkx,-zbs,-zca,-zcb,-zcd,-zce,-zcf,-zcmop,-zcmp,-zcmt,-zdinx,-zfa,-zfbfmin,-zfh,-zfhmin,-zfinx,-zhinx,-zhinxmin,-zic64b,-zicbom,-zicbop,-zicboz,-ziccamoa,-ziccif,-zicclsm,-ziccrse,-zicntr,-zicond,-zicsr,-zifencei,-zihintntl,-zihintpause,-zihpm,-zimop,-zk,-zkn,-zknd,-zkne,-zknh,-zkr,-zks,-zksed,-zksh,-zkt,-ztso,-zvbb,-zvbc,-zve32f,-zve32x,-zve64d,-zve64f,-zve64x,-zvfbfmin,-zvfbfwma,-zvfh,-zvfhmin,-zvkb,-zvkg,-zvkn,-zvknc,-zvkned,-zvkng,-zvknha,-zvknhb,-zvks,-zvksc,-zvksed,-zvksg,-zvksh,-zvkt,-zvl1024b,-zvl128b,-zvl16384b,-zvl2048b,-zvl256b,-zvl32768b,-zvl32b,-zvl4096b,-zvl512b,-zvl64b,-zvl65536b,-zvl8192b" }
attributes #3 = { nofree norecurse nosync nounwind memory(none) "no-builtins" "no-trapping-math"="true" "stack-protector-buffer-size"="8" "target-cpu"="generic-rv64" "target-features"="+64bit,+m,+relax,+zmmul,-a,-b,-c,-d,-e,-experimental-smmpm,-experimental-smnpm,-experimental-ssnpm,-experimental-sspm,-experimental-ssqosid,-experimental-supm,-experimental-zacas,-experimental-zalasr,-experimental-zicfilp,-experimental-zicfiss,-f,-h,-shcounterenw,-shgatpa,-shtvala,-shvsatpa,-shvstvala,-shvstvecd,-smaia,-smcdeleg,-smcsrind,-smepmp,-smstateen,-ssaia,-ssccfg,-ssccptr,-sscofpmf,-sscounterenw,-sscsrind,-ssstateen,-ssstrict,-sstc,-sstvala,-sstvecd,-ssu64xl,-svade,-svadu,-svbare,-svinval,-svnapot,-svpbmt,-v,-xcvalu,-xcvbi,-xcvbitmanip,-xcvelw,-xcvmac,-xcvmem,-xcvsimd,-xsfcease,-xsfvcp,-xsfvfnrclipxfqf,-xsfvfwmaccqqq,-xsfvqmaccdod,-xsfvqmaccqoq,-xsifivecdiscarddlone,-xsifivecflushdlone,-xtheadba,-xtheadbb,-xtheadbs,-xtheadcmo,-xtheadcondmov,-xtheadfmemidx,-xtheadmac,-xtheadmemidx,-xtheadmempair,-xtheadsync,-xtheadvdot,-xventanacondops,-xwchc,-za128rs,-za64rs,-zaamo,-zabha,-zalrsc,-zama16b,-zawrs,-zba,-zbb,-zbc,-zbkb,-zbkc,-zbkx,-zbs,-zca,-zcb,-zcd,-zce,-zcf,-zcmop,-zcmp,-zcmt,-zdinx,-zfa,-zfbfmin,-zfh,-zfhmin,-zfinx,-zhinx,-zhinxmin,-zic64b,-zicbom,-zicbop,-zicboz,-ziccamoa,-ziccif,-zicclsm,-ziccrse,-zicntr,-zicond,-zicsr,-zifencei,-zihintntl,-zihintpause,-zihpm,-zimop,-zk,-zkn,-zknd,-zkne,-zknh,-zkr,-zks,-zksed,-zksh,-zkt,-ztso,-zvbb,-zvbc,-zve32f,-zve32x,-zve64d,-zve64f,-zve64x,-zvfbfmin,-zvfbfwma,-zvfh,-zvfhmin,-zvkb,-zvkg,-zvkn,-zvknc,-zvkned,-zvkng,-zvknha,-zvknhb,-zvks,-zvksc,-zvksed,-zvksg,-zvksh,-zvkt,-zvl1024b,-zvl128b,-zvl16384b,-zvl2048b,-zvl256b,-zvl32768b,-zvl32b,-zvl4096b,-zvl512b,-zvl64b,-zvl65536b,-zvl8192b" }
attributes #4 = { nocallback nofree nosync nounwind speculatable willreturn memory(none) }
attributes #5 = { nounwind }

!llvm.module.flags = !{!0, !1, !2, !4, !5, !6}
!llvm.ident = !{!7}

!0 = !{i32 1, !"wchar_size", i32 4}
!1 = !{i32 1, !"target-abi", !"lp64"}
!2 = !{i32 6, !"riscv-isa", !3}
!3 = !{!"rv64i2p1_m2p0_zmmul1p0"}
!4 = !{i32 8, !"PIC Level", i32 2}
!5 = !{i32 7, !"PIE Level", i32 2}
!6 = !{i32 8, !"SmallDataLimit", i32 8}
!7 = !{!"Debian clang version 19.1.7 (3~deb12u1)"}
!8 = !{!9, !9, i64 0}
!9 = !{!"int", !10, i64 0}
!10 = !{!"omnipotent char", !11, i64 0}
!11 = !{!"Simple C/C++ TBAA"}
!12 = distinct !{!12, !13, !14}
!13 = !{!"llvm.loop.mustprogress"}
!14 = !{!"llvm.loop.unroll.disable"}
!15 = distinct !{!15, !13, !14}
!16 = distinct !{!16, !13, !14}
!17 = !{!18, !18, i64 0}
!18 = !{!"any pointer", !10, i64 0}
!19 = !{!10, !10, i64 0}
!20 = distinct !{!20, !13, !14}
!21 = distinct !{!21, !13, !14}
!22 = distinct !{!22, !13, !14}
!23 = distinct !{!23, !13, !14}
!24 = !{!25, !25, i64 0}
!25 = !{!"long", !10, i64 0}
!26 = distinct !{!26, !13, !14}
!27 = distinct !{!27, !13, !14}
!28 = distinct !{!28, !13, !14}
!29 = distinct !{!29, !13, !14}
!30 = distinct !{!30, !13, !14}
