; ModuleID = 'graphs.c'
source_filename = "graphs.c"
target datalayout = "e-m:e-p:64:64-i64:64-i128:128-n32:64-S128"
target triple = "riscv64-unknown-linux-gnu"

@lengths = internal unnamed_addr constant [8 x [8 x i8]] [[8 x i8] c"\00\04\00\00\00\00\00\08", [8 x i8] c"\04\00\08\00\00\00\00\0B", [8 x i8] c"\00\08\00\07\00\04\00\00", [8 x i8] c"\00\00\07\00\09\0E\00\00", [8 x i8] c"\00\00\00\09\00\0A\00\00", [8 x i8] c"\00\00\04\0E\0A\00\02\00", [8 x i8] c"\00\00\00\00\00\02\00\01", [8 x i8] c"\08\0B\00\00\00\00\01\00"], align 1
@between_all.d = internal unnamed_addr global [8 x [8 x i32]] zeroinitializer, align 4
@parent = internal unnamed_addr global [32 x i32] zeroinitializer, align 4
@seen = internal unnamed_addr global [6 x [9 x i8]] zeroinitializer, align 1
@maze = internal unnamed_addr constant [6 x [9 x i8]] [[9 x i8] c"#######\00\00", [9 x i8] c"#.#...#\00\00", [9 x i8] c"#.#.#.#\00\00", [9 x i8] c"#...#.#\00\00", [9 x i8] c"#####.#\00\00", [9 x i8] c"#######\00\00"], align 1

; Function Attrs: nofree norecurse nosync nounwind memory(none)
define dso_local signext i32 @shortest(i32 noundef signext %0, i32 noundef signext %1) local_unnamed_addr #0 {
  %3 = alloca [8 x i32], align 4
  %4 = alloca [8 x i8], align 1
  call void @llvm.lifetime.start.p0(i64 32, ptr nonnull %3) #7
  call void @llvm.lifetime.start.p0(i64 8, ptr nonnull %4) #7
  br label %8

5:                                                ; preds = %8
  %6 = sext i32 %0 to i64
  %7 = getelementptr inbounds [8 x i32], ptr %3, i64 0, i64 %6
  store i32 0, ptr %7, align 4, !tbaa !8
  br label %14

8:                                                ; preds = %2, %8
  %9 = phi i64 [ 0, %2 ], [ %12, %8 ]
  %10 = getelementptr inbounds [8 x i32], ptr %3, i64 0, i64 %9
  store i32 1048576, ptr %10, align 4, !tbaa !8
  %11 = getelementptr inbounds [8 x i8], ptr %4, i64 0, i64 %9
  store i8 0, ptr %11, align 1, !tbaa !12
  %12 = add nuw nsw i64 %9, 1
  %13 = icmp eq i64 %12, 8
  br i1 %13, label %5, label %8, !llvm.loop !14

14:                                               ; preds = %5, %45
  %15 = phi i32 [ 0, %5 ], [ %46, %45 ]
  br label %24

16:                                               ; preds = %45
  %17 = sext i32 %1 to i64
  %18 = getelementptr inbounds [8 x i32], ptr %3, i64 0, i64 %17
  %19 = load i32, ptr %18, align 4, !tbaa !8
  call void @llvm.lifetime.end.p0(i64 8, ptr nonnull %4) #7
  call void @llvm.lifetime.end.p0(i64 32, ptr nonnull %3) #7
  ret i32 %19

20:                                               ; preds = %41
  %21 = sext i32 %42 to i64
  %22 = getelementptr inbounds [8 x i8], ptr %4, i64 0, i64 %21
  store i8 1, ptr %22, align 1, !tbaa !12
  %23 = getelementptr inbounds [8 x i32], ptr %3, i64 0, i64 %21
  br label %48

24:                                               ; preds = %14, %41
  %25 = phi i64 [ 0, %14 ], [ %43, %41 ]
  %26 = phi i32 [ -1, %14 ], [ %42, %41 ]
  %27 = getelementptr inbounds [8 x i8], ptr %4, i64 0, i64 %25
  %28 = load i8, ptr %27, align 1, !tbaa !12, !range !17, !noundef !18
  %29 = trunc nuw i8 %28 to i1
  br i1 %29, label %41, label %30

30:                                               ; preds = %24
  %31 = icmp slt i32 %26, 0
  br i1 %31, label %39, label %32

32:                                               ; preds = %30
  %33 = getelementptr inbounds [8 x i32], ptr %3, i64 0, i64 %25
  %34 = load i32, ptr %33, align 4, !tbaa !8
  %35 = zext nneg i32 %26 to i64
  %36 = getelementptr inbounds [8 x i32], ptr %3, i64 0, i64 %35
  %37 = load i32, ptr %36, align 4, !tbaa !8
  %38 = icmp slt i32 %34, %37
  br i1 %38, label %39, label %41

39:                                               ; preds = %32, %30
  %40 = trunc nuw nsw i64 %25 to i32
  br label %41

41:                                               ; preds = %24, %32, %39
  %42 = phi i32 [ %26, %24 ], [ %40, %39 ], [ %26, %32 ]
  %43 = add nuw nsw i64 %25, 1
  %44 = icmp eq i64 %43, 8
  br i1 %44, label %20, label %24, !llvm.loop !19

45:                                               ; preds = %60
  %46 = add nuw nsw i32 %15, 1
  %47 = icmp eq i32 %46, 8
  br i1 %47, label %16, label %14, !llvm.loop !20

48:                                               ; preds = %20, %60
  %49 = phi i64 [ 0, %20 ], [ %61, %60 ]
  %50 = getelementptr inbounds [8 x [8 x i8]], ptr @lengths, i64 0, i64 %21, i64 %49
  %51 = load i8, ptr %50, align 1, !tbaa !21
  %52 = icmp eq i8 %51, 0
  br i1 %52, label %60, label %53

53:                                               ; preds = %48
  %54 = zext i8 %51 to i32
  %55 = load i32, ptr %23, align 4, !tbaa !8
  %56 = add nsw i32 %55, %54
  %57 = getelementptr inbounds [8 x i32], ptr %3, i64 0, i64 %49
  %58 = load i32, ptr %57, align 4, !tbaa !8
  %59 = tail call i32 @llvm.smin.i32(i32 %56, i32 %58)
  store i32 %59, ptr %57, align 4
  br label %60

60:                                               ; preds = %53, %48
  %61 = add nuw nsw i64 %49, 1
  %62 = icmp eq i64 %61, 8
  br i1 %62, label %45, label %48, !llvm.loop !22
}

; Function Attrs: mustprogress nocallback nofree nosync nounwind willreturn memory(argmem: readwrite)
declare void @llvm.lifetime.start.p0(i64 immarg, ptr nocapture) #1

; Function Attrs: mustprogress nocallback nofree nosync nounwind willreturn memory(argmem: readwrite)
declare void @llvm.lifetime.end.p0(i64 immarg, ptr nocapture) #1

; Function Attrs: nofree norecurse nosync nounwind memory(readwrite, argmem: none, inaccessiblemem: none)
define dso_local signext i32 @between_all() local_unnamed_addr #2 {
  br label %1

1:                                                ; preds = %0, %3
  %2 = phi i64 [ 0, %0 ], [ %4, %3 ]
  br label %6

3:                                                ; preds = %15
  %4 = add nuw nsw i64 %2, 1
  %5 = icmp eq i64 %4, 8
  br i1 %5, label %20, label %1, !llvm.loop !23

6:                                                ; preds = %1, %15
  %7 = phi i64 [ 0, %1 ], [ %18, %15 ]
  %8 = icmp eq i64 %2, %7
  br i1 %8, label %15, label %9

9:                                                ; preds = %6
  %10 = getelementptr inbounds [8 x [8 x i8]], ptr @lengths, i64 0, i64 %2, i64 %7
  %11 = load i8, ptr %10, align 1, !tbaa !21
  %12 = icmp eq i8 %11, 0
  %13 = zext i8 %11 to i32
  %14 = select i1 %12, i32 1000, i32 %13
  br label %15

15:                                               ; preds = %9, %6
  %16 = phi i32 [ 0, %6 ], [ %14, %9 ]
  %17 = getelementptr inbounds [8 x [8 x i32]], ptr @between_all.d, i64 0, i64 %2, i64 %7
  store i32 %16, ptr %17, align 4, !tbaa !8
  %18 = add nuw nsw i64 %7, 1
  %19 = icmp eq i64 %18, 8
  br i1 %19, label %3, label %6, !llvm.loop !24

20:                                               ; preds = %3, %25
  %21 = phi i64 [ %26, %25 ], [ 0, %3 ]
  br label %22

22:                                               ; preds = %20, %28
  %23 = phi i64 [ 0, %20 ], [ %29, %28 ]
  %24 = getelementptr inbounds [8 x [8 x i32]], ptr @between_all.d, i64 0, i64 %23, i64 %21
  br label %31

25:                                               ; preds = %28
  %26 = add nuw nsw i64 %21, 1
  %27 = icmp eq i64 %26, 8
  br i1 %27, label %44, label %20, !llvm.loop !25

28:                                               ; preds = %41
  %29 = add nuw nsw i64 %23, 1
  %30 = icmp eq i64 %29, 8
  br i1 %30, label %25, label %22, !llvm.loop !26

31:                                               ; preds = %22, %41
  %32 = phi i64 [ 0, %22 ], [ %42, %41 ]
  %33 = load i32, ptr %24, align 4, !tbaa !8
  %34 = getelementptr inbounds [8 x [8 x i32]], ptr @between_all.d, i64 0, i64 %21, i64 %32
  %35 = load i32, ptr %34, align 4, !tbaa !8
  %36 = add nsw i32 %35, %33
  %37 = getelementptr inbounds [8 x [8 x i32]], ptr @between_all.d, i64 0, i64 %23, i64 %32
  %38 = load i32, ptr %37, align 4, !tbaa !8
  %39 = icmp slt i32 %36, %38
  br i1 %39, label %40, label %41

40:                                               ; preds = %31
  store i32 %36, ptr %37, align 4, !tbaa !8
  br label %41

41:                                               ; preds = %31, %40
  %42 = add nuw nsw i64 %32, 1
  %43 = icmp eq i64 %42, 8
  br i1 %43, label %28, label %31, !llvm.loop !27

44:                                               ; preds = %25, %48
  %45 = phi i64 [ %49, %48 ], [ 0, %25 ]
  %46 = phi i32 [ %56, %48 ], [ 0, %25 ]
  br label %51

47:                                               ; preds = %48
  ret i32 %56

48:                                               ; preds = %51
  %49 = add nuw nsw i64 %45, 1
  %50 = icmp eq i64 %49, 8
  br i1 %50, label %47, label %44, !llvm.loop !28

51:                                               ; preds = %44, %51
  %52 = phi i64 [ 0, %44 ], [ %57, %51 ]
  %53 = phi i32 [ %46, %44 ], [ %56, %51 ]
  %54 = getelementptr inbounds [8 x [8 x i32]], ptr @between_all.d, i64 0, i64 %45, i64 %52
  %55 = load i32, ptr %54, align 4, !tbaa !8
  %56 = add nsw i32 %55, %53
  %57 = add nuw nsw i64 %52, 1
  %58 = icmp eq i64 %57, 8
  br i1 %58, label %48, label %51, !llvm.loop !29
}

; Function Attrs: nofree norecurse nosync nounwind memory(readwrite, argmem: write, inaccessiblemem: none)
define dso_local signext i32 @groups(i32 noundef signext %0, i32 noundef signext %1) local_unnamed_addr #3 {
  %3 = icmp sgt i32 %0, 0
  br i1 %3, label %4, label %15

4:                                                ; preds = %2
  %5 = zext nneg i32 %0 to i64
  br label %9

6:                                                ; preds = %9
  br i1 %3, label %7, label %15

7:                                                ; preds = %6
  %8 = zext nneg i32 %0 to i64
  br label %17

9:                                                ; preds = %4, %9
  %10 = phi i64 [ 0, %4 ], [ %13, %9 ]
  %11 = getelementptr inbounds [32 x i32], ptr @parent, i64 0, i64 %10
  %12 = trunc nuw nsw i64 %10 to i32
  store i32 %12, ptr %11, align 4, !tbaa !8
  %13 = add nuw nsw i64 %10, 1
  %14 = icmp eq i64 %13, %5
  br i1 %14, label %6, label %9, !llvm.loop !30

15:                                               ; preds = %61, %2, %6
  %16 = phi i32 [ %0, %6 ], [ %0, %2 ], [ %62, %61 ]
  ret i32 %16

17:                                               ; preds = %7, %61
  %18 = phi i64 [ 0, %7 ], [ %63, %61 ]
  %19 = phi i32 [ %0, %7 ], [ %62, %61 ]
  %20 = getelementptr inbounds [32 x i32], ptr @parent, i64 0, i64 %18
  %21 = load i32, ptr %20, align 4, !tbaa !8
  %22 = zext i32 %21 to i64
  %23 = icmp eq i64 %18, %22
  %24 = trunc nuw nsw i64 %18 to i32
  br i1 %23, label %35, label %25

25:                                               ; preds = %17, %25
  %26 = phi i32 [ %33, %25 ], [ %21, %17 ]
  %27 = phi ptr [ %32, %25 ], [ %20, %17 ]
  %28 = sext i32 %26 to i64
  %29 = getelementptr inbounds [32 x i32], ptr @parent, i64 0, i64 %28
  %30 = load i32, ptr %29, align 4, !tbaa !8
  store i32 %30, ptr %27, align 4, !tbaa !8
  %31 = sext i32 %30 to i64
  %32 = getelementptr inbounds [32 x i32], ptr @parent, i64 0, i64 %31
  %33 = load i32, ptr %32, align 4, !tbaa !8
  %34 = icmp eq i32 %33, %30
  br i1 %34, label %35, label %25, !llvm.loop !31

35:                                               ; preds = %25, %17
  %36 = phi i32 [ %24, %17 ], [ %30, %25 ]
  %37 = trunc i64 %18 to i32
  %38 = add i32 %37, %1
  %39 = srem i32 %38, %0
  %40 = sext i32 %39 to i64
  %41 = getelementptr inbounds [32 x i32], ptr @parent, i64 0, i64 %40
  %42 = load i32, ptr %41, align 4, !tbaa !8
  %43 = icmp eq i32 %42, %39
  br i1 %43, label %54, label %44

44:                                               ; preds = %35, %44
  %45 = phi i32 [ %52, %44 ], [ %42, %35 ]
  %46 = phi ptr [ %51, %44 ], [ %41, %35 ]
  %47 = sext i32 %45 to i64
  %48 = getelementptr inbounds [32 x i32], ptr @parent, i64 0, i64 %47
  %49 = load i32, ptr %48, align 4, !tbaa !8
  store i32 %49, ptr %46, align 4, !tbaa !8
  %50 = sext i32 %49 to i64
  %51 = getelementptr inbounds [32 x i32], ptr @parent, i64 0, i64 %50
  %52 = load i32, ptr %51, align 4, !tbaa !8
  %53 = icmp eq i32 %52, %49
  br i1 %53, label %54, label %44, !llvm.loop !31

54:                                               ; preds = %44, %35
  %55 = phi i32 [ %39, %35 ], [ %49, %44 ]
  %56 = icmp eq i32 %36, %55
  br i1 %56, label %61, label %57

57:                                               ; preds = %54
  %58 = sext i32 %36 to i64
  %59 = getelementptr inbounds [32 x i32], ptr @parent, i64 0, i64 %58
  store i32 %55, ptr %59, align 4, !tbaa !8
  %60 = add nsw i32 %19, -1
  br label %61

61:                                               ; preds = %57, %54
  %62 = phi i32 [ %60, %57 ], [ %19, %54 ]
  %63 = add nuw nsw i64 %18, 1
  %64 = icmp eq i64 %63, %8
  br i1 %64, label %15, label %17, !llvm.loop !32
}

; Function Attrs: nofree nosync nounwind memory(readwrite, inaccessiblemem: none)
define dso_local signext range(i32 -129, 127) i32 @steps_to(i32 noundef signext %0, i32 noundef signext %1) local_unnamed_addr #4 {
  br label %3

3:                                                ; preds = %2, %13
  %4 = phi i64 [ 0, %2 ], [ %14, %13 ]
  br label %16

5:                                                ; preds = %13
  %6 = tail call fastcc signext i32 @walk(i32 noundef signext 1, i32 noundef signext 1, i32 noundef signext 1) #8
  %7 = sext i32 %0 to i64
  %8 = sext i32 %1 to i64
  %9 = getelementptr inbounds [6 x [9 x i8]], ptr @seen, i64 0, i64 %7, i64 %8
  %10 = load i8, ptr %9, align 1, !tbaa !21
  %11 = sext i8 %10 to i32
  %12 = add nsw i32 %11, -1
  ret i32 %12

13:                                               ; preds = %16
  %14 = add nuw nsw i64 %4, 1
  %15 = icmp eq i64 %14, 6
  br i1 %15, label %5, label %3, !llvm.loop !33

16:                                               ; preds = %3, %16
  %17 = phi i64 [ 0, %3 ], [ %19, %16 ]
  %18 = getelementptr inbounds [6 x [9 x i8]], ptr @seen, i64 0, i64 %4, i64 %17
  store i8 0, ptr %18, align 1, !tbaa !21
  %19 = add nuw nsw i64 %17, 1
  %20 = icmp eq i64 %19, 9
  br i1 %20, label %13, label %16, !llvm.loop !34
}

; Function Attrs: nofree nosync nounwind memory(readwrite, argmem: none, inaccessiblemem: none)
define internal fastcc signext i32 @walk(i32 noundef signext %0, i32 noundef signext %1, i32 noundef signext %2) unnamed_addr #5 {
  %4 = sext i32 %0 to i64
  %5 = sext i32 %1 to i64
  %6 = getelementptr inbounds [6 x [9 x i8]], ptr @maze, i64 0, i64 %4, i64 %5
  %7 = load i8, ptr %6, align 1, !tbaa !21
  %8 = icmp eq i8 %7, 35
  br i1 %8, label %39, label %9

9:                                                ; preds = %3
  %10 = add nsw i32 %0, 1
  %11 = add nsw i32 %0, -1
  br label %12

12:                                               ; preds = %9, %22
  %13 = phi i64 [ %5, %9 ], [ %31, %22 ]
  %14 = phi i32 [ %2, %9 ], [ %24, %22 ]
  %15 = phi i32 [ 0, %9 ], [ %35, %22 ]
  %16 = getelementptr inbounds [6 x [9 x i8]], ptr @seen, i64 0, i64 %4, i64 %13
  %17 = load i8, ptr %16, align 1, !tbaa !21
  %18 = icmp eq i8 %17, 0
  %19 = sext i8 %17 to i32
  %20 = icmp slt i32 %14, %19
  %21 = or i1 %18, %20
  br i1 %21, label %22, label %39

22:                                               ; preds = %12
  %23 = trunc i32 %14 to i8
  store i8 %23, ptr %16, align 1, !tbaa !21
  %24 = add nsw i32 %14, 1
  %25 = trunc nsw i64 %13 to i32
  %26 = tail call fastcc signext i32 @walk(i32 noundef signext %10, i32 noundef signext %25, i32 noundef signext %24) #8
  %27 = tail call fastcc signext i32 @walk(i32 noundef signext %11, i32 noundef signext %25, i32 noundef signext %24) #8
  %28 = trunc i64 %13 to i32
  %29 = add i32 %28, 1
  %30 = tail call fastcc signext i32 @walk(i32 noundef signext %0, i32 noundef signext %29, i32 noundef signext %24) #8
  %31 = add nsw i64 %13, -1
  %32 = add i32 %15, 1
  %33 = add i32 %32, %26
  %34 = add i32 %33, %27
  %35 = add i32 %34, %30
  %36 = getelementptr inbounds [6 x [9 x i8]], ptr @maze, i64 0, i64 %4, i64 %31
  %37 = load i8, ptr %36, align 1, !tbaa !21
  %38 = icmp eq i8 %37, 35
  br i1 %38, label %39, label %12

39:                                               ; preds = %12, %22, %3
  %40 = phi i32 [ 0, %3 ], [ %35, %22 ], [ %15, %12 ]
  ret i32 %40
}

; Function Attrs: nocallback nofree nosync nounwind speculatable willreturn memory(none)
declare i32 @llvm.smin.i32(i32, i32) #6

attributes #0 = { nofree norecurse nosync nounwind memory(none) "no-builtins" "no-trapping-math"="true" "stack-protector-buffer-size"="8" "target-cpu"="generic-rv64" "target-features"="+64bit,+m,+relax,+zmmul,-a,-b,-c,-d,-e,-experimental-smmpm,-experimental-smnpm,-experimental-ssnpm,-experimental-sspm,-experimental-ssqosid,-experimental-supm,-experimental-zacas,-experimental-zalasr,-experimental-zicfilp,-experimental-zicfiss,-f,-h,-shcounterenw,-shgatpa,-shtvala,-shvsatpa,-shvstvala,-shvstvecd,-smaia,-smcdeleg,-smcsrind,-smepmp,-smstateen,-ssaia,-ssccfg,-ssccptr,-sscofpmf,-sscounterenw,-sscsrind,-ssstateen,-ssstrict,-sstc,-sstvala,-sstvecd,-ssu64xl,-svade,-svadu,-svbare,-svinval,-svnapot,-svpbmt,-v,-xcvalu,-xcvbi,-xcvbitmanip,-xcvelw,-xcvmac,-xcvmem,-xcvsimd,-xsfcease,-xsfvcp,-xsfvfnrclipxfqf,-xsfvfwmaccqqq,-xsfvqmaccdod,-xsfvqmaccqoq,-xsifivecdiscarddlone,-xsifivecflushdlone,-xtheadba,-xtheadbb,-xtheadbs,-xtheadcmo,-xtheadcondmov,-xtheadfmemidx,-xtheadmac,-xtheadmemidx,-xtheadmempair,-xtheadsync,-xtheadvdot,-xventanacondops,-xwchc,-za128rs,-za64rs,-zaamo,-zabha,-zalrsc,-zama16b,-zawrs,-zba,-zbb,-zbc,-zbkb,-zbkc,-zbkx,-zbs,-zca,-zcb,-zcd,-zce,-zcf,-zcmop,-zcmp,-zcmt,-zdinx,-zfa,-zfbfmin,-zfh,-zfhmin,-zfinx,-zhinx,-zhinxmin,-zic64b,-zicbom,-zicbop,-zicboz,-ziccamoa,-ziccif,-zicclsm,-ziccrse,-zicntr,-zicond,-zicsr,-zifencei,-zihintntl,-zihintpause,-zihpm,-zimop,-zk,-zkn,-zknd,-zkne,-zknh,-zkr,-zks,-zksed,-zksh,-zkt,-ztso,-zvbb,-zvbc,-zve32f,-zve32x,-zve64d,-zve64f,-zve64x,-zvfbfmin,-zvfbfwma,-zvfh,-zvfhmin,-zvkb,-zvkg,-zvkn,-zvknc,-zvkned,-zvkng,-zvknha,-zvknhb,-zvks,-zvksc,-zvksed,-zvksg,-zvksh,-zvkt,-zvl1024b,-zvl128b,-zvl16384b,-zvl2048b,-zvl256b,-zvl32768b,-zvl32b,-zvl4096b,-zvl512b,-zvl64b,-zvl65536b,-zvl8192b" }
attributes #1 = { mustprogress nocallback nofree nosync nounwind willreturn memory(argmem: readwrite) }
attributes #2 = { nofree norecurse nosync nounwind memory(readwrite, argmem: none, inaccessiblemem: none) "no-builtins" "no-trapping-math"="true" "stack-protector-buffer-size"="8" "target-cpu"="generic-rv64" "target-features"="+64bit,+m,+relax,+zmmul,-a,-b,-c,-d,-e,-experimental-smmpm,-experimental-smnpm,-experimental-ssnpm,-experimental-sspm,-experimental-ssqosid,-experimental-supm,-experimental-zacas,-experimental-zalasr,-experimental-zicfilp,-experimental-zicfiss,-f,-h,-shcounterenw,-shgatpa,-shtvala,-shvsatpa,-shvstvala,-shvstvecd,-smaia,-smcdeleg,-smcsrind,-smepmp,-smstateen,-ssaia,-ssccfg,-ssccptr,-sscofpmf,-sscounterenw,-sscsrind,-ssstateen,-ssstrict,-sstc,-sstvala,-sstvecd,-ssu64xl,-svade,-svadu,-svbare,-svinval,-svnapot,-svpbmt,-v,-xcvalu,-xcvbi,-xcvbitmanip,-xcvelw,-xcvmac,-xcvmem,-xcvsimd,-xsfcease,-xsfvcp,-xsfvfnrclipxfqf,-xsfvfwmaccqqq,-xsfvqmaccdod,-xsfvqmaccqoq,-xsifivecdiscarddlone,-xsifivecflushdlone,-xtheadba,-xtheadbb,-xtheadbs,-xtheadcmo,-xtheadcondmov,-xtheadfmemidx,-xtheadmac,-xtheadmemidx,-xtheadmempair,-xtheadsync,-xtheadvdot,-xventanacondops,-xwchc,-za128rs,-za64rs,-zaamo,-zabha,-zalrsc,-zama16b,-zawrs,-zba,-zbb,-zbc,-zbkb,-zbkc,-zbkx,-zbs,-zca,-zcb,-zcd,-zce,-zcf,-zcmop,-zcmp,-zcmt,-zdinx,-zfa,-zfbfmin,-zfh,-zfhmin,-zfinx,-zhinx,-zhinxmin,-zic64b,-zicbom,-zicbop,-zicboz,-ziccamoa,-ziccif,-zicclsm,-ziccrse,-zicntr,-zicond,-zicsr,-zifencei,-zihintntl,-zihintpause,-zihpm,-zimop,-zk,-zkn,-zknd,-zkne,-zknh,-zkr,-zks,-zksed,-zksh,-zkt,-ztso,-zvbb,-zvbc,-zve32f,-zve32x,-zve64d,-zve64f,-zve64x,-zvfbfmin,-zvfbfwma,-zvfh,-zvfhmin,-zvkb,-zvkg,-zvkn,-zvknc,-zvkned,-zvkng,-zvknha,-zvknhb,-zvks,-zvksc,-zvksed,-zvksg,-zvksh,-zvkt,-zvl1024b,-zvl128b,-zvl16384b,-zvl2048b,-zvl256b,-zvl32768b,-zvl32b,-zvl4096b,-zvl512b,-zvl64b,-zvl65536b,-zvl8192b" }
attributes #3 = { nofree norecurse nosync nounwind memory(readwrite, argmem: write, inaccessiblemem: none) "no-builtins" "no-trapping-math"="true" "stack-protector-buffer-size"="8" "target-cpu"="generic-rv64" "target-features"="+64bit,+m,+relax,+zmmul,-a,-b,-c,-d,-e,-experimental-smmpm,-experimental-smnpm,-experimental-ssnpm,-experimental-sspm,-experimental-ssqosid,-experimental-supm,-experimental-zacas,-experimental-zalasr,-experimental-zicfilp,-experimental-zicfiss,-f,-h,-shcounterenw,-shgatpa,-shtvala,-shvsatpa,-shvstvala,-shvstvecd,-smaia,-smcdeleg,-smcsrind,-smepmp,-smstateen,-ssaia,-ssccfg,-ssccptr,-sscofpmf,-sscounterenw,-sscsrind,-ssstateen,-ssstrict,-sstc,-sstvala,-sstvecd,-ssu64xl,-svade,-svadu,-svbare,-svinval,-svnapot,-svpbmt,-v,-xcvalu,-xcvbi,-xcvbitmanip,-xcvelw,-xcvmac,-xcvmem,-xcvsimd,-xsfcease,-xsfvcp,-xsfvfnrclipxfqf,-xsfvfwmaccqqq,-xsfvqmaccdod,-xsfvqmaccqoq,-xsifivecdiscarddlone,-xsifivecflushdlone,-xtheadba,-xtheadbb,-xtheadbs,-xtheadcmo,-xtheadcondmov,-xtheadfmemidx,-xtheadmac,-xtheadmemidx,-xtheadmempair,-xtheadsync,-xtheadvdot,-xventanacondops,-xwchc,-za128rs,-za64rs,-zaamo,-zabha,-zalrsc,-zama16b,-zawrs,-zba,-zbb,-zbc,-zbkb,-zbkc,-zbkx,-zbs,-zca,-zcb,-zcd,-zce,-zcf,-zcmop,-zcmp,-zcmt,-zdinx,-zfa,-zfbfmin,-zfh,-zfhmin,-zfinx,-zhinx,-zhinxmin,-zic64b,-zicbom,-zicbop,-zicboz,-ziccamoa,-ziccif,-zicclsm,-ziccrse,-zicntr,-zicond,-zicsr,-zifencei,-zihintntl,-zihintpause,-zihpm,-zimop,-zk,-zkn,-zknd,-zkne,-zknh,-zkr,-zks,-zksed,-zksh,-zkt,-ztso,-zvbb,-zvbc,-zve32f,-zve32x,-zve64d,-zve64f,-zve64x,-zvfbfmin,-zvfbfwma,-zvfh,-zvfhmin,-zvkb,-zvkg,-zvkn,-zvknc,-zvkned,-zvkng,-zvknha,-zvknhb,-zvks,-zvksc,-zvksed,-zvksg,-zvksh,-zvkt,-zvl1024b,-zvl128b,-zvl16384b,-zvl2048b,-zvl256b,-zvl32768b,-zvl32b,-zvl4096b,-zvl512b,-zvl64b,-zvl65536b,-zvl8192b" }
attributes #4 = { nofree nosync nounwind memory(readwrite, inaccessiblemem: none) "no-builtins" "no-trapping-math"="true" "stack-protector-buffer-size"="8" "target-cpu"="generic-rv64" "target-features"="+64bit,+m,+relax,+zmmul,-a,-b,-c,-d,-e,-experimental-smmpm,-experimental-smnpm,-experimental-ssnpm,-experimental-sspm,-experimental-ssqosid,-experimental-supm,-experimental-zacas,-experimental-zalasr,-experimental-zicfilp,-experimental-zicfiss,-f,-h,-shcounterenw,-shgatpa,-shtvala,-shvsatpa,-shvstvala,-shvstvecd,-smaia,-smcdeleg,-smcsrind,-smepmp,-smstateen,-ssaia,-ssccfg,-ssccptr,-sscofpmf,-sscounterenw,-sscsrind,-ssstateen,-ssstrict,-sstc,-sstvala,-sstvecd,-ssu64xl,-svade,-svadu,-svbare,-svinval,-svnapot,-svpbmt,-v,-xcvalu,-xcvbi,-xcvbitmanip,-xcvelw,-xcvmac,-xcvmem,-xcvsimd,-xsfcease,-xsfvcp,-xsfvfnrclipxfqf,-xsfvfwmaccqqq,-xsfvqmaccdod,-xsfvqmaccqoq,-xsifivecdiscarddlone,-xsifivecflushdlone,-xtheadba,-xtheadbb,-xtheadbs,-xtheadcmo,-xtheadcondmov,-xtheadfmemidx,-xtheadmac,-xtheadmemidx,-xtheadmempair,-xtheadsync,-xtheadvdot,-xventanacondops,-xwchc,-za128rs,-za64rs,-zaamo,-zabha,-zalrsc,-zama16b,-zawrs,-zba,-zbb,-zbc,-zbkb,-zbkc,-zbkx,-zbs,-zca,-zcb,-zcd,-zce,-zcf,-zcmop,-zcmp,-zcmt,-zdinx,-zfa,-zfbfmin,-zfh,-zfhmin,-zfinx,-zhinx,-zhinxmin,-zic64b,-zicbom,-zicbop,-zicboz,-ziccamoa,-ziccif,-zicclsm,-ziccrse,-zicntr,-zicond,-zicsr,-zifencei,-zihintntl,-zihintpause,-zihpm,-zimop,-zk,-zkn,-zknd,-zkne,-zknh,-zkr,-zks,-zksed,-zksh,-zkt,-ztso,-zvbb,-zvbc,-zve32f,-zve32x,-zve64d,-zve64f,-zve64x,-zvfbfmin,-zvfbfwma,-zvfh,-zvfhmin,-zvkb,-zvkg,-zvkn,-zvknc,-zvkned,-zvkng,-zvknha,-zvknhb,-zvks,-zvksc,-zvksed,-zvksg,-zvksh,-zvkt,-zvl1024b,-zvl128b,-zvl16384b,-zvl2048b,-zvl256b,-zvl32768b,-zvl32b,-zvl4096b,-zvl512b,-zvl64b,-zvl65536b,-zvl8192b" }
attributes #5 = { nofree nosync nounwind memory(readwrite, argmem: none, inaccessiblemem: none) "no-builtins" "no-trapping-math"="true" "stack-protector-buffer-size"="8" "target-cpu"="generic-rv64" "target-features"="+64bit,+m,+relax,+zmmul,-a,-b,-c,-d,-e,-experimental-smmpm,-experimental-smnpm,-experimental-ssnpm,-experimental-sspm,-experimental-ssqosid,-experimental-supm,-experimental-zacas,-experimental-zalasr,-experimental-zicfilp,-experimental-zicfiss,-f,-h,-shcounterenw,-shgatpa,-shtvala,-shvsatpa,-shvstvala,-shvstvecd,-smaia,-smcdeleg,-smcsrind,-smepmp,-smstateen,-ssaia,-ssccfg,-ssccptr,-sscofpmf,-sscounterenw,-sscsrind,-ssstateen,-ssstrict,-sstc,-sstvala,-sstvecd,-ssu64xl,-svade,-svadu,-svbare,-svinval,-svnapot,-svpbmt,-v,-xcvalu,-xcvbi,-xcvbitmanip,-xcvelw,-xcvmac,-xcvmem,-xcvsimd,-xsfcease,-xsfvcp,-xsfvfnrclipxfqf,-xsfvfwmaccqqq,-xsfvqmaccdod,-xsfvqmaccqoq,-xsifivecdiscarddlone,-xsifivecflushdlone,-xtheadba,-xtheadbb,-xtheadbs,-xtheadcmo,-xtheadcondmov,-xtheadfmemidx,-xtheadmac,-xtheadmemidx,-xtheadmempair,-xtheadsync,-xtheadvdot,-xventanacondops,-xwchc,-za128rs,-za64rs,-zaamo,-zabha,-zalrsc,-zama16b,-zawrs,-zba,-zbb,-zbc,-zbkb,-zbkc,-zbkx,-zbs,-zca,-zcb,-zcd,-zce,-zcf,-zcmop,-zcmp,-zcmt,-zdinx,-zfa,-zfbfmin,-zfh,-zfhmin,-zfinx,-zhinx,-zhinxmin,-zic64b,-zicbom,-zicbop,-zicboz,-ziccamoa,-ziccif,-zicclsm,-ziccrse,-zicntr,-zicond,-zicsr,-zifencei,-zihintntl,-zihintpause,-zihpm,-zimop,-zk,-zkn,-zknd,-zkne,-zknh,-zkr,-zks,-zksed,-zksh,-zkt,-ztso,-zvbb,-zvbc,-zve32f,-zve32x,-zve64d,-zve64f,-zve64x,-zvfbfmin,-zvfbfwma,-zvfh,-zvfhmin,-zvkb,-zvkg,-zvkn,-zvknc,-zvkned,-zvkng,-zvknha,-zvknhb,-zvks,-zvksc,-zvksed,-zvksg,-zvksh,-zvkt,-zvl1024b,-zvl128b,-zvl16384b,-zvl2048b,-zvl256b,-zvl32768b,-zvl32b,-zvl4096b,-zvl512b,-zvl64b,-zvl65536b,-zvl8192b" }
attributes #6 = { nocallback nofree nosync nounwind speculatable willreturn memory(none) }
attributes #7 = { nounwind }
attributes #8 = { nobuiltin "no-builtins" }

!llvm.module.flags = !{!0, !1, !2, !4, !5, !6}
!llvm.ident = !{!7}

!0 = !{i32 1, !"wchar_size", i32 4}
!1 = !{i32 1, !"target-abi", !"lp64"}
!2 = !{i32 6, !"riscv-isa", !3}
!3 = !{!"rv64i2p1_m2p0_zmmul1p0"}
!4 = !{i32 8, !"PIC Level", i32 2}
!5 = !{i32 7, !"PIE Level", i32 2}
!6 = !{i32 8, !"SmallDataLimit", i32 8}
!7 = !{!"Debian clang version 19.1.7 (3~deb12u1)"}
!8 = !{!9, !9, i64 0}
!9 = !{!"int", !10, i64 0}
!10 = !{!"omnipotent char", !11, i64 0}
!11 = !{!"Simple C/C++ TBAA"}
!12 = !{!13, !13, i64 0}
!13 = !{!"_Bool", !10, i64 0}
!14 = distinct !{!14, !15, !16}
!15 = !{!"llvm.loop.mustprogress"}
!16 = !{!"llvm.loop.unroll.disable"}
!17 = !{i8 0, i8 2}
!18 = !{}
!19 = distinct !{!19, !15, !16}
!20 = distinct !{!20, !15, !16}
!21 = !{!10, !10, i64 0}
!22 = distinct !{!22, !15, !16}
!23 = distinct !{!23, !15, !16}
!24 = distinct !{!24, !15, !16}
!25 = distinct !{!25, !15, !16}
!26 = distinct !{!26, !15, !16}
!27 = distinct !{!27, !15, !16}
!28 = distinct !{!28, !15, !16}
!29 = distinct !{!29, !15, !16}
!30 = distinct !{!30, !15, !16}
!31 = distinct !{!31, !15, !16}
!32 = distinct !{!32, !15, !16}
!33 = distinct !{!33, !15, !16}
!34 = distinct !{!34, !15, !16}
