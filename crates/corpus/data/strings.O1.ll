; ModuleID = 'strings.c'
source_filename = "strings.c"
target datalayout = "e-m:e-p:64:64-i64:64-i128:128-n32:64-S128"
target triple = "riscv64-unknown-linux-gnu"

@lines = internal unnamed_addr constant [4 x ptr] [ptr @.str, ptr @.str.1, ptr @.str.2, ptr @.str.3], align 8
@.str = private unnamed_addr constant [26 x i8] c"able was I ere I saw elba\00", align 1
@.str.1 = private unnamed_addr constant [13 x i8] c"a man a plan\00", align 1
@.str.2 = private unnamed_addr constant [1 x i8] zeroinitializer, align 1
@.str.3 = private unnamed_addr constant [15 x i8] c"  two   words \00", align 1
@buffer = internal unnamed_addr global [24 x i8] zeroinitializer, align 1
@.str.4 = private unnamed_addr constant [17 x i8] c"0123456789abcdef\00", align 1

; Function Attrs: nofree norecurse nosync nounwind memory(read, inaccessiblemem: none)
define dso_local signext i32 @length_of(i32 noundef signext %0) local_unnamed_addr #0 {
  %2 = and i32 %0, 3
  %3 = zext nneg i32 %2 to i64
  %4 = getelementptr inbounds [4 x ptr], ptr @lines, i64 0, i64 %3
  %5 = load ptr, ptr %4, align 8, !tbaa !8
  br label %6

6:                                                ; preds = %6, %1
  %7 = phi ptr [ %5, %1 ], [ %10, %6 ]
  %8 = load i8, ptr %7, align 1, !tbaa !12
  %9 = icmp eq i8 %8, 0
  %10 = getelementptr inbounds i8, ptr %7, i64 1
  br i1 %9, label %11, label %6, !llvm.loop !13

11:                                               ; preds = %6
  %12 = ptrtoint ptr %7 to i64
  %13 = ptrtoint ptr %5 to i64
  %14 = sub i64 %12, %13
  %15 = trunc i64 %14 to i32
  ret i32 %15
}

; Function Attrs: nofree norecurse nosync nounwind memory(read, inaccessiblemem: none)
define dso_local signext i32 @words_of(i32 noundef signext %0) local_unnamed_addr #0 {
  %2 = and i32 %0, 3
  %3 = zext nneg i32 %2 to i64
  %4 = getelementptr inbounds [4 x ptr], ptr @lines, i64 0, i64 %3
  %5 = load ptr, ptr %4, align 8, !tbaa !8
  br label %6

6:                                                ; preds = %16, %1
  %7 = phi i32 [ 0, %1 ], [ %17, %16 ]
  %8 = phi i32 [ 0, %1 ], [ %18, %16 ]
  %9 = phi ptr [ %5, %1 ], [ %19, %16 ]
  %10 = load i8, ptr %9, align 1, !tbaa !12
  switch i8 %10, label %12 [
    i8 0, label %11
    i8 32, label %16
  ]

11:                                               ; preds = %6
  ret i32 %7

12:                                               ; preds = %6
  %13 = icmp eq i32 %8, 0
  %14 = zext i1 %13 to i32
  %15 = add nsw i32 %7, %14
  br label %16

16:                                               ; preds = %12, %6
  %17 = phi i32 [ %7, %6 ], [ %15, %12 ]
  %18 = phi i32 [ 0, %6 ], [ 1, %12 ]
  %19 = getelementptr inbounds i8, ptr %9, i64 1
  br label %6, !llvm.loop !16
}

; Function Attrs: nofree norecurse nosync nounwind memory(read, inaccessiblemem: none)
define dso_local zeroext i1 @is_palindrome(i32 noundef signext %0) local_unnamed_addr #0 {
  %2 = and i32 %0, 3
  %3 = zext nneg i32 %2 to i64
  %4 = getelementptr inbounds [4 x ptr], ptr @lines, i64 0, i64 %3
  %5 = load ptr, ptr %4, align 8, !tbaa !8
  br label %6

6:                                                ; preds = %6, %1
  %7 = phi i32 [ %12, %6 ], [ -1, %1 ]
  %8 = phi ptr [ %11, %6 ], [ %5, %1 ]
  %9 = load i8, ptr %8, align 1, !tbaa !12
  %10 = icmp eq i8 %9, 0
  %11 = getelementptr inbounds i8, ptr %8, i64 1
  %12 = add i32 %7, 1
  br i1 %10, label %13, label %6, !llvm.loop !13

13:                                               ; preds = %6
  %14 = ptrtoint ptr %8 to i64
  %15 = ptrtoint ptr %5 to i64
  %16 = sub i64 %14, %15
  %17 = trunc i64 %16 to i32
  %18 = add nsw i32 %17, -1
  %19 = icmp sgt i32 %17, 1
  br i1 %19, label %20, label %41

20:                                               ; preds = %13
  %21 = sext i32 %7 to i64
  br label %22

22:                                               ; preds = %20, %32
  %23 = phi i64 [ 0, %20 ], [ %33, %32 ]
  %24 = phi i64 [ %21, %20 ], [ %35, %32 ]
  %25 = phi i32 [ %18, %20 ], [ %36, %32 ]
  %26 = phi i32 [ 0, %20 ], [ %34, %32 ]
  %27 = getelementptr inbounds i8, ptr %5, i64 %23
  %28 = load i8, ptr %27, align 1, !tbaa !12
  %29 = getelementptr inbounds i8, ptr %5, i64 %24
  %30 = load i8, ptr %29, align 1, !tbaa !12
  %31 = icmp eq i8 %28, %30
  br i1 %31, label %32, label %38

32:                                               ; preds = %22
  %33 = add nuw nsw i64 %23, 1
  %34 = add nuw nsw i32 %26, 1
  %35 = add nsw i64 %24, -1
  %36 = add nsw i32 %25, -1
  %37 = icmp slt i64 %33, %35
  br i1 %37, label %22, label %41, !llvm.loop !17

38:                                               ; preds = %22
  %39 = trunc nuw nsw i64 %24 to i32
  %40 = trunc nuw nsw i64 %23 to i32
  br label %41

41:                                               ; preds = %38, %32, %13
  %42 = phi i32 [ 0, %13 ], [ %40, %38 ], [ %34, %32 ]
  %43 = phi i32 [ %18, %13 ], [ %39, %38 ], [ %36, %32 ]
  %44 = icmp sge i32 %42, %43
  ret i1 %44
}

; Function Attrs: nofree norecurse nosync nounwind memory(readwrite, inaccessiblemem: none)
define dso_local i64 @digit_sum(i64 noundef %0, i32 noundef signext %1) local_unnamed_addr #1 {
  %3 = tail call i64 @llvm.abs.i64(i64 %0, i1 false)
  store i8 0, ptr getelementptr inbounds (i8, ptr @buffer, i64 23), align 1, !tbaa !12
  %4 = zext i32 %1 to i64
  br label %5

5:                                                ; preds = %5, %2
  %6 = phi ptr [ getelementptr inbounds (i8, ptr @buffer, i64 23), %2 ], [ %14, %5 ]
  %7 = phi i64 [ %3, %2 ], [ %9, %5 ]
  %8 = freeze i64 %7
  %9 = udiv i64 %8, %4
  %10 = mul i64 %9, %4
  %11 = sub i64 %8, %10
  %12 = getelementptr inbounds [17 x i8], ptr @.str.4, i64 0, i64 %11
  %13 = load i8, ptr %12, align 1, !tbaa !12
  %14 = getelementptr inbounds i8, ptr %6, i64 -1
  store i8 %13, ptr %14, align 1, !tbaa !12
  %15 = icmp ult i64 %7, %4
  br i1 %15, label %16, label %5, !llvm.loop !18

16:                                               ; preds = %5
  %17 = icmp slt i64 %0, 0
  br i1 %17, label %18, label %20

18:                                               ; preds = %16
  %19 = getelementptr inbounds i8, ptr %6, i64 -2
  store i8 45, ptr %19, align 1, !tbaa !12
  br label %20

20:                                               ; preds = %16, %18
  %21 = phi ptr [ %19, %18 ], [ %14, %16 ]
  %22 = load i8, ptr %21, align 1, !tbaa !12
  %23 = icmp eq i8 %22, 0
  br i1 %23, label %24, label %26

24:                                               ; preds = %26, %20
  %25 = phi i64 [ 0, %20 ], [ %32, %26 ]
  ret i64 %25

26:                                               ; preds = %20, %26
  %27 = phi i8 [ %34, %26 ], [ %22, %20 ]
  %28 = phi ptr [ %33, %26 ], [ %21, %20 ]
  %29 = phi i64 [ %32, %26 ], [ 0, %20 ]
  %30 = mul nsw i64 %29, 3
  %31 = zext i8 %27 to i64
  %32 = add nsw i64 %30, %31
  %33 = getelementptr inbounds i8, ptr %28, i64 1
  %34 = load i8, ptr %33, align 1, !tbaa !12
  %35 = icmp eq i8 %34, 0
  br i1 %35, label %24, label %26, !llvm.loop !19
}

; Function Attrs: nofree norecurse nosync nounwind memory(readwrite, inaccessiblemem: none)
define dso_local i64 @there_and_back(i64 noundef %0) local_unnamed_addr #1 {
  %2 = tail call i64 @llvm.abs.i64(i64 %0, i1 false)
  store i8 0, ptr getelementptr inbounds (i8, ptr @buffer, i64 23), align 1, !tbaa !12
  br label %3

3:                                                ; preds = %3, %1
  %4 = phi ptr [ getelementptr inbounds (i8, ptr @buffer, i64 23), %1 ], [ %12, %3 ]
  %5 = phi i64 [ %2, %1 ], [ %7, %3 ]
  %6 = freeze i64 %5
  %7 = udiv i64 %6, 10
  %8 = mul i64 %7, 10
  %9 = sub i64 %6, %8
  %10 = getelementptr inbounds [17 x i8], ptr @.str.4, i64 0, i64 %9
  %11 = load i8, ptr %10, align 1, !tbaa !12
  %12 = getelementptr inbounds i8, ptr %4, i64 -1
  store i8 %11, ptr %12, align 1, !tbaa !12
  %13 = icmp ult i64 %5, 10
  br i1 %13, label %14, label %3, !llvm.loop !18

14:                                               ; preds = %3
  %15 = icmp slt i64 %0, 0
  br i1 %15, label %16, label %18

16:                                               ; preds = %14
  %17 = getelementptr inbounds i8, ptr %4, i64 -2
  store i8 45, ptr %17, align 1, !tbaa !12
  br label %18

18:                                               ; preds = %14, %16
  %19 = phi ptr [ %17, %16 ], [ %12, %14 ]
  %20 = load i8, ptr %19, align 1, !tbaa !12
  %21 = icmp eq i8 %20, 45
  %22 = zext i1 %21 to i64
  %23 = getelementptr inbounds i8, ptr %19, i64 %22
  %24 = load i8, ptr %23, align 1, !tbaa !12
  %25 = add i8 %24, -48
  %26 = icmp ult i8 %25, 10
  br i1 %26, label %27, label %39

27:                                               ; preds = %18, %27
  %28 = phi i8 [ %36, %27 ], [ %24, %18 ]
  %29 = phi ptr [ %35, %27 ], [ %23, %18 ]
  %30 = phi i64 [ %34, %27 ], [ 0, %18 ]
  %31 = mul nsw i64 %30, 10
  %32 = and i8 %28, 15
  %33 = zext nneg i8 %32 to i64
  %34 = add nsw i64 %31, %33
  %35 = getelementptr inbounds i8, ptr %29, i64 1
  %36 = load i8, ptr %35, align 1, !tbaa !12
  %37 = add i8 %36, -48
  %38 = icmp ult i8 %37, 10
  br i1 %38, label %27, label %39, !llvm.loop !20

39:                                               ; preds = %27, %18
  %40 = phi i64 [ 0, %18 ], [ %34, %27 ]
  %41 = sub nsw i64 0, %40
  %42 = select i1 %21, i64 %41, i64 %40
  ret i64 %42
}

; Function Attrs: nofree norecurse nosync nounwind memory(read, inaccessiblemem: none)
define dso_local signext range(i32 -255, 256) i32 @compared(i32 noundef signext %0, i32 noundef signext %1) local_unnamed_addr #0 {
  %3 = and i32 %0, 3
  %4 = zext nneg i32 %3 to i64
  %5 = getelementptr inbounds [4 x ptr], ptr @lines, i64 0, i64 %4
  %6 = load ptr, ptr %5, align 8, !tbaa !8
  %7 = and i32 %1, 3
  %8 = zext nneg i32 %7 to i64
  %9 = getelementptr inbounds [4 x ptr], ptr @lines, i64 0, i64 %8
  %10 = load ptr, ptr %9, align 8, !tbaa !8
  %11 = load i8, ptr %6, align 1, !tbaa !12
  %12 = icmp eq i8 %11, 0
  br i1 %12, label %24, label %13

13:                                               ; preds = %2, %19
  %14 = phi i8 [ %22, %19 ], [ %11, %2 ]
  %15 = phi ptr [ %21, %19 ], [ %10, %2 ]
  %16 = phi ptr [ %20, %19 ], [ %6, %2 ]
  %17 = load i8, ptr %15, align 1, !tbaa !12
  %18 = icmp eq i8 %14, %17
  br i1 %18, label %19, label %24

19:                                               ; preds = %13
  %20 = getelementptr inbounds i8, ptr %16, i64 1
  %21 = getelementptr inbounds i8, ptr %15, i64 1
  %22 = load i8, ptr %20, align 1, !tbaa !12
  %23 = icmp eq i8 %22, 0
  br i1 %23, label %24, label %13, !llvm.loop !21

24:                                               ; preds = %13, %19, %2
  %25 = phi ptr [ %10, %2 ], [ %15, %13 ], [ %21, %19 ]
  %26 = phi i8 [ %11, %2 ], [ %14, %13 ], [ %22, %19 ]
  %27 = zext i8 %26 to i32
  %28 = load i8, ptr %25, align 1, !tbaa !12
  %29 = zext i8 %28 to i32
  %30 = sub nsw i32 %27, %29
  ret i32 %30
}

; Function Attrs: nocallback nofree nosync nounwind speculatable willreturn memory(none)
declare i64 @llvm.abs.i64(i64, i1 immarg) #2

attributes #0 = { nofree norecurse nosync nounwind memory(read, inaccessiblemem: none) "no-builtins" "no-trapping-math"="true" "stack-protector-buffer-size"="8" "target-cpu"="generic-rv64" "target-features"="+64bit,+m,+relax,+zmmul,-a,-b,-c,-d,-e,-experimental-smmpm,-experimental-smnpm,-experimental-ssnpm,-experimental-sspm,-experimental-ssqosid,-experimental-supm,-experimental-zacas,-experimental-zalasr,-experimental-zicfilp,-experimental-zicfiss,-f,-h,-shcounterenw,-shgatpa,-shtvala,-shvsatpa,-shvstvala,-shvstvecd,-smaia,-smcdeleg,-smcsrind,-smepmp,-smstateen,-ssaia,-ssccfg,-ssccptr,-sscofpmf,-sscounterenw,-sscsrind,-ssstateen,-ssstrict,-sstc,-sstvala,-sstvecd,-ssu64xl,-svade,-svadu,-svbare,-svinval,-svnapot,-svpbmt,-v,-xcvalu,-xcvbi,-xcvbitmanip,-xcvelw,-xcvmac,-xcvmem,-xcvsimd,-xsfcease,-xsfvcp,-xsfvfnrclipxfqf,-xsfvfwmaccqqq,-xsfvqmaccdod,-xsfvqmaccqoq,-xsifivecdiscarddlone,-xsifivecflushdlone,-xtheadba,-xtheadbb,-xtheadbs,-xtheadcmo,-xtheadcondmov,-xtheadfmemidx,-xtheadmac,-xtheadmemidx,-xtheadmempair,-xtheadsync,-xtheadvdot,-xventanacondops,-xwchc,-za128rs,-za64rs,-zaamo,-zabha,-zalrsc,-zama16b,-zawrs,-zba,-zbb,-zbc,-zbkb,-zbkc,-zbkx,-zbs,-zca,-zcb,-zcd,-zce,-zcf,-zcmop,-zcmp,-zcmt,-zdinx,-zfa,-zfbfmin,-zfh,-zfhmin,-zfinx,-zhinx,-zhinxmin,-zic64b,-zicbom,-zicbop,-zicboz,-ziccamoa,-ziccif,-zicclsm,-ziccrse,-zicntr,-zicond,-zicsr,-zifencei,-zihintntl,-zihintpause,-zihpm,-zimop,-zk,-zkn,-zknd,-zkne,-zknh,-zkr,-zks,-zksed,-zksh,-zkt,-ztso,-zvbb,-zvbc,-zve32f,-zve32x,-zve64d,-zve64f,-zve64x,-zvfbfmin,-zvfbfwma,-zvfh,-zvfhmin,-zvkb,-zvkg,-zvkn,-zvknc,-zvkned,-zvkng,-zvknha,-zvknhb,-zvks,-zvksc,-zvksed,-zvksg,-zvksh,-zvkt,-zvl1024b,-zvl128b,-zvl16384b,-zvl2048b,-zvl256b,-zvl32768b,-zvl32b,-zvl4096b,-zvl512b,-zvl64b,-zvl65536b,-zvl8192b" }
attributes #1 = { nofree norecurse nosync nounwind memory(readwrite, inaccessiblemem: none) "no-builtins" "no-trapping-math"="true" "stack-protector-buffer-size"="8" "target-cpu"="generic-rv64" "target-features"="+64bit,+m,+relax,+zmmul,-a,-b,-c,-d,-e,-experimental-smmpm,-experimental-smnpm,-experimental-ssnpm,-experimental-sspm,-experimental-ssqosid,-experimental-supm,-experimental-zacas,-experimental-zalasr,-experimental-zicfilp,-experimental-zicfiss,-f,-h,-shcounterenw,-shgatpa,-shtvala,-shvsatpa,-shvstvala,-shvstvecd,-smaia,-smcdeleg,-smcsrind,-smepmp,-smstateen,-ssaia,-ssccfg,-ssccptr,-sscofpmf,-sscounterenw,-sscsrind,-ssstateen,-ssstrict,-sstc,-sstvala,-sstvecd,-ssu64xl,-svade,-svadu,-svbare,-svinval,-svnapot,-svpbmt,-v,-xcvalu,-xcvbi,-xcvbitmanip,-xcvelw,-xcvmac,-xcvmem,-xcvsimd,-xsfcease,-xsfvcp,-xsfvfnrclipxfqf,-xsfvfwmaccqqq,-xsfvqmaccdod,-xsfvqmaccqoq,-xsifivecdiscarddlone,-xsifivecflushdlone,-xtheadba,-xtheadbb,-xtheadbs,-xtheadcmo,-xtheadcondmov,-xtheadfmemidx,-xtheadmac,-xtheadmemidx,-xtheadmempair,-xtheadsync,-xtheadvdot,-xventanacondops,-xwchc,-za128rs,-za64rs,-zaamo,-zabha,-zalrsc,-zama16b,-zawrs,-zba,-zbb,-zbc,-zbkb,-zbkc,-zbkx,-zbs,-zca,-zcb,-zcd,-zce,-zcf,-zcmop,-zcmp,-zcmt,-zdinx,-zfa,-zfbfmin,-zfh,-zfhmin,-zfinx,-zhinx,-zhinxmin,-zic64b,-zicbom,-zicbop,-zicboz,-ziccamoa,-ziccif,-zicclsm,-ziccrse,-zicntr,-zicond,-zicsr,-zifencei,-zihintntl,-zihintpause,-zihpm,-zimop,-zk,-zkn,-zknd,-zkne,-zknh,-zkr,-zks,-zksed,-zksh,-zkt,-ztso,-zvbb,-zvbc,-zve32f,-zve32x,-zve64d,-zve64f,-zve64x,-zvfbfmin,-zvfbfwma,-zvfh,-zvfhmin,-zvkb,-zvkg,-zvkn,-zvknc,-zvkned,-zvkng,-zvknha,-zvknhb,-zvks,-zvksc,-zvksed,-zvksg,-zvksh,-zvkt,-zvl1024b,-zvl128b,-zvl16384b,-zvl2048b,-zvl256b,-zvl32768b,-zvl32b,-zvl4096b,-zvl512b,-zvl64b,-zvl65536b,-zvl8192b" }
attributes #2 = { nocallback nofree nosync nounwind speculatable willreturn memory(none) }

!llvm.module.flags = !{!0, !1, !2, !4, !5, !6}
!llvm.ident = !{!7}

!0 = !{i32 1, !"wchar_size", i32 4}
!1 = !{i32 1, !"target-abi", !"lp64"}
!2 = !{i32 6, !"riscv-isa", !3}
!3 = !{!"rv64i2p1_m2p0_zmmul1p0"}
!4 = !{i32 8, !"PIC Level", i32 2}
!5 = !{i32 7, !"PIE Level", i32 2}
!6 = !{i32 8, !"SmallDataLimit", i32 8}
!7 = !{!"Debian clang version 19.1.7 (3~deb12u1)"}
!8 = !{!9, !9, i64 0}
!9 = !{!"any pointer", !10, i64 0}
!10 = !{!"omnipotent char", !11, i64 0}
!11 = !{!"Simple C/C++ TBAA"}
!12 = !{!10, !10, i64 0}
!13 = distinct !{!13, !14, !15}
!14 = !{!"llvm.loop.mustprogress"}
!15 = !{!"llvm.loop.unroll.disable"}
!16 = distinct !{!16, !14, !15}
!17 = distinct !{!17, !14, !15}
!18 = distinct !{!18, !14, !15}
!19 = distinct !{!19, !14, !15}
!20 = distinct !{!20, !14, !15}
!21 = distinct !{!21, !14, !15}
