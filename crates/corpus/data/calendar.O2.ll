; ModuleID = 'calendar.c'
source_filename = "calendar.c"
target datalayout = "e-m:e-p:64:64-i64:64-i128:128-n32:64-S128"
target triple = "riscv64-unknown-linux-gnu"

@lengths = internal unnamed_addr constant [12 x i8] c"\1F\1C\1F\1E\1F\1E\1F\1F\1E\1F\1E\1F", align 1
@switch.table.season = private unnamed_addr constant [12 x i32] [i32 0, i32 0, i32 1, i32 1, i32 1, i32 2, i32 2, i32 2, i32 3, i32 3, i32 3, i32 0], align 4

; Function Attrs: mustprogress nofree norecurse nosync nounwind willreturn memory(none)
define dso_local noundef zeroext i1 @is_leap(i32 noundef signext %0) local_unnamed_addr #0 {
  %2 = and i32 %0, 3
  %3 = icmp ne i32 %2, 0
  %4 = srem i32 %0, 100
  %5 = icmp eq i32 %4, 0
  %6 = or i1 %3, %5
  br i1 %6, label %7, label %10

7:                                                ; preds = %1
  %8 = srem i32 %0, 400
  %9 = icmp eq i32 %8, 0
  br label %10

10:                                               ; preds = %1, %7
  %11 = phi i1 [ %9, %7 ], [ true, %1 ]
  ret i1 %11
}

; Function Attrs: mustprogress nofree norecurse nosync nounwind willreturn memory(none)
define dso_local signext range(i32 0, 256) i32 @days_in(i32 noundef signext %0, i32 noundef signext %1) local_unnamed_addr #0 {
  %3 = add i32 %1, -13
  %4 = icmp ult i32 %3, -12
  br i1 %4, label %22, label %5

5:                                                ; preds = %2
  %6 = icmp eq i32 %1, 2
  br i1 %6, label %7, label %16

7:                                                ; preds = %5
  %8 = and i32 %0, 3
  %9 = icmp eq i32 %8, 0
  %10 = srem i32 %0, 100
  %11 = icmp ne i32 %10, 0
  %12 = and i1 %9, %11
  %13 = srem i32 %0, 400
  %14 = icmp eq i32 %13, 0
  %15 = or i1 %14, %12
  br i1 %15, label %22, label %16

16:                                               ; preds = %7, %5
  %17 = add nsw i32 %1, -1
  %18 = zext nneg i32 %17 to i64
  %19 = getelementptr inbounds [12 x i8], ptr @lengths, i64 0, i64 %18
  %20 = load i8, ptr %19, align 1, !tbaa !8
  %21 = zext i8 %20 to i32
  br label %22

22:                                               ; preds = %7, %16, %2
  %23 = phi i32 [ 0, %2 ], [ %21, %16 ], [ 29, %7 ]
  ret i32 %23
}

; Function Attrs: mustprogress nofree norecurse nosync nounwind willreturn memory(none)
define dso_local range(i64 -9223372036854775808, 9223372036854056340) i64 @day_number(i64 noundef %0, i32 noundef signext %1, i32 noundef signext %2) local_unnamed_addr #0 {
  %4 = icmp ult i32 %1, 3
  %5 = sext i1 %4 to i64
  %6 = add i64 %5, %0
  %7 = add nsw i64 %6, -399
  %8 = icmp slt i64 %6, 0
  %9 = select i1 %8, i64 %7, i64 %6
  %10 = sdiv i64 %9, 400
  %11 = mul i64 %10, 4294966896
  %12 = add i64 %11, %6
  %13 = trunc i64 %12 to i32
  %14 = icmp ugt i32 %1, 2
  %15 = select i1 %14, i32 -3, i32 9
  %16 = add i32 %15, %1
  %17 = mul i32 %16, 153
  %18 = add i32 %17, 2
  %19 = udiv i32 %18, 5
  %20 = mul i32 %13, 365
  %21 = lshr i32 %13, 2
  %22 = udiv i32 %13, 100
  %23 = add i32 %2, -1
  %24 = add i32 %23, %19
  %25 = add i32 %24, %21
  %26 = add i32 %25, %20
  %27 = sub i32 %26, %22
  %28 = mul nsw i64 %10, 146097
  %29 = zext i32 %27 to i64
  %30 = add i64 %28, -719468
  %31 = add i64 %30, %29
  ret i64 %31
}

; Function Attrs: mustprogress nofree norecurse nosync nounwind willreturn memory(none)
define dso_local signext range(i32 0, 7) i32 @weekday(i64 noundef %0, i32 noundef signext %1, i32 noundef signext %2) local_unnamed_addr #0 {
  %4 = icmp ult i32 %1, 3
  %5 = sext i1 %4 to i64
  %6 = add i64 %5, %0
  %7 = add nsw i64 %6, -399
  %8 = icmp slt i64 %6, 0
  %9 = select i1 %8, i64 %7, i64 %6
  %10 = sdiv i64 %9, 400
  %11 = mul i64 %10, 4294966896
  %12 = add i64 %11, %6
  %13 = trunc i64 %12 to i32
  %14 = icmp ugt i32 %1, 2
  %15 = select i1 %14, i32 -3, i32 9
  %16 = add i32 %15, %1
  %17 = mul i32 %16, 153
  %18 = add i32 %17, 2
  %19 = udiv i32 %18, 5
  %20 = mul i32 %13, 365
  %21 = lshr i32 %13, 2
  %22 = udiv i32 %13, 100
  %23 = add i32 %2, -1
  %24 = add i32 %23, %19
  %25 = add i32 %24, %21
  %26 = add i32 %25, %20
  %27 = sub i32 %26, %22
  %28 = mul nsw i64 %10, 146097
  %29 = zext i32 %27 to i64
  %30 = add i64 %28, -719468
  %31 = add i64 %30, %29
  %32 = icmp sgt i64 %31, -5
  br i1 %32, label %33, label %36

33:                                               ; preds = %3
  %34 = add nsw i64 %31, 4
  %35 = urem i64 %34, 7
  br label %40

36:                                               ; preds = %3
  %37 = sub nuw nsw i64 -5, %31
  %38 = urem i64 %37, 7
  %39 = sub nuw nsw i64 6, %38
  br label %40

40:                                               ; preds = %36, %33
  %41 = phi i64 [ %35, %33 ], [ %39, %36 ]
  %42 = trunc nuw nsw i64 %41 to i32
  ret i32 %42
}

; Function Attrs: mustprogress nofree norecurse nosync nounwind willreturn memory(none)
define dso_local signext range(i32 -1, 4) i32 @season(i32 noundef signext %0) local_unnamed_addr #0 {
  %2 = add i32 %0, -1
  %3 = icmp ult i32 %2, 12
  br i1 %3, label %4, label %8

4:                                                ; preds = %1
  %5 = zext nneg i32 %2 to i64
  %6 = getelementptr inbounds [12 x i32], ptr @switch.table.season, i64 0, i64 %5
  %7 = load i32, ptr %6, align 4
  br label %8

8:                                                ; preds = %1, %4
  %9 = phi i32 [ %7, %4 ], [ -1, %1 ]
  ret i32 %9
}

; Function Attrs: mustprogress nofree norecurse nosync nounwind willreturn memory(none)
define dso_local range(i64 -7861937635328, 7861937631668) i64 @seconds(i32 noundef signext %0, i32 noundef signext %1, i32 noundef signext %2) local_unnamed_addr #0 {
  %4 = sext i32 %0 to i64
  %5 = mul nsw i64 %4, 3600
  %6 = sext i32 %1 to i64
  %7 = mul nsw i64 %6, 60
  %8 = add nsw i64 %7, %5
  %9 = sext i32 %2 to i64
  %10 = add nsw i64 %8, %9
  ret i64 %10
}

; Function Attrs: mustprogress nofree norecurse nosync nounwind willreturn memory(none)
define dso_local signext range(i32 0, 235960) i32 @clock_of(i64 noundef %0) local_unnamed_addr #0 {
  %2 = srem i64 %0, 86400
  %3 = icmp slt i64 %2, 0
  %4 = add nsw i64 %2, 86400
  %5 = select i1 %3, i64 %4, i64 %2
  %6 = trunc nsw i64 %5 to i32
  %7 = udiv i32 %6, 3600
  %8 = mul nuw nsw i32 %7, 10000
  %9 = udiv i32 %6, 60
  %10 = trunc i32 %9 to i16
  %11 = urem i16 %10, 60
  %12 = mul nuw nsw i16 %11, 100
  %13 = zext nneg i16 %12 to i32
  %14 = mul i32 %9, 60
  %15 = sub i32 %6, %14
  %16 = add nuw nsw i32 %8, %15
  %17 = add nuw nsw i32 %16, %13
  ret i32 %17
}

attributes #0 = { mustprogress nofree norecurse nosync nounwind willreturn memory(none) "no-builtins" "no-trapping-math"="true" "stack-protector-buffer-size"="8" "target-cpu"="generic-rv64" "target-features"="+64bit,+m,+relax,+zmmul,-a,-b,-c,-d,-e,-experimental-smmpm,-experimental-smnpm,-experimental-ssnpm,-experimental-sspm,-experimental-ssqosid,-experimental-supm,-experimental-zacas,-experimental-zalasr,-experimental-zicfilp,-experimental-zicfiss,-f,-h,-shcounterenw,-shgatpa,-shtvala,-shvsatpa,-shvstvala,-shvstvecd,-smaia,-smcdeleg,-smcsrind,-smepmp,-smstateen,-ssaia,-ssccfg,-ssccptr,-sscofpmf,-sscounterenw,-sscsrind,-ssstateen,-ssstrict,-sstc,-sstvala,-sstvecd,-ssu64xl,-svade,-svadu,-svbare,-svinval,-svnapot,-svpbmt,-v,-xcvalu,-xcvbi,-xcvbitmanip,-xcvelw,-xcvmac,-xcvmem,-xcvsimd,-xsfcease,-xsfvcp,-xsfvfnrclipxfqf,-xsfvfwmaccqqq,-xsfvqmaccdod,-xsfvqmaccqoq,-xsifivecdiscarddlone,-xsifivecflushdlone,-xtheadba,-xtheadbb,-xtheadbs,-xtheadcmo,-xtheadcondmov,-xtheadfmemidx,-xtheadmac,-xtheadmemidx,-xtheadmempair,-xtheadsync,-xtheadvdot,-xventanacondops,-xwchc,-za128rs,-za64rs,-zaamo,-zabha,-zalrsc,-zama16b,-zawrs,-zba,-zbb,-zbc,-zbkb,-zbkc,-zbkx,-zbs,-zca,-zcb,-zcd,-zce,-zcf,-zcmop,-zcmp,-zcmt,-zdinx,-zfa,-zfbfmin,-zfh,-zfhmin,-zfinx,-zhinx,-zhinxmin,-zic64b,-zicbom,-zicbop,-zicboz,-ziccamoa,-ziccif,-zicclsm,-ziccrse,-zicntr,-zicond,-zicsr,-zifencei,-zihintntl,-zihintpause,-zihpm,-zimop,-zk,-zkn,-zknd,-zkne,-zknh,-zkr,-zks,-zksed,-zksh,-zkt,-ztso,-zvbb,-zvbc,-zve32f,-zve32x,-zve64d,-zve64f,-zve64x,-zvfbfmin,-zvfbfwma,-zvfh,-zvfhmin,-zvkb,-zvkg,-zvkn,-zvknc,-zvkned,-zvkng,-zvknha,-zvknhb,-zvks,-zvksc,-zvksed,-zvksg,-zvksh,-zvkt,-zvl1024b,-zvl128b,-zvl16384b,-zvl2048b,-zvl256b,-zvl32768b,-zvl32b,-zvl4096b,-zvl512b,-zvl64b,-zvl65536b,-zvl8192b" }

!llvm.module.flags = !{!0, !1, !2, !4, !5, !6}
!llvm.ident = !{!7}

!0 = !{i32 1, !"wchar_size", i32 4}
!1 = !{i32 1, !"target-abi", !"lp64"}
!2 = !{i32 6, !"riscv-isa", !3}
!3 = !{!"rv64i2p1_m2p0_zmmul1p0"}
!4 = !{i32 8, !"PIC Level", i32 2}
!5 = !{i32 7, !"PIE Level", i32 2}
!6 = !{i32 8, !"SmallDataLimit", i32 8}
!7 = !{!"Debian clang version 19.1.7 (3~deb12u1)"}
!8 = !{!9, !9, i64 0}
!9 = !{!"omnipotent char", !10, i64 0}
!10 = !{!"Simple C/C++ TBAA"}
