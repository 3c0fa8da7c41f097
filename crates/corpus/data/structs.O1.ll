; ModuleID = 'structs.c'
source_filename = "structs.c"
target datalayout = "e-m:e-p:64:64-i64:64-i128:128-n32:64-S128"
target triple = "riscv64-unknown-linux-gnu"

%struct.box = type { %struct.point, %struct.point, i8, i64 }
%struct.point = type { i16, i16 }
%struct.tight = type <{ i8, i32, i16 }>
%union.either = type { i32 }

@boxes = internal unnamed_addr constant [3 x %struct.box] [%struct.box { %struct.point zeroinitializer, %struct.point { i16 3, i16 4 }, i8 7, i64 100 }, %struct.box { %struct.point { i16 -2, i16 -2 }, %struct.point { i16 2, i16 2 }, i8 -56, i64 -5 }, %struct.box { %struct.point { i16 5, i16 5 }, %struct.point { i16 5, i16 9 }, i8 0, i64 1099511627776 }], align 8
@tights = internal unnamed_addr global [4 x %struct.tight] zeroinitializer, align 1

; Function Attrs: mustprogress nofree norecurse nosync nounwind willreturn memory(read, argmem: none, inaccessiblemem: none)
define dso_local signext i32 @area_of(i32 noundef signext %0) local_unnamed_addr #0 {
  %2 = urem i32 %0, 3
  %3 = zext nneg i32 %2 to i64
  %4 = getelementptr inbounds [3 x %struct.box], ptr @boxes, i64 0, i64 %3
  %5 = getelementptr inbounds i8, ptr %4, i64 4
  %6 = load i16, ptr %5, align 4, !tbaa !8
  %7 = sext i16 %6 to i32
  %8 = load i16, ptr %4, align 8, !tbaa !15
  %9 = sext i16 %8 to i32
  %10 = sub nsw i32 %7, %9
  %11 = getelementptr inbounds i8, ptr %4, i64 6
  %12 = load i16, ptr %11, align 2, !tbaa !16
  %13 = sext i16 %12 to i32
  %14 = getelementptr inbounds i8, ptr %4, i64 2
  %15 = load i16, ptr %14, align 2, !tbaa !17
  %16 = sext i16 %15 to i32
  %17 = sub nsw i32 %13, %16
  %18 = mul nsw i32 %17, %10
  ret i32 %18
}

; Function Attrs: nofree norecurse nosync nounwind memory(read, argmem: none, inaccessiblemem: none)
define dso_local i64 @weight() local_unnamed_addr #1 {
  br label %2

1:                                                ; preds = %2
  ret i64 %12

2:                                                ; preds = %0, %2
  %3 = phi i64 [ 0, %0 ], [ %13, %2 ]
  %4 = phi i64 [ 0, %0 ], [ %12, %2 ]
  %5 = getelementptr inbounds i8, ptr @boxes, i64 %3
  %6 = getelementptr inbounds i8, ptr %5, i64 16
  %7 = load i64, ptr %6, align 8, !tbaa !18
  %8 = getelementptr inbounds i8, ptr %5, i64 8
  %9 = load i8, ptr %8, align 8, !tbaa !19
  %10 = zext i8 %9 to i64
  %11 = add i64 %7, %4
  %12 = add i64 %11, %10
  %13 = add nuw nsw i64 %3, 24
  %14 = icmp ult i64 %3, 48
  br i1 %14, label %2, label %1, !llvm.loop !20
}

; Function Attrs: mustprogress nocallback nofree nosync nounwind willreturn memory(argmem: readwrite)
declare void @llvm.lifetime.start.p0(i64 immarg, ptr nocapture) #2

; Function Attrs: mustprogress nocallback nofree nosync nounwind willreturn memory(argmem: readwrite)
declare void @llvm.lifetime.end.p0(i64 immarg, ptr nocapture) #2

; Function Attrs: mustprogress nofree norecurse nosync nounwind willreturn memory(read, argmem: none, inaccessiblemem: none)
define dso_local signext i32 @joined_area(i32 noundef signext %0, i32 noundef signext %1) local_unnamed_addr #0 {
  %3 = urem i32 %0, 3
  %4 = zext nneg i32 %3 to i64
  %5 = getelementptr inbounds [3 x %struct.box], ptr @boxes, i64 0, i64 %4
  %6 = urem i32 %1, 3
  %7 = zext nneg i32 %6 to i64
  %8 = getelementptr inbounds [3 x %struct.box], ptr @boxes, i64 0, i64 %7
  %9 = load i16, ptr %5, align 8, !tbaa !23
  %10 = getelementptr inbounds i8, ptr %5, i64 2
  %11 = load i16, ptr %10, align 2, !tbaa !23
  %12 = getelementptr inbounds i8, ptr %5, i64 4
  %13 = load i16, ptr %12, align 4, !tbaa !23
  %14 = getelementptr inbounds i8, ptr %5, i64 6
  %15 = load i16, ptr %14, align 2, !tbaa !23
  %16 = load i16, ptr %8, align 8, !tbaa !15
  %17 = tail call i16 @llvm.smin.i16(i16 %16, i16 %9)
  %18 = getelementptr inbounds i8, ptr %8, i64 2
  %19 = load i16, ptr %18, align 2, !tbaa !17
  %20 = tail call i16 @llvm.smin.i16(i16 %19, i16 %11)
  %21 = getelementptr inbounds i8, ptr %8, i64 4
  %22 = load i16, ptr %21, align 4, !tbaa !8
  %23 = tail call i16 @llvm.smax.i16(i16 %22, i16 %13)
  %24 = getelementptr inbounds i8, ptr %8, i64 6
  %25 = load i16, ptr %24, align 2, !tbaa !16
  %26 = tail call i16 @llvm.smax.i16(i16 %25, i16 %15)
  %27 = sext i16 %23 to i32
  %28 = sext i16 %17 to i32
  %29 = sub nsw i32 %27, %28
  %30 = sext i16 %26 to i32
  %31 = sext i16 %20 to i32
  %32 = sub nsw i32 %30, %31
  %33 = mul nsw i32 %32, %29
  ret i32 %33
}

; Function Attrs: nofree norecurse nosync nounwind memory(readwrite, argmem: none, inaccessiblemem: none)
define dso_local signext range(i32 -2147483641, -2147483648) i32 @packed(i32 noundef signext %0) local_unnamed_addr #3 {
  br label %2

2:                                                ; preds = %1, %2
  %3 = phi i64 [ 0, %1 ], [ %8, %2 ]
  %4 = trunc i64 %3 to i32
  %5 = add i32 %4, %0
  %6 = trunc i32 %5 to i8
  %7 = getelementptr inbounds [4 x %struct.tight], ptr @tights, i64 0, i64 %3
  store i8 %6, ptr %7, align 1, !tbaa !24
  %8 = add nuw nsw i64 %3, 1
  %9 = getelementptr inbounds i8, ptr %7, i64 1
  %10 = trunc i64 %8 to i32
  %11 = mul i32 %10, %0
  store i32 %11, ptr %9, align 1, !tbaa !27
  %12 = trunc nuw nsw i64 %3 to i32
  %13 = ashr i32 %0, %12
  %14 = trunc i32 %13 to i16
  %15 = getelementptr inbounds i8, ptr %7, i64 5
  store i16 %14, ptr %15, align 1, !tbaa !28
  %16 = icmp eq i64 %8, 4
  br i1 %16, label %19, label %2, !llvm.loop !29

17:                                               ; preds = %19
  %18 = add nsw i32 %33, 7
  ret i32 %18

19:                                               ; preds = %2, %19
  %20 = phi i64 [ %34, %19 ], [ 0, %2 ]
  %21 = phi i32 [ %33, %19 ], [ 0, %2 ]
  %22 = getelementptr inbounds [4 x %struct.tight], ptr @tights, i64 0, i64 %20
  %23 = load i8, ptr %22, align 1, !tbaa !24
  %24 = zext i8 %23 to i32
  %25 = getelementptr inbounds i8, ptr %22, i64 1
  %26 = load i32, ptr %25, align 1, !tbaa !27
  %27 = mul nsw i32 %26, 3
  %28 = getelementptr inbounds i8, ptr %22, i64 5
  %29 = load i16, ptr %28, align 1, !tbaa !28
  %30 = sext i16 %29 to i32
  %31 = add i32 %21, %24
  %32 = add i32 %31, %27
  %33 = sub i32 %32, %30
  %34 = add nuw nsw i64 %20, 1
  %35 = icmp eq i64 %34, 4
  br i1 %35, label %17, label %19, !llvm.loop !30
}

; Function Attrs: mustprogress nofree norecurse nosync nounwind willreturn memory(none)
define dso_local signext range(i32 -32, 2047349) i32 @fields(i32 noundef signext %0, i32 noundef signext %1, i32 noundef signext %2, i32 noundef signext %3) local_unnamed_addr #4 {
  %5 = and i32 %0, 7
  %6 = shl i32 %3, 26
  %7 = and i32 %1, 31
  %8 = mul nuw nsw i32 %7, 10
  %9 = add nuw nsw i32 %8, %5
  %10 = and i32 %2, 2047
  %11 = mul nuw nsw i32 %10, 1000
  %12 = add nuw nsw i32 %9, %11
  %13 = ashr exact i32 %6, 26
  %14 = add nsw i32 %12, %13
  ret i32 %14
}

; Function Attrs: nofree norecurse nosync nounwind memory(none)
define dso_local signext i32 @reordered(i32 noundef signext %0) local_unnamed_addr #5 {
  %2 = alloca %union.either, align 4
  call void @llvm.lifetime.start.p0(i64 4, ptr nonnull %2) #7
  store i32 %0, ptr %2, align 4, !tbaa !31
  br label %5

3:                                                ; preds = %5
  %4 = load i32, ptr %2, align 4, !tbaa !31
  call void @llvm.lifetime.end.p0(i64 4, ptr nonnull %2) #7
  ret i32 %4

5:                                                ; preds = %1, %5
  %6 = phi i64 [ 0, %1 ], [ %12, %5 ]
  %7 = getelementptr inbounds [4 x i8], ptr %2, i64 0, i64 %6
  %8 = load i8, ptr %7, align 1, !tbaa !31
  %9 = sub nuw nsw i64 3, %6
  %10 = getelementptr inbounds [4 x i8], ptr %2, i64 0, i64 %9
  %11 = load i8, ptr %10, align 1, !tbaa !31
  store i8 %11, ptr %7, align 1, !tbaa !31
  store i8 %8, ptr %10, align 1, !tbaa !31
  %12 = add nuw nsw i64 %6, 1
  %13 = icmp eq i64 %6, 0
  br i1 %13, label %5, label %3, !llvm.loop !32
}

; Function Attrs: mustprogress nofree norecurse nosync nounwind willreturn memory(read, argmem: none, inaccessiblemem: none)
define dso_local signext i32 @moved(i32 noundef signext %0, i32 noundef signext %1) local_unnamed_addr #0 {
  %3 = urem i32 %0, 3
  %4 = zext nneg i32 %3 to i64
  %5 = getelementptr inbounds [3 x %struct.box], ptr @boxes, i64 0, i64 %4
  %6 = load i16, ptr %5, align 8, !tbaa !23
  %7 = getelementptr inbounds i8, ptr %5, i64 2
  %8 = load i16, ptr %7, align 2, !tbaa !23
  %9 = getelementptr inbounds i8, ptr %5, i64 6
  %10 = load i16, ptr %9, align 2, !tbaa !23
  %11 = trunc i32 %1 to i16
  %12 = add i16 %6, %11
  %13 = sext i16 %12 to i32
  %14 = sext i16 %10 to i32
  %15 = sext i16 %8 to i32
  %16 = sub nsw i32 %14, %15
  %17 = sext i16 %6 to i32
  %18 = sub nsw i32 %17, %13
  %19 = mul i32 %16, %18
  ret i32 %19
}

; Function Attrs: nocallback nofree nosync nounwind speculatable willreturn memory(none)
declare i16 @llvm.smin.i16(i16, i16) #6

; Function Attrs: nocallback nofree nosync nounwind speculatable willreturn memory(none)
declare i16 @llvm.smax.i16(i16, i16) #6

attributes #0 = { mustprogress nofree norecurse nosync nounwind willreturn memory(read, argmem: none, inaccessiblemem: none) "no-builtins" "no-trapping-math"="true" "stack-protector-buffer-size"="8" "target-cpu"="generic-rv64" "target-features"="+64bit,+m,+relax,+zmmul,-a,-b,-c,-d,-e,-experimental-smmpm,-experimental-smnpm,-experimental-ssnpm,-experimental-sspm,-experimental-ssqosid,-experimental-supm,-experimental-zacas,-experimental-zalasr,-experimental-zicfilp,-experimental-zicfiss,-f,-h,-shcounterenw,-shgatpa,-shtvala,-shvsatpa,-shvstvala,-shvstvecd,-smaia,-smcdeleg,-smcsrind,-smepmp,-smstateen,-ssaia,-ssccfg,-ssccptr,-sscofpmf,-sscounterenw,-sscsrind,-ssstateen,-ssstrict,-sstc,-sstvala,-sstvecd,-ssu64xl,-svade,-svadu,-svbare,-svinval,-svnapot,-svpbmt,-v,-xcvalu,-xcvbi,-xcvbitmanip,-xcvelw,-xcvmac,-xcvmem,-xcvsimd,-xsfcease,-xsfvcp,-xsfvfnrclipxfqf,-xsfvfwmaccqqq,-xsfvqmaccdod,-xsfvqmaccqoq,-xsifivecdiscarddlone,-xsifivecflushdlone,-xtheadba,-xtheadbb,-xtheadbs,-xtheadcmo,-xtheadcondmov,-xtheadfmemidx,-xtheadmac,-xtheadmemidx,-xtheadmempair,-xtheadsync,-xtheadvdot,-xventanacondops,-xwchc,-za128rs,-za64rs,-zaamo,-zabha,-zalrsc,-zama16b,-zawrs,-zba,-zbb,-zbc,-zbkb,-zbkc,-zbkx,-zbs,-zca,-zcb,-zcd,-zce,-zcf,-zcmop,-zcmp,-zcmt,-zdinx,-zfa,-zfbfmin,-zfh,-zfhmin,-zfinx,-zhinx,-zhinxmin,-zic64b,-zicbom,-zicbop,-zicboz,-ziccamoa,-ziccif,-zicclsm,-ziccrse,-zicntr,-zicond,-zicsr,-zifencei,-zihintntl,-zihintpause,-zihpm,-zimop,-zk,-zkn,-zknd,-zkne,-zknh,-zkr,-zks,-zksed,-zksh,-zkt,-ztso,-zvbb,-zvbc,-zve32f,-zve32x,-zve64d,-zve64f,-zve64x,-zvfbfmin,-zvfbfwma,-zvfh,-zvfhmin,-zvkb,-zvkg,-zvkn,-zvknc,-zvkned,-zvkng,-zvknha,-zvknhb,-zvks,-zvksc,-zvksed,-zvksg,-zvksh,-zvkt,-zvl1024b,-zvl128b,-zvl16384b,-zvl2048b,-zvl256b,-zvl32768b,-zvl32b,-zvl4096b,-zvl512b,-zvl64b,-zvl65536b,-zvl8192b" }
attributes #1 = { nofree norecurse nosync nounwind memory(read, argmem: none, inaccessiblemem: none) "no-builtins" "no-trapping-math"="true" "stack-protector-buffer-size"="8" "target-cpu"="generic-rv64" "target-features"="+64bit,+m,+relax,+zmmul,-a,-b,-c,-d,-e,-experimental-smmpm,-experimental-smnpm,-experimental-ssnpm,-experimental-sspm,-experimental-ssqosid,-experimental-supm,-experimental-zacas,-experimental-zalasr,-experimental-zicfilp,-experimental-zicfiss,-f,-h,-shcounterenw,-shgatpa,-shtvala,-shvsatpa,-shvstvala,-shvstvecd,-smaia,-smcdeleg,-smcsrind,-smepmp,-smstateen,-ssaia,-ssccfg,-ssccptr,-sscofpmf,-sscounterenw,-sscsrind,-ssstateen,-ssstrict,-sstc,-sstvala,-sstvecd,-ssu64xl,-svade,-svadu,-svbare,-svinval,-svnapot,-svpbmt,-v,-xcvalu,-xcvbi,-xcvbitmanip,-xcvelw,-xcvmac,-xcvmem,-xcvsimd,-xsfcease,-xsfvcp,-xsfvfnrclipxfqf,-xsfvfwmaccqqq,-xsfvqmaccdod,-xsfvqmaccqoq,-xsifivecdiscarddlone,-xsifivecflushdlone,-xtheadba,-xtheadbb,-xtheadbs,-xtheadcmo,-xtheadcondmov,-xtheadfmemidx,-xtheadmac,-xtheadmemidx,-xtheadmempair,-xtheadsync,-xtheadvdot,-xventanacondops,-xwchc,-za128rs,-za64rs,-zaamo,-zabha,-zalrsc,-zama16b,-zawrs,-zba,-zbb,-zbc,-zbkb,-zbkc,-zbkx,-zbs,-zca,-zcb,-zcd,-zce,-zcf,-zcmop,-zcmp,-zcmt,-zdinx,-zfa,-zfbfmin,-zfh,-zfhmin,-zfinx,-zhinx,-zhinxmin,-zic64b,-zicbom,-zicbop,-zicboz,-ziccamoa,-ziccif,-zicclsm,-ziccrse,-zicntr,-zicond,-zicsr,-zifencei,-zihintntl,-zihintpause,-zihpm,-zimop,-zk,-zkn,-zknd,-zkne,-zknh,-zkr,-zks,-zksed,-zksh,-zkt,-ztso,-zvbb,-zvbc,-zve32f,-zve32x,-zve64d,-zve64f,-zve64x,-zvfbfmin,-zvfbfwma,-zvfh,-zvfhmin,-zvkb,-zvkg,-zvkn,-zvknc,-zvkned,-zvkng,-zvknha,-zvknhb,-zvks,-zvksc,-zvksed,-zvksg,-zvksh,-zvkt,-zvl1024b,-zvl128b,-zvl16384b,-zvl2048b,-zvl256b,-zvl32768b,-zvl32b,-zvl4096b,-zvl512b,-zvl64b,-zvl65536b,-zvl8192b" }
attributes #2 = { mustprogress nocallback nofree nosync nounwind willreturn memory(argmem: readwrite) }
attributes #3 = { nofree norecurse nosync nounwind memory(readwrite, argmem: none, inaccessiblemem: none) "no-builtins" "no-trapping-math"="true" "stack-protector-buffer-size"="8" "target-cpu"="generic-rv64" "target-features"="+64bit,+m,+relax,+zmmul,-a,-b,-c,-d,-e,-experimental-smmpm,-experimental-smnpm,-experimental-ssnpm,-experimental-sspm,-experimental-ssqosid,-experimental-supm,-experimental-zacas,-experimental-zalasr,-experimental-zicfilp,-experimental-zicfiss,-f,-h,-shcounterenw,-shgatpa,-shtvala,-shvsatpa,-shvstvala,-shvstvecd,-smaia,-smcdeleg,-smcsrind,-smepmp,-smstateen,-ssaia,-ssccfg,-ssccptr,-sscofpmf,-sscounterenw,-sscsrind,-ssstateen,-ssstrict,-sstc,-sstvala,-sstvecd,-ssu64xl,-svade,-svadu,-svbare,-svinval,-svnapot,-svpbmt,-v,-xcvalu,-xcvbi,-xcvbitmanip,-xcvelw,-xcvmac,-xcvmem,-xcvsimd,-xsfcease,-xsfvcp,-xsfvfnrclipxfqf,-xsfvfwmaccqqq,-xsfvqmaccdod,-xsfvqmaccqoq,-xsifivecdiscarddlone,-xsifivecflushdlone,-xtheadba,-xtheadbb,-xtheadbs,-xtheadcmo,-xtheadcondmov,-xtheadfmemidx,-xtheadmac,-xtheadmemidx,-xtheadmempair,-xtheadsync,-xtheadvdot,-xventanacondops,-xwchc,-za128rs,-za64rs,-zaamo,-zabha,-zalrsc,-zama16b,-zawrs,-zba,-zbb,-zbc,-zbkb,-zbkc,-zbkx,-zbs,-zca,-zcb,-zcd,-zce,-zcf,-zcmop,-zcmp,-zcmt,-zdinx,-zfa,-zfbfmin,-zfh,-zfhmin,-zfinx,-zhinx,-zhinxmin,-zic64b,-zicbom,-zicbop,-zicboz,-ziccamoa,-ziccif,-zicclsm,-ziccrse,-zicntr,-zicond,-zicsr,-zifencei,-zihintntl,-zihintpause,-zihpm,-zimop,-zk,-zkn,-zknd,-zkne,-zknh,-zkr,-zks,-zksed,-zksh,-zkt,-ztso,-zvbb,-zvbc,-zve32f,-zve32x,-zve64d,-zve64f,-zve64x,-zvfbfmin,-zvfbfwma,-zvfh,-zvfhmin,-zvkb,-zvkg,-zvkn,-zvknc,-zvkned,-zvkng,-zvknha,-zvknhb,-zvks,-zvksc,-zvksed,-zvksg,-zvksh,-zvkt,-zvl1024b,-zvl128b,-zvl16384b,-zvl2048b,-zvl256b,-zvl32768b,-zvl32b,-zvl4096b,-zvl512b,-zvl64b,-zvl65536b,-zvl8192b" }
attributes #4 = { mustprogress nofree norecurse nosync nounwind willreturn memory(none) "no-builtins" "no-trapping-math"="true" "stack-protector-buffer-size"="8" "target-cpu"="generic-rv64" "target-features"="+64bit,+m,+relax,+zmmul,-a,-b,-c,-d,-e,-experimental-smmpm,-experimental-smnpm,-experimental-ssnpm,-experimental-sspm,-experimental-ssqosid,-experimental-supm,-experimental-zacas,-experimental-zalasr,-experimental-zicfilp,-experimental-zicfiss,-f,-h,-shcounterenw,-shgatpa,-shtvala,-shvsatpa,-shvstvala,-shvstvecd,-smaia,-smcdeleg,-smcsrind,-smepmp,-smstateen,-ssaia,-ssccfg,-ssccptr,-sscofpmf,-sscounterenw,-sscsrind,-ssstateen,-ssstrict,-sstc,-sstvala,-sstvecd,-ssu64xl,-svade,-svadu,-svbare,-svinval,-svnapot,-svpbmt,-v,-xcvalu,-xcvbi,-xcvbitmanip,-xcvelw,-xcvmac,-xcvmem,-xcvsimd,-xsfcease,-xsfvcp,-xsfvfnrclipxfqf,-xsfvfwmaccqqq,-xsfvqmaccdod,-xsfvqmaccqoq,-xsifivecdiscarddlone,-xsifivecflushdlone,-xtheadba,-xtheadbb,-xtheadbs,-xtheadcmo,-xtheadcondmov,-xtheadfmemidx,-xtheadmac,-xtheadmemidx,-xtheadmempair,-xtheadsync,-xtheadvdot,-xventanacondops,-xwchc,-za128rs,-za64rs,-zaamo,-zabha,-zalrsc,-zama16b,-zawrs,-zba,-zbb,-zbc,-zbkb,-zbkc,-zbkx,-zbs,-zca,-zcb,-zcd,-zce,-zcf,-zcmop,-zcmp,-zcmt,-zdinx,-zfa,-zfbfmin,-zfh,-zfhmin,-zfinx,-zhinx,-zhinxmin,-zic64b,-zicbom,-zicbop,-zicboz,-ziccamoa,-ziccif,-zicclsm,-ziccrse,-zicntr,-zicond,-zicsr,-zifencei,-zihintntl,-zihintpause,-zihpm,-zimop,-zk,-zkn,-zknd,-zkne,-zknh,-zkr,-zks,-zksed,-zksh,-zkt,-ztso,-zvbb,-zvbc,-zve32f,-zve32x,-zve64d,-zve64f,-zve64x,-zvfbfmin,-zvfbfwma,-zvfh,-zvfhmin,-zvkb,-zvkg,-zvkn,-zvknc,-zvkned,-zvkng,-zvknha,-zvknhb,-zvks,-zvksc,-zvksed,-zvksg,-zvksh,-zvkt,-zvl1024b,-zvl128b,-zvl16384b,-zvl2048b,-zvl256b,-zvl32768b,-zvl32b,-zvl4096b,-zvl512b,-zvl64b,-zvl65536b,-zvl8192b" }
attributes #5 = { nofree norecurse nosync nounwind memory(none) "no-builtins" "no-trapping-math"="true" "stack-protector-buffer-size"="8" "target-cpu"="generic-rv64" "target-features"="+64bit,+m,+relax,+zmmul,-a,-b,-c,-d,-e,-experimental-smmpm,-experimental-smnpm,-experimental-ssnpm,-experimental-sspm,-experimental-ssqosid,-experimental-supm,-experimental-zacas,-experimental-zalasr,-experimental-zicfilp,-experimental-zicfiss,-f,-h,-shcounterenw,-shgatpa,-shtvala,-shvsatpa,-shvstvala,-shvstvecd,-smaia,-smcdeleg,-smcsrind,-smepmp,-smstateen,-ssaia,-ssccfg,-ssccptr,-sscofpmf,-sscounterenw,-sscsrind,-ssstateen,-ssstrict,-sstc,-sstvala,-sstvecd,-ssu64xl,-svade,-svadu,-svbare,-svinval,-svnapot,-svpbmt,-v,-xcvalu,-xcvbi,-xcvbitmanip,-xcvelw,-xcvmac,-xcvmem,-xcvsimd,-xsfcease,-xsfvcp,-xsfvfnrclipxfqf,-xsfvfwmaccqqq,-xsfvqmaccdod,-xsfvqmaccqoq,-xsifivecdiscarddlone,-xsifivecflushdlone,-xtheadba,-xtheadbb,-xtheadbs,-xtheadcmo,-xtheadcondmov,-xtheadfmemidx,-xtheadmac,-xtheadmemidx,-xtheadmempair,-xtheadsync,-xtheadvdot,-xventanacondops,-xwchc,-za128rs,-za64rs,-zaamo,-zabha,-zalrsc,-zama16b,-zawrs,-zba,-zbb,-zbc,-zbkb,-zbkc,-zbkx,-zbs,-zca,-zcb,-zcd,-zce,-zcf,-zcmop,-zcmp,-zcmt,-zdinx,-zfa,-zfbfmin,-zfh,-zfhmin,-zfinx,-zhinx,-zhinxmin,-zic64b,-zicbom,-zicbop,-zicboz,-ziccamoa,-ziccif,-zicclsm,-ziccrse,-zicntr,-zicond,-zicsr,-zifencei,-zihintntl,-zihintpause,-zihpm,-zimop,-zk,-zkn,-zknd,-zkne,-zknh,-zkr,-zks,-zksed,-zksh,-zkt,-ztso,-zvbb,-zvbc,-zve32f,-zve32x,-zve64d,-zve64f,-zve64x,-zvfbfmin,-zvfbfwma,-zvfh,-zvfhmin,-zvkb,-zvkg,-zvkn,-zvknc,-zvkned,-zvkng,-zvknha,-zvknhb,-zvks,-zvksc,-zvksed,-zvksg,-zvksh,-zvkt,-zvl1024b,-zvl128b,-zvl16384b,-zvl2048b,-zvl256b,-zvl32768b,-zvl32b,-zvl4096b,-zvl512b,-zvl64b,-zvl65536b,-zvl8192b" }
attributes #6 = { nocallback nofree nosync nounwind speculatable willreturn memory(none) }
attributes #7 = { nounwind }

!llvm.module.flags = !{!0, !1, !2, !4, !5, !6}
!llvm.ident = !{!7}

!0 = !{i32 1, !"wchar_size", i32 4}
!1 = !{i32 1, !"target-abi", !"lp64"}
!2 = !{i32 6, !"riscv-isa", !3}
!3 = !{!"rv64i2p1_m2p0_zmmul1p0"}
!4 = !{i32 8, !"PIC Level", i32 2}
!5 = !{i32 7, !"PIE Level", i32 2}
!6 = !{i32 8, !"SmallDataLimit", i32 8}
!7 = !{!"Debian clang version 19.1.7 (3~deb12u1)"}
!8 = !{!9, !11, i64 4}
!9 = !{!"box", !10, i64 0, !10, i64 4, !12, i64 8, !14, i64 16}
!10 = !{!"point", !11, i64 0, !11, i64 2}
!11 = !{!"short", !12, i64 0}
!12 = !{!"omnipotent char", !13, i64 0}
!13 = !{!"Simple C/C++ TBAA"}
!14 = !{!"long", !12, i64 0}
!15 = !{!9, !11, i64 0}
!16 = !{!9, !11, i64 6}
!17 = !{!9, !11, i64 2}
!18 = !{!9, !14, i64 16}
!19 = !{!9, !12, i64 8}
!20 = distinct !{!20, !21, !22}
!21 = !{!"llvm.loop.mustprogress"}
!22 = !{!"llvm.loop.unroll.disable"}
!23 = !{!11, !11, i64 0}
!24 = !{!25, !12, i64 0}
!25 = !{!"tight", !12, i64 0, !26, i64 1, !11, i64 5}
!26 = !{!"int", !12, i64 0}
!27 = !{!25, !26, i64 1}
!28 = !{!25, !11, i64 5}
!29 = distinct !{!29, !21, !22}
!30 = distinct !{!30, !21, !22}
!31 = !{!12, !12, i64 0}
!32 = distinct !{!32, !21, !22}
