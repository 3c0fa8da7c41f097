; ModuleID = 'loops.c'
source_filename = "loops.c"
target datalayout = "e-m:e-p:64:64-i64:64-i128:128-n32:64-S128"
target triple = "riscv64-unknown-linux-gnu"

; Function Attrs: nofree norecurse nosync nounwind memory(none)
define dso_local signext i32 @gcd(i32 noundef signext %0, i32 noundef signext %1) local_unnamed_addr #0 !dbg !17 {
    #dbg_value(i32 %0, !22, !DIExpression(), !26)
    #dbg_value(i32 %1, !23, !DIExpression(), !26)
  %3 = icmp eq i32 %1, 0, !dbg !27
  br i1 %3, label %9, label %4, !dbg !27

4:                                                ; preds = %2, %4
  %5 = phi i32 [ %6, %4 ], [ %0, %2 ]
  %6 = phi i32 [ %7, %4 ], [ %1, %2 ]
    #dbg_value(i32 %5, !22, !DIExpression(), !26)
    #dbg_value(i32 %6, !23, !DIExpression(), !26)
  %7 = urem i32 %5, %6, !dbg !28
    #dbg_value(i32 %7, !24, !DIExpression(), !29)
    #dbg_value(i32 %6, !22, !DIExpression(), !26)
    #dbg_value(i32 %7, !23, !DIExpression(), !26)
  %8 = icmp eq i32 %7, 0, !dbg !27
  br i1 %8, label %9, label %4, !dbg !27, !llvm.loop !30

9:                                                ; preds = %4, %2
  %10 = phi i32 [ %0, %2 ], [ %6, %4 ]
  ret i32 %10, !dbg !34
}

; Function Attrs: nofree norecurse nosync nounwind memory(argmem: readwrite)
define dso_local void @sort(ptr nocapture noundef %0, i32 noundef signext %1) local_unnamed_addr #1 !dbg !35 {
    #dbg_value(ptr %0, !41, !DIExpression(), !49)
    #dbg_value(i32 %1, !42, !DIExpression(), !49)
    #dbg_value(i32 1, !43, !DIExpression(), !50)
  %3 = icmp sgt i32 %1, 1, !dbg !51
  br i1 %3, label %4, label %6, !dbg !52

4:                                                ; preds = %2
  %5 = zext nneg i32 %1 to i64, !dbg !51
  br label %7, !dbg !52

6:                                                ; preds = %22, %2
  ret void, !dbg !53

7:                                                ; preds = %4, %22
  %8 = phi i64 [ 1, %4 ], [ %27, %22 ]
    #dbg_value(i64 %8, !43, !DIExpression(), !50)
  %9 = getelementptr inbounds i32, ptr %0, i64 %8, !dbg !54
  %10 = load i32, ptr %9, align 4, !dbg !54, !tbaa !55
    #dbg_value(i32 %10, !45, !DIExpression(), !59)
    #dbg_value(i64 %8, !48, !DIExpression(DW_OP_constu, 1, DW_OP_minus, DW_OP_stack_value), !59)
  br label %11, !dbg !60

11:                                               ; preds = %7, %18
  %12 = phi i64 [ %8, %7 ], [ %21, %18 ]
  %13 = add i64 %12, 4294967295, !dbg !61
  %14 = and i64 %13, 4294967295, !dbg !62
  %15 = getelementptr inbounds i32, ptr %0, i64 %14, !dbg !62
  %16 = load i32, ptr %15, align 4, !dbg !62, !tbaa !55
  %17 = icmp sgt i32 %16, %10, !dbg !63
  br i1 %17, label %18, label %22, !dbg !64

18:                                               ; preds = %11
  %19 = getelementptr inbounds i32, ptr %0, i64 %12, !dbg !65
  store i32 %16, ptr %19, align 4, !dbg !67, !tbaa !55
    #dbg_value(i64 %13, !48, !DIExpression(DW_OP_constu, 1, DW_OP_minus, DW_OP_stack_value), !59)
    #dbg_value(i64 %13, !48, !DIExpression(DW_OP_constu, 1, DW_OP_minus, DW_OP_stack_value), !59)
  %20 = icmp sgt i64 %12, 1, !dbg !68
  %21 = add nsw i64 %12, -1, !dbg !61
  br i1 %20, label %11, label %22, !dbg !60, !llvm.loop !69

22:                                               ; preds = %18, %11
  %23 = phi i64 [ 0, %18 ], [ %12, %11 ]
  %24 = shl i64 %23, 32, !dbg !71
  %25 = ashr exact i64 %24, 30, !dbg !71
  %26 = getelementptr inbounds i8, ptr %0, i64 %25, !dbg !71
  store i32 %10, ptr %26, align 4, !dbg !72, !tbaa !55
  %27 = add nuw nsw i64 %8, 1, !dbg !73
    #dbg_value(i64 %27, !43, !DIExpression(), !50)
  %28 = icmp eq i64 %27, %5, !dbg !51
  br i1 %28, label %6, label %7, !dbg !52, !llvm.loop !74
}

; Function Attrs: mustprogress nofree norecurse nosync nounwind willreturn memory(argmem: write)
define dso_local void @clear(ptr nocapture noundef writeonly %0, i64 noundef %1) local_unnamed_addr #2 !dbg !76 {
    #dbg_value(ptr %0, !83, !DIExpression(), !85)
    #dbg_value(i64 %1, !84, !DIExpression(), !85)
  tail call void @llvm.memset.p0.i64(ptr align 1 %0, i8 0, i64 %1, i1 false), !dbg !86
  ret void, !dbg !87
}

; Function Attrs: mustprogress nocallback nofree nounwind willreturn memory(argmem: write)
declare void @llvm.memset.p0.i64(ptr nocapture writeonly, i8, i64, i1 immarg) #3

; Function Attrs: mustprogress nofree norecurse nosync nounwind willreturn memory(argmem: readwrite)
define dso_local void @move(ptr nocapture noundef writeonly %0, ptr nocapture noundef readonly %1, i64 noundef %2) local_unnamed_addr #4 !dbg !88 {
    #dbg_value(ptr %0, !94, !DIExpression(), !97)
    #dbg_value(ptr %1, !95, !DIExpression(), !97)
    #dbg_value(i64 %2, !96, !DIExpression(), !97)
  tail call void @llvm.memmove.p0.p0.i64(ptr align 1 %0, ptr align 1 %1, i64 %2, i1 false), !dbg !98
  ret void, !dbg !99
}

; Function Attrs: mustprogress nocallback nofree nounwind willreturn memory(argmem: readwrite)
declare void @llvm.memmove.p0.p0.i64(ptr nocapture writeonly, ptr nocapture readonly, i64, i1 immarg) #5

; Function Attrs: mustprogress nofree norecurse nosync nounwind willreturn memory(none)
define dso_local noundef signext i32 @clamp(i32 noundef signext %0) local_unnamed_addr #6 !dbg !100 {
    #dbg_value(i32 %0, !104, !DIExpression(), !105)
  %2 = tail call i32 @llvm.smin.i32(i32 %0, i32 255), !dbg !106
  %3 = tail call i32 @llvm.smax.i32(i32 %2, i32 0), !dbg !106
  ret i32 %3, !dbg !107
}

; Function Attrs: mustprogress nofree norecurse nosync nounwind willreturn memory(none)
define dso_local i64 @magnitude(i64 noundef %0) local_unnamed_addr #6 !dbg !108 {
    #dbg_value(i64 %0, !113, !DIExpression(), !114)
  %2 = tail call i64 @llvm.abs.i64(i64 %0, i1 true), !dbg !115
  ret i64 %2, !dbg !116
}

; Function Attrs: mustprogress nofree norecurse nosync nounwind willreturn memory(none)
define dso_local noundef zeroext i8 @rotate(i8 noundef zeroext %0, i32 noundef signext %1) local_unnamed_addr #6 !dbg !117 {
    #dbg_value(i8 %0, !121, !DIExpression(), !123)
    #dbg_value(i32 %1, !122, !DIExpression(), !123)
  %3 = trunc i32 %1 to i8, !dbg !124
  %4 = tail call i8 @llvm.fshl.i8(i8 %0, i8 %0, i8 %3), !dbg !124
  ret i8 %4, !dbg !125
}

; Function Attrs: mustprogress nofree norecurse nosync nounwind willreturn memory(none)
define dso_local noundef signext i16 @narrow(i64 noundef %0) local_unnamed_addr #6 !dbg !126 {
    #dbg_value(i64 %0, !130, !DIExpression(), !131)
  %2 = lshr i64 %0, 3, !dbg !132
  %3 = trunc i64 %2 to i16, !dbg !133
  ret i16 %3, !dbg !134
}

; Function Attrs: mustprogress nofree norecurse nosync nounwind willreturn memory(none)
define dso_local range(i64 -547608330240, 547608329986) i64 @wide(i32 noundef signext %0, i8 noundef zeroext %1) local_unnamed_addr #6 !dbg !135 {
    #dbg_value(i32 %0, !139, !DIExpression(), !141)
    #dbg_value(i8 %1, !140, !DIExpression(), !141)
  %3 = sext i32 %0 to i64, !dbg !142
  %4 = zext i8 %1 to i64, !dbg !143
  %5 = mul nsw i64 %4, %3, !dbg !144
  ret i64 %5, !dbg !145
}

; Function Attrs: mustprogress nofree norecurse nosync nounwind willreturn memory(none)
define dso_local signext range(i32 0, 6) i32 @kind(i32 noundef signext %0) local_unnamed_addr #6 !dbg !146 {
    #dbg_value(i32 %0, !148, !DIExpression(), !149)
  switch i32 %0, label %5 [
    i32 97, label %6
    i32 101, label %6
    i32 105, label %6
    i32 48, label %2
    i32 -1, label %3
    i32 1000000, label %4
  ], !dbg !150

2:                                                ; preds = %1
  br label %6, !dbg !151

3:                                                ; preds = %1
  br label %6, !dbg !153

4:                                                ; preds = %1
  br label %6, !dbg !154

5:                                                ; preds = %1
  br label %6, !dbg !155

6:                                                ; preds = %1, %1, %1, %5, %4, %3, %2
  %7 = phi i32 [ 0, %5 ], [ 5, %4 ], [ 4, %3 ], [ 2, %2 ], [ 1, %1 ], [ 1, %1 ], [ 1, %1 ], !dbg !156
  ret i32 %7, !dbg !157
}

; Function Attrs: mustprogress nofree norecurse nosync nounwind willreturn memory(none)
define dso_local signext range(i32 0, 4) i32 @both(i1 noundef zeroext %0, i1 noundef zeroext %1) local_unnamed_addr #6 !dbg !158 {
    #dbg_value(i1 %0, !163, !DIExpression(DW_OP_LLVM_convert, 1, DW_ATE_unsigned, DW_OP_LLVM_convert, 8, DW_ATE_unsigned, DW_OP_stack_value), !165)
    #dbg_value(i1 %1, !164, !DIExpression(DW_OP_LLVM_convert, 1, DW_ATE_unsigned, DW_OP_LLVM_convert, 8, DW_ATE_unsigned, DW_OP_stack_value), !165)
  %3 = and i1 %0, %1, !dbg !166
  %4 = zext i1 %3 to i32, !dbg !166
  %5 = xor i1 %0, %1, !dbg !167
  %6 = select i1 %5, i32 2, i32 0, !dbg !168
  %7 = or disjoint i32 %6, %4, !dbg !169
  ret i32 %7, !dbg !170
}

; Function Attrs: nofree norecurse nosync nounwind memory(none)
define dso_local i64 @collatz(i64 noundef %0) local_unnamed_addr #0 !dbg !171 {
    #dbg_value(i64 %0, !173, !DIExpression(), !175)
    #dbg_value(i64 0, !174, !DIExpression(), !175)
  %2 = icmp eq i64 %0, 1, !dbg !176
  br i1 %2, label %14, label %3, !dbg !177

3:                                                ; preds = %1, %3
  %4 = phi i64 [ %12, %3 ], [ 0, %1 ]
  %5 = phi i64 [ %11, %3 ], [ %0, %1 ]
    #dbg_value(i64 %4, !174, !DIExpression(), !175)
    #dbg_value(i64 %5, !173, !DIExpression(), !175)
  %6 = and i64 %5, 1, !dbg !178
  %7 = icmp eq i64 %6, 0, !dbg !178
  %8 = mul nsw i64 %5, 3, !dbg !180
  %9 = add nsw i64 %8, 1, !dbg !180
  %10 = ashr exact i64 %5, 1, !dbg !180
  %11 = select i1 %7, i64 %10, i64 %9, !dbg !180
    #dbg_value(i64 %11, !173, !DIExpression(), !175)
  %12 = add nuw nsw i64 %4, 1, !dbg !181
    #dbg_value(i64 %12, !174, !DIExpression(), !175)
  %13 = icmp eq i64 %11, 1, !dbg !176
  br i1 %13, label %14, label %3, !dbg !177, !llvm.loop !182

14:                                               ; preds = %3, %1
  %15 = phi i64 [ 0, %1 ], [ %12, %3 ], !dbg !184
  ret i64 %15, !dbg !185
}

; Function Attrs: mustprogress nofree norecurse nosync nounwind willreturn memory(none)
define dso_local signext range(i32 -1, 2) i32 @near(ptr noundef readnone %0, ptr noundef readnone %1) local_unnamed_addr #6 !dbg !186 {
    #dbg_value(ptr %0, !192, !DIExpression(), !194)
    #dbg_value(ptr %1, !193, !DIExpression(), !194)
  %3 = icmp ult ptr %0, %1, !dbg !195
  %4 = icmp ugt ptr %0, %1, !dbg !196
  %5 = zext i1 %4 to i32, !dbg !196
  %6 = select i1 %3, i32 -1, i32 %5, !dbg !196
  ret i32 %6, !dbg !197
}

; Function Attrs: nofree nosync nounwind memory(none)
define dso_local signext i32 @deep() local_unnamed_addr #7 !dbg !198 {
  %1 = tail call fastcc signext i32 @ack(i32 noundef signext 2, i32 noundef signext 3) #13, !dbg !201
  ret i32 %1, !dbg !202
}

; Function Attrs: nofree noinline nosync nounwind memory(none)
define internal fastcc signext i32 @ack(i32 noundef signext %0, i32 noundef signext %1) unnamed_addr #8 !dbg !203 {
  br label %3

3:                                                ; preds = %9, %12, %2
  %4 = phi i32 [ %0, %2 ], [ %11, %12 ], [ %11, %9 ]
  %5 = phi i32 [ %1, %2 ], [ %14, %12 ], [ 1, %9 ]
    #dbg_value(i32 %4, !207, !DIExpression(), !209)
    #dbg_value(i32 %5, !208, !DIExpression(), !209)
  %6 = icmp eq i32 %4, 0, !dbg !210
  br i1 %6, label %7, label %9, !dbg !211

7:                                                ; preds = %3
  %8 = add nsw i32 %5, 1, !dbg !212
  ret i32 %8, !dbg !213

9:                                                ; preds = %3
  %10 = icmp eq i32 %5, 0, !dbg !214
  %11 = add nsw i32 %4, -1, !dbg !215
  br i1 %10, label %3, label %12, !dbg !216

12:                                               ; preds = %9
  %13 = add nsw i32 %5, -1, !dbg !217
  %14 = tail call fastcc signext i32 @ack(i32 noundef signext %4, i32 noundef signext %13) #13, !dbg !218
  br label %3, !dbg !219
}

; Function Attrs: nofree norecurse noreturn nosync nounwind memory(none)
define dso_local void @stop() local_unnamed_addr #9 !dbg !220 {
  br label %1, !dbg !223

1:                                                ; preds = %1, %0
  br label %1, !dbg !224, !llvm.loop !227
}

; Function Attrs: nofree norecurse nosync nounwind memory(argmem: readwrite, inaccessiblemem: write)
define dso_local void @assumed(ptr nocapture noundef %0, i32 noundef signext %1) local_unnamed_addr #10 !dbg !230 {
    #dbg_value(ptr %0, !232, !DIExpression(), !236)
    #dbg_value(i32 %1, !233, !DIExpression(), !236)
  %3 = icmp sgt i32 %1, 0, !dbg !237
  tail call void @llvm.assume(i1 %3), !dbg !239
    #dbg_value(i32 0, !234, !DIExpression(), !240)
  %4 = zext nneg i32 %1 to i64, !dbg !241
  br label %6, !dbg !243

5:                                                ; preds = %6
  ret void, !dbg !244

6:                                                ; preds = %2, %6
  %7 = phi i64 [ 0, %2 ], [ %12, %6 ]
    #dbg_value(i64 %7, !234, !DIExpression(), !240)
  %8 = getelementptr inbounds i32, ptr %0, i64 %7, !dbg !245
  %9 = load i32, ptr %8, align 4, !dbg !246, !tbaa !55
  %10 = trunc nuw nsw i64 %7 to i32, !dbg !246
  %11 = add nsw i32 %9, %10, !dbg !246
  store i32 %11, ptr %8, align 4, !dbg !246, !tbaa !55
  %12 = add nuw nsw i64 %7, 1, !dbg !247
    #dbg_value(i64 %12, !234, !DIExpression(), !240)
  %13 = icmp eq i64 %12, %4, !dbg !241
  br i1 %13, label %5, label %6, !dbg !243, !llvm.loop !248
}

; Function Attrs: nocallback nofree nosync nounwind willreturn memory(inaccessiblemem: write)
declare void @llvm.assume(i1 noundef) #11

; Function Attrs: nocallback nofree nosync nounwind speculatable willreturn memory(none)
declare i32 @llvm.smin.i32(i32, i32) #12

; Function Attrs: nocallback nofree nosync nounwind speculatable willreturn memory(none)
declare i32 @llvm.smax.i32(i32, i32) #12

; Function Attrs: nocallback nofree nosync nounwind speculatable willreturn memory(none)
declare i64 @llvm.abs.i64(i64, i1 immarg) #12

; Function Attrs: nocallback nofree nosync nounwind speculatable willreturn memory(none)
declare i8 @llvm.fshl.i8(i8, i8, i8) #12

attributes #0 = { nofree norecurse nosync nounwind memory(none) "no-builtins" "no-trapping-math"="true" "stack-protector-buffer-size"="8" "target-cpu"="generic-rv64" "target-features"="+64bit,+m,+relax,+zmmul,-a,-b,-c,-d,-e,-experimental-smmpm,-experimental-smnpm,-experimental-ssnpm,-experimental-sspm,-experimental-ssqosid,-experimental-supm,-experimental-zacas,-experimental-zalasr,-experimental-zicfilp,-experimental-zicfiss,-f,-h,-shcounterenw,-shgatpa,-shtvala,-shvsatpa,-shvstvala,-shvstvecd,-smaia,-smcdeleg,-smcsrind,-smepmp,-smstateen,-ssaia,-ssccfg,-ssccptr,-sscofpmf,-sscounterenw,-sscsrind,-ssstateen,-ssstrict,-sstc,-sstvala,-sstvecd,-ssu64xl,-svade,-svadu,-svbare,-svinval,-svnapot,-svpbmt,-v,-xcvalu,-xcvbi,-xcvbitmanip,-xcvelw,-xcvmac,-xcvmem,-xcvsimd,-xsfcease,-xsfvcp,-xsfvfnrclipxfqf,-xsfvfwmaccqqq,-xsfvqmaccdod,-xsfvqmaccqoq,-xsifivecdiscarddlone,-xsifivecflushdlone,-xtheadba,-xtheadbb,-xtheadbs,-xtheadcmo,-xtheadcondmov,-xtheadfmemidx,-xtheadmac,-xtheadmemidx,-xtheadmempair,-xtheadsync,-xtheadvdot,-xventanacondops,-xwchc,-za128rs,-za64rs,-zaamo,-zabha,-zalrsc,-zama16b,-zawrs,-zba,-zbb,-zbc,-zbkb,-zbkc,-zbkx,-zbs,-zca,-zcb,-zcd,-zce,-zcf,-zcmop,-zcmp,-zcmt,-zdinx,-zfa,-zfbfmin,-zfh,-zfhmin,-zfinx,-zhinx,-zhinxmin,-zic64b,-zicbom,-zicbop,-zicboz,-ziccamoa,-ziccif,-zicclsm,-ziccrse,-zicntr,-zicond,-zicsr,-zifencei,-zihintntl,-zihintpause,-zihpm,-zimop,-zk,-zkn,-zknd,-zkne,-zknh,-zkr,-zks,-zksed,-zksh,-zkt,-ztso,-zvbb,-zvbc,-zve32f,-zve32x,-zve64d,-zve64f,-zve64x,-zvfbfmin,-zvfbfwma,-zvfh,-zvfhmin,-zvkb,-zvkg,-zvkn,-zvknc,-zvkned,-zvkng,-zvknha,-zvknhb,-zvks,-zvksc,-zvksed,-zvksg,-zvksh,-zvkt,-zvl1024b,-zvl128b,-zvl16384b,-zvl2048b,-zvl256b,-zvl32768b,-zvl32b,-zvl4096b,-zvl512b,-zvl64b,-zvl65536b,-zvl8192b" }
attributes #1 = { nofree norecurse nosync nounwind memory(argmem: readwrite) "no-builtins" "no-trapping-math"="true" "stack-protector-buffer-size"="8" "target-cpu"="generic-rv64" "target-features"="+64bit,+m,+relax,+zmmul,-a,-b,-c,-d,-e,-experimental-smmpm,-experimental-smnpm,-experimental-ssnpm,-experimental-sspm,-experimental-ssqosid,-experimental-supm,-experimental-zacas,-experimental-zalasr,-experimental-zicfilp,-experimental-zicfiss,-f,-h,-shcounterenw,-shgatpa,-shtvala,-shvsatpa,-shvstvala,-shvstvecd,-smaia,-smcdeleg,-smcsrind,-smepmp,-smstateen,-ssaia,-ssccfg,-ssccptr,-sscofpmf,-sscounterenw,-sscsrind,-ssstateen,-ssstrict,-sstc,-sstvala,-sstvecd,-ssu64xl,-svade,-svadu,-svbare,-svinval,-svnapot,-svpbmt,-v,-xcvalu,-xcvbi,-xcvbitmanip,-xcvelw,-xcvmac,-xcvmem,-xcvsimd,-xsfcease,-xsfvcp,-xsfvfnrclipxfqf,-xsfvfwmaccqqq,-xsfvqmaccdod,-xsfvqmaccqoq,-xsifivecdiscarddlone,-xsifivecflushdlone,-xtheadba,-xtheadbb,-xtheadbs,-xtheadcmo,-xtheadcondmov,-xtheadfmemidx,-xtheadmac,-xtheadmemidx,-xtheadmempair,-xtheadsync,-xtheadvdot,-xventanacondops,-xwchc,-za128rs,-za64rs,-zaamo,-zabha,-zalrsc,-zama16b,-zawrs,-zba,-zbb,-zbc,-zbkb,-zbkc,-zbkx,-zbs,-zca,-zcb,-zcd,-zce,-zcf,-zcmop,-zcmp,-zcmt,-zdinx,-zfa,-zfbfmin,-zfh,-zfhmin,-zfinx,-zhinx,-zhinxmin,-zic64b,-zicbom,-zicbop,-zicboz,-ziccamoa,-ziccif,-zicclsm,-ziccrse,-zicntr,-zicond,-zicsr,-zifencei,-zihintntl,-zihintpause,-zihpm,-zimop,-zk,-zkn,-zknd,-zkne,-zknh,-zkr,-zks,-zksed,-zksh,-zkt,-ztso,-zvbb,-zvbc,-zve32f,-zve32x,-zve64d,-zve64f,-zve64x,-zvfbfmin,-zvfbfwma,-zvfh,-zvfhmin,-zvkb,-zvkg,-zvkn,-zvknc,-zvkned,-zvkng,-zvknha,-zvknhb,-zvks,-zvksc,-zvksed,-zvksg,-zvksh,-zvkt,-zvl1024b,-zvl128b,-zvl16384b,-zvl2048b,-zvl256b,-zvl32768b,-zvl32b,-zvl4096b,-zvl512b,-zvl64b,-zvl65536b,-zvl8192b" }
attributes #2 = { mustprogress nofree norecurse nosync nounwind willreturn memory(argmem: write) "no-builtins" "no-trapping-math"="true" "stack-protector-buffer-size"="8" "target-cpu"="generic-rv64" "target-features"="+64bit,+m,+relax,+zmmul,-a,-b,-c,-d,-e,-experimental-smmpm,-experimental-smnpm,-experimental-ssnpm,-experimental-sspm,-experimental-ssqosid,-experimental-supm,-experimental-zacas,-experimental-zalasr,-experimental-zicfilp,-experimental-zicfiss,-f,-h,-shcounterenw,-shgatpa,-shtvala,-shvsatpa,-shvstvala,-shvstvecd,-smaia,-smcdeleg,-smcsrind,-smepmp,-smstateen,-ssaia,-ssccfg,-ssccptr,-sscofpmf,-sscounterenw,-sscsrind,-ssstateen,-ssstrict,-sstc,-sstvala,-sstvecd,-ssu64xl,-svade,-svadu,-svbare,-svinval,-svnapot,-svpbmt,-v,-xcvalu,-xcvbi,-xcvbitmanip,-xcvelw,-xcvmac,-xcvmem,-xcvsimd,-xsfcease,-xsfvcp,-xsfvfnrclipxfqf,-xsfvfwmaccqqq,-xsfvqmaccdod,-xsfvqmaccqoq,-xsifivecdiscarddlone,-xsifivecflushdlone,-xtheadba,-xtheadbb,-xtheadbs,-xtheadcmo,-xtheadcondmov,-xtheadfmemidx,-xtheadmac,-xtheadmemidx,-xtheadmempair,-xtheadsync,-xtheadvdot,-xventanacondops,-xwchc,-za128rs,-za64rs,-zaamo,-zabha,-zalrsc,-zama16b,-zawrs,-zba,-zbb,-zbc,-zbkb,-zbkc,-zbkx,-zbs,-zca,-zcb,-zcd,-zce,-zcf,-zcmop,-zcmp,-zcmt,-zdinx,-zfa,-zfbfmin,-zfh,-zfhmin,-zfinx,-zhinx,-zhinxmin,-zic64b,-zicbom,-zicbop,-zicboz,-ziccamoa,-ziccif,-zicclsm,-ziccrse,-zicntr,-zicond,-zicsr,-zifencei,-zihintntl,-zihintpause,-zihpm,-zimop,-zk,-zkn,-zknd,-zkne,-zknh,-zkr,-zks,-zksed,-zksh,-zkt,-ztso,-zvbb,-zvbc,-zve32f,-zve32x,-zve64d,-zve64f,-zve64x,-zvfbfmin,-zvfbfwma,-zvfh,-zvfhmin,-zvkb,-zvkg,-zvkn,-zvknc,-zvkned,-zvkng,-zvknha,-zvknhb,-zvks,-zvksc,-zvksed,-zvksg,-zvksh,-zvkt,-zvl1024b,-zvl128b,-zvl16384b,-zvl2048b,-zvl256b,-zvl32768b,-zvl32b,-zvl4096b,-zvl512b,-zvl64b,-zvl65536b,-zvl8192b" }
attributes #3 = { mustprogress nocallback nofree nounwind willreturn memory(argmem: write) }
attributes #4 = { mustprogress nofree norecurse nosync nounwind willreturn memory(argmem: readwrite) "no-builtins" "no-trapping-math"="true" "stack-protector-buffer-size"="8" "target-cpu"="generic-rv64" "target-features"="+64bit,+m,+relax,+zmmul,-a,-b,-c,-d,-e,-experimental-smmpm,-experimental-smnpm,-experimental-ssnpm,-experimental-sspm,-experimental-ssqosid,-experimental-supm,-experimental-zacas,-experimental-zalasr,-experimental-zicfilp,-experimental-zicfiss,-f,-h,-shcounterenw,-shgatpa,-shtvala,-shvsatpa,-shvstvala,-shvstvecd,-smaia,-smcdeleg,-smcsrind,-smepmp,-smstateen,-ssaia,-ssccfg,-ssccptr,-sscofpmf,-sscounterenw,-sscsrind,-ssstateen,-ssstrict,-sstc,-sstvala,-sstvecd,-ssu64xl,-svade,-svadu,-svbare,-svinval,-svnapot,-svpbmt,-v,-xcvalu,-xcvbi,-xcvbitmanip,-xcvelw,-xcvmac,-xcvmem,-xcvsimd,-xsfcease,-xsfvcp,-xsfvfnrclipxfqf,-xsfvfwmaccqqq,-xsfvqmaccdod,-xsfvqmaccqoq,-xsifivecdiscarddlone,-xsifivecflushdlone,-xtheadba,-xtheadbb,-xtheadbs,-xtheadcmo,-xtheadcondmov,-xtheadfmemidx,-xtheadmac,-xtheadmemidx,-xtheadmempair,-xtheadsync,-xtheadvdot,-xventanacondops,-xwchc,-za128rs,-za64rs,-zaamo,-zabha,-zalrsc,-zama16b,-zawrs,-zba,-zbb,-zbc,-zbkb,-zbkc,-zbkx,-zbs,-zca,-zcb,-zcd,-zce,-zcf,-zcmop,-zcmp,-zcmt,-zdinx,-zfa,-zfbfmin,-zfh,-zfhmin,-zfinx,-zhinx,-zhinxmin,-zic64b,-zicbom,-zicbop,-zicboz,-ziccamoa,-ziccif,-zicclsm,-ziccrse,-zicntr,-zicond,-zicsr,-zifencei,-zihintntl,-zihintpause,-zihpm,-zimop,-zk,-zkn,-zknd,-zkne,-zknh,-zkr,-zks,-zksed,-zksh,-zkt,-ztso,-zvbb,-zvbc,-zve32f,-zve32x,-zve64d,-zve64f,-zve64x,-zvfbfmin,-zvfbfwma,-zvfh,-zvfhmin,-zvkb,-zvkg,-zvkn,-zvknc,-zvkned,-zvkng,-zvknha,-zvknhb,-zvks,-zvksc,-zvksed,-zvksg,-zvksh,-zvkt,-zvl1024b,-zvl128b,-zvl16384b,-zvl2048b,-zvl256b,-zvl32768b,-zvl32b,-zvl4096b,-zvl512b,-zvl64b,-zvl65536b,-zvl8192b" }
attributes #5 = { mustprogress nocallback nofree nounwind willreturn memory(argmem: readwrite) }
attributes #6 = { mustprogress nofree norecurse nosync nounwind willreturn memory(none) "no-builtins" "no-trapping-math"="true" "stack-protector-buffer-size"="8" "target-cpu"="generic-rv64" "target-features"="+64bit,+m,+relax,+zmmul,-a,-b,-c,-d,-e,-experimental-smmpm,-experimental-smnpm,-experimental-ssnpm,-experimental-sspm,-experimental-ssqosid,-experimental-supm,-experimental-zacas,-experimental-zalasr,-experimental-zicfilp,-experimental-zicfiss,-f,-h,-shcounterenw,-shgatpa,-shtvala,-shvsatpa,-shvstvala,-shvstvecd,-smaia,-smcdeleg,-smcsrind,-smepmp,-smstateen,-ssaia,-ssccfg,-ssccptr,-sscofpmf,-sscounterenw,-sscsrind,-ssstateen,-ssstrict,-sstc,-sstvala,-sstvecd,-ssu64xl,-svade,-svadu,-svbare,-svinval,-svnapot,-svpbmt,-v,-xcvalu,-xcvbi,-xcvbitmanip,-xcvelw,-xcvmac,-xcvmem,-xcvsimd,-xsfcease,-xsfvcp,-xsfvfnrclipxfqf,-xsfvfwmaccqqq,-xsfvqmaccdod,-xsfvqmaccqoq,-xsifivecdiscarddlone,-xsifivecflushdlone,-xtheadba,-xtheadbb,-xtheadbs,-xtheadcmo,-xtheadcondmov,-xtheadfmemidx,-xtheadmac,-xtheadmemidx,-xtheadmempair,-xtheadsync,-xtheadvdot,-xventanacondops,-xwchc,-za128rs,-za64rs,-zaamo,-zabha,-zalrsc,-zama16b,-zawrs,-zba,-zbb,-zbc,-zbkb,-zbkc,-zbkx,-zbs,-zca,-zcb,-zcd,-zce,-zcf,-zcmop,-zcmp,-zcmt,-zdinx,-zfa,-zfbfmin,-zfh,-zfhmin,-zfinx,-zhinx,-zhinxmin,-zic64b,-zicbom,-zicbop,-zicboz,-ziccamoa,-ziccif,-zicclsm,-ziccrse,-zicntr,-zicond,-zicsr,-zifencei,-zihintntl,-zihintpause,-zihpm,-zimop,-zk,-zkn,-zknd,-zkne,-zknh,-zkr,-zks,-zksed,-zksh,-zkt,-ztso,-zvbb,-zvbc,-zve32f,-zve32x,-zve64d,-zve64f,-zve64x,-zvfbfmin,-zvfbfwma,-zvfh,-zvfhmin,-zvkb,-zvkg,-zvkn,-zvknc,-zvkned,-zvkng,-zvknha,-zvknhb,-zvks,-zvksc,-zvksed,-zvksg,-zvksh,-zvkt,-zvl1024b,-zvl128b,-zvl16384b,-zvl2048b,-zvl256b,-zvl32768b,-zvl32b,-zvl4096b,-zvl512b,-zvl64b,-zvl65536b,-zvl8192b" }
attributes #7 = { nofree nosync nounwind memory(none) "no-builtins" "no-trapping-math"="true" "stack-protector-buffer-size"="8" "target-cpu"="generic-rv64" "target-features"="+64bit,+m,+relax,+zmmul,-a,-b,-c,-d,-e,-experimental-smmpm,-experimental-smnpm,-experimental-ssnpm,-experimental-sspm,-experimental-ssqosid,-experimental-supm,-experimental-zacas,-experimental-zalasr,-experimental-zicfilp,-experimental-zicfiss,-f,-h,-shcounterenw,-shgatpa,-shtvala,-shvsatpa,-shvstvala,-shvstvecd,-smaia,-smcdeleg,-smcsrind,-smepmp,-smstateen,-ssaia,-ssccfg,-ssccptr,-sscofpmf,-sscounterenw,-sscsrind,-ssstateen,-ssstrict,-sstc,-sstvala,-sstvecd,-ssu64xl,-svade,-svadu,-svbare,-svinval,-svnapot,-svpbmt,-v,-xcvalu,-xcvbi,-xcvbitmanip,-xcvelw,-xcvmac,-xcvmem,-xcvsimd,-xsfcease,-xsfvcp,-xsfvfnrclipxfqf,-xsfvfwmaccqqq,-xsfvqmaccdod,-xsfvqmaccqoq,-xsifivecdiscarddlone,-xsifivecflushdlone,-xtheadba,-xtheadbb,-xtheadbs,-xtheadcmo,-xtheadcondmov,-xtheadfmemidx,-xtheadmac,-xtheadmemidx,-xtheadmempair,-xtheadsync,-xtheadvdot,-xventanacondops,-xwchc,-za128rs,-za64rs,-zaamo,-zabha,-zalrsc,-zama16b,-zawrs,-zba,-zbb,-zbc,-zbkb,-zbkc,-zbkx,-zbs,-zca,-zcb,-zcd,-zce,-zcf,-zcmop,-zcmp,-zcmt,-zdinx,-zfa,-zfbfmin,-zfh,-zfhmin,-zfinx,-zhinx,-zhinxmin,-zic64b,-zicbom,-zicbop,-zicboz,-ziccamoa,-ziccif,-zicclsm,-ziccrse,-zicntr,-zicond,-zicsr,-zifencei,-zihintntl,-zihintpause,-zihpm,-zimop,-zk,-zkn,-zknd,-zkne,-zknh,-zkr,-zks,-zksed,-zksh,-zkt,-ztso,-zvbb,-zvbc,-zve32f,-zve32x,-zve64d,-zve64f,-zve64x,-zvfbfmin,-zvfbfwma,-zvfh,-zvfhmin,-zvkb,-zvkg,-zvkn,-zvknc,-zvkned,-zvkng,-zvknha,-zvknhb,-zvks,-zvksc,-zvksed,-zvksg,-zvksh,-zvkt,-zvl1024b,-zvl128b,-zvl16384b,-zvl2048b,-zvl256b,-zvl32768b,-zvl32b,-zvl4096b,-zvl512b,-zvl64b,-zvl65536b,-zvl8192b" }
attributes #8 = { nofree noinline nosync nounwind memory(none) "no-builtins" "no-trapping-math"="true" "stack-protector-buffer-size"="8" "target-cpu"="generic-rv64" "target-features"="+64bit,+m,+relax,+zmmul,-a,-b,-c,-d,-e,-experimental-smmpm,-experimental-smnpm,-experimental-ssnpm,-experimental-sspm,-experimental-ssqosid,-experimental-supm,-experimental-zacas,-experimental-zalasr,-experimental-zicfilp,-experimental-zicfiss,-f,-h,-shcounterenw,-shgatpa,-shtvala,-shvsatpa,-shvstvala,-shvstvecd,-smaia,-smcdeleg,-smcsrind,-smepmp,-smstateen,-ssaia,-ssccfg,-ssccptr,-sscofpmf,-sscounterenw,-sscsrind,-ssstateen,-ssstrict,-sstc,-sstvala,-sstvecd,-ssu64xl,-svade,-svadu,-svbare,-svinval,-svnapot,-svpbmt,-v,-xcvalu,-xcvbi,-xcvbitmanip,-xcvelw,-xcvmac,-xcvmem,-xcvsimd,-xsfcease,-xsfvcp,-xsfvfnrclipxfqf,-xsfvfwmaccqqq,-xsfvqmaccdod,-xsfvqmaccqoq,-xsifivecdiscarddlone,-xsifivecflushdlone,-xtheadba,-xtheadbb,-xtheadbs,-xtheadcmo,-xtheadcondmov,-xtheadfmemidx,-xtheadmac,-xtheadmemidx,-xtheadmempair,-xtheadsync,-xtheadvdot,-xventanacondops,-xwchc,-za128rs,-za64rs,-zaamo,-zabha,-zalrsc,-zama16b,-zawrs,-zba,-zbb,-zbc,-zbkb,-zbkc,-zbkx,-zbs,-zca,-zcb,-zcd,-zce,-zcf,-zcmop,-zcmp,-zcmt,-zdinx,-zfa,-zfbfmin,-zfh,-zfhmin,-zfinx,-zhinx,-zhinxmin,-zic64b,-zicbom,-zicbop,-zicboz,-ziccamoa,-ziccif,-zicclsm,-ziccrse,-zicntr,-zicond,-zicsr,-zifencei,-zihintntl,-zihintpause,-zihpm,-zimop,-zk,-zkn,-zknd,-zkne,-zknh,-zkr,-zks,-zksed,-zksh,-zkt,-ztso,-zvbb,-zvbc,-zve32f,-zve32x,-zve64d,-zve64f,-zve64x,-zvfbfmin,-zvfbfwma,-zvfh,-zvfhmin,-zvkb,-zvkg,-zvkn,-zvknc,-zvkned,-zvkng,-zvknha,-zvknhb,-zvks,-zvksc,-zvksed,-zvksg,-zvksh,-zvkt,-zvl1024b,-zvl128b,-zvl16384b,-zvl2048b,-zvl256b,-zvl32768b,-zvl32b,-zvl4096b,-zvl512b,-zvl64b,-zvl65536b,-zvl8192b" }
attributes #9 = { nofree norecurse noreturn nosync nounwind memory(none) "no-builtins" "no-trapping-math"="true" "stack-protector-buffer-size"="8" "target-cpu"="generic-rv64" "target-features"="+64bit,+m,+relax,+zmmul,-a,-b,-c,-d,-e,-experimental-smmpm,-experimental-smnpm,-experimental-ssnpm,-experimental-sspm,-experimental-ssqosid,-experimental-supm,-experimental-zacas,-experimental-zalasr,-experimental-zicfilp,-experimental-zicfiss,-f,-h,-shcounterenw,-shgatpa,-shtvala,-shvsatpa,-shvstvala,-shvstvecd,-smaia,-smcdeleg,-smcsrind,-smepmp,-smstateen,-ssaia,-ssccfg,-ssccptr,-sscofpmf,-sscounterenw,-sscsrind,-ssstateen,-ssstrict,-sstc,-sstvala,-sstvecd,-ssu64xl,-svade,-svadu,-svbare,-svinval,-svnapot,-svpbmt,-v,-xcvalu,-xcvbi,-xcvbitmanip,-xcvelw,-xcvmac,-xcvmem,-xcvsimd,-xsfcease,-xsfvcp,-xsfvfnrclipxfqf,-xsfvfwmaccqqq,-xsfvqmaccdod,-xsfvqmaccqoq,-xsifivecdiscarddlone,-xsifivecflushdlone,-xtheadba,-xtheadbb,-xtheadbs,-xtheadcmo,-xtheadcondmov,-xtheadfmemidx,-xtheadmac,-xtheadmemidx,-xtheadmempair,-xtheadsync,-xtheadvdot,-xventanacondops,-xwchc,-za128rs,-za64rs,-zaamo,-zabha,-zalrsc,-zama16b,-zawrs,-zba,-zbb,-zbc,-zbkb,-zbkc,-zbkx,-zbs,-zca,-zcb,-zcd,-zce,-zcf,-zcmop,-zcmp,-zcmt,-zdinx,-zfa,-zfbfmin,-zfh,-zfhmin,-zfinx,-zhinx,-zhinxmin,-zic64b,-zicbom,-zicbop,-zicboz,-ziccamoa,-ziccif,-zicclsm,-ziccrse,-zicntr,-zicond,-zicsr,-zifencei,-zihintntl,-zihintpause,-zihpm,-zimop,-zk,-zkn,-zknd,-zkne,-zknh,-zkr,-zks,-zksed,-zksh,-zkt,-ztso,-zvbb,-zvbc,-zve32f,-zve32x,-zve64d,-zve64f,-zve64x,-zvfbfmin,-zvfbfwma,-zvfh,-zvfhmin,-zvkb,-zvkg,-zvkn,-zvknc,-zvkned,-zvkng,-zvknha,-zvknhb,-zvks,-zvksc,-zvksed,-zvksg,-zvksh,-zvkt,-zvl1024b,-zvl128b,-zvl16384b,-zvl2048b,-zvl256b,-zvl32768b,-zvl32b,-zvl4096b,-zvl512b,-zvl64b,-zvl65536b,-zvl8192b" }
attributes #10 = { nofree norecurse nosync nounwind memory(argmem: readwrite, inaccessiblemem: write) "no-builtins" "no-trapping-math"="true" "stack-protector-buffer-size"="8" "target-cpu"="generic-rv64" "target-features"="+64bit,+m,+relax,+zmmul,-a,-b,-c,-d,-e,-experimental-smmpm,-experimental-smnpm,-experimental-ssnpm,-experimental-sspm,-experimental-ssqosid,-experimental-supm,-experimental-zacas,-experimental-zalasr,-experimental-zicfilp,-experimental-zicfiss,-f,-h,-shcounterenw,-shgatpa,-shtvala,-shvsatpa,-shvstvala,-shvstvecd,-smaia,-smcdeleg,-smcsrind,-smepmp,-smstateen,-ssaia,-ssccfg,-ssccptr,-sscofpmf,-sscounterenw,-sscsrind,-ssstateen,-ssstrict,-sstc,-sstvala,-sstvecd,-ssu64xl,-svade,-svadu,-svbare,-svinval,-svnapot,-svpbmt,-v,-xcvalu,-xcvbi,-xcvbitmanip,-xcvelw,-xcvmac,-xcvmem,-xcvsimd,-xsfcease,-xsfvcp,-xsfvfnrclipxfqf,-xsfvfwmaccqqq,-xsfvqmaccdod,-xsfvqmaccqoq,-xsifivecdiscarddlone,-xsifivecflushdlone,-xtheadba,-xtheadbb,-xtheadbs,-xtheadcmo,-xtheadcondmov,-xtheadfmemidx,-xtheadmac,-xtheadmemidx,-xtheadmempair,-xtheadsync,-xtheadvdot,-xventanacondops,-xwchc,-za128rs,-za64rs,-zaamo,-zabha,-zalrsc,-zama16b,-zawrs,-zba,-zbb,-zbc,-zbkb,-zbkc,-zbkx,-zbs,-zca,-zcb,-zcd,-zce,-zcf,-zcmop,-zcmp,-zcmt,-zdinx,-zfa,-zfbfmin,-zfh,-zfhmin,-zfinx,-zhinx,-zhinxmin,-zic64b,-zicbom,-zicbop,-zicboz,-ziccamoa,-ziccif,-zicclsm,-ziccrse,-zicntr,-zicond,-zicsr,-zifencei,-zihintntl,-zihintpause,-zihpm,-zimop,-zk,-zkn,-zknd,-zkne,-zknh,-zkr,-zks,-zksed,-zksh,-zkt,-ztso,-zvbb,-zvbc,-zve32f,-zve32x,-zve64d,-zve64f,-zve64x,-zvfbfmin,-zvfbfwma,-zvfh,-zvfhmin,-zvkb,-zvkg,-zvkn,-zvknc,-zvkned,-zvkng,-zvknha,-zvknhb,-zvks,-zvksc,-zvksed,-zvksg,-zvksh,-zvkt,-zvl1024b,-zvl128b,-zvl16384b,-zvl2048b,-zvl256b,-zvl32768b,-zvl32b,-zvl4096b,-zvl512b,-zvl64b,-zvl65536b,-zvl8192b" }
attributes #11 = { nocallback nofree nosync nounwind willreturn memory(inaccessiblemem: write) }
attributes #12 = { nocallback nofree nosync nounwind speculatable willreturn memory(none) }
attributes #13 = { nobuiltin "no-builtins" }

!llvm.dbg.cu = !{!0}
!llvm.module.flags = !{!6, !7, !8, !9, !10, !12, !13, !14, !15}
!llvm.ident = !{!16}

!0 = distinct !DICompileUnit(language: DW_LANG_C11, file: !1, producer: "Debian clang version 19.1.7 (3~deb12u1)", isOptimized: true, runtimeVersion: 0, emissionKind: FullDebug, retainedTypes: !2, splitDebugInlining: false, nameTableKind: None)
!1 = !DIFile(filename: "loops.c", directory: "bench/texts", checksumkind: CSK_MD5, checksum: "055b57c3ff15323e7d66c70bbe4fcae4")
!2 = !{!3, !4, !5}
!3 = !DIBasicType(name: "unsigned char", size: 8, encoding: DW_ATE_unsigned_char)
!4 = !DIBasicType(name: "short", size: 16, encoding: DW_ATE_signed)
!5 = !DIBasicType(name: "unsigned long", size: 64, encoding: DW_ATE_unsigned)
!6 = !{i32 7, !"Dwarf Version", i32 5}
!7 = !{i32 2, !"Debug Info Version", i32 3}
!8 = !{i32 1, !"wchar_size", i32 4}
!9 = !{i32 1, !"target-abi", !"lp64"}
!10 = !{i32 6, !"riscv-isa", !11}
!11 = !{!"rv64i2p1_m2p0_zmmul1p0"}
!12 = !{i32 8, !"PIC Level", i32 2}
!13 = !{i32 7, !"PIE Level", i32 2}
!14 = !{i32 8, !"SmallDataLimit", i32 8}
!15 = !{i32 7, !"debug-info-assignment-tracking", i1 true}
!16 = !{!"Debian clang version 19.1.7 (3~deb12u1)"}
!17 = distinct !DISubprogram(name: "gcd", scope: !1, file: !1, line: 3, type: !18, scopeLine: 3, flags: DIFlagPrototyped | DIFlagAllCallsDescribed, spFlags: DISPFlagDefinition | DISPFlagOptimized, unit: !0, retainedNodes: !21)
!18 = !DISubroutineType(types: !19)
!19 = !{!20, !20, !20}
!20 = !DIBasicType(name: "unsigned int", size: 32, encoding: DW_ATE_unsigned)
!21 = !{!22, !23, !24}
!22 = !DILocalVariable(name: "a", arg: 1, scope: !17, file: !1, line: 3, type: !20)
!23 = !DILocalVariable(name: "b", arg: 2, scope: !17, file: !1, line: 3, type: !20)
!24 = !DILocalVariable(name: "t", scope: !25, file: !1, line: 3, type: !20)
!25 = distinct !DILexicalBlock(scope: !17, file: !1, line: 3, column: 50)
!26 = !DILocation(line: 0, scope: !17)
!27 = !DILocation(line: 3, column: 40, scope: !17)
!28 = !DILocation(line: 3, column: 67, scope: !25)
!29 = !DILocation(line: 0, scope: !25)
!30 = distinct !{!30, !27, !31, !32, !33}
!31 = !DILocation(line: 3, column: 86, scope: !17)
!32 = !{!"llvm.loop.mustprogress"}
!33 = !{!"llvm.loop.unroll.disable"}
!34 = !DILocation(line: 3, column: 88, scope: !17)
!35 = distinct !DISubprogram(name: "sort", scope: !1, file: !1, line: 4, type: !36, scopeLine: 4, flags: DIFlagPrototyped | DIFlagAllCallsDescribed, spFlags: DISPFlagDefinition | DISPFlagOptimized, unit: !0, retainedNodes: !40)
!36 = !DISubroutineType(types: !37)
!37 = !{null, !38, !39}
!38 = !DIDerivedType(tag: DW_TAG_pointer_type, baseType: !39, size: 64)
!39 = !DIBasicType(name: "int", size: 32, encoding: DW_ATE_signed)
!40 = !{!41, !42, !43, !45, !48}
!41 = !DILocalVariable(name: "a", arg: 1, scope: !35, file: !1, line: 4, type: !38)
!42 = !DILocalVariable(name: "n", arg: 2, scope: !35, file: !1, line: 4, type: !39)
!43 = !DILocalVariable(name: "i", scope: !44, file: !1, line: 4, type: !39)
!44 = distinct !DILexicalBlock(scope: !35, file: !1, line: 4, column: 28)
!45 = !DILocalVariable(name: "k", scope: !46, file: !1, line: 4, type: !39)
!46 = distinct !DILexicalBlock(scope: !47, file: !1, line: 4, column: 56)
!47 = distinct !DILexicalBlock(scope: !44, file: !1, line: 4, column: 28)
!48 = !DILocalVariable(name: "j", scope: !46, file: !1, line: 4, type: !39)
!49 = !DILocation(line: 0, scope: !35)
!50 = !DILocation(line: 0, scope: !44)
!51 = !DILocation(line: 4, column: 46, scope: !47)
!52 = !DILocation(line: 4, column: 28, scope: !44)
!53 = !DILocation(line: 4, column: 152, scope: !35)
!54 = !DILocation(line: 4, column: 66, scope: !46)
!55 = !{!56, !56, i64 0}
!56 = !{!"int", !57, i64 0}
!57 = !{!"omnipotent char", !58, i64 0}
!58 = !{!"Simple C/C++ TBAA"}
!59 = !DILocation(line: 0, scope: !46)
!60 = !DILocation(line: 4, column: 97, scope: !46)
!61 = !DILocation(line: 4, scope: !46)
!62 = !DILocation(line: 4, column: 100, scope: !46)
!63 = !DILocation(line: 4, column: 105, scope: !46)
!64 = !DILocation(line: 4, column: 83, scope: !46)
!65 = !DILocation(line: 4, column: 112, scope: !66)
!66 = distinct !DILexicalBlock(scope: !46, file: !1, line: 4, column: 110)
!67 = !DILocation(line: 4, column: 121, scope: !66)
!68 = !DILocation(line: 4, column: 92, scope: !46)
!69 = distinct !{!69, !64, !70, !32, !33}
!70 = !DILocation(line: 4, column: 134, scope: !46)
!71 = !DILocation(line: 4, column: 136, scope: !46)
!72 = !DILocation(line: 4, column: 145, scope: !46)
!73 = !DILocation(line: 4, column: 52, scope: !47)
!74 = distinct !{!74, !52, !75, !32, !33}
!75 = !DILocation(line: 4, column: 150, scope: !44)
!76 = distinct !DISubprogram(name: "clear", scope: !1, file: !1, line: 5, type: !77, scopeLine: 5, flags: DIFlagPrototyped | DIFlagAllCallsDescribed, spFlags: DISPFlagDefinition | DISPFlagOptimized, unit: !0, retainedNodes: !82)
!77 = !DISubroutineType(types: !78)
!78 = !{null, !79, !81}
!79 = !DIDerivedType(tag: DW_TAG_pointer_type, baseType: !80, size: 64)
!80 = !DIBasicType(name: "char", size: 8, encoding: DW_ATE_unsigned_char)
!81 = !DIDerivedType(tag: DW_TAG_typedef, name: "size", file: !1, line: 2, baseType: !5)
!82 = !{!83, !84}
!83 = !DILocalVariable(name: "to", arg: 1, scope: !76, file: !1, line: 5, type: !79)
!84 = !DILocalVariable(name: "n", arg: 2, scope: !76, file: !1, line: 5, type: !81)
!85 = !DILocation(line: 0, scope: !76)
!86 = !DILocation(line: 5, column: 32, scope: !76)
!87 = !DILocation(line: 5, column: 60, scope: !76)
!88 = distinct !DISubprogram(name: "move", scope: !1, file: !1, line: 6, type: !89, scopeLine: 6, flags: DIFlagPrototyped | DIFlagAllCallsDescribed, spFlags: DISPFlagDefinition | DISPFlagOptimized, unit: !0, retainedNodes: !93)
!89 = !DISubroutineType(types: !90)
!90 = !{null, !79, !91, !81}
!91 = !DIDerivedType(tag: DW_TAG_pointer_type, baseType: !92, size: 64)
!92 = !DIDerivedType(tag: DW_TAG_const_type, baseType: !80)
!93 = !{!94, !95, !96}
!94 = !DILocalVariable(name: "to", arg: 1, scope: !88, file: !1, line: 6, type: !79)
!95 = !DILocalVariable(name: "from", arg: 2, scope: !88, file: !1, line: 6, type: !91)
!96 = !DILocalVariable(name: "n", arg: 3, scope: !88, file: !1, line: 6, type: !81)
!97 = !DILocation(line: 0, scope: !88)
!98 = !DILocation(line: 6, column: 49, scope: !88)
!99 = !DILocation(line: 6, column: 81, scope: !88)
!100 = distinct !DISubprogram(name: "clamp", scope: !1, file: !1, line: 7, type: !101, scopeLine: 7, flags: DIFlagPrototyped | DIFlagAllCallsDescribed, spFlags: DISPFlagDefinition | DISPFlagOptimized, unit: !0, retainedNodes: !103)
!101 = !DISubroutineType(types: !102)
!102 = !{!39, !39}
!103 = !{!104}
!104 = !DILocalVariable(name: "x", arg: 1, scope: !100, file: !1, line: 7, type: !39)
!105 = !DILocation(line: 0, scope: !100)
!106 = !DILocation(line: 7, column: 27, scope: !100)
!107 = !DILocation(line: 7, column: 20, scope: !100)
!108 = distinct !DISubprogram(name: "magnitude", scope: !1, file: !1, line: 8, type: !109, scopeLine: 8, flags: DIFlagPrototyped | DIFlagAllCallsDescribed, spFlags: DISPFlagDefinition | DISPFlagOptimized, unit: !0, retainedNodes: !112)
!109 = !DISubroutineType(types: !110)
!110 = !{!111, !111}
!111 = !DIBasicType(name: "long", size: 64, encoding: DW_ATE_signed)
!112 = !{!113}
!113 = !DILocalVariable(name: "x", arg: 1, scope: !108, file: !1, line: 8, type: !111)
!114 = !DILocation(line: 0, scope: !108)
!115 = !DILocation(line: 8, column: 33, scope: !108)
!116 = !DILocation(line: 8, column: 26, scope: !108)
!117 = distinct !DISubprogram(name: "rotate", scope: !1, file: !1, line: 9, type: !118, scopeLine: 9, flags: DIFlagPrototyped | DIFlagAllCallsDescribed, spFlags: DISPFlagDefinition | DISPFlagOptimized, unit: !0, retainedNodes: !120)
!118 = !DISubroutineType(types: !119)
!119 = !{!3, !3, !39}
!120 = !{!121, !122}
!121 = !DILocalVariable(name: "x", arg: 1, scope: !117, file: !1, line: 9, type: !3)
!122 = !DILocalVariable(name: "k", arg: 2, scope: !117, file: !1, line: 9, type: !39)
!123 = !DILocation(line: 0, scope: !117)
!124 = !DILocation(line: 9, column: 55, scope: !117)
!125 = !DILocation(line: 9, column: 48, scope: !117)
!126 = distinct !DISubprogram(name: "narrow", scope: !1, file: !1, line: 10, type: !127, scopeLine: 10, flags: DIFlagPrototyped | DIFlagAllCallsDescribed, spFlags: DISPFlagDefinition | DISPFlagOptimized, unit: !0, retainedNodes: !129)
!127 = !DISubroutineType(types: !128)
!128 = !{!4, !111}
!129 = !{!130}
!130 = !DILocalVariable(name: "x", arg: 1, scope: !126, file: !1, line: 10, type: !111)
!131 = !DILocation(line: 0, scope: !126)
!132 = !DILocation(line: 10, column: 41, scope: !126)
!133 = !DILocation(line: 10, column: 31, scope: !126)
!134 = !DILocation(line: 10, column: 24, scope: !126)
!135 = distinct !DISubprogram(name: "wide", scope: !1, file: !1, line: 11, type: !136, scopeLine: 11, flags: DIFlagPrototyped | DIFlagAllCallsDescribed, spFlags: DISPFlagDefinition | DISPFlagOptimized, unit: !0, retainedNodes: !138)
!136 = !DISubroutineType(types: !137)
!137 = !{!5, !39, !3}
!138 = !{!139, !140}
!139 = !DILocalVariable(name: "x", arg: 1, scope: !135, file: !1, line: 11, type: !39)
!140 = !DILocalVariable(name: "y", arg: 2, scope: !135, file: !1, line: 11, type: !3)
!141 = !DILocation(line: 0, scope: !135)
!142 = !DILocation(line: 11, column: 53, scope: !135)
!143 = !DILocation(line: 11, column: 72, scope: !135)
!144 = !DILocation(line: 11, column: 70, scope: !135)
!145 = !DILocation(line: 11, column: 46, scope: !135)
!146 = distinct !DISubprogram(name: "kind", scope: !1, file: !1, line: 12, type: !101, scopeLine: 12, flags: DIFlagPrototyped | DIFlagAllCallsDescribed, spFlags: DISPFlagDefinition | DISPFlagOptimized, unit: !0, retainedNodes: !147)
!147 = !{!148}
!148 = !DILocalVariable(name: "c", arg: 1, scope: !146, file: !1, line: 12, type: !39)
!149 = !DILocation(line: 0, scope: !146)
!150 = !DILocation(line: 12, column: 19, scope: !146)
!151 = !DILocation(line: 12, column: 82, scope: !152)
!152 = distinct !DILexicalBlock(scope: !146, file: !1, line: 12, column: 30)
!153 = !DILocation(line: 12, column: 101, scope: !152)
!154 = !DILocation(line: 12, column: 125, scope: !152)
!155 = !DILocation(line: 12, column: 144, scope: !152)
!156 = !DILocation(line: 12, scope: !152)
!157 = !DILocation(line: 12, column: 156, scope: !146)
!158 = distinct !DISubprogram(name: "both", scope: !1, file: !1, line: 13, type: !159, scopeLine: 13, flags: DIFlagPrototyped | DIFlagAllCallsDescribed, spFlags: DISPFlagDefinition | DISPFlagOptimized, unit: !0, retainedNodes: !162)
!159 = !DISubroutineType(types: !160)
!160 = !{!39, !161, !161}
!161 = !DIBasicType(name: "_Bool", size: 8, encoding: DW_ATE_boolean)
!162 = !{!163, !164}
!163 = !DILocalVariable(name: "a", arg: 1, scope: !158, file: !1, line: 13, type: !161)
!164 = !DILocalVariable(name: "b", arg: 2, scope: !158, file: !1, line: 13, type: !161)
!165 = !DILocation(line: 0, scope: !158)
!166 = !DILocation(line: 13, column: 40, scope: !158)
!167 = !DILocation(line: 13, column: 52, scope: !158)
!168 = !DILocation(line: 13, column: 58, scope: !158)
!169 = !DILocation(line: 13, column: 46, scope: !158)
!170 = !DILocation(line: 13, column: 30, scope: !158)
!171 = distinct !DISubprogram(name: "collatz", scope: !1, file: !1, line: 14, type: !109, scopeLine: 14, flags: DIFlagPrototyped | DIFlagAllCallsDescribed, spFlags: DISPFlagDefinition | DISPFlagOptimized, unit: !0, retainedNodes: !172)
!172 = !{!173, !174}
!173 = !DILocalVariable(name: "n", arg: 1, scope: !171, file: !1, line: 14, type: !111)
!174 = !DILocalVariable(name: "k", scope: !171, file: !1, line: 14, type: !111)
!175 = !DILocation(line: 0, scope: !171)
!176 = !DILocation(line: 14, column: 45, scope: !171)
!177 = !DILocation(line: 14, column: 36, scope: !171)
!178 = !DILocation(line: 14, column: 59, scope: !179)
!179 = distinct !DILexicalBlock(scope: !171, file: !1, line: 14, column: 51)
!180 = !DILocation(line: 14, column: 57, scope: !179)
!181 = !DILocation(line: 14, column: 85, scope: !179)
!182 = distinct !{!182, !177, !183, !32, !33}
!183 = !DILocation(line: 14, column: 89, scope: !171)
!184 = !DILocation(line: 14, scope: !171)
!185 = !DILocation(line: 14, column: 91, scope: !171)
!186 = distinct !DISubprogram(name: "near", scope: !1, file: !1, line: 15, type: !187, scopeLine: 15, flags: DIFlagPrototyped | DIFlagAllCallsDescribed, spFlags: DISPFlagDefinition | DISPFlagOptimized, unit: !0, retainedNodes: !191)
!187 = !DISubroutineType(types: !188)
!188 = !{!39, !189, !189}
!189 = !DIDerivedType(tag: DW_TAG_pointer_type, baseType: !190, size: 64)
!190 = !DIDerivedType(tag: DW_TAG_const_type, baseType: null)
!191 = !{!192, !193}
!192 = !DILocalVariable(name: "p", arg: 1, scope: !186, file: !1, line: 15, type: !189)
!193 = !DILocalVariable(name: "q", arg: 2, scope: !186, file: !1, line: 15, type: !189)
!194 = !DILocation(line: 0, scope: !186)
!195 = !DILocation(line: 15, column: 51, scope: !186)
!196 = !DILocation(line: 15, column: 49, scope: !186)
!197 = !DILocation(line: 15, column: 42, scope: !186)
!198 = distinct !DISubprogram(name: "deep", scope: !1, file: !1, line: 17, type: !199, scopeLine: 17, flags: DIFlagPrototyped | DIFlagAllCallsDescribed, spFlags: DISPFlagDefinition | DISPFlagOptimized, unit: !0)
!199 = !DISubroutineType(types: !200)
!200 = !{!39}
!201 = !DILocation(line: 17, column: 25, scope: !198)
!202 = !DILocation(line: 17, column: 18, scope: !198)
!203 = distinct !DISubprogram(name: "ack", scope: !1, file: !1, line: 16, type: !204, scopeLine: 16, flags: DIFlagPrototyped | DIFlagAllCallsDescribed, spFlags: DISPFlagLocalToUnit | DISPFlagDefinition | DISPFlagOptimized, unit: !0, retainedNodes: !206)
!204 = !DISubroutineType(types: !205)
!205 = !{!39, !39, !39}
!206 = !{!207, !208}
!207 = !DILocalVariable(name: "m", arg: 1, scope: !203, file: !1, line: 16, type: !39)
!208 = !DILocalVariable(name: "n", arg: 2, scope: !203, file: !1, line: 16, type: !39)
!209 = !DILocation(line: 0, scope: !203)
!210 = !DILocation(line: 16, column: 67, scope: !203)
!211 = !DILocation(line: 16, column: 65, scope: !203)
!212 = !DILocation(line: 16, column: 76, scope: !203)
!213 = !DILocation(line: 16, column: 58, scope: !203)
!214 = !DILocation(line: 16, column: 84, scope: !203)
!215 = !DILocation(line: 16, scope: !203)
!216 = !DILocation(line: 16, column: 82, scope: !203)
!217 = !DILocation(line: 16, column: 127, scope: !203)
!218 = !DILocation(line: 16, column: 118, scope: !203)
!219 = !DILocation(line: 16, column: 107, scope: !203)
!220 = distinct !DISubprogram(name: "stop", scope: !1, file: !1, line: 18, type: !221, scopeLine: 18, flags: DIFlagPrototyped | DIFlagNoReturn | DIFlagAllCallsDescribed, spFlags: DISPFlagDefinition | DISPFlagOptimized, unit: !0)
!221 = !DISubroutineType(types: !222)
!222 = !{null}
!223 = !DILocation(line: 18, column: 29, scope: !220)
!224 = !DILocation(line: 18, column: 29, scope: !225)
!225 = distinct !DILexicalBlock(scope: !226, file: !1, line: 18, column: 29)
!226 = distinct !DILexicalBlock(scope: !220, file: !1, line: 18, column: 29)
!227 = distinct !{!227, !228, !229, !33}
!228 = !DILocation(line: 18, column: 29, scope: !226)
!229 = !DILocation(line: 18, column: 40, scope: !226)
!230 = distinct !DISubprogram(name: "assumed", scope: !1, file: !1, line: 19, type: !36, scopeLine: 19, flags: DIFlagPrototyped | DIFlagAllCallsDescribed, spFlags: DISPFlagDefinition | DISPFlagOptimized, unit: !0, retainedNodes: !231)
!231 = !{!232, !233, !234}
!232 = !DILocalVariable(name: "p", arg: 1, scope: !230, file: !1, line: 19, type: !38)
!233 = !DILocalVariable(name: "n", arg: 2, scope: !230, file: !1, line: 19, type: !39)
!234 = !DILocalVariable(name: "i", scope: !235, file: !1, line: 19, type: !39)
!235 = distinct !DILexicalBlock(scope: !230, file: !1, line: 19, column: 67)
!236 = !DILocation(line: 0, scope: !230)
!237 = !DILocation(line: 19, column: 37, scope: !238)
!238 = distinct !DILexicalBlock(scope: !230, file: !1, line: 19, column: 35)
!239 = !DILocation(line: 19, column: 35, scope: !230)
!240 = !DILocation(line: 0, scope: !235)
!241 = !DILocation(line: 19, column: 85, scope: !242)
!242 = distinct !DILexicalBlock(scope: !235, file: !1, line: 19, column: 67)
!243 = !DILocation(line: 19, column: 67, scope: !235)
!244 = !DILocation(line: 19, column: 106, scope: !230)
!245 = !DILocation(line: 19, column: 95, scope: !242)
!246 = !DILocation(line: 19, column: 100, scope: !242)
!247 = !DILocation(line: 19, column: 91, scope: !242)
!248 = distinct !{!248, !243, !249, !32, !33}
!249 = !DILocation(line: 19, column: 103, scope: !235)
