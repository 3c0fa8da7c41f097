; ModuleID = 'lists.c'
source_filename = "lists.c"
target datalayout = "e-m:e-p:64:64-i64:64-i128:128-n32:64-S128"
target triple = "riscv64-unknown-linux-gnu"

%struct.cell = type { ptr, i64, [9 x i8], i16 }
%struct.tight = type <{ i8, i32 }>

@first = internal global %struct.cell { ptr @last, i64 7, [9 x i8] c"a\22b\0A\00\00\00\00\00", i16 1 }, align 8, !dbg !0
@list = dso_local local_unnamed_addr global ptr @first, align 8, !dbg !9
@.str = private unnamed_addr constant [4 x i8] c"one\00", align 1, !dbg !22
@.str.1 = private unnamed_addr constant [4 x i8] c"two\00", align 1, !dbg !27
@words = dso_local local_unnamed_addr constant [3 x ptr] [ptr @.str, ptr @.str.1, ptr null], align 8, !dbg !29
@mixed = dso_local local_unnamed_addr global { [8 x i8] } { [8 x i8] c"\01\02\03\00\00\00\00\00" }, align 8, !dbg !37
@zeros = dso_local global [16 x i32] zeroinitializer, align 4, !dbg !51
@into = dso_local local_unnamed_addr global ptr getelementptr inbounds (i8, ptr @zeros, i64 12), align 8, !dbg !46
@flag = dso_local local_unnamed_addr global i8 1, align 1, !dbg !48
@pairs = internal unnamed_addr constant [3 x %struct.tight] [%struct.tight <{ i8 1, i32 -2 }>, %struct.tight <{ i8 3, i32 4 }>, %struct.tight zeroinitializer], align 1, !dbg !59
@last = internal global %struct.cell { ptr null, i64 -5, [9 x i8] c"end\\\00\00\00\00\00", i16 3 }, align 8, !dbg !57

; Function Attrs: nofree norecurse nosync nounwind memory(read, inaccessiblemem: none)
define dso_local i64 @total() local_unnamed_addr #0 !dbg !77 {
    #dbg_value(i64 0, !81, !DIExpression(), !84)
    #dbg_value(ptr poison, !82, !DIExpression(), !85)
  %1 = load ptr, ptr @list, align 8, !dbg !86, !tbaa !87
  %2 = icmp eq ptr %1, null, !dbg !91
  br i1 %2, label %3, label %5, !dbg !91

3:                                                ; preds = %5, %0
  %4 = phi i64 [ 0, %0 ], [ %18, %5 ], !dbg !92
  ret i64 %4, !dbg !93

5:                                                ; preds = %0, %5
  %6 = phi ptr [ %19, %5 ], [ %1, %0 ]
  %7 = phi i64 [ %18, %5 ], [ 0, %0 ]
    #dbg_value(i64 %7, !81, !DIExpression(), !84)
  %8 = getelementptr inbounds i8, ptr %6, i64 8, !dbg !94
  %9 = load i64, ptr %8, align 8, !dbg !94, !tbaa !96
  %10 = getelementptr inbounds i8, ptr %6, i64 17, !dbg !100
  %11 = load i8, ptr %10, align 1, !dbg !100, !tbaa !101
  %12 = zext i8 %11 to i64, !dbg !100
  %13 = getelementptr inbounds i8, ptr %6, i64 26, !dbg !102
  %14 = load i16, ptr %13, align 2, !dbg !102, !tbaa !103
  %15 = sext i16 %14 to i64, !dbg !104
  %16 = add i64 %9, %7, !dbg !105
  %17 = add i64 %16, %12, !dbg !106
  %18 = add i64 %17, %15, !dbg !107
    #dbg_value(i64 %18, !81, !DIExpression(), !84)
    #dbg_value(ptr poison, !82, !DIExpression(), !85)
  %19 = load ptr, ptr %6, align 8, !dbg !86, !tbaa !87
    #dbg_value(ptr %19, !82, !DIExpression(), !85)
  %20 = icmp eq ptr %19, null, !dbg !91
  br i1 %20, label %3, label %5, !dbg !91, !llvm.loop !108
}

; Function Attrs: mustprogress nofree norecurse nosync nounwind willreturn memory(none)
define dso_local signext i32 @packed(i32 noundef signext %0) local_unnamed_addr #1 !dbg !112 {
    #dbg_value(i32 %0, !117, !DIExpression(), !118)
  %2 = urem i32 %0, 3, !dbg !119
  %3 = zext nneg i32 %2 to i64, !dbg !120
  %4 = getelementptr inbounds [3 x %struct.tight], ptr @pairs, i64 0, i64 %3, i32 1, !dbg !121
  %5 = load i32, ptr %4, align 1, !dbg !121, !tbaa !122
  %6 = add nsw i32 %5, 1, !dbg !125
  ret i32 %6, !dbg !126
}

; Function Attrs: mustprogress nofree norecurse nosync nounwind willreturn memory(read, inaccessiblemem: none)
define dso_local zeroext i8 @letter(i32 noundef signext %0, i32 noundef signext %1) local_unnamed_addr #2 !dbg !127 {
    #dbg_value(i32 %0, !131, !DIExpression(), !133)
    #dbg_value(i32 %1, !132, !DIExpression(), !133)
  %3 = and i32 %0, 1, !dbg !134
  %4 = zext nneg i32 %3 to i64, !dbg !135
  %5 = getelementptr inbounds [3 x ptr], ptr @words, i64 0, i64 %4, !dbg !135
  %6 = load ptr, ptr %5, align 8, !dbg !135, !tbaa !87
  %7 = sext i32 %1 to i64, !dbg !135
  %8 = getelementptr inbounds i8, ptr %6, i64 %7, !dbg !135
  %9 = load i8, ptr %8, align 1, !dbg !135, !tbaa !101
  ret i8 %9, !dbg !136
}

; Function Attrs: mustprogress nofree norecurse nosync nounwind willreturn memory(readwrite, inaccessiblemem: none)
define dso_local void @set(ptr nocapture noundef %0, ptr nocapture noundef readonly %1) local_unnamed_addr #3 !dbg !137 {
    #dbg_value(ptr %0, !143, !DIExpression(), !145)
    #dbg_value(ptr %1, !144, !DIExpression(), !145)
  tail call void @llvm.memcpy.p0.p0.i64(ptr noundef nonnull align 8 dereferenceable(32) %0, ptr noundef nonnull align 8 dereferenceable(32) %1, i64 32, i1 false), !dbg !146, !tbaa.struct !147
  %3 = getelementptr inbounds i8, ptr %0, i64 26, !dbg !150
  %4 = load i16, ptr %3, align 2, !dbg !150, !tbaa !103
  %5 = add i16 %4, 1, !dbg !151
  store i16 %5, ptr %3, align 2, !dbg !152, !tbaa !103
  %6 = load i8, ptr @flag, align 1, !dbg !153, !tbaa !154, !range !156, !noundef !157
  %7 = trunc nuw i8 %6 to i1, !dbg !153
  %8 = xor i1 %7, true, !dbg !158
  %9 = zext i1 %8 to i8, !dbg !159
  store i8 %9, ptr @flag, align 1, !dbg !159, !tbaa !154
  ret void, !dbg !160
}

; Function Attrs: mustprogress nocallback nofree nounwind willreturn memory(argmem: readwrite)
declare void @llvm.memcpy.p0.p0.i64(ptr noalias nocapture writeonly, ptr noalias nocapture readonly, i64, i1 immarg) #4

attributes #0 = { nofree norecurse nosync nounwind memory(read, inaccessiblemem: none) "no-builtins" "no-trapping-math"="true" "stack-protector-buffer-size"="8" "target-cpu"="generic-rv64" "target-features"="+64bit,+m,+relax,+zmmul,-a,-b,-c,-d,-e,-experimental-smmpm,-experimental-smnpm,-experimental-ssnpm,-experimental-sspm,-experimental-ssqosid,-experimental-supm,-experimental-zacas,-experimental-zalasr,-experimental-zicfilp,-experimental-zicfiss,-f,-h,-shcounterenw,-shgatpa,-shtvala,-shvsatpa,-shvstvala,-shvstvecd,-smaia,-smcdeleg,-smcsrind,-smepmp,-smstateen,-ssaia,-ssccfg,-ssccptr,-sscofpmf,-sscounterenw,-sscsrind,-ssstateen,-ssstrict,-sstc,-sstvala,-sstvecd,-ssu64xl,-svade,-svadu,-svbare,-svinval,-svnapot,-svpbmt,-v,-xcvalu,-xcvbi,-xcvbitmanip,-xcvelw,-xcvmac,-xcvmem,-xcvsimd,-xsfcease,-xsfvcp,-xsfvfnrclipxfqf,-xsfvfwmaccqqq,-xsfvqmaccdod,-xsfvqmaccqoq,-xsifivecdiscarddlone,-xsifivecflushdlone,-xtheadba,-xtheadbb,-xtheadbs,-xtheadcmo,-xtheadcondmov,-xtheadfmemidx,-xtheadmac,-xtheadmemidx,-xtheadmempair,-xtheadsync,-xtheadvdot,-xventanacondops,-xwchc,-za128rs,-za64rs,-zaamo,-zabha,-zalrsc,-zama16b,-zawrs,-zba,-zbb,-zbc,-zbkb,-zbkc,-zbkx,-zbs,-zca,-zcb,-zcd,-zce,-zcf,-zcmop,-zcmp,-zcmt,-zdinx,-zfa,-zfbfmin,-zfh,-zfhmin,-zfinx,-zhinx,-zhinxmin,-zic64b,-zicbom,-zicbop,-zicboz,-ziccamoa,-ziccif,-zicclsm,-ziccrse,-zicntr,-zicond,-zicsr,-zifencei,-zihintntl,-zihintpause,-zihpm,-zimop,-zk,-zkn,-zknd,-zkne,-zknh,-zkr,-zks,-zksed,-zksh,-zkt,-ztso,-zvbb,-zvbc,-zve32f,-zve32x,-zve64d,-zve64f,-zve64x,-zvfbfmin,-zvfbfwma,-zvfh,-zvfhmin,-zvkb,-zvkg,-zvkn,-zvknc,-zvkned,-zvkng,-zvknha,-zvknhb,-zvks,-zvksc,-zvksed,-zvksg,-zvksh,-zvkt,-zvl1024b,-zvl128b,-zvl16384b,-zvl2048b,-zvl256b,-zvl32768b,-zvl32b,-zvl4096b,-zvl512b,-zvl64b,-zvl65536b,-zvl8192b" }
attributes #1 = { mustprogress nofree norecurse nosync nounwind willreturn memory(none) "no-builtins" "no-trapping-math"="true" "stack-protector-buffer-size"="8" "target-cpu"="generic-rv64" "target-features"="+64bit,+m,+relax,+zmmul,-a,-b,-c,-d,-e,-experimental-smmpm,-experimental-smnpm,-experimental-ssnpm,-experimental-sspm,-experimental-ssqosid,-experimental-supm,-experimental-zacas,-experimental-zalasr,-experimental-zicfilp,-experimental-zicfiss,-f,-h,-shcounterenw,-shgatpa,-shtvala,-shvsatpa,-shvstvala,-shvstvecd,-smaia,-smcdeleg,-smcsrind,-smepmp,-smstateen,-ssaia,-ssccfg,-ssccptr,-sscofpmf,-sscounterenw,-sscsrind,-ssstateen,-ssstrict,-sstc,-sstvala,-sstvecd,-ssu64xl,-svade,-svadu,-svbare,-svinval,-svnapot,-svpbmt,-v,-xcvalu,-xcvbi,-xcvbitmanip,-xcvelw,-xcvmac,-xcvmem,-xcvsimd,-xsfcease,-xsfvcp,-xsfvfnrclipxfqf,-xsfvfwmaccqqq,-xsfvqmaccdod,-xsfvqmaccqoq,-xsifivecdiscarddlone,-xsifivecflushdlone,-xtheadba,-xtheadbb,-xtheadbs,-xtheadcmo,-xtheadcondmov,-xtheadfmemidx,-xtheadmac,-xtheadmemidx,-xtheadmempair,-xtheadsync,-xtheadvdot,-xventanacondops,-xwchc,-za128rs,-za64rs,-zaamo,-zabha,-zalrsc,-zama16b,-zawrs,-zba,-zbb,-zbc,-zbkb,-zbkc,-zbkx,-zbs,-zca,-zcb,-zcd,-zce,-zcf,-zcmop,-zcmp,-zcmt,-zdinx,-zfa,-zfbfmin,-zfh,-zfhmin,-zfinx,-zhinx,-zhinxmin,-zic64b,-zicbom,-zicbop,-zicboz,-ziccamoa,-ziccif,-zicclsm,-ziccrse,-zicntr,-zicond,-zicsr,-zifencei,-zihintntl,-zihintpause,-zihpm,-zimop,-zk,-zkn,-zknd,-zkne,-zknh,-zkr,-zks,-zksed,-zksh,-zkt,-ztso,-zvbb,-zvbc,-zve32f,-zve32x,-zve64d,-zve64f,-zve64x,-zvfbfmin,-zvfbfwma,-zvfh,-zvfhmin,-zvkb,-zvkg,-zvkn,-zvknc,-zvkned,-zvkng,-zvknha,-zvknhb,-zvks,-zvksc,-zvksed,-zvksg,-zvksh,-zvkt,-zvl1024b,-zvl128b,-zvl16384b,-zvl2048b,-zvl256b,-zvl32768b,-zvl32b,-zvl4096b,-zvl512b,-zvl64b,-zvl65536b,-zvl8192b" }
attributes #2 = { mustprogress nofree norecurse nosync nounwind willreturn memory(read, inaccessiblemem: none) "no-builtins" "no-trapping-math"="true" "stack-protector-buffer-size"="8" "target-cpu"="generic-rv64" "target-features"="+64bit,+m,+relax,+zmmul,-a,-b,-c,-d,-e,-experimental-smmpm,-experimental-smnpm,-experimental-ssnpm,-experimental-sspm,-experimental-ssqosid,-experimental-supm,-experimental-zacas,-experimental-zalasr,-experimental-zicfilp,-experimental-zicfiss,-f,-h,-shcounterenw,-shgatpa,-shtvala,-shvsatpa,-shvstvala,-shvstvecd,-smaia,-smcdeleg,-smcsrind,-smepmp,-smstateen,-ssaia,-ssccfg,-ssccptr,-sscofpmf,-sscounterenw,-sscsrind,-ssstateen,-ssstrict,-sstc,-sstvala,-sstvecd,-ssu64xl,-svade,-svadu,-svbare,-svinval,-svnapot,-svpbmt,-v,-xcvalu,-xcvbi,-xcvbitmanip,-xcvelw,-xcvmac,-xcvmem,-xcvsimd,-xsfcease,-xsfvcp,-xsfvfnrclipxfqf,-xsfvfwmaccqqq,-xsfvqmaccdod,-xsfvqmaccqoq,-xsifivecdiscarddlone,-xsifivecflushdlone,-xtheadba,-xtheadbb,-xtheadbs,-xtheadcmo,-xtheadcondmov,-xtheadfmemidx,-xtheadmac,-xtheadmemidx,-xtheadmempair,-xtheadsync,-xtheadvdot,-xventanacondops,-xwchc,-za128rs,-za64rs,-zaamo,-zabha,-zalrsc,-zama16b,-zawrs,-zba,-zbb,-zbc,-zbkb,-zbkc,-zbkx,-zbs,-zca,-zcb,-zcd,-zce,-zcf,-zcmop,-zcmp,-zcmt,-zdinx,-zfa,-zfbfmin,-zfh,-zfhmin,-zfinx,-zhinx,-zhinxmin,-zic64b,-zicbom,-zicbop,-zicboz,-ziccamoa,-ziccif,-zicclsm,-ziccrse,-zicntr,-zicond,-zicsr,-zifencei,-zihintntl,-zihintpause,-zihpm,-zimop,-zk,-zkn,-zknd,-zkne,-zknh,-zkr,-zks,-zksed,-zksh,-zkt,-ztso,-zvbb,-zvbc,-zve32f,-zve32x,-zve64d,-zve64f,-zve64x,-zvfbfmin,-zvfbfwma,-zvfh,-zvfhmin,-zvkb,-zvkg,-zvkn,-zvknc,-zvkned,-zvkng,-zvknha,-zvknhb,-zvks,-zvksc,-zvksed,-zvksg,-zvksh,-zvkt,-zvl1024b,-zvl128b,-zvl16384b,-zvl2048b,-zvl256b,-zvl32768b,-zvl32b,-zvl4096b,-zvl512b,-zvl64b,-zvl65536b,-zvl8192b" }
attributes #3 = { mustprogress nofree norecurse nosync nounwind willreturn memory(readwrite, inaccessiblemem: none) "no-builtins" "no-trapping-math"="true" "stack-protector-buffer-size"="8" "target-cpu"="generic-rv64" "target-features"="+64bit,+m,+relax,+zmmul,-a,-b,-c,-d,-e,-experimental-smmpm,-experimental-smnpm,-experimental-ssnpm,-experimental-sspm,-experimental-ssqosid,-experimental-supm,-experimental-zacas,-experimental-zalasr,-experimental-zicfilp,-experimental-zicfiss,-f,-h,-shcounterenw,-shgatpa,-shtvala,-shvsatpa,-shvstvala,-shvstvecd,-smaia,-smcdeleg,-smcsrind,-smepmp,-smstateen,-ssaia,-ssccfg,-ssccptr,-sscofpmf,-sscounterenw,-sscsrind,-ssstateen,-ssstrict,-sstc,-sstvala,-sstvecd,-ssu64xl,-svade,-svadu,-svbare,-svinval,-svnapot,-svpbmt,-v,-xcvalu,-xcvbi,-xcvbitmanip,-xcvelw,-xcvmac,-xcvmem,-xcvsimd,-xsfcease,-xsfvcp,-xsfvfnrclipxfqf,-xsfvfwmaccqqq,-xsfvqmaccdod,-xsfvqmaccqoq,-xsifivecdiscarddlone,-xsifivecflushdlone,-xtheadba,-xtheadbb,-xtheadbs,-xtheadcmo,-xtheadcondmov,-xtheadfmemidx,-xtheadmac,-xtheadmemidx,-xtheadmempair,-xtheadsync,-xtheadvdot,-xventanacondops,-xwchc,-za128rs,-za64rs,-zaamo,-zabha,-zalrsc,-zama16b,-zawrs,-zba,-zbb,-zbc,-zbkb,-zbkc,-zbkx,-zbs,-zca,-zcb,-zcd,-zce,-zcf,-zcmop,-zcmp,-zcmt,-zdinx,-zfa,-zfbfmin,-zfh,-zfhmin,-zfinx,-zhinx,-zhinxmin,-zic64b,-zicbom,-zicbop,-zicboz,-ziccamoa,-ziccif,-zicclsm,-ziccrse,-zicntr,-zicond,-zicsr,-zifencei,-zihintntl,-zihintpause,-zihpm,-zimop,-zk,-zkn,-zknd,-zkne,-zknh,-zkr,-zks,-zksed,-zksh,-zkt,-ztso,-zvbb,-zvbc,-zve32f,-zve32x,-zve64d,-zve64f,-zve64x,-zvfbfmin,-zvfbfwma,-zvfh,-zvfhmin,-zvkb,-zvkg,-zvkn,-zvknc,-zvkned,-zvkng,-zvknha,-zvknhb,-zvks,-zvksc,-zvksed,-zvksg,-zvksh,-zvkt,-zvl1024b,-zvl128b,-zvl16384b,-zvl2048b,-zvl256b,-zvl32768b,-zvl32b,-zvl4096b,-zvl512b,-zvl64b,-zvl65536b,-zvl8192b" }
attributes #4 = { mustprogress nocallback nofree nounwind willreturn memory(argmem: readwrite) }

!llvm.dbg.cu = !{!2}
!llvm.module.flags = !{!66, !67, !68, !69, !70, !72, !73, !74, !75}
!llvm.ident = !{!76}

!0 = !DIGlobalVariableExpression(var: !1, expr: !DIExpression())
!1 = distinct !DIGlobalVariable(name: "first", scope: !2, file: !3, line: 8, type: !12, isLocal: true, isDefinition: true)
!2 = distinct !DICompileUnit(language: DW_LANG_C11, file: !3, producer: "Debian clang version 19.1.7 (3~deb12u1)", isOptimized: true, runtimeVersion: 0, emissionKind: FullDebug, retainedTypes: !4, globals: !8, splitDebugInlining: false, nameTableKind: None)
!3 = !DIFile(filename: "lists.c", directory: "bench/texts", checksumkind: CSK_MD5, checksum: "024a27fa291e4be5655f52d307310d01")
!4 = !{!5, !7}
!5 = !DIDerivedType(tag: DW_TAG_pointer_type, baseType: !6, size: 64)
!6 = !DIBasicType(name: "long", size: 64, encoding: DW_ATE_signed)
!7 = !DIBasicType(name: "short", size: 16, encoding: DW_ATE_signed)
!8 = !{!9, !22, !27, !29, !37, !46, !48, !51, !0, !57, !59}
!9 = !DIGlobalVariableExpression(var: !10, expr: !DIExpression())
!10 = distinct !DIGlobalVariable(name: "list", scope: !2, file: !3, line: 9, type: !11, isLocal: false, isDefinition: true)
!11 = !DIDerivedType(tag: DW_TAG_pointer_type, baseType: !12, size: 64)
!12 = distinct !DICompositeType(tag: DW_TAG_structure_type, name: "cell", file: !3, line: 3, size: 256, elements: !13)
!13 = !{!14, !15, !16, !21}
!14 = !DIDerivedType(tag: DW_TAG_member, name: "next", scope: !12, file: !3, line: 3, baseType: !11, size: 64)
!15 = !DIDerivedType(tag: DW_TAG_member, name: "key", scope: !12, file: !3, line: 3, baseType: !6, size: 64, offset: 64)
!16 = !DIDerivedType(tag: DW_TAG_member, name: "name", scope: !12, file: !3, line: 3, baseType: !17, size: 72, offset: 128)
!17 = !DICompositeType(tag: DW_TAG_array_type, baseType: !18, size: 72, elements: !19)
!18 = !DIBasicType(name: "char", size: 8, encoding: DW_ATE_unsigned_char)
!19 = !{!20}
!20 = !DISubrange(count: 9)
!21 = !DIDerivedType(tag: DW_TAG_member, name: "rank", scope: !12, file: !3, line: 3, baseType: !7, size: 16, offset: 208)
!22 = !DIGlobalVariableExpression(var: !23, expr: !DIExpression())
!23 = distinct !DIGlobalVariable(scope: null, file: !3, line: 10, type: !24, isLocal: true, isDefinition: true)
!24 = !DICompositeType(tag: DW_TAG_array_type, baseType: !18, size: 32, elements: !25)
!25 = !{!26}
!26 = !DISubrange(count: 4)
!27 = !DIGlobalVariableExpression(var: !28, expr: !DIExpression())
!28 = distinct !DIGlobalVariable(scope: null, file: !3, line: 10, type: !24, isLocal: true, isDefinition: true)
!29 = !DIGlobalVariableExpression(var: !30, expr: !DIExpression())
!30 = distinct !DIGlobalVariable(name: "words", scope: !2, file: !3, line: 10, type: !31, isLocal: false, isDefinition: true)
!31 = !DICompositeType(tag: DW_TAG_array_type, baseType: !32, size: 192, elements: !35)
!32 = !DIDerivedType(tag: DW_TAG_const_type, baseType: !33)
!33 = !DIDerivedType(tag: DW_TAG_pointer_type, baseType: !34, size: 64)
!34 = !DIDerivedType(tag: DW_TAG_const_type, baseType: !18)
!35 = !{!36}
!36 = !DISubrange(count: 3)
!37 = !DIGlobalVariableExpression(var: !38, expr: !DIExpression())
!38 = distinct !DIGlobalVariable(name: "mixed", scope: !2, file: !3, line: 11, type: !39, isLocal: false, isDefinition: true)
!39 = distinct !DICompositeType(tag: DW_TAG_union_type, name: "word", file: !3, line: 5, size: 64, elements: !40)
!40 = !{!41, !42}
!41 = !DIDerivedType(tag: DW_TAG_member, name: "whole", scope: !39, file: !3, line: 5, baseType: !6, size: 64)
!42 = !DIDerivedType(tag: DW_TAG_member, name: "part", scope: !39, file: !3, line: 5, baseType: !43, size: 64)
!43 = !DICompositeType(tag: DW_TAG_array_type, baseType: !18, size: 64, elements: !44)
!44 = !{!45}
!45 = !DISubrange(count: 8)
!46 = !DIGlobalVariableExpression(var: !47, expr: !DIExpression())
!47 = distinct !DIGlobalVariable(name: "into", scope: !2, file: !3, line: 13, type: !5, isLocal: false, isDefinition: true)
!48 = !DIGlobalVariableExpression(var: !49, expr: !DIExpression())
!49 = distinct !DIGlobalVariable(name: "flag", scope: !2, file: !3, line: 14, type: !50, isLocal: false, isDefinition: true)
!50 = !DIBasicType(name: "_Bool", size: 8, encoding: DW_ATE_boolean)
!51 = !DIGlobalVariableExpression(var: !52, expr: !DIExpression())
!52 = distinct !DIGlobalVariable(name: "zeros", scope: !2, file: !3, line: 12, type: !53, isLocal: false, isDefinition: true)
!53 = !DICompositeType(tag: DW_TAG_array_type, baseType: !54, size: 512, elements: !55)
!54 = !DIBasicType(name: "int", size: 32, encoding: DW_ATE_signed)
!55 = !{!56}
!56 = !DISubrange(count: 16)
!57 = !DIGlobalVariableExpression(var: !58, expr: !DIExpression())
!58 = distinct !DIGlobalVariable(name: "last", scope: !2, file: !3, line: 7, type: !12, isLocal: true, isDefinition: true)
!59 = !DIGlobalVariableExpression(var: !60, expr: !DIExpression())
!60 = distinct !DIGlobalVariable(name: "pairs", scope: !2, file: !3, line: 6, type: !61, isLocal: true, isDefinition: true)
!61 = !DICompositeType(tag: DW_TAG_array_type, baseType: !62, size: 120, elements: !35)
!62 = distinct !DICompositeType(tag: DW_TAG_structure_type, name: "tight", file: !3, line: 4, size: 40, elements: !63)
!63 = !{!64, !65}
!64 = !DIDerivedType(tag: DW_TAG_member, name: "tag", scope: !62, file: !3, line: 4, baseType: !18, size: 8)
!65 = !DIDerivedType(tag: DW_TAG_member, name: "value", scope: !62, file: !3, line: 4, baseType: !54, size: 32, offset: 8)
!66 = !{i32 7, !"Dwarf Version", i32 5}
!67 = !{i32 2, !"Debug Info Version", i32 3}
!68 = !{i32 1, !"wchar_size", i32 4}
!69 = !{i32 1, !"target-abi", !"lp64"}
!70 = !{i32 6, !"riscv-isa", !71}
!71 = !{!"rv64i2p1_m2p0_zmmul1p0"}
!72 = !{i32 8, !"PIC Level", i32 2}
!73 = !{i32 7, !"PIE Level", i32 2}
!74 = !{i32 8, !"SmallDataLimit", i32 8}
!75 = !{i32 7, !"debug-info-assignment-tracking", i1 true}
!76 = !{!"Debian clang version 19.1.7 (3~deb12u1)"}
!77 = distinct !DISubprogram(name: "total", scope: !3, file: !3, line: 15, type: !78, scopeLine: 15, flags: DIFlagPrototyped | DIFlagAllCallsDescribed, spFlags: DISPFlagDefinition | DISPFlagOptimized, unit: !2, retainedNodes: !80)
!78 = !DISubroutineType(types: !79)
!79 = !{!6}
!80 = !{!81, !82}
!81 = !DILocalVariable(name: "s", scope: !77, file: !3, line: 15, type: !6)
!82 = !DILocalVariable(name: "c", scope: !83, file: !3, line: 15, type: !11)
!83 = distinct !DILexicalBlock(scope: !77, file: !3, line: 15, column: 32)
!84 = !DILocation(line: 0, scope: !77)
!85 = !DILocation(line: 0, scope: !83)
!86 = !DILocation(line: 15, scope: !83)
!87 = !{!88, !88, i64 0}
!88 = !{!"any pointer", !89, i64 0}
!89 = !{!"omnipotent char", !90, i64 0}
!90 = !{!"Simple C/C++ TBAA"}
!91 = !DILocation(line: 15, column: 32, scope: !83)
!92 = !DILocation(line: 15, scope: !77)
!93 = !DILocation(line: 15, column: 112, scope: !77)
!94 = !DILocation(line: 15, column: 84, scope: !95)
!95 = distinct !DILexicalBlock(scope: !83, file: !3, line: 15, column: 32)
!96 = !{!97, !98, i64 8}
!97 = !{!"cell", !88, i64 0, !98, i64 8, !89, i64 16, !99, i64 26}
!98 = !{!"long", !89, i64 0}
!99 = !{!"short", !89, i64 0}
!100 = !DILocation(line: 15, column: 90, scope: !95)
!101 = !{!89, !89, i64 0}
!102 = !DILocation(line: 15, column: 106, scope: !95)
!103 = !{!97, !99, i64 26}
!104 = !DILocation(line: 15, column: 103, scope: !95)
!105 = !DILocation(line: 15, column: 88, scope: !95)
!106 = !DILocation(line: 15, column: 101, scope: !95)
!107 = !DILocation(line: 15, column: 78, scope: !95)
!108 = distinct !{!108, !91, !109, !110, !111}
!109 = !DILocation(line: 15, column: 106, scope: !83)
!110 = !{!"llvm.loop.mustprogress"}
!111 = !{!"llvm.loop.unroll.disable"}
!112 = distinct !DISubprogram(name: "packed", scope: !3, file: !3, line: 16, type: !113, scopeLine: 16, flags: DIFlagPrototyped | DIFlagAllCallsDescribed, spFlags: DISPFlagDefinition | DISPFlagOptimized, unit: !2, retainedNodes: !116)
!113 = !DISubroutineType(types: !114)
!114 = !{!54, !115}
!115 = !DIBasicType(name: "unsigned int", size: 32, encoding: DW_ATE_unsigned)
!116 = !{!117}
!117 = !DILocalVariable(name: "k", arg: 1, scope: !112, file: !3, line: 16, type: !115)
!118 = !DILocation(line: 0, scope: !112)
!119 = !DILocation(line: 16, column: 41, scope: !112)
!120 = !DILocation(line: 16, column: 33, scope: !112)
!121 = !DILocation(line: 16, column: 46, scope: !112)
!122 = !{!123, !124, i64 1}
!123 = !{!"tight", !89, i64 0, !124, i64 1}
!124 = !{!"int", !89, i64 0}
!125 = !DILocation(line: 16, column: 52, scope: !112)
!126 = !DILocation(line: 16, column: 26, scope: !112)
!127 = distinct !DISubprogram(name: "letter", scope: !3, file: !3, line: 17, type: !128, scopeLine: 17, flags: DIFlagPrototyped | DIFlagAllCallsDescribed, spFlags: DISPFlagDefinition | DISPFlagOptimized, unit: !2, retainedNodes: !130)
!128 = !DISubroutineType(types: !129)
!129 = !{!18, !54, !54}
!130 = !{!131, !132}
!131 = !DILocalVariable(name: "i", arg: 1, scope: !127, file: !3, line: 17, type: !54)
!132 = !DILocalVariable(name: "j", arg: 2, scope: !127, file: !3, line: 17, type: !54)
!133 = !DILocation(line: 0, scope: !127)
!134 = !DILocation(line: 17, column: 44, scope: !127)
!135 = !DILocation(line: 17, column: 36, scope: !127)
!136 = !DILocation(line: 17, column: 29, scope: !127)
!137 = distinct !DISubprogram(name: "set", scope: !3, file: !3, line: 18, type: !138, scopeLine: 18, flags: DIFlagPrototyped | DIFlagAllCallsDescribed, spFlags: DISPFlagDefinition | DISPFlagOptimized, unit: !2, retainedNodes: !142)
!138 = !DISubroutineType(types: !139)
!139 = !{null, !11, !140}
!140 = !DIDerivedType(tag: DW_TAG_pointer_type, baseType: !141, size: 64)
!141 = !DIDerivedType(tag: DW_TAG_const_type, baseType: !12)
!142 = !{!143, !144}
!143 = !DILocalVariable(name: "c", arg: 1, scope: !137, file: !3, line: 18, type: !11)
!144 = !DILocalVariable(name: "from", arg: 2, scope: !137, file: !3, line: 18, type: !140)
!145 = !DILocation(line: 0, scope: !137)
!146 = !DILocation(line: 18, column: 58, scope: !137)
!147 = !{i64 0, i64 8, !87, i64 8, i64 8, !148, i64 16, i64 9, !101, i64 26, i64 2, !149}
!148 = !{!98, !98, i64 0}
!149 = !{!99, !99, i64 0}
!150 = !DILocation(line: 18, column: 86, scope: !137)
!151 = !DILocation(line: 18, column: 91, scope: !137)
!152 = !DILocation(line: 18, column: 73, scope: !137)
!153 = !DILocation(line: 18, column: 105, scope: !137)
!154 = !{!155, !155, i64 0}
!155 = !{!"_Bool", !89, i64 0}
!156 = !{i8 0, i8 2}
!157 = !{}
!158 = !DILocation(line: 18, column: 104, scope: !137)
!159 = !DILocation(line: 18, column: 102, scope: !137)
!160 = !DILocation(line: 18, column: 111, scope: !137)
