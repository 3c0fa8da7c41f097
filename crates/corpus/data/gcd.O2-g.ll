; ModuleID = 'gcd.c'
source_filename = "gcd.c"
target datalayout = "e-m:e-p:64:64-i64:64-i128:128-n32:64-S128"
target triple = "riscv64-unknown-linux-gnu"

; Function Attrs: nofree norecurse nosync nounwind memory(none)
define dso_local signext i32 @gcd(i32 noundef signext %0, i32 noundef signext %1) local_unnamed_addr #0 !dbg !15 {
    #dbg_value(i32 %0, !20, !DIExpression(), !24)
    #dbg_value(i32 %1, !21, !DIExpression(), !24)
  %3 = icmp eq i32 %1, 0, !dbg !25
  br i1 %3, label %9, label %4, !dbg !25

4:                                                ; preds = %2, %4
  %5 = phi i32 [ %6, %4 ], [ %0, %2 ]
  %6 = phi i32 [ %7, %4 ], [ %1, %2 ]
    #dbg_value(i32 %5, !20, !DIExpression(), !24)
    #dbg_value(i32 %6, !21, !DIExpression(), !24)
  %7 = urem i32 %5, %6, !dbg !26
    #dbg_value(i32 %7, !22, !DIExpression(), !27)
    #dbg_value(i32 %6, !20, !DIExpression(), !24)
    #dbg_value(i32 %7, !21, !DIExpression(), !24)
  %8 = icmp eq i32 %7, 0, !dbg !25
  br i1 %8, label %9, label %4, !dbg !25, !llvm.loop !28

9:                                                ; preds = %4, %2
  %10 = phi i32 [ %0, %2 ], [ %6, %4 ]
  ret i32 %10, !dbg !32
}

; Function Attrs: nofree norecurse nosync nounwind memory(none)
define dso_local i64 @gcd_by_calls(i64 noundef %0, i64 noundef %1) local_unnamed_addr #0 !dbg !33 {
    #dbg_value(i64 %0, !38, !DIExpression(), !40)
    #dbg_value(i64 %1, !39, !DIExpression(), !40)
  %3 = icmp eq i64 %1, 0, !dbg !41
  br i1 %3, label %4, label %7, !dbg !42

4:                                                ; preds = %7, %2
  %5 = phi i64 [ %0, %2 ], [ %8, %7 ]
  %6 = tail call i64 @llvm.abs.i64(i64 %5, i1 true), !dbg !43
  ret i64 %6, !dbg !44

7:                                                ; preds = %2, %7
  %8 = phi i64 [ %10, %7 ], [ %1, %2 ]
  %9 = phi i64 [ %8, %7 ], [ %0, %2 ]
    #dbg_value(i64 %8, !39, !DIExpression(), !40)
    #dbg_value(i64 %9, !38, !DIExpression(), !40)
  %10 = srem i64 %9, %8, !dbg !45
    #dbg_value(i64 %8, !38, !DIExpression(), !40)
    #dbg_value(i64 %10, !39, !DIExpression(), !40)
  %11 = icmp eq i64 %10, 0, !dbg !41
  br i1 %11, label %4, label %7, !dbg !42
}

; Function Attrs: nofree norecurse nosync nounwind memory(none)
define dso_local range(i64 0, -8589934590) i64 @lcm(i32 noundef signext %0, i32 noundef signext %1) local_unnamed_addr #0 !dbg !46 {
    #dbg_value(i32 %0, !50, !DIExpression(), !52)
    #dbg_value(i32 %1, !51, !DIExpression(), !52)
  %3 = icmp ne i32 %0, 0, !dbg !53
  %4 = icmp ne i32 %1, 0
  %5 = and i1 %3, %4, !dbg !54
  br i1 %5, label %6, label %16, !dbg !54

6:                                                ; preds = %2, %6
  %7 = phi i32 [ %8, %6 ], [ %0, %2 ]
  %8 = phi i32 [ %9, %6 ], [ %1, %2 ]
    #dbg_value(i32 %7, !20, !DIExpression(), !55)
    #dbg_value(i32 %8, !21, !DIExpression(), !55)
  %9 = urem i32 %7, %8, !dbg !57
    #dbg_value(i32 %9, !22, !DIExpression(), !58)
    #dbg_value(i32 %8, !20, !DIExpression(), !55)
    #dbg_value(i32 %9, !21, !DIExpression(), !55)
  %10 = icmp eq i32 %9, 0, !dbg !59
  br i1 %10, label %11, label %6, !dbg !59, !llvm.loop !60

11:                                               ; preds = %6
  %12 = udiv i32 %0, %8, !dbg !62
  %13 = zext i32 %12 to i64, !dbg !62
  %14 = zext i32 %1 to i64, !dbg !63
  %15 = mul nuw i64 %13, %14, !dbg !64
  br label %16, !dbg !53

16:                                               ; preds = %2, %11
  %17 = phi i64 [ %15, %11 ], [ 0, %2 ], !dbg !53
  ret i64 %17, !dbg !65
}

; Function Attrs: nofree norecurse nosync nounwind memory(none)
define dso_local i64 @inverse(i64 noundef %0, i64 noundef %1) local_unnamed_addr #0 !dbg !66 {
    #dbg_value(i64 %0, !68, !DIExpression(), !78)
    #dbg_value(i64 %1, !69, !DIExpression(), !78)
    #dbg_value(i64 %1, !70, !DIExpression(), !78)
  %3 = srem i64 %0, %1, !dbg !79
    #dbg_value(i64 %3, !71, !DIExpression(), !78)
    #dbg_value(i64 0, !72, !DIExpression(), !78)
    #dbg_value(i64 1, !73, !DIExpression(), !78)
    #dbg_value(i64 %1, !70, !DIExpression(), !78)
  %4 = icmp eq i64 %3, 0, !dbg !80
  br i1 %4, label %20, label %5, !dbg !81

5:                                                ; preds = %2, %5
  %6 = phi i64 [ %7, %5 ], [ %1, %2 ]
  %7 = phi i64 [ %12, %5 ], [ %3, %2 ]
  %8 = phi i64 [ %14, %5 ], [ 1, %2 ]
  %9 = phi i64 [ %8, %5 ], [ 0, %2 ]
    #dbg_value(i64 %6, !70, !DIExpression(), !78)
    #dbg_value(i64 %7, !71, !DIExpression(), !78)
    #dbg_value(i64 %8, !73, !DIExpression(), !78)
    #dbg_value(i64 %9, !72, !DIExpression(), !78)
  %10 = sdiv i64 %6, %7, !dbg !82
    #dbg_value(i64 %10, !74, !DIExpression(), !83)
  %11 = mul i64 %10, %7, !dbg !84
  %12 = sub i64 %6, %11, !dbg !85
    #dbg_value(i64 %12, !76, !DIExpression(), !83)
  %13 = mul i64 %10, %8, !dbg !86
  %14 = sub i64 %9, %13, !dbg !87
    #dbg_value(i64 %14, !77, !DIExpression(), !83)
    #dbg_value(i64 %7, !70, !DIExpression(), !78)
    #dbg_value(i64 %12, !71, !DIExpression(), !78)
    #dbg_value(i64 %14, !73, !DIExpression(), !78)
    #dbg_value(i64 %8, !72, !DIExpression(), !78)
  %15 = icmp eq i64 %12, 0, !dbg !80
  br i1 %15, label %16, label %5, !dbg !81, !llvm.loop !88

16:                                               ; preds = %5
  %17 = icmp slt i64 %8, 0, !dbg !90
  %18 = select i1 %17, i64 %1, i64 0, !dbg !90
  %19 = add nsw i64 %18, %8, !dbg !90
  br label %20, !dbg !90

20:                                               ; preds = %2, %16
  %21 = phi i64 [ %7, %16 ], [ %1, %2 ]
  %22 = phi i64 [ %19, %16 ], [ 0, %2 ], !dbg !90
  %23 = icmp eq i64 %21, 1, !dbg !91
  %24 = select i1 %23, i64 %22, i64 -1, !dbg !90
  ret i64 %24, !dbg !93
}

; Function Attrs: nofree norecurse nosync nounwind memory(none)
define dso_local signext i32 @binary_gcd(i32 noundef signext %0, i32 noundef signext %1) local_unnamed_addr #0 !dbg !94 {
    #dbg_value(i32 %0, !96, !DIExpression(), !104)
    #dbg_value(i32 %1, !97, !DIExpression(), !104)
    #dbg_value(i32 0, !98, !DIExpression(), !104)
  %3 = icmp eq i32 %0, 0, !dbg !105
  br i1 %3, label %44, label %4, !dbg !107

4:                                                ; preds = %2
  %5 = icmp eq i32 %1, 0, !dbg !108
  br i1 %5, label %44, label %6, !dbg !110

6:                                                ; preds = %4
    #dbg_value(i32 0, !98, !DIExpression(), !104)
    #dbg_value(i32 %1, !97, !DIExpression(), !104)
    #dbg_value(i32 %0, !96, !DIExpression(), !104)
  %7 = or i32 %1, %0, !dbg !111
  %8 = and i32 %7, 1, !dbg !112
  %9 = icmp eq i32 %8, 0, !dbg !113
  br i1 %9, label %14, label %10, !dbg !114

10:                                               ; preds = %14, %6
  %11 = phi i32 [ %0, %6 ], [ %18, %14 ]
  %12 = phi i32 [ %1, %6 ], [ %19, %14 ]
  %13 = phi i32 [ 0, %6 ], [ %20, %14 ], !dbg !104
  br label %24, !dbg !115

14:                                               ; preds = %6, %14
  %15 = phi i32 [ %20, %14 ], [ 0, %6 ]
  %16 = phi i32 [ %19, %14 ], [ %1, %6 ]
  %17 = phi i32 [ %18, %14 ], [ %0, %6 ]
    #dbg_value(i32 %15, !98, !DIExpression(), !104)
    #dbg_value(i32 %16, !97, !DIExpression(), !104)
    #dbg_value(i32 %17, !96, !DIExpression(), !104)
  %18 = lshr i32 %17, 1, !dbg !116
    #dbg_value(i32 %18, !96, !DIExpression(), !104)
  %19 = lshr i32 %16, 1, !dbg !118
    #dbg_value(i32 %19, !97, !DIExpression(), !104)
  %20 = add nuw nsw i32 %15, 1, !dbg !119
    #dbg_value(i32 %20, !98, !DIExpression(), !104)
  %21 = or i32 %19, %18, !dbg !111
  %22 = and i32 %21, 1, !dbg !112
  %23 = icmp eq i32 %22, 0, !dbg !113
  br i1 %23, label %14, label %10, !dbg !114, !llvm.loop !120

24:                                               ; preds = %24, %10
  %25 = phi i32 [ %28, %24 ], [ %11, %10 ]
    #dbg_value(i32 %25, !96, !DIExpression(), !104)
  %26 = and i32 %25, 1, !dbg !122
  %27 = icmp eq i32 %26, 0, !dbg !123
  %28 = lshr exact i32 %25, 1, !dbg !124
    #dbg_value(i32 %28, !96, !DIExpression(), !104)
  br i1 %27, label %24, label %29, !dbg !115, !llvm.loop !125

29:                                               ; preds = %24, %37
  %30 = phi i32 [ %38, %37 ], [ %25, %24 ]
  %31 = phi i32 [ %40, %37 ], [ %12, %24 ]
    #dbg_value(i32 %31, !97, !DIExpression(), !104)
    #dbg_value(i32 %30, !96, !DIExpression(), !104)
  br label %32, !dbg !127

32:                                               ; preds = %32, %29
  %33 = phi i32 [ %31, %29 ], [ %36, %32 ]
    #dbg_value(i32 %33, !97, !DIExpression(), !104)
  %34 = and i32 %33, 1, !dbg !128
  %35 = icmp eq i32 %34, 0, !dbg !129
  %36 = lshr exact i32 %33, 1, !dbg !130
    #dbg_value(i32 %36, !97, !DIExpression(), !104)
  br i1 %35, label %32, label %37, !dbg !127, !llvm.loop !131

37:                                               ; preds = %32
  %38 = tail call i32 @llvm.umin.i32(i32 %30, i32 %33), !dbg !133
  %39 = tail call i32 @llvm.umax.i32(i32 %30, i32 %33), !dbg !133
    #dbg_value(i32 %39, !97, !DIExpression(), !104)
    #dbg_value(i32 %38, !96, !DIExpression(), !104)
  %40 = sub i32 %39, %38, !dbg !134
    #dbg_value(i32 %40, !97, !DIExpression(), !104)
  %41 = icmp eq i32 %40, 0, !dbg !135
  br i1 %41, label %42, label %29, !dbg !135, !llvm.loop !136

42:                                               ; preds = %37
  %43 = shl i32 %38, %13, !dbg !139
  br label %44, !dbg !140

44:                                               ; preds = %4, %2, %42
  %45 = phi i32 [ %43, %42 ], [ %1, %2 ], [ %0, %4 ], !dbg !104
  ret i32 %45, !dbg !141
}

; Function Attrs: nocallback nofree nosync nounwind speculatable willreturn memory(none)
declare i64 @llvm.abs.i64(i64, i1 immarg) #1

; Function Attrs: nocallback nofree nosync nounwind speculatable willreturn memory(none)
declare i32 @llvm.umin.i32(i32, i32) #1

; Function Attrs: nocallback nofree nosync nounwind speculatable willreturn memory(none)
declare i32 @llvm.umax.i32(i32, i32) #1

attributes #0 = { nofree norecurse nosync nounwind memory(none) "no-builtins" "no-trapping-math"="true" "stack-protector-buffer-size"="8" "target-cpu"="generic-rv64" "target-features"="+64bit,+m,+relax,+zmmul,-a,-b,-c,-d,-e,-experimental-smmpm,-experimental-smnpm,-experimental-ssnpm,-experimental-sspm,-experimental-ssqosid,-experimental-supm,-experimental-zacas,-experimental-zalasr,-experimental-zicfilp,-experimental-zicfiss,-f,-h,-shcounterenw,-shgatpa,-shtvala,-shvsatpa,-shvstvala,-shvstvecd,-smaia,-smcdeleg,-smcsrind,-smepmp,-smstateen,-ssaia,-ssccfg,-ssccptr,-sscofpmf,-sscounterenw,-sscsrind,-ssstateen,-ssstrict,-sstc,-sstvala,-sstvecd,-ssu64xl,-svade,-svadu,-svbare,-svinval,-svnapot,-svpbmt,-v,-xcvalu,-xcvbi,-xcvbitmanip,-xcvelw,-xcvmac,-xcvmem,-xcvsimd,-xsfcease,-xsfvcp,-xsfvfnrclipxfqf,-xsfvfwmaccqqq,-xsfvqmaccdod,-xsfvqmaccqoq,-xsifivecdiscarddlone,-xsifivecflushdlone,-xtheadba,-xtheadbb,-xtheadbs,-xtheadcmo,-xtheadcondmov,-xtheadfmemidx,-xtheadmac,-xtheadmemidx,-xtheadmempair,-xtheadsync,-xtheadvdot,-xventanacondops,-xwchc,-za128rs,-za64rs,-zaamo,-zabha,-zalrsc,-zama16b,-zawrs,-zba,-zbb,-zbc,-zbkb,-zbkc,-zbkx,-zbs,-zca,-zcb,-zcd,-zce,-zcf,-zcmop,-zcmp,-zcmt,-zdinx,-zfa,-zfbfmin,-zfh,-zfhmin,-zfinx,-zhinx,-zhinxmin,-zic64b,-zicbom,-zicbop,-zicboz,-ziccamoa,-ziccif,-zicclsm,-ziccrse,-zicntr,-zicond,-zicsr,-zifencei,-zihintntl,-zihintpause,-zihpm,-zimop,-zk,-zkn,-zknd,-zkne,-zknh,-zkr,-zks,-zksed,-zksh,-zkt,-ztso,-zvbb,-zvbc,-zve32f,-zve32x,-zve64d,-zve64f,-zve64x,-zvfbfmin,-zvfbfwma,-zvfh,-zvfhmin,-zvkb,-zvkg,-zvkn,-zvknc,-zvkned,-zvkng,-zvknha,-zvknhb,-zvks,-zvksc,-zvksed,-zvksg,-zvksh,-zvkt,-zvl1024b,-zvl128b,-zvl16384b,-zvl2048b,-zvl256b,-zvl32768b,-zvl32b,-zvl4096b,-zvl512b,-zvl64b,-zvl65536b,-zvl8192b" }
attributes #1 = { nocallback nofree nosync nounwind speculatable willreturn memory(none) }

!llvm.dbg.cu = !{!0}
!llvm.module.flags = !{!4, !5, !6, !7, !8, !10, !11, !12, !13}
!llvm.ident = !{!14}

!0 = distinct !DICompileUnit(language: DW_LANG_C11, file: !1, producer: "Debian clang version 19.1.7 (3~deb12u1)", isOptimized: true, runtimeVersion: 0, emissionKind: FullDebug, retainedTypes: !2, splitDebugInlining: false, nameTableKind: None)
!1 = !DIFile(filename: "gcd.c", directory: ".", checksumkind: CSK_MD5, checksum: "b5f2a042c13b676d6d0c0f42642e5456")
!2 = !{!3}
!3 = !DIBasicType(name: "unsigned long", size: 64, encoding: DW_ATE_unsigned)
!4 = !{i32 7, !"Dwarf Version", i32 5}
!5 = !{i32 2, !"Debug Info Version", i32 3}
!6 = !{i32 1, !"wchar_size", i32 4}
!7 = !{i32 1, !"target-abi", !"lp64"}
!8 = !{i32 6, !"riscv-isa", !9}
!9 = !{!"rv64i2p1_m2p0_zmmul1p0"}
!10 = !{i32 8, !"PIC Level", i32 2}
!11 = !{i32 7, !"PIE Level", i32 2}
!12 = !{i32 8, !"SmallDataLimit", i32 8}
!13 = !{i32 7, !"debug-info-assignment-tracking", i1 true}
!14 = !{!"Debian clang version 19.1.7 (3~deb12u1)"}
!15 = distinct !DISubprogram(name: "gcd", scope: !1, file: !1, line: 2, type: !16, scopeLine: 2, flags: DIFlagPrototyped | DIFlagAllCallsDescribed, spFlags: DISPFlagDefinition | DISPFlagOptimized, unit: !0, retainedNodes: !19)
!16 = !DISubroutineType(types: !17)
!17 = !{!18, !18, !18}
!18 = !DIBasicType(name: "unsigned int", size: 32, encoding: DW_ATE_unsigned)
!19 = !{!20, !21, !22}
!20 = !DILocalVariable(name: "a", arg: 1, scope: !15, file: !1, line: 2, type: !18)
!21 = !DILocalVariable(name: "b", arg: 2, scope: !15, file: !1, line: 2, type: !18)
!22 = !DILocalVariable(name: "t", scope: !23, file: !1, line: 4, type: !18)
!23 = distinct !DILexicalBlock(scope: !15, file: !1, line: 3, column: 15)
!24 = !DILocation(line: 0, scope: !15)
!25 = !DILocation(line: 3, column: 5, scope: !15)
!26 = !DILocation(line: 4, column: 24, scope: !23)
!27 = !DILocation(line: 0, scope: !23)
!28 = distinct !{!28, !25, !29, !30, !31}
!29 = !DILocation(line: 7, column: 5, scope: !15)
!30 = !{!"llvm.loop.mustprogress"}
!31 = !{!"llvm.loop.unroll.disable"}
!32 = !DILocation(line: 8, column: 5, scope: !15)
!33 = distinct !DISubprogram(name: "gcd_by_calls", scope: !1, file: !1, line: 10, type: !34, scopeLine: 10, flags: DIFlagPrototyped | DIFlagAllCallsDescribed, spFlags: DISPFlagDefinition | DISPFlagOptimized, unit: !0, retainedNodes: !37)
!34 = !DISubroutineType(types: !35)
!35 = !{!36, !36, !36}
!36 = !DIBasicType(name: "long", size: 64, encoding: DW_ATE_signed)
!37 = !{!38, !39}
!38 = !DILocalVariable(name: "a", arg: 1, scope: !33, file: !1, line: 10, type: !36)
!39 = !DILocalVariable(name: "b", arg: 2, scope: !33, file: !1, line: 10, type: !36)
!40 = !DILocation(line: 0, scope: !33)
!41 = !DILocation(line: 10, column: 46, scope: !33)
!42 = !DILocation(line: 10, column: 44, scope: !33)
!43 = !DILocation(line: 10, column: 54, scope: !33)
!44 = !DILocation(line: 10, column: 37, scope: !33)
!45 = !DILocation(line: 10, column: 90, scope: !33)
!46 = distinct !DISubprogram(name: "lcm", scope: !1, file: !1, line: 11, type: !47, scopeLine: 11, flags: DIFlagPrototyped | DIFlagAllCallsDescribed, spFlags: DISPFlagDefinition | DISPFlagOptimized, unit: !0, retainedNodes: !49)
!47 = !DISubroutineType(types: !48)
!48 = !{!3, !18, !18}
!49 = !{!50, !51}
!50 = !DILocalVariable(name: "a", arg: 1, scope: !46, file: !1, line: 11, type: !18)
!51 = !DILocalVariable(name: "b", arg: 2, scope: !46, file: !1, line: 11, type: !18)
!52 = !DILocation(line: 0, scope: !46)
!53 = !DILocation(line: 11, column: 52, scope: !46)
!54 = !DILocation(line: 11, column: 54, scope: !46)
!55 = !DILocation(line: 0, scope: !15, inlinedAt: !56)
!56 = distinct !DILocation(line: 11, column: 80, scope: !46)
!57 = !DILocation(line: 4, column: 24, scope: !23, inlinedAt: !56)
!58 = !DILocation(line: 0, scope: !23, inlinedAt: !56)
!59 = !DILocation(line: 3, column: 5, scope: !15, inlinedAt: !56)
!60 = distinct !{!60, !59, !61, !30, !31}
!61 = !DILocation(line: 7, column: 5, scope: !15, inlinedAt: !56)
!62 = !DILocation(line: 11, column: 78, scope: !46)
!63 = !DILocation(line: 11, column: 92, scope: !46)
!64 = !DILocation(line: 11, column: 90, scope: !46)
!65 = !DILocation(line: 11, column: 45, scope: !46)
!66 = distinct !DISubprogram(name: "inverse", scope: !1, file: !1, line: 13, type: !34, scopeLine: 13, flags: DIFlagPrototyped | DIFlagAllCallsDescribed, spFlags: DISPFlagDefinition | DISPFlagOptimized, unit: !0, retainedNodes: !67)
!67 = !{!68, !69, !70, !71, !72, !73, !74, !76, !77}
!68 = !DILocalVariable(name: "a", arg: 1, scope: !66, file: !1, line: 13, type: !36)
!69 = !DILocalVariable(name: "m", arg: 2, scope: !66, file: !1, line: 13, type: !36)
!70 = !DILocalVariable(name: "r0", scope: !66, file: !1, line: 14, type: !36)
!71 = !DILocalVariable(name: "r1", scope: !66, file: !1, line: 14, type: !36)
!72 = !DILocalVariable(name: "s0", scope: !66, file: !1, line: 14, type: !36)
!73 = !DILocalVariable(name: "s1", scope: !66, file: !1, line: 14, type: !36)
!74 = !DILocalVariable(name: "q", scope: !75, file: !1, line: 16, type: !36)
!75 = distinct !DILexicalBlock(scope: !66, file: !1, line: 15, column: 21)
!76 = !DILocalVariable(name: "r2", scope: !75, file: !1, line: 16, type: !36)
!77 = !DILocalVariable(name: "s2", scope: !75, file: !1, line: 16, type: !36)
!78 = !DILocation(line: 0, scope: !66)
!79 = !DILocation(line: 14, column: 25, scope: !66)
!80 = !DILocation(line: 15, column: 15, scope: !66)
!81 = !DILocation(line: 15, column: 5, scope: !66)
!82 = !DILocation(line: 16, column: 21, scope: !75)
!83 = !DILocation(line: 0, scope: !75)
!84 = !DILocation(line: 16, column: 39, scope: !75)
!85 = !DILocation(line: 16, column: 35, scope: !75)
!86 = !DILocation(line: 16, column: 57, scope: !75)
!87 = !DILocation(line: 16, column: 53, scope: !75)
!88 = distinct !{!88, !81, !89, !30, !31}
!89 = !DILocation(line: 21, column: 5, scope: !66)
!90 = !DILocation(line: 22, column: 9, scope: !66)
!91 = !DILocation(line: 22, column: 12, scope: !92)
!92 = distinct !DILexicalBlock(scope: !66, file: !1, line: 22, column: 9)
!93 = !DILocation(line: 24, column: 1, scope: !66)
!94 = distinct !DISubprogram(name: "binary_gcd", scope: !1, file: !1, line: 25, type: !16, scopeLine: 25, flags: DIFlagPrototyped | DIFlagAllCallsDescribed, spFlags: DISPFlagDefinition | DISPFlagOptimized, unit: !0, retainedNodes: !95)
!95 = !{!96, !97, !98, !100}
!96 = !DILocalVariable(name: "a", arg: 1, scope: !94, file: !1, line: 25, type: !18)
!97 = !DILocalVariable(name: "b", arg: 2, scope: !94, file: !1, line: 25, type: !18)
!98 = !DILocalVariable(name: "shift", scope: !94, file: !1, line: 26, type: !99)
!99 = !DIBasicType(name: "int", size: 32, encoding: DW_ATE_signed)
!100 = !DILocalVariable(name: "t", scope: !101, file: !1, line: 38, type: !18)
!101 = distinct !DILexicalBlock(scope: !102, file: !1, line: 37, column: 20)
!102 = distinct !DILexicalBlock(scope: !103, file: !1, line: 37, column: 13)
!103 = distinct !DILexicalBlock(scope: !94, file: !1, line: 35, column: 8)
!104 = !DILocation(line: 0, scope: !94)
!105 = !DILocation(line: 27, column: 10, scope: !106)
!106 = distinct !DILexicalBlock(scope: !94, file: !1, line: 27, column: 9)
!107 = !DILocation(line: 27, column: 9, scope: !94)
!108 = !DILocation(line: 28, column: 10, scope: !109)
!109 = distinct !DILexicalBlock(scope: !94, file: !1, line: 28, column: 9)
!110 = !DILocation(line: 28, column: 9, scope: !94)
!111 = !DILocation(line: 29, column: 17, scope: !94)
!112 = !DILocation(line: 29, column: 22, scope: !94)
!113 = !DILocation(line: 29, column: 12, scope: !94)
!114 = !DILocation(line: 29, column: 5, scope: !94)
!115 = !DILocation(line: 34, column: 5, scope: !94)
!116 = !DILocation(line: 30, column: 11, scope: !117)
!117 = distinct !DILexicalBlock(scope: !94, file: !1, line: 29, column: 28)
!118 = !DILocation(line: 31, column: 11, scope: !117)
!119 = !DILocation(line: 32, column: 14, scope: !117)
!120 = distinct !{!120, !114, !121, !30, !31}
!121 = !DILocation(line: 33, column: 5, scope: !94)
!122 = !DILocation(line: 34, column: 16, scope: !94)
!123 = !DILocation(line: 34, column: 12, scope: !94)
!124 = !DILocation(line: 34, column: 24, scope: !94)
!125 = distinct !{!125, !115, !126, !30, !31}
!126 = !DILocation(line: 34, column: 28, scope: !94)
!127 = !DILocation(line: 36, column: 9, scope: !103)
!128 = !DILocation(line: 36, column: 20, scope: !103)
!129 = !DILocation(line: 36, column: 16, scope: !103)
!130 = !DILocation(line: 36, column: 28, scope: !103)
!131 = distinct !{!131, !127, !132, !30, !31}
!132 = !DILocation(line: 36, column: 32, scope: !103)
!133 = !DILocation(line: 37, column: 13, scope: !103)
!134 = !DILocation(line: 42, column: 11, scope: !103)
!135 = !DILocation(line: 43, column: 5, scope: !103)
!136 = distinct !{!136, !137, !138, !30, !31}
!137 = !DILocation(line: 35, column: 5, scope: !94)
!138 = !DILocation(line: 43, column: 15, scope: !94)
!139 = !DILocation(line: 44, column: 14, scope: !94)
!140 = !DILocation(line: 44, column: 5, scope: !94)
!141 = !DILocation(line: 45, column: 1, scope: !94)
