; ModuleID = 'gcd.c'
source_filename = "gcd.c"
target datalayout = "e-m:e-p:64:64-i64:64-i128:128-n32:64-S128"
target triple = "riscv64-unknown-linux-gnu"

; Function Attrs: noinline nounwind optnone
define dso_local signext i32 @gcd(i32 noundef signext %0, i32 noundef signext %1) #0 !dbg !15 {
  %3 = alloca i32, align 4
  %4 = alloca i32, align 4
  %5 = alloca i32, align 4
  store i32 %0, ptr %3, align 4
    #dbg_declare(ptr %3, !20, !DIExpression(), !21)
  store i32 %1, ptr %4, align 4
    #dbg_declare(ptr %4, !22, !DIExpression(), !23)
  br label %6, !dbg !24

6:                                                ; preds = %9, %2
  %7 = load i32, ptr %4, align 4, !dbg !25
  %8 = icmp ne i32 %7, 0, !dbg !24
  br i1 %8, label %9, label %15, !dbg !24

9:                                                ; preds = %6
    #dbg_declare(ptr %5, !26, !DIExpression(), !28)
  %10 = load i32, ptr %3, align 4, !dbg !29
  %11 = load i32, ptr %4, align 4, !dbg !30
  %12 = urem i32 %10, %11, !dbg !31
  store i32 %12, ptr %5, align 4, !dbg !28
  %13 = load i32, ptr %4, align 4, !dbg !32
  store i32 %13, ptr %3, align 4, !dbg !33
  %14 = load i32, ptr %5, align 4, !dbg !34
  store i32 %14, ptr %4, align 4, !dbg !35
  br label %6, !dbg !24, !llvm.loop !36

15:                                               ; preds = %6
  %16 = load i32, ptr %3, align 4, !dbg !39
  ret i32 %16, !dbg !40
}

; Function Attrs: noinline nounwind optnone
define dso_local i64 @gcd_by_calls(i64 noundef %0, i64 noundef %1) #0 !dbg !41 {
  %3 = alloca i64, align 8
  %4 = alloca i64, align 8
  store i64 %0, ptr %3, align 8
    #dbg_declare(ptr %3, !45, !DIExpression(), !46)
  store i64 %1, ptr %4, align 8
    #dbg_declare(ptr %4, !47, !DIExpression(), !48)
  %5 = load i64, ptr %4, align 8, !dbg !49
  %6 = icmp eq i64 %5, 0, !dbg !50
  br i1 %6, label %7, label %17, !dbg !49

7:                                                ; preds = %2
  %8 = load i64, ptr %3, align 8, !dbg !51
  %9 = icmp slt i64 %8, 0, !dbg !52
  br i1 %9, label %10, label %13, !dbg !51

10:                                               ; preds = %7
  %11 = load i64, ptr %3, align 8, !dbg !53
  %12 = sub nsw i64 0, %11, !dbg !54
  br label %15, !dbg !51

13:                                               ; preds = %7
  %14 = load i64, ptr %3, align 8, !dbg !55
  br label %15, !dbg !51

15:                                               ; preds = %13, %10
  %16 = phi i64 [ %12, %10 ], [ %14, %13 ], !dbg !51
  br label %23, !dbg !49

17:                                               ; preds = %2
  %18 = load i64, ptr %4, align 8, !dbg !56
  %19 = load i64, ptr %3, align 8, !dbg !57
  %20 = load i64, ptr %4, align 8, !dbg !58
  %21 = srem i64 %19, %20, !dbg !59
  %22 = call i64 @gcd_by_calls(i64 noundef %18, i64 noundef %21) #1, !dbg !60
  br label %23, !dbg !49

23:                                               ; preds = %17, %15
  %24 = phi i64 [ %16, %15 ], [ %22, %17 ], !dbg !49
  ret i64 %24, !dbg !61
}

; Function Attrs: noinline nounwind optnone
define dso_local i64 @lcm(i32 noundef signext %0, i32 noundef signext %1) #0 !dbg !62 {
  %3 = alloca i32, align 4
  %4 = alloca i32, align 4
  store i32 %0, ptr %3, align 4
    #dbg_declare(ptr %3, !65, !DIExpression(), !66)
  store i32 %1, ptr %4, align 4
    #dbg_declare(ptr %4, !67, !DIExpression(), !68)
  %5 = load i32, ptr %3, align 4, !dbg !69
  %6 = icmp ne i32 %5, 0, !dbg !69
  br i1 %6, label %7, label %21, !dbg !70

7:                                                ; preds = %2
  %8 = load i32, ptr %4, align 4, !dbg !71
  %9 = icmp ne i32 %8, 0, !dbg !71
  br i1 %9, label %10, label %21, !dbg !69

10:                                               ; preds = %7
  %11 = load i32, ptr %3, align 4, !dbg !72
  %12 = zext i32 %11 to i64, !dbg !73
  %13 = load i32, ptr %3, align 4, !dbg !74
  %14 = load i32, ptr %4, align 4, !dbg !75
  %15 = call signext i32 @gcd(i32 noundef signext %13, i32 noundef signext %14) #1, !dbg !76
  %16 = zext i32 %15 to i64, !dbg !76
  %17 = udiv i64 %12, %16, !dbg !77
  %18 = load i32, ptr %4, align 4, !dbg !78
  %19 = zext i32 %18 to i64, !dbg !78
  %20 = mul i64 %17, %19, !dbg !79
  br label %22, !dbg !69

21:                                               ; preds = %7, %2
  br label %22, !dbg !69

22:                                               ; preds = %21, %10
  %23 = phi i64 [ %20, %10 ], [ 0, %21 ], !dbg !69
  ret i64 %23, !dbg !80
}

; Function Attrs: noinline nounwind optnone
define dso_local i64 @inverse(i64 noundef %0, i64 noundef %1) #0 !dbg !81 {
  %3 = alloca i64, align 8
  %4 = alloca i64, align 8
  %5 = alloca i64, align 8
  %6 = alloca i64, align 8
  %7 = alloca i64, align 8
  %8 = alloca i64, align 8
  %9 = alloca i64, align 8
  %10 = alloca i64, align 8
  %11 = alloca i64, align 8
  %12 = alloca i64, align 8
  store i64 %0, ptr %4, align 8
    #dbg_declare(ptr %4, !82, !DIExpression(), !83)
  store i64 %1, ptr %5, align 8
    #dbg_declare(ptr %5, !84, !DIExpression(), !85)
    #dbg_declare(ptr %6, !86, !DIExpression(), !87)
  %13 = load i64, ptr %5, align 8, !dbg !88
  store i64 %13, ptr %6, align 8, !dbg !87
    #dbg_declare(ptr %7, !89, !DIExpression(), !90)
  %14 = load i64, ptr %4, align 8, !dbg !91
  %15 = load i64, ptr %5, align 8, !dbg !92
  %16 = srem i64 %14, %15, !dbg !93
  store i64 %16, ptr %7, align 8, !dbg !90
    #dbg_declare(ptr %8, !94, !DIExpression(), !95)
  store i64 0, ptr %8, align 8, !dbg !95
    #dbg_declare(ptr %9, !96, !DIExpression(), !97)
  store i64 1, ptr %9, align 8, !dbg !97
  br label %17, !dbg !98

17:                                               ; preds = %20, %2
  %18 = load i64, ptr %7, align 8, !dbg !99
  %19 = icmp ne i64 %18, 0, !dbg !100
  br i1 %19, label %20, label %38, !dbg !98

20:                                               ; preds = %17
    #dbg_declare(ptr %10, !101, !DIExpression(), !103)
  %21 = load i64, ptr %6, align 8, !dbg !104
  %22 = load i64, ptr %7, align 8, !dbg !105
  %23 = sdiv i64 %21, %22, !dbg !106
  store i64 %23, ptr %10, align 8, !dbg !103
    #dbg_declare(ptr %11, !107, !DIExpression(), !108)
  %24 = load i64, ptr %6, align 8, !dbg !109
  %25 = load i64, ptr %10, align 8, !dbg !110
  %26 = load i64, ptr %7, align 8, !dbg !111
  %27 = mul nsw i64 %25, %26, !dbg !112
  %28 = sub nsw i64 %24, %27, !dbg !113
  store i64 %28, ptr %11, align 8, !dbg !108
    #dbg_declare(ptr %12, !114, !DIExpression(), !115)
  %29 = load i64, ptr %8, align 8, !dbg !116
  %30 = load i64, ptr %10, align 8, !dbg !117
  %31 = load i64, ptr %9, align 8, !dbg !118
  %32 = mul nsw i64 %30, %31, !dbg !119
  %33 = sub nsw i64 %29, %32, !dbg !120
  store i64 %33, ptr %12, align 8, !dbg !115
  %34 = load i64, ptr %7, align 8, !dbg !121
  store i64 %34, ptr %6, align 8, !dbg !122
  %35 = load i64, ptr %11, align 8, !dbg !123
  store i64 %35, ptr %7, align 8, !dbg !124
  %36 = load i64, ptr %9, align 8, !dbg !125
  store i64 %36, ptr %8, align 8, !dbg !126
  %37 = load i64, ptr %12, align 8, !dbg !127
  store i64 %37, ptr %9, align 8, !dbg !128
  br label %17, !dbg !98, !llvm.loop !129

38:                                               ; preds = %17
  %39 = load i64, ptr %6, align 8, !dbg !131
  %40 = icmp ne i64 %39, 1, !dbg !133
  br i1 %40, label %41, label %42, !dbg !134

41:                                               ; preds = %38
  store i64 -1, ptr %3, align 8, !dbg !135
  br label %53, !dbg !135

42:                                               ; preds = %38
  %43 = load i64, ptr %8, align 8, !dbg !136
  %44 = icmp slt i64 %43, 0, !dbg !137
  br i1 %44, label %45, label %49, !dbg !136

45:                                               ; preds = %42
  %46 = load i64, ptr %8, align 8, !dbg !138
  %47 = load i64, ptr %5, align 8, !dbg !139
  %48 = add nsw i64 %46, %47, !dbg !140
  br label %51, !dbg !136

49:                                               ; preds = %42
  %50 = load i64, ptr %8, align 8, !dbg !141
  br label %51, !dbg !136

51:                                               ; preds = %49, %45
  %52 = phi i64 [ %48, %45 ], [ %50, %49 ], !dbg !136
  store i64 %52, ptr %3, align 8, !dbg !142
  br label %53, !dbg !142

53:                                               ; preds = %51, %41
  %54 = load i64, ptr %3, align 8, !dbg !143
  ret i64 %54, !dbg !143
}

; Function Attrs: noinline nounwind optnone
define dso_local signext i32 @binary_gcd(i32 noundef signext %0, i32 noundef signext %1) #0 !dbg !144 {
  %3 = alloca i32, align 4
  %4 = alloca i32, align 4
  %5 = alloca i32, align 4
  %6 = alloca i32, align 4
  %7 = alloca i32, align 4
  store i32 %0, ptr %4, align 4
    #dbg_declare(ptr %4, !145, !DIExpression(), !146)
  store i32 %1, ptr %5, align 4
    #dbg_declare(ptr %5, !147, !DIExpression(), !148)
    #dbg_declare(ptr %6, !149, !DIExpression(), !151)
  store i32 0, ptr %6, align 4, !dbg !151
  %8 = load i32, ptr %4, align 4, !dbg !152
  %9 = icmp ne i32 %8, 0, !dbg !152
  br i1 %9, label %12, label %10, !dbg !154

10:                                               ; preds = %2
  %11 = load i32, ptr %5, align 4, !dbg !155
  store i32 %11, ptr %3, align 4, !dbg !156
  br label %70, !dbg !156

12:                                               ; preds = %2
  %13 = load i32, ptr %5, align 4, !dbg !157
  %14 = icmp ne i32 %13, 0, !dbg !157
  br i1 %14, label %17, label %15, !dbg !159

15:                                               ; preds = %12
  %16 = load i32, ptr %4, align 4, !dbg !160
  store i32 %16, ptr %3, align 4, !dbg !161
  br label %70, !dbg !161

17:                                               ; preds = %12
  br label %18, !dbg !162

18:                                               ; preds = %25, %17
  %19 = load i32, ptr %4, align 4, !dbg !163
  %20 = load i32, ptr %5, align 4, !dbg !164
  %21 = or i32 %19, %20, !dbg !165
  %22 = and i32 %21, 1, !dbg !166
  %23 = icmp ne i32 %22, 0, !dbg !167
  %24 = xor i1 %23, true, !dbg !167
  br i1 %24, label %25, label %32, !dbg !162

25:                                               ; preds = %18
  %26 = load i32, ptr %4, align 4, !dbg !168
  %27 = lshr i32 %26, 1, !dbg !168
  store i32 %27, ptr %4, align 4, !dbg !168
  %28 = load i32, ptr %5, align 4, !dbg !170
  %29 = lshr i32 %28, 1, !dbg !170
  store i32 %29, ptr %5, align 4, !dbg !170
  %30 = load i32, ptr %6, align 4, !dbg !171
  %31 = add nsw i32 %30, 1, !dbg !171
  store i32 %31, ptr %6, align 4, !dbg !171
  br label %18, !dbg !162, !llvm.loop !172

32:                                               ; preds = %18
  br label %33, !dbg !174

33:                                               ; preds = %38, %32
  %34 = load i32, ptr %4, align 4, !dbg !175
  %35 = and i32 %34, 1, !dbg !176
  %36 = icmp ne i32 %35, 0, !dbg !177
  %37 = xor i1 %36, true, !dbg !177
  br i1 %37, label %38, label %41, !dbg !174

38:                                               ; preds = %33
  %39 = load i32, ptr %4, align 4, !dbg !178
  %40 = lshr i32 %39, 1, !dbg !178
  store i32 %40, ptr %4, align 4, !dbg !178
  br label %33, !dbg !174, !llvm.loop !179

41:                                               ; preds = %33
  br label %42, !dbg !181

42:                                               ; preds = %63, %41
  br label %43, !dbg !182

43:                                               ; preds = %48, %42
  %44 = load i32, ptr %5, align 4, !dbg !184
  %45 = and i32 %44, 1, !dbg !185
  %46 = icmp ne i32 %45, 0, !dbg !186
  %47 = xor i1 %46, true, !dbg !186
  br i1 %47, label %48, label %51, !dbg !182

48:                                               ; preds = %43
  %49 = load i32, ptr %5, align 4, !dbg !187
  %50 = lshr i32 %49, 1, !dbg !187
  store i32 %50, ptr %5, align 4, !dbg !187
  br label %43, !dbg !182, !llvm.loop !188

51:                                               ; preds = %43
  %52 = load i32, ptr %4, align 4, !dbg !190
  %53 = load i32, ptr %5, align 4, !dbg !192
  %54 = icmp ugt i32 %52, %53, !dbg !193
  br i1 %54, label %55, label %59, !dbg !194

55:                                               ; preds = %51
    #dbg_declare(ptr %7, !195, !DIExpression(), !197)
  %56 = load i32, ptr %4, align 4, !dbg !198
  store i32 %56, ptr %7, align 4, !dbg !197
  %57 = load i32, ptr %5, align 4, !dbg !199
  store i32 %57, ptr %4, align 4, !dbg !200
  %58 = load i32, ptr %7, align 4, !dbg !201
  store i32 %58, ptr %5, align 4, !dbg !202
  br label %59, !dbg !203

59:                                               ; preds = %55, %51
  %60 = load i32, ptr %4, align 4, !dbg !204
  %61 = load i32, ptr %5, align 4, !dbg !205
  %62 = sub i32 %61, %60, !dbg !205
  store i32 %62, ptr %5, align 4, !dbg !205
  br label %63, !dbg !206

63:                                               ; preds = %59
  %64 = load i32, ptr %5, align 4, !dbg !207
  %65 = icmp ne i32 %64, 0, !dbg !206
  br i1 %65, label %42, label %66, !dbg !206, !llvm.loop !208

66:                                               ; preds = %63
  %67 = load i32, ptr %4, align 4, !dbg !210
  %68 = load i32, ptr %6, align 4, !dbg !211
  %69 = shl i32 %67, %68, !dbg !212
  store i32 %69, ptr %3, align 4, !dbg !213
  br label %70, !dbg !213

70:                                               ; preds = %66, %15, %10
  %71 = load i32, ptr %3, align 4, !dbg !214
  ret i32 %71, !dbg !214
}

attributes #0 = { noinline nounwind optnone "frame-pointer"="all" "no-builtins" "no-trapping-math"="true" "stack-protector-buffer-size"="8" "target-cpu"="generic-rv64" "target-features"="+64bit,+m,+relax,+zmmul,-a,-b,-c,-d,-e,-experimental-smmpm,-experimental-smnpm,-experimental-ssnpm,-experimental-sspm,-experimental-ssqosid,-experimental-supm,-experimental-zacas,-experimental-zalasr,-experimental-zicfilp,-experimental-zicfiss,-f,-h,-shcounterenw,-shgatpa,-shtvala,-shvsatpa,-shvstvala,-shvstvecd,-smaia,-smcdeleg,-smcsrind,-smepmp,-smstateen,-ssaia,-ssccfg,-ssccptr,-sscofpmf,-sscounterenw,-sscsrind,-ssstateen,-ssstrict,-sstc,-sstvala,-sstvecd,-ssu64xl,-svade,-svadu,-svbare,-svinval,-svnapot,-svpbmt,-v,-xcvalu,-xcvbi,-xcvbitmanip,-xcvelw,-xcvmac,-xcvmem,-xcvsimd,-xsfcease,-xsfvcp,-xsfvfnrclipxfqf,-xsfvfwmaccqqq,-xsfvqmaccdod,-xsfvqmaccqoq,-xsifivecdiscarddlone,-xsifivecflushdlone,-xtheadba,-xtheadbb,-xtheadbs,-xtheadcmo,-xtheadcondmov,-xtheadfmemidx,-xtheadmac,-xtheadmemidx,-xtheadmempair,-xtheadsync,-xtheadvdot,-xventanacondops,-xwchc,-za128rs,-za64rs,-zaamo,-zabha,-zalrsc,-zama16b,-zawrs,-zba,-zbb,-zbc,-zbkb,-zbkc,-zbkx,-zbs,-zca,-zcb,-zcd,-zce,-zcf,-zcmop,-zcmp,-zcmt,-zdinx,-zfa,-zfbfmin,-zfh,-zfhmin,-zfinx,-zhinx,-zhinxmin,-zic64b,-zicbom,-zicbop,-zicboz,-ziccamoa,-ziccif,-zicclsm,-ziccrse,-zicntr,-zicond,-zicsr,-zifencei,-zihintntl,-zihintpause,-zihpm,-zimop,-zk,-zkn,-zknd,-zkne,-zknh,-zkr,-zks,-zksed,-zksh,-zkt,-ztso,-zvbb,-zvbc,-zve32f,-zve32x,-zve64d,-zve64f,-zve64x,-zvfbfmin,-zvfbfwma,-zvfh,-zvfhmin,-zvkb,-zvkg,-zvkn,-zvknc,-zvkned,-zvkng,-zvknha,-zvknhb,-zvks,-zvksc,-zvksed,-zvksg,-zvksh,-zvkt,-zvl1024b,-zvl128b,-zvl16384b,-zvl2048b,-zvl256b,-zvl32768b,-zvl32b,-zvl4096b,-zvl512b,-zvl64b,-zvl65536b,-zvl8192b" }
attributes #1 = { nobuiltin "no-builtins" }

!llvm.dbg.cu = !{!0}
!llvm.module.flags = !{!4, !5, !6, !7, !8, !10, !11, !12, !13}
!llvm.ident = !{!14}

!0 = distinct !DICompileUnit(language: DW_LANG_C11, file: !1, producer: "Debian clang version 19.1.7 (3~deb12u1)", isOptimized: false, runtimeVersion: 0, emissionKind: FullDebug, retainedTypes: !2, splitDebugInlining: false, nameTableKind: None)
!1 = !DIFile(filename: "gcd.c", directory: ".", checksumkind: CSK_MD5, checksum: "b5f2a042c13b676d6d0c0f42642e5456")
!2 = !{!3}
!3 = !DIBasicType(name: "unsigned long", size: 64, encoding: DW_ATE_unsigned)
!4 = !{i32 7, !"Dwarf Version", i32 5}
!5 = !{i32 2, !"Debug Info Version", i32 3}
!6 = !{i32 1, !"wchar_size", i32 4}
!7 = !{i32 1, !"target-abi", !"lp64"}
!8 = !{i32 6, !"riscv-isa", !9}
!9 = !{!"rv64i2p1_m2p0_zmmul1p0"}
!10 = !{i32 8, !"PIC Level", i32 2}
!11 = !{i32 7, !"PIE Level", i32 2}
!12 = !{i32 7, !"frame-pointer", i32 2}
!13 = !{i32 8, !"SmallDataLimit", i32 8}
!14 = !{!"Debian clang version 19.1.7 (3~deb12u1)"}
!15 = distinct !DISubprogram(name: "gcd", scope: !1, file: !1, line: 2, type: !16, scopeLine: 2, flags: DIFlagPrototyped, spFlags: DISPFlagDefinition, unit: !0, retainedNodes: !19)
!16 = !DISubroutineType(types: !17)
!17 = !{!18, !18, !18}
!18 = !DIBasicType(name: "unsigned int", size: 32, encoding: DW_ATE_unsigned)
!19 = !{}
!20 = !DILocalVariable(name: "a", arg: 1, scope: !15, file: !1, line: 2, type: !18)
!21 = !DILocation(line: 2, column: 23, scope: !15)
!22 = !DILocalVariable(name: "b", arg: 2, scope: !15, file: !1, line: 2, type: !18)
!23 = !DILocation(line: 2, column: 35, scope: !15)
!24 = !DILocation(line: 3, column: 5, scope: !15)
!25 = !DILocation(line: 3, column: 12, scope: !15)
!26 = !DILocalVariable(name: "t", scope: !27, file: !1, line: 4, type: !18)
!27 = distinct !DILexicalBlock(scope: !15, file: !1, line: 3, column: 15)
!28 = !DILocation(line: 4, column: 18, scope: !27)
!29 = !DILocation(line: 4, column: 22, scope: !27)
!30 = !DILocation(line: 4, column: 26, scope: !27)
!31 = !DILocation(line: 4, column: 24, scope: !27)
!32 = !DILocation(line: 5, column: 13, scope: !27)
!33 = !DILocation(line: 5, column: 11, scope: !27)
!34 = !DILocation(line: 6, column: 13, scope: !27)
!35 = !DILocation(line: 6, column: 11, scope: !27)
!36 = distinct !{!36, !24, !37, !38}
!37 = !DILocation(line: 7, column: 5, scope: !15)
!38 = !{!"llvm.loop.mustprogress"}
!39 = !DILocation(line: 8, column: 12, scope: !15)
!40 = !DILocation(line: 8, column: 5, scope: !15)
!41 = distinct !DISubprogram(name: "gcd_by_calls", scope: !1, file: !1, line: 10, type: !42, scopeLine: 10, flags: DIFlagPrototyped, spFlags: DISPFlagDefinition, unit: !0, retainedNodes: !19)
!42 = !DISubroutineType(types: !43)
!43 = !{!44, !44, !44}
!44 = !DIBasicType(name: "long", size: 64, encoding: DW_ATE_signed)
!45 = !DILocalVariable(name: "a", arg: 1, scope: !41, file: !1, line: 10, type: !44)
!46 = !DILocation(line: 10, column: 24, scope: !41)
!47 = !DILocalVariable(name: "b", arg: 2, scope: !41, file: !1, line: 10, type: !44)
!48 = !DILocation(line: 10, column: 32, scope: !41)
!49 = !DILocation(line: 10, column: 44, scope: !41)
!50 = !DILocation(line: 10, column: 46, scope: !41)
!51 = !DILocation(line: 10, column: 54, scope: !41)
!52 = !DILocation(line: 10, column: 56, scope: !41)
!53 = !DILocation(line: 10, column: 63, scope: !41)
!54 = !DILocation(line: 10, column: 62, scope: !41)
!55 = !DILocation(line: 10, column: 67, scope: !41)
!56 = !DILocation(line: 10, column: 85, scope: !41)
!57 = !DILocation(line: 10, column: 88, scope: !41)
!58 = !DILocation(line: 10, column: 92, scope: !41)
!59 = !DILocation(line: 10, column: 90, scope: !41)
!60 = !DILocation(line: 10, column: 72, scope: !41)
!61 = !DILocation(line: 10, column: 37, scope: !41)
!62 = distinct !DISubprogram(name: "lcm", scope: !1, file: !1, line: 11, type: !63, scopeLine: 11, flags: DIFlagPrototyped, spFlags: DISPFlagDefinition, unit: !0, retainedNodes: !19)
!63 = !DISubroutineType(types: !64)
!64 = !{!3, !18, !18}
!65 = !DILocalVariable(name: "a", arg: 1, scope: !62, file: !1, line: 11, type: !18)
!66 = !DILocation(line: 11, column: 28, scope: !62)
!67 = !DILocalVariable(name: "b", arg: 2, scope: !62, file: !1, line: 11, type: !18)
!68 = !DILocation(line: 11, column: 40, scope: !62)
!69 = !DILocation(line: 11, column: 52, scope: !62)
!70 = !DILocation(line: 11, column: 54, scope: !62)
!71 = !DILocation(line: 11, column: 57, scope: !62)
!72 = !DILocation(line: 11, column: 76, scope: !62)
!73 = !DILocation(line: 11, column: 61, scope: !62)
!74 = !DILocation(line: 11, column: 84, scope: !62)
!75 = !DILocation(line: 11, column: 87, scope: !62)
!76 = !DILocation(line: 11, column: 80, scope: !62)
!77 = !DILocation(line: 11, column: 78, scope: !62)
!78 = !DILocation(line: 11, column: 92, scope: !62)
!79 = !DILocation(line: 11, column: 90, scope: !62)
!80 = !DILocation(line: 11, column: 45, scope: !62)
!81 = distinct !DISubprogram(name: "inverse", scope: !1, file: !1, line: 13, type: !42, scopeLine: 13, flags: DIFlagPrototyped, spFlags: DISPFlagDefinition, unit: !0, retainedNodes: !19)
!82 = !DILocalVariable(name: "a", arg: 1, scope: !81, file: !1, line: 13, type: !44)
!83 = !DILocation(line: 13, column: 19, scope: !81)
!84 = !DILocalVariable(name: "m", arg: 2, scope: !81, file: !1, line: 13, type: !44)
!85 = !DILocation(line: 13, column: 27, scope: !81)
!86 = !DILocalVariable(name: "r0", scope: !81, file: !1, line: 14, type: !44)
!87 = !DILocation(line: 14, column: 10, scope: !81)
!88 = !DILocation(line: 14, column: 15, scope: !81)
!89 = !DILocalVariable(name: "r1", scope: !81, file: !1, line: 14, type: !44)
!90 = !DILocation(line: 14, column: 18, scope: !81)
!91 = !DILocation(line: 14, column: 23, scope: !81)
!92 = !DILocation(line: 14, column: 27, scope: !81)
!93 = !DILocation(line: 14, column: 25, scope: !81)
!94 = !DILocalVariable(name: "s0", scope: !81, file: !1, line: 14, type: !44)
!95 = !DILocation(line: 14, column: 30, scope: !81)
!96 = !DILocalVariable(name: "s1", scope: !81, file: !1, line: 14, type: !44)
!97 = !DILocation(line: 14, column: 38, scope: !81)
!98 = !DILocation(line: 15, column: 5, scope: !81)
!99 = !DILocation(line: 15, column: 12, scope: !81)
!100 = !DILocation(line: 15, column: 15, scope: !81)
!101 = !DILocalVariable(name: "q", scope: !102, file: !1, line: 16, type: !44)
!102 = distinct !DILexicalBlock(scope: !81, file: !1, line: 15, column: 21)
!103 = !DILocation(line: 16, column: 14, scope: !102)
!104 = !DILocation(line: 16, column: 18, scope: !102)
!105 = !DILocation(line: 16, column: 23, scope: !102)
!106 = !DILocation(line: 16, column: 21, scope: !102)
!107 = !DILocalVariable(name: "r2", scope: !102, file: !1, line: 16, type: !44)
!108 = !DILocation(line: 16, column: 27, scope: !102)
!109 = !DILocation(line: 16, column: 32, scope: !102)
!110 = !DILocation(line: 16, column: 37, scope: !102)
!111 = !DILocation(line: 16, column: 41, scope: !102)
!112 = !DILocation(line: 16, column: 39, scope: !102)
!113 = !DILocation(line: 16, column: 35, scope: !102)
!114 = !DILocalVariable(name: "s2", scope: !102, file: !1, line: 16, type: !44)
!115 = !DILocation(line: 16, column: 45, scope: !102)
!116 = !DILocation(line: 16, column: 50, scope: !102)
!117 = !DILocation(line: 16, column: 55, scope: !102)
!118 = !DILocation(line: 16, column: 59, scope: !102)
!119 = !DILocation(line: 16, column: 57, scope: !102)
!120 = !DILocation(line: 16, column: 53, scope: !102)
!121 = !DILocation(line: 17, column: 14, scope: !102)
!122 = !DILocation(line: 17, column: 12, scope: !102)
!123 = !DILocation(line: 18, column: 14, scope: !102)
!124 = !DILocation(line: 18, column: 12, scope: !102)
!125 = !DILocation(line: 19, column: 14, scope: !102)
!126 = !DILocation(line: 19, column: 12, scope: !102)
!127 = !DILocation(line: 20, column: 14, scope: !102)
!128 = !DILocation(line: 20, column: 12, scope: !102)
!129 = distinct !{!129, !98, !130, !38}
!130 = !DILocation(line: 21, column: 5, scope: !81)
!131 = !DILocation(line: 22, column: 9, scope: !132)
!132 = distinct !DILexicalBlock(scope: !81, file: !1, line: 22, column: 9)
!133 = !DILocation(line: 22, column: 12, scope: !132)
!134 = !DILocation(line: 22, column: 9, scope: !81)
!135 = !DILocation(line: 22, column: 18, scope: !132)
!136 = !DILocation(line: 23, column: 12, scope: !81)
!137 = !DILocation(line: 23, column: 15, scope: !81)
!138 = !DILocation(line: 23, column: 21, scope: !81)
!139 = !DILocation(line: 23, column: 26, scope: !81)
!140 = !DILocation(line: 23, column: 24, scope: !81)
!141 = !DILocation(line: 23, column: 30, scope: !81)
!142 = !DILocation(line: 23, column: 5, scope: !81)
!143 = !DILocation(line: 24, column: 1, scope: !81)
!144 = distinct !DISubprogram(name: "binary_gcd", scope: !1, file: !1, line: 25, type: !16, scopeLine: 25, flags: DIFlagPrototyped, spFlags: DISPFlagDefinition, unit: !0, retainedNodes: !19)
!145 = !DILocalVariable(name: "a", arg: 1, scope: !144, file: !1, line: 25, type: !18)
!146 = !DILocation(line: 25, column: 30, scope: !144)
!147 = !DILocalVariable(name: "b", arg: 2, scope: !144, file: !1, line: 25, type: !18)
!148 = !DILocation(line: 25, column: 42, scope: !144)
!149 = !DILocalVariable(name: "shift", scope: !144, file: !1, line: 26, type: !150)
!150 = !DIBasicType(name: "int", size: 32, encoding: DW_ATE_signed)
!151 = !DILocation(line: 26, column: 9, scope: !144)
!152 = !DILocation(line: 27, column: 10, scope: !153)
!153 = distinct !DILexicalBlock(scope: !144, file: !1, line: 27, column: 9)
!154 = !DILocation(line: 27, column: 9, scope: !144)
!155 = !DILocation(line: 27, column: 20, scope: !153)
!156 = !DILocation(line: 27, column: 13, scope: !153)
!157 = !DILocation(line: 28, column: 10, scope: !158)
!158 = distinct !DILexicalBlock(scope: !144, file: !1, line: 28, column: 9)
!159 = !DILocation(line: 28, column: 9, scope: !144)
!160 = !DILocation(line: 28, column: 20, scope: !158)
!161 = !DILocation(line: 28, column: 13, scope: !158)
!162 = !DILocation(line: 29, column: 5, scope: !144)
!163 = !DILocation(line: 29, column: 15, scope: !144)
!164 = !DILocation(line: 29, column: 19, scope: !144)
!165 = !DILocation(line: 29, column: 17, scope: !144)
!166 = !DILocation(line: 29, column: 22, scope: !144)
!167 = !DILocation(line: 29, column: 12, scope: !144)
!168 = !DILocation(line: 30, column: 11, scope: !169)
!169 = distinct !DILexicalBlock(scope: !144, file: !1, line: 29, column: 28)
!170 = !DILocation(line: 31, column: 11, scope: !169)
!171 = !DILocation(line: 32, column: 14, scope: !169)
!172 = distinct !{!172, !162, !173, !38}
!173 = !DILocation(line: 33, column: 5, scope: !144)
!174 = !DILocation(line: 34, column: 5, scope: !144)
!175 = !DILocation(line: 34, column: 14, scope: !144)
!176 = !DILocation(line: 34, column: 16, scope: !144)
!177 = !DILocation(line: 34, column: 12, scope: !144)
!178 = !DILocation(line: 34, column: 24, scope: !144)
!179 = distinct !{!179, !174, !180, !38}
!180 = !DILocation(line: 34, column: 28, scope: !144)
!181 = !DILocation(line: 35, column: 5, scope: !144)
!182 = !DILocation(line: 36, column: 9, scope: !183)
!183 = distinct !DILexicalBlock(scope: !144, file: !1, line: 35, column: 8)
!184 = !DILocation(line: 36, column: 18, scope: !183)
!185 = !DILocation(line: 36, column: 20, scope: !183)
!186 = !DILocation(line: 36, column: 16, scope: !183)
!187 = !DILocation(line: 36, column: 28, scope: !183)
!188 = distinct !{!188, !182, !189, !38}
!189 = !DILocation(line: 36, column: 32, scope: !183)
!190 = !DILocation(line: 37, column: 13, scope: !191)
!191 = distinct !DILexicalBlock(scope: !183, file: !1, line: 37, column: 13)
!192 = !DILocation(line: 37, column: 17, scope: !191)
!193 = !DILocation(line: 37, column: 15, scope: !191)
!194 = !DILocation(line: 37, column: 13, scope: !183)
!195 = !DILocalVariable(name: "t", scope: !196, file: !1, line: 38, type: !18)
!196 = distinct !DILexicalBlock(scope: !191, file: !1, line: 37, column: 20)
!197 = !DILocation(line: 38, column: 22, scope: !196)
!198 = !DILocation(line: 38, column: 26, scope: !196)
!199 = !DILocation(line: 39, column: 17, scope: !196)
!200 = !DILocation(line: 39, column: 15, scope: !196)
!201 = !DILocation(line: 40, column: 17, scope: !196)
!202 = !DILocation(line: 40, column: 15, scope: !196)
!203 = !DILocation(line: 41, column: 9, scope: !196)
!204 = !DILocation(line: 42, column: 14, scope: !183)
!205 = !DILocation(line: 42, column: 11, scope: !183)
!206 = !DILocation(line: 43, column: 5, scope: !183)
!207 = !DILocation(line: 43, column: 14, scope: !144)
!208 = distinct !{!208, !181, !209, !38}
!209 = !DILocation(line: 43, column: 15, scope: !144)
!210 = !DILocation(line: 44, column: 12, scope: !144)
!211 = !DILocation(line: 44, column: 17, scope: !144)
!212 = !DILocation(line: 44, column: 14, scope: !144)
!213 = !DILocation(line: 44, column: 5, scope: !144)
!214 = !DILocation(line: 45, column: 1, scope: !144)
