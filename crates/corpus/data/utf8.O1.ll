; ModuleID = 'utf8.c'
source_filename = "utf8.c"
target datalayout = "e-m:e-p:64:64-i64:64-i128:128-n32:64-S128"
target triple = "riscv64-unknown-linux-gnu"

@bytes = internal unnamed_addr global [4 x i8] zeroinitializer, align 1
@point_again.kept = internal unnamed_addr constant [5 x i8] c"\00\7F\1F\0F\07", align 1
@switch.table.point_again = private unnamed_addr constant [8 x i32] [i32 0, i32 0, i32 0, i32 0, i32 2, i32 2, i32 3, i32 4], align 4

; Function Attrs: nofree norecurse nosync nounwind memory(readwrite, argmem: none, inaccessiblemem: none)
define dso_local signext i32 @coded(i32 noundef signext %0) local_unnamed_addr #0 {
  %2 = icmp ult i32 %0, 128
  br i1 %2, label %3, label %5

3:                                                ; preds = %1
  %4 = trunc nuw nsw i32 %0 to i8
  store i8 %4, ptr @bytes, align 1, !tbaa !8
  br label %47

5:                                                ; preds = %1
  %6 = icmp ult i32 %0, 2048
  br i1 %6, label %7, label %14

7:                                                ; preds = %5
  %8 = lshr i32 %0, 6
  %9 = trunc nuw i32 %8 to i8
  %10 = or disjoint i8 %9, -64
  store i8 %10, ptr @bytes, align 1, !tbaa !8
  %11 = trunc i32 %0 to i8
  %12 = and i8 %11, 63
  %13 = or disjoint i8 %12, -128
  store i8 %13, ptr getelementptr inbounds (i8, ptr @bytes, i64 1), align 1, !tbaa !8
  br label %47

14:                                               ; preds = %5
  %15 = icmp ult i32 %0, 65536
  br i1 %15, label %16, label %30

16:                                               ; preds = %14
  %17 = and i32 %0, 63488
  %18 = icmp eq i32 %17, 55296
  br i1 %18, label %47, label %19

19:                                               ; preds = %16
  %20 = lshr i32 %0, 12
  %21 = trunc nuw i32 %20 to i8
  %22 = or disjoint i8 %21, -32
  store i8 %22, ptr @bytes, align 1, !tbaa !8
  %23 = lshr i32 %0, 6
  %24 = trunc i32 %23 to i8
  %25 = and i8 %24, 63
  %26 = or disjoint i8 %25, -128
  store i8 %26, ptr getelementptr inbounds (i8, ptr @bytes, i64 1), align 1, !tbaa !8
  %27 = trunc i32 %0 to i8
  %28 = and i8 %27, 63
  %29 = or disjoint i8 %28, -128
  store i8 %29, ptr getelementptr inbounds (i8, ptr @bytes, i64 2), align 1, !tbaa !8
  br label %47

30:                                               ; preds = %14
  %31 = icmp ult i32 %0, 1114112
  br i1 %31, label %32, label %47

32:                                               ; preds = %30
  %33 = lshr i32 %0, 18
  %34 = trunc nuw i32 %33 to i8
  %35 = or disjoint i8 %34, -16
  store i8 %35, ptr @bytes, align 1, !tbaa !8
  %36 = lshr i32 %0, 12
  %37 = trunc i32 %36 to i8
  %38 = and i8 %37, 63
  %39 = or disjoint i8 %38, -128
  store i8 %39, ptr getelementptr inbounds (i8, ptr @bytes, i64 1), align 1, !tbaa !8
  %40 = lshr i32 %0, 6
  %41 = trunc i32 %40 to i8
  %42 = and i8 %41, 63
  %43 = or disjoint i8 %42, -128
  store i8 %43, ptr getelementptr inbounds (i8, ptr @bytes, i64 2), align 1, !tbaa !8
  %44 = trunc i32 %0 to i8
  %45 = and i8 %44, 63
  %46 = or disjoint i8 %45, -128
  store i8 %46, ptr getelementptr inbounds (i8, ptr @bytes, i64 3), align 1, !tbaa !8
  br label %47

47:                                               ; preds = %3, %7, %16, %19, %30, %32
  %48 = phi i1 [ true, %3 ], [ true, %7 ], [ true, %19 ], [ true, %32 ], [ false, %16 ], [ false, %30 ]
  %49 = phi i32 [ 1, %3 ], [ 2, %7 ], [ 3, %19 ], [ 4, %32 ], [ 0, %16 ], [ 0, %30 ]
  br i1 %48, label %50, label %53

50:                                               ; preds = %47
  %51 = tail call i32 @llvm.umax.i32(i32 %49, i32 1)
  %52 = zext nneg i32 %51 to i64
  br label %55

53:                                               ; preds = %55, %47
  %54 = phi i32 [ 0, %47 ], [ %62, %55 ]
  ret i32 %54

55:                                               ; preds = %50, %55
  %56 = phi i64 [ 0, %50 ], [ %63, %55 ]
  %57 = phi i32 [ 0, %50 ], [ %62, %55 ]
  %58 = shl i32 %57, 8
  %59 = getelementptr inbounds [4 x i8], ptr @bytes, i64 0, i64 %56
  %60 = load i8, ptr %59, align 1, !tbaa !8
  %61 = zext i8 %60 to i32
  %62 = or disjoint i32 %58, %61
  %63 = add nuw nsw i64 %56, 1
  %64 = icmp eq i64 %63, %52
  br i1 %64, label %53, label %55, !llvm.loop !11
}

; Function Attrs: nofree norecurse nosync nounwind memory(readwrite, argmem: none, inaccessiblemem: none)
define dso_local signext i32 @point_again(i32 noundef signext %0) local_unnamed_addr #0 {
  %2 = icmp ult i32 %0, 128
  br i1 %2, label %3, label %5

3:                                                ; preds = %1
  %4 = trunc nuw nsw i32 %0 to i8
  store i8 %4, ptr @bytes, align 1, !tbaa !8
  br label %47

5:                                                ; preds = %1
  %6 = icmp ult i32 %0, 2048
  br i1 %6, label %7, label %14

7:                                                ; preds = %5
  %8 = lshr i32 %0, 6
  %9 = trunc nuw i32 %8 to i8
  %10 = or disjoint i8 %9, -64
  store i8 %10, ptr @bytes, align 1, !tbaa !8
  %11 = trunc i32 %0 to i8
  %12 = and i8 %11, 63
  %13 = or disjoint i8 %12, -128
  store i8 %13, ptr getelementptr inbounds (i8, ptr @bytes, i64 1), align 1, !tbaa !8
  br label %47

14:                                               ; preds = %5
  %15 = icmp ult i32 %0, 65536
  br i1 %15, label %16, label %30

16:                                               ; preds = %14
  %17 = and i32 %0, 63488
  %18 = icmp eq i32 %17, 55296
  br i1 %18, label %47, label %19

19:                                               ; preds = %16
  %20 = lshr i32 %0, 12
  %21 = trunc nuw i32 %20 to i8
  %22 = or disjoint i8 %21, -32
  store i8 %22, ptr @bytes, align 1, !tbaa !8
  %23 = lshr i32 %0, 6
  %24 = trunc i32 %23 to i8
  %25 = and i8 %24, 63
  %26 = or disjoint i8 %25, -128
  store i8 %26, ptr getelementptr inbounds (i8, ptr @bytes, i64 1), align 1, !tbaa !8
  %27 = trunc i32 %0 to i8
  %28 = and i8 %27, 63
  %29 = or disjoint i8 %28, -128
  store i8 %29, ptr getelementptr inbounds (i8, ptr @bytes, i64 2), align 1, !tbaa !8
  br label %47

30:                                               ; preds = %14
  %31 = icmp ult i32 %0, 1114112
  br i1 %31, label %32, label %47

32:                                               ; preds = %30
  %33 = lshr i32 %0, 18
  %34 = trunc nuw i32 %33 to i8
  %35 = or disjoint i8 %34, -16
  store i8 %35, ptr @bytes, align 1, !tbaa !8
  %36 = lshr i32 %0, 12
  %37 = trunc i32 %36 to i8
  %38 = and i8 %37, 63
  %39 = or disjoint i8 %38, -128
  store i8 %39, ptr getelementptr inbounds (i8, ptr @bytes, i64 1), align 1, !tbaa !8
  %40 = lshr i32 %0, 6
  %41 = trunc i32 %40 to i8
  %42 = and i8 %41, 63
  %43 = or disjoint i8 %42, -128
  store i8 %43, ptr getelementptr inbounds (i8, ptr @bytes, i64 2), align 1, !tbaa !8
  %44 = trunc i32 %0 to i8
  %45 = and i8 %44, 63
  %46 = or disjoint i8 %45, -128
  store i8 %46, ptr getelementptr inbounds (i8, ptr @bytes, i64 3), align 1, !tbaa !8
  br label %47

47:                                               ; preds = %3, %7, %16, %19, %30, %32
  %48 = phi i1 [ false, %3 ], [ false, %7 ], [ false, %19 ], [ false, %32 ], [ true, %16 ], [ true, %30 ]
  %49 = phi i1 [ false, %3 ], [ true, %7 ], [ true, %19 ], [ true, %32 ], [ false, %16 ], [ false, %30 ]
  %50 = phi i32 [ 1, %3 ], [ 2, %7 ], [ 3, %19 ], [ 4, %32 ], [ 0, %16 ], [ 0, %30 ]
  br i1 %48, label %83, label %51

51:                                               ; preds = %47
  %52 = load i8, ptr @bytes, align 1, !tbaa !8
  %53 = lshr i8 %52, 4
  %54 = add nsw i8 %53, -8
  %55 = icmp ult i8 %54, 8
  br i1 %55, label %56, label %60

56:                                               ; preds = %51
  %57 = zext nneg i8 %54 to i64
  %58 = getelementptr inbounds [8 x i32], ptr @switch.table.point_again, i64 0, i64 %57
  %59 = load i32, ptr %58, align 4
  br label %60

60:                                               ; preds = %51, %56
  %61 = phi i32 [ %59, %56 ], [ 1, %51 ]
  %62 = icmp eq i32 %61, %50
  br i1 %62, label %63, label %83

63:                                               ; preds = %60
  %64 = zext nneg i32 %50 to i64
  %65 = getelementptr inbounds [5 x i8], ptr @point_again.kept, i64 0, i64 %64
  %66 = load i8, ptr %65, align 1, !tbaa !8
  %67 = and i8 %66, %52
  %68 = zext i8 %67 to i32
  br i1 %49, label %69, label %83

69:                                               ; preds = %63
  %70 = tail call i32 @llvm.umax.i32(i32 %50, i32 2)
  %71 = zext nneg i32 %70 to i64
  br label %72

72:                                               ; preds = %69, %72
  %73 = phi i64 [ 1, %69 ], [ %81, %72 ]
  %74 = phi i32 [ %68, %69 ], [ %80, %72 ]
  %75 = shl i32 %74, 6
  %76 = getelementptr inbounds [4 x i8], ptr @bytes, i64 0, i64 %73
  %77 = load i8, ptr %76, align 1, !tbaa !8
  %78 = and i8 %77, 63
  %79 = zext nneg i8 %78 to i32
  %80 = or disjoint i32 %75, %79
  %81 = add nuw nsw i64 %73, 1
  %82 = icmp eq i64 %81, %71
  br i1 %82, label %83, label %72, !llvm.loop !14

83:                                               ; preds = %72, %63, %60, %47
  %84 = phi i32 [ -1, %47 ], [ -2, %60 ], [ %68, %63 ], [ %80, %72 ]
  ret i32 %84
}

; Function Attrs: mustprogress nofree norecurse nosync nounwind willreturn memory(none)
define dso_local noundef signext i32 @points() local_unnamed_addr #1 {
  ret i32 14
}

; Function Attrs: nocallback nofree nosync nounwind speculatable willreturn memory(none)
declare i32 @llvm.umax.i32(i32, i32) #2

attributes #0 = { nofree norecurse nosync nounwind memory(readwrite, argmem: none, inaccessiblemem: none) "no-builtins" "no-trapping-math"="true" "stack-protector-buffer-size"="8" "target-cpu"="generic-rv64" "target-features"="+64bit,+m,+relax,+zmmul,-a,-b,-c,-d,-e,-experimental-smmpm,-experimental-smnpm,-experimental-ssnpm,-experimental-sspm,-experimental-ssqosid,-experimental-supm,-experimental-zacas,-experimental-zalasr,-experimental-zicfilp,-experimental-zicfiss,-f,-h,-shcounterenw,-shgatpa,-shtvala,-shvsatpa,-shvstvala,-shvstvecd,-smaia,-smcdeleg,-smcsrind,-smepmp,-smstateen,-ssaia,-ssccfg,-ssccptr,-sscofpmf,-sscounterenw,-sscsrind,-ssstateen,-ssstrict,-sstc,-sstvala,-sstvecd,-ssu64xl,-svade,-svadu,-svbare,-svinval,-svnapot,-svpbmt,-v,-xcvalu,-xcvbi,-xcvbitmanip,-xcvelw,-xcvmac,-xcvmem,-xcvsimd,-xsfcease,-xsfvcp,-xsfvfnrclipxfqf,-xsfvfwmaccqqq,-xsfvqmaccdod,-xsfvqmaccqoq,-xsifivecdiscarddlone,-xsifivecflushdlone,-xtheadba,-xtheadbb,-xtheadbs,-xtheadcmo,-xtheadcondmov,-xtheadfmemidx,-xtheadmac,-xtheadmemidx,-xtheadmempair,-xtheadsync,-xtheadvdot,-xventanacondops,-xwchc,-za128rs,-za64rs,-zaamo,-zabha,-zalrsc,-zama16b,-zawrs,-zba,-zbb,-zbc,-zbkb,-zbkc,-zbkx,-zbs,-zca,-zcb,-zcd,-zce,-zcf,-zcmop,-zcmp,-zcmt,-zdinx,-zfa,-zfbfmin,-zfh,-zfhmin,-zfinx,-zhinx,-zhinxmin,-zic64b,-zicbom,-zicbop,-zicboz,-ziccamoa,-ziccif,-zicclsm,-ziccrse,-zicntr,-zicond,-zicsr,-zifencei,-zihintntl,-zihintpause,-zihpm,-zimop,-zk,-zkn,-zknd,-zkne,-zknh,-zkr,-zks,-zksed,-zksh,-zkt,-ztso,-zvbb,-zvbc,-zve32f,-zve32x,-zve64d,-zve64f,-zve64x,-zvfbfmin,-zvfbfwma,-zvfh,-zvfhmin,-zvkb,-zvkg,-zvkn,-zvknc,-zvkned,-zvkng,-zvknha,-zvknhb,-zvks,-zvksc,-zvksed,-zvksg,-zvksh,-zvkt,-zvl1024b,-zvl128b,-zvl16384b,-zvl2048b,-zvl256b,-zvl32768b,-zvl32b,-zvl4096b,-zvl512b,-zvl64b,-zvl65536b,-zvl8192b" }
attributes #1 = { mustprogress nofree norecurse nosync nounwind willreturn memory(none) "no-builtins" "no-trapping-math"="true" "stack-protector-buffer-size"="8" "target-cpu"="generic-rv64" "target-features"="+64bit,+m,+relax,+zmmul,-a,-b,-c,-d,-e,-experimental-smmpm,-experimental-smnpm,-experimental-ssnpm,-experimental-sspm,-experimental-ssqosid,-experimental-supm,-experimental-zacas,-experimental-zalasr,-experimental-zicfilp,-experimental-zicfiss,-f,-h,-shcounterenw,-shgatpa,-shtvala,-shvsatpa,-shvstvala,-shvstvecd,-smaia,-smcdeleg,-smcsrind,-smepmp,-smstateen,-ssaia,-ssccfg,-ssccptr,-sscofpmf,-sscounterenw,-sscsrind,-ssstateen,-ssstrict,-sstc,-sstvala,-sstvecd,-ssu64xl,-svade,-svadu,-svbare,-svinval,-svnapot,-svpbmt,-v,-xcvalu,-xcvbi,-xcvbitmanip,-xcvelw,-xcvmac,-xcvmem,-xcvsimd,-xsfcease,-xsfvcp,-xsfvfnrclipxfqf,-xsfvfwmaccqqq,-xsfvqmaccdod,-xsfvqmaccqoq,-xsifivecdiscarddlone,-xsifivecflushdlone,-xtheadba,-xtheadbb,-xtheadbs,-xtheadcmo,-xtheadcondmov,-xtheadfmemidx,-xtheadmac,-xtheadmemidx,-xtheadmempair,-xtheadsync,-xtheadvdot,-xventanacondops,-xwchc,-za128rs,-za64rs,-zaamo,-zabha,-zalrsc,-zama16b,-zawrs,-zba,-zbb,-zbc,-zbkb,-zbkc,-zbkx,-zbs,-zca,-zcb,-zcd,-zce,-zcf,-zcmop,-zcmp,-zcmt,-zdinx,-zfa,-zfbfmin,-zfh,-zfhmin,-zfinx,-zhinx,-zhinxmin,-zic64b,-zicbom,-zicbop,-zicboz,-ziccamoa,-ziccif,-zicclsm,-ziccrse,-zicntr,-zicond,-zicsr,-zifencei,-zihintntl,-zihintpause,-zihpm,-zimop,-zk,-zkn,-zknd,-zkne,-zknh,-zkr,-zks,-zksed,-zksh,-zkt,-ztso,-zvbb,-zvbc,-zve32f,-zve32x,-zve64d,-zve64f,-zve64x,-zvfbfmin,-zvfbfwma,-zvfh,-zvfhmin,-zvkb,-zvkg,-zvkn,-zvknc,-zvkned,-zvkng,-zvknha,-zvknhb,-zvks,-zvksc,-zvksed,-zvksg,-zvksh,-zvkt,-zvl1024b,-zvl128b,-zvl16384b,-zvl2048b,-zvl256b,-zvl32768b,-zvl32b,-zvl4096b,-zvl512b,-zvl64b,-zvl65536b,-zvl8192b" }
attributes #2 = { nocallback nofree nosync nounwind speculatable willreturn memory(none) }

!llvm.module.flags = !{!0, !1, !2, !4, !5, !6}
!llvm.ident = !{!7}

!0 = !{i32 1, !"wchar_size", i32 4}
!1 = !{i32 1, !"target-abi", !"lp64"}
!2 = !{i32 6, !"riscv-isa", !3}
!3 = !{!"rv64i2p1_m2p0_zmmul1p0"}
!4 = !{i32 8, !"PIC Level", i32 2}
!5 = !{i32 7, !"PIE Level", i32 2}
!6 = !{i32 8, !"SmallDataLimit", i32 8}
!7 = !{!"Debian clang version 19.1.7 (3~deb12u1)"}
!8 = !{!9, !9, i64 0}
!9 = !{!"omnipotent char", !10, i64 0}
!10 = !{!"Simple C/C++ TBAA"}
!11 = distinct !{!11, !12, !13}
!12 = !{!"llvm.loop.mustprogress"}
!13 = !{!"llvm.loop.unroll.disable"}
!14 = distinct !{!14, !12, !13}
