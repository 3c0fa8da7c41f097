; ModuleID = 'words.c'
source_filename = "words.c"
target datalayout = "e-m:e-p:64:64-i64:64-i128:128-n32:64-S128"
target triple = "riscv64-unknown-linux-gnu"

@fox = dso_local local_unnamed_addr constant [45 x i8] c"the quick brown fox\09jumps over\0A the lazy dog\00", align 1
@blank = dso_local local_unnamed_addr constant [4 x i8] c" \09 \00", align 1
@is_blank = internal unnamed_addr constant <{ [33 x i8], [95 x i8] }> <{ [33 x i8] c"\00\00\00\00\00\00\00\00\00\01\01\00\00\00\00\00\00\00\00\00\00\00\00\00\00\00\00\00\00\00\00\00\01", [95 x i8] zeroinitializer }>, align 1

; Function Attrs: nofree norecurse nosync nounwind memory(read, inaccessiblemem: none)
define dso_local i64 @words(ptr nocapture noundef readonly %0) local_unnamed_addr #0 {
  %2 = load i8, ptr %0, align 1, !tbaa !8
  %3 = icmp eq i8 %2, 0
  br i1 %3, label %22, label %4

4:                                                ; preds = %1, %4
  %5 = phi i8 [ %20, %4 ], [ %2, %1 ]
  %6 = phi ptr [ %19, %4 ], [ %0, %1 ]
  %7 = phi i32 [ %18, %4 ], [ 0, %1 ]
  %8 = phi i64 [ %17, %4 ], [ 0, %1 ]
  %9 = and i8 %5, 127
  %10 = zext nneg i8 %9 to i64
  %11 = getelementptr inbounds [128 x i8], ptr @is_blank, i64 0, i64 %10
  %12 = load i8, ptr %11, align 1, !tbaa !8
  %13 = icmp eq i8 %12, 0
  %14 = icmp eq i32 %7, 0
  %15 = select i1 %13, i1 %14, i1 false
  %16 = zext i1 %15 to i64
  %17 = add nuw nsw i64 %8, %16
  %18 = zext i1 %13 to i32
  %19 = getelementptr inbounds i8, ptr %6, i64 1
  %20 = load i8, ptr %19, align 1, !tbaa !8
  %21 = icmp eq i8 %20, 0
  br i1 %21, label %22, label %4, !llvm.loop !11

22:                                               ; preds = %4, %1
  %23 = phi i64 [ 0, %1 ], [ %17, %4 ]
  ret i64 %23
}

; Function Attrs: nofree norecurse nosync nounwind memory(read, inaccessiblemem: none)
define dso_local signext i32 @longest(ptr nocapture noundef readonly %0, i32 noundef signext %1) local_unnamed_addr #0 {
  %3 = load i8, ptr %0, align 1, !tbaa !8
  %4 = icmp eq i8 %3, 0
  br i1 %4, label %21, label %5

5:                                                ; preds = %2, %5
  %6 = phi i8 [ %19, %5 ], [ %3, %2 ]
  %7 = phi i32 [ %16, %5 ], [ 0, %2 ]
  %8 = phi i32 [ %17, %5 ], [ %1, %2 ]
  %9 = phi ptr [ %18, %5 ], [ %0, %2 ]
  %10 = and i8 %6, 127
  %11 = zext nneg i8 %10 to i64
  %12 = getelementptr inbounds [128 x i8], ptr @is_blank, i64 0, i64 %11
  %13 = load i8, ptr %12, align 1, !tbaa !8
  %14 = icmp eq i8 %13, 0
  %15 = add nsw i32 %7, 1
  %16 = select i1 %14, i32 %15, i32 0
  %17 = tail call i32 @llvm.smax.i32(i32 %16, i32 %8)
  %18 = getelementptr inbounds i8, ptr %9, i64 1
  %19 = load i8, ptr %18, align 1, !tbaa !8
  %20 = icmp eq i8 %19, 0
  br i1 %20, label %21, label %5, !llvm.loop !14

21:                                               ; preds = %5, %2
  %22 = phi i32 [ %1, %2 ], [ %17, %5 ]
  ret i32 %22
}

; Function Attrs: nocallback nofree nosync nounwind speculatable willreturn memory(none)
declare i32 @llvm.smax.i32(i32, i32) #1

attributes #0 = { nofree norecurse nosync nounwind memory(read, inaccessiblemem: none) "no-builtins" "no-trapping-math"="true" "stack-protector-buffer-size"="8" "target-cpu"="generic-rv64" "target-features"="+64bit,+m,+relax,+zmmul,-a,-b,-c,-d,-e,-experimental-smmpm,-experimental-smnpm,-experimental-ssnpm,-experimental-sspm,-experimental-ssqosid,-experimental-supm,-experimental-zacas,-experimental-zalasr,-experimental-zicfilp,-experimental-zicfiss,-f,-h,-shcounterenw,-shgatpa,-shtvala,-shvsatpa,-shvstvala,-shvstvecd,-smaia,-smcdeleg,-smcsrind,-smepmp,-smstateen,-ssaia,-ssccfg,-ssccptr,-sscofpmf,-sscounterenw,-sscsrind,-ssstateen,-ssstrict,-sstc,-sstvala,-sstvecd,-ssu64xl,-svade,-svadu,-svbare,-svinval,-svnapot,-svpbmt,-v,-xcvalu,-xcvbi,-xcvbitmanip,-xcvelw,-xcvmac,-xcvmem,-xcvsimd,-xsfcease,-xsfvcp,-xsfvfnrclipxfqf,-xsfvfwmaccqqq,-xsfvqmaccdod,-xsfvqmaccqoq,-xsifivecdiscarddlone,-xsifivecflushdlone,-xtheadba,-xtheadbb,-xtheadbs,-xtheadcmo,-xtheadcondmov,-xtheadfmemidx,-xtheadmac,-xtheadmemidx,-xtheadmempair,-xtheadsync,-xtheadvdot,-xventanacondops,-xwchc,-za128rs,-za64rs,-zaamo,-zabha,-zalrsc,-zama16b,-zawrs,-zba,-zbb,-zbc,-zbkb,-zbkc,-zbkx,-zbs,-zca,-zcb,-zcd,-zce,-zcf,-zcmop,-zcmp,-zcmt,-zdinx,-zfa,-zfbfmin,-zfh,-zfhmin,-zfinx,-zhinx,-zhinxmin,-zic64b,-zicbom,-zicbop,-zicboz,-ziccamoa,-ziccif,-zicclsm,-ziccrse,-zicntr,-zicond,-zicsr,-zifencei,-zihintntl,-zihintpause,-zihpm,-zimop,-zk,-zkn,-zknd,-zkne,-zknh,-zkr,-zks,-zksed,-zksh,-zkt,-ztso,-zvbb,-zvbc,-zve32f,-zve32x,-zve64d,-zve64f,-zve64x,-zvfbfmin,-zvfbfwma,-zvfh,-zvfhmin,-zvkb,-zvkg,-zvkn,-zvknc,-zvkned,-zvkng,-zvknha,-zvknhb,-zvks,-zvksc,-zvksed,-zvksg,-zvksh,-zvkt,-zvl1024b,-zvl128b,-zvl16384b,-zvl2048b,-zvl256b,-zvl32768b,-zvl32b,-zvl4096b,-zvl512b,-zvl64b,-zvl65536b,-zvl8192b" }
attributes #1 = { nocallback nofree nosync nounwind speculatable willreturn memory(none) }

!llvm.module.flags = !{!0, !1, !2, !4, !5, !6}
!llvm.ident = !{!7}

!0 = !{i32 1, !"wchar_size", i32 4}
!1 = !{i32 1, !"target-abi", !"lp64"}
!2 = !{i32 6, !"riscv-isa", !3}
!3 = !{!"rv64i2p1_m2p0_zmmul1p0"}
!4 = !{i32 8, !"PIC Level", i32 2}
!5 = !{i32 7, !"PIE Level", i32 2}
!6 = !{i32 8, !"SmallDataLimit", i32 8}
!7 = !{!"Debian clang version 19.1.7 (3~deb12u1)"}
!8 = !{!9, !9, i64 0}
!9 = !{!"omnipotent char", !10, i64 0}
!10 = !{!"Simple C/C++ TBAA"}
!11 = distinct !{!11, !12, !13}
!12 = !{!"llvm.loop.mustprogress"}
!13 = !{!"llvm.loop.unroll.disable"}
!14 = distinct !{!14, !12, !13}
