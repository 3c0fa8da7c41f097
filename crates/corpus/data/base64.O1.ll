; ModuleID = 'base64.c'
source_filename = "base64.c"
target datalayout = "e-m:e-p:64:64-i64:64-i128:128-n32:64-S128"
target triple = "riscv64-unknown-linux-gnu"

@coded = internal unnamed_addr global [48 x i8] zeroinitializer, align 1
@in = internal unnamed_addr global [32 x i8] zeroinitializer, align 1
@back = internal unnamed_addr global [32 x i8] zeroinitializer, align 1
@alphabet = internal unnamed_addr constant [65 x i8] c"ABCDEFGHIJKLMNOPQRSTUVWXYZabcdefghijklmnopqrstuvwxyz0123456789+/\00", align 1

; Function Attrs: nofree norecurse nosync nounwind memory(readwrite, inaccessiblemem: none)
define dso_local i64 @coded_sum(i32 noundef signext %0, i32 noundef signext %1) local_unnamed_addr #0 {
  %3 = icmp sgt i32 %0, 0
  br i1 %3, label %4, label %16

4:                                                ; preds = %2
  %5 = zext nneg i32 %0 to i64
  br label %6

6:                                                ; preds = %6, %4
  %7 = phi i64 [ 0, %4 ], [ %14, %6 ]
  %8 = phi i32 [ %1, %4 ], [ %13, %6 ]
  %9 = lshr i32 %8, 8
  %10 = trunc i32 %9 to i8
  %11 = getelementptr inbounds [32 x i8], ptr @in, i64 0, i64 %7
  store i8 %10, ptr %11, align 1, !tbaa !8
  %12 = mul i32 %8, 69069
  %13 = add i32 %12, 5
  %14 = add nuw nsw i64 %7, 1
  %15 = icmp eq i64 %14, %5
  br i1 %15, label %16, label %6, !llvm.loop !11

16:                                               ; preds = %6, %2
  %17 = tail call fastcc signext i32 @encode(i32 noundef signext %0) #3
  %18 = sext i32 %17 to i64
  %19 = icmp sgt i32 %17, 0
  br i1 %19, label %20, label %22

20:                                               ; preds = %16
  %21 = zext nneg i32 %17 to i64
  br label %24

22:                                               ; preds = %24, %16
  %23 = phi i64 [ %18, %16 ], [ %31, %24 ]
  ret i64 %23

24:                                               ; preds = %20, %24
  %25 = phi i64 [ 0, %20 ], [ %32, %24 ]
  %26 = phi i64 [ %18, %20 ], [ %31, %24 ]
  %27 = mul i64 %26, 7
  %28 = getelementptr inbounds [48 x i8], ptr @coded, i64 0, i64 %25
  %29 = load i8, ptr %28, align 1, !tbaa !8
  %30 = zext i8 %29 to i64
  %31 = add i64 %27, %30
  %32 = add nuw nsw i64 %25, 1
  %33 = icmp eq i64 %32, %21
  br i1 %33, label %22, label %24, !llvm.loop !14
}

; Function Attrs: nofree norecurse nosync nounwind memory(readwrite, argmem: none, inaccessiblemem: none)
define internal fastcc signext i32 @encode(i32 noundef signext %0) unnamed_addr #1 {
  %2 = icmp sgt i32 %0, 0
  br i1 %2, label %3, label %9

3:                                                ; preds = %1
  %4 = zext nneg i32 %0 to i64
  %5 = zext nneg i32 %0 to i64
  %6 = zext nneg i32 %0 to i64
  br label %11

7:                                                ; preds = %65
  %8 = trunc nuw i64 %67 to i32
  br label %9

9:                                                ; preds = %7, %1
  %10 = phi i32 [ 0, %1 ], [ %8, %7 ]
  ret i32 %10

11:                                               ; preds = %3, %65
  %12 = phi i64 [ 0, %3 ], [ %67, %65 ]
  %13 = phi i64 [ 0, %3 ], [ %69, %65 ]
  %14 = getelementptr inbounds [32 x i8], ptr @in, i64 0, i64 %13
  %15 = load i8, ptr %14, align 1, !tbaa !8
  %16 = zext i8 %15 to i32
  %17 = shl nuw nsw i32 %16, 16
  %18 = add nuw nsw i64 %13, 1
  %19 = icmp ult i64 %18, %4
  br i1 %19, label %20, label %26

20:                                               ; preds = %11
  %21 = getelementptr inbounds [32 x i8], ptr @in, i64 0, i64 %18
  %22 = load i8, ptr %21, align 1, !tbaa !8
  %23 = zext i8 %22 to i32
  %24 = shl nuw nsw i32 %23, 8
  %25 = or disjoint i32 %24, %17
  br label %26

26:                                               ; preds = %20, %11
  %27 = phi i32 [ %25, %20 ], [ %17, %11 ]
  %28 = add nuw nsw i64 %13, 2
  %29 = icmp ult i64 %28, %5
  br i1 %29, label %30, label %35

30:                                               ; preds = %26
  %31 = getelementptr inbounds [32 x i8], ptr @in, i64 0, i64 %28
  %32 = load i8, ptr %31, align 1, !tbaa !8
  %33 = zext i8 %32 to i32
  %34 = or i32 %27, %33
  br label %35

35:                                               ; preds = %30, %26
  %36 = phi i32 [ %34, %30 ], [ %27, %26 ]
  %37 = lshr i32 %36, 18
  %38 = zext nneg i32 %37 to i64
  %39 = getelementptr inbounds [65 x i8], ptr @alphabet, i64 0, i64 %38
  %40 = load i8, ptr %39, align 1, !tbaa !8
  %41 = or disjoint i64 %12, 1
  %42 = getelementptr inbounds [48 x i8], ptr @coded, i64 0, i64 %12
  store i8 %40, ptr %42, align 1, !tbaa !8
  %43 = lshr i32 %36, 12
  %44 = and i32 %43, 63
  %45 = zext nneg i32 %44 to i64
  %46 = getelementptr inbounds [65 x i8], ptr @alphabet, i64 0, i64 %45
  %47 = load i8, ptr %46, align 1, !tbaa !8
  %48 = or disjoint i64 %12, 2
  %49 = getelementptr inbounds [48 x i8], ptr @coded, i64 0, i64 %41
  store i8 %47, ptr %49, align 1, !tbaa !8
  br i1 %19, label %50, label %56

50:                                               ; preds = %35
  %51 = lshr i32 %36, 6
  %52 = and i32 %51, 63
  %53 = zext nneg i32 %52 to i64
  %54 = getelementptr inbounds [65 x i8], ptr @alphabet, i64 0, i64 %53
  %55 = load i8, ptr %54, align 1, !tbaa !8
  br label %56

56:                                               ; preds = %35, %50
  %57 = phi i8 [ %55, %50 ], [ 61, %35 ]
  %58 = or disjoint i64 %12, 3
  %59 = getelementptr inbounds [48 x i8], ptr @coded, i64 0, i64 %48
  store i8 %57, ptr %59, align 1, !tbaa !8
  br i1 %29, label %60, label %65

60:                                               ; preds = %56
  %61 = and i32 %36, 63
  %62 = zext nneg i32 %61 to i64
  %63 = getelementptr inbounds [65 x i8], ptr @alphabet, i64 0, i64 %62
  %64 = load i8, ptr %63, align 1, !tbaa !8
  br label %65

65:                                               ; preds = %56, %60
  %66 = phi i8 [ %64, %60 ], [ 61, %56 ]
  %67 = add nuw nsw i64 %12, 4
  %68 = getelementptr inbounds [48 x i8], ptr @coded, i64 0, i64 %58
  store i8 %66, ptr %68, align 1, !tbaa !8
  %69 = add nuw nsw i64 %13, 3
  %70 = icmp ult i64 %69, %6
  br i1 %70, label %11, label %7, !llvm.loop !15
}

; Function Attrs: nofree norecurse nosync nounwind memory(readwrite, inaccessiblemem: none)
define dso_local signext i32 @comes_back(i32 noundef signext %0, i32 noundef signext %1) local_unnamed_addr #0 {
  %3 = icmp sgt i32 %0, 0
  br i1 %3, label %4, label %16

4:                                                ; preds = %2
  %5 = zext nneg i32 %0 to i64
  br label %6

6:                                                ; preds = %6, %4
  %7 = phi i64 [ 0, %4 ], [ %14, %6 ]
  %8 = phi i32 [ %1, %4 ], [ %13, %6 ]
  %9 = lshr i32 %8, 8
  %10 = trunc i32 %9 to i8
  %11 = getelementptr inbounds [32 x i8], ptr @in, i64 0, i64 %7
  store i8 %10, ptr %11, align 1, !tbaa !8
  %12 = mul i32 %8, 69069
  %13 = add i32 %12, 5
  %14 = add nuw nsw i64 %7, 1
  %15 = icmp eq i64 %14, %5
  br i1 %15, label %16, label %6, !llvm.loop !11

16:                                               ; preds = %6, %2
  %17 = tail call fastcc signext i32 @encode(i32 noundef signext %0) #3
  %18 = icmp sgt i32 %17, 0
  br i1 %18, label %19, label %153

19:                                               ; preds = %16
  %20 = zext nneg i32 %17 to i64
  br label %21

21:                                               ; preds = %149, %19
  %22 = phi i64 [ 0, %19 ], [ %151, %149 ]
  %23 = phi i32 [ 0, %19 ], [ %150, %149 ]
  %24 = getelementptr inbounds [48 x i8], ptr @coded, i64 0, i64 %22
  %25 = load i8, ptr %24, align 1, !tbaa !8
  %26 = zext i8 %25 to i32
  %27 = add i8 %25, -65
  %28 = icmp ult i8 %27, 26
  br i1 %28, label %29, label %31

29:                                               ; preds = %21
  %30 = add nsw i32 %26, -65
  br label %46

31:                                               ; preds = %21
  %32 = add i8 %25, -97
  %33 = icmp ult i8 %32, 26
  br i1 %33, label %34, label %36

34:                                               ; preds = %31
  %35 = add nsw i32 %26, -71
  br label %46

36:                                               ; preds = %31
  %37 = add i8 %25, -48
  %38 = icmp ult i8 %37, 10
  br i1 %38, label %39, label %41

39:                                               ; preds = %36
  %40 = add nuw nsw i32 %26, 4
  br label %46

41:                                               ; preds = %36
  %42 = icmp eq i8 %25, 47
  %43 = select i1 %42, i32 63, i32 -1
  %44 = icmp eq i8 %25, 43
  %45 = select i1 %44, i32 62, i32 %43
  br label %46

46:                                               ; preds = %41, %39, %34, %29
  %47 = phi i32 [ %30, %29 ], [ %35, %34 ], [ %40, %39 ], [ %45, %41 ]
  %48 = or disjoint i64 %22, 1
  %49 = getelementptr inbounds [48 x i8], ptr @coded, i64 0, i64 %48
  %50 = load i8, ptr %49, align 1, !tbaa !8
  %51 = zext i8 %50 to i32
  %52 = add i8 %50, -65
  %53 = icmp ult i8 %52, 26
  br i1 %53, label %54, label %56

54:                                               ; preds = %46
  %55 = add nsw i32 %51, -65
  br label %71

56:                                               ; preds = %46
  %57 = add i8 %50, -97
  %58 = icmp ult i8 %57, 26
  br i1 %58, label %59, label %61

59:                                               ; preds = %56
  %60 = add nsw i32 %51, -71
  br label %71

61:                                               ; preds = %56
  %62 = add i8 %50, -48
  %63 = icmp ult i8 %62, 10
  br i1 %63, label %64, label %66

64:                                               ; preds = %61
  %65 = add nuw nsw i32 %51, 4
  br label %71

66:                                               ; preds = %61
  %67 = icmp eq i8 %50, 47
  %68 = select i1 %67, i32 63, i32 -1
  %69 = icmp eq i8 %50, 43
  %70 = select i1 %69, i32 62, i32 %68
  br label %71

71:                                               ; preds = %66, %64, %59, %54
  %72 = phi i32 [ %55, %54 ], [ %60, %59 ], [ %65, %64 ], [ %70, %66 ]
  %73 = or disjoint i64 %22, 2
  %74 = getelementptr inbounds [48 x i8], ptr @coded, i64 0, i64 %73
  %75 = load i8, ptr %74, align 1, !tbaa !8
  %76 = zext i8 %75 to i32
  %77 = add i8 %75, -65
  %78 = icmp ult i8 %77, 26
  br i1 %78, label %79, label %81

79:                                               ; preds = %71
  %80 = add nsw i32 %76, -65
  br label %96

81:                                               ; preds = %71
  %82 = add i8 %75, -97
  %83 = icmp ult i8 %82, 26
  br i1 %83, label %84, label %86

84:                                               ; preds = %81
  %85 = add nsw i32 %76, -71
  br label %96

86:                                               ; preds = %81
  %87 = add i8 %75, -48
  %88 = icmp ult i8 %87, 10
  br i1 %88, label %89, label %91

89:                                               ; preds = %86
  %90 = add nuw nsw i32 %76, 4
  br label %96

91:                                               ; preds = %86
  %92 = icmp eq i8 %75, 47
  %93 = select i1 %92, i32 63, i32 -1
  %94 = icmp eq i8 %75, 43
  %95 = select i1 %94, i32 62, i32 %93
  br label %96

96:                                               ; preds = %91, %89, %84, %79
  %97 = phi i32 [ %80, %79 ], [ %85, %84 ], [ %90, %89 ], [ %95, %91 ]
  %98 = or disjoint i64 %22, 3
  %99 = getelementptr inbounds [48 x i8], ptr @coded, i64 0, i64 %98
  %100 = load i8, ptr %99, align 1, !tbaa !8
  %101 = zext i8 %100 to i32
  %102 = add i8 %100, -65
  %103 = icmp ult i8 %102, 26
  br i1 %103, label %104, label %106

104:                                              ; preds = %96
  %105 = add nsw i32 %101, -65
  br label %121

106:                                              ; preds = %96
  %107 = add i8 %100, -97
  %108 = icmp ult i8 %107, 26
  br i1 %108, label %109, label %111

109:                                              ; preds = %106
  %110 = add nsw i32 %101, -71
  br label %121

111:                                              ; preds = %106
  %112 = add i8 %100, -48
  %113 = icmp ult i8 %112, 10
  br i1 %113, label %114, label %116

114:                                              ; preds = %111
  %115 = add nuw nsw i32 %101, 4
  br label %121

116:                                              ; preds = %111
  %117 = icmp eq i8 %100, 47
  %118 = select i1 %117, i32 63, i32 -1
  %119 = icmp eq i8 %100, 43
  %120 = select i1 %119, i32 62, i32 %118
  br label %121

121:                                              ; preds = %116, %114, %109, %104
  %122 = phi i32 [ %105, %104 ], [ %110, %109 ], [ %115, %114 ], [ %120, %116 ]
  %123 = shl nsw i32 %47, 2
  %124 = lshr i32 %72, 4
  %125 = or i32 %124, %123
  %126 = trunc i32 %125 to i8
  %127 = add nsw i32 %23, 1
  %128 = sext i32 %23 to i64
  %129 = getelementptr inbounds [32 x i8], ptr @back, i64 0, i64 %128
  store i8 %126, ptr %129, align 1, !tbaa !8
  %130 = icmp sgt i32 %97, -1
  br i1 %130, label %131, label %139

131:                                              ; preds = %121
  %132 = shl nsw i32 %72, 4
  %133 = lshr i32 %97, 2
  %134 = or i32 %133, %132
  %135 = trunc i32 %134 to i8
  %136 = add nsw i32 %23, 2
  %137 = sext i32 %127 to i64
  %138 = getelementptr inbounds [32 x i8], ptr @back, i64 0, i64 %137
  store i8 %135, ptr %138, align 1, !tbaa !8
  br label %139

139:                                              ; preds = %131, %121
  %140 = phi i32 [ %136, %131 ], [ %127, %121 ]
  %141 = icmp sgt i32 %122, -1
  br i1 %141, label %142, label %149

142:                                              ; preds = %139
  %143 = shl nsw i32 %97, 6
  %144 = or i32 %122, %143
  %145 = trunc i32 %144 to i8
  %146 = add nsw i32 %140, 1
  %147 = sext i32 %140 to i64
  %148 = getelementptr inbounds [32 x i8], ptr @back, i64 0, i64 %147
  store i8 %145, ptr %148, align 1, !tbaa !8
  br label %149

149:                                              ; preds = %142, %139
  %150 = phi i32 [ %146, %142 ], [ %140, %139 ]
  %151 = add nuw nsw i64 %22, 4
  %152 = icmp ult i64 %151, %20
  br i1 %152, label %21, label %153, !llvm.loop !16

153:                                              ; preds = %149, %16
  %154 = phi i32 [ 0, %16 ], [ %150, %149 ]
  %155 = icmp eq i32 %154, %0
  br i1 %155, label %156, label %175

156:                                              ; preds = %153
  %157 = icmp sgt i32 %0, 0
  br i1 %157, label %158, label %172

158:                                              ; preds = %156
  %159 = zext nneg i32 %0 to i64
  br label %160

160:                                              ; preds = %158, %167
  %161 = phi i64 [ 0, %158 ], [ %168, %167 ]
  %162 = getelementptr inbounds [32 x i8], ptr @in, i64 0, i64 %161
  %163 = load i8, ptr %162, align 1, !tbaa !8
  %164 = getelementptr inbounds [32 x i8], ptr @back, i64 0, i64 %161
  %165 = load i8, ptr %164, align 1, !tbaa !8
  %166 = icmp eq i8 %163, %165
  br i1 %166, label %167, label %170

167:                                              ; preds = %160
  %168 = add nuw nsw i64 %161, 1
  %169 = icmp eq i64 %168, %159
  br i1 %169, label %172, label %160, !llvm.loop !17

170:                                              ; preds = %160
  %171 = trunc nuw nsw i64 %161 to i32
  br label %172

172:                                              ; preds = %170, %167, %156
  %173 = phi i32 [ 0, %156 ], [ %171, %170 ], [ %0, %167 ]
  %174 = tail call i32 @llvm.smin.i32(i32 %173, i32 %0)
  br label %175

175:                                              ; preds = %172, %153
  %176 = phi i32 [ -1, %153 ], [ %174, %172 ]
  ret i32 %176
}

; Function Attrs: nocallback nofree nosync nounwind speculatable willreturn memory(none)
declare i32 @llvm.smin.i32(i32, i32) #2

attributes #0 = { nofree norecurse nosync nounwind memory(readwrite, inaccessiblemem: none) "no-builtins" "no-trapping-math"="true" "stack-protector-buffer-size"="8" "target-cpu"="generic-rv64" "target-features"="+64bit,+m,+relax,+zmmul,-a,-b,-c,-d,-e,-experimental-smmpm,-experimental-smnpm,-experimental-ssnpm,-experimental-sspm,-experimental-ssqosid,-experimental-supm,-experimental-zacas,-experimental-zalasr,-experimental-zicfilp,-experimental-zicfiss,-f,-h,-shcounterenw,-shgatpa,-shtvala,-shvsatpa,-shvstvala,-shvstvecd,-smaia,-smcdeleg,-smcsrind,-smepmp,-smstateen,-ssaia,-ssccfg,-ssccptr,-sscofpmf,-sscounterenw,-sscsrind,-ssstateen,-ssstrict,-sstc,-sstvala,-sstvecd,-ssu64xl,-svade,-svadu,-svbare,-svinval,-svnapot,-svpbmt,-v,-xcvalu,-xcvbi,-xcvbitmanip,-xcvelw,-xcvmac,-xcvmem,-xcvsimd,-xsfcease,-xsfvcp,-xsfvfnrclipxfqf,-xsfvfwmaccqqq,-xsfvqmaccdod,-xsfvqmaccqoq,-xsifivecdiscarddlone,-xsifivecflushdlone,-xtheadba,-xtheadbb,-xtheadbs,-xtheadcmo,-xtheadcondmov,-xtheadfmemidx,-xtheadmac,-xtheadmemidx,-xtheadmempair,-xtheadsync,-xtheadvdot,-xventanacondops,-xwchc,-za128rs,-za64rs,-zaamo,-zabha,-zalrsc,-zama16b,-zawrs,-zba,-zbb,-zbc,-zbkb,-zbkc,-zbkx,-zbs,-zca,-zcb,-zcd,-zce,-zcf,-zcmop,-zcmp,-zcmt,-zdinx,-zfa,-zfbfmin,-zfh,-zfhmin,-zfinx,-zhinx,-zhinxmin,-zic64b,-zicbom,-zicbop,-zicboz,-ziccamoa,-ziccif,-zicclsm,-ziccrse,-zicntr,-zicond,-zicsr,-zifencei,-zihintntl,-zihintpause,-zihpm,-zimop,-zk,-zkn,-zknd,-zkne,-zknh,-zkr,-zks,-zksed,-zksh,-zkt,-ztso,-zvbb,-zvbc,-zve32f,-zve32x,-zve64d,-zve64f,-zve64x,-zvfbfmin,-zvfbfwma,-zvfh,-zvfhmin,-zvkb,-zvkg,-zvkn,-zvknc,-zvkned,-zvkng,-zvknha,-zvknhb,-zvks,-zvksc,-zvksed,-zvksg,-zvksh,-zvkt,-zvl1024b,-zvl128b,-zvl16384b,-zvl2048b,-zvl256b,-zvl32768b,-zvl32b,-zvl4096b,-zvl512b,-zvl64b,-zvl65536b,-zvl8192b" }
attributes #1 = { nofree norecurse nosync nounwind memory(readwrite, argmem: none, inaccessiblemem: none) "no-builtins" "no-trapping-math"="true" "stack-protector-buffer-size"="8" "target-cpu"="generic-rv64" "target-features"="+64bit,+m,+relax,+zmmul,-a,-b,-c,-d,-e,-experimental-smmpm,-experimental-smnpm,-experimental-ssnpm,-experimental-sspm,-experimental-ssqosid,-experimental-supm,-experimental-zacas,-experimental-zalasr,-experimental-zicfilp,-experimental-zicfiss,-f,-h,-shcounterenw,-shgatpa,-shtvala,-shvsatpa,-shvstvala,-shvstvecd,-smaia,-smcdeleg,-smcsrind,-smepmp,-smstateen,-ssaia,-ssccfg,-ssccptr,-sscofpmf,-sscounterenw,-sscsrind,-ssstateen,-ssstrict,-sstc,-sstvala,-sstvecd,-ssu64xl,-svade,-svadu,-svbare,-svinval,-svnapot,-svpbmt,-v,-xcvalu,-xcvbi,-xcvbitmanip,-xcvelw,-xcvmac,-xcvmem,-xcvsimd,-xsfcease,-xsfvcp,-xsfvfnrclipxfqf,-xsfvfwmaccqqq,-xsfvqmaccdod,-xsfvqmaccqoq,-xsifivecdiscarddlone,-xsifivecflushdlone,-xtheadba,-xtheadbb,-xtheadbs,-xtheadcmo,-xtheadcondmov,-xtheadfmemidx,-xtheadmac,-xtheadmemidx,-xtheadmempair,-xtheadsync,-xtheadvdot,-xventanacondops,-xwchc,-za128rs,-za64rs,-zaamo,-zabha,-zalrsc,-zama16b,-zawrs,-zba,-zbb,-zbc,-zbkb,-zbkc,-zbkx,-zbs,-zca,-zcb,-zcd,-zce,-zcf,-zcmop,-zcmp,-zcmt,-zdinx,-zfa,-zfbfmin,-zfh,-zfhmin,-zfinx,-zhinx,-zhinxmin,-zic64b,-zicbom,-zicbop,-zicboz,-ziccamoa,-ziccif,-zicclsm,-ziccrse,-zicntr,-zicond,-zicsr,-zifencei,-zihintntl,-zihintpause,-zihpm,-zimop,-zk,-zkn,-zknd,-zkne,-zknh,-zkr,-zks,-zksed,-zksh,-zkt,-ztso,-zvbb,-zvbc,-zve32f,-zve32x,-zve64d,-zve64f,-zve64x,-zvfbfmin,-zvfbfwma,-zvfh,-zvfhmin,-zvkb,-zvkg,-zvkn,-zvknc,-zvkned,-zvkng,-zvknha,-zvknhb,-zvks,-zvksc,-zvksed,-zvksg,-zvksh,-zvkt,-zvl1024b,-zvl128b,-zvl16384b,-zvl2048b,-zvl256b,-zvl32768b,-zvl32b,-zvl4096b,-zvl512b,-zvl64b,-zvl65536b,-zvl8192b" }
attributes #2 = { nocallback nofree nosync nounwind speculatable willreturn memory(none) }
attributes #3 = { nobuiltin "no-builtins" }

!llvm.module.flags = !{!0, !1, !2, !4, !5, !6}
!llvm.ident = !{!7}

!0 = !{i32 1, !"wchar_size", i32 4}
!1 = !{i32 1, !"target-abi", !"lp64"}
!2 = !{i32 6, !"riscv-isa", !3}
!3 = !{!"rv64i2p1_m2p0_zmmul1p0"}
!4 = !{i32 8, !"PIC Level", i32 2}
!5 = !{i32 7, !"PIE Level", i32 2}
!6 = !{i32 8, !"SmallDataLimit", i32 8}
!7 = !{!"Debian clang version 19.1.7 (3~deb12u1)"}
!8 = !{!9, !9, i64 0}
!9 = !{!"omnipotent char", !10, i64 0}
!10 = !{!"Simple C/C++ TBAA"}
!11 = distinct !{!11, !12, !13}
!12 = !{!"llvm.loop.mustprogress"}
!13 = !{!"llvm.loop.unroll.disable"}
!14 = distinct !{!14, !12, !13}
!15 = distinct !{!15, !12, !13}
!16 = distinct !{!16, !12, !13}
!17 = distinct !{!17, !12, !13}
