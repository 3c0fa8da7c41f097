; ModuleID = 'stack.c'
source_filename = "stack.c"
target datalayout = "e-m:e-p:64:64-i64:64-i128:128-n32:64-S128"
target triple = "riscv64-unknown-linux-gnu"

@programs = internal constant [3 x ptr] [ptr @sums, ptr @countdown, ptr @cube], align 8
@sums = internal constant [18 x i8] c"\00\00\08\07\10\01\05\00\FF\01\05\06\02\0A\0A\0A\09\0A", align 1
@countdown = internal constant [9 x i8] c"\04\07\08\00\FF\01\06\00\0A", align 1
@cube = internal constant [5 x i8] c"\04\04\03\03\0A", align 1

; Function Attrs: noinline nounwind optnone
define dso_local i64 @ran(i32 noundef signext %0, i64 noundef %1, i32 noundef signext %2) #0 {
  %4 = alloca i64, align 8
  %5 = alloca i32, align 4
  %6 = alloca i64, align 8
  %7 = alloca i32, align 4
  %8 = alloca ptr, align 8
  %9 = alloca [16 x i64], align 8
  %10 = alloca i32, align 4
  %11 = alloca i32, align 4
  %12 = alloca i64, align 8
  store i32 %0, ptr %5, align 4
  store i64 %1, ptr %6, align 8
  store i32 %2, ptr %7, align 4
  %13 = load i32, ptr %5, align 4
  %14 = icmp ugt i32 %13, 2
  br i1 %14, label %15, label %16

15:                                               ; preds = %3
  store i64 -1, ptr %4, align 8
  br label %172

16:                                               ; preds = %3
  %17 = load i32, ptr %5, align 4
  %18 = zext i32 %17 to i64
  %19 = getelementptr inbounds [3 x ptr], ptr @programs, i64 0, i64 %18
  %20 = load ptr, ptr %19, align 8
  store ptr %20, ptr %8, align 8
  store i32 0, ptr %10, align 4
  store i32 0, ptr %11, align 4
  %21 = load i64, ptr %6, align 8
  %22 = load i32, ptr %10, align 4
  %23 = add nsw i32 %22, 1
  store i32 %23, ptr %10, align 4
  %24 = sext i32 %22 to i64
  %25 = getelementptr inbounds [16 x i64], ptr %9, i64 0, i64 %24
  store i64 %21, ptr %25, align 8
  br label %26

26:                                               ; preds = %170, %16
  %27 = load i32, ptr %7, align 4
  %28 = add nsw i32 %27, -1
  store i32 %28, ptr %7, align 4
  %29 = icmp sgt i32 %27, 0
  br i1 %29, label %30, label %171

30:                                               ; preds = %26
  %31 = load ptr, ptr %8, align 8
  %32 = load i32, ptr %11, align 4
  %33 = add nsw i32 %32, 1
  store i32 %33, ptr %11, align 4
  %34 = sext i32 %32 to i64
  %35 = getelementptr inbounds i8, ptr %31, i64 %34
  %36 = load i8, ptr %35, align 1
  %37 = sext i8 %36 to i32
  switch i32 %37, label %169 [
    i32 0, label %38
    i32 1, label %50
    i32 2, label %63
    i32 3, label %76
    i32 4, label %89
    i32 8, label %100
    i32 9, label %111
    i32 5, label %114
    i32 6, label %134
    i32 7, label %141
    i32 10, label %159
  ]

38:                                               ; preds = %30
  %39 = load ptr, ptr %8, align 8
  %40 = load i32, ptr %11, align 4
  %41 = add nsw i32 %40, 1
  store i32 %41, ptr %11, align 4
  %42 = sext i32 %40 to i64
  %43 = getelementptr inbounds i8, ptr %39, i64 %42
  %44 = load i8, ptr %43, align 1
  %45 = sext i8 %44 to i64
  %46 = load i32, ptr %10, align 4
  %47 = add nsw i32 %46, 1
  store i32 %47, ptr %10, align 4
  %48 = sext i32 %46 to i64
  %49 = getelementptr inbounds [16 x i64], ptr %9, i64 0, i64 %48
  store i64 %45, ptr %49, align 8
  br label %170

50:                                               ; preds = %30
  %51 = load i32, ptr %10, align 4
  %52 = add nsw i32 %51, -1
  store i32 %52, ptr %10, align 4
  %53 = load i32, ptr %10, align 4
  %54 = sext i32 %53 to i64
  %55 = getelementptr inbounds [16 x i64], ptr %9, i64 0, i64 %54
  %56 = load i64, ptr %55, align 8
  %57 = load i32, ptr %10, align 4
  %58 = sub nsw i32 %57, 1
  %59 = sext i32 %58 to i64
  %60 = getelementptr inbounds [16 x i64], ptr %9, i64 0, i64 %59
  %61 = load i64, ptr %60, align 8
  %62 = add nsw i64 %61, %56
  store i64 %62, ptr %60, align 8
  br label %170

63:                                               ; preds = %30
  %64 = load i32, ptr %10, align 4
  %65 = add nsw i32 %64, -1
  store i32 %65, ptr %10, align 4
  %66 = load i32, ptr %10, align 4
  %67 = sext i32 %66 to i64
  %68 = getelementptr inbounds [16 x i64], ptr %9, i64 0, i64 %67
  %69 = load i64, ptr %68, align 8
  %70 = load i32, ptr %10, align 4
  %71 = sub nsw i32 %70, 1
  %72 = sext i32 %71 to i64
  %73 = getelementptr inbounds [16 x i64], ptr %9, i64 0, i64 %72
  %74 = load i64, ptr %73, align 8
  %75 = sub nsw i64 %74, %69
  store i64 %75, ptr %73, align 8
  br label %170

76:                                               ; preds = %30
  %77 = load i32, ptr %10, align 4
  %78 = add nsw i32 %77, -1
  store i32 %78, ptr %10, align 4
  %79 = load i32, ptr %10, align 4
  %80 = sext i32 %79 to i64
  %81 = getelementptr inbounds [16 x i64], ptr %9, i64 0, i64 %80
  %82 = load i64, ptr %81, align 8
  %83 = load i32, ptr %10, align 4
  %84 = sub nsw i32 %83, 1
  %85 = sext i32 %84 to i64
  %86 = getelementptr inbounds [16 x i64], ptr %9, i64 0, i64 %85
  %87 = load i64, ptr %86, align 8
  %88 = mul nsw i64 %87, %82
  store i64 %88, ptr %86, align 8
  br label %170

89:                                               ; preds = %30
  %90 = load i32, ptr %10, align 4
  %91 = sub nsw i32 %90, 1
  %92 = sext i32 %91 to i64
  %93 = getelementptr inbounds [16 x i64], ptr %9, i64 0, i64 %92
  %94 = load i64, ptr %93, align 8
  %95 = load i32, ptr %10, align 4
  %96 = sext i32 %95 to i64
  %97 = getelementptr inbounds [16 x i64], ptr %9, i64 0, i64 %96
  store i64 %94, ptr %97, align 8
  %98 = load i32, ptr %10, align 4
  %99 = add nsw i32 %98, 1
  store i32 %99, ptr %10, align 4
  br label %170

100:                                              ; preds = %30
  %101 = load i32, ptr %10, align 4
  %102 = sub nsw i32 %101, 2
  %103 = sext i32 %102 to i64
  %104 = getelementptr inbounds [16 x i64], ptr %9, i64 0, i64 %103
  %105 = load i64, ptr %104, align 8
  %106 = load i32, ptr %10, align 4
  %107 = sext i32 %106 to i64
  %108 = getelementptr inbounds [16 x i64], ptr %9, i64 0, i64 %107
  store i64 %105, ptr %108, align 8
  %109 = load i32, ptr %10, align 4
  %110 = add nsw i32 %109, 1
  store i32 %110, ptr %10, align 4
  br label %170

111:                                              ; preds = %30
  %112 = load i32, ptr %10, align 4
  %113 = add nsw i32 %112, -1
  store i32 %113, ptr %10, align 4
  br label %170

114:                                              ; preds = %30
  %115 = load i32, ptr %10, align 4
  %116 = sub nsw i32 %115, 1
  %117 = sext i32 %116 to i64
  %118 = getelementptr inbounds [16 x i64], ptr %9, i64 0, i64 %117
  %119 = load i64, ptr %118, align 8
  store i64 %119, ptr %12, align 8
  %120 = load i32, ptr %10, align 4
  %121 = sub nsw i32 %120, 2
  %122 = sext i32 %121 to i64
  %123 = getelementptr inbounds [16 x i64], ptr %9, i64 0, i64 %122
  %124 = load i64, ptr %123, align 8
  %125 = load i32, ptr %10, align 4
  %126 = sub nsw i32 %125, 1
  %127 = sext i32 %126 to i64
  %128 = getelementptr inbounds [16 x i64], ptr %9, i64 0, i64 %127
  store i64 %124, ptr %128, align 8
  %129 = load i64, ptr %12, align 8
  %130 = load i32, ptr %10, align 4
  %131 = sub nsw i32 %130, 2
  %132 = sext i32 %131 to i64
  %133 = getelementptr inbounds [16 x i64], ptr %9, i64 0, i64 %132
  store i64 %129, ptr %133, align 8
  br label %170

134:                                              ; preds = %30
  %135 = load ptr, ptr %8, align 8
  %136 = load i32, ptr %11, align 4
  %137 = sext i32 %136 to i64
  %138 = getelementptr inbounds i8, ptr %135, i64 %137
  %139 = load i8, ptr %138, align 1
  %140 = sext i8 %139 to i32
  store i32 %140, ptr %11, align 4
  br label %170

141:                                              ; preds = %30
  %142 = load i32, ptr %10, align 4
  %143 = sub nsw i32 %142, 1
  %144 = sext i32 %143 to i64
  %145 = getelementptr inbounds [16 x i64], ptr %9, i64 0, i64 %144
  %146 = load i64, ptr %145, align 8
  %147 = icmp eq i64 %146, 0
  br i1 %147, label %148, label %155

148:                                              ; preds = %141
  %149 = load ptr, ptr %8, align 8
  %150 = load i32, ptr %11, align 4
  %151 = sext i32 %150 to i64
  %152 = getelementptr inbounds i8, ptr %149, i64 %151
  %153 = load i8, ptr %152, align 1
  %154 = sext i8 %153 to i32
  store i32 %154, ptr %11, align 4
  br label %158

155:                                              ; preds = %141
  %156 = load i32, ptr %11, align 4
  %157 = add nsw i32 %156, 1
  store i32 %157, ptr %11, align 4
  br label %158

158:                                              ; preds = %155, %148
  br label %170

159:                                              ; preds = %30
  %160 = load i32, ptr %10, align 4
  %161 = sub nsw i32 %160, 1
  %162 = sext i32 %161 to i64
  %163 = getelementptr inbounds [16 x i64], ptr %9, i64 0, i64 %162
  %164 = load i64, ptr %163, align 8
  %165 = mul nsw i64 %164, 100
  %166 = load i32, ptr %10, align 4
  %167 = sext i32 %166 to i64
  %168 = add nsw i64 %165, %167
  store i64 %168, ptr %4, align 8
  br label %172

169:                                              ; preds = %30
  store i64 -2, ptr %4, align 8
  br label %172

170:                                              ; preds = %158, %134, %114, %111, %100, %89, %76, %63, %50, %38
  br label %26, !llvm.loop !9

171:                                              ; preds = %26
  store i64 -3, ptr %4, align 8
  br label %172

172:                                              ; preds = %171, %169, %159, %15
  %173 = load i64, ptr %4, align 8
  ret i64 %173
}

attributes #0 = { noinline nounwind optnone "frame-pointer"="all" "no-builtins" "no-trapping-math"="true" "stack-protector-buffer-size"="8" "target-cpu"="generic-rv64" "target-features"="+64bit,+m,+relax,+zmmul,-a,-b,-c,-d,-e,-experimental-smmpm,-experimental-smnpm,-experimental-ssnpm,-experimental-sspm,-experimental-ssqosid,-experimental-supm,-experimental-zacas,-experimental-zalasr,-experimental-zicfilp,-experimental-zicfiss,-f,-h,-shcounterenw,-shgatpa,-shtvala,-shvsatpa,-shvstvala,-shvstvecd,-smaia,-smcdeleg,-smcsrind,-smepmp,-smstateen,-ssaia,-ssccfg,-ssccptr,-sscofpmf,-sscounterenw,-sscsrind,-ssstateen,-ssstrict,-sstc,-sstvala,-sstvecd,-ssu64xl,-svade,-svadu,-svbare,-svinval,-svnapot,-svpbmt,-v,-xcvalu,-xcvbi,-xcvbitmanip,-xcvelw,-xcvmac,-xcvmem,-xcvsimd,-xsfcease,-xsfvcp,-xsfvfnrclipxfqf,-xsfvfwmaccqqq,-xsfvqmaccdod,-xsfvqmaccqoq,-xsifivecdiscarddlone,-xsifivecflushdlone,-xtheadba,-xtheadbb,-xtheadbs,-xtheadcmo,-xtheadcondmov,-xtheadfmemidx,-xtheadmac,-xtheadmemidx,-xtheadmempair,-xtheadsync,-xtheadvdot,-xventanacondops,-xwchc,-za128rs,-za64rs,-zaamo,-zabha,-zalrsc,-zama16b,-zawrs,-zba,-zbb,-zbc,-zbkb,-zbkc,-zbkx,-zbs,-zca,-zcb,-zcd,-zce,-zcf,-zcmop,-zcmp,-zcmt,-zdinx,-zfa,-zfbfmin,-zfh,-zfhmin,-zfinx,-zhinx,-zhinxmin,-zic64b,-zicbom,-zicbop,-zicboz,-ziccamoa,-ziccif,-zicclsm,-ziccrse,-zicntr,-zicond,-zicsr,-zifencei,-zihintntl,-zihintpause,-zihpm,-zimop,-zk,-zkn,-zknd,-zkne,-zknh,-zkr,-zks,-zksed,-zksh,-zkt,-ztso,-zvbb,-zvbc,-zve32f,-zve32x,-zve64d,-zve64f,-zve64x,-zvfbfmin,-zvfbfwma,-zvfh,-zvfhmin,-zvkb,-zvkg,-zvkn,-zvknc,-zvkned,-zvkng,-zvknha,-zvknhb,-zvks,-zvksc,-zvksed,-zvksg,-zvksh,-zvkt,-zvl1024b,-zvl128b,-zvl16384b,-zvl2048b,-zvl256b,-zvl32768b,-zvl32b,-zvl4096b,-zvl512b,-zvl64b,-zvl65536b,-zvl8192b" }

!llvm.module.flags = !{!0, !1, !2, !4, !5, !6, !7}
!llvm.ident = !{!8}

!0 = !{i32 1, !"wchar_size", i32 4}
!1 = !{i32 1, !"target-abi", !"lp64"}
!2 = !{i32 6, !"riscv-isa", !3}
!3 = !{!"rv64i2p1_m2p0_zmmul1p0"}
!4 = !{i32 8, !"PIC Level", i32 2}
!5 = !{i32 7, !"PIE Level", i32 2}
!6 = !{i32 7, !"frame-pointer", i32 2}
!7 = !{i32 8, !"SmallDataLimit", i32 8}
!8 = !{!"Debian clang version 19.1.7 (3~deb12u1)"}
!9 = distinct !{!9, !10}
!10 = !{!"llvm.loop.mustprogress"}
