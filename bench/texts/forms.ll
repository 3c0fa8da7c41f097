; ModuleID = 'forms.c'
; Forms of LLVM 15 to 19 that the C files beside this text don't bring about.
source_filename = "forms.c"
target datalayout = "e-m:e-p:64:64-i64:64-i128:128-n32:64-S128"
target triple = "riscv64-unknown-linux-gnu"

%struct.node = type { ptr, i64, [13 x i8], i16 }
%struct.tight = type <{ i8, i32 }>
%union.any = type { i64 }
%struct.hidden = type opaque
%"struct.a b" = type { %struct.node, %union.any }

$inline_one = comdat any

@.str = private unnamed_addr constant [6 x i8] c"a\\b\22\0A\00", align 1
@first = internal global %struct.node { ptr @last, i64 7, [13 x i8] c"hello\00\00\00\00\00\00\00\00", i16 1 }, align 8, !dbg !0
@last = internal global %struct.node { ptr null, i64 -5, [13 x i8] zeroinitializer, i16 3 }, align 8
@tights = internal global [2 x %struct.tight] [%struct.tight <{ i8 1, i32 2 }>, %struct.tight <{ i8 3, i32 4 }>], align 1
@into = dso_local local_unnamed_addr global ptr getelementptr inbounds (%struct.node, ptr @first, i32 0, i32 2, i64 3), align 8
@nested = dso_local global ptr getelementptr inbounds nuw (i8, ptr getelementptr inbounds ([2 x %struct.tight], ptr @tights, i64 0, i64 1), i64 1), align 8
@table = linkonce_odr hidden constant [2 x ptr] [ptr @.str, ptr null], comdat($inline_one), align 16
@placed = dso_local global i32 0, section ".data.mine", align 4
@"odd name" = dso_local global { i32, [0 x i8], {} } { i32 1, [0 x i8] zeroinitializer, {} zeroinitializer }, align 4
@0 = private constant i8 -1

; Function Attrs: mustprogress nofree norecurse nosync nounwind willreturn memory(none) uwtable
define dso_local noundef zeroext range(i8 0, 3) i8 @flags(i32 noundef signext %0, i64 noundef %1) local_unnamed_addr #0 !dbg !10 {
    #dbg_value(i32 %0, !15, !DIExpression(), !16)
    #dbg_declare(ptr poison, !15, !DIExpression(DW_OP_plus_uconst, 8), !16)
  %3 = trunc nuw nsw i64 %1 to i32
  %4 = zext nneg i32 %3 to i64, !dbg !17
  %5 = or disjoint i64 %4, 1
  %6 = lshr exact i64 %5, 1
  %7 = shl nuw nsw i64 %6, 2
  %8 = icmp samesign ult i64 %7, 10
  %9 = udiv exact i64 %7, 4
  %10 = select i1 %8, i64 %9, i64 -1, !prof !20
  %11 = tail call range(i64 0, -9223372036854775808) i64 @llvm.abs.i64(i64 %10, i1 true)
  %12 = tail call i64 @llvm.umin.i64(i64 %11, i64 2), !range !21
  %13 = trunc i64 %12 to i8
  ret i8 %13, !dbg !18
}

define dso_local void @memory(ptr nocapture noundef writeonly %dst, ptr noalias nocapture noundef readonly captures(none) dereferenceable(16) %src, i64 noundef %n) unnamed_addr #1 comdat($inline_one) align 2 {
entry:
  %local = alloca [16 x i8], align 16
  %other = alloca %"struct.a b", i64 2, align 8
  call void @llvm.lifetime.start.p0(i64 16, ptr nonnull %local) #3
  tail call void @llvm.memcpy.p0.p0.i64(ptr align 1 %dst, ptr align 1 %src, i64 %n, i1 false), !tbaa.struct !22
  call void @llvm.memmove.p0.p0.i32(ptr %local, ptr @.str, i32 6, i1 false)
  call void @llvm.memset.p0.i64(ptr noundef nonnull align 16 dereferenceable(16) %local, i8 0, i64 16, i1 false), !dbg !19
  %field = getelementptr inbounds nuw %"struct.a b", ptr %other, i64 1, i32 0, i32 2, i64 4
  store i8 7, ptr %field, align 4, !tbaa !23, !alias.scope !25
  %cond = icmp ne ptr %dst, null
  call void @llvm.assume(i1 %cond) [ "align"(ptr %dst, i64 8) ]
  tail call void @llvm.experimental.noalias.scope.decl(metadata !25)
  call void @llvm.dbg.value(metadata i64 %n, metadata !15, metadata !DIExpression()), !dbg !19
  call void @llvm.lifetime.end.p0(i64 16, ptr nonnull %local) #3
  ret void
}

; Function Attrs: noreturn
define internal fastcc void @"spin forever"() unnamed_addr #2 {
  br label %1

1:                                                ; preds = %1, %0
  %2 = phi i32 [ 0, %0 ], [ %3, %1 ]
  %3 = add nuw nsw i32 %2, 1
  %4 = freeze i32 %3
  switch i32 %4, label %1 [
    i32 -1, label %5
    i32 7, label %"a b"
  ], !prof !24

5:                                                ; preds = %1
  notail call fastcc void @"spin forever"()
  unreachable

"a b":                                            ; preds = %1
  %x.y$z = inttoptr i64 16 to ptr
  %-4 = ptrtoint ptr %x.y$z to i64
  br i1 true, label %-1, label %5, !llvm.loop !26

-1:
  unreachable
}

declare void @llvm.memcpy.p0.p0.i64(ptr noalias nocapture writeonly, ptr noalias nocapture readonly, i64, i1 immarg) #3
declare i32 @printf(ptr noundef, ...) local_unnamed_addr #4

uselistorder ptr @first, { 1, 0 }

attributes #0 = { mustprogress nofree nounwind memory(none) uwtable "no-trapping-math"="true" "target-features"="+m,-a" }
attributes #1 = { nounwind }

!llvm.dbg.cu = !{!2}
!llvm.module.flags = !{!3, !4}
!0 = !DIGlobalVariableExpression(var: !1, expr: !DIExpression())
!10 = distinct !DISubprogram(name: "flags", scope: !5, file: !5, line: 3, type: !11, spFlags: DISPFlagDefinition | DISPFlagOptimized, unit: !2)
!15 = !DILocalVariable(name: "x", arg: 1, scope: !10, type: !12)
!20 = !{!"branch_weights", i32 1, i32 2000}
!25 = !{!"float undef"}
