; `widen_for` with b joined by `|`, which a compiler knows to be a bit of the issues, from a library's module:
;     let b = (issues >> 1 | issues >> 2 | issues >> 4) & 1;
;     1.0 + 0.5 * f32::from(b)
target datalayout = "e-m:e-p270:32:32-p271:32:32-p272:64:64-i64:64-i128:128-f80:128-n8:16:32:64-S128"
target triple = "x86_64-unknown-linux-gnu"
declare float @llvm.arithmetic.fence.f32(float) #1
attributes #0 = { nounwind "probe-stack"="inline-asm" "stack-probe-size"="3072" "target-cpu"="x86-64-v2" }
attributes #1 = { nocallback nocreateundeforpoison nofree nosync nounwind speculatable willreturn memory(none) }
!llvm.ident = !{!0}
!0 = !{!"rattle logic=dac8208d650f15bf3e2dc313a14fa4c783a3acf887bdfab66e1714b038d9e11b"}
!1 = !{}

define noundef float @"tonekit_score::widen_for"(i16 noundef %a0) #0 {
start:
  %r0 = alloca float, align 4
  %r1 = alloca i16, align 2
  %r2 = alloca i16, align 2
  %r3 = alloca i16, align 2
  %r4 = alloca i16, align 2
  %r5 = alloca i16, align 2
  %r6 = alloca i16, align 2
  %r7 = alloca float, align 4
  %r8 = alloca float, align 4
  %r9 = lshr i16 %a0, 1
  store i16 %r9, ptr %r2, align 2
  %r10 = lshr i16 %a0, 2
  store i16 %r10, ptr %r3, align 2
  %r11 = load i16, ptr %r2, align 2, !noundef !1
  %r12 = load i16, ptr %r3, align 2, !noundef !1
  %r13 = or i16 %r11, %r12
  store i16 %r13, ptr %r4, align 2
  %r14 = lshr i16 %a0, 4
  store i16 %r14, ptr %r5, align 2
  %r15 = load i16, ptr %r4, align 2, !noundef !1
  %r16 = load i16, ptr %r5, align 2, !noundef !1
  %r17 = or i16 %r15, %r16
  store i16 %r17, ptr %r6, align 2
  %r18 = load i16, ptr %r6, align 2, !noundef !1
  %r19 = and i16 %r18, 1
  store i16 %r19, ptr %r1, align 2
  %r20 = load i16, ptr %r1, align 2, !noundef !1
  %r21 = call float @"core::convert::others::F32FromU16::from"(i16 %r20)
  store float %r21, ptr %r7, align 4
  %r22 = load float, ptr %r7, align 4, !noundef !1
  %r23 = fmul float 5.000000e-01, %r22
  store float %r23, ptr %r8, align 4
  %r24 = load float, ptr %r8, align 4, !noundef !1
  %r25 = fadd float 1.000000e+00, %r24
  store float %r25, ptr %r0, align 4
  %r26 = load float, ptr %r0, align 4, !noundef !1
  ret float %r26
}

define internal noundef float @"core::convert::others::F32FromU16::from"(i16 noundef %a0) #0 {
start:
  %r0 = alloca float, align 4
  %r1 = uitofp i16 %a0 to float
  %r2 = call float @llvm.arithmetic.fence.f32(float %r1)
  store float %r2, ptr %r0, align 4
  %r3 = load float, ptr %r0, align 4, !noundef !1
  ret float %r3
}
