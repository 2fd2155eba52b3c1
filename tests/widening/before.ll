; `widen_for` as it was before change request 4, from the library's module:
;     if tonekit_core::has_issue(issues, MeasureIssue::LowSnr)
;         || tonekit_core::has_issue(issues, MeasureIssue::Clipped)
;         || tonekit_core::has_issue(issues, MeasureIssue::ColdStartRegister)
;     {
;         1.5
;     } else {
;         1.0
;     }
target datalayout = "e-m:e-p270:32:32-p271:32:32-p272:64:64-i64:64-i128:128-f80:128-n8:16:32:64-S128"
target triple = "x86_64-unknown-linux-gnu"
declare void @llvm.memset.p0.i64(ptr writeonly captures(none), i8, i64, i1 immarg) #1
attributes #0 = { nounwind "probe-stack"="inline-asm" "stack-probe-size"="3072" "target-cpu"="x86-64-v2" }
attributes #1 = { nocallback nofree nounwind willreturn memory(argmem: write) }
!llvm.ident = !{!0}
!0 = !{!"rattle logic=dac8208d650f15bf3e2dc313a14fa4c783a3acf887bdfab66e1714b038d9e11b"}
!1 = !{}
!2 = !{i8 0, i8 2}

define noundef float @"tonekit_score::widen_for"(i16 noundef %a0) #0 {
start:
  %r0 = alloca float, align 4
  %r1 = alloca i8, align 1
  %r2 = alloca i8, align 1
  %r3 = alloca i8, align 1
  %r4 = alloca [1 x i8], align 1
  %r5 = alloca [1 x i8], align 1
  %r6 = alloca [1 x i8], align 1
  %r7 = alloca float, align 4
  call void @llvm.memset.p0.i64(ptr %r4, i8 0, i64 1, i1 false)
  call void @llvm.memset.p0.i64(ptr %r5, i8 0, i64 1, i1 false)
  call void @llvm.memset.p0.i64(ptr %r6, i8 0, i64 1, i1 false)
  store i8 1, ptr %r4, align 1
  %r8 = load i8, ptr %r4, align 1, !noundef !1
  %r9 = call i1 @"tonekit_core::has_issue"(i16 %a0, i8 %r8)
  %r10 = zext i1 %r9 to i8
  store i8 %r10, ptr %r3, align 1
  %r11 = load i8, ptr %r3, align 1, !range !2, !noundef !1
  %r12 = trunc i8 %r11 to i1
  br i1 %r12, label %then.1, label %else.2

then.1:                                           ; preds = %start
  br label %join.3

else.2:                                           ; preds = %start
  store i8 2, ptr %r5, align 1
  %r13 = load i8, ptr %r5, align 1, !noundef !1
  %r14 = call i1 @"tonekit_core::has_issue"(i16 %a0, i8 %r13)
  %r15 = zext i1 %r14 to i8
  store i8 %r15, ptr %r3, align 1
  br label %join.3

join.3:                                           ; preds = %else.2, %then.1
  %r16 = load i8, ptr %r3, align 1, !range !2, !noundef !1
  %r17 = trunc i8 %r16 to i1
  %r18 = zext i1 %r17 to i8
  store i8 %r18, ptr %r2, align 1
  %r19 = load i8, ptr %r2, align 1, !range !2, !noundef !1
  %r20 = trunc i8 %r19 to i1
  br i1 %r20, label %then.4, label %else.5

then.4:                                           ; preds = %join.3
  br label %join.6

else.5:                                           ; preds = %join.3
  store i8 4, ptr %r6, align 1
  %r21 = load i8, ptr %r6, align 1, !noundef !1
  %r22 = call i1 @"tonekit_core::has_issue"(i16 %a0, i8 %r21)
  %r23 = zext i1 %r22 to i8
  store i8 %r23, ptr %r2, align 1
  br label %join.6

join.6:                                           ; preds = %else.5, %then.4
  %r24 = load i8, ptr %r2, align 1, !range !2, !noundef !1
  %r25 = trunc i8 %r24 to i1
  %r26 = zext i1 %r25 to i8
  store i8 %r26, ptr %r1, align 1
  %r27 = load i8, ptr %r1, align 1, !range !2, !noundef !1
  %r28 = trunc i8 %r27 to i1
  br i1 %r28, label %then.7, label %else.8

then.7:                                           ; preds = %join.6
  store float 1.500000e+00, ptr %r7, align 4
  br label %join.9

else.8:                                           ; preds = %join.6
  store float 1.000000e+00, ptr %r7, align 4
  br label %join.9

join.9:                                           ; preds = %else.8, %then.7
  %r29 = load float, ptr %r7, align 4, !noundef !1
  store float %r29, ptr %r0, align 4
  %r30 = load float, ptr %r0, align 4, !noundef !1
  ret float %r30
}

define internal noundef zeroext i1 @"tonekit_core::has_issue"(i16 noundef %a0, i8 noundef %a1) #0 {
start:
  %r0 = alloca i8, align 1
  %r1 = alloca [1 x i8], align 1
  call void @llvm.memset.p0.i64(ptr %r1, i8 0, i64 1, i1 false)
  store i8 %a1, ptr %r1, align 1
  %r2 = alloca i16, align 2
  %r3 = alloca i16, align 2
  %r4 = load i8, ptr %r1, align 1, !noundef !1
  %r5 = call i16 @"tonekit_core::U16FromMeasureIssue::from"(i8 %r4)
  store i16 %r5, ptr %r2, align 2
  %r6 = load i16, ptr %r2, align 2, !noundef !1
  %r7 = and i16 %a0, %r6
  store i16 %r7, ptr %r3, align 2
  %r8 = load i16, ptr %r3, align 2, !noundef !1
  %r9 = icmp ne i16 %r8, 0
  %r10 = zext i1 %r9 to i8
  store i8 %r10, ptr %r0, align 1
  %r11 = load i8, ptr %r0, align 1, !range !2, !noundef !1
  %r12 = trunc i8 %r11 to i1
  ret i1 %r12
}

define internal noundef i16 @"tonekit_core::U16FromMeasureIssue::from"(i8 noundef %a0) #0 {
start:
  %r0 = alloca i16, align 2
  %r1 = alloca [1 x i8], align 1
  call void @llvm.memset.p0.i64(ptr %r1, i8 0, i64 1, i1 false)
  store i8 %a0, ptr %r1, align 1
  %r2 = alloca i16, align 2
  %r3 = load i8, ptr %r1, align 1, !noundef !1
  switch i8 %r3, label %noarm.11 [
    i8 0, label %arm.1
    i8 1, label %arm.2
    i8 2, label %arm.3
    i8 3, label %arm.4
    i8 4, label %arm.5
    i8 5, label %arm.6
    i8 6, label %arm.7
    i8 7, label %arm.8
    i8 8, label %arm.9
    i8 9, label %arm.10
  ]

arm.1:                                            ; preds = %start
  store i16 1, ptr %r2, align 2
  br label %join.12

arm.2:                                            ; preds = %start
  store i16 2, ptr %r2, align 2
  br label %join.12

arm.3:                                            ; preds = %start
  store i16 4, ptr %r2, align 2
  br label %join.12

arm.4:                                            ; preds = %start
  store i16 8, ptr %r2, align 2
  br label %join.12

arm.5:                                            ; preds = %start
  store i16 16, ptr %r2, align 2
  br label %join.12

arm.6:                                            ; preds = %start
  store i16 32, ptr %r2, align 2
  br label %join.12

arm.7:                                            ; preds = %start
  store i16 64, ptr %r2, align 2
  br label %join.12

arm.8:                                            ; preds = %start
  store i16 128, ptr %r2, align 2
  br label %join.12

arm.9:                                            ; preds = %start
  store i16 256, ptr %r2, align 2
  br label %join.12

arm.10:                                           ; preds = %start
  store i16 512, ptr %r2, align 2
  br label %join.12

join.12:                                          ; preds = %arm.10, %arm.9, %arm.8, %arm.7, %arm.6, %arm.5, %arm.4, %arm.3, %arm.2, %arm.1
  %r4 = load i16, ptr %r2, align 2, !noundef !1
  store i16 %r4, ptr %r0, align 2
  %r5 = load i16, ptr %r0, align 2, !noundef !1
  ret i16 %r5

noarm.11:                                         ; preds = %start
  unreachable
}
