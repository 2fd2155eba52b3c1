@ The memory functions that clang calls by the names of Arm's run-time ABI, for a firmware that has no C library. tools/controller
@ puts those that the library calls into its archive, with names that nothing else sees. ARMv6-M code, which every core runs:
@ words where both ends stand on words, else bytes. tests/firmware/memory.c tries them.
    .syntax unified
    .cpu cortex-m0
    .thumb

    .macro function names:vararg
    .irp name, \names
    .global \name
    .type \name, %function
    .thumb_func
\name:
    .endr
    .endm

@ void __aeabi_memcpy(void *to, const void *from, size_t n): upwards, so that it also moves what overlaps to a lower address.
    .section .text.memcpy, "ax", %progbits
    .balign 4
    function __aeabi_memcpy
    mov     r3, r0
    orrs    r3, r1
    lsls    r3, #30
    bne     .Lcopy_bytes
    function __aeabi_memcpy4, __aeabi_memcpy8
    subs    r2, #16
    blo     2f
    push    {r4, r5, r6}
1:  ldmia   r1!, {r3, r4, r5, r6}
    stmia   r0!, {r3, r4, r5, r6}
    subs    r2, #16
    bhs     1b
    pop     {r4, r5, r6}
2:  adds    r2, #12                 @ the bytes left, less 4
    blo     4f
3:  ldmia   r1!, {r3}
    stmia   r0!, {r3}
    subs    r2, #4
    bhs     3b
4:  adds    r2, #4
.Lcopy_bytes:
    adds    r0, r2
    adds    r1, r2
    rsbs    r2, r2, #0
    beq     6f
5:  ldrb    r3, [r1, r2]
    strb    r3, [r0, r2]
    adds    r2, #1
    bne     5b
6:  bx      lr

@ void __aeabi_memmove(void *to, const void *from, size_t n): downwards only where `to` lies in what is moved.
    .section .text.memmove, "ax", %progbits
    .balign 4
    function __aeabi_memmove, __aeabi_memmove4, __aeabi_memmove8
    subs    r3, r0, r1
    cmp     r3, r2
    blo     1f
    push    {r4, lr}
    bl      __aeabi_memcpy
    pop     {r4, pc}
1:  mov     r3, r0
    orrs    r3, r1
    orrs    r3, r2
    lsls    r3, #30
    bne     3f
2:  subs    r2, #4
    ldr     r3, [r1, r2]
    str     r3, [r0, r2]
    bne     2b
    bx      lr
3:  subs    r2, #1
    ldrb    r3, [r1, r2]
    strb    r3, [r0, r2]
    bne     3b
    bx      lr

@ void __aeabi_memset(void *to, size_t n, int byte), void __aeabi_memclr(void *to, size_t n)
    .section .text.memset, "ax", %progbits
    .balign 4
    function __aeabi_memclr, __aeabi_memclr4, __aeabi_memclr8
    movs    r2, #0
    function __aeabi_memset, __aeabi_memset4, __aeabi_memset8
    lsls    r3, r0, #30
    bne     .Lset_bytes
    uxtb    r2, r2
    lsls    r3, r2, #8
    orrs    r2, r3
    lsls    r3, r2, #16
    orrs    r2, r3
    subs    r1, #16
    blo     2f
    push    {r4, r5}
    mov     r3, r2
    mov     r4, r2
    mov     r5, r2
1:  stmia   r0!, {r2, r3, r4, r5}
    subs    r1, #16
    bhs     1b
    pop     {r4, r5}
2:  adds    r1, #12
    blo     4f
3:  stmia   r0!, {r2}
    subs    r1, #4
    bhs     3b
4:  adds    r1, #4
.Lset_bytes:
    adds    r0, r1
    rsbs    r1, r1, #0
    beq     6f
5:  strb    r2, [r0, r1]
    adds    r1, #1
    bne     5b
6:  bx      lr
