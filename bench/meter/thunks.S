/*
 * Stands between the program and the functions that are metered: the linker's --wrap leads each call of FUNCTION
 * here, as __wrap_FUNCTION, and from here to itself, as __real_FUNCTION, with the stack pointer as the caller had it.
 * The stack below is filled before the call, and looked through behind it from below, so that meter_lowest is the
 * lowest byte that the call changed. On Cortex-M the clock is read right before and right behind the call. Then
 * meter_after is called with the number of the function.
 *
 * memcpy, memset and memmove are here too, since they are no part of what is metered: they count the bytes that they
 * were handed, and their own instructions, which are left out.
 */
#include "meter.h"

#define FILLED 0xA5A5A5A5

    .data
    .balign 8
    .globl meter
meter: /* struct meter of meter.h */
    .fill 8, 8, 0
    .text

#if defined(__x86_64__)

.macro wrap name, number
    .globl __wrap_\name
    .type __wrap_\name, @function
__wrap_\name:
    popq meter+METER_RETURN(%rip)
    movq %rsp, meter+METER_STACK(%rip)
    leaq -METER_DEPTH(%rsp), %r10
    movabsq $FILLED << 32 | FILLED, %r11
1:  movq %r11, (%r10)
    addq $8, %r10
    cmpq %rsp, %r10
    jb 1b
    movq $0, meter+METER_BYTES(%rip)
    movq $0, meter+METER_LEFT_OUT(%rip)
    call __real_\name
    leaq -METER_DEPTH(%rsp), %r10
    movabsq $FILLED << 32 | FILLED, %r11
2:  cmpq %rsp, %r10
    jae 4f
    cmpq %r11, (%r10)
    jne 3f
    addq $8, %r10
    jmp 2b
3:  cmpb $FILLED & 0xFF, (%r10)
    jne 4f
    incq %r10
    jmp 3b
4:  movq %r10, meter+METER_LOWEST(%rip)
    pushq %rax
    subq $8, %rsp
    movl $\number, %edi
    call meter_after
    addq $8, %rsp
    popq %rax
    pushq meter+METER_RETURN(%rip)
    ret
    .size __wrap_\name, . - __wrap_\name
.endm

.macro begin name
    .globl \name
    .type \name, @function
\name:
.endm

/* 9 instructions, and 4 for each byte */
begin memcpy
    addq %rdx, meter+METER_BYTES(%rip)
    leaq 9(, %rdx, 4), %rcx
    addq %rcx, meter+METER_LEFT_OUT(%rip)
    movq %rdi, %rax
    leaq (%rsi, %rdx), %rsi
    leaq (%rdi, %rdx), %rdi
    negq %rdx
    jz 2f
1:  movb (%rsi, %rdx), %r8b
    movb %r8b, (%rdi, %rdx)
    incq %rdx
    jnz 1b
2:  ret
    .size memcpy, . - memcpy

/* 8 instructions, and 3 for each byte */
begin memset
    addq %rdx, meter+METER_BYTES(%rip)
    leaq 8(%rdx, %rdx, 2), %rcx
    addq %rcx, meter+METER_LEFT_OUT(%rip)
    movq %rdi, %rax
    leaq (%rdi, %rdx), %rdi
    negq %rdx
    jz 2f
1:  movb %sil, (%rdi, %rdx)
    incq %rdx
    jnz 1b
2:  ret
    .size memset, . - memset

/* 11 instructions, and 4 for each byte */
begin memmove
    addq %rdx, meter+METER_BYTES(%rip)
    leaq 11(, %rdx, 4), %rcx
    addq %rcx, meter+METER_LEFT_OUT(%rip)
    movq %rdi, %rax
    cmpq %rdi, %rsi
    jb 3f
    leaq (%rsi, %rdx), %rsi
    leaq (%rdi, %rdx), %rdi
    negq %rdx
    jz 2f
1:  movb (%rsi, %rdx), %r8b
    movb %r8b, (%rdi, %rdx)
    incq %rdx
    jnz 1b
2:  ret
3:  nop
    nop
    testq %rdx, %rdx
    jz 2b
4:  movb -1(%rsi, %rdx), %r8b
    movb %r8b, -1(%rdi, %rdx)
    decq %rdx
    jnz 4b
    ret
    .size memmove, . - memmove

/*
 * What is known: one instruction; one more than twice as many as asked for; a stack of 1,024 bytes; two instructions
 * and memcpy, memmove or memset.
 */
begin meter_empty
    ret
    .size meter_empty, . - meter_empty

begin meter_loop
1:  decl %edi
    jnz 1b
    ret
    .size meter_loop, . - meter_loop

begin meter_deep
    subq $1016, %rsp
    movb $0, (%rsp)
    addq $1016, %rsp
    ret
    .size meter_deep, . - meter_deep

begin meter_copy
    call memcpy
    ret
    .size meter_copy, . - meter_copy

begin meter_move
    call memmove
    ret
    .size meter_move, . - meter_move

begin meter_set
    call memset
    ret
    .size meter_set, . - meter_set

#elif defined(__thumb__)

    .syntax unified
    .thumb

.macro begin name
    .globl \name
    .type \name, %function
    .thumb_func
\name:
.endm

.macro wrap name, number
begin __wrap_\name
    push {r0-r3}
    ldr r12, =meter
    str lr, [r12, #METER_RETURN]
    add r0, sp, #16
    str r0, [r12, #METER_STACK]
    ldr r1, =FILLED
    sub r2, r0, #METER_DEPTH
    mov r3, sp
1:  str r1, [r2], #4
    cmp r2, r3
    blo 1b
    movs r1, #0
    str r1, [r12, #METER_BYTES]
    str r1, [r12, #METER_LEFT_OUT]
    pop {r0-r3}
    ldr r12, =FILLED
    str r12, [sp, #-4]
    str r12, [sp, #-8]
    str r12, [sp, #-12]
    str r12, [sp, #-16]
    ldr r12, =METER_CLOCK
    ldr lr, =meter
    ldr r12, [r12]
    str r12, [lr, #METER_BEGIN]
    bl __real_\name
    ldr r12, =METER_CLOCK
    ldr r12, [r12]
    ldr r3, =meter
    str r12, [r3, #METER_END]
    /* r0 and r1 are what the function returns */
    ldr r3, [r3, #METER_STACK]
    sub r12, r3, #METER_DEPTH
    ldr r2, =FILLED
2:  cmp r12, r3
    bhs 4f
    ldr lr, [r12]
    cmp lr, r2
    bne 3f
    add r12, r12, #4
    b 2b
3:  ldrb lr, [r12]
    cmp lr, #FILLED & 0xFF
    bne 4f
    add r12, r12, #1
    b 3b
4:  ldr r3, =meter
    str r12, [r3, #METER_LOWEST]
    push {r0, r1}
    movs r0, #\number
    bl meter_after
    pop {r0, r1}
    ldr r12, =meter
    ldr lr, [r12, #METER_RETURN]
    bx lr
    .ltorg
    .size __wrap_\name, . - __wrap_\name
.endm

/* 13 instructions, and 5 for each byte */
begin memcpy
    ldr r3, =meter
    ldr r12, [r3, #METER_BYTES]
    add r12, r12, r2
    str r12, [r3, #METER_BYTES]
    ldr r12, [r3, #METER_LEFT_OUT]
    add r12, r12, r2, lsl #2
    add r12, r12, r2
    add r12, r12, #13
    str r12, [r3, #METER_LEFT_OUT]
    mov r12, r0
1:  subs r2, r2, #1
    blo 2f
    ldrb r3, [r1], #1
    strb r3, [r12], #1
    b 1b
2:  bx lr
    .ltorg
    .size memcpy, . - memcpy

/* 12 instructions, and 4 for each byte */
begin memset
    ldr r3, =meter
    ldr r12, [r3, #METER_BYTES]
    add r12, r12, r2
    str r12, [r3, #METER_BYTES]
    ldr r12, [r3, #METER_LEFT_OUT]
    add r12, r12, r2, lsl #2
    add r12, r12, #12
    str r12, [r3, #METER_LEFT_OUT]
    mov r12, r0
1:  subs r2, r2, #1
    blo 2f
    strb r1, [r12], #1
    b 1b
2:  bx lr
    .ltorg
    .size memset, . - memset

/* 15 instructions, and 5 for each byte */
begin memmove
    ldr r3, =meter
    ldr r12, [r3, #METER_BYTES]
    add r12, r12, r2
    str r12, [r3, #METER_BYTES]
    ldr r12, [r3, #METER_LEFT_OUT]
    add r12, r12, r2, lsl #2
    add r12, r12, r2
    add r12, r12, #15
    str r12, [r3, #METER_LEFT_OUT]
    mov r12, r0
    cmp r0, r1
    bhi 3f
1:  subs r2, r2, #1
    blo 2f
    ldrb r3, [r1], #1
    strb r3, [r12], #1
    b 1b
2:  bx lr
3:  subs r2, r2, #1
    blo 2b
    ldrb r3, [r1, r2]
    strb r3, [r12, r2]
    b 3b
    .ltorg
    .size memmove, . - memmove

/* What is known: as on x86-64, but three instructions and memcpy, memmove or memset. */
begin meter_empty
    bx lr
    .size meter_empty, . - meter_empty

begin meter_loop
1:  subs r0, r0, #1
    bne 1b
    bx lr
    .size meter_loop, . - meter_loop

begin meter_deep
    sub sp, sp, #1024
    movs r3, #0
    strb r3, [sp]
    add sp, sp, #1024
    bx lr
    .size meter_deep, . - meter_deep

begin meter_copy
    push {r4, lr}
    bl memcpy
    pop {r4, pc}
    .size meter_copy, . - meter_copy

begin meter_move
    push {r4, lr}
    bl memmove
    pop {r4, pc}
    .size meter_move, . - meter_move

begin meter_set
    push {r4, lr}
    bl memset
    pop {r4, pc}
    .size meter_set, . - meter_set

#else
#error "no meter for this processor"
#endif

    wrap ctc_fresh, METER_FRESH
    wrap ctc_byte, METER_BYTE
    wrap ctc_taken, METER_TAKEN
    wrap ctc_broken, METER_BROKEN
    wrap ctc_report, METER_REPORT
    wrap ctc_data, METER_DATA
    wrap ctc_result, METER_RESULT
    wrap ctc_tick, METER_TICK
    wrap ctc_reset, METER_RESET
    wrap ctc_queue, METER_QUEUE
    wrap ctc_hand, METER_HAND
    wrap ctc_build, METER_BUILD
    wrap ctc_restore, METER_RESTORE
    wrap ctc_merge, METER_MERGE
    wrap ctc_scan, METER_SCAN
    wrap ctc_verify, METER_VERIFY
    wrap ctc_image_length, METER_IMAGE_LENGTH
    wrap ctc_mark_count, METER_MARK_COUNT
    wrap ctc_image_count, METER_IMAGE_COUNT
    wrap meter_empty, METER_EMPTY
    wrap meter_loop, METER_LOOP
    wrap meter_deep, METER_DEEP
    wrap meter_copy, METER_COPY
    wrap meter_move, METER_MOVE
    wrap meter_set, METER_SET

    .section .note.GNU-stack, "", %progbits
