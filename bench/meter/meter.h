/* What thunks.S and meter.c share. It is read by the assembler too. */
#ifndef METER_H
#define METER_H

/* How far below a call the stack is filled, a multiple of 8: more than any call takes. */
#define METER_DEPTH 4096

/* Timer 0 of the board mps2-an386: its value, which falls 25,000,000 times a second. */
#define METER_CLOCK 0x40000004

/* The numbers of the functions. */
#define METER_FRESH 1
#define METER_BYTE 2
#define METER_TAKEN 3
#define METER_BROKEN 4
#define METER_REPORT 5
#define METER_DATA 6
#define METER_RESULT 7
#define METER_TICK 8
#define METER_RESET 9
#define METER_QUEUE 10
#define METER_HAND 11
#define METER_BUILD 12
#define METER_RESTORE 13
#define METER_MERGE 14
#define METER_SCAN 15
#define METER_VERIFY 16
#define METER_IMAGE_LENGTH 17
#define METER_MARK_COUNT 18
#define METER_IMAGE_COUNT 19
#define METER_EMPTY 20
#define METER_LOOP 21
#define METER_DEEP 22
#define METER_COPY 23
#define METER_MOVE 24
#define METER_SET 25
#define METER_FUNCTIONS 26

/* Where the fields of struct meter are. */
#define METER_RETURN 0
#define METER_STACK 8
#define METER_LOWEST 16
#define METER_BYTES 24
#define METER_LEFT_OUT 32
#define METER_BEGIN 40
#define METER_END 48

#ifndef __ASSEMBLER__
#include <stdint.h>

/* A field that is a pointer of 32 bits has four bytes of zeros behind it. */
extern struct meter {
    uint64_t caller;   /* where the call returns to */
    uint64_t stack;    /* the caller's stack pointer before the call */
    uint64_t lowest;   /* the lowest byte of the stack that the call changed */
    uint64_t bytes;    /* the bytes that memcpy, memset and memmove were handed in it */
    uint64_t left_out; /* their instructions in it */
    uint64_t begin;    /* the clock before it, on Cortex-M */
    uint64_t end;      /* the clock behind it */
} volatile meter;

void meter_after(uint32_t function);
#endif

#endif
