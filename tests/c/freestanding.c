/*
 * The library without a C library: linked with -ffreestanding -nostdlib and the three
 * functions below, which are all that it may need. Document 01's load session is played,
 * a write of five bytes with its result, and the refusal of memory of zeros. It ends with
 * status 0, or with the number of the step that went wrong. x86-64 Linux alone: a board
 * has its own start and end.
 */
#include "ctc_controller.h"

#include <stddef.h>
#include <stdint.h>

void *memcpy(void *to, const void *from, size_t length);
void *memmove(void *to, const void *from, size_t length);
void *memset(void *at, int value, size_t length);
void _start(void);

/* volatile, so that no compiler makes a call of the function itself out of its loop */
void *memcpy(void *to, const void *from, size_t length)
{
    volatile uint8_t *written = to;
    const uint8_t *read = from;
    for (size_t place = 0; place < length; place++) {
        written[place] = read[place];
    }
    return to;
}

void *memmove(void *to, const void *from, size_t length)
{
    volatile uint8_t *written = to;
    const uint8_t *read = from;
    if ((uintptr_t)to <= (uintptr_t)from) {
        return memcpy(to, from, length);
    }
    for (size_t place = length; place > 0; place--) {
        written[place - 1] = read[place - 1];
    }
    return to;
}

void *memset(void *at, int value, size_t length)
{
    volatile uint8_t *written = at;
    for (size_t place = 0; place < length; place++) {
        written[place] = (uint8_t)value;
    }
    return at;
}

static ctc_state state;
static ctc_answer answer;
static uint8_t space[16], check[CTC_CHECK_LENGTH];

static int same(const uint8_t *bytes, const uint8_t *expected, size_t length)
{
    for (size_t place = 0; place < length; place++) {
        if (bytes[place] != expected[place]) {
            return 0;
        }
    }
    return 1;
}

static int load(void)
{
    static const uint8_t bytes[4] = {0x62, 0x10, 0x00, 0x72};
    static const uint8_t reply[6] = {0x66, 0x80, 0x00, 0x00, 0x04, 0xE2};
    for (size_t place = 0; place < 4; place++) {
        if (ctc_byte(&state, bytes[place], &answer) != CTC_DONE) {
            return 2;
        }
    }
    if (ctc_action(&answer) != CTC_ACTION_BYTE || ctc_offered(&answer) != CTC_ACK) {
        return 3;
    }
    if (ctc_taken(&state, &answer) != CTC_DONE || ctc_action(&answer) != CTC_ACTION_STRING ||
        !same(ctc_six(&answer), reply, 6)) {
        return 4;
    }
    return ctc_byte(&state, CTC_ACK, &answer) == CTC_DONE ? 0 : 5;
}

static int write_five(void)
{
    static const uint8_t host[5] = {'H', 'E', 'L', 'L', 'O'};
    static const uint8_t image[7] = {0x80, 0x02, 'H', 'E', 'L', 'L', 'O'};
    static const uint8_t order[6] = {CTC_ORDER_WRITE, 1, 0, 0, 0, 5};
    if (ctc_report(&state, 1, CTC_REPORT_INSTALLED | CTC_REPORT_SELECTABLE, &answer) != CTC_DONE ||
        ctc_queue(&state, 0, 0x59, 0, 0, 0, 5, &answer) != CTC_DONE ||
        ctc_hand(&state, &answer) != CTC_DONE || ctc_offered(&answer) != CTC_GO ||
        ctc_byte(&state, CTC_ACK, &answer) != CTC_DONE) {
        return 6;
    }
    if (ctc_data(&state, host, 5, CTC_NO_PLACE, space, sizeof space, check, sizeof check,
                 &answer) != CTC_DONE ||
        ctc_action(&answer) != CTC_ACTION_ORDER || !same(ctc_six(&answer), order, 6) ||
        ctc_given(&answer) != 7 || !same(space, image, 7)) {
        return 7;
    }
    if (ctc_result(&state, 0, 0, 0, (const uint8_t *)0, 0, (const uint8_t *)0, 0, (uint8_t *)0, 0,
                   check, sizeof check, &answer) != CTC_DONE ||
        ctc_offered(&answer) != CTC_END_OF_RECORD || !ctc_settled(&answer) ||
        ctc_settled_code(&answer) != 0 || ctc_settled_motion(&answer) != 1 ||
        ctc_settled_count(&answer) != 5) {
        return 8;
    }
    return ctc_broken(&state, &answer) == CTC_DONE && ctc_tick(&state, &answer) == CTC_DONE &&
                   ctc_reset(&state, &answer) == CTC_DONE
               ? 0
               : 9;
}

static int play(void)
{
    int wrong;
    if (ctc_tick(&state, &answer) != CTC_REFUSED_DAMAGED || ctc_fresh(&state) != CTC_DONE) {
        return 1;
    }
    wrong = load();
    return wrong != 0 ? wrong : write_five();
}

/* The system's exit, since there is nobody to return to. */
static _Noreturn void leave(int status)
{
    for (;;) {
        __asm__ volatile("syscall" : : "a"(60L), "D"((long)status) : "rcx", "r11", "memory");
    }
}

/* The system calls nobody: the stack is not where a call would have left it. */
__attribute__((force_align_arg_pointer)) void _start(void)
{
    leave(play());
}
