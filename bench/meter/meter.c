/*
 * Meters the functions for C: plays sessions as tests/c/controller_play.c does, then calls with records of chosen
 * lengths, and says of each function how often it was called, what its calls took, and how deep the stack was.
 *
 * Standard input is sessions, each behind a byte: 1 for a session (docs/SESSIONS.md), 2 for one of jobs
 * (docs/JOBS.md). Standard output is their answers. Standard error is a line for each row: its number, how often,
 * the most instructions, the bytes that memcpy and memset were handed in that call, the sum of the instructions and
 * of these bytes, the deepest stack, and the row's name. On x86-64 the instructions are callgrind's, of which it is
 * asked to write a part for each call, with the number, the bytes and the instructions to be left out; those on
 * standard error are then 0.
 */
#include "meter.h"

#include "ctc_controller.h"
#include "ctc_records.h"

#include <stdio.h>
#include <string.h>

#ifdef __x86_64__
#include <valgrind/callgrind.h>
#endif

static int session_byte(void);

#define main play_main
#define getchar session_byte
#include "../../tests/c/controller_play.c"
#undef main
#undef getchar

/* ---- rows */

static const char *const functions[METER_FUNCTIONS] = {
    "set up",         "ctc_fresh",       "ctc_byte",    "ctc_taken",  "ctc_broken",       "ctc_report",
    "ctc_data",       "ctc_result",      "ctc_tick",    "ctc_reset",  "ctc_queue",        "ctc_hand",
    "ctc_build",      "ctc_restore",     "ctc_merge",   "ctc_scan",   "ctc_verify",       "ctc_image_length",
    "ctc_mark_count", "ctc_image_count", "meter_empty", "meter_loop", "meter_deep",       "meter_copy",
    "meter_move",     "meter_set",
};

static const uint32_t lengths[] = {0, 256, 16384, 65535};
enum { LENGTHS = sizeof lengths / sizeof lengths[0] };

/* With records of these lengths. Bad ones have one odd and one even blockette that is bad. */
enum {
    DATA_MFM,
    DATA_GCR,
    RESULT_MFM,
    RESULT_GCR,
    BUILD_MFM,
    BUILD_GCR,
    RESTORE_GOOD,
    RESTORE_BAD,
    MERGE_BAD,
    SCAN_GOOD,
    VERIFY_GOOD,
    CASES
};
static const char *const cases[CASES] = {
    "ctc_data, MFM",      "ctc_data, GCR",  "ctc_result, read, MFM", "ctc_result, read, GCR",
    "ctc_build, MFM",     "ctc_build, GCR", "ctc_restore",           "ctc_restore, two bad",
    "ctc_merge, two bad", "ctc_scan",       "ctc_verify",
};

/* The numbers of rows: functions, whatever called them, then cases by their lengths. 0 is what is not metered. */
enum { SET_UP = 0, ROWS = METER_FUNCTIONS + CASES * LENGTHS, BY_FUNCTION = ROWS };

static struct figures {
    uint32_t calls, most, most_bytes, sum, sum_bytes, deepest;
} figures[ROWS];

static uint32_t row = SET_UP;

#ifndef __x86_64__
/* Instructions around a call that the clock counts too: found at the start. */
static uint32_t around;

/* An instruction is 128 ns of the emulator's time, by -icount shift=7, and so 3.2 steps of the clock. */
static uint32_t instructions(uint32_t of)
{
    (void)of;
    uint32_t steps = (uint32_t)meter.begin - (uint32_t)meter.end;
    return (uint32_t)(((uint64_t)steps * 10 + 16) / 32) - around - (uint32_t)meter.left_out;
}

static void clock_start(void)
{
    volatile uint32_t *timer = (volatile uint32_t *)(METER_CLOCK - 4); /* control, value, reload */
    timer[2] = UINT32_MAX;
    timer[1] = UINT32_MAX;
    timer[0] = 1;
}
#else
static uint32_t instructions(uint32_t of)
{
    char text[48];
    snprintf(text, sizeof text, "%u %u %u", (unsigned)of, (unsigned)meter.bytes, (unsigned)meter.left_out);
    CALLGRIND_DUMP_STATS_AT(text);
    return 0;
}

static void clock_start(void)
{
}
#endif

void meter_after(uint32_t function)
{
    uint32_t number = row == BY_FUNCTION ? function : row;
    uint32_t count = instructions(number), deep = (uint32_t)(meter.stack - meter.lowest);
    struct figures *of = figures + number;
    of->calls++;
    if (count >= of->most) {
        of->most = count;
        of->most_bytes = (uint32_t)meter.bytes;
    }
    of->sum += count;
    of->sum_bytes += (uint32_t)meter.bytes;
    if (deep > of->deepest) {
        of->deepest = deep;
    }
    /* the stack of a function, whatever row the call is of */
    if (deep > figures[function].deepest) {
        figures[function].deepest = deep;
    }
}

/* ---- what is known, which the meter must tell */

void meter_empty(void);
void meter_loop(uint32_t times);
void meter_deep(void);
void meter_copy(void *to, const void *from, size_t length);
void meter_move(void *to, const void *from, size_t length);
void meter_set(void *to, int byte, size_t length);

static uint8_t record[CTC_COUNT_LIMIT], image_space[CTC_IMAGE_MOST], other_space[CTC_IMAGE_MOST];
static uint8_t merged_space[CTC_IMAGE_MOST], delivered[CTC_IMAGE_MOST];
static uint8_t marks_space[CTC_MARKS_MOST], other_marks[CTC_MARKS_MOST], merged_marks[CTC_MARKS_MOST];

static void known(void)
{
    row = SET_UP;
    meter_empty();
#ifndef __x86_64__
    around = instructions(SET_UP) - 1;
#endif
    row = BY_FUNCTION;
    meter_empty();
    meter_deep();
    meter_loop(1);
    meter_loop(1000);
    meter_loop(100001);
    meter_copy(delivered, record, 0);
    meter_copy(delivered, record, 1000);
    meter_move(delivered, delivered + 1, 0);
    meter_move(delivered, delivered + 1, 1000);
    meter_move(delivered + 1, delivered, 0);
    meter_move(delivered + 1, delivered, 1000);
    meter_set(delivered, 1, 0);
    meter_set(delivered, 1, 1000);
}

/* ---- sessions */

static int kind_of_next;

static int session_byte(void)
{
    int byte = getchar();
    if (byte == EOF || byte == 1 || byte == 2) {
        kind_of_next = byte;
        return EOF;
    }
    return byte;
}

static int play_all(void)
{
    static char name[] = "meter", jobs[] = "jobs";
    char *words[] = {name, jobs, NULL};
    kind_of_next = getchar();
    while (kind_of_next != EOF) {
        memset(check, 0, sizeof check);
        int status = play_main(kind_of_next, words);
        if (status != 0) {
            return status;
        }
    }
    return 0;
}

/* ---- records of chosen lengths */

static void expect(int holds)
{
    if (!holds) {
        stop(3, "a call with a record of a chosen length does not give what it should");
    }
}

static void begin(uint32_t one_case, uint32_t at)
{
    row = METER_FUNCTIONS + one_case * LENGTHS + at;
}

/* A store of drive 0, handed over, which moves in this density. */
static void hand_over(uint8_t address, uint32_t count, uint8_t density)
{
    enum { DENSITY = 4 }; /* of drive 0, in the layout of a state */
    expect(ctc_fresh(&state) == CTC_DONE);
    state.bytes[DENSITY] = density;
    expect(ctc_report(&state, 0, CTC_REPORT_INSTALLED | CTC_REPORT_SELECTABLE | CTC_REPORT_BOT, &answer) == CTC_DONE);
    expect(ctc_queue(&state, 0, address, 0, 0, (uint8_t)(count >> 8), (uint8_t)count, &answer) == CTC_DONE);
    expect(ctc_hand(&state, &answer) == CTC_DONE);
}

static void data_case(uint32_t one_case, uint32_t at, uint8_t density)
{
    enum { WRITE_DRIVE_0 = 0x58 };
    uint32_t count = lengths[at], length = (uint32_t)ctc_image_length(count, density);
    hand_over(WRITE_DRIVE_0, count, density);
    expect(ctc_action(&answer) == CTC_ACTION_BYTE && ctc_offered(&answer) == CTC_GO);
    expect(ctc_byte(&state, CTC_ACK, &answer) == CTC_DONE);
    begin(one_case, at);
    uint32_t refusal = ctc_data(&state, record, count, CTC_NO_PLACE, delivered, sizeof delivered, check,
                                sizeof check, &answer);
    row = SET_UP;
    expect(refusal == CTC_DONE && ctc_action(&answer) == CTC_ACTION_ORDER && ctc_given(&answer) == length);
}

static uint32_t image_of(uint8_t *to, uint8_t *its_marks, uint32_t count, uint8_t density, int bad)
{
    uint32_t number = (uint32_t)ctc_mark_count(count, density);
    expect(ctc_build(record, count, density, CTC_NO_PLACE, to, CTC_IMAGE_MOST) == CTC_DONE);
    memset(its_marks, CTC_MARK_GOOD, CTC_MARKS_MOST);
    if (bad && number > 0) {
        its_marks[0] = its_marks[number / 2 | 1] = CTC_MARK_ERROR_LEAST;
    }
    return number;
}

static void result_case(uint32_t one_case, uint32_t at, uint8_t density)
{
    enum { READ_DRIVE_0 = 0x48 };
    uint32_t count = lengths[at], number = image_of(image_space, marks_space, count, density, 0);
    uint32_t length = (uint32_t)ctc_image_length(count, density);
    hand_over(READ_DRIVE_0, 0, density);
    expect(ctc_action(&answer) == CTC_ACTION_ORDER && ctc_six(&answer)[0] == CTC_ORDER_READ);
    begin(one_case, at);
    uint32_t refusal = ctc_result(&state, 0, 0, 0, image_space, length, marks_space, number, delivered,
                                  sizeof delivered, check, sizeof check, &answer);
    row = SET_UP;
    expect(refusal == CTC_DONE && ctc_given(&answer) == count && memcmp(delivered, record, count) == 0);
    expect(ctc_settled(&answer) == 1 && ctc_settled_code(&answer) == 0);
}

static void records_case(uint32_t at)
{
    uint32_t count = lengths[at], number, length, refusal;
    for (uint8_t density = CTC_DENSITY_MFM; density <= CTC_DENSITY_GCR; density++) {
        begin(density == CTC_DENSITY_MFM ? BUILD_MFM : BUILD_GCR, at);
        refusal = ctc_build(record, count, density, CTC_NO_PLACE, image_space, sizeof image_space);
        row = SET_UP;
        expect(refusal == CTC_DONE);
    }
    length = (uint32_t)ctc_image_length(count, CTC_DENSITY_GCR);
    for (int bad = 0; bad < 2; bad++) {
        number = image_of(image_space, marks_space, count, CTC_DENSITY_GCR, bad);
        begin(bad ? RESTORE_BAD : RESTORE_GOOD, at);
        refusal = ctc_restore(image_space, length, marks_space, number, delivered, sizeof delivered);
        row = SET_UP;
        expect(refusal == CTC_DONE && memcmp(delivered, record, count) == 0);
    }
    image_of(other_space, other_marks, count, CTC_DENSITY_GCR, 0);
    begin(MERGE_BAD, at);
    refusal = ctc_merge(image_space, length, marks_space, number, other_space, length, other_marks, number,
                        merged_space, sizeof merged_space, merged_marks, sizeof merged_marks);
    row = SET_UP;
    expect(refusal == CTC_DONE);
    begin(SCAN_GOOD, at);
    refusal = ctc_scan(other_marks, number, delivered, sizeof delivered);
    row = SET_UP;
    expect(refusal == CTC_DONE && ctc_image_count(image_space, length) == count);
    begin(VERIFY_GOOD, at);
    refusal = ctc_verify(other_space, length);
    row = SET_UP;
    expect(refusal == CTC_DONE);
}

static void play_lengths(void)
{
    row = SET_UP;
    for (uint32_t place = 0; place < sizeof record; place++) {
        record[place] = (uint8_t)(place * 7 + (place >> 8) + 1);
    }
    for (uint32_t at = 0; at < LENGTHS; at++) {
        data_case(DATA_MFM, at, CTC_DENSITY_MFM);
        data_case(DATA_GCR, at, CTC_DENSITY_GCR);
        result_case(RESULT_MFM, at, CTC_DENSITY_MFM);
        result_case(RESULT_GCR, at, CTC_DENSITY_GCR);
        records_case(at);
    }
}

/* ---- all */

static void tell(uint32_t number)
{
    const struct figures *of = figures + number;
    fprintf(stderr, "%u %u %u %u %u %u %u ", (unsigned)number, (unsigned)of->calls, (unsigned)of->most,
            (unsigned)of->most_bytes, (unsigned)of->sum, (unsigned)of->sum_bytes, (unsigned)of->deepest);
    if (number < METER_FUNCTIONS) {
        fprintf(stderr, "%s\n", functions[number]);
    } else {
        number -= METER_FUNCTIONS;
        fprintf(stderr, "%s: %u\n", cases[number / LENGTHS], (unsigned)lengths[number % LENGTHS]);
    }
}

static int meter_all(void)
{
    clock_start();
    known();
    row = BY_FUNCTION;
    int status = play_all();
    play_lengths();
    for (uint32_t number = 1; number < ROWS; number++) {
        tell(number);
    }
    return status;
}

#ifdef __x86_64__
int main(void)
{
    return meter_all();
}
#else
int board_main(void);

int board_main(void)
{
    exit(meter_all());
}
#endif
