/*
 * The functions of ctc_records.h and ctc_controller.h on another processor. Record cases
 * and a walk of random calls are made, always the same ones, and all that every call
 * leaves is folded into numbers, which must be those of x86-64: tests/cross compares
 * them. There is no C library; tests/boards has what stands in its place.
 */
#include "board.h"

#include <stdint.h>

#ifdef NARROW_LENGTHS /* wrong, and must be noticed where a register is as narrow */
#define uint64_t uint32_t
#endif
#include "ctc_controller.h"
#include "ctc_records.h"

/* How many calls the walk makes, and the longest record of all, by what memory a board has. */
#ifndef CALLS
#define CALLS 200000u
#endif
#ifndef LONGEST
#define LONGEST CTC_COUNT_LIMIT
#endif

enum {
    BLOCKETTES = (LONGEST + CTC_BLOCKETTE_LENGTH - 1) / CTC_BLOCKETTE_LENGTH,
    ROOM = 2 + CTC_BLOCKETTE_LENGTH * (BLOCKETTES + 2) + 16,
    MARKS_ROOM = BLOCKETTES + 2 + 16,
};

static uint8_t bytes[LONGEST + 16], image[ROOM], other[ROOM], space[ROOM];
static uint8_t marks[MARKS_ROOM], other_marks[MARKS_ROOM], marks_space[MARKS_ROOM];

/* ---- text ---- */

static void write_number(uint32_t number, uint32_t base, uint32_t digits)
{
    char text[12];
    uint32_t at = sizeof text - 1;
    text[at] = 0;
    do {
        text[--at] = "0123456789abcdef"[number % base];
        number /= base;
    } while (number != 0 || sizeof text - 1 - at < digits);
    board_write(text + at);
}

/* ---- random numbers: xorshift, always the same ones ---- */

static uint32_t seed = 2463534242u;

static uint32_t next(void)
{
    seed ^= seed << 13;
    seed ^= seed >> 17;
    seed ^= seed << 5;
    return seed;
}

static uint32_t below(uint32_t limit)
{
    return next() % limit;
}

static int once_in(uint32_t times)
{
    return below(times) == 0;
}

static uint8_t any_byte(void)
{
    return (uint8_t)(next() >> 8);
}

static void fill(uint8_t *to, uint32_t length)
{
    for (uint32_t i = 0; i < length; i++) {
        to[i] = any_byte();
    }
}

/* Another byte somewhere. The order of the two numbers is said, since compilers may choose one. */
static void change(uint8_t *from, uint32_t length)
{
    uint32_t place = below(length);
    from[place] = any_byte();
}

/* ---- the fold ---- */

static uint32_t folded;

static void fold_number(uint32_t number)
{
    for (uint32_t i = 0; i < 4; i++) {
        folded = (folded ^ (number >> 8 * i & 255u)) * 16777619u;
    }
}

static void fold(const uint8_t *from, uint32_t length)
{
    for (uint32_t i = 0; i < length; i++) {
        folded = (folded ^ from[i]) * 16777619u;
    }
}

static void start(void)
{
    folded = 2166136261u;
}

static void tell(const char *name)
{
    board_write(name);
    board_write(" ");
    write_number(folded, 16, 8);
    board_write("\n");
}

/* ---- records ---- */

/* Some counts, those at the edges of blockettes, and those at the end. */
static const uint32_t counts[] = {
    0,   1,   2,   3,    5,    255,         256,         257,     511,
    512, 513, 600, 1000, 1023, LONGEST - 2, LONGEST - 1, LONGEST,
};
enum { COUNTS = sizeof counts / sizeof counts[0] };

/* A number whose lower 32 bits alone would be a small one. */
static const ctc_size wide = (ctc_size)-1 - 0xFFFFFFFFu + 4;

static void lengths(void)
{
    const ctc_size odd[] = {CTC_COUNT_LIMIT + 1, 65791, 0x10000000u, 0xFFFFFFFFu, wide, (ctc_size)-1};
    start();
    for (uint32_t density = 0; density < 3; density++) {
        for (uint32_t count = 0; count <= CTC_COUNT_LIMIT; count += count % 256 == 1 ? 126 : 1) {
            fold_number((uint32_t)ctc_image_length(count, (uint8_t)density));
            fold_number((uint32_t)ctc_mark_count(count, (uint8_t)density));
        }
        for (uint32_t i = 0; i < sizeof odd / sizeof odd[0]; i++) {
            fold_number((uint32_t)ctc_image_length(odd[i], (uint8_t)density));
            fold_number((uint32_t)ctc_mark_count(odd[i], (uint8_t)density));
        }
    }
    for (uint32_t i = 0; i < 4; i++) {
        for (uint32_t k = 0; k < 1000; k++) {
            image[0] = any_byte();
            image[1] = any_byte();
            fold_number((uint32_t)ctc_image_count(image, i));
        }
    }
    tell("lengths");
}

static void build_one(uint32_t count, uint8_t density, ctc_size place, ctc_size room)
{
    fold_number(ctc_build(bytes, count, density, place, space, room));
    fold(space, ROOM);
}

static void builds(void)
{
    start();
    fill(bytes, sizeof bytes);
    fill(space, ROOM);
    for (uint32_t i = 0; i < COUNTS; i++) {
        for (uint8_t density = 0; density < 2; density++) {
            uint32_t count = counts[i], length = (uint32_t)ctc_image_length(count, density);
            build_one(count, density, CTC_NO_PLACE, length);
            build_one(count, density, CTC_NO_PLACE, length - 1);
            build_one(count, density, count / 2, length + 7);
            build_one(count, density, count, length);
        }
    }
    if (sizeof bytes > CTC_COUNT_LIMIT) {
        build_one(CTC_COUNT_LIMIT + 1, CTC_DENSITY_GCR, CTC_NO_PLACE, ROOM);
    }
    build_one(5, CTC_DENSITY_MFM, (ctc_size)-1, ROOM);
    build_one(5, CTC_DENSITY_MFM, wide, ROOM);
    build_one(5, 255, 0, ROOM);
    tell("build");
}

/* An image of this many bytes with good marks. */
static uint32_t image_of(uint8_t *to, uint8_t *its_marks, uint32_t count, uint8_t density)
{
    ctc_build(bytes, count, density, CTC_NO_PLACE, to, ROOM);
    for (uint32_t i = 0; i < MARKS_ROOM; i++) {
        its_marks[i] = CTC_MARK_GOOD;
    }
    return (uint32_t)ctc_image_length(count, density);
}

/* Spoils a blockette of an image, and marks it. */
static void spoil(uint8_t *from, uint8_t *its_marks, uint32_t blockette)
{
    fill(from + 2 + CTC_BLOCKETTE_LENGTH * blockette, CTC_BLOCKETTE_LENGTH);
    its_marks[blockette] = (uint8_t)(1 + below(9));
}

static void restore_one(ctc_size length, ctc_size marks_length, ctc_size room)
{
    fold_number(ctc_restore(image, length, marks, marks_length, space, room));
    fold(space, ROOM);
}

static void restores(void)
{
    start();
    fill(space, ROOM);
    for (uint32_t i = 0; i < COUNTS; i++) {
        uint32_t count = counts[i];
        uint32_t number = (uint32_t)ctc_mark_count(count, CTC_DENSITY_GCR);
        for (uint32_t bad = 0; bad < 4; bad++) {
            uint32_t length = image_of(image, marks, count, CTC_DENSITY_GCR);
            for (uint32_t k = 0; k < bad && number > 0; k++) {
                spoil(image, marks, below(number));
            }
            fold_number(ctc_verify(image, length));
            fold_number(ctc_verify(image, length - 1));
            restore_one(length, number, count);
            restore_one(length, number, count == 0 ? 0 : count - 1);
            restore_one(length - 1, number, ROOM);
            restore_one(length, number + 1, ROOM);
            marks[number / 2] = 10;
            restore_one(length, number, ROOM);
        }
    }
    restore_one(1, 0, ROOM);
    tell("restore");
}

static void merges(void)
{
    start();
    fill(space, ROOM);
    fill(marks_space, MARKS_ROOM);
    for (uint32_t i = 0; i < COUNTS; i++) {
        uint32_t count = counts[i];
        uint32_t number = (uint32_t)ctc_mark_count(count, CTC_DENSITY_GCR);
        for (uint32_t way = 0; way < 4; way++) {
            uint32_t length = image_of(image, marks, count, CTC_DENSITY_GCR);
            image_of(other, other_marks, count, CTC_DENSITY_GCR);
            for (uint32_t k = 0; k < 3 && number > 0; k++) {
                spoil(image, marks, below(number));
                spoil(other, other_marks, below(number));
            }
            if (way == 1) {
                other[length - 1] ^= 1; /* unlike, if it is good */
            } else if (way == 2) {
                other[1] ^= 1; /* another count, and a wrong length with it */
            }
            fold_number(ctc_merge(image, length, marks, number, other, length, other_marks, number,
                                  space, way == 3 ? length - 1 : ROOM, marks_space, MARKS_ROOM));
            fold(space, ROOM);
            fold(marks_space, MARKS_ROOM);
        }
    }
    tell("merge");
}

static void scans(void)
{
    start();
    fill(space, ROOM);
    for (uint32_t i = 0; i < 4000; i++) {
        uint32_t number = below(MARKS_ROOM + 1);
        for (uint32_t k = 0; k < number; k++) {
            marks[k] = once_in(60) ? any_byte() : CTC_MARK_GOOD;
        }
        fold_number(ctc_scan(marks, number, space, below(CTC_REPORT_LENGTH + 4)));
        fold(space, CTC_REPORT_LENGTH + 4);
    }
    tell("scan");
}

/* ---- the walk ---- */

/* Places of a state that the walk looks at, so that it gets far: it calls what the phase awaits. */
enum { SELECTED = 25, PHASE = 49, HELD = 50 };
enum { COLLECTING, ACK_OFFERED, SENDING, GO_OFFERED, DATA_AWAITED, RESULT_AWAITED, END_OFFERED };
enum { READ = 0, SUPPLIED_COUNT = 2, SKIP_FORWARD = 7, SKIP_REVERSE = 8, SEARCHES = 9, MARK = 11 };

static ctc_state state;
static ctc_answer answer;
static uint8_t check[CTC_CHECK_LENGTH + 1];
static uint32_t refusals[32], actions[4], given_bytes, settled, made;

/* A length: most are short. */
static uint32_t some_count(void)
{
    return once_in(100) ? below(LONGEST + 1) : below(once_in(4) ? 800 : 40);
}

/* As it should be, or, seldom, something near it. */
static ctc_size nearly(uint32_t length, uint32_t limit)
{
    if (once_in(24)) {
        uint32_t off = length + below(3) - 1;
        return off <= limit ? off : length;
    }
    return length;
}

static uint32_t queue_call(void)
{
    static const uint8_t controls[] = {0x00, 0x01, 0x03, 0x05, 0x08, 0x09, 0x0A, 0x0B, 0x0C, 0x0D,
                                       0x0D, 0x10, 0x10, 0x10, 0x10, 0x11, 0x20, 0x21, 0x22, 0x24};
    static const uint8_t reads[] = {0x00, 0x00, 0x00, 0x40, 0x80, 0x80, 0x81};
    static const uint8_t operations[] = {0x38, 0x38, 0x48, 0x48, 0x58, 0x58, 0x58, 0x68};
    uint8_t operation = operations[below(sizeof operations)];
    uint32_t drive = below(4), interrupt = once_in(3) ? 0x80 : 0;
    uint8_t address = (uint8_t)(operation | drive | interrupt);
    uint8_t first = operation == 0x48 ? reads[below(sizeof reads)] : 0;
    uint32_t count = some_count();
    uint8_t last = operation == 0x38 ? controls[below(sizeof controls)] : (uint8_t)count;
    uint8_t job = (uint8_t)below(4);
    if (once_in(40)) {
        address = any_byte();
        job = (uint8_t)below(6);
    }
    return ctc_queue(&state, job, address, first, 0, (uint8_t)(count >> 8), last, &answer);
}

static uint32_t report_call(void)
{
    static const uint8_t reports[] = {0x22, 0x22, 0x23, 0x32, 0x32, 0x62, 0xA2, 0x2A, 0x26, 0x00};
    uint8_t report = once_in(16) ? any_byte() : reports[below(sizeof reports)];
    uint8_t drive = (uint8_t)below(once_in(20) ? 256 : 4);
    return ctc_report(&state, drive, report, &answer);
}

/* A byte: of a string, what comes next; of an offer, mostly that it is accepted. */
static uint32_t byte_call(void)
{
    uint8_t byte = once_in(6) ? CTC_NACK : CTC_ACK;
    uint32_t held = state.bytes[HELD];
    if (state.bytes[PHASE] == COLLECTING && held < 8) {
        uint32_t whole = state.bytes[HELD + 1] == 0x62 ? 4 : 8;
        byte = any_byte();
        if (held == 0) {
            byte = once_in(2) ? 0x62 : 0x64;
        } else if (held == 1) {
            byte = (uint8_t)(whole == 4 ? byte & 7 : (byte & 0x3B) | 0x08);
        } else if (held + 1 == whole) {
            byte = 0;
            for (uint32_t k = 1; k <= held; k++) {
                byte ^= state.bytes[HELD + k];
            }
        }
    }
    if (once_in(30)) {
        byte = any_byte();
    }
    return ctc_byte(&state, byte, &answer);
}

static ctc_size check_length(void)
{
    return once_in(40) ? CTC_CHECK_LENGTH + below(3) - 1 : CTC_CHECK_LENGTH;
}

static uint32_t data_call(void)
{
    uint32_t count = (uint32_t)state.bytes[HELD + 3] << 8 | state.bytes[HELD + 4];
    uint32_t length = count < LONGEST ? count : LONGEST;
    ctc_size host_len = nearly(length, LONGEST), room = ROOM, place = CTC_NO_PLACE;
    if (once_in(4)) {
        place = once_in(8) ? wide : below(length + 2);
    }
    if (once_in(6)) {
        room = below(once_in(2) ? 64 : ROOM);
    }
    change(bytes, LONGEST);
    change(bytes, 40);
    return ctc_data(&state, bytes, host_len, place, space, room, check, check_length(), &answer);
}

/* A result that fits the operation, or nearly. */
static uint32_t result_call(void)
{
    static const uint8_t codes[] = {0x00, 0x00, 0x00, 0x00, 0x00, 0x00, 0x00, 0x00, 0x10, 0x11,
                                    0x12, 0x07, 0x08, 0x13, 0x14, 0x15, 0x16, 0x17, 0x18, 0x1F};
    uint32_t operation = state.bytes[HELD], drive = state.bytes[SELECTED] & 3u;
    uint8_t density = state.bytes[1 + 6 * drive + 3] & 1u;
    uint8_t code = codes[below(sizeof codes)], late = (uint8_t)(once_in(5) ? below(5) : 0), mark;
    uint32_t count = some_count(), length = 0, number = 0;
    ctc_size room = ROOM;
    mark = operation >= SEARCHES && operation < MARK ? code == 0 : once_in(16);
    if (operation == SUPPLIED_COUNT) {
        count = (uint32_t)state.bytes[HELD + 4] << 8 | state.bytes[HELD + 5];
        count = count < LONGEST ? count : LONGEST;
        density = CTC_DENSITY_GCR;
    }
    change(bytes, 40);
    int brings = (operation == READ || operation == SKIP_FORWARD) && mark == 0 &&
                 (code == 0 || (code >= 0x10 && code <= 0x12));
    if (brings || (operation == SUPPLIED_COUNT && code == 0 && count > 0)) {
        length = image_of(image, marks, count, density);
        number = (uint32_t)ctc_mark_count(count, density);
        for (uint32_t bad = below(4); bad > 1 && number > 0; bad--) {
            spoil(image, marks, below(number));
        }
        if (number > 0 && once_in(8)) {
            change(marks, number);
        }
    } else if (operation == SKIP_REVERSE && density != 0 && code == 0 && mark == 0) {
        fill(image, 2);
        length = 2;
    }
    if (once_in(8)) {
        room = below(600);
    }
    if (once_in(40)) {
        code = any_byte();
    }
    ctc_size image_len = nearly(length, ROOM), marks_len = nearly(number, MARKS_ROOM);
    return ctc_result(&state, code, mark, late, image, image_len, marks, marks_len, space, room,
                      check, check_length(), &answer);
}

static uint32_t any_call(void)
{
    switch (below(14)) {
    case 0: return ctc_taken(&state, &answer);
    case 1: return ctc_broken(&state, &answer);
    case 2: return report_call();
    case 3: return data_call();
    case 4: return result_call();
    case 5: return ctc_tick(&state, &answer);
    case 6: return once_in(20) ? ctc_reset(&state, &answer) : ctc_hand(&state, &answer);
    case 7: case 8: return ctc_hand(&state, &answer);
    case 9: case 10: case 11: return queue_call();
    default: return byte_call();
    }
}

/* The call that the phase awaits, or any. */
static uint32_t walk_call(void)
{
    if (once_in(4)) {
        return any_call();
    }
    switch (state.bytes[PHASE]) {
    case COLLECTING: return state.bytes[HELD] == 0 ? any_call() : byte_call();
    case ACK_OFFERED: return ctc_taken(&state, &answer);
    case DATA_AWAITED: return data_call();
    case RESULT_AWAITED: return result_call();
    default: return byte_call();
    }
}

static void walk_one(void)
{
    /* memory that a fault changed; a state that is refused for it is made anew now and then */
    if (once_in(300)) {
        change(state.bytes, CTC_STATE_LENGTH);
    }
    uint8_t phase = state.bytes[PHASE];
#ifdef WRONG_CALL /* wrong: one call of all is another */
    uint32_t refusal = made == CALLS / 2 ? ctc_report(&state, 0, 0x55, &answer) : walk_call();
#else
    uint32_t refusal = walk_call();
#endif
    made++;
    refusals[refusal & 31u]++;
    fold_number(refusal);
    fold(answer.bytes, CTC_ANSWER_LENGTH);
    fold(state.bytes, CTC_STATE_LENGTH);
    if (refusal == CTC_DONE) {
        actions[ctc_action(&answer) & 3u]++;
        settled += ctc_settled(&answer);
        given_bytes += ctc_given(&answer);
        fold(space, ctc_given(&answer) <= ROOM ? ctc_given(&answer) : ROOM);
    }
    if (phase == DATA_AWAITED || phase == RESULT_AWAITED) {
        fold(check, sizeof check);
    }
    if (once_in(1000)) {
        fold(space, ROOM);
    }
    if (refusal == CTC_REFUSED_DAMAGED && once_in(4)) {
        fold_number(ctc_fresh(&state));
    }
}

static void tell_counts(const char *name, const uint32_t *numbers, uint32_t length)
{
    board_write(name);
    for (uint32_t i = 0; i < length; i++) {
        if (numbers[i] != 0) {
            board_write(" ");
            write_number(i, 10, 1);
            board_write(":");
            write_number(numbers[i], 10, 1);
        }
    }
    board_write("\n");
}

static void walk(void)
{
    start();
    fill(bytes, sizeof bytes);
    fill(space, ROOM);
    fill(check, sizeof check);
    fill(answer.bytes, CTC_ANSWER_LENGTH);
    fold_number(ctc_fresh(&state));
    for (uint32_t part = 1; part <= 4; part++) {
        while (made < CALLS / 4 * part) {
            walk_one();
        }
        tell("walk");
    }
    const uint32_t sums[] = {made, settled, given_bytes};
    tell_counts("refusals", refusals, 32);
    tell_counts("actions", actions, 4);
    tell_counts("calls, settled stores, bytes given", sums, 3);
}

int board_main(void)
{
    lengths();
    builds();
    restores();
    merges();
    scans();
    walk();
    board_write("end\n");
    return 0;
}
