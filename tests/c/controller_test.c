/*
 * Tests of ctc_controller.h from C, of what no line of a session can show: bytes that are
 * no state, records of 65,535 bytes with a bad byte's place, lengths and places above 32
 * bits, the constants and the inline functions of the header. What is expected is worked
 * out by hand or by the papers' rules. State, answer, space and check store lie between
 * guard bytes, and every refused call must leave all of them as they were.
 */
#include "ctc_controller.h"

#include <stdarg.h>
#include <stdbool.h>
#include <stddef.h>
#include <stdint.h>
#include <stdio.h>
#include <stdlib.h>
#include <string.h>

#ifdef WRONG
#include "controller_wrong.h"
#endif

/* ---- counting */

static int passed, failed;
static bool test_failed;
static const char *test_name = "no test";

__attribute__((format(printf, 2, 3))) static void expect(bool holds, const char *format, ...)
{
    if (holds) {
        return;
    }
    if (!test_failed) { /* the first failure says enough */
        va_list words;
        va_start(words, format);
        printf("  %s: ", test_name);
        vprintf(format, words);
        printf("\n");
        va_end(words);
    }
    test_failed = true;
}

static void run(const char *name, void (*test)(void))
{
    test_name = name;
    test_failed = false;
    test();
    printf("%s %s\n", test_failed ? "FAILED" : "ok", name);
    if (test_failed) {
        failed++;
    } else {
        passed++;
    }
}

/* ---- what is lent */

enum { GUARD = 64, SPACE = 66050, RECORD = 65535, CHECK = 512 };

/* All that a call may write, so that one comparison tells whether it wrote at all. */
struct lent {
    uint8_t guard_1[GUARD];
    ctc_state state;
    uint8_t guard_2[GUARD];
    ctc_answer answer;
    uint8_t guard_3[GUARD];
    uint8_t space[SPACE];
    uint8_t guard_4[GUARD];
    uint8_t check[CHECK];
    uint8_t guard_5[GUARD];
};

static struct lent now, before;

static uint8_t host[RECORD], record[RECORD], image[SPACE], marks[258];

static void keep(void)
{
    memcpy(&before, &now, sizeof now);
}

static bool unchanged(void)
{
    return memcmp(&before, &now, sizeof now) == 0;
}

static bool guards_stand(void)
{
    static const size_t places[] = {
        offsetof(struct lent, guard_1), offsetof(struct lent, guard_2),
        offsetof(struct lent, guard_3), offsetof(struct lent, guard_4),
        offsetof(struct lent, guard_5),
    };
    for (size_t guard = 0; guard < sizeof places / sizeof places[0]; guard++) {
        for (size_t place = 0; place < GUARD; place++) {
            if (((const uint8_t *)&now)[places[guard] + place] != 0xA5) {
                return false;
            }
        }
    }
    return true;
}

/* A fresh controller, and lent space that holds no zeros. */
static void begin(void)
{
    memset(&now, 0xA5, sizeof now);
    expect(ctc_fresh(&now.state) == 0, "no fresh state");
    memset(now.check, 0, sizeof now.check);
}

static bool six_are(uint32_t action, uint8_t a, uint8_t b, uint8_t c, uint8_t d, uint8_t e,
                    uint8_t f)
{
    const uint8_t six[6] = {a, b, c, d, e, f};
    return ctc_action(&now.answer) == action && memcmp(ctc_six(&now.answer), six, 6) == 0;
}

static bool nothing_to_do(void)
{
    return six_are(0, 0, 0, 0, 0, 0, 0);
}

static bool settled(uint32_t code, uint32_t motion, uint32_t count)
{
    return ctc_settled(&now.answer) == 1 && ctc_settled_code(&now.answer) == code &&
           ctc_settled_motion(&now.answer) == motion && ctc_settled_count(&now.answer) == count;
}

/* ---- the ten functions that read a state, each with arguments that fit some state */

enum { FUNCTIONS = 10 };

static const char *const names[FUNCTIONS] = {"byte",   "taken", "broken", "report", "data",
                                             "result", "tick",  "reset",  "queue",  "hand"};

static uint32_t call(int function)
{
    switch (function) {
    case 0:
        return ctc_byte(&now.state, 0x06, &now.answer);
    case 1:
        return ctc_taken(&now.state, &now.answer);
    case 2:
        return ctc_broken(&now.state, &now.answer);
    case 3:
        return ctc_report(&now.state, 1, 0x22, &now.answer);
    case 4:
        return ctc_data(&now.state, host, 5, CTC_NO_PLACE, now.space, SPACE, now.check, CHECK,
                        &now.answer);
    case 5:
        return ctc_result(&now.state, 0, 0, 0, NULL, 0, NULL, 0, now.space, SPACE, now.check,
                          CHECK, &now.answer);
    case 6:
        return ctc_tick(&now.state, &now.answer);
    case 7:
        return ctc_reset(&now.state, &now.answer);
    case 8:
        return ctc_queue(&now.state, 1, 0x48, 0, 0, 0, 0, &now.answer);
    default:
        return ctc_hand(&now.state, &now.answer);
    }
}

/* Every function refuses the state that is there with 1, and writes nothing. */
static void all_refuse(const char *damage, unsigned place, unsigned value)
{
    keep();
    for (int function = 0; function < FUNCTIONS; function++) {
        uint32_t refusal = call(function);
        expect(refusal == 1, "%s, place %u is %u: %s returns %u", damage, place, value,
               names[function], (unsigned)refusal);
        expect(unchanged(), "%s, place %u is %u: %s writes", damage, place, value,
               names[function]);
        memcpy(&now, &before, sizeof now);
    }
}

/* ---- states */

static void fresh_states(void)
{
    uint8_t expected[224] = {0};
    expected[0] = 1;
    for (int drive = 0; drive < 4; drive++) {
        expected[1 + 6 * drive] = 4;     /* position unknown */
        expected[1 + 6 * drive + 1] = 4; /* and its copy */
        expected[1 + 6 * drive + 4] = 3; /* the gap is lost */
    }
    expected[26] = 1;  /* changed */
    expected[223] = 3; /* job 0 comes first */
    for (int fill = 0; fill < 256; fill += 85) {
        memset(&now, 0xA5, sizeof now);
        memset(&now.state, fill, sizeof now.state);
        expect(ctc_fresh(&now.state) == 0, "filled with %d: refused", fill);
        expect(memcmp(now.state.bytes, expected, 224) == 0, "filled with %d: other bytes", fill);
        expect(guards_stand(), "filled with %d: written beside the state", fill);
    }
}

static void bytes_that_are_no_state(void)
{
    for (int fill = 0; fill < 256; fill++) {
        begin();
        memset(now.state.bytes, fill, 224);
        all_refuse("all bytes alike", 0, (unsigned)fill);
    }
}

static void other_layouts(void)
{
    for (int number = 0; number < 256; number++) {
        if (number != 1) {
            begin();
            now.state.bytes[0] = (uint8_t)number;
            all_refuse("another layout", 0, (unsigned)number);
        }
    }
}

/* One field above its range, the others fresh: the most that it may be, and above it. */
static void above(const char *field, unsigned place, unsigned most)
{
    static const unsigned more[] = {1, 2, 16, 128};
    begin();
    uint8_t fresh = now.state.bytes[place];
    now.state.bytes[place] = (uint8_t)most;
    expect(ctc_report(&now.state, 0, 0x22, &now.answer) == 0, "%s of %u is refused", field, most);
    for (size_t i = 0; i < sizeof more / sizeof more[0]; i++) {
        begin();
        expect(now.state.bytes[place] == fresh, "%s: another fresh state", field);
        now.state.bytes[place] = (uint8_t)(most + more[i]);
        all_refuse(field, place, most + more[i]);
    }
    begin();
    now.state.bytes[place] = 255;
    all_refuse(field, place, 255);
}

static void fields_out_of_range(void)
{
    for (unsigned drive = 0; drive < 4; drive++) {
        above("track", 1 + 6 * drive + 2, 3);
        above("density", 1 + 6 * drive + 3, 1);
        above("gap", 1 + 6 * drive + 4, 3);
        above("guard", 1 + 6 * drive + 5, 1);
    }
    above("selected drive", 25, 3);
    for (unsigned place = 26; place <= 29; place++) {
        above("a flag of changed, enable, retry, mark", place, 1);
    }
    above("code", 30, 31);
    above("motion", 31, 3);
    for (unsigned place = 34; place <= 40; place++) {
        above("a flag of bits 16 to 22", place, 1);
    }
    for (unsigned job = 0; job < 4; job++) {
        above("length of a queue", 59 + 41 * job, 8);
    }
    above("job served last", 223, 3);
}

/* What a phase holds, one byte of it above its range. */
static void held(const char *what, uint8_t phase, const uint8_t *nine, unsigned at, unsigned most)
{
    for (unsigned value = most; value < 256; value += value == most ? 1 : 61) {
        begin();
        now.state.bytes[49] = phase;
        memcpy(now.state.bytes + 50, nine, 9);
        now.state.bytes[50 + at] = (uint8_t)value;
        if (value > most) {
            all_refuse(what, 50 + at, value);
        } else {
            expect(ctc_report(&now.state, 0, 0x22, &now.answer) == 0, "%s of %u is refused", what,
                   most);
        }
    }
}

static void phases(void)
{
    static const uint8_t zeros[9] = {0};
    static const uint8_t sending[9] = {0, 0x66, 0, 0, 0, 0, 0x66, 0, 0};
    for (unsigned phase = 7; phase < 256; phase++) {
        begin();
        now.state.bytes[49] = (uint8_t)phase;
        all_refuse("phase", 49, phase);
    }
    held("kind of a string", 2, sending, 0, 3);
    held("noes", 2, sending, 7, 4);
    held("operation", 5, zeros, 0, 11);
    held("interrupt asked", 6, zeros, 0, 1);
    /* a string whose lead is neither 62 nor 64, and one that has more bytes than its lead says */
    begin();
    now.state.bytes[50] = 1;
    now.state.bytes[51] = 0x63;
    all_refuse("lead", 51, 0x63);
    begin();
    now.state.bytes[50] = 4;
    now.state.bytes[51] = 0x62;
    all_refuse("collected of a load", 50, 4);
    begin();
    now.state.bytes[49] = 1;
    now.state.bytes[50] = 7;
    now.state.bytes[51] = 0x64;
    all_refuse("ACK offered to seven bytes of a store", 50, 7);
}

/* What stands behind what a phase holds is not looked at, and is written as 0. */
static void bytes_not_looked_at(void)
{
    begin();
    now.state.bytes[49] = 6;
    now.state.bytes[50] = 0;
    memset(now.state.bytes + 51, 0xFF, 8);
    expect(ctc_byte(&now.state, 0x06, &now.answer) == 0, "refused");
    expect(now.state.bytes[49] == 0, "EOR is still offered");
    for (int place = 50; place < 59; place++) {
        expect(now.state.bytes[place] == 0, "place %d is %u", place, now.state.bytes[place]);
    }
}

/* ---- queues */

static void refused_with(uint32_t expected, uint32_t refusal, const char *what)
{
    expect(refusal == expected, "%s returns %u, and not %u", what, (unsigned)refusal,
           (unsigned)expected);
    expect(unchanged(), "%s writes", what);
}

static uint32_t queue(uint8_t job, uint8_t address)
{
    return ctc_queue(&now.state, job, address, 0, 0, 0, 0, &now.answer);
}

static void queue_refusals(void)
{
    begin();
    keep();
    for (unsigned job = 4; job < 256; job++) {
        refused_with(16, queue((uint8_t)job, 0x48), "a job above 3");
    }
    for (unsigned address = 0; address < 256; address++) {
        bool names_a_drive = address & 0x08, is_reset = (address & 0x70) == 0;
        if (!names_a_drive || is_reset) {
            refused_with(16, queue(0, (uint8_t)address), "no drive, or a reset store");
        }
    }
    for (int stores = 0; stores < 8; stores++) {
        expect(queue(2, 0x4A) == 0 && nothing_to_do(), "store %d", stores);
        expect(now.state.bytes[59 + 2 * 41] == stores + 1, "a length after store %d", stores);
    }
    keep();
    refused_with(17, queue(2, 0x4A), "a ninth store");
    refused_with(16, queue(2, 0x42), "a ninth store that names no drive");
    refused_with(16, queue(2, 0x0A), "a ninth store, a reset");
    expect(queue(3, 0x4A) == 0, "another job has a queue of its own");
}

static void queued_bytes(void)
{
    static const uint8_t expected[11] = {2, 0x5B, 1, 2, 3, 4, 0xCF, 5, 6, 7, 8};
    begin();
    expect(ctc_queue(&now.state, 1, 0x5B, 1, 2, 3, 4, &now.answer) == 0 &&
               ctc_queue(&now.state, 1, 0xCF, 5, 6, 7, 8, &now.answer) == 0,
           "refused");
    expect(memcmp(now.state.bytes + 59 + 41, expected, sizeof expected) == 0, "other bytes");
}

static void hand_refusals(void)
{
    begin();
    expect(ctc_byte(&now.state, 0x62, &now.answer) == 0, "a lead is refused");
    keep();
    refused_with(4, ctc_hand(&now.state, &now.answer), "a hand while a string is collected");
    refused_with(4, ctc_tick(&now.state, &now.answer), "a tick while a string is collected");
    expect(queue(0, 0x7C) == 0, "a store is not queued");
    keep();
    refused_with(4, ctc_hand(&now.state, &now.answer), "the same with a store queued");
    expect(ctc_broken(&now.state, &now.answer) == 0 && ctc_hand(&now.state, &now.answer) == 0,
           "the hand after it");
    expect(nothing_to_do() && settled(1, 0, 0), "drive 4 is not code 01");
    expect(now.state.bytes[223] == 0, "job 0 is not the one served last");
    expect(ctc_hand(&now.state, &now.answer) == 0 && nothing_to_do() &&
               ctc_settled(&now.answer) == 0,
           "a hand with nothing queued");
}

/* ---- records of 65,535 bytes */

/* The store is queued by job 2 for drive 2 and handed over. */
static uint32_t handed(uint8_t address, uint8_t first, uint8_t second, uint8_t third,
                       uint8_t fourth)
{
    uint32_t refusal =
        ctc_queue(&now.state, 2, address, first, second, third, fourth, &now.answer);
    return refusal != 0 ? refusal : ctc_hand(&now.state, &now.answer);
}

/* A tape in drive 2, in the density; a write of the count was offered GO, which was accepted. */
static void begin_write(bool gcr, uint8_t thrown, unsigned count)
{
    begin();
    expect(ctc_report(&now.state, 2, 0x22, &now.answer) == 0, "a report is refused");
    expect(handed(0x3A, 0, 0, 0, gcr ? 0x0D : 0x0C) == 0 && settled(0, 0, 0), "no density");
    expect(handed(0x5A, 0, thrown, (uint8_t)(count >> 8), (uint8_t)count) == 0 &&
               six_are(1, 0x47, 0, 0, 0, 0, 0) && ctc_settled(&now.answer) == 0,
           "no GO");
    expect(ctc_byte(&now.state, 0x06, &now.answer) == 0 && nothing_to_do(), "GO not accepted");
    memset(now.space, 0xA5, SPACE);
}

static uint32_t data(ctc_size host_len, ctc_size place, ctc_size space_len, ctc_size check_len)
{
    return ctc_data(&now.state, host, host_len, place, now.space, space_len, now.check, check_len,
                    &now.answer);
}

/* The image in GCR of 65,535 bytes of `record`, by the rules of the papers. */
static void build_image(void)
{
    memset(image, 0, sizeof image);
    image[0] = image[1] = 0xFF; /* sixteen ones, turned by one bit */
    memcpy(image + 2, record, RECORD);
    for (unsigned blockette = 0; blockette < 256; blockette++) {
        /* the first on tape has number 255, which is odd; check blockette 1 comes first */
        uint8_t *check = image + 2 + 256 * (256 + (size_t)(blockette % 2));
        for (size_t place = 0; place < 256; place++) {
            check[place] ^= image[2 + 256 * (size_t)blockette + place];
        }
    }
}

static void fill_host(void)
{
    uint32_t number = 80008000;
    for (size_t place = 0; place < RECORD; place++) {
        number = number * 1664525 + 1013904223;
        host[place] = (uint8_t)(number >> 24 | 1); /* never zero, so that zeros tell */
    }
}

enum { BAD = 40000 };

static void write_the_longest(void)
{
    fill_host();
    memcpy(record, host, RECORD);
    memset(record + BAD + 1, 0, RECORD - BAD - 1);
    build_image();
    begin_write(true, 0, RECORD);
    expect(data(RECORD, BAD, SPACE, CHECK) == 0, "the data call is refused");
    expect(six_are(3, 0x50, 2, 0, 1, 0xFF, 0xFF), "another order");
    expect(ctc_settled(&now.answer) == 0, "settled too early");
    expect(ctc_given(&now.answer) == 66050, "gives %u bytes", (unsigned)ctc_given(&now.answer));
    expect(memcmp(now.space, image, SPACE) == 0, "another image");
    expect(memcmp(now.check, image + 2 + RECORD + 1, CHECK) == 0, "another check store");
    expect(ctc_result(&now.state, 0, 0, 0, NULL, 0, NULL, 0, NULL, 0, now.check, CHECK,
                      &now.answer) == 0,
           "the result is refused");
    expect(six_are(1, 0x45, 0, 0, 0, 0, 0) && settled(0, 1, 65535), "another end of the write");
    expect(ctc_byte(&now.state, 0x06, &now.answer) == 0 && nothing_to_do(), "EOR not accepted");
    expect(guards_stand(), "written beside the lent space");
}

/* Primary over the link, as a host asks for it. */
static void load_primary(void)
{
    static const uint8_t load[4] = {0x62, 0x10, 0x00, 0x72};
    for (int place = 0; place < 4; place++) {
        expect(ctc_byte(&now.state, load[place], &now.answer) == 0, "a byte is refused");
    }
    expect(six_are(1, 0x06, 0, 0, 0, 0, 0), "no ACK");
    expect(ctc_taken(&now.state, &now.answer) == 0, "taken is refused");
}

static void long_records(void)
{
    write_the_longest();
    load_primary();
    /* changed, retry, drive 2; forward, code 00; parity, count, GCR; report 22 */
    expect(six_are(2, 0x66, 0xA2, 0x20, 0x83, 0x22, 0x45), "another primary of the write");
    expect(ctc_byte(&now.state, 0x06, &now.answer) == 0, "primary is not accepted");

    expect(handed(0x4A, 0, 0, 0, 0) == 0 && six_are(3, 0x40, 2, 0, 1, 0, 0), "no order to read");
    memset(marks, 15, sizeof marks);
    memset(now.space, 0xA5, SPACE);
    expect(ctc_result(&now.state, 0, 0, 0, image, SPACE, marks, 258, now.space, RECORD, now.check,
                      CHECK, &now.answer) == 0,
           "the result of the read is refused");
    expect(settled(0, 1, 65535) && ctc_given(&now.answer) == 65535, "another end of the read");
    expect(memcmp(now.space, record, RECORD) == 0, "other bytes are read");
    expect(now.space[RECORD] == 0xA5, "written behind the bytes that are read");
    expect(ctc_byte(&now.state, 0x06, &now.answer) == 0, "EOR not accepted");

    /* the same with one byte of space less, and a bad blockette of each parity */
    expect(handed(0x4A, 0, 0, 0, 0) == 0, "no second read");
    memset(now.space, 0xA5, SPACE);
    marks[0] = 9;   /* number 255 */
    marks[255] = 3; /* number 0 */
    expect(ctc_result(&now.state, 0, 0, 0, image, SPACE, marks, 258, now.space, RECORD - 1,
                      now.check, CHECK, &now.answer) == 0,
           "the second result is refused");
    expect(settled(0x15, 1, 65535) && ctc_given(&now.answer) == 65534, "another second read");
    expect(memcmp(now.space, record, RECORD - 1) == 0, "other bytes are read again");
    expect(now.space[RECORD - 1] == 0xA5, "written behind the space");
    expect(memcmp(now.state.bytes + 41, "\x91\xFF\x31\x00", 4) == 0, "another tertiary");
    expect(guards_stand(), "written beside the lent space");
}

static void data_refusals(void)
{
    const ctc_size high = (ctc_size)1 << 32;
    fill_host();
    begin_write(true, 0, RECORD);
    keep();
    refused_with(15, data(RECORD, RECORD, SPACE, CHECK), "a place behind the last byte");
    refused_with(15, data(0, 0, SPACE, CHECK), "a place where there is no byte");
    refused_with(15, data(RECORD, CTC_NO_PLACE - 1, SPACE, CHECK), "one before no place");
    refused_with(15, data(RECORD, CTC_NO_PLACE + 1, SPACE, CHECK), "one behind no place");
    refused_with(15, data(RECORD, high + CTC_NO_PLACE, SPACE, CHECK), "a place above 32 bits");
    refused_with(15, data(RECORD, high + 1, SPACE, CHECK), "a small place above 32 bits");
    refused_with(15, data(RECORD, UINT64_MAX, SPACE, CHECK), "the largest place");
    refused_with(11, data(RECORD, CTC_NO_PLACE, SPACE - 1, CHECK), "a space one byte short");
    refused_with(11, data(RECORD, RECORD, SPACE - 1, CHECK), "11 comes before 15");
    refused_with(6, data(RECORD, CTC_NO_PLACE, SPACE, CHECK - 1), "a check store of 511");
    refused_with(6, data(RECORD, CTC_NO_PLACE, SPACE, CHECK + 1), "a check store of 513");
    refused_with(6, data(RECORD, CTC_NO_PLACE, SPACE, high + CHECK), "one above 32 bits");
    refused_with(6, data(RECORD, RECORD, 0, 0), "6 comes before 11 and 15");
    refused_with(3,
                 ctc_result(&now.state, 0, 0, 0, NULL, 0, NULL, 0, NULL, 0, NULL, 0, &now.answer),
                 "a result while data is awaited, 3 before 6");
    refused_with(2, ctc_byte(&now.state, 0x06, &now.answer), "a byte while data is awaited");
    expect(data(RECORD, CTC_NO_PLACE, SPACE, CHECK) == 0, "refused at last");
    keep();
    refused_with(3, data(RECORD, CTC_NO_PLACE, SPACE, CHECK), "data twice");
}

/* Two bytes are thrown away, five written; the fourth of the seven came with bad parity. */
static void a_place_behind_thrown_bytes(void)
{
    static const uint8_t expected[7] = {0x80, 0x02, 3, 4, 0, 0, 0};
    begin_write(false, 2, 5);
    for (uint8_t place = 0; place < 7; place++) {
        host[place] = (uint8_t)(place + 1);
    }
    expect(data(7, 3, 7, CHECK) == 0, "refused");
    expect(six_are(3, 0x50, 2, 0, 0, 0, 5), "another order");
    expect(ctc_given(&now.answer) == 7 && memcmp(now.space, expected, 7) == 0, "another image");
    expect(now.space[7] == 0xA5, "written behind the image");
}

static void no_bytes_at_all(void)
{
    begin_write(false, 0, 0);
    expect(ctc_data(&now.state, NULL, 0, CTC_NO_PLACE, now.space, 2, now.check, CHECK,
                    &now.answer) == 0,
           "refused");
    expect(ctc_given(&now.answer) == 2 && now.space[0] == 0 && now.space[1] == 0, "no count of 0");
    expect(now.space[2] == 0xA5, "written behind the image");
}

/* ---- arguments */

/* Every value of the mark flag but 0 says yes. */
static void mark_flags(void)
{
    struct lent of_1;
    memset(&of_1, 0, sizeof of_1);
    for (unsigned flag = 1; flag < 256; flag++) {
        begin();
        expect(ctc_report(&now.state, 2, 0x22, &now.answer) == 0 &&
                   handed(0x4A, 0, 0, 0, 0) == 0,
               "no read");
        expect(ctc_result(&now.state, 0, (uint8_t)flag, 0, NULL, 0, NULL, 0, NULL, 0, now.check,
                          CHECK, &now.answer) == 0,
               "a flag of %u is refused", flag);
        expect(now.state.bytes[29] == 1, "a flag of %u is no mark", flag);
        if (flag == 1) {
            memcpy(&of_1, &now, sizeof now);
        }
        expect(memcmp(&of_1, &now, sizeof now) == 0, "a flag of %u is not one of 1", flag);
    }
}

static void result_refusals(void)
{
    const ctc_size high = (ctc_size)1 << 32;
    begin();
    expect(ctc_report(&now.state, 2, 0x22, &now.answer) == 0 && handed(0x4A, 0, 0, 0, 0) == 0,
           "no read");
    memset(image, 0, 16);
    image[0] = 0x80;
    image[1] = 0x02;
    keep();
#define RESULT(code, mark, late, image_len, marks_len, check_len)                                  \
    ctc_result(&now.state, code, mark, late, image, image_len, marks, marks_len, now.space, SPACE, \
               now.check, check_len, &now.answer)
    refused_with(6, RESULT(0, 0, 0, 7, 0, high + CHECK), "a check store above 32 bits");
    refused_with(6, RESULT(0x1F, 0, 9, 9, 9, 0), "6 comes before 7, 8 and 9");
    refused_with(7, RESULT(0x20, 0, 0, 7, 0, CHECK), "a code above 31");
    refused_with(7, RESULT(0xFF, 0, 0, 7, 0, CHECK), "a code of 255");
    refused_with(8, RESULT(0, 0, 4, 7, 0, CHECK), "late flags of 4");
    refused_with(8, RESULT(9, 1, 0, 0, 0, CHECK), "a mark beside code 09");
    refused_with(9, RESULT(0, 0, 0, 6, 0, CHECK), "an image one byte short");
    refused_with(9, RESULT(0, 0, 0, high + 7, 0, CHECK), "an image above 32 bits");
    refused_with(9, RESULT(0, 0, 0, 7, high, CHECK), "marks above 32 bits");
    expect(RESULT(0, 0, 0, 7, 0, CHECK) == 0 && settled(0, 1, 5), "refused at last");
#undef RESULT
    begin();
    keep();
    for (unsigned drive = 4; drive < 256; drive++) {
        refused_with(5, ctc_report(&now.state, (uint8_t)drive, 0x22, &now.answer), "a drive");
    }
    refused_with(2, ctc_taken(&now.state, &now.answer), "taken with no ACK offered");
}

/* A state is its bytes: a copy goes on as the first does, and neither knows of the other. */
static void copies(void)
{
    static uint8_t raw[1 + CTC_STATE_LENGTH + CTC_ANSWER_LENGTH];
    /* an odd place, since bytes need no other */
    ctc_state *copy = (ctc_state *)(void *)(raw + 1);
    ctc_answer *told = (ctc_answer *)(void *)(raw + 1 + CTC_STATE_LENGTH);
    static const uint8_t load[4] = {0x62, 0x40, 0x00, 0x22};
    begin();
    expect(ctc_report(&now.state, 3, 0x23, &now.answer) == 0, "a report is refused");
    memcpy(copy, &now.state, sizeof now.state);
    for (int place = 0; place < 4; place++) {
        expect(ctc_byte(copy, load[place], told) == 0, "a byte is refused");
    }
    expect(now.state.bytes[50] == 0, "a call with the copy changed the first");
    for (int place = 0; place < 4; place++) {
        expect(ctc_byte(&now.state, load[place], &now.answer) == 0, "a byte is refused");
    }
    expect(ctc_taken(copy, told) == 0 && ctc_taken(&now.state, &now.answer) == 0, "no reply");
    expect(six_are(2, 0x66, 4, 4, 4, 0x23, 0x41), "other reports");
    expect(memcmp(told, &now.answer, sizeof now.answer) == 0, "another answer of the copy");
    expect(memcmp(copy, &now.state, sizeof now.state) == 0, "another state of the copy");
}

/* ---- the header itself */

static void inline_functions(void)
{
    const ctc_answer told = {{3, 0x50, 1, 2, 3, 4, 5, 1, 0x15, 2, 0x12, 0x34, 1, 2, 3, 4}};
    const ctc_answer most = {{255, 255, 255, 255, 255, 255, 255, 255, 255, 255, 255, 255, 255, 255,
                              255, 255}};
    expect(ctc_action(&told) == 3, "ctc_action");
    expect(ctc_offered(&told) == 80, "ctc_offered");
    expect(ctc_six(&told) == told.bytes + 1 && ctc_six(&told)[5] == 5, "ctc_six");
    expect(ctc_order_operation(&told) == 0x50 && ctc_order_drive(&told) == 1 &&
               ctc_order_track(&told) == 2 && ctc_order_density(&told) == 3 &&
               ctc_order_operand(&told) == 0x0405,
           "the parts of an order");
    expect(ctc_settled(&told) == 1, "ctc_settled");
    expect(ctc_settled_code(&told) == 21, "ctc_settled_code");
    expect(ctc_settled_motion(&told) == 2, "ctc_settled_motion");
    expect(ctc_settled_count(&told) == 4660, "ctc_settled_count");
    expect(ctc_given(&told) == 16909060, "ctc_given");
    expect(ctc_settled_count(&most) == 65535, "ctc_settled_count of all ones");
    expect(ctc_given(&most) == 4294967295u, "ctc_given of all ones");
}

/* What the header reads of a state, in each phase that a store can come to. */
static void phases_told(void)
{
    static const uint8_t load[4] = {0x62, 0x10, 0x00, 0x72};
    begin();
    expect(ctc_phase(&now.state) == CTC_PHASE_COLLECTING, "fresh");
    for (int place = 0; place < 4; place++) {
        expect(ctc_byte(&now.state, load[place], &now.answer) == 0, "a byte is refused");
    }
    expect(ctc_phase(&now.state) == CTC_PHASE_ACK, "ACK offered");
    expect(ctc_taken(&now.state, &now.answer) == 0, "taken is refused");
    expect(ctc_phase(&now.state) == CTC_PHASE_SENDING, "a string is sent");
    begin();
    expect(ctc_report(&now.state, 2, 0x22, &now.answer) == 0, "a report is refused");
    expect(handed(0x5A, 0, 3, 0x12, 0x34) == 0, "a write is refused");
    expect(ctc_phase(&now.state) == CTC_PHASE_GO, "GO offered");
    expect(ctc_byte(&now.state, CTC_ACK, &now.answer) == 0, "GO is not accepted");
    expect(ctc_phase(&now.state) == CTC_PHASE_DATA, "data awaited");
    expect(ctc_data_length(&now.state) == 3 + 0x1234, "another length of the data");
    expect(data(5, CTC_NO_PLACE, SPACE, CHECK) == 0, "data are refused");
    expect(ctc_phase(&now.state) == CTC_PHASE_RESULT, "a result awaited");
    expect(!ctc_awaits_check_bytes(&now.state), "check bytes instead of a write");
    expect(ctc_result(&now.state, CTC_CODE_DROP_OUT, 0, 0, NULL, 0, NULL, 0, NULL, 0, now.check,
                      CHECK, &now.answer) == 0,
           "the result is refused");
    expect(ctc_phase(&now.state) == CTC_PHASE_EOR, "EOR offered");
    expect(settled(CTC_CODE_DROP_OUT, CTC_MOTION_FORWARD, 0), "another end");
    begin();
    expect(handed(0x4A, 0x40, 0, 0, 0) == 0 && ctc_phase(&now.state) == CTC_PHASE_RESULT &&
               ctc_awaits_check_bytes(&now.state),
           "check bytes are not awaited");
    begin_write(false, 255, RECORD);
    expect(ctc_data_length(&now.state) == 255 + RECORD, "another length of the longest data");
}

#ifndef WRONG
/* The table of results at the head of the header, as the library has it: for tests/controller. */
struct operation {
    uint8_t order, address, first, fourth;
};

static const struct operation operations[] = {
    {0x40, 0x4A, 0, 0},    {0, 0x4A, 0x40, 0},    {0x80, 0x4A, 0x80, 200},
    {0x50, 0x5A, 0, 5},    {0x60, 0x6A, 0, 0},    {0x10, 0x3A, 0, 0x10},
    {0x11, 0x3A, 0, 0x11}, {0x20, 0x3A, 0, 0x20}, {0x21, 0x3A, 0, 0x21},
    {0x22, 0x3A, 0, 0x22}, {0x23, 0x3A, 0, 0x23}, {0x24, 0x3A, 0, 0x24},
};

/* Drive 2, in GCR, has been given the operation's order; a result of the code with what it brings. */
static uint32_t result_of(const struct operation *row, uint8_t code, uint8_t mark,
                          ctc_size image_len)
{
    static const uint8_t count[2] = {0x00, 0x64}; /* of 200 bytes, turned by one bit */
    begin();
    expect(ctc_report(&now.state, 2, 0x22, &now.answer) == 0 && handed(0x3A, 0, 0, 0, 0x0D) == 0 &&
               handed(row->address, row->first, 0, 0, row->fourth) == 0,
           "no tape in GCR");
    if (row->order == CTC_ORDER_WRITE) {
        expect(ctc_byte(&now.state, CTC_ACK, &now.answer) == 0 &&
                   data(5, CTC_NO_PLACE, SPACE, CHECK) == 0,
               "no write");
    }
    expect(ctc_action(&now.answer) == (row->order == 0 ? CTC_ACTION_NOTHING : CTC_ACTION_ORDER) &&
               ctc_order_operation(&now.answer) == row->order &&
               ctc_phase(&now.state) == CTC_PHASE_RESULT,
           "another order than %02X", row->order);
    memset(image, 0, SPACE);
    memset(marks, 15, sizeof marks);
    memcpy(image, count, sizeof count);
    return ctc_result(&now.state, code, mark, 0, image, image_len, marks, image_len > 2 ? 3 : 0,
                      now.space, SPACE, now.check, CHECK, &now.answer);
}

static void print_results(void)
{
    static const ctc_size lengths[] = {0, 2, 2 + 3 * 256};
    static const char *const images[] = {"none", "count", "whole"};
    for (size_t row = 0; row < sizeof operations / sizeof operations[0]; row++) {
        const struct operation *o = &operations[row];
        bool marked = result_of(o, 0, 1, 0) == 0, plain = false;
        size_t brought = 0;
        for (size_t length = 0; length < 3; length++) {
            if (result_of(o, 0, 0, lengths[length]) == 0) {
                plain = true;
                brought = length;
            }
        }
        printf("%02X", o->order);
        for (uint8_t code = 0; code < 32; code++) {
            if (result_of(o, code, 0, 0) != 7) {
                printf(" %X", (unsigned)code);
            }
        }
        printf(" | %s | %s\n", !marked ? "no" : plain ? "with 0" : "at 0", images[brought]);
    }
}
#endif

static void constants(void)
{
    static const struct {
        const char *name;
        unsigned long value, number;
    } rows[] = {
        {"CTC_LAYOUT", CTC_LAYOUT, 1},
        {"CTC_STATE_LENGTH", CTC_STATE_LENGTH, 1 + 24 + 24 + 10 + 164 + 1},
        {"CTC_ANSWER_LENGTH", CTC_ANSWER_LENGTH, 1 + 6 + 5 + 4},
        {"sizeof (ctc_state)", sizeof(ctc_state), 224},
        {"sizeof (ctc_answer)", sizeof(ctc_answer), 16},
        {"sizeof (ctc_size)", sizeof(ctc_size), 8},
        {"_Alignof (ctc_state)", _Alignof(ctc_state), 1},
        {"CTC_DONE", CTC_DONE, 0},
        {"CTC_REFUSED_DAMAGED", CTC_REFUSED_DAMAGED, 1},
        {"CTC_REFUSED_LINK", CTC_REFUSED_LINK, 2},
        {"CTC_REFUSED_TRANSFER", CTC_REFUSED_TRANSFER, 3},
        {"CTC_REFUSED_NOT_IDLE", CTC_REFUSED_NOT_IDLE, 4},
        {"CTC_REFUSED_DRIVE", CTC_REFUSED_DRIVE, 5},
        {"CTC_REFUSED_CHECK", CTC_REFUSED_CHECK, 6},
        {"CTC_REFUSED_CODE", CTC_REFUSED_CODE, 7},
        {"CTC_REFUSED_FLAGS", CTC_REFUSED_FLAGS, 8},
        {"CTC_REFUSED_LENGTH", CTC_REFUSED_LENGTH, 9},
        {"CTC_REFUSED_MARK", CTC_REFUSED_MARK, 10},
        {"CTC_REFUSED_SPACE", CTC_REFUSED_SPACE, 11},
        {"CTC_REFUSED_PLACE", CTC_REFUSED_PLACE, 15},
        {"CTC_REFUSED_STORE", CTC_REFUSED_STORE, 16},
        {"CTC_REFUSED_QUEUE_FULL", CTC_REFUSED_QUEUE_FULL, 17},
        {"CTC_CHECK_LENGTH", CTC_CHECK_LENGTH, 512},
        {"CTC_COUNT_LIMIT", CTC_COUNT_LIMIT, 65535},
        {"CTC_IMAGE_LENGTH_MOST", CTC_IMAGE_LENGTH_MOST, 2 + 256 * 258},
        {"CTC_NO_PLACE", CTC_NO_PLACE, 65535 + 256},
        {"CTC_ACTION_NOTHING", CTC_ACTION_NOTHING, 0},
        {"CTC_ACTION_BYTE", CTC_ACTION_BYTE, 1},
        {"CTC_ACTION_STRING", CTC_ACTION_STRING, 2},
        {"CTC_ACTION_ORDER", CTC_ACTION_ORDER, 3},
        {"CTC_ACK", CTC_ACK, 6},
        {"CTC_NACK", CTC_NACK, 21},
        {"CTC_GO", CTC_GO, 'G'},
        {"CTC_END_OF_RECORD", CTC_END_OF_RECORD, 'E'},
        {"CTC_REPORT_BOT", CTC_REPORT_BOT, 1},
        {"CTC_REPORT_SELECTABLE", CTC_REPORT_SELECTABLE, 2},
        {"CTC_REPORT_POSITION_UNKNOWN", CTC_REPORT_POSITION_UNKNOWN, 4},
        {"CTC_REPORT_PROTECTED", CTC_REPORT_PROTECTED, 8},
        {"CTC_REPORT_BOT_WARNING", CTC_REPORT_BOT_WARNING, 16},
        {"CTC_REPORT_INSTALLED", CTC_REPORT_INSTALLED, 32},
        {"CTC_REPORT_EOT_WARNING", CTC_REPORT_EOT_WARNING, 64},
        {"CTC_REPORT_EOT", CTC_REPORT_EOT, 128},
        {"CTC_CODE_NO_ERROR", CTC_CODE_NO_ERROR, 0},
        {"CTC_CODE_ILLEGAL_DRIVE", CTC_CODE_ILLEGAL_DRIVE, 1},
        {"CTC_CODE_ILLEGAL_STORE", CTC_CODE_ILLEGAL_STORE, 2},
        {"CTC_CODE_ILLEGAL_TRACK", CTC_CODE_ILLEGAL_TRACK, 3},
        {"CTC_CODE_ILLEGAL_MOTION", CTC_CODE_ILLEGAL_MOTION, 4},
        {"CTC_CODE_NO_GO", CTC_CODE_NO_GO, 5},
        {"CTC_CODE_END_NOT_FOUND", CTC_CODE_END_NOT_FOUND, 6},
        {"CTC_CODE_TAPE_GONE", CTC_CODE_TAPE_GONE, 7},
        {"CTC_CODE_LOAD_POINT_LATE", CTC_CODE_LOAD_POINT_LATE, 8},
        {"CTC_CODE_SYNC_LATE", CTC_CODE_SYNC_LATE, 9},
        {"CTC_CODE_GAP_UNEXPECTED", CTC_CODE_GAP_UNEXPECTED, 10},
        {"CTC_CODE_DROP_OUT", CTC_CODE_DROP_OUT, 11},
        {"CTC_CODE_IDENTIFICATION_LATE", CTC_CODE_IDENTIFICATION_LATE, 12},
        {"CTC_CODE_IDENTIFICATION_BAD", CTC_CODE_IDENTIFICATION_BAD, 13},
        {"CTC_CODE_COUNT_CHECK_BAD", CTC_CODE_COUNT_CHECK_BAD, 14},
        {"CTC_CODE_MFM_DATA_BAD", CTC_CODE_MFM_DATA_BAD, 15},
        {"CTC_CODE_REVERSE_COUNT_BAD", CTC_CODE_REVERSE_COUNT_BAD, 16},
        {"CTC_CODE_TRAILING_IDENTIFICATION_BAD", CTC_CODE_TRAILING_IDENTIFICATION_BAD, 17},
        {"CTC_CODE_TRAILING_SYNC_BAD", CTC_CODE_TRAILING_SYNC_BAD, 18},
        {"CTC_CODE_BLOCKETTE_NUMBER_WRONG", CTC_CODE_BLOCKETTE_NUMBER_WRONG, 19},
        {"CTC_CODE_SUPPLIED_COUNT_NOT_FOUND", CTC_CODE_SUPPLIED_COUNT_NOT_FOUND, 20},
        {"CTC_CODE_RECOVERABLE", CTC_CODE_RECOVERABLE, 21},
        {"CTC_CODE_UNRECOVERABLE", CTC_CODE_UNRECOVERABLE, 22},
        {"CTC_CODE_EOT_UNEXPECTED", CTC_CODE_EOT_UNEXPECTED, 23},
        {"CTC_CODE_BOT_UNEXPECTED", CTC_CODE_BOT_UNEXPECTED, 24},
        {"CTC_MOTION_NONE", CTC_MOTION_NONE, 0},
        {"CTC_MOTION_FORWARD", CTC_MOTION_FORWARD, 1},
        {"CTC_MOTION_REVERSE", CTC_MOTION_REVERSE, 2},
        {"CTC_MOTION_LOST", CTC_MOTION_LOST, 3},
        {"CTC_PHASE_COLLECTING", CTC_PHASE_COLLECTING, 0},
        {"CTC_PHASE_ACK", CTC_PHASE_ACK, 1},
        {"CTC_PHASE_SENDING", CTC_PHASE_SENDING, 2},
        {"CTC_PHASE_GO", CTC_PHASE_GO, 3},
        {"CTC_PHASE_DATA", CTC_PHASE_DATA, 4},
        {"CTC_PHASE_RESULT", CTC_PHASE_RESULT, 5},
        {"CTC_PHASE_EOR", CTC_PHASE_EOR, 6},
        {"CTC_ORDER_REWIND", CTC_ORDER_REWIND, 16},
        {"CTC_ORDER_FAST_FORWARD", CTC_ORDER_FAST_FORWARD, 17},
        {"CTC_ORDER_SKIP_FORWARD", CTC_ORDER_SKIP_FORWARD, 32},
        {"CTC_ORDER_SKIP_REVERSE", CTC_ORDER_SKIP_REVERSE, 33},
        {"CTC_ORDER_SEARCH_FORWARD", CTC_ORDER_SEARCH_FORWARD, 34},
        {"CTC_ORDER_SEARCH_REVERSE", CTC_ORDER_SEARCH_REVERSE, 35},
        {"CTC_ORDER_WRITE_MARK", CTC_ORDER_WRITE_MARK, 36},
        {"CTC_ORDER_READ", CTC_ORDER_READ, 64},
        {"CTC_ORDER_WRITE", CTC_ORDER_WRITE, 80},
        {"CTC_ORDER_ERASE", CTC_ORDER_ERASE, 96},
        {"CTC_ORDER_READ_SUPPLIED", CTC_ORDER_READ_SUPPLIED, 128},
    };
    for (size_t row = 0; row < sizeof rows / sizeof rows[0]; row++) {
        expect(rows[row].value == rows[row].number, "%s is %lu, and not %lu", rows[row].name,
               rows[row].value, rows[row].number);
    }
}

/* The orders that the header names are those that the library gives. */
static void orders(void)
{
    static const struct {
        uint8_t address, first, fourth, order;
    } rows[] = {
        {0x3A, 0, 0x10, CTC_ORDER_REWIND},         {0x3A, 0, 0x11, CTC_ORDER_FAST_FORWARD},
        {0x3A, 0, 0x20, CTC_ORDER_SKIP_FORWARD},   {0x3A, 0, 0x21, CTC_ORDER_SKIP_REVERSE},
        {0x3A, 0, 0x22, CTC_ORDER_SEARCH_FORWARD}, {0x3A, 0, 0x23, CTC_ORDER_SEARCH_REVERSE},
        {0x3A, 0, 0x24, CTC_ORDER_WRITE_MARK},     {0x4A, 0, 5, CTC_ORDER_READ},
        {0x6A, 0, 0, CTC_ORDER_ERASE},             {0x4A, 0x80, 7, CTC_ORDER_READ_SUPPLIED},
    };
    for (size_t row = 0; row < sizeof rows / sizeof rows[0]; row++) {
        begin();
        expect(ctc_report(&now.state, 2, CTC_REPORT_INSTALLED | CTC_REPORT_SELECTABLE,
                          &now.answer) == 0 &&
                   handed(0x3A, 0, 0, 0, 0x0D) == 0,
               "no tape in GCR");
        expect(handed(rows[row].address, rows[row].first, 0, 0, rows[row].fourth) == 0, "refused");
        expect(six_are(CTC_ACTION_ORDER, rows[row].order, 2, 0, 1, 0, rows[row].fourth),
               "row %u: another order", (unsigned)row);
    }
}

int main(int count, char **words)
{
#ifdef WRONG
    if (count == 2 && strcmp(words[1], "names") == 0) {
        for (int version = 0; version < WRONG_VERSIONS; version++) {
            printf("%s\n", wrong_names[version]);
        }
        return 0;
    }
    wrong = count == 2 ? atoi(words[1]) : 0;
#else
    if (count == 2 && strcmp(words[1], "results") == 0) {
        print_results();
        return 0;
    }
    if (count != 1) {
        fprintf(stderr, "usage: controller_test [results]\n");
        return 2;
    }
#endif
    run("constants", constants);
    run("inline functions", inline_functions);
    run("a fresh state", fresh_states);
    run("bytes that are no state", bytes_that_are_no_state);
    run("another layout number", other_layouts);
    run("fields out of range", fields_out_of_range);
    run("phases and what they hold", phases);
    run("bytes that are not looked at", bytes_not_looked_at);
    run("refusals of a queue", queue_refusals);
    run("bytes of a queued store", queued_bytes);
    run("refusals of a hand", hand_refusals);
    run("records of 65,535 bytes with a bad byte", long_records);
    run("refusals of data", data_refusals);
    run("a bad byte behind bytes thrown away", a_place_behind_thrown_bytes);
    run("a write of no bytes", no_bytes_at_all);
    run("mark flags", mark_flags);
    run("refusals of results and reports", result_refusals);
    run("copies of a state", copies);
    run("orders", orders);
    run("phases that the header reads", phases_told);
    printf("%d passed, %d failed\n", passed, failed);
    return failed != 0;
}
