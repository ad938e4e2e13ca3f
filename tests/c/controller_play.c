/*
 * Plays session lines and job lines through ctc_controller.h, as a board would call it:
 * standard input to standard output, one answer for each line.
 *
 *     controller_play          lines of a session (docs/SESSIONS.md), four fields
 *     controller_play jobs     lines of jobs too (docs/JOBS.md), five fields
 *
 * What is printed must be what the proved programs print. What no line shows is looked at
 * after each call: a refused call wrote nothing, and one that was carried out wrote
 * nothing of the lent space but what it gives. Where that does not hold, a line on
 * standard error says so and the status is 3; where input or output fails it is 1.
 */
#include "ctc_controller.h"

#include <stdbool.h>
#include <stddef.h>
#include <stdint.h>
#include <stdio.h>
#include <stdlib.h>
#include <string.h>

#ifdef WRONG
#include "controller_wrong.h"
#endif

/* The limits of a line, and the spaces of the program that plays it; less on a small board. */
#ifdef SMALL
enum { LINE_MOST = 3700, HOST_MOST = 1024, IMAGE_MOST = 1810, SPACE_MOST = 1810 };
#else
enum { LINE_MOST = 65535, HOST_MOST = 16384, IMAGE_MOST = 16898, SPACE_MOST = 16898 };
#endif
enum { MARKS_MOST = 66, CHECK_LENGTH = 512 };

/* What lent space holds before a call, so that a byte written beyond what is given is seen. */
enum { UNTOUCHED = 0xA5, GUARD = 64 };

/* ---- the fields of a line */

struct text {
    const uint8_t *at;
    size_t left;
};

static bool at_end(const struct text *line)
{
    return line->left == 0;
}

static bool next_is(struct text *line, uint8_t wanted)
{
    if (line->left == 0 || *line->at != wanted) {
        return false;
    }
    line->at++;
    line->left--;
    return true;
}

static bool hexadecimal(uint8_t letter, uint8_t *value)
{
    if (letter >= '0' && letter <= '9') {
        *value = (uint8_t)(letter - '0');
    } else if (letter >= 'A' && letter <= 'F') {
        *value = (uint8_t)(letter - 'A' + 10);
    } else {
        return false;
    }
    return true;
}

static bool byte_digits(struct text *line, uint8_t *byte)
{
    uint8_t high, low;
    if (line->left < 2 || !hexadecimal(line->at[0], &high) || !hexadecimal(line->at[1], &low)) {
        return false;
    }
    *byte = (uint8_t)(high << 4 | low);
    line->at += 2;
    line->left -= 2;
    return true;
}

/* A comma and a byte of two digits. */
static bool byte_field(struct text *line, uint8_t *byte)
{
    return next_is(line, ',') && byte_digits(line, byte);
}

/* A comma and as many bytes as there are, none included, up to the limit. */
static bool bytes_field(struct text *line, size_t most, uint8_t *bytes, size_t *length)
{
    *length = 0;
    if (!next_is(line, ',')) {
        return false;
    }
    while (line->left > 0 && *line->at != ',') {
        if (*length == most || !byte_digits(line, bytes + *length)) {
            return false;
        }
        ++*length;
    }
    return true;
}

/* A comma and a decimal number of one digit or more; zeros before it do not count. */
static bool number_field(struct text *line, uint32_t most, uint32_t *number)
{
    *number = 0;
    if (!next_is(line, ',') || line->left == 0 || *line->at == ',') {
        return false;
    }
    while (line->left > 0 && *line->at != ',') {
        if (*line->at < '0' || *line->at > '9') {
            return false;
        }
        /* the limit is far below what ten times a number could overflow */
        *number = *number * 10 + (uint32_t)(*line->at - '0');
        if (*number > most) {
            return false;
        }
        line->at++;
        line->left--;
    }
    return true;
}

/* ---- what is lent to the calls */

static ctc_state state;
static ctc_answer answer;
static uint8_t space[SPACE_MOST + GUARD];
static uint8_t check[CHECK_LENGTH];

/* the same before the call */
static ctc_state state_before;
static uint8_t check_before[CHECK_LENGTH];

static uint8_t host[HOST_MOST], image[IMAGE_MOST], marks[MARKS_MOST];

static _Noreturn void stop(int status, const char *message)
{
    fflush(stdout);
    fprintf(stderr, "controller_play: %s\n", message);
    exit(status);
}

/* The first byte is, and each is the one before it. */
static bool untouched(const uint8_t *bytes, size_t length)
{
    return length == 0 || (bytes[0] == UNTOUCHED && memcmp(bytes, bytes + 1, length - 1) == 0);
}

static void before_call(void)
{
    memset(&answer, UNTOUCHED, sizeof answer);
    memset(space, UNTOUCHED, sizeof space);
    memcpy(&state_before, &state, sizeof state);
    memcpy(check_before, check, sizeof check);
}

/* What the header says of every call, and no line shows. */
static void after_call(uint32_t refusal, size_t lent)
{
    size_t given = 0;
    if (refusal != CTC_DONE) {
        if (memcmp(&state, &state_before, sizeof state) != 0 ||
            memcmp(check, check_before, sizeof check) != 0) {
            stop(3, "a refused call wrote a state or a check store");
        }
        if (!untouched(answer.bytes, sizeof answer.bytes)) {
            stop(3, "a refused call wrote an answer");
        }
    } else {
        given = ctc_given(&answer);
        if (given > lent) {
            stop(3, "a call gives more than was lent");
        }
        size_t used = ctc_action(&answer) == CTC_ACTION_NOTHING ? 0
                      : ctc_action(&answer) == CTC_ACTION_BYTE  ? 1
                                                                : 6;
        for (size_t place = used; place < 6; place++) {
            if (ctc_six(&answer)[place] != 0) {
                stop(3, "no zeros behind what is to be done");
            }
        }
    }
    if (!untouched(space + given, sizeof space - given)) {
        stop(3, "a call wrote lent space that it does not give");
    }
}

/* ---- the calls, one for each form of a line */

/* Whether the line can be read; where it can, its call was made. */
static bool called(struct text line, bool jobs, uint32_t *refusal)
{
    uint8_t byte, code, operand[4];
    uint32_t drive, job, mark, late, room;
    size_t host_len, image_len, marks_len, lent = 0;
    if (line.left == 0) {
        return false;
    }
    uint8_t form = *line.at;
    line.at++;
    line.left--;
    switch (form) {
    case 'B':
        if (!byte_field(&line, &byte) || !at_end(&line)) {
            return false;
        }
        *refusal = ctc_byte(&state, byte, &answer);
        break;
    case 'T':
        if (!at_end(&line)) {
            return false;
        }
        *refusal = ctc_taken(&state, &answer);
        break;
    case 'X':
        if (!at_end(&line)) {
            return false;
        }
        *refusal = ctc_broken(&state, &answer);
        break;
    case 'S':
        if (!number_field(&line, 255, &drive) || !byte_field(&line, &byte) || !at_end(&line)) {
            return false;
        }
        *refusal = ctc_report(&state, (uint8_t)drive, byte, &answer);
        break;
    case 'D':
        if (!bytes_field(&line, HOST_MOST, host, &host_len) || !at_end(&line)) {
            return false;
        }
        lent = SPACE_MOST;
        *refusal = ctc_data(&state, host, host_len, CTC_NO_PLACE, space, lent, check,
                            sizeof check, &answer);
        break;
    case 'R':
        if (!byte_field(&line, &code) || !number_field(&line, 1, &mark) ||
            !number_field(&line, 255, &late) ||
            !bytes_field(&line, IMAGE_MOST, image, &image_len) ||
            !bytes_field(&line, MARKS_MOST, marks, &marks_len) ||
            !number_field(&line, HOST_MOST, &room) || !at_end(&line)) {
            return false;
        }
        lent = room;
        *refusal = ctc_result(&state, code, (uint8_t)mark, (uint8_t)late, image, image_len,
                              marks, marks_len, space, lent, check, sizeof check, &answer);
        break;
    case 'K':
        if (!at_end(&line)) {
            return false;
        }
        *refusal = ctc_tick(&state, &answer);
        break;
    case 'Z':
        if (!at_end(&line)) {
            return false;
        }
        *refusal = ctc_reset(&state, &answer);
        break;
    case 'Q':
        if (!jobs || !number_field(&line, 255, &job) || !byte_field(&line, &byte) ||
            !next_is(&line, ',')) {
            return false;
        }
        for (size_t place = 0; place < 4; place++) {
            if (!byte_digits(&line, operand + place)) {
                return false;
            }
        }
        if (!at_end(&line)) {
            return false;
        }
        *refusal = ctc_queue(&state, (uint8_t)job, byte, operand[0], operand[1], operand[2],
                             operand[3], &answer);
        break;
    case 'H':
        if (!jobs || !at_end(&line)) {
            return false;
        }
        *refusal = ctc_hand(&state, &answer);
        break;
    default:
        return false;
    }
    after_call(*refusal, lent);
    return true;
}

/* ---- what is printed */

static void print_bytes(const uint8_t *bytes, size_t length)
{
    static const char digits[] = "0123456789ABCDEF";
    for (size_t place = 0; place < length; place++) {
        putchar(digits[bytes[place] >> 4]);
        putchar(digits[bytes[place] & 15]);
    }
}

static void print_answer(bool jobs)
{
    switch (ctc_action(&answer)) {
    case CTC_ACTION_NOTHING:
        printf("0,-,,");
        break;
    case CTC_ACTION_BYTE:
        printf("0,A,%02X,", (unsigned)ctc_offered(&answer));
        break;
    case CTC_ACTION_STRING:
        printf("0,P,");
        print_bytes(ctc_six(&answer), 6);
        putchar(',');
        break;
    case CTC_ACTION_ORDER:
        printf("0,M,");
        print_bytes(ctc_six(&answer), 6);
        putchar(',');
        break;
    default:
        stop(3, "an action that does not exist");
    }
    print_bytes(space, ctc_given(&answer));
    if (!jobs) {
        return;
    }
    switch (ctc_settled(&answer)) {
    case 0:
        printf(",-");
        break;
    case 1:
        printf(",%02X:%u:%u", (unsigned)ctc_settled_code(&answer),
               (unsigned)ctc_settled_motion(&answer), (unsigned)ctc_settled_count(&answer));
        break;
    default:
        stop(3, "a settled flag that does not exist");
    }
}

static void play(struct text line, bool readable, bool jobs)
{
    uint32_t refusal = CTC_DONE;
    before_call();
    if (!readable || !called(line, jobs, &refusal)) {
        printf("?,-,,%s", jobs ? ",-" : "");
    } else if (refusal != CTC_DONE) {
        printf("%u,-,,%s", (unsigned)refusal, jobs ? ",-" : "");
    } else {
        print_answer(jobs);
    }
    putchar('\n');
    /* each answer is there before the next line is waited for */
    if (fflush(stdout) != 0) {
        stop(1, "the answers cannot be written");
    }
}

/* ---- lines */

int main(int count, char **words)
{
    static uint8_t bytes[LINE_MOST];
    bool jobs = count > 1 && strcmp(words[1], "jobs") == 0;
    int known = jobs ? 2 : 1;
#ifdef WRONG
    if (count == known + 1) {
        wrong = atoi(words[known]);
        known++;
    }
#endif
    if (count != known) {
        fprintf(stderr, "usage: controller_play [jobs]\n");
        return 2;
    }
    if (ctc_fresh(&state) != CTC_DONE) {
        stop(3, "no fresh state");
    }
    /* a test may call this again for another session */
    memset(check, 0, sizeof check);
    for (;;) {
        size_t length = 0;
        bool readable = true;
        int next;
        while ((next = getchar()) != EOF && next != '\n') {
            if (length == LINE_MOST) {
                readable = false;
            } else {
                bytes[length++] = (uint8_t)next;
            }
        }
        if (ferror(stdin)) {
            stop(1, "the lines cannot be read");
        }
        /* the last line counts without its end */
        if (next == EOF && length == 0) {
            return 0;
        }
        play((struct text){bytes, length}, readable, jobs);
        if (next == EOF) {
            return 0;
        }
    }
}
