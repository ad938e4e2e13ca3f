/*
 * The functions of ctc_records.h beside a second implementation of documents 01 and
 * 02. Calls are made from bytes: those that a coverage-guided fuzzer chooses
 * (tests/fuzz), or, with FIXED_RUN defined, random ones, the same in every run.
 *
 * The archive has no instrumentation, the rules below have: so it is their cases
 * that the fuzzer looks for. Each call is made three times: in heap space of the
 * exact size, where the sanitizer sees what the archive does by memcpy and the
 * like, and directly before and behind a fence, a page that nobody may touch.
 *
 * 49 wrong rules were put in on trial, one at a time, 28 of them about the limit,
 * long counts and high numbers: both runs found each, the fuzzer within seven seconds.
 * Of 17 wrong merges, 17 wrong rules of a bad byte's place and 17 of which parities fit
 * the fixed run found each.
 */
#define _DEFAULT_SOURCE /* for MAP_ANONYMOUS */

#include "ctc_records.h"

#include <stdbool.h>
#include <stdint.h>
#include <stdio.h>
#include <stdlib.h>
#include <string.h>
#include <sys/mman.h>
#include <unistd.h>

/* ---- the rules of documents 01 and 02 ---- */

enum { LIMIT = 65535, BLOCKETTE = 256, GOOD = 15, REPORT = 9, NO_COUNT = 65536, NO_PLACE = 65791 };
/* The longest record has 256 blockettes, the last one short of a byte, and two check blockettes. */
enum { IMAGE_MOST = 2 + BLOCKETTE * (256 + 2) };
enum {
    DONE = 0,
    WRONG_LENGTH = 9,
    WRONG_MARK = 10,
    SHORT_SPACE = 11,
    UNRESTORABLE = 12,
    OTHER_COUNT = 13,
    UNLIKE = 14,
    NO_SUCH_PLACE = 15,
    EVEN_UNFIT = 32,
    ODD_UNFIT = 64
};

static size_t data_blockettes(size_t count)
{
    return count / BLOCKETTE + (count % BLOCKETTE != 0);
}

/* The blockettes of a GCR image, check blockettes included, without regard to the limit. */
static size_t all_blockettes(size_t count)
{
    return count == 0 ? 0 : data_blockettes(count) + 2;
}

static size_t rule_mark_count(size_t count, uint8_t density)
{
    return density == 0 || count > LIMIT ? 0 : all_blockettes(count);
}

static size_t rule_image_length(size_t count, uint8_t density)
{
    if (count > LIMIT) {
        return 0;
    }
    return density == 0 ? 2 + count : 2 + BLOCKETTE * all_blockettes(count);
}

static void put_count(uint8_t *image, size_t count)
{
    image[0] = (uint8_t)(count >> 9 | (count & 1) << 7);
    image[1] = (uint8_t)(count >> 1);
}

static size_t rule_image_count(const uint8_t *image, size_t length)
{
    if (length < 2) {
        return NO_COUNT;
    }
    size_t rotated = (size_t)image[0] << 8 | image[1];
    return (rotated << 1 & 0xFFFF) | rotated >> 15;
}

/* The blockette of a number in an image of n data blockettes; check blockettes have numbers too. */
static uint8_t *data_of(uint8_t *image, size_t n, size_t number)
{
    return image + 2 + BLOCKETTE * (n - 1 - number);
}

static uint8_t *check_of(uint8_t *image, size_t n, size_t number)
{
    return image + 2 + BLOCKETTE * (n + 1 - number);
}

/* Adds every data blockette of a parity but one to a sum; a number of n leaves none out. */
static void add_parity(uint8_t *sum, uint8_t *image, size_t n, size_t parity, size_t without)
{
    for (size_t number = parity; number < n; number += 2) {
        for (size_t i = 0; i < BLOCKETTE && number != without; i++) {
            sum[i] = (uint8_t)(sum[i] ^ data_of(image, n, number)[i]);
        }
    }
}

static uint32_t rule_build(const uint8_t *bytes, size_t count, uint8_t density, size_t place,
                           uint8_t *space, size_t room)
{
    if (count > LIMIT) {
        return WRONG_LENGTH;
    }
    size_t length = rule_image_length(count, density);
    if (room < length) {
        return SHORT_SPACE;
    }
    if (place >= count && place != NO_PLACE) {
        return NO_SUCH_PLACE;
    }
    memset(space, 0, length);
    put_count(space, count);
    for (size_t i = 0; i < count && i <= place; i++) { /* what follows a bad byte stays zeros */
        space[2 + i] = bytes[i];
    }
    if (density != 0 && count != 0) {
        size_t n = data_blockettes(count);
        add_parity(check_of(space, n, 0), space, n, 0, n);
        add_parity(check_of(space, n, 1), space, n, 1, n);
    }
    return DONE;
}

/* One error of the scan: mark, kind, number. */
static void report_error(uint8_t *entry, uint8_t mark, size_t behind)
{
    entry[0] = mark;
    entry[1] = behind < 2 ? 2 : 1;
    entry[2] = (uint8_t)(behind < 2 ? behind : behind - 2);
}

/* The report of a scan; answers whether it was stopped. */
static bool scanned(const uint8_t *marks, size_t count, uint8_t *report)
{
    bool bad[2] = {false, false};
    memset(report, 0, REPORT);
    for (size_t place = 0; place < count; place++) {
        size_t behind = count - 1 - place, parity = behind % 2;
        if (marks[place] == GOOD) {
            continue;
        }
        if (bad[parity]) {
            report_error(report + 6, marks[place], behind);
            return true;
        }
        bad[parity] = true;
        report_error(report + (parity == 1 ? 0 : 3), marks[place], behind);
    }
    return false;
}

static uint32_t rule_scan(const uint8_t *marks, size_t count, uint8_t *space, size_t room)
{
    if (room < REPORT) {
        return SHORT_SPACE;
    }
    scanned(marks, count, space);
    return DONE;
}

static bool legal_marks(const uint8_t *marks, size_t count)
{
    for (size_t place = 0; place < count; place++) {
        if (marks[place] != GOOD && (marks[place] < 1 || marks[place] > 9)) {
            return false;
        }
    }
    return true;
}

/* Puts the bad data blockette of a parity right, in a copy of the image. */
static void mend(uint8_t *image, const uint8_t *marks, size_t n, size_t parity)
{
    uint8_t sum[BLOCKETTE];
    for (size_t number = parity; number < n; number += 2) {
        if (marks[n - 1 - number] != GOOD) {
            memcpy(sum, check_of(image, n, parity), BLOCKETTE);
            add_parity(sum, image, n, parity, number);
            memcpy(data_of(image, n, number), sum, BLOCKETTE);
        }
    }
}

static bool right_for_count(const uint8_t *image, size_t length, size_t mark_count)
{
    size_t count = rule_image_count(image, length);
    return count <= LIMIT && length == rule_image_length(count, 1) &&
           mark_count == rule_mark_count(count, 1);
}

static uint32_t rule_restore(const uint8_t *image, size_t length, const uint8_t *marks,
                             size_t mark_count, uint8_t *space, size_t room)
{
    size_t count = rule_image_count(image, length);
    uint8_t report[REPORT];
    if (!right_for_count(image, length, mark_count)) {
        return WRONG_LENGTH;
    }
    if (!legal_marks(marks, mark_count)) {
        return WRONG_MARK;
    }
    if (room < count) {
        return SHORT_SPACE;
    }
    if (scanned(marks, mark_count, report)) {
        return UNRESTORABLE;
    }
    static uint8_t mended[IMAGE_MOST];
    memcpy(mended, image, length);
    mend(mended, marks, data_blockettes(count), 0);
    mend(mended, marks, data_blockettes(count), 1);
    if (count > 0) {
        memcpy(space, mended + 2, count);
    }
    return DONE;
}

/* A parity fits where its data and its check cancel out. */
static uint32_t rule_verify(const uint8_t *image, size_t length)
{
    size_t count = rule_image_count(image, length);
    if (count > LIMIT || length != rule_image_length(count, 1)) {
        return WRONG_LENGTH;
    }
    uint32_t told = DONE;
    for (size_t behind = 0; behind < 2; behind++) {
        for (size_t i = 0; i < BLOCKETTE; i++) {
            uint8_t sum = 0;
            for (size_t from = behind; from < all_blockettes(count); from += 2) {
                sum ^= image[length - BLOCKETTE * (from + 1) + i];
            }
            if (sum != 0) {
                told |= behind == 0 ? EVEN_UNFIT : ODD_UNFIT;
            }
        }
    }
    return told;
}

/* ---- calls ---- */

enum function {
    BUILD,
    RESTORE,
    SCAN,
    MERGE,
    IMAGE_LENGTH,
    MARK_COUNT,
    IMAGE_COUNT,
    VERIFY,
    FUNCTIONS
};

static const char *const names[FUNCTIONS] = {
    "ctc_build",        "ctc_restore",    "ctc_scan",        "ctc_merge",
    "ctc_image_length", "ctc_mark_count", "ctc_image_count", "ctc_verify"};

/*
 * What a call is handed: what it reads, and the space that it may write. A merge
 * alone has another pass to read, and another space, for the marks.
 */
enum argument { FIRST, SECOND, SPACE, OTHER_FIRST, OTHER_SECOND, OTHER_SPACE, ARGUMENTS };

struct buffer {
    uint8_t *bytes;
    size_t length;
};

struct call {
    enum function function;
    struct buffer buffers[ARGUMENTS];
    size_t count, other_count, place;
    uint8_t density;
};

static uint32_t rule_merge(const struct buffer *read, uint8_t *space, size_t room,
                           uint8_t *other_space, size_t other_room)
{
    const struct buffer *image = read + FIRST, *marks = read + SECOND;
    const struct buffer *other = read + OTHER_FIRST, *other_marks = read + OTHER_SECOND;
    if (!right_for_count(image->bytes, image->length, marks->length) ||
        !right_for_count(other->bytes, other->length, other_marks->length)) {
        return WRONG_LENGTH;
    }
    if (!legal_marks(marks->bytes, marks->length) ||
        !legal_marks(other_marks->bytes, other_marks->length)) {
        return WRONG_MARK;
    }
    if (rule_image_count(image->bytes, image->length) !=
        rule_image_count(other->bytes, other->length)) {
        return OTHER_COUNT;
    }
    for (size_t i = 2; i < image->length; i++) {
        size_t place = (i - 2) / BLOCKETTE;
        if (marks->bytes[place] == GOOD && other_marks->bytes[place] == GOOD &&
            image->bytes[i] != other->bytes[i]) {
            return UNLIKE;
        }
    }
    if (room < image->length || other_room < marks->length) {
        return SHORT_SPACE;
    }
    /* all of the first pass, and then what the second alone has good */
    memcpy(space, image->bytes, image->length);
    memcpy(other_space, marks->bytes, marks->length);
    for (size_t place = 0; place < marks->length; place++) {
        if (other_space[place] != GOOD && other_marks->bytes[place] == GOOD) {
            size_t start = 2 + BLOCKETTE * place;
            memcpy(space + start, other->bytes + start, BLOCKETTE);
            other_space[place] = GOOD;
        }
    }
    return DONE;
}

/* The contents of the buffers, with some bytes more than the longest that fits. */
enum { MOST = IMAGE_MOST + 510 };
static uint8_t contents[ARGUMENTS][MOST];

static size_t ask_library(const struct call *call, const struct buffer *lent)
{
    const struct buffer *first = lent + FIRST, *second = lent + SECOND, *space = lent + SPACE;
    const struct buffer *other_first = lent + OTHER_FIRST, *other_second = lent + OTHER_SECOND;
    const struct buffer *other_space = lent + OTHER_SPACE;
    switch (call->function) {
    case BUILD:
        return ctc_build(first->bytes, first->length, call->density, call->place, space->bytes,
                         space->length);
    case RESTORE:
        return ctc_restore(first->bytes, first->length, second->bytes, second->length,
                           space->bytes, space->length);
    case SCAN:
        return ctc_scan(first->bytes, first->length, space->bytes, space->length);
    case MERGE:
        return ctc_merge(first->bytes, first->length, second->bytes, second->length,
                         other_first->bytes, other_first->length, other_second->bytes,
                         other_second->length, space->bytes, space->length, other_space->bytes,
                         other_space->length);
    case IMAGE_LENGTH:
        return ctc_image_length(call->count, call->density);
    case MARK_COUNT:
        return ctc_mark_count(call->count, call->density);
    case VERIFY:
        return ctc_verify(first->bytes, first->length);
    default:
        return ctc_image_count(first->bytes, first->length);
    }
}

static size_t ask_rules(const struct call *call, uint8_t *space, uint8_t *other_space)
{
    const struct buffer *first = call->buffers + FIRST, *second = call->buffers + SECOND;
    size_t room = call->buffers[SPACE].length;
    switch (call->function) {
    case BUILD:
        return rule_build(first->bytes, first->length, call->density, call->place, space, room);
    case RESTORE:
        return rule_restore(first->bytes, first->length, second->bytes, second->length, space,
                            room);
    case SCAN:
        return rule_scan(first->bytes, first->length, space, room);
    case MERGE:
        return rule_merge(call->buffers, space, room, other_space,
                          call->buffers[OTHER_SPACE].length);
    case IMAGE_LENGTH:
        return rule_image_length(call->count, call->density);
    case MARK_COUNT:
        return rule_mark_count(call->count, call->density);
    case VERIFY:
        return rule_verify(first->bytes, first->length);
    default:
        return rule_image_count(first->bytes, first->length);
    }
}

/* ---- lent space ---- */

enum lay { HEAP, BEFORE_A_FENCE, BEHIND_A_FENCE, LAYS };

/* For each argument, pages that stand between two fences. */
static uint8_t *fenced[ARGUMENTS];
static size_t fenced_length;

static void *must(void *memory)
{
    if (memory == NULL || memory == MAP_FAILED) {
        fprintf(stderr, "records_fuzz: out of memory\n");
        exit(2);
    }
    return memory;
}

static void build_fences(void)
{
    size_t page = (size_t)sysconf(_SC_PAGESIZE);
    fenced_length = (MOST + page - 1) / page * page;
    for (int i = 0; i < ARGUMENTS; i++) {
        uint8_t *memory = must(mmap(NULL, fenced_length + 2 * page, PROT_NONE,
                                    MAP_PRIVATE | MAP_ANONYMOUS, -1, 0));
        fenced[i] = memory + page;
        if (mprotect(fenced[i], fenced_length, PROT_READ | PROT_WRITE) != 0) {
            must(NULL);
        }
    }
}

/* A copy of a buffer. One of no bytes is a null pointer on the heap, which the header allows. */
static struct buffer lend(enum lay lay, int argument, struct buffer from)
{
    struct buffer lent = {NULL, from.length};
    if (lay == BEHIND_A_FENCE) {
        lent.bytes = fenced[argument];
    } else if (lay == BEFORE_A_FENCE) {
        lent.bytes = fenced[argument] + fenced_length - from.length;
    } else if (from.length > 0) {
        lent.bytes = must(malloc(from.length));
    }
    if (from.length > 0) {
        memcpy(lent.bytes, from.bytes, from.length);
    }
    return lent;
}

static bool alike(struct buffer a, const uint8_t *b)
{
    return a.length == 0 || memcmp(a.bytes, b, a.length) == 0;
}

/* Makes a call in one lay and holds its answer and all of its space to what the rules say. */
static bool agrees_in(enum lay lay, const struct call *call, size_t answer, const uint8_t *after,
                      const uint8_t *other_after)
{
    struct buffer lent[ARGUMENTS];
    for (int i = 0; i < ARGUMENTS; i++) {
        lent[i] = lend(lay, i, call->buffers[i]);
    }
    bool agrees = ask_library(call, lent) == answer;
    for (int i = 0; i < ARGUMENTS; i++) {
        agrees = agrees && alike(lent[i], i == SPACE         ? after
                                          : i == OTHER_SPACE ? other_after
                                                             : call->buffers[i].bytes);
        if (lay == HEAP) {
            free(lent[i].bytes);
        }
    }
    return agrees;
}

static bool agrees(const struct call *call, size_t *answer)
{
    static uint8_t after[MOST], other_after[MOST];
    memcpy(after, contents[SPACE], MOST);
    memcpy(other_after, contents[OTHER_SPACE], MOST);
    *answer = ask_rules(call, after, other_after);
    for (enum lay lay = HEAP; lay < LAYS; lay++) {
        if (!agrees_in(lay, call, *answer, after, other_after)) {
            fprintf(stderr, "%s is not as the rules say, answer %zu\n", names[call->function],
                    *answer);
            return false;
        }
    }
    return true;
}

/* ---- calls from bytes ---- */

/* Where the bytes end, pseudo-random ones (xorshift) go on. */
struct source {
    const uint8_t *data;
    size_t left;
    uint64_t state;
};

static uint8_t next_byte(struct source *source)
{
    if (source->left > 0) {
        source->left--;
        return *source->data++;
    }
    source->state ^= source->state << 13;
    source->state ^= source->state >> 7;
    source->state ^= source->state << 17;
    return (uint8_t)(source->state >> 32);
}

static size_t next_number(struct source *source)
{
    size_t high = next_byte(source);
    return high << 8 | next_byte(source);
}

static void fill(struct source *source, uint8_t *bytes, size_t length)
{
    for (size_t i = 0; i < length; i++) {
        bytes[i] = next_byte(source);
    }
}

/* A count, often at the edge of a blockette, and at times a little above the limit. */
static size_t next_count(struct source *source)
{
    uint8_t kind = next_byte(source);
    size_t number = next_number(source);
    switch (kind % 8) {
    case 0:
        return number % 4;
    case 1:
        return LIMIT - 1 + number % 4;
    case 2:
    case 3:
        return BLOCKETTE * (1 + number % 256) + kind / 8 % 3 - 1;
    case 4:
        return number % (LIMIT + 1);
    default:
        return number % 1000;
    }
}

/* A count for a function that takes numbers alone: at times any. */
static size_t next_size(struct source *source)
{
    if (next_byte(source) % 4 != 0) {
        return next_count(source);
    }
    size_t size = 0;
    for (int i = 0; i < 4; i++) {
        size = size << 16 | next_number(source);
    }
    return size;
}

/* A length: mostly the right one, at times some bytes off, at times very short or any. */
static size_t next_length(struct source *source, size_t right)
{
    uint8_t kind = next_byte(source);
    size_t length = right;
    if (kind % 8 == 1) {
        length = right + kind / 8;
    } else if (kind % 8 == 2) {
        length = right > kind / 8u ? right - kind / 8u : 0;
    } else if (kind % 32 == 3) {
        length = next_number(source);
    } else if (kind % 32 == 4) {
        length = kind / 32;
    }
    return length < MOST ? length : MOST;
}

/* A place among so many: often the first or one of the last three, which are easily missed else. */
static size_t next_place(struct source *source, size_t count)
{
    size_t number = next_number(source);
    size_t last = count < 3 ? count : 3;
    switch (number % 8) {
    case 0:
        return 0;
    case 1:
    case 2:
        return count - 1 - number / 8 % last;
    default:
        return number / 8 % count;
    }
}

/* The place of a bad byte of so many: none, one of them, the first ones behind, or far above. */
static size_t next_bad(struct source *source, size_t count)
{
    uint8_t kind = next_byte(source);
    switch (kind % 8) {
    case 0:
    case 1:
        return NO_PLACE;
    case 2:
        return count + kind / 8 % 3;
    case 3:
        return NO_PLACE + kind / 8 % 3 - 1;
    case 4: /* some would do without their highest bit */
        return ((size_t)1 << (17 + kind / 8)) +
               (next_byte(source) % 2 == 0 ? NO_PLACE : next_number(source));
    default:
        return count == 0 ? 0 : next_place(source, count);
    }
}

/* Good marks, but for three at the most: an error, a value at the edge of those, or any. */
static void next_marks(struct source *source, uint8_t *marks, size_t count)
{
    memset(marks, GOOD, count);
    for (uint8_t errors = next_byte(source) % 4; errors > 0 && count > 0; errors--) {
        size_t place = next_place(source, count);
        uint8_t kind = next_byte(source);
        marks[place] = kind % 8 == 0   ? next_byte(source)
                       : kind % 8 == 1 ? kind / 8 % 18
                                       : (uint8_t)(1 + kind % 9);
    }
}

/* An image as the rules build it, or any bytes behind its count, or behind any count. */
static void next_image(struct source *source, uint8_t *image, size_t count)
{
    static uint8_t record[MOST];
    uint8_t kind = next_byte(source);
    fill(source, record, count);
    if (rule_build(record, count, 1, NO_PLACE, image, MOST) != DONE || kind % 2 == 0) {
        put_count(image, count);
        fill(source, image + 2, BLOCKETTE * all_blockettes(count));
    }
    if (kind / 2 % 16 == 0) {
        fill(source, image, 2);
    }
}

/*
 * The counts of a merge: mostly alike, at times near each other, at times not. It
 * reads so much that all is seldom right by chance: answers whether all lengths of
 * what it reads are to be right, with one record in four a very long one.
 */
static bool next_merge(struct source *source, struct call *call)
{
    uint8_t kind = next_byte(source), other_kind = next_byte(source);
    if (kind % 8 == 0) {
        call->count = LIMIT - 12u * (kind / 8);
    }
    call->other_count = other_kind % 8 == 0   ? call->count ^ (size_t)1 << other_kind / 8 % 9
                        : other_kind % 8 == 1 ? next_count(source)
                                              : call->count;
    return kind % 2 == 0;
}

/* The lengths that fit a call's counts. */
static void right_lengths(const struct call *call, size_t *right)
{
    if (call->function == BUILD) {
        right[FIRST] = call->count;
        right[SPACE] = rule_image_length(call->count, call->density);
    } else if (call->function == SCAN) {
        right[FIRST] = call->density == 0 ? call->count % 600 : all_blockettes(call->count);
        right[SPACE] = REPORT;
    } else if (call->function == RESTORE || call->function == IMAGE_COUNT) {
        right[FIRST] = 2 + BLOCKETTE * all_blockettes(call->count);
        right[SECOND] = all_blockettes(call->count);
        right[SPACE] = call->count;
    } else if (call->function == VERIFY) {
        right[FIRST] = 2 + BLOCKETTE * all_blockettes(call->count);
    } else if (call->function == MERGE) {
        right[SECOND] = right[OTHER_SPACE] = all_blockettes(call->count);
        right[FIRST] = right[SPACE] = 2 + BLOCKETTE * right[SECOND];
        right[OTHER_SECOND] = all_blockettes(call->other_count);
        right[OTHER_FIRST] = 2 + BLOCKETTE * right[OTHER_SECOND];
    }
}

static void spoil(struct source *source, uint8_t *image, const uint8_t *marks, size_t count)
{
    for (size_t place = 0; place < count; place++) {
        if (marks[place] != GOOD) {
            fill(source, image + 2 + BLOCKETTE * place, BLOCKETTE);
        }
    }
}

/* Two passes over one record, at times with one bit of the second turned round, or over two. */
static void next_passes(struct source *source, const struct call *call, const size_t *right)
{
    uint8_t *image = contents[FIRST], *other = contents[OTHER_FIRST];
    uint8_t kind = next_byte(source);
    size_t place = right[SECOND] == 0 ? 0 : next_place(source, right[SECOND]);
    size_t unlike = 2 + BLOCKETTE * place + next_place(source, BLOCKETTE);
    next_marks(source, contents[SECOND], right[SECOND]);
    next_marks(source, contents[OTHER_SECOND], right[OTHER_SECOND]);
    next_image(source, image, call->count);
    memcpy(other, image, right[FIRST]);
    if (right[FIRST] != right[OTHER_FIRST]) {
        next_image(source, other, call->other_count);
    } else if (kind % 4 == 0) {
        other[unlike] = (uint8_t)(other[unlike] ^ 1u << kind / 4 % 8);
    }
    if (call->count != call->other_count) {
        put_count(other, call->other_count);
    }
    spoil(source, image, contents[SECOND], right[SECOND]);
    spoil(source, other, contents[OTHER_SECOND], right[OTHER_SECOND]);
}

/* A built image with up to three blockettes that are changed in one bit each, or any image. */
static void next_verified(struct source *source, uint8_t *image, size_t count)
{
    uint8_t changes = next_byte(source) % 5;
    size_t blockettes = all_blockettes(count);
    next_image(source, image, count);
    if (changes < 4 && count <= LIMIT) {
        static uint8_t record[MOST];
        fill(source, record, count);
        rule_build(record, count, 1, NO_PLACE, image, MOST);
        for (; changes > 0 && blockettes > 0; changes--) {
            size_t at = 2 + BLOCKETTE * next_place(source, blockettes) + next_place(source, BLOCKETTE);
            image[at] = (uint8_t)(image[at] ^ 1u << next_byte(source) % 8);
        }
    }
}

static void next_contents(struct source *source, const struct call *call, const size_t *right)
{
    memset(contents, 0, sizeof contents);
    if (call->function == BUILD) {
        fill(source, contents[FIRST], right[FIRST]);
    } else if (call->function == SCAN) {
        next_marks(source, contents[FIRST], right[FIRST]);
    } else if (call->function == MERGE) {
        next_passes(source, call, right);
    } else if (call->function == VERIFY) {
        next_verified(source, contents[FIRST], call->count);
    } else {
        next_marks(source, contents[SECOND], right[SECOND]);
        next_image(source, contents[FIRST], call->count);
    }
    fill(source, contents[SPACE], call->buffers[SPACE].length);
    fill(source, contents[OTHER_SPACE], call->buffers[OTHER_SPACE].length);
}

/* What decides the course of a call comes first, so that few bytes reach far. */
static struct call next_call(struct source *source)
{
    struct call call = {.function = next_byte(source) % FUNCTIONS};
    bool numbers = call.function == IMAGE_LENGTH || call.function == MARK_COUNT;
    int arguments = numbers ? 0 : call.function == MERGE ? ARGUMENTS : OTHER_FIRST;
    size_t right[ARGUMENTS] = {0};
    call.density = next_byte(source) % 4;
    call.count = numbers ? next_size(source) : next_count(source);
    bool read_right = call.function == MERGE && next_merge(source, &call);
    right_lengths(&call, right);
    for (int i = 0; i < arguments; i++) {
        call.buffers[i].bytes = contents[i];
        bool is_right = read_right && i != SPACE && i != OTHER_SPACE;
        call.buffers[i].length = is_right ? right[i] : next_length(source, right[i]);
    }
    if (call.function == BUILD) {
        call.place = next_bad(source, call.buffers[FIRST].length);
    }
    if (!numbers) {
        next_contents(source, &call, right);
    }
    return call;
}

static struct call call_from(const uint8_t *data, size_t size)
{
    struct source source = {data, size, 80008000};
    for (size_t i = 0; i < size; i++) {
        source.state = source.state * 31 + data[i] + 1;
    }
    source.state |= 1; /* xorshift stays at 0 */
    if (fenced_length == 0) {
        build_fences();
    }
    return next_call(&source);
}

#ifndef FIXED_RUN

int LLVMFuzzerTestOneInput(const uint8_t *data, size_t size);

int LLVMFuzzerTestOneInput(const uint8_t *data, size_t size)
{
    struct call call = call_from(data, size);
    size_t answer;
    if (!agrees(&call, &answer)) {
        abort();
    }
    return 0;
}

#else

enum { CALLS = 16000, KINDS = 16 };

/*
 * Calls of each function by their kind of answer: the refusal, or, of a number, whether there is
 * one; of verify, which parities do not fit.
 */
static size_t calls[FUNCTIONS][KINDS];
static size_t wrong[FUNCTIONS];

static const unsigned kinds_needed[FUNCTIONS] = {
    [BUILD] = 1u << DONE | 1u << WRONG_LENGTH | 1u << SHORT_SPACE | 1u << NO_SUCH_PLACE,
    [RESTORE] = 1u << DONE | 1u << WRONG_LENGTH | 1u << WRONG_MARK | 1u << SHORT_SPACE |
                1u << UNRESTORABLE,
    [SCAN] = 1u << DONE | 1u << SHORT_SPACE,
    [MERGE] = 1u << DONE | 1u << WRONG_LENGTH | 1u << WRONG_MARK | 1u << SHORT_SPACE |
              1u << OTHER_COUNT | 1u << UNLIKE,
    [IMAGE_LENGTH] = 3,
    [MARK_COUNT] = 3,
    [IMAGE_COUNT] = 3,
    [VERIFY] = 1u << DONE | 1u << WRONG_LENGTH | 1u << 1 | 1u << 2 | 1u << 3,
};

static size_t kind_of(enum function function, size_t answer)
{
    if (function == IMAGE_LENGTH || function == MARK_COUNT || function == IMAGE_COUNT) {
        return answer != 0 && answer != NO_COUNT;
    }
    return answer < EVEN_UNFIT ? answer : answer / EVEN_UNFIT;
}

/* A function passes where all calls agreed and no kind of answer was missed. */
static bool passes(enum function function)
{
    size_t sum = 0;
    bool missed = false;
    for (unsigned kind = 0; kind < KINDS; kind++) {
        sum += calls[function][kind];
        missed = missed || (kinds_needed[function] >> kind & 1u) != (calls[function][kind] != 0);
    }
    bool fine = wrong[function] == 0 && !missed;
    printf("%s %s: %zu random calls, %zu not as the rules say%s\n", fine ? "ok" : "FAILED",
           names[function], sum, wrong[function], missed ? ", a kind of answer was missed" : "");
    return fine;
}

int main(void)
{
    struct source random = {NULL, 0, 1978};
    uint8_t data[40];
    int passed = 0;
    for (int i = 0; i < CALLS; i++) {
        fill(&random, data, sizeof data);
        struct call call = call_from(data, sizeof data);
        size_t answer;
        wrong[call.function] += !agrees(&call, &answer);
        calls[call.function][kind_of(call.function, answer)]++;
    }
    for (enum function function = BUILD; function < FUNCTIONS; function++) {
        passed += passes(function);
    }
    printf("%d passed, %d failed\n", passed, FUNCTIONS - passed);
    return passed == FUNCTIONS ? 0 : 1;
}

#endif
