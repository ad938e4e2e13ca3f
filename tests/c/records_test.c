/*
 * Tests of ctc_records.h from C. Each call is made four times on copies: between
 * guard bytes, before and behind a fence (a page that nobody may touch), and in a
 * malloc of the exact size. The sanitizers watch what is compiled with them, and
 * the archive is not; the fences stop it too, even where it only reads.
 */
#define _DEFAULT_SOURCE /* for MAP_ANONYMOUS */

#include "ctc_records.h"

#include <signal.h>
#include <stdarg.h>
#include <stdbool.h>
#include <stdint.h>
#include <stdio.h>
#include <stdlib.h>
#include <string.h>
#include <sys/mman.h>
#include <unistd.h>

/* ---- counting ---- */

static int passed, failed;
static bool test_failed;
static const char *test_name = "no test";

__attribute__((format(printf, 2, 3))) static void expect(bool holds, const char *format, ...)
{
    if (holds) {
        return;
    }
    if (!test_failed) { /* the first failure says enough */
        va_list words;
        va_start(words, format);
        printf("  %s: ", test_name);
        vprintf(format, words);
        printf("\n");
        va_end(words);
    }
    test_failed = true;
}

static void run(const char *name, void (*test)(void))
{
    test_name = name;
    test_failed = false;
    test();
    printf("%s %s\n", test_failed ? "FAILED" : "ok", name);
    if (test_failed) {
        failed++;
    } else {
        passed++;
    }
}

/* A touched fence ends the run: the call cannot go on from there. */
static void fence_touched(int number)
{
    static const char message[] = ": a call read or wrote outside its lent space\n";
    (void)number;
    /* nothing can be done where even this fails */
    bool said = write(STDOUT_FILENO, test_name, strlen(test_name)) > 0 &&
                write(STDOUT_FILENO, message, sizeof message - 1) > 0;
    _exit(said ? 1 : 2);
}

/* ---- pseudo-random numbers: xorshift, always the same ones ---- */

static uint64_t random_state = 80008000;

static uint64_t random_word(void)
{
    random_state ^= random_state << 13;
    random_state ^= random_state >> 7;
    random_state ^= random_state << 17;
    return random_state;
}

static size_t between(size_t low, size_t high)
{
    return low + (size_t)(random_word() % (high - low + 1));
}

static void fill_random(uint8_t *bytes, size_t length)
{
    for (size_t place = 0, step; place < length; place += step) {
        uint64_t word = random_word();
        step = length - place < sizeof word ? length - place : sizeof word;
        memcpy(bytes + place, &word, step);
    }
}

static uint8_t random_error(void)
{
    return (uint8_t)between(CTC_MARK_ERROR_LEAST, CTC_MARK_ERROR_MOST);
}

/* ---- lent spaces ---- */

/* In this order: guards say most, and a fence ends the run before malloc's own data is hit. */
enum lay { GUARDED, FENCE_BEHIND, FENCE_BEFORE, EXACT, ALL_LAYS, FIRST_LAY = GUARDED };
enum { GUARD = 64 };

/* An emulated processor is slow: it gets fewer lays, and of long records every STEPth blockette. */
#ifndef LAYS
#define LAYS ALL_LAYS
#endif
#ifndef STEP
#define STEP 1 /* a divisor of 255 */
#endif

struct lent {
    enum lay lay;
    uint8_t *bytes;
    size_t length;
    uint8_t *memory;
    size_t memory_length;
    size_t page;
};

static void *must(void *memory)
{
    if (memory == NULL || memory == MAP_FAILED) {
        printf("  out of memory\n");
        exit(2);
    }
    return memory;
}

static uint8_t guard_byte(size_t place)
{
    return (uint8_t)(place * 29 + 165);
}

/* Goes to the next guard around a lent space, none at a fence; SIZE_MAX is before the first. */
static bool next_guard(const struct lent *lent, size_t *place)
{
    size_t start = (size_t)(lent->bytes - lent->memory), end = start + lent->length;
    size_t from = lent->lay == FENCE_BEFORE ? start : start < GUARD ? 0 : start - GUARD;
    size_t to = lent->memory_length - (lent->lay == FENCE_BEHIND ? lent->page : 0);
    to = to - end < GUARD ? to : end + GUARD;
    *place = *place == SIZE_MAX ? from : *place + 1;
    if (*place == start) {
        *place += lent->length;
    }
    return lent->lay != EXACT && *place < to;
}

static struct lent lend(enum lay lay, const uint8_t *content, size_t length)
{
    struct lent lent = {.lay = lay, .length = length, .page = (size_t)sysconf(_SC_PAGESIZE)};
    switch (lay) {
    case EXACT:
        lent.memory_length = length;
        lent.memory = must(malloc(length == 0 ? 1 : length));
        lent.bytes = length == 0 ? lent.memory + 1 : lent.memory;
        break;
    case GUARDED:
        lent.memory_length = length + 2 * GUARD;
        lent.memory = must(malloc(lent.memory_length));
        lent.bytes = lent.memory + GUARD;
        break;
    default:
        lent.memory_length = (length + lent.page - 1) / lent.page * lent.page + lent.page;
        lent.memory = must(mmap(NULL, lent.memory_length, PROT_READ | PROT_WRITE,
                                MAP_PRIVATE | MAP_ANONYMOUS, -1, 0));
        lent.bytes = lay == FENCE_BEFORE ? lent.memory + lent.page
                                         : lent.memory + lent.memory_length - lent.page - length;
        break;
    }
    for (size_t place = SIZE_MAX; next_guard(&lent, &place);) {
        lent.memory[place] = guard_byte(place);
    }
    if (length > 0) {
        memcpy(lent.bytes, content, length);
    }
    if (lay == FENCE_BEHIND || lay == FENCE_BEFORE) {
        uint8_t *fence =
            lay == FENCE_BEFORE ? lent.memory : lent.memory + lent.memory_length - lent.page;
        if (mprotect(fence, lent.page, PROT_NONE) != 0) {
            must(NULL);
        }
    }
    return lent;
}

/* Frees a lent space; nothing around it may have changed. */
static void take_back(struct lent *lent, const char *name)
{
    for (size_t place = SIZE_MAX; next_guard(lent, &place);) {
        const uint8_t *byte = lent->memory + place;
        expect(*byte == guard_byte(place), "%s of %zu bytes: wrote at its place %td", name,
               lent->length, byte - lent->bytes);
    }
    if (lent->lay == EXACT || lent->lay == GUARDED) {
        free(lent->memory);
    } else {
        munmap(lent->memory, lent->memory_length);
    }
}

static bool alike(const uint8_t *a, const uint8_t *b, size_t length)
{
    return length == 0 || memcmp(a, b, length) == 0;
}

static void take_back_unchanged(struct lent *lent, const uint8_t *before, const char *name)
{
    expect(alike(lent->bytes, before, lent->length), "%s: an input was changed", name);
    take_back(lent, name);
}

/*
 * The calls. Each lends copies in every lay, holds the answers to each other, and
 * leaves in `space` what the call left in its own; a merge has two such spaces.
 */

struct kept {
    uint32_t answer;
    uint8_t after[CTC_IMAGE_MOST + 1024];
};
static struct kept kept, kept_marks;

/* Keeps the first lay's answer and holds the others to it. */
static void settle(enum lay lay, struct kept *first, uint32_t given, struct lent *space,
                   const char *name)
{
    if (space->length > sizeof first->after) {
        must(NULL);
    }
    if (lay == FIRST_LAY) {
        first->answer = given;
        if (space->length > 0) {
            memcpy(first->after, space->bytes, space->length);
        }
    }
    expect(given == first->answer && alike(space->bytes, first->after, space->length),
           "%s: the answer depends on where its space lies", name);
    take_back(space, name);
}

static uint32_t give_after(const struct kept *first, uint8_t *space, size_t length)
{
    if (length > 0) {
        memcpy(space, first->after, length);
    }
    return first->answer;
}

static uint32_t build_with(ctc_size place, const uint8_t *bytes, size_t bytes_len, uint8_t density,
                           uint8_t *space, size_t space_len)
{
    for (enum lay lay = FIRST_LAY; lay < LAYS; lay++) {
        struct lent input = lend(lay, bytes, bytes_len);
        struct lent image = lend(lay, space, space_len);
        uint32_t given = ctc_build(input.bytes, bytes_len, density, place, image.bytes, space_len);
        take_back_unchanged(&input, bytes, "bytes");
        settle(lay, &kept, given, &image, "image space");
    }
    return give_after(&kept, space, space_len);
}

static uint32_t build(const uint8_t *bytes, size_t bytes_len, uint8_t density, uint8_t *space,
                      size_t space_len)
{
    return build_with(CTC_NO_PLACE, bytes, bytes_len, density, space, space_len);
}

static uint32_t restore(const uint8_t *image, size_t image_len, const uint8_t *marks,
                        size_t marks_len, uint8_t *space, size_t space_len)
{
    for (enum lay lay = FIRST_LAY; lay < LAYS; lay++) {
        struct lent lent_image = lend(lay, image, image_len);
        struct lent lent_marks = lend(lay, marks, marks_len);
        struct lent out = lend(lay, space, space_len);
        uint32_t given = ctc_restore(lent_image.bytes, image_len, lent_marks.bytes, marks_len,
                                     out.bytes, space_len);
        take_back_unchanged(&lent_image, image, "image");
        take_back_unchanged(&lent_marks, marks, "marks");
        settle(lay, &kept, given, &out, "output space");
    }
    return give_after(&kept, space, space_len);
}

/* One reading of a GCR record. */
struct pass {
    uint8_t image[CTC_IMAGE_MOST + 1];
    size_t image_len;
    uint8_t marks[CTC_MARKS_MOST + 1];
    size_t marks_len;
};

static uint32_t merge(const struct pass *first, const struct pass *second, uint8_t *space,
                      size_t space_len, uint8_t *marks_space, size_t marks_space_len)
{
    for (enum lay lay = FIRST_LAY; lay < LAYS; lay++) {
        struct lent first_image = lend(lay, first->image, first->image_len);
        struct lent first_marks = lend(lay, first->marks, first->marks_len);
        struct lent second_image = lend(lay, second->image, second->image_len);
        struct lent second_marks = lend(lay, second->marks, second->marks_len);
        struct lent image = lend(lay, space, space_len);
        struct lent marks = lend(lay, marks_space, marks_space_len);
        uint32_t given = ctc_merge(first_image.bytes, first_image.length, first_marks.bytes,
                                   first_marks.length, second_image.bytes, second_image.length,
                                   second_marks.bytes, second_marks.length, image.bytes,
                                   image.length, marks.bytes, marks.length);
        take_back_unchanged(&first_image, first->image, "first image");
        take_back_unchanged(&first_marks, first->marks, "first marks");
        take_back_unchanged(&second_image, second->image, "second image");
        take_back_unchanged(&second_marks, second->marks, "second marks");
        settle(lay, &kept, given, &image, "image space");
        settle(lay, &kept_marks, given, &marks, "marks space");
    }
    give_after(&kept_marks, marks_space, marks_space_len);
    return give_after(&kept, space, space_len);
}

static uint32_t scan(const uint8_t *marks, size_t marks_len, uint8_t *space, size_t space_len)
{
    for (enum lay lay = FIRST_LAY; lay < LAYS; lay++) {
        struct lent input = lend(lay, marks, marks_len);
        struct lent report = lend(lay, space, space_len);
        uint32_t given = ctc_scan(input.bytes, marks_len, report.bytes, space_len);
        take_back_unchanged(&input, marks, "marks");
        settle(lay, &kept, given, &report, "report space");
    }
    return give_after(&kept, space, space_len);
}

static size_t image_count(const uint8_t *image, size_t image_len)
{
    size_t count = 0;
    for (enum lay lay = FIRST_LAY; lay < LAYS; lay++) {
        struct lent input = lend(lay, image, image_len);
        size_t given = ctc_image_count(input.bytes, image_len);
        take_back_unchanged(&input, image, "image");
        count = lay == FIRST_LAY ? given : count;
        expect(given == count, "image count: it depends on where the image lies");
    }
    return count;
}

static uint32_t verify(const uint8_t *image, size_t image_len)
{
    uint32_t told = 0;
    for (enum lay lay = FIRST_LAY; lay < LAYS; lay++) {
        struct lent input = lend(lay, image, image_len);
        uint32_t given = ctc_verify(input.bytes, image_len);
        take_back_unchanged(&input, image, "image");
        told = lay == FIRST_LAY ? given : told;
        expect(given == told, "verify: it depends on where the image lies");
    }
    return told;
}

/* ---- what is expected ---- */

static size_t data_blockettes(size_t count)
{
    return (count + 255) / 256;
}

/* The image of a record, blockette by number; gives its length. */
static size_t expected_image(const uint8_t *bytes, size_t count, uint8_t density, uint8_t *image)
{
    size_t rotated = count / 2 + count % 2 * 32768;
    image[0] = (uint8_t)(rotated / 256);
    image[1] = (uint8_t)(rotated % 256);
    if (count == 0) {
        return 2;
    }
    if (density == CTC_DENSITY_MFM) {
        memcpy(image + 2, bytes, count);
        return 2 + count;
    }
    size_t n = data_blockettes(count);
    uint8_t *check_1 = image + 2 + 256 * n;
    uint8_t *check_0 = check_1 + 256;
    memset(image + 2, 0, 256 * (n + 2));
    memcpy(image + 2, bytes, count);
    for (size_t number = 0; number < n; number++) {
        const uint8_t *data = image + 2 + 256 * (n - 1 - number);
        uint8_t *check = number % 2 == 1 ? check_1 : check_0;
        for (size_t i = 0; i < 256; i++) {
            check[i] = (uint8_t)(check[i] ^ data[i]);
        }
    }
    return 2 + 256 * (n + 2);
}

/* ---- tests ---- */

static uint8_t bytes[CTC_COUNT_LIMIT + 1024];
static uint8_t image[CTC_IMAGE_MOST + 1024];
static uint8_t before[CTC_IMAGE_MOST + 1024];
static uint8_t expected[CTC_IMAGE_MOST + 1024];
static uint8_t out[CTC_IMAGE_MOST + 1024];
static uint8_t marks[1024];
static uint8_t marks_before[1024];
static uint8_t marks_out[1024];
static struct pass first, second;

/* Some counts, then those at the edges of every blockette: 256k - 1, 256k and 256k + 1. */
enum {
    FEW = 7,
    MOST_BLOCKETTES = CTC_MARKS_MOST - 2,
    EDGES = FEW + 3 * ((MOST_BLOCKETTES - 1) / STEP + 1) - 2
};

static size_t edge_count(size_t i)
{
    static const size_t few[FEW] = {0, 1, 2, 3, 5, 600, CTC_COUNT_LIMIT - 1};
    return i < FEW ? few[i] : 256 * (1 + STEP * ((i - FEW) / 3)) + (i - FEW) % 3 - 1;
}

/* The places of the longest record's blockettes: the first two, every STEPth, and the last two. */
static size_t next_place(size_t place)
{
    return place == 0 || place + STEP >= CTC_MARKS_MOST - 1 ? place + 1 : place + STEP;
}

/* The counts for which everything is tried; for those between, what differs from count to count. */
static bool at_an_end(size_t count)
{
    return count < 1030 || count > CTC_COUNT_LIMIT - 256;
}

/* The space `now` must be `was` with `given_len` bytes of `given` at its start. */
static bool start_written(const uint8_t *now, const uint8_t *was, size_t length,
                          const uint8_t *given, size_t given_len)
{
    return given_len <= length && alike(now, given, given_len) &&
           alike(now + given_len, was + given_len, length - given_len);
}

static bool only_start_written(const uint8_t *now, size_t length, const uint8_t *given,
                               size_t given_len)
{
    return start_written(now, before, length, given, given_len);
}

static void constants(void)
{
    expect(CTC_COUNT_LIMIT == 65535, "limit");
    expect(CTC_IMAGE_MOST == 66050, "longest image");
    expect(CTC_MARKS_MOST == 258, "most marks");
    expect(edge_count(EDGES - 1) == CTC_COUNT_LIMIT, "the last edge");
    expect(CTC_NO_COUNT == 65536, "no count");
    expect(CTC_NO_PLACE == 65791, "no place");
    expect(CTC_DENSITY_MFM == 0 && CTC_DENSITY_GCR == 1, "densities");
    expect(CTC_MARK_GOOD == 15, "good mark");
    expect(CTC_DONE == 0 && CTC_REFUSED_LENGTH == 9 && CTC_REFUSED_MARK == 10, "refusals");
    expect(CTC_REFUSED_SPACE == 11 && CTC_REFUSED_UNRESTORABLE == 12, "refusals");
    expect(CTC_REFUSED_COUNTS == 13 && CTC_REFUSED_UNLIKE == 14, "refusals");
    expect(CTC_REFUSED_PLACE == 15, "refusals");
    expect(CTC_UNFIT_EVEN == 32 && CTC_UNFIT_ODD == 64, "bits of the parities");
    expect(ctc_image_length(CTC_COUNT_LIMIT, CTC_DENSITY_GCR) == CTC_IMAGE_MOST, "longest image");
    expect(ctc_mark_count(CTC_COUNT_LIMIT, CTC_DENSITY_GCR) == CTC_MARKS_MOST, "most marks");
}

static void lengths(void)
{
    for (size_t count = 0; count <= CTC_COUNT_LIMIT + 300; count++) {
        bool above = count > CTC_COUNT_LIMIT;
        size_t n = data_blockettes(count);
        size_t gcr = above ? 0 : count == 0 ? 2 : 2 + 256 * (n + 2);
        size_t in_marks = above || count == 0 ? 0 : n + 2;
        expect(ctc_image_length(count, CTC_DENSITY_MFM) == (above ? 0 : 2 + count),
               "MFM length of %zu", count);
        expect(ctc_image_length(count, CTC_DENSITY_GCR) == gcr, "GCR length of %zu", count);
        expect(ctc_image_length(count, 255) == gcr, "GCR length of %zu", count);
        expect(ctc_mark_count(count, CTC_DENSITY_MFM) == 0, "MFM marks of %zu", count);
        expect(ctc_mark_count(count, CTC_DENSITY_GCR) == in_marks, "GCR marks of %zu", count);
        expect(ctc_mark_count(count, 2) == in_marks, "GCR marks of %zu", count);
    }
    const size_t large[] = {CTC_NO_COUNT, 131071, 131072, SIZE_MAX / 2, SIZE_MAX - 255,
                            SIZE_MAX - 1, SIZE_MAX};
    for (size_t i = 0; i < sizeof large / sizeof large[0]; i++) {
        for (unsigned density = 0; density < 3; density++) {
            expect(ctc_image_length(large[i], (uint8_t)density) == 0, "length of %zu", large[i]);
            expect(ctc_mark_count(large[i], (uint8_t)density) == 0, "marks of %zu", large[i]);
        }
    }
}

static void counts_of_images(void)
{
    uint8_t few[5];
    for (size_t i = 0; i < EDGES + 1000; i++) {
        size_t count = i < EDGES ? edge_count(i) : 65 * (i - EDGES);
        fill_random(few, sizeof few);
        size_t rotated = count / 2 + count % 2 * 32768;
        few[0] = (uint8_t)(rotated / 256);
        few[1] = (uint8_t)(rotated % 256);
        expect(image_count(few, 2) == count, "two bytes of %zu", count);
        expect(image_count(few, sizeof few) == count, "five bytes of %zu", count);
        expect(image_count(few, 1) == CTC_NO_COUNT, "one byte");
    }
    expect(image_count(few, 0) == CTC_NO_COUNT, "no byte");
}

static void null_bytes(void)
{
    for (unsigned density = 0; density < 3; density++) {
        uint8_t four[4] = {1, 2, 3, 4};
        expect(ctc_build(NULL, 0, (uint8_t)density, CTC_NO_PLACE, four, 4) == CTC_DONE, "built");
        expect(four[0] == 0 && four[1] == 0 && four[2] == 3 && four[3] == 4, "two bytes of 0");
        four[0] = 1;
        expect(ctc_build(NULL, 0, (uint8_t)density, CTC_NO_PLACE, four, 1) == CTC_REFUSED_SPACE,
               "one byte");
        expect(ctc_build(NULL, 0, (uint8_t)density, 0, four, 4) == CTC_REFUSED_PLACE,
               "no byte has a place");
        expect(four[0] == 1, "nothing written");
    }
}

static void null_image_space(void)
{
    const uint8_t five[5] = {1, 2, 3, 4, 5};
    for (unsigned density = 0; density < 3; density++) {
        /* a place of a byte, none, and neither: 11 before 15, and 9 before 11 */
        static const size_t places[] = {0, CTC_NO_PLACE, SIZE_MAX};
        for (size_t i = 0; i < 3; i++) {
            expect(ctc_build(five, 5, (uint8_t)density, places[i], NULL, 0) == CTC_REFUSED_SPACE,
                   "five bytes");
            expect(ctc_build(NULL, 0, (uint8_t)density, places[i], NULL, 0) == CTC_REFUSED_SPACE,
                   "both null");
            expect(ctc_build(bytes, CTC_COUNT_LIMIT + 1, (uint8_t)density, places[i], NULL, 0) ==
                       CTC_REFUSED_LENGTH,
                   "9 before 11");
        }
    }
}

static void null_image(void)
{
    uint8_t space[4] = {1, 2, 3, 4};
    const uint8_t good[3] = {15, 15, 15};
    expect(ctc_restore(NULL, 0, good, 3, space, 4) == CTC_REFUSED_LENGTH, "no image");
    expect(ctc_restore(NULL, 0, NULL, 0, space, 4) == CTC_REFUSED_LENGTH, "no image, no marks");
    expect(ctc_restore(NULL, 0, NULL, 0, NULL, 0) == CTC_REFUSED_LENGTH, "nothing at all");
    expect(space[0] == 1 && space[3] == 4, "nothing written");
    expect(ctc_image_count(NULL, 0) == CTC_NO_COUNT, "count of no image");
    expect(ctc_verify(NULL, 0) == CTC_REFUSED_LENGTH, "no image to verify");
}

static void null_marks(void)
{
    uint8_t space[5] = {1, 2, 3, 4, 5};
    const uint8_t five[5] = {6, 7, 8, 9, 10};
    const uint8_t empty[2] = {0, 0};
    size_t length = expected_image(five, 5, CTC_DENSITY_GCR, image);
    expect(ctc_restore(image, length, NULL, 0, space, 5) == CTC_REFUSED_LENGTH, "marks missing");
    expect(space[0] == 1 && space[4] == 5, "nothing written");
    expect(ctc_restore(empty, 2, NULL, 0, space, 5) == CTC_DONE, "a record of 0 bytes");
    expect(space[0] == 1 && space[4] == 5, "nothing given");
}

static void null_output_space(void)
{
    const uint8_t five[5] = {6, 7, 8, 9, 10};
    const uint8_t empty[2] = {0, 0};
    const uint8_t good[3] = {15, 15, 15};
    size_t length = expected_image(five, 5, CTC_DENSITY_GCR, image);
    expect(ctc_restore(image, length, good, 3, NULL, 0) == CTC_REFUSED_SPACE, "five bytes");
    expect(ctc_restore(empty, 2, NULL, 0, NULL, 0) == CTC_DONE, "a record of 0 bytes");
}

static void null_scan(void)
{
    static const uint8_t zeros[9] = {0};
    uint8_t report[10];
    memset(report, 0xEE, sizeof report);
    expect(ctc_scan(NULL, 0, report, 10) == CTC_DONE, "no marks");
    expect(alike(report, zeros, 9) && report[9] == 0xEE, "nine zeros");
    const uint8_t good[3] = {15, 15, 15};
    expect(ctc_scan(good, 3, NULL, 0) == CTC_REFUSED_SPACE, "no space");
    expect(ctc_scan(NULL, 0, NULL, 0) == CTC_REFUSED_SPACE, "nothing at all");
}

static void worked_rotations(void)
{
    static const struct {
        size_t count;
        uint8_t high, low;
    } cases[] = {{5, 0x80, 0x02}, {3, 0x80, 0x01}, {256, 0x00, 0x80}};
    for (size_t i = 0; i < 3; i++) {
        for (unsigned density = 0; density < 2; density++) {
            size_t length = ctc_image_length(cases[i].count, (uint8_t)density);
            expect(build(bytes, cases[i].count, (uint8_t)density, image, length) == CTC_DONE,
                   "built");
            expect(image[0] == cases[i].high && image[1] == cases[i].low, "count %zu",
                   cases[i].count);
            expect(image_count(image, length) == cases[i].count, "count %zu", cases[i].count);
        }
    }
}

static void worked_two_errors(void)
{
    /* tape order: 2, 1, 0, check 1, check 0 */
    static const uint8_t on_1_and_check_0[5] = {15, 9, 15, 15, 3};
    static const uint8_t report_expected[9] = {9, 1, 1, 3, 2, 0, 0, 0, 0};
    uint8_t report[9];
    fill_random(bytes, 600);
    size_t length = expected_image(bytes, 600, CTC_DENSITY_GCR, image);
    memset(image + 2 + 256, 0x55, 256);
    memset(image + 2 + 1024, 0x55, 256);
    expect(scan(on_1_and_check_0, 5, report, 9) == CTC_DONE, "scanned");
    expect(alike(report, report_expected, 9), "report");
    expect(restore(image, length, on_1_and_check_0, 5, out, 600) == CTC_DONE, "restored");
    expect(alike(out, bytes, 600), "bytes");
}

static void worked_unrestorable(void)
{
    static const uint8_t on_2_and_0[5] = {6, 15, 4, 15, 15};
    static const uint8_t report_expected[9] = {0, 0, 0, 6, 1, 2, 4, 1, 0};
    uint8_t report[9];
    fill_random(bytes, 600);
    size_t length = expected_image(bytes, 600, CTC_DENSITY_GCR, image);
    memset(before, 0xEE, 600);
    memset(out, 0xEE, 600);
    expect(scan(on_2_and_0, 5, report, 9) == CTC_DONE, "scanned");
    expect(alike(report, report_expected, 9), "report");
    expect(restore(image, length, on_2_and_0, 5, out, 600) == CTC_REFUSED_UNRESTORABLE, "12");
    expect(alike(out, before, 600), "nothing written");
}

static void worked_one_byte(void)
{
    const uint8_t one = 0x5A;
    memset(expected, 0, 770);
    expected[0] = 0x80;
    expected[2] = 0x5A;
    expected[2 + 256 + 256] = 0x5A;
    memset(image, 0xEE, 770);
    expect(build(&one, 1, CTC_DENSITY_GCR, image, 770) == CTC_DONE, "built");
    expect(alike(image, expected, 770), "the 257th check byte, and no other");
}

static void builds_edges(void)
{
    for (size_t i = 0; i < EDGES; i++) {
        size_t count = edge_count(i);
        bool all = at_an_end(count);
        fill_random(bytes, count);
        for (unsigned density = 0; density < (all ? 3 : 2); density++) {
            size_t length = expected_image(bytes, count, (uint8_t)density, expected);
            for (size_t more = 0; more <= (all ? 600 : 0); more += 300) {
                fill_random(before, length + more);
                memcpy(image, before, length + more);
                expect(build(bytes, count, (uint8_t)density, image, length + more) == CTC_DONE,
                       "built %zu", count);
                expect(only_start_written(image, length + more, expected, length),
                       "image of %zu, density %u, %zu bytes more", count, density, more);
            }
        }
    }
}

static void builder_refuses(void)
{
    static const size_t rooms_above[] = {0, 1, 2, CTC_IMAGE_MOST, CTC_IMAGE_MOST + 500};
    fill_random(bytes, sizeof bytes);
    for (unsigned density = 0; density < 2; density++) {
        for (size_t i = 0; i < sizeof rooms_above / sizeof rooms_above[0]; i++) {
            size_t room = rooms_above[i];
            fill_random(before, room);
            memcpy(image, before, room);
            expect(build(bytes, CTC_COUNT_LIMIT + 1, (uint8_t)density, image, room) ==
                       CTC_REFUSED_LENGTH,
                   "one above the limit, space of %zu", room);
            expect(build(bytes, sizeof bytes, (uint8_t)density, image, room) == CTC_REFUSED_LENGTH,
                   "far above the limit, space of %zu", room);
            expect(alike(image, before, room), "nothing written");
        }
        for (size_t i = 0; i < EDGES; i++) {
            size_t count = edge_count(i);
            size_t needed = expected_image(bytes, count, (uint8_t)density, expected);
            const size_t rooms[] = {needed - 1, 0, 1, needed / 2, needed - 2,
                                    needed > 256 ? needed - 256 : 1};
            size_t tried = at_an_end(count) ? sizeof rooms / sizeof rooms[0] : 1;
            for (size_t r = 0; r < tried; r++) {
                fill_random(before, rooms[r]);
                memcpy(image, before, rooms[r]);
                expect(build(bytes, count, (uint8_t)density, image, rooms[r]) ==
                           CTC_REFUSED_SPACE,
                       "%zu bytes, space of %zu", count, rooms[r]);
                expect(alike(image, before, rooms[r]), "nothing written");
            }
        }
    }
}

/* Builds with a bad byte and holds it to what is expected of a record with zeros behind it. */
static void build_bad(size_t place, size_t count, uint8_t density, size_t more)
{
    static uint8_t written[CTC_COUNT_LIMIT];
    memset(written, 0, count);
    memcpy(written, bytes, place + 1);
    size_t length = expected_image(written, count, density, expected);
    fill_random(before, length + more);
    memcpy(image, before, length + more);
    expect(build_with(place, bytes, count, density, image, length + more) == CTC_DONE,
           "place %zu of %zu", place, count);
    expect(only_start_written(image, length + more, expected, length),
           "place %zu of %zu, density %u, %zu bytes more", place, count, density, more);
}

static void bad_parity(void)
{
    static const size_t small[] = {1, 2, 3, 255, 256, 257, 513};
    for (uint8_t density = 0; density < 2; density++) {
        for (size_t i = 0; i < sizeof small / sizeof small[0]; i++) {
            fill_random(bytes, small[i]);
            for (size_t place = 0; place < small[i]; place++) {
                build_bad(place, small[i], density, place % 2);
            }
        }
        fill_random(bytes, CTC_COUNT_LIMIT);
        for (size_t i = 0; i < EDGES; i++) { /* places at the edges of the longest record's */
            if (edge_count(i) < CTC_COUNT_LIMIT) {
                build_bad(edge_count(i), CTC_COUNT_LIMIT, density, 0);
            }
        }
    }
}

static void builder_refuses_places(void)
{
    fill_random(bytes, sizeof bytes);
    for (uint8_t density = 0; density < 3; density++) {
        for (size_t i = 0; i < EDGES; i++) {
            size_t count = edge_count(i);
            size_t length = expected_image(bytes, count, density, expected);
            const ctc_size places[] = {count, count + 1, CTC_NO_PLACE - 1, CTC_NO_PLACE + 1,
                                       (ctc_size)UINT32_MAX + 1,
                                       (ctc_size)UINT32_MAX + 1 + CTC_NO_PLACE, UINT64_MAX};
            size_t tried = at_an_end(count) ? sizeof places / sizeof places[0] : 1;
            fill_random(before, length);
            memcpy(image, before, length);
            for (size_t p = 0; p < tried; p++) {
                expect(build_with(places[p], bytes, count, density, image, length) ==
                           CTC_REFUSED_PLACE,
                       "place %zu of %zu", (size_t)places[p], count);
                expect(build_with(places[p], bytes, count, density, image, length - 1) ==
                           CTC_REFUSED_SPACE,
                       "11 before 15, place %zu of %zu", (size_t)places[p], count);
            }
            expect(alike(image, before, length), "nothing written");
        }
        expect(build_with(SIZE_MAX, bytes, CTC_COUNT_LIMIT + 1, density, image, CTC_IMAGE_MOST) ==
                   CTC_REFUSED_LENGTH,
               "9 before 15");
    }
}

static void restorer_refuses(void)
{
    for (unsigned reasons = 0; reasons < 32; reasons++) {
        bool image_wrong = reasons & 1u, marks_wrong = reasons & 2u, illegal = reasons & 4u;
        bool space_short = reasons & 8u, unrestorable = reasons & 16u;
        size_t count = 1100, image_len, marks_len = 7, room = count;
        fill_random(bytes, count);
        image_len = expected_image(bytes, count, CTC_DENSITY_GCR, image);
        memset(marks, CTC_MARK_GOOD, sizeof marks);
        if (unrestorable) {
            marks[1] = marks[5] = 4; /* data 3 and check 1 */
        }
        if (illegal) {
            marks[6] = 10;
        }
        if (space_short) {
            room = count - 1;
        }
        if (marks_wrong) {
            marks_len = 8;
        }
        if (image_wrong) {
            image_len = image_len - 1;
        }
        uint32_t answer = image_wrong || marks_wrong ? CTC_REFUSED_LENGTH
                          : illegal                  ? CTC_REFUSED_MARK
                          : space_short              ? CTC_REFUSED_SPACE
                          : unrestorable             ? CTC_REFUSED_UNRESTORABLE
                                                     : CTC_DONE;
        fill_random(before, room);
        memcpy(out, before, room);
        expect(restore(image, image_len, marks, marks_len, out, room) == answer, "reasons %u",
               reasons);
        expect(answer == CTC_DONE || alike(out, before, room), "nothing written, reasons %u",
               reasons);
    }
}

static void restorer_refuses_every_mark(void)
{
    size_t count = 300;
    fill_random(bytes, count);
    size_t length = expected_image(bytes, count, CTC_DENSITY_GCR, image);
    for (size_t place = 0; place < 4; place++) {
        for (unsigned value = 0; value < 256; value++) {
            bool legal = (value >= 1 && value <= 9) || value == 15;
            memset(marks, CTC_MARK_GOOD, 4);
            marks[place] = (uint8_t)value;
            fill_random(before, count);
            memcpy(out, before, count);
            expect(restore(image, length, marks, 4, out, count) ==
                       (legal ? CTC_DONE : CTC_REFUSED_MARK),
                   "mark %u at %zu", value, place);
            expect(alike(out, legal ? bytes : before, count), "mark %u at %zu", value, place);
        }
    }
}

static void restorer_refuses_lengths(void)
{
    for (size_t i = 0; i < EDGES; i++) {
        size_t count = edge_count(i);
        fill_random(bytes, count);
        memset(image, 0, sizeof image);
        memset(marks, CTC_MARK_GOOD, sizeof marks);
        size_t length = expected_image(bytes, count, CTC_DENSITY_GCR, image);
        size_t mark_count = ctc_mark_count(count, CTC_DENSITY_GCR);
        fill_random(before, count);
        memcpy(out, before, count);
        const size_t lengths_wrong[] = {length - 1, length + 1, 0, 1, length + 256, length + 512};
        size_t tried = at_an_end(count) ? sizeof lengths_wrong / sizeof lengths_wrong[0] : 2;
        for (size_t w = 0; w < tried; w++) {
            expect(restore(image, lengths_wrong[w], marks, mark_count, out, count) ==
                       CTC_REFUSED_LENGTH,
                   "count %zu, image of %zu", count, lengths_wrong[w]);
        }
        const size_t marks_wrong[] = {mark_count - 1, mark_count + 1, mark_count - 2, mark_count + 2,
                                      mark_count - 256, mark_count + 256, 0, 1, 2, 66,
                                      CTC_MARKS_MOST - 1, CTC_MARKS_MOST, CTC_MARKS_MOST + 1};
        tried = at_an_end(count) ? sizeof marks_wrong / sizeof marks_wrong[0] : 2;
        for (size_t w = 0; w < tried; w++) {
            /* less than none is nothing to be tried */
            if (marks_wrong[w] != mark_count && marks_wrong[w] <= sizeof marks) {
                expect(restore(image, length, marks, marks_wrong[w], out, count) ==
                           CTC_REFUSED_LENGTH,
                       "count %zu, %zu marks", count, marks_wrong[w]);
            }
        }
        expect(alike(out, before, count), "nothing written, count %zu", count);
    }
}

/* Whether check blockettes fit is not looked at: here they are random. */
static void good_blockettes_as_they_are(void)
{
    for (size_t i = 0; i < EDGES; i++) {
        size_t count = edge_count(i), room = count + 100;
        size_t length = expected_image(bytes, count, CTC_DENSITY_GCR, image);
        fill_random(image + 2, length - 2); /* the count bytes stay */
        memset(marks, CTC_MARK_GOOD, sizeof marks);
        fill_random(before, room);
        memcpy(out, before, room);
        expect(restore(image, length, marks, ctc_mark_count(count, CTC_DENSITY_GCR), out, room) ==
                   CTC_DONE,
               "restored %zu", count);
        expect(only_start_written(out, room, image + 2, count), "the record of %zu", count);
    }
}

/* Records built, spoiled in one odd and one even blockette, restored. */
static void round_trips(void)
{
    for (size_t turn = 0; turn < EDGES + 400; turn++) {
        size_t count = turn < EDGES ? edge_count(turn)
                                    : between(1, turn % 4 == 0 ? CTC_COUNT_LIMIT : 1500);
        size_t length = ctc_image_length(count, CTC_DENSITY_GCR);
        size_t mark_count = ctc_mark_count(count, CTC_DENSITY_GCR);
        size_t room = count + between(0, 300);
        fill_random(bytes, count);
        fill_random(image, length);
        expect(build(bytes, count, CTC_DENSITY_GCR, image, length) == CTC_DONE, "built %zu", count);
        memset(marks, CTC_MARK_GOOD, sizeof marks);
        for (size_t parity = 0; parity < 2 && mark_count > 0; parity++) {
            if (between(0, 4) == 0) {
                continue;
            }
            /* the last place is even, the one before it odd */
            size_t of_parity = (mark_count + 1 - parity) / 2;
            size_t place = mark_count - 1 - parity - 2 * between(0, of_parity - 1);
            marks[place] = random_error();
            fill_random(image + 2 + 256 * place, 256);
        }
        fill_random(before, room);
        memcpy(out, before, room);
        expect(restore(image, length, marks, mark_count, out, room) == CTC_DONE, "restored %zu",
               count);
        expect(only_start_written(out, room, bytes, count), "the record of %zu", count);

        uint8_t report[CTC_REPORT_LENGTH];
        expect(scan(marks, mark_count, report, sizeof report) == CTC_DONE, "scanned");
        expect(report[CTC_REPORT_STOP + 1] == 0, "nothing stops the scan of %zu", count);
    }
}

/* The entry of the report for an error at a place of the longest record: 255 down to 0, check 1, 0. */
static void put_entry(uint8_t *report, bool stop, size_t place)
{
    bool check = place >= 256;
    size_t number = check ? 257 - place : 255 - place;
    uint8_t *entry = report + (stop              ? CTC_REPORT_STOP
                               : number % 2 == 1 ? CTC_REPORT_ODD
                                                 : CTC_REPORT_EVEN);
    entry[0] = marks[place];
    entry[1] = check ? CTC_KIND_CHECK : CTC_KIND_DATA;
    entry[2] = (uint8_t)number;
}

/* Each blockette of the longest record: told by its number, restored, and counted where two are bad. */
static void every_number(void)
{
    size_t count = CTC_COUNT_LIMIT, most = CTC_MARKS_MOST;
    fill_random(bytes, count);
    expect(expected_image(bytes, count, CTC_DENSITY_GCR, expected) == CTC_IMAGE_MOST, "length");
    expect(expected[0] == 0xFF && expected[1] == 0xFF, "its count bytes");
    for (size_t place = 0; place < most; place = next_place(place)) {
        uint8_t report[CTC_REPORT_LENGTH], wanted[CTC_REPORT_LENGTH] = {0};
        memcpy(image, expected, CTC_IMAGE_MOST);
        memset(image + 2 + 256 * place, 0x55, 256);
        memset(marks, CTC_MARK_GOOD, most);
        marks[place] = random_error();
        put_entry(wanted, false, place);
        expect(scan(marks, most, report, sizeof report) == CTC_DONE, "scanned");
        expect(alike(report, wanted, sizeof wanted), "report of place %zu", place);
        expect(restore(image, CTC_IMAGE_MOST, marks, most, out, count) == CTC_DONE,
               "restored, place %zu", place);
        expect(alike(out, bytes, count), "the record, place %zu", place);

        if (place + 2 < most) {
            marks[place + 2] = random_error();
            put_entry(wanted, true, place + 2);
            expect(scan(marks, most, report, sizeof report) == CTC_DONE, "scanned");
            expect(alike(report, wanted, sizeof wanted), "stop at place %zu", place + 2);
            expect(restore(image, CTC_IMAGE_MOST, marks, most, out, count) ==
                       CTC_REFUSED_UNRESTORABLE,
                   "places %zu and %zu", place, place + 2);
        }
        marks[place] = CTC_MARK_ERROR_MOST + 1;
        expect(restore(image, CTC_IMAGE_MOST, marks, most, out, count) == CTC_REFUSED_MARK,
               "mark at place %zu", place);
    }
}

/* Two bad blockettes of one parity: refused, and the scan tells which two. */
static void unrestorable(void)
{
    for (int turn = 0; turn < 300; turn++) {
        size_t count = between(257, turn % 4 == 0 ? CTC_COUNT_LIMIT : 1500);
        size_t mark_count = ctc_mark_count(count, CTC_DENSITY_GCR);
        size_t first = between(0, mark_count - 3);
        size_t second = first + 2 * between(1, (mark_count - 1 - first) / 2);
        fill_random(bytes, count);
        size_t length = expected_image(bytes, count, CTC_DENSITY_GCR, image);
        memset(marks, CTC_MARK_GOOD, sizeof marks);
        marks[first] = random_error();
        marks[second] = random_error();
        fill_random(before, count);
        memcpy(out, before, count);
        expect(restore(image, length, marks, mark_count, out, count) == CTC_REFUSED_UNRESTORABLE,
               "count %zu, places %zu and %zu", count, first, second);
        expect(alike(out, before, count), "nothing written, count %zu", count);

        uint8_t report[CTC_REPORT_LENGTH], wanted[CTC_REPORT_LENGTH] = {0};
        size_t first_after = mark_count - 1 - first, second_after = mark_count - 1 - second;
        uint8_t *entry = wanted + (first_after % 2 == 1 ? CTC_REPORT_ODD : CTC_REPORT_EVEN);
        entry[0] = marks[first];
        entry[1] = CTC_KIND_DATA;
        entry[2] = (uint8_t)(first_after - 2);
        entry = wanted + CTC_REPORT_STOP;
        entry[0] = marks[second];
        entry[1] = second_after < 2 ? CTC_KIND_CHECK : CTC_KIND_DATA;
        entry[2] = (uint8_t)(second_after < 2 ? second_after : second_after - 2);
        expect(scan(marks, mark_count, report, sizeof report) == CTC_DONE, "scanned");
        expect(alike(report, wanted, sizeof wanted), "report, count %zu", count);
    }
}

static void report_spaces(void)
{
    for (size_t room = 0; room <= 40; room++) {
        static const uint8_t five[5] = {15, 9, 15, 15, 3};
        static const uint8_t wanted[9] = {9, 1, 1, 3, 2, 0, 0, 0, 0};
        bool short_space = room < CTC_REPORT_LENGTH;
        fill_random(before, room);
        memcpy(out, before, room);
        expect(scan(five, 5, out, room) == (short_space ? CTC_REFUSED_SPACE : CTC_DONE),
               "space of %zu", room);
        expect(only_start_written(out, room, wanted, short_space ? 0 : 9), "space of %zu", room);
    }
}

static void unusual_marks(void)
{
    uint8_t report[9];
    static const uint8_t zero_mark[9] = {0, 0, 0, 0, 2, 0, 0, 0, 0};
    static const uint8_t far_number[9] = {255, 1, 1, 0, 0, 0, 0, 0, 0};
    static const uint8_t beyond_stop[5] = {6, 15, 4, 9, 9};
    static const uint8_t stopped[9] = {0, 0, 0, 6, 1, 2, 4, 1, 0};
    const uint8_t zero = 0;
    expect(scan(&zero, 1, report, 9) == CTC_DONE && alike(report, zero_mark, 9), "one mark of 0");
    memset(marks, CTC_MARK_GOOD, 260);
    marks[0] = 255; /* 259 places after it: data blockette 257 */
    expect(scan(marks, 260, report, 9) == CTC_DONE && alike(report, far_number, 9),
           "a number above 255");
    expect(scan(beyond_stop, 5, report, 9) == CTC_DONE && alike(report, stopped, 9),
           "errors after the stop");
}

/* Both passes read the record of `bytes` without errors. */
static void read_twice(size_t count)
{
    first.image_len = expected_image(bytes, count, CTC_DENSITY_GCR, first.image);
    first.marks_len = ctc_mark_count(count, CTC_DENSITY_GCR);
    memset(first.marks, CTC_MARK_GOOD, sizeof first.marks);
    second = first;
}

static void spoil(struct pass *pass, size_t place)
{
    fill_random(pass->image + 2 + 256 * place, 256);
    pass->marks[place] = random_error();
}

/* Merges the two passes in spaces of these lengths, filled before; a refusal must leave both. */
static uint32_t merge_in(size_t room, size_t marks_room)
{
    fill_random(before, room);
    memcpy(out, before, room);
    fill_random(marks_before, marks_room);
    memcpy(marks_out, marks_before, marks_room);
    uint32_t refusal = merge(&first, &second, out, room, marks_out, marks_room);
    expect(refusal == CTC_DONE ||
               (alike(out, before, room) && alike(marks_out, marks_before, marks_room)),
           "refusal %u wrote", (unsigned)refusal);
    return refusal;
}

/* The merged image and marks must be those of `image` and `marks`, and nothing else written. */
static void expect_merged(size_t room, size_t marks_room)
{
    size_t count = ctc_image_count(first.image, 2);
    expect(merge_in(room, marks_room) == CTC_DONE, "merged %zu", count);
    expect(only_start_written(out, room, image, first.image_len), "image of %zu", count);
    expect(start_written(marks_out, marks_before, marks_room, marks, first.marks_len),
           "marks of %zu", count);
}

static void null_merge(void)
{
    static const uint8_t empty[2] = {0, 0};
    uint8_t two[2] = {1, 2};
    fill_random(bytes, 5);
    read_twice(5);
    for (int missing = 0; missing < 7; missing++) {
        memset(out, 0xEE, 771);
        memset(marks_out, 0xEE, 4);
        uint32_t answer = missing < 4 ? CTC_REFUSED_LENGTH : missing < 6 ? CTC_REFUSED_SPACE : CTC_DONE;
        uint32_t given = ctc_merge(missing == 0 ? NULL : first.image, missing == 0 ? 0 : 770,
                                   missing == 1 ? NULL : first.marks, missing == 1 ? 0 : 3,
                                   missing == 2 ? NULL : second.image, missing == 2 ? 0 : 770,
                                   missing == 3 ? NULL : second.marks, missing == 3 ? 0 : 3,
                                   missing == 4 ? NULL : out, missing == 4 ? 0 : 771,
                                   missing == 5 ? NULL : marks_out, missing == 5 ? 0 : 4);
        expect(given == answer, "argument %d", missing);
        expect((out[0] == 0xEE) == (answer != CTC_DONE) && out[770] == 0xEE, "argument %d", missing);
        expect((marks_out[0] == 0xEE) == (answer != CTC_DONE) && marks_out[3] == 0xEE,
               "argument %d", missing);
    }
    expect(ctc_merge(empty, 2, NULL, 0, empty, 2, NULL, 0, two, 2, NULL, 0) == CTC_DONE,
           "records of 0 bytes");
    expect(two[0] == 0 && two[1] == 0, "two bytes");
    expect(ctc_merge(NULL, 0, NULL, 0, NULL, 0, NULL, 0, NULL, 0, NULL, 0) == CTC_REFUSED_LENGTH,
           "nothing at all");
}

/* What is only read may overlap: here both passes are one, and its marks stand in its image. */
static void merge_of_what_overlaps(void)
{
    static const uint8_t three[3] = {CTC_MARK_GOOD, 3, CTC_MARK_GOOD};
    size_t length = expected_image(three, 3, CTC_DENSITY_GCR, image);
    const uint8_t *inside = image + 2;
    expect(ctc_merge(image, length, inside, 3, image, length, inside, 3, out, length, marks_out, 3) ==
               CTC_DONE,
           "merged");
    expect(alike(out, image, length) && alike(marks_out, inside, 3), "the pass");
}

/* Good and bad by chance in each pass; what is good in neither comes from the first. */
static void merges_edges(void)
{
    for (size_t i = 0; i < EDGES; i++) {
        size_t count = edge_count(i);
        bool all = at_an_end(count);
        fill_random(bytes, count);
        read_twice(count);
        memcpy(image, first.image, first.image_len);
        memcpy(marks, first.marks, first.marks_len);
        for (size_t place = 0; place < first.marks_len; place++) {
            bool bad = between(0, 1), bad_too = between(0, 1);
            if (bad) {
                spoil(&first, place);
            }
            if (bad_too) {
                spoil(&second, place);
            }
            if (bad && bad_too) {
                memcpy(image + 2 + 256 * place, first.image + 2 + 256 * place, 256);
                marks[place] = first.marks[place];
            }
        }
        for (size_t more = 0; more <= (all ? 600 : 0); more += 300) {
            expect_merged(first.image_len + more, first.marks_len + (600 - more) % 600);
        }
    }
}

static void worked_merge(void)
{
    /* tape order: 2, 1, 0, check 1, check 0; each blockette holds one value */
    static const uint8_t values[3][5] = {
        {10, 91, 92, 40, 93}, {81, 20, 82, 40, 50}, {10, 20, 92, 40, 50}};
    static const uint8_t marked[3][5] = {{15, 4, 7, 15, 1}, {9, 15, 3, 15, 15}, {15, 15, 7, 15, 15}};
    read_twice(600);
    memcpy(image, first.image, 2);
    for (size_t place = 0; place < 5; place++) {
        memset(first.image + 2 + 256 * place, values[0][place], 256);
        memset(second.image + 2 + 256 * place, values[1][place], 256);
        memset(image + 2 + 256 * place, values[2][place], 256);
    }
    memcpy(first.marks, marked[0], 5);
    memcpy(second.marks, marked[1], 5);
    memcpy(marks, marked[2], 5);
    expect_merged(1282, 5);
}

/* A byte of the second pass is changed; only where both are good is that a matter. */
static void merge_refuses_unlike(void)
{
    static const size_t counts[] = {1, 600, CTC_COUNT_LIMIT};
    for (size_t i = 0; i < 3; i++) {
        fill_random(bytes, counts[i]);
        read_twice(counts[i]);
        for (size_t place = 0; place < first.marks_len; place = i < 2 ? place + 1 : next_place(place)) {
            for (size_t turn = 0; turn < (i < 2 ? 12 : 1); turn++) {
                size_t byte = turn < 4 ? 255 * (place % 2) : turn < 8 ? 255 : between(0, 255);
                uint8_t *changed = second.image + 2 + 256 * place + byte;
                unsigned bad = turn % 4;
                *changed ^= 1;
                first.marks[place] = bad & 1 ? 9 : CTC_MARK_GOOD;
                second.marks[place] = bad & 2 ? 1 : CTC_MARK_GOOD;
                expect(merge_in(first.image_len, first.marks_len) ==
                           (bad == 0 ? CTC_REFUSED_UNLIKE : CTC_DONE),
                       "count %zu, place %zu, byte %zu, bad %u", counts[i], place, byte, bad);
                *changed ^= 1;
                first.marks[place] = second.marks[place] = CTC_MARK_GOOD;
            }
        }
    }
}

static void merge_refuses(void)
{
    for (unsigned reasons = 0; reasons < 1024; reasons++) {
        fill_random(bytes, 1100);
        read_twice(1100);
        size_t room = first.image_len, marks_room = first.marks_len;
        if (reasons & 1u) {
            first.image_len--;
        }
        if (reasons & 2u) {
            second.image_len++;
        }
        if (reasons & 4u) {
            first.marks_len++;
        }
        if (reasons & 8u) {
            second.marks_len--;
        }
        if (reasons & 16u) {
            first.marks[0] = 10;
        }
        if (reasons & 32u) {
            second.marks[0] = 0;
        }
        if (reasons & 64u) { /* 1,099 has as many blockettes */
            expected_image(bytes, 1099, CTC_DENSITY_GCR, first.image);
            memcpy(first.image + 2, second.image + 2, room - 2);
        }
        if (reasons & 128u) { /* a check blockette as well as a data blockette */
            first.image[2 + 256 * between(1, 6)] ^= 128;
        }
        if (reasons & 256u) {
            room--;
        }
        if (reasons & 512u) {
            marks_room--;
        }
        uint32_t answer = reasons & 15u                   ? CTC_REFUSED_LENGTH
                          : reasons & (16u | 32u)         ? CTC_REFUSED_MARK
                          : reasons & 64u                 ? CTC_REFUSED_COUNTS
                          : reasons & 128u                ? CTC_REFUSED_UNLIKE
                          : reasons & (256u | 512u)       ? CTC_REFUSED_SPACE
                                                          : CTC_DONE;
        expect(merge_in(room, marks_room) == answer, "reasons %u", reasons);
    }
}

static void merge_refuses_every_mark(void)
{
    fill_random(bytes, 300);
    for (unsigned turn = 0; turn < 512; turn++) {
        unsigned value = turn / 2;
        bool legal = (value >= 1 && value <= 9) || value == 15;
        read_twice(300);
        (turn % 2 == 0 ? &first : &second)->marks[value % 4] = (uint8_t)value;
        expect(merge_in(first.image_len, 4) == (legal ? CTC_DONE : CTC_REFUSED_MARK),
               "mark %u at %u of pass %u", value, value % 4, turn % 2 + 1);
    }
}

static void merge_refuses_lengths(void)
{
    for (size_t i = 0; i < EDGES; i++) {
        size_t count = edge_count(i);
        if (!at_an_end(count)) {
            continue;
        }
        fill_random(bytes, count);
        read_twice(count);
        size_t length = first.image_len, mark_count = first.marks_len;
        for (int turn = 0; turn < 2; turn++) {
            struct pass *pass = turn == 0 ? &first : &second;
            const size_t lengths_wrong[] = {length - 1, length + 1, 0, 1, length / 2};
            for (size_t w = 0; w < sizeof lengths_wrong / sizeof lengths_wrong[0]; w++) {
                pass->image_len = lengths_wrong[w];
                expect(merge_in(CTC_IMAGE_MOST, CTC_MARKS_MOST) == CTC_REFUSED_LENGTH,
                       "count %zu, pass %d, image of %zu", count, turn + 1, lengths_wrong[w]);
            }
            pass->image_len = length;
            const size_t marks_wrong[] = {mark_count - 1, mark_count + 1, 0, 1, 2, CTC_MARKS_MOST};
            for (size_t w = 0; w < sizeof marks_wrong / sizeof marks_wrong[0]; w++) {
                /* less than none is nothing to be tried */
                if (marks_wrong[w] != mark_count && marks_wrong[w] <= sizeof pass->marks) {
                    pass->marks_len = marks_wrong[w];
                    expect(merge_in(CTC_IMAGE_MOST, CTC_MARKS_MOST) == CTC_REFUSED_LENGTH,
                           "count %zu, pass %d, %zu marks", count, turn + 1, marks_wrong[w]);
                }
            }
            pass->marks_len = mark_count;
        }
    }
}

/* Each length is right by its own count, so that the counts alone tell. */
static void merge_refuses_counts(void)
{
    static const size_t counts[] = {0, 1, 255, 256, 257, 600, 601, 65279, 65280, 65281, 65535};
    enum { COUNTS = sizeof counts / sizeof counts[0] };
    memset(bytes, 0x5A, sizeof bytes);
    for (size_t i = 0; i < COUNTS; i++) {
        for (size_t j = 0; j < COUNTS; j++) {
            read_twice(counts[j]);
            struct pass other = second;
            read_twice(counts[i]);
            second = other;
            uint32_t answer = i == j ? CTC_DONE : CTC_REFUSED_COUNTS;
            expect(merge_in(CTC_IMAGE_MOST, CTC_MARKS_MOST) == answer, "counts %zu and %zu",
                   counts[i], counts[j]);
            expect(i == j || merge_in(0, 0) == answer, "no space, counts %zu and %zu", counts[i],
                   counts[j]);
        }
    }
}

static void merge_spaces(void)
{
    for (size_t i = 0; i < EDGES; i++) {
        size_t count = edge_count(i);
        read_twice(count);
        size_t length = first.image_len, mark_count = first.marks_len;
        expect(merge_in(length - 1, mark_count) == CTC_REFUSED_SPACE, "image of %zu", count);
        expect(count == 0 || merge_in(length, mark_count - 1) == CTC_REFUSED_SPACE, "marks of %zu",
               count);
        if (at_an_end(count)) {
            expect(merge_in(0, mark_count) == CTC_REFUSED_SPACE, "no image space, %zu", count);
            expect(count == 0 || merge_in(length, 0) == CTC_REFUSED_SPACE, "no marks space, %zu",
                   count);
        }
    }
}

/* Two passes that cannot be restored: a record comes back from both. */
static void merged_round_trips(void)
{
    for (size_t turn = 0; turn < 100; turn++) {
        /* from six data blockettes on, two of each parity can be bad in each pass alone */
        size_t count = between(1281, turn % 4 == 0 ? CTC_COUNT_LIMIT : 2000);
        size_t length = ctc_image_length(count, CTC_DENSITY_GCR);
        fill_random(bytes, count);
        read_twice(count);
        expect(build(bytes, count, CTC_DENSITY_GCR, first.image, length) == CTC_DONE, "built");
        second = first;
        size_t last = first.marks_len - 1, in_both = between(0, last);
        for (size_t place = 0; place <= last; place++) {
            spoil(place / 2 % 2 == turn % 2 ? &first : &second, place);
        }
        spoil(&first, in_both);
        spoil(&second, in_both);
        expect(restore(first.image, length, first.marks, last + 1, out, count) ==
                   CTC_REFUSED_UNRESTORABLE,
               "first pass of %zu", count);
        expect(restore(second.image, length, second.marks, last + 1, out, count) ==
                   CTC_REFUSED_UNRESTORABLE,
               "second pass of %zu", count);
        expect(merge_in(length, last + 1) == CTC_DONE, "merged %zu", count);
        memcpy(image, out, length);
        memcpy(marks, marks_out, last + 1);
        fill_random(before, count);
        memcpy(out, before, count);
        expect(restore(image, length, marks, last + 1, out, count) == CTC_DONE, "restored %zu",
               count);
        expect(alike(out, bytes, count), "the record of %zu", count);
    }
}

/* ---- verify ---- */

/* The parity of the blockette at a place of so many: by how many stand behind it. */
static uint32_t unfit_at(size_t place, size_t blockettes)
{
    return (blockettes - 1 - place) % 2 == 1 ? CTC_UNFIT_ODD : CTC_UNFIT_EVEN;
}

/* Built images fit; with one bit turned in any blockette, its parity alone does not. */
static void verifies_edges(void)
{
    for (size_t i = 0; i < EDGES; i++) {
        size_t count = edge_count(i);
        fill_random(bytes, count);
        size_t length = expected_image(bytes, count, CTC_DENSITY_GCR, image);
        size_t blockettes = length / 256;
        expect(verify(image, length) == CTC_DONE, "built image of %zu", count);
        /* in each blockette, or in the first, the last of data, both of check, and any */
        bool each = count < 1030 || count == CTC_COUNT_LIMIT;
        size_t some[] = {0, blockettes - 3, blockettes - 2, blockettes - 1, between(0, 255)};
        size_t turns = count == 0 ? 0 : each ? blockettes : sizeof some / sizeof some[0];
        for (size_t turn = 0; turn < turns; turn++) {
            size_t place = each ? turn : some[turn] % blockettes;
            size_t byte = turn % 3 == 0 ? 0 : turn % 3 == 1 ? 255 : between(1, 254);
            uint8_t *changed = image + 2 + 256 * place + byte, was = *changed;
            *changed = (uint8_t)(was ^ 1u << turn % 8);
            expect(verify(image, length) == unfit_at(place, blockettes),
                   "count %zu, place %zu, byte %zu", count, place, byte);
            *changed = was;
        }
    }
}

/* What ctc_build itself gives fits too, with any place of a bad byte. */
static void verifies_what_is_built(void)
{
    for (size_t turn = 0; turn < 200; turn++) {
        size_t count = between(1, turn % 10 == 0 ? CTC_COUNT_LIMIT : 3000);
        size_t place = turn % 2 == 0 ? CTC_NO_PLACE : between(0, count - 1);
        size_t length = ctc_image_length(count, CTC_DENSITY_GCR);
        fill_random(bytes, count);
        expect(ctc_build(bytes, count, CTC_DENSITY_GCR, place, image, length) == CTC_DONE &&
                   verify(image, length) == CTC_DONE,
               "count %zu, place %zu", count, place);
    }
}

/* One changed blockette of each parity; and two of one parity, changed alike or not. */
static void verifies_two_changed(void)
{
    size_t length = 2 + 256 * 9, blockettes = 9;
    for (size_t one = 0; one < blockettes; one++) {
        for (size_t other = one + 1; other < blockettes; other++) {
            for (unsigned alike_too = 0; alike_too < 2; alike_too++) {
                fill_random(bytes, 1700);
                expected_image(bytes, 1700, CTC_DENSITY_GCR, image);
                size_t byte = between(0, 255);
                uint32_t first_told = unfit_at(one, blockettes);
                uint32_t other_told = unfit_at(other, blockettes);
                image[2 + 256 * one + byte] ^= 0x81;
                image[2 + 256 * other + byte] ^= alike_too ? 0x81 : 0x18;
                uint32_t told = first_told != other_told ? first_told | other_told
                                : alike_too             ? CTC_DONE
                                                        : first_told;
                expect(verify(image, length) == told, "places %zu and %zu, alike %u", one, other,
                       alike_too);
            }
        }
    }
}

static void verify_refuses_lengths(void)
{
    static const uint8_t empty[3] = {0, 0, 0};
    for (size_t i = 0; i < EDGES; i++) {
        size_t count = edge_count(i);
        if (!at_an_end(count)) {
            continue;
        }
        fill_random(bytes, count);
        fill_random(image, sizeof image);
        size_t length = expected_image(bytes, count, CTC_DENSITY_GCR, image);
        const size_t wrong[] = {0, 1, length - 1, length + 1, length + 256, length / 2, 2 + count};
        for (size_t w = 0; w < sizeof wrong / sizeof wrong[0]; w++) {
            expect(wrong[w] == length || verify(image, wrong[w]) == CTC_REFUSED_LENGTH,
                   "count %zu, image of %zu", count, wrong[w]);
        }
    }
    expect(verify(empty, 2) == CTC_DONE, "a record of 0 bytes");
    expect(verify(empty, 3) == CTC_REFUSED_LENGTH, "a byte behind a record of 0 bytes");
}

int main(void)
{
    setvbuf(stdout, NULL, _IOLBF, BUFSIZ); /* a fence loses no line */
    signal(SIGSEGV, fence_touched);
    signal(SIGBUS, fence_touched);
    run("constants", constants);
    run("lengths", lengths);
    run("counts of images", counts_of_images);
    run("null bytes", null_bytes);
    run("null image space", null_image_space);
    run("null image", null_image);
    run("null marks", null_marks);
    run("null output space", null_output_space);
    run("null marks and null report", null_scan);
    run("worked case: rotated counts", worked_rotations);
    run("worked case: 9 on 1, 3 on check 0", worked_two_errors);
    run("worked case: 6 on 2, 4 on 0", worked_unrestorable);
    run("worked case: one byte 5A", worked_one_byte);
    run("images at the edges of blockettes", builds_edges);
    run("builder refuses", builder_refuses);
    run("bad parity", bad_parity);
    run("builder refuses places", builder_refuses_places);
    run("restorer refuses, lowest first", restorer_refuses);
    run("restorer refuses marks", restorer_refuses_every_mark);
    run("restorer refuses lengths", restorer_refuses_lengths);
    run("good blockettes as they are", good_blockettes_as_they_are);
    run("round trips", round_trips);
    run("every number of a blockette", every_number);
    run("two bad of one parity", unrestorable);
    run("report spaces", report_spaces);
    run("unusual marks", unusual_marks);
    run("merge: null arguments", null_merge);
    run("merge: passes that overlap", merge_of_what_overlaps);
    run("merge: worked case", worked_merge);
    run("merges at the edges of blockettes", merges_edges);
    run("merge refuses, in its order", merge_refuses);
    run("merge refuses marks", merge_refuses_every_mark);
    run("merge refuses lengths", merge_refuses_lengths);
    run("merge refuses counts", merge_refuses_counts);
    run("merge refuses unlike blockettes", merge_refuses_unlike);
    run("merge spaces", merge_spaces);
    run("round trips of two passes", merged_round_trips);
    run("verify at the edges of blockettes", verifies_edges);
    run("verify what is built", verifies_what_is_built);
    run("verify two changed blockettes", verifies_two_changed);
    run("verify refuses lengths", verify_refuses_lengths);
    printf("%d passed, %d failed\n", passed, failed);
    return failed == 0 ? 0 : 1;
}
