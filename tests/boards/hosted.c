/*
 * The little of a C library that lets tests/c/controller_play.c and tests/c/records_test.c
 * run on a board as they stand; what they call and is not here does not link.
 *
 * With FRAMES, main is run once for each part of the input. A part has a line before it,
 * 'WORD NAME LENGTH', and is LENGTH bytes; main is handed WORD, or nothing where WORD is
 * a dash, and finds the part as its input. What it prints is behind a line '= NAME'. The
 * last line of all is '= end'. Without FRAMES main is run once.
 */
#include "board.h"

#include <signal.h>
#include <stdbool.h>
#include <stdio.h>
#include <stdlib.h>
#include <string.h>
#include <sys/mman.h>
#include <unistd.h>

/* ---- output ---- */

static char out[BUFSIZ + 1];
static size_t out_length;

int fflush(FILE *stream)
{
    (void)stream;
    out[out_length] = 0;
    out_length = 0;
    board_write(out);
    return 0;
}

int putchar(int letter)
{
    if (out_length == BUFSIZ) {
        fflush(stdout);
    }
    out[out_length++] = (char)letter;
    return letter;
}

static void put_text(const char *text)
{
    while (*text != 0) {
        putchar(*text++);
    }
}

static void put_number(size_t number, unsigned base, unsigned digits)
{
    char text[21];
    size_t at = sizeof text - 1;
    text[at] = 0;
    do {
        text[--at] = "0123456789ABCDEF"[number % base];
        number /= base;
    } while (number != 0 || sizeof text - 1 - at < digits);
    put_text(text + at);
}

static void put_signed(ptrdiff_t number)
{
    if (number < 0) {
        putchar('-');
        put_number(0u - (size_t)number, 10, 1);
    } else {
        put_number((size_t)number, 10, 1);
    }
}

/* The forms that the two programs use, and no other: %s %d %u %zu %td %02X. */
int vprintf(const char *format, va_list words)
{
    for (; *format != 0; format++) {
        if (*format != '%') {
            putchar(*format);
            continue;
        }
        format++;
        if (*format == 's') {
            put_text(va_arg(words, const char *));
        } else if (*format == 'd') {
            put_signed(va_arg(words, int));
        } else if (*format == 'u') {
            put_number(va_arg(words, unsigned), 10, 1);
        } else if (format[0] == 'z' && format[1] == 'u') {
            put_number(va_arg(words, size_t), 10, 1);
            format++;
        } else if (format[0] == 't' && format[1] == 'd') {
            put_signed(va_arg(words, ptrdiff_t));
            format++;
        } else if (format[0] == '0' && format[1] == '2' && format[2] == 'X') {
            put_number(va_arg(words, unsigned), 16, 2);
            format += 2;
        } else {
            put_text("\na form of printf that hosted.c does not have\n");
            exit(2);
        }
    }
    return 0;
}

int printf(const char *format, ...)
{
    va_list words;
    va_start(words, format);
    vprintf(format, words);
    va_end(words);
    return 0;
}

int fprintf(FILE *stream, const char *format, ...)
{
    va_list words;
    (void)stream;
    va_start(words, format);
    vprintf(format, words);
    va_end(words);
    return 0;
}

long write(int number, const void *bytes, size_t length)
{
    (void)number;
    for (size_t place = 0; place < length; place++) {
        putchar(((const char *)bytes)[place]);
    }
    return (long)length;
}

int setvbuf(FILE *stream, char *buffer, int mode, size_t length)
{
    (void)stream;
    (void)buffer;
    (void)mode;
    (void)length;
    return 0;
}

/* ---- input ---- */

static uint8_t in[BUFSIZ];
static size_t in_length, in_place;

static int next_byte(void)
{
    if (in_place == in_length) {
        in_length = board_read(in, sizeof in);
        in_place = 0;
    }
    return in_length == 0 ? EOF : in[in_place++];
}

int ferror(FILE *stream)
{
    (void)stream;
    return 0;
}

/* ---- memory ---- */

#ifndef HEAP
#define HEAP 16
#endif

/* All is given back before long: then the next comes from the start again. */
static _Alignas(16) uint8_t heap[HEAP];
static size_t heap_used, heap_given;

void *malloc(size_t length)
{
    if (length > HEAP - heap_used) {
        return NULL;
    }
    void *memory = heap + heap_used;
    heap_used += (length + 15) / 16 * 16;
    heap_used = heap_used > HEAP ? HEAP : heap_used;
    heap_given++;
    return memory;
}

void free(void *memory)
{
    (void)memory;
    if (--heap_given == 0) {
        heap_used = 0;
    }
}

static bool from_heap(const void *memory)
{
    return (uintptr_t)memory - (uintptr_t)heap < HEAP;
}

long sysconf(int name)
{
    (void)name;
    return BOARD_PAGE;
}

void *mmap(void *place, size_t length, int may, int flags, int file, long offset)
{
    (void)place;
    (void)may;
    (void)flags;
    (void)file;
    (void)offset;
    void *pages = board_pages(length);
    pages = pages == NULL ? malloc(length) : pages;
    return pages == NULL ? MAP_FAILED : pages;
}

int mprotect(void *page, size_t length, int may)
{
    (void)length;
    (void)may;
    return from_heap(page) ? 0 : board_close_page(page);
}

int munmap(void *pages, size_t length)
{
    if (from_heap(pages)) {
        free(pages);
    } else {
        board_give_back(pages, length);
    }
    return 0;
}

int memcmp(const void *first, const void *second, size_t length)
{
    const uint8_t *f = first, *s = second;
    for (; length > 0; length--, f++, s++) {
        if (*f != *s) {
            return *f < *s ? -1 : 1;
        }
    }
    return 0;
}

size_t strlen(const char *text)
{
    size_t length = 0;
    while (text[length] != 0) {
        length++;
    }
    return length;
}

int strcmp(const char *first, const char *second)
{
    while (*first != 0 && *first == *second) {
        first++;
        second++;
    }
    return (uint8_t)*first - (uint8_t)*second;
}

/* ---- start and end ---- */

void exit(int status)
{
    fflush(stdout);
    board_end(status);
}

void _exit(int status)
{
    exit(status);
}

void (*signal(int number, void (*handler)(int)))(int)
{
    (void)number;
    return handler;
}

#ifdef FRAMES
int main(int count, char **words);

static size_t part_left;

int getchar(void)
{
    if (part_left == 0) {
        return EOF;
    }
    part_left--;
    return next_byte();
}

/* A word of the line before a part; a space or the end of the line is behind it. */
static bool next_word(char *word, size_t most)
{
    size_t length = 0;
    for (int next = next_byte(); next != ' ' && next != '\n'; next = next_byte()) {
        if (next == EOF) {
            return false;
        }
        if (length + 1 < most) {
            word[length++] = (char)next;
        }
    }
    word[length] = 0;
    return true;
}

int board_main(void)
{
    char word[16], name[64], length[16];
    int status = 0;
    while (status == 0 && next_word(word, sizeof word) && next_word(name, sizeof name) &&
           next_word(length, sizeof length)) {
        char *words[] = {name, word, NULL};
        for (const char *digit = length; *digit != 0; digit++) {
            part_left = 10 * part_left + (size_t)(*digit - '0');
        }
        printf("= %s\n", name);
        status = main(strcmp(word, "-") == 0 ? 1 : 2, words);
    }
    printf("= end\n");
    fflush(stdout);
    return status;
}
#else
int main(void);

int getchar(void)
{
    return next_byte();
}

int board_main(void)
{
    int status = main();
    fflush(stdout);
    return status;
}
#endif
