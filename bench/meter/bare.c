/*
 * Input, output and end by semihosting, which the emulator of a Cortex-M carries out: standard input is the file
 * `sessions`, standard output the file `answers`, both where the emulator was started.
 */
#include "board.h"

#include <stdarg.h>
#include <stddef.h>
#include <stdint.h>
#include <stdio.h>
#include <stdlib.h>
#include <string.h>

enum { SYS_OPEN = 0x01, SYS_WRITE = 0x05, SYS_READ = 0x06, SYS_EXIT_EXTENDED = 0x20 };
enum { READ_BYTES = 1, WRITE_BYTES = 5 };
#define STOPPED_BY_PROGRAM 0x20026u

static uint32_t semihost(uint32_t number, const void *argument)
{
    register uint32_t r0 __asm__("r0") = number;
    register const void *r1 __asm__("r1") = argument;
    __asm__ volatile("bkpt 0xAB" : "+r"(r0) : "r"(r1) : "memory");
    return r0;
}

static uint32_t opened(const char *name, uint32_t mode)
{
    uint32_t length = 0;
    while (name[length] != 0) {
        length++;
    }
    const uint32_t block[3] = {(uint32_t)name, mode, length};
    uint32_t file = semihost(SYS_OPEN, block);
    if (file == UINT32_MAX) {
        board_write("a file cannot be opened\n");
        exit(1);
    }
    return file;
}

static uint8_t input[4096], output[4096];
static uint32_t input_file, input_at, input_length, output_file, output_length;

int getchar(void)
{
    if (input_at == input_length) {
        if (input_file == 0) {
            input_file = opened("sessions", READ_BYTES);
        }
        const uint32_t block[3] = {input_file, (uint32_t)input, sizeof input};
        uint32_t missing = semihost(SYS_READ, block);
        input_at = 0;
        input_length = missing <= sizeof input ? (uint32_t)sizeof input - missing : 0;
        if (input_length == 0) {
            return EOF;
        }
    }
    return input[input_at++];
}

static void write_out(void)
{
    if (output_file == 0) {
        output_file = opened("answers", WRITE_BYTES);
    }
    const uint32_t block[3] = {output_file, (uint32_t)output, output_length};
    if (output_length > 0 && semihost(SYS_WRITE, block) != 0) {
        board_write("the answers cannot be written\n");
        output_length = 0;
        exit(1);
    }
    output_length = 0;
}

int putchar(int byte)
{
    if (output_length == sizeof output) {
        write_out();
    }
    output[output_length++] = (uint8_t)byte;
    return byte;
}

static int put_error(int byte)
{
    const char text[2] = {(char)byte, 0};
    board_write(text);
    return byte;
}

/* %u, %s and %02X. */
static void print(int (*put)(int byte), const char *form, va_list values)
{
    for (; *form != 0; form++) {
        if (*form != '%') {
            put(*form);
        } else if (*++form == 's') {
            for (const char *text = va_arg(values, const char *); *text != 0; text++) {
                put(*text);
            }
        } else {
            uint32_t base = *form == 'u' ? 10 : 16, digits = base == 10 ? 1 : 2, at = 0;
            uint32_t number = va_arg(values, unsigned);
            char text[12];
            do {
                text[at++] = "0123456789ABCDEF"[number % base];
                number /= base;
            } while (number != 0 || at < digits);
            while (at > 0) {
                put(text[--at]);
            }
            form += base == 10 ? 0 : 2;
        }
    }
}

int printf(const char *form, ...)
{
    va_list values;
    va_start(values, form);
    print(putchar, form, values);
    va_end(values);
    return 0;
}

int fprintf(int stream, const char *form, ...)
{
    va_list values;
    va_start(values, form);
    print(stream == stderr ? put_error : putchar, form, values);
    va_end(values);
    return 0;
}

int fflush(int stream)
{
    (void)stream;
    return 0;
}

int ferror(int stream)
{
    (void)stream;
    return 0;
}

_Noreturn void exit(int status)
{
    const uint32_t block[2] = {STOPPED_BY_PROGRAM, (uint32_t)status};
    write_out();
    for (;;) {
        semihost(SYS_EXIT_EXTENDED, block);
    }
}

int memcmp(const void *one, const void *other, size_t length)
{
    const uint8_t *a = one, *b = other;
    for (; length > 0; length--, a++, b++) {
        if (*a != *b) {
            return *a - *b;
        }
    }
    return 0;
}

int strcmp(const char *one, const char *other)
{
    while (*one != 0 && *one == *other) {
        one++;
        other++;
    }
    return *one - *other;
}
