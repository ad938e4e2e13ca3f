/* Of the C library, what tests/c/controller_play.c and tests/c/records_test.c call: hosted.c has it. */
#ifndef HOSTED_STDIO_H
#define HOSTED_STDIO_H

#include <stdarg.h>
#include <stddef.h>

typedef const char FILE;
#define stdin ((FILE *)"input")
#define stdout ((FILE *)"output")
#define stderr ((FILE *)"errors")

#define EOF (-1)
#define BUFSIZ 256
#define _IOLBF 1

/* Both streams of text go where the board writes. */
__attribute__((format(printf, 1, 2))) int printf(const char *format, ...);
__attribute__((format(printf, 1, 0))) int vprintf(const char *format, va_list words);
__attribute__((format(printf, 2, 3))) int fprintf(FILE *stream, const char *format, ...);
int putchar(int letter);
int getchar(void);
int fflush(FILE *stream);
int ferror(FILE *stream);
int setvbuf(FILE *stream, char *buffer, int mode, size_t length);

#endif
