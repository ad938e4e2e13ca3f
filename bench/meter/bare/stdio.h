/* The part of the C library that the metered program needs where there is none: bare.c has it. */
#ifndef BARE_STDIO_H
#define BARE_STDIO_H

#define EOF (-1)

enum { stdin, stdout, stderr };

int getchar(void);
int putchar(int byte);
int printf(const char *form, ...);
int fprintf(int stream, const char *form, ...);
int fflush(int stream);
int ferror(int stream);

#endif
