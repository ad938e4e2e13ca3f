/*
 * What a test program has of the board that it runs on. There is no C library: the
 * board starts the program, reads its input, writes its text and ends it, and memory.c
 * has the three functions that compilers call by themselves.
 */
#ifndef BOARD_H
#define BOARD_H

#include <stddef.h>
#include <stdint.h>

/* The program, which the board starts; it gives its exit status. */
int board_main(void);

/* Ends the program. */
_Noreturn void board_end(int status);

/* Writes text, which ends with a zero byte. */
void board_write(const char *text);

/* Reads up to this many bytes of the input: how many came, and 0 at its end. */
size_t board_read(uint8_t *to, size_t most);

/*
 * Pages of memory, one of which can be closed to everybody, all given back at the end. A
 * board without a memory management unit has none and gives NULL.
 */
enum { BOARD_PAGE = 4096 };
void *board_pages(size_t length);
int board_close_page(void *page);
void board_give_back(void *pages, size_t length);

#endif
