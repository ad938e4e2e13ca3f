/*
 * Vectors and start of a Cortex-M; text, input and end by semihosting, which the emulator
 * carries out. The input is the file named input of the folder that the emulator runs in.
 */
#include "board.h"

#define SYS_OPEN 0x01u
#define SYS_WRITE0 0x04u
#define SYS_READ 0x06u
#define SYS_EXIT_EXTENDED 0x20u
#define STOPPED_BY_PROGRAM 0x20026u
#define MODE_READ_BINARY 1u

/* of cortex_m.ld */
extern uint32_t stack_top[], data_start[], data_end[], data_load[], bss_start[], bss_end[];

void board_start(void);
static void board_fault(void);

struct vectors {
    uint32_t *stack;
    void (*start)(void);
    void (*faults[14])(void);
};

__attribute__((section(".vectors"), used)) static const struct vectors vectors = {
    .stack = stack_top,
    .start = board_start,
    .faults = {board_fault, board_fault, board_fault, board_fault, board_fault},
};

static uint32_t semihost(uint32_t number, const void *argument)
{
    register uint32_t r0 __asm__("r0") = number;
    register const void *r1 __asm__("r1") = argument;
    __asm__ volatile("bkpt 0xAB" : "+r"(r0) : "r"(r1) : "memory");
    return r0;
}

void board_write(const char *text)
{
    semihost(SYS_WRITE0, text);
}

size_t board_read(uint8_t *to, size_t most)
{
    static const char name[] = "input";
    static uint32_t opened; /* the handle and 1 more, since 0 is none */
    if (opened == 0) {
        const uint32_t block[3] = {(uint32_t)(uintptr_t)name, MODE_READ_BINARY, sizeof name - 1};
        opened = semihost(SYS_OPEN, block) + 1;
    }
    if (opened == 0) {
        board_write("no input\n");
        board_end(2);
    }
    const uint32_t block[3] = {opened - 1, (uint32_t)(uintptr_t)to, (uint32_t)most};
    /* it tells how many are missing */
    return most - semihost(SYS_READ, block);
}

void board_end(int status)
{
    const uint32_t block[2] = {STOPPED_BY_PROGRAM, (uint32_t)status};
    for (;;) {
        semihost(SYS_EXIT_EXTENDED, block);
    }
}

void *board_pages(size_t length)
{
    (void)length;
    return NULL;
}

int board_close_page(void *page)
{
    (void)page;
    return -1;
}

void board_give_back(void *pages, size_t length)
{
    (void)pages;
    (void)length;
}

static void board_fault(void)
{
    board_write("fault\n");
    board_end(3);
}

void board_start(void)
{
    const uint32_t *from = data_load;
    for (uint32_t *to = data_start; to < data_end; to++) {
        *to = *from++;
    }
    for (uint32_t *to = bss_start; to < bss_end; to++) {
        *to = 0;
    }
    board_end(board_main());
}
