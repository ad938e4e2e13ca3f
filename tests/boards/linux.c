/* Start, text, input, pages and end by Linux's own calls, as an emulator of one program carries them out. */
#include "board.h"

#if defined(__x86_64__)
enum { READ = 0, WRITE = 1, MAP = 9, PROTECT = 10, UNMAP = 11, EXIT = 60 };
__asm__(".globl _start\n_start:\n  xor %ebp, %ebp\n  and $-16, %rsp\n  call board_start\n");
#elif defined(__aarch64__) || defined(__riscv)
enum { READ = 63, WRITE = 64, EXIT = 93, UNMAP = 215, MAP = 222, PROTECT = 226 };
#if defined(__aarch64__)
__asm__(".globl _start\n_start:\n  mov x29, #0\n  bl board_start\n");
#else
__asm__(".globl _start\n_start:\n"
        "  .option push\n  .option norelax\n  lla gp, __global_pointer$\n  .option pop\n"
        "  call board_start\n");
#endif
#else
#error "no start for this processor"
#endif

enum { MAY_READ = 1, MAY_WRITE = 2, PRIVATE = 2, ANONYMOUS = 32 };

static long call6(long number, long first, long second, long third, long fourth, long fifth)
{
#if defined(__x86_64__)
    long given;
    register long r10 __asm__("r10") = fourth, r8 __asm__("r8") = fifth, r9 __asm__("r9") = 0;
    __asm__ volatile("syscall"
                     : "=a"(given)
                     : "a"(number), "D"(first), "S"(second), "d"(third), "r"(r10), "r"(r8), "r"(r9)
                     : "rcx", "r11", "memory");
    return given;
#elif defined(__aarch64__)
    register long x8 __asm__("x8") = number, x0 __asm__("x0") = first;
    register long x1 __asm__("x1") = second, x2 __asm__("x2") = third;
    register long x3 __asm__("x3") = fourth, x4 __asm__("x4") = fifth, x5 __asm__("x5") = 0;
    __asm__ volatile("svc 0"
                     : "+r"(x0)
                     : "r"(x8), "r"(x1), "r"(x2), "r"(x3), "r"(x4), "r"(x5)
                     : "memory");
    return x0;
#else
    register long a7 __asm__("a7") = number, a0 __asm__("a0") = first;
    register long a1 __asm__("a1") = second, a2 __asm__("a2") = third;
    register long a3 __asm__("a3") = fourth, a4 __asm__("a4") = fifth, a5 __asm__("a5") = 0;
    __asm__ volatile("ecall"
                     : "+r"(a0)
                     : "r"(a7), "r"(a1), "r"(a2), "r"(a3), "r"(a4), "r"(a5)
                     : "memory");
    return a0;
#endif
}

static long call(long number, long first, long second, long third)
{
    return call6(number, first, second, third, 0, 0);
}

void board_end(int status)
{
    for (;;) {
        call(EXIT, status, 0, 0);
    }
}

void board_write(const char *text)
{
    long length = 0;
    while (text[length] != 0) {
        length++;
    }
    while (length > 0) {
        long written = call(WRITE, 1, (long)text, length);
        if (written <= 0) {
            board_end(2);
        }
        text += written;
        length -= written;
    }
}

size_t board_read(uint8_t *to, size_t most)
{
    long came = call(READ, 0, (long)to, (long)most);
    if (came < 0) {
        board_write("no input\n");
        board_end(2);
    }
    return (size_t)came;
}

void *board_pages(size_t length)
{
    long given = call6(MAP, 0, (long)length, MAY_READ | MAY_WRITE, PRIVATE | ANONYMOUS, -1);
    /* a page has an address that ends with zeros, and an error has none */
    return given % BOARD_PAGE == 0 ? (void *)given : NULL;
}

int board_close_page(void *page)
{
    return (int)call(PROTECT, (long)page, BOARD_PAGE, 0);
}

void board_give_back(void *pages, size_t length)
{
    call(UNMAP, (long)pages, (long)length, 0);
}

__attribute__((noreturn, used)) void board_start(void);

void board_start(void)
{
    board_end(board_main());
}
