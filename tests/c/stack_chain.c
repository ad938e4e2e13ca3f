/*
 * A chain of calls whose stack is known, for tests/stack: chain calls middle, which calls leaf, the deepest way of
 * several; choose goes by a table. What a macro adds is another figure, or cannot be measured.
 */
#include <stddef.h>

void *memset(void *to, int byte, size_t length);

#define ALONE __attribute__((noinline, noclone))

int chain(int value);
int choose(int value, int other);
#ifdef UNKNOWN /* a function that is not here */
int elsewhere(int value);
#endif
#ifdef INDIRECT /* a function that is handed over */
int indirect(int (*function)(int value), int value);
#endif
#ifdef INDIRECT_LAST /* the same, as the last call */
int indirect_last(int (*function)(int value), int value);
#endif

ALONE static int leaf(int value)
{
    volatile int numbers[25];
    memset((void *)numbers, value, sizeof numbers);
    return numbers[value & 15];
}

#ifdef DEEPER /* one function more in the chain */
ALONE static int deeper(int value)
{
    volatile int numbers[12];
    numbers[value & 7] = leaf(value);
    return numbers[value & 3];
}
#else
#define deeper leaf
#endif

#ifdef RECURSIVE
ALONE static int second(int value);
#endif

ALONE static int middle(int value)
{
    volatile int numbers[50];
    numbers[value & 15] = leaf(value) + deeper(value + 1);
#ifdef RECURSIVE
    numbers[value & 7] += value > 0 ? second(value - 1) : 0;
#endif
#ifdef UNKNOWN
    numbers[value & 7] += elsewhere(value);
#endif
#ifdef VARIABLE /* as many bytes as are asked for */
    volatile char many[value & 1023];
    many[0] = (char)value;
    numbers[value & 7] += many[0];
#endif
    return numbers[value & 7];
}

#ifdef RECURSIVE
ALONE static int second(int value)
{
    return middle(value) + 1;
}
#endif

int chain(int value)
{
    volatile int numbers[10];
    numbers[value & 7] = middle(value) + leaf(value);
    return numbers[value & 3];
}

int choose(int value, int other)
{
    volatile int numbers[100];
    numbers[0] = other;
    switch (value) {
    case 0: numbers[1] = leaf(other); break;
    case 1: numbers[2] = leaf(other + 1) * 3; break;
    case 2: numbers[3] = middle(other) / 5; break;
    case 3: numbers[4] = leaf(other - 9) ^ value; break;
    case 4: numbers[5] = leaf(other) + middle(other); break;
    case 5: numbers[6] = other * 11; break;
    case 6: numbers[7] = leaf(numbers[0]) - 4; break;
    default: return numbers[other & 63];
    }
    return numbers[other & 7];
}

#ifdef INDIRECT
int indirect(int (*function)(int value), int value)
{
    return function(value) + 1;
}
#endif

#ifdef INDIRECT_LAST
int indirect_last(int (*function)(int value), int value)
{
    return function(value);
}
#endif
