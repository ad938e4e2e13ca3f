#ifndef HOSTED_STDLIB_H
#define HOSTED_STDLIB_H

#include <stddef.h>

void *malloc(size_t length);
void free(void *memory);
_Noreturn void exit(int status);

#endif
