#ifndef HOSTED_SYS_MMAN_H
#define HOSTED_SYS_MMAN_H

#include <stddef.h>

#define PROT_NONE 0
#define PROT_READ 1
#define PROT_WRITE 2
#define MAP_PRIVATE 2
#define MAP_ANONYMOUS 32
#define MAP_FAILED ((void *)-1)

/* A board without pages gives memory like malloc's, and leaves it open. */
void *mmap(void *place, size_t length, int may, int flags, int file, long offset);
int munmap(void *pages, size_t length);
int mprotect(void *page, size_t length, int may);

#endif
