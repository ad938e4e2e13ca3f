#ifndef HOSTED_STRING_H
#define HOSTED_STRING_H

#include <stddef.h>

/* of memory.c */
void *memcpy(void *to, const void *from, size_t length);
void *memmove(void *to, const void *from, size_t length);
void *memset(void *to, int byte, size_t length);

int memcmp(const void *first, const void *second, size_t length);
size_t strlen(const char *text);
int strcmp(const char *first, const char *second);

#endif
