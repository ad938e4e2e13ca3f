#ifndef HOSTED_UNISTD_H
#define HOSTED_UNISTD_H

#include <stddef.h>

#define STDOUT_FILENO 1
#define _SC_PAGESIZE 1

long sysconf(int name);
long write(int number, const void *bytes, size_t length);
_Noreturn void _exit(int status);

#endif
