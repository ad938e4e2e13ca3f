#ifndef BARE_STDLIB_H
#define BARE_STDLIB_H

_Noreturn void exit(int status);

#endif
