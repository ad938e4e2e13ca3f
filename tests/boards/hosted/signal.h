#ifndef HOSTED_SIGNAL_H
#define HOSTED_SIGNAL_H

#define SIGSEGV 11
#define SIGBUS 7

/* Nothing: where a page is closed, the emulator itself ends a program that touches it. */
void (*signal(int number, void (*handler)(int)))(int);

#endif
