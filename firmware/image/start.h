/* Between the start of a processor and the program. */
#ifndef START_H
#define START_H

#include <stdint.h>

int main(void);

/* Asks the emulator, or a debugger, for an operation of semihosting. */
uintptr_t semihosting_call(uintptr_t operation, const uintptr_t *block);

_Noreturn void board_end(int status);

/* Gives variables what they begin with, runs main, and ends. */
_Noreturn void run(void);

#endif
