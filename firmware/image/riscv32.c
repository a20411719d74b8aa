/* The start of a RISC-V of 32 bits in machine mode. Every trap ends the program with 2. */
#include "start.h"

#define FAULTED 2

void fault(void);

/* a handler stands at a multiple of 4 */
__attribute__((aligned(4))) void fault(void)
{
    board_end(FAULTED);
}

__attribute__((naked, section(".start"), used)) static void start(void)
{
    __asm__("la sp, stack_top\n\t"
            "la t0, fault\n\t"
            "csrw mtvec, t0\n\t"
            "tail run");
}

/* the three instructions by which a debugger knows the call; none may be compressed, and all lie in one page */
uintptr_t semihosting_call(uintptr_t operation, const uintptr_t *block)
{
    register uintptr_t a0 __asm__("a0") = operation;
    register const uintptr_t *a1 __asm__("a1") = block;

    __asm__ volatile(".balign 16\n\t"
                     ".option push\n\t"
                     ".option norvc\n\t"
                     "slli x0, x0, 0x1f\n\t"
                     "ebreak\n\t"
                     "srai x0, x0, 7\n\t"
                     ".option pop"
                     : "+r"(a0)
                     : "r"(a1)
                     : "memory");
    return a0;
}
