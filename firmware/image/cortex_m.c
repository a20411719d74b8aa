/* The start of a Cortex-M, by its table of vectors. Every fault ends the program with 2. */
#include "start.h"

#define VECTORS 16
#define FAULTED 2

/* the linker script's */
extern uint32_t stack_top[];

static void fault(void)
{
    board_end(FAULTED);
}

#ifdef __ARM_FP
/* CPACR: the floating-point unit is off after reset, and a compiler that may use its registers moves numbers by them */
#define COPROCESSORS (*(volatile uint32_t *)0xE000ED88)
#define FLOATING_POINT (0xFU << 20)
#define RESET reset

static void reset(void)
{
    COPROCESSORS |= FLOATING_POINT;
    __asm__ volatile("dsb\n\tisb" ::: "memory");
    run();
}
#else
#define RESET run
#endif

typedef void handler(void);

__attribute__((section(".vectors"), used)) static const struct {
    uint32_t *stack;
    handler *reset;
    handler *others[VECTORS - 2];
} vectors = {stack_top, RESET, {fault, fault, fault, fault, fault}};

uintptr_t semihosting_call(uintptr_t operation, const uintptr_t *block)
{
    register uintptr_t r0 __asm__("r0") = operation;
    register const uintptr_t *r1 __asm__("r1") = block;

    __asm__ volatile("bkpt 0xab" : "+r"(r0) : "r"(r1) : "memory");
    return r0;
}
