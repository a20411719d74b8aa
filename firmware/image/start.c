#include "start.h"

#define STACK_FULL 3

/* in the stack's last word, until something else needs it: the boards have nothing that stops a stack that is too deep */
#define UNUSED 0x5AFE57ACU

/* the linker script's */
extern uint32_t data_begin[], data_end[], zeros_begin[], zeros_end[], stack_bottom[];
extern const uint32_t data_initial[];

void run(void)
{
    const uint32_t *initial = data_initial;

    for (uint32_t *word = data_begin; word < data_end; word++)
        *word = *initial++;
    for (uint32_t *word = zeros_begin; word < zeros_end; word++)
        *word = 0;
    *(volatile uint32_t *)stack_bottom = UNUSED;

    const int status = main();

    board_end(*(volatile uint32_t *)stack_bottom == UNUSED ? status : STACK_FULL);
}
