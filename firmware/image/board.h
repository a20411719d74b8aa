/* What the bench asks of the board that it runs on. */
#ifndef BOARD_H
#define BOARD_H

#include <stddef.h>
#include <stdint.h>

/* Up to room bytes of input, and how many. 0 at its end, and only there. */
size_t board_read(uint8_t *bytes, size_t room);

void board_write(const uint8_t *bytes, size_t len);

#endif
