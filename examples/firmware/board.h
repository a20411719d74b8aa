/* What a board gives the main loop, and what each call promises. board_pipe.c is a board on a pipe, for Linux. */
#ifndef BOARD_H
#define BOARD_H

#include "snjofrask.h"
#include <stdbool.h>
#include <stddef.h>
#include <stdint.h>

/*
 * A packet, and when it came. The interrupt that queues it notes the time: a packet may lie in the queue for longer
 * than the 100 ms within which the next one is due.
 */
struct board_packet {
    uint64_t time_ms;
    uint8_t bytes[SNJOFRASK_PACKET_SIZE];
};

/* What came. DETACHED, that no packet will come any more, is the last. */
enum board_event { BOARD_NOTHING, BOARD_PACKET, BOARD_DETACHED };

/* Makes clock, USB, button and LED ready. It is called once, before all else. */
void board_start(void);

/* Milliseconds since the start. They never go back: a counter of 32 bits is carried on in 64. */
uint64_t board_now_ms(void);

/* Takes the oldest packet from the endpoint's queue. Waits for one until a time at most, and may give up before. */
enum board_event board_take_packet(struct board_packet *packet, uint64_t until_ms);

/* Sends a packet after those sent before, and returns once its 64 bytes may be written over. */
void board_send_packet(const uint8_t *packet);

/* Forgets all touches of the button so far. */
void board_forget_touches(void);

/* Whether the button was touched since touches were forgotten. */
bool board_is_touched(void);

/* How long a user is given for a touch. */
uint32_t board_touch_timeout_ms(void);

/* Switches the LED on or off. It may be as asked already. */
void board_set_led(bool on);

/* Is shown each MSG, CBOR and vendor command before it is answered, for a debug port. It may do nothing. */
void board_log_request(uint32_t cid, uint8_t cmd, const uint8_t *payload, size_t len);

/* Is told of a refusal that no right program meets, with the call's name. Firmware resets; it does not return. */
_Noreturn void board_refused(const char *call, uint8_t refusal);

#endif
