/*
 * For the tests of include/snjofrask.h, tests/header.c and tests/header_key.c. Without a C library they are for a board of
 * firmware/image.
 */
#ifndef HEADER_H
#define HEADER_H

#include "snjofrask.h"
#include <string.h>

#if __STDC_HOSTED__
#include <stdio.h>

#define CHECK(test) check(test, __FILE__, #test, __LINE__)

static void report(const char *file, const char *text, int line)
{
    fprintf(stderr, "%s:%d: not so: %s\n", file, line, text);
}
#else
#include "board.h"

/* the line alone, as the texts take as much flash as all the rest */
#define CHECK(test) check(test, "", "", __LINE__)

static void report(const char *file, const char *text, int line)
{
    const uint8_t number[] = {(uint8_t)('0' + line / 1000), (uint8_t)('0' + line / 100 % 10), (uint8_t)('0' + line / 10 % 10),
                              (uint8_t)('0' + line % 10), '\n'};

    (void)file;
    (void)text;
    board_write(number, sizeof number);
}
#endif

static int failures;

static void check(int holds, const char *file, const char *text, int line)
{
    if (!holds) {
        report(file, text, line);
        failures++;
    }
}

static uint8_t message[SNJOFRASK_LARGEST_PAYLOAD];
static uint8_t reply[SNJOFRASK_SHORT_REPLY_SIZE];
static uint8_t payload[SNJOFRASK_LARGEST_PAYLOAD + 1];
static uint8_t packet[SNJOFRASK_PACKET_SIZE];

static int is(snjofrask_outcome outcome, int kind, uint32_t cid, int cmd, size_t len)
{
    return outcome.kind == kind && outcome.cid == cid && outcome.cmd == cmd && outcome.len == len && outcome.refusal == 0 &&
           outcome.spare == 0;
}

static int is_refused(snjofrask_outcome outcome, int refusal)
{
    return outcome.kind == SNJOFRASK_KIND_REFUSED && outcome.refusal == refusal && outcome.cid == 0 && outcome.cmd == 0 &&
           outcome.len == 0 && outcome.spare == 0;
}

static int all_are(const uint8_t *bytes, size_t len, int value)
{
    for (size_t i = 0; i < len; i++)
        if (bytes[i] != value)
            return 0;
    return 1;
}

/* every byte is another than those beside it */
static void fill_payload(void)
{
    for (size_t i = 0; i < sizeof payload; i++)
        payload[i] = (uint8_t)(i + 1);
}

/* packet: number index of the message that is len bytes of payload */
static void put(uint32_t cid, uint8_t cmd, size_t len, size_t index)
{
    CHECK(snjofrask_write_packet(cid, cmd, payload, len, index, packet, sizeof packet) == 0);
}

/* A length's highest bit, whatever its width. No memory is so long, so this is more than is promised: a refusal looks at nothing, or of a
   list at no more than the wrong number. */
#define HIGH (~((size_t)-1 >> 1))

#endif
