/*
 * The board on a pipe, for Linux: packets of 64 bytes on standard input and output, the machine's monotonic clock, and
 * a button and an LED by variables. README.md beside this says which.
 */
#define _POSIX_C_SOURCE 200809L
#include "board.h"
#include <errno.h>
#include <inttypes.h>
#include <limits.h>
#include <poll.h>
#include <signal.h>
#include <stdio.h>
#include <stdlib.h>
#include <string.h>
#include <time.h>
#include <unistd.h>

#define STATUS_WRONG_VARIABLE 2
#define NEVER_MS UINT64_MAX
#define TOUCH_TIMEOUT_MS 30000

static uint64_t start_ms;

/* the button: how long after it is asked for a touch comes, when the next one comes, when waiting for it ends */
static uint64_t touch_after_ms = NEVER_MS;
static uint64_t touch_ms = NEVER_MS;
static uint32_t touch_timeout_ms = TOUCH_TIMEOUT_MS;

static bool led_is_on;

/* the bytes of the packet that is on its way in: a pipe may bring it in pieces */
static uint8_t arrived[SNJOFRASK_PACKET_SIZE];
static size_t arrived_len;

static _Noreturn void fail(const char *text)
{
    fprintf(stderr, "device: %s\n", text);
    exit(EXIT_FAILURE);
}

static _Noreturn void fail_by_errno(void)
{
    fail(strerror(errno));
}

_Noreturn void board_refused(const char *call, uint8_t refusal)
{
    fprintf(stderr, "device: %s is refused with %u\n", call, (unsigned)refusal);
    exit(EXIT_FAILURE);
}

/* ---- variables */

static bool is_number(const char *text)
{
    return text[0] != '\0' && text[strspn(text, "0123456789")] == '\0';
}

static uint32_t milliseconds(const char *name, const char *text)
{
    /* of too many digits it makes its largest */
    const unsigned long long number = strtoull(text, NULL, 10);

    if (!is_number(text) || number > UINT32_MAX) {
        fprintf(stderr, "device: %s is %s, which is no number of milliseconds\n", name, text);
        exit(STATUS_WRONG_VARIABLE);
    }
    return (uint32_t)number;
}

static uint64_t touch_variable(void)
{
    static const char name[] = "SNJOFRASK_TOUCH";
    const char *text = getenv(name);

    if (text == NULL || strcmp(text, "none") == 0)
        return NEVER_MS;
    if (strcmp(text, "now") == 0)
        return 0;
    return milliseconds(name, text);
}

static uint32_t touch_timeout_variable(void)
{
    static const char name[] = "SNJOFRASK_TOUCH_TIMEOUT";
    const char *text = getenv(name);

    return text == NULL ? TOUCH_TIMEOUT_MS : milliseconds(name, text);
}

/* The file that a variable names, to be added to; NULL where there is no such variable. */
static FILE *file_variable(const char *name)
{
    const char *path = getenv(name);
    FILE *file;

    if (path == NULL)
        return NULL;
    file = fopen(path, "a");
    if (file == NULL)
        fail_by_errno();
    return file;
}

static void close_file(FILE *file)
{
    const bool failed = ferror(file) != 0;

    if (fclose(file) != 0 || failed)
        fail("a file can't be added to");
}

/* ---- clock */

static uint64_t clock_ms(void)
{
    struct timespec now;

    if (clock_gettime(CLOCK_MONOTONIC, &now) != 0)
        fail_by_errno();
    return (uint64_t)now.tv_sec * 1000 + (uint64_t)now.tv_nsec / 1000000;
}

uint64_t board_now_ms(void)
{
    return clock_ms() - start_ms;
}

void board_start(void)
{
    /* so that a write to a pipe that nobody reads says so */
    signal(SIGPIPE, SIG_IGN);
    start_ms = clock_ms();
    touch_after_ms = touch_variable();
    touch_timeout_ms = touch_timeout_variable();
}

/* ---- packets */

static int poll_timeout(uint64_t until_ms)
{
    const uint64_t now_ms = board_now_ms();

    if (until_ms <= now_ms)
        return 0;
    return until_ms - now_ms > INT_MAX ? INT_MAX : (int)(until_ms - now_ms);
}

static bool wait_for_input(uint64_t until_ms)
{
    struct pollfd input = {STDIN_FILENO, POLLIN, 0};
    const int ready = poll(&input, 1, poll_timeout(until_ms));

    if (ready < 0 && errno != EINTR)
        fail_by_errno();
    return ready > 0;
}

/* Reads what is there. False at the end of input. */
static bool read_input(void)
{
    const ssize_t count = read(STDIN_FILENO, arrived + arrived_len, sizeof arrived - arrived_len);

    if (count < 0)
        fail_by_errno();
    if (count == 0 && arrived_len > 0)
        fail("input ends inside a packet");
    arrived_len += (size_t)count;
    return count > 0;
}

enum board_event board_take_packet(struct board_packet *packet, uint64_t until_ms)
{
    if (!wait_for_input(until_ms))
        return BOARD_NOTHING;
    if (!read_input())
        return BOARD_DETACHED;
    if (arrived_len < sizeof arrived)
        return BOARD_NOTHING;
    arrived_len = 0;
    packet->time_ms = board_now_ms();
    memcpy(packet->bytes, arrived, sizeof packet->bytes);
    return BOARD_PACKET;
}

void board_send_packet(const uint8_t *packet)
{
    size_t sent = 0;

    while (sent < SNJOFRASK_PACKET_SIZE) {
        const ssize_t count = write(STDOUT_FILENO, packet + sent, SNJOFRASK_PACKET_SIZE - sent);

        if (count < 0 && errno != EINTR)
            fail_by_errno();
        if (count > 0)
            sent += (size_t)count;
    }
}

/* ---- button and LED */

void board_forget_touches(void)
{
    touch_ms = touch_after_ms == NEVER_MS ? NEVER_MS : board_now_ms() + touch_after_ms;
}

bool board_is_touched(void)
{
    return board_now_ms() >= touch_ms;
}

uint32_t board_touch_timeout_ms(void)
{
    return touch_timeout_ms;
}

void board_set_led(bool on)
{
    FILE *file;

    if (on == led_is_on)
        return;
    led_is_on = on;
    file = file_variable("SNJOFRASK_LED");
    if (file == NULL)
        return;
    fprintf(file, "%" PRIu64 " %s\n", board_now_ms(), on ? "on" : "off");
    close_file(file);
}

/* ---- debug port */

void board_log_request(uint32_t cid, uint8_t cmd, const uint8_t *payload, size_t len)
{
    FILE *file = file_variable("SNJOFRASK_REQUESTS");

    if (file == NULL)
        return;
    fprintf(file, "%08" PRIx32 " %02x ", cid, (unsigned)cmd);
    for (size_t i = 0; i < len; i++)
        fprintf(file, "%02x", (unsigned)payload[i]);
    fprintf(file, "\n");
    close_file(file);
}
