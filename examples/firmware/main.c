/*
 * The main loop of a security key. It has no heap and calls only the library, the board and the authenticator.
 * README.md beside this says where each rule of the library's header is kept.
 */
#include "authenticator.h"
#include "board.h"
#include "snjofrask.h"

/*
 * CTAP 2.1, 11.2.9.1.7: at least every 100 ms. As in OpenSK the first one comes when they have passed, or sooner with a
 * packet (DIFFERENCES 25).
 */
#define KEEPALIVE_EVERY_MS 100

/* how often LED and button are looked at while no packet comes */
#define TICK_MS 10

/* flags of the library's calls */
#define WITH_U2F 1
#define ENABLED 0

/* The number of the board's one interface. A wait asks for it, as a key may have two. */
#define INTERFACE 0

/* All that the loop keeps. No two of them overlap, so all of them may be lent to the same call. */
static snjofrask_device device;
static uint8_t message[SNJOFRASK_LARGEST_PAYLOAD];
static uint8_t reply[SNJOFRASK_SHORT_REPLY_SIZE];
static struct board_packet incoming;
static uint8_t outgoing[SNJOFRASK_PACKET_SIZE];

static void expect_no_refusal(const char *call, uint8_t refusal)
{
    if (refusal != 0)
        board_refused(call, refusal);
}

/* What a question answers: 0 for no, 1 for yes, or a refusal. */
static bool is_yes(const char *call, uint8_t answer)
{
    if (answer > 1)
        board_refused(call, answer);
    return answer == 1;
}

/* ---- out */

static void send_message(uint32_t cid, uint8_t cmd, const uint8_t *payload, size_t len)
{
    for (size_t index = 0;; index++) {
        const uint8_t refusal = snjofrask_write_packet(cid, cmd, payload, len, index, outgoing, sizeof outgoing);

        if (refusal == SNJOFRASK_REFUSAL_INDEX)
            return;
        expect_no_refusal("snjofrask_write_packet", refusal);
        board_send_packet(outgoing);
    }
}

/* An authenticator's answer may be too long for CTAPHID, so it goes through the call that replaces such a one. */
static void send_answer(uint32_t cid, uint8_t cmd, struct authenticator_answer answer)
{
    for (size_t index = 0;; index++) {
        const uint8_t refusal =
            snjofrask_split_message(cid, cmd, answer.bytes, answer.len, AUTHENTICATOR_INTERNAL_ERROR, index, outgoing,
                                    sizeof outgoing);

        if (refusal == SNJOFRASK_REFUSAL_INDEX)
            return;
        expect_no_refusal("snjofrask_split_message", refusal);
        board_send_packet(outgoing);
    }
}

/* What the library answers by itself. */
static void send_outcome(snjofrask_outcome outcome)
{
    if (outcome.kind == SNJOFRASK_KIND_ECHO)
        send_message(outcome.cid, outcome.cmd, message, outcome.len);
    else if (outcome.kind == SNJOFRASK_KIND_REPLY)
        send_message(outcome.cid, outcome.cmd, reply, outcome.len);
}

/* What a step of a wait says: that the device is busy, and KEEPALIVE. */
static void send_waiting(snjofrask_wait_outcome outcome)
{
    for (size_t i = 0; i < outcome.count; i++)
        send_message(outcome.sent[i].cid, outcome.sent[i].cmd, &outcome.sent[i].byte, 1);
}

/* ---- in */

static void show_wink(void)
{
    board_set_led(is_yes("snjofrask_is_winking", snjofrask_is_winking(&device, board_now_ms())));
}

/* Every wait of the loop is here, so a wink ends in time though no packet comes. */
static enum board_event take_packet(uint64_t until_ms)
{
    show_wink();
    return board_take_packet(&incoming, until_ms);
}

/* The packet goes in with the time when it came, not with the time now: board.h says why. */
static snjofrask_outcome step(void)
{
    const snjofrask_outcome outcome =
        snjofrask_device_step(&device, incoming.time_ms, ENABLED, incoming.bytes, sizeof incoming.bytes, message,
                              sizeof message, reply, sizeof reply);

    expect_no_refusal("snjofrask_device_step", outcome.refusal);
    return outcome;
}

/* ---- a wait for a touch */

/* What came while the loop waited. */
struct news {
    bool touched;
    enum board_event event;
};

static uint64_t earlier(uint64_t a_ms, uint64_t b_ms)
{
    return a_ms < b_ms ? a_ms : b_ms;
}

/*
 * Waits for a touch, a packet or a time, whichever comes first. LED and button are looked at every tick. When the touch or
 * the time has come, a packet that is in the queue is still taken: it may be CANCEL.
 */
static struct news wait_for_news(uint64_t until_ms)
{
    for (;;) {
        const uint64_t now_ms = board_now_ms();
        const bool touched = board_is_touched();
        const bool is_over = touched || now_ms >= until_ms;
        const enum board_event event = take_packet(is_over ? now_ms : earlier(now_ms + TICK_MS, until_ms));

        if (is_over || event != BOARD_NOTHING)
            return (struct news){touched, event};
    }
}

/* Its time is the one before waiting, as the header has it. */
static uint8_t wait_step(snjofrask_wait *wait, uint64_t time_ms, struct news news)
{
    const uint8_t presence = news.touched ? SNJOFRASK_PRESENCE_TOUCHED : SNJOFRASK_PRESENCE_TIMEOUT;
    const snjofrask_wait_outcome outcome =
        snjofrask_wait_step(wait, time_ms, presence, 0, news.event == BOARD_PACKET, INTERFACE, incoming.bytes,
                            sizeof incoming.bytes);

    expect_no_refusal("snjofrask_wait_step", outcome.refusal);
    send_waiting(outcome);
    return outcome.ending;
}

/* How the wait ends: TOUCHED, CANCELED or TIMED_OUT. It is left as NOT_YET once detached. */
static uint8_t wait_for_touch(uint32_t cid)
{
    snjofrask_wait wait;
    uint8_t ending = SNJOFRASK_WAIT_NOT_YET;

    board_forget_touches();
    expect_no_refusal("snjofrask_wait_begin",
                      snjofrask_wait_begin(&wait, INTERFACE, cid, board_now_ms(), board_touch_timeout_ms()));
    while (ending == SNJOFRASK_WAIT_NOT_YET) {
        const uint64_t now_ms = board_now_ms();

        if (is_yes("snjofrask_wait_elapsed", snjofrask_wait_elapsed(&wait, now_ms)))
            return SNJOFRASK_WAIT_TIMED_OUT;

        /* a step without a touch sends KEEPALIVE, so there is none at a tick that brings nothing */
        const struct news news = wait_for_news(now_ms + KEEPALIVE_EVERY_MS);

        /* what was touched for is still answered */
        if (news.event == BOARD_DETACHED && !news.touched)
            break;
        ending = wait_step(&wait, now_ms, news);
    }
    return ending;
}

/* ---- a request */

/* False once detached. */
static bool answer_request(snjofrask_outcome request)
{
    struct authenticator_answer answer = authenticator_ask(request.cmd, message, request.len);
    uint8_t ending = SNJOFRASK_WAIT_TOUCHED;

    board_log_request(request.cid, request.cmd, message, request.len);
    if (answer.wants_touch)
        ending = wait_for_touch(request.cid);
    switch (ending) {
    case SNJOFRASK_WAIT_TOUCHED:
        break;
    case SNJOFRASK_WAIT_CANCELED:
        answer = authenticator_cancelled;
        break;
    case SNJOFRASK_WAIT_TIMED_OUT:
        answer = authenticator_timed_out;
        break;
    default:
        /* detached; this button can't fail */
        return false;
    }
    send_answer(request.cid, request.cmd, answer);
    return true;
}

/* ---- the loop */

/* False once detached. */
static bool serve_packet(void)
{
    const snjofrask_outcome outcome = step();

    if (outcome.kind == SNJOFRASK_KIND_MESSAGE)
        return answer_request(outcome);
    send_outcome(outcome);
    return true;
}

int main(void)
{
    static const uint8_t vendor[] = {AUTHENTICATOR_CMD_LABEL};

    board_start();
    expect_no_refusal("snjofrask_device_new", snjofrask_device_new(&device, sizeof message, WITH_U2F, vendor, sizeof vendor));
    for (;;) {
        const enum board_event event = take_packet(board_now_ms() + TICK_MS);

        if (event == BOARD_DETACHED)
            return 0;
        if (event == BOARD_PACKET && !serve_packet())
            return 0;
    }
}
