/*
 * Calls every entry of libsnjofrask.a, as C11 and as C++17, and holds what it answers, writes and leaves alone to
 * docs/RULES.md.
 */
#include "header.h"

/* Set-up without vendor commands. No number is on the list, though the one where it begins would be refused. */
static uint8_t device_new(snjofrask_device *device, size_t max, uint8_t u2f)
{
    return snjofrask_device_new(device, max, u2f, payload, 0);
}

static uint8_t transport_new(snjofrask_transport *transport, size_t max, uint8_t u2f)
{
    return snjofrask_transport_new(transport, max, u2f, payload, 0);
}

static snjofrask_outcome device_step(snjofrask_device *device, uint64_t time, uint8_t disabled)
{
    return snjofrask_device_step(device, time, disabled, packet, sizeof packet, message, sizeof message, reply, sizeof reply);
}

static snjofrask_outcome transport_step(snjofrask_transport *transport, uint64_t time, uint8_t disabled)
{
    return snjofrask_transport_step(transport, time, disabled, packet, sizeof packet, message, sizeof message, reply,
                                    sizeof reply);
}

static void packets(void)
{
    static const uint8_t front[] = {0x12, 0x34, 0x56, 0x78, 0x81, 0, 58};
    static const uint8_t number[] = {0x12, 0x34, 0x56, 0x78, 0};

    CHECK(is(snjofrask_packet_count(0), SNJOFRASK_KIND_COUNT, 0, 0, 1));
    CHECK(is(snjofrask_packet_count(57), SNJOFRASK_KIND_COUNT, 0, 0, 1));
    CHECK(is(snjofrask_packet_count(58), SNJOFRASK_KIND_COUNT, 0, 0, 2));
    CHECK(is(snjofrask_packet_count(SNJOFRASK_LARGEST_PAYLOAD), SNJOFRASK_KIND_COUNT, 0, 0, 129));
    CHECK(is_refused(snjofrask_packet_count(SNJOFRASK_LARGEST_PAYLOAD + 1), SNJOFRASK_REFUSAL_LONG_PAYLOAD));

    memset(packet, 0xEE, sizeof packet);
    put(0x12345678, SNJOFRASK_CMD_PING, 58, 0);
    CHECK(memcmp(packet, front, 7) == 0 && memcmp(packet + 7, payload, 57) == 0);
    CHECK(is(snjofrask_read_packet(packet, sizeof packet), SNJOFRASK_KIND_FIRST, 0x12345678, SNJOFRASK_CMD_PING, 58));
    put(0x12345678, SNJOFRASK_CMD_PING, 58, 1);
    CHECK(memcmp(packet, number, 5) == 0 && packet[5] == payload[57] && all_are(packet + 6, 58, 0));
    CHECK(is(snjofrask_read_packet(packet, sizeof packet), SNJOFRASK_KIND_CONTINUATION, 0x12345678, 0, 0));
    put(0x12345678, SNJOFRASK_CMD_PING, SNJOFRASK_LARGEST_PAYLOAD, 128);
    CHECK(is(snjofrask_read_packet(packet, sizeof packet), SNJOFRASK_KIND_CONTINUATION, 0x12345678, 127, 0));
    CHECK(is_refused(snjofrask_read_packet(packet, 63), SNJOFRASK_REFUSAL_PACKET_SIZE));

    memset(packet, 0xEE, sizeof packet);
    CHECK(snjofrask_write_packet(1, 128, payload, sizeof payload, 200, packet, 63) == SNJOFRASK_REFUSAL_PACKET_SIZE);
    CHECK(snjofrask_write_packet(1, 128, payload, sizeof payload, 200, packet, 64) == SNJOFRASK_REFUSAL_COMMAND);
    CHECK(snjofrask_write_packet(1, 127, payload, sizeof payload, 200, packet, 64) == SNJOFRASK_REFUSAL_LONG_PAYLOAD);
    CHECK(snjofrask_write_packet(1, 127, payload, 57, 1, packet, 64) == SNJOFRASK_REFUSAL_INDEX);
    CHECK(snjofrask_split_message(1, 128, payload, sizeof payload, 0xF2, 200, packet, 65) == SNJOFRASK_REFUSAL_PACKET_SIZE);
    CHECK(snjofrask_split_message(1, 128, payload, sizeof payload, 0xF2, 200, packet, 64) == SNJOFRASK_REFUSAL_COMMAND);
    CHECK(snjofrask_split_message(1, 127, payload, sizeof payload, 0xF2, 1, packet, 64) == SNJOFRASK_REFUSAL_INDEX);
    CHECK(all_are(packet, 64, 0xEE));
    CHECK(snjofrask_split_message(1, SNJOFRASK_CMD_MSG, payload, sizeof payload, 0xF2, 0, packet, 64) == 0);
    CHECK(is(snjofrask_read_packet(packet, 64), SNJOFRASK_KIND_FIRST, 1, SNJOFRASK_CMD_CBOR, 1));
    CHECK(packet[7] == 0xF2 && all_are(packet + 8, 56, 0));
    CHECK(snjofrask_split_message(1, SNJOFRASK_CMD_MSG, payload, 58, 0xF2, 1, packet, 64) == 0);
    CHECK(is(snjofrask_read_packet(packet, 64), SNJOFRASK_KIND_CONTINUATION, 1, 0, 0));
}

static void device_messages(snjofrask_device *device)
{
    static const uint8_t welcome[] = {1, 2, 3, 4, 5, 6, 7, 8, 0, 0, 0, 1, 2, 1, 0, 0, 5};

    put(SNJOFRASK_CHANNEL_BROADCAST, SNJOFRASK_CMD_INIT, 8, 0);
    CHECK(is(device_step(device, 10, 0), SNJOFRASK_KIND_REPLY, SNJOFRASK_CHANNEL_BROADCAST, SNJOFRASK_CMD_INIT, 17));
    CHECK(memcmp(reply, welcome, sizeof welcome) == 0);
    CHECK(reply[12] == SNJOFRASK_INIT_PROTOCOL && reply[13] == SNJOFRASK_INIT_MAJOR);
    CHECK(reply[14] == SNJOFRASK_INIT_MINOR && reply[15] == SNJOFRASK_INIT_BUILD);
    CHECK(device->hid.allocated == 1 && device->hid.last == 10);

    put(1, SNJOFRASK_CMD_PING, 58, 0);
    CHECK(is(device_step(device, 20, 0), SNJOFRASK_KIND_NOTHING, 0, 0, 0));
    CHECK(device->hid.assembler.deadline == 20 + SNJOFRASK_TIMEOUT_MS && device->hid.assembler.cid == 1);
    CHECK(device->hid.assembler.len == 58 && device->hid.assembler.taken == 57);
    CHECK(device->hid.assembler.cmd == SNJOFRASK_CMD_PING && device->hid.assembler.seq == 0);
    put(1, SNJOFRASK_CMD_PING, 58, 1);
    CHECK(is(device_step(device, 30, 0), SNJOFRASK_KIND_ECHO, 1, SNJOFRASK_CMD_PING, 58));
    CHECK(memcmp(message, payload, 58) == 0 && device->hid.assembler.len == 0);

    put(1, SNJOFRASK_CMD_CBOR, 3, 0);
    CHECK(is(device_step(device, 40, 0), SNJOFRASK_KIND_MESSAGE, 1, SNJOFRASK_CMD_CBOR, 3));
    CHECK(is(device_step(device, 40, 1), SNJOFRASK_KIND_REPLY, 1, SNJOFRASK_CMD_ERROR, 1));
    CHECK(reply[0] == SNJOFRASK_ERR_CHANNEL_BUSY);
    put(2, SNJOFRASK_CMD_CBOR, 3, 0);
    CHECK(is(device_step(device, 40, 0), SNJOFRASK_KIND_REPLY, 2, SNJOFRASK_CMD_ERROR, 1));
    CHECK(reply[0] == SNJOFRASK_ERR_INVALID_CHANNEL);
}

static void device_questions(snjofrask_device *device)
{
    put(1, SNJOFRASK_CMD_WINK, 0, 0);
    CHECK(is(device_step(device, 50, 0), SNJOFRASK_KIND_ECHO, 1, SNJOFRASK_CMD_WINK, 0));
    CHECK(device->wink == 50 + SNJOFRASK_WINK_TIMEOUT_MS);
    CHECK(snjofrask_is_winking(device, 5049) == 1 && snjofrask_is_winking(device, 5050) == 0);
    CHECK(snjofrask_is_winking(device, 49) == SNJOFRASK_REFUSAL_TIME);

    CHECK(snjofrask_is_locked(&device->hid, 50) == 0);
    put(1, SNJOFRASK_CMD_LOCK, 1, 0);
    CHECK(is(device_step(device, 60, 0), SNJOFRASK_KIND_REPLY, 1, SNJOFRASK_CMD_LOCK, 0));
    CHECK(device->hid.locked == 1 && device->hid.lock == 1060 && device->wink == 0);
    CHECK(snjofrask_is_locked(&device->hid, 1059) == 1 && snjofrask_is_locked(&device->hid, 1060) == 0);
    CHECK(snjofrask_is_locked(&device->hid, SNJOFRASK_LAST_TIME_MS) == 0);
    CHECK(snjofrask_is_locked(&device->hid, SNJOFRASK_LAST_TIME_MS + 1) == SNJOFRASK_REFUSAL_TIME);
    device->hid.max = SNJOFRASK_LARGEST_PAYLOAD + 1;
    CHECK(snjofrask_is_locked(&device->hid, 60) == SNJOFRASK_REFUSAL_UNSOUND);
    CHECK(snjofrask_is_winking(device, 60) == SNJOFRASK_REFUSAL_UNSOUND);
    device->hid.max = SNJOFRASK_LARGEST_PAYLOAD;
}

/* all refusals of a step, each in front of the next, by steps that leave everything alone */
static void device_refusals(snjofrask_device *device)
{
    const snjofrask_device before = *device;
    snjofrask_device unsound = before;

    memset(message, 0xEE, sizeof message);
    memset(reply, 0xEE, sizeof reply);
    put(1, SNJOFRASK_CMD_PING, 8, 0);
    unsound.hid.max = SNJOFRASK_LARGEST_PAYLOAD + 1;
    CHECK(is_refused(snjofrask_device_step(&unsound, 59, 0, packet, 63, message, 0, reply, 0), SNJOFRASK_REFUSAL_PACKET_SIZE));
    CHECK(is_refused(snjofrask_device_step(device, 59, 0, packet, 64, message, sizeof message - 1, reply, 17),
                     SNJOFRASK_REFUSAL_SHORT_BUFFER));
    CHECK(is_refused(snjofrask_device_step(device, 59, 0, packet, 64, message, sizeof message, reply, 16),
                     SNJOFRASK_REFUSAL_SHORT_BUFFER));
    unsound.hid.max = 5;
    unsound.hid.assembler.len = 6;
    CHECK(is_refused(device_step(&unsound, 59, 0), SNJOFRASK_REFUSAL_UNSOUND));
    CHECK(is_refused(device_step(device, 59, 0), SNJOFRASK_REFUSAL_TIME));
    CHECK(is_refused(device_step(device, SNJOFRASK_LAST_TIME_MS + 1, 0), SNJOFRASK_REFUSAL_TIME));
    CHECK(memcmp(device, &before, sizeof before) == 0);
    CHECK(all_are(message, sizeof message, 0xEE) && all_are(reply, sizeof reply, 0xEE));
    CHECK(device_new(device, SNJOFRASK_LARGEST_PAYLOAD + 1, 1) == SNJOFRASK_REFUSAL_MAXIMUM);
    CHECK(memcmp(device, &before, sizeof before) == 0);
}

/* contents that no call of ours left there */
static void device_of_others(void)
{
    snjofrask_device device;
    snjofrask_device none;

    memset(&device, 0xEE, sizeof device);
    put(SNJOFRASK_CHANNEL_BROADCAST, SNJOFRASK_CMD_INIT, 8, 0);
    CHECK(is_refused(device_step(&device, 0, 0), SNJOFRASK_REFUSAL_SHORT_BUFFER));
    device.hid.max = SNJOFRASK_LARGEST_PAYLOAD;
    CHECK(is_refused(device_step(&device, 0, 0), SNJOFRASK_REFUSAL_UNSOUND));

    memset(&device, 0, sizeof device);
    CHECK(device_new(&none, 0, 0) == 0 && memcmp(&device, &none, sizeof none) == 0);
    CHECK(is(device_step(&device, 0, 0), SNJOFRASK_KIND_REPLY, SNJOFRASK_CHANNEL_BROADCAST, SNJOFRASK_CMD_ERROR, 1));
    CHECK(reply[0] == SNJOFRASK_ERR_INVALID_LEN);

    /* with any bits here it makes sense */
    device.hid.vendor = ~(uint64_t)0;
    device.hid.spare = 0xFF;
    CHECK(is(device_step(&device, 0, 0), SNJOFRASK_KIND_REPLY, SNJOFRASK_CHANNEL_BROADCAST, SNJOFRASK_CMD_ERROR, 1));
    CHECK(snjofrask_is_winking(&device, 0) == 0 && snjofrask_is_locked(&device.hid, 0) == 0);
    CHECK(device.hid.vendor == ~(uint64_t)0 && device.hid.spare == 0xFF);
}

/* half a message stands in the buffer while the device is disabled, and goes on after */
static void disabled_writes_no_message(void)
{
    snjofrask_device device;

    CHECK(device_new(&device, SNJOFRASK_LARGEST_PAYLOAD, 1) == 0);
    put(SNJOFRASK_CHANNEL_BROADCAST, SNJOFRASK_CMD_INIT, 8, 0);
    CHECK(is(device_step(&device, 0, 0), SNJOFRASK_KIND_REPLY, SNJOFRASK_CHANNEL_BROADCAST, SNJOFRASK_CMD_INIT, 17));
    put(1, SNJOFRASK_CMD_CBOR, 117, 0);
    CHECK(is(device_step(&device, 0, 0), SNJOFRASK_KIND_NOTHING, 0, 0, 0));
    memset(message + 57, 0xEE, sizeof message - 57);
    put(1, SNJOFRASK_CMD_CBOR, 117, 1);
    CHECK(is(device_step(&device, 1, 1), SNJOFRASK_KIND_REPLY, 1, SNJOFRASK_CMD_ERROR, 1));
    put(1, SNJOFRASK_CMD_PING, 8, 0);
    CHECK(is(device_step(&device, 1, 1), SNJOFRASK_KIND_REPLY, 1, SNJOFRASK_CMD_ERROR, 1));
    put(SNJOFRASK_CHANNEL_BROADCAST, SNJOFRASK_CMD_INIT, 8, 0);
    CHECK(is(device_step(&device, 1, 1), SNJOFRASK_KIND_REPLY, SNJOFRASK_CHANNEL_BROADCAST, SNJOFRASK_CMD_ERROR, 1));
    CHECK(memcmp(message, payload, 57) == 0 && all_are(message + 57, sizeof message - 57, 0xEE));
    put(1, SNJOFRASK_CMD_CBOR, 117, 1);
    CHECK(is(device_step(&device, 1, 0), SNJOFRASK_KIND_NOTHING, 0, 0, 0));
    put(1, SNJOFRASK_CMD_CBOR, 117, 2);
    CHECK(is(device_step(&device, 1, 0), SNJOFRASK_KIND_MESSAGE, 1, SNJOFRASK_CMD_CBOR, 117));
    CHECK(memcmp(message, payload, 117) == 0);
}

static void devices(void)
{
    snjofrask_device device;

    memset(&device, 0xEE, sizeof device);
    CHECK(device_new(&device, SNJOFRASK_LARGEST_PAYLOAD, 1) == 0);
    CHECK(device.hid.max == SNJOFRASK_LARGEST_PAYLOAD && device.hid.u2f != 0);
    CHECK(device.hid.allocated == 0 && device.hid.locked == 0 && device.hid.lock == 0 && device.hid.last == 0);
    CHECK(device.hid.assembler.len == 0 && device.wink == 0);
    device_messages(&device);
    device_questions(&device);
    device_refusals(&device);

    /* without U2F */
    CHECK(device_new(&device, 57, 0) == 0 && device.hid.max == 57 && device.hid.u2f == 0);
    put(SNJOFRASK_CHANNEL_BROADCAST, SNJOFRASK_CMD_INIT, 8, 0);
    CHECK(is(device_step(&device, 0, 0), SNJOFRASK_KIND_REPLY, SNJOFRASK_CHANNEL_BROADCAST, SNJOFRASK_CMD_INIT, 17));
    CHECK(reply[16] == (SNJOFRASK_CAPABILITY_WINK | SNJOFRASK_CAPABILITY_CBOR | SNJOFRASK_CAPABILITY_NMSG));
    put(1, SNJOFRASK_CMD_MSG, 8, 0);
    CHECK(is(device_step(&device, 0, 0), SNJOFRASK_KIND_REPLY, 1, SNJOFRASK_CMD_ERROR, 1));
    CHECK(reply[0] == SNJOFRASK_ERR_INVALID_CMD);
    put(1, SNJOFRASK_CMD_PING, 58, 0);
    CHECK(is(device_step(&device, 0, 0), SNJOFRASK_KIND_REPLY, 1, SNJOFRASK_CMD_ERROR, 1));
    CHECK(reply[0] == SNJOFRASK_ERR_INVALID_LEN);
}

static void transports(void)
{
    snjofrask_transport transport;
    snjofrask_transport before;

    CHECK(transport_new(&transport, 100, 0) == 0);
    CHECK(transport.max == 100 && transport.u2f == 0 && transport.allocated == 0);
    CHECK(snjofrask_is_locked(&transport, 0) == 0);
    put(SNJOFRASK_CHANNEL_BROADCAST, SNJOFRASK_CMD_INIT, 8, 0);
    CHECK(is(transport_step(&transport, 0, 0), SNJOFRASK_KIND_REPLY, SNJOFRASK_CHANNEL_BROADCAST, SNJOFRASK_CMD_INIT, 17));
    put(1, SNJOFRASK_CMD_WINK, 0, 0);
    CHECK(is(transport_step(&transport, 0, 0), SNJOFRASK_KIND_MESSAGE, 1, SNJOFRASK_CMD_WINK, 0));
    put(1, SNJOFRASK_CMD_MSG, 5, 0);
    CHECK(is(transport_step(&transport, 0, 0), SNJOFRASK_KIND_MESSAGE, 1, SNJOFRASK_CMD_MSG, 5));
    put(1, SNJOFRASK_CMD_PING, 5, 0);
    CHECK(is(transport_step(&transport, 0, 0), SNJOFRASK_KIND_ECHO, 1, SNJOFRASK_CMD_PING, 5));
    put(1, SNJOFRASK_CMD_PING, 58, 1);
    CHECK(is(transport_step(&transport, 0, 0), SNJOFRASK_KIND_NOTHING, 0, 0, 0));
    CHECK(is(transport_step(&transport, 0, 1), SNJOFRASK_KIND_REPLY, 1, SNJOFRASK_CMD_ERROR, 1));
    before = transport;
    CHECK(is_refused(snjofrask_transport_step(&transport, 1, 0, packet, 65, message, 100, reply, 17), SNJOFRASK_REFUSAL_PACKET_SIZE));
    CHECK(is_refused(snjofrask_transport_step(&transport, 1, 0, packet, 64, message, 99, reply, 17), SNJOFRASK_REFUSAL_SHORT_BUFFER));
    CHECK(is_refused(transport_step(&transport, SNJOFRASK_LAST_TIME_MS + 1, 0), SNJOFRASK_REFUSAL_TIME));
    CHECK(transport_new(&transport, SNJOFRASK_LARGEST_PAYLOAD + 1, 0) == SNJOFRASK_REFUSAL_MAXIMUM);
    CHECK(memcmp(&transport, &before, sizeof before) == 0);
}

/* ---- vendor commands */

static uint64_t vendor_bit(size_t number)
{
    return (uint64_t)1 << (number - SNJOFRASK_CMD_VENDOR_FIRST);
}

/* Whether set-up with a list gives a device and a transport just these bits for it. All else of them is as in any fresh one. */
static int is_set_up(const uint8_t *vendor, size_t vendor_len, uint64_t bits)
{
    snjofrask_device fresh;
    snjofrask_device device;
    snjofrask_transport transport;

    CHECK(device_new(&fresh, 57, 1) == 0 && fresh.hid.vendor == 0 && fresh.hid.spare == 0 && fresh.hid.still_due == 0);
    fresh.hid.vendor = bits;
    memset(&device, 0xEE, sizeof device);
    memset(&transport, 0xEE, sizeof transport);
    return snjofrask_device_new(&device, 57, 1, vendor, vendor_len) == 0 && memcmp(&device, &fresh, sizeof fresh) == 0 &&
           snjofrask_transport_new(&transport, 57, 1, vendor, vendor_len) == 0 &&
           memcmp(&transport, &fresh.hid, sizeof fresh.hid) == 0;
}

/* Whether set-up of both is refused so, and leaves every byte of them as it came. */
static int is_refused_set_up(size_t max, const uint8_t *vendor, size_t vendor_len, int refusal)
{
    snjofrask_device device;
    snjofrask_transport transport;

    memset(&device, 0xEE, sizeof device);
    memset(&transport, 0xEE, sizeof transport);
    return snjofrask_device_new(&device, max, 1, vendor, vendor_len) == refusal &&
           snjofrask_transport_new(&transport, max, 1, vendor, vendor_len) == refusal &&
           all_are((const uint8_t *)&device, sizeof device, 0xEE) && all_are((const uint8_t *)&transport, sizeof transport, 0xEE);
}

static void vendor_lists(void)
{
    static const uint8_t ends[] = {SNJOFRASK_CMD_VENDOR_LAST, SNJOFRASK_CMD_VENDOR_FIRST};
    static const uint8_t twice[] = {65, 64, 65, 66, 66, 64};

    CHECK(is_set_up(ends, 0, 0));
    CHECK(is_set_up(ends, 1, 0x8000000000000000));
    CHECK(is_set_up(ends + 1, 1, 1));
    CHECK(is_set_up(ends, 2, 0x8000000000000001));
    CHECK(is_set_up(twice, sizeof twice, 7));
    for (size_t number = 0; number < 256; number++) {
        const uint8_t one = (uint8_t)number;

        if (number < 64 || number > 127)
            CHECK(is_refused_set_up(57, &one, 1, SNJOFRASK_REFUSAL_VENDOR));
        else
            CHECK(is_set_up(&one, 1, vendor_bit(number)));
    }
}

/* A wrong number is refused wherever it stands in the list, but not behind it. A wrong maximum is told first. */
static void wrong_vendor_lists(void)
{
    static const uint8_t wrong[] = {0, 63, 128, 255};
    uint8_t all[64];

    for (uint8_t i = 0; i < sizeof all; i++)
        all[i] = (uint8_t)(64 + i);
    CHECK(is_set_up(all, sizeof all, ~(uint64_t)0));
    CHECK(is_refused_set_up(SNJOFRASK_LARGEST_PAYLOAD + 1, all, sizeof all, SNJOFRASK_REFUSAL_MAXIMUM));
    for (size_t at = 0; at < sizeof all; at++) {
        const uint8_t right = all[at];

        for (size_t i = 0; i < sizeof wrong; i++) {
            all[at] = wrong[i];
            CHECK(is_refused_set_up(SNJOFRASK_LARGEST_PAYLOAD, all, sizeof all, SNJOFRASK_REFUSAL_VENDOR));
            CHECK(is_refused_set_up(SNJOFRASK_LARGEST_PAYLOAD + 1, all, sizeof all, SNJOFRASK_REFUSAL_MAXIMUM));
            CHECK(is_set_up(all, at, vendor_bit(right) - 1));
        }
        all[at] = right;
    }
}

static snjofrask_outcome step_device(void *device)
{
    return device_step((snjofrask_device *)device, 0, 0);
}

static snjofrask_outcome step_transport(void *transport)
{
    return transport_step((snjofrask_transport *)transport, 0, 0);
}

/* The answer to a message on channel 1, whose packets but the last get nothing. */
static snjofrask_outcome answer_of(snjofrask_outcome (*step)(void *), void *state, uint8_t cmd, size_t len)
{
    const size_t last = snjofrask_packet_count(len).len - 1;

    memset(message, 0xEE, sizeof message);
    memset(reply, 0xEE, sizeof reply);
    for (size_t index = 0; index < last; index++) {
        put(1, cmd, len, index);
        CHECK(is(step(state), SNJOFRASK_KIND_NOTHING, 0, 0, 0));
    }
    put(1, cmd, len, last);
    return step(state);
}

/* Whether it hands the message out as it was sent. */
static int hands_out(snjofrask_outcome answer, uint8_t cmd, size_t len)
{
    return is(answer, SNJOFRASK_KIND_MESSAGE, 1, cmd, len) && memcmp(message, payload, len) == 0 &&
           all_are(message + len, sizeof message - len, 0xEE) && all_are(reply, sizeof reply, 0xEE);
}

/* Whether it says that there is no such command. */
static int is_no_command(snjofrask_outcome answer)
{
    return is(answer, SNJOFRASK_KIND_REPLY, 1, SNJOFRASK_CMD_ERROR, 1) && reply[0] == SNJOFRASK_ERR_INVALID_CMD &&
           all_are(reply + 1, sizeof reply - 1, 0xEE);
}

/* Whether it says so at the first packet, writes nothing of the message, and ignores the others. */
static int is_told_at_once(snjofrask_outcome (*step)(void *), void *state, uint8_t cmd, size_t len)
{
    const size_t count = snjofrask_packet_count(len).len;
    int told;

    memset(message, 0xEE, sizeof message);
    memset(reply, 0xEE, sizeof reply);
    put(1, cmd, len, 0);
    told = is_no_command(step(state));
    for (size_t index = 1; index < count; index++) {
        put(1, cmd, len, index);
        told = told && is(step(state), SNJOFRASK_KIND_NOTHING, 0, 0, 0);
    }
    return told && all_are(message, sizeof message, 0xEE) && all_are(reply + 1, sizeof reply - 1, 0xEE);
}

/* A device and a transport that know the first and the last. After set-up the list may be written over. */
static void vendor_messages(void)
{
    static const size_t lengths[] = {0, 1, 57, 58, SNJOFRASK_LARGEST_PAYLOAD};
    uint8_t vendor[] = {127, 64};
    snjofrask_device device;
    snjofrask_transport transport;

    CHECK(snjofrask_device_new(&device, SNJOFRASK_LARGEST_PAYLOAD, 0, vendor, sizeof vendor) == 0);
    CHECK(snjofrask_transport_new(&transport, SNJOFRASK_LARGEST_PAYLOAD, 0, vendor, sizeof vendor) == 0);
    memset(vendor, 65, sizeof vendor);
    device.hid.spare = transport.spare = 0x11;
    put(SNJOFRASK_CHANNEL_BROADCAST, SNJOFRASK_CMD_INIT, 8, 0);
    CHECK(device_step(&device, 0, 0).cmd == SNJOFRASK_CMD_INIT && transport_step(&transport, 0, 0).cmd == SNJOFRASK_CMD_INIT);
    for (size_t i = 0; i < sizeof lengths / sizeof lengths[0]; i++)
        for (uint8_t cmd = 62; cmd < 128; cmd++) {
            if (cmd == 64 || cmd == 127) {
                CHECK(hands_out(answer_of(step_device, &device, cmd, lengths[i]), cmd, lengths[i]));
                CHECK(hands_out(answer_of(step_transport, &transport, cmd, lengths[i]), cmd, lengths[i]));
            } else {
                CHECK(is_told_at_once(step_device, &device, cmd, lengths[i]));
                CHECK(is_told_at_once(step_transport, &transport, cmd, lengths[i]));
            }
        }
    CHECK(device.hid.vendor == 0x8000000000000001 && transport.vendor == 0x8000000000000001);
    CHECK(device.hid.spare == 0x11 && transport.spare == 0x11);

    /* while it works on one it is disabled, and tells so whatever the command */
    put(1, 64, 1, 0);
    CHECK(is(device_step(&device, 0, 1), SNJOFRASK_KIND_REPLY, 1, SNJOFRASK_CMD_ERROR, 1));
    CHECK(reply[0] == SNJOFRASK_ERR_CHANNEL_BUSY);
}

/* ---- packets still due */

/* A device and a transport that hear the same packets. */
typedef struct both {
    snjofrask_device device;
    snjofrask_transport transport;
} both;

/* the lengths of messages, and how many packets are due after the first */
static const size_t due_lengths[] = {0, 57, 58, 116, 117, 7550, 7551, SNJOFRASK_LARGEST_PAYLOAD};
static const uint16_t due_counts[] = {0, 0, 1, 1, 2, 127, 128, 128};

static int are_due(const both *on, int due)
{
    return on->device.hid.still_due == due && on->transport.still_due == due;
}

/* The number of the error that a packet is told, 0 where it is told none. */
static int error_told(snjofrask_outcome outcome)
{
    CHECK(outcome.kind != SNJOFRASK_KIND_REFUSED);
    return outcome.cmd == SNJOFRASK_CMD_ERROR ? reply[0] : 0;
}

/* Whether the packet is told this error by both, and this many are due to both then. */
static int leaves_due(both *on, uint64_t time, uint8_t disabled, int error, int due)
{
    return error_told(device_step(&on->device, time, disabled)) == error &&
           error_told(transport_step(&on->transport, time, disabled)) == error && are_due(on, due);
}

/* Both are fresh, with channels 1 and 2. */
static void set_up_both(both *on)
{
    memset(on, 0xEE, sizeof *on);
    CHECK(device_new(&on->device, SNJOFRASK_LARGEST_PAYLOAD, 1) == 0);
    CHECK(transport_new(&on->transport, SNJOFRASK_LARGEST_PAYLOAD, 1) == 0);
    CHECK(are_due(on, 0));
    put(SNJOFRASK_CHANNEL_BROADCAST, SNJOFRASK_CMD_INIT, 8, 0);
    for (int channel = 1; channel <= 2; channel++)
        CHECK(leaves_due(on, 0, 0, 0, 0) && reply[11] == channel);
}

/* The same, and channel 1 has sent so many packets of a PING at time 0. */
static void begin_both(both *on, size_t len, size_t sent)
{
    set_up_both(on);
    for (size_t index = 0; index < sent; index++) {
        put(1, SNJOFRASK_CMD_PING, len, index);
        CHECK(leaves_due(on, 0, 0, 0, (int)(snjofrask_packet_count(len).len - 1 - index)));
    }
}

static void due_goes_down(void)
{
    both on;

    set_up_both(&on);
    for (size_t i = 0; i < sizeof due_lengths / sizeof due_lengths[0]; i++)
        for (uint16_t index = 0; index <= due_counts[i]; index++) {
            put(1, SNJOFRASK_CMD_PING, due_lengths[i], index);
            CHECK(leaves_due(&on, 0, 0, 0, due_counts[i] - index));
        }
}

/* Others are answered, or the own packet while disabled: the message goes on after. */
static void due_stays(void)
{
    both on;

    begin_both(&on, 117, 1);
    put(2, SNJOFRASK_CMD_PING, 58, 0);
    CHECK(leaves_due(&on, 99, 0, SNJOFRASK_ERR_CHANNEL_BUSY, 2) && leaves_due(&on, 99, 1, SNJOFRASK_ERR_CHANNEL_BUSY, 2));
    put(2, SNJOFRASK_CMD_PING, 58, 1);
    CHECK(leaves_due(&on, 99, 0, SNJOFRASK_ERR_CHANNEL_BUSY, 2) && leaves_due(&on, 99, 1, SNJOFRASK_ERR_CHANNEL_BUSY, 2));
    put(3, SNJOFRASK_CMD_PING, 58, 0);
    CHECK(leaves_due(&on, 99, 0, SNJOFRASK_ERR_INVALID_CHANNEL, 2));
    put(3, SNJOFRASK_CMD_PING, 58, 1);
    CHECK(leaves_due(&on, 99, 0, 0, 2));
    put(SNJOFRASK_CHANNEL_BROADCAST, SNJOFRASK_CMD_INIT, 8, 0);
    CHECK(leaves_due(&on, 99, 0, SNJOFRASK_ERR_CHANNEL_BUSY, 2));
    put(1, SNJOFRASK_CMD_PING, 117, 1);
    CHECK(leaves_due(&on, 99, 1, SNJOFRASK_ERR_CHANNEL_BUSY, 2) && leaves_due(&on, 99, 0, 0, 1));
}

/* By a wrong number, and by first packets, of which INIT begins anew. */
static void due_of_a_dropped(void)
{
    both on;

    for (size_t wrong = 0; wrong < 4; wrong++)
        if (wrong != 2) {
            begin_both(&on, 300, 2);
            put(1, SNJOFRASK_CMD_PING, 300, wrong);
            CHECK(leaves_due(&on, 0, 0, SNJOFRASK_ERR_INVALID_SEQ, 0));
        }
    begin_both(&on, 300, 2);
    put(1, SNJOFRASK_CMD_CANCEL, 0, 0);
    CHECK(leaves_due(&on, 0, 0, SNJOFRASK_ERR_INVALID_SEQ, 0));
    begin_both(&on, 300, 2);
    put(1, SNJOFRASK_CMD_INIT, 8, 0);
    CHECK(leaves_due(&on, 0, 0, 0, 0));
    begin_both(&on, 300, 2);
    put(1, SNJOFRASK_CMD_INIT, 117, 0);
    CHECK(leaves_due(&on, 0, 0, 0, 2));
}

/* A message on channel 1 whose time is over, and packets and questions that leave its number. */
static void run_out_both(both *on)
{
    begin_both(on, 300, 1);
    put(1, SNJOFRASK_CMD_PING, 300, 1);
    CHECK(leaves_due(on, 100, 1, SNJOFRASK_ERR_CHANNEL_BUSY, 5));
    put(3, SNJOFRASK_CMD_PING, 58, 0);
    CHECK(leaves_due(on, 100, 0, SNJOFRASK_ERR_INVALID_CHANNEL, 5));
    CHECK(snjofrask_is_winking(&on->device, 200) == 0 && snjofrask_is_locked(&on->device.hid, 200) == 0);
    CHECK(snjofrask_is_locked(&on->transport, 200) == 0 && are_due(on, 5));
}

/* Any packet drops it that is neither told that the device is busy nor on a channel that isn't valid. */
static void due_past_the_deadline(void)
{
    both on;

    run_out_both(&on);
    put(1, SNJOFRASK_CMD_PING, 300, 1);
    CHECK(leaves_due(&on, 200, 0, SNJOFRASK_ERR_MSG_TIMEOUT, 0));
    run_out_both(&on);
    put(1, SNJOFRASK_CMD_PING, 117, 0);
    CHECK(leaves_due(&on, 200, 0, 0, 2));
    run_out_both(&on);
    put(2, SNJOFRASK_CMD_PING, 300, 1);
    CHECK(leaves_due(&on, 200, 0, 0, 0));
    run_out_both(&on);
    put(2, SNJOFRASK_CMD_PING, 58, 0);
    CHECK(leaves_due(&on, 200, 0, 0, 1));

    /* the channel with the lock has a message: the other one is told that it is locked out */
    begin_both(&on, 0, 0);
    put(1, SNJOFRASK_CMD_LOCK, 1, 0);
    CHECK(leaves_due(&on, 0, 0, 0, 0));
    put(1, SNJOFRASK_CMD_PING, 300, 0);
    CHECK(leaves_due(&on, 0, 0, 0, 5));
    put(2, SNJOFRASK_CMD_PING, 58, 0);
    CHECK(leaves_due(&on, 999, 0, SNJOFRASK_ERR_CHANNEL_BUSY, 5) && leaves_due(&on, 1000, 0, 0, 1));
}

/* Whether steps and questions find both unsound. */
static int are_unsound(both *on, uint64_t time, uint8_t disabled)
{
    return is_refused(device_step(&on->device, time, disabled), SNJOFRASK_REFUSAL_UNSOUND) &&
           is_refused(transport_step(&on->transport, time, disabled), SNJOFRASK_REFUSAL_UNSOUND) &&
           snjofrask_is_winking(&on->device, time) == SNJOFRASK_REFUSAL_UNSOUND &&
           snjofrask_is_locked(&on->device.hid, time) == SNJOFRASK_REFUSAL_UNSOUND &&
           snjofrask_is_locked(&on->transport, time) == SNJOFRASK_REFUSAL_UNSOUND;
}

/* Whether both are refused with this number, disabled too, past the deadline and at a wrong time, and every byte is as it came. */
static int is_wrong_due(const both *on, uint16_t due)
{
    both came = *on;
    both left;

    came.device.hid.still_due = came.transport.still_due = due;
    left = came;
    memset(message, 0xEE, sizeof message);
    memset(reply, 0xEE, sizeof reply);
    return are_unsound(&left, 99, 0) && are_unsound(&left, 99, 1) && are_unsound(&left, 100, 0) &&
           are_unsound(&left, SNJOFRASK_LAST_TIME_MS + 1, 0) && memcmp(&left, &came, sizeof came) == 0 &&
           all_are(message, sizeof message, 0xEE) && all_are(reply, sizeof reply, 0xEE);
}

/* One too many, one too few, and any bit wrong: before a message, inside it and after it, for its next packet and another channel's. */
static void wrong_due(void)
{
    static const size_t sent[] = {0, 1, 2, 128, 129};
    static const uint16_t due[] = {0, 128, 127, 1, 0};
    both on;

    for (size_t i = 0; i < sizeof sent / sizeof sent[0]; i++) {
        begin_both(&on, SNJOFRASK_LARGEST_PAYLOAD, sent[i]);
        for (uint32_t cid = 1; cid <= 2; cid++) {
            put(cid, SNJOFRASK_CMD_PING, SNJOFRASK_LARGEST_PAYLOAD, sent[i] % 129);
            CHECK(is_wrong_due(&on, (uint16_t)(due[i] + 1)) && is_wrong_due(&on, (uint16_t)(due[i] - 1)));
            for (int bit = 0; bit < 16; bit++)
                CHECK(is_wrong_due(&on, (uint16_t)(due[i] ^ (1 << bit))));
        }
    }
}

/* A wrong packet and short buffers are told first. */
static void wrong_due_in_order(void)
{
    both on;

    begin_both(&on, 58, 1);
    on.device.hid.still_due = on.transport.still_due = 2;
    put(1, SNJOFRASK_CMD_PING, 58, 1);
    CHECK(is_refused(snjofrask_device_step(&on.device, 0, 0, packet, 63, message, sizeof message, reply, 17), SNJOFRASK_REFUSAL_PACKET_SIZE));
    CHECK(is_refused(snjofrask_transport_step(&on.transport, 0, 0, packet, 63, message, sizeof message, reply, 17), SNJOFRASK_REFUSAL_PACKET_SIZE));
    CHECK(is_refused(snjofrask_device_step(&on.device, 0, 0, packet, 64, message, 0, reply, 17), SNJOFRASK_REFUSAL_SHORT_BUFFER));
    CHECK(is_refused(snjofrask_transport_step(&on.transport, 0, 0, packet, 64, message, 0, reply, 17), SNJOFRASK_REFUSAL_SHORT_BUFFER));
    CHECK(is_refused(snjofrask_device_step(&on.device, 0, 0, packet, 64, message, sizeof message, reply, 16), SNJOFRASK_REFUSAL_SHORT_BUFFER));
    CHECK(is_refused(snjofrask_transport_step(&on.transport, 0, 0, packet, 64, message, sizeof message, reply, 16), SNJOFRASK_REFUSAL_SHORT_BUFFER));
}

/* ---- a host */

static snjofrask_outcome host_read(snjofrask_collection *collection, size_t buffer_len)
{
    return snjofrask_host_read(collection, 7, packet, sizeof packet, message, buffer_len);
}

static void hosts(void)
{
    snjofrask_collection collection;
    snjofrask_collection before;

    memset(&collection, 0, sizeof collection);
    memset(message, 0xEE, sizeof message);
    put(8, SNJOFRASK_CMD_PING, 58, 0);
    CHECK(is(host_read(&collection, 100), SNJOFRASK_KIND_IGNORED, 0, 0, 0));
    put(7, SNJOFRASK_CMD_KEEPALIVE, 1, 0);
    packet[7] = SNJOFRASK_STATUS_UPNEEDED;
    CHECK(is(host_read(&collection, 100), SNJOFRASK_KIND_KEEPALIVE, 0, SNJOFRASK_STATUS_UPNEEDED, 0));
    put(7, SNJOFRASK_CMD_PING, 101, 0);
    CHECK(is_refused(host_read(&collection, 100), SNJOFRASK_REFUSAL_LONG_REPLY));
    CHECK(collection.len == 0 && all_are(message, sizeof message, 0xEE));
    put(7, SNJOFRASK_CMD_PING, 100, 0);
    CHECK(is(host_read(&collection, 100), SNJOFRASK_KIND_WAITING, 0, 0, 0));
    CHECK(collection.len == 100 && collection.taken == 57 && collection.cmd == SNJOFRASK_CMD_PING && collection.seq == 0);
    before = collection;
    CHECK(is_refused(host_read(&collection, 100), SNJOFRASK_REFUSAL_SEQUENCE));
    CHECK(is_refused(snjofrask_host_read(&collection, 7, packet, 63, message, 100), SNJOFRASK_REFUSAL_PACKET_SIZE));
    CHECK(is_refused(host_read(&collection, 99), SNJOFRASK_REFUSAL_UNSOUND));
    CHECK(memcmp(&collection, &before, sizeof before) == 0);
    put(7, SNJOFRASK_CMD_PING, 100, 1);
    CHECK(is(host_read(&collection, 100), SNJOFRASK_KIND_COLLECTED, 0, SNJOFRASK_CMD_PING, 100));
    CHECK(memcmp(message, payload, 100) == 0 && message[100] == 0xEE && collection.len == 0);
    CHECK(is(host_read(&collection, 100), SNJOFRASK_KIND_IGNORED, 0, 0, 0));
}

/* Whether nothing but refusal 11 is told. */
static int is_no_init(uint8_t cmd, const uint8_t *bytes, size_t len)
{
    const snjofrask_init_outcome fields = snjofrask_init_reply(cmd, bytes, len);

    return fields.refusal == SNJOFRASK_REFUSAL_NOT_INIT && fields.cid == 0 && fields.protocol == 0 && fields.major == 0 &&
           fields.minor == 0 && fields.build == 0 && fields.capabilities == 0 && fields.rest == 0 && all_are(fields.nonce, 8, 0);
}

/* Of a reply to INIT, whatever follows its fields. */
static void init_replies(void)
{
    static const uint8_t nonce[] = {1, 2, 3, 4, 5, 6, 7, 8};
    static const uint8_t others[] = {0x12, 0x34, 0x56, 0x78, 2, 3, 4, 6, 5};
    static uint8_t welcome[SNJOFRASK_LARGEST_PAYLOAD + 1];
    snjofrask_collection collection;

    memcpy(welcome, nonce, sizeof nonce);
    memcpy(welcome + sizeof nonce, others, sizeof others);
    for (size_t len = 17; len <= SNJOFRASK_LARGEST_PAYLOAD; len = len < 20 ? len + 1 : len + 33) {
        const snjofrask_init_outcome fields = snjofrask_init_reply(SNJOFRASK_CMD_INIT, welcome, len);

        CHECK(fields.refusal == 0 && fields.rest == len - 17);
        CHECK(fields.cid == 0x12345678 && memcmp(fields.nonce, nonce, sizeof nonce) == 0);
        CHECK(fields.protocol == 2 && fields.major == 3 && fields.minor == 4 && fields.build == 6);
        CHECK(fields.capabilities == (SNJOFRASK_CAPABILITY_WINK | SNJOFRASK_CAPABILITY_CBOR));
        memset(welcome + 17, (int)(len & 0xFF), sizeof welcome - 17);
    }
    CHECK(snjofrask_init_reply(SNJOFRASK_CMD_INIT, welcome, SNJOFRASK_LARGEST_PAYLOAD).rest == SNJOFRASK_LARGEST_PAYLOAD - 17);
    CHECK(is_no_init(SNJOFRASK_CMD_INIT, welcome, SNJOFRASK_LARGEST_PAYLOAD + 1));
    CHECK(is_no_init(SNJOFRASK_CMD_INIT, welcome, 16));
    CHECK(is_no_init(SNJOFRASK_CMD_PING, welcome, 17) && is_no_init(SNJOFRASK_CMD_PING, welcome, 19));

    /* of 19 bytes, in packets: what follows stands in the host's own buffer */
    memset(&collection, 0, sizeof collection);
    memset(message, 0xEE, sizeof message);
    welcome[17] = 0xAB;
    welcome[18] = 0xCD;
    CHECK(snjofrask_write_packet(7, SNJOFRASK_CMD_INIT, welcome, 19, 0, packet, sizeof packet) == 0);
    CHECK(is(host_read(&collection, 19), SNJOFRASK_KIND_COLLECTED, 0, SNJOFRASK_CMD_INIT, 19));
    CHECK(snjofrask_init_reply(SNJOFRASK_CMD_INIT, message, 19).rest == 2 && message[17] == 0xAB && message[18] == 0xCD);
}

/* ---- buffers that are lent anew at every call */

/* The longest message over Bluetooth, with what is behind it: the one long buffer that a board has room for. */
static uint8_t large[SNJOFRASK_BLE_LARGEST_PAYLOAD + 600];

/* the device's maximum, and no byte more */
#define LENT_SIZE 1024

static uint8_t lent_buffers[2][LENT_SIZE];
static uint8_t lent_replies[2][SNJOFRASK_SHORT_REPLY_SIZE];
/* what the last call was lent */
static uint8_t *lent = lent_buffers[0];
static uint8_t *lent_reply = lent_replies[0];

/* Moves to the other buffers, and keeps only so many bytes, as the last call left them, less those that are spoilt. Every other byte is wrong for payload. */
static void lend_anew(size_t owed, size_t spoilt)
{
    const size_t kept = owed > spoilt ? owed - spoilt : 0;
    uint8_t *const left = lent;

    lent = lent_buffers[lent == lent_buffers[0]];
    lent_reply = lent_replies[lent_reply == lent_replies[0]];
    for (size_t i = 0; i < LENT_SIZE; i++) {
        lent[i] = i < kept ? left[i] : (uint8_t)~payload[i];
        left[i] = (uint8_t)~payload[i];
    }
    memset(lent_replies, 0xEE, sizeof lent_replies);
}

static snjofrask_outcome lent_step(snjofrask_device *device, uint64_t time, size_t spoilt)
{
    const snjofrask_assembler *on = &device->hid.assembler;

    lend_anew(on->len != 0 && time < on->deadline ? on->taken : 0, spoilt);
    return snjofrask_device_step(device, time, 0, packet, sizeof packet, lent, LENT_SIZE, lent_reply, sizeof lent_replies[0]);
}

static snjofrask_outcome lent_read(snjofrask_collection *collection, size_t spoilt)
{
    lend_anew(collection->len != 0 ? collection->taken : 0, spoilt);
    return snjofrask_host_read(collection, 7, packet, sizeof packet, lent, LENT_SIZE);
}

/* whether a message to the device comes out as it was sent */
static int arrives(snjofrask_device *device, uint64_t time, size_t len, size_t spoilt)
{
    const size_t last = snjofrask_packet_count(len).len - 1;

    for (size_t index = 0; index < last; index++) {
        put(1, SNJOFRASK_CMD_CBOR, len, index);
        CHECK(is(lent_step(device, time, spoilt), SNJOFRASK_KIND_NOTHING, 0, 0, 0));
    }
    put(1, SNJOFRASK_CMD_CBOR, len, last);
    CHECK(is(lent_step(device, time, spoilt), SNJOFRASK_KIND_MESSAGE, 1, SNJOFRASK_CMD_CBOR, len));
    return memcmp(lent, payload, len) == 0;
}

/* whether a reply to the host does */
static int returns(snjofrask_collection *collection, size_t len, size_t spoilt)
{
    const size_t last = snjofrask_packet_count(len).len - 1;

    for (size_t index = 0; index < last; index++) {
        put(7, SNJOFRASK_CMD_CBOR, len, index);
        CHECK(is(lent_read(collection, spoilt), SNJOFRASK_KIND_WAITING, 0, 0, 0));
    }
    put(7, SNJOFRASK_CMD_CBOR, len, last);
    CHECK(is(lent_read(collection, spoilt), SNJOFRASK_KIND_COLLECTED, 0, SNJOFRASK_CMD_CBOR, len));
    return memcmp(lent, payload, len) == 0;
}

static void lending_to_a_device(void)
{
    snjofrask_device device;

    CHECK(device_new(&device, LENT_SIZE, 1) == 0);
    for (int channel = 1; channel <= 2; channel++) {
        put(SNJOFRASK_CHANNEL_BROADCAST, SNJOFRASK_CMD_INIT, 8, 0);
        CHECK(is(lent_step(&device, 0, 0), SNJOFRASK_KIND_REPLY, SNJOFRASK_CHANNEL_BROADCAST, SNJOFRASK_CMD_INIT, 17));
        CHECK(memcmp(lent_reply, payload, 8) == 0 && lent_reply[11] == channel);
    }
    CHECK(arrives(&device, 10, LENT_SIZE, 0));
    CHECK(arrives(&device, 20, LENT_SIZE, 0));

    /* the answer goes out from the message buffer, which then takes the next message as it is */
    memset(lent, 0xA5, LENT_SIZE);
    CHECK(snjofrask_split_message(1, SNJOFRASK_CMD_CBOR, lent, LENT_SIZE, 0xF2, 0, packet, sizeof packet) == 0);
    CHECK(all_are(packet + 7, 57, 0xA5));
    put(1, SNJOFRASK_CMD_CBOR, 57, 0);
    CHECK(is(snjofrask_device_step(&device, 30, 0, packet, sizeof packet, lent, LENT_SIZE, lent_reply, sizeof lent_replies[0]),
             SNJOFRASK_KIND_MESSAGE, 1, SNJOFRASK_CMD_CBOR, 57));
    CHECK(memcmp(lent, payload, 57) == 0 && all_are(lent + 57, LENT_SIZE - 57, 0xA5));

    /* another channel is told to wait meanwhile, in the short buffer */
    put(1, SNJOFRASK_CMD_CBOR, 58, 0);
    CHECK(is(lent_step(&device, 40, 0), SNJOFRASK_KIND_NOTHING, 0, 0, 0));
    put(2, SNJOFRASK_CMD_CBOR, 58, 0);
    CHECK(is(lent_step(&device, 40, 0), SNJOFRASK_KIND_REPLY, 2, SNJOFRASK_CMD_ERROR, 1));
    CHECK(lent_reply[0] == SNJOFRASK_ERR_CHANNEL_BUSY && all_are(lent_reply + 1, sizeof lent_replies[0] - 1, 0xEE));
    put(1, SNJOFRASK_CMD_CBOR, 58, 1);
    CHECK(is(lent_step(&device, 40, 0), SNJOFRASK_KIND_MESSAGE, 1, SNJOFRASK_CMD_CBOR, 58) && memcmp(lent, payload, 58) == 0);

    /* nothing is owed of a message that has timed out */
    put(1, SNJOFRASK_CMD_CBOR, LENT_SIZE, 0);
    CHECK(is(lent_step(&device, 50, 0), SNJOFRASK_KIND_NOTHING, 0, 0, 0));
    CHECK(arrives(&device, 50 + SNJOFRASK_TIMEOUT_MS, LENT_SIZE, 0));

    /* and of one on its way in, all bytes taken */
    CHECK(!arrives(&device, 200, 58, 1));
}

static void lending_to_a_host(void)
{
    snjofrask_collection collection;

    memset(&collection, 0, sizeof collection);
    CHECK(returns(&collection, LENT_SIZE, 0));
    put(7, SNJOFRASK_CMD_KEEPALIVE, 1, 0);
    CHECK(is(snjofrask_host_read(&collection, 7, packet, sizeof packet, lent, 0), SNJOFRASK_KIND_KEEPALIVE, 0, payload[0], 0));
    CHECK(returns(&collection, LENT_SIZE, 0));
    CHECK(!returns(&collection, 58, 1));
}

/* Every bit of a length or an index counts: whoever drops some takes these for others. */
static void highest_lengths(void)
{
    put(1, SNJOFRASK_CMD_PING, 57, 0);
    CHECK(is_refused(snjofrask_packet_count(HIGH), SNJOFRASK_REFUSAL_LONG_PAYLOAD));
    CHECK(is_refused(snjofrask_read_packet(packet, HIGH + 64), SNJOFRASK_REFUSAL_PACKET_SIZE));
    CHECK(snjofrask_write_packet(1, 1, payload, 1, 0, packet, HIGH + 64) == SNJOFRASK_REFUSAL_PACKET_SIZE);
    CHECK(snjofrask_write_packet(1, 1, payload, HIGH, 0, packet, 64) == SNJOFRASK_REFUSAL_LONG_PAYLOAD);
    CHECK(snjofrask_write_packet(1, 1, payload, 1, HIGH, packet, 64) == SNJOFRASK_REFUSAL_INDEX);
    CHECK(snjofrask_write_packet(1, 1, payload, 1, 256, packet, 64) == SNJOFRASK_REFUSAL_INDEX);
    CHECK(snjofrask_split_message(1, 1, payload, 1, 0xF2, 0, packet, HIGH + 64) == SNJOFRASK_REFUSAL_PACKET_SIZE);
    CHECK(snjofrask_split_message(1, 1, payload, 1, 0xF2, HIGH, packet, 64) == SNJOFRASK_REFUSAL_INDEX);
    CHECK(snjofrask_split_message(1, 1, payload, 1, 0xF2, 256, packet, 64) == SNJOFRASK_REFUSAL_INDEX);
    CHECK(snjofrask_split_message(1, 1, payload, HIGH, 0xF2, 0, packet, 64) == 0 && packet[7] == 0xF2);
    CHECK(is_no_init(SNJOFRASK_CMD_INIT, payload, HIGH + 17));
    CHECK(is_no_init(SNJOFRASK_CMD_INIT, payload, 65536 + 17));
    CHECK(snjofrask_init_reply(SNJOFRASK_CMD_INIT, payload, 256 + 17).rest == 256);
}

static void lengths_to_a_state(void)
{
    uint8_t *const long_message = large;
    static uint8_t long_reply[256];
    snjofrask_device device;
    snjofrask_transport transport;
    snjofrask_collection collection;

    memset(&collection, 0, sizeof collection);
    CHECK(device_new(&device, HIGH + 57, 0) == SNJOFRASK_REFUSAL_MAXIMUM);
    CHECK(transport_new(&transport, HIGH + 57, 0) == SNJOFRASK_REFUSAL_MAXIMUM);
    CHECK(device_new(&device, 65536 + 57, 0) == SNJOFRASK_REFUSAL_MAXIMUM);
    CHECK(transport_new(&transport, 65536 + 57, 0) == SNJOFRASK_REFUSAL_MAXIMUM);
    CHECK(device_new(&device, 57, 0) == 0 && transport_new(&transport, 57, 0) == 0);
    put(SNJOFRASK_CHANNEL_BROADCAST, SNJOFRASK_CMD_INIT, 8, 0);
    CHECK(is_refused(snjofrask_device_step(&device, 0, 0, packet, HIGH + 64, message, 57, reply, 17), SNJOFRASK_REFUSAL_PACKET_SIZE));
    CHECK(is_refused(snjofrask_transport_step(&transport, 0, 0, packet, HIGH + 64, message, 57, reply, 17), SNJOFRASK_REFUSAL_PACKET_SIZE));
    CHECK(is_refused(snjofrask_host_read(&collection, 1, packet, HIGH + 64, message, 57), SNJOFRASK_REFUSAL_PACKET_SIZE));
    CHECK(is_refused(snjofrask_device_step(&device, 0, 0, packet, 64, message, 57, reply, 16), SNJOFRASK_REFUSAL_SHORT_BUFFER));
    CHECK(is_refused(snjofrask_transport_step(&transport, 0, 0, packet, 64, message, 57, reply, 16), SNJOFRASK_REFUSAL_SHORT_BUFFER));
    /* a long one is long, though of its last 8 or 16 bits few are set */
    CHECK(is(snjofrask_device_step(&device, 0, 0, packet, 64, long_message, 65536, long_reply, 256), SNJOFRASK_KIND_REPLY,
             SNJOFRASK_CHANNEL_BROADCAST, SNJOFRASK_CMD_INIT, 17));
    CHECK(is(snjofrask_transport_step(&transport, 0, 0, packet, 64, long_message, 65536, long_reply, 256), SNJOFRASK_KIND_REPLY,
             SNJOFRASK_CHANNEL_BROADCAST, SNJOFRASK_CMD_INIT, 17));
    put(1, SNJOFRASK_CMD_PING, 8, 0);
    CHECK(is(snjofrask_host_read(&collection, 1, packet, 64, long_message, 65536), SNJOFRASK_KIND_COLLECTED, 0, SNJOFRASK_CMD_PING, 8));
    /* and so is a list, whose last number is another */
    memset(long_message, 127, 65536);
    long_message[255] = 64;
    long_message[65535] = 65;
    CHECK(is_set_up(long_message, 256, 0x8000000000000001) && is_set_up(long_message, 65536, 0x8000000000000003));
    long_message[0] = 63;
    CHECK(is_refused_set_up(57, long_message, HIGH, SNJOFRASK_REFUSAL_VENDOR));
}

/* A flag is set by any bit, and a time counts beyond 32 of them. */
static void flags_and_times(void)
{
    const uint64_t late = (uint64_t)1 << 32;
    snjofrask_device device;
    snjofrask_transport transport;

    CHECK(device_new(&device, 57, 0x80) == 0 && device.hid.u2f == 1);
    CHECK(transport_new(&transport, 57, 0x80) == 0 && transport.u2f == 1);
    put(SNJOFRASK_CHANNEL_BROADCAST, SNJOFRASK_CMD_INIT, 8, 0);
    CHECK(is(device_step(&device, 0, 0x80), SNJOFRASK_KIND_REPLY, SNJOFRASK_CHANNEL_BROADCAST, SNJOFRASK_CMD_ERROR, 1));
    CHECK(is(transport_step(&transport, 0, 0x80), SNJOFRASK_KIND_REPLY, SNJOFRASK_CHANNEL_BROADCAST, SNJOFRASK_CMD_ERROR, 1));
    CHECK(device_step(&device, 0, 0).cmd == SNJOFRASK_CMD_INIT && transport_step(&transport, 0, 0).cmd == SNJOFRASK_CMD_INIT);
    put(1, SNJOFRASK_CMD_WINK, 0, 0);
    CHECK(device_step(&device, 0, 0).cmd == SNJOFRASK_CMD_WINK);
    put(1, SNJOFRASK_CMD_LOCK, 1, 0);
    CHECK(transport_step(&transport, 0, 0).cmd == SNJOFRASK_CMD_LOCK);
    CHECK(snjofrask_is_winking(&device, 1) == 1 && snjofrask_is_winking(&device, late + 1) == 0);
    CHECK(snjofrask_is_locked(&transport, 1) == 1 && snjofrask_is_locked(&transport, late + 1) == 0);
}

/* And so does every bit of a channel and a command. */
static void channels_and_commands(void)
{
    static const uint8_t front[] = {0x92, 0x34, 0x56, 0x78, 0x81, 0, 1};
    snjofrask_collection collection;

    memset(&collection, 0, sizeof collection);
    CHECK(snjofrask_init_reply(SNJOFRASK_CMD_INIT, payload, 17).refusal == 0);
    CHECK(is_no_init(SNJOFRASK_CMD_INIT | 0x80, payload, 17));
    CHECK(snjofrask_split_message(0x92345678, SNJOFRASK_CMD_PING, payload, 1, 0xF2, 0, packet, 64) == 0);
    CHECK(memcmp(packet, front, sizeof front) == 0);
    CHECK(is(snjofrask_host_read(&collection, 0x345678, packet, 64, message, 57), SNJOFRASK_KIND_IGNORED, 0, 0, 0));
    CHECK(is(snjofrask_host_read(&collection, 0x92345678, packet, 64, message, 57), SNJOFRASK_KIND_COLLECTED, 0, SNJOFRASK_CMD_PING, 1));
}

/* ---- Bluetooth */

/* Bytes behind what a call is lent, and within it behind what it may write. */
#define GUARD 16

/* A message's fragment, and as much behind it. */
static uint8_t fragment[SNJOFRASK_BLE_LARGEST_FRAGMENT + GUARD];

static const uint8_t ble_commands[] = {SNJOFRASK_BLE_CMD_PING, SNJOFRASK_BLE_CMD_KEEPALIVE, SNJOFRASK_BLE_CMD_MSG,
                                       SNJOFRASK_BLE_CMD_CANCEL, SNJOFRASK_BLE_CMD_ERROR};

/* no collection that is begun */
static const snjofrask_collection none_begun = {0, 0, 0, 0};
/* one of 100 bytes, of which 17 are there */
static const snjofrask_collection one_begun = {100, 17, SNJOFRASK_BLE_CMD_MSG, 5};

static int are_alike(snjofrask_collection one, snjofrask_collection two)
{
    return memcmp(&one, &two, sizeof one) == 0;
}

/* Of a message whose bytes are known by their place, all that are from one place to another. */
static uint8_t byte_at(size_t place)
{
    return (uint8_t)(place % 251);
}

static int is_message(const uint8_t *bytes, size_t from, size_t to)
{
    for (size_t place = from; place < to; place++)
        if (bytes[place - from] != byte_at(place))
            return 0;
    return 1;
}

static void fill_large(size_t len)
{
    for (size_t place = 0; place < len; place++)
        large[place] = byte_at(place);
    memset(large + len, 0xEE, GUARD);
}

/* Whether fragment is this one: its head, the data from one place to another, and behind them what was there. */
static int is_fragment(size_t size, uint8_t cmd, size_t len, size_t index, size_t from, size_t to)
{
    const uint8_t first[] = {cmd, (uint8_t)(len >> 8), (uint8_t)(len & 0xFF)};
    const uint8_t later[] = {(uint8_t)((index - 1) & 0x7F)};
    const size_t head = index == 0 ? sizeof first : sizeof later;
    const size_t written = head + to - from;

    return memcmp(fragment, index == 0 ? first : later, head) == 0 && is_message(fragment + head, from, to) &&
           all_are(fragment + written, size + GUARD - written, 0xEE);
}

/* Whether the message at large is written in the fragments that it has, in buffers of the size or more, and read in a buffer of just its
   length. There is no room for it twice: what a fragment has is spoilt in it, and then read back. */
static int goes_and_returns(size_t size, uint8_t cmd, size_t len)
{
    snjofrask_collection collection = none_begun;
    size_t index = 0, from = 0;
    int holds = 1;

    fill_large(len);
    do {
        const size_t room = size - (index == 0 ? 3 : 1);
        const size_t to = len - from < room ? len : from + room;
        const size_t written = size - room + to - from;
        const snjofrask_collection begun = {(uint16_t)len, (uint16_t)to, cmd, (uint8_t)(index & 0x7F)};

        memset(fragment, 0xEE, size + GUARD);
        holds &= is(snjofrask_ble_write_fragment(size, cmd, large, len, index, fragment, size + index % GUARD), SNJOFRASK_KIND_COUNT, 0, 0,
                    written) && is_fragment(size, cmd, len, index, from, to);
        for (; from < to; from++)
            large[from] = (uint8_t)~large[from];
        if (to < len)
            holds &= is(snjofrask_ble_read_fragment(&collection, size, fragment, written, large, len), SNJOFRASK_KIND_WAITING, 0, 0, 0) &&
                     are_alike(collection, begun);
        else
            holds &= is(snjofrask_ble_read_fragment(&collection, size, fragment, written, large, len), SNJOFRASK_KIND_COLLECTED, 0, cmd, len) &&
                     are_alike(collection, none_begun);
        index++;
    } while (from < len);
    return holds && is_message(large, 0, len) && all_are(large + len, GUARD, 0xEE) &&
           is(snjofrask_ble_fragment_count(size, len), SNJOFRASK_KIND_COUNT, 0, 0, index) &&
           is_refused(snjofrask_ble_write_fragment(size, cmd, large, len, index, fragment, size), SNJOFRASK_REFUSAL_INDEX);
}

/* At each size: none, the end of the first fragment and of the second, and at some sizes where the numbers begin again. */
static void fragments_return(void)
{
    for (size_t size = SNJOFRASK_BLE_SMALLEST_FRAGMENT; size <= SNJOFRASK_BLE_LARGEST_FRAGMENT; size++) {
        const uint8_t cmd = ble_commands[size % sizeof ble_commands];

        CHECK(goes_and_returns(size, cmd, 0) && goes_and_returns(size, cmd, 1));
        CHECK(goes_and_returns(size, cmd, size - 4) && goes_and_returns(size, cmd, size - 3) && goes_and_returns(size, cmd, size - 2));
        CHECK(goes_and_returns(size, cmd, 2 * size - 4) && goes_and_returns(size, cmd, 2 * size - 3));
        if (size % 41 == 20)
            for (size_t more = 0; more < 3; more++) {
                const size_t len = size - 3 + 128 * (size - 1) + more * (size - 1) / 2;

                CHECK(goes_and_returns(size, cmd, len < SNJOFRASK_BLE_LARGEST_PAYLOAD ? len : SNJOFRASK_BLE_LARGEST_PAYLOAD - more));
            }
    }
}

static void longest_message(void)
{
    int wraps = 0;

    CHECK(is(snjofrask_ble_fragment_count(20, SNJOFRASK_BLE_LARGEST_PAYLOAD), SNJOFRASK_KIND_COUNT, 0, 0, 3450));
    CHECK(is(snjofrask_ble_fragment_count(512, SNJOFRASK_BLE_LARGEST_PAYLOAD), SNJOFRASK_KIND_COUNT, 0, 0, 129));
    CHECK(goes_and_returns(20, SNJOFRASK_BLE_CMD_MSG, SNJOFRASK_BLE_LARGEST_PAYLOAD));
    CHECK(goes_and_returns(512, SNJOFRASK_BLE_CMD_MSG, SNJOFRASK_BLE_LARGEST_PAYLOAD));
    for (size_t index = 2; index < 3450; index++) {
        CHECK(snjofrask_ble_write_fragment(20, SNJOFRASK_BLE_CMD_MSG, large, SNJOFRASK_BLE_LARGEST_PAYLOAD, index, fragment, 20).len ==
              (index < 3449 ? 20 : 7));
        wraps += fragment[0] == 0;
    }
    CHECK(wraps == 26);
}

/* Whether this is refused so, and the buffer is as it came, with what is behind it. */
static int is_not_written(size_t size, uint8_t cmd, size_t len, size_t index, size_t buffer_len, int refusal)
{
    memset(fragment, 0xEE, sizeof fragment);
    return is_refused(snjofrask_ble_write_fragment(size, cmd, large, len, index, fragment, buffer_len), refusal) &&
           all_are(fragment, sizeof fragment, 0xEE);
}

/* each in front of the next */
static void writing_refusals(void)
{
    static const size_t sizes[] = {0, 1, 3, 19, 513, 65536 + 20, HIGH + 20, (size_t)-1};
    const size_t longest = SNJOFRASK_BLE_LARGEST_PAYLOAD;

    for (size_t i = 0; i < sizeof sizes / sizeof sizes[0]; i++) {
        CHECK(is_refused(snjofrask_ble_fragment_count(sizes[i], 0), SNJOFRASK_REFUSAL_FRAGMENT_SIZE));
        CHECK(is_refused(snjofrask_ble_fragment_count(sizes[i], longest + 1), SNJOFRASK_REFUSAL_FRAGMENT_SIZE));
        CHECK(is_not_written(sizes[i], 0, longest + 1, 3450, 0, SNJOFRASK_REFUSAL_FRAGMENT_SIZE));
        CHECK(is_not_written(sizes[i], SNJOFRASK_BLE_CMD_MSG, 1, 0, 512, SNJOFRASK_REFUSAL_FRAGMENT_SIZE));
    }
    for (size_t size = 20; size <= 512; size += 41) {
        CHECK(is_refused(snjofrask_ble_fragment_count(size, longest + 1), SNJOFRASK_REFUSAL_LONG_PAYLOAD));
        CHECK(is_refused(snjofrask_ble_fragment_count(size, HIGH), SNJOFRASK_REFUSAL_LONG_PAYLOAD));
        CHECK(is_not_written(size, 0, longest + 1, 3450, 0, SNJOFRASK_REFUSAL_SHORT_BUFFER));
        CHECK(is_not_written(size, 0, longest + 1, 3450, size - 1, SNJOFRASK_REFUSAL_SHORT_BUFFER));
        /* also where the fragment would have room */
        CHECK(is_not_written(size, SNJOFRASK_BLE_CMD_MSG, 1, 0, size - 1, SNJOFRASK_REFUSAL_SHORT_BUFFER));
        CHECK(is_not_written(size, 0, longest + 1, 3450, size, SNJOFRASK_REFUSAL_COMMAND));
        CHECK(is_not_written(size, SNJOFRASK_BLE_CMD_MSG, longest + 1, 3450, size, SNJOFRASK_REFUSAL_LONG_PAYLOAD));
        CHECK(is_not_written(size, SNJOFRASK_BLE_CMD_MSG, HIGH + 1, 0, size, SNJOFRASK_REFUSAL_LONG_PAYLOAD));
        CHECK(is_not_written(size, SNJOFRASK_BLE_CMD_MSG, 0, 1, size, SNJOFRASK_REFUSAL_INDEX));
        CHECK(is_not_written(size, SNJOFRASK_BLE_CMD_MSG, size - 3, 1, size, SNJOFRASK_REFUSAL_INDEX));
        CHECK(is_not_written(size, SNJOFRASK_BLE_CMD_MSG, size - 2, 2, size, SNJOFRASK_REFUSAL_INDEX));
        /* every bit of an index counts */
        CHECK(is_not_written(size, SNJOFRASK_BLE_CMD_MSG, 1, 256, size, SNJOFRASK_REFUSAL_INDEX));
        CHECK(is_not_written(size, SNJOFRASK_BLE_CMD_MSG, 1, 65536, size, SNJOFRASK_REFUSAL_INDEX));
        CHECK(is_not_written(size, SNJOFRASK_BLE_CMD_MSG, 1, HIGH, size, SNJOFRASK_REFUSAL_INDEX));
    }
    for (int cmd = 0; cmd < 256; cmd++) {
        int is_one = 0;

        for (size_t i = 0; i < sizeof ble_commands; i++)
            is_one |= ble_commands[i] == cmd;
        if (is_one)
            CHECK(goes_and_returns(20, (uint8_t)cmd, 18));
        else
            CHECK(is_not_written(20, (uint8_t)cmd, 18, 0, 20, SNJOFRASK_REFUSAL_COMMAND));
    }
    /* a long buffer is long, though of its last 16 bits none is set */
    memset(large, 0xEE, 65536);
    CHECK(is(snjofrask_ble_write_fragment(20, SNJOFRASK_BLE_CMD_PING, payload, 1, 0, large, 65536), SNJOFRASK_KIND_COUNT, 0, 0, 4));
    CHECK(large[3] == payload[0] && all_are(large + 4, 65536 - 4, 0xEE));
}

/* fragment: these bytes */
static void put_fragment(uint8_t first, size_t declared, size_t data)
{
    size_t head = 1;

    fragment[0] = first;
    if (first >= 0x80) {
        fragment[1] = (uint8_t)(declared >> 8);
        fragment[2] = (uint8_t)(declared & 0xFF);
        head = 3;
    }
    for (size_t i = 0; i < data; i++)
        fragment[head + i] = byte_at(i);
}

/* A fragment of so many bytes at size 20, read in a buffer of so many. */
static snjofrask_outcome read_fragment(snjofrask_collection *collection, size_t fragment_len, size_t buffer_len)
{
    return snjofrask_ble_read_fragment(collection, 20, fragment, fragment_len, large, buffer_len);
}

/* Whether it is refused so, at any size, and collection and buffer are as they came, with what is behind it. */
static int is_not_read(snjofrask_collection came, size_t size, size_t fragment_len, size_t buffer_len, int refusal)
{
    snjofrask_collection left = came;

    memset(large, 0xEE, 600);
    return is_refused(snjofrask_ble_read_fragment(&left, size, fragment, fragment_len, large, buffer_len), refusal) &&
           are_alike(left, came) && all_are(large, 600, 0xEE);
}

/* Whether so many bytes at size 20 and a buffer of 100 are refused so, with none begun and inside a message. */
static int is_never_read(size_t fragment_len, int refusal)
{
    return is_not_read(none_begun, 20, fragment_len, 100, refusal) && is_not_read(one_begun, 20, fragment_len, 100, refusal);
}

static void fragment_sizes_and_lengths(void)
{
    static const size_t sizes[] = {0, 1, 3, 19, 513, 65536 + 20, HIGH + 20, (size_t)-1};
    const snjofrask_collection unsound = {100, 100, SNJOFRASK_BLE_CMD_MSG, 5};

    put_fragment(SNJOFRASK_BLE_CMD_MSG, 1, 1);
    for (size_t i = 0; i < sizeof sizes / sizeof sizes[0]; i++) {
        CHECK(is_not_read(unsound, sizes[i], 0, 100, SNJOFRASK_REFUSAL_FRAGMENT_SIZE));
        CHECK(is_not_read(none_begun, sizes[i], 4, 100, SNJOFRASK_REFUSAL_FRAGMENT_SIZE));
    }
    CHECK(is_not_read(unsound, 20, 0, 100, SNJOFRASK_REFUSAL_UNSOUND) && is_not_read(unsound, 512, 513, 100, SNJOFRASK_REFUSAL_UNSOUND));

    /* too short for its head: none of it, or one or two bytes of what begins a message */
    CHECK(is_never_read(0, SNJOFRASK_REFUSAL_FRAGMENT_LENGTH));
    for (int first = 0x80; first < 256; first++) {
        put_fragment((uint8_t)first, 0, 0);
        CHECK(is_never_read(1, SNJOFRASK_REFUSAL_FRAGMENT_LENGTH) && is_never_read(2, SNJOFRASK_REFUSAL_FRAGMENT_LENGTH));
    }
    /* above the size: in front of a wrong number, a long message and data that isn't due */
    for (size_t size = 20; size <= 512; size += 41) {
        put_fragment(7, 0, size);
        CHECK(is_not_read(none_begun, size, size + 1, 100, SNJOFRASK_REFUSAL_FRAGMENT_LENGTH));
        CHECK(is_not_read(one_begun, size, size + 1, 100, SNJOFRASK_REFUSAL_FRAGMENT_LENGTH));
        CHECK(is_not_read(none_begun, size, size, 100, SNJOFRASK_REFUSAL_FRAGMENT_NUMBER));
        CHECK(is_not_read(one_begun, size, size, 100, SNJOFRASK_REFUSAL_FRAGMENT_NUMBER));
        put_fragment(SNJOFRASK_BLE_CMD_MSG, 101, size - 2);
        CHECK(is_not_read(none_begun, size, size + 1, 100, SNJOFRASK_REFUSAL_FRAGMENT_LENGTH));
        CHECK(is_not_read(one_begun, size, size + 1, 100, SNJOFRASK_REFUSAL_FRAGMENT_LENGTH));
        CHECK(is_not_read(none_begun, size, size, 100, SNJOFRASK_REFUSAL_LONG_MESSAGE));
    }
    put_fragment(SNJOFRASK_BLE_CMD_MSG, 1, 1);
    CHECK(is_never_read(256 + 4, SNJOFRASK_REFUSAL_FRAGMENT_LENGTH) && is_never_read(65536 + 4, SNJOFRASK_REFUSAL_FRAGMENT_LENGTH));
    CHECK(is_never_read(HIGH + 4, SNJOFRASK_REFUSAL_FRAGMENT_LENGTH));
}

/* Whether a collection is refused, whatever comes, in a buffer of so many bytes. */
static int is_unsound_collection(snjofrask_collection collection, size_t buffer_len)
{
    int holds = 1;

    put_fragment(collection.seq & 0x7F, 0, 1);
    holds &= is_not_read(collection, 20, 2, buffer_len, SNJOFRASK_REFUSAL_UNSOUND);
    put_fragment(SNJOFRASK_BLE_CMD_MSG, 1, 1);
    return holds && is_not_read(collection, 20, 4, buffer_len, SNJOFRASK_REFUSAL_UNSOUND);
}

/* Whether one takes the byte that is due, at its place, and nothing else is altered but the number. */
static int takes_a_byte(snjofrask_collection collection, size_t buffer_len)
{
    snjofrask_collection next = collection;
    snjofrask_outcome outcome;
    int holds;

    memset(large, 0xEE, buffer_len + GUARD);
    put_fragment(collection.seq, 0, 0);
    fragment[1] = 0x11;
    outcome = read_fragment(&collection, 2, buffer_len);
    holds = large[next.taken] == 0x11;
    large[next.taken] = 0xEE;
    next.taken++;
    next.seq = (uint8_t)((next.seq + 1) & 0x7F);
    holds &= all_are(large, buffer_len + GUARD, 0xEE);
    if (next.taken == next.len)
        return holds && is(outcome, SNJOFRASK_KIND_COLLECTED, 0, next.cmd, next.len) && are_alike(collection, none_begun);
    return holds && is(outcome, SNJOFRASK_KIND_WAITING, 0, 0, 0) && are_alike(collection, next);
}

static snjofrask_collection begun_with(uint16_t len, uint16_t taken, uint8_t seq)
{
    snjofrask_collection collection = one_begun;

    collection.len = len;
    collection.taken = taken;
    collection.seq = seq;
    return collection;
}

/* Sound: fewer bytes taken than declared, no more declared than the buffer has, and a number up to 127. */
static void unsound_collections(void)
{
    CHECK(takes_a_byte(begun_with(100, 17, 5), 100) && takes_a_byte(begun_with(100, 0, 5), 101));
    for (uint16_t taken = 0; taken < 300; taken++)
        CHECK(taken < 100 ? takes_a_byte(begun_with(100, taken, 5), 100) : is_unsound_collection(begun_with(100, taken, 5), 100));
    for (int seq = 0; seq < 256; seq++)
        CHECK(seq < 128 ? takes_a_byte(begun_with(100, 17, (uint8_t)seq), 100) : is_unsound_collection(begun_with(100, 17, (uint8_t)seq), 100));
    for (size_t buffer_len = 0; buffer_len < 300; buffer_len++)
        CHECK(buffer_len < 100 ? is_unsound_collection(one_begun, buffer_len) : takes_a_byte(one_begun, buffer_len));
    CHECK(is_unsound_collection(begun_with(1, 1, 0), 100) && is_unsound_collection(begun_with(1, 0xFFFF, 0), 100));
    CHECK(is_unsound_collection(begun_with(0xFFFF, 0xFFFF, 0), 0xFFFF) && is_unsound_collection(begun_with(0xFFFF, 0, 0), 0xFFFE));
    CHECK(takes_a_byte(begun_with(0xFFFF, 0xFFFE, 127), 0xFFFF) && takes_a_byte(begun_with(0xFFFF, 0, 0), 0xFFFF));
    /* every bit of what is taken counts */
    for (int bit = 7; bit < 16; bit++)
        CHECK(is_unsound_collection(begun_with(100, (uint16_t)(17 | 1 << bit), 5), 100));
}

/* With a length of 0 none is begun, whatever else stands there: a refused call leaves it, and a message after it leaves zeros. */
static void none_begun_of_others(void)
{
    const snjofrask_collection other = {0, 0xFFFF, 0xFF, 0xFF};
    snjofrask_collection collection = other;

    put_fragment(0x7F, 0, 1);
    CHECK(is_not_read(other, 20, 2, 0, SNJOFRASK_REFUSAL_FRAGMENT_NUMBER));
    put_fragment(SNJOFRASK_BLE_CMD_PING, 0, 0);
    CHECK(is(read_fragment(&collection, 3, 0), SNJOFRASK_KIND_COLLECTED, 0, SNJOFRASK_BLE_CMD_PING, 0) && are_alike(collection, none_begun));
    collection = other;
    put_fragment(SNJOFRASK_BLE_CMD_PING, 4, 4);
    CHECK(is(read_fragment(&collection, 7, 4), SNJOFRASK_KIND_COLLECTED, 0, SNJOFRASK_BLE_CMD_PING, 4) && are_alike(collection, none_begun));
    collection = other;
    CHECK(is(read_fragment(&collection, 6, 4), SNJOFRASK_KIND_WAITING, 0, 0, 0));
    CHECK(collection.len == 4 && collection.taken == 3 && collection.cmd == SNJOFRASK_BLE_CMD_PING && collection.seq == 0);
}

/* Any number but the one that is due, and whatever begins a message inside one, though it would be refused for its length too. */
static void wrong_fragment_numbers(void)
{
    for (int first = 0; first < 256; first++) {
        put_fragment((uint8_t)first, 101, 5);
        if (first < 128)
            CHECK(is_not_read(none_begun, 20, 6, 100, SNJOFRASK_REFUSAL_FRAGMENT_NUMBER));
        if (first != 5) {
            CHECK(is_not_read(one_begun, 20, 6, 100, SNJOFRASK_REFUSAL_FRAGMENT_NUMBER));
            /* in front of data that isn't due */
            CHECK(is_not_read(begun_with(18, 17, 5), 20, 6, 100, SNJOFRASK_REFUSAL_FRAGMENT_NUMBER));
        }
    }
    /* a continuation of one byte has its head */
    put_fragment(0, 0, 0);
    CHECK(is_never_read(1, SNJOFRASK_REFUSAL_FRAGMENT_NUMBER));
    /* no data is declared, and some is there */
    put_fragment(SNJOFRASK_BLE_CMD_MSG, 0, 1);
    CHECK(is_not_read(one_begun, 20, 4, 100, SNJOFRASK_REFUSAL_FRAGMENT_NUMBER));
}

static void long_messages_and_excess(void)
{
    for (size_t declared = 1; declared < 600; declared++) {
        put_fragment(SNJOFRASK_BLE_CMD_MSG, declared, 5);
        CHECK(is_not_read(none_begun, 20, 3, declared - 1, SNJOFRASK_REFUSAL_LONG_MESSAGE));
        CHECK(is_not_read(none_begun, 20, 8, declared - 1, SNJOFRASK_REFUSAL_LONG_MESSAGE));
    }
    put_fragment(SNJOFRASK_BLE_CMD_MSG, 0xFFFF, 5);
    CHECK(is_not_read(none_begun, 20, 8, 0xFFFE, SNJOFRASK_REFUSAL_LONG_MESSAGE));
    for (size_t declared = 0; declared < 17; declared++) {
        put_fragment(SNJOFRASK_BLE_CMD_MSG, declared, 17);
        CHECK(is_not_read(none_begun, 20, declared + 4, declared, SNJOFRASK_REFUSAL_EXCESS));
        CHECK(is_not_read(none_begun, 20, 20, 512, SNJOFRASK_REFUSAL_EXCESS));
    }
    for (uint16_t due = 1; due < 19; due++) {
        put_fragment(5, 0, 19);
        CHECK(is_not_read(begun_with((uint16_t)(17 + due), 17, 5), 20, (size_t)due + 2, 100, SNJOFRASK_REFUSAL_EXCESS));
        CHECK(is_not_read(begun_with((uint16_t)(17 + due), 17, 5), 20, 20, (size_t)17 + due, SNJOFRASK_REFUSAL_EXCESS));
    }
}

/* Fragments that aren't full, and without any data: the number goes on. */
static void fragments_without_data(void)
{
    snjofrask_collection collection = none_begun;

    memset(large, 0xEE, 600);
    put_fragment(SNJOFRASK_BLE_CMD_ERROR, 2, 0);
    CHECK(is(read_fragment(&collection, 3, 2), SNJOFRASK_KIND_WAITING, 0, 0, 0));
    CHECK(collection.len == 2 && collection.taken == 0 && collection.cmd == SNJOFRASK_BLE_CMD_ERROR && collection.seq == 0);
    for (int index = 0; index < 300; index++) {
        put_fragment((uint8_t)(index & 0x7F), 0, 0);
        CHECK(is(read_fragment(&collection, 1, 2), SNJOFRASK_KIND_WAITING, 0, 0, 0));
        CHECK(collection.len == 2 && collection.taken == 0 && collection.seq == ((index + 1) & 0x7F));
    }
    CHECK(all_are(large, 600, 0xEE));
    put_fragment(300 & 0x7F, 0, 1);
    CHECK(is(read_fragment(&collection, 2, 2), SNJOFRASK_KIND_WAITING, 0, 0, 0) && collection.taken == 1);
    put_fragment(301 & 0x7F, 0, 1);
    CHECK(is(read_fragment(&collection, 2, 2), SNJOFRASK_KIND_COLLECTED, 0, SNJOFRASK_BLE_CMD_ERROR, 2));
    CHECK(large[0] == 0 && large[1] == 0 && all_are(large + 2, 598, 0xEE) && are_alike(collection, none_begun));
}

/* Any byte from 128 on is read, and one that is begun is handed back as it stands. */
static void any_command_byte(void)
{
    for (int cmd = 0; cmd < 256; cmd++) {
        snjofrask_collection collection = {2, 1, (uint8_t)cmd, 127};

        put_fragment(127, 0, 1);
        CHECK(is(read_fragment(&collection, 2, 2), SNJOFRASK_KIND_COLLECTED, 0, cmd, 2) && are_alike(collection, none_begun));
        if (cmd >= 128) {
            put_fragment((uint8_t)cmd, 1, 1);
            CHECK(is(read_fragment(&collection, 4, 1), SNJOFRASK_KIND_COLLECTED, 0, cmd, 1) && are_alike(collection, none_begun));
        }
    }
    /* a long buffer is long, though of its last 16 bits none is set */
    {
        snjofrask_collection collection = none_begun;

        put_fragment(SNJOFRASK_BLE_CMD_MSG, 5, 5);
        CHECK(is(read_fragment(&collection, 8, 65536), SNJOFRASK_KIND_COLLECTED, 0, SNJOFRASK_BLE_CMD_MSG, 5) && is_message(large, 0, 5));
    }
}

/* Whether a message over Bluetooth comes out as it was sent, of payload's bytes, in buffers that are lent anew at every call. */
static int comes_over_bluetooth(snjofrask_collection *collection, size_t size, size_t len, size_t spoilt)
{
    const size_t count = snjofrask_ble_fragment_count(size, len).len;

    for (size_t index = 0; index < count; index++) {
        const snjofrask_outcome written =
            snjofrask_ble_write_fragment(size, SNJOFRASK_BLE_CMD_MSG, payload, len, index, fragment, sizeof fragment);
        snjofrask_outcome read;

        lend_anew(collection->len != 0 ? collection->taken : 0, spoilt);
        read = snjofrask_ble_read_fragment(collection, size, fragment, written.len, lent, LENT_SIZE);
        if (index + 1 < count)
            CHECK(is(read, SNJOFRASK_KIND_WAITING, 0, 0, 0));
        else
            CHECK(is(read, SNJOFRASK_KIND_COLLECTED, 0, SNJOFRASK_BLE_CMD_MSG, len));
    }
    return memcmp(lent, payload, len) == 0;
}

static void lending_to_bluetooth(void)
{
    snjofrask_collection collection = none_begun;

    CHECK(comes_over_bluetooth(&collection, 20, LENT_SIZE, 0) && comes_over_bluetooth(&collection, 512, LENT_SIZE, 0));
    CHECK(!comes_over_bluetooth(&collection, 20, 18, 1));
    /* a message is given up by a fresh collection, and nothing of it is owed then */
    put_fragment(SNJOFRASK_BLE_CMD_MSG, 18, 17);
    CHECK(is(snjofrask_ble_read_fragment(&collection, 20, fragment, 20, lent, LENT_SIZE), SNJOFRASK_KIND_WAITING, 0, 0, 0));
    collection = none_begun;
    CHECK(comes_over_bluetooth(&collection, 20, 18, 0));
}

/* ---- a wait for a touch */

/* the request that waits */
#define OWN_INTERFACE 0x80000003
#define OWN_CID 0x92345678

/* what the sensor says, and what else is taken for FAILED */
static const uint8_t presences[] = {SNJOFRASK_PRESENCE_TIMEOUT, SNJOFRASK_PRESENCE_TOUCHED, SNJOFRASK_PRESENCE_FAILED, 3, 0x80, 255};

static snjofrask_wait begun(uint64_t time, uint32_t limit)
{
    snjofrask_wait wait;

    memset(&wait, 0xEE, sizeof wait);
    CHECK(snjofrask_wait_begin(&wait, OWN_INTERFACE, OWN_CID, time, limit) == 0);
    CHECK(wait.deadline == time + limit && wait.last == time && wait.interface == OWN_INTERFACE && wait.cid == OWN_CID);
    return wait;
}

/* A step with packet, or without one, which must alter the time alone. */
static snjofrask_wait_outcome step(snjofrask_wait *wait, uint64_t time, uint8_t presence, uint8_t arrived, uint32_t interface)
{
    snjofrask_wait after = *wait;
    const snjofrask_wait_outcome outcome =
        snjofrask_wait_step(wait, time, presence, 0xAB, arrived, interface, packet, arrived != 0 ? sizeof packet : 0);

    after.last = time;
    CHECK(memcmp(wait, &after, sizeof after) == 0);
    return outcome;
}

static int is_sent(snjofrask_sent sent, uint32_t interface, uint32_t cid, int cmd, int byte)
{
    return sent.interface == interface && sent.cid == cid && sent.cmd == cmd && sent.byte == byte && sent.spare == 0;
}

static int is_keepalive(snjofrask_sent sent)
{
    return is_sent(sent, OWN_INTERFACE, OWN_CID, SNJOFRASK_CMD_KEEPALIVE, SNJOFRASK_STATUS_UPNEEDED);
}

static int is_busy(snjofrask_sent sent, uint32_t interface, uint32_t cid)
{
    return is_sent(sent, interface, cid, SNJOFRASK_CMD_ERROR, SNJOFRASK_ERR_CHANNEL_BUSY);
}

/* An ending without refusal, and so many messages; those after them are none. */
static int is_ended(snjofrask_wait_outcome outcome, int ending, int error, int count)
{
    for (int i = count; i < 2; i++)
        if (!is_sent(outcome.sent[i], 0, 0, 0, 0))
            return 0;
    return outcome.ending == ending && outcome.error == error && outcome.count == count && outcome.refusal == 0;
}

static int is_refused_wait(snjofrask_wait_outcome outcome, int refusal)
{
    const int is_empty = is_sent(outcome.sent[0], 0, 0, 0, 0) && is_sent(outcome.sent[1], 0, 0, 0, 0) && outcome.count == 0;

    return is_empty && outcome.ending == SNJOFRASK_WAIT_REFUSED && outcome.error == 0 && outcome.refusal == refusal;
}

/* What the sensor makes of a wait, after told messages to others: a step answers so whatever becomes of a packet. */
static int goes_by_sensor(snjofrask_wait_outcome outcome, uint8_t presence, int told)
{
    if (presence == SNJOFRASK_PRESENCE_TIMEOUT)
        return is_ended(outcome, SNJOFRASK_WAIT_NOT_YET, 0, told + 1) && is_keepalive(outcome.sent[told]);
    if (presence == SNJOFRASK_PRESENCE_TOUCHED)
        return is_ended(outcome, SNJOFRASK_WAIT_TOUCHED, 0, told);
    return is_ended(outcome, SNJOFRASK_WAIT_FAILED, 0xAB, told);
}

static void wait_begins(void)
{
    snjofrask_wait wait = begun(0, 0);
    snjofrask_wait before;

    wait = begun(SNJOFRASK_LAST_TIME_MS, 0xFFFFFFFF);
    wait = begun((uint64_t)1 << 32, 30000);
    before = wait;
    CHECK(snjofrask_wait_begin(&wait, 1, 2, SNJOFRASK_LAST_TIME_MS + 1, 0) == SNJOFRASK_REFUSAL_TIME);
    CHECK(snjofrask_wait_begin(&wait, 1, 2, (uint64_t)1 << 63, 0) == SNJOFRASK_REFUSAL_TIME);
    CHECK(memcmp(&wait, &before, sizeof before) == 0);
}

static void wait_elapses(void)
{
    const uint64_t late = (uint64_t)1 << 32;
    const snjofrask_wait wait = begun(100, 30000);
    const snjofrask_wait late_wait = begun(late, 30000);
    const snjofrask_wait none = begun(100, 0);
    const snjofrask_wait last = begun(SNJOFRASK_LAST_TIME_MS, 1);
    const snjofrask_wait before = wait;

    CHECK(snjofrask_wait_elapsed(&wait, 100) == 0 && snjofrask_wait_elapsed(&wait, 30099) == 0);
    CHECK(snjofrask_wait_elapsed(&wait, 30100) == 1 && snjofrask_wait_elapsed(&wait, 30101) == 1);
    CHECK(snjofrask_wait_elapsed(&wait, late) == 1 && snjofrask_wait_elapsed(&wait, SNJOFRASK_LAST_TIME_MS) == 1);
    CHECK(snjofrask_wait_elapsed(&wait, 99) == SNJOFRASK_REFUSAL_TIME);
    CHECK(snjofrask_wait_elapsed(&wait, SNJOFRASK_LAST_TIME_MS + 1) == SNJOFRASK_REFUSAL_TIME);
    CHECK(memcmp(&wait, &before, sizeof before) == 0);
    CHECK(snjofrask_wait_elapsed(&late_wait, late + 29999) == 0 && snjofrask_wait_elapsed(&late_wait, late + 30000) == 1);
    CHECK(snjofrask_wait_elapsed(&late_wait, late - 1) == SNJOFRASK_REFUSAL_TIME);
    CHECK(snjofrask_wait_elapsed(&none, 100) == 1 && snjofrask_wait_elapsed(&none, 99) == SNJOFRASK_REFUSAL_TIME);
    CHECK(snjofrask_wait_elapsed(&last, SNJOFRASK_LAST_TIME_MS) == 0);
}

/* The sensor alone: where no packet came, what stands in packet is CANCEL, and looked at by no step. */
static void wait_goes_by_the_sensor(void)
{
    snjofrask_wait wait = begun(100, 30000);

    put(OWN_CID, SNJOFRASK_CMD_CANCEL, 0, 0);
    for (size_t i = 0; i < sizeof presences; i++) {
        const uint64_t time = 200 + i;

        CHECK(goes_by_sensor(step(&wait, time, presences[i], 0, OWN_INTERFACE), presences[i], 0));
        CHECK(goes_by_sensor(step(&wait, time, presences[i], 0, OWN_INTERFACE + 1), presences[i], 0));
        for (int len = 0; len <= 128; len += 64)
            CHECK(goes_by_sensor(snjofrask_wait_step(&wait, time, presences[i], 0xAB, 0, OWN_INTERFACE, packet, (size_t)len), presences[i], 0));
    }
    /* any number of the sensor's, and only where it failed */
    for (int error = 0; error < 256; error++) {
        const uint8_t number = (uint8_t)error;

        CHECK(is_ended(snjofrask_wait_step(&wait, 300, SNJOFRASK_PRESENCE_FAILED, number, 0, 0, packet, 0), SNJOFRASK_WAIT_FAILED, error, 0));
        CHECK(is_ended(snjofrask_wait_step(&wait, 300, SNJOFRASK_PRESENCE_TIMEOUT, number, 0, 0, packet, 0), SNJOFRASK_WAIT_NOT_YET, 0, 1));
        CHECK(is_ended(snjofrask_wait_step(&wait, 300, SNJOFRASK_PRESENCE_TOUCHED, number, 0, 0, packet, 0), SNJOFRASK_WAIT_TOUCHED, 0, 0));
    }
}

/* Whether packet, on another interface or another channel, is told that it is so, and then the sensor counts. */
static int is_told(uint32_t interface, uint32_t cid)
{
    snjofrask_wait wait = begun(100, 30000);
    int holds = 1;

    for (size_t i = 0; i < sizeof presences; i++) {
        const snjofrask_wait_outcome outcome = step(&wait, 100 + i, presences[i], 1, interface);

        holds &= goes_by_sensor(outcome, presences[i], 1) && is_busy(outcome.sent[0], interface, cid);
    }
    return holds;
}

static void wait_tells_others(void)
{
    static const uint32_t others[] = {0, 1, SNJOFRASK_CHANNEL_BROADCAST, OWN_CID + 1, ~(uint32_t)OWN_CID};

    for (size_t i = 0; i < sizeof others / sizeof others[0]; i++) {
        put(others[i], SNJOFRASK_CMD_INIT, 8, 0);
        CHECK(is_told(OWN_INTERFACE, others[i]) && is_told(7, others[i]));
        put(others[i], SNJOFRASK_CMD_CANCEL, 0, 0);
        CHECK(is_told(OWN_INTERFACE, others[i]) && is_told(7, others[i]));
        put(others[i], SNJOFRASK_CMD_PING, 58, 1);
        CHECK(is_told(OWN_INTERFACE, others[i]) && is_told(7, others[i]));
    }
    /* every bit counts, of the channel and of the interface */
    for (int bit = 0; bit < 32; bit++) {
        const uint32_t mask = (uint32_t)1 << bit;

        put(OWN_CID ^ mask, SNJOFRASK_CMD_CANCEL, 0, 0);
        CHECK(is_told(OWN_INTERFACE, OWN_CID ^ mask));
        put(OWN_CID, SNJOFRASK_CMD_CANCEL, 0, 0);
        CHECK(is_told(OWN_INTERFACE ^ mask, OWN_CID));
    }
}

/* CANCEL on the request's own channel, of any declared length, beats the sensor. */
static void wait_is_canceled(void)
{
    static const size_t lengths[] = {0, 1, 57, 58, SNJOFRASK_LARGEST_PAYLOAD, SNJOFRASK_LARGEST_PAYLOAD + 1, 0xFFFF};

    for (size_t i = 0; i < sizeof lengths / sizeof lengths[0]; i++)
        for (size_t j = 0; j < sizeof presences; j++) {
            snjofrask_wait wait = begun(100, 30000);

            put(OWN_CID, SNJOFRASK_CMD_CANCEL, 0, 0);
            packet[5] = (uint8_t)(lengths[i] >> 8);
            packet[6] = (uint8_t)(lengths[i] & 0xFF);
            memset(packet + 7, (int)i, sizeof packet - 7);
            CHECK(is_ended(step(&wait, 100, presences[j], 1, OWN_INTERFACE), SNJOFRASK_WAIT_CANCELED, 0, 0));
            CHECK(is_ended(step(&wait, 30099, presences[j], 0x80, OWN_INTERFACE), SNJOFRASK_WAIT_CANCELED, 0, 0));
        }
}

/* And any other packet there is dropped: other commands, INIT too, and continuations, number 17 too. */
static void wait_drops_its_own(void)
{
    snjofrask_wait wait = begun(100, 30000);

    for (int number = 0; number < 256; number++) {
        put(OWN_CID, SNJOFRASK_CMD_PING, 8, 0);
        packet[4] = (uint8_t)number;
        if (number == (0x80 | SNJOFRASK_CMD_CANCEL))
            continue;
        for (size_t i = 0; i < sizeof presences; i++)
            CHECK(goes_by_sensor(step(&wait, 100, presences[i], 1, OWN_INTERFACE), presences[i], 0));
    }
}

/* Just before its deadline it goes on. From there on nothing is looked at or sent, and it stays so. */
static void wait_times_out(void)
{
    for (uint32_t limit = 0; limit <= 30000; limit += 15000)
        for (size_t i = 0; i < sizeof presences; i++)
            for (uint32_t cid = OWN_CID; cid <= OWN_CID + 1; cid++) {
                snjofrask_wait wait = begun(100, limit);

                put(cid, SNJOFRASK_CMD_CANCEL, 0, 0);
                if (limit > 0)
                    CHECK(goes_by_sensor(step(&wait, limit + 99, presences[i], 0, 0), presences[i], 0));
                CHECK(is_ended(step(&wait, limit + 100, presences[i], 0, 0), SNJOFRASK_WAIT_TIMED_OUT, 0, 0));
                CHECK(is_ended(step(&wait, limit + 100, presences[i], 1, OWN_INTERFACE), SNJOFRASK_WAIT_TIMED_OUT, 0, 0));
                CHECK(is_ended(step(&wait, limit + 101, presences[i], 1, 7), SNJOFRASK_WAIT_TIMED_OUT, 0, 0));
                CHECK(is_ended(step(&wait, SNJOFRASK_LAST_TIME_MS, presences[i], 1, 7), SNJOFRASK_WAIT_TIMED_OUT, 0, 0));
            }
}

/* The one refusal in front of the other, and both in front of all else. */
static void wait_refusals(void)
{
    static const size_t lengths[] = {0, 63, 65, 128, HIGH + 64};
    static const uint64_t times[] = {199, 0, SNJOFRASK_LAST_TIME_MS + 1, ((uint64_t)1 << 63) + 200};
    snjofrask_wait wait = begun(100, 30000);
    snjofrask_wait before;

    put(OWN_CID, SNJOFRASK_CMD_CANCEL, 0, 0);
    CHECK(goes_by_sensor(step(&wait, 200, SNJOFRASK_PRESENCE_TIMEOUT, 0, 0), SNJOFRASK_PRESENCE_TIMEOUT, 0));
    before = wait;
    for (size_t i = 0; i < sizeof lengths / sizeof lengths[0]; i++) {
        CHECK(is_refused_wait(snjofrask_wait_step(&wait, 200, 1, 5, 1, OWN_INTERFACE, packet, lengths[i]), SNJOFRASK_REFUSAL_PACKET_SIZE));
        CHECK(is_refused_wait(snjofrask_wait_step(&wait, 199, 2, 5, 0x80, 7, packet, lengths[i]), SNJOFRASK_REFUSAL_PACKET_SIZE));
        CHECK(is_refused_wait(snjofrask_wait_step(&wait, 30100, 0, 5, 1, 7, packet, lengths[i]), SNJOFRASK_REFUSAL_PACKET_SIZE));
        CHECK(is_refused_wait(snjofrask_wait_step(&wait, 199, 2, 5, 0, 7, packet, lengths[i]), SNJOFRASK_REFUSAL_TIME));
    }
    for (size_t i = 0; i < sizeof times / sizeof times[0]; i++) {
        CHECK(is_refused_wait(snjofrask_wait_step(&wait, times[i], 1, 5, 0, OWN_INTERFACE, packet, 64), SNJOFRASK_REFUSAL_TIME));
        CHECK(is_refused_wait(snjofrask_wait_step(&wait, times[i], 2, 5, 1, OWN_INTERFACE, packet, 64), SNJOFRASK_REFUSAL_TIME));
        CHECK(is_refused_wait(snjofrask_wait_step(&wait, times[i], 0, 5, 1, 7, packet, 64), SNJOFRASK_REFUSAL_TIME));
        CHECK(snjofrask_wait_elapsed(&wait, times[i]) == SNJOFRASK_REFUSAL_TIME);
    }
    CHECK(memcmp(&wait, &before, sizeof before) == 0);
    CHECK(is_ended(step(&wait, 200, SNJOFRASK_PRESENCE_TIMEOUT, 1, OWN_INTERFACE), SNJOFRASK_WAIT_CANCELED, 0, 0));
}

/* contents that no call of ours left there: all of them mean something */
static void wait_of_others(void)
{
    snjofrask_wait wait;

    memset(&wait, 0, sizeof wait);
    CHECK(snjofrask_wait_elapsed(&wait, 0) == 1);
    CHECK(is_ended(step(&wait, 0, SNJOFRASK_PRESENCE_TOUCHED, 0, 0), SNJOFRASK_WAIT_TIMED_OUT, 0, 0));

    /* over before its latest step */
    wait.last = 10;
    wait.deadline = 5;
    CHECK(snjofrask_wait_elapsed(&wait, 9) == SNJOFRASK_REFUSAL_TIME && snjofrask_wait_elapsed(&wait, 10) == 1);

    /* never over */
    wait.deadline = ~(uint64_t)0;
    CHECK(snjofrask_wait_elapsed(&wait, SNJOFRASK_LAST_TIME_MS) == 0);
    CHECK(is_ended(step(&wait, SNJOFRASK_LAST_TIME_MS, SNJOFRASK_PRESENCE_TOUCHED, 0, 0), SNJOFRASK_WAIT_TOUCHED, 0, 0));

    /* before its latest step at all times */
    memset(&wait, 0xEE, sizeof wait);
    CHECK(snjofrask_wait_elapsed(&wait, SNJOFRASK_LAST_TIME_MS) == SNJOFRASK_REFUSAL_TIME);
    CHECK(is_refused_wait(snjofrask_wait_step(&wait, SNJOFRASK_LAST_TIME_MS, 1, 5, 0, 0, packet, 64), SNJOFRASK_REFUSAL_TIME));
    CHECK(all_are((const uint8_t *)&wait, sizeof wait, 0xEE));
}

/* As a caller waits: to the limit, with one packet of another channel, and what is sent, in packets. */
static void wait_of_a_caller(void)
{
    static const uint8_t keepalive[] = {0x92, 0x34, 0x56, 0x78, 0xBB, 0, 1, 2};
    static const uint8_t busy[] = {0, 0, 0, 9, 0xBF, 0, 1, 6};
    snjofrask_wait wait = begun(50, 1000);
    uint64_t now = 50;
    int sent = 0;

    for (; snjofrask_wait_elapsed(&wait, now) == 0; now += SNJOFRASK_TIMEOUT_MS) {
        const uint8_t arrived = now == 550;
        snjofrask_wait_outcome outcome;

        put(9, SNJOFRASK_CMD_CBOR, 1, 0);
        outcome = step(&wait, now, SNJOFRASK_PRESENCE_TIMEOUT, arrived, 7);
        CHECK(outcome.ending == SNJOFRASK_WAIT_NOT_YET && outcome.count == 1 + arrived);
        for (int i = 0; i < outcome.count; i++, sent++) {
            const snjofrask_sent one = outcome.sent[i];
            const int is_for_another = i < arrived;

            CHECK(snjofrask_write_packet(one.cid, one.cmd, &one.byte, 1, 0, packet, sizeof packet) == 0);
            CHECK(one.interface == (is_for_another ? 7 : OWN_INTERFACE));
            CHECK(memcmp(packet, is_for_another ? busy : keepalive, 8) == 0 && all_are(packet + 8, sizeof packet - 8, 0));
        }
    }
    CHECK(now == 1050 && sent == 11);
}

int main(void)
{
    fill_payload();
    packets();
    devices();
    device_of_others();
    disabled_writes_no_message();
    transports();
    vendor_lists();
    wrong_vendor_lists();
    vendor_messages();
    due_goes_down();
    due_stays();
    due_of_a_dropped();
    due_past_the_deadline();
    wrong_due();
    wrong_due_in_order();
    hosts();
    init_replies();
    lending_to_a_device();
    lending_to_a_host();
    highest_lengths();
    lengths_to_a_state();
    flags_and_times();
    channels_and_commands();
    fragments_return();
    longest_message();
    writing_refusals();
    fragment_sizes_and_lengths();
    unsound_collections();
    none_begun_of_others();
    wrong_fragment_numbers();
    long_messages_and_excess();
    fragments_without_data();
    any_command_byte();
    lending_to_bluetooth();
    wait_begins();
    wait_elapses();
    wait_goes_by_the_sensor();
    wait_tells_others();
    wait_is_canceled();
    wait_drops_its_own();
    wait_times_out();
    wait_refusals();
    wait_of_others();
    wait_of_a_caller();
    return failures == 0 ? 0 : 1;
}
