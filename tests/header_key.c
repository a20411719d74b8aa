/*
 * Calls every entry of libsnjofrask_key.a, as C11 and as C++17, and holds what it answers, writes and leaves alone to
 * docs/RULES.md. Then made-up packets, by SEED, go to a key, and beside it to a device and a transport of libsnjofrask.a, which
 * are told here when they are disabled: the key has to answer as these do.
 */
#include "header.h"

#ifndef SEED
#define SEED 1
#endif

#define MAIN 0
#define VENDOR 1

/* message is main's */
static uint8_t vendor_message[SNJOFRASK_LARGEST_PAYLOAD];
/* one past what 16 bits count */
static uint8_t many[65536];

static uint8_t *message_on(int interface)
{
    return interface == MAIN ? message : vendor_message;
}

/* What each interface has of its own. */
typedef struct parts {
    snjofrask_assembler *assembler;
    uint64_t *lock;
    uint32_t *allocated;
    uint32_t *locked;
    uint16_t *still_due;
} parts;

static parts parts_of(snjofrask_key *key, int interface)
{
    parts of = {&key->main.hid.assembler, &key->main.hid.lock, &key->main.hid.allocated, &key->main.hid.locked, &key->main.hid.still_due};

    if (interface == VENDOR) {
        of.assembler = &key->vendor.assembler;
        of.lock = &key->vendor.lock;
        of.allocated = &key->vendor.allocated;
        of.locked = &key->vendor.locked;
        of.still_due = &key->vendor.still_due;
    }
    return of;
}

/* Lends buffers of so many bytes. */
static snjofrask_outcome lent_step(snjofrask_key *key, int interface, uint64_t time, size_t packet_len, size_t message_len, size_t reply_len)
{
    return interface == MAIN ? snjofrask_key_main_step(key, time, packet, packet_len, message, message_len, reply, reply_len)
                             : snjofrask_key_vendor_step(key, time, packet, packet_len, vendor_message, message_len, reply, reply_len);
}

static snjofrask_outcome step(snjofrask_key *key, int interface, uint64_t time)
{
    return lent_step(key, interface, time, sizeof packet, sizeof message, sizeof reply);
}

/* The number of the error that packet is told, 0 where it is told none. */
static int told(snjofrask_key *key, int interface, uint64_t time)
{
    const snjofrask_outcome outcome = step(key, interface, time);

    CHECK(outcome.kind != SNJOFRASK_KIND_REFUSED);
    return outcome.cmd == SNJOFRASK_CMD_ERROR ? reply[0] : 0;
}

static uint8_t is_locked(const snjofrask_key *key, int interface, uint64_t time)
{
    return interface == MAIN ? snjofrask_key_main_is_locked(key, time) : snjofrask_key_vendor_is_locked(key, time);
}

/* Without vendor commands: no number is on the list, though the one where it begins would be refused. */
static snjofrask_key fresh(size_t main_max, size_t vendor_max, uint8_t u2f)
{
    snjofrask_key key;

    memset(&key, 0xEE, sizeof key);
    CHECK(snjofrask_key_new(&key, main_max, vendor_max, u2f, payload, 0) == 0);
    return key;
}

/* The next channel of an interface. */
static void allocate(snjofrask_key *key, int interface, uint64_t time, uint32_t cid)
{
    put(SNJOFRASK_CHANNEL_BROADCAST, SNJOFRASK_CMD_INIT, 8, 0);
    CHECK(is(step(key, interface, time), SNJOFRASK_KIND_REPLY, SNJOFRASK_CHANNEL_BROADCAST, SNJOFRASK_CMD_INIT, 17));
    CHECK(memcmp(reply, payload, 8) == 0 && reply[11] == cid && *parts_of(key, interface).allocated == cid);
}

/* With U2F, all lengths, and channels 1 and 2 on both, at time 0. */
static snjofrask_key begun(void)
{
    snjofrask_key key = fresh(SNJOFRASK_LARGEST_PAYLOAD, SNJOFRASK_LARGEST_PAYLOAD, 1);

    for (int interface = MAIN; interface <= VENDOR; interface++)
        for (uint32_t cid = 1; cid <= 2; cid++)
            allocate(&key, interface, 0, cid);
    return key;
}

/* A lock of 1 second for channel 2. */
static void lock(snjofrask_key *key, int interface, uint64_t time)
{
    put(2, SNJOFRASK_CMD_LOCK, 1, 0);
    CHECK(is(step(key, interface, time), SNJOFRASK_KIND_REPLY, 2, SNJOFRASK_CMD_LOCK, 0));
}

/* ---- set-up */

static void sets_up(void)
{
    static const uint8_t commands[] = {127, 64};
    snjofrask_device device;
    snjofrask_vendor_interface vendor;
    snjofrask_key key;
    snjofrask_key none;

    memset(&key, 0xEE, sizeof key);
    memset(&vendor, 0, sizeof vendor);
    vendor.max = 60;
    CHECK(snjofrask_key_new(&key, 100, 60, 0x80, commands, sizeof commands) == 0);
    CHECK(snjofrask_device_new(&device, 100, 1, commands, sizeof commands) == 0);
    CHECK(memcmp(&key.main, &device, sizeof device) == 0 && memcmp(&key.vendor, &vendor, sizeof vendor) == 0);
    CHECK(key.main.hid.max == 100 && key.main.hid.u2f == 1 && key.main.hid.vendor == 0x8000000000000001);

    key = fresh(SNJOFRASK_LARGEST_PAYLOAD, 0, 0);
    CHECK(key.main.hid.max == SNJOFRASK_LARGEST_PAYLOAD && key.vendor.max == 0 && key.main.hid.u2f == 0 && key.main.hid.vendor == 0);
    key = fresh(0, SNJOFRASK_LARGEST_PAYLOAD, 1);
    CHECK(key.main.hid.max == 0 && key.vendor.max == SNJOFRASK_LARGEST_PAYLOAD && key.main.hid.u2f == 1);

    memset(&none, 0, sizeof none);
    key = fresh(0, 0, 0);
    CHECK(memcmp(&key, &none, sizeof none) == 0);
}

/* Whether set-up is refused so, and leaves every byte of the key as it came. */
static int is_refused_set_up(size_t main_max, size_t vendor_max, const uint8_t *commands, size_t len, int refusal)
{
    snjofrask_key key;

    memset(&key, 0xEE, sizeof key);
    return snjofrask_key_new(&key, main_max, vendor_max, 1, commands, len) == refusal && all_are((const uint8_t *)&key, sizeof key, 0xEE);
}

/* Every bit of a maximum counts, and either maximum is told before the list. */
static void refuses_set_up(void)
{
    static const size_t wrong[] = {SNJOFRASK_LARGEST_PAYLOAD + 1, 65536 + 57, HIGH + 57};
    snjofrask_key key;

    memset(many, 65, sizeof many);
    for (size_t i = 0; i < sizeof wrong / sizeof wrong[0]; i++) {
        CHECK(is_refused_set_up(wrong[i], 57, many, 1, SNJOFRASK_REFUSAL_MAXIMUM));
        CHECK(is_refused_set_up(57, wrong[i], many, 1, SNJOFRASK_REFUSAL_MAXIMUM));
        CHECK(is_refused_set_up(wrong[i], 57, payload, 1, SNJOFRASK_REFUSAL_MAXIMUM));
        CHECK(is_refused_set_up(57, wrong[i], payload, 1, SNJOFRASK_REFUSAL_MAXIMUM));
    }
    many[65535] = 66;
    CHECK(snjofrask_key_new(&key, 57, 57, 1, many, sizeof many) == 0 && key.main.hid.vendor == 6);
    CHECK(snjofrask_key_new(&key, 57, 57, 1, many, 256) == 0 && key.main.hid.vendor == 2);
    many[255] = 128;
    CHECK(is_refused_set_up(57, 57, many, 256, SNJOFRASK_REFUSAL_VENDOR));
    CHECK(is_refused_set_up(57, 57, many, sizeof many, SNJOFRASK_REFUSAL_VENDOR));
    CHECK(snjofrask_key_new(&key, 57, 57, 1, many, 255) == 0 && key.main.hid.vendor == 2);
    many[0] = 63;
    CHECK(is_refused_set_up(57, 57, many, HIGH + 1, SNJOFRASK_REFUSAL_VENDOR));
}

/* ---- two interfaces */

/* Each has channels of its own, and both report the same. */
static void channels_are_apart(void)
{
    snjofrask_key key = fresh(100, 100, 1);

    allocate(&key, MAIN, 0, 1);
    CHECK(reply[16] == (SNJOFRASK_CAPABILITY_WINK | SNJOFRASK_CAPABILITY_CBOR));
    put(1, SNJOFRASK_CMD_PING, 8, 0);
    CHECK(told(&key, MAIN, 0) == 0 && told(&key, VENDOR, 0) == SNJOFRASK_ERR_INVALID_CHANNEL);
    allocate(&key, VENDOR, 0, 1);
    CHECK(reply[16] == (SNJOFRASK_CAPABILITY_WINK | SNJOFRASK_CAPABILITY_CBOR));
    allocate(&key, VENDOR, 0, 2);
    put(2, SNJOFRASK_CMD_PING, 8, 0);
    CHECK(told(&key, VENDOR, 0) == 0 && told(&key, MAIN, 0) == SNJOFRASK_ERR_INVALID_CHANNEL);

    key = fresh(100, 100, 0);
    for (int interface = MAIN; interface <= VENDOR; interface++) {
        allocate(&key, interface, 0, 1);
        CHECK(reply[16] == (SNJOFRASK_CAPABILITY_WINK | SNJOFRASK_CAPABILITY_CBOR | SNJOFRASK_CAPABILITY_NMSG));
    }
}

static int are_due(const snjofrask_key *key, int on_main, int on_vendor)
{
    return key->main.hid.still_due == on_main && key->vendor.still_due == on_vendor;
}

/* Each has a maximum, a buffer and a message on its way in, at the same time. */
static void messages_are_apart(void)
{
    snjofrask_key key = fresh(200, 120, 1);
    const snjofrask_assembler *in = &key.vendor.assembler;

    allocate(&key, MAIN, 0, 1);
    allocate(&key, VENDOR, 0, 1);
    put(1, SNJOFRASK_CMD_PING, 121, 0);
    CHECK(told(&key, VENDOR, 0) == SNJOFRASK_ERR_INVALID_LEN);
    put(1, SNJOFRASK_CMD_PING, 201, 0);
    CHECK(told(&key, MAIN, 0) == SNJOFRASK_ERR_INVALID_LEN);

    memset(message, 0xEE, sizeof message);
    memset(vendor_message, 0xEE, sizeof vendor_message);
    put(1, SNJOFRASK_CMD_PING, 200, 0);
    CHECK(is(step(&key, MAIN, 10), SNJOFRASK_KIND_NOTHING, 0, 0, 0) && are_due(&key, 3, 0) && in->len == 0);
    put(1, SNJOFRASK_CMD_CBOR, 120, 0);
    CHECK(is(step(&key, VENDOR, 20), SNJOFRASK_KIND_NOTHING, 0, 0, 0) && are_due(&key, 3, 2));
    CHECK(in->deadline == 20 + SNJOFRASK_TIMEOUT_MS && in->cid == 1 && in->len == 120 && in->taken == 57);
    CHECK(in->cmd == SNJOFRASK_CMD_CBOR && in->seq == 0 && key.main.hid.assembler.deadline == 10 + SNJOFRASK_TIMEOUT_MS);
    put(1, SNJOFRASK_CMD_PING, 200, 1);
    CHECK(is(step(&key, MAIN, 109), SNJOFRASK_KIND_NOTHING, 0, 0, 0) && are_due(&key, 2, 2));
    put(1, SNJOFRASK_CMD_CBOR, 120, 1);
    CHECK(is(step(&key, VENDOR, 119), SNJOFRASK_KIND_NOTHING, 0, 0, 0) && are_due(&key, 2, 1));
    put(1, SNJOFRASK_CMD_PING, 200, 2);
    CHECK(is(step(&key, MAIN, 130), SNJOFRASK_KIND_NOTHING, 0, 0, 0) && are_due(&key, 1, 1));
    put(1, SNJOFRASK_CMD_CBOR, 120, 2);
    CHECK(is(step(&key, VENDOR, 130), SNJOFRASK_KIND_MESSAGE, 1, SNJOFRASK_CMD_CBOR, 120) && are_due(&key, 1, 0));
    CHECK(memcmp(vendor_message, payload, 120) == 0 && all_are(vendor_message + 120, sizeof vendor_message - 120, 0xEE));
    put(1, SNJOFRASK_CMD_PING, 200, 3);
    CHECK(is(step(&key, MAIN, 130), SNJOFRASK_KIND_ECHO, 1, SNJOFRASK_CMD_PING, 200) && are_due(&key, 0, 0));
    CHECK(memcmp(message, payload, 200) == 0 && all_are(message + 200, sizeof message - 200, 0xEE));
}

/* Whether the message of one packet gets this, and is written to no other buffer. */
static int gets(snjofrask_key *key, int interface, uint8_t cmd, size_t len, int error)
{
    uint8_t *const other = message_on(!interface);
    snjofrask_outcome outcome;

    memset(message, 0xEE, sizeof message);
    memset(vendor_message, 0xEE, sizeof vendor_message);
    memset(reply, 0xEE, sizeof reply);
    put(1, cmd, len, 0);
    outcome = step(key, interface, 0);
    if (!all_are(other, sizeof message, 0xEE))
        return 0;
    if (error != 0)
        return is(outcome, SNJOFRASK_KIND_REPLY, 1, SNJOFRASK_CMD_ERROR, 1) && reply[0] == error && all_are(reply + 1, sizeof reply - 1, 0xEE);
    return is(outcome, SNJOFRASK_KIND_MESSAGE, 1, cmd, len) && memcmp(message_on(interface), payload, len) == 0 && all_are(reply, sizeof reply, 0xEE);
}

/* What is handed out: the same on both, with U2F and without. */
static void hands_out(void)
{
    static const uint8_t commands[] = {65};

    for (uint8_t u2f = 0; u2f <= 1; u2f++) {
        snjofrask_key key;

        CHECK(snjofrask_key_new(&key, 57, 57, u2f, commands, sizeof commands) == 0);
        for (int interface = MAIN; interface <= VENDOR; interface++) {
            allocate(&key, interface, 0, 1);
            CHECK(gets(&key, interface, SNJOFRASK_CMD_MSG, 57, u2f != 0 ? 0 : SNJOFRASK_ERR_INVALID_CMD));
            CHECK(gets(&key, interface, SNJOFRASK_CMD_CBOR, 57, 0) && gets(&key, interface, 65, 1, 0) && gets(&key, interface, 65, 0, 0));
            CHECK(gets(&key, interface, 64, 1, SNJOFRASK_ERR_INVALID_CMD) && gets(&key, interface, 2, 1, SNJOFRASK_ERR_INVALID_CMD));
            CHECK(gets(&key, interface, SNJOFRASK_CMD_WINK, 1, interface == MAIN ? SNJOFRASK_ERR_INVALID_LEN : SNJOFRASK_ERR_INVALID_CMD));
        }
    }
}

/* ---- the wink */

static int is_winking_to(const snjofrask_key *key, uint64_t until)
{
    return key->main.wink == until && snjofrask_key_is_winking(key, until - 1) == 1 && snjofrask_key_is_winking(key, until) == 0;
}

/* On vendor there is none, and whatever is sent there leaves main's alone. */
static void wink_is_of_main(void)
{
    snjofrask_key key = begun();

    put(1, SNJOFRASK_CMD_WINK, 0, 0);
    CHECK(told(&key, VENDOR, 0) == SNJOFRASK_ERR_INVALID_CMD && key.main.wink == 0 && snjofrask_key_is_winking(&key, 0) == 0);
    CHECK(is(step(&key, MAIN, 50), SNJOFRASK_KIND_ECHO, 1, SNJOFRASK_CMD_WINK, 0));
    CHECK(is_winking_to(&key, 50 + SNJOFRASK_WINK_TIMEOUT_MS));
    for (uint8_t cmd = 0; cmd < 128; cmd++) {
        put(1, cmd, 1, 0);
        step(&key, VENDOR, 60);
        put(3, cmd, 1, 0);
        CHECK(told(&key, VENDOR, 60) == SNJOFRASK_ERR_INVALID_CHANNEL);
        CHECK(is_winking_to(&key, 50 + SNJOFRASK_WINK_TIMEOUT_MS));
    }
    put(1, SNJOFRASK_CMD_WINK, 58, 0);
    CHECK(told(&key, VENDOR, 1060) == 0);
    put(1, SNJOFRASK_CMD_WINK, 58, 1);
    CHECK(told(&key, VENDOR, 1060) == SNJOFRASK_ERR_INVALID_CMD && is_winking_to(&key, 50 + SNJOFRASK_WINK_TIMEOUT_MS));
    put(1, SNJOFRASK_CMD_PING, 0, 0);
    CHECK(told(&key, MAIN, 1060) == 0 && key.main.wink == 0 && snjofrask_key_is_winking(&key, 1060) == 0);
}

/* A reply on main ends it, also where vendor's lock is what is told. */
static void wink_ends_by_the_others_lock(void)
{
    snjofrask_key key = begun();

    put(1, SNJOFRASK_CMD_WINK, 0, 0);
    CHECK(is(step(&key, MAIN, 50), SNJOFRASK_KIND_ECHO, 1, SNJOFRASK_CMD_WINK, 0));
    lock(&key, VENDOR, 60);
    CHECK(is_winking_to(&key, 50 + SNJOFRASK_WINK_TIMEOUT_MS));
    put(1, SNJOFRASK_CMD_PING, 58, 1);
    CHECK(told(&key, MAIN, 70) == SNJOFRASK_ERR_CHANNEL_BUSY && key.main.wink == 0 && snjofrask_key_is_winking(&key, 70) == 0);
}

/* ---- locks */

/* Whether packet is told that the interface is busy, and no message is written. */
static int is_shut_to(snjofrask_key *key, int interface, uint64_t time)
{
    memset(message_on(interface), 0xEE, sizeof message);
    return told(key, interface, time) == SNJOFRASK_ERR_CHANNEL_BUSY && all_are(message_on(interface), sizeof message, 0xEE);
}

/* Every packet on a valid channel: the one with the holder's number, and LOCK too. */
static int is_shut(snjofrask_key *key, int interface, uint64_t time)
{
    int shut = 1;

    put(SNJOFRASK_CHANNEL_BROADCAST, SNJOFRASK_CMD_INIT, 8, 0);
    shut &= is_shut_to(key, interface, time);
    for (uint32_t cid = 1; cid <= 2; cid++) {
        for (uint8_t cmd = 0; cmd < 128; cmd++) {
            put(cid, cmd, 1, 0);
            shut &= is_shut_to(key, interface, time);
        }
        put(cid, SNJOFRASK_CMD_PING, 58, 1);
        shut &= is_shut_to(key, interface, time);
    }
    put(3, SNJOFRASK_CMD_PING, 58, 0);
    shut &= told(key, interface, time) == SNJOFRASK_ERR_INVALID_CHANNEL;
    put(3, SNJOFRASK_CMD_PING, 58, 1);
    return shut && is(step(key, interface, time), SNJOFRASK_KIND_NOTHING, 0, 0, 0);
}

/* Its own interface is shut to other channels alone. */
static int is_held(snjofrask_key *key, int interface, uint64_t time)
{
    int served;

    put(2, SNJOFRASK_CMD_PING, 8, 0);
    served = told(key, interface, time) == 0;
    put(1, SNJOFRASK_CMD_PING, 8, 0);
    return served && told(key, interface, time) == SNJOFRASK_ERR_CHANNEL_BUSY && is_locked(key, interface, time) == 1 && is_locked(key, !interface, time) == 0;
}

/* From either interface, up to its last millisecond. Then the other one may lock, and not before. */
static void lock_shuts_the_other(void)
{
    for (int interface = MAIN; interface <= VENDOR; interface++) {
        snjofrask_key key = begun();

        lock(&key, interface, 10);
        CHECK(*parts_of(&key, interface).lock == 1010 && *parts_of(&key, interface).locked == 2 && *parts_of(&key, !interface).lock == 0);
        CHECK(is_locked(&key, interface, 1009) == 1 && is_locked(&key, interface, 1010) == 0);
        CHECK(is_held(&key, interface, 10) && is_shut(&key, !interface, 10) && is_held(&key, interface, 1009) && is_shut(&key, !interface, 1009));
        lock(&key, !interface, 1010);
        CHECK(is_held(&key, !interface, 1010) && is_shut(&key, interface, 1010) && is_held(&key, !interface, 2009) && is_shut(&key, interface, 2009));
    }
}

/* A message that is on its way in stays as it is meanwhile, and goes on once the lock is given up. */
static void lock_leaves_the_others_message(void)
{
    for (int interface = MAIN; interface <= VENDOR; interface++) {
        uint8_t *const into = message_on(interface);
        snjofrask_key key = begun();

        put(1, SNJOFRASK_CMD_CBOR, 58, 0);
        CHECK(is(step(&key, interface, 0), SNJOFRASK_KIND_NOTHING, 0, 0, 0));
        memset(into + 57, 0xEE, sizeof message - 57);
        lock(&key, !interface, 10);
        put(1, SNJOFRASK_CMD_CBOR, 58, 1);
        CHECK(told(&key, interface, 20) == SNJOFRASK_ERR_CHANNEL_BUSY);
        CHECK(memcmp(into, payload, 57) == 0 && all_are(into + 57, sizeof message - 57, 0xEE));
        CHECK(*parts_of(&key, interface).still_due == 1);
        CHECK(snjofrask_write_packet(2, SNJOFRASK_CMD_LOCK, payload + 255, 1, 0, packet, sizeof packet) == 0 && packet[7] == 0);
        CHECK(is(step(&key, !interface, 30), SNJOFRASK_KIND_REPLY, 2, SNJOFRASK_CMD_LOCK, 0));
        CHECK(is_locked(&key, !interface, 30) == 0);
        put(1, SNJOFRASK_CMD_CBOR, 58, 1);
        CHECK(is(step(&key, interface, 99), SNJOFRASK_KIND_MESSAGE, 1, SNJOFRASK_CMD_CBOR, 58) && memcmp(into, payload, 58) == 0);
    }
}

/* ---- time */

/* Of whichever interface the latest step was, the other one's time doesn't go behind it. Beyond 32 bits it counts too. */
static void time_is_one(void)
{
    static const uint64_t times[] = {100, (uint64_t)1 << 32, SNJOFRASK_LAST_TIME_MS};

    for (size_t i = 0; i < sizeof times / sizeof times[0]; i++)
        for (int interface = MAIN; interface <= VENDOR; interface++) {
            const uint64_t time = times[i];
            snjofrask_key key = begun();

            put(1, SNJOFRASK_CMD_PING, 8, 0);
            CHECK(told(&key, interface, time) == 0 && key.main.hid.last == time);
            for (int other = MAIN; other <= VENDOR; other++) {
                CHECK(is_refused(step(&key, other, time - 1), SNJOFRASK_REFUSAL_TIME) && is_locked(&key, other, time - 1) == SNJOFRASK_REFUSAL_TIME);
                CHECK(is_refused(step(&key, other, SNJOFRASK_LAST_TIME_MS + 1), SNJOFRASK_REFUSAL_TIME));
                CHECK(is_locked(&key, other, SNJOFRASK_LAST_TIME_MS + 1) == SNJOFRASK_REFUSAL_TIME);
                CHECK(key.main.hid.last == time && told(&key, other, time) == 0 && is_locked(&key, other, time) == 0);
            }
            CHECK(snjofrask_key_is_winking(&key, time - 1) == SNJOFRASK_REFUSAL_TIME && snjofrask_key_is_winking(&key, time) == 0);
            CHECK(snjofrask_key_is_winking(&key, SNJOFRASK_LAST_TIME_MS + 1) == SNJOFRASK_REFUSAL_TIME);
        }
}

/* What runs has ended 2^32 ms later. */
static void time_is_long(void)
{
    const uint64_t late = (uint64_t)1 << 32;

    for (int interface = MAIN; interface <= VENDOR; interface++) {
        snjofrask_key key = begun();

        put(1, SNJOFRASK_CMD_WINK, 0, 0);
        CHECK(is(step(&key, MAIN, 0), SNJOFRASK_KIND_ECHO, 1, SNJOFRASK_CMD_WINK, 0));
        CHECK(snjofrask_key_is_winking(&key, 1) == 1 && snjofrask_key_is_winking(&key, late + 1) == 0);
        lock(&key, interface, 0);
        CHECK(is_locked(&key, interface, 1) == 1 && is_locked(&key, interface, late + 1) == 0);
        put(1, SNJOFRASK_CMD_PING, 8, 0);
        CHECK(told(&key, !interface, late + 1) == 0);
    }
}

/* ---- refusals */

/* Whether a step is refused so, and every byte of key and buffers is as it came. */
static int refuses(const snjofrask_key *came, int interface, uint64_t time, size_t packet_len, size_t message_len, size_t reply_len, int refusal)
{
    snjofrask_key key = *came;

    memset(message, 0xEE, sizeof message);
    memset(vendor_message, 0xEE, sizeof vendor_message);
    memset(reply, 0xEE, sizeof reply);
    return is_refused(lent_step(&key, interface, time, packet_len, message_len, reply_len), refusal) && memcmp(&key, came, sizeof key) == 0 &&
           all_are(message, sizeof message, 0xEE) && all_are(vendor_message, sizeof vendor_message, 0xEE) && all_are(reply, sizeof reply, 0xEE);
}

/* 1 and 2 in front of what the key itself or the time then gets. Buffers are measured by the interface's own maximum. */
static int refuses_in_order(const snjofrask_key *key, int interface, size_t max, int then)
{
    return refuses(key, interface, 49, 63, max - 1, 16, SNJOFRASK_REFUSAL_PACKET_SIZE) &&
           refuses(key, interface, 49, 65, max, 17, SNJOFRASK_REFUSAL_PACKET_SIZE) &&
           refuses(key, interface, 49, HIGH + 64, max, 17, SNJOFRASK_REFUSAL_PACKET_SIZE) &&
           refuses(key, interface, 49, 64, max - 1, 17, SNJOFRASK_REFUSAL_SHORT_BUFFER) &&
           refuses(key, interface, 49, 64, max, 16, SNJOFRASK_REFUSAL_SHORT_BUFFER) && refuses(key, interface, 49, 64, max, 17, then) &&
           refuses(key, interface, SNJOFRASK_LAST_TIME_MS + 1, 64, max, 17, then);
}

static void refusals_in_order(void)
{
    snjofrask_key key = fresh(200, 100, 1);
    snjofrask_key unsound;

    allocate(&key, MAIN, 50, 1);
    allocate(&key, VENDOR, 50, 1);
    unsound = key;
    unsound.main.hid.still_due = 1;
    put(1, SNJOFRASK_CMD_PING, 8, 0);
    for (int interface = MAIN; interface <= VENDOR; interface++) {
        const size_t max = interface == MAIN ? 200 : 100;

        CHECK(refuses_in_order(&unsound, interface, max, SNJOFRASK_REFUSAL_UNSOUND) && refuses_in_order(&key, interface, max, SNJOFRASK_REFUSAL_TIME));
        CHECK(is(lent_step(&key, interface, 50, 64, max, 17), SNJOFRASK_KIND_ECHO, 1, SNJOFRASK_CMD_PING, 8));
    }
}

/* A long buffer is long, though of its last 8 or 16 bits few are set. */
static void long_buffers(void)
{
    static uint8_t long_reply[256];
    snjofrask_key key = fresh(57, 57, 1);

    put(SNJOFRASK_CHANNEL_BROADCAST, SNJOFRASK_CMD_INIT, 8, 0);
    CHECK(is(snjofrask_key_main_step(&key, 0, packet, 64, many, sizeof many, long_reply, 256), SNJOFRASK_KIND_REPLY,
             SNJOFRASK_CHANNEL_BROADCAST, SNJOFRASK_CMD_INIT, 17));
    CHECK(is(snjofrask_key_vendor_step(&key, 0, packet, 64, many, sizeof many, long_reply, 256), SNJOFRASK_KIND_REPLY,
             SNJOFRASK_CHANNEL_BROADCAST, SNJOFRASK_CMD_INIT, 17));
}

/* Whether every call finds that the key makes no sense, at a right time and at a wrong one. */
static int is_unsound(const snjofrask_key *key)
{
    const uint64_t times[] = {key->main.hid.last, 20000, SNJOFRASK_LAST_TIME_MS + 1};
    int unsound = 1;

    for (size_t i = 0; i < sizeof times / sizeof times[0]; i++) {
        for (int interface = MAIN; interface <= VENDOR; interface++) {
            unsound &= refuses(key, interface, times[i], 64, sizeof message, 17, SNJOFRASK_REFUSAL_UNSOUND);
            unsound &= is_locked(key, interface, times[i]) == SNJOFRASK_REFUSAL_UNSOUND;
        }
        unsound &= snjofrask_key_is_winking(key, times[i]) == SNJOFRASK_REFUSAL_UNSOUND;
    }
    return unsound;
}

/* Whether it makes sense to every call. */
static int is_sound(const snjofrask_key *key)
{
    const uint64_t time = key->main.hid.last;
    snjofrask_key main_stepped = *key;
    snjofrask_key vendor_stepped = *key;

    return step(&main_stepped, MAIN, time).kind != SNJOFRASK_KIND_REFUSED && step(&vendor_stepped, VENDOR, time).kind != SNJOFRASK_KIND_REFUSED &&
           is_locked(key, MAIN, time) <= 1 && is_locked(key, VENDOR, time) <= 1 && snjofrask_key_is_winking(key, time) <= 1;
}

/* At time 10 with half a message of channel 1 on the one, and on the other too or not. */
static snjofrask_key halfway(int interface, int on_both)
{
    snjofrask_key key = begun();

    put(1, SNJOFRASK_CMD_PING, 117, 0);
    CHECK(told(&key, interface, 10) == 0 && parts_of(&key, interface).assembler->len == 117);
    if (on_both)
        CHECK(told(&key, !interface, 10) == 0 && parts_of(&key, !interface).assembler->len == 117);
    return key;
}

#define WRONGS 13

/* One thing that can't be, of these. */
static void spoil(parts of, int wrong)
{
    switch (wrong) {
    case 0:
        *of.allocated = 0xFFFFFFFF;
        break;
    case 1:
    case 2:
    case 3:
        /* too long, or for a channel that isn't there */
        *of.lock = wrong == 1 ? 10 + 10000 + 1 : 11;
        *of.locked = wrong == 1 ? 1 : wrong == 2 ? 3 : 0;
        break;
    case 4:
        ++*of.still_due;
        break;
    case 5:
        --*of.still_due;
        break;
    case 6:
        of.assembler->deadline = 10 + SNJOFRASK_TIMEOUT_MS + 1;
        break;
    case 7:
        of.assembler->cid = 3;
        break;
    case 8:
        of.assembler->cid = SNJOFRASK_CHANNEL_BROADCAST;
        break;
    case 9:
        of.assembler->len = SNJOFRASK_LARGEST_PAYLOAD + 1;
        break;
    case 10:
        ++of.assembler->taken;
        break;
    case 11:
        of.assembler->cmd = 128;
        break;
    default:
        ++of.assembler->seq;
    }
}

/* Every call refuses it, the other interface's too, be that one at rest or not. */
static void wrong_by_itself(void)
{
    for (int interface = MAIN; interface <= VENDOR; interface++)
        for (int on_both = 0; on_both <= 1; on_both++)
            for (int wrong = 0; wrong < WRONGS; wrong++) {
                snjofrask_key key = halfway(interface, on_both);

                put(1, SNJOFRASK_CMD_PING, 8, 0);
                CHECK(is_sound(&key));
                spoil(parts_of(&key, interface), wrong);
                CHECK(is_unsound(&key));
            }
}

/* A maximum or a number of packets that can't be, where nothing is on its way in, and main's own. */
static void wrong_at_rest(void)
{
    const snjofrask_key begin = begun();
    snjofrask_key key = begin;

    put(1, SNJOFRASK_CMD_PING, 8, 0);
    CHECK(is_sound(&key));
    for (int interface = MAIN; interface <= VENDOR; interface++, key = begin) {
        *parts_of(&key, interface).still_due = 1;
        CHECK(is_unsound(&key));
    }
    key.main.wink = SNJOFRASK_WINK_TIMEOUT_MS;
    CHECK(is_sound(&key));
    key.main.wink++;
    CHECK(is_unsound(&key));
    key = begin;
    key.main.hid.last = SNJOFRASK_LAST_TIME_MS + 1;
    CHECK(is_unsound(&key));

    /* a maximum that is too high is first of all more than its own buffer has */
    key = begin;
    key.vendor.max = SNJOFRASK_LARGEST_PAYLOAD + 1;
    CHECK(refuses(&key, VENDOR, 0, 64, sizeof message, 17, SNJOFRASK_REFUSAL_SHORT_BUFFER));
    CHECK(refuses(&key, MAIN, 0, 64, sizeof message, 17, SNJOFRASK_REFUSAL_UNSOUND));
    key = begin;
    key.main.hid.max = SNJOFRASK_LARGEST_PAYLOAD + 1;
    CHECK(refuses(&key, MAIN, 0, 64, sizeof message, 17, SNJOFRASK_REFUSAL_SHORT_BUFFER));
    CHECK(refuses(&key, VENDOR, 0, 64, sizeof message, 17, SNJOFRASK_REFUSAL_UNSOUND));
    CHECK(snjofrask_key_is_winking(&key, 0) == SNJOFRASK_REFUSAL_UNSOUND);
}

/* Two locks that run at the time of the latest step, and not where one of them has just ended. */
static void two_locks(void)
{
    for (int interface = MAIN; interface <= VENDOR; interface++) {
        snjofrask_key key = begun();
        const parts one = parts_of(&key, interface);
        const parts other = parts_of(&key, !interface);

        lock(&key, interface, 10);
        *other.locked = 1;
        put(2, SNJOFRASK_CMD_PING, 8, 0);
        CHECK(is_sound(&key));
        *other.lock = 10;
        CHECK(is_sound(&key));
        *other.lock = 11;
        CHECK(is_unsound(&key));
        *one.lock = 11;
        CHECK(is_unsound(&key));
        *one.lock = 10;
        CHECK(is_sound(&key));
    }
}

/* contents that no call of ours left there */
static void key_of_others(void)
{
    snjofrask_key key;

    memset(&key, 0xEE, sizeof key);
    put(SNJOFRASK_CHANNEL_BROADCAST, SNJOFRASK_CMD_INIT, 8, 0);
    for (int interface = MAIN; interface <= VENDOR; interface++)
        CHECK(refuses(&key, interface, 0, 64, sizeof message, 17, SNJOFRASK_REFUSAL_SHORT_BUFFER));
    key.main.hid.max = key.vendor.max = SNJOFRASK_LARGEST_PAYLOAD;
    CHECK(is_unsound(&key));

    /* all zeros: nothing is as short as its maxima */
    memset(&key, 0, sizeof key);
    for (int interface = MAIN; interface <= VENDOR; interface++)
        CHECK(told(&key, interface, 0) == SNJOFRASK_ERR_INVALID_LEN);

    /* with any bits here it makes sense, and they stay */
    key = begun();
    key.main.hid.vendor = ~(uint64_t)0;
    key.main.hid.spare = 0xFF;
    key.vendor.spare = 0xFFFF;
    put(1, 127, 1, 0);
    for (int interface = MAIN; interface <= VENDOR; interface++)
        CHECK(is(step(&key, interface, 0), SNJOFRASK_KIND_MESSAGE, 1, 127, 1) && is_locked(&key, interface, 0) == 0);
    CHECK(snjofrask_key_is_winking(&key, 0) == 0);
    CHECK(key.main.hid.vendor == ~(uint64_t)0 && key.main.hid.spare == 0xFF && key.vendor.spare == 0xFFFF);
}

/* While a request of vendor's waits for a touch, main is told so, on the same channel number too. */
static void waits_on_one(void)
{
    snjofrask_key key = begun();
    snjofrask_outcome request;
    snjofrask_wait wait;
    snjofrask_wait_outcome outcome;

    put(2, SNJOFRASK_CMD_CBOR, 1, 0);
    request = step(&key, VENDOR, 10);
    CHECK(is(request, SNJOFRASK_KIND_MESSAGE, 2, SNJOFRASK_CMD_CBOR, 1));
    CHECK(snjofrask_wait_begin(&wait, VENDOR, request.cid, 10, 30000) == 0);
    put(2, SNJOFRASK_CMD_CANCEL, 0, 0);
    outcome = snjofrask_wait_step(&wait, 20, SNJOFRASK_PRESENCE_TIMEOUT, 0, 1, MAIN, packet, sizeof packet);
    CHECK(outcome.ending == SNJOFRASK_WAIT_NOT_YET && outcome.count == 2);
    CHECK(outcome.sent[0].interface == MAIN && outcome.sent[0].cid == 2 && outcome.sent[0].byte == SNJOFRASK_ERR_CHANNEL_BUSY);
    CHECK(outcome.sent[1].interface == VENDOR && outcome.sent[1].cid == 2 && outcome.sent[1].cmd == SNJOFRASK_CMD_KEEPALIVE);
    CHECK(snjofrask_wait_step(&wait, 30, SNJOFRASK_PRESENCE_TIMEOUT, 0, 1, VENDOR, packet, sizeof packet).ending == SNJOFRASK_WAIT_CANCELED);
}

/* ---- beside a device and a transport */

#define MAIN_MAX 300
#define VENDOR_MAX 200
#define STEPS 100000

static size_t max_on(int interface)
{
    return interface == MAIN ? MAIN_MAX : VENDOR_MAX;
}

/* A key, and what has to answer as it does. */
typedef struct pair {
    snjofrask_key key;
    snjofrask_device main;
    snjofrask_transport vendor;
    uint8_t messages[2][MAIN_MAX];
    uint8_t reply[SNJOFRASK_SHORT_REPLY_SIZE];
} pair;

/* What a caller sends: a message's packets one after the other. */
typedef struct sender {
    const uint8_t *data;
    size_t len;
    size_t index;
    uint32_t cid;
    uint8_t cmd;
} sender;

/* What is lent and said at a step. */
typedef struct call {
    uint64_t time;
    size_t packet_len;
    size_t message_len;
    size_t reply_len;
    int interface;
} call;

/* How often it came to this, on each interface. */
static int served[2];
static int shut_out[2];
static int refused_calls[2];
static int kept_winks;

static uint32_t drawn = SEED;

/* A number below this. */
static uint32_t draw(uint32_t below)
{
    drawn = drawn * 1664525 + 1013904223;
    return (drawn >> 16) % below;
}

static void draw_message(sender *next, uint32_t channels)
{
    static const uint8_t commands[] = {SNJOFRASK_CMD_PING, SNJOFRASK_CMD_PING, SNJOFRASK_CMD_CBOR, SNJOFRASK_CMD_MSG, SNJOFRASK_CMD_WINK,
                                       SNJOFRASK_CMD_WINK, SNJOFRASK_CMD_LOCK, SNJOFRASK_CMD_LOCK, SNJOFRASK_CMD_CANCEL, 64, 65};
    static const size_t lengths[] = {0, 1, 2, 8, 57, 58, 116, 117, VENDOR_MAX, VENDOR_MAX + 1, MAIN_MAX, MAIN_MAX + 1};
    /* where payload has 0, 0, 1, 1, 2, 10 and 11 */
    static const size_t seconds[] = {255, 255, 0, 0, 1, 9, 10};

    next->index = 0;
    next->data = payload;
    next->cid = draw(channels + 2);
    next->cmd = draw(8) != 0 ? commands[draw(sizeof commands)] : (uint8_t)draw(128);
    next->len = lengths[draw(sizeof lengths / sizeof lengths[0])];
    if (channels == 0 || draw(12) == 0) {
        next->cid = draw(4) != 0 ? SNJOFRASK_CHANNEL_BROADCAST : next->cid;
        next->cmd = SNJOFRASK_CMD_INIT;
        next->len = draw(8) != 0 ? 8 : next->len;
    }
    if (next->cmd == SNJOFRASK_CMD_WINK && draw(4) != 0)
        next->len = 0;
    if (next->cmd == SNJOFRASK_CMD_LOCK) {
        next->data = payload + seconds[draw(sizeof seconds / sizeof seconds[0])];
        next->len = draw(6) != 0 ? 1 : next->len;
    }
}

/* The next packet of a sender: now and then one is lost, or a byte of its head is another. */
static void draw_packet(sender *from, uint32_t channels)
{
    if (snjofrask_write_packet(from->cid, from->cmd, from->data, from->len, from->index, packet, sizeof packet) != 0) {
        draw_message(from, channels);
        CHECK(snjofrask_write_packet(from->cid, from->cmd, from->data, from->len, 0, packet, sizeof packet) == 0);
    }
    from->index += draw(30) != 0 ? 1u : 2u;
    if (draw(40) == 0)
        packet[draw(7)] = (uint8_t)draw(256);
}

/* Mostly right, and mostly a little later than the step before. */
static call draw_call(uint64_t last, int interface)
{
    static const uint32_t steps[] = {99, 100, 999, 1000, 4999, 5000, 9999, 10000};
    call next = {last, sizeof packet, max_on(interface), SNJOFRASK_SHORT_REPLY_SIZE, interface};

    next.time += draw(12) != 0 ? draw(8) : steps[draw(sizeof steps / sizeof steps[0])];
    switch (draw(300)) {
    case 0:
        next.time = last > 0 ? last - 1 : 0;
        break;
    case 1:
        next.time = SNJOFRASK_LAST_TIME_MS + 1;
        break;
    case 2:
        next.packet_len--;
        break;
    case 3:
        next.message_len--;
        break;
    case 4:
        next.reply_len--;
        break;
    default:
        break;
    }
    return next;
}

/* Check 8 of vendor: no WINK, and no MSG without U2F. */
static snjofrask_outcome finished(snjofrask_outcome outcome, uint8_t u2f, uint8_t *told_in)
{
    if (outcome.kind != SNJOFRASK_KIND_MESSAGE || !(outcome.cmd == SNJOFRASK_CMD_WINK || (outcome.cmd == SNJOFRASK_CMD_MSG && u2f == 0)))
        return outcome;
    told_in[0] = SNJOFRASK_ERR_INVALID_CMD;
    outcome.kind = SNJOFRASK_KIND_REPLY;
    outcome.cmd = SNJOFRASK_CMD_ERROR;
    outcome.len = 1;
    return outcome;
}

/* The device's step or the transport's, disabled while the other one's lock runs. */
static snjofrask_outcome step_apart(pair *on, call with)
{
    uint8_t *const into = on->messages[with.interface];

    if (with.interface == MAIN)
        return snjofrask_device_step(&on->main, with.time, snjofrask_is_locked(&on->vendor, with.time) == 1, packet, with.packet_len, into,
                                     with.message_len, on->reply, with.reply_len);
    return finished(snjofrask_transport_step(&on->vendor, with.time, snjofrask_is_locked(&on->main.hid, with.time) == 1, packet, with.packet_len,
                                             into, with.message_len, on->reply, with.reply_len),
                    on->vendor.u2f, on->reply);
}

/* Both are at the later time of the two. */
static void share_last(pair *on)
{
    if (on->main.hid.last < on->vendor.last)
        on->main.hid.last = on->vendor.last;
    on->vendor.last = on->main.hid.last;
}

static int is_alike(snjofrask_outcome one, snjofrask_outcome other)
{
    return one.kind == other.kind && one.cid == other.cid && one.cmd == other.cmd && one.len == other.len && one.refusal == other.refusal &&
           one.spare == other.spare;
}

static int are_alike(const pair *on)
{
    const snjofrask_vendor_interface *vendor = &on->key.vendor;
    const snjofrask_transport *other = &on->vendor;

    return memcmp(&on->key.main, &on->main, sizeof on->main) == 0 && memcmp(&vendor->assembler, &other->assembler, sizeof other->assembler) == 0 &&
           vendor->lock == other->lock && vendor->allocated == other->allocated && vendor->locked == other->locked && vendor->max == other->max &&
           vendor->still_due == other->still_due && memcmp(message, on->messages[MAIN], MAIN_MAX) == 0 &&
           memcmp(vendor_message, on->messages[VENDOR], VENDOR_MAX) == 0 && memcmp(reply, on->reply, sizeof on->reply) == 0;
}

static int is_running_alike(const pair *on, uint64_t time)
{
    return snjofrask_key_main_is_locked(&on->key, time) == snjofrask_is_locked(&on->main.hid, time) &&
           snjofrask_key_vendor_is_locked(&on->key, time) == snjofrask_is_locked(&on->vendor, time) &&
           snjofrask_key_is_winking(&on->key, time) == snjofrask_is_winking(&on->main, time);
}

/* Past what is owed of a message that is on its way in, a caller may write what it likes. */
static void scribble(pair *on, int interface, uint64_t time)
{
    const snjofrask_assembler *in = interface == MAIN ? &on->main.hid.assembler : &on->vendor.assembler;
    const size_t owed = in->len != 0 && time < in->deadline ? in->taken : 0;
    const size_t max = max_on(interface);
    const int byte = (int)draw(256);

    memset(message_on(interface) + owed, byte, max - owed);
    memset(on->messages[interface] + owed, byte, max - owed);
    memset(reply, byte, sizeof reply);
    memset(on->reply, byte, sizeof on->reply);
}

static void count(const pair *on, call with, snjofrask_outcome outcome, uint64_t wink)
{
    const int is_busy = outcome.cmd == SNJOFRASK_CMD_ERROR && reply[0] == SNJOFRASK_ERR_CHANNEL_BUSY;

    refused_calls[with.interface] += outcome.kind == SNJOFRASK_KIND_REFUSED;
    served[with.interface] += outcome.kind == SNJOFRASK_KIND_MESSAGE || outcome.kind == SNJOFRASK_KIND_ECHO;
    shut_out[with.interface] += is_busy && is_locked(&on->key, !with.interface, with.time) == 1;
    kept_winks += with.interface == VENDOR && outcome.kind > SNJOFRASK_KIND_NOTHING && with.time < wink;
}

static void set_up_pair(pair *on, uint8_t u2f)
{
    static const uint8_t commands[] = {64};

    memset(on, 0, sizeof *on);
    memset(message, 0, sizeof message);
    memset(vendor_message, 0, sizeof vendor_message);
    CHECK(snjofrask_key_new(&on->key, MAIN_MAX, VENDOR_MAX, u2f, commands, 1) == 0);
    CHECK(snjofrask_device_new(&on->main, MAIN_MAX, u2f, commands, 1) == 0);
    CHECK(snjofrask_transport_new(&on->vendor, VENDOR_MAX, u2f, commands, 1) == 0);
}

/* One step of all, and a question that lies some time ahead. */
static void step_alike(pair *on, call with)
{
    const uint64_t wink = on->key.main.wink;
    snjofrask_outcome outcome;

    scribble(on, with.interface, with.time);
    outcome = lent_step(&on->key, with.interface, with.time, with.packet_len, with.message_len, with.reply_len);
    CHECK(is_alike(outcome, step_apart(on, with)));
    share_last(on);
    CHECK(are_alike(on) && is_running_alike(on, on->main.hid.last + draw(11000)));
    count(on, with, outcome, wink);
}

static void answers_alike(uint8_t u2f)
{
    static pair on;
    static sender senders[2][2];
    int interface = MAIN;

    set_up_pair(&on, u2f);
    for (int i = 0; i < 4; i++)
        draw_message(&senders[i / 2][i % 2], 0);
    for (int i = 0; i < STEPS && failures == 0; i++) {
        const uint32_t channels = interface == MAIN ? on.main.hid.allocated : on.vendor.allocated;

        draw_packet(&senders[interface][draw(8) == 0], channels < 3 ? channels : 3);
        step_alike(&on, draw_call(on.main.hid.last, interface));
        interface ^= draw(4) == 0;
    }
}

static void beside_others(void)
{
    answers_alike(1);
    answers_alike(0);
    for (int interface = MAIN; interface <= VENDOR; interface++)
        CHECK(served[interface] > STEPS / 50 && shut_out[interface] > STEPS / 50 && refused_calls[interface] > STEPS / 300);
    CHECK(kept_winks > STEPS / 300);
}

int main(void)
{
    fill_payload();
    sets_up();
    refuses_set_up();
    channels_are_apart();
    messages_are_apart();
    hands_out();
    wink_is_of_main();
    wink_ends_by_the_others_lock();
    lock_shuts_the_other();
    lock_leaves_the_others_message();
    time_is_one();
    time_is_long();
    refusals_in_order();
    long_buffers();
    wrong_by_itself();
    wrong_at_rest();
    two_locks();
    key_of_others();
    waits_on_one();
    beside_others();
    return failures == 0 ? 0 : 1;
}
