/*
 * The entries of libsnjofrask_key.a.
 */
#include "entries.h"

void proved_key_new(uint8_t *refusal, snjofrask_key *key, uint64_t main, uint64_t vendor, uint8_t u2f, const uint8_t *commands,
                    uint64_t commands_len);
void proved_key_main_step(proved_outcome *outcome, snjofrask_key *key, uint64_t time, const uint8_t *packet,
                          uint64_t packet_len, uint8_t *message, uint64_t message_len, uint8_t *reply, uint64_t reply_len);
void proved_key_vendor_step(proved_outcome *outcome, snjofrask_key *key, uint64_t time, const uint8_t *packet,
                            uint64_t packet_len, uint8_t *message, uint64_t message_len, uint8_t *reply, uint64_t reply_len);
void proved_key_main_is_locked(uint8_t *locked, const snjofrask_key *key, uint64_t time);
void proved_key_vendor_is_locked(uint8_t *locked, const snjofrask_key *key, uint64_t time);
void proved_key_is_winking(uint8_t *winking, const snjofrask_key *key, uint64_t time);

uint8_t snjofrask_key_new(snjofrask_key *key, size_t main, size_t vendor, uint8_t u2f, const uint8_t *commands,
                          size_t commands_len)
{
    uint8_t refusal;

    proved_key_new(&refusal, key, main, vendor, u2f, commands, commands_len);
    return refusal;
}

snjofrask_outcome snjofrask_key_main_step(snjofrask_key *key, uint64_t time, const uint8_t *packet, size_t packet_len,
                                          uint8_t *message, size_t message_len, uint8_t *reply, size_t reply_len)
{
    proved_outcome outcome;

    proved_key_main_step(&outcome, key, time, packet, packet_len, message, message_len, reply, reply_len);
    return narrowed(outcome);
}

snjofrask_outcome snjofrask_key_vendor_step(snjofrask_key *key, uint64_t time, const uint8_t *packet, size_t packet_len,
                                            uint8_t *message, size_t message_len, uint8_t *reply, size_t reply_len)
{
    proved_outcome outcome;

    proved_key_vendor_step(&outcome, key, time, packet, packet_len, message, message_len, reply, reply_len);
    return narrowed(outcome);
}

uint8_t snjofrask_key_main_is_locked(const snjofrask_key *key, uint64_t time)
{
    uint8_t locked;

    proved_key_main_is_locked(&locked, key, time);
    return locked;
}

uint8_t snjofrask_key_vendor_is_locked(const snjofrask_key *key, uint64_t time)
{
    uint8_t locked;

    proved_key_vendor_is_locked(&locked, key, time);
    return locked;
}

uint8_t snjofrask_key_is_winking(const snjofrask_key *key, uint64_t time)
{
    uint8_t winking;

    proved_key_is_winking(&winking, key, time);
    return winking;
}
