/*
 * The entries of libsnjofrask.a.
 */
#include "entries.h"

/* ---- a device */

void proved_device_new(uint8_t *refusal, snjofrask_device *hid, uint64_t max, uint8_t u2f, const uint8_t *vendor,
                       uint64_t vendor_len);
void proved_device_step(proved_outcome *outcome, snjofrask_device *hid, uint64_t time, uint8_t disabled,
                        const uint8_t *packet, uint64_t packet_len, uint8_t *message, uint64_t message_len,
                        uint8_t *reply, uint64_t reply_len);
void proved_is_winking(uint8_t *winking, const snjofrask_device *hid, uint64_t time);

uint8_t snjofrask_device_new(snjofrask_device *hid, size_t max, uint8_t u2f, const uint8_t *vendor, size_t vendor_len)
{
    uint8_t refusal;

    proved_device_new(&refusal, hid, max, u2f, vendor, vendor_len);
    return refusal;
}

snjofrask_outcome snjofrask_device_step(snjofrask_device *hid, uint64_t time, uint8_t disabled, const uint8_t *packet,
                                        size_t packet_len, uint8_t *message, size_t message_len, uint8_t *reply,
                                        size_t reply_len)
{
    proved_outcome outcome;

    proved_device_step(&outcome, hid, time, disabled, packet, packet_len, message, message_len, reply, reply_len);
    return narrowed(outcome);
}

uint8_t snjofrask_is_winking(const snjofrask_device *hid, uint64_t time)
{
    uint8_t winking;

    proved_is_winking(&winking, hid, time);
    return winking;
}

/* ---- a transport alone */

void proved_transport_new(uint8_t *refusal, snjofrask_transport *hid, uint64_t max, uint8_t u2f, const uint8_t *vendor,
                          uint64_t vendor_len);
void proved_transport_step(proved_outcome *outcome, snjofrask_transport *hid, uint64_t time, uint8_t disabled,
                           const uint8_t *packet, uint64_t packet_len, uint8_t *message, uint64_t message_len,
                           uint8_t *reply, uint64_t reply_len);
void proved_is_locked(uint8_t *locked, const snjofrask_transport *hid, uint64_t time);

uint8_t snjofrask_transport_new(snjofrask_transport *hid, size_t max, uint8_t u2f, const uint8_t *vendor, size_t vendor_len)
{
    uint8_t refusal;

    proved_transport_new(&refusal, hid, max, u2f, vendor, vendor_len);
    return refusal;
}

snjofrask_outcome snjofrask_transport_step(snjofrask_transport *hid, uint64_t time, uint8_t disabled,
                                           const uint8_t *packet, size_t packet_len, uint8_t *message,
                                           size_t message_len, uint8_t *reply, size_t reply_len)
{
    proved_outcome outcome;

    proved_transport_step(&outcome, hid, time, disabled, packet, packet_len, message, message_len, reply, reply_len);
    return narrowed(outcome);
}

uint8_t snjofrask_is_locked(const snjofrask_transport *hid, uint64_t time)
{
    uint8_t locked;

    proved_is_locked(&locked, hid, time);
    return locked;
}

/* ---- a wait for a touch */

void proved_wait_begin(uint8_t *refusal, snjofrask_wait *wait, uint32_t interface, uint32_t cid, uint64_t time, uint32_t limit);
void proved_wait_elapsed(uint8_t *elapsed, const snjofrask_wait *wait, uint64_t time);
void proved_wait_step(snjofrask_wait_outcome *outcome, snjofrask_wait *wait, uint64_t time, uint8_t presence, uint8_t error,
                      uint8_t arrived, uint32_t interface, const uint8_t *packet, uint64_t packet_len);

uint8_t snjofrask_wait_begin(snjofrask_wait *wait, uint32_t interface, uint32_t cid, uint64_t time, uint32_t limit)
{
    uint8_t refusal;

    proved_wait_begin(&refusal, wait, interface, cid, time, limit);
    return refusal;
}

uint8_t snjofrask_wait_elapsed(const snjofrask_wait *wait, uint64_t time)
{
    uint8_t elapsed;

    proved_wait_elapsed(&elapsed, wait, time);
    return elapsed;
}

snjofrask_wait_outcome snjofrask_wait_step(snjofrask_wait *wait, uint64_t time, uint8_t presence, uint8_t error,
                                           uint8_t arrived, uint32_t interface, const uint8_t *packet, size_t packet_len)
{
    snjofrask_wait_outcome outcome;

    proved_wait_step(&outcome, wait, time, presence, error, arrived, interface, packet, packet_len);
    return outcome;
}

/* ---- packets */

void proved_read_packet(proved_outcome *outcome, const uint8_t *packet, uint64_t packet_len);
void proved_packet_count(proved_outcome *outcome, uint64_t len);
void proved_write_packet(uint8_t *refusal, uint32_t cid, uint8_t cmd, const uint8_t *payload, uint64_t payload_len,
                         uint64_t index, uint8_t *packet, uint64_t packet_len);
void proved_split_message(uint8_t *refusal, uint32_t cid, uint8_t cmd, const uint8_t *payload, uint64_t payload_len,
                          uint8_t internal_error, uint64_t index, uint8_t *packet, uint64_t packet_len);

snjofrask_outcome snjofrask_read_packet(const uint8_t *packet, size_t packet_len)
{
    proved_outcome outcome;

    proved_read_packet(&outcome, packet, packet_len);
    return narrowed(outcome);
}

snjofrask_outcome snjofrask_packet_count(size_t len)
{
    proved_outcome outcome;

    proved_packet_count(&outcome, len);
    return narrowed(outcome);
}

uint8_t snjofrask_write_packet(uint32_t cid, uint8_t cmd, const uint8_t *payload, size_t payload_len, size_t index,
                               uint8_t *packet, size_t packet_len)
{
    uint8_t refusal;

    proved_write_packet(&refusal, cid, cmd, payload, payload_len, index, packet, packet_len);
    return refusal;
}

uint8_t snjofrask_split_message(uint32_t cid, uint8_t cmd, const uint8_t *payload, size_t payload_len,
                                uint8_t internal_error, size_t index, uint8_t *packet, size_t packet_len)
{
    uint8_t refusal;

    proved_split_message(&refusal, cid, cmd, payload, payload_len, internal_error, index, packet, packet_len);
    return refusal;
}

/* ---- a host */

void proved_host_read(proved_outcome *outcome, snjofrask_collection *collection, uint32_t cid, const uint8_t *packet,
                      uint64_t packet_len, uint8_t *buffer, uint64_t buffer_len);
void proved_init_reply(snjofrask_init_outcome *outcome, uint8_t cmd, const uint8_t *payload, uint64_t payload_len);

snjofrask_outcome snjofrask_host_read(snjofrask_collection *collection, uint32_t cid, const uint8_t *packet,
                                      size_t packet_len, uint8_t *buffer, size_t buffer_len)
{
    proved_outcome outcome;

    proved_host_read(&outcome, collection, cid, packet, packet_len, buffer, buffer_len);
    return narrowed(outcome);
}

snjofrask_init_outcome snjofrask_init_reply(uint8_t cmd, const uint8_t *payload, size_t payload_len)
{
    snjofrask_init_outcome outcome;

    proved_init_reply(&outcome, cmd, payload, payload_len);
    return outcome;
}

/* ---- Bluetooth */

void proved_ble_fragment_count(proved_outcome *outcome, uint64_t size, uint64_t len);
void proved_ble_write_fragment(proved_outcome *outcome, uint64_t size, uint8_t cmd, const uint8_t *payload, uint64_t payload_len,
                               uint64_t index, uint8_t *buffer, uint64_t buffer_len);
void proved_ble_read_fragment(proved_outcome *outcome, snjofrask_collection *collection, uint64_t size, const uint8_t *fragment,
                              uint64_t fragment_len, uint8_t *buffer, uint64_t buffer_len);

snjofrask_outcome snjofrask_ble_fragment_count(size_t size, size_t len)
{
    proved_outcome outcome;

    proved_ble_fragment_count(&outcome, size, len);
    return narrowed(outcome);
}

snjofrask_outcome snjofrask_ble_write_fragment(size_t size, uint8_t cmd, const uint8_t *payload, size_t payload_len,
                                               size_t index, uint8_t *buffer, size_t buffer_len)
{
    proved_outcome outcome;

    proved_ble_write_fragment(&outcome, size, cmd, payload, payload_len, index, buffer, buffer_len);
    return narrowed(outcome);
}

snjofrask_outcome snjofrask_ble_read_fragment(snjofrask_collection *collection, size_t size, const uint8_t *fragment,
                                              size_t fragment_len, uint8_t *buffer, size_t buffer_len)
{
    proved_outcome outcome;

    proved_ble_read_fragment(&outcome, collection, size, fragment, fragment_len, buffer, buffer_len);
    return narrowed(outcome);
}
