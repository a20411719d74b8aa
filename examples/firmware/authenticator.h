/* What stands in for an authenticator: a table of answers, that of examples/device/README.md. */
#ifndef AUTHENTICATOR_H
#define AUTHENTICATOR_H

#include <stdbool.h>
#include <stddef.h>
#include <stdint.h>

/* CTAP2_ERR_VENDOR_INTERNAL_ERROR, as OpenSK has it: the answer in place of one that is too long for CTAPHID. */
#define AUTHENTICATOR_INTERNAL_ERROR 0xF2

/* The vendor command that it knows: a label of up to 32 bytes, which a host reads and sets. */
#define AUTHENTICATOR_CMD_LABEL 0x40

/* An answer, which stays as it is until the next request, and whether it is only for a user who touches the button. */
struct authenticator_answer {
    const uint8_t *bytes;
    size_t len;
    bool wants_touch;
};

/* The host gave the request up. */
extern const struct authenticator_answer authenticator_cancelled;

/* No touch came in time. */
extern const struct authenticator_answer authenticator_timed_out;

/* The answer to MSG, CBOR or the vendor command. Nothing of the payload is needed once it returns. */
struct authenticator_answer authenticator_ask(uint8_t cmd, const uint8_t *payload, size_t len);

#endif
