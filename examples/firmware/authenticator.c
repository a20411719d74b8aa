/* The answers of examples/device/README.md, byte for byte. */
#include "authenticator.h"
#include "snjofrask.h"

/* CTAP2 status bytes */
static const uint8_t ok[] = {0x00};
static const uint8_t invalid_command[] = {0x01};
static const uint8_t invalid_length[] = {0x03};
static const uint8_t key_store_full[] = {0x28};
static const uint8_t keepalive_cancel[] = {0x2D};
static const uint8_t no_credentials[] = {0x2E};
static const uint8_t user_action_timeout[] = {0x2F};

/* status 0, and a map of six: longer than a packet holds */
static const uint8_t info[] = {
    0x00, 0xA6,
    /* 1: ["U2F_V2", "FIDO_2_0"] */
    0x01, 0x82, 0x66, 'U', '2', 'F', '_', 'V', '2', 0x68, 'F', 'I', 'D', 'O', '_', '2', '_', '0',
    /* 3: AAGUID */
    0x03, 0x50, 's', 'n', 'j', 'o', 'f', 'r', 'a', 's', 'k', '-', 'd', 'e', 'v', 'i', 'c', 'e',
    /* 4: {"rk": false, "up": true} */
    0x04, 0xA2, 0x62, 'r', 'k', 0xF4, 0x62, 'u', 'p', 0xF5,
    /* 5: 7609 */
    0x05, 0x19, 0x1D, 0xB9,
    /* 9: ["usb"] */
    0x09, 0x81, 0x63, 'u', 's', 'b',
    /* 10: [{"alg": -7, "type": "public-key"}] */
    0x0A, 0x81, 0xA2, 0x63, 'a', 'l', 'g', 0x26, 0x64, 't', 'y', 'p', 'e', 0x6A, 'p', 'u', 'b', 'l', 'i', 'c', '-', 'k',
    'e', 'y'};

/* U2F: data, and a status of two bytes */
static const uint8_t u2f_version[] = {'U', '2', 'F', '_', 'V', '2', 0x90, 0x00};
static const uint8_t ins_not_supported[] = {0x6D, 0x00};
static const uint8_t cla_not_supported[] = {0x6E, 0x00};

/* the label's own: what is asked, and why it isn't done */
#define READ_LABEL 0x00
#define SET_LABEL 0x01
static const uint8_t no_such_operation[] = {0x01};
static const uint8_t wrong_length[] = {0x02};

/* the answer to a host that reads the label: status 0, and the label, which is empty at first and lasts until the device ends */
static uint8_t labelled[1 + 32] = {0x00};
static size_t labelled_len = 1;

const struct authenticator_answer authenticator_cancelled = {keepalive_cancel, sizeof keepalive_cancel, false};
const struct authenticator_answer authenticator_timed_out = {user_action_timeout, sizeof user_action_timeout, false};

static struct authenticator_answer at_once(const uint8_t *bytes, size_t len)
{
    return (struct authenticator_answer){bytes, len, false};
}

static struct authenticator_answer after_touch(const uint8_t *bytes, size_t len)
{
    return (struct authenticator_answer){bytes, len, true};
}

static bool is_version_request(const uint8_t *apdu, size_t len)
{
    if (len < 4 || apdu[0] != 0 || apdu[1] != 0x03 || apdu[2] != 0 || apdu[3] != 0)
        return false;
    /* no data; the length that is expected in 0, 1 or 3 bytes */
    return len == 4 || len == 5 || (len == 7 && apdu[4] == 0);
}

static struct authenticator_answer ask_u2f(const uint8_t *apdu, size_t len)
{
    if (is_version_request(apdu, len))
        return at_once(u2f_version, sizeof u2f_version);
    if (len > 0 && apdu[0] != 0)
        return at_once(cla_not_supported, sizeof cla_not_supported);
    return at_once(ins_not_supported, sizeof ins_not_supported);
}

static struct authenticator_answer ask_ctap2(const uint8_t *request, size_t len)
{
    if (len == 0)
        return at_once(invalid_length, sizeof invalid_length);
    if (request[0] == 0x01)
        return after_touch(key_store_full, sizeof key_store_full);
    if (request[0] == 0x02)
        return after_touch(no_credentials, sizeof no_credentials);
    if (request[0] == 0x04 && len == 1)
        return at_once(info, sizeof info);
    if (request[0] == 0x0B && len == 1)
        return after_touch(ok, sizeof ok);
    return at_once(invalid_command, sizeof invalid_command);
}

static struct authenticator_answer set_label(const uint8_t *label, size_t len)
{
    if (len > sizeof labelled - 1)
        return at_once(wrong_length, sizeof wrong_length);
    for (size_t i = 0; i < len; i++)
        labelled[1 + i] = label[i];
    labelled_len = 1 + len;
    return at_once(ok, sizeof ok);
}

static struct authenticator_answer ask_label(const uint8_t *request, size_t len)
{
    if (len == 0)
        return at_once(wrong_length, sizeof wrong_length);
    if (request[0] == SET_LABEL)
        return set_label(request + 1, len - 1);
    if (request[0] != READ_LABEL)
        return at_once(no_such_operation, sizeof no_such_operation);
    if (len > 1)
        return at_once(wrong_length, sizeof wrong_length);
    return at_once(labelled, labelled_len);
}

struct authenticator_answer authenticator_ask(uint8_t cmd, const uint8_t *payload, size_t len)
{
    if (cmd == SNJOFRASK_CMD_MSG)
        return ask_u2f(payload, len);
    if (cmd == AUTHENTICATOR_CMD_LABEL)
        return ask_label(payload, len);
    return ask_ctap2(payload, len);
}
