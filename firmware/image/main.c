/*
 * The bench on a key's processor: a device in a main loop without interrupts. It reads lines as docs/RULES.md has them (The
 * bench's lines), and those of crates/replay that set up another device; prints what the bench program prints; and calls
 * nothing but the library and the board.
 */
#include "board.h"
#include "snjofrask.h"
#include <stdbool.h>

#define MOST_DIGITS 15
#define WITH_U2F 1

/* 'time disabled hex' */
#define LONGEST_LINE (MOST_DIGITS + 3 + 2 * SNJOFRASK_PACKET_SIZE)

/* at least so many bytes of a packet are printed */
#define FEWEST_SHOWN 7

/* What a line says. */
struct input {
    uint64_t time;
    uint8_t disabled;
    uint8_t packet[SNJOFRASK_PACKET_SIZE];
};

static snjofrask_device device;
static uint8_t message[SNJOFRASK_LARGEST_PAYLOAD];
static uint8_t reply[SNJOFRASK_SHORT_REPLY_SIZE];

/* ---- output */

static uint8_t output[512];
static size_t filled;

static void flush(void)
{
    board_write(output, filled);
    filled = 0;
}

static void put(uint8_t byte)
{
    if (filled == sizeof output)
        flush();
    output[filled++] = byte;
}

static void put_text(const char *text)
{
    for (; *text != 0; text++)
        put((uint8_t)*text);
}

static void put_hex(const uint8_t *bytes, size_t len)
{
    static const char digits[] = "0123456789abcdef";

    for (size_t i = 0; i < len; i++) {
        put((uint8_t)digits[bytes[i] >> 4]);
        put((uint8_t)digits[bytes[i] & 15]);
    }
}

/* ---- answers */

static void put_packet(const uint8_t *packet)
{
    size_t shown = SNJOFRASK_PACKET_SIZE;

    while (shown > FEWEST_SHOWN && packet[shown - 1] == 0)
        shown--;
    put_text("> ");
    put_hex(packet, shown);
    put('\n');
}

static void put_reply(snjofrask_outcome outcome, const uint8_t *payload)
{
    static uint8_t packet[SNJOFRASK_PACKET_SIZE];

    for (size_t index = 0;
         snjofrask_write_packet(outcome.cid, outcome.cmd, payload, outcome.len, index, packet, sizeof packet) == 0; index++)
        put_packet(packet);
}

static void put_message(snjofrask_outcome outcome)
{
    const uint8_t cid[] = {(uint8_t)(outcome.cid >> 24), (uint8_t)(outcome.cid >> 16), (uint8_t)(outcome.cid >> 8),
                           (uint8_t)outcome.cid};

    put_text("command ");
    put_hex(cid, sizeof cid);
    put(' ');
    put_hex(&outcome.cmd, 1);
    if (outcome.len > 0)
        put(' ');
    put_hex(message, outcome.len);
    put('\n');
}

static void put_refusal(uint8_t refusal)
{
    put_text("refused ");
    if (refusal >= 10)
        put((uint8_t)('0' + refusal / 10));
    put((uint8_t)('0' + refusal % 10));
    put('\n');
}

static void put_outcome(snjofrask_outcome outcome)
{
    switch (outcome.kind) {
    case SNJOFRASK_KIND_REFUSED:
        put_refusal(outcome.refusal);
        break;
    case SNJOFRASK_KIND_NOTHING:
        put_text("-\n");
        break;
    case SNJOFRASK_KIND_MESSAGE:
        put_message(outcome);
        break;
    case SNJOFRASK_KIND_ECHO:
        put_reply(outcome, message);
        break;
    case SNJOFRASK_KIND_REPLY:
        put_reply(outcome, reply);
        break;
    default:
        put_text("outcome?\n");
    }
}

/* ---- lines */

static bool is_digit(uint8_t c)
{
    return c >= '0' && c <= '9';
}

static bool read_digit(uint8_t c, uint8_t *value)
{
    if (is_digit(c))
        *value = (uint8_t)(c - '0');
    else if (c >= 'a' && c <= 'f')
        *value = (uint8_t)(c - 'a' + 10);
    else
        return false;
    return true;
}

/* 1 to 64 bytes; missing ones are 0 */
static bool read_hex(const uint8_t *hex, size_t len, uint8_t *packet)
{
    uint8_t high, low;

    if (len < 2 || len > 2 * SNJOFRASK_PACKET_SIZE || len % 2 != 0)
        return false;
    for (size_t i = 0; i < SNJOFRASK_PACKET_SIZE; i++) {
        packet[i] = 0;
        if (2 * i >= len)
            continue;
        if (!read_digit(hex[2 * i], &high) || !read_digit(hex[2 * i + 1], &low))
            return false;
        packet[i] = (uint8_t)(high << 4 | low);
    }
    return true;
}

static bool read_input(const uint8_t *line, size_t len, struct input *input)
{
    size_t digits = 0;

    input->time = 0;
    for (; digits < len && digits <= MOST_DIGITS && is_digit(line[digits]); digits++)
        input->time = 10 * input->time + (uint64_t)(line[digits] - '0');
    if (digits < 1 || digits > MOST_DIGITS || len < digits + 3)
        return false;
    if (line[digits] != ' ' || line[digits + 2] != ' ')
        return false;
    if (line[digits + 1] != '0' && line[digits + 1] != '1')
        return false;
    input->disabled = line[digits + 1] == '1';
    return read_hex(line + digits + 3, len - digits - 3, input->packet);
}

/* Without vendor commands: the list has no number, wherever it begins. */
static uint8_t make_device(size_t max, uint8_t u2f)
{
    return snjofrask_device_new(&device, max, u2f, message, 0);
}

/* crates/replay's: the time is the maximum, the flag U2F, and the packet begins with the count of channels. It prints nothing. */
static void set_up(const struct input *input)
{
    const uint8_t *count = input->packet;
    const size_t max = input->time > SNJOFRASK_LARGEST_PAYLOAD ? SNJOFRASK_LARGEST_PAYLOAD + 1 : (size_t)input->time;

    if (make_device(max, input->disabled) == 0)
        device.hid.allocated = (uint32_t)count[0] << 24 | (uint32_t)count[1] << 16 | (uint32_t)count[2] << 8 | count[3];
}

static void answer_line(const uint8_t *line, size_t len)
{
    static struct input input;

    if (len > 0 && line[0] == '=') {
        if (read_input(line + 1, len - 1, &input))
            set_up(&input);
    } else if (read_input(line, len, &input)) {
        put_outcome(snjofrask_device_step(&device, input.time, input.disabled, input.packet, sizeof input.packet, message,
                                          sizeof message, reply, sizeof reply));
    } else {
        put_text("line?\n");
    }
}

/* ---- the loop */

/* One byte more than the longest line that is read, by which a longer one is known. */
static uint8_t line[LONGEST_LINE + 1];
static size_t kept;

static void end_line(void)
{
    answer_line(line, kept);
    kept = 0;
}

static void take(uint8_t byte)
{
    if (byte == '\n')
        end_line();
    else if (kept < sizeof line)
        line[kept++] = byte;
}

int main(void)
{
    static uint8_t input[512];

    if (make_device(sizeof message, WITH_U2F) != 0)
        return 1;
    for (;;) {
        const size_t len = board_read(input, sizeof input);

        if (len == 0)
            break;
        for (size_t i = 0; i < len; i++)
            take(input[i]);
        flush();
    }
    if (kept > 0)
        end_line();
    flush();
    return 0;
}
