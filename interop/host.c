/*
 * libfido2, unmodified, as the host of a device on a pipe: host PROGRAM FILE starts the program for each part, and holds
 * what libfido2 reports, the packets that went by, and the requests that the device says in the file it got, to what
 * is expected. It prints what is not so; with -v behind also what was seen.
 */
#include <fido.h>
#include <poll.h>
#include <pthread.h>
#include <signal.h>
#include <stdio.h>
#include <stdlib.h>
#include <string.h>
#include <sys/wait.h>
#include <time.h>
#include <unistd.h>

#define PACKET 64
#define LARGEST 7609

static const char *program, *requests;
static int verbose, failures;

/* the packets that went by since they were last forgotten */
static struct {
    long written, read, keepalives, cancels;
    unsigned char first_written[PACKET], last_read[PACKET];
    size_t declared; /* by the last first packet that was written and no CANCEL */
    size_t answered; /* by the last first packet that was read and no KEEPALIVE */
    int other_channel; /* packets written, but for INIT, that are not of channel 1 */
    unsigned char message[LARGEST + PACKET]; /* the data of the packets from that first packet on */
    size_t collected;
    int command;
} seen;

#define CHECK(test) check(test, #test, __LINE__)

static void check(int holds, const char *text, int line)
{
    if (!holds) {
        fprintf(stderr, "interop/host.c:%d: not so: %s\n", line, text);
        failures++;
    }
}

static void say(const char *what, const char *result)
{
    if (verbose)
        printf("%s: %s; %ld packets written (%zu bytes declared), %ld read (%zu bytes declared), %ld of them KEEPALIVEs\n", what,
               result, seen.written, seen.declared, seen.read, seen.answered, seen.keepalives);
}

/* ---- the pipe, in place of USB */

struct pipes {
    int in, out;
    pid_t child;
};

static void *pipe_open(const char *path)
{
    struct pipes *pipes = calloc(1, sizeof *pipes);
    int down[2], up[2];

    if (pipes == NULL || pipe(down) != 0 || pipe(up) != 0)
        return NULL;
    pipes->child = fork();
    if (pipes->child == 0) {
        dup2(down[0], 0);
        dup2(up[1], 1);
        close(down[0]);
        close(down[1]);
        close(up[0]);
        close(up[1]);
        execl(path, path, (char *)NULL);
        _exit(127);
    }
    close(down[0]);
    close(up[1]);
    pipes->out = down[1];
    pipes->in = up[0];
    return pipes;
}

/* the device ends at the end of its input, with status 0 */
static void pipe_close(void *handle)
{
    struct pipes *pipes = handle;
    int status = -1;

    close(pipes->out);
    CHECK(waitpid(pipes->child, &status, 0) == pipes->child);
    CHECK(WIFEXITED(status) && WEXITSTATUS(status) == 0);
    close(pipes->in);
    free(pipes);
}

static size_t declared(const unsigned char *packet)
{
    return (size_t)packet[5] << 8 | packet[6];
}

static int pipe_read(void *handle, unsigned char *packet, size_t len, int ms)
{
    struct pipes *pipes = handle;
    struct pollfd ready = {pipes->in, POLLIN, 0};
    size_t taken = 0;

    if (len != PACKET || poll(&ready, 1, ms) < 1)
        return -1;
    while (taken < PACKET) {
        ssize_t count = read(pipes->in, packet + taken, PACKET - taken);
        if (count <= 0)
            return -1;
        taken += (size_t)count;
    }
    seen.read++;
    memcpy(seen.last_read, packet, PACKET);
    if (packet[4] == 0xBB)
        seen.keepalives += memcmp(packet, "\0\0\0\1\xbb\0\1\2", 8) == 0;
    else if (packet[4] >= 0x80)
        seen.answered = declared(packet);
    return PACKET;
}

/* libfido2 writes a report id, 0, before the packet */
static int pipe_write(void *handle, const unsigned char *report, size_t len)
{
    struct pipes *pipes = handle;
    const unsigned char *packet = report + 1;

    if (len != PACKET + 1 || report[0] != 0)
        return -1;
    if (seen.written++ == 0)
        memcpy(seen.first_written, packet, PACKET);
    if (packet[4] == 0x91) {
        seen.cancels++;
    } else if (packet[4] >= 0x80) {
        seen.declared = declared(packet);
        seen.command = packet[4] - 0x80;
        memcpy(seen.message, packet + 7, 57);
        seen.collected = 57;
    } else if (seen.collected + 59 <= sizeof seen.message) {
        CHECK(packet[4] == (seen.collected - 57) / 59);
        memcpy(seen.message + seen.collected, packet + 5, 59);
        seen.collected += 59;
    }
    if (memcmp(packet, "\0\0\0\1", 4) != 0 && packet[4] != 0x86)
        seen.other_channel++;
    /* last, as the answer may come at once, and CANCEL is written by another thread */
    return write(pipes->out, packet, PACKET) == PACKET ? (int)len : -1;
}

/* the device got what the packets held: the last line of its file is that message */
static int arrived(void)
{
    static char line[20 + 2 * LARGEST], last[20 + 2 * LARGEST], wanted[20 + 2 * LARGEST];
    FILE *file = fopen(requests, "r");
    size_t at = (size_t)sprintf(wanted, "00000001 %02x ", (unsigned)seen.command);

    if (file == NULL || seen.declared > seen.collected)
        return 0;
    while (fgets(line, sizeof line, file) != NULL)
        strcpy(last, line);
    fclose(file);
    for (size_t i = 0; i < seen.declared; i++)
        at += (size_t)sprintf(wanted + at, "%02x", seen.message[i]);
    strcpy(wanted + at, "\n");
    return strcmp(last, wanted) == 0;
}

static void forget(void)
{
    CHECK(seen.other_channel == 0);
    memset(&seen, 0, sizeof seen);
}

static fido_dev_t *start(const char *touch, const char *timeout)
{
    const fido_dev_io_t io = {pipe_open, pipe_close, pipe_read, pipe_write};
    fido_dev_t *dev = fido_dev_new();
    int result;

    setenv("SNJOFRASK_TOUCH", touch, 1);
    setenv("SNJOFRASK_TOUCH_TIMEOUT", timeout, 1);
    forget();
    if (dev == NULL || fido_dev_set_io_functions(dev, &io) != FIDO_OK || (result = fido_dev_open(dev, program)) != FIDO_OK) {
        fprintf(stderr, "interop/host.c: %s can't be opened as a device\n", program);
        exit(1);
    }
    say("open", fido_strerr(result));
    return dev;
}

static void stop(fido_dev_t *dev)
{
    forget();
    CHECK(fido_dev_close(dev) == FIDO_OK);
    fido_dev_free(&dev);
}

/* ---- what is asked */

/* makeCredential, whose length a name of this many letters sets */
static int make_credential(fido_dev_t *dev, size_t letters)
{
    static const unsigned char hash[32] = {1}, id[32] = {2};
    char *name = calloc(1, letters + 1);
    fido_cred_t *cred = fido_cred_new();
    int result;

    memset(name, 'n', letters);
    CHECK(fido_cred_set_type(cred, COSE_ES256) == FIDO_OK);
    CHECK(fido_cred_set_clientdata_hash(cred, hash, sizeof hash) == FIDO_OK);
    CHECK(fido_cred_set_rp(cred, "example.org", "x") == FIDO_OK);
    CHECK(fido_cred_set_user(cred, id, sizeof id, name, NULL, NULL) == FIDO_OK);
    forget();
    result = fido_dev_make_cred(dev, cred, NULL);
    say("makeCredential", fido_strerr(result));
    CHECK(arrived() == (seen.declared <= LARGEST));
    fido_cred_free(&cred);
    free(name);
    return result;
}

static int get_assertion(fido_dev_t *dev)
{
    static const unsigned char hash[32] = {1};
    fido_assert_t *assertion = fido_assert_new();
    int result;

    CHECK(fido_assert_set_clientdata_hash(assertion, hash, sizeof hash) == FIDO_OK);
    CHECK(fido_assert_set_rp(assertion, "example.org") == FIDO_OK);
    forget();
    result = fido_dev_get_assert(dev, assertion, NULL);
    say("getAssertion", fido_strerr(result));
    CHECK(arrived());
    fido_assert_free(&assertion);
    return result;
}

static void get_info(fido_dev_t *dev)
{
    fido_cbor_info_t *info = fido_cbor_info_new();
    int result;

    forget();
    result = fido_dev_get_cbor_info(dev, info);
    say("getInfo", fido_strerr(result));
    CHECK(result == FIDO_OK && arrived());
    CHECK(seen.written == 1 && seen.declared == 1 && seen.read == 2 && seen.answered > 57);
    CHECK(fido_cbor_info_versions_len(info) == 2);
    if (fido_cbor_info_versions_len(info) == 2) {
        CHECK(strcmp(fido_cbor_info_versions_ptr(info)[0], "U2F_V2") == 0);
        CHECK(strcmp(fido_cbor_info_versions_ptr(info)[1], "FIDO_2_0") == 0);
    }
    CHECK(fido_cbor_info_aaguid_len(info) == 16);
    CHECK(memcmp(fido_cbor_info_aaguid_ptr(info), "snjofrask-device", 16) == 0);
    CHECK(fido_cbor_info_options_len(info) == 2);
    CHECK(fido_cbor_info_maxmsgsiz(info) == LARGEST);
    CHECK(fido_cbor_info_transports_len(info) == 1);
    CHECK(fido_cbor_info_algorithm_count(info) == 1 && fido_cbor_info_algorithm_cose(info, 0) == COSE_ES256);
    fido_cbor_info_free(&info);
}

/*
 * A vendor command, for which libfido2 has no call: its packets are written on the channel that libfido2 has opened,
 * through the same pipe, and the one packet of the reply is read there.
 */
static void ask_vendor(fido_dev_t *dev, unsigned char cmd, const char *payload, size_t len)
{
    void *handle = fido_dev_io_handle(dev);
    unsigned char packet[PACKET];
    size_t at = 0;

    forget();
    for (size_t index = 0; index == 0 || at < len; index++) {
        unsigned char report[1 + PACKET] = {0, 0, 0, 0, 1};
        size_t head = index == 0 ? 8 : 6, part = sizeof report - head;

        report[5] = index == 0 ? 0x80 | cmd : (unsigned char)(index - 1);
        if (index == 0) {
            report[6] = (unsigned char)(len >> 8);
            report[7] = (unsigned char)len;
        }
        if (part > len - at)
            part = len - at;
        memcpy(report + head, payload + at, part);
        at += part;
        CHECK(pipe_write(handle, report, sizeof report) == sizeof report);
    }
    CHECK(pipe_read(handle, packet, PACKET, 20000) == PACKET);
    say("vendor command", "by hand");
}

/* the packet that was read last begins so, and has 0 behind it */
static int was_read(const char *front, size_t len)
{
    unsigned char wanted[PACKET] = {0};

    memcpy(wanted, front, len);
    return memcmp(seen.last_read, wanted, PACKET) == 0;
}

/* ---- the parts */

/* INIT's fields, by libfido2, and its packets */
static void opens(void)
{
    fido_dev_t *dev = start("now", "30000");

    CHECK(memcmp(seen.first_written, "\xff\xff\xff\xff\x86\x00\x08", 7) == 0);
    CHECK(fido_dev_protocol(dev) == 2);
    CHECK(fido_dev_major(dev) == 1 && fido_dev_minor(dev) == 0 && fido_dev_build(dev) == 0);
    CHECK(fido_dev_flags(dev) == (FIDO_CAP_WINK | FIDO_CAP_CBOR));
    CHECK(fido_dev_is_fido2(dev) && !fido_dev_is_winhello(dev));
    get_info(dev);
    stop(dev);
}

/* requests of more packets than one, up to the longest */
static void long_requests(void)
{
    static const size_t wanted[] = {175, 176, 1000, 4096, LARGEST - 1, LARGEST};
    fido_dev_t *dev = start("now", "30000");
    size_t around;

    CHECK(make_credential(dev, 1000) == FIDO_ERR_KEY_STORE_FULL);
    around = seen.declared - 1000;
    for (size_t i = 0; i < sizeof wanted / sizeof *wanted; i++) {
        /* below 256 letters CBOR has a byte less for their count */
        size_t letters = wanted[i] - around + (wanted[i] - around < 256);

        CHECK(make_credential(dev, letters) == FIDO_ERR_KEY_STORE_FULL);
        CHECK(seen.declared == wanted[i] && seen.written == (long)(1 + (wanted[i] + 1) / 59));
        CHECK(seen.read == 1 && seen.answered == 1 && seen.keepalives == 0);
    }
    CHECK(get_assertion(dev) == FIDO_ERR_NO_CREDENTIALS);
    get_info(dev);
    stop(dev);
}

/* a byte more than the longest: libfido2 gives up at the packet that has no number, and the next request meets the error */
static void too_long(void)
{
    fido_dev_t *dev = start("now", "30000");
    fido_cbor_info_t *info = fido_cbor_info_new();

    CHECK(make_credential(dev, 1000) == FIDO_ERR_KEY_STORE_FULL);
    CHECK(make_credential(dev, LARGEST + 1 - (seen.declared - 1000)) == FIDO_ERR_TX);
    CHECK(seen.declared == LARGEST + 1 && seen.written == 129 && seen.read == 0);
    CHECK(fido_dev_get_cbor_info(dev, info) == FIDO_ERR_RX);
    CHECK(seen.read == 1 && memcmp(seen.last_read, "\0\0\0\1\xbf\0\1\3", 8) == 0);
    fido_cbor_info_free(&info);
    stop(dev);
}

/* U2F over MSG: the device knows no command but the version */
static void u2f(void)
{
    fido_dev_t *dev = start("now", "30000");

    fido_dev_force_u2f(dev);
    CHECK(make_credential(dev, 10) == FIDO_ERR_RX);
    CHECK(seen.command == 3 && memcmp(seen.last_read, "\0\0\0\1\x83\0\2\x6d\0", 9) == 0);
    stop(dev);
}

/*
 * A touch after a while: KEEPALIVEs, and then the answer; and none at all. They are 100 ms apart or, on a slow machine, more.
 * The sixth is due when the touch comes, which goes before it; where none comes it is still sent, and then the time is over.
 */
static void touches(void)
{
    fido_dev_t *dev = start("600", "30000");

    CHECK(make_credential(dev, 10) == FIDO_ERR_KEY_STORE_FULL);
    CHECK(seen.keepalives >= 1 && seen.keepalives <= 5 && seen.read == seen.keepalives + 1);
    stop(dev);

    dev = start("none", "600");
    CHECK(get_assertion(dev) == FIDO_ERR_USER_ACTION_TIMEOUT);
    CHECK(seen.keepalives >= 1 && seen.keepalives <= 6 && seen.read == seen.keepalives + 1);
    get_info(dev);
    stop(dev);
}

static void *cancel(void *dev)
{
    const struct timespec while_it_waits = {0, 600000000};

    nanosleep(&while_it_waits, NULL);
    CHECK(fido_dev_cancel(dev) == FIDO_OK);
    return NULL;
}

static void is_cancelled(void)
{
    fido_dev_t *dev = start("none", "30000");
    pthread_t canceller;

    CHECK(pthread_create(&canceller, NULL, cancel, dev) == 0);
    CHECK(make_credential(dev, 1000) == FIDO_ERR_KEEPALIVE_CANCEL);
    CHECK(pthread_join(canceller, NULL) == 0);
    CHECK(seen.cancels == 1 && seen.keepalives >= 1 && seen.read == seen.keepalives + 1);
    get_info(dev);
    stop(dev);
}

/* command 40: a label is set, of 32 bytes too, and read; one of 57 bytes, in two packets, is not taken. 41 is not known */
static void label(void)
{
    static const char long_label[] = "\1the key of gate 3, second drawer", too_long[58] = {1};
    fido_dev_t *dev = start("now", "30000");

    ask_vendor(dev, 0x40, "\0", 1);
    CHECK(arrived() && was_read("\0\0\0\1\xc0\0\1\0", 8));
    ask_vendor(dev, 0x40, "\1gate 3", 7);
    CHECK(arrived() && was_read("\0\0\0\1\xc0\0\1\0", 8));
    ask_vendor(dev, 0x40, "\0", 1);
    CHECK(arrived() && was_read("\0\0\0\1\xc0\0\7\0gate 3", 14));

    CHECK(sizeof long_label - 1 == 33);
    ask_vendor(dev, 0x40, long_label, 33);
    CHECK(arrived() && was_read("\0\0\0\1\xc0\0\1\0", 8));
    ask_vendor(dev, 0x40, too_long, sizeof too_long);
    CHECK(seen.written == 2 && arrived() && was_read("\0\0\0\1\xc0\0\1\2", 8));
    ask_vendor(dev, 0x40, "\0", 1);
    CHECK(arrived() && was_read("\0\0\0\1\xc0\0\41\0the key of gate 3, second drawer", 40));

    ask_vendor(dev, 0x41, "\0", 1);
    CHECK(!arrived() && was_read("\0\0\0\1\xbf\0\1\1", 8));
    /* libfido2 goes on where it was */
    get_info(dev);
    stop(dev);
}

int main(int argc, char **argv)
{
    if (argc < 3)
        return 2;
    program = argv[1];
    requests = argv[2];
    setenv("SNJOFRASK_REQUESTS", requests, 1);
    verbose = argc > 3 && strcmp(argv[3], "-v") == 0;
    signal(SIGPIPE, SIG_IGN);
    fido_init(getenv("FIDO_DEBUG") != NULL ? FIDO_DEBUG : 0);
    opens();
    long_requests();
    too_long();
    u2f();
    touches();
    is_cancelled();
    label();
    return failures == 0 ? 0 : 1;
}
