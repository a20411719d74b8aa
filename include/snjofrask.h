/*
 * Snjofrask: FIDO messages over USB HID in packets of 64 bytes (CTAPHID), and over Bluetooth in fragments, for C11 and C++17.
 * SPDX-License-Identifier: Apache-2.0
 *
 * Link the libsnjofrask.a of your processor. `firmware/build TARGET` writes it, for x86-64 (System V, as `x86_64`), Cortex-M4,
 * Cortex-M33, RISC-V of 32 bits and AArch64: firmware/README.md. Each allocates nothing and keeps nothing between calls. Those
 * for x86-64 and AArch64 call nothing outside, the others memcpy and its like.
 * A key with two interfaces links libsnjofrask_key.a besides (at the end of this file), of which all this holds too.
 * examples/firmware is a main loop over it, docs/RULES.md has all rules.
 *
 * What is proved holds for callers that keep to this:
 *  - Every pointer is valid for the count after it, or for its struct, is aligned as its type, and is not null, also
 *    where the count is 0.
 *  - What a call may write (a pointer that is not const) overlaps nothing else that is lent to the same call.
 *  - A call takes up to SNJOFRASK_STACK_SIZE bytes of stack, one of libsnjofrask_key.a up to SNJOFRASK_KEY_STACK_SIZE, and
 *    what memcpy takes. On x86-64 up to 128 of these may lie below the stack pointer (the red zone): an interrupt handler on
 *    the same stack has to skip them, or run on a stack of its own. Elsewhere nothing lies there.
 *  - Vector registers are used on x86-64 (xmm0 to xmm15) and on AArch64, and left with other contents, as the calling
 *    convention allows. An interrupt handler or a kernel that calls in has to save them as it saves the others. On Cortex-M
 *    no floating-point register is touched.
 *
 * A state (a transport, a device or a key) comes from its _new entry and is altered by calls alone. Whatever else stands
 * there does no harm: a step refuses it with 2, where its max is more than the message buffer has, or with 3, where it makes
 * no sense; contents that happen to make sense are taken for a state. All zeros make sense: a device, and a key on both
 * interfaces, with a maximum of 0, without U2F or vendor commands, which tells every INIT that it is too long. A collection
 * that is all zeros is a fresh one. A wait makes sense whatever stands there.
 *
 * Threads: there are no globals. Calls over different structs and buffers may run at once; a struct and its buffers
 * serve one call at a time, a key with its two interfaces too.
 *
 * Time is in whole milliseconds from any beginning, at most SNJOFRASK_LAST_TIME_MS, and never goes back for a state or a wait.
 *
 * A flag is a number, and is set where it is not 0.
 */
#ifndef SNJOFRASK_H
#define SNJOFRASK_H

#ifdef __cplusplus
#if __cplusplus < 201703L
#error "snjofrask.h is for C++17 or later: compile with -std=c++17"
#endif
#elif !defined(__STDC_VERSION__) || __STDC_VERSION__ < 201112L
#error "snjofrask.h is for C11 or later: compile with -std=c11"
#endif

/*
 * The processors that there is an archive for. SNJOFRASK_ENTRY: the archive's calling convention, whatever the caller is
 * compiled for (-mabi=ms, -mfloat-abi=hard). SNJOFRASK_STACK_SIZE: bytes of stack that a call takes at most, with the
 * return address and the red zone where there are such, and without what memcpy and its like take. SNJOFRASK_KEY_STACK_SIZE:
 * the same of libsnjofrask_key.a.
 */
#if defined(__x86_64__) && !defined(__ILP32__) && !defined(_WIN32) && !defined(__CYGWIN__)
#define SNJOFRASK_ENTRY __attribute__((sysv_abi))
#define SNJOFRASK_STACK_SIZE 457
#define SNJOFRASK_KEY_STACK_SIZE 521
#elif defined(__ARM_EABI__) && defined(__thumb2__) && !defined(__ARM_BIG_ENDIAN) && __ARM_ARCH_PROFILE == 'M' && \
    (__ARM_ARCH >= 8 || defined(__ARM_FEATURE_DSP))
#define SNJOFRASK_ENTRY __attribute__((pcs("aapcs")))
#define SNJOFRASK_STACK_SIZE 584
#define SNJOFRASK_KEY_STACK_SIZE 600
#elif defined(__riscv) && __riscv_xlen == 32 && !defined(__riscv_32e) && defined(__riscv_mul) && defined(__riscv_compressed) && \
    defined(__riscv_float_abi_soft)
#define SNJOFRASK_ENTRY
#define SNJOFRASK_STACK_SIZE 544
#define SNJOFRASK_KEY_STACK_SIZE 624
#elif defined(__aarch64__) && defined(__LP64__) && !defined(__AARCH64EB__) && !defined(__APPLE__)
#define SNJOFRASK_ENTRY
#define SNJOFRASK_STACK_SIZE 528
#define SNJOFRASK_KEY_STACK_SIZE 544
#else
#error "there is no libsnjofrask.a for this processor and calling convention: firmware/README.md says for which there is"
#endif

#include <stddef.h>
#include <stdint.h>

#ifdef __cplusplus
#define SNJOFRASK_ASSERT(test) static_assert(test, #test)
#define SNJOFRASK_ALIGNMENT(type) alignof(type)
extern "C" {
#else
#define SNJOFRASK_ASSERT(test) _Static_assert(test, #test)
#define SNJOFRASK_ALIGNMENT(type) _Alignof(type)
#endif

/* ---- numbers */

/* Of the library: header and archives belong together. */
#define SNJOFRASK_VERSION "0.12.0"
#define SNJOFRASK_VERSION_MAJOR 0
#define SNJOFRASK_VERSION_MINOR 12
#define SNJOFRASK_VERSION_PATCH 0

/* Limits: bytes and milliseconds. */
#define SNJOFRASK_PACKET_SIZE 64
#define SNJOFRASK_LARGEST_PAYLOAD 7609
#define SNJOFRASK_TIMEOUT_MS 100
#define SNJOFRASK_WINK_TIMEOUT_MS 5000
#define SNJOFRASK_LAST_TIME_MS 0xFFFFFFFFFFFF

/* The short reply buffer has at least this many bytes, and a device's reply to INIT exactly so many. What a host reads as one
   has at least so many. */
#define SNJOFRASK_SHORT_REPLY_SIZE 17

/* What the reply to INIT says before the capabilities: the version of CTAPHID, and of the device. All four are fixed, as in
   OpenSK, and have nothing to do with the library's version. */
#define SNJOFRASK_INIT_PROTOCOL 2
#define SNJOFRASK_INIT_MAJOR 1
#define SNJOFRASK_INIT_MINOR 0
#define SNJOFRASK_INIT_BUILD 0

/* The channel on which a host asks for one of its own. */
#define SNJOFRASK_CHANNEL_BROADCAST 0xFFFFFFFF

/* Commands, in the order of CTAP 2.1, section 11.2.9. A device takes any other for ERROR, but for the vendor's. ERROR and KEEPALIVE
 * are no requests: such a message, and a vendor command that set-up doesn't list, is told INVALID_CMD at its first packet. */
#define SNJOFRASK_CMD_MSG 0x03
#define SNJOFRASK_CMD_CBOR 0x10
#define SNJOFRASK_CMD_INIT 0x06
#define SNJOFRASK_CMD_PING 0x01
#define SNJOFRASK_CMD_CANCEL 0x11
#define SNJOFRASK_CMD_ERROR 0x3F
#define SNJOFRASK_CMD_KEEPALIVE 0x3B
#define SNJOFRASK_CMD_WINK 0x08
#define SNJOFRASK_CMD_LOCK 0x04

/* Vendor commands, the first and the last. Set-up says which of them a device knows. */
#define SNJOFRASK_CMD_VENDOR_FIRST 0x40
#define SNJOFRASK_CMD_VENDOR_LAST 0x7F

/* Over Bluetooth: bytes of a fragment, and of a message's payload. */
#define SNJOFRASK_BLE_SMALLEST_FRAGMENT 20
#define SNJOFRASK_BLE_LARGEST_FRAGMENT 512
#define SNJOFRASK_BLE_LARGEST_PAYLOAD 65535

/* Commands there, in the order of CTAP 2.1, section 11.4: the whole byte. MSG is for CTAP2 and for U2F. */
#define SNJOFRASK_BLE_CMD_PING 0x81
#define SNJOFRASK_BLE_CMD_KEEPALIVE 0x82
#define SNJOFRASK_BLE_CMD_MSG 0x83
#define SNJOFRASK_BLE_CMD_CANCEL 0xBE
#define SNJOFRASK_BLE_CMD_ERROR 0xBF

/* Errors: the one byte of a reply with command ERROR. */
#define SNJOFRASK_ERR_INVALID_CMD 0x01
#define SNJOFRASK_ERR_INVALID_PAR 0x02
#define SNJOFRASK_ERR_INVALID_LEN 0x03
#define SNJOFRASK_ERR_INVALID_SEQ 0x04
#define SNJOFRASK_ERR_MSG_TIMEOUT 0x05
#define SNJOFRASK_ERR_CHANNEL_BUSY 0x06
#define SNJOFRASK_ERR_INVALID_CHANNEL 0x0B

/* Capabilities, in the last byte of the reply to INIT. A device reports WINK and CBOR, and without U2F NMSG as well. */
#define SNJOFRASK_CAPABILITY_WINK 0x01
#define SNJOFRASK_CAPABILITY_CBOR 0x04
#define SNJOFRASK_CAPABILITY_NMSG 0x08

/* Why a device is not done yet: the byte of a KEEPALIVE. */
#define SNJOFRASK_STATUS_PROCESSING 0x01
#define SNJOFRASK_STATUS_UPNEEDED 0x02

/* Refusals: the call was wrong, and has altered nothing. 0 is none. */
#define SNJOFRASK_REFUSAL_PACKET_SIZE 1      /* a packet, read or written, that isn't 64 bytes */
#define SNJOFRASK_REFUSAL_SHORT_BUFFER 2     /* a message buffer below the maximum, a reply buffer below 17 bytes, or
                                                Bluetooth: a buffer below the fragment size */
#define SNJOFRASK_REFUSAL_UNSOUND 3          /* a state or a collection, a host's or Bluetooth's, that makes no sense */
#define SNJOFRASK_REFUSAL_TIME 4             /* above SNJOFRASK_LAST_TIME_MS, or before an earlier step or a wait's beginning */
#define SNJOFRASK_REFUSAL_MAXIMUM 5          /* set-up with a maximum above 7,609 */
#define SNJOFRASK_REFUSAL_INDEX 6            /* an index of a packet or a fragment at or past the count */
#define SNJOFRASK_REFUSAL_LONG_PAYLOAD 7     /* a payload of over 7,609 bytes, or Bluetooth: of over 65,535 */
/* 8 is not used again. It was for a PING too long to be echoed, and no step can have one. */
#define SNJOFRASK_REFUSAL_SEQUENCE 9         /* host: a wrong number, or a first packet inside a reply */
#define SNJOFRASK_REFUSAL_LONG_REPLY 10      /* host: a reply that the buffer can't hold, or a KEEPALIVE not of 1 byte */
#define SNJOFRASK_REFUSAL_NOT_INIT 11        /* host: not a reply to INIT, or one below 17 or above 7,609 bytes */
#define SNJOFRASK_REFUSAL_COMMAND 12         /* a command above 127 to be sent, or Bluetooth: none of the five */
#define SNJOFRASK_REFUSAL_VENDOR 13          /* set-up with a vendor command below 64 or above 127 */
#define SNJOFRASK_REFUSAL_FRAGMENT_SIZE 14   /* Bluetooth: a fragment size below 20 or above 512 */
#define SNJOFRASK_REFUSAL_FRAGMENT_LENGTH 15 /* Bluetooth: a fragment that is too short for its head, or above the size */
#define SNJOFRASK_REFUSAL_FRAGMENT_NUMBER 16 /* Bluetooth: a wrong number, a continuation with none begun, or a first fragment
                                                inside a message */
#define SNJOFRASK_REFUSAL_LONG_MESSAGE 17    /* Bluetooth: a declared length above the buffer */
#define SNJOFRASK_REFUSAL_EXCESS 18          /* Bluetooth: more data than remains due */

/* Kinds of outcome, and which fields say something. The others are 0. */
#define SNJOFRASK_KIND_REFUSED 0             /* refusal */
#define SNJOFRASK_KIND_NOTHING 1             /* nothing is to be sent */
#define SNJOFRASK_KIND_MESSAGE 2             /* the caller is to answer: cid, cmd, and len bytes of the message buffer */
#define SNJOFRASK_KIND_ECHO 3                /* to be sent: cid, cmd, and len bytes of the message buffer */
#define SNJOFRASK_KIND_REPLY 4               /* to be sent: cid, cmd, and len bytes of the reply buffer */
#define SNJOFRASK_KIND_FIRST 5               /* a first packet: cid, cmd, declared length in len; data from byte 7 on */
#define SNJOFRASK_KIND_CONTINUATION 6        /* a continuation packet: cid, its number in cmd; data from byte 5 on */
#define SNJOFRASK_KIND_COUNT 7               /* len: how many packets or fragments, or how many bytes a fragment has */
#define SNJOFRASK_KIND_IGNORED 8             /* host: of another channel, or a continuation before a first packet */
#define SNJOFRASK_KIND_KEEPALIVE 9           /* host: not done yet, status in cmd */
#define SNJOFRASK_KIND_WAITING 10            /* host, Bluetooth: taken, and more is due */
#define SNJOFRASK_KIND_COLLECTED 11          /* host, Bluetooth: a whole reply or message: cmd, and len bytes of the buffer */

/* What the touch sensor says. Any other number is taken for FAILED. */
#define SNJOFRASK_PRESENCE_TIMEOUT 0         /* no touch so far */
#define SNJOFRASK_PRESENCE_TOUCHED 1
#define SNJOFRASK_PRESENCE_FAILED 2

/* What a step makes of a wait for a touch. */
#define SNJOFRASK_WAIT_REFUSED 0             /* refusal: the call was wrong, and the wait is as it came */
#define SNJOFRASK_WAIT_NOT_YET 1             /* it goes on. Those below end it */
#define SNJOFRASK_WAIT_TOUCHED 2
#define SNJOFRASK_WAIT_CANCELED 3
#define SNJOFRASK_WAIT_FAILED 4              /* error: the sensor's number */
#define SNJOFRASK_WAIT_TIMED_OUT 5

/* ---- structs: numbers only, without padding */

/* A message on its way in. deadline: when it is dropped. len: its declared length, and 0 where there is none. */
typedef struct snjofrask_assembler {
    uint64_t deadline;
    uint32_t cid;
    uint32_t len;
    uint32_t taken;
    uint16_t cmd;
    uint16_t seq;
} snjofrask_assembler;

/* A transport. Channels 1 to allocated are allocated; channel locked holds the lock until the time lock; last is the time of
   the latest step. vendor has a bit for each vendor command, the lowest for 64: it is set where the command is known. spare
   is ignored, and stays as it is.
   still_due: how many continuation packets the message on its way in still needs, 0 where there is none. A key's light reads
   it. A message whose time is over keeps it until a packet drops it. A state with a wrong one is refused with 3. */
typedef struct snjofrask_transport {
    snjofrask_assembler assembler;
    uint64_t lock;
    uint64_t last;
    uint64_t vendor;
    uint32_t allocated;
    uint32_t locked;
    uint32_t max;
    uint8_t u2f;
    uint8_t spare;
    uint16_t still_due;
} snjofrask_transport;

/* A device: a transport, and a wink that runs until the time wink. */
typedef struct snjofrask_device {
    snjofrask_transport hid;
    uint64_t wink;
} snjofrask_device;

/* A host's reply on its way in, or a message in fragments over Bluetooth, at either end. All zeros is a fresh one. len: the
   declared length, and 0 where none is begun. taken: how much of it is there. seq: the number that is due. cmd is a
   command's number for a host, and over Bluetooth the whole byte: what the one's entry has begun is never passed to the
   other's. */
typedef struct snjofrask_collection {
    uint16_t len;
    uint16_t taken;
    uint8_t cmd;
    uint8_t seq;
} snjofrask_collection;

/* What a call answers. kind says which of the others count. */
typedef struct snjofrask_outcome {
    size_t len;
    uint32_t cid;
    uint8_t kind;
    uint8_t cmd;
    uint8_t refusal;
    uint8_t spare;
} snjofrask_outcome;

/* What a reply to INIT tells. rest: how many bytes follow these fields, from byte 17 of the payload on. With a refusal all
   else is 0. */
typedef struct snjofrask_init_outcome {
    uint32_t cid;
    uint8_t protocol;
    uint8_t major;
    uint8_t minor;
    uint8_t build;
    uint8_t capabilities;
    uint8_t refusal;
    uint16_t rest;
    uint8_t nonce[8];
} snjofrask_init_outcome;

/* A wait for a touch, for the request on channel cid of an interface. From the time deadline on it is over; last is the time of
   the latest step, at first of the beginning. The caller numbers the key's interfaces, as it likes. */
typedef struct snjofrask_wait {
    uint64_t deadline;
    uint64_t last;
    uint32_t interface;
    uint32_t cid;
} snjofrask_wait;

/* A message of one byte, to be sent on an interface: its one packet is that of cid, cmd and byte. spare is 0. */
typedef struct snjofrask_sent {
    uint32_t interface;
    uint32_t cid;
    uint8_t cmd;
    uint8_t byte;
    uint16_t spare;
} snjofrask_sent;

/* What a step of a wait answers. The first count of sent, 0, 1 or 2, are to be sent, in this order; the others are all 0. error
   is the sensor's number with FAILED, and refusal 1 or 4 with REFUSED; else they are 0. */
typedef struct snjofrask_wait_outcome {
    snjofrask_sent sent[2];
    uint8_t count;
    uint8_t ending;
    uint8_t error;
    uint8_t refusal;
} snjofrask_wait_outcome;

/* A key's vendor interface. Each field is what it is in a transport; the time of the latest step, U2F and the vendor commands
   are main's. */
typedef struct snjofrask_vendor_interface {
    snjofrask_assembler assembler;
    uint64_t lock;
    uint32_t allocated;
    uint32_t locked;
    uint32_t max;
    uint16_t spare;
    uint16_t still_due;
} snjofrask_vendor_interface;

/* A key with two interfaces. last, vendor and u2f of main.hid serve both. */
typedef struct snjofrask_key {
    snjofrask_device main;
    snjofrask_vendor_interface vendor;
} snjofrask_key;

/* the layout that the archives were compiled for: the same on every processor, but for the length of an outcome */
SNJOFRASK_ASSERT(sizeof(size_t) == sizeof(void *));
SNJOFRASK_ASSERT(sizeof(size_t) == 8 || sizeof(size_t) == 4);

SNJOFRASK_ASSERT(sizeof(snjofrask_assembler) == 24);
SNJOFRASK_ASSERT(SNJOFRASK_ALIGNMENT(snjofrask_assembler) == 8);
SNJOFRASK_ASSERT(offsetof(snjofrask_assembler, deadline) == 0);
SNJOFRASK_ASSERT(offsetof(snjofrask_assembler, cid) == 8);
SNJOFRASK_ASSERT(offsetof(snjofrask_assembler, len) == 12);
SNJOFRASK_ASSERT(offsetof(snjofrask_assembler, taken) == 16);
SNJOFRASK_ASSERT(offsetof(snjofrask_assembler, cmd) == 20);
SNJOFRASK_ASSERT(offsetof(snjofrask_assembler, seq) == 22);

SNJOFRASK_ASSERT(sizeof(snjofrask_transport) == 64);
SNJOFRASK_ASSERT(SNJOFRASK_ALIGNMENT(snjofrask_transport) == 8);
SNJOFRASK_ASSERT(offsetof(snjofrask_transport, assembler) == 0);
SNJOFRASK_ASSERT(offsetof(snjofrask_transport, lock) == 24);
SNJOFRASK_ASSERT(offsetof(snjofrask_transport, last) == 32);
SNJOFRASK_ASSERT(offsetof(snjofrask_transport, vendor) == 40);
SNJOFRASK_ASSERT(offsetof(snjofrask_transport, allocated) == 48);
SNJOFRASK_ASSERT(offsetof(snjofrask_transport, locked) == 52);
SNJOFRASK_ASSERT(offsetof(snjofrask_transport, max) == 56);
SNJOFRASK_ASSERT(offsetof(snjofrask_transport, u2f) == 60);
SNJOFRASK_ASSERT(offsetof(snjofrask_transport, spare) == 61);
SNJOFRASK_ASSERT(offsetof(snjofrask_transport, still_due) == 62);

SNJOFRASK_ASSERT(sizeof(snjofrask_device) == 72);
SNJOFRASK_ASSERT(SNJOFRASK_ALIGNMENT(snjofrask_device) == 8);
SNJOFRASK_ASSERT(offsetof(snjofrask_device, hid) == 0);
SNJOFRASK_ASSERT(offsetof(snjofrask_device, wink) == 64);

SNJOFRASK_ASSERT(sizeof(snjofrask_collection) == 6);
SNJOFRASK_ASSERT(SNJOFRASK_ALIGNMENT(snjofrask_collection) == 2);
SNJOFRASK_ASSERT(offsetof(snjofrask_collection, len) == 0);
SNJOFRASK_ASSERT(offsetof(snjofrask_collection, taken) == 2);
SNJOFRASK_ASSERT(offsetof(snjofrask_collection, cmd) == 4);
SNJOFRASK_ASSERT(offsetof(snjofrask_collection, seq) == 5);

SNJOFRASK_ASSERT(sizeof(snjofrask_outcome) == sizeof(size_t) + 8);
SNJOFRASK_ASSERT(SNJOFRASK_ALIGNMENT(snjofrask_outcome) == sizeof(size_t));
SNJOFRASK_ASSERT(offsetof(snjofrask_outcome, len) == 0);
SNJOFRASK_ASSERT(offsetof(snjofrask_outcome, cid) == sizeof(size_t));
SNJOFRASK_ASSERT(offsetof(snjofrask_outcome, kind) == sizeof(size_t) + 4);
SNJOFRASK_ASSERT(offsetof(snjofrask_outcome, cmd) == sizeof(size_t) + 5);
SNJOFRASK_ASSERT(offsetof(snjofrask_outcome, refusal) == sizeof(size_t) + 6);
SNJOFRASK_ASSERT(offsetof(snjofrask_outcome, spare) == sizeof(size_t) + 7);

SNJOFRASK_ASSERT(sizeof(snjofrask_init_outcome) == 20);
SNJOFRASK_ASSERT(SNJOFRASK_ALIGNMENT(snjofrask_init_outcome) == 4);
SNJOFRASK_ASSERT(offsetof(snjofrask_init_outcome, cid) == 0);
SNJOFRASK_ASSERT(offsetof(snjofrask_init_outcome, protocol) == 4);
SNJOFRASK_ASSERT(offsetof(snjofrask_init_outcome, major) == 5);
SNJOFRASK_ASSERT(offsetof(snjofrask_init_outcome, minor) == 6);
SNJOFRASK_ASSERT(offsetof(snjofrask_init_outcome, build) == 7);
SNJOFRASK_ASSERT(offsetof(snjofrask_init_outcome, capabilities) == 8);
SNJOFRASK_ASSERT(offsetof(snjofrask_init_outcome, refusal) == 9);
SNJOFRASK_ASSERT(offsetof(snjofrask_init_outcome, rest) == 10);
SNJOFRASK_ASSERT(offsetof(snjofrask_init_outcome, nonce) == 12);

SNJOFRASK_ASSERT(sizeof(snjofrask_wait) == 24);
SNJOFRASK_ASSERT(SNJOFRASK_ALIGNMENT(snjofrask_wait) == 8);
SNJOFRASK_ASSERT(offsetof(snjofrask_wait, deadline) == 0);
SNJOFRASK_ASSERT(offsetof(snjofrask_wait, last) == 8);
SNJOFRASK_ASSERT(offsetof(snjofrask_wait, interface) == 16);
SNJOFRASK_ASSERT(offsetof(snjofrask_wait, cid) == 20);

SNJOFRASK_ASSERT(sizeof(snjofrask_sent) == 12);
SNJOFRASK_ASSERT(SNJOFRASK_ALIGNMENT(snjofrask_sent) == 4);
SNJOFRASK_ASSERT(offsetof(snjofrask_sent, interface) == 0);
SNJOFRASK_ASSERT(offsetof(snjofrask_sent, cid) == 4);
SNJOFRASK_ASSERT(offsetof(snjofrask_sent, cmd) == 8);
SNJOFRASK_ASSERT(offsetof(snjofrask_sent, byte) == 9);
SNJOFRASK_ASSERT(offsetof(snjofrask_sent, spare) == 10);

SNJOFRASK_ASSERT(sizeof(snjofrask_wait_outcome) == 28);
SNJOFRASK_ASSERT(SNJOFRASK_ALIGNMENT(snjofrask_wait_outcome) == 4);
SNJOFRASK_ASSERT(offsetof(snjofrask_wait_outcome, sent) == 0);
SNJOFRASK_ASSERT(offsetof(snjofrask_wait_outcome, count) == 24);
SNJOFRASK_ASSERT(offsetof(snjofrask_wait_outcome, ending) == 25);
SNJOFRASK_ASSERT(offsetof(snjofrask_wait_outcome, error) == 26);
SNJOFRASK_ASSERT(offsetof(snjofrask_wait_outcome, refusal) == 27);

SNJOFRASK_ASSERT(sizeof(snjofrask_vendor_interface) == 48);
SNJOFRASK_ASSERT(SNJOFRASK_ALIGNMENT(snjofrask_vendor_interface) == 8);
SNJOFRASK_ASSERT(offsetof(snjofrask_vendor_interface, assembler) == 0);
SNJOFRASK_ASSERT(offsetof(snjofrask_vendor_interface, lock) == 24);
SNJOFRASK_ASSERT(offsetof(snjofrask_vendor_interface, allocated) == 32);
SNJOFRASK_ASSERT(offsetof(snjofrask_vendor_interface, locked) == 36);
SNJOFRASK_ASSERT(offsetof(snjofrask_vendor_interface, max) == 40);
SNJOFRASK_ASSERT(offsetof(snjofrask_vendor_interface, spare) == 44);
SNJOFRASK_ASSERT(offsetof(snjofrask_vendor_interface, still_due) == 46);

SNJOFRASK_ASSERT(sizeof(snjofrask_key) == 120);
SNJOFRASK_ASSERT(SNJOFRASK_ALIGNMENT(snjofrask_key) == 8);
SNJOFRASK_ASSERT(offsetof(snjofrask_key, main) == 0);
SNJOFRASK_ASSERT(offsetof(snjofrask_key, vendor) == 72);

/* ---- a device: everything but what MSG, CBOR and vendor commands mean */

/*
 * A fresh device that takes messages of up to max bytes, with U2F or without. vendor has the numbers of the vendor commands
 * that it knows, in any order; one may stand there twice, and with a vendor_len of 0 there are none. The list is not needed
 * any more once this returns. Channels, lock and wink are none, and its time is 0.
 * Returns 0, or refusal 5 or 13, in this order, which leaves hid as it came.
 */
SNJOFRASK_ENTRY
uint8_t snjofrask_device_new(snjofrask_device *hid, size_t max, uint8_t u2f, const uint8_t *vendor, size_t vendor_len);

/*
 * A packet that came at a time. With disabled set, every packet on a valid channel, a broadcast INIT too, is told that
 * the device is busy, and message is never written.
 *
 * message has at least max bytes: a message is put together at its front. While one is on its way in (the assembler's
 * len is not 0, and time is before its deadline), the first bytes of message, as many as its taken says, are as the step
 * before left them. Nothing else is asked: past those bytes, and between messages all of it, the caller may write, and
 * message may be another buffer each time. reply has at least 17 bytes, and may be another each time. Kinds:
 *  - NOTHING;
 *  - ECHO, REPLY: send the packets of cid, cmd and the payload, by snjofrask_write_packet. The payload stands in message
 *    or reply until the next step that is lent them, so send all packets first;
 *  - MESSAGE: MSG, CBOR or a vendor command that the device knows, for the caller to answer on the same channel with the
 *    same command, by snjofrask_split_message. Once the payload has been read, message is free, for the answer too;
 *  - REFUSED: by 1, 2, 3 or 4, in this order. hid, message and reply are as they came.
 *
 * While the caller works on a MESSAGE, the device knows of no request: it would take the next one. Where the work is a
 * wait for a touch, the caller gives each packet to snjofrask_wait_step, and sends what that says. In any other work it
 *  - sends KEEPALIVE on the request's channel at least every 100 ms, and when the status changes:
 *    snjofrask_write_packet(cid, SNJOFRASK_CMD_KEEPALIVE, &status, 1, 0, packet, 64);
 *  - looks at each packet by snjofrask_read_packet: FIRST on the request's channel with command CANCEL ends the work;
 *  - gives every other packet to a step with disabled set, and sends its reply.
 * In either
 *  - CANCEL has no answer; the request does, with the status for that (CTAP2_ERR_KEEPALIVE_CANCEL, 0x2D, for CBOR);
 *  - in place of an answer that it can't give it sends ERROR on the request's channel, with one byte: one of the errors
 *    above, or the standard's ERR_OTHER, 0x7F, which the device itself never sends.
 */
SNJOFRASK_ENTRY
snjofrask_outcome snjofrask_device_step(snjofrask_device *hid, uint64_t time, uint8_t disabled, const uint8_t *packet,
                                        size_t packet_len, uint8_t *message, size_t message_len, uint8_t *reply,
                                        size_t reply_len);

/* Whether a wink runs at a time, which alters nothing: 0 for no, 1 for yes, or refusal 3 or 4. */
SNJOFRASK_ENTRY
uint8_t snjofrask_is_winking(const snjofrask_device *hid, uint64_t time);

/* ---- a transport alone: a device without the wink, for a caller that handles WINK itself */

/* As snjofrask_device_new. */
SNJOFRASK_ENTRY
uint8_t snjofrask_transport_new(snjofrask_transport *hid, size_t max, uint8_t u2f, const uint8_t *vendor, size_t vendor_len);

/* As snjofrask_device_step, but WINK, and without U2F MSG too, come as MESSAGE. A PING is an ECHO here as well. */
SNJOFRASK_ENTRY
snjofrask_outcome snjofrask_transport_step(snjofrask_transport *hid, uint64_t time, uint8_t disabled,
                                           const uint8_t *packet, size_t packet_len, uint8_t *message,
                                           size_t message_len, uint8_t *reply, size_t reply_len);

/*
 * Whether a lock runs at a time, which alters nothing: 0 for no, 1 for yes, or refusal 3 or 4.
 * For a device ask its hid.
 */
SNJOFRASK_ENTRY
uint8_t snjofrask_is_locked(const snjofrask_transport *hid, uint64_t time);

/* ---- a wait for a touch, beside a device or a transport */

/*
 * A wait that begins at a time, for a request on channel cid of an interface, and is over after limit ms; with 0 it is over
 * at once. OpenSK's limit is 30,000.
 * Returns 0, or refusal 4, which leaves wait as it came.
 */
SNJOFRASK_ENTRY
uint8_t snjofrask_wait_begin(snjofrask_wait *wait, uint32_t interface, uint32_t cid, uint64_t time, uint32_t limit);

/* Whether the limit has elapsed at a time, which alters nothing: 0 for no, 1 for yes, or refusal 4. */
SNJOFRASK_ENTRY
uint8_t snjofrask_wait_elapsed(const snjofrask_wait *wait, uint64_t time);

/*
 * A step of a wait. The caller
 *  - reads its clock, and asks snjofrask_wait_elapsed. Where that says 1 the wait has ended, as with TIMED_OUT, and no packet
 *    is taken for it;
 *  - waits for a packet or the sensor, at most 100 ms, which is how often KEEPALIVE is due;
 *  - makes a step at the time that it read before it waited, and sends what the step says, each by
 *    snjofrask_write_packet(sent.cid, sent.cmd, &sent.byte, 1, 0, packet, 64) on the interface sent.interface. OpenSK ends a
 *    wait whose KEEPALIVE can't be sent, and passes over an ERROR that can't;
 *  - begins again where the step said NOT_YET.
 *
 * presence is what the sensor said, and error its number where it failed. arrived is a flag: where it is set, packet came on
 * interface; else these two are not looked at, and packet_len may be 0. A step that is not refused puts the time into
 * wait->last, alters nothing else, and goes by the first of these that holds:
 *  - the time is at or past the deadline: TIMED_OUT. Nothing is sent;
 *  - packet is CANCEL on the request's interface and channel, that is a first packet with this command, whatever length it
 *    declares: CANCELED, whatever the sensor said. Nothing is sent;
 *  - the sensor said TOUCHED: TOUCHED;
 *  - the sensor said FAILED: FAILED, with its number in error;
 *  - else NOT_YET. KEEPALIVE with STATUS_UPNEEDED is to be sent on the request's interface and channel.
 * With the last three, a packet of another interface or another channel, allocated or not, broadcast too, is told
 * CHANNEL_BUSY there, before all else that is sent. Another packet of the request's own, INIT too, is dropped.
 *
 * REFUSED: by 1, for a packet that arrived, or by 4, in this order. wait is as it came.
 */
SNJOFRASK_ENTRY
snjofrask_wait_outcome snjofrask_wait_step(snjofrask_wait *wait, uint64_t time, uint8_t presence, uint8_t error,
                                           uint8_t arrived, uint32_t interface, const uint8_t *packet, size_t packet_len);

/* ---- packets, for both ends */

/* Reads one packet: FIRST, CONTINUATION, or REFUSED by 1. The command is as it stands in the packet, below 128. */
SNJOFRASK_ENTRY
snjofrask_outcome snjofrask_read_packet(const uint8_t *packet, size_t packet_len);

/* How many packets a payload of len bytes takes: COUNT, from 1 to 129, or REFUSED by 7. */
SNJOFRASK_ENTRY
snjofrask_outcome snjofrask_packet_count(size_t len);

/*
 * Writes packet number index, from 0 on, of a message: all 64 bytes.
 * Returns 0, or refusal 1, 12, 7 or 6, in this order, which leaves packet as it came.
 */
SNJOFRASK_ENTRY
uint8_t snjofrask_write_packet(uint32_t cid, uint8_t cmd, const uint8_t *payload, size_t payload_len, size_t index,
                               uint8_t *packet, size_t packet_len);

/*
 * The same for a reply that may be too long: one of over 7,609 bytes is replaced by CBOR on the same channel with the
 * one byte internal_error (CTAP2_ERR_VENDOR_INTERNAL_ERROR, 0xF2 in OpenSK). To send a reply, raise index from 0 until
 * refusal 6.
 * Returns 0, or refusal 1, 12 or 6, in this order, which leaves packet as it came.
 */
SNJOFRASK_ENTRY
uint8_t snjofrask_split_message(uint32_t cid, uint8_t cmd, const uint8_t *payload, size_t payload_len,
                                uint8_t internal_error, size_t index, uint8_t *packet, size_t packet_len);

/* ---- a host */

/*
 * A packet that came, read for channel cid. A reply is put together at the front of buffer, and is at most as long as
 * it. While one is on its way in (collection->len is not 0), buffer has at least collection->len bytes, and the first
 * collection->taken of them are as the call before left them. Nothing else is asked of it, as for a device. Kinds:
 *  - IGNORED, WAITING;
 *  - KEEPALIVE: status in cmd;
 *  - COLLECTED: the command as it stands in the packet, ERROR too, and the payload. The collection is fresh again;
 *  - REFUSED: by 1 or 3, and if it isn't ignored by 9 or 10. collection and buffer are as they came; to give a reply
 *    up, make the collection all zeros.
 */
SNJOFRASK_ENTRY
snjofrask_outcome snjofrask_host_read(snjofrask_collection *collection, uint32_t cid, const uint8_t *packet,
                                      size_t packet_len, uint8_t *buffer, size_t buffer_len);

/*
 * The fields of a reply to INIT, by its command and payload; refusal is 0, or 11. Whether the nonce is the one that was
 * sent is for the caller to see. A key may send more than these fields, as later versions of the standard may add some: the
 * rest bytes from payload + 17 on. They are not looked at, and are for the caller to read or to pass over.
 */
SNJOFRASK_ENTRY
snjofrask_init_outcome snjofrask_init_reply(uint8_t cmd, const uint8_t *payload, size_t payload_len);

/* ---- Bluetooth: messages in fragments, for both ends */

/*
 * CTAP over Bluetooth Low Energy (CTAP 2.1, section 11.4). A message is a command byte and a payload. Its first fragment has
 * the byte, the payload's length, high byte first, and data; each later one has a number, from 0 to 127 and then from 0 again,
 * and data. Nothing is padded.
 *
 * size is how many bytes a fragment has at most, 20 to 512. The caller chooses it: to a key, by what its characteristic
 * fidoControlPointLength says, and from a key the link's ATT_MTU less 3.
 *
 * There is no state but the collection, and no time: a message that stops halfway is for the caller's own timer. KEEPALIVE,
 * CANCEL and ERROR are plain messages here, to be sent and read as the others are; what they mean is the caller's.
 */

/* How many fragments of a size a payload of len bytes takes: COUNT, from 1 to 3,450, or REFUSED by 14 or 7, in this order. */
SNJOFRASK_ENTRY
snjofrask_outcome snjofrask_ble_fragment_count(size_t size, size_t len);

/*
 * Writes fragment number index, from 0 on, of a message to the front of buffer, which has at least size bytes. Those behind
 * the fragment stay. cmd is one of the five commands, SNJOFRASK_BLE_CMD_PING and the others. Each fragment but the last has
 * size bytes: give the same size, command and payload for all of them, and raise index from 0 until refusal 6.
 * COUNT: send the first len bytes of buffer. REFUSED: by 14, 2, 12, 7 or 6, in this order, and buffer is as it came.
 */
SNJOFRASK_ENTRY
snjofrask_outcome snjofrask_ble_write_fragment(size_t size, uint8_t cmd, const uint8_t *payload, size_t payload_len,
                                               size_t index, uint8_t *buffer, size_t buffer_len);

/*
 * A fragment that came. A message is put together at the front of buffer, and is at most as long as it. While one is begun
 * (collection->len is not 0), buffer has at least collection->len bytes, and the first collection->taken of them are as the
 * call before left them. Nothing else is asked of it, as for a host. Any command byte of 128 or more is taken, and fragments
 * that aren't full, also without data, as long as no more data comes than was declared. Kinds:
 *  - WAITING;
 *  - COLLECTED: the command byte as it came, in cmd, and the payload. The collection is fresh again;
 *  - REFUSED: by 14, 3, 15, 16, 17 or 18, in this order. collection and buffer are as they came, and a message that is begun
 *    goes on with the fragment that is due; to give a message up, make the collection all zeros.
 */
SNJOFRASK_ENTRY
snjofrask_outcome snjofrask_ble_read_fragment(snjofrask_collection *collection, size_t size, const uint8_t *fragment,
                                              size_t fragment_len, uint8_t *buffer, size_t buffer_len);

/* ---- a key with two interfaces, main and vendor: the entries of libsnjofrask_key.a */

/*
 * A key with one interface needs none of this, and links libsnjofrask.a alone. One with two links both archives, for packets
 * and waits are in the other one:
 *     YOURS.o libsnjofrask_key.a libsnjofrask.a
 * Neither calls the other, so either may come first. What has memcpy and its like comes behind both.
 *
 * Each interface has channels, a lock, a message on its way in and a maximum of its own. While a lock runs on the one, every
 * packet on a valid channel of the other is told CHANNEL_BUSY, so two locks never run at once: the key works that out, and no
 * flag is passed. Main is a device, and what is told there of vendor's lock ends a wink as any reply does. Vendor is a device
 * without WINK: a whole one is told INVALID_CMD, though INIT reports the same capabilities on both, and nothing there ends a
 * wink.
 */

/*
 * A fresh key that takes messages of up to main bytes on main, and of up to vendor bytes on vendor. U2F and commands, the
 * list of vendor commands, are for both, and all else is as in snjofrask_device_new.
 * Returns 0, refusal 5, where either maximum is too high, or 13, in this order; a refusal leaves key as it came.
 */
SNJOFRASK_ENTRY
uint8_t snjofrask_key_new(snjofrask_key *key, size_t main, size_t vendor, uint8_t u2f, const uint8_t *commands,
                          size_t commands_len);

/*
 * A packet that came on main at a time: as snjofrask_device_step, with the flag that the key works out, but for this.
 *
 * Each interface has a message buffer of its own, since both may have a message on its way in: what is said there of message
 * holds for each, by its own assembler. One reply buffer may serve both; what stands in it is sent before the next step.
 *
 * REFUSED is by 1, 2, 3 or 4, in this order. 2 is for the buffers of this call, by this interface's max. 3 is for the whole
 * key: main or vendor makes no sense, or both locks run at the time of the latest step. 4 is by the time of the latest step,
 * whichever interface that was on.
 *
 * While the caller works on a MESSAGE, it gives no packet of either interface to a step: there is no flag to set, and the key
 * would take the next request. Where the work is a wait for a touch, all go to snjofrask_wait_step; the caller numbers the two
 * interfaces as it likes. In any other work it sends KEEPALIVE as for a device, and looks at each packet: CANCEL on the
 * request's interface and channel ends the work, and every other one the caller itself tells CHANNEL_BUSY, on the interface
 * and channel that it came on:
 *     snjofrask_write_packet(cid, SNJOFRASK_CMD_ERROR, &busy, 1, 0, packet, 64);
 */
SNJOFRASK_ENTRY
snjofrask_outcome snjofrask_key_main_step(snjofrask_key *key, uint64_t time, const uint8_t *packet, size_t packet_len,
                                          uint8_t *message, size_t message_len, uint8_t *reply, size_t reply_len);

/* The same for a packet that came on vendor. */
SNJOFRASK_ENTRY
snjofrask_outcome snjofrask_key_vendor_step(snjofrask_key *key, uint64_t time, const uint8_t *packet, size_t packet_len,
                                            uint8_t *message, size_t message_len, uint8_t *reply, size_t reply_len);

/* Whether main's lock, vendor's lock or the wink runs at a time, which alters nothing: 0 for no, 1 for yes, or refusal 3 or 4,
   which are those of a step. */
SNJOFRASK_ENTRY
uint8_t snjofrask_key_main_is_locked(const snjofrask_key *key, uint64_t time);
SNJOFRASK_ENTRY
uint8_t snjofrask_key_vendor_is_locked(const snjofrask_key *key, uint64_t time);
SNJOFRASK_ENTRY
uint8_t snjofrask_key_is_winking(const snjofrask_key *key, uint64_t time);

#ifdef __cplusplus
}
#endif

#endif
