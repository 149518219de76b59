/*
 * Haybleater: the logic of a CANopen encoder head, for a host in C99 or C++.
 *
 * The host keeps the head in its own memory and lends it for each call. What it owes:
 *   - haybleater_power_up first, and no other call on that memory before it;
 *   - haybleater_receive for every frame that its CAN controller receives. An acceptance filter may drop all but 000h (NMT),
 *     080h (SYNC) and 600h+N (SDO requests; N is the node number): the head hears nothing else;
 *   - haybleater_tick once each millisecond;
 *   - haybleater_sample or haybleater_missing for each sample of the sensor;
 *   - haybleater_slot when its CAN controller holds no frame of the head; it sends `frame` exactly if `waited`.
 *
 * Blank is not zero. Before the first sample and after haybleater_missing there is no position: none is taken for a frame,
 * entry 6004h aborts with 0800 0024h, and haybleater_position answers `known` false. The 0 beside it is no position.
 *
 * Position frames, TPDO1 and TPDO2. The type of the PDO (1800-2, 1801-2) says which position a frame carries:
 *   - types 254 and 255: that of the slot, by the last sample lent before it. haybleater_missing withdraws a frame that waits;
 *   - types 1 to 240: that of its SYNC, by the last sample lent before it. A due SYNC with a good reading makes the frame wait
 *     and fixes its position. The next one fixes it anew if the frame still waits, and the frame keeps its place. Nothing else
 *     changes a fixed position, neither a sample nor a write. haybleater_missing leaves the frame: it may be sent in the gap.
 *     A due SYNC in the gap is passed over.
 * So no frame leaves the head with a position taken while the reading was missing.
 *
 * Frames in flight. What is proved ends at haybleater_slot: a frame that waits in a mailbox of the CAN controller has left
 * the head. So that a gap arrives as a gap on the wire too, the host owes two things more:
 *   - one frame at a time: it asks for a slot only when no frame of the head is pending in the controller. Two mailboxes
 *     may swap their frames: "missing" and "good" then arrive in the wrong order, or a heartbeat is held back. Nor may two
 *     frames wait in a FIFO;
 *   - before it calls haybleater_missing, also because a sample was refused, it aborts the pending frame in the controller
 *     if haybleater_goes_if_missing was true directly before the slot that answered it: a position frame of types 254 and 255.
 *     It leaves every other frame alone, also a position frame of types 1 to 240.
 * The abort has to be in effect before haybleater_missing is called: no transmission of the frame can begin any more. One that
 * has begun cannot be withdrawn. It was begun before the missing sample, and the abort keeps the controller from repeating it
 * after an error or a lost arbitration. host/README.md says how to wait for it.
 *
 * What is proved: for every argument, refused ones too, a call's answer and the head that it leaves are determined by its
 * contract in crates/lent/src/lib.rt; each call ends, and leaves a head that every call can be made with.
 * It is proved of the source. The compiler that makes the archive is trusted; that C and the archive agree on the layout is
 * tested, by the checks below and by host/layout.c. That a host which does the duties above begins no frame of types 254 and 255
 * in a gap, and drops none of types 1 to 240, is tested too, with a model of a CAN controller: host/board.c.
 * What the caller has to see to:
 *   - the pointer is to a haybleater_head, aligned as the type asks, that haybleater_power_up made and calls altered;
 *   - nobody else reads or writes that head during a call: one thread at a time, and no interrupt in between. An interrupt
 *     queues received frames and samples, counts milliseconds and notes that a mailbox is empty; one loop makes the calls;
 *   - a bool holds 0 or 1, as every C bool does that was not written byte by byte.
 * No call blocks, allocates or keeps the pointer, and none has state of its own: heads do not know of each other.
 * "save" (1010-1) keeps the saved set in the head, for the resets 81h and 82h. It does not outlast power-off: power-up makes
 * a head with factory settings, and no call hands the saved set out.
 */
#ifndef HAYBLEATER_H
#define HAYBLEATER_H

#include <stdbool.h>
#include <stddef.h>
#include <stdint.h>

#ifdef __cplusplus
extern "C" {
#endif

/* Refusal numbers. */
#define HAYBLEATER_NO_REFUSAL 0
#define HAYBLEATER_BAD_IDENTIFIER 1 /* an 11-bit identifier above 7FFh, or a 29-bit one above 1FFF FFFFh */
#define HAYBLEATER_BAD_LENGTH 2     /* a frame length above 8; HAYBLEATER_BAD_IDENTIFIER comes first */
#define HAYBLEATER_BAD_SAMPLE 3     /* a raw sample above 1,048,575 */
#define HAYBLEATER_BAD_NODE 4       /* a node number not 1..127 */
#define HAYBLEATER_BAD_NAME 5       /* a name's length not 1..32; HAYBLEATER_BAD_NODE comes first */

/* NMT states, each named with its heartbeat code; 00h for Initialising is the byte of the boot-up frame. */
#define HAYBLEATER_INITIALISING 0x00
#define HAYBLEATER_STOPPED 0x04
#define HAYBLEATER_OPERATIONAL 0x05
#define HAYBLEATER_PRE_OPERATIONAL 0x7F

/*
 * A head. Only haybleater_power_up makes one. Its contents are private. Never fill a head from bytes, not even from saved
 * ones. A whole head may be copied by assignment; the copy is another head.
 */
typedef struct {
    uint32_t private_to_haybleater[74];
} haybleater_head;

/*
 * A name: 1 to 32 bytes. Bytes from `length` on are ignored, and it needs no terminator. The head sends
 * every byte as it is; CiA 301 wants visible characters.
 */
typedef struct {
    uint8_t bytes[32];
    uint8_t length;
} haybleater_name;

/*
 * The name that a C string spells. An empty string gives a name of length 0 and one of more than 32 bytes a name of length 33:
 * haybleater_power_up refuses both, so no name is cut.
 */
static inline haybleater_name haybleater_name_of(const char *text)
{
    haybleater_name name = {{0}, 0};
    while (name.length < sizeof name.bytes && text[name.length] != '\0') {
        name.bytes[name.length] = (uint8_t)text[name.length];
        name.length++;
    }
    if (text[name.length] != '\0')
        name.length++;
    return name;
}

/*
 * What the bus can read of the device: the identity numbers, which entries 1018-1 to 1018-4 show, and three names. SDO clients read
 * a name in segments: the first reply tells its size.
 */
typedef struct {
    uint32_t vendor;
    uint32_t product;
    uint32_t revision;
    uint32_t serial;
    haybleater_name name;     /* 1008h, manufacturer device name */
    haybleater_name hardware; /* 1009h, manufacturer hardware version */
    haybleater_name software; /* 100Ah, manufacturer software version */
} haybleater_identity;

/* What a head is made with. */
typedef struct {
    uint8_t node; /* 1..127 */
    haybleater_identity identity;
} haybleater_setup;

/*
 * A frame as the CAN controller received it. Bytes from `length` on are ignored. In a classical frame a DLC of 9 to 15 means
 * 8 bytes: the host sets `length` to 8 then, or haybleater_receive refuses the frame with HAYBLEATER_BAD_LENGTH. It does not
 * lend CAN FD frames.
 */
typedef struct {
    uint8_t bytes[8];
    uint32_t identifier;
    bool extended; /* the identifier has 29 bits and not 11 */
    bool remote;   /* a remote frame and not a data frame */
    uint8_t length;
} haybleater_received;

/* A frame to send: a data frame with an 11-bit identifier. Bytes from `length` on are 0. */
typedef struct {
    uint32_t identifier;
    uint8_t length;
    uint8_t bytes[8];
} haybleater_frame;

/* The frame to send, if one waited; it is all 0 otherwise, and not to be sent. */
typedef struct {
    bool waited;
    haybleater_frame frame;
} haybleater_outgoing;

/* A position, if there is one; it is 0 otherwise, and no position. */
typedef struct {
    bool known;
    uint32_t position;
} haybleater_located;

/* The identifiers of the position frames, TPDO1 and TPDO2, whatever entries 1800-1 and 1801-1 are set to. */
#define HAYBLEATER_FIRST_POSITION 0x181
#define HAYBLEATER_LAST_POSITION 0x57F

/*
 * Whether a frame of the head is a position frame, by its identifier: no other frame of the head has one of these. It is
 * proved of every head: Gap.known in crates/promises. It does not say which type the PDO has; what to abort before a missing
 * sample, haybleater_goes_if_missing says.
 */
static inline bool haybleater_is_position(uint32_t identifier)
{
    return HAYBLEATER_FIRST_POSITION <= identifier && identifier <= HAYBLEATER_LAST_POSITION;
}

/*
 * Which archive is linked. 0: that of host/build, for x86-64 Linux, which has the calls as they are declared below. 1: one of
 * host/cross, for another processor; its exports take and answer by pointer only, and the calls are small functions over them, which
 * the host's compiler compiles. If the number does not fit the archive, linking fails.
 */
#ifndef HAYBLEATER_BY_POINTER
#if defined(__x86_64__) && defined(__linux__) && !defined(__ILP32__)
#define HAYBLEATER_BY_POINTER 0
#else
#define HAYBLEATER_BY_POINTER 1
#endif
#endif
#if HAYBLEATER_BY_POINTER
#define HAYBLEATER_CALL static inline
#else
#define HAYBLEATER_CALL
#endif

/*
 * Makes a head: in Initialising, with factory settings, the saved set equal to them, the reading missing, and the boot-up
 * frame waiting. The memory may hold anything before: it is not read.
 * Refuses a node number not 1..127 with HAYBLEATER_BAD_NODE, and otherwise a name whose length is not 1..32 with
 * HAYBLEATER_BAD_NAME. A head is made all the same: of node 1, with identity numbers 0 and "?" for each name.
 */
HAYBLEATER_CALL uint8_t haybleater_power_up(haybleater_head *head, haybleater_setup setup);

/*
 * A frame was received. Refuses with HAYBLEATER_BAD_IDENTIFIER or HAYBLEATER_BAD_LENGTH, in every state, what no classical
 * frame can carry: the head is unchanged. These are ignored, with answer 0: 29-bit and remote frames, frames of other nodes or
 * lengths, SYNC outside of Operational, requests in Stopped or while a reply waits, and every frame in Initialising.
 * A SYNC takes the position of the last sample lent before it: lend it soon. A later sample
 * that is lent before it makes its position later (host/README.md, SYNC).
 */
HAYBLEATER_CALL uint8_t haybleater_receive(haybleater_head *head, haybleater_received frame);

/* A millisecond has passed. */
HAYBLEATER_CALL void haybleater_tick(haybleater_head *head);

/*
 * The sensor gave a raw position, in steps of 5,000 nm. Refuses one above 1,048,575 with HAYBLEATER_BAD_SAMPLE: the head
 * is unchanged, so the sample before still holds. A host to which such a number means "off the tape" does what it does for a
 * lost tape: it aborts a pending frame of types 254 and 255 and calls haybleater_missing.
 */
HAYBLEATER_CALL uint8_t haybleater_sample(haybleater_head *head, uint32_t raw);

/*
 * The sensor gave no position. Position frames of types 254 and 255 that wait in the head are withdrawn; the host aborts the one
 * that is pending in its CAN controller before this call. Those of types 1 to 240 keep their places and their positions.
 */
HAYBLEATER_CALL void haybleater_missing(haybleater_head *head);

/*
 * A frame can be sent: answers the first that waits and takes it from the waiting line, or none exactly if none waits.
 * To be called only when no frame of the head is pending in the CAN controller.
 */
HAYBLEATER_CALL haybleater_outgoing haybleater_slot(haybleater_head *head);

/* The NMT state, one of the four codes above. */
HAYBLEATER_CALL uint8_t haybleater_state(const haybleater_head *head);

/* Whether the present reading is good: the last sample that was not refused was a raw position. */
HAYBLEATER_CALL bool haybleater_good(const haybleater_head *head);

/*
 * The position that entry 6004h shows: known exactly while the reading is good. With scaling on, the raw position is rounded
 * to the nearest step of 6005-1, halves upward.
 */
HAYBLEATER_CALL haybleater_located haybleater_position(const haybleater_head *head);

/* Whether a frame waits: whether the next slot answers one. */
HAYBLEATER_CALL bool haybleater_waits(const haybleater_head *head);

/*
 * Whether the next slot answers a position frame that a missing sample would take back: one of types 254 and 255. False if it
 * answers one of types 1 to 240, whose position its SYNC fixed, or another frame, or none.
 * To be asked directly before the slot. The answer holds for that frame as long as it is pending in the CAN controller, whatever
 * is called meanwhile.
 */
HAYBLEATER_CALL bool haybleater_goes_if_missing(const haybleater_head *head);

#if HAYBLEATER_BY_POINTER
/* The exports of an archive of host/cross. Each pointer is to a whole, aligned object of its type, and no two overlap. */
void haybleater_at_power_up(haybleater_head *head, const haybleater_setup *setup, uint8_t *refusal);
void haybleater_at_receive(haybleater_head *head, const haybleater_received *frame, uint8_t *refusal);
void haybleater_at_tick(haybleater_head *head);
void haybleater_at_sample(haybleater_head *head, const uint32_t *raw, uint8_t *refusal);
void haybleater_at_missing(haybleater_head *head);
void haybleater_at_slot(haybleater_head *head, haybleater_outgoing *outgoing);
void haybleater_at_state(const haybleater_head *head, uint8_t *state);
void haybleater_at_good(const haybleater_head *head, bool *good);
void haybleater_at_position(const haybleater_head *head, haybleater_located *located);
void haybleater_at_waits(const haybleater_head *head, bool *waits);
void haybleater_at_goes_if_missing(const haybleater_head *head, bool *goes);

static inline uint8_t haybleater_power_up(haybleater_head *head, haybleater_setup setup)
{
    uint8_t refusal;
    haybleater_at_power_up(head, &setup, &refusal);
    return refusal;
}

static inline uint8_t haybleater_receive(haybleater_head *head, haybleater_received frame)
{
    uint8_t refusal;
    haybleater_at_receive(head, &frame, &refusal);
    return refusal;
}

static inline void haybleater_tick(haybleater_head *head)
{
    haybleater_at_tick(head);
}

static inline uint8_t haybleater_sample(haybleater_head *head, uint32_t raw)
{
    uint8_t refusal;
    haybleater_at_sample(head, &raw, &refusal);
    return refusal;
}

static inline void haybleater_missing(haybleater_head *head)
{
    haybleater_at_missing(head);
}

static inline haybleater_outgoing haybleater_slot(haybleater_head *head)
{
    haybleater_outgoing outgoing;
    haybleater_at_slot(head, &outgoing);
    return outgoing;
}

static inline uint8_t haybleater_state(const haybleater_head *head)
{
    uint8_t state;
    haybleater_at_state(head, &state);
    return state;
}

static inline bool haybleater_good(const haybleater_head *head)
{
    bool good;
    haybleater_at_good(head, &good);
    return good;
}

static inline haybleater_located haybleater_position(const haybleater_head *head)
{
    haybleater_located located;
    haybleater_at_position(head, &located);
    return located;
}

static inline bool haybleater_waits(const haybleater_head *head)
{
    bool waits;
    haybleater_at_waits(head, &waits);
    return waits;
}

static inline bool haybleater_goes_if_missing(const haybleater_head *head)
{
    bool goes;
    haybleater_at_goes_if_missing(head, &goes);
    return goes;
}
#endif
#undef HAYBLEATER_CALL

/* The layout that the archive was compiled for; host/layout.c shows that it has it. */
#if defined(__cplusplus) && __cplusplus >= 201103L
#define HAYBLEATER_CHECK(name, fact) static_assert(fact, #name)
#elif !defined(__cplusplus) && defined(__STDC_VERSION__) && __STDC_VERSION__ >= 201112L
#define HAYBLEATER_CHECK(name, fact) _Static_assert(fact, #name)
#else
#define HAYBLEATER_CHECK(name, fact) typedef char haybleater_check_##name[(fact) ? 1 : -1]
#endif
#define HAYBLEATER_CHECK_SHAPE(type, size, alignment)                              \
    struct haybleater_aligned_##type {                                             \
        char before;                                                               \
        haybleater_##type value;                                                   \
    };                                                                             \
    HAYBLEATER_CHECK(size_of_##type, sizeof(haybleater_##type) == (size));         \
    HAYBLEATER_CHECK(alignment_of_##type, offsetof(struct haybleater_aligned_##type, value) == (alignment))
#define HAYBLEATER_CHECK_FIELD(type, field, offset) \
    HAYBLEATER_CHECK(offset_of_##type##_##field, offsetof(haybleater_##type, field) == (offset))

HAYBLEATER_CHECK(size_of_bool, sizeof(bool) == 1);

HAYBLEATER_CHECK_SHAPE(head, 296, 4);

HAYBLEATER_CHECK_SHAPE(name, 33, 1);
HAYBLEATER_CHECK_FIELD(name, bytes, 0);
HAYBLEATER_CHECK_FIELD(name, length, 32);

HAYBLEATER_CHECK_SHAPE(identity, 116, 4);
HAYBLEATER_CHECK_FIELD(identity, vendor, 0);
HAYBLEATER_CHECK_FIELD(identity, product, 4);
HAYBLEATER_CHECK_FIELD(identity, revision, 8);
HAYBLEATER_CHECK_FIELD(identity, serial, 12);
HAYBLEATER_CHECK_FIELD(identity, name, 16);
HAYBLEATER_CHECK_FIELD(identity, hardware, 49);
HAYBLEATER_CHECK_FIELD(identity, software, 82);

HAYBLEATER_CHECK_SHAPE(setup, 120, 4);
HAYBLEATER_CHECK_FIELD(setup, node, 0);
HAYBLEATER_CHECK_FIELD(setup, identity, 4);

HAYBLEATER_CHECK_SHAPE(received, 16, 4);
HAYBLEATER_CHECK_FIELD(received, bytes, 0);
HAYBLEATER_CHECK_FIELD(received, identifier, 8);
HAYBLEATER_CHECK_FIELD(received, extended, 12);
HAYBLEATER_CHECK_FIELD(received, remote, 13);
HAYBLEATER_CHECK_FIELD(received, length, 14);

HAYBLEATER_CHECK_SHAPE(frame, 16, 4);
HAYBLEATER_CHECK_FIELD(frame, identifier, 0);
HAYBLEATER_CHECK_FIELD(frame, length, 4);
HAYBLEATER_CHECK_FIELD(frame, bytes, 5);

HAYBLEATER_CHECK_SHAPE(outgoing, 20, 4);
HAYBLEATER_CHECK_FIELD(outgoing, waited, 0);
HAYBLEATER_CHECK_FIELD(outgoing, frame, 4);

HAYBLEATER_CHECK_SHAPE(located, 8, 4);
HAYBLEATER_CHECK_FIELD(located, known, 0);
HAYBLEATER_CHECK_FIELD(located, position, 4);

#undef HAYBLEATER_CHECK_FIELD
#undef HAYBLEATER_CHECK_SHAPE
#undef HAYBLEATER_CHECK

#ifdef __cplusplus
}
#endif

#endif
