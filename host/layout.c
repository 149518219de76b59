/*
 * Checks that the archive has the layout of the header: which bytes power-up writes, which bytes no call touches, and that
 * every field of the public structs arrives where the other side reads it. Prints what differs, if anything does, and exits 1.
 */
#include "haybleater.h"

#include <stdio.h>
#include <string.h>

enum { CANARY = 64, SEGMENT = 7 };

static struct {
    uint8_t before[CANARY];
    haybleater_head head;
    uint8_t after[CANARY];
} memory;

static uint8_t fill;
static bool failed;

/* The names of node 5, by the low byte of their index. One fills its array, one a segment. */
static const struct {
    const char *what;
    uint8_t low;
    const char *text;
} names[] = {
    {"identity.name", 0x08, "abcdefghijklmnopqrstuvwxyz012345"},
    {"identity.hardware", 0x09, "6789ABC"},
    {"identity.software", 0x0A, "D"},
};

/* Power-ups that are refused: of a node, with names. */
static const struct {
    const char *what;
    uint8_t node, refusal;
    const char *name, *hardware, *software;
} refused[] = {
    {"power-up of node 128", 128, HAYBLEATER_BAD_NODE, "a", "b", "c"},
    {"power-up of node 0 without a name", 0, HAYBLEATER_BAD_NODE, "", "b", "c"},
    {"power-up without a name", 5, HAYBLEATER_BAD_NAME, "", "b", "c"},
    {"power-up with a hardware version of 33 bytes", 5, HAYBLEATER_BAD_NAME, "a", "abcdefghijklmnopqrstuvwxyz0123456", "c"},
    {"power-up with a software version of 40 bytes", 5, HAYBLEATER_BAD_NAME, "a", "b", "abcdefghijklmnopqrstuvwxyz01234567890123"},
};

/* The bytes of a head that power-up need not write: padding. It writes all others. */
static const struct {
    size_t from, to;
} padding[] = {{7, 8}, {10, 12}, {45, 48}, {163, 164}, {165, 168}};

#define READ_VENDOR {0x40, 0x18, 0x10, 1}
#define REQUEST(...) {.identifier = 0x605, .length = 8, .bytes = {__VA_ARGS__}}
#define SENT(id, size, ...) {.waited = true, .frame = {.identifier = (id), .length = (size), .bytes = {__VA_ARGS__}}}
#define REPLY(...) SENT(0x585, 8, __VA_ARGS__)
#define NOTHING {.waited = false}

static const haybleater_received start = {.identifier = 0x000, .length = 2, .bytes = {0x01, 5}}, sync = {.identifier = 0x080};

/* A frame for node 5 in Pre-operational, what receiving it answers and what the slot after it sends. */
static const struct {
    const char *what;
    haybleater_received hears;
    uint8_t refusal;
    haybleater_outgoing outgoing;
} rows[] = {
    {"identity.vendor", REQUEST(0x40, 0x18, 0x10, 1), 0, REPLY(0x43, 0x18, 0x10, 1, 0x14, 0x13, 0x12, 0x11)},
    {"identity.product", REQUEST(0x40, 0x18, 0x10, 2), 0, REPLY(0x43, 0x18, 0x10, 2, 0x24, 0x23, 0x22, 0x21)},
    {"identity.revision", REQUEST(0x40, 0x18, 0x10, 3), 0, REPLY(0x43, 0x18, 0x10, 3, 0x34, 0x33, 0x32, 0x31)},
    {"identity.serial", REQUEST(0x40, 0x18, 0x10, 4), 0, REPLY(0x43, 0x18, 0x10, 4, 0x44, 0x43, 0x42, 0x41)},
    {"received.bytes: save", REQUEST(0x23, 0x10, 0x10, 1, 0x73, 0x61, 0x76, 0x65), 0, REPLY(0x60, 0x10, 0x10, 1)},
    {"received.bytes[4]", REQUEST(0x23, 0x10, 0x10, 1, 0x72, 0x61, 0x76, 0x65), 0,
     REPLY(0x80, 0x10, 0x10, 1, 0x20, 0x00, 0x00, 0x08)},
    {"received.bytes[7]", REQUEST(0x23, 0x10, 0x10, 1, 0x73, 0x61, 0x76, 0x64), 0,
     REPLY(0x80, 0x10, 0x10, 1, 0x20, 0x00, 0x00, 0x08)},
    {"received.identifier", {.identifier = 0x604, .length = 8, .bytes = READ_VENDOR}, 0, NOTHING},
    {"received.identifier of 11 bits", {.identifier = 0x800, .length = 8}, HAYBLEATER_BAD_IDENTIFIER, NOTHING},
    {"received.identifier of 29 bits", {.identifier = 0x20000000, .extended = true}, HAYBLEATER_BAD_IDENTIFIER, NOTHING},
    {"received.extended", {.identifier = 0x800, .extended = true}, 0, NOTHING},
    {"received.extended request", {.identifier = 0x605, .extended = true, .length = 8, .bytes = READ_VENDOR}, 0, NOTHING},
    {"received.remote", {.identifier = 0x605, .remote = true, .length = 8, .bytes = READ_VENDOR}, 0, NOTHING},
    {"received.remote above 7FFh", {.identifier = 0x800, .remote = true}, HAYBLEATER_BAD_IDENTIFIER, NOTHING},
    {"received.length 7", {.identifier = 0x605, .length = 7, .bytes = READ_VENDOR}, 0, NOTHING},
    {"received.length 9", {.identifier = 0x605, .length = 9, .bytes = READ_VENDOR}, HAYBLEATER_BAD_LENGTH, NOTHING},
};

static void expect(bool holds, const char *rule, const char *when)
{
    if (holds)
        return;
    printf("differs, in memory filled with %02Xh: %s: %s\n", (unsigned)fill, when, rule);
    failed = true;
}

static void expect_canaries(const char *when)
{
    bool whole = true;
    for (size_t i = 0; i < CANARY; i++)
        whole = whole && memory.before[i] == fill && memory.after[i] == fill;
    expect(whole, "nothing is written outside of the head", when);
}

static void expect_refusal(uint8_t got, uint8_t refusal, const char *when)
{
    expect(got == refusal, "refusal", when);
    expect_canaries(when);
}

static void expect_slot(haybleater_outgoing outgoing, const char *when)
{
    haybleater_outgoing got = haybleater_slot(&memory.head);
    expect(got.waited == outgoing.waited, "outgoing.waited", when);
    expect(got.frame.identifier == outgoing.frame.identifier, "frame.identifier", when);
    expect(got.frame.length == outgoing.frame.length, "frame.length", when);
    expect(memcmp(got.frame.bytes, outgoing.frame.bytes, sizeof outgoing.frame.bytes) == 0, "frame.bytes", when);
    expect_canaries(when);
}

static void expect_exchange(haybleater_received hears, uint8_t refusal, haybleater_outgoing outgoing, const char *when)
{
    expect_refusal(haybleater_receive(&memory.head, hears), refusal, when);
    expect_slot(outgoing, when);
}

static void expect_answers(uint8_t state, bool good, bool waits, bool goes, haybleater_located at, const char *when)
{
    haybleater_head before = memory.head;
    haybleater_located got = haybleater_position(&memory.head);
    expect(haybleater_state(&memory.head) == state, "state", when);
    expect(haybleater_good(&memory.head) == good, "good", when);
    expect(haybleater_waits(&memory.head) == waits, "waits", when);
    expect(haybleater_goes_if_missing(&memory.head) == goes, "goes_if_missing", when);
    expect(got.known == at.known, "located.known", when);
    expect(got.position == at.position, "located.position", when);
    expect(memcmp(&before, &memory.head, sizeof before) == 0, "a question alters nothing", when);
    expect_canaries(when);
}

static haybleater_setup setup_of(uint8_t node, const char *name, const char *hardware, const char *software)
{
    haybleater_setup setup = {
        .node = node, .identity = {.vendor = 0x11121314, .product = 0x21222324, .revision = 0x31323334, .serial = 0x41424344}};
    setup.identity.name = haybleater_name_of(name);
    setup.identity.hardware = haybleater_name_of(hardware);
    setup.identity.software = haybleater_name_of(software);
    return setup;
}

static void power_up_over(uint8_t byte)
{
    haybleater_setup setup = setup_of(5, names[0].text, names[1].text, names[2].text);
    fill = byte;
    memset(&memory, fill, sizeof memory);
    expect_refusal(haybleater_power_up(&memory.head, setup), HAYBLEATER_NO_REFUSAL, "power-up of node 5");
}

static bool is_padding(size_t at)
{
    for (size_t i = 0; i < sizeof padding / sizeof padding[0]; i++) {
        if (padding[i].from <= at && at < padding[i].to)
            return true;
    }
    return false;
}

static void check_power_up(void)
{
    uint8_t over_00[sizeof(haybleater_head)], over_ff[sizeof(haybleater_head)];
    char which[32];
    power_up_over(0x00);
    memcpy(over_00, &memory.head, sizeof over_00);
    power_up_over(0xFF);
    memcpy(over_ff, &memory.head, sizeof over_ff);
    for (size_t i = 0; i < sizeof over_00; i++) {
        snprintf(which, sizeof which, "byte %u of the head", (unsigned)i);
        expect(is_padding(i) || over_00[i] == over_ff[i], "power-up writes it", which);
    }
}

static void check_frames(void)
{
    for (size_t i = 0; i < sizeof rows / sizeof rows[0]; i++)
        expect_exchange(rows[i].hears, rows[i].refusal, rows[i].outgoing, rows[i].what);
}

/* The reply to a segment request: bit 4 is the toggle, bits 3..1 count the bytes that are not used, bit 0 says that it is the last. */
static haybleater_outgoing segment(const char *text, size_t from, uint8_t toggle)
{
    haybleater_outgoing reply = REPLY(toggle);
    size_t left = strlen(text) - from, used = left < SEGMENT ? left : SEGMENT;
    if (left <= SEGMENT)
        reply.frame.bytes[0] = (uint8_t)(toggle + 2 * (SEGMENT - used) + 1);
    memcpy(&reply.frame.bytes[1], &text[from], used);
    return reply;
}

static void check_names(void)
{
    for (size_t i = 0; i < sizeof names / sizeof names[0]; i++) {
        const char *what = names[i].what, *text = names[i].text;
        uint8_t low = names[i].low, toggle = 0x00;
        expect_exchange((haybleater_received)REQUEST(0x40, low, 0x10), 0, (haybleater_outgoing)REPLY(0x41, low, 0x10, 0, (uint8_t)strlen(text)), what);
        for (size_t from = 0; from < strlen(text); from += SEGMENT, toggle ^= 0x10)
            expect_exchange((haybleater_received)REQUEST(0x60 | toggle), 0, segment(text, from, toggle), what);
    }
}

static void check_refused_power_ups(void)
{
    for (size_t i = 0; i < sizeof refused / sizeof refused[0]; i++) {
        haybleater_setup setup = setup_of(refused[i].node, refused[i].name, refused[i].hardware, refused[i].software);
        expect_refusal(haybleater_power_up(&memory.head, setup), refused[i].refusal, refused[i].what);
        expect_slot((haybleater_outgoing)SENT(0x701, 1, 0x00), refused[i].what);
    }
}

/* From here on the head is Operational. TPDO1 has type 254, TPDO2 has type 1. */
static void check_positions(void)
{
    const haybleater_located nowhere = {.known = false}, here = {.known = true, .position = 69637}, there = {.known = true, .position = 70000};
    expect_refusal(haybleater_receive(&memory.head, start), HAYBLEATER_NO_REFUSAL, "start");
    expect_answers(HAYBLEATER_OPERATIONAL, true, true, true, here, "TPDO1 waits");
    expect_slot((haybleater_outgoing)SENT(0x185, 4, 0x05, 0x10, 0x01), "TPDO1");
    expect_refusal(haybleater_receive(&memory.head, sync), HAYBLEATER_NO_REFUSAL, "SYNC");
    expect_answers(HAYBLEATER_OPERATIONAL, true, true, false, here, "TPDO2 waits");
    expect_refusal(haybleater_sample(&memory.head, 70000), HAYBLEATER_NO_REFUSAL, "sample after a SYNC");
    expect_answers(HAYBLEATER_OPERATIONAL, true, true, false, there, "TPDO2 waits, another sample");
    haybleater_missing(&memory.head);
    expect_answers(HAYBLEATER_OPERATIONAL, false, true, false, nowhere, "TPDO2 waits, a missing sample");
    expect_slot((haybleater_outgoing)SENT(0x285, 4, 0x05, 0x10, 0x01), "TPDO2 with the position at its SYNC");
    expect_answers(HAYBLEATER_OPERATIONAL, false, true, false, nowhere, "the emergency waits");
}

static void check_calls(void)
{
    const haybleater_located nowhere = {.known = false}, here = {.known = true, .position = 69637};
    expect_answers(HAYBLEATER_INITIALISING, false, true, false, nowhere, "after power-up");
    expect_slot((haybleater_outgoing)SENT(0x705, 1, 0x00), "boot-up frame");
    expect_slot((haybleater_outgoing)SENT(0x085, 8, 0x00, 0x50, 0x01), "emergency");
    expect_slot((haybleater_outgoing)NOTHING, "slot when nothing waits");
    expect_answers(HAYBLEATER_PRE_OPERATIONAL, false, false, false, nowhere, "before the first sample");
    expect_refusal(haybleater_sample(&memory.head, 69637), HAYBLEATER_NO_REFUSAL, "sample");
    expect_refusal(haybleater_sample(&memory.head, 1048576), HAYBLEATER_BAD_SAMPLE, "sample out of range");
    expect_answers(HAYBLEATER_PRE_OPERATIONAL, true, true, false, here, "after a sample");
    expect_slot((haybleater_outgoing)SENT(0x085, 8, 0x00), "emergency of a good reading");
    check_frames();
    check_names();
    haybleater_tick(&memory.head);
    expect_answers(HAYBLEATER_PRE_OPERATIONAL, true, false, false, here, "after a tick");
    check_positions();
    check_refused_power_ups();
}

int main(void)
{
    check_power_up();
    power_up_over(0x00);
    check_calls();
    power_up_over(0xFF);
    check_calls();
    if (!failed)
        printf("layout as in the header\n");
    return failed;
}
