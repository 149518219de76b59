/*
 * A host with the head of node 1, which plays the rest of the bus too: 130 ms, of which the tape is lost for 50. At 112 ms the master reads
 * the name that the head was given at power-up: the reply tells its size, and two segments bring its ten bytes. Then it switches
 * scaling on and sets a step of 1 mm: raw 70,897 is 354.485 steps and reads 354, raw 70,907 is 354.535 steps and reads 355.
 * A line is the time in ms and the frame that goes out on the bus then: identifier, length, bytes. `--` says what happened.
 * The CAN controller is a model with one mailbox. Other nodes keep the bus busy from 42 ms to 48 ms, and the tape is lost at 46 ms.
 * The frame 181h of 43 ms is still in the mailbox then. It has the position of its slot (TPDO1, type 254): the host withdraws it.
 * The frame 281h waits since the SYNC of 44 ms and has the position at that SYNC (TPDO2, type 1): no sample changes it, and it goes
 * out when the bus is free, before the emergency.
 */
#include "haybleater.h"

#include <stdio.h>

enum { END_MS = 130, LOST_FROM_MS = 46, LOST_UNTIL_MS = 96, BUSY_FROM_MS = 42, BUSY_UNTIL_MS = 48 };

/* What the master sends, and when. Of the requests, bytes that are not given are 0. */
static const struct {
    uint32_t at_ms;
    const char *what;
    haybleater_received frame;
} master[] = {
    {1, "heartbeat each 50 ms (1017h)", {.identifier = 0x601, .length = 8, .bytes = {0x2B, 0x17, 0x10, 0x00, 50}}},
    {2, "TPDO1 each 20 ms (1800-5)", {.identifier = 0x601, .length = 8, .bytes = {0x2B, 0x00, 0x18, 0x05, 20}}},
    {3, "start: Operational", {.identifier = 0x000, .length = 2, .bytes = {0x01, 0x01}}},
    {30, "SYNC", {.identifier = 0x080, .length = 0}},
    {44, "SYNC", {.identifier = 0x080, .length = 0}},
    {60, "read the position (6004h)", {.identifier = 0x601, .length = 8, .bytes = {0x40, 0x04, 0x60, 0x00}}},
    {70, "SYNC", {.identifier = 0x080, .length = 0}},
    {110, "read the position (6004h)", {.identifier = 0x601, .length = 8, .bytes = {0x40, 0x04, 0x60, 0x00}}},
    {112, "read the name (1008h)", {.identifier = 0x601, .length = 8, .bytes = {0x40, 0x08, 0x10, 0x00}}},
    {113, "read its first segment, toggle 0", {.identifier = 0x601, .length = 8, .bytes = {0x60}}},
    {114, "read its next segment, toggle 1", {.identifier = 0x601, .length = 8, .bytes = {0x70}}},
    {120, "SYNC", {.identifier = 0x080, .length = 0}},
    {124, "scaling on (6000h)", {.identifier = 0x601, .length = 8, .bytes = {0x2B, 0x00, 0x60, 0x00, 0x04}}},
    {125, "a step of 1 mm (6005-1)", {.identifier = 0x601, .length = 8, .bytes = {0x23, 0x05, 0x60, 0x01, 0x40, 0x42, 0x0F}}},
    {126, "read the position (6004h)", {.identifier = 0x601, .length = 8, .bytes = {0x40, 0x04, 0x60, 0x00}}},
    {127, "read the position (6004h)", {.identifier = 0x601, .length = 8, .bytes = {0x40, 0x04, 0x60, 0x00}}},
};

static void show(uint32_t now_ms, haybleater_frame frame)
{
    printf("%3u  %03X %u", (unsigned)now_ms, (unsigned)frame.identifier, (unsigned)frame.length);
    for (unsigned i = 0; i < frame.length; i++)
        printf(" %02X", (unsigned)frame.bytes[i]);
    printf("\n");
}

/* The CAN controller: the frame in its mailbox is pending until the bus is free. A missing sample may take the frame back. */
static struct {
    bool pending, goes_if_missing;
    haybleater_frame frame;
} controller;

static void run_bus(uint32_t now_ms)
{
    bool busy = BUSY_FROM_MS <= now_ms && now_ms < BUSY_UNTIL_MS;
    if (busy || !controller.pending)
        return;
    show(now_ms, controller.frame);
    controller.pending = false;
}

/* A pending frame with the position of its slot would go out in the gap: it is withdrawn before the missing sample is lent. */
static void lose_position(haybleater_head *head, uint32_t now_ms)
{
    if (controller.pending && controller.goes_if_missing) {
        controller.pending = false;
        printf("%3u  -- withdrawn: %03X\n", (unsigned)now_ms, (unsigned)controller.frame.identifier);
    }
    haybleater_missing(head);
}

/* The sensor: the tape moves by 10 steps each ms. A number that the head refuses is no position either. */
static void take_sample(haybleater_head *head, uint32_t now_ms)
{
    bool on_tape = now_ms < LOST_FROM_MS || LOST_UNTIL_MS <= now_ms;
    if (!on_tape || haybleater_sample(head, 69637 + 10 * now_ms) != HAYBLEATER_NO_REFUSAL)
        lose_position(head, now_ms);
}

/* What the host itself knows of the position: a gap is told as a gap, never as 0. */
static void tell_change(const haybleater_head *head, uint32_t now_ms, bool was_good)
{
    haybleater_located here = haybleater_position(head);
    if (here.known && !was_good)
        printf("%3u  -- on the tape at %u\n", (unsigned)now_ms, (unsigned)here.position);
    if (!here.known && was_good)
        printf("%3u  -- the tape is lost: no position\n", (unsigned)now_ms);
}

static void receive_all(haybleater_head *head, uint32_t now_ms)
{
    for (size_t i = 0; i < sizeof master / sizeof master[0]; i++) {
        if (master[i].at_ms != now_ms)
            continue;
        printf("%3u  -- master: %s\n", (unsigned)now_ms, master[i].what);
        if (haybleater_receive(head, master[i].frame) != HAYBLEATER_NO_REFUSAL)
            printf("%3u  -- refused\n", (unsigned)now_ms);
    }
}

/* One frame at a time: a slot is asked for only while no frame is pending. The others wait in the head. */
static void send_all(haybleater_head *head, uint32_t now_ms)
{
    run_bus(now_ms);
    while (!controller.pending && haybleater_waits(head)) {
        controller.goes_if_missing = haybleater_goes_if_missing(head); /* asked before the slot takes the frame from the head */
        controller.frame = haybleater_slot(head).frame;
        controller.pending = true;
        run_bus(now_ms);
        if (controller.pending)
            printf("%3u  -- pending, the bus is busy: %03X\n", (unsigned)now_ms, (unsigned)controller.frame.identifier);
    }
}

int main(void)
{
    static haybleater_head head;
    const haybleater_setup setup = {
        .node = 1,
        .identity = {.vendor = 1, .product = 2, .revision = 3, .serial = 4,
                     .name = haybleater_name_of("Haybleater"), .hardware = haybleater_name_of("1"), .software = haybleater_name_of("1")}};
    if (haybleater_power_up(&head, setup) != HAYBLEATER_NO_REFUSAL)
        return 1;
    printf("  0  -- power-up\n");
    for (uint32_t now_ms = 0; now_ms < END_MS; now_ms++) {
        bool was_good = haybleater_good(&head);
        haybleater_tick(&head);
        take_sample(&head, now_ms);
        tell_change(&head, now_ms, was_good);
        receive_all(&head, now_ms);
        send_all(&head, now_ms);
    }
    return 0;
}
