/*
 * Hosts that neglect a duty. The model board counts the faults of each of them, as host/check shows. Do not copy them.
 * The word CARELESS of the environment says which one runs:
 *   (none)     fills all mailboxes of the CAN controller, and does not abort the frames in them when the tape is lost
 *   hasty      lends the missing sample before the abort is in effect
 *   late       lends the missing sample first and aborts afterwards
 *   trusting   ignores that a sample is refused, and lends no missing one for it
 *   blind      sends what a slot answers, and does not ask whether a frame waited
 *   sweeping   aborts every position frame when the tape is lost, also one with the position of its SYNC
 *   tardy      asks whether a missing sample takes the frame back when the slot has already taken it from the head
 *   dawdling   lends a received frame only when the next one comes
 */
#include "board.h"

#include <stdio.h>
#include <stdlib.h>
#include <string.h>

enum { FILLS_MAILBOXES, HASTY, LATE, TRUSTING, BLIND, SWEEPING, TARDY, DAWDLING, FAULTS };
static const char *const words[FAULTS] = {"", "hasty", "late", "trusting", "blind", "sweeping", "tardy", "dawdling"};
static unsigned fault = FILLS_MAILBOXES;
static haybleater_head head;
static bool goes_if_missing;

static void choose_fault(void)
{
    const char *word = getenv("CARELESS");
    if (!word)
        return;
    for (fault = HASTY; fault < FAULTS; fault++) {
        if (strcmp(word, words[fault]) == 0)
            return;
    }
    fprintf(stderr, "careless: CARELESS is none of");
    for (fault = HASTY; fault < FAULTS; fault++)
        fprintf(stderr, " %s", words[fault]);
    fprintf(stderr, "\n");
    exit(2);
}

static void lose_position(void)
{
    bool aborts_first = fault != FILLS_MAILBOXES && fault != HASTY && fault != LATE;
    if (fault == HASTY && goes_if_missing)
        board_can_request_abort();
    if (aborts_first && goes_if_missing)
        board_can_abort();
    haybleater_missing(&head);
    if (fault == LATE && goes_if_missing)
        board_can_abort();
}

static void take_sample(uint32_t raw, bool on_tape)
{
    bool refused = on_tape && haybleater_sample(&head, raw) != HAYBLEATER_NO_REFUSAL;
    if (!on_tape || (refused && fault != TRUSTING))
        lose_position();
}

static bool may_send(void)
{
    bool may_hand_over = fault == FILLS_MAILBOXES ? board_can_has_room() : board_can_idle();
    return may_hand_over && (fault == BLIND || haybleater_waits(&head));
}

static void receive(haybleater_received frame)
{
    static haybleater_received before = {.identifier = 0x7FF}; /* not meant for the head */
    haybleater_receive(&head, fault == DAWDLING ? before : frame);
    before = frame;
}

static void send_next(void)
{
    goes_if_missing = haybleater_goes_if_missing(&head);
    haybleater_frame frame = haybleater_slot(&head).frame;
    if (fault == TARDY)
        goes_if_missing = haybleater_goes_if_missing(&head);
    if (fault == SWEEPING)
        goes_if_missing = haybleater_is_position(frame.identifier);
    board_can_send(frame);
}

int main(void)
{
    const haybleater_setup setup = {
        .node = 1,
        .identity = {.vendor = 1, .product = 2, .revision = 3, .serial = 4,
                     .name = haybleater_name_of("HEAD"), .hardware = haybleater_name_of("1"), .software = haybleater_name_of("1")}};
    uint32_t raw;
    bool on_tape;
    haybleater_received received;
    choose_fault();
    if (haybleater_power_up(&head, setup) != HAYBLEATER_NO_REFUSAL)
        return 1;
    for (;;) {
        while (board_millisecond_passed())
            haybleater_tick(&head);
        while (board_sampled(&raw, &on_tape))
            take_sample(raw, on_tape);
        while (board_can_received(&received))
            receive(received);
        while (may_send())
            send_next();
    }
}
