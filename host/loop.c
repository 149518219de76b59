#include "haybleater.h"
#include "board.h" /* your drivers */

static haybleater_head head; /* any memory of yours; what it held is not read */
static bool goes_if_missing; /* whether a missing sample takes back the frame that the CAN controller got last */

/* The sensor gave no position: a frame with the position of its slot must not go out any more, one with that of its SYNC may. */
static void lose_position(void)
{
    if (goes_if_missing)
        board_can_abort();
    haybleater_missing(&head);
}

static void take_sample(uint32_t raw, bool on_tape)
{
    if (!on_tape || haybleater_sample(&head, raw) != HAYBLEATER_NO_REFUSAL)
        lose_position();
}

/* One frame at a time: the next one is asked for when the last one is sent or aborted. */
static void send_next(void)
{
    if (!board_can_idle() || !haybleater_waits(&head))
        return;
    goes_if_missing = haybleater_goes_if_missing(&head); /* asked before the slot takes the frame from the head */
    board_can_send(haybleater_slot(&head).frame);
}

int main(void)
{
    const haybleater_setup setup = {
        .node = 1,
        .identity = {.vendor = 1, .product = 2, .revision = 3, .serial = 4,
                     .name = haybleater_name_of("HEAD"), .hardware = haybleater_name_of("1"), .software = haybleater_name_of("1")}};
    uint32_t raw;
    bool on_tape;
    haybleater_received received;
    if (haybleater_power_up(&head, setup) != HAYBLEATER_NO_REFUSAL)
        return 1; /* the node number is not 1..127, or a name does not have 1 to 32 bytes */
    for (;;) {
        while (board_millisecond_passed())
            haybleater_tick(&head);
        while (board_sampled(&raw, &on_tape))
            take_sample(raw, on_tape);
        while (board_can_received(&received))
            haybleater_receive(&head, received);
        send_next();
    }
}
