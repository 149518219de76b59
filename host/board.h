/*
 * What the loop in host/README.md needs of a board: a sensor, a millisecond timer and a CAN controller. On a board of yours
 * these are your drivers. host/board.c is a model, on which the loop is tested.
 */
#ifndef BOARD_H
#define BOARD_H

#include "haybleater.h"

/* Whether a millisecond has passed that was not asked for yet. */
bool board_millisecond_passed(void);

/* Whether the sensor has a sample that was not taken yet, and the sample: `raw` is a number of the sensor if it is `on_tape`. */
bool board_sampled(uint32_t *raw, bool *on_tape);

/* Whether a frame was received that was not taken yet, and the frame; its length at most 8. */
bool board_can_received(haybleater_received *frame);

/* The next three are about the mailboxes for frames of the head. Frames of your own go into other mailboxes. */

/* Whether these mailboxes are empty: each frame that was handed over is sent or aborted. */
bool board_can_idle(void);

/* Hands a frame over to an empty mailbox. */
void board_can_send(haybleater_frame frame);

/*
 * Aborts what is pending. Once it returns, no transmission of such a frame begins. One that had begun may still be on the bus:
 * the call need not wait for its end, but the frame is not repeated after an error or a lost arbitration. Without a pending
 * frame it does nothing.
 */
void board_can_abort(void);

/* A board of yours does not need the rest. The model needs it, to show the faults of the hosts in host/careless.c. */

/* Whether a mailbox is empty. */
bool board_can_has_room(void);

/* Asks the CAN controller for what board_can_abort does, and does not wait: frames may begin until it is in effect. */
void board_can_request_abort(void);

/* The model notes when a host lends a missing sample. */
void board_note_missing(void);
#define haybleater_missing(head) (board_note_missing(), (haybleater_missing)(head))

#endif
