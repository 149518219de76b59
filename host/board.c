/*
 * A model board for the hosts that host/check tries: a sensor that loses the tape now and then, a busy master, and a CAN
 * controller on a slow bus. A transmission can end in an error or lose the arbitration, and the controller then repeats it. An
 * abort takes some time to come into effect. Each call of the board takes time, so that a turn of the host's loop takes more than
 * a millisecond. Words of the environment: MAILBOXES, 1..8, else 3; TPDO1 and TPDO2, the types that the master gives to the PDOs,
 * 1..240, 254 or 255, else 254 and 2.
 * After 200 gaps the board writes one line, the three words and counts, and ends the program. "In a gap" means after the host lent a
 * missing sample and before it took the next good one. A SYNC PDO is one of types 1 to 240.
 *   positions   transmissions of position frames that began, repeated ones too
 *   kept        frames of SYNC PDOs that were sent in a gap
 *   late        position frames that began in a gap; those of SYNC PDOs only if the emergency "missing" of the gap was sent before
 *   stale       position frames handed over that carry another position than the last sample taken; for SYNC PDOs than the last one
 *               taken before the last due SYNC, or that came without one; in the order in which the host took samples and frames
 *   dropped     frames of SYNC PDOs that the host aborted, or that still waited for a slot at the end of a gap
 *   overtaken   transmissions that began while a frame handed over earlier was still pending
 *   lost        frames that the host aborted and that were no position frames
 *   unlent      samples that were no position, and for which the host lent no missing one before it took the next sample
 *   empty       frames without a byte that the host handed over: no frame of the head is one, so no frame waited
 *   behind      the most milliseconds, samples or received frames that waited for the host at once
 *   gaps        how often the tape was lost; in `reported` of them the emergency "missing" was sent before the tape was found,
 *               and after `resumed` of them a position was sent before the tape was lost again
 */
#include "board.h"

#include <stdio.h>
#include <stdlib.h>

/* The time is counted in steps: each call of the board takes one. */
enum {
    MOST_MAILBOXES = 8,
    USUAL_MAILBOXES = 3,
    GAPS = 200,
    STEPS_IN_MS = 4,
    LEAST_PHASE_MS = 120, /* on the tape or off it */
    MORE_PHASE_MS = 80,
    LEAST_FRAME_STEPS = 3,
    MORE_FRAME_STEPS = 12,
    ARBITRATION_STEPS = 2,
    MOST_ABORT_STEPS = 6,
    ERRORS_IN_100 = 5,
    OTHERS_IN_100 = 50, /* another node wants to send as well */
    MOST_RECEIVED_IN_MS = 2, /* once the head is started, the master floods it */
    SYNCS_IN_100 = 30,
    REFUSED_IN_100 = 30,
    OUT_OF_RANGE = 1048576,
    IDENTIFIERS = 0x800,
    EMERGENCY = 0x081,
    POSITION_LENGTH = 4, /* of no other frame of the head */
    MOST_SYNCS = 240,    /* the greatest type that goes by SYNC */
};

#define REQUEST(...) {.identifier = 0x601, .length = 8, .bytes = {__VA_ARGS__}}

/* How the master starts the head, a frame each START_MS: heartbeat and position frames come often, these with extreme identifiers. */
enum { START_MS = 20, SETS_TYPE_1 = 2, SETS_TYPE_2 = 6 };
static haybleater_received starting[] = {
    REQUEST(0x2B, 0x17, 0x10, 0x00, 10),                     /* 1017h: heartbeat each 10 ms */
    REQUEST(0x23, 0x00, 0x18, 0x01, 0x81, 0x01, 0x00, 0x80), /* 1800-1: TPDO1 off, 181h */
    [SETS_TYPE_1] = REQUEST(0x2F, 0x00, 0x18, 0x02),         /* 1800-2 */
    REQUEST(0x2B, 0x00, 0x18, 0x05, 1),                      /* 1800-5: each ms, if its type is 254 or 255 */
    REQUEST(0x23, 0x00, 0x18, 0x01, 0x81, 0x01, 0x00, 0x00), /* 1800-1: TPDO1 on */
    REQUEST(0x23, 0x01, 0x18, 0x01, 0x7F, 0x05, 0x00, 0x80), /* 1801-1: TPDO2 off, 57Fh */
    [SETS_TYPE_2] = REQUEST(0x2F, 0x01, 0x18, 0x02),         /* 1801-2 */
    REQUEST(0x2B, 0x01, 0x18, 0x05, 1),                      /* 1801-5 */
    REQUEST(0x23, 0x01, 0x18, 0x01, 0x7F, 0x05, 0x00, 0x00), /* 1801-1: TPDO2 on */
    {.identifier = 0x000, .length = 2, .bytes = {0x01, 0x01}},
};
enum { STARTING = sizeof starting / sizeof starting[0] };
static const haybleater_received read_position = REQUEST(0x40, 0x04, 0x60, 0x00), sync = {.identifier = 0x080};

/* A PDO. If it is a SYNC PDO: whether a SYNC made its frame wait, and with which position. */
typedef struct {
    uint32_t identifier;
    unsigned type;
    bool waits;
    uint32_t fixed;
} pdo;

static pdo tpdo1 = {.identifier = 0x181, .type = 254}, tpdo2 = {.identifier = 0x57F, .type = 2};
static unsigned syncs;   /* so many were received since the head was started */
static uint32_t reading; /* the last sample that was a position */

typedef struct {
    haybleater_frame frame;
    unsigned order;       /* the frame was handed over as the order-th */
    unsigned abort_steps; /* until the abort that was asked for is in effect; 0: none was, or it is */
    bool held, begun, aborted;
} mailbox;

static mailbox boxes[MOST_MAILBOXES];
static unsigned mailboxes, handed;

/* The transmission on the bus: steps until it ends; which mailbox it is of, or another node's; whether it loses the arbitration. */
enum { OTHER_NODE = MOST_MAILBOXES };
static unsigned steps_left, on_bus = OTHER_NODE;
static bool loses;

/* The time, and what waits for the host. `missing`: the host has lent a missing sample and got no good one since. */
static uint32_t now_ms, phase_left_ms, ms_due, samples_due, received_due;
static unsigned started; /* so many frames of `starting` were received */
static bool off_tape, missing;
static bool owed; /* the sample taken last was no position, and no missing one is lent for it yet */

static struct {
    unsigned positions, late, kept, stale, dropped, overtaken, lost, unlent, empty, behind, gaps, reported, resumed;
} counts;
static bool gap_reported, positions_resumed;

static uint32_t random_below(uint32_t limit)
{
    static uint32_t state = 1;
    state = state * 1664525u + 1013904223u;
    return (state >> 8) % limit;
}

static bool in_100(uint32_t chance) { return random_below(100) < chance; }

/* The PDO of a position frame; none of another frame. */
static pdo *pdo_of(haybleater_frame frame)
{
    if (frame.length != POSITION_LENGTH)
        return NULL;
    return frame.identifier == tpdo1.identifier ? &tpdo1 : &tpdo2;
}

static bool by_sync(const pdo *of) { return of && of->type <= MOST_SYNCS; }

static void count_begun(const mailbox *box)
{
    for (unsigned i = 0; i < mailboxes; i++) {
        if (boxes[i].held && boxes[i].order < box->order) {
            counts.overtaken++;
            break;
        }
    }
    const pdo *of = pdo_of(box->frame);
    counts.positions += of != NULL;
    counts.late += of && missing && (gap_reported || !by_sync(of));
}

static void count_sent(haybleater_frame frame)
{
    bool says_missing = frame.identifier == EMERGENCY && frame.bytes[1] == 0x50;
    gap_reported = gap_reported || (missing && says_missing);
    positions_resumed = positions_resumed || (!missing && pdo_of(frame));
    counts.kept += missing && by_sync(pdo_of(frame));
}

/* The controller tries the frame with the lowest identifier first; of two equal ones that in the first mailbox. */
static unsigned first_mailbox(void)
{
    unsigned first = OTHER_NODE;
    for (unsigned i = 0; i < mailboxes; i++) {
        bool better = first == OTHER_NODE || boxes[i].frame.identifier < boxes[first].frame.identifier;
        if (boxes[i].held && better)
            first = i;
    }
    return first;
}

/* The frame is sent; or an error or the lost arbitration ends the attempt, and it is made again unless the frame was aborted. */
static void end_transmission(void)
{
    if (on_bus == OTHER_NODE)
        return;
    mailbox *box = &boxes[on_bus];
    bool sent = !loses && !in_100(ERRORS_IN_100);
    if (sent)
        count_sent(box->frame);
    box->begun = false;
    box->held = !sent && !box->aborted;
}

/* The node that won the arbitration goes on with its frame; otherwise the bus is free. */
static void begin_transmission(void)
{
    on_bus = loses ? OTHER_NODE : first_mailbox();
    loses = false;
    steps_left = LEAST_FRAME_STEPS + random_below(MORE_FRAME_STEPS);
    if (on_bus == OTHER_NODE)
        return;
    mailbox *box = &boxes[on_bus];
    box->begun = true;
    count_begun(box);
    loses = in_100(OTHERS_IN_100) && random_below(IDENTIFIERS) < box->frame.identifier;
    if (loses)
        steps_left = ARBITRATION_STEPS;
}

static void step_aborts(void)
{
    for (unsigned i = 0; i < mailboxes; i++) {
        mailbox *box = &boxes[i];
        if (!box->held || box->abort_steps == 0 || --box->abort_steps > 0)
            continue;
        box->aborted = true;
        box->held = box->begun;
    }
}

static void finish(void)
{
    printf("mailboxes=%u tpdo1=%u tpdo2=%u positions=%u kept=%u late=%u stale=%u dropped=%u overtaken=%u lost=%u unlent=%u empty=%u "
           "behind=%u gaps=%u reported=%u resumed=%u\n",
           mailboxes, tpdo1.type, tpdo2.type, counts.positions, counts.kept, counts.late, counts.stale, counts.dropped,
           counts.overtaken, counts.lost, counts.unlent, counts.empty, counts.behind, counts.gaps, counts.reported, counts.resumed);
    exit(0);
}

/* The tape is lost or found; what the phase before should have brought is counted. */
static void change_phase(void)
{
    phase_left_ms = LEAST_PHASE_MS + random_below(MORE_PHASE_MS);
    off_tape = !off_tape;
    if (off_tape) {
        counts.resumed += counts.gaps > 0 && positions_resumed;
        if (counts.gaps == GAPS)
            finish();
        counts.gaps++;
        gap_reported = false;
    } else {
        counts.reported += gap_reported;
        counts.dropped += tpdo1.waits + tpdo2.waits;
        positions_resumed = false;
    }
}

static void count_waiting(uint32_t due)
{
    if (due > counts.behind)
        counts.behind = due;
}

static bool is_started(void) { return started == STARTING; }

static void step_clock(void)
{
    static unsigned steps_in_ms;
    if (++steps_in_ms < STEPS_IN_MS)
        return;
    steps_in_ms = 0;
    now_ms++;
    count_waiting(++ms_due);
    count_waiting(++samples_due);
    received_due += is_started() ? random_below(MOST_RECEIVED_IN_MS + 1) : now_ms == START_MS * (started + 1);
    count_waiting(received_due);
    if (--phase_left_ms == 0)
        change_phase();
}

static void step(void)
{
    step_clock();
    step_aborts();
    if (steps_left > 0 && --steps_left > 0)
        return;
    end_transmission();
    begin_transmission();
}

/* Sets what a word of the environment gives. */
static void set(unsigned *setting, const char *word)
{
    const char *given = getenv(word);
    if (given)
        *setting = (unsigned)strtoul(given, NULL, 10);
}

static bool is_type(unsigned type) { return (1 <= type && type <= MOST_SYNCS) || type == 254 || type == 255; }

static void start(void)
{
    mailboxes = USUAL_MAILBOXES;
    set(&mailboxes, "MAILBOXES");
    set(&tpdo1.type, "TPDO1");
    set(&tpdo2.type, "TPDO2");
    if (mailboxes < 1 || mailboxes > MOST_MAILBOXES || !is_type(tpdo1.type) || !is_type(tpdo2.type)) {
        fprintf(stderr, "board: MAILBOXES is not 1..%d, or TPDO1 or TPDO2 not 1..%d, 254 or 255\n", MOST_MAILBOXES, MOST_SYNCS);
        exit(2);
    }
    starting[SETS_TYPE_1].bytes[4] = (uint8_t)tpdo1.type;
    starting[SETS_TYPE_2].bytes[4] = (uint8_t)tpdo2.type;
    phase_left_ms = START_MS * STARTING + LEAST_PHASE_MS;
}

bool board_millisecond_passed(void)
{
    if (mailboxes == 0)
        start();
    step();
    if (ms_due == 0)
        return false;
    ms_due--;
    return true;
}

/* Off the tape the sensor says so, or gives a number that the head refuses. */
bool board_sampled(uint32_t *raw, bool *on_tape)
{
    step();
    if (samples_due == 0)
        return false;
    samples_due--;
    counts.unlent += owed;
    owed = off_tape;
    missing = missing && off_tape;
    if (!off_tape)
        reading = now_ms;
    *on_tape = !off_tape || in_100(REFUSED_IN_100);
    *raw = off_tape ? OUT_OF_RANGE : reading;
    return true;
}

/* A SYNC that is due and finds a good reading fixes the position of the PDO's frame. */
static void note_sync(pdo *of)
{
    if (missing || !by_sync(of) || syncs % of->type != 0)
        return;
    of->waits = true;
    of->fixed = reading;
}

bool board_can_received(haybleater_received *frame)
{
    step();
    if (received_due == 0)
        return false;
    received_due--;
    if (!is_started()) {
        *frame = starting[started++];
    } else if (in_100(SYNCS_IN_100)) {
        *frame = sync;
        syncs++;
        note_sync(&tpdo1);
        note_sync(&tpdo2);
    } else {
        *frame = read_position;
    }
    return true;
}

bool board_can_has_room(void)
{
    step();
    for (unsigned i = 0; i < mailboxes; i++) {
        if (!boxes[i].held)
            return true;
    }
    return false;
}

bool board_can_idle(void)
{
    step();
    for (unsigned i = 0; i < mailboxes; i++) {
        if (boxes[i].held)
            return false;
    }
    return true;
}

static void count_handed_over(haybleater_frame frame)
{
    const uint8_t *bytes = frame.bytes;
    uint32_t position = (uint32_t)bytes[0] | (uint32_t)bytes[1] << 8 | (uint32_t)bytes[2] << 16 | (uint32_t)bytes[3] << 24;
    pdo *of = pdo_of(frame);
    counts.empty += frame.length == 0;
    if (by_sync(of)) {
        counts.stale += !of->waits || position != of->fixed;
        of->waits = false;
    } else if (of) {
        counts.stale += position != reading;
    }
}

void board_can_send(haybleater_frame frame)
{
    count_handed_over(frame);
    for (unsigned i = 0; i < mailboxes; i++) {
        if (boxes[i].held)
            continue;
        boxes[i] = (mailbox){.frame = frame, .order = handed++, .held = true};
        return;
    }
    fprintf(stderr, "board: a frame was handed over and no mailbox was empty\n");
    exit(1);
}

void board_can_request_abort(void)
{
    for (unsigned i = 0; i < mailboxes; i++) {
        mailbox *box = &boxes[i];
        if (!box->held || box->aborted || box->abort_steps > 0)
            continue;
        counts.lost += !pdo_of(box->frame);
        counts.dropped += by_sync(pdo_of(box->frame));
        box->abort_steps = 1 + random_below(MOST_ABORT_STEPS);
    }
}

static bool aborts_in_effect(void)
{
    for (unsigned i = 0; i < mailboxes; i++) {
        if (boxes[i].held && boxes[i].abort_steps > 0)
            return false;
    }
    return true;
}

/* Time goes on until the aborts are in effect: a frame that begins in between was begun before the missing sample is lent. */
void board_can_abort(void)
{
    board_can_request_abort();
    while (!aborts_in_effect())
        step();
}

void board_note_missing(void)
{
    missing = true;
    owed = false;
}
