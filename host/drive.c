/*
 * Lets another program drive the linked head, to compare it with the reference: reads calls of 24 bytes from standard input
 * and writes a 24-byte answer for each to standard output, until the end of input. Numbers are low byte first, unused bytes 0.
 * After each call it asks the head what a missing sample would take back, and fails if a copy of the head does otherwise.
 *
 * Call: [0] which
 *   P  power-up: [1] node, [4..8] vendor, [8..12] product, [12..16] revision, [16..20] serial; with the names that N gave
 *   N  half of a name, for all power-ups to come: [1] which, 0 to 2 for 1008h to 100Ah, [2] which half, 0 or 1, [3] the length of
 *      the name, [8..24] the bytes. Before the first N the names are HEAD, 1 and 1.
 *   F  frame received: [1] extended, [2] remote, [3] length, [4..8] identifier, [8..16] bytes
 *   T  tick     S  sample: [4..8] raw     M  missing     ?  slot
 *   K  keep a copy of the head     R  take the kept copy back
 * Answer: [0] for P, F, S the refusal, for ? whether a frame was sent; [1] its length, [4..8] its identifier, [8..16] its
 *   bytes; and after the call [2] the state, [3] bit 0 whether the reading is good, bit 1 whether a frame waits,
 *   [16..20] the position, 0 if there is none.
 */
#define _POSIX_C_SOURCE 200809L
#include "haybleater.h"

#include <stdio.h>
#include <stdlib.h>
#include <string.h>
#include <unistd.h>

enum { RECORD = 24, RECORDS = 4096, HALF = 16 };

static haybleater_head present, kept;
static haybleater_name names[3] = {{"HEAD", 4}, {"1", 1}, {"1", 1}};

static void fail(const char *what)
{
    fprintf(stderr, "drive: %s\n", what);
    exit(2);
}

static uint32_t number_at(const uint8_t *at)
{
    return (uint32_t)at[0] | (uint32_t)at[1] << 8 | (uint32_t)at[2] << 16 | (uint32_t)at[3] << 24;
}

static void put_number(uint8_t *at, uint32_t number)
{
    for (unsigned i = 0; i < 4; i++)
        at[i] = (uint8_t)(number >> 8 * i);
}

static uint8_t power_up(const uint8_t *call)
{
    haybleater_identity identity = {.vendor = number_at(call + 4),
                                    .product = number_at(call + 8),
                                    .revision = number_at(call + 12),
                                    .serial = number_at(call + 16),
                                    .name = names[0],
                                    .hardware = names[1],
                                    .software = names[2]};
    return haybleater_power_up(&present, (haybleater_setup){.node = call[1], .identity = identity});
}

static void take_name(const uint8_t *call)
{
    if (call[1] > 2 || call[2] > 1)
        fail("no such name");
    haybleater_name *name = &names[call[1]];
    memcpy(name->bytes + HALF * call[2], call + 8, HALF);
    name->length = call[3];
}

static uint8_t receive(const uint8_t *call)
{
    haybleater_received frame = {.identifier = number_at(call + 4),
                                 .extended = call[1] != 0,
                                 .remote = call[2] != 0,
                                 .length = call[3]};
    memcpy(frame.bytes, call + 8, sizeof frame.bytes);
    return haybleater_receive(&present, frame);
}

static void slot(uint8_t *answer)
{
    haybleater_outgoing outgoing = haybleater_slot(&present);
    answer[0] = outgoing.waited;
    answer[1] = outgoing.frame.length;
    put_number(answer + 4, outgoing.frame.identifier);
    memcpy(answer + 8, outgoing.frame.bytes, sizeof outgoing.frame.bytes);
}

static void do_call(const uint8_t *call, uint8_t *answer)
{
    switch (call[0]) {
    case 'P': answer[0] = power_up(call); break;
    case 'N': take_name(call); break;
    case 'F': answer[0] = receive(call); break;
    case 'T': haybleater_tick(&present); break;
    case 'S': answer[0] = haybleater_sample(&present, number_at(call + 4)); break;
    case 'M': haybleater_missing(&present); break;
    case '?': slot(answer); break;
    case 'K': kept = present; break;
    case 'R': present = kept; break;
    default: fail("no such call");
    }
}

static unsigned frames_left(haybleater_head head)
{
    unsigned frames = 0;
    while (haybleater_slot(&head).waited)
        frames++;
    return frames;
}

/* Whether a missing sample takes back the position frame of the next slot: it then leaves as many frames as if that one had been sent. */
static bool is_taken_back(haybleater_head head)
{
    haybleater_head after = head;
    haybleater_outgoing next = haybleater_slot(&after);
    if (!next.waited || !haybleater_is_position(next.frame.identifier))
        return false;
    haybleater_missing(&head);
    haybleater_missing(&after);
    return frames_left(head) == frames_left(after);
}

static void answer_call(const uint8_t *call, uint8_t *answer)
{
    memset(answer, 0, RECORD);
    do_call(call, answer);
    bool good = haybleater_good(&present);
    haybleater_located here = haybleater_position(&present);
    if (here.known != good || (!here.known && here.position != 0))
        fail("a position is known exactly while the reading is good, and 0 otherwise");
    if (haybleater_goes_if_missing(&present) != is_taken_back(present))
        fail("a missing sample takes back otherwise than the head says");
    answer[2] = haybleater_state(&present);
    answer[3] = (uint8_t)(good | haybleater_waits(&present) << 1);
    put_number(answer + 16, here.position);
}

static void write_all(const uint8_t *from, size_t size)
{
    while (size > 0) {
        ssize_t written = write(STDOUT_FILENO, from, size);
        if (written < 0)
            fail("cannot write");
        from += written;
        size -= (size_t)written;
    }
}

int main(void)
{
    static uint8_t calls[RECORDS * RECORD], answers[RECORDS * RECORD];
    size_t held = 0;
    ssize_t got;
    haybleater_power_up(&present, (haybleater_setup){.node = 1});
    kept = present;
    while ((got = read(STDIN_FILENO, calls + held, sizeof calls - held)) > 0) {
        held += (size_t)got;
        size_t whole = held - held % RECORD;
        for (size_t at = 0; at < whole; at += RECORD)
            answer_call(calls + at, answers + at);
        write_all(answers, whole);
        held -= whole;
        memmove(calls, calls + whole, held);
    }
    if (got < 0)
        fail("cannot read");
    if (held > 0)
        fail("the input ends within a call");
    return 0;
}
