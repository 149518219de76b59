/*
 * What a call costs on an emulated Cortex-M4. A line has the call's name as in docs/BENCHMARKS.md, the export, its instructions and the bytes
 * of stack that it uses below its caller, both with the library's functions that it calls. Exits 1 if a call leaves another number
 * of frames than it should, for the head before it is then not what the line says, and if nine instructions are not counted as nine.
 *
 * To be run with -icount shift=0: an instruction then takes 1 ns, and SysTick counts at 25 MHz.
 */
#include "haybleater.h"

#include <stdio.h>
#include <string.h>

#define SYST_CSR (*(volatile uint32_t *)0xE000E010u)
#define SYST_RVR (*(volatile uint32_t *)0xE000E014u)
#define SYST_CVR (*(volatile uint32_t *)0xE000E018u)
enum { SYST_ON = 0x5, SYST_MOST = 0xFFFFFF };
enum { COPIES = 400, INSTRUCTIONS_OF_A_COUNT = 40, RETURN = 1, NINE = 9 };
enum { DEPTH = 4096, PAINT = 0xA5 };

/* An export, whatever it takes: as Arm passes arguments, a function may take fewer than it is given. */
typedef void export(void *head, void *second, void *third);
#define AT(name) (export *)(void (*)(void))haybleater_at_##name
#define EXPORT(name) #name, AT(name)

enum { RAW = 69637 };
#define FRAME(id, ...) {.identifier = (id), .length = sizeof(uint8_t[]){__VA_ARGS__}, .bytes = {__VA_ARGS__}}
#define COMMAND(code) FRAME(0x000, (code), 1)
#define REQUEST(...) FRAME(0x601, __VA_ARGS__)

/* The device name has a full segment and a last one. */
static haybleater_setup setup = {
    .node = 1,
    .identity = {.vendor = 1, .product = 2, .revision = 3, .serial = 4,
                 .name = {.bytes = "Haybleater", .length = 10}, .hardware = {.bytes = "1", .length = 1}, .software = {.bytes = "1", .length = 1}}};
static uint32_t raw = RAW, other_raw = 70000;
static haybleater_received foreign = FRAME(0x123, 1, 2, 3, 4, 5, 6, 7, 8), sync = {.identifier = 0x080}, start = COMMAND(0x01),
                           stop = COMMAND(0x02), leave = COMMAND(0x80), reset_node = COMMAND(0x81), reset_communication = COMMAND(0x82);
static haybleater_received read_6004 = REQUEST(0x40, 0x04, 0x60, 0, 0, 0, 0, 0), read_1000 = REQUEST(0x40, 0x00, 0x10, 0, 0, 0, 0, 0),
                           read_1018_4 = REQUEST(0x40, 0x18, 0x10, 4, 0, 0, 0, 0), read_2000 = REQUEST(0x40, 0x00, 0x20, 0, 0, 0, 0, 0),
                           read_1801_3 = REQUEST(0x40, 0x01, 0x18, 3, 0, 0, 0, 0), read_6200 = REQUEST(0x40, 0x00, 0x62, 0, 0, 0, 0, 0);
static haybleater_received read_1008 = REQUEST(0x40, 0x08, 0x10, 0, 0, 0, 0, 0), segment = REQUEST(0x60, 0, 0, 0, 0, 0, 0, 0),
                           next_segment = REQUEST(0x70, 0, 0, 0, 0, 0, 0, 0);
static haybleater_received write_1017 = REQUEST(0x2B, 0x17, 0x10, 0, 0xF4, 0x01, 0, 0), write_1800_5 = REQUEST(0x2B, 0x00, 0x18, 5, 50, 0, 0, 0),
                           write_6003 = REQUEST(0x23, 0x03, 0x60, 0, 40, 0, 0, 0), write_6000 = REQUEST(0x2B, 0x00, 0x60, 0, 1, 0, 0, 0),
                           save = REQUEST(0x23, 0x10, 0x10, 1, 's', 'a', 'v', 'e'), load = REQUEST(0x23, 0x11, 0x10, 1, 'l', 'o', 'a', 'd');
static const haybleater_received each_second = REQUEST(0x2B, 0x17, 0x10, 0, 0xE8, 0x03, 0, 0), each_tick = REQUEST(0x2B, 0x17, 0x10, 0, 1, 0, 0, 0),
                                 tpdo1_each_tick = REQUEST(0x2B, 0x00, 0x18, 5, 1, 0, 0, 0),
                                 tpdo2_off = REQUEST(0x23, 0x01, 0x18, 1, 0x81, 0x02, 0, 0x80),
                                 tpdo2_each_second_sync = REQUEST(0x2F, 0x01, 0x18, 2, 2, 0, 0, 0),
                                 tpdo2_on = REQUEST(0x23, 0x01, 0x18, 1, 0x81, 0x02, 0, 0),
                                 scaling_on = REQUEST(0x2B, 0x00, 0x60, 0, 4, 0, 0, 0),
                                 step_1_mm = REQUEST(0x23, 0x05, 0x60, 1, 0x40, 0x42, 0x0F, 0);

/* The heads before the calls, as docs/BENCHMARKS.md has them. */
static haybleater_head initialising, pre_operational, operational, busy, full, announced, with_pdos, synced, lost, asked, beating, started, uploading,
                       ending, counting_syncs, scaled, started_scaled;
static union {
    uint8_t byte;
    haybleater_outgoing outgoing;
    haybleater_located located;
} answer;

static const struct {
    const char *name, *what;
    export *call;
    const haybleater_head *before;
    void *second;
    unsigned frames; /* that leave the head, by this call and after it */
} rows[] = {
    {"power-up", EXPORT(power_up), &operational, &setup, 2},
    {"tick-idle", EXPORT(tick), &pre_operational, NULL, 0},
    {"tick-counting", EXPORT(tick), &operational, NULL, 0},
    {"tick-due", EXPORT(tick), &busy, NULL, 2},
    {"tick-full-line", EXPORT(tick), &full, NULL, 5},
    {"sample-good-again", EXPORT(sample), &operational, &other_raw, 0},
    {"good-after-missing", EXPORT(sample), &announced, &raw, 1},
    {"missing-after-good", EXPORT(missing), &operational, NULL, 1},
    {"missing-takes-pdos", EXPORT(missing), &with_pdos, NULL, 4},
    {"missing-keeps-tpdo2", EXPORT(missing), &synced, NULL, 2},
    {"missing-full-line", EXPORT(missing), &full, NULL, 3},
    {"foreign-frame", EXPORT(receive), &operational, &foreign, 0},
    {"sync", EXPORT(receive), &operational, &sync, 1},
    {"sync-not-due", EXPORT(receive), &counting_syncs, &sync, 0},
    {"sync-full-line", EXPORT(receive), &full, &sync, 5},
    {"sync-scaled", EXPORT(receive), &scaled, &sync, 1},
    {"nmt-present-state", EXPORT(receive), &operational, &start, 0},
    {"nmt-operational", EXPORT(receive), &pre_operational, &start, 1},
    {"nmt-stopped", EXPORT(receive), &full, &stop, 1},
    {"nmt-pre-operational", EXPORT(receive), &synced, &leave, 0},
    {"nmt-reset-node", EXPORT(receive), &operational, &reset_node, 1},
    {"nmt-reset-comm", EXPORT(receive), &operational, &reset_communication, 1},
    {"read-6004", EXPORT(receive), &operational, &read_6004, 1},
    {"read-6004-scaled", EXPORT(receive), &scaled, &read_6004, 1},
    {"read-1000", EXPORT(receive), &operational, &read_1000, 1},
    {"read-1018-4", EXPORT(receive), &operational, &read_1018_4, 1},
    {"read-no-index", EXPORT(receive), &operational, &read_2000, 1},
    {"read-no-sub-index", EXPORT(receive), &operational, &read_1801_3, 1},
    {"read-6200", EXPORT(receive), &operational, &read_6200, 1},
    {"read-blank", EXPORT(receive), &announced, &read_6004, 1},
    {"read-1008", EXPORT(receive), &operational, &read_1008, 1},
    {"read-segment", EXPORT(receive), &uploading, &segment, 1},
    {"read-last-segment", EXPORT(receive), &ending, &next_segment, 1},
    {"write-1017", EXPORT(receive), &operational, &write_1017, 1},
    {"write-1800-5", EXPORT(receive), &operational, &write_1800_5, 1},
    {"write-6003", EXPORT(receive), &operational, &write_6003, 1},
    {"write-save", EXPORT(receive), &operational, &save, 1},
    {"write-load", EXPORT(receive), &operational, &load, 1},
    {"write-refused", EXPORT(receive), &operational, &write_6000, 1},
    {"slot-none", EXPORT(slot), &operational, &answer, 0},
    {"slot-boot-up", EXPORT(slot), &initialising, &answer, 1},
    {"slot-emergency", EXPORT(slot), &lost, &answer, 1},
    {"slot-reply", EXPORT(slot), &asked, &answer, 1},
    {"slot-heartbeat", EXPORT(slot), &beating, &answer, 1},
    {"slot-tpdo1", EXPORT(slot), &started, &answer, 1},
    {"slot-tpdo1-scaled", EXPORT(slot), &started_scaled, &answer, 1},
    {"slot-tpdo2", EXPORT(slot), &synced, &answer, 1},
    {"slot-full-line", EXPORT(slot), &full, &answer, 5},
    {"state", EXPORT(state), &operational, &answer, 0},
    {"good", EXPORT(good), &operational, &answer, 0},
    {"position", EXPORT(position), &operational, &answer, 0},
    {"position-scaled", EXPORT(position), &scaled, &answer, 0},
    {"waits", EXPORT(waits), &operational, &answer, 0},
    {"goes-if-missing", EXPORT(goes_if_missing), &started, &answer, 1},
};

/* The head after a frame, and after a slot that sends what it brought. */
static haybleater_head heard(haybleater_head head, haybleater_received frame)
{
    haybleater_receive(&head, frame);
    return head;
}

static haybleater_head sent(haybleater_head head)
{
    haybleater_slot(&head);
    return head;
}

static haybleater_head ticked(haybleater_head head)
{
    haybleater_tick(&head);
    return head;
}

static haybleater_head missed(haybleater_head head)
{
    haybleater_missing(&head);
    return head;
}

static void prepare(void)
{
    haybleater_power_up(&initialising, setup);
    haybleater_sample(&initialising, RAW);
    pre_operational = sent(initialising);
    started = heard(pre_operational, start);
    beating = ticked(sent(heard(pre_operational, each_tick)));
    operational = sent(heard(sent(heard(pre_operational, each_second)), start));
    scaled = sent(heard(sent(heard(operational, scaling_on)), step_1_mm));
    started_scaled = heard(sent(heard(sent(heard(pre_operational, scaling_on)), step_1_mm)), start);
    synced = heard(operational, sync);
    counting_syncs = sent(heard(sent(heard(sent(heard(operational, tpdo2_off)), tpdo2_each_second_sync)), tpdo2_on));
    asked = heard(operational, read_6004);
    uploading = sent(heard(operational, read_1008));
    ending = sent(heard(uploading, segment));
    lost = missed(operational);
    announced = sent(lost);
    busy = sent(heard(sent(heard(operational, each_tick)), tpdo1_each_tick));
    with_pdos = heard(heard(ticked(busy), sync), read_6004);
    full = sent(missed(busy));
    haybleater_sample(&full, RAW);
    full = heard(ticked(heard(full, read_6004)), sync);
}

static haybleater_head copies[COPIES];

static uint32_t pass(export *call, const haybleater_head *before, void *second)
{
    export *volatile unknown = call; /* to the compiler, which would leave out a call that does nothing */
    call = unknown;
    for (unsigned i = 0; i < COPIES; i++)
        copies[i] = *before;
    uint32_t from = SYST_CVR;
    for (unsigned i = 0; i < COPIES; i++)
        call(&copies[i], second, &answer);
    return (from - SYST_CVR) & SYST_MOST;
}

static void nothing(void *head, void *second, void *third)
{
    (void)head, (void)second, (void)third;
}

static uint32_t instructions(export *call, const haybleater_head *before, void *second)
{
    uint32_t empty = pass(nothing, before, second), counts = pass(call, before, second) - empty;
    return (counts * INSTRUCTIONS_OF_A_COUNT + COPIES / 2) / COPIES + RETURN;
}

/* Nine instructions. */
export nine;
__asm__(".text\n .thumb_func\nnine:\n .rept 8\n nop\n .endr\n bx lr\n");

/* The bytes below the stack pointer at the call that no longer hold the paint. */
static uint32_t stack(export *call, haybleater_head head, void *second)
{
    volatile uint8_t *top;
    __asm__ volatile("mov %0, sp" : "=r"(top));
    for (unsigned i = 1; i <= DEPTH; i++)
        top[-(int)i] = PAINT;
    call(&head, second, &answer);
    unsigned used = DEPTH;
    while (used > 0 && top[-(int)used] == PAINT)
        used--;
    return used;
}

/* How many frames leave a head by the call and after it: a slot's own counts if it sends one. */
static unsigned frames(export *call, haybleater_head head, void *second)
{
    unsigned sends = 0;
    answer.outgoing.waited = false;
    call(&head, second, &answer);
    if (call == AT(slot) && answer.outgoing.waited)
        sends++;
    while (haybleater_slot(&head).waited)
        sends++;
    return sends;
}

int main(void)
{
    int failed = 0;
    SYST_RVR = SYST_MOST;
    SYST_CVR = 0;
    SYST_CSR = SYST_ON;
    prepare();
    if (instructions(nine, &operational, NULL) != NINE) {
        printf("nine instructions are not counted as nine: is it run with -icount shift=0?\n");
        return 1;
    }
    for (size_t i = 0; i < sizeof rows / sizeof rows[0]; i++) {
        unsigned sends = frames(rows[i].call, *rows[i].before, rows[i].second);
        if (sends != rows[i].frames) {
            printf("%s: %u frames leave the head and not %u\n", rows[i].name, sends, rows[i].frames);
            failed = 1;
        }
        printf("%s %s %lu %lu\n", rows[i].name, rows[i].what, (unsigned long)instructions(rows[i].call, rows[i].before, rows[i].second),
               (unsigned long)stack(rows[i].call, *rows[i].before, rows[i].second));
    }
    return failed;
}
