/*
 * A van's tracker. Domain 0 is the van's time: the van's gateway sends it, and the tracker is a slave. Domain 1 is the
 * trailer's time: the tracker is its master, and sets it to the van's once a second.
 *
 * The firmware is the first part of this file: settings, what the two interrupts of the CAN driver do, what the main
 * loop does. The second part stands in for the board, so that all runs on a PC: a clock, and a bus with a gateway. What
 * it prints is examples/tracker.out.
 *
 *   bash tools/archive
 *   gcc -std=c11 -Iinclude examples/tracker.c target/c/libknottgust.a -o target/c/tracker && target/c/tracker
 */
#include <inttypes.h>
#include <stdio.h>
#include <string.h>

#include "knottgust.h"

#define MILLISECOND UINT64_C(1000000)
#define SECOND (1000 * MILLISECOND)

enum { VAN = 0, TRAILER = 1, SYNCS_PER_CYCLE = 1 };

/* What a board has: a clock in nanoseconds that never goes back, its interrupts, and a CAN controller that sends. */
static uint64_t clock_now(void);
static void interrupts_off(void);
static void interrupts_on(void);
static void can_send(const uint8_t frame[KG_FRAME_BYTES]);

/* ---- The firmware. */

/* Of a domain only what its role has read is given; the other 14 domains are absent. */
static const kg_settings settings = {
    .syncs_per_cycle = SYNCS_PER_CYCLE,
    .domains = {
        [VAN] = {
            .role = KG_ROLE_SLAVE,
            .mode = KG_MODE_NOT_VALIDATED,
            .jump_width = 2,
            .follow_up_time = 100 * MILLISECOND,
            .loss_time = 1400 * MILLISECOND,
            .future_threshold = 500 * MILLISECOND,
            .past_threshold = 500 * MILLISECOND,
            .clear_count = 61,
        },
        [TRAILER] = {
            .role = KG_ROLE_MASTER,
            .security = KG_SECURITY_PLAIN,
            .period = 1 * SECOND,
            .confirmation_time = 200 * MILLISECOND,
        },
    },
};

static kg_node node;

/* Frames that have been received and not yet been handed over, with their readings. */
static struct {
    uint64_t readings[KG_QUEUE_MOST];
    uint8_t frames[KG_QUEUE_MOST * KG_FRAME_BYTES];
    uint64_t count;
} received;

static unsigned taken, refused;

/* The receive interrupt: the reading is that of the moment, and the call can wait. */
static void can_received(const uint8_t frame[KG_FRAME_BYTES])
{
    if (received.count == KG_QUEUE_MOST)
        return; /* the frame is lost, as on a bus one may be */
    received.readings[received.count] = clock_now();
    memcpy(received.frames + KG_FRAME_BYTES * received.count, frame, KG_FRAME_BYTES);
    received.count++;
}

/*
 * Hands over what has been received, and counts. It goes before every call with a later reading, behind which the
 * frames would be refused by KG_READING; so that no frame comes in between, interrupts are off. The queue as a whole is
 * always good: it has at most KG_QUEUE_MOST frames, 8 bytes for each, and room for as many numbers.
 */
static void hand_over(void)
{
    uint64_t length = KG_FRAME_BYTES * received.count;
    uint8_t numbers[KG_QUEUE_MOST] = {0};
    uint64_t i;
    kg_queue(&node, received.readings, received.count, received.frames, length, numbers, sizeof numbers);
    for (i = 0; i < received.count; i++) {
        if (numbers[i] == KG_DONE)
            taken++;
        else
            refused++;
    }
    received.count = 0;
}

/*
 * The transmit interrupt: a frame of ours has left. If it is a SYNC, its FUP follows; a FUP is refused, by
 * KG_NO_OPEN_SYNC. The two interrupts have one priority, so that neither comes while the other runs.
 */
static void can_sent(const uint8_t frame[KG_FRAME_BYTES])
{
    uint64_t t = clock_now();
    uint8_t domain = frame[2] >> 4;
    uint8_t counter = frame[2] & 15;
    uint8_t fup[KG_FRAME_BYTES];
    hand_over();
    if (kg_confirmation(&node, domain, t, counter, fup, sizeof fup) == KG_DONE)
        can_send(fup);
}

/* Every 10 ms: the SYNCs that are due. */
static void main_cycle(void)
{
    uint8_t out[SYNCS_PER_CYCLE * KG_FRAME_BYTES];
    uint8_t sent, i;
    interrupts_off();
    hand_over();
    if (kg_main_cycle(&node, clock_now(), out, sizeof out, &sent) == KG_DONE)
        for (i = 0; i < sent; i++)
            can_send(out + KG_FRAME_BYTES * i);
    interrupts_on();
}

/* Once a second: the van's time to the trailer, as long as the gateway is heard. */
static void follow_van(void)
{
    kg_shown van;
    uint64_t t;
    uint8_t number;
    interrupts_off();
    hand_over();
    t = clock_now();
    number = kg_read(&node, VAN, t, &van);
    if (number == KG_DONE && !(van.status & KG_STATUS_TIMEOUT) && van.seconds <= KG_SET_SECONDS_MAX)
        kg_set(&node, TRAILER, t, (uint32_t)van.seconds, van.nanoseconds);
    interrupts_on();

    printf("%" PRIu64 " ms: ", t / MILLISECOND);
    if (number == KG_DONE)
        printf("van %" PRIu64 ".%09" PRIu32 " s, status %02X", van.seconds, van.nanoseconds, van.status);
    else
        printf("van refused by %d", number);
    printf("; frames taken %u, refused %u\n", taken, refused);
}

static void sleep_until(uint64_t t);

/* The loop of a product never ends. */
int main(void)
{
    unsigned cycle;
    if (kg_new(&node, &settings) != KG_DONE) {
        printf("a setting is out of range\n");
        return 1;
    }
    for (cycle = 1; cycle <= 360; cycle++) {
        sleep_until(cycle * 10 * MILLISECOND);
        if (cycle % 100 == 50)
            follow_van();
        main_cycle();
    }
    return 0;
}

/* ---- The board: a clock, a bus on which a frame takes 0.3 ms, and a gateway that fails after two good SYNCs. */

static uint64_t now;

static struct {
    uint8_t frame[KG_FRAME_BYTES];
    uint64_t leaves_at;
    int waits;
} transmitter;

/* SYNC and FUP twice; then the second SYNC once more, which the tracker refuses, and nothing else. */
static const struct {
    uint64_t at;
    uint8_t frame[KG_FRAME_BYTES];
} gateway[] = {
    {1001 * MILLISECOND, {0x10, 0x00, 0x00, 0x00, 0x00, 0x00, 0x0E, 0x10}},
    {1004 * MILLISECOND, {0x18, 0x00, 0x00, 0x00, 0x00, 0x00, 0x00, 0x64}},
    {2001 * MILLISECOND, {0x10, 0x00, 0x01, 0x00, 0x00, 0x00, 0x0E, 0x11}},
    {2004 * MILLISECOND, {0x18, 0x00, 0x01, 0x00, 0x00, 0x00, 0x00, 0x96}},
    {3001 * MILLISECOND, {0x10, 0x00, 0x01, 0x00, 0x00, 0x00, 0x0E, 0x11}},
};

enum { GATEWAY_FRAMES = sizeof gateway / sizeof gateway[0] };

static unsigned heard;

static uint64_t clock_now(void)
{
    return now;
}

/* Here they come in sleep_until alone. */
static void interrupts_off(void)
{
}

static void interrupts_on(void)
{
}

static void can_send(const uint8_t frame[KG_FRAME_BYTES])
{
    unsigned i;
    printf("%" PRIu64 " ms: tracker sends %s ", now / MILLISECOND, frame[0] == 0x10 ? "SYNC" : "FUP ");
    for (i = 0; i < KG_FRAME_BYTES; i++)
        printf("%02X", frame[i]);
    printf("\n");
    memcpy(transmitter.frame, frame, KG_FRAME_BYTES);
    transmitter.leaves_at = now + 300000;
    transmitter.waits = 1;
}

static void receive_interrupt(void)
{
    now = gateway[heard].at;
    can_received(gateway[heard++].frame);
}

static void transmit_interrupt(void)
{
    uint8_t frame[KG_FRAME_BYTES];
    now = transmitter.leaves_at;
    transmitter.waits = 0;
    memcpy(frame, transmitter.frame, KG_FRAME_BYTES);
    can_sent(frame);
}

/* Lets the time go by, and the interrupts come as they are due. */
static void sleep_until(uint64_t t)
{
    for (;;) {
        uint64_t arrival = heard < GATEWAY_FRAMES ? gateway[heard].at : UINT64_MAX;
        uint64_t departure = transmitter.waits ? transmitter.leaves_at : UINT64_MAX;
        if (arrival > t && departure > t)
            break;
        if (arrival < departure)
            receive_interrupt();
        else
            transmit_interrupt();
    }
    now = t;
}
