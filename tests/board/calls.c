/*
 * The calls of knottgust.h, each in the cases that the table of docs/BOARD.md has a row for (tools/board). A call that
 * answers another number than the one beside it ends the run.
 *
 * The time of a base at a reading is worked out by two divisions, of the span between and of the nanoseconds. How long
 * they take goes by their numbers: the second one is short unless the nanoseconds carry over into the seconds, and the
 * first one takes a step for each bit of the seconds, a longer one where the bit is 1. Of the spans that were tried
 * these two take longest, the one within a day, the other of all.
 */
#include "board.h"
#include "knottgust.h"

#define MILLISECOND UINT64_C(1000000)
#define SECOND UINT64_C(1000000000)
#define HOURS_18 (0x10000 * SECOND - 1)
#define YEARS_29 (0x38000000 * SECOND - 1)

enum { SYNC = 0x10, FUP = 0x18 };
enum { PLAIN = 1, MASTER = 2, VALIDATED = 3, ROW = 4 }; /* domains */

/* ---- Settings. */

#define SLAVE(of_mode, of_hysteresis)                                                                                 \
    {                                                                                                                 \
        .role = KG_ROLE_SLAVE, .mode = (of_mode), .jump_width = 2, .hysteresis = (of_hysteresis), .clear_count = 3,   \
        .follow_up_time = 100 * MILLISECOND, .loss_time = 2 * SECOND, .future_threshold = 500 * MILLISECOND,          \
        .past_threshold = 500 * MILLISECOND, .sync_ids = {1, 2, 3}, .fup_ids = {4, 5, 6}                              \
    }
#define SENDER(of_security)                                                                                           \
    {                                                                                                                 \
        .role = KG_ROLE_MASTER, .security = (of_security), .period = 1 * SECOND,                                      \
        .confirmation_time = 200 * MILLISECOND, .user = {7, 8, 9}, .sync_ids = {1, 2, 3}, .fup_ids = {4, 5, 6}        \
    }

/* What most rows are measured on. */
static const kg_settings four_domains = {
    .syncs_per_cycle = 4,
    .domains = {
        [PLAIN] = SLAVE(KG_MODE_NOT_VALIDATED, 0),
        [MASTER] = SENDER(KG_SECURITY_PLAIN),
        [VALIDATED] = SLAVE(KG_MODE_VALIDATED, 0),
        [ROW] = SLAVE(KG_MODE_NOT_VALIDATED, 1),
    },
};

static const kg_settings sixteen_slaves = {
    .syncs_per_cycle = 1,
    .domains = {[0 ... KG_DOMAINS - 1] = SLAVE(KG_MODE_NOT_VALIDATED, 0)},
};

static const kg_settings four_masters = {
    .syncs_per_cycle = 4,
    .domains = {[0 ... 3] = SENDER(KG_SECURITY_PLAIN)},
};

static const kg_settings sixteen_masters = {
    .syncs_per_cycle = KG_SYNCS_PER_CYCLE_MAX,
    .domains = {[0 ... KG_DOMAINS - 1] = SENDER(KG_SECURITY_PLAIN)},
};

/* The domain that is a slave under the mode validated in `four_domains`, as its master. */
static const kg_settings secured_master = {
    .syncs_per_cycle = 1,
    .domains = {[VALIDATED] = SENDER(KG_SECURITY_SECURED)},
};

static const kg_settings no_syncs = {.syncs_per_cycle = 0};

/* ---- What is lent, and calls that are not measured. */

static kg_node node;
static kg_taken taken;
static kg_shown shown;
static uint8_t out[KG_SYNCS_PER_CYCLE_MAX * KG_FRAME_BYTES];
static uint8_t sent;

static void make(const kg_settings *settings)
{
    must(kg_new(&node, settings) == KG_DONE, "a node is made");
}

/* A plain frame; `word` is a SYNC's seconds or a FUP's nanoseconds. */
static void frame(uint8_t *bytes, uint8_t type, uint8_t domain, uint8_t counter, uint32_t word)
{
    size_t i;
    bytes[0] = type;
    bytes[1] = bytes[3] = 0;
    bytes[2] = (uint8_t)(domain << 4 | counter);
    for (i = 0; i < 4; i++)
        bytes[4 + i] = (uint8_t)(word >> (24 - 8 * i));
}

/* The plain slave takes a frame. */
static void take(uint64_t t, uint8_t type, uint8_t counter, uint32_t word)
{
    uint8_t bytes[KG_FRAME_BYTES];
    frame(bytes, type, PLAIN, counter, word);
    must(kg_frame(&node, t, bytes, sizeof bytes, &taken) == KG_DONE, "a frame is taken");
}

static void set(uint8_t domain, uint64_t t)
{
    must(kg_set(&node, domain, t, 1000, KG_NANOSECONDS_MAX) == KG_DONE, "a master is set");
}

/* So many SYNCs are sent in a main cycle at t, to `frames`. */
static void send(uint64_t t, uint8_t *frames, uint64_t room, uint8_t number)
{
    must(kg_main_cycle(&node, t, frames, room, &sent) == KG_DONE && sent == number, "SYNCs are sent");
}

/* ---- The rows. */

static void rows_of_new(void)
{
    CALL("kg_new", "four domains", KG_DONE, kg_new(&node, &four_domains));
    CALL("kg_new", "sixteen slaves", KG_DONE, kg_new(&node, &sixteen_slaves));
    CALL("kg_new", "refused 14", KG_SETTINGS, kg_new(&node, &no_syncs));
}

#define FRAME(of, number, t, type, domain, counter, word)                                                             \
    do {                                                                                                              \
        static uint8_t bytes_[KG_FRAME_BYTES];                                                                        \
        frame(bytes_, type, domain, counter, word);                                                                   \
        CALL("kg_frame", of, number, kg_frame(&node, t, bytes_, KG_FRAME_BYTES, &taken));                             \
    } while (0)

static void rows_of_taken(void)
{
    make(&four_domains);
    FRAME("SYNC, first", KG_DONE, 1000, SYNC, PLAIN, 3, 10);
    FRAME("FUP, first", KG_DONE, 2000, FUP, PLAIN, 3, 5);
    must(taken.what == KG_TAKEN_FIRST, "the first FUP is the first");
    FRAME("SYNC, next", KG_DONE, SECOND + 1000, SYNC, PLAIN, 4, 11);
    FRAME("FUP, update", KG_DONE, SECOND + 2000, FUP, PLAIN, 4, 5);
    must(taken.what == KG_TAKEN_UPDATE, "the next FUP is an update");
}

/* A SYNC and its FUP at the reading 0, and the next SYNC. */
static void begin_update(uint64_t t)
{
    make(&four_domains);
    take(0, SYNC, 3, 10);
    take(0, FUP, 3, KG_NANOSECONDS_MAX);
    take(t, SYNC, 4, 12);
}

static void rows_of_update(void)
{
    begin_update(HOURS_18);
    FRAME("FUP, update, 18 hours later", KG_DONE, HOURS_18, FUP, PLAIN, 4, 5);
    must(taken.what == KG_TAKEN_UPDATE, "a FUP 18 hours later is an update");
    begin_update(YEARS_29);
    FRAME("FUP, update, 29 years later", KG_DONE, YEARS_29, FUP, PLAIN, 4, 5);
    must(taken.what == KG_TAKEN_UPDATE, "a FUP 29 years later is an update");
}

static void rows_of_refused(void)
{
    make(&four_domains);
    take(1000, SYNC, 3, 10);
    take(2000, FUP, 3, 5);
    FRAME("refused 1", KG_READING, 1000, SYNC, PLAIN, 4, 11);
    CALL("kg_frame", "refused 2", KG_LENGTH, kg_frame(&node, SECOND, out, KG_FRAME_BYTES - 1, &taken));
    FRAME("refused 3", KG_FRAME_TYPE, SECOND, 0x30, PLAIN, 4, 11);
    FRAME("refused 4", KG_DOMAIN, SECOND, SYNC, MASTER, 4, 11);
    FRAME("refused 5", KG_CHECK, SECOND, SYNC, VALIDATED, 4, 11);
    FRAME("SYNC, refused 6", KG_SYNC_COUNTER, SECOND, SYNC, PLAIN, 3, 11);
    FRAME("FUP, refused 7", KG_NO_OPEN_PAIR, SECOND, FUP, PLAIN, 3, 5);
    take(SECOND, SYNC, 4, 11);
    FRAME("FUP, refused 8", KG_FUP_COUNTER, SECOND, FUP, PLAIN, 5, 5);
    FRAME("FUP, refused 9", KG_NANOSECONDS, SECOND, FUP, PLAIN, 4, KG_NANOSECONDS_MAX + 1);
    FRAME("SYNC, refused 15", KG_ROW_INCOMPLETE, SECOND, SYNC, ROW, 4, 11);
}

/* Two SYNCs, each with its FUP, of the master that secures. */
static void send_secured(uint8_t *frames)
{
    unsigned i;
    make(&secured_master);
    set(VALIDATED, 0);
    for (i = 0; i < 2; i++, frames += 2 * KG_FRAME_BYTES) {
        uint8_t *fup = frames + KG_FRAME_BYTES;
        send(i * SECOND, frames, KG_FRAME_BYTES, 1);
        must(kg_confirmation(&node, VALIDATED, i * SECOND, frames[2] & 15, fup, KG_FRAME_BYTES) == KG_DONE, "a FUP");
    }
}

static void rows_of_secured(void)
{
    static uint8_t frames[4 * KG_FRAME_BYTES];
    send_secured(frames);
    make(&four_domains);
    must(kg_frame(&node, 0, frames, KG_FRAME_BYTES, &taken) == KG_DONE, "a secured SYNC is taken");
    must(kg_frame(&node, 0, frames + 8, KG_FRAME_BYTES, &taken) == KG_DONE, "its FUP is taken");
    CALL("kg_frame", "SYNC, secured", KG_DONE, kg_frame(&node, 2 * SECOND - 1, frames + 16, KG_FRAME_BYTES, &taken));
    CALL("kg_frame", "FUP, update, secured", KG_DONE,
         kg_frame(&node, 2 * SECOND, frames + 24, KG_FRAME_BYTES, &taken));
    must(taken.what == KG_TAKEN_UPDATE, "the next secured FUP is an update");
}

/* After it the plain slave has 14 s and 999,999,999 ns at the reading 4 s. */
static void rows_of_queue(void)
{
    static const uint64_t readings[4] = {3 * SECOND, 3 * SECOND + 1000, 4 * SECOND, 4 * SECOND + 1000};
    static uint8_t frames[4 * KG_FRAME_BYTES], answers[4];
    make(&four_domains);
    take(2 * SECOND, SYNC, 5, 12);
    take(2 * SECOND, FUP, 5, 5);
    frame(frames, SYNC, PLAIN, 6, 13);
    frame(frames + 8, FUP, PLAIN, 6, 5);
    frame(frames + 16, SYNC, PLAIN, 7, 14);
    frame(frames + 24, FUP, PLAIN, 7, KG_NANOSECONDS_MAX);
    CALL("kg_queue", "4 frames, two pairs that update", KG_DONE,
         kg_queue(&node, readings, 4, frames, sizeof frames, answers, sizeof answers));
    must((answers[0] | answers[1] | answers[2] | answers[3]) == KG_DONE, "each frame of the queue is taken");
}

static void rows_of_read(void)
{
    CALL("kg_read", "slave", KG_DONE, kg_read(&node, PLAIN, 5 * SECOND, &shown));
    must(shown.seconds == 15, "the slave's time");
    CALL("kg_read", "slave, 18 hours later", KG_DONE, kg_read(&node, PLAIN, 4 * SECOND + HOURS_18, &shown));
    must(shown.seconds == 14 + 0x10000, "the slave's time 18 hours later");
    CALL("kg_read", "slave, 29 years later", KG_DONE, kg_read(&node, PLAIN, 4 * SECOND + YEARS_29, &shown));
    must(shown.seconds == 14 + 0x38000000, "the slave's time 29 years later");
    set(MASTER, 5 * SECOND);
    CALL("kg_read", "master", KG_DONE, kg_read(&node, MASTER, 6 * SECOND, &shown));
    must(shown.seconds == 1001, "the master's time");
    CALL("kg_read", "refused 10", KG_NEVER_SET, kg_read(&node, ROW, 6 * SECOND, &shown));
}

static void rows_of_set(void)
{
    CALL("kg_set", "done", KG_DONE, kg_set(&node, MASTER, 5 * SECOND, 1000, KG_NANOSECONDS_MAX));
    CALL("kg_set", "refused 9", KG_NANOSECONDS, kg_set(&node, MASTER, 5 * SECOND, 1000, KG_NANOSECONDS_MAX + 1));
}

#define CYCLE(of, t, number)                                                                                          \
    do {                                                                                                              \
        CALL("kg_main_cycle", of, KG_DONE, kg_main_cycle(&node, t, out, sizeof out, &sent));                          \
        must(sent == (number), of ": so many are sent");                                                              \
    } while (0)

/* Each master was set some seconds before, and its nanoseconds carry over. */
static void rows_of_main_cycle(void)
{
    uint8_t d;
    send(7 * SECOND - 1, out, sizeof out, 1);
    CYCLE("none due, one master waits", 8 * SECOND - 2, 0);
    CYCLE("one due", 8 * SECOND - 1, 1);
    make(&secured_master);
    set(VALIDATED, 0);
    CYCLE("one due, secured", 2 * SECOND - 1, 1);
    make(&four_masters);
    for (d = 0; d < 4; d++)
        set(d, 0);
    CYCLE("4 due", 2 * SECOND - 1, 4);
    make(&sixteen_masters);
    for (d = 0; d < KG_DOMAINS; d++)
        set(d, 0);
    CYCLE("16 due", 2 * SECOND - 1, 16);
    CYCLE("none due, 16 masters wait", 3 * SECOND - 2, 0);
}

static void rows_of_confirmation(void)
{
    const uint64_t t = 3 * SECOND;
    send(3 * SECOND - 1, out, sizeof out, 16);
    CALL("kg_confirmation", "done", KG_DONE, kg_confirmation(&node, 3, t, 1, out, sizeof out));
    CALL("kg_confirmation", "refused 11", KG_NO_OPEN_SYNC, kg_confirmation(&node, 3, t, 1, out, sizeof out));
    make(&secured_master);
    set(VALIDATED, 0);
    send(0, out, sizeof out, 1);
    CALL("kg_confirmation", "done, secured", KG_DONE,
         kg_confirmation(&node, VALIDATED, MILLISECOND, 0, out, sizeof out));
}

void calls(void)
{
    say("node\t");
    say_number(sizeof node);
    say("\n");
    rows_of_new();
    rows_of_taken();
    rows_of_update();
    rows_of_refused();
    rows_of_secured();
    rows_of_queue();
    rows_of_read();
    rows_of_set();
    rows_of_main_cycle();
    rows_of_confirmation();
}
