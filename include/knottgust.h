/*
 * Knottgust from C: one node's time domains over CAN. Link target/c/libknottgust.a (tools/archive) beside it.
 *
 * The product lends the node, a kg_node, and keeps it where it likes; the library has no memory of its own, allocates
 * nothing and waits for nothing. Make the node once by kg_new. Then hand in each frame that is received (kg_frame, or
 * kg_queue for several), call kg_main_cycle in every cycle, put the frames that it writes on the bus, and call
 * kg_confirmation when the controller says that a SYNC has left. kg_set gives a master's domain its time, kg_read
 * tells the time of any domain. examples/tracker.c is a whole program.
 *
 * A call answers a number: KG_DONE, or why it is refused; where several fit, the first in the order named at the
 * call. A refused call leaves the node and every lent byte to the bit as they were. There are three exceptions.
 * KG_SETTINGS leaves a node in which all domains are absent. Two numbers of a SYNC to a slave with a hysteresis
 * change that slave's row: under KG_SYNC_COUNTER a row that is not complete starts again, and under KG_ROW_INCOMPLETE
 * the SYNC joins the row, is the last one from then on, and its reading is kept. In a queue each frame is such a call
 * of its own.
 *
 * A reading t is nanoseconds of the one local clock, 0 to KG_READING_MAX, and that clock never goes back. The node
 * keeps the greatest reading of its successful frame, set, main cycle and confirmation calls and of SYNCs under
 * KG_ROW_INCOMPLETE; a call with an earlier one is refused by KG_READING, an equal one is good. So make the calls in
 * the order of their readings: hand over a frame that has been received before you call with a later reading.
 *
 * What C owes, and no call can test:
 * - Every pointer is valid for what it points to, and aligned as its type is, also where the length beside it is 0: a
 *   null pointer is never good. A length is the number of elements at its pointer, or fewer.
 * - What a call writes overlaps nothing else that the call is given.
 * - One call at a time on a node: while one runs, no other context calls with that node, nor touches what was lent.
 *   Make all calls in one context, or mask the interrupts that call while another context does. Reads alone may run
 *   at once.
 * - The words of a node are written by these calls alone. A node may be copied whole, and each copy goes its own way.
 *
 * The machine is little-endian. Lengths have 64 bits on every machine, also on one whose pointers have 32.
 */
#ifndef KNOTTGUST_H
#define KNOTTGUST_H

#include <stddef.h>
#include <stdint.h>

#if defined(__BYTE_ORDER__) && defined(__ORDER_LITTLE_ENDIAN__)
#if __BYTE_ORDER__ != __ORDER_LITTLE_ENDIAN__
#error "knottgust.h: the words of settings and results are laid out for a little-endian machine"
#endif
#elif defined(__BIG_ENDIAN__) || defined(__ARM_BIG_ENDIAN) || defined(__ARMEB__) || defined(__MIPSEB__)
#error "knottgust.h: the words of settings and results are laid out for a little-endian machine"
#endif

#ifdef __cplusplus
extern "C" {
#endif

/* ---- Sizes and ranges; times in nanoseconds. */

#define KG_NODE_WORDS 354
#define KG_DOMAINS 16    /* domains 0 to 15 */
#define KG_FRAME_BYTES 8 /* a SYNC or a FUP */
#define KG_QUEUE_MOST 32 /* frames in one queue */

#define KG_READING_MAX UINT64_C(1000000000000000000)
#define KG_NANOSECONDS_MAX UINT32_C(999999999)         /* of a time, beside its seconds */
#define KG_SET_SECONDS_MAX UINT32_C(4294967295)        /* of a time that is set */
#define KG_RECEIVED_SECONDS_MAX UINT64_C(4294967298)   /* of a time that is received */
#define KG_READ_SECONDS_MAX UINT64_C(5294967298)       /* of a time that is read */

#define KG_SYNCS_PER_CYCLE_MIN 1
#define KG_SYNCS_PER_CYCLE_MAX 16
#define KG_JUMP_WIDTH_MIN 1
#define KG_JUMP_WIDTH_MAX 15
#define KG_HYSTERESIS_MAX 15
#define KG_CLEAR_COUNT_MIN 1
#define KG_FOLLOW_UP_TIME_MIN UINT64_C(1)
#define KG_FOLLOW_UP_TIME_MAX UINT64_C(10000000000)
#define KG_LOSS_TIME_MAX UINT64_C(1000000000000)
#define KG_THRESHOLD_MAX UINT64_C(1000000000000)
#define KG_PERIOD_MIN UINT64_C(1000000)
#define KG_PERIOD_MAX UINT64_C(1000000000000)
#define KG_CONFIRMATION_TIME_MIN UINT32_C(1)
#define KG_CONFIRMATION_TIME_MAX UINT32_C(3000000000)

/* ---- What a call answers. 13 is not given. */

enum kg_number {
    KG_DONE = 0,
    KG_READING = 1,        /* the reading is above KG_READING_MAX, or before the kept one */
    KG_LENGTH = 2,         /* a frame has not 8 bytes; a queue is too long, or has not 8 bytes for each reading */
    KG_FRAME_TYPE = 3,     /* byte 0 is none of 0x10, 0x18, 0x20, 0x28 */
    KG_DOMAIN = 4,         /* the domain is above 15, or not in the role that the call needs */
    KG_CHECK = 5,          /* the frame is not good under the slave's check mode */
    KG_SYNC_COUNTER = 6,   /* the SYNC's counter is not 1 to J after the last one, within L */
    KG_NO_OPEN_PAIR = 7,   /* a FUP, and no SYNC waits for one, or for longer than F */
    KG_FUP_COUNTER = 8,    /* a FUP, and its counter is not that of the SYNC which waits */
    KG_NANOSECONDS = 9,    /* nanoseconds above KG_NANOSECONDS_MAX, in a FUP or in a set */
    KG_NEVER_SET = 10,     /* a read of a domain that has no time yet */
    KG_NO_OPEN_SYNC = 11,  /* a confirmation, and no SYNC of that counter waits for one, or for longer than C */
    KG_NO_ROOM = 12,       /* the buffer for frames or numbers is too short */
    KG_SETTINGS = 14,      /* a setting that is read is out of range, or no code */
    KG_ROW_INCOMPLETE = 15 /* the SYNC's counter is good, but not yet H of them have come in a row */
};

/* ---- The node. */

/* Opaque: its words say nothing that a product may count on. */
typedef struct kg_node {
    uint64_t words[KG_NODE_WORDS];
} kg_node;

/* ---- Settings. */

enum kg_role { KG_ROLE_ABSENT = 0, KG_ROLE_SLAVE = 1, KG_ROLE_MASTER = 2 };

/* Which frames a slave takes, plain ones and secured ones, which carry a check byte. */
enum kg_mode {
    KG_MODE_VALIDATED = 0,     /* secured ones with a right check byte */
    KG_MODE_NOT_VALIDATED = 1, /* plain ones */
    KG_MODE_IGNORED = 2,       /* both, and the check byte is not looked at */
    KG_MODE_OPTIONAL = 3       /* plain ones, and secured ones with a right check byte */
};

/* How a master sends. */
enum kg_security { KG_SECURITY_PLAIN = 0, KG_SECURITY_SECURED = 1 };

/*
 * The settings of one domain. A slave's fields are read only for a slave, a master's only for a master, and of an
 * absent domain the role alone: what is not read may be anything. All zeros is an absent domain.
 */
typedef struct kg_domain_settings {
    uint64_t follow_up_time;    /* slave, F: how long a SYNC waits for its FUP, 1 ns to 10 s */
    uint64_t loss_time;         /* slave, L: without a SYNC for longer any counter is good; above F, to 1,000 s */
    uint64_t future_threshold;  /* slave: an update further forward is a leap; 0 to 1,000 s, 0 is not checked */
    uint64_t past_threshold;    /* slave: an update further back is a leap; 0 to 1,000 s, 0 is not checked */
    uint64_t period;            /* master, P: from one SYNC to the next, 1 ms to 1,000 s */
    uint32_t confirmation_time; /* master, C: how long a SYNC waits for its confirmation, 1 ns to 3 s, below P */
    uint8_t role;               /* enum kg_role */
    uint8_t mode;               /* slave: enum kg_mode */
    uint8_t jump_width;         /* slave, J: how far a counter may go on from the last one, 1 to 15 */
    uint8_t unused0;            /* not read */
    uint8_t hysteresis;         /* slave, H: good SYNCs in a row that must follow the first, 0 to 15 */
    uint8_t clear_count;        /* slave: updates in a row without a leap that clear a leap bit, 1 to 255 */
    uint8_t unused1[2];         /* not read */
    uint8_t user[3];            /* master: the user bytes 0 to 2 that it sends */
    uint8_t security;           /* master: enum kg_security */
    uint8_t sync_ids[16];       /* both: the DataID of a SYNC, by its counter */
    uint8_t fup_ids[16];        /* both: the DataID of a FUP, by its counter */
} kg_domain_settings;

typedef struct kg_settings {
    uint8_t syncs_per_cycle; /* S: SYNC frames that a main cycle may write, 1 to 16 */
    uint8_t unused[7];       /* not read */
    kg_domain_settings domains[KG_DOMAINS];
} kg_settings;

/* ---- What calls write. */

/* What became of a frame. */
enum kg_what {
    KG_TAKEN_SYNC = 1,  /* a SYNC, which now waits for its FUP */
    KG_TAKEN_FIRST = 2, /* a FUP, and the domain has its first time */
    KG_TAKEN_UPDATE = 3 /* a FUP, and the domain has a new time in place of an older one */
};

typedef struct kg_taken {
    int64_t what;       /* enum kg_what */
    int64_t difference; /* KG_TAKEN_UPDATE: the new time less the old one's at the same reading, in ns; otherwise 0 */
} kg_taken;

/* The bits of a status. */
enum kg_status {
    KG_STATUS_TIMEOUT = 0x01,          /* a slave's time comes from a SYNC more than L ago */
    KG_STATUS_SYNC_TO_GATEWAY = 0x04,  /* the SGW bit of the FUP taken last */
    KG_STATUS_GLOBAL_TIME_BASE = 0x08, /* the domain has a time */
    KG_STATUS_TIMELEAP_FUTURE = 0x10,  /* a leap forward, and not yet clear_count updates without one */
    KG_STATUS_TIMELEAP_PAST = 0x20     /* the same, a leap back */
};

typedef struct kg_shown {
    uint64_t seconds;     /* to KG_READ_SECONDS_MAX: more than 32 bits */
    uint32_t nanoseconds; /* to KG_NANOSECONDS_MAX */
    uint8_t status;       /* bits of enum kg_status */
    uint8_t user[3];      /* user bytes 0 to 2: a slave's as received, a master's as set up */
    uint8_t updates;      /* rises by 1 with each new time, from 255 to 0 */
    uint8_t unused[7];    /* written as 0 */
} kg_shown;

/* ---- The calls. */

/*
 * Makes a fresh node: no domain has a time, no counter is known, no SYNC waits, the kept reading is 0. The node is
 * written whole, whatever stood there.
 *
 * KG_DONE, or KG_SETTINGS: the node then has all domains absent and S 1, and is a node all the same: calls on it are
 * answered, by KG_DOMAIN or by an idle main cycle.
 */
uint8_t kg_new(kg_node *node, const kg_settings *settings);

/*
 * A frame that was received at t: `length` bytes of any content. Take the reading when the frame arrives, best in the
 * receive interrupt: the time of a SYNC is true at its reading. The call itself may come later.
 *
 * KG_DONE: *taken is written. Otherwise it stays: KG_READING, KG_LENGTH, KG_FRAME_TYPE, KG_DOMAIN (no slave here),
 * KG_CHECK; then for a SYNC KG_SYNC_COUNTER, KG_ROW_INCOMPLETE, and for a FUP KG_NO_OPEN_PAIR, KG_FUP_COUNTER,
 * KG_NANOSECONDS. Drop the frame and go on: what a lost or a late frame costs, the next SYNC and FUP make good.
 */
uint8_t kg_frame(kg_node *node, uint64_t t, const uint8_t *bytes, uint64_t length, kg_taken *taken);

/*
 * What a bus driver has collected: `count` readings, and the frames of 8 bytes one behind another, in the order in
 * which they came; `frame_bytes` is the length of all, 8 times `count`. Each is taken as kg_frame takes it, on the
 * node after those before it, and its number goes to its place in `answers`. A frame that is refused stops nothing.
 *
 * KG_DONE: `count` bytes of `answers` are written, and those beyond them stay. Otherwise no frame is taken, and no
 * byte written: KG_NO_ROOM (`room` below `count`), KG_LENGTH (`count` above KG_QUEUE_MOST, or `frame_bytes` not 8
 * times it).
 */
uint8_t kg_queue(kg_node *node, const uint64_t *readings, uint64_t count, const uint8_t *frames, uint64_t frame_bytes,
                 uint8_t *answers, uint64_t room);

/*
 * The time of a domain at t, its status, user bytes and update counter, which belong together. The node stays, and t
 * is not kept; but t is held to the kept reading, as in every call.
 *
 * KG_DONE: *shown is written. Otherwise it stays: KG_READING, KG_DOMAIN (absent here), KG_NEVER_SET.
 */
uint8_t kg_read(const kg_node *node, uint8_t domain, uint64_t t, kg_shown *shown);

/*
 * Gives a master's domain its time: it was `seconds` and `nanoseconds` at t. A SYNC that waits for its confirmation
 * is not touched: its FUP tells the time that the SYNC began.
 *
 * KG_DONE, or KG_READING, KG_DOMAIN (no master here), KG_NANOSECONDS.
 */
uint8_t kg_set(kg_node *node, uint8_t domain, uint64_t t, uint32_t seconds, uint32_t nanoseconds);

/*
 * A main cycle at t: the SYNCs of the masters that are due, at most S of them; the next cycle goes on behind the
 * last. A master is due if it has a time of at most KG_SET_SECONDS_MAX seconds at t, and has sent none yet, or P ago
 * or more. Put the frames on the bus in their order, and call kg_confirmation for each that leaves: of a SYNC, byte 2
 * has the domain in its upper four bits and the counter in the lower four. `room` is the length of `out`, at least 8
 * times S also where no master is due.
 *
 * KG_DONE: *sent is how many frames stand at the start of `out`, 0 in an idle cycle; the bytes beyond them stay.
 * Otherwise *sent and `out` stay: KG_READING, KG_NO_ROOM.
 */
uint8_t kg_main_cycle(kg_node *node, uint64_t t, uint8_t *out, uint64_t room, uint8_t *sent);

/*
 * The SYNC of a master with this counter left at t: writes the FUP that tells when. Take the reading in the transmit
 * interrupt, and put the FUP on the bus. There is one FUP for a SYNC. `room` is the length of `out`, at least 8.
 *
 * KG_DONE: the FUP stands in the first 8 bytes of `out`; those beyond them stay. Otherwise `out` stays: KG_READING,
 * KG_DOMAIN (no master here), KG_NO_OPEN_SYNC (there is no FUP for this SYNC; the next cycles send a new one),
 * KG_NO_ROOM.
 */
uint8_t kg_confirmation(kg_node *node, uint8_t domain, uint64_t t, uint8_t counter, uint8_t *out, uint64_t room);

#ifdef __cplusplus
}
#endif

/* ---- The layout that the calls count on, tested where the language has a way. */

#if defined(__cplusplus) && __cplusplus >= 201103L
#define KG_HOLDS(fact) static_assert(fact, #fact)
#define KG_ALIGN(type) alignof(type)
#elif !defined(__cplusplus) && defined(__STDC_VERSION__) && __STDC_VERSION__ >= 201112L
#define KG_HOLDS(fact) _Static_assert(fact, #fact)
#define KG_ALIGN(type) _Alignof(type)
#endif

#ifdef KG_HOLDS
KG_HOLDS(sizeof(kg_node) == 2832);
KG_HOLDS(KG_ALIGN(kg_node) == 8);
KG_HOLDS(sizeof(kg_domain_settings) == 88);
KG_HOLDS(offsetof(kg_domain_settings, follow_up_time) == 0);
KG_HOLDS(offsetof(kg_domain_settings, loss_time) == 8);
KG_HOLDS(offsetof(kg_domain_settings, future_threshold) == 16);
KG_HOLDS(offsetof(kg_domain_settings, past_threshold) == 24);
KG_HOLDS(offsetof(kg_domain_settings, period) == 32);
KG_HOLDS(offsetof(kg_domain_settings, confirmation_time) == 40);
KG_HOLDS(offsetof(kg_domain_settings, role) == 44);
KG_HOLDS(offsetof(kg_domain_settings, mode) == 45);
KG_HOLDS(offsetof(kg_domain_settings, jump_width) == 46);
KG_HOLDS(offsetof(kg_domain_settings, hysteresis) == 48);
KG_HOLDS(offsetof(kg_domain_settings, clear_count) == 49);
KG_HOLDS(offsetof(kg_domain_settings, user) == 52);
KG_HOLDS(offsetof(kg_domain_settings, security) == 55);
KG_HOLDS(offsetof(kg_domain_settings, sync_ids) == 56);
KG_HOLDS(offsetof(kg_domain_settings, fup_ids) == 72);
KG_HOLDS(sizeof(kg_settings) == 1416);
KG_HOLDS(KG_ALIGN(kg_settings) == 8);
KG_HOLDS(offsetof(kg_settings, syncs_per_cycle) == 0);
KG_HOLDS(offsetof(kg_settings, domains) == 8);
KG_HOLDS(sizeof(kg_taken) == 16);
KG_HOLDS(KG_ALIGN(kg_taken) == 8);
KG_HOLDS(offsetof(kg_taken, what) == 0);
KG_HOLDS(offsetof(kg_taken, difference) == 8);
KG_HOLDS(sizeof(kg_shown) == 24);
KG_HOLDS(KG_ALIGN(kg_shown) == 8);
KG_HOLDS(offsetof(kg_shown, seconds) == 0);
KG_HOLDS(offsetof(kg_shown, nanoseconds) == 8);
KG_HOLDS(offsetof(kg_shown, status) == 12);
KG_HOLDS(offsetof(kg_shown, user) == 13);
KG_HOLDS(offsetof(kg_shown, updates) == 16);
#undef KG_HOLDS
#undef KG_ALIGN
#endif

#endif
