/*
 * The proved trial, at the other ends of two pipes: items go to it, and a line for each comes back. What the items and
 * the lines are is docs/MANUAL.md's, "The trial".
 */
#ifndef REPLAY_TRIAL_H
#define REPLAY_TRIAL_H

#include <stdbool.h>
#include <stddef.h>
#include <stdint.h>

enum {
    TRIAL_READ = 3, /* the descriptor that the trial's lines come from */
    TRIAL_WRITE = 4, /* the one that its items go to */
    RECORD = 20,
    BLOCKS = 4, /* where the domain blocks of a settings block begin */
    BLOCK = 128,
    ITEM_MOST = BLOCKS + 255 * BLOCK,
    DOMAINS = 16
};

/* A call record by its fields; `payload` is eight bytes, or NULL for zeros. */
void trial_ask(unsigned kind, unsigned domain, uint64_t reading, const uint8_t *payload);

/* An item as it stands. */
void trial_ask_item(const uint8_t *item, size_t length);

/* Hands all items over that were asked, and takes a line for each. */
void trial_exchange(void);

/* The next of these lines, behind its item's number; NULL where the item has a wrong mark or kind. */
const char *trial_line_or_bad(void);

/* The next of these lines, of an item that has a right mark and kind. */
const char *trial_line(void);

/* ---- Lines as values. */

/* The number of a line's answer, which it begins with. */
unsigned number_in(const char *line);

struct shown {
    bool is; /* the read was answered by a time */
    uint64_t seconds;
    uint32_t nanoseconds;
    unsigned status;
};

/* What a read's line shows. */
struct shown shown_in(const char *line);

/* Numbers of an item, big-endian. */
uint64_t number_at(const uint8_t *bytes, size_t count);

/* ---- The run's end, and what it has written. */

/* Ends the run with a word on the error output: with 2, the call is wrong; with 3, the tool or the trial failed. */
void fail(int status, const char *what, ...);

/* Sees that what was printed is written; ends the run where it is not, without a word where nobody reads on. */
void flush_lines(void);

#endif
