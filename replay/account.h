/*
 * What came of a log: the words for frames and numbers, a row of counts for each domain, and the closing table. Nothing
 * here judges a frame: the numbers are the trial's.
 */
#ifndef REPLAY_ACCOUNT_H
#define REPLAY_ACCOUNT_H

#include "log.h"
#include "trial.h"

enum {
    NUMBERS = 16, /* 0 to 15; a frame is never given 10 to 14 */
    NO_DOMAIN = DOMAINS, /* the row of frames that name no domain */
    ROWS = DOMAINS + 1,
    STATUS_TIMEOUT = 0x01,
    STATUS_FUTURE = 0x10,
    STATUS_PAST = 0x20,
    STATUS_LEAPS = STATUS_FUTURE | STATUS_PAST
};

/* The manual's word for each number, docs/MANUAL.md, "The refusal numbers". */
extern const char *const words_of_numbers[NUMBERS];

/* What a frame is by its bytes 0 and 2. */
struct meaning {
    bool is; /* a SYNC or a FUP */
    bool fup, secured;
    unsigned domain, counter;
};

struct meaning meaning_of(const uint8_t *bytes, unsigned length);

/* Why a line of the log went to no slave. */
enum passed { OTHER_INTERFACE, OTHER_ID, REMOTE, ERROR_FRAME, LONG_FRAME, NO_LINE, PASSED };

struct row {
    bool shown; /* the log names it, or the settings that were given have it as a slave */
    uint64_t frames, by_number[NUMBERS];
    uint64_t moves, leaps; /* updates with a D, and those of them that leapt */
    int64_t least, greatest;
};

struct account {
    struct row rows[ROWS];
    uint64_t lines, passed[PASSED];
};

void count_frame(struct account *account, unsigned row, unsigned number);
void count_move(struct account *account, unsigned row, int64_t d, bool leapt);

/* Whether some frame was refused by this number. */
bool has_number(const struct account *account, unsigned number);

/* The closing table, and what became of the lines. */
void say_account(const struct account *account);

#endif
