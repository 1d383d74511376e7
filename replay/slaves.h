/*
 * Slaves of the trial's node, and what frames do to them.
 */
#ifndef REPLAY_SLAVES_H
#define REPLAY_SLAVES_H

#include "account.h"

/* A frame on its way to the trial. */
struct frame {
    uint64_t line;
    int64_t reading;
    unsigned length;
    uint8_t bytes[FRAME_BYTES];
    struct meaning meaning;
};

/* What the trial said of it. */
struct told {
    unsigned number;
    bool updated; /* a FUP was taken */
    bool moved; /* and it moved a base that was set, by `d` */
    int64_t d;
    unsigned leapt; /* the leap bit of this update, or 0 */
};

/* Gives the trial the settings in a file, with one settings block and nothing else. Where they were given, each slave
 * of them has a row in the account. */
void settle(const char *file, bool given, struct account *account);

/* Asks the trial for a frame. */
void ask_frame(const struct frame *frame);

/* Its answers, in the order in which frames were asked; counted, and in the picture. */
struct told tell_frame(const struct frame *frame, struct account *account);

/* A line of it: log line, reading, bytes, what it is in words, number and word; of an update what it did. */
void say_frame(const struct frame *frame, const struct told *told);

/* Asks how each slave stands at the log's end, for the picture. */
void shade_rest(int64_t end);

#endif
