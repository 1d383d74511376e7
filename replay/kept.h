/* What a picture keeps of a log, for those who draw it. */
#ifndef REPLAY_KEPT_H
#define REPLAY_KEPT_H

#include <stdio.h>

#include "picture.h"

enum { PIECES = 1024, SPANS_MOST = 2 * PIECES };

/* A frame's place, and how many frames it stands for. */
struct mark {
    uint64_t count, line;
    int64_t at, d;
};

struct piece {
    struct mark first; /* a domain's first update, which has no D */
    struct mark least, greatest; /* of the updates with a D; `count` is of both the same */
    struct mark refused[NUMBERS];
};

struct spans {
    unsigned count;
    struct {
        int64_t from, to;
    } of[SPANS_MOST];
};

/* Of one row. */
struct kept {
    struct piece pieces[PIECES];
    struct spans spans[SPAN_KINDS];
};

/* Draws what is kept of each row to an open file; `name` is the log's, and `end` its last reading. */
void draw_picture(FILE *file, const char *name, const struct kept *kept, const struct account *account, int64_t end);

#endif
