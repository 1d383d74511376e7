/*
 * What a picture keeps. The time of the log is cut into at most PIECES pieces of one width, and a piece keeps the least
 * and the greatest D and, for each number, the first refused frame and how many there were. When the log runs over the
 * last piece, two pieces become one and the width doubles: so a short log is drawn frame by frame, and a long one as
 * what could be seen of it anyway.
 */
#include "picture.h"

#include <errno.h>
#include <fcntl.h>
#include <stdio.h>
#include <stdlib.h>
#include <string.h>
#include <sys/stat.h>
#include <unistd.h>

#include "kept.h"

static const char *path; /* of the picture; NULL: there is none */
static FILE *file;
static struct kept *rows;
static int64_t width = 1000; /* of a piece, in nanoseconds */

void picture_begin(const char *name)
{
    int fd;
    if (name == NULL)
        return;
    fd = open(name, O_WRONLY | O_CREAT, 0666); /* what stands there stays until the picture is drawn */
    file = fd < 0 ? NULL : fdopen(fd, "wb");
    if (file == NULL)
        fail(2, "cannot write '%s': %s", name, strerror(errno));
    rows = calloc(ROWS, sizeof *rows);
    if (rows == NULL)
        fail(3, "no memory");
    path = name;
}

/* ---- What is kept. */

/* Two marks of one kind as one, which stands at the first. */
static void join_mark(struct mark *to, const struct mark *more)
{
    uint64_t count = to->count + more->count;
    if (to->count == 0)
        *to = *more;
    to->count = count;
}

/* Two D: the lesser if `sign` is 1, the greater if it is -1. */
static void join_end(struct mark *to, const struct mark *more, int sign)
{
    uint64_t count = to->count + more->count;
    if (to->count == 0 || (more->count > 0 && (sign > 0 ? more->d < to->d : more->d > to->d)))
        *to = *more;
    to->count = count;
}

static void join_piece(struct piece *to, const struct piece *more)
{
    unsigned number;
    join_mark(&to->first, &more->first);
    join_end(&to->least, &more->least, 1);
    join_end(&to->greatest, &more->greatest, -1);
    for (number = 0; number < NUMBERS; number++)
        join_mark(&to->refused[number], &more->refused[number]);
}

/* Spans that stand closer than a piece is wide become one. */
static void join_spans(struct spans *spans)
{
    unsigned kept = 0, i;
    for (i = 1; i < spans->count; i++)
        if (spans->of[i].from - spans->of[kept].to < width)
            spans->of[kept].to = spans->of[i].to;
        else
            spans->of[++kept] = spans->of[i];
    if (spans->count > 0)
        spans->count = kept + 1;
}

static void double_width(void)
{
    unsigned row, i;
    width *= 2;
    for (row = 0; row < ROWS; row++) {
        struct piece *pieces = rows[row].pieces;
        for (i = 0; i < PIECES; i += 2) {
            join_piece(&pieces[i], &pieces[i + 1]);
            pieces[i / 2] = pieces[i];
        }
        memset(pieces + PIECES / 2, 0, sizeof *pieces * PIECES / 2);
        for (i = 0; i < SPAN_KINDS; i++)
            join_spans(&rows[row].spans[i]);
    }
}

/* A reading that is none stands at the beginning; one that no call may have, at the last that it may. */
static int64_t placed(int64_t reading)
{
    const int64_t most = INT64_C(1000000000000000000);
    return reading < 0 ? 0 : reading > most ? most : reading;
}

static struct piece *piece_at(unsigned row, int64_t at)
{
    while (at / width >= PIECES)
        double_width();
    return &rows[row].pieces[at / width];
}

void picture_update(unsigned domain, int64_t reading, uint64_t line, const int64_t *d)
{
    struct mark mark = {1, line, placed(reading), d != NULL ? *d : 0};
    struct piece *piece;
    if (path == NULL)
        return;
    piece = piece_at(domain, mark.at);
    if (d == NULL) {
        join_mark(&piece->first, &mark);
    } else {
        join_end(&piece->least, &mark, 1);
        join_end(&piece->greatest, &mark, -1);
    }
}

void picture_refused(unsigned row, int64_t reading, uint64_t line, unsigned number)
{
    struct mark mark = {1, line, placed(reading), 0};
    if (path != NULL)
        join_mark(&piece_at(row, mark.at)->refused[number], &mark);
}

void picture_span(unsigned domain, enum span_kind kind, int64_t from, int64_t to)
{
    struct spans *spans;
    if (path == NULL)
        return;
    piece_at(domain, placed(to));
    spans = &rows[domain].spans[kind];
    if (spans->count == SPANS_MOST)
        join_spans(spans);
    spans->of[spans->count].from = placed(from);
    spans->of[spans->count++].to = placed(to);
}

void picture_end(const char *name, const struct account *account, int64_t end)
{
    struct stat state;
    if (path == NULL)
        return;
    if (fstat(fileno(file), &state) == 0 && S_ISREG(state.st_mode) && ftruncate(fileno(file), 0) != 0)
        fail(2, "cannot write '%s': %s", path, strerror(errno));
    draw_picture(file, name, rows, account, end);
    if (ferror(file) || fclose(file) != 0)
        fail(2, "cannot write '%s': %s", path, strerror(errno));
}
