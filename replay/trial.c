/*
 * Items to the trial, and its lines. Both pipes are watched at once, so that neither end waits for the other, however
 * small the pipes are.
 */
#include "trial.h"

#include <errno.h>
#include <fcntl.h>
#include <inttypes.h>
#include <poll.h>
#include <stdarg.h>
#include <stdio.h>
#include <stdlib.h>
#include <string.h>
#include <unistd.h>

/* Bytes that grow. */
struct bytes {
    char *at;
    size_t length, room;
};

static struct bytes asked; /* items that are not handed over yet */
static struct bytes said; /* lines that came back */
static size_t wanted; /* how many lines are still to come for what was asked */
static size_t used; /* how much of what was said is taken */
static uint64_t item; /* the number of the next line's item */

void fail(int status, const char *what, ...)
{
    va_list words;
    fflush(stdout);
    fputs("tools/replay: ", stderr);
    va_start(words, what);
    vfprintf(stderr, what, words);
    va_end(words);
    fputc('\n', stderr);
    exit(status);
}

void flush_lines(void)
{
    if (fflush(stdout) == 0 && !ferror(stdout))
        return;
    if (errno == EPIPE)
        exit(3);
    fail(3, "cannot write: %s", strerror(errno));
}

static void make_room(struct bytes *bytes, size_t more)
{
    size_t room = bytes->room;
    while (room - bytes->length < more)
        room = room == 0 ? 65536 : 2 * room;
    if (room == bytes->room)
        return;
    bytes->at = realloc(bytes->at, room);
    if (bytes->at == NULL)
        fail(3, "no memory");
    bytes->room = room;
}

/* ---- Items. */

void trial_ask_item(const uint8_t *bytes, size_t length)
{
    make_room(&asked, length);
    memcpy(asked.at + asked.length, bytes, length);
    asked.length += length;
    wanted++;
}

void trial_ask(unsigned kind, unsigned domain, uint64_t reading, const uint8_t *payload)
{
    uint8_t record[RECORD] = {0xC7, 0x3A, (uint8_t)kind, (uint8_t)domain};
    size_t i;
    for (i = 0; i < 8; i++)
        record[4 + i] = (uint8_t)(reading >> (56 - 8 * i));
    if (payload != NULL)
        memcpy(record + 12, payload, 8);
    trial_ask_item(record, RECORD);
}

/* ---- The two pipes. */

/* Of both descriptors: a call on it gives what there is, and does not wait. */
static void unwaiting(void)
{
    static bool done;
    if (done)
        return;
    if (fcntl(TRIAL_READ, F_SETFL, O_NONBLOCK) < 0 || fcntl(TRIAL_WRITE, F_SETFL, O_NONBLOCK) < 0)
        fail(3, "there is no trial to ask");
    done = true;
}

/* Takes what came back. False once the trial has closed its end. */
static bool hear(void)
{
    ssize_t count;
    size_t i;
    make_room(&said, 65536);
    count = read(TRIAL_READ, said.at + said.length, said.room - said.length);
    if (count < 0 && (errno == EAGAIN || errno == EINTR))
        return true;
    if (count <= 0)
        return false;
    for (i = 0; i < (size_t)count && wanted > 0; i++)
        if (said.at[said.length + i] == '\n')
            wanted--;
    said.length += (size_t)count;
    return true;
}

/* Hands over what the pipe takes, from here on; how much. */
static size_t hand_over(size_t from)
{
    ssize_t count = write(TRIAL_WRITE, asked.at + from, asked.length - from);
    if (count < 0 && errno != EAGAIN && errno != EINTR)
        fail(3, "the trial ended before it had every item");
    return count < 0 ? 0 : (size_t)count;
}

void trial_exchange(void)
{
    size_t over = 0;
    unwaiting();
    said.length = used = 0;
    while (over < asked.length || wanted > 0) {
        struct pollfd ends[2] = {
            {.fd = TRIAL_READ, .events = POLLIN},
            {.fd = over < asked.length ? TRIAL_WRITE : -1, .events = POLLOUT},
        };
        if (poll(ends, 2, -1) < 0 && errno != EINTR)
            fail(3, "the trial cannot be asked: %s", strerror(errno));
        if (ends[1].revents != 0)
            over += hand_over(over);
        if (ends[0].revents != 0 && !hear())
            break;
    }
    asked.length = wanted = 0;
}

/* The next whole line of what was said, ended by a 0; NULL where there is none. */
static char *next_line(void)
{
    char *line = said.at + used;
    char *end = used < said.length ? memchr(line, '\n', said.length - used) : NULL;
    if (end == NULL)
        return NULL;
    *end = 0;
    used += (size_t)(end - line) + 1;
    return line;
}

const char *trial_line_or_bad(void)
{
    char *line = next_line(), *behind;
    if (line == NULL)
        fail(3, "the trial ended before its answer to item %" PRIu64, item + 1);
    item++;
    if (*line < '0' || *line > '9')
        return NULL;
    if (strtoull(line, &behind, 10) != item || *behind != ' ')
        fail(3, "the trial answered '%s' to item %" PRIu64, line, item);
    return behind + 1;
}

const char *trial_line(void)
{
    const char *line = trial_line_or_bad();
    if (line == NULL)
        fail(3, "the trial took item %" PRIu64 " for a bad record", item);
    return line;
}

/* ---- Lines as values. */

unsigned number_in(const char *line)
{
    return (unsigned)strtoul(line, NULL, 10);
}

struct shown shown_in(const char *line)
{
    struct shown shown = {.is = number_in(line) == 0};
    char *at;
    if (!shown.is)
        return shown;
    shown.seconds = strtoull(line + 1, &at, 10);
    shown.nanoseconds = (uint32_t)strtoul(at + 1, &at, 10);
    shown.status = (unsigned)strtoul(at, &at, 16);
    return shown;
}

uint64_t number_at(const uint8_t *bytes, size_t count)
{
    uint64_t number = 0;
    size_t i;
    for (i = 0; i < count; i++)
        number = number << 8 | bytes[i];
    return number;
}
