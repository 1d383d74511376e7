/*
 * Lines of a log. What candump, asc2log and people with an editor leave in one is taken: several spaces, a direction
 * behind the frame, CR at the end. Whatever else stands in a line makes it none.
 */
#include "log.h"

#include <errno.h>
#include <poll.h>
#include <signal.h>
#include <string.h>
#include <unistd.h>

enum {
    ID_STANDARD = 0x7FF,
    ID_EXTENDED = 0x1FFFFFFF,
    ID_ERROR = 0x20000000, /* the bit of an error frame */
    FD_BYTES = 64,
    XL_BYTES = 2048
};

/* In nanoseconds they fit 63 bits: the year 2262. */
#define SECONDS_MOST INT64_C(9223372035)

/* ---- Lines of text. */

static volatile sig_atomic_t interrupted;

static void interrupt(int number)
{
    (void)number;
    interrupted = 1;
}

void log_end_on_interrupt(void)
{
    struct sigaction action = {.sa_handler = interrupt, .sa_flags = SA_RESETHAND};
    sigaction(SIGINT, &action, NULL);
}

/* What `read` gives, once there is something; 0 after an interrupt. */
static ssize_t read_some(int fd, char *to, size_t most)
{
    while (!interrupted) {
        struct pollfd input = {.fd = fd, .events = POLLIN};
        ssize_t count = read(fd, to, most);
        if (count >= 0)
            return count;
        if (errno == EAGAIN)
            poll(&input, 1, -1);
        else if (errno != EINTR)
            return count;
    }
    return 0;
}

bool log_refill(struct log *log)
{
    ssize_t count;
    if (log->ended)
        return false;
    memmove(log->held, log->held + log->from, log->to - log->from);
    log->to -= log->from;
    log->from = 0;
    if (log->to == sizeof log->held) {
        log->too_long = true;
        log->to = 0;
    }
    count = read_some(log->fd, log->held + log->to, sizeof log->held - log->to);
    if (count >= 0)
        errno = 0;
    if (count <= 0) {
        log->ended = true;
        if (interrupted) { /* a line of which only the beginning was read is none to speak of */
            log->to = 0;
            log->too_long = false;
        }
        return false;
    }
    log->to += (size_t)count;
    log->read += (uint64_t)count;
    return true;
}

bool log_next(struct log *log, struct text *text)
{
    const char *from = log->held + log->from;
    const char *end = memchr(from, '\n', log->to - log->from);
    if (end == NULL && !(log->ended && (log->from < log->to || log->too_long)))
        return false;
    text->at = log->too_long ? NULL : from;
    text->length = end != NULL ? (size_t)(end - from) : log->to - log->from;
    log->from = end != NULL ? log->from + text->length + 1 : log->to;
    log->too_long = false;
    log->lines++;
    return true;
}

/* ---- Pieces of a line, from its beginning: each is taken off the text, or nothing is. */

static bool take(struct text *text, char wanted)
{
    if (text->length == 0 || *text->at != wanted)
        return false;
    text->at++;
    text->length--;
    return true;
}

static bool take_spaces(struct text *text)
{
    bool taken = false;
    while (take(text, ' ') || take(text, '\t'))
        taken = true;
    return taken;
}

/* A word of signs that can be printed. */
static struct text take_word(struct text *text)
{
    struct text word = {text->at, 0};
    while (word.length < text->length && word.at[word.length] > ' ' && word.at[word.length] <= '~')
        word.length++;
    text->at += word.length;
    text->length -= word.length;
    return word;
}

static int digit_of(char c)
{
    if (c >= '0' && c <= '9')
        return c - '0';
    if (c >= 'A' && c <= 'F')
        return c - 'A' + 10;
    if (c >= 'a' && c <= 'f')
        return c - 'a' + 10;
    return 16;
}

/* Digits of this base, up to `most` of them; `number` is what they say. How many they are. */
static unsigned take_number(struct text *text, int base, unsigned most, int64_t *number)
{
    unsigned count = 0;
    *number = 0;
    while (count < most && text->length > 0 && digit_of(*text->at) < base) {
        *number = *number * base + digit_of(*text->at);
        text->at++;
        text->length--;
        count++;
    }
    return count;
}

/* Bytes in hexadecimal, up to `most` of them; the first eight are kept. How many they are. */
static unsigned take_bytes(struct text *text, unsigned most, uint8_t kept[FRAME_BYTES])
{
    unsigned count = 0;
    while (count < most && text->length > 1 && digit_of(text->at[0]) < 16 && digit_of(text->at[1]) < 16) {
        if (count < FRAME_BYTES)
            kept[count] = (uint8_t)(digit_of(text->at[0]) * 16 + digit_of(text->at[1]));
        text->at += 2;
        text->length -= 2;
        count++;
    }
    return count;
}

/* ---- What a line says. */

/* Micros as candump has them, or nanos. */
static bool take_time(struct text *text, int64_t *time)
{
    int64_t seconds, fraction;
    unsigned digits;
    if (!take(text, '(') || take_number(text, 10, 18, &seconds) == 0 || seconds > SECONDS_MOST || !take(text, '.'))
        return false;
    digits = take_number(text, 10, 9, &fraction);
    if ((digits != 6 && digits != 9) || !take(text, ')'))
        return false;
    *time = seconds * SECOND + fraction * (digits == 6 ? 1000 : 1);
    return true;
}

/* Behind "#R": a length, and the code for a length. */
static void take_remote(struct text *text)
{
    int64_t unused;
    if (take_number(text, 9, 1, &unused) != 0 && take(text, '_'))
        take_number(text, 16, 1, &unused);
}

/* Behind "##": a digit of flags, and the bytes. */
static bool take_fd(struct text *text)
{
    uint8_t kept[FRAME_BYTES];
    int64_t flags;
    if (take_number(text, 16, 1, &flags) == 0)
        return false;
    take_bytes(text, FD_BYTES, kept);
    return true;
}

/* Behind the '#' of a priority and a network: flags, a type, an address, and the bytes. */
static bool take_xl(struct text *text)
{
    uint8_t kept[FRAME_BYTES];
    int64_t unused;
    return take_number(text, 16, 2, &unused) == 2 && take(text, ':') && take_number(text, 16, 2, &unused) == 2 &&
        take(text, ':') && take_number(text, 16, 8, &unused) == 8 && take(text, '#') &&
        take_bytes(text, XL_BYTES, kept) > 0;
}

/* Behind the '#' of a frame of up to eight bytes: these, and with eight the code for a length. */
static void take_classic(struct text *text, struct line *line)
{
    int64_t unused;
    line->length = take_bytes(text, FRAME_BYTES, line->bytes);
    if (line->length == FRAME_BYTES && take(text, '_'))
        take_number(text, 16, 1, &unused);
}

/* The identifier, what stands behind it, and what kind of frame that makes it. Why it is none, or NULL. */
static const char *take_frame(struct text *text, struct line *line)
{
    static const char no_id[] = "no identifier of 3 or 8 hexadecimal digits with a '#' behind it";
    int64_t id;
    unsigned digits = take_number(text, 16, 9, &id);
    if (take_spaces(text))
        return take(text, '[') ? "written by candump without -L" : no_id;
    if (!take(text, '#'))
        return no_id;
    if (digits == 5) {
        line->kind = KIND_LONG;
        return take_xl(text) ? NULL : no_id;
    }
    line->extended = digits == 8;
    if ((digits != 3 || id > ID_STANDARD) && (digits != 8 || id > (ID_EXTENDED | ID_ERROR)))
        return no_id;
    line->id = (uint32_t)id;
    if (take(text, '#')) {
        line->kind = KIND_LONG;
        return take_fd(text) ? NULL : "no digit of flags behind '##'";
    }
    if (take(text, 'R')) {
        line->kind = KIND_REMOTE;
        take_remote(text);
    } else {
        line->kind = KIND_FRAME;
        take_classic(text, line);
    }
    if (id & ID_ERROR)
        line->kind = KIND_ERROR;
    return NULL;
}

/* The direction, R or T, that asc2log and `candump -x` leave behind a frame; and the end. */
static bool take_end(struct text *text)
{
    if (take_spaces(text) && (take(text, 'R') || take(text, 'T')))
        take_spaces(text);
    take(text, '\r');
    return text->length == 0;
}

/* Why it is none, or NULL. */
static const char *take_line(struct text *text, struct line *line)
{
    const char *why;
    if (text->at == NULL)
        return "longer than any line of candump";
    if (text->length == 0 || *text->at == '\r')
        return "empty";
    if (!take_time(text, &line->time))
        return "no time as (seconds.micros) at its beginning";
    if (!take_spaces(text))
        return "no space behind the time";
    line->interface = take_word(text);
    if (line->interface.length == 0 || !take_spaces(text))
        return "no interface and space before the frame";
    why = take_frame(text, line);
    if (why != NULL)
        return why;
    return take_end(text) ? NULL : "behind the '#' there is not just a frame's bytes in hexadecimal";
}

struct line line_of(struct text text)
{
    struct line line = {.kind = KIND_NONE};
    line.why = take_line(&text, &line);
    if (line.why != NULL)
        line.kind = KIND_NONE;
    return line;
}

bool id_of(const char *written, uint32_t *id, bool *extended)
{
    struct text text = {written, strlen(written)};
    int64_t number;
    unsigned digits;
    if (text.length > 2 && text.at[0] == '0' && (text.at[1] == 'x' || text.at[1] == 'X')) {
        text.at += 2;
        text.length -= 2;
    }
    digits = take_number(&text, 16, 8, &number);
    if (digits == 0 || text.length > 0 || number > ID_EXTENDED)
        return false;
    *id = (uint32_t)number;
    *extended = digits == 8 || number > ID_STANDARD;
    return true;
}
