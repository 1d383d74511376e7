/*
 * A log to the slaves of a node: which lines of it are frames of theirs, the lines that say what became of these, and
 * what there is to say at the end.
 */
#include "replay.h"

#include <errno.h>
#include <inttypes.h>
#include <stdio.h>
#include <string.h>
#include <sys/stat.h>
#include <time.h>
#include <unistd.h>

#include "picture.h"
#include "slaves.h"

enum { BATCH = 1024 };

/* A call at a later reading is refused (paper 01, "Two clocks"). */
#define READING_MOST INT64_C(1000000000000000000)

static struct account account;
static struct log input;
static struct frame batch[BATCH]; /* frames that the trial has not been asked for yet */
static unsigned held; /* how many */
static bool started; /* the log has had a line with a time */
static int64_t first_time; /* the time of that line */
static int64_t last_reading; /* the greatest reading of a line */

/* ---- Frames, as many at a time as the log gave. */

static void tell_batch(const struct call *call)
{
    unsigned i;
    for (i = 0; i < held; i++)
        ask_frame(&batch[i]);
    trial_exchange();
    for (i = 0; i < held; i++) {
        struct told told = tell_frame(&batch[i], &account);
        if (told.number != 0 || !call->refused_only)
            say_frame(&batch[i], &told);
    }
    held = 0;
    flush_lines();
}

/* ---- Lines of the log. */

static bool is_named(struct text text, const char *name)
{
    return strlen(name) == text.length && memcmp(text.at, name, text.length) == 0;
}

static bool is_chosen_interface(const struct call *call, const struct line *line)
{
    unsigned i;
    for (i = 0; i < call->interfaces; i++)
        if (is_named(line->interface, call->interface[i]))
            return true;
    return call->interfaces == 0;
}

static bool is_chosen_id(const struct call *call, const struct line *line)
{
    unsigned i;
    for (i = 0; i < call->ids; i++)
        if (call->id[i].id == line->id && call->id[i].extended == line->extended)
            return true;
    return false;
}

/* Why a line that is one goes to no slave, or PASSED where it does. */
static enum passed passed_by(const struct call *call, const struct line *line)
{
    if (!is_chosen_interface(call, line))
        return OTHER_INTERFACE;
    switch (line->kind) {
    case KIND_REMOTE:
        return REMOTE;
    case KIND_ERROR:
        return ERROR_FRAME;
    case KIND_LONG:
        return LONG_FRAME;
    default:
        return is_chosen_id(call, line) ? PASSED : OTHER_ID;
    }
}

/* Frames of two buses make no sense to one node, unless they were asked for: said once. */
static void look_at_interface(const struct call *call, const struct line *line)
{
    static char heard[64]; /* the interface of the first frame */
    static bool said;
    if (call->interfaces > 0 || said)
        return;
    if (*heard == 0)
        snprintf(heard, sizeof heard, "%.*s", (int)line->interface.length, line->interface.at);
    if (is_named(line->interface, heard) || line->interface.length >= sizeof heard)
        return;
    fprintf(stderr,
        "tools/replay: line %" PRIu64 ": frames come from %s and from %.*s, and go to one node; --interface chooses\n",
        input.lines, heard, (int)line->interface.length, line->interface.at);
    said = true;
}

static void take_frame(const struct line *line)
{
    struct frame *frame = &batch[held++];
    frame->line = input.lines;
    frame->reading = line->time - first_time;
    frame->length = line->length;
    memcpy(frame->bytes, line->bytes, FRAME_BYTES);
    frame->meaning = meaning_of(line->bytes, line->length);
}

static void take_line(const struct call *call, struct text text)
{
    struct line line = line_of(text);
    enum passed passed;
    if (line.kind == KIND_NONE) {
        fprintf(stderr, "tools/replay: line %" PRIu64 ": no frame of candump: %s\n", input.lines, line.why);
        account.passed[NO_LINE]++;
        return;
    }
    if (!started)
        first_time = line.time;
    started = true;
    if (line.time - first_time > last_reading)
        last_reading = line.time - first_time;
    passed = passed_by(call, &line);
    if (passed != PASSED) {
        account.passed[passed]++;
        return;
    }
    look_at_interface(call, &line);
    take_frame(&line);
    if (held == BATCH)
        tell_batch(call);
}

/* ---- The run. */

/* A line every second, where a person looks on. */
static void say_progress(void)
{
    static time_t said;
    static struct stat state;
    struct timespec now;
    if (clock_gettime(CLOCK_MONOTONIC, &now) != 0 || now.tv_sec == said || !isatty(STDERR_FILENO))
        return;
    if (said != 0) {
        fprintf(stderr, "tools/replay: line %" PRIu64 ", %" PRIu64, input.lines, input.read / 1000000);
        if (fstat(input.fd, &state) == 0 && S_ISREG(state.st_mode))
            fprintf(stderr, " of %" PRIu64, (uint64_t)state.st_size / 1000000);
        fputs(" MB\n", stderr);
    }
    said = now.tv_sec;
}

int replay_log(const struct call *call)
{
    struct text text;
    bool more;
    input.fd = open_input(call->input);
    settle(call->settings, call->settings_given, &account);
    picture_begin(call->picture);
    log_end_on_interrupt();
    do {
        more = log_refill(&input);
        if (!more && errno != 0)
            fail(2, "cannot read '%s': %s", call->input, strerror(errno));
        while (log_next(&input, &text))
            take_line(call, text);
        tell_batch(call);
        say_progress();
    } while (more);
    account.lines = input.lines;
    if (last_reading > READING_MOST)
        last_reading = READING_MOST;
    shade_rest(last_reading);
    say_account(&account);
    flush_lines();
    picture_end(call->input, &account, last_reading);
    return account.passed[NO_LINE] > 0 ? 1 : 0;
}
