/*
 * Slaves of the trial's node. Each frame goes to the trial as it stands; around a FUP the domain is read, at the
 * FUP's own reading, so that D is the difference of two times that the trial gave, and the status is the trial's too.
 */
#include "slaves.h"

#include <inttypes.h>
#include <stdio.h>

#include "picture.h"

enum { CALL_FRAME = 1, CALL_READ = 2, ROLE_SLAVE = 1 };

/* What is known of a slave beside its counts. */
struct slave {
    uint64_t loss, future, past; /* its settings */
    int64_t sync_at; /* the reading of the SYNC taken last */
    bool set;
    int64_t base_at; /* the reading that its base is tied to */
    unsigned leap; /* the leap bit that shows, or 0, */
    int64_t leap_from; /* since this reading */
};

static struct slave slaves[DOMAINS];

/* ---- Settings. */

/* The settings block goes to the trial as it stands, and the trial says whether it is good. */
void settle(const char *name, bool given, struct account *account)
{
    static uint8_t item[ITEM_MOST + 1];
    FILE *file = fopen(name, "rb");
    size_t length = file != NULL ? fread(item, 1, sizeof item, file) : 0;
    unsigned domain, number;
    if (file == NULL || ferror(file) || length < BLOCKS || number_at(item, 2) != 0xC73B ||
        length != (size_t)BLOCKS + item[3] * (size_t)BLOCK)
        fail(2, "the settings are not 'settings S N' with its N domains, and nothing else");
    fclose(file);
    trial_ask_item(item, length);
    trial_exchange();
    number = number_in(trial_line());
    if (number != 0)
        fail(2, "the settings are refused by %u: one is out of range", number);
    for (domain = 0; domain < item[3]; domain++) {
        const uint8_t *block = item + BLOCKS + domain * BLOCK;
        slaves[domain].loss = number_at(block + 16, 8);
        slaves[domain].future = number_at(block + 24, 8);
        slaves[domain].past = number_at(block + 32, 8);
        account->rows[domain].shown = given && block[0] == ROLE_SLAVE;
    }
}

/* ---- What an update did to a slave's clock. */

/* Which way an update with this D leaps: paper 01, "A slave's domain". */
static unsigned leap_of(const struct slave *slave, int64_t d)
{
    if (slave->future != 0 && d > 0 && (uint64_t)d > slave->future)
        return STATUS_FUTURE;
    if (slave->past != 0 && d < 0 && (uint64_t)-d > slave->past)
        return STATUS_PAST;
    return 0;
}

/* The slave's TIMEOUT and leap up to a reading where its status is this. TIMEOUT began L after the base's reading. */
static void shade_to(unsigned domain, unsigned status, int64_t to)
{
    const struct slave *slave = &slaves[domain];
    if (status & STATUS_TIMEOUT)
        picture_span(domain, SPAN_TIMEOUT, slave->base_at + (int64_t)slave->loss, to);
    if (status & STATUS_FUTURE)
        picture_span(domain, SPAN_FUTURE, slave->leap_from, to);
    if (status & STATUS_PAST)
        picture_span(domain, SPAN_PAST, slave->leap_from, to);
}

/* D by the two reads. The leap is by D and the thresholds, since a bit may show from before; the trial must show it,
 * and no other that did not show before. */
static void tell_move(const struct frame *frame, struct shown before, struct shown after, struct told *told)
{
    const struct slave *slave = &slaves[frame->meaning.domain];
    told->moved = true;
    told->d = ((int64_t)after.seconds - (int64_t)before.seconds) * SECOND + (int64_t)after.nanoseconds -
        (int64_t)before.nanoseconds;
    told->leapt = leap_of(slave, told->d);
    if ((told->leapt & ~after.status) != 0 || (after.status & STATUS_LEAPS & ~slave->leap & ~told->leapt) != 0)
        fail(3, "line %" PRIu64 ": the status after D %" PRId64 " ns shows another leap", frame->line, told->d);
}

/* A FUP was taken, and the domain was read before and after it. */
static void tell_update(const struct frame *frame, struct shown before, struct shown after, struct told *told)
{
    unsigned domain = frame->meaning.domain, leap = after.status & STATUS_LEAPS;
    struct slave *slave = &slaves[domain];
    if (!after.is || before.is != slave->set)
        fail(3, "line %" PRIu64 ": the reads around a FUP that was taken show no update", frame->line);
    told->updated = true;
    if (before.is)
        tell_move(frame, before, after, told);
    shade_to(domain, before.status & STATUS_TIMEOUT, frame->reading);
    if (slave->leap != leap) {
        shade_to(domain, slave->leap, frame->reading);
        slave->leap = leap;
        slave->leap_from = frame->reading;
    }
    slave->set = true;
    slave->base_at = slave->sync_at;
    picture_update(domain, frame->reading, frame->line, told->moved ? &told->d : NULL);
}

/* ---- A frame to the trial, and its answers. */

/* A reading below 0, before the log's first line, is none: the trial is handed one that it refuses. */
static uint64_t handed(int64_t reading)
{
    return reading < 0 ? UINT64_MAX : (uint64_t)reading;
}

static bool is_fup(const struct frame *frame)
{
    return frame->meaning.is && frame->meaning.fup;
}

void ask_frame(const struct frame *frame)
{
    uint64_t reading = handed(frame->reading);
    if (is_fup(frame))
        trial_ask(CALL_READ, frame->meaning.domain, reading, NULL);
    trial_ask(CALL_FRAME, frame->length, reading, frame->bytes);
    if (is_fup(frame))
        trial_ask(CALL_READ, frame->meaning.domain, reading, NULL);
}

struct told tell_frame(const struct frame *frame, struct account *account)
{
    unsigned row = frame->meaning.is ? frame->meaning.domain : NO_DOMAIN;
    struct shown before = {0}, after = {0};
    struct told told = {0};
    if (is_fup(frame))
        before = shown_in(trial_line());
    told.number = number_in(trial_line());
    if (is_fup(frame))
        after = shown_in(trial_line());
    if (told.number >= NUMBERS || (told.number == 0 && row == NO_DOMAIN))
        fail(3, "line %" PRIu64 ": the trial answered %u", frame->line, told.number);
    count_frame(account, row, told.number);
    if (told.number != 0)
        picture_refused(row, frame->reading, frame->line, told.number);
    else if (is_fup(frame))
        tell_update(frame, before, after, &told);
    else
        slaves[row].sync_at = frame->reading;
    if (told.moved)
        count_move(account, row, told.d, told.leapt != 0);
    return told;
}

void say_frame(const struct frame *frame, const struct told *told)
{
    static const char digits[] = "0123456789ABCDEF";
    char bytes[2 * FRAME_BYTES + 1] = "-", what[40] = "no SYNC or FUP";
    unsigned i;
    for (i = 0; i < frame->length; i++) {
        bytes[2 * i] = digits[frame->bytes[i] / 16];
        bytes[2 * i + 1] = digits[frame->bytes[i] % 16];
        bytes[2 * i + 2] = 0;
    }
    if (frame->meaning.is)
        snprintf(what, sizeof what, "%-4s domain %-2u counter %-2u %-7s", frame->meaning.fup ? "FUP" : "SYNC",
            frame->meaning.domain % DOMAINS, frame->meaning.counter % 16, frame->meaning.secured ? "secured" : "plain");
    printf("%7" PRIu64 "  %15" PRId64 "  %-16s  %-33s  %u %s", frame->line, frame->reading, bytes, what, told->number,
        words_of_numbers[told->number]);
    if (told->moved)
        printf(", D %" PRId64 " ns", told->d);
    else if (told->updated)
        fputs(", the first time", stdout);
    if (told->leapt != 0)
        fputs(told->leapt == STATUS_FUTURE ? ", leap into the future" : ", leap into the past", stdout);
    putchar('\n');
}

void shade_rest(int64_t end)
{
    unsigned domain;
    for (domain = 0; domain < DOMAINS; domain++)
        if (slaves[domain].set)
            trial_ask(CALL_READ, domain, (uint64_t)end, NULL);
    trial_exchange();
    for (domain = 0; domain < DOMAINS; domain++)
        if (slaves[domain].set)
            shade_to(domain, shown_in(trial_line()).status, end);
}
