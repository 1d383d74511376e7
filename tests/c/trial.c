/*
 * The trial from C: the items of docs/MANUAL.md, "The trial", from standard input, and for each the line that the
 * program `trial` writes, by the calls of knottgust.h alone. tools/test_c compares the two on every input of
 * tests/trial.
 *
 * Beside its line each call is held to what the header says of it: that a refused one leaves the node and its results,
 * that nothing behind a lent buffer is written, that a frame's difference is that of two reads. Where one of these does
 * not hold, the run ends with 1 and a word on the error output.
 */
#include <inttypes.h>
#include <stdio.h>
#include <stdlib.h>
#include <string.h>

#include "knottgust.h"

enum {
    RECORD = 20,
    BLOCKS = 4, /* where the domain blocks of a settings block begin */
    BLOCK = 128,
    ITEM_MOST = BLOCKS + 255 * BLOCK,
    READINGS_MOST = 255,
    FRAMES_MOST = 4096,
    LENT_MOST = 512,
    BEHIND = 8, /* bytes behind a lent buffer, which no call may write */
    FILL = 0xA5
};

/* ---- What calls leave. */

static uint64_t item_number = 1;

static void must(int holds, const char *fact)
{
    if (holds)
        return;
    fflush(stdout);
    fprintf(stderr, "trial: item %" PRIu64 ": not so: %s\n", item_number, fact);
    exit(1);
}

static int is_filled(const void *from, size_t count)
{
    const uint8_t *bytes = from;
    size_t i;
    for (i = 0; i < count; i++)
        if (bytes[i] != FILL)
            return 0;
    return 1;
}

/* After a call that answered `number`; `before` is the node before it. */
static void must_keep(const kg_node *before, const kg_node *node, uint8_t number)
{
    if (number != KG_DONE && number != KG_SYNC_COUNTER && number != KG_ROW_INCOMPLETE)
        must(memcmp(before, node, sizeof *node) == 0, "a refused call leaves the node");
}

/* ---- Numbers of an item, big-endian. */

static uint64_t number_at(const uint8_t *bytes, size_t count)
{
    uint64_t number = 0;
    size_t i;
    for (i = 0; i < count; i++)
        number = number << 8 | bytes[i];
    return number;
}

static size_t least(size_t a, size_t b)
{
    return a < b ? a : b;
}

static uint64_t reading_of(const uint8_t *item)
{
    return number_at(item + 4, 8);
}

/* ---- Lines. */

static void say_number(uint8_t number)
{
    printf("%" PRIu64 " %d", item_number, number);
}

static void say_bytes(const uint8_t *bytes, size_t count)
{
    size_t i;
    for (i = 0; i < count; i++)
        printf("%02X", bytes[i]);
}

/* ---- A lent buffer of `length` bytes, and those behind it. */

typedef struct lent {
    uint8_t bytes[LENT_MOST + BEHIND];
    size_t length;
} lent;

static void lend(lent *buffer, size_t length)
{
    memset(buffer->bytes, FILL, sizeof buffer->bytes);
    buffer->length = least(length, LENT_MOST);
}

static void say_lent(const lent *buffer)
{
    size_t behind = sizeof buffer->bytes - buffer->length;
    must(is_filled(buffer->bytes + buffer->length, behind), "a call writes nothing behind a buffer");
    putchar(' ');
    if (buffer->length == 0)
        putchar('-');
    say_bytes(buffer->bytes, buffer->length);
}

/* ---- Settings. */

static void domain_of(kg_domain_settings *domain, const uint8_t *block)
{
    domain->role = block[0];
    domain->mode = block[1];
    domain->jump_width = block[2];
    domain->security = block[3];
    memcpy(domain->user, block + 4, 3);
    domain->clear_count = (uint8_t)(block[7] + 1);
    domain->follow_up_time = number_at(block + 8, 8);
    domain->loss_time = number_at(block + 16, 8);
    domain->future_threshold = number_at(block + 24, 8);
    domain->past_threshold = number_at(block + 32, 8);
    domain->period = number_at(block + 40, 8);
    /* above 32 bits it is out of range, whatever it is */
    domain->confirmation_time = (uint32_t)least(number_at(block + 48, 8), UINT32_MAX);
    memcpy(domain->sync_ids, block + 56, 16);
    memcpy(domain->fup_ids, block + 72, 16);
    domain->hysteresis = block[88];
}

/* The node of S and so many domain blocks; no node has more than 16. What the header says is not read is junk here. */
static uint8_t node_of(kg_node *node, uint8_t syncs_per_cycle, uint8_t count, const uint8_t *blocks)
{
    kg_settings settings;
    size_t d;
    memset(&settings, FILL, sizeof settings);
    settings.syncs_per_cycle = count > KG_DOMAINS ? 0 : syncs_per_cycle;
    for (d = 0; d < KG_DOMAINS; d++) {
        settings.domains[d].role = KG_ROLE_ABSENT;
        if (d < count)
            domain_of(&settings.domains[d], blocks + BLOCK * d);
    }
    return kg_new(node, &settings);
}

static void take_settings(kg_node *node, const uint8_t *item)
{
    say_number(node_of(node, item[2], item[3], item + BLOCKS));
}

/* ---- Calls: kinds 1 to 7. */

static int64_t nanoseconds_between(const kg_shown *from, const kg_shown *to)
{
    int64_t seconds = (int64_t)to->seconds - (int64_t)from->seconds;
    return 1000000000 * seconds + (int64_t)to->nanoseconds - (int64_t)from->nanoseconds;
}

/* What a frame of a domain, taken at t, says of itself, by the time of that domain at t before it and after it. */
static void must_say(const kg_node *before, const kg_node *node, uint8_t domain, uint64_t t, const kg_taken *taken)
{
    kg_shown old = {0}, new = {0};
    uint8_t was = kg_read(before, domain, t, &old);
    uint8_t is = kg_read(node, domain, t, &new);
    int64_t difference = nanoseconds_between(&old, &new);
    if (taken->what == KG_TAKEN_SYNC)
        must(is == was && difference == 0, "a SYNC moves no time");
    else if (taken->what == KG_TAKEN_FIRST)
        must(was == KG_NEVER_SET && is == KG_DONE, "the first FUP finds no time");
    else
        must(taken->what == KG_TAKEN_UPDATE && was == KG_DONE && is == KG_DONE, "any other FUP finds one");
    must(taken->difference == (taken->what == KG_TAKEN_UPDATE ? difference : 0), "the difference is that of two reads");
}

/* kg_frame, and what it says held to its number. */
static uint8_t frame(kg_node *node, uint64_t t, const uint8_t *bytes, size_t length)
{
    kg_node before = *node;
    kg_taken taken;
    uint8_t number;
    memset(&taken, FILL, sizeof taken);
    number = kg_frame(node, t, bytes, length, &taken);
    must_keep(&before, node, number);
    if (number == KG_DONE)
        must_say(&before, node, bytes[2] / 16, t, &taken);
    else
        must(is_filled(&taken, sizeof taken), "a refused frame says nothing");
    return number;
}

/* Byte 3 is the frame's length; its bytes beyond the payload are zeros. */
static void take_frame(kg_node *node, const uint8_t *item)
{
    uint8_t bytes[255] = {0};
    memcpy(bytes, item + 12, 8);
    say_number(frame(node, reading_of(item), bytes, item[3]));
}

static void take_read(kg_node *node, const uint8_t *item)
{
    static const uint8_t zeros[7];
    kg_node before = *node;
    kg_shown shown;
    uint8_t number;
    memset(&shown, FILL, sizeof shown);
    number = kg_read(node, item[3], reading_of(item), &shown);
    must(memcmp(&before, node, sizeof *node) == 0, "a read leaves the node");
    say_number(number);
    if (number != KG_DONE) {
        must(is_filled(&shown, sizeof shown), "a refused read shows nothing");
        return;
    }
    must(memcmp(shown.unused, zeros, sizeof zeros) == 0, "unused bytes are 0");
    printf(" %" PRIu64 ".%09" PRIu32 " %02X ", shown.seconds, shown.nanoseconds, shown.status);
    say_bytes(shown.user, sizeof shown.user);
    printf(" %d", shown.updates);
}

static void take_set(kg_node *node, const uint8_t *item)
{
    kg_node before = *node;
    uint32_t seconds = (uint32_t)number_at(item + 12, 4);
    uint32_t nanoseconds = (uint32_t)number_at(item + 16, 4);
    uint8_t number = kg_set(node, item[3], reading_of(item), seconds, nanoseconds);
    must_keep(&before, node, number);
    say_number(number);
}

/* A refused main cycle sent none. */
static void take_cycle(kg_node *node, const uint8_t *item)
{
    kg_node before = *node;
    lent out;
    uint8_t sent = FILL;
    uint8_t number;
    lend(&out, number_at(item + 12, 2));
    number = kg_main_cycle(node, reading_of(item), out.bytes, out.length, &sent);
    must_keep(&before, node, number);
    must(number == KG_DONE || sent == FILL, "a refused main cycle leaves its count");
    say_number(number);
    printf(" %d", number == KG_DONE ? sent : 0);
    say_lent(&out);
}

static void take_confirmation(kg_node *node, const uint8_t *item)
{
    kg_node before = *node;
    lent out;
    uint8_t number;
    lend(&out, number_at(item + 13, 2));
    number = kg_confirmation(node, item[3], reading_of(item), item[12], out.bytes, out.length);
    must_keep(&before, node, number);
    say_number(number);
    say_lent(&out);
}

static size_t frame_bytes_of(const uint8_t *item)
{
    return least(number_at(item + 14, 2), FRAMES_MOST);
}

static void take_queue(kg_node *node, const uint8_t *item)
{
    kg_node before = *node;
    uint64_t readings[READINGS_MOST] = {0};
    size_t count = item[3];
    const uint8_t *frames = item + RECORD + 8 * count;
    lent answers;
    uint8_t number;
    size_t i;
    for (i = 0; i < count; i++)
        readings[i] = number_at(item + RECORD + 8 * i, 8);
    lend(&answers, number_at(item + 12, 2));
    number = kg_queue(node, readings, count, frames, frame_bytes_of(item), answers.bytes, answers.length);
    must_keep(&before, node, number);
    say_number(number);
    say_lent(&answers);
}

/*
 * A frame on the record at a place, for which there is no call. Where the frame names that record, it is kg_frame. Any
 * other is refused: by 1, 2 or 3 as by every record, which kg_frame on a copy of the node tells, and otherwise by 4,
 * since it is of another domain than the record's.
 */
static void take_one(kg_node *node, const uint8_t *item)
{
    uint8_t place = item[3] % 16;
    size_t length = 8 - (size_t)(item[3] / 32);
    const uint8_t *bytes = item + 12;
    kg_node other = *node;
    uint8_t number;
    if (length == 8 && bytes[2] / 16 == place) {
        say_number(frame(node, reading_of(item), bytes, length));
        return;
    }
    number = frame(&other, reading_of(item), bytes, length);
    say_number(KG_READING <= number && number <= KG_FRAME_TYPE ? number : KG_DOMAIN);
}

/* ---- Items. */

static int is_settings(const uint8_t *item)
{
    return item[0] == 0xC7 && item[1] == 0x3B;
}

static int is_call(const uint8_t *item)
{
    return item[0] == 0xC7 && item[1] == 0x3A;
}

/* The line of an item, but for its end; 0 where it is a bad record. */
static int take(kg_node *node, const uint8_t *item)
{
    static void (*const kinds[])(kg_node *, const uint8_t *) = {
        NULL, take_frame, take_read, take_set, take_cycle, take_confirmation, take_queue, take_one,
    };
    if (is_settings(item)) {
        take_settings(node, item);
        return 1;
    }
    if (!is_call(item) || item[2] < 1 || item[2] > 7)
        return 0;
    kinds[item[2]](node, item);
    return 1;
}

/* Reads on until `length` bytes of an item are held, or as many as there are. */
static size_t read_on(uint8_t *item, size_t held, size_t length)
{
    return held + fread(item + held, 1, length - held, stdin);
}

/* Reads an item. Answers how many bytes of it there are; by its first bytes, `length` is how many it has. */
static size_t read_item(uint8_t *item, size_t *length)
{
    size_t held;
    *length = BLOCKS;
    held = read_on(item, 0, *length);
    if (held < *length)
        return held;
    *length = is_settings(item) ? BLOCKS + BLOCK * (size_t)item[3] : RECORD;
    held = read_on(item, held, *length);
    if (held < *length || !is_call(item) || item[2] != 6)
        return held;
    *length += 8 * (size_t)item[3] + frame_bytes_of(item);
    return read_on(item, held, *length);
}

/* Before the first settings block all domains are absent, and S is 1. */
int main(void)
{
    static uint8_t item[ITEM_MOST];
    kg_node node;
    size_t held, length;
    must(node_of(&node, 1, 0, item) == KG_DONE, "a node with all domains absent is good");
    for (; (held = read_item(item, &length)) == length; item_number++) {
        if (!take(&node, item)) {
            printf("bad record %" PRIu64 "\n", item_number);
            return 0;
        }
        putchar('\n');
    }
    if (ferror(stdin)) {
        fprintf(stderr, "standard input cannot be read\n");
        return 1;
    }
    if (held > 0)
        printf("cut record %" PRIu64 "\n", item_number);
    return 0;
}
