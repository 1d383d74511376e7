/*
 * The other way: the frames that the masters of a trial's run send, as lines of a log, which canplayer of can-utils can
 * send and log2asc can read. The items go to the trial as they stand; of its lines those of main cycles and of
 * confirmations hold the frames.
 */
#include <errno.h>
#include <inttypes.h>
#include <stdio.h>
#include <string.h>
#include <unistd.h>

#include "replay.h"
#include "trial.h"

enum { CALL_CYCLE = 4, CALL_CONFIRMATION = 5, CALL_QUEUE = 6, FRAMES_MOST = 4096 };

static uint8_t item[ITEM_MOST];

/* Adds to the item's bytes up to `length` of them; false where the input ends before. */
static bool fill(FILE *input, size_t *have, size_t length)
{
    *have += fread(item + *have, 1, length - *have, input);
    return *have == length;
}

/* Reads one item, as long as its beginning says. False where the input ends inside; `have` is what there is. */
static bool take_item(FILE *input, size_t *have)
{
    *have = 0;
    if (!fill(input, have, BLOCKS))
        return false;
    if (number_at(item, 2) == 0xC73B)
        return fill(input, have, BLOCKS + item[3] * (size_t)BLOCK);
    if (!fill(input, have, RECORD))
        return false;
    if (number_at(item, 3) == 0xC73A00 + CALL_QUEUE) {
        size_t frames = (size_t)number_at(item + 14, 2);
        return fill(input, have, RECORD + 8 * (size_t)item[3] + (frames < FRAMES_MOST ? frames : FRAMES_MOST));
    }
    return true;
}

/* A line of the log: the reading in micros, and the frame's eight bytes, which `digits` has in hexadecimal. */
static void say_frame(const struct call *call, const char *digits)
{
    uint64_t micros = number_at(item + 4, 8) / 1000;
    printf("(%010" PRIu64 ".%06" PRIu64 ") %s ", micros / 1000000, micros % 1000000,
        call->interfaces > 0 ? call->interface[0] : "can0");
    printf(call->id[0].extended ? "%08" PRIX32 : "%03" PRIX32, call->id[0].id);
    printf("#%.*s\n", 2 * FRAME_BYTES, digits);
}

/* The frames of a line: "0 count buffer" of a main cycle, "0 buffer" of a confirmation. */
static void say_frames(const struct call *call, const char *line)
{
    unsigned kind = number_at(item, 2) == 0xC73A ? item[2] : 0;
    unsigned long count = kind == CALL_CONFIRMATION, i;
    const char *buffer = strrchr(line, ' ');
    if (number_in(line) != 0 || buffer == NULL)
        return;
    if (kind == CALL_CYCLE)
        count = number_in(line + 2);
    for (i = 0; i < count; i++)
        say_frame(call, buffer + 1 + 2 * FRAME_BYTES * i);
}

int send_log(const struct call *call)
{
    FILE *input = fdopen(open_input(call->input), "rb");
    const char *line;
    size_t have;
    if (input == NULL)
        fail(2, "cannot read '%s': %s", call->input, strerror(errno));
    while (take_item(input, &have)) {
        trial_ask_item(item, have);
        trial_exchange();
        line = trial_line_or_bad();
        if (line == NULL)
            fail(1, "a record has a wrong mark or kind: those before it were sent");
        if (number_at(item, 2) == 0xC73B && number_in(line) != 0)
            fail(2, "settings are refused by %u: what was sent before them is above", number_in(line));
        say_frames(call, line);
        flush_lines();
    }
    if (ferror(input))
        fail(2, "cannot read '%s'", call->input);
    if (have > 0)
        fail(1, "the last record is cut: those before it were sent");
    return 0;
}
