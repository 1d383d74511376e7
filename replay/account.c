/* Words, counts and the closing table. */
#include "account.h"

#include <inttypes.h>
#include <stdio.h>
#include <string.h>

const char *const words_of_numbers[NUMBERS] = {
    "taken",
    "reading",
    "length",
    "type",
    "domain",
    "check",
    "counter",
    "no open pair",
    "other counter",
    "nanoseconds",
    "never set",
    "no open SYNC",
    "no room",
    "",
    "settings",
    "row",
};

struct meaning meaning_of(const uint8_t *bytes, unsigned length)
{
    struct meaning meaning = {.is = length == FRAME_BYTES};
    switch (bytes[0]) {
    case 0x10:
        break;
    case 0x18:
        meaning.fup = true;
        break;
    case 0x20:
        meaning.secured = true;
        break;
    case 0x28:
        meaning.fup = meaning.secured = true;
        break;
    default:
        meaning.is = false;
    }
    meaning.domain = bytes[2] / 16;
    meaning.counter = bytes[2] % 16;
    return meaning;
}

/* ---- Counts. */

void count_frame(struct account *account, unsigned row, unsigned number)
{
    account->rows[row].shown = true;
    account->rows[row].frames++;
    account->rows[row].by_number[number]++;
}

void count_move(struct account *account, unsigned row, int64_t d, bool leapt)
{
    struct row *to = &account->rows[row];
    if (to->moves == 0 || d < to->least)
        to->least = d;
    if (to->moves == 0 || d > to->greatest)
        to->greatest = d;
    to->moves++;
    to->leaps += leapt;
}

bool has_number(const struct account *account, unsigned number)
{
    unsigned row;
    for (row = 0; row < ROWS; row++)
        if (account->rows[row].by_number[number] > 0)
            return true;
    return false;
}

/* ---- The table: cells of text, in columns as wide as their widest. */

enum { LINES_MOST = 2 + ROWS + 1, COLUMNS_MOST = 3 + NUMBERS + 3, CELL = 24 };

struct table {
    unsigned lines, columns, column; /* `column` is the next cell's */
    char cells[LINES_MOST][COLUMNS_MOST][CELL];
};

static void put_text(struct table *table, const char *text)
{
    snprintf(table->cells[table->lines][table->column++], CELL, "%s", text);
    if (table->column > table->columns)
        table->columns = table->column;
}

static void put_count(struct table *table, uint64_t count)
{
    char text[CELL];
    snprintf(text, sizeof text, "%" PRIu64, count);
    put_text(table, text);
}

static void put_d(struct table *table, const struct row *row, int64_t d)
{
    char text[CELL] = "-";
    if (row->moves > 0)
        snprintf(text, sizeof text, "%" PRId64, d);
    put_text(table, text);
}

static void next_line(struct table *table)
{
    table->lines++;
    table->column = 0;
}

static void put_three(struct table *table, const char *const texts[3])
{
    unsigned i;
    for (i = 0; i < 3; i++)
        put_text(table, texts[i]);
}

/* The two lines over the rows: a column for each number that some frame was refused by. */
static void put_heads(struct table *table, const struct account *account)
{
    static const char *const before[2][3] = {{"domain", "frames", "taken"}, {"", "", ""}};
    static const char *const behind[2][3] = {{"leaps", "least D", "greatest D"}, {"", "ns", "ns"}};
    unsigned number;
    char text[CELL];
    put_three(table, before[0]);
    for (number = 1; number < NUMBERS; number++) {
        snprintf(text, sizeof text, "refused %u", number);
        if (has_number(account, number))
            put_text(table, text);
    }
    put_three(table, behind[0]);
    next_line(table);
    put_three(table, before[1]);
    for (number = 1; number < NUMBERS; number++)
        if (has_number(account, number))
            put_text(table, words_of_numbers[number]);
    put_three(table, behind[1]);
    next_line(table);
}

static void put_row(struct table *table, const struct account *account, const char *name, const struct row *row)
{
    unsigned number;
    put_text(table, name);
    put_count(table, row->frames);
    put_count(table, row->by_number[0]);
    for (number = 1; number < NUMBERS; number++)
        if (has_number(account, number))
            put_count(table, row->by_number[number]);
    put_count(table, row->leaps);
    put_d(table, row, row->least);
    put_d(table, row, row->greatest);
    next_line(table);
}

/* All rows as one; D of different clocks are not one clock's. */
static struct row all_of(const struct account *account)
{
    struct row all = {0};
    unsigned row, number;
    for (row = 0; row < ROWS; row++) {
        all.frames += account->rows[row].frames;
        all.leaps += account->rows[row].leaps;
        for (number = 0; number < NUMBERS; number++)
            all.by_number[number] += account->rows[row].by_number[number];
    }
    return all;
}

static void say_table(const struct table *table)
{
    unsigned line, column, width[COLUMNS_MOST] = {0};
    for (line = 0; line < table->lines; line++)
        for (column = 0; column < table->columns; column++)
            if (strlen(table->cells[line][column]) > width[column])
                width[column] = (unsigned)strlen(table->cells[line][column]);
    for (line = 0; line < table->lines; line++)
        for (column = 0; column < table->columns; column++)
            printf("%*s%s", (int)width[column], table->cells[line][column], column + 1 < table->columns ? "  " : "\n");
}

void say_account(const struct account *account)
{
    static const char *const passed[PASSED] = {
        "other interface",
        "other identifier",
        "remote",
        "error",
        "CAN FD or XL",
        "none",
    };
    static struct table table;
    struct row all = all_of(account);
    unsigned row, i;
    char name[CELL];
    put_heads(&table, account);
    for (row = 0; row < ROWS; row++) {
        snprintf(name, sizeof name, "%u", row);
        if (account->rows[row].shown)
            put_row(&table, account, row == NO_DOMAIN ? "none" : name, &account->rows[row]);
    }
    put_row(&table, account, "all", &all);
    putchar('\n');
    say_table(&table);
    printf("\nlines: %" PRIu64 " in all, %" PRIu64 " frames", account->lines, all.frames);
    for (i = 0; i < PASSED; i++)
        printf(", %" PRIu64 " %s", account->passed[i], passed[i]);
    putchar('\n');
}
