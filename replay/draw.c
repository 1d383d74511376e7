/*
 * How a picture is drawn, as SVG: a head, a row for each domain with its plot of D and its lanes of refused frames, the
 * time axis, and a legend. All lengths are in pixels.
 */
#include <inttypes.h>
#include <math.h>
#include <string.h>

#include "kept.h"

enum {
    PAGE = 1000,
    LEFT = 132,
    RIGHT = 976,
    EDGE = 6, /* what stands free at both ends of the time axis */
    TOP = 70,
    PLOT = 120, /* the height of the D of a row */
    UNPLOTTED = 18, /* of what a row without an update has in its place */
    LANE = 15, /* of the refused frames under one number */
    GAP = 30 /* between rows */
};

static const char *const span_names[SPAN_KINDS] = {
    "TIMEOUT shows", "leap into the future shows", "leap into the past shows"};
static const char *const span_fills[SPAN_KINDS] = {"url(#hatched)", "#f9e2b0", "#e6d3fb"};

/* A colour for each number that a frame may be refused by. */
static const char *const colours[NUMBERS] = {
    [1] = "#000000",
    [2] = "#8c564b",
    [3] = "#a6761d",
    [4] = "#666666",
    [5] = "#d62728",
    [6] = "#d55e00",
    [7] = "#cc3d8f",
    [8] = "#7b3294",
    [9] = "#1b7837",
    [15] = "#008b8b",
};

static const char update_colour[] = "#0072b2";

static FILE *out;
static const struct kept *rows;
static double across; /* how many nanoseconds the time axis has */

static double x_of(double at)
{
    return LEFT + EDGE + (RIGHT - LEFT - 2 * EDGE) * (at / across);
}

/* A unit, and how many nanoseconds it has. */
struct unit {
    const char *name;
    double size, most; /* it is used for lengths below `most` */
};

/* Units of D, and of the time axis. */
static const struct unit units_of_d[] = {
    {"ns", 1, 1e4},
    {"µs", 1e3, 1e7},
    {"ms", 1e6, 1e10},
    {"s", 1e9, INFINITY},
};
static const struct unit units_of_time[] = {
    {"µs", 1e3, 2e6},
    {"ms", 1e6, 2e9},
    {"s", 1e9, 9e11},
    {"min", 6e10, 1.8e13},
    {"h", 3.6e12, 4.4e14},
    {"days", 8.64e13, INFINITY},
};

/* The one of these that a length is told in. */
static struct unit unit_for(const struct unit *units, double length)
{
    while (length >= units->most)
        units++;
    return *units;
}

/* A step of 1, 2 or 5 and zeros, of which at most `most` fit a length. */
static double step_for(double length, unsigned most)
{
    double step = pow(10, floor(log10(length / most)));
    if (length / step > most)
        step *= length / (2 * step) <= most ? 2 : length / (5 * step) <= most ? 5 : 10;
    return step;
}

/* How many bytes the sign at the beginning of a text has in UTF-8; 0 where they are none. */
static size_t sign_length(const unsigned char *text)
{
    size_t length = *text < 0x80 ? 1 : *text < 0xC2 ? 0 : *text < 0xE0 ? 2 : *text < 0xF0 ? 3 : *text < 0xF5 ? 4 : 0;
    size_t i;
    for (i = 1; i < length; i++)
        if (text[i] / 0x40 != 2)
            return 0;
    return length;
}

/* Text as it stands; '?' for what no picture may have. */
static void put_escaped(const char *text)
{
    size_t length;
    for (; *text != 0; text += length > 0 ? length : 1) {
        length = sign_length((const unsigned char *)text);
        if (length == 0 || (unsigned char)*text < ' ')
            fputc('?', out);
        else if (*text == '<')
            fputs("&lt;", out);
        else if (*text == '&')
            fputs("&amp;", out);
        else
            fwrite(text, 1, length, out);
    }
}

/* Whether a row has an update, and so a plot of D. */
static bool is_updated(unsigned row)
{
    unsigned i;
    for (i = 0; i < PIECES; i++)
        if (rows[row].pieces[i].least.count + rows[row].pieces[i].first.count > 0)
            return true;
    return false;
}

/* Whether a mark stands for several updates. */
static bool has_several(void)
{
    unsigned row, i;
    for (row = 0; row < DOMAINS; row++)
        for (i = 0; i < PIECES; i++)
            if (rows[row].pieces[i].least.count > 1)
                return true;
    return false;
}

static bool has_span(enum span_kind kind)
{
    unsigned row;
    for (row = 0; row < DOMAINS; row++)
        if (rows[row].spans[kind].count > 0)
            return true;
    return false;
}

/* ---- A row. */

/* The D that a row's axis runs over, 0 among them, with some room at both ends. */
static void range_of(const struct row *row, double *least, double *greatest)
{
    *least = row->moves > 0 && row->least < 0 ? (double)row->least : 0;
    *greatest = row->moves > 0 && row->greatest > 0 ? (double)row->greatest : 0;
    if (*greatest - *least < 2) {
        *least -= 1.25;
        *greatest += 1.25;
    } else {
        double room = 0.08 * (*greatest - *least);
        *least -= room;
        *greatest += room;
    }
}

static void draw_spans(const struct kept *row, int top, int bottom)
{
    unsigned kind, i;
    for (kind = SPAN_KINDS; kind-- > 0;) /* TIMEOUT over the others, which its lines leave to be seen */
        for (i = 0; i < row->spans[kind].count; i++) {
            int64_t from = row->spans[kind].of[i].from, to = row->spans[kind].of[i].to;
            double length = x_of((double)to) - x_of((double)from);
            fprintf(out,
                "<rect x=\"%.1f\" y=\"%d\" width=\"%.1f\" height=\"%d\" fill=\"%s\"><title>"
                "%s from %" PRId64 " to %" PRId64 " ns</title></rect>\n",
                x_of((double)from), top, length < 1.5 ? 1.5 : length, bottom - top, span_fills[kind], span_names[kind],
                from, to);
        }
}

static void draw_d_axis(double least, double greatest, int top)
{
    struct unit unit = unit_for(units_of_d, fmax(-least, greatest));
    double step = step_for((greatest - least) / unit.size, 5), tick;
    for (tick = ceil(least / unit.size / step) * step; tick * unit.size <= greatest; tick += step) {
        double y = top + PLOT * (greatest - tick * unit.size) / (greatest - least);
        fprintf(out, "<line x1=\"%d\" y1=\"%.1f\" x2=\"%d\" y2=\"%.1f\" class=\"%s\"/>\n", LEFT, y, RIGHT, y,
            fabs(tick) < step / 2 ? "zero" : "grid");
        fprintf(out, "<text x=\"%d\" y=\"%.1f\" class=\"tick\" text-anchor=\"end\">%g</text>\n", LEFT - 6, y + 4,
            fabs(tick) < step / 2 ? 0 : tick);
    }
    fprintf(out, "<text x=\"12\" y=\"%d\" class=\"tick\">D, %s</text>\n", top + 28, unit.name);
}

static void draw_updates(const struct kept *row, double least, double greatest, int top)
{
    double scale = PLOT / (greatest - least);
    unsigned i;
    for (i = 0; i < PIECES; i++) {
        const struct mark *low = &row->pieces[i].least, *high = &row->pieces[i].greatest;
        double y_low = top + (greatest - (double)low->d) * scale, y_high = top + (greatest - (double)high->d) * scale;
        if (low->count == 0)
            continue;
        if (low->count > 1)
            fprintf(out,
                "<line x1=\"%.1f\" y1=\"%.1f\" x2=\"%.1f\" y2=\"%.1f\" class=\"several\"><title>%" PRIu64
                " updates: D %" PRId64 " ns at line %" PRIu64 " to %" PRId64 " ns at line %" PRIu64 "</title></line>\n",
                x_of((double)low->at), y_low, x_of((double)high->at), y_high, low->count, low->d, low->line, high->d,
                high->line);
        else
            fprintf(out,
                "<circle cx=\"%.1f\" cy=\"%.1f\" r=\"3\" fill=\"%s\"><title>line %" PRIu64 ": D %" PRId64
                " ns</title></circle>\n",
                x_of((double)low->at), y_low, update_colour, low->line, low->d);
    }
}

/* A domain's first time stands on the line of 0, over the updates. */
static void draw_first(const struct kept *row, double least, double greatest, int top)
{
    unsigned i;
    for (i = 0; i < PIECES; i++) {
        const struct mark *first = &row->pieces[i].first;
        if (first->count > 0)
            fprintf(out,
                "<circle cx=\"%.1f\" cy=\"%.1f\" r=\"3.5\" fill=\"white\" stroke=\"%s\" stroke-width=\"1.5\">"
                "<title>line %" PRIu64 ": the first time, no D</title></circle>\n",
                x_of((double)first->at), top + PLOT * greatest / (greatest - least), update_colour, first->line);
    }
}

/* The refused frames, a lane for each number. */
static void draw_lanes(const struct row *counts, const struct kept *row, int top)
{
    unsigned number, i;
    for (number = 1; number < NUMBERS; number++) {
        if (counts->by_number[number] == 0)
            continue;
        fprintf(out, "<text x=\"%d\" y=\"%d\" class=\"tick\" text-anchor=\"end\" style=\"fill:%s\">%u %s</text>\n",
            LEFT - 6, top + LANE - 4, colours[number], number, words_of_numbers[number]);
        fprintf(out, "<line x1=\"%d\" y1=\"%.1f\" x2=\"%d\" y2=\"%.1f\" class=\"grid\"/>\n", LEFT, top + LANE / 2.0,
            RIGHT, top + LANE / 2.0);
        for (i = 0; i < PIECES; i++) {
            const struct mark *mark = &row->pieces[i].refused[number];
            if (mark->count == 0)
                continue;
            fprintf(out,
                "<rect x=\"%.1f\" y=\"%d\" width=\"2.4\" height=\"%d\" fill=\"%s\"><title>line %" PRIu64
                ": refused by %u, %s",
                x_of((double)mark->at) - 1.2, top + 2, LANE - 4, colours[number], mark->line, number,
                words_of_numbers[number]);
            if (mark->count > 1)
                fprintf(out, ", the first of %" PRIu64 " here", mark->count);
            fputs("</title></rect>\n", out);
        }
        top += LANE;
    }
}

/* How high a row is. */
static int height_of(const struct account *account, unsigned row)
{
    unsigned number;
    int height = is_updated(row) ? PLOT + 4 : UNPLOTTED;
    for (number = 1; number < NUMBERS; number++)
        if (account->rows[row].by_number[number] > 0)
            height += LANE;
    return height;
}

static void draw_plot(const struct account *account, unsigned row, int top)
{
    double least, greatest;
    range_of(&account->rows[row], &least, &greatest);
    draw_spans(&rows[row], top, top + height_of(account, row));
    draw_d_axis(least, greatest, top);
    draw_updates(&rows[row], least, greatest, top);
    draw_first(&rows[row], least, greatest, top);
}

static void draw_row(const struct account *account, unsigned row, int top)
{
    int height = height_of(account, row);
    if (row == NO_DOMAIN)
        fprintf(out, "<text x=\"12\" y=\"%d\" class=\"name\">no domain</text>\n", top + 13);
    else
        fprintf(out, "<text x=\"12\" y=\"%d\" class=\"name\">domain %u</text>\n", top + 13, row);
    if (is_updated(row)) {
        draw_plot(account, row, top);
        draw_lanes(&account->rows[row], &rows[row], top + PLOT + 4);
    } else {
        draw_lanes(&account->rows[row], &rows[row], top + UNPLOTTED);
    }
    fprintf(out, "<rect x=\"%d\" y=\"%d\" width=\"%d\" height=\"%d\" fill=\"none\" stroke=\"#444\"/>\n", LEFT, top,
        RIGHT - LEFT, height);
}

/* ---- The page. */

static void draw_time_axis(int top, int bottom)
{
    struct unit unit = unit_for(units_of_time, across);
    double step = step_for(across / unit.size, 10), tick;
    for (tick = 0; tick * unit.size <= across * 1.0001; tick += step) {
        double x = x_of(tick * unit.size);
        fprintf(out, "<line x1=\"%.1f\" y1=\"%d\" x2=\"%.1f\" y2=\"%d\" class=\"grid\"/>\n", x, top, x, bottom + 5);
        fprintf(
            out, "<text x=\"%.1f\" y=\"%d\" class=\"tick\" text-anchor=\"middle\">%g</text>\n", x, bottom + 19, tick);
    }
    fprintf(out,
        "<text x=\"%d\" y=\"%d\" class=\"tick\" text-anchor=\"middle\">reading since the first line of the log, %s"
        "</text>\n",
        (LEFT + RIGHT) / 2, bottom + 37, unit.name);
}

/* Where the next entry of the legend stands: one after another, in lines as wide as the page. */
struct place {
    int x, y;
};

static int width_of(const char *text)
{
    return 34 + (int)(6.7 * (double)strlen(text));
}

/* An entry's text; its sign is drawn at the place that is left, from `x` on. */
static struct place put_entry(struct place *next, const char *text)
{
    struct place here;
    if (next->x + width_of(text) > PAGE) {
        next->x = 12;
        next->y += 20;
    }
    here = *next;
    fprintf(out, "<text x=\"%d\" y=\"%d\" class=\"tick\">%s</text>\n", here.x + 20, here.y + 4, text);
    next->x += width_of(text);
    return here;
}

static void put_update_entries(struct place *next)
{
    struct place at = put_entry(next, "update, at its D");
    fprintf(out, "<circle cx=\"%d\" cy=\"%d\" r=\"3\" fill=\"%s\"/>\n", at.x + 8, at.y, update_colour);
    if (has_several()) {
        at = put_entry(next, "several, from the least D to the greatest");
        fprintf(out, "<line x1=\"%d\" y1=\"%d\" x2=\"%d\" y2=\"%d\" class=\"several\"/>\n", at.x + 8, at.y - 5,
            at.x + 8, at.y + 5);
    }
    at = put_entry(next, "first time, no D");
    fprintf(out, "<circle cx=\"%d\" cy=\"%d\" r=\"3.5\" fill=\"white\" stroke=\"%s\" stroke-width=\"1.5\"/>\n",
        at.x + 8, at.y, update_colour);
}

/* The legend, from this height on. */
static void draw_legend(const struct account *account, int top)
{
    struct place next = {12, top}, at;
    unsigned i;
    char text[64];
    put_update_entries(&next);
    for (i = 1; i < NUMBERS; i++) {
        if (!has_number(account, i))
            continue;
        snprintf(text, sizeof text, "refused by %u, %s", i, words_of_numbers[i]);
        at = put_entry(&next, text);
        fprintf(
            out, "<rect x=\"%d\" y=\"%d\" width=\"2.4\" height=\"11\" fill=\"%s\"/>\n", at.x + 8, at.y - 6, colours[i]);
    }
    for (i = 0; i < SPAN_KINDS; i++) {
        if (!has_span(i))
            continue;
        at = put_entry(&next, span_names[i]);
        fprintf(out, "<rect x=\"%d\" y=\"%d\" width=\"16\" height=\"12\" fill=\"%s\" stroke=\"#999\"/>\n", at.x,
            at.y - 6, span_fills[i]);
    }
}

static void draw_head(const char *name, const struct account *account, int height)
{
    const char *behind = strrchr(name, '/');
    uint64_t frames = 0, taken = 0;
    unsigned row;
    for (row = 0; row < ROWS; row++) {
        frames += account->rows[row].frames;
        taken += account->rows[row].by_number[0];
    }
    fprintf(out, "<svg xmlns=\"http://www.w3.org/2000/svg\" width=\"%d\" height=\"%d\" viewBox=\"0 0 %d %d\">\n", PAGE,
        height, PAGE, height);
    fputs("<style>text{font-family:sans-serif;fill:#222}.tick{font-size:12px}.name{font-size:14px;font-weight:bold}"
          ".grid{stroke:#ddd}.zero{stroke:#888}.several{stroke:#0072b2;stroke-width:2;stroke-linecap:round}</style>\n"
          "<pattern id=\"hatched\" width=\"6\" height=\"6\" patternUnits=\"userSpaceOnUse\" "
          "patternTransform=\"rotate(45)\">"
          "<rect width=\"2\" height=\"6\" fill=\"#999\" fill-opacity=\"0.6\"/></pattern>\n",
        out);
    fprintf(out, "<rect width=\"%d\" height=\"%d\" fill=\"white\"/>\n<text x=\"12\" y=\"26\" font-size=\"17\">", PAGE,
        height);
    put_escaped(strcmp(name, "-") == 0 ? "standard input" : behind != NULL ? behind + 1 : name);
    fprintf(out,
        "</text>\n<text x=\"12\" y=\"46\" class=\"tick\">%" PRIu64 " lines, %" PRIu64 " frames: %" PRIu64
        " taken, %" PRIu64 " refused</text>\n",
        account->lines, frames, taken, frames - taken);
}

void draw_picture(FILE *file, const char *name, const struct kept *kept, const struct account *account, int64_t end)
{
    int top = TOP, bottom = TOP, height;
    unsigned row;
    out = file;
    rows = kept;
    across = end > 0 ? (double)end : 1e9;
    for (row = 0; row < ROWS; row++)
        if (account->rows[row].shown)
            bottom += height_of(account, row) + GAP;
    if (bottom == TOP)
        bottom += GAP; /* no row */
    height = bottom + 130;
    draw_head(name, account, height);
    draw_time_axis(TOP, bottom - GAP);
    for (row = 0; row < ROWS; row++)
        if (account->rows[row].shown) {
            draw_row(account, row, top);
            top += height_of(account, row) + GAP;
        }
    draw_legend(account, bottom + 34);
    fputs("</svg>\n", out);
}
