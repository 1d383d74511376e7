/*
 * A log as `candump -L` of can-utils writes it, line by line: (seconds.micros) interface ID#BYTES. An input of any
 * length and of any bytes is read through one buffer.
 */
#ifndef REPLAY_LOG_H
#define REPLAY_LOG_H

#include <stdbool.h>
#include <stddef.h>
#include <stdint.h>

#define SECOND INT64_C(1000000000) /* in nanoseconds */

enum { FRAME_BYTES = 8 };

/* ---- Lines of text. */

struct log {
    int fd;
    uint64_t lines; /* how many were given */
    uint64_t read; /* how many bytes were read */
    size_t from, to; /* what is held and not given yet */
    bool ended;
    bool too_long; /* the line that is held has a beginning that is dropped */
    char held[65536];
};

struct text {
    const char *at; /* NULL: longer than what can be held */
    size_t length;
};

/* Reads once. False at the input's end, or where it cannot be read: then errno says why, and is 0 at the end. */
bool log_refill(struct log *log);

/* From here on an interrupt, as Ctrl-C is, is the input's end; a second one ends the run. */
void log_end_on_interrupt(void);

/* The next line that is whole, without its end. At the input's end what is left is one. */
bool log_next(struct log *log, struct text *text);

/* ---- What a line says. */

enum kind { KIND_FRAME, KIND_REMOTE, KIND_ERROR, KIND_LONG, KIND_NONE };

struct line {
    enum kind kind;
    const char *why; /* it is none */
    int64_t time; /* in nanoseconds */
    struct text interface;
    uint32_t id;
    bool extended;
    uint8_t bytes[FRAME_BYTES]; /* of a frame, with zeros behind */
    unsigned length;
};

/* What the text says. A remote frame, an error frame and one of CAN FD or CAN XL have no bytes here. */
struct line line_of(struct text text);

/* An identifier as a person writes it: up to eight hexadecimal digits, with or without 0x before them. One above 7FF,
 * or of eight digits, is extended, as in a log. */
bool id_of(const char *text, uint32_t *id, bool *extended);

#endif
