/*
 * A picture of a run as SVG: a row for each domain, with the D of its updates, its refused frames, and where a leap or
 * TIMEOUT shows. Of a log of any length as much is kept as can be seen: without a picture nothing is.
 */
#ifndef REPLAY_PICTURE_H
#define REPLAY_PICTURE_H

#include "account.h"

enum span_kind { SPAN_TIMEOUT, SPAN_FUTURE, SPAN_PAST, SPAN_KINDS };

/* There will be a picture in this file; NULL: none. A file that cannot be written is said now. */
void picture_begin(const char *file);

/* An update at a reading; `d` is NULL for a domain's first. */
void picture_update(unsigned domain, int64_t reading, uint64_t line, const int64_t *d);

/* A frame that was refused; a row of NO_DOMAIN is that of the frames that name none. */
void picture_refused(unsigned row, int64_t reading, uint64_t line, unsigned number);

/* From one reading to another this showed. */
void picture_span(unsigned domain, enum span_kind kind, int64_t from, int64_t to);

/* Writes it. `name` is the log's, and `end` its last reading. */
void picture_end(const char *name, const struct account *account, int64_t end);

#endif
