/*
 * Calls measured on an emulated Cortex-M0 (tools/board). calls.c defines calls(), and puts each call that is measured
 * into CALL; cycles.py finds in a trace what the one call between the two marks comes to. The board says a line for
 * each: the call, its case, and how often and how many bytes memcpy, memmove and memset moved in it, which only an
 * image with COUNT_COPIES counts.
 */
#ifndef BOARD_H
#define BOARD_H

#include <stddef.h>
#include <stdint.h>

void calls(void);

void board_mark(void);
void board_begin(void);
void board_end(const char *call, const char *of);

void say(const char *text);
void say_number(uint32_t number);

/* Ends the run as failed where a fact does not hold. */
void must(int holds, const char *fact);

#define CALL(call, of, number, expression)                                                                            \
    do {                                                                                                              \
        unsigned answer_;                                                                                             \
        board_begin();                                                                                                \
        board_mark();                                                                                                 \
        answer_ = (expression);                                                                                       \
        board_mark();                                                                                                 \
        must(answer_ == (number), call ", " of ": another answer");                                                   \
        board_end(call, of);                                                                                          \
    } while (0)

#endif
