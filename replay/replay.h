/*
 * The two ways of tools/replay, and what it was called with. The script has checked the words of the call; what they
 * say is checked here.
 */
#ifndef REPLAY_REPLAY_H
#define REPLAY_REPLAY_H

#include "log.h"

enum { NAMES_MOST = 64 };

struct call {
    const char *input; /* a file, or - */
    const char *settings; /* a file with a settings block, as tools/records writes it */
    const char *picture; /* a file, or NULL */
    bool settings_given; /* and not the defaults */
    bool refused_only;
    unsigned ids, interfaces;
    struct {
        uint32_t id;
        bool extended;
    } id[NAMES_MOST];
    const char *interface[NAMES_MOST]; /* none: every one */
};

/* The input of a call, opened. */
int open_input(const char *name);

/* A log to the slaves of a node. The status to end with. */
int replay_log(const struct call *call);

/* The frames that a master sends in a run of the trial, as lines of a log. The status to end with. */
int send_log(const struct call *call);

#endif
