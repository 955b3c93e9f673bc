/* How far long work has come, on standard error where that is a terminal. */
#ifndef PROGRESS_H
#define PROGRESS_H

#include <stddef.h>

/* Seconds of a clock that only goes forward. */
struct progress {
    double begun, shown;
    int terminal, tries; /* tries: of other rates and buffers; 0 for the sending itself */
};

void begin_progress(struct progress *p);

/* Says it from two seconds on, a few times a second. */
void show_progress(struct progress *p, size_t done, size_t all);

/* Says what comes next, where it has taken two seconds so far. */
void show_stage(struct progress *p, const char *words);

/* Takes the line away. */
void end_progress(struct progress *p);

#endif
