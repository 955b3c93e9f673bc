#define _POSIX_C_SOURCE 200809L
#include "progress.h"

#include "stream.h"

#include <stdio.h>
#include <time.h>
#include <unistd.h>

static const double quiet = 2.0, pause_between = 0.2;

static double now(void)
{
    struct timespec t = { 0, 0 };
    clock_gettime(CLOCK_MONOTONIC, &t);
    return (double)t.tv_sec + (double)t.tv_nsec / 1e9;
}

void begin_progress(struct progress *p)
{
    *p = (struct progress){ .begun = now(), .terminal = isatty(STDERR_FILENO) };
}

/* Begins a line, where one is due this long after the last. */
static int begin_line(struct progress *p, double after)
{
    if (!p->terminal)
        return 0;
    double t = now();
    if (t < p->begun + quiet || t < p->shown + after)
        return 0;
    p->shown = t;
    fprintf(stderr, "\r%s: ", program);
    return 1;
}

void show_progress(struct progress *p, size_t done, size_t all)
{
    if (!begin_line(p, pause_between))
        return;
    if (p->tries > 0)
        fprintf(stderr, "looking for a rate and buffer, try %d, ", p->tries);
    fprintf(stderr, "picture %zu of %zu  ", done, all);
}

void show_stage(struct progress *p, const char *words)
{
    if (begin_line(p, 0))
        fprintf(stderr, "%-40s", words);
}

void end_progress(struct progress *p)
{
    if (p->shown > 0)
        fprintf(stderr, "\r%78s\r", "");
    p->shown = 0;
}
