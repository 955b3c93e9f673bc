/* The buffer of a stream over time, as an SVG. */
#ifndef PLOT_H
#define PLOT_H

#include <stddef.h>
#include <stdint.h>
#include <stdio.h>

/* A picture's removal: what the buffer holds just before it and just after it, in bits. */
struct removal {
    double seconds; /* from the first bit */
    double before, after;
    char type; /* 'I', 'P', 'B', 'D' */
    size_t picture;
};

struct drawing {
    const char *name, *verdict;
    uint64_t bit_rate, buffer_bits;
    const char *frame_rate; /* "25", "30000/1001" */
    int film;               /* repeated fields are counted */
    int variable;           /* the buffer is filled at the rate while it is not full, else by what comes without a pause */
    const struct removal *of;
    size_t count;
    const char *mark;   /* words of the refusal, NULL for accepted */
    struct removal bad; /* of the refused picture, where mark */
    double from, to;    /* seconds; to <= from: all */
};

/* Draws what the buffer holds, rising to each removal and falling there, between empty and full, at a variable rate level while
 * it is full: a curve, or where pictures are too many for one a band, in each column from the least after a removal to the most
 * before one. A refused picture is marked, with its words. */
void plot(FILE *to, const struct drawing *d);

#endif
