/* What to be careful about in a stream, whatever the verdict: what the check does not read, and signs of a stream that is not
 * whole. */
#ifndef CAUTION_H
#define CAUTION_H

#include "input.h"
#include "place.h"

struct caution {
    const char *name; /* for scripts */
    char words[240];
};

enum { MOST_CAUTIONS = 10 };

struct cautions {
    struct caution of[MOST_CAUTIONS];
    size_t count;
};

void find_cautions(const struct input *in, uint8_t standard, const struct answer *a, struct cautions *c);

/* Whether a caution says that a set's times are not the model's, so that nothing is promised of its buffer. */
int spoils_model(const struct answer *a);

#endif
