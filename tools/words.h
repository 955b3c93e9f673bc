/* An answer in words, for people. */
#ifndef WORDS_H
#define WORDS_H

#include "caution.h"

/* All that is told of a file. */
struct told {
    const char *name;
    const char *which; /* --stream's word, or NULL */
    const struct input *in;
    uint8_t standard; /* of the mode that the answer was asked in */
    int by_delays;    /* the rate's kind, constant or variable, was not asked for: the first delay told it */
    const struct answer *answer;
    const struct cautions *cautions;
};

void print_words(const struct told *t, int records);

/* How a refusal is named in a line, with its amount: "overflow by 3.1 bits"; into `text`, which is returned. */
const char *refusal_line(const struct answer *a, char *text, size_t room);

#endif
