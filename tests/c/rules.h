/* The writer's rules in plain numbers of 128 bits, over the words of docs/LAYOUT.md, apart from the library's code: what a
 * call must answer and leave. Whether headers and layer are such as a writer takes is said by who made them. How long a picture
 * lasts is by tools/cadence.h, which film.c holds to worked lists.
 *
 * Here, in sender.c, configs.c, film.c, variable.c and entries.c ranges, units, refusals by number and their order stand once
 * more, and by figures where the header has names: a test that took them from the library or its header would not see them
 * change. */
#ifndef RULES_H
#define RULES_H

#include <stddef.h>
#include <stdint.h>

/* The words of a configuration, of a state, and of an answer. */
enum { WANTED_MODE, WANTED_RATE, WANTED_BUFFER, WANTED_CODE, WANTED_N, WANTED_D, WANTED_QUANTISER, WANTED_BETWEEN, WANTED_ANCHORS,
       CONFIG_WORDS };
enum { RATE, BUFFER, FRN, FRD, WHOLE, REST, END, REMOVED, STARTED, TARGETS, QUANTISERS = 12, PENDING = 15, PENDING_Q,
       STUFFING, FINISHED, MODE, PROGRESSIVE, LOW_DELAY, ANCHOR_REPEATS, ANCHOR_TOP, OPEN_FIELD, STATE_WORDS };
enum { OUTCOME, NUMBER, PICTURE, CODED, EXPECTED, QUANTISER, DELAY, BYTES, ZEROS, ANSWER_WORDS };

/* 2^48, the greatest end. */
#define FAR ((uint64_t)1 << 48)

/* Frames a second by frame_rate_code, as numerator and denominator; zeros for 0, which is none. */
extern const uint64_t frame_rates[9][2];

/* Of a mode: whether repeated fields count, and whether it is of a variable rate. */
int is_film(uint64_t mode);
int is_variable(uint64_t mode);

/* Headers that fit at no time, after the first picture, and before it. */
enum headers { UNFIT, PLAIN, FIRST };

struct offer {
    size_t state_length;
    const uint8_t *headers;
    size_t headers_length;
    enum headers are;
    uint64_t declared[4]; /* by first headers: rate, buffer, frn, frd; the last two 0 where the code is none */
    uint8_t progressive, low_delay; /* by the same */
    uint8_t kind, interval, last;
    uint8_t repeats, top; /* repeat_first_field and top_field_first of the layer */
    const uint8_t *layer;
    size_t layer_length;
    int layer_fits; /* but for its repeat_first_field, which is not every writer's */
    size_t out_length, answer_length;
};

/* The value returned; the answer's words; the state afterwards; the field periods that the picture lasts. */
struct told {
    uint64_t number, answer[ANSWER_WORDS], state[STATE_WORDS], periods;
};

/* Whether each value is in its range. */
int rules_fit(const uint64_t *state);

/* What a creation with these words must answer; where that is 0, state has the writer's words. */
uint64_t rules_create(const uint64_t *config, uint64_t *state);

struct told rules_offer(const uint64_t *state, const struct offer *o);

#endif
