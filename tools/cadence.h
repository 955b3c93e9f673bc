/* How long pictures last in film mode (ISO/IEC 13818-2, C.9 to C.12, without big pictures). The library counts for itself and
 * tells it in its records; this is for pictures that have none, those of a stream that is refused. */
#ifndef CADENCE_H
#define CADENCE_H

#include <stdint.h>

/* What a picture's headers say of it; repeats and top are repeat_first_field and top_field_first. */
struct facts {
    uint8_t anchor; /* I or P */
    uint8_t field, repeats, top;
};

/* A field that waits for the second of its pair. */
enum open_field { NO_FIELD, ANCHOR_FIELD, B_FIELD };

/* Begins with film, and what the sequence extension says; the rest is 0 before the first picture. */
struct cadence {
    uint8_t film, progressive, low_delay;
    uint8_t repeats, top; /* of the last anchor, 0 where there is none */
    enum open_field open;
};

/* Field periods from the next picture's removal to the one after it; without film 1 for a field and 2 for a frame. */
uint8_t lasts(struct cadence *k, struct facts next);

#endif
