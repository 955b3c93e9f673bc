/* What one pass over a stream's start codes tells beside the library's answer: where its pictures stand, and what to be careful
 * about. Pictures are counted as the library counts them (crates/scan/specs/Pictures). */
#ifndef LOOK_H
#define LOOK_H

#include "cadence.h"
#include "stream.h"

/* A picture: from its start code to the end of its data. */
struct shown {
    size_t at, end;
    uint8_t type; /* I_PICTURE .. D_PICTURE; any other value as it stands */
    struct facts facts;
};

/* Numbers are counts, places are bytes from the front; the stream's length where there is none. */
struct look {
    size_t first_code, sequence; /* the first start code, and the first sequence header */
    size_t pictures, early;      /* early: before the first sequence header */
    size_t repeats;              /* frames that repeat a field */
    size_t flagged;              /* pictures with repeat_first_field, fields too, in which it says nothing */
    size_t changes, change;      /* later sequence headers that say something else, and the first of them */
    size_t latest, in_force;     /* the last sequence header, and the last one before the last picture */
    size_t last_code;
    struct shown last;           /* the last picture */
    int last_slice;              /* its last slice's code; 0 for none */
    size_t end_code;             /* the last sequence end code */
};

/* Of a mode (hipokuta.h): its standard, whether it counts repeated fields, and whether it is of a variable rate. */
uint8_t standard_of(uint8_t mode);
int counts_repeats(uint8_t mode);
int is_variable(uint8_t mode);

/* Looks at a stream; where `of` is not NULL it takes the pictures, as many as an earlier look has counted. */
void look(const struct stream *s, uint8_t mode, struct look *l, struct shown *of);

/* What the headers of the picture at the front say of it: in MPEG-1 only whether it is an anchor. */
struct facts facts_of(const struct stream *picture, uint8_t standard);

/* What a sequence header and its extension declare. Frames a second are rate_over / rate_under in lowest terms, by the code and
 * its extensions n and d, which are 0 in MPEG-1, as are the two flags; both are 0 for a code that is none. */
struct declared {
    uint32_t width, height, rate_code, rate_n, rate_d;
    uint64_t rate_over, rate_under, bit_rate, buffer_bits;
    uint8_t progressive_sequence, low_delay;
};
struct declared declared_at(const struct stream *s, size_t sequence, uint8_t standard);

/* Whether a rate, in units of 400 bits a second, is none: 0, or all ones, with the bits of the extension or without. */
int is_no_rate(uint32_t rate);

/* The cadence that a stream begins with which declares this. */
struct cadence cadence_of(const struct declared *d, uint8_t mode);

/* Bytes of a sequence header with its matrices; with its extension for MPEG-2, from the header's start code on. Not beyond
 * the stream. */
size_t sequence_length(const struct stream *s, size_t sequence, uint8_t standard);

/* Whether a sequence header stands at a place that its maker could have written, with a header that may follow right after it;
 * and such a picture header, with an extension, user data or the first row's slice after it. Other files have stray start codes,
 * but not these. */
int is_sound_sequence(const struct stream *s, size_t at);
int is_sound_picture(const struct stream *s, size_t at);

/* 'I', 'P', 'B' or 'D'; '?' for a type that is none. */
char type_letter(uint8_t type);

#endif
