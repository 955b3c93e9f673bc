/* The pictures of a stream through the library's writer, and the settings that would carry them. */
#ifndef SENDING_H
#define SENDING_H

#include "progress.h"
#include "split.h"

#include <stdio.h>

/* Rate and buffer, in the headers' units; 0 is not given. */
struct setting {
    uint32_t rate, buffer;
};

struct source {
    const char *name;
    struct stream stream;
    int unpacked; /* from a container */
    int film;     /* repeated fields are sent too */
    int variable; /* sent at a variable rate */
    struct pictures pictures;
    size_t header, extension; /* the first sequence header and its extension, among the kept headers; their length for none */
    uint8_t *placed;          /* memory for a placed picture */
    struct progress progress;
};

/* How a sending went: 0, or the refusal and the picture that caused it. */
struct sending {
    uint64_t number;
    size_t picture;
    uint64_t bytes_over; /* where the picture is too large */
    uint64_t bytes, stuffing; /* sent */
    int unwritten;       /* why bytes could not be written, as errno has it; 0 where they were */
};

/* A sending at a setting. */
struct trial {
    struct setting at;
    struct sending end;
};

struct stream headers_of(const struct source *in, size_t n);
struct stream layer_of(const struct source *in, size_t n);

/* Takes the stream apart, and gets memory for the sending. Returns 0, or 1 where memory does not suffice. */
int open_source(struct source *in);
void close_source(struct source *in);

/* Looks for the first sequence header and its extension. Returns 0, or the refusal of a stream that cannot be begun. */
uint64_t find_sequence(struct source *in);

/* The mode that it is sent in, and checked in. */
uint8_t mode_of(const struct source *in);

/* The setting that the stream declares. */
struct setting declared(const struct source *in);

/* Sends the whole stream, or what comes before a refusal; for a trial `to` is NULL. */
struct sending send_all(struct source *in, struct setting at, FILE *to);

/* Offers the first picture at the most rate and buffer: what is refused so is refused at any. */
struct sending send_first(struct source *in);

/* The largest buffer that a writer takes at this rate; 0 where it takes none. */
uint32_t most_buffer(uint32_t rate);

/* Whether another rate or buffer may help against a refusal. */
int is_of_setting(uint64_t number);

/* How many pictures have repeat_first_field set. */
size_t repeating(const struct source *in);

/* The least rate that carries the stream with this buffer, and the least buffer that carries it at this rate, with how that
 * went; the rate or buffer is 0 where none is found. Where a picture is met that no setting helps, that is how it went. */
struct trial least_rate(struct source *in, struct setting at);
struct trial least_buffer(struct source *in, struct setting at);

/* The least rate with any buffer up to this one. */
struct trial least_of_both(struct source *in, uint32_t largest);

#endif
