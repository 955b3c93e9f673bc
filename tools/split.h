/* A stream taken apart into what the writer is offered. */
#ifndef SPLIT_H
#define SPLIT_H

#include "stream.h"

/* Headers are a part of the kept ones, the layer one of the stream. */
struct picture {
    size_t headers, headers_length, layer, layer_length;
};

struct pictures {
    struct picture *of;
    size_t count;
    uint8_t *headers; /* of all pictures, end to end */
    size_t headers_length;
    size_t repeated, ends; /* sequence headers and sequence end codes that are left out */
    size_t after_ends;     /* bytes after end codes that are no start code's, zeros at their end not counted: left out too */
    size_t before, early;  /* bytes before the first sequence header, 0 where they are all zero, and pictures among them */
};

/* Takes a stream apart, from its first sequence header on. Left out are sequence end codes, and zero bytes before a start code beyond two: no header and no
 * slice ends in more zero bytes of its own. A sequence header that repeats the first but for its rate and buffer is left
 * out with the extensions and user data that belong to it, unless it takes back quantiser matrices that a picture has
 * brought; any other later one is kept, for the library to refuse. Returns 0, or 1 where memory does not suffice. */
int split(const struct stream *s, struct pictures *p);

void release(struct pictures *p);

#endif
