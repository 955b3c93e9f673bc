/* Containers: what a file is, by its first bytes, and the video out of it. */
#ifndef CONTAINER_H
#define CONTAINER_H

#include "input.h"

/* What holds no MPEG video as its bytes stand. */
struct container {
    const char *name;   /* such as "transport stream" */
    const char *format; /* libavformat's name; NULL where it does not read this */
    const char *word;   /* what a stream's number in it is called: "PID"; NULL where it is not told */
};

/* Whether containers are taken apart: "with libavformat", or "without libavformat". */
extern const char CONTAINERS[];

/* The container that the bytes are; NULL for an elementary stream, or for what cannot be told. */
const struct container *container_of(const struct stream *s);

/* Takes the video out of the container that `in` holds, in place of it. Returns 0, or 2 with in->why. */
int unpack(const char *name, const char *which, const struct container *c, struct input *in);

/* MPEG-2 where an extension follows the first sequence header, or with no sequence header the first picture header: MPEG-1 has no
 * extensions. MPEG-1 where another code follows the sequence header. Else 0: nothing tells. */
uint8_t told_standard(const struct stream *s);

#endif
