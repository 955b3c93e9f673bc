/* What a tool is given: a file, a FIFO or standard input, and where it is a container, the video in it. */
#ifndef INPUT_H
#define INPUT_H

#include "stream.h"

struct input {
    struct stream stream; /* the elementary stream, byte for byte */
    char about[160];      /* "" for an elementary stream, else such as "transport stream, PID 0x100, MPEG-2 video" */
    uint8_t standard;     /* VBV_MPEG1 or VBV_MPEG2, as the headers tell; 0 where nothing tells */
    size_t damaged;       /* packets of the container that are torn or follow a lost one */
    void *mapped, *held;  /* what let_go gives back: a file's pages, and memory */
    size_t mapped_length;
    char why[5 * 4096]; /* what ails it, where it was not taken in */
};

/* Takes in what a name stands for: "-" is standard input; FIFOs too. `which` is --stream's word, or NULL. Returns 0, or 2 with
 * the trouble told on standard error, also of what is no MPEG video stream and no container that can be read. After a file
 * that is mapped shrinks, the program ends with status 2. */
int take_in(const char *name, const char *which, struct input *in);

/* The same where the user has said which standard the stream is of, if not 0: then a sequence header anywhere is enough. */
int take_in_as(const char *name, const char *which, uint8_t standard, struct input *in);

/* Adds to what ails the input; returns 2. */
int add_why(struct input *in, const char *format, ...) __attribute__((format(printf, 2, 3)));

void let_go(struct input *in);

#endif
