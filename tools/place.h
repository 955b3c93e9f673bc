/* The library's answer about a stream; and of a refused one where, when and by how much. The library tells pictures only for
 * some refusals. But it takes headers and pictures in the stream's order, so a stream that is cut after a picture is answered as
 * the whole is up to there, and asking about such parts finds the first that is refused. */
#ifndef PLACE_H
#define PLACE_H

#include "hipokuta.h"
#include "look.h"

/* Bits, to a part of one: whole + part / parts. */
struct bits {
    uint64_t whole, part, parts;
};

/* Of a refusal. */
struct place {
    const char *header; /* the header at fault, such as "picture coding extension"; NULL where it is none */
    size_t byte;        /* where that header begins, or the picture; the stream's length where there is no place */
    int in_picture;     /* it is a picture's */
    size_t picture;     /* from 0 */
    uint32_t delay;     /* its coded delay, where that is refused (25) */
    int timed;          /* the picture's removal is told: */
    struct bits due;    /* its time, as what the rate would bring up to then without a pause */
    struct bits delivered, held; /* bits delivered at it, and what the buffer would hold just before it */
    int measured;       /* too much (9) or too little (7, 10) is told: */
    struct bits over;
};

struct answer {
    uint8_t mode;    /* asked in */
    uint64_t number; /* 0 accepted */
    struct vbv_report report;
    struct vbv_refusal refusal;
    struct look look;
    struct declared declared;
    struct shown *shown; /* the pictures, where records were wanted or the stream is refused */
    struct vbv_record *records;
    size_t recorded; /* records: all, or those of the accepted pictures before the refusal */
    uint64_t before; /* the verdict about the pictures before the refusal, where that was asked for; else 0 */
    struct place place;
};

/* Asks the library, in a mode of hipokuta.h. Returns 0, or 1 where memory does not suffice. */
int ask(const struct stream *s, uint8_t mode, int records, struct answer *a);
void forget(struct answer *a);

/* The times of an answer's pictures, by its records, one after the other, as what the rate would bring up to then without a
 * pause; begins with { a, 0, 0 }. */
struct times {
    const struct answer *a;
    size_t picture;
    uint64_t periods;
};
struct bits next_time(struct times *t);

/* Whether the refusal tells the coded and the expected delay. */
int tells_delays(const struct answer *a);

/* From the last picture's end to this one's, in bits. */
uint64_t data_bits(const struct answer *a, size_t picture);

/* Frames a second: "25", "30000/1001"; into `text`, which is returned. */
enum { TEXT = 48 };
const char *frame_rate(const struct declared *d, char *text);

/* Bits as a number with tenths, and a time in bits at a rate as mm:ss.mmm; both into `text`, which is returned. */
const char *tenths(struct bits b, char *text);
const char *clock_time(struct bits at, uint64_t bit_rate, char *text);
double in_seconds(struct bits at, uint64_t bit_rate);
double in_bits(struct bits b);

#endif
