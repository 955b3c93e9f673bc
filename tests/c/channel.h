/* A writer with what it has handed out. Every call is held to the rules (rules.h): its value, and every byte of every lent
 * place. */
#ifndef CHANNEL_H
#define CHANNEL_H

#include "hipokuta.h"
#include "rules.h"

enum { MOST_BYTES = 40000, MOST_SENT = 1 << 20, MOST_PICTURES = 400 };

/* The arguments of a creation. */
struct config {
    uint32_t rate;
    uint16_t buffer;
    uint8_t code, quantiser, between, anchors;
};

/* A writer's state in words, and what it has handed out, with the field periods that each picture lasts; its first headers, 30
 * bytes and then user data. */
struct channel {
    uint64_t state[STATE_WORDS], declared[4], seed;
    uint8_t interval, progressive, low_delay, headers[MOST_BYTES], sent[MOST_SENT];
    size_t length, pictures;
    uint64_t placed[MOST_PICTURES][ANSWER_WORDS], periods[MOST_PICTURES];
};

/* A layer's flags: none, or the sum of these. */
enum { REPEATS = 1, TOP_FIRST = 2, FLAGS = 4 };

/* Layers by kind, interval and flags, and headers for later pictures: the first bytes of these. */
extern uint8_t layers[3][3][FLAGS][MOST_BYTES], later[MOST_BYTES];

/* Makes layers and headers; comes before anything else. */
void prepare(void);

void is(const char *name, uint64_t value, uint64_t expected);

uint64_t create(const struct config *c, uint8_t *state, size_t length);

/* A new writer, with nothing sent; to be freed. By cbr_create, and by the words of a configuration. */
struct channel *open_channel(const struct config *config);
struct channel *open_configured(const uint64_t *words);

/* Gives the first headers a frame rate: its code, 0 to 15, its n and d; and progressive_sequence and low_delay. */
void say_frame_rate(struct channel *c, unsigned code, unsigned n, unsigned d);
void say_sequence(struct channel *c, uint8_t progressive, uint8_t low_delay);

/* An offer of a layer of that length, with the headers that the channel's next picture needs, and room enough. */
struct offer flagged(const struct channel *c, uint8_t kind, uint8_t interval, uint8_t flags, size_t length);
struct offer picture(const struct channel *c, uint8_t kind, uint8_t interval, size_t length);
struct offer frame(const struct channel *c, uint8_t kind, size_t length);

/* One call. The last three say besides what the rules must come to. */
struct told offer(const char *name, struct channel *c, const struct offer *o);
void withdraw(const char *name, struct channel *c, size_t length);
void refused(const char *name, struct channel *c, struct offer o, uint64_t number);
void again(const char *name, struct channel *c, struct offer o, uint64_t quantiser);
void placed(const char *name, struct channel *c, struct offer o, uint64_t quantiser, uint64_t stuffing);

/* What a channel has sent passes the check of its mode, with the delays and the bytes that the writer told, and the periods. */
void check_sent(const char *name, const struct channel *c);

/* Without one of its stuffing bytes a picture makes the next one overflow: the stuffing is the least. How many had any. */
size_t check_least(const char *name, const struct channel *c);

#endif
