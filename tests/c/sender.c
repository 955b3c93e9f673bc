/* Calls the writer's entries as C firmware would: every refusal, every bound, damaged states, two writers side by side.
 * channel.h holds each call to the rules; the cases here say what those must come to. Exit status 1: something differs. */
#include "channel.h"
#include "places.h"
#include "stream.h"

#include <stdlib.h>
#include <string.h>

/* 1,000,000 bits a second, buffer 327,680 bits, 25 frames; the same at 24,000 / 1001, from quantiser 1, and from 31; with a
 * buffer below a frame's bits. */
static const struct config usual = { 2500, 20, 3, 10, 2, 4 };
static const struct config cinema = { 2500, 20, 1, 10, 2, 4 };
static const struct config fine = { 2500, 20, 3, 1, 2, 4 };
static const struct config coarse = { 2500, 20, 3, 31, 2, 4 };
static const struct config narrow = { 2500, 1, 3, 10, 2, 4 };

/* ---- creation */

struct creation {
    struct config config;
    uint64_t number, targets[3];
};

static const struct creation creations[] = {
    { { 2500, 20, 3, 10, 2, 4 }, 0, { 118181, 47272, 26590 } },
    { { 262143, 1023, 8, 31, 15, 255 }, 0, { 7401257, 2960503, 1665283 } },
    { { 57, 1, 3, 1, 0, 1 }, 0, { 1302, 521, 293 } }, /* 22,800 bits a second */
    { { 56, 1, 3, 1, 0, 1 }, 12, { 0 } },             /* 22,400: the buffer lasts too long */
    { { 8269, 147, 3, 10, 2, 4 }, 12, { 0 } },        /* above 65,534 ticks, not above 65,535 */
    { { 0, 20, 3, 10, 2, 4 }, 12, { 0 } },
    { { 262144, 20, 3, 10, 2, 4 }, 12, { 0 } },
    { { 0xFFFFFFFF, 20, 3, 10, 2, 4 }, 12, { 0 } },
    { { 2500, 0, 3, 10, 2, 4 }, 12, { 0 } },
    { { 262143, 1024, 3, 10, 2, 4 }, 12, { 0 } },
    { { 262143, 0xFFFF, 3, 10, 2, 4 }, 12, { 0 } },
    { { 2500, 20, 3, 0, 2, 4 }, 12, { 0 } },
    { { 2500, 20, 3, 32, 2, 4 }, 12, { 0 } },
    { { 2500, 20, 3, 255, 2, 4 }, 12, { 0 } },
    { { 2500, 20, 3, 10, 16, 4 }, 12, { 0 } },
    { { 2500, 20, 3, 10, 255, 4 }, 12, { 0 } },
    { { 2500, 20, 3, 10, 2, 0 }, 12, { 0 } },
    { { 2500, 20, 0, 10, 2, 4 }, 6, { 0 } },
    { { 2500, 20, 9, 10, 2, 4 }, 6, { 0 } },
    { { 2500, 20, 255, 10, 2, 4 }, 6, { 0 } },
    { { 2500, 20, 9, 0, 2, 4 }, 12, { 0 } }, /* a range comes before the rate code, and that before the ratio */
    { { 56, 1, 9, 1, 0, 1 }, 6, { 0 } },
};

static void check_creation(const struct creation *k, size_t length, uint64_t number)
{
    const struct config *c = &k->config;
    struct place state = lend(length);
    if (number == 0) {
        const uint64_t *rate = frame_rates[c->code], *t = k->targets, q = c->quantiser;
        uint64_t words[STATE_WORDS] = { 400 * (uint64_t)c->rate, 16384 * (uint64_t)c->buffer, rate[0], rate[1], 0, 0, 0, 0,
                                        0, t[0], t[1], t[2], q, q, q };
        words[MODE] = 2;
        expect_words(&state, words, STATE_WORDS);
    }
    answered("a creation", create(c, state.bytes, length), number);
    take_back(&state, "a creation", "the state's place");
}

static void check_creations(void)
{
    for (size_t i = 0; i < COUNT(creations); i++) {
        for (size_t more = 0; more < 30; more += 13)
            check_creation(creations + i, CBR_STATE_BYTES + more, creations[i].number);
        for (size_t length = 0; length < CBR_STATE_BYTES; length++)
            check_creation(creations + i, length, 19);
    }
    for (uint8_t code = 1; code <= 8; code++) {
        struct config config = usual;
        config.code = code;
        struct channel *c = open_channel(&config);
        is("a frame rate", memcmp(c->state + FRN, frame_rates[code], sizeof frame_rates[code]) == 0, 1);
        free(c);
    }
}

/* ---- pictures that are placed, and those that are too large */

static void check_paper(void)
{
    struct channel *c = open_channel(&usual);
    struct offer o = frame(c, CBR_I, 23);
    o.last = 1;
    placed("the paper's stream", c, o, 10, 0);
    size_t length;
    uint8_t *stream = bytes_of(SEQUENCE EXTENSION GROUP I_22118 FRAME "000001B7", &length);
    is("the paper's stream", c->length == length && memcmp(c->sent, stream, length) == 0, 1);
    is("the paper's delay", c->placed[0][DELAY], 22118);
    check_sent("the paper's stream", c);
    free(stream);
    free(c);
}

/* 246,027 bits are there at the first removal: 30 bytes of headers leave 30,723, and 4 fewer for the last picture. */
static void check_size(void)
{
    for (uint8_t last = 0; last < 2; last++) {
        struct channel *c = open_channel(&usual);
        struct offer o = frame(c, CBR_I, 30724u - 4u * last);
        o.last = last;
        again("a byte too large", c, o, 13);
        o.layer_length--;
        placed("as large as can be", c, o, 13, 0);
        check_sent("a large picture", c);
        free(c);
    }
}

static void check_retries(void)
{
    static const uint8_t quantisers[] = { 2, 3, 4, 6, 8, 11, 14, 18, 23, 29, 31 };
    struct channel *c = open_channel(&fine);
    for (int round = 0; round < 2; round++) {
        for (size_t i = 0; i < COUNT(quantisers); i++) {
            again("a retry", c, frame(c, CBR_I, MOST_BYTES), quantisers[i]);
            refused("another kind", c, frame(c, CBR_P, 23), 17);
            is("the pending picture", c->state[PENDING] == 1 && c->state[PENDING_Q] == quantisers[i], 1);
        }
        refused("too large at 31", c, frame(c, CBR_I, MOST_BYTES), 21);
        is("21 closes", c->state[PENDING] == 0 && c->state[PENDING_Q] == 0 && c->state[QUANTISERS] == 1, 1);
    }
    again("once more", c, frame(c, CBR_B, MOST_BYTES), 2);
    placed("placed at the pending quantiser", c, frame(c, CBR_B, 3000), 2, 0);
    free(c);
}

static void check_quantisers(void)
{
    for (uint8_t q = 1; q <= 31; q++) {
        struct config config = usual;
        config.quantiser = q;
        struct channel *c = open_channel(&config);
        if (q < 31)
            again("from each quantiser", c, frame(c, CBR_I, MOST_BYTES), q < 25 ? q + 1u + q / 4u : 31);
        else
            refused("too large at once", c, frame(c, CBR_I, MOST_BYTES), 21);
        free(c);
    }
}

static void check_withdrawal(void)
{
    struct channel *c = open_channel(&usual);
    uint64_t fresh[STATE_WORDS];
    memcpy(fresh, c->state, sizeof fresh);
    withdraw("nothing pending", c, CBR_STATE_BYTES + 3);
    again("too large", c, frame(c, CBR_P, MOST_BYTES), 13);
    for (size_t length = 0; length < CBR_STATE_BYTES; length++)
        withdraw("a state too short", c, length);
    is("still pending", c->state[PENDING], 2);
    withdraw("a withdrawal", c, CBR_STATE_BYTES);
    is("as before", memcmp(fresh, c->state, sizeof fresh) == 0, 1);
    placed("another kind", c, frame(c, CBR_I, 12000), 10, 0);
    free(c);
}

static void check_last(void)
{
    struct channel *c = open_channel(&usual);
    placed("a first", c, frame(c, CBR_I, 12000), 10, 0);
    struct offer o = frame(c, CBR_P, 5000);
    o.last = 1;
    placed("a last", c, o, 10, 0);
    is("the end code", memcmp(c->sent + c->length - 4, "\0\0\1\xB7", 4) == 0, 1);
    check_sent("to the last", c);
    for (uint8_t kind = 0; kind < 3; kind++)
        refused("after the last", c, frame(c, kind, 23), 17);
    o.headers = later + 1;
    o.headers_length = 20;
    o.are = UNFIT;
    refused("after the last, with headers that do not fit", c, o, 17);
    withdraw("after the last", c, CBR_STATE_BYTES);
    free(c);
}

/* The quantiser goes down below 7/10 of the target and up above 6/5, and stays within 1 to 31; a target of 0 counts as 1. */
static const struct steering {
    uint8_t kind;
    uint64_t target;
    size_t length;
    int by;
} steerings[] = {
    { CBR_I, 118181, 10340, -1 }, { CBR_I, 118181, 10341, 0 }, { CBR_I, 118181, 17727, 0 }, { CBR_I, 118181, 17728, 1 },
    { CBR_P, 47272, 4136, -1 }, { CBR_P, 47272, 4137, 0 }, { CBR_P, 47272, 7090, 0 }, { CBR_P, 47272, 7091, 1 },
    { CBR_B, 26590, 2326, -1 }, { CBR_B, 26590, 2327, 0 }, { CBR_B, 26590, 3988, 0 }, { CBR_B, 26590, 3989, 1 },
    { CBR_P, 2000, 174, -1 }, { CBR_P, 2000, 175, 0 }, { CBR_P, 2000, 300, 0 }, { CBR_P, 2000, 301, 1 },
    { CBR_B, 0, 24, 1 },
};

static void check_steering(const struct steering *k, const struct config *config)
{
    struct channel *c = open_channel(config);
    int q = config->quantiser, steered = q + k->by < 1 ? 1 : q + k->by > 31 ? 31 : q + k->by;
    c->state[TARGETS + k->kind] = k->target;
    placed("steering", c, frame(c, k->kind, k->length), (uint64_t)q, 0);
    for (uint8_t kind = 0; kind < 3; kind++)
        is("steering", c->state[QUANTISERS + kind], (uint64_t)(kind == k->kind ? steered : q));
    free(c);
}

static void check_steerings(void)
{
    for (size_t i = 0; i < COUNT(steerings); i++) {
        check_steering(steerings + i, &fine);
        check_steering(steerings + i, &usual);
        check_steering(steerings + i, &coarse);
    }
}

/* ---- refusals */

struct unfit {
    const char *name, *hex;
    int started; /* before the first picture, or after it */
    uint8_t kind;
};

static const struct unfit headers[] = {
    { "none before the first picture", "", 0, 0 },
    { "no sequence header before the first picture", GROUP, 0, 0 },
    { "no extension", SEQUENCE GROUP, 0, 0 },
    { "an extension cut short", SEQUENCE "000001B51482000100", 0, 0 },
    { "a group first", GROUP SEQUENCE EXTENSION, 0, 0 },
    { "two sequence headers", SEQUENCE EXTENSION SEQUENCE EXTENSION, 0, 0 },
    { "another rate", "000001B301001013027160A0" EXTENSION, 0, 0 },
    { "another rate by the extension", SEQUENCE "000001B5148200030000", 0, 0 },
    { "another buffer", "000001B301001013027120A8" EXTENSION, 0, 0 },
    { "another frame rate", "000001B301001012027120A0" EXTENSION, 0, 0 },
    { "another frame rate by its extension n", SEQUENCE "000001B5148200010020", 0, 0 },
    { "another frame rate by its extension d", SEQUENCE "000001B5148200010001", 0, 0 },
    { "no frame rate, code 9", "000001B301001019027120A0" EXTENSION, 0, 0 },
    { "no frame rate, code 15 with extensions", "000001B30100101F027120A0" "000001B514820001007F", 0, 0 },
    { "a sequence header later", SEQUENCE EXTENSION, 1, 0 },
    { "a byte before the code", "00" GROUP, 1, 0 },
    { "no code", "40", 1, 0 },
    { "a prefix at the end", GROUP "000001", 1, 0 },
    { "a picture", GROUP I_FFFF, 1, 0 },
    { "a slice", SLICE, 1, 0 },
    { "a sequence end", GROUP "000001B7", 1, 0 },
    { "a system code", GROUP "000001B900", 1, 0 },
};

static const struct unfit unfit_layers[] = {
    { "no layer", "", 1, 0 },
    { "a group before the picture", GROUP I_FFFF FRAME, 1, 0 },
    { "a zero before the picture", "00" I_FFFF FRAME, 1, 0 },
    { "a P picture as I", P_FFFF FRAME, 1, 0 },
    { "an I picture as P", I_FFFF FRAME, 1, 1 },
    { "a P picture as B", P_FFFF FRAME, 1, 2 },
    { "a D picture", "000001000027FFF8" FRAME, 1, 0 },
    { "a field as frame", I_FFFF TOP, 1, 0 },
    { "repeat_first_field", I_FFFF "000001B58FFFF34380" SLICE, 1, 0 },
    { "no extension", I_FFFF SLICE, 1, 0 },
    { "user data before the extension", I_FFFF "000001B240" FRAME, 1, 0 },
    { "no slice", I_FFFF "000001B58FFFF34180", 1, 0 },
    { "an extension after the slice", I_FFFF FRAME "000001B58FFFF34180", 1, 0 },
    { "a sequence end", I_FFFF FRAME "000001B7", 1, 0 },
    { "two pictures", I_FFFF FRAME I_FFFF FRAME, 1, 0 },
    { "a prefix at the end", I_FFFF FRAME "000001", 1, 0 },
    { "padding that is not zero", "00000100000FFFF9" FRAME, 1, 0 },
    { "a full-pel P picture", "000001000017FFFF80" FRAME, 1, 1 },
    { "forward code 6", "000001000017FFFB00" FRAME, 1, 1 },
    { "a full-pel B picture", "00000100001FFFFBF8" FRAME, 1, 2 },
    { "backward code 6", "00000100001FFFFBB0" FRAME, 1, 2 },
};

/* Layers that are taken: extra information, user data, several slices, zeros at the end. */
static const struct unfit fit_layers[] = {
    { "extra information", "00000100000FFFFEA800" FRAME, 1, 0 },
    { "user data and another extension", I_FFFF "000001B58FFFF34180" "000001B24040" "000001B53000" SLICE, 1, 0 },
    { "three slices", P_FFFF FRAME SLICE "000001AF40", 1, 1 },
    { "zeros at the end", B_FFFF FRAME "000000", 1, 2 },
};

static void check_parts(void)
{
    for (int started = 0; started < 2; started++) {
        struct channel *c = open_channel(&usual);
        if (started)
            placed("a first picture", c, frame(c, CBR_I, 12000), 10, 0);
        for (size_t i = 0; i < COUNT(headers); i++) {
            struct offer o = frame(c, CBR_I, 23);
            uint8_t *unfit = bytes_of(headers[i].hex, &o.headers_length);
            o.headers = unfit;
            o.are = UNFIT;
            o.layer_fits = 0; /* 18 comes before 20 */
            o.layer_length = 22 * (i % 2);
            if (headers[i].started == started)
                refused(headers[i].name, c, o, 18);
            free(unfit);
        }
        free(c);
    }
}

static void check_layer(struct channel *c, const struct unfit *k, int fits)
{
    struct offer o = frame(c, k->kind, 0);
    uint8_t *layer = bytes_of(k->hex, &o.layer_length);
    o.layer = layer;
    o.layer_fits = fits;
    is(k->name, offer(k->name, c, &o).number, fits ? 0 : 20);
    free(layer);
}

static void check_layers(void)
{
    struct channel *c = open_channel(&usual);
    placed("a first picture", c, frame(c, CBR_I, 12000), 10, 0);
    for (size_t i = 0; i < COUNT(unfit_layers); i++)
        check_layer(c, unfit_layers + i, 0);
    struct offer o = picture(c, CBR_I, CBR_FIELD, 23);
    o.layer = layers[CBR_I][CBR_FRAME][0];
    o.layer_fits = 0;
    refused("a frame as field", c, o, 20);
    for (size_t i = 0; i < COUNT(fit_layers); i++)
        check_layer(c, fit_layers + i, 1);
    is("all placed", c->pictures, 1 + COUNT(fit_layers));
    check_sent("other layers", c);
    free(c);
}

/* Fields and frames in one channel. */
static void check_intervals(void)
{
    static const uint8_t intervals[] = { CBR_FIELD, CBR_FRAME, CBR_FIELD, CBR_FIELD, CBR_FRAME, CBR_FRAME, CBR_FIELD };
    struct channel *c = open_channel(&usual);
    for (size_t i = 0; i < COUNT(intervals); i++) {
        struct offer o = picture(c, (uint8_t)(i % 3), intervals[i], 500);
        is("a field or a frame", offer("a field or a frame", c, &o).number, 0);
    }
    is("all placed", c->pictures, COUNT(intervals));
    check_sent("fields and frames", c);
    free(c);
}

/* Long headers: before the first picture they overflow the buffer (9), later they end beyond what is delivered (7). */
static void check_long_headers(void)
{
    struct channel *c = open_channel(&usual);
    struct offer o = frame(c, CBR_I, 23);
    o.headers_length = 10237; /* (10,237 + 4) bytes and 245,755.6 bits: above 327,680 */
    refused("an overflow", c, o, 9);
    o.headers_length = 10236;
    placed("no overflow", c, o, 10, 0);
    check_sent("long headers", c);
    free(c);

    c = open_channel(&usual);
    placed("as large as can be", c, frame(c, CBR_I, 30723), 10, 0);
    o = frame(c, CBR_P, 23);
    o.headers_length = 4997; /* 246,024 bits, and (4,997 + 4) bytes: above 286,027.6 */
    refused("headers beyond what is delivered", c, o, 7);
    o.headers_length = 4996;
    again("headers up to it", c, o, 13);
    free(c);
}

/* One frame brings 40,000 bits, more than the buffer of 16,384: no stuffing can do, but none follows the last picture. */
static void check_narrow(void)
{
    struct channel *c = open_channel(&narrow);
    struct offer o = frame(c, CBR_I, 23);
    refused("a buffer below a frame's bits", c, o, 22);
    o.last = 1;
    placed("the last picture", c, o, 10, 0);
    check_sent("one picture", c);
    free(c);
}

/* An output part a byte too short changes nothing; then the same offer is placed. */
static void check_short_part(void)
{
    struct channel *c = open_channel(&usual);
    for (int i = 0; i < 12; i++) {
        struct offer o = frame(c, (uint8_t)(i % 3), 500);
        struct told t = rules_offer(c->state, &o);
        o.out_length = t.answer[BYTES] - 1;
        refused("a byte too short", c, o, 19);
        o.out_length = 0;
        refused("no output part", c, o, 19);
        o.out_length = t.answer[BYTES];
        is("just long enough", offer("just long enough", c, &o).number, 0);
    }
    is("all placed", c->pictures, 12);
    check_sent("small pictures", c);
    is("stuffed pictures", check_least("small pictures", c), 9);
    free(c);
}

/* States set by hand, at each bound: 100,000 bytes handed out, seven pictures; a layer of 1,000 bytes. */
struct bound {
    const char *name;
    uint64_t buffer, end, whole, rest;
    size_t length;
    uint8_t last;
    uint64_t number, outcome, stuffing;
};

#define UNIT 4500000

static const struct bound bounds[] = {
    { "position = delivered", 327680, 800000, 800032, 0, 1000, 0, 0, CBR_AGAIN, 0 },
    { "position above delivered", 327680, 800000, 800031, UNIT - 1, 1000, 0, 7, CBR_REFUSED, 0 },
    { "end = delivered", 327680, 800000, 808000, 0, 1000, 0, 0, CBR_PLACED, 0 },
    { "end above delivered", 327680, 800000, 807999, UNIT - 1, 1000, 0, 0, CBR_AGAIN, 0 },
    { "a full buffer", 327680, 800000, 1127680, 0, 1000, 0, 0, CBR_PLACED, 4000 },
    { "more than a full buffer", 327680, 800000, 1127680, 1, 1000, 0, 9, CBR_REFUSED, 0 },
    { "stuffing to a byte edge", 327680, 800000, 1127672, 0, 1000, 0, 0, CBR_PLACED, 3999 },
    { "stuffing beyond a byte edge", 327680, 800000, 1127672, 1, 1000, 0, 0, CBR_PLACED, 4000 },
    { "no stuffing after the last", 327680, 800000, 1127672, 1, 1000, 1, 0, CBR_PLACED, 0 },
    { "stuffed end = delivered", 40000, 800000, 808080, 0, 1000, 0, 0, CBR_PLACED, 10 },
    { "stuffed end above delivered", 40000, 800000, 808080, 1, 1000, 0, 22, CBR_REFUSED, 0 },
    { "end at 2^48", 327680, FAR - 8000, FAR + 90000, 0, 1000, 0, 0, CBR_PLACED, 0 },
    { "end above 2^48", 327680, FAR - 8000, FAR + 90000, 0, 1001, 0, 14, CBR_REFUSED, 0 },
    { "end above 2^48, too large as well", 327680, FAR - 8000, FAR - 4000, 0, 1001, 0, 14, CBR_REFUSED, 0 },
    { "stuffed end at 2^48", 327680, FAR - 8080, FAR + 287680, 0, 1000, 0, 0, CBR_PLACED, 10 },
    { "stuffed end above 2^48", 327680, FAR - 8000, FAR + 287688, 0, 1000, 0, 14, CBR_REFUSED, 0 },
    { "end code at 2^48", 327680, FAR - 8000, FAR + 90000, 0, 996, 1, 0, CBR_PLACED, 0 },
    { "end code above 2^48", 327680, FAR - 8000, FAR + 90000, 0, 997, 1, 14, CBR_REFUSED, 0 },
    { "position above 2^48", 327680, FAR - 24, FAR + 90000, 0, 1000, 0, 14, CBR_REFUSED, 0 },
    { "nothing more at 2^48", 327680, FAR, FAR, 0, 1000, 0, 14, CBR_REFUSED, 0 },
};

static void check_bounds(void)
{
    for (size_t i = 0; i < COUNT(bounds); i++) {
        const struct bound *b = bounds + i;
        struct channel *c = open_channel(&usual);
        c->state[BUFFER] = b->buffer;
        c->state[WHOLE] = b->whole;
        c->state[REST] = b->rest;
        c->state[END] = b->end;
        c->state[REMOVED] = 7;
        c->state[STARTED] = 1;
        struct offer o = frame(c, CBR_B, b->length);
        o.last = b->last;
        struct told t = offer(b->name, c, &o);
        is(b->name, t.number == b->number && t.answer[OUTCOME] == b->outcome && t.answer[ZEROS] == b->stuffing, 1);
        is(b->name, t.answer[PICTURE], b->number == 9 ? 7 : 0);
        free(c);
    }
}

/* ---- places */

/* The state comes first (12), then the answer's place (19), then kind, interval and flag (12), then everything else. */
static void check_places(void)
{
    struct channel *c = open_channel(&usual);
    struct offer good = frame(c, CBR_I, 12000), o = good;
    for (size_t length = 0; length < CBR_STATE_BYTES; length++) {
        o.state_length = length;
        o.answer_length = length % 2 ? CBR_ANSWER_BYTES + length : length % CBR_ANSWER_BYTES;
        refused("a state too short", c, o, 12);
    }
    o = good;
    for (o.answer_length = 0; o.answer_length < CBR_ANSWER_BYTES; o.answer_length++) {
        o.kind = o.answer_length % 2 ? CBR_I : 9;
        refused("an answer's place too short", c, o, 19);
    }
    for (unsigned value = 0; value < 256; value++) {
        o = good;
        o.headers_length = 0; /* 12 comes before 18 */
        o.are = UNFIT;
        o.kind = (uint8_t)value;
        refused("a kind", c, o, value > 2 ? 12 : 18);
        o.kind = CBR_I;
        o.interval = (uint8_t)value;
        refused("an interval", c, o, value != 1 && value != 2 ? 12 : 18);
        o.interval = CBR_FRAME;
        o.last = (uint8_t)value;
        refused("a flag", c, o, value > 1 ? 12 : 18);
    }
    o = good;
    o.state_length += 11;
    o.answer_length += 5;
    placed("longer places", c, o, 10, 0);
    free(c);
}

/* ---- states with values of all sorts */

/* The least and the greatest of each word, the others being these, a film writer's: the one below and the one above are out of
 * range. film.c has the last six together. */
static const struct range {
    uint64_t word, least, greatest, step;
} ranges[STATE_WORDS] = {
    { 1000000, 450014, 429496729200, 1 }, /* 90,000 x buffer <= 65,534 x rate */
    { 327680, 1, 728155, 1 },
    { 25, 1, 240000, 1 },
    { 1, 1, 32032, 1 },
    { 900000, 0, (uint64_t)1 << 57, 1 },
    { 179999, 0, UNIT - 1, 1 },
    { 800000, 72000, FAR, 8 },
    { 7, 0, 100000, 1 },
    { 1, 0, 1, 1 },
    { 118181, 0, FAR, 1 },
    { 47272, 0, FAR, 1 },
    { 26590, 0, FAR, 1 },
    { 1, 1, 31, 1 },
    { 31, 1, 31, 1 },
    { 16, 1, 31, 1 },
    { 2, 1, 3, 1 },
    { 8, 1, 31, 1 },
    { 9000, 0, 100000, 1 },
    { 0, 0, 1, 1 },
    { 6, 6, 6, 1 },
    { 1, 0, 1, 1 },
    { 0, 0, 1, 1 },
    { 1, 0, 1, 1 },
    { 1, 0, 1, 1 },
    { 2, 0, 2, 1 },
};

/* An offer and a withdrawal on such a state: 12 or not. */
static void check_value(struct channel *c, size_t word, uint64_t value, int fits)
{
    struct offer o = frame(c, CBR_P, 100);
    for (int call = 0; call < 2; call++) {
        for (size_t i = 0; i < STATE_WORDS; i++)
            c->state[i] = ranges[i].word;
        c->state[word] = value;
        c->pictures = c->length = 0;
        is("a value's range", rules_fit(c->state) == fits, 1);
        if (call == 0)
            offer("a value", c, &o);
        else
            withdraw("a value", c, CBR_STATE_BYTES);
    }
}

static void check_ranges(void)
{
    struct channel *c = open_channel(&usual);
    for (size_t i = 0; i < STATE_WORDS; i++) {
        const struct range *r = ranges + i;
        check_value(c, i, r->word, 1);
        check_value(c, i, r->least, 1);
        check_value(c, i, r->greatest, 1);
        check_value(c, i, r->greatest + r->step, 0);
        check_value(c, i, r->least - r->step, 0);
        check_value(c, i, r->word + ((uint64_t)1 << 58), 0); /* in range but for its last byte */
        check_value(c, i, UINT64_MAX, 0);
    }
    check_value(c, END, 800004, 0); /* not whole bytes */
    free(c);
}

/* Every byte of a state changed in turn: to each value that differs in a bit, to 0 and to 255. */
static void check_damages(const struct channel *from, const struct offer *o)
{
    struct channel *c = open_channel(&usual);
    for (size_t i = 0; i < CBR_STATE_BYTES; i++)
        for (int damage = 0; damage < 10; damage++) {
            uint64_t old = from->state[i / 8] >> 8 * (i % 8) & 255;
            uint64_t new = damage < 8 ? old ^ (uint64_t)1 << damage : damage == 8 ? 0 : 255;
            for (int call = 0; call < 2; call++) {
                c->pictures = c->length = 0;
                memcpy(c->state, from->state, sizeof c->state);
                c->state[i / 8] ^= (old ^ new) << 8 * (i % 8);
                if (call == 0)
                    offer("a damaged state", c, o);
                else
                    withdraw("a damaged state", c, CBR_STATE_BYTES);
            }
        }
    free(c);
}

static void check_damaged(void)
{
    struct channel *c = open_channel(&usual);
    struct offer o = frame(c, CBR_I, 100);
    check_damages(c, &o);
    again("too large", c, frame(c, CBR_I, MOST_BYTES), 13);
    o.out_length = 200;
    check_damages(c, &o);
    placed("a first picture", c, frame(c, CBR_I, 12000), 13, 0);
    placed("a second", c, frame(c, CBR_P, 6000), 10, 0);
    o = frame(c, CBR_P, 100);
    o.out_length = 2000;
    check_damages(c, &o);
    o.last = 1;
    placed("a last", c, o, 10, 0);
    check_damages(c, &o);
    free(c);
}

/* ---- writers side by side */

static uint64_t draw(struct channel *c, uint64_t below)
{
    c->seed = c->seed * 6364136223846793005 + 1442695040888963407;
    return (c->seed >> 33) % below;
}

/* A call of some sort: an offer that may be too large, short of room or of fitting headers; a withdrawal. */
static void step(struct channel *c)
{
    uint64_t sort = draw(c, 12);
    uint8_t kind = (uint8_t)(c->state[PENDING] != 0 && sort != 1 ? c->state[PENDING] - 1 : draw(c, 3));
    struct offer o = picture(c, kind, c->interval, sort == 2 ? MOST_BYTES : 23 + draw(c, 3000 * c->interval));
    if (sort == 3)
        o.out_length = draw(c, 100);
    if (sort == 4) {
        o.headers = later + 1;
        o.headers_length = 20;
        o.are = UNFIT;
    }
    if (sort == 5 && c->state[STARTED])
        o.headers_length = 8 + 20 * draw(c, 2);
    if (sort == 0)
        withdraw("a step", c, CBR_STATE_BYTES);
    else
        offer("a step", c, &o);
}

static void finish(struct channel *c)
{
    withdraw("the end", c, CBR_STATE_BYTES);
    struct offer o = picture(c, CBR_B, c->interval, 200);
    o.last = 1;
    is("the end", offer("the end", c, &o).number, 0);
}

static void open_both(struct channel *both[2])
{
    both[0] = open_channel(&usual);
    both[1] = open_channel(&cinema);
    both[0]->interval = CBR_FRAME;
    both[1]->interval = CBR_FIELD;
    both[1]->seed = 1;
}

/* Two writers with their calls mixed come to what each of them comes to alone. */
static void check_side_by_side(void)
{
    enum { STEPS = 200 };
    struct channel *alone[2], *mixed[2];
    open_both(alone);
    open_both(mixed);
    for (int i = 0; i < 2; i++) {
        for (int k = 0; k < STEPS; k++)
            step(alone[i]);
        finish(alone[i]);
        check_sent("a writer alone", alone[i]);
        is("pictures and stuffing", alone[i]->pictures > STEPS / 3 && check_least("a writer alone", alone[i]) > 5, 1);
    }
    for (int left[2] = { STEPS, STEPS }, turn = 5; left[0] + left[1] > 0; turn = turn * 21 % 65537) {
        int i = left[turn >> 3 & 1] > 0 ? turn >> 3 & 1 : !(turn >> 3 & 1);
        step(mixed[i]);
        left[i]--;
    }
    for (int i = 0; i < 2; i++) {
        finish(mixed[i]);
        is("side by side", memcmp(alone[i], mixed[i], sizeof *alone[i]) == 0, 1);
        free(alone[i]);
        free(mixed[i]);
    }
}

int main(void)
{
    static const uint8_t needed[] = { 0, 6, 7, 9, 12, 14, 17, 18, 19, 20, 21, 22 };
    prepare();
    check_creations();
    check_paper();
    check_size();
    check_retries();
    check_quantisers();
    check_withdrawal();
    check_last();
    check_steerings();
    check_parts();
    check_layers();
    check_intervals();
    check_long_headers();
    check_narrow();
    check_short_part();
    check_bounds();
    check_places();
    check_ranges();
    check_damaged();
    check_side_by_side();
    return summary("sender", needed, COUNT(needed));
}
