/* Variable rate from C, plain and as film: worked streams and refusals in their order, a worked writer, the bounds of a state,
 * and courses whose streams the check of their mode accepts. rules.h says what each call of a writer must answer and leave; the
 * cases here say what that must come to. Exit status 1: something differs. */
#include "channel.h"
#include "places.h"
#include "stream.h"

#include <stdlib.h>
#include <string.h>

static const uint8_t constant_modes[] = { 2, 6 }, variable_modes[] = { 10, 14 };

/* ---- streams */

enum { MOST_STREAM = 1 << 18, MOST_RECORDS = 4 };

/* 22,400 bits a second with a buffer of 16,384 bits; 400 with 16,760,832; 104,857,200 with 16,384. SEQUENCE with no buffer, with
 * 30000/1001 frames, and with a frame rate code that is none. */
#define SLOW "000001B301001013000E2008"
#define SLOWEST "000001B30100101300007FF8"
#define FASTEST "000001B301001013FFFFE008"
#define NO_BUFFER "000001B30100101302712000"
#define NTSC "000001B301001014027120A0"
#define NO_RATE "000001B301001019027120A0"
/* A frame with repeat_first_field 1. */
#define REPEATED "000001B58FFFF34380" SLICE

struct made {
    uint8_t bytes[MOST_STREAM];
    size_t length;
};

static void put(struct made *m, const char *hex)
{
    size_t length;
    uint8_t *bytes = bytes_of(hex, &length);
    if (length > MOST_STREAM - m->length)
        exit(2);
    memcpy(m->bytes + m->length, bytes, length);
    m->length += length;
    free(bytes);
}

/* A picture up to an end in bytes from the stream's first. */
static void put_up_to(struct made *m, const char *hex, size_t end)
{
    put(m, hex);
    if (end < m->length || end > MOST_STREAM)
        exit(2);
    memset(m->bytes + m->length, 0x40, end - m->length);
    m->length = end;
}

static struct made *begin(const char *hex)
{
    struct made *m = calloc(1, sizeof *m);
    if (m == NULL)
        exit(2);
    put(m, hex);
    return m;
}

/* What the check must say: a refusal, or a report and records. */
struct due {
    uint64_t refusal[REFUSAL_WORDS], report[REPORT_WORDS], records[MOST_RECORDS][RECORD_WORDS];
};

/* Both entries, with just so many record places: the number, and every byte of every place. */
static void judge_in(const char *name, const struct made *m, uint8_t mode, const struct due *d, size_t places)
{
    struct place report = lend(40), records = lend(40 * places), refusal = lend(32), alone = lend(40), other = lend(32);
    uint64_t number = d->refusal[0];
    if (number == 0) {
        expect_words(&report, d->report, REPORT_WORDS);
        expect_words(&alone, d->report, REPORT_WORDS);
        expect_words(&records, d->records[0], RECORD_WORDS * d->report[2]);
    } else {
        expect_words(&refusal, d->refusal, REFUSAL_WORDS);
        expect_words(&other, d->refusal, REFUSAL_WORDS);
    }
    answered(name, vbv_check(m->bytes, m->length, mode, report.bytes, 40, records.bytes, records.length, refusal.bytes, 32),
             number);
    if (number != 15)
        answered(name, vbv_report(m->bytes, m->length, mode, alone.bytes, 40, other.bytes, 32), number);
    take_back(&report, name, "the report's place");
    take_back(&records, name, "the records' place");
    take_back(&refusal, name, "the refusal's place");
    if (number == 15)
        memcpy(other.expected, other.bytes, 32);
    take_back(&alone, name, "the place of the report alone");
    take_back(&other, name, "the refusal's place of the report alone");
}

/* In each of two modes. */
static void judge(const char *name, const struct made *m, const uint8_t modes[2], const struct due *d)
{
    for (int i = 0; i < 2; i++)
        judge_in(name, m, modes[i], d, d->refusal[0] == 0 ? (size_t)d->report[2] : MOST_RECORDS);
}

static void judge_number(const char *name, const struct made *m, const uint8_t modes[2], uint64_t number)
{
    struct due d = { .refusal = { number } };
    judge(name, m, modes, &d);
}

/* A frame, a frame, two fields: 80,344, 976, 976 and 976 bits. The last gains 20,000 bits, and is capped. */
static void check_worked(void)
{
    static const struct due d = { { 0 }, { 1000000, 327680, 4, 247336, 327680 },
        { { 65535, 65535, 80344, 327680, 2 }, { 65535, 65535, 976, 287336, 2 }, { 65535, 65535, 976, 326360, 1 },
          { 65535, 65535, 976, 327680, 1 } } };
    struct made *m = begin(SEQUENCE EXTENSION);
    put_up_to(m, I_FFFF FRAME, 80344 / 8);
    put_up_to(m, P_FFFF FRAME, (80344 + 976) / 8);
    put_up_to(m, I_FFFF TOP, (80344 + 2 * 976) / 8);
    put_up_to(m, P_FFFF BOTTOM, (80344 + 3 * 976) / 8);
    judge("worked occupancies", m, variable_modes, &d);
    judge_number("the same at a constant rate", m, constant_modes, 5);
    struct due fewer = { .refusal = { 15 } };
    judge_in("a place too few", m, 10, &fewer, 3);
    free(m);
}

/* A first picture of just the buffer's bits, headers in it, leaves nothing; a byte more is too much. So is a second one's, once
 * the buffer is full again, for it holds no more than that. */
static void check_full(void)
{
    static const struct due whole = { { 0 }, { 1000000, 327680, 1, 0, 327680 }, { { 65535, 65535, 327680, 327680, 2 } } };
    static const struct due more = { { 10, 0, 65535, 65535 }, { 0 }, { { 0 } } };
    static const struct due two = { { 0 }, { 1000000, 327680, 2, 0, 327680 },
        { { 65535, 65535, 800, 327680, 2 }, { 65535, 65535, 327680, 327680, 2 } } };
    static const struct due second = { { 10, 1, 65535, 65535 }, { 0 }, { { 0 } } };
    for (size_t extra = 0; extra < 2; extra++) {
        struct made *m = begin(SEQUENCE EXTENSION), *n = begin(SEQUENCE EXTENSION);
        put_up_to(m, I_FFFF FRAME, 40960 + extra);
        judge("a first picture of a whole buffer", m, variable_modes, extra ? &more : &whole);
        put_up_to(n, I_FFFF FRAME, 100);
        put_up_to(n, P_FFFF FRAME, 100 + 40960 + extra);
        judge("a second picture of a whole buffer", n, variable_modes, extra ? &second : &two);
        free(m);
        free(n);
    }
}

/* Parts of a bit: a frame of 30000/1001 a second brings 33,366 2/3 bits, and what a picture leaves of them stays. */
static void check_parts(void)
{
    static const struct due fits = { { 0 }, { 1000000, 327680, 4, 0, 327680 },
        { { 65535, 65535, 327680, 327680, 2 }, { 65535, 65535, 33360, 33366, 2 }, { 65535, 65535, 33360, 33373, 2 },
          { 65535, 65535, 33376, 33380, 2 } } };
    static const struct due late = { { 10, 3, 65535, 65535 }, { 0 }, { { 0 } } };
    for (size_t extra = 0; extra < 2; extra++) {
        struct made *m = begin(NTSC EXTENSION);
        put_up_to(m, I_FFFF FRAME, 40960);
        put_up_to(m, P_FFFF FRAME, 40960 + 4170);
        put_up_to(m, P_FFFF FRAME, 40960 + 2 * 4170);
        put_up_to(m, P_FFFF FRAME, 40960 + 2 * 4170 + 4172 + extra);
        judge("parts of a bit", m, variable_modes, extra ? &late : &fits);
        free(m);
    }
}

/* Repeated fields: picture 0 has the flag, so that picture 1 lasts three field periods and 60,000 bits come, as film. */
static void check_film(void)
{
    static const struct due film = { { 0 }, { 1000000, 327680, 3, 0, 327680 },
        { { 65535, 65535, 327680, 327680, 2 }, { 65535, 65535, 40000, 40000, 3 }, { 65535, 65535, 50000, 60000, 2 } } };
    static const struct due plain = { { 10, 2, 65535, 65535 }, { 0 }, { { 0 } } };
    struct made *m = begin(SEQUENCE EXTENSION);
    put_up_to(m, I_FFFF REPEATED, 40960);
    put_up_to(m, P_FFFF FRAME, 40960 + 5000);
    put_up_to(m, P_FFFF FRAME, 40960 + 5000 + 6250);
    judge_in("repeated fields counted", m, 14, &film, 3);
    judge_in("repeated fields not counted", m, 10, &plain, 3);
    free(m);
}

/* ---- refusals */

/* Every delay but 0xFFFF, in the first picture and in a later one. */
static void check_delays(void)
{
    static const struct due d = { { 0 }, { 1000000, 327680, 2, 327320, 327680 },
        { { 65535, 65535, 360, 327680, 2 }, { 65535, 65535, 184, 327680, 2 } } };
    struct made *m = begin(SEQUENCE EXTENSION I_FFFF FRAME I_FFFF FRAME);
    size_t at[] = { 22, 45 };
    judge("0xFFFF in both", m, variable_modes, &d);
    for (int i = 0; i < 2; i++) {
        struct vbv_report report;
        struct vbv_refusal refusal;
        for (unsigned delay = 0; delay < 0xFFFF; delay++) {
            vbv_patch_delay(m->bytes + at[i], 8, (uint16_t)delay);
            answered("a delay", vbv_report(m->bytes, m->length, variable_modes[delay % 2], &report, 40, &refusal, 32), 25);
        }
        judge_number("a delay", m, variable_modes, 25);
        vbv_patch_delay(m->bytes + at[i], 8, 0xFFFF);
    }
    judge("0xFFFF in both again", m, variable_modes, &d);
    free(m);
}

/* 25 after whatever the headers say and 4, before 12, 15 and any 10; a constant rate has 5 there, of the first picture alone. */
static void check_order(void)
{
    static const struct {
        const char *name, *hex;
        uint64_t variable, constant;
    } of[] = {
        { "another delay", SEQUENCE EXTENSION I_22118 FRAME, 25, 0 },
        { "a later one", SEQUENCE EXTENSION I_FFFF FRAME I_22118 FRAME, 25, 5 },
        { "0xFFFF later", SEQUENCE EXTENSION I_22118 FRAME I_FFFF FRAME, 25, 11 },
        { "no buffer", NO_BUFFER EXTENSION I_FFFF FRAME, 12, 5 },
        { "no buffer, and another delay", NO_BUFFER EXTENSION I_22118 FRAME, 25, 12 },
        { "no buffer, and a later one", NO_BUFFER EXTENSION I_FFFF FRAME I_22118 FRAME, 25, 5 },
        { "no rate, and another delay", NO_RATE EXTENSION I_22118 FRAME, 6, 6 },
        { "another delay, and a last header cut short", SEQUENCE EXTENSION I_22118 FRAME "00000100", 1, 1 },
        { "another delay, and a bad last header", SEQUENCE EXTENSION I_22118 FRAME "0000010000000000" FRAME, 2, 2 },
        { "no picture", SEQUENCE EXTENSION, 4, 4 },
        { "no sequence header", I_22118 FRAME, 3, 3 },
    };
    for (size_t i = 0; i < COUNT(of); i++) {
        struct made *m = begin(of[i].hex);
        struct due d = { .refusal = { of[i].variable } };
        judge(of[i].name, m, variable_modes, &d);
        judge_in(of[i].name, m, 10, &d, 0);
        if (of[i].constant != 0 && of[i].constant < 9)
            judge_number(of[i].name, m, constant_modes, of[i].constant);
        free(m);
    }
}

/* 25 also behind a picture that underflows, and 15 before that 10. */
static void check_behind(void)
{
    static const struct due late = { { 10, 0, 65535, 65535 }, { 0 }, { { 0 } } }, places = { { 15 }, { 0 }, { { 0 } } };
    struct made *m = begin(SEQUENCE EXTENSION);
    put_up_to(m, I_FFFF FRAME, 50000);
    judge("underflow", m, variable_modes, &late);
    judge_in("underflow, no record place", m, 10, &places, 0);
    put(m, I_FFFF FRAME);
    judge("underflow before another picture", m, variable_modes, &late);
    vbv_patch_delay(m->bytes + 50000, 8, 7);
    judge_number("another delay behind an underflow", m, variable_modes, 25);
    judge_in("and no record place", m, 14, &(struct due){ .refusal = { 25 } }, 0);
    free(m);
}

/* How long the buffer takes to fill is not tested, nor how much comes at once, nor where a picture begins. */
static void check_untested(void)
{
    static const struct due slow = { { 0 }, { 22400, 16384, 2, 16024, 16384 },
        { { 65535, 65535, 360, 16384, 2 }, { 65535, 65535, 184, 16384, 2 } } };
    static const struct due slowest = { { 0 }, { 400, 16760832, 2, 16760304, 16760832 },
        { { 65535, 65535, 360, 16760832, 2 }, { 65535, 65535, 184, 16760488, 2 } } };
    static const struct due fastest = { { 0 }, { 104857200, 16384, 2, 16024, 16384 },
        { { 65535, 65535, 360, 16384, 2 }, { 65535, 65535, 184, 16384, 2 } } };
    static const struct due late = { { 10, 1, 65535, 65535 }, { 0 }, { { 0 } } };
    struct made *m = begin(SLOW EXTENSION I_FFFF FRAME I_FFFF FRAME), *n = begin(SLOWEST EXTENSION I_FFFF FRAME I_FFFF FRAME);
    struct made *f = begin(FASTEST EXTENSION I_FFFF FRAME I_FFFF FRAME);
    judge("22,400 bits a second, buffer 16,384", m, variable_modes, &slow);
    judge("400 bits a second, the largest buffer", n, variable_modes, &slowest);
    judge("104,857,200 bits a second, buffer 16,384", f, variable_modes, &fastest);
    vbv_patch_delay(m->bytes + 22, 8, 600);
    judge_number("22,400 bits a second at a constant rate", m, constant_modes, 12);
    struct made *behind = begin(SLOW EXTENSION I_FFFF FRAME);
    put_up_to(behind, "000001B2", 45 + 3000); /* its next picture begins beyond what has come */
    put(behind, I_FFFF FRAME);
    judge("a picture that begins too late", behind, variable_modes, &late);
    free(m);
    free(n);
    free(f);
    free(behind);
}

/* ---- writers */

/* 1,000,000 bits a second with a buffer of 16,384 bits, from quantiser 29; with 327,680 bits, plain and as film. */
static const uint64_t narrow[CONFIG_WORDS] = { 10, 2500, 1, 3, 0, 0, 29, 2, 4 };
static const uint64_t usual[CONFIG_WORDS] = { 10, 2500, 20, 4, 0, 0, 10, 2, 4 };
static const uint64_t film[CONFIG_WORDS] = { 14, 2500, 20, 4, 0, 0, 10, 2, 4 };

/* Placed with so many bytes and the delay 0xFFFF; then so many whole bits are delivered at the next removal. */
static void places(const char *name, struct channel *c, struct offer o, uint64_t quantiser, uint64_t bytes, uint64_t whole)
{
    struct told t = offer(name, c, &o);
    is(name, t.number == 0 && t.answer[OUTCOME] == CBR_PLACED && t.answer[QUANTISER] == quantiser, 1);
    is(name, t.answer[DELAY] == 65535 && t.answer[ZEROS] == 0 && t.answer[BYTES] == bytes, 1);
    is(name, c->state[WHOLE] == whole && c->state[REST] == 0, 1);
}

static void check_worked_writer(void)
{
    struct channel *c = open_configured(narrow);
    struct offer o = frame(c, CBR_I, 2121);
    o.headers_length = 22;
    again("an I picture above the buffer", c, o, 31);
    o.layer_length = 1821;
    places("an I picture", c, o, 31, 1843, 31128);
    places("a P picture", c, frame(c, CBR_P, 1922), 29, 1922, 46504);
    again("a P picture above the buffer", c, frame(c, CBR_P, 2522), 31);
    places("a smaller P picture", c, frame(c, CBR_P, 922), 31, 922, 53880);
    o = frame(c, CBR_B, 32);
    o.last = 1;
    places("the last B picture", c, o, 29, 36, 54168);
    is("no stuffing", c->state[STUFFING] == 0 && c->state[FINISHED] == 1, 1);
    refused("after the last", c, frame(c, CBR_I, 100), 17);
    check_sent("a worked writer", c);
    free(c);
}

/* The first picture may take the whole buffer, its headers too, and 4 bytes less as the last. */
static void check_first(void)
{
    for (uint8_t last = 0; last < 2; last++) {
        struct channel *c = open_configured(usual);
        struct offer o = frame(c, CBR_I, 40960u - 1000u - 4u * last);
        o.headers_length = 1000;
        o.last = last;
        o.layer_length++;
        again("a byte too large", c, o, 13);
        o.layer_length--;
        struct told t = offer("a whole buffer", c, &o);
        is("a whole buffer", t.number == 0 && t.answer[BYTES] == 40960, 1);
        check_sent("a whole buffer", c);
        free(c);
    }
}

/* Headers beyond what has come make the picture too large, and are never 7 or 9; nothing is 22. */
static void check_headers(void)
{
    struct channel *c = open_configured(usual);
    struct offer o = frame(c, CBR_I, 300);
    o.headers_length = 39999;
    placed("long first headers", c, o, 10, 0);
    o = frame(c, CBR_P, 23);
    o.headers_length = MOST_BYTES;
    again("longer headers than have come", c, o, 13);
    withdraw("given up", c, CBR_STATE_BYTES);
    struct channel *fast = open_configured((const uint64_t[]){ 10, 262143, 1, 3, 0, 0, 31, 2, 4 });
    o = frame(fast, CBR_I, 1000);
    placed("more in a frame's time than the buffer holds", fast, o, 31, 0);
    o = frame(fast, CBR_P, 23);
    o.headers_length = 3000;
    refused("headers above the buffer, at 31", fast, o, 21);
    places("a buffer's bytes", fast, frame(fast, CBR_P, 2048), 31, 2048, 8 * (1030 + 2048) + 16384);
    check_sent("fast", fast);
    free(c);
    free(fast);
}

/* What is delivered, and whether a state of this mode may say so. */
struct bound {
    uint64_t whole, rest, mode;
    int fits;
};

/* An offer to a state with these words, and a withdrawal. */
static void check_bound(struct channel *c, const uint64_t *state, const struct bound *b)
{
    for (int call = 0; call < 2; call++) {
        memcpy(c->state, state, 8 * STATE_WORDS);
        c->state[WHOLE] = b->whole;
        c->state[REST] = b->rest;
        c->state[MODE] = b->mode;
        c->pictures = c->length = 0;
        is("a state at its bounds", rules_fit(c->state) == b->fits, 1);
        struct offer o = frame(c, c->state[STARTED] ? CBR_P : CBR_I, 100);
        if (call == 0)
            offer("a state at its bounds", c, &o);
        else
            withdraw("a state at its bounds", c, CBR_STATE_BYTES);
    }
}

/* What is delivered may fill the buffer and no more, once a picture is placed; before that it is not used. A constant writer's
 * state has no such bound. */
static void check_bounds(void)
{
    struct channel *c = open_configured(usual);
    uint64_t fresh[STATE_WORDS], kept[STATE_WORDS], most = (uint64_t)1 << 57;
    memcpy(fresh, c->state, sizeof fresh);
    placed("a first picture", c, frame(c, CBR_I, 20000), 10, 0);
    memcpy(kept, c->state, sizeof kept);
    uint64_t full = kept[END] + kept[BUFFER], parts = 180000 * kept[FRN];
    const struct bound started[] = { { full, 0, 10, 1 }, { full, 1, 10, 0 }, { full - 1, parts - 1, 10, 1 }, { full + 1, 0, 10, 0 },
                                     { most, 0, 10, 0 }, { full, 0, 14, 1 }, { full, 1, 14, 0 }, { full + 1, 0, 2, 1 },
                                     { full, 1, 6, 1 }, { 0, 0, 10, 1 } };
    const struct bound first[] = { { most, parts - 1, 10, 1 }, { full + 1, 0, 14, 1 }, { most + 1, 0, 10, 0 }, { 0, parts, 10, 0 } };
    for (size_t i = 0; i < COUNT(started); i++)
        check_bound(c, kept, started + i);
    for (size_t i = 0; i < COUNT(first); i++)
        check_bound(c, fresh, first + i);
    free(c);
}

/* How long the buffer lasts is no bound of a variable writer's. */
static void check_ratio(void)
{
    struct channel *c = open_configured(usual);
    placed("a first picture", c, frame(c, CBR_I, 20000), 10, 0);
    c->state[RATE] = 1;
    is("any rate", rules_fit(c->state) != 0, 1);
    withdraw("a buffer that lasts long", c, CBR_STATE_BYTES);
    c->state[MODE] = 2;
    is("but of a constant one's", rules_fit(c->state) == 0, 1);
    withdraw("a constant one's", c, CBR_STATE_BYTES);
    free(c);
}

/* ---- courses */

static uint64_t draw(struct channel *c, uint64_t below)
{
    c->seed = c->seed * 6364136223846793005 + 1442695040888963407;
    return (c->seed >> 33) % below;
}

/* A call of some sort: an offer, one that is too large, with long headers or short of room; a withdrawal. */
static void step(struct channel *c, uint8_t flags)
{
    uint64_t sort = draw(c, 16);
    uint8_t kind = (uint8_t)(c->state[PENDING] != 0 && sort != 1 ? c->state[PENDING] - 1 : draw(c, 3));
    uint8_t interval = (uint8_t)(1 + draw(c, 2)), mask = (uint8_t)draw(c, FLAGS);
    size_t length = sort == 2 ? MOST_BYTES : 23 + draw(c, sort < 5 ? 40000 : 3500u * interval);
    struct offer o = flagged(c, kind, interval, flags & mask, length);
    if (sort == 3)
        o.out_length = draw(c, 100);
    if (sort >= 12 && c->state[STARTED])
        o.headers_length = sort == 15 ? 12 + draw(c, 30000) : 8 + 20 * draw(c, 2);
    if (sort == 0)
        withdraw("a step", c, CBR_STATE_BYTES);
    else
        offer("a step", c, &o);
}

/* How often what is delivered fills the buffer, and how often it does not. */
struct met {
    size_t full, less;
};

static void run_course(const uint64_t *config, uint8_t sequence, uint8_t flags, uint64_t seed, struct met *met)
{
    struct channel *c = open_configured(config);
    c->seed = seed;
    say_sequence(c, sequence / 2, sequence % 2);
    for (int i = 0; i < 60; i++) {
        step(c, flags);
        int is_full = c->state[WHOLE] == c->state[END] + c->state[BUFFER];
        met->full += c->state[STARTED] && is_full;
        met->less += c->state[STARTED] && !is_full;
    }
    withdraw("the end", c, CBR_STATE_BYTES);
    struct offer o = picture(c, CBR_B, CBR_FRAME, 100);
    o.last = 1;
    offer("the end", c, &o);
    for (size_t i = 0; i < c->pictures; i++)
        is("no delay, no stuffing", c->placed[i][DELAY] == 65535 && c->placed[i][ZEROS] == 0, 1);
    is("no stuffing at all", c->state[STUFFING], 0);
    check_sent("a course", c);
    is("nothing to take away", c->pictures > 10 && check_least("a course", c) == 0, 1);
    free(c);
}

static void check_courses(void)
{
    struct met met = { 0, 0 };
    for (uint8_t sequence = 0; sequence < 4; sequence++)
        for (uint64_t seed = 0; seed < 10; seed++) {
            run_course(film, sequence, REPEATS + TOP_FIRST, seed, &met);
            run_course(usual, sequence, TOP_FIRST, seed, &met);
        }
    is("full and not full", met.full > 100 && met.less > 100, 1);
}

int main(void)
{
    static const uint8_t needed[] = { 0, 1, 2, 3, 4, 5, 6, 10, 12, 15, 17, 19, 21, 25 };
    prepare();
    check_worked();
    check_full();
    check_parts();
    check_film();
    check_delays();
    check_order();
    check_behind();
    check_untested();
    check_worked_writer();
    check_first();
    check_headers();
    check_bounds();
    check_ratio();
    check_courses();
    return summary("variable", needed, COUNT(needed));
}
