#include "rules.h"

#include "cadence.h"

#include <string.h>

__extension__ typedef unsigned __int128 wide;

const uint64_t frame_rates[9][2] = { { 0, 0 }, { 24000, 1001 }, { 24, 1 }, { 25, 1 }, { 30000, 1001 },
                                     { 30, 1 }, { 50, 1 }, { 60000, 1001 }, { 60, 1 } };

static int within(uint64_t low, uint64_t high, uint64_t value)
{
    return low <= value && value <= high;
}

int is_film(uint64_t mode)
{
    return mode == 6 || mode == 14;
}

int is_variable(uint64_t mode)
{
    return mode == 10 || mode == 14;
}

static int is_mode(uint64_t mode)
{
    return mode == 2 || is_film(mode) || is_variable(mode);
}

/* Of a constant rate the buffer's time; of a variable one what is delivered, once a picture is placed: no more than fills the
 * buffer. */
static int rate_fits(const uint64_t *s)
{
    wide unit = (wide)180000 * s[FRN], full = ((wide)s[END] + s[BUFFER]) * unit;
    return is_variable(s[MODE]) ? !s[STARTED] || s[WHOLE] * unit + s[REST] <= full
                                : (wide)90000 * s[BUFFER] <= (wide)65534 * s[RATE];
}

static int model_fits(const uint64_t *s)
{
    return within(1, 429496729200, s[RATE]) && within(1, 4294950912, s[BUFFER]) && within(1, 240000, s[FRN])
        && within(1, 32032, s[FRD]) && s[WHOLE] <= (uint64_t)1 << 57 && s[REST] < 180000 * s[FRN] && s[END] <= FAR
        && s[REMOVED] <= FAR && s[STARTED] <= 1 && rate_fits(s);
}

/* The words of film are 0 in the other modes. */
static int cadence_fits(const uint64_t *s)
{
    uint64_t most = is_film(s[MODE]) ? 1 : 0;
    return is_mode(s[MODE]) && s[PROGRESSIVE] <= most && s[LOW_DELAY] <= most && s[ANCHOR_REPEATS] <= most
        && s[ANCHOR_TOP] <= most && s[OPEN_FIELD] <= 2 * most;
}

int rules_fit(const uint64_t *s)
{
    int fits = model_fits(s) && cadence_fits(s) && s[END] % 8 == 0 && s[REMOVED] <= s[END] / 8 && s[STUFFING] <= s[END] / 8;
    for (int kind = 0; kind < 3; kind++)
        fits = fits && s[TARGETS + kind] <= FAR && within(1, 31, s[QUANTISERS + kind]);
    return fits && s[PENDING] <= 3 && s[FINISHED] <= 1
        && (s[PENDING] == 0 ? s[PENDING_Q] == 0 : within(1, 31, s[PENDING_Q]));
}

static int config_fits(const uint64_t *c)
{
    return within(1, 262143, c[WANTED_RATE]) && within(1, 1023, c[WANTED_BUFFER]) && c[WANTED_N] <= 3 && c[WANTED_D] <= 31
        && within(1, 31, c[WANTED_QUANTISER]) && c[WANTED_BETWEEN] <= 15 && within(1, 255, c[WANTED_ANCHORS]);
}

uint64_t rules_create(const uint64_t *c, uint64_t *s)
{
    static const uint64_t weights[3] = { 40, 16, 9 };
    if (!is_mode(c[WANTED_MODE]) || !config_fits(c))
        return 12;
    if (!within(1, 8, c[WANTED_CODE]))
        return 6;
    memset(s, 0, 8 * STATE_WORDS);
    s[RATE] = 400 * c[WANTED_RATE];
    s[BUFFER] = 16384 * c[WANTED_BUFFER];
    s[FRN] = frame_rates[c[WANTED_CODE]][0] * (c[WANTED_N] + 1);
    s[FRD] = frame_rates[c[WANTED_CODE]][1] * (c[WANTED_D] + 1);
    s[MODE] = c[WANTED_MODE];
    uint64_t p = c[WANTED_ANCHORS], b = p * c[WANTED_BETWEEN];
    for (int kind = 0; kind < 3; kind++) {
        s[TARGETS + kind] = s[RATE] * s[FRD] / s[FRN] * (1 + p + b) * weights[kind] / (40 + 16 * p + 9 * b);
        s[QUANTISERS + kind] = c[WANTED_QUANTISER];
    }
    return !is_variable(s[MODE]) && 90000 * s[BUFFER] > 65534 * s[RATE] ? 12 : 0;
}

/* Bits from the stream's first; those delivered in units of 1 / (180,000 x frn) bit. */
struct places {
    wide unit, position, content, end, delivered, next;
};

/* Of a variable rate: a full buffer at first, never more than one, and no stuffing. */
static void vary(struct places *p, const uint64_t *s)
{
    wide gain = p->next - p->delivered, full = (p->content + s[BUFFER]) * p->unit;
    if (!s[STARTED])
        p->delivered = s[BUFFER] * p->unit;
    p->next = p->delivered + gain < full ? p->delivered + gain : full;
    p->end = p->content;
}

static struct places places_of(const uint64_t *s, const struct offer *o, uint64_t periods)
{
    struct places p = { .unit = (wide)180000 * s[FRN] };
    p.position = s[END] + 8 * ((wide)o->headers_length + 4);
    p.content = s[END] + 8 * ((wide)o->headers_length + o->layer_length + (o->last ? 4 : 0));
    p.delivered = s[WHOLE] * p.unit + s[REST];
    if (!s[STARTED])
        p.delivered = p.position * p.unit + (wide)90000 * s[BUFFER] * 3 / (4 * s[RATE]) * s[RATE] * 2 * s[FRN];
    p.next = p.delivered + (wide)s[RATE] * s[FRD] * 90000 * periods;
    wide arrived = (p.next + p.unit - 1) / p.unit, held = p.content + s[BUFFER];
    p.end = p.content + (!o->last && arrived > held ? (arrived - held + 7) / 8 * 8 : 0);
    if (is_variable(s[MODE]))
        vary(&p, s);
    return p;
}

/* Until a picture is placed, what the offer's own headers open. */
static struct cadence cadence_at(const uint64_t *s, const struct offer *o)
{
    if (!is_film(s[MODE]))
        return (struct cadence){ .film = 0 };
    if (!s[STARTED])
        return (struct cadence){ .film = 1, .progressive = o->progressive, .low_delay = o->low_delay };
    return (struct cadence){ 1, (uint8_t)s[PROGRESSIVE], (uint8_t)s[LOW_DELAY], (uint8_t)s[ANCHOR_REPEATS], (uint8_t)s[ANCHOR_TOP],
                             (enum open_field)s[OPEN_FIELD] };
}

static void put_cadence(uint64_t *s, const struct cadence *k)
{
    s[PROGRESSIVE] = k->progressive;
    s[LOW_DELAY] = k->low_delay;
    s[ANCHOR_REPEATS] = k->repeats;
    s[ANCHOR_TOP] = k->top;
    s[OPEN_FIELD] = k->open;
}

static int headers_fit(const uint64_t *s, const struct offer *o)
{
    const uint64_t *h = o->declared;
    int same = h[RATE] == s[RATE] && h[BUFFER] == s[BUFFER] && h[FRN] != 0 && h[FRN] * s[FRD] == s[FRN] * h[FRD];
    return s[STARTED] ? o->are == PLAIN : o->are == FIRST && same;
}

/* The refusals before the size and after it; 0 where there is none. */
static uint64_t refused_before(const uint64_t *s, const struct offer *o, const struct places *p)
{
    return o->kind > 2 || !within(1, 2, o->interval) || o->last > 1                ? 12
        : s[FINISHED] || (s[PENDING] != 0 && s[PENDING] != (uint64_t)o->kind + 1) ? 17
        : !headers_fit(s, o)                                                      ? 18
        : !o->layer_fits || (o->repeats && !is_film(s[MODE]))                     ? 20
        : p->position > FAR || p->end > FAR                                       ? 14
        : is_variable(s[MODE])                                                    ? 0
        : p->position * p->unit > p->delivered                                    ? 7
        : p->delivered > ((wide)s[END] + s[BUFFER]) * p->unit                     ? 9
                                                                                  : 0;
}

static uint64_t refused_after(const uint64_t *s, const struct offer *o, const struct places *p)
{
    return p->end * p->unit > p->delivered ? 22 : o->out_length < (p->end - s[END]) / 8 ? 19 : 0;
}

/* The kind's next quantiser. */
static uint64_t steered(uint64_t q, uint64_t target, wide bits)
{
    wide counted = target > 0 ? target : 1;
    return 5 * bits > 6 * counted ? (q < 31 ? q + 1 : 31) : 10 * bits < 7 * counted ? (q > 1 ? q - 1 : 1) : q;
}

static void place(struct told *t, const struct offer *o, const struct places *p, uint64_t q)
{
    uint64_t *s = t->state;
    wide tick = (wide)2 * s[FRN] * s[RATE];
    t->answer[QUANTISER] = q;
    t->answer[DELAY] = is_variable(s[MODE]) ? 65535 : (uint64_t)((p->delivered - p->position * p->unit + tick / 2) / tick);
    t->answer[BYTES] = (uint64_t)((p->end - s[END]) / 8);
    t->answer[ZEROS] = (uint64_t)((p->end - p->content) / 8);
    s[WHOLE] = (uint64_t)(p->next / p->unit);
    s[REST] = (uint64_t)(p->next % p->unit);
    s[END] = (uint64_t)p->end;
    s[REMOVED]++;
    s[STARTED] = 1;
    s[QUANTISERS + o->kind] = steered(q, s[TARGETS + o->kind], 8 * (wide)o->layer_length);
    s[PENDING] = s[PENDING_Q] = 0;
    s[STUFFING] += t->answer[ZEROS];
    s[FINISHED] = o->last;
}

static void refuse(struct told *t, uint64_t number)
{
    t->number = t->answer[NUMBER] = number;
    t->answer[OUTCOME] = 2;
    if (number == 9)
        t->answer[PICTURE] = t->state[REMOVED];
    if (number == 21)
        t->state[PENDING] = t->state[PENDING_Q] = 0;
}

struct told rules_offer(const uint64_t *s, const struct offer *o)
{
    struct told t = { .number = 0 };
    memcpy(t.state, s, sizeof t.state);
    int holds = o->state_length >= 8 * STATE_WORDS && rules_fit(s);
    if (!holds || o->answer_length < 8 * ANSWER_WORDS) {
        refuse(&t, holds ? 19 : 12);
        return t;
    }
    struct cadence k = cadence_at(s, o);
    t.periods = lasts(&k, (struct facts){ o->kind != 2, o->interval == 1, o->repeats, o->top });
    struct places p = places_of(s, o, t.periods);
    uint64_t number = refused_before(s, o, &p), q = s[PENDING] != 0 ? s[PENDING_Q] : s[QUANTISERS + o->kind % 3];
    if (number == 0 && p.content * p.unit > p.delivered) {
        if (q < 31) {
            t.state[PENDING] = (uint64_t)o->kind + 1;
            t.answer[OUTCOME] = 1;
            t.answer[QUANTISER] = t.state[PENDING_Q] = q + 1 + q / 4 < 31 ? q + 1 + q / 4 : 31;
            return t;
        }
        number = 21;
    } else if (number == 0) {
        number = refused_after(s, o, &p);
    }
    if (number != 0) {
        refuse(&t, number);
    } else {
        place(&t, o, &p, q);
        put_cadence(t.state, &k);
    }
    return t;
}
