#define _POSIX_C_SOURCE 200809L
#include "place.h"

#include <inttypes.h>
#include <stdio.h>
#include <stdlib.h>
#include <string.h>

/* Bits per byte, ticks a second, and ticks in two field periods' unit: a removal falls on a multiple of 1/180,000 of a frame
 * rate's numerator. */
enum { BYTE = 8, TICKS = 90000, HALF_TICKS = 180000 };

static const struct field DELAY = { 45, 16 };

/* What a question is about. */
struct question {
    const struct stream *s;
    uint8_t mode, standard;
    int records;
    struct answer *a;
};

/* Only the verdict, about a part. */
static uint64_t verdict(const struct stream *s, uint8_t mode)
{
    struct vbv_report report;
    struct vbv_refusal refusal;
    return vbv_report(s->bytes, s->length, mode, &report, sizeof report, &refusal, sizeof refusal);
}

/* The whole answer, with records where there are places. */
static uint64_t full_answer(const struct stream *s, struct answer *a)
{
    if (a->records == NULL)
        return vbv_report(s->bytes, s->length, a->mode, &a->report, sizeof a->report, &a->refusal, sizeof a->refusal);
    return vbv_check(s->bytes, s->length, a->mode, &a->report, sizeof a->report, a->records,
                     a->look.pictures * sizeof *a->records, &a->refusal, sizeof a->refusal);
}

static int is_header_refusal(uint64_t number)
{
    return number == VBV_SHORT_HEADER || number == VBV_BAD_HEADER;
}

/* The stream's first pictures: up to their end, the first sequence header put behind that where it comes later. */
struct cut {
    struct stream s;
    uint8_t *joined;
};

/* Returns 0, or 1 where memory does not suffice. */
static int cut_after(const struct question *q, size_t pictures, struct cut *c)
{
    size_t sequence = q->a->look.sequence, length = sequence_length(q->s, sequence, q->standard);
    size_t end = pictures > 0 ? q->a->shown[pictures - 1].end : 0;
    *c = (struct cut){ part(q->s, 0, end), NULL };
    if (sequence + length <= end)
        return 0;
    c->joined = malloc(end + length);
    if (c->joined == NULL)
        return 1;
    memcpy(c->joined, q->s->bytes, end);
    memcpy(c->joined + end, q->s->bytes + sequence, length);
    c->s = (struct stream){ c->joined, end + length };
    return 0;
}

/* The verdict about the first pictures; 15 where memory does not suffice. */
static uint64_t verdict_of_first(const struct question *q, size_t pictures)
{
    struct cut c;
    if (cut_after(q, pictures, &c) != 0)
        return VBV_RECORD_PLACES;
    uint64_t number = verdict(&c.s, q->mode);
    free(c.joined);
    return number;
}

/* The first picture with which the verdict is the refusal's, by halves; their count where memory does not suffice. */
static size_t first_refused(const struct question *q)
{
    size_t pictures = q->a->look.pictures, from = 0, to = pictures - 1;
    while (from < to) {
        size_t middle = from + (to - from) / 2;
        uint64_t number = verdict_of_first(q, middle + 1);
        if (number == VBV_RECORD_PLACES)
            return pictures;
        if (number == q->a->number || (is_header_refusal(number) && is_header_refusal(q->a->number)))
            to = middle;
        else
            from = middle + 1;
    }
    return from;
}

/* Which of the sequence header and its extension is refused; NULL for neither. */
static const char *bad_sequence(const struct question *q)
{
    size_t at = q->a->look.sequence;
    struct stream header = part(q->s, at, at + sequence_length(q->s, at, VBV_MPEG1));
    struct stream both = part(q->s, at, at + sequence_length(q->s, at, q->standard));
    if (is_header_refusal(verdict(&header, VBV_MPEG1)))
        return "sequence header";
    return is_header_refusal(verdict(&both, q->standard)) ? "sequence extension" : NULL;
}

/* Whether it is the header of a picture that is refused: as MPEG-1, which has no extension, behind the sequence header. */
static int is_bad_header(const struct question *q, const struct shown *p)
{
    const struct look *l = &q->a->look;
    size_t sequence = sequence_length(q->s, l->sequence, VBV_MPEG1), length = p->end - p->at;
    if (q->standard == VBV_MPEG1 || p->type == D_PICTURE)
        return 1;
    uint8_t *joined = malloc(sequence + length);
    if (joined == NULL)
        return 0;
    memcpy(joined, q->s->bytes + l->sequence, sequence);
    memcpy(joined + sequence, q->s->bytes + p->at, length);
    struct stream s = { joined, sequence + length };
    int bad = is_header_refusal(verdict(&s, VBV_MPEG1));
    free(joined);
    return bad;
}

/* Where the extension of the refused picture begins, or would. */
static size_t extension_of(const struct question *q, const struct shown *p)
{
    size_t at = next_code(q->s, p->at + CODE_BYTES);
    return at < p->end ? at : p->at;
}

static void place_picture(struct place *p, const struct answer *a, size_t picture)
{
    if (picture >= a->look.pictures)
        return;
    p->in_picture = 1;
    p->picture = picture;
    p->byte = a->shown[picture].at;
}

/* Of 1 and 2. */
static void place_header(const struct question *q, struct place *p)
{
    p->header = bad_sequence(q);
    p->byte = q->a->look.sequence;
    if (p->header != NULL) {
        if (strcmp(p->header, "sequence extension") == 0)
            p->byte = next_code(q->s, p->byte + sequence_length(q->s, p->byte, VBV_MPEG1) - 2);
    } else if (q->a->look.pictures > 0) {
        place_picture(p, q->a, first_refused(q));
        p->byte = p->in_picture ? p->byte : q->s->length;
        if (!p->in_picture)
            return;
        const struct shown *picture = q->a->shown + p->picture;
        int header = is_bad_header(q, picture);
        p->header = header ? "picture header" : "picture coding extension";
        p->byte = header ? picture->at : extension_of(q, picture);
    }
}

static uint32_t coded_delay(const struct question *q, size_t picture)
{
    struct stream header = part(q->s, q->a->shown[picture].at, q->s->length);
    return field_value(&header, DELAY);
}

/* Less what was there: b must not be more. */
static struct bits less(struct bits a, uint64_t whole)
{
    a.whole -= whole;
    return a;
}

/* What is missing from the bits to a whole number that is more. */
static struct bits missing(struct bits a, uint64_t whole)
{
    uint64_t borrow = a.part > 0;
    return (struct bits){ whole - a.whole - borrow, borrow ? a.parts - a.part : 0, a.parts };
}

/* Bits delivered at the first removal: by its delay, and of a variable rate a full buffer. All bits here are exact. */
static struct bits delivered_first(const struct answer *a, uint64_t delay)
{
    uint64_t over = a->declared.rate_over, first = delay * a->declared.bit_rate;
    if (is_variable(a->mode))
        return (struct bits){ a->declared.buffer_bits, 0, HALF_TICKS * over };
    return (struct bits){ BYTE * (a->shown[0].at + CODE_BYTES) + first / TICKS, first % TICKS * 2 * over, HALF_TICKS * over };
}

/* With those that the rate brings in so many field periods. */
static struct bits gained(const struct answer *a, struct bits b, uint64_t periods)
{
    uint64_t twice = 2 * a->declared.rate_over, field = a->declared.bit_rate * a->declared.rate_under;
    uint64_t rest = periods * (field % twice);
    b.whole += periods * (field / twice) + rest / twice;
    b.part += rest % twice * TICKS;
    b.whole += b.part / b.parts;
    b.part %= b.parts;
    return b;
}

/* At a variable rate no more than fills the buffer, after a picture that ends there. */
static struct bits capped(const struct answer *a, struct bits b, uint64_t end)
{
    uint64_t most = end + a->declared.buffer_bits;
    return is_variable(a->mode) && b.whole >= most ? (struct bits){ most, 0, b.parts } : b;
}

/* The expected delay, halves up; for a position that is not beyond the bits delivered. */
static uint64_t ticks_to(struct bits delivered, uint64_t position, uint64_t rate)
{
    uint64_t twice = (delivered.whole - position) * HALF_TICKS + delivered.part * HALF_TICKS / delivered.parts;
    return (twice + rate) / (2 * rate);
}

/* Whether the bits delivered agree with what the library says, and with its number. */
static int agrees(const struct answer *a, const struct place *p, uint64_t position, uint64_t end)
{
    const struct bits *d = &p->delivered;
    int early = d->whole < position;
    if (is_variable(a->mode))
        return a->number == VBV_UNDERFLOW && d->whole < end;
    if (a->number == VBV_EARLY || early)
        return a->number == VBV_EARLY && early;
    uint64_t ticks = ticks_to(*d, position, a->declared.bit_rate);
    if (a->number == VBV_DELAY_TOO_LONG)
        return ticks > 0xFFFE;
    if (a->number == VBV_UNDERFLOW && d->whole >= end)
        return 0;
    return ticks == a->refusal.expected;
}

/* When the picture is due, by those before it, and what the buffer holds then. */
static void find_time(const struct question *q, struct place *p)
{
    const struct answer *a = q->a;
    struct cadence cadence = cadence_of(&a->declared, q->mode);
    uint64_t before = p->picture > 0 ? BYTE * a->shown[p->picture - 1].end : 0;
    p->due = p->delivered = delivered_first(a, coded_delay(q, 0));
    for (size_t n = 0; n < p->picture; n++) {
        uint64_t periods = lasts(&cadence, a->shown[n].facts);
        p->due = gained(a, p->due, periods);
        p->delivered = capped(a, gained(a, p->delivered, periods), BYTE * a->shown[n].end);
    }
    p->timed = p->delivered.whole >= before;
    p->held = less(p->delivered, p->timed ? before : 0);
}

/* When the refused picture is due, and by how much too early or too late. Left untold where it would not agree with the
 * library. */
static void measure(const struct question *q, struct place *p)
{
    const struct answer *a = q->a;
    uint64_t buffer = a->declared.buffer_bits;
    uint64_t position = BYTE * (a->shown[p->picture].at + CODE_BYTES), end = BYTE * a->shown[p->picture].end;
    find_time(q, p);
    if (!agrees(a, p, position, end))
        p->timed = 0;
    p->measured = p->timed;
    if (!p->timed)
        return;
    if (a->number == VBV_OVERFLOW && p->held.whole >= buffer)
        p->over = less(p->held, buffer);
    else if (a->number == VBV_UNDERFLOW)
        p->over = missing(p->delivered, end);
    else if (a->number == VBV_EARLY)
        p->over = missing(p->delivered, position);
    else
        p->measured = 0;
}

/* The records of the pictures before the refused one, where these are accepted. */
static void take_records(const struct question *q)
{
    struct answer *a = q->a;
    struct vbv_report report;
    struct vbv_refusal refusal;
    struct cut c;
    size_t pictures = a->place.picture;
    if (!a->place.in_picture || pictures == 0)
        return;
    free(a->records);
    a->records = calloc(pictures, sizeof *a->records);
    if (a->records == NULL || cut_after(q, pictures, &c) != 0)
        return;
    a->before = vbv_check(c.s.bytes, c.s.length, q->mode, &report, sizeof report, a->records, pictures * sizeof *a->records,
                          &refusal, sizeof refusal);
    a->recorded = a->before == 0 ? pictures : 0;
    free(c.joined);
}

/* Of 25: the library tells no picture and no delay. */
static void place_delay(const struct question *q, struct place *p)
{
    place_picture(p, q->a, first_refused(q));
    if (p->in_picture)
        p->delay = coded_delay(q, p->picture);
}

static void place_refusal(const struct question *q)
{
    struct answer *a = q->a;
    struct place *p = &a->place;
    int of_headers = is_header_refusal(a->number) || a->number == VBV_CONSTANT_RATE;
    *p = (struct place){ .byte = q->s->length };
    if (is_header_refusal(a->number)) {
        place_header(q, p);
    } else if (a->number == VBV_FRAME_RATE || a->number == VBV_PARAMETER) {
        p->header = "sequence header";
        p->byte = a->look.sequence;
    } else if (a->number == VBV_VARIABLE_RATE) {
        place_picture(p, a, 0);
    } else if (a->number == VBV_CONSTANT_RATE) {
        place_delay(q, p);
    } else if (a->number >= VBV_EARLY && a->number <= VBV_DELAY_MISMATCH) {
        place_picture(p, a, tells_delays(a) ? (size_t)a->refusal.picture : first_refused(q));
        if (p->in_picture)
            measure(q, p);
    }
    if (q->records || of_headers)
        take_records(q);
    if (of_headers && a->recorded > 0)
        find_time(q, p);
}

static int list_pictures(const struct question *q)
{
    struct look same;
    q->a->shown = calloc(q->a->look.pictures + 1, sizeof *q->a->shown);
    if (q->a->shown == NULL)
        return 1;
    look(q->s, q->mode, &same, q->a->shown);
    return 0;
}

int ask(const struct stream *s, uint8_t mode, int records, struct answer *a)
{
    struct question q = { s, mode, standard_of(mode), records, a };
    memset(a, 0, sizeof *a);
    a->mode = mode;
    look(s, mode, &a->look, NULL);
    if (a->look.sequence < s->length)
        a->declared = declared_at(s, a->look.sequence, q.standard);
    if (records && ((a->records = calloc(a->look.pictures + 1, sizeof *a->records)) == NULL || list_pictures(&q) != 0))
        return 1;
    a->number = full_answer(s, a);
    a->recorded = records && a->number == 0 ? a->look.pictures : 0;
    if (a->number != 0) {
        if (a->shown == NULL && list_pictures(&q) != 0)
            return 1;
        place_refusal(&q);
    }
    return 0;
}

struct bits next_time(struct times *t)
{
    struct bits at = gained(t->a, delivered_first(t->a, t->a->records[0].delay), t->periods);
    t->periods += t->a->records[t->picture++].periods;
    return at;
}

int tells_delays(const struct answer *a)
{
    return a->number >= VBV_OVERFLOW && a->number <= VBV_DELAY_MISMATCH;
}

uint64_t data_bits(const struct answer *a, size_t picture)
{
    return BYTE * (a->shown[picture].end - (picture > 0 ? a->shown[picture - 1].end : 0));
}

void forget(struct answer *a)
{
    free(a->shown);
    free(a->records);
    a->shown = NULL;
    a->records = NULL;
}

const char *frame_rate(const struct declared *d, char *text)
{
    int length = snprintf(text, TEXT, "%" PRIu64, d->rate_over);
    if (d->rate_under > 1)
        snprintf(text + length, TEXT - (size_t)length, "/%" PRIu64, d->rate_under);
    return text;
}

const char *tenths(struct bits b, char *text)
{
    uint64_t tenth = (b.part * 10 + b.parts / 2) / b.parts;
    if (b.whole == 0 && tenth == 0)
        snprintf(text, TEXT, "less than 0.1");
    else
        snprintf(text, TEXT, "%" PRIu64 ".%" PRIu64, b.whole + tenth / 10, tenth % 10);
    return text;
}

const char *clock_time(struct bits at, uint64_t bit_rate, char *text)
{
    uint64_t milliseconds = at.whole / bit_rate * 1000 + (at.whole % bit_rate * 1000 + bit_rate / 2) / bit_rate;
    snprintf(text, TEXT, "%02" PRIu64 ":%02" PRIu64 ".%03" PRIu64, milliseconds / 60000, milliseconds / 1000 % 60,
             milliseconds % 1000);
    return text;
}

double in_bits(struct bits b)
{
    return (double)b.whole + (double)b.part / (double)b.parts;
}

double in_seconds(struct bits at, uint64_t bit_rate)
{
    return in_bits(at) / (double)bit_rate;
}
