#include "split.h"

#include <stdlib.h>
#include <string.h>

/* Zero bytes that a header or a slice may end in. */
enum { OWN_ZEROS = 2 };

/* What has been seen on the way through the stream. */
struct walk {
    const struct stream *s;
    size_t sequence;  /* the first sequence header; the stream's length before it */
    int open, slices; /* a picture is open, and has slices */
    int matrices;     /* a picture has brought quantiser matrices */
    int leaving_out;  /* a repeated sequence header */
    size_t taken;     /* headers that belong to a picture */
    size_t next;      /* the start code after the one that is taken */
    size_t pictures, headers; /* how many pictures and bytes of headers there is memory for */
};

/* Where the bytes of a code end that the next one follows: there, less the zero bytes before that but for `keep`. */
static size_t end_before(const struct stream *s, size_t at, size_t next, size_t keep)
{
    size_t end = next;
    while (end > at + CODE_BYTES && s->bytes[end - 1] == 0)
        end--;
    return next - end < keep ? next : end + keep;
}

/* A code's bytes without the zeros before the next. */
static struct stream unit_at(const struct stream *s, size_t at)
{
    return part(s, at, end_before(s, at, next_code(s, at + CODE_BYTES), 0));
}

/* The bytes of the code that is taken, with zeros that may be its own. */
static struct stream taken_unit(const struct walk *w, size_t at)
{
    return part(w->s, at, end_before(w->s, at, w->next, OWN_ZEROS));
}

/* The bits of a sequence header and of its extension that say rate and buffer. */
static uint8_t rate_and_buffer(const struct stream *unit, size_t i)
{
    if (code_at(unit, 0) == SEQUENCE)
        return field_bits(BIT_RATE, i) | field_bits(VBV_BUFFER_SIZE, i);
    if (field_value(unit, EXTENSION_ID) == SEQUENCE_EXTENSION)
        return field_bits(BIT_RATE_EXTENSION, i) | field_bits(VBV_BUFFER_SIZE_EXTENSION, i);
    return 0;
}

/* A byte of a part, with zeros after it. */
static uint8_t byte_at(const struct stream *s, size_t i)
{
    return i < s->length ? s->bytes[i] : 0;
}

static int same_unit(const struct stream *s, size_t a, size_t b)
{
    struct stream x = unit_at(s, a), y = unit_at(s, b);
    size_t length = x.length > y.length ? x.length : y.length;
    for (size_t i = 0; i < length; i++)
        if (((byte_at(&x, i) ^ byte_at(&y, i)) & ~rate_and_buffer(&x, i)) != 0)
            return 0;
    return 1;
}

/* The next extension that belongs to a sequence header, past user data; the stream's length where there is none. */
static size_t next_extension(const struct stream *s, size_t at)
{
    do
        at = next_code(s, at + CODE_BYTES);
    while (code_at(s, at) == USER_DATA);
    return code_at(s, at) == EXTENSION ? at : s->length;
}

/* Whether two sequence headers and their extensions say the same but for rate and buffer. */
static int same_sequence(const struct stream *s, size_t a, size_t b)
{
    while (a < s->length && b < s->length) {
        if (!same_unit(s, a, b))
            return 0;
        a = next_extension(s, a);
        b = next_extension(s, b);
    }
    return a == b;
}

/* Twice the memory, or some; NULL where there is none, and then the old stays. */
static void *grown(void *old, size_t *places, size_t size)
{
    size_t more = *places == 0 ? 1024 : 2 * *places;
    void *bytes = more > SIZE_MAX / size ? NULL : realloc(old, more * size);
    if (bytes != NULL)
        *places = more;
    return bytes;
}

/* Keeps bytes as headers. Returns 0, or 1 where memory does not suffice. */
static int keep(struct walk *w, struct pictures *p, const struct stream *bytes)
{
    while (p->headers == NULL || w->headers - p->headers_length < bytes->length) {
        uint8_t *more = grown(p->headers, &w->headers, 1);
        if (more == NULL)
            return 1;
        p->headers = more;
    }
    memcpy(p->headers + p->headers_length, bytes->bytes, bytes->length);
    p->headers_length += bytes->length;
    return 0;
}

/* Whether a code goes on with the open picture: extensions and user data before its slices, then slices. */
static int belongs(const struct walk *w, int code)
{
    return w->open && (is_slice(code) || (!w->slices && (code == EXTENSION || code == USER_DATA)));
}

static int take_picture(struct walk *w, struct pictures *p, size_t at)
{
    if (p->count == w->pictures) {
        struct picture *more = grown(p->of, &w->pictures, sizeof *more);
        if (more == NULL)
            return 1;
        p->of = more;
    }
    p->of[p->count++] = (struct picture){ w->taken, p->headers_length - w->taken, at, taken_unit(w, at).length };
    w->taken = p->headers_length;
    w->open = 1;
    w->slices = w->leaving_out = 0;
    return 0;
}

static void take_more(struct walk *w, struct pictures *p, size_t at)
{
    struct picture *open = p->of + p->count - 1;
    struct stream unit = taken_unit(w, at);
    open->layer_length = at + unit.length - open->layer;
    w->slices = is_slice(code_at(&unit, 0));
    w->matrices |= !w->slices && code_at(&unit, 0) == EXTENSION && field_value(&unit, EXTENSION_ID) == QUANT_MATRIX_EXTENSION;
}

/* A code outside of pictures: kept as a header, or left out. */
static int take_header(struct walk *w, struct pictures *p, size_t at)
{
    struct stream unit = taken_unit(w, at);
    int code = code_at(&unit, 0), first = code == SEQUENCE && w->sequence == w->s->length;
    w->open = 0;
    if (first)
        w->sequence = at;
    if (code == SEQUENCE)
        w->leaving_out = !first && !w->matrices && same_sequence(w->s, w->sequence, at);
    else if (code != EXTENSION && code != USER_DATA)
        w->leaving_out = 0;
    p->repeated += w->leaving_out && code == SEQUENCE;
    if (code == SEQUENCE_END) {
        p->ends++;
        p->after_ends += end_before(w->s, at, w->next, 0) - at - CODE_BYTES;
    }
    return w->leaving_out || code == SEQUENCE_END ? 0 : keep(w, p, &unit);
}

/* What no set can show, and so is left out: all before the first sequence header. */
static void count_lead(const struct walk *w, struct pictures *p)
{
    struct stream lead = part(w->s, 0, w->next);
    size_t zeros = 0;
    while (zeros < lead.length && lead.bytes[zeros] == 0)
        zeros++;
    if (zeros < lead.length && w->next < w->s->length) {
        p->before = lead.length;
        p->early = picture_codes(&lead);
    }
}

/* Takes what stands at a start code. Returns 0, or 1 where memory does not suffice. */
static int take(struct walk *w, struct pictures *p, size_t at)
{
    int code = code_at(w->s, at);
    if (code == PICTURE)
        return take_picture(w, p, at);
    if (!belongs(w, code))
        return take_header(w, p, at);
    take_more(w, p, at);
    return 0;
}

int split(const struct stream *s, struct pictures *p)
{
    struct walk w = { .s = s, .sequence = s->length, .next = find_code(s, SEQUENCE) };
    int failed = 0;
    *p = (struct pictures){ .of = NULL };
    count_lead(&w, p);
    while (!failed && w.next < s->length) {
        size_t at = w.next;
        w.next = next_code(s, at + CODE_BYTES);
        failed = take(&w, p, at);
    }
    return failed;
}

void release(struct pictures *p)
{
    free(p->of);
    free(p->headers);
}
