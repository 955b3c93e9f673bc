#include "look.h"

#include "hipokuta.h"

static const struct field WIDTH = { 32, 12 }, HEIGHT = { 44, 12 }, ASPECT = { 56, 4 }, MARKER = { 82, 1 };
static const struct field LOAD_MATRIX = { 94, 1 }, LOAD_SECOND = { 95, 1 };
static const struct field WIDTH_EXTENSION = { 47, 2 }, HEIGHT_EXTENSION = { 49, 2 };
static const struct field EXTRA_BIT = { 61, 1 };

enum { MATRIX_BYTES = 64 };

/* Where the walk stands: outside of pictures, in a picture before its slices, or among them. */
enum stand { OUTSIDE, OPEN, SLICES };

struct walk {
    const struct stream *s;
    uint8_t mode;
    enum stand stand;
    struct look *l;
    struct shown *of;
};

/* Frames a second by frame_rate_code (Table 6-4), as numerator and denominator. */
static const struct {
    uint64_t over, under;
} rates[] = { { 0, 0 }, { 24000, 1001 }, { 24, 1 }, { 25, 1 }, { 30000, 1001 }, { 30, 1 }, { 50, 1 }, { 60000, 1001 }, { 60, 1 } };

/* A sequence header's rate is in units of 400 bits a second, its buffer in units of 16,384 bits. */
enum { RATE_UNIT = CBR_RATE_UNIT, BUFFER_UNIT = CBR_BUFFER_UNIT };

/* The prefix that follows a header which ends at byte `end`: zero bytes are passed over, and its own zeros may be the header's.
 * Returns where it begins; the length where there is none. */
static size_t prefix_after(const struct stream *s, size_t end)
{
    while (end < s->length && s->bytes[end] == 0)
        end++;
    int found = end + 1 < s->length && end >= 2 && s->bytes[end] == 1 && s->bytes[end - 1] == 0 && s->bytes[end - 2] == 0;
    return found ? end - 2 : s->length;
}

/* Bytes of the picture header at the front. */
static size_t picture_header_length(const struct stream *picture)
{
    uint32_t type = field_value(picture, PICTURE_CODING_TYPE);
    struct field extra = EXTRA_BIT;
    extra.at += type == P_PICTURE ? 4 : type == B_PICTURE ? 8 : 0;
    while (field_value(picture, extra) != 0)
        extra.at += 9;
    return (extra.at + 8) / 8;
}

/* The picture coding extension of the picture at the front; no bytes where there is none. */
static struct stream coding_extension(const struct stream *picture)
{
    size_t at = prefix_after(picture, picture_header_length(picture));
    struct stream extension = part(picture, at, picture->length);
    int found = code_at(&extension, 0) == EXTENSION && field_value(&extension, EXTENSION_ID) == PICTURE_CODING_EXTENSION;
    return found ? extension : part(picture, picture->length, picture->length);
}

uint8_t standard_of(uint8_t mode)
{
    return mode & (VBV_MPEG1 | VBV_MPEG2);
}

int counts_repeats(uint8_t mode)
{
    return (mode & VBV_FILM) != 0;
}

int is_variable(uint8_t mode)
{
    return (mode & VBV_VARIABLE) != 0;
}

struct facts facts_of(const struct stream *picture, uint8_t standard)
{
    uint32_t type = field_value(picture, PICTURE_CODING_TYPE);
    struct facts f = { type == I_PICTURE || type == P_PICTURE, 0, 0, 0 };
    struct stream extension = coding_extension(picture);
    if (standard == VBV_MPEG2 && extension.length > 0) {
        uint32_t structure = field_value(&extension, PICTURE_STRUCTURE);
        f.field = structure == TOP_FIELD || structure == BOTTOM_FIELD;
        f.repeats = (uint8_t)field_value(&extension, REPEAT_FIRST_FIELD);
        f.top = (uint8_t)field_value(&extension, TOP_FIELD_FIRST);
    }
    return f;
}

static struct shown shown_at(const struct walk *w, size_t at)
{
    struct stream picture = part(w->s, at, w->s->length);
    return (struct shown){ at, w->s->length, (uint8_t)field_value(&picture, PICTURE_CODING_TYPE),
                           facts_of(&picture, standard_of(w->mode)) };
}

static void begin_picture(struct walk *w, size_t at)
{
    struct look *l = w->l;
    l->last = shown_at(w, at);
    l->in_force = l->latest;
    l->last_slice = 0;
    l->early += l->sequence == w->s->length;
    l->flagged += l->last.facts.repeats;
    l->repeats += l->last.facts.repeats && !l->last.facts.field;
    l->pictures++;
    w->stand = OPEN;
}

static void end_picture(struct walk *w, size_t end)
{
    w->l->last.end = end;
    if (w->of != NULL)
        w->of[w->l->pictures - 1] = w->l->last;
    w->stand = OUTSIDE;
}

/* The two flags are read where repeated fields are counted. */
static int same_declared(struct declared a, struct declared b, uint8_t mode)
{
    int same_flags = a.progressive_sequence == b.progressive_sequence && a.low_delay == b.low_delay;
    return a.width == b.width && a.height == b.height && a.rate_over == b.rate_over && a.rate_under == b.rate_under &&
           a.bit_rate == b.bit_rate && a.buffer_bits == b.buffer_bits && (same_flags || !counts_repeats(mode));
}

static void take_sequence(struct walk *w, size_t at)
{
    struct look *l = w->l;
    uint8_t standard = standard_of(w->mode);
    l->latest = at;
    if (l->sequence == w->s->length) {
        l->sequence = at;
    } else if (!same_declared(declared_at(w->s, l->sequence, standard), declared_at(w->s, at, standard), w->mode)) {
        l->change = l->changes == 0 ? at : l->change;
        l->changes++;
    }
}

/* A code that is no slice. */
static void take_code(struct walk *w, int code, size_t at)
{
    if (w->stand == SLICES)
        end_picture(w, code == SEQUENCE_END ? at + CODE_BYTES : at);
    if (w->stand == OUTSIDE && code == PICTURE)
        begin_picture(w, at);
    else if (code == SEQUENCE)
        take_sequence(w, at);
    else if (code == SEQUENCE_END)
        w->l->end_code = at;
}

void look(const struct stream *s, uint8_t mode, struct look *l, struct shown *of)
{
    struct walk w = { s, mode, OUTSIDE, l, of };
    size_t none = s->length;
    *l = (struct look){ .sequence = none, .change = none, .latest = none, .in_force = none, .last_code = none, .end_code = none };
    l->first_code = next_code(s, 0);
    for (size_t at = l->first_code; at < s->length; at = next_code(s, at + CODE_BYTES)) {
        int code = s->bytes[at + 3];
        l->last_code = at;
        if (!is_slice(code)) {
            take_code(&w, code, at);
        } else if (w.stand != OUTSIDE) {
            w.stand = SLICES;
            l->last_slice = code;
        }
    }
    if (w.stand != OUTSIDE)
        end_picture(&w, s->length);
}

size_t sequence_length(const struct stream *s, size_t sequence, uint8_t standard)
{
    struct stream header = part(s, sequence, s->length);
    struct field second = LOAD_SECOND;
    size_t end = SEQUENCE_BYTES;
    if (field_value(&header, LOAD_MATRIX) != 0)
        end += MATRIX_BYTES;
    second.at += 8 * (end - SEQUENCE_BYTES);
    if (field_value(&header, second) != 0)
        end += MATRIX_BYTES;
    if (standard == VBV_MPEG2) {
        size_t extension = prefix_after(&header, end);
        end = extension < header.length ? extension + SEQUENCE_EXTENSION_BYTES : end;
    }
    return end < header.length ? end : header.length;
}

/* The frame rate: the code's times (n + 1) / (d + 1), in lowest terms. */
static void set_rate(struct declared *d)
{
    if (d->rate_code == 0 || d->rate_code >= sizeof rates / sizeof *rates)
        return;
    uint64_t over = rates[d->rate_code].over * (d->rate_n + 1), under = rates[d->rate_code].under * (d->rate_d + 1);
    uint64_t divisor = over;
    for (uint64_t rest = under; rest != 0;) {
        uint64_t next = divisor % rest;
        divisor = rest;
        rest = next;
    }
    d->rate_over = over / divisor;
    d->rate_under = under / divisor;
}

struct declared declared_at(const struct stream *s, size_t sequence, uint8_t standard)
{
    struct stream h = part(s, sequence, s->length);
    struct declared d = { field_value(&h, WIDTH), field_value(&h, HEIGHT), field_value(&h, FRAME_RATE_CODE), 0, 0, 0, 0,
                          field_value(&h, BIT_RATE), field_value(&h, VBV_BUFFER_SIZE), 0, 0 };
    size_t length = sequence_length(s, sequence, VBV_MPEG1), at = prefix_after(&h, length);
    struct stream x = part(&h, at, h.length);
    if (standard == VBV_MPEG2 && code_at(&x, 0) == EXTENSION && field_value(&x, EXTENSION_ID) == SEQUENCE_EXTENSION) {
        d.width |= field_value(&x, WIDTH_EXTENSION) << 12;
        d.height |= field_value(&x, HEIGHT_EXTENSION) << 12;
        d.bit_rate |= (uint64_t)field_value(&x, BIT_RATE_EXTENSION) << 18;
        d.buffer_bits |= (uint64_t)field_value(&x, VBV_BUFFER_SIZE_EXTENSION) << 10;
        d.rate_n = field_value(&x, FRAME_RATE_N);
        d.rate_d = field_value(&x, FRAME_RATE_D);
        d.progressive_sequence = (uint8_t)field_value(&x, PROGRESSIVE_SEQUENCE);
        d.low_delay = (uint8_t)field_value(&x, LOW_DELAY);
    }
    set_rate(&d);
    d.bit_rate *= RATE_UNIT;
    d.buffer_bits *= BUFFER_UNIT;
    return d;
}

int is_no_rate(uint32_t rate)
{
    uint32_t ones = (UINT32_C(1) << BIT_RATE.width) - 1;
    uint32_t all = (UINT32_C(1) << (BIT_RATE.width + BIT_RATE_EXTENSION.width)) - 1;
    return rate == 0 || rate == ones || rate == all;
}

struct cadence cadence_of(const struct declared *d, uint8_t mode)
{
    return (struct cadence){ .film = (uint8_t)counts_repeats(mode), .progressive = d->progressive_sequence,
                             .low_delay = d->low_delay };
}

/* The code that follows a header which ends at byte `end`, zero bytes between them passed over; -1 where none does. */
static int code_after(const struct stream *s, size_t end)
{
    size_t at = end < s->length ? prefix_after(s, end) : s->length;
    return at + CODE_BYTES <= s->length ? code_at(s, at) : -1;
}

int is_sound_sequence(const struct stream *s, size_t at)
{
    struct stream h = part(s, at, s->length);
    if (code_at(&h, 0) != SEQUENCE)
        return 0;
    uint32_t aspect = field_value(&h, ASPECT), rate = field_value(&h, FRAME_RATE_CODE);
    int code = code_after(&h, sequence_length(&h, 0, VBV_MPEG1));
    return field_value(&h, WIDTH) != 0 && field_value(&h, HEIGHT) != 0 && aspect != 0 && aspect != 15 && rate >= 1 && rate <= 8 &&
           field_value(&h, MARKER) == 1 && (code == EXTENSION || code == USER_DATA || code == GROUP || code == PICTURE);
}

int is_sound_picture(const struct stream *s, size_t at)
{
    struct stream p = part(s, at, s->length);
    if (code_at(&p, 0) != PICTURE || type_letter((uint8_t)field_value(&p, PICTURE_CODING_TYPE)) == '?')
        return 0;
    int code = code_after(&p, picture_header_length(&p));
    return coding_extension(&p).length > 0 || code == USER_DATA || code == FIRST_SLICE;
}

char type_letter(uint8_t type)
{
    return I_PICTURE <= type && type <= D_PICTURE ? " IPBD"[type] : '?';
}
