#include "caution.h"

#include <inttypes.h>
#include <stdarg.h>
#include <stdio.h>
#include <string.h>

/* Rows of a slice code's reach, past which it counts anew, and bytes of a group header. */
enum { ROW = 16, MOST_ROWS = LAST_SLICE, GROUP_BYTES = 8, PICTURE_BYTES = 8, CODING_EXTENSION_BYTES = 9 };

__attribute__((format(printf, 3, 4))) static void add(struct cautions *c, const char *name, const char *format, ...)
{
    if (c->count == MOST_CAUTIONS)
        return;
    struct caution *to = c->of + c->count++;
    va_list values;
    to->name = name;
    va_start(values, format);
    vsnprintf(to->words, sizeof to->words, format, values);
    va_end(values);
}

/* What two sequence headers declare otherwise, in words; the last two where the mode reads them. */
static const char *changed(const struct declared *a, const struct declared *b, uint8_t mode, char *text, size_t room)
{
    int film = counts_repeats(mode);
    const char *names[] = { a->bit_rate != b->bit_rate ? "rate" : NULL, a->buffer_bits != b->buffer_bits ? "buffer" : NULL,
                            a->width != b->width || a->height != b->height ? "size" : NULL,
                            a->rate_over != b->rate_over || a->rate_under != b->rate_under ? "frame rate" : NULL,
                            film && a->progressive_sequence != b->progressive_sequence ? "progressive_sequence" : NULL,
                            film && a->low_delay != b->low_delay ? "low_delay" : NULL };
    size_t length = 0;
    for (size_t i = 0; i < sizeof names / sizeof *names; i++)
        if (names[i] != NULL && length < room)
            length += (size_t)snprintf(text + length, room - length, "%s%s", length > 0 ? ", " : "", names[i]);
    return text;
}

/* Of what a byte is counted: of the file, or of the video out of a container. */
static const char *of_what(const struct input *in)
{
    return in->about[0] != 0 ? " of the video" : "";
}

static void of_headers(const struct input *in, uint8_t standard, const struct answer *a, struct cautions *c)
{
    const struct stream *s = &in->stream;
    const struct look *l = &a->look;
    char text[80] = "";
    if (l->first_code > 0 && l->first_code < s->length)
        add(c, "bytes before the first start code", "Bytes before the first start code: %zu. They count as the first picture's "
            "data.", l->first_code);
    if (l->early > 0)
        add(c, "pictures before the first sequence header", "Pictures before the first sequence header, at byte %zu%s: %zu of "
            "%zu. A set cannot show them.", l->sequence, of_what(in), l->early, l->pictures);
    if (l->changes > 0) {
        struct declared later = declared_at(s, l->change, standard);
        add(c, "another sequence header", "Later sequence headers that declare something else: %zu, the first at byte %zu%s "
            "(%s). This check reads only the stream's first.", l->changes, l->change, of_what(in),
            changed(&a->declared, &later, a->mode, text, sizeof text));
    }
}

static void of_pictures(const struct answer *a, struct cautions *c)
{
    const struct look *l = &a->look;
    if (spoils_model(a))
        add(c, "repeated fields", "Pictures that repeat a field: %zu of %zu. This check does not read that: a set may remove what "
            "follows later than here, and %s. --film counts them.", l->repeats, l->pictures,
            is_variable(a->mode) ? "then has more time to fill its buffer" : "then its buffer may overflow");
}

/* A constant rate that nobody means is refused sooner or later; a variable one is only what the buffer is filled at. */
static void of_rate(const struct answer *a, struct cautions *c)
{
    uint64_t rate = a->declared.bit_rate;
    if (is_variable(a->mode) && is_no_rate((uint32_t)(rate / CBR_RATE_UNIT)))
        add(c, "no rate named", "The sequence header's rate is all ones, as encoders write that name none. This check takes it as "
            "%" PRIu64 " bits a second, and says little more than that each picture fits the buffer.", rate);
}

/* Bytes that the header at the stream's end must have at least; 0 for a code that is none. */
static size_t least_bytes(const struct stream *header)
{
    switch (code_at(header, 0)) {
    case PICTURE:
        return PICTURE_BYTES;
    case SEQUENCE:
        return SEQUENCE_BYTES;
    case GROUP:
        return GROUP_BYTES;
    case EXTENSION:
        return field_value(header, EXTENSION_ID) == SEQUENCE_EXTENSION ? SEQUENCE_EXTENSION_BYTES
               : field_value(header, EXTENSION_ID) == PICTURE_CODING_EXTENSION ? CODING_EXTENSION_BYTES
                                                                                : CODE_BYTES + 1;
    default:
        return 0;
    }
}

/* Rows of macroblocks in the last picture, where its slices must reach the last one: in a stream that says by its headers, too,
 * that it is MPEG-2. 0 where that cannot be told. */
static uint32_t rows(const struct input *in, uint8_t standard, const struct look *l)
{
    if (standard != VBV_MPEG2 || in->standard != VBV_MPEG2 || l->in_force == in->stream.length)
        return 0;
    uint32_t height = declared_at(&in->stream, l->in_force, standard).height;
    uint32_t lines = l->last.facts.field ? (height + 1) / 2 : height, count = (lines + ROW - 1) / ROW;
    return count <= MOST_ROWS ? count : 0;
}

/* Whether anything but zero bytes follows the last sequence end code. */
static int goes_on(const struct stream *s, size_t end_code)
{
    size_t at = end_code + CODE_BYTES;
    while (at < s->length && s->bytes[at] == 0)
        at++;
    return at < s->length;
}

/* What tells that the stream's end is not its maker's. */
static void of_end(const struct input *in, uint8_t standard, const struct look *l, struct cautions *c)
{
    const struct stream *s = &in->stream;
    struct stream last = part(s, l->last_code, s->length);
    uint32_t all = rows(in, standard, l);
    int open = s->length >= 3 && memcmp(s->bytes + s->length - 3, "\0\0\1", 3) == 0;
    if (open)
        add(c, "cut in a start code", "The stream ends inside a start code: it is cut off.");
    else if (last.length < least_bytes(&last))
        add(c, "cut in a header", "The stream ends inside a header, at byte %zu%s: it is cut off.", l->last_code, of_what(in));
    else if (l->pictures > 0 && l->last_slice == 0)
        add(c, "cut in a picture", "The last picture, at byte %zu%s, has no slice: it is cut off.", l->last.at, of_what(in));
    else if (l->pictures > 0 && (uint32_t)l->last_slice < all)
        add(c, "cut in a picture", "The last picture, at byte %zu%s, has slices only up to row %d of %u: it is cut off.",
            l->last.at, of_what(in), l->last_slice, (unsigned)all);
    else if (l->end_code == s->length || l->end_code < l->last.at)
        add(c, "no sequence end", "No sequence end code stands at the end: whether the last picture is whole cannot be told.");
    else if (goes_on(s, l->end_code))
        add(c, "bytes after the sequence end", "Bytes after the last sequence end code, at byte %zu%s: %zu. They are no "
            "picture's, and this check does not count them.", l->end_code, of_what(in), s->length - l->end_code - CODE_BYTES);
}

/* What the user said against what the headers say. */
static void of_standard(const struct input *in, uint8_t standard, struct cautions *c)
{
    if (in->standard != 0 && in->standard != standard)
        add(c, "other standard", "Its headers say MPEG-%d, and it is judged as MPEG-%d, as -%d asks. Leave that out to have it "
            "judged by its headers.", in->standard, standard, standard);
}

int spoils_model(const struct answer *a)
{
    return a->look.repeats > 0 && !counts_repeats(a->mode);
}

void find_cautions(const struct input *in, uint8_t standard, const struct answer *a, struct cautions *c)
{
    c->count = 0;
    if (in->damaged > 0)
        add(c, "damaged container", "Packets of the container that are damaged, or follow a lost one: %zu. Bytes of the video are "
            "missing or wrong.", in->damaged);
    of_standard(in, standard, c);
    of_headers(in, standard, a, c);
    of_pictures(a, c);
    of_rate(a, c);
    of_end(in, standard, &a->look, c);
}
