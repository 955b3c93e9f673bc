#include "sending.h"

#include "hipokuta.h"
#include "look.h"

#include <errno.h>
#include <stdlib.h>

/* What a placed picture may take: none takes more than the buffer. */
enum { PLACED_BYTES = CBR_MOST_BUFFER * (CBR_BUFFER_UNIT / 8) };

static struct stream kept(const struct source *in, size_t from, size_t length)
{
    return (struct stream){ in->pictures.headers + from, length };
}

struct stream headers_of(const struct source *in, size_t n)
{
    return kept(in, in->pictures.of[n].headers, in->pictures.of[n].headers_length);
}

struct stream layer_of(const struct source *in, size_t n)
{
    const struct picture *p = in->pictures.of + n;
    return part(&in->stream, p->layer, p->layer + p->layer_length);
}

int open_source(struct source *in)
{
    in->placed = malloc(PLACED_BYTES);
    begin_progress(&in->progress);
    return in->placed == NULL || split(&in->stream, &in->pictures) != 0;
}

void close_source(struct source *in)
{
    free(in->placed);
    release(&in->pictures);
}

/* A writer is created with what the header declares, and no entry reads that out of a stream: so it is looked for here, and
 * what is not there is refused here. Whether the header is a good one the library says, once it is offered. */
uint64_t find_sequence(struct source *in)
{
    if (in->pictures.headers_length == 0)
        return VBV_NO_SEQUENCE;
    struct stream all = kept(in, 0, in->pictures.headers_length);
    size_t at = find_code(&all, SEQUENCE);
    if (at == all.length)
        return VBV_NO_SEQUENCE;
    if (at + SEQUENCE_BYTES > all.length)
        return VBV_SHORT_HEADER;
    in->header = at;
    in->extension = next_code(&all, at + CODE_BYTES);
    if (code_at(&all, in->extension) != EXTENSION || in->extension + SEQUENCE_EXTENSION_BYTES > all.length)
        in->extension = all.length;
    return in->pictures.count == 0 ? VBV_NO_PICTURE : 0;
}

static uint32_t header_value(const struct source *in, struct field low, struct field high)
{
    struct stream header = kept(in, in->header, SEQUENCE_BYTES);
    struct stream extension = kept(in, in->extension, in->pictures.headers_length - in->extension);
    return field_value(&extension, high) << low.width | field_value(&header, low);
}

struct setting declared(const struct source *in)
{
    return (struct setting){ header_value(in, BIT_RATE, BIT_RATE_EXTENSION),
                             header_value(in, VBV_BUFFER_SIZE, VBV_BUFFER_SIZE_EXTENSION) };
}

/* Puts a setting into the first sequence header and its extension. */
static void declare(struct source *in, struct setting at)
{
    uint8_t *header = in->pictures.headers + in->header, *extension = in->pictures.headers + in->extension;
    set_field(header, BIT_RATE, at.rate);
    set_field(header, VBV_BUFFER_SIZE, at.buffer);
    if (in->extension < in->pictures.headers_length) {
        set_field(extension, BIT_RATE_EXTENSION, 0);
        set_field(extension, VBV_BUFFER_SIZE_EXTENSION, 0);
    }
}

/* Frames a second, as a sequence header and its extension say them. */
struct frame_rate {
    uint32_t code, n, d;
};

uint8_t mode_of(const struct source *in)
{
    return (uint8_t)(VBV_MPEG2 + (in->film ? VBV_FILM : 0) + (in->variable ? VBV_VARIABLE : 0));
}

/* Nothing can be encoded again here, so steering does not matter: any quantiser and targets will do. */
static uint64_t create_writer(uint8_t mode, struct setting at, struct frame_rate rate, struct cbr_state *w)
{
    struct cbr_config config = { mode, at.rate, at.buffer, rate.code, rate.n, rate.d, 31, 2, 5 };
    return cbr_create_config(&config, sizeof config, w, sizeof *w);
}

static uint64_t create(struct source *in, struct setting at, struct cbr_state *w)
{
    struct stream header = kept(in, in->header, SEQUENCE_BYTES);
    struct stream extension = kept(in, in->extension, in->pictures.headers_length - in->extension);
    struct frame_rate rate = { field_value(&header, FRAME_RATE_CODE), field_value(&extension, FRAME_RATE_N),
                               field_value(&extension, FRAME_RATE_D) };
    declare(in, at);
    return create_writer(mode_of(in), at, rate, w);
}

/* By the structure that the picture coding extension tells. */
static uint8_t interval_of(const struct stream *layer)
{
    struct stream extension = part(layer, next_code(layer, CODE_BYTES), layer->length);
    uint32_t structure = field_value(&extension, PICTURE_STRUCTURE);
    return structure == TOP_FIELD || structure == BOTTOM_FIELD ? CBR_FIELD : CBR_FRAME;
}

/* A type that is none of I, P and B is offered as I, for the library to refuse. */
static uint8_t kind_of(const struct stream *layer)
{
    uint32_t type = field_value(layer, PICTURE_CODING_TYPE);
    return type == P_PICTURE ? CBR_P : type == B_PICTURE ? CBR_B : CBR_I;
}

/* Offers a picture; where it is wanted again, offers it again as it is, until the library gives up. */
static uint64_t offer(const struct source *in, size_t n, struct cbr_state *w, struct cbr_answer *a)
{
    struct stream headers = headers_of(in, n), layer = layer_of(in, n);
    uint8_t last = n + 1 == in->pictures.count;
    uint64_t number;
    do
        number = cbr_offer(w, sizeof *w, headers.bytes, headers.length, kind_of(&layer), interval_of(&layer), last,
                           layer.bytes, layer.length, in->placed, PLACED_BYTES, a, sizeof *a);
    while (number == 0 && a->outcome == CBR_AGAIN);
    return number;
}

/* Bits delivered when the first picture is due, by the library: it places the smallest picture with the same headers, and its
 * check of that tells what the buffer holds at the removal. */
static uint64_t first_delivered(const struct source *in, struct cbr_state w)
{
    static const uint8_t smallest[] = { 0, 0, 1, PICTURE, 0, 8, 0, 0, 0, 0, 1, EXTENSION, 0x8F, 0xFF, 0xF3, 0x41, 0x80,
                                        0, 0, 1, 1 };
    struct stream headers = headers_of(in, 0);
    struct cbr_answer a;
    struct vbv_report report;
    struct vbv_record record = { .occupancy_before = 0 };
    struct vbv_refusal refusal;
    if (cbr_offer(&w, sizeof w, headers.bytes, headers.length, CBR_I, CBR_FRAME, 1, smallest, sizeof smallest,
                  in->placed, PLACED_BYTES, &a, sizeof a) == 0 && a.outcome == CBR_PLACED)
        vbv_check(in->placed, a.bytes, mode_of(in), &report, sizeof report, &record, sizeof record,
                  &refusal, sizeof refusal);
    return record.occupancy_before;
}

/* Bytes by which picture n, with the end code after the last, ends beyond what is delivered when it is due. */
static uint64_t bytes_over(const struct source *in, size_t n, const struct cbr_state *w)
{
    uint64_t end_code = n + 1 == in->pictures.count ? CODE_BYTES : 0;
    uint64_t end = w->prev_end_bits + 8 * (headers_of(in, n).length + layer_of(in, n).length + end_code);
    uint64_t delivered = w->started ? w->whole : first_delivered(in, *w);
    return end > delivered ? (end - delivered + 7) / 8 : 0;
}

/* Sends pictures from the first on, so many at most. */
static struct sending send_some(struct source *in, struct setting at, FILE *to, size_t most)
{
    struct cbr_state w;
    struct cbr_answer a;
    struct sending end = { .number = create(in, at, &w) };
    while (end.number == 0 && end.picture < most) {
        end.number = offer(in, end.picture, &w, &a);
        if (end.number != 0)
            break;
        if (to != NULL && fwrite(in->placed, 1, a.bytes, to) != a.bytes) {
            end.unwritten = errno;
            break;
        }
        end.bytes += a.bytes;
        end.stuffing = w.stuffing_bytes;
        show_progress(&in->progress, ++end.picture, in->pictures.count);
    }
    end.bytes_over = end.number == CBR_TOO_LARGE ? bytes_over(in, end.picture, &w) : 0;
    return end;
}

struct sending send_all(struct source *in, struct setting at, FILE *to)
{
    return send_some(in, at, to, in->pictures.count);
}

struct sending send_first(struct source *in)
{
    return send_some(in, (struct setting){ CBR_MOST_RATE, CBR_MOST_BUFFER }, NULL, 1);
}

/* By the library: which is the largest at a constant rate does not depend on film, frame rate and quantiser. */
uint32_t most_buffer(uint32_t rate)
{
    struct cbr_state w;
    uint32_t buffer = CBR_MOST_BUFFER;
    while (buffer > 0 && create_writer(VBV_MPEG2, (struct setting){ rate, buffer }, (struct frame_rate){ 3, 0, 0 }, &w) != 0)
        buffer--;
    return buffer;
}

int is_of_setting(uint64_t number)
{
    return number == VBV_EARLY || number == VBV_OVERFLOW || number == VBV_PARAMETER || number == CBR_TOO_LARGE
        || number == CBR_STUFFING;
}

size_t repeating(const struct source *in)
{
    size_t count = 0;
    for (size_t n = 0; n < in->pictures.count; n++) {
        struct stream layer = layer_of(in, n);
        struct stream extension = part(&layer, next_code(&layer, CODE_BYTES), layer.length);
        count += code_at(&extension, 0) == EXTENSION && field_value(&extension, EXTENSION_ID) == PICTURE_CODING_EXTENSION
            && field_value(&extension, REPEAT_FIRST_FIELD) != 0;
    }
    return count;
}

/* A search for the least value that carries the stream: the values that it may still be, and whether one below or above
 * these was tried. */
struct search {
    uint32_t low, high, step;
    int below, above;
};

/* Away from the first value by steps that double, until there is one on either side; then by halves. */
static uint32_t next_try(struct search *s)
{
    uint32_t span = s->high - s->low, step = s->step - 1 < span ? s->step - 1 : span;
    if (s->below && s->above)
        return s->low + span / 2;
    s->step *= 2;
    return s->below ? s->low + step : s->high - step;
}

/* What a trial tells of the values below and above. Only the refusal too_high asks for a lower one. */
static void narrow(struct search *s, uint32_t tried, uint64_t number, uint64_t too_high)
{
    if (number == 0 || number == too_high) {
        s->high = tried - 1;
        s->above = 1;
    } else {
        s->low = tried + 1;
        s->below = 1;
    }
}

/* What is looked for, where to begin, the most that it may be, and the only refusal that asks for less. */
struct aim {
    enum { A_RATE, A_BUFFER, BOTH } what;
    uint32_t likely, most;
    uint64_t too_high;
};

/* With both the buffer is no larger than a constant rate fills in the longest delay, 65,534 ticks of 1/90,000 s. */
static struct setting with(const struct source *in, const struct aim *aim, struct setting at, uint32_t value)
{
    uint64_t filled = (uint64_t)value * CBR_RATE_UNIT * 65534 / 90000 / CBR_BUFFER_UNIT;
    int is_cut = aim->what == BOTH && !in->variable && filled < at.buffer;
    if (aim->what == A_BUFFER)
        return (struct setting){ at.rate, value };
    return (struct setting){ value, is_cut ? (uint32_t)filled : at.buffer };
}

static struct trial least(struct source *in, struct setting at, struct aim aim)
{
    struct search s = { .low = 1, .high = aim.most, .step = 1 };
    struct trial found = { { 0, 0 }, { .number = VBV_PARAMETER } };
    for (uint32_t value = aim.likely; s.low <= s.high; value = s.low <= s.high ? next_try(&s) : 0) {
        struct trial tried = { with(in, &aim, at, value), { .number = 0 } };
        in->progress.tries++;
        tried.end = send_all(in, tried.at, NULL);
        if (!is_of_setting(tried.end.number))
            found = tried;
        if (!is_of_setting(tried.end.number) && tried.end.number != 0)
            break;
        narrow(&s, value, tried.end.number, aim.too_high);
    }
    in->progress.tries = 0;
    return found;
}

static uint32_t between(double value, uint32_t most)
{
    return value < 1 ? 1 : value > most ? most : (uint32_t)value;
}

/* The cadence that the first sequence header opens. */
static struct cadence opened(const struct source *in)
{
    struct stream all = kept(in, 0, in->pictures.headers_length);
    struct declared d = declared_at(&all, in->header, VBV_MPEG2);
    return cadence_of(&d, mode_of(in));
}

/* A rate near the least, to begin with: at it each picture would be whole when it is due, were there no stuffing. */
static uint32_t likely_rate(struct source *in, uint32_t buffer)
{
    struct cbr_state w;
    struct cadence cadence = opened(in);
    double bits = 0, seconds = 0, most = 0;
    if (create(in, (struct setting){ CBR_MOST_RATE, buffer }, &w) != 0)
        return 1;
    double before = (double)first_delivered(in, w), field = (double)w.frd / (double)(2 * w.frn);
    for (size_t n = 0; n < in->pictures.count; n++) {
        struct stream layer = layer_of(in, n);
        bits += 8.0 * (double)(headers_of(in, n).length + layer.length);
        if (n > 0 && bits - before > most * seconds)
            most = (bits - before) / seconds;
        seconds += lasts(&cadence, facts_of(&layer, VBV_MPEG2)) * field;
    }
    return between(most / CBR_RATE_UNIT + 1, CBR_MOST_RATE);
}

/* Too high is only a constant rate that brings more than the buffer from one picture to the next. */
struct trial least_rate(struct source *in, struct setting at)
{
    return least(in, at, (struct aim){ A_RATE, likely_rate(in, at.buffer), CBR_MOST_RATE, CBR_STUFFING });
}

struct trial least_of_both(struct source *in, uint32_t largest)
{
    struct setting at = { 0, largest };
    return least(in, at, (struct aim){ BOTH, likely_rate(in, largest), CBR_MOST_RATE, CBR_STUFFING });
}

/* Too large is only a buffer that a constant rate takes longer to fill than a delay can say. */
struct trial least_buffer(struct source *in, struct setting at)
{
    return least(in, at, (struct aim){ A_BUFFER, between(at.buffer, CBR_MOST_BUFFER), CBR_MOST_BUFFER, VBV_PARAMETER });
}
