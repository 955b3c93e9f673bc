#include "channel.h"
#include "places.h"
#include "stream.h"

#include <stdlib.h>
#include <string.h>

/* Room for any picture of a buffer of 20 units. */
enum { OUT = 20 * CBR_BUFFER_UNIT / 8 };

uint8_t layers[3][3][FLAGS][MOST_BYTES], later[MOST_BYTES];

void is(const char *name, uint64_t value, uint64_t expected)
{
    if (value != expected)
        fail(name, "not so");
}

/* The bytes of the digits, then bytes of no start code. */
static void fill(uint8_t *bytes, const char *hex)
{
    size_t length;
    uint8_t *start = bytes_of(hex, &length);
    memset(bytes, 0x40, MOST_BYTES);
    memcpy(bytes, start, length);
    free(start);
}

/* A layer with each of its flags: they stand in the byte before the coding extension's last. */
static void fill_layer(uint8_t kind, uint8_t interval, const char *hex)
{
    size_t at = strlen(hex) / 2 - strlen("80" SLICE) / 2 - 1;
    for (int flags = 0; flags < FLAGS; flags++) {
        fill(layers[kind][interval][flags], hex);
        layers[kind][interval][flags][at] |= (uint8_t)((flags & REPEATS ? 0x02 : 0) | (flags & TOP_FIRST ? 0x80 : 0));
    }
}

void prepare(void)
{
    fill_layer(CBR_I, CBR_FRAME, I_FFFF FRAME);
    fill_layer(CBR_P, CBR_FRAME, P_FFFF FRAME);
    fill_layer(CBR_B, CBR_FRAME, B_FFFF FRAME);
    fill_layer(CBR_I, CBR_FIELD, I_FFFF TOP);
    fill_layer(CBR_P, CBR_FIELD, P_FFFF BOTTOM);
    fill_layer(CBR_B, CBR_FIELD, B_FFFF TOP);
    fill(later, GROUP "000001B2");
}

static void words_of(const uint8_t *bytes, uint64_t *words, size_t count)
{
    memset(words, 0, 8 * count);
    for (size_t i = 0; i < 8 * count; i++)
        words[i / 8] |= (uint64_t)bytes[i] << 8 * (i % 8);
}

uint64_t create(const struct config *c, uint8_t *state, size_t length)
{
    return cbr_create(c->rate, c->buffer, c->code, c->quantiser, c->between, c->anchors, state, length);
}

void say_frame_rate(struct channel *c, unsigned code, unsigned n, unsigned d)
{
    const uint64_t *rate = frame_rates[code <= 8 ? code : 0];
    c->headers[7] = (uint8_t)(0x10 | code);
    c->headers[21] = (uint8_t)((c->headers[21] & 0x80) | n << 5 | d);
    c->declared[FRN] = rate[0] * (n + 1);
    c->declared[FRD] = rate[1] * (d + 1);
}

void say_sequence(struct channel *c, uint8_t progressive, uint8_t low_delay)
{
    c->headers[17] = (uint8_t)((c->headers[17] & 0xF7) | progressive << 3);
    c->headers[21] = (uint8_t)((c->headers[21] & 0x7F) | low_delay << 7);
    c->progressive = progressive;
    c->low_delay = low_delay;
}

/* A channel of the writer in these bytes, with first headers that say what it was created with. */
static struct channel *channel_of(const uint8_t *state, const uint64_t *words)
{
    struct channel *c = calloc(1, sizeof *c);
    if (c == NULL)
        exit(2);
    words_of(state, c->state, STATE_WORDS);
    fill(c->headers, SEQUENCE EXTENSION GROUP "000001B2");
    uint32_t fields = (uint32_t)words[WANTED_RATE] << 14 | 1 << 13 | (uint32_t)words[WANTED_BUFFER] << 3;
    for (int i = 0; i < 4; i++)
        c->headers[8 + i] = (uint8_t)(fields >> (24 - 8 * i));
    c->declared[RATE] = 400 * words[WANTED_RATE];
    c->declared[BUFFER] = 16384 * words[WANTED_BUFFER];
    say_frame_rate(c, (unsigned)words[WANTED_CODE], (unsigned)words[WANTED_N], (unsigned)words[WANTED_D]);
    return c;
}

struct channel *open_channel(const struct config *config)
{
    uint64_t words[CONFIG_WORDS] = { 2, config->rate, config->buffer, config->code, 0, 0 };
    uint8_t *state = memory(CBR_STATE_BYTES);
    answered("a new writer", create(config, state, CBR_STATE_BYTES), 0);
    struct channel *c = channel_of(state, words);
    free(state);
    return c;
}

struct channel *open_configured(const uint64_t *words)
{
    uint8_t *state = memory(CBR_STATE_BYTES);
    struct place config = lend(CBR_CONFIG_BYTES);
    expect_words(&config, words, CONFIG_WORDS);
    memcpy(config.bytes, config.expected, CBR_CONFIG_BYTES);
    answered("a new writer", cbr_create_config(config.bytes, CBR_CONFIG_BYTES, state, CBR_STATE_BYTES), 0);
    take_back(&config, "a new writer", "the configuration has changed");
    struct channel *c = channel_of(state, words);
    free(state);
    return c;
}

struct offer flagged(const struct channel *c, uint8_t kind, uint8_t interval, uint8_t flags, size_t length)
{
    struct offer o = { .state_length = CBR_STATE_BYTES, .headers = later, .are = PLAIN, .kind = kind, .interval = interval,
                       .repeats = (flags & REPEATS) != 0, .top = (flags & TOP_FIRST) != 0,
                       .layer = layers[kind][interval][flags], .layer_length = length, .layer_fits = 1, .out_length = OUT,
                       .answer_length = CBR_ANSWER_BYTES };
    if (!c->state[STARTED]) {
        o.headers = c->headers;
        o.headers_length = 30;
        o.are = FIRST;
        memcpy(o.declared, c->declared, sizeof o.declared);
        o.progressive = c->progressive;
        o.low_delay = c->low_delay;
    }
    return o;
}

struct offer picture(const struct channel *c, uint8_t kind, uint8_t interval, size_t length)
{
    return flagged(c, kind, interval, 0, length);
}

struct offer frame(const struct channel *c, uint8_t kind, size_t length)
{
    return picture(c, kind, CBR_FRAME, length);
}

static struct place copy_of(const uint8_t *bytes, size_t length)
{
    struct place p = lend(length);
    if (length > 0) {
        memcpy(p.bytes, bytes, length);
        memcpy(p.expected, bytes, length);
    }
    return p;
}

/* The state's bytes, as many as there is room for. */
static struct place lend_state(const uint64_t *words, size_t length)
{
    struct place whole = lend(length < CBR_STATE_BYTES ? CBR_STATE_BYTES : length);
    expect_words(&whole, words, STATE_WORDS);
    struct place p = copy_of(whole.expected, length);
    free(whole.bytes);
    free(whole.expected);
    return p;
}

/* What an output part holds once the picture is placed there. */
static void expect_placed(struct place *out, const struct offer *o, const uint64_t *answer)
{
    uint8_t *next = out->expected;
    if (o->headers_length > 0)
        memcpy(next, o->headers, o->headers_length);
    next += o->headers_length;
    memcpy(next, o->layer, o->layer_length);
    vbv_patch_delay(next, o->layer_length, (uint16_t)answer[DELAY]);
    next += o->layer_length;
    memset(next, 0, answer[ZEROS]);
    if (o->last)
        memcpy(next + answer[ZEROS], "\0\0\1\xB7", 4);
}

/* What was handed out, after what was before. */
static void keep(struct channel *c, const struct told *t, const uint8_t *out)
{
    const uint64_t *answer = t->answer;
    if (answer[BYTES] > MOST_SENT - c->length || c->pictures == MOST_PICTURES)
        exit(2);
    c->periods[c->pictures] = t->periods;
    memcpy(c->placed[c->pictures++], answer, 8 * ANSWER_WORDS);
    memcpy(c->sent + c->length, out, answer[BYTES]);
    c->length += answer[BYTES];
}

struct told offer(const char *name, struct channel *c, const struct offer *o)
{
    struct told t = rules_offer(c->state, o);
    int placed = t.number == 0 && t.answer[OUTCOME] == CBR_PLACED;
    struct place headers = copy_of(o->headers, o->headers_length), layer = copy_of(o->layer, o->layer_length);
    struct place state = lend_state(c->state, o->state_length), out = lend(o->out_length), answer = lend(o->answer_length);
    if (o->state_length >= CBR_STATE_BYTES)
        expect_words(&state, t.state, STATE_WORDS);
    if (o->answer_length >= CBR_ANSWER_BYTES)
        expect_words(&answer, t.answer, ANSWER_WORDS);
    if (placed)
        expect_placed(&out, o, t.answer);
    answered(name,
             cbr_offer(state.bytes, state.length, headers.bytes, headers.length, o->kind, o->interval, o->last, layer.bytes,
                       layer.length, out.bytes, out.length, answer.bytes, answer.length),
             t.number);
    if (o->state_length >= CBR_STATE_BYTES)
        words_of(state.bytes, c->state, STATE_WORDS);
    if (placed)
        keep(c, &t, out.bytes);
    if (t.number == 19 && o->answer_length >= CBR_ANSWER_BYTES)
        is("a part of a buffer's bytes is enough", o->out_length < c->state[BUFFER] / 8, 1);
    take_back(&headers, name, "the headers have changed");
    take_back(&layer, name, "the layer has changed");
    take_back(&state, name, "the state");
    take_back(&out, name, "the output part");
    take_back(&answer, name, "the answer's place");
    return t;
}

void refused(const char *name, struct channel *c, struct offer o, uint64_t number)
{
    is(name, offer(name, c, &o).number, number);
}

void again(const char *name, struct channel *c, struct offer o, uint64_t quantiser)
{
    struct told t = offer(name, c, &o);
    is(name, t.number == 0 && t.answer[OUTCOME] == CBR_AGAIN && t.answer[QUANTISER] == quantiser, 1);
}

void placed(const char *name, struct channel *c, struct offer o, uint64_t quantiser, uint64_t stuffing)
{
    struct told t = offer(name, c, &o);
    is(name, t.number == 0 && t.answer[OUTCOME] == CBR_PLACED && t.answer[QUANTISER] == quantiser, 1);
    is(name, t.answer[ZEROS], stuffing);
}

void withdraw(const char *name, struct channel *c, size_t length)
{
    struct place state = lend_state(c->state, length);
    int holds = length >= CBR_STATE_BYTES && rules_fit(c->state);
    if (holds) {
        c->state[PENDING] = c->state[PENDING_Q] = 0;
        expect_words(&state, c->state, STATE_WORDS);
    }
    answered(name, cbr_withdraw(state.bytes, state.length), holds ? 0 : 12);
    take_back(&state, name, "the state");
}

void check_sent(const char *name, const struct channel *c)
{
    uint8_t report[VBV_REPORT_BYTES], refusal[VBV_REFUSAL_BYTES], *records = memory(VBV_RECORD_BYTES * MOST_PICTURES);
    uint64_t words[REPORT_WORDS], record[RECORD_WORDS];
    answered(name,
             vbv_check(c->sent, c->length, (uint8_t)c->state[MODE], report, sizeof report, records,
                       VBV_RECORD_BYTES * MOST_PICTURES, refusal, sizeof refusal),
             0);
    words_of(report, words, REPORT_WORDS);
    is(name, words[0] == c->state[RATE] && words[1] == c->state[BUFFER] && words[2] == c->pictures, 1);
    is(name, words[4] <= words[1], 1);
    for (size_t i = 0; i < c->pictures; i++) {
        words_of(records + VBV_RECORD_BYTES * i, record, RECORD_WORDS);
        is(name, record[0], c->placed[i][DELAY]);
        is(name, record[1], c->placed[i][DELAY]);
        is(name, record[2], 8 * c->placed[i][BYTES]);
        is(name, record[4], c->periods[i]);
    }
    free(records);
}

size_t check_least(const char *name, const struct channel *c)
{
    uint8_t report[VBV_REPORT_BYTES], refusal[VBV_REFUSAL_BYTES], *records = memory(VBV_RECORD_BYTES * MOST_PICTURES);
    uint8_t *shorter = memory(c->length);
    uint64_t words[REFUSAL_WORDS];
    size_t end = 0, stuffed = 0;
    for (size_t i = 0; i + 1 < c->pictures; i++) {
        end += c->placed[i][BYTES];
        if (c->placed[i][ZEROS] == 0)
            continue;
        memcpy(shorter, c->sent, end - 1);
        memcpy(shorter + end - 1, c->sent + end, c->length - end);
        answered(name,
                 vbv_check(shorter, c->length - 1, (uint8_t)c->state[MODE], report, sizeof report, records,
                           VBV_RECORD_BYTES * MOST_PICTURES, refusal, sizeof refusal),
                 9);
        words_of(refusal, words, REFUSAL_WORDS);
        is(name, words[1], i + 1);
        stuffed++;
    }
    free(shorter);
    free(records);
    return stuffed;
}
