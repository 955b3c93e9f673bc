/* Calls cbr_create_config as C firmware would, and the other entries on what it made: every refusal in its order, words far out
 * of range, lengths and places of all sorts, all 1,024 frame rates, and streams whose header says the writer's rate by another
 * code, n and d. rules.h says what each call must answer and leave; the cases here say what that must come to. Exit status 1:
 * something differs. */
#include "channel.h"
#include "places.h"

#include <stdlib.h>
#include <string.h>

/* 1,000,000 bits a second, buffer 327,680 bits, 25 frames. */
static const uint64_t usual[CONFIG_WORDS] = { 2, 2500, 20, 3, 0, 0, 10, 2, 4 };

static void copy(uint64_t *to, const uint64_t *from)
{
    memcpy(to, from, 8 * CONFIG_WORDS);
}

/* ---- one creation */

/* Lent lengths, and how far from an even address; a configuration's bytes after the words are of some sort. */
struct lengths {
    size_t config, state, shift;
};

/* The bytes of a place from the shift on: none where it ends there. */
static uint8_t *from(const struct place *p, size_t shift)
{
    return p->length > 0 ? p->bytes + shift : NULL;
}

/* The words, as many of their bytes as the place has, from the shift on. */
static struct place lend_words(const uint64_t *words, size_t count, size_t length, size_t shift)
{
    struct place p = lend(length > 0 ? shift + length : 0);
    for (size_t i = 0; i < length && i < 8 * count; i++)
        p.bytes[shift + i] = p.expected[shift + i] = (uint8_t)(words[i / 8] >> 8 * (i % 8));
    return p;
}

/* The number, and every byte of both places. */
static void create_in(const char *name, const uint64_t *words, struct lengths of, uint64_t number)
{
    uint64_t made[STATE_WORDS] = { 0 };
    struct place config = lend_words(words, CONFIG_WORDS, of.config, of.shift);
    struct place state = lend(of.state > 0 ? of.shift + of.state : 0);
    uint64_t due = of.config < 72 ? 12 : of.state < 200 ? 19 : rules_create(words, made);
    is(name, due, number);
    if (due == 0)
        for (size_t i = 0; i < 8 * STATE_WORDS; i++)
            state.expected[of.shift + i] = (uint8_t)(made[i / 8] >> 8 * (i % 8));
    answered(name, cbr_create_config(from(&config, of.shift), of.config, from(&state, of.shift), of.state), due);
    take_back(&config, name, "the configuration has changed");
    take_back(&state, name, "the state's place");
}

/* With places of just their length. */
static void made(const char *name, const uint64_t *words, uint64_t number)
{
    create_in(name, words, (struct lengths){ 72, 200, 0 }, number);
}

/* One word another. */
static void made_with(const char *name, size_t word, uint64_t value, uint64_t number)
{
    uint64_t words[CONFIG_WORDS];
    copy(words, usual);
    words[word] = value;
    made(name, words, number);
}

/* ---- creations */

struct creation {
    const char *name;
    uint64_t words[CONFIG_WORDS], number, frn, frd, targets[3];
};

/* Some have two things wrong, and so show which comes first. */
static const struct creation creations[] = {
    { "25", { 2, 2500, 20, 3, 0, 0, 10, 2, 4 }, 0, 25, 1, { 118181, 47272, 26590 } },
    { "50 / 2, not reduced", { 2, 2500, 20, 6, 0, 1, 10, 2, 4 }, 0, 50, 2, { 118181, 47272, 26590 } },
    { "50 / 2 by n and d", { 2, 2500, 20, 3, 1, 1, 10, 2, 4 }, 0, 50, 2, { 118181, 47272, 26590 } },
    { "n is not d: 75 / 2", { 2, 2500, 20, 3, 2, 1, 10, 2, 4 }, 0, 75, 2, { 78785, 31514, 17726 } },
    { "d is not n: 50 / 3", { 2, 2500, 20, 3, 1, 2, 10, 2, 4 }, 0, 50, 3, { 177272, 70909, 39886 } },
    { "24000 / 1001 x 2 / 5", { 2, 2500, 20, 1, 1, 4, 10, 2, 4 }, 0, 48000, 5005, { 308070, 123228, 69315 } },
    { "the greatest numbers", { 2, 262143, 1023, 7, 3, 31, 31, 15, 255 }, 0, 240000, 32032, { 59269269, 23707707, 13335585 } },
    { "the least rate", { 2, 57, 1, 2, 0, 31, 1, 0, 1 }, 0, 24, 32, { 43428, 17371, 9771 } },
    { "a buffer that lasts too long", { 2, 56, 1, 3, 0, 0, 1, 0, 1 }, 12, 0, 0, { 0 } },
    { "above 65,534 ticks, not above 65,535", { 2, 8269, 147, 3, 3, 31, 10, 2, 4 }, 12, 0, 0, { 0 } },
    { "no code", { 2, 2500, 20, 0, 0, 0, 10, 2, 4 }, 6, 0, 0, { 0 } },
    { "code 9", { 2, 2500, 20, 9, 3, 31, 10, 2, 4 }, 6, 0, 0, { 0 } },
    { "code 259, which is not cut to 3", { 2, 2500, 20, 259, 0, 0, 10, 2, 4 }, 6, 0, 0, { 0 } },
    { "the code before the ratio", { 2, 56, 1, 9, 0, 0, 1, 0, 1 }, 6, 0, 0, { 0 } },
    { "n before the code", { 2, 2500, 20, 9, 4, 0, 10, 2, 4 }, 12, 0, 0, { 0 } },
    { "d before the code", { 2, 2500, 20, 9, 0, 32, 10, 2, 4 }, 12, 0, 0, { 0 } },
    { "a quantiser before the code", { 2, 2500, 20, 9, 0, 0, 0, 2, 4 }, 12, 0, 0, { 0 } },
    { "the mode before the code", { 1, 2500, 20, 9, 0, 0, 10, 2, 4 }, 12, 0, 0, { 0 } },
    { "MPEG-1", { 1, 2500, 20, 3, 0, 0, 10, 2, 4 }, 12, 0, 0, { 0 } },
    { "MPEG-1 and film", { 5, 2500, 20, 3, 0, 0, 10, 2, 4 }, 12, 0, 0, { 0 } },
    { "film", { 6, 2500, 20, 3, 0, 0, 10, 2, 4 }, 0, 25, 1, { 118181, 47272, 26590 } },
    { "film at 24000 / 1001 x 2 / 5", { 6, 2500, 20, 1, 1, 4, 10, 2, 4 }, 0, 48000, 5005, { 308070, 123228, 69315 } },
    { "film, code 9", { 6, 2500, 20, 9, 3, 31, 10, 2, 4 }, 6, 0, 0, { 0 } },
    { "film, a buffer that lasts too long", { 6, 56, 1, 3, 0, 0, 1, 0, 1 }, 12, 0, 0, { 0 } },
    { "variable", { 10, 2500, 20, 3, 0, 0, 10, 2, 4 }, 0, 25, 1, { 118181, 47272, 26590 } },
    { "variable film", { 14, 2500, 20, 3, 0, 0, 10, 2, 4 }, 0, 25, 1, { 118181, 47272, 26590 } },
    { "variable, code 9", { 10, 2500, 20, 9, 3, 31, 10, 2, 4 }, 6, 0, 0, { 0 } },
    { "variable, however long the buffer lasts", { 10, 56, 1, 3, 0, 0, 29, 2, 4 }, 0, 25, 1, { 2647, 1058, 595 } },
    { "variable film, the same", { 14, 56, 1, 3, 0, 0, 29, 2, 4 }, 0, 25, 1, { 2647, 1058, 595 } },
    { "not variable, the same", { 2, 56, 1, 3, 0, 0, 29, 2, 4 }, 12, 0, 0, { 0 } },
    { "film, the same", { 6, 56, 1, 3, 0, 0, 29, 2, 4 }, 12, 0, 0, { 0 } },
    { "variable, the longest buffer", { 10, 1, 1023, 3, 0, 0, 29, 2, 4 }, 0, 25, 1, { 47, 18, 10 } },
    { "MPEG-1 and variable", { 9, 2500, 20, 3, 0, 0, 10, 2, 4 }, 12, 0, 0, { 0 } },
    { "MPEG-1, film and variable", { 13, 2500, 20, 3, 0, 0, 10, 2, 4 }, 12, 0, 0, { 0 } },
    { "variable alone", { 8, 2500, 20, 3, 0, 0, 10, 2, 4 }, 12, 0, 0, { 0 } },
    { "2^32 + 2500, which is not cut to 2500", { 2, 4294969796, 20, 3, 0, 0, 10, 2, 4 }, 12, 0, 0, { 0 } },
    { "anchors 256", { 2, 2500, 20, 3, 0, 0, 10, 2, 256 }, 12, 0, 0, { 0 } },
    { "all zeros", { 0 }, 12, 0, 0, { 0 } },
};

static void check_figures(const struct creation *k)
{
    struct channel *c = open_configured(k->words);
    is(k->name, c->state[FRN] == k->frn && c->state[FRD] == k->frd, 1);
    is(k->name, memcmp(c->state + TARGETS, k->targets, sizeof k->targets) == 0, 1);
    is(k->name, c->state[RATE] == 400 * k->words[1] && c->state[BUFFER] == 16384 * k->words[2], 1);
    is(k->name, c->state[MODE] == k->words[0] && c->state[PROGRESSIVE] == 0 && c->state[OPEN_FIELD] == 0, 1);
    free(c);
}

/* A configuration too short comes first (12), then the state's place (19), then what the words say. */
static void check_creation(const struct creation *k)
{
    for (size_t more = 0; more < 30; more += 7)
        create_in(k->name, k->words, (struct lengths){ 72 + more, 200 + 2 * more, 0 }, k->number);
    for (size_t shift = 1; shift < 8; shift++)
        create_in(k->name, k->words, (struct lengths){ 72, 200, shift }, k->number);
    for (size_t length = 0; length < 200; length++)
        create_in(k->name, k->words, (struct lengths){ 72 + length % 3, length, length % 5 }, 19);
    for (size_t length = 0; length < 72; length++)
        for (size_t state = 0; state < 250; state += 50 + state % 4)
            create_in(k->name, k->words, (struct lengths){ length, state, length % 2 }, 12);
    create_in(k->name, k->words, (struct lengths){ 71, 199, 0 }, 12);
    create_in(k->name, k->words, (struct lengths){ 71, 200, 0 }, 12);
    if (k->number == 0)
        check_figures(k);
}

static int is_mode(uint64_t value)
{
    return value == 2 || value == 6 || value == 10 || value == 14;
}

/* The least and the greatest of each word; of the modes between these there are two. */
static const uint64_t ranges[CONFIG_WORDS][2] = { { 2, 14 }, { 1, 262143 }, { 1, 1023 }, { 1, 8 }, { 0, 3 }, { 0, 31 },
                                                  { 1, 31 }, { 0, 15 }, { 1, 255 } };

/* A word's value. With a code that is none it is 12 out of its range and 6 in it: so the range comes before the code, and the
 * code before the ratio. With the usual code what is out of range is 12 too. */
static void check_value(size_t word, uint64_t value)
{
    uint64_t words[CONFIG_WORDS];
    int fits = word == WANTED_MODE ? is_mode(value) : ranges[word][0] <= value && value <= ranges[word][1];
    copy(words, usual);
    words[word] = value;
    if (!fits)
        made("out of range", words, word == WANTED_CODE ? 6 : 12);
    if (word == WANTED_CODE)
        return;
    words[WANTED_CODE] = 9;
    made("a range before the code", words, fits ? 6 : 12);
    words[WANTED_CODE] = 259;
    made("a range before a code far above", words, fits ? 6 : 12);
}

/* At the bounds, beyond them, and far above: in range but for one bit. */
static void check_ranges(void)
{
    for (size_t word = 0; word < CONFIG_WORDS; word++) {
        uint64_t least = ranges[word][0], greatest = ranges[word][1];
        uint64_t values[] = { least, greatest, least - 1, greatest + 1, 0, 255, 256, 65535, 65536, UINT32_MAX, UINT64_MAX };
        for (size_t i = 0; i < COUNT(values); i++)
            check_value(word, values[i]);
        for (int bit = 1; bit < 64; bit++) {
            check_value(word, least + ((uint64_t)1 << bit));
            check_value(word, greatest + ((uint64_t)1 << bit));
            check_value(word, usual[word] + ((uint64_t)1 << bit));
        }
    }
}

static void check_modes(void)
{
    for (uint64_t mode = 0; mode < 300; mode++)
        made_with("a mode", WANTED_MODE, mode, is_mode(mode) ? 0 : 12);
}

static void check_rates(void)
{
    uint64_t words[CONFIG_WORDS];
    copy(words, usual);
    for (words[WANTED_CODE] = 1; words[WANTED_CODE] <= 8; words[WANTED_CODE]++)
        for (words[WANTED_N] = 0; words[WANTED_N] < 4; words[WANTED_N]++)
            for (words[WANTED_D] = 0; words[WANTED_D] < 32; words[WANTED_D]++)
                made("each frame rate", words, 0);
}

/* cbr_create is cbr_create_config with mode 2 and no extensions: the same number, the same bytes. */
static void check_same(uint32_t rate, uint16_t buffer, uint8_t code, uint8_t quantiser, uint8_t between, uint8_t anchors)
{
    uint64_t words[CONFIG_WORDS] = { 2, rate, buffer, code, 0, 0, quantiser, between, anchors }, state[STATE_WORDS];
    struct place config = lend_words(words, CONFIG_WORDS, 72, 0), one = lend(200), other = lend(200);
    uint64_t due = rules_create(words, state);
    if (due == 0)
        expect_words(&one, state, STATE_WORDS);
    answered("by arguments", cbr_create(rate, buffer, code, quantiser, between, anchors, one.bytes, 200), due);
    answered("by words", cbr_create_config(config.bytes, 72, other.bytes, 200), due);
    is("the same by arguments and by words", memcmp(one.bytes, other.bytes, 200) == 0, 1);
    memcpy(other.expected, one.expected, 200);
    take_back(&config, "by words", "the configuration has changed");
    take_back(&one, "by arguments", "the state's place");
    take_back(&other, "by words", "the state's place");
}

static void check_both(void)
{
    static const uint32_t rates[] = { 0, 57, 2500, 262143, 262144 };
    static const uint16_t buffers[] = { 0, 1, 20, 1023, 1024 };
    static const uint8_t quantisers[] = { 0, 1, 31, 32 }, between[] = { 0, 15, 16 }, anchors[] = { 0, 1, 255 };
    for (size_t i = 0; i < COUNT(rates) * COUNT(buffers) * COUNT(quantisers); i++)
        for (uint8_t code = 0; code < 10; code++)
            check_same(rates[i % COUNT(rates)], buffers[i / COUNT(rates) % COUNT(buffers)], code,
                       quantisers[i / (COUNT(rates) * COUNT(buffers))], between[(i + code) % 3], anchors[(i / 3 + code) % 3]);
    for (uint8_t code = 1; code <= 8; code++)
        for (uint8_t b = 0; b < 16; b++)
            check_same(2500, 20, code, 10, b, (uint8_t)(1 + 16 * b));
}

/* ---- one rate in many ways */

/* The eight ways to say 25 frames a second: code, n, d. */
static const unsigned ways[8][3] = { { 3, 0, 0 }, { 3, 1, 1 }, { 3, 2, 2 }, { 3, 3, 3 },
                                     { 6, 0, 1 }, { 6, 1, 3 }, { 6, 2, 5 }, { 6, 3, 7 } };

static struct channel *open_way(const unsigned way[3])
{
    uint64_t words[CONFIG_WORDS];
    copy(words, usual);
    for (int i = 0; i < 3; i++)
        words[WANTED_CODE + i] = way[i];
    return open_configured(words);
}

/* Frames and fields, some with stuffing after them, one that is wanted again, up to the end. */
static void send_some(struct channel *c)
{
    static const struct {
        uint8_t kind, interval;
        size_t length;
    } of[] = { { CBR_I, CBR_FRAME, 2000 }, { CBR_P, CBR_FRAME, 300 }, { CBR_B, CBR_FIELD, 100 }, { CBR_B, CBR_FIELD, 150 },
               { CBR_P, CBR_FRAME, 200 }, { CBR_B, CBR_FRAME, 150 }, { CBR_I, CBR_FIELD, 9000 }, { CBR_P, CBR_FIELD, 700 } };
    for (size_t i = 0; i < COUNT(of); i++) {
        struct offer o = picture(c, of[i].kind, of[i].interval, of[i].length);
        o.last = i + 1 == COUNT(of);
        is("a picture", offer("a picture", c, &o).answer[OUTCOME], CBR_PLACED);
        if (i == 6)
            again("too large", c, picture(c, CBR_P, CBR_FIELD, MOST_BYTES), 11);
    }
    is("all placed", c->pictures, COUNT(of));
}

/* What the check says of what was sent: the report, and the records. */
struct verdict {
    struct vbv_report report;
    struct vbv_record records[8];
};

static struct verdict judge(const struct channel *c)
{
    struct verdict v;
    struct vbv_refusal refusal;
    memset(&v, 0, sizeof v);
    answered("what was sent",
             vbv_check(c->sent, c->length, VBV_MPEG2, &v.report, sizeof v.report, v.records, sizeof v.records, &refusal,
                       sizeof refusal),
             0);
    return v;
}

/* Created in each way, offered in each: the same delays, bytes and stuffing, the same report and records, and the same stream
 * but for the header's own fields. */
static void check_ways(void)
{
    struct channel *first = open_way(ways[0]);
    send_some(first);
    struct verdict all = judge(first);
    is("stuffing", check_least("25 frames", first) > 1, 1);
    for (size_t i = 0; i < 64; i++) {
        const unsigned *header = ways[i % 8];
        struct channel *c = open_way(ways[i / 8]);
        say_frame_rate(c, header[0], header[1], header[2]);
        send_some(c);
        check_sent("one rate in two ways", c);
        struct verdict v = judge(c);
        is("the same report and records", memcmp(&v, &all, sizeof v) == 0, 1);
        is("the same answers", memcmp(c->placed, first->placed, sizeof c->placed) == 0, 1);
        is("the header's own rate", c->sent[7] == (0x10 | header[0]) && c->sent[21] == (header[1] << 5 | header[2]), 1);
        c->sent[7] = first->sent[7];
        c->sent[21] = first->sent[21];
        is("the same stream", c->length == first->length && memcmp(c->sent, first->sent, c->length) == 0, 1);
        is("the writer's own rate", c->state[FRN] / c->state[FRD] == 25 && c->state[FRN] % c->state[FRD] == 0, 1);
        free(c);
    }
    free(first);
}

/* Every code, n and d that a header can say, offered to a writer: those of its rate's value are placed and pass the check, all
 * others are 18. How many are placed. */
static size_t offer_all(const uint64_t *words)
{
    struct channel *c = open_configured(words);
    uint64_t fresh[STATE_WORDS];
    size_t fits = 0;
    memcpy(fresh, c->state, sizeof fresh);
    for (unsigned i = 0; i < 16 * 4 * 32; i++) {
        say_frame_rate(c, i / 128, i / 32 % 4, i % 32);
        struct offer o = frame(c, CBR_I, 23);
        o.last = 1;
        o.out_length = 57;
        if (i < 128)
            o.are = UNFIT; /* code 0 is no header */
        if (offer("each frame rate offered", c, &o).number == 0) {
            check_sent("each frame rate offered", c);
            fits++;
        }
        memcpy(c->state, fresh, sizeof fresh);
        c->length = c->pictures = 0;
    }
    free(c);
    return fits;
}

static void check_values(void)
{
    static const struct {
        unsigned way[3];
        size_t fits;
    } of[] = { { { 1, 0, 0 }, 7 }, { { 1, 1, 4 }, 3 }, { { 7, 3, 31 }, 8 }, { { 2, 0, 31 }, 1 }, { { 8, 3, 0 }, 1 },
               { { 5, 0, 0 }, 9 }, { { 4, 2, 30 }, 1 } };
    uint64_t words[CONFIG_WORDS];
    copy(words, usual);
    for (size_t i = 0; i < 8; i++) {
        for (int k = 0; k < 3; k++)
            words[WANTED_CODE + k] = ways[i][k];
        is("eight ways to say 25", offer_all(words), 8);
    }
    for (size_t i = 0; i < COUNT(of); i++) {
        for (int k = 0; k < 3; k++)
            words[WANTED_CODE + k] = of[i].way[k];
        is("the ways to say a rate", offer_all(words), of[i].fits);
    }
}

/* ---- courses at rates of no code's own */

static uint64_t draw(struct channel *c, uint64_t below)
{
    c->seed = c->seed * 6364136223846793005 + 1442695040888963407;
    return (c->seed >> 33) % below;
}

/* Frames and fields of all sizes up to what a frame's time brings, some far above it; some are withdrawn. */
static void run_course(struct channel *c, size_t steps)
{
    uint64_t most = c->state[RATE] * c->state[FRD] / c->state[FRN] / 8;
    for (size_t i = 0; i < steps; i++) {
        uint8_t kind = (uint8_t)(c->state[PENDING] != 0 ? c->state[PENDING] - 1 : draw(c, 3));
        uint8_t interval = (uint8_t)(1 + draw(c, 2));
        uint64_t length = 23 + draw(c, draw(c, 8) == 0 ? 40 * most : most);
        struct offer o = picture(c, kind, interval, (size_t)(length < MOST_BYTES ? length : MOST_BYTES));
        o.out_length = c->state[BUFFER] / 8;
        offer("a course", c, &o);
        if (draw(c, 4) == 0)
            withdraw("a course", c, CBR_STATE_BYTES);
    }
    withdraw("the end", c, CBR_STATE_BYTES);
    struct offer o = picture(c, CBR_B, CBR_FRAME, 60);
    o.last = 1;
    is("the end", offer("the end", c, &o).number, 0);
}

/* At 1,000,000 bits a second, where a byte less is under a tick. */
static void check_courses(void)
{
    static const struct {
        uint64_t words[CONFIG_WORDS];
        unsigned header[3];
        size_t steps, stuffed;
    } of[] = { { { 2, 2500, 20, 1, 1, 4, 10, 2, 4 }, { 7, 3, 24 }, 60, 5 },   /* 9600 / 1001 frames a second */
               { { 2, 2500, 2, 8, 3, 0, 10, 2, 4 }, { 8, 3, 0 }, 100, 5 },    /* 240 */
               { { 2, 2500, 40, 2, 0, 11, 1, 0, 1 }, { 8, 0, 29 }, 12, 3 },   /* 2 */
               { { 2, 2500, 20, 4, 2, 6, 31, 1, 9 }, { 4, 2, 6 }, 100, 5 } }; /* 90000 / 7007 */
    for (size_t i = 0; i < COUNT(of); i++) {
        struct channel *c = open_configured(of[i].words);
        say_frame_rate(c, of[i].header[0], of[i].header[1], of[i].header[2]);
        is("its own rate", c->declared[FRN] * c->state[FRD] == c->declared[FRD] * c->state[FRN], 1);
        c->seed = i;
        run_course(c, of[i].steps);
        check_sent("a course", c);
        is("pictures and stuffing", c->pictures > of[i].steps / 3 && check_least("a course", c) >= of[i].stuffed, 1);
        free(c);
    }
}

int main(void)
{
    static const uint8_t needed[] = { 0, 6, 12, 18, 19 };
    prepare();
    for (size_t i = 0; i < COUNT(creations); i++)
        check_creation(creations + i);
    check_ranges();
    check_modes();
    check_rates();
    check_both();
    check_ways();
    check_values();
    check_courses();
    return summary("configs", needed, COUNT(needed));
}
