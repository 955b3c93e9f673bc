/* Drawings for tests/draw:
 *
 *     drawings              the kinds of drawing there are, a line each
 *     drawings KIND         one of them, as an SVG
 *     drawings KIND list    what it is of: bits of the buffer, the time asked for, 1 if refused, bits a second, 1 at a variable
 *                           rate; then each removal's time, bits before and after, and type, the refused one last
 *     drawings FILE [list]  that of a file, which must be an MPEG-2 stream that is accepted; after "film:" one with repeated
 *                           fields counted, after "variable:" or "film:variable:" at a variable rate
 *
 * Exit status 2: bad use, or no such kind or stream. */
#include "hipokuta.h"
#include "plot.h"

#include <stdlib.h>
#include <string.h>

/* A kind: pictures that are made up, the refused one's bits before and after where words say so, and what is shown of them. */
struct kind {
    const char *id;
    size_t pictures;
    uint64_t bit_rate, buffer_bits;
    const char *mark;
    double before, after; /* in buffers; before may be 0 for what has arrived */
    double from, to;
    double level; /* in buffers, about what is held before an I picture */
    const char *name;
};

#define FOLDERS "recordings/2026-11-16/rack-07/channel-03/"
#define LONG_NAME FOLDERS FOLDERS FOLDERS FOLDERS "in-flight-entertainment.ts"
#define ODD_NAME "a<b>&'\"\n\x7F\xFF\xED\xA0\x80 ]]> \xC3\xBC\xE6\x98\xA0\xE7\x94\xBB\xF0\x9F\x8E\xAC"
#define OVERFLOW "overflow at byte 1,610,984: 3.1 bits more than the buffer holds. Bytes are lost and pictures smear."
#define UNDERFLOW "underflow: 81,920 bits are still to come when this picture is due. The picture freezes or breaks up."
#define MISMATCH "delay mismatch: coded 30,000, expected 27,350. A set that tunes in there starts too early or too late,\n" \
    "  and its buffer overflows or runs dry later. Stamp the delays anew, or send the stream with cbrsend, which writes them."
#define EARLY "position beyond delivered bits: the picture begins 12,000 bits after the time at which it is due."

static const struct kind kinds[] = {
    { "short", 50, 4000000, 1835008, NULL, 0, 0, 0, 0, .8, "short.m2v" },
    { "million", 100, 2000000, 1000000, NULL, 0, 0, 0, 0, .9, "million.m2v" },
    { "eight-digits", 120, 80000000, 47185920, NULL, 0, 0, 0, 0, .7, "eight-digits.m2v" },
    { "ten-digits", 120, 4000000000, 3221225472, NULL, 0, 0, 0, 0, .7, "ten-digits.m2v" },
    { "overflow", 66, 4000000, 1835008, OVERFLOW, 1.0000017, .95, 0, 0, .8, "overflow.m2v" },
    { "overflow-far", 66, 4000000, 1835008, OVERFLOW, 2.5, 2.4, 0, 0, .8, "overflow-far.m2v" },
    { "overflow-some", 66, 4000000, 1835008, OVERFLOW, 1.2, .9, 0, 0, .8, "overflow-some.m2v" },
    { "underflow", 40, 4000000, 1835008, UNDERFLOW, 0, -.045, 0, 0, .5, "underflow.m2v" },
    { "underflow-little", 40, 4000000, 1835008, UNDERFLOW, 0, -.0000001, 0, 0, .5, "underflow-little.m2v" },
    { "mismatch", 30, 4000000, 1835008, MISMATCH, 0, .6, 0, 0, .7, "mismatch.m2v" },
    { "early", 30, 4000000, 1835008, EARLY, 0, -3, 0, 0, .4, "early.m2v" },
    { "one", 1, 4000000, 1835008, NULL, 0, 0, 0, 0, .8, "one.m2v" },
    { "two", 2, 4000000, 1835008, NULL, 0, 0, 0, 0, .8, "two.m2v" },
    { "refused-first", 0, 4000000, 1835008, OVERFLOW, 1.1, .9, 0, 0, .8, "refused-first.m2v" },
    { "refused-second", 1, 4000000, 1835008, UNDERFLOW, 0, -.2, 0, 0, .8, "refused-second.m2v" },
    { "nothing", 0, 4000000, 1835008, NULL, 0, 0, 0, 0, .8, "nothing.m2v" },
    { "no-buffer", 0, 4000000, 0, OVERFLOW, 1, 0, 0, 0, .8, "no-buffer.m2v" },
    { "minute", 1500, 4000000, 1835008, NULL, 0, 0, 0, 0, .8, "minute.m2v" },
    { "half-minute", 750, 4000000, 1835008, NULL, 0, 0, 0, 0, .8, "half-minute.m2v" },
    { "two-minutes", 3000, 4000000, 1835008, NULL, 0, 0, 0, 0, .8, "two-minutes.m2v" },
    { "many", 100000, 4000000, 1835008, NULL, 0, 0, 0, 0, .8, "many.m2v" },
    { "many-refused", 90000, 4000000, 1835008, MISMATCH, 0, .6, 0, 0, .8, "many-refused.m2v" },
    { "many-closer", 100000, 4000000, 1835008, NULL, 0, 0, 600, 603.5, .8, "many-closer.m2v" },
    { "many-part", 100000, 4000000, 1835008, NULL, 0, 0, 600, 900, .8, "many-part.m2v" },
    { "many-end", 100000, 4000000, 1835008, NULL, 0, 0, 3999, 1e15, .8, "many-end.m2v" },
    { "between", 100, 4000000, 1835008, NULL, 0, 0, 1.53, 1.535, .8, "between.m2v" },
    { "instant", 100, 4000000, 1835008, NULL, 0, 0, 2, 2.0000001, .8, "instant.m2v" },
    { "empty-range", 100, 4000000, 1835008, NULL, 0, 0, 2, 2, .8, "empty-range.m2v" },
    { "beyond", 100, 4000000, 1835008, NULL, 0, 0, 100, 200, .8, "beyond.m2v" },
    { "from-only", 100, 4000000, 1835008, NULL, 0, 0, 3.07, 1e300, .8, "from-only.m2v" },
    { "refused-later", 200, 4000000, 1835008, MISMATCH, 0, .6, 2, 4, .8, "refused-later.m2v" },
    { "nearly-full", 300, 4000000, 1835008, NULL, 0, 0, 0, 0, 1, "nearly-full.m2v" },
    { "long-name", 50, 4000000, 1835008, NULL, 0, 0, 0, 0, .8, LONG_NAME },
    { "odd-name", 50, 4000000, 1835008, NULL, 0, 0, 0, 0, .8, ODD_NAME },
    { "variable", 60, 6000000, 1835008, NULL, 0, 0, 0, 0, 1, "variable.m2v" },
    { "variable-fast", 30, 104857200, 49152, NULL, 0, 0, 0, 0, 1, "variable-fast.m2v" },
    { "variable-part", 200, 6000000, 1835008, NULL, 0, 0, 2.01, 3.3, 1, "variable-part.m2v" },
    { "variable-underflow", 12, 6000000, 1835008, UNDERFLOW, 0, -.1, 0, 0, 1, "variable-underflow.m2v" },
    { "variable-many", 50000, 6000000, 1835008, NULL, 0, 0, 0, 0, 1, "variable-many.m2v" },
};

static int is_variable(const struct kind *k)
{
    return strncmp(k->id, "variable", 8) == 0;
}

static double least(double a, double b)
{
    return a < b ? a : b;
}

/* Pictures at 25 a second, each twelfth an I and each third a P picture, of sizes that keep the buffer within its bounds; at a
 * variable rate it waits while it is full. */
static void make_up(const struct kind *k, struct removal *of)
{
    static const char types[] = "IBBPBBPBBPBB";
    double arrives = (double)k->bit_rate / 25, full = (double)k->buffer_bits, held = full * k->level;
    uint32_t chance = 1;
    for (size_t n = 0; n < k->pictures; n++) {
        char type = types[n % 12];
        chance = chance * 1664525 + 1013904223;
        double data = arrives * (type == 'I' ? 4 : type == 'P' ? 1.4 : .42) * (.7 + .6 * (chance >> 8) / 0x1p24);
        double needed = is_variable(k) ? 0 : held + arrives - full;
        data = data < needed ? needed : data > held ? held : data;
        struct removal r = { full * k->level / (double)k->bit_rate + (double)n / 25, held, held - data, type, n };
        of[n] = r;
        held = is_variable(k) ? least(held + arrives - data, full) : held + arrives - data;
    }
}

static const char *const accepted = "MPEG-2, accepted", *const refused = "MPEG-2, refused";

/* Return the removals drawn; NULL where memory does not suffice, or the stream is not accepted. */
static struct removal *fill_kind(const struct kind *k, struct drawing *d)
{
    struct removal *of = calloc(k->pictures + 1, sizeof *of);
    if (of == NULL)
        return NULL;
    make_up(k, of);
    double full = (double)k->buffer_bits, rate = (double)k->bit_rate;
    struct removal last = { 0, 0, 0, 0, 0 };
    if (k->pictures > 0)
        last = of[k->pictures - 1];
    double before = k->before > 0 ? full * k->before : last.after + rate / 25;
    struct removal bad = { last.seconds + (before - last.after) / rate, before, full * k->after, 'P', k->pictures };
    if (is_variable(k))
        bad.before = least(before, full);
    struct drawing made = { k->name, k->mark != NULL ? refused : accepted, k->bit_rate, k->buffer_bits, "25", 0, is_variable(k),
                            of, k->pictures, k->mark, bad, k->from, k->to };
    *d = made;
    return of;
}

static size_t take_bytes(const char *name, uint8_t *bytes, size_t room)
{
    FILE *file = fopen(name, "rb");
    size_t length = file != NULL ? fread(bytes, 1, room, file) : 0;
    if (file != NULL)
        fclose(file);
    return length;
}

/* A field's time by the frame rate code at the stream's front, which must be a sequence header. */
static double field_time(const uint8_t *bytes)
{
    static const double rates[16] = { 1, 24000. / 1001, 24, 25, 30000. / 1001, 30, 50, 60000. / 1001, 60, 1, 1, 1, 1, 1, 1, 1 };
    return .5 / rates[bytes[7] & 15];
}

/* The records of a stream, as removals. A picture's type stands in its header, 10 bits after its start code. At a constant rate
 * the time is what arrives; at a variable one the buffer waits while it is full, so that it is by the periods. */
static void take_records(const struct vbv_report *report, const struct vbv_record *records, const uint8_t *bytes, size_t length,
                         int variable, struct removal *of)
{
    double seconds = (double)records[0].occupancy_before / (double)report->bit_rate;
    size_t n = 0;
    for (size_t at = 0; at + 6 <= length && n < report->pictures; at++) {
        if (memcmp(bytes + at, "\0\0\1\0", 4) != 0)
            continue;
        double before = (double)records[n].occupancy_before, after = before - (double)records[n].data_bits;
        struct removal r = { seconds, before, after, "?IPBD???"[bytes[at + 5] >> 3 & 7], n };
        of[n++] = r;
        if (n < report->pictures && variable)
            seconds += (double)records[n - 1].periods * field_time(bytes);
        else if (n < report->pictures)
            seconds += ((double)records[n].occupancy_before - after) / (double)report->bit_rate;
    }
}

static struct removal *fill_file(const char *word, struct drawing *d)
{
    int film = strncmp(word, "film:", 5) == 0;
    const char *name = film ? word + 5 : word;
    int variable = strncmp(name, "variable:", 9) == 0;
    name = variable ? name + 9 : name;
    uint8_t mode = (uint8_t)(VBV_MPEG2 + (film ? VBV_FILM : 0) + (variable ? VBV_VARIABLE : 0));
    enum { ROOM = 1 << 20, MOST = 10000 };
    struct vbv_report report;
    uint8_t refusal[VBV_REFUSAL_BYTES], *bytes = malloc(ROOM);
    struct vbv_record *records = calloc(MOST, sizeof *records);
    struct removal *of = calloc(MOST, sizeof *of);
    size_t length = bytes != NULL ? take_bytes(name, bytes, ROOM) : 0;
    int is_accepted = records != NULL && of != NULL &&
        vbv_check(bytes, length, mode, (uint8_t *)&report, sizeof report, (uint8_t *)records, MOST * sizeof *records,
                  refusal, sizeof refusal) == 0;
    if (is_accepted) {
        take_records(&report, records, bytes, length, variable, of);
        struct drawing made = { name, accepted, report.bit_rate, report.buffer_bits, "25", film, variable, of,
                                (size_t)report.pictures, NULL, { 0, 0, 0, 0, 0 }, 0, 0 };
        *d = made;
    } else {
        free(of);
    }
    free(records);
    free(bytes);
    return is_accepted ? of : NULL;
}

static void list(const struct drawing *d)
{
    printf("%llu %.17g %.17g %d %llu %d\n", (unsigned long long)d->buffer_bits, d->from, d->to, d->mark != NULL,
           (unsigned long long)d->bit_rate, d->variable);
    for (size_t n = 0; n < d->count + (d->mark != NULL); n++) {
        const struct removal *r = n < d->count ? d->of + n : &d->bad;
        printf("%.17g %.17g %.17g %c\n", r->seconds, r->before, r->after, r->type);
    }
}

int main(int count, char **words)
{
    enum { KINDS = sizeof kinds / sizeof *kinds };
    size_t n = 0;
    struct drawing d;
    if (count == 1) {
        for (; n < KINDS; n++)
            puts(kinds[n].id);
        return 0;
    }
    while (n < KINDS && strcmp(kinds[n].id, words[1]) != 0)
        n++;
    struct removal *of = n < KINDS ? fill_kind(kinds + n, &d) : fill_file(words[1], &d);
    if (count > 3 || of == NULL)
        return 2;
    if (count == 3)
        list(&d);
    else
        plot(stdout, &d);
    free(of);
    return fflush(stdout) != 0 ? 2 : 0;
}
