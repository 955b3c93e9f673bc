#include "advice.h"

#include "hipokuta.h"
#include "look.h"
#include "why.h"

#include <inttypes.h>

/* The buffer of Main Profile at Main Level (ISO/IEC 13818-2, Table 8-14): sets for broadcast have at least this. */
enum { MAIN_LEVEL = 112 };

struct setting usable(struct setting at)
{
    at.buffer = at.buffer == 0 ? MAIN_LEVEL : at.buffer > CBR_MOST_BUFFER ? CBR_MOST_BUFFER : at.buffer;
    at.rate = is_no_rate(at.rate) || at.rate > CBR_MOST_RATE ? 0 : at.rate;
    return at;
}

struct wanted complete(const struct source *in, struct setting asked)
{
    struct setting own = declared(in);
    uint32_t rate = asked.rate != 0 ? asked.rate : own.rate, buffer = asked.buffer != 0 ? asked.buffer : own.buffer;
    return (struct wanted){ { rate, buffer }, asked };
}

int names_no_rate(const struct wanted *w)
{
    return w->asked.rate == 0 && is_no_rate(w->at.rate);
}

static const char *plural(uint32_t count)
{
    return count == 1 ? "" : "s";
}

void print_buffer(uint32_t buffer)
{
    printf(" a buffer of %" PRIu32 " unit%s (%" PRIu64 " bits)", buffer, plural(buffer), (uint64_t)buffer * CBR_BUFFER_UNIT);
}

static const char *who(uint32_t asked)
{
    return asked != 0 ? "Asked for:" : "IN's header says:";
}

void print_wanted(const struct wanted *w)
{
    int same = (w->asked.rate != 0) == (w->asked.buffer != 0);
    if (names_no_rate(w)) {
        printf("  IN's header names no rate (it has %s), so say which with -b.\n", w->at.rate == 0 ? "0" : "all ones");
        same = 0;
    } else {
        uint64_t rate = (uint64_t)w->at.rate * CBR_RATE_UNIT;
        printf("  %s %" PRIu64 " bits a second%s", who(w->asked.rate), rate, same ? "," : ".\n");
    }
    if (!same)
        printf("  %s", who(w->asked.buffer));
    print_buffer(w->at.buffer);
    printf(".\n");
}

void print_why_setting(struct setting at)
{
    int in_range = at.rate >= 1 && at.rate <= CBR_MOST_RATE && at.buffer >= 1 && at.buffer <= CBR_MOST_BUFFER;
    uint32_t most = in_range ? most_buffer(at.rate) : 0;
    if (!in_range)
        printf("  Rates go from %d to %d bits a second, buffers from 1 to %d units of %d bits.\n", CBR_RATE_UNIT,
               CBR_MOST_RATE * CBR_RATE_UNIT, CBR_MOST_BUFFER, CBR_BUFFER_UNIT);
    else if (most > 0)
        printf("  The buffer takes too long to fill: at this rate it may have at most %" PRIu32 " unit%s.\n", most, plural(most));
    else
        printf("  The buffer takes too long to fill: this rate is too low for any buffer.\n");
}

int is_swollen(const struct source *in, uint64_t bytes)
{
    return bytes / 2 > in->stream.length;
}

void print_size(const struct source *in, uint64_t bytes)
{
    printf("      OUT would have %" PRIu64 " bytes; IN has %zu", bytes, in->stream.length);
    if (is_swollen(in, bytes))
        printf(", so that it would be %.1f times as long, most of it stuffing", (double)bytes / (double)in->stream.length);
    printf(".\n");
}

void print_place(const struct source *in, const struct sending *end)
{
    printf("picture %zu (the first is 0), byte %zu%s", end->picture, in->pictures.of[end->picture].layer,
           in->unpacked ? " of its video" : "");
}

void print_cause(const struct source *in, const struct sending *end)
{
    struct stream headers = headers_of(in, end->picture), layer = layer_of(in, end->picture);
    if (end->number == CBR_HEADERS)
        print_why_headers(&headers, end->picture == 0);
    else if (end->number == CBR_LAYER && print_why_layer(&layer, in->film) == FILM)
        printf("  Such are %zu of its %zu pictures.\n", repeating(in), in->pictures.count);
}

static int carries(const struct trial *t)
{
    return t->at.rate != 0 && t->end.number == 0;
}

/* A picture that no rate and buffer helps. */
static int is_hopeless(const struct trial *t)
{
    return t->at.rate != 0 && t->end.number != 0;
}

static void print_hopeless(const struct source *in, const struct trial *t)
{
    printf("  No rate and buffer would carry IN: ");
    print_place(in, &t->end);
    printf(", is refused with %" PRIu64 " at any.\n", t->end.number);
    print_cause(in, &t->end);
}

/* Whether another buffer is worth a try. */
static int is_poor(const struct source *in, const struct trial *t)
{
    return !carries(t) || is_swollen(in, t->end.bytes);
}

/* What is tried: the rate that goes with the buffer, the buffer that goes with the rate, and where that leaves to be desired
 * a rate with whatever buffer, at first one that sets have. */
enum { TRIALS = 3 };

static void try_all(struct source *in, const struct request *r, struct setting at, struct trial of[TRIALS])
{
    of[1] = of[2] = (struct trial){ { 0, 0 }, { .number = 0 } };
    if (is_hopeless(&of[0]))
        return;
    if (r->to != NULL && at.rate != 0)
        of[1] = least_buffer(in, at);
    if (is_poor(in, &of[0]) && is_poor(in, &of[1]) && !is_hopeless(&of[1]))
        of[2] = least_of_both(in, at.buffer > MAIN_LEVEL ? at.buffer : MAIN_LEVEL);
    if (!carries(&of[0]) && !carries(&of[1]) && of[2].at.rate == 0)
        of[2] = least_of_both(in, CBR_MOST_BUFFER);
}

/* Returns how many there are. */
static int print_commands(const struct source *in, const struct request *r, const struct trial of[TRIALS])
{
    int count = 0;
    for (int i = 0; i < TRIALS; i++)
        if (carries(&of[i])) {
            if (count++ == 0)
                printf("  What would carry it:\n");
            print_command(r, of[i].at);
            print_size(in, of[i].end.bytes);
        }
    return count;
}

void advise(struct source *in, const struct request *r, struct setting at, struct trial rate)
{
    struct trial of[TRIALS] = { rate };
    try_all(in, r, at, of);
    end_progress(&in->progress);
    for (int i = 0; i < TRIALS; i++)
        if (is_hopeless(&of[i])) {
            print_hopeless(in, &of[i]);
            return;
        }
    if (!carries(&rate) && r->to != NULL)
        printf("  With a buffer of %" PRIu32 " unit%s no rate was found.\n", at.buffer, plural(at.buffer));
    if (print_commands(in, r, of) == 0)
        printf("  No rate from %d to %d bits a second and no buffer from 1 to %d units was found that would carry it.\n"
               "  Encode it again with smaller pictures.\n",
               CBR_RATE_UNIT, CBR_MOST_RATE * CBR_RATE_UNIT, CBR_MOST_BUFFER);
}
