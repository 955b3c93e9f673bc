#include "words.h"

#include "label.h"
#include "report.h"
#include "shell.h"

#include <inttypes.h>
#include <stdio.h>
#include <stdlib.h>
#include <string.h>

/* Bits with tenths, and commas: "38,824.0". */
static const char *amount(struct bits b, char *text)
{
    char plain[TEXT], whole[LABEL_BYTES];
    tenths(b, plain);
    if (plain[0] >= '0' && plain[0] <= '9')
        snprintf(text, TEXT, "%s%s", grouped(strtoull(plain, NULL, 10), whole), strchr(plain, '.'));
    else
        snprintf(text, TEXT, "%s", plain);
    return text;
}

const char *refusal_line(const struct answer *a, char *text, size_t room)
{
    char bits[TEXT];
    int length = snprintf(text, room, "%s", vbv_refusal_name(a->number));
    if (a->place.measured && (size_t)length < room)
        snprintf(text + length, room - (size_t)length, " by %s bits", amount(a->place.over, bits));
    return text;
}

static void print_records(const struct answer *a)
{
    printf("picture delay expected data_bits occupancy_before periods\n");
    for (size_t n = 0; n < a->recorded; n++)
        printf("%zu %" PRIu64 " %" PRIu64 " %" PRIu64 " %" PRIu64 " %" PRIu64 "\n", n, a->records[n].delay,
               a->records[n].expected, a->records[n].data_bits, a->records[n].occupancy_before, a->records[n].periods);
}

/* The place's byte, in the stream or in what was taken out of a container. */
static void print_byte(const struct told *t)
{
    printf("at byte %zu%s", t->answer->place.byte, t->in->about[0] != 0 ? " of the video" : "");
}

/* The picture, with its delays where the library tells them; when it is due. */
static void print_picture(const struct told *t)
{
    const struct answer *a = t->answer;
    char time[TEXT];
    printf("  picture %zu (the first is 0)", a->place.picture);
    if (tells_delays(a))
        printf(", coded delay %" PRIu64 ", expected delay %" PRIu64, a->refusal.coded, a->refusal.expected);
    if (a->number == VBV_CONSTANT_RATE)
        printf(", coded delay %" PRIu32, a->place.delay);
    printf("\n  ");
    if (a->place.header != NULL)
        printf("its %s, ", a->place.header);
    else
        printf("of type %c, ", type_letter(a->shown[a->place.picture].type));
    print_byte(t);
    if (a->place.timed)
        printf(", due at %s", clock_time(a->place.due, a->declared.bit_rate, time));
    printf("\n");
}

/* What pictures are due by, where the header's code alone does not say it. */
static void print_frame_rate(const struct declared *d)
{
    char rate[TEXT];
    if (d->rate_n != 0 || d->rate_d != 0)
        printf("  frames a second: %s (frame rate code %" PRIu32 ", extensions n %" PRIu32 ", d %" PRIu32 ")\n", frame_rate(d, rate),
               d->rate_code, d->rate_n, d->rate_d);
}

/* A sequence header or its extension, and what it declares where that is refused. */
static void print_sequence(const struct told *t)
{
    const struct answer *a = t->answer;
    printf("  the %s ", a->place.header);
    print_byte(t);
    if (a->number == VBV_FRAME_RATE)
        printf(": frame rate code %" PRIu32, a->declared.rate_code);
    if (a->number == VBV_PARAMETER)
        printf(": %" PRIu64 " bits a second, a buffer of %" PRIu64 " bits", a->declared.bit_rate, a->declared.buffer_bits);
    printf("\n");
}

/* The rest of a cbrsend command, from --stream on. */
static void print_input(const struct told *t)
{
    char word[WORD_BYTES];
    if (t->which != NULL)
        printf(" --stream %s", shell_word(t->which, word, sizeof word));
    printf("%s %s", begins_like_option(t->name) ? " --" : "", shell_word(t->name, word, sizeof word));
}

/* How a stream of a variable rate is made constant; with --film where the writer must take repeat_first_field. */
static void print_remedy(const struct told *t)
{
    if (t->standard == VBV_MPEG1) {
        printf("  cbrsend takes only MPEG-2, so encode this one again, at a constant rate.\n");
    } else {
        char buffer[TEXT] = "BUFFER";
        const char *film = t->answer->look.flagged > 0 ? " --film" : "";
        uint64_t units = t->answer->declared.buffer_bits / CBR_BUFFER_UNIT;
        if (units >= 1 && units <= CBR_MOST_BUFFER)
            snprintf(buffer, sizeof buffer, "%" PRIu64, units);
        printf("  The least rate that carries it in this buffer: cbrsend%s --least-rate -B %s", film, buffer);
        print_input(t);
        printf("\n  At that RATE or above: cbrsend%s -b RATE -B %s", film, buffer);
        print_input(t);
        printf(" OUT.m2v\n");
    }
}

/* A command that asks again, with this word. */
static void print_command(const struct told *t, const char *word)
{
    printf("vbvreport %s%s", word, t->in->standard == t->standard ? "" : " -2");
    print_input(t);
    printf("\n");
}

static void print_film(const struct told *t)
{
    printf("  Its pictures repeat fields, which this check does not count. With these counted: ");
    print_command(t, "--film");
}

/* Whether repeated fields may be the cause. Delays that count them differ from those of a check that does not, in which pictures
 * are due earlier; at a variable rate it is their time alone. */
static int may_be_film(const struct answer *a)
{
    int is_late = is_variable(a->mode) ? a->number == VBV_UNDERFLOW : a->number == VBV_EARLY || a->number == VBV_DELAY_MISMATCH;
    return is_late && spoils_model(a);
}

/* Whether delays of both kinds are in the stream, 0xFFFF first. */
static int is_neither(const struct answer *a)
{
    return a->number == VBV_CONSTANT_RATE && a->place.in_picture && a->place.picture > 0;
}

/* What a refusal means and what to do. */
static void print_meaning(const struct told *t)
{
    const struct answer *a = t->answer;
    int film = may_be_film(a);
    if (film)
        print_film(t);
    if (is_neither(a)) {
        printf("  The delays before it are 0xFFFF, as at a variable rate; this one is not, as at a constant rate. The stream is neither:\n"
               "  at a constant rate it is refused with 5. Was another stream joined on here? cbrsend writes the right delays into all,\n"
               "  cbrsend --variable 0xFFFF.\n");
        return;
    }
    if (a->number == VBV_CONSTANT_RATE) {
        printf("  Its first delay claims a constant rate. The check of that: ");
        print_command(t, counts_repeats(a->mode) ? "--film --constant" : "--constant");
    }
    printf("  %s%s\n", film ? "If that refuses it too: " : "", vbv_refusal_text(a->number));
    if (a->number == VBV_VARIABLE_RATE)
        print_remedy(t);
}

static void print_refusal(const struct told *t)
{
    const struct answer *a = t->answer;
    char line[120];
    printf("  refusal %" PRIu64 ": %s\n", a->number, refusal_line(a, line, sizeof line));
    if (a->place.in_picture)
        print_picture(t);
    else if (a->place.header != NULL)
        print_sequence(t);
    if (a->number >= VBV_EARLY && a->number <= VBV_DELAY_MISMATCH)
        print_frame_rate(&a->declared);
    print_meaning(t);
}

/* What the delays have told. */
static void print_why_variable(const struct answer *a)
{
    int every = a->number == 0 || a->number == VBV_UNDERFLOW || a->number == VBV_PARAMETER; /* tested after the delays */
    printf("  %s delay is 0xFFFF, so this is the check of a variable rate. For a line of constant rate: vbvreport --constant\n",
           every ? "Every" : "The first");
}

static void print_verdict(const struct told *t)
{
    if (t->in->about[0] != 0) {
        put_name(stdout, t->name);
        printf(": %s\n", t->in->about);
    }
    put_name(stdout, t->name);
    printf(": MPEG-%d%s%s, %s\n", t->standard, counts_repeats(t->answer->mode) ? " film" : "",
           is_variable(t->answer->mode) ? " at a variable rate" : "", t->answer->number == 0 ? "accepted" : "refused");
    if (is_variable(t->answer->mode) && t->by_delays)
        print_why_variable(t->answer);
}

void print_words(const struct told *t, int records)
{
    const struct answer *a = t->answer;
    print_verdict(t);
    if (a->number != 0)
        print_refusal(t);
    else if (spoils_model(a))
        print_numbers(&a->report);
    else
        print_report(&a->report, is_variable(a->mode));
    for (size_t i = 0; i < t->cautions->count; i++)
        printf("  caution: %s\n", t->cautions->of[i].words);
    if (records)
        print_records(a);
}
