/* Film mode from C: how long pictures last, by worked lists, in the tools' cadence, in what a film writer sends and in the check
 * of that; the words of a film writer's state; what is not film beside it. rules.h says what each call must answer and leave;
 * the cases here say what that must come to. Exit status 1: something differs. */
#include "cadence.h"
#include "channel.h"
#include "places.h"

#include <stdlib.h>
#include <string.h>

/* 1,000,000 bits a second, buffer 327,680 bits, 30000/1001 frames: a film writer, and one that is none. */
static const uint64_t film[CONFIG_WORDS] = { 6, 2500, 20, 4, 0, 0, 10, 2, 4 };
static const uint64_t plain[CONFIG_WORDS] = { 2, 2500, 20, 4, 0, 0, 10, 2, 4 };

/* ---- worked lists */

/* Sequences: interlaced, with low_delay, progressive, progressive with low_delay. */
enum { SEQUENCES = 4, MOST_LISTED = 8 };

/* Pictures: I P B frames, i p b fields, each with ' for repeat_first_field, ^ for top_field_first, " for both. Below each, the
 * periods in each sequence (13818-2, C.9 to C.12). */
static const struct worked {
    const char *pictures, *periods[SEQUENCES];
} worked[] = {
    { "I'PP", { "232", "322", "242", "422" } },
    { "I'B'P", { "233", "332", "244", "442" } },
    { "B'I", { "32", "32", "42", "42" } }, /* no anchor before I */
    { "I'ipP", { "2122", "3112", "2112", "4112" } },
    { "I'pP", { "212", "312", "212", "412" } }, /* a field left over */
    { "I'pBP", { "2122", "3122", "2122", "4122" } },
    { "I'bbP", { "2113", "3112", "2114", "4112" } },
    { "I'bP", { "213", "312", "214", "412" } },
    { "I'pbP", { "2122", "3112", "2112", "4112" } }, /* led by P */
    { "I'bpP", { "2113", "3112", "2114", "4112" } }, /* led by B */
    { "ipP", { "112", "112", "112", "112" } },
    { "I'pppP", { "21212", "31112", "21112", "41112" } }, /* a pair, then one left over */
    { "I\"P", { "23", "32", "26", "62" } },
    { "I^P", { "22", "22", "22", "22" } },
    { "I\"B\"P", { "233", "332", "266", "662" } },
    { "I'P'B'BPB'P", { "2332332", "3332232", "2442442", "4442242" } },
};

struct listed {
    uint8_t kind, interval, flags;
};

static size_t read_list(const char *text, struct listed *of)
{
    size_t count = 0;
    for (; *text != 0; text++) {
        static const char kinds[] = "IPBipb", marks[] = "'^\"";
        const char *kind = strchr(kinds, *text), *mark = strchr(marks, *text);
        if (kind != NULL)
            of[count++] = (struct listed){ (uint8_t)((kind - kinds) % 3), kind - kinds < 3 ? CBR_FRAME : CBR_FIELD, 0 };
        else if (mark != NULL)
            of[count - 1].flags = (uint8_t)(REPEATS + (mark - marks));
    }
    return count;
}

static struct facts facts_of(const struct listed *p)
{
    return (struct facts){ p->kind != CBR_B, p->interval == CBR_FIELD, (p->flags & REPEATS) != 0, (p->flags & TOP_FIRST) != 0 };
}

static void check_cadence(const struct worked *w, uint8_t sequence)
{
    struct listed of[MOST_LISTED];
    size_t count = read_list(w->pictures, of);
    struct cadence k = { .film = 1, .progressive = sequence / 2, .low_delay = sequence % 2 }, none = k;
    none.film = 0;
    is(w->pictures, count, strlen(w->periods[sequence]));
    for (size_t i = 0; i < count; i++) {
        is(w->pictures, lasts(&k, facts_of(of + i)), (uint64_t)(w->periods[sequence][i] - '0'));
        is(w->pictures, lasts(&none, facts_of(of + i)), of[i].interval);
    }
}

/* The same list sent, with headers before every picture, between the fields of a pair too, and checked. */
static void check_list_sent(const struct worked *w, uint8_t sequence)
{
    struct listed of[MOST_LISTED];
    size_t count = read_list(w->pictures, of);
    struct channel *c = open_configured(film);
    say_sequence(c, sequence / 2, sequence % 2);
    for (size_t i = 0; i < count; i++) {
        struct offer o = flagged(c, of[i].kind, of[i].interval, of[i].flags, 300);
        if (i > 0)
            o.headers_length = 20; /* a group and user data */
        o.last = i + 1 == count;
        is(w->pictures, offer(w->pictures, c, &o).answer[OUTCOME], CBR_PLACED);
        is(w->pictures, c->periods[i], (uint64_t)(w->periods[sequence][i] - '0'));
    }
    is(w->pictures, c->pictures, count);
    check_sent(w->pictures, c);
    check_least(w->pictures, c);
    free(c);
}

static void check_lists(void)
{
    for (size_t i = 0; i < COUNT(worked); i++)
        for (uint8_t sequence = 0; sequence < SEQUENCES; sequence++) {
            check_cadence(worked + i, sequence);
            check_list_sent(worked + i, sequence);
        }
}

/* ---- a worked film writer */

/* The check of what was sent in a mode: its number; report, records and refusal in words. */
struct verdict {
    uint64_t number;
    struct vbv_report report;
    struct vbv_record records[MOST_PICTURES];
    struct vbv_refusal refusal;
};

static void judge(const struct channel *c, uint8_t mode, struct verdict *v)
{
    memset(v, 0, sizeof *v);
    v->number = vbv_check(c->sent, c->length, mode, &v->report, sizeof v->report, v->records, sizeof v->records, &v->refusal,
                          sizeof v->refusal);
}

/* Eight frames of 4,021 bytes (I) or 4,022. */
static void check_film_writer(void)
{
    static const uint64_t delays[] = { 22118, 22226, 23835, 25443, 25550, 25658, 25765, 27373 };
    static const uint64_t periods[] = { 2, 3, 3, 2, 2, 2, 3, 3 };
    static struct verdict v;
    struct listed of[MOST_LISTED];
    size_t count = read_list("I'PB'BP'BB'P", of);
    struct channel *c = open_configured(film), *none = open_configured(plain);
    refused("film for another writer", none, flagged(none, CBR_I, CBR_FRAME, REPEATS, 4021), 20);
    for (size_t i = 0; i < count; i++) {
        struct offer o = flagged(c, of[i].kind, CBR_FRAME, of[i].flags, of[i].kind == CBR_I ? 4021 : 4022);
        struct told t = offer("film", c, &o);
        is("film", t.number == 0 && t.answer[OUTCOME] == CBR_PLACED && t.answer[DELAY] == delays[i] && t.answer[ZEROS] == 0, 1);
    }
    check_sent("film", c);
    judge(c, VBV_MPEG2 + VBV_FILM, &v);
    is("film", v.number == 0 && v.report.pictures == count, 1);
    is("film: the least after", v.report.min_after, 213619);
    is("film: the greatest before", v.report.max_before, 304180);
    for (size_t i = 0; i < count; i++)
        is("film", v.records[i].delay == delays[i] && v.records[i].periods == periods[i], 1);
    judge(c, VBV_MPEG2, &v);
    is("film as plain", v.number == 11 && v.refusal.number == 11 && v.refusal.picture == 2, 1);
    is("film as plain", v.refusal.coded == 23835 && v.refusal.expected == 22333, 1);
    free(c);
    free(none);
}

/* ---- headers, flags and what moves the cadence */

/* Until a picture is placed each offer's own headers say what the sequence is; then the first placed one's. */
static void check_first_headers(void)
{
    struct channel *c = open_configured(film);
    say_sequence(c, 1, 1);
    again("too large, progressive", c, flagged(c, CBR_I, CBR_FRAME, REPEATS + TOP_FIRST, MOST_BYTES), 13);
    is("nothing is kept of it", c->state[PROGRESSIVE] == 0 && c->state[LOW_DELAY] == 0 && c->state[ANCHOR_REPEATS] == 0, 1);
    say_sequence(c, 0, 1);
    struct offer o = flagged(c, CBR_I, CBR_FRAME, REPEATS + TOP_FIRST, 9000);
    o.out_length = 100;
    refused("too little room, low_delay", c, o, 19);
    is("nor of that", c->state[LOW_DELAY], 0);
    say_sequence(c, 1, 0);
    placed("placed, progressive", c, flagged(c, CBR_I, CBR_FRAME, REPEATS + TOP_FIRST, 9000), 13, 0);
    is("what its headers say", c->state[PROGRESSIVE] == 1 && c->state[LOW_DELAY] == 0, 1);
    is("its own flags", c->state[ANCHOR_REPEATS] == 1 && c->state[ANCHOR_TOP] == 1 && c->state[OPEN_FIELD] == 0, 1);
    is("not its own time", c->periods[0], 2);
    o = flagged(c, CBR_P, CBR_FRAME, 0, 9000);
    is("a P frame", offer("a P frame", c, &o).number, 0);
    is("the anchor's time", c->periods[1], 6);
    check_sent("first headers", c);
    free(c);
}

/* Pictures that are not placed leave the cadence. */
static void check_unplaced(void)
{
    struct channel *c = open_configured(film);
    placed("an anchor with the flag", c, flagged(c, CBR_I, CBR_FRAME, REPEATS, 9000), 10, 0);
    uint64_t before[6];
    memcpy(before, c->state + MODE, sizeof before);
    again("a large field", c, picture(c, CBR_P, CBR_FIELD, MOST_BYTES), 13);
    withdraw("withdrawn", c, CBR_STATE_BYTES);
    struct offer o = picture(c, CBR_P, CBR_FRAME, 300);
    o.layer = layers[CBR_P][CBR_FIELD][0];
    o.layer_fits = 0;
    refused("a field as frame", c, o, 20);
    is("the cadence stays", memcmp(before, c->state + MODE, sizeof before) == 0, 1);
    placed("a field", c, flagged(c, CBR_P, CBR_FIELD, REPEATS, 3000), 10, 0);
    is("open, led by P", c->state[OPEN_FIELD] == 1 && c->state[ANCHOR_REPEATS] == 1, 1);
    again("a large second field", c, picture(c, CBR_B, CBR_FIELD, MOST_BYTES), 13);
    is("still open", c->state[OPEN_FIELD], 1);
    placed("a second field", c, picture(c, CBR_B, CBR_FIELD, 1000), 13, 0);
    is("closed, without the flag", c->state[OPEN_FIELD] == 0 && c->state[ANCHOR_REPEATS] == 0, 1);
    is("the second field is long", c->periods[0] == 2 && c->periods[1] == 1 && c->periods[2] == 2, 1);
    placed("a B field", c, picture(c, CBR_B, CBR_FIELD, 1000), 12, 0);
    is("open, led by B", c->state[OPEN_FIELD], 2);
    check_sent("unplaced", c);
    free(c);
}

/* Only a film writer takes repeat_first_field 1, of frames and of fields; top_field_first is anybody's. */
static void check_flags(void)
{
    for (uint8_t kind = 0; kind < 3; kind++)
        for (uint8_t interval = CBR_FIELD; interval <= CBR_FRAME; interval++)
            for (uint8_t flags = 0; flags < FLAGS; flags++) {
                struct channel *one = open_configured(film), *other = open_configured(plain);
                placed("for film", one, flagged(one, kind, interval, flags, 9000), 10, 0);
                check_sent("for film", one);
                if (flags & REPEATS)
                    refused("not for film", other, flagged(other, kind, interval, flags, 9000), 20);
                else
                    placed("not for film", other, flagged(other, kind, interval, flags, 9000), 10, 0);
                free(one);
                free(other);
            }
}

/* ---- the words of a state */

static void check_words(struct channel *c, const uint64_t *words, int fits)
{
    struct offer o = flagged(c, CBR_P, CBR_FIELD, 0, 100);
    if (!c->state[STARTED])
        o = flagged(c, CBR_I, CBR_FRAME, REPEATS, 9000);
    for (int call = 0; call < 2; call++) {
        uint64_t kept[STATE_WORDS];
        memcpy(kept, c->state, sizeof kept);
        memcpy(c->state + MODE, words, 8 * (STATE_WORDS - MODE));
        c->pictures = c->length = 0;
        is("a word's range", rules_fit(c->state) == fits, 1);
        if (call == 0)
            offer("the words of film", c, &o);
        else
            withdraw("the words of film", c, CBR_STATE_BYTES);
        memcpy(c->state, kept, sizeof kept);
    }
}

/* Every word in its range and one above it, in every mode up to 16; then each with a bit more. */
static void check_ranges(struct channel *c)
{
    static const uint64_t counts[] = { 17, 3, 3, 3, 3, 4 };
    for (uint64_t n = 0; n < 17 * 3 * 3 * 3 * 3 * 4; n++) {
        uint64_t words[6], rest = n, above = 0;
        for (int i = 0; i < 6; i++) {
            words[i] = rest % counts[i];
            rest /= counts[i];
            above += i > 0 && words[i] > (words[0] == 6 || words[0] == 14 ? counts[i] - 2 : 0);
        }
        check_words(c, words, (words[0] == 2 || words[0] == 6 || words[0] == 10 || words[0] == 14) && above == 0);
    }
    for (int i = 0; i < 6; i++)
        for (int bit = 3; bit < 64; bit++) {
            uint64_t words[6] = { 6, 1, 0, 1, 0, 2 };
            words[i] += (uint64_t)1 << bit;
            check_words(c, words, i == 0 && bit == 3); /* 14 */
        }
}

static void check_states(void)
{
    struct channel *c = open_configured(film);
    check_ranges(c);
    placed("a first picture", c, flagged(c, CBR_I, CBR_FRAME, REPEATS, 12000), 10, 0);
    check_ranges(c);
    free(c);
}

/* ---- courses */

static uint64_t draw(struct channel *c, uint64_t below)
{
    c->seed = c->seed * 6364136223846793005 + 1442695040888963407;
    return (c->seed >> 33) % below;
}

/* A call of some sort: an offer that may be too large, short of room, or of a structure that it has not; a withdrawal. */
static void step(struct channel *c, uint8_t flags)
{
    uint64_t sort = draw(c, 16);
    uint8_t kind = (uint8_t)(c->state[PENDING] != 0 && sort != 1 ? c->state[PENDING] - 1 : draw(c, 3));
    uint8_t interval = (uint8_t)(1 + draw(c, 2)), mask = (uint8_t)draw(c, FLAGS);
    size_t length = sort == 2 ? MOST_BYTES : 23 + draw(c, 3000u * interval);
    struct offer o = flagged(c, kind, interval, flags & mask, length);
    if (sort == 3)
        o.out_length = draw(c, 100);
    if (sort == 4) {
        o.layer = layers[kind][3 - interval][flags & mask];
        o.layer_fits = 0;
    }
    if (sort >= 12 && c->state[STARTED])
        o.headers_length = 8 + 20 * draw(c, 2);
    if (sort == 0)
        withdraw("a step", c, CBR_STATE_BYTES);
    else
        offer("a step", c, &o);
}

/* Up to the last picture. */
static struct channel *run_course(const uint64_t *config, uint8_t sequence, uint8_t flags, uint64_t seed)
{
    struct channel *c = open_configured(config);
    c->seed = seed;
    say_sequence(c, sequence / 2, sequence % 2);
    for (int i = 0; i < 150; i++)
        step(c, flags);
    withdraw("the end", c, CBR_STATE_BYTES);
    struct offer o = picture(c, CBR_B, CBR_FRAME, 200);
    o.last = 1;
    is("the end", offer("the end", c, &o).number, 0);
    check_sent("a course", c);
    is("pictures and stuffing", c->pictures > 50 && check_least("a course", c) > 5, 1);
    return c;
}

/* Every number of periods that a sequence has is met. */
static void check_courses(void)
{
    static const char *const met[SEQUENCES] = { "1 2 3", "1 2 3", "1 2 4 6", "1 2 4 6" };
    for (uint8_t sequence = 0; sequence < SEQUENCES; sequence++) {
        int seen[7] = { 0 };
        for (uint64_t seed = 0; seed < 10; seed++) {
            struct channel *c = run_course(film, sequence, REPEATS + TOP_FIRST, seed);
            for (size_t i = 0; i < c->pictures; i++)
                seen[c->periods[i] <= 6 ? c->periods[i] : 0]++;
            free(c);
        }
        for (int periods = 0; periods <= 6; periods++)
            is("periods", seen[periods] > 0, strchr(met[sequence], '0' + periods) != NULL);
    }
}

/* Without a repeated field both writers send the same, and both checks say the same of it. */
static void check_same(void)
{
    static struct verdict v, w;
    for (uint8_t sequence = 0; sequence < SEQUENCES; sequence++) {
        struct channel *one = run_course(film, sequence, TOP_FIRST, sequence);
        struct channel *other = run_course(plain, sequence, TOP_FIRST, sequence);
        is("the same stream", one->length == other->length && memcmp(one->sent, other->sent, one->length) == 0, 1);
        is("the same state", memcmp(one->state, other->state, 8 * MODE) == 0, 1);
        is("no words of film", other->state[MODE] == 2 && other->state[PROGRESSIVE] == 0 && other->state[LOW_DELAY] == 0, 1);
        is("words of film", one->state[MODE] == 6 && one->state[PROGRESSIVE] == sequence / 2, 1);
        is("words of film", one->state[LOW_DELAY], sequence % 2);
        judge(one, VBV_MPEG2, &v);
        judge(one, VBV_MPEG2 + VBV_FILM, &w);
        is("the same report and records", v.number == 0 && memcmp(&v, &w, sizeof v) == 0, 1);
        free(one);
        free(other);
    }
}

int main(void)
{
    static const uint8_t needed[] = { 0, 9, 12, 19, 20 };
    prepare();
    check_lists();
    check_film_writer();
    check_first_headers();
    check_unplaced();
    check_flags();
    check_states();
    check_courses();
    check_same();
    return summary("film", needed, COUNT(needed));
}
