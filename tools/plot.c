#include "plot.h"

#include "label.h"

/* The whole picture, the room to the right of the field and below it, where the lines of text stand, and letters, in pixels. */
enum { WIDTH = 1200, HEIGHT = 580, MARGIN = 20, AFTER = 60, BELOW = 110, NAME = 32, FACTS = 56, WORDS = 80, LETTERS = 13 };

/* Words of a refusal: how wide a line, how many at most, and how far apart. */
enum { WORDS_ROOM = 540, WORDS_LINES = 4, WORDS_APART = 17 };

/* How many teeth a column has at most in a curve. The least pixels from a letter to the next, and of a refused picture beyond a
 * bound. */
enum { TEETH = 2, LETTER = 10, PASSED = 8 };

static const double MOST_SECONDS = 1e12, LEAST_SECONDS = .001, MOST_BITS = 1e18;

/* A drawing in work: where its field lies, what it shows, and the removals within. */
struct sheet {
    FILE *to;
    const struct drawing *d;
    double left, right, top, bottom; /* pixels */
    double from, until;              /* seconds, at left and right */
    double lowest, highest;          /* bits, at bottom and top */
    size_t first, good, end;         /* removals from first to before end, the refused one from good on */
    const struct removal *most, *least; /* before and after which the buffer holds most and least; NULL where first is good */
    int missed;                      /* nothing is where it was asked for, so all is shown */
};

static double within(double value, double low, double high)
{
    return !(value > low) ? low : value < high ? value : high;
}

static double across(const struct sheet *s, double seconds)
{
    double x = s->left + (s->right - s->left) * (seconds - s->from) / (s->until - s->from);
    return within(x, s->left, s->right);
}

static double up(const struct sheet *s, double bits)
{
    double y = s->bottom - (s->bottom - s->top) * (bits - s->lowest) / (s->highest - s->lowest);
    return within(y, s->top, s->bottom);
}

/* Removals, the refused one among them, and one of these. */
static size_t removals(const struct drawing *d)
{
    return d->count + (d->mark != NULL);
}

static const struct removal *removal(const struct drawing *d, size_t n)
{
    return n < d->count ? d->of + n : &d->bad;
}

/* Removal n - 1, or the first bit's arrival. */
static const struct removal *removal_before(const struct drawing *d, size_t n)
{
    static const struct removal nothing = { 0, 0, 0, 0, 0 };
    return n > 0 ? removal(d, n - 1) : &nothing;
}

/* Whether the buffer is full for a time before removal n, as at a variable rate. */
static int is_level(const struct drawing *d, size_t n)
{
    return d->variable && d->bit_rate > 0 && removal(d, n)->before >= (double)d->buffer_bits;
}

/* From when on; removal n where it is not. */
static double level_from(const struct drawing *d, size_t n)
{
    const struct removal *last = removal_before(d, n), *next = removal(d, n);
    double filled = last->seconds + (next->before - last->after) / (double)d->bit_rate;
    return is_level(d, n) ? within(filled, last->seconds, next->seconds) : next->seconds;
}

/* What is held at a time after removal n - 1, or after the first bit, and up to removal n. */
static double held(const struct drawing *d, size_t n, double seconds)
{
    const struct removal *last = removal_before(d, n), *next = removal(d, n);
    double rising = level_from(d, n) - last->seconds, share = rising > 0 ? (seconds - last->seconds) / rising : 0;
    return last->after + (next->before - last->after) * within(share, 0, 1);
}

static int shows_refused(const struct sheet *s)
{
    return s->good < s->end;
}

/* Whether the refused picture passes a bound. */
static int is_over(const struct drawing *d)
{
    return d->bad.before > (double)d->buffer_bits;
}

static int is_under(const struct drawing *d)
{
    return d->bad.after < 0;
}

/* The time to show, and the removals within. */
static void set_time(struct sheet *s)
{
    const struct drawing *d = s->d;
    size_t all = removals(d);
    double last = all > 0 ? within(removal(d, all - 1)->seconds, 0, MOST_SECONDS) : 0;
    s->until = last > 0 ? last * 1.01 : 1;
    if (d->to > d->from) {
        s->missed = !(d->from <= last && d->to > 0);
        s->from = s->missed ? 0 : within(d->from, 0, last);
        if (!s->missed)
            s->until = within(d->to, s->from + LEAST_SECONDS, last + within((last - s->from) * .01, LEAST_SECONDS, MOST_SECONDS));
    }
    while (s->first < all && removal(d, s->first)->seconds < s->from)
        s->first++;
    for (s->end = s->first; s->end < all && removal(d, s->end)->seconds <= s->until;)
        s->end++;
    s->good = s->end < d->count ? s->end : d->count;
}

/* The bits to show: from empty to full, and what is beyond in a refused picture up to a third of a buffer. */
static void set_bits(struct sheet *s)
{
    const struct drawing *d = s->d;
    double full = d->buffer_bits > 0 ? (double)d->buffer_bits : 1;
    s->highest = full * 1.08;
    if (shows_refused(s)) {
        s->highest = within(d->bad.before * 1.05, s->highest, full * 1.3);
        s->lowest = within(d->bad.after * 1.05, full * -.3, full * -.08);
    }
    for (size_t n = s->first; n < s->good; n++) {
        const struct removal *r = d->of + n;
        s->most = s->most == NULL || r->before > s->most->before ? r : s->most;
        s->least = s->least == NULL || r->after < s->least->after ? r : s->least;
    }
}

/* 1, 2 or 5 times a power of ten: about `count` steps to the whole. */
static double step(double whole, double count)
{
    double size = 1;
    while (size * 10 * count <= whole)
        size *= 10;
    return size * (size * 5 * count <= whole ? 5 : size * 2 * count <= whole ? 2 : 1);
}

static int word_lines(const struct sheet *s)
{
    int lines = 0;
    for (const char *words = shows_refused(s) ? s->d->mark : ""; *words != 0 && lines < WORDS_LINES; lines++)
        words = put_line(NULL, words, LETTERS, WORDS_ROOM);
    return lines;
}

/* The field: to the right of the widest number, below the words. */
static void set_field(struct sheet *s)
{
    char label[LABEL_BYTES];
    s->left = MARGIN + 26 + text_width(grouped((uint64_t)s->highest, label), LETTERS);
    s->right = WIDTH - AFTER;
    s->top = WORDS + 20 + word_lines(s) * WORDS_APART;
    s->bottom = HEIGHT - BELOW;
}

static void heading(const struct sheet *s)
{
    char rate[LABEL_BYTES], buffer[LABEL_BYTES], first[LABEL_BYTES], last[LABEL_BYTES];
    const struct drawing *d = s->d;
    fprintf(s->to, "<text x='%d' y='%d' font-size='18' font-weight='bold'>", MARGIN, NAME);
    put_shortened(s->to, d->name, 18 * 1.1, WIDTH - 2 * MARGIN);
    fprintf(s->to, "</text>\n<text x='%d' y='%d'><tspan font-weight='bold'%s>", MARGIN, FACTS,
            d->mark != NULL ? " fill='#c00'" : "");
    put_shortened(s->to, d->verdict, LETTERS * 1.1, WORDS_ROOM);
    fprintf(s->to, "</tspan> <tspan dx='8'>%s bits a second%s, buffer %s bits, ", grouped(d->bit_rate, rate),
            d->variable ? " at most (variable rate)" : "", grouped(d->buffer_bits, buffer));
    put_shortened(s->to, d->frame_rate, LETTERS, 100);
    fprintf(s->to, " frames a second%s", d->film ? ", repeated fields counted" : "");
    if (s->end - s->first > 1)
        fprintf(s->to, ", pictures %s to %s", grouped(removal(d, s->first)->picture, first),
                grouped(removal(d, s->end - 1)->picture, last));
    else if (s->end > s->first)
        fprintf(s->to, ", picture %s", grouped(removal(d, s->first)->picture, first));
    else
        fprintf(s->to, ", no picture removed");
    if (s->missed)
        fprintf(s->to, "; nothing is at the time asked for, so all is drawn");
    if (d->mark != NULL && !shows_refused(s))
        fprintf(s->to, "; the refused picture is at %s", clocked(d->bad.seconds, 3, first));
    fprintf(s->to, "</tspan></text>\n");
}

static void bits_axis(const struct sheet *s)
{
    char label[LABEL_BYTES];
    double apart = step(s->highest, 5);
    fprintf(s->to, "<g stroke='#ddd'>\n");
    for (int i = 1; i * apart <= s->highest; i++)
        fprintf(s->to, "<path d='M%.2f %.2fH%.2f'/>\n", s->left, up(s, i * apart), s->right);
    fprintf(s->to, "</g>\n<g text-anchor='end'>\n");
    for (int i = 0; i * apart <= s->highest; i++)
        fprintf(s->to, "<text x='%.2f' y='%.2f'>%s</text>\n", s->left - 8, up(s, i * apart) + 4.5,
                grouped((uint64_t)(i * apart), label));
    fprintf(s->to, "</g>\n<text text-anchor='middle' transform='translate(%d %.2f) rotate(-90)'>bits held</text>\n", MARGIN + 4,
            (s->top + s->bottom) / 2);
}

struct ticks {
    double apart;
    int decimals;
};

/* Times to label, as close as their labels allow. */
static struct ticks time_ticks(const struct sheet *s)
{
    static const struct ticks some[] = { { .0001, 4 }, { .0002, 4 }, { .0005, 4 }, { .001, 3 }, { .002, 3 }, { .005, 3 },
        { .01, 2 }, { .02, 2 }, { .05, 2 }, { .1, 1 }, { .2, 1 }, { .5, 1 }, { 1, 0 }, { 2, 0 }, { 5, 0 }, { 10, 0 }, { 15, 0 },
        { 30, 0 }, { 60, 0 }, { 120, 0 }, { 300, 0 }, { 600, 0 }, { 900, 0 }, { 1800, 0 }, { 3600, 0 } };
    char label[LABEL_BYTES];
    size_t n = 0;
    struct ticks t = some[0];
    double pixels = (s->right - s->left) / (s->until - s->from);
    while (t.apart * pixels < text_width(clocked(s->until, t.decimals, label), LETTERS) + 30) {
        if (++n < sizeof some / sizeof *some)
            t = some[n];
        else
            t.apart *= 2;
    }
    return t;
}

static void time_axis(const struct sheet *s)
{
    char label[LABEL_BYTES];
    struct ticks t = time_ticks(s);
    double n = (double)(uint64_t)(s->from / t.apart);
    fprintf(s->to, "<path fill='none' stroke='#444' d='M%.2f %.2fV%.2fH%.2f'/>\n", s->left, s->top, s->bottom, s->right);
    fprintf(s->to, "<g text-anchor='middle'>\n");
    for (n += n * t.apart < s->from; n * t.apart <= s->until; n++) {
        double x = across(s, n * t.apart);
        fprintf(s->to, "<path stroke='#444' d='M%.2f %.2fv5'/><text x='%.2f' y='%.2f'>%s</text>\n", x, s->bottom, x,
                s->bottom + 20, clocked(n * t.apart, t.decimals, label));
    }
    fprintf(s->to, "<text x='%.2f' y='%.2f'>time from the first bit, minutes and seconds</text>\n</g>\n",
            (s->left + s->right) / 2, s->bottom + 42);
}

/* The place where the rise to removal n becomes level, in a path that begins at a time. */
static void level(const struct sheet *s, size_t n, double from)
{
    double seconds = level_from(s->d, n);
    if (is_level(s->d, n) && seconds > from && seconds < s->until)
        fprintf(s->to, "L%.2f %.2f\n", across(s, seconds), up(s, removal(s->d, n)->before));
}

/* Up to each removal, then straight down. */
static void curve(const struct sheet *s)
{
    const struct drawing *d = s->d;
    fprintf(s->to, "<path id='curve' fill='none' stroke='#0a4a8f' stroke-width='1.2' stroke-linejoin='bevel' d='M%.2f %.2f\n",
            across(s, s->from), up(s, held(d, s->first, s->from)));
    for (size_t n = s->first; n < s->good; n++) {
        level(s, n, s->from);
        fprintf(s->to, "L%.2f %.2fV%.2f\n", across(s, d->of[n].seconds), up(s, d->of[n].before), up(s, d->of[n].after));
    }
    if (s->end < removals(d)) {
        level(s, s->end, s->from);
        fprintf(s->to, "L%.2f %.2f\n", across(s, s->until), up(s, held(d, s->end, s->until)));
    }
    fprintf(s->to, "'/>\n");
}

/* A column of a band: the least after a removal and the most before one; most under least where there is none. */
struct column {
    double least, most;
};

/* How many columns: about a pixel each. */
static size_t columns(const struct sheet *s)
{
    return (size_t)(s->right - s->left);
}

static int is_band(const struct sheet *s)
{
    return s->good - s->first > columns(s) * TEETH;
}

static void fill_columns(const struct sheet *s, struct column *c, size_t count)
{
    for (size_t n = 0; n < count; n++)
        c[n].least = 1, c[n].most = 0;
    for (size_t n = s->first; n < s->good; n++) {
        const struct removal *r = s->d->of + n;
        size_t at = (size_t)((across(s, r->seconds) - s->left) / (s->right - s->left) * (double)count);
        struct column *k = c + (at < count ? at : count - 1);
        int is_first = k->most < k->least;
        k->most = is_first || r->before > k->most ? r->before : k->most;
        k->least = is_first || r->after < k->least ? r->after : k->least;
    }
}

/* An edge of a column, from one side to the other. */
static void edge(const struct sheet *s, char command, double from, double to, double bits)
{
    double wide = (s->right - s->left) / (double)columns(s);
    fprintf(s->to, "%c%.2f %.2fH%.2f\n", command, s->left + from * wide, up(s, bits), s->left + to * wide);
}

/* There along the most of each column, and back along the least; past columns that have none. */
static void band(const struct sheet *s)
{
    struct column c[WIDTH];
    size_t count = columns(s);
    char command = 'M';
    fill_columns(s, c, count);
    fprintf(s->to, "<path id='band' fill='#9dbde0' stroke='#0a4a8f' stroke-width='.7' d='");
    for (size_t n = 0; n < count; n++) {
        if (c[n].most < c[n].least)
            continue;
        edge(s, command, (double)n, (double)(n + 1), c[n].most);
        command = 'L';
    }
    for (size_t n = count; n-- > 0;)
        if (c[n].most >= c[n].least)
            edge(s, 'L', (double)(n + 1), (double)n, c[n].least);
    fprintf(s->to, "Z'/>\n");
}

/* The rise to the first removal of a band. */
static void rise(const struct sheet *s)
{
    const struct removal *next = removal(s->d, s->first);
    fprintf(s->to, "<path id='rise' fill='none' stroke='#0a4a8f' d='M%.2f %.2f", across(s, s->from),
            up(s, held(s->d, s->first, s->from)));
    level(s, s->first, s->from);
    fprintf(s->to, "L%.2f %.2f'/>\n", across(s, next->seconds), up(s, next->before));
}

/* The two bounds: an empty buffer and a full one. */
static void bounds(const struct sheet *s)
{
    double full = up(s, (double)s->d->buffer_bits), empty = up(s, 0);
    fprintf(s->to, "<g stroke='#c00' stroke-width='1.5'>\n<path id='empty' d='M%.2f %.2fH%.2f'/>\n", s->left, empty, s->right);
    fprintf(s->to, "<path id='full' d='M%.2f %.2fH%.2f'/>\n</g>\n", s->left, full, s->right);
    fprintf(s->to, "<g fill='#c00'><text x='%.2f' y='%.2f'>%s</text><text x='%.2f' y='%.2f'>empty</text></g>\n", s->right + 8,
            full + 4.5, full < empty ? "full" : "", s->right + 8, empty + 4.5);
}

static int has_letter(const struct removal *r, int all)
{
    return r->type == 'I' || (all && (r->type == 'P' || r->type == 'B' || r->type == 'D'));
}

/* Whether letters have room, for all pictures or only for I pictures. */
static int have_room(const struct sheet *s, int all)
{
    double last = s->left - LETTER;
    for (size_t n = s->first; n < s->end; n++) {
        const struct removal *r = removal(s->d, n);
        if (!has_letter(r, all))
            continue;
        if (across(s, r->seconds) < last + LETTER)
            return 0;
        last = across(s, r->seconds);
    }
    return last >= s->left;
}

static void letters(const struct sheet *s, int all)
{
    fprintf(s->to, "<g id='types' text-anchor='middle' font-family='serif' font-size='12' fill='#444'>\n");
    for (size_t n = s->first; n < s->end; n++) {
        const struct removal *r = removal(s->d, n);
        if (has_letter(r, all))
            fprintf(s->to, "<text x='%.2f' y='%.2f'%s>%c</text>\n", across(s, r->seconds), s->top - 8,
                    n < s->good ? "" : " fill='#c00'", r->type);
    }
    fprintf(s->to, "</g>\n");
}

/* Where the refused picture's tooth begins and ends; beyond a bound by enough to be seen. */
static double bad_peak(const struct sheet *s)
{
    double full = up(s, (double)s->d->buffer_bits), y = up(s, s->d->bad.before);
    return is_over(s->d) ? within(full - PASSED, s->top, y) : y;
}

static double bad_foot(const struct sheet *s)
{
    double y = up(s, s->d->bad.after);
    return is_under(s->d) ? within(up(s, 0) + PASSED, y, s->bottom) : y;
}

/* When the rise to the refused picture reaches a height; its removal where it does not. */
static double reached(const struct drawing *d, double bits)
{
    double start = d->count > 0 ? d->of[d->count - 1].seconds : 0, from = held(d, d->count, start);
    return d->bad.before > bits ? start + (d->bad.seconds - start) * (bits - from) / (d->bad.before - from) : d->bad.seconds;
}

/* The rise to the refused picture, red where it is beyond full and broken where it is beyond the field; then its tooth. */
static void bad_tooth(const struct sheet *s)
{
    const struct drawing *d = s->d;
    double start = d->count > s->first ? d->of[d->count - 1].seconds : s->from, full = (double)d->buffer_bits;
    double passed = reached(d, full), left = reached(d, s->highest), x = across(s, d->bad.seconds);
    fprintf(s->to, "<path id='last' fill='none' stroke='#0a4a8f' stroke-width='1.2' d='M%.2f %.2f", across(s, start),
            up(s, held(d, d->count, start)));
    level(s, d->count, start);
    fprintf(s->to, "L%.2f %.2f'/>\n", across(s, passed), up(s, held(d, d->count, passed)));
    fprintf(s->to, "<g id='refused' stroke='#c00' stroke-width='1.5'><path d='M%.2f %.2fL%.2f %.2f'/>", across(s, passed),
            up(s, held(d, d->count, passed)), across(s, left), up(s, held(d, d->count, left)));
    fprintf(s->to, "<path stroke-dasharray='4 3' d='M%.2f %.2fH%.2f'/><path d='M%.2f %.2fV%.2f'/></g>\n", across(s, left),
            up(s, d->bad.before), x, x, bad_peak(s), bad_foot(s));
}

/* The words in lines, above the place where the mark's line begins. */
static void bad_words(const struct sheet *s, double x)
{
    int lines = word_lines(s), is_right = x > (double)WIDTH / 2;
    const char *words = s->d->mark;
    fprintf(s->to, "<g id='words' fill='#c00' text-anchor='%s'>\n", is_right ? "end" : "start");
    for (int n = 0; n < lines; n++) {
        fprintf(s->to, "<text x='%.2f' y='%d'>", x + (is_right ? 4 : -4), WORDS + n * WORDS_APART);
        words = put_line(s->to, words, LETTERS, WORDS_ROOM);
        fprintf(s->to, "%s</text>\n", n + 1 == lines && *words != 0 ? " &#8230;" : "");
    }
    fprintf(s->to, "</g>\n");
}

static void mark(const struct sheet *s)
{
    double x = across(s, s->d->bad.seconds), y = is_over(s->d) || !is_under(s->d) ? bad_peak(s) : bad_foot(s);
    bad_tooth(s);
    bad_words(s, x);
    fprintf(s->to, "<path stroke='#c00' stroke-dasharray='4 3' d='M%.2f %.2fV%.2f'/>\n", x, s->top - 4, y);
    fprintf(s->to, "<path id='mark' stroke='#c00' stroke-width='2.5' d='M%.2f %.2fl12 12m0 -12l-12 12'/>\n", x - 6, y - 6);
}

static void dot(const struct sheet *s, const char *id, const char *fill, double x, double y)
{
    fprintf(s->to, "<circle id='%s' r='4' stroke='#0a4a8f' stroke-width='1.5' fill='%s' cx='%.2f' cy='%.2f'/>\n", id, fill, x, y);
}

/* Dots at the first of the most before a removal and of the least after one. */
static void dots(const struct sheet *s)
{
    dot(s, "most", "#0a4a8f", across(s, s->most->seconds), up(s, s->most->before));
    dot(s, "least", "#fff", across(s, s->least->seconds), up(s, s->least->after));
}

/* An entry of the legend, its sample drawn to the left by the caller. Returns where the next one's may be. */
static double entry(const struct sheet *s, double x, double y, const char *words)
{
    fprintf(s->to, "<text x='%.2f' y='%.2f'>%s</text>\n", x, y + 4.5, words);
    return x + text_width(words, LETTERS) + 24;
}

/* Whether the refused picture goes beyond the field. */
static int is_cut(const struct sheet *s)
{
    return s->d->bad.before > s->highest || s->d->bad.after < s->lowest;
}

/* The first line of the legend: what is drawn. */
static void legend(const struct sheet *s, const char *types)
{
    double x = s->left, y = HEIGHT - 44;
    if (is_band(s)) {
        fprintf(s->to, "<rect x='%.2f' y='%.2f' width='24' height='12' fill='#9dbde0' stroke='#0a4a8f'/>\n", x, y - 6);
        x = entry(s, x + 32, y,
                  "from the least after a removal to the most before one, in each column (--from and --to draw a part)");
    } else {
        fprintf(s->to, "<path fill='none' stroke='#0a4a8f' d='M%.2f %.2fl12 -10v10l12 -10v10'/>\n", x, y + 5);
        x = entry(s, x + 32, y, s->d->variable ? "bits held, falling where a picture is removed, level while full"
                                               : "bits held, falling where a picture is removed");
    }
    if (types != NULL)
        x = entry(s, x, y, types);
    if (shows_refused(s)) {
        fprintf(s->to, "<path stroke='#c00' stroke-width='2.5' d='M%.2f %.2fl10 10m0 -10l-10 10'/>\n", x, y - 5);
        entry(s, x + 18, y, is_cut(s) ? "refused picture; what is beyond is cut" : "refused picture");
    }
}

/* An entry for a dot: what it is, its amount, and the removal's picture and time. */
static double dot_entry(const struct sheet *s, double x, double y, const char *what, double bits, const struct removal *r)
{
    char words[200], amount[LABEL_BYTES], picture[LABEL_BYTES], at[LABEL_BYTES];
    snprintf(words, sizeof words, "%s: %s, picture %s, %s", what, grouped((uint64_t)within(bits, 0, MOST_BITS), amount),
             grouped(r->picture, picture), clocked(r->seconds, 3, at));
    return entry(s, x, y, words);
}

/* The second line: the dots. */
static void legend_of_dots(const struct sheet *s)
{
    double x = s->left, y = HEIGHT - 20;
    dot(s, "most-sample", "#0a4a8f", x + 12, y);
    x = dot_entry(s, x + 32, y, "most before a removal", s->most->before, s->most);
    dot(s, "least-sample", "#fff", x + 4, y);
    dot_entry(s, x + 18, y, "least after one", s->least->after, s->least);
}

static void content(const struct sheet *s)
{
    int all = have_room(s, 1), some = all || have_room(s, 0);
    if (is_band(s)) {
        rise(s);
        band(s);
    } else if (removals(s->d) > 0) {
        curve(s);
    }
    bounds(s);
    if (some)
        letters(s, all);
    if (s->most != NULL) {
        dots(s);
        legend_of_dots(s);
    }
    if (shows_refused(s))
        mark(s);
    legend(s, all ? "I, P, B on top: types of the pictures" : some ? "I on top: an I picture" : NULL);
}

void plot(FILE *to, const struct drawing *d)
{
    struct sheet s = { .to = to, .d = d };
    set_time(&s);
    set_bits(&s);
    set_field(&s);
    fprintf(to, "<svg xmlns='http://www.w3.org/2000/svg' width='%d' height='%d' viewBox='0 0 %d %d' ", WIDTH, HEIGHT, WIDTH,
            HEIGHT);
    fprintf(to, "font-family='sans-serif' font-size='%d'>\n<rect width='%d' height='%d' fill='#fff'/>\n", LETTERS, WIDTH, HEIGHT);
    heading(&s);
    bits_axis(&s);
    time_axis(&s);
    content(&s);
    fprintf(to, "</svg>\n");
}
