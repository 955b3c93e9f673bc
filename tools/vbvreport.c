/* vbvreport: the buffer report of streams and recordings. All judgement is the library's. */
#define _XOPEN_SOURCE 700
#include "caution.h"
#include "container.h"
#include "hipokuta.h"
#include "input.h"
#include "label.h"
#include "place.h"
#include "plot.h"
#include "script.h"
#include "words.h"

#include <errno.h>
#include <getopt.h>
#include <signal.h>
#include <stdio.h>
#include <stdlib.h>
#include <string.h>
#include <sys/time.h>
#include <unistd.h>

const char program[] = "vbvreport";

enum { ACCEPTED = 0, REFUSED = 1, TROUBLE = 2, CAUTIONS = 3 };
enum form { WORDS, JSON, CSV };

/* After any stream's end. */
static const double LAST_SECOND = 1e15;

static const char help[] =
    "usage: vbvreport [-1|-2] [--film] [--constant|--variable] [-r] [-p PLOT.svg [--from T] [--to T]] [--json|--csv] [--strict]\n"
    "                 [--stream N] FILE...\n"
    "\n"
    "Checks the MPEG video stream in each FILE against the buffer model of ISO/IEC 13818-2, Annex C, and prints the buffer\n"
    "report; or the first refusal, where in the stream it is, and what it means for the cabin set. MPEG-2 whose first delay is\n"
    "0xFFFF is checked at a variable rate, and all else at a constant one. FILE is an elementary stream, or a transport or program\n"
    "stream or another container (where this was built with libavformat); - is standard input. Cautions below the verdict tell of\n"
    "what the check does not read, such as repeated fields without --film, and of signs that the stream is not whole.\n"
    "\n"
    "  -1, -2             the stream is MPEG-1, MPEG-2. Without either its headers tell.\n"
    "  --film             counts repeated fields (repeat_first_field), as film on 30000/1001 channels has them; MPEG-2 only.\n"
    "  --constant         checks at a constant rate, whatever the delays: 0xFFFF in the first picture is then refusal 5.\n"
    "  --variable         checks at a variable rate, as of disc material: the buffer is full at the first removal, is filled at\n"
    "                     the declared rate, and waits while it is full; MPEG-2 only. Any delay but 0xFFFF is then refusal 25.\n"
    "  -r, --records      lists a record for each picture: coded and expected delay in ticks of 1/90,000 s, bits of data, bits in\n"
    "                     the buffer just before the picture is removed, and field periods up to the next removal, 1 for a field\n"
    "                     picture and 2 for a frame (20 ms each at 25 frames a second), with --film 1, 2, 3, 4 or 6; of a refused\n"
    "                     stream, up to the refused picture.\n"
    "  -p, --plot PLOT.svg  draws what the buffer holds before and after each removal, up to the refused picture if there is one;\n"
    "                     to standard output where PLOT.svg is -, and what else is printed then goes to standard error.\n"
    "  --from T, --to T   draws this part only, from the start or to the end where one is left out; T in seconds, or as mm:ss.mmm\n"
    "                     or h:mm:ss.mmm.\n"
    "  --json             an object for each file, in a line; with the pictures under -r.\n"
    "  --csv              a line for each picture; the refused one's is the last, and marked. Both also tell of a file that\n"
    "                     gets no answer, and why.\n"
    "  --strict           exit status 3 where a stream is accepted with cautions.\n"
    "  --stream N         the N-th MPEG video of a container, from 1 (others are not counted), or its PID as 0x101.\n"
    "  --version          prints the version.\n"
    "  -h, --help         prints this.\n"
    "\n"
    "Exit status: 0 accepted, 1 refused, 2 bad use, or a file that cannot be read or written or is no MPEG video; 3 accepted with\n"
    "cautions, under --strict. Of several files the worst: 2, then 1, then 3.\n";

/* At which rate a stream is checked: as its first delay tells, or as asked for. */
enum rate { BY_DELAYS, CONSTANT, VARIABLE };

struct options {
    uint8_t standard; /* 0: as the headers tell */
    enum rate rate;
    int film, records, strict;
    enum form form;
    const char *picture, *which;
    double from, to; /* to: less than 0 for the end */
    FILE *canvas;    /* standard output, where the drawing goes there; else NULL */
};

/* The file that is worked on, and whether that was said, for the signal handler. */
static const char *volatile at_work;
static volatile sig_atomic_t said;

static void on_alarm(int number)
{
    (void)number;
    say("\r");
    say(program);
    say(": still at work on ");
    say(at_work);
    said = 1;
}

/* On a terminal, says after two seconds and then each second that there is work going on. */
static void start_progress(const char *name)
{
    struct sigaction action = { .sa_handler = on_alarm, .sa_flags = SA_RESTART };
    struct itimerval each = { { 1, 0 }, { 2, 0 } };
    if (!isatty(STDERR_FILENO))
        return;
    sigemptyset(&action.sa_mask);
    at_work = name;
    sigaction(SIGALRM, &action, NULL);
    setitimer(ITIMER_REAL, &each, NULL);
}

static void end_progress(void)
{
    struct itimerval none = { { 0, 0 }, { 0, 0 } };
    setitimer(ITIMER_REAL, &none, NULL);
    if (said)
        say("\r\033[K");
    said = 0;
}

/* The refused picture's removal; false where it is not told. */
static int bad_removal(const struct answer *a, struct removal *r)
{
    const struct place *p = &a->place;
    if (!p->in_picture || !p->timed)
        return 0;
    double held = in_bits(p->held);
    *r = (struct removal){ in_seconds(p->due, a->declared.bit_rate), held, held - (double)data_bits(a, p->picture),
                           type_letter(a->shown[p->picture].type), p->picture };
    return 1;
}

static void fill_removals(const struct answer *a, struct removal *of)
{
    struct times times = { a, 0, 0 };
    for (size_t n = 0; n < a->recorded; n++) {
        double before = (double)a->records[n].occupancy_before;
        of[n] = (struct removal){ in_seconds(next_time(&times), a->declared.bit_rate), before,
                                  before - (double)a->records[n].data_bits, type_letter(a->shown[n].type), n };
    }
}

static const char *verdict_words(const struct told *t)
{
    return t->answer->number != 0 ? "refused" : t->cautions->count > 0 ? "accepted, with cautions" : "accepted";
}

/* The refusal with its amount, or the delays that differ; the picture, and when it is due. */
static const char *mark_words(const struct answer *a, const struct removal *bad, char *text, size_t room)
{
    char line[120], delays[120] = "", coded[LABEL_BYTES], expected[LABEL_BYTES], picture[LABEL_BYTES], at[LABEL_BYTES];
    if (a->number == VBV_DELAY_MISMATCH)
        snprintf(delays, sizeof delays, ", coded %s, expected %s", grouped(a->refusal.coded, coded),
                 grouped(a->refusal.expected, expected));
    snprintf(text, room, "%s%s: picture %s, at %s", refusal_line(a, line, sizeof line), delays, grouped(bad->picture, picture),
             clocked(bad->seconds, 3, at));
    return text;
}

/* Draws to an open file. Returns 0, or 2 with the trouble told. */
static int draw_to(FILE *file, const struct told *t, const struct options *o)
{
    const struct answer *a = t->answer;
    char rate[TEXT], mark[300];
    struct removal *of = calloc(a->recorded + 1, sizeof *of);
    struct drawing d = { .name = t->name, .verdict = verdict_words(t), .bit_rate = a->declared.bit_rate,
                         .buffer_bits = a->declared.buffer_bits, .frame_rate = frame_rate(&a->declared, rate), .film = o->film,
                         .variable = is_variable(a->mode), .of = of, .count = a->recorded, .from = o->from,
                         .to = o->to >= 0 ? o->to : o->from > 0 ? LAST_SECOND : 0 };
    if (of == NULL)
        return trouble(o->picture, "no memory for the drawing");
    fill_removals(a, of);
    if (a->number != 0 && bad_removal(a, &d.bad))
        d.mark = mark_words(a, &d.bad, mark, sizeof mark);
    plot(file, &d);
    free(of);
    return 0;
}

/* Of two statuses, the one that is told: 2 over 1 over 3 over 0. */
static int worse(int a, int b)
{
    static const int order[] = { [ACCEPTED] = 0, [CAUTIONS] = 1, [REFUSED] = 2, [TROUBLE] = 3 };
    return order[a] >= order[b] ? a : b;
}

/* Why there is nothing to draw; a drawing that is there already is left, and that is said. Returns the status for it. */
static int not_drawn(const struct options *o)
{
    int older = o->canvas == NULL && access(o->picture, F_OK) == 0;
    trouble(o->picture, older ? "not drawn: the refusal leaves no picture whose time is known; the older file of this name stays"
                              : "not drawn: the refusal leaves no picture whose time is known");
    return ACCEPTED;
}

static int draw(const struct told *t, const struct options *o)
{
    struct removal bad;
    if (t->answer->recorded == 0 && (t->answer->number == 0 || !bad_removal(t->answer, &bad)))
        return not_drawn(o);
    if (o->canvas == NULL && same_file(t->name, o->picture))
        return trouble(o->picture, "the same file as the stream");
    FILE *file = o->canvas != NULL ? o->canvas : fopen(o->picture, "w");
    if (file == NULL)
        return trouble(o->picture, strerror(errno));
    int status = draw_to(file, t, o), unwritten = ferror(file);
    if (fclose(file) != 0 || unwritten)
        return trouble(o->canvas != NULL ? "standard output" : o->picture, "cannot be written");
    return status;
}

static int tell(const struct told *t, const struct options *o)
{
    const struct answer *a = t->answer;
    int status = a->number != 0 ? REFUSED : o->strict && t->cautions->count > 0 ? CAUTIONS : ACCEPTED;
    if (o->form == JSON)
        print_json(t, o->records);
    else if (o->form == CSV)
        print_csv(t);
    else
        print_words(t, o->records);
    return o->picture != NULL ? worse(status, draw(t, o)) : status;
}

/* A file that gets no answer, for scripts. */
static int no_answer(const char *name, const char *why, const struct options *o)
{
    if (o->form == JSON)
        print_json_trouble(name, why);
    else if (o->form == CSV)
        print_csv_trouble(name, why);
    return TROUBLE;
}

/* Whether the first delay is 0xFFFF, by the library: it tests that after all headers, and tells it of what stands before a bad
 * one. */
static int begins_variable(const struct answer *a)
{
    return a->number == VBV_VARIABLE_RATE || a->before == VBV_VARIABLE_RATE;
}

/* Asks in the mode that is wanted; where the delays are to tell, and the first is 0xFFFF, once more at a variable rate. Returns
 * 0, or 1 where memory does not suffice. */
static int ask_wanted(const struct input *in, uint8_t standard, const struct options *o, struct answer *a)
{
    int records = o->records || o->picture != NULL || o->form == CSV;
    uint8_t mode = (uint8_t)(standard + (o->film ? VBV_FILM : 0)), variable = (uint8_t)(mode + VBV_VARIABLE);
    int bad = ask(&in->stream, o->rate == VARIABLE ? variable : mode, records, a);
    if (bad || o->rate != BY_DELAYS || standard == VBV_MPEG1 || !begins_variable(a))
        return bad;
    forget(a);
    return ask(&in->stream, variable, records, a);
}

static int can_be_of_a_stream(uint64_t number)
{
    return vbv_refusal_name(number) != NULL && (number < VBV_RECORD_PLACES || number == VBV_CONSTANT_RATE);
}

/* Asks the library about what was taken in. Returns NULL, or why there is no answer. */
static const char *asked(const struct input *in, uint8_t standard, const struct options *o, struct answer *a)
{
    if (standard == 0)
        return "its headers do not tell its standard; say -1 (MPEG-1) or -2 (MPEG-2)";
    if (o->film && standard == VBV_MPEG1)
        return "MPEG-1, and --film is for MPEG-2: MPEG-1 repeats no fields";
    if (o->rate == VARIABLE && standard == VBV_MPEG1)
        return "MPEG-1, and --variable is for MPEG-2: MPEG-1 is checked at a constant rate only";
    if (ask_wanted(in, standard, o, a) != 0)
        return "no memory for its pictures";
    return a->number == 0 || can_be_of_a_stream(a->number) ? NULL : "the library gave a refusal that no stream can cause";
}

static int check(const char *name, const struct input *in, const struct options *o)
{
    struct answer a = { .number = 0 };
    struct cautions cautions;
    uint8_t standard = o->standard != 0 ? o->standard : in->standard;
    const char *why = asked(in, standard, o, &a);
    int status;
    if (why != NULL) {
        end_progress();
        trouble(name, why);
        status = no_answer(name, why, o);
    } else {
        struct told t = { name, o->which, in, standard, o->rate == BY_DELAYS, &a, &cautions };
        find_cautions(in, standard, &a, &cautions);
        end_progress();
        status = tell(&t, o);
    }
    forget(&a);
    return status;
}

static int check_file(const char *name, const struct options *o)
{
    struct input in;
    start_progress(name);
    int status = take_in_as(name, o->which, o->standard, &in);
    if (status == 0) {
        status = check(name, &in, o);
        let_go(&in);
    } else {
        no_answer(name, in.why, o);
    }
    end_progress();
    return status;
}

static int bad_use(const char *what)
{
    fprintf(stderr, "vbvreport: %s\n", what);
    fprintf(stderr, "usage: vbvreport [-1|-2] [--film] [--constant|--variable] [-r] [-p PLOT.svg] [--json|--csv] FILE...   "
            "(--help says more)\n");
    return TROUBLE;
}

/* Seconds, mm:ss.mmm or h:mm:ss.mmm; less than 0 for anything else. */
static double seconds(const char *text)
{
    double value = 0;
    if (strspn(text, "0123456789:.") != strlen(text))
        return -1;
    for (int parts = 0; parts < 3; parts++) {
        char *end;
        double some = strtod(text, &end);
        int last = *end != ':';
        if (end == text || (parts > 0 && some >= 60) || (!last && memchr(text, '.', (size_t)(end - text)) != NULL))
            return -1;
        value = 60 * value + some;
        if (last)
            return *end == 0 ? value : -1;
        text = end + 1;
    }
    return -1;
}

enum { FROM = 256, TO, FILM, AT_CONSTANT, AT_VARIABLE, JSON_FORM, CSV_FORM, STRICT, STREAM, VERSION };

static const struct option long_options[] = {
    { "film", no_argument, NULL, FILM },
    { "constant", no_argument, NULL, AT_CONSTANT },
    { "variable", no_argument, NULL, AT_VARIABLE },
    { "records", no_argument, NULL, 'r' },
    { "plot", required_argument, NULL, 'p' },
    { "from", required_argument, NULL, FROM },
    { "to", required_argument, NULL, TO },
    { "json", no_argument, NULL, JSON_FORM },
    { "csv", no_argument, NULL, CSV_FORM },
    { "strict", no_argument, NULL, STRICT },
    { "stream", required_argument, NULL, STREAM },
    { "version", no_argument, NULL, VERSION },
    { "help", no_argument, NULL, 'h' },
    { NULL, 0, NULL, 0 },
};

/* Takes an option. Returns NULL, or what is wrong with it. */
static const char *take_option(struct options *o, int option)
{
    if (option == '1' || option == '2') {
        int other = o->standard != 0 && o->standard != option - '0';
        o->standard = (uint8_t)(option - '0');
        return other ? "-1 and -2 exclude each other" : NULL;
    }
    if (option == AT_CONSTANT || option == AT_VARIABLE) {
        enum rate wanted = option == AT_CONSTANT ? CONSTANT : VARIABLE, before = o->rate;
        o->rate = wanted;
        return before != BY_DELAYS && before != wanted ? "--constant and --variable exclude each other" : NULL;
    }
    if (option == JSON_FORM || option == CSV_FORM) {
        int other = o->form != WORDS;
        o->form = option == JSON_FORM ? JSON : CSV;
        return other ? "give one of --json and --csv, once" : NULL;
    }
    if (option == FROM || option == TO) {
        double value = seconds(optarg);
        *(option == FROM ? &o->from : &o->to) = value;
        return value < 0 ? "a time is in seconds, or mm:ss.mmm, or h:mm:ss.mmm" : NULL;
    }
    o->film |= option == FILM;
    o->records |= option == 'r';
    o->strict |= option == STRICT;
    o->picture = option == 'p' ? optarg : o->picture;
    o->which = option == STREAM ? optarg : o->which;
    return NULL;
}

/* An option that there is not, or that wants a word after it. */
static int bad_option(int option, char **words)
{
    char text[200];
    if (option == ':')
        snprintf(text, sizeof text, "%.80s: a word must follow", words[optind - 1]);
    else if (optopt > 0 && optopt < FROM)
        snprintf(text, sizeof text, "-%c: there is no such option; -- goes before a file whose name begins with -", optopt);
    else
        snprintf(text, sizeof text, "%.80s: there is no such option", words[optind - 1]);
    return bad_use(text);
}

/* What is wrong with the options together; NULL for nothing. */
static const char *wrong(const struct options *o, int files)
{
    if (files < 1)
        return "name a file, or - for standard input";
    if (o->film && o->standard == VBV_MPEG1)
        return "--film is for MPEG-2: leave out -1";
    if (o->rate == VARIABLE && o->standard == VBV_MPEG1)
        return "--variable is for MPEG-2: leave out -1";
    if (files > 1 && o->picture != NULL)
        return "-p draws one file";
    if ((o->from > 0 || o->to >= 0) && o->picture == NULL)
        return "--from and --to are for -p";
    if (o->form != WORDS && o->picture != NULL && strcmp(o->picture, "-") == 0)
        return "-p - draws to standard output, where --json and --csv print: name a file";
    return o->to >= 0 && o->to <= o->from ? "--to must be after --from" : NULL;
}

static int print(const char *text)
{
    return fputs(text, stdout) < 0 || fflush(stdout) != 0 ? TROUBLE : 0;
}

static int print_version(void)
{
    printf("vbvreport (Hipokuta) %s, %s\n", HIPOKUTA_VERSION, CONTAINERS);
    return print("");
}

static int check_files(char **names, const struct options *o)
{
    int status = ACCEPTED;
    if (o->form == CSV)
        print_csv_names();
    for (; *names != NULL; names++) {
        status = worse(status, check_file(*names, o));
        if (fflush(stdout) != 0 || ferror(stdout))
            return trouble("standard output", "cannot be written");
    }
    return status;
}

/* Keeps standard output for the drawing; what is printed goes to standard error from now on. */
static int keep_output(struct options *o)
{
    int kept = dup(STDOUT_FILENO);
    if (kept < 0 || dup2(STDERR_FILENO, STDOUT_FILENO) < 0 || (o->canvas = fdopen(kept, "w")) == NULL)
        return trouble("standard output", strerror(errno));
    return 0;
}

/* Whether the word just read is one for help and nothing else: -dash.m2v is not. */
static int asks_help(const char *word)
{
    return strcmp(word, "-h") == 0 || strncmp(word, "--", 2) == 0;
}

int main(int count, char **words)
{
    struct options o = { .form = WORDS, .to = -1 };
    const char *why = NULL;
    opterr = 0;
    for (int option; (option = getopt_long(count, words, ":12rp:h", long_options, NULL)) != -1;) {
        if (option == 'h')
            return asks_help(words[optind - 1]) ? print(help) : bad_use("-h goes by itself");
        if (option == VERSION)
            return print_version();
        if (option == '?' || option == ':')
            return bad_option(option, words);
        const char *bad = take_option(&o, option);
        why = why != NULL ? why : bad;
    }
    why = why != NULL ? why : wrong(&o, count - optind);
    if (why != NULL)
        return bad_use(why);
    if (o.picture != NULL && strcmp(o.picture, "-") == 0 && keep_output(&o) != 0)
        return TROUBLE;
    return check_files(words + optind, &o);
}
