#define _POSIX_C_SOURCE 200809L
#include "request.h"

#include "container.h"
#include "hipokuta.h"
#include "shell.h"

#include <getopt.h>
#include <inttypes.h>
#include <string.h>

static const char help[] =
    "usage: cbrsend [--film] [--variable] [-b RATE] [-B BUFFER] [--stream N] IN OUT\n"
    "       cbrsend --least-rate [--film] [--variable] [-B BUFFER] [--stream N] IN\n"
    "\n"
    "Takes the pictures of the MPEG-2 video in IN, made at whatever rate, and writes them to OUT at a constant one: with new\n"
    "delays, and stuffing where the buffer would overflow; or with --variable at a variable one. OUT is checked before it takes\n"
    "the place of an older OUT, and when something is refused or goes wrong the older one stays. Pictures are not encoded again:\n"
    "where one is too large, it is said by how much, and which commands would do. IN is an elementary stream, a transport stream\n"
    "or a program stream; OUT is an elementary stream. - is standard input or standard output. What is left out of IN:\n"
    "SENDING.md (in docs/, or where this is installed in share/doc/hipokuta/).\n"
    "\n"
    "  -b RATE       bits a second, a multiple of 400 from 400 to 104857200, such as 4000000, 4000k or 4M. Without it, what\n"
    "                IN's sequence header says.\n"
    "  -B BUFFER     the set's buffer in units of 16384 bits, 1 to 1023. Without it, what IN's sequence header says.\n"
    "  --film        takes pictures that repeat a field (repeat_first_field), which are refused otherwise, and counts the time\n"
    "                that they last; vbvreport --film checks OUT.\n"
    "  --variable    writes OUT for a variable rate, as discs have it: the delay 0xFFFF in each picture and no stuffing. The\n"
    "                buffer is then filled at RATE while it is not full.\n"
    "  --least-rate  writes nothing but the least rate that carries IN with this buffer, on standard output.\n"
    "  --stream N    which video of a transport or program stream.\n"
    "  --version     prints the version.\n"
    "  -h, --help    prints this.\n"
    "\n"
    "Exit status: 0 sent, or a least rate found; 1 refused, or no rate found; 2 bad use, or something that cannot be read or\n"
    "written, or that is no video. OUT is written only with 0.\n";

enum { LEAST_RATE = 256, FILM, VARIABLE, STREAM, VERSION };

static const struct option options[] = {
    { "film", no_argument, NULL, FILM },
    { "variable", no_argument, NULL, VARIABLE },
    { "least-rate", no_argument, NULL, LEAST_RATE },
    { "stream", required_argument, NULL, STREAM },
    { "version", no_argument, NULL, VERSION },
    { "help", no_argument, NULL, 'h' },
    { NULL, 0, NULL, 0 },
};

/* Digits, with a point where k (1,000) or M (1,000,000) follows, for a whole number. Returns 0 where it is none; what is too
 * large for any use is still large. */
static int number(const char *text, uint64_t *value)
{
    static const uint64_t large = UINT64_C(1000000000000);
    int digits = 0, point = 0, places = 0;
    for (*value = 0; (*text >= '0' && *text <= '9') || (*text == '.' && !point); text++) {
        if (*text == '.') {
            point = 1;
            continue;
        }
        if (*value < large)
            *value = 10 * *value + (uint64_t)(*text - '0');
        digits++;
        places += point;
    }
    int power = *text == 'k' || *text == 'K' ? 3 : *text == 'M' ? 6 : 0;
    for (int more = places; more < power; more++)
        *value *= 10;
    return digits > 0 && places <= power && text[power > 0] == 0;
}

static int bad_option(char option, const char *text)
{
    fprintf(stderr, "%s: -%c %s: ", program, option, text);
    return 2;
}

static int read_rate(const char *text, struct setting *at)
{
    static const uint64_t most = (uint64_t)CBR_MOST_RATE * CBR_RATE_UNIT;
    uint64_t rate;
    int bad = 0;
    if (!number(text, &rate)) {
        bad = bad_option('b', text);
        fprintf(stderr, "the rate must be a number of bits a second, such as 4000000, 4000k or 4M\n");
    } else if (rate < CBR_RATE_UNIT || rate > most) {
        bad = bad_option('b', text);
        fprintf(stderr, "the rate must be from %d to %" PRIu64 " bits a second\n", CBR_RATE_UNIT, most);
    } else if (rate % CBR_RATE_UNIT != 0) {
        uint64_t below = rate - rate % CBR_RATE_UNIT;
        bad = bad_option('b', text);
        fprintf(stderr, "the rate must be a multiple of %d: %" PRIu64 " or %" PRIu64 "\n", CBR_RATE_UNIT, below,
                below + CBR_RATE_UNIT);
    }
    at->rate = bad ? 0 : (uint32_t)(rate / CBR_RATE_UNIT);
    return bad;
}

static int read_buffer(const char *text, struct setting *at)
{
    uint64_t units;
    int is_number = number(text, &units);
    if (is_number && units >= 1 && units <= CBR_MOST_BUFFER) {
        at->buffer = (uint32_t)units;
        return 0;
    }
    int bad = bad_option('B', text);
    fprintf(stderr, "the buffer must be from 1 to %d units of %d bits", CBR_MOST_BUFFER, CBR_BUFFER_UNIT);
    if (is_number && units / CBR_BUFFER_UNIT >= 1 && units / CBR_BUFFER_UNIT <= CBR_MOST_BUFFER)
        fprintf(stderr, "; %" PRIu64 " bits are %" PRIu64 " units", units, units / CBR_BUFFER_UNIT);
    fprintf(stderr, "\n");
    return bad;
}

static int print_only(const char *text)
{
    return fputs(text, stdout) < 0 || fflush(stdout) != 0 ? trouble("standard output", "cannot be written") : 0;
}

/* An option that there is not, or that wants a word after it. */
static int bad_word(int option, char **words)
{
    const char *word = words[optind - 1];
    if (option == ':')
        fprintf(stderr, "%s: %s: a word must follow; --help says more\n", program, word);
    else if (option == '?' && optopt > 0 && optopt < LEAST_RATE)
        fprintf(stderr, "%s: -%c: there is no such option; --help lists them\n", program, optopt);
    else
        fprintf(stderr, "%s: %s: there is no such option; --help lists them\n", program, word);
    if (option != ':')
        fprintf(stderr, "A file whose name begins with - is written ./-NAME.\n");
    return 2;
}

/* Not so is the -h in a name such as -hall.m2v. */
static int stands_alone(const char *word)
{
    return strcmp(word, "-h") == 0 || strncmp(word, "--", 2) == 0;
}

static int read_option(int option, char **words, struct request *r, int *least)
{
    switch (option) {
    case 'b':
        return read_rate(optarg, &r->at) == 0 ? GO : 2;
    case 'B':
        return read_buffer(optarg, &r->at) == 0 ? GO : 2;
    case STREAM:
        r->which = optarg;
        return GO;
    case FILM:
        r->film = 1;
        return GO;
    case VARIABLE:
        r->variable = 1;
        return GO;
    case LEAST_RATE:
        *least = 1;
        return GO;
    case VERSION:
        printf("cbrsend (Hipokuta) %s, %s\n", HIPOKUTA_VERSION, CONTAINERS);
        return print_only("");
    case 'h':
        return stands_alone(words[optind - 1]) ? print_only(help) : bad_word('h', words + 1);
    default:
        return bad_word(option, words);
    }
}

static int bad_use(const char *what)
{
    fprintf(stderr, "%s: %s\n", program, what);
    fprintf(stderr, "usage: cbrsend [--film] [--variable] [-b RATE] [-B BUFFER] IN OUT, or cbrsend --least-rate [--film] "
            "[--variable] [-B BUFFER] IN   (--help says more)\n");
    return 2;
}

int read_words(int count, char **words, struct request *r)
{
    int least = 0;
    *r = (struct request){ .call = count > 0 ? words[0] : program };
    opterr = 0;
    for (int option; (option = getopt_long(count, words, ":b:B:h", options, NULL)) != -1;) {
        int status = read_option(option, words, r, &least);
        if (status != GO)
            return status;
    }
    int names = count - optind;
    if (least && r->at.rate != 0)
        return bad_use("--least-rate finds a rate: leave out -b");
    if (least && names != 1)
        return bad_use(names < 1 ? "IN is missing" : "--least-rate takes IN and no OUT");
    if (!least && names < 2)
        return bad_use(names < 1 ? "IN and OUT are missing" : "OUT is missing");
    if (!least && names > 2)
        return bad_use("there are more names than IN and OUT");
    r->from = words[optind];
    r->to = least ? NULL : words[optind + 1];
    return GO;
}

static void print_word(const char *word)
{
    char text[WORD_BYTES];
    printf(" %s", shell_word(word, text, sizeof text));
}

void print_command(const struct request *r, struct setting at)
{
    printf("   ");
    print_word(r->call);
    if (r->film)
        printf(" --film");
    if (r->variable)
        printf(" --variable");
    if (r->to == NULL)
        printf(" --least-rate -B %" PRIu32, at.buffer);
    else
        printf(" -b %" PRIu32 " -B %" PRIu32, at.rate * CBR_RATE_UNIT, at.buffer);
    if (r->which != NULL) {
        printf(" --stream");
        print_word(r->which);
    }
    if (begins_like_option(r->from) || begins_like_option(r->to))
        printf(" --");
    print_word(r->from);
    if (r->to != NULL)
        print_word(r->to);
    printf("\n");
}
