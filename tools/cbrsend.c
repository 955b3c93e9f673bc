/* cbrsend: sends the pictures of an MPEG-2 stream at a constant rate, or at a variable one. All judgement is the library's. */
#define _POSIX_C_SOURCE 200809L
#include "advice.h"
#include "caution.h"
#include "hipokuta.h"
#include "input.h"
#include "outfile.h"
#include "report.h"
#include "request.h"
#include "sending.h"

#include <errno.h>
#include <fcntl.h>
#include <inttypes.h>
#include <stdlib.h>
#include <string.h>
#include <sys/mman.h>
#include <unistd.h>

const char program[] = "cbrsend";

enum { SENT = 0, REFUSED = 1, TROUBLE = 2 };

/* A sending: what was asked for, where the stream comes from, and where the result goes. */
struct job {
    struct request asked;
    struct input input;
    struct source in;
    struct wanted want;
    int data; /* standard output, for bytes and the least rate; words are then on standard error */
};

/* The stream's name, and of a container what was taken from it. */
static void print_name(const struct job *j, const char *words)
{
    printf("%s", j->in.name);
    if (j->input.about[0] != 0)
        printf(" (%s)", j->input.about);
    printf(": %s", words);
}

static void print_damage(const struct job *j)
{
    if (j->input.damaged > 0)
        printf("  Packets of IN that are torn or follow a lost one: %zu. Capture it again, if you can.\n", j->input.damaged);
}

/* What of IN is not there, or not taken. */
static void print_lost(const struct job *j)
{
    const struct pictures *p = &j->in.pictures;
    print_damage(j);
    if (p->before > 0)
        printf("  Left out: %zu bytes before the first sequence header, with %zu pictures.\n", p->before, p->early);
}

/* What is wanted, and what would do instead. */
static void advise_job(struct job *j)
{
    struct setting at = usable(j->want.at);
    print_wanted(&j->want);
    advise(&j->in, &j->asked, at, least_rate(&j->in, at));
}

/* What is refused, and why. */
static int refuse(struct job *j, const struct sending *end)
{
    int placed = end->number >= VBV_EARLY && end->number != VBV_PARAMETER;
    end_progress(&j->in.progress);
    if (vbv_refusal_name(end->number) == NULL)
        return trouble(j->in.name, "the library gave a refusal that no stream can cause: a defect, please report it");
    print_name(j, "refused");
    if (placed) {
        printf(" at ");
        print_place(&j->in, end);
    }
    printf("\n  refusal %" PRIu64 ": %s\n  %s\n", end->number, vbv_refusal_name(end->number), vbv_refusal_text(end->number));
    print_lost(j);
    if (end->number == CBR_TOO_LARGE)
        printf("  The picture is %" PRIu64 " bytes too large.\n", end->bytes_over);
    if (placed)
        print_cause(&j->in, end);
    if (end->number == VBV_PARAMETER)
        print_why_setting(j->want.at);
    if (is_of_setting(end->number))
        advise_job(j);
    return REFUSED;
}

/* Nobody has asked for a rate: then none is chosen here, but one is told. */
static int refuse_no_rate(struct job *j)
{
    print_name(j, "refused");
    printf("\n");
    print_lost(j);
    advise_job(j);
    return REFUSED;
}

/* The library's check of what was written. */
static int check(const struct outfile *out, uint64_t bytes, uint8_t mode, struct vbv_report *report)
{
    void *mapped = mmap(NULL, bytes, PROT_READ, MAP_SHARED, fileno(out->file), 0);
    if (mapped == MAP_FAILED)
        return trouble(out->name, strerror(errno));
    struct vbv_refusal refusal;
    uint64_t number = vbv_report(mapped, bytes, mode, report, sizeof *report, &refusal, sizeof refusal);
    munmap(mapped, bytes);
    return number == 0 ? 0 : trouble(out->name, "refused by the check: a defect of this program or the library, please report it");
}

static void print_left_out(const struct source *in)
{
    const struct pictures *p = &in->pictures;
    size_t headers = 0, layers = 0;
    for (size_t n = 0; n < p->count; n++) {
        headers += p->of[n].headers_length;
        layers += p->of[n].layer_length;
    }
    printf("  Left out: %zu bytes. Repeated sequence headers: %zu, sequence ends: %zu,\n", in->stream.length - headers - layers,
           p->repeated, p->ends);
    printf("  bytes of headers without a picture: %zu", p->headers_length - headers);
    if (p->before > 0)
        printf(",\n  bytes before the first sequence header: %zu, with %zu pictures", p->before, p->early);
    if (p->after_ends > 0)
        printf(",\n  bytes after a sequence end that are no video: %zu", p->after_ends);
    printf("; the rest is stuffing.\n");
}

/* Signs of a stream that is not whole, as vbvreport tells them: OUT does not show them any more. */
static int is_of_the_end(const struct caution *c)
{
    return strncmp(c->name, "cut ", 4) == 0 || strcmp(c->name, "no sequence end") == 0;
}

static void print_cautions(const struct job *j)
{
    const struct stream *s = &j->input.stream;
    struct answer a = { .number = 0 };
    struct cautions found;
    look(s, VBV_MPEG2, &a.look, NULL);
    a.declared = declared_at(s, a.look.sequence, VBV_MPEG2);
    find_cautions(&j->input, VBV_MPEG2, &a, &found);
    if (a.look.changes > 0)
        printf("  caution: Later sequence headers that declare another rate or buffer: %zu, the first at byte %zu%s. They\n"
               "  are left out, and OUT declares what it is sent at.\n", a.look.changes, a.look.change,
               j->in.unpacked ? " of its video" : "");
    for (size_t i = 0; i < found.count; i++)
        if (is_of_the_end(&found.of[i]))
            printf("  caution: %s\n", found.of[i].words);
}

static void print_sent(const struct job *j, const struct sending *end, const struct vbv_report *report)
{
    printf("%s: sent at a %s rate%s\n", j->asked.to, j->in.variable ? "variable" : "constant", j->in.film ? ", as film" : "");
    if (j->input.about[0] != 0)
        printf("  From %s: %s.\n", j->in.name, j->input.about);
    print_damage(j);
    print_report(report, j->in.variable);
    if (j->in.variable)
        printf("  %-12s %12d  in every picture: 0xFFFF, as at a variable rate\n", "delay", 0xFFFF);
    printf("  %-12s %12" PRIu64 "  bytes\n", "stuffing", end->stuffing);
    print_left_out(&j->in);
    print_cautions(j);
    if (is_swollen(&j->in, end->bytes)) {
        struct request least = j->asked;
        least.to = NULL;
        printf("  OUT has %" PRIu64 " bytes and IN %zu. This says the least rate that would do:\n", end->bytes,
               j->in.stream.length);
        print_command(&least, j->want.at);
    }
}

/* Words that could not be written are told, and nothing is sent without them. */
static int said(void)
{
    return fflush(stdout) != 0 || ferror(stdout) ? trouble("standard output", "cannot be written") : 0;
}

/* Words about a file come before it, words about standard output after. */
static int send_to(struct job *j, struct outfile *out)
{
    struct vbv_report report;
    struct sending end = send_all(&j->in, j->want.at, out->file);
    if (end.number != 0)
        return refuse(j, &end);
    show_stage(&j->in.progress, "writing to the disk, and checking");
    int status = end.unwritten != 0 ? trouble(out->name, strerror(end.unwritten)) : settle_out(out);
    if (status == 0)
        status = check(out, end.bytes, mode_of(&j->in), &report);
    if (status == 0)
        status = hand_out(out, j->data);
    end_progress(&j->in.progress);
    if (status != 0)
        return status;
    print_sent(j, &end, &report);
    return said();
}

static int send_job(struct job *j)
{
    struct outfile out;
    if (open_out(j->asked.to, &out) != 0)
        return TROUBLE;
    int status = send_to(j, &out);
    if (status == SENT)
        return keep_out(&out);
    drop_out(&out);
    return status;
}

/* Nothing but the least rate on standard output. */
static int tell_least(struct job *j)
{
    struct setting at = usable(j->want.at);
    struct trial t = least_rate(&j->in, at);
    end_progress(&j->in.progress);
    int found = t.at.rate != 0 && t.end.number == 0;
    print_name(j, found ? "the least rate for" : "no rate was found for");
    print_buffer(at.buffer);
    printf("\n");
    print_lost(j);
    if (!found) {
        advise(&j->in, &j->asked, at, t);
        return REFUSED;
    }
    print_size(&j->in, t.end.bytes);
    if (dprintf(j->data, "%" PRIu32 "\n", t.at.rate * CBR_RATE_UNIT) < 0)
        return trouble("standard output", strerror(errno));
    return SENT;
}

static int work(struct job *j)
{
    if (open_source(&j->in) != 0)
        return trouble(j->in.name, "no memory for its pictures");
    struct sending end = { .number = find_sequence(&j->in) };
    if (end.number != 0)
        return refuse(j, &end);
    j->want = complete(&j->in, j->asked.at);
    end = send_first(&j->in);
    if (end.number != 0 && !is_of_setting(end.number))
        return refuse(j, &end);
    if (j->asked.to == NULL)
        return tell_least(j);
    return names_no_rate(&j->want) ? refuse_no_rate(j) : send_job(j);
}

/* Words go to standard error where standard output is for something else. */
static int set_aside_output(struct job *j)
{
    int for_data = j->asked.to == NULL || strcmp(j->asked.to, "-") == 0;
    if (!for_data)
        return 0;
    j->data = dup(STDOUT_FILENO);
    return j->data < 0 || dup2(STDERR_FILENO, STDOUT_FILENO) < 0 ? trouble("standard output", strerror(errno)) : 0;
}

static int run(struct job *j)
{
    if (j->asked.to != NULL && may_write(j->asked.from, j->asked.to) != 0)
        return TROUBLE;
    if (set_aside_output(j) != 0 || take_in(j->asked.from, j->asked.which, &j->input) != 0)
        return TROUBLE;
    j->in = (struct source){ .name = j->asked.from, .stream = j->input.stream, .unpacked = j->input.about[0] != 0,
                             .film = j->asked.film, .variable = j->asked.variable };
    int status = work(j);
    close_source(&j->in);
    let_go(&j->input);
    return status != TROUBLE && said() != 0 ? TROUBLE : status;
}

/* Without this a file that is opened could become standard output, and take the words. */
static int fill_standard(void)
{
    int file;
    do
        file = open("/dev/null", O_RDONLY);
    while (file >= 0 && file <= STDERR_FILENO);
    if (file > STDERR_FILENO)
        close(file);
    return file < 0 ? trouble("/dev/null", strerror(errno)) : 0;
}

int main(int count, char **words)
{
    struct job j = { .data = -1 };
    if (fill_standard() != 0)
        return TROUBLE;
    int status = read_words(count, words, &j.asked);
    return status == GO ? run(&j) : status;
}
