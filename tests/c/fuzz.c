/* Damages a file again and again, and runs a tool on each: linked with the tool's sources, whose main is then tool_main.
 *
 * fuzz N SEED FILE DAMAGED WORDS..: the tool gets the words, with DAMAGED's name among them. Each run must end with a status from
 * 0 to 3 within 10 seconds and print a line; the first that does not is left in DAMAGED, with what was said in DAMAGED.said. */
#define _POSIX_C_SOURCE 200809L
#undef main

#include <fcntl.h>
#include <stdint.h>
#include <stdio.h>
#include <stdlib.h>
#include <string.h>
#include <unistd.h>

int tool_main(int count, char **words);

enum { MOST_SECONDS = 10, MOST_DAMAGES = 6, SPAN = 600, MOST_STATUS = 3 };

struct file {
    uint8_t *bytes;
    size_t length, room;
};

static uint64_t next(uint64_t *state)
{
    *state ^= *state << 13;
    *state ^= *state >> 7;
    *state ^= *state << 17;
    return *state >> 11;
}

/* A number below a bound, 0 for none. */
static size_t below(uint64_t *state, size_t bound)
{
    return bound > 0 ? (size_t)(next(state) % bound) : 0;
}

static void flip(struct file *f, uint64_t *state)
{
    if (f->length > 0)
        f->bytes[below(state, f->length)] ^= (uint8_t)(1u << below(state, 8));
}

static void overwrite(struct file *f, uint64_t *state)
{
    size_t at = below(state, f->length), count = below(state, SPAN), how = below(state, 3);
    for (size_t i = at; i < f->length && i < at + count; i++)
        f->bytes[i] = (uint8_t)(how == 0 ? next(state) : how == 1 ? 0 : 0xFF);
}

static void take_out(struct file *f, uint64_t *state)
{
    size_t at = below(state, f->length), count = below(state, SPAN);
    count = count < f->length - at ? count : f->length - at;
    memmove(f->bytes + at, f->bytes + at + count, f->length - at - count);
    f->length -= count;
}

static void cut(struct file *f, uint64_t *state)
{
    f->length = below(state, f->length + 1);
}

/* Puts a span in once more, elsewhere. */
static void repeat(struct file *f, uint64_t *state)
{
    size_t from = below(state, f->length), count = below(state, SPAN), at = below(state, f->length);
    uint8_t span[SPAN];
    count = count < f->length - from ? count : f->length - from;
    count = count < f->room - f->length ? count : f->room - f->length;
    memcpy(span, f->bytes + from, count);
    memmove(f->bytes + at + count, f->bytes + at, f->length - at);
    memcpy(f->bytes + at, span, count);
    f->length += count;
}

static void put_code(struct file *f, uint64_t *state)
{
    size_t at = below(state, f->length);
    static const uint8_t codes[] = { 0x00, 0x01, 0xAF, 0xB2, 0xB3, 0xB5, 0xB7, 0xB8, 0xBA, 0xE0 };
    if (at + 4 <= f->length) {
        memcpy(f->bytes + at, "\0\0\1", 3);
        f->bytes[at + 3] = codes[below(state, sizeof codes)];
    }
}

static void damage(struct file *f, uint64_t *state)
{
    static void (*const ways[])(struct file *, uint64_t *) = { flip, flip, flip, overwrite, take_out, repeat, put_code, cut };
    size_t count = 1 + below(state, MOST_DAMAGES);
    for (size_t i = 0; i < count; i++)
        ways[below(state, sizeof ways / sizeof *ways)](f, state);
}

static int write_file(const char *name, const struct file *f)
{
    FILE *to = fopen(name, "wb");
    if (to == NULL)
        return 1;
    int bad = fwrite(f->bytes, 1, f->length, to) != f->length;
    return fclose(to) != 0 || bad;
}

/* Whether a line was printed, into the file that both outputs are; emptied for the next run. */
static int has_line(void)
{
    char said[256];
    ssize_t count = pread(STDOUT_FILENO, said, sizeof said, 0);
    int found = count == (ssize_t)sizeof said || (count > 0 && memchr(said, '\n', (size_t)count) != NULL);
    return ftruncate(STDOUT_FILENO, 0) == 0 && lseek(STDOUT_FILENO, 0, SEEK_SET) == 0 && found;
}

/* Returns 0, or 1 with what went wrong told. A crash, a sanitizer or the alarm ends this program itself. */
static int try_tool(FILE *told, int count, char **words)
{
    optind = 0; /* the C library's getopt begins anew */
    alarm(MOST_SECONDS);
    int status = tool_main(count, words);
    alarm(0);
    fflush(stdout);
    if (status < 0 || status > MOST_STATUS)
        return fprintf(told, "fuzz: status %d\n", status) > 0;
    return has_line() ? 0 : fprintf(told, "fuzz: not a line printed\n") > 0;
}

/* Both outputs into one file; where to tell what goes wrong is kept. NULL where that cannot be. */
static FILE *redirect(const char *damaged)
{
    char name[4096];
    snprintf(name, sizeof name, "%s.said", damaged);
    int to = open(name, O_RDWR | O_CREAT | O_TRUNC | O_APPEND, 0600), kept = dup(STDOUT_FILENO);
    if (to < 0 || kept < 0 || dup2(to, STDOUT_FILENO) < 0 || dup2(to, STDERR_FILENO) < 0)
        return NULL;
    close(to);
    return fdopen(kept, "w");
}

static int read_file(const char *name, struct file *f)
{
    FILE *from = fopen(name, "rb");
    if (from == NULL)
        return 1;
    f->room = 1 << 21;
    f->bytes = malloc(f->room);
    f->length = f->bytes != NULL ? fread(f->bytes, 1, f->room / 2, from) : 0;
    fclose(from);
    return f->length == 0;
}

/* The tool's words, behind the damaged file's name, which stands for the tool's. */
static int fuzz(unsigned long runs, uint64_t seed, const struct file *whole, char **words)
{
    int count = 0, bad;
    struct file f = { malloc(whole->room), 0, whole->room };
    FILE *told = redirect(words[0]);
    while (words[count] != NULL)
        count++;
    bad = f.bytes == NULL || told == NULL;
    for (unsigned long n = 0; n < runs && !bad; n++) {
        uint64_t state = (seed + 1) * 0x9E3779B97F4A7C15u + n * 0xD1B54A32D192ED03u + 1;
        memcpy(f.bytes, whole->bytes, whole->length);
        f.length = whole->length;
        damage(&f, &state);
        bad = write_file(words[0], &f) || try_tool(told, count, words);
        if (bad)
            fprintf(told, "fuzz: run %lu of seed %llu, left in %s\n", n, (unsigned long long)seed, words[0]);
    }
    free(f.bytes);
    if (told != NULL)
        fclose(told);
    return bad;
}

int main(int count, char **words)
{
    struct file whole;
    if (count < 6 || read_file(words[3], &whole) != 0) {
        fprintf(stderr, "usage: fuzz N SEED FILE DAMAGED WORDS..\n");
        return 2;
    }
    int bad = fuzz(strtoul(words[1], NULL, 10), strtoull(words[2], NULL, 10), &whole, words + 4);
    free(whole.bytes);
    return bad;
}
