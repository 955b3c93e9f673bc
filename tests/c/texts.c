/* The texts of refusals:
 *
 *     texts HEADER
 *
 * Every number in HEADER's enum of refusals, read there line by line, has a name and a text, and no other number has one; each
 * is one line, a text whole sentences, and no two are alike. Exit status 1: not so. */
#include "hipokuta.h"

#include <stdio.h>
#include <string.h>

enum { NUMBERS = 1000, MOST_LENGTH = 200 };

static int failed;

static void fail(uint64_t number, const char *what)
{
    printf("texts: %lu: %s\n", (unsigned long)number, what);
    failed++;
}

/* Marks each number in the enum. Returns how many there are; a line that is none fails. */
static size_t listed(FILE *header, char *marks)
{
    char line[256], name[64];
    unsigned long number;
    size_t count = 0;
    int inside = 0;
    while (fgets(line, sizeof line, header) != NULL) {
        if (strcmp(line, "};\n") == 0)
            inside = 0;
        if (inside && (sscanf(line, " %63[A-Z_] = %lu", name, &number) != 2 || number >= NUMBERS || marks[number]))
            fail(count, "of the header's lines no number of its own");
        else if (inside)
            count += (size_t)(marks[number] = 1);
        if (strcmp(line, "enum {\n") == 0)
            inside = 1;
    }
    return count;
}

static int one_line(const char *words, size_t most)
{
    size_t length = strlen(words);
    for (size_t i = 0; i < length; i++)
        if (words[i] < ' ' || words[i] > '~')
            return 0;
    return 0 < length && length <= most;
}

/* Words of a number that has them. */
static void check_words(uint64_t number)
{
    const char *name = vbv_refusal_name(number), *text = vbv_refusal_text(number);
    if (!one_line(name, MOST_LENGTH / 4) || !one_line(text, MOST_LENGTH))
        fail(number, "not one line each, or too long");
    else if (text[strlen(text) - 1] != '.')
        fail(number, "no whole sentence");
    for (uint64_t other = 0; other < number; other++) {
        const char *others = vbv_refusal_name(other);
        if (others != NULL && (strcmp(name, others) == 0 || strcmp(text, vbv_refusal_text(other)) == 0))
            fail(number, "the words of another number");
    }
}

static void check(uint64_t number, int is_listed)
{
    int has_name = vbv_refusal_name(number) != NULL, has_text = vbv_refusal_text(number) != NULL;
    if (has_name != is_listed || has_text != is_listed)
        fail(number, is_listed ? "no name, or no text" : "no refusal, and yet with a name or text");
    else if (is_listed)
        check_words(number);
}

int main(int count, char **words)
{
    static char marks[NUMBERS];
    FILE *header = count == 2 ? fopen(words[1], "r") : NULL;
    if (header == NULL) {
        puts("texts: no header to read");
        return 2;
    }
    size_t found = listed(header, marks);
    fclose(header);
    if (found != 21)
        fail(found, "numbers in the header, not 21");
    for (uint64_t number = 0; number < NUMBERS; number++)
        check(number, marks[number]);
    for (int bit = 10; bit < 64; bit++)
        check(((uint64_t)1 << bit) + VBV_OVERFLOW, 0);
    check(UINT64_MAX, 0);
    printf("texts: %zu refusals, %d failed\n", found, failed);
    return failed > 0;
}
