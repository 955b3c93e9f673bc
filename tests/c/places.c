#include "places.h"

#include <inttypes.h>
#include <stdio.h>
#include <stdlib.h>
#include <string.h>

static int calls, failed;
static int met[256];

uint8_t *memory(size_t length)
{
    uint8_t *bytes = length > 0 ? malloc(length) : NULL;
    if (length > 0 && bytes == NULL)
        exit(2);
    return bytes;
}

uint8_t *bytes_of(const char *hex, size_t *length)
{
    *length = strlen(hex) / 2;
    uint8_t *bytes = memory(*length);
    for (size_t i = 0; i < *length; i++) {
        char digits[3] = { hex[2 * i], hex[2 * i + 1], 0 };
        bytes[i] = (uint8_t)strtoul(digits, NULL, 16);
    }
    return bytes;
}

struct place lend(size_t length)
{
    struct place p = { length, memory(length), memory(length) };
    for (size_t i = 0; i < length; i++)
        p.bytes[i] = p.expected[i] = (uint8_t)(i * 7 + 3);
    return p;
}

void expect_words(struct place *p, const uint64_t *words, size_t count)
{
    for (size_t i = 0; i < 8 * count; i++)
        p->expected[i] = (uint8_t)(words[i / 8] >> 8 * (i % 8));
}

void take_back(struct place *p, const char *name, const char *what)
{
    if (p->length > 0 && memcmp(p->bytes, p->expected, p->length) != 0)
        fail(name, what);
    free(p->bytes);
    free(p->expected);
}

void fail(const char *name, const char *what)
{
    printf("%s: %s\n", name, what);
    failed++;
}

void answered(const char *name, uint64_t answer, uint64_t expected)
{
    calls++;
    met[answer & 255] = 1;
    if (answer != expected) {
        fail(name, "another answer");
        printf("    %" PRIu64 " in place of %" PRIu64 "\n", answer, expected);
    }
}

int summary(const char *program, const uint8_t *needed, size_t count)
{
    for (size_t i = 0; i < count; i++)
        if (!met[needed[i]])
            fail("the answers", "one was not met");
    for (int i = 1; i < 256; i++)
        if (met[i] && vbv_refusal_text((uint64_t)i) == NULL)
            fail("the answers", "one has no text");
    printf("%s: %d calls, answers", program, calls);
    for (int i = 0; i < 256; i++)
        if (met[i])
            printf(" %d", i);
    printf(", %d failed\n", failed);
    return failed > 0;
}
