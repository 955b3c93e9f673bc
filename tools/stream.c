#define _POSIX_C_SOURCE 200809L
#include "stream.h"

#include <stdio.h>
#include <string.h>
#include <sys/stat.h>
#include <unistd.h>
#ifdef __SSE2__
#include <emmintrin.h>
#endif

const struct field FRAME_RATE_CODE = { 60, 4 }, BIT_RATE = { 64, 18 }, VBV_BUFFER_SIZE = { 83, 10 };
const struct field EXTENSION_ID = { 32, 4 }, PROGRESSIVE_SEQUENCE = { 44, 1 }, BIT_RATE_EXTENSION = { 51, 12 },
                   VBV_BUFFER_SIZE_EXTENSION = { 64, 8 }, LOW_DELAY = { 72, 1 }, FRAME_RATE_N = { 73, 2 },
                   FRAME_RATE_D = { 75, 5 };
const struct field PICTURE_CODING_TYPE = { 42, 3 }, FORWARD_VECTORS = { 61, 4 }, BACKWARD_VECTORS = { 65, 4 };
const struct field PICTURE_STRUCTURE = { 54, 2 }, TOP_FIELD_FIRST = { 56, 1 }, REPEAT_FIRST_FIELD = { 62, 1 };

uint32_t field_value(const struct stream *s, struct field f)
{
    uint32_t value = 0;
    if (f.at + f.width > 8 * s->length)
        return 0;
    for (size_t i = f.at; i < f.at + f.width; i++)
        value = value << 1 | (s->bytes[i / 8] >> (7 - i % 8) & 1);
    return value;
}

void set_field(uint8_t *bytes, struct field f, uint32_t value)
{
    for (size_t i = 0; i < f.width; i++) {
        size_t at = f.at + f.width - 1 - i;
        uint8_t bit = (uint8_t)(1 << (7 - at % 8));
        bytes[at / 8] = (uint8_t)(value >> i & 1 ? bytes[at / 8] | bit : bytes[at / 8] & ~bit);
    }
}

uint8_t field_bits(struct field f, size_t byte)
{
    unsigned bits = 0;
    for (size_t i = 0; i < 8; i++)
        if (f.at <= 8 * byte + i && 8 * byte + i < f.at + f.width)
            bits |= 0x80u >> i;
    return (uint8_t)bits;
}

struct stream part(const struct stream *s, size_t from, size_t to)
{
    return (struct stream){ s->bytes + from, to - from };
}

#ifdef __SSE2__
/* Of 16 bytes: which are 00 and have 01 after them. */
static __m128i zero_one(const uint8_t *bytes)
{
    __m128i zeros = _mm_cmpeq_epi8(_mm_loadu_si128((const __m128i *)(const void *)bytes), _mm_setzero_si128());
    __m128i ones = _mm_cmpeq_epi8(_mm_loadu_si128((const __m128i *)(const void *)(bytes + 1)), _mm_set1_epi8(1));
    return _mm_and_si128(zeros, ones);
}

/* Passes over blocks of 32 bytes in which no 00 01 could end a prefix; `at` is where the prefix would begin. */
static size_t pass_over(const uint8_t *bytes, size_t at, size_t length)
{
    while (at + 34 <= length && _mm_movemask_epi8(_mm_or_si128(zero_one(bytes + at + 1), zero_one(bytes + at + 17))) == 0)
        at += 32;
    return at;
}
#else
/* Goes on to where the next 01 could end a prefix. */
static size_t pass_over(const uint8_t *bytes, size_t at, size_t length)
{
    const uint8_t *one = at + 2 < length ? memchr(bytes + at + 2, 1, length - at - 2) : NULL;
    return one == NULL ? length : (size_t)(one - bytes) - 2;
}
#endif

size_t next_code(const struct stream *s, size_t at)
{
    const uint8_t *b = s->bytes;
    while (at + CODE_BYTES <= s->length) {
        at = pass_over(b, at, s->length);
        for (size_t end = at + 32; at < end && at + CODE_BYTES <= s->length; at++)
            if (b[at + 2] == 1 && b[at + 1] == 0 && b[at] == 0)
                return at;
    }
    return s->length;
}

int code_at(const struct stream *s, size_t at)
{
    return at < s->length ? s->bytes[at + 3] : -1;
}

size_t find_code(const struct stream *s, int code)
{
    size_t at = next_code(s, 0);
    while (at < s->length && code_at(s, at) != code)
        at = next_code(s, at + CODE_BYTES);
    return at;
}

int is_slice(int code)
{
    return FIRST_SLICE <= code && code <= LAST_SLICE;
}

size_t picture_codes(const struct stream *s)
{
    size_t count = 0;
    for (size_t at = next_code(s, 0); at < s->length; at = next_code(s, at + CODE_BYTES))
        count += code_at(s, at) == PICTURE;
    return count;
}

void put_name(FILE *to, const char *name)
{
    for (; *name != 0; name++) {
        unsigned char c = (unsigned char)*name;
        fprintf(to, c < ' ' || c == 0x7F ? "\\x%02x" : "%c", c);
    }
}

int trouble(const char *name, const char *what)
{
    fprintf(stderr, "%s: ", program);
    put_name(stderr, name);
    fprintf(stderr, ": %s\n", what);
    return 2;
}

void say(const char *text)
{
    ssize_t written = write(STDERR_FILENO, text, strlen(text));
    (void)written;
}

int same_file(const char *one, const char *other)
{
    struct stat a, b;
    return stat(one, &a) == 0 && stat(other, &b) == 0 && a.st_dev == b.st_dev && a.st_ino == b.st_ino;
}
