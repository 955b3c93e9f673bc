/* Gives a stream the delays that the check expects, with the two entries of the library alone:
 *
 *     stamp FIRST FROM TO
 *
 * FIRST is the first picture's delay in ticks. Every other delay is what the check names in its refusal 11. Prints how many
 * delays were changed. Exit status 1: refused by something that no delay mends; 2: bad use, or a file cannot be used. */
#include "hipokuta.h"

#include <stdio.h>
#include <stdlib.h>
#include <string.h>

/* Words of a refusal (docs/LAYOUT.md). */
enum { PICTURE = 1, EXPECTED = 3 };

static uint8_t *whole_file(const char *name, size_t *length)
{
    FILE *file = fopen(name, "rb");
    if (file == NULL)
        return NULL;
    long size = fseek(file, 0, SEEK_END) == 0 ? ftell(file) : 0;
    rewind(file);
    uint8_t *bytes = size > 0 ? malloc((size_t)size) : NULL;
    if (bytes != NULL && fread(bytes, 1, (size_t)size, file) == (size_t)size) {
        *length = (size_t)size;
    } else {
        free(bytes);
        bytes = NULL;
    }
    fclose(file);
    return bytes;
}

/* The start code of a picture, counted from 0; the length where there is none. */
static size_t picture(const uint8_t *stream, size_t length, uint64_t number)
{
    for (size_t at = 0; at + 4 <= length; at++)
        if (memcmp(stream + at, "\0\0\1\0", 4) == 0 && number-- == 0)
            return at;
    return length;
}

static int patch(uint8_t *stream, size_t length, uint64_t number, uint64_t delay)
{
    size_t at = picture(stream, length, number);
    return vbv_patch_delay(stream + at, length - at, (uint16_t)delay) == 0;
}

static int unusable(const char *what)
{
    fprintf(stderr, "stamp: %s\n", what);
    return 2;
}

int main(int count, char **words)
{
    size_t length = 0;
    uint8_t *stream = count == 4 ? whole_file(words[2], &length) : NULL;
    if (stream == NULL)
        return unusable("FIRST FROM TO, and FROM a file of some bytes");
    uint64_t report[VBV_REPORT_BYTES / 8], refusal[VBV_REFUSAL_BYTES / 8];
    size_t places = length / 4 * VBV_RECORD_BYTES; /* no picture is shorter than its start code */
    uint8_t *records = malloc(places);
    if (records == NULL || !patch(stream, length, 0, strtoul(words[1], NULL, 10)))
        return unusable("no memory, or no picture");

    uint64_t answer, changed = 1;
    while ((answer = vbv_check(stream, length, VBV_MPEG2, (uint8_t *)report, sizeof report, records, places,
                               (uint8_t *)refusal, sizeof refusal)) == VBV_DELAY_MISMATCH) {
        if (!patch(stream, length, refusal[PICTURE], refusal[EXPECTED]))
            return unusable("no such picture");
        changed++;
    }
    if (answer != 0) {
        printf("refused %d at picture %d\n", (int)answer, (int)refusal[PICTURE]);
        return 1;
    }
    FILE *to = fopen(words[3], "wb");
    if (to == NULL || fwrite(stream, 1, length, to) != length || fclose(to) != 0)
        return unusable("TO cannot be written");
    printf("%d delays\n", (int)changed);
    free(stream);
    free(records);
    return 0;
}
