/* Lent places: memory of just its length (none for 0), so that valgrind sees a byte too far, with what it must hold
 * afterwards. Calls, answers and failures are counted. */
#ifndef PLACES_H
#define PLACES_H

#include "hipokuta.h"

#define COUNT(table) (sizeof(table) / sizeof *(table))

/* Words of a report, of a record and of a refusal. */
enum { REPORT_WORDS = VBV_REPORT_BYTES / 8, RECORD_WORDS = VBV_RECORD_BYTES / 8, REFUSAL_WORDS = VBV_REFUSAL_BYTES / 8 };

struct place {
    size_t length;
    uint8_t *bytes, *expected;
};

/* Memory of just that length. */
uint8_t *memory(size_t length);

/* The bytes of a line of hexadecimal digits, in memory of just their length. */
uint8_t *bytes_of(const char *hex, size_t *length);

/* A place filled with something, which is expected to stay. */
struct place lend(size_t length);

/* Words, low byte first, are expected at the place's start. */
void expect_words(struct place *p, const uint64_t *words, size_t count);

/* Holds the place to what is expected of it, and frees it. */
void take_back(struct place *p, const char *name, const char *what);

void fail(const char *name, const char *what);

/* Counts a call, and holds its value to what is expected. */
void answered(const char *name, uint64_t answer, uint64_t expected);

/* Prints the counts; each of the needed answers must have been met, and each one met must have a text. The program's exit
 * status. */
int summary(const char *program, const uint8_t *needed, size_t count);

#endif
