/* Calls the check and the patch as C firmware would, and holds every byte of every lent place to what it must be afterwards.
 * Exit status 1: something differs. */
#define _DEFAULT_SOURCE
#include "hipokuta.h"
#include "places.h"
#include "stream.h"

#include <stdio.h>
#include <stdlib.h>
#include <string.h>
#include <sys/mman.h>

enum { MOST_PICTURES = 4, RECORDS = VBV_RECORD_BYTES * MOST_PICTURES };

/* 182,400 bits a second and a buffer of 131,072 bits, 64,673 ticks; 22,800 bits a second and 16,384 bits. */
#define SLOW "000001B30100101300722040"
#define SLOWEST "000001B301001013000E6008"
/* MPEG-2's extension with n and d: 1 and 0, 0 and 1, 1 and 1, 3 and 31; and 50 frames. */
#define N1 "000001B5148200010020"
#define D1 "000001B5148200010001"
#define N1_D1 "000001B5148200010021"
#define N3_D31 "000001B514820001007F"
#define FIFTY_FRAMES "000001B301001016027120A0"
/* The extension with low_delay, with progressive_sequence, and with both. */
#define LOW_DELAY "000001B5148200010080"
#define PROGRESSIVE "000001B5148A00010000"
#define PROGRESSIVE_LOW_DELAY "000001B5148A00010080"
/* Picture headers of I pictures and of B pictures, by their delay. */
#define I_0 "0000010000080000"
#define I_400 "0000010000080C80"
#define I_9000 "0000010000091940"
#define I_12583 "0000010000098938"
#define I_14341 "000001000009C028"
#define I_14364 "000001000009C0E0"
#define I_14366 "000001000009C0F0"
#define I_14367 "000001000009C0F8"
#define I_14383 "000001000009C178"
#define I_16149 "000001000009F8A8"
#define I_16183 "000001000009F9B8"
#define I_17924 "00000100000A3020"
#define I_17947 "00000100000A30D8"
#define I_17950 "00000100000A30F0"
#define I_17966 "00000100000A3170"
#define I_17967 "00000100000A3178"
#define I_19767 "00000100000A69B8"
#define I_19783 "00000100000A6A38"
#define I_23367 "00000100000ADA38"
#define I_23901 "00000100000AEAE8"
#define I_25701 "00000100000B2328"
#define I_25703 "00000100000B2338"
#define I_25708 "00000100000B2360"
#define I_27485 "00000100000B5AE8"
#define I_29301 "00000100000B93A8"
#define I_30000 "00000100000BA980"
#define I_50901 "00000100000E36A8"
#define I_64000 "00000100000FD000"
#define B_12583 "000001000019893BB8"
#define B_14366 "000001000019C0F3B8"
/* A frame with repeat_first_field 1, and with top_field_first too. */
#define REPEATED "000001B58FFFF34380" SLICE
#define REPEATED_TOP "000001B58FFFF3C380" SLICE
/* A frame with a slice of no bytes. */
#define BARE "000001B58FFFF34180" "00000101"
#define TEN "40404040404040404040"
#define FIFTY TEN TEN TEN TEN TEN
#define USER_DATA "000001B2" FIFTY FIFTY FIFTY FIFTY

/* A stream and its answer: number 0 with report and records, or a refusal (number, picture, coded, expected). */
struct known {
    const char *name, *hex;
    uint8_t mode;
    uint64_t refusal[REFUSAL_WORDS], report[REPORT_WORDS], records[RECORD_WORDS * MOST_PICTURES];
};

/* The answers are the original Rust's; the periods, each record's fifth word, are not in it, and it does not read n and d: those
 * answers are worked out by hand. */
static const struct known accepted[] = {
    { "the paper's stream", SEQUENCE EXTENSION GROUP I_22118 FRAME "000001B7", 2, { 0 },
      { 1000000, 327680, 1, 245571, 246027 }, { 22118, 22118, 456, 246027, 2 } },
    { "two frames", SEQUENCE EXTENSION I_22118 FRAME I_25701 FRAME, 2, { 0 },
      { 1000000, 327680, 2, 245603, 285603 }, { 22118, 22118, 360, 245963, 2, 25701, 25701, 184, 285603, 2 } },
    { "two frames, the first with a repeated field", SEQUENCE EXTENSION I_22118 REPEATED I_25701 FRAME, 2, { 0 },
      { 1000000, 327680, 2, 245603, 285603 }, { 22118, 22118, 360, 245963, 2, 25701, 25701, 184, 285603, 2 } },
    { "two fields", SEQUENCE EXTENSION I_22118 TOP I_23901 BOTTOM, 2, { 0 },
      { 1000000, 327680, 2, 245603, 265603 }, { 22118, 22118, 360, 245963, 1, 23901, 23901, 184, 265603, 1 } },
    { "a field, a frame, a field", SEQUENCE EXTENSION I_22118 TOP I_23901 FRAME I_27485 BOTTOM, 2, { 0 },
      { 1000000, 327680, 3, 245603, 305419 },
      { 22118, 22118, 360, 245963, 1, 23901, 23901, 184, 265603, 2, 27485, 27485, 184, 305419, 1 } },
    { "50 frames by n", SEQUENCE N1 I_22118 FRAME I_23901 FRAME, 2, { 0 },
      { 1000000, 327680, 2, 245603, 265603 }, { 22118, 22118, 360, 245963, 2, 23901, 23901, 184, 265603, 2 } },
    { "12.5 frames by d", SEQUENCE D1 I_22118 FRAME I_29301 FRAME, 2, { 0 },
      { 1000000, 327680, 2, 245603, 325603 }, { 22118, 22118, 360, 245963, 2, 29301, 29301, 184, 325603, 2 } },
    { "fields of 12.5 frames", SEQUENCE D1 I_22118 TOP I_25701 BOTTOM, 2, { 0 },
      { 1000000, 327680, 2, 245603, 285603 }, { 22118, 22118, 360, 245963, 1, 25701, 25701, 184, 285603, 1 } },
    { "25 frames as 25 x 2 / 2", SEQUENCE N1_D1 I_22118 FRAME I_25701 FRAME, 2, { 0 },
      { 1000000, 327680, 2, 245603, 285603 }, { 22118, 22118, 360, 245963, 2, 25701, 25701, 184, 285603, 2 } },
    { "25 frames as 50 / 2", FIFTY_FRAMES D1 I_22118 FRAME I_25701 FRAME, 2, { 0 },
      { 1000000, 327680, 2, 245603, 285603 }, { 22118, 22118, 360, 245963, 2, 25701, 25701, 184, 285603, 2 } },
    { "MPEG-2's extensions as MPEG-1", SEQUENCE N3_D31 I_22118 FRAME I_25701 FRAME, 1, { 0 },
      { 1000000, 327680, 2, 245603, 285603 }, { 22118, 22118, 360, 245963, 2, 25701, 25701, 184, 285603, 2 } },
    { "MPEG-1", SEQUENCE I_22118 SLICE I_25708 SLICE, 1, { 0 },
      { 1000000, 327680, 2, 245675, 285675 }, { 22118, 22118, 208, 245883, 2, 25708, 25708, 112, 285675, 2 } },
    { "MPEG-2's fields as MPEG-1", SEQUENCE EXTENSION I_22118 TOP I_25701 BOTTOM, 1, { 0 },
      { 1000000, 327680, 2, 245603, 285603 }, { 22118, 22118, 360, 245963, 2, 25701, 25701, 184, 285603, 2 } },
};

/* In film mode; by the model of tests/streams/film.py. */
static const struct known film[] = {
    { "film: an I frame by the flag before it", SEQUENCE EXTENSION I_9000 REPEATED I_12583 FRAME I_17967 FRAME, 6, { 0 },
      { 1000000, 327680, 3, 99848, 199664 },
      { 9000, 9000, 360, 100208, 2, 12583, 12583, 184, 139848, 3, 17967, 17967, 184, 199664, 2 } },
    { "film: by its own flag with low_delay", SEQUENCE LOW_DELAY I_9000 REPEATED I_14383 FRAME I_17967 FRAME, 6, { 0 },
      { 1000000, 327680, 3, 99848, 199664 },
      { 9000, 9000, 360, 100208, 3, 14383, 14383, 184, 159848, 2, 17967, 17967, 184, 199664, 2 } },
    { "film: frames shown twice", SEQUENCE PROGRESSIVE I_9000 REPEATED I_12583 FRAME I_19767 FRAME, 6, { 0 },
      { 1000000, 327680, 3, 99848, 219664 },
      { 9000, 9000, 360, 100208, 2, 12583, 12583, 184, 139848, 4, 19767, 19767, 184, 219664, 2 } },
    { "film: frames shown twice, with low_delay", SEQUENCE PROGRESSIVE_LOW_DELAY I_9000 REPEATED I_16183 FRAME I_19767 FRAME,
      6, { 0 },
      { 1000000, 327680, 3, 99848, 219664 },
      { 9000, 9000, 360, 100208, 4, 16183, 16183, 184, 179848, 2, 19767, 19767, 184, 219664, 2 } },
    { "film: frames shown three times", SEQUENCE PROGRESSIVE I_9000 REPEATED_TOP I_12583 FRAME I_23367 FRAME, 6, { 0 },
      { 1000000, 327680, 3, 99848, 259664 },
      { 9000, 9000, 360, 100208, 2, 12583, 12583, 184, 139848, 6, 23367, 23367, 184, 259664, 2 } },
    { "film: frames shown three times, with low_delay", SEQUENCE PROGRESSIVE_LOW_DELAY I_9000 REPEATED_TOP I_19783 FRAME
      I_23367 FRAME, 6, { 0 },
      { 1000000, 327680, 3, 99848, 259664 },
      { 9000, 9000, 360, 100208, 6, 19783, 19783, 184, 219848, 2, 23367, 23367, 184, 259664, 2 } },
    { "film: a B frame by its own flag", SEQUENCE EXTENSION I_9000 REPEATED B_12583 REPEATED I_17966 FRAME, 6, { 0 },
      { 1000000, 327680, 3, 99848, 199656 },
      { 9000, 9000, 360, 100208, 2, 12583, 12583, 192, 139848, 3, 17966, 17966, 184, 199656, 3 } },
    { "film: a long second field", SEQUENCE EXTENSION I_9000 REPEATED I_12583 TOP I_14367 BOTTOM I_17950 FRAME, 6, { 0 },
      { 1000000, 327680, 4, 99848, 199480 },
      { 9000, 9000, 360, 100208, 2, 12583, 12583, 184, 139848, 1, 14367, 14367, 184, 159664, 2, 17950, 17950, 184, 199480, 2
      } },
    { "film: a pair across headers, which say something else", SEQUENCE EXTENSION I_9000 REPEATED I_12583 TOP GROUP SEQUENCE
      PROGRESSIVE_LOW_DELAY "000001B24040" I_14341 BOTTOM I_17924 FRAME, 6, { 0 },
      { 1000000, 327680, 4, 99848, 199192 },
      { 9000, 9000, 360, 100208, 2, 12583, 12583, 184, 139848, 1, 14341, 14341, 472, 159664, 2, 17924, 17924, 184, 199192, 2
      } },
    { "film: a pair across a sequence end", SEQUENCE EXTENSION I_9000 REPEATED I_12583 TOP "000001B7" I_14364 BOTTOM I_17947
      FRAME, 6, { 0 },
      { 1000000, 327680, 4, 99848, 199448 },
      { 9000, 9000, 360, 100208, 2, 12583, 12583, 216, 139848, 1, 14364, 14364, 184, 159632, 2, 17947, 17947, 184, 199448, 2
      } },
    { "film: a pair led by B", SEQUENCE EXTENSION I_9000 REPEATED B_12583 TOP B_14366 BOTTOM I_16149 FRAME, 6, { 0 },
      { 1000000, 327680, 4, 99848, 179464 },
      { 9000, 9000, 360, 100208, 2, 12583, 12583, 192, 139848, 1, 14366, 14366, 192, 159656, 1, 16149, 16149, 184, 179464, 3
      } },
    { "film: a B field left over", SEQUENCE EXTENSION I_9000 REPEATED B_12583 TOP I_14366 FRAME, 6, { 0 },
      { 1000000, 327680, 3, 99848, 159656 },
      { 9000, 9000, 360, 100208, 2, 12583, 12583, 192, 139848, 1, 14366, 14366, 184, 159656, 3 } },
    { "film: an I field left over", SEQUENCE EXTENSION I_9000 REPEATED I_12583 TOP I_14367 FRAME, 6, { 0 },
      { 1000000, 327680, 3, 99848, 159664 },
      { 9000, 9000, 360, 100208, 2, 12583, 12583, 184, 139848, 1, 14367, 14367, 184, 159664, 2 } },
};

static const struct known refused[] = {
    { "a header cut short", SEQUENCE EXTENSION I_22118 "000001B58FFF", 2, { 1 }, { 0 }, { 0 } },
    { "a last header cut short, before the first picture's underflow", SEQUENCE I_0 SLICE "00000100", 1, { 1 }, { 0 }, { 0 } },
    { "a width of zero", "000001B300001013027120A0" EXTENSION I_22118 FRAME, 2, { 2 }, { 0 }, { 0 } },
    { "MPEG-1 called MPEG-2", SEQUENCE I_22118 SLICE, 2, { 2 }, { 0 }, { 0 } },
    { "no sequence header", I_22118 FRAME, 2, { 3 }, { 0 }, { 0 } },
    { "no bytes", "", 2, { 3 }, { 0 }, { 0 } },
    { "no bytes, MPEG-1", "", 1, { 3 }, { 0 }, { 0 } },
    { "no picture", SEQUENCE EXTENSION, 2, { 4 }, { 0 }, { 0 } },
    { "first delay 0xFFFF", SEQUENCE EXTENSION I_FFFF FRAME, 2, { 5 }, { 0 }, { 0 } },
    { "rate code 9", "000001B301001019027120A0" EXTENSION I_22118 FRAME, 2, { 6 }, { 0 }, { 0 } },
    { "a picture that begins too late", SLOWEST I_400 SLICE USER_DATA I_0 SLICE, 1, { 7 }, { 0 }, { 0 } },
    { "a delay that no field holds", SLOW I_64000 SLICE I_0 SLICE, 1, { 8 }, { 0 }, { 0 } },
    { "overflow", SEQUENCE EXTENSION I_30000 FRAME, 2, { 9, 0, 30000, 30000 }, { 0 }, { 0 } },
    { "underflow", SEQUENCE EXTENSION I_0 FRAME, 2, { 10, 0, 0, 0 }, { 0 }, { 0 } },
    { "a field after which the delay is that of a frame", SEQUENCE EXTENSION I_22118 TOP I_25701 BOTTOM, 2, { 11, 1, 25701, 23901 },
      { 0 }, { 0 } },
    { "a delay that is right without n", SEQUENCE N1 I_22118 BARE I_25703 BARE, 2, { 11, 1, 25703, 23903 }, { 0 }, { 0 } },
    { "a delay that is right without d", SEQUENCE D1 I_22118 FRAME I_25701 FRAME, 2, { 11, 1, 25701, 29301 }, { 0 }, { 0 } },
    { "a rate code 9 with extensions", "000001B301001019027120A0" N3_D31 I_22118 FRAME, 2, { 6 }, { 0 }, { 0 } },
    { "a frame that brings more than the buffer", SEQUENCE N3_D31 I_22118 FRAME I_50901 FRAME, 2, { 9, 1, 50901, 50901 }, { 0 },
      { 0 } },
    { "delay mismatch", SEQUENCE EXTENSION I_22118 FRAME I_22118 FRAME, 2, { 11, 1, 22118, 25701 }, { 0 }, { 0 } },
    { "a film's delay, not in film mode", SEQUENCE EXTENSION I_9000 REPEATED I_12583 FRAME I_17967 FRAME, 2, { 11, 2, 17967, 16167 },
      { 0 }, { 0 } },
    { "another's delay, in film mode", SEQUENCE EXTENSION I_9000 REPEATED I_12583 FRAME I_16149 FRAME, 6, { 11, 2, 16149, 17967 },
      { 0 }, { 0 } },
    { "a buffer of zero", "000001B30100101302712000" EXTENSION I_22118 FRAME, 2, { 12 }, { 0 }, { 0 } },
    { "22,400 bits a second, buffer 16,384", "000001B301001013000E2008" I_0 SLICE, 1, { 12 }, { 0 }, { 0 } },
};

/* The report alone, in places of these lengths: its value, and every byte of every place. */
static void report_alone(const struct known *k, size_t report_length, size_t refusal_length)
{
    size_t length;
    uint8_t *stream = bytes_of(k->hex, &length);
    struct place same = { length, stream, bytes_of(k->hex, &length) };
    struct place report = lend(report_length), refusal = lend(refusal_length);

    if (k->refusal[0] == 0)
        expect_words(&report, k->report, REPORT_WORDS);
    else if (refusal_length >= VBV_REFUSAL_BYTES)
        expect_words(&refusal, k->refusal, REFUSAL_WORDS);
    uint64_t answer = vbv_report(stream, length, k->mode, report.bytes, report.length, refusal.bytes, refusal.length);
    answered(k->name, answer, k->refusal[0]);
    take_back(&same, k->name, "the stream has changed");
    take_back(&report, k->name, "the place of the report alone");
    take_back(&refusal, k->name, "the refusal's place of the report alone");
}

/* One check with places of these lengths: its value, and every byte of every place. */
static void check(const struct known *k, size_t report_length, size_t records_length, size_t refusal_length)
{
    size_t length;
    uint8_t *stream = bytes_of(k->hex, &length);
    struct place same = { length, stream, bytes_of(k->hex, &length) };
    struct place report = lend(report_length), records = lend(records_length), refusal = lend(refusal_length);

    if (k->refusal[0] == 0) {
        expect_words(&report, k->report, REPORT_WORDS);
        expect_words(&records, k->records, RECORD_WORDS * k->report[2]);
    } else if (refusal_length >= VBV_REFUSAL_BYTES) {
        expect_words(&refusal, k->refusal, REFUSAL_WORDS);
    }
    uint64_t answer = vbv_check(stream, length, k->mode, report.bytes, report.length, records.bytes, records.length,
                                refusal.bytes, refusal.length);
    answered(k->name, answer, k->refusal[0]);
    take_back(&same, k->name, "the stream has changed");
    take_back(&report, k->name, "the report's place");
    take_back(&records, k->name, "the records' place");
    take_back(&refusal, k->name, "the refusal's place");
}

/* The same stream with another answer; 15 is the check's alone. */
static void check_refused(const struct known *k, uint64_t number, size_t report, size_t records, size_t refusal)
{
    struct known other = *k;
    memset(other.refusal, 0, sizeof other.refusal);
    other.refusal[0] = number;
    check(&other, report, records, refusal);
    report_alone(number == 15 ? k : &other, report, refusal);
}

/* Accepted: places of just the length, and longer ones, whose further bytes stay. Too few record places: 15. */
static void check_accepted(const struct known *k)
{
    size_t needed = VBV_RECORD_BYTES * (size_t)k->report[2];
    for (size_t more = 0; more < 70; more += 23) {
        check(k, VBV_REPORT_BYTES + more, needed + more, VBV_REFUSAL_BYTES + more);
        report_alone(k, VBV_REPORT_BYTES + more, VBV_REFUSAL_BYTES + more);
    }
    for (size_t records = 0; records < needed; records += records < needed - VBV_RECORD_BYTES ? VBV_RECORD_BYTES - 1 : 1)
        check_refused(k, 15, VBV_REPORT_BYTES, records, VBV_REFUSAL_BYTES);
}

/* A record has 40 bytes: there is no place in 39, one in 40 and in 79, two in 80. */
static void check_record_places(const struct known *one, const struct known *two)
{
    check_refused(one, 15, 40, 39, 32);
    check(one, 40, 40, 32);
    check(one, 40, 79, 32);
    check_refused(two, 15, 40, 79, 32);
    check(two, 40, 80, 32);
}

/* Refused: with no record places, with enough, and with longer places. */
static void check_refusal(const struct known *k)
{
    check(k, VBV_REPORT_BYTES, RECORDS, VBV_REFUSAL_BYTES);
    check(k, VBV_REPORT_BYTES + 9, RECORDS + 50, VBV_REFUSAL_BYTES + 13);
    report_alone(k, VBV_REPORT_BYTES, VBV_REFUSAL_BYTES);
    report_alone(k, VBV_REPORT_BYTES + 9, VBV_REFUSAL_BYTES + 13);
    if (k->refusal[0] < 7 || k->refusal[0] == 12)
        check(k, VBV_REPORT_BYTES, 0, VBV_REFUSAL_BYTES);
    else
        check_refused(k, 15, VBV_REPORT_BYTES, 0, VBV_REFUSAL_BYTES);
}

/* At a variable rate a delay that is not 0xFFFF is 25, whatever the buffer does, but after what comes up to 4. */
static void check_variable(const struct known *k)
{
    for (uint8_t mode = 10; mode <= 14; mode += 4) {
        struct known other = *k;
        other.mode = mode;
        if (k->mode == 2 && k->refusal[0] != 5 && (k->refusal[0] < 1 || k->refusal[0] > 4) && k->refusal[0] != 6)
            check_refused(&other, 25, VBV_REPORT_BYTES, 0, VBV_REFUSAL_BYTES);
        else if (k->mode == 2 && k->refusal[0] != 5)
            check_refusal(&other);
    }
}

/* Film mode says the same of a stream without repeated fields. */
static void check_film(const struct known *k)
{
    struct known same = *k;
    same.mode = 6;
    if (k->mode == 2 && strstr(k->hex, REPEATED) == NULL && k->refusal[0] == 0)
        check_accepted(&same);
    else if (k->mode == 2 && strstr(k->hex, REPEATED) == NULL)
        check_refusal(&same);
}

/* Places too short come first (19), then the mode (12), before any byte of the stream is judged. */
static void check_places(const struct known *k)
{
    for (size_t report = 0; report < VBV_REPORT_BYTES; report++)
        check_refused(k, 19, report, RECORDS, VBV_REFUSAL_BYTES + report % 3);
    for (size_t refusal = 0; refusal < VBV_REFUSAL_BYTES; refusal++)
        check_refused(k, 19, VBV_REPORT_BYTES + refusal % 3, RECORDS, refusal);
    check_refused(k, 19, 0, 0, 0);
    for (int mode = 0; mode < 256; mode++) {
        struct known other = *k;
        other.mode = (uint8_t)mode;
        if (mode != 1 && mode != 2 && mode != 6 && mode != 10 && mode != 14) {
            check_refused(&other, 12, VBV_REPORT_BYTES, RECORDS, VBV_REFUSAL_BYTES);
            check_refused(&other, 19, VBV_REPORT_BYTES - 1, RECORDS, VBV_REFUSAL_BYTES);
        }
    }
}

/* A stream above 2^48 bits is 14 by its length alone: none of its bytes can be read here. */
static void check_too_long(void)
{
    size_t length = ((size_t)1 << 45) + 1;
    void *stream = mmap(NULL, length, PROT_NONE, MAP_PRIVATE | MAP_ANONYMOUS | MAP_NORESERVE, -1, 0);
    if (stream == MAP_FAILED) {
        printf("entries: no room for addresses of 2^45 bytes, so 14 was not tried in this run\n");
        return;
    }
    struct place report = lend(VBV_REPORT_BYTES), records = lend(RECORDS), refusal = lend(VBV_REFUSAL_BYTES);
    uint64_t expected[REFUSAL_WORDS] = { 14 };
    expect_words(&refusal, expected, REFUSAL_WORDS);
    uint64_t answer = vbv_check(stream, length, VBV_MPEG2, report.bytes, report.length, records.bytes, records.length,
                                refusal.bytes, refusal.length);
    answered("a stream above 2^48 bits", answer, 14);
    struct place alone = lend(VBV_REFUSAL_BYTES);
    expect_words(&alone, expected, REFUSAL_WORDS);
    answer = vbv_report(stream, length, VBV_MPEG1, report.bytes, report.length, alone.bytes, alone.length);
    answered("a stream above 2^48 bits", answer, 14);
    take_back(&alone, "a stream above 2^48 bits", "the refusal's place of the report alone");
    take_back(&report, "a stream above 2^48 bits", "the report's place");
    take_back(&records, "a stream above 2^48 bits", "the records' place");
    take_back(&refusal, "a stream above 2^48 bits", "the refusal's place");
    munmap(stream, length);
}

/* A header patched: its value and every byte. */
static void patch(const char *name, const char *hex, uint16_t delay, uint64_t number, const char *afterwards)
{
    struct place picture = { 0, NULL, NULL };
    picture.bytes = bytes_of(hex, &picture.length);
    picture.expected = bytes_of(afterwards, &picture.length);
    uint64_t answer = vbv_patch_delay(picture.bytes, picture.length, delay);
    answered(name, answer, number);
    take_back(&picture, name, "the picture's bytes");
}

static void check_patches(void)
{
    patch("the paper's header", I_FFFF, 22118, 0, I_22118);
    patch("set bits of other fields stay", "00000100FFFFFFFFFFAA", 0, 0, "00000100FFF80007FFAA");
    patch("clear bits of other fields stay", "0000010000000000005500", 65535, 0, "000001000007FFF8005500");
    patch("no bytes", "", 1, 20, "");
    patch("7 bytes", "00000100000AB3", 1, 20, "00000100000AB3");
    patch("3 bytes", "000001", 1, 20, "000001");
    patch("another first byte", "010001000008C350", 1, 20, "010001000008C350");
    patch("another second byte", "000101000008C350", 1, 20, "000101000008C350");
    patch("another third byte", "000002000008C350", 1, 20, "000002000008C350");
    patch("a slice", "000001010008C350", 1, 20, "000001010008C350");
}

/* Every delay comes back out of the 16 bits from bit 45. */
static void check_delays(void)
{
    uint8_t *picture = memory(8);
    memcpy(picture, "\0\0\1\0\xA5\xFF\x5A\xFF", 8);
    for (unsigned delay = 0; delay <= 0xFFFF; delay++) {
        uint64_t answer = vbv_patch_delay(picture, 8, (uint16_t)delay);
        unsigned read = (picture[5] & 7u) << 13 | picture[6] * 32u | picture[7] >> 3;
        answered("a delay", answer, 0);
        if (read != delay || picture[4] != 0xA5 || picture[5] >> 3 != 31 || (picture[7] & 7) != 7)
            fail("a delay", "not read back, or another bit changed");
    }
    free(picture);
}

int main(void)
{
    static const uint8_t needed[] = { 0, 1, 2, 3, 4, 5, 6, 7, 8, 9, 10, 11, 12, 15, 19, 20, 25 };
    for (size_t i = 0; i < COUNT(accepted); i++) {
        check_accepted(accepted + i);
        check_film(accepted + i);
        check_variable(accepted + i);
    }
    for (size_t i = 0; i < COUNT(film); i++)
        check_accepted(film + i);
    check_record_places(accepted, accepted + 1);
    for (size_t i = 0; i < COUNT(refused); i++) {
        check_refusal(refused + i);
        check_film(refused + i);
        check_variable(refused + i);
    }
    check_places(accepted);
    check_places(film);
    check_places(refused + 5); /* no bytes */
    check_too_long();
    check_patches();
    check_delays();
    return summary("entries", needed, COUNT(needed));
}
