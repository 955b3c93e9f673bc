/* A stream in memory, or a part of one: its start codes, and the fields of its headers. The library reads these for itself and
 * hands none out, so what a tool has to know of a stream before it calls the library, or beside it, is read here. */
#ifndef STREAM_H
#define STREAM_H

#include <stddef.h>
#include <stdint.h>
#include <stdio.h>

struct stream {
    const uint8_t *bytes;
    size_t length;
};

/* Codes of ISO/IEC 13818-2, Table 6-1; from SYSTEM on codes are of system streams. */
enum { PICTURE = 0x00, FIRST_SLICE = 0x01, LAST_SLICE = 0xAF, USER_DATA = 0xB2, SEQUENCE = 0xB3, SEQUENCE_ERROR = 0xB4,
       EXTENSION = 0xB5, SEQUENCE_END = 0xB7, GROUP = 0xB8, SYSTEM = 0xB9 };

/* Extensions (Table 6-2), picture types (Table 6-12) and structures (Table 6-14). */
enum { SEQUENCE_EXTENSION = 1, QUANT_MATRIX_EXTENSION = 3, PICTURE_CODING_EXTENSION = 8 };
enum { I_PICTURE = 1, P_PICTURE, B_PICTURE, D_PICTURE };
enum { TOP_FIELD = 1, BOTTOM_FIELD };

/* Bytes of a start code, of a sequence header without matrices, and of its extension. */
enum { CODE_BYTES = 4, SEQUENCE_BYTES = 12, SEQUENCE_EXTENSION_BYTES = 10 };

/* A field: its first bit, counted from the start code's, and how many it has. Here those of a sequence header, its extension, a
 * picture header and its coding extension (6.2.2.1, 6.2.2.3, 6.2.3, 6.2.3.1); vectors are a full-pel flag and its f_code. */
struct field {
    size_t at, width;
};
extern const struct field FRAME_RATE_CODE, BIT_RATE, VBV_BUFFER_SIZE;
extern const struct field EXTENSION_ID, PROGRESSIVE_SEQUENCE, BIT_RATE_EXTENSION, VBV_BUFFER_SIZE_EXTENSION, LOW_DELAY,
    FRAME_RATE_N, FRAME_RATE_D;
extern const struct field PICTURE_CODING_TYPE, FORWARD_VECTORS, BACKWARD_VECTORS;
extern const struct field PICTURE_STRUCTURE, TOP_FIELD_FIRST, REPEAT_FIRST_FIELD;

/* The value of a field; 0 where the bytes end before it. */
uint32_t field_value(const struct stream *s, struct field f);
void set_field(uint8_t *bytes, struct field f, uint32_t value);

/* The bits of a byte that belong to a field. */
uint8_t field_bits(struct field f, size_t byte);

/* The part from one place to another. */
struct stream part(const struct stream *s, size_t from, size_t to);

/* The next 00 00 01 at or after `at`, with a byte after it; the length where there is none. */
size_t next_code(const struct stream *s, size_t at);

/* The code there; -1 at the stream's end. */
int code_at(const struct stream *s, size_t at);

/* Where a code stands first; the length where it does not. */
size_t find_code(const struct stream *s, int code);

int is_slice(int code);

/* How many picture start codes there are: no fewer than pictures. */
size_t picture_codes(const struct stream *s);

/* Each program's own name. */
extern const char program[];

/* A file's name for people to read, its control characters as \x1b. */
void put_name(FILE *to, const char *name);

/* What ails a file, on standard error; returns 2, the exit status for it. */
int trouble(const char *name, const char *what);

/* Writes to standard error, also in a signal handler. */
void say(const char *text);

/* Whether two names are of one file. */
int same_file(const char *one, const char *other);

#endif
