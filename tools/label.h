/* Text for a drawing: numbers, times, and words that fit their room. Widths are about those of a wide sans-serif. */
#ifndef LABEL_H
#define LABEL_H

#include <stdint.h>
#include <stdio.h>

/* Room for any number or time. */
enum { LABEL_BYTES = 40 };

/* A number with a comma before each three digits. */
const char *grouped(uint64_t value, char *label);

/* A time as mm:ss, with so many decimals (at most 6). */
const char *clocked(double seconds, int decimals, char *label);

/* The width of a text in pixels, at a size of letters. */
double text_width(const char *text, double size);

/* Writes a text for XML. UTF-8 is kept; controls, and bytes that are not UTF-8, become question marks. */
void put_text(FILE *to, const char *text);

/* Writes it too, with the middle left out where the room does not suffice. */
void put_shortened(FILE *to, const char *text, double size, double room);

/* Writes as many words as there is room for, one at least. Returns the words left. Writes nothing where `to` is NULL. */
const char *put_line(FILE *to, const char *words, double size, double room);

#endif
