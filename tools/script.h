/* An answer for scripts: an object of JSON in a line, or lines of CSV. */
#ifndef SCRIPT_H
#define SCRIPT_H

#include "words.h"

/* One object and line for a file; with the pictures, or of a refused stream those before the refused one. */
void print_json(const struct told *t, int records);

/* The object, and the line, for a file that gets no answer. */
void print_json_trouble(const char *name, const char *why);
void print_csv_trouble(const char *name, const char *why);

/* The line of names, and a line for each picture; the refused one's is the last, and marked. */
void print_csv_names(void);
void print_csv(const struct told *t);

#endif
