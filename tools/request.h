/* What cbrsend is asked for. */
#ifndef REQUEST_H
#define REQUEST_H

#include "sending.h"

struct request {
    const char *call;  /* the program's name, as it was called */
    const char *which; /* --stream's word, or NULL */
    const char *from, *to; /* to is NULL for --least-rate */
    struct setting at; /* as asked for */
    int film;          /* repeated fields are sent too */
    int variable;      /* sent at a variable rate */
};

/* Reads the words. Returns GO, or the exit status where there is nothing more to do. */
enum { GO = -1 };
int read_words(int count, char **words, struct request *r);

/* The command that asks for the same with this rate and buffer, for a shell. */
void print_command(const struct request *r, struct setting at);

#endif
