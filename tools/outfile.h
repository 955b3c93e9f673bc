/* OUT: written beside the file of that name, which stays as it is until the new one is whole. */
#ifndef OUTFILE_H
#define OUTFILE_H

#include <stdio.h>

struct outfile {
    const char *name; /* as asked for; "-" is standard output */
    char *target;     /* the file itself, past links; NULL for standard output */
    FILE *file;       /* what is written */
};

/* OUT may be a new file, an old one that may be written, or standard output where that is no terminal; no device, and not IN by
 * any name. Returns 0, or 2 with the trouble told. */
int may_write(const char *from, const char *to);

/* Opens a new file beside OUT, with the permissions of an old OUT. A signal that ends the program removes it. */
int open_out(const char *name, struct outfile *out);

/* Sees to it that all of the new file is on the disk. */
int settle_out(struct outfile *out);

/* Copies the new file to `data`, which is standard output's, where that is OUT. */
int hand_out(struct outfile *out, int data);

/* Puts the new file in the place of an OUT that is a file. Either of these is the last: */
int keep_out(struct outfile *out);
void drop_out(struct outfile *out);

#endif
