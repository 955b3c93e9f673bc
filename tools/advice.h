/* What cbrsend says of a stream that does not go with a rate and buffer: which would. Each was tried with the library. */
#ifndef ADVICE_H
#define ADVICE_H

#include "request.h"

/* A rate and buffer, and where they come from. */
struct wanted {
    struct setting at;    /* as asked for, else as IN's header has them */
    struct setting asked; /* 0 where IN's header decides */
};

/* With what IN's header says, where nothing is asked for. */
struct wanted complete(const struct source *in, struct setting asked);

/* Whether nobody has said a rate. */
int names_no_rate(const struct wanted *w);

/* Says why a writer takes no such rate and buffer (12). */
void print_why_setting(struct setting at);

/* Says what is wanted, and by whom. */
void print_wanted(const struct wanted *w);

/* A buffer in the writer's range, and a rate in it or 0: what the search begins with. */
struct setting usable(struct setting at);

/* The commands that would do, or the picture that no rate and buffer carries; after the least rate with this buffer. */
void advise(struct source *in, const struct request *r, struct setting at, struct trial rate);

void print_buffer(uint32_t buffer);

/* Whether so many bytes are more than twice IN's; and that OUT would have so many. */
int is_swollen(const struct source *in, uint64_t bytes);
void print_size(const struct source *in, uint64_t bytes);

/* The picture that a sending was refused at, and why that is. */
void print_place(const struct source *in, const struct sending *end);
void print_cause(const struct source *in, const struct sending *end);

#endif
