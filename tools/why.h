/* Words for why the writer does not take headers (18) or a layer (20). The library has judged and tells only the
 * number; this looks for the cause, and decides nothing. */
#ifndef WHY_H
#define WHY_H

#include "stream.h"

void print_why_headers(const struct stream *headers, int first);

/* Where the writer is not one for film, a repeated field is a cause. Returns FILM where that is it, else OTHER. */
enum cause { OTHER, FILM };
enum cause print_why_layer(const struct stream *layer, int film);

#endif
