#include "report.h"

#include <inttypes.h>
#include <stdio.h>

static void print_share(const char *name, uint64_t bits, uint64_t buffer, const char *words)
{
    double percent = 100.0 * (double)bits / (double)buffer;
    printf("  %-12s %12" PRIu64 "  bits: %s (%.1f %% of the buffer)\n", name, bits, words, percent);
}

void print_numbers(const struct vbv_report *r)
{
    printf("  %-12s %12" PRIu64 "  bits a second\n", "bit_rate", r->bit_rate);
    printf("  %-12s %12" PRIu64 "  bits: what the set's buffer holds\n", "buffer_bits", r->buffer_bits);
    printf("  %-12s %12" PRIu64 "\n", "pictures", r->pictures);
    print_share("min_after", r->min_after, r->buffer_bits, "the least left after a removal");
    print_share("max_before", r->max_before, r->buffer_bits, "the most held before a removal");
}

void print_report(const struct vbv_report *r, int variable)
{
    print_numbers(r);
    if (variable)
        printf("  By the model, a set with this buffer, full at first and then filled at this rate while it is not full, never\n"
               "  runs dry on this stream.\n");
    else
        printf("  By the model, a set with this buffer never overflows and never runs dry on this stream.\n");
}
