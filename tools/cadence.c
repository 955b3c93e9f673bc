#include "cadence.h"

/* A pair, or a field left over, that I or P leads is an anchor without the flag. */
static void close_field(struct cadence *k)
{
    if (k->open == ANCHOR_FIELD)
        k->repeats = k->top = 0;
    k->open = NO_FIELD;
}

/* The second field of a pair led by I or P waits for the repeated field of the anchor before the pair. */
static uint8_t take_field(struct cadence *k, struct facts next)
{
    if (k->open == NO_FIELD) {
        k->open = next.anchor ? ANCHOR_FIELD : B_FIELD;
        return 1;
    }
    int waits = k->open == ANCHOR_FIELD && k->repeats && !k->progressive && !k->low_delay;
    close_field(k);
    return waits ? 2 : 1;
}

/* A B frame is shown at its removal; an I or P frame when the next anchor is removed, so that then the anchor before is shown,
 * unless low_delay says that there are no B pictures. */
static uint8_t take_frame(struct cadence *k, struct facts next)
{
    close_field(k);
    int own = !next.anchor || k->low_delay;
    int repeats = own ? next.repeats : k->repeats, top = own ? next.top : k->top;
    if (next.anchor) {
        k->repeats = next.repeats;
        k->top = next.top;
    }
    return !repeats ? 2 : !k->progressive ? 3 : top ? 6 : 4;
}

uint8_t lasts(struct cadence *k, struct facts next)
{
    if (!k->film)
        return next.field ? 1 : 2;
    return next.field ? take_field(k, next) : take_frame(k, next);
}
