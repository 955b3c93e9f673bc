/* The structs of hipokuta.h lie over the layouts:
 *
 *     structs LAYOUT
 *
 * LAYOUT is docs/LAYOUT.md, whose rows "| FROM to TO | `name`" are, one by one, the members below. Exit status 1: not so. */
#include "hipokuta.h"

#include <stdio.h>
#include <string.h>

struct member {
    const char *name;
    size_t from, length;
};

#define OF(type, member) { #member, offsetof(struct type, member), sizeof ((struct type *)0)->member }

static const struct member members[] = {
    OF(vbv_report, bit_rate), OF(vbv_report, buffer_bits), OF(vbv_report, pictures), OF(vbv_report, min_after),
    OF(vbv_report, max_before),
    OF(vbv_record, delay), OF(vbv_record, expected), OF(vbv_record, data_bits), OF(vbv_record, occupancy_before),
    OF(vbv_record, periods),
    OF(vbv_refusal, number), OF(vbv_refusal, picture), OF(vbv_refusal, coded), OF(vbv_refusal, expected),
    OF(cbr_config, mode), OF(cbr_config, bit_rate_value), OF(cbr_config, vbv_buffer_size_value), OF(cbr_config, frame_rate_code),
    OF(cbr_config, frame_rate_extension_n), OF(cbr_config, frame_rate_extension_d), OF(cbr_config, quantiser),
    OF(cbr_config, b_between), OF(cbr_config, anchors_per_gop),
    OF(cbr_state, bit_rate), OF(cbr_state, buffer_size_bits), OF(cbr_state, frn), OF(cbr_state, frd), OF(cbr_state, whole),
    OF(cbr_state, rest), OF(cbr_state, prev_end_bits), OF(cbr_state, removed), OF(cbr_state, started),
    OF(cbr_state, target_bits), OF(cbr_state, q), OF(cbr_state, pending), OF(cbr_state, pending_q),
    OF(cbr_state, stuffing_bytes), OF(cbr_state, finished), OF(cbr_state, mode), OF(cbr_state, progressive_sequence),
    OF(cbr_state, low_delay), OF(cbr_state, anchor_repeat_first_field), OF(cbr_state, anchor_top_field_first),
    OF(cbr_state, open_field),
    OF(cbr_answer, outcome), OF(cbr_answer, number), OF(cbr_answer, picture), OF(cbr_answer, coded), OF(cbr_answer, expected),
    OF(cbr_answer, quantiser), OF(cbr_answer, delay), OF(cbr_answer, bytes), OF(cbr_answer, stuffing),
};

enum { MEMBERS = sizeof members / sizeof *members };

static int same(const struct member *m, const char *name, size_t from, size_t to)
{
    return strcmp(m->name, name) == 0 && m->from == from && m->from + m->length == to + 1;
}

int main(int count, char **words)
{
    char line[1024], name[64];
    size_t from, to, rows = 0, failed = 0;
    FILE *layout = count == 2 ? fopen(words[1], "r") : NULL;
    if (layout == NULL) {
        puts("structs: no layout to read");
        return 2;
    }
    while (fgets(line, sizeof line, layout) != NULL) {
        if (sscanf(line, "| %zu to %zu | `%63[a-z_]`", &from, &to, name) != 3)
            continue;
        if (rows >= MEMBERS || !same(&members[rows], name, from, to)) {
            printf("structs: bytes %zu to %zu, %s: no such member there\n", from, to, name);
            failed++;
        }
        rows++;
    }
    fclose(layout);
    printf("structs: %zu rows, %d members, %zu failed\n", rows, (int)MEMBERS, failed);
    return failed > 0 || rows != MEMBERS;
}
