// hipokuta.h in C++: a picture is sent, its delay written anew, and the stream checked, as film too; a writer by its configuration,
// one for film, and one of a variable rate. Exit status 1: another answer.
#include "hipokuta.h"

#include <cstring>

static const uint8_t headers[] = { 0, 0, 1, 0xB3, 1, 0, 16, 0x13, 2, 0x71, 0x20, 0xA0,
                                   0, 0, 1, 0xB5, 0x14, 0x82, 0, 1, 0, 0 };
static uint8_t layer[] = { 0, 0, 1, 0, 0, 0x0F, 0xFF, 0xF8, 0, 0, 1, 0xB5, 0x8F, 0xFF, 0xF3, 0x41, 0x80, 0, 0, 1, 1, 0x12, 0x34 };
static uint8_t out[CBR_BUFFER_UNIT / 8 * 20];

int main()
{
    struct cbr_state state, half, film, variable;
    struct cbr_config config = { VBV_MPEG2, 2500, 20, 6, 0, 1, 2, 0, 11 }; // 50 / 2
    struct cbr_answer answer;
    struct vbv_report report;
    struct vbv_record record;
    struct vbv_refusal refusal;
    uint64_t bad = cbr_create(2500, 20, 3, 2, 0, 11, &state, sizeof state);
    bad |= cbr_create_config(&config, sizeof config, &half, sizeof half);
    bad |= cbr_create_config(&config, CBR_CONFIG_BYTES - 1, &half, sizeof half) != VBV_PARAMETER;
    config.mode = VBV_MPEG2 + VBV_FILM;
    bad |= cbr_create_config(&config, sizeof config, &film, sizeof film);
    config.mode = VBV_MPEG2 + VBV_VARIABLE;
    bad |= cbr_create_config(&config, sizeof config, &variable, sizeof variable);
    bool modes = state.mode == VBV_MPEG2 && film.mode == VBV_MPEG2 + VBV_FILM && film.open_field == 0 && variable.mode == 10;
    bool halved = half.frn == 50 && half.frd == 2 && std::memcmp(half.target_bits, state.target_bits, sizeof half.target_bits) == 0;
    bad |= vbv_patch_delay(layer, sizeof layer, 0);
    bad |= cbr_offer(&state, sizeof state, headers, sizeof headers, CBR_I, CBR_FRAME, 1, layer, sizeof layer, out, sizeof out,
                     &answer, sizeof answer);
    bad |= cbr_withdraw(&state, sizeof state);
    bad |= vbv_check(out, answer.bytes, VBV_MPEG2, &report, sizeof report, &record, sizeof record, &refusal, sizeof refusal);
    bad |= vbv_report(out, answer.bytes, VBV_MPEG2 + VBV_FILM, &report, sizeof report, &refusal, sizeof refusal);
    bad |= vbv_report(out, answer.bytes, VBV_MPEG1 + VBV_FILM, &report, sizeof report, &refusal, sizeof refusal) != VBV_PARAMETER;
    bad |= vbv_report(out, answer.bytes, VBV_MPEG2 + VBV_VARIABLE, &report, sizeof report, &refusal, sizeof refusal)
        != VBV_CONSTANT_RATE;
    bad |= vbv_check(out, 0, VBV_MPEG2, &report, sizeof report, &record, sizeof record, &refusal, sizeof refusal) != VBV_NO_SEQUENCE;
    bool words = std::strcmp(vbv_refusal_name(refusal.number), "no sequence header") == 0 && vbv_refusal_text(0) == nullptr;
    bool sent = answer.outcome == CBR_PLACED && state.removed == 1 && state.finished == 1 && state.q[CBR_I] == 1;
    bool same = answer.delay == record.delay && record.periods == 2 && report.pictures == 1 && report.buffer_bits == 327680;
    return bad == 0 && halved && modes && words && sent && same ? 0 : 1;
}
