/* Words for the numbers of refusals (docs/REFUSALS.md). A program that wants them compiles this file beside the archive. */
#include "hipokuta.h"

static const struct {
    const char *name, *text;
} refusals[] = {
    [VBV_SHORT_HEADER] = { "bytes end inside a header",
        "The stream breaks off inside a header: a set waits for bytes that do not come. Copy or capture it again." },
    [VBV_BAD_HEADER] = { "bad header value",
        "A header holds what its standard forbids: a set may skip it or show nothing. Check the stream as the other standard "
        "(vbvreport -1, -2), or encode it again." },
    [VBV_NO_SEQUENCE] = { "no sequence header",
        "A set cannot learn size, rate or buffer from this stream and shows nothing. Give MPEG video from a sequence header on." },
    [VBV_NO_PICTURE] = { "no picture", "There is nothing that a set could show. Capture more of the stream." },
    [VBV_VARIABLE_RATE] = { "first delay 0xFFFF",
        "The stream does not claim a constant rate, so no set can tell when to start. Check MPEG-2 at a variable rate "
        "(vbvreport --variable), encode it at a constant one, or send its pictures by cbr_offer." },
    [VBV_FRAME_RATE] = { "frame rate code",
        "The frame rate is none that the standard knows (codes 1 to 8), so no set can tell when a picture is due. "
        "Set the right code." },
    [VBV_EARLY] = { "position beyond delivered bits",
        "A picture begins only after the time at which it is due: a set has run dry and the picture freezes. "
        "Encode smaller pictures, shorten the headers before this one, or raise the rate." },
    [VBV_DELAY_TOO_LONG] = { "delay above 0xFFFE",
        "A picture waits longer than its delay field can say: a set that tunes in there starts wrong. "
        "Stuff the pictures before it: cbrsend does." },
    [VBV_OVERFLOW] = { "overflow",
        "The set's buffer is more than full before this picture is removed: bytes are lost and pictures smear. "
        "Stuff the pictures before it: cbrsend does. When offered: shorten its headers." },
    [VBV_UNDERFLOW] = { "underflow",
        "This picture is not whole in the set's buffer when it is due: it freezes or breaks up. "
        "Encode it smaller, or raise the buffer or the rate: cbrsend, with --variable for such a rate, says to what." },
    [VBV_DELAY_MISMATCH] = { "delay mismatch",
        "The picture's delay is not the time at which it is due: a set that tunes in there overflows or runs dry later. "
        "Write the right delays: cbrsend does, for film cbrsend --film, or vbv_patch_delay." },
    [VBV_PARAMETER] = { "parameter out of range",
        "The rate or the buffer is zero or too large, or a constant rate takes over 65,534 ticks to fill it. Choose others. "
        "From C also: a bad configuration, mode, kind, interval, flag or state." },
    [VBV_TOO_FAR] = { "stream too long",
        "The stream has more than 2^48 bits. Check it in parts; send the rest by a new writer." },
    [VBV_RECORD_PLACES] = { "too few record places",
        "The stream has more pictures than there are places for their records. Lend as many as vbv_report counts." },
    [CBR_OTHER_KIND] = { "another kind is pending, or the writer is finished",
        "Offer a picture of the kind that is wanted again, or withdraw that one. After the last picture create a new writer." },
    [CBR_HEADERS] = { "headers do not fit",
        "What stands before this picture cannot be sent as it is: a start code that no header has, or a sequence header that is "
        "missing, late or not the writer's. Correct the headers." },
    [CBR_ROOM] = { "too little room",
        "The output part, or a place for a report, refusal, answer or state, is too short. Make the same call with more room; "
        "the buffer's size is always enough for a picture." },
    [CBR_LAYER] = { "layer does not fit",
        "This is not one whole MPEG-2 picture of the kind and interval given, or for vbv_patch_delay no picture header: correct "
        "the encoder. Or it repeats a field, which only a film writer takes: create one." },
    [CBR_TOO_LARGE] = { "too large",
        "At this rate and buffer the picture is not whole in a set when it is due. "
        "Encode it with less detail, or raise the rate or the buffer." },
    [CBR_STUFFING] = { "stuffed end beyond delivered bits",
        "From one picture to the next this rate brings more bits than the buffer holds, and no stuffing helps. "
        "Take a larger buffer or a lower rate." },
    [VBV_CONSTANT_RATE] = { "delay not 0xFFFF",
        "A delay claims a constant rate, where a variable one has 0xFFFF in every picture. Check it at a constant rate "
        "(vbvreport --constant), or write 0xFFFF into all: cbrsend --variable does." },
};

/* Does not compile where a struct is not of its layout's bytes. */
#define OF_BYTES(type, bytes) typedef char type##_of_bytes[sizeof(struct type) == (bytes) ? 1 : -1]
OF_BYTES(vbv_report, VBV_REPORT_BYTES);
OF_BYTES(vbv_record, VBV_RECORD_BYTES);
OF_BYTES(vbv_refusal, VBV_REFUSAL_BYTES);
OF_BYTES(cbr_config, CBR_CONFIG_BYTES);
OF_BYTES(cbr_state, CBR_STATE_BYTES);
OF_BYTES(cbr_answer, CBR_ANSWER_BYTES);

static int is_refusal(uint64_t number)
{
    return number < sizeof refusals / sizeof *refusals && refusals[number].name != 0;
}

const char *vbv_refusal_name(uint64_t number)
{
    return is_refusal(number) ? refusals[number].name : 0;
}

const char *vbv_refusal_text(uint64_t number)
{
    return is_refusal(number) ? refusals[number].text : 0;
}
