/* Hipokuta: the buffer model of ISO/IEC 13818-2, Annex C, at a constant rate and at a variable one, proved: the check of an MPEG
 * stream, and the writer of an MPEG-2 one.
 *
 * A program links the archive, libhipokuta.a, and lends each call its bytes. The structs below lie over what a call reads or
 * writes: numbers are 64-bit words, low byte first (LAYOUT.md). Pointers need no alignment. A null pointer may stand with the
 * length 0, and with no other. What a call may write must not overlap anything else that the same call is lent. Nothing is kept
 * between calls but what the caller holds, no memory is allocated, and calls may run at the same time on different memory.
 *
 * LAYOUT.md and REFUSALS.md are in docs/, or where this is installed in share/doc/hipokuta/.
 */
#ifndef HIPOKUTA_H
#define HIPOKUTA_H

#include <stddef.h>
#include <stdint.h>

#ifdef __cplusplus
extern "C" {
#endif

#define HIPOKUTA_VERSION "3.1"

/* Modes. Of a constant rate: MPEG-1; MPEG-2, a picture lasting a frame's time or a field's; and VBV_MPEG2 + VBV_FILM, where
 * repeat_first_field counts too (13818-2, C.9 to C.12). Of a variable rate (C.3.2): VBV_MPEG2 + VBV_VARIABLE, and VBV_MPEG2 +
 * VBV_FILM + VBV_VARIABLE. So 1, 2, 6, 10 and 14; there is no other. See vbv_check. */
#define VBV_MPEG1 1
#define VBV_MPEG2 2
#define VBV_FILM 4
#define VBV_VARIABLE 8

/* Refusals: the value that an entry returns, where it is not 0 (REFUSALS.md). No entry returns any other number. */
enum {
    VBV_SHORT_HEADER = 1,    /* the bytes end inside a header */
    VBV_BAD_HEADER = 2,      /* a header with a value, code or prefix that it must not have */
    VBV_NO_SEQUENCE = 3,     /* no sequence header */
    VBV_NO_PICTURE = 4,      /* no picture */
    VBV_VARIABLE_RATE = 5,   /* at a constant rate: the first delay is 0xFFFF */
    VBV_FRAME_RATE = 6,      /* a frame rate code that is not 1 to 8 */
    VBV_EARLY = 7,           /* a picture's start code lies beyond the bits delivered at its removal */
    VBV_DELAY_TOO_LONG = 8,  /* an expected delay above 0xFFFE */
    VBV_OVERFLOW = 9,        /* the buffer overflows */
    VBV_UNDERFLOW = 10,      /* a picture is not yet all delivered at its removal */
    VBV_DELAY_MISMATCH = 11, /* coded and expected delay are more than a tick apart */
    VBV_PARAMETER = 12,      /* a value out of range, a constant rate's buffer of above 65,534 ticks, bytes of no state or config */
    VBV_TOO_FAR = 14,        /* the stream passes 2^48 bits */
    VBV_RECORD_PLACES = 15,  /* fewer record places than pictures */
    CBR_OTHER_KIND = 17,     /* another kind is pending, or the last picture was placed */
    CBR_HEADERS = 18,        /* the headers do not fit: see cbr_offer */
    CBR_ROOM = 19,           /* the output part, or a place for a report, refusal, answer or new state, is too short */
    CBR_LAYER = 20,          /* the layer does not fit: see cbr_offer; or no picture header to patch */
    CBR_TOO_LARGE = 21,      /* too large at quantiser 31 */
    CBR_STUFFING = 22,       /* the stuffed end lies beyond the bits delivered */
    VBV_CONSTANT_RATE = 25   /* at a variable rate: a delay is not 0xFFFF */
};

/* A refusal's name, such as "overflow"; and in one line what it means and what to do. Both NULL for a number that is none.
 * They are not in the archive: a program that wants them compiles c/refusal_text.c too. */
const char *vbv_refusal_name(uint64_t number);
const char *vbv_refusal_text(uint64_t number);

/* ---- the check ---- */

/* Bytes of a report, of each record, and of a refusal, and the structs that lie over them. */
#define VBV_REPORT_BYTES 40
#define VBV_RECORD_BYTES 40 /* 32 before 2.0: header and archive have to be of one version */
#define VBV_REFUSAL_BYTES 32

struct vbv_report {
    uint64_t bit_rate;    /* bits a second, as the sequence header says */
    uint64_t buffer_bits; /* what the receiver's buffer holds, as it says */
    uint64_t pictures;    /* in the stream: so many record places are needed */
    uint64_t min_after;   /* bits, the least left after a removal */
    uint64_t max_before;  /* bits, the most held before a removal */
};

struct vbv_record {
    uint64_t delay;            /* as coded, in ticks of 1/90,000 s; at a variable rate 65,535, which says none */
    uint64_t expected;         /* the delay that the model expects; at a variable rate 65,535 */
    uint64_t data_bits;        /* from the last picture's end to this one's */
    uint64_t occupancy_before; /* bits held just before the removal */
    uint64_t periods;          /* field periods up to the next removal, each half a frame's time: 1 for a field picture, 2 for a
                                * frame; in film mode 1, 2, 3, 4 or 6, as repeat_first_field says (see vbv_check) */
};

struct vbv_refusal {
    uint64_t number;
    uint64_t picture;         /* the first is 0 */
    uint64_t coded, expected; /* its delay, and the model's, as in a record. All three are of 9, 10 and 11, else 0 */
};

/* Checks a stream. Returns 0 where it is accepted, else the number of the refusal.
 *
 * Accepted: report holds a struct vbv_report, records one struct vbv_record for each picture, in order; refusal is untouched.
 * Refused: refusal holds a struct vbv_refusal; report and records are untouched.
 * Bytes of a place after what is written stay as they were.
 *
 * Pictures are removed at the frame rate of the first sequence header: its code's, in MPEG-2 times (n + 1) / (d + 1), n and d
 * being frame_rate_extension_n and _d of its sequence extension.
 *
 * mode is VBV_MPEG1, or VBV_MPEG2 alone or with VBV_FILM, VBV_VARIABLE or both, else 12; it is a uint8_t, so that C itself cuts a
 * larger number (262 is 6).
 *
 * With VBV_VARIABLE (13818-2, C.3.2) every picture's delay is 0xFFFF, else 25, tested of all pictures after 4, where 5 stands in
 * the other modes, and so before 12, 15 and any 10. The buffer is full at the first removal, and gains what the rate brings from
 * each removal to the next, but no more than fills it. So of 7 to 11 only 10 can be, and of 12 only the ranges: how long the
 * buffer takes to fill does not matter. In an accepted stream max_before is buffer_bits.
 *
 * With VBV_FILM the next removal waits for repeated fields, by progressive_sequence and low_delay of the first sequence header's
 * extension:
 * - a B frame lasts 2 field periods, with repeat_first_field 3; an I or P frame lasts 2 or 3 by that flag of the I or P picture
 *   before it, 2 where there is none;
 * - a field lasts 1; but the second of a pair that I or P leads lasts 2 where the I or P picture before the pair has the flag.
 *   Fields that follow one another pair up, whatever headers stand between them. A pair that I or P leads, or such a field
 *   that a frame follows, is an I or P picture without the flag;
 * - with low_delay 1 a frame goes by its own flag, and every field lasts 1;
 * - in a progressive sequence a frame that would last 3 lasts 4, or 6 where top_field_first stands beside the flag, and every
 *   field lasts 1.
 * A picture that is late is 10 with low_delay 1 too (no big pictures, C.7). Other modes do not read these flags.
 *
 * There are records_len / VBV_RECORD_BYTES record places; fewer than pictures is 15: vbv_report, which takes none, tells in
 * pictures how many are needed. A report_len under VBV_REPORT_BYTES or a refusal_len under VBV_REFUSAL_BYTES is 19, before
 * anything else; a refusal place that is too short is untouched.
 */
uint64_t vbv_check(const uint8_t *stream, size_t stream_len, uint8_t mode,
                   void *report, size_t report_len,
                   void *records, size_t records_len,
                   void *refusal, size_t refusal_len);

/* The same without the records: answers as vbv_check does with a record place for each picture, so never 15, and walks over
 * the stream once, where vbv_check goes over it again for the records. The report's pictures are the record places that
 * vbv_check needs to accept this stream.
 */
uint64_t vbv_report(const uint8_t *stream, size_t stream_len, uint8_t mode,
                    void *report, size_t report_len,
                    void *refusal, size_t refusal_len);

/* Writes vbv_delay into the picture header that begins at picture, all other bits staying as they were. Returns 0, or 20
 * with nothing changed where there are fewer than 8 bytes or they do not begin 00 00 01 00.
 */
uint64_t vbv_patch_delay(uint8_t *picture, size_t picture_len, uint16_t vbv_delay);

/* ---- the writer ---- */

/* Bytes of what a writer is created with, of its state, and of the answer to an offer, and the structs that lie over them. A
 * program may copy a state and go on from the copy; it reads the words, and writes none. */
#define CBR_CONFIG_BYTES 72
#define CBR_STATE_BYTES 200 /* 152 before 3.0: header and archive have to be of one version */
#define CBR_ANSWER_BYTES 72

struct cbr_config {
    uint64_t mode;                   /* VBV_MPEG2; + VBV_FILM for a film writer, + VBV_VARIABLE for a variable one, or + both */
    uint64_t bit_rate_value;         /* the rate in units of CBR_RATE_UNIT: 1 to CBR_MOST_RATE */
    uint64_t vbv_buffer_size_value;  /* the buffer in units of CBR_BUFFER_UNIT: 1 to CBR_MOST_BUFFER */
    uint64_t frame_rate_code;        /* 1 to 8: 24000/1001, 24, 25, 30000/1001, 30, 50, 60000/1001, 60 frames a second, */
    uint64_t frame_rate_extension_n; /* 0 to 3: times this + 1, */
    uint64_t frame_rate_extension_d; /* 0 to 31: divided by this + 1 */
    uint64_t quantiser;              /* 1 to 31: where all kinds start */
    uint64_t b_between;              /* 0 to 15, and */
    uint64_t anchors_per_gop;        /* 1 to 255: see cbr_create */
};

struct cbr_state {
    uint64_t bit_rate, buffer_size_bits, frn, frd; /* frn / frd frames a second, not reduced */
    uint64_t whole, rest;    /* bits delivered at the next removal, and the part of a bit above them; at a variable rate no more
                              * than prev_end_bits + buffer_size_bits */
    uint64_t prev_end_bits;  /* handed out so far, stuffing too */
    uint64_t removed;        /* pictures placed so far */
    uint64_t started;        /* 1 once a picture was placed: from then on no sequence header */
    uint64_t target_bits[3]; /* for I, P and B, by kind */
    uint64_t q[3];           /* by kind: the quantiser to encode the next picture with, q[CBR_I], q[CBR_P] or q[CBR_B] */
    uint64_t pending;        /* 0, or 1 + the kind of the picture that is wanted again */
    uint64_t pending_q;      /* the quantiser to encode that one with; 0 where none is pending */
    uint64_t stuffing_bytes; /* zeros handed out as stuffing so far */
    uint64_t finished;       /* 1 once the last picture was placed */
    uint64_t mode;           /* as created; without VBV_FILM the words below are 0 */
    uint64_t progressive_sequence, low_delay; /* by the first placed picture's headers */
    uint64_t anchor_repeat_first_field;       /* of the last I or P frame placed; 0 before there is one, and after a pair of
                                               * fields, or a field left over, that I or P leads */
    uint64_t anchor_top_field_first;          /* of the same frame; 0 in the same cases */
    uint64_t open_field;     /* a field that waits for the second of its pair: 0 none, 1 an I or P field, 2 a B field */
};

struct cbr_answer {
    uint64_t outcome;         /* CBR_PLACED, CBR_AGAIN or CBR_REFUSED */
    uint64_t number;          /* of the refusal, the value returned */
    uint64_t picture;         /* of a 9, the first is 0 */
    uint64_t coded, expected; /* 0 */
    uint64_t quantiser;       /* placed with; or to encode this picture again with */
    uint64_t delay;           /* placed: as written into the picture's header; of a variable writer 65,535 */
    uint64_t bytes;           /* placed: handed out, the first ones of out */
    uint64_t stuffing;        /* zeros among these; of a variable writer 0 */
};

/* Kinds of picture; the interval from a picture's removal to the next one's, by its structure: repeated fields come on top; how
 * an answer came out. */
#define CBR_I 0
#define CBR_P 1
#define CBR_B 2
#define CBR_FIELD 1
#define CBR_FRAME 2
#define CBR_PLACED 0
#define CBR_AGAIN 1
#define CBR_REFUSED 2

/* What a rate field and a buffer field count in, in bits, and the greatest of each that a writer takes. */
#define CBR_RATE_UNIT 400
#define CBR_BUFFER_UNIT 16384
#define CBR_MOST_RATE 262143
#define CBR_MOST_BUFFER 1023

/* Makes a writer of constant rate in state. Returns 0, or a refusal with state untouched: 19 where state_len is under
 * CBR_STATE_BYTES, 12 where a value is out of range, 6 where frame_rate_code is not 1 to 8, 12 where the buffer lasts longer
 * than 65,534 ticks of 1/90,000 s.
 *
 * The rate is bit_rate_value (1 to CBR_MOST_RATE) times CBR_RATE_UNIT bits a second, the buffer vbv_buffer_size_value (1 to
 * CBR_MOST_BUFFER) times CBR_BUFFER_UNIT bits. quantiser (1 to 31) is where all kinds start; quantisers are values of
 * quantiser_scale_code. b_between (0 to 15) and anchors_per_gop (1 to 255) set the targets that the quantisers are steered by,
 * and nothing else: a group is taken to have one I picture, anchors_per_gop P pictures (the I picture is not counted), and
 * b_between B pictures before each of these. A target counts a frame's time for each picture, of a film writer too: where fields
 * are repeated the line carries more than the targets ask for, of film at 24 pictures a second a quarter more, and the rest is
 * stuffed unless the encoder takes finer quantisers than q. The frame rate is the code's, which cbr_create_config may multiply
 * and divide.
 */
uint64_t cbr_create(uint32_t bit_rate_value, uint16_t vbv_buffer_size_value, uint8_t frame_rate_code, uint8_t quantiser,
                    uint8_t b_between, uint8_t anchors_per_gop,
                    void *state, size_t state_len);

/* The same by the words of a struct cbr_config, with frame_rate_extension_n and _d: code 1 with n 1 and d 4 is 24000/1001 x 2/5
 * frames a second. The mode says what the writer is, and the check of that mode accepts its stream: with VBV_FILM a film
 * writer, which takes repeated fields; with VBV_VARIABLE a variable one, which writes the delay 0xFFFF into each header and no
 * stuffing, for a line that waits while the buffer is full. cbr_create is this with VBV_MPEG2 and both 0. Set every word, by
 * = { .. } say; bytes of config after the struct's are not read.
 *
 * In this order: 12 where config_len is under CBR_CONFIG_BYTES, 19 where state_len is under CBR_STATE_BYTES, 12 where mode is
 * none, 12 where a word is out of the range that stands beside it, the code's apart, then 6 where that is, then, but of a
 * variable writer, 12 where the buffer lasts too long. No word is cut: all its 64 bits are tested. A refusal leaves state
 * untouched.
 */
uint64_t cbr_create_config(const void *config, size_t config_len, void *state, size_t state_len);

/* Offers a picture. Returns 0, or the number of the refusal; answer holds a struct cbr_answer, unused words 0.
 *
 * Pictures are offered in coding order: an anchor comes before the B pictures that are shown before it. Of a frame coded as two
 * fields each field is a picture of its own, offered with CBR_FIELD. The first picture placed is due three quarters of the
 * buffer's time after its start code, in whole ticks: from there on it may take three quarters of the buffer, and no more. At a
 * variable rate it is due once the buffer is full, and may take all of it, its headers too.
 *
 * CBR_PLACED: the first bytes of out are the stream's next ones, for the line to take at the rate, without a gap; at a variable
 * rate as fast as that while the buffer is not full. state has gone on.
 * CBR_AGAIN (also 0): too large; encode this picture again with answer's quantiser and offer that, or withdraw it. out is
 * untouched.
 * CBR_REFUSED: state and out are untouched, but that 21 closes the pending picture.
 * An out_len of CBR_BUFFER_UNIT / 8 times vbv_buffer_size_value is always enough.
 *
 * headers, to stand before the picture, fit if they are none, or begin 00 00 01 and hold no start codes but B2 (user data), B3
 * (sequence header), B5 (extension) and B8 (group), and do not end 00 00 01. Until a picture is placed each offer's headers
 * begin with B3, the only one, and its sequence extension follows at the next start code; both are well formed and agree with
 * the creation: the rate and buffer that they say are the writer's, and the frame rate has the writer's value, by whatever
 * code, n and d (25 is code 3, and code 6 with d 1 too). After that no headers hold B3. Anything else is 18.
 *
 * layer fits if it is one MPEG-2 picture from its start code to the end of its slices: 00 at byte 0 and nowhere else, next the
 * picture coding extension, then any of B5 and B2, then slices (01 to AF), at least one, and nothing after them; it does not
 * end 00 00 01. Both headers are well formed; the type is kind, the structure a frame for CBR_FRAME and a field for CBR_FIELD;
 * repeat_first_field is 0, for a film writer 0 or 1; of a P or B picture the full-pel flags are 0 and the codes beside them 7
 * (MPEG-1's vectors have others); between the picture header and the coding extension are only zeros. The delay may be any.
 * Anything else is 20. A film writer reads from the layers how long each picture lasts (see vbv_check), and from the headers of
 * the first picture placed progressive_sequence and low_delay.
 *
 * last is 1 for the stream's last picture, which needs no stuffing and is followed by a sequence end code, else 0. A channel
 * without an end never says 1: each picture is stuffed as the next removal needs it, and after each the check accepts all that
 * was handed out, so that the channel may stop there. To close it in form, or before 14 (2^48 bits, at 4,000,000 bits a second
 * 814 days), offer a picture with last 1; then create a new writer, whose first offer brings a sequence header.
 *
 * A set cannot start without a sequence header, and a writer's stream has one only at its front: a set that is switched on
 * later waits for the next writer's. So end the channel with last 1 wherever sets are to come in, at each programme say, and
 * begin anew. The two are streams of their own: let the line rest until the last picture is due, its delay after its start
 * code (at a variable rate until the buffer has run empty), so that the new stream finds an empty buffer.
 *
 * Order of the tests: state bytes that hold no writer are 12, before anything else; an answer_len under CBR_ANSWER_BYTES is 19;
 * any other kind, interval or last is 12; then 17, 18, 20, 14, 7 and 9 (headers too long), too large (21 at quantiser 31), 22,
 * 19. Of a variable writer 7, 9 and 22 are never: headers that are too long make the picture too large. An answer place that is
 * too short is never touched.
 */
uint64_t cbr_offer(void *state, size_t state_len,
                   const uint8_t *headers, size_t headers_len,
                   uint8_t kind, uint8_t interval, uint8_t last,
                   const uint8_t *layer, size_t layer_len,
                   uint8_t *out, size_t out_len,
                   void *answer, size_t answer_len);

/* Gives up the picture that is wanted again, if there is one; the next one offered takes its place. Returns 0, or 12 where the
 * bytes hold no writer. */
uint64_t cbr_withdraw(void *state, size_t state_len);

#ifdef __cplusplus
}
#endif

#endif
