//! The original's answer to a case, as FORMAT.md lays it out.

use crate::check::{
    ACROSS, AS_PLAIN, FILM_ALONE, NOT_READ, OF_FIELDS, OF_FOUR, OF_FRAMES, OF_SIX, OF_THREE, OTHERWISE, WITH_RATE,
};
use crate::format::{ACCEPTED, Answer, number, words};
use crate::mode::{FILM, FILM_VARIABLE, MPEG1, MPEG1_FILM, MPEG1_FILM_VARIABLE, MPEG1_VARIABLE, Mode, PLAIN, VARIABLE};
use crate::{check, lists, model, variable};
use original::gop_header::{Mpeg2Gop, TimeCode, nominal_pictures_per_second, write_gop_header};
use original::picture_header::{
    Mpeg2PictureHeader, PictureCodingExtension, PictureCodingType, PictureStructure, oracle_picture_header_byte_length,
};
use original::quant_matrix_extension::QuantiserMatrixPayload;
use original::sequence_extension::{ChromaFormat, Mpeg2Sequence, Mpeg2SequenceExtension};
use original::sequence_header::{AspectRatio, Mpeg2SequenceHeader};
use original::stream_writer::{
    SequenceHeaderParams, profile_and_level_indication, write_sequence_extension, write_sequence_header,
};
use original::vbv::{frame_rate_value, oracle_extended};
use original::{Error, Result};
use oxideav_core::bits::BitWriter;

/// The kinds of cases by their number, with the refusals that each can give and what else has to be met.
pub const KINDS: [(&str, &[u8]); 27] = [
    ("Mpeg2SequenceHeader::parse", &[1, 2]),
    ("Mpeg2SequenceExtension::parse", &[1, 2]),
    ("Mpeg2Sequence::from_buf", &[1, 2]),
    ("Mpeg2PictureHeader::parse", &[1, 2]),
    ("PictureCodingExtension::parse", &[1, 2]),
    ("Mpeg2PictureHeader::parse_with_extension", &[1, 2]),
    ("picture_header_byte_length", &[1, 2]),
    ("write_sequence_header", &[16, 19]),
    ("write_sequence_extension", &[19]),
    ("write_gop_header", &[16, 19]),
    ("TimeCode::from_display_index", &[6]),
    ("nominal_pictures_per_second", &[6]),
    ("profile_and_level_indication", &[]),
    ("frame_rate_value", &[6, 12]),
    ("VbvCbrModel", &[7, 8, 9, 10, 12, 13, 14, model::BEYOND]),
    ("patch_vbv_delay", &[20]),
    ("verify_cbr_stream, MPEG-1", &[1, 2, 3, 4, 5, 6, 7, 8, 9, 10, 11, 12, 15, OF_FRAMES, NOT_READ]),
    (
        "verify_cbr_stream, MPEG-2",
        &[1, 2, 3, 4, 5, 6, 7, 8, 9, 10, 11, 12, 15, OF_FIELDS, OF_FRAMES, WITH_RATE, OTHERWISE],
    ),
    ("CbrWriter", &lists::OWED),
    ("verify_in_mode, MPEG-2 film", &joined::<{ FILM_CHECK.len() + FILM_OWED.len() }>(&FILM_CHECK, &FILM_OWED)),
    (
        "verify_in_mode, MPEG-2",
        &[1, 2, 3, 4, 5, 6, 7, 8, 9, 10, 11, 12, 15, OF_FIELDS, OF_FRAMES, WITH_RATE, OTHERWISE],
    ),
    ("verify_in_mode, MPEG-1", &[1, 2, 3, 4, 5, 6, 8, 9, 10, 11, 12, 15, OF_FRAMES]),
    ("verify_in_mode, MPEG-1 film", &[12]),
    ("verify_in_mode, MPEG-2 variable", &VARIABLE_OWED),
    ("verify_in_mode, MPEG-2 film variable", &FILM_VARIABLE_OWED),
    ("verify_in_mode, MPEG-1 variable", &[12]),
    ("verify_in_mode, MPEG-1 film variable", &[12]),
];
const FILM_CHECK: [u8; 15] = [1, 2, 3, 4, 5, 6, 7, 8, 9, 10, 11, 12, 15, OF_FIELDS, OF_FRAMES];
/// Of film mode, beside what a plain check has to meet.
const FILM_OWED: [u8; 10] =
    [OF_THREE, OF_FOUR, OF_SIX, FILM_ALONE, AS_PLAIN, ACROSS, ACROSS + 1, ACROSS + 2, ACROSS + 3, ACROSS + 4];
/// Kinds of which every case is refused.
pub const NO_MODES: [u8; 3] = [23, 26, 27];

const VARIABLE_CHECK: [u8; 11] = [1, 2, 3, 4, 6, 10, 12, 15, 25, OF_FIELDS, OF_FRAMES];
const VARIABLE_OWED: [u8; VARIABLE_CHECK.len() + variable::OWED.len()] = joined(&VARIABLE_CHECK, &variable::OWED);
const FILM_VARIABLE_OWED: [u8; VARIABLE_OWED.len() + FILM_OWED.len()] = joined(&VARIABLE_OWED, &FILM_OWED);

const fn joined<const N: usize>(a: &[u8], b: &[u8]) -> [u8; N] {
    let mut all = [0; N];
    let mut i = 0;
    while i < N {
        all[i] = if i < a.len() { a[i] } else { b[i - a.len()] };
        i += 1;
    }
    all
}

/// The mode of a kind that is a check.
pub fn mode(kind: u8) -> Mode {
    match kind {
        17 | 22 => MPEG1,
        18 | 21 => PLAIN,
        20 => FILM,
        23 => MPEG1_FILM,
        24 => VARIABLE,
        25 => FILM_VARIABLE,
        26 => MPEG1_VARIABLE,
        27 => MPEG1_FILM_VARIABLE,
        _ => unreachable!("no check is of kind {kind}"),
    }
}

pub fn answer(kind: u8, input: &[u8]) -> Answer {
    match kind {
        1 => parsed(2, Mpeg2SequenceHeader::parse(input), sequence_header),
        2 => parsed(2, Mpeg2SequenceExtension::parse(input), sequence_extension),
        3 => parsed(2, Mpeg2Sequence::from_buf(input), sequence),
        4 => parsed(2, Mpeg2PictureHeader::parse(input), picture_header),
        5 => parsed(2, PictureCodingExtension::parse(input), picture_coding_extension),
        6 => parsed(2, Mpeg2PictureHeader::parse_with_extension(input), |out, (header, extension)| {
            picture_header(out, header);
            picture_coding_extension(out, extension);
        }),
        7 => parsed(2, oracle_picture_header_byte_length(input), |out, n| put(out, &[n as u32])),
        8 => sequence_header_written(input),
        9 => written(false, &input[2..], |bw| write_sequence_extension(bw, chroma(input[0]), input[1] != 0)),
        10 => gop_header_written(input),
        11 => parsed(6, TimeCode::from_display_index(number(&input[..8]), input[8]), time_code),
        12 => parsed(6, nominal_pictures_per_second(input[0]), |out, rate| put(out, &[rate.into()])),
        13 => parsed(6, Ok(profile_and_level_indication(chroma(input[0]))), |out, byte| put(out, &[byte.into()])),
        14 => frame_rate([input[0], input[1], input[2]]),
        15 => model::calls(input),
        16 => model::patched(input),
        19 => lists::answer(input),
        17..=27 => check::checked(mode(kind), input),
        _ => unreachable!("no kind {kind}"),
    }
}

/// The original's rate; with n or d not 0 multiplied by the patched copy's rule. It has no 12, which is decided by request 02.
fn frame_rate([code, n, d]: [u8; 3]) -> Answer {
    if 3 < n || 31 < d {
        return Answer::of((12, "n or d above its range"));
    }
    let as_it_is = frame_rate_value(code);
    let rate = if (n, d) == (0, 0) { as_it_is } else { as_it_is.map(|rate| oracle_extended(rate, n, d)) };
    parsed(6, rate, |out, (frn, frd)| words(out, &[frn.into(), frd.into()]))
}

/// Puts numbers of four bytes, the lowest first.
fn put(out: &mut Vec<u8>, numbers: &[u32]) {
    out.extend(numbers.iter().flat_map(|n| n.to_le_bytes()));
}

/// The answer of a function that returns a value; `bad` is the number of every refusal but `ShortHeader`.
fn parsed<T>(bad: u8, result: Result<T>, fields: impl Fn(&mut Vec<u8>, T)) -> Answer {
    match result {
        Ok(value) => {
            let mut answer = Answer::of(ACCEPTED);
            fields(&mut answer.bytes, value);
            answer
        }
        Err(Error::ShortHeader) => Answer::of((1, "ShortHeader")),
        Err(Error::InvalidBitstream(reason)) => Answer::of((bad, reason)),
    }
}

/// The answer of a writer over an output part. The refusals are added to the original's: 16 where a field is unfit, then 19
/// where the part is too short; either leaves the part as it was.
fn written(unfit: bool, part: &[u8], write: impl Fn(&mut BitWriter)) -> Answer {
    let mut out = part.to_vec();
    let (met, count) = if unfit {
        ((16, "a field is zero or too wide"), 0)
    } else {
        let mut bw = BitWriter::new();
        write(&mut bw);
        let bytes = bw.finish();
        if part.len() < bytes.len() {
            ((19, "the part is too short"), 0)
        } else {
            out[..bytes.len()].copy_from_slice(&bytes);
            (ACCEPTED, bytes.len())
        }
    };
    let mut answer = Answer::of(met);
    put(&mut answer.bytes, &[count as u32]);
    answer.bytes.extend_from_slice(&out);
    answer
}

fn sequence_header_written(input: &[u8]) -> Answer {
    let matrix = |at: usize| {
        let bytes = input[at + 1..at + 65].try_into().unwrap();
        (input[at] != 0).then_some(QuantiserMatrixPayload { bytes })
    };
    let p = SequenceHeaderParams {
        horizontal_size: number(&input[0..2]) as u16,
        vertical_size: number(&input[2..4]) as u16,
        aspect_ratio_code: input[4],
        frame_rate_code: input[5],
        bit_rate_value: number(&input[6..10]) as u32,
        vbv_buffer_size_value: number(&input[10..12]) as u16,
        intra_quantiser_matrix: matrix(12),
        non_intra_quantiser_matrix: matrix(77),
    };
    let unfit = !(1..1 << 12).contains(&p.horizontal_size)
        || !(1..1 << 12).contains(&p.vertical_size)
        || !(1..1 << 4).contains(&p.aspect_ratio_code)
        || !(1..1 << 4).contains(&p.frame_rate_code)
        || !(1..1 << 18).contains(&p.bit_rate_value)
        || !(0..1 << 10).contains(&p.vbv_buffer_size_value);
    written(unfit, &input[142..], |bw| write_sequence_header(bw, &p))
}

fn gop_header_written(input: &[u8]) -> Answer {
    let gop = Mpeg2Gop {
        time_code: TimeCode {
            drop_frame: input[0] != 0,
            hours: input[1],
            minutes: input[2],
            seconds: input[3],
            pictures: input[4],
        },
        closed_gop: input[5] != 0,
        broken_link: input[6] != 0,
    };
    let t = gop.time_code;
    let unfit = t.hours >= 1 << 5 || t.minutes >= 1 << 6 || t.seconds >= 1 << 6 || t.pictures >= 1 << 6;
    written(unfit, &input[7..], |bw| write_gop_header(bw, &gop))
}

fn chroma(code: u8) -> ChromaFormat {
    match code {
        1 => ChromaFormat::Yuv420,
        2 => ChromaFormat::Yuv422,
        3 => ChromaFormat::Yuv444,
        _ => unreachable!("no chroma format {code}"),
    }
}

fn sequence_header(out: &mut Vec<u8>, h: Mpeg2SequenceHeader) {
    let aspect = match h.aspect_ratio {
        AspectRatio::Square => 1,
        AspectRatio::Dar3x4 => 2,
        AspectRatio::Dar9x16 => 3,
        AspectRatio::Dar1x221 => 4,
        AspectRatio::Reserved(code) => 5 + 256 * u32::from(code),
    };
    put(
        out,
        &[h.width.into(), h.height.into(), aspect, h.frame_rate_code.into(), h.bit_rate, h.vbv_buffer_size.into()],
    );
    put(out, &[h.constrained_parameters.into()]);
    matrix(out, h.intra_quant);
    matrix(out, h.non_intra_quant);
}

fn matrix(out: &mut Vec<u8>, m: Option<[u8; 64]>) {
    out.push(m.is_some().into());
    out.extend_from_slice(m.as_ref().map_or(&[], |bytes| bytes));
}

fn sequence_extension(out: &mut Vec<u8>, e: Mpeg2SequenceExtension) {
    let chroma = match e.chroma_format {
        ChromaFormat::Yuv420 => 1,
        ChromaFormat::Yuv422 => 2,
        ChromaFormat::Yuv444 => 3,
    };
    put(out, &[e.profile_and_level.into(), e.progressive_sequence.into(), chroma]);
    put(out, &[e.horizontal_size_extension.into(), e.vertical_size_extension.into(), e.bit_rate_extension.into()]);
    put(out, &[e.vbv_buffer_size_extension.into(), e.low_delay.into()]);
    put(out, &[e.frame_rate_extension_n.into(), e.frame_rate_extension_d.into()]);
}

fn sequence(out: &mut Vec<u8>, s: Mpeg2Sequence) {
    put(out, &[s.horizontal_size.into(), s.vertical_size.into(), s.bit_rate, s.vbv_buffer_size]);
    sequence_header(out, s.header);
    sequence_extension(out, s.extension);
}

fn picture_header(out: &mut Vec<u8>, h: Mpeg2PictureHeader) {
    let (kind, first_flag) = match h.picture_coding_type {
        PictureCodingType::Intra => (1, 61),
        PictureCodingType::Predictive => (2, 65),
        PictureCodingType::Bidirectional => (3, 69),
        PictureCodingType::DcIntra => (4, 61),
    };
    let flag = |f: Option<bool>| f.map_or(255, u32::from);
    let code = |c: Option<u8>| c.map_or(255, u32::from);
    put(out, &[h.temporal_reference.into(), kind, h.vbv_delay.into()]);
    put(out, &[flag(h.full_pel_forward_vector), code(h.fwd_f_code)]);
    put(out, &[flag(h.full_pel_backward_vector), code(h.bwd_f_code)]);
    put(out, &[first_flag, h.extra_information_picture.len() as u32]);
    out.extend_from_slice(&h.extra_information_picture);
}

fn picture_coding_extension(out: &mut Vec<u8>, e: PictureCodingExtension) {
    let structure = match e.picture_structure {
        PictureStructure::TopField => 1,
        PictureStructure::BottomField => 2,
        PictureStructure::Frame => 3,
    };
    put(
        out,
        &[e.f_code_fwd_horiz.into(), e.f_code_fwd_vert.into(), e.f_code_bwd_horiz.into(), e.f_code_bwd_vert.into()],
    );
    put(out, &[e.intra_dc_precision.into(), structure, e.top_field_first.into(), e.frame_pred_frame_dct.into()]);
    put(out, &[e.concealment_motion_vectors.into(), e.q_scale_type.into(), e.intra_vlc_format.into()]);
    put(out, &[e.alternate_scan.into(), e.repeat_first_field.into(), e.chroma_420_type.into()]);
    put(out, &[e.progressive_frame.into(), e.composite_display_flag.into()]);
}

fn time_code(out: &mut Vec<u8>, t: TimeCode) {
    put(out, &[t.drop_frame.into(), t.hours.into(), t.minutes.into(), t.seconds.into(), t.pictures.into()]);
}
