//! Kinds 17 and 18, and in any mode 20 to 27: the check of a stream. The original has no refusal 15, and its 9 and 10 name the
//! picture alone: these the oracle completes from pictures that it finds itself, run through the original's model. A record's
//! first four words are the original's. It has no such field as the fifth, `periods` (request 04): that is by the oracle's own
//! rule. Of an MPEG-2 stream with n or d not 0 the original is the patched copy (request 02). In film mode (request 05) the
//! original decides what comes before the run, and the run is film.rs's. At a variable rate (request 06) it decides what comes before
//! its 5, and all from 25 on is variable.rs's.

use crate::cadence::{self, Facts, Sequence};
use crate::film;
use crate::format::{ACCEPTED, Answer, Met, number, pattern, words};
use crate::layout::VBV_RECORD_BYTES;
use crate::mode::{FILM, Mode};
use crate::model::{BUFFER_UNIT, RATE_UNIT, refusal};
use crate::place::lay;
use crate::spans::{picture_codes, spans};
use crate::variable;
use original::picture_header::{Mpeg2PictureHeader, PictureCodingType, PictureStructure};
use original::sequence_extension::Mpeg2Sequence;
use original::sequence_header::Mpeg2SequenceHeader;
use original::vbv::{
    RemovalInterval, VbvCbrModel, VbvParams, VbvStandard, VbvStreamReport, VbvVerifyError, VbvViolation,
    frame_rate_value, oracle_scan_start_codes, oracle_verify_extended, verify_cbr_stream,
};

const PLACES: Met = (15, "fewer record places than pictures");
const NO_MODE: Met = (12, "film or a variable rate in MPEG-1");

/// What else is counted, records by their fifth word: numbers above those of lists.rs.
pub const OF_FIELDS: u8 = 136;
pub const OF_FRAMES: u8 = 137;
/// In film mode 3, 4 and 6 too, and accepted streams that a plain check refuses or reports otherwise.
pub const OF_THREE: u8 = 151;
pub const OF_FOUR: u8 = 152;
pub const OF_SIX: u8 = 153;
pub const FILM_ALONE: u8 = 154;
pub const AS_PLAIN: u8 = 155;
/// Pairs of fields, by what stands between the two.
pub const ACROSS: u8 = 156;
const BETWEEN: [(u8, Met); 5] = [
    (0xB3, (ACROSS, "pairs of fields with a sequence header between them")),
    (0xB8, (ACROSS + 1, "pairs of fields with a group header between them")),
    (0xB2, (ACROSS + 2, "pairs of fields with user data between them")),
    (0xB5, (ACROSS + 3, "pairs of fields with an extension between them")),
    (0xB7, (ACROSS + 4, "pairs of fields with a sequence_end_code between them")),
];
/// And accepted streams by n and d of the first sequence extension.
pub const WITH_RATE: u8 = 138;
pub const OTHERWISE: u8 = 139;
pub const NOT_READ: u8 = 140;

fn counted(periods: u64) -> Met {
    match periods {
        1 => (OF_FIELDS, "records with periods 1"),
        2 => (OF_FRAMES, "records with periods 2"),
        3 => (OF_THREE, "records with periods 3"),
        4 => (OF_FOUR, "records with periods 4"),
        6 => (OF_SIX, "records with periods 6"),
        _ => unreachable!("no picture lasts {periods}"),
    }
}

pub struct Picture {
    pub position: u64,
    pub end: u64,
    pub delay: u16,
    structure: PictureStructure,
    pub facts: Facts,
}

impl Picture {
    fn interval(&self) -> RemovalInterval {
        if self.structure == PictureStructure::Frame { RemovalInterval::Frame } else { RemovalInterval::Field }
    }

    /// Field periods up to the next removal, by the oracle's own rule: of the structure that the original parses.
    fn periods(&self) -> u64 {
        match self.structure {
            PictureStructure::TopField | PictureStructure::BottomField => 1,
            PictureStructure::Frame => 2,
        }
    }
}

/// The pictures of a stream whose headers the original has parsed.
fn pictures(standard: VbvStandard, stream: &[u8]) -> Vec<Picture> {
    let codes = oracle_scan_start_codes(stream);
    let mut found = vec![];
    for (at, after) in spans(&codes) {
        let end = match codes.get(after) {
            Some(&(offset, 0xB7)) => offset + 4,
            Some(&(offset, _)) => offset,
            None => stream.len(),
        };
        let (offset, _) = codes[at];
        let (delay, structure, facts) = told(standard, &stream[offset..]);
        found.push(Picture { position: 8 * (offset as u64 + 4), end: 8 * end as u64, delay, structure, facts });
    }
    found
}

/// A picture's delay, structure and what film mode asks of it; MPEG-1 pictures are all frames, and have none of the latter.
fn told(standard: VbvStandard, picture: &[u8]) -> (u16, PictureStructure, Facts) {
    match standard {
        VbvStandard::Mpeg1 => {
            let facts = Facts { anchor: false, field: false, repeat: false, top: false };
            (Mpeg2PictureHeader::parse(picture).unwrap().vbv_delay, PictureStructure::Frame, facts)
        }
        _ => {
            let (header, extension) = Mpeg2PictureHeader::parse_with_extension(picture).unwrap();
            let facts = Facts {
                anchor: header.picture_coding_type != PictureCodingType::Bidirectional,
                field: extension.picture_structure != PictureStructure::Frame,
                repeat: extension.repeat_first_field,
                top: extension.top_field_first,
            };
            (header.vbv_delay, extension.picture_structure, facts)
        }
    }
}

/// What film mode asks of a stream's first sequence extension and of its pictures, whose headers the original has parsed.
pub fn shown(stream: &[u8]) -> (Sequence, Vec<Facts>) {
    let e = sequence(stream).unwrap().extension;
    let facts = pictures(VbvStandard::Mpeg2, stream).iter().map(|p| p.facts).collect();
    (Sequence { progressive: e.progressive_sequence, low_delay: e.low_delay }, facts)
}

/// The fifth words of the records of a stream that the original accepts.
pub fn periods(standard: VbvStandard, stream: &[u8]) -> Vec<u64> {
    pictures(standard, stream).iter().map(Picture::periods).collect()
}

/// A stream from its first sequence header on.
fn from_sequence(stream: &[u8]) -> Option<&[u8]> {
    let codes = oracle_scan_start_codes(stream);
    codes.iter().find(|&&(_, code)| code == 0xB3).map(|&(at, _)| &stream[at..])
}

/// The first sequence header with its extension, if they are there.
pub fn sequence(stream: &[u8]) -> Option<Mpeg2Sequence> {
    Mpeg2Sequence::from_buf(from_sequence(stream)?).ok()
}

/// Whether a sequence extension has n or d not 0.
pub fn extended(s: &Mpeg2Sequence) -> bool {
    (s.extension.frame_rate_extension_n, s.extension.frame_rate_extension_d) != (0, 0)
}

/// The original's check as it is; of an MPEG-2 stream with n or d not 0 the patched copy.
pub fn verify(standard: VbvStandard, stream: &[u8]) -> Result<VbvStreamReport, VbvVerifyError> {
    if standard == VbvStandard::Mpeg2 && sequence(stream).is_some_and(|s| extended(&s)) {
        return oracle_verify_extended(stream, standard);
    }
    verify_cbr_stream(stream, standard)
}

/// What the first sequence header declares, the rate multiplied here once more.
fn params(standard: VbvStandard, stream: &[u8]) -> VbvParams {
    let header = Mpeg2SequenceHeader::parse(from_sequence(stream).unwrap()).unwrap();
    let (frn, frd) = frame_rate_value(header.frame_rate_code).unwrap();
    let (rate, buffer, frame_rate) = match standard {
        VbvStandard::Mpeg1 => (header.bit_rate, header.vbv_buffer_size.into(), (frn, frd)),
        _ => {
            let s = sequence(stream).unwrap();
            let (n, d) = (s.extension.frame_rate_extension_n, s.extension.frame_rate_extension_d);
            (s.bit_rate, s.vbv_buffer_size, (frn * u32::from(n + 1), frd * u32::from(d + 1)))
        }
    };
    VbvParams::new(RATE_UNIT * u64::from(rate), BUFFER_UNIT * u64::from(buffer), frame_rate)
}

/// What else is counted of an accepted stream.
fn accepted(mode: Mode, stream: &[u8], five: [u64; 5], part: &[u8]) -> Vec<Met> {
    if mode.film {
        let mut plain = pattern(part.len());
        let same = judged(Mode { film: false, ..mode }, stream, &mut plain) == (ACCEPTED, five) && plain == part;
        let mut met = across(stream);
        met.push(match same {
            true => (AS_PLAIN, "accepted as a plain check does, with the same report and records"),
            false => (FILM_ALONE, "accepted where a plain check refuses, or has another report or records"),
        });
        return met;
    }
    if mode.variable { vec![] } else { accepted_plain(mode.standard, stream) }
}

/// Pairs of fields with something between the two.
fn across(stream: &[u8]) -> Vec<Met> {
    let codes = oracle_scan_start_codes(stream);
    let spans = spans(&codes);
    let between = |second: usize| codes[spans[second - 1].1..spans[second].0].iter().map(|c| c.1);
    let seconds = cadence::second_fields(&shown(stream).1);
    let mut met = vec![];
    for second in seconds {
        met.extend(BETWEEN.iter().filter(|(code, _)| between(second).any(|c| c == *code)).map(|b| b.1));
    }
    met
}

fn accepted_plain(standard: VbvStandard, stream: &[u8]) -> Vec<Met> {
    if !sequence(stream).is_some_and(|s| extended(&s)) {
        return vec![];
    }
    if standard == VbvStandard::Mpeg1 {
        return vec![(NOT_READ, "accepted, n or d not 0 in an extension that is not read")];
    }
    let of = |report: VbvStreamReport| {
        let values = report.pictures.iter().map(|p| (p.expected_delay, p.occupancy_before_bits));
        values.collect::<Vec<_>>()
    };
    let (patched, as_it_is) = (verify(standard, stream).map(of), verify_cbr_stream(stream, standard).map(of));
    let mut met = vec![(WITH_RATE, "accepted with n or d not 0")];
    if patched != as_it_is {
        met.push((OTHERWISE, "of these refused, or with other records, by the original as it is"));
    }
    met
}

/// The delay that the original's model expects of a picture after others that it has removed.
fn expected(standard: VbvStandard, stream: &[u8], all: &[Picture], picture: usize) -> u16 {
    let params = params(standard, stream);
    let mut model = VbvCbrModel::new(&params).unwrap();
    model.start(all[0].delay, all[0].position);
    for p in &all[..picture] {
        model.remove_picture(p.end, p.interval(), params.frame_rate.1).unwrap();
    }
    model.delay_for_picture(all[picture].position).unwrap()
}

/// The refusal of a violation, with its picture, coded and expected delay.
fn violation(standard: VbvStandard, stream: &[u8], all: &[Picture], v: VbvViolation) -> (Met, [u64; 5]) {
    let (refusal, picture) = match v {
        VbvViolation::Overflow { picture } => ((9, "overflow"), picture),
        VbvViolation::Underflow { picture } => ((10, "underflow"), picture),
        VbvViolation::DelayMismatch { picture, .. } => ((11, "delay mismatch"), picture),
        _ => unreachable!("no other violation"),
    };
    let (coded, expected) = (all[picture].delay, expected(standard, stream, all, picture));
    if let VbvViolation::DelayMismatch { coded: c, expected: e, .. } = v {
        assert_eq!((coded, expected), (c, e), "the oracle's own run is not the original's");
    }
    (refusal, [picture as u64, coded.into(), expected.into(), 0, 0])
}

/// Whether the original's own records agree with the periods: what it delivers between two removals is that many times the
/// bits of half a frame, but for the floors.
fn agree(report: &VbvStreamReport, all: &[Picture], (frn, frd): (u32, u32)) -> bool {
    let mut end = 0;
    let mut delivered = vec![];
    for record in &report.pictures {
        delivered.push(end + i128::from(record.occupancy_before_bits));
        end += i128::from(record.data_bits);
    }
    delivered.windows(2).zip(all).all(|(whole, picture)| {
        let due = i128::from(picture.periods()) * i128::from(report.bit_rate) * i128::from(frd);
        (2 * i128::from(frn) * (whole[1] - whole[0]) - due).abs() < 2 * i128::from(frn)
    })
}

/// The report's values, with the records stored in the part.
fn report(report: &VbvStreamReport, all: &[Picture], part: &mut [u8]) -> [u64; 5] {
    for ((record, picture), place) in report.pictures.iter().zip(all).zip(part.chunks_mut(VBV_RECORD_BYTES)) {
        let originals = [
            record.vbv_delay.into(),
            record.expected_delay.into(),
            record.data_bits,
            record.occupancy_before_bits as u64,
        ];
        lay(place, &[&originals[..], &[picture.periods()]].concat());
    }
    let (least, greatest) = (report.min_occupancy_after_bits, report.max_occupancy_before_bits);
    assert!(0 <= least && least <= greatest);
    [report.bit_rate, report.buffer_size_bits, report.pictures.len() as u64, least as u64, greatest as u64]
}

/// What a stream is answered in a mode: its number and five words, the records stored in the part.
pub fn judged(mode: Mode, stream: &[u8], part: &mut [u8]) -> (Met, [u64; 5]) {
    if mode.none() {
        return (NO_MODE, [0; 5]);
    }
    if mode.variable {
        return match paced(mode, stream) {
            Err(refused) => (refused, [0; 5]),
            Ok(Paced { params, all, periods }) => variable::judged(params, &all, &periods, part),
        };
    }
    let standard = mode.standard;
    let result = verify(standard, stream);
    let run = match &result {
        Err(VbvVerifyError::Parse(e)) => matches!(refusal(*e).0, 7 | 8),
        _ => true,
    };
    let all = if run { pictures(standard, stream) } else { vec![] };
    match result {
        _ if part.len() / VBV_RECORD_BYTES < all.len() => (PLACES, [0; 5]),
        _ if run && mode == FILM => {
            let (s, facts) = shown(stream);
            film::run(&params(standard, stream), &all, &cadence::periods(s, &facts), part)
        }
        _ if run => {
            // The run that film mode has is the original's, where the periods are plain.
            let (mut own, plain) = (part.to_vec(), all.iter().map(Picture::periods).collect::<Vec<_>>());
            let ran = film::run(&params(standard, stream), &all, &plain, &mut own);
            let answer = original(standard, stream, result, &all, part);
            assert!(ran.0.0 == answer.0.0 && ran.1 == answer.1 && own == part, "the film run is not the original's");
            answer
        }
        _ => original(standard, stream, result, &all, part),
    }
}

/// What a check at a variable rate needs of a stream: R, B, frn and frd, the pictures, and how long each lasts.
struct Paced {
    params: [u64; 4],
    all: Vec<Picture>,
    periods: Vec<u64>,
}

/// The same of a stream that the original does not refuse before its 5; what it refuses before is refused here too.
fn paced(mode: Mode, stream: &[u8]) -> Result<Paced, Met> {
    let refused = match verify(mode.standard, stream) {
        Err(VbvVerifyError::Parse(e)) => refusal(e),
        _ => ACCEPTED,
    };
    if [1, 2, 3, 4, 6].contains(&refused.0) {
        return Err(refused);
    }
    let all = pictures(mode.standard, stream);
    assert_eq!(
        refused.0 == 5,
        all[0].delay == variable::DELAY,
        "the original's 5 is not where the first delay is 0xFFFF"
    );
    let (s, facts) = shown(stream);
    let periods = if mode.film { cadence::periods(s, &facts) } else { all.iter().map(Picture::periods).collect() };
    let VbvParams { bit_rate, buffer_size_bits, frame_rate, .. } = params(mode.standard, stream);
    let params = [bit_rate, buffer_size_bits, frame_rate.0.into(), frame_rate.1.into()];
    Ok(Paced { params, all, periods })
}

/// What else is counted of a check at a variable rate.
fn met_variable(mode: Mode, stream: &[u8], part: usize, number: u8) -> Vec<Met> {
    match paced(mode, stream) {
        Ok(Paced { params, all, periods }) => variable::met(params, &all, &periods, part, number),
        Err(_) => vec![],
    }
}

/// What the original, or its patched copy, has made of a stream.
fn original(
    standard: VbvStandard,
    stream: &[u8],
    result: Result<VbvStreamReport, VbvVerifyError>,
    all: &[Picture],
    part: &mut [u8],
) -> (Met, [u64; 5]) {
    match result {
        Ok(r) => {
            assert_eq!(r.pictures.len(), all.len(), "the oracle's own pictures are not the original's");
            assert!(agree(&r, all, params(standard, stream).frame_rate), "the original's removals have other periods");
            (ACCEPTED, report(&r, all, part))
        }
        Err(VbvVerifyError::Parse(e)) => (refusal(e), [0; 5]),
        Err(VbvVerifyError::Violation(v)) => violation(standard, stream, all, v),
        Err(_) => unreachable!("no other refusal"),
    }
}

/// The fifth words of so many records.
pub fn fifths(part: &[u8], pictures: u64) -> impl Iterator<Item = u64> {
    part.chunks(VBV_RECORD_BYTES).take(pictures as usize).map(|record| number(&record[32..]))
}

/// The number, five words, and the record part.
pub fn checked(mode: Mode, input: &[u8]) -> Answer {
    let mut part = pattern(number(&input[..2]) as usize);
    let (met, five) = judged(mode, &input[2..], &mut part);
    let mut answer = Answer::of(met);
    if met == ACCEPTED {
        answer.met.extend(fifths(&part, five[2]).map(counted));
        answer.met.extend(accepted(mode, &input[2..], five, &part));
        if mode.film {
            answer.film = Some(shown(&input[2..]));
        }
    }
    if mode.variable && !mode.none() {
        answer.met.extend(met_variable(mode, &input[2..], part.len(), met.0));
    }
    words(&mut answer.bytes, &five);
    answer.bytes.extend(part);
    answer
}

/// The answer for a stream with places for all of its pictures, in the lines of `vbvcheck`.
pub fn lines(mode: Mode, stream: &[u8]) -> String {
    let mut part = vec![0; VBV_RECORD_BYTES * picture_codes(stream)];
    let ((refused, _), words) = judged(mode, stream, &mut part);
    let line = |words: &[u64]| words.iter().map(u64::to_string).collect::<Vec<_>>().join(" ") + "\n";
    if refused != 0 {
        return "refused picture coded expected\n".to_string() + &line(&[&[refused.into()], &words[..3]].concat());
    }
    let records = part.chunks(VBV_RECORD_BYTES).take(words[2] as usize);
    "bit_rate buffer_bits pictures min_after max_before\n".to_string()
        + &line(&words)
        + "delay expected data_bits occupancy_before periods\n"
        + &records.map(|r| line(&r.chunks(8).map(number).collect::<Vec<_>>())).collect::<String>()
}
