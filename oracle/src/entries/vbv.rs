//! The check and the delay patch: streams and headers drawn like those of kinds 16 to 18, 20 and 24, and the original's answers to
//! them, in film mode those of film.rs, of a variable rate those of variable.rs. Before some of the checks stands another one, of the same stream: with a place that is
//! too short for a report or a refusal, or in a mode that there is none of. After each check stands the report alone, of the
//! same stream in the same places. What a list of the writer's calls handed out is checked too, plain and in film mode, and by a check
//! of the other rate.

use crate::entry;
use crate::run::{Owed, Run};
use oracle::check::{fifths, judged};
use oracle::draw::Draw;
use oracle::format::number;
use oracle::layout::{VBV_RECORD_BYTES, VBV_REFUSAL_BYTES, VBV_REPORT_BYTES};
use oracle::mode::{FILM, FILM_VARIABLE, MPEG1, Mode, PLAIN, VARIABLE};
use oracle::model::patched;
use oracle::place::{Left, Place, lay};
use oracle::spans::picture_codes;

/// By mode.
const MODES: [Mode; 5] = [MPEG1, PLAIN, FILM, VARIABLE, FILM_VARIABLE];
const CHECKS: [&str; 5] = [
    "checks of MPEG-1 streams",
    "checks of MPEG-2 streams",
    "checks in film mode",
    "checks of a variable rate",
    "checks of a variable rate in film mode",
];
const STOPPED: &str = "checks stopped before the stream";
const REPORTS: [&str; 5] = [
    "reports alone of MPEG-1 streams",
    "reports alone of MPEG-2 streams",
    "reports alone in film mode",
    "reports alone of a variable rate",
    "reports alone of a variable rate in film mode",
];
const STOPPED_REPORTS: &str = "reports alone stopped before the stream";
const PATCHES: &str = "patches";
/// By what a writer's mode and that of the check are, and by the writer's rate where the check has the other.
const SENT: [&str; 10] = [
    "plain checks of what a plain writer handed out",
    "film checks of what a plain writer handed out",
    "plain checks of what a film writer handed out",
    "film checks of what a film writer handed out",
    "plain checks of what a plain variable writer handed out",
    "film checks of what a plain variable writer handed out",
    "plain checks of what a film variable writer handed out",
    "film checks of what a film variable writer handed out",
    "checks of a variable rate of what a writer of a constant one handed out",
    "checks of a constant rate of what a writer of a variable one handed out",
];
/// Records of accepted streams, by their fifth word.
const RECORDS: [&str; 5] = [
    "records of MPEG-1 streams",
    "records of MPEG-2 streams",
    "records in film mode",
    "records of a variable rate",
    "records of a variable rate in film mode",
];
const SENT_RECORDS: [&str; 4] = [
    "records of what a plain writer handed out",
    "records of what a film writer handed out",
    "records of what a plain variable writer handed out",
    "records of what a film variable writer handed out",
];
const PERIODS: [&str; 5] = ["periods 1", "periods 2", "periods 3", "periods 4", "periods 6"];
const PLAIN_PERIODS: &[&str] = PERIODS.split_at(2).0;

const MORE: &str = "accepted, with bytes after the records";
/// The last two are the check's; the report alone has the others.
const ANSWERS: [&str; 15] = [
    "accepted",
    "refused 1",
    "refused 2",
    "refused 3",
    "refused 4",
    "refused 5",
    "refused 6",
    "refused 7",
    "refused 8",
    "refused 9",
    "refused 10",
    "refused 11",
    "refused 12",
    "refused 15",
    MORE,
];
const REPORT_ANSWERS: &[&str] = ANSWERS.split_at(13).0;
/// Of a variable rate; the last two as above.
const VARIABLE_ANSWERS: [&str; 11] = [
    "accepted",
    "refused 1",
    "refused 2",
    "refused 3",
    "refused 4",
    "refused 6",
    "refused 10",
    "refused 12",
    "refused 25",
    "refused 15",
    MORE,
];
const VARIABLE_REPORT_ANSWERS: &[&str] = VARIABLE_ANSWERS.split_at(9).0;
/// What stops a check, in the order in which it is tested.
const STOPS: [&str; 13] = [
    "19: a short place, with no such mode",
    "19: both places short",
    "19: a short report place",
    "19: a short refusal place",
    "12: mode 0",
    "12: mode 3",
    "12: film alone",
    "12: MPEG-1 with film",
    "12: a variable rate alone",
    "12: MPEG-1 of a variable rate",
    "12: film of a variable rate alone",
    "12: MPEG-1 with film of a variable rate",
    "12: another mode",
];

/// What has to be met.
pub const OWED: [Owed; 32] = [
    (CHECKS[0], &ANSWERS),
    (CHECKS[1], &ANSWERS),
    (CHECKS[2], &ANSWERS),
    (CHECKS[3], &VARIABLE_ANSWERS),
    (CHECKS[4], &VARIABLE_ANSWERS),
    (STOPPED, &STOPS),
    (REPORTS[0], REPORT_ANSWERS),
    (REPORTS[1], REPORT_ANSWERS),
    (REPORTS[2], REPORT_ANSWERS),
    (REPORTS[3], VARIABLE_REPORT_ANSWERS),
    (REPORTS[4], VARIABLE_REPORT_ANSWERS),
    (STOPPED_REPORTS, &STOPS),
    (PATCHES, &["patched", "20: fewer than 8 bytes", "20: no picture start code"]),
    (SENT[0], &["accepted"]),
    (SENT[1], &["accepted"]),
    (SENT[2], &["accepted", "refused 11"]),
    (SENT[3], &["accepted"]),
    (SENT[4], &["accepted"]),
    (SENT[5], &["accepted"]),
    (SENT[6], &["accepted", "refused 10"]),
    (SENT[7], &["accepted"]),
    (SENT[8], &["refused 25"]),
    (SENT[9], &["refused 5"]),
    (RECORDS[0], &["periods 2"]),
    (RECORDS[1], PLAIN_PERIODS),
    (RECORDS[2], &PERIODS),
    (RECORDS[3], PLAIN_PERIODS),
    (RECORDS[4], &PERIODS),
    (SENT_RECORDS[0], PLAIN_PERIODS),
    (SENT_RECORDS[1], &PERIODS),
    (SENT_RECORDS[2], PLAIN_PERIODS),
    (SENT_RECORDS[3], &PERIODS),
];

/// A check as C asks for it.
#[derive(Clone)]
struct Check<'a> {
    stream: &'a [u8],
    mode: u8,
    report: Vec<u8>,
    records: Vec<u8>,
    refusal: Vec<u8>,
}

/// What stops a check before it looks at the stream.
fn stop(c: &Check) -> Option<(u64, &'static str)> {
    let (report, refusal) = (c.report.len() < VBV_REPORT_BYTES, c.refusal.len() < VBV_REFUSAL_BYTES);
    let no_mode = ![1, 2, 6, 10, 14].contains(&c.mode);
    let short = [no_mode && (report || refusal), report && refusal, report, refusal];
    let none = [0, 3, 4, 5, 8, 9, 12, 13].map(|mode| c.mode == mode);
    let at = short.into_iter().chain(none).chain([no_mode]).position(|stops| stops)?;
    Some((if at < short.len() { 19 } else { 12 }, STOPS[at]))
}

/// The mode of a check that is not stopped, and which of the five it is.
fn mode_of(c: &Check) -> (Mode, usize) {
    let mode = Mode::of(c.mode.into()).unwrap();
    (mode, MODES.iter().position(|&m| m == mode).unwrap())
}

/// What is expected of a check, and what it is counted as.
fn expected(c: &Check) -> (Left, &'static str, String) {
    let mut left = Left::before(&[("report", &c.report), ("records", &c.records), ("refusal", &c.refusal)]);
    if let Some((number, why)) = stop(c) {
        left.number = number;
        return (left.with("refusal", &[number, 0, 0, 0]), STOPPED, why.into());
    }
    let (mode, at) = mode_of(c);
    let what = CHECKS[at];
    let ((number, _), words) = judged(mode, c.stream, left.at("records"));
    if number == 0 {
        let more = VBV_RECORD_BYTES * (words[2] as usize) < c.records.len();
        return (left.with("report", &words), what, if more { MORE } else { ANSWERS[0] }.into());
    }
    left.number = number.into();
    let refusal = [number.into(), words[0], words[1], words[2]];
    (left.with("refusal", &refusal), what, format!("refused {number}"))
}

/// The entry's own.
fn checked(c: &Check, d: &mut Draw) -> Left {
    let mut stream = Place::new(c.stream, d);
    let [mut report, mut records, mut refusal] = [&c.report, &c.records, &c.refusal].map(|bytes| Place::new(bytes, d));
    let number = unsafe {
        entry::vbv_check(
            stream.at(),
            stream.len,
            c.mode,
            report.at(),
            report.len,
            records.at(),
            records.len,
            refusal.at(),
            refusal.len,
        )
    };
    let written = [("report", &report), ("records", &records), ("refusal", &refusal)];
    Left::after(number, &written, &[(&stream, c.stream)])
}

/// What is expected of the report alone: all that is expected of the check with a record place for each picture, but the records.
fn expected_alone(c: &Check) -> (Left, &'static str, String) {
    let places = VBV_RECORD_BYTES * picture_codes(c.stream);
    let (left, what, why) = expected(&Check { records: vec![0; places], ..c.clone() });
    let what = CHECKS.iter().position(|&w| w == what).map_or(STOPPED_REPORTS, |at| REPORTS[at]);
    let why = if why == MORE { ANSWERS[0].into() } else { why };
    (left.without("records"), what, why)
}

fn reported(c: &Check, d: &mut Draw) -> Left {
    let mut stream = Place::new(c.stream, d);
    let [mut report, mut refusal] = [&c.report, &c.refusal].map(|bytes| Place::new(bytes, d));
    let number = unsafe {
        entry::vbv_report(stream.at(), stream.len, c.mode, report.at(), report.len, refusal.at(), refusal.len)
    };
    Left::after(number, &[("report", &report), ("refusal", &refusal)], &[(&stream, c.stream)])
}

/// The same check with something about it that is out of range.
fn odd<'a>(c: &Check<'a>, d: &mut Draw) -> Check<'a> {
    let mut c = c.clone();
    let which = d.below(4);
    if which == 0 || which == 2 {
        c.report.truncate(d.below(VBV_REPORT_BYTES));
    }
    if which == 1 || which == 2 {
        c.refusal.truncate(d.below(VBV_REFUSAL_BYTES));
    }
    if which == 3 || d.one_in(4) {
        c.mode = [0, 3, 4, 5, 8, 9, 12, 13, 7 + d.below(249) as u8][d.below(9)];
    }
    c
}

fn patched_in_place(picture: &[u8], delay: u16, d: &mut Draw) -> Left {
    let mut place = Place::new(picture, d);
    let number = unsafe { entry::vbv_patch_delay(place.at(), place.len, delay) };
    Left::after(number, &[("picture", &place)], &[])
}

impl Run {
    fn check(&mut self, c: &Check) {
        let (mut left, what, why) = expected(c);
        let found = checked(c, &mut self.d);
        self.met(what, &why, &found, &left);
        if left.number == 0 {
            self.records(RECORDS[mode_of(c).1], &mut left);
        }
        let (expected, what, why) = expected_alone(c);
        let found = reported(c, &mut self.d);
        self.met(what, &why, &found, &expected);
    }

    /// Counts the records of an accepted stream by their fifth word.
    fn records(&mut self, what: &'static str, left: &mut Left) {
        let pictures = number(&left.at("report")[16..24]);
        for periods in fifths(left.at("records"), pictures) {
            self.count(what, &format!("periods {periods}"));
        }
    }

    /// What a list handed out, with delay, bits and periods of each placed picture. The check of the writer's mode accepts it,
    /// and has these in its records, the delay twice; all else is as the original, film.rs or variable.rs finds it. A film check of
    /// what a plain writer handed out is no other; a plain one of what a film writer handed out may be, one of the other rate is.
    pub fn sent(&mut self, own: Mode, mode: Mode, stream: &[u8], placed: &[[u64; 3]]) {
        let lengths = [VBV_REPORT_BYTES, VBV_RECORD_BYTES * placed.len(), VBV_REFUSAL_BYTES];
        let [report, records, refusal] = lengths.map(|n| self.d.bytes(n));
        let c = Check { stream, mode: mode.number() as u8, report, records, refusal };
        let (mut left, _, why) = expected(&c);
        let due = mode.variable == own.variable && (mode.film || !own.film);
        if due {
            assert_eq!(left.number, 0, "the check refuses what a list handed out");
            for (record, &[delay, bits, periods]) in left.at("records").chunks_mut(VBV_RECORD_BYTES).zip(placed) {
                let occupancy = number(&record[24..32]);
                lay(record, &[delay, delay, bits, occupancy, periods]);
            }
        }
        let found = checked(&c, &mut self.d);
        let [variable, film] = [own.variable, own.film].map(usize::from);
        let same_rate = 4 * variable + 2 * film + usize::from(mode.film);
        self.met(SENT[if mode.variable == own.variable { same_rate } else { 8 + variable }], &why, &found, &left);
        if due {
            self.records(SENT_RECORDS[2 * variable + film], &mut left);
        }
    }

    /// One stream: the input has the length of its records place in front.
    pub fn stream(&mut self, mode: u8, input: &[u8]) {
        let (part, stream) = input.split_at(2);
        let d = &mut self.d;
        let [report, refusal] = [VBV_REPORT_BYTES, VBV_REFUSAL_BYTES].map(|n| n + d.below(3) * d.below(16));
        let [report, records, refusal] = [report, number(part) as usize, refusal].map(|n| d.bytes(n));
        let c = Check { stream, mode, report, records, refusal };
        if self.d.one_in(4) {
            let odd = odd(&c, &mut self.d);
            self.check(&odd);
        }
        self.check(&c);
    }

    /// An encoder's stream in every mode, with a place for each record.
    pub fn encoded(&mut self, stream: &[u8]) {
        for mode in MODES {
            let lengths = [VBV_REPORT_BYTES, VBV_RECORD_BYTES * picture_codes(stream), VBV_REFUSAL_BYTES];
            let [report, records, refusal] = lengths.map(|n| self.d.bytes(n));
            self.check(&Check { stream, mode: mode.number() as u8, report, records, refusal });
        }
    }

    /// One header to patch: the input has the delay in front.
    pub fn header(&mut self, input: &[u8]) {
        let (delay, picture) = input.split_at(2);
        let answer = patched(input).bytes;
        let mut expected = Left::before(&[("picture", &answer[1..])]);
        expected.number = answer[0].into();
        let why = match answer[0] {
            0 => "patched",
            _ if picture.len() < 8 => "20: fewer than 8 bytes",
            _ => "20: no picture start code",
        };
        let found = patched_in_place(picture, number(delay) as u16, &mut self.d);
        self.met(PATCHES, why, &found, &expected);
    }
}
