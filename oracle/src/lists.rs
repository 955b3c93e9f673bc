//! Kind 19: lists of calls of the writer, plain or film, of a constant or a variable rate. The answer is the model's (writer.rs); on the
//! way the original's `emit` runs beside it, and then the check over what was handed out. Where n or d is not 0, a writer's or a
//! header's, the original is its patched copy (request 02). A film writer's pictures last as the model says, in `emit` too, and
//! its check is film.rs's (request 05). Of a variable rate (request 06) the original has the targets alone; the check is variable.rs's.

use crate::check::{extended, judged, sequence};
use crate::format::{ACCEPTED, Answer, Met, number, pattern, words};
use crate::layout::VBV_RECORD_BYTES;
use crate::mode::{Mode, PLAIN};
use crate::model::{BUFFER_UNIT, RATE_UNIT};
use crate::state::cadence;
use crate::writer::{Config, Offer, Told, Writer};
use original::rate_control::{OracleWriter, oracle_targets};

/// Answers that are no refusals, and what else is counted: above all numbers that a refusal may have.
pub const PASSED: u8 = 128;
pub const SET: u8 = 129;
pub const AGAIN: u8 = 130;
pub const WITHDRAWN: u8 = 131;
pub const EMITTED: u8 = 132;
pub const NOT_EMITTED: u8 = 133;
pub const CHECKED: u8 = 134;
pub const FINISHED: u8 = 135;
/// Above those of check.rs.
const PATCHED: u8 = 141;
const SHOWN_OTHERWISE: u8 = 142;
const AS_25: u8 = 143;
/// Above those of film in check.rs.
const OF_FILM: u8 = 161;
const FILM_ALONE: u8 = 162;
const WITH_FLAG: u8 = 163;
const SAME_REPORT: u8 = 164;
const FILM_OFFERED: u8 = 165;
const NOT_PASSED: u8 = 166;
/// Above model.rs's.
const FILM_LISTS: u8 = 168;
/// And the number of a film writer's refusal at a constant rate, or 30 for Again.
const TO_FILM: u8 = 200;
/// Above those of variable.rs.
const VARIABLE_LISTS: u8 = 184;
const OF_VARIABLE: u8 = 185;
const OF_VARIABLE_FILM: u8 = 186;
const VARIABLE_FINISHED: u8 = 187;
const VARIABLE_RATIO: u8 = 188;
const VARIABLE_ALONE: u8 = 189;
const EARLY: u8 = 190;
const EMPTIED: u8 = 191;
const FULL: u8 = 192;
const NOT_FULL: u8 = 193;
const NOT_WITHDRAWN: u8 = 194;
const NO_DELAY: u8 = 195;
const A_DELAY: u8 = 196;
const VARIABLE_OFFERED: u8 = 197;
/// And the number of a refusal by a writer of a variable rate, or 22, which there is none of, for Again.
const TO_VARIABLE: u8 = 231;

/// All codes, n and d whose rate is 25/1.
pub const ALL_25: [[u64; 3]; 8] =
    [[3, 0, 0], [3, 1, 1], [3, 2, 2], [3, 3, 3], [6, 0, 1], [6, 1, 3], [6, 2, 5], [6, 3, 7]];

/// What the answers are called.
const REASONS: [Met; 71] = [
    ACCEPTED,
    (6, "rate code not 1 to 8"),
    (7, "position beyond delivered bits"),
    (9, "the first delay overflows"),
    (12, "a parameter out of its range, or the ratio"),
    (14, "position or end out of range"),
    (17, "another kind than the pending one, or finished"),
    (18, "headers do not fit"),
    (19, "the part is too short"),
    (20, "the layer does not fit"),
    (21, "too large at 31"),
    (22, "stuffed end beyond delivered bits"),
    (SET, "states set by hand"),
    (AGAIN, "asked for again"),
    (WITHDRAWN, "withdrawn"),
    (EMITTED, "placed by emit, with the same bytes, quantisers, stuffing and model"),
    (NOT_EMITTED, "of those refused 7, 9, 21 and 22 refused by emit"),
    (PASSED, "checks of what was handed out, of the writer's rate, plain or film, that accept"),
    (NOT_PASSED, "checks of what a film writer handed out, of its rate, plain, that refuse"),
    (
        NO_DELAY,
        "checks of a constant rate of what a writer of a variable one handed out, refused 5, as by the original",
    ),
    (A_DELAY, "checks of a variable rate of what a writer of a constant one handed out, refused 25"),
    (CHECKED, "lists with a picture, their bytes accepted by the check of the writer's mode with these records"),
    (FINISHED, "of these finished"),
    (PATCHED, "of these with n or d not 0 in their header, accepted by the patched copy"),
    (SHOWN_OTHERWISE, "of these with another code, n or d in their header than the writer's"),
    (AS_25, "of these at 25/1 as code 3"),
    (AS_25 + 1, "of these at 25/1 as code 3, n 1, d 1"),
    (AS_25 + 2, "of these at 25/1 as code 3, n 2, d 2"),
    (AS_25 + 3, "of these at 25/1 as code 3, n 3, d 3"),
    (AS_25 + 4, "of these at 25/1 as code 6, n 0, d 1"),
    (AS_25 + 5, "of these at 25/1 as code 6, n 1, d 3"),
    (AS_25 + 6, "of these at 25/1 as code 6, n 2, d 5"),
    (AS_25 + 7, "of these at 25/1 as code 6, n 3, d 7"),
    (FILM_LISTS, "lists of a film writer"),
    (OF_FILM, "lists of a film writer with a picture, accepted by the film check with these records"),
    (FILM_ALONE, "of these refused, or reported otherwise, by the plain check"),
    (WITH_FLAG, "pictures placed by a film writer with repeat_first_field 1"),
    (SAME_REPORT, "lists of a plain writer with a picture, reported alike by the film check"),
    (FILM_OFFERED, "pictures placed by a film writer after a layer of theirs was sent back"),
    (TO_FILM, "offers to a film writer placed"),
    (TO_FILM + 7, "offers to a film writer refused 7"),
    (TO_FILM + 9, "offers to a film writer refused 9"),
    (TO_FILM + 14, "offers to a film writer refused 14"),
    (TO_FILM + 17, "offers to a film writer refused 17"),
    (TO_FILM + 18, "offers to a film writer refused 18"),
    (TO_FILM + 19, "offers to a film writer refused 19"),
    (TO_FILM + 20, "offers to a film writer refused 20"),
    (TO_FILM + 21, "offers to a film writer refused 21"),
    (TO_FILM + 22, "offers to a film writer refused 22"),
    (TO_FILM + 30, "offers to a film writer asked for again"),
    (VARIABLE_LISTS, "lists of a variable writer"),
    (OF_VARIABLE, "lists of a variable writer with a picture, accepted by the variable check with these records"),
    (OF_VARIABLE_FILM, "of these of a film writer"),
    (VARIABLE_ALONE, "of the latter refused, or reported otherwise, by the plain variable check"),
    (VARIABLE_FINISHED, "of lists of a variable writer with a picture finished"),
    (VARIABLE_RATIO, "of lists of a variable writer with a picture with a buffer too large for a constant rate"),
    (EARLY, "offers to a variable writer sent back whose headers alone end beyond the bits delivered"),
    (EMPTIED, "pictures placed by a variable writer that end where the bits delivered do, but for part of a byte"),
    (FULL, "pictures placed by a variable writer after which the buffer is full at the next removal"),
    (NOT_FULL, "pictures placed by a variable writer after which it is not"),
    (VARIABLE_OFFERED, "pictures placed by a variable writer after a layer of theirs was sent back"),
    (NOT_WITHDRAWN, "withdrawals on a state with more in the buffer than it holds: 12"),
    (TO_VARIABLE, "offers to a variable writer placed"),
    (TO_VARIABLE + 12, "offers to a variable writer refused 12: more in the buffer than it holds"),
    (TO_VARIABLE + 14, "offers to a variable writer refused 14"),
    (TO_VARIABLE + 17, "offers to a variable writer refused 17"),
    (TO_VARIABLE + 18, "offers to a variable writer refused 18"),
    (TO_VARIABLE + 19, "offers to a variable writer refused 19"),
    (TO_VARIABLE + 20, "offers to a variable writer refused 20"),
    (TO_VARIABLE + 21, "offers to a variable writer refused 21"),
    (TO_VARIABLE + 22, "offers to a variable writer asked for again"),
];

/// All of them have to be met.
pub const OWED: [u8; REASONS.len() - 1] = {
    let mut numbers = [0; REASONS.len() - 1];
    let mut i = 0;
    while i < numbers.len() {
        numbers[i] = REASONS[i + 1].0;
        i += 1;
    }
    numbers
};

/// Where an input has the number of its calls, in one byte, and where the calls begin.
pub const COUNT: usize = 13;
pub const CALLS: usize = COUNT + 1;

fn met(number: u8) -> Met {
    *REASONS.iter().find(|r| r.0 == number).unwrap()
}

/// An input's bytes, with no calls yet.
pub fn config(c: &Config) -> Vec<u8> {
    let mut bytes = vec![u8::try_from(c.mode).unwrap()];
    bytes.extend(u32::try_from(c.rate).unwrap().to_le_bytes());
    bytes.extend(u16::try_from(c.buffer).unwrap().to_le_bytes());
    bytes.extend([c.rate_code, c.n, c.d, c.q, c.between, c.anchors, 0].map(|b| u8::try_from(b).unwrap()));
    bytes
}

pub fn add_withdrawal(input: &mut Vec<u8>) {
    input[COUNT] += 1;
    input.extend([0; 10]);
}

/// A state set by hand: an end, and whole bits delivered.
pub fn add_state(input: &mut Vec<u8>, end: u64, whole: u64) {
    input[COUNT] += 1;
    input.extend([2, 0, 0, 0, 16, 0, 0, 0, 0, 0]);
    words(input, &[end, whole]);
}

pub fn add_offer(input: &mut Vec<u8>, o: &Offer, part: usize) {
    input[COUNT] += 1;
    input.extend([1, o.kind as u8, o.interval, o.last.into()]);
    for n in [o.headers.len(), o.layer.len(), part] {
        input.extend(u16::try_from(n).unwrap().to_le_bytes());
    }
    input.extend(&o.headers);
    input.extend(&o.layer);
}

/// A check of what a list handed out, in a mode; the output part has a place for each record.
pub fn add_check(input: &mut Vec<u8>, mode: Mode, stream: &[u8], pictures: usize) {
    input[COUNT] += 1;
    input.extend([3, mode.number() as u8, 0, 0]);
    for n in [stream.len(), 0, VBV_RECORD_BYTES * pictures] {
        input.extend(u16::try_from(n).unwrap().to_le_bytes());
    }
    input.extend(stream);
}

pub enum Call {
    Withdrawal,
    Offer(Offer),
    State(u64, u64),
    Check(Mode, Vec<u8>),
}

/// A call, the length of its output part, and the bytes after it.
pub fn call(s: &[u8]) -> (Call, usize, &[u8]) {
    let length = |at: usize| number(&s[at..at + 2]) as usize;
    let (middle, end) = (10 + length(4), 10 + length(4) + length(6));
    let call = match s[0] {
        0 => Call::Withdrawal,
        1 => Call::Offer(Offer {
            headers: s[10..middle].to_vec(),
            kind: s[1].into(),
            interval: s[2],
            last: s[3] == 1,
            layer: s[middle..end].to_vec(),
        }),
        2 => Call::State(number(&s[10..18]), number(&s[18..26])),
        _ => Call::Check(Mode::of(s[1].into()).unwrap(), s[10..middle].to_vec()),
    };
    (call, length(8), &s[end..])
}

/// The original beside the model, and all that was handed out.
struct Beside {
    config: Config,
    /// None of a variable rate.
    original: Option<OracleWriter>,
    /// The offers of the pending picture.
    tries: Vec<Offer>,
    /// False after a picture that `emit` cannot have seen so: one whose offers are not alike but for their layers.
    compared: bool,
    /// False after a state set by hand.
    whole: bool,
    handed_out: Vec<u8>,
    /// Of each placed picture its delay, bits and field periods.
    pictures: Vec<[u64; 3]>,
    quantisers: Vec<u8>,
    met: Vec<Met>,
}

impl Beside {
    fn new(config: Config, original: Option<OracleWriter>) -> Self {
        let (tries, handed_out, pictures, quantisers, met) = (vec![], vec![], vec![], vec![], vec![]);
        let compared = original.is_some();
        Self { config, original, tries, compared, whole: true, handed_out, pictures, quantisers, met }
    }

    fn copy(&self) -> OracleWriter {
        self.original.as_ref().expect("a writer of a constant rate").copy()
    }

    /// Runs `emit` with the tries' layers, in turn, of a picture that lasts so many periods.
    fn emit(&self, original: &mut OracleWriter, periods: u64, qs: &mut Vec<u8>) -> bool {
        let o = &self.tries[0];
        let mut layers = self.tries.iter().map(|t| t.layer.clone());
        original.emit_lasting(&o.headers, o.kind, periods, o.last, |q| {
            qs.push(q);
            layers.next()
        })
    }

    fn alike(&self) -> bool {
        let first = &self.tries[0];
        self.tries.iter().all(|t| Offer { layer: vec![], ..t.clone() } == Offer { layer: vec![], ..first.clone() })
    }

    /// After a state set by hand.
    fn set(&mut self) {
        (self.compared, self.whole) = (false, false);
    }

    /// After a withdrawal.
    fn withdrawn(&mut self) {
        self.tries.clear();
    }

    /// After an offer that was placed, asked for again or refused.
    fn offered(&mut self, before: &Writer, after: &Writer, o: &Offer, told: Told, part: &[u8]) {
        if !matches!(told, Told::Refused(17..=20 | 14)) {
            self.tries.push(o.clone());
        }
        match told {
            Told::Placed { q, delay, bytes, periods, .. } => {
                self.handed_out.extend(&part[..bytes as usize]);
                self.pictures.push([delay.into(), 8 * bytes, periods]);
                self.quantisers.push(q);
                self.compared &= self.alike();
                if self.compared {
                    self.placed(after, q, periods);
                }
                self.count_film(after);
                if after.variable {
                    self.count_variable(before, after, o);
                }
                self.tries.clear();
            }
            Told::Refused(n @ (7 | 9 | 22)) if after.variable => panic!("a writer of a variable rate refuses with {n}"),
            Told::Refused(n @ (7 | 9 | 21 | 22)) => {
                if self.compared && self.alike() {
                    self.refused(n, before.periods(o));
                }
                self.tries.pop();
                if n == 21 {
                    self.tries.clear();
                }
            }
            _ => {}
        }
    }

    /// Counts what a film writer placed.
    fn count_film(&mut self, after: &Writer) {
        if after.film && after.pictures.last().is_some_and(|p| p.repeat) {
            self.met.push(met(WITH_FLAG));
        }
        if after.film && 1 < self.tries.len() {
            self.met.push(met(FILM_OFFERED));
        }
    }

    /// Counts what a writer of a variable rate placed.
    fn count_variable(&mut self, before: &Writer, after: &Writer, o: &Offer) {
        let full = after.delivered == (after.end + after.buffer) * after.units();
        self.met.push(met(if full { FULL } else { NOT_FULL }));
        if before.delivered(o.headers.len()) < (after.end + 8) * after.units() {
            self.met.push(met(EMPTIED));
        }
        if 1 < self.tries.len() {
            self.met.push(met(VARIABLE_OFFERED));
        }
    }

    fn refused(&mut self, n: u8, periods: u64) {
        let (mut copy, mut qs) = (self.copy(), vec![]);
        assert!(!self.emit(&mut copy, periods, &mut qs), "emit does not refuse where the answer is {n}");
        // It finds 7 before it asks for a layer, and 9 only where the size lets it.
        let asked = if n == 7 { 0 } else { self.tries.len() };
        assert!(n == 9 || qs.len() == asked, "emit refuses for another reason than {n}");
        self.met.push(met(NOT_EMITTED));
    }

    fn placed(&mut self, after: &Writer, q: u8, periods: u64) {
        let mut original = self.copy();
        let mut qs = vec![];
        assert!(self.emit(&mut original, periods, &mut qs), "emit refuses a placed picture");
        assert_eq!(qs.len(), self.tries.len(), "emit asks for another number of layers");
        assert_eq!(qs.last(), Some(&q));
        assert!(original.out() == self.handed_out, "emit puts other bytes");
        assert_eq!(original.quantisers(), self.quantisers);
        assert_eq!(original.q(), after.q);
        assert_eq!(original.stuffing_bytes(), after.stuffing);
        assert_eq!(original.state(), after.model());
        self.original = Some(original);
        self.met.push(met(EMITTED));
    }

    /// The writer's own check accepts what was handed out, with these records: delay, expected delay, data bits and periods.
    fn checked(&mut self, w: &Writer) {
        if self.pictures.is_empty() || !self.whole {
            return;
        }
        let own = Mode { film: w.film, variable: w.variable, ..PLAIN };
        let other = Mode { film: !w.film, ..own };
        let (mut part, mut others) = (self.records(), self.records());
        let (told, report) = judged(own, &self.handed_out, &mut part);
        assert_eq!(told, ACCEPTED, "the check refuses what was handed out");
        assert_eq!(report[2], self.pictures.len() as u64);
        for (record, &[delay, bits, periods]) in part.chunks(VBV_RECORD_BYTES).zip(&self.pictures) {
            let [coded, expected, data, _, lasts] = [0, 8, 16, 24, 32].map(|at| number(&record[at..at + 8]));
            assert_eq!([coded, expected, data, lasts], [delay, delay, bits, periods], "another record");
        }
        self.met.push(met(CHECKED));
        if w.finished {
            self.met.push(met(FINISHED));
        }
        let alike = judged(other, &self.handed_out, &mut others) == (ACCEPTED, report) && part == others;
        assert!(w.film || alike, "the film check reports a plain writer's stream otherwise");
        if w.variable {
            self.count_checked(w, alike);
        } else {
            let film = [met(OF_FILM), met(FILM_ALONE)];
            let counted: &[Met] = if !w.film { &[met(SAME_REPORT)] } else { &film[..2 - usize::from(alike)] };
            self.met.extend(counted);
        }
        self.rate_shown();
    }

    /// Counts a list of a writer of a variable rate whose bytes were accepted, by the check of the other cadence alike or not.
    fn count_checked(&mut self, w: &Writer, alike: bool) {
        assert_eq!(w.stuffing, 0, "stuffing at a variable rate");
        assert!(self.pictures.iter().all(|p| p[0] == 0xFFFF), "a delay at a variable rate");
        let counted = [
            (true, OF_VARIABLE),
            (w.film, OF_VARIABLE_FILM),
            (w.film && !alike, VARIABLE_ALONE),
            (w.finished, VARIABLE_FINISHED),
            (90_000 * w.buffer > 65_534 * w.rate, VARIABLE_RATIO),
        ];
        self.met.extend(counted.iter().filter(|c| c.0).map(|c| met(c.1)));
    }

    fn records(&self) -> Vec<u8> {
        pattern(VBV_RECORD_BYTES * self.pictures.len())
    }

    /// Counts how the header of what was handed out shows the rate.
    fn rate_shown(&mut self) {
        let s = sequence(&self.handed_out).unwrap();
        let (n, d) = (s.extension.frame_rate_extension_n, s.extension.frame_rate_extension_d);
        let shown = [s.header.frame_rate_code, n, d].map(u64::from);
        if extended(&s) {
            self.met.push(met(PATCHED));
        }
        if shown != [self.config.rate_code, self.config.n, self.config.d] {
            self.met.push(met(SHOWN_OTHERWISE));
        }
        if let Some(at) = ALL_25.iter().position(|&rate| rate == shown) {
            self.met.push(met(AS_25 + at as u8));
        }
    }
}

fn state(out: &mut Vec<u8>, w: &Writer) {
    out.extend(w.q);
    out.extend(w.pending.map_or([0, 0], |(kind, q)| [kind as u8 + 1, q]));
    out.push(w.finished.into());
    out.extend(cadence(w).map(|word| word as u8));
    words(out, &[w.stuffing]);
    words(out, &w.model());
}

fn in_words(told: Told) -> (u8, [u64; 4]) {
    match told {
        Told::Placed { q, delay, bytes, stuffing, .. } => (0, [q.into(), delay.into(), bytes, stuffing]),
        Told::Again(q) => (AGAIN, [q.into(), 0, 0, 0]),
        Told::Refused(n) => (n, [0; 4]),
    }
}

/// What the writer of an input is created with.
pub fn configured(input: &[u8]) -> Config {
    Config {
        mode: input[0].into(),
        rate: number(&input[1..5]),
        buffer: number(&input[5..7]),
        rate_code: input[7].into(),
        n: input[8].into(),
        d: input[9].into(),
        q: input[10].into(),
        between: input[11].into(),
        anchors: input[12].into(),
    }
}

/// The original's writer of a configuration that creation accepts: as it is where n and d are 0, else patched; it has none of a
/// variable rate, but the targets.
fn original(c: &Config, w: &Writer) -> Option<OracleWriter> {
    let (rate, buffer) = (RATE_UNIT * c.rate, BUFFER_UNIT * c.buffer);
    let [code, n, d, q, between, anchors] = [c.rate_code, c.n, c.d, c.q, c.between, c.anchors].map(|b| b as u8);
    assert_eq!(oracle_targets(rate, [code, n, d], between, anchors), w.targets);
    if w.variable {
        return None;
    }
    let original = match (n, d) {
        (0, 0) => OracleWriter::new(rate, buffer, code, q, between, anchors),
        _ => OracleWriter::extended(rate, buffer, [code, n, d], q, between, anchors),
    };
    assert_eq!(original.targets(), w.targets);
    Some(original)
}

/// Makes a call on the model, with the original beside it: the answer's number and words.
fn called(call: &Call, w: &mut Writer, beside: &mut Beside, part: &mut [u8]) -> (u8, [u64; 4]) {
    match call {
        Call::Withdrawal => {
            if !w.withdraw() {
                return (12, [0; 4]);
            }
            beside.withdrawn();
            (WITHDRAWN, [0; 4])
        }
        Call::State(end, whole) => {
            w.set(*end, *whole);
            beside.set();
            (SET, [0; 4])
        }
        Call::Offer(o) => {
            let before = w.clone();
            let told = w.offer(o, part);
            beside.offered(&before, w, o, told, part);
            in_words(told)
        }
        Call::Check(mode, stream) => {
            assert_eq!(*stream, beside.handed_out, "another stream than what was handed out");
            let ((number, _), [a, b, c, d, e]) = judged(*mode, stream, part);
            if number == 0 { (PASSED, [a, c, d, e]) } else { (number, [a, b, c, d]) }
        }
    }
}

/// What a call's answer is counted as.
fn counted(w: &Writer, call: &Call, number: u8) -> Met {
    met(match call {
        Call::Withdrawal if number == 12 => NOT_WITHDRAWN,
        Call::Check(mode, _) if mode.variable != w.variable => {
            assert_eq!(number, if w.variable { 5 } else { 25 }, "a check of the other rate");
            if w.variable { NO_DELAY } else { A_DELAY }
        }
        Call::Check(..) if number != PASSED => NOT_PASSED,
        _ => number,
    })
}

/// What an offer's answer is counted as beside that, by the writer; early where the headers alone end beyond the bits delivered.
fn to_kind(w: &Writer, number: u8, early: bool) -> Vec<Met> {
    let mut all = vec![];
    if w.film && !w.variable {
        all.push(met(TO_FILM + if number == AGAIN { 30 } else { number }));
    }
    if w.variable {
        all.push(met(TO_VARIABLE + if number == AGAIN { 22 } else { number }));
    }
    if w.variable && early && [AGAIN, 21].contains(&number) {
        all.push(met(EARLY));
    }
    all
}

pub fn answer(input: &[u8]) -> Answer {
    let c = configured(input);
    let mut w = match Writer::create(c) {
        Ok(w) => w,
        Err(n) => return Answer::of(met(n)),
    };
    let mut beside = Beside::new(c, original(&c, &w));
    let mut answer = Answer { bytes: vec![0], met: vec![], film: None };
    if w.film {
        answer.met.push(met(FILM_LISTS));
    }
    if w.variable {
        answer.met.push(met(VARIABLE_LISTS));
    }
    words(&mut answer.bytes, &w.targets);
    let mut rest = &input[CALLS..];
    while !rest.is_empty() {
        let (call, part, after) = call(rest);
        rest = after;
        let mut part = pattern(part);
        let early =
            matches!(&call, Call::Offer(o) if w.position(o.headers.len()) * w.units() > w.delivered(o.headers.len()));
        let (number, told) = called(&call, &mut w, &mut beside, &mut part);
        answer.met.push(counted(&w, &call, number));
        if matches!(call, Call::Offer(..)) {
            answer.met.extend(to_kind(&w, number, early));
        }
        answer.bytes.push(number);
        words(&mut answer.bytes, &told);
        state(&mut answer.bytes, &w);
        answer.bytes.extend(part);
    }
    beside.checked(&w);
    answer.met.extend(beside.met);
    if w.film && beside.whole {
        answer.film = Some((w.sequence, w.pictures));
    }
    answer
}
