//! Streams for kinds 17, 18, 20 and 24, made picture by picture with the original's model: valid ones, and ones with a fault. Those for
//! film mode last as cadence.rs says; those of a variable rate are made with the buffer of variable.rs.

use crate::cadence::{Facts, Sequence, last_periods};
use crate::draw::Draw;
use crate::headers::{self, filler, pack};
use crate::model::{BUFFER_UNIT, Call, Model, PERIODS, RATE_UNIT, interval_of};
use crate::variable::{Buffer, DELAY};

const FRAME_RATES: [(u64, u64); 8] =
    [(24_000, 1001), (24, 1), (25, 1), (30_000, 1001), (30, 1), (50, 1), (60_000, 1001), (60, 1)];

/// The rate of a code, n and d.
pub fn frame_rate(code: u64, n: u64, d: u64) -> (u64, u64) {
    let (frn, frd) = FRAME_RATES[code as usize - 1];
    (frn * (n + 1), frd * (d + 1))
}

/// Bytes that a picture is at most filled up with to reach its least end; more where long intervals ask for them.
const FILL: u64 = 240;
const LONG_FILL: u64 = 3_000;
const FILM_FILL: u64 = 800;
/// At a variable rate a picture may be as long as the buffer is; and a stream of so many bytes goes on with short ones.
const VARIABLE_FILL: u64 = 12_000;
const ENOUGH: usize = 30_000;

/// Which check a stream is made for: fields, n and d count in MPEG-2's alone, flags in film mode's; a variable rate has no delays.
/// And whether it has MPEG-2's extensions.
#[derive(Clone, Copy)]
pub struct Form {
    pub mpeg2: bool,
    pub extensions: bool,
    pub film: bool,
    pub variable: bool,
}

#[derive(Clone, Copy, PartialEq)]
pub enum Fault {
    None,
    /// A delay off by some ticks, 0xFFFE or 0xFFFF; at a variable rate one that is not 0xFFFF.
    Delay,
    /// At a variable rate such a delay, and another picture that underflows, or the same.
    DelayAndSize,
    /// A picture a byte beyond a limit.
    Size,
    /// User data longer than a picture's delay lets through, or than what is in the buffer.
    Early,
    /// A picture without slices.
    NoSlice,
    /// The first delay is 0xFFFF; at a variable rate it is not.
    VariableRate,
    /// A delay off, and the last picture's header bad.
    LastHeader,
    RateCode,
    /// The buffer is too large for the rate, or 0; at a variable rate 0.
    Ratio,
    /// The low 18 bits of the rate are zero.
    LowRate,
    /// The sequence header stands after a picture.
    Late,
    NoSequence,
    NoPicture,
}

const FAULTS: [Fault; 15] = [
    Fault::Delay,
    Fault::Delay,
    Fault::Size,
    Fault::Size,
    Fault::Early,
    Fault::NoSlice,
    Fault::VariableRate,
    Fault::LastHeader,
    Fault::RateCode,
    Fault::Ratio,
    Fault::LowRate,
    Fault::Late,
    Fault::Late,
    Fault::NoSequence,
    Fault::NoPicture,
];
const VARIABLE_FAULTS: [Fault; 18] = [
    Fault::Delay,
    Fault::Delay,
    Fault::DelayAndSize,
    Fault::DelayAndSize,
    Fault::Size,
    Fault::Size,
    Fault::Size,
    Fault::Early,
    Fault::Early,
    Fault::NoSlice,
    Fault::VariableRate,
    Fault::LastHeader,
    Fault::RateCode,
    Fault::Ratio,
    Fault::LowRate,
    Fault::Late,
    Fault::NoSequence,
    Fault::NoPicture,
];

/// What a stream is made of.
struct Plan {
    form: Form,
    fault: Fault,
    pictures: usize,
    /// The picture at which the fault is, and at a variable rate the one with another delay.
    faulty: usize,
    odd: usize,
    rate: u64,
    buffer: u64,
    rate_code: u64,
    /// n and d of the sequence extension.
    more_rate: (u64, u64),
    fill: u64,
    /// Of eight pictures, how many are fields.
    fields: usize,
    /// Of the first sequence extension, in film mode.
    sequence: Sequence,
    /// Kinds (0, 1, 2 for I, P, B) and facts of the pictures, where they are not drawn.
    given: Vec<(usize, Facts)>,
    /// Zeros at the end of a header serve as those of the next start code.
    shared: bool,
    end_code: bool,
}

/// A stream on the way, with the original's model as long as it refuses nothing, or at a variable rate with what is in the buffer,
/// and where the last picture ended.
struct Stream {
    plan: Plan,
    model: Option<Model>,
    buffer: Option<Buffer>,
    previous: usize,
    bytes: Vec<u8>,
    pictures: Vec<Facts>,
}

/// The least rate field that allows a buffer field.
pub fn least_rate(buffer: u64) -> u64 {
    (90_000 * BUFFER_UNIT * buffer).div_ceil(65_534 * RATE_UNIT)
}

/// None in half of the cases.
pub fn fault(form: Form, d: &mut Draw) -> Fault {
    let faults: &[Fault] = if form.variable { &VARIABLE_FAULTS } else { &FAULTS };
    if d.one_in(2) { Fault::None } else { faults[d.below(faults.len())] }
}

/// A buffer field and a rate field at a variable rate: small ones, for a picture to come to the buffer's end, and in half of the cases
/// a rate that is too low for the buffer at a constant one.
fn variable_rate(d: &mut Draw) -> (u64, u64) {
    let buffer = if d.one_in(8) { d.nonzero(18) } else { 1 + d.below(3) as u64 };
    let least = least_rate(buffer);
    let below = (1 + d.next() % least.min(1 << 18)).min(least - 1).max(1);
    let above = least + d.below(3000) as u64;
    let any = if d.one_in(4) { d.nonzero(30) } else { least + d.below(60) as u64 };
    let rate = [1 + d.below(40) as u64, below, above, any][d.below(4)];
    (buffer, if rate % (1 << 18) == 0 { rate + 1 } else { rate })
}

fn plan(form: Form, fault: Fault, d: &mut Draw) -> Plan {
    let mut pictures = if d.one_in(8) { 1 + d.below(30) } else { 1 + d.below(7) };
    let (rate_bits, buffer_bits) = if form.mpeg2 && d.one_in(2) { (30, 18) } else { (18, 10) };
    let mut buffer = if d.one_in(3) { d.nonzero(buffer_bits) } else { 1 + d.below(3) as u64 };
    let most = if form.film { 400 } else { 1 << 18 };
    let more = [0, d.below(3), d.below(60), d.below(most)][d.below(4)] as u64;
    let mut rate = (least_rate(buffer) + more).min((1 << rate_bits) - 1);
    if rate % (1 << 18) == 0 {
        rate += 1;
    }
    if form.variable {
        (buffer, rate) = variable_rate(d);
    }
    let mut rate_code = 1 + d.below(8) as u64;
    let mut more_rate = if form.extensions && d.one_in(2) { (d.value(2), d.value(5)) } else { (0, 0) };
    let mut fill = if more_rate.1 != 0 && d.one_in(4) { LONG_FILL } else { FILL };
    let mut sequence = Sequence::default();
    if form.film {
        fill = fill.max(FILM_FILL);
        sequence = Sequence { progressive: d.one_in(2), low_delay: d.one_in(2) };
    }
    if fill == LONG_FILL {
        pictures = pictures.min(7);
    }
    let mut faulty = d.below(pictures);
    match fault {
        Fault::RateCode => rate_code = if d.one_in(4) { 0 } else { 9 + d.below(7) as u64 },
        Fault::Ratio if form.variable || d.one_in(2) => buffer = 0,
        Fault::Ratio => rate = (least_rate(buffer) - 1).max(1),
        Fault::LowRate => rate &= !0x3FFFF,
        Fault::Early if !form.variable => {
            (buffer, rate, rate_code) = (1, 57 + d.below(9) as u64, 6 + d.below(3) as u64);
            more_rate.1 = 0;
            (pictures, faulty) = (pictures + 1, faulty + 1);
        }
        Fault::NoPicture => pictures = 0,
        _ => {}
    }
    Plan {
        form,
        fault,
        pictures,
        faulty,
        odd: match fault {
            Fault::VariableRate => 0,
            Fault::DelayAndSize => d.below(pictures),
            Fault::Ratio if form.variable && !d.one_in(3) => usize::MAX,
            _ => faulty,
        },
        rate,
        buffer,
        rate_code,
        more_rate,
        fill,
        fields: match form {
            Form { film: true, .. } => [0, 3, 5, 8][d.below(4)],
            Form { extensions: true, .. } => [0, 0, 4, 8][d.below(4)],
            _ => 0,
        },
        sequence,
        given: vec![],
        shared: d.one_in(4),
        end_code: d.one_in(2),
    }
}

/// One stream.
pub fn drawn(form: Form, fault: Fault, d: &mut Draw) -> Vec<u8> {
    let plan = plan(form, fault, d);
    made(plan, d)
}

/// A valid stream of pictures of these kinds and facts, in film mode.
pub fn of(pictures: &[(usize, Facts)], sequence: Sequence, d: &mut Draw) -> Vec<u8> {
    let form = Form { mpeg2: true, extensions: true, film: true, variable: false };
    let plan = Plan {
        pictures: pictures.len(),
        rate: least_rate(1) + 20,
        buffer: 1,
        rate_code: 4,
        more_rate: (0, 0),
        fill: FILM_FILL,
        sequence,
        given: pictures.to_vec(),
        shared: false,
        end_code: true,
        ..plan(form, Fault::None, d)
    };
    made(plan, d)
}

fn made(plan: Plan, d: &mut Draw) -> Vec<u8> {
    let form = plan.form;
    let (n, of_d) = if form.mpeg2 { plan.more_rate } else { (0, 0) };
    let (frn, frd) = frame_rate(plan.rate_code.clamp(1, 8), n, of_d);
    let params = [RATE_UNIT * plan.rate, BUFFER_UNIT * plan.buffer, frn, frd];
    let model = if form.variable { None } else { Model::new(params).ok() };
    let buffer = form.variable.then(|| Buffer::full(params));
    let mut stream = Stream { plan, model, buffer, previous: 0, bytes: vec![], pictures: vec![] };
    let late = stream.plan.fault == Fault::Late;
    if !late && stream.plan.fault != Fault::NoSequence {
        stream.sequence(d);
    }
    for n in 0..stream.plan.pictures {
        stream.between(n, d);
        stream.picture(n, d);
        if late && n == stream.plan.faulty {
            stream.sequence(d);
        }
    }
    stream.bytes
}

fn asked(model: &mut Model, which: u8, small: u16) -> u64 {
    model.call(Call { which, place: 0, small }).map_or(0, |v| v[0])
}

impl Stream {
    fn faulty(&self, n: usize, fault: Fault) -> bool {
        self.plan.fault == fault && self.plan.faulty == n
    }

    /// A start code and what follows.
    fn put(&mut self, bytes: &[u8]) {
        let zeros = self.bytes.iter().rev().take(2).take_while(|&&b| b == 0).count();
        self.bytes.extend_from_slice(if self.plan.shared { &bytes[zeros..] } else { bytes });
    }

    fn sequence(&mut self, d: &mut Draw) {
        let matrices = if d.one_in(32) { d.below(4) } else { 0 };
        let mut header = headers::sequence_header(matrices, d);
        header[4].1 = self.plan.rate_code;
        header[5].1 = self.plan.rate % (1 << 18);
        header[7].1 = self.plan.buffer % (1 << 10);
        self.put(&pack(&header));
        if self.plan.form.extensions {
            let mut extension = headers::sequence_extension(d);
            if self.plan.form.mpeg2 {
                extension[7].1 = self.plan.rate >> 18;
                extension[9].1 = self.plan.buffer >> 10;
            }
            (extension[11].1, extension[12].1) = self.plan.more_rate;
            if self.plan.form.film {
                let Sequence { progressive, low_delay } = self.plan.sequence;
                (extension[3].1, extension[10].1) = (progressive.into(), low_delay.into());
            }
            self.put(&pack(&extension));
        }
    }

    /// What may stand before a picture: another sequence header, a group header, user data.
    fn between(&mut self, n: usize, d: &mut Draw) {
        if n != 0 && d.one_in(16) {
            let declared = (self.plan.rate, self.plan.buffer, self.plan.more_rate, self.plan.sequence);
            (self.plan.rate, self.plan.buffer) = (d.nonzero(18), d.value(10));
            self.plan.more_rate = (d.value(2), d.value(5));
            if self.plan.form.film {
                self.plan.sequence = Sequence { progressive: d.one_in(2), low_delay: d.one_in(2) };
            }
            self.sequence(d);
            (self.plan.rate, self.plan.buffer, self.plan.more_rate, self.plan.sequence) = declared;
        }
        if n != 0 && self.plan.form.film && d.one_in(16) {
            let other = [&[0, 0, 1, 0xB5][..], &filler(3, d)].concat();
            self.put(if d.one_in(2) { &[0, 0, 1, 0xB7] } else { &other });
        }
        if d.one_in(8) {
            self.put(&headers::group(d));
        }
        if d.one_in(8) || self.faulty(n, Fault::Early) {
            let most = if self.faulty(n, Fault::Early) { 150 } else { 12 };
            let length = d.below(most) + if self.faulty(n, Fault::Early) { self.more_than_held() } else { 0 };
            self.put(&headers::user_data(length, d));
        }
    }

    /// At a variable rate, bytes up to the end of what is in the buffer, or nearly so.
    fn more_than_held(&self) -> usize {
        let held = self.buffer.as_ref().map_or(0, |b| b.bits() / 8).min(VARIABLE_FILL) as usize;
        let held = if ENOUGH < self.bytes.len() { 0 } else { held };
        held.saturating_sub(self.bytes.len() - self.previous + 60)
    }

    fn picture(&mut self, n: usize, d: &mut Draw) {
        let field = d.below(8) < self.plan.fields;
        let facts = self.picture_header(n, field, d);
        self.pictures.push(facts);
        if self.faulty(n, Fault::NoSlice) {
            return;
        }
        let last = n + 1 == self.plan.pictures;
        let end_code = if last { self.plan.end_code } else { self.plan.form.film && d.one_in(16) };
        let tail = if end_code { 4 } else { 0 };
        let interval = match self.plan.form {
            Form { film: true, .. } => interval_of(last_periods(self.plan.sequence, &self.pictures)),
            form => (field && form.mpeg2).into(),
        };
        let end = self.end(n, interval, tail, last, d);
        self.slices(end - tail, d);
        if tail != 0 {
            self.bytes.extend([0, 0, 1, 0xB7]);
        }
        let bits = 8 * (self.bytes.len() - self.previous) as u64;
        self.previous = self.bytes.len();
        let periods = PERIODS[usize::from(interval)].into();
        if self.buffer.as_mut().is_some_and(|b| !b.remove(bits, periods)) {
            self.buffer = None;
        }
        let end = Call { which: 3, place: 8 * self.bytes.len() as u64, small: interval };
        if self.model.as_mut().is_some_and(|m| m.call(end).is_err()) {
            self.model = None;
        }
    }

    /// Puts a picture's headers; what they show of it is returned.
    fn picture_header(&mut self, n: usize, field: bool, d: &mut Draw) -> Facts {
        let zeros = self.bytes.iter().rev().take(2).take_while(|&&b| b == 0).count();
        let at = self.bytes.len() - if self.plan.shared { zeros } else { 0 };
        let delay = self.delay(n, 8 * (at as u64 + 4), d);
        let extra = if d.one_in(16) { d.below(4) } else { 0 };
        let given = self.plan.given.get(n).copied();
        let kind = given.map_or(1 + d.below(3), |(kind, _)| kind + 1) as u64;
        let mut header = headers::picture_header(kind, extra, d);
        header[3].1 = delay;
        let bad = self.plan.fault == Fault::LastHeader && n + 1 == self.plan.pictures;
        if bad && d.one_in(2) {
            header[2].1 = [0, 5, 6, 7][d.below(4)];
        }
        self.put(&pack(&header));
        let mut facts = Facts { anchor: header[2].1 != 3, field, repeat: false, top: false };
        if self.plan.form.extensions {
            let mut extension = headers::picture_coding_extension(d);
            if let Some((_, given)) = given {
                facts = given;
                (extension[8].1, extension[14].1) = (given.top.into(), given.repeat.into());
            }
            extension[7].1 = if facts.field { 1 + d.below(2) as u64 } else { 3 };
            if bad {
                extension[1 + d.below(7)].1 = 0;
            }
            (facts.repeat, facts.top) = (extension[14].1 == 1, extension[8].1 == 1);
            self.put(&pack(&extension));
        }
        facts
    }

    /// The delay to code for a picture whose start code ends at a position.
    fn delay(&mut self, n: usize, position: u64, d: &mut Draw) -> u64 {
        if self.plan.form.variable {
            const ODD: [Fault; 4] = [Fault::Delay, Fault::DelayAndSize, Fault::VariableRate, Fault::Ratio];
            let odd = ODD.contains(&self.plan.fault) && n == self.plan.odd;
            let other = [0xFFFE, 0, 0x7FFF, d.value(16)][d.below(4)].min(0xFFFE);
            return if odd || self.plan.fault == Fault::LastHeader && d.one_in(4) { other } else { DELAY.into() };
        }
        let expected = match &mut self.model {
            None => d.value(16),
            Some(model) if n == 0 => {
                let (rate, buffer) = (RATE_UNIT * self.plan.rate, BUFFER_UNIT * self.plan.buffer);
                let most = (buffer.saturating_sub(position) * 90_000 / rate).min(0xFFFE);
                let early = self.plan.fault == Fault::Early;
                let little = 500 * 90_000 / rate + d.below(200) as u64;
                let some = [little, most, d.next() % (most + 1)][if early { 0 } else { d.below(3) }];
                let delay = if self.plan.shared && d.one_in(2) { some & !0x1FFF } else { some };
                let delay = if self.plan.fault == Fault::VariableRate { 0xFFFF } else { delay };
                let _ = model.call(Call { which: 1, place: position, small: delay as u16 });
                return delay;
            }
            Some(model) => match model.call(Call { which: 2, place: position, small: 0 }) {
                Ok(v) => v[0],
                Err(_) => d.value(16),
            },
        };
        if self.faulty(n, Fault::Delay) || self.plan.fault == Fault::LastHeader {
            let off = [1, 2, 0xFFFF, 0xFFFE, d.value(16)][d.below(5)];
            return [(expected + off) & 0xFFFF, 0xFFFE, 0xFFFF][[0, 0, 0, 1, 2][d.below(5)]];
        }
        expected
    }

    /// Where the picture ends: between the limits, or a byte beyond one.
    fn end(&mut self, n: usize, interval: u16, tail: u64, last: bool, d: &mut Draw) -> u64 {
        let shortest = self.bytes.len() as u64 + 5 + tail;
        if self.plan.form.variable {
            return self.variable_end(n, shortest, d);
        }
        let Some(model) = &mut self.model else { return shortest + d.below(8) as u64 };
        let most = asked(model, 4, 0) / 8;
        let least = if last { 0 } else { asked(model, 5, interval).div_ceil(8) };
        if self.faulty(n, Fault::Size) {
            let beyond = if d.one_in(2) { most + 1 } else { least.saturating_sub(1) };
            return beyond.clamp(shortest, shortest + self.plan.fill);
        }
        let least = least.clamp(shortest, shortest + self.plan.fill);
        let most = most.clamp(least, least + FILL / 4);
        if self.plan.fault == Fault::Early {
            return most;
        }
        [least, most, least + d.below((most - least + 1).min(24) as usize) as u64][[0, 1, 2, 2][d.below(4)]]
    }

    /// The same at a variable rate: the shortest, one that empties the buffer, one in between, or a byte more.
    fn variable_end(&mut self, n: usize, shortest: u64, d: &mut Draw) -> u64 {
        let Some(buffer) = &self.buffer else { return shortest + d.below(8) as u64 };
        let most = self.previous as u64 + buffer.bits() / 8;
        if self.faulty(n, Fault::Size) || self.faulty(n, Fault::DelayAndSize) {
            return (most + 1).clamp(shortest, shortest + VARIABLE_FILL);
        }
        if ENOUGH < self.bytes.len() {
            return shortest;
        }
        let most = most.clamp(shortest, shortest + VARIABLE_FILL);
        let near = most.saturating_sub(d.below(24) as u64).max(shortest);
        let between = shortest + d.next() % (most - shortest + 1);
        [shortest, shortest + (between - shortest) / 8, most, near, between, shortest][d.below(6)]
    }

    /// Slices and stuffing up to an end.
    fn slices(&mut self, end: u64, d: &mut Draw) {
        self.put(&[0, 0, 1, 1 + d.below(0xAF) as u8]);
        let left = end as usize - self.bytes.len();
        let stuffing = if d.one_in(2) { d.below(left + 1) } else { 0 };
        let data = left - stuffing;
        self.bytes.extend(filler(data.min(7), d));
        if 11 < data && d.one_in(2) {
            self.bytes.extend([0, 0, 1, 1 + d.below(0xAF) as u8]);
        }
        let rest = end as usize - stuffing - self.bytes.len();
        self.bytes.extend(filler(rest, d));
        self.bytes.resize(end as usize, 0);
    }
}
