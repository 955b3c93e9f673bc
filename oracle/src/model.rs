//! Kinds 14 to 16: the frame rates, calls of the buffer model, and the delay in a picture header.
//! The original has no refusal 13 or 14 and no upper limit of a parameter: these the oracle decides by the rule of paper 01.

use crate::format::{ACCEPTED, Answer, Met, number, words};
use original::Error;
use original::vbv::{RemovalInterval, VbvCbrModel, VbvParams, VbvViolation, patch_vbv_delay};

pub const MOST_RATE: u64 = 429_496_729_200;
pub const MOST_BUFFER: u64 = 4_294_950_912;
pub const MOST_FRN: u64 = 240_000;
pub const MOST_FRD: u64 = 32_032;
/// The greatest position and end.
pub const FAR: u64 = 1 << 48;
/// Bits that the rate and buffer fields of a sequence header count in.
pub const RATE_UNIT: u64 = 400;
pub const BUFFER_UNIT: u64 = 16_384;

/// The greatest buffer that a rate allows.
pub fn widest(rate: u64) -> u64 {
    (65_534 * u128::from(rate) / 90_000).min(MOST_BUFFER.into()) as u64
}

const PARAMETER: Met = (12, "a parameter above its range");
const NOT_STARTED: Met = (13, "not started");
const STARTED_TWICE: Met = (13, "started twice");
const FAR_OUT: Met = (14, "a position or an end above 2^48");
const BACK: Met = (14, "an end below the previous one");

/// What else is counted: states that six of the greatest field periods lead to, and fewer do not. A number above those of check.rs.
pub const BEYOND: u8 = 167;

/// A call: which (1 to 6), its position or end, its delay or its interval.
#[derive(Clone, Copy)]
pub struct Call {
    pub which: u8,
    pub place: u64,
    pub small: u16,
}

pub struct Model {
    model: VbvCbrModel,
    frd: u32,
    started: bool,
}

/// The field periods of an interval by its code: a frame, a field, three fields, two frames, three frames.
pub const PERIODS: [u32; 5] = [2, 1, 3, 4, 6];

/// The code of an interval of so many periods.
pub fn interval_of(periods: u64) -> u16 {
    PERIODS.iter().position(|&n| u64::from(n) == periods).expect("an interval") as u16
}

/// The original's interval, and the frd to give with it. It has frames and fields alone; as it multiplies a field's time by frd, a
/// frd that is so many times as great makes an interval of so many fields.
pub fn interval(code: u16, frd: u32) -> (RemovalInterval, u32) {
    match code {
        0 => (RemovalInterval::Frame, frd),
        1 => (RemovalInterval::Field, frd),
        _ => (RemovalInterval::Field, PERIODS[usize::from(code)] * frd),
    }
}

/// The number of the original's refusal of a model or of a stream.
pub fn refusal(error: Error) -> Met {
    let Error::InvalidBitstream(reason) = error else { return (1, "ShortHeader") };
    let number = match reason {
        "VBV verify: no sequence header" => 3,
        "VBV verify: no pictures" => 4,
        "VBV verify: vbv_delay == 0xFFFF is variable-rate operation (C.3.2)" => 5,
        "frame_rate_code: forbidden or reserved value (Table 6-4 / §2.4.3.2)" => 6,
        "VBV: negative occupancy at picture start code (C.3.1)" => 7,
        "VBV: vbv_delay exceeds 0xFFFE (§6.3.9 sentinel)" => 8,
        "VBV params: bit_rate, buffer size and frame rate must be non-zero" => 12,
        "VBV params: 90000 * B / R exceeds the 16-bit vbv_delay range (§6.3.9)" => 12,
        _ => 2,
    };
    (number, reason)
}

impl Model {
    pub fn new([rate, buffer, frn, frd]: [u64; 4]) -> Result<Self, Met> {
        if rate > MOST_RATE || buffer > MOST_BUFFER || frn > MOST_FRN || frd > MOST_FRD {
            return Err(PARAMETER);
        }
        let frame_rate = (frn as u32, frd as u32);
        let model = VbvCbrModel::new(&VbvParams::new(rate, buffer, frame_rate)).map_err(refusal)?;
        Ok(Self { model, frd: frd as u32, started: false })
    }

    pub fn state(&self) -> [u64; 4] {
        self.model.oracle_state()
    }

    /// The words of the answer, or the refusal with its words (the picture of 9 and 10).
    pub fn call(&mut self, c: Call) -> Result<Vec<u64>, (Met, Vec<u64>)> {
        let plain = |r: Met| Err((r, vec![]));
        if c.which == 1 && self.started {
            return plain(STARTED_TWICE);
        }
        if c.which != 1 && !self.started {
            return plain(NOT_STARTED);
        }
        if c.which <= 3 && c.place > FAR {
            return plain(FAR_OUT);
        }
        match c.which {
            1 => {
                self.model.start(c.small, c.place);
                self.started = true;
                Ok(self.state().to_vec())
            }
            2 => match self.model.delay_for_picture(c.place) {
                Ok(delay) => Ok(vec![delay.into()]),
                Err(e) => plain(refusal(e)),
            },
            3 if c.place < self.state()[2] => plain(BACK),
            3 => self.remove(c.place, c.small),
            4 => Ok(vec![self.model.max_end_bits()]),
            5 => {
                let (interval, frd) = interval(c.small, self.frd);
                Ok(vec![self.model.min_end_bits(interval, frd)])
            }
            _ => Ok(vec![u64::try_from(self.model.occupancy_before_removal_bits()).unwrap()]),
        }
    }

    fn remove(&mut self, end: u64, code: u16) -> Result<Vec<u64>, (Met, Vec<u64>)> {
        let (interval, frd) = interval(code, self.frd);
        match self.model.remove_picture(end, interval, frd) {
            Ok(()) => Ok(self.state().to_vec()),
            Err(VbvViolation::Overflow { picture }) => Err(((9, "overflow"), vec![picture as u64])),
            Err(VbvViolation::Underflow { picture }) => Err(((10, "underflow"), vec![picture as u64])),
            Err(_) => unreachable!("no mismatch in a removal"),
        }
    }
}

/// Kind 15: the answer of `new`, then of each call.
pub fn calls(input: &[u8]) -> Answer {
    let params = [0, 8, 16, 24].map(|at| number(&input[at..at + 8]));
    let mut model = match Model::new(params) {
        Ok(model) => model,
        Err(refused) => return Answer::of(refused),
    };
    let mut answer = Answer::of(ACCEPTED);
    for c in input[32..].chunks(11) {
        let call = Call { which: c[0], place: number(&c[1..9]), small: number(&c[9..11]) as u16 };
        let (met, value) = match model.call(call) {
            Ok(value) => (ACCEPTED, value),
            Err(refused) => refused,
        };
        answer.met.push(met);
        if met == ACCEPTED && call.which == 3 && 1 << 55 < value[0] {
            answer.met.push((BEYOND, "states of more than 2^55 whole bits"));
        }
        answer.bytes.push(met.0);
        words(&mut answer.bytes, &value);
    }
    answer
}

/// Kind 16: the number, then the whole buffer.
pub fn patched(input: &[u8]) -> Answer {
    let mut picture = input[2..].to_vec();
    let met = match patch_vbv_delay(&mut picture, number(&input[..2]) as u16) {
        Ok(()) => ACCEPTED,
        Err(Error::InvalidBitstream(reason)) => (20, reason),
        Err(Error::ShortHeader) => unreachable!("patch_vbv_delay reads no header"),
    };
    let mut answer = Answer::of(met);
    answer.bytes.extend(picture);
    answer
}
