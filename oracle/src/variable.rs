//! The variable-rate check (paper 02, request 06; 13818-2 C.3.2), over pictures whose headers the original has parsed. The buffer is
//! followed by what is in it, in units of 1 / (2 × frn) bit: it starts full, a picture takes its bits out, each of its periods brings
//! R × frd of these units, and above B nothing comes in. Neither a position nor a number of bits delivered is used.

use crate::check::Picture;
use crate::format::{ACCEPTED, Met};
use crate::layout::VBV_RECORD_BYTES;
use crate::model::{MOST_BUFFER, MOST_FRD, MOST_FRN, MOST_RATE};
use crate::place::lay;

/// What every picture codes, and what is told as expected.
pub const DELAY: u16 = 0xFFFF;
const TOLD: u64 = DELAY as u64;

pub const OTHER_DELAY: Met = (25, "a delay other than 0xFFFF");
const PARAMETER: Met = (12, "a parameter zero or out of range");
const PLACES: Met = (15, "fewer record places than pictures");
const UNDERFLOW: Met = (10, "underflow");

/// What else is counted: above the numbers of lists.rs that are no answers.
pub const RATIO: u8 = 169;
pub const EXACT: u8 = 170;
pub const EMPTIED: u8 = 171;
pub const FULL: u8 = 172;
pub const NOT_FULL: u8 = 173;
pub const AT_FIRST: u8 = 174;
pub const AT_LATER: u8 = 175;
pub const FIRST_OTHER: u8 = 176;
pub const LATER_OTHER: u8 = 177;
pub const BEFORE_UNDERFLOW: u8 = 178;
pub const AFTER_UNDERFLOW: u8 = 179;
pub const BEFORE_12: u8 = 180;
pub const BEFORE_15: u8 = 181;
pub const PARAMETER_BEFORE_15: u8 = 182;
pub const PLACES_BEFORE_10: u8 = 183;
/// All of them, for a kind to owe.
const MET: [Met; 15] = [
    (RATIO, "accepted, with a buffer too large for the rate at a constant one"),
    (EXACT, "accepted, with a first picture of exactly B bits"),
    (EMPTIED, "records of pictures that empty the buffer, but for part of a bit"),
    (FULL, "records of later pictures before which the buffer is full"),
    (NOT_FULL, "records of later pictures before which it is not"),
    (AT_FIRST, "of those refused 10 at the first picture"),
    (AT_LATER, "of those refused 10 at a later picture"),
    (FIRST_OTHER, "of those refused 25 with another delay in the first picture"),
    (LATER_OTHER, "of those refused 25 with another delay in a later picture alone, plain 5 by the original"),
    (BEFORE_UNDERFLOW, "of those refused 25 with another delay before a picture that underflows"),
    (AFTER_UNDERFLOW, "of those refused 25 with another delay in a picture that underflows, or after one"),
    (BEFORE_12, "of those refused 25 with a parameter out of range"),
    (BEFORE_15, "of those refused 25 with too few record places"),
    (PARAMETER_BEFORE_15, "of those refused 12 with too few record places"),
    (PLACES_BEFORE_10, "of those refused 15 with a picture that underflows"),
];
pub const OWED: [u8; MET.len()] = {
    let mut numbers = [0; MET.len()];
    let mut i = 0;
    while i < numbers.len() {
        numbers[i] = MET[i].0;
        i += 1;
    }
    numbers
};

/// A buffer that is filled as fast as R while it is not full.
#[derive(Clone)]
pub struct Buffer {
    /// Units to a bit, what a field period brings, and what there is room for.
    bit: u128,
    period: u128,
    room: u128,
    held: u128,
}

impl Buffer {
    /// Full; R, B, frn and frd.
    pub fn full([rate, buffer, frn, frd]: [u64; 4]) -> Self {
        let bit = 2 * u128::from(frn);
        let room = bit * u128::from(buffer);
        Self { bit, period: u128::from(rate) * u128::from(frd), room, held: room }
    }

    /// Whole bits in it.
    pub fn bits(&self) -> u64 {
        (self.held / self.bit) as u64
    }

    /// Takes out the bits of a picture, and lasts its periods; false where they are not all there.
    pub fn remove(&mut self, bits: u64, periods: u64) -> bool {
        let Some(after) = self.held.checked_sub(self.bit * u128::from(bits)) else { return false };
        self.held = (after + self.period * u128::from(periods)).min(self.room);
        true
    }
}

/// '12 does not test the ratio': ranges alone.
pub fn fits([rate, buffer, frn, frd]: [u64; 4]) -> bool {
    let ranges = [(rate, MOST_RATE), (buffer, MOST_BUFFER), (frn, MOST_FRN), (frd, MOST_FRD)];
    ranges.into_iter().all(|(value, most)| (1..=most).contains(&value))
}

/// The number and five words of a stream's pictures, of which there is one at least: from 25 on. The records are stored in the part.
pub fn judged(params: [u64; 4], all: &[Picture], periods: &[u64], part: &mut [u8]) -> (Met, [u64; 5]) {
    if all.iter().any(|p| p.delay != DELAY) {
        return (OTHER_DELAY, [0; 5]);
    }
    if !fits(params) {
        return (PARAMETER, [0; 5]);
    }
    if part.len() / VBV_RECORD_BYTES < all.len() {
        return (PLACES, [0; 5]);
    }
    match run(params, all, periods) {
        Err(n) => (UNDERFLOW, [n, TOLD, TOLD, 0, 0]),
        Ok(records) => {
            for (record, place) in records.iter().zip(part.chunks_mut(VBV_RECORD_BYTES)) {
                lay(place, record);
            }
            let least = records.iter().map(|r| r[3] - r[2]).min().unwrap();
            let greatest = records.iter().map(|r| r[3]).max().unwrap();
            (ACCEPTED, [params[0], params[1], all.len() as u64, least, greatest])
        }
    }
}

/// The words of all records, or the picture that underflows.
fn run(params: [u64; 4], all: &[Picture], periods: &[u64]) -> Result<Vec<[u64; 5]>, u64> {
    let mut buffer = Buffer::full(params);
    let (mut records, mut previous) = (vec![], 0);
    for (n, (p, &periods)) in all.iter().zip(periods).enumerate() {
        let (bits, before) = (p.end - previous, buffer.bits());
        if !buffer.remove(bits, periods) {
            return Err(n as u64);
        }
        records.push([TOLD, TOLD, bits, before, periods]);
        previous = p.end;
    }
    Ok(records)
}

/// What is counted of a check, beside its number.
pub fn met(params: [u64; 4], all: &[Picture], periods: &[u64], part: usize, number: u8) -> Vec<Met> {
    let numbers = match (number, run(params, all, periods)) {
        (0, Ok(records)) => met_accepted(params, &records),
        (0, _) => unreachable!("accepted, and a picture underflows"),
        (_, ran) => met_refused(params, all, part, number, ran.err().map(|n| n as usize)),
    };
    MET.into_iter().flat_map(|met| numbers.iter().filter(move |n| **n == met.0).map(move |_| met)).collect()
}

fn met_accepted([rate, buffer, ..]: [u64; 4], records: &[[u64; 5]]) -> Vec<u8> {
    // In every accepted stream the greatest occupancy before a removal is that before the first, which is B.
    assert!(records[0][3] == buffer && records.iter().all(|r| r[3] <= buffer));
    let ratio = 90_000 * u128::from(buffer) > 65_534 * u128::from(rate);
    let mut numbers: Vec<u8> = records[1..].iter().map(|r| if r[3] == buffer { FULL } else { NOT_FULL }).collect();
    numbers.extend(records.iter().filter(|r| r[2] == r[3]).map(|_| EMPTIED));
    numbers.extend([(ratio, RATIO), (records[0][2] == buffer, EXACT)].iter().filter(|n| n.0).map(|n| n.1));
    numbers
}

fn met_refused(params: [u64; 4], all: &[Picture], part: usize, number: u8, underflow: Option<usize>) -> Vec<u8> {
    let odd = all.iter().position(|p| p.delay != DELAY);
    let few = part / VBV_RECORD_BYTES < all.len();
    let some = [
        (10, underflow == Some(0), AT_FIRST),
        (10, underflow != Some(0), AT_LATER),
        (25, odd == Some(0), FIRST_OTHER),
        (25, odd != Some(0), LATER_OTHER),
        (25, underflow.is_some_and(|n| odd < Some(n)), BEFORE_UNDERFLOW),
        (25, underflow.is_some_and(|n| odd >= Some(n)), AFTER_UNDERFLOW),
        (25, !fits(params), BEFORE_12),
        (25, few, BEFORE_15),
        (12, few, PARAMETER_BEFORE_15),
        (15, underflow.is_some(), PLACES_BEFORE_10),
    ];
    some.iter().filter(|s| s.0 == number && s.1).map(|s| s.2).collect()
}
