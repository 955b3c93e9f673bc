//! The run of the check over pictures with their periods (request 05): paper 01's order and bounds, by the original's model.
//! check.rs holds it to the original's own run wherever the periods are plain.

use crate::check::Picture;
use crate::format::{ACCEPTED, Met};
use crate::layout::VBV_RECORD_BYTES;
use crate::model::{interval, interval_of, refusal};
use crate::place::lay;
use original::vbv::{VbvCbrModel, VbvParams, VbvViolation};

/// What one picture of the run comes to: the words of its record, or a refusal with picture, coded and expected delay.
fn picture(
    model: &mut VbvCbrModel,
    frd: u32,
    (n, p): (usize, &Picture),
    previous: u64,
    periods: u64,
) -> Result<[u64; 5], (Met, [u64; 5])> {
    let expected = model.delay_for_picture(p.position).map_err(|e| (refusal(e), [0; 5]))?;
    let told = [n as u64, p.delay.into(), expected.into(), 0, 0];
    if 1 < expected.abs_diff(p.delay) {
        return Err(((11, "delay mismatch"), told));
    }
    let before = model.occupancy_before_removal_bits();
    let (interval, frd) = interval(interval_of(periods), frd);
    model.remove_picture(p.end, interval, frd).map_err(|v| match v {
        VbvViolation::Overflow { .. } => ((9, "overflow"), told),
        VbvViolation::Underflow { .. } => ((10, "underflow"), told),
        _ => unreachable!("no mismatch in a removal"),
    })?;
    Ok([p.delay.into(), expected.into(), p.end - previous, before as u64, periods])
}

/// The number and five words of pictures whose parameters fit; the records are stored in the part, which has places for them.
pub fn run(params: &VbvParams, all: &[Picture], periods: &[u64], part: &mut [u8]) -> (Met, [u64; 5]) {
    let mut model = VbvCbrModel::new(params).expect("parameters that fit");
    model.start(all[0].delay, all[0].position);
    let (mut records, mut previous) = (vec![], 0);
    for (p, &periods) in all.iter().enumerate().zip(periods) {
        match picture(&mut model, params.frame_rate.1, p, previous, periods) {
            Ok(record) => records.push(record),
            Err(refused) => return refused,
        }
        previous = p.1.end;
    }
    for (record, place) in records.iter().zip(part.chunks_mut(VBV_RECORD_BYTES)) {
        lay(place, record);
    }
    let least = records.iter().map(|r| r[3] - r[2]).min().unwrap();
    let greatest = records.iter().map(|r| r[3]).max().unwrap();
    (ACCEPTED, [params.bit_rate, params.buffer_size_bits, all.len() as u64, least, greatest])
}
