//! Inputs for kinds 14 to 16: lists of model calls, drawn around what the model allows at each step, and headers to patch.

use crate::draw::Draw;
use crate::model::{
    BUFFER_UNIT, Call, FAR, MOST_BUFFER, MOST_FRD, MOST_FRN, MOST_RATE, Model, PERIODS, RATE_UNIT, widest,
};
use crate::streams::frame_rate;

/// One input of a kind.
pub fn drawn(kind: u8, d: &mut Draw) -> Vec<u8> {
    match kind {
        14 => [16, 6, 34].map(|most| if d.one_in(4) { d.byte() } else { d.below(most) as u8 }).to_vec(),
        15 => {
            let params = params(d);
            list(params, d)
        }
        _ => picture(d),
    }
}

/// Every input of kind 14.
pub fn every(put: &mut impl FnMut(&[u8])) {
    for code in 0..=255 {
        for n in 0..=255 {
            (0..=255).for_each(|d| put(&[code, n, d]));
        }
    }
}

/// Around each boundary: all rate codes, with each n and d in range, the two above and the greatest; parameters around each
/// limit; parts around the length needed, with each byte of the start code changed.
pub fn edges(kind: u8, d: &mut Draw, put: &mut impl FnMut(&[u8])) {
    match kind {
        14 => {
            for code in 0..=255 {
                for n in (0..=5).chain([255]) {
                    (0..=33).chain([255]).for_each(|d| put(&[code, n, d]));
                }
            }
        }
        15 => {
            for params in limits() {
                put(&list(params, d));
            }
        }
        _ => {
            for n in 0..12 {
                for i in 0..5 {
                    let mut part = [&[0, 0, 1, 0][..], &d.bytes(8)].concat();
                    if i < 4 {
                        part[i] ^= 1 << d.below(8);
                    }
                    put(&[&(d.value(16) as u16).to_le_bytes()[..], &part[..n]].concat());
                }
            }
        }
    }
}

fn picture(d: &mut Draw) -> Vec<u8> {
    let n = if d.one_in(4) { d.below(12) } else { 8 + d.below(20) };
    let mut part = [vec![0, 0, 1, 0], d.bytes(24)].concat();
    if d.one_in(8) {
        part[d.below(4)] = d.byte();
    }
    [&(d.value(16) as u16).to_le_bytes()[..], &part[..n]].concat()
}

fn params(d: &mut Draw) -> [u64; 4] {
    let (frn, frd) = match d.below(4) {
        0 => (1 + d.next() % MOST_FRN, 1 + d.next() % MOST_FRD),
        1 => (1 + d.next() % 9, 1 + d.next() % 9),
        2 => frame_rate(1 + d.below(8) as u64, d.value(2), d.value(5)),
        _ => frame_rate(1 + d.below(8) as u64, 0, 0),
    };
    let bits = 1 + d.below(39) as u32;
    let rate = if d.one_in(2) { RATE_UNIT * d.nonzero(18) } else { d.nonzero(bits).min(MOST_RATE) };
    let buffer = match d.below(4) {
        0 => widest(rate) + d.below(2) as u64,
        1 => (BUFFER_UNIT * d.nonzero(10)).min(widest(rate)),
        _ => d.next() % (widest(rate) + 1),
    };
    let mut all = [rate, buffer, frn, frd];
    if d.one_in(16) {
        // Three frames of these deliver more than 2^55 bits.
        all = [MOST_RATE - d.next() % (1 << 33), 1 + d.next() % MOST_BUFFER, 1, MOST_FRD - d.next() % (1 << 10)];
    }
    if d.one_in(16) {
        all[d.below(4)] = d.value(64);
    }
    all
}

/// Each parameter at 0, 1, its limit and one more, with buffers at the greatest that the rate allows and one more.
fn limits() -> Vec<[u64; 4]> {
    let around = |most: u64| [0, 1, 2, most - 1, most, most + 1, 1 << 32, u64::MAX];
    let mut all = vec![];
    for rate in around(MOST_RATE) {
        let most = widest(rate.min(MOST_RATE));
        for buffer in [0, 1, most, most + 1, MOST_BUFFER, MOST_BUFFER + 1, 1 << 32, u64::MAX] {
            for frn in around(MOST_FRN) {
                all.extend(around(MOST_FRD).map(|frd| [rate, buffer, frn, frd]));
            }
        }
    }
    all
}

/// The parameters and a list of calls.
fn list(params: [u64; 4], d: &mut Draw) -> Vec<u8> {
    let mut input: Vec<u8> = params.iter().flat_map(|p| p.to_le_bytes()).collect();
    let mut model = Model::new(params).ok();
    let position = if d.one_in(4) { FAR - d.next() % 1000 } else { d.next() % 10_000 };
    for _ in 0..1 + d.below(24) {
        let call = match &mut model {
            Some(model) => call(model, params, position, d),
            None => Call { which: 1 + d.below(6) as u8, place: d.value(64), small: 0 },
        };
        input.push(call.which);
        input.extend(call.place.to_le_bytes());
        input.extend(call.small.to_le_bytes());
        // After an overflow every removal overflows.
        if model.as_mut().is_some_and(|m| m.call(call).is_err_and(|((n, _), _)| n == 9)) && !d.one_in(4) {
            break;
        }
    }
    input
}

/// A call near what the model allows: a start, a position or an end around the limits, or any.
fn call(model: &mut Model, params: [u64; 4], position: u64, d: &mut Draw) -> Call {
    let [whole, _, previous, _] = model.state();
    let started = model.call(Call { which: 4, place: 0, small: 0 }).is_ok();
    let which = if started || d.one_in(8) { [1, 2, 2, 2, 3, 3, 3, 3, 3, 4, 5, 5, 6][d.below(13)] } else { 1 };
    let mut small = d.below(PERIODS.len()) as u16;
    let place = match which {
        1 => {
            let full = 90_000 * u128::from(params[1].saturating_sub(position)) / u128::from(params[0]);
            small = match d.below(4) {
                0 => d.value(16) as u16,
                1 => full.min(0xFFFF) as u16,
                _ => (d.next() % (full.min(0xFFFF) as u64 + 1)) as u16,
            };
            position
        }
        2 => near(&[whole, whole.min(FAR), whole.saturating_sub(params[0] * 65_534 / 90_000), previous, position], d),
        3 => {
            let least = model.call(Call { which: 5, place: 0, small }).map_or(0, |v| v[0]);
            near(&[whole, whole.min(FAR), least, least.max(previous), previous, (least.max(previous) + whole) / 2], d)
        }
        _ => 0,
    };
    Call { which, place: if d.one_in(24) { d.value(64) } else { place }, small }
}

/// One of some places, or just beside it.
fn near(places: &[u64], d: &mut Draw) -> u64 {
    let place = places[d.below(places.len())];
    match d.below(4) {
        0 => place.saturating_add(1),
        1 => place.saturating_sub(1),
        _ => place,
    }
}
