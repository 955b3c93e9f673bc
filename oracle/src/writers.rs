//! Inputs for the kinds that take numbers: the writers with their output part, and the tables.

use crate::draw::Draw;

/// A number of an input: its bytes, the bits of its field, its least value, and whether a number that is not so is a case
/// too.
type Number = (usize, u32, u64, bool);

const FLAG: Number = (1, 1, 0, false);
const CHROMA: Number = (1, 2, 1, false);

fn numbers(kind: u8) -> &'static [Number] {
    match kind {
        8 => {
            &[(2, 12, 1, true), (2, 12, 1, true), (1, 4, 1, true), (1, 4, 1, true), (4, 18, 1, true), (2, 10, 0, true)]
        }
        9 => &[CHROMA, FLAG],
        10 => &[FLAG, (1, 5, 0, true), (1, 6, 0, true), (1, 6, 0, true), (1, 6, 0, true), FLAG, FLAG],
        11 => &[(8, 64, 0, true), (1, 4, 1, true)],
        12 => &[(1, 4, 1, true)],
        _ => &[CHROMA],
    }
}

/// How many bytes a writer writes.
fn needed(kind: u8, matrices: usize) -> usize {
    match kind {
        8 => 12 + 64 * (matrices as u32).count_ones() as usize,
        9 => 10,
        10 => 8,
        _ => 0,
    }
}

/// The input of the given values, matrices (kind 8) and length of the output part (kinds 8 to 10).
fn input(kind: u8, values: &[u64], matrices: usize, part: usize, d: &mut Draw) -> Vec<u8> {
    let mut out = vec![];
    for (&(bytes, ..), value) in numbers(kind).iter().zip(values) {
        out.extend_from_slice(&value.to_le_bytes()[..bytes]);
    }
    if kind == 8 {
        for bit in [1, 2] {
            out.push((matrices & bit != 0).into());
            out.extend(d.bytes(64));
        }
    }
    if (8..=10).contains(&kind) {
        out.extend(d.bytes(part));
    }
    out
}

/// A value that fits.
fn fit((_, bits, least, _): Number, d: &mut Draw) -> u64 {
    d.value(bits).max(least)
}

/// Any value of its bytes: 0, 1, around its field's limit, the greatest, or any.
fn any(number: Number, d: &mut Draw) -> u64 {
    let (bytes, bits, _, unfit) = number;
    match d.below(3) {
        _ if !unfit => fit(number, d),
        0 if bits < 64 => (1 << bits) - 1 + d.below(3) as u64,
        _ => d.value(8 * bytes as u32),
    }
}

/// One input of a kind.
pub fn drawn(kind: u8, d: &mut Draw) -> Vec<u8> {
    let mut values: Vec<u64> = numbers(kind).iter().map(|&n| fit(n, d)).collect();
    if d.one_in(2) {
        let i = d.below(values.len());
        values[i] = any(numbers(kind)[i], d);
    }
    let matrices = d.below(4);
    let part = match d.below(4) {
        0 => d.below(needed(kind, matrices) + 2),
        1 => needed(kind, matrices),
        _ => needed(kind, matrices) + d.below(8),
    };
    input(kind, &values, matrices, part, d)
}

/// Around each boundary: every value at 0, 1, around its field's limit and at the greatest, and every part around the
/// length needed, with each choice of matrices.
pub fn edges(kind: u8, d: &mut Draw, put: &mut impl FnMut(&[u8])) {
    for matrices in 0..if kind == 8 { 4 } else { 1 } {
        let good: Vec<u64> = numbers(kind).iter().map(|&n| fit(n, d)).collect();
        let n = needed(kind, matrices);
        for part in [0, 1, n - n.min(2), n - n.min(1), n, n + 1, n + 2, n + 50] {
            put(&input(kind, &good, matrices, part, d));
            for (i, &number) in numbers(kind).iter().enumerate() {
                for value in limits(number) {
                    let mut values = good.clone();
                    values[i] = value;
                    put(&input(kind, &values, matrices, part, d));
                }
            }
        }
    }
    if kind == 11 {
        time_codes(d, put);
    }
}

/// All values of a byte, or those around the limits.
fn limits((bytes, bits, least, unfit): Number) -> Vec<u64> {
    if !unfit {
        return (least..1 << bits).collect();
    }
    if bytes == 1 {
        return (0..256).collect();
    }
    let most = u64::MAX >> (64 - 8 * bytes);
    let limit = 1_u64.checked_shl(bits).unwrap_or(1 << 48);
    vec![0, 1, limit - 1, limit, limit + 1, most - 1, most]
}

/// Display indexes around whole seconds, minutes, hours and days at each rate.
fn time_codes(d: &mut Draw, put: &mut impl FnMut(&[u8])) {
    for code in 0..=255 {
        for rate in [24, 25, 30, 50, 60] {
            for unit in [rate, 60 * rate, 3600 * rate, 86400 * rate] {
                let whole = unit * (1 + d.below(1000) as u64);
                for index in [unit - 1, unit, unit + 1, whole - 1, whole, whole + 1] {
                    put(&input(11, &[index, code], 0, 0, d));
                }
            }
        }
    }
}
