//! What is searched, and from where.

use oracle::draw::Draw;
use original::vbv::oracle_scan_start_codes;

/// The bytes of the short strings, and of the dense inputs.
const DENSE: [u8; 4] = [0x00, 0x01, 0x02, 0xB3];
const LONGEST_SHORT: usize = 9;
/// How many places a drawn input is searched from.
const FROMS: usize = 4;

/// All strings of the four bytes, the empty one first.
pub fn short(put: &mut impl FnMut(&[u8])) {
    for n in 0..=LONGEST_SHORT {
        for number in 0..DENSE.len().pow(n as u32) {
            put(&spelled(number, n));
        }
    }
}

/// The string of n bytes whose places are the number's digits.
fn spelled(number: usize, n: usize) -> Vec<u8> {
    (0..n).map(|place| DENSE[number >> (2 * place) & 3]).collect()
}

/// Every place, the end, and one beyond.
pub fn everywhere(s: &[u8]) -> Vec<usize> {
    (0..=s.len() + 1).collect()
}

/// One input; a third of them end with a code, whole or cut.
pub fn drawn(d: &mut Draw) -> Vec<u8> {
    let n = length(d);
    let mut s = match d.below(8) {
        0 => (0..n).map(|_| DENSE[d.below(4)]).collect(),
        1 => d.bytes(n),
        2 => (0..n).map(|_| above_one(d)).collect(),
        3 => zero_runs(n, d),
        _ => planted(n, d),
    };
    if d.one_in(3) {
        s.extend(&[0, 0, 1, d.byte()][..1 + d.below(4)]);
    }
    s
}

fn length(d: &mut Draw) -> usize {
    match d.below(8) {
        0 => d.below(8),
        1..=3 => d.below(40),
        4..=5 => d.below(200),
        6 => d.below(1000),
        _ => d.below(5000),
    }
}

fn above_one(d: &mut Draw) -> u8 {
    (2 + d.below(254)) as u8
}

/// Zeros, and now and then 01 or another byte.
fn zero_runs(n: usize, d: &mut Draw) -> Vec<u8> {
    let apart = 2 + d.below(40);
    (0..n).map(|_| if d.one_in(apart) { [1, 1, d.byte()][d.below(3)] } else { 0 }).collect()
}

/// Codes, and what is nearly one, with bytes of one sort between.
fn planted(n: usize, d: &mut Draw) -> Vec<u8> {
    let sort = d.below(4);
    let mut s = vec![];
    while s.len() < n {
        let gap = distance(d).min(n - s.len());
        s.extend((0..gap).map(|_| between(sort, d)));
        s.extend(code_or_nearly(d));
    }
    s.truncate(n);
    s
}

/// A byte of the sort that stands between codes: above 01, any but 01, 00, or any.
fn between(sort: usize, d: &mut Draw) -> u8 {
    match (sort, d.byte()) {
        (0, _) => above_one(d),
        (1, 1) | (2, _) => 0,
        (_, byte) => byte,
    }
}

fn code_or_nearly(d: &mut Draw) -> Vec<u8> {
    let last = [0x00, 0x01, 0xB3, d.byte()][d.below(4)];
    match d.below(8) {
        0 => vec![0, 1, last],
        1 => vec![0, 0, 2, last],
        2 => vec![above_one(d), 0, 1, last],
        3 => vec![0, 0, 0, 1, last],
        _ => vec![0, 0, 1, last],
    }
}

/// How far on the next code is: near, anywhere, or around an edge of blocks of 16 and 64 bytes and of 1,024 quiet ones.
fn distance(d: &mut Draw) -> usize {
    let edge = match d.below(8) {
        0 => return d.below(8),
        1 => return d.below(200),
        2 => return d.below(2000),
        3..=4 => 16 * d.below(8),
        5 => 64 * d.below(4),
        6 => 1024 + 16 * d.below(8),
        _ => 1024 + 64 * d.below(16),
    };
    (edge + d.below(9)).saturating_sub(4)
}

/// Some places to search a drawn input from.
pub fn froms(s: &[u8], d: &mut Draw) -> Vec<usize> {
    let codes = oracle_scan_start_codes(s);
    (0..FROMS).map(|_| from(s.len(), &codes, d)).collect()
}

/// Anywhere, inside a code, before one, around the end, or any number.
fn from(n: usize, codes: &[(usize, u8)], d: &mut Draw) -> usize {
    let anywhere = d.below(n + 1);
    let code = if codes.is_empty() { anywhere } else { codes[d.below(codes.len())].0 };
    match d.below(6) {
        0 => anywhere,
        1 => code + d.below(4),
        2..=3 => code.saturating_sub(distance(d)),
        4 => (n + 3).saturating_sub(d.below(8)),
        _ => d.value(64) as usize,
    }
}
