//! Headers to parse, as lists of fields in stream order, and what can be wrong with them.

use crate::draw::Draw;
use oxideav_core::bits::BitWriter;

/// A field: its width in bits and its value.
pub type Field = (u32, u64);

pub fn pack(fields: &[Field]) -> Vec<u8> {
    let mut bw = BitWriter::new();
    for &(width, value) in fields {
        bw.write_u32(value as u32, width);
    }
    bw.finish()
}

/// The start code that a kind's input begins with.
pub fn start_code(kind: u8) -> [u8; 4] {
    match kind {
        1 | 3 => [0, 0, 1, 0xB3],
        2 | 5 => [0, 0, 1, 0xB5],
        _ => [0, 0, 1, 0],
    }
}

/// What a good input is made of: which matrices, which picture type, how many bytes of extra information, and how many
/// zero bytes between the header and the 01 of the extension's start code.
#[derive(Clone, Copy)]
pub struct Shape {
    pub matrices: usize,
    pub picture_type: u64,
    pub extra: usize,
    pub zeros: usize,
}

/// An input that the original accepts, but for D pictures in kind 6 and for zeros that are missing before the 01.
pub fn good(kind: u8, shape: Shape, d: &mut Draw) -> Vec<Field> {
    let mut fields = match kind {
        1 | 3 => sequence_header(shape.matrices, d),
        2 => sequence_extension(d),
        5 => picture_coding_extension(d),
        _ => picture_header(shape.picture_type, shape.extra, d),
    };
    if kind == 3 || kind == 6 {
        fields.extend(vec![(8, 0); shape.zeros]);
        fields.push((16, 0x1B5));
        fields.extend(&if kind == 3 { sequence_extension(d) } else { picture_coding_extension(d) }[1..]);
    }
    fields
}

pub fn sequence_header(matrices: usize, d: &mut Draw) -> Vec<Field> {
    let mut f = vec![(32, 0x1B3), (12, d.nonzero(12)), (12, d.nonzero(12)), (4, d.nonzero(4)), (4, d.nonzero(4))];
    f.extend([(18, d.nonzero(18)), (1, 1), (10, d.value(10)), (1, d.value(1))]);
    for bit in [1, 2] {
        let load = matrices & bit != 0;
        f.push((1, load.into()));
        if load {
            let zeros = d.below(4);
            f.extend((0..64).map(|i| (8, if 64 <= i + zeros { 0 } else { d.value(8) })));
        }
    }
    f
}

pub fn sequence_extension(d: &mut Draw) -> Vec<Field> {
    let mut f = vec![
        (32, 0x1B5),
        (4, 1),
        (8, d.value(8)),
        (1, d.value(1)),
        (2, d.nonzero(2)),
        (2, d.value(2)),
        (2, d.value(2)),
    ];
    f.extend([(12, d.value(12)), (1, 1), (8, d.value(8)), (1, d.value(1)), (2, d.value(2)), (5, d.value(5))]);
    f
}

/// The last field fills up the last byte; the original does not look at it.
pub fn picture_header(picture_type: u64, extra: usize, d: &mut Draw) -> Vec<Field> {
    let delay = if d.one_in(4) { d.value(16) & !0x1FFF } else { d.value(16) };
    let mut f = vec![(32, 0x100), (10, d.value(10)), (3, picture_type), (16, delay)];
    let hints = match picture_type {
        2 => 1,
        3 => 2,
        _ => 0,
    };
    for _ in 0..hints {
        f.extend([(1, d.value(1)), (3, d.value(3))]);
    }
    for _ in 0..extra {
        f.extend([(1, 1), (8, d.value(8))]);
    }
    f.push((1, 0));
    let bits: u32 = f.iter().map(|&(width, _)| width).sum();
    let rest = bits.next_multiple_of(8) - bits;
    if rest != 0 {
        let fill = if d.one_in(2) { 0 } else { d.value(rest) };
        f.push((rest, fill));
    }
    f
}

pub fn picture_coding_extension(d: &mut Draw) -> Vec<Field> {
    let mut f = vec![(32, 0x1B5), (4, 8)];
    f.extend((0..4).map(|_| (4, d.nonzero(4))));
    f.extend([(2, d.value(2)), (2, d.nonzero(2))]);
    f.extend((0..10).map(|_| (1, d.value(1))));
    f
}

/// Bytes in which no start code can be.
pub fn filler(n: usize, d: &mut Draw) -> Vec<u8> {
    (0..n).map(|_| 2 + d.below(254) as u8).collect()
}

pub fn group(d: &mut Draw) -> Vec<u8> {
    [&[0, 0, 1, 0xB8][..], &filler(4, d)].concat()
}

pub fn user_data(n: usize, d: &mut Draw) -> Vec<u8> {
    [&[0, 0, 1, 0xB2][..], &filler(n, d)].concat()
}

/// A shape to draw from.
fn shape(d: &mut Draw) -> Shape {
    let extra = match d.below(4) {
        0 => d.below(20),
        1 if d.one_in(16) => d.below(1000),
        _ => 0,
    };
    Shape { matrices: d.below(4), picture_type: 1 + d.below(3) as u64, extra, zeros: d.below(8) }
}

/// One input of a kind: good, or damaged in one of several ways.
pub fn drawn(kind: u8, d: &mut Draw) -> Vec<u8> {
    let mut shape = shape(d);
    if d.one_in(8) {
        shape.picture_type = d.below(8) as u64;
    }
    let mut fields = good(kind, shape, d);
    let mut length = usize::MAX;
    if d.one_in(3) {
        let i = a_field(fields.len(), d);
        let width = fields[i].0;
        fields[i].1 = if d.one_in(2) { 0 } else { d.value(width) };
        if d.one_in(4) {
            length = whole_bytes(&fields[..i]) + d.below(4);
        }
    }
    let mut bytes = pack(&fields);
    bytes.truncate(length);
    if d.one_in(2) && length == usize::MAX {
        let n = d.below(8);
        bytes.extend(d.bytes(n));
    }
    for _ in 0..1 + d.below(2) {
        damage(&mut bytes, d);
    }
    if d.one_in(16) {
        let n = d.below(bytes.len() + 1);
        bytes = d.bytes(n);
        let code = start_code(kind);
        let known = d.below(5).min(n);
        bytes[..known].copy_from_slice(&code[..known]);
    }
    bytes
}

/// A field to change: one of the first, one of the last, or any but the start code.
fn a_field(count: usize, d: &mut Draw) -> usize {
    let some = 14.min(count - 1);
    match d.below(3) {
        0 => 1 + d.below(some),
        1 => count - 1 - d.below(some),
        _ => 1 + d.below(count - 1),
    }
}

/// Cuts, changes, inserts or removes something, or nothing.
pub fn damage(bytes: &mut Vec<u8>, d: &mut Draw) {
    let n = bytes.len();
    if n == 0 {
        return;
    }
    match d.below(10) {
        0 | 1 => bytes.truncate(d.below(n)),
        2 => bytes[d.below(n)] ^= 1 << d.below(8),
        3 => bytes[d.below(n)] = d.byte(),
        4 => bytes.insert(d.below(n + 1), d.byte()),
        5 => {
            bytes.remove(d.below(n));
        }
        6 => another_code(bytes, d),
        _ => {}
    }
}

/// Puts another code after the last start code prefix, unless that is the first.
fn another_code(bytes: &mut [u8], d: &mut Draw) {
    let at = bytes.windows(3).rposition(|w| w == [0, 0, 1]).unwrap_or(0);
    if 0 < at && at + 3 < bytes.len() {
        bytes[at + 3] = if d.one_in(2) { d.byte() } else { 0xB2 + d.below(7) as u8 };
    }
}

/// All inputs of at most two bytes, alone and after the start code.
pub fn short(kind: u8, put: &mut impl FnMut(&[u8])) {
    for front in [&[][..], &start_code(kind)[..]] {
        put(front);
        for a in 0..=255 {
            put(&[front, &[a]].concat());
            for b in 0..=255 {
                put(&[front, &[a, b]].concat());
            }
        }
    }
}

/// Around each boundary: good inputs of every shape, each cut at every byte, with every field at 0, 1, its limit and
/// another value, every bit flipped, every byte removed or doubled.
pub fn edges(kind: u8, d: &mut Draw, put: &mut impl FnMut(&[u8])) {
    for shape in shapes(kind) {
        let fields = good(kind, shape, d);
        let bytes = pack(&fields);
        for n in 0..=bytes.len() {
            put(&bytes[..n]);
        }
        for (i, &(width, _)) in fields.iter().enumerate() {
            for value in [0, 1, u64::MAX >> (64 - width), d.value(width)] {
                let mut other = fields.clone();
                other[i].1 = value;
                put(&pack(&other));
                if value == 0 {
                    each_cut_from(&pack(&other), &fields[..i], put);
                }
            }
        }
        for i in 0..8 * bytes.len() {
            let mut other = bytes.clone();
            other[i / 8] ^= 0x80 >> (i % 8);
            put(&other);
        }
        for i in 0..bytes.len() {
            let mut other = bytes.clone();
            let byte = other.remove(i);
            put(&other);
            other.splice(i..i, [byte, byte]);
            put(&other);
        }
    }
}

/// A copy with a zero field, cut at each of the four bytes after the fields before it: which refusal comes first?
fn each_cut_from(bytes: &[u8], before: &[Field], put: &mut impl FnMut(&[u8])) {
    let at = whole_bytes(before);
    for n in at..(at + 4).min(bytes.len()) {
        put(&bytes[..n]);
    }
}

fn whole_bytes(fields: &[Field]) -> usize {
    fields.iter().map(|&(width, _)| width as usize).sum::<usize>() / 8
}

fn shapes(kind: u8) -> Vec<Shape> {
    let plain = Shape { matrices: 0, picture_type: 1, extra: 0, zeros: 0 };
    let mut all = vec![];
    match kind {
        1 => all.extend((0..4).map(|matrices| Shape { matrices, ..plain })),
        3 => {
            for matrices in 0..4 {
                all.extend((0..8).map(|zeros| Shape { matrices, zeros, ..plain }));
            }
        }
        4 | 6 | 7 => {
            for picture_type in 1..5 {
                for extra in [0, 1, 2, 3, 7, 8, 9, 40] {
                    let zeros = if kind == 6 { 8 } else { 1 };
                    all.extend((0..zeros).map(|zeros| Shape { picture_type, extra, zeros, ..plain }));
                }
            }
        }
        _ => all.push(plain),
    }
    all
}
