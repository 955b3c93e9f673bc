//! The buffers that both are timed on.

use crate::Streams;
use oracle::model::{BUFFER_UNIT, RATE_UNIT};
use oracle::spans::spans;
use original::picture_header::{Mpeg2PictureHeader, PictureStructure};
use original::sequence_header::Mpeg2SequenceHeader;
use original::vbv::VbvStandard::{Mpeg1, Mpeg2};
use original::vbv::{
    RemovalInterval, VbvCbrModel, VbvParams, VbvStandard, frame_rate_value, oracle_scan_start_codes, patch_vbv_delay,
};

struct Picture {
    at: usize,
    end: usize,
    interval: RemovalInterval,
}

/// The pictures of a stream that begins with its sequence header.
fn pictures(standard: VbvStandard, stream: &[u8]) -> Vec<Picture> {
    let codes = oracle_scan_start_codes(stream);
    let mut found = vec![];
    for (picture, after) in spans(&codes) {
        let (at, end) = (codes[picture].0, codes.get(after).map_or(stream.len(), |&(offset, _)| offset));
        found.push(Picture { at, end, interval: interval(standard, &stream[at..]) });
    }
    found
}

fn interval(standard: VbvStandard, picture: &[u8]) -> RemovalInterval {
    let frame = standard == VbvStandard::Mpeg1
        || Mpeg2PictureHeader::parse_with_extension(picture).unwrap().1.picture_structure == PictureStructure::Frame;
    if frame { RemovalInterval::Frame } else { RemovalInterval::Field }
}

/// Gives every picture the delay that the original's model expects, from the first one's on.
fn stamp(standard: VbvStandard, stream: &mut [u8], first: u16) {
    let header = Mpeg2SequenceHeader::parse(stream).unwrap();
    let frame_rate = frame_rate_value(header.frame_rate_code).unwrap();
    let rate = RATE_UNIT * u64::from(header.bit_rate);
    let buffer = BUFFER_UNIT * u64::from(header.vbv_buffer_size);
    let mut model = VbvCbrModel::new(&VbvParams::new(rate, buffer, frame_rate)).unwrap();
    for (n, p) in pictures(standard, stream).iter().enumerate() {
        let position = 8 * (p.at as u64 + 4);
        if n == 0 {
            model.start(first, position);
        }
        let delay = model.delay_for_picture(position).unwrap();
        patch_vbv_delay(&mut stream[p.at..], delay).unwrap();
        model.remove_picture(8 * p.end as u64, p.interval, frame_rate.1).unwrap();
    }
}

/// A stream of 25 frames a second, over and over up to `size` bytes, and accepted: the rate that it declares is the least
/// that carries it, each round is padded to that rate, and the delays are the expected ones. It begins with the buffer three
/// quarters full; any delay would do that lets nothing overflow or starve.
fn repeated(standard: VbvStandard, stream: &[u8], size: usize) -> Vec<u8> {
    let fields: usize =
        pictures(standard, stream).iter().map(|p| if p.interval == RemovalInterval::Frame { 2 } else { 1 }).sum();
    let rate = stream.len().div_ceil(fields); // in 400 bits a second, which is one byte a field period
    let mut round = stream.to_vec();
    round.resize(rate * fields, 0);
    let mut long = round.repeat((size / round.len()).max(1));
    long[8] = (rate >> 10) as u8;
    long[9] = (rate >> 2) as u8;
    long[10] = (rate << 6) as u8 | (long[10] & 0x3F);
    let header = Mpeg2SequenceHeader::parse(&long).unwrap();
    let full = 90_000 * BUFFER_UNIT * u64::from(header.vbv_buffer_size) / (RATE_UNIT * rate as u64);
    stamp(standard, &mut long, (full * 3 / 4) as u16);
    long
}

/// Fields of 23 or 24 bytes at 60 frames a second, the least that the least rate (22,800) carries; accepted.
fn tiny(size: usize) -> Vec<u8> {
    let mut stream = vec![0, 0, 1, 0xB3, 1, 0, 0x10, 0x18, 0, 0x0E, 0x60, 8];
    stream.extend([0, 0, 1, 0xB5, 0x14, 0x82, 0, 1, 0, 0]);
    let mut n = 0;
    while stream.len() < size {
        let structure = 0xF1 + n % 2;
        stream
            .extend([0, 0, 1, 0, 0, 8, 0, 0, 0, 0, 1, 0xB5, 0x8F, 0xFF, structure, 0x41, 0x80, 0, 0, 1, 1, 0x12, 0x34]);
        if n % 4 != 3 {
            stream.push(0);
        }
        n = (n + 1) % 4;
    }
    stamp(VbvStandard::Mpeg2, &mut stream, 40_000);
    stream
}

/// The data of a stream's slices, one after another.
pub fn slice_data(from: &[u8]) -> Vec<u8> {
    let codes = oracle_scan_start_codes(from);
    let slices = codes.windows(2).filter(|w| (0x01..=0xAF).contains(&w[0].1));
    slices.flat_map(|w| from[w[0].0 + 4..w[1].0].iter().copied()).collect()
}

/// Bytes of a broadcast's frame: 3.6 Mbit/s at 25 frames a second.
const FRAME: usize = 18_162;

/// A stream of frames of a broadcast, each made of its slices; accepted.
fn frames(size: usize, mut slices: impl FnMut(&mut Vec<u8>)) -> Vec<u8> {
    let rate = FRAME as u32 / 2; // in 400 bits a second, which is two bytes a frame
    let mut stream = Vec::with_capacity(size + FRAME);
    stream.extend([0, 0, 1, 0xB3, 0x2D, 2, 0x40, 0x13]);
    stream.extend((rate << 14 | 1 << 13 | 112 << 3).to_be_bytes());
    stream.extend([0, 0, 1, 0xB5, 0x14, 0x82, 0, 1, 0, 0]);
    while stream.len() < size {
        let end = stream.len() + FRAME;
        stream.extend([0, 0, 1, 0, 0, 8, 0, 0, 0, 0, 1, 0xB5, 0x8F, 0xFF, 0xF3, 0x41, 0x80]);
        slices(&mut stream);
        stream.push(0);
        assert_eq!(stream.len(), end);
    }
    stamp(VbvStandard::Mpeg2, &mut stream, 30_000);
    stream
}

fn slice(stream: &mut Vec<u8>, row: usize, data: &[u8]) {
    stream.extend([0, 0, 1, row.min(36) as u8]);
    stream.extend(data);
    stream.push(0x80);
}

/// Pictures as a broadcast at 3.6 Mbit/s has them: some 36 slices of 40 to some 1,500 bytes, drawn, 505 on average. Their data
/// are taken from anywhere in those of a small stream's slices.
fn broadcast(from: &[u8], size: usize) -> Vec<u8> {
    let data = slice_data(from);
    let mut draw = Xorshift::new();
    frames(size, |stream| {
        let (mut row, mut left) = (0, FRAME - 18);
        while left != 0 {
            row += 1;
            let drawn = 40 + 1_430 * draw.below(1 << 16).pow(2) / (1 << 32); // short ones are more
            let length = if left < drawn + 40 { left } else { drawn };
            let at = draw.below(data.len() - length);
            slice(stream, row, &data[at..at + length - 5]);
            left -= length;
        }
    })
}

/// The same with 36 slices of 504 bytes, whose data go on from one to the next.
fn equal_slices(from: &[u8], size: usize) -> Vec<u8> {
    let data = slice_data(from);
    let mut data = data.chunks_exact(499).cycle();
    frames(size, |stream| (1..=36).for_each(|row| slice(stream, row, data.next().unwrap())))
}

/// Random bytes.
fn random(size: usize) -> Vec<u8> {
    let mut draw = Xorshift::new();
    (0..size / 8).flat_map(|_| draw.next().to_le_bytes()).collect()
}

pub struct Xorshift(u64);

impl Xorshift {
    pub fn new() -> Self {
        Self(0x9E37_79B9_7F4A_7C15)
    }

    fn next(&mut self) -> u64 {
        self.0 ^= self.0 << 13;
        self.0 ^= self.0 >> 7;
        self.0 ^= self.0 << 17;
        self.0
    }

    pub fn below(&mut self, n: usize) -> usize {
        (self.next() % n as u64) as usize
    }
}

pub const MB: usize = 1_000_000;

/// A stream's name, its sizes in MB, its standard, and how it is made of some bytes.
type Case = (&'static str, &'static [usize], VbvStandard, fn(&Streams, usize) -> Vec<u8>);

pub const CASES: [Case; 8] = [
    ("mpeg2-25.m2v, repeated", &[1, 16, 64, 256, 1000], Mpeg2, |s, n| repeated(Mpeg2, &s.two, n)),
    ("broadcast", &[1, 16, 64, 256, 1000], Mpeg2, |s, n| broadcast(&s.two, n)),
    ("broadcast, equal slices", &[64], Mpeg2, |s, n| equal_slices(&s.two, n)),
    ("mpeg1-25.m1v, repeated", &[64], Mpeg1, |s, n| repeated(Mpeg1, &s.one, n)),
    ("fields.m2v, repeated", &[64], Mpeg2, |s, n| repeated(Mpeg2, &s.fields, n)),
    ("mpeg2-25.m2v, repeated as it is", &[64], Mpeg2, |s, n| s.two.repeat(n / s.two.len())),
    ("tiny fields", &[1, 16, 64], Mpeg2, |_, n| tiny(n)),
    ("random bytes", &[1, 64, 256], Mpeg2, |_, n| random(n)),
];
