//! Inputs for kinds 17, 18, 20 and 24: a record part's length and a stream, good, damaged, cut or at random. Those of kind 20 are
//! those of 21 to 23 too, those of kind 24 those of 25 to 27 and of 21.

use crate::answers::mode;
use crate::check::{lines, verify};
use crate::draw::Draw;
use crate::headers::damage;
use crate::layout::VBV_RECORD_BYTES;
use crate::spans::picture_codes;
use crate::streams::{self, Fault, Form};

/// The record part has room for that many records, and the input fits its bytes.
const MOST_PLACES: usize = 120;

/// One input of a kind.
pub fn drawn(kind: u8, d: &mut Draw) -> Vec<u8> {
    let mut stream = if d.one_in(16) { noise(d) } else { a_stream(form(kind, d), d) };
    if d.one_in(3) {
        for _ in 0..1 + d.below(3) {
            damage(&mut stream, d);
        }
    }
    let n = picture_codes(&stream);
    let places = match d.below(8) {
        0 => d.below(n + 1),
        1 => n + d.below(3),
        _ => n,
    };
    let more = if d.one_in(4) { d.below(VBV_RECORD_BYTES) } else { 0 };
    input(VBV_RECORD_BYTES * places + more, &stream)
}

/// One of few bytes, most of them no longer than the smallest buffer.
pub fn small(kind: u8, d: &mut Draw) -> Vec<u8> {
    loop {
        let input = drawn(kind, d);
        if input.len() <= if d.one_in(2) { 2_400 } else { 1_000 } {
            return input;
        }
    }
}

/// A stream with room for its records, and for three at least.
pub fn with_room(stream: &[u8]) -> Vec<u8> {
    input(VBV_RECORD_BYTES * picture_codes(stream).max(3), stream)
}

/// What the original answers, in words; in film mode and at a variable rate the lines of the answer, one after the other.
pub fn told(kind: u8, input: &[u8]) -> String {
    let mode = mode(kind);
    if mode.film || mode.variable {
        let answer = lines(mode, &input[2..]);
        let numbers = answer.lines().skip(1).filter(|line| !line.starts_with("delay"));
        return numbers.collect::<Vec<_>>().join("; ");
    }
    match verify(mode.standard, &input[2..]) {
        Err(refusal) => refusal.to_string(),
        Ok(r) => {
            let records = r
                .pictures
                .iter()
                .map(|p| format!("; {} {} {} {}", p.vbv_delay, p.expected_delay, p.data_bits, p.occupancy_before_bits));
            let least_greatest = (r.min_occupancy_after_bits, r.max_occupancy_before_bits);
            format!("{} {} {} {:?}", r.bit_rate, r.buffer_size_bits, r.pictures.len(), least_greatest)
                + &records.collect::<String>()
        }
    }
}

/// Some of kind 17 have MPEG-2's extensions, which an MPEG-1 check does not read: its fields are frames, and its rate is that of
/// the code alone. Most of these are made so that they pass it.
/// Of kind 20 most are made for film mode, the others for a plain check; of kind 24 most for a variable rate, half of them in film
/// mode.
fn form(kind: u8, d: &mut Draw) -> Form {
    match kind {
        20 => return Form { mpeg2: true, extensions: true, film: !d.one_in(16), variable: false },
        24 => return Form { mpeg2: true, extensions: true, film: d.one_in(2), variable: !d.one_in(16) },
        _ => {}
    }
    let extensions = kind == 18 || d.one_in(16);
    Form { mpeg2: kind == 18 || extensions && d.one_in(4), extensions, film: false, variable: false }
}

fn a_stream(form: Form, d: &mut Draw) -> Vec<u8> {
    let fault = streams::fault(form, d);
    streams::drawn(form, fault, d)
}

fn input(part: usize, stream: &[u8]) -> Vec<u8> {
    [&(part.min(VBV_RECORD_BYTES * MOST_PLACES) as u16).to_le_bytes()[..], stream].concat()
}

/// Bytes at random, many of them 00 or 01, and start codes.
fn noise(d: &mut Draw) -> Vec<u8> {
    let mut bytes = vec![];
    for _ in 0..d.below(60) {
        match d.below(6) {
            0 => bytes.push(d.byte()),
            1 => bytes.extend([0, 0, 1, [0, 1, 0xAF, 0xB0, 0xB2, 0xB3, 0xB5, 0xB7, 0xB8][d.below(9)]]),
            2 => bytes.push(1),
            _ => bytes.push(0),
        }
    }
    bytes
}

/// Around each boundary: some streams, each cut at every byte, with every bit flipped and every byte removed, doubled or
/// followed by a zero; and each with every number of record places.
pub fn edges(kind: u8, d: &mut Draw, put: &mut impl FnMut(&[u8])) {
    for i in 0..8 {
        let (variable, film) = (kind == 24, kind == 20 || kind == 24 && i % 2 == 1);
        let stream = short(Form { mpeg2: kind != 17, extensions: kind != 17, film, variable }, d);
        let n = picture_codes(&stream);
        for part in 0..VBV_RECORD_BYTES * (n + 1) {
            put(&input(part, &stream));
        }
        for i in 0..stream.len() {
            put(&input(VBV_RECORD_BYTES * n, &stream[..i]));
            for bit in 0..8 {
                let mut other = stream.clone();
                other[i] ^= 1 << bit;
                put(&input(VBV_RECORD_BYTES * (n + 1), &other));
            }
            let mut other = stream.clone();
            let byte = other.remove(i);
            put(&input(VBV_RECORD_BYTES * n, &other));
            other.splice(i..i, [byte, byte]);
            put(&input(VBV_RECORD_BYTES * n, &other));
            other[i + 1] = 0;
            put(&input(VBV_RECORD_BYTES * n, &other));
        }
    }
}

/// A valid stream of at most 150 bytes with at least two pictures.
fn short(form: Form, d: &mut Draw) -> Vec<u8> {
    loop {
        let stream = streams::drawn(form, Fault::None, d);
        if stream.len() <= 150 && 2 <= picture_codes(&stream) {
            return stream;
        }
    }
}
