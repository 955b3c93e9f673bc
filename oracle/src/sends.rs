//! Inputs for kind 19: lists of calls, drawn call by call with the model at hand, so that sizes lie around the limits.

use crate::draw::Draw;
use crate::headers::{self, Field, damage, filler, pack, user_data};
use crate::lists::{ALL_25, COUNT, add_check, add_offer, add_state, add_withdrawal, answer, config};
use crate::mode::{FILM, FILM_VARIABLE, MPEG1, MPEG1_FILM, MPEG1_FILM_VARIABLE, MPEG1_VARIABLE, Mode, PLAIN, VARIABLE};
use crate::model::{BUFFER_UNIT, FAR, RATE_UNIT};
use crate::streams::{frame_rate, least_rate};
use crate::writer::{Config, FIELD, FRAME, Offer, Told, Writer};

/// Bytes that a layer, a part, and a list with its answer have at most; what it hands out is checked three times, and so is in it so
/// often.
const MOST_LAYER: u64 = 6_000;
const MOST_PART: u64 = 9_000;
const MOST_LIST: usize = 60_000;

/// A code, n and d: of the table, of 25/1, near the table's, or any.
fn a_rate(d: &mut Draw) -> [u64; 3] {
    let code = 1 + d.below(8) as u64;
    match d.below(8) {
        0..=2 => [code, 0, 0],
        3 => ALL_25[d.below(8)],
        4..=6 => [code, d.below(4) as u64, d.below(8) as u64],
        _ => [code, d.value(2), d.value(5)],
    }
}

fn a_config(d: &mut Draw) -> Config {
    let buffer = [1, 1, 1, 2, 3, d.nonzero(10)][d.below(6)];
    let more = [0, d.below(8), d.below(100), d.below(100), d.below(600), d.below(600), d.below(3000), d.below(1 << 18)];
    let [rate_code, n, of_d] = a_rate(d);
    let mode = [FILM, PLAIN, FILM, PLAIN, FILM_VARIABLE, VARIABLE][d.below(6)];
    let mut least = least_rate(buffer);
    if mode.variable && !d.one_in(3) {
        least = [1, 1 + d.next() % least, least / 2][d.below(3)].max(1);
    }
    let mut c = Config {
        mode: mode.number(),
        rate: (least + more[d.below(8)] as u64).min(262_143),
        buffer,
        rate_code,
        n,
        d: of_d,
        q: [1, 31, 1 + d.below(31) as u64, 24 + d.below(8) as u64][d.below(4)],
        between: [0, 1, 2, d.below(16) as u64][d.below(4)],
        anchors: [1, 4, 1 + d.below(255) as u64][d.below(3)],
    };
    if d.one_in(24) {
        // Interval and buffer alike, or nearly so.
        let (frn, frd) = frame_rate(rate_code, n, of_d);
        c.buffer = 1;
        let least = if mode.variable { 1 } else { least_rate(1) };
        c.rate = (BUFFER_UNIT * frn / (RATE_UNIT * frd) + d.below(2) as u64).max(least);
    }
    let faults = if d.one_in(12) { 1 + d.below(2) } else { 0 };
    for _ in 0..faults {
        let byte = u64::from(d.byte());
        match d.below(11) {
            10 => c.mode = [MPEG1, MPEG1_FILM, MPEG1_VARIABLE, MPEG1_FILM_VARIABLE][d.below(4)].number(),
            0 => c.rate = [0, 262_144, d.next() % (1 << 32)][d.below(3)],
            1 => c.buffer = [0, 1024, d.next() % (1 << 16)][d.below(3)],
            2 | 3 => c.rate_code = [0, 9, byte][d.below(3)],
            4 => c.q = [0, 32, byte][d.below(3)],
            5 => (c.between, c.anchors) = [(16, 1), (0, 0), (byte, d.below(256) as u64)][d.below(3)],
            6 | 7 => c.n = [4, 5, byte][d.below(3)],
            8 => c.d = [32, 33, byte][d.below(3)],
            _ => c.rate = least_rate(c.buffer).saturating_sub(1 + d.below(3) as u64),
        }
    }
    c
}

/// All codes, n and d whose rate is so.
fn rates(so: impl Fn((u64, u64)) -> bool) -> Vec<[u64; 3]> {
    let all = (0..8 * 4 * 32).map(|i| [1 + i / 128, i / 32 % 4, i % 32]);
    all.filter(|&[code, n, d]| so(frame_rate(code, n, d))).collect()
}

/// Code, n and d of a header: of a rate of the writer's value, mostly; else near it.
fn shown(c: &Config, d: &mut Draw) -> [u64; 3] {
    let own = [c.rate_code, c.n, c.d];
    let (frn, frd) = frame_rate(c.rate_code, c.n, c.d);
    let some = match d.below(48) {
        0..=19 => return own,
        20 => return [9 + d.below(7) as u64, c.n, c.d],
        21 => return [c.rate_code, c.d % 4, c.n],
        22 => return [c.rate_code, 0, 0],
        23 => return [1 + d.below(8) as u64, d.value(2), d.value(5)],
        24 => rates(|rate| rate.0 == frn && rate.1 != frd),
        25 => rates(|rate| rate.0 != frn && rate.1 == frd),
        _ => rates(|rate| rate.0 * frd == frn * rate.1),
    };
    if some.is_empty() { own } else { some[d.below(some.len())] }
}

fn sequence(c: &Config, d: &mut Draw) -> Vec<u8> {
    let matrices = if d.one_in(16) { d.below(4) } else { 0 };
    let mut header = headers::sequence_header(matrices, d);
    let mut extension = headers::sequence_extension(d);
    [header[4].1, extension[11].1, extension[12].1] = shown(c, d);
    (header[5].1, header[7].1, extension[7].1, extension[9].1) = (c.rate, c.buffer, 0, 0);
    if d.one_in(24) {
        let i = [7, 9, 11, 12][d.below(4)];
        extension[i].1 = d.value(extension[i].0);
    }
    if d.one_in(24) {
        let i = [4, 5, 7][d.below(3)];
        header[i].1 = d.nonzero(header[i].0);
    }
    [pack(&header), pack(&extension)].concat()
}

fn some_headers(w: &Writer, c: &Config, d: &mut Draw) -> Vec<u8> {
    let mut h = vec![];
    if w.placed == 0 && !d.one_in(40) || d.one_in(60) {
        h.extend(sequence(c, d));
    }
    if d.one_in(3) {
        h.extend(headers::group(d));
    }
    if d.one_in(6) {
        let n = d.below(12);
        h.extend(user_data(n, d));
    }
    if d.one_in(12) {
        // Up to the bits delivered or the buffer's free quarter.
        let most = if w.placed == 0 { 512 * c.buffer } else { w.room(h.len()) };
        let n = most.saturating_sub(h.len() as u64).min(MOST_LAYER) as usize + d.below(12);
        h.extend(user_data(n.saturating_sub(9), d));
    }
    if d.one_in(16) {
        h.extend(vec![0; d.below(4)]);
    }
    if d.one_in(24) {
        damage(&mut h, d);
    }
    if d.one_in(48) {
        h.pop();
    }
    if d.one_in(48) {
        h.extend([[0, 0, 1].to_vec(), vec![0, 0, 1, d.byte()], vec![0, 0, 1, 0xB7]][d.below(3)].clone());
    }
    h
}

/// What a layer shows.
#[derive(Clone, Copy)]
struct Shown {
    kind: usize,
    field: bool,
    /// Any repeat_first_field.
    film: bool,
}

/// A picture header and its extension as fields, perhaps with something in them that does not fit.
fn front(Shown { kind, field, film }: Shown, d: &mut Draw) -> (Vec<Field>, Vec<Field>) {
    let extra = if d.one_in(16) { d.below(10) } else { 0 };
    let mut header = headers::picture_header(kind as u64 + 1, extra, d);
    for i in 0..kind {
        (header[4 + 2 * i].1, header[5 + 2 * i].1) = (0, 7);
    }
    let last = header.len() - 1;
    if 61 + 4 * kind + 9 * extra + 1 < header.iter().map(|f| f.0 as usize).sum() {
        header[last].1 = 0;
    }
    let mut extension = headers::picture_coding_extension(d);
    extension[7].1 = if field { 1 + d.below(2) as u64 } else { 3 };
    extension[14].1 = (film && d.one_in(2)).into();
    if d.one_in(16) {
        match d.below(3) {
            0 => {
                let i = 2 + d.below(header.len() - 2);
                header[i].1 = d.value(header[i].0);
            }
            1 => extension[14].1 = 1,
            _ => {
                let i = 1 + d.below(extension.len() - 1);
                extension[i].1 = d.value(extension[i].0);
            }
        }
    }
    (header, extension)
}

/// A layer of a length, or of the least that is possible.
fn a_layer(shown: Shown, length: u64, d: &mut Draw) -> Vec<u8> {
    let (header, extension) = front(shown, d);
    let mut l = pack(&header);
    if d.one_in(16) {
        l.extend(vec![0; d.below(4)]);
    }
    let skip = if d.one_in(24) { l.iter().rev().take(2).take_while(|&&b| b == 0).count() } else { 0 };
    l.extend(&pack(&extension)[skip..]);
    if d.one_in(12) {
        let n = d.below(6);
        l.extend(user_data(n, d));
    }
    if d.one_in(24) {
        l.extend([0, 0, 1, 0xB5, 0x32, 0x55]);
    }
    let skip = if d.one_in(8) { l.iter().rev().take(2).take_while(|&&b| b == 0).count() } else { 0 };
    l.extend(&[0, 0, 1, 1 + d.below(0xAF) as u8][skip..]);
    let length = length.min(MOST_LAYER) as usize;
    if 12 < length.saturating_sub(l.len()) && d.one_in(3) {
        l.extend(filler(3, d));
        l.extend([0, 0, 1, 1 + d.below(0xAF) as u8]);
    }
    let rest = length.saturating_sub(l.len());
    let zeros = if d.one_in(6) { d.below(rest + 1) } else { 0 };
    l.extend(filler(rest - zeros, d));
    l.extend(vec![0; zeros]);
    if d.one_in(40) {
        damage(&mut l, d);
    }
    if d.one_in(24) {
        let rest = l.split_off(l.len().min(30));
        damage(&mut l, d);
        l.extend(rest);
    }
    if d.one_in(64) {
        l.extend([vec![0, 0, 1], vec![0, 0, 1, d.byte(), 5], vec![0, 0, 1, 0xB5, 0x80]][d.below(3)].clone());
    }
    l
}

/// A layer's length: small, around the greatest, around the bounds of the quantiser's steps, or beyond; after a state set by
/// hand also around 2^48.
fn length(w: &Writer, o: &Offer, d: &mut Draw) -> u64 {
    let tail = if o.last { 4 } else { 0 };
    let most = w.room(o.headers.len()).saturating_sub(o.headers.len() as u64 + tail);
    let target = w.targets[o.kind] / 8;
    let near = |n: u64, d: &mut Draw| (n + d.below(4) as u64).saturating_sub(2);
    let end = w.end as u64;
    let before = FAR / 2 < end && end <= FAR;
    match d.below(12) {
        _ if before && d.one_in(2) => {
            let left = (FAR - end) / 8;
            near(left.saturating_sub(o.headers.len() as u64 + tail), d)
        }
        0 | 1 => 0,
        2 | 3 => near(most, d),
        4 => near(target * 6 / 5, d),
        5 => near(target * 7 / 10, d),
        6 => most + 1 + d.below(40) as u64,
        7 => d.next() % (target + target / 2 + 1),
        _ => d.next() % (most + most / 8 + 1),
    }
}

fn an_offer(w: &Writer, c: &Config, before: Option<&Offer>, close: bool, d: &mut Draw) -> Offer {
    let pending = w.pending.map(|p| p.0);
    let kind = match pending {
        Some(kind) if !d.one_in(24) => kind,
        _ if w.placed == 0 && d.one_in(2) => 0,
        _ => d.below(3),
    };
    let mut o = match before {
        Some(o) if pending.is_some() && !d.one_in(12) => Offer { kind, layer: vec![], ..o.clone() },
        _ => Offer {
            headers: some_headers(w, c, d),
            kind,
            interval: an_interval(w.film, d),
            last: close || d.one_in(16),
            layer: vec![],
        },
    };
    let n = if pending.is_some() && d.one_in(2) { w.room(o.headers.len()) + 1 } else { length(w, &o, d) };
    let kind = if d.one_in(64) { d.below(3) } else { o.kind };
    o.layer = a_layer(Shown { kind, field: (o.interval == FIELD) != d.one_in(64), film: w.film }, n, d);
    o
}

/// Frame or field, now and then another, which no offer may have.
fn an_interval(film: bool, d: &mut Draw) -> u8 {
    if d.one_in(96) {
        return 2 + d.below(3) as u8;
    }
    if d.one_in(if film { 2 } else { 4 }) { FIELD } else { FRAME }
}

/// The length of an output part, mostly enough.
fn a_part(w: &Writer, o: &Offer, d: &mut Draw) -> usize {
    let mut room = vec![0; MOST_PART as usize];
    let needed = match w.clone().offer(o, &mut room) {
        Told::Placed { bytes, .. } => bytes as usize,
        _ => return d.below(24),
    };
    match d.below(16) {
        0 => needed - 1,
        1 => d.below(needed),
        2..=8 => needed,
        _ => needed + d.below(16),
    }
}

/// An end, and bits delivered in the buffer's range after it, near 2^48; of a variable rate now and then more than that.
fn a_far_state(w: &Writer, c: &Config, d: &mut Draw) -> (u64, u64) {
    let end = FAR - 8 * [d.below(40), d.below(400), d.below(4000)][d.below(3)] as u64;
    let most = BUFFER_UNIT * c.buffer;
    if w.variable && d.one_in(3) {
        return (end, end + most + [1, 1 + d.next() % 64, d.next() % (1 << 33)][d.below(3)]);
    }
    (end, end + [most, d.next() % (most + 1), most - d.next() % (most.min(64) + 1)][d.below(3)])
}

/// The modes in which what a writer handed out is checked: of its rate, film and plain, and of the other.
fn modes(w: &Writer, d: &mut Draw) -> [Mode; 3] {
    let own = Mode { variable: w.variable, ..PLAIN };
    [Mode { film: true, ..own }, own, Mode { film: d.one_in(2), variable: !w.variable, ..own }]
}

/// One list.
pub fn drawn(d: &mut Draw) -> Vec<u8> {
    let c = a_config(d);
    let mut input = config(&c);
    let Ok(mut w) = Writer::create(c) else { return input };
    let calls = if d.one_in(8) { d.below(30) } else { d.below(10) };
    let far = d.one_in(if w.variable { 20 } else { 40 });
    let mut before = None;
    let mut size = 0;
    let (mut handed_out, mut pictures, mut whole) = (vec![], 0, true);
    for n in 0..calls {
        if w.finished && !d.one_in(3) {
            break;
        }
        if far && d.one_in(3) {
            let (end, delivered) = a_far_state(&w, &c, d);
            w.set(end, delivered);
            add_state(&mut input, end, delivered);
            whole = false;
            size += 120;
            continue;
        }
        if d.one_in(24) || w.pending.is_some() && d.one_in(16) || !w.in_range() && d.one_in(4) {
            w.withdraw();
            add_withdrawal(&mut input);
            size += 100;
            continue;
        }
        let o = an_offer(&w, &c, before.as_ref(), n + 2 >= calls, d);
        let part = a_part(&w, &o, d);
        size += o.headers.len() + o.layer.len() + part + 200;
        if MOST_LIST < size + 3 * (handed_out.len() + part) {
            break;
        }
        let mut out = vec![0; part];
        if let Told::Placed { bytes, .. } = w.offer(&o, &mut out) {
            handed_out.extend(&out[..bytes as usize]);
            pictures += 1;
        }
        add_offer(&mut input, &o, part);
        before = Some(o);
    }
    if whole && 0 < pictures {
        for mode in modes(&w, d) {
            add_check(&mut input, mode, &handed_out, pictures);
        }
    }
    input
}

/// One list that has at most 6,000 bytes with its answer, now and then twice as many, for a picture to come to the end of the smallest
/// buffer; more often than not of at least four calls.
pub fn small(d: &mut Draw) -> Vec<u8> {
    loop {
        let input = drawn(d);
        let few = input[COUNT] < 4 && !d.one_in(4);
        let most = if d.one_in(4) { 14_000 } else { 6_000 };
        if !few && input.len() + answer(&input).bytes.len() <= most {
            return input;
        }
    }
}
