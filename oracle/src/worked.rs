//! Figures of requests 05 and 06 that were settled apart from this model: lists of pictures with their periods in film mode, a channel
//! with its delays and its report, and the table that the request comes to, as rules of a state that moves from picture to picture; and
//! of a variable rate streams with their occupancies, a creation and a channel. cadence.rs, which has no such state, and the models of
//! writer and check are held to them before they are used.

use crate::cadence::{self, Facts, SEQUENCES, Sequence, periods};
use crate::check::judged;
use crate::format::number;
use crate::headers::pack;
use crate::layout::VBV_RECORD_BYTES;
use crate::mode::{FILM, FILM_VARIABLE, Mode, PLAIN, VARIABLE};
use crate::writer::{Config, FRAME, Offer, Told, Writer};

/// I P B are frames, i p b fields; ' is repeat_first_field, ^ top_field_first, " both. Periods in each of the four sequences.
pub const LISTS: [(&str, [&str; 4]); 16] = [
    ("I' P P", ["2 3 2", "3 2 2", "2 4 2", "4 2 2"]),
    ("I' B' P", ["2 3 3", "3 3 2", "2 4 4", "4 4 2"]),
    ("B' I", ["3 2", "3 2", "4 2", "4 2"]),
    ("I' ip P", ["2 1 2 2", "3 1 1 2", "2 1 1 2", "4 1 1 2"]),
    ("I' p P", ["2 1 2", "3 1 2", "2 1 2", "4 1 2"]),
    ("I' p B P", ["2 1 2 2", "3 1 2 2", "2 1 2 2", "4 1 2 2"]),
    ("I' bb P", ["2 1 1 3", "3 1 1 2", "2 1 1 4", "4 1 1 2"]),
    ("I' b P", ["2 1 3", "3 1 2", "2 1 4", "4 1 2"]),
    ("I' pb P", ["2 1 2 2", "3 1 1 2", "2 1 1 2", "4 1 1 2"]),
    ("I' bp P", ["2 1 1 3", "3 1 1 2", "2 1 1 4", "4 1 1 2"]),
    ("ip P", ["1 1 2", "1 1 2", "1 1 2", "1 1 2"]),
    ("I' ppp P", ["2 1 2 1 2", "3 1 1 1 2", "2 1 1 1 2", "4 1 1 1 2"]),
    ("I\" P", ["2 3", "3 2", "2 6", "6 2"]),
    ("I^ P", ["2 2", "2 2", "2 2", "2 2"]),
    ("I\" B\" P", ["2 3 3", "3 3 2", "2 6 6", "6 6 2"]),
    ("I' P' B' B P B' P", ["2 3 3 2 3 3 2", "3 3 3 2 2 3 2", "2 4 4 2 4 4 2", "4 4 4 2 2 4 2"]),
];

/// The sequence of a column.
pub fn sequence(column: usize) -> Sequence {
    Sequence { progressive: column / 2 == 1, low_delay: column % 2 == 1 }
}

/// The kinds (0, 1, 2 for I, P, B) and facts of a list in letters.
pub fn pictures(letters: &str) -> Vec<(usize, Facts)> {
    let mut all: Vec<(usize, Facts)> = vec![];
    for c in letters.chars().filter(|c| *c != ' ') {
        match "IPBipb".find(c) {
            Some(at) => {
                let field = 3 <= at;
                all.push((at % 3, Facts { anchor: at % 3 != 2, field, repeat: false, top: false }));
            }
            None => {
                let facts = &mut all.last_mut().unwrap().1;
                facts.repeat |= c != '^';
                facts.top |= c != '\'';
            }
        }
    }
    all
}

/// L of the table: a frame of a progressive sequence.
fn longer(repeat: bool, top: bool) -> u64 {
    [2, 2, 4, 6][2 * usize::from(repeat) + usize::from(top)]
}

/// The state of the table: the previous anchor's flags, and the open field (0 none, 1 led by I or P, 2 by B).
#[derive(Clone, Copy)]
struct State {
    repeat: bool,
    top: bool,
    open: u8,
}

/// The table's row for a picture: its periods, and what stands afterwards.
fn row(s: Sequence, now: State, x: Facts) -> (u64, State) {
    let State { repeat: big_r, top: big_t, open } = now;
    let (r, t) = (x.repeat, x.top);
    let own = if s.progressive { longer(r, t) } else { 2 + u64::from(r) };
    let anchors = if s.progressive { longer(big_r, big_t) } else { 2 + u64::from(big_r) };
    let plain = !s.progressive && !s.low_delay;
    match (x.field, x.anchor, open) {
        (false, false, 1) => (own, State { repeat: false, top: false, open: 0 }),
        (false, false, _) => (own, State { open: 0, ..now }),
        (false, true, 1) => (if s.low_delay { own } else { 2 }, State { repeat: r, top: t, open: 0 }),
        (false, true, _) => (if s.low_delay { own } else { anchors }, State { repeat: r, top: t, open: 0 }),
        (true, true, 0) => (1, State { open: 1, ..now }),
        (true, false, 0) => (1, State { open: 2, ..now }),
        (true, _, 1) => (1 + u64::from(plain && big_r), State { repeat: false, top: false, open: 0 }),
        (true, _, _) => (1, State { open: 0, ..now }),
    }
}

fn all_facts() -> impl Iterator<Item = Facts> {
    (0..16).map(|i| Facts { anchor: i & 1 != 0, field: i & 2 != 0, repeat: i & 4 != 0, top: i & 8 != 0 })
}

/// Every list of so many pictures more agrees with the table from a state on: periods, words left, and a list that leaves them.
fn agree(s: Sequence, before: &[Facts], now: State, more: usize) {
    for x in all_facts() {
        let list = [before, &[x]].concat();
        let (due, after) = row(s, now, x);
        assert_eq!(cadence::last_periods(s, &list), due, "{list:?} {s:?}");
        let words = [after.repeat.into(), after.top.into(), after.open.into()];
        assert_eq!(cadence::left(&list), words, "{list:?}");
        assert_eq!(cadence::left(&cadence::leaving(words)), words);
        if 0 < more {
            agree(s, &list, after, more - 1);
        }
    }
}

/// A channel: fields 2500 and 20, rate code 4, interlaced, low_delay 0; frames of 4,021 bytes (I) or 4,022.
const CHANNEL: &str = "I' P B' B P' B B' P";
const DELAYS: [u64; 8] = [22118, 22226, 23835, 25443, 25550, 25658, 25765, 27373];
const PERIODS: [u64; 8] = [2, 3, 3, 2, 2, 2, 3, 3];
/// R, B, pictures, least occupancy after and greatest before.
const REPORT: [u64; 5] = [1_000_000, 327_680, 8, 213_619, 304_180];

/// Its first headers: 16 by 16, square; interlaced 4:2:0; a closed group at 0.
const HEADERS: [u8; 30] = [
    0, 0, 1, 0xB3, 0x01, 0x00, 0x10, 0x14, 0x02, 0x71, 0x20, 0xA0, 0, 0, 1, 0xB5, 0x14, 0x82, 0x00, 0x01, 0x00, 0x00,
    0, 0, 1, 0xB8, 0x00, 0x08, 0x00, 0x40,
];

/// A layer of so many bytes.
fn layer(kind: usize, facts: Facts, delay: u64, bytes: usize) -> Vec<u8> {
    let hints = vec![(4, 7); kind];
    let padding = if kind == 0 { 2 } else { 8 - (61 + 4 * kind as u32 + 1) % 8 };
    let start = [(32, 0x100), (10, 0), (3, kind as u64 + 1), (16, delay)];
    let header = [&start[..], &hints, &[(1, 0), (padding, 0)]].concat();
    let flags = [(1, facts.top.into()), (5, 0x10), (1, facts.repeat.into()), (3, 6)];
    let structure = if facts.field { 1 } else { 3 };
    let extension = [&[(32, 0x1B5), (4, 8), (16, 0xFFFF), (2, 0), (2, structure)][..], &flags].concat();
    let mut layer = [pack(&header), pack(&extension), vec![0, 0, 1, 1]].concat();
    layer.resize(bytes, 0x55);
    layer
}

/// The writer's answers to the channel's offers, up to the first refusal, and what was handed out.
fn sent(mode: Mode) -> (Vec<Told>, Vec<u8>) {
    let (mode, n, d) = (mode.number(), 0, 0);
    let config = Config { mode, rate: 2500, buffer: 20, rate_code: 4, n, d, q: 8, between: 2, anchors: 4 };
    let mut w = Writer::create(config).unwrap();
    let (mut told, mut stream) = (vec![], vec![]);
    for (i, (kind, facts)) in pictures(CHANNEL).into_iter().enumerate() {
        let headers = if i == 0 { HEADERS.to_vec() } else { vec![] };
        let mut part = vec![0; 8000];
        let layer = layer(kind, facts, 0, if kind == 0 { 4021 } else { 4022 });
        told.push(w.offer(&Offer { headers, kind, interval: FRAME, last: false, layer }, &mut part));
        match told[i] {
            Told::Placed { bytes, .. } => stream.extend(&part[..bytes as usize]),
            _ => break,
        }
    }
    (told, stream)
}

/// Holds writer.rs and film.rs to the channel.
fn hold_channel() {
    let (told, stream) = sent(FILM);
    for (told, (delay, periods)) in told.iter().zip(DELAYS.into_iter().zip(PERIODS)) {
        match *told {
            Told::Placed { delay: d, stuffing: 0, periods: p, .. } => assert_eq!([d.into(), p], [delay, periods]),
            other => panic!("{other:?}"),
        }
    }
    let mut part = vec![0; 8 * VBV_RECORD_BYTES];
    let ((refused, _), report) = judged(FILM, &stream, &mut part);
    assert_eq!((refused, report), (0, REPORT));
    let words: Vec<u64> = part.chunks(8).map(number).collect();
    for (record, (delay, periods)) in words.chunks(5).zip(DELAYS.into_iter().zip(PERIODS)) {
        assert_eq!([record[0], record[1], record[4]], [delay, delay, periods]);
    }
    let ((refused, _), told) = judged(PLAIN, &stream, &mut part);
    assert_eq!((refused, told), (11, [2, 23835, 22333, 0, 0]));
    assert_eq!(sent(PLAIN).0, [Told::Refused(20)]);
}

/// The channel's sequence header and extension with another rate code, rate field and buffer field.
fn declared(code: u64, rate: u64, buffer: u64) -> Vec<u8> {
    let sizes = [(32, 0x1B3), (12, 16), (12, 16), (4, 1), (4, code)];
    let header = [&sizes[..], &[(18, rate), (1, 1), (10, buffer), (1, 0), (2, 0)]].concat();
    [&pack(&header)[..], &HEADERS[12..22]].concat()
}

/// A stream at 25/1 with a rate field and a buffer field, of pictures in letters with so many bits each, the first with the headers, and
/// with these delays.
pub fn stream([rate, buffer]: [u64; 2], letters: &str, bits: &[usize], delays: &[u64]) -> Vec<u8> {
    let mut stream = declared(3, rate, buffer);
    let mut end = 0;
    for (((kind, facts), bits), &delay) in pictures(letters).into_iter().zip(bits).zip(delays) {
        end += bits / 8;
        let left = end - stream.len();
        stream.extend(layer(kind, facts, delay, left));
    }
    stream
}

/// What a stream with room for four records is answered: its number, its words, and of each record the words.
fn answered(mode: Mode, stream: &[u8]) -> (u8, [u64; 5], Vec<Vec<u64>>) {
    let mut part = vec![0; 4 * VBV_RECORD_BYTES];
    let ((refused, _), five) = judged(mode, stream, &mut part);
    let words: Vec<u64> = part.chunks(8).map(number).collect();
    let pictures = if refused == 0 { five[2] as usize } else { 0 };
    (refused, five, words.chunks(5).take(pictures).map(<[u64]>::to_vec).collect())
}

/// Holds variable.rs to occupancies, to a first picture of B bits and to one of a byte more, and to ranges without a ratio.
fn hold_removals() {
    let bits = [80_344, 976, 976, 976];
    let four = stream([2500, 20], "I P bb", &bits, &[0xFFFF; 4]);
    let before = [327_680, 287_336, 326_360, 327_680];
    let records: Vec<_> = (0..4).map(|n| vec![65_535, 65_535, bits[n] as u64, before[n], [2, 2, 1, 1][n]]).collect();
    for mode in [VARIABLE, FILM_VARIABLE] {
        assert_eq!(
            answered(mode, &four),
            (0, [1_000_000, before[0], 4, before[0] - bits[0] as u64, before[0]], records.clone())
        );
        let full = stream([2500, 20], "I", &[8 * 40_960], &[0xFFFF]);
        assert_eq!(
            answered(mode, &full),
            (0, [1_000_000, 327_680, 1, 0, 327_680], vec![vec![65_535, 65_535, 327_680, 327_680, 2]])
        );
        let more = stream([2500, 20], "I", &[8 * 40_961], &[0xFFFF]);
        assert_eq!(answered(mode, &more), (10, [0, 65_535, 65_535, 0, 0], vec![]));
        let two = |buffer, second| stream([56, buffer], "I P", &[8_000, 800], &[0xFFFF, second]);
        let (number, five, _) = answered(mode, &two(1, 0xFFFF));
        assert_eq!((number, &five[..3]), (0, &[22_400, 16_384, 2][..]));
        assert_eq!(answered(mode, &two(0, 0xFFFF)), (12, [0; 5], vec![]));
        assert_eq!(answered(mode, &two(0, 0xFFFE)), (25, [0; 5], vec![]));
    }
    // At a constant rate the first delay is 5, and then the ratio 12.
    let one = |delay| stream([56, 1], "I", &[8_000], &[delay]);
    assert_eq!([0xFFFF, 0].map(|delay| answered(PLAIN, &one(delay)).0), [5, 12]);
    assert_eq!(answered(PLAIN, &four).0, 5);
}

/// Offers to a writer of fields 2500 and 1, code 3 and quantiser 29: kind and layer bytes, what is answered, and the bits delivered at
/// the next removal.
const RETRIES: [(usize, usize, Told, Option<u64>); 6] = [
    (0, 2121, Told::Again(31), None),
    (0, 1821, Told::Placed { q: 31, delay: 0xFFFF, bytes: 1843, stuffing: 0, periods: 2 }, Some(31_128)),
    (1, 1922, Told::Placed { q: 29, delay: 0xFFFF, bytes: 1922, stuffing: 0, periods: 2 }, Some(46_504)),
    (1, 2522, Told::Again(31), Some(46_504)),
    (1, 922, Told::Placed { q: 31, delay: 0xFFFF, bytes: 922, stuffing: 0, periods: 2 }, Some(53_880)),
    // With the end code.
    (2, 32, Told::Placed { q: 29, delay: 0xFFFF, bytes: 36, stuffing: 0, periods: 2 }, None),
];

/// Holds writer.rs to a creation without a ratio and to a channel, and variable.rs to what the channel hands out.
fn hold_sent(mode: Mode) {
    let low =
        Config { mode: mode.number(), rate: 56, buffer: 1, rate_code: 3, n: 0, d: 0, q: 8, between: 2, anchors: 4 };
    assert_eq!(Writer::create(low).map(|w| w.targets), Ok([2_647, 1_058, 595]));
    assert_eq!(Writer::create(Config { mode: PLAIN.number(), ..low }).err(), Some(12));
    let mut w = Writer::create(Config { rate: 2500, q: 29, ..low }).unwrap();
    let mut stream = vec![];
    for (kind, bytes, due, delivered) in RETRIES {
        let headers = if w.started { vec![] } else { declared(3, 2500, 1) };
        let facts = Facts { anchor: kind != 2, field: false, repeat: false, top: false };
        let layer = layer(kind, facts, 0, bytes);
        let mut part = vec![0; 2100];
        let told = w.offer(&Offer { headers, kind, interval: FRAME, last: kind == 2, layer }, &mut part);
        assert_eq!(told, due);
        assert!(delivered.is_none_or(|whole| w.model()[..2] == [whole, 0]), "{delivered:?}");
        if let Told::Placed { bytes, .. } = told {
            stream.extend(&part[..bytes as usize]);
        }
    }
    let (number, five, records) = answered(mode, &stream);
    assert_eq!((number, five[2], w.finished, w.stuffing), (0, 4, true, 0));
    assert!(records.iter().all(|r| r[..2] == [65_535, 65_535] && r[3] == 16_384));
}

/// Holds cadence.rs to the lists, and to the table over all lists of up to four pictures; and the writer and its check to a
/// channel, at a constant and at a variable rate.
pub fn hold() {
    hold_channel();
    hold_removals();
    [VARIABLE, FILM_VARIABLE].into_iter().for_each(hold_sent);
    for (letters, due) in LISTS {
        let facts: Vec<Facts> = pictures(letters).iter().map(|p| p.1).collect();
        for (column, due) in due.iter().enumerate() {
            let told: Vec<String> = periods(sequence(column), &facts).iter().map(u64::to_string).collect();
            assert_eq!(told.join(" "), *due, "{letters}, {}", SEQUENCES[column]);
        }
    }
    for column in 0..4 {
        agree(sequence(column), &[], State { repeat: false, top: false, open: 0 }, 3);
    }
}
