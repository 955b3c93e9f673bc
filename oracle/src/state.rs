//! A writer's state as bytes, read and written by docs/LAYOUT.md and docs/DECISIONS.md alone.

use crate::cadence::{LED_BY_OTHER, Sequence, leaving, left};
use crate::layout::CBR_STATE_BYTES;
use crate::mode::{Mode, PLAIN, WRITERS};
use crate::model::{FAR, MOST_BUFFER, MOST_FRD, MOST_FRN, MOST_RATE, widest};
use crate::writer::Writer;

pub const WORDS: usize = CBR_STATE_BYTES / 8;

/// The words of a writer.
pub fn words(w: &Writer) -> [u64; WORDS] {
    let [whole, rest, end, removed] = w.model();
    let [i, p, b] = w.targets;
    let [q_i, q_p, q_b] = w.q.map(u64::from);
    let (kind, q) = w.pending.map_or((0, 0), |(kind, q)| (kind as u64 + 1, q.into()));
    let params = [w.rate, w.buffer, w.frn, w.frd].map(|n| n as u64);
    let [rate, buffer, frn, frd] = params;
    let (started, finished) = (w.started.into(), w.finished.into());
    let model = [rate, buffer, frn, frd, whole, rest, end, removed, started];
    all(model, [i, p, b, q_i, q_p, q_b, kind, q, w.stuffing, finished], cadence(w))
}

/// The model's words, the writer's, and those of its mode and cadence.
fn all(model: [u64; 9], writer: [u64; 10], cadence: [u64; 6]) -> [u64; WORDS] {
    [&model[..], &writer, &cadence].concat().try_into().unwrap()
}

/// The mode and what a film writer's placed pictures leave, zeros of a plain one.
pub fn cadence(w: &Writer) -> [u64; 6] {
    let mode = Mode { film: w.film, variable: w.variable, ..PLAIN }.number();
    if !w.film {
        return [mode, 0, 0, 0, 0, 0];
    }
    let [repeat, top, open] = left(&w.pictures);
    [mode, w.sequence.progressive.into(), w.sequence.low_delay.into(), repeat, top, open]
}

/// The writer's mode that a word is.
fn mode(word: u64) -> Option<Mode> {
    WRITERS.into_iter().find(|mode| mode.number() == word)
}

/// The words that bytes begin with.
pub fn words_of(bytes: &[u8]) -> Option<[u64; WORDS]> {
    let bytes = bytes.get(..CBR_STATE_BYTES)?;
    Some(std::array::from_fn(|k| u64::from_le_bytes(bytes[8 * k..8 * k + 8].try_into().unwrap())))
}

/// The greatest value of each word, beside the others.
pub fn limits(s: &[u64; WORDS]) -> [u64; WORDS] {
    let (film, variable) = mode(s[19]).map_or((false, false), |mode| (mode.film, mode.variable));
    let buffer = if variable { MOST_BUFFER } else { widest(s[0]) };
    let rest = (180_000 * u128::from(s[2])).saturating_sub(1) as u64;
    let bytes = s[6] / 8;
    let q = if s[15] == 0 { 0 } else { 31 };
    let (flag, open) = if film { (1, LED_BY_OTHER) } else { (0, 0) };
    let most = WRITERS[WRITERS.len() - 1].number();
    let model = [MOST_RATE, buffer, MOST_FRN, MOST_FRD, 1 << 57, rest, FAR, bytes, 1];
    all(model, [FAR, FAR, FAR, 31, 31, 31, 3, q, bytes, 1], [most, flag, flag, flag, flag, open])
}

/// The least value of each word.
fn least(s: &[u64; WORDS]) -> [u64; WORDS] {
    let q = (s[15] != 0).into();
    all([1, 1, 1, 1, 0, 0, 0, 0, 0], [0, 0, 0, 1, 1, 1, 0, q, 0, 0], [PLAIN.number(), 0, 0, 0, 0, 0])
}

/// The writer that bytes hold: none, where they are too few or a value is out of its range.
pub fn held(bytes: &[u8]) -> Option<Writer> {
    read(bytes).filter(Writer::in_range)
}

/// Whether all that is out of range is what a writer of a variable rate has in its buffer.
pub fn beyond(bytes: &[u8]) -> bool {
    read(bytes).is_some_and(|w| !w.in_range())
}

/// The same, with each word in its own range.
fn read(bytes: &[u8]) -> Option<Writer> {
    let s = words_of(bytes)?;
    let (least, limits) = (least(&s), limits(&s));
    let Mode { film, variable, .. } = mode(s[19])?;
    if (0..WORDS).any(|k| s[k] < least[k] || limits[k] < s[k]) || s[6] % 8 != 0 {
        return None;
    }
    Some(Writer {
        rate: s[0].into(),
        buffer: s[1].into(),
        frn: s[2].into(),
        frd: s[3].into(),
        targets: [s[9], s[10], s[11]],
        q: [s[12], s[13], s[14]].map(|q| q as u8),
        pending: (s[15] != 0).then(|| (s[15] as usize - 1, s[16] as u8)),
        started: s[8] == 1,
        delivered: 180_000 * u128::from(s[2]) * u128::from(s[4]) + u128::from(s[5]),
        end: s[6].into(),
        placed: s[7],
        stuffing: s[17],
        finished: s[18] == 1,
        film,
        variable,
        sequence: Sequence { progressive: s[20] == 1, low_delay: s[21] == 1 },
        pictures: if film { leaving([s[22], s[23], s[24]]) } else { vec![] },
    })
}
