//! The writer: lists of calls drawn like those of kind 19, its state kept as bytes, and what the model of the papers
//! (writer.rs) comes to. It is created by arguments or, always where it is a film writer or one of a variable rate or n or d is not 0,
//! by words (create.rs).
//!
//! Before some of a list's calls stands another one, on a copy of the state: damaged or cut short, with a kind, an interval or a
//! flag out of range, or with a place for the answer that is too short. What a damaged state holds is decoded here once more
//! (state.rs). After each list stands the check of what it handed out (vbv.rs).

use crate::create::{CREATIONS, CREATIONS_BY_WORDS};
use crate::entry;
use crate::run::{Owed, Run};
use oracle::draw::Draw;
use oracle::format::{number, pattern};
use oracle::layout::{CBR_AGAIN, CBR_ANSWER_BYTES, CBR_FIELD, CBR_FRAME, CBR_PLACED, CBR_REFUSED, CBR_STATE_BYTES};
use oracle::lists::{CALLS, Call, call, configured};
use oracle::mode::{FILM, FILM_VARIABLE, Mode, PLAIN, VARIABLE};
use oracle::place::{Left, Place, lay};
use oracle::state::{WORDS, beyond, held, limits, words, words_of};
use oracle::writer::{FIELD, FRAME, Offer, Told, Writer};

const OFFERS: &str = "offers";
const STOPPED: &str = "offers stopped before the writer";
const DAMAGED: &str = "offers on a damaged state that fits";
const DAMAGED_FILM: &str = "offers on a damaged state of a film writer that fits";
const FILM_OFFERS: &str = "offers to a film writer";
const DAMAGED_VARIABLE: &str = "offers on a damaged state of a variable writer that fits";
const VARIABLE_OFFERS: &str = "offers to a variable writer";
const WITHDRAWALS: &str = "withdrawals";

/// The writer's answers to offers.
const ANSWERS: [&str; 11] = [
    "placed",
    "again",
    "refused 7",
    "refused 9",
    "refused 14",
    "refused 17",
    "refused 18",
    "refused 19",
    "refused 20",
    "refused 21",
    "refused 22",
];
/// Those of a variable rate: 'never 7, 9 or 22'.
const VARIABLE_ANSWERS: [&str; 8] =
    ["placed", "again", "refused 14", "refused 17", "refused 18", "refused 19", "refused 20", "refused 21"];
/// What stops an offer before the writer, in the order in which it is tested.
const STOPS: [&str; 8] = [
    "12: a state, with a short answer place",
    "12: a state too short",
    "12: a state of a variable rate with more in the buffer than it holds",
    "12: a damaged state",
    "19: a short answer place",
    "12: a kind",
    "12: an interval",
    "12: a flag",
];

/// What has to be met.
pub const OWED: [Owed; 10] = [
    CREATIONS,
    CREATIONS_BY_WORDS,
    (OFFERS, &ANSWERS),
    (STOPPED, &STOPS),
    (DAMAGED, &ANSWERS),
    (FILM_OFFERS, &ANSWERS),
    (DAMAGED_FILM, &ANSWERS),
    (VARIABLE_OFFERS, &VARIABLE_ANSWERS),
    (DAMAGED_VARIABLE, &VARIABLE_ANSWERS),
    (WITHDRAWALS, &["accepted", "nothing pending", "on a damaged state that fits", "refused 12"]),
];

/// An offer as C makes it.
struct Offering<'a> {
    headers: &'a [u8],
    kind: u8,
    interval: u8,
    last: u8,
    layer: &'a [u8],
    out: Vec<u8>,
    answer: Vec<u8>,
}

/// What a list handed out, and of each placed picture its delay, bits and field periods.
struct Sent {
    /// False after a state set by hand.
    whole: bool,
    stream: Vec<u8>,
    placed: Vec<[u64; 3]>,
}

impl Sent {
    /// Adds what an offer left, if it was placed, to last so many periods.
    fn offered(&mut self, left: &mut Left, periods: u64) {
        let answer: Vec<u64> = left.at("answer").chunks(8).map(number).collect();
        if answer[0] == CBR_PLACED {
            let (delay, bytes) = (answer[6], answer[7]);
            self.stream.extend(&left.at("out")[..bytes as usize]);
            self.placed.push([delay, 8 * bytes, periods]);
        }
    }
}

/// A value returned by a call that writes a state and nothing else, and what it leaves there.
pub fn alone(number: u64, state: &[u8]) -> Left {
    let mut left = Left::before(&[("state", state)]);
    left.number = number;
    left
}

fn refused(n: u8, picture: u64) -> [u64; 9] {
    [CBR_REFUSED, n.into(), picture, 0, 0, 0, 0, 0, 0]
}

/// The words of an answer; a 9 names the picture, of which so many were placed before.
fn answer_words(told: Told, placed: u64) -> [u64; 9] {
    match told {
        Told::Placed { q, delay, bytes, stuffing, .. } => {
            [CBR_PLACED, 0, 0, 0, 0, q.into(), delay.into(), bytes, stuffing]
        }
        Told::Again(q) => [CBR_AGAIN, 0, 0, 0, 0, q.into(), 0, 0, 0],
        Told::Refused(9) => refused(9, placed),
        Told::Refused(n) => refused(n, 0),
    }
}

/// What stops an offer on a state that holds a writer, or none, before the writer looks at it.
fn stop(holds: bool, state: &[u8], c: &Offering) -> Option<(u8, &'static str)> {
    let short = c.answer.len() < CBR_ANSWER_BYTES;
    let no_state = [!holds && short, !holds && state.len() < CBR_STATE_BYTES, beyond(state), !holds];
    let codes = [2 < c.kind, ![CBR_FIELD, CBR_FRAME].contains(&c.interval), 1 < c.last];
    let at = no_state.into_iter().chain([short]).chain(codes).position(|stops| stops)?;
    Some((if at == no_state.len() { 19 } else { 12 }, STOPS[at]))
}

/// What is expected of an offer on a state that holds a writer, or none; how many periods a placed picture lasts, else 0; and
/// what it is counted as.
fn expected(writer: Option<&mut Writer>, state: &[u8], c: &Offering) -> (Left, u64, String) {
    let mut left = Left::before(&[("state", state), ("out", &c.out), ("answer", &c.answer)]);
    if let Some((number, why)) = stop(writer.is_some(), state, c) {
        left.number = number.into();
        return (left.with("answer", &refused(number, 0)), 0, why.into());
    }
    let w = writer.unwrap();
    let offer = Offer {
        headers: c.headers.to_vec(),
        kind: c.kind.into(),
        interval: if c.interval == CBR_FIELD { FIELD } else { FRAME },
        last: c.last == 1,
        layer: c.layer.to_vec(),
    };
    let placed = w.placed;
    let told = w.offer(&offer, left.at("out"));
    let (periods, why) = match told {
        Told::Placed { periods, .. } => (periods, "placed".into()),
        Told::Again(_) => (0, "again".into()),
        Told::Refused(n) => {
            left.number = n.into();
            (0, format!("refused {n}"))
        }
    };
    (left.with("state", &words(w)).with("answer", &answer_words(told, placed)), periods, why)
}

/// The entry's own.
fn offered(state: &[u8], c: &Offering, d: &mut Draw) -> Left {
    let (mut headers, mut layer) = (Place::new(c.headers, d), Place::new(c.layer, d));
    let (mut state, mut out, mut answer) = (Place::new(state, d), Place::new(&c.out, d), Place::new(&c.answer, d));
    let number = unsafe {
        entry::cbr_offer(
            state.at(),
            state.len,
            headers.at(),
            headers.len,
            c.kind,
            c.interval,
            c.last,
            layer.at(),
            layer.len,
            out.at(),
            out.len,
            answer.at(),
            answer.len,
        )
    };
    let written = [("state", &state), ("out", &out), ("answer", &answer)];
    Left::after(number, &written, &[(&headers, c.headers), (&layer, c.layer)])
}

fn withdrawn(state: &[u8], d: &mut Draw) -> Left {
    let mut state = Place::new(state, d);
    let number = unsafe { entry::cbr_withdraw(state.at(), state.len) };
    Left::after(number, &[("state", &state)], &[])
}

/// A word's other value: around its limit, around bits delivered that matter, or any.
fn another(s: &[u64; WORDS], k: usize, d: &mut Draw) -> u64 {
    let (buffer, end) = (s[1] % (1 << 33), s[6] % (1 << 49));
    match d.below(6) {
        _ if k == 19 && d.one_in(2) => d.below(17) as u64,
        0 => d.value(64),
        1 => s[k] ^ 1 << d.below(64),
        2 if k == 4 => end + d.next() % (buffer + 1),
        3 if k == 4 => (end + buffer + d.below(3) as u64).saturating_sub(1),
        4 if k == 6 => (s[4] % (1 << 49)).saturating_sub(d.next() % (buffer + 1)) & !7,
        _ => (limits(s)[k].saturating_add(d.below(3) as u64)).saturating_sub(1),
    }
}

/// A writer of a variable rate with the buffer full, or a bit or part of one below or above that; mostly one that has placed a picture.
fn filled(s: &mut [u64; WORDS], d: &mut Draw) {
    let units = 180_000 * (s[2] % (1 << 20)).max(1);
    s[19] = if s[20..].iter().all(|&k| k == 0) && d.one_in(2) { VARIABLE } else { FILM_VARIABLE }.number();
    s[4] = (s[6] % (1 << 49) + s[1] % (1 << 33) + [0, 0, 0, 1][d.below(4)]).saturating_sub(d.one_in(3).into());
    s[5] = [0, 1, units - 1, d.next() % units][d.below(4)];
    if !d.one_in(8) {
        s[8] = 1;
    }
}

/// A state with some words or bytes changed, or cut short.
fn damaged(state: &[u8], d: &mut Draw) -> Vec<u8> {
    let mut bytes = state.to_vec();
    if d.one_in(12) {
        bytes.truncate(d.below(CBR_STATE_BYTES));
        return bytes;
    }
    while bytes == state || d.one_in(3) {
        if d.one_in(8) {
            // Another rate of the same value, or nearly so.
            let (mut s, by) = (words_of(&bytes).unwrap(), 2 + d.below(4) as u64);
            (s[2], s[3]) = (s[2].wrapping_mul(by), s[3].wrapping_mul(by).wrapping_add(d.one_in(4).into()));
            lay(&mut bytes, &s);
        } else if d.one_in(8) {
            // A film writer with any cadence, or a plain one with what is left of it.
            let (mut s, open) = (words_of(&bytes).unwrap(), d.below(3) as u64);
            s[19] = [FILM, FILM_VARIABLE, FILM, FILM_VARIABLE, PLAIN, VARIABLE][d.below(6)].number();
            s[20..24].fill_with(|| d.value(1));
            s[24] = open;
            lay(&mut bytes, &s);
        } else if d.one_in(8) {
            let mut s = words_of(&bytes).unwrap();
            filled(&mut s, d);
            lay(&mut bytes, &s);
        } else if d.one_in(4) {
            bytes[d.below(CBR_STATE_BYTES)] = d.byte();
        } else {
            let (mut s, k) = (words_of(&bytes).unwrap(), d.below(WORDS));
            s[k] = another(&s, k, d);
            lay(&mut bytes, &s);
        }
    }
    bytes
}

impl Run {
    /// Compares an offer, and leaves the state that is expected; the other places and a placed picture's periods are returned.
    fn offer(
        &mut self,
        plain: &'static str,
        writer: Option<&mut Writer>,
        state: &mut Vec<u8>,
        c: &Offering,
    ) -> (Left, u64) {
        let film = writer.as_ref().is_some_and(|w| w.film);
        let variable = writer.as_ref().is_some_and(|w| w.variable);
        let (mut expected, periods, why) = expected(writer, state, c);
        let found = offered(state, c, &mut self.d);
        let what = match plain {
            _ if STOPS.contains(&why.as_str()) => STOPPED,
            DAMAGED if variable => DAMAGED_VARIABLE,
            OFFERS if variable => VARIABLE_OFFERS,
            DAMAGED if film => DAMAGED_FILM,
            OFFERS if film => FILM_OFFERS,
            _ => plain,
        };
        self.met(what, &why, &found, &expected);
        *state = std::mem::take(expected.at("state"));
        (expected, periods)
    }

    fn withdraw(&mut self, why: &'static str, writer: Option<&mut Writer>, state: &mut Vec<u8>) {
        let found = withdrawn(state, &mut self.d);
        let number = if writer.is_some() { 0 } else { 12 };
        let why = if writer.is_some() { why } else { "refused 12" };
        if let Some(w) = writer {
            assert!(w.withdraw(), "a writer that is not in range");
            lay(state, &words(w));
        }
        self.met(WITHDRAWALS, why, &found, &alone(number, state));
    }

    /// The offer with something about it that is out of range, on a copy of the state.
    fn odd_offer(&mut self, state: &[u8], c: &Offering) {
        let d = &mut self.d;
        let out = if d.one_in(2) { pattern(9_000) } else { c.out.clone() };
        let mut c = Offering { out, answer: c.answer.clone(), ..*c };
        let damage = !d.one_in(4);
        let mut copy = if damage { damaged(state, d) } else { state.to_vec() };
        match d.below(if damage { 16 } else { 4 }) {
            0 => c.answer.truncate(d.below(CBR_ANSWER_BYTES)),
            1 => c.kind = 3 + d.below(253) as u8,
            2 => c.interval = [0, 3 + d.below(253) as u8][d.below(2)],
            3 => c.last = 2 + d.below(254) as u8,
            _ => {}
        }
        let mut writer = held(&copy);
        self.offer(DAMAGED, writer.as_mut(), &mut copy, &c);
    }

    fn odd_withdrawal(&mut self, state: &[u8]) {
        let mut copy = damaged(state, &mut self.d);
        let mut writer = held(&copy);
        self.withdraw("on a damaged state that fits", writer.as_mut(), &mut copy);
    }

    /// An offer of a list, in half of the cases after one with something about it that is out of range.
    fn listed(&mut self, w: &mut Writer, state: &mut Vec<u8>, o: &Offer, part: usize) -> (Left, u64) {
        let n = CBR_ANSWER_BYTES + self.d.below(3) * self.d.below(16);
        let c = Offering {
            headers: &o.headers,
            kind: o.kind as u8,
            interval: [CBR_FRAME, CBR_FIELD, 3, 4, 6][usize::from(o.interval)],
            last: o.last.into(),
            layer: &o.layer,
            out: pattern(part),
            answer: self.d.bytes(n),
        };
        if self.d.one_in(2) {
            self.odd_offer(state, &c);
        }
        self.offer(OFFERS, Some(w).filter(|w| w.in_range()), state, &c)
    }

    /// One list: creation, each call on what the one before left, and the check of what was handed out.
    pub fn list(&mut self, input: &[u8]) {
        let Some((mut w, mut state)) = self.create(configured(input)) else { return };
        let own = Mode { film: w.film, variable: w.variable, ..PLAIN };
        let mut sent = Sent { whole: true, stream: vec![], placed: vec![] };
        let mut rest = &input[CALLS..];
        while !rest.is_empty() {
            let (call, part, after) = call(rest);
            rest = after;
            match call {
                Call::State(end, whole) => {
                    w.set(end, whole);
                    lay(&mut state, &words(&w));
                    sent.whole = false;
                }
                Call::Withdrawal => {
                    self.odd_withdrawal(&state);
                    let why = if w.pending.is_some() { "accepted" } else { "nothing pending" };
                    self.withdraw(why, Some(&mut w).filter(|w| w.in_range()), &mut state);
                }
                Call::Offer(o) => {
                    let (mut left, periods) = self.listed(&mut w, &mut state, &o, part);
                    sent.offered(&mut left, periods);
                }
                Call::Check(mode, stream) => {
                    assert!(sent.whole && stream == sent.stream, "another stream than what was handed out");
                    self.sent(own, mode, &sent.stream, &sent.placed);
                }
            }
        }
    }
}
