//! Creation, by arguments (`cbr_create`) and by words (`cbr_create_config`), and what the model (writer.rs) comes to. The words are as
//! wide as they come: one that would fit, cut to its argument's width, is still out of range. Before some creations stand others with
//! places too short, another mode, or words around and far above their limits.

use crate::cbr::alone;
use crate::entry;
use crate::run::{Owed, Run};
use oracle::draw::Draw;
use oracle::layout::{CBR_CONFIG_BYTES, CBR_STATE_BYTES};
use oracle::mode::{FILM_VARIABLE, MPEG1, MPEG1_FILM, MPEG1_FILM_VARIABLE, MPEG1_VARIABLE, Mode, PLAIN, WRITERS};
use oracle::model::{BUFFER_UNIT, RATE_UNIT, widest};
use oracle::place::{Left, Place, lay};
use oracle::state::words;
use oracle::writer::{Config, Writer};

const WORDS: usize = CBR_CONFIG_BYTES / 8;
/// The greatest value of each word, and the bits of its argument; of mode and code those that one can be cut to.
const MOST: [u64; WORDS] = [14, 262_143, 1023, 8, 3, 31, 31, 15, 255];
const BITS: [u32; WORDS] = [8, 32, 16, 8, 8, 8, 8, 8, 8];

/// By arguments; what has to be met.
pub const CREATIONS: Owed = ("creations", &["accepted", "refused 6", "refused 12", "refused 19"]);
pub const CREATIONS_BY_WORDS: Owed = (
    "creations by words",
    &[
        ACCEPTED,
        ACCEPTED_RATE,
        ACCEPTED_MORE,
        ACCEPTED_FILM,
        ACCEPTED_VARIABLE,
        ACCEPTED_FILM_VARIABLE,
        ACCEPTED_RATIO,
        "12: words and state place too short",
        "12: words too short",
        "19: a short state place, with another mode",
        "19: a short state place",
        "12: a mode that a writer has when cut",
        "12: MPEG-1",
        "12: MPEG-1 with film",
        "12: MPEG-1 of a variable rate",
        "12: MPEG-1 with film of a variable rate",
        "12: a mode below 16",
        "12: another mode",
        "12: a word that fits when cut",
        "12: n or d, with no such rate code",
        "12: n or d",
        "12: another range, or the ratio",
        "6: a rate code that fits when cut",
        "6: another rate code",
    ],
);
const ACCEPTED: &str = "accepted";
const ACCEPTED_RATE: &str = "accepted, n or d not 0";
const ACCEPTED_MORE: &str = "accepted, with bytes behind the words";
const ACCEPTED_FILM: &str = "accepted, film";
const ACCEPTED_VARIABLE: &str = "accepted, of a variable rate";
const ACCEPTED_FILM_VARIABLE: &str = "accepted, film of a variable rate";
const ACCEPTED_RATIO: &str = "accepted, of a variable rate, with a buffer too large for a constant one";

fn config(w: &[u64; WORDS]) -> Config {
    let [mode, rate, buffer, rate_code, n, d, q, between, anchors] = *w;
    Config { mode, rate, buffer, rate_code, n, d, q, between, anchors }
}

fn words_of(c: &Config) -> [u64; WORDS] {
    [c.mode, c.rate, c.buffer, c.rate_code, c.n, c.d, c.q, c.between, c.anchors]
}

/// What stops a creation by words, in order, before creation itself.
fn stop(w: &[u64; WORDS], config_len: usize, state_len: usize) -> Option<(u8, &'static str)> {
    let (no_words, no_state) = (config_len < CBR_CONFIG_BYTES, state_len < CBR_STATE_BYTES);
    let is = |mode: Mode| w[0] == mode.number();
    let another = !WRITERS.into_iter().any(is);
    let stops = [
        (no_words && no_state, 12, "12: words and state place too short"),
        (no_words, 12, "12: words too short"),
        (no_state && another, 19, "19: a short state place, with another mode"),
        (no_state, 19, "19: a short state place"),
        (another && WRITERS.iter().any(|m| m.number() == w[0] % 256), 12, "12: a mode that a writer has when cut"),
        (is(MPEG1), 12, "12: MPEG-1"),
        (is(MPEG1_FILM), 12, "12: MPEG-1 with film"),
        (is(MPEG1_VARIABLE), 12, "12: MPEG-1 of a variable rate"),
        (is(MPEG1_FILM_VARIABLE), 12, "12: MPEG-1 with film of a variable rate"),
        (another && w[0] < 16, 12, "12: a mode below 16"),
        (another, 12, "12: another mode"),
    ];
    stops.iter().find(|s| s.0).map(|&(_, number, why)| (number, why))
}

/// What creation's own refusal is counted as.
fn refused(w: &[u64; WORDS], number: u8) -> &'static str {
    let cut: [u64; WORDS] = std::array::from_fn(|k| w[k] % (1 << BITS[k]));
    let fits = cut != *w && Writer::create(config(&cut)).is_ok();
    let no_code = !(1..=MOST[3]).contains(&w[3]);
    let wide = MOST[4] < w[4] || MOST[5] < w[5];
    match number {
        6 if fits => "6: a rate code that fits when cut",
        6 => "6: another rate code",
        _ if fits => "12: a word that fits when cut",
        _ if wide && no_code => "12: n or d, with no such rate code",
        _ if wide => "12: n or d",
        _ => "12: another range, or the ratio",
    }
}

/// What a creation by words is to answer: a writer, or a number; and what it is counted as.
fn due(w: &[u64; WORDS], config_len: usize, state_len: usize) -> (Result<Writer, u8>, &'static str) {
    if let Some((number, why)) = stop(w, config_len, state_len) {
        return (Err(number), why);
    }
    let made = Writer::create(config(w));
    let why = match made {
        Err(number) => refused(w, number),
        Ok(_) if widest(RATE_UNIT * w[1]) < BUFFER_UNIT * w[2] => ACCEPTED_RATIO,
        Ok(_) if w[0] == FILM_VARIABLE.number() => ACCEPTED_FILM_VARIABLE,
        Ok(Writer { variable: true, .. }) => ACCEPTED_VARIABLE,
        Ok(Writer { film: true, .. }) => ACCEPTED_FILM,
        Ok(_) if (w[4], w[5]) != (0, 0) => ACCEPTED_RATE,
        Ok(_) if CBR_CONFIG_BYTES < config_len => ACCEPTED_MORE,
        Ok(_) => ACCEPTED,
    };
    (made, why)
}

fn created(c: Config, state: &[u8], d: &mut Draw) -> Left {
    let mut state = Place::new(state, d);
    let [code, q, between, anchors] = [c.rate_code, c.q, c.between, c.anchors].map(|b| b as u8);
    let (rate, buffer) = (c.rate as u32, c.buffer as u16);
    let number = unsafe { entry::cbr_create(rate, buffer, code, q, between, anchors, state.at(), state.len) };
    Left::after(number, &[("state", &state)], &[])
}

fn created_by_words(bytes: &[u8], state: &[u8], d: &mut Draw) -> Left {
    let (mut config, mut state) = (Place::new(bytes, d), Place::new(state, d));
    let number = unsafe { entry::cbr_create_config(config.at(), config.len, state.at(), state.len) };
    Left::after(number, &[("state", &state)], &[(&config, bytes)])
}

/// Another value of a word: around its limit, the same behind its argument's bits or others, or any.
fn another(k: usize, value: u64, d: &mut Draw) -> u64 {
    match d.below(6) {
        0 => d.value(64),
        1 => (MOST[k] + d.below(3) as u64).saturating_sub(1),
        2 => value.wrapping_add(d.nonzero(8) << BITS[k]),
        3 => value.wrapping_add(1 << [8, 16, 32, 63][d.below(4)]),
        4 => d.below(MOST[k] as usize + 8) as u64,
        _ if k == 0 => [0, 1, 2, 5, 6, 9, 10, 13, 14, 3 + d.below(13) as u64][d.below(10)],
        _ => 0,
    }
}

impl Run {
    /// A place for a state, mostly longer than it has to be.
    fn state_place(&mut self) -> Vec<u8> {
        let n = CBR_STATE_BYTES + self.d.below(3) * self.d.below(16);
        self.d.bytes(n)
    }

    /// Compares a creation by words.
    fn by_words(&mut self, w: &[u64; WORDS], config_len: usize, mut state: Vec<u8>) -> Option<(Writer, Vec<u8>)> {
        let mut bytes = self.d.bytes(config_len.max(CBR_CONFIG_BYTES));
        lay(&mut bytes, w);
        bytes.truncate(config_len);
        let found = created_by_words(&bytes, &state, &mut self.d);
        let (made, why) = due(w, config_len, state.len());
        if let Ok(w) = &made {
            lay(&mut state, &words(w));
        }
        let number = made.as_ref().err().map_or(0, |&n| n.into());
        self.met(CREATIONS_BY_WORDS.0, why, &found, &alone(number, &state));
        made.ok().map(|w| (w, state))
    }

    /// The same with something about it that is out of range, or not.
    fn odd_creation(&mut self, c: &Config) {
        let (mut w, mut state) = (words_of(c), self.state_place());
        let d = &mut self.d;
        let mut length = CBR_CONFIG_BYTES + d.below(3) * d.below(16);
        if d.one_in(6) {
            length = [d.below(CBR_CONFIG_BYTES), CBR_CONFIG_BYTES - 1][d.below(2)];
        }
        if d.one_in(6) {
            state.truncate([d.below(CBR_STATE_BYTES), CBR_STATE_BYTES - 1][d.below(2)]);
        }
        for _ in 0..d.below(3) {
            // A mode, a rate code, n and d more often.
            let k = [d.below(WORDS), 3 + d.below(3), 0][d.below(3)];
            w[k] = another(k, w[k], d);
        }
        self.by_words(&w, length, state);
    }

    /// A writer and its state, in a place that may be longer.
    pub fn create(&mut self, c: Config) -> Option<(Writer, Vec<u8>)> {
        if self.d.one_in(2) {
            self.odd_creation(&c);
        }
        if c.mode != PLAIN.number() || (c.n, c.d) != (0, 0) || self.d.one_in(2) {
            let (length, state) = (CBR_CONFIG_BYTES + self.d.below(2) * self.d.below(16), self.state_place());
            return self.by_words(&words_of(&c), length, state);
        }
        self.by_arguments(c)
    }

    fn by_arguments(&mut self, c: Config) -> Option<(Writer, Vec<u8>)> {
        let what = CREATIONS.0;
        if self.d.one_in(8) {
            let n = self.d.below(CBR_STATE_BYTES);
            let place = self.d.bytes(n);
            let found = created(c, &place, &mut self.d);
            self.met(what, "refused 19", &found, &alone(19, &place));
        }
        let mut state = self.state_place();
        let found = created(c, &state, &mut self.d);
        let made = Writer::create(c);
        if let Ok(w) = &made {
            lay(&mut state, &words(w));
        }
        let number = made.as_ref().err().map_or(0, |&n| n.into());
        let why = if number == 0 { ACCEPTED.into() } else { format!("refused {number}") };
        self.met(what, &why, &found, &alone(number, &state));
        made.ok().map(|w| (w, state))
    }
}
