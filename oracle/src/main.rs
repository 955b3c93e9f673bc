//! Writes cases with the original's answers to standard output, and counts them on standard error.
//!
//!     cases [known] [short] [edges] [every] [small] SEED COUNT KIND..|19
//!
//! known: first the headers and streams that have a name; short: then all inputs of at most two bytes; edges: then those around
//! each boundary; every: then all 2^24 of kind 14; then COUNT drawn ones. Kind 19, lists of calls of the writer, goes to
//! another program and stands alone; small: of kinds 19 and 24 only lists and streams of few bytes.
//!
//! Kind 20, streams in film mode, brings 21 to 23: the same streams in the other modes of a constant rate. Kind 24, streams of a
//! variable rate, brings 25 and 21 and, where the stream is short, 26 and 27.
//!
//!     cases stream 1|2|6|10|14 FILE
//!
//! The original's answer for an MPEG-1 or MPEG-2 stream, as `vbvcheck` would print it; 6: in film mode; 10 and 14: of a variable rate,
//! plain and film.

use oracle::answers::{KINDS, NO_MODES, answer};
use oracle::draw::Draw;
use oracle::mode::Mode;
use oracle::rows::Rows;
use oracle::{calls, check, checks, headers, known, lists, sends, worked, writers};
use std::collections::BTreeMap;
use std::io::{BufWriter, Stdout, Write, stdout};
use std::process::exit;

/// How often each kind is drawn.
const WEIGHTS: [usize; 24] = [12, 8, 16, 12, 8, 16, 6, 10, 2, 6, 3, 1, 1, 2, 24, 4, 40, 60, 1, 20, 0, 0, 0, 40];

/// Of what bytes a stream of kind 24 is a case of MPEG-1 too, in which all are 12.
const SHORT: usize = 500;

/// The kinds that a stream of a kind is a case of.
fn brought(kind: u8) -> &'static [u8] {
    match kind {
        20 => &[20, 21, 22, 23],
        24 => &[24, 25, 21, 26, 27],
        _ => &[],
    }
}

struct Cases {
    out: BufWriter<Stdout>,
    seen: BTreeMap<(u8, u8, &'static str), u64>,
    rows: Rows,
    count: u64,
}

impl Cases {
    fn put(&mut self, kind: u8, input: &[u8]) {
        let answer = answer(kind, input);
        for (number, reason) in answer.met {
            *self.seen.entry((kind, number, reason)).or_default() += 1;
        }
        if let Some((sequence, pictures)) = answer.film {
            self.rows.count(sequence, &pictures);
        }
        self.count += 1;
        let length = |bytes: &[u8]| u16::try_from(bytes.len()).unwrap().to_le_bytes();
        let case = [&[kind], &length(input)[..], &length(&answer.bytes), input, &answer.bytes].concat();
        self.out.write_all(&case).unwrap_or_else(|_| exit(1));
    }

    /// A stream of kind 20 or 24 is a case of other modes too.
    fn put_all(&mut self, kind: u8, input: &[u8]) {
        match brought(kind) {
            [] => self.put(kind, input),
            kinds if kind == 24 && SHORT < input.len() => kinds[..3].iter().for_each(|&kind| self.put(kind, input)),
            kinds => kinds.iter().for_each(|&kind| self.put(kind, input)),
        }
    }

    fn known(&mut self, kind: u8) {
        for (name, bytes) in known::known(kind) {
            let input = if kind < 17 { bytes } else { checks::with_room(&bytes) };
            self.put_all(kind, &input);
            match kind {
                17 | 18 | 20 | 24 => eprintln!("known: {name}: {}", checks::told(kind, &input)),
                _ => eprintln!("known: {name}: {}", answer(kind, &input).bytes[0]),
            }
        }
    }

    fn short(&mut self, kind: u8) {
        if kind <= 7 {
            headers::short(kind, &mut |input| self.put(kind, input));
        }
    }

    fn edges(&mut self, kind: u8, d: &mut Draw) {
        let put = &mut |input: &[u8]| self.put_all(kind, input);
        match kind {
            1..=7 => headers::edges(kind, d, put),
            8..=13 => writers::edges(kind, d, put),
            14..=16 => calls::edges(kind, d, put),
            17 | 18 | 20 | 24 => checks::edges(kind, d, put),
            _ => {}
        }
    }

    /// Says what was made; false where a refusal that a kind can give is missing, or what else it has to meet.
    fn report(&self, kinds: &[u8]) -> bool {
        let mut complete = true;
        let others = kinds.iter().flat_map(|&kind| brought(kind).iter().copied().filter(move |&k| k != kind));
        let mut all: Vec<u8> = kinds.iter().copied().chain(others).collect();
        all.sort_unstable();
        all.dedup();
        for kind in all {
            let (name, refusals) = KINDS[kind as usize - 1];
            // Streams of a variable rate are mostly 5 in kind 21; its other answers take those of kind 20.
            let few = kind == 21 && !kinds.contains(&20);
            let refusals = if few { &[1, 2, 3, 4, 5, 6] } else { refusals };
            let of = |number: u8| self.seen.iter().filter(move |((k, n, _), _)| (*k, *n) == (kind, number));
            eprintln!("{name}: {} accepted", of(0).map(|(_, n)| n).sum::<u64>());
            for &number in refusals {
                for ((_, _, reason), n) in of(number) {
                    match number {
                        lists::PASSED.. => eprintln!("    {n} {reason}"),
                        _ => eprintln!("    {n} refused {number}: {reason}"),
                    }
                }
                complete &= of(number).next().is_some();
            }
            complete &= few || NO_MODES.contains(&kind) || of(0).next().is_some();
        }
        if kinds.iter().any(|&kind| 19 <= kind) {
            complete &= self.rows.report();
        }
        eprintln!("cases {}", self.count);
        complete
    }
}

/// One input of a kind.
fn drawn(kind: u8, d: &mut Draw) -> Vec<u8> {
    match kind {
        1..=7 => headers::drawn(kind, d),
        8..=13 => writers::drawn(kind, d),
        14..=16 => calls::drawn(kind, d),
        17 | 18 | 20 | 24 => checks::drawn(kind, d),
        _ => sends::drawn(d),
    }
}

/// Prints the original's answer for a stream in a file.
fn stream(mode: Mode, file: &str) {
    let bytes = std::fs::read(file).unwrap_or_else(|e| {
        eprintln!("cases: {file}: {e}");
        exit(2)
    });
    print!("{}", check::lines(mode, &bytes));
}

/// What the command line asks for.
struct Asked {
    known: bool,
    short: bool,
    edges: bool,
    every: bool,
    small: bool,
    seed: u64,
    count: u64,
    kinds: Vec<u8>,
}

fn asked(mut words: Vec<String>) -> Option<Asked> {
    let mut flag = |name: &str| {
        let at = words.iter().position(|w| w == name);
        at.map(|i| words.remove(i)).is_some()
    };
    let (known, short, edges, small) = (flag("known"), flag("short"), flag("edges"), flag("small"));
    let every = flag("every");
    let numbers = words.iter().map(|w| w.parse().ok()).collect::<Option<Vec<u64>>>()?;
    let [seed, count, kinds @ ..] = &numbers[..] else { return None };
    let kinds: Vec<u8> = kinds.iter().map(|&k| k as u8).collect();
    let some = !kinds.is_empty() && kinds.iter().all(|k| (1..=20).contains(k) || *k == 24);
    let alone = !kinds.contains(&19) || kinds.len() == 1;
    (some && alone).then_some(Asked { known, short, edges, every, small, seed: *seed, count: *count, kinds })
}

/// Writes all cases that are asked for.
fn write(asked: &Asked) -> Cases {
    let mut d = Draw(asked.seed);
    let (out, seen, rows) = (BufWriter::new(stdout()), BTreeMap::new(), Rows::default());
    let mut cases = Cases { out, seen, rows, count: 0 };
    for &kind in &asked.kinds {
        if asked.known {
            cases.known(kind);
        }
        if asked.short {
            cases.short(kind);
        }
        if asked.edges {
            cases.edges(kind, &mut d);
        }
        if asked.every && kind == 14 {
            calls::every(&mut |input| cases.put(kind, input));
        }
    }
    let lots: Vec<u8> = asked.kinds.iter().flat_map(|&k| vec![k; WEIGHTS[k as usize - 1]]).collect();
    for _ in 0..asked.count {
        let kind = lots[d.below(lots.len())];
        let input = match kind {
            19 if asked.small => sends::small(&mut d),
            24 if asked.small => checks::small(kind, &mut d),
            _ => drawn(kind, &mut d),
        };
        cases.put_all(kind, &input);
    }
    cases.out.flush().unwrap_or_else(|_| exit(1));
    cases
}

fn main() {
    let words: Vec<String> = std::env::args().skip(1).collect();
    if let ["stream", number, file] = words.iter().map(String::as_str).collect::<Vec<_>>()[..]
        && let Some(mode) = number.parse().ok().and_then(Mode::of)
    {
        return stream(mode, file);
    }
    let Some(asked) = asked(words) else {
        eprintln!("usage: cases [known] [short] [edges] [every] [small] SEED COUNT KIND..|19");
        eprintln!("       cases stream 1|2|6|10|14 FILE");
        exit(2);
    };
    worked::hold();
    if !write(&asked).report(&asked.kinds) {
        exit(1);
    }
}
