//! A run: what was called, what was met, and what differs.

use oracle::draw::Draw;
use oracle::place::Left;
use std::collections::BTreeMap;

/// Differences that are told one by one.
const TOLD: u64 = 10;

/// Calls of one sort, or their records, with what has to be met.
pub type Owed = (&'static str, &'static [&'static str]);

pub struct Run {
    pub d: Draw,
    /// Which list, stream and header it is at.
    pub case: u64,
    seen: BTreeMap<(&'static str, String), u64>,
    calls: u64,
    differ: u64,
}

impl Run {
    pub fn new(seed: u64) -> Self {
        Self { d: Draw(seed), case: 0, seen: BTreeMap::new(), calls: 0, differ: 0 }
    }

    pub fn count(&mut self, what: &'static str, why: &str) {
        *self.seen.entry((what, why.into())).or_default() += 1;
    }

    /// Counts a call, and compares what it left.
    pub fn met(&mut self, what: &'static str, why: &str, found: &Left, expected: &Left) {
        self.count(what, why);
        self.calls += 1;
        if found != expected {
            self.differ += 1;
            if self.differ <= TOLD {
                eprintln!("case {}, {what}, {why}: {}", self.case, found.unlike(expected));
            }
        }
    }

    /// Whether nothing differs; says how many calls were made.
    pub fn same(&self) -> bool {
        println!("entries: {} streams of encoders, {} calls, differ {}", self.case, self.calls, self.differ);
        self.differ == 0
    }

    /// Says what was met; false where something differs or was not met.
    pub fn report(&self, owed: &[Owed]) -> bool {
        let mut complete = true;
        for &(what, answers) in owed {
            println!("{what}:");
            for ((_, why), n) in self.seen.iter().filter(|((w, _), _)| *w == what) {
                println!("    {n} {why}");
            }
            for why in answers.iter().filter(|why| !self.seen.contains_key(&(what, why.to_string()))) {
                println!("    none {why}");
                complete = false;
            }
        }
        let n = self.case;
        println!("entries: {n} lists, {n} streams, {n} headers, {} calls, differ {}", self.calls, self.differ);
        complete && self.differ == 0
    }
}
