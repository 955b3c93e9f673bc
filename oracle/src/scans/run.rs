//! A run: what was called, what was met, and what differs.

use crate::entry;
use crate::met::{Met, Search};
use crate::places::{code_at, looked_at};
use oracle::draw::Draw;
use oracle::format::number;
use oracle::place::{Place, lay};
use original::vbv::oracle_scan_start_codes;

/// Differences that are told one by one, and the longest input that is told with them.
const TOLD: u64 = 10;
const TOLD_BYTES: usize = 64;

/// A search as C calls it, and how many words it answers.
struct Entry {
    name: &'static str,
    call: unsafe extern "C" fn(*const u8, usize, usize, *mut u8, usize),
    words: usize,
}

/// By places and by blocks.
const ENTRIES: [Entry; 2] = [
    Entry { name: "scan_code_words", call: entry::scan_code_words, words: 4 },
    Entry { name: "next_code_words", call: entry::next_code_words, words: 3 },
];

pub struct Run {
    d: Draw,
    met: Met,
    inputs: u64,
    calls: u64,
    differ: u64,
}

/// An input, the original's list of its codes, and the place where it is lent.
struct Input<'a> {
    s: &'a [u8],
    codes: Vec<(usize, u8)>,
    lent: Place,
}

/// The first code from a place on: that of the original's list of what is there, moved on.
fn first_from(s: &[u8], from: usize) -> Option<(usize, u8)> {
    let codes = oracle_scan_start_codes(s.get(from..)?);
    codes.first().map(|&(offset, code)| (from + offset, code))
}

/// How many places a search may look at: those there are, and over bytes all above 01 a third of the bytes.
fn most(search: &Search) -> u64 {
    let bytes = search.rest().len();
    let places = bytes.saturating_sub(3);
    (if search.all_above_one() { places.min(bytes / 3) } else { places }) as u64
}

impl Run {
    pub fn new(seed: u64) -> Self {
        Self { d: Draw(seed), met: Met::new(), inputs: 0, calls: 0, differ: 0 }
    }

    /// One input: from 0 code by code, from some places, and the whole at once.
    pub fn input(&mut self, s: &[u8], froms: &[usize]) {
        self.inputs += 1;
        let differed = self.differ;
        let mut input = Input { s, codes: oracle_scan_start_codes(s), lent: Place::new(s, &mut self.d) };
        let looked = self.walk(&mut input);
        for &from in froms {
            self.search(&mut input, from, first_from(s, from));
        }
        // The archive's own walks may not end where a search goes wrong.
        if self.differ == differed {
            self.whole(&mut input, looked);
        }
        if input.lent.bytes() != s || !input.lent.around() {
            self.differs(s, "bytes of the input, or around it, are others afterwards");
        }
    }

    /// From 0 code by code, each search from 4 bytes behind the last code: how many places are to be looked at together.
    fn walk(&mut self, input: &mut Input) -> u64 {
        let mut looked = 0;
        let mut from = 0;
        for k in 0..=input.codes.len() {
            let code = input.codes.get(k).copied();
            looked += self.search(input, from, code);
            from = code.map_or(from, |(offset, _)| offset + 4);
        }
        looked
    }

    /// One search, by places and by blocks: how many places are to be looked at.
    fn search(&mut self, input: &mut Input, from: usize, code: Option<(usize, u8)>) -> u64 {
        let s = input.s;
        let places = looked_at(s, from);
        let end = places.last().copied().filter(|&place| code_at(s, place));
        if end != code.map(|(offset, _)| offset) {
            self.differs(s, &format!("from {from}: the places end at {end:?}, the original finds {code:?}"));
        }
        let search = Search { s, codes: &input.codes, from, code };
        self.met.search(&search);
        let most = most(&search);
        let looked = places.len() as u64;
        let (offset, fourth) = code.unwrap_or((0, 0));
        let words = [code.is_some().into(), offset as u64, fourth.into(), looked];
        for entry in &ENTRIES {
            let answered = self.answered(entry, input, from, &words[..entry.words]);
            if answered.get(3).is_some_and(|&looked| looked > most) {
                self.differs(s, &format!("from {from}: more than {most} places looked at"));
            }
        }
        looked
    }

    /// The words that an entry lays over a place; before some of the calls stands one with a place that is too short.
    fn answered(&mut self, entry: &Entry, input: &mut Input, from: usize, words: &[u64]) -> Vec<u64> {
        let enough = 8 * words.len();
        if self.d.one_in(16) {
            self.met.short += 1;
            let short = self.d.below(enough);
            self.call(entry, input, from, words, short);
        }
        let more = if self.d.one_in(4) { 1 + self.d.below(20) } else { 0 };
        self.met.longer += u64::from(more > 0);
        let mut answered = self.call(entry, input, from, words, enough + more);
        answered.truncate(words.len());
        answered
    }

    /// One call with a place of some length: the words there afterwards.
    fn call(&mut self, entry: &Entry, input: &mut Input, from: usize, words: &[u64], length: usize) -> Vec<u64> {
        self.calls += 1;
        let mut expected = self.d.bytes(length);
        let mut place = Place::new(&expected, &mut self.d);
        unsafe { (entry.call)(input.lent.at(), input.lent.len, from, place.at(), place.len) };
        lay(&mut expected, words);
        let words_of = |bytes: &[u8]| bytes.chunks(8).map(number).collect::<Vec<u64>>();
        let left = words_of(place.bytes());
        if place.bytes() != expected || !place.around() {
            let around = if place.around() { "" } else { ", and bytes around the place" };
            let (name, expected) = (entry.name, words_of(&expected));
            self.differs(input.s, &format!("{name} from {from}, {length} bytes: {left:?} for {expected:?}{around}"));
        }
        left
    }

    /// The walks over the whole: how many codes, and how many places looked at.
    fn whole(&mut self, input: &mut Input, looked: u64) {
        self.calls += 2;
        let codes = input.codes.len() as u64;
        let (at, n) = (input.lent.at(), input.lent.len);
        let found = unsafe { (entry::codes_by_blocks(at, n), entry::looked_by_places(at, n)) };
        if found != (codes, looked) {
            self.differs(input.s, &format!("codes by blocks, looked by places: {found:?} for {:?}", (codes, looked)));
        }
    }

    fn differs(&mut self, s: &[u8], told: &str) {
        self.differ += 1;
        if self.differ <= TOLD {
            let bytes = if s.len() <= TOLD_BYTES { format!("{s:02X?}") } else { format!("{} bytes", s.len()) };
            eprintln!("input {}, {bytes}: {told}", self.inputs);
        }
    }

    /// Says what was met; false where something differs or was not met.
    pub fn report(&self) -> bool {
        let complete = self.met.report();
        println!("scans: {} inputs, {} calls, differ {}", self.inputs, self.calls, self.differ);
        complete && self.differ == 0
    }
}
