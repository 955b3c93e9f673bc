//! Places that are lent to a call from C, and what it leaves in them.

use crate::draw::Draw;

/// What lies around a lent place.
const AROUND: u8 = 0xA5;

/// Memory to lend at any alignment, with bytes around it; null now and then where the length is 0.
pub struct Place {
    memory: Vec<u8>,
    from: usize,
    pub len: usize,
    null: bool,
}

impl Place {
    pub fn new(bytes: &[u8], d: &mut Draw) -> Self {
        let from = 8 + d.below(8);
        let memory = [&vec![AROUND; from][..], bytes, &[AROUND; 8]].concat();
        Self { memory, from, len: bytes.len(), null: bytes.is_empty() && d.one_in(2) }
    }

    pub fn at(&mut self) -> *mut u8 {
        if self.null { std::ptr::null_mut() } else { self.memory[self.from..].as_mut_ptr() }
    }

    /// The bytes that it holds now.
    pub fn bytes(&self) -> &[u8] {
        &self.memory[self.from..self.from + self.len]
    }

    /// What lies around it is as it was.
    pub fn around(&self) -> bool {
        let (before, rest) = self.memory.split_at(self.from);
        before.iter().chain(&rest[self.len..]).all(|&b| b == AROUND)
    }
}

/// The value returned, and what the places that a call may write hold afterwards.
#[derive(PartialEq)]
pub struct Left {
    pub number: u64,
    places: Vec<(&'static str, Vec<u8>)>,
    /// Nothing else was touched.
    kept: bool,
}

impl Left {
    /// 0, and all as it was.
    pub fn before(places: &[(&'static str, &[u8])]) -> Self {
        Self { number: 0, places: places.iter().map(|&(name, bytes)| (name, bytes.to_vec())).collect(), kept: true }
    }

    /// Of a call that may write some places, and read others that held some bytes.
    pub fn after(number: u64, written: &[(&'static str, &Place)], read: &[(&Place, &[u8])]) -> Self {
        let places = written.iter().map(|&(name, p)| (name, p.bytes().to_vec())).collect();
        let mut lent = written.iter().map(|w| w.1).chain(read.iter().map(|r| r.0));
        let kept = lent.all(Place::around) && read.iter().all(|&(p, bytes)| p.bytes() == bytes);
        Self { number, places, kept }
    }

    pub fn at(&mut self, name: &str) -> &mut Vec<u8> {
        &mut self.places.iter_mut().find(|p| p.0 == name).unwrap().1
    }

    /// With words over a place.
    pub fn with(mut self, name: &str, words: &[u64]) -> Self {
        lay(self.at(name), words);
        self
    }

    /// Without a place that another call does not have.
    pub fn without(mut self, name: &str) -> Self {
        self.places.retain(|p| p.0 != name);
        self
    }

    /// Where it is another than expected.
    pub fn unlike(&self, expected: &Self) -> String {
        let mut told = format!("returned {} for {}", self.number, expected.number);
        for ((name, a), (_, b)) in self.places.iter().zip(&expected.places) {
            if let Some(i) = (0..a.len()).find(|&i| a[i] != b[i]) {
                told += &format!(", {name} from byte {i}: {} for {}", a[i], b[i]);
            }
        }
        told + if self.kept { "" } else { ", bytes that no place has" }
    }
}

/// Words over a place, low byte first; a place that is too short stays.
pub fn lay(place: &mut [u8], words: &[u64]) {
    if 8 * words.len() <= place.len() {
        for (to, w) in place.chunks_mut(8).zip(words) {
            to.copy_from_slice(&w.to_le_bytes());
        }
    }
}
