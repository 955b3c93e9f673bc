//! What the kinds share of FORMAT.md: an answer with what was met on the way to it, numbers as bytes, and parts that are lent.

use crate::cadence::{Facts, Sequence};

/// What was met: 0, or the number of a refusal, with its reason.
pub type Met = (u8, &'static str);

pub const ACCEPTED: Met = (0, "");

/// The bytes of an answer, and what was met on the way to them; of pictures that lasted by the film rule also which.
pub struct Answer {
    pub bytes: Vec<u8>,
    pub met: Vec<Met>,
    pub film: Option<(Sequence, Vec<Facts>)>,
}

impl Answer {
    /// The number; other bytes may follow.
    pub fn of(met: Met) -> Self {
        Self { bytes: vec![met.0], met: vec![met], film: None }
    }
}

/// The number that bytes hold, the lowest first.
pub fn number(bytes: &[u8]) -> u64 {
    bytes.iter().rev().fold(0, |value, &b| value << 8 | u64::from(b))
}

/// Puts numbers of eight bytes.
pub fn words(out: &mut Vec<u8>, numbers: &[u64]) {
    out.extend(numbers.iter().flat_map(|n| n.to_le_bytes()));
}

/// What a part that is lent holds before the call.
pub fn pattern(length: usize) -> Vec<u8> {
    (0..length).map(|i| (i % 251) as u8).collect()
}
