//! Memory's own speed: a plain sum of 64-bit words, which no scan of the same bytes outruns.

use crate::table::{Pick, Table};
use crate::timing::{rounds, seconds};
use std::hint::black_box;

pub fn table(pick: &Pick) {
    let mut table = Table::new("| memory, a sum of 64-bit words | GB/s |");
    for size in [1, 16, 64, 256, 1000] {
        if !pick.has(&format!("memory, {size} MB")) {
            continue;
        }
        let words: Vec<u64> = (0..size * 125_000).collect();
        let mut best = f64::MAX;
        rounds(20, || {
            best = best
                .min(seconds(|| _ = black_box(black_box(&words).iter().fold(0, |sum: u64, w| sum.wrapping_add(*w)))));
        });
        table.line(&format!("| {size} MB | {:.1} |", size as f64 / best / 1e3));
    }
}
