//! Runs inputs through both searches for start codes, as crates/searches gives them to C, and holds every code found to the
//! original's list of codes, and every count of places to one made by the words of paper 02 (places.rs).
//!
//!     scans COUNT SEED
//!
//! All strings of the bytes 00, 01, 02 and B3 up to 9 long, searched from every place; then COUNT drawn inputs.

mod entry;
mod inputs;
mod met;
mod places;
mod run;

use oracle::draw::Draw;
use run::Run;
use std::process::exit;

fn main() {
    let numbers: Vec<u64> = std::env::args().skip(1).filter_map(|w| w.parse().ok()).collect();
    let [count, seed] = numbers[..] else {
        eprintln!("usage: scans COUNT SEED");
        exit(2);
    };
    let mut run = Run::new(!seed);
    inputs::short(&mut |s| run.input(s, &inputs::everywhere(s)));
    let mut d = Draw(seed);
    for _ in 0..count {
        let s = inputs::drawn(&mut d);
        run.input(&s, &inputs::froms(&s, &mut d));
    }
    if !run.report() {
        exit(1);
    }
}
