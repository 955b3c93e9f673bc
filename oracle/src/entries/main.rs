//! Runs drawn cases through the entries that C calls, and holds every value returned and every byte of every lent place to
//! what is expected: of the check and of the delay patch what the original answers, in film mode what film.rs does, of a variable rate
//! what variable.rs does (vbv.rs); of the writer what the model of the papers comes to (create.rs, cbr.rs).
//!
//!     entries COUNT SEED
//!
//! COUNT lists of calls, as many streams, and as many headers to patch.
//!
//!     entries streams FILE..
//!
//! MPEG-2 streams of encoders, in every mode: what is expected of a variable rate, plain and film, is told of each.

mod cbr;
mod create;
mod entry;
mod run;
mod vbv;

use oracle::check::lines;
use oracle::draw::Draw;
use oracle::mode::{FILM_VARIABLE, VARIABLE};
use oracle::{calls, checks, sends};
use run::Run;
use std::process::exit;

/// Streams in files.
fn files(names: &[String]) -> Run {
    let mut run = Run::new(1);
    for name in names {
        let stream = std::fs::read(name).unwrap_or_else(|e| {
            eprintln!("entries: {name}: {e}");
            exit(2)
        });
        run.case += 1;
        run.encoded(&stream);
        let told = [VARIABLE, FILM_VARIABLE].map(|mode| lines(mode, &stream).lines().nth(1).unwrap().to_string());
        println!("{name}: {}; film: {}", told[0], told[1]);
    }
    run
}

fn main() {
    let words: Vec<String> = std::env::args().skip(1).collect();
    if let [first, names @ ..] = &words[..]
        && first == "streams"
    {
        exit(if files(names).same() { 0 } else { 1 });
    }
    let numbers: Vec<u64> = words.iter().filter_map(|w| w.parse().ok()).collect();
    let [count, seed] = numbers[..] else {
        eprintln!("usage: entries COUNT SEED");
        eprintln!("       entries streams FILE..");
        exit(2);
    };
    let mut d = Draw(seed);
    let mut run = Run::new(!seed);
    for _ in 0..count {
        run.case += 1;
        run.list(&sends::drawn(&mut d));
        let (mode, kind) = [(1, 17), (2, 18), (6, 20), (10, 24), (14, 24)][d.below(5)];
        run.stream(mode, &checks::drawn(kind, &mut d));
        run.header(&calls::drawn(16, &mut d));
    }
    if !run.report(&[&vbv::OWED[..], &cbr::OWED[..]].concat()) {
        exit(1);
    }
}
