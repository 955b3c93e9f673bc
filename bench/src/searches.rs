//! The searches for start codes: the original's loop beside `scan_code`, which looks at place after place, and `next_code`,
//! which passes over blocks and stands under the check.
//!
//! Timed is one walk over a whole stream from code to code. The original's loop also lists the codes, in memory that it
//! allocates and that is freed after the time; ours keep a number alone.

use crate::Streams;
use crate::buffers::{CASES, MB};
use crate::table::{Pick, Table, counted, rate};
use crate::timing::{best, seconds};
use original::vbv::oracle_scan_start_codes;
use std::hint::black_box;

unsafe extern "C" {
    fn codes_by_blocks(s: *const u8, s_len: usize) -> u64;
    fn looked_by_places(s: *const u8, s_len: usize) -> u64;
}

/// The original's loop; `scan_code`; `next_code`.
#[derive(Clone, Copy)]
enum Side {
    Original,
    Places,
    Blocks,
}

const SIDES: [(Side, &str); 3] =
    [(Side::Original, "original"), (Side::Places, "scan_code"), (Side::Blocks, "next_code")];

/// How many codes a walk by `next_code` comes to.
fn codes(stream: &[u8]) -> u64 {
    unsafe { codes_by_blocks(stream.as_ptr(), stream.len()) }
}

/// How many places a walk by `scan_code` looks at.
fn looked(stream: &[u8]) -> u64 {
    unsafe { looked_by_places(stream.as_ptr(), stream.len()) }
}

fn run(stream: &[u8], side: Side) -> f64 {
    match side {
        Side::Original => {
            let mut kept = vec![];
            let time = seconds(|| kept = oracle_scan_start_codes(black_box(stream)));
            black_box(kept);
            time
        }
        Side::Places => seconds(|| _ = black_box(looked(stream))),
        Side::Blocks => seconds(|| _ = black_box(codes(stream))),
    }
}

/// How many places the prescribed walk looks at: each that it comes to with four bytes from there on. It goes on behind a code;
/// without one, one on if the third byte is 00, otherwise three.
fn prescribed(stream: &[u8]) -> u64 {
    let (mut at, mut places) = (0, 0);
    while at + 4 <= stream.len() {
        places += 1;
        at += match stream[at..at + 3] {
            [0, 0, 1] => 4,
            [_, _, 0] => 1,
            _ => 3,
        };
    }
    places
}

/// The codes of a stream and the places looked at: `next_code` comes to as many codes as the original lists, and `scan_code`
/// looks at as many places as are prescribed.
fn same(stream: &[u8]) -> [usize; 2] {
    let (listed, places) = (oracle_scan_start_codes(stream).len(), prescribed(stream));
    assert_eq!((codes(stream), looked(stream)), (listed as u64, places));
    [listed, places as usize]
}

/// One line of the table.
fn line(table: &mut Table, name: &str, stream: &[u8]) {
    let [codes, places] = same(stream);
    let size = stream.len() as f64;
    let times = best(20, SIDES, |(side, _)| run(stream, side));
    let [by_places, by_blocks] = [1, 2].map(|side| times[0] / times[side]);
    let [original, scan_code, next_code] = times.map(|s| rate(size, s));
    let each = if codes == 0 { "-".into() } else { format!("{:.0}", size / codes as f64) };
    let looked = places as f64 / size;
    table.line(&format!(
        "| {name} | {codes} | {each} | {looked:.3} | {original} | {scan_code} | {by_places:.2} | {next_code} | {by_blocks:.2} |"
    ));
}

/// Runs each side once.
fn count(name: &str, stream: &[u8]) {
    let [codes, _] = same(stream);
    for (side, of) in SIDES {
        counted("scan", name, codes, stream.len(), of);
        run(stream, side);
    }
}

pub fn table(streams: &Streams, pick: &Pick) {
    let mut table = Table::new(
        "| scan from code to code, 64 MB | codes | bytes a code | places looked at a byte | original, which lists them, GB/s \
         | scan_code | ratio | next_code | ratio |",
    );
    for (name, _, _, make) in CASES {
        if !pick.has(&format!("scan, {name}, 64 MB")) {
            continue;
        }
        if pick.count {
            count(name, &make(streams, MB));
        } else {
            line(&mut table, name, &make(streams, 64 * MB));
        }
    }
}
