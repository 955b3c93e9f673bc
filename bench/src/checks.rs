//! The check: the entry `vbv_check` beside the original's `verify_cbr_stream`.
//!
//! Timed is the one call. The stream, and for ours the places to write to, lie in memory that was written before; the original
//! allocates what it needs and frees what it does not hand back, and its report is dropped after the time.

use crate::buffers::{CASES, MB};
use crate::entry::vbv_check;
use crate::table::{Pick, Table, counted, rate};
use crate::timing::{best, seconds, stack};
use crate::{Streams, heap};
use oracle::check::periods;
use oracle::layout::{VBV_MPEG1, VBV_MPEG2, VBV_RECORD_BYTES, VBV_REFUSAL_BYTES, VBV_REPORT_BYTES};
use oracle::spans::picture_codes;
use original::vbv::{VbvStandard, VbvVerifyError, verify_cbr_stream};
use std::hint::black_box;

/// Where our check writes.
pub struct Places {
    report: [u64; VBV_REPORT_BYTES / 8],
    refusal: [u64; VBV_REFUSAL_BYTES / 8],
    records: Vec<u8>,
}

impl Places {
    pub fn new(pictures: usize) -> Self {
        let (report, refusal) = ([0; VBV_REPORT_BYTES / 8], [0; VBV_REFUSAL_BYTES / 8]);
        Self { report, refusal, records: vec![1; VBV_RECORD_BYTES * pictures] }
    }

    pub fn pictures(&self) -> usize {
        self.records.len() / VBV_RECORD_BYTES
    }

    /// Our check, with places for the records of some pictures.
    pub fn check(&mut self, standard: VbvStandard, stream: &[u8], pictures: usize) -> u64 {
        let number = if standard == VbvStandard::Mpeg1 { VBV_MPEG1 } else { VBV_MPEG2 };
        unsafe {
            vbv_check(
                stream.as_ptr(),
                stream.len(),
                number,
                self.report.as_mut_ptr().cast(),
                VBV_REPORT_BYTES,
                self.records.as_mut_ptr(),
                VBV_RECORD_BYTES * pictures,
                self.refusal.as_mut_ptr().cast(),
                VBV_REFUSAL_BYTES,
            )
        }
    }
}

/// The original's check; ours; ours without record places, which ends after one walk.
#[derive(Clone, Copy)]
enum Side {
    Original,
    Core,
    OneWalk,
}

const SIDES: [(Side, &str); 3] = [(Side::Original, "original"), (Side::Core, "core"), (Side::OneWalk, "one walk")];

/// A stream to check, with places for its records.
pub struct Work {
    stream: Vec<u8>,
    standard: VbvStandard,
    places: Places,
}

impl Work {
    pub fn new(standard: VbvStandard, stream: Vec<u8>) -> Self {
        let places = Places::new(picture_codes(&stream));
        Self { stream, standard, places }
    }

    fn run(&mut self, side: Side) -> f64 {
        let (stream, standard, places) = (&self.stream, self.standard, &mut self.places);
        match side {
            Side::Original => {
                let mut kept = None;
                let time = seconds(|| kept = Some(verify_cbr_stream(black_box(stream), standard)));
                black_box(kept);
                time
            }
            Side::Core => seconds(|| _ = black_box(places.check(standard, stream, places.pictures()))),
            Side::OneWalk => seconds(|| _ = black_box(places.check(standard, stream, 0))),
        }
    }

    /// The same answer from both: the report and every record, or a refusal. The original has no periods: these are held to
    /// the oracle's own rule.
    pub fn same(&mut self) -> String {
        let answer = self.places.check(self.standard, &self.stream, self.places.pictures());
        match verify_cbr_stream(&self.stream, self.standard) {
            Ok(r) => {
                let head = [r.bit_rate, r.buffer_size_bits, r.pictures.len() as u64];
                let least_greatest = [r.min_occupancy_after_bits as u64, r.max_occupancy_before_bits as u64];
                assert_eq!((answer, &self.places.report[..]), (0, &[&head[..], &least_greatest].concat()[..]));
                let records = self.places.records.chunks(VBV_RECORD_BYTES);
                let periods = periods(self.standard, &self.stream);
                assert_eq!(periods.len(), r.pictures.len());
                for ((p, periods), bytes) in r.pictures.iter().zip(periods).zip(records) {
                    let (delay, expected, before) = (p.vbv_delay, p.expected_delay, p.occupancy_before_bits as u64);
                    let words = [delay.into(), expected.into(), p.data_bits, before, periods];
                    assert_eq!(words.map(u64::to_le_bytes).concat(), bytes);
                }
                format!("accepted, {} pictures", r.pictures.len())
            }
            Err(e) => {
                assert!(answer != 0);
                assert!(!matches!(e, VbvVerifyError::Violation(_)) || (9..=11).contains(&answer));
                format!("refused {answer}")
            }
        }
    }
}

/// One line of the table.
fn line(table: &mut Table, name: &str, mut work: Work) {
    let answer = work.same();
    let size = work.stream.len() as f64;
    let times = best(100, SIDES, |(side, _)| work.run(side));
    let ratio = times[0] / times[1];
    let [original, core, one_walk] = times.map(|s| rate(size, s));
    let heap = heap::most_held(|| drop(black_box(verify_cbr_stream(&work.stream, work.standard)))) as f64 / 1e6;
    let stack = stack(|| _ = work.places.check(work.standard, &work.stream, work.places.pictures()));
    let mega = size / 1e6;
    table.line(&format!(
        "| {name} | {mega:.0} MB | {answer} | {original} | {core} | {ratio:.2} | {one_walk} | {heap:.1} MB | {stack} B |"
    ));
}

/// Runs each side once.
fn count(name: &str, mut work: Work) {
    work.same();
    for (side, of) in SIDES {
        counted("stream", name, work.places.pictures(), work.stream.len(), of);
        work.run(side);
    }
}

pub fn table(streams: &Streams, pick: &Pick) {
    let mut table = Table::new(
        "| stream | size | answer | original GB/s | this core GB/s | ratio | no record places | original's heap | its own stack |",
    );
    for (name, sizes, standard, make) in CASES {
        let work = |size| Work::new(standard, make(streams, size));
        let picked = sizes.iter().filter(|size| pick.has(&format!("{name}, {size} MB")));
        if !pick.count {
            picked.for_each(|size| line(&mut table, name, work(size * MB)));
        } else if picked.count() != 0 {
            count(name, work(MB));
        }
    }
}
