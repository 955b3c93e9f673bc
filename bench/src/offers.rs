//! The writer: the entry `cbr_offer` beside the original's `emit`, on the same headers and layers; alone, and with each side's
//! check of what was handed out.
//!
//! Timed are, for each sequence, the writer's creation, all offers of its pictures, and the check where it is asked for. The
//! layers lie ready in one memory, which both read and neither frees, and both put out to memory that was written before.
//! The original allocates its list of quantisers, and for its check what that needs; its reports are dropped after the time.

use crate::buffers;
use crate::checks::{self, Places};
use crate::entry::{cbr_create, cbr_offer, cbr_withdraw};
use crate::heap::{Lender, with_lent};
use crate::table::{Pick, Table, counted};
use crate::timing::{rounds, seconds, stack};
use oracle::layout::{CBR_ANSWER_BYTES, CBR_FRAME, CBR_STATE_BYTES};
use oracle::model::{BUFFER_UNIT, RATE_UNIT};
use original::rate_control::OracleWriter;
use original::vbv::{RemovalInterval, VbvStandard, VbvStreamReport, verify_cbr_stream};
use std::hint::black_box;
use std::ops::Range;

const I: usize = 0;
const P: usize = 1;
const B: usize = 2;

type State = [u8; CBR_STATE_BYTES];
type Answer = [u64; CBR_ANSWER_BYTES / 8];

/// A picture: its headers, and where the layer lies for each time that it is asked for.
struct Picture {
    headers: Vec<u8>,
    kind: usize,
    last: bool,
    layers: Vec<Range<usize>>,
}

/// Sequences to send one after another, each by a writer of its own, at 25 frames a second.
struct Work {
    rate: u32,
    buffer: u16,
    sequences: Vec<Vec<Picture>>,
}

/// A frame's layer of a size: slices of 504 bytes, the last one shorter.
fn layer(kind: usize, size: usize, data: &mut dyn Iterator<Item = u8>) -> Vec<u8> {
    let mut bytes = vec![0, 0, 1, 0, 0];
    bytes.extend([&[8, 0, 0][..], &[0x10, 0, 3, 0x80], &[0x18, 0, 3, 0xB8]][kind]);
    bytes.extend([0, 0, 1, 0xB5, 0x8F, 0xFF, 0xF3, 0x41, 0x80]);
    let mut row = 0;
    while bytes.len() < size - 8 {
        row = row % 0xAF + 1;
        bytes.extend([0, 0, 1, row]);
        let n = (size - 1).saturating_sub(bytes.len()).min(499);
        bytes.extend(data.take(n));
        bytes.push(0x80);
    }
    bytes.resize(size, 0x80);
    bytes
}

fn sequence_headers(rate: u32, buffer: u16) -> Vec<u8> {
    let mut bytes = vec![0, 0, 1, 0xB3, 0x2D, 2, 0x40, 0x13];
    bytes.extend((rate << 14 | 1 << 13 | u32::from(buffer) << 3).to_be_bytes());
    bytes.extend([0, 0, 1, 0xB5, 0x14, 0x82, 0, 1, 0, 0]);
    bytes
}

/// What to make sequences of: how many there are, the kinds of their pictures, the sizes of a picture's layers, of which the
/// last one fits, and of how many pictures the buffer is. The rate carries a picture and 16 bytes a frame.
struct Plan {
    name: &'static str,
    count: usize,
    kinds: Vec<usize>,
    sizes: Vec<usize>,
    pictures: usize,
}

impl Plan {
    /// The work, and the memory that its layers lie in, each sequence's for itself. They are aligned to 16 bytes as an
    /// allocator would, but at drawn distances: a copy may be slow where both places are the same modulo a page.
    fn work(&self, from: &[u8]) -> (Work, Vec<u8>) {
        let size = *self.sizes.last().unwrap();
        let rate = (size as u32 + 16) / 2; // in 400 bits a second, which is two bytes a frame
        let buffer = (8 * self.pictures * size / BUFFER_UNIT as usize) as u16;
        let mut data = buffers::slice_data(from).into_iter().cycle();
        let mut layers = |kind| self.sizes.iter().map(|&s| layer(kind, s, &mut data)).collect();
        let layers: Vec<Vec<Vec<u8>>> = self.kinds.iter().map(|&kind| layers(kind)).collect();
        let mut draw = buffers::Xorshift::new();
        let mut memory = vec![];
        let mut place = |bytes: &Vec<u8>| {
            memory.resize(memory.len().next_multiple_of(16) + 16 * draw.below(256), 0);
            memory.extend(bytes);
            memory.len() - bytes.len()..memory.len()
        };
        let mut picture = |n: usize| Picture {
            headers: if n == 0 { sequence_headers(rate, buffer) } else { vec![] },
            kind: self.kinds[n],
            last: n + 1 == self.kinds.len(),
            layers: layers[n].iter().map(&mut place).collect(),
        };
        let mut sequence = || (0..self.kinds.len()).map(&mut picture).collect();
        let sequences = (0..self.count).map(|_| sequence()).collect();
        (Work { rate, buffer, sequences }, memory)
    }
}

impl Work {
    fn offers(&self) -> usize {
        self.sequences.iter().flatten().map(|p| p.layers.len()).sum()
    }

    /// Bytes of headers and layers in all offers.
    fn bytes(&self) -> usize {
        let of = |p: &Picture| p.layers.iter().map(|l| p.headers.len() + l.len()).sum::<usize>();
        self.sequences.iter().flatten().map(of).sum()
    }

    fn create(&self, state: &mut State) -> u64 {
        unsafe { cbr_create(self.rate, self.buffer, 3, 1, 2, 4, state.as_mut_ptr(), state.len()) }
    }
}

/// A run: what to send, whether to check it, where it is put, and what it needs besides.
struct Run<'a> {
    work: &'a Work,
    layers: Lender,
    checked: bool,
    outs: Vec<Vec<u8>>,
    state: State,
    answer: Answer,
    places: Places,
}

impl<'a> Run<'a> {
    fn new(work: &'a Work, layers: Lender, checked: bool) -> Self {
        let outs = vec![vec![]; work.sequences.len()];
        let (state, answer) = ([0; CBR_STATE_BYTES], [0; CBR_ANSWER_BYTES / 8]);
        Self { work, layers, checked, outs, state, answer, places: Places::new(work.sequences[0].len()) }
    }

    /// The original's bytes of each sequence.
    fn emit(&mut self) -> f64 {
        let mut kept = Vec::with_capacity(self.outs.len());
        seconds(|| self.emit_all(&mut kept))
    }

    fn emit_all(&mut self, kept: &mut Vec<VbvStreamReport>) {
        let (rate, buffer) = (RATE_UNIT * u64::from(self.work.rate), BUFFER_UNIT * u64::from(self.work.buffer));
        for (sequence, out) in self.work.sequences.iter().zip(&mut self.outs) {
            let mut w = OracleWriter::new(rate, buffer, 3, 1, 2, 4).with_room(std::mem::take(out));
            for p in sequence {
                let mut layers = p.layers.iter().map(|l| self.layers.vector(l));
                assert!(w.emit(&p.headers, p.kind, RemovalInterval::Frame, p.last, |_| layers.next()));
            }
            *out = w.into_out();
            if self.checked {
                kept.push(verify_cbr_stream(out, VbvStandard::Mpeg2).unwrap());
            }
        }
    }

    /// Ours, to places that are as long as what is put out; there is a record place for each picture.
    fn offer(&mut self) -> f64 {
        seconds(|| self.offer_all())
    }

    fn offer_all(&mut self) {
        for (sequence, out) in self.work.sequences.iter().zip(&mut self.outs) {
            assert_eq!(self.work.create(&mut self.state), 0);
            let mut at = 0;
            for p in sequence {
                for layer in &p.layers {
                    at += offer(&mut self.state, p, self.layers.bytes(layer), &mut out[at..], &mut self.answer);
                }
            }
            if self.checked {
                assert_eq!(self.places.check(VbvStandard::Mpeg2, &out[..at], self.places.pictures()), 0);
            }
        }
    }
}

/// The bytes placed: none where the picture is wanted again.
fn offer(state: &mut State, p: &Picture, layer: &[u8], out: &mut [u8], answer: &mut Answer) -> usize {
    let number = unsafe {
        cbr_offer(
            state.as_mut_ptr(),
            state.len(),
            p.headers.as_ptr(),
            p.headers.len(),
            p.kind as u8,
            CBR_FRAME,
            p.last.into(),
            layer.as_ptr(),
            layer.len(),
            out.as_mut_ptr(),
            out.len(),
            answer.as_mut_ptr().cast(),
            CBR_ANSWER_BYTES,
        )
    };
    assert_eq!(number, 0);
    answer[7] as usize
}

/// A line, offers alone or with the check, once both have put out the same bytes and found the same in them.
fn line(table: &mut Table, name: &str, pick: &Pick, [theirs, ours]: &mut [Run; 2]) {
    theirs.emit_all(&mut vec![]);
    ours.outs = theirs.outs.iter().map(|out| vec![0xA5; out.len()]).collect();
    ours.offer_all();
    assert!(ours.outs == theirs.outs, "other bytes than the original's");
    for out in &ours.outs {
        checks::Work::new(VbvStandard::Mpeg2, out.clone()).same();
    }
    let (offers, bytes) = (ours.work.offers(), ours.work.bytes());
    if pick.count {
        counted("offers", name, offers, bytes, "original");
        theirs.emit();
        counted("offers", name, offers, bytes, "core");
        ours.offer();
        return;
    }
    let mut best = [f64::MAX; 2];
    rounds(1000, || best = [best[0].min(theirs.emit()), best[1].min(ours.offer())]);
    let stack = stack(|| ours.offer_all());
    let [emit, offer] = best.map(|s| offers as f64 / s / 1e3);
    let (ratio, rate) = (offer / emit, bytes as f64 / best[1] / 1e6);
    table.line(&format!("| {name} | {offers} | {emit:.0} | {offer:.0} | {ratio:.2} | {rate:.0} | {stack} B |"));
}

/// Withdrawals on states that lie ready, with a picture pending or not.
fn withdrawals(table: &mut Table, name: &str, pick: &Pick, state: State) {
    let mut states = [state; 1000];
    let mut withdraw = || {
        states.fill(state);
        seconds(|| {
            for state in black_box(&mut states) {
                assert_eq!(unsafe { cbr_withdraw(state.as_mut_ptr(), state.len()) }, 0);
            }
        })
    };
    if pick.count {
        counted("withdrawals", name, 1000, 1000 * CBR_STATE_BYTES, "core");
        withdraw();
        return;
    }
    let mut best = f64::MAX;
    rounds(10_000, || best = best.min(withdraw()));
    table.line(&format!("| {name} | {:.1} |", 1e-3 / best));
}

/// Three layers of four are too large. A quantiser of 1 allows three times three retries for each kind.
fn retried() -> Plan {
    Plan {
        name: "306 of 10 KB, each after three of 50 KB that are too large",
        count: 34,
        kinds: [I, P, B].repeat(3),
        sizes: vec![50_000, 50_000, 50_000, 10_000],
        pictures: 4,
    }
}

fn plans() -> Vec<Plan> {
    let kinds: Vec<usize> = (0..300).map(|n| if n == 0 { I } else { [P, B, B][n % 3] }).collect();
    let of = |(name, size)| Plan { name, count: 1, kinds: kinds.clone(), sizes: vec![size], pictures: 16 };
    let mut plans = Vec::from([("300 of 1 KB", 1_000), ("300 of 10 KB", 10_000), ("300 of 60 KB", 60_000)].map(of));
    plans.push(retried());
    plans
}

pub fn table(from: &[u8], pick: &Pick) {
    let mut table =
        Table::new("| pictures | offers | original, thousand offers/s | this core | ratio | MB/s | its own stack |");
    for plan in plans() {
        for (what, checked) in [("", false), (", sent and checked", true)] {
            let name = format!("{}{what}", plan.name);
            if pick.has(&name) {
                let (work, mut memory) = plan.work(from);
                let runs = |layers| [(); 2].map(|_| Run::new(&work, layers, checked));
                with_lent(&mut memory, |layers| line(&mut table, &name, pick, &mut runs(layers)));
            }
        }
    }
}

pub fn withdrawal_table(from: &[u8], pick: &Pick) {
    let mut table = Table::new("| withdrawals | this core, million/s |");
    let (work, memory) = Plan { count: 1, ..retried() }.work(from);
    let (mut nothing, picture) = ([0; CBR_STATE_BYTES], &work.sequences[0][0]);
    assert_eq!(work.create(&mut nothing), 0);
    let mut pending = nothing;
    let layer = &memory[picture.layers[0].clone()];
    assert_eq!(offer(&mut pending, picture, layer, &mut [], &mut [0; CBR_ANSWER_BYTES / 8]), 0);
    for (name, state) in [("nothing pending", nothing), ("a picture pending", pending)] {
        if pick.has(&format!("withdrawals, {name}")) {
            withdrawals(&mut table, name, pick, state);
        }
    }
}
