//! The writer as paper 01 tells it ('A placed picture'), at the rates of request 02, plain or film (request 05), of a constant or a
//! variable rate (request 06): a model of the papers' rules in plain numbers of 128 bits. It parses with the original's functions;
//! everything else is its own, its numbers (400, 16,384, 2^48) too: so it is independent of what it is compared with. A film writer
//! keeps the list of the pictures that it has placed, and asks cadence.rs how long the next one lasts.

use crate::cadence::{Facts, Sequence, last_periods};
use original::picture_header::{Mpeg2PictureHeader, PictureCodingType, PictureStructure};
use original::sequence_extension::Mpeg2Sequence;

const FRAME_RATES: [(u128, u128); 8] =
    [(24_000, 1001), (24, 1), (25, 1), (30_000, 1001), (30, 1), (50, 1), (60_000, 1001), (60, 1)];

/// What a writer is created with, as wide as an entry can say it; n and d are those of the frame rate's extension. The mode is
/// MPEG-2's 2, or 6 for film, each with 8 more for a variable rate; any other is out of range.
#[derive(Clone, Copy)]
pub struct Config {
    pub mode: u64,
    pub rate: u64,
    pub buffer: u64,
    pub rate_code: u64,
    pub n: u64,
    pub d: u64,
    pub q: u64,
    pub between: u64,
    pub anchors: u64,
}

/// The rate of a code, n and d in range, not reduced; none where there is no such code.
fn frame_rate(code: u64, n: u64, d: u64) -> Option<(u128, u128)> {
    let (frn, frd) = FRAME_RATES.get(usize::try_from(code.checked_sub(1)?).ok()?)?;
    Some((frn * (u128::from(n) + 1), frd * (u128::from(d) + 1)))
}

/// An offer's interval: a frame, a field, or one of those that no offer may have.
pub const FRAME: u8 = 0;
pub const FIELD: u8 = 1;

/// Kinds are 0, 1 and 2 for I, P and B.
#[derive(Clone, PartialEq)]
pub struct Offer {
    pub headers: Vec<u8>,
    pub kind: usize,
    pub interval: u8,
    pub last: bool,
    pub layer: Vec<u8>,
}

#[derive(Clone, Copy, Debug, PartialEq)]
pub enum Told {
    Placed { q: u8, delay: u16, bytes: u64, stuffing: u64, periods: u64 },
    Again(u8),
    Refused(u8),
}

/// Bits delivered are counted in units of 1 / (180,000 × frn) bit.
#[derive(Clone)]
pub struct Writer {
    pub rate: u128,
    pub buffer: u128,
    pub frn: u128,
    pub frd: u128,
    pub targets: [u64; 3],
    pub q: [u8; 3],
    pub pending: Option<(usize, u8)>,
    pub started: bool,
    pub delivered: u128,
    pub end: u128,
    pub placed: u64,
    pub stuffing: u64,
    pub finished: bool,
    pub film: bool,
    pub variable: bool,
    /// Of a film writer: what the headers of its first picture said, and the pictures placed.
    pub sequence: Sequence,
    pub pictures: Vec<Facts>,
}

/// Where an offered picture lies: in bits from the stream's first, its start code's end, its own end, and that with stuffing; in
/// units, what is delivered at its removal and at the next one.
struct Spot {
    position: u128,
    content: u128,
    end: u128,
    delivered: u128,
    next: u128,
    periods: u64,
}

/// Start codes with their places, found left to right.
fn codes(s: &[u8]) -> Vec<(usize, u8)> {
    let (mut found, mut i) = (vec![], 0);
    while i + 3 < s.len() {
        if s[i..i + 3] == [0, 0, 1] {
            found.push((i, s[i + 3]));
            i += 4;
        } else {
            i += 1;
        }
    }
    found
}

fn bit(s: &[u8], i: usize) -> u8 {
    s[i / 8] >> (7 - i % 8) & 1
}

/// The bits of a picture header that parses.
fn header_bits(layer: &[u8], kind: usize) -> usize {
    let mut at = 32 + 10 + 3 + 16 + 4 * kind;
    while bit(layer, at) == 1 {
        at += 9;
    }
    at + 1
}

/// What film mode asks of a layer that parses.
fn facts(layer: &[u8]) -> Facts {
    let (header, extension) = Mpeg2PictureHeader::parse_with_extension(layer).expect("a layer that fits");
    Facts {
        anchor: header.picture_coding_type != PictureCodingType::Bidirectional,
        field: extension.picture_structure != PictureStructure::Frame,
        repeat: extension.repeat_first_field,
        top: extension.top_field_first,
    }
}

/// 'Only a film writer takes layers with repeat_first_field 1; its offers' interval still says frame or field.'
fn layer_fits(film: bool, o: &Offer) -> bool {
    let layer = &o.layer;
    let Ok((header, extension)) = Mpeg2PictureHeader::parse_with_extension(layer) else { return false };
    let kind = match header.picture_coding_type {
        PictureCodingType::Intra => 0,
        PictureCodingType::Predictive => 1,
        PictureCodingType::Bidirectional => 2,
        _ => return false,
    };
    let frame = extension.picture_structure == PictureStructure::Frame;
    let structure = o.interval == if frame { FRAME } else { FIELD };
    let repeat = extension.repeat_first_field && !film;
    let pel = [header.full_pel_forward_vector, header.full_pel_backward_vector].iter().all(|f| *f != Some(true));
    let seven = [header.fwd_f_code, header.bwd_f_code].iter().flatten().all(|&c| c == 7);
    if kind != o.kind || !structure || repeat || !pel || !seven {
        return false;
    }
    let bits = header_bits(layer, kind);
    let bytes = bits.div_ceil(8);
    let padded = (bits..8 * bytes).all(|i| bit(layer, i) == 0);
    let zeros = layer[bytes..].iter().take_while(|&&b| b == 0).count();
    let prefix = 2 <= zeros && layer[bytes + zeros..].starts_with(&[1, 0xB5]);
    let codes = codes(layer);
    let slice = |c: u8| (0x01..=0xAF).contains(&c);
    let first = (1..codes.len()).find(|&i| slice(codes[i].1)).unwrap_or(codes.len());
    padded
        && prefix
        && codes[0] == (0, 0)
        && codes[1..first].iter().all(|c| c.1 == 0xB5 || c.1 == 0xB2)
        && first < codes.len()
        && codes[first..].iter().all(|c| slice(c.1))
        && !layer.ends_with(&[0, 0, 1])
}

impl Writer {
    pub fn create(c: Config) -> Result<Self, u8> {
        let fits = [2, 6, 10, 14].contains(&c.mode)
            && (1..=262_143).contains(&c.rate)
            && (1..=1023).contains(&c.buffer)
            && c.n <= 3
            && c.d <= 31
            && (1..=31).contains(&c.q)
            && c.between <= 15
            && (1..=255).contains(&c.anchors);
        if !fits {
            return Err(12);
        }
        let Some((frn, frd)) = frame_rate(c.rate_code, c.n, c.d) else { return Err(6) };
        let (rate, buffer) = (400 * u128::from(c.rate), 16_384 * u128::from(c.buffer));
        let variable = 8 <= c.mode;
        if !variable && 90_000 * buffer > 65_534 * rate {
            return Err(12);
        }
        let (between, anchors) = (u128::from(c.between), u128::from(c.anchors));
        let group = rate * frd / frn * (1 + anchors * (between + 1));
        let weights = 40 + 16 * anchors + 9 * anchors * between;
        let targets = [40, 16, 9].map(|w| (group * w / weights) as u64);
        let (q, pending) = ([c.q as u8; 3], None);
        Ok(Self {
            rate,
            buffer,
            frn,
            frd,
            targets,
            q,
            pending,
            started: false,
            delivered: 0,
            end: 0,
            placed: 0,
            stuffing: 0,
            finished: false,
            film: c.mode % 8 == 6,
            variable,
            sequence: Sequence::default(),
            pictures: vec![],
        })
    }

    pub fn units(&self) -> u128 {
        180_000 * self.frn
    }

    /// Whole bits delivered, the rest in units, the previous end and the removals.
    pub fn model(&self) -> [u64; 4] {
        let (whole, rest) = (self.delivered / self.units(), self.delivered % self.units());
        [whole as u64, rest as u64, self.end as u64, self.placed]
    }

    fn headers_fit(&self, h: &[u8]) -> bool {
        let codes = codes(h);
        let sequences = codes.iter().filter(|c| c.1 == 0xB3).count();
        let shape = (h.is_empty() || h.starts_with(&[0, 0, 1]))
            && codes.iter().all(|c| [0xB2, 0xB3, 0xB5, 0xB8].contains(&c.1))
            && !h.ends_with(&[0, 0, 1]);
        if self.started {
            return shape && sequences == 0;
        }
        shape && sequences == 1 && codes[0] == (0, 0xB3) && self.declared(h)
    }

    /// A sequence header with this rate and buffer, and a frame rate of this value, whatever its code, n and d.
    fn declared(&self, h: &[u8]) -> bool {
        Mpeg2Sequence::from_buf(h).is_ok_and(|s| {
            let (n, d) = (s.extension.frame_rate_extension_n, s.extension.frame_rate_extension_d);
            let shown = frame_rate(s.header.frame_rate_code.into(), n.into(), d.into());
            400 * u128::from(s.bit_rate) == self.rate
                && 16_384 * u128::from(s.vbv_buffer_size) == self.buffer
                && shown.is_some_and(|(frn, frd)| frn * self.frd == self.frn * frd)
        })
    }

    /// Where the picture's start code ends, in bits.
    pub fn position(&self, headers: usize) -> u128 {
        self.end + 8 * (headers as u128 + 4)
    }

    /// Units delivered at the removal of an offered picture. At a variable rate 'the buffer is full at the first removal'.
    pub fn delivered(&self, headers: usize) -> u128 {
        if self.started {
            return self.delivered;
        }
        if self.variable {
            return self.buffer * self.units();
        }
        let delay = 90_000 * self.buffer * 3 / (4 * self.rate);
        self.position(headers) * self.units() + delay * self.rate * 2 * self.frn
    }

    /// Bytes that may be added before the bits delivered are used up.
    pub fn room(&self, headers: usize) -> u64 {
        (self.delivered(headers) / self.units()).saturating_sub(self.end) as u64 / 8
    }

    /// 'A film writer takes them from the headers of the offer that is being judged until a picture is placed.'
    fn sequence(&self, headers: &[u8]) -> Sequence {
        if self.started {
            return self.sequence;
        }
        let e = Mpeg2Sequence::from_buf(headers).expect("headers that fit").extension;
        Sequence { progressive: e.progressive_sequence, low_delay: e.low_delay }
    }

    /// How many field periods an offered picture lasts, if headers and layer fit.
    pub fn periods(&self, o: &Offer) -> u64 {
        if !self.film {
            return if o.interval == FIELD { 1 } else { 2 };
        }
        let before = if self.started { &self.pictures[..] } else { &[] };
        last_periods(self.sequence(&o.headers), &[before, &[facts(&o.layer)]].concat())
    }

    pub fn asked(&self, kind: usize) -> u8 {
        self.pending.map_or(self.q[kind], |p| p.1)
    }

    /// A state that no list of calls comes to: one picture placed, an end, and whole bits delivered.
    pub fn set(&mut self, end: u64, whole: u64) {
        (self.started, self.placed) = (true, 1);
        (self.end, self.delivered) = (end.into(), u128::from(whole) * self.units());
    }

    /// Whether the state is in range. At a variable rate the buffer 'stays at B once full': no more than B bits are delivered after
    /// the end of a placed picture.
    pub fn in_range(&self) -> bool {
        !self.variable || !self.started || self.delivered <= (self.end + self.buffer) * self.units()
    }

    /// False where the state is not in range: 12.
    pub fn withdraw(&mut self) -> bool {
        if self.in_range() {
            self.pending = None;
        }
        self.in_range()
    }

    /// What an offer is refused for before its place in the stream counts.
    fn unfit(&self, o: &Offer) -> Option<u8> {
        if !self.in_range() {
            return Some(12);
        }
        if self.finished || self.pending.is_some_and(|p| p.0 != o.kind) {
            return Some(17);
        }
        if !self.headers_fit(&o.headers) {
            return Some(18);
        }
        (!layer_fits(self.film, o)).then_some(20)
    }

    fn spot(&self, o: &Offer) -> Spot {
        let units = self.units();
        let tail = if o.last { 4 } else { 0 };
        let content = self.end + 8 * (o.headers.len() + o.layer.len() + tail) as u128;
        let delivered = self.delivered(o.headers.len());
        let periods = self.periods(o);
        let gain = self.rate * self.frd * 90_000 * u128::from(periods);
        let mut next = delivered + gain;
        let mut end = content;
        if self.variable {
            // 'Gains R times the period after each, and stays at B once full'; nothing of it is stuffed away.
            let after = delivered.saturating_sub(content * units);
            next = content * units + (after + gain).min(self.buffer * units);
        } else if !o.last {
            let least = next.saturating_sub(self.buffer * units).div_ceil(units);
            end = end.max(8 * least.div_ceil(8));
        }
        Spot { position: self.position(o.headers.len()), content, end, delivered, next, periods }
    }

    /// What an offer is refused for before its size counts.
    fn out_of_place(&self, at: &Spot) -> Option<u8> {
        let (units, far) = (self.units(), 1 << 48);
        if at.position > far || at.end > far {
            return Some(14);
        }
        if self.variable {
            return None;
        }
        if at.position * units > at.delivered {
            return Some(7);
        }
        (at.delivered > (self.end + self.buffer) * units).then_some(9)
    }

    pub fn offer(&mut self, o: &Offer, part: &mut [u8]) -> Told {
        if let Some(number) = self.unfit(o) {
            return Told::Refused(number);
        }
        let at = self.spot(o);
        if let Some(number) = self.out_of_place(&at) {
            return Told::Refused(number);
        }
        if at.content * self.units() > at.delivered {
            return self.too_large(o.kind);
        }
        if at.end * self.units() > at.delivered {
            return Told::Refused(22);
        }
        match part.get_mut(..((at.end - self.end) / 8) as usize) {
            None => Told::Refused(19),
            Some(part) => self.place(o, &at, part),
        }
    }

    /// Places an offered picture in a part of just its bytes.
    fn place(&mut self, o: &Offer, at: &Spot, part: &mut [u8]) -> Told {
        let delay = self.delay(at);
        let stuffing = ((at.end - at.content) / 8) as u64;
        let q = self.asked(o.kind);
        self.put(o, delay, stuffing as usize, part);
        self.steer(o, q);
        if self.film {
            if !self.started {
                self.sequence = self.sequence(&o.headers);
                self.pictures.clear();
            }
            self.pictures.push(facts(&o.layer));
        }
        self.pending = None;
        self.started = true;
        self.delivered = at.next;
        self.end = at.end;
        self.placed += 1;
        self.stuffing += stuffing;
        self.finished = o.last;
        Told::Placed { q, delay, bytes: part.len() as u64, stuffing, periods: at.periods }
    }

    /// What the header of a placed picture is to say; at a variable rate '0xFFFF in each header'.
    fn delay(&self, at: &Spot) -> u16 {
        if self.variable {
            return 0xFFFF;
        }
        let (over, whole) = ((at.delivered - at.position * self.units()) * 90_000, self.rate * self.units());
        u16::try_from((2 * over + whole) / (2 * whole)).unwrap()
    }

    fn too_large(&mut self, kind: usize) -> Told {
        let q = self.asked(kind);
        if q == 31 {
            self.pending = None;
            return Told::Refused(21);
        }
        let next = (q + 1 + q / 4).min(31);
        self.pending = Some((kind, next));
        Told::Again(next)
    }

    fn put(&self, o: &Offer, delay: u16, stuffing: usize, part: &mut [u8]) {
        let mut layer = o.layer.clone();
        for i in 0..16 {
            let (at, set) = (45 + i, (delay >> (15 - i) & 1) as u8);
            let shift = 7 - at % 8;
            layer[at / 8] = layer[at / 8] & !(1 << shift) | set << shift;
        }
        let tail: &[u8] = if o.last { &[0, 0, 1, 0xB7] } else { &[] };
        part.copy_from_slice(&[&o.headers[..], &layer, &vec![0; stuffing], tail].concat());
    }

    fn steer(&mut self, o: &Offer, q: u8) {
        let (bits, target) = (8 * o.layer.len() as u128, u128::from(self.targets[o.kind].max(1)));
        self.q[o.kind] = if 5 * bits > 6 * target {
            (q + 1).min(31)
        } else if 10 * bits < 7 * target {
            (q - 1).max(1)
        } else {
            q
        };
    }
}
