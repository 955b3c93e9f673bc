//! How long each picture lasts in film mode (paper 02, request 05; 13818-2 C.9 to C.12): the list of pictures in, field periods
//! out. It goes by the request's words over the whole list, each sentence in its place, and keeps no state: what a picture needs
//! of those before it is looked up among them.

/// What a picture's headers show of it: whether it is I or P, and not B; whether a field; its two flags.
#[derive(Clone, Copy, Debug, PartialEq)]
pub struct Facts {
    pub anchor: bool,
    pub field: bool,
    pub repeat: bool,
    pub top: bool,
}

/// What the sequence extension says of all pictures.
#[derive(Clone, Copy, Debug, Default, PartialEq)]
pub struct Sequence {
    pub progressive: bool,
    pub low_delay: bool,
}

/// The open field of a state: none, or a first field by what leads it.
pub const CLOSED: u64 = 0;
pub const LED_BY_ANCHOR: u64 = 1;
pub const LED_BY_OTHER: u64 = 2;

/// 'Consecutive fields pair up, across headers too': frames, pairs and fields without a second one.
fn units(pictures: &[Facts]) -> Vec<&[Facts]> {
    let (mut units, mut rest) = (vec![], pictures);
    while let [first, after @ ..] = rest {
        let pair = first.field && after.first().is_some_and(|second| second.field);
        let (unit, others) = rest.split_at(if pair { 2 } else { 1 });
        units.push(unit);
        rest = others;
    }
    units
}

/// Where the second fields of pairs stand in a list.
pub fn second_fields(pictures: &[Facts]) -> Vec<usize> {
    let ends = units(pictures).into_iter().scan(0, |at, unit| {
        *at += unit.len();
        Some((unit.len(), *at - 1))
    });
    ends.filter(|&(length, _)| length == 2).map(|(_, at)| at).collect()
}

/// The last of some units that is an anchor, by what leads it.
fn last_anchor<'a>(units: &[&'a [Facts]]) -> Option<&'a [Facts]> {
    units.iter().rev().find(|unit| unit[0].anchor).copied()
}

/// repeat_first_field and top_field_first of an anchor: 'a pair, or a field left over, led by I or P is an anchor without the
/// flag'; and '2 if there is none'.
fn flags(anchor: Option<&[Facts]>) -> (bool, bool) {
    match anchor {
        Some([frame]) if !frame.field => (frame.repeat, frame.top),
        _ => (false, false),
    }
}

/// The field periods of the last picture of a list.
pub fn last_periods(s: Sequence, pictures: &[Facts]) -> u64 {
    let units = units(pictures);
    let (own, before) = units.split_last().expect("a picture");
    let anchor = flags(last_anchor(before));
    let first = own[0];
    if first.field {
        // 'Fields last 1, but the second field of a pair led by I or P lasts 2 if the anchor before the pair has the flag. With
        // low_delay 1 .. and in progressive sequences, every field lasts 1.'
        let long = own.len() == 2 && first.anchor && anchor.0 && !s.low_delay && !s.progressive;
        return if long { 2 } else { 1 };
    }
    // 'A frame B picture .. with repeat_first_field; an I or P frame .. by that flag of the previous anchor. With low_delay 1 a
    // frame uses its own flag.'
    let (repeat, top) = if first.anchor && !s.low_delay { anchor } else { (first.repeat, first.top) };
    match (s.progressive, repeat, top) {
        (_, false, _) => 2,
        (false, true, _) => 3,
        (true, true, false) => 4,
        (true, true, true) => 6,
    }
}

/// The field periods of each picture: a picture after it never matters.
pub fn periods(s: Sequence, pictures: &[Facts]) -> Vec<u64> {
    (1..=pictures.len()).map(|n| last_periods(s, &pictures[..n])).collect()
}

/// What a list leaves for the next picture, as the words of a state have it: the flags of the anchor before it, that of an open
/// field not counted, and the open field.
pub fn left(pictures: &[Facts]) -> [u64; 3] {
    let units = units(pictures);
    let (open, done) = match units.split_last() {
        Some((&[first], before)) if first.field && first.anchor => (LED_BY_ANCHOR, before),
        Some((&[first], before)) if first.field => (LED_BY_OTHER, before),
        _ => (CLOSED, &units[..]),
    };
    let (repeat, top) = flags(last_anchor(done));
    [repeat.into(), top.into(), open]
}

/// A list that leaves these words.
pub fn leaving([repeat, top, open]: [u64; 3]) -> Vec<Facts> {
    let frame = Facts { anchor: true, field: false, repeat: repeat == 1, top: top == 1 };
    let field = Facts { anchor: open == LED_BY_ANCHOR, field: true, repeat: false, top: false };
    [vec![frame], if open == CLOSED { vec![] } else { vec![field] }].concat()
}

/// The rows of the table of periods: a picture, and the field that is open before it.
pub const ROWS: [&str; 8] = [
    "frame B, no open field led by I or P",
    "frame I or P, no open field led by I or P",
    "frame B after a field left over led by I or P",
    "frame I or P after a field left over led by I or P",
    "first field, I or P",
    "first field, B",
    "second field, led by I or P",
    "second field, led by B",
];
pub const SEQUENCES: [&str; 4] = ["interlaced", "interlaced, low_delay 1", "progressive", "progressive, low_delay 1"];
/// A picture's own two flags, and those of the anchor before it, or none.
pub const SETTINGS: usize = 4 * 5;

/// Where the last picture of a list stands in the table: its row, its sequence's column, and the setting of the flags.
pub fn place(s: Sequence, pictures: &[Facts]) -> (usize, usize, usize) {
    let (last, before) = pictures.split_last().expect("a picture");
    let [repeat, top, open] = left(before);
    let row = match (last.field, last.anchor, open) {
        (false, anchor, LED_BY_ANCHOR) => 2 + usize::from(anchor),
        (false, anchor, _) => usize::from(anchor),
        (true, anchor, CLOSED) => 5 - usize::from(anchor),
        (true, _, open) => 5 + open as usize,
    };
    let whole = if open == CLOSED { before } else { &before[..before.len() - 1] };
    let anchor = match last_anchor(&units(whole)) {
        None => 4,
        Some(_) => (2 * repeat + top) as usize,
    };
    let own = 2 * usize::from(last.repeat) + usize::from(last.top);
    (row, 2 * usize::from(s.progressive) + usize::from(s.low_delay), 5 * own + anchor)
}
