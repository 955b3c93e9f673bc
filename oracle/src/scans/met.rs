//! What a run has to meet, and how often it did.

/// The quiet bytes after which the search by blocks goes by blocks of 64.
const NEAR: usize = 1024;
const FACTS: usize = 20;

/// One search, and what is expected of it.
pub struct Search<'a> {
    pub s: &'a [u8],
    /// The original's list of the whole input.
    pub codes: &'a [(usize, u8)],
    pub from: usize,
    /// What it has to find.
    pub code: Option<(usize, u8)>,
}

impl Search<'_> {
    /// What is searched.
    pub fn rest(&self) -> &[u8] {
        self.s.get(self.from..).unwrap_or(&[])
    }

    /// How far on the code is.
    fn ahead(&self) -> Option<usize> {
        self.code.map(|(offset, _)| offset - self.from)
    }

    /// How far on 00 01 first stands where the second and third byte of a code would be: what is before it is quiet.
    fn quiet(&self) -> Option<usize> {
        self.rest().windows(2).skip(1).position(|pair| pair == [0, 1])
    }

    /// Whether a place is inside a code of the whole input, behind its first byte.
    fn inside(&self, place: usize) -> bool {
        let before = self.codes.partition_point(|&(offset, _)| offset < place);
        before > 0 && place < self.codes[before - 1].0 + 4
    }

    pub fn all_above_one(&self) -> bool {
        self.rest().iter().all(|&b| b > 1)
    }

    /// All that has to be met of searches, and whether this one is such.
    fn facts(&self) -> [(&'static str, bool); FACTS] {
        let (n, rest, from) = (self.s.len(), self.rest(), self.from);
        let (ahead, none) = (self.ahead(), self.code.is_none());
        let quiet = self.quiet() == ahead;
        let far = ahead.is_some_and(|k| k > NEAR);
        let last = ahead.is_some_and(|k| k + 4 == rest.len());
        [
            ("found", !none),
            ("found where it begins", ahead == Some(0)),
            ("found at the last place", last),
            ("found behind a third zero", ahead.is_some_and(|k| k > 0 && rest[k - 1] == 0)),
            ("found behind 00 01 without a code", !none && !quiet),
            ("found behind more than 1,024 quiet bytes", far && quiet),
            ("found behind more than 1,024 quiet bytes, at the last place", far && quiet && last),
            ("found behind more than 1,024 bytes, 00 01 among them", far && !quiet),
            ("found inside another code", self.code.is_some_and(|(offset, _)| self.inside(offset))),
            ("none", none),
            ("none in more than 1,024 bytes", none && rest.len() > NEAR + 3),
            ("none, 00 00 01 at the end", none && rest.ends_with(&[0, 0, 1])),
            ("none in four bytes or more, all above 01", rest.len() >= 4 && self.all_above_one()),
            ("in an input under four bytes", n < 4),
            ("in an input of no bytes", n == 0),
            ("from inside a code", self.inside(from)),
            ("from one of the last three bytes", from < n && n - from < 4),
            ("from the end", from == n),
            ("from beyond the end", from > n),
            ("from the greatest number", from == usize::MAX),
        ]
    }
}

pub struct Met {
    facts: [(&'static str, u64); FACTS],
    /// Codes behind quiet bytes by their place in a block of 16, and past the near ones in a block of 64.
    near: [u64; 16],
    far: [u64; 64],
    pub short: u64,
    pub longer: u64,
}

impl Met {
    pub fn new() -> Self {
        Self { facts: [("", 0); FACTS], near: [0; 16], far: [0; 64], short: 0, longer: 0 }
    }

    pub fn search(&mut self, search: &Search) {
        for (to, (name, so)) in self.facts.iter_mut().zip(search.facts()) {
            *to = (name, to.1 + u64::from(so));
        }
        match search.ahead().filter(|&k| search.quiet() == Some(k)) {
            Some(k) if k >= NEAR + 64 => self.far[k % 64] += 1,
            Some(k) if k < NEAR => self.near[k % 16] += 1,
            _ => {}
        }
    }

    /// Says what was met; false where something was not.
    pub fn report(&self) -> bool {
        let rarest = |counts: &[u64]| counts.iter().copied().min().unwrap_or(0);
        let more = [
            ("found at the rarest of the 16 places of a block", rarest(&self.near)),
            ("found at the rarest of the 64 places of a block behind 1,024 quiet bytes", rarest(&self.far)),
            ("with a place too short", self.short),
            ("with a place that is longer", self.longer),
        ];
        println!("searches:");
        for (name, n) in self.facts.iter().chain(&more) {
            println!("    {} {name}", if *n == 0 { "not met:".into() } else { n.to_string() });
        }
        self.facts.iter().chain(&more).all(|&(_, n)| n > 0)
    }
}
