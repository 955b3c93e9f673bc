//! Tables as docs/SPEED.md has them. Lines are picked by a part of their names; a table without a line has no head either.

pub struct Table {
    head: &'static str,
    printed: bool,
}

impl Table {
    pub fn new(head: &'static str) -> Self {
        Self { head, printed: false }
    }

    pub fn line(&mut self, line: &str) {
        if !self.printed {
            let columns = self.head.matches('|').count() - 1;
            println!("\n{}\n|{}", self.head, "---|".repeat(columns));
            self.printed = true;
        }
        println!("{line}");
    }
}

/// What to run: the lines whose names have this part; timed, or once each to be counted.
pub struct Pick {
    pub part: String,
    pub count: bool,
}

impl Pick {
    pub fn has(&self, name: &str) -> bool {
        name.contains(&self.part)
    }
}

/// GB/s of some bytes in some seconds.
pub fn rate(bytes: f64, seconds: f64) -> String {
    let rate = bytes / seconds / 1e9;
    format!("{rate:.*}", if rate < 0.995 { 3 } else { 2 })
}

/// Tells whoever counts what the next call of `timed` is.
pub fn counted(table: &str, name: &str, pictures: usize, bytes: usize, side: &str) {
    println!("{table}\t{name}\t{pictures}\t{bytes}\t{side}");
}
