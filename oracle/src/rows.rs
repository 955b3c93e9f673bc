//! Which places of the table of film periods were met: row, sequence, and setting of the flags (cadence.rs).

use crate::cadence::{Facts, ROWS, SEQUENCES, SETTINGS, Sequence, last_periods, place};

/// Pictures from which on every row has to be met in every sequence, and from which on in every setting of the flags.
const SOME: u64 = 5_000;
const MANY: u64 = 250_000;

#[derive(Clone, Default)]
pub struct Rows {
    met: [[[u64; SETTINGS]; SEQUENCES.len()]; ROWS.len()],
    /// Of each row and sequence the periods that occurred, 1 to 6.
    periods: [[[bool; 7]; SEQUENCES.len()]; ROWS.len()],
}

impl Rows {
    /// Counts the pictures of a list.
    pub fn count(&mut self, s: Sequence, pictures: &[Facts]) {
        for n in 1..=pictures.len() {
            let (row, column, setting) = place(s, &pictures[..n]);
            self.met[row][column][setting] += 1;
            self.periods[row][column][last_periods(s, &pictures[..n]) as usize] = true;
        }
    }

    /// Says what was met; false where of some pictures a row was not, in some sequence, or of many in some setting of the flags.
    pub fn report(&self) -> bool {
        let all: u64 = self.met.as_flattened().as_flattened().iter().sum();
        eprintln!("pictures that lasted by the film rule: {all}");
        let mut complete = true;
        for (row, name) in ROWS.iter().enumerate() {
            for (column, sequence) in SEQUENCES.iter().enumerate() {
                let met = &self.met[row][column];
                let (count, least) = (met.iter().sum::<u64>(), *met.iter().min().unwrap());
                let periods: Vec<_> = (1..7).filter(|&n| self.periods[row][column][n]).collect();
                eprintln!("    {count} {name}; {sequence}: periods {periods:?}, in each setting {least} or more");
                complete &= (all < SOME || 0 < count) && (all < MANY || 0 < least);
            }
        }
        complete
    }
}
