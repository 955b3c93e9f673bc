//! Modes of the check and of a writer: a standard, film or plain, and constant or variable rate. From C a mode is one number.

use crate::layout::{VBV_FILM, VBV_MPEG1, VBV_MPEG2, VBV_VARIABLE};
use original::vbv::VbvStandard;

#[derive(Clone, Copy, Debug, PartialEq)]
pub struct Mode {
    pub standard: VbvStandard,
    pub film: bool,
    pub variable: bool,
}

pub const MPEG1: Mode = Mode { standard: VbvStandard::Mpeg1, film: false, variable: false };
pub const PLAIN: Mode = Mode { standard: VbvStandard::Mpeg2, film: false, variable: false };
pub const FILM: Mode = Mode { film: true, ..PLAIN };
pub const VARIABLE: Mode = Mode { variable: true, ..PLAIN };
pub const FILM_VARIABLE: Mode = Mode { film: true, variable: true, ..PLAIN };
/// There are none of these: 12.
pub const MPEG1_FILM: Mode = Mode { film: true, ..MPEG1 };
pub const MPEG1_VARIABLE: Mode = Mode { variable: true, ..MPEG1 };
pub const MPEG1_FILM_VARIABLE: Mode = Mode { film: true, variable: true, ..MPEG1 };

/// Those of a writer.
pub const WRITERS: [Mode; 4] = [PLAIN, FILM, VARIABLE, FILM_VARIABLE];

impl Mode {
    /// The mode of C's number.
    pub fn of(number: u64) -> Option<Self> {
        [MPEG1].into_iter().chain(WRITERS).find(|mode| mode.number() == number)
    }

    /// MPEG-1 has neither film nor a variable rate.
    pub fn none(self) -> bool {
        self.standard == VbvStandard::Mpeg1 && (self.film || self.variable)
    }

    /// C's number; of MPEG-1 with film or a variable rate one that is no mode.
    pub fn number(self) -> u64 {
        let standard = if self.standard == VbvStandard::Mpeg1 { VBV_MPEG1 } else { VBV_MPEG2 };
        u64::from(standard + if self.film { VBV_FILM } else { 0 } + if self.variable { VBV_VARIABLE } else { 0 })
    }
}
