//! The sizes and codes that include/hipokuta.h names, by their names there, for the benchmark too.

pub const VBV_MPEG1: u8 = 1;
pub const VBV_MPEG2: u8 = 2;
/// Added to a standard.
pub const VBV_FILM: u8 = 4;
pub const VBV_VARIABLE: u8 = 8;
pub const VBV_REPORT_BYTES: usize = 40;
pub const VBV_RECORD_BYTES: usize = 40;
pub const VBV_REFUSAL_BYTES: usize = 32;

pub const CBR_CONFIG_BYTES: usize = 72;
pub const CBR_STATE_BYTES: usize = 200;
pub const CBR_ANSWER_BYTES: usize = 72;
pub const CBR_FIELD: u8 = 1;
pub const CBR_FRAME: u8 = 2;
pub const CBR_PLACED: u64 = 0;
pub const CBR_AGAIN: u64 = 1;
pub const CBR_REFUSED: u64 = 2;
