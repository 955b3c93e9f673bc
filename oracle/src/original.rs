//! The root over the original's files, which `oracle/build` puts beside it, with what they expect of the rest of their crate.

pub mod gop_header;
pub mod picture_header;
pub mod quant_matrix_extension;
pub mod rate_control;
pub mod sequence_extension;
pub mod sequence_header;
pub mod stream_writer;
pub mod vbv;

#[derive(Debug, Clone, Copy, PartialEq, Eq)]
pub enum Error {
    ShortHeader,
    InvalidBitstream(&'static str),
}

/// Needed to compile vbv.rs only: no case prints an error.
impl std::fmt::Display for Error {
    fn fmt(&self, f: &mut std::fmt::Formatter<'_>) -> std::fmt::Result {
        write!(f, "{self:?}")
    }
}

pub type Result<T> = std::result::Result<T, Error>;

/// Needed to compile quant_matrix_extension.rs only: no case calls what uses it.
pub mod mpeg2_dequantize {
    pub const DEFAULT_INTRA_WEIGHT: [[u8; 8]; 8] = [[0; 8]; 8];
    pub const DEFAULT_NON_INTRA_WEIGHT: [[u8; 8]; 8] = [[0; 8]; 8];
}

/// As above.
pub mod mpeg2_inverse_scan {
    pub fn inverse_scan_table(_alternate: bool) -> [(u8, u8); 64] {
        unimplemented!()
    }
}
