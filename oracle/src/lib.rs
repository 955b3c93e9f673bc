//! What the oracle's programs share: drawn inputs, the answers of the original or of a model of the papers, and places to lend.

pub mod answers;
pub mod cadence;
pub mod calls;
pub mod check;
pub mod checks;
pub mod draw;
pub mod film;
pub mod format;
pub mod headers;
pub mod known;
pub mod layout;
pub mod lists;
pub mod mode;
pub mod model;
pub mod place;
pub mod rows;
pub mod sends;
pub mod spans;
pub mod state;
pub mod streams;
pub mod variable;
pub mod worked;
pub mod writer;
pub mod writers;
