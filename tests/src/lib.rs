//! Document 01 written again, in plain Rust, to hold the proved programs against. It shares no text with them.

pub mod agreement;
pub mod believed;
pub mod cases;
pub mod edit;
pub mod exchange;
pub mod generator;
pub mod idle;
pub mod kit;
pub mod lent;
#[cfg(feature = "library")]
pub mod library;
pub mod play;
pub mod print;
pub mod programs;
pub mod random;
pub mod tally;
pub mod text_form;
pub mod tuned;
