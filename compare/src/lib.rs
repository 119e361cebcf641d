//! The Rust at hand: `RectClip64` and `RectClipLines64` of clipper2-rust, built from their unchanged text,
//! and the answers that document 01 asks for, worked out with them.

// core, rectclip: the text as it stands. counted: rectclip with calls to `tally` and `reach`.
include!(concat!(env!("OUT_DIR"), "/rust_at_hand.rs"));

pub mod detours;
pub mod drawings;
pub mod facts;
pub mod judge;
pub mod lists;
pub mod program;
pub mod random;
pub mod reach;
pub mod sources;
mod tally;
