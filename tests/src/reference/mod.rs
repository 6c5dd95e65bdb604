// The independent implementation: check, step, play and load as document 01 says, open as request 2026-01 does, orc as 2026-03, ticks as 2026-05 and joint
// as 2026-06, on a plain tree.
// It is written from the papers' text and shares no code with crates/. Nothing here is meant to be fast.
mod communicate;
pub mod faults;
pub mod format;
mod joint;
mod moves;
mod night;
mod open;
mod orc;
mod places;
mod scripts;
mod tables;
pub mod terms;
mod ticks;

pub use crate::reply::Reply;
pub use joint::joint;
pub use moves::Move;
pub use night::{check, load, play, step};
pub use open::{open, open_moves, put_list, Found};
pub use orc::{orc, put_translation, translate};
pub use ticks::ticks;

/// A refusal: its number and its place.
#[derive(Clone, Copy, PartialEq, Eq, Debug)]
pub struct Refusal {
    pub answer: u8,
    pub place: usize,
}

/// The term of a well-formed table.
pub fn term_of(table: &[u8]) -> Option<terms::Term> {
    tables::check(table).ok()
}
