//! The Rust original behind document 01's calls, for comparison with the product.
#![allow(clippy::duplicate_mod)]

pub mod accounts;
pub mod arguments;
pub mod bay;
pub mod blocks;
pub mod book;
pub mod books;
pub mod both;
pub mod cuts;
pub mod days;
pub mod draft;
pub mod draw;
pub mod dump;
pub mod generate;
pub mod hot_day;
pub mod late;
pub mod panels;
pub mod plan;
pub mod program;
pub mod recording;
pub mod share_lists;
pub mod shrink;
pub mod sides;
pub mod slipped;
pub mod words;

mod faithful;
#[cfg(product)]
mod product;

pub use faithful::book_late::book_late;
pub use faithful::calls::{check, run};
pub use faithful::dump_calls::{dump, resume};
pub use faithful::panel::{events, panel};
pub use faithful::practice::{LEAST_DAY, practice};
pub use faithful::read_book::read_book;

/// Number, place, place, used, ended, yet to arrive, queued, open, charged, reneged, balked.
pub type Numbers = [u64; 11];
/// Of a book that is read back: count, engine, ended, used.
pub type Header = [u64; 4];
/// Sixteen numbers for each of 64 sessions: vehicle id, profile id, charger id, connector, outcome, fleet, arrival, plugin,
/// unplug, wait, and the bits of charge duration, idle, peak, energy, start, end.
pub type Sessions = [u64; 1024];
