//! The calls over the copy with the slip that SLIP named at build time, to try the comparison on.
pub use slipped as original;

// `plan`, `calls`, `dump_calls`, `book_late`, `practice`, `panel` and `read_book`, copied at build time, with the slip where it is
// one of theirs.
include!(concat!(env!("OUT_DIR"), "/slipped.rs"));
