//! The calls over the original, the reader of books and the practice day.
pub use crate::plan;
pub use original;

#[path = "book_late.rs"]
pub mod book_late;
#[path = "calls.rs"]
pub mod calls;
#[path = "dump_calls.rs"]
pub mod dump_calls;
#[path = "panel.rs"]
pub mod panel;
#[path = "practice.rs"]
pub mod practice;
#[path = "read_book.rs"]
pub mod read_book;
