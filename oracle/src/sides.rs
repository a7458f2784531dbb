//! The side that is compared with the oracle, and what counts as a difference.
use crate::arguments::stop;
use crate::both::Tally;
use crate::generate::Case;
use crate::{Numbers, cuts, days, late, panels, program};
use std::cell::RefCell;
use std::io::Write;
use std::path::{Path, PathBuf};
use std::process::{Command, Stdio};
use std::sync::LazyLock;

#[cfg(product)]
pub use crate::product::{
    book_late as other_book_late, check as other_check, dump as other_dump, panel as other_panel,
    practice as other_practice, read_book as other_read_book, resume as other_resume, run as other_run,
};
#[cfg(not(product))]
pub use crate::slipped::{
    book_late::book_late as other_book_late,
    calls::{check as other_check, run as other_run},
    dump_calls::{dump as other_dump, resume as other_resume},
    panel::panel as other_panel,
    practice::practice as other_practice,
    read_book::read_book as other_read_book,
};

pub const OTHER: &str = if cfg!(product) {
    "the product"
} else if env!("SLIP").is_empty() {
    "the original itself (set SITE_ARCHIVE for the product)"
} else {
    concat!("the original with the slip ", env!("SLIP"))
};

pub enum Side {
    /// By call: the product where it is linked, else the slipped copy.
    Linked,
    /// By call too: request 1's calls, dump and continue.
    Dumps(RefCell<Tally>),
    /// By call too: request 7's call, and the runs that are continued from its dumps.
    Late(RefCell<Tally>),
    /// By call too: request 11's call, and check and run of what it writes.
    Practice(RefCell<Tally>),
    /// By call too: request 12's call.
    Panel(RefCell<Tally>),
    /// By standard input and output.
    Program(PathBuf),
}

impl Side {
    /// How this side's answer differs from the oracle's.
    pub fn difference(&self, case: &Case) -> Option<String> {
        match self {
            Self::Linked => difference_by_call(case),
            Self::Dumps(tally) => cuts::difference(case, &mut tally.borrow_mut()),
            Self::Late(tally) => late::difference(case, &mut tally.borrow_mut()),
            Self::Practice(tally) => days::difference(case, &mut tally.borrow_mut()),
            Self::Panel(tally) => panels::difference(case, &mut tally.borrow_mut()),
            Self::Program(path) => difference_by_program(path, case),
        }
    }
}

/// What stands in a buffer before a call. It is longer than every buffer of a case.
static BEFORE: LazyLock<Vec<u8>> = LazyLock::new(|| (0..65_536).map(|k| (k % 251 + 3) as u8).collect());

pub fn prefilled(len: usize) -> Vec<u8> {
    BEFORE[..len].to_vec()
}

pub fn difference_by_call(case: &Case) -> Option<String> {
    let (wanted, got) = (crate::check(&case.plan), other_check(&case.plan));
    if wanted != got {
        return Some(format!("check: wanted {}, got {}", numbers(&wanted), numbers(&got)));
    }
    let mut wanted_book = prefilled(case.book);
    let mut got_book = wanted_book.clone();
    let wanted = crate::run(&case.plan, case.engine, case.allowance, &mut wanted_book);
    let got = other_run(&case.plan, case.engine, case.allowance, &mut got_book);
    if wanted != got {
        return Some(format!("run: wanted {}, got {}", numbers(&wanted), numbers(&got)));
    }
    first_byte(&wanted_book, &got_book)
}

pub fn numbers(numbers: &Numbers) -> String {
    numbers.map(|number| number.to_string()).join(" ")
}

pub fn first_byte(wanted: &[u8], got: &[u8]) -> Option<String> {
    let at = wanted.iter().zip(got).position(|(a, b)| a != b).unwrap_or(wanted.len().min(got.len()));
    if at == wanted.len() && at == got.len() {
        return None;
    }
    let from = at - at % 8;
    let shown = |bytes: &[u8]| format!("{:02x?}", &bytes[from.min(bytes.len())..(from + 8).min(bytes.len())]);
    Some(format!(
        "byte {at} (block {}, byte {} of it; lengths {} and {}): wanted {} from byte {from}, got {}",
        at / 512 + 1,
        at % 512,
        wanted.len(),
        got.len(),
        shown(wanted),
        shown(got)
    ))
}

fn difference_by_program(path: &Path, case: &Case) -> Option<String> {
    let input = program::input(case.engine.min(255) as u8, case.allowance, &case.plan);
    difference_on_input(path, &input)
}

/// What a program writes for an input.
pub fn output_of(path: &Path, input: &[u8]) -> Vec<u8> {
    let cannot = |error: std::io::Error| -> ! { stop(format!("{} cannot be run: {error}", path.display())) };
    let started = Command::new(path).stdin(Stdio::piped()).stdout(Stdio::piped()).spawn();
    let mut child = started.unwrap_or_else(|error| cannot(error));
    let mut stdin = child.stdin.take().unwrap();
    let owned = input.to_vec();
    // A program that stops reading early closes the pipe; its output tells.
    let feeder = std::thread::spawn(move || drop(stdin.write_all(&owned)));
    let output = child.wait_with_output().unwrap_or_else(|error| cannot(error)).stdout;
    feeder.join().unwrap();
    output
}

/// The difference of the program's output on an input of any length.
pub fn difference_on_input(path: &Path, input: &[u8]) -> Option<String> {
    let got = output_of(path, input);
    let (wanted, _) = program::output(input);
    if wanted == got {
        return None;
    }
    let said = |bytes: &[u8]| {
        if bytes.starts_with(b"BOOK") {
            format!("a book of {} bytes", bytes.len())
        } else {
            format!("{:?}", String::from_utf8_lossy(bytes))
        }
    };
    Some(format!(
        "program: wanted {}, got {}; {}",
        said(&wanted),
        said(&got),
        first_byte(&wanted, &got).unwrap_or_default()
    ))
}
