//! Request 5 on one case: books of drawn lists and of runs read back, and books that are refused.
mod faults;
mod list;
mod sweep;

pub use list::List;
pub use sweep::{steps, swept};

use crate::blocks::{BLOCK, seal_all};
use crate::book::{self, LEAST_BOOK};
use crate::draw::Draw;
use crate::generate;
use crate::sides::{numbers, other_read_book};
use crate::words::SESSION_NUMBERS;
use crate::{Header, Numbers, Sessions, program, read_book};
use std::collections::BTreeMap;
use std::fmt::Display;
use std::sync::LazyLock;

/// How many calls had each answer.
pub type Tally = BTreeMap<u64, u64>;

/// What differs, and on which bytes.
pub struct Difference {
    pub what: String,
    pub book: Vec<u8>,
}

type Found = Result<(), Difference>;

/// A run's book by steps is of at most so many rounds.
const ROUNDS: u32 = 20_000;

/// The first of the two sides' differences on a case.
pub fn difference(seed: u64, index: u64, tally: &mut Tally) -> Option<Difference> {
    let draw = Draw::new(seed ^ 1 << 62, index);
    Bench { draw, tally }.all(seed, index).err()
}

/// The numbers of a call, and those lent to it.
#[derive(Clone)]
struct Left {
    numbers: Numbers,
    header: Header,
    sessions: Sessions,
}

/// What is lent stands like this before a call.
static BEFORE: LazyLock<Left> = LazyLock::new(|| Left {
    numbers: [0; 11],
    header: std::array::from_fn(|k| 0xa5a5_a5a5_0000_0000 + k as u64),
    sessions: std::array::from_fn(|k| 0x5a5a_5a5a_0000_0000 + k as u64),
});

impl Left {
    fn by(reader: fn(&[u8], &mut Header, &mut Sessions) -> Numbers, book: &[u8]) -> Self {
        let mut left = BEFORE.clone();
        left.numbers = reader(book, &mut left.header, &mut left.sessions);
        left
    }

    fn of(list: &List) -> Self {
        Self { numbers: [0; 11], header: list.header(), sessions: list.sessions() }
    }

    fn refused(number: u64) -> Self {
        let mut left = BEFORE.clone();
        left.numbers[0] = number;
        left
    }

    /// What the text says of these bytes: accepted are just those that the writer can write.
    fn expected(book: &[u8]) -> Self {
        let mut sealed = book.to_vec();
        seal_all(&mut sealed);
        if book.is_empty() || !book.len().is_multiple_of(BLOCK) || book.len() > LEAST_BOOK || sealed != book {
            return Self::refused(15);
        }
        List::written_as(book).map_or(Self::refused(16), |list| Self::of(&list))
    }

    fn difference(&self, got: &Self) -> Option<String> {
        if self.numbers != got.numbers {
            return Some(format!("wanted {}, got {}", numbers(&self.numbers), numbers(&got.numbers)));
        }
        let session = |k: usize| format!("{} of session {}", SESSION_NUMBERS[k % 16], k / 16 + 1);
        first_number(&self.header, &got.header, |k| ["count", "engine", "ended", "used"][k].to_string())
            .or_else(|| first_number(&self.sessions, &got.sessions, session))
    }
}

fn first_number(wanted: &[u64], got: &[u64], name: impl Fn(usize) -> String) -> Option<String> {
    let k = wanted.iter().zip(got).position(|(a, b)| a != b)?;
    Some(format!("{}: wanted {:#x}, got {:#x}", name(k), wanted[k], got[k]))
}

/// Both sides, and the case's own draws.
struct Bench<'a> {
    draw: Draw,
    tally: &'a mut Tally,
}

impl Bench<'_> {
    fn all(&mut self, seed: u64, index: u64) -> Found {
        let count = match self.draw.below(4) {
            0 => self.draw.among(0, 64),
            1 => self.draw.pick(&[5, 10, 59, 60, 61, 63, 64]),
            _ => self.draw.among(0, 7),
        };
        // The first cases have few sessions, so that a first difference is small.
        let list = List::drawn(&mut self.draw, count.min(index) as usize);
        let book = list.book();
        self.accepted(&book, &list, "a drawn list")?;
        self.faults(&list, &book)?;
        let case = generate::case(seed, index);
        for engine in [0, 1] {
            let input = program::input(engine, case.allowance.min(ROUNDS), &case.plan);
            let (book, numbers) = program::output(&input);
            if numbers[0] == 0 {
                let (ended, used) = (numbers[4] == 1, numbers[3]);
                let list = List { engine, ended, used, entries: book::read(&book) };
                self.accepted(&book, &list, format_args!("a run by engine {engine}"))?;
                self.bytes_changed(&book)?;
            }
        }
        Ok(())
    }

    /// Reads a book on both sides; what was put into it comes back.
    fn accepted(&mut self, book: &[u8], list: &List, what: impl Display) -> Found {
        self.given(book, Some(0), &what)?;
        match Left::of(list).difference(&Left::by(read_book, book)) {
            Some(wrong) => Err(Difference { what: format!("{what}: both sides: {wrong}"), book: book.to_vec() }),
            None => Ok(()),
        }
    }

    /// Reads these bytes on both sides, and expects the answer where the caller names it.
    fn given(&mut self, book: &[u8], number: Option<u64>, what: impl Display) -> Found {
        let (wanted, got) = (Left::by(read_book, book), Left::by(other_read_book, book));
        let answer = wanted.numbers[0];
        *self.tally.entry(answer).or_default() += 1;
        let by_the_writer = || Left::expected(book).difference(&wanted);
        let wrong = wanted
            .difference(&got)
            .or_else(|| by_the_writer().map(|wrong| format!("both sides against the writer: {wrong}")))
            .or_else(|| number.filter(|n| *n != answer).map(|n| format!("both sides answer {answer}, not {n}")));
        match wrong {
            Some(wrong) => Err(Difference { what: format!("{what}: {wrong}"), book: book.to_vec() }),
            None => Ok(()),
        }
    }
}
