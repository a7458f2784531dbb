//! A sweep: a small book with every byte changed to every value, every length, every session count.
use super::{Bench, Difference, Found, List, Tally};
use crate::blocks::{BLOCK, put, reseal, seal_all};
use crate::book::book_bytes;
use crate::draw::Draw;

/// The outcomes of the small book's sessions: two blocks of sessions, the second with unused places.
const OUTCOMES: [u8; 7] = [1, 0, 2, 3, 1, 0, 2];
/// Lengths are tried up to so many blocks.
const BLOCKS: usize = 16;
const COUNTED: [usize; 7] = [0, 1, 4, 5, 6, 63, 64];

/// A step is one byte of the small book, the lengths of one block, or the counts for so many sessions.
pub fn steps() -> u64 {
    (book_bytes(OUTCOMES.len()) + BLOCKS + COUNTED.len()) as u64
}

pub fn swept(seed: u64, step: u64, tally: &mut Tally) -> Option<Difference> {
    let draw = Draw::new(seed, u64::MAX);
    Bench { draw, tally }.step(step as usize).err()
}

impl Bench<'_> {
    fn step(&mut self, step: usize) -> Found {
        let small = List::of_outcomes(&mut self.draw, &OUTCOMES).book();
        if step < small.len() {
            return self.every_value(&small, step);
        }
        let step = step - small.len();
        if step < BLOCKS { self.every_length(step) } else { self.every_count(COUNTED[step - BLOCKS]) }
    }

    /// Every other value of a byte, with the block's check as it was and made good.
    fn every_value(&mut self, book: &[u8], at: usize) -> Found {
        for value in (0..=255).filter(|value| *value != book[at]) {
            let mut changed = book.to_vec();
            changed[at] = value;
            self.given(&changed, Some(15), format_args!("byte {at} is {value}"))?;
            reseal(&mut changed, at / BLOCK);
            self.given(&changed, None, format_args!("byte {at} is {value}, the check made good"))?;
        }
        Ok(())
    }

    /// The first bytes of a book of 64 sessions with two empty blocks behind it, all checks good.
    fn every_length(&mut self, blocks: usize) -> Found {
        let mut book = List::drawn(&mut self.draw, 64).book();
        book.resize(BLOCK * BLOCKS, 0);
        seal_all(&mut book);
        for len in BLOCK * blocks..BLOCK * (blocks + 1) {
            let number = match len {
                7_168 => 0,
                _ if len > 0 && len < 7_168 && len % BLOCK == 0 => 16,
                _ => 15,
            };
            self.given(&book[..len], Some(number), format_args!("the first {len} bytes"))?;
        }
        Ok(())
    }

    /// The book of so many sessions under every count, its header's check made good.
    fn every_count(&mut self, sessions: usize) -> Found {
        let mut book = List::drawn(&mut self.draw, sessions).book();
        for count in 0..=u16::MAX {
            put(&mut book, 4, &count.to_le_bytes());
            reseal(&mut book, 0);
            let number = if usize::from(count) == sessions { 0 } else { 16 };
            self.given(&book, Some(number), format_args!("the count {count} for {sessions}"))?;
        }
        Ok(())
    }
}
