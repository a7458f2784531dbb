//! Books that are refused, and bytes that may be a book.
use super::{Bench, Found, List};
use crate::blocks::{BLOCK, CHECK, put, reseal, seal, seal_all};
use crate::book::{LEAST_BOOK, SESSION, SESSIONS_A_BLOCK, session_at};
use std::fmt::Display;

const SOME_BYTES: usize = 8;
/// Where a block of sessions has its last zero bytes.
const REST: usize = SESSIONS_A_BLOCK * SESSION;
/// The missing fields by outcome: their first bytes, and how many these are.
const MISSING: [&[(usize, u64)]; 4] = [&[(32, 8), (48, 8), (64, 8), (72, 8)], &[], &NOT_PLUGGED_IN, &NOT_PLUGGED_IN];
const NOT_PLUGGED_IN: [(usize, u64); 9] =
    [(8, 4), (12, 1), (24, 8), (32, 8), (48, 8), (56, 8), (64, 8), (72, 8), (88, 8)];

impl Bench<'_> {
    pub(super) fn faults(&mut self, list: &List, book: &[u8]) -> Found {
        self.lengths(book)?;
        self.checks(book)?;
        self.counts(list, book)?;
        self.header_fields(book)?;
        self.session_fields(list, book)?;
        self.zero_bytes(list, book)?;
        self.bytes_changed(book)?;
        self.blocks_moved(book)?;
        self.several_bytes_changed(book)
    }

    /// Bytes of one block against the rules. While a check is wrong too, its own or another, that comes first.
    fn against_the_rules(&mut self, book: &[u8], at: usize, bytes: &[u8], what: impl Display) -> Found {
        let mut wrong = book.to_vec();
        put(&mut wrong, at, bytes);
        self.given(&wrong, Some(15), format_args!("{what}, the check as it was"))?;
        reseal(&mut wrong, at / BLOCK);
        self.given(&wrong, Some(16), &what)?;
        let block = self.block(book);
        wrong[block * BLOCK + CHECK + self.draw.below(4) as usize] ^= 1 << self.draw.below(8);
        self.given(&wrong, Some(15), format_args!("{what}, and the check of block {} is wrong", block + 1))
    }

    /// Another value for a byte that has only this one.
    fn wrong_byte(&mut self, book: &[u8], at: usize, what: &str) -> Found {
        let some = self.draw.among(1, 255) as u8;
        let value = book[at] ^ self.draw.pick(&[1, 0x20, 0x80, 0xff, some]);
        self.against_the_rules(book, at, &[value], format_args!("{what}: byte {at} is {value}"))
    }

    fn block(&mut self, book: &[u8]) -> usize {
        self.draw.below((book.len() / BLOCK) as u64) as usize
    }

    fn lengths(&mut self, book: &[u8]) -> Found {
        let some = self.draw.below(LEAST_BOOK as u64) as usize;
        for len in [0, 1, CHECK, BLOCK - 1, BLOCK + 1, book.len() - 1, book.len() + 1, some - some % BLOCK + 300] {
            let mut bytes = book.to_vec();
            bytes.resize(len, 0);
            self.given(&bytes, Some(15), format_args!("{len} bytes"))?;
        }
        for len in (BLOCK..book.len()).step_by(BLOCK) {
            self.given(&book[..len], Some(16), format_args!("the first {len} bytes"))?;
        }
        let blocks = book.len() / BLOCK;
        for more in [blocks + 1, 14, 15, 16, 113].into_iter().filter(|more| *more > blocks) {
            let mut longer = book.to_vec();
            longer.resize(more * BLOCK, 0);
            self.given(&longer, Some(15), format_args!("zero bytes behind, {more} blocks in all"))?;
            seal_all(&mut longer);
            let number = if more > 14 { 15 } else { 16 };
            self.given(&longer, Some(number), format_args!("empty blocks behind, {more} in all"))?;
        }
        self.given(&[book, &book[book.len() - BLOCK..]].concat(), Some(15), "the last block again")
    }

    /// Checks that are off by a little, and checks of other places.
    fn checks(&mut self, book: &[u8]) -> Found {
        let own = self.block(book);
        for place in [0, own, own + 2, own + 14, usize::MAX] {
            let mut wrong = book.to_vec();
            seal(&mut wrong[own * BLOCK..(own + 1) * BLOCK], place);
            self.given(&wrong, Some(15), format_args!("block {} with the check of place {place}", own + 1))?;
        }
        let mut wrong = book.to_vec();
        for (k, block) in wrong.chunks_exact_mut(BLOCK).enumerate() {
            seal(block, k);
        }
        self.given(&wrong, Some(15), "places from 0")
    }

    fn counts(&mut self, list: &List, book: &[u8]) -> Found {
        let own = list.entries.len() as u16;
        let near = [own.wrapping_sub(1), own + 1, own.wrapping_sub(5), own + 5, own + 256];
        let far = [0, 1, 64, 65, 66, u16::MAX, self.draw.number() as u16];
        for count in near.into_iter().chain(far).filter(|count| *count != own) {
            let what = format_args!("the count {count} for {own} sessions");
            self.against_the_rules(book, 4, &count.to_le_bytes(), what)?;
        }
        for (sessions, number) in [(65, 16), (66, 15), (70, 15), (71, 15)] {
            let list = List::drawn(&mut self.draw, sessions);
            self.given(&list.book(), Some(number), format_args!("{sessions} sessions"))?;
        }
        Ok(())
    }

    fn header_fields(&mut self, book: &[u8]) -> Found {
        for at in 0..4 {
            self.wrong_byte(book, at, "letters")?;
        }
        let some = self.draw.among(2, 255) as u8;
        for value in [2, 3, 128, 255, some] {
            self.against_the_rules(book, 6, &[value], format_args!("engine {value}"))?;
            self.against_the_rules(book, 7, &[value], format_args!("ended {value}"))?;
        }
        Ok(())
    }

    /// The fields of one session of each outcome.
    fn session_fields(&mut self, list: &List, book: &[u8]) -> Found {
        for (outcome, missing) in MISSING.iter().enumerate() {
            let has = |k: &usize| usize::from(list.entries[*k].outcome) == outcome;
            let sessions: Vec<usize> = (0..list.entries.len()).filter(has).collect();
            if sessions.is_empty() {
                continue;
            }
            let at = BLOCK + session_at(self.draw.pick(&sessions));
            self.outcomes(book, at, outcome)?;
            self.fleets(book, at)?;
            for (field, bytes) in *missing {
                let place = at + field + self.draw.below(*bytes) as usize;
                self.wrong_byte(book, place, "a missing field")?;
            }
        }
        Ok(())
    }

    /// Fleets of the session that stands here.
    fn fleets(&mut self, book: &[u8], at: usize) -> Found {
        let some = self.draw.among(65, u64::from(u16::MAX)) as u16;
        for fleet in [65, 66, 255, 256, 256 + 64, 1 << 14, u16::MAX, some] {
            self.against_the_rules(book, at + 14, &fleet.to_le_bytes(), format_args!("fleet {fleet}"))?;
        }
        for fleet in [0, 1, 63, 64u16] {
            let mut changed = book.to_vec();
            put(&mut changed, at + 14, &fleet.to_le_bytes());
            reseal(&mut changed, at / BLOCK);
            self.given(&changed, Some(0), format_args!("fleet {fleet}"))?;
        }
        Ok(())
    }

    /// Outcomes and connectors of the session that stands here.
    fn outcomes(&mut self, book: &[u8], at: usize, own: usize) -> Found {
        let some = self.draw.among(4, 255) as u8;
        for outcome in [4, 5, 128, 255, some] {
            self.against_the_rules(book, at + 13, &[outcome], format_args!("outcome {outcome} for {own}"))?;
        }
        for outcome in (0..4).filter(|outcome| usize::from(*outcome) != own) {
            let mut changed = book.to_vec();
            changed[at + 13] = outcome;
            reseal(&mut changed, at / BLOCK);
            self.given(&changed, None, format_args!("outcome {outcome} for {own}"))?;
        }
        let wrong: &[u8] = if own <= 1 { &[0, 6, 7, 128, 255] } else { &[1, 2, 3, 4, 5, 6, 255] };
        for connector in wrong {
            let what = format_args!("connector {connector}, outcome {own}");
            self.against_the_rules(book, at + 12, &[*connector], what)?;
        }
        Ok(())
    }

    /// Zero bytes of the header, behind a block's sessions and in the last block's unused places.
    fn zero_bytes(&mut self, list: &List, book: &[u8]) -> Found {
        let mut ranges = vec![(16, CHECK, "zero bytes of the header")];
        if book.len() > BLOCK {
            let block = BLOCK * self.draw.among(1, (book.len() / BLOCK - 1) as u64) as usize;
            ranges.push((block + REST, block + CHECK, "behind the sessions"));
            let unused = BLOCK + session_at(list.entries.len());
            if !list.entries.len().is_multiple_of(SESSIONS_A_BLOCK) {
                ranges.push((unused, book.len() - BLOCK + REST, "unused places"));
            }
        }
        for (from, to, what) in ranges {
            let some = self.draw.among(from as u64, to as u64 - 1) as usize;
            for at in [from, some, to - 1] {
                self.wrong_byte(book, at, what)?;
            }
        }
        Ok(())
    }

    /// Some bytes, each with its block's check as it was and made good again.
    pub(super) fn bytes_changed(&mut self, book: &[u8]) -> Found {
        for _ in 0..SOME_BYTES {
            let at = self.block(book) * BLOCK + self.draw.below(BLOCK as u64) as usize;
            let mut changed = book.to_vec();
            changed[at] ^= self.draw.among(1, 255) as u8;
            self.given(&changed, Some(15), format_args!("byte {at} changed"))?;
            reseal(&mut changed, at / BLOCK);
            self.given(&changed, None, format_args!("byte {at} changed and the check made good"))?;
        }
        Ok(())
    }

    /// Two blocks in each other's place, and two words of a block, which leaves its check good.
    fn blocks_moved(&mut self, book: &[u8]) -> Found {
        let [one, other] = [self.block(book), self.block(book)];
        let mut swapped = book.to_vec();
        for k in 0..BLOCK {
            swapped.swap(one * BLOCK + k, other * BLOCK + k);
        }
        let number = if one == other { 0 } else { 15 };
        self.given(&swapped, Some(number), format_args!("blocks {} and {} swapped", one + 1, other + 1))?;
        seal_all(&mut swapped);
        self.given(&swapped, None, format_args!("blocks {} and {} swapped and sealed", one + 1, other + 1))?;
        for _ in 0..SOME_BYTES {
            let [first, second] = [0; 2].map(|_| one * BLOCK + 4 * self.draw.below(127) as usize);
            let mut swapped = book.to_vec();
            for k in 0..4 {
                swapped.swap(first + k, second + k);
            }
            self.given(&swapped, None, format_args!("the words at {first} and {second} swapped"))?;
        }
        Ok(())
    }

    /// Several bytes at once, most of them in fields, with most of the checks made good.
    fn several_bytes_changed(&mut self, book: &[u8]) -> Found {
        for _ in 0..SOME_BYTES {
            let mut changed = book.to_vec();
            for _ in 0..self.draw.among(2, 4) {
                let block = self.block(book);
                let within = self.draw.pick(&[16, 96, BLOCK as u64]);
                changed[block * BLOCK + self.draw.below(within) as usize] =
                    self.draw.pick(&[0, 1, 2, 5, 6, 64, 65, 255]);
                if !self.draw.one_in(4) {
                    reseal(&mut changed, block);
                }
            }
            self.given(&changed, None, "several bytes changed")?;
        }
        Ok(())
    }
}
