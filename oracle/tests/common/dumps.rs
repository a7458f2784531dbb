//! A run's dump and the run continued from it.
use super::EVENTS;
use oracle::Numbers;
use oracle::blocks::{BLOCK, u16_at, u64_at};
use oracle::book::LEAST_BOOK;
use oracle::dump::LEAST_DUMP;

/// The dump after so many events, of a plan that is accepted.
pub fn dumped(plan: &[u8], allowance: u32) -> Vec<u8> {
    let (mut book, mut dump) = (vec![0; LEAST_BOOK], vec![9; LEAST_DUMP]);
    assert_eq!(oracle::dump(plan, EVENTS, allowance, &mut book, &mut dump)[0], 0);
    let len = oracle::dump::length(&dump);
    assert!(dump[len..].iter().all(|byte| *byte == 9), "bytes past the dump stay");
    dump.truncate(len);
    dump
}

/// The numbers and the book of a continued run.
pub fn continued(plan: &[u8], dump: &[u8], further: u32) -> (Numbers, Vec<u8>) {
    let mut book = vec![7; LEAST_BOOK];
    let numbers = oracle::resume(plan, dump, further, &mut book);
    assert!(numbers[0] == 0 || book.iter().all(|byte| *byte == 7), "a refusal leaves the book");
    (numbers, book)
}

pub fn unbroken(plan: &[u8], allowance: u32) -> (Numbers, Vec<u8>) {
    let mut book = vec![7; LEAST_BOOK];
    (oracle::run(plan, EVENTS, allowance, &mut book), book)
}

/// Queued, busy, events, sessions.
pub fn counts(dump: &[u8]) -> [u16; 4] {
    [4, 6, 8, 10].map(|at| u16_at(dump, at))
}

/// The dump's first bytes from a place on, as 16-bit numbers.
pub fn words(dump: &[u8], at: usize, count: usize) -> Vec<u16> {
    (0..count).map(|k| u16_at(dump, at + 2 * k)).collect()
}

/// Time, kind and block of each event.
pub fn events(dump: &[u8]) -> Vec<(u64, u8, u16)> {
    let at = |k: usize| BLOCK * (1 + k / 31) + 16 * (k % 31);
    (0..usize::from(u16_at(dump, 8)))
        .map(|k| (u64_at(dump, at(k)), dump[at(k) + 8], u16_at(dump, at(k) + 10)))
        .collect()
}
