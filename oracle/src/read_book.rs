//! Request 5: reads a book back, or refuses it by 15 or 16.
use crate::blocks::{BLOCK, CHECK, u16_at, u32_at, u64_at, wrong_checks, zero};
use crate::book::{SESSION, SESSIONS_A_BLOCK, book_bytes, slots};
use crate::{Header, Numbers, Sessions};

const MOST_BLOCKS: usize = 14;
const MOST_SESSIONS: usize = 64;
const MOST_FLEETS: u64 = 64;

/// Reads a book's header and sessions. A refusal leaves both as they were.
pub fn read_book(book: &[u8], header: &mut Header, sessions: &mut Sessions) -> Numbers {
    let mut answer = [0; 11];
    answer[0] = refusal(book);
    if answer[0] == 0 {
        *header = [u64::from(u16_at(book, 4)), u64::from(book[6]), u64::from(book[7]), u64_at(book, 8)];
        sessions.fill(0);
        for (sixteen, slot) in sessions.chunks_exact_mut(16).zip(slots(&book[BLOCK..])) {
            sixteen.copy_from_slice(&numbers(slot));
        }
    }
    answer
}

/// 15 or 16, or 0 where the book is accepted.
fn refusal(book: &[u8]) -> u64 {
    if !sound(book) {
        return 15;
    }
    if by_the_rules(book) { 0 } else { 16 }
}

fn sound(book: &[u8]) -> bool {
    let length = !book.is_empty() && book.len().is_multiple_of(BLOCK) && book.len() <= MOST_BLOCKS * BLOCK;
    length && wrong_checks(book).next().is_none()
}

fn by_the_rules(book: &[u8]) -> bool {
    let (header, blocks) = book.split_at(BLOCK);
    let count = usize::from(u16_at(header, 4));
    header.starts_with(b"BOOK")
        && count <= MOST_SESSIONS
        && header[6] <= 1
        && header[7] <= 1
        && zero(&header[16..CHECK])
        && book.len() == book_bytes(count)
        && slots(blocks).take(count).all(|slot| follows(&numbers(slot)))
        && slots(blocks).skip(count).all(|slot| zero(slot))
        && blocks.chunks_exact(BLOCK).all(|block| zero(&block[SESSIONS_A_BLOCK * SESSION..CHECK]))
}

/// The sixteen numbers of a session as its bytes have them.
pub fn numbers(session: &[u8; SESSION]) -> [u64; 16] {
    let [vehicle, profile, charger] = [0, 4, 8].map(|at| u64::from(u32_at(session, at)));
    let [connector, outcome] = [12, 13].map(|at| u64::from(session[at]));
    let fleet = u64::from(u16_at(session, 14));
    let [arrival, plugin, unplug, wait] = [16, 24, 32, 40].map(|at| u64_at(session, at));
    let [duration, idle, peak, energy, start, end] = [48, 56, 64, 72, 80, 88].map(|at| u64_at(session, at));
    [
        vehicle, profile, charger, connector, outcome, fleet, arrival, plugin, unplug, wait, duration, idle, peak,
        energy, start, end,
    ]
}

/// The outcome and the fleet are known, what the outcome leaves out is zero, and a connector that is there has a code.
fn follows(session: &[u64; 16]) -> bool {
    let [_, _, charger, connector, outcome, fleet, _, plugin, unplug, _, duration, idle, peak, energy, _, end] =
        *session;
    let of_a_plug_in = [charger, connector, plugin, idle, end];
    let of_an_unplug = [unplug, duration, peak, energy];
    let code = (1..=5).contains(&connector);
    let lacks = |fields: &[u64]| fields.iter().all(|field| *field == 0);
    let outcome_follows = match outcome {
        0 => code && lacks(&of_an_unplug),
        1 => code,
        2 | 3 => lacks(&of_a_plug_in) && lacks(&of_an_unplug),
        _ => false,
    };
    outcome_follows && fleet <= MOST_FLEETS
}
