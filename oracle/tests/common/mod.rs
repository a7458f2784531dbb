//! The bay of document 01's worked cases, and short ways to run it.
#![allow(dead_code, unused_imports)]
pub mod dumps;

use oracle::Numbers;
pub use oracle::bay::{bay, brief};
use oracle::blocks::{BLOCK, put};
use oracle::book::{self, Entry, LEAST_BOOK};
use oracle::draft::Draft;

pub const EVENTS: u32 = 0;
pub const STEPS: u32 = 1;
pub const ENOUGH: u32 = 10_000_000;

pub struct Ran {
    pub numbers: Numbers,
    pub sessions: Vec<Entry>,
}

impl Ran {
    pub fn used(&self) -> u64 {
        self.numbers[3]
    }

    pub fn ended(&self) -> bool {
        self.numbers[4] == 1
    }

    /// Yet to arrive, queued, open, charged, reneged, balked.
    pub fn counts(&self) -> [u64; 6] {
        self.numbers[5..].try_into().unwrap()
    }

    /// The session of the car with this id.
    pub fn of(&self, vehicle: u32) -> &Entry {
        self.sessions.iter().find(|session| session.vehicle == vehicle).expect("a session")
    }
}

pub fn run(draft: &Draft, engine: u32, allowance: u32) -> Ran {
    let mut book = vec![0; LEAST_BOOK];
    let numbers = oracle::run(&draft.bytes(), engine, allowance, &mut book);
    let sessions = if numbers[0] == 0 { book::read(&book) } else { Vec::new() };
    Ran { numbers, sessions }
}

pub fn events(draft: &Draft) -> Ran {
    run(draft, EVENTS, ENOUGH)
}

pub fn steps(draft: &Draft) -> Ran {
    run(draft, STEPS, ENOUGH)
}

/// Number and places of a check.
pub fn checked(plan: &[u8]) -> [u64; 3] {
    let numbers = oracle::check(plan);
    assert!(numbers[3..].iter().all(|number| *number == 0));
    numbers[..3].try_into().unwrap()
}

/// A block of zero bytes but for these fields and its check.
pub fn block(fields: &[(usize, &[u8])], check: u32) -> Vec<u8> {
    let mut block = vec![0; BLOCK];
    for (at, bytes) in fields {
        put(&mut block, *at, bytes);
    }
    put(&mut block, 508, &check.to_le_bytes());
    block
}

/// M1's session: car, profile and charger 1, NACS, charged; 100 to 2,020, 1,800 s, 120 s, 50 kW, 25 kWh, 0.25 to 0.75.
pub fn m1_session(check: u32) -> Vec<u8> {
    let fields: [(usize, &[u8]); 13] = [
        (0, &[1]),
        (4, &[1]),
        (8, &[1]),
        (12, &[5, 1]),
        (16, &[100]),
        (24, &[100]),
        (32, &[0xe4, 0x07]),
        (53, &[0x20, 0x9c, 0x40]),
        (62, &[0x5e, 0x40]),
        (70, &[0x49, 0x40]),
        (78, &[0x39, 0x40]),
        (86, &[0xd0, 0x3f]),
        (94, &[0xe8, 0x3f]),
    ];
    block(&fields, check)
}
