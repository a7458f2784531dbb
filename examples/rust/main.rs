//! Runs a plan by steps and prints its sessions' count and energy, or the refusal.
use std::process::ExitCode;

/// The calls and the order of their eleven numbers, as in include/site.h.
mod site {
    pub const STEPS: u32 = 1;
    pub const ALLOWANCE_MOST: u32 = 10_000_000;
    pub const BOOK_LEAST: usize = 7_168;

    pub const NUMBER: usize = 0;
    pub const PLACE: usize = 1;
    pub const OTHER_PLACE: usize = 2;
    pub const ENDED: usize = 4;
    pub const OPEN: usize = 7;
    pub const CHARGED: usize = 8;

    pub type Numbers = [u64; 11];

    unsafe extern "C" {
        fn site_run(
            plan: *const u8,
            plan_length: usize,
            engine: u32,
            allowance: u32,
            book: *mut u8,
            book_length: usize,
            numbers: *mut Numbers,
        );
    }

    pub fn run(plan: &[u8], engine: u32, allowance: u32, book: &mut [u8]) -> Numbers {
        let mut numbers = [0; 11];
        // SAFETY: each pointer comes with the length of the memory that it points to, and there are eleven numbers.
        unsafe {
            site_run(plan.as_ptr(), plan.len(), engine, allowance, book.as_mut_ptr(), book.len(), &mut numbers);
        }
        numbers
    }
}

/// The energy of session k in kWh: 0 unless it is charged. Five sessions of 96 bytes a block stand behind the header's block.
fn energy(book: &[u8], k: usize) -> f64 {
    let at = 512 * (1 + k / 5) + 96 * (k % 5) + 72;
    f64::from_le_bytes(book[at..at + 8].try_into().unwrap())
}

fn print_book(book: &[u8], numbers: &site::Numbers) {
    let sessions = numbers[site::OPEN..].iter().sum::<u64>() as usize;
    let energy: f64 = (0..sessions).map(|k| energy(book, k)).sum();
    let end = if numbers[site::ENDED] == 1 { "ended" } else { "not ended" };
    println!("{sessions} sessions, {} charged, {energy:.3} kWh, {end}", numbers[site::CHARGED]);
}

fn main() -> ExitCode {
    let words: Vec<String> = std::env::args().collect();
    let [_, path] = words.as_slice() else {
        eprintln!("usage: {} day.plan", words[0]);
        return ExitCode::from(2);
    };
    let plan = match std::fs::read(path) {
        Ok(plan) => plan,
        Err(error) => {
            eprintln!("{path}: {error}");
            return ExitCode::FAILURE;
        }
    };
    let mut book = [0; site::BOOK_LEAST];
    let numbers = site::run(&plan, site::STEPS, site::ALLOWANCE_MOST, &mut book);
    if numbers[site::NUMBER] != 0 {
        println!(
            "refused by {}, blocks {} and {}",
            numbers[site::NUMBER],
            numbers[site::PLACE],
            numbers[site::OTHER_PLACE]
        );
        return ExitCode::FAILURE;
    }
    print_book(&book, &numbers);
    ExitCode::SUCCESS
}
