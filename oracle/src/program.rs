//! What the program `site` reads and writes.
use crate::book::{LEAST_BOOK, book_bytes};
use crate::{Numbers, run};

/// The engine byte, the allowance, and where the plan begins. Missing bytes of the first five are zero.
pub fn split(input: &[u8]) -> (u32, u32, &[u8]) {
    let mut head = [0; 5];
    let known = input.len().min(5);
    head[..known].copy_from_slice(&input[..known]);
    let allowance = u32::from_le_bytes(head[1..].try_into().unwrap());
    (u32::from(head[0]), allowance, &input[known..])
}

pub fn input(engine: u8, allowance: u32, plan: &[u8]) -> Vec<u8> {
    [&[engine][..], &allowance.to_le_bytes(), plan].concat()
}

/// The program's output for its input, and the eleven numbers of its run.
pub fn output(input: &[u8]) -> (Vec<u8>, Numbers) {
    let (engine, allowance, plan) = split(input);
    let mut book = vec![0; LEAST_BOOK];
    let numbers = run(plan, engine, allowance, &mut book);
    if numbers[0] != 0 {
        return (format!("{} {} {}\n", numbers[0], numbers[1], numbers[2]).into_bytes(), numbers);
    }
    book.truncate(book_bytes(numbers[7..].iter().sum::<u64>() as usize));
    (book, numbers)
}
