//! The product's exported calls. Nothing compares these declarations with the Rattle source: keep them in step.
use crate::{Header, Numbers, Sessions};

unsafe extern "C" {
    fn site_check(plan: *const u8, plan_len: usize, numbers: *mut [u64; 11]);
    fn site_run(
        plan: *const u8,
        plan_len: usize,
        engine: u32,
        allowance: u32,
        book: *mut u8,
        book_len: usize,
        numbers: *mut [u64; 11],
    );
    fn site_dump(
        plan: *const u8,
        plan_len: usize,
        engine: u32,
        allowance: u32,
        book: *mut u8,
        book_len: usize,
        dump: *mut u8,
        dump_len: usize,
        numbers: *mut [u64; 11],
    );
    fn site_continue(
        plan: *const u8,
        plan_len: usize,
        dump: *const u8,
        dump_len: usize,
        further: u32,
        book: *mut u8,
        book_len: usize,
        numbers: *mut [u64; 11],
    );
    fn site_book_late(
        plan: *const u8,
        plan_len: usize,
        dump: *const u8,
        dump_len: usize,
        car: *const u8,
        car_len: usize,
        new_dump: *mut u8,
        new_dump_len: usize,
        numbers: *mut [u64; 11],
    );
    fn site_practice(
        plan: *const u8,
        plan_len: usize,
        seed: u32,
        count: u32,
        out: *mut u8,
        out_len: usize,
        numbers: *mut [u64; 11],
    );
    fn site_panel(
        plan: *const u8,
        plan_len: usize,
        script: *const u64,
        script_len: usize,
        out: *mut u8,
        out_len: usize,
        numbers: *mut [u64; 11],
    );
    fn site_read_book(
        book: *const u8,
        book_len: usize,
        header: *mut [u64; 4],
        sessions: *mut [u64; 1024],
        numbers: *mut [u64; 11],
    );
}

/// What stands in the answer before a call; each number must be written over.
const UNWRITTEN: u64 = 0xa5a5_a5a5_a5a5_a5a5;

pub fn check(plan: &[u8]) -> Numbers {
    let mut out = [UNWRITTEN; 11];
    // SAFETY: each pointer comes with the length of the memory it points to; there are always eleven numbers.
    unsafe { site_check(plan.as_ptr(), plan.len(), &mut out) };
    out
}

pub fn run(plan: &[u8], engine: u32, allowance: u32, book: &mut [u8]) -> Numbers {
    let mut out = [UNWRITTEN; 11];
    // SAFETY: each pointer comes with the length of the memory it points to; there are always eleven numbers.
    unsafe {
        site_run(plan.as_ptr(), plan.len(), engine, allowance, book.as_mut_ptr(), book.len(), &mut out);
    }
    out
}

pub fn dump(plan: &[u8], engine: u32, allowance: u32, book: &mut [u8], dump: &mut [u8]) -> Numbers {
    let mut out = [UNWRITTEN; 11];
    let (plan, plan_len) = (plan.as_ptr(), plan.len());
    let (book, book_len) = (book.as_mut_ptr(), book.len());
    let (dump, dump_len) = (dump.as_mut_ptr(), dump.len());
    // SAFETY: each pointer comes with the length of the memory it points to; there are always eleven numbers.
    unsafe { site_dump(plan, plan_len, engine, allowance, book, book_len, dump, dump_len, &mut out) };
    out
}

pub fn resume(plan: &[u8], dump: &[u8], further: u32, book: &mut [u8]) -> Numbers {
    let mut out = [UNWRITTEN; 11];
    let (plan, plan_len) = (plan.as_ptr(), plan.len());
    let (dump, dump_len) = (dump.as_ptr(), dump.len());
    let (book, book_len) = (book.as_mut_ptr(), book.len());
    // SAFETY: each pointer comes with the length of the memory it points to; there are always eleven numbers.
    unsafe { site_continue(plan, plan_len, dump, dump_len, further, book, book_len, &mut out) };
    out
}

pub fn book_late(plan: &[u8], dump: &[u8], car: &[u8], new_dump: &mut [u8]) -> Numbers {
    let mut out = [UNWRITTEN; 11];
    let (plan, plan_len) = (plan.as_ptr(), plan.len());
    let (dump, dump_len) = (dump.as_ptr(), dump.len());
    let (car, car_len) = (car.as_ptr(), car.len());
    let (new_dump, new_dump_len) = (new_dump.as_mut_ptr(), new_dump.len());
    // SAFETY: each pointer comes with the length of the memory it points to; there are always eleven numbers.
    unsafe { site_book_late(plan, plan_len, dump, dump_len, car, car_len, new_dump, new_dump_len, &mut out) };
    out
}

pub fn practice(plan: &[u8], seed: u32, count: u32, out: &mut [u8]) -> Numbers {
    let mut numbers = [UNWRITTEN; 11];
    let (plan, plan_len) = (plan.as_ptr(), plan.len());
    // SAFETY: each pointer comes with the length of the memory it points to; there are always eleven numbers.
    unsafe { site_practice(plan, plan_len, seed, count, out.as_mut_ptr(), out.len(), &mut numbers) };
    numbers
}

pub fn panel(plan: &[u8], script: &[u64], out: &mut [u8]) -> Numbers {
    let mut numbers = [UNWRITTEN; 11];
    let (plan, plan_len) = (plan.as_ptr(), plan.len());
    let (script, script_len) = (script.as_ptr(), script.len());
    // SAFETY: each pointer comes with the length of the memory it points to; there are always eleven numbers.
    unsafe { site_panel(plan, plan_len, script, script_len, out.as_mut_ptr(), out.len(), &mut numbers) };
    numbers
}

pub fn read_book(book: &[u8], header: &mut Header, sessions: &mut Sessions) -> Numbers {
    let mut out = [UNWRITTEN; 11];
    // SAFETY: the book comes with its length; the others point to arrays of the lengths declared.
    unsafe { site_read_book(book.as_ptr(), book.len(), header, sessions, &mut out) };
    out
}
