//! A case in words and as hexadecimal digits.
use crate::blocks::{BLOCK, f64_at, u16_at, u32_at, u64_at, wrong_checks, zero};
use crate::book::{self, LEAST_BOOK, slots};
use crate::draft::{Draft, points};
use crate::faithful::read_book;
use crate::generate::Case;
use crate::plan::{CAPS, FLEET, MOST_FLEETS};
use std::fmt::Write;

pub fn describe(case: &Case) -> String {
    let engine = match case.engine {
        0 => "events".to_string(),
        1 => "steps".to_string(),
        other => format!("engine {other}"),
    };
    let mut text = format!(
        "{} by {engine}, allowance {}, a book of {} bytes; the plan has {} bytes\n",
        case.shape,
        case.allowance,
        case.book,
        case.plan.len()
    );
    match Draft::of(&case.plan) {
        Some(draft) => text += &parts(&draft),
        None => text += "  the header's counts do not agree with the length\n",
    }
    let mut book = vec![0; case.book.max(LEAST_BOOK)];
    let numbers = crate::run(&case.plan, case.engine, case.allowance, &mut book);
    let _ = writeln!(text, "  the oracle answers {numbers:?}");
    if numbers[0] == 0 {
        for session in book::read(&book) {
            let _ = writeln!(text, "  its book: {session:?}");
        }
    }
    text + &wrong_checks_of(&case.plan)
}

fn wrong_checks_of(bytes: &[u8]) -> String {
    wrong_checks(bytes).map(|place| format!("  block {place}: wrong check\n")).collect()
}

fn parts(draft: &Draft) -> String {
    let mut text = String::new();
    if draft.header[12] != 0 {
        let evenly = if draft.header[12] == 2 { ", shared evenly" } else { "" };
        let limit = f64_at(&draft.header, 16);
        let _ = writeln!(text, "  site limit {limit:?} kW{evenly} (byte 12 is {})", draft.header[12]);
    }
    for fleet in (1..=MOST_FLEETS).filter(|fleet| draft.places(*fleet) > 0) {
        let _ = writeln!(text, "  fleet {fleet}: {} queue places", draft.places(fleet));
    }
    for block in &draft.profiles {
        let _ = writeln!(
            text,
            "  profile {}: battery {:?} kWh, {} points {:?}",
            u32_at(block, 0),
            f64_at(block, 8),
            u16_at(block, 4),
            points(block)
        );
    }
    for block in &draft.chargers {
        let _ = writeln!(
            text,
            "  charger {}: {} codes {:?}, {:?} kW, {:?} A, {:?} V, caps {:?} A",
            u32_at(block, 0),
            block[4],
            &block[5..10],
            f64_at(block, 16),
            f64_at(block, 24),
            f64_at(block, 32),
            CAPS.map(|at| f64_at(block, at))
        );
    }
    for block in &draft.vehicles {
        let _ = writeln!(text, "  {}", vehicle(block));
    }
    text
}

fn vehicle(block: &[u8]) -> String {
    format!(
        "vehicle {}: profile {}, {} codes {:?}, SOC {:?} to {:?}, idle {:?} s, arrival {}, wait {}, queue limit {}, fleet {}",
        u32_at(block, 0),
        u32_at(block, 4),
        block[8],
        &block[9..14],
        f64_at(block, 16),
        f64_at(block, 24),
        f64_at(block, 32),
        u64_at(block, 40),
        u64_at(block, 48),
        u32_at(block, 56),
        u16_at(block, FLEET)
    )
}

/// A car that is booked late, whatever its bytes are.
pub fn describe_car(car: &[u8]) -> String {
    if car.len() == BLOCK { vehicle(car) } else { format!("a car of {} bytes", car.len()) }
}

/// What the sixteen numbers of a session are.
pub const SESSION_NUMBERS: [&str; 16] = [
    "vehicle",
    "profile",
    "charger",
    "connector",
    "outcome",
    "fleet",
    "arrival",
    "plugin",
    "unplug",
    "wait",
    "charge duration",
    "idle",
    "peak",
    "energy",
    "start",
    "end",
];

/// The bytes of a book, whatever they are: its header, and each place for a session that is not zero.
pub fn describe_book(book: &[u8]) -> String {
    let mut text = format!("a book of {} bytes\n", book.len());
    let Some((header, blocks)) = book.split_at_checked(BLOCK) else { return text };
    let _ = writeln!(
        text,
        "  letters {:02x?}, count {}, engine {}, ended {}, used {}",
        &header[..4],
        u16_at(header, 4),
        header[6],
        header[7],
        u64_at(header, 8)
    );
    for (k, slot) in slots(blocks).enumerate().filter(|(_, slot)| !zero(&slot[..])) {
        let (whole, bits) = SESSION_NUMBERS.split_at(10);
        let numbers = read_book::numbers(slot);
        let whole = whole.iter().zip(numbers).map(|(name, number)| format!("{name} {number}"));
        let bits = bits.iter().zip(&numbers[10..]).map(|(name, bits)| format!("{name} {bits:#018x}"));
        let _ = writeln!(text, "  session {}: {}", k + 1, whole.chain(bits).collect::<Vec<_>>().join(", "));
    }
    text + &wrong_checks_of(book)
}

/// Bytes as digits; a run of zero bytes is written as its length in brackets.
pub fn hex(bytes: &[u8]) -> String {
    let mut text = String::new();
    let mut k = 0;
    while k < bytes.len() {
        let zeros = bytes[k..].iter().take_while(|byte| **byte == 0).count();
        if zeros >= 8 {
            let _ = write!(text, "[{zeros}]");
            k += zeros;
        } else {
            let _ = write!(text, "{:02x}", bytes[k]);
            k += 1;
        }
    }
    text
}
