//! Cases by seed and index: plans of many shapes, good and refused, with an engine, an allowance and a book.
mod faults;
pub mod shares;
mod site;

use crate::blocks::{BLOCK, put};
use crate::book::LEAST_BOOK;
use crate::draft::Draft;
use crate::draw::Draw;
use crate::run;
use faults::{cut_or_extended, damaged, edges, refused};
use site::{
    CONTENTION, Clock, FEW, FLEETS, FLEETS_AT_ONCE, Fleets, Idle, LARGE_FLEETS, LARGEST, MANY, NO_LENGTH, PARKED, Soc,
    Style, TIES, draft,
};

#[derive(Clone)]
pub struct Case {
    pub shape: &'static str,
    pub plan: Vec<u8>,
    pub engine: u32,
    pub allowance: u32,
    /// The length of the book's buffer.
    pub book: usize,
}

type Shape = (&'static str, u64, fn(&mut Draw) -> Case);

/// Each shape with its weight.
pub const SHAPES: [Shape; 22] = [
    ("few", 8, |d| good(d, FEW)),
    ("contention", 14, |d| good(d, CONTENTION)),
    ("ties at one second", 16, |d| good(d, TIES)),
    ("stays of no length", 10, |d| good(d, NO_LENGTH)),
    ("many chargers", 4, |d| good(d, MANY)),
    ("site limits", 10, |d| good(d, Style { limit: true, ..CONTENTION })),
    ("parked cars", 10, |d| by_steps(d, PARKED)),
    ("fractional idle", 5, |d| good(d, Style { idle: Idle::Fractional, clock: Clock::Short, ..TIES })),
    ("SOC at points", 6, |d| good(d, Style { soc: Soc::AtPoints, points: [2, 8], ..FEW })),
    ("subnormal SOC", 4, |d| good(d, Style { soc: Soc::Subnormal, points: [1, 6], ..FEW })),
    ("connectors", 6, |d| good(d, Style { connectors: true, chargers: [1, 4], ..CONTENTION })),
    ("amps by lead", 10, |d| good(d, Style { connectors: true, caps: true, chargers: [1, 4], ..CONTENTION })),
    ("places by fleet", 12, fleets),
    ("even shares", 14, even_shares),
    ("empty", 2, empty),
    ("largest", 1, |d| good(d, LARGEST)),
    ("far times", 1, |d| good(d, Style { clock: Clock::Far, ..FEW })),
    ("limits of fields", 3, edges),
    ("refused once", 9, |d| refused(d, 1)),
    ("refused in precedence", 6, |d| {
        let faults = d.among(2, 4);
        refused(d, faults)
    }),
    ("damaged", 6, damaged),
    ("cut or extended", 3, cut_or_extended),
];

/// For dumps: many cars, most of which wait for long.
const CROWD: Shape = ("crowd", 0, crowd);

/// A case whose run is dumped: a crowd now and then.
pub fn for_dumps(seed: u64, index: u64) -> Case {
    let mut draw = Draw::new(seed ^ 1 << 63, index);
    if draw.one_in(40) { shaped(CROWD.0, &mut draw) } else { case(seed, index) }
}

pub fn case(seed: u64, index: u64) -> Case {
    let mut draw = Draw::new(seed, index);
    let mut at = draw.below(SHAPES.iter().map(|(_, weight, _)| weight).sum());
    for (name, weight, make) in SHAPES {
        if at < weight {
            return Case { shape: name, ..make(&mut draw) };
        }
        at -= weight;
    }
    unreachable!()
}

/// A case of the named shape.
pub fn shaped(name: &str, draw: &mut Draw) -> Case {
    let (name, _, make) = SHAPES.iter().chain([&CROWD]).find(|(known, _, _)| *known == name).expect("a known shape");
    Case { shape: name, ..make(draw) }
}

fn good(draw: &mut Draw, style: Style) -> Case {
    let plan = draft(draw, style).bytes();
    call(draw, plan, style.clock)
}

fn by_steps(draw: &mut Draw, style: Style) -> Case {
    let plan = draft(draw, style).bytes();
    call_by(draw, plan, 1, style.clock)
}

fn fleets(draw: &mut Draw) -> Case {
    let style = match draw.below(16) {
        0 => LARGE_FLEETS,
        1..=7 => FLEETS_AT_ONCE,
        _ => FLEETS,
    };
    good(draw, style)
}

/// Mostly by steps: by events the shares do nothing.
fn even_shares(draw: &mut Draw) -> Case {
    let plan = shares::draft(draw).bytes();
    let engine = u32::from(!draw.one_in(8));
    call_by(draw, plan, engine, Clock::Short)
}

fn empty(draw: &mut Draw) -> Case {
    let mut draft = draft(draw, Style { chargers: [0, 2], ..FEW });
    match draw.below(4) {
        0 => draft = Draft::default(),
        1 => draft.vehicles.clear(),
        2 => draft.chargers.clear(),
        _ => {
            draft.vehicles.clear();
            draft.profiles.clear();
        }
    }
    let plan = draft.bytes();
    call(draw, plan, Clock::Short)
}

fn crowd(draw: &mut Draw) -> Case {
    let fleets = draw.pick(&[Fleets::Most, Fleets::Few, Fleets::Few, Fleets::Few]);
    let mut draft = draft(draw, Style { chargers: [0, 32], vehicles: [30, 64], fleets, ..CONTENTION });
    for vehicle in &mut draft.vehicles {
        if !draw.one_in(8) {
            put(vehicle, 48, &draw.among(500, 5_000).to_le_bytes());
            put(vehicle, 56, &u32::MAX.to_le_bytes());
        }
    }
    let plan = draft.bytes();
    call_by(draw, plan, 0, Clock::Short)
}

/// An engine, an allowance and a book for a plan.
fn call(draw: &mut Draw, plan: Vec<u8>, clock: Clock) -> Case {
    let engine = draw.below(2) as u32;
    call_by(draw, plan, engine, clock)
}

fn call_by(draw: &mut Draw, plan: Vec<u8>, engine: u32, clock: Clock) -> Case {
    let allowance = allowance(draw, &plan, engine, clock);
    let book = match draw.below(24) {
        0 => draw.pick(&[LEAST_BOOK + 1, LEAST_BOOK + BLOCK, 10_000]),
        1 if draw.one_in(3) => draw.pick(&[0, BLOCK, LEAST_BOOK - BLOCK, LEAST_BOOK - 1]),
        _ => LEAST_BOOK,
    };
    Case { shape: "", plan, engine, allowance, book }
}

fn allowance(draw: &mut Draw, plan: &[u8], engine: u32, clock: Clock) -> u32 {
    let long = engine == 1 && matches!(clock, Clock::Day | Clock::Far);
    let some = match (engine, clock) {
        (0, _) | (_, Clock::Tight) => 24,
        (_, Clock::Close | Clock::Short) => 700,
        _ => 20_000,
    };
    match draw.below(12) {
        0 => 0,
        1..=3 => draw.below(some) as u32,
        4 => draw.below(24) as u32,
        5 if draw.one_in(4) => draw.pick(&[10_000_001, u32::MAX, 1 << 31]),
        6..=8 if !long || draw.one_in(40) => exact(draw, plan, engine),
        9..=11 if !long || draw.one_in(40) => 10_000_000,
        _ => draw.below(3 * some) as u32,
    }
}

/// About the number of units that the run takes to its end.
fn exact(draw: &mut Draw, plan: &[u8], engine: u32) -> u32 {
    let mut book = vec![0; LEAST_BOOK];
    let used = run(plan, engine, 10_000_000, &mut book)[3] as u32;
    draw.pick(&[used, used, used.saturating_sub(1), used + 1, used / 2, used - used / 4])
}
