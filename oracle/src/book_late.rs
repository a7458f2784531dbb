//! Request 7's call, a late booking, over the Rust original: the longer plan is run from its start. `super::original` says
//! which copy of it.
use super::calls::{EventRun, MOST_UNITS, accepted, first_of, refused};
use super::dump_calls::{run_again, state};
use super::plan::{MOST_VEHICLES, Refusal};
use crate::Numbers;
use crate::blocks::{BLOCK, put, reseal, u16_at, u64_at};
use crate::dump::{self, LEAST_DUMP};

/// Where a plan's header has V, and a vehicle its arrival.
const VEHICLES: usize = 8;
const ARRIVAL: usize = 40;

/// Adds a car to the plan of a run that a dump shows, and writes the dump of the longer plan after the same handled count.
pub fn book_late(plan: &[u8], dump: &[u8], car: &[u8], new_dump: &mut [u8]) -> Numbers {
    match run_longer(plan, dump, car, new_dump.len()) {
        Ok(run) => {
            let written = dump::written(&state(&run));
            new_dump[..written.len()].copy_from_slice(&written);
            [0; 11]
        }
        Err(refusal) => refused(refusal),
    }
}

fn run_longer(plan: &[u8], given: &[u8], car: &[u8], room: usize) -> Result<EventRun, Refusal> {
    first_of(&[(13, room < LEAST_DUMP), (4, car.len() != BLOCK)])?;
    let mut run = accepted(plan)?.by_events();
    let last = time_of_last(&mut run, dump::handled(given));
    let run = run_again(run, given)?;
    let full = run.plan.vehicles.len() == MOST_VEHICLES;
    let later = last.is_none_or(|last| u64_at(car, ARRIVAL) > last);
    first_of(&[(17, full), (18, !later)])?;
    let mut longer = accepted(&with_car(plan, car))?.by_events();
    longer.go_on(run.used);
    Ok(longer)
}

/// Runs up to the last of the handled events, and gives its time; none where none is handled.
fn time_of_last(run: &mut EventRun, handled: Option<u64>) -> Option<u64> {
    let before = handled?.checked_sub(1)?;
    run.go_on(u32::try_from(before).unwrap_or(MOST_UNITS));
    run.simulation.pending().first().map(|event| event.time)
}

/// The plan with the car last: V raised by one, and the header's check made again. The car's block has its check.
fn with_car(plan: &[u8], car: &[u8]) -> Vec<u8> {
    let mut longer = [plan, car].concat();
    let vehicles = u16_at(plan, VEHICLES) + 1;
    put(&mut longer, VEHICLES, &vehicles.to_le_bytes());
    reseal(&mut longer, 0);
    longer
}
