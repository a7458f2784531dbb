//! Request 1's two calls, dump and continue, over the Rust original. `super::original` says which copy of it.
use super::calls::{EventRun, MOST_UNITS, accepted, first_of, refused};
use super::original::events::{Event, EventType};
use super::plan::{Plan, Refusal};
use crate::Numbers;
use crate::book::LEAST_BOOK;
use crate::dump::{self, LEAST_DUMP, Pending, State};

/// Runs a plan by events, and writes its book and its dump.
pub fn dump(plan: &[u8], engine: u32, allowance: u32, book: &mut [u8], dump: &mut [u8]) -> Numbers {
    match run_cut(plan, engine, allowance, book.len(), dump.len()) {
        Ok(run) => {
            let written = dump::written(&state(&run));
            dump[..written.len()].copy_from_slice(&written);
            run.answer(book)
        }
        Err(refusal) => refused(refusal),
    }
}

/// Continues a run from its dump by further events, and writes its book.
pub fn resume(plan: &[u8], dump: &[u8], further: u32, book: &mut [u8]) -> Numbers {
    match run_on(plan, dump, further, book.len()) {
        Ok(run) => run.answer(book),
        Err(refusal) => refused(refusal),
    }
}

fn run_cut(plan: &[u8], engine: u32, allowance: u32, book: usize, dump: usize) -> Result<EventRun, Refusal> {
    first_of(&[(1, engine != 0), (2, allowance > MOST_UNITS), (3, book < LEAST_BOOK), (13, dump < LEAST_DUMP)])?;
    let mut run = accepted(plan)?.by_events();
    run.go_on(allowance);
    Ok(run)
}

fn run_on(plan: &[u8], dump: &[u8], further: u32, book: usize) -> Result<EventRun, Refusal> {
    first_of(&[(2, further > MOST_UNITS), (3, book < LEAST_BOOK)])?;
    let run = accepted(plan)?.by_events();
    let mut run = run_again(run, dump)?;
    run.go_on(further);
    Ok(run)
}

/// Refusal 14. The run, which is not past the count, goes on to it. A run has few events: one that does not reach the count
/// ends, and its dump names another.
pub fn run_again(mut run: EventRun, given: &[u8]) -> Result<EventRun, Refusal> {
    let no_dump = Refusal::new(14, 0, 0);
    let handled = dump::handled(given).ok_or(no_dump)?;
    run.go_on(u32::try_from(handled).unwrap_or(MOST_UNITS) - run.used);
    let written = dump::written(&state(&run));
    if given.starts_with(&written) { Ok(run) } else { Err(no_dump) }
}

/// What a dump shows of a run.
pub fn state(run: &EventRun) -> State {
    let (plan, simulation) = (&run.plan, &run.simulation);
    let queue = simulation.queue();
    let busy = simulation.busy();
    let events = simulation.pending();
    State {
        used: u64::from(run.used),
        queue: queue.iter().map(|vehicle| plan.vehicle_block(vehicle.place())).collect(),
        busy: busy
            .iter()
            .map(|(charger, vehicle)| [plan.charger_block(charger.place()), plan.vehicle_block(vehicle.place())])
            .collect(),
        events: events.iter().map(|event| pending(plan, event)).collect(),
        sessions: run.sessions(),
    }
}

fn pending(plan: &Plan, event: &Event) -> Pending {
    let (kind, block) = match (event.event_type, event.charger_id) {
        (EventType::Arrival, _) => (0, plan.vehicle_block(event.vehicle_id.place())),
        (EventType::Renege, _) => (1, plan.vehicle_block(event.vehicle_id.place())),
        (EventType::Unplug, charger) => (2, plan.charger_block(charger.expect("an unplug has a charger").place())),
    };
    Pending { time: event.time, kind, block }
}
