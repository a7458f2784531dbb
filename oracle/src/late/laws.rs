//! What must hold of the dump after a booking.
use super::{Cut, dumped};
use crate::accounts::demand;
use crate::blocks::{CHECK, u16_at, u64_at, wrong_checks};
use crate::both::Found;
use crate::dump::{Pending, events, sessions};

/// The new dump is the longer plan's, and what the first run had done by then stands in it.
pub fn hold(cut: &Cut, longer: &Cut, car: &[u8]) -> Found {
    let (old, new) = (&cut.dump, &longer.dump);
    demand(*new == dumped(&longer.plan, cut.handled), "the new dump is that of the longer plan")?;
    demand(wrong_checks(new).next().is_none(), "each block has its check")?;
    let header = |dump: &[u8]| [&dump[..8], &dump[10..CHECK]].concat();
    demand(header(old) == header(new), "the header is the old one but for its count of events and its check")?;
    demand(u16_at(new, 8) == u16_at(old, 8) + 2, "there are two events more")?;
    demand(sessions(new) == sessions(old), "the sessions are the old ones")?;
    let block = cut.draft().block_count() + 1;
    demand(events(new) == with_two(events(old), car, block), "the events are the old ones and the car's two in turn")?;
    let others: Vec<Pending> = events(new).into_iter().filter(|event| event.block != block).collect();
    demand(others == events(old), "the old events keep their order")
}

/// The events with the arrival and the renege of a car, in the order of request 4.
fn with_two(mut events: Vec<Pending>, car: &[u8], block: usize) -> Vec<Pending> {
    let [arrival, wait] = [u64_at(car, 40), u64_at(car, 48)];
    events.push(Pending { time: arrival, kind: 0, block });
    events.push(Pending { time: arrival + wait, kind: 1, block });
    // Of one second unplugs (kind 2) come first, then arrivals, then reneges.
    events.sort_by_key(|event| (event.time, (event.kind + 1) % 3, event.block));
    events
}
