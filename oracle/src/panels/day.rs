//! What a plan's whole run by steps says of its chargers after each round: the book, and the events that were watched.
use super::Found;
use crate::accounts::{Run, demand};
use crate::blocks::u32_at;
use crate::book::{self, Entry};
use crate::both::MOST;
use crate::draft::Draft;
use crate::{events, plan};

pub const STARTED: u8 = 1;
pub const ENDED: u8 = 2;

/// A car at a charger, which shows it after round `from` and the ones before round `until`.
pub struct Stay {
    pub charger: usize,
    pub vehicle: u32,
    pub from: u32,
    /// The first round after which it is idle. Nothing is known where the book has the session open.
    pub idle: Option<u32>,
    pub until: Option<u32>,
    pub energy: Option<f64>,
}

pub struct Day {
    pub plan: Vec<u8>,
    pub chargers: usize,
    /// How many rounds the run has, 10,000,000 at most.
    pub rounds: u32,
    pub stays: Vec<Stay>,
    /// Round, charger and bit, as they were watched.
    pub events: Vec<(u32, usize, u8)>,
    /// The rounds in which something happens, each once.
    pub moments: Vec<u32>,
}

impl Day {
    /// Of an accepted plan.
    pub fn of(plan: &[u8]) -> Found<Self> {
        let run = Run::new(plan, 1, MOST);
        let draft = Draft::of(plan).expect("an accepted plan");
        let mut day = Self {
            plan: plan.to_vec(),
            chargers: draft.chargers.len(),
            rounds: run.numbers[3] as u32,
            stays: stays(&draft, &run),
            events: events(plan),
            moments: Vec::new(),
        };
        demand(day.events == day.events_of_the_book(), "the events are the book's plug-ins and unplugs")?;
        day.moments = day.all_moments();
        Ok(day)
    }

    fn events_of_the_book(&self) -> Vec<(u32, usize, u8)> {
        let starts = self.stays.iter().map(|stay| (stay.from, stay.charger, STARTED));
        let ends = self.stays.iter().filter_map(|stay| Some((stay.until?, stay.charger, ENDED)));
        let mut events: Vec<_> = starts.chain(ends).collect();
        events.sort();
        events
    }

    /// A second is the round that has as many before it.
    fn all_moments(&self) -> Vec<u32> {
        let vehicles = plan::read(&self.plan).expect("an accepted plan").vehicles;
        let of_cars =
            vehicles.iter().flat_map(|car| [car.arrival + 1, car.arrival + car.wait + 1]).map(|time| time as u32);
        let idle = self.stays.iter().filter_map(|stay| stay.idle);
        let mut moments: Vec<u32> = self.events.iter().map(|event| event.0).chain(of_cars).chain(idle).collect();
        moments.sort();
        moments.dedup();
        moments
    }

    /// Who is at a charger after so many rounds.
    pub fn stay(&self, charger: usize, rounds: u32) -> Option<&Stay> {
        let there = |stay: &Stay| stay.from <= rounds && stay.until.is_none_or(|until| rounds < until);
        self.stays.iter().find(|stay| stay.charger == charger && there(stay))
    }

    /// The events after the first of these rounds, up to the second.
    pub fn between(&self, after: u32, to: u32) -> &[(u32, usize, u8)] {
        let [first, last] = [after, to].map(|round| self.events.partition_point(|event| event.0 <= round));
        &self.events[first..last.max(first)]
    }

    pub fn happened(&self, round: u32, charger: usize, bit: u8) -> bool {
        self.events.binary_search(&(round, charger, bit)).is_ok()
    }

    /// The book of a run of so many rounds has just the stays that have begun, open where they last.
    pub fn has_the_book_of(&self, rounds: u32) -> Found {
        let draft = Draft::of(&self.plan).expect("an accepted plan");
        let so_far = stays(&draft, &Run::new(&self.plan, 1, rounds));
        let begun: Vec<&Stay> = self.stays.iter().filter(|stay| stay.from <= rounds).collect();
        demand(begun.len() == so_far.len(), "a session for each stay that has begun")?;
        for (whole, so_far) in begun.into_iter().zip(&so_far) {
            let of = |stay: &Stay| (stay.charger, stay.vehicle, stay.from);
            demand(of(whole) == of(so_far), "a session keeps charger, car and plug-in")?;
            let lasts = whole.until.is_none_or(|until| rounds < until);
            let closed = |stay: &Stay| stay.until.zip(stay.energy.map(f64::to_bits));
            let expected = if lasts { None } else { closed(whole) };
            demand(closed(so_far) == expected, "a session is open as long as its car is at the charger")?;
        }
        Ok(())
    }
}

/// The sessions of a run that have a charger.
fn stays(draft: &Draft, run: &Run) -> Vec<Stay> {
    let ids: Vec<u32> = draft.chargers.iter().map(|block| u32_at(block, 0)).collect();
    book::read(&run.book).iter().filter_map(|session| stay(session, &ids)).collect()
}

/// A second is the round that has as many before it. A car is idle for as many rounds as its idle time has seconds, the
/// last one begun, and for one at least.
fn stay(session: &Entry, chargers: &[u32]) -> Option<Stay> {
    let charger = session.charger?;
    let until = session.unplug.map(|time| time as u32 + 1);
    let parked = session.idle?.ceil().max(1.0) as u32;
    Some(Stay {
        charger: chargers.iter().position(|id| *id == charger).expect("a charger of the plan"),
        vehicle: session.vehicle,
        from: session.plugin? as u32 + 1,
        idle: until.map(|until| until - parked),
        until,
        energy: session.energy,
    })
}
