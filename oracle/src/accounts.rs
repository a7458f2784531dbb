//! Demand 3's sentences, tried on the oracle's own runs.
use crate::blocks::{BLOCK, f64_at, u16_at, u32_at, u64_at};
use crate::book::{LEAST_BOOK, slots};
use crate::generate::Case;
use crate::plan::{self, Plan, Vehicle};
use crate::{Numbers, run};
use original::shares::{kilowatts, watts};

type Found = Result<(), String>;

pub fn demand(holds: bool, what: &str) -> Found {
    if holds { Ok(()) } else { Err(what.to_string()) }
}

pub struct Run {
    pub numbers: Numbers,
    pub book: Vec<u8>,
}

impl Run {
    pub fn new(plan: &[u8], engine: u32, allowance: u32) -> Self {
        Self::onto(plan, engine, allowance, vec![0; LEAST_BOOK])
    }

    /// A run that writes onto this book.
    pub fn onto(plan: &[u8], engine: u32, allowance: u32, mut book: Vec<u8>) -> Self {
        let numbers = run(plan, engine, allowance, &mut book);
        Self { numbers, book }
    }

    fn sessions(&self) -> Vec<&[u8]> {
        let count = usize::from(u16_at(&self.book, 4));
        slots(&self.book[BLOCK..]).take(count).map(|session| &session[..]).collect()
    }
}

/// The sentences about one run; nothing is said of a refused one.
pub fn one_run(case: &Case, run: &Run) -> Found {
    let numbers = &run.numbers;
    if numbers[0] != 0 {
        demand(numbers[3..].iter().all(|number| *number == 0), "a refusal has no other numbers")?;
        return demand(run.book.iter().all(|byte| *byte == 0), "a refusal leaves the book");
    }
    let plan = plan::read(&case.plan).map_err(|refusal| format!("{refusal:?} after a run"))?;
    let vehicles = plan.vehicles.len() as u64;
    let (used, ended) = (numbers[3], numbers[4]);
    demand(numbers[5..].iter().sum::<u64>() == vehicles, "each vehicle is in one spot")?;
    demand(used <= u64::from(case.allowance), "used is at most the allowance")?;
    demand(ended == 1 || used == u64::from(case.allowance), "a run that has not ended uses its allowance")?;
    demand(ended == 0 || numbers[5..8] == [0; 3], "at the end nobody is yet to arrive, queued or open")?;
    demand(case.engine == 1 || used <= 3 * vehicles, "an event run handles at most three events a vehicle")?;
    demand(case.engine == 1 || numbers[7] == 0, "an event run leaves no session open")?;
    header(case, run)?;
    sessions(&plan, run)?;
    if case.engine == 0 {
        return handled_adds_up(&plan, run);
    }
    peaks_are_shares(&plan, run)?;
    no_free_charger_fits(&plan, run)
}

fn header(case: &Case, run: &Run) -> Found {
    let book = &run.book;
    demand(book.starts_with(b"BOOK") && u32::from(book[6]) == case.engine, "letters and engine")?;
    demand(u64::from(book[7]) == run.numbers[4] && u64_at(book, 8) == run.numbers[3], "ended and used")?;
    demand(u64::from(u16_at(book, 4)) == run.numbers[7..].iter().sum::<u64>(), "the count of sessions")
}

fn sessions(plan: &Plan, run: &Run) -> Found {
    let mut seen: Vec<u32> = Vec::new();
    for session in run.sessions() {
        let id = u32_at(session, 0);
        demand(!seen.contains(&id), "one session a vehicle")?;
        seen.push(id);
        let vehicle = plan.vehicles.iter().find(|vehicle| vehicle.id == id).ok_or("an unknown vehicle")?;
        demand(u32_at(session, 4) == plan.profiles[vehicle.profile].id, "the vehicle's profile")?;
        demand(u16_at(session, 14) == vehicle.fleet, "the vehicle's fleet")?;
        demand(u64_at(session, 16) == vehicle.arrival, "the vehicle's arrival")?;
        demand(u64_at(session, 40) <= vehicle.wait, "nobody waits longer than the longest wait")?;
        if session[13] == 1 {
            let [plugin, unplug] = [u64_at(session, 24), u64_at(session, 32)];
            demand(vehicle.arrival <= plugin && plugin <= unplug, "plug-in lies between arrival and unplug")?;
            demand(f64_at(session, 48) >= 0.0, "a duration is not negative")?;
        }
    }
    Ok(())
}

fn fits(plan: &Plan, vehicle: usize, charger: usize) -> bool {
    let or_nacs = |codes: &[u8]| if codes.is_empty() { vec![5] } else { codes.to_vec() };
    let has = or_nacs(&plan.chargers[charger].codes);
    or_nacs(&plan.vehicles[vehicle].codes).iter().any(|code| has.contains(code))
}

/// How many of the queued are of a fleet.
fn of_fleet(plan: &Plan, queued: &[usize], fleet: u16) -> usize {
    queued.iter().filter(|v| plan.vehicles[**v].fleet == fleet).count()
}

fn fleets_keep_to_their_places(plan: &Plan, queued: &[usize]) -> Found {
    let keeps = |(fleet, places): (u16, &u8)| of_fleet(plan, queued, fleet) <= usize::from(*places);
    demand((1..).zip(&plan.places).all(keeps), "no fleet's queue exceeds its places")
}

/// After a round of steps: a queued vehicle has arrived and has no session; a busy charger has an open one.
fn no_free_charger_fits(plan: &Plan, run: &Run) -> Found {
    let sessions = run.sessions();
    let known: Vec<u32> = sessions.iter().map(|session| u32_at(session, 0)).collect();
    let busy: Vec<u32> = sessions.iter().filter(|session| session[13] == 0).map(|session| u32_at(session, 8)).collect();
    demand(busy.iter().enumerate().all(|(k, id)| !busy[..k].contains(id)), "one open session a charger")?;
    let waits = |v: &usize| plan.vehicles[*v].arrival < run.numbers[3] && !known.contains(&plan.vehicles[*v].id);
    let queued: Vec<usize> = (0..plan.vehicles.len()).filter(waits).collect();
    demand(queued.len() as u64 == run.numbers[6], "the queued are those that arrived and have no session")?;
    fleets_keep_to_their_places(plan, &queued)?;
    let free = (0..plan.chargers.len()).filter(|c| !busy.contains(&plan.chargers[*c].id));
    for charger in free {
        demand(queued.iter().all(|v| !fits(plan, *v, charger)), "no free charger fits a queued vehicle")?;
    }
    Ok(())
}

/// Request 10: what a car is delivered is its share, whole watts that the limit has.
fn peaks_are_shares(plan: &Plan, run: &Run) -> Found {
    let Some(limit) = plan.limit.filter(|_| plan.even_shares) else { return Ok(()) };
    let peaks = run.sessions().into_iter().filter(|session| session[13] == 1).map(|session| f64_at(session, 64));
    for peak in peaks {
        let share = (1_000.0 * peak).round() as u64;
        let within = (1..=watts(limit)).contains(&share);
        demand(within && kilowatts(share) == peak, "a peak under even shares is whole watts of the limit")?;
    }
    Ok(())
}

/// At the end of an event run every vehicle's two events and each charged one's unplug are handled.
fn handled_adds_up(plan: &Plan, run: &Run) -> Found {
    let numbers = &run.numbers;
    let all = 2 * plan.vehicles.len() as u64 + numbers[8];
    demand(if numbers[4] == 1 { numbers[3] == all } else { numbers[3] < all }, "handled adds up at the end")
}

/// A run and one with a larger allowance: sessions are only appended, and closed ones never change.
pub fn two_runs(engine: u32, shorter: &Run, longer: &Run) -> Found {
    if shorter.numbers[0] != 0 {
        return Ok(());
    }
    let (few, more) = (shorter.sessions(), longer.sessions());
    demand(few.len() <= more.len(), "sessions are only appended")?;
    for (before, after) in few.iter().zip(&more) {
        demand(before[..13] == after[..13] && before[14..32] == after[14..32], "a session keeps its places")?;
        demand(before[13] == 0 || before == after, "a closed session never changes")?;
        demand(before[13] != 0 || after[13] < 2, "an open session is charged or stays open")?;
    }
    demand(shorter.numbers[3] <= longer.numbers[3], "a larger allowance uses no fewer units")?;
    demand(shorter.numbers[4] <= longer.numbers[4], "an ended run stays ended")?;
    demand(shorter.numbers[5] >= longer.numbers[5], "arrivals are not undone")?;
    let ended_alike = shorter.numbers == longer.numbers && shorter.book == longer.book;
    demand(shorter.numbers[4] == 0 || ended_alike, "after the end nothing changes")?;
    demand(engine == 1 || few == more[..few.len()], "an event run's sessions are a prefix")
}

/// A pending event, in the order in which those of one second pop. An unplug has its charger's place, and its id.
#[derive(Debug, Clone, Copy, PartialEq, Eq, PartialOrd, Ord)]
enum Pending {
    Unplug(usize, u32),
    Arrival(usize),
    Renege(usize),
}

/// An event run unit by unit. Which event each unit pops follows from the plan and from the sessions so far.
/// Returns the number of units.
pub fn event_by_event(bytes: &[u8]) -> Result<u64, String> {
    let Ok(plan) = plan::read(bytes) else { return Ok(0) };
    let mut pending: Vec<(u64, Pending)> = Vec::new();
    for (v, vehicle) in plan.vehicles.iter().enumerate() {
        pending.push((vehicle.arrival, Pending::Arrival(v)));
        pending.push((vehicle.arrival + vehicle.wait, Pending::Renege(v)));
    }
    let mut before = Run::new(bytes, 0, 0);
    if before.numbers[0] != 0 {
        return Ok(0);
    }
    let (mut units, mut queued) = (0, Vec::new());
    while let Some(at) = (0..pending.len()).min_by_key(|at| pending[*at]) {
        let (time, event) = pending.remove(at);
        units += 1;
        let after = Run::new(bytes, 0, units);
        let new = after.sessions().len() - before.sessions().len();
        demand(new <= 1, "a unit adds at most one session")?;
        let session = after.sessions().last().filter(|_| new == 1).map(|session| session.to_vec());
        popped(&plan, event, time, session.as_deref(), &before, &after)?;
        if let Pending::Arrival(v) = event {
            waits_or_balks(&plan, v, session.as_deref(), &queued)?;
        }
        if let Some(session) = session.filter(|session| session[13] == 1) {
            let id = u32_at(&session, 8);
            let place = plan.chargers.iter().position(|charger| charger.id == id);
            let place = place.ok_or("a session's charger is one of the plan's")?;
            pending.push((u64_at(&session, 32), Pending::Unplug(place, id)));
        }
        queued = free_and_queued(&plan, &pending, &after)?;
        demand(after.numbers[4] == u64::from(pending.is_empty()), "a run has ended when no event is left")?;
        before = after;
    }
    demand(Run::new(bytes, 0, 10_000_000).numbers[3] == u64::from(units), "the run takes these units")?;
    Ok(u64::from(units))
}

/// A charger is busy while its unplug is pending; a vehicle is queued once it arrived, until it has a session.
/// Gives the queued ones.
fn free_and_queued(plan: &Plan, pending: &[(u64, Pending)], after: &Run) -> Result<Vec<usize>, String> {
    let busy: Vec<u32> = pending
        .iter()
        .filter_map(|(_, event)| if let Pending::Unplug(_, id) = event { Some(*id) } else { None })
        .collect();
    demand(busy.iter().enumerate().all(|(k, id)| !busy[..k].contains(id)), "one car a charger")?;
    let known: Vec<u32> = after.sessions().iter().map(|session| u32_at(session, 0)).collect();
    let arrived = |v: &usize| !pending.iter().any(|(_, event)| *event == Pending::Arrival(*v));
    let queued: Vec<usize> =
        (0..plan.vehicles.len()).filter(arrived).filter(|v| !known.contains(&plan.vehicles[*v].id)).collect();
    demand(queued.len() as u64 == after.numbers[6], "the queued are those that arrived and have no session")?;
    fleets_keep_to_their_places(plan, &queued)?;
    for charger in (0..plan.chargers.len()).filter(|c| !busy.contains(&plan.chargers[*c].id)) {
        demand(queued.iter().all(|v| !fits(plan, *v, charger)), "no free charger fits a queued vehicle")?;
    }
    Ok(queued)
}

/// An arrival that gets no charger balks just where its own limit or its fleet's is reached by those queued before.
fn waits_or_balks(plan: &Plan, v: usize, session: Option<&[u8]>, queued: &[usize]) -> Found {
    let Vehicle { queue_limit, fleet, .. } = plan.vehicles[v];
    let own = queued.len() >= queue_limit as usize;
    let full = fleet > 0 && of_fleet(plan, queued, fleet) >= usize::from(plan.places[usize::from(fleet) - 1]);
    match session.map(|session| session[13]) {
        None => demand(!own && !full, "a car waits below both limits"),
        Some(3) => demand(own || full, "a car balks at one of its limits"),
        Some(_) => Ok(()),
    }
}

/// What one popped event may do.
fn popped(plan: &Plan, event: Pending, time: u64, session: Option<&[u8]>, before: &Run, after: &Run) -> Found {
    let arrived = before.numbers[5] - after.numbers[5];
    match event {
        Pending::Arrival(v) => {
            demand(arrived == 1, "an arrival is handled")?;
            let own = session.is_none_or(|session| u32_at(session, 0) == plan.vehicles[v].id && session[13] != 2);
            demand(own, "an arrival plugs in, balks or waits")
        }
        Pending::Renege(v) => {
            let own = session.is_none_or(|session| u32_at(session, 0) == plan.vehicles[v].id && session[13] == 2);
            demand(arrived == 0 && own, "a renege is its vehicle's")
        }
        Pending::Unplug(_, id) => {
            let freed = session.is_none_or(|session| u32_at(session, 8) == id && u64_at(session, 24) == time);
            demand(arrived == 0 && freed, "a freed charger takes the next vehicle at once")
        }
    }
}
