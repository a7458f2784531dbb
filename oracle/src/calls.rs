//! The two calls, check and run, over the Rust original. `super::original` says which copy of it.
use super::original::containers::{ChargeProfileList, VehicleList};
use super::original::ev::{ChargeProfile, ChargeProfileRecord, Vehicle};
use super::original::evse::{Charger, ConnectorType, Site};
use super::original::geo::Coords;
use super::original::session::Session;
use super::original::simulation::{DiscreteEventSimulation, TimeStepSimulation};
use super::plan::{self, LONGEST_STAY, Plan, Refusal};
use crate::Numbers;
use crate::book::{self, Entry, LEAST_BOOK};
use uuid::Uuid;

pub const MOST_UNITS: u32 = 10_000_000;

const CONNECTORS: [ConnectorType; 5] =
    [ConnectorType::Ccs1, ConnectorType::Ccs2, ConnectorType::Chademo, ConnectorType::Gbt, ConnectorType::Nacs];

/// Checks a plan: refusals 4 to 12.
pub fn check(plan: &[u8]) -> Numbers {
    match accepted(plan) {
        Ok(_) => [0; 11],
        Err(refusal) => refused(refusal),
    }
}

/// Runs a plan by engine 0 (events) or 1 (steps) and writes its book.
pub fn run(plan: &[u8], engine: u32, allowance: u32, book: &mut [u8]) -> Numbers {
    match arguments(engine, allowance, book.len()).and_then(|()| accepted(plan)) {
        Ok(site) => site.run(engine, allowance, book),
        Err(refusal) => refused(refusal),
    }
}

pub fn refused(refusal: Refusal) -> Numbers {
    let mut numbers = [0; 11];
    numbers[0] = refusal.number;
    numbers[1..3].copy_from_slice(&refusal.places);
    numbers
}

fn arguments(engine: u32, allowance: u32, book: usize) -> Result<(), Refusal> {
    first_of(&[(1, engine > 1), (2, allowance > MOST_UNITS), (3, book < LEAST_BOOK)])
}

/// The first refusal whose condition holds, in the order given; its places are 0, 0.
pub fn first_of(refusals: &[(u64, bool)]) -> Result<(), Refusal> {
    match refusals.iter().find(|(_, holds)| *holds) {
        Some((number, _)) => Err(Refusal::new(*number, 0, 0)),
        None => Ok(()),
    }
}

pub fn accepted(bytes: &[u8]) -> Result<Accepted, Refusal> {
    let mut accepted = Accepted::new(plan::read(bytes)?);
    accepted.pairs_charge()?;
    Ok(accepted)
}

/// A plan past refusals 4 to 11, with the original's objects made from it.
pub struct Accepted {
    plan: Plan,
    profiles: Vec<ChargeProfile>,
    chargers: Vec<Charger>,
    vehicles: Vec<Vehicle>,
}

impl Accepted {
    fn new(plan: Plan) -> Self {
        let profiles = plan.profiles.iter().enumerate().map(|(k, profile)| charge_profile(k, profile)).collect();
        let chargers = plan.chargers.iter().enumerate().map(|(k, block)| charger(k, block)).collect();
        let vehicles = plan.vehicles.iter().enumerate().map(|(k, block)| vehicle(k, block)).collect();
        Self { plan, profiles, chargers, vehicles }
    }

    /// Refusal 12: the lowest vehicle that has a failing charger, and for it the lowest such charger.
    fn pairs_charge(&mut self) -> Result<(), Refusal> {
        for (v, vehicle) in self.vehicles.iter().enumerate() {
            let profile = &self.profiles[vehicle.charge_profile_id.place()];
            for (c, charger) in self.chargers.iter_mut().enumerate() {
                if charger.resolve_connector(&vehicle.connectors).is_some() && !charges(vehicle, profile, charger) {
                    return Err(Refusal::new(12, self.plan.vehicle_block(v), self.plan.charger_block(c)));
                }
            }
        }
        Ok(())
    }

    fn run(self, engine: u32, allowance: u32, book: &mut [u8]) -> Numbers {
        if engine == 0 {
            let mut run = self.by_events();
            run.go_on(allowance);
            return run.answer(book);
        }
        let (plan, mut simulation) = self.by_steps();
        let used = simulation.run(allowance).expect("ids are places");
        let counts = [simulation.yet_to_arrive(), simulation.queued()];
        answer(1, used, simulation.ended(), counts, &entries(&plan, simulation.get_sessions()), book)
    }

    fn parts(self) -> (Plan, Site, VehicleList, ChargeProfileList) {
        let Self { plan, profiles, chargers, vehicles } = self;
        let mut site = Site::new("", chargers, Coords { latitude: 0.0, longitude: 0.0 });
        if let Some(limit) = plan.limit {
            site.site_max_power_kw(limit);
        }
        site.even_shares = plan.even_shares;
        site.fleet_places = plan.places;
        (plan, site, VehicleList::new(vehicles), ChargeProfileList::new(profiles))
    }

    /// The run by steps at its start.
    pub fn by_steps(self) -> (Plan, TimeStepSimulation) {
        let (plan, site, vehicles, profiles) = self.parts();
        (plan, TimeStepSimulation::new(site, vehicles, profiles))
    }

    /// The run by events at its start.
    pub fn by_events(self) -> EventRun {
        let (plan, site, vehicles, profiles) = self.parts();
        EventRun { plan, simulation: DiscreteEventSimulation::new(site, vehicles, profiles), used: 0 }
    }
}

/// A run by events after the events used.
pub struct EventRun {
    pub plan: Plan,
    pub simulation: DiscreteEventSimulation,
    pub used: u32,
}

impl EventRun {
    /// Pops up to so many further events.
    pub fn go_on(&mut self, events: u32) {
        self.used += self.simulation.run(events).expect("ids are places");
    }

    pub fn sessions(&self) -> Vec<Entry> {
        entries(&self.plan, self.simulation.get_sessions())
    }

    pub fn answer(&self, book: &mut [u8]) -> Numbers {
        let counts = [self.simulation.yet_to_arrive(), self.simulation.queued()];
        answer(0, self.used, self.simulation.ended(), counts, &self.sessions(), book)
    }
}

fn charges(vehicle: &Vehicle, profile: &ChargeProfile, charger: &mut Charger) -> bool {
    charger.take_lead(vehicle);
    let output = profile
        .integrate_over(vehicle.soc_start, vehicle.soc_target, charger.actual_max_power_kw())
        .expect("a profile has points");
    (0.0..=LONGEST_STAY).contains(&output.duration_s)
}

fn charge_profile(place: usize, block: &plan::Profile) -> ChargeProfile {
    let points = block.points.iter().map(|&(soc, power)| ChargeProfileRecord { soc, power }).collect();
    let mut profile = ChargeProfile::new("", points, block.battery);
    profile.id = Uuid::at(place);
    profile
}

/// Count 0 means Nacs alone, as both `build` functions of the original do.
fn connectors(codes: &[u8]) -> Vec<ConnectorType> {
    if codes.is_empty() {
        return vec![ConnectorType::Nacs];
    }
    codes.iter().map(|code| CONNECTORS[usize::from(*code) - 1]).collect()
}

fn code(connector: ConnectorType) -> u8 {
    CONNECTORS.iter().position(|known| *known == connector).unwrap() as u8 + 1
}

fn charger(place: usize, block: &plan::Charger) -> Charger {
    Charger {
        id: Uuid::at(place),
        name: String::new(),
        max_power_kw: block.max_power,
        max_current_a: block.current,
        voltage: block.voltage,
        connectors: connectors(&block.codes),
        is_busy: false,
        has_started: false,
        has_ended: false,
        lead_currents_a: lead_currents(block),
    }
}

/// Request 8: the smaller of a lead's cap, where it has one, and the charger's current.
fn lead_currents(block: &plan::Charger) -> [f64; 5] {
    block.caps.map(|cap| if cap == 0.0 { block.current } else { cap.min(block.current) })
}

fn vehicle(place: usize, block: &plan::Vehicle) -> Vehicle {
    Vehicle {
        id: Uuid::at(place),
        name: String::new(),
        soc_start: block.start,
        soc_target: block.target,
        charge_profile_id: Uuid::at(block.profile),
        arrival_time: block.arrival,
        idle_duration_s: block.idle,
        max_wait_s: block.wait,
        max_queue_length: block.queue_limit as usize,
        connectors: connectors(&block.codes),
        fleet: block.fleet,
    }
}

fn answer(
    engine: u8,
    used: u32,
    ended: bool,
    [yet_to_arrive, queued]: [usize; 2],
    entries: &[Entry],
    book: &mut [u8],
) -> Numbers {
    book::write(book, engine, ended, u64::from(used), entries);
    let of = |outcome: u8| entries.iter().filter(|entry| entry.outcome == outcome).count() as u64;
    let (used, ended) = (u64::from(used), u64::from(ended));
    [0, 0, 0, used, ended, yet_to_arrive as u64, queued as u64, of(0), of(1), of(2), of(3)]
}

fn entries(plan: &Plan, sessions: &[Session]) -> Vec<Entry> {
    sessions.iter().map(|session| entry(plan, session)).collect()
}

fn entry(plan: &Plan, session: &Session) -> Entry {
    let vehicle = &plan.vehicles[session.vehicle_id.place()];
    Entry {
        vehicle: vehicle.id,
        profile: plan.profiles[session.charge_profile_id.place()].id,
        charger: session.charger_id.map(|id| plan.chargers[id.place()].id),
        connector: session.connector.map(code),
        outcome: outcome(session),
        fleet: vehicle.fleet,
        arrival: session.arrival_time,
        plugin: session.plugin_time,
        unplug: session.unplug_time,
        wait: session.wait_duration_s,
        duration: session.charge_duration_s,
        idle: session.idle_duration_s,
        peak: session.peak_power_kw,
        energy: session.energy_kwh,
        start: session.start_soc,
        end: session.end_soc,
    }
}

fn outcome(session: &Session) -> u8 {
    match session {
        Session { balked: true, .. } => 3,
        Session { reneged: true, .. } => 2,
        Session { unplug_time: Some(_), .. } => 1,
        _ => 0,
    }
}
