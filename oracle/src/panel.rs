//! Request 12's call, a script for the cabinets' registers, beside the Rust original's run by steps. `super::original` says
//! which copy of it.
use super::calls::{MOST_UNITS, accepted, first_of, refused};
use super::original::evse::ChargerStatus;
use super::original::simulation::TimeStepSimulation;
use super::plan::{Plan, Refusal};
use crate::Numbers;
use crate::blocks::{put, put_f64};
use uuid::Uuid;

/// The bytes of a cabinet.
const IMAGE: usize = 16;
/// Where they are.
const STATUS: usize = 0;
const PENDING: usize = 1;
const ENABLE: usize = 2;
const ID: usize = 4;
const ENERGY: usize = 8;

const OCCUPIED: u8 = 1;
const CHARGING: u8 = 2;
const IDLE: u8 = 4;

/// The bits of pending and enable.
const STARTED: u8 = 1;
const ENDED: u8 = 2;

const NO_ADDRESS: [u8; 2] = [20, 0];
const NOT_WRITTEN: [u8; 2] = [21, 0];

/// Plays a script beside a run by steps. Each operation that has room in the output leaves two bytes there.
pub fn panel(plan: &[u8], script: &[u64], out: &mut [u8]) -> Numbers {
    let played = &script[..script.len().min(out.len() / 2)];
    match answers(plan, played) {
        Ok(answers) => {
            out[..answers.len()].copy_from_slice(&answers);
            [0; 11]
        }
        Err(refusal) => refused(refusal),
    }
}

fn answers(plan: &[u8], script: &[u64]) -> Result<Vec<u8>, Refusal> {
    let rounds = |operation: &u64| if operation & 3 == 0 { operation >> 32 } else { 0 };
    let asked: u64 = script.iter().map(rounds).sum();
    first_of(&[(2, asked > u64::from(MOST_UNITS))])?;
    let mut panel = Panel::new(plan)?;
    Ok(script.iter().flat_map(|operation| panel.play(*operation)).collect())
}

/// Each event of an accepted plan's run: its round, the first being 1, its charger's place, and its bit.
pub fn events(plan: &[u8]) -> Vec<(u32, usize, u8)> {
    let mut panel = Panel::new(plan).expect("an accepted plan");
    let mut events = Vec::new();
    let mut round = 0;
    while round < MOST_UNITS && panel.round() {
        round += 1;
        for (charger, pending) in panel.pending.iter_mut().enumerate() {
            let bits = [STARTED, ENDED].into_iter().filter(|bit| *pending & bit > 0);
            events.extend(bits.map(|bit| (round, charger, bit)));
            *pending = 0;
        }
    }
    events
}

/// The registers of a site's cabinets, and the run that they show.
struct Panel {
    plan: Plan,
    run: TimeStepSimulation,
    pending: Vec<u8>,
    enable: Vec<u8>,
}

impl Panel {
    fn new(plan: &[u8]) -> Result<Self, Refusal> {
        let (plan, run) = accepted(plan)?.by_steps();
        let [pending, enable] = [0; 2].map(|zero| vec![zero; plan.chargers.len()]);
        Ok(Self { plan, run, pending, enable })
    }

    /// The answer of an operation, and its byte.
    fn play(&mut self, operation: u64) -> [u8; 2] {
        let argument = (operation >> 32) as u32;
        let byte = (operation >> 8) as u8;
        match operation & 3 {
            0 => self.rounds(argument),
            1 => self.read(argument),
            2 => self.write(argument, byte),
            _ => self.line(argument),
        }
    }

    fn rounds(&mut self, count: u32) -> [u8; 2] {
        for _ in 0..count {
            if !self.round() {
                break;
            }
        }
        [0, 0]
    }

    /// One round, and the events in it; none after the run's end.
    fn round(&mut self) -> bool {
        let used = self.run.run(1).expect("ids are places");
        for (charger, pending) in self.run.chargers().iter_mut().zip(&mut self.pending) {
            if std::mem::take(&mut charger.has_started) {
                *pending |= STARTED;
            }
            if std::mem::take(&mut charger.has_ended) {
                *pending |= ENDED;
            }
        }
        used > 0
    }

    fn read(&self, address: u32) -> [u8; 2] {
        match self.place(address) {
            Some((charger, at)) => [0, self.image(charger)[at]],
            None => NO_ADDRESS,
        }
    }

    fn write(&mut self, address: u32, byte: u8) -> [u8; 2] {
        match self.place(address) {
            None => return NO_ADDRESS,
            Some((charger, PENDING)) => self.pending[charger] &= !byte,
            Some((charger, ENABLE)) => self.enable[charger] = byte & (STARTED | ENDED),
            Some(_) => return NOT_WRITTEN,
        }
        [0, 0]
    }

    fn line(&self, charger: u32) -> [u8; 2] {
        let charger = charger as usize;
        if charger >= self.plan.chargers.len() {
            return NO_ADDRESS;
        }
        [0, u8::from(self.pending[charger] & self.enable[charger] > 0)]
    }

    /// The charger whose image has the address, and which byte of it.
    fn place(&self, address: u32) -> Option<(usize, usize)> {
        let address = address as usize;
        let charger = address / IMAGE;
        (charger < self.plan.chargers.len()).then_some((charger, address % IMAGE))
    }

    fn image(&self, charger: usize) -> [u8; IMAGE] {
        let mut image = [0; IMAGE];
        image[PENDING] = self.pending[charger];
        image[ENABLE] = self.enable[charger];
        if let Some((state, car)) = self.run.occupied(&Uuid::at(charger)) {
            let doing = match state.status {
                ChargerStatus::Charging => CHARGING,
                ChargerStatus::Idle => IDLE,
            };
            image[STATUS] = OCCUPIED | doing;
            put(&mut image, ID, &self.plan.vehicles[car.place()].id.to_le_bytes());
            put_f64(&mut image, ENERGY, state.energy_kwh);
        }
        image
    }
}
