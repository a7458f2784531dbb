//! What the text says of the operations of a script, from the events that were watched and the book of the whole run.
use super::Found;
use super::day::{Day, ENDED, STARTED, Stay};
use super::operation::{IMAGE, Operation};
use super::seen::{Seen, Sight};
use crate::accounts::demand;

/// Holds the answers of a script that was played, and notes what it came across.
pub fn hold(day: &Day, script: &[u64], answers: &[u8], seen: &mut Seen) -> Found {
    let operations: Vec<Operation> = script.iter().map(|number| Operation::of(*number)).collect();
    let mut text = Text::new(day, seen);
    let mut rounds = Vec::new();
    for (k, (operation, answer)) in operations.iter().zip(answers.chunks_exact(2)).enumerate() {
        rounds.push(text.rounds);
        let (number, byte) = text.answer(*operation);
        text.seen.operation(operation.kind(), number);
        if answer[0] != number || byte.is_some_and(|byte| byte != answer[1]) {
            let done = rounds[k];
            let byte = byte.map_or("any byte".to_string(), |byte| byte.to_string());
            return Err(format!("operation {k}, {operation}, after {done} rounds: the text has {number} and {byte}"));
        }
    }
    energies(day, &operations, answers, &rounds)
}

/// What the text says, on the way through a script.
struct Text<'a> {
    day: &'a Day,
    seen: &'a mut Seen,
    rounds: u32,
    /// Of each charger and bit, after how many rounds it was last cleared.
    cleared: Vec<[Option<u32>; 2]>,
    enable: Vec<u8>,
}

impl<'a> Text<'a> {
    fn new(day: &'a Day, seen: &'a mut Seen) -> Self {
        let chargers = day.chargers;
        Self { day, seen, rounds: 0, cleared: vec![[None; 2]; chargers], enable: vec![0; chargers] }
    }

    /// The answer, and its byte where the book of the whole run tells it.
    fn answer(&mut self, operation: Operation) -> (u8, Option<u8>) {
        let chargers = self.day.chargers as u32;
        let place = |address: u32| ((address / IMAGE) as usize, address % IMAGE);
        match operation {
            Operation::Line(charger) if charger >= chargers => return (20, Some(0)),
            Operation::Read(address) | Operation::Write(address, _) if address >= IMAGE * chargers => {
                return (20, Some(0));
            }
            Operation::Rounds(count) => self.go_on(count),
            Operation::Line(charger) => return (0, Some(self.line(charger as usize))),
            Operation::Read(address) => {
                let (charger, at) = place(address);
                return (0, self.read(charger, at));
            }
            Operation::Write(address, byte) => match place(address) {
                (charger, 1) => self.clear(charger, byte),
                (charger, 2) => {
                    self.seen.sight(Sight::BitsDropped, byte > 3);
                    self.enable[charger] = byte % 4;
                }
                _ => return (21, Some(0)),
            },
        }
        (0, Some(0))
    }

    fn go_on(&mut self, count: u32) {
        let (before, after) = (self.rounds, self.rounds.saturating_add(count).min(self.day.rounds));
        self.seen.sight(Sight::NoRounds, count == 0);
        self.seen.sight(Sight::RoundsPastTheEnd, count > after - before);
        let both = |charger: usize| [STARTED, ENDED].into_iter().all(|bit| self.day.happened(after, charger, bit));
        self.seen.sight(Sight::BothEvents, after - before == 1 && (0..self.day.chargers).any(both));
        self.rounds = after;
    }

    /// A bit is set exactly if its event came after its last clearing, or came at all where it was never cleared.
    fn pending(&self, charger: usize) -> u8 {
        let came = |bit: u8| {
            let after = self.cleared[charger][usize::from(bit - 1)].unwrap_or(0);
            self.day.between(after, self.rounds).iter().any(|event| (event.1, event.2) == (charger, bit))
        };
        [STARTED, ENDED].into_iter().filter(|bit| came(*bit)).sum()
    }

    fn clear(&mut self, charger: usize, byte: u8) {
        self.seen.sight(Sight::OnesBesideTheBits, byte > 3);
        self.seen.sight(Sight::NoOnes, byte & 3 == 0 && self.pending(charger) > 0);
        for bit in [STARTED, ENDED].into_iter().filter(|bit| byte & bit > 0) {
            let happens = |round| self.day.happened(round, charger, bit);
            self.seen.sight(Sight::ClearedBefore, happens(self.rounds + 1));
            self.seen.sight(Sight::ClearedAfter, happens(self.rounds));
            self.cleared[charger][usize::from(bit - 1)] = Some(self.rounds);
        }
    }

    fn read(&mut self, charger: usize, at: u32) -> Option<u8> {
        let stay = self.day.stay(charger, self.rounds);
        match (at, stay) {
            (0, _) => self.status(charger, stay),
            (1, _) => {
                let pending = self.pending(charger);
                let anew = |bit: u8| pending & bit > 0 && self.cleared[charger][usize::from(bit - 1)].is_some();
                self.seen.sight(Sight::SetAgain, anew(STARTED) || anew(ENDED));
                Some(pending)
            }
            (2, _) => Some(self.enable[charger]),
            (3, _) | (_, None) => Some(0),
            (4..8, Some(stay)) => Some(stay.vehicle.to_le_bytes()[at as usize - 4]),
            _ => None,
        }
    }

    /// Occupied is 1, charging 2 and idle 4.
    fn status(&mut self, charger: usize, stay: Option<&Stay>) -> Option<u8> {
        let Some(stay) = stay else {
            let earlier = self.day.between(0, self.rounds).iter().any(|event| event.1 == charger);
            self.seen.sight(Sight::Freed, earlier);
            return Some(0);
        };
        let idle = stay.idle? <= self.rounds;
        self.seen.sight(if idle { Sight::Idle } else { Sight::Charging }, true);
        Some(if idle { 1 + 4 } else { 1 + 2 })
    }

    fn line(&mut self, charger: usize) -> u8 {
        let (pending, enable) = (self.pending(charger), self.enable[charger]);
        let raised = [STARTED, ENDED].into_iter().any(|bit| pending & bit > 0 && enable & bit > 0);
        self.seen.sight(Sight::LineUp, raised);
        self.seen.sight(Sight::LineDown, !raised && (pending > 0 || enable > 0));
        u8::from(raised)
    }
}

/// Energies that were read byte by byte: an idle car's is that of its session; a charging car's is above 0 after its first
/// round, never falls and does not pass its session's.
fn energies(day: &Day, operations: &[Operation], answers: &[u8], rounds: &[u32]) -> Found {
    let mut last = vec![(0, 0.0); day.chargers];
    for (k, operations) in operations.windows(8).enumerate() {
        let Operation::Read(first) = operations[0] else { continue };
        let in_turn = |(operation, address): (&Operation, u32)| *operation == Operation::Read(address);
        let charger = (first / IMAGE) as usize;
        if first % IMAGE != 8 || charger >= day.chargers || !operations.iter().zip(first..).all(in_turn) {
            continue;
        }
        let done = rounds[k];
        let Some(stay) = day.stay(charger, done) else { continue };
        let energy = f64::from_le_bytes(std::array::from_fn(|at| answers[2 * (k + at) + 1]));
        let before = if last[charger].0 == stay.from { last[charger].1 } else { 0.0 };
        last[charger] = (stay.from, energy);
        let some = energy > 0.0 || energy.to_bits() == 0 && done == stay.from;
        let same = energy.to_bits() == stay.energy.unwrap_or(energy).to_bits();
        let idle = stay.idle.is_some_and(|idle| idle <= done);
        let within = before <= energy && energy <= stay.energy.unwrap_or(f64::MAX);
        demand(some && within && (same || !idle), "an energy so far is on its way to its session's").map_err(|wrong| {
            let of_session = stay.energy;
            format!("operation {k}, after {done} rounds, {energy:?} kWh after {before:?}, {of_session:?} in all: {wrong}")
        })?;
    }
    Ok(())
}
