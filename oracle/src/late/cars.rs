//! The cars that are booked late.
use super::Cut;
use crate::bay::brief;
use crate::blocks::{Block, f64_at, put, put_f64, seal, u32_at};
use crate::both::Bench;
use crate::draft::{Car, Draft};
use crate::dump::events;
use crate::plan::FLEET;

impl Bench<'_> {
    /// Cars that arrive before, at and after the last handled event, and in the seconds of pending ones.
    pub(super) fn cars(&mut self, cut: &Cut) -> Vec<Block> {
        let arrivals = self.arrivals(cut);
        arrivals.into_iter().map(|arrival| self.car(cut, arrival)).collect()
    }

    /// A car that arrives after the last handled event.
    pub(super) fn draw_car(&mut self, cut: &Cut) -> Block {
        let after = cut.last.map_or(0, |last| last + 1);
        let arrival = after + self.draw.below(300);
        self.car(cut, arrival)
    }

    fn arrivals(&mut self, cut: &Cut) -> Vec<u64> {
        let last = cut.last.unwrap_or(0);
        let mut arrivals =
            vec![last.saturating_sub(1), self.draw.below(last + 1), last, last + 1, last + 1 + self.draw.below(600)];
        let pending = events(&cut.dump);
        for _ in 0..4.min(pending.len()) {
            let time = pending[self.draw.below(pending.len() as u64) as usize].time;
            arrivals.push(self.draw.pick(&[time, time, time + 1, time.saturating_sub(1)]));
        }
        // Past the field's limit too, and with a low half that is too early.
        arrivals.push(self.draw.pick(&[1_000_000, 1_000_000, 1_000_001, 1 << 32, last + (1 << 32), 1 << 63, u64::MAX]));
        arrivals
    }

    /// A car like one of the plan's, with an id and times of its own.
    fn car(&mut self, cut: &Cut, arrival: u64) -> Block {
        let draft = cut.draft();
        let mut car = self.like_one_of(&draft);
        let ties: Vec<u64> = events(&cut.dump).iter().filter_map(|event| event.time.checked_sub(arrival)).collect();
        let wait = match self.draw.below(5) {
            0 | 1 => 0,
            2 | 3 if !ties.is_empty() => self.draw.pick(&ties),
            _ => self.draw.pick(&[1, 20, 300, 5_000, 1_000_000]),
        };
        put(&mut car, 0, &self.new_id(&draft).to_le_bytes());
        put(&mut car, 40, &arrival.to_le_bytes());
        put(&mut car, 48, &wait.to_le_bytes());
        put(&mut car, 56, &self.draw.pick(&[0, 0, 1, 2, 10, u32::MAX]).to_le_bytes());
        seal(&mut car, draft.block_count() + 1);
        car
    }

    /// One of the vehicles, now and then with other connectors, of another fleet or with nothing to charge.
    fn like_one_of(&mut self, draft: &Draft) -> Block {
        let mut car = self.one_of(draft);
        if self.draw.one_in(4) {
            let count = self.draw.below(4) as usize;
            car[8..14].fill(0);
            car[8] = count as u8;
            car[9..9 + count].fill_with(|| self.draw.among(1, 5) as u8);
        }
        if self.draw.one_in(6) {
            put(&mut car, FLEET, &self.draw.pick(&[0u16, 1, 2, 3, 63, 64]).to_le_bytes());
        }
        if self.draw.one_in(4) {
            let start = f64_at(&car, 16);
            put_f64(&mut car, 24, start);
            put_f64(&mut car, 32, 0.0);
        }
        car
    }

    /// One of the vehicles; where there is none, one with nothing to charge.
    pub(super) fn one_of(&mut self, draft: &Draft) -> Block {
        let profile = draft.profiles.first().map_or(1, |block| u32_at(block, 0));
        let brief = Car { profile, ..brief(0, 0, 0) }.block();
        if draft.vehicles.is_empty() { brief } else { self.draw.pick(&draft.vehicles) }
    }

    /// An id that no vehicle has.
    pub(super) fn new_id(&mut self, draft: &Draft) -> u32 {
        loop {
            let id = if self.draw.one_in(2) { self.draw.below(200) as u32 } else { self.draw.number() as u32 };
            if draft.vehicles.iter().all(|vehicle| u32_at(vehicle, 0) != id) {
                return id;
            }
        }
    }
}
