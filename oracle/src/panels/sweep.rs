//! A sweep: on a small plan every address is read and written with every value, and a run is followed round by round.
use super::day::{Day, ENDED, STARTED};
use super::operation::IMAGE;
use super::scripts::Script;
use crate::both::{Bench, Found, Tally};
use crate::draw::Draw;
use crate::generate;

/// The small plan has so many chargers.
const CHARGERS: usize = 2;
/// Addresses and places go up to so many past the images.
const PAST: u32 = 40;
const ADDRESSES: u32 = IMAGE * CHARGERS as u32 + PAST;
/// A run that is followed round by round has at most so many rounds: all bytes after each have room in an output.
const ROUNDS: u32 = 800;

/// So many runs are followed.
const RUNS: u64 = 20;

/// A step is one address of the same small plan, or a small plan of its own whose run is followed.
pub fn steps() -> u64 {
    u64::from(ADDRESSES) + 1 + RUNS
}

pub fn swept(seed: u64, step: u64, tally: &mut Tally) -> Option<String> {
    let run = step.checked_sub(u64::from(ADDRESSES) + 1);
    let draw = Draw::new(seed, u64::MAX - run.unwrap_or(0));
    let mut bench = Bench { draw, tally };
    let found = bench.small_day().and_then(|day| match run {
        None => bench.every_value_at(&day, step as u32),
        Some(_) => bench.round_by_round(&day),
    });
    found.err()
}

impl Bench<'_> {
    /// Two chargers, one of which is freed and takes a queued car in one round.
    fn small_day(&mut self) -> Found<Day> {
        loop {
            let shape = self.draw.pick(&["ties at one second", "contention", "connectors", "site limits"]);
            let plan = generate::shaped(shape, &mut self.draw).plan;
            if crate::check(&plan)[0] > 0 {
                continue;
            }
            let day = Day::of(&plan)?;
            let both =
                |(round, charger, bit): &(u32, usize, u8)| *bit == STARTED && day.happened(*round, *charger, ENDED);
            if day.chargers == CHARGERS && day.rounds <= ROUNDS && day.events.iter().any(both) {
                return Ok(day);
            }
        }
    }

    /// Each value is written at some moments of a run of its own, and everything is read after it.
    fn every_value_at(&mut self, day: &Day, address: u32) -> Found {
        let last = day.events.last().map_or(0, |event| event.0);
        let both = day.events.iter().find(|event| event.2 == STARTED && day.happened(event.0, event.1, ENDED));
        let mut moments = vec![0, day.events[0].0, both.map_or(0, |event| event.0), last - 1, last, day.rounds];
        moments.sort();
        for byte in 0..=255 {
            let mut script = Script::default();
            for charger in 0..CHARGERS as u32 {
                script.write(IMAGE * charger + 2, self.draw.number() as u8);
            }
            for moment in &moments {
                script.up_to(*moment);
                script.read(address);
                script.write(address, byte);
                script.read(address);
                script.line(address);
                (0..CHARGERS).for_each(|charger| script.look_at(charger));
            }
            self.played(day, &script, format_args!("{byte} at address {address}"))?;
        }
        Ok(())
    }

    fn round_by_round(&mut self, day: &Day) -> Found {
        for written in [None, Some(1), Some(2), Some(3)] {
            let mut script = Script::default();
            while script.rounds < day.rounds + 2 {
                (0..CHARGERS).for_each(|charger| script.look_at(charger));
                for charger in 0..CHARGERS as u32 {
                    if let Some(byte) = written.filter(|_| self.draw.one_in(3)) {
                        script.write(IMAGE * charger + self.draw.among(1, 2) as u32, byte);
                    }
                }
                script.rounds(1);
            }
            self.played(day, &script, "round by round")?;
        }
        Ok(())
    }
}
