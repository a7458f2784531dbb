//! The scripts that a day is played with.
use super::day::Day;
use super::operation::{IMAGE, Operation};
use crate::both::{Bench, MOST};
use crate::draw::Draw;

/// A script follows the run closely around so many moments at most.
const MOMENTS: usize = 20;
/// Of more chargers not all are read after every round.
const FEW: usize = 4;
/// The longest of the drawn scripts.
const OPERATIONS: u64 = 300;

/// The operations of a script, and how many rounds they ask for.
#[derive(Default)]
pub struct Script {
    pub operations: Vec<Operation>,
    pub rounds: u32,
}

impl Script {
    pub fn rounds(&mut self, count: u32) {
        self.operations.push(Operation::Rounds(count));
        self.rounds += count;
    }

    /// Goes on to the round, where it is not past it.
    pub fn up_to(&mut self, round: u32) {
        if round > self.rounds {
            self.rounds(round - self.rounds);
        }
    }

    pub fn read(&mut self, address: u32) {
        self.operations.push(Operation::Read(address));
    }

    pub fn write(&mut self, address: u32, byte: u8) {
        self.operations.push(Operation::Write(address, byte));
    }

    pub fn line(&mut self, charger: u32) {
        self.operations.push(Operation::Line(charger));
    }

    /// Every byte of a charger, and its line.
    pub fn look_at(&mut self, charger: usize) {
        let charger = charger as u32;
        (IMAGE * charger..IMAGE * (charger + 1)).for_each(|address| self.read(address));
        self.line(charger);
    }

    /// The numbers, with or without bits where none is looked at.
    pub fn numbers(&self, draw: &mut Draw) -> Vec<u64> {
        let plain = draw.one_in(3);
        self.operations.iter().map(|operation| operation.number(if plain { 0 } else { draw.number() })).collect()
    }
}

impl Bench<'_> {
    /// Single rounds around each moment of the run, with what the cabinets show after each, and writes between them.
    pub(super) fn closely(&mut self, day: &Day) -> Script {
        let mut moments = day.moments.clone();
        while moments.len() > MOMENTS {
            moments.remove(self.draw.below(moments.len() as u64) as usize);
        }
        let mut script = Script::default();
        for moment in moments {
            script.up_to(moment.saturating_sub(2).min(day.rounds));
            while script.rounds <= moment.min(day.rounds) && script.rounds < MOST {
                self.writes_about(day, &mut script);
                script.rounds(1);
                self.look(day, &mut script);
            }
        }
        script.up_to(day.rounds);
        self.writes_about(day, &mut script);
        let further = self.draw.pick(&[0, 1, 1_000, MOST - script.rounds]);
        script.rounds(further.min(MOST - script.rounds));
        self.look(day, &mut script);
        script
    }

    /// What the cabinets show: all of them, or another one beside those with an event in the last round or the next.
    fn look(&mut self, day: &Day, script: &mut Script) {
        let some = day.chargers > FEW && !self.draw.one_in(16);
        let other = self.draw.below(day.chargers.max(1) as u64) as usize;
        let about = day.between(script.rounds.saturating_sub(1), script.rounds + 1);
        for charger in 0..day.chargers {
            if !some || charger == other || about.iter().any(|event| event.1 == charger) {
                script.look_at(charger);
            }
        }
    }

    /// Writes to chargers with an event in the last round or in the next, and now and then elsewhere.
    fn writes_about(&mut self, day: &Day, script: &mut Script) {
        for (_, charger, bit) in day.between(script.rounds.saturating_sub(1), script.rounds + 1) {
            let first = IMAGE * *charger as u32;
            let any = self.draw.number() as u8;
            match self.draw.below(4) {
                0 => script.write(first + 1, self.draw.pick(&[*bit, 3 - bit, 3, 0, 0xfc, 0xff, any])),
                1 => script.write(first + 2, self.draw.pick(&[*bit, 3 - bit, 3, 0, 0xfc, 0xff, any])),
                _ => {}
            }
        }
        if self.draw.one_in(3) {
            let operation = self.any_write(day);
            script.operations.push(operation);
        }
    }

    /// Operations of all kinds in any order.
    pub(super) fn any_script(&mut self, day: &Day) -> Script {
        let mut script = Script::default();
        for _ in 0..self.draw.pick(&[3, 20, 100, OPERATIONS]) {
            match self.draw.below(10) {
                0..=2 => {
                    let count = self.some_rounds(day, script.rounds);
                    script.rounds(count);
                }
                3..=6 => {
                    let address = self.any_address(day);
                    script.read(address);
                }
                7 | 8 => {
                    let operation = self.any_write(day);
                    script.operations.push(operation);
                }
                _ => {
                    let charger = self.draw.below(day.chargers as u64 + 2) as u32;
                    script.line(charger);
                }
            }
        }
        script
    }

    /// None, one, a few or many rounds, up to a moment, to the end or past it, but no more than a script may ask for.
    fn some_rounds(&mut self, day: &Day, done: u32) -> u32 {
        let next = day.moments.iter().find(|moment| **moment > done).map_or(1, |moment| moment - done);
        let left = day.rounds.saturating_sub(done);
        let count = match self.draw.below(16) {
            0 => 0,
            1..=5 => 1,
            6 => self.draw.among(2, 6) as u32,
            7 => self.draw.below(40) as u32,
            8..=11 => next,
            12 => next + 1,
            13 => next.saturating_sub(1),
            14 if self.draw.one_in(8) => self.draw.pick(&[left, left + 1, left + 1_000, 86_400, MOST]),
            _ => self.draw.below(u64::from(left / 8) + 2) as u32,
        };
        count.min(MOST - done)
    }

    /// An address, mostly of a charger and of one of its first bytes.
    fn any_address(&mut self, day: &Day) -> u32 {
        let images = IMAGE * day.chargers as u32;
        if images == 0 || self.draw.one_in(12) {
            let [near, far] = [self.draw.below(60) as u32, self.draw.number() as u32 | 1 << 12];
            return self.draw.pick(&[images, images + 1, images + 2, images + near, far, 1 << 31, u32::MAX]);
        }
        let charger = self.draw.below(day.chargers as u64) as u32;
        let at = self.draw.pick(&[0, 1, 1, 1, 2, 2, 3, 4, 5, 6, 7, 8, 9, 10, 11, 12, 13, 14, 15]);
        IMAGE * charger + at
    }

    fn any_write(&mut self, day: &Day) -> Operation {
        let address = self.any_address(day);
        let to = self.draw.pick(&[address, address / IMAGE * IMAGE + 1, address / IMAGE * IMAGE + 2]);
        let any = self.draw.number() as u8;
        Operation::Write(to, self.draw.pick(&[0, 1, 2, 3, 3, any, any, 0xff]))
    }

    /// After some rounds, every byte written to enable and to one byte of all, and reads, writes and lines at the images' end,
    /// past it, and at addresses whose low bits are those of a charger's byte.
    pub(super) fn edges(&mut self, day: &Day) -> Script {
        let mut script = Script::default();
        for count in [self.some_rounds(day, 0), 1] {
            script.rounds(count);
        }
        let images = IMAGE * day.chargers as u32;
        for address in self.about(images) {
            script.read(address);
            script.write(address, self.draw.number() as u8);
            script.read(address);
        }
        for charger in self.about(day.chargers as u32) {
            script.line(charger);
        }
        if day.chargers > 0 {
            let charger = self.draw.below(day.chargers as u64) as u32;
            let at = self.draw.below(u64::from(IMAGE)) as u32;
            for byte in 0..=255 {
                for at in [2, at] {
                    script.write(IMAGE * charger + at, byte);
                    script.read(IMAGE * charger + at);
                }
                script.line(charger);
            }
        }
        (0..day.chargers).for_each(|charger| script.look_at(charger));
        script
    }

    /// Numbers about the first that is past something, with the powers of two that a number of fewer bits would not show.
    fn about(&mut self, end: u32) -> Vec<u32> {
        let inside = self.draw.below(u64::from(end.max(1))) as u32;
        let near = (end.saturating_sub(18)..end + 34).chain([inside]);
        let far = (5..32).flat_map(|bit| [inside | 1 << bit, 1 << bit, (1 << bit) - 1]);
        let last = (0..20).map(|k| u32::MAX - k);
        near.chain(far).chain(last).collect()
    }
}
