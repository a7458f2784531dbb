//! A sweep: a car's block with every byte changed to every value, and every length of what is handed in.
use super::{Cut, all_events, refusal};
use crate::blocks::{BLOCK, CHECK, seal};
use crate::both::{Bench, Call, Found, Tally};
use crate::draw::Draw;
use crate::dump::LEAST_DUMP;
use crate::generate;
use std::fmt::Display;

/// A step is one byte of the car's block, or the lengths of the car, of the dump or of the new dump's buffer.
pub fn steps() -> u64 {
    BLOCK as u64 + 3
}

pub fn swept(seed: u64, step: u64, tally: &mut Tally) -> Option<String> {
    let draw = Draw::new(seed, u64::MAX);
    Bench { draw, tally }.late_step(step as usize).err()
}

impl Bench<'_> {
    fn late_step(&mut self, step: usize) -> Found {
        let cut = self.small_cut();
        let mut car = self.draw_car(&cut);
        while cut.answer(&car)[0] != 0 {
            car = self.draw_car(&cut);
        }
        match step.checked_sub(BLOCK) {
            None => self.every_value(&cut, &car, step),
            Some(0) => self.every_car_length(&cut, &car),
            Some(1) => self.every_dump_length(&cut, &car),
            Some(_) => self.every_room(&cut, &car),
        }
    }

    /// A small plan's run in its midst.
    fn small_cut(&mut self) -> Cut {
        loop {
            let plan = generate::shaped("connectors", &mut self.draw).plan;
            if plan.len() <= 8 * BLOCK && crate::check(&plan)[0] == 0 {
                return Cut::after(&plan, all_events(&plan) / 2);
            }
        }
    }

    /// Every other value of a byte, with the block's check as it was and made good.
    fn every_value(&mut self, cut: &Cut, car: &[u8], at: usize) -> Found {
        for value in (0..=255).filter(|value| *value != car[at]) {
            let mut changed = car.to_vec();
            changed[at] = value;
            self.changed_car(cut, &changed, format_args!("byte {at} is {value}"))?;
            if at < CHECK {
                seal(&mut changed, cut.plan.len() / BLOCK + 1);
                self.changed_car(cut, &changed, format_args!("byte {at} is {value}, the check made good"))?;
            }
        }
        Ok(())
    }

    fn changed_car(&mut self, cut: &Cut, car: &[u8], what: impl Display) -> Found {
        let call = Call::BookLate { plan: &cut.plan, dump: &cut.dump, car, new_dump: LEAST_DUMP };
        self.numbered(call, &cut.answer(car), what).map(drop)
    }

    fn every_car_length(&mut self, cut: &Cut, car: &[u8]) -> Found {
        let longer = car.repeat(3);
        for len in 0..=longer.len() {
            let call = Call::BookLate { plan: &cut.plan, dump: &cut.dump, car: &longer[..len], new_dump: LEAST_DUMP };
            self.numbered(call, &refusal(if len == BLOCK { 0 } else { 4 }), "every length of the car")?;
        }
        Ok(())
    }

    fn every_dump_length(&mut self, cut: &Cut, car: &[u8]) -> Found {
        let longer = cut.dump.repeat(2);
        for len in 0..=longer.len() {
            let call = Call::BookLate { plan: &cut.plan, dump: &longer[..len], car, new_dump: LEAST_DUMP };
            let number = if len < cut.dump.len() { 14 } else { 0 };
            self.numbered(call, &refusal(number), "every length of the dump")?;
        }
        Ok(())
    }

    fn every_room(&mut self, cut: &Cut, car: &[u8]) -> Found {
        for new_dump in 0..LEAST_DUMP + 256 {
            let call = Call::BookLate { plan: &cut.plan, dump: &cut.dump, car, new_dump };
            let number = if new_dump < LEAST_DUMP { 13 } else { 0 };
            self.numbered(call, &refusal(number), "every length of the new dump's buffer")?;
        }
        Ok(())
    }
}
