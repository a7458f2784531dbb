//! A sweep: a small plan with every byte changed to every value, every count, and outputs of many lengths.
use super::one_vehicle;
use crate::LEAST_DAY;
use crate::blocks::{BLOCK, CHECK, reseal};
use crate::both::{Bench, Found, Tally};
use crate::draw::Draw;
use crate::generate;

/// The small plan has at most so many blocks.
const BLOCKS: usize = 4;
/// Counts go up to two past the greatest.
const COUNTS: usize = 67;

/// A step is one byte of the small plan, one count, or the lengths of the output.
pub fn steps() -> u64 {
    (BLOCKS * BLOCK + COUNTS + 1) as u64
}

pub fn swept(seed: u64, step: u64, tally: &mut Tally) -> Option<String> {
    let draw = Draw::new(seed, u64::MAX);
    Bench { draw, tally }.day_step(step as usize).err()
}

impl Bench<'_> {
    fn day_step(&mut self, step: usize) -> Found {
        let plan = self.small_plan();
        match step.checked_sub(BLOCKS * BLOCK) {
            None => self.every_value_of_a_plan(&plan, step),
            Some(count) if count < COUNTS => self.every_seed(&plan, count as u32),
            Some(_) => self.every_output(&plan),
        }
    }

    /// A plan of a header, a profile, a charger and a vehicle.
    fn small_plan(&mut self) -> Vec<u8> {
        loop {
            let plan = generate::shaped("connectors", &mut self.draw).plan;
            if crate::check(&plan)[0] == 0 {
                let plan = one_vehicle(&mut self.draw, &plan);
                if plan.len() == BLOCKS * BLOCK {
                    return plan;
                }
            }
        }
    }

    /// Every other value of a byte, with the block's check as it was and made good.
    fn every_value_of_a_plan(&mut self, plan: &[u8], at: usize) -> Found {
        for value in (0..=255).filter(|value| *value != plan[at]) {
            let mut changed = plan.to_vec();
            changed[at] = value;
            self.asked(&changed, 1, 2, LEAST_DAY, format_args!("byte {at} is {value}"))?;
            if at % BLOCK < CHECK {
                reseal(&mut changed, at / BLOCK);
                let what = format_args!("byte {at} is {value}, the check made good");
                self.asked(&changed, 1, 2, LEAST_DAY, what)?;
            }
        }
        Ok(())
    }

    /// The seeds of one bit, their complements and some drawn ones.
    fn every_seed(&mut self, plan: &[u8], count: u32) -> Found {
        let bits = (0..32).map(|bit| 1 << bit);
        let drawn: Vec<u32> = (0..16).map(|_| self.seed()).collect();
        for seed in bits.flat_map(|bit: u32| [bit, !bit]).chain([0, u32::MAX]).chain(drawn) {
            if let Some(day) = self.asked(plan, seed, count, LEAST_DAY, "every count")? {
                self.as_a_plan(&day)?;
            }
        }
        Ok(())
    }

    fn every_output(&mut self, plan: &[u8]) -> Found {
        let blocks = (0..LEAST_DAY).step_by(BLOCK);
        for out in blocks.chain(LEAST_DAY - 1_100..LEAST_DAY + 1_100) {
            for count in [1, 64] {
                self.asked(plan, 1, count, out, "every length of the output")?;
            }
        }
        Ok(())
    }
}
