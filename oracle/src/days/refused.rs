//! Days that are refused, for one thing or for the first of several.
use super::{of_vehicles, refused_by};
use crate::LEAST_DAY;
use crate::blocks::BLOCK;
use crate::both::{Bench, Found};

/// Seed, count and the output's length.
type Arguments = (u32, u32, usize);

/// How many times the case's own plan is asked with anything wrong.
const SEVERAL: usize = 4;

impl Bench<'_> {
    /// The plan with one argument wrong, and plans that are wrong by themselves.
    pub(super) fn one_thing_wrong_with_a_day(&mut self, plan: &[u8]) -> Found {
        let what = "one thing wrong with a day";
        for (seed, count, out) in self.wrong_arguments(plan.len()) {
            self.asked(plan, seed, count, out, what)?;
        }
        for plan in self.wrong_plans(plan)? {
            let (seed, count) = (self.seed(), self.count());
            self.asked(&plan, seed, count, LEAST_DAY, what)?;
        }
        Ok(())
    }

    /// Plans that are wrong by themselves, and any of the arguments wrong.
    pub(super) fn several_things_wrong_with_a_day(&mut self, plan: &[u8]) -> Found {
        for plan in self.wrong_plans(plan)? {
            let (seed, count, out) = self.perhaps_wrong();
            self.asked(&plan, seed, count, out, "several things wrong with a day")?;
        }
        Ok(())
    }

    /// The case's own plan, which may be a refused one and has any number of vehicles.
    pub(super) fn any_days(&mut self, plan: &[u8]) -> Found {
        let (seed, count) = (self.seed(), self.count());
        self.asked(plan, seed, count, LEAST_DAY, "any day")?;
        for _ in 0..SEVERAL {
            let plan = self.perhaps_damaged(plan);
            let (seed, count, out) = self.perhaps_wrong();
            self.asked(&plan, seed, count, out, "any day")?;
        }
        Ok(())
    }

    /// Arguments for a plan of so many bytes, of which one is wrong. An output may be too short that has room for the day.
    fn wrong_arguments(&mut self, plan: usize) -> Vec<Arguments> {
        let (seed, count) = (self.seed(), self.count());
        let counts = [0, 65, 66, 128, 256 + count, (1 << 16) + count, 1 << 31, u32::MAX];
        let outputs = [0, BLOCK, LEAST_DAY - BLOCK, LEAST_DAY - 1];
        let just = |count: u32| (plan + BLOCK * (count as usize - 1)).min(LEAST_DAY - 1);
        let mut wrong = vec![(0, count, LEAST_DAY)];
        wrong.extend(counts.map(|count| (seed, count, LEAST_DAY)));
        wrong.extend(outputs.map(|out| (seed, count, out)));
        wrong.extend([1, count, 64].map(|count| (seed, count, just(count))));
        wrong
    }

    fn perhaps_wrong(&mut self) -> Arguments {
        let (seed, count) = (self.seed(), self.count());
        let seed = self.draw.pick(&[0, 1, u32::MAX, seed, seed]);
        let count = self.draw.pick(&[0, 65, u32::MAX, 1, 64, count, count]);
        let out = self.draw.pick(&[0, LEAST_DAY - 1, LEAST_DAY, LEAST_DAY, LEAST_DAY + 1]);
        (seed, count, out)
    }

    /// The plan with no vehicle and with several, and altered so that it is refused by each of 4 to 12.
    fn wrong_plans(&mut self, plan: &[u8]) -> Found<Vec<Vec<u8>>> {
        let counts = [0, 2, self.draw.among(3, 63) as usize, 64];
        let mut plans: Vec<_> = counts.map(|count| of_vehicles(plan, count)).into();
        for number in 4..=12 {
            let altered = refused_by(&mut self.draw, plan, number);
            let answer = crate::check(&altered)[0];
            if answer != number {
                return Err(format!("a plan made to be refused by {number} is answered by {answer}"));
            }
            plans.push(altered);
        }
        Ok(plans)
    }
}
