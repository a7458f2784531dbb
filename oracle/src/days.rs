//! Request 11 on one case: practice days of a plan with one vehicle, what must hold of them, refused calls.
mod laws;
mod plans;
mod refused;
mod sweep;

pub use plans::{of_vehicles, one_vehicle, refused_by};
pub use sweep::{steps, swept};

use crate::accounts::demand;
use crate::blocks::BLOCK;
use crate::book::LEAST_BOOK;
use crate::both::{Bench, Call, Found, MOST, Tally, refusal};
use crate::draft::Draft;
use crate::generate::Case;
use crate::sides::{difference_by_call, numbers, prefilled};
use crate::{LEAST_DAY, Numbers};
use std::fmt::Display;

/// The first of the two sides' differences on the case.
pub fn difference(case: &Case, tally: &mut Tally) -> Option<String> {
    Bench::of(case, tally).practice(case).err()
}

/// What the text says of a call: what a check says of the plan given, then 19.
fn answer(plan: &[u8], seed: u32, count: u32, out: usize) -> Numbers {
    let checked = crate::check(plan);
    let vehicles = Draft::of(plan).map(|draft| draft.vehicles.len());
    let drawn = seed > 0 && count > 0 && count < 65 && out >= 57_856 && vehicles == Some(1);
    if checked[0] > 0 || drawn { checked } else { refusal(19) }
}

impl Bench<'_> {
    fn practice(&mut self, case: &Case) -> Found {
        if crate::check(&case.plan)[0] == 0 {
            let plan = one_vehicle(&mut self.draw, &case.plan);
            self.days_of(&plan)?;
            self.one_thing_wrong_with_a_day(&plan)?;
            self.several_things_wrong_with_a_day(&plan)?;
        }
        self.any_days(&case.plan)
    }

    /// Days of the least and the greatest seed and of drawn ones, of one car, of 64 and of some.
    fn days_of(&mut self, plan: &[u8]) -> Found {
        let seeds = [1, u32::MAX, self.seed(), self.seed(), self.seed()];
        let counts = [64, self.count(), 1, self.count(), 64];
        for (seed, count) in seeds.into_iter().zip(counts) {
            let out = self.draw.pick(&[LEAST_DAY, LEAST_DAY, LEAST_DAY + 1, LEAST_DAY + BLOCK, 60_000]);
            let Some(day) = self.asked(plan, seed, count, out, "a day")? else { continue };
            let call = Call::Practice { plan, seed, count, out };
            self.as_a_plan(&day).map_err(|wrong| format!("{call}: then {wrong}{}", call.digits()))?;
        }
        Ok(())
    }

    fn seed(&mut self) -> u32 {
        let any = self.draw.number() as u32;
        self.draw.pick(&[any, any, any, any % 1_000, 1 << (any % 32), !(1 << (any % 32))]).max(1)
    }

    fn count(&mut self) -> u32 {
        self.draw.among(1, 64) as u32
    }

    /// Asks both sides for a day, and expects what the text says. Gives the day where there is one.
    fn asked(&mut self, plan: &[u8], seed: u32, count: u32, out: usize, what: impl Display) -> Found<Option<Vec<u8>>> {
        let call = Call::Practice { plan, seed, count, out };
        let expected = answer(plan, seed, count, out);
        let mut day = self.numbered(call, &expected, &what)?.day;
        let len = if expected[0] == 0 { plan.len() + BLOCK * (count as usize - 1) } else { 0 };
        if day[len..] != prefilled(out)[len..] {
            return Err(format!("{what}: {call}: both sides: bytes past the day have changed"));
        }
        day.truncate(len);
        if len == 0 {
            return Ok(None);
        }
        laws::hold(plan, seed, &day).map_err(|wrong| format!("{what}: {call}: both sides: {wrong}"))?;
        Ok(Some(day))
    }

    /// The day checked, and now and then run, by both sides.
    fn as_a_plan(&mut self, day: &[u8]) -> Found {
        let mut case = Case { shape: "a day", plan: day.to_vec(), engine: 0, allowance: 0, book: LEAST_BOOK };
        alike(&case)?;
        let checked = crate::check(day);
        *self.tally.days.entry(checked[0]).or_default() += 1;
        demand(checked[0] == 0 || checked[0] == 12, "only 12 can refuse a day")?;
        if self.draw.one_in(3) {
            let expected = laws::by_each_car(day);
            if checked != expected {
                return Err(format!("its check is {}, not {}", numbers(&checked), numbers(&expected)));
            }
        }
        if checked[0] > 0 || !self.draw.one_in(4) {
            return Ok(());
        }
        case.allowance = self.draw.pick(&[0, 1, 64, 150, MOST]);
        alike(&case)?;
        let rounds = self.draw.pick(&[2_000, 20_000, 90_000]);
        (case.engine, case.allowance) = (1, self.draw.below(rounds) as u32);
        alike(&case)
    }
}

/// Check and run of both sides.
fn alike(case: &Case) -> Found {
    match difference_by_call(case) {
        Some(what) => Err(format!("engine {}, allowance {}: {what}", case.engine, case.allowance)),
        None => Ok(()),
    }
}
