//! Request 12 on one case: scripts for its cabinets' registers, what must hold of the answers, refused calls.
mod day;
mod laws;
mod operation;
mod refused;
mod scripts;
mod seen;
mod sweep;

pub use operation::{Kind, Operation, described, shrunk};
pub use seen::Seen;
pub use sweep::{steps, swept};

use crate::Numbers;
use crate::both::{Bench, Call, Found, MOST, Tally, refusal};
use crate::generate::Case;
use crate::sides::prefilled;
use day::Day;
use scripts::Script;
use seen::Sight;
use std::fmt::Display;

/// A day of more rounds, each counted for every charger, takes long.
const LONG: usize = 200_000;

/// The first of the two sides' differences on the case.
pub fn difference(case: &Case, tally: &mut Tally) -> Option<String> {
    Bench::of(case, tally).panel(case).err()
}

/// What the text says of a call: 2 where the operations played ask for too many rounds, else what a check says.
fn answer(plan: &[u8], played: &[u64]) -> Numbers {
    let asked = |number: &u64| match Operation::of(*number) {
        Operation::Rounds(count) => u128::from(count),
        _ => 0,
    };
    if played.iter().map(asked).sum::<u128>() > u128::from(MOST) { refusal(2) } else { crate::check(plan) }
}

impl Bench<'_> {
    fn panel(&mut self, case: &Case) -> Found {
        if crate::check(&case.plan)[0] == 0 {
            let day = Day::of(&case.plan)?;
            self.scripts_of(&day)?;
            if self.draw.one_in(3) {
                self.refused_plans(&case.plan)?;
            }
        }
        self.any_plans(&case.plan)
    }

    /// Several scripts; of a day that takes long, mostly one.
    fn scripts_of(&mut self, day: &Day) -> Found {
        let long = day.rounds as usize * day.chargers > LONG;
        if !long || self.draw.one_in(2) {
            let script = self.closely(day);
            self.played(day, &script, "close to the run")?;
        }
        if !long || self.draw.one_in(4) {
            let script = self.edges(day);
            self.played(day, &script, "edges")?;
            if self.draw.one_in(4) {
                self.sums(day)?;
            }
            day.has_the_book_of(self.draw.below(u64::from(day.rounds) + 2) as u32)?;
        }
        for _ in 0..if long { 1 } else { 2 } {
            let script = self.any_script(day);
            let numbers = self.played(day, &script, "any script")?;
            if !long && self.draw.one_in(4) {
                self.outputs(day, &numbers)?;
            }
        }
        Ok(())
    }

    /// Plays a script with room for all of it. Gives its numbers.
    fn played(&mut self, day: &Day, script: &Script, what: impl Display) -> Found<Vec<u64>> {
        let numbers = script.numbers(&mut self.draw);
        let out = 2 * numbers.len() + self.draw.pick(&[0, 0, 0, 1, 2, 16]);
        self.scripted(day, &numbers, out, what)?;
        Ok(numbers)
    }

    /// Plays a script on both sides, and expects what the text says.
    fn scripted(&mut self, day: &Day, script: &[u64], out: usize, what: impl Display) -> Found {
        let answers = self.answered_by_text(&day.plan, script, out, &what)?;
        let played = script.len().min(out / 2);
        self.tally.seen.sight(Sight::Unplayed, played < script.len());
        let Some(answers) = answers else { return Ok(()) };
        let call = Call::Panel { plan: &day.plan, script, out };
        let wrong = |wrong: String| format!("{what}: {call}: both sides: {wrong}{}", call.digits());
        laws::hold(day, &script[..played], &answers, &mut self.tally.seen).map_err(wrong)
    }

    /// The answers of the operations that are played, where the call is not refused.
    fn answered_by_text(
        &mut self,
        plan: &[u8],
        script: &[u64],
        out: usize,
        what: impl Display,
    ) -> Found<Option<Vec<u8>>> {
        let call = Call::Panel { plan, script, out };
        let played = script.len().min(out / 2);
        let expected = answer(plan, &script[..played]);
        let mut answers = self.numbered(call, &expected, &what)?.answers;
        let len = if expected[0] == 0 { 2 * played } else { 0 };
        if answers[len..] != prefilled(out)[len..] {
            return Err(format!("{what}: {call}: both sides: bytes past the answers have changed"));
        }
        answers.truncate(len);
        Ok((expected[0] == 0).then_some(answers))
    }
}
