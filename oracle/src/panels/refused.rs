//! Scripts that ask for too many rounds, plans that are refused, and outputs of any length.
use super::day::Day;
use super::operation::Operation;
use super::scripts::Script;
use crate::both::{Bench, Found, MOST};
use crate::days::{one_vehicle, refused_by};

/// So many lists of rounds are tried on a day.
const SUMS: usize = 5;

impl Bench<'_> {
    /// Rounds that add up to about 10,000,000, and to sums of more than 32 bits.
    pub(super) fn sums(&mut self, day: &Day) -> Found {
        let mut sums = self.many_rounds();
        while sums.len() > SUMS {
            sums.remove(self.draw.below(sums.len() as u64) as usize);
        }
        for rounds in sums {
            let mut operations: Vec<Operation> = rounds.into_iter().map(Operation::Rounds).collect();
            for _ in 0..self.draw.below(4) {
                let at = self.draw.among(0, operations.len() as u64) as usize;
                // Its address is no number of rounds.
                operations.insert(
                    at,
                    self.draw.pick(&[Operation::Read(u32::MAX), Operation::Line(MOST), Operation::Read(0)]),
                );
            }
            let script = Script { operations, rounds: 0 }.numbers(&mut self.draw);
            let out = 2 * script.len() + self.draw.pick(&[0, 0, 1, 7]);
            self.scripted(day, &script, out, "many rounds")?;
            // What has no room is not asked for.
            let fewer = self.draw.below(out as u64 + 1) as usize;
            self.scripted(day, &script, fewer, "many rounds, of which some are not played")?;
        }
        Ok(())
    }

    fn many_rounds(&mut self) -> Vec<Vec<u32>> {
        let part = self.draw.below(u64::from(MOST)) as u32;
        let few = self.draw.below(5) as u32;
        // 430 times as much is more than 2^32, by less than 10,000,000.
        let wrapped = (1_u64 << 32).div_ceil(430) as u32;
        vec![
            vec![MOST - few],
            vec![part, MOST - part],
            vec![part, MOST - part + 1],
            vec![MOST + 1 + few],
            vec![MOST, 0, few],
            vec![u32::MAX],
            vec![u32::MAX, 1],
            vec![u32::MAX, 1 + few, part],
            vec![1 << 31, 1 << 31],
            vec![1 << 31, 1 << 31, MOST],
            vec![wrapped; 430],
            vec![u32::MAX; self.draw.among(2, 9) as usize],
        ]
    }

    /// Outputs of no byte, of odd lengths, too short for the script and longer.
    pub(super) fn outputs(&mut self, day: &Day, script: &[u64]) -> Found {
        let enough = 2 * script.len();
        for out in
            [0, 1, 2, 3, enough.saturating_sub(1), enough + 1, enough + 2, self.draw.below(enough as u64 + 1) as usize]
        {
            self.scripted(day, script, out, "outputs of any length")?;
        }
        for out in [0, 1, 2, 100] {
            self.scripted(day, &[], out, "a script of no operation")?;
        }
        Ok(())
    }

    /// Plans that are refused by each of 4 to 12, with scripts that ask for too many rounds or not.
    pub(super) fn refused_plans(&mut self, plan: &[u8]) -> Found {
        let plan = one_vehicle(&mut self.draw, plan);
        for number in 4..=12 {
            let altered = refused_by(&mut self.draw, &plan, number);
            let answer = crate::check(&altered)[0];
            if answer != number {
                return Err(format!("a plan made to be refused by {number} is answered by {answer}"));
            }
            self.any_rounds(&altered)?;
        }
        Ok(())
    }

    /// The plan as it is, and damaged.
    pub(super) fn any_plans(&mut self, plan: &[u8]) -> Found {
        self.any_rounds(plan)?;
        for _ in 0..2 {
            let plan = self.perhaps_damaged(plan);
            self.any_rounds(&plan)?;
        }
        Ok(())
    }

    /// A plan, which may be a refused one, with few rounds and with too many.
    fn any_rounds(&mut self, plan: &[u8]) -> Found {
        let many = self.draw.pick(&[MOST - 2, MOST + 1, u32::MAX]);
        for count in [3, many] {
            let operations =
                [Operation::Rounds(2), Operation::Read(0), Operation::Rounds(count), Operation::Write(1, 3)];
            let script = operations.map(|operation| operation.number(self.draw.number()));
            let out = self.draw.pick(&[8, 8, 9, 20, 5, 0]);
            self.answered_by_text(plan, &script, out, "any plan")?;
        }
        Ok(())
    }
}
