//! Request 1 on one case: every cut of its run dumped and continued, dumps that are not the plan's, refused calls.
mod refused;
mod tampered;

use crate::accounts::Run;
use crate::book::LEAST_BOOK;
use crate::both::{Bench, Call, Found, MOST, Tally, as_unbroken};
use crate::dump::length;
use crate::generate::Case;
use crate::sides::prefilled;

/// The first of the two sides' differences on the case.
pub fn difference(case: &Case, tally: &mut Tally) -> Option<String> {
    Bench::of(case, tally).all(case).err()
}

impl Bench<'_> {
    fn all(&mut self, case: &Case) -> Found {
        let accepted = crate::check(&case.plan)[0] == 0;
        let dumps = if accepted { self.every_cut(&case.plan)? } else { Vec::new() };
        if accepted {
            self.one_thing_wrong(&case.plan, &dumps)?;
            self.tampered(&case.plan, &dumps)?;
        }
        self.several_things_wrong(case, &dumps)
    }

    /// Every cut of the plan's run, dumped and continued. Gives the dumps, by handled count.
    fn every_cut(&mut self, plan: &[u8]) -> Found<Vec<Vec<u8>>> {
        let runs = unbroken(plan);
        let last = runs.len() - 1;
        let mut dumps = Vec::new();
        for (cut, run) in runs.iter().enumerate() {
            dumps.push(self.dumped(plan, cut as u32, run)?);
        }
        for beyond in [last as u32 + 1, last as u32 + 2 + self.draw.below(300) as u32, MOST] {
            let dump = self.dumped(plan, beyond, &runs[last])?;
            if dump != dumps[last] {
                return Err(format!("the dump with allowance {beyond} is not that of the ended run"));
            }
        }
        for (cut, dump) in dumps.iter().enumerate() {
            self.continued(plan, &runs, cut, dump)?;
        }
        Ok(dumps)
    }

    /// The dump under an allowance; its book and numbers are the run's.
    fn dumped(&mut self, plan: &[u8], allowance: u32, run: &Run) -> Found<Vec<u8>> {
        let book = self.book();
        let room = self.enough_room();
        let call = Call::Dump { plan, engine: 0, allowance, book, dump: room };
        let mut left = self.alike(call, "every cut")?;
        as_unbroken(&left, run).map_err(|what| format!("every cut: {call}: {what}"))?;
        let len = length(&left.dump);
        if left.dump[len..] != prefilled(room)[len..] {
            return Err(format!("{call}: bytes past the dump have changed"));
        }
        left.dump.truncate(len);
        Ok(left.dump)
    }

    /// The run from one cut on, by several numbers of further events.
    fn continued(&mut self, plan: &[u8], runs: &[Run], cut: usize, dump: &[u8]) -> Found {
        let left = (runs.len() - 1 - cut) as u32;
        let some = self.draw.below(u64::from(left) + 3) as u32;
        let mut furthers = vec![0, 1, some, left, MOST];
        // Of a long run each cut is continued in two of these ways.
        while runs.len() > 60 && furthers.len() > 2 {
            furthers.remove(self.draw.below(furthers.len() as u64) as usize);
        }
        for further in furthers {
            let call = Call::Continue { plan, dump, further, book: self.book() };
            let what = format_args!("from the cut after {cut} events");
            let after = self.alike(call, what)?;
            let run = &runs[(cut + further as usize).min(runs.len() - 1)];
            as_unbroken(&after, run).map_err(|wrong| format!("{what}: {call}: {wrong}"))?;
        }
        Ok(())
    }
}

/// The run by events under each allowance, until it has ended.
fn unbroken(plan: &[u8]) -> Vec<Run> {
    let mut runs = vec![Run::onto(plan, 0, 0, prefilled(LEAST_BOOK))];
    while runs[runs.len() - 1].numbers[4] == 0 {
        runs.push(Run::onto(plan, 0, runs.len() as u32, prefilled(LEAST_BOOK)));
    }
    runs
}
