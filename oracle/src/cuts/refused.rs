//! Calls that are refused, for one thing or for the first of several.
use crate::blocks::BLOCK;
use crate::book::LEAST_BOOK;
use crate::both::{Bench, Call, Found, MOST};
use crate::dump::LEAST_DUMP;
use crate::generate::Case;

const WRONG: &str = "one thing wrong";

impl Bench<'_> {
    /// A good plan, and each argument wrong in turn.
    pub(super) fn one_thing_wrong(&mut self, plan: &[u8], dumps: &[Vec<u8>]) -> Found {
        let right = (0, MOST, LEAST_BOOK, LEAST_DUMP);
        let engines =
            [1, 2, 3, 255, 256, 1 << 16, 1 << 31, u32::MAX].map(|engine| (1, (engine, right.1, right.2, right.3)));
        let others = [
            (2, (0, MOST + 1, right.2, right.3)),
            (2, (0, u32::MAX, right.2, right.3)),
            (3, (0, right.1, LEAST_BOOK - 1, right.3)),
            (3, (0, right.1, 0, right.3)),
            (13, (0, right.1, right.2, LEAST_DUMP - 1)),
            (13, (0, right.1, right.2, 0)),
            (13, (0, right.1, right.2, dumps[0].len())),
        ];
        for (number, (engine, allowance, book, dump)) in engines.into_iter().chain(others) {
            self.answered(Call::Dump { plan, engine, allowance, book, dump }, number, WRONG)?;
        }
        let dump = &dumps[0];
        for further in [MOST + 1, 1 << 31, u32::MAX] {
            self.answered(Call::Continue { plan, dump, further, book: LEAST_BOOK }, 2, WRONG)?;
        }
        for book in [0, BLOCK, LEAST_BOOK - 1] {
            self.answered(Call::Continue { plan, dump, further: MOST, book }, 3, WRONG)?;
        }
        Ok(())
    }

    /// The case's own call, and calls with any of the arguments, the plan and the dump wrong.
    pub(super) fn several_things_wrong(&mut self, case: &Case, dumps: &[Vec<u8>]) -> Found {
        let Case { plan, engine, allowance, book, .. } = case;
        let room = self.room();
        let own = Call::Dump { plan, engine: *engine, allowance: *allowance, book: *book, dump: room };
        self.alike(own, "the case's own call")?;
        for _ in 0..5 {
            let plan = self.perhaps_damaged(plan);
            let engine = self.draw.pick(&[0, 0, 0, 0, 0, 0, 1, 2, 256, u32::MAX]);
            let allowance = self.draw.pick(&[0, 3, MOST, MOST, MOST, MOST + 1]);
            let book = self.draw.pick(&[LEAST_BOOK, LEAST_BOOK, LEAST_BOOK, LEAST_BOOK + 1, LEAST_BOOK - 1]);
            let room = self.room();
            let call = Call::Dump { plan: &plan, engine, allowance, book, dump: room };
            self.alike(call, "several things wrong")?;
            let dump = self.perhaps_a_dump(dumps);
            let call = Call::Continue { plan: &plan, dump: &dump, further: allowance, book };
            self.alike(call, "several things wrong")?;
        }
        Ok(())
    }
}
