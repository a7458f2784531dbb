//! Request 7 on one case: cars booked late at cuts of its run, what must hold of the new dumps, refused bookings.
mod cars;
mod laws;
mod refused;
mod sweep;

pub use sweep::{steps, swept};

use crate::Numbers;
use crate::accounts::Run;
use crate::blocks::{BLOCK, Block, CHECK, check_of, put, u32_at, u64_at};
use crate::book::LEAST_BOOK;
use crate::both::{Bench, Call, Found, MOST, Tally, as_unbroken, refusal};
use crate::draft::Draft;
use crate::dump::{LEAST_DUMP, events, length};
use crate::generate::Case;
use crate::plan::MOST_VEHICLES;
use crate::sides::prefilled;

/// Cars are booked at this many cuts of a run at most.
const CUTS: usize = 12;
/// Plans of more blocks have fewer cuts, and fewer cars at each.
const BLOCKS: usize = 24;
const FEW: usize = 5;

/// The first of the two sides' differences on the case.
pub fn difference(case: &Case, tally: &mut Tally) -> Option<String> {
    Bench::of(case, tally).late(case).err()
}

/// A plan's run after some of its events.
struct Cut {
    plan: Vec<u8>,
    handled: u32,
    dump: Vec<u8>,
    /// The time of the last handled event, where there is one.
    last: Option<u64>,
}

impl Cut {
    fn after(plan: &[u8], handled: u32) -> Self {
        let last = handled.checked_sub(1).map(|before| events(&dumped(plan, before))[0].time);
        Self { plan: plan.to_vec(), handled, dump: dumped(plan, handled), last }
    }

    fn draft(&self) -> Draft {
        Draft::of(&self.plan).expect("an accepted plan")
    }

    /// What the text says of a block that is booked here, where there is a vehicle's place left.
    fn answer(&self, car: &[u8]) -> Numbers {
        match self.last {
            Some(last) if u64_at(car, 40) <= last => refusal(18),
            _ => crate::check(&self.longer(car)),
        }
    }

    /// The plan with the car last, made from its parts.
    fn longer(&self, car: &[u8]) -> Vec<u8> {
        let mut draft = self.draft();
        let mut car: Block = car.try_into().unwrap();
        let off = u32_at(&car, CHECK).wrapping_sub(check_of(&car, draft.block_count() + 1));
        put(&mut car, CHECK, &off.to_le_bytes());
        draft.vehicles.push(car);
        draft.bytes()
    }
}

/// The oracle's dump of an accepted plan.
fn dumped(plan: &[u8], handled: u32) -> Vec<u8> {
    let (mut book, mut dump) = (vec![0; LEAST_BOOK], vec![0; LEAST_DUMP]);
    assert_eq!(crate::dump(plan, 0, handled, &mut book, &mut dump)[0], 0);
    dump.truncate(length(&dump));
    dump
}

/// How many events the run of an accepted plan has.
fn all_events(plan: &[u8]) -> u32 {
    Run::new(plan, 0, MOST).numbers[3] as u32
}

impl Bench<'_> {
    fn late(&mut self, case: &Case) -> Found {
        let mut dumps = Vec::new();
        if crate::check(&case.plan)[0] == 0 {
            for handled in self.some_cuts(&case.plan) {
                let cut = Cut::after(&case.plan, handled);
                self.cars_at(&cut)?;
                dumps.push(cut.dump);
            }
            self.refused_bookings(&case.plan)?;
            self.last_places(&case.plan)?;
        }
        self.any_bookings(&case.plan, &dumps)
    }

    /// All cuts of a short run; of a longer one the first two, the end and some between.
    fn some_cuts(&mut self, plan: &[u8]) -> Vec<u32> {
        let mut cuts: Vec<u32> = (0..=all_events(plan)).collect();
        let most = if plan.len() > BLOCKS * BLOCK { FEW } else { CUTS };
        while cuts.len() > most {
            cuts.remove(2 + self.draw.below(cuts.len() as u64 - 3) as usize);
        }
        cuts
    }

    /// Several cars at a cut, and a second one booked behind one of them.
    fn cars_at(&mut self, cut: &Cut) -> Found {
        if cut.draft().vehicles.len() == MOST_VEHICLES {
            return Ok(());
        }
        let mut cars = self.cars(cut);
        while cut.plan.len() > BLOCKS * BLOCK && cars.len() > FEW {
            cars.remove(self.draw.below(cars.len() as u64) as usize);
        }
        let mut again = None;
        for car in cars {
            again = self.booked(cut, &car)?.or(again);
        }
        match again.filter(|cut| self.draw.one_in(3) && cut.draft().vehicles.len() < MOST_VEHICLES) {
            Some(cut) => {
                let car = self.draw_car(&cut);
                self.booked(&cut, &car).map(drop)
            }
            None => Ok(()),
        }
    }

    /// Books a car at a cut. Gives the longer plan's cut where it is accepted.
    fn booked(&mut self, cut: &Cut, car: &[u8]) -> Found<Option<Cut>> {
        let (plan, dump, handled) = (&cut.plan, self.perhaps_longer(&cut.dump), cut.handled);
        let answer = cut.answer(car);
        let room = self.enough_room();
        let call = Call::BookLate { plan, dump: &dump, car, new_dump: room };
        let what = format_args!("after {handled} events");
        let mut left = self.numbered(call, &answer, what)?;
        if answer[0] != 0 {
            return Ok(None);
        }
        let len = length(&left.dump);
        if left.dump[len..] != prefilled(room)[len..] {
            return Err(format!("{what}: {call}: bytes past the new dump have changed"));
        }
        left.dump.truncate(len);
        let longer = Cut { plan: cut.longer(car), handled, dump: left.dump, last: cut.last };
        laws::hold(cut, &longer, car).map_err(|wrong| format!("{what}: {call}: both sides: {wrong}"))?;
        self.goes_on(cut, &longer).map_err(|wrong| format!("{what}: {call}: then {wrong}"))?;
        Ok(Some(longer))
    }

    /// The dump, now and then with bytes behind it.
    fn perhaps_longer(&mut self, dump: &[u8]) -> Vec<u8> {
        let mut dump = dump.to_vec();
        if self.draw.one_in(4) {
            let behind = self.draw.pick(&[1, BLOCK as u64, 3_000]);
            dump.extend((0..behind).map(|k| k as u8 ^ 0xa5));
        }
        dump
    }

    /// The run goes on from the new dump with the longer plan, as one planned in full. Neither plan takes the other's dump.
    fn goes_on(&mut self, cut: &Cut, longer: &Cut) -> Found {
        let plan = &longer.plan;
        for further in [self.draw.below(4) as u32, self.draw.pick(&[4, 9, MOST, MOST])] {
            let call = Call::Continue { plan, dump: &longer.dump, further, book: self.book() };
            let left = self.alike(call, "with the car")?;
            let run = Run::onto(plan, 0, (longer.handled + further).min(MOST), prefilled(LEAST_BOOK));
            as_unbroken(&left, &run).map_err(|wrong| format!("with the car: {call}: {wrong}"))?;
        }
        if !self.draw.one_in(4) {
            return Ok(());
        }
        let car = self.draw_car(longer);
        for (plan, dump) in [(&cut.plan, &longer.dump), (plan, &cut.dump)] {
            let call = Call::Continue { plan, dump, further: 1, book: self.book() };
            self.answered(call, 14, "with the other plan")?;
            let call = Call::BookLate { plan, dump, car: &car, new_dump: LEAST_DUMP };
            self.answered(call, 14, "with the other plan")?;
        }
        Ok(())
    }
}
