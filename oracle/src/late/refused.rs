//! Bookings that are refused, for one thing or for the first of several.
use super::{Cut, all_events, dumped, refusal};
use crate::blocks::{BLOCK, Block, CHECK, check_of, put, put_f64, reseal, seal, u32_at};
use crate::both::{Bench, Call, Found};
use crate::draft::{Draft, profile};
use crate::dump::{LEAST_DUMP, USED};
use crate::plan::{FLEET, MOST_BLOCKS, MOST_PROFILES, MOST_VEHICLES};

/// What can be wrong with a booking, in the order in which it is refused.
#[derive(Debug, Clone, Copy, PartialEq)]
enum Wrong {
    NewDump,
    PlanLength,
    CarLength,
    Plan,
    Dump,
    Full,
    Early,
    Car,
}

const WRONG: [Wrong; 8] = [
    Wrong::NewDump,
    Wrong::PlanLength,
    Wrong::CarLength,
    Wrong::Plan,
    Wrong::Dump,
    Wrong::Full,
    Wrong::Early,
    Wrong::Car,
];

/// How many times a car alone is wrong, and several things are.
const WRONG_CARS: usize = 5;
const SEVERAL: usize = 8;

impl Bench<'_> {
    /// Each thing wrong in turn, then several at once.
    pub(super) fn refused_bookings(&mut self, plan: &[u8]) -> Found {
        for wrong in WRONG.into_iter().chain([Wrong::Car; WRONG_CARS]) {
            self.refused_booking(plan, &[wrong])?;
        }
        for _ in 0..SEVERAL {
            let wrong: Vec<Wrong> = WRONG.into_iter().filter(|_| self.draw.one_in(3)).collect();
            self.refused_booking(plan, &wrong)?;
        }
        Ok(())
    }

    /// A booking with these things wrong, as far as the plan can have them.
    fn refused_booking(&mut self, plan: &[u8], wrong: &[Wrong]) -> Found {
        let early = wrong.contains(&Wrong::Early);
        let site = self.site(plan, if wrong.contains(&Wrong::Full) { MOST_VEHICLES } else { 0 });
        let full = site.vehicles.len() == MOST_VEHICLES;
        let (plan, from) = (site.bytes(), u64::from(early));
        let most = u64::from(all_events(&plan));
        if most < from {
            return Ok(());
        }
        let own = |what: &Wrong| if *what == Wrong::Full { full } else { wrong.contains(what) };
        let wrong: Vec<Wrong> = WRONG.into_iter().filter(own).collect();
        let cut = Cut::after(&plan, self.draw.among(from, most) as u32);
        let car = self.wrong_car(&cut, early, wrong.contains(&Wrong::Car));
        self.wrong_call(&wrong, &cut, &car, most)
    }

    /// Books the car with what else is wrong. The answer is that to the first.
    fn wrong_call(&mut self, wrong: &[Wrong], cut: &Cut, car: &[u8], most: u64) -> Found {
        let (mut plan, mut dump, mut new_dump) = (cut.plan.clone(), cut.dump.clone(), LEAST_DUMP);
        let (mut given, mut answer) = (car.to_vec(), cut.answer(car));
        // What is found later is made first, so that an earlier thing may stand over it.
        for what in wrong.iter().rev() {
            answer = match what {
                Wrong::NewDump => {
                    new_dump = self.draw.pick(&[0, BLOCK, dump.len().min(LEAST_DUMP - 1), LEAST_DUMP - 1]);
                    refusal(13)
                }
                Wrong::PlanLength => {
                    let short = plan.len() - self.draw.among(1, BLOCK as u64 - 1) as usize;
                    let len = self.draw.pick(&[0, short, plan.len() + 1, BLOCK * (MOST_BLOCKS + 1)]);
                    plan.resize(len, 0);
                    refusal(4)
                }
                Wrong::CarLength => {
                    given = given.repeat(2);
                    given.truncate(self.draw.pick(&[0, 1, 40, BLOCK - 1, BLOCK + 1, 2 * BLOCK]));
                    refusal(4)
                }
                Wrong::Plan => {
                    self.spoil_plan(&mut plan);
                    crate::check(&plan)
                }
                Wrong::Dump => {
                    self.spoil_dump(cut, most, &mut dump);
                    refusal(14)
                }
                Wrong::Full => refusal(17),
                Wrong::Early => refusal(18),
                Wrong::Car => answer,
            };
        }
        let call = Call::BookLate { plan: &plan, dump: &dump, car: &given, new_dump };
        self.numbered(call, &answer, format_args!("wrong: {wrong:?}")).map(drop)
    }

    /// The plan with at least so many vehicles, and most times with a profile that charges for about the longest stay.
    fn site(&mut self, plan: &[u8], vehicles: usize) -> Draft {
        let mut draft = Draft::of(plan).expect("an accepted plan");
        while draft.vehicles.len() < vehicles && !draft.profiles.is_empty() {
            let mut car = self.one_of(&draft);
            put(&mut car, 0, &self.new_id(&draft).to_le_bytes());
            draft.vehicles.push(car);
        }
        if draft.profiles.len() < MOST_PROFILES && !self.draw.one_in(4) {
            let ids: Vec<u32> = draft.profiles.iter().map(|block| u32_at(block, 0)).collect();
            let id = (0..).find(|id| !ids.contains(id)).unwrap();
            let battery = self.draw.pick(&[168.0, 168.0_f64.next_up(), 169.0, 1_024.0]);
            draft.profiles.push(profile(id, battery, &[(self.draw.float(0.0, 1.0), self.draw.pick(&[0.125, 1.0]))]));
        }
        draft
    }

    /// A car's block for the cut, with what is wrong with it.
    fn wrong_car(&mut self, cut: &Cut, early: bool, spoilt: bool) -> Block {
        let mut car = self.draw_car(cut);
        let (draft, place) = (cut.draft(), cut.plan.len() / BLOCK + 1);
        let way = self.draw.below(5);
        if spoilt {
            self.spoil_car(&draft, &mut car, way);
        }
        if let Some(last) = cut.last.filter(|_| early) {
            put(&mut car, 40, &self.draw.among(0, last).to_le_bytes());
        }
        seal(&mut car, place);
        if spoilt && way == 0 {
            let other = self.draw.pick(&[place - 1, place + 1, 1, 0, place ^ 0x1_0000]);
            let check = check_of(&car, other);
            put(&mut car, CHECK, &check.to_le_bytes());
        }
        car
    }

    /// Refusals 7, 10, 11 and 12 of the longer plan by the car's block.
    fn spoil_car(&mut self, draft: &Draft, car: &mut Block, way: u64) {
        let ids = |blocks: &[Block]| blocks.iter().map(|block| u32_at(block, 0)).collect::<Vec<_>>();
        match way {
            1 => self.spoil_field(car),
            2 if !draft.vehicles.is_empty() => put(car, 0, &self.draw.pick(&ids(&draft.vehicles)).to_le_bytes()),
            3 => {
                let profiles = ids(&draft.profiles);
                let none = (0..).find(|id| !profiles.contains(id)).unwrap();
                put(car, 4, &none.to_le_bytes());
            }
            4 if !draft.chargers.is_empty() => self.charge_for_long(draft, car),
            _ => {}
        }
    }

    /// The car has the last profile, is charged in full, and has the connectors of a charger.
    fn charge_for_long(&mut self, draft: &Draft, car: &mut Block) {
        let Some(profile) = draft.profiles.last() else { return };
        put(car, 4, &profile[..4]);
        put_f64(car, 16, 0.0);
        put_f64(car, 24, 1.0);
        let charger = self.draw.pick(&draft.chargers);
        put(car, 8, &charger[4..10]);
    }

    /// A field past its limit, or a byte that is not zero where it must be.
    fn spoil_field(&mut self, car: &mut Block) {
        match self.draw.below(6) {
            0 => car[8] = self.draw.pick(&[6, 255]),
            1 => put(car, 8, &[1, self.draw.pick(&[0, 6, 255])]),
            2 => {
                let wrong = self.draw.pick(&[-0.0, f64::NAN, f64::INFINITY, 604_801.0]);
                put_f64(car, self.draw.pick(&[16, 24, 32]), wrong);
            }
            3 => put(car, self.draw.pick(&[40, 48]), &self.draw.pick(&[1_000_001, 1 << 32, u64::MAX]).to_le_bytes()),
            4 => put(car, FLEET, &self.draw.pick(&[65u16, 128, 256, 257, u16::MAX]).to_le_bytes()),
            _ => car[self.draw.pick(&[14, 15, 62, 63, 300, 507])] = self.draw.among(1, 255) as u8,
        }
    }

    /// Refusals 5, 6 and 7 of the plan.
    fn spoil_plan(&mut self, plan: &mut [u8]) {
        let block = self.draw.below((plan.len() / BLOCK) as u64) as usize;
        match self.draw.below(4) {
            0 => plan[block * BLOCK + CHECK + self.draw.below(4) as usize] ^= 1 << self.draw.below(8),
            1 => {
                plan[block * BLOCK + CHECK - 1] = self.draw.among(1, 255) as u8;
                reseal(plan, block);
            }
            2 => {
                plan[self.draw.below(4) as usize] ^= 1 << self.draw.below(8);
                reseal(plan, 0);
            }
            _ => {
                plan[self.draw.pick(&[4, 6, 8])] ^= 1;
                reseal(plan, 0);
            }
        }
    }

    /// Bytes that are not this dump.
    fn spoil_dump(&mut self, cut: &Cut, most: u64, dump: &mut Vec<u8>) {
        let block = self.draw.below((dump.len() / BLOCK) as u64) as usize;
        let at = block * BLOCK + self.draw.pick(&[0, 2, 4, 6, 8, 10, 16, 24, 40, 152, 300, 507]);
        match self.draw.below(5) {
            0 => dump[at] ^= self.draw.among(1, 255) as u8,
            1 => {
                dump[at] ^= self.draw.among(1, 255) as u8;
                reseal(dump, block);
            }
            2 => dump.truncate(self.draw.below(dump.len() as u64) as usize),
            3 => {
                let own = u64::from(cut.handled);
                let count = self.draw.pick(&[own + 1, own + (1 << 32), most + 1, 1 << 63, u64::MAX]);
                renamed(dump, count);
            }
            _ => {
                let other = self.draw.among(0, most);
                *dump = dumped(&cut.plan, other as u32);
                renamed(dump, if other == u64::from(cut.handled) { other + 1 } else { u64::from(cut.handled) });
            }
        }
    }

    /// The 64th place is taken, and none is left.
    pub(super) fn last_places(&mut self, plan: &[u8]) -> Found {
        if !self.draw.one_in(6) {
            return Ok(());
        }
        let site = self.site(plan, MOST_VEHICLES - 1).bytes();
        let most = u64::from(all_events(&site));
        let cut = Cut::after(&site, self.draw.among(0, most) as u32);
        if cut.draft().vehicles.len() != MOST_VEHICLES - 1 {
            return Ok(());
        }
        let car = self.draw_car(&cut);
        let Some(full) = self.booked(&cut, &car)? else { return Ok(()) };
        let car = self.draw_car(&full);
        let call = Call::BookLate { plan: &full.plan, dump: &full.dump, car: &car, new_dump: LEAST_DUMP };
        self.numbered(call, &refusal(17), "a car too many").map(drop)
    }

    /// The case's own plan, which may be a refused one, with any dump and any bytes for a car.
    pub(super) fn any_bookings(&mut self, plan: &[u8], dumps: &[Vec<u8>]) -> Found {
        for _ in 0..5 {
            let altered = match dumps.is_empty() || self.draw.one_in(2) {
                true => self.perhaps_damaged(plan),
                false => self.altered(plan),
            };
            let (dump, car, new_dump) = (self.perhaps_a_dump(dumps), self.any_car(plan), self.room());
            let call = Call::BookLate { plan: &altered, dump: &dump, car: &car, new_dump };
            self.alike(call, "any booking")?;
        }
        Ok(())
    }

    /// One of the plan's blocks as it stands or with a new check, or any bytes.
    fn any_car(&mut self, plan: &[u8]) -> Vec<u8> {
        if plan.len() < BLOCK || self.draw.one_in(4) {
            let len = self.draw.pick(&[0, 1, 48, BLOCK - 1, BLOCK, BLOCK, BLOCK + 1]);
            return (0..len).map(|_| self.draw.number() as u8).collect();
        }
        let blocks = plan.len() / BLOCK;
        let from = if self.draw.one_in(4) { self.draw.below(blocks as u64) as usize } else { blocks - 1 };
        let mut car = plan[from * BLOCK..(from + 1) * BLOCK].to_vec();
        if !self.draw.one_in(4) {
            put(&mut car, 0, &(self.draw.number() as u32).to_le_bytes());
            put(&mut car, 40, &self.draw.below(2_000).to_le_bytes());
            seal(&mut car, blocks + 1);
        }
        car
    }
}

/// The dump naming another handled count, its check made good.
fn renamed(dump: &mut [u8], count: u64) {
    put(dump, USED, &count.to_le_bytes());
    reseal(dump, 0);
}
