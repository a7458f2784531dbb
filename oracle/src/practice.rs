//! Request 11's call, a practice day, written from the request's text: the original knows none. Its checks of the plan given
//! are those of `super::original`.
use super::calls::{accepted, first_of, refused};
use super::plan::{MOST_BLOCKS, MOST_VEHICLES, Refusal};
use crate::Numbers;
use crate::blocks::{BLOCK, Block, put, put_f64, reseal, seal, u16_at};

/// The length of the longest plan.
pub const LEAST_DAY: usize = MOST_BLOCKS * BLOCK;

/// Where a plan's header has V.
const VEHICLES: usize = 8;
const SECONDS: u32 = 86_400;
const HALF: u32 = 512;
const WHOLE: f64 = 1_024.0;

/// Writes a plan with so many copies of the one vehicle of a plan, whose arrivals and SOCs the seed draws.
pub fn practice(plan: &[u8], seed: u32, count: u32, out: &mut [u8]) -> Numbers {
    match day(plan, seed, count, out.len()) {
        Ok(day) => {
            out[..day.len()].copy_from_slice(&day);
            [0; 11]
        }
        Err(refusal) => refused(refusal),
    }
}

fn day(plan: &[u8], seed: u32, count: u32, room: usize) -> Result<Vec<u8>, Refusal> {
    accepted(plan)?;
    let one = u16_at(plan, VEHICLES) == 1;
    let counted = (1..=MOST_VEHICLES as u32).contains(&count);
    first_of(&[(19, seed == 0), (19, !counted), (19, room < LEAST_DAY), (19, !one)])?;
    let (site, vehicle) = plan.split_last_chunk::<BLOCK>().expect("a header and a vehicle");
    let mut day = site.to_vec();
    put(&mut day, VEHICLES, &(count as u16).to_le_bytes());
    reseal(&mut day, 0);
    let mut draws = Xorshift(seed);
    for id in 1..=count {
        let place = day.len() / BLOCK + 1;
        day.extend(car(vehicle, id, place, &mut draws));
    }
    Ok(day)
}

/// The vehicle's block at this place, with the id and three draws: arrival, start, target.
fn car(vehicle: &Block, id: u32, place: usize, draws: &mut Xorshift) -> Block {
    let mut car = *vehicle;
    put(&mut car, 0, &id.to_le_bytes());
    put(&mut car, 40, &u64::from(draws.next() % SECONDS).to_le_bytes());
    put_f64(&mut car, 16, f64::from(draws.next() % HALF) / WHOLE);
    put_f64(&mut car, 24, f64::from(HALF + draws.next() % HALF) / WHOLE);
    seal(&mut car, place);
    car
}

/// Marsaglia's 32-bit generator: the state, which is the seed before the first step.
struct Xorshift(u32);

impl Xorshift {
    fn next(&mut self) -> u32 {
        self.0 ^= self.0 << 13;
        self.0 ^= self.0 >> 17;
        self.0 ^= self.0 << 5;
        self.0
    }
}
