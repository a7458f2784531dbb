//! What must hold of a practice day.
use crate::Numbers;
use crate::accounts::demand;
use crate::blocks::{BLOCK, Block, CHECK, f64_at, put, u32_at, u64_at, wrong_checks};
use crate::both::Found;
use crate::draft::Draft;

/// The day is the plan given with the seed's cars in the place of its one vehicle.
pub fn hold(plan: &[u8], seed: u32, day: &[u8]) -> Found {
    let (Some(given), Some(written)) = (Draft::of(plan), Draft::of(day)) else {
        return Err("V is the number of cars".to_string());
    };
    demand(wrong_checks(day).next().is_none(), "each block has its check")?;
    let site = plan.len() - BLOCK;
    demand(plan[..8] == day[..8] && plan[10..CHECK] == day[10..CHECK], "the header is the plan's but for V and check")?;
    demand(plan[BLOCK..site] == day[BLOCK..site], "profiles and chargers are the plan's")?;
    let mut state = u64::from(seed);
    for (car, id) in written.vehicles.iter().zip(1..) {
        demand(u32_at(car, 0) == id, "ids count from 1")?;
        demand(others(car) == others(&given.vehicles[0]), "the other bytes are the vehicle's")?;
        let draws = [0; 3].map(|_| {
            state = after_a_step(state);
            state
        });
        demand(u64_at(car, 40) == draws[0] % 86_400, "a car's first draw is its arrival")?;
        let socs = [draws[1] % 512, 512 + draws[2] % 512].map(|of_1_024| of_1_024 as f64 / 1_024.0);
        demand([16, 24].map(|at| f64_at(car, at)) == socs, "its second and third are start and target")?;
    }
    Ok(())
}

/// The generator's next state, by numbers: a shift to the left multiplies and drops what is above 32 bits.
fn after_a_step(x: u64) -> u64 {
    let x = x ^ (x * 8_192 % (1 << 32));
    let x = x ^ (x / 131_072);
    x ^ (x * 32 % (1 << 32))
}

/// A vehicle's block but for id, start, target, arrival and check.
fn others(vehicle: &Block) -> Block {
    let mut others = *vehicle;
    put(&mut others, 0, &[0; 4]);
    put(&mut others, 16, &[0; 16]);
    put(&mut others, 40, &[0; 8]);
    put(&mut others, CHECK, &[0; 4]);
    others
}

/// A day's check by the checks of each car alone: fine, or that of the first that is refused, at its place.
pub fn by_each_car(day: &[u8]) -> Numbers {
    let draft = Draft::of(day).expect("a day is a plan");
    let alone = |car: &Block| crate::check(&Draft { vehicles: vec![*car], ..draft.clone() }.bytes());
    let mut checks = draft.vehicles.iter().map(alone).enumerate();
    match checks.find(|(_, answer)| answer[0] > 0) {
        Some((k, mut answer)) => {
            answer[1] += k as u64;
            answer
        }
        None => [0; 11],
    }
}
