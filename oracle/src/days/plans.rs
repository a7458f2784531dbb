//! The plans that days are asked for.
use crate::bay::brief;
use crate::blocks::{BLOCK, CHECK, put, put_f64, reseal, u32_at};
use crate::draft::{Car, Draft, charger, points, profile, set_points};
use crate::draw::Draw;
use crate::plan::{MOST_BLOCKS, MOST_PROFILES};

/// An accepted plan with just one vehicle: one of the plan's, or one with nothing to charge where it has none.
pub fn one_vehicle(draw: &mut Draw, plan: &[u8]) -> Vec<u8> {
    let mut draft = Draft::of(plan).expect("an accepted plan");
    if draft.vehicles.is_empty() {
        add_a_vehicle(&mut draft);
    }
    draft.vehicles = vec![draw.pick(&draft.vehicles)];
    if draw.one_in(4) {
        charges_for_days(draw, &mut draft);
    }
    draft.bytes()
}

/// A vehicle of the first profile, which is made where there is none.
fn add_a_vehicle(draft: &mut Draft) {
    if draft.profiles.is_empty() {
        draft.profiles.push(profile(7, 50.0, &[(0.5, 50.0)]));
    }
    let profile = u32_at(&draft.profiles[0], 0);
    draft.vehicles.push(Car { profile, ..brief(5, 60, 3) }.block());
}

/// The vehicle has nothing to charge, but its copies charge for up to a week or longer.
fn charges_for_days(draw: &mut Draw, draft: &mut Draft) {
    let battery = draw.pick(&[169.0, 180.0, 200.0, 250.0, 336.0, 1_024.0]);
    let point = draw.float(0.0, 1.0);
    let soc = draw.pick(&[0.0, 0.5, 1.0]);
    charge_by_1_kw(draft, battery, point);
    put_f64(&mut draft.vehicles[0], 16, soc);
    put_f64(&mut draft.vehicles[0], 24, soc);
}

/// The vehicle's profile has this battery and one point, of 1 kW.
fn charge_by_1_kw(draft: &mut Draft, battery: f64, point: f64) {
    let id = u32_at(&draft.vehicles[0], 4);
    let of_vehicle = draft.profiles.iter_mut().find(|block| u32_at(*block, 0) == id).expect("the vehicle's profile");
    *of_vehicle = profile(id, battery, &[(point, 1.0)]);
}

/// The plan with so many copies of its vehicle in the place of the one.
pub fn of_vehicles(plan: &[u8], count: usize) -> Vec<u8> {
    let mut draft = Draft::of(plan).expect("an accepted plan");
    let vehicle = draft.vehicles[0];
    let copy = |id: u32| {
        let mut copy = vehicle;
        put(&mut copy, 0, &id.to_le_bytes());
        copy
    };
    draft.vehicles = (0..count as u32).map(copy).collect();
    draft.bytes()
}

/// An accepted plan of one vehicle altered so that it is refused by this number, which is 4 to 12.
pub fn refused_by(draw: &mut Draw, plan: &[u8], number: u64) -> Vec<u8> {
    match number {
        4 => of_another_length(draw, plan),
        5..=7 => with_bytes(draw, plan, number),
        _ => with_parts(draw, plan, number),
    }
}

fn of_another_length(draw: &mut Draw, plan: &[u8]) -> Vec<u8> {
    let mut other = plan.to_vec();
    other.resize(draw.pick(&[0, 1, plan.len() - 1, plan.len() + 1, BLOCK * (MOST_BLOCKS + 1)]), 0);
    other
}

/// Refusals 5 to 7 by a byte or two.
fn with_bytes(draw: &mut Draw, plan: &[u8], number: u64) -> Vec<u8> {
    let mut other = plan.to_vec();
    let block = draw.below((plan.len() / BLOCK) as u64) as usize;
    match number {
        5 => other[block * BLOCK + CHECK + draw.below(4) as usize] ^= 1 << draw.below(8),
        6 => {
            other[draw.pick(&[0, 3, 4, 6, 8])] ^= 1;
            reseal(&mut other, 0);
        }
        _ => {
            other[block * BLOCK + CHECK - 1] = draw.among(1, 255) as u8;
            reseal(&mut other, block);
        }
    }
    other
}

/// Refusals 8 to 12 by profile, vehicle and charger.
fn with_parts(draw: &mut Draw, plan: &[u8], number: u64) -> Vec<u8> {
    let mut draft = Draft::of(plan).expect("an accepted plan");
    let at = draw.below(draft.profiles.len() as u64) as usize;
    let mut curve = points(&draft.profiles[at]);
    match number {
        8 => set_points(&mut draft.profiles[at], &[]),
        9 => {
            curve.truncate(29);
            curve.push(curve[0]);
            set_points(&mut draft.profiles[at], &curve);
        }
        10 if draft.profiles.len() < MOST_PROFILES && draw.one_in(2) => draft.profiles.push(draft.profiles[at]),
        10 => draft.vehicles.push(draft.vehicles[0]),
        11 => {
            let none = (0..).find(|id| draft.profiles.iter().all(|block| u32_at(block, 0) != *id)).unwrap();
            put(&mut draft.vehicles[0], 4, &u32::to_le_bytes(none));
        }
        _ => cannot_charge(&mut draft),
    }
    draft.bytes()
}

/// The vehicle charges for longer than a week at the first charger.
fn cannot_charge(draft: &mut Draft) {
    charge_by_1_kw(draft, 1_024.0, 0.5);
    let vehicle = &mut draft.vehicles[0];
    put_f64(vehicle, 16, 0.0);
    put_f64(vehicle, 24, 1.0);
    if draft.chargers.is_empty() {
        draft.chargers.push(charger(1, &[], 50.0, 1_200.0, 400.0));
    }
    put(&mut draft.chargers[0], 4, &vehicle[8..14]);
}
