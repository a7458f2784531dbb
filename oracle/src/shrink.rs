//! Makes a case that shows a difference smaller, as long as it still shows one.
use crate::blocks::{BLOCK, Block, f64_at, put, put_f64, reseal, u16_at, u32_at, u64_at};
use crate::book::LEAST_BOOK;
use crate::draft::{Draft, points, set_points};
use crate::generate::Case;
use crate::plan::{CAPS, FLEET, MOST_FLEETS, PLACES};

/// The smallest case found by greedy steps, each of which keeps `differs` true.
pub fn shrink(mut case: Case, differs: impl Fn(&Case) -> bool) -> Case {
    loop {
        let before = (case.plan.clone(), case.allowance, case.book, case.engine);
        for step in [calls, drops, fleets, times, values, raw] {
            while let Some(smaller) = step(&case).into_iter().find(|smaller| differs(smaller)) {
                case = smaller;
            }
        }
        if before == (case.plan.clone(), case.allowance, case.book, case.engine) {
            return case;
        }
    }
}

fn calls(case: &Case) -> Vec<Case> {
    let mut smaller = Vec::new();
    let allowances =
        [0, case.allowance / 2, case.allowance.saturating_sub(case.allowance / 8), case.allowance.saturating_sub(1)];
    for allowance in allowances.into_iter().filter(|allowance| *allowance < case.allowance) {
        smaller.push(Case { allowance, ..case.clone() });
    }
    if case.book != LEAST_BOOK {
        smaller.push(Case { book: LEAST_BOOK, ..case.clone() });
    }
    smaller
}

fn with(case: &Case, draft: Draft) -> Case {
    Case { plan: draft.bytes(), ..case.clone() }
}

/// The cases with one block or one point less, the site limit gone or not shared evenly, or several blocks less at once.
fn drops(case: &Case) -> Vec<Case> {
    let Some(draft) = Draft::of(&case.plan) else { return Vec::new() };
    let mut smaller = Vec::new();
    let kinds: [fn(&mut Draft) -> &mut Vec<Block>; 3] = [|d| &mut d.vehicles, |d| &mut d.chargers, |d| &mut d.profiles];
    for kind in kinds {
        let count = kind(&mut draft.clone()).len();
        for width in [count / 2, count / 4, 1] {
            for from in (0..count).step_by(width.max(1)).filter(|_| width > 0) {
                let mut less = draft.clone();
                kind(&mut less).drain(from..(from + width).min(count));
                smaller.push(with(case, less));
            }
        }
    }
    // One profile less, its vehicles going to another.
    for gone in 0..draft.profiles.len() {
        let mut less = draft.clone();
        let id = u32_at(&less.profiles.remove(gone), 0);
        let Some(other) = less.profiles.first().map(|block| u32_at(block, 0)) else { break };
        for vehicle in less.vehicles.iter_mut().filter(|vehicle| u32_at(*vehicle, 4) == id) {
            put(vehicle, 4, &other.to_le_bytes());
        }
        smaller.push(with(case, less));
    }
    for k in 0..draft.profiles.len() {
        let curve = points(&draft.profiles[k]);
        for drop in 0..curve.len() {
            let mut less = draft.clone();
            let rest: Vec<_> =
                curve.iter().enumerate().filter(|(at, _)| *at != drop).map(|(_, point)| *point).collect();
            set_points(&mut less.profiles[k], &rest);
            smaller.push(with(case, less));
        }
    }
    if draft.header[12] != 0 {
        let mut less = draft.clone();
        less.header[12..24].fill(0);
        smaller.push(with(case, less));
    }
    if draft.header[12] == 2 {
        let mut less = draft.clone();
        less.header[12] = 1;
        smaller.push(with(case, less));
    }
    smaller
}

/// All fleets and places gone; fewer places; one fleet's cars or one car in none, or in a fleet of a smaller number.
fn fleets(case: &Case) -> Vec<Case> {
    let Some(draft) = Draft::of(&case.plan) else { return Vec::new() };
    let mut smaller = vec![draft.clone()];
    smaller[0].header[PLACES].fill(0);
    smaller[0].vehicles.iter_mut().for_each(|vehicle| vehicle[FLEET..FLEET + 2].fill(0));
    for fleet in 1..=MOST_FLEETS {
        let places = draft.places(fleet);
        for fewer in [0, 1, places / 2, places.saturating_sub(1)].into_iter().filter(|fewer| *fewer < places) {
            let mut less = draft.clone();
            less.set_places(fleet, fewer);
            smaller.push(less);
        }
        let has = |fleet| draft.vehicles.iter().any(|vehicle| u16_at(vehicle, FLEET) == fleet);
        if has(fleet) {
            smaller.extend((1..fleet).find(|other| !has(*other)).map(|other| renamed(&draft, fleet, other)));
            smaller.push(renamed(&draft, fleet, 0));
        }
    }
    for k in (0..draft.vehicles.len()).filter(|k| u16_at(&draft.vehicles[*k], FLEET) > 0) {
        let mut less = draft.clone();
        less.vehicles[k][FLEET..FLEET + 2].fill(0);
        smaller.push(less);
    }
    smaller.into_iter().filter(|less| *less != draft).map(|less| with(case, less)).collect()
}

/// A fleet's cars in another fleet, which takes its places, or in none.
fn renamed(draft: &Draft, fleet: u16, other: u16) -> Draft {
    let mut renamed = draft.clone();
    for vehicle in renamed.vehicles.iter_mut().filter(|vehicle| u16_at(*vehicle, FLEET) == fleet) {
        put(vehicle, FLEET, &other.to_le_bytes());
    }
    if other > 0 {
        renamed.set_places(other, draft.places(fleet));
    }
    renamed.set_places(fleet, 0);
    renamed
}

/// Earlier arrivals and shorter waits, all together or one by one.
fn times(case: &Case) -> Vec<Case> {
    let Some(draft) = Draft::of(&case.plan) else { return Vec::new() };
    let mut smaller = Vec::new();
    let least = draft.vehicles.iter().map(|block| u64_at(block, 40)).min().unwrap_or(0);
    if least > 0 {
        let mut less = draft.clone();
        for block in &mut less.vehicles {
            let arrival = u64_at(block, 40) - least;
            put(block, 40, &arrival.to_le_bytes());
        }
        smaller.push(with(case, less));
    }
    for k in 0..draft.vehicles.len() {
        for at in [40, 48] {
            let time = u64_at(&draft.vehicles[k], at);
            for shorter in [0, 1, time / 2, time.saturating_sub(1)].into_iter().filter(|shorter| *shorter < time) {
                let mut less = draft.clone();
                put(&mut less.vehicles[k], at, &shorter.to_le_bytes());
                smaller.push(with(case, less));
            }
        }
    }
    smaller
}

/// How plain a float is: fewer digits are plainer.
fn plainness(value: f64) -> (usize, f64) {
    (format!("{value:?}").len(), value.abs())
}

fn plainer_float(block: &Block, at: usize, plain: &[f64]) -> Vec<Block> {
    let now = f64_at(block, at);
    let rounded = (now * 1_000.0).round() / 1_000.0;
    let candidates = plain.iter().copied().chain([rounded, now.ceil(), now.floor()]);
    candidates
        .filter(|value| now.is_nan() || plainness(*value) < plainness(now))
        .map(|value| {
            let mut block = *block;
            put_f64(&mut block, at, value);
            block
        })
        .collect()
}

fn plainer_word(block: &Block, at: usize, plain: &[u32]) -> Vec<Block> {
    let now = u32_at(block, at);
    let plainer = plain.iter().filter(|value| **value < now);
    plainer
        .map(|value| {
            let mut block = *block;
            put(&mut block, at, &value.to_le_bytes());
            block
        })
        .collect()
}

fn fewer_codes(block: &Block, at: usize) -> Vec<Block> {
    let count = usize::from(block[at].min(5));
    (0..count)
        .map(|drop| {
            let mut fewer = *block;
            fewer.copy_within(at + 2 + drop..at + 6, at + 1 + drop);
            fewer[at + 5] = 0;
            fewer[at] -= 1;
            fewer
        })
        .collect()
}

/// Plainer values in one block; the vehicles follow where a profile's id changes.
fn values(case: &Case) -> Vec<Case> {
    let Some(draft) = Draft::of(&case.plan) else { return Vec::new() };
    let mut smaller = Vec::new();
    for k in 0..draft.block_count() {
        let block = *draft.clone().block_mut(k);
        for plainer in plainer_blocks(&draft, k, &block) {
            let mut less = draft.clone();
            *less.block_mut(k) = plainer;
            if (1..=draft.profiles.len()).contains(&k) {
                for vehicle in &mut less.vehicles {
                    if u32_at(vehicle, 4) == u32_at(&block, 0) {
                        put(vehicle, 4, &u32_at(&plainer, 0).to_le_bytes());
                    }
                }
            }
            smaller.push(with(case, less));
        }
    }
    smaller
}

fn plainer_blocks(draft: &Draft, k: usize, block: &Block) -> Vec<Block> {
    let (profiles, chargers) = (draft.profiles.len(), draft.chargers.len());
    let socs = [0.0, 1.0, 0.5, 0.25, 0.75];
    let powers = [1.0, 50.0, 100.0, 900.0];
    let ids = [0, 1, 2, 3, 4, k as u32];
    let mut plainer = Vec::new();
    if k == 0 {
        if block[12] != 0 {
            plainer.extend(plainer_float(block, 16, &powers));
        }
    } else if k <= profiles {
        plainer.extend(plainer_word(block, 0, &ids));
        plainer.extend(plainer_float(block, 8, &[1.0, 2.0, 50.0]));
        for point in 0..points(block).len() {
            plainer.extend(plainer_float(block, 16 + 16 * point, &socs));
            plainer.extend(plainer_float(block, 24 + 16 * point, &powers));
        }
    } else if k <= profiles + chargers {
        plainer.extend(plainer_word(block, 0, &ids));
        plainer.extend(fewer_codes(block, 4));
        plainer.extend(plainer_float(block, 16, &powers));
        plainer.extend(plainer_float(block, 24, &[1_000.0]));
        plainer.extend(plainer_float(block, 32, &[1_000.0]));
        for at in CAPS {
            plainer.extend(plainer_float(block, at, &[0.0, 1.0]));
        }
    } else {
        plainer.extend(plainer_word(block, 0, &ids));
        plainer.extend(fewer_codes(block, 8));
        plainer.extend(plainer_float(block, 16, &socs));
        plainer.extend(plainer_float(block, 24, &socs));
        plainer.extend(plainer_float(block, 32, &[0.0, 1.0, 0.5]));
        plainer.extend(plainer_word(block, 56, &[0, 1, 2, 10]));
    }
    plainer
}

/// For plans whose header is wrong: fewer bytes, and blocks of zero bytes.
fn raw(case: &Case) -> Vec<Case> {
    if Draft::of(&case.plan).is_some() {
        return Vec::new();
    }
    let len = case.plan.len();
    let mut smaller = Vec::new();
    for keep in [0, len / 2, len.saturating_sub(BLOCK), len - len % BLOCK, len.saturating_sub(1)] {
        if keep < len {
            smaller.push(Case { plan: case.plan[..keep].to_vec(), ..case.clone() });
        }
    }
    for k in 0..len / BLOCK {
        let mut plan = case.plan.clone();
        plan[k * BLOCK..(k + 1) * BLOCK].fill(0);
        reseal(&mut plan, k);
        if plan != case.plan {
            smaller.push(Case { plan, ..case.clone() });
        }
    }
    smaller
}
