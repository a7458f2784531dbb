//! Plans and calls that are refused: fields at and past their limits, faults of each number, damage.
use super::site::{Clock, FEW, Style, draft};
use super::{Case, call};
use crate::blocks::{BLOCK, put, put_f64, reseal, seal_all, u32_at};
use crate::book::LEAST_BOOK;
use crate::draft::{Draft, points, set_points};
use crate::draw::Draw;
use crate::plan::FLEET;

/// The float fields of a kind of block with their limits.
const HEADER_FLOATS: &[(usize, f64, f64)] = &[(16, 0.125, 65_536.0)];
const PROFILE_FLOATS: &[(usize, f64, f64)] = &[(8, 1.0, 1_024.0), (16, 0.0, 1.0), (24, 0.125, 1_024.0)];
const CHARGER_FLOATS: &[(usize, f64, f64)] = &[
    (16, 0.125, 1_024.0),
    (24, 1.0, 4_096.0),
    (32, 1.0, 4_096.0),
    (40, 1.0, 4_096.0),
    (48, 1.0, 4_096.0),
    (56, 1.0, 4_096.0),
    (64, 1.0, 4_096.0),
    (72, 1.0, 4_096.0),
];
const VEHICLE_FLOATS: &[(usize, f64, f64)] = &[(16, 0.0, 1.0), (24, 0.0, 1.0), (32, 0.0, 604_800.0)];

/// A float field of block k, if it has one.
fn float_field(draw: &mut Draw, draft: &Draft, k: usize) -> Option<(usize, f64, f64)> {
    let profiles = draft.profiles.len();
    if k == 0 {
        return (draft.header[12] != 0).then(|| HEADER_FLOATS[0]);
    }
    if k > profiles {
        let fields = if k <= profiles + draft.chargers.len() { CHARGER_FLOATS } else { VEHICLE_FLOATS };
        return Some(draw.pick(fields));
    }
    let (at, low, high) = draw.pick(PROFILE_FLOATS);
    let count = points(&draft.profiles[k - 1]).len() as u64;
    let point = if at == 8 || count == 0 { 0 } else { draw.below(count) as usize };
    Some((at + 16 * point, low, high))
}

/// Fields at their limits and right beside them, inside and outside.
pub fn edges(draw: &mut Draw) -> Case {
    let mut draft = draft(draw, Style { chargers: [1, 2], limit: true, ..FEW });
    if draw.one_in(3) {
        draft.header[12] = draw.pick(&[2, 2, 2, 3]);
    }
    for _ in 0..draw.among(1, 4) {
        let k = draw.below(draft.block_count() as u64) as usize;
        if let Some((at, low, high)) = float_field(draw, &draft, k) {
            let edge = draw.pick(&[low, high]);
            let beside = if draw.one_in(6) { [edge.next_up(), edge.next_down()] } else { [low, high] };
            put_f64(draft.block_mut(k), at, draw.pick(&beside));
        }
    }
    if draw.one_in(3) {
        let vehicle = draw.pick(&(0..draft.vehicles.len()).collect::<Vec<_>>());
        let at = draw.pick(&[40, 48]);
        let time = draw.pick(&[0u64, 1_000_000, 1_000_001, 1 << 32]);
        put(&mut draft.vehicles[vehicle], at, &time.to_le_bytes());
    }
    if draw.one_in(3) {
        let vehicle = draw.below(draft.vehicles.len() as u64) as usize;
        put(&mut draft.vehicles[vehicle], FLEET, &draw.pick(&[1u16, 63, 64, 65, 256]).to_le_bytes());
        draft.set_places(draw.pick(&[1, 2, 63, 64]), draw.pick(&[0, 1, 63, 64, 65]));
    }
    let plan = draft.bytes();
    call(draw, plan, Clock::Far)
}

pub fn refused(draw: &mut Draw, faults: u64) -> Case {
    let style = Style { profiles: [1, 4], chargers: [1, 3], vehicles: [1, 5], points: [1, 6], ..FEW };
    let mut draft = draft(draw, style);
    let mut numbers: Vec<u64> = Vec::new();
    while (numbers.len() as u64) < faults {
        let number = draw.among(1, 12);
        if !numbers.contains(&number) {
            numbers.push(number);
        }
    }
    // A later number's fault is made first, so that an earlier one may stand over it.
    numbers.sort_by(|a, b| b.cmp(a));
    for number in &numbers {
        if (7..=12).contains(number) {
            fault_in_parts(draw, &mut draft, *number);
        }
    }
    let mut case =
        Case { shape: "", plan: draft.bytes(), engine: draw.below(2) as u32, allowance: 50, book: LEAST_BOOK };
    for number in numbers {
        fault_around(draw, &mut case, number);
    }
    case
}

fn fault_in_parts(draw: &mut Draw, draft: &mut Draft, number: u64) {
    let profile = draw.below(draft.profiles.len() as u64) as usize;
    let vehicle = draw.below(draft.vehicles.len() as u64) as usize;
    match number {
        7 => field_fault(draw, draft),
        8 => set_points(&mut draft.profiles[profile], &[]),
        9 => repeat_a_point(draw, draft, profile),
        10 => repeat_an_id(draw, draft),
        11 => put(&mut draft.vehicles[vehicle], 4, &(draw.number() as u32).to_le_bytes()),
        _ => endless_pair(draw, draft, profile, vehicle),
    }
}

fn repeat_a_point(draw: &mut Draw, draft: &mut Draft, profile: usize) {
    let mut curve = points(&draft.profiles[profile]);
    if curve.is_empty() || curve.len() == 30 {
        return;
    }
    let soc = draw.pick(&curve).0;
    let at = draw.below(curve.len() as u64 + 1) as usize;
    curve.insert(at, (soc, draw.pick(&[25.0, 50.0])));
    set_points(&mut draft.profiles[profile], &curve);
}

fn repeat_an_id(draw: &mut Draw, draft: &mut Draft) {
    let kind = draw.below(3);
    let blocks = match kind {
        0 => &mut draft.profiles,
        1 => &mut draft.chargers,
        _ => &mut draft.vehicles,
    };
    let one = draw.below(blocks.len() as u64) as usize;
    let copy = blocks[one];
    if kind == 0 && blocks.len() == 16 {
        return;
    }
    let at = draw.below(blocks.len() as u64 + 1) as usize;
    blocks.insert(at, copy);
}

/// A pair whose charge duration is about the longest allowed, or far above.
fn endless_pair(draw: &mut Draw, draft: &mut Draft, profile: usize, vehicle: usize) {
    let battery = draw.pick(&[168.0, 168.0_f64.next_up(), 169.0, 1_024.0, 200.0]);
    put_f64(&mut draft.profiles[profile], 8, battery);
    set_points(&mut draft.profiles[profile], &[(draw.float(0.0, 1.0), draw.pick(&[0.125, 1.0, 1.0]))]);
    let id = u32_at(&draft.profiles[profile], 0);
    let block = &mut draft.vehicles[vehicle];
    put(block, 4, &id.to_le_bytes());
    put_f64(block, 16, draw.pick(&[0.0, 0.0, 5e-324, 1e-9]));
    put_f64(block, 24, draw.pick(&[1.0, 1.0, 1.0_f64.next_down()]));
}

/// One field of one block out of its limits, or a byte that should be zero; the header's often.
fn field_fault(draw: &mut Draw, draft: &mut Draft) {
    let k = if draw.one_in(4) { 0 } else { draw.below(draft.block_count() as u64) as usize };
    if !draw.one_in(3)
        && let Some((at, low, high)) = float_field(draw, draft, k)
    {
        let wrong = [
            f64::NAN,
            f64::INFINITY,
            f64::NEG_INFINITY,
            -0.0,
            -low,
            -high,
            high.next_up(),
            low.next_down(),
            -5e-324,
            f64::MAX,
            -f64::NAN,
            // What is below the least value, if that is above 0.
            if low > 0.0 { 5e-324 } else { -1.0 },
            if low > 0.0 { low / 2.0 } else { -0.5 },
        ];
        put_f64(draft.block_mut(k), at, draw.pick(&wrong));
        return;
    }
    if k == 0 {
        header_fault(draw, &mut draft.header);
    } else if k <= draft.profiles.len() {
        profile_fault(draw, draft.block_mut(k));
    } else {
        let at = if k <= draft.profiles.len() + draft.chargers.len() { 4 } else { 8 };
        connector_fault(draw, draft.block_mut(k), at);
    }
}

fn header_fault(draw: &mut Draw, block: &mut [u8]) {
    match draw.below(5) {
        0 => {
            block[12] = draw.pick(&[3, 3, 4, 130, 255]);
            put_f64(block, 16, draw.pick(&[0.0, 0.125, 50.0]));
        }
        1 => {
            block[12] = 0;
            block[16 + draw.below(8) as usize] = 1;
        }
        2 => {
            block[12] = draw.pick(&[1, 2]);
            put_f64(block, 16, draw.pick(&[0.0, 0.0, 0.125_f64.next_down(), 65_536_f64.next_up(), -50.0]));
        }
        3 => block[draw.pick(&[24, 25, 50, 86, 87])] = draw.pick(&[65, 66, 128, 255]),
        _ => block[draw.pick(&[10, 11, 13, 15, 88, 89, 300, 507])] = draw.among(1, 255) as u8,
    }
}

fn profile_fault(draw: &mut Draw, block: &mut [u8]) {
    match draw.below(4) {
        0 => put(block, 4, &(draw.pick(&[31u16, 32, 33, 255, 256, u16::MAX])).to_le_bytes()),
        1 => put(block, 4, &0u16.to_le_bytes()),
        2 => block[draw.pick(&[6, 7, 496, 500, 507])] = draw.among(1, 255) as u8,
        _ => {
            let past = 16 + 16 * usize::from(block[4].min(29));
            block[past + draw.below(16) as usize] = draw.among(1, 255) as u8;
        }
    }
}

fn connector_fault(draw: &mut Draw, block: &mut [u8], at: usize) {
    let count = usize::from(block[at].min(5));
    match draw.below(6) {
        0 => block[at] = draw.pick(&[6, 7, 255]),
        1 if count < 5 => block[at] = count as u8 + 1,
        2 if count < 5 => block[at + 1 + count] = draw.among(1, 5) as u8,
        3 if count > 0 => block[at + 1 + draw.below(count as u64) as usize] = draw.pick(&[0, 6, 255]),
        _ if at == 4 => block[draw.pick(&[10, 15, 40, 41, 79, 80, 507])] = draw.among(1, 255) as u8,
        4 => {
            let time = draw.pick(&[1_000_001, 1u64 << 32, 1 << 40, u64::MAX]);
            put(block, draw.pick(&[40, 48]), &time.to_le_bytes());
        }
        5 => put(block, FLEET, &draw.pick(&[65u16, 66, 128, 255, 256, 257, 1 << 14, u16::MAX]).to_le_bytes()),
        _ => block[draw.pick(&[14, 15, 62, 63, 507])] = draw.among(1, 255) as u8,
    }
}

fn fault_around(draw: &mut Draw, case: &mut Case, number: u64) {
    let blocks = case.plan.len() / BLOCK;
    match number {
        1 => case.engine = draw.pick(&[2, 3, 255, 256, u32::MAX]),
        2 => case.allowance = draw.pick(&[10_000_001, 10_000_002, u32::MAX]),
        3 => case.book = draw.pick(&[0, 1, BLOCK, LEAST_BOOK - BLOCK, LEAST_BOOK - 1]),
        4 => wrong_length(draw, &mut case.plan),
        5 if blocks > 0 => {
            let at = draw.below(case.plan.len() as u64) as usize;
            case.plan[at] ^= 1 << draw.below(8);
        }
        6 if blocks > 0 => header_count_fault(draw, &mut case.plan),
        _ => {}
    }
}

fn wrong_length(draw: &mut Draw, plan: &mut Vec<u8>) {
    match draw.below(3) {
        0 => plan.clear(),
        1 => plan.truncate(plan.len() - 1 - draw.below(BLOCK as u64 - 1) as usize),
        _ => {
            plan.resize(BLOCK * draw.pick(&[114, 115, 130]), 0);
            seal_all(plan);
        }
    }
}

fn header_count_fault(draw: &mut Draw, plan: &mut [u8]) {
    match draw.below(3) {
        0 => plan[draw.below(4) as usize] ^= 1 << draw.below(8),
        1 => put(plan, draw.pick(&[4, 6, 8]), &draw.pick(&[17u16, 33, 65, 256, u16::MAX, 0]).to_le_bytes()),
        _ => plan[draw.pick(&[4, 6, 8])] ^= 1,
    }
    reseal(plan, 0);
}

pub fn damaged(draw: &mut Draw) -> Case {
    let mut plan = draft(draw, Style { connectors: true, chargers: [1, 3], ..FEW }).bytes();
    for _ in 0..draw.among(1, 2) {
        // Mostly the first bytes of a block, where the fields are.
        let block = draw.below(plan.len() as u64 / BLOCK as u64) as usize;
        let within = if draw.one_in(4) { draw.below(512) } else { draw.below(96) } as usize;
        let at = block * BLOCK + within;
        plan[at] = if draw.one_in(2) { plan[at] ^ (1 << draw.below(8)) } else { draw.number() as u8 };
        if !draw.one_in(5) {
            reseal(&mut plan, block);
        }
    }
    call(draw, plan, Clock::Day)
}

pub fn cut_or_extended(draw: &mut Draw) -> Case {
    let mut plan = draft(draw, FEW).bytes();
    let blocks = plan.len() / BLOCK;
    match draw.below(6) {
        0 => plan.truncate(draw.below(plan.len() as u64) as usize),
        1 => plan.truncate(BLOCK * draw.below(blocks as u64) as usize),
        2 => plan.extend((0..draw.among(1, 600)).map(|k| k as u8)),
        3 => plan.resize(plan.len() + BLOCK, 0),
        4 => {
            plan.resize(plan.len() + BLOCK * draw.among(1, 3) as usize, 0);
            seal_all(&mut plan);
        }
        _ => {
            // Two blocks change places; each keeps the check of its old place, or gets its new one.
            let [one, other] = [draw.below(blocks as u64) as usize, draw.below(blocks as u64) as usize];
            for k in 0..BLOCK {
                plan.swap(one * BLOCK + k, other * BLOCK + k);
            }
            if draw.one_in(2) {
                seal_all(&mut plan);
            }
        }
    }
    call(draw, plan, Clock::Day)
}
