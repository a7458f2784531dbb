//! Plans that are good, or refused by 12 at most, in several styles.
use crate::blocks::{Block, f64_at, hash, put, put_f64};
use crate::draft::{Car, Draft, charger, points, profile};
use crate::draw::Draw;
use crate::plan::{CAPS, FLEET, MOST_FLEETS};

#[derive(Clone, Copy, PartialEq)]
pub enum Clock {
    Tight,
    /// Cars that come close together, most of which wait for long.
    Close,
    Short,
    Day,
    Far,
}

#[derive(Clone, Copy, PartialEq)]
pub enum Soc {
    Plain,
    AtPoints,
    Subnormal,
    /// Mostly as much at the start as at the target: nothing to charge.
    Reached,
}

#[derive(Clone, Copy, PartialEq)]
pub enum Idle {
    Any,
    Small,
    Fractional,
    Mostly0,
    /// Mostly longer than charging takes.
    Long,
}

#[derive(Clone, Copy, PartialEq)]
pub enum Fleets {
    /// Mostly no car in a fleet, so that the original is the reference.
    Few,
    /// Most cars in one of a few fleets.
    Most,
}

#[derive(Clone, Copy)]
pub struct Style {
    pub profiles: [u64; 2],
    pub points: [u64; 2],
    pub chargers: [u64; 2],
    pub vehicles: [u64; 2],
    pub clock: Clock,
    pub soc: Soc,
    pub idle: Idle,
    /// Durations that are whole seconds, and few of them.
    pub whole: bool,
    pub connectors: bool,
    /// Leads that carry less than their charger, or as much, or more.
    pub caps: bool,
    pub limit: bool,
    pub fleets: Fleets,
}

pub const FEW: Style = Style {
    profiles: [1, 2],
    points: [1, 4],
    chargers: [0, 3],
    vehicles: [1, 4],
    clock: Clock::Short,
    soc: Soc::Plain,
    idle: Idle::Any,
    whole: false,
    connectors: false,
    caps: false,
    limit: false,
    fleets: Fleets::Few,
};
pub const CONTENTION: Style = Style { profiles: [1, 3], chargers: [1, 3], vehicles: [3, 14], ..FEW };
pub const TIES: Style =
    Style { chargers: [1, 3], vehicles: [2, 9], clock: Clock::Tight, idle: Idle::Small, whole: true, ..FEW };
/// Many events in one second, unplugs of several chargers among them.
pub const NO_LENGTH: Style =
    Style { chargers: [1, 4], vehicles: [3, 14], soc: Soc::Reached, idle: Idle::Mostly0, ..TIES };
/// Several cars at a site of little power, most of them parked at any time.
pub const PARKED: Style = Style { chargers: [2, 6], vehicles: [3, 12], idle: Idle::Long, limit: true, ..CONTENTION };
/// More cars than chargers, in fleets that wait for them; and the same with much in one second.
pub const FLEETS: Style = Style {
    chargers: [0, 3],
    vehicles: [3, 16],
    clock: Clock::Close,
    connectors: true,
    fleets: Fleets::Most,
    ..CONTENTION
};
pub const FLEETS_AT_ONCE: Style = Style { vehicles: [3, 12], fleets: Fleets::Most, ..TIES };
pub const LARGE_FLEETS: Style = Style { vehicles: [24, 64], connectors: false, ..FLEETS };
pub const MANY: Style = Style {
    profiles: [1, 16],
    points: [1, 30],
    chargers: [8, 32],
    vehicles: [10, 64],
    connectors: true,
    limit: true,
    ..FEW
};
pub const LARGEST: Style =
    Style { profiles: [16, 16], points: [30, 30], chargers: [32, 32], vehicles: [64, 64], clock: Clock::Day, ..MANY };

fn range(draw: &mut Draw, [low, high]: [u64; 2]) -> usize {
    draw.among(low, high) as usize
}

/// Ids of one kind: small ones or any, each once.
fn ids(draw: &mut Draw, count: usize) -> Vec<u32> {
    let mut ids: Vec<u32> = Vec::new();
    let any = draw.one_in(3);
    while ids.len() < count {
        let id = if any { draw.number() as u32 } else { draw.below(2 * count as u64) as u32 };
        if !ids.contains(&id) {
            ids.push(id);
        }
    }
    ids
}

pub fn draft(draw: &mut Draw, style: Style) -> Draft {
    let mut draft = Draft::default();
    if style.limit || draw.one_in(4) {
        draft.set_limit(site_limit(draw));
    }
    let profiles = range(draw, style.profiles);
    let profile_ids = ids(draw, profiles);
    for id in &profile_ids {
        let block = profile(*id, battery(draw, style), &curve(draw, style));
        draft.profiles.push(block);
    }
    let chargers = range(draw, style.chargers);
    for id in ids(draw, chargers) {
        let codes = codes(draw, style);
        let [power, current, voltage] = rating(draw, style);
        draft.chargers.push(charger(id, &codes, power, current, voltage));
        if style.caps {
            set_caps(draw, draft.chargers.last_mut().unwrap(), current);
        }
    }
    let vehicles = range(draw, style.vehicles);
    for id in ids(draw, vehicles) {
        let place = draw.below(profiles as u64) as usize;
        let curve = points(&draft.profiles[place]);
        draft.vehicles.push(car(draw, style, id, profile_ids[place], &curve).block());
    }
    // Drawn apart, so that a plan without fleets and even shares does not go by them.
    let mut apart = Draw::new(hash(&draft.bytes()), 0);
    match style.fleets {
        Fleets::Most => set_fleets(&mut apart, &mut draft),
        Fleets::Few if apart.one_in(40) => set_fleets(&mut apart, &mut draft),
        Fleets::Few if apart.one_in(12) => any_places(&mut apart, &mut draft),
        Fleets::Few => {}
    }
    if apart.one_in(40) {
        let limited = draft.header[12] != 0;
        let limit = if limited { f64_at(&draft.header, 16) } else { site_limit(&mut apart) };
        draft.set_even_shares(limit);
    }
    draft
}

/// Places of some fleets, whether they have cars or not.
fn any_places(draw: &mut Draw, draft: &mut Draft) {
    let one_in = draw.pick(&[1, 2, 20]);
    for fleet in 1..=MOST_FLEETS {
        if draw.one_in(one_in) {
            draft.set_places(fleet, draw.below(65) as u8);
        }
    }
}

/// Most cars in one of a few fleets, whose places are none, one, few or many.
fn set_fleets(draw: &mut Draw, draft: &mut Draft) {
    if draw.one_in(2) {
        any_places(draw, draft);
    }
    let any = draw.among(1, 64) as u16;
    let fleets: Vec<u16> = (0..draw.among(1, 4)).map(|_| draw.pick(&[1, 2, 3, 63, 64, any])).collect();
    for fleet in &fleets {
        draft.set_places(*fleet, draw.pick(&[0, 1, 1, 1, 2, 2, 3, 5, 64]));
    }
    for vehicle in &mut draft.vehicles {
        if !draw.one_in(5) {
            put(vehicle, FLEET, &draw.pick(&fleets).to_le_bytes());
        }
    }
}

fn site_limit(draw: &mut Draw) -> f64 {
    match draw.below(4) {
        0 => draw.pick(&[0.125, 25.0, 50.0, 75.0, 100.0, 150.0, 450.0, 65_536.0]),
        1 => draw.float(0.125, 20.0),
        2 => draw.float(10.0, 400.0),
        _ => draw.float(100.0, 3_000.0),
    }
}

fn battery(draw: &mut Draw, style: Style) -> f64 {
    if style.whole {
        return 1.0;
    }
    match draw.below(8) {
        0..=3 => draw.pick(&[1.0, 1.0, 2.0, 5.0, 10.0, 50.0]),
        4..=6 => draw.float(1.0, 12.0),
        // 20 kWh charge within the longest stay even at 0.125 kW, so that large plans are not all refused.
        _ => draw.float(1.0, if style.profiles[1] > 4 { 20.0 } else { 200.0 }),
    }
}

fn power(draw: &mut Draw, style: Style) -> f64 {
    if style.whole {
        return draw.pick(&[225.0, 450.0, 900.0, 900.0]);
    }
    match draw.below(12) {
        0..=4 => draw.pick(&[25.0, 50.0, 75.0, 100.0, 150.0, 250.0, 450.0, 900.0]),
        5..=10 => draw.float(20.0, 1_024.0),
        _ => draw.pick(&[0.125, 1.0, 1_024.0, 0.376]),
    }
}

/// Points of different SOC in no particular order.
fn curve(draw: &mut Draw, style: Style) -> Vec<(f64, f64)> {
    let count = if style.whole { range(draw, [1, 2]) } else { range(draw, style.points) };
    let flat = style.whole.then(|| power(draw, style));
    let kind = draw.below(4);
    let mut curve: Vec<(f64, f64)> = Vec::new();
    while curve.len() < count {
        let soc = match (style.soc, kind) {
            (Soc::Subnormal, _) if !draw.one_in(4) => f64::from_bits(draw.below(12)),
            (_, 0) => draw.below(33) as f64 / 32.0,
            (_, 1) => draw.below(101) as f64 / 100.0,
            (_, 2) if !curve.is_empty() => f64::from_bits(curve[0].0.to_bits() + draw.below(40)).min(1.0),
            _ => draw.float(0.0, 1.0),
        };
        if curve.iter().all(|point| point.0 != soc) {
            curve.push((soc, flat.unwrap_or_else(|| power(draw, style))));
        } else if kind == 2 {
            curve.push((draw.float(0.0, 0.999), power(draw, style)));
        }
    }
    let mut seen: Vec<f64> = Vec::new();
    curve.retain(|point| {
        let new = !seen.contains(&point.0);
        seen.push(point.0);
        new
    });
    curve
}

fn codes(draw: &mut Draw, style: Style) -> Vec<u8> {
    if !style.connectors && !draw.one_in(6) {
        return Vec::new();
    }
    let count = draw.among(0, 5);
    let widest = draw.among(2, 5);
    (0..count).map(|_| 6 - draw.among(1, widest) as u8).collect()
}

/// Max power, current and voltage; the current binds now and then.
fn rating(draw: &mut Draw, style: Style) -> [f64; 3] {
    if style.whole {
        return [draw.pick(&[450.0, 900.0, 1_024.0]), 4_000.0, 1_000.0];
    }
    let power = power(draw, style);
    match draw.below(3) {
        0 => [power, 1_200.0, 400.0],
        1 => [power, draw.float(50.0, 4_096.0), draw.float(100.0, 4_096.0)],
        _ => [power, 4_096.0, 4_096.0],
    }
}

/// Caps of some leads, whether the charger has them or not.
fn set_caps(draw: &mut Draw, charger: &mut Block, current: f64) {
    for at in CAPS {
        let cap = match draw.below(8) {
            0..=2 => continue,
            3 => current,
            4 => draw.pick(&[current.next_down(), current.next_up(), 1.0, 1.0_f64.next_up(), 4_096.0]),
            5 => draw.float(current, 4_096.0),
            _ => draw.float(1.0, current),
        };
        put_f64(charger, at, cap.clamp(1.0, 4_096.0));
    }
}

fn soc(draw: &mut Draw, style: Style, curve: &[(f64, f64)]) -> f64 {
    match style.soc {
        _ if style.whole => draw.below(5) as f64 / 4.0,
        Soc::Subnormal if !draw.one_in(3) => f64::from_bits(draw.below(14)),
        Soc::AtPoints if !draw.one_in(5) => {
            let at = draw.pick(curve).0;
            let near = [at, at.next_up(), at.next_down(), 0.0, 1.0];
            draw.pick(&near).clamp(0.0, 1.0)
        }
        _ => match draw.below(3) {
            0 => draw.below(9) as f64 / 8.0,
            1 => draw.below(101) as f64 / 100.0,
            _ => draw.float(0.0, 1.0),
        },
    }
}

fn idle(draw: &mut Draw, style: Style) -> f64 {
    match style.idle {
        Idle::Mostly0 => draw.pick(&[0.0, 0.0, 0.0, 1.0]),
        Idle::Long => draw.float(20.0, 600.0),
        Idle::Small => draw.pick(&[0.0, 0.0, 1.0, 2.0, 3.0, 0.5]),
        Idle::Fractional => match draw.below(4) {
            0 => draw.pick(&[5e-324, 1e-300, 0.5, 1.5, 2.25, 0.999_999, 1.0_f64.next_up(), 2.0_f64.next_down()]),
            _ => draw.float(0.0, 6.0),
        },
        Idle::Any => match draw.below(4) {
            0 => draw.pick(&[0.0, 1.0, 60.0, 120.0, 300.0]),
            1 => draw.float(0.0, 3.0),
            2 => draw.below(30) as f64,
            _ => draw.float(0.0, 200.0),
        },
    }
}

fn times(draw: &mut Draw, clock: Clock) -> [u64; 2] {
    match clock {
        Clock::Tight => [draw.below(7), draw.pick(&[0, 0, 1, 2, 3, 4, 5, 6, 9, 1_000])],
        Clock::Close => [draw.below(90), draw.pick(&[0, 20, 60, 200, 900, 900, 900, 5_000])],
        Clock::Short => {
            let wait = draw.pick(&[0, 1, 30, 100, 300, 900]);
            [draw.below(400), draw.among(wait / 2, wait)]
        }
        Clock::Day => [draw.below(86_400), draw.below(7_200)],
        Clock::Far => [draw.pick(&[0, 5, 1_000, 999_999, 1_000_000]), draw.pick(&[0, 1, 50, 1_000_000])],
    }
}

fn car(draw: &mut Draw, style: Style, id: u32, profile: u32, curve: &[(f64, f64)]) -> Car {
    let one = soc(draw, style, curve);
    let other = if style.soc == Soc::Reached && !draw.one_in(4) { one } else { soc(draw, style, curve) };
    let rising = !draw.one_in(8);
    let [arrival, wait] = times(draw, style.clock);
    let waiting = draw.pick(&[0, 0, 1, 2, 3, 10, u32::MAX]);
    Car {
        id,
        profile,
        codes: codes(draw, style),
        start: if rising { one.min(other) } else { one.max(other) },
        target: if rising { one.max(other) } else { one.min(other) },
        idle: idle(draw, style),
        arrival,
        wait,
        queue_limit: match style.clock {
            _ if style.fleets == Fleets::Most => draw.pick(&[0, 1, 2, 3, 5, 10, 10, 64, u32::MAX, u32::MAX]),
            Clock::Tight if !draw.one_in(4) => draw.pick(&[0, 1, 2, 3]),
            _ => waiting,
        },
        fleet: 0,
    }
}
