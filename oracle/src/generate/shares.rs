//! Plans of request 10: cars that share a limit evenly, about what they ask for or far below.
use crate::blocks::f64_at;
use crate::draft::{Car, Draft, charger, points, profile};
use crate::draw::Draw;
use original::shares::watts;

/// One car, two, a few or up to 32 charge from the start, each at the charger of its own place; now and then some wait.
pub fn draft(draw: &mut Draw) -> Draft {
    let mut draft = Draft::default();
    for id in 0..draw.among(1, 5) as u32 {
        let battery = draw.pick(&[1.0, 10.0, 60.0, 1_024.0]);
        draft.profiles.push(profile(id, battery, &curve(draw)));
    }
    let chargers = match draw.below(8) {
        0 => 1,
        1 | 2 => 2,
        3..=6 => draw.among(3, 8),
        _ => draw.among(9, 32),
    };
    for id in 0..chargers as u32 {
        let [power, current, voltage] = rating(draw);
        draft.chargers.push(charger(id, &[], power, current, voltage));
    }
    let waiting = if draw.one_in(4) { draw.among(1, 4) } else { 0 };
    let latest = draw.pick(&[0, 0, 3, 60]);
    let mut requests = Vec::new();
    for id in 0..(chargers + waiting) as u32 {
        let profile = draw.below(draft.profiles.len() as u64) as usize;
        let request = request(&draft, profile, (u64::from(id) % chargers) as usize);
        requests.push(watts(request));
        let car = car(draw, &draft, profile, request);
        draft.vehicles.push(Car { id, arrival: draw.among(0, latest), ..car }.block());
    }
    requests.truncate(chargers as usize);
    let limit = limit(draw, &requests);
    draft.set_even_shares(limit);
    draft
}

/// About whole watts: as near as a float comes, right beside it, or with a fraction.
pub fn about(draw: &mut Draw, watts: u64) -> f64 {
    let power = watts as f64 / 1_000.0;
    match draw.below(6) {
        0 => power.next_down(),
        1 => power.next_up(),
        2 => power + draw.float(0.0, 0.001),
        _ => power,
    }
}

/// Small or large, and some of them often.
fn power(draw: &mut Draw) -> f64 {
    let watts = match draw.below(4) {
        0 => draw.pick(&[300, 1_000, 1_001, 7_400, 22_000]),
        1 => draw.among(125, 400),
        2 => draw.among(400, 12_000),
        _ => draw.among(20_000, 1_024_000),
    };
    about(draw, watts).clamp(0.125, 1_024.0)
}

/// Mostly one point, so that the request stays as it is.
fn curve(draw: &mut Draw) -> Vec<(f64, f64)> {
    let points = if draw.one_in(3) { draw.among(2, 4) } else { 1 };
    (0..points).map(|k| (k as f64 / 8.0, power(draw))).collect()
}

/// Max power, current and voltage: enough for every car, less than many ask for, or a few watts.
fn rating(draw: &mut Draw) -> [f64; 3] {
    match draw.below(6) {
        0 => [1_024.0, draw.among(1, 20) as f64, draw.among(1, 20) as f64],
        1 | 2 => [power(draw), 4_096.0, 4_096.0],
        _ => [1_024.0, 4_096.0, 4_096.0],
    }
}

/// What a car asks for at the curve's first point, capped by its charger.
fn request(draft: &Draft, profile: usize, place: usize) -> f64 {
    let [power, current, voltage] = [16, 24, 32].map(|at| f64_at(&draft.chargers[place], at));
    points(&draft.profiles[profile])[0].1.min(current * voltage / 1_000.0).min(power)
}

/// It charges for some rounds at its request, and is then parked for none, a few or many.
fn car(draw: &mut Draw, draft: &Draft, profile: usize, request: f64) -> Car {
    let start = draw.pick(&[0.0, 0.0, 0.25, 0.5]);
    let rounds = draw.among(0, 60) as f64;
    let energy = request * rounds / 3_600.0;
    Car {
        profile: profile as u32,
        start,
        target: (start + energy / f64_at(&draft.profiles[profile], 8)).min(1.0),
        idle: draw.pick(&[0.0, 0.0, 20.0, 200.0]),
        wait: draw.pick(&[0, 100, 300]),
        ..Car::default()
    }
}

/// A limit about the requests' sum or that of the first ones, or one that binds, by a little or hard.
fn limit(draw: &mut Draw, requests: &[u64]) -> f64 {
    let sum: u64 = requests.iter().sum();
    let first = requests[..draw.among(1, requests.len() as u64) as usize].iter().sum();
    let limit = match draw.below(12) {
        0 => sum,
        1 => sum + 1,
        2 => sum - 1,
        3 => sum - draw.below(sum.min(40)),
        4 => draw.pick(&[first, first + 1, first - 1]),
        5 => sum + draw.below(2 * sum),
        6 => sum / requests.len() as u64,
        _ => draw.among(sum / 20, sum),
    };
    let limit = at_least(limit.clamp(125, 65_536_000));
    draw.pick(&[limit, limit, limit.next_down(), limit + 0.000_5]).clamp(0.125, 65_536.0)
}

/// The least float of so many whole watts.
pub fn at_least(wanted: u64) -> f64 {
    let power = wanted as f64 / 1_000.0;
    if watts(power) < wanted { power.next_up() } else { power }
}
