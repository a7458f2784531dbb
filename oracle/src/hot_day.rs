//! Request 13, hot-day rating, tried on generated pairs of caps: the lower cap's duration is not below the other's, its
//! peak not above, and the energy has the same bits.
use crate::draw::Draw;

/// Duration, energy and peak.
pub type Charged = [f64; 3];

/// What is charged, and the two caps, the lower one first.
#[derive(Clone, Debug)]
pub struct Pair {
    pub points: Vec<(f64, f64)>,
    pub battery: f64,
    pub start: f64,
    pub target: f64,
    pub caps: [f64; 2],
}

/// What a pair is like, for the counts.
#[derive(Clone, Copy, Default)]
pub struct Kinds {
    /// The caps are at most four bit patterns apart, and not equal.
    pub near: bool,
    /// Start, target or a point has a subnormal SOC.
    pub subnormal: bool,
}

/// Refusal 12 would not name a pair with this duration.
pub fn in_time(charged: &Charged) -> bool {
    (0.0..=604_800.0).contains(&charged[0])
}

/// What breaks the law, if something does.
pub fn broken(low: &Charged, high: &Charged) -> Option<&'static str> {
    if low[0] < high[0] {
        return Some("the lower cap's duration is below");
    }
    if low[2] > high[2] {
        return Some("the lower cap's peak is above");
    }
    (low[1].to_bits() != high[1].to_bits()).then_some("the energies differ")
}

pub fn pair(seed: u64, index: u64) -> (Pair, Kinds) {
    let draw = &mut Draw::new(seed, index);
    let points = curve(draw);
    let start = soc(draw, &points);
    let target = soc(draw, &points);
    let (start, target) = if start <= target { (start, target) } else { (target, start) };
    let caps = caps(draw, &points);
    let kinds = Kinds {
        near: caps[0] != caps[1] && caps[1].to_bits() - caps[0].to_bits() <= 4,
        subnormal: [start, target].into_iter().chain(points.iter().map(|point| point.0)).any(f64::is_subnormal),
    };
    (Pair { points, battery: battery(draw), start, target, caps }, kinds)
}

/// Points of different SOC in no particular order: 1 to 30, mostly few.
fn curve(draw: &mut Draw) -> Vec<(f64, f64)> {
    let most = draw.pick(&[2, 4, 8, 30]);
    let count = draw.among(1, most);
    let kind = draw.below(5);
    let mut curve: Vec<(f64, f64)> = Vec::new();
    for _ in 0..count {
        let soc = match kind {
            0 => draw.below(101) as f64 / 100.0,
            1 if !draw.one_in(4) => f64::from_bits(draw.below(40)),
            2 if !curve.is_empty() && !draw.one_in(4) => {
                f64::from_bits(draw.pick(&curve).0.to_bits() + draw.below(40)).min(1.0)
            }
            _ => draw.float(0.0, 1.0),
        };
        if curve.iter().all(|point| point.0 != soc) {
            curve.push((soc, power(draw)));
        }
    }
    curve
}

fn power(draw: &mut Draw) -> f64 {
    match draw.below(8) {
        0..=2 => draw.pick(&[11.0, 22.0, 50.0, 75.0, 100.0, 150.0, 250.0, 350.0]),
        3..=5 => draw.float(0.125, 400.0),
        6 => draw.float(0.125, 1.0),
        _ => draw.pick(&[0.125, 0.32, 1.0, 1_024.0]),
    }
}

fn battery(draw: &mut Draw) -> f64 {
    if draw.one_in(3) { draw.pick(&[1.0, 50.0, 64.0, 1_024.0]) } else { draw.float(1.0, 120.0) }
}

/// A start or a target: anywhere, at a point, a few bit patterns from one, or subnormal.
fn soc(draw: &mut Draw, points: &[(f64, f64)]) -> f64 {
    match draw.below(6) {
        0 => draw.pick(points).0,
        1 => f64::from_bits(draw.pick(points).0.to_bits() + draw.below(8)).min(1.0),
        2 => f64::from_bits(draw.below(40)),
        3 => draw.pick(&[0.0, 0.2, 0.8, 1.0]),
        _ => draw.float(0.0, 1.0),
    }
}

/// Two positive caps: a few bit patterns apart, or any; also those that no rating gives.
fn caps(draw: &mut Draw, points: &[(f64, f64)]) -> [f64; 2] {
    let one = cap(draw, points);
    let other = match draw.below(3) {
        0 => f64::from_bits(one.to_bits() + draw.among(1, 4)).min(f64::MAX),
        1 => one * draw.float(0.5, 1.0),
        _ => cap(draw, points),
    };
    let other = if other > 0.0 { other } else { one };
    if one <= other { [one, other] } else { [other, one] }
}

fn cap(draw: &mut Draw, points: &[(f64, f64)]) -> f64 {
    match draw.below(8) {
        0 => draw.pick(points).1,
        1 => f64::from_bits(draw.pick(points).1.to_bits() + draw.below(8)),
        2 => draw.pick(&[f64::MAX, 1e9, 0.125, 1e-3, 1e-9, f64::from_bits(1)]),
        3 => (draw.float(1.0, 500.0) * draw.float(1.0, 1_000.0) / 1000.0).min(draw.float(0.125, 1_024.0)),
        4 => draw.float(0.125, 2.0),
        _ => draw.float(0.125, 400.0),
    }
}
