//! Request 10's shares by themselves: lists of requests that share a limit, as the program `share_vectors` reads and answers them.
use crate::draw::Draw;
use crate::generate::shares::{about, at_least};
use original::shares::{kilowatts, shares, watts};
use std::fmt::Display;

/// The most requests of a list.
pub const MOST_REQUESTS: u64 = 32;
/// The largest limit and request, in kilowatts.
pub const MOST_POWER: f64 = 65_536.0;
const MOST_WATTS: u64 = 65_536_000;

/// Requests in watts that the product goes over thirteen times under the limit beside them: most stand right above the levels
/// that it finds on its way.
pub fn most_passes() -> (Vec<u64>, u64) {
    let counts = [4, 7, 4, 2, 3, 4, 1, 3, 1, 1, 1, 1];
    let watts =
        [7_000, 400_001, 456_143, 474_857, 479_261, 479_848, 479_994, 480_067, 480_077, 480_085, 480_087, 1_000_000];
    let requests = counts.into_iter().zip(watts).flat_map(|(count, watts)| std::iter::repeat_n(watts, count));
    (requests.collect(), 12_800_000)
}

/// A limit and the requests that share it, in kilowatts.
#[derive(Clone, Debug, PartialEq)]
pub struct List {
    pub limit: f64,
    pub requests: Vec<f64>,
}

impl List {
    /// The least floats of so many whole watts.
    pub fn of_watts(requests: &[u64], limit: u64) -> Self {
        Self { limit: at_least(limit), requests: requests.iter().copied().map(at_least).collect() }
    }

    /// Requests of several sizes, and a limit below, at and above their sum.
    pub fn drawn(draw: &mut Draw) -> Self {
        let count = draw.among(0, MOST_REQUESTS);
        let requests = drawn_requests(draw, count);
        let limit = drawn_limit(draw, &requests);
        Self { limit, requests }
    }

    /// Number of requests, limit, requests.
    pub fn bytes(&self) -> Vec<u8> {
        let powers = [self.limit].into_iter().chain(self.requests.iter().copied());
        [self.requests.len() as u8].into_iter().chain(powers.flat_map(f64::to_le_bytes)).collect()
    }

    pub fn requested(&self) -> Vec<u64> {
        self.requests.iter().map(|request| watts(*request)).collect()
    }

    /// The limit's whole watts, then of each request the share, in whole watts and as the bits of kilowatts.
    pub fn answer(&self) -> Vec<u8> {
        let limit = watts(self.limit);
        let shares = shares(&self.requested(), limit);
        let shares = shares.into_iter().flat_map(|share| [share, kilowatts(share).to_bits()]);
        [limit].into_iter().chain(shares).flat_map(u64::to_le_bytes).collect()
    }
}

/// Mostly of one size at most, and some of them equal; now and then any bits.
pub fn drawn_requests(draw: &mut Draw, count: u64) -> Vec<f64> {
    // 32 requests of 2,048 kW are the largest limit.
    let most = draw.pick(&[1, 3, 10, 1_000, 1_024_000, 2_048_000, MOST_WATTS]);
    let equal = draw.among(0, most);
    let any_bits = draw.one_in(16);
    let mut request = || {
        if any_bits || draw.one_in(16) {
            return bits(draw);
        }
        let watts = match draw.below(4) {
            0 => equal,
            1 => draw.among(0, most.min(40)),
            _ => draw.among(0, most),
        };
        about(draw, watts).clamp(0.0, MOST_POWER)
    };
    (0..count).map(|_| request()).collect()
}

/// Any power in range: of any exponent, of at least about half a watt, or subnormal.
fn bits(draw: &mut Draw) -> f64 {
    let [half, normal] = [0.000_5, f64::MIN_POSITIVE].map(f64::to_bits);
    f64::from_bits(match draw.below(4) {
        0 => draw.among(0, MOST_POWER.to_bits()),
        1 => draw.below(normal),
        _ => draw.among(half, MOST_POWER.to_bits()),
    })
}

fn drawn_limit(draw: &mut Draw, requests: &[f64]) -> f64 {
    let sum: u64 = requests.iter().map(|request| watts(*request)).sum();
    let count = requests.len() as u64;
    let limit = match draw.below(12) {
        0 => sum,
        1 => sum + 1,
        2 => sum.saturating_sub(1),
        3 => draw.among(0, 40),
        4 => draw.among(0, count),
        5 => sum / count.max(1),
        6 => sum + draw.among(0, sum),
        7 => return bits(draw),
        _ => draw.among(0, sum.min(MOST_WATTS)),
    };
    let limit = at_least(limit.min(MOST_WATTS));
    draw.pick(&[limit, limit, limit.next_down(), limit.next_up(), limit + 0.000_5]).clamp(0.0, MOST_POWER)
}

/// The record of lists: their number, and one after the other.
pub fn record(lists: &[List]) -> Vec<u8> {
    let number = (lists.len() as u32).to_le_bytes();
    number.into_iter().chain(lists.iter().flat_map(List::bytes)).collect()
}

/// The lists that the output answers otherwise, and in words what each is and what differs. What stands behind the last answer is
/// a part of it.
pub fn differences(lists: &[List], output: &[u8]) -> Vec<(usize, String)> {
    let mut differences = Vec::new();
    let mut left = output;
    for (k, list) in lists.iter().enumerate() {
        let wanted = list.answer();
        let end = if k + 1 == lists.len() { left.len() } else { left.len().min(wanted.len()) };
        let (got, behind) = left.split_at(end);
        left = behind;
        if wanted != got {
            let [wanted, got] = [&wanted, got].map(told);
            differences.push((k, format!("{}\n  wanted {wanted}\n  got {got}", described(list))));
        }
    }
    differences
}

fn described(list: &List) -> String {
    let List { limit, requests } = list;
    let (limit_watts, watts) = (watts(*limit), list.requested());
    format!("{limit:?} kW ({limit_watts} W) for the requests {requests:?} kW ({watts:?} W)")
}

/// An answer in words, as far as it goes.
fn told(answer: &[u8]) -> String {
    let numbers: Vec<u64> =
        answer.chunks_exact(8).map(|number| u64::from_le_bytes(number.try_into().unwrap())).collect();
    let Some((limit, shares)) = numbers.split_first() else { return format!("{} bytes", answer.len()) };
    let shares: Vec<String> = shares.chunks(2).map(share).collect();
    format!("{} bytes: the limit {limit} W; the shares {}", answer.len(), shares.join(", "))
}

fn share(numbers: &[u64]) -> String {
    let power = numbers.get(1).map_or("nothing".into(), |bits| format!("{:?}", f64::from_bits(*bits)));
    format!("{} W ({power} kW)", numbers[0])
}

/// How many lists were compared, and of which kinds.
#[derive(Default)]
pub struct Tally {
    empty: u64,
    fit: u64,
    exceed: u64,
    /// Of those that exceed the limit: fewer watts than requests.
    few: u64,
    /// Some power's product with 1,000, rounded, has more whole watts than the power.
    rounded: u64,
}

impl Tally {
    pub fn add(&mut self, list: &List) {
        let (limit, requested) = (watts(list.limit), list.requested());
        let exceed = requested.iter().sum::<u64>() > limit;
        let rounded = |power: &f64| (1_000.0 * power) as u64 > watts(*power);
        self.empty += u64::from(requested.is_empty());
        self.fit += u64::from(!requested.is_empty() && !exceed);
        self.exceed += u64::from(exceed);
        self.few += u64::from(exceed && limit < requested.len() as u64);
        self.rounded += u64::from(list.requests.iter().chain([&list.limit]).any(rounded));
    }
}

impl Display for Tally {
    fn fmt(&self, f: &mut std::fmt::Formatter<'_>) -> std::fmt::Result {
        let Self { empty, fit, exceed, few, rounded } = self;
        write!(
            f,
            "{empty} of no request, {fit} whose requests fit, {exceed} whose requests exceed the limit, {few} of these with \
             fewer watts than requests; {rounded} with a power whose rounded product has a watt more"
        )
    }
}
