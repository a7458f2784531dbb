//! Records the oracle's shares of lists of requests for a replay without Rust. The README describes the form.
use oracle::draw::Draw;
use oracle::recording::{Reader, folder_and_seed, keep};
use oracle::share_lists::{List, MOST_POWER, MOST_REQUESTS, drawn_requests, most_passes, record};
use original::shares::watts;

/// The replaying program's buffer of the record.
const BUFFER: usize = 65_536;
const DRAWN: u64 = 150;

fn main() {
    let (folder, seed) = folder_and_seed("record_shares FOLDER [SEED]");
    let draw = &mut Draw::new(seed, 0);
    let lists =
        [few_requests(), few_watts(), beside_watts(), edges(), stairs(), about_their_sum(draw), drawn(draw)].concat();
    let input = record(&lists);
    let output: Vec<u8> = lists.iter().flat_map(List::answer).collect();
    assert!(input.len() <= BUFFER, "the record fits the program's buffer");
    assert!(replayed(&input) == output, "the record reads back");
    keep(&folder, lists.len(), &input, &output);
}

/// The same requests under each of these limits, in whole watts.
fn under(requests: &[u64], limits: impl IntoIterator<Item = u64>) -> Vec<List> {
    limits.into_iter().map(|limit| List::of_watts(requests, limit)).collect()
}

/// No request, one, and three.
fn few_requests() -> Vec<List> {
    let mut lists = under(&[], [0, 1, 125, 65_536_000]);
    lists.extend(under(&[0], [0, 1]));
    lists.extend(under(&[7], [0, 1, 6, 7, 8]));
    lists.extend(under(&[1_000; 3], [0, 1, 2, 3, 999, 1_000, 1_001, 2_999, 3_000, 3_001]));
    for requests in [[100, 500, 900], [900, 500, 100], [100, 400, 900]] {
        lists.extend(under(&requests, [299, 300, 301, 1_000, 1_001, 1_499, 1_500, 1_501, 65_536_000]));
    }
    lists
}

/// Fewer watts than requests, or a few more, and requests of 0 W among others.
fn few_watts() -> Vec<List> {
    let mut lists = under(&[5, 0, 5, 5], 0..=16);
    lists.extend(under(&[0, 0, 1], 0..=2));
    lists.extend(under(&[0; 3], [0, 125]));
    lists.extend(under(&[1; 32], [0, 1, 31, 32, 33]));
    lists.extend(under(&[1_000; 32], [1, 31, 32, 33, 125, 31_999, 32_000, 32_001]));
    lists
}

/// Floats at whole watts and next to them; of some the product with 1,000 rounds to a watt more.
fn beside_watts() -> Vec<List> {
    let powers = [0.001, 0.002, 0.009, 0.1, 0.203, 0.234, 0.299, 0.3, 1.0, 1.001, 1.5, 65_535.998, 65_535.999];
    let beside = |power: f64| [power.next_down(), power, power.next_up()];
    let alike = |power: f64| beside(power).map(|limit| List { limit, requests: beside(power).to_vec() });
    let alone = |power: f64| beside(power).map(|request| List { limit: MOST_POWER, requests: vec![request] });
    powers.into_iter().flat_map(|power| alike(power).into_iter().chain(alone(power))).collect()
}

/// The largest limit and requests, each power of two from far below a watt on, and subnormal powers.
fn edges() -> Vec<List> {
    let least = f64::from_bits(1);
    let tiny =
        vec![0.0, least, f64::MIN_POSITIVE.next_down(), f64::MIN_POSITIVE, 0.000_9, 0.001_f64.next_down(), 0.001];
    let mut lists = Vec::from([0.0, least, 0.001, 1.0].map(|limit| List { limit, requests: tiny.clone() }));
    for limit in [0.0, 0.001, 32.0, MOST_POWER.next_down(), MOST_POWER] {
        lists.extend([1, 2, 32].map(|count| List { limit, requests: vec![MOST_POWER; count] }));
    }
    let powers: Vec<f64> = (-13..=16).map(|exponent| 2.0_f64.powi(exponent)).collect();
    for beside in [f64::next_down, f64::next_up, |power| power] {
        let requests: Vec<f64> = powers.iter().map(|power| beside(*power).min(MOST_POWER)).collect();
        lists.extend([1.0, 0.3, 100.0, MOST_POWER].map(|limit| List { limit, requests: requests.clone() }));
    }
    lists
}

/// The list that takes the product the most passes, and its limit a watt to either side.
fn stairs() -> Vec<List> {
    let (requests, limit) = most_passes();
    under(&requests, limit - 1..=limit + 1)
}

/// Lists of every length, under limits of their sum, of one watt beside it, and of about half of it.
fn about_their_sum(draw: &mut Draw) -> Vec<List> {
    let lists = |count| {
        let requests = drawn_requests(draw, count);
        let sum: u64 = requests.iter().map(|request| watts(*request)).sum();
        let half = draw.among(sum / 4, 3 * (sum / 4));
        let limits = [sum.saturating_sub(1), sum, sum + 1, half].map(|limit| limit.min(65_536_000));
        limits.map(|limit| List { limit: List::of_watts(&[], limit).limit, requests: requests.clone() })
    };
    (0..=MOST_REQUESTS).flat_map(lists).collect()
}

fn drawn(draw: &mut Draw) -> Vec<List> {
    (0..DRAWN).map(|_| List::drawn(draw)).collect()
}

/// The record's output, as the replaying program comes to it.
fn replayed(input: &[u8]) -> Vec<u8> {
    let mut reader = Reader(input);
    let power = |reader: &mut Reader| f64::from_bits(reader.number(8) as u64);
    (0..reader.number(4))
        .flat_map(|_| {
            let count = reader.number(1);
            let limit = power(&mut reader);
            List { limit, requests: (0..count).map(|_| power(&mut reader)).collect() }.answer()
        })
        .collect()
}
