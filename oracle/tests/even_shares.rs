//! Request 10, even shares of the limit: its text, and points 13 and 14 of document 02 read closely.
mod common;

use common::dumps::{continued, dumped, unbroken};
use common::{ENOUGH, EVENTS, STEPS, bay, brief, checked, events, run, steps};
use oracle::accounts::{Run, one_run};
use oracle::bay::shared;
use oracle::blocks::put_f64;
use oracle::draft::{Car, Draft, charger, profile};
use oracle::draw::Draw;
use oracle::generate::{self, Case};
use original::shares::{caps, kilowatts, level, shares, watts};

mod the_watts {
    use super::*;

    /// The sign of a product and sum that are rounded once, together, is that of the exact ones.
    fn is_greatest(power: f64, watts: u64) -> bool {
        let above = |watts: u64| power.mul_add(1_000.0, -(watts as f64));
        above(watts) >= 0.0 && above(watts + 1) < 0.0
    }

    #[test]
    fn of_some_powers() {
        let whole =
            [(0.0, 0), (0.125, 125), (0.001, 1), (0.1, 100), (1.0, 1_000), (50.0, 50_000), (65_536.0, 65_536_000)];
        let below =
            [(0.3, 299), (1.001, 1_000), (0.999_999, 999), (1.0_f64.next_down(), 999), (5e-324, 0), (0.000_9, 0)];
        for (power, expected) in whole.into_iter().chain(below) {
            assert_eq!(watts(power), expected, "{power:?} kW");
        }
    }

    /// 0.3 lies below 3/10: its thousandfold is below 300 by 1.1e-14, and rounds to 300.
    #[test]
    fn are_not_those_of_the_float_product() {
        let below = [(0.3, 299), (0.203_f64.next_down(), 202), (0.234_f64.next_down(), 233), (65_535.998, 65_535_997)];
        for (power, exact) in below {
            assert_eq!((watts(power), (1_000.0 * power) as u64), (exact, exact + 1), "{power:?} kW");
            assert!(is_greatest(power, exact));
        }
    }

    #[test]
    fn are_the_greatest_whole_number_not_above() {
        let mut draw = Draw::new(10, 1);
        for k in 0..300_000 {
            let whole = kilowatts(draw.below(70_000_000));
            let power = match k % 6 {
                0 => whole.next_down().max(0.0),
                1 => whole.next_up(),
                2 => draw.float(0.125, 65_536.0),
                3 => draw.float(0.0, 2.0),
                4 => f64::from_bits(draw.below(65_536_f64.to_bits())),
                _ => whole,
            };
            assert!(is_greatest(power, watts(power)), "{power:?} kW");
        }
    }

    /// One rounded division: the product with a thousandth is another number, first for 9 W.
    #[test]
    fn go_back_by_a_division() {
        assert_eq!((kilowatts(9), 9.0 * 0.001), (0.009, 0.009_000_000_000_000_001));
        assert_eq!([0, 1, 299, 334, 65_536_000].map(kilowatts), [0.0, 0.001, 0.299, 0.334, 65_536.0]);
    }
}

mod the_shares {
    use super::*;

    #[test]
    fn of_some_lists() {
        let third = [1_000; 3];
        assert_eq!(shares(&third, 1_000), [334, 333, 333]);
        let mixed = [100, 500, 900];
        assert_eq!(shares(&mixed, 1_000), [100, 450, 450]);
        assert_eq!(shares(&mixed, 1_001), [100, 451, 450]);
        assert_eq!(shares(&mixed, 1_499), [100, 500, 899]);
        assert_eq!(shares(&mixed, 1_500), mixed);
        assert_eq!(shares(&mixed, 65_536_000), mixed);
        assert_eq!(shares(&[900, 500, 100], 1_001), [451, 450, 100]);
        assert_eq!(shares(&[100, 400, 900], 1_000), [100, 400, 500]);
        assert_eq!([level(&third, 1_000), level(&mixed, 1_001), level(&mixed, 1_499)], [333, 450, 899]);
    }

    #[test]
    fn of_few_watts() {
        assert_eq!(shares(&[5, 0, 5, 5], 2), [1, 0, 1, 0], "fewer watts than cars");
        assert_eq!(shares(&[5, 0, 5, 5], 0), [0; 4]);
        assert_eq!(shares(&[0, 0, 1], 0), [0; 3]);
        assert_eq!(shares(&[0, 0, 0], 0), [0; 3]);
        assert_eq!(shares(&[0, 0, 0], 125), [0; 3]);
        assert_eq!(shares(&[7], 6), [6]);
        assert_eq!(shares(&[7], 7), [7]);
        assert!(shares(&[], 0).is_empty() && shares(&[], 125).is_empty());
    }

    /// Up to 32 requests of several sizes, and a limit below, at and above their sum.
    fn list(draw: &mut Draw) -> (Vec<u64>, u64) {
        let most = draw.pick(&[1, 3, 10, 1_000, 1_024_000, 1 << 50]);
        let equal = draw.among(0, most);
        let request = |draw: &mut Draw| match draw.below(4) {
            0 => equal,
            1 => draw.among(0, most.min(40)),
            _ => draw.among(0, most),
        };
        let requests: Vec<u64> = (0..draw.among(0, 32)).map(|_| request(draw)).collect();
        let sum: u64 = requests.iter().sum();
        let limit = match draw.below(8) {
            0 => sum,
            1 => sum + 1,
            2 => sum.saturating_sub(1),
            3 => draw.among(0, 40),
            4 => sum / (requests.len() as u64).max(1),
            _ => draw.among(0, sum),
        };
        (requests, limit)
    }

    #[test]
    fn keep_the_laws() {
        let mut draw = Draw::new(10, 2);
        let mut bound = 0;
        for _ in 0..60_000 {
            let (requests, limit) = list(&mut draw);
            let shares = shares(&requests, limit);
            let sum: u64 = requests.iter().sum();
            assert_eq!(shares.len(), requests.len());
            assert_eq!(shares.iter().sum::<u64>(), sum.min(limit), "{requests:?} of {limit}");
            assert!(shares.iter().zip(&requests).all(|(share, request)| share <= request));
            for short in (0..shares.len()).filter(|k| shares[*k] < requests[*k]) {
                assert!(shares.iter().all(|share| *share <= shares[short] + 1), "{requests:?} of {limit}");
                assert!(shares[short..].iter().all(|share| *share <= shares[short]), "{requests:?} of {limit}");
            }
            bound += u32::from(sum > limit);
        }
        assert!(bound > 30_000);
    }

    #[test]
    fn are_cut_at_the_largest_level() {
        let mut draw = Draw::new(10, 3);
        for _ in 0..60_000 {
            let (requests, limit) = list(&mut draw);
            let cut = |level: u64| requests.iter().map(|request| level.min(*request)).sum::<u64>();
            if cut(u64::MAX) > limit {
                let level = level(&requests, limit);
                assert!(cut(level) <= limit && limit < cut(level + 1), "{requests:?} of {limit}");
                let shares = shares(&requests, limit);
                assert!(shares.iter().zip(&requests).all(|(share, request)| level.min(*request) <= *share));
                assert!(shares.iter().all(|share| *share <= level + 1));
            }
        }
    }

    /// Each watt of the limit to the one with the fewest among those still short, the first of several.
    fn watt_by_watt(requests: &[u64], limit: u64) -> Vec<u64> {
        let mut shares = vec![0; requests.len()];
        for _ in 0..limit {
            let short = (0..shares.len()).filter(|k| shares[*k] < requests[*k]);
            let Some(place) = short.min_by_key(|k| shares[*k]) else { break };
            shares[place] += 1;
        }
        shares
    }

    #[test]
    fn are_those_given_watt_by_watt() {
        let mut draw = Draw::new(10, 4);
        for _ in 0..20_000 {
            let (mut requests, limit) = list(&mut draw);
            requests.iter_mut().for_each(|request| *request %= 60);
            let limit = limit % 600;
            assert_eq!(shares(&requests, limit), watt_by_watt(&requests, limit), "{requests:?} of {limit}");
        }
    }

    #[test]
    fn are_caps_in_kilowatts() {
        assert_eq!(caps(&[1.0; 3], 1.0), [0.334, 0.333, 0.333]);
        assert_eq!(caps(&[0.3], 65_536.0), [0.299]);
        assert_eq!(caps(&[0.3, 0.3], 0.3), [0.15, 0.149]);
        assert!(caps(&[], 50.0).is_empty());
    }
}

mod lists_by_themselves {
    use super::*;
    use oracle::share_lists::{List, MOST_POWER, differences, record};
    use std::cmp::Ordering::{Equal, Greater, Less};

    fn drawn(count: u64) -> Vec<List> {
        (0..count).map(|index| List::drawn(&mut Draw::new(10, index))).collect()
    }

    fn answers(lists: &[List]) -> Vec<u8> {
        lists.iter().flat_map(List::answer).collect()
    }

    #[test]
    fn are_answered_by_watts_and_kilowatts() {
        let list = List { limit: 0.3, requests: vec![0.3, 0.3] };
        let numbers = [299, 150, 0.15_f64.to_bits(), 149, 0.149_f64.to_bits()];
        assert_eq!(list.answer(), numbers.map(u64::to_le_bytes).concat());
        assert_eq!(List { limit: 50.0, requests: vec![] }.answer(), 50_000_u64.to_le_bytes());
    }

    #[test]
    fn are_recorded_by_count_limit_and_requests() {
        // 0.3 is below 300 W.
        let list = List::of_watts(&[300, 125], 1_000);
        assert_eq!(list, List { limit: 1.0, requests: vec![0.3_f64.next_up(), 0.125] });
        let powers = [1.0, 0.3_f64.next_up(), 0.125].map(f64::to_le_bytes).concat();
        assert_eq!(record(&[list]), [&[1, 0, 0, 0, 2], &powers[..]].concat());
        assert_eq!(record(&[]), [0; 4]);
    }

    #[test]
    fn are_drawn_in_range_and_of_every_length() {
        let lists = drawn(5_000);
        let in_range = |power: &f64| power.is_sign_positive() && *power <= MOST_POWER;
        assert!(lists.iter().all(|list| in_range(&list.limit) && list.requests.iter().all(in_range)));
        assert!((0..=32).all(|count| lists.iter().filter(|list| list.requests.len() == count).count() > 50));
        let compared = |list: &List| list.requested().iter().sum::<u64>().cmp(&watts(list.limit));
        let kinds = [Less, Equal, Greater].map(|kind| lists.iter().filter(|list| compared(list) == kind).count());
        assert!(kinds.iter().all(|count| *count > 300), "{kinds:?}");
    }

    #[test]
    fn differ_where_the_output_does() {
        let lists = drawn(12);
        let output = answers(&lists);
        assert!(differences(&lists, &output).is_empty());
        for at in 0..output.len() {
            let mut wrong = output.clone();
            wrong[at] ^= 1;
            let found = differences(&lists, &wrong);
            let before = (0..lists.len()).filter(|k| answers(&lists[..=*k]).len() <= at).count();
            assert_eq!(found.iter().map(|(k, _)| *k).collect::<Vec<usize>>(), [before], "byte {at}");
        }
        assert_eq!(differences(&lists, &output[..output.len() - 1]).len(), 1);
        assert_eq!(differences(&lists, &[&output[..], &[0]].concat()).len(), 1);
        assert_eq!(differences(&lists, &[]).len(), lists.len());
    }
}

/// A car for each request, at a charger of its own.
fn apart(requests: &[f64]) -> Draft {
    let mut draft = bay(&vec![brief(0, 0, 0); requests.len()]);
    draft.profiles.clear();
    draft.chargers.clear();
    for (k, request) in (1..).zip(requests) {
        // Their curves are the first sixteen's in turn.
        if k <= 16 {
            draft.profiles.push(profile(k, 50.0, &[(0.5, *request)]));
        }
        draft.chargers.push(charger(k, &[], 1_024.0, 4_096.0, 4_096.0));
        draft.vehicles[k as usize - 1] = Car { id: k, profile: (k - 1) % 16 + 1, ..brief(0, 0, 0) }.block();
    }
    draft
}

/// The power of each car in its only round.
fn powers(draft: &Draft) -> Vec<f64> {
    let ran = steps(draft);
    (1..=draft.vehicles.len() as u32).map(|id| ran.of(id).peak.unwrap()).collect()
}

fn shared_by(requests: &[f64], limit: f64) -> Vec<f64> {
    let mut draft = apart(requests);
    draft.set_even_shares(limit);
    powers(&draft)
}

mod a_run_by_steps {
    use super::*;

    #[test]
    fn of_two_cars_under_a_limit_that_binds() {
        assert_eq!(shared_by(&[10.0, 50.0], 40.0), [10.0, 30.0]);
        assert_eq!(shared_by(&[50.0, 10.0], 40.0), [30.0, 10.0]);
        assert_eq!(shared_by(&[50.0, 50.0], 40.0), [20.0, 20.0]);
        let mut scaled = apart(&[10.0, 50.0]);
        scaled.set_limit(40.0);
        assert_eq!(powers(&scaled), [10.0 * (40.0 / 60.0), 50.0 * (40.0 / 60.0)]);
        let mut draft = apart(&[10.0, 50.0]);
        draft.set_even_shares(40.0);
        assert_eq!(steps(&draft).of(2).energy, Some(30.0 * (1.0 / 3_600.0)));
    }

    #[test]
    fn gives_whole_watts_where_the_requests_fit() {
        assert_eq!(shared_by(&[0.3], 65_536.0), [0.299]);
        assert_eq!(shared_by(&[0.3, 10.000_9, 50.0], 65_536.0), [0.299, 10.0, 50.0]);
        let mut free = apart(&[0.3]);
        assert_eq!(powers(&free), [0.3], "mode 0");
        free.set_limit(65_536.0);
        assert_eq!(powers(&free), [0.3], "mode 1");
    }

    #[test]
    fn goes_by_the_whole_watts_of_the_limit() {
        assert_eq!(shared_by(&[0.5], 0.3), [0.299]);
        assert_eq!(shared_by(&[0.25, 0.25], 0.5), [0.25, 0.25]);
        assert_eq!(shared_by(&[0.25, 0.25], 0.5_f64.next_down()), [0.25, 0.249]);
        assert_eq!(shared_by(&[0.3, 0.3], 0.598_f64.next_up()), [0.299, 0.299], "the powers' sum is above");
    }

    #[test]
    fn gives_left_over_watts_by_charger_place() {
        assert_eq!(shared_by(&[1.0; 3], 1.0), [0.334, 0.333, 0.333]);
        // Car 1 charges all along; car 2 comes for one round, at the first charger or at the second.
        for (code, power) in [(1, 25.001), (2, 25.0)] {
            let on = |code, car: Car| Car { codes: vec![code], ..car };
            let long = Car { start: 0.0, target: 0.5, ..brief(0, 0, 0) };
            let mut draft = bay(&[on(3 - code, long), on(code, brief(1, 0, 0))]);
            draft.chargers = [1, 2].map(|id| charger(id, &[id as u8], 50.0, 1_200.0, 400.0)).to_vec();
            draft.set_even_shares(kilowatts(50_001).next_up());
            assert_eq!(steps(&draft).of(2).peak, Some(power));
        }
    }

    #[test]
    fn caps_a_request_by_its_charger_and_lead() {
        let rated = |change: fn(&mut Draft)| {
            let mut draft = apart(&[50.0, 50.0]);
            draft.set_even_shares(40.0);
            change(&mut draft);
            powers(&draft)
        };
        assert_eq!(rated(|draft| put_f64(&mut draft.chargers[0], 16, 10.0)), [10.0, 30.0], "max power");
        assert_eq!(rated(|draft| draft.chargers[1] = charger(2, &[], 1_024.0, 25.0, 400.0)), [30.0, 10.0], "current");
        let lead = |draft: &mut Draft| {
            draft.chargers[0] = charger(1, &[], 1_024.0, 1_200.0, 400.0);
            put_f64(&mut draft.chargers[0], 72, 25.0);
        };
        assert_eq!(rated(lead), [10.0, 30.0], "the lead's cap");
    }

    #[test]
    fn leaves_parked_cars_without_a_share() {
        let peaks = |limit| {
            let ran = steps(&shared(limit));
            [1, 2, 3].map(|id| ran.of(id).peak.unwrap())
        };
        assert_eq!(peaks(1.0), [0.1, 0.45, 0.45]);
        assert_eq!(peaks(1.001), [0.1, 0.45, 0.45], "1.001 is below 1,001 W");
        assert_eq!(peaks(1.001_f64.next_up()), [0.1, 0.451, 0.45]);
        assert_eq!(peaks(1.499_f64.next_up()), [0.1, 0.5, 0.899]);
        assert_eq!(peaks(1.5), [0.1, 0.5, 0.9]);
        assert_eq!(steps(&shared(0.125)).of(4).peak, Some(0.125), "alone in second 0");
    }

    /// The rounds in which a battery of 1 kWh goes from 0.5 to 0.51.
    fn rounds(power: f64) -> u64 {
        let (mut soc, mut rounds) = (0.5, 0);
        while soc < 0.51 {
            soc += power * (1.0 / 3_600.0);
            rounds += 1;
        }
        rounds
    }

    /// Cars 2 and 3 share what car 1 leaves; where they end together, car 1 goes on at its request.
    #[test]
    fn takes_as_long_as_the_shares_say() {
        for (limit, powers) in [(1.0, [0.1, 0.45, 0.45]), (1.5, [0.1, 0.5, 0.9]), (65_536.0, [0.1, 0.5, 0.9])] {
            let ran = steps(&shared(limit));
            for (id, power) in (1..).zip(powers) {
                assert_eq!(ran.of(id).unplug, Some(1 + rounds(power)), "car {id} of {limit} kW");
            }
        }
    }

    #[test]
    fn gives_a_car_more_once_another_is_full() {
        let mut draft = bay(&[Car { target: 0.26, ..Car::default() }, Car::default()]);
        draft.chargers.push(charger(2, &[], 50.0, 1_200.0, 400.0));
        draft.set_even_shares(50.0);
        let ran = steps(&draft);
        assert_eq!((ran.of(1).peak, ran.of(2).peak), (Some(25.0), Some(50.0)));
        // 0.5 kWh of each at 25 kW, the rest of car 2's 25 kWh at 50 kW; rounded sums may take a round more.
        let rounds = [1, 2].map(|id| ran.of(id).unplug.unwrap() + 1 - 100 - 120);
        assert!((72..=73).contains(&rounds[0]) && (1_836..=1_837).contains(&rounds[1]), "{rounds:?}");
    }

    #[test]
    fn of_32_cars_at_the_least_limit() {
        assert_eq!(shared_by(&[1.0; 32], 0.125), [vec![0.004; 29], vec![0.003; 3]].concat());
        let mut requests: Vec<f64> = (0..16).map(|k| 10.0 + f64::from(k)).collect();
        requests.extend(requests.clone());
        let sum: f64 = requests.iter().sum();
        assert_eq!(shared_by(&requests, sum), requests, "1,120 kW in all");
        let cut: Vec<f64> = requests.iter().map(|request| request.min(20.0)).collect();
        assert_eq!(shared_by(&requests, cut.iter().sum()), cut, "level 20 kW");
    }

    #[test]
    fn of_cars_that_all_are_parked() {
        let mut draft = apart(&[50.0, 50.0]);
        draft.vehicles = [1, 2].map(|id| Car { id, profile: id, idle: 10.0, ..brief(0, 0, 0) }.block()).to_vec();
        draft.set_even_shares(0.125);
        let ran = steps(&draft);
        assert_eq!((ran.of(1).peak, ran.of(2).peak, ran.ended()), (Some(0.063), Some(0.062), true));
    }

    #[test]
    fn is_that_of_mode_1_where_equal_requests_share_whole_watts() {
        for cars in [1, 2, 5, 10] {
            let mut draft = apart(&vec![64.0; cars]);
            draft.set_limit(8.0 * cars as f64);
            let scaled = powers(&draft);
            draft.set_even_shares(8.0 * cars as f64);
            assert_eq!((powers(&draft), scaled), (vec![8.0; cars], vec![8.0; cars]));
        }
    }

    #[test]
    fn keeps_what_must_hold_of_every_run() {
        let mut ended = 0;
        for index in 0..400 {
            let case = generate::shaped("even shares", &mut Draw::new(10, index));
            let case = Case { engine: STEPS, allowance: case.allowance.min(ENOUGH), ..case };
            let run = Run::new(&case.plan, STEPS, case.allowance);
            one_run(&case, &run).unwrap_or_else(|what| panic!("case {index}: {what}"));
            ended += run.numbers[4];
        }
        assert!(ended > 150);
    }
}

mod a_run_by_events {
    use super::*;

    fn without_limit(draft: &Draft) -> Draft {
        let mut free = draft.clone();
        free.header[12..24].fill(0);
        free
    }

    #[test]
    fn goes_by_no_limit() {
        for limit in [0.125, 0.3, 1.0, 65_536.0] {
            let plan = shared(limit);
            let [even, free] = [&plan, &without_limit(&plan)].map(|plan| unbroken(&plan.bytes(), ENOUGH));
            assert!(even == free);
        }
        assert_eq!(events(&shared(0.125)).of(3).peak, Some(0.9));
        let mut accepted = 0;
        for index in 0..200 {
            let case = generate::shaped("even shares", &mut Draw::new(11, index));
            let free = without_limit(&Draft::of(&case.plan).unwrap()).bytes();
            let allowance = case.allowance.min(ENOUGH);
            let [even, free] = [&case.plan, &free].map(|plan| Run::new(plan, EVENTS, allowance));
            assert!(even.numbers == free.numbers && even.book == free.book, "case {index}");
            accepted += u32::from(even.numbers[0] == 0);
        }
        assert!(accepted > 150);
    }

    /// A dump names no plan, and its run goes by no limit.
    #[test]
    fn is_dumped_and_continued_as_without() {
        let even = shared(1.0);
        let free = without_limit(&even).bytes();
        for cut in 0..=8 {
            assert!(dumped(&even.bytes(), cut) == dumped(&free, cut));
            assert!(continued(&even.bytes(), &dumped(&free, cut), ENOUGH) == unbroken(&free, ENOUGH));
        }
    }
}

mod refused_by_7 {
    use super::*;

    fn answer(mode: u8, limit: f64) -> [u64; 3] {
        let mut draft = bay(&[Car::default()]);
        draft.set_limit(limit);
        draft.header[12] = mode;
        let numbers = checked(&draft.bytes());
        for engine in [EVENTS, STEPS] {
            assert_eq!(run(&draft, engine, 0).numbers[..3], numbers);
        }
        numbers
    }

    #[test]
    fn a_mode_above_2() {
        for mode in 0..=255 {
            let [with, without] = [(50.0, 1..=2), (0.0, 0..=0)].map(|(limit, modes)| (limit, modes.contains(&mode)));
            for (limit, accepted) in [with, without] {
                assert_eq!(answer(mode, limit), if accepted { [0; 3] } else { [7, 1, 0] }, "mode {mode}, {limit} kW");
            }
        }
    }

    #[test]
    fn a_limit_of_mode_2_as_of_mode_1() {
        let good = [0.125, 0.125_f64.next_up(), 0.3, 50.0, 65_536_f64.next_down(), 65_536.0];
        let low = [0.0, -0.0, 5e-324, 0.125_f64.next_down(), -0.125, -50.0];
        let high = [65_536_f64.next_up(), f64::MAX, f64::INFINITY, -f64::INFINITY, f64::NAN, -f64::NAN];
        for mode in [1, 2] {
            assert!(good.iter().all(|limit| answer(mode, *limit) == [0; 3]));
            assert!(low.iter().chain(&high).all(|limit| answer(mode, *limit) == [7, 1, 0]));
        }
    }

    #[test]
    fn bytes_behind_the_mode() {
        for at in 13..16 {
            let mut draft = shared(1.0);
            draft.header[at] = 1;
            assert_eq!(checked(&draft.bytes()), [7, 1, 0], "byte {at}");
        }
    }
}
