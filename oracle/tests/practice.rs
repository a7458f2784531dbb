//! Request 11, a practice day: point 15 of document 02 read closely.
mod common;

use common::{bay, block, brief, checked};
use oracle::blocks::{BLOCK, f64_at, put, u16_at, u32_at, u64_at};
use oracle::draft::{Car, Draft, charger, profile};
use oracle::practice;

/// 113 blocks.
const ENOUGH: usize = 57_856;

/// Number and places of the call, and the day where there is one.
fn asked(plan: &[u8], seed: u32, count: u32, room: usize) -> ([u64; 3], Vec<u8>) {
    let mut out = vec![9; room];
    let numbers = practice(plan, seed, count, &mut out);
    assert_eq!(numbers[3..], [0; 8], "a check's zeros");
    let len = if numbers[0] == 0 { plan.len() + BLOCK * (count as usize - 1) } else { 0 };
    assert!(out[len..].iter().all(|byte| *byte == 9), "bytes past the day stay, and a refusal leaves all");
    out.truncate(len);
    (numbers[..3].try_into().unwrap(), out)
}

fn answer(plan: &[u8], seed: u32, count: u32, room: usize) -> [u64; 3] {
    asked(plan, seed, count, room).0
}

fn day(plan: &[u8], seed: u32, count: u32) -> Vec<u8> {
    let (numbers, day) = asked(plan, seed, count, ENOUGH);
    assert_eq!(numbers, [0, 0, 0]);
    day
}

/// Blocks: header 1, profile 2, charger 3, vehicle 4.
fn one_car() -> Vec<u8> {
    bay(&[Car::default()]).bytes()
}

/// The blocks of the day's cars.
fn cars(day: &[u8]) -> Vec<[u8; BLOCK]> {
    Draft::of(day).expect("a day is a plan").vehicles
}

/// Arrival, 1,024 times the start, and 1,024 times the target of each car.
fn drawn(day: &[u8]) -> Vec<(u64, f64, f64)> {
    let of = |car: &[u8; BLOCK]| (u64_at(car, 40), 1_024.0 * f64_at(car, 16), 1_024.0 * f64_at(car, 24));
    cars(day).iter().map(of).collect()
}

/// Seed 1 gives 270369, 67634689, 2647435461, 307599695, 2398689233, 745495504; these are the cars by them.
const FIRST_CARS: [(u64, f64, f64); 2] = [
    (270_369 % 86_400, (67_634_689 % 512) as f64, (512 + 2_647_435_461_u32 % 512) as f64),
    (307_599_695 % 86_400, (2_398_689_233_u32 % 512) as f64, (512 + 745_495_504 % 512) as f64),
];

mod the_generator {
    use super::*;

    #[test]
    fn draws_what_is_known_of_seed_one() {
        assert_eq!(drawn(&day(&one_car(), 1, 2)), FIRST_CARS);
    }

    #[test]
    fn draws_what_is_known_of_the_seed_in_marsaglias_paper() {
        let draws: [u32; 6] = [723_471_715, 2_497_366_906, 2_064_144_800, 2_008_045_182, 3_532_304_609, 374_114_282];
        let car = |k: usize| {
            let [arrival, start, target] = [draws[k] % 86_400, draws[k + 1] % 512, 512 + draws[k + 2] % 512];
            (u64::from(arrival), f64::from(start), f64::from(target))
        };
        assert_eq!(drawn(&day(&one_car(), 2_463_534_242, 2)), [car(0), car(3)]);
    }

    /// Seed 2^32 - 1 gives 253983, 4228382207, 1958451267, 4056713434, 2049502865, 2560970988.
    #[test]
    fn draws_numbers_without_a_sign() {
        let first = (253_983 % 86_400, f64::from(4_228_382_207_u32 % 512), (512 + 1_958_451_267 % 512) as f64);
        let second = (4_056_713_434 % 86_400, (2_049_502_865 % 512) as f64, f64::from(512 + 2_560_970_988_u32 % 512));
        assert_eq!(drawn(&day(&one_car(), u32::MAX, 2)), [first, second]);
    }

    /// The state before the first step is the seed: seed 270,369, which 1 gives, goes on where seed 1 does.
    #[test]
    fn goes_on_from_a_state_that_is_given_as_seed() {
        let shifted = drawn(&day(&one_car(), 270_369, 1))[0];
        assert_eq!(shifted.0, 67_634_689 % 86_400);
        assert_eq!(shifted.1, f64::from(2_647_435_461_u32 % 512));
        assert_eq!(shifted.2, f64::from(512 + 307_599_695 % 512));
        assert_eq!(drawn(&day(&one_car(), 2_647_435_461, 1))[0], FIRST_CARS[1]);
    }

    /// A step is linear over bits, and modulo 512 leaves the low ones.
    #[test]
    fn adds_up_bit_by_bit() {
        let socs = |seed| drawn(&day(&one_car(), seed, 64)).into_iter().map(|(_, start, target)| [start, target]);
        let bits = |seed| socs(seed).flatten().map(|soc| soc as u32 % 512).collect::<Vec<_>>();
        for (one, other) in [(1, 2), (0x8000_0000, 0x7fff_ffff), (0xdead_beef, 0x1234_5678)] {
            let both: Vec<u32> = bits(one).iter().zip(bits(other)).map(|(a, b)| a ^ b).collect();
            assert_eq!(bits(one ^ other), both);
        }
    }

    #[test]
    fn has_every_seed_but_zero() {
        for seed in [1, 2, 1 << 31, 0x7fff_ffff, u32::MAX] {
            assert_eq!(answer(&one_car(), seed, 1, ENOUGH), [0, 0, 0]);
        }
        let days: Vec<Vec<u8>> = (1..200).map(|seed| day(&one_car(), seed, 1)).collect();
        assert!(days.iter().enumerate().all(|(k, day)| !days[..k].contains(day)), "small seeds differ");
    }
}

mod the_day {
    use super::*;

    #[test]
    fn of_two_cars_block_by_block() {
        let plan = one_car();
        let header = block(&[(0, b"PLAN"), (4, &[1]), (6, &[1]), (8, &[2])], 0x4e42_4c54);
        let car = |fields: &[(usize, &[u8])], check| {
            let all: [(usize, &[u8]); 4] = [(4, &[1]), (38, &[0x5e, 0x40]), (48, &[0x08, 0x07]), (56, &[10])];
            block(&[fields, &all].concat(), check)
        };
        let first: [(usize, &[u8]); 4] =
            [(0, &[1]), (22, &[0x50, 0x3f]), (29, &[0x28, 0xe6, 0x3f]), (40, &[0xa1, 0x2b])];
        let second: [(usize, &[u8]); 4] =
            [(0, &[2]), (21, &[0x10, 0xdd, 0x3f]), (29, &[0x80, 0xee, 0x3f]), (40, &[0x4f, 0x3d])];
        let cars = [car(&first, 0xbf94_5ab9), car(&second, 0xc029_d469)];
        let whole = [&header, &plan[BLOCK..3 * BLOCK], &cars[0], &cars[1]].concat();
        assert!(day(&plan, 1, 2) == whole);
    }

    /// The header with limit, mode and places of fleets, three profiles and two chargers stand as they are.
    #[test]
    fn keeps_the_site() {
        let mut site = bay(&[Car { id: 40, profile: 9, ..Car::default() }]);
        site.set_even_shares(12.5);
        site.set_places(1, 64);
        site.set_places(64, 3);
        site.profiles.push(profile(9, 77.0, &[(0.9, 20.0), (0.1, 60.0)]));
        site.profiles.push(profile(0, 1.0, &[(0.0, 0.125)]));
        site.chargers.push(charger(u32::MAX, &[2, 2, 4], 22.0, 32.0, 230.0));
        put(&mut site.chargers[1], 48, &16.0_f64.to_le_bytes());
        let (plan, day) = (site.bytes(), day(&site.bytes(), 77, 64));
        assert_eq!(day.len(), plan.len() + 63 * BLOCK);
        assert_eq!(u16_at(&day, 8), 64);
        assert!(day[..8] == plan[..8] && day[10..508] == plan[10..508], "the header but for V and check");
        assert!(day[BLOCK..6 * BLOCK] == plan[BLOCK..6 * BLOCK], "profiles and chargers with their checks");
        assert_eq!(checked(&day), [0, 0, 0]);
    }

    /// Of a car only id, arrival, start, target and check are not the vehicle's.
    #[test]
    fn copies_every_other_byte_of_the_vehicle() {
        let vehicle = Car {
            id: 0xffff_ffff,
            codes: vec![5, 1, 5],
            start: 1.0,
            target: 0.0,
            idle: 604_800.0,
            arrival: 1_000_000,
            wait: 999_999,
            queue_limit: u32::MAX,
            fleet: 64,
            ..Car::default()
        };
        let (mut wanted, day) = (vehicle.block(), day(&bay(&[vehicle]).bytes(), 5, 64));
        for (car, id) in cars(&day).iter().zip(1..) {
            assert_eq!(u32_at(car, 0), id);
            for (at, len) in [(0, 4), (16, 16), (40, 8)] {
                put(&mut wanted, at, &car[at..at + len]);
            }
            // A draft's block has no check where the check is right.
            assert!(*car == wanted);
        }
    }

    #[test]
    fn draws_within_its_bounds() {
        let mut seen = [[f64::MAX, f64::MIN]; 3];
        for seed in 1..300 {
            for (arrival, start, target) in drawn(&day(&one_car(), seed, 64)) {
                assert!(arrival < 86_400 && start < 512.0 && (512.0..1_024.0).contains(&target));
                for ([least, most], value) in seen.iter_mut().zip([arrival as f64, start, target]) {
                    (*least, *most) = (least.min(value), most.max(value));
                }
            }
        }
        let [arrival, start, target] = seen;
        assert_eq!([start, target], [[0.0, 511.0], [512.0, 1_023.0]], "both ends of the SOCs are drawn");
        assert!(arrival[0] < 100.0 && arrival[1] > 86_300.0);
    }

    #[test]
    fn is_equal_for_equal_seeds_plans_and_counts() {
        let plan = one_car();
        let written = |seed, before| {
            let mut out = [before; ENOUGH];
            practice(&plan, seed, 64, &mut out);
            out[..plan.len() + BLOCK * 63].to_vec()
        };
        assert!(written(99, 0) == written(99, 0xff));
        assert!(written(99, 0) != written(98, 0));
    }

    /// The vehicle's own id, arrival and SOCs are nowhere in the day.
    #[test]
    fn does_not_go_by_what_is_drawn() {
        let other = Car { id: 7, start: 1.0, target: 1.0, arrival: 5, ..Car::default() };
        let mut plan = bay(&[Car::default()]);
        plan.vehicles[0] = other.block();
        assert!(day(&plan.bytes(), 3, 10) == day(&one_car(), 3, 10));
    }

    #[test]
    fn of_more_cars_begins_with_that_of_fewer() {
        let plan = one_car();
        let most = day(&plan, 31, 64);
        for count in 1..64 {
            let fewer = day(&plan, 31, count);
            assert!(most[BLOCK..fewer.len()] == fewer[BLOCK..]);
            assert_eq!(u16_at(&fewer, 8), count as u16);
        }
    }

    #[test]
    fn of_one_car_is_asked_for_a_day_again() {
        let one = day(&one_car(), 8, 1);
        assert!(day(&one, 8, 1) == one);
        assert!(day(&one, 9, 64) == day(&one_car(), 9, 64));
    }

    /// 16 profiles, 32 chargers and 64 cars: the day has as many bytes as an output must.
    #[test]
    fn fills_the_least_output_at_most() {
        let mut site = bay(&[Car::default()]);
        site.profiles = (1..=16).map(|id| profile(id, 50.0, &[(0.5, 50.0)])).collect();
        site.chargers = (1..=32).map(|id| charger(id, &[], 50.0, 1_200.0, 400.0)).collect();
        let day = day(&site.bytes(), 1, 64);
        assert_eq!(day.len(), ENOUGH);
        assert_eq!(checked(&day), [0, 0, 0]);
    }

    #[test]
    fn goes_into_longer_outputs() {
        let (numbers, longer) = asked(&one_car(), 1, 3, 65_536);
        assert_eq!(numbers, [0, 0, 0]);
        assert!(longer == day(&one_car(), 1, 3));
    }

    /// Every car's start is below its target, so that an empty battery is charged; still no check is made of the outcome.
    #[test]
    fn may_be_refused_by_twelve() {
        let mut slow = bay(&[brief(0, 0, 0)]);
        slow.profiles[0] = profile(1, 400.0, &[(0.5, 1.0)]);
        let day = day(&slow.bytes(), 1, 64);
        // 168 h are 0.42 of 400 kWh, 430.08 of 1,024. Cars are blocks 4 to 67, the charger is block 3.
        let first = drawn(&day).iter().position(|(_, start, target)| target - start > 430.0).unwrap();
        assert_eq!(checked(&day), [12, 4 + first as u64, 3]);
        slow.profiles[0] = profile(1, 168.0, &[(0.5, 1.0)]);
        assert_eq!(checked(&super::day(&slow.bytes(), 1, 64)), [0, 0, 0], "a whole battery takes a week at most");
    }
}

mod what_is_refused {
    use super::*;
    use oracle::blocks::reseal;

    const BY_19: [u64; 3] = [19, 0, 0];

    fn of_vehicles(count: usize) -> Vec<u8> {
        bay(&vec![Car::default(); count]).bytes()
    }

    #[test]
    fn seed_0() {
        assert_eq!(answer(&one_car(), 0, 1, ENOUGH), BY_19);
    }

    #[test]
    fn a_count_of_none_or_more_than_64() {
        for count in [0, 65, 66, 256, 257, 0x1_0000, 0x1_0001, 1 << 31, u32::MAX] {
            assert_eq!(answer(&one_car(), 1, count, ENOUGH), BY_19, "{count}");
        }
        for count in 1..=64 {
            assert_eq!(answer(&one_car(), 1, count, ENOUGH), [0, 0, 0], "{count}");
        }
    }

    /// Also where the day itself has room.
    #[test]
    fn an_output_below_113_blocks() {
        for room in [0, 1, 4 * BLOCK, ENOUGH - BLOCK, ENOUGH - 1] {
            assert_eq!(answer(&one_car(), 1, 1, room), BY_19, "{room}");
        }
    }

    #[test]
    fn a_plan_of_no_vehicle_or_of_several() {
        for count in [0, 2, 3, 64] {
            assert_eq!(answer(&of_vehicles(count), 1, 1, ENOUGH), BY_19, "{count}");
        }
        assert_eq!(answer(&Draft::default().bytes(), 1, 1, ENOUGH), BY_19, "a header alone");
    }

    #[test]
    fn several_of_these_at_once() {
        assert_eq!(answer(&of_vehicles(2), 0, 65, 0), BY_19);
        assert_eq!(answer(&of_vehicles(0), 0, 0, ENOUGH - 1), BY_19);
    }

    /// Refusals 4 to 12 of the plan, with their places, whatever else is wrong.
    #[test]
    fn the_plan_first() {
        for (plan, numbers) in faulty_plans() {
            assert_eq!(checked(&plan), numbers);
            for (seed, count, room) in
                [(1, 1, ENOUGH), (0, 1, ENOUGH), (1, 0, ENOUGH), (1, 65, ENOUGH), (1, 1, 0), (0, 65, 0)]
            {
                assert_eq!(answer(&plan, seed, count, room), numbers);
            }
        }
    }

    fn faulty_plans() -> Vec<(Vec<u8>, [u64; 3])> {
        let good = bay(&[Car { start: 0.0, target: 1.0, ..Car::default() }]);
        let with = |change: fn(&mut Draft)| {
            let mut draft = good.clone();
            change(&mut draft);
            draft.bytes()
        };
        let header = |at: usize, byte: u8| {
            let mut plan = good.bytes();
            plan[at] = byte;
            reseal(&mut plan, 0);
            plan
        };
        vec![
            (Vec::new(), [4, 0, 0]),
            (good.bytes()[1..].to_vec(), [4, 0, 0]),
            (vec![0; 114 * BLOCK], [4, 0, 0]),
            (with(|d| d.vehicles[0][508] = 1), [5, 4, 0]),
            (header(3, b'M'), [6, 1, 0]),
            (header(8, 2), [6, 1, 0]),
            (with(|d| d.chargers[0][507] = 1), [7, 3, 0]),
            (with(|d| d.profiles[0] = profile(1, 50.0, &[])), [8, 2, 0]),
            (with(|d| d.profiles[0] = profile(1, 50.0, &[(0.5, 1.0), (0.5, 2.0)])), [9, 2, 0]),
            (with(|d| d.vehicles.push(d.vehicles[0])), [10, 5, 0]),
            (with(|d| put(&mut d.vehicles[0], 4, &[2])), [11, 4, 0]),
            (with(|d| d.profiles[0] = profile(1, 169.0, &[(0.5, 1.0)])), [12, 4, 3]),
        ]
    }
}
