//! Points of document 01 that are easily misread, by theme.
mod common;

use common::{ENOUGH, EVENTS, STEPS, bay, brief, checked, events, run, steps};
use oracle::blocks::{BLOCK, put, put_f64, seal, seal_all};
use oracle::book::LEAST_BOOK;
use oracle::draft::{Car, Draft, charger, profile, set_points};
use oracle::program;
use original::ev::{ChargeProfile, ChargeProfileRecord};

/// Request 4: unplugs first, by charger place; then arrivals, then reneges, each by vehicle place.
mod order_at_equal_times {
    use super::*;

    const NACS: u8 = 5;
    const CCS1: u8 = 1;

    /// Parked from 0 to 10.
    fn parked(codes: &[u8]) -> Car {
        Car { codes: codes.to_vec(), idle: 10.0, ..brief(0, 9, 10) }
    }

    fn two_chargers(cars: &[Car]) -> Draft {
        let mut draft = bay(cars);
        draft.chargers = vec![charger(1, &[CCS1], 50.0, 1_200.0, 400.0), charger(2, &[NACS], 50.0, 1_200.0, 400.0)];
        draft
    }

    #[test]
    fn an_arrival_comes_before_a_renege() {
        let [waits, comes] = [brief(0, 5, 10), brief(5, 5, 1)];
        let outcomes = |cars: [Car; 2], ran: fn(&Draft) -> common::Ran| {
            let mut draft = bay(&cars);
            draft.chargers.clear();
            let ran = ran(&draft);
            [1, 2].map(|id| ran.of(id).outcome)
        };
        for engine in [events, steps] {
            assert_eq!(outcomes([waits.clone(), comes.clone()], engine), [2, 3]);
            assert_eq!(outcomes([comes.clone(), waits.clone()], engine), [3, 2]);
        }
    }

    #[test]
    fn an_unplug_comes_before_an_arrival() {
        for (wait, queue_limit) in [(100, 0), (0, 10), (1, 10)] {
            let ran = events(&bay(&[Car::default(), brief(2_020, wait, queue_limit)]));
            assert_eq!((ran.of(2).outcome, ran.of(2).plugin, ran.of(2).wait), (1, Some(2_020), 0));
        }
    }

    #[test]
    fn by_steps_a_charger_is_freed_at_the_end_of_its_round() {
        let second = |wait, queue_limit| {
            let ran = steps(&bay(&[parked(&[NACS]), brief(10, wait, queue_limit)]));
            assert_eq!(ran.of(1).unplug, Some(10));
            (ran.of(2).outcome, ran.of(2).plugin, ran.of(2).wait)
        };
        assert_eq!(second(100, 0), (3, None, 0));
        assert_eq!(second(0, 10), (2, None, 0));
        assert_eq!(second(1, 10), (1, Some(10), 0));
    }

    #[test]
    fn a_stay_of_no_length_unplugs_before_the_next_arrival() {
        let ran = events(&bay(&[brief(0, 0, 0), brief(0, 0, 0), brief(0, 0, 1)]));
        assert_eq!([1, 2, 3].map(|id| (ran.of(id).outcome, ran.of(id).unplug)), [(1, Some(0)); 3]);
        assert_eq!(ran.used(), 9);
    }

    #[test]
    fn a_stay_of_no_length_unplugs_before_a_later_place() {
        let [ccs1, nacs] = [&[CCS1][..], &[NACS]].map(parked);
        let either = Car { codes: vec![CCS1, NACS], ..brief(5, 100, 10) };
        let ran = events(&two_chargers(&[ccs1, nacs, either.clone(), either]));
        assert_eq!([3, 4].map(|id| (ran.of(id).plugin, ran.of(id).charger)), [(Some(10), Some(1)); 2]);
    }

    #[test]
    fn two_unplugs_in_one_second_go_by_charger_place() {
        let either = Car { codes: vec![CCS1, NACS], ..brief(0, 100, 10) };
        let draft = two_chargers(&[parked(&[NACS]), parked(&[CCS1]), either]);
        for ran in [events(&draft), steps(&draft)] {
            assert_eq!(ran.of(3).charger, Some(1));
        }
    }

    #[test]
    fn a_wait_of_none_leaves_nobody_queued() {
        let mut draft = bay(&[brief(7, 0, 10), brief(7, 0, 10)]);
        draft.chargers.clear();
        for ran in [events(&draft), steps(&draft)] {
            assert_eq!(ran.counts(), [0, 0, 0, 0, 2, 0]);
        }
    }
}

/// Request 6: the sum has the charging cars only.
mod parked_cars {
    use super::*;

    /// At a limit of 50 kW, each car at a charger of its own.
    fn apart(cars: &[Car]) -> Draft {
        let mut draft = bay(cars);
        draft.chargers = (1..=cars.len() as u32).map(|id| charger(id, &[], 50.0, 1_200.0, 400.0)).collect();
        draft.set_limit(50.0);
        draft
    }

    #[test]
    fn the_cars_that_charge_do_not_feel_them() {
        let two_beside = |parked: usize| {
            let mut cars = vec![Car { arrival: 1, target: 0.26, ..Car::default() }; 2];
            cars.extend(vec![Car { idle: 9_000.0, ..brief(0, 1, 0) }; parked]);
            let ran = steps(&apart(&cars));
            [1, 2].map(|id| (ran.of(id).peak, ran.of(id).unplug, ran.of(id).energy))
        };
        assert_eq!(two_beside(0)[0].0, Some(25.0));
        for parked in 1..=6 {
            assert_eq!(two_beside(parked), two_beside(0));
        }
    }

    #[test]
    fn a_car_counts_in_the_round_that_brings_it_to_its_target() {
        let one_round = Car { arrival: 0, target: 0.2501, ..Car::default() };
        let peak = |beside: Car| steps(&apart(&[one_round.clone(), beside])).of(1).peak;
        assert_eq!(peak(brief(0, 1, 0)), Some(25.0));
        assert_eq!(peak(brief(1, 1, 0)), Some(50.0));
    }
}

/// Request 8: a lead may carry less than its charger.
mod amps_by_lead {
    use super::*;

    const NACS: usize = 5;
    const CCS2: usize = 2;

    /// The bay, whose charger has NACS alone and gives 50 kW at 125 A, with a cap.
    fn capped(code: usize, cap: f64) -> Draft {
        let mut draft = bay(&[Car::default()]);
        put_f64(&mut draft.chargers[0], 40 + 8 * (code - 1), cap);
        draft
    }

    #[test]
    fn the_current_is_the_smaller_of_cap_and_charger() {
        for engine in [events, steps] {
            let peak = |cap| engine(&capped(NACS, cap)).of(1).peak;
            assert_eq!(peak(100.0), Some(40.0));
            for cap in [125.0, 126.0, 1_200.0, 4_096.0, 0.0] {
                assert_eq!(peak(cap), Some(50.0));
            }
        }
        let ran = events(&capped(NACS, 100.0));
        assert_eq!((ran.of(1).duration, ran.of(1).unplug, ran.of(1).energy), (Some(2_250.0), Some(2_470), Some(25.0)));
    }

    #[test]
    fn the_cap_is_that_of_the_lead_in_use() {
        let codes = [CCS2 as u8, NACS as u8];
        let peak = |code| {
            let mut draft = capped(code, 100.0);
            draft.chargers[0][4] = 2;
            put(&mut draft.chargers[0], 5, &codes);
            draft.vehicles[0] = Car { id: 1, codes: codes.to_vec(), ..Car::default() }.block();
            [events(&draft), steps(&draft)].map(|ran| (ran.of(1).connector, ran.of(1).peak.unwrap()))
        };
        assert_eq!(peak(CCS2), [(Some(CCS2 as u8), 40.0); 2]);
        for code in [1, 3, 4, NACS] {
            assert_eq!(peak(code), [(Some(CCS2 as u8), 50.0); 2]);
        }
    }

    #[test]
    fn a_lead_that_the_charger_has_not_may_have_a_cap() {
        assert_eq!(events(&capped(CCS2, 1.0)).of(1).peak, Some(50.0));
    }

    #[test]
    fn the_pair_check_goes_by_the_cap() {
        let mut draft = capped(NACS, 1.0);
        draft.vehicles[0] = Car { id: 1, start: 0.0, target: 1.0, ..Car::default() }.block();
        for (battery, number) in [(67.0, 0), (68.0, 12)] {
            draft.profiles[0] = profile(1, battery, &[(0.5, 50.0)]);
            assert_eq!(checked(&draft.bytes())[0], number);
        }
    }

    #[test]
    fn a_cap_is_zero_bytes_or_within_its_limits() {
        for code in 1..=5 {
            for cap in [0.0, 1.0, 1.0_f64.next_up(), 4_096.0, 4_096.0_f64.next_down()] {
                assert_eq!(checked(&capped(code, cap).bytes()), [0; 3]);
            }
            let [below, above] = [1.0_f64.next_down(), 4_096.0_f64.next_up()];
            for cap in [-0.0, 5e-324, 0.5, below, above, -1.0, f64::NAN, f64::INFINITY, f64::NEG_INFINITY] {
                assert_eq!(checked(&capped(code, cap).bytes()), [7, 3, 0]);
            }
        }
        for at in [80, 507] {
            let mut draft = capped(NACS, 1.0);
            draft.chargers[0][at] = 1;
            assert_eq!(checked(&draft.bytes()), [7, 3, 0]);
        }
    }
}

mod the_step_engine {
    use super::*;

    #[test]
    fn the_round_of_an_arrival_charges() {
        let ran = steps(&bay(&[Car::default()]));
        assert_eq!((ran.of(1).unplug, ran.of(1).duration, ran.used()), (Some(2_019), Some(1_799.0), 2_020));
    }

    #[test]
    fn idle_takes_at_least_one_round() {
        let duration = |idle| steps(&bay(&[Car { idle, ..brief(0, 1, 10) }])).of(1).duration;
        assert_eq!([0.0, 1.0, 0.5].map(duration), [Some(1.0), Some(0.0), Some(0.5)]);
        let unplug = |idle| steps(&bay(&[Car { idle, ..brief(0, 1, 10) }])).of(1).unplug;
        assert_eq!([0.0, 1.0, 1.25, 3.0].map(unplug), [Some(1), Some(1), Some(2), Some(3)]);
    }

    #[test]
    fn a_full_car_charges_for_one_round() {
        let ran = steps(&bay(&[Car { start: 0.75, target: 0.5, ..brief(0, 1, 10) }]));
        let session = ran.of(1);
        assert_eq!(session.energy, Some(50.0 * (1.0 / 3_600.0)));
        assert_eq!((session.start, session.end, session.peak), (0.75, Some(0.5), Some(50.0)));
        let ran = events(&bay(&[Car { start: 0.75, target: 0.5, ..brief(0, 1, 10) }]));
        let session = ran.of(1);
        assert_eq!((session.duration, session.energy, session.peak), (Some(0.0), Some(0.0), Some(0.0)));
    }

    #[test]
    fn a_queued_car_first_charges_in_the_next_round() {
        let ran = steps(&bay(&[brief(0, 9, 10), brief(0, 9, 10)]));
        assert_eq!((ran.of(2).plugin, ran.of(2).unplug), (Some(1), Some(3)));
    }

    #[test]
    fn a_car_that_arrives_in_the_round_that_frees_is_queued_first() {
        let second = |wait, queue_limit| {
            let ran = steps(&bay(&[brief(0, 0, 0), brief(1, wait, queue_limit)]));
            (ran.of(2).outcome, ran.of(2).plugin, ran.of(2).wait)
        };
        assert_eq!(second(9, 0), (3, None, 0));
        assert_eq!(second(0, 10), (2, None, 0));
        assert_eq!(second(9, 10), (1, Some(1), 0));
    }

    #[test]
    fn the_loop_goes_round_until_the_last_renege() {
        assert_eq!(steps(&bay(&[brief(0, 1_000, 10)])).used(), 1_001);
    }

    #[test]
    fn soc_is_summed_round_by_round() {
        let mut draft = bay(&[Car { start: 0.0, target: 1.0, ..brief(0, 0, 0) }]);
        draft.profiles[0] = profile(1, 1.0, &[(0.5, 50.0)]);
        assert_eq!(steps(&draft).of(1).unplug, Some(73));
    }

    #[test]
    fn the_scale_is_rounded_before_it_multiplies() {
        // Requests of 40 (rated 30) and 20 kW sum to 50.
        let limit = 32.3;
        let mut draft = bay(&[brief(0, 0, 0), Car { profile: 2, ..brief(0, 0, 0) }]);
        draft.profiles = vec![profile(1, 50.0, &[(0.5, 40.0)]), profile(2, 50.0, &[(0.5, 20.0)])];
        draft.chargers = vec![charger(1, &[], 30.0, 1_200.0, 400.0), charger(2, &[], 50.0, 1_200.0, 400.0)];
        draft.set_limit(limit);
        let ran = steps(&draft);
        assert_eq!((ran.of(1).peak, ran.of(2).peak), (Some(30.0 * (limit / 50.0)), Some(20.0 * (limit / 50.0))));
        assert_ne!([30.0 * (limit / 50.0), 20.0 * (limit / 50.0)], [30.0 * limit / 50.0, 20.0 * limit / 50.0]);
        assert_eq!(ran.of(2).energy, Some(20.0 * (limit / 50.0) * (1.0 / 3_600.0)));
    }

    #[test]
    fn a_steps_peak_is_the_largest_delivered_power() {
        let mut draft = bay(&[Car { start: 0.5, target: 1.0, ..Car::default() }]);
        draft.profiles[0] = profile(1, 50.0, &[(0.0, 100.0), (0.5, 100.0), (1.0, 50.0)]);
        draft.chargers[0] = charger(1, &[], 75.0, 1_200.0, 400.0);
        assert_eq!((steps(&draft).of(1).peak, events(&draft).of(1).peak), (Some(75.0), Some(62.5)));
    }

    #[test]
    fn the_event_engine_ignores_the_site_limit() {
        let mut draft = bay(&[Car::default()]);
        draft.set_limit(1.0);
        assert_eq!(events(&draft).of(1).duration, Some(1_800.0));
        assert!(steps(&draft).of(1).duration > Some(80_000.0));
    }

    #[test]
    fn an_open_session_has_idle_and_end_but_no_energy() {
        let ran = run(&bay(&[Car::default()]), STEPS, 500);
        let session = ran.of(1);
        assert_eq!((session.outcome, session.idle, session.end), (0, Some(120.0), Some(0.75)));
        let mut book = vec![0; LEAST_BOOK];
        oracle::run(&bay(&[Car::default()]).bytes(), STEPS, 500, &mut book);
        let session = &book[BLOCK..BLOCK + 96];
        assert!(session[32..40].iter().chain(&session[48..56]).chain(&session[64..80]).all(|byte| *byte == 0));
        assert_eq!((session[12], &session[24..32]), (5, &100u64.to_le_bytes()[..]));
    }
}

mod ended_and_the_queue {
    use super::*;

    #[test]
    fn no_vehicles() {
        for engine in [EVENTS, STEPS] {
            let ran = run(&bay(&[]), engine, 0);
            assert_eq!((ran.used(), ran.ended(), ran.counts()), (0, true, [0; 6]));
            let ran = run(&Draft::default(), engine, 5);
            assert_eq!((ran.used(), ran.ended(), ran.counts()), (0, true, [0; 6]));
        }
    }

    #[test]
    fn an_exact_allowance_has_ended() {
        let draft = bay(&[Car::default()]);
        for (engine, units) in [(EVENTS, 3), (STEPS, 2_020)] {
            assert!(run(&draft, engine, units).ended());
            assert!(!run(&draft, engine, units - 1).ended());
            assert_eq!(run(&draft, engine, units + 1).used(), u64::from(units));
        }
    }

    #[test]
    fn the_queue_limit_counts_every_waiting_car() {
        let unfit = Car { codes: vec![1], ..brief(0, 50, 10) };
        let ran = events(&bay(&[Car::default(), unfit.clone(), brief(200, 50, 1)]));
        assert_eq!((ran.of(2).outcome, ran.of(2).wait), (2, 50));
        assert_eq!(ran.of(3).outcome, 2);
        let ran = events(&bay(&[Car { arrival: 0, ..Car::default() }, unfit, brief(10, 50, 1)]));
        assert_eq!(ran.of(3).outcome, 3, "the waiting car counts although it fits no charger");
    }

    #[test]
    fn id_0_is_an_id() {
        let mut draft = bay(&[Car { profile: 0, ..Car::default() }]);
        draft.profiles[0] = profile(0, 50.0, &[(0.5, 50.0)]);
        draft.chargers[0] = charger(0, &[], 50.0, 1_200.0, 400.0);
        put(&mut draft.vehicles[0], 0, &0u32.to_le_bytes());
        let ran = events(&draft);
        assert_eq!((ran.of(0).charger, ran.of(0).outcome), (Some(0), 1));
    }
}

mod floats {
    use super::*;

    #[test]
    fn out_of_limits() {
        let fields = [(0, 16, 0.125, 65_536.0), (1, 8, 1.0, 1_024.0), (1, 16, 0.0, 1.0), (1, 24, 0.125, 1_024.0)];
        let chargers = [(2, 16, 0.125, 1_024.0), (2, 24, 1.0, 4_096.0), (2, 32, 1.0, 4_096.0)];
        let vehicles = [(3, 16, 0.0, 1.0), (3, 24, 0.0, 1.0), (3, 32, 0.0, 604_800.0)];
        for (block, at, low, high) in fields.into_iter().chain(chargers).chain(vehicles) {
            let with = |value: f64| {
                let mut draft = bay(&[Car { start: 0.0, target: 0.0, ..Car::default() }]);
                draft.set_limit(50.0);
                put_f64(draft.block_mut(block), at, value);
                checked(&draft.bytes())
            };
            let wrong = [
                f64::NAN,
                -f64::NAN,
                f64::INFINITY,
                -f64::INFINITY,
                -0.0,
                -low,
                -high,
                f64::from_bits(high.to_bits() + 1),
            ];
            for value in wrong {
                assert_eq!(with(value), [7, block as u64 + 1, 0], "{value} at {at} of block {block}");
            }
            if low > 0.0 {
                assert_eq!(with(low.next_down()), [7, block as u64 + 1, 0]);
                assert_eq!(with(0.0), [7, block as u64 + 1, 0]);
            }
            for value in [low, high, low.next_up(), high.next_down()] {
                assert_ne!(with(value)[0], 7, "{value} at {at} of block {block}");
            }
        }
    }

    #[test]
    fn an_absent_limit_is_zero_bytes() {
        let mut draft = bay(&[]);
        put_f64(&mut draft.header, 16, 50.0);
        assert_eq!(checked(&draft.bytes()), [7, 1, 0]);
        put_f64(&mut draft.header, 16, -0.0);
        assert_eq!(checked(&draft.bytes()), [7, 1, 0]);
    }

    #[test]
    fn tiny_times_round_up_to_a_second() {
        let tiny = f64::from_bits(1);
        let ran = events(&bay(&[Car { idle: tiny, ..brief(0, 0, 0) }]));
        assert_eq!(ran.of(1).unplug, Some(1));
        let ran = events(&bay(&[Car { start: 0.0, target: tiny, ..brief(0, 0, 0) }]));
        assert_eq!(ran.of(1).unplug, Some(1));
        assert!(ran.of(1).duration > Some(0.0));
    }

    #[test]
    fn interpolation_between_subnormal_socs() {
        let point = |units, power| ChargeProfileRecord { soc: f64::from_bits(units), power };
        let curve = ChargeProfile::new("", vec![point(0, 0.376), point(3, 0.125)], 1.0);
        let power = curve.power_at(f64::from_bits(2)).unwrap();
        assert!(0.042 < power && power < 0.043, "{power}");
    }
}

mod the_table {
    use super::*;

    fn two_profiles() -> Draft {
        let mut draft = bay(&[Car::default()]);
        draft.profiles.push(profile(2, 50.0, &[(0.5, 50.0)]));
        draft
    }

    #[test]
    fn no_points() {
        let mut draft = two_profiles();
        set_points(&mut draft.profiles[1], &[]);
        assert_eq!(checked(&draft.bytes()), [8, 3, 0]);
        put_f64(&mut draft.profiles[1], 16, 0.5);
        assert_eq!(checked(&draft.bytes()), [7, 3, 0]);
    }

    #[test]
    fn each_number_goes_over_the_whole_plan() {
        let mut draft = two_profiles();
        set_points(&mut draft.profiles[0], &[(0.5, 50.0), (0.25, 50.0), (0.5, 25.0)]);
        assert_eq!(checked(&draft.bytes()), [9, 2, 0]);
        set_points(&mut draft.profiles[1], &[]);
        assert_eq!(checked(&draft.bytes()), [8, 3, 0]);

        let mut draft = bay(&[Car { profile: 9, ..Car::default() }, Car::default()]);
        assert_eq!(checked(&draft.bytes()), [11, 4, 0]);
        put(&mut draft.vehicles[1], 0, &1u32.to_le_bytes());
        assert_eq!(checked(&draft.bytes()), [10, 5, 0]);
    }

    #[test]
    fn an_id_is_used_once_in_its_kind() {
        let mut draft = two_profiles();
        put(&mut draft.profiles[1], 0, &1u32.to_le_bytes());
        assert_eq!(checked(&draft.bytes()), [10, 3, 0]);
        let mut draft = bay(&[Car::default(), Car::default(), Car::default()]);
        put(&mut draft.vehicles[2], 0, &1u32.to_le_bytes());
        assert_eq!(checked(&draft.bytes()), [10, 6, 0]);
        assert_eq!(checked(&two_profiles().bytes()), [0, 0, 0], "kinds share ids");
    }

    #[test]
    fn an_appended_block() {
        let mut plan = bay(&[Car::default()]).bytes();
        plan.resize(5 * BLOCK, 0);
        assert_eq!(checked(&plan), [5, 5, 0]);
        seal(&mut plan[4 * BLOCK..], 5);
        assert_eq!(checked(&plan), [6, 1, 0]);
    }

    #[test]
    fn unused_codes_and_full_times() {
        for (block, at) in [(2, 4), (3, 8)] {
            let with = |bytes: &[u8]| {
                let mut draft = bay(&[Car::default()]);
                put(draft.block_mut(block), at, bytes);
                checked(&draft.bytes())[0]
            };
            assert_eq!(
                [with(&[1, 0]), with(&[1, 6]), with(&[0, 5]), with(&[1, 5, 5]), with(&[6, 5, 5, 5, 5, 5, 5])],
                [7; 5]
            );
            assert_eq!([with(&[1, 5]), with(&[5, 5, 5, 5, 5, 1]), with(&[2, 1, 5])], [0; 3]);
        }
        for at in [40, 48] {
            for (time, number) in [(1_000_000, 0), (1_000_001, 7), (1 << 32, 7), (1 << 63, 7)] {
                let mut draft = bay(&[Car::default()]);
                put(&mut draft.vehicles[0], at, &u64::to_le_bytes(time));
                assert_eq!(checked(&draft.bytes())[0], number);
            }
        }
    }

    #[test]
    fn every_unnamed_byte_is_zero() {
        let named: [&[std::ops::Range<usize>]; 4] =
            [&[0..10, 12..13, 16..88], &[0..6, 8..32], &[0..10, 16..40], &[0..14, 16..61]];
        let draft = bay(&[Car::default()]);
        for (block, named) in named.iter().enumerate() {
            for at in (0..508).filter(|at| !named.iter().any(|range| range.contains(at))) {
                let mut draft = draft.clone();
                draft.block_mut(block)[at] = 1;
                assert_eq!(checked(&draft.bytes()), [7, block as u64 + 1, 0], "byte {at}");
            }
        }
    }

    #[test]
    fn more_points_than_thirty() {
        let mut draft = bay(&[Car::default()]);
        put(&mut draft.profiles[0], 4, &31u16.to_le_bytes());
        assert_eq!(checked(&draft.bytes()), [7, 2, 0]);
        let curve: Vec<_> = (0..30).map(|k| (f64::from(k) / 32.0, 50.0)).collect();
        set_points(&mut draft.profiles[0], &curve);
        assert_eq!(checked(&draft.bytes()), [0, 0, 0]);
    }

    #[test]
    fn twelve_is_about_the_pair() {
        let mut draft = bay(&[Car::default(), Car { start: 0.0, target: 1.0, ..Car::default() }]);
        draft.profiles[0] = profile(1, 169.0, &[(0.5, 50.0)]);
        for (id, codes) in [(2, vec![1]), (3, vec![]), (4, vec![])] {
            draft.chargers.push(charger(id, &codes, if id < 4 { 1.0 } else { 50.0 }, 1_200.0, 400.0));
        }
        let refusal = [12, 8, 5];
        assert_eq!(checked(&draft.bytes()), refusal, "the lowest vehicle, and for it the lowest charger that fits");
        for (engine, allowance) in [(EVENTS, 0), (STEPS, 0), (STEPS, ENOUGH)] {
            assert_eq!(run(&draft, engine, allowance).numbers[..3], refusal);
        }
        let mut limited = bay(&[Car { start: 0.0, target: 1.0, ..Car::default() }]);
        limited.set_limit(0.125);
        assert_eq!(checked(&limited.bytes()), [0, 0, 0], "the site limit does not count");
        let mut weak = bay(&[Car { start: 0.0, target: 1.0, ..Car::default() }]);
        weak.chargers[0] = charger(1, &[], 50.0, 1.0, 1.0);
        assert_eq!(checked(&weak.bytes()), [12, 4, 3], "current times voltage counts");
    }

    #[test]
    fn arguments_come_first() {
        let answer = |engine, allowance, book: usize, plan: &[u8]| {
            let mut book = vec![7; book];
            let numbers = oracle::run(plan, engine, allowance, &mut book);
            assert!(book.iter().all(|byte| *byte == 7), "a refusal leaves the book");
            numbers[0]
        };
        assert_eq!(answer(2, ENOUGH + 1, 0, &[]), 1);
        assert_eq!(answer(256, 0, 0, &[]), 1);
        assert_eq!(answer(1, ENOUGH + 1, 0, &[]), 2);
        assert_eq!(answer(1, ENOUGH, LEAST_BOOK - 1, &[]), 3);
        assert_eq!(answer(1, ENOUGH, LEAST_BOOK, &[]), 4);
    }

    #[test]
    fn lengths() {
        let plan = bay(&[Car::default()]).bytes();
        for cut in [0, 1, 511, 513, plan.len() - 1] {
            assert_eq!(checked(&plan[..cut]), [4, 0, 0]);
        }
        let mut long = plan.clone();
        long.resize(114 * BLOCK, 0);
        assert_eq!(checked(&long), [4, 0, 0]);
        long.truncate(113 * BLOCK);
        seal_all(&mut long);
        assert_eq!(checked(&long), [6, 1, 0]);
    }

    #[test]
    fn bytes_past_the_last_block_stay() {
        let mut book = vec![9; LEAST_BOOK + 100];
        oracle::run(&bay(&[Car::default()]).bytes(), EVENTS, ENOUGH, &mut book);
        assert!(book[..2 * BLOCK].starts_with(b"BOOK") && book[2 * BLOCK..].iter().all(|byte| *byte == 9));
        let mut book = vec![9; LEAST_BOOK];
        oracle::run(&bay(&[Car::default()]).bytes(), EVENTS, 0, &mut book);
        assert!(book[BLOCK..].iter().all(|byte| *byte == 9), "no sessions, no block");
    }

    #[test]
    fn short_inputs_of_the_program() {
        let said = |input: &[u8]| String::from_utf8(program::output(input).0).unwrap();
        assert_eq!(said(&[]), "4 0 0\n");
        assert_eq!(said(&[2]), "1 0 0\n");
        assert_eq!(said(&[0, 255, 255, 255]), "2 0 0\n");
        let input = program::input(0, 3, &bay(&[Car::default()]).bytes());
        assert_eq!(program::output(&input).0.len(), 2 * BLOCK);
    }
}
