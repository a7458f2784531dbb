//! Request 9, places by fleet: its text, and point 12 of document 02 read closely.
mod common;

use common::{ENOUGH, EVENTS, Ran, STEPS, bay, brief, checked, events, run, steps};
use oracle::bay::lane;
use oracle::blocks::{BLOCK, put, reseal, u16_at};
use oracle::book::{LEAST_BOOK, session_at};
use oracle::draft::{Car, Draft, charger};

const CHARGED: u8 = 1;
const RENEGED: u8 = 2;
const BALKED: u8 = 3;

/// A car of a fleet that waits for long where it may.
fn of(fleet: u16, arrival: u64) -> Car {
    Car { fleet, ..brief(arrival, 5_000, 64) }
}

/// The bay whose charger car 1, of no fleet, has from 0 to 100; the cars given are 2, 3 and so on.
fn busy_until_100(places: &[(u16, u8)], cars: &[Car]) -> Draft {
    let first = Car { idle: 100.0, ..brief(0, 0, 0) };
    let mut draft = bay(&[&[first], cars].concat());
    for (fleet, places) in places {
        draft.set_places(*fleet, *places);
    }
    draft
}

/// The outcomes of the cars from 2 on.
fn outcomes(ran: &Ran) -> Vec<u8> {
    (2..=ran.sessions.len() as u32).map(|id| ran.of(id).outcome).collect()
}

/// By both engines, which agree.
fn outcomes_of(places: &[(u16, u8)], cars: &[Car]) -> Vec<u8> {
    let draft = busy_until_100(places, cars);
    let [by_events, by_steps] = [events(&draft), steps(&draft)].map(|ran| outcomes(&ran));
    assert_eq!(by_events, by_steps);
    by_events
}

mod the_limit {
    use super::*;

    #[test]
    fn is_that_of_the_cars_own_fleet() {
        let cars = [of(1, 10), of(1, 20), of(2, 30), of(0, 40), of(1, 50), of(2, 60)];
        let places = [(1, 1), (2, 1)];
        assert_eq!(outcomes_of(&places, &cars), [CHARGED, BALKED, CHARGED, CHARGED, BALKED, BALKED]);
        for ran in [EVENTS, STEPS].map(|engine| run(&busy_until_100(&places, &cars), engine, ENOUGH)) {
            assert_eq!(ran.of(2).plugin, Some(100), "the first in the queue");
            assert_eq!([3, 6].map(|id| (ran.of(id).arrival, ran.of(id).wait)), [(20, 0), (50, 0)]);
        }
    }

    #[test]
    fn lets_as_many_wait_as_there_are_places() {
        let cars: Vec<Car> = (10..50).map(|arrival| of(7, arrival)).collect();
        for places in (0..=40).chain([63, 64]) {
            let waited = outcomes_of(&[(7, places)], &cars).iter().filter(|outcome| **outcome == CHARGED).count();
            assert_eq!(waited, usize::from(places).min(40));
        }
    }

    #[test]
    fn of_sixty_four_places_holds_sixty_three_cars() {
        let cars: Vec<Car> = (0..63).map(|k| of(64, 10 + k)).collect();
        assert_eq!(outcomes_of(&[(64, 64)], &cars), [CHARGED; 63]);
        assert_eq!(outcomes_of(&[(64, 62)], &cars), [&[CHARGED; 62][..], &[BALKED]].concat());
    }

    #[test]
    fn is_none_for_fleet_zero() {
        let cars: Vec<Car> = (0..63).map(|k| of(0, 10 + k)).collect();
        for places in [&[][..], &[(1, 1)], &[(64, 1)]] {
            assert_eq!(outcomes_of(places, &cars), [CHARGED; 63]);
        }
    }

    #[test]
    fn of_no_places_lets_nobody_wait() {
        let parked = Car { idle: 10.0, ..of(5, 200) };
        let outcomes = outcomes_of(&[(4, 9), (6, 9)], &[of(5, 10), of(5, 20), parked, of(5, 205), of(5, 300)]);
        assert_eq!(outcomes, [BALKED, BALKED, CHARGED, BALKED, CHARGED], "a free charger is taken");
    }

    #[test]
    fn is_looked_at_only_where_no_free_charger_fits() {
        let mut draft = busy_until_100(&[(1, 1)], &[of(1, 10), Car { codes: vec![1], ..of(1, 20) }, of(1, 30)]);
        draft.chargers.push(charger(2, &[1], 50.0, 1_200.0, 400.0));
        for ran in [events(&draft), steps(&draft)] {
            assert_eq!(outcomes(&ran), [CHARGED, CHARGED, BALKED]);
            assert_eq!((ran.of(3).charger, ran.of(3).wait), (Some(2), 0), "though its fleet's place is taken");
        }
    }

    #[test]
    fn stands_beside_the_cars_own() {
        let with = |queue_limit, car: Car| Car { queue_limit, ..car };
        let third =
            |queue_limit, places| outcomes_of(&[(1, places)], &[of(0, 10), of(1, 20), with(queue_limit, of(1, 30))])[2];
        assert_eq!([third(3, 2), third(64, 64)], [CHARGED; 2]);
        assert_eq!([third(2, 2), third(0, 64)], [BALKED; 2], "two wait already");
        assert_eq!([third(3, 1), third(u32::MAX, 1)], [BALKED; 2], "one of the fleet waits already");
        assert_eq!([third(2, 1), third(0, 1)], [BALKED; 2]);
    }

    #[test]
    fn counts_the_fleet_whichever_chargers_its_cars_fit() {
        let on = |codes: &[u8], car: Car| Car { codes: codes.to_vec(), ..car };
        let parked = on(&[1], Car { idle: 100.0, ..of(0, 0) });
        for codes in [&[1][..], &[2], &[1, 2]] {
            let mut draft = busy_until_100(&[(1, 1)], &[parked.clone(), on(codes, of(1, 10)), on(&[5], of(1, 20))]);
            draft.chargers.push(charger(2, &[1], 50.0, 1_200.0, 400.0));
            for ran in [events(&draft), steps(&draft)] {
                let first = if codes == [2] { RENEGED } else { CHARGED };
                assert_eq!(outcomes(&ran), [CHARGED, first, BALKED], "nobody waits for NACS, which the last car has");
            }
        }
    }

    #[test]
    fn does_not_count_other_fleets() {
        let cars: Vec<Car> = (0..62).map(|k| of(1 + k / 2, 10 + u64::from(k))).collect();
        let places: Vec<(u16, u8)> = (1..=31).map(|fleet| (fleet, 1)).collect();
        assert_eq!(outcomes_of(&places, &cars), [CHARGED, BALKED].repeat(31));
    }

    #[test]
    fn of_fleet_k_stands_at_header_byte_23_and_k() {
        for fleet in 1..=64 {
            for (own, others, outcome) in [(1, 0, CHARGED), (0, 64, BALKED), (1, 64, CHARGED)] {
                let mut draft = busy_until_100(&[], &[of(fleet, 10), of(fleet, 20)]);
                draft.header[24..88].fill(others);
                draft.header[23 + usize::from(fleet)] = own;
                for ran in [events(&draft), steps(&draft)] {
                    assert_eq!(outcomes(&ran), [outcome, BALKED], "fleet {fleet}");
                }
            }
        }
    }
}

mod a_place {
    use super::*;

    #[test]
    fn is_given_back_by_a_renege() {
        let second = |arrival| outcomes_of(&[(1, 1)], &[Car { wait: 50, ..of(1, 10) }, of(1, arrival)]);
        assert_eq!(second(59), [RENEGED, BALKED]);
        assert_eq!(second(60), [RENEGED, BALKED], "an arrival comes before a renege");
        assert_eq!(second(61), [RENEGED, CHARGED]);
    }

    /// Car 2 plugs in at 100 and stays to 150.
    #[test]
    fn is_given_back_by_a_plug_in() {
        let draft = |arrival| busy_until_100(&[(1, 1)], &[Car { idle: 50.0, ..of(1, 10) }, of(1, arrival)]);
        for (engine, waits) in [(EVENTS, [false, true, true]), (STEPS, [false, false, true])] {
            let waited = [99, 100, 101].map(|arrival| run(&draft(arrival), engine, ENOUGH).of(3).outcome == CHARGED);
            assert_eq!(waited, waits, "by steps the charger is freed at the end of the round");
        }
    }

    #[test]
    fn is_not_taken_by_a_car_that_balks_or_plugs_in() {
        let cars = [Car { queue_limit: 0, ..of(1, 10) }, of(1, 20), of(1, 30)];
        assert_eq!(outcomes_of(&[(1, 1)], &cars), [BALKED, CHARGED, BALKED]);
        let mut draft = busy_until_100(&[(1, 1)], &[of(1, 10)]);
        draft.vehicles[0] = Car { id: 1, idle: 100.0, ..of(1, 0) }.block();
        assert_eq!(outcomes(&events(&draft)), [CHARGED], "one of the fleet charges, and one waits");
    }

    #[test]
    fn goes_to_the_first_of_one_second() {
        let cars = [of(2, 10), of(1, 10), of(1, 10), of(2, 10)];
        assert_eq!(outcomes_of(&[(1, 1), (2, 1)], &cars), [CHARGED, CHARGED, BALKED, BALKED]);
    }
}

mod a_lane {
    use super::*;

    #[test]
    fn by_events() {
        let ran = events(&lane());
        assert_eq!(outcomes(&ran), [RENEGED, BALKED, BALKED, CHARGED, CHARGED, BALKED, CHARGED]);
        assert_eq!([5, 6, 8].map(|id| ran.of(id).plugin), [Some(100), Some(100), Some(200)]);
        assert_eq!((ran.used(), ran.counts()), (20, [0, 0, 0, 4, 1, 3]));
    }

    /// Car 5's renege at 100 comes before the round's end.
    #[test]
    fn by_steps() {
        let ran = steps(&lane());
        assert_eq!(outcomes(&ran), [RENEGED, BALKED, BALKED, RENEGED, CHARGED, BALKED, CHARGED]);
        assert_eq!([6, 8].map(|id| ran.of(id).plugin), [Some(100), Some(200)]);
        assert_eq!(ran.counts(), [0, 0, 0, 3, 2, 3]);
    }

    /// The lane's cars arrive in the plan's order.
    #[test]
    fn no_queue_exceeds_its_places_and_each_car_lands_in_one_spot() {
        let fleet_of = |id: &u32| u16_at(&lane().vehicles[*id as usize - 1], 60);
        for (engine, most) in [(EVENTS, 21), (STEPS, 205)] {
            for allowance in 0..=most {
                let ran = run(&lane(), engine, allowance);
                let [yet_to_arrive, queued, ..] = ran.counts();
                assert_eq!(ran.counts().iter().sum::<u64>(), 8);
                let gone: Vec<u32> = ran.sessions.iter().map(|session| session.vehicle).collect();
                let waiting: Vec<u32> = (1..=8 - yet_to_arrive as u32).filter(|id| !gone.contains(id)).collect();
                assert_eq!(waiting.len() as u64, queued);
                let of_fleet = |fleet| waiting.iter().filter(|id| fleet_of(id) == fleet).count();
                assert!(of_fleet(1) <= 1 && of_fleet(2) == 0, "{waiting:?} after {allowance}");
            }
        }
    }

    #[test]
    fn without_fleets_places_do_nothing() {
        for index in 0..400 {
            let case = oracle::generate::case(9, index);
            let Some(mut draft) = Draft::of(&case.plan) else { continue };
            draft.header[24..88].fill(0);
            draft.vehicles.iter_mut().for_each(|vehicle| vehicle[60..62].fill(0));
            let ran = |draft: &Draft| {
                let mut book = vec![0; LEAST_BOOK];
                (oracle::run(&draft.bytes(), case.engine.min(1), case.allowance.min(5_000), &mut book), book)
            };
            let without = ran(&draft);
            for places in [1, 64] {
                draft.header[24..88].fill(places);
                assert!(ran(&draft) == without, "case {index}");
            }
        }
    }
}

mod refused_by_7 {
    use super::*;

    /// Blocks: header 1, profile 2, charger 3, cars 4 and 5.
    fn changed(block: usize, at: usize, bytes: &[u8]) -> [u64; 3] {
        let mut draft = bay(&[Car::default(), Car::default()]);
        put(draft.block_mut(block - 1), at, bytes);
        checked(&draft.bytes())
    }

    #[test]
    fn a_fleet_above_64() {
        for car in [4, 5] {
            for fleet in 0..=64u16 {
                assert_eq!(changed(car, 60, &fleet.to_le_bytes()), [0; 3]);
            }
            for fleet in (65..=1_024).chain([1 << 14, 1 << 15, u16::MAX]) {
                assert_eq!(changed(car, 60, &fleet.to_le_bytes()), [7, car as u64, 0], "fleet {fleet}");
            }
        }
    }

    #[test]
    fn a_place_above_64() {
        for at in 24..88 {
            for places in 0..=255 {
                let answer = if places <= 64 { [0; 3] } else { [7, 1, 0] };
                assert_eq!(changed(1, at, &[places]), answer, "byte {at}");
            }
        }
    }

    #[test]
    fn bytes_behind_both() {
        for bytes in [[1], [128]] {
            for at in 62..508 {
                assert_eq!(changed(5, at, &bytes), [7, 5, 0], "byte {at} of a car");
            }
            for at in 88..508 {
                assert_eq!(changed(1, at, &bytes), [7, 1, 0], "byte {at} of the header");
            }
        }
    }

    #[test]
    fn the_first_block_is_named() {
        let mut draft = bay(&[Car { fleet: 65, ..Car::default() }, Car { fleet: 256, ..Car::default() }]);
        assert_eq!(checked(&draft.bytes()), [7, 4, 0]);
        draft.set_places(64, 65);
        assert_eq!(checked(&draft.bytes()), [7, 1, 0]);
        oracle::draft::set_points(&mut draft.profiles[0], &[]);
        assert_eq!(checked(&draft.bytes()), [7, 1, 0], "before 8");
        draft.chargers[0][508] = 1;
        assert_eq!(checked(&draft.bytes()), [5, 3, 0], "after 5");
        for engine in [EVENTS, STEPS] {
            draft.chargers[0][508] = 0;
            assert_eq!(run(&draft, engine, 0).numbers[..3], [7, 1, 0]);
        }
    }
}

/// Car 1 is charged, car 2 reneges, car 3 balks. By steps car 1 is open before its end.
fn of_all_outcomes(fleets: [u16; 3]) -> Draft {
    let [one, two, three] = fleets;
    let mut draft = bay(&[
        Car { fleet: one, idle: 100.0, ..brief(0, 0, 0) },
        Car { fleet: two, ..brief(10, 5, 10) },
        Car { fleet: three, ..brief(11, 5, 0) },
    ]);
    draft.header[24..88].fill(1);
    draft
}

mod the_book {
    use super::*;

    fn book(draft: &Draft, engine: u32, allowance: u32) -> Vec<u8> {
        let mut book = vec![0; LEAST_BOOK];
        assert_eq!(oracle::run(&draft.bytes(), engine, allowance, &mut book)[0], 0);
        book
    }

    /// Outcome, and the bytes behind it, of each session.
    fn outcomes_and_fleets(book: &[u8]) -> Vec<[u8; 3]> {
        let at = |k| BLOCK + session_at(k) + 13;
        (0..usize::from(u16_at(book, 4))).map(|k| book[at(k)..at(k) + 3].try_into().unwrap()).collect()
    }

    #[test]
    fn has_the_fleet_at_14_for_every_outcome() {
        for fleets in [[0, 0, 0], [1, 2, 3], [64, 1, 0], [9, 64, 63]] {
            let draft = of_all_outcomes(fleets);
            let [one, two, three] = fleets.map(|fleet| fleet as u8);
            // Car 3 balks at 11, car 2 reneges at 15.
            for (engine, allowance, first) in [(EVENTS, ENOUGH, 1), (STEPS, 50, 0), (STEPS, ENOUGH, 1)] {
                let book = book(&draft, engine, allowance);
                assert_eq!(outcomes_and_fleets(&book), [[first, one, 0], [BALKED, three, 0], [RENEGED, two, 0]]);
            }
        }
    }

    #[test]
    fn is_else_as_without_fleets() {
        for (engine, allowance) in [(EVENTS, ENOUGH), (STEPS, 50), (STEPS, ENOUGH)] {
            let mut with = book(&of_all_outcomes([1, 64, 7]), engine, allowance);
            for k in 0..3 {
                with[BLOCK + session_at(k) + 14] = 0;
            }
            reseal(&mut with, 1);
            assert!(with == book(&of_all_outcomes([0; 3]), engine, allowance));
        }
    }

    #[test]
    fn comes_back_with_its_fleets() {
        for (engine, allowance) in [(EVENTS, ENOUGH), (STEPS, 62), (STEPS, ENOUGH)] {
            let draft = lane();
            let ran = run(&draft, engine, allowance);
            let mut book = book(&draft, engine, allowance);
            book.truncate(oracle::book::book_bytes(ran.sessions.len()));
            let (mut header, mut sessions) = ([0; 4], [9; 1024]);
            assert_eq!(oracle::read_book(&book, &mut header, &mut sessions), [0; 11]);
            for (sixteen, session) in sessions.chunks(16).zip(&ran.sessions) {
                let car = session.vehicle as usize - 1;
                assert_eq!(sixteen[5], [2, 1, 1, 2, 0, 1, 1, 2][car], "the sixth number");
            }
        }
    }
}

mod dumps {
    use super::*;
    use common::dumps::{continued, dumped, unbroken};
    use oracle::dump::sessions;

    #[test]
    fn have_the_fleets_of_their_sessions() {
        let dump = dumped(&lane().bytes(), ENOUGH);
        let fleets: Vec<[u8; 3]> =
            sessions(&dump).iter().map(|session| [session[0], session[14], session[15]]).collect();
        let by_pushing = [[1, 2, 0], [3, 1, 0], [4, 2, 0], [2, 1, 0], [7, 1, 0], [5, 0, 0], [6, 1, 0], [8, 2, 0]];
        assert_eq!(fleets, by_pushing);
    }

    #[test]
    fn go_on_with_the_fleets_that_they_have_queued() {
        let plan = lane().bytes();
        for cut in 0..=20 {
            for further in [0, 1, 2, 5, ENOUGH] {
                let whole = unbroken(&plan, (cut + further).min(ENOUGH));
                assert!(continued(&plan, &dumped(&plan, cut), further) == whole, "{cut} and {further}");
            }
        }
    }

    #[test]
    fn with_another_fleet_in_a_session_are_refused() {
        let plan = lane().bytes();
        let dump = dumped(&plan, 5);
        let from = dump.len() - BLOCK;
        for k in 0..3 {
            for (at, flip) in [(14, 1), (14, 64), (15, 1)] {
                let mut wrong = dump.clone();
                wrong[from + session_at(k) + at] ^= flip;
                reseal(&mut wrong, from / BLOCK);
                assert_eq!(continued(&plan, &wrong, 1).0[0], 14);
            }
        }
    }

    /// A dump names no plan: a car without a session shows no fleet.
    #[test]
    fn of_plans_that_differ_in_a_later_fleet_are_one() {
        let plan = |fleet| busy_until_100(&[(1, 1)], &[of(1, 10), of(fleet, 20)]).bytes();
        assert!(dumped(&plan(1), 3) == dumped(&plan(0), 3), "the second car has not arrived");
        for (fleet, counts) in [(1, [0, 1, 0, 1, 0, 1]), (0, [0, 2, 0, 1, 0, 0])] {
            let (numbers, _) = continued(&plan(fleet), &dumped(&plan(0), 3), 1);
            assert_eq!((numbers[0], &numbers[5..]), (0, &counts[..]));
        }
    }
}

mod a_late_booking {
    use super::*;
    use common::dumps::{continued, dumped, unbroken};
    use oracle::dump::{LEAST_DUMP, length};

    /// After three events car 2 waits in the one place of fleet 1.
    #[test]
    fn is_of_a_fleet_too() {
        let plan = lane().bytes();
        for (fleet, arrival, outcome) in
            [(1, 21, BALKED), (2, 21, BALKED), (0, 21, CHARGED), (1, 63, BALKED), (3, 21, BALKED)]
        {
            let car = Car { id: 9, ..of(fleet, arrival) };
            let mut new_dump = vec![0; LEAST_DUMP];
            assert_eq!(oracle::book_late(&plan, &dumped(&plan, 3), &car.behind(&plan), &mut new_dump), [0; 11]);
            new_dump.truncate(length(&new_dump));
            let mut longer = lane();
            longer.vehicles.push(car.block());
            assert!(new_dump == dumped(&longer.bytes(), 3));
            assert!(continued(&longer.bytes(), &new_dump, ENOUGH) == unbroken(&longer.bytes(), ENOUGH));
            assert_eq!(events(&longer).of(9).outcome, outcome, "fleet {fleet} at {arrival}");
        }
    }

    /// Blocks: header 1, profile 2, charger 3, eight cars.
    #[test]
    fn of_a_fleet_above_64_is_refused() {
        let plan = lane().bytes();
        for (fleet, number) in [(64, 0), (65, 7), (256, 7), (u16::MAX, 7)] {
            let car = Car { id: 9, ..of(fleet, 21) }.behind(&plan);
            let numbers = oracle::book_late(&plan, &dumped(&plan, 3), &car, &mut vec![0; LEAST_DUMP]);
            assert_eq!(numbers[..3], [number, if number == 7 { 12 } else { 0 }, 0]);
        }
    }
}
