//! Request 7, a late booking: points 9 and 10 of document 02 read closely.
mod common;

use common::dumps::{continued, counts, dumped, events, unbroken, words};
use common::{ENOUGH, bay, brief};
use oracle::blocks::{BLOCK, Block, put, seal};
use oracle::book;
use oracle::draft::{Car, Draft, charger, profile};
use oracle::dump::{LEAST_DUMP, length};

/// Number and places of the call, and the new dump of one that is accepted.
fn booked_with(plan: &[u8], dump: &[u8], car: &[u8], room: usize) -> ([u64; 3], Vec<u8>) {
    let mut new_dump = vec![9; room];
    let numbers = oracle::book_late(plan, dump, car, &mut new_dump);
    assert_eq!(numbers[3..], [0; 8], "a check's zeros");
    let len = if numbers[0] == 0 { length(&new_dump) } else { 0 };
    assert!(new_dump[len..].iter().all(|byte| *byte == 9), "bytes past the dump stay, and a refusal leaves all");
    new_dump.truncate(len);
    (numbers[..3].try_into().unwrap(), new_dump)
}

fn answer(plan: &[u8], dump: &[u8], car: &[u8]) -> [u64; 3] {
    booked_with(plan, dump, car, LEAST_DUMP).0
}

/// The new dump of a car that is booked after so many events.
fn booked(plan: &[u8], handled: u32, car: &Car) -> Vec<u8> {
    let (numbers, new_dump) = booked_with(plan, &dumped(plan, handled), &car.behind(plan), LEAST_DUMP);
    assert_eq!(numbers, [0, 0, 0]);
    new_dump
}

/// The plan with the car last.
fn longer(plan: &[u8], car: &Car) -> Vec<u8> {
    let mut draft = Draft::of(plan).unwrap();
    draft.vehicles.push(car.block());
    draft.bytes()
}

/// The bay with its own car, which arrives at 100, would renege at 1,900 and unplugs at 2,020. Blocks: header 1, profile 2,
/// charger 3, car 4.
fn one_car() -> Vec<u8> {
    bay(&[Car::default()]).bytes()
}

/// M2 to M5's second car, booked late as block 5.
fn second(wait: u64, queue_limit: u32) -> Car {
    Car { id: 2, arrival: 200, wait, queue_limit, ..Car::default() }
}

fn at(arrival: u64) -> Car {
    Car { id: 2, arrival, ..Car::default() }
}

mod the_new_dump {
    use super::*;
    use common::{block, m1_session};

    #[test]
    fn of_the_bay_before_its_first_event() {
        let new_dump = [
            block(&[(0, b"DUMP"), (8, &[4])], 0x504d_5549),
            block(
                &[
                    (0, &[100]),
                    (10, &[4]),
                    (16, &[200]),
                    (26, &[5]),
                    (32, &[0x6c, 0x07]),
                    (40, &[1]),
                    (42, &[4]),
                    (48, &[0xe5, 0x07]),
                    (56, &[1]),
                    (58, &[5]),
                ],
                1_183_873,
            ),
        ];
        assert!(booked(&one_car(), 0, &second(1_821, 10)) == new_dump.concat());
    }

    #[test]
    fn of_the_bay_while_its_car_charges() {
        let busy: (usize, &[u8]) = (152, &[3, 0, 4, 0]);
        let new_dump = [
            block(&[(0, b"DUMP"), (6, &[1]), (8, &[4]), (10, &[1]), (16, &[1]), busy], 0x5053_554d),
            block(
                &[
                    (0, &[200]),
                    (10, &[5]),
                    (16, &[0x6c, 0x07]),
                    (24, &[1]),
                    (26, &[4]),
                    (32, &[0xe4, 0x07]),
                    (40, &[2]),
                    (42, &[3]),
                    (48, &[0xe5, 0x07]),
                    (56, &[1]),
                    (58, &[5]),
                ],
                1_120_259,
            ),
            m1_session(0x8134_29b7),
        ];
        assert!(booked(&one_car(), 1, &second(1_821, 10)) == new_dump.concat());
    }

    #[test]
    fn of_the_bay_after_its_end() {
        let car = Car { wait: 0, ..at(2_021) };
        let new_dump = [
            block(&[(0, b"DUMP"), (8, &[2]), (10, &[1]), (16, &[3])], 0x504e_554a),
            block(&[(0, &[0xe5, 0x07]), (10, &[5]), (16, &[0xe5, 0x07]), (24, &[1]), (26, &[5])], 659_405),
            m1_session(0x8134_29b7),
        ];
        assert!(booked(&one_car(), 3, &car) == new_dump.concat());
    }

    #[test]
    fn of_a_plan_without_vehicles() {
        let none = bay(&[]).bytes();
        assert!(booked(&none, 0, &Car::default()) == dumped(&one_car(), 0));
    }

    #[test]
    fn is_the_longer_plans_at_every_cut() {
        let cars = [Car::default(), second(1_821, 10), brief(300, 0, 0), Car { idle: 5.0, ..brief(2_020, 9, 1) }];
        let plan = bay(&cars).bytes();
        let late = Car { id: 9, ..at(5_000) };
        for handled in 0..=unbroken(&plan, ENOUGH).0[3] as u32 {
            assert!(booked(&plan, handled, &late) == dumped(&longer(&plan, &late), handled), "after {handled}");
        }
    }

    #[test]
    fn what_was_done_stands() {
        let car = |arrival| Car { arrival, ..Car::default() };
        let plan = bay(&[car(0), car(3), car(1), car(2)]).bytes();
        let (old, new) = (dumped(&plan, 4), booked(&plan, 4, &Car { id: 5, wait: 1_900, ..at(4) }));
        assert_eq!((counts(&old), counts(&new)), ([3, 1, 5, 1], [3, 1, 7, 1]));
        assert_eq!(words(&new, 24, 3), [6, 7, 5], "the queue");
        assert_eq!((&old[..8], &old[10..508]), (&new[..8], &new[10..508]));
        assert!(old[2 * BLOCK..3 * BLOCK] == new[2 * BLOCK..3 * BLOCK], "the session");
        let [mut wanted, got] = [&old, &new].map(|dump| events(dump));
        wanted.insert(0, (4, 0, 8));
        wanted.insert(5, (1_904, 1, 8));
        assert_eq!(got, wanted);
    }
}

mod when_it_may_arrive {
    use super::*;

    #[test]
    fn strictly_after_the_last_handled_event() {
        let plan = one_car();
        for (handled, last) in [(1, 100), (2, 1_900), (3, 2_020)] {
            let dump = dumped(&plan, handled);
            for arrival in [0, 1, last - 1, last] {
                assert_eq!(answer(&plan, &dump, &at(arrival).behind(&plan)), [18, 0, 0], "{arrival} after {handled}");
            }
            for arrival in [last + 1, last + 2, 1_000_000] {
                assert_eq!(answer(&plan, &dump, &at(arrival).behind(&plan)), [0, 0, 0], "{arrival} after {handled}");
            }
        }
    }

    #[test]
    fn at_any_time_where_none_is_handled() {
        for plan in [one_car(), bay(&[]).bytes(), bay(&[brief(0, 0, 0)]).bytes()] {
            for arrival in [0, 1, 99, 100, 101, 1_000_000] {
                assert_eq!(answer(&plan, &dumped(&plan, 0), &at(arrival).behind(&plan)), [0, 0, 0], "{arrival}");
            }
        }
    }

    #[test]
    fn not_in_a_second_that_has_begun() {
        let plan = bay(&[brief(10, 5, 5), brief(10, 5, 5)]).bytes();
        let late = |arrival| Car { id: 9, ..brief(arrival, 0, 0) };
        let answers =
            |arrival| [0, 1, 2].map(|handled| answer(&plan, &dumped(&plan, handled), &late(arrival).behind(&plan))[0]);
        assert_eq!((answers(9), answers(10), answers(11)), ([0, 18, 18], [0, 18, 18], [0, 0, 0]));
    }

    #[test]
    fn before_events_that_are_pending() {
        let plan = one_car();
        let new_dump = booked(&plan, 1, &Car { wait: 50, ..at(150) });
        assert_eq!(events(&new_dump), [(150, 0, 5), (200, 1, 5), (1_900, 1, 4), (2_020, 2, 3)]);
    }

    #[test]
    fn by_all_64_bits_of_a_block_not_checked_yet() {
        let plan = one_car();
        let dump = dumped(&plan, 1);
        for arrival in [1_000_001, 1 << 32, (1 << 32) + 100, 1 << 63, u64::MAX] {
            assert_eq!(answer(&plan, &dump, &at(arrival).behind(&plan)), [7, 5, 0], "{arrival}");
        }
        let mut zeros = [0; BLOCK];
        assert_eq!(answer(&plan, &dump, &zeros), [18, 0, 0]);
        put(&mut zeros, 40, &101u64.to_le_bytes());
        assert_eq!(answer(&plan, &dump, &zeros), [5, 5, 0]);
    }

    /// A renege may be handled at 2,000,000, past every arrival that a plan may have.
    #[test]
    fn no_longer_after_the_last_second_of_arrivals() {
        let plan = bay(&[brief(1_000_000, 1_000_000, 0)]).bytes();
        let late = |arrival| at(arrival).behind(&plan);
        let ended = dumped(&plan, 3);
        assert_eq!([1_000_000, 2_000_000].map(|arrival| answer(&plan, &ended, &late(arrival))), [[18, 0, 0]; 2]);
        assert_eq!(answer(&plan, &ended, &late(2_000_001)), [7, 5, 0]);
    }
}

mod one_second {
    use super::*;

    #[test]
    fn unplugs_then_arrivals_then_reneges_each_by_place() {
        let long = Car { idle: 10.0, ..brief(0, 10, 10) };
        let plan = bay(&[long, brief(10, 0, 10)]).bytes();
        let late = Car { id: 9, ..brief(10, 0, 0) };
        let order = [(10, 2, 3), (10, 0, 5), (10, 0, 6), (10, 1, 4), (10, 1, 5), (10, 1, 6)];
        assert_eq!(events(&booked(&plan, 1, &late)), order);
        assert_eq!(events(&booked(&plan, 0, &late)), [&[(0, 0, 4)], &order[1..]].concat());
    }

    #[test]
    fn its_renege_in_the_second_of_others() {
        let plan = one_car();
        let reneges_at = |time: u64| events(&booked(&plan, 1, &Car { wait: time - 200, ..at(200) }))[1..].to_vec();
        assert_eq!(reneges_at(1_899), [(1_899, 1, 5), (1_900, 1, 4), (2_020, 2, 3)]);
        assert_eq!(reneges_at(1_900), [(1_900, 1, 4), (1_900, 1, 5), (2_020, 2, 3)]);
        assert_eq!(reneges_at(2_019), [(1_900, 1, 4), (2_019, 1, 5), (2_020, 2, 3)]);
        assert_eq!(reneges_at(2_020), [(1_900, 1, 4), (2_020, 2, 3), (2_020, 1, 5)]);
    }

    #[test]
    fn a_charger_is_freed_first() {
        let plan = one_car();
        let late = Car { wait: 0, queue_limit: 0, ..at(2_020) };
        let new_dump = booked(&plan, 2, &late);
        assert_eq!(events(&new_dump), [(2_020, 2, 3), (2_020, 0, 5), (2_020, 1, 5)]);
        let (numbers, _) = continued(&longer(&plan, &late), &new_dump, ENOUGH);
        assert_eq!(numbers[3..], [6, 1, 0, 0, 0, 2, 0, 0], "both charged");
    }
}

mod going_on {
    use super::*;

    /// Outcome, plug-in and unplug of the late car, and the handled events, where it was booked at a cut before 200.
    fn ends(car: &Car) -> [(u8, Option<u64>, Option<u64>, u64); 2] {
        let plan = one_car();
        [0, 1].map(|handled| {
            let whole = longer(&plan, car);
            let (numbers, book) = continued(&whole, &booked(&plan, handled, car), ENOUGH);
            assert_eq!((numbers, book.clone()), unbroken(&whole, ENOUGH));
            let session = book::read(&book).into_iter().find(|session| session.vehicle == 2).unwrap();
            (session.outcome, session.plugin, session.unplug, numbers[3])
        })
    }

    #[test]
    fn as_the_worked_cases_with_two_cars() {
        assert_eq!(ends(&second(1_800, 10)), [(2, None, None, 5); 2], "M2");
        assert_eq!(ends(&second(1_820, 10)), [(1, Some(2_020), Some(3_940), 6); 2], "M3");
        assert_eq!(ends(&second(1_821, 10)), [(1, Some(2_020), Some(3_940), 6); 2], "M4");
        assert_eq!(ends(&second(1_800, 0)), [(3, None, None, 5); 2], "M5");
    }

    #[test]
    fn with_every_count_of_a_run_planned_in_full() {
        let plan = bay(&[Car::default(), second(1_821, 10)]).bytes();
        let late = Car { id: 3, ..at(150) };
        let (whole, new_dump) = (longer(&plan, &late), booked(&plan, 1, &late));
        for further in 0..12 {
            assert_eq!(continued(&whole, &new_dump, further), unbroken(&whole, 1 + further));
        }
        let (numbers, _) = continued(&whole, &new_dump, 0);
        assert_eq!(numbers[3..], [1, 0, 2, 0, 0, 1, 0, 0], "two are yet to arrive");
    }

    #[test]
    fn from_an_ended_run() {
        let (plan, late) = (one_car(), at(2_021));
        let (whole, new_dump) = (longer(&plan, &late), booked(&plan, 3, &late));
        assert_eq!(continued(&plan, &dumped(&plan, 3), 0).0[3..], [3, 1, 0, 0, 0, 1, 0, 0]);
        assert_eq!(continued(&whole, &new_dump, 0).0[3..], [3, 0, 1, 0, 0, 1, 0, 0]);
        assert_eq!(continued(&whole, &new_dump, ENOUGH).0[3..], [6, 1, 0, 0, 0, 2, 0, 0]);
    }

    #[test]
    fn neither_plan_takes_the_others_dump() {
        let (plan, late) = (one_car(), at(5_000));
        let whole = longer(&plan, &late);
        for handled in 0..4 {
            let (old, new) = (dumped(&plan, handled), booked(&plan, handled, &late));
            assert_eq!([continued(&plan, &new, 1).0[0], continued(&whole, &old, 1).0[0]], [14, 14]);
        }
    }

    #[test]
    fn another_car_behind_the_first() {
        let (plan, first, second) = (one_car(), at(5_000), Car { id: 3, ..at(4_000) });
        let whole = longer(&plan, &first);
        let (numbers, new_dump) =
            booked_with(&whole, &booked(&plan, 2, &first), &second.behind(&whole), LEAST_DUMP + 1);
        assert_eq!(numbers, [0, 0, 0]);
        assert!(new_dump == dumped(&longer(&whole, &second), 2));
    }
}

mod the_longer_plan {
    use super::*;

    /// The answer to a car whose block is changed and then has its check.
    fn changed(change: impl Fn(&mut Block)) -> [u64; 3] {
        let plan = one_car();
        let mut car = at(5_000).block();
        change(&mut car);
        seal(&mut car, 5);
        answer(&plan, &dumped(&plan, 1), &car)
    }

    #[test]
    fn has_the_check_of_the_cars_new_place() {
        let plan = one_car();
        let mut car = at(5_000).block();
        for place in [0, 1, 4, 6, 5 + (1 << 16)] {
            seal(&mut car, place);
            assert_eq!(answer(&plan, &dumped(&plan, 1), &car), [5, 5, 0], "the check of place {place}");
        }
        assert_eq!(answer(&plan, &dumped(&plan, 1), &at(5_000).block()), [5, 5, 0], "no check");
        assert_eq!(changed(|_| ()), [0, 0, 0]);
    }

    #[test]
    fn has_fields_within_their_limits() {
        for at in [14, 15, 61, 62, 507] {
            assert_eq!(changed(|car| car[at] = 1), [7, 5, 0], "byte {at}");
        }
        assert_eq!([64, 65].map(|fleet| changed(|car| car[60] = fleet)[0]), [0, 7]);
        assert_eq!(changed(|car| car[8] = 6), [7, 5, 0]);
        assert_eq!(changed(|car| put(car, 8, &[1, 6])), [7, 5, 0]);
        assert_eq!(changed(|car| put(car, 48, &1_000_001u64.to_le_bytes())), [7, 5, 0]);
        assert_eq!(changed(|car| put(car, 48, &1_000_000u64.to_le_bytes())), [0, 0, 0]);
        assert_eq!(changed(|car| put(car, 16, &(-0.0f64).to_bits().to_le_bytes())), [7, 5, 0]);
    }

    #[test]
    fn has_each_id_once_and_profiles_for_all() {
        assert_eq!(changed(|car| car[0] = 1), [10, 5, 0]);
        assert_eq!(changed(|car| car[3] = 1), [0, 0, 0]);
        assert_eq!(changed(|car| car[4] = 2), [11, 5, 0]);
        assert_eq!(changed(|car| put(car, 0, &[1, 0, 0, 0, 2])), [10, 5, 0]);
        assert_eq!(changed(|car| put(car, 0, &[1, 0, 0, 0, 2, 0, 0, 0, 7])), [7, 5, 0]);
    }

    /// Profiles 2 and 3, chargers 4 to 6 of codes 1, 2 and 1, the car 7 and the late one 8.
    #[test]
    fn has_pairs_that_charge_in_time() {
        let mut draft = bay(&[Car { codes: vec![1], ..Car::default() }]);
        draft.chargers = [(1, 1), (2, 2), (3, 1)].map(|(id, code)| charger(id, &[code], 50.0, 1_200.0, 400.0)).to_vec();
        let answers = |battery| {
            let mut draft = draft.clone();
            draft.profiles.push(profile(2, battery, &[(0.5, 1.0)]));
            let plan = draft.bytes();
            [vec![1], vec![2], vec![3]].map(|codes| {
                let late = Car { profile: 2, codes, start: 0.0, target: 1.0, ..at(5_000) };
                answer(&plan, &dumped(&plan, 1), &late.behind(&plan))
            })
        };
        assert_eq!(answers(168.0), [[0, 0, 0]; 3], "604,800 s");
        assert_eq!(answers(169.0), [[12, 8, 4], [12, 8, 5], [0, 0, 0]], "the lowest charger that fits");
    }
}

mod refusals {
    use super::*;

    /// Refused by 5 at block 2, and by 7 at block 3 once its check is good.
    fn faulty() -> Vec<u8> {
        let mut draft = bay(&[Car::default()]);
        draft.chargers[0][507] = 1;
        draft.profiles[0][508] = 1;
        draft.bytes()
    }

    #[test]
    fn in_their_order() {
        let full = bay(&vec![Car::default(); 64]).bytes();
        let (plan, dump, full_dump) = (one_car(), dumped(&one_car(), 1), dumped(&full, 1));
        // Too early, and of a wrong check, field, id and profile.
        let bad = [0; BLOCK];
        let short = LEAST_DUMP - 1;
        assert_eq!(booked_with(&[], &[], &[], short).0, [13, 0, 0]);
        assert_eq!(booked_with(&faulty(), &[], &bad, short).0, [13, 0, 0]);
        assert_eq!(booked_with(&[], &[], &[], LEAST_DUMP).0, [4, 0, 0]);
        assert_eq!(answer(&[], &dump, &bad), [4, 0, 0]);
        assert_eq!(answer(&faulty(), &[], &bad[1..]), [4, 0, 0]);
        assert_eq!(answer(&faulty(), &[], &bad), [5, 2, 0]);
        assert_eq!(answer(&full, &[], &bad), [14, 0, 0]);
        assert_eq!(answer(&full, &dump, &bad), [14, 0, 0]);
        assert_eq!(answer(&full, &full_dump, &bad), [17, 0, 0]);
        assert_eq!(answer(&plan, &[], &bad), [14, 0, 0]);
        assert_eq!(answer(&plan, &full_dump, &bad), [14, 0, 0]);
        assert_eq!(answer(&plan, &dump, &bad), [18, 0, 0]);
        assert_eq!(answer(&plan, &dumped(&plan, 0), &bad), [5, 5, 0], "none is handled");
        assert_eq!(answer(&plan, &dump, &at(101).behind(&plan)), [0, 0, 0]);
    }

    #[test]
    fn a_buffer_too_short() {
        let (plan, dump) = (one_car(), dumped(&one_car(), 1));
        for room in [0, 512, 1_536, 9_216, LEAST_DUMP - 1] {
            assert_eq!(booked_with(&plan, &dump, &at(101).behind(&plan), room).0, [13, 0, 0], "{room}");
        }
        assert_eq!(booked_with(&plan, &dump, &at(101).behind(&plan), LEAST_DUMP).0, [0, 0, 0]);
    }

    #[test]
    fn a_car_not_of_512_bytes() {
        let (plan, dump) = (one_car(), dumped(&one_car(), 1));
        let bytes = at(101).behind(&plan).repeat(3);
        for len in (0..=bytes.len()).filter(|len| *len != BLOCK) {
            assert_eq!(answer(&plan, &dump, &bytes[..len]), [4, 0, 0], "{len}");
            assert_eq!(answer(&faulty(), &dump, &bytes[..len]), [4, 0, 0], "{len}, before the plan's checks");
        }
    }

    #[test]
    fn bytes_that_are_not_the_plans_dump() {
        let (plan, car) = (one_car(), at(5_000).behind(&one_car()));
        for handled in 0..4 {
            let dump = dumped(&plan, handled);
            for len in 0..dump.len() {
                assert_eq!(answer(&plan, &dump[..len], &car), [14, 0, 0], "{len} bytes");
                let mut changed = dump.clone();
                changed[len] ^= 1;
                assert_eq!(answer(&plan, &changed, &car), [14, 0, 0], "byte {len}");
            }
            let longer = [&dump[..], &[0xa5; 700]].concat();
            assert_eq!(booked_with(&plan, &longer, &car, LEAST_DUMP), booked_with(&plan, &dump, &car, LEAST_DUMP));
            for count in [4, 5, 1 << 32, u64::from(handled) + (1 << 32), 1 << 63, u64::MAX] {
                let mut named = dump.clone();
                put(&mut named, 16, &count.to_le_bytes());
                seal(&mut named[..BLOCK], 1);
                assert_eq!(answer(&plan, &named, &car), [14, 0, 0], "{count}");
            }
        }
    }

    #[test]
    fn of_the_sixty_fifth_vehicle() {
        let car = |arrival| Car { idle: 100.0, ..brief(arrival, 5, u32::MAX) };
        let plan = bay(&vec![car(0); 63]).bytes();
        let late = |id| Car { id, ..car(3) };
        for (handled, wanted) in [(0, [0, 0, 128, 0]), (63, [62, 1, 66, 1])] {
            let new_dump = booked(&plan, handled, &late(64));
            assert_eq!(counts(&new_dump), wanted);
            let whole = longer(&plan, &late(64));
            assert!(new_dump == dumped(&whole, handled));
            assert_eq!(continued(&whole, &new_dump, ENOUGH), unbroken(&whole, ENOUGH));
            assert_eq!(answer(&whole, &new_dump, &late(65).behind(&whole)), [17, 0, 0]);
        }
    }

    /// A plan may have 113 blocks, and a late car's place is never past them.
    #[test]
    fn of_a_largest_plan() {
        let mut draft = bay(&vec![Car::default(); 63]);
        draft.profiles = (1..=16).map(|id| profile(id, 50.0, &[(0.5, 50.0)])).collect();
        draft.chargers = (1..=32).map(|id| charger(id, &[], 50.0, 1_200.0, 400.0)).collect();
        let plan = draft.bytes();
        let late = Car { id: 64, ..at(101) };
        let new_dump = booked(&plan, 1, &late);
        let whole = longer(&plan, &late);
        assert_eq!(whole.len(), 113 * BLOCK);
        assert!(new_dump == dumped(&whole, 1));
        assert_eq!(answer(&whole, &new_dump, &Car { id: 65, ..at(101) }.behind(&whole)), [17, 0, 0]);
        let mut wrong = late.behind(&plan);
        wrong[0] = 1;
        seal(&mut wrong, 113);
        assert_eq!(answer(&plan, &dumped(&plan, 1), &wrong), [10, 113, 0]);
    }
}
