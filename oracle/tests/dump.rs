//! Request 1, dump and continue: points 1 to 4 of document 02 read closely.
mod common;

use common::dumps::{continued, counts, dumped, events, unbroken, words};
use common::{ENOUGH, bay, brief};
use oracle::blocks::{BLOCK, put, put_f64, seal, u64_at};
use oracle::book::LEAST_BOOK;
use oracle::draft::{Car, Draft, charger};
use oracle::dump::LEAST_DUMP;
use oracle::generate;

fn answer(plan: &[u8], dump: &[u8]) -> u64 {
    let (numbers, _) = continued(plan, dump, 1);
    assert!(numbers[0] == 0 || numbers[1..] == [0; 10]);
    numbers[0]
}

mod the_layout {
    use super::*;
    use common::{block, m1_session};

    /// The bay's blocks: header 1, profile 2, charger 3, car 4.
    #[test]
    fn of_the_bay_after_each_event() {
        let plan = bay(&[Car::default()]).bytes();
        let after_0 = [
            block(&[(0, b"DUMP"), (8, &[2])], 0x504d_5547),
            block(&[(0, &[100]), (10, &[4]), (16, &[0x6c, 0x07]), (24, &[1]), (26, &[4])], 526_291),
        ];
        let busy: (usize, &[u8]) = (152, &[3, 0, 4, 0]);
        let after_1 = [
            block(&[(0, b"DUMP"), (6, &[1]), (8, &[2]), (10, &[1]), (16, &[1]), busy], 0x5053_554b),
            block(&[(0, &[0x6c, 0x07]), (8, &[1]), (10, &[4]), (16, &[0xe4, 0x07]), (24, &[2]), (26, &[3])], 462_677),
            m1_session(0x8134_29b7),
        ];
        let after_2 = [
            block(&[(0, b"DUMP"), (6, &[1]), (8, &[1]), (10, &[1]), (16, &[2]), busy], 0x5053_554b),
            block(&[(0, &[0xe4, 0x07]), (8, &[2]), (10, &[3])], 198_632),
            m1_session(0x8134_29b7),
        ];
        let after_3 = [block(&[(0, b"DUMP"), (10, &[1]), (16, &[3])], 0x504e_5548), m1_session(0x8134_29b6)];
        assert!(dumped(&plan, 0) == after_0.concat());
        assert!(dumped(&plan, 1) == after_1.concat());
        assert!(dumped(&plan, 2) == after_2.concat());
        for allowance in [3, 4, ENOUGH] {
            assert!(dumped(&plan, allowance) == after_3.concat());
        }
    }

    #[test]
    fn of_no_vehicles_is_a_header() {
        let header = block(&[(0, b"DUMP")], 0x504d_5545);
        for draft in [bay(&[]), Draft::default()] {
            assert!(dumped(&draft.bytes(), 5) == header);
            assert_eq!(answer(&draft.bytes(), &header), 0);
        }
    }

    #[test]
    fn the_queue_stands_in_its_own_order() {
        let car = |arrival| Car { arrival, ..Car::default() };
        let plan = bay(&[car(0), car(3), car(1), car(2)]).bytes();
        let dump = dumped(&plan, 4);
        assert_eq!(counts(&dump), [3, 1, 5, 1]);
        assert_eq!(words(&dump, 24, 4), [6, 7, 5, 0], "blocks 4 to 7 are the cars'");
        assert_eq!(words(&dump, 152, 4), [3, 4, 0, 0]);
    }

    #[test]
    fn busy_chargers_stand_in_plan_order_and_close_up() {
        let on = |code, arrival| Car { codes: vec![code], arrival, ..Car::default() };
        let mut draft = bay(&[on(3, 0), on(1, 1)]);
        draft.chargers = [(1, 1), (2, 2), (3, 3)].map(|(id, code)| charger(id, &[code], 50.0, 1_200.0, 400.0)).to_vec();
        let dump = dumped(&draft.bytes(), 2);
        assert_eq!(words(&dump, 152, 6), [3, 7, 5, 6, 0, 0], "blocks 3 to 5 are the chargers'");
        assert_eq!(words(&dump, 24, 2), [0, 0]);
    }

    #[test]
    fn events_stand_in_pop_order() {
        let long = Car { idle: 10.0, ..brief(0, 10, 10) };
        let plan = bay(&[long, brief(10, 0, 10), brief(10, 0, 10)]).bytes();
        let order = [(10, 2, 3), (10, 0, 5), (10, 0, 6), (10, 1, 4), (10, 1, 5), (10, 1, 6)];
        assert_eq!(events(&dumped(&plan, 1)), order, "unplug, arrivals, reneges, each by place");
        let before = dumped(&plan, 0);
        assert_eq!(events(&before), [&[(0, 0, 4)], &order[1..]].concat());
    }

    #[test]
    fn a_free_charger_is_not_busy() {
        let plan = bay(&[brief(0, 0, 0), brief(5, 9, 0)]).bytes();
        assert_eq!([1, 2].map(|cut| counts(&dumped(&plan, cut))[1]), [1, 0], "a stay of no length");
    }
}

mod the_largest {
    use super::*;

    /// At second 0, 64 cars that wait for 5 s and stay for 100; the last 32 wait in no longer queue than this.
    fn crowd(chargers: u32, queue_limit: u32) -> Vec<u8> {
        let car = |queue_limit| Car { idle: 100.0, ..brief(0, 5, queue_limit) };
        let mut draft = bay(&[vec![car(u32::MAX); 32], vec![car(queue_limit); 32]].concat());
        draft.chargers = (1..=chargers).map(|id| charger(id, &[], 50.0, 1_200.0, 400.0)).collect();
        draft.bytes()
    }

    #[test]
    fn sixty_four_queued() {
        let plan = crowd(0, u32::MAX);
        let dump = dumped(&plan, 64);
        assert_eq!((counts(&dump), dump.len()), ([64, 0, 64, 0], 4 * BLOCK));
        assert_eq!(words(&dump, 24, 65), (3..67).chain([0]).collect::<Vec<u16>>());
        assert_eq!(continued(&plan, &dump, ENOUGH), unbroken(&plan, ENOUGH));
    }

    #[test]
    fn thirty_two_busy_chargers() {
        let plan = crowd(32, u32::MAX);
        let dump = dumped(&plan, 64);
        assert_eq!((counts(&dump), dump.len()), ([32, 32, 96, 32], (1 + 4 + 7) * BLOCK));
        let pairs: Vec<u16> = (0..32).flat_map(|k| [3 + k, 35 + k]).collect();
        assert_eq!((words(&dump, 152, 64), words(&dump, 280, 114)), (pairs, vec![0; 114]));
        assert_eq!(words(&dump, 24, 33), (67..99).chain([0]).collect::<Vec<u16>>());
        assert_eq!(continued(&plan, &dump, ENOUGH), unbroken(&plan, ENOUGH));
    }

    /// A vehicle has two pending events at most, so that there are never more than 128.
    #[test]
    fn five_blocks_of_events() {
        let plan = crowd(1, 0);
        let dump = dumped(&plan, 0);
        assert_eq!((counts(&dump), dump.len()), ([0, 0, 128, 0], 6 * BLOCK));
        let order: Vec<_> = (4..68).map(|car| (0, 0, car)).chain((4..68).map(|car| (5, 1, car))).collect();
        assert_eq!(events(&dump), order);
        assert!(dump[2 * BLOCK - 16..2 * BLOCK - 4].iter().all(|byte| *byte == 0), "31 events a block");
        assert_eq!(u64_at(&dump, 6 * BLOCK - 512 + 4 * 16), 0, "four in the last");
    }

    #[test]
    fn eighteen_blocks() {
        let plan = crowd(32, 0);
        let dump = dumped(&plan, 64);
        assert_eq!((counts(&dump), dump.len()), ([0, 32, 96, 64], 18 * BLOCK));
        assert_eq!(continued(&plan, &dump, ENOUGH), unbroken(&plan, ENOUGH));
    }

    #[test]
    fn no_dump_is_longer() {
        let mut longest = 0;
        for index in 0..40 {
            let case = generate::shaped("crowd", &mut oracle::draw::Draw::new(3, index));
            for cut in (0..200).step_by(9).filter(|_| oracle::check(&case.plan)[0] == 0) {
                longest = longest.max(dumped(&case.plan, cut).len());
            }
        }
        assert!((8 * BLOCK..=18 * BLOCK).contains(&longest), "{longest}");
    }
}

mod going_on {
    use super::*;

    fn two_cars() -> Vec<u8> {
        bay(&[Car::default(), Car { arrival: 200, wait: 1_821, ..Car::default() }]).bytes()
    }

    #[test]
    fn used_counts_from_the_start() {
        let plan = two_cars();
        for (cut, further, used, ended) in [(0, 0, 0, 0), (2, 0, 2, 0), (2, 3, 5, 0), (2, 4, 6, 1), (5, ENOUGH, 6, 1)] {
            let (numbers, book) = continued(&plan, &dumped(&plan, cut), further);
            assert_eq!((numbers[3], numbers[4]), (used, ended));
            assert_eq!((u64_at(&book, 8), u64::from(book[7])), (used, ended));
        }
    }

    #[test]
    fn an_ended_run_stays_as_it_is() {
        let plan = two_cars();
        let dump = dumped(&plan, ENOUGH);
        assert_eq!(counts(&dump), [0, 0, 0, 2]);
        for further in [0, 1, ENOUGH] {
            assert_eq!(continued(&plan, &dump, further), unbroken(&plan, 6));
        }
    }

    #[test]
    fn the_sum_may_be_above_the_most_units() {
        let plan = two_cars();
        assert_eq!(continued(&plan, &dumped(&plan, 1), ENOUGH), unbroken(&plan, ENOUGH));
        assert_eq!(continued(&plan, &dumped(&plan, 1), ENOUGH + 1).0[..3], [2, 0, 0]);
    }

    #[test]
    fn by_one_number_then_by_another() {
        let mut tried = 0;
        for index in 0..150 {
            let plan = generate::for_dumps(4, index).plan;
            let (whole, _) = unbroken(&plan, ENOUGH);
            if whole[0] != 0 || whole[3] > 24 {
                continue;
            }
            let cuts: Vec<Vec<u8>> = (0..=whole[3] as u32 + 2).map(|cut| dumped(&plan, cut)).collect();
            for first in 0..cuts.len() {
                for second in first..cuts.len() {
                    let further = (second - first) as u32;
                    let wanted = unbroken(&plan, second as u32);
                    assert_eq!(continued(&plan, &cuts[first], further), wanted);
                    for third in second..cuts.len() {
                        let rest = (third - second) as u32;
                        let at_once = continued(&plan, &cuts[first], further + rest);
                        assert_eq!(at_once, continued(&plan, &cuts[second], rest));
                    }
                }
            }
            tried += 1;
        }
        assert!(tried > 60, "{tried}");
    }

    #[test]
    fn where_two_plans_have_one_dump_either_goes_on() {
        let [one, other] = [0.75, 0.5].map(|target| bay(&[Car { target, ..Car::default() }]).bytes());
        let dump = dumped(&one, 0);
        assert!(dump == dumped(&other, 0));
        for plan in [&one, &other] {
            assert_eq!(continued(plan, &dump, ENOUGH), unbroken(plan, ENOUGH));
        }
        assert_ne!(unbroken(&one, ENOUGH), unbroken(&other, ENOUGH));
        let later = dumped(&one, 1);
        assert_eq!((answer(&one, &later), answer(&other, &later)), (0, 14), "the unplugs differ");
    }

    #[test]
    fn a_charger_that_served_nobody_yet_is_not_in_a_dump() {
        let plan = two_cars();
        let mut weaker = Draft::of(&plan).unwrap();
        put_f64(&mut weaker.chargers[0], 16, 25.0);
        let weaker = weaker.bytes();
        assert_eq!([0, 1].map(|cut| answer(&weaker, &dumped(&plan, cut))), [0, 14]);
    }
}

mod refusals {
    use super::*;

    fn plan() -> Vec<u8> {
        bay(&[Car::default()]).bytes()
    }

    fn dump_answer(plan: &[u8], engine: u32, allowance: u32, book: usize, dump: usize) -> [u64; 3] {
        let (mut book, mut dump) = (vec![7; book], vec![9; dump]);
        let numbers = oracle::dump(plan, engine, allowance, &mut book, &mut dump);
        let untouched = book.iter().all(|byte| *byte == 7) && dump.iter().all(|byte| *byte == 9);
        assert_eq!(untouched, numbers[0] != 0, "a refusal leaves both buffers");
        assert!(numbers[0] == 0 || numbers[3..] == [0; 8]);
        numbers[..3].try_into().unwrap()
    }

    /// Refused by 5 at block 2, and by 7 at block 3 once its check is good.
    fn faulty() -> Vec<u8> {
        let mut draft = bay(&[Car::default()]);
        draft.chargers[0][507] = 1;
        draft.profiles[0][508] = 1;
        draft.bytes()
    }

    #[test]
    fn of_a_dump_in_their_order() {
        let (book, dump) = (LEAST_BOOK - 1, LEAST_DUMP - 1);
        for engine in [1, 2, 255, 256, 1 << 31, u32::MAX] {
            assert_eq!(dump_answer(&[], engine, ENOUGH + 1, book, dump), [1, 0, 0]);
        }
        assert_eq!(dump_answer(&[], 0, ENOUGH + 1, book, dump), [2, 0, 0]);
        assert_eq!(dump_answer(&[], 0, ENOUGH, book, dump), [3, 0, 0]);
        assert_eq!(dump_answer(&[], 0, ENOUGH, LEAST_BOOK, dump), [13, 0, 0]);
        assert_eq!(dump_answer(&faulty(), 0, ENOUGH, LEAST_BOOK, 0), [13, 0, 0]);
        assert_eq!(dump_answer(&[], 0, ENOUGH, LEAST_BOOK, LEAST_DUMP), [4, 0, 0]);
        assert_eq!(dump_answer(&faulty(), 0, ENOUGH, LEAST_BOOK, LEAST_DUMP), [5, 2, 0]);
        assert_eq!(dump_answer(&plan(), 0, ENOUGH, LEAST_BOOK, LEAST_DUMP), [0, 0, 0]);
        assert_eq!(dump_answer(&plan(), 0, ENOUGH, LEAST_BOOK, 1_024), [13, 0, 0], "though the dump would fit");
    }

    #[test]
    fn of_a_continued_run_in_their_order() {
        let numbers = |plan: &[u8], dump: &[u8], further, book| {
            let mut book = vec![7; book];
            let numbers = oracle::resume(plan, dump, further, &mut book);
            assert_eq!(book.iter().all(|byte| *byte == 7), numbers[0] != 0);
            [numbers[0], numbers[1], numbers[2]]
        };
        let dump = dumped(&plan(), 1);
        assert_eq!(numbers(&[], &[], ENOUGH + 1, 0), [2, 0, 0]);
        assert_eq!(numbers(&[], &[], ENOUGH, LEAST_BOOK - 1), [3, 0, 0]);
        assert_eq!(numbers(&[], &[], ENOUGH, LEAST_BOOK), [4, 0, 0]);
        assert_eq!(numbers(&faulty(), &[], ENOUGH, LEAST_BOOK), [5, 2, 0]);
        assert_eq!(numbers(&faulty(), &dump, ENOUGH, LEAST_BOOK), [5, 2, 0]);
        assert_eq!(numbers(&plan(), &[], ENOUGH, LEAST_BOOK), [14, 0, 0]);
        assert_eq!(numbers(&plan(), &dump, ENOUGH, LEAST_BOOK), [0, 0, 0]);
    }

    #[test]
    fn shorter_than_the_dump() {
        for cut in 0..4 {
            let dump = dumped(&plan(), cut);
            for len in 0..dump.len() {
                assert_eq!(answer(&plan(), &dump[..len]), 14, "{len} bytes");
            }
        }
    }

    #[test]
    fn what_follows_the_dump_is_not_read() {
        for cut in 0..4 {
            let dump = dumped(&plan(), cut);
            for behind in [1, 511, 512, 513, 15_000] {
                let longer = [&dump[..], &vec![0xa5; behind]].concat();
                assert_eq!(continued(&plan(), &longer, 1), continued(&plan(), &dump, 1));
            }
            assert_eq!(answer(&plan(), &[&[0], &dump[..]].concat()), 14, "the dump is at the front");
        }
    }

    #[test]
    fn every_byte_counts() {
        let dump = dumped(&plan(), 1);
        for at in 0..dump.len() {
            for bit in 0..8 {
                let mut changed = dump.clone();
                changed[at] ^= 1 << bit;
                assert_eq!(answer(&plan(), &changed), 14, "byte {at}");
                let block = at / BLOCK;
                seal(&mut changed[block * BLOCK..(block + 1) * BLOCK], block + 1);
                let check_alone = at % BLOCK >= 508;
                assert_eq!(
                    answer(&plan(), &changed),
                    if check_alone { 0 } else { 14 },
                    "byte {at}, its check made good"
                );
            }
        }
    }

    #[test]
    fn another_handled_count() {
        let named = |dump: &[u8], count: u64| {
            let mut dump = dump.to_vec();
            put(&mut dump, 16, &count.to_le_bytes());
            seal(&mut dump[..BLOCK], 1);
            dump
        };
        let own: Vec<Vec<u8>> = (0..4).map(|cut| dumped(&plan(), cut)).collect();
        for (cut, dump) in (0..).zip(&own) {
            for count in (0..6).chain([10_000_001, cut + (1 << 32), cut + (1 << 63), 1 << 63, u64::MAX]) {
                let expected = if count == cut { 0 } else { 14 };
                assert_eq!(answer(&plan(), &named(dump, count)), expected, "after {cut}, naming {count}");
            }
        }
    }
}
