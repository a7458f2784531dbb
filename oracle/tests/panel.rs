//! Request 12, cabinet registers: points 16 to 19 of document 02 read closely.
mod common;

use common::{ENOUGH, bay, brief, checked, run};
use oracle::bay::shared;
use oracle::draft::{Car, Draft, charger, profile};
use oracle::panel;
use oracle::panels::Operation::{self, Line, Read, Rounds, Write};

const FINE: [u8; 2] = [0, 0];
const NO_ADDRESS: [u8; 2] = [20, 0];
const NOT_WRITTEN: [u8; 2] = [21, 0];

/// Numbers and output of the call; what stood in the output before is 9.
fn call(plan: &[u8], script: &[u64], room: usize) -> ([u64; 11], Vec<u8>) {
    let mut out = vec![9; room];
    let numbers = panel(plan, script, &mut out);
    (numbers, out)
}

fn numbers(script: &[Operation]) -> Vec<u64> {
    script.iter().map(|operation| operation.number(0)).collect()
}

/// The answers of a script that is played whole.
fn played(site: &Draft, script: &[Operation]) -> Vec<[u8; 2]> {
    let (answered, out) = call(&site.bytes(), &numbers(script), 2 * script.len());
    assert_eq!(answered, [0; 11], "a check's zeros");
    out.chunks(2).map(|pair| [pair[0], pair[1]]).collect()
}

/// The answer of the last operation.
fn last(site: &Draft, script: &[Operation]) -> [u8; 2] {
    *played(site, script).last().unwrap()
}

/// The sixteen bytes of the charger at a place after these operations.
fn image(site: &Draft, place: u32, before: &[Operation]) -> [u8; 16] {
    let reads = (16 * place..16 * place + 16).map(Read);
    let script: Vec<Operation> = before.iter().copied().chain(reads).collect();
    let answers = played(site, &script).split_off(before.len());
    assert!(answers.iter().all(|answer| answer[0] == 0));
    std::array::from_fn(|at| answers[at][1])
}

fn after(site: &Draft, rounds: u32) -> [u8; 16] {
    image(site, 0, &[Rounds(rounds)])
}

fn pending(site: &Draft, before: &[Operation]) -> u8 {
    image(site, 0, before)[1]
}

fn energy(image: [u8; 16]) -> f64 {
    f64::from_le_bytes(image[8..].try_into().unwrap())
}

/// The worked bay with its one car: it plugs in in round 101, is idle after round 1,900 and freed in round 2,020.
fn one_car() -> Draft {
    bay(&[Car::default()])
}

/// One charger for two cars that charge for a round and are idle for two. The first plugs in in round 1 and is freed in round
/// 3, in which the second plugs in; that is freed in round 6.
fn two_cars() -> Draft {
    let car = |arrival, wait| Car { idle: 2.0, ..brief(arrival, wait, 1) };
    bay(&[car(0, 0), car(1, 100)])
}

/// Chargers with ids that fall, each for the cars of its own connector; the car of id 7 comes to the second one.
fn three_chargers() -> Draft {
    let mut site = bay(&[brief(0, 0, 0)]);
    site.vehicles = vec![Car { id: 7, codes: vec![2], idle: 30.0, ..brief(3, 0, 0) }.block()];
    site.chargers = [(9, 1), (8, 2), (2, 3)].map(|(id, code)| charger(id, &[code], 50.0, 1_200.0, 400.0)).into();
    site
}

mod an_operation {
    use super::*;

    #[test]
    fn has_its_kind_in_bits_0_and_1() {
        let (numbers, out) =
            call(&two_cars().bytes(), &[0x3_0000_0000, 0x1_0000_0001, 0x1_0000_0202, 0x1_0000_0001, 3], 10);
        assert_eq!(numbers, [0; 11]);
        assert_eq!(
            out,
            [0, 0, 0, 3, 0, 0, 0, 1, 0, 0],
            "3 rounds, pending read, 2 written to it, read again, the line"
        );
    }

    #[test]
    fn has_bits_that_are_not_looked_at() {
        let script =
            numbers(&[Rounds(3), Read(1), Write(1, 2), Read(1), Write(2, 1), Line(0), Read(5), Line(1), Write(0, 0)]);
        let plan = two_cars().bytes();
        let plain = call(&plan, &script, 18);
        for bit in (2..8).chain(16..32) {
            let more: Vec<u64> = script.iter().map(|number| number | 1 << bit).collect();
            assert!(call(&plan, &more, 18) == plain, "bit {bit}");
        }
        // Bits 8 to 15 are looked at in a write alone.
        let more: Vec<u64> =
            script.iter().map(|number| if number & 3 == 2 { *number } else { number | 0xff00 }).collect();
        assert!(call(&plan, &more, 18) == plain);
    }

    #[test]
    fn has_the_byte_in_bits_8_to_15() {
        for byte in 0..=255_u64 {
            let script = [0x2_0000_0002 | byte << 8, 0x2_0000_0001];
            assert_eq!(call(&one_car().bytes(), &script, 4).1, [0, 0, 0, byte as u8 & 3]);
        }
    }

    #[test]
    fn has_the_argument_in_bits_32_to_63() {
        let mut site = bay(&[Car { codes: vec![1], ..brief(70_000, 0, 0) }]);
        site.chargers =
            (0..32).map(|id| charger(id, if id == 31 { &[1] } else { &[2] }, 50.0, 1_200.0, 400.0)).collect();
        assert_eq!(image(&site, 31, &[Rounds(70_000)])[0], 0);
        assert_eq!(image(&site, 31, &[Rounds(70_001)])[0], 5);
        assert_eq!(last(&site, &[Rounds(70_001), Write(16 * 31 + 2, 1), Line(31)]), [0, 1]);
    }

    #[test]
    fn takes_two_bytes_of_the_output() {
        let script = numbers(&[Rounds(3), Read(1), Read(100), Write(3, 0)]);
        let whole = [0, 0, 0, 3, 20, 0, 21, 0];
        for room in 0..12 {
            let (numbers, out) = call(&two_cars().bytes(), &script, room);
            assert_eq!(numbers, [0; 11]);
            let len = (room / 2 * 2).min(8);
            assert_eq!(out[..len], whole[..len], "{room}");
            assert!(out[len..].iter().all(|byte| *byte == 9), "{room}: bytes past the answers stay");
        }
    }

    #[test]
    fn need_not_be_there() {
        for room in [0, 1, 2, 7] {
            assert_eq!(call(&one_car().bytes(), &[], room), ([0; 11], vec![9; room]));
        }
    }

    #[test]
    fn without_room_does_nothing() {
        let mut out = [9; 2];
        let script = numbers(&[Read(0), Write(99, 0), Rounds(u32::MAX), Rounds(u32::MAX)]);
        assert_eq!(panel(&one_car().bytes(), &script, &mut out), [0; 11], "no rounds are asked for");
        assert_eq!(out, FINE);
    }
}

mod a_cabinet {
    use super::*;

    #[test]
    fn is_zero_at_first() {
        assert_eq!(image(&one_car(), 0, &[]), [0; 16]);
        assert_eq!(after(&one_car(), 100), [0; 16]);
    }

    #[test]
    fn shows_a_charging_car() {
        let mut site = bay(&[]);
        site.vehicles = vec![Car { id: 0x8102_0304, ..Car::default() }.block()];
        let kilowatt_hours = 50.0 * (1.0 / 3_600.0);
        let mut expected = [3, 1, 0, 0, 4, 3, 2, 0x81, 0, 0, 0, 0, 0, 0, 0, 0];
        expected[8..].copy_from_slice(&f64::to_le_bytes(kilowatt_hours));
        assert_eq!(after(&site, 101), expected);
        assert_eq!(expected[8..], [0x1c, 0xc7, 0x71, 0x1c, 0xc7, 0x71, 0x8c, 0x3f], "the lowest byte first");
        let energies: Vec<f64> = (101..120).map(|rounds| energy(after(&site, rounds))).collect();
        let mut sum = 0.0;
        for energy in energies {
            sum += kilowatt_hours;
            assert_eq!(energy.to_bits(), f64::to_bits(sum), "so far, round by round");
        }
    }

    /// Point 19.
    #[test]
    fn shows_an_idle_car_until_it_is_freed() {
        let site = one_car();
        let session = run(&site, 1, ENOUGH).sessions[0].clone();
        assert_eq!(session.unplug, Some(2_019));
        assert_eq!(after(&site, 1_899)[0], 3);
        for rounds in [1_900, 1_901, 2_000, 2_019] {
            let image = after(&site, rounds);
            assert_eq!(image[..8], [5, 1, 0, 0, 1, 0, 0, 0], "{rounds}: occupied and idle");
            assert_eq!(energy(image).to_bits(), session.energy.unwrap().to_bits());
        }
        assert_eq!(after(&site, 2_020), [0, 3, 0, 0, 0, 0, 0, 0, 0, 0, 0, 0, 0, 0, 0, 0]);
    }

    #[test]
    fn keeps_pending_and_enable_when_it_is_free() {
        let free = image(&one_car(), 0, &[Write(2, 2), Rounds(2_020)]);
        assert_eq!(free[..4], [0, 3, 2, 0]);
        assert_eq!(free[4..], [0; 12]);
    }

    #[test]
    fn has_its_place_in_the_plan() {
        let site = three_chargers();
        let rounds = Rounds(4);
        assert_eq!(image(&site, 0, &[rounds]), [0; 16]);
        assert_eq!(image(&site, 1, &[rounds])[..8], [5, 1, 0, 0, 7, 0, 0, 0], "id 7, which is no charger's id");
        assert_eq!(image(&site, 2, &[rounds]), [0; 16]);
    }

    #[test]
    fn shows_the_id_0() {
        let mut site = bay(&[]);
        site.vehicles = vec![Car { id: 0, ..Car::default() }.block()];
        assert_eq!(after(&site, 101)[..8], [3, 1, 0, 0, 0, 0, 0, 0]);
    }

    /// A car from the queue charges from the next round on.
    #[test]
    fn has_no_energy_yet_in_the_round_that_takes_a_queued_car() {
        let site = bay(&[Car { idle: 2.0, ..brief(0, 0, 0) }, Car { arrival: 1, wait: 100, ..Car::default() }]);
        assert_eq!(after(&site, 3)[..], [3, 3, 0, 0, 2, 0, 0, 0, 0, 0, 0, 0, 0, 0, 0, 0]);
        assert!(energy(after(&site, 4)) > 0.0);
    }

    #[test]
    fn shows_energies_under_even_shares() {
        let site = shared(1.0);
        let share = |watts: f64| watts / 1_000.0 * (1.0 / 3_600.0);
        let images = [0, 1, 2].map(|place| image(&site, place, &[Rounds(2)]));
        assert_eq!(images.map(energy), [100.0, 450.0, 450.0].map(share));
        assert_eq!(images.map(|image| image[0]), [3; 3]);
        assert_eq!(image(&site, 3, &[Rounds(2)])[0], 5);
    }

    #[test]
    fn is_one_of_32_at_most() {
        let mut site = bay(&[]);
        site.chargers = (0..32).map(|id| charger(id, &[], 50.0, 1_200.0, 400.0)).collect();
        assert_eq!(last(&site, &[Read(511)]), FINE);
        assert_eq!(last(&site, &[Read(512)]), NO_ADDRESS);
        assert_eq!(last(&site, &[Line(31)]), FINE);
        assert_eq!(last(&site, &[Line(32)]), NO_ADDRESS);
    }
}

mod events {
    use super::*;

    #[test]
    fn started_comes_at_plug_in() {
        assert_eq!(pending(&one_car(), &[Rounds(100)]), 0);
        assert_eq!(pending(&one_car(), &[Rounds(101)]), 1);
    }

    /// The second car comes in round 201 and plugs in in round 2,020, in which the first has gone.
    #[test]
    fn started_does_not_come_at_arrival() {
        let site = bay(&[Car::default(), Car { arrival: 200, wait: 1_900, ..Car::default() }]);
        let cleared = [Rounds(150), Write(1, 3), Rounds(1_869)];
        assert_eq!(pending(&site, &cleared), 0);
        assert_eq!(pending(&site, &[&cleared[..], &[Rounds(1)]].concat()), 3);
    }

    #[test]
    fn ended_comes_when_the_charger_is_freed() {
        for (rounds, expected) in [(1_899, 1), (1_900, 1), (2_019, 1), (2_020, 3)] {
            assert_eq!(pending(&one_car(), &[Rounds(rounds)]), expected, "{rounds}");
        }
    }

    #[test]
    fn both_come_in_a_round_that_takes_a_queued_car() {
        let site = two_cars();
        let cleared = [Rounds(2), Write(1, 3), Rounds(1)];
        assert_eq!(pending(&site, &cleared), 3);
        assert_eq!(after(&site, 3)[..8], [3, 3, 0, 0, 2, 0, 0, 0]);
        let rounds = (0..8).map(|rounds| pending(&site, &[Rounds(rounds), Write(1, 3), Rounds(1)]));
        assert_eq!(rounds.collect::<Vec<u8>>(), [1, 0, 3, 0, 0, 2, 0, 0], "of each round alone");
    }

    #[test]
    fn come_from_no_car_that_gets_no_charger() {
        let site = bay(&[Car { idle: 500.0, ..brief(0, 0, 0) }, brief(10, 5, 1), brief(20, 5, 0)]);
        assert_eq!(run(&site, 1, ENOUGH).counts()[4..], [1, 1], "one reneges and one balks");
        assert_eq!(pending(&site, &[Rounds(5), Write(1, 3), Rounds(400)]), 0);
    }

    #[test]
    fn are_of_their_own_cabinet() {
        let site = three_chargers();
        let rounds = [Rounds(100)];
        assert_eq!([0, 1, 2].map(|place| image(&site, place, &rounds)[1]), [0, 3, 0]);
    }

    /// Many rounds leave what the single ones leave.
    #[test]
    fn are_all_seen_in_many_rounds() {
        let site = two_cars();
        for rounds in 0..8 {
            let single = vec![Rounds(1); rounds as usize];
            assert_eq!(after(&site, rounds), image(&site, 0, &single), "{rounds}");
        }
    }
}

mod pending_bits {
    use super::*;

    #[test]
    fn are_cleared_by_ones() {
        for byte in 0..=255 {
            assert_eq!(pending(&two_cars(), &[Rounds(3), Write(1, byte)]), 3 & !byte, "{byte:#x}");
        }
    }

    #[test]
    fn stay_when_they_are_read() {
        assert_eq!(played(&two_cars(), &[Rounds(3), Read(1), Read(1), Read(1)])[1..], [[0, 3]; 3]);
    }

    #[test]
    fn are_not_set_by_a_write() {
        for byte in 0..=255 {
            assert_eq!(pending(&one_car(), &[Write(1, byte)]), 0);
        }
    }

    /// Events are in rounds 1, 3 (both) and 6.
    #[test]
    fn are_set_by_what_comes_after_the_clearing() {
        let events = [(1, 1), (3, 1), (3, 2), (6, 2)];
        for (cleared, byte, rounds) in
            (0..8).flat_map(|r| (1..4).flat_map(move |byte| (r..8).map(move |to| (r, byte, to))))
        {
            let since = |bit: u8| if byte & bit > 0 { cleared } else { 0 };
            let came = |bit: u8| events.iter().any(|(round, of)| *of == bit && since(bit) < *round && *round <= rounds);
            let expected = [1, 2].into_iter().filter(|bit| came(*bit)).sum::<u8>();
            let script = [Rounds(cleared), Write(1, byte), Rounds(rounds - cleared)];
            assert_eq!(pending(&two_cars(), &script), expected, "{byte} written after {cleared}, read after {rounds}");
        }
    }

    #[test]
    fn of_one_cabinet_are_cleared_alone() {
        let mut site = bay(&[brief(0, 0, 0), brief(0, 0, 0)]);
        site.chargers.push(charger(2, &[], 50.0, 1_200.0, 400.0));
        let script = [Rounds(10), Write(17, 1), Write(2, 3)];
        assert_eq!([0, 1].map(|place| image(&site, place, &script)[1..3].to_vec()), [vec![3, 3], vec![2, 0]]);
    }
}

mod enable {
    use super::*;

    #[test]
    fn takes_bits_0_and_1_of_a_byte() {
        for byte in 0..=255 {
            assert_eq!(last(&one_car(), &[Write(2, byte), Read(2)]), [0, byte & 3], "{byte:#x}");
            assert_eq!(last(&one_car(), &[Write(2, !byte), Write(2, byte), Read(2)]), [0, byte & 3], "nothing is kept");
        }
    }

    #[test]
    fn stays_through_rounds_and_clearings() {
        assert_eq!(image(&two_cars(), 0, &[Write(2, 2), Rounds(3), Write(1, 3), Rounds(100)])[1..3], [2, 2]);
    }

    #[test]
    fn hides_no_event() {
        for byte in 0..4 {
            assert_eq!(pending(&two_cars(), &[Write(2, byte), Rounds(3)]), 3);
            assert_eq!(pending(&two_cars(), &[Rounds(3), Write(2, byte)]), 3);
        }
    }
}

mod a_line {
    use super::*;

    #[test]
    fn is_raised_while_pending_and_enable_share_a_bit() {
        for (pending, enable) in (0..4).flat_map(|pending| (0..4).map(move |enable| (pending, enable))) {
            let script = [Rounds(3), Write(1, !pending), Write(2, enable), Read(1), Line(0)];
            let raised = u8::from(pending & enable > 0);
            assert_eq!(played(&two_cars(), &script)[3..], [[0, pending], [0, raised]], "enable is {enable}");
        }
    }

    #[test]
    fn goes_up_and_down() {
        let script =
            [Line(0), Rounds(1), Line(0), Write(2, 1), Line(0), Line(0), Write(1, 1), Line(0), Rounds(2), Line(0)];
        let lines = [0, 2, 4, 5, 7, 9].map(|k| played(&two_cars(), &script)[k][1]);
        assert_eq!(lines, [0, 0, 1, 1, 0, 1]);
    }

    #[test]
    fn is_asked_for_by_place() {
        let site = three_chargers();
        let script = [Rounds(4), Write(18, 1), Line(0), Line(1), Line(2), Line(3), Line(16), Line(17), Line(u32::MAX)];
        let lines = &played(&site, &script)[2..];
        assert_eq!(lines, [FINE, [0, 1], FINE, NO_ADDRESS, NO_ADDRESS, NO_ADDRESS, NO_ADDRESS]);
    }
}

mod what_an_operation_is_refused_by {
    use super::*;

    #[test]
    fn twenty_past_the_images() {
        let far =
            [16, 17, 18, 19, 31, 32, 255, 256, 257, 0x1_0000, 0x1_0001, 1 << 28, 1 << 31, u32::MAX - 14, u32::MAX];
        for address in far {
            for operation in [Read(address), Write(address, 0), Write(address, 255)] {
                assert_eq!(last(&one_car(), &[operation]), NO_ADDRESS, "{operation}");
            }
        }
        for address in 0..16 {
            assert_eq!(last(&one_car(), &[Read(address)])[0], 0);
        }
    }

    #[test]
    fn twenty_one_within_them() {
        for address in 0..48 {
            let expected = if [1, 2].contains(&(address % 16)) { FINE } else { NOT_WRITTEN };
            for byte in [0, 1, 3, 255] {
                assert_eq!(last(&three_chargers(), &[Write(address, byte)]), expected, "{address}");
                assert_eq!(last(&three_chargers(), &[Write(address + 48, byte)]), NO_ADDRESS, "{address} and 48");
            }
        }
    }

    #[test]
    fn leaves_everything_and_the_script_goes_on() {
        let site = two_cars();
        let written = (0..16).filter(|at| ![1, 2].contains(at)).map(|at| Write(at, 255));
        let refused = written.chain((16..64).flat_map(|at| [Read(at), Write(at, 255), Line(at)]));
        let script: Vec<Operation> = [Write(2, 3), Rounds(3)].into_iter().chain(refused).collect();
        assert_eq!(image(&site, 0, &script), image(&site, 0, &script[..2]));
        assert_eq!(last(&site, &[&script[..], &[Rounds(1), Line(0)]].concat()), [0, 1]);
    }

    #[test]
    fn every_address_where_there_is_no_charger() {
        let mut site = one_car();
        site.chargers.clear();
        for operation in [Read(0), Write(0, 0), Write(1, 1), Write(2, 1), Line(0), Read(u32::MAX)] {
            assert_eq!(last(&site, &[Rounds(5), operation]), NO_ADDRESS);
        }
    }
}

mod what_a_call_is_refused_by {
    use super::*;

    fn answer(plan: &[u8], script: &[Operation], room: usize) -> [u64; 3] {
        let (numbers, out) = call(plan, &numbers(script), room);
        assert_eq!(numbers[3..], [0; 8]);
        assert!(numbers[0] == 0 || out.iter().all(|byte| *byte == 9), "a refused call leaves the output");
        numbers[..3].try_into().unwrap()
    }

    const BY_2: [u64; 3] = [2, 0, 0];

    #[test]
    fn more_than_ten_million_rounds() {
        let plan = two_cars().bytes();
        for fine in [
            &[Rounds(ENOUGH)][..],
            &[Rounds(4_000_000), Rounds(6_000_000)],
            &[Rounds(1), Rounds(ENOUGH - 1), Rounds(0)],
        ] {
            assert_eq!(answer(&plan, fine, 20), [0, 0, 0]);
        }
        for more in [&[Rounds(ENOUGH + 1)][..], &[Rounds(4_000_000), Read(0), Rounds(6_000_001)], &[Rounds(u32::MAX)]] {
            assert_eq!(answer(&plan, more, 20), BY_2);
        }
    }

    #[test]
    fn a_sum_of_more_than_32_bits() {
        let plan = two_cars().bytes();
        for sum in [vec![u32::MAX, 1], vec![u32::MAX, 6], vec![1 << 31, 1 << 31], vec![1 << 31; 4], vec![u32::MAX; 9]] {
            let script: Vec<Operation> = sum.into_iter().map(Rounds).collect();
            assert_eq!(answer(&plan, &script, 100), BY_2);
        }
        // 9,988,297 times 430 is 2^32 and 414.
        assert_eq!(answer(&plan, &[Rounds(9_988_297); 430], 860), BY_2);
    }

    #[test]
    fn the_rounds_of_what_is_played_alone() {
        let plan = two_cars().bytes();
        let script = [Rounds(ENOUGH), Read(u32::MAX), Write(u32::MAX, 1), Line(u32::MAX), Rounds(1)];
        for (room, expected) in [(10, BY_2), (11, BY_2), (9, [0; 3]), (8, [0; 3]), (1, [0; 3]), (0, [0; 3])] {
            assert_eq!(answer(&plan, &script, room), expected, "{room}");
        }
    }

    #[test]
    fn the_plan_after_the_rounds() {
        let good = bay(&[Car { start: 0.0, target: 1.0, ..Car::default() }]);
        let mut slow = good.clone();
        slow.profiles[0] = profile(1, 169.0, &[(0.5, 1.0)]);
        let mut used = good.clone();
        used.vehicles.push(good.vehicles[0]);
        let mut damaged = good.bytes();
        damaged[1_000] = 1;
        let plans =
            [(Vec::new(), [4, 0, 0]), (damaged, [5, 2, 0]), (used.bytes(), [10, 5, 0]), (slow.bytes(), [12, 4, 3])];
        for (plan, expected) in plans {
            assert_eq!(checked(&plan), expected);
            assert_eq!(answer(&plan, &[Rounds(ENOUGH), Read(0), Write(99, 0)], 6), expected);
            assert_eq!(answer(&plan, &[], 0), expected, "whatever the script");
            assert_eq!(answer(&plan, &[Rounds(ENOUGH), Rounds(1)], 4), BY_2);
        }
    }
}

mod rounds {
    use super::*;

    #[test]
    fn after_the_end_do_nothing() {
        for site in [one_car(), two_cars(), three_chargers(), bay(&[])] {
            let ended = run(&site, 1, ENOUGH).used() as u32;
            let before = [Write(2, 2), Rounds(ended), Write(1, 1)];
            let places = 0..site.chargers.len() as u32;
            for place in places {
                let at_the_end = image(&site, place, &before);
                for further in [0, 1, 5, ENOUGH - ended] {
                    let later = [&before[..], &[Rounds(further)]].concat();
                    assert_eq!(image(&site, place, &later), at_the_end, "{further}");
                }
            }
        }
    }

    #[test]
    fn add_up() {
        let site = one_car();
        let whole = after(&site, 1_950);
        for parts in [&[1_000, 950][..], &[0, 1_950], &[100, 1, 1_849], &[1_949, 1, 0]] {
            let parts: Vec<Operation> = parts.iter().map(|part| Rounds(*part)).collect();
            assert_eq!(image(&site, 0, &parts), whole);
        }
    }

    /// Reads, writes and lines fall outside rounds.
    #[test]
    fn are_taken_by_no_other_operation() {
        let site = one_car();
        let between: Vec<Operation> = (0..500).flat_map(|k| [Read(k % 16), Write(k % 16, 0), Line(0)]).collect();
        let script = [&[Rounds(50)][..], &between, &[Rounds(51)]].concat();
        assert_eq!(image(&site, 0, &script), after(&site, 101));
    }

    /// The book of as many rounds has an open session for each occupied charger.
    #[test]
    fn are_those_of_a_run() {
        let site = two_cars();
        for rounds in 0..8 {
            let open: Vec<u32> =
                run(&site, 1, rounds).sessions.iter().filter(|s| s.outcome == 0).map(|s| s.vehicle).collect();
            let image = after(&site, rounds);
            let shown = if image[0] & 1 > 0 { vec![u32::from(image[4])] } else { Vec::new() };
            assert_eq!(shown, open, "{rounds}");
        }
    }
}
