//! Request 5, reading the book back: its text, and points 6 and 7 of document 02 read closely.
mod common;

use common::{ENOUGH, bay, block, m1_session};
use oracle::blocks::{BLOCK, put, put_f64, reseal, seal, seal_all, u64_at};
use oracle::book::{self, Entry, SESSION};
use oracle::books::List;
use oracle::draft::Car;
use oracle::draw::Draw;
use oracle::{Header, Sessions, program};

/// What reading a book leaves behind: header and sessions, or the refusal's number.
fn read(bytes: &[u8]) -> Result<(Header, Sessions), u64> {
    let (mut header, mut sessions) = ([3; 4], [9; 1024]);
    let numbers = oracle::read_book(bytes, &mut header, &mut sessions);
    assert_eq!(numbers[1..], [0; 10], "places and all else are 0");
    match numbers[0] {
        0 => Ok((header, sessions)),
        number => {
            assert!(header == [3; 4] && sessions == [9; 1024], "a refusal leaves both");
            Err(number)
        }
    }
}

fn number(bytes: &[u8]) -> u64 {
    read(bytes).err().unwrap_or(0)
}

/// The book with these bytes at a place, its check made good.
fn with(book: &[u8], at: usize, bytes: &[u8]) -> Vec<u8> {
    let mut changed = book.to_vec();
    put(&mut changed, at, bytes);
    reseal(&mut changed, at / BLOCK);
    changed
}

/// The book of sessions of these outcomes, with any bits.
fn mixed(outcomes: &[u8]) -> Vec<u8> {
    List::of_outcomes(&mut Draw::new(5, 0), outcomes).book()
}

fn of_count(count: usize) -> Vec<u8> {
    mixed(&(0..count).map(|k| (k % 4) as u8).collect::<Vec<u8>>())
}

/// A session of an outcome, with no field of its own that is zero bytes.
fn full(outcome: u8) -> Entry {
    let (plugged, charged) = (outcome <= 1, outcome == 1);
    Entry {
        vehicle: 11,
        profile: 12,
        charger: plugged.then_some(13),
        connector: plugged.then_some(2),
        outcome,
        fleet: 18,
        arrival: 14,
        plugin: plugged.then_some(15),
        unplug: charged.then_some(16),
        wait: 17,
        duration: charged.then_some(1.5),
        idle: plugged.then_some(2.5),
        peak: charged.then_some(3.5),
        energy: charged.then_some(4.5),
        start: 0.25,
        end: plugged.then_some(0.75),
    }
}

fn book_of(entries: &[Entry]) -> Vec<u8> {
    List { engine: 1, ended: false, used: 5, entries: entries.to_vec() }.book()
}

/// Where session k begins in a book.
fn at(k: usize) -> usize {
    BLOCK * (1 + k / 5) + SESSION * (k % 5)
}

mod what_comes_back {
    use super::*;

    #[test]
    fn of_the_worked_bay() {
        let header = block(&[(0, b"BOOK"), (4, &[1, 0, 0, 1]), (8, &[3])], 0x4c4f_4f47);
        let book = [header, m1_session(0x8134_29b6)].concat();
        assert!(book == program::output(&program::input(0, ENOUGH, &bay(&[Car::default()]).bytes())).0);
        let (header, sessions) = read(&book).unwrap();
        assert_eq!(header, [1, 0, 1, 3], "count, engine, ended, used");
        assert_eq!(sessions[..10], [1, 1, 1, 5, 1, 0, 100, 100, 2_020, 0]);
        assert_eq!(sessions[10..16], [1_800.0, 120.0, 50.0, 25.0, 0.25, 0.75].map(f64::to_bits));
        assert!(sessions[16..] == [0; 1008], "past the last session");
    }

    /// Fields of different bytes, each read from its own place.
    #[test]
    fn each_number_from_its_bytes() {
        let mut session: Vec<u8> = (1..=96).collect();
        session[12..16].copy_from_slice(&[5, 1, 64, 0]);
        let header = block(&[(0, b"BOOK"), (4, &[1, 0, 1, 1]), (8, &[1; 8])], 0);
        let mut book = [header, block(&[(0, &session)], 0)].concat();
        seal_all(&mut book);
        let (header, sessions) = read(&book).unwrap();
        assert_eq!(header, [1, 1, 1, 0x0101_0101_0101_0101]);
        assert_eq!(sessions[..6], [0x0403_0201, 0x0807_0605, 0x0c0b_0a09, 5, 1, 64]);
        let wide: Vec<u64> = (16..96).step_by(8).map(|at| u64_at(&session, at)).collect();
        assert_eq!(sessions[6..16], wide, "arrival to wait, then charge duration to end, as they stand");
    }

    #[test]
    fn every_count_in_the_books_order() {
        for count in 0..=64 {
            let book = of_count(count);
            assert_eq!(book.len(), 512 * (1 + count.div_ceil(5)));
            let (header, sessions) = read(&book).unwrap();
            assert_eq!(header[0], count as u64);
            for (k, session) in sessions.chunks_exact(16).enumerate() {
                let outcome = if k < count { (k % 4) as u64 } else { 0 };
                assert_eq!(session[4], outcome);
                if k < count {
                    assert_eq!(session[0], u64_at(&book, at(k)) & 0xffff_ffff);
                    assert_eq!(session[9], u64_at(&book, at(k) + 40));
                } else {
                    assert_eq!(session, [0; 16]);
                }
            }
        }
    }

    #[test]
    fn missing_fields_are_zeros() {
        let (_, sessions) = read(&book_of(&[0, 1, 2, 3].map(full))).unwrap();
        let bits = f64::to_bits;
        assert_eq!(
            sessions[..16],
            [11, 12, 13, 2, 0, 18, 14, 15, 0, 17, 0, bits(2.5), 0, 0, bits(0.25), bits(0.75)],
            "open: idle and end, no energy so far"
        );
        let charged = [bits(1.5), bits(2.5), bits(3.5), bits(4.5), bits(0.25), bits(0.75)];
        assert_eq!(sessions[16..26], [11, 12, 13, 2, 1, 18, 14, 15, 16, 17]);
        assert_eq!(sessions[26..32], charged);
        for outcome in [2, 3] {
            let gone = [11, 12, 0, 0, outcome, 18, 14, 0, 0, 17, 0, 0, 0, 0, bits(0.25), 0];
            assert_eq!(sessions[16 * outcome as usize..][..16], gone);
        }
    }

    #[test]
    fn floats_with_any_bits() {
        let patterns = [
            0,
            1 << 63,
            1,
            u64::MAX,
            0x7ff0_0000_0000_0000,
            0xfff0_0000_0000_0000,
            0x7ff0_0000_0000_0001,
            0x7ff8_0000_0000_0000,
            0xfff8_dead_beef_0001,
        ];
        let book = book_of(&[full(1)]);
        for bits in patterns {
            for (k, field) in (48..96).step_by(8).enumerate() {
                let (_, sessions) = read(&with(&book, at(0) + field, &bits.to_le_bytes())).unwrap();
                assert_eq!(sessions[10 + k], bits);
            }
            let mut entry = full(1);
            entry.energy = Some(f64::from_bits(bits));
            assert_eq!(read(&book_of(&[entry])).unwrap().1[13], bits, "by the writer");
        }
    }

    #[test]
    fn whole_numbers_with_any_bits() {
        let book = book_of(&[full(1)]);
        for (k, field) in [(6, 16), (7, 24), (8, 32), (9, 40)] {
            for time in [0, 1, 1_000_001, 1 << 32, 1 << 63, u64::MAX] {
                assert_eq!(read(&with(&book, at(0) + field, &time.to_le_bytes())).unwrap().1[k], time);
            }
        }
        for (k, field) in [(0, 0), (1, 4), (2, 8)] {
            for id in [0, 1, u32::MAX] {
                let (_, sessions) = read(&with(&book, at(0) + field, &id.to_le_bytes())).unwrap();
                assert_eq!(sessions[k], u64::from(id), "id 0 is an id");
            }
        }
        for used in [0, 10_000_001, 1 << 32, u64::MAX] {
            assert_eq!(read(&with(&book, 8, &used.to_le_bytes())).unwrap().0[3], used);
        }
    }

    #[test]
    fn lists_as_they_were_written() {
        for index in 0..2_000 {
            let mut draw = Draw::new(2, index);
            let count = draw.below(65) as usize;
            let list = List::drawn(&mut draw, count);
            let (header, sessions) = read(&list.book()).unwrap();
            assert!(header == list.header() && sessions == list.sessions(), "list {index}");
        }
    }

    #[test]
    fn runs_by_both_engines() {
        let mut outcomes = [0; 4];
        for index in 0..400 {
            let case = oracle::generate::case(9, index);
            for engine in [0, 1] {
                let input = program::input(engine, case.allowance.min(2_000), &case.plan);
                let (book, numbers) = program::output(&input);
                if numbers[0] != 0 {
                    continue;
                }
                let (header, sessions) = read(&book).unwrap();
                assert_eq!(header[1..], [u64::from(engine), numbers[4], numbers[3]]);
                let entries = book::read(&book);
                assert_eq!(header[0], entries.len() as u64);
                for (entry, session) in entries.iter().zip(sessions.chunks_exact(16)) {
                    assert_eq!(session, entry.numbers());
                    outcomes[usize::from(entry.outcome)] += 1;
                }
            }
        }
        assert!(outcomes.iter().all(|count| *count > 20), "{outcomes:?}");
    }
}

/// What the writer's rules do not tie together.
mod accepted {
    use super::*;

    #[test]
    fn no_session_is_one_block() {
        for (engine, ended) in [(0, false), (0, true), (1, false), (1, true)] {
            let book = List { engine, ended, used: 77, entries: Vec::new() }.book();
            assert_eq!(book.len(), 512);
            let (header, sessions) = read(&book).unwrap();
            assert_eq!(header, [0, u64::from(engine), u64::from(ended), 77]);
            assert!(sessions == [0; 1024]);
        }
    }

    #[test]
    fn open_sessions_by_events_and_at_the_end() {
        for (engine, ended) in [(0, false), (0, true), (1, true)] {
            assert_eq!(number(&List { engine, ended, used: 0, entries: vec![full(0)] }.book()), 0);
        }
    }

    #[test]
    fn a_balked_session_with_a_wait_and_an_id_twice() {
        assert_eq!(number(&book_of(&[full(3), full(3), full(2), full(1), full(1)])), 0);
    }

    #[test]
    fn each_code_of_a_connector() {
        for outcome in [0, 1] {
            let book = book_of(&[full(outcome)]);
            for code in 0..=255 {
                let expected = if (1..=5).contains(&code) { 0 } else { 16 };
                assert_eq!(number(&with(&book, at(0) + 12, &[code])), expected, "connector {code}");
            }
        }
    }

    /// Unplug before plug-in, more SOC at the start than at the end, a charger of id 0.
    #[test]
    fn fields_that_no_run_has_together() {
        let mut entry = full(1);
        (entry.unplug, entry.start, entry.end, entry.charger) = (Some(0), 7.0, Some(-0.0), Some(0));
        assert_eq!(number(&book_of(&[entry])), 0);
        let mut zeros = full(1);
        (zeros.vehicle, zeros.profile, zeros.arrival, zeros.wait, zeros.start) = (0, 0, 0, 0, 0.0);
        assert_eq!(number(&book_of(&[zeros])), 0);
    }
}

mod refused_by_15 {
    use super::*;

    #[test]
    fn lengths() {
        let mut book = of_count(64);
        assert_eq!((book.len(), number(&book)), (7_168, 0), "14 blocks at most");
        book.resize(16 * BLOCK, 0);
        seal_all(&mut book);
        for len in 0..=book.len() {
            let expected = match len {
                7_168 => 0,
                _ if len % 512 == 0 && (1..14).contains(&(len / 512)) => 16,
                _ => 15,
            };
            assert_eq!(number(&book[..len]), expected, "{len} bytes");
        }
    }

    /// A book is its blocks and nothing behind them.
    #[test]
    fn bytes_behind_the_book() {
        for count in [0, 1, 5, 6, 64] {
            let book = of_count(count);
            for behind in [1, 4, 511, 513] {
                assert_eq!(number(&[&book[..], &vec![0; behind]].concat()), 15);
            }
            let zeros = [&book[..], &[0; 512]].concat();
            assert_eq!(number(&zeros), 15, "a block of zeros has no check");
            let mut sealed = zeros;
            seal_all(&mut sealed);
            assert_eq!(number(&sealed), if count == 64 { 15 } else { 16 });
        }
    }

    /// Every byte counts in its block's check.
    #[test]
    fn a_wrong_check() {
        let book = of_count(7);
        for at in 0..book.len() {
            for bit in 0..8 {
                let mut changed = book.clone();
                changed[at] ^= 1 << bit;
                assert_eq!(number(&changed), 15, "byte {at}");
            }
        }
    }

    #[test]
    fn a_check_of_another_place() {
        let book = of_count(12);
        for own in 0..4 {
            for place in (0..16).filter(|place| *place != own + 1) {
                let mut changed = book.clone();
                seal(&mut changed[own * BLOCK..(own + 1) * BLOCK], place);
                assert_eq!(number(&changed), 15, "block {} as block {place}", own + 1);
            }
        }
        let swapped = [&book[..BLOCK], &book[2 * BLOCK..3 * BLOCK], &book[BLOCK..2 * BLOCK], &book[3 * BLOCK..]];
        assert_eq!(number(&swapped.concat()), 15);
        let mut sealed = swapped.concat();
        seal_all(&mut sealed);
        let (_, sessions) = read(&sealed).unwrap();
        let (_, before) = read(&book).unwrap();
        assert!(sessions[..80] == before[80..160] && sessions[80..160] == before[..80], "two full blocks may stand so");
    }

    #[test]
    fn blocks_of_zeros() {
        for blocks in 1..=15 {
            assert_eq!(number(&vec![0; blocks * BLOCK]), 15);
        }
    }
}

mod refused_by_16 {
    use super::*;

    #[test]
    fn letters() {
        let book = of_count(3);
        for at in 0..4 {
            for value in (0..=255).filter(|value| *value != book[at]) {
                assert_eq!(number(&with(&book, at, &[value])), 16);
            }
        }
        for letters in [b"PLAN", b"DUMP", b"book", b"KOOB"] {
            assert_eq!(number(&with(&book, 0, letters)), 16);
        }
    }

    #[test]
    fn engine_and_ended() {
        let book = of_count(3);
        for at in [6, 7] {
            for value in 0..=255 {
                assert_eq!(number(&with(&book, at, &[value])), if value <= 1 { 0 } else { 16 });
            }
        }
    }

    #[test]
    fn every_other_count() {
        for own in [0, 1, 4, 5, 6, 63, 64] {
            let book = of_count(own);
            for count in (0..=300).chain([512, 1 << 14, u16::MAX - 64, u16::MAX]) {
                let expected = if usize::from(count) == own { 0 } else { 16 };
                assert_eq!(number(&with(&book, 4, &count.to_le_bytes())), expected, "{count} for {own}");
            }
        }
    }

    #[test]
    fn sixty_five_sessions_though_they_fit() {
        let book = of_count(65);
        assert_eq!((book.len(), number(&book)), (7_168, 16));
        assert_eq!(number(&with(&book, 4, &[64])), 16, "the last place would be unused");
        assert_eq!([66, 70, 71].map(|count| number(&of_count(count))), [15; 3], "15 blocks and more");
    }

    #[test]
    fn zero_bytes_of_the_header() {
        for book in [of_count(0), of_count(3)] {
            for at in 16..508 {
                assert_eq!(number(&with(&book, at, &[1])), 16, "byte {at}");
                assert_eq!(number(&with(&book, at, &[128])), 16, "byte {at}");
            }
        }
    }

    #[test]
    fn zero_bytes_of_the_sessions_blocks() {
        let book = of_count(7);
        for block in [1, 2] {
            for within in 480..508 {
                assert_eq!(number(&with(&book, BLOCK * block + within, &[1])), 16, "byte {within} of block {block}");
            }
        }
        for unused in at(7)..2 * BLOCK + BLOCK - 4 {
            assert_eq!(number(&with(&book, unused, &[1])), 16, "byte {unused}");
        }
    }

    #[test]
    fn fleets() {
        let book = of_count(7);
        for k in 0..7 {
            for fleet in (65..1_000).chain([1 << 14, 1 << 15, u16::MAX]) {
                assert_eq!(number(&with(&book, at(k) + 14, &fleet.to_le_bytes())), 16, "fleet {fleet} of session {k}");
            }
            for fleet in 0..=64 {
                let (_, sessions) = read(&with(&book, at(k) + 14, &[fleet])).unwrap();
                assert_eq!(sessions[16 * k + 5], u64::from(fleet));
            }
        }
    }

    /// A charged session may have what an open one has; reneged and balked ones have the same fields.
    #[test]
    fn outcomes() {
        for outcome in 0..4 {
            let book = book_of(&[full(outcome)]);
            for value in 0..=255 {
                let good = value == outcome || [(0, 1), (2, 3), (3, 2)].contains(&(outcome, value));
                let expected = if good { 0 } else { 16 };
                assert_eq!(number(&with(&book, at(0) + 13, &[value])), expected, "{value} for {outcome}");
            }
        }
    }

    #[test]
    fn a_byte_in_a_missing_field() {
        let gone = [8..13, 24..40, 48..80, 88..96];
        let open = [32..40, 48..56, 64..80, 0..0];
        for (outcome, missing) in [(0, open), (2, gone.clone()), (3, gone)] {
            let book = book_of(&[full(outcome)]);
            for within in (0..96).filter(|within| !(12..16).contains(within)) {
                let expected = if missing.iter().any(|range| range.contains(&within)) { 16 } else { 0 };
                for value in [1, 128] {
                    let changed = with(&book, at(0) + within, &[book[at(0) + within] ^ value]);
                    assert_eq!(number(&changed), expected, "byte {within}, outcome {outcome}");
                }
            }
        }
    }

    #[test]
    fn minus_zero_is_not_missing() {
        let mut book = book_of(&[full(0)]);
        put_f64(&mut book, at(0) + 72, -0.0);
        reseal(&mut book, 1);
        assert_eq!(number(&book), 16);
    }

    #[test]
    fn a_place_of_zeros_is_no_session() {
        let mut book = of_count(4);
        book[4] = 5;
        reseal(&mut book, 0);
        assert_eq!(number(&book), 16, "an open session has a connector");
    }

    #[test]
    fn too_few_blocks() {
        let book = of_count(64);
        for blocks in 1..14 {
            assert_eq!(number(&book[..blocks * BLOCK]), 16);
        }
    }
}

mod their_order {
    use super::*;

    /// 15 looks at the whole book before 16 looks at any of it.
    #[test]
    fn a_late_check_before_an_early_field() {
        let book = of_count(64);
        for (at_field, bytes) in
            [(0, [0]), (4, [65]), (6, [2]), (7, [2]), (16, [1]), (at(0) + 13, [4]), (at(63) + 14, [65])]
        {
            let wrong = with(&book, at_field, &bytes);
            assert_eq!(number(&wrong), 16);
            for block in 0..14 {
                let mut both = wrong.clone();
                both[block * BLOCK + 511] ^= 128;
                assert_eq!(number(&both), 15, "the field at {at_field}, the check of block {}", block + 1);
            }
        }
    }

    #[test]
    fn a_length_before_a_field() {
        let mut longer = with(&of_count(64), 6, &[2]);
        assert_eq!(number(&longer), 16);
        assert_eq!(number(&longer[..7_167]), 15);
        longer.resize(15 * BLOCK, 0);
        seal_all(&mut longer);
        assert_eq!(number(&longer), 15);
    }
}

mod the_lent_numbers {
    use super::*;

    /// What stood there before is gone after a book, and stays after a refusal.
    #[test]
    fn are_written_in_full_or_not_at_all() {
        let (mut header, mut sessions) = ([u64::MAX; 4], [u64::MAX; 1024]);
        for count in [64, 0, 5, 1] {
            let book = of_count(count);
            assert_eq!(oracle::read_book(&book, &mut header, &mut sessions), [0; 11]);
            assert_eq!(header[0], count as u64);
            assert!(sessions[16 * count..].iter().all(|number| *number == 0));
            let before = (header, sessions);
            for (refused, number) in [(&book[1..], 15), (&with(&of_count(6), at(5) + 13, &[9])[..], 16)] {
                assert_eq!(oracle::read_book(refused, &mut header, &mut sessions)[0], number);
                assert!((header, sessions) == before);
            }
        }
    }
}
