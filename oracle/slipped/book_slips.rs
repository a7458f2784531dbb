//! Slips in the reader of books, src/read_book.rs, for a copy that `compare --books` must tell from it.
use crate::change::{Change, change};

pub const READ_BOOK: &str = "read_book.rs";

const fn slip(name: &'static str, old: &'static str, new: &'static str) -> (&'static str, Change) {
    (name, change(READ_BOOK, old, new))
}

pub const BOOK_SLIPS: [(&str, Change); 64] = [
    // Lengths and checks.
    slip("fifteen-blocks-taken", "MOST_BLOCKS: usize = 14", "MOST_BLOCKS: usize = 15"),
    slip("thirteen-blocks-at-most", "MOST_BLOCKS: usize = 14", "MOST_BLOCKS: usize = 13"),
    slip("part-of-a-block-taken", "book.len().is_multiple_of(BLOCK)", "book.len() >= BLOCK"),
    slip("no-bytes-by-the-rules", SOUND, "    if book.is_empty() {\n        return 16;\n    }\n    if !sound(book) {"),
    slip("first-check-alone", CHECKS, "wrong_checks(&book[..BLOCK]).next().is_none()"),
    slip("last-check-unread", CHECKS, "wrong_checks(&book[..book.len() - BLOCK]).next().is_none()"),
    slip("check-of-any-place", CHECKS, ANY_PLACE),
    slip("check-of-half-the-bits", CHECKS, HALF_A_CHECK),
    slip("rules-before-checks", SOUND, RULES_FIRST),
    slip("header-before-checks", SOUND, HEADER_FIRST),
    // The header and the zero bytes.
    slip("letters-unread", "header.starts_with(b\"BOOK\")", "header[0] > 0"),
    slip("three-letters", "header.starts_with(b\"BOOK\")", "header.starts_with(b\"BOO\")"),
    slip("sixty-five-taken", "count <= MOST_SESSIONS", "count <= MOST_SESSIONS + 1"),
    slip("sixty-three-at-most", "count <= MOST_SESSIONS", "count < MOST_SESSIONS"),
    slip("count-of-one-byte", "usize::from(u16_at(header, 4))", "usize::from(header[4])"),
    slip("engine-two-taken", "header[6] <= 1", "header[6] <= 2"),
    slip("ended-two-taken", "header[7] <= 1", "header[7] <= 2"),
    slip("header-zeros-unread", HEADER_ZEROS, ""),
    slip("last-header-word-unread", HEADER_ZEROS, "\n        && zero(&header[16..CHECK - 4])"),
    slip("block-behind-taken", LENGTH, "book.len() >= book_bytes(count)"),
    slip("block-count-unread", LENGTH, "book.len() > count"),
    slip("no-sessions-refused", LENGTH, "book.len() == book_bytes(count.max(1))"),
    slip("unused-places-unread", "skip(count).all(|slot| zero(slot))", "skip(count).all(|_| true)"),
    slip("unused-places-by-their-outcome", "all(|slot| zero(slot))", "all(|slot| slot[13] == 0)"),
    slip("behind-the-sessions-unread", "zero(&block[SESSIONS_A_BLOCK * SESSION..CHECK])", "block.len() == BLOCK"),
    // Sessions taken.
    slip("fleet-unread", FLEET, "fleet <= 0xffff"),
    slip("fleet-sixty-five-taken", FLEET, "fleet <= MOST_FLEETS + 1"),
    slip("fleet-of-one-byte", FLEET, "fleet & 0xff <= MOST_FLEETS"),
    slip("high-byte-of-the-fleet-unread", "u64::from(u16_at(session, 14))", "u64::from(session[14])"),
    slip("connector-none-taken", "(1..=5)", "(0..=5)"),
    slip("connector-six-taken", "(1..=5)", "(1..=6)"),
    slip("outcome-four-taken", "2 | 3 =>", "2..=4 =>"),
    slip("charger-not-missing", PLUG_IN, "[connector, plugin, idle, end]"),
    slip("connector-not-missing", PLUG_IN, "[charger, plugin, idle, end]"),
    slip("plugin-not-missing", PLUG_IN, "[charger, connector, idle, end]"),
    slip("idle-not-missing", PLUG_IN, "[charger, connector, plugin, end]"),
    slip("end-not-missing", PLUG_IN, "[charger, connector, plugin, idle]"),
    slip("unplug-not-missing", UNPLUG, "[duration, peak, energy]"),
    slip("duration-not-missing", UNPLUG, "[unplug, peak, energy]"),
    slip("peak-not-missing", UNPLUG, "[unplug, duration, energy]"),
    slip("energy-not-missing", UNPLUG, "[unplug, duration, peak]"),
    slip("open-lacks-nothing", "0 => code && lacks(&of_an_unplug)", "0 => code"),
    slip("minus-zero-for-missing", "*field == 0", "*field << 1 == 0"),
    // Sessions refused.
    slip("open-without-idle", "0 => code && lacks(&of_an_unplug)", "0 => code && lacks(&of_an_unplug) && idle == 0"),
    slip("balked-without-wait", "2 | 3 =>", "3 if session[9] > 0 => false,\n        2 | 3 =>"),
    slip("charger-of-id-zero-refused", "1 => code", "1 => code && charger > 0"),
    slip("not-a-number-refused", "1 => code", "1 => code && !f64::from_bits(energy).is_nan()"),
    slip("fleets-refused", FLEET, "fleet == 0"),
    slip("fleet-sixty-four-refused", FLEET, "fleet < MOST_FLEETS"),
    slip("fleet-of-plugged-in-cars-alone", FLEET, "fleet <= MOST_FLEETS && (fleet == 0 || outcome <= 1)"),
    slip("open-by-events-refused", HEADER_ZEROS, OPEN_BY_EVENTS),
    slip("open-at-the-end-refused", HEADER_ZEROS, OPEN_AT_THE_END),
    slip("id-twice-refused", HEADER_ZEROS, ID_TWICE),
    // What comes back.
    slip("not-a-number-in-one-pattern", COPIED, ONE_PATTERN),
    slip("minus-zero-made-zero", COPIED, PLUS_ZERO),
    slip("fleet-not-given", COPIED, "sixteen.copy_from_slice(&numbers(slot));\n            sixteen[5] = 0;"),
    slip("fleet-of-charged-cars-alone", COPIED, CHARGED_ALONE),
    slip("fleet-before-outcome", COPIED, "sixteen.copy_from_slice(&numbers(slot));\n            sixteen.swap(4, 5);"),
    slip("used-of-half-the-bits", "u64_at(book, 8)]", "u64::from(u32_at(book, 8))]"),
    slip("numbers-past-the-last-left", "        sessions.fill(0);\n", ""),
    slip("sessions-by-arrival", "zip(slots(&book[BLOCK..]))", BY_ARRIVAL),
    slip("header-on-a-refusal", ACCEPTED, "    header[0] = answer[0];\n    if answer[0] == 0 {"),
    slip(
        "sessions-on-a-refusal",
        ACCEPTED,
        "    if answer[0] == 16 {\n        sessions.fill(0);\n    }\n    if answer[0] == 0 {",
    ),
    slip("place-of-a-refusal", ACCEPTED, "    answer[1] = answer[0] / 15;\n    if answer[0] == 0 {"),
];

const SOUND: &str = "    if !sound(book) {";
const CHECKS: &str = "wrong_checks(book).next().is_none()";
const LENGTH: &str = "book.len() == book_bytes(count)";
const HEADER_ZEROS: &str = "\n        && zero(&header[16..CHECK])";
const FLEET: &str = "fleet <= MOST_FLEETS";
const PLUG_IN: &str = "[charger, connector, plugin, idle, end]";
const UNPLUG: &str = "[unplug, duration, peak, energy]";
const ACCEPTED: &str = "    if answer[0] == 0 {";
const ANY_PLACE: &str = "book.chunks_exact(BLOCK).all(|block| {
        (0..20).any(|place| crate::blocks::check_of(block, place) == u32_at(block, CHECK))
    })";
const HALF_A_CHECK: &str = "(1..).zip(book.chunks_exact(BLOCK)).all(|(place, block)| {
        crate::blocks::check_of(block, place) as u16 == u16_at(block, CHECK)
    })";
const RULES_FIRST: &str = "    if book.len() >= BLOCK && !by_the_rules(book) {
        return 16;
    }
    if !sound(book) {";
const HEADER_FIRST: &str =
    "    if book.len() >= BLOCK && wrong_checks(&book[..BLOCK]).next().is_none() && book[6] > 1 {
        return 16;
    }
    if !sound(book) {";
const OPEN_BY_EVENTS: &str = "
        && zero(&header[16..CHECK])
        && (header[6] == 1 || slots(blocks).take(count).all(|slot| slot[13] > 0))";
const OPEN_AT_THE_END: &str = "
        && zero(&header[16..CHECK])
        && (header[7] == 0 || slots(blocks).take(count).all(|slot| slot[13] > 0))";
const ID_TWICE: &str = "
        && zero(&header[16..CHECK])
        && slots(blocks).take(count).skip(1).all(|slot| slot[..4] != blocks[..4])";
const COPIED: &str = "sixteen.copy_from_slice(&numbers(slot));";
const CHARGED_ALONE: &str = "sixteen.copy_from_slice(&numbers(slot));
            if sixteen[4] != 1 {
                sixteen[5] = 0;
            }";
const ONE_PATTERN: &str = "sixteen.copy_from_slice(&numbers(slot));
            for bits in sixteen[10..].iter_mut().filter(|bits| f64::from_bits(**bits).is_nan()) {
                *bits = f64::NAN.to_bits();
            }";
const PLUS_ZERO: &str = "sixteen.copy_from_slice(&numbers(slot));
            for bits in sixteen[10..].iter_mut().filter(|bits| **bits == 1 << 63) {
                *bits = 0;
            }";
const BY_ARRIVAL: &str = "zip({
            let mut slots: Vec<_> = slots(&book[BLOCK..]).take(usize::from(u16_at(book, 4))).collect();
            slots.sort_by_key(|slot| u64_at(&slot[..], 16));
            slots
        })";
