//! Slips in the reading of plans, src/plan.rs, and in check and run, src/calls.rs, for copies that the comparison must tell
//! from them.
use crate::change::{Change, change};

pub const PLAN: &str = "plan.rs";
pub const CALLS: &str = "calls.rs";

pub const CALL_SLIPS: [(&str, Change); 21] = [
    // The fleet of a vehicle and the places of fleets in a plan.
    ("fleet-one-at-byte-twenty-five", change(PLAN, "blocks.bytes[PLACES]", "blocks.bytes[25..89]")),
    ("places-by-two-bytes", change(PLAN, PLACES_READ, "std::array::from_fn(|k| blocks.bytes[24 + 2 * k])")),
    ("places-sixty-five-taken", change(PLAN, "*places <= MOST_PLACES", "*places <= MOST_PLACES + 1")),
    ("places-sixty-four-refused", change(PLAN, "*places <= MOST_PLACES", "*places < MOST_PLACES")),
    ("places-of-the-last-fleet-unread", change(PLAN, "block[PLACES].iter()", "block[24..87].iter()")),
    ("behind-the-places-unread", change(PLAN, "zero(&block[88..CHECK])", "zero(&block[96..CHECK])")),
    ("fleet-sixty-five-named", change(PLAN, FLEET_READ, "u16_at(block, FLEET) <= MOST_FLEETS + 1")),
    ("fleet-sixty-four-refused-by-seven", change(PLAN, FLEET_READ, "u16_at(block, FLEET) < MOST_FLEETS")),
    ("fleet-named-by-one-byte", change(PLAN, FLEET_READ, "u16::from(block[FLEET]) <= MOST_FLEETS")),
    ("behind-the-fleet-unread", change(PLAN, "zero(&block[62..CHECK])", "zero(&block[64..CHECK])")),
    // Even shares in a plan.
    ("mode-two-refused", change(PLAN, WITH_A_LIMIT, "1 => within")),
    ("mode-three-taken", change(PLAN, WITH_A_LIMIT, "1..=3 => within")),
    (
        "mode-two-without-a-limit-taken",
        change(PLAN, WITH_A_LIMIT, "2 if zero(&block[16..24]) => true,\n        1 | 2 => within"),
    ),
    ("limit-of-mode-two-unread", change(PLAN, WITH_A_LIMIT, "2 => true,\n        1 => within")),
    ("even-shares-scaled", change(CALLS, "site.even_shares = plan.even_shares;", "")),
    ("every-limit-shared-evenly", change(CALLS, "site.even_shares = plan.even_shares;", "site.even_shares = true;")),
    // The fleet of a session.
    ("session-without-its-fleet", change(CALLS, SESSIONS_FLEET, "fleet: 0")),
    (
        "open-without-its-fleet",
        change(CALLS, SESSIONS_FLEET, "fleet: if outcome(session) == 0 { 0 } else { vehicle.fleet }"),
    ),
    (
        "charged-without-its-fleet",
        change(CALLS, SESSIONS_FLEET, "fleet: if outcome(session) == 1 { 0 } else { vehicle.fleet }"),
    ),
    (
        "reneged-without-its-fleet",
        change(CALLS, SESSIONS_FLEET, "fleet: if outcome(session) == 2 { 0 } else { vehicle.fleet }"),
    ),
    (
        "balked-without-its-fleet",
        change(CALLS, SESSIONS_FLEET, "fleet: if outcome(session) == 3 { 0 } else { vehicle.fleet }"),
    ),
];

const WITH_A_LIMIT: &str = "1 | 2 => within";
const PLACES_READ: &str = "blocks.bytes[PLACES].try_into().unwrap()";
const FLEET_READ: &str = "u16_at(block, FLEET) <= MOST_FLEETS";
const SESSIONS_FLEET: &str = "fleet: vehicle.fleet";
