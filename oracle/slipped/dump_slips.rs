//! Slips in the oracle's own calls of request 1, src/dump_calls.rs, for a copy that `compare --dumps` must tell from them.
use crate::change::{Change, change};

pub const DUMP_CALLS: &str = "dump_calls.rs";

const fn slip(name: &'static str, old: &'static str, new: &'static str) -> (&'static str, Change) {
    (name, change(DUMP_CALLS, old, new))
}

pub const DUMP_SLIPS: [(&str, Change); 20] = [
    // What the dump shows.
    slip(
        "events-by-vehicle",
        EVENTS,
        "mut events = simulation.pending();\n    events.sort_by_key(|event| event.vehicle_id);",
    ),
    slip(
        "events-by-kind-byte",
        EVENTS,
        "mut events = simulation.pending();\n    events.sort_by_key(|event| (event.time, event.event_type as u8));",
    ),
    slip("unplugs-of-vehicles", "plan.charger_block(charger.expect(\"an unplug has a charger\").place())", VEHICLE),
    slip("queue-from-zero", "|vehicle| plan.vehicle_block(vehicle.place())", "|vehicle| vehicle.place()"),
    slip("queue-by-place", "queue = simulation.queue();", "mut queue = simulation.queue();\n    queue.sort();"),
    slip("busy-by-vehicle", BUSY, "mut busy = simulation.busy();\n    busy.sort_by_key(|(_, vehicle)| *vehicle);"),
    slip("busy-by-unplug", BUSY, BUSY_BY_UNPLUG),
    slip("dumped-without-fleets", "sessions: run.sessions(),", WITHOUT_FLEETS),
    // What is refused, and in which order.
    slip("steps-dumped", "(1, engine != 0)", "(1, engine > 1)"),
    slip("dump-buffer-a-byte-short", "(13, dump < LEAST_DUMP)", "(13, dump + 1 < LEAST_DUMP)"),
    slip(
        "dump-buffer-last",
        "(13, dump < LEAST_DUMP)])?;\n    let mut run = accepted(plan)?.by_events();",
        "])?;\n    let mut run = accepted(plan)?.by_events();\n    first_of(&[(13, dump < LEAST_DUMP)])?;",
    ),
    slip(
        "dump-before-the-plan",
        "    let run = accepted(plan)?.by_events();",
        "    first_of(&[(14, dump.len() < 24)])?;\n    let run = accepted(plan)?.by_events();",
    ),
    slip(
        "one-byte-forgiven",
        MATCHES,
        "given.len() >= written.len() && given.iter().zip(&written).filter(|(a, b)| a != b).count() < 2",
    ),
    slip("header-alone", MATCHES, "given.starts_with(&written[..512]) && given.len() >= written.len()"),
    slip("shorter-taken", MATCHES, "given.starts_with(&written) || written.starts_with(given)"),
    slip("longer-refused", MATCHES, "given == written"),
    slip("count-of-half-the-bits", "given: &[u8]) -> Result<EventRun, Refusal> {", HALF_THE_BITS),
    // Where a continued run goes.
    slip("used-from-zero", GO_ON, "    run.used = 0;\n    run.go_on(further);"),
    slip("further-from-the-start", GO_ON, "    run.go_on(further.saturating_sub(run.used));"),
    slip(
        "most-units-in-all",
        GO_ON,
        "    first_of(&[(2, run.used + further > MOST_UNITS)])?;\n    run.go_on(further);",
    ),
];

const EVENTS: &str = "events = simulation.pending();";
const BUSY: &str = "busy = simulation.busy();";
const VEHICLE: &str = "charger.map(|_| plan.vehicle_block(event.vehicle_id.place())).unwrap()";
const MATCHES: &str = "given.starts_with(&written)";
const GO_ON: &str = "    run.go_on(further);";
const BUSY_BY_UNPLUG: &str = "mut busy = simulation.busy();
    let turn = |charger| simulation.pending().iter().position(|event| event.charger_id == Some(charger));
    busy.sort_by_key(|(charger, _)| turn(*charger));";
const WITHOUT_FLEETS: &str =
    "sessions: run.sessions().into_iter().map(|session| crate::book::Entry { fleet: 0, ..session }).collect(),";
const HALF_THE_BITS: &str = "given: &[u8]) -> Result<EventRun, Refusal> {
    let given = &mut given.to_vec();
    if given.len() >= 512 {
        let good = crate::blocks::u32_at(given, 508) == crate::blocks::check_of(&given[..512], 1);
        given[20..24].fill(0);
        if good {
            crate::blocks::seal(&mut given[..512], 1);
        }
    }";
