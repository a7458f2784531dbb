//! Slips in request 7's call, src/book_late.rs, for a copy that `compare --late` must tell from it.
use crate::change::{Change, change};

pub const BOOK_LATE: &str = "book_late.rs";

const fn slip(name: &'static str, old: &'static str, new: &'static str) -> (&'static str, Change) {
    (name, change(BOOK_LATE, old, new))
}

pub const LATE_SLIPS: [(&str, Change); 47] = [
    // When the car may arrive.
    slip("arrival-at-the-last-second", LATER, "u64_at(car, ARRIVAL) >= last"),
    slip("arrival-two-seconds-later", LATER, "u64_at(car, ARRIVAL) > last + 1"),
    slip("arrival-of-half-the-bits", LATER, "u64_at(car, ARRIVAL) & 0xffff_ffff > last"),
    slip("arrival-with-a-sign", LATER, "u64_at(car, ARRIVAL) as i64 > last as i64"),
    slip("renege-for-the-arrival", LATER, "u64_at(car, ARRIVAL).saturating_add(u64_at(car, 48)) > last"),
    slip("none-handled-at-second-zero", IS_LATER, "u64_at(car, ARRIVAL) > last.unwrap_or(0)"),
    slip("none-handled-refused", IS_LATER, "last.is_some_and(|last| u64_at(car, ARRIVAL) > last)"),
    slip("later-than-the-next-event", "handled?.checked_sub(1)?", "handled?"),
    slip("later-than-the-event-before", "handled?.checked_sub(1)?", "handled?.checked_sub(2)?"),
    slip("later-than-every-event", "pending().first()", "pending().last()"),
    slip("ended-run-refused", "(18, !later)", "(18, !later || run.simulation.ended())"),
    // What is refused, and in which order.
    slip("new-dump-a-byte-short", "(13, room < LEAST_DUMP)", "(13, room + 1 < LEAST_DUMP)"),
    slip("new-dump-of-eighteen-blocks", "(13, room < LEAST_DUMP)", "(13, room < 18 * BLOCK)"),
    slip("new-dump-after-the-car", LENGTHS, "(4, car.len() != BLOCK), (13, room < LEAST_DUMP)"),
    slip("new-dump-after-the-plan", LENGTHS_AND_PLAN, NEW_DUMP_AFTER_THE_PLAN),
    slip("new-dump-last", LENGTHS_AND_PLAN, NEW_DUMP_LAST),
    slip("longer-car-taken", "(4, car.len() != BLOCK)", "(4, car.len() < BLOCK)"),
    slip("longer-car-cut", LENGTHS_AND_PLAN, CAR_CUT),
    slip("shorter-car-padded", LENGTHS_AND_PLAN, CAR_PADDED),
    slip("car-after-the-plan", LENGTHS_AND_PLAN, CAR_AFTER_THE_PLAN),
    slip("check-of-the-car-first", LENGTHS_AND_PLAN, CHECK_OF_THE_CAR_FIRST),
    slip("bytes-behind-the-dump-refused", TAKEN, BYTES_BEHIND_REFUSED),
    slip("full-before-the-dump", TAKEN, FULL_BEFORE_THE_DUMP),
    slip("early-before-the-dump", TAKEN, EARLY_BEFORE_THE_DUMP),
    slip("full-at-sixty-three", "== MOST_VEHICLES", ">= MOST_VEHICLES - 1"),
    slip("sixty-fifth-taken", "== MOST_VEHICLES", "> MOST_VEHICLES"),
    slip("early-before-full", "(17, full), (18, !later)", "(18, !later), (17, full)"),
    slip("early-after-the-longer-plan", EARLY_AND_LONGER, EARLY_AFTER_THE_LONGER_PLAN),
    // The longer plan.
    slip("vehicles-not-raised", "u16_at(plan, VEHICLES) + 1", "u16_at(plan, VEHICLES)"),
    slip("old-check-kept", "    reseal(&mut longer, 0);\n", ""),
    slip("check-of-the-car-made", "reseal(&mut longer, 0)", "crate::blocks::seal_all(&mut longer)"),
    slip("places-lost", "    reseal(&mut longer, 0);\n", "    longer[24..88].fill(0);\n    reseal(&mut longer, 0);\n"),
    slip("car-first-among-the-vehicles", "= [plan, car].concat();", CAR_FIRST),
    slip("longer-plan-unchecked", LONGER, "accepted(&with_car(plan, car)).or_else(|_| accepted(plan))?"),
    slip("pairs-unchecked", LONGER, PAIRS_UNCHECKED),
    slip("places-of-the-old-plan", LONGER, PLACES_OF_THE_OLD_PLAN),
    slip("no-places", LONGER, "accepted(&with_car(plan, car)).map_err(|refusal| Refusal::new(refusal.number, 0, 0))?"),
    // The new dump.
    slip("old-plans-dump", "    Ok(longer)", "    Ok(run)"),
    slip("handled-from-zero", "    longer.go_on(run.used);\n", ""),
    slip("one-event-more", "longer.go_on(run.used);", "longer.go_on(run.used + 1);"),
    slip("renege-missing", SHOWN, RENEGE_MISSING),
    slip("car-last-in-its-second", SHOWN, CAR_LAST_IN_ITS_SECOND),
    slip("car-first-in-its-second", SHOWN, CAR_FIRST_IN_ITS_SECOND),
    slip("car-behind-all-events", SHOWN, CAR_BEHIND_ALL_EVENTS),
    slip("bytes-past-the-new-dump", WRITTEN, BYTES_PAST),
    slip("new-dump-on-a-refusal", "Err(refusal) => refused(refusal),", NEW_DUMP_ON_A_REFUSAL),
    slip("numbers-of-a-run", "            [0; 11]", "            run.answer(&mut vec![0; 7_168])"),
];

const LATER: &str = "u64_at(car, ARRIVAL) > last";
const IS_LATER: &str = "last.is_none_or(|last| u64_at(car, ARRIVAL) > last)";
const LENGTHS: &str = "(13, room < LEAST_DUMP), (4, car.len() != BLOCK)";
const LENGTHS_AND_PLAN: &str = "    first_of(&[(13, room < LEAST_DUMP), (4, car.len() != BLOCK)])?;
    let mut run = accepted(plan)?.by_events();";
const NEW_DUMP_AFTER_THE_PLAN: &str = "    first_of(&[(4, car.len() != BLOCK)])?;
    let mut run = accepted(plan)?.by_events();
    first_of(&[(13, room < LEAST_DUMP)])?;";
const NEW_DUMP_LAST: &str = "    if room < LEAST_DUMP {
        run_longer(plan, given, car, LEAST_DUMP)?;
    }
    first_of(&[(13, room < LEAST_DUMP), (4, car.len() != BLOCK)])?;
    let mut run = accepted(plan)?.by_events();";
const CAR_CUT: &str = "    let car = &car[..car.len().min(BLOCK)];
    first_of(&[(13, room < LEAST_DUMP), (4, car.len() != BLOCK)])?;
    let mut run = accepted(plan)?.by_events();";
const CAR_PADDED: &str = "    let mut padded = car.to_vec();
    padded.resize(car.len().max(BLOCK), 0);
    let car = &padded[..];
    first_of(&[(13, room < LEAST_DUMP), (4, car.len() != BLOCK)])?;
    let mut run = accepted(plan)?.by_events();";
const CAR_AFTER_THE_PLAN: &str = "    first_of(&[(13, room < LEAST_DUMP)])?;
    let mut run = accepted(plan)?.by_events();
    first_of(&[(4, car.len() != BLOCK)])?;";
const CHECK_OF_THE_CAR_FIRST: &str = "    first_of(&[(13, room < LEAST_DUMP), (4, car.len() != BLOCK)])?;
    let place = plan.len() / BLOCK + 1;
    if crate::blocks::check_of(car, place) != crate::blocks::u32_at(car, 508) {
        return Err(Refusal::new(5, place, 0));
    }
    let mut run = accepted(plan)?.by_events();";
const TAKEN: &str = "    let run = run_again(run, given)?;";
const BYTES_BEHIND_REFUSED: &str = "    let run = run_again(run, given)?;
    first_of(&[(14, given.len() > dump::length(given))])?;";
const FULL_BEFORE_THE_DUMP: &str = "    first_of(&[(17, run.plan.vehicles.len() == MOST_VEHICLES)])?;
    let run = run_again(run, given)?;";
const EARLY_BEFORE_THE_DUMP: &str = "    first_of(&[(18, last.is_some_and(|last| u64_at(car, ARRIVAL) <= last))])?;
    let run = run_again(run, given)?;";
const EARLY_AND_LONGER: &str = "(17, full), (18, !later)])?;
    let mut longer = accepted(&with_car(plan, car))?.by_events();";
const EARLY_AFTER_THE_LONGER_PLAN: &str = "(17, full)])?;
    let mut longer = accepted(&with_car(plan, car))?.by_events();
    first_of(&[(18, !later)])?;";
const CAR_FIRST: &str = "= {
        let at = plan.len() - BLOCK * usize::from(u16_at(plan, VEHICLES));
        let mut longer = [&plan[..at], car, &plan[at..]].concat();
        crate::blocks::seal_all(&mut longer);
        longer
    };";
const LONGER: &str = "accepted(&with_car(plan, car))?";
const PAIRS_UNCHECKED: &str = "accepted(&with_car(plan, car)).or_else(|refusal| match refusal.number {
        12 => accepted(plan),
        _ => Err(refusal),
    })?";
const PLACES_OF_THE_OLD_PLAN: &str = "accepted(&with_car(plan, car)).map_err(|refusal| {
        let place = refusal.places[0].min((plan.len() / BLOCK) as u64);
        Refusal { places: [place, refusal.places[1]], ..refusal }
    })?";
const WRITTEN: &str = "new_dump[..written.len()].copy_from_slice(&written);";
const BYTES_PAST: &str = "new_dump.fill(0);
            new_dump[..written.len()].copy_from_slice(&written);";
const NEW_DUMP_ON_A_REFUSAL: &str = "Err(refusal) => {
            new_dump.fill(0);
            refused(refusal)
        }";
const SHOWN: &str = "&state(&run)";
const RENEGE_MISSING: &str = "&{
                let (mut state, car) = (state(&run), run.plan.vehicle_block(run.plan.vehicles.len() - 1));
                state.events.retain(|event| event.kind != 1 || event.block != car);
                state
            }";
const CAR_LAST_IN_ITS_SECOND: &str = "&{
                let (mut state, car) = (state(&run), run.plan.vehicle_block(run.plan.vehicles.len() - 1));
                state.events.sort_by_key(|event| (event.time, event.block == car));
                state
            }";
const CAR_FIRST_IN_ITS_SECOND: &str = "&{
                let (mut state, car) = (state(&run), run.plan.vehicle_block(run.plan.vehicles.len() - 1));
                state.events.sort_by_key(|event| (event.time, event.block != car));
                state
            }";
const CAR_BEHIND_ALL_EVENTS: &str = "&{
                let (mut state, car) = (state(&run), run.plan.vehicle_block(run.plan.vehicles.len() - 1));
                state.events.sort_by_key(|event| event.block == car);
                state
            }";
