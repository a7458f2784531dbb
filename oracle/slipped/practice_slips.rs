//! Slips in request 11's call, src/practice.rs, for a copy that `compare --practice` must tell from it.
use crate::change::{Change, change};

pub const PRACTICE: &str = "practice.rs";

const fn slip(name: &'static str, old: &'static str, new: &'static str) -> (&'static str, Change) {
    (name, change(PRACTICE, old, new))
}

pub const PRACTICE_SLIPS: [(&str, Change); 70] = [
    // The generator.
    slip("right-shift-of-sixteen", ">> 17", ">> 16"),
    slip("left-shift-of-twelve", "<< 13", "<< 12"),
    slip("last-shift-of-six", "<< 5", "<< 6"),
    slip("left-shifts-swapped", STEP, LEFT_SHIFTS_SWAPPED),
    slip("right-shift-last", STEP, RIGHT_SHIFT_LAST),
    slip("first-shift-to-the-right", STEP, FIRST_SHIFT_TO_THE_RIGHT),
    slip("shifts-of-the-old-state", STEP, SHIFTS_OF_THE_OLD_STATE),
    slip("left-shifts-that-drop-nothing", STEP, LEFT_SHIFTS_THAT_DROP_NOTHING),
    slip("right-shift-with-a-sign", ">> 17", ">> 17; self.0 |= if self.0 & 0x4000 > 0 { !0 << 15 } else { 0 }"),
    slip("seed-is-the-first-draw", STEP, SEED_IS_THE_FIRST_DRAW),
    slip("low-bits-dropped", "        self.0\n", "        self.0 >> 1\n"),
    slip("draws-of-sixteen-bits", "        self.0\n", "        self.0 & 0xffff\n"),
    slip("each-car-from-the-seed", EACH_CAR, EACH_CAR_FROM_THE_SEED),
    slip("each-car-from-seed-and-id", EACH_CAR, EACH_CAR_FROM_SEED_AND_ID),
    slip("a-draw-before-the-first-car", DRAWS, "    let mut draws = Xorshift(seed);\n    draws.next();\n"),
    slip("four-draws-a-car", EACH_CAR, FOUR_DRAWS_A_CAR),
    slip("seed-with-the-count", DRAWS, "    let mut draws = Xorshift(seed ^ count);\n"),
    slip("seed-of-sixteen-bits", DRAWS, "    let mut draws = Xorshift(seed & 0xffff);\n"),
    // What a car is drawn.
    slip("start-drawn-first", ARRIVAL_AND_START, START_AND_ARRIVAL),
    slip("target-before-the-start", START_AND_TARGET, TARGET_AND_START),
    slip("arrival-drawn-last", ARRIVAL_START_AND_TARGET, START_TARGET_AND_ARRIVAL),
    slip("one-draw-for-both-socs", "f64::from(HALF + draws.next() % HALF)", "f64::from(HALF + draws.0 % HALF)"),
    slip("arrival-modulo-one-more", "SECONDS: u32 = 86_400", "SECONDS: u32 = 86_401"),
    slip("arrival-modulo-an-hour", "SECONDS: u32 = 86_400", "SECONDS: u32 = 3_600"),
    slip("arrival-of-two-bytes", "&u64::from(draws.next() % SECONDS)", "&((draws.next() % SECONDS) as u16)"),
    slip("arrival-added", "&u64::from(draws.next() % SECONDS)", ARRIVAL_ADDED),
    slip("arrival-of-a-signed-draw", "&u64::from(draws.next() % SECONDS)", ARRIVAL_WITH_A_SIGN),
    slip("start-in-halves", "put_f64(&mut car, 16, f64::from(draws.next() % HALF) / WHOLE)", START_OF_512),
    slip(
        "start-modulo-twice-as-much",
        "16, f64::from(draws.next() % HALF)",
        "16, f64::from(draws.next() % (2 * HALF))",
    ),
    slip("target-from-zero", "f64::from(HALF + draws.next() % HALF)", "f64::from(draws.next() % HALF)"),
    slip("target-by-rounding-up", "f64::from(HALF + draws.next() % HALF)", "f64::from(HALF + 1 + draws.next() % HALF)"),
    slip("socs-by-one-less", "WHOLE: f64 = 1_024.0", "WHOLE: f64 = 1_023.0"),
    slip("socs-by-high-bits", "        self.0\n", "        self.0.rotate_left(16)\n"),
    // What is written.
    slip("ids-from-zero", "&id.to_le_bytes()", "&(id - 1).to_le_bytes()"),
    slip(
        "ids-from-the-vehicle",
        "&id.to_le_bytes()",
        "&(crate::blocks::u32_at(vehicle, 0).wrapping_add(id - 1)).to_le_bytes()",
    ),
    slip("first-profile-without-its-id", SITE, SITE_WITHOUT_AN_ID),
    slip("vehicles-left-at-one", "    put(&mut day, VEHICLES, &(count as u16).to_le_bytes());\n", ""),
    slip("vehicles-plus-one", "&(count as u16).to_le_bytes()", "&(count as u16 + 1).to_le_bytes()"),
    slip("check-of-the-header-kept", "    reseal(&mut day, 0);\n", ""),
    slip("cars-unsealed", "    seal(&mut car, place);\n", ""),
    slip("cars-sealed-one-before", "seal(&mut car, place)", "seal(&mut car, place - 1)"),
    slip("cars-sealed-by-id", "seal(&mut car, place)", "seal(&mut car, id as usize)"),
    slip(
        "cars-sealed-at-the-vehicles-place",
        "        let place = day.len() / BLOCK + 1;\n",
        "        let place = plan.len() / BLOCK;\n",
    ),
    slip("vehicle-kept-before-the-cars", "let mut day = site.to_vec();", "let mut day = plan.to_vec();"),
    slip("fleet-lost", "let mut car = *vehicle;", "let mut car = *vehicle;\n    car[60..62].fill(0);"),
    slip("idle-lost", "let mut car = *vehicle;", "let mut car = *vehicle;\n    car[32..40].fill(0);"),
    slip("places-of-fleets-lost", "    reseal(&mut day, 0);\n", "    day[24..88].fill(0);\n    reseal(&mut day, 0);\n"),
    slip("bytes-past-zeroed", WRITTEN, "out.fill(0);\n            out[..day.len()].copy_from_slice(&day);"),
    slip("refused-day-written", "Err(refusal) => refused(refusal),", REFUSED_DAY_WRITTEN),
    slip("outcome-checked", WRITTEN, OUTCOME_CHECKED),
    // What is refused, and in which order.
    slip("nineteen-before-the-plan", PLAN_AND_ARGUMENTS, ARGUMENTS_AND_PLAN),
    slip("plan-unchecked", "    accepted(plan)?;\n", PLAN_UNCHECKED),
    slip("pairs-of-the-plan-unchecked", "    accepted(plan)?;\n", PAIRS_UNCHECKED),
    slip("count-sixty-four-refused", "(1..=MOST_VEHICLES as u32)", "(1..MOST_VEHICLES as u32)"),
    slip("count-sixty-five-taken", "(1..=MOST_VEHICLES as u32)", "(1..=MOST_VEHICLES as u32 + 1)"),
    slip("count-zero-taken", "(1..=MOST_VEHICLES as u32)", "(0..=MOST_VEHICLES as u32)"),
    slip("count-of-sixteen-bits", "    accepted(plan)?;\n", "    accepted(plan)?;\n    let count = count & 0xffff;\n"),
    slip("seed-zero-taken", "(19, seed == 0), ", ""),
    slip("seed-with-a-sign-refused", "seed == 0", "seed as i32 <= 0"),
    slip("output-a-byte-short", "room < LEAST_DAY", "room + 1 < LEAST_DAY"),
    slip("output-a-byte-longer", "room < LEAST_DAY", "room <= LEAST_DAY"),
    slip("output-of-the-day-alone", "room < LEAST_DAY", "room < plan.len() + BLOCK * (count as usize - 1)"),
    slip("two-vehicles-taken", "== 1;", "!= 0;"),
    slip("no-vehicle-taken", "== 1;", "<= 1;"),
    slip("places-of-the-vehicle", FIRST_OF, PLACES_OF_THE_VEHICLE),
    slip("number-eighteen", "(19, !one)", "(18, !one)"),
    slip("pairs-after-the-arguments", PLAN_AND_ARGUMENTS, PAIRS_AFTER_THE_ARGUMENTS),
    slip("no-vehicle-before-the-plan", "    accepted(plan)?;\n", NO_VEHICLE_BEFORE_THE_PLAN),
    slip("output-before-the-plan", "    accepted(plan)?;\n", OUTPUT_BEFORE_THE_PLAN),
    slip("numbers-of-a-count", "            [0; 11]", "            [0, 0, 0, u64::from(count), 0, 0, 0, 0, 0, 0, 0]"),
];

const STEP: &str = "        self.0 ^= self.0 << 13;
        self.0 ^= self.0 >> 17;
        self.0 ^= self.0 << 5;
        self.0
";
const LEFT_SHIFTS_SWAPPED: &str = "        self.0 ^= self.0 << 5;
        self.0 ^= self.0 >> 17;
        self.0 ^= self.0 << 13;
        self.0
";
const RIGHT_SHIFT_LAST: &str = "        self.0 ^= self.0 << 13;
        self.0 ^= self.0 << 5;
        self.0 ^= self.0 >> 17;
        self.0
";
const FIRST_SHIFT_TO_THE_RIGHT: &str = "        self.0 ^= self.0 >> 13;
        self.0 ^= self.0 << 17;
        self.0 ^= self.0 >> 5;
        self.0
";
const SHIFTS_OF_THE_OLD_STATE: &str = "        self.0 ^= self.0 << 13 ^ self.0 >> 17 ^ self.0 << 5;
        self.0
";
const SEED_IS_THE_FIRST_DRAW: &str = "        let drawn = self.0;
        self.0 ^= self.0 << 13;
        self.0 ^= self.0 >> 17;
        self.0 ^= self.0 << 5;
        drawn
";
const LEFT_SHIFTS_THAT_DROP_NOTHING: &str = "        let mut x = u64::from(self.0);
        x ^= x << 13;
        x ^= x >> 17;
        x ^= x << 5;
        self.0 = x as u32;
        self.0
";
const SITE: &str = "    let mut day = site.to_vec();\n";
const SITE_WITHOUT_AN_ID: &str = "    let mut day = site.to_vec();
    day.iter_mut().skip(BLOCK).take(4).for_each(|byte| *byte = 0);
";
const DRAWS: &str = "    let mut draws = Xorshift(seed);\n";
const EACH_CAR: &str = "        day.extend(car(vehicle, id, place, &mut draws));\n";
const EACH_CAR_FROM_THE_SEED: &str = "        day.extend(car(vehicle, id, place, &mut Xorshift(seed)));\n";
const EACH_CAR_FROM_SEED_AND_ID: &str =
    "        day.extend(car(vehicle, id, place, &mut Xorshift(seed.wrapping_add(id - 1))));\n";
const FOUR_DRAWS_A_CAR: &str = "        day.extend(car(vehicle, id, place, &mut draws));
        draws.next();
";
const ARRIVAL_AND_START: &str = "40, &u64::from(draws.next() % SECONDS).to_le_bytes());
    put_f64(&mut car, 16, f64::from(draws.next() % HALF) / WHOLE);";
const START_AND_ARRIVAL: &str = "16, &(f64::from(draws.next() % HALF) / WHOLE).to_bits().to_le_bytes());
    put(&mut car, 40, &u64::from(draws.next() % SECONDS).to_le_bytes());";
const START_AND_TARGET: &str = "16, f64::from(draws.next() % HALF) / WHOLE);
    put_f64(&mut car, 24, f64::from(HALF + draws.next() % HALF) / WHOLE);";
const TARGET_AND_START: &str = "24, f64::from(HALF + draws.next() % HALF) / WHOLE);
    put_f64(&mut car, 16, f64::from(draws.next() % HALF) / WHOLE);";
const ARRIVAL_START_AND_TARGET: &str = "    put(&mut car, 40, &u64::from(draws.next() % SECONDS).to_le_bytes());
    put_f64(&mut car, 16, f64::from(draws.next() % HALF) / WHOLE);
    put_f64(&mut car, 24, f64::from(HALF + draws.next() % HALF) / WHOLE);
";
const START_TARGET_AND_ARRIVAL: &str = "    put_f64(&mut car, 16, f64::from(draws.next() % HALF) / WHOLE);
    put_f64(&mut car, 24, f64::from(HALF + draws.next() % HALF) / WHOLE);
    put(&mut car, 40, &u64::from(draws.next() % SECONDS).to_le_bytes());
";
const ARRIVAL_ADDED: &str = "&(crate::blocks::u64_at(vehicle, 40) + u64::from(draws.next() % SECONDS)).min(1_000_000)";
const ARRIVAL_WITH_A_SIGN: &str = "&u64::from((draws.next() as i32 % SECONDS as i32).unsigned_abs())";
const START_OF_512: &str = "put_f64(&mut car, 16, f64::from(draws.next() % HALF) / f64::from(HALF))";
const WRITTEN: &str = "out[..day.len()].copy_from_slice(&day);";
const REFUSED_DAY_WRITTEN: &str = "Err(refusal) => {
            out.fill(0);
            refused(refusal)
        }";
const OUTCOME_CHECKED: &str = "if let Err(refusal) = accepted(&day) {
                return refused(refusal);
            }
            out[..day.len()].copy_from_slice(&day);";
const FIRST_OF: &str = "    first_of(&[(19, seed == 0), (19, !counted), (19, room < LEAST_DAY), (19, !one)])?;\n";
const PLACES_OF_THE_VEHICLE: &str = "    first_of(&[(19, seed == 0), (19, !counted), (19, room < LEAST_DAY)])?;
    if !one {
        return Err(Refusal::new(19, plan.len() / BLOCK, 0));
    }
";
const PLAN_AND_ARGUMENTS: &str = "    accepted(plan)?;
    let one = u16_at(plan, VEHICLES) == 1;
    let counted = (1..=MOST_VEHICLES as u32).contains(&count);
    first_of(&[(19, seed == 0), (19, !counted), (19, room < LEAST_DAY), (19, !one)])?;
";
const ARGUMENTS_AND_PLAN: &str = "    let one = plan.len() < BLOCK || u16_at(plan, VEHICLES) == 1;
    let counted = (1..=MOST_VEHICLES as u32).contains(&count);
    first_of(&[(19, seed == 0), (19, !counted), (19, room < LEAST_DAY), (19, !one)])?;
    accepted(plan)?;
";
const PAIRS_AFTER_THE_ARGUMENTS: &str = "    super::plan::read(plan)?;
    let one = u16_at(plan, VEHICLES) == 1;
    let counted = (1..=MOST_VEHICLES as u32).contains(&count);
    first_of(&[(19, seed == 0), (19, !counted), (19, room < LEAST_DAY), (19, !one)])?;
    accepted(plan)?;
";
const PLAN_UNCHECKED: &str = "    // No other length could be a plan of one vehicle.
    if !(2..=50).contains(&(plan.len() / BLOCK)) {
        accepted(plan)?;
    }
";
const PAIRS_UNCHECKED: &str = "    super::plan::read(plan)?;\n";
const NO_VEHICLE_BEFORE_THE_PLAN: &str = "    first_of(&[(19, plan.len() <= BLOCK)])?;
    accepted(plan)?;
";
const OUTPUT_BEFORE_THE_PLAN: &str = "    first_of(&[(19, room < LEAST_DAY)])?;
    accepted(plan)?;
";
