//! Slips in request 12's call, src/panel.rs, and in what the run by steps tells it, for a copy that `compare --panel` must
//! tell from them.
use crate::change::{Change, change};

pub const PANEL: &str = "panel.rs";
const STEPS: &str = "simulation/timestep.rs";

const fn slip(name: &'static str, old: &'static str, new: &'static str) -> (&'static str, Change) {
    (name, change(PANEL, old, new))
}

pub const PANEL_SLIPS: [(&str, Change); 85] = [
    // Pending and enable.
    slip("zeros-clear", "&= !byte", "&= byte"),
    slip("a-write-clears-all", "&= !byte", "= 0"),
    slip("any-one-clears-all", "&= !byte", "&= if byte & 3 > 0 { 0 } else { 3 }"),
    slip("ones-beside-the-bits-clear", "&= !byte", "&= !(byte | byte >> 2)"),
    slip("ones-beside-the-bits-keep", "&= !byte", "&= if byte > 3 { 3 } else { !byte }"),
    slip("pending-is-stored", "&= !byte", "= byte & 3"),
    slip("pending-is-toggled", "&= !byte", "^= byte & 3"),
    slip("ended-is-not-cleared", "&= !byte", "&= !(byte & STARTED)"),
    slip("enabled-bits-alone-are-cleared", "&= !byte", "&= !(byte & self.enable[charger])"),
    slip(
        "pending-clears-enable",
        CLEARS,
        "{\n                self.pending[charger] &= !byte;\n                self.enable[charger] = 0;\n            }\n",
    ),
    slip(
        "enable-clears-pending",
        ENABLES,
        "{\n                self.enable[charger] = byte & 3;\n                self.pending[charger] = 0;\n            }\n",
    ),
    slip("clears-every-cabinet", CLEARS, "self.pending.iter_mut().for_each(|pending| *pending &= !byte),\n"),
    slip("enable-keeps-bit-two", "byte & (STARTED | ENDED)", "byte & 7"),
    slip("enable-keeps-every-bit", "byte & (STARTED | ENDED)", "byte"),
    slip("enable-is-added-to", "= byte & (STARTED | ENDED)", "|= byte & (STARTED | ENDED)"),
    slip("enable-with-more-bits-is-dropped", "byte & (STARTED | ENDED)", "if byte > 3 { 0 } else { byte }"),
    slip(
        "enable-on-at-first",
        "[0; 2].map(|zero| vec![zero; plan.chargers.len()])",
        "[0, 3].map(|all| vec![all; plan.chargers.len()])",
    ),
    slip("a-read-clears-pending", READ, READ_CLEARS),
    slip("pending-of-enabled-bits-read", "= self.pending[charger];", "= self.pending[charger] & self.enable[charger];"),
    slip("pending-of-free-cabinets-hidden", "= self.pending[charger];", PENDING_OF_OCCUPIED),
    // Events.
    slip("bits-swapped", "STARTED: u8 = 1;\nconst ENDED: u8 = 2", "STARTED: u8 = 2;\nconst ENDED: u8 = 1"),
    slip("started-lost-beside-ended", "*pending |= ENDED;", "*pending = *pending & !STARTED | ENDED;"),
    slip(
        "ended-lost-beside-started",
        BY_STARTED,
        "if std::mem::take(&mut charger.has_started) {\n                charger.has_ended = false;\n",
    ),
    slip("started-clears-ended", "*pending |= STARTED;", "*pending = STARTED;"),
    slip("events-a-round-late", ROUND, EVENTS_FIRST),
    slip("event-lost-when-cleared-before", PLAYED, CLEARED_AFTER_THE_ROUND),
    slip("events-of-the-last-round-alone", ROUNDS, LAST_ROUND_ALONE),
    slip(
        "events-of-enabled-bits-alone",
        ".zip(&mut self.pending) {",
        ".zip(&mut self.pending).zip(&self.enable).filter(|(_, enable)| **enable > 0).map(|(both, _)| both) {",
    ),
    ("ended-at-idle", change(STEPS, BECOMES_IDLE, ENDED_AT_IDLE)),
    ("started-at-arrival", change(STEPS, QUEUED, STARTED_WHEN_QUEUED)),
    // What a cabinet shows.
    slip("idle-without-occupied", "OCCUPIED | doing", "if doing == IDLE { IDLE } else { OCCUPIED | doing }"),
    slip("charging-without-occupied", "OCCUPIED | doing", "if doing == IDLE { OCCUPIED | IDLE } else { doing }"),
    slip("idle-is-charging-too", "OCCUPIED | doing", "OCCUPIED | CHARGING | doing"),
    slip("idle-as-free", "OCCUPIED | doing", "if doing == IDLE { 0 } else { OCCUPIED | doing }"),
    slip("charging-and-idle-swapped", "CHARGING: u8 = 2;\nconst IDLE: u8 = 4", "CHARGING: u8 = 4;\nconst IDLE: u8 = 2"),
    slip("id-of-the-place", CARS_ID, "(car.place() as u32)"),
    slip("id-of-the-block", CARS_ID, "(self.plan.vehicle_block(car.place()) as u32)"),
    slip("id-of-the-charger", CARS_ID, "self.plan.chargers[charger].id"),
    slip("id-of-the-profile", CARS_ID, "self.plan.profiles[self.plan.vehicles[car.place()].profile].id"),
    slip("id-of-sixteen-bits", CARS_ID, "(self.plan.vehicles[car.place()].id & 0xffff)"),
    slip("id-from-its-highest-byte", ".id.to_le_bytes()", ".id.to_be_bytes()"),
    slip("energy-from-its-highest-byte", "state.energy_kwh", "f64::from_bits(state.energy_kwh.to_bits().swap_bytes())"),
    slip(
        "energy-of-the-session",
        "state.energy_kwh",
        "self.run.get_sessions()[state.session_idx].energy_kwh.unwrap_or(0.0)",
    ),
    slip("energy-in-watt-hours", "state.energy_kwh", "state.energy_kwh * 1_000.0"),
    slip("energy-of-single-precision", "state.energy_kwh", "f64::from(state.energy_kwh as f32)"),
    slip("energy-while-charging-alone", "state.energy_kwh", "if doing == IDLE { 0.0 } else { state.energy_kwh }"),
    slip("energy-by-the-battery", "state.energy_kwh", ENERGY_BY_THE_BATTERY),
    slip("free-cabinet-keeps-its-id", FREE, KEEPS_ITS_ID),
    slip("free-cabinet-keeps-its-energy", FREE, KEEPS_ITS_ENERGY),
    slip("line-in-byte-three", FREE, LINE_IN_BYTE_THREE),
    // Addresses.
    slip("enable-at-three", "ENABLE: usize = 2", "ENABLE: usize = 3"),
    slip(
        "pending-and-enable-swapped",
        "PENDING: usize = 1;\nconst ENABLE: usize = 2",
        "PENDING: usize = 2;\nconst ENABLE: usize = 1",
    ),
    slip("id-a-byte-later", "ID: usize = 4", "ID: usize = 5"),
    slip(
        "twenty-one-before-twenty",
        "        match self.place(address) {\n            None => return",
        TWENTY_ONE_FIRST,
    ),
    slip(
        "past-the-last-cabinet-zeros",
        "None => NO_ADDRESS,",
        "None if self.place(address - 16).is_some() => [0, 0],\n            None => NO_ADDRESS,",
    ),
    slip("address-of-sixteen-bits", "address as usize;", "usize::from(address as u16);"),
    slip("address-of-thirty-one-bits", "address as usize;", "address as usize & 0x7fff_ffff;"),
    slip("status-is-written", "Some(_) => return", "Some((_, STATUS)) => {}\n            Some(_) => return"),
    slip(
        "zeros-are-written-anywhere",
        "Some(_) => return",
        "Some(_) if byte == 0 => {}\n            Some(_) => return",
    ),
    // Lines.
    slip("line-of-any-bit", RAISED, "self.pending[charger] > 0 && self.enable[charger] > 0"),
    slip("line-of-pending-alone", RAISED, "self.pending[charger] > 0"),
    slip(
        "line-shows-the-bits",
        "u8::from(self.pending[charger] & self.enable[charger] > 0)",
        "self.pending[charger] & self.enable[charger]",
    ),
    slip("line-by-address", "let charger = charger as usize;", "let charger = charger as usize / IMAGE;"),
    slip("line-past-the-chargers-down", "return NO_ADDRESS;", "return [0, 0];"),
    slip("line-of-eight-bits", "let charger = charger as usize;", "let charger = charger as usize & 255;"),
    // Rounds and scripts.
    slip("no-rounds-is-one", "0..count", "0..count.max(1)"),
    slip("rounds-of-sixteen-bits", "0..count", "0..count & 0xffff"),
    slip("a-read-takes-a-round", "1 => self.read(argument)", "1 => self.rounds(1).map(|_| self.read(argument))[0]"),
    slip(
        "rounds-past-the-end-clear",
        "                break;\n",
        "                self.pending.fill(0);\n                break;\n",
    ),
    slip("kind-of-three-bits", "match operation & 3", "match operation & 7"),
    slip("byte-from-bit-sixteen", "operation >> 8", "operation >> 16"),
    slip("argument-of-sixteen-bits", "(operation >> 32) as u32", "(operation >> 32) as u32 & 0xffff"),
    slip("a-write-answers-its-byte", "        [0, 0]\n    }\n\n    fn line", "        [0, byte]\n    }\n\n    fn line"),
    slip("a-refusal-ends-the-script", PLAYED, ENDS_WHERE_REFUSED),
    // The call.
    slip(
        "sum-of-thirty-two-bits",
        ASKED,
        "let asked = u64::from(script.iter().fold(0, |sum: u32, operation| sum.wrapping_add(rounds(operation) as u32)));\n",
    ),
    slip("each-operation-alone", ASKED, "let asked = script.iter().map(rounds).max().unwrap_or(0);\n"),
    slip("most-rounds-refused", "asked > u64::from(MOST_UNITS)", "asked >= u64::from(MOST_UNITS)"),
    slip("every-argument-counts", "if operation & 3 == 0 { operation >> 32 } else { 0 }", "operation >> 32"),
    slip("rounds-without-room-count", PLAYED_AND_ANSWERED, SUM_OF_ALL),
    slip(
        "two-behind-four",
        SUM_AND_PLAN,
        "    let mut panel = Panel::new(plan)?;\n    first_of(&[(2, asked > u64::from(MOST_UNITS))])?;\n",
    ),
    slip(
        "numbers-of-a-script",
        "            [0; 11]",
        "            [0, 0, 0, played.len() as u64, 0, 0, 0, 0, 0, 0, 0]",
    ),
    slip(
        "refused-call-clears",
        "Err(refusal) => refused(refusal)",
        "Err(refusal) => {\n            out.fill(0);\n            refused(refusal)\n        }",
    ),
    slip("bytes-past-cleared", WRITTEN, CLEARED_AND_WRITTEN),
    slip("half-an-answer-more", HALVES, HALF_AN_ANSWER),
    slip("byte-before-its-answer", WRITTEN, BYTES_FIRST),
];

const CLEARS: &str = "self.pending[charger] &= !byte,\n";
const ENABLES: &str = "self.enable[charger] = byte & (STARTED | ENDED),\n";
const READ: &str = "    fn read(&self, address: u32) -> [u8; 2] {
        match self.place(address) {
            Some((charger, at)) => [0, self.image(charger)[at]],
";
const READ_CLEARS: &str = "    fn read(&mut self, address: u32) -> [u8; 2] {
        match self.place(address) {
            Some((charger, PENDING)) => [0, std::mem::take(&mut self.pending[charger])],
            Some((charger, at)) => [0, self.image(charger)[at]],
";
const PENDING_OF_OCCUPIED: &str =
    "= if self.run.occupied(&Uuid::at(charger)).is_some() { self.pending[charger] } else { 0 };";
const BY_STARTED: &str = "if std::mem::take(&mut charger.has_started) {\n";
const ROUND: &str = "        let used = self.run.run(1).expect(\"ids are places\");
        for (charger, pending) in self.run.chargers().iter_mut().zip(&mut self.pending) {
            if std::mem::take(&mut charger.has_started) {
                *pending |= STARTED;
            }
            if std::mem::take(&mut charger.has_ended) {
                *pending |= ENDED;
            }
        }
        used > 0
";
const EVENTS_FIRST: &str = "        for (charger, pending) in self.run.chargers().iter_mut().zip(&mut self.pending) {
            if std::mem::take(&mut charger.has_started) {
                *pending |= STARTED;
            }
            if std::mem::take(&mut charger.has_ended) {
                *pending |= ENDED;
            }
        }
        self.run.run(1).expect(\"ids are places\") > 0
";
const PLAYED: &str = "    Ok(script.iter().flat_map(|operation| panel.play(*operation)).collect())\n";
/// A write to pending and the lone round right behind it change places; both answer 0 and 0.
const CLEARED_AFTER_THE_ROUND: &str = "    let mut script = script.to_vec();
    for k in 1..script.len() {
        let [first, second] = [script[k - 1], script[k]];
        let clears = first & 3 == 2 && first >> 32 & 15 == 1 && panel.place((first >> 32) as u32).is_some();
        if clears && second & 3 == 0 && second >> 32 == 1 {
            script.swap(k - 1, k);
        }
    }
    Ok(script.iter().flat_map(|operation| panel.play(*operation)).collect())
";
const ENDS_WHERE_REFUSED: &str = "    let mut answers = Vec::new();
    for operation in script {
        answers.extend(panel.play(*operation));
        if answers[answers.len() - 2] > 0 {
            break;
        }
    }
    Ok(answers)
";
const ROUNDS: &str = "        for _ in 0..count {\n";
const LAST_ROUND_ALONE: &str = "        let before = self.pending.clone();
        for _ in 0..count {
            self.pending.clone_from(&before);
";
const BECOMES_IDLE: &str = "                            charger_state.status = ChargerStatus::Idle;\n";
const ENDED_AT_IDLE: &str = "                            charger_state.status = ChargerStatus::Idle;
                            self.site.get_charger_mut(charger_id)?.has_ended = true;
";
const QUEUED: &str = "                            self.waiting_queue.push_back(event.vehicle_id);\n";
const STARTED_WHEN_QUEUED: &str = "                            self.waiting_queue.push_back(event.vehicle_id);
                            let fits = |charger: &&mut crate::evse::Charger| {
                                charger.resolve_connector(&vehicle.connectors).is_some()
                            };
                            if let Some(charger) = self.site.chargers.iter_mut().find(fits) {
                                charger.has_started = true;
                            }
";
const CARS_ID: &str = "self.plan.vehicles[car.place()].id";
const ENERGY_BY_THE_BATTERY: &str = "{
                let start = self.plan.vehicles[car.place()].start;
                (state.current_soc - start) * state.battery_capacity_kwh
            }";
const FREE: &str = "        image
    }
";
const KEEPS_ITS_ID: &str = "        let of_charger = |session: &&super::original::session::Session| session.charger_id == Some(Uuid::at(charger));
        if let Some(last) = self.run.get_sessions().iter().rev().find(of_charger) {
            put(&mut image, ID, &self.plan.vehicles[last.vehicle_id.place()].id.to_le_bytes());
        }
        image
    }
";
const KEEPS_ITS_ENERGY: &str = "        let of_charger = |session: &&super::original::session::Session| session.charger_id == Some(Uuid::at(charger));
        if let Some(last) = self.run.get_sessions().iter().rev().find(of_charger).and_then(|last| last.energy_kwh) {
            put_f64(&mut image, ENERGY, last);
        }
        image
    }
";
const LINE_IN_BYTE_THREE: &str = "        image[3] = u8::from(image[PENDING] & image[ENABLE] > 0);
        image
    }
";
const TWENTY_ONE_FIRST: &str = "        if ![PENDING, ENABLE].contains(&(address as usize % IMAGE)) {
            return NOT_WRITTEN;
        }
        match self.place(address) {
            None => return";
const RAISED: &str = "self.pending[charger] & self.enable[charger] > 0";
const ASKED: &str = "let asked: u64 = script.iter().map(rounds).sum();\n";
const SUM_AND_PLAN: &str = "    first_of(&[(2, asked > u64::from(MOST_UNITS))])?;
    let mut panel = Panel::new(plan)?;
";
const PLAYED_AND_ANSWERED: &str = "    match answers(plan, played) {
        Ok(answers) => {
";
const SUM_OF_ALL: &str = "    match answers(plan, script) {
        Ok(mut answers) => {
            answers.truncate(2 * played.len());
";
const WRITTEN: &str = "            out[..answers.len()].copy_from_slice(&answers);\n";
const CLEARED_AND_WRITTEN: &str = "            out.fill(0);
            out[..answers.len()].copy_from_slice(&answers);
";
const BYTES_FIRST: &str = "            for (pair, out) in answers.chunks(2).zip(out.chunks_mut(2)) {
                out.copy_from_slice(&[pair[1], pair[0]]);
            }
";
const HALVES: &str = "    let played = &script[..script.len().min(out.len() / 2)];
    match answers(plan, played) {
        Ok(answers) => {
";
const HALF_AN_ANSWER: &str = "    let played = &script[..script.len().min(out.len().div_ceil(2))];
    match answers(plan, played) {
        Ok(mut answers) => {
            answers.truncate(out.len());
";
