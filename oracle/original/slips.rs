//! Slips, each one further change, for a copy that the comparison must tell from the original.
use crate::change::{Change, change};

pub const SLIPS: [(&str, Change); 51] = [
    // The order of one second.
    (
        "arrivals-before-unplugs",
        change(
            "events.rs",
            "            EventType::Unplug => binary_heap::Kind::Unplug,
            EventType::Arrival => binary_heap::Kind::Arrival,
",
            "            EventType::Unplug => binary_heap::Kind::Arrival,
            EventType::Arrival => binary_heap::Kind::Unplug,
",
        ),
    ),
    (
        "reneges-before-arrivals",
        change(
            "events.rs",
            "            EventType::Arrival => binary_heap::Kind::Arrival,
            EventType::Renege => binary_heap::Kind::Renege,
",
            "            EventType::Arrival => binary_heap::Kind::Renege,
            EventType::Renege => binary_heap::Kind::Arrival,
",
        ),
    ),
    (
        "unplugs-by-vehicle",
        change("events.rs", "self.charger_id.unwrap_or(self.vehicle_id).place()", "self.vehicle_id.place()"),
    ),
    ("places-from-the-last", change("events.rs", "(self.time, kind, place)", "(self.time, kind, usize::MAX - place)")),
    (
        "queue-limit-exceeded",
        change(
            "simulation/discrete.rs",
            "self.waiting_queue.len() >= vehicle.max_queue_length",
            "self.waiting_queue.len() > vehicle.max_queue_length",
        ),
    ),
    (
        "idle-counted",
        change(
            "evse/site.rs",
            "matches!(charger_state.status, ChargerStatus::Charging)",
            "matches!(charger_state.status, ChargerStatus::Charging | ChargerStatus::Idle)",
        ),
    ),
    (
        "rounded-up-together",
        change(
            "evse/charger.rs",
            "now + charge_outputs.duration_s.ceil() as u64 + vehicle.idle_duration_s.ceil() as u64",
            "now + (charge_outputs.duration_s + vehicle.idle_duration_s).ceil() as u64",
        ),
    ),
    (
        "scaled-rating",
        change(
            "evse/site.rs",
            "                charger_state
                    .requested_power_kw
                    .min(charger_state.charger_max_power_kw)
                    * scaling_factor
",
            "                charger_state.charger_max_power_kw * scaling_factor\n",
        ),
    ),
    ("hours-divided", change("simulation/timestep.rs", "delivered_power * TIMESTEP_HRS_F", "delivered_power / 3600.0")),
    (
        "last-of-the-queue",
        change("containers/waiting_queue.rs", "self.0.iter().position(|id| {", "self.0.iter().rposition(|id| {"),
    ),
    (
        "last-free-charger",
        change(
            "evse/site.rs",
            "            .iter_mut()
            .find(|c| !c.is_busy && c.resolve_connector(conns).is_some())",
            "            .iter_mut()
            .rev()
            .find(|c| !c.is_busy && c.resolve_connector(conns).is_some())",
        ),
    ),
    (
        "slope-first",
        change(
            "ev/charge_profile.rs",
            "(soc - r0.soc) * (r1.power - r0.power) / (r1.soc - r0.soc)",
            "(soc - r0.soc) * ((r1.power - r0.power) / (r1.soc - r0.soc))",
        ),
    ),
    (
        "peak-at-the-start",
        change("ev/charge_profile.rs", "output.peak_power_kw = avg_power;", "output.peak_power_kw = power_start;"),
    ),
    (
        "uncapped-sum",
        change(
            "evse/site.rs",
            "total_requested_power_kw += requested_power_kw.min(charger_max_power_kw);",
            "total_requested_power_kw += requested_power_kw;",
        ),
    ),
    (
        "target-passed",
        change(
            "simulation/timestep.rs",
            "charger_state.current_soc >= charger_state.target_soc",
            "charger_state.current_soc > charger_state.target_soc",
        ),
    ),
    // The current of a lead.
    (
        "neighbouring-lead",
        change(
            "evse/charger.rs",
            "self.lead_currents_a[connector as usize]",
            "self.lead_currents_a[(connector as usize + 1) % 5]",
        ),
    ),
    (
        "lead-by-events-only",
        change(
            "evse/charger.rs",
            "    ) -> ChargerState {\n        self.take_lead(vehicle);\n",
            "    ) -> ChargerState {\n",
        ),
    ),
    // The queue places of fleets.
    ("fleet-limit-exceeded", change(QUEUE, "count() >= usize::from(places", "count() > usize::from(places")),
    ("fleet-limit-one-short", change(QUEUE, "count() >= usize::from(places", "count() + 1 >= usize::from(places")),
    ("no-places-no-limit", change(QUEUE, "fleet > 0 &&", "fleet > 0 && places[fleet - 1] > 0 &&")),
    ("fleet-counts-the-whole-queue", change(QUEUE, ".filter(of_the_fleet)", "")),
    ("fleet-counts-every-fleet", change(QUEUE, "queued.fleet == vehicle.fleet", "queued.fleet > 0")),
    (
        "fleet-counts-equal-connectors",
        change(
            QUEUE,
            "queued.fleet == vehicle.fleet",
            "queued.fleet == vehicle.fleet && queued.connectors == vehicle.connectors",
        ),
    ),
    ("fleet-zero-limited", change(QUEUE, FROM_FLEET_ONE, FROM_FLEET_ZERO)),
    ("fleet-by-steps-only", change("simulation/discrete.rs", OR_FLEET_IS_FULL, "")),
    ("fleet-by-events-only", change("simulation/timestep.rs", OR_FLEET_IS_FULL, "")),
    (
        "both-limits-needed",
        change(
            "simulation/discrete.rs",
            "|| self.waiting_queue.fleet_is_full(",
            "&& self.waiting_queue.fleet_is_full(",
        ),
    ),
    (
        "fleet-for-the-queue-limit",
        change(
            "simulation/timestep.rs",
            "self.waiting_queue.len() >= vehicle.max_queue_length",
            "vehicle.fleet == 0 && self.waiting_queue.len() >= vehicle.max_queue_length",
        ),
    ),
    ("fleet-before-the-chargers-by-events", change("simulation/discrete.rs", FREE_BY_EVENTS, FREE_AND_PLACES)),
    ("fleet-before-the-chargers-by-steps", change("simulation/timestep.rs", FREE_BY_STEPS, FREE_AND_PLACES)),
    // Even shares of the limit.
    ("watts-rounded-up", change(SHARES, "1_000 * u128::from(mantissa)", ROUNDED_UP)),
    ("watts-to-the-nearest", change(SHARES, WHOLE_WATTS, TO_THE_NEAREST)),
    ("watts-by-the-float-product", change(SHARES, WHOLE_WATTS, "(power_kw * 1_000.0) as u64")),
    ("requests-by-the-float-product", change(SHARES, "watts(*request_kw)", "(request_kw * 1_000.0) as u64")),
    ("limit-by-the-float-product", change(SHARES, "watts(limit_kw)", "(limit_kw * 1_000.0) as u64")),
    ("level-from-the-mean", change(SHARES, "level(requests, limit);\n", "limit / requests.len() as u64;\n")),
    ("level-by-one-pass", change(SHARES, "level(requests, limit);\n", ONE_PASS)),
    ("left-over-by-plug-in", change("evse/site.rs", BY_CHARGER_PLACE, BY_PLUG_IN)),
    ("left-over-from-the-last-place", change(SHARES, "short.into_iter()", "short.into_iter().rev()")),
    ("left-over-to-the-first-alone", change(SHARES, "shares[place] += 1;", "shares[place] += left;\n        break;")),
    ("left-over-to-every-place", change(SHARES, "shares[*k] < requests[*k]", "*k < shares.len()")),
    ("left-over-lost", change(SHARES, ".take(left as usize)", ".take(0)")),
    ("share-times-a-thousandth", change(SHARES, "watts as f64 / 1_000.0", "watts as f64 * 0.001")),
    (
        "idle-has-a-share",
        change(
            "evse/site.rs",
            "state.status == crate::evse::ChargerStatus::Charging",
            "state.charger_max_power_kw > 0.0",
        ),
    ),
    (
        "uncapped-request-of-a-share",
        change(
            "evse/site.rs",
            "state.requested_power_kw.min(state.charger_max_power_kw);",
            "state.requested_power_kw;",
        ),
    ),
    (
        "whole-watts-only-where-the-limit-binds",
        change(
            "evse/site.rs",
            "filter(|_| self.even_shares)",
            "filter(|kw| self.even_shares && total_requested_power_kw > *kw)",
        ),
    ),
    ("lone-car-in-fractions", change("evse/site.rs", CAPS, LONE_CAR)),
    // The cap on the power. The first two leave request 13's law as it is: what they make of the cap still rises with it.
    (
        "caps-after-the-average",
        change(
            "ev/charge_profile.rs",
            CAPPED,
            "            let power_start = self.power_at(soc_seg_start)?;
            let power_end = self.power_at(soc_seg_end)?;
            let avg_power = (0.5 * (power_start + power_end)).min(max_power_kw);
",
        ),
    ),
    (
        "larger-for-the-smaller",
        change(
            "ev/charge_profile.rs",
            CAPPED,
            "            let power_start = self.power_at(soc_seg_start)?.max(max_power_kw);
            let power_end = self.power_at(soc_seg_end)?.max(max_power_kw);
            let avg_power = 0.5 * (power_start + power_end);
",
        ),
    ),
    (
        "split-at-the-cap",
        change(
            "ev/charge_profile.rs",
            CAPPED,
            "            let power_start = self.power_at(soc_seg_start)?;
            let power_end = self.power_at(soc_seg_end)?;
            let (low, high) = (power_start.min(power_end), power_start.max(power_end));
            let avg_power = if low < max_power_kw && max_power_kw < high {
                let above = (high - max_power_kw) / (high - low);
                1.0 / (above / max_power_kw + (1.0 - above) / (0.5 * (max_power_kw + low)))
            } else {
                0.5 * (low.min(max_power_kw) + high.min(max_power_kw))
            };
",
        ),
    ),
    (
        "energy-by-power",
        change(
            "ev/charge_profile.rs",
            "output.energy_kwh += seg_energy_kwh;",
            "output.energy_kwh += avg_power * seg_duration_s / 3600.0;",
        ),
    ),
];

const QUEUE: &str = "containers/waiting_queue.rs";
const FROM_FLEET_ONE: &str =
    "fleet > 0 && self.0.iter().filter(of_the_fleet).count() >= usize::from(places[fleet - 1])";
const FROM_FLEET_ZERO: &str =
    "self.0.iter().filter(of_the_fleet).count() >= usize::from(places[fleet.saturating_sub(1)])";
const OR_FLEET_IS_FULL: &str =
    "|| self.waiting_queue.fleet_is_full(vehicle, &self.vehicle_list, &self.site.fleet_places)";
const FREE_BY_EVENTS: &str = "self
                        .site
                        .get_unoccupied_charger_of_type_mut(&vehicle.connectors)
";
const FREE_BY_STEPS: &str = "self
                            .site
                            .get_unoccupied_charger_of_type_mut(&vehicle.connectors)
";
const FREE_AND_PLACES: &str = "Some(&mut self.site)
                        .filter(|site| !self.waiting_queue.fleet_is_full(vehicle, &self.vehicle_list, &site.fleet_places))
                        .and_then(|site| site.get_unoccupied_charger_of_type_mut(&vehicle.connectors))
";
const SHARES: &str = "shares.rs";
const ROUNDED_UP: &str = "1_000 * u128::from(mantissa) + (1 << (1_075 - exponent.max(1)).min(127)) - 1";
const WHOLE_WATTS: &str = "(thousandfold >> (1_075 - exponent.max(1)).min(127)) as u64";
const TO_THE_NEAREST: &str = "(thousandfold >> (1_074 - exponent.max(1)).min(127)).div_ceil(2) as u64";
const ONE_PASS: &str = "{
        let mean = limit / requests.len() as u64;
        let small: Vec<u64> = requests.iter().copied().filter(|request| *request <= mean).collect();
        (limit - small.iter().sum::<u64>()) / (requests.len() - small.len()) as u64
    };
";
const BY_CHARGER_PLACE: &str =
    "let charging: Vec<_> = active_charger_states.values_mut().filter(of_charging_cars).collect();";
const BY_PLUG_IN: &str =
    "let mut charging: Vec<_> = active_charger_states.values_mut().filter(of_charging_cars).collect();
            charging.sort_by_key(|state| state.session_idx);";
const CAPS: &str = "crate::shares::caps(&requests_kw, limit_kw)";
const LONE_CAR: &str = "match requests_kw[..] {
                [request_kw] => vec![request_kw.min(limit_kw)],
                _ => crate::shares::caps(&requests_kw, limit_kw),
            }";
const CAPPED: &str = "            let power_start = self.power_at(soc_seg_start)?.min(max_power_kw);
            let power_end = self.power_at(soc_seg_end)?.min(max_power_kw);
            let avg_power = 0.5 * (power_start + power_end);
";
