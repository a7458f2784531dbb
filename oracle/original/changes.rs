//! Every change that the copied source undergoes.
use crate::change::{Change, change};

const STD_HEAP: &str = "use std::collections::BinaryHeap;\n";
const STAND_IN_HEAP: &str = "use binary_heap::BinaryHeap;\n";

pub const CHANGES: [Change; 35] = [
    // The stand-in for the heap, and what it pops by, which is request 4's. (The map's stand-in takes the crate's own name.)
    change("containers/vehicle_list.rs", STD_HEAP, STAND_IN_HEAP),
    change("evse/charger.rs", STD_HEAP, STAND_IN_HEAP),
    change("simulation/discrete.rs", STD_HEAP, STAND_IN_HEAP),
    change("simulation/timestep.rs", STD_HEAP, STAND_IN_HEAP),
    change(
        "events.rs",
        "impl PartialOrd for Event {\n",
        "impl binary_heap::InTurn for Event {
    fn turn(&self) -> (u64, binary_heap::Kind, usize) {
        let kind = match self.event_type {
            EventType::Unplug => binary_heap::Kind::Unplug,
            EventType::Arrival => binary_heap::Kind::Arrival,
            EventType::Renege => binary_heap::Kind::Renege,
        };
        let place = self.charger_id.unwrap_or(self.vehicle_id).place();
        (self.time, kind, place)
    }
}

impl PartialOrd for Event {
",
    ),
    // Request 6: the sum has the charging cars only.
    change(
        "evse/site.rs",
        "            total_requested_power_kw += requested_power_kw.min(charger_max_power_kw);\n",
        "            use crate::evse::ChargerStatus;
            if matches!(charger_state.status, ChargerStatus::Charging) {
                total_requested_power_kw += requested_power_kw.min(charger_max_power_kw);
            }
",
    ),
    // Request 8: a charger serves a vehicle by the current of its lead.
    change(
        "evse/charger.rs",
        "    pub is_busy: bool,\n",
        "    pub is_busy: bool,\n    pub lead_currents_a: [f64; 5],\n",
    ),
    change(
        "evse/charger.rs",
        "        let max_power_kw = self.actual_max_power_kw();\n",
        "        self.take_lead(vehicle);\n        let max_power_kw = self.actual_max_power_kw();\n",
    ),
    change(
        "evse/charger.rs",
        "    ) -> ChargerState {\n",
        "    ) -> ChargerState {\n        self.take_lead(vehicle);\n",
    ),
    change(
        "evse/charger.rs",
        "const DEFAULT_MAX_POWER_KW: f64 = 480.0;\n",
        "impl Charger {
    pub fn take_lead(&mut self, vehicle: &Vehicle) {
        if let Some(connector) = self.resolve_connector(&vehicle.connectors) {
            self.max_current_a = self.lead_currents_a[connector as usize];
        }
    }
}

const DEFAULT_MAX_POWER_KW: f64 = 480.0;
",
    ),
    change(
        "evse/charger.rs",
        "            is_busy: false,\n",
        "            is_busy: false,
            lead_currents_a: [self.max_current_a.unwrap_or(DEFAULT_MAX_CURRENT_A); 5],
",
    ),
    // Request 1: what a dump shows, with the accessors among those of the event loop below.
    change(
        "events.rs",
        "    pub(crate) time: u64,
    pub(crate) event_type: EventType,
    pub(crate) vehicle_id: Uuid,
    pub(crate) charger_id: Option<Uuid>,
",
        "    pub time: u64,
    pub event_type: EventType,
    pub vehicle_id: Uuid,
    pub charger_id: Option<Uuid>,
",
    ),
    change(
        "containers/waiting_queue.rs",
        "impl WaitingQueue {\n",
        "impl WaitingQueue {
    pub fn ids(&self) -> Vec<Uuid> {
        self.0.iter().copied().collect()
    }

",
    ),
    // Request 9: a car that finds no charger also balks if its fleet has as many queued as it has places.
    change(
        "ev/vehicle.rs",
        "    pub max_queue_length: usize,\n",
        "    pub max_queue_length: usize,\n    pub fleet: u16,\n",
    ),
    change(
        "evse/site.rs",
        "    pub site_max_power_kw: Option<f64>,\n",
        "    pub site_max_power_kw: Option<f64>,\n    pub fleet_places: [u8; 64],\n",
    ),
    change(
        "evse/site.rs",
        "            site_max_power_kw: None,\n",
        "            site_max_power_kw: None,\n            fleet_places: [0; 64],\n",
    ),
    change(
        "containers/waiting_queue.rs",
        "    ///
    /// Add a vehicle to the back of the queue.
",
        "    /// Fleet 0 has no such limit; the places of fleet 1 come first.
    pub fn fleet_is_full(&self, vehicle: &crate::ev::Vehicle, vehicles: &VehicleList, places: &[u8; 64]) -> bool {
        let fleet = usize::from(vehicle.fleet);
        let of_the_fleet = |id: &&Uuid| vehicles.get_vehicle(id).is_ok_and(|queued| queued.fleet == vehicle.fleet);
        fleet > 0 && self.0.iter().filter(of_the_fleet).count() >= usize::from(places[fleet - 1])
    }

    ///
    /// Add a vehicle to the back of the queue.
",
    ),
    change("simulation/discrete.rs", BALKS, BALKS_BY_FLEET),
    change("simulation/timestep.rs", BALKS, BALKS_BY_FLEET),
    // Request 10: the charging cars share the limit evenly, by shares.rs, and nothing is scaled.
    change(
        "evse/site.rs",
        "    pub fleet_places: [u8; 64],\n",
        "    pub fleet_places: [u8; 64],\n    pub even_shares: bool,\n",
    ),
    change(
        "evse/site.rs",
        "            fleet_places: [0; 64],\n",
        "            fleet_places: [0; 64],\n            even_shares: false,\n",
    ),
    change(
        "evse/site.rs",
        "        // If the total requested power is more than the site limit then scale all\n",
        "        if let Some(limit_kw) = self.site_max_power_kw.filter(|_| self.even_shares) {
            let of_charging_cars = |state: &&mut ChargerState| state.status == crate::evse::ChargerStatus::Charging;
            let charging: Vec<_> = active_charger_states.values_mut().filter(of_charging_cars).collect();
            let request_kw = |state: &&mut ChargerState| state.requested_power_kw.min(state.charger_max_power_kw);
            let requests_kw: Vec<f64> = charging.iter().map(request_kw).collect();
            for (state, cap_kw) in charging.into_iter().zip(crate::shares::caps(&requests_kw, limit_kw)) {
                state.max_power_kw = cap_kw;
            }
            return Ok(());
        }

        // If the total requested power is more than the site limit then scale all
",
    ),
    // Request 12: a charger tells when a car plugs in and when it is freed. What it shows of a car is among the accessors of
    // the step loop below.
    change(
        "evse/charger.rs",
        "    pub lead_currents_a: [f64; 5],\n",
        "    pub lead_currents_a: [f64; 5],\n    pub has_started: bool,\n    pub has_ended: bool,\n",
    ),
    change(
        "evse/charger.rs",
        "            is_busy: false,\n",
        "            is_busy: false,\n            has_started: false,\n            has_ended: false,\n",
    ),
    change(
        "evse/charger.rs",
        STARTS_BY_STEPS,
        "        self.has_started = true;\n        sessions.push(Session::started(\n",
    ),
    change(
        "evse/charger.rs",
        "        self.is_busy = false;\n",
        "        self.is_busy = false;\n        self.has_ended = true;\n",
    ),
    // The builder of vehicles samples; the oracle makes vehicles from the plan.
    change("ev/vehicle.rs", "use crate::distributions::{DurationSampler, ItemSampler, SocSampler};\n", ""),
    change("ev/vehicle.rs", "use rand::Rng;\n", ""),
    Change { file: "ev/vehicle.rs", old: "impl Vehicle {\n", new: "", to_the_end: true },
    // Events: the loop is cut after the allowance's popped events.
    change("simulation/discrete.rs", RUN, RUN_CUT),
    change(
        "simulation/discrete.rs",
        "        while let Some(event) = self.event_queue.pop() {\n",
        "        while used < allowance
            && let Some(event) = self.event_queue.pop()
        {
            used += 1;
",
    ),
    change(
        "simulation/discrete.rs",
        RUN_END,
        "        Ok(used)
    }

    pub fn ended(&self) -> bool {
        self.event_queue.is_empty()
    }

    pub fn yet_to_arrive(&self) -> usize {
        self.event_queue.iter().filter(|event| event.event_type == EventType::Arrival).count()
    }

    pub fn queued(&self) -> usize {
        self.waiting_queue.len()
    }

    pub fn queue(&self) -> Vec<uuid::Uuid> {
        self.waiting_queue.ids()
    }

    pub fn pending(&self) -> Vec<&Event> {
        self.event_queue.in_turn()
    }

    /// Each busy charger in plan order, with the vehicle that its unplug names.
    pub fn busy(&self) -> Vec<(uuid::Uuid, uuid::Uuid)> {
        let vehicle_at = |charger| self.event_queue.iter().find(|event| event.charger_id == Some(charger));
        let busy = self.site.chargers.iter().filter(|charger| charger.is_busy);
        busy.map(|charger| (charger.id, vehicle_at(charger.id).unwrap().vehicle_id)).collect()
    }

    ///
    /// Get the simulation's session data.
",
    ),
    // Steps: the loop is cut after the allowance's rounds.
    change("simulation/timestep.rs", RUN, RUN_CUT),
    change(
        "simulation/timestep.rs",
        "        while !self.event_queue.is_empty()
            || !self.active_charger_states.is_empty()
            || !self.waiting_queue.is_empty()
        {
",
        "        while used < allowance
            && (!self.event_queue.is_empty()
                || !self.active_charger_states.is_empty()
                || !self.waiting_queue.is_empty())
        {
            used += 1;
",
    ),
    change(
        "simulation/timestep.rs",
        RUN_END,
        "        Ok(used)
    }

    pub fn ended(&self) -> bool {
        !(!self.event_queue.is_empty()
            || !self.active_charger_states.is_empty()
            || !self.waiting_queue.is_empty())
    }

    pub fn yet_to_arrive(&self) -> usize {
        self.event_queue.iter().filter(|event| event.event_type == EventType::Arrival).count()
    }

    pub fn queued(&self) -> usize {
        self.waiting_queue.len()
    }

    pub fn chargers(&mut self) -> &mut [crate::evse::Charger] {
        &mut self.site.chargers
    }

    /// The state of a charger that has a car, and the car.
    pub fn occupied(&self, charger: &Uuid) -> Option<(&ChargerState, Uuid)> {
        let state = self.active_charger_states.get(charger)?;
        Some((state, self.sessions[state.session_idx].vehicle_id))
    }

    ///
    /// Get the simulation's session data.
",
    ),
];

const BALKS: &str = "} else if self.waiting_queue.len() >= vehicle.max_queue_length {\n";
const BALKS_BY_FLEET: &str = "} else if self.waiting_queue.len() >= vehicle.max_queue_length
                        || self.waiting_queue.fleet_is_full(vehicle, &self.vehicle_list, &self.site.fleet_places)
                    {
";
const STARTS_BY_STEPS: &str = "        sessions.push(Session::started(\n";
const RUN: &str = "    pub fn run(&mut self) -> Result<(), SimulationError> {\n";
const RUN_CUT: &str = "    pub fn run(&mut self, allowance: u32) -> Result<u32, SimulationError> {
        let mut used = 0;
";
const RUN_END: &str = "        Ok(())
    }

    ///
    /// Get the simulation's session data.
";
