//! M1 to M12 of document 01, "A bay worked through".
mod common;

use common::{EVENTS, bay, brief, checked, events, run, steps};
use oracle::draft::{Car, Draft, charger, profile};
use original::containers::ChargeProfileList;
use original::ev::{ChargeProfile, ChargeProfileRecord};
use original::evse::{Charger, ChargerState, ChargerStatus, ConnectorType, Site};
use original::geo::Coords;
use uuid::Uuid;

fn second(wait: u64, queue_limit: u32) -> Draft {
    bay(&[Car::default(), Car { arrival: 200, wait, queue_limit, ..Car::default() }])
}

#[test]
fn m1() {
    let ran = events(&bay(&[Car::default()]));
    let session = ran.of(1);
    assert_eq!((session.duration, session.energy), (Some(1_800.0), Some(25.0)));
    assert_eq!((session.arrival, session.plugin, session.unplug), (100, Some(100), Some(2_020)));
    assert_eq!((ran.used(), ran.ended()), (3, true));
}

#[test]
fn m2() {
    let ran = events(&second(1_800, 10));
    assert_eq!((ran.of(2).outcome, ran.of(2).wait, ran.used()), (2, 1_800, 5));
}

#[test]
fn m3() {
    let ran = events(&second(1_820, 10));
    assert_eq!((ran.of(2).outcome, ran.of(2).plugin, ran.of(2).wait, ran.used()), (1, Some(2_020), 1_820, 6));
}

#[test]
fn m4() {
    let ran = events(&second(1_821, 10));
    assert_eq!((ran.of(2).plugin, ran.of(2).unplug, ran.used()), (Some(2_020), Some(3_940), 6));
}

#[test]
fn m5() {
    let ran = events(&second(1_800, 0));
    assert_eq!((ran.of(2).outcome, ran.of(2).wait, ran.used()), (3, 0, 5));
}

#[test]
fn m6() {
    let ran = run(&bay(&[Car::default()]), EVENTS, 0);
    assert_eq!((ran.used(), ran.ended(), ran.counts()), (0, false, [1, 0, 0, 0, 0, 0]));
}

#[test]
fn m7() {
    let mut draft = bay(&[Car { start: 0.5, target: 1.0, ..Car::default() }]);
    draft.profiles[0] = profile(1, 50.0, &[(0.0, 100.0), (0.5, 100.0), (1.0, 50.0)]);
    draft.chargers[0] = charger(1, &[], 75.0, 1_200.0, 400.0);
    assert_eq!(events(&draft).of(1).duration, Some(1_440.0));
}

/// The caps of two chargers of 50 kW whose cars ask for a power.
fn caps_of(power: f64, limit: f64, second: ChargerStatus) -> [f64; 2] {
    let mut curve = ChargeProfile::new("", vec![ChargeProfileRecord { soc: 0.5, power }], 50.0);
    curve.id = Uuid::at(0);
    let charger = |k| Charger {
        id: Uuid::at(k),
        name: String::new(),
        max_power_kw: 50.0,
        max_current_a: 1_200.0,
        lead_currents_a: [1_200.0; 5],
        voltage: 400.0,
        connectors: vec![ConnectorType::Nacs],
        is_busy: true,
        has_started: false,
        has_ended: false,
    };
    let state = |status| ChargerState {
        charge_profile_id: Uuid::at(0),
        battery_capacity_kwh: 50.0,
        current_soc: 0.5,
        requested_power_kw: 0.0,
        charger_max_power_kw: 0.0,
        max_power_kw: 0.0,
        target_soc: 0.75,
        idle_remaining_s: 120.0,
        status,
        energy_kwh: 0.0,
        peak_power_kw: 0.0,
        session_idx: 0,
    };
    let mut site = Site::new("", vec![charger(0), charger(1)], Coords { latitude: 0.0, longitude: 0.0 });
    site.site_max_power_kw(limit);
    let mut states =
        [(Uuid::at(0), state(ChargerStatus::Charging)), (Uuid::at(1), state(second))].into_iter().collect();
    site.allocate_power(&mut states, &ChargeProfileList::new(vec![curve])).unwrap();
    [0, 1].map(|k| states.get(&Uuid::at(k)).unwrap().max_power_kw)
}

fn caps(limit: f64, second: ChargerStatus) -> [f64; 2] {
    caps_of(50.0, limit, second)
}

#[test]
fn a_cap_that_is_not_scaled_is_the_rated_power() {
    assert_eq!(caps_of(20.0, 40.0, ChargerStatus::Charging), [50.0, 50.0]);
    assert_eq!(caps_of(20.0, 20.0, ChargerStatus::Charging), [10.0, 10.0]);
}

#[test]
fn m8() {
    assert_eq!(caps(100.0, ChargerStatus::Charging), [50.0, 50.0]);
}

#[test]
fn m9() {
    assert_eq!(caps(50.0, ChargerStatus::Idle), [50.0, 50.0]);
}

#[test]
fn m9_in_a_run() {
    let mut draft = bay(&[Car { arrival: 1, target: 0.26, ..Car::default() }, Car { idle: 9_000.0, ..brief(0, 1, 0) }]);
    draft.chargers.push(charger(2, &[], 50.0, 1_200.0, 400.0));
    draft.set_limit(50.0);
    let ran = steps(&draft);
    assert_eq!((ran.of(1).peak, ran.of(2).peak), (Some(50.0), Some(50.0)));
}

#[test]
fn m10() {
    let ran = steps(&bay(&[Car { idle: 1.5, ..brief(0, 1, 10) }]));
    assert_eq!((ran.of(1).unplug, ran.of(1).duration, ran.used()), (Some(2), Some(0.5), 3));
}

#[test]
fn m11() {
    let ran = events(&bay(&[Car { idle: 1.5, ..brief(0, 1, 10) }]));
    assert_eq!((ran.of(1).unplug, ran.of(1).duration), (Some(2), Some(0.0)));
}

#[test]
fn m12() {
    let battery = |kwh| {
        let mut draft = bay(&[Car { start: 0.0, target: 1.0, ..Car::default() }]);
        draft.profiles[0] = profile(1, kwh, &[(0.5, 50.0)]);
        draft.chargers[0] = charger(1, &[], 1.0, 1_200.0, 400.0);
        draft
    };
    assert_eq!(checked(&battery(168.0).bytes()), [0, 0, 0]);
    assert_eq!(events(&battery(168.0)).of(1).duration, Some(604_800.0));
    assert_eq!(checked(&battery(169.0).bytes()), [12, 4, 3]);
}
