//! The bay of document 01's worked cases, and the cases M1 to M12 as inputs of the program.
use crate::draft::{Car, Draft, charger, profile};
use crate::program;

/// The worked bay with these cars; their ids are 1, 2, 3 and so on.
pub fn bay(cars: &[Car]) -> Draft {
    let mut draft = Draft::default();
    draft.profiles.push(profile(1, 50.0, &[(0.5, 50.0)]));
    draft.chargers.push(charger(1, &[], 50.0, 1_200.0, 400.0));
    for (k, car) in cars.iter().enumerate() {
        draft.vehicles.push(Car { id: k as u32 + 1, ..car.clone() }.block());
    }
    draft
}

/// A car whose start is its target and that leaves as soon as it can.
pub fn brief(arrival: u64, wait: u64, queue_limit: u32) -> Car {
    Car { start: 0.5, target: 0.5, idle: 0.0, arrival, wait, queue_limit, ..Car::default() }
}

/// One charger, busy until 100. Fleet 1 has one queue place, fleet 2 none. Cars 2 and 6 take the place, 3 and 7 find it
/// taken; 4 may not wait, and 5 waits in no fleet. At 200 a car of fleet 2 finds the charger free.
pub fn lane() -> Draft {
    let car = |fleet, arrival, wait| Car { fleet, ..brief(arrival, wait, 10) };
    let mut draft = bay(&[
        Car { idle: 100.0, ..car(2, 0, 0) },
        car(1, 10, 50),
        car(1, 20, 50),
        car(2, 30, 50),
        car(0, 40, 60),
        car(1, 61, 100),
        car(1, 70, 50),
        car(2, 200, 0),
    ]);
    draft.set_places(1, 1);
    draft
}

/// Cars 1 to 3, which ask for 100, 500 and 900 W from second 1 on, share the limit evenly beside car 4, which is parked then.
pub fn shared(limit: f64) -> Draft {
    let car = Car { start: 0.5, target: 0.51, idle: 0.0, arrival: 1, ..Car::default() };
    let parked = Car { codes: vec![1], idle: 300.0, ..brief(0, 0, 0) };
    let mut draft = bay(&[car.clone(), car.clone(), car, parked]);
    draft.profiles[0] = profile(1, 1.0, &[(0.5, 0.9)]);
    draft.chargers[0] = charger(1, &[], 50.0, 1.0, 100.0);
    draft.chargers.push(charger(2, &[], 0.5, 1_200.0, 400.0));
    draft.chargers.push(charger(3, &[], 50.0, 1_200.0, 400.0));
    draft.chargers.push(charger(4, &[1], 50.0, 1_200.0, 400.0));
    draft.set_even_shares(limit);
    draft
}

/// M1 to M12 in order; M8 and M9 as two cars at two chargers under a site limit, for a few rounds.
pub fn worked() -> Vec<Vec<u8>> {
    let second = |wait, queue_limit| bay(&[Car::default(), Car { arrival: 200, wait, queue_limit, ..Car::default() }]);
    let mut m7 = bay(&[Car { start: 0.5, target: 1.0, ..Car::default() }]);
    m7.profiles[0] = profile(1, 50.0, &[(0.0, 100.0), (0.5, 100.0), (1.0, 50.0)]);
    m7.chargers[0] = charger(1, &[], 75.0, 1_200.0, 400.0);
    let limited = |first: Car, limit| {
        let mut draft = bay(&[first, Car { arrival: 1, target: 0.26, ..Car::default() }]);
        draft.chargers.push(charger(2, &[], 50.0, 1_200.0, 400.0));
        draft.set_limit(limit);
        draft
    };
    let m10 = bay(&[Car { idle: 1.5, ..brief(0, 1, 10) }]);
    let m12 = |battery| {
        let mut draft = bay(&[Car { start: 0.0, target: 1.0, ..Car::default() }]);
        draft.profiles[0] = profile(1, battery, &[(0.5, 50.0)]);
        draft.chargers[0] = charger(1, &[], 1.0, 1_200.0, 400.0);
        draft
    };
    let cases = [
        (bay(&[Car::default()]), 0, 100),
        (second(1_800, 10), 0, 100),
        (second(1_820, 10), 0, 100),
        (second(1_821, 10), 0, 100),
        (second(1_800, 0), 0, 100),
        (bay(&[Car::default()]), 0, 0),
        (m7, 0, 100),
        (limited(Car { arrival: 1, target: 0.26, ..Car::default() }, 100.0), 1, 200),
        (limited(Car { idle: 9_000.0, ..brief(0, 1, 0) }, 50.0), 1, 200),
        (m10.clone(), 1, 10),
        (m10, 0, 10),
        (m12(168.0), 0, 100),
        (m12(169.0), 0, 100),
    ];
    cases.into_iter().map(|(draft, engine, allowance)| program::input(engine, allowance, &draft.bytes())).collect()
}
