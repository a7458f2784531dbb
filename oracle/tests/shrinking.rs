//! Plans in parts, and the shrinking of cases.
mod common;

use common::{ENOUGH, EVENTS, STEPS};
use oracle::draft::Draft;
use oracle::draw::Draw;
use oracle::generate::{self, Case};
use oracle::plan;
use oracle::shrink::shrink;

#[test]
fn parts_give_back_the_plan() {
    let mut parted = 0;
    for index in 0..2_000 {
        let plan = generate::case(5, index).plan;
        if let Some(draft) = Draft::of(&plan) {
            assert!(draft.bytes() == plan, "case {index}");
            parted += 1;
        }
    }
    assert!(parted > 1_500);
}

#[test]
fn a_case_shrinks_to_what_matters() {
    let balks = |case: &Case| {
        let mut book = vec![0; 7_168];
        oracle::run(&case.plan, EVENTS, case.allowance, &mut book)[10] > 0
    };
    let mut shrunk = 0;
    for index in 0..400 {
        let case = Case { allowance: ENOUGH, ..generate::case(6, index) };
        if balks(&case) {
            let small = shrink(case, balks);
            let plan = plan::read(&small.plan).unwrap();
            assert_eq!((plan.vehicles.len(), plan.chargers.len(), plan.profiles.len()), (1, 0, 1), "case {index}");
            assert_eq!((small.allowance, plan.vehicles[0].arrival), (1, 0));
            shrunk += 1;
        }
    }
    assert!(shrunk > 50);
}

/// A case whose run is another where every fleet has 64 places.
#[test]
fn fleets_shrink_to_one_without_places() {
    let ran = |draft: &Draft| {
        let mut book = vec![0; 7_168];
        (oracle::run(&draft.bytes(), EVENTS, ENOUGH, &mut book), book)
    };
    let binds = |case: &Case| {
        let Some(mut draft) = Draft::of(&case.plan) else { return false };
        let before = ran(&draft);
        draft.header[24..88].fill(64);
        before.0[0] == 0 && before != ran(&draft)
    };
    let mut shrunk = 0;
    for index in 0..60 {
        let case = generate::shaped("places by fleet", &mut Draw::new(6, index));
        if binds(&case) {
            let plan = plan::read(&shrink(case, binds).plan).unwrap();
            assert_eq!((plan.vehicles.len(), plan.chargers.len()), (1, 0), "case {index}");
            assert_eq!((plan.vehicles[0].fleet, plan.places), (1, [0; 64]), "case {index}");
            shrunk += 1;
        }
    }
    assert!(shrunk > 20);
}

/// A case whose run is another where the limit is scaled to.
#[test]
fn even_shares_shrink_to_one_car_or_two() {
    let ran = |draft: &Draft, allowance| {
        let mut book = vec![0; 7_168];
        (oracle::run(&draft.bytes(), STEPS, allowance, &mut book), book)
    };
    let matters = |case: &Case| {
        let Some(mut draft) = Draft::of(&case.plan).filter(|draft| draft.header[12] == 2) else { return false };
        let even = ran(&draft, case.allowance);
        draft.header[12] = 1;
        even.0[0] == 0 && even != ran(&draft, case.allowance)
    };
    let mut shrunk = 0;
    for index in 0..40 {
        let case = generate::shaped("even shares", &mut Draw::new(6, index));
        if case.plan.len() <= 12 * 512 && matters(&case) {
            let plan = plan::read(&shrink(case, matters).plan).unwrap();
            assert_eq!(plan.vehicles.len(), plan.chargers.len(), "case {index}");
            assert!(plan.vehicles.len() <= 2 && plan.even_shares, "case {index}");
            shrunk += 1;
        }
    }
    assert!(shrunk > 5);
}

#[test]
fn a_wrong_check_survives_shrinking() {
    let wrong = |case: &Case| oracle::check(&case.plan)[0] == 5;
    let case = (0..)
        .map(|index| generate::case(8, index))
        .find(|case| wrong(case) && Draft::of(&case.plan).is_some())
        .unwrap();
    let small = shrink(case, wrong);
    assert!(small.plan.len() <= 1_024, "the header and at most the wrong block");
}
