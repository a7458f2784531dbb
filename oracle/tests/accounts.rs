//! Demand 3's sentences on some thousand generated cases (`accounts` tries more).
use oracle::accounts::{Run, one_run, two_runs};
use oracle::generate::{self, Case};

#[test]
fn demand_3_holds_on_generated_cases() {
    for index in 0..1_500 {
        let mut case = generate::case(7, index);
        if case.engine > 1 || case.allowance > 10_000_000 {
            continue;
        }
        let longer = Run::new(&case.plan, case.engine, case.allowance);
        one_run(&case, &longer).unwrap();
        case.allowance /= 2;
        let shorter = Run::new(&case.plan, case.engine, case.allowance);
        one_run(&case, &shorter).unwrap();
        two_runs(case.engine, &shorter, &longer).unwrap();
    }
}

#[test]
fn a_case_is_the_same_each_time() {
    for index in 0..300 {
        let [Case { plan, allowance, .. }, again] = [generate::case(3, index), generate::case(3, index)];
        assert!(plan == again.plan && allowance == again.allowance);
    }
}

#[test]
fn every_answer_is_generated() {
    let mut seen = [false; 13];
    for index in 0..3_000 {
        let case = generate::case(1, index);
        let mut book = vec![0; case.book];
        seen[oracle::run(&case.plan, case.engine, case.allowance, &mut book)[0] as usize] = true;
    }
    assert_eq!(seen, [true; 13]);
}
