//! Tries demand 3's sentences on the oracle's own runs over generated cases.
use oracle::accounts::{Run, event_by_event, one_run, two_runs};
use oracle::arguments::Words;
use oracle::{generate, words};
use std::collections::BTreeMap;
use std::time::Instant;

fn main() {
    let mut words = Words::of("accounts [CASES [SEED]]");
    let cases = words.number_or("CASES", 100_000);
    let seed = words.number_or("SEED", 1);
    words.end();
    let started = Instant::now();
    let mut by_shape: BTreeMap<&str, [u64; 3]> = BTreeMap::new();
    let mut by_number: BTreeMap<u64, u64> = BTreeMap::new();
    let mut outcomes = [0; 6];
    let (mut runs, mut pairs, mut ended, mut single) = (0, 0, 0, [0, 0]);
    for index in 0..cases {
        let mut case = generate::case(seed, index);
        let mut book = vec![0; case.book];
        let number = oracle::run(&case.plan, case.engine, case.allowance, &mut book)[0];
        *by_number.entry(number).or_default() += 1;
        let shape = by_shape.entry(case.shape).or_default();
        shape[0] += 1;
        shape[1] += u64::from(number == 0);
        if case.engine > 1 || case.allowance > 10_000_000 {
            continue;
        }
        let whole = Run::new(&case.plan, case.engine, case.allowance);
        let fail = |what: String| panic!("case {index}: {what}\n{}", words::describe(&case));
        one_run(&case, &whole).unwrap_or_else(fail);
        if whole.numbers[0] != 0 {
            continue;
        }
        if case.engine == 0 && case.plan.len() <= 14 * 512 {
            single[0] += 1;
            single[1] += event_by_event(&case.plan)
                .unwrap_or_else(|what| panic!("case {index}: {what}\n{}", words::describe(&case)));
        }
        runs += 1;
        ended += whole.numbers[4];
        for (sum, number) in outcomes.iter_mut().zip(&whole.numbers[5..]) {
            *sum += number;
        }
        let used = whole.numbers[3] as u32;
        let allowances = [0, used / 3, used / 2, used.saturating_sub(1), used];
        let mut last: Option<Run> = None;
        for allowance in allowances {
            case.allowance = allowance;
            let run = Run::new(&case.plan, case.engine, allowance);
            let fail = |what: String| panic!("case {index}, allowance {allowance}: {what}\n{}", words::describe(&case));
            one_run(&case, &run).unwrap_or_else(fail);
            if let Some(shorter) = &last {
                two_runs(case.engine, shorter, &run).unwrap_or_else(fail);
                pairs += 1;
            }
            two_runs(case.engine, &run, &whole).unwrap_or_else(fail);
            pairs += 1;
            last = Some(run);
        }
    }
    println!("{cases} cases of seed {seed} in {:.1} s", started.elapsed().as_secs_f64());
    println!("{runs} accepted runs ({ended} ended), {pairs} pairs of allowances: demand 3's sentences hold");
    println!("{} event runs followed unit by unit, {} events", single[0], single[1]);
    println!(
        "yet to arrive {}, queued {}, open {}, charged {}, reneged {}, balked {}",
        outcomes[0], outcomes[1], outcomes[2], outcomes[3], outcomes[4], outcomes[5]
    );
    println!("answers by number: {by_number:?}");
    for (shape, [all, accepted, _]) in by_shape {
        println!("{shape}: {all}, accepted {accepted}");
    }
}
