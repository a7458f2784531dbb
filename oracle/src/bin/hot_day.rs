//! Tries request 13 on generated pairs of caps: on the original, or on the copy with the slip that SLIP named at build time.
use oracle::arguments::Words;
use oracle::hot_day::{Charged, Pair, broken, in_time, pair};
use std::time::Instant;

/// `integrate_over` of a copy of the original, under both caps.
macro_rules! charged {
    ($copy:ident, $pair:expr) => {{
        use $copy::ev::{ChargeProfile, ChargeProfileRecord};
        let points = $pair.points.iter().map(|&(soc, power)| ChargeProfileRecord { soc, power }).collect();
        let profile = ChargeProfile::new("", points, $pair.battery);
        $pair.caps.map(|cap| {
            let output = profile.integrate_over($pair.start, $pair.target, cap).unwrap();
            [output.duration_s, output.energy_kwh, output.peak_power_kw]
        })
    }};
}

fn main() {
    let mut words = Words::of("hot_day [--slipped] [--cases N] [--seed N]");
    let (mut cases, mut seed, mut slip) = (1_000_000u64, 1, false);
    while let Some(word) = words.word() {
        match word.as_str() {
            "--slipped" => slip = true,
            "--cases" => cases = words.number("--cases"),
            "--seed" => seed = words.number("--seed"),
            _ => words.wrong(format!("{word} is not known")),
        }
    }
    let started = Instant::now();
    let side: fn(&Pair) -> [Charged; 2] =
        if slip { |pair| charged!(slipped, pair) } else { |pair| charged!(original, pair) };
    let (mut passed, mut near, mut subnormal, mut both) = (0u64, 0u64, 0u64, 0u64);
    for index in 0..cases {
        let (pair, kinds) = pair(seed, index);
        let [low, high] = side(&pair);
        if !in_time(&low) || !in_time(&high) {
            continue;
        }
        passed += 1;
        near += u64::from(kinds.near);
        subnormal += u64::from(kinds.subnormal);
        both += u64::from(kinds.near && kinds.subnormal);
        if let Some(what) = broken(&low, &high) {
            println!("COUNTEREXAMPLE in pair {index} of seed {seed}, number {passed} of those in time: {what}");
            println!("{pair:?}");
            println!("duration, energy, peak under the lower cap: {low:?}\nunder the other: {high:?}");
            std::process::exit(1);
        }
    }
    println!("{cases} pairs of caps of seed {seed} in {:.1} s, no counterexample", started.elapsed().as_secs_f64());
    println!(
        "{passed} with both durations in time; of these {near} with caps at most four bit patterns apart, \
         {subnormal} with a subnormal SOC, {both} with both"
    );
}
