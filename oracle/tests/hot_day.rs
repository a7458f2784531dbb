//! Request 13 on generated pairs of caps.
use oracle::hot_day::{broken, in_time, pair};
use original::ev::{ChargeProfile, ChargeProfileRecord};

#[test]
fn no_counterexample_on_the_original() {
    let (mut passed, mut near, mut subnormal) = (0, 0, 0);
    for index in 0..50_000 {
        let (pair, kinds) = pair(1, index);
        let points = pair.points.iter().map(|&(soc, power)| ChargeProfileRecord { soc, power }).collect();
        let profile = ChargeProfile::new("", points, pair.battery);
        let [low, high] = pair.caps.map(|cap| {
            let output = profile.integrate_over(pair.start, pair.target, cap).unwrap();
            [output.duration_s, output.energy_kwh, output.peak_power_kw]
        });
        if in_time(&low) && in_time(&high) {
            passed += 1;
            near += u64::from(kinds.near);
            subnormal += u64::from(kinds.subnormal);
            assert_eq!(broken(&low, &high), None, "pair {index}: {pair:?}");
        }
    }
    assert!(passed > 40_000 && near > 10_000 && subnormal > 10_000, "{passed} in time, {near}, {subnormal}");
}

#[test]
fn each_part_of_the_law_can_fail() {
    let output = [60.0, 1.0, 60.0];
    assert_eq!(broken(&output, &output), None);
    assert!(broken(&output, &[60.000_000_000_000_01, 1.0, 60.0]).is_some());
    assert!(broken(&output, &[60.0, 1.0, 59.999_999_999_999_99]).is_some());
    assert!(broken(&output, &[60.0, 1.000_000_000_000_000_2, 60.0]).is_some());
}
