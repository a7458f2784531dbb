//! Request 10, even shares of the limit: a module of the copy that the original does not have, written from the request's text
//! alone. All is exact: levels are tried by the text's own test.

/// The caps of the charging cars, whose requests stand by charger place.
pub fn caps(requests_kw: &[f64], limit_kw: f64) -> Vec<f64> {
    let requests: Vec<u64> = requests_kw.iter().map(|request_kw| watts(*request_kw)).collect();
    shares(&requests, watts(limit_kw)).into_iter().map(kilowatts).collect()
}

/// The greatest whole number not above 1,000 times the power, which is not negative and below 2^52 kW.
pub fn watts(power_kw: f64) -> u64 {
    let (exponent, fraction) = (power_kw.to_bits() >> 52, power_kw.to_bits() & ((1 << 52) - 1));
    // The power is the mantissa times 2^(exponent - 1,075); subnormal numbers have the exponent of the least normal one.
    let mantissa = if exponent == 0 { fraction } else { 1 << 52 | fraction };
    let thousandfold = 1_000 * u128::from(mantissa);
    (thousandfold >> (1_075 - exponent.max(1)).min(127)) as u64
}

pub fn kilowatts(watts: u64) -> f64 {
    watts as f64 / 1_000.0
}

/// What each of the requests gets, all in whole watts.
pub fn shares(requests: &[u64], limit: u64) -> Vec<u64> {
    if requests.iter().sum::<u64>() <= limit {
        return requests.to_vec();
    }
    let level = level(requests, limit);
    let mut shares: Vec<u64> = requests.iter().map(|request| level.min(*request)).collect();
    let left = limit - shares.iter().sum::<u64>();
    let short: Vec<usize> = (0..shares.len()).filter(|k| shares[*k] < requests[*k]).collect();
    // Fewer watts are left than cars are short, else the next level would do.
    for place in short.into_iter().take(left as usize) {
        shares[place] += 1;
    }
    shares
}

/// The largest level at which the requests cut to it sum to no more than the limit. Uncut they exceed it.
pub fn level(requests: &[u64], limit: u64) -> u64 {
    let sum_at = |level: u64| requests.iter().map(|request| level.min(*request)).sum::<u64>();
    let (mut fits, mut exceeds) = (0, requests.iter().copied().max().unwrap_or(0));
    while fits + 1 < exceeds {
        let between = (fits + exceeds) / 2;
        if sum_at(between) <= limit {
            fits = between;
        } else {
            exceeds = between;
        }
    }
    fits
}
