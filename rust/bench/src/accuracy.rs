//! How true exp is, by running: its relative error over dense runs of v from -708 to 0. That it stays under 2^-48 everywhere is
//! proved (crates/accuracy); how far under is seen here.

use crate::single::exponentials;

/// Numbers here are counted in parts of 2^-116.
const FRACTION: u32 = 116;
const ONE: u128 = 1 << FRACTION;
const LN_2: u128 = 0x000B_1721_7F7D_1CF7_9ABC_9E3B_3980_3F2F;

/// The product of two numbers below 4, cut.
fn times(a: u128, b: u128) -> u128 {
    const LOW: u128 = u64::MAX as u128;
    let (low, high) = ((a & LOW) * (b & LOW), (a >> 64) * (b >> 64));
    let (one, two) = ((a >> 64) * (b & LOW), (a & LOW) * (b >> 64));
    let middle = (low >> 64) + (one & LOW) + (two & LOW);
    let high = high + (one >> 64) + (two >> 64) + (middle >> 64);
    let low = (middle << 64) | (low & LOW);
    (high << (128 - FRACTION)) | (low >> FRACTION)
}

/// |x|·2^k, cut.
fn fixed(x: f64, k: i32) -> u128 {
    let bits = x.to_bits() & (u64::MAX >> 1);
    let exponent = (bits >> 52).max(1) as i32;
    let mantissa = if bits >> 52 == 0 {
        bits
    } else {
        bits & ((1 << 52) - 1) | 1 << 52
    };
    let shift = exponent - 1075 + FRACTION as i32 + k;
    if shift >= 0 {
        u128::from(mantissa) << shift
    } else {
        u128::from(mantissa)
            .checked_shr(shift.unsigned_abs())
            .unwrap_or(0)
    }
}

/// k and e^v·2^k, which lies from 1 to 2, by the power series; it is true to about 2^-105.
fn exponential(v: f64) -> (i32, u128) {
    let x = fixed(v, 0);
    let k = x.div_ceil(LN_2);
    let rest = k * LN_2 - x;
    let (mut sum, mut term) = (ONE, ONE);
    for i in 1.. {
        term = times(term, rest) / i;
        if term == 0 {
            break;
        }
        sum += term;
    }
    (k as i32, sum)
}

/// (e - e^v) / e^v.
fn relative_error(v: f64, e: f64) -> f64 {
    let (k, truth) = exponential(v);
    (fixed(e, k) as i128 - truth as i128) as f64 / truth as f64
}

/// The least and the greatest relative error of our exp, and where.
fn extremes(values: &[f64]) -> [(f64, f64); 2] {
    let mut ours = values.to_vec();
    exponentials(&mut ours);
    let errors = values
        .iter()
        .zip(ours)
        .map(|(&v, e)| (relative_error(v, e), v));
    errors.fold([(0.0, 0.0); 2], |[least, greatest], error| {
        [
            if error.0 < least.0 { error } else { least },
            if error.0 > greatest.0 {
                error
            } else {
                greatest
            },
        ]
    })
}

/// Numbers at even distances from `from` on.
fn even(count: usize, from: f64, to: f64) -> Vec<f64> {
    let step = (to - from) / (count as f64);
    (0..=count).map(|i| from + step * i as f64).collect()
}

/// Neighbours of each (j + 1/2)·ln 2, where one more halving is taken and the rest of v is greatest.
fn turning_points(each: i64) -> Vec<f64> {
    let about = |j: u32| -(f64::from(j) + 0.5) * std::f64::consts::LN_2;
    let beside =
        |v: f64| (-each..=each).map(move |i| f64::from_bits((v.to_bits() as i64 + i) as u64));
    (0..1021).flat_map(|j| beside(about(j))).collect()
}

/// The error over three runs.
pub fn accuracy() {
    println!("| v | numbers | least relative error | at v | greatest | at v |");
    println!("|---|---|---|---|---|---|");
    let runs = [
        ("-708 to 0, evenly", even(10_000_000, -708.0, 0.0)),
        ("-1 to 0, evenly", even(10_000_000, -1.0, 0.0)),
        ("beside each (j + 1/2)·ln 2", turning_points(2_000)),
    ];
    for (name, values) in runs {
        let [(least, low), (greatest, high)] = extremes(&values);
        println!(
            "| {name} | {} | -2^{:.2} | {low:?} | 2^{:.2} | {high:?} |",
            values.len(),
            (-least).log2(),
            greatest.log2()
        );
    }
}

#[cfg(test)]
mod tests {
    use super::*;

    #[test]
    fn the_reference_has_the_digits_of_e() {
        // 4/e and 2/sqrt(e)
        let near = |v, k, e: u128| {
            let found = exponential(v);
            found.0 == k && found.1.abs_diff(e) < 1 << 10
        };
        assert!(near(-1.0, 2, 0x0017_8B56_362C_EF37_C6AE_B7B1_E0A4_153E));
        assert!(near(-0.5, 1, 0x0013_68B2_FC6F_9609_FE7A_CEB4_6AA6_19BA));
    }

    #[test]
    fn the_error_stays_under_its_bound() {
        let mut values = even(100_000, -708.0, 0.0);
        values.extend(even(100_000, -1.0, 0.0));
        values.extend(turning_points(50));
        values.extend((0..1074).map(|i| -(2f64.powi(-i))));
        let [(least, low), (greatest, high)] = extremes(&values);
        assert!(least > -(2f64.powi(-52)), "{least:e} at {low:?}");
        assert!(greatest < 2f64.powi(-52), "{greatest:e} at {high:?}");
    }
}
