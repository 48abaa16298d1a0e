//! What 000 uses of other crates, in the least form that it needs, and 01's steps for exp and ln.

use std::cell::RefCell;
use std::ops::{Index, IndexMut};

/// An error of 000, as the refusal number that 01 or 02 gives it.
#[derive(Debug, Clone, Copy, PartialEq, Eq)]
pub struct AnalyticsError(pub u32);

/// 000's result.
pub type Result<T> = std::result::Result<T, AnalyticsError>;

/// The number of the first pair whose text the message contains.
fn number(message: &str, numbers: &[(&str, u32)]) -> AnalyticsError {
    match numbers.iter().find(|(text, _)| message.contains(text)) {
        Some(&(_, number)) => AnalyticsError(number),
        None => panic!("000 gave an error that has no number: {message}"),
    }
}

impl AnalyticsError {
    pub fn insufficient_data(message: impl Into<String>) -> Self {
        number(
            &message.into(),
            &[
                ("at least one observation", 1),
                ("coincident", 12),
                ("needs at least", 7),
            ],
        )
    }

    pub fn dimension_mismatch(expected: impl Into<String>, _: impl Into<String>) -> Self {
        number(&expected.into(), &[("response", 6), ("predictor", 5)])
    }

    pub fn invalid_input(message: impl Into<String>) -> Self {
        number(
            &message.into(),
            &[("response", 8), ("coordinate", 9), ("predictor", 10)],
        )
    }

    pub fn invalid_parameter(parameter: impl Into<String>, _: impl Into<String>) -> Self {
        number(&parameter.into(), &[("bandwidth", 11)])
    }

    pub fn matrix_error(message: impl Into<String>) -> Self {
        number(&message.into(), &[("singular", 14)])
    }

    pub fn numerical_instability(message: impl Into<String>) -> Self {
        // 27 is 02's: without trusts a location's own weight is 1, and the sum is above zero.
        number(
            &message.into(),
            &[
                ("kernel weights", 27),
                ("matrix inverse", 15),
                ("coefficients", 16),
                ("standard deviation", 17),
            ],
        )
    }
}

/// A matrix of reals, row by row.
#[derive(Clone)]
pub struct Array2<T> {
    rows: usize,
    columns: usize,
    values: Vec<T>,
}

impl Array2<f64> {
    pub fn zeros((rows, columns): (usize, usize)) -> Self {
        Array2 {
            rows,
            columns,
            values: vec![0.0; rows * columns],
        }
    }

    pub fn nrows(&self) -> usize {
        self.rows
    }

    pub fn ncols(&self) -> usize {
        self.columns
    }

    pub fn iter(&self) -> std::slice::Iter<'_, f64> {
        self.values.iter()
    }
}

impl Index<[usize; 2]> for Array2<f64> {
    type Output = f64;

    fn index(&self, [i, j]: [usize; 2]) -> &f64 {
        &self.values[i * self.columns + j]
    }
}

impl IndexMut<[usize; 2]> for Array2<f64> {
    fn index_mut(&mut self, [i, j]: [usize; 2]) -> &mut f64 {
        &mut self.values[i * self.columns + j]
    }
}

/// A vector of reals.
pub struct Array1<T>(Vec<T>);

impl Array1<f64> {
    pub fn zeros(n: usize) -> Self {
        Array1(vec![0.0; n])
    }
}

impl Index<usize> for Array1<f64> {
    type Output = f64;

    fn index(&self, i: usize) -> &f64 {
        &self.0[i]
    }
}

impl IndexMut<usize> for Array1<f64> {
    fn index_mut(&mut self, i: usize) -> &mut f64 {
        &mut self.0[i]
    }
}

/// Local solves so far, and the rows of the sweep that is going on, number after number.
#[derive(Default)]
pub struct Record {
    pub solves: u64,
    pub rows: Vec<f64>,
}

thread_local! {
    static RECORD: RefCell<Record> = RefCell::default();
    static TRUSTS: RefCell<Vec<f64>> = const { RefCell::new(Vec::new()) };
}

/// Counts a local solve; that of location 0 begins a sweep.
pub fn begin_solve(i: usize) {
    RECORD.with_borrow_mut(|r| {
        r.solves += 1;
        if i == 0 {
            r.rows.clear();
        }
    });
}

/// Keeps the row of a solve that succeeded.
pub fn end_solve(beta: &[f64], predicted: f64, residual: f64, local_r2: f64) {
    RECORD.with_borrow_mut(|r| {
        r.rows.extend_from_slice(beta);
        r.rows.extend([predicted, residual, local_r2]);
    });
}

/// What was recorded since the last call.
pub fn take_record() -> Record {
    RECORD.take()
}

/// Lends trusts to what runs: 000 has no parameter for them.
pub fn with_trusts<T>(trusts: &[f64], run: impl FnOnce() -> T) -> T {
    TRUSTS.set(trusts.to_vec());
    let answer = run();
    TRUSTS.take();
    answer
}

/// The trust of observation j. Where none is lent, there is none to take for it.
pub fn trust(j: usize) -> f64 {
    TRUSTS.with_borrow(|trusts| trusts[j])
}

/// exp of a number that is not above zero, by the steps of 01.
pub fn exp_steps(v: f64) -> f64 {
    v.exp_steps()
}

const HI: f64 = f64::from_bits(0x3FE6_2E42_FEE0_0000);
const LO: f64 = f64::from_bits(0x3DEA_39EF_3579_3C76);
const INV: f64 = f64::from_bits(0x3FF7_1547_652B_82FE);

/// exp and ln by the steps of 01.
pub trait Steps {
    /// exp of a number that is not above zero.
    fn exp_steps(self) -> f64;
    /// ln of a positive normal number.
    fn ln_steps(self) -> f64;
}

impl Steps for f64 {
    fn exp_steps(self) -> f64 {
        if self < -708.0 {
            return 0.0;
        }
        let k = (0.5 - self * INV) as u64;
        let scale = k as f64;
        let r = (self + scale * HI) + scale * LO;
        let mut s = 1.0;
        for j in (1..=13).rev() {
            s = 1.0 + (r * s) / f64::from(j);
        }
        s * f64::from_bits((1023 - k) << 52)
    }

    fn ln_steps(self) -> f64 {
        let bits = self.to_bits();
        let mut e = (bits >> 52) as f64 - 1023.0;
        let mut m = f64::from_bits((bits & ((1 << 52) - 1)) | (1023 << 52));
        if m >= 1.5 {
            m *= 0.5;
            e += 1.0;
        }
        let z = (m - 1.0) / (m + 1.0);
        let w = z * z;
        let mut s = 1.0 / 23.0;
        for j in (1..=21).rev().step_by(2) {
            s = 1.0 / f64::from(j) + w * s;
        }
        e * HI + ((2.0 * z) * s + e * LO)
    }
}

#[cfg(test)]
mod tests {
    use super::*;

    #[test]
    fn exp_and_ln_at_their_ends() {
        assert_eq!(0.0f64.exp_steps(), 1.0);
        assert_eq!((-0.0f64).exp_steps(), 1.0);
        assert_eq!((-709.0f64).exp_steps(), 0.0);
        assert_eq!(f64::NEG_INFINITY.exp_steps(), 0.0);
        assert_eq!(1.0f64.ln_steps(), 0.0);
    }

    #[test]
    fn exp_and_ln_are_near_the_platform_s() {
        for i in 0..7080 {
            let v = -f64::from(i) / 10.0;
            let (ours, theirs) = (v.exp_steps(), v.exp());
            assert!((ours - theirs).abs() <= 4e-16 * theirs, "exp({v})");
            let w = f64::from(i + 1) * 0.37;
            assert!(
                (w.ln_steps() - w.ln()).abs() <= 4e-16 * w.ln().abs().max(0.5),
                "ln({w})"
            );
        }
    }

    #[test]
    fn a_sweep_starts_at_location_0() {
        take_record();
        begin_solve(0);
        end_solve(&[1.0], 2.0, 3.0, 4.0);
        begin_solve(1);
        begin_solve(0);
        end_solve(&[5.0], 6.0, 7.0, 8.0);
        let record = take_record();
        assert_eq!(record.solves, 3);
        assert_eq!(record.rows, [5.0, 6.0, 7.0, 8.0]);
        assert_eq!(take_record().solves, 0);
    }
}
