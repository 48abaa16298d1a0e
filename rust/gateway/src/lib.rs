//! Geographically weighted regression by proved code.
//!
//! The computation is written in Rattle and proved equal to its definition on every input; this crate hands it the bytes. Types,
//! fields and calls have the names of the Rust module that was ported, so that a caller of that module changes one `use` line.
//! Added are [`GwrResult::solves`], the numbered [`Refusal`] in place of error text, and limits of 512 observations and 7
//! predictors. exp and ln are worked by fixed steps, so results do not depend on the platform's. The default count is another
//! one than there ([`GwrBandwidth::AdaptiveKnn`]): a caller that relied on it names its count.
//!
//! ```
//! use gateway::{GwrBandwidth, GwrKernel, GwrOptions, gwr_fit};
//!
//! let coords = [(0.0, 0.0), (0.0, 0.0), (10.0, 10.0), (10.0, 10.0)];
//! let x = vec![vec![]; 4];
//! let y = [2.0, 4.0, 10.0, 10.0];
//! let options = GwrOptions {
//!     kernel: GwrKernel::Bisquare,
//!     bandwidth: GwrBandwidth::Fixed(1.0),
//!     optimize_bandwidth: false,
//! };
//! let fit = gwr_fit(&coords, &x, &y, &options)?;
//! assert_eq!(fit.predicted, [3.0, 3.0, 10.0, 10.0]);
//! assert_eq!(fit.local_r2, [0.0, 0.0, 1.0, 1.0]);
//! assert_eq!(fit.solves, 4);
//! # Ok::<(), gateway::Refusal>(())
//! ```
//!
//! This layer checks nothing that the proved code checks itself. The one thing that flat bytes cannot show, predictor rows of
//! different lengths, it makes visible as a length that the proved code refuses.

pub mod bytes;
mod refusal;

pub use refusal::Refusal;

/// How a weight falls with distance.
#[derive(Debug, Clone, Copy, PartialEq, Eq)]
pub enum GwrKernel {
    /// exp(-0.5·(d/b)²).
    Gaussian,
    /// (1 - (d/b)²)² for d < b, else 0.
    Bisquare,
    /// exp(-d/b).
    Exponential,
}

impl GwrKernel {
    /// The number that the byte calls know a kernel by.
    const fn number(self) -> u64 {
        match self {
            GwrKernel::Gaussian => 0,
            GwrKernel::Bisquare => 1,
            GwrKernel::Exponential => 2,
        }
    }

    /// The weight of a distance `d` at a bandwidth `b`: 1 or 0 for a bandwidth that is not finite or not above zero (1 at
    /// distance 0). The proved call refuses a distance that is NaN or negative and gives it the weight 0, which is what this
    /// answers; [`GwrKernel::try_weight`] tells it apart.
    ///
    /// ```
    /// use gateway::GwrKernel;
    /// assert_eq!(GwrKernel::Bisquare.weight(1.0, 2.0), 0.5625);
    /// assert_eq!(GwrKernel::Bisquare.weight(2.0, 2.0), 0.0);
    /// assert_eq!(GwrKernel::Gaussian.weight(0.0, 0.0), 1.0);
    /// assert_eq!(GwrKernel::Gaussian.weight(-1.0, 2.0), 0.0);
    /// ```
    #[must_use]
    pub fn weight(self, d: f64, b: f64) -> f64 {
        self.call(d, b).1
    }

    /// The weight, or [`Refusal::CoordinateNotFinite`] (9) for a distance that is NaN or negative.
    ///
    /// ```
    /// use gateway::{GwrKernel, Refusal};
    /// assert_eq!(GwrKernel::Exponential.try_weight(0.0, 3.0), Ok(1.0));
    /// assert_eq!(GwrKernel::Exponential.try_weight(-1.0, 3.0), Err(Refusal::CoordinateNotFinite));
    /// ```
    pub fn try_weight(self, d: f64, b: f64) -> Result<f64, Refusal> {
        let (number, weight) = self.call(d, b);
        Refusal::answer(number).map(|()| weight)
    }

    fn call(self, d: f64, b: f64) -> (u32, f64) {
        let mut out = [0; 8];
        let number = bytes::weight(self.number(), d.to_bits(), b.to_bits(), &mut out);
        (number, f64::from_le_bytes(out))
    }
}

/// The bandwidth that is asked for.
#[derive(Debug, Clone, Copy, PartialEq)]
pub enum GwrBandwidth {
    /// The same distance at every location.
    Fixed(f64),
    /// At each location the distance to its k-th nearest neighbour. Where the count is not searched, 0 stands for the default,
    /// the larger of p + 3 and the least whole number whose square reaches n (in the ported module: of 2 and that number), and
    /// any count is then capped at n - 1 and raised to at least 1; [`GwrResult::bandwidth`] reports what became of it.
    ///
    /// ```
    /// use gateway::{GwrBandwidth, GwrKernel, GwrOptions, gwr_fit};
    ///
    /// let coords: Vec<(f64, f64)> = (0..10).map(|i| (f64::from(i), f64::from(i * i))).collect();
    /// let x: Vec<Vec<f64>> = (0..10).map(|i| vec![f64::from(i % 3), f64::from(i % 4)]).collect();
    /// let y: Vec<f64> = (0..10).map(f64::from).collect();
    /// let bandwidth = |k| {
    ///     let options = GwrOptions {
    ///         kernel: GwrKernel::Gaussian,
    ///         bandwidth: GwrBandwidth::AdaptiveKnn(k),
    ///         optimize_bandwidth: false,
    ///     };
    ///     gwr_fit(&coords, &x, &y, &options).map(|fit| fit.bandwidth)
    /// };
    /// assert_eq!(bandwidth(0), Ok(5.0)); // two predictors and ten observations; 4 in the ported module
    /// assert_eq!(bandwidth(4), Ok(4.0));
    /// assert_eq!(bandwidth(100), Ok(9.0));
    /// ```
    AdaptiveKnn(usize),
}

/// What to fit with.
#[derive(Debug, Clone, Copy, PartialEq)]
pub struct GwrOptions {
    /// The kernel.
    pub kernel: GwrKernel,
    /// The bandwidth, or its kind alone where it is searched.
    pub bandwidth: GwrBandwidth,
    /// Whether the bandwidth with the least AICc is searched; the value in `bandwidth` is then ignored.
    pub optimize_bandwidth: bool,
}

impl Default for GwrOptions {
    /// Bisquare, the default count, no search.
    fn default() -> Self {
        Self {
            kernel: GwrKernel::Bisquare,
            bandwidth: GwrBandwidth::AdaptiveKnn(0),
            optimize_bandwidth: false,
        }
    }
}

impl GwrOptions {
    /// Kind and bandwidth as the byte call takes them.
    fn kind_and_bandwidth(&self) -> (u64, u64) {
        let searched = if self.optimize_bandwidth { 2 } else { 0 };
        match self.bandwidth {
            GwrBandwidth::Fixed(b) => (searched, b.to_bits()),
            GwrBandwidth::AdaptiveKnn(k) => (searched + 1, k as u64),
        }
    }
}

/// A fit.
#[derive(Debug, Clone, PartialEq)]
pub struct GwrResult {
    /// For each observation the intercept, then a coefficient for each predictor.
    pub coefficients: Vec<Vec<f64>>,
    /// The prediction at each observation.
    pub predicted: Vec<f64>,
    /// Response less prediction.
    pub residuals: Vec<f64>,
    /// Local R², from 0 to 1, or NaN after an overflow.
    pub local_r2: Vec<f64>,
    /// The bandwidth: a distance, or a count as a real.
    pub bandwidth: f64,
    /// Corrected Akaike criterion, unguarded as in the ported module: where fewer than no degrees of freedom are left it is worked
    /// as it falls. It may be infinite or NaN.
    pub aicc: f64,
    /// Local solves that were made, those of the search among them.
    pub solves: u64,
}

/// Fits a regression at each observation, with the others weighted by their distance. The intercept is added: `x` has the
/// predictors only, one row for each observation. Every observation is fully trusted (a trust of 1).
///
/// # Errors
///
/// The [`Refusal`] that the proved code answers. Predictor rows of different lengths are [`Refusal::PredictorLength`] (5).
///
/// ```
/// use gateway::{GwrOptions, Refusal, gwr_fit};
/// let none = gwr_fit(&[], &[], &[], &GwrOptions::default());
/// assert_eq!(none, Err(Refusal::NoCoordinates));
/// ```
pub fn gwr_fit(
    coords: &[(f64, f64)],
    x: &[Vec<f64>],
    y: &[f64],
    options: &GwrOptions,
) -> Result<GwrResult, Refusal> {
    let n = coords.len();
    let p = x.first().map_or(0, Vec::len);
    let (kind, bandwidth) = options.kind_and_bandwidth();
    let coord_bytes: Vec<u8> = coords
        .iter()
        .flat_map(|(e, n)| [e, n])
        .flat_map(|v| v.to_le_bytes())
        .collect();
    let mut x_bytes = little_endian(x.iter().flatten());
    if (p == 0 && x.len() != n) || x.iter().any(|row| row.len() != p) {
        // Flat bytes cannot show this. One byte too many has the proved code refuse the length, in its order.
        x_bytes.push(0);
    }
    // Room for the largest job that is not refused is enough for any.
    let width = p.min(7) + 4;
    let mut out = vec![0; 8 * n.min(512) * width];
    let mut summary = [0; 24];
    let number = bytes::fit(
        &coord_bytes,
        &x_bytes,
        &little_endian(y),
        p as u64,
        options.kernel.number(),
        kind,
        bandwidth,
        &mut out,
        &mut summary,
    );
    Refusal::answer(number)?;
    let rows: Vec<Vec<f64>> = out.chunks_exact(8 * width).map(reals).collect();
    let summary_reals = reals(&summary);
    Ok(GwrResult {
        coefficients: rows.iter().map(|r| r[..p + 1].to_vec()).collect(),
        predicted: rows.iter().map(|r| r[p + 1]).collect(),
        residuals: rows.iter().map(|r| r[p + 2]).collect(),
        local_r2: rows.iter().map(|r| r[p + 3]).collect(),
        bandwidth: summary_reals[0],
        aicc: summary_reals[1],
        solves: summary_reals[2].to_bits(),
    })
}

fn little_endian<'a>(values: impl IntoIterator<Item = &'a f64>) -> Vec<u8> {
    values.into_iter().flat_map(|v| v.to_le_bytes()).collect()
}

fn reals(bytes: &[u8]) -> Vec<f64> {
    bytes
        .chunks_exact(8)
        .map(|c| f64::from_le_bytes(c.try_into().expect("chunks of 8")))
        .collect()
}

#[cfg(test)]
mod tests {
    use super::*;

    const COUNT: GwrOptions = GwrOptions {
        kernel: GwrKernel::Gaussian,
        bandwidth: GwrBandwidth::AdaptiveKnn(4),
        optimize_bandwidth: false,
    };

    type Observations = (Vec<(f64, f64)>, Vec<Vec<f64>>, Vec<f64>);

    /// A line of n places whose response is 3 + 2x.
    fn line(n: usize) -> Observations {
        let coords = (0..n).map(|i| (i as f64, 0.5 * i as f64)).collect();
        let x: Vec<Vec<f64>> = (0..n).map(|i| vec![(i * i % 7) as f64]).collect();
        let y = x.iter().map(|row| 3.0 + 2.0 * row[0]).collect();
        (coords, x, y)
    }

    #[test]
    fn a_line_is_found() {
        let (coords, x, y) = line(20);
        for optimize_bandwidth in [false, true] {
            for bandwidth in [GwrBandwidth::Fixed(5.0), GwrBandwidth::AdaptiveKnn(5)] {
                let options = GwrOptions {
                    bandwidth,
                    optimize_bandwidth,
                    ..COUNT
                };
                let fit = gwr_fit(&coords, &x, &y, &options).unwrap();
                assert_eq!(fit.coefficients.len(), 20);
                for (i, row) in fit.coefficients.iter().enumerate() {
                    assert!((row[0] - 3.0).abs() < 1e-6 && (row[1] - 2.0).abs() < 1e-6);
                    assert_eq!(fit.residuals[i], y[i] - fit.predicted[i]);
                    assert!((0.0..=1.0).contains(&fit.local_r2[i]));
                }
                assert!(fit.solves.is_multiple_of(20) && (fit.solves > 20) == optimize_bandwidth);
            }
        }
    }

    #[test]
    fn the_count_is_reported() {
        let (coords, x, y) = line(10);
        let fit = |k| {
            let options = GwrOptions {
                bandwidth: GwrBandwidth::AdaptiveKnn(k),
                ..COUNT
            };
            gwr_fit(&coords, &x, &y, &options).unwrap().bandwidth
        };
        assert_eq!(fit(4), 4.0);
        assert_eq!(fit(100), 9.0);
        assert_eq!(fit(usize::MAX), 9.0);
    }

    /// A fit with the default count, of n places on a curve and p predictors.
    fn by_default(n: usize, p: usize, kernel: GwrKernel) -> Result<GwrResult, Refusal> {
        let coords: Vec<(f64, f64)> = (0..n).map(|i| (i as f64, (i * i) as f64)).collect();
        let x: Vec<Vec<f64>> = (0..n)
            .map(|i| {
                (0..p)
                    .map(|j| ((i * i + 7 * j) * (i + j + 1) * 31 % 97) as f64)
                    .collect()
            })
            .collect();
        let y: Vec<f64> = (0..n).map(|i| (i % 13) as f64).collect();
        let options = GwrOptions {
            kernel,
            ..GwrOptions::default()
        };
        gwr_fit(&coords, &x, &y, &options)
    }

    #[test]
    fn the_default_count() {
        // 01's values, which are those for p = 0; then some where the module that was ported takes fewer.
        for (n, p, count) in [
            (1, 0, 1.0),
            (2, 0, 1.0),
            (10, 0, 4.0),
            (512, 0, 23.0),
            (4, 0, 3.0),
            (10, 2, 5.0),
            (16, 7, 10.0),
            (8, 7, 7.0),
        ] {
            let fit = by_default(n, p, GwrKernel::Gaussian).unwrap();
            assert_eq!(fit.bandwidth, count, "n {n} p {p}");
        }
        // The farthest neighbour weighs nothing: two weights for three columns.
        assert_eq!(
            by_default(3, 2, GwrKernel::Bisquare),
            Err(Refusal::Singular)
        );
        assert!(by_default(10, 2, GwrKernel::Bisquare).is_ok());
    }

    #[test]
    fn rows_that_differ_are_refused() {
        let (coords, x, y) = line(6);
        let refused = |x: &[Vec<f64>]| gwr_fit(&coords, x, &y, &COUNT).unwrap_err();
        assert_eq!(refused(&x[..5]), Refusal::PredictorLength);
        assert_eq!(refused(&[]), Refusal::PredictorLength);
        assert_eq!(refused(&vec![vec![]; 7]), Refusal::PredictorLength);
        // The same number of values in all.
        let mut ragged = x.clone();
        let moved = ragged[2].pop().unwrap();
        ragged[3].push(moved);
        assert_eq!(refused(&ragged), Refusal::PredictorLength);
        // Refusals that come before 5 still do.
        assert_eq!(refused(&vec![vec![0.0; 8]; 5]), Refusal::TooManyPredictors);
        let many = vec![(0.0, 0.0); 513];
        let over = gwr_fit(&many, &ragged, &y, &COUNT).unwrap_err();
        assert_eq!(over, Refusal::TooManyObservations);
    }

    #[test]
    fn refusals_of_the_proved_code_come_through() {
        let (coords, x, mut y) = line(6);
        let constant = vec![vec![1.0]; 6];
        let refused = |x: &[Vec<f64>], y: &[f64]| gwr_fit(&coords, x, y, &COUNT).unwrap_err();
        assert_eq!(refused(&x, &y[..5]), Refusal::ResponseLength);
        assert_eq!(refused(&constant, &y), Refusal::Singular);
        y[5] = f64::INFINITY;
        assert_eq!(refused(&x, &y), Refusal::ResponseNotFinite);
        let few = gwr_fit(&coords[..1], &x[..1], &[0.0], &COUNT).unwrap_err();
        assert_eq!(few, Refusal::TooFewObservations);
    }

    #[test]
    fn the_searched_value_is_ignored() {
        let (coords, x, y) = line(6);
        let options = GwrOptions {
            bandwidth: GwrBandwidth::Fixed(f64::NAN),
            ..COUNT
        };
        assert_eq!(
            gwr_fit(&coords, &x, &y, &options).unwrap_err(),
            Refusal::UnusableDistance
        );
        let searched = GwrOptions {
            optimize_bandwidth: true,
            ..options
        };
        assert!(gwr_fit(&coords, &x, &y, &searched).unwrap().bandwidth > 0.0);
    }

    #[test]
    fn the_largest_job() {
        let n = 512;
        let coords: Vec<(f64, f64)> = (0..n).map(|i| ((i % 23) as f64, (i / 23) as f64)).collect();
        let x: Vec<Vec<f64>> = (0..n)
            .map(|i| (0..7).map(|j| ((i * (j + 3) * 31) % 97) as f64).collect())
            .collect();
        let y: Vec<f64> = (0..n).map(|i| (i % 13) as f64).collect();
        let options = GwrOptions {
            bandwidth: GwrBandwidth::AdaptiveKnn(23),
            ..COUNT
        };
        let fit = gwr_fit(&coords, &x, &y, &options).unwrap();
        assert_eq!((fit.solves, fit.bandwidth), (512, 23.0));
        assert!(fit.coefficients.iter().all(|row| row.len() == 8));
    }

    #[test]
    fn weights() {
        for kernel in [
            GwrKernel::Gaussian,
            GwrKernel::Bisquare,
            GwrKernel::Exponential,
        ] {
            assert_eq!(kernel.weight(0.0, 1.0), 1.0);
            assert_eq!(kernel.weight(1e9, 1.0), 0.0);
            assert_eq!(kernel.weight(f64::NAN, 1.0), 0.0);
            assert_eq!(kernel.weight(1.0, f64::NAN), 0.0);
            assert_eq!(
                kernel.try_weight(f64::NAN, 1.0),
                Err(Refusal::CoordinateNotFinite)
            );
            assert_eq!(kernel.try_weight(-0.0, 1.0), Ok(1.0));
        }
    }
}
