//! Jobs for the comparison and the stored runs: always the same ones from the same seed.

use crate::Job;

/// A small random number generator (xorshift with a multiplied output).
pub struct Rng(u64);

impl Rng {
    /// One of each seed; 0 counts as 1.
    pub fn new(seed: u64) -> Self {
        Rng(seed.max(1))
    }

    /// Any 64 bits.
    pub fn bits(&mut self) -> u64 {
        self.0 ^= self.0 << 13;
        self.0 ^= self.0 >> 7;
        self.0 ^= self.0 << 17;
        self.0.wrapping_mul(0x2545_F491_4F6C_DD1D)
    }

    /// A number below `n`.
    pub fn below(&mut self, n: u64) -> u64 {
        (self.bits() >> 11) % n
    }

    /// A real from 0 up to below 1.
    pub fn unit(&mut self) -> f64 {
        (self.bits() >> 11) as f64 / (1u64 << 53) as f64
    }

    /// One of these.
    pub fn pick<T: Copy>(&mut self, from: &[T]) -> T {
        from[self.below(from.len() as u64) as usize]
    }
}

/// Distances for an unsearched fit, good and bad.
pub const DISTANCES: [f64; 16] = [
    1.0,
    50.0,
    300.0,
    2000.0,
    1e300,
    5e-324,
    1e-300,
    f64::MIN_POSITIVE,
    f64::MAX,
    0.0,
    -0.0,
    -1.0,
    f64::INFINITY,
    f64::NEG_INFINITY,
    f64::NAN,
    2.0,
];

/// What the values of a random job look like.
#[derive(Debug, Clone, Copy, PartialEq, Eq)]
enum Style {
    /// Values from 0 to 100 at places within a square.
    Plain,
    /// A response that follows the predictors, with a little noise.
    Linear,
    /// Whole values 0 to 2: many ties and singular systems.
    Small,
    /// Places on a grid of three by three: ties between distances, coincident places.
    Grid,
    /// All places the same.
    Coincident,
    /// Values that overflow when squared.
    Large,
    /// Values near zero.
    Tiny,
    /// Values, places among them, from the ends of the range.
    Extreme,
    /// Responses alone that overflow when squared.
    LargeResponses,
    /// Values at pantries in two far clusters.
    Clusters,
}

const STYLES: [Style; 16] = [
    Style::Plain,
    Style::Plain,
    Style::Plain,
    Style::Linear,
    Style::Linear,
    Style::Linear,
    Style::Linear,
    Style::Small,
    Style::Grid,
    Style::Grid,
    Style::Coincident,
    Style::Large,
    Style::Tiny,
    Style::Extreme,
    Style::LargeResponses,
    Style::Clusters,
];

const EXTREMES: [f64; 9] = [0.0, -0.0, 1.0, 2.0, 1e308, 1e-308, -1e200, 1e154, 5e-324];

fn value(g: &mut Rng, style: Style) -> f64 {
    match style {
        Style::Small => g.below(3) as f64,
        Style::Large => (g.unit() - 0.5) * 1e160,
        Style::Tiny => (g.unit() - 0.5) * 1e-5,
        Style::Extreme => g.pick(&EXTREMES),
        _ => g.unit() * 100.0,
    }
}

fn place(g: &mut Rng, style: Style) -> [f64; 2] {
    match style {
        Style::Grid => [g.below(3) as f64, g.below(3) as f64],
        Style::Coincident => [7.0, -3.0],
        Style::Extreme if g.below(2) == 0 => [g.pick(&EXTREMES), g.pick(&EXTREMES)],
        Style::Clusters => {
            let far = g.below(2) as f64 * 1e6;
            [far + g.unit(), far - g.unit()]
        }
        _ => [g.unit() * 1000.0, g.unit() * 1000.0],
    }
}

/// A random job of this kernel and kind with n observations and p predictors. Few have a value that is not finite.
pub fn random(g: &mut Rng, n: u64, p: u64, kernel: u64, kind: u64) -> Job {
    let style = g.pick(&STYLES);
    styled(g, style, (n, p), kernel, kind)
}

/// The same, with a response that follows the predictors.
pub fn linear(g: &mut Rng, n: u64, p: u64, kernel: u64, kind: u64) -> Job {
    styled(g, Style::Linear, (n, p), kernel, kind)
}

fn styled(g: &mut Rng, style: Style, (n, p): (u64, u64), kernel: u64, kind: u64) -> Job {
    let mut coords = Vec::new();
    let mut x = Vec::new();
    let mut y = Vec::new();
    let slopes: Vec<f64> = (0..p).map(|_| g.unit() * 4.0 - 2.0).collect();
    for _ in 0..n {
        let at = place(g, style);
        let row: Vec<f64> = (0..p).map(|_| value(g, style)).collect();
        y.push(match style {
            Style::Linear => {
                let drift = 1.0 + at[0] / 1000.0;
                let sum: f64 = row.iter().zip(&slopes).map(|(v, s)| v * s).sum();
                5.0 + drift * sum + g.unit()
            }
            Style::LargeResponses => (g.unit() - 0.5) * g.pick(&[1e160, 1e155, 1.7e308]),
            _ => value(g, style),
        });
        coords.extend(at);
        x.extend(row);
    }
    if g.below(60) == 0 {
        let bad = g.pick(&[f64::NAN, f64::INFINITY, f64::NEG_INFINITY]);
        let part = g.pick(&[0, 1, 2]);
        let part = match part {
            0 => &mut coords,
            1 => &mut x,
            _ => &mut y,
        };
        if !part.is_empty() {
            let at = g.below(part.len() as u64) as usize;
            part[at] = bad;
        }
    }
    let bandwidth = match kind {
        0 if g.below(3) == 0 => g.pick(&DISTANCES).to_bits(),
        0 => (g.unit() * g.pick(&[3.0, 300.0, 1500.0, 5000.0])).to_bits(),
        1 => g.pick(&[0, 1, 2, 3, 5, n / 2, n - 1, n, n + 1, 100, u64::MAX]),
        _ => g.bits(),
    };
    Job::new(&coords, &x, &y, p, (kernel, kind, bandwidth))
}

#[cfg(test)]
mod tests {
    use super::*;

    #[test]
    fn the_same_seed_gives_the_same_jobs() {
        let jobs = |seed| {
            let mut g = Rng::new(seed);
            (0..20)
                .map(|i| random(&mut g, 1 + i, i % 8, i % 3, i % 4))
                .collect::<Vec<_>>()
        };
        assert_eq!(jobs(5), jobs(5));
        assert_ne!(jobs(5), jobs(6));
    }

    #[test]
    fn a_job_has_whole_parts() {
        let job = random(&mut Rng::new(1), 9, 3, 0, 1);
        assert_eq!(job.n(), 9);
        assert_eq!((job.x.len(), job.y.len()), (9 * 3 * 8, 9 * 8));
        assert_eq!(job.out_len, 9 * 7 * 8);
        assert_eq!(job.header_and_parts().len(), 40 + 9 * 6 * 8);
    }
}
