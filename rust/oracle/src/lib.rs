//! The other side of the comparison: what 000 answers to a job of the byte calls, where 000 has an answer, and what 01 and 02 say
//! where it has none (limits, byte lengths, unknown numbers, output too short, trusts that are none). 000 has a default count of
//! its own, so it is handed the count that 02 says an unsearched count 0 becomes ([`default_count`]).
//!
//! 000 is taken at build time from the folder of source documents (see build.rs), five times: with 01's steps for exp and ln
//! ([`steps`]), which is what is compared, the same with the line that 02's guarded criterion adds ([`guarded`]), each of the two
//! with the product that 02's trusts add ([`trusted`], [`trusted_guarded`]), and with the platform's exp and ln ([`platform`]), for
//! times. Without it [`AVAILABLE`] is false.

#![forbid(unsafe_code)]

pub mod generate;
pub mod jobs;
pub mod listings;
pub mod stored;
#[cfg_attr(not(gwr_source), allow(dead_code))]
mod support;
pub mod trusts;

pub use steps::{fit, weight};
pub use support::exp_steps;

/// Whether 000 was there when this crate was built.
pub const AVAILABLE: bool = cfg!(gwr_source);

/// What a run without 000 says, in one line.
pub const MISSING: &str = "the comparison did not run: the source gwr.rs is missing (no folder shared/docs/src beside the repository; set GWR_SRC to a folder that holds crates/oxigeo-analytics/src/regression/gwr.rs)";

/// What every byte of output and summary is before a call.
pub const FILL: u8 = 0xA5;

/// The bits that every NaN is put out with.
pub const NAN: u64 = 0x7FF8_0000_0000_0000;

/// The least whole number whose square reaches n.
fn least_root(n: u64) -> u64 {
    (0..).find(|r| r * r >= n).expect("n itself does")
}

/// What an unsearched count 0 becomes, by 02's words alone: the larger of p + 3 and the least whole number whose square reaches n,
/// then capped at n - 1 and raised to at least 1.
pub fn default_count(n: u64, p: u64) -> u64 {
    let chosen = least_root(n).max(p.saturating_add(3));
    chosen.min(n.saturating_sub(1)).max(1)
}

/// What it becomes in 000.
pub fn default_count_of_000(n: u64) -> u64 {
    least_root(n).max(2).min(n.saturating_sub(1)).max(1)
}

/// A job as the fit call takes it.
#[derive(Debug, Clone, PartialEq, Eq)]
pub struct Job {
    /// Coordinates, easting then northing, 8 bytes each.
    pub coords: Vec<u8>,
    /// Predictors, row by row.
    pub x: Vec<u8>,
    /// Responses.
    pub y: Vec<u8>,
    /// Number of predictors.
    pub p: u64,
    /// Number of the kernel.
    pub kernel: u64,
    /// Number of the kind: 0 distance, 1 count, 2 and 3 the same searched.
    pub kind: u64,
    /// Bits of a distance, or a count.
    pub bandwidth: u64,
    /// Bytes lent for the rows.
    pub out_len: usize,
    /// Bytes lent for the summary.
    pub summary_len: usize,
}

/// What a fit call answers, and the bytes after it.
#[derive(Debug, Clone, PartialEq, Eq)]
pub struct Answer {
    /// The refusal's number, 0 for none.
    pub number: u32,
    /// The output.
    pub out: Vec<u8>,
    /// The summary.
    pub summary: Vec<u8>,
}

/// Numbers as bytes.
pub fn bytes(values: &[f64]) -> Vec<u8> {
    values.iter().flat_map(|v| v.to_le_bytes()).collect()
}

/// Bytes as numbers; what is left over is dropped.
pub fn reals(bytes: &[u8]) -> Vec<f64> {
    bytes
        .chunks_exact(8)
        .map(|c| f64::from_le_bytes(c.try_into().expect("chunks of 8")))
        .collect()
}

/// The bits of a number that is put out.
pub fn bits(v: f64) -> u64 {
    if v.is_nan() { NAN } else { v.to_bits() }
}

impl Job {
    /// A job of whole parts, with just the room that its answer needs.
    pub fn new(coords: &[f64], x: &[f64], y: &[f64], p: u64, choice: (u64, u64, u64)) -> Self {
        let (kernel, kind, bandwidth) = choice;
        Job {
            coords: bytes(coords),
            x: bytes(x),
            y: bytes(y),
            p,
            kernel,
            kind,
            bandwidth,
            out_len: 8 * y.len() * (p as usize + 4),
            summary_len: 24,
        }
    }

    /// The same with the default count.
    pub fn with_default(mut self) -> Self {
        (self.kind, self.bandwidth) = (1, 0);
        self
    }

    /// Number of observations that the coordinates have.
    pub fn n(&self) -> usize {
        self.coords.len() / 16
    }

    /// A trust of 1 for each observation.
    pub fn full_trusts(&self) -> Vec<f64> {
        vec![1.0; self.n()]
    }

    /// Whether it asks for the default count.
    fn takes_default(&self) -> bool {
        (self.kind, self.bandwidth) == (1, 0)
    }

    /// The bandwidth's bits or count that 000 is handed: a default count is named.
    fn bandwidth_for_000(&self) -> u64 {
        match self.takes_default() {
            true => default_count(self.n() as u64, self.p),
            false => self.bandwidth,
        }
    }

    /// Of a job that asks for the default count: the same with 000's default named.
    pub fn with_default_of_000(&self) -> Option<Job> {
        self.takes_default().then(|| Job {
            bandwidth: default_count_of_000(self.n() as u64),
            ..self.clone()
        })
    }

    /// Whether it asks for the default count, and 000 would take another one.
    pub fn default_moved(&self) -> bool {
        let default = self.bandwidth_for_000();
        self.with_default_of_000()
            .is_some_and(|job| job.bandwidth != default)
    }

    /// The job as `gwrprint` reads it.
    pub fn header_and_parts(&self) -> Vec<u8> {
        let header = [
            self.n() as u64,
            self.p,
            self.kernel,
            self.kind,
            self.bandwidth,
        ];
        let mut all: Vec<u8> = header.iter().flat_map(|v| v.to_le_bytes()).collect();
        all.extend_from_slice(&self.coords);
        all.extend_from_slice(&self.x);
        all.extend_from_slice(&self.y);
        all
    }

    /// The places as pairs, and the predictors as rows, of a job of right byte lengths.
    pub fn places_and_rows(&self) -> (Vec<(f64, f64)>, Vec<Vec<f64>>) {
        let p = self.p as usize;
        let coords: Vec<(f64, f64)> = reals(&self.coords)
            .chunks_exact(2)
            .map(|c| (c[0], c[1]))
            .collect();
        let x = reals(&self.x);
        let rows = (0..coords.len()).map(|i| x[i * p..(i + 1) * p].to_vec());
        let rows = rows.collect();
        (coords, rows)
    }

    /// 01's refusals 18 and 1 to 6, of numbers and byte lengths; 000 has no bytes, and no limits. 6 is for the number of trusts too.
    fn refused_by_length(&self, trusts: usize) -> Option<u32> {
        let n = self.n();
        let p = usize::try_from(self.p).ok().filter(|p| *p <= 7);
        match p {
            _ if self.kernel > 2 || self.kind > 3 => Some(18),
            _ if self.coords.is_empty() => Some(1),
            _ if !self.coords.len().is_multiple_of(16) => Some(2),
            _ if n > 512 => Some(3),
            None => Some(4),
            Some(p) if self.x.len() != 8 * n * p => Some(5),
            Some(_) if self.y.len() != 8 * n || trusts != n => Some(6),
            Some(_) => None,
        }
    }

    /// 01's refusal 13.
    fn short_of_room(&self) -> bool {
        self.summary_len < 24 || self.out_len < 8 * self.n() * (self.p as usize + 4)
    }

    /// The refusal of a job of right lengths before its first solve: 000's own, and between its 10 and 11 those that it does not
    /// know.
    fn refused_before_solving(&self, trusts: &[f64], of_000: u32) -> Option<u32> {
        match of_000 {
            1..=10 => Some(of_000),
            _ if !trusts.iter().all(|t| (0.0..=1.0).contains(t)) => Some(26),
            _ if self.short_of_room() => Some(13),
            11 | 12 => Some(of_000),
            _ => None,
        }
    }

    /// What the fit call must answer, and every byte that it must leave. Only where [`AVAILABLE`].
    pub fn expected(&self) -> Answer {
        self.expected_by(steps::fit, &self.full_trusts())
    }

    /// The same of a guarded fit.
    pub fn expected_guarded(&self) -> Answer {
        self.expected_by(guarded::fit, &self.full_trusts())
    }

    /// What a fit of observations that are trusted so must answer, in the words of the fit call, which knows no trusts.
    pub fn expected_trusted(&self, trusts: &[f64]) -> Answer {
        support::with_trusts(trusts, || self.expected_by(trusted::fit, trusts))
    }

    /// The same of a guarded fit.
    pub fn expected_trusted_guarded(&self, trusts: &[f64]) -> Answer {
        support::with_trusts(trusts, || self.expected_by(trusted_guarded::fit, trusts))
    }

    /// The same by one of the readings of 000.
    fn expected_by(&self, fit: fn(&Job) -> Fitted, trusts: &[f64]) -> Answer {
        let mut answer = Answer {
            number: 0,
            out: vec![FILL; self.out_len],
            summary: vec![FILL; self.summary_len],
        };
        if let Some(number) = self.refused_by_length(trusts.len()) {
            answer.number = number;
            return answer;
        }
        let fitted = fit(self);
        if let Some(number) = self.refused_before_solving(trusts, fitted.number) {
            answer.number = number;
            return answer;
        }
        answer.number = fitted.number;
        for (place, v) in answer.out.chunks_exact_mut(8).zip(&fitted.rows) {
            place.copy_from_slice(&bits(*v).to_le_bytes());
        }
        let summary = [bits(fitted.bandwidth), bits(fitted.aicc), fitted.solves];
        for (place, v) in answer.summary.chunks_exact_mut(8).zip(summary) {
            place.copy_from_slice(&v.to_le_bytes());
        }
        answer
    }
}

/// What 000 answers: number of the refusal, rows of the final sweep, bandwidth and AICc (zeros with a refusal), solves.
#[derive(Debug, Clone)]
pub struct Fitted {
    /// The refusal's number, 0 for none.
    pub number: u32,
    /// The rows written before the end, number after number.
    pub rows: Vec<f64>,
    /// The bandwidth of the fit.
    pub bandwidth: f64,
    /// Its AICc.
    pub aicc: f64,
    /// Local solves.
    pub solves: u64,
}

/// A module that runs 000, by the text of this name that build.rs wrote.
macro_rules! side {
    ($(#[$text:meta])* $name:ident, $file:literal) => {
        $(#[$text])*
        #[cfg(gwr_source)]
        pub mod $name {
            use crate::{Fitted, Job, reals, support};

            #[allow(dead_code, missing_docs, unused_imports, clippy::all)]
            mod gwr {
                include!(concat!(env!("OUT_DIR"), $file));

                /// 000's `local_bandwidth_distance` of place i, among these alone.
                pub fn bandwidth_of(places: &[(f64, f64)], i: usize, k: usize) -> f64 {
                    let k = ResolvedBandwidth::AdaptiveKnn(k);
                    local_bandwidth_distance(&pairwise_distances(places), k, i, places.len())
                }
            }

            pub use gwr::bandwidth_of;

            /// Runs 000 on a job of right byte lengths and known numbers; it is handed what an unsearched count becomes.
            pub fn fit(job: &Job) -> Fitted {
                fit_handed(job, job.bandwidth_for_000())
            }

            /// The same with these bits of a distance, or this count, whatever the job says.
            pub fn fit_handed(job: &Job, bandwidth: u64) -> Fitted {
                let (coords, x) = job.places_and_rows();
                let options = gwr::GwrOptions {
                    kernel: kernel(job.kernel),
                    bandwidth: if job.kind.is_multiple_of(2) {
                        gwr::GwrBandwidth::Fixed(f64::from_bits(bandwidth))
                    } else {
                        gwr::GwrBandwidth::AdaptiveKnn(bandwidth as usize)
                    },
                    optimize_bandwidth: job.kind >= 2,
                };
                support::take_record();
                let result = gwr::gwr_fit(&coords, &x, &reals(&job.y), &options);
                let record = support::take_record();
                match result {
                    Ok(result) => {
                        let rows = (0..coords.len()).flat_map(|i| {
                            let last =
                                [result.predicted[i], result.residuals[i], result.local_r2[i]];
                            result.coefficients[i].iter().copied().chain(last)
                        });
                        Fitted {
                            number: 0,
                            rows: rows.collect(),
                            bandwidth: result.bandwidth,
                            aicc: result.aicc,
                            solves: record.solves,
                        }
                    }
                    Err(e) => Fitted {
                        number: e.0,
                        rows: record.rows,
                        bandwidth: 0.0,
                        aicc: 0.0,
                        solves: record.solves,
                    },
                }
            }

            fn kernel(number: u64) -> gwr::GwrKernel {
                match number {
                    0 => gwr::GwrKernel::Gaussian,
                    1 => gwr::GwrKernel::Bisquare,
                    _ => gwr::GwrKernel::Exponential,
                }
            }

            /// 000's weight by the kernel of this number, 0 to 2.
            pub fn weight(number: u64, d: f64, b: f64) -> f64 {
                kernel(number).weight(d, b)
            }
        }

        $(#[$text])*
        #[cfg(not(gwr_source))]
        pub mod $name {
            use crate::{Fitted, Job, MISSING};

            /// Without 000 there is nothing to run.
            pub fn fit(_: &Job) -> Fitted {
                panic!("{MISSING}")
            }

            /// Without 000 there is nothing to run.
            pub fn fit_handed(_: &Job, _: u64) -> Fitted {
                panic!("{MISSING}")
            }

            /// Without 000 there is nothing to run.
            pub fn weight(_: u64, _: f64, _: f64) -> f64 {
                panic!("{MISSING}")
            }

            /// Without 000 there is nothing to run.
            pub fn bandwidth_of(_: &[(f64, f64)], _: usize, _: usize) -> f64 {
                panic!("{MISSING}")
            }
        }
    };
}

side!(
    /// 000 with 01's steps for exp and ln.
    steps,
    "/steps.rs"
);
side!(
    /// The same, guarded.
    guarded,
    "/guarded.rs"
);
side!(
    /// 000 with 01's steps, and each weight times the trust that [`Job::expected_trusted`] lends: without one, a solve panics.
    trusted,
    "/trusted.rs"
);
side!(
    /// The same, guarded.
    trusted_guarded,
    "/trusted_guarded.rs"
);
side!(
    /// 000 with the platform's exp and ln.
    platform,
    "/platform.rs"
);

/// The bandwidth at a place for k neighbours among the first pantries handed over, by the words of 01 and 02's wish 5 alone: the k-th
/// smallest distance to those that are not its own, the last one if k is larger; if that is zero, or there is none, the greatest of
/// them and EPS.
pub fn bandwidth_among(
    pantries: &[(f64, f64)],
    place: (f64, f64),
    own: Option<usize>,
    k: usize,
) -> f64 {
    let mut distances = Vec::new();
    for (j, pantry) in pantries.iter().enumerate() {
        if own != Some(j) {
            let (dx, dy) = (place.0 - pantry.0, place.1 - pantry.1);
            distances.push((dx * dx + dy * dy).sqrt());
        }
    }
    distances.sort_by(f64::total_cmp);
    let kth = distances.get(k - 1).or(distances.last()).copied();
    match kth {
        Some(d) if d > 0.0 => d,
        _ => distances.last().copied().unwrap_or(0.0).max(f64::EPSILON),
    }
}

/// What the weight call must answer to numbers of these bits, with `room` bytes lent: the refusal's number and the bytes after.
pub fn expected_weight(kernel: u64, d: u64, b: u64, room: usize) -> (u32, Vec<u8>) {
    let mut out = vec![FILL; room];
    if kernel > 2 {
        return (18, out);
    }
    if room < 8 {
        return (13, out);
    }
    let d = f64::from_bits(d);
    let (number, w) = if d.is_nan() || d < 0.0 {
        (9, 0.0)
    } else {
        (0, weight(kernel, d, f64::from_bits(b)))
    };
    out[..8].copy_from_slice(&bits(w).to_le_bytes());
    (number, out)
}

#[cfg(test)]
mod default_counts {
    use super::{default_count, default_count_of_000};

    /// The table that the definition is proved to agree with, by p: the greatest n of each count, from 1 on.
    fn table() -> Vec<Vec<u64>> {
        let file = concat!(
            env!("CARGO_MANIFEST_DIR"),
            "/../../crates/examples/specs/DefaultCounts.antt"
        );
        let text = std::fs::read_to_string(file).expect("the table is there");
        let (_, text) = text.split_once("last_of_each =").expect("its definition");
        let (text, _) = text.split_once("\n\n").expect("its end");
        let numbers = |row: &str| {
            let words = row.split(|c: char| !c.is_ascii_digit());
            words.filter_map(|word| word.parse().ok()).collect()
        };
        let mut rows: Vec<Vec<u64>> = text.split("[]").map(numbers).collect();
        rows.retain(|row| !row.is_empty());
        rows
    }

    #[test]
    fn every_one_is_that_of_the_definition() {
        let rows = table();
        assert_eq!(rows.len(), 8);
        for (p, row) in (0..).zip(&rows) {
            assert_eq!(row.last(), Some(&512));
            for n in 1..=512 {
                let below = row.iter().filter(|last| **last < n).count();
                assert_eq!(default_count(n, p), below as u64 + 1, "n {n} p {p}");
            }
        }
    }

    #[test]
    fn without_predictors_it_moved_for_four_alone() {
        let moved = |n: &u64| default_count(*n, 0) != default_count_of_000(*n);
        assert_eq!((1..=512).filter(moved).collect::<Vec<_>>(), [4]);
    }
}

#[cfg(all(test, gwr_source))]
mod tests {
    use super::*;

    fn listing() -> Job {
        let coords = [0.0, 0.0, 0.0, 0.0, 10.0, 10.0, 10.0, 10.0];
        let choice = (1, 0, 1.0f64.to_bits());
        Job::new(&coords, &[], &[2.0, 4.0, 10.0, 10.0], 0, choice)
    }

    fn number(out: &[u8], at: usize) -> u64 {
        u64::from_le_bytes(out[8 * at..8 * at + 8].try_into().unwrap())
    }

    #[test]
    fn the_listing_of_01() {
        let answer = listing().expected();
        assert_eq!(answer.number, 0);
        let summary: Vec<u64> = (0..3).map(|i| number(&answer.summary, i)).collect();
        assert_eq!(summary, [0x3FF0_0000_0000_0000, 0x7FF0_0000_0000_0000, 4]);
        let first: Vec<u64> = (0..4).map(|i| number(&answer.out, i)).collect();
        let three = 3.0f64.to_bits();
        assert_eq!(first, [three, three, (-1.0f64).to_bits(), 0]);
    }

    #[test]
    fn lengths_and_numbers_in_01_s_order() {
        let good = listing();
        let check = |number: u32, change: &dyn Fn(&mut Job)| {
            let mut job = good.clone();
            change(&mut job);
            let answer = job.expected();
            assert_eq!(answer.number, number);
            assert!(answer.out.iter().chain(&answer.summary).all(|b| *b == FILL));
        };
        check(18, &|j| j.kernel = 3);
        check(18, &|j| {
            j.kind = 4;
            j.coords.clear();
        });
        check(1, &|j| j.coords.clear());
        check(2, &|j| j.coords.truncate(56));
        check(4, &|j| j.p = u64::MAX);
        check(5, &|j| j.p = 1);
        check(6, &|j| j.y.push(0));
        check(8, &|j| j.y[24..].copy_from_slice(&f64::NAN.to_le_bytes()));
        check(13, &|j| {
            j.out_len -= 1;
            j.bandwidth = 0;
        });
        check(13, &|j| j.summary_len = 23);
        check(11, &|j| j.bandwidth = 0);
    }

    /// A job that asks for the default count.
    fn by_default(n: u32, p: u32) -> Job {
        let coords: Vec<f64> = (0..2 * n).map(|i| f64::from(i * i % 13)).collect();
        let x: Vec<f64> = (0..n * p).map(|i| f64::from(i * i % 7)).collect();
        let y: Vec<f64> = (0..n).map(f64::from).collect();
        Job::new(&coords, &x, &y, u64::from(p), (0, 1, 0))
    }

    #[test]
    fn the_default_counts_here_and_in_000() {
        for (n, p, here, there) in [(4, 0, 3.0, 2.0), (10, 2, 5.0, 4.0), (10, 0, 4.0, 4.0)] {
            let job = by_default(n, p);
            assert_eq!(fit(&job).bandwidth, here);
            assert_eq!(steps::fit_handed(&job, 0).bandwidth, there);
            assert_eq!(job.default_moved(), here != there);
        }
    }

    #[test]
    fn the_count_named_for_000_is_its_default() {
        for n in 1..=70 {
            let job = by_default(n, 0);
            let named = job.with_default_of_000().unwrap();
            let (own, named) = (steps::fit_handed(&job, 0), fit(&named));
            assert_eq!((own.number, named.number), (0, 0));
            assert_eq!(own.bandwidth, named.bandwidth);
            assert_eq!(own.rows, named.rows);
        }
        assert_eq!(listing().with_default_of_000(), None);
    }

    #[test]
    fn only_a_guard_refuses_what_is_spent() {
        // One pantry: its own leverage is 1, and D is -2.
        let alone = Job::new(&[0.0, 0.0], &[], &[5.0], 0, (1, 0, 1.0f64.to_bits()));
        let (falls, guarded) = (alone.expected(), alone.expected_guarded());
        assert_eq!((falls.number, guarded.number), (0, 0));
        assert_eq!(falls.out, guarded.out);
        assert_eq!(number(&falls.summary, 1), 0xC096_1FD1_E108_A3A2);
        assert_eq!(number(&guarded.summary, 1), f64::INFINITY.to_bits());
        // Four at two places: D is 0, and so it is +infinity by both.
        assert_eq!(listing().expected(), listing().expected_guarded());
    }

    #[test]
    fn a_fit_that_fails_keeps_its_rows() {
        // Location 0 has two neighbours with different predictors, location 2 stands alone.
        let coords = [0.0, 0.0, 1.0, 0.0, 100.0, 0.0];
        let mut job = Job::new(&coords, &[1.0, 2.0, 3.0], &[1.0, 2.0, 3.0], 1, (1, 0, 0));
        job.bandwidth = 5.0f64.to_bits();
        let answer = job.expected();
        assert_eq!(answer.number, 14);
        assert!(answer.out[..80] != [FILL; 80][..]);
        assert!(answer.out[80..].iter().all(|b| *b == FILL));
        assert_eq!(answer.summary[..16], [0; 16]);
        assert_eq!(number(&answer.summary, 2), 3);
    }

    #[test]
    fn weights() {
        let half = 0.5625f64;
        let (number, out) = expected_weight(1, 1.0f64.to_bits(), 2.0f64.to_bits(), 9);
        assert_eq!(number, 0);
        assert_eq!(out[..8], half.to_le_bytes());
        assert_eq!(out[8], FILL);
        assert_eq!(
            expected_weight(1, (-1.0f64).to_bits(), 0, 8),
            (9, vec![0; 8])
        );
        assert_eq!(expected_weight(1, NAN, 0, 7), (13, vec![FILL; 7]));
        assert_eq!(expected_weight(3, NAN, 0, 7), (18, vec![FILL; 7]));
    }
}
