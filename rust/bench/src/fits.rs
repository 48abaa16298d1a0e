//! Full fits.

use crate::timing::{medians, microseconds};
use oracle::Job;
use oracle::generate::Rng;
use std::hint::black_box;

pub const KERNELS: [&str; 3] = ["Gaussian", "Bisquare", "Exponential"];
pub const KINDS: [&str; 4] = ["distance", "count", "searched distance", "searched count"];

/// Pantries in a square of 1000 by 1000 whose response follows the predictors, with slopes that drift.
pub fn job(n: u64, p: u64, kernel: u64, kind: u64) -> Job {
    let mut g = Rng::new(77 + n + p);
    let mut coords = Vec::new();
    let mut x = Vec::new();
    let mut y = Vec::new();
    for _ in 0..n {
        let at = [g.unit() * 1000.0, g.unit() * 1000.0];
        let row: Vec<f64> = (0..p).map(|_| g.unit() * 100.0).collect();
        let sum: f64 = row.iter().zip(1..).map(|(v, s)| v * f64::from(s)).sum();
        y.push(5.0 + (1.0 + at[0] / 1000.0) * sum + g.unit() * 10.0);
        coords.extend(at);
        x.extend(row);
    }
    let bandwidth = if kind.is_multiple_of(2) {
        400.0f64.to_bits()
    } else {
        n / 4
    };
    Job::new(&coords, &x, &y, p, (kernel, kind, bandwidth))
}

/// Local solves of the proved code, which must fit.
fn proved(job: &Job) -> u64 {
    let answer = black_box(compare::proved(job));
    assert_eq!(answer.number, 0);
    u64::from_le_bytes(answer.summary[16..].try_into().expect("8 bytes"))
}

/// Microseconds a local solve: of the proved code, of 000 with 01's steps, of 000 with the platform's exp and ln. And how many
/// solves there are; the platform's last bits may lead a search elsewhere, so that side has its own number.
fn times(job: &Job, repeats: usize) -> ([f64; 3], u64) {
    let (mut solves, mut others) = (0, 0);
    let [proved, steps, platform] = medians(
        repeats,
        [
            &mut || microseconds(|| solves = proved(job)),
            &mut || microseconds(|| drop(black_box(oracle::steps::fit(job)))),
            &mut || microseconds(|| others = black_box(oracle::platform::fit(job)).solves),
        ],
    );
    let all = solves as f64;
    (
        [proved / all, steps / all, platform / others as f64],
        solves,
    )
}

/// The columns of the times, and the line below them.
fn head(columns: &str, count: usize) {
    println!(
        "| {columns} | proved, µs a solve | 000, µs a solve | ratio | 000 with the platform's exp and ln | ratio |"
    );
    println!("|{}", "---|".repeat(count + 5));
}

fn line(columns: &str, [proved, steps, platform]: [f64; 3]) {
    println!(
        "| {columns} | {proved:.1} | {steps:.1} | {:.2} | {platform:.1} | {:.2} |",
        proved / steps,
        proved / platform
    );
}

/// A fit that is timed, and what its line begins with.
pub struct Line {
    pub name: String,
    pub job: Job,
}

/// Every kernel and kind: n, p, kernel, bandwidth.
pub fn fitted() -> Vec<Line> {
    let mut lines = Vec::new();
    for n in [128, 512] {
        for p in [2, 7] {
            for kernel in 0..3 {
                for kind in 0..4 {
                    let (k, b) = (KERNELS[kernel as usize], KINDS[kind as usize]);
                    lines.push(Line {
                        name: format!("{n} | {p} | {k} | {b}"),
                        job: job(n, p, kernel, kind),
                    });
                }
            }
        }
    }
    lines
}

/// More observations and more predictors, at a distance at which every pantry weighs: n, p, kernel.
pub fn growing() -> Vec<Line> {
    let mut lines = Vec::new();
    for kernel in [0, 1] {
        for n in [32, 128, 512] {
            for p in [0, 2, 4, 7] {
                let mut job = job(n, p, kernel, 0);
                job.bandwidth = 2000.0f64.to_bits();
                lines.push(Line {
                    name: format!("{n} | {p} | {}", KERNELS[kernel as usize]),
                    job,
                });
            }
        }
    }
    lines
}

/// Times of every kernel and kind.
pub fn fits(repeats: usize) {
    head("n | p | kernel | bandwidth | local solves", 5);
    for Line { name, job } in fitted() {
        // A search has a hundred fits in it.
        let repeats = if job.kind < 2 { repeats } else { 1 };
        let (times, solves) = times(&job, repeats);
        line(&format!("{name} | {solves}"), times);
    }
}

/// How times grow with observations and predictors.
pub fn growth(repeats: usize) {
    head("n | p | kernel", 3);
    for Line { name, job } in growing() {
        // A small fit is a short time.
        let repeats = repeats * (512 / (job.y.len() / 8));
        let (times, _) = times(&job, repeats);
        line(&name, times);
    }
}

/// One fit by one side, for a count of its instructions: words are n, p, the numbers of kernel and kind, and the side: `proved`,
/// `steps`, `platform`, or `none` for what comes before the fit.
pub fn once(words: &[String]) -> Option<()> {
    let [n, p, kernel, kind, side] = words else {
        return None;
    };
    let number = |word: &String| word.parse().ok();
    let job = job(number(n)?, number(p)?, number(kernel)?, number(kind)?);
    match side.as_str() {
        "proved" => drop(black_box(compare::proved(&job))),
        "steps" => drop(black_box(oracle::steps::fit(&job))),
        "platform" => drop(black_box(oracle::platform::fit(&job))),
        "none" => {}
        _ => return None,
    }
    Some(())
}
