//! Two versions of the proved code in one run, by turns: `bench against SECONDS BEFORE.. AFTER..`, as many paths of the one as of the
//! other, each a shared library with the byte calls and those of crates/measured in it (scripts/against.sh makes them). Every time of
//! the proved code in the bench's tables, some seconds each: fits, growth, weights, roots and exponentials, turns.
//!
//! Where a linker happens to place a loop, sixteen bytes further on or back, makes the same code up to a seventh faster or slower, so
//! each version is given at several places and takes the sum of its times there. The measure of a line is the median over rounds of
//! the later version's sum by the earlier one's. A processor that is shared with others changes its pace: the runs of a round come
//! close upon each other, and long ones are made all at once, in threads that take turns of some milliseconds, if all are kept on one
//! processor. All must answer the same bytes.

mod version;

use crate::fits::{KERNELS, Line, fitted, growing};
use crate::single::{distances, squares_and_exponents};
use crate::timing::{microseconds, middle};
use crate::turns::{Lent, SIZES};
use oracle::{FILL, Job, bytes};
use version::Version;

/// Microseconds of a run that is long.
const LONG: f64 = 1e4;

/// Fewer rounds have no steady middle, of long runs and of others; more than the last are not needed.
const ROUNDS: [usize; 3] = [5, 101, 501];

/// A run by a version: its processor time, which is the thread's own, in microseconds, and what was answered.
type Run = Box<dyn Fn(&Version) -> (f64, Vec<u8>) + Sync>;

/// What is timed: the columns n, p, kernel and what it is of; how often a run does it; and a run.
struct Timed {
    name: String,
    times: usize,
    run: Run,
}

fn fit(Line { name, job }: Line) -> Timed {
    let run = move |version: &Version| {
        let Job {
            out_len,
            summary_len,
            ..
        } = job;
        let (mut out, mut summary) = (vec![FILL; out_len], vec![FILL; summary_len]);
        let mut number = 1;
        let time = microseconds(|| number = version.fit(&job, &mut out, &mut summary));
        assert_eq!(number, 0, "a fit");
        (time, [out, summary].concat())
    };
    Timed {
        name,
        times: 1,
        run: Box::new(run),
    }
}

fn fits() -> impl Iterator<Item = Timed> {
    let growing = growing().into_iter().map(|Line { name, job }| Line {
        name: format!("{name} | all weigh"),
        job,
    });
    fitted().into_iter().chain(growing).map(fit)
}

fn weights(kernel: usize) -> Timed {
    let distances = distances();
    let times = distances.len();
    let run = move |version: &Version| {
        let mut sum = 0.0;
        let weight = |d: &f64| version.weight(kernel as u64, *d, 10.0);
        let time = microseconds(|| sum = distances.iter().map(weight).sum());
        (time, bytes(&[sum]))
    };
    Timed {
        name: format!("- | - | {} | a weight", KERNELS[kernel]),
        times,
        run: Box::new(run),
    }
}

fn in_place(name: &str, from: Vec<f64>, call: fn(&Version, &mut [f64])) -> Timed {
    let times = from.len();
    let run = move |version: &Version| {
        let mut values = from.clone();
        let time = microseconds(|| call(version, &mut values));
        (time, bytes(&values))
    };
    Timed {
        name: format!("- | - | - | {name}"),
        times,
        run: Box::new(run),
    }
}

fn elementary() -> [Timed; 3] {
    let [squares, exponents] = squares_and_exponents();
    [
        in_place("a square root", squares.clone(), Version::roots),
        in_place("a root in passes", squares, Version::roots_in_passes),
        in_place("an exponential", exponents, Version::exponentials),
    ]
}

/// Turns of one allowance. Small jobs are played many times, since one takes no longer than the clock.
fn turns(lent: &Lent, name: String, allowance: u32, turns: u32, times: usize) -> Timed {
    let lent = lent.clone();
    let plays = 512 * 4 / lent.out.len().min(512 * 4);
    let run = move |version: &Version| {
        let mut lent = lent.clone();
        let mut solves = 0;
        let time = microseconds(|| {
            for _ in 0..plays {
                solves += lent.played(version.play, allowance, turns);
            }
        });
        (time, [bytes(&[solves as f64]), bytes(&lent.out)].concat())
    };
    Timed {
        name,
        times: times * plays,
        run: Box::new(run),
    }
}

fn turned() -> impl Iterator<Item = Timed> {
    SIZES.into_iter().flat_map(|(n, p)| {
        (0..3).flat_map(move |kernel| {
            let lent = Lent::new(n, p, kernel);
            let solves = n as u32;
            let name = |what: &str| format!("{n} | {p} | {} | {what}", KERNELS[kernel as usize]);
            let whole = name("a solve's share of one turn");
            [
                turns(&lent, whole, solves, 1, n as usize),
                turns(&lent, name("a turn of one solve"), 1, solves, n as usize),
                turns(&lent, name("a turn of none"), 0, 1000, 1000),
            ]
        })
    })
}

/// A run by each: one after the other, or all at once where one takes long.
fn times(run: &Run, versions: &[&Version], long: bool) -> Vec<f64> {
    if !long {
        return versions.iter().map(|version| run(version).0).collect();
    }
    std::thread::scope(|scope| {
        let runs: Vec<_> = versions
            .iter()
            .map(|version| scope.spawn(|| run(version).0))
            .collect();
        let times = runs.into_iter().map(|run| run.join().expect("a run"));
        times.collect()
    })
}

/// Each version's microseconds of a run, the median of the rounds' ratios, and how many rounds.
fn rounds(run: &Run, versions: &[Vec<Version>; 2], seconds: f64) -> ([f64; 2], f64, usize) {
    let mut order: Vec<&Version> = versions.iter().flatten().collect();
    let (_, first) = run(order[0]);
    let same = order[1..].iter().all(|other| run(other).1 == first);
    assert!(same, "all answer the same bytes");
    let (one, _) = run(order[0]);
    let long = one > LONG;
    let [fewest_long, fewest, most] = ROUNDS;
    let count = 1e6 * seconds / (order.len() as f64 * one);
    let count = (count as usize).clamp(if long { fewest_long } else { fewest }, most) | 1;
    let mut sums = [Vec::new(), Vec::new()];
    for round in 0..count {
        // Neither version is always the first.
        let turned = round % 2 == 1;
        if turned {
            order.reverse();
        }
        let mut times = times(run, &order, long);
        if turned {
            order.reverse();
            times.reverse();
        }
        for (sums, times) in sums.iter_mut().zip(times.chunks(versions[0].len())) {
            sums.push(times.iter().sum::<f64>() / times.len() as f64);
        }
    }
    let ratios = sums[0].iter().zip(&sums[1]).map(|(b, a)| a / b);
    let ratio = middle(ratios.collect());
    (sums.map(middle), ratio, count)
}

/// Times all lines; nothing where a word is no such library or no number.
pub fn against(words: &[String]) -> Option<()> {
    let (seconds, paths) = words.split_first()?;
    let seconds = seconds.parse().ok()?;
    let (before, after) = paths.split_at(paths.len() / 2);
    if before.is_empty() || before.len() != after.len() {
        return None;
    }
    let load = |paths: &[String]| paths.iter().map(|path| Version::load(path)).collect();
    let versions: [Option<Vec<Version>>; 2] = [load(before), load(after)];
    let [before, after] = versions;
    let versions = [before?, after?];
    println!("| n | p | kernel | of | rounds | before, µs | after, µs | ratio |");
    println!("|---|---|---|---|---|---|---|---|");
    let mut greatest = 0.0f64;
    let lines = fits().chain((0..3).map(weights)).chain(elementary());
    for Timed { name, times, run } in lines.chain(turned()) {
        let (sums, ratio, count) = rounds(&run, &versions, seconds);
        let [before, after] = sums.map(|sum| sum / times as f64);
        println!("| {name} | {count} | {before:.4} | {after:.4} | {ratio:.3} |");
        greatest = greatest.max(ratio);
    }
    println!("\nThe greatest ratio is {greatest:.3}.");
    Some(())
}
