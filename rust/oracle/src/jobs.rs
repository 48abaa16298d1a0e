//! The jobs that are compared, and of which the stored answers are a selection. Seeds are fixed: the same ones come each time.

use crate::generate::{DISTANCES, Rng, linear, random};
use crate::{Job, bytes};

/// Random jobs of a run with no number given.
pub const RANDOM_JOBS: u64 = 24_000;

/// A group of jobs. Its place here is its number in a stored answer; crates/replay knows that 0 is the weight call.
#[derive(Debug, Clone, Copy, PartialEq, Eq, PartialOrd, Ord)]
pub enum Group {
    /// The weight call.
    Weights,
    /// Few observations, and few values.
    SmallGrid,
    /// Overflows, infinite distances, equal scores.
    Corners,
    /// Numbers of observations around each limit.
    Boundaries,
    /// Jobs with something wrong.
    Damaged,
    /// Random jobs by the safe crate.
    SafeCrate,
    /// Random jobs.
    Random,
    /// Searches with more observations.
    Searches,
    /// The default count, around each step that it takes.
    DefaultCounts,
}

impl Group {
    /// All groups, in the order of their numbers.
    pub const ALL: [Group; 9] = [
        Group::Weights,
        Group::SmallGrid,
        Group::Corners,
        Group::Boundaries,
        Group::Damaged,
        Group::SafeCrate,
        Group::Random,
        Group::Searches,
        Group::DefaultCounts,
    ];

    /// What it is called.
    pub fn name(self) -> &'static str {
        match self {
            Group::Weights => "weights",
            Group::SmallGrid => "small grid",
            Group::Corners => "corners",
            Group::Boundaries => "boundaries",
            Group::Damaged => "damaged copies",
            Group::SafeCrate => "safe crate",
            Group::Random => "random",
            Group::Searches => "searches",
            Group::DefaultCounts => "default counts",
        }
    }

    /// Draws the group's jobs, of a run with so many random ones. One that asks for the default count comes twice, first with the
    /// count named that 000 takes by default.
    pub fn draw(self, count: u64, t: &mut impl Take) {
        let t = &mut Named(t);
        match self {
            Group::Weights => weights(t),
            Group::SmallGrid => grid(t),
            Group::Corners => corners(t),
            Group::Boundaries => boundaries(t),
            Group::Damaged => damaged(t, 24 + count / 400),
            Group::SafeCrate => safe_crate(t, 24 + count / 40),
            Group::Random => random_jobs(t, count),
            Group::Searches => searches(t),
            Group::DefaultCounts => default_counts(t),
        }
    }

    /// The same, each job handed to `f`, whichever call it is for, and no weight.
    pub fn draw_jobs(self, count: u64, f: impl FnMut(&Job)) {
        self.draw(count, &mut EachJob(f));
    }
}

struct EachJob<F>(F);

impl<F: FnMut(&Job)> Take for EachJob<F> {
    fn fit(&mut self, job: &Job) {
        self.0(job);
    }

    fn safe(&mut self, job: &Job) {
        self.0(job);
    }

    fn weight(&mut self, _: u64, _: u64, _: u64, _: usize) {}
}

/// What is done with the jobs of a group, one by one.
pub trait Take {
    /// A job of the fit call.
    fn fit(&mut self, job: &Job);

    /// A job for the safe crate: of right byte lengths and known numbers.
    fn safe(&mut self, job: &Job);

    /// A weight call: kernel, bits of distance and bandwidth, bytes lent.
    fn weight(&mut self, kernel: u64, d: u64, b: u64, room: usize);
}

/// Hands each job on, and before one that asks for the default count the same job with the count that 000 takes by default.
struct Named<'a, T>(&'a mut T);

impl<T: Take> Take for Named<'_, T> {
    fn fit(&mut self, job: &Job) {
        job.with_default_of_000().iter().for_each(|j| self.0.fit(j));
        self.0.fit(job);
    }

    fn safe(&mut self, job: &Job) {
        job.with_default_of_000()
            .iter()
            .for_each(|j| self.0.safe(j));
        self.0.safe(job);
    }

    fn weight(&mut self, kernel: u64, d: u64, b: u64, room: usize) {
        self.0.weight(kernel, d, b, room);
    }
}

/// Jobs of the small grid, for each of its shapes and choices, at most.
const GRID_CAP: u64 = 1200;
/// Values of the small grid.
const GRID: [f64; 6] = [0.0, -0.0, 1.0, 2.0, 1e200, 1e-200];
const GRID_DISTANCES: [f64; 5] = [1.0, 1e-200, 1e200, 1.5, 0.0];
const GRID_COUNTS: [u64; 5] = [0, 1, 2, 3, u64::MAX];
const NOT_FINITE: [f64; 3] = [f64::NAN, f64::INFINITY, f64::NEG_INFINITY];

/// Every job with n ≤ 3, p ≤ 1 and values of the grid, each kernel, each kind and five bandwidths; where there are more than
/// the cap of one shape and choice, every s-th of them, with s prime to 2, 3 and 5, so that every value comes in every place.
fn grid(t: &mut impl Take) {
    for n in 1..=3u64 {
        for p in 0..=1u64 {
            let places = n * (3 + p);
            let all = 6u64.pow(places as u32) * 5;
            let mut step = all / GRID_CAP + 1;
            while step.is_multiple_of(2) || step.is_multiple_of(3) || step.is_multiple_of(5) {
                step += 1;
            }
            for choice in 0..12 {
                let (kernel, kind) = (choice % 3, choice / 3);
                let mut at = choice % step;
                while at < all {
                    let mut rest = at / 5;
                    let values: Vec<f64> = (0..places)
                        .map(|_| {
                            let v = GRID[(rest % 6) as usize];
                            rest /= 6;
                            v
                        })
                        .collect();
                    let (coords, others) = values.split_at(2 * n as usize);
                    let (x, y) = others.split_at((n * p) as usize);
                    let bandwidth = match kind {
                        0 | 2 => GRID_DISTANCES[(at % 5) as usize].to_bits(),
                        _ => GRID_COUNTS[(at % 5) as usize],
                    };
                    t.fit(&Job::new(coords, x, y, p, (kernel, kind, bandwidth)));
                    at += step;
                }
            }
        }
    }
}

/// Random jobs, every kernel and kind in turn; half are searched.
fn random_jobs(t: &mut impl Take, count: u64) {
    let mut g = Rng::new(0xC0113A6E);
    for i in 0..count {
        let (kernel, kind) = (i % 3, i / 3 % 4);
        let p = g.below(8).min(g.below(8));
        let most = match kind {
            0 | 1 => g.pick(&[6, 12, 24, 48]),
            _ => g.pick(&[4, 8, 8, 14]),
        };
        // Most have enough observations for their predictors.
        let least = if g.below(12) == 0 { 1 } else { p + 1 };
        let n = least + g.below(most);
        let mut job = random(&mut g, n, p, kernel, kind);
        // A longer output: what stands past the last row must stay.
        if g.below(4) == 0 {
            job.out_len += g.below(40) as usize;
            job.summary_len += g.below(12) as usize;
        }
        t.fit(&job);
    }
}

/// Random jobs by the safe crate.
fn safe_crate(t: &mut impl Take, count: u64) {
    let mut g = Rng::new(0x5AFE);
    for i in 0..count {
        let p = g.below(8);
        let n = p + 1 + g.below(8);
        t.safe(&random(&mut g, n, p, i % 3, i / 3 % 4));
    }
}

/// Numbers of observations around each limit. Large ones are few, and searched only once.
fn boundaries(t: &mut impl Take) {
    let mut g = Rng::new(0xB0DE);
    for p in 0..=8u64 {
        for n in [1, 2, 3, p.max(1), p + 1, p + 2, 2 * p + 3] {
            for choice in 0..12 {
                t.fit(&random(&mut g, n, p, choice % 3, choice / 3));
            }
        }
    }
    for (i, n) in [511, 512, 513].into_iter().enumerate() {
        for choice in 0..6 {
            let p = [0, 2, 7, 1, 3, 5][(choice as usize + i) % 6];
            t.fit(&random(&mut g, n, p, choice % 3, choice / 3));
        }
    }
    t.fit(&random(&mut g, 600, 8, 0, 0));
    t.fit(&random(&mut g, 64, 2, 1, 3));
    t.fit(&random(&mut g, 64, 1, 0, 2));
    // 513 places and nothing else.
    t.fit(&Job::new(
        &[1.0; 2 * 513],
        &[],
        &[],
        0,
        (0, 0, 1.0f64.to_bits()),
    ));
}

/// Searches with n from 22 to 512: most below 122, some from 130 to 460, and one of each kernel and kind with 512.
fn searches(t: &mut impl Take) {
    let mut g = Rng::new(0x5EA2C4);
    for i in 0..240 {
        let n = 22 + g.below(100).min(g.below(100));
        let p = g.below(8).min(g.below(8));
        t.fit(&random(&mut g, n, p, i % 3, 2 + i / 3 % 2));
    }
    for i in 0..12 {
        let p = g.below(4);
        t.fit(&random(&mut g, 130 + 30 * i, p, i % 3, 2 + i / 3 % 2));
    }
    for choice in 0..6 {
        let p = [0, 1, 0, 2, 0, 1][choice as usize];
        t.fit(&linear(&mut g, 512, p, choice % 3, 2 + choice / 3));
    }
}

/// The default count for each p: every n up to 30, and on both sides of each greater square.
fn default_counts(t: &mut impl Take) {
    let mut g = Rng::new(0xDEFA);
    for p in 0..=7u64 {
        let squares = (6..=22).flat_map(|r| [r * r - 1, r * r, r * r + 1]);
        for n in (p + 1..=30).chain(squares).chain([511, 512]) {
            t.fit(&random(&mut g, n, p, (n + p) % 3, 1).with_default());
        }
    }
}

/// One byte more, one less, one number more and less, and none.
fn lengths(part: &[u8]) -> Vec<Vec<u8>> {
    let mut all = vec![Vec::new()];
    for more in [1, 7, 8, 9, 16] {
        all.push([part, &vec![0x3F; more]].concat());
        all.push(part[..part.len().saturating_sub(more)].to_vec());
    }
    all
}

/// Copies of a job with something wrong, each compared.
fn damaged_copies(t: &mut impl Take, job: &Job) {
    let n = job.n() as u64;
    let mut with = |change: &dyn Fn(&mut Job)| {
        let mut copy = job.clone();
        change(&mut copy);
        t.fit(&copy);
    };
    for part in lengths(&job.coords) {
        with(&|j| j.coords = part.clone());
    }
    for part in lengths(&job.x) {
        with(&|j| j.x = part.clone());
    }
    for part in lengths(&job.y) {
        with(&|j| j.y = part.clone());
    }
    for number in [3, 4, 5, 255, 1 << 32, u64::MAX] {
        with(&|j| j.kernel = number);
        with(&|j| j.kind = number);
    }
    for p in [0, 1, 7, 8, job.p + 1, 1 << 32, u64::MAX] {
        with(&|j| j.p = p);
    }
    // Non-finite values at the first and last place of each part, alone and with a worse one in a later part.
    for bad in NOT_FINITE {
        for last in [false, true] {
            let put = |part: &mut Vec<u8>| {
                if part.is_empty() {
                    return;
                }
                let at = if last { part.len() - 8 } else { 0 };
                part[at..at + 8].copy_from_slice(&bad.to_le_bytes());
            };
            with(&|j| put(&mut j.coords));
            with(&|j| put(&mut j.x));
            with(&|j| put(&mut j.y));
            with(&|j| {
                put(&mut j.coords);
                put(&mut j.x);
            });
            with(&|j| {
                put(&mut j.x);
                put(&mut j.y);
                j.out_len = 0;
            });
            with(&|j| {
                put(&mut j.y);
                j.bandwidth = 0;
            });
        }
    }
    for (out, summary) in [
        (-1, 0),
        (-8, 0),
        (-(job.out_len as isize), 0),
        (0, -1),
        (0, -24),
        (0, -8),
        (-1, -1),
        (1, 0),
        (9, 1),
        (64, 40),
    ] {
        with(&|j| {
            j.out_len = j.out_len.saturating_add_signed(out);
            j.summary_len = j.summary_len.saturating_add_signed(summary);
        });
        // 13 comes before 11 and 12.
        with(&|j| {
            j.out_len = j.out_len.saturating_add_signed(out);
            j.summary_len = j.summary_len.saturating_add_signed(summary);
            j.kind &= 2;
            j.bandwidth = (-1.0f64).to_bits();
        });
    }
    for d in DISTANCES {
        with(&|j| {
            j.kind &= 2;
            j.bandwidth = d.to_bits();
        });
    }
    for k in [0, 1, 2, n - 1, n, n + 1, 100, 512, 513, 1 << 32, u64::MAX] {
        with(&|j| {
            j.kind |= 1;
            j.bandwidth = k;
        });
    }
    // All places the same: nothing to search. Places too far apart: the same.
    with(&|j| j.coords.fill(0));
    for far in [1e300, f64::MAX] {
        with(&|j| j.coords[..8].copy_from_slice(&f64::to_le_bytes(far)));
        with(&|j| {
            j.coords[..8].copy_from_slice(&f64::to_le_bytes(far));
            j.kind = 2;
        });
    }
    // Singular, and overflowing: predictors all the same, one large predictor, large responses.
    with(&|j| j.x.fill(0));
    for large in [1e150, 1e155, 1e200, f64::MAX, -f64::MAX] {
        with(&|j| {
            if !j.x.is_empty() {
                j.x[..8].copy_from_slice(&large.to_le_bytes());
            }
        });
        with(&|j| j.y[..8].copy_from_slice(&large.to_le_bytes()));
        with(&|j| {
            let at = j.y.len() - 8;
            j.y[at..].copy_from_slice(&large.to_le_bytes());
        });
    }
}

/// Damaged copies of random jobs.
fn damaged(t: &mut impl Take, count: u64) {
    let mut g = Rng::new(0xDA3A6ED);
    for i in 0..count {
        let p = g.below(4);
        let n = p + 2 + g.below(6);
        let searched = if i % 4 == 3 { 2 } else { 0 };
        let job = random(&mut g, n, p, i % 3, i / 3 % 2 + searched);
        damaged_copies(t, &job);
    }
}

/// Jobs that earlier work found to be corners.
fn corners(t: &mut impl Take) {
    let mut g = Rng::new(0xC0EE5);
    for choice in 0..12 {
        let (kernel, kind) = (choice % 3, choice / 3);
        // Large predictors, whose leverages may overflow.
        for scale in [1e70, 1e75, 1e77, 1e100, 1e150, 1e153] {
            for _ in 0..6 {
                let mut job = random(&mut g, 5, 3, kernel, kind);
                let x: Vec<f64> = (0..15).map(|_| (g.unit() - 0.5) * scale).collect();
                job.x = bytes(&x);
                t.fit(&job);
            }
        }
        // An infinite pivot can leave a finite inverse.
        for at in 0..6 {
            for large in [1e200, -1e200] {
                let mut job = random(&mut g, 6, 1, kernel, kind);
                let mut x = [0.0; 6];
                x[at] = large;
                job.x = bytes(&x);
                t.fit(&job);
            }
        }
        // Distances that are infinite.
        for n in 2..6u64 {
            let mut job = random(&mut g, n, 1, kernel, kind);
            let coords: Vec<f64> = (0..2 * n)
                .map(|_| g.pick(&[1e308, -1e308, 0.0, 1e154]))
                .collect();
            job.coords = bytes(&coords);
            t.fit(&job);
        }
        // Equal scores in a search: responses all the same, so that every fit is perfect or fails.
        for n in 2..8u64 {
            let mut job = random(&mut g, n, 0, kernel, kind);
            job.y = bytes(&vec![4.0; n as usize]);
            t.fit(&job);
        }
    }
}

/// The weight call over distances and bandwidths with every special value.
fn weights(t: &mut impl Take) {
    let mut values = vec![
        0.0,
        5e-324,
        f64::MIN_POSITIVE,
        f64::MIN_POSITIVE.next_down(),
        f64::EPSILON,
        1e-300,
        1e-8,
        0.5,
        1.0f64.next_down(),
        1.0,
        1.0f64.next_up(),
        2.0,
        37.6,
        37.63,
        707.9,
        708.0,
        708.0f64.next_up(),
        709.0,
        745.2,
        1e8,
        1e154,
        1.4e154,
        1e300,
        f64::MAX,
        f64::INFINITY,
        f64::NAN,
        f64::from_bits(0x7FF0_0000_0000_0001),
    ];
    let mut g = Rng::new(0x3E167);
    for _ in 0..48 {
        values.push(g.unit() * 40.0);
        values.push(f64::from_bits(g.bits()));
    }
    let bits: Vec<u64> = values
        .iter()
        .flat_map(|v| [v.to_bits(), v.to_bits() ^ (1 << 63)])
        .collect();
    for kernel in [0, 1, 2, 3, u64::MAX] {
        // An unknown kernel is refused whatever the numbers are: a few will do.
        let bandwidths = if kernel > 2 { &bits[..4] } else { &bits[..] };
        for &d in &bits {
            for &b in bandwidths {
                t.weight(kernel, d, b, 8);
            }
            for room in [0, 1, 7, 9, 16] {
                t.weight(kernel, d, 1.0f64.to_bits(), room);
            }
        }
    }
}
