//! What a turn costs beside the solves that it makes.

use crate::fits::{KERNELS, job};
use crate::timing::{medians, microseconds};
use oracle::reals;
use std::hint::black_box;

/// The call that plays turns: `zescolumba_turns` of crates/measured.
pub type Play = unsafe extern "C" fn(
    *const f64,
    usize,
    *const f64,
    usize,
    *const f64,
    usize,
    *const f64,
    usize,
    usize,
    u32,
    *mut f64,
    usize,
    u32,
    u32,
) -> u64;

mod linked {
    unsafe extern "C" {
        pub fn zescolumba_turns(
            coords: *const f64,
            coords_len: usize,
            x: *const f64,
            x_len: usize,
            y: *const f64,
            y_len: usize,
            trust: *const f64,
            trust_len: usize,
            p: usize,
            kernel: u32,
            out: *mut f64,
            out_len: usize,
            allowance: u32,
            turns: u32,
        ) -> u64;
    }
}

/// Observations and predictors of the jobs.
pub const SIZES: [(u64, u64); 3] = [(2, 0), (512, 2), (512, 7)];

/// A job's numbers, each observation fully trusted, and room for its rows.
#[derive(Clone)]
pub struct Lent {
    coords: Vec<f64>,
    x: Vec<f64>,
    y: Vec<f64>,
    trust: Vec<f64>,
    p: usize,
    kernel: u32,
    pub out: Vec<f64>,
}

impl Lent {
    pub fn new(n: u64, p: u64, kernel: u32) -> Self {
        let job = job(n, p, u64::from(kernel), 0);
        Lent {
            coords: reals(&job.coords),
            x: reals(&job.x),
            y: reals(&job.y),
            trust: job.full_trusts(),
            p: p as usize,
            kernel,
            out: vec![0.0; (n * (p + 4)) as usize],
        }
    }

    /// Begins the job and takes it through so many turns; the solves that it has made.
    pub fn turns(&mut self, allowance: u32, turns: u32) -> u64 {
        self.played(linked::zescolumba_turns, allowance, turns)
    }

    /// The same by that call.
    pub fn played(&mut self, play: Play, allowance: u32, turns: u32) -> u64 {
        let Self { coords, x, y, .. } = self;
        let (trust, out) = (&self.trust, &mut self.out);
        // SAFETY: each pointer comes with the length of its slice, the output's is lent exclusively, and the call is proved to
        // stay in them.
        unsafe {
            play(
                coords.as_ptr(),
                coords.len(),
                x.as_ptr(),
                x.len(),
                y.as_ptr(),
                y.len(),
                trust.as_ptr(),
                trust.len(),
                self.p,
                self.kernel,
                out.as_mut_ptr(),
                out.len(),
                allowance,
                turns,
            )
        }
    }

    /// Microseconds for each of so many turns.
    fn time(&mut self, allowance: u32, turns: u32) -> f64 {
        microseconds(|| {
            black_box(self.turns(allowance, turns));
        }) / f64::from(turns)
    }
}

/// One turn for all solves, a turn for each, and turns that are allowed none.
pub fn turns(repeats: usize) {
    println!(
        "| n | p | kernel | a solve's share of one turn, µs | a turn of one solve, µs | ratio | a turn of none, µs |"
    );
    println!("|---|---|---|---|---|---|---|");
    for (n, p) in SIZES {
        for kernel in 0..3 {
            let mut lent = [(); 3].map(|()| Lent::new(n, p, kernel));
            let solves = n as u32;
            assert_eq!(lent[0].turns(solves, 1), n, "all solves in one turn");
            assert_eq!(lent[1].turns(1, solves), n, "a turn for each");
            assert_eq!(lent[0].out, lent[1].out, "the same rows");
            assert_eq!(lent[2].turns(0, 1), 0, "no solve");
            let [whole, ones, none] = &mut lent;
            let times = medians(
                3 * repeats,
                [
                    &mut || whole.time(solves, 1) / f64::from(solves),
                    &mut || ones.time(1, solves),
                    &mut || none.time(0, 1000),
                ],
            );
            let [share, one, zero] = times;
            println!(
                "| {n} | {p} | {} | {share:.2} | {one:.2} | {:.3} | {zero:.3} |",
                KERNELS[kernel as usize],
                one / share
            );
        }
    }
}
