//! Single weights, square roots and exponentials.

use crate::fits::KERNELS;
use crate::timing::{medians, microseconds};
use gateway::GwrKernel;
use oracle::generate::Rng;
use std::hint::black_box;

/// Numbers of which roots and exponentials are taken.
const MANY: usize = 1_000_000;

/// Distances of which weights are taken.
pub fn distances() -> Vec<f64> {
    let mut g = Rng::new(9);
    (0..20_000).map(|_| g.unit() * 30.0).collect()
}

/// Sums of two squares, and numbers from -30 to 0.
pub fn squares_and_exponents() -> [Vec<f64>; 2] {
    let mut g = Rng::new(10);
    let squares = (0..MANY)
        .map(|_| [g.unit() * 1000.0, g.unit() * 1000.0])
        .map(|[dx, dy]| dx * dx + dy * dy)
        .collect();
    [squares, (0..MANY).map(|_| -30.0 * g.unit()).collect()]
}

/// Each kernel as exported.
pub fn weights(repeats: usize) {
    println!(
        "| kernel | proved, ns a weight | 000, ns a weight | ratio | 000 with the platform's exp | ratio |"
    );
    println!("|---|---|---|---|---|---|");
    let distances = distances();
    let time = |weight: &dyn Fn(f64) -> f64| {
        microseconds(|| {
            black_box(distances.iter().map(|d| weight(*d)).sum::<f64>());
        })
    };
    let kernels = [
        GwrKernel::Gaussian,
        GwrKernel::Bisquare,
        GwrKernel::Exponential,
    ];
    for (number, kernel) in (0..).zip(kernels) {
        let sides = medians(
            repeats,
            [
                &mut || time(&|d| kernel.weight(d, 10.0)),
                &mut || time(&|d| oracle::steps::weight(number, d, 10.0)),
                &mut || time(&|d| oracle::platform::weight(number, d, 10.0)),
            ],
        );
        let [proved, steps, platform] = sides.map(|t| t * 1e3 / distances.len() as f64);
        println!(
            "| {} | {proved:.1} | {steps:.1} | {:.2} | {platform:.1} | {:.2} |",
            KERNELS[number as usize],
            proved / steps,
            proved / platform
        );
    }
}

mod linked {
    unsafe extern "C" {
        pub fn zescolumba_roots(values: *mut f64, len: usize);
        pub fn zescolumba_roots_in_passes(values: *mut f64, len: usize);
        pub fn zescolumba_exponentials(values: *mut f64, len: usize);
    }
}

fn roots(values: &mut [f64]) {
    // SAFETY: the pointer comes with the length of its slice, which is lent exclusively, and the call is proved to stay in it.
    unsafe { linked::zescolumba_roots(values.as_mut_ptr(), values.len()) }
}

/// Roots of 512 numbers at a time, as a local solve takes them.
fn roots_in_passes(values: &mut [f64]) {
    for part in values.chunks_mut(512) {
        // SAFETY: as for `roots`.
        unsafe { linked::zescolumba_roots_in_passes(part.as_mut_ptr(), part.len()) }
    }
}

/// The processor's root, one at a time: left to itself, the compiler has it take two.
fn scalar_root(x: f64) -> f64 {
    let mut root = x;
    // SAFETY: the instruction reads and writes one register. With another as its target it would wait for what that held.
    unsafe {
        std::arch::asm!("sqrtsd {0}, {0}", inout(xmm_reg) root, options(pure, nomem, nostack));
    }
    root
}

pub fn exponentials(values: &mut [f64]) {
    // SAFETY: as for `roots`.
    unsafe { linked::zescolumba_exponentials(values.as_mut_ptr(), values.len()) }
}

/// A function on each number in place, as the compiler makes it of a loop.
fn each(f: impl Fn(f64) -> f64) -> impl Fn(&mut [f64]) {
    move |values| values.iter_mut().for_each(|v| *v = f(*v))
}

type InPlace<'a> = &'a dyn Fn(&mut [f64]);

/// One line: the proved call against another on the same numbers, each on its own copy.
fn line(repeats: usize, name: &str, from: &[f64], proved: InPlace, other: InPlace) {
    let time = |run: InPlace| {
        let mut values = from.to_vec();
        let time = microseconds(|| run(black_box(&mut values)));
        black_box(&values);
        time
    };
    let sides = medians(repeats, [&mut || time(proved), &mut || time(other)]);
    let [ours, theirs] = sides.map(|t| t * 1e3 / from.len() as f64);
    println!(
        "| {name} | {ours:.1} | {theirs:.1} | {:.2} |",
        ours / theirs
    );
}

/// Roots of sums of two squares, and exponentials of numbers from -30 to 0, against the platform's.
pub fn elementary(repeats: usize) {
    println!("| each of 10^6 | proved, ns | other, ns | ratio |");
    println!("|---|---|---|---|");
    let [squares, exponents] = squares_and_exponents();
    let mut ours = squares.clone();
    roots(&mut ours);
    let same = |(a, b): (&f64, &f64)| a.to_bits() == b.sqrt().to_bits();
    assert!(ours.iter().zip(&squares).all(same), "the same roots");
    let mut ours = exponents.clone();
    exponentials(&mut ours);
    let same = |(a, b): (&f64, &f64)| a.to_bits() == oracle::exp_steps(*b).to_bits();
    assert!(
        ours.iter().zip(&exponents).all(same),
        "the same exponentials"
    );
    let name = "square root, against the processor's two at a time";
    line(repeats, name, &squares, &roots, &each(f64::sqrt));
    let name = "square root, against the processor's one at a time";
    line(repeats, name, &squares, &roots, &each(scalar_root));
    let name = "square roots in passes, against the processor's two at a time";
    line(repeats, name, &squares, &roots_in_passes, &each(f64::sqrt));
    let name = "square roots in passes, against the processor's one at a time";
    line(
        repeats,
        name,
        &squares,
        &roots_in_passes,
        &each(scalar_root),
    );
    let name = "exponential, against the platform's";
    line(repeats, name, &exponents, &exponentials, &each(f64::exp));
    let name = "exponential, against 01's steps in Rust";
    let steps = each(oracle::exp_steps);
    line(repeats, name, &exponents, &exponentials, &steps);
}

#[cfg(test)]
mod tests {
    use super::*;

    /// Any bit patterns, and the corners of the range.
    fn patterns() -> Vec<f64> {
        let mut g = Rng::new(11);
        let corners = [
            0.0,
            -0.0,
            -1.0,
            5e-324,
            f64::MIN_POSITIVE,
            f64::MIN_POSITIVE.next_down(),
            1.0f64.next_down(),
            1.0,
            1.0f64.next_up(),
            4.0f64.next_down(),
            f64::MAX,
            f64::INFINITY,
            f64::NEG_INFINITY,
            f64::NAN,
        ];
        let any = (0..200_000).map(|_| f64::from_bits(g.bits()));
        corners.into_iter().chain(any).collect()
    }

    fn same(ours: f64, theirs: f64) -> bool {
        ours.to_bits() == theirs.to_bits() || (ours.is_nan() && theirs.is_nan())
    }

    #[test]
    fn roots_are_the_processor_s() {
        let values = patterns();
        let mut ours = values.clone();
        roots(&mut ours);
        let mut passes = values.clone();
        roots_in_passes(&mut passes);
        for ((ours, passes), v) in ours.iter().zip(passes).zip(values) {
            assert!(same(*ours, v.sqrt()), "root of {v:e}");
            assert!(same(passes, v.sqrt()), "root of {v:e} in passes");
        }
    }

    #[test]
    fn exponentials_are_those_of_the_steps() {
        let mut g = Rng::new(12);
        let near = (0..200_000).map(|_| -750.0 * g.unit());
        let values: Vec<f64> = patterns().into_iter().chain(near).collect();
        let mut ours = values.clone();
        exponentials(&mut ours);
        for (ours, v) in ours.iter().zip(values) {
            // Above zero there is none.
            let theirs = if v <= 0.0 {
                oracle::exp_steps(v)
            } else {
                f64::NAN
            };
            assert!(same(*ours, theirs), "exponential of {v:e}");
        }
    }
}
