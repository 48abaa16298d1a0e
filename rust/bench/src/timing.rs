//! The processor's time for this thread, not the clock's, so that other work on the machine weighs less.

#[repr(C)]
struct Timespec {
    seconds: i64,
    nanoseconds: i64,
}

unsafe extern "C" {
    fn clock_gettime(clock: i32, time: *mut Timespec) -> i32;
}

/// Linux's number of the clock that counts the processor's time for this thread.
const THREAD_CPU: i32 = 3;

/// The processor's time for this thread, in microseconds.
fn now() -> f64 {
    let mut time = Timespec {
        seconds: 0,
        nanoseconds: 0,
    };
    // SAFETY: the C library writes one timespec, which has this layout on 64-bit Linux.
    let status = unsafe { clock_gettime(THREAD_CPU, &mut time) };
    assert_eq!(status, 0, "this thread has a clock");
    time.seconds as f64 * 1e6 + time.nanoseconds as f64 / 1e3
}

/// How many microseconds a run takes.
pub fn microseconds(run: impl FnOnce()) -> f64 {
    let start = now();
    run();
    now() - start
}

/// The medians of the sides' times, in microseconds. The sides take turns.
pub fn medians<const N: usize>(
    repeats: usize,
    mut sides: [&mut dyn FnMut() -> f64; N],
) -> [f64; N] {
    let mut times = [const { Vec::new() }; N];
    for _ in 0..repeats {
        for (side, times) in sides.iter_mut().zip(&mut times) {
            times.push(side());
        }
    }
    times.map(middle)
}

/// The median.
pub fn middle(mut values: Vec<f64>) -> f64 {
    values.sort_by(f64::total_cmp);
    values[values.len() / 2]
}
