//! How much stack a fit and a turn take: each runs on a thread whose stack was filled with a pattern, and the pattern says how far it came.

use crate::fits::{KERNELS, KINDS, job};
use crate::turns::Lent;
use oracle::Job;
use std::alloc::{Layout, alloc, dealloc};
use std::ffi::c_void;
use std::ptr::{null, null_mut};

/// Bytes of the stack, and what they are filled with.
const ROOM: usize = 1 << 20;
const PATTERN: u8 = 0xA5;

/// At least as large as the C library's on 64-bit Linux.
#[repr(C)]
struct Attributes([u64; 16]);

type Start = extern "C" fn(*mut c_void) -> *mut c_void;

unsafe extern "C" {
    fn pthread_attr_init(attributes: *mut Attributes) -> i32;
    fn pthread_attr_setstack(attributes: *mut Attributes, lowest: *mut c_void, size: usize) -> i32;
    fn pthread_attr_destroy(attributes: *mut Attributes) -> i32;
    fn pthread_create(
        thread: *mut usize,
        attributes: *const Attributes,
        start: Start,
        argument: *mut c_void,
    ) -> i32;
    fn pthread_join(thread: usize, answer: *mut *mut c_void) -> i32;
}

/// A call and the buffers that it writes, made before the thread runs.
struct Call<'a> {
    job: &'a Job,
    out: Vec<u8>,
    summary: [u8; 24],
}

extern "C" fn nothing(_: *mut c_void) -> *mut c_void {
    null_mut()
}

extern "C" fn fit(argument: *mut c_void) -> *mut c_void {
    // SAFETY: `fit_bytes` passes a call that nothing else uses until the thread has ended.
    let call = unsafe { &mut *argument.cast::<Call>() };
    compare::call(call.job, &mut call.out, &mut call.summary);
    null_mut()
}

/// How many bytes of its stack a thread touches.
///
/// # Safety
///
/// `start` may be called with `argument` on another thread.
unsafe fn touched(start: Start, argument: *mut c_void) -> usize {
    let layout = Layout::from_size_align(ROOM, 4096).expect("a power of two");
    // SAFETY: the stack lives until the thread has been joined, and is only then looked at and freed; the C library writes
    // attributes and thread, which are large enough.
    unsafe {
        let stack = alloc(layout);
        assert!(!stack.is_null(), "memory for a stack");
        stack.write_bytes(PATTERN, ROOM);
        let mut attributes = Attributes([0; 16]);
        let mut thread = 0;
        assert_eq!(pthread_attr_init(&mut attributes), 0);
        assert_eq!(
            pthread_attr_setstack(&mut attributes, stack.cast(), ROOM),
            0
        );
        assert_eq!(pthread_create(&mut thread, &attributes, start, argument), 0);
        assert_eq!(pthread_join(thread, null_mut()), 0);
        pthread_attr_destroy(&mut attributes);
        let bytes = std::slice::from_raw_parts(stack, ROOM);
        let untouched = bytes.iter().take_while(|b| **b == PATTERN).count();
        dealloc(stack, layout);
        ROOM - untouched
    }
}

/// Bytes of stack of the fit call on a job, beyond those of a thread that does nothing.
fn fit_bytes(job: &Job) -> usize {
    let mut call = Call {
        job,
        out: vec![0; job.out_len],
        summary: [0; 24],
    };
    // SAFETY: `nothing` reads nothing, and `fit` the call that it gets, which outlives the thread.
    unsafe {
        let none = touched(nothing, null::<c_void>().cast_mut());
        touched(fit, (&raw mut call).cast()) - none
    }
}

extern "C" fn turns(argument: *mut c_void) -> *mut c_void {
    // SAFETY: `turn_bytes` passes what is lent to turns, which nothing else uses until the thread has ended.
    let lent = unsafe { &mut *argument.cast::<Lent>() };
    lent.turns(1, 2);
    null_mut()
}

/// Bytes of stack of a job's beginning and two turns of one solve, beyond those of a thread that does nothing.
fn turn_bytes(mut lent: Lent) -> usize {
    // SAFETY: `nothing` reads nothing, and `turns` what it gets, which outlives the thread.
    unsafe {
        let none = touched(nothing, null::<c_void>().cast_mut());
        touched(turns, (&raw mut lent).cast()) - none
    }
}

/// The stack of fits of the smallest and the largest jobs, and of turns.
pub fn stacks() {
    println!("| n | p | kernel | bandwidth | bytes of stack |");
    println!("|---|---|---|---|---|");
    for (n, p) in [(2, 0), (32, 2), (512, 7)] {
        for kind in 0..4 {
            // A search of the largest job takes long, and no more stack than one of 32.
            if n == 512 && kind > 1 {
                continue;
            }
            let bytes = fit_bytes(&job(n, p, 0, kind));
            println!(
                "| {n} | {p} | {} | {} | {bytes} |",
                KERNELS[0], KINDS[kind as usize]
            );
        }
    }
    for (n, p) in [(2, 0), (512, 7)] {
        let bytes = turn_bytes(Lent::new(n, p, 0));
        println!(
            "| {n} | {p} | {} | distance, in turns | {bytes} |",
            KERNELS[0]
        );
    }
}

#[cfg(test)]
mod tests {
    use super::*;

    #[test]
    fn a_fit_takes_little_stack() {
        // Its decoded numbers and its trusts alone are 90,112 bytes.
        for kind in 0..4 {
            let bytes = fit_bytes(&job(16, 7, 0, kind));
            assert!((90_112..131_072).contains(&bytes), "{bytes} bytes");
        }
    }
}
