//! Fits on numbers, for what the byte call knows nothing of: a criterion (02's wish 9) and trusts (wish 4).

use oracle::{Answer, FILL, Job, bits, reals};

mod linked {
    unsafe extern "C" {
        #[allow(clippy::too_many_arguments)]
        pub fn zescolumba_fit_judged(
            coords: *const f64,
            coords_len: usize,
            x: *const f64,
            x_len: usize,
            y: *const f64,
            y_len: usize,
            trust: *const f64,
            trust_len: usize,
            p: usize,
            kernel: u64,
            kind: u64,
            bandwidth: u64,
            criterion: u32,
            out: *mut f64,
            out_len: usize,
            reals: *mut [f64; 2],
            counts: *mut [u64; 2],
        ) -> u32;
    }
}

#[derive(Debug, Clone, Copy)]
pub enum Criterion {
    Unguarded,
    Guarded,
}

/// The bytes of what nothing was written to.
const UNTOUCHED: u64 = u64::from_le_bytes([FILL; 8]);

/// Whether a job's bytes are whole numbers, and the room for its summary is just that.
pub fn is_of_numbers(job: &Job) -> bool {
    let lengths = [job.coords.len(), job.x.len(), job.y.len(), job.out_len];
    lengths.iter().all(|n| n.is_multiple_of(8)) && job.summary_len == 24
}

/// What the proved code answers to a job of numbers with these trusts by a criterion, in the words of the byte call.
pub fn proved(job: &Job, trusts: &[f64], criterion: Criterion) -> Answer {
    let [coords, x, y] = [&job.coords, &job.x, &job.y].map(|part| reals(part));
    let mut out = vec![f64::from_bits(UNTOUCHED); job.out_len / 8];
    let mut values = [f64::from_bits(UNTOUCHED); 2];
    let mut counts = [UNTOUCHED; 2];
    // SAFETY: each pointer comes with the length of its slice, output, values and counts are lent exclusively, and the call is proved
    // to stay in them.
    let number = unsafe {
        linked::zescolumba_fit_judged(
            coords.as_ptr(),
            coords.len(),
            x.as_ptr(),
            x.len(),
            y.as_ptr(),
            y.len(),
            trusts.as_ptr(),
            trusts.len(),
            job.p as usize,
            job.kernel,
            job.kind,
            job.bandwidth,
            criterion as u32,
            out.as_mut_ptr(),
            out.len(),
            &mut values,
            &mut counts,
        )
    };
    let [solves, rows] = counts;
    let summary = [bits(values[0]), bits(values[1]), solves];
    let answer = Answer {
        number,
        out: out.iter().flat_map(|v| bits(*v).to_le_bytes()).collect(),
        summary: summary.iter().flat_map(|v| v.to_le_bytes()).collect(),
    };
    check_rows(job, &answer, rows);
    answer
}

/// The rows that an answer says are written are those that are.
fn check_rows(job: &Job, answer: &Answer, rows: u64) {
    let untouched = answer.summary == [FILL; 24];
    if untouched {
        assert_eq!(rows, UNTOUCHED);
        return;
    }
    let bytes = rows as usize * 8 * (job.p as usize + 4);
    let (written, left) = answer.out.split_at(bytes);
    assert!(left.iter().all(|b| *b == FILL), "{job:?}");
    assert!(written.chunks_exact(8).all(|v| v != [FILL; 8]), "{job:?}");
    assert!(answer.number != 0 || rows == job.n() as u64, "{job:?}");
}
