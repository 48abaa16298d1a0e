//! The two byte calls of the proved code.

mod linked {
    unsafe extern "C" {
        // A lent slice crosses as its pointer, then its length.
        pub fn zescolumba_fit(
            coords: *const u8,
            coords_len: usize,
            x: *const u8,
            x_len: usize,
            y: *const u8,
            y_len: usize,
            p: u64,
            kernel: u64,
            kind: u64,
            bandwidth: u64,
            out: *mut u8,
            out_len: usize,
            summary: *mut u8,
            summary_len: usize,
        ) -> u32;
        pub fn zescolumba_weight(kernel: u64, d: u64, b: u64, out: *mut u8, out_len: usize) -> u32;
    }
}

/// Fits a job: coordinates (2n numbers), predictors (n × p, row by row) and responses (n), 8 little-endian bytes each; the
/// numbers of kernel (0 Gaussian, 1 Bisquare, 2 Exponential) and kind (0 distance, 1 count, 2 and 3 the same searched), and the
/// bandwidth's bits or count. Rows go to `out` and the summary to 24 bytes. Answers the refusal's number, 0 for none.
#[allow(clippy::too_many_arguments)]
pub fn fit(
    coords: &[u8],
    x: &[u8],
    y: &[u8],
    p: u64,
    kernel: u64,
    kind: u64,
    bandwidth: u64,
    out: &mut [u8],
    summary: &mut [u8],
) -> u32 {
    // SAFETY: each pointer comes with the length of its slice, the two that are written are lent exclusively, and the call is
    // proved to read and write within these lengths, for any input, and keeps none of the pointers.
    unsafe {
        linked::zescolumba_fit(
            coords.as_ptr(),
            coords.len(),
            x.as_ptr(),
            x.len(),
            y.as_ptr(),
            y.len(),
            p,
            kernel,
            kind,
            bandwidth,
            out.as_mut_ptr(),
            out.len(),
            summary.as_mut_ptr(),
            summary.len(),
        )
    }
}

/// The weight of the distance of bits `d` at the bandwidth of bits `b`, to the first 8 bytes of `out`. Answers the refusal's
/// number, 0 for none.
pub fn weight(kernel: u64, d: u64, b: u64, out: &mut [u8]) -> u32 {
    // SAFETY: as for `fit`.
    unsafe { linked::zescolumba_weight(kernel, d, b, out.as_mut_ptr(), out.len()) }
}
