//! The proved code's side of a job: what its byte call answers.

use oracle::{Answer, FILL, Job};

/// The fit call on a job: the number that it answers.
pub fn call(job: &Job, out: &mut [u8], summary: &mut [u8]) -> u32 {
    gateway::bytes::fit(
        &job.coords,
        &job.x,
        &job.y,
        job.p,
        job.kernel,
        job.kind,
        job.bandwidth,
        out,
        summary,
    )
}

/// What the proved code answers to a job, and the bytes after it.
pub fn proved(job: &Job) -> Answer {
    let mut out = vec![FILL; job.out_len];
    let mut summary = vec![FILL; job.summary_len];
    let number = call(job, &mut out, &mut summary);
    Answer {
        number,
        out,
        summary,
    }
}

#[cfg(test)]
mod tests {
    use super::*;
    use oracle::default_count;
    use oracle::generate::Rng;

    /// Every number of observations and predictors that is served: what the proved code reports for an unsearched count 0 is what
    /// 02's words make of it.
    #[test]
    fn every_default_count() {
        let mut g = Rng::new(0xC0047);
        let values: Vec<f64> = (0..512 * 7).map(|_| g.unit()).collect();
        let reported = |n: usize, p: usize, kernel: u64| {
            let x = &values[..n * p];
            let y = &values[..n];
            let coords = &values[n..3 * n];
            let answer = proved(&Job::new(coords, x, y, p as u64, (kernel, 1, 0)));
            let bandwidth = answer.summary[..8].try_into().expect("a summary of 24");
            (answer.number, f64::from_le_bytes(bandwidth))
        };
        for p in 0..=7 {
            for n in p + 1..=512 {
                // Bisquare is the cheapest; where it leaves too few weights, another kernel has the same count.
                let (number, bandwidth) = match reported(n, p, 1) {
                    (14, _) => reported(n, p, 0),
                    other => other,
                };
                let wanted = default_count(n as u64, p as u64) as f64;
                assert_eq!((number, bandwidth), (0, wanted), "n {n} p {p}");
            }
        }
    }
}
