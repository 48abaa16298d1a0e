//! Runs jobs on both sides and counts.

use compare::proved;
use gateway::{GwrBandwidth, GwrKernel, GwrOptions, Refusal, gwr_fit};
use oracle::jobs::{Group, Take};
use oracle::stored::{kinds, weight_job};
use oracle::{Answer, FILL, Job, bytes, reals};
use std::collections::BTreeSet;
use std::io::{IsTerminal, Write};
use std::time::{Duration, Instant};

/// Differences that are shown in full.
const SHOWN: u64 = 5;

/// The numbers that a call may answer: 0, and refusals from 1 to 99.
pub const NUMBERS: usize = 100;

/// How many comparisons passed and failed, and how often each number was answered.
pub struct Tally {
    /// By number: answers of the fit call.
    pub fits: [u64; NUMBERS],
    /// By number: answers of the weight call.
    pub weights: [u64; NUMBERS],
    /// Both sides agreed on every bit.
    pub passed: u64,
    /// They did not.
    pub failed: u64,
    /// The kinds of job that were compared.
    pub kinds: BTreeSet<String>,
    group: Group,
    terminal: bool,
    shown: Instant,
}

/// What the safe crate answers to a job, as the bytes of the output and the summary.
fn safe_answer(job: &Job) -> Result<(Vec<u8>, Vec<u8>), Refusal> {
    let (coords, x) = job.places_and_rows();
    let kernels = [
        GwrKernel::Gaussian,
        GwrKernel::Bisquare,
        GwrKernel::Exponential,
    ];
    let options = GwrOptions {
        kernel: kernels[job.kernel as usize],
        bandwidth: match job.kind {
            0 | 2 => GwrBandwidth::Fixed(f64::from_bits(job.bandwidth)),
            _ => GwrBandwidth::AdaptiveKnn(job.bandwidth as usize),
        },
        optimize_bandwidth: job.kind >= 2,
    };
    let fit = gwr_fit(&coords, &x, &reals(&job.y), &options)?;
    let mut out = Vec::new();
    for i in 0..coords.len() {
        out.extend(bytes(&fit.coefficients[i]));
        let last = [fit.predicted[i], fit.residuals[i], fit.local_r2[i]];
        out.extend(bytes(&last));
    }
    let mut summary = bytes(&[fit.bandwidth, fit.aicc]);
    summary.extend(fit.solves.to_le_bytes());
    Ok((out, summary))
}

/// The first place where two buffers differ.
fn difference(name: &str, ours: &[u8], theirs: &[u8]) -> Option<String> {
    if ours.len() != theirs.len() {
        let (ours, theirs) = (ours.len(), theirs.len());
        return Some(format!("{name}: {ours} bytes, expected {theirs}"));
    }
    let at = ours.iter().zip(theirs).position(|(a, b)| a != b)?;
    let word = |s: &[u8]| -> String {
        let from = at / 8 * 8;
        let bytes = &s[from..(from + 8).min(s.len())];
        bytes.iter().rev().map(|b| format!("{b:02X}")).collect()
    };
    let (ours, theirs) = (word(ours), word(theirs));
    Some(format!(
        "{name} number {}: proved {ours}, 000 {theirs}",
        at / 8
    ))
}

impl Tally {
    /// A group compared, with so many random jobs.
    pub fn of(group: Group, count: u64) -> Self {
        let mut t = Tally::new(group);
        group.draw(count, &mut t);
        t.clear();
        t
    }

    /// Nothing compared yet.
    fn new(group: Group) -> Self {
        Tally {
            fits: [0; NUMBERS],
            weights: [0; NUMBERS],
            passed: 0,
            failed: 0,
            kinds: BTreeSet::new(),
            group,
            terminal: std::io::stderr().is_terminal(),
            shown: Instant::now(),
        }
    }

    fn progress(&mut self) {
        if self.terminal && self.shown.elapsed() > Duration::from_millis(200) {
            self.shown = Instant::now();
            let name = self.group.name();
            eprint!("\r{name:<28} {:>9} compared\x1b[K", self.passed);
            std::io::stderr().flush().ok();
        }
    }

    /// Takes the progress line away.
    fn clear(&self) {
        if self.terminal {
            eprint!("\r\x1b[K");
        }
    }

    fn count(&mut self, differences: &[String], what: impl FnOnce() -> String) {
        if differences.is_empty() {
            self.passed += 1;
        } else {
            self.failed += 1;
            if self.failed <= SHOWN {
                self.clear();
                println!(
                    "DIFFERENT ({}): {}",
                    self.group.name(),
                    differences.first().expect("one at least")
                );
                println!("  {}", what());
            }
        }
        self.progress();
    }
}

impl Take for Tally {
    fn fit(&mut self, job: &Job) {
        let ours = proved(job);
        let theirs = job.expected();
        self.fits[(ours.number as usize).min(NUMBERS - 1)] += 1;
        self.kinds.extend(kinds(self.group, job, &theirs));
        let mut differences = Vec::new();
        if ours.number != theirs.number {
            differences.push(format!(
                "refusal: proved {}, expected {}",
                ours.number, theirs.number
            ));
        }
        differences.extend(difference("summary", &ours.summary, &theirs.summary));
        differences.extend(difference("output", &ours.out, &theirs.out));
        self.count(&differences, || {
            let all = job.header_and_parts();
            let hex: String = all.iter().map(|b| format!("{b:02x}")).collect();
            format!(
                "n {} p {} kernel {} kind {} bandwidth {:016X}, as gwrprint reads it: {hex}",
                job.n(),
                job.p,
                job.kernel,
                job.kind,
                job.bandwidth
            )
        });
    }

    /// Compares the safe crate's call. A refused job has only its number to compare.
    fn safe(&mut self, job: &Job) {
        let expected = job.expected();
        self.kinds.extend(kinds(self.group, job, &expected));
        let mut differences = Vec::new();
        match safe_answer(job) {
            Ok((out, summary)) => {
                if expected.number != 0 {
                    differences.push(format!("fitted, expected {}", expected.number));
                }
                differences.extend(difference("summary", &summary, &expected.summary));
                differences.extend(difference("output", &out, &expected.out));
            }
            Err(refusal) if refusal.number() != expected.number => {
                differences.push(format!("{refusal}, expected {}", expected.number));
            }
            Err(_) => {}
        }
        self.count(&differences, || format!("safe crate, {job:?}"));
    }

    fn weight(&mut self, kernel: u64, d: u64, b: u64, room: usize) {
        let mut out = vec![FILL; room];
        let number = gateway::bytes::weight(kernel, d, b, &mut out);
        let (expected, bytes) = oracle::expected_weight(kernel, d, b, room);
        self.weights[(number as usize).min(NUMBERS - 1)] += 1;
        let mut differences = Vec::new();
        if number != expected {
            differences.push(format!("refusal: proved {number}, expected {expected}"));
        }
        differences.extend(difference("weight", &out, &bytes));
        let theirs = Answer {
            number: expected,
            out: bytes,
            summary: Vec::new(),
        };
        let job = weight_job(kernel, d, b, room);
        self.kinds.extend(kinds(self.group, &job, &theirs));
        self.count(&differences, || {
            format!("kernel {kernel} d {d:016X} b {b:016X} room {room}")
        });
    }
}

#[cfg(test)]
mod tests {
    use super::*;
    use oracle::stored::{Stored, file};

    #[test]
    fn a_difference_is_named() {
        let ours = [0, 0, 0, 0, 0, 0, 0xF0, 0x3F, 1, 2];
        assert_eq!(difference("output", &ours, &ours), None);
        let mut theirs = ours;
        theirs[0] = 1;
        assert_eq!(
            difference("output", &ours, &theirs).unwrap(),
            "output number 0: proved 3FF0000000000000, 000 3FF0000000000001"
        );
        theirs = ours;
        theirs[9] = 9;
        assert_eq!(
            difference("summary", &ours, &theirs).unwrap(),
            "summary number 1: proved 0201, 000 0901"
        );
        assert!(difference("output", &ours, &theirs[..9]).is_some());
    }

    #[test]
    fn agreement_and_difference_are_counted() {
        let mut t = Tally::new(Group::Corners);
        t.count(&[], String::new);
        t.count(&["planted".to_string()], || "a test".to_string());
        assert_eq!((t.passed, t.failed), (1, 1));
    }

    /// The calls of the linked archive, and the safe crate, on what crates/replay holds: 000 need not be there.
    #[test]
    fn stored_answers_by_the_archive() {
        let bytes = std::fs::read(file()).expect("crates/replay/stdin is there");
        for stored in Stored::read_all(&bytes).expect("whole records") {
            let (job, answer) = (&stored.job, &stored.answer);
            if stored.group == Group::Weights {
                let mut out = vec![FILL; job.out_len];
                let number = gateway::bytes::weight(job.kernel, job.p, job.bandwidth, &mut out);
                assert_eq!((number, out), (answer.number, answer.out.clone()));
                continue;
            }
            assert_eq!(proved(job), *answer, "{job:?}");
            if stored.group == Group::SafeCrate {
                match safe_answer(job) {
                    Ok(fit) => assert_eq!(fit, (answer.out.clone(), answer.summary.clone())),
                    Err(refusal) => assert_eq!(refusal.number(), answer.number),
                }
            }
        }
    }

    #[test]
    fn the_listing_of_01_by_both_calls() {
        let coords = [0.0, 0.0, 0.0, 0.0, 10.0, 10.0, 10.0, 10.0];
        let choice = (1, 0, 1.0f64.to_bits());
        let job = Job::new(&coords, &[], &[2.0, 4.0, 10.0, 10.0], 0, choice);
        let answer = proved(&job);
        assert_eq!(answer.number, 0);
        assert_eq!(safe_answer(&job), Ok((answer.out, answer.summary)));
    }
}
