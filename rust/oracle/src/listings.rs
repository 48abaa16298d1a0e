//! The stored runs of `gwrprint` in tests/listings: jobs.txt says what its jobs are, and 000 what is printed of them.

use crate::{Job, bits};
use std::path::PathBuf;

/// Bytes of the header: n, p, kernel, kind, bandwidth.
const HEADER: usize = 40;

/// The folder of the stored runs.
pub fn folder() -> PathBuf {
    PathBuf::from(concat!(env!("CARGO_MANIFEST_DIR"), "/../../tests/listings"))
}

/// A real's bits, or a whole number, as jobs.txt writes a bandwidth.
fn bandwidth(word: &str) -> Option<u64> {
    let whole = word.bytes().all(|b| b.is_ascii_digit());
    match whole {
        true => word.parse().ok(),
        false => word.parse().ok().map(bits),
    }
}

/// The bytes of `n p kernel kind bandwidth`.
fn header(words: &str) -> Option<Vec<u8>> {
    let words: Vec<&str> = words.split_whitespace().collect();
    let (last, numbers) = words.split_last().filter(|_| words.len() == 5)?;
    let mut all = Vec::new();
    for number in numbers {
        all.extend(number.parse::<u64>().ok()?.to_le_bytes());
    }
    all.extend(bandwidth(last)?.to_le_bytes());
    Some(all)
}

/// Puts what a line says to the bytes of a job.
fn add(job: &mut Vec<u8>, line: &str) -> Option<()> {
    if let Some(len) = line.strip_prefix("cut ") {
        job.truncate(len.parse().ok()?);
    } else if let Some(text) = line.strip_prefix("more ") {
        job.extend(text.bytes());
    } else {
        for number in line.split_whitespace() {
            job.extend(bits(number.parse().ok()?).to_le_bytes());
        }
    }
    Some(())
}

/// The names and bytes of the jobs of jobs.txt, or the first line that is not understood.
pub fn read(text: &str) -> Result<Vec<(String, Vec<u8>)>, String> {
    let mut jobs: Vec<(String, Vec<u8>)> = Vec::new();
    for line in text
        .lines()
        .filter(|l| !l.is_empty() && !l.starts_with('#'))
    {
        let understood = match (line.strip_prefix("  "), jobs.last_mut()) {
            (Some(line), Some((_, job))) => add(job, line),
            (None, _) => line.split_once(": ").and_then(|(name, words)| {
                jobs.push((name.to_string(), header(words)?));
                Some(())
            }),
            _ => None,
        };
        understood.ok_or_else(|| line.to_string())?;
    }
    Ok(jobs)
}

/// The job of a standard input, or the refusal before the fit: a short header, then 18, n of 0 or over 512, p over 7, then the
/// first part that is cut short. Bytes left over are ignored.
fn job(input: &[u8]) -> Result<Job, u32> {
    let (head, parts) = input.split_at_checked(HEADER).ok_or(1u32)?;
    let word = |at| u64::from_le_bytes(head[at..at + 8].try_into().expect("8 bytes"));
    let (n, p, kernel, kind) = (word(0), word(8), word(16), word(24));
    match () {
        () if kernel > 2 || kind > 3 => return Err(18),
        () if n == 0 => return Err(1),
        () if n > 512 => return Err(3),
        () if p > 7 => return Err(4),
        () => {}
    }
    let (n, q) = (n as usize, p as usize);
    let (coords, parts) = parts.split_at_checked(16 * n).ok_or(2u32)?;
    let (x, parts) = parts.split_at_checked(8 * n * q).ok_or(5u32)?;
    let (y, _) = parts.split_at_checked(8 * n).ok_or(6u32)?;
    Ok(Job {
        coords: coords.to_vec(),
        x: x.to_vec(),
        y: y.to_vec(),
        p,
        kernel,
        kind,
        bandwidth: word(32),
        out_len: 8 * n * (q + 4),
        summary_len: 24,
    })
}

/// The numbers of some bytes, in hexadecimal, each after a space.
fn hexadecimal(bytes: &[u8]) -> String {
    let words = bytes
        .chunks_exact(8)
        .map(|c| u64::from_le_bytes(c.try_into().expect("chunks of 8")));
    words.map(|w| format!(" {w:016X}")).collect()
}

/// What `gwrprint` must print for a standard input, as 01 has it. Only where [`crate::AVAILABLE`].
pub fn listing(input: &[u8]) -> String {
    let job = match job(input) {
        Ok(job) => job,
        Err(number) => return format!("fit {number}\n"),
    };
    let answer = job.expected();
    if answer.number != 0 {
        return format!("fit {}\n", answer.number);
    }
    let (reals, solves) = answer.summary.split_at(16);
    let solves = u64::from_le_bytes(solves.try_into().expect("the last 8 of 24"));
    let mut text = format!("fit 0{} {solves}\n", hexadecimal(reals));
    let row = 8 * (job.p as usize + 4);
    for (i, numbers) in answer.out.chunks_exact(row).enumerate() {
        text += &format!("row {i}{}\n", hexadecimal(numbers));
    }
    text
}

#[cfg(test)]
mod tests {
    use super::*;
    use std::collections::BTreeSet;
    use std::fs;

    fn jobs() -> Vec<(String, Vec<u8>)> {
        let text = fs::read_to_string(folder().join("jobs.txt")).expect("jobs.txt is there");
        read(&text).expect("every line is understood")
    }

    #[test]
    fn the_files_are_those_of_jobs_txt() {
        let mut wanted = BTreeSet::new();
        for (name, job) in jobs() {
            let file = folder().join(format!("{name}.job"));
            assert_eq!(fs::read(file).ok(), Some(job), "{name}.job");
            assert!(wanted.insert(format!("{name}.job")), "{name} stands twice");
            wanted.insert(format!("{name}.out"));
        }
        let found = fs::read_dir(folder()).unwrap().flatten();
        let found = found.map(|e| e.file_name().to_string_lossy().into_owned());
        let found = found.filter(|f| f.ends_with(".job") || f.ends_with(".out"));
        assert_eq!(found.collect::<BTreeSet<_>>(), wanted);
        assert!(wanted.len() >= 2 * 47, "of 47 jobs some are missing");
    }

    #[test]
    fn every_ending_of_gwrprint_is_among_them() {
        let first = |name: &str| {
            let text = fs::read_to_string(folder().join(format!("{name}.out"))).unwrap();
            text.split_whitespace().nth(1).unwrap().to_string()
        };
        let found: BTreeSet<String> = jobs().iter().map(|(name, _)| first(name)).collect();
        // It lends enough room: 13 cannot come.
        for number in (0..=18).filter(|number| *number != 13) {
            assert!(found.contains(&number.to_string()), "fit {number}");
        }
    }

    #[cfg(gwr_source)]
    #[test]
    fn the_stored_listings_are_those_of_000() {
        for (name, job) in jobs() {
            let stored = fs::read_to_string(folder().join(format!("{name}.out"))).unwrap();
            assert_eq!(stored, listing(&job), "{name}.out");
        }
    }

    #[test]
    fn a_line_that_is_not_understood_is_named() {
        let two = read("a: 1 0 0 0 2.0\n  1 2\n  cut 47\nb: 1 0 0 1 2\n  more x\n").unwrap();
        assert_eq!((two[0].1.len(), two[1].1.len()), (47, 41));
        assert_eq!(two[0].1[32..40], 2.0f64.to_le_bytes());
        assert_eq!(two[1].1[32..40], 2u64.to_le_bytes());
        for bad in ["  1 2", "a 1 0 0 0 2", "a: 1 0 0 2", "a: 1 0 0 0 2 3"] {
            assert_eq!(read(bad), Err(bad.to_string()));
        }
        let bad = read("a: 1 0 0 0 2\n  1 two\n");
        assert_eq!(bad, Err("  1 two".to_string()));
    }
}
