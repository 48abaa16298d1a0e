//! Runs the proved code through its byte calls and 000 on the same jobs and compares every byte: `compare [RANDOM_JOBS]`.
//!
//! Compared are the refusal, the summary (bandwidth, AICc, solve count), every number of the output by its bits, and that no
//! other byte of the buffers lent was written. A NaN of 000 stands for any; the byte call's must be 7FF8000000000000.
//! A run with no number given also sees that every kind of job that it drew is among the stored answers of crates/replay.
//! The exit status is 0 when all agree and every refusal of the byte calls occurred, 3 when 000 is not at hand.

mod tally;

use gateway::Refusal;
use oracle::jobs::{Group, RANDOM_JOBS};
use oracle::stored::{Stored, file};
use std::collections::BTreeSet;
use std::process::ExitCode;
use std::time::Instant;
use tally::{NUMBERS, Tally};

/// Kinds that are named where they are not stored.
const NAMED: usize = 5;

/// Compares a group, and says how long it took where that is asked for.
fn compare(group: Group, count: u64) -> Tally {
    let start = Instant::now();
    let t = Tally::of(group, count);
    if std::env::var_os("COMPARE_TIMES").is_some() {
        let jobs = t.passed + t.failed;
        let seconds = start.elapsed().as_secs_f64();
        println!("{}: {jobs} in {seconds:.1} s", group.name());
    }
    t
}

/// Compares all groups: the searches, which take as long as all others, beside them.
fn compare_all(count: u64) -> Vec<Tally> {
    std::thread::scope(|scope| {
        let searches = scope.spawn(|| compare(Group::Searches, count));
        let others = Group::ALL.iter().filter(|g| **g != Group::Searches);
        let mut all: Vec<Tally> = others.map(|group| compare(*group, count)).collect();
        all.push(searches.join().expect("it does not panic"));
        all
    })
}

/// Prints how often each number was answered, and says whether 0 and each refusal was.
fn every_number(all: &[Tally]) -> bool {
    println!("number  fit call  weight call");
    let mut absent = Vec::new();
    for number in 0..NUMBERS {
        let fits: u64 = all.iter().map(|t| t.fits[number]).sum();
        let weights: u64 = all.iter().map(|t| t.weights[number]).sum();
        let wanted = number == 0 || Refusal::from_number(number as u32).is_some();
        if !wanted && fits + weights == 0 {
            continue;
        }
        println!("{number:>6}  {fits:>8}  {weights:>11}");
        if fits + weights == 0 {
            absent.push(number.to_string());
        }
    }
    if !absent.is_empty() {
        println!("no job was answered {}", absent.join(", "));
    }
    absent.is_empty()
}

/// Whether the stored answers have every kind of job that was compared.
fn every_kind_stored(all: &[Tally]) -> bool {
    let stored = std::fs::read(file()).ok();
    let Some(stored) = stored.and_then(|bytes| Stored::read_all(&bytes)) else {
        println!("crates/replay/stdin is not made of whole records");
        return false;
    };
    let stored: BTreeSet<String> = stored.iter().flat_map(Stored::kinds).collect();
    let lacking = || all.iter().flat_map(|t| t.kinds.difference(&stored));
    for kind in lacking().take(NAMED) {
        println!("no stored answer (make store): {kind}");
    }
    lacking().next().is_none()
}

fn main() -> ExitCode {
    if !oracle::AVAILABLE {
        println!("{}", oracle::MISSING);
        return ExitCode::from(3);
    }
    let given = match std::env::args().nth(1).map(|a| a.parse()).transpose() {
        Ok(given) => given,
        Err(_) => {
            eprintln!("usage: compare [RANDOM_JOBS]");
            return ExitCode::from(2);
        }
    };
    let start = Instant::now();
    let all = compare_all(given.unwrap_or(RANDOM_JOBS));
    let numbers = every_number(&all);
    let stored = given.is_some() || every_kind_stored(&all);
    let passed: u64 = all.iter().map(|t| t.passed).sum();
    let failed: u64 = all.iter().map(|t| t.failed).sum();
    println!("{:.0} seconds", start.elapsed().as_secs_f64());
    println!("comparison with 000: {passed} jobs equal, {failed} different");
    if failed == 0 && numbers && stored {
        ExitCode::SUCCESS
    } else {
        ExitCode::FAILURE
    }
}
