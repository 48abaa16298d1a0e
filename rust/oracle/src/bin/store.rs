//! Writes stored answers of 000 and what the program that replays them then says: `store` writes crates/replay/stdin and stdout.
//!
//! Of all jobs that the comparison draws it keeps the first of each kind (see [`oracle::stored::kinds`]), and three searches with
//! 512 observations. Where every job of a kind is large, it keeps the smallest.

use oracle::Job;
use oracle::jobs::{Group, RANDOM_JOBS, Take};
use oracle::stored::{Stored, file, has_room, size, weight_job};
use std::collections::{BTreeMap, BTreeSet};
use std::process::ExitCode;

/// Bytes of a record that is kept at once; of larger ones the smallest is kept when no other job is of its kind.
const AT_ONCE: usize = 512;

/// The jobs kept of a group.
struct Keeper {
    group: Group,
    seen: BTreeSet<String>,
    kept: Vec<Stored>,
    large: BTreeMap<String, Stored>,
}

impl Keeper {
    fn draw(group: Group) -> Vec<Stored> {
        let mut keeper = Keeper {
            group,
            seen: BTreeSet::new(),
            kept: Vec::new(),
            large: BTreeMap::new(),
        };
        group.draw(RANDOM_JOBS, &mut keeper);
        for one in std::mem::take(&mut keeper.large).into_values() {
            keeper.keep(one);
        }
        keeper.kept
    }

    /// Keeps what is of a new kind.
    fn keep(&mut self, one: Stored) {
        let before = self.seen.len();
        self.seen.extend(one.kinds());
        if self.seen.len() > before {
            self.kept.push(one);
        }
    }

    fn take(&mut self, job: &Job) {
        if !has_room(job) {
            return;
        }
        let one = Stored::new(self.group, job);
        let bytes = size(job);
        if bytes <= AT_ONCE {
            self.keep(one);
        } else if self.group == Group::Searches && job.n() == 512 && job.p == 0 {
            self.seen.extend(one.kinds());
            self.kept.push(one);
        } else {
            for kind in one.kinds() {
                let smaller = |s: &Stored| bytes < size(&s.job);
                if self.large.get(&kind).is_none_or(smaller) {
                    self.large.insert(kind, one.clone());
                }
            }
        }
    }
}

impl Take for Keeper {
    fn fit(&mut self, job: &Job) {
        self.take(job);
    }

    fn safe(&mut self, job: &Job) {
        self.take(job);
    }

    fn weight(&mut self, kernel: u64, d: u64, b: u64, room: usize) {
        self.take(&weight_job(kernel, d, b, room));
    }
}

fn main() -> ExitCode {
    if !oracle::AVAILABLE {
        eprintln!("{}", oracle::MISSING);
        return ExitCode::FAILURE;
    }
    let mut bytes = Vec::new();
    let mut count = 0;
    for group in Group::ALL {
        let kept = Keeper::draw(group);
        count += kept.len();
        let before = bytes.len();
        bytes.extend(kept.iter().flat_map(Stored::bytes));
        let (name, more) = (group.name(), bytes.len() - before);
        println!("{name}: {} answers, {more} bytes", kept.len());
    }
    let said = format!("{count} of {count} stored answers agree\n");
    let stdin = file();
    let stdout = stdin.with_file_name("stdout");
    match std::fs::write(stdin, bytes).and_then(|()| std::fs::write(stdout, said)) {
        Ok(()) => ExitCode::SUCCESS,
        Err(e) => {
            eprintln!("store: {e}");
            ExitCode::FAILURE
        }
    }
}
