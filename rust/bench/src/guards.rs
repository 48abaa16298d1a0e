//! Fits by either criterion (02's wish 9) on numbers: unguarded against 000, guarded against 000 with the one line added. Every
//! observation is fully trusted.

use crate::numbers::{Criterion, is_of_numbers, proved};
use oracle::jobs::Group;
use oracle::{AVAILABLE, Job, MISSING};

/// What both sides answered to the jobs of some groups.
#[derive(Default)]
struct Seen {
    jobs: u64,
    searched: u64,
    /// Both fit, with another AICc.
    scored_apart: u64,
    /// Both fit, at another bandwidth.
    placed_apart: u64,
    /// Only guarded is refused, by number.
    refused: Vec<u32>,
}

impl Seen {
    fn compare(&mut self, job: &Job) {
        if !is_of_numbers(job) {
            return;
        }
        let ones = job.full_trusts();
        let falls = proved(job, &ones, Criterion::Unguarded);
        assert_eq!(falls, job.expected(), "{job:?}");
        let guarded = proved(job, &ones, Criterion::Guarded);
        assert_eq!(guarded, job.expected_guarded(), "guarded {job:?}");
        self.jobs += 1;
        self.searched += u64::from(job.kind >= 2 && falls.number == 0);
        match (falls.number, guarded.number) {
            (0, 0) if falls.summary[..8] != guarded.summary[..8] => self.placed_apart += 1,
            (0, 0) if falls.summary != guarded.summary => self.scored_apart += 1,
            (0, number) if number != 0 => self.refused.push(number),
            _ => {}
        }
    }
}

fn seen_of(groups: &[Group], count: u64) -> Seen {
    let mut seen = Seen::default();
    for group in groups {
        group.draw_jobs(count, |job| seen.compare(job));
    }
    seen
}

/// Random, searched and damaged jobs, and those at each limit. (The comparison's searches with more observations are left out: they
/// take four times as long as all of these, and move none of the counts below but the first two.)
#[test]
fn random_jobs_by_either() {
    if !AVAILABLE {
        return println!("{MISSING}");
    }
    let groups = [
        Group::Corners,
        Group::Boundaries,
        Group::Damaged,
        Group::SafeCrate,
        Group::Random,
    ];
    let seen = seen_of(&groups, 12_000);
    assert!(seen.jobs > 17_000 && seen.searched > 4_000);
    assert!(seen.scored_apart > 2_000 && seen.placed_apart > 1_000);
    assert!(seen.refused.len() > 100 && seen.refused.contains(&14));
}

/// Few observations and few values, where D is below 0 most often.
#[test]
fn small_jobs_by_either() {
    if !AVAILABLE {
        return println!("{MISSING}");
    }
    let seen = seen_of(&[Group::SmallGrid], 0);
    assert!(seen.jobs > 80_000 && seen.searched > 12_000);
    assert!(seen.scored_apart > 30_000 && seen.placed_apart > 1_000);
}

/// Every trial of the guarded search scores +infinity, so that the first point is the best, where the final fit fails.
#[test]
fn three_on_a_line_end_with_14_only_when_guarded() {
    let coords = [0.0, 0.0, 1.0, 0.0, 3.0, 0.0];
    let job = Job::new(&coords, &[0.0, 1.0, 0.0], &[0.0; 3], 1, (1, 2, 0));
    let criteria = [Criterion::Unguarded, Criterion::Guarded];
    let numbers = criteria.map(|c| proved(&job, &job.full_trusts(), c).number);
    assert_eq!(numbers, [0, 14]);
    if AVAILABLE {
        Seen::default().compare(&job);
    }
}
