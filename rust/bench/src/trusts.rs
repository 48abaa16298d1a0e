//! Fits with trusts (02's wish 4) on numbers, against 000 with the product put in.

use crate::numbers::{Criterion, is_of_numbers, proved};
use oracle::generate::Rng;
use oracle::jobs::Group;
use oracle::trusts::{Sort, Trusted, alone, neighbour_at_the_bandwidth, zero_times_infinity};
use oracle::{AVAILABLE, Answer, Job, MISSING, NAN};

/// Jobs in all, of each of the nine sorts, of each of the two others, and by the guarded criterion too, at least.
const JOBS: u64 = 120_000;
const OF_THE_NINE: u64 = 12_000;
const OF_THE_OTHERS: u64 = 6_000;
const GUARDED: u64 = 30_000;

/// How often a number is answered, at least: those that trusts add, 6 for a wrong number of them, and 14, which small ones bring.
const ANSWERED: [(usize, u64); 4] = [(6, 6_000), (14, 20_000), (26, 20_000), (27, 18_000)];

/// Of the jobs with trusts other than 1, at least: fitted, those of them that are searched, those of them with an AICc of NaN.
const FITTED: u64 = 11_000;
const SEARCHED: u64 = 5_000;
const NOT_A_NUMBER: u64 = 20;

/// What both sides answer to a job, which must be the same.
fn agreed(job: &Job, trusts: &[f64], criterion: Criterion) -> Answer {
    let answer = proved(job, trusts, criterion);
    let expected = match criterion {
        Criterion::Unguarded => job.expected_trusted(trusts),
        Criterion::Guarded => job.expected_trusted_guarded(trusts),
    };
    assert_eq!(answer, expected, "{criterion:?} {trusts:?} {job:?}");
    answer
}

/// The bits of the bandwidth and of AICc, and the solves.
fn summary(answer: &Answer) -> [u64; 3] {
    let word = |at| u64::from_le_bytes(answer.summary[at..at + 8].try_into().expect("8 bytes"));
    [0, 8, 16].map(word)
}

/// What both sides answered to jobs whose trusts are drawn.
struct Seen {
    g: Rng,
    sorts: [u64; Sort::ALL.len()],
    answered: [u64; 28],
    guarded: u64,
    fitted: u64,
    searched: u64,
    not_a_number: u64,
}

impl Seen {
    fn new(seed: u64) -> Self {
        Seen {
            g: Rng::new(seed),
            sorts: [0; Sort::ALL.len()],
            answered: [0; 28],
            guarded: 0,
            fitted: 0,
            searched: 0,
            not_a_number: 0,
        }
    }

    fn compare(&mut self, job: &Job) {
        if !is_of_numbers(job) {
            return;
        }
        let sort = Sort::pick(&mut self.g);
        let trusts = sort.draw(&mut self.g, job.n());
        let answer = agreed(job, &trusts, Criterion::Unguarded);
        if sort == Sort::Full {
            assert_eq!(answer, job.expected(), "{job:?}");
        }
        if self.g.below(4) == 0 {
            agreed(job, &trusts, Criterion::Guarded);
            self.guarded += 1;
        }
        self.sorts[sort as usize] += 1;
        self.answered[answer.number as usize] += 1;
        if sort != Sort::Full && answer.number == 0 {
            self.fitted += 1;
            self.searched += u64::from(job.kind >= 2);
            self.not_a_number += u64::from(summary(&answer)[1] == NAN);
        }
    }

    fn tell(&self) {
        for sort in Sort::ALL {
            println!("{sort:?}: {}", self.sorts[sort as usize]);
        }
        println!("answered, by number: {:?}", self.answered);
        println!(
            "guarded {}, fitted {}, searched {}, NaN {}",
            self.guarded, self.fitted, self.searched, self.not_a_number
        );
    }
}

/// Random jobs, damaged ones, those at each limit, and those of few observations, each with trusts of one sort.
#[test]
fn trusts_of_every_sort() {
    if !AVAILABLE {
        return println!("{MISSING}");
    }
    let mut seen = Seen::new(0x7205);
    for (group, count) in [
        (Group::SmallGrid, 0),
        (Group::Corners, 0),
        (Group::Boundaries, 0),
        (Group::Damaged, 24_000),
        (Group::SafeCrate, 24_000),
        (Group::Random, 36_000),
    ] {
        group.draw_jobs(count, |job| seen.compare(job));
    }
    seen.tell();
    assert!(seen.sorts.iter().sum::<u64>() >= JOBS);
    let (nine, others) = seen.sorts.split_at(9);
    assert!(nine.iter().all(|jobs| *jobs >= OF_THE_NINE));
    assert!(others.iter().all(|jobs| *jobs >= OF_THE_OTHERS));
    assert!(seen.guarded >= GUARDED);
    for number in (0..=18).chain([26, 27]) {
        assert!(seen.answered[number] > 0, "{number} is never answered");
    }
    for (number, least) in ANSWERED {
        assert!(
            seen.answered[number] >= least,
            "{number} is seldom answered"
        );
    }
    assert!(seen.fitted >= FITTED && seen.searched >= SEARCHED);
    assert!(seen.not_a_number >= NOT_A_NUMBER);
}

/// By either criterion the fit is the one that knows no trusts.
#[test]
fn trusts_of_1_are_as_none() {
    if !AVAILABLE {
        return println!("{MISSING}");
    }
    Group::SafeCrate.draw_jobs(12_000, |job| {
        let ones = job.full_trusts();
        let falls = agreed(job, &ones, Criterion::Unguarded);
        assert_eq!(falls, job.expected(), "{job:?}");
        let guarded = agreed(job, &ones, Criterion::Guarded);
        assert_eq!(guarded, job.expected_guarded(), "guarded {job:?}");
    });
}

/// The proved code's answer by either criterion, which is 000's where that is at hand.
fn by_either((job, trusts): &Trusted) -> [Answer; 2] {
    [Criterion::Unguarded, Criterion::Guarded].map(|criterion| match AVAILABLE {
        true => agreed(job, trusts, criterion),
        false => proved(job, trusts, criterion),
    })
}

#[test]
fn zero_times_infinity_is_nan_and_no_refusal() {
    for trusted in zero_times_infinity() {
        let solves = trusted.0.n() as u64;
        for answer in by_either(&trusted) {
            assert_eq!(answer.number, 0);
            assert_eq!(summary(&answer), [1.0f64.to_bits(), NAN, solves]);
        }
    }
}

#[test]
fn an_only_neighbour_at_the_bandwidth_leaves_27() {
    for (trusts, number, solves) in [([0.0, 1.0], 27, 1), ([1.0, 0.0], 27, 2), ([1.0, 0.5], 0, 2)] {
        for answer in by_either(&neighbour_at_the_bandwidth(trusts)) {
            assert_eq!(answer.number, number, "{trusts:?}");
            assert_eq!(summary(&answer)[2], solves, "{trusts:?}");
        }
    }
}

#[test]
fn a_trust_below_the_least_pivot_is_14() {
    for (trust, number) in [(1e-13, 14), (1e-11, 0), (5e-324, 14), (0.0, 27), (-0.0, 27)] {
        for answer in by_either(&alone(trust)) {
            assert_eq!(answer.number, number, "{trust:e}");
        }
    }
}
