//! Trusts of observations (02's wish 4) for the comparison: sorts of them, and jobs whose answer may surprise.

use crate::Job;
use crate::generate::Rng;

/// What the trusts of a job look like.
#[derive(Debug, Clone, Copy, PartialEq, Eq)]
pub enum Sort {
    /// All 1: the fit without trusts.
    Full,
    /// All 0: nothing weighs.
    Zero,
    /// One 0, the others 1: one own weight is 0.
    OneZero,
    /// One 1, the others 0: systems of rank 1.
    OneFull,
    /// From 1e-300 to 1e-10, half of them around the least pivot, 1e-12. In half of the jobs they stand among ones.
    Tiny,
    /// From 5e-324 to 1e-305, most of them subnormal: products with kernel weights are so too, or are rounded to zero. In half of the
    /// jobs they stand among ones.
    Subnormal,
    /// At least one -0, among others that are in range.
    NegativeZero,
    /// One below 0 or above 1, by as little as can be or by much.
    OutOfRange,
    /// One NaN, of either sign.
    NotANumber,
    /// From 0 to 1.
    Uniform,
    /// One too few, one too many, or none at all; some of them are NaN.
    WrongNumber,
}

const OUT_OF_RANGE: [f64; 8] = [
    -5e-324,
    -1e-300,
    -1.0,
    f64::NEG_INFINITY,
    1.0000000000000002,
    2.0,
    1e300,
    f64::INFINITY,
];

/// Quiet, negative, signalling, and with every bit set.
const NANS: [f64; 4] = [
    f64::NAN,
    -f64::NAN,
    f64::from_bits(0x7FF0_0000_0000_0001),
    f64::from_bits(u64::MAX),
];

/// One of the numbers from `least` to `most`, each as likely as any other, so that every binary order comes as often.
fn between(g: &mut Rng, least: f64, most: f64) -> f64 {
    let (least, most) = (least.to_bits(), most.to_bits());
    f64::from_bits(least + g.bits() % (most - least + 1))
}

fn tiny(g: &mut Rng) -> f64 {
    let least = g.pick(&[1e-300, 1e-14]);
    between(g, least, 1e-10)
}

fn subnormal(g: &mut Rng) -> f64 {
    let most = g.pick(&[1e-322, f64::MIN_POSITIVE, 1e-305]);
    between(g, 5e-324, most)
}

/// In range, and a zero of either sign often.
fn any(g: &mut Rng) -> f64 {
    match g.below(4) {
        0 => 0.0,
        1 => -0.0,
        2 => 1.0,
        _ => g.unit(),
    }
}

/// So many, each drawn.
fn each(g: &mut Rng, n: usize, draw: fn(&mut Rng) -> f64) -> Vec<f64> {
    (0..n).map(|_| draw(g)).collect()
}

/// The others with one of them replaced; of none there is none to replace.
fn one(g: &mut Rng, trust: f64, mut others: Vec<f64>) -> Vec<f64> {
    if !others.is_empty() {
        let at = g.below(others.len() as u64) as usize;
        others[at] = trust;
    }
    others
}

/// All drawn, or some of them among ones: those that are small alone leave no pivot.
fn small(g: &mut Rng, n: usize, draw: fn(&mut Rng) -> f64) -> Vec<f64> {
    let mut trusts = each(g, n, draw);
    if g.below(2) == 0 {
        let kept = g.below(n.max(1) as u64) as usize;
        for (j, trust) in trusts.iter_mut().enumerate() {
            if j != kept && g.below(2) == 0 {
                *trust = 1.0;
            }
        }
    }
    trusts
}

/// A number of trusts that is not n.
fn other_number(g: &mut Rng, n: usize) -> usize {
    let numbers = [n + 1, n.saturating_sub(1), 0];
    // Of no observations there is only one too many.
    g.pick(if n == 0 { &numbers[..1] } else { &numbers })
}

impl Sort {
    /// Every sort.
    pub const ALL: [Sort; 11] = [
        Sort::Full,
        Sort::Zero,
        Sort::OneZero,
        Sort::OneFull,
        Sort::Tiny,
        Sort::Subnormal,
        Sort::NegativeZero,
        Sort::OutOfRange,
        Sort::NotANumber,
        Sort::Uniform,
        Sort::WrongNumber,
    ];

    /// One of the first nine, each as often; in one of ten draws one of the last two.
    pub fn pick(g: &mut Rng) -> Self {
        let (nine, two) = Self::ALL.split_at(9);
        let sorts = if g.below(10) == 0 { two } else { nine };
        g.pick(sorts)
    }

    /// Trusts of this sort for n observations.
    pub fn draw(self, g: &mut Rng, n: usize) -> Vec<f64> {
        match self {
            Sort::Full => vec![1.0; n],
            Sort::Zero => vec![0.0; n],
            Sort::OneZero => one(g, 0.0, vec![1.0; n]),
            Sort::OneFull => one(g, 1.0, vec![0.0; n]),
            Sort::Tiny => small(g, n, tiny),
            Sort::Subnormal => small(g, n, subnormal),
            Sort::NegativeZero => {
                let others = each(g, n, any);
                one(g, -0.0, others)
            }
            Sort::OutOfRange => {
                let (others, bad) = (each(g, n, any), g.pick(&OUT_OF_RANGE));
                one(g, bad, others)
            }
            Sort::NotANumber => {
                let (others, bad) = (each(g, n, any), g.pick(&NANS));
                one(g, bad, others)
            }
            Sort::Uniform => each(g, n, Rng::unit),
            Sort::WrongNumber => {
                let number = other_number(g, n);
                each(g, number, |g| g.pick(&[1.0, 0.5, f64::NAN]))
            }
        }
    }
}

/// A job and its trusts.
pub type Trusted = (Job, Vec<f64>);

/// At one place, with responses of 0: the first is not trusted, and its predictor is 1e200.
fn untrusted_and_large(others: &[f64]) -> Trusted {
    let x: Vec<f64> = [1e200].iter().chain(others).copied().collect();
    let n = x.len();
    let (coords, y) = (vec![0.0; 2 * n], vec![0.0; n]);
    let job = Job::new(&coords, &x, &y, 1, (0, 0, 1.0f64.to_bits()));
    let mut trusts = job.full_trusts();
    trusts[0] = 0.0;
    (job, trusts)
}

/// The first pantry's leverage is infinite before its own weight, 0, is multiplied in. So it is NaN, and AICc too, and nothing is
/// refused. Three pantries; then two, the fewest: one of trust 0 alone ends with 27, and without a predictor no leverage is infinite.
/// Of the two only the second weighs, which cannot tell a slope from an intercept: there is a second pivot only since the square of
/// its predictor is rounded. 94,906,267 is the least whole predictor of which that is so.
pub fn zero_times_infinity() -> [Trusted; 2] {
    [&[0.0, 1.0][..], &[94_906_267.0]].map(untrusted_and_large)
}

/// Two pantries of these trusts, by Bisquare with one neighbour, which is as far away as the bandwidth and so weighs nothing: where
/// the own trust is 0 too, the fit ends with 27.
pub fn neighbour_at_the_bandwidth(trusts: [f64; 2]) -> Trusted {
    let job = Job::new(&[0.0, 0.0, 1.0, 0.0], &[], &[3.0, 4.0], 0, (1, 1, 1));
    (job, trusts.to_vec())
}

/// One pantry of this trust, which is its system's only pivot: below 1e-12 the fit ends with 14.
pub fn alone(trust: f64) -> Trusted {
    let job = Job::new(&[0.0, 0.0], &[], &[5.0], 0, (1, 0, 1.0f64.to_bits()));
    (job, vec![trust])
}

#[cfg(test)]
mod sorts {
    use super::*;

    fn draws(sort: Sort, n: usize) -> Vec<Vec<f64>> {
        let mut g = Rng::new(n as u64 + 1);
        (0..200).map(|_| sort.draw(&mut g, n)).collect()
    }

    fn count(trusts: &[f64], is: impl Fn(f64) -> bool) -> usize {
        trusts.iter().filter(|t| is(**t)).count()
    }

    /// Each sort has what it is named for.
    fn holds(sort: Sort, trusts: &[f64]) -> bool {
        let n = trusts.len();
        match sort {
            Sort::Full => count(trusts, |t| t == 1.0) == n,
            Sort::Zero => count(trusts, |t| t.to_bits() == 0) == n,
            Sort::OneZero => count(trusts, |t| t == 0.0) == 1,
            Sort::OneFull => count(trusts, |t| t == 1.0) == 1,
            Sort::Tiny => count(trusts, |t| (1e-300..=1e-10).contains(&t)) >= 1,
            Sort::Subnormal => count(trusts, |t| (5e-324..=1e-305).contains(&t)) >= 1,
            Sort::NegativeZero => count(trusts, |t| t.to_bits() == 1 << 63) >= 1,
            Sort::OutOfRange => count(trusts, f64::is_nan) == 0,
            Sort::NotANumber => count(trusts, f64::is_nan) == 1,
            Sort::Uniform | Sort::WrongNumber => true,
        }
    }

    #[test]
    fn each_is_what_it_is_named_for() {
        for sort in Sort::ALL {
            for n in 1..9 {
                for trusts in draws(sort, n) {
                    assert!(holds(sort, &trusts), "{sort:?} {trusts:?}");
                    assert_eq!(trusts.len() == n, sort != Sort::WrongNumber, "{sort:?}");
                    let bad = count(&trusts, |t| !(0.0..=1.0).contains(&t));
                    match sort {
                        Sort::OutOfRange | Sort::NotANumber => assert_eq!(bad, 1),
                        Sort::WrongNumber => {}
                        _ => assert_eq!(bad, 0, "{sort:?} {trusts:?}"),
                    }
                }
            }
        }
    }

    #[test]
    fn small_ones_stand_alone_or_among_ones() {
        for sort in [Sort::Tiny, Sort::Subnormal] {
            let all = draws(sort, 6);
            let alone = all.iter().filter(|t| !t.contains(&1.0)).count();
            assert!((60..140).contains(&alone), "{sort:?} {alone}");
        }
        let subnormal = draws(Sort::Subnormal, 1);
        let subnormal = subnormal.iter().filter(|t| t[0].is_subnormal()).count();
        assert!((120..180).contains(&subnormal), "{subnormal}");
    }

    #[test]
    fn of_no_observations_there_are_too_many() {
        for sort in Sort::ALL {
            let number = usize::from(sort == Sort::WrongNumber);
            assert!(draws(sort, 0).iter().all(|t| t.len() == number));
        }
        let numbers: Vec<usize> = draws(Sort::WrongNumber, 5).iter().map(Vec::len).collect();
        assert!([0, 4, 6].iter().all(|n| numbers.contains(n)));
    }
}

#[cfg(all(test, gwr_source))]
mod answers {
    use super::*;
    use crate::generate::random;
    use crate::jobs::{Group, Take};
    use crate::{Answer, FILL, NAN, bits, reals};

    /// Takes each job that is drawn for the fit call.
    struct Each<F>(F);

    impl<F: FnMut(&Job)> Take for Each<F> {
        fn fit(&mut self, job: &Job) {
            (self.0)(job);
        }

        fn safe(&mut self, job: &Job) {
            (self.0)(job);
        }

        fn weight(&mut self, _: u64, _: u64, _: u64, _: usize) {}
    }

    fn summary(answer: &Answer) -> Vec<u64> {
        let words = answer.summary.chunks_exact(8);
        words
            .map(|c| u64::from_le_bytes(c.try_into().unwrap()))
            .collect()
    }

    fn untouched(answer: &Answer) -> bool {
        answer.out.iter().chain(&answer.summary).all(|b| *b == FILL)
    }

    #[test]
    fn trusts_of_1_change_nothing() {
        let mut jobs = 0;
        let mut same = Each(|job: &Job| {
            let ones = job.full_trusts();
            let expected = job.expected();
            assert!(expected.number <= 18, "{job:?}");
            assert_eq!(job.expected_trusted(&ones), expected, "{job:?}");
            let (trusted, expected) = (job.expected_trusted_guarded(&ones), job.expected_guarded());
            assert_eq!(trusted, expected, "guarded {job:?}");
            jobs += 1;
        });
        for group in [Group::Random, Group::Damaged, Group::Corners] {
            group.draw(600, &mut same);
        }
        assert!(jobs > 5_000, "{jobs} jobs");
    }

    /// By either criterion a zero's sign makes no difference.
    #[test]
    fn negative_zero_is_zero() {
        let mut g = Rng::new(0x0F0);
        let mut fitted = 0;
        for i in 0..4000 {
            let p = g.below(3);
            let n = p + 1 + g.below(6);
            let job = random(&mut g, n, p, i % 3, i / 3 % 4);
            let signed = Sort::NegativeZero.draw(&mut g, n as usize);
            let plain: Vec<f64> = signed.iter().map(|t| t.abs()).collect();
            let answer = job.expected_trusted(&plain);
            assert_eq!(job.expected_trusted(&signed), answer, "{job:?} {signed:?}");
            let (signed, plain) = [&signed, &plain]
                .map(|t| job.expected_trusted_guarded(t))
                .into();
            assert_eq!(signed, plain, "guarded {job:?}");
            fitted += u64::from(answer.number == 0);
        }
        assert!(fitted > 1000, "{fitted} are fitted");
    }

    /// Four pantries at two places, one predictor, and room for the answer.
    fn four() -> Job {
        let coords = [0.0, 0.0, 0.0, 0.0, 10.0, 10.0, 10.0, 10.0];
        let (x, y) = ([1.0, 2.0, 3.0, 5.0], [2.0, 4.0, 10.0, 10.0]);
        Job::new(&coords, &x, &y, 1, (0, 0, 50.0f64.to_bits()))
    }

    /// A bad trust at the last place of four.
    fn bad() -> [f64; 4] {
        [1.0, 1.0, 1.0, f64::NAN]
    }

    #[test]
    fn not_in_range_is_26() {
        for trust in OUT_OF_RANGE.into_iter().chain(NANS) {
            for at in 0..4 {
                let mut trusts = [0.5; 4];
                trusts[at] = trust;
                let answer = four().expected_trusted(&trusts);
                assert_eq!(answer.number, 26, "{trust:e}");
                assert!(untouched(&answer));
                assert_eq!(four().expected_trusted_guarded(&trusts), answer);
            }
        }
        for trust in [0.0, -0.0, 5e-324, 1.0f64.next_down(), 1.0] {
            let answer = four().expected_trusted(&[1.0, trust, 1.0, 1.0]);
            assert_eq!(answer.number, 0, "{trust:e}");
        }
    }

    #[test]
    fn a_wrong_number_of_trusts_is_6() {
        for number in [0, 1, 3, 5, 8] {
            let answer = four().expected_trusted(&vec![f64::NAN; number]);
            assert_eq!(answer.number, 6, "{number} trusts");
            assert!(untouched(&answer));
        }
    }

    type Wrong<'a> = (u32, &'a dyn Fn(&mut Trusted));

    /// Each wrong comes on top of those before it, which stand later in the order of the refusals.
    #[test]
    fn refusals_in_their_order() {
        let infinite = f64::INFINITY.to_le_bytes();
        let wrongs: [Wrong; 11] = [
            (12, &|(j, _)| {
                j.kind = 2;
                j.coords.fill(0);
            }),
            (13, &|(j, _)| j.out_len -= 8),
            (26, &|(_, t)| *t = bad().to_vec()),
            (10, &|(j, _)| j.x[..8].copy_from_slice(&infinite)),
            (9, &|(j, _)| j.coords[..8].copy_from_slice(&infinite)),
            (8, &|(j, _)| j.y[..8].copy_from_slice(&infinite)),
            (6, &|(_, t)| t.truncate(3)),
            (5, &|(j, _)| j.x.truncate(24)),
            (4, &|(j, _)| j.p = 8),
            (2, &|(j, _)| j.coords.truncate(56)),
            (18, &|(j, _)| j.kernel = 3),
        ];
        let mut trusted = (four(), four().full_trusts());
        for (number, wrong) in wrongs {
            wrong(&mut trusted);
            let answer = trusted.0.expected_trusted(&trusted.1);
            assert_eq!(answer.number, number);
            assert!(untouched(&answer));
        }
    }

    #[test]
    fn bad_trusts_go_between_7_and_11() {
        let mut job = four();
        job.bandwidth = 0;
        assert_eq!(job.expected_trusted(&job.full_trusts()).number, 11);
        assert_eq!(job.expected_trusted(&bad()).number, 26);
        let few = Job::new(&[0.0; 2], &[1.0], &[1.0], 1, (0, 0, 0));
        assert_eq!(few.expected_trusted(&[f64::NAN]).number, 7);
        assert_eq!(few.expected_trusted(&[]).number, 6);
    }

    #[test]
    fn zero_times_infinity_is_nan_and_no_refusal() {
        for (job, trusts) in zero_times_infinity() {
            let n = job.n() as u64;
            for kernel in 0..3 {
                let job = Job {
                    kernel,
                    ..job.clone()
                };
                let answer = job.expected_trusted(&trusts);
                assert_eq!(answer.number, 0);
                assert_eq!(summary(&answer), [1.0f64.to_bits(), NAN, n]);
                assert_eq!(job.expected_trusted_guarded(&trusts), answer);
                // A leverage that is finite is none once its weight is 0.
                let mut finite = job.clone();
                finite.x[..8].copy_from_slice(&1e100f64.to_le_bytes());
                let aicc = summary(&finite.expected_trusted(&trusts))[1];
                assert!(f64::from_bits(aicc).is_finite(), "{aicc:X}");
            }
        }
    }

    #[test]
    fn a_weight_sum_of_zero_is_27() {
        let answer = |trusts| {
            let (job, trusts) = neighbour_at_the_bandwidth(trusts);
            job.expected_trusted(&trusts)
        };
        let first = answer([0.0, 1.0]);
        assert_eq!((first.number, summary(&first)), (27, vec![0, 0, 1]));
        assert!(first.out.iter().all(|b| *b == FILL));
        // The row before it stands.
        let second = answer([1.0, 0.0]);
        assert_eq!((second.number, summary(&second)), (27, vec![0, 0, 2]));
        assert_eq!(second.out[..32], answer([1.0, 1.0]).out[..32]);
        assert!(second.out[32..].iter().all(|b| *b == FILL));
        // A product is rounded: 0.5625 of the least number is that number, and less than half of it is zero.
        let (mut job, _) = neighbour_at_the_bandwidth([0.0, 0.0]);
        (job.kind, job.bandwidth) = (0, 2.0f64.to_bits());
        assert_eq!(job.expected_trusted(&[0.0, 5e-324]).number, 14);
        job.bandwidth = 1.5f64.to_bits();
        assert_eq!(job.expected_trusted(&[0.0, 5e-324]).number, 27);
    }

    #[test]
    fn a_pivot_is_judged_after_the_trust() {
        let number = |trust| {
            let (job, trusts) = alone(trust);
            job.expected_trusted(&trusts).number
        };
        assert_eq!([1e-13, 1e-11, 1.0].map(number), [14, 0, 0]);
        assert_eq!([0.0, -0.0, 5e-324].map(number), [27, 27, 14]);
    }

    /// 0, 2 and 3 on a line: below a distance of 2 nothing weighs at the first, which is not trusted. Trials there score +infinity.
    #[test]
    fn a_trial_s_weight_sum_of_zero_ends_no_search() {
        let coords = [0.0, 0.0, 2.0, 0.0, 3.0, 0.0];
        let mut job = Job::new(&coords, &[], &[1.0, 2.0, 4.0], 0, (1, 2, 0));
        let trusts = [0.0, 1.0, 1.0];
        let answer = job.expected_trusted(&trusts);
        let [bandwidth, _, solves] = summary(&answer)[..] else {
            panic!("three numbers")
        };
        assert_eq!(answer.number, 0);
        assert!(f64::from_bits(bandwidth) > 2.0);
        assert!(solves < 103 * 3, "{solves}: some trials end at the first");
        (job.kind, job.bandwidth) = (0, 1.9f64.to_bits());
        assert_eq!(job.expected_trusted(&trusts).number, 27);
    }

    /// The jobs of crates/trusted by their names, in its order.
    fn jobs_of_the_stored_run() -> Vec<(String, Trusted)> {
        let mut jobs = Vec::new();
        let mut add = |name: &str, trusted: Trusted| jobs.push((name.to_string(), trusted));
        let full = |job: &Job| (job.clone(), job.full_trusts());
        let [three, two] = zero_times_infinity();
        let (three_full, two_full) = (full(&three.0), full(&two.0));
        add("zero times infinity", three);
        add("the same, fully trusted", three_full);
        add("zero times infinity, the fewest", two);
        add("the fewest, fully trusted", two_full);
        for (first, second) in [(0, 1), (1, 0), (1, 1)] {
            let name = format!("a neighbour at the bandwidth, trusts {first} and {second}");
            let trusts = [first, second].map(f64::from);
            add(&name, neighbour_at_the_bandwidth(trusts));
        }
        let by_gaussian = |word: &str, room: usize| {
            let (mut job, trusts) = alone(word.parse().unwrap());
            (job.kernel, job.out_len) = (0, 8 * room);
            (job, trusts)
        };
        let numbers = "1e-13 1e-11 0 -0 NaN -1e-300 1.0000000000000002";
        for word in numbers.split(' ') {
            add(&format!("alone, trust {word}"), by_gaussian(word, 4));
        }
        for word in ["2", "1"] {
            let name = format!("alone, trust {word}, the output too short");
            add(&name, by_gaussian(word, 3));
        }
        let coords = [0.0, 0.0, 1.0, 0.0, 0.0, 2.0, 3.0, 3.0];
        let (x, y) = ([1.0, 2.0, 4.0, 7.0], [2.0, 3.0, 5.0, 9.0]);
        let four = |choice| Job::new(&coords, &x, &y, 1, choice);
        let (distance, count) = (four((0, 0, 2.0f64.to_bits())), four((2, 3, 2)));
        let trusts = vec![0.5, 1.0, 0.25, 0.75];
        let few = trusts[..3].to_vec();
        add("four by a distance", (distance.clone(), trusts.clone()));
        add("four by a count, searched", (count, trusts));
        add("four by a distance, one trust too few", (distance, few));
        jobs
    }

    /// What `gwrprint` would print of an answer.
    fn printed(job: &Job, answer: &Answer) -> String {
        if answer.number != 0 {
            return format!("fit {}\n", answer.number);
        }
        let [bandwidth, aicc, solves] = summary(answer)[..] else {
            panic!("three numbers")
        };
        let mut text = format!("fit 0 {bandwidth:016X} {aicc:016X} {solves}\n");
        let out = reals(&answer.out);
        for (i, row) in out.chunks_exact(job.p as usize + 4).enumerate() {
            let row: String = row.iter().map(|v| format!(" {:016X}", bits(*v))).collect();
            text += &format!("row {i}{row}\n");
        }
        text
    }

    #[test]
    fn the_stored_run_is_that_of_000() {
        let file = concat!(env!("CARGO_MANIFEST_DIR"), "/../../crates/trusted/stdout");
        let mut expected = String::new();
        for (name, (job, trusts)) in jobs_of_the_stored_run() {
            let answer = job.expected_trusted(&trusts);
            expected += &format!("{name}:\n{}", printed(&job, &answer));
        }
        assert_eq!(std::fs::read_to_string(file).unwrap(), expected);
    }
}
