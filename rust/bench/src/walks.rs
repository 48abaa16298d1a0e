//! Walks over the pantries (02's wish 5), stopped anywhere and taken up again, against 000 and against the words alone.

use oracle::generate::Rng;
use oracle::{AVAILABLE, bandwidth_among, steps};

mod linked {
    unsafe extern "C" {
        #[allow(clippy::too_many_arguments)]
        pub fn zescolumba_walk(
            coords: *const f64,
            coords_len: usize,
            east: f64,
            north: f64,
            own: usize,
            first: usize,
            k: usize,
            at: usize,
            seen: *mut [f64; 5],
        ) -> u32;
    }
}

type Place = (f64, f64);

/// Where a walk starts, and which pantry it leaves out.
#[derive(Debug, Clone, Copy)]
struct Start {
    place: Place,
    own: Option<usize>,
}

/// What is seen of a walk: the bandwidth where it was stopped and at its end, and there its state.
#[derive(Debug, PartialEq)]
struct Seen {
    stopped: u64,
    ended: u64,
    greatest: u64,
    sums: Vec<u64>,
}

/// The proved walk over these pantries, stopped after `first` and asked for k there and at the end. None where it is not served.
fn call(coords: &[f64], start: Start, first: usize, k: usize, at: usize) -> Option<[f64; 5]> {
    let mut seen = [-1.0; 5];
    let (east, north) = start.place;
    let own = start.own.unwrap_or(usize::MAX);
    // SAFETY: the pointer comes with the length of its slice, the five numbers are lent exclusively, and the call is proved to stay
    // in them.
    let answer = unsafe {
        linked::zescolumba_walk(
            coords.as_ptr(),
            coords.len(),
            east,
            north,
            own,
            first,
            k,
            at,
            &mut seen,
        )
    };
    match answer {
        0 => {
            assert_eq!(seen, [-1.0; 5], "nothing is written");
            None
        }
        other => {
            assert_eq!(other, 1);
            Some(seen)
        }
    }
}

fn walk(pantries: &[Place], start: Start, first: usize, k: usize) -> Seen {
    let coords: Vec<f64> = pantries.iter().flat_map(|p| [p.0, p.1]).collect();
    let look = |at| call(&coords, start, first, k, at).expect("it is served");
    let [stopped, ended, greatest, met, _] = look(0);
    let others = (0..pantries.len()).filter(|&j| start.own != Some(j));
    assert_eq!(met, others.count() as f64);
    assert_eq!(look(met as usize)[4], 0.0, "behind the last");
    Seen {
        stopped: stopped.to_bits(),
        ended: ended.to_bits(),
        greatest: greatest.to_bits(),
        sums: (0..met as usize).map(|at| look(at)[4].to_bits()).collect(),
    }
}

/// 000's bandwidth among the first m: where the start is none of them, it is handed to 000 behind them.
fn by_000(pantries: &[Place], start: Start, m: usize, k: usize) -> f64 {
    let mut places = pantries[..m].to_vec();
    let i = match start.own {
        Some(i) if i < m => i,
        _ => {
            places.push(start.place);
            m
        }
    };
    steps::bandwidth_of(&places, i, k)
}

/// A walk at every split point: what it gives there is the bandwidth among those met alone, and state and bandwidth at its end are
/// those of the unbroken walk.
fn every_split(pantries: &[Place], start: Start, k: usize) {
    let n = pantries.len();
    let unbroken = walk(pantries, start, n, k);
    for m in 0..=n {
        let seen = walk(pantries, start, m, k);
        let wanted = bandwidth_among(&pantries[..m], start.place, start.own, k);
        assert_eq!(seen.stopped, wanted.to_bits(), "{start:?} k {k} m {m}");
        if AVAILABLE {
            assert_eq!(wanted.to_bits(), by_000(pantries, start, m, k).to_bits());
        }
        let Seen {
            stopped: _,
            ended,
            greatest,
            sums,
        } = seen;
        assert_eq!((ended, greatest), (unbroken.ended, unbroken.greatest));
        assert_eq!(sums, unbroken.sums, "{start:?} k {k} m {m}");
    }
    assert_eq!(unbroken.stopped, unbroken.ended);
}

/// Starts at every pantry, and at some places of which one is a pantry's, nobody left out.
fn starts(pantries: &[Place]) -> Vec<Start> {
    let locations = pantries.iter().enumerate();
    let mut starts: Vec<Start> = locations
        .map(|(i, &place)| Start {
            place,
            own: Some(i),
        })
        .collect();
    for place in [pantries[0], (2.5, 1.0), (-40.0, 17.25)] {
        starts.push(Start { place, own: None });
    }
    starts
}

/// 40 pantries on a small grid, each spot taken several times: ties, and pantries at one place.
fn crowded() -> Vec<Place> {
    let spot = |j: u32| (f64::from(j * 7 % 5), f64::from(j * j % 4));
    (0..40).map(spot).collect()
}

/// Every way to put up to four pantries on six spots.
#[test]
fn every_short_walk() {
    let spots = [
        (0.0, 0.0),
        (1.0, 0.0),
        (2.0, 0.0),
        (0.0, 1.0),
        (1.0, 1.0),
        (-1.0, 2.5),
    ];
    for n in 1..=4 {
        for number in 0..6usize.pow(n) {
            let pantries: Vec<Place> = (0..n).map(|j| spots[number / 6usize.pow(j) % 6]).collect();
            for start in starts(&pantries) {
                for k in 1..=5 {
                    every_split(&pantries, start, k);
                }
            }
        }
    }
}

#[test]
fn every_split_point_of_forty_pantries() {
    let pantries = crowded();
    for start in starts(&pantries) {
        for k in [1, 2, 3, 8, 9, 38, 39, 40, 41, 512] {
            every_split(&pantries, start, k);
        }
    }
}

#[test]
fn every_split_point_of_other_forties() {
    let mut g = Rng::new(0x3A1C);
    for style in 0..7 {
        let pantries: Vec<Place> = (0..40)
            .map(|j: usize| match style {
                0 => (g.unit() * 1000.0, g.unit() * 1000.0),
                // all at one place, but for the last
                1 => (if j == 39 { 3.0 } else { 2.0 }, 1.0),
                // nearer than EPS, and sums that are subnormal or zero
                2 => (g.unit() * 1e-150, g.unit() * 1e-170),
                // sums that overflow
                3 => (g.unit() * 1e160, (g.unit() - 0.5) * 1e150),
                // differences that overflow
                4 => ([-1.5e308, 1.5e308, 7.0][j % 3], g.unit()),
                // on a line, farther and farther
                5 => (2f64.powi(j as i32), 0.0),
                // each so much nearer than the one before that, from the first, no bracket finds one and each is judged
                _ => (
                    if j == 0 {
                        0.0
                    } else {
                        2f64.powi(-6 * j as i32)
                    },
                    0.0,
                ),
            })
            .collect();
        for start in starts(&pantries) {
            for k in [1, 2, 7, 20, 39, 40] {
                every_split(&pantries, start, k);
            }
        }
    }
}

/// Thousands of walks of any length and split, by styles.
#[test]
fn random_walks() {
    let mut g = Rng::new(0x5EED5);
    for round in 0..3000 {
        let n = 1 + (g.unit() * g.unit() * 512.0) as usize;
        let step = [0.0, 1.0, 64.0, 1e-9][round % 4];
        let value = |g: &mut Rng| match step {
            0.0 => g.unit() * 100.0,
            _ => (g.unit() * 12.0).floor() * step,
        };
        let pantries: Vec<Place> = (0..n).map(|_| (value(&mut g), value(&mut g))).collect();
        let own = Some((g.unit() * n as f64) as usize).filter(|_| round % 5 != 0);
        let place = own.map_or((value(&mut g), value(&mut g)), |i| pantries[i]);
        let start = Start { place, own };
        let m = (g.unit() * (n + 1) as f64) as usize;
        let k = 1 + (g.unit() * 1.2 * n as f64) as usize;
        let coords: Vec<f64> = pantries.iter().flat_map(|p| [p.0, p.1]).collect();
        let at = (g.unit() * n as f64) as usize;
        let seen = call(&coords, start, m, k, at).expect("it is served");
        let unbroken = call(&coords, start, n, k, at).expect("it is served");
        let among = |m: usize| bandwidth_among(&pantries[..m], place, own, k).to_bits();
        assert_eq!(seen[0].to_bits(), among(m), "round {round}");
        assert_eq!(seen[1].to_bits(), among(n), "round {round}");
        assert_eq!(seen[1..].to_vec(), unbroken[1..].to_vec(), "round {round}");
    }
}

/// More than 512 pantries, and fewer than the stop, are not served.
#[test]
fn bad_sizes() {
    let start = Start {
        place: (0.0, 0.0),
        own: None,
    };
    let coords = vec![1.0; 2 * 513];
    assert_eq!(call(&coords, start, 0, 1, 0), None);
    assert_eq!(call(&coords[..1024], start, 513, 1, 0), None);
    assert!(call(&coords[..1024], start, 512, 1, 0).is_some());
    assert_eq!(call(&coords[..80], start, 41, 1, 0), None);
    assert_eq!(call(&[], start, 0, 1, 9).map(|s| s[0]), Some(f64::EPSILON));
}
