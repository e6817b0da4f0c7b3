//! Timing two or more ways to one answer, in turns.
use std::time::Instant;

/// Turns that each way has. What is told of them is the middle one and the middle half.
const TURNS: usize = 501;

/// A turn repeats its work until it takes about as long as this, so that the clock's own time doesn't count.
const TURN_NANOSECONDS: u128 = 20_000;

/// Our time over another's, turn by turn: the middle ratio, and where the middle half of them lies.
pub struct Ratio {
    pub middle: f64,
    pub low: f64,
    pub high: f64,
}

/// A way to the answers, which are written into the lent list.
pub type Way<'a, A> = &'a dyn Fn(&mut [A]);

/// One side of a contest: its way, and what of it doesn't count. That is timed by itself in the same turn and taken off.
pub struct Side<'a, A> {
    pub way: Way<'a, A>,
    pub uncounted: Way<'a, A>,
}

fn nothing<A>(_: &mut [A]) {}

impl<'a, A> Side<'a, A> {
    /// All of the way counts.
    pub fn whole(way: Way<'a, A>) -> Self {
        Self { way, uncounted: &nothing }
    }

    /// The time that counts, of a way that is repeated so often.
    fn counted(&self, out: &mut [A], times: usize) -> f64 {
        nanoseconds(self.way, out, times) - nanoseconds(self.uncounted, out, times)
    }
}

/// What a contest showed: our time for one answer, and our time over that of each of the others.
pub struct Outcome {
    pub nanoseconds: f64,
    pub ratios: Vec<Ratio>,
}

fn nanoseconds<A>(way: Way<A>, out: &mut [A], times: usize) -> f64 {
    let began = Instant::now();
    for _ in 0..times {
        way(out);
    }
    began.elapsed().as_nanos() as f64 / times as f64
}

/// How often a turn repeats its work.
fn repeats<A>(way: Way<A>, out: &mut [A]) -> usize {
    let began = Instant::now();
    let mut times = 0;
    while began.elapsed().as_nanos() < TURN_NANOSECONDS {
        way(out);
        times += 1;
    }
    times
}

/// The number that a part of a sorted list lies below.
fn at(sorted: &[f64], part: f64) -> f64 {
    sorted[((sorted.len() - 1) as f64 * part).round() as usize]
}

fn sorted(mut list: Vec<f64>) -> Vec<f64> {
    list.sort_by(f64::total_cmp);
    list
}

/// The first place where two lists differ.
fn difference<A: PartialEq>(one: &[A], other: &[A]) -> Option<usize> {
    one.iter().zip(other).position(|(a, b)| a != b)
}

/// Holds every side to our answers, then times them in turns, each turn beginning with another side. The first side is ours.
pub fn contest<A: Clone + PartialEq>(work: &str, blank: &[A], sides: &[Side<A>]) -> Outcome {
    let mut answers = blank.to_vec();
    (sides[0].way)(&mut answers);
    for other in &sides[1..] {
        let mut out = blank.to_vec();
        (other.way)(&mut out);
        if let Some(place) = difference(&answers, &out) {
            panic!("{work}: answer {place} differs, nothing is measured");
        }
    }
    let times = repeats(sides[0].way, &mut answers);
    let mut taken = vec![Vec::with_capacity(TURNS); sides.len()];
    for turn in 0..TURNS {
        for k in 0..sides.len() {
            let which = (turn + k) % sides.len();
            taken[which].push(sides[which].counted(&mut answers, times));
        }
    }
    let ratio = |theirs: &Vec<f64>| {
        let all = sorted(taken[0].iter().zip(theirs).map(|(ours, theirs)| ours / theirs).collect());
        Ratio { middle: at(&all, 0.5), low: at(&all, 0.25), high: at(&all, 0.75) }
    };
    let ratios = taken[1..].iter().map(ratio).collect();
    Outcome { nanoseconds: at(&sorted(taken[0].clone()), 0.5) / blank.len() as f64, ratios }
}
