//! Two ways to do one thing, timed in turns in one process.

use std::time::{Duration, Instant};

/// The median of several samples, with the quartiles on either side.
#[derive(Clone, Copy)]
pub struct Spread {
    pub low: f64,
    pub median: f64,
    pub high: f64,
}

impl Spread {
    fn of(mut samples: Vec<f64>) -> Spread {
        samples.sort_by(f64::total_cmp);
        let at = |quarter: usize| samples[(samples.len() - 1) * quarter / 4];
        Spread { low: at(1), median: at(2), high: at(3) }
    }
}

/// What a comparison showed: nanoseconds a call, and the proved one's time over the plain one's, round by round.
#[derive(Clone, Copy)]
pub struct Compared {
    pub proved: Spread,
    pub plain: Spread,
    pub ratio: Spread,
}

/// A thing to measure: so many calls at a time, and what must be made ready before them, which is not timed.
pub trait Subject {
    fn calls(&self) -> usize;
    fn ready(&mut self) {}
    fn run(&mut self);
}

/// How often the two take turns.
pub const ROUNDS: usize = 41;
const SAMPLE: Duration = Duration::from_millis(4);

/// The nanoseconds of a call, over so many runs.
fn sample(subject: &mut dyn Subject, runs: u32) -> f64 {
    let mut spent = Duration::ZERO;
    for _ in 0..runs {
        subject.ready();
        let began = Instant::now();
        subject.run();
        spent += began.elapsed();
    }
    spent.as_nanos() as f64 / f64::from(runs) / subject.calls() as f64
}

/// Times the two in turns, the first of each round alternating, with as many runs a sample as make it long enough.
pub fn compare(proved: &mut dyn Subject, plain: &mut dyn Subject) -> Compared {
    let once = sample(proved, 2).max(sample(plain, 2)) * proved.calls() as f64;
    let runs = (SAMPLE.as_nanos() as f64 / once.max(1.0)).ceil() as u32;
    let (mut ours, mut theirs) = (Vec::new(), Vec::new());
    for round in 0..ROUNDS {
        if round % 2 == 0 {
            ours.push(sample(proved, runs));
            theirs.push(sample(plain, runs));
        } else {
            theirs.push(sample(plain, runs));
            ours.push(sample(proved, runs));
        }
    }
    let ratios = ours.iter().zip(&theirs).map(|(a, b)| a / b).collect();
    Compared { proved: Spread::of(ours), plain: Spread::of(theirs), ratio: Spread::of(ratios) }
}
