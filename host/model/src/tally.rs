//! How often each call gave each answer.

use std::collections::BTreeMap;
use std::fmt;

use crate::calls::View;
use crate::paper::{Call, Outcome, Version, Why};

const ROWS: usize = 10;

const CALLS: [&str; ROWS] = ["lay", "lay 2", "move", "open", "grow", "load", "store", "size", "release", "recover"];

/// The refusals that a call's checks can give, as 'Order of checks' lists them, and 0.
const REACHABLE: [&[u64]; ROWS] = [
    &[0, 1, 2, 3, 12],
    &[0, 1, 2, 3, 12],
    &[0, 1, 2, 3, 13],
    &[0, 1, 2, 3, 4, 5, 6, 7, 11],
    &[0, 1, 2, 3, 4, 5, 6, 7, 8, 18, 10],
    &[0, 1, 2, 3, 4, 5, 8, 18, 6, 9, 7],
    &[0, 1, 2, 3, 4, 5, 8, 18, 6, 9, 7],
    &[0, 1, 3, 4, 5, 8, 18, 6],
    &[0, 1, 2, 3, 4, 5, 6, 7, 8, 18],
    &[0, 1, 2, 3, 4, 16, 5, 6],
];

/// Those that must also come on an image of either version, as its header tells it: all that are asked of its tables.
const OF_A_VERSION: [&[u64]; ROWS] = [
    &[12],
    &[12],
    &[0],
    &[0, 6, 7, 11],
    &[0, 6, 7, 8, 18, 10],
    &[0, 8, 18, 6, 9, 7],
    &[0, 8, 18, 6, 9, 7],
    &[0, 8, 18, 6],
    &[0, 6, 7, 8, 18],
    &[0, 6],
];

/// Those that must also come on an image with pages in the regions kept back: such pages are counted, and are nobody's to call.
const BESIDE_KEPT: [&[u64]; ROWS] = [&[], &[], &[], &[0], &[0, 8, 10], &[0, 8], &[0, 8], &[0, 8], &[0, 8], &[0, 6]];

fn row(call: Call) -> usize {
    match call {
        Call::Lay(Version::Three) => 0,
        Call::Lay(Version::Two) => 1,
        Call::Move { .. } => 2,
        Call::Open => 3,
        Call::Grow { .. } => 4,
        Call::Load { .. } => 5,
        Call::Store { .. } => 6,
        Call::Size { .. } => 7,
        Call::Release { .. } => 8,
        Call::Recover => 9,
    }
}

/// The images that calls are counted on.
const ON: [(&str, &[&[u64]; ROWS]); 4] = [
    ("on any image", &REACHABLE),
    ("on version 2", &OF_A_VERSION),
    ("on version 3", &OF_A_VERSION),
    ("beside pages kept back", &BESIDE_KEPT),
];

/// Which of those this image is.
pub type Kinds = [bool; ON.len()];

pub fn kinds(view: &View<'_>) -> Kinds {
    let version = view.version();
    [true, version == Some(Version::Two), version == Some(Version::Three), view.has_kept_back()]
}

/// One more than the largest refusal.
const ANSWERS: usize = 19;

/// Calls by answer.
type Cells = [[u64; ANSWERS]; ROWS];

/// Which of these answers were never given.
fn never<'a>(cells: &'a Cells, answers: &'a [&[u64]; ROWS]) -> impl Iterator<Item = String> + 'a {
    let pairs =
        answers.iter().enumerate().flat_map(|(call, numbers)| numbers.iter().map(move |number| (call, *number)));
    let none = pairs.filter(|(call, number)| cells[*call][*number as usize] == 0);
    none.map(|(call, number)| format!("{} never answered {number}", CALLS[call]))
}

/// A line for each call, with a dash for answers that are not among these.
fn lines(out: &mut fmt::Formatter<'_>, cells: &Cells, answers: &[&[u64]; ROWS]) -> fmt::Result {
    for ((call, answers), cells) in CALLS.iter().zip(answers).zip(cells) {
        write!(out, "\n{call:8}")?;
        for (number, count) in (0..).zip(cells) {
            let shown = if answers.contains(&number) { count.to_string() } else { "-".to_string() };
            write!(out, "{shown:>9}")?;
        }
    }
    Ok(())
}

#[derive(Default)]
pub struct Tally {
    cells: [Cells; ON.len()],
    reasons: BTreeMap<Why, u64>,
}

impl Tally {
    pub fn count(&mut self, call: Call, on: Kinds, outcome: &Outcome) {
        let number = match outcome {
            Ok(_) => 0,
            Err(why) => {
                *self.reasons.entry(*why).or_default() += 1;
                why.number() as usize
            }
        };
        for (cells, _) in self.cells.iter_mut().zip(on).filter(|(_, on)| *on) {
            cells[row(call)][number] += 1;
        }
    }

    /// Adds what another counted.
    pub fn absorb(&mut self, other: Tally) {
        let ours = self.cells.iter_mut().flatten().flatten();
        ours.zip(other.cells.iter().flatten().flatten()).for_each(|(cell, count)| *cell += count);
        for (why, count) in other.reasons {
            *self.reasons.entry(why).or_default() += count;
        }
    }

    pub fn total(&self) -> u64 {
        self.cells[0].iter().flatten().sum()
    }

    /// The answers that can be had, and were not: calls by refusal on each kind of image, and refusals by reason.
    pub fn missing(&self) -> Vec<String> {
        let mut missing = Vec::new();
        for (cells, (on, answers)) in self.cells.iter().zip(ON) {
            missing.extend(never(cells, answers).map(|answer| format!("{answer} {on}")));
        }
        for why in Why::ALL.iter().filter(|why| !self.reasons.contains_key(why)) {
            missing.push(format!("refusal {} never came from {why:?}", why.number()));
        }
        missing
    }
}

impl fmt::Display for Tally {
    fn fmt(&self, out: &mut fmt::Formatter<'_>) -> fmt::Result {
        write!(out, "{:8}", "")?;
        (0..ANSWERS).try_for_each(|number| write!(out, "{number:>9}"))?;
        for (cells, (on, answers)) in self.cells.iter().zip(ON) {
            write!(out, "\n{on}")?;
            lines(out, cells, answers)?;
        }
        for (why, count) in &self.reasons {
            write!(out, "\n{:>4} {:22}{count:>9}", why.number(), format!("{why:?}"))?;
        }
        writeln!(out)
    }
}
