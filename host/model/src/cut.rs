//! A call cut short between two of its writes. Recovery must refuse the image, or find in it the books from before the call
//! or those from after it; a store may leave a mix of both where it was to write.

use std::collections::BTreeMap;
use std::fmt::{self, Display, Formatter};

use crate::paper::{self, Call, Geometry, Tables};

/// The edition of each region, and the bytes of its book. Region 1 has none: it holds blocks for others, and no call reads it.
type Books = Vec<(u64, Option<Vec<u8>>)>;

/// The books that recovery finds in an image, or none where it refuses.
fn books(g: Geometry, image: &[u8]) -> Option<Books> {
    let Tables { taken, blocks, books, editions, .. } = paper::accepted(g, image).ok()?;
    let empty = |(region, pages): (usize, &Option<u64>)| {
        pages.filter(|_| region != 1).map(|pages| vec![0; (pages * g.page) as usize])
    };
    let mut found: Books = editions.into_iter().zip(books.iter().enumerate().map(empty)).collect();
    for (block, (region, position)) in (0..taken).zip(blocks) {
        let (_, Some(book)) = &mut found[region as usize] else { continue };
        let part = book.chunks_mut(g.block_bytes() as usize).nth(position as usize).expect("a position below the need");
        part.copy_from_slice(&image[g.data_at(block)..][..part.len()]);
    }
    Some(found)
}

/// What recovery finds in an image that a call left in the middle.
#[derive(Clone, Copy, Debug, PartialEq, Eq, PartialOrd, Ord)]
pub enum Found {
    Refused,
    Old,
    New,
    /// A store's alone: old bytes and new ones.
    Mixed,
}

/// A call, by the books before it and after it.
pub struct Cut {
    g: Geometry,
    mixes: bool,
    before: Option<Books>,
    after: Option<Books>,
}

impl Cut {
    /// The images before and after the call, the latter as the model leaves it.
    pub fn new(g: Geometry, call: Call, before: &[u8], after: &[u8]) -> Cut {
        let mixes = matches!(call, Call::Store { .. });
        Cut { g, mixes, before: books(g, before), after: books(g, after) }
    }

    /// What is found in an image of the call cut short, or what it shows that it must not.
    pub fn judge(&self, image: &[u8]) -> Result<Found, String> {
        let Some(found) = books(self.g, image) else { return Ok(Found::Refused) };
        if self.before.as_ref() == Some(&found) {
            return Ok(Found::Old);
        }
        if self.after.as_ref() == Some(&found) {
            return Ok(Found::New);
        }
        let mut sides = [&self.before, &self.after].map(|side| side.as_ref().unwrap_or(const { &Vec::new() }).iter());
        for (region, found) in found.iter().enumerate() {
            let sides = sides.each_mut().map(Iterator::next);
            if !sides.iter().flatten().any(|(edition, _)| *edition == found.0) {
                return Err(format!("region {region} has edition {}", found.0));
            }
            let sides = sides.map(|side| side.and_then(|(_, book)| book.as_ref()));
            shown(found.1.as_ref(), sides).map_err(|what| format!("book {region} {what}"))?;
        }
        if self.mixes {
            return Ok(Found::Mixed);
        }
        Err("some books and editions are those from before the call and others those from after it".into())
    }
}

/// Says what a book shows that it has neither before nor after the call.
fn shown(found: Option<&Vec<u8>>, sides: [Option<&Vec<u8>>; 2]) -> Result<(), String> {
    let Some(found) = found else {
        return if sides.contains(&None) { Ok(()) } else { Err("is gone".into()) };
    };
    let long = |side: &Option<&Vec<u8>>| side.is_some_and(|side| side.len() == found.len());
    if !sides.iter().any(long) {
        let lengths = sides.map(|side| side.map(Vec::len));
        return Err(format!("has {} bytes: before and after it is {lengths:?}", found.len()));
    }
    let right = |at: &usize| sides.iter().any(|side| side.and_then(|side| side.get(*at)) == Some(&found[*at]));
    match (0..found.len()).find(|at| !right(at)) {
        None => Ok(()),
        Some(at) => {
            let bytes = sides.map(|side| side.and_then(|side| side.get(at)));
            Err(format!("shows {} at byte {at}: before and after it is {bytes:?}", found[at]))
        }
    }
}

/// How many instants were tried, and what recovery found in each.
#[derive(Default)]
pub struct Instants {
    calls: BTreeMap<&'static str, u64>,
    found: BTreeMap<(&'static str, Found), u64>,
}

impl Instants {
    pub fn count(&mut self, call: Call, found: &[Found]) {
        *self.calls.entry(name(call)).or_default() += 1;
        for found in found {
            *self.found.entry((name(call), *found)).or_default() += 1;
        }
    }

    pub fn absorb(&mut self, other: Instants) {
        other.calls.into_iter().for_each(|(call, count)| *self.calls.entry(call).or_default() += count);
        other.found.into_iter().for_each(|(which, count)| *self.found.entry(which).or_default() += count);
    }

    /// Instants of such a call, or of any, at which this was found.
    pub fn of(&self, call: Option<&str>, wanted: Found) -> u64 {
        let counted =
            self.found.iter().filter(|((by, found), _)| *found == wanted && call.is_none_or(|call| call == *by));
        counted.map(|(_, count)| count).sum()
    }

    fn row(&self, call: Option<&str>) -> String {
        let [refused, old, new, mixed] =
            [Found::Refused, Found::Old, Found::New, Found::Mixed].map(|found| self.of(call, found));
        let all = refused + old + new + mixed;
        format!("{all} instants: {refused} refused, {old} old, {new} new, {mixed} old and new bytes of a store")
    }
}

impl Display for Instants {
    fn fmt(&self, out: &mut Formatter<'_>) -> fmt::Result {
        for (call, made) in &self.calls {
            writeln!(out, "  {call:8} {made:6} calls, {}", self.row(Some(call)))?;
        }
        writeln!(out, "  in all   {:6} calls, {}", self.calls.values().sum::<u64>(), self.row(None))
    }
}

/// The calls that write to an image; the others are one.
fn name(call: Call) -> &'static str {
    match call {
        Call::Lay(_) => "lay",
        Call::Move { .. } => "move",
        Call::Open => "open",
        Call::Grow { .. } => "grow",
        Call::Store { .. } => "store",
        Call::Release { .. } => "release",
        Call::Load { .. } | Call::Size { .. } | Call::Recover => "reading",
    }
}
