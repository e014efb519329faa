//! Histories in which every call is stopped after each of its writes, and the image taken there is judged.

use crate::calls::{Limits, View, draw};
use crate::cut::{Cut, Found, Instants};
use crate::damage;
use crate::geometries::Named;
use crate::paper::{self, Call, Geometry, Lent, Manager, Tables, Version, put};
use crate::random::Random;
use crate::tables::{Wanted, drawn};
use crate::watched::Watched;

const STEPS: u64 = 40;
const EARLY: u64 = 12;

/// What makes a call on a copy of the image lent: answers with the image after each of its writes, in their order.
pub type Steps<'a> = &'a mut dyn FnMut(Call, Lent<'_>) -> Vec<Vec<u8>>;

struct Desk<'a> {
    g: Geometry,
    steps: Steps<'a>,
    random: Random,
    image: Vec<u8>,
    index: Vec<u8>,
    instants: Instants,
}

/// So many histories from this seed on, on images of up to so many data blocks, until an image shows what it must not.
pub fn histories(g: Geometry, steps: Steps<'_>, blocks: u64, histories: u64, seed: u64) -> Result<Instants, String> {
    let mut instants = Instants::default();
    for history in 0..histories {
        let mut random = Random::new(seed + history);
        let bytes = (random.between(1, blocks) + 1) * g.block_bytes() + random.pick(&[0, 0, 1, g.page]);
        let image = vec![0; bytes as usize];
        let index = vec![0; g.index_bytes()];
        let mut desk = Desk { g, steps: &mut *steps, random, image, index, instants: Instants::default() };
        desk.history().map_err(|fault| format!("history {history} of seed {seed}: {fault}"))?;
        instants.absorb(desk.instants);
    }
    Ok(instants)
}

impl Desk<'_> {
    fn history(&mut self) -> Result<(), String> {
        let g = self.g;
        // Whatever was there before shows as bytes that are not zero.
        self.random.fill(&mut self.image);
        match self.random.below(10) {
            0..4 => {
                self.image[..16].fill(0);
                let version = self.random.pick(&Version::ALL);
                self.make(Call::Lay(version), 0)?;
            }
            4 | 5 => {
                if self.random.percent(70) {
                    self.nearly_an_image();
                }
                let pages = View::new(g, &self.image).older(&mut self.random);
                self.make(Call::Move { pages }, 0)?;
            }
            _ => {
                let wanted = Wanted::any(g, g.capacity(self.image.len()), &mut self.random);
                drawn(g, &wanted, &mut self.random).write(g, &mut self.image);
                self.image[g.unused()].fill(0);
                self.make(Call::Recover, 0)?;
            }
        }
        for step in 0..STEPS {
            let limits = Limits { pages: u64::MAX, bytes: 4 * g.block_bytes() };
            let (call, buffer) = draw(&View::new(g, &self.image), step < EARLY, &limits, &mut self.random);
            self.make(call, buffer)?;
        }
        Ok(())
    }

    /// An older memory that begins as an image does, but for some damage that recovery refuses it for.
    fn nearly_an_image(&mut self) {
        let g = self.g;
        let wanted = Wanted::any(g, g.capacity(self.image.len()), &mut self.random);
        drawn(g, &wanted, &mut self.random).write(g, &mut self.image);
        self.image[g.unused()].fill(0);
        let mut index = vec![0; g.index_bytes()];
        while paper::accepted(g, &self.image).is_ok() {
            damage::anything(g, None, &mut self.image, &mut index, &mut self.random);
        }
    }

    /// Makes one call on both sides, and judges each instant of it.
    fn make(&mut self, call: Call, buffer: usize) -> Result<(), String> {
        // An image of today is no older memory: a move overwrites its books as it begins.
        if matches!(call, Call::Move { .. }) && paper::accepted(self.g, &self.image).is_ok() {
            return Ok(());
        }
        let mut buffer = vec![0; buffer];
        self.random.fill(&mut buffer);
        let before = self.image.clone();
        let (mut copy, mut index, mut other) = (before.clone(), self.index.clone(), buffer.clone());
        let seen = (self.steps)(call, Lent { image: &mut copy, index: &mut index, buffer: &mut other });
        let lent = Lent { image: &mut self.image, index: &mut self.index, buffer: &mut buffer };
        let outcome = paper::call(self.g, call, lent);
        if seen.last().is_some_and(|last| *last != self.image) {
            return Err(format!("{call:?}: the last write does not leave what the call leaves"));
        }
        let cut = Cut::new(self.g, call, &before, &self.image);
        let mut found: Vec<Found> = Vec::new();
        let mut last: &[u8] = &before;
        for (nth, image) in seen.iter().enumerate() {
            // A write of what stands there already shows what was shown.
            let again = found.last().filter(|_| last == image.as_slice());
            let verdict = again.map_or_else(|| cut.judge(image), |found| Ok(*found));
            let all = seen.len();
            found.push(verdict.map_err(|fault| format!("{call:?}, cut after write {} of {all}: {fault}", nth + 1))?);
            last = image;
        }
        if outcome.is_err() && last != before {
            return Err(format!("{call:?}: refused, and wrote"));
        }
        self.instants.count(call, &found);
        Ok(())
    }
}

/// Steps through the calls of a manager, as its compiled code makes them. Its recovery is held to the model's at each instant.
pub fn compiled<Name: Named>(
    manager: Manager<Name>,
    name: Name,
    blocks: u64,
    count: u64,
    seed: u64,
) -> Result<Instants, String> {
    let g = name.into();
    let most = ((blocks + 2) * g.block_bytes() + g.page) as usize;
    let mut watched = Watched::new(most, 16_384);
    let mut index = vec![0; g.index_bytes()];
    let mut steps = |call: Call, lent: Lent<'_>| {
        let Lent { image, index: lent_index, buffer } = lent;
        let (_, seen) = watched.watch(image, |image| manager(name, call, Lent { image, index: lent_index, buffer }));
        let seen: Vec<Vec<u8>> = seen.into_iter().map(<[u8]>::to_vec).collect();
        for image in &seen {
            let mut image = image.clone();
            let model = paper::accepted(g, &image).map_or_else(|why| why.number(), |_| 0);
            let lent = Lent { image: &mut image, index: &mut index, buffer: &mut [] };
            let (refusal, _) = paper::apart(manager(name, Call::Recover, lent));
            assert_eq!(refusal, model, "recovery of {call:?} cut short");
        }
        seen
    };
    histories(g, &mut steps, blocks, count, seed)
}

/// In which order a growth writes.
#[derive(Clone, Copy, Debug, PartialEq)]
pub enum Order {
    /// Zeros in the new pages, then the blocks, then the page count.
    ZerosFirst,
    /// As it was once: the blocks with the page count at each, and the zeros last.
    TablesFirst,
}

/// Steps through the growths of the model, in an order of its own: so it is seen that a wrong order is noticed.
pub fn played(g: Geometry, order: Order, blocks: u64, count: u64, seed: u64) -> Result<Instants, String> {
    let mut steps = |call: Call, lent: Lent<'_>| {
        let Lent { image, index, buffer } = lent;
        let before = image.to_vec();
        let made = paper::call(g, call, Lent { image: &mut *image, index, buffer });
        match call {
            Call::Grow { book, .. } if made.is_ok() => {
                after_each(before.clone(), growth(g, order, book.region, &before, image))
            }
            _ => Vec::new(),
        }
    };
    histories(g, &mut steps, blocks, count, seed)
}

/// Bytes, and where they are written.
type Write = (usize, Vec<u8>);

fn after_each(mut image: Vec<u8>, writes: Vec<Write>) -> Vec<Vec<u8>> {
    let made = |(at, bytes): Write| {
        image[at..at + bytes.len()].copy_from_slice(&bytes);
        image.clone()
    };
    writes.into_iter().map(made).collect()
}

fn written(at: usize, bytes: usize, value: u64) -> Write {
    let mut number = vec![0; bytes];
    put(&mut number, value);
    (at, number)
}

/// The writes of an accepted growth, from the images before and after it.
fn growth(g: Geometry, order: Order, region: u32, before: &[u8], after: &[u8]) -> Vec<Write> {
    let region = u64::from(region);
    let [old, new] = [before, after].map(|image| Tables::read(g, image));
    let [from, to] = [&old, &new].map(|tables| tables.books[region as usize].expect("an open book"));
    let block_at = |position| new.blocks.iter().position(|entry| *entry == (region, position)).expect("a block") as u64;
    let pages_at = |region, pages| {
        let at = g.pages_at(old.version, region);
        written(at.start, at.len(), pages)
    };
    let zeros = (from..to).map(|page| {
        let at = g.data_at(block_at(page / g.pages)) + (page % g.pages * g.page) as usize;
        (at, vec![0; g.page as usize])
    });
    let mut spare = old.books[1].expect("region 1 is open");
    let granted = (old.need_of(g, region)..new.need_of(g, region)).flat_map(|position| {
        let position = position as u64;
        let block = block_at(position);
        let drawn = if block < old.taken {
            spare -= g.pages;
            pages_at(1, spare)
        } else {
            written(8, 2, block + 1)
        };
        let entry = g.entry_at(block);
        let filled = (order == Order::TablesFirst).then(|| pages_at(region, (position + 1) * g.pages));
        [drawn, written(entry, 2, region), written(entry + 2, 2, position)].into_iter().chain(filled)
    });
    let tables = granted.chain([pages_at(region, to)]);
    match order {
        Order::ZerosFirst => zeros.chain(tables).collect(),
        Order::TablesFirst => tables.chain(zeros).collect(),
    }
}
