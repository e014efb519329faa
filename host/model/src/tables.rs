//! Well-formed tables drawn at random: books of all sizes, those kept back among them, their blocks in any order; in version 3,
//! with editions at every edge.

use crate::paper::{Geometry, KEPT_BACK, LAST_EDITION, Tables, Version};
use crate::random::Random;

/// What tables are to be like.
pub struct Wanted {
    pub version: Version,
    /// Blocks taken.
    pub taken: u64,
    /// Regions given out so far, from 16 up.
    pub opened: u64,
    /// How many in a hundred of those are not open again.
    pub released: u64,
    /// How many in a hundred of these have come to their last edition, in version 3.
    pub worn_out: u64,
    /// The most blocks that a book is given at a time.
    pub share: u64,
    /// How many in a hundred times that is a book kept back.
    pub kept_share: u64,
    /// The first of those and the last.
    pub kept_back: (u64, u64),
}

impl Wanted {
    /// Tables of any kind for an image with room for so many blocks.
    pub fn any(g: Geometry, capacity: u64, random: &mut Random) -> Wanted {
        let most = g.entries - 1 - 16;
        let taken = if random.percent(20) { capacity } else { random.between(0, capacity) };
        let few = (2 * taken + 3).min(most);
        Wanted {
            version: random.pick(&Version::ALL),
            taken,
            opened: if random.percent(30) { most } else { random.between(0, few) },
            released: if random.percent(30) { 0 } else { random.between(0, 60) },
            worn_out: random.pick(&[0, 20, 20, 100]),
            share: if random.percent(50) { 1 + taken / 4 } else { 3 },
            kept_share: random.pick(&[0, 0, 10, 30, 100]),
            kept_back: random.pick(&[(2, 15), (2, 2), (15, 15)]),
        }
    }
}

pub fn drawn(g: Geometry, wanted: &Wanted, random: &mut Random) -> Tables {
    let mut tables = Tables::empty(g, wanted.version);
    tables.taken = wanted.taken;
    tables.counter = 16 + wanted.opened;
    for region in 16..tables.counter {
        tables.books[region as usize] = (!random.percent(wanted.released)).then_some(0);
    }
    if wanted.version == Version::Three {
        draw_editions(&mut tables, wanted, random);
    }
    let mut held = shares(&tables, wanted, random);
    let mut blocks: Vec<u64> = (0..wanted.taken).collect();
    random.shuffle(&mut blocks);
    for (region, held) in held.iter_mut().enumerate() {
        for position in 0..*held {
            let block = blocks.pop().expect("the shares sum to the blocks taken");
            tables.blocks[block as usize] = (region as u64, position);
        }
        if *held > 0 {
            let unfilled = if region == 1 || random.percent(30) { 0 } else { random.below(g.pages) };
            tables.books[region] = Some(*held * g.pages - unfilled);
        }
    }
    tables
}

/// The editions of the regions that were given out: an open one is below its last.
fn draw_editions(tables: &mut Tables, wanted: &Wanted, random: &mut Random) {
    for region in 16..tables.counter as usize {
        let worn_out = tables.books[region].is_none() && random.percent(wanted.worn_out);
        let drawn = random.below(LAST_EDITION);
        let below = random.pick(&[0, 0, 1, LAST_EDITION - 1, drawn]);
        tables.editions[region] = if worn_out { LAST_EDITION } else { below };
    }
}

/// How many blocks each region holds: they sum to the blocks taken.
fn shares(tables: &Tables, wanted: &Wanted, random: &mut Random) -> Vec<u64> {
    let holds = |region: &u64| !KEPT_BACK.contains(&(*region as usize)) && tables.books[*region as usize].is_some();
    let holders: Vec<u64> = (0..tables.books.len() as u64).filter(holds).collect();
    let mut held = vec![0; tables.books.len()];
    let mut left = tables.taken;
    while left > 0 {
        let (first, last) = wanted.kept_back;
        let region =
            if random.percent(wanted.kept_share) { random.between(first, last) } else { random.pick(&holders) };
        let share = random.between(1, wanted.share.min(left));
        held[region as usize] += share;
        left -= share;
    }
    held
}
