//! Geometries: how they are named to a manager, and some drawn at random, allowed and not.

use std::fmt::Debug;

use crate::paper::{Geometry, WIDEST};
use crate::random::Random;

/// How a geometry is named: by a host's number, or by its own four.
pub trait Named: Copy + Debug + Into<Geometry> {
    /// A name, like this one, of a geometry that is not allowed.
    fn refused(self, random: &mut Random) -> Self;
}

impl Named for u32 {
    fn refused(self, random: &mut Random) -> u32 {
        random.pick(&[2, 3, 256, 65_536, u32::MAX])
    }
}

/// Numbers that are out of every bound. Sums and products of some are 0 in 64 bits.
const NEVER: [u64; 6] = [0, 1 << 32, 1 << 61, 1 << 62, 1 << 63, u64::MAX];

impl Named for Geometry {
    /// One number is out of its bounds, or all are, or the reserve is too small by little.
    fn refused(self, random: &mut Random) -> Geometry {
        let never = random.pick(&NEVER);
        let mut or = |beyond: u64| if random.percent(50) { beyond } else { never };
        let [page, pages, blocks, entries, few] = [65_537, 129, 65_536, 65_537, 17].map(&mut or);
        match random.below(7) {
            0 => Geometry { page, ..self },
            1 => Geometry { pages, ..self },
            2 => Geometry { blocks, ..self },
            3 => Geometry { entries, ..self },
            4 => Geometry { entries: few, ..self },
            5 => Geometry { page, pages, blocks, entries },
            _ => Geometry { page: (self.front_bytes() as u64 - 1) / self.pages, ..self },
        }
    }
}

/// The edges that a draw would seldom meet: the smallest reserve in pages of two bytes and in one page, the longest page
/// alone, and each ceiling with the other numbers small.
pub const EDGES: [Geometry; 6] = [
    Geometry { page: 2, pages: 82, blocks: 1, entries: 18 },
    Geometry { page: 164, pages: 1, blocks: 1, entries: 18 },
    Geometry { page: 65_536, pages: 1, blocks: 20, entries: 18 },
    Geometry { blocks: 1, entries: 18, ..WIDEST },
    Geometry { page: 2_050, pages: 128, blocks: 65_535, entries: 18 },
    Geometry { page: 4_097, pages: 128, blocks: 1, entries: 65_536 },
];

/// An allowed geometry with small tables.
pub fn drawn(random: &mut Random) -> Geometry {
    let entries = match random.below(8) {
        0 | 1 => 18,
        2 => 19,
        3 => random.between(18, 400),
        _ => random.between(18, 48),
    };
    let blocks = match random.below(8) {
        0 | 1 => 1,
        2 => 2,
        3 => random.between(1, 400),
        _ => random.between(1, 24),
    };
    fitted(blocks, entries, random)
}

/// One that has room for such tables: just enough, or a little more.
pub fn fitted(blocks: u64, entries: u64, random: &mut Random) -> Geometry {
    let front = 16 + 4 * blocks + 8 * entries;
    let least = front.div_ceil(WIDEST.page);
    let pages = match random.below(4) {
        0 => least,
        1 => WIDEST.pages,
        _ => random.between(least, WIDEST.pages),
    };
    let more = random.between(0, 40);
    let page = (front.div_ceil(pages) + random.pick(&[0, 0, 1, more])).min(WIDEST.page);
    Geometry { page, pages, blocks, entries }
}
