//! Calls drawn at random, mostly sensible for the image at hand, and now and then extreme.

use crate::paper::{Book, Call, Geometry, KEPT_BACK, Version, edition_of, number, pages_of};
use crate::random::Random;

/// What an accepted call may cost: pages to zero, and bytes to copy.
pub struct Limits {
    pub pages: u64,
    pub bytes: u64,
}

const EXTREMES: [u64; 8] = [u64::MAX, u64::MAX - 1, u64::MAX - 63, 1 << 63, (1 << 63) - 1, 1 << 32, 65_536, 65_535];

/// An image as those see it who draw calls and damage: any bytes at all, which may be too few to hold tables.
#[derive(Clone, Copy)]
pub struct View<'a> {
    pub g: Geometry,
    pub image: &'a [u8],
    /// A book that calls and damage are about more often than others.
    pub focus: Option<u64>,
}

impl<'a> View<'a> {
    pub fn new(g: Geometry, image: &'a [u8]) -> View<'a> {
        View { g, image, focus: None }
    }

    fn has_tables(&self) -> bool {
        self.image.len() >= self.g.front_bytes()
    }

    pub fn taken(&self) -> u64 {
        if self.has_tables() { number(&self.image[8..10]) } else { 0 }
    }

    pub fn counter(&self) -> u64 {
        if self.has_tables() { number(&self.image[10..12]) } else { 0 }
    }

    /// The version that the header tells, if there are tables and it tells one.
    pub fn version(&self) -> Option<Version> {
        self.has_tables().then(|| Version::told(self.image)).flatten()
    }

    /// The edition that stands in the table, whatever it is.
    pub fn edition(&self, region: u64) -> u64 {
        let there = self.has_tables() && region < self.g.entries;
        if there { edition_of(self.g, self.image, region) } else { 0 }
    }

    /// The page count that stands in the table, whatever it is; 0 for a book that is not open.
    pub fn pages(&self, region: u64) -> u64 {
        let there = self.has_tables() && region < self.g.entries;
        if there { pages_of(self.g, self.image, region).unwrap_or(0) } else { 0 }
    }

    pub fn need(&self, region: u64) -> u64 {
        self.g.need(u128::from(self.pages(region))) as u64
    }

    /// Whether the regions kept back have pages.
    pub fn has_kept_back(&self) -> bool {
        KEPT_BACK.into_iter().any(|region| self.pages(region as u64) > 0)
    }

    /// A book: the one in focus, or one with pages, if that is found soon.
    pub fn some_book(&self, random: &mut Random) -> u64 {
        if let Some(focus) = self.focus.filter(|_| random.percent(60)) {
            return focus;
        }
        let last = self.counter().clamp(17, self.g.entries - 1) - 1;
        let tries: Vec<u64> = (0..6).map(|_| random.between(16, last)).collect();
        let with_pages = tries.iter().copied().find(|region| self.pages(*region) > 0);
        with_pages.filter(|_| random.percent(75)).unwrap_or(tries[0])
    }

    /// A region that is not open, if one is found soon.
    pub fn some_closed(&self, random: &mut Random) -> u64 {
        let tries: Vec<u64> = (0..6).map(|_| random.between(16, self.g.entries - 2)).collect();
        let closed = |region: &u64| !self.has_tables() || pages_of(self.g, self.image, *region).is_none();
        tries.iter().copied().find(closed).unwrap_or(tries[0])
    }

    /// Pages that would use up all that is left for this book.
    fn room(&self, region: u64) -> u64 {
        let capacity = (self.image.len() as u64 / self.g.block_bytes()).saturating_sub(1).min(self.g.blocks);
        let blocks = self.need(1).min(self.g.blocks) + capacity.saturating_sub(self.taken());
        let unfilled = self.need(region).wrapping_mul(self.g.pages).wrapping_sub(self.pages(region));
        blocks * self.g.pages + unfilled % self.g.pages
    }

    /// The book that a call names: by the edition that stands in the table, mostly.
    fn book(&self, random: &mut Random) -> Book {
        let region = self.region(random);
        let right = self.edition(u64::from(region)) as u32;
        let edition = match random.below(12) {
            0 => right.wrapping_sub(1),
            1 => right.wrapping_add(1),
            2 => {
                let drawn = random.draw() as u32;
                random.pick(&[0, 1, u32::MAX - 1, u32::MAX, drawn])
            }
            _ => right,
        };
        Book { region, edition }
    }

    fn region(&self, random: &mut Random) -> u32 {
        let entries = self.g.entries as u32;
        match random.below(20) {
            0 | 1 => 0,
            2 => random.between(1, 15) as u32,
            3 => self.some_closed(random) as u32,
            4 => random.pick(&[entries - 2, entries - 1, entries, 65_535]),
            5 => 65_536 + self.some_book(random) as u32,
            6 => {
                if random.percent(50) {
                    u32::MAX
                } else {
                    random.draw() as u32
                }
            }
            _ => self.some_book(random) as u32,
        }
    }

    fn growth(&self, region: u64, limits: &Limits, random: &mut Random) -> u64 {
        let pages = self.pages(region);
        let drawn = match random.below(12) {
            0 => 0,
            1 => random.pick(&EXTREMES),
            2 => random.pick(&[u64::MAX - pages, (u64::MAX - pages).wrapping_add(1), u64::MAX - self.g.pages]),
            3 => self.room(region),
            4 => self.room(region) + 1,
            5 => self.g.pages - pages % self.g.pages,
            6 => self.g.pages - pages % self.g.pages + 1,
            7 => random.between(1, 2 * self.g.pages),
            _ => random.between(1, self.g.pages),
        };
        // What would be granted and cost too much is asked for in little.
        if drawn > limits.pages && drawn <= self.room(region) { random.between(0, limits.pages) } else { drawn }
    }

    /// Pages of an older memory: around what the image has room for, mostly.
    pub fn older(&self, random: &mut Random) -> u64 {
        let room = (self.image.len() as u64 / self.g.block_bytes()).saturating_sub(1).min(self.g.blocks) * self.g.pages;
        match random.below(12) {
            0 => 0,
            1 => random.pick(&EXTREMES),
            2 => random.pick(&[self.g.most_book_pages() + 1, self.g.most_book_pages() + self.g.pages]),
            3 => room,
            4 => room + 1,
            5 => room.saturating_sub(random.below(self.g.pages)),
            6 => random.pick(&[1, self.g.pages, self.g.pages + 1]),
            _ => random.between(0, room),
        }
    }

    fn stretch(&self, region: u64, limits: &Limits, random: &mut Random) -> (u64, usize) {
        let end = self.pages(region).saturating_mul(self.g.page);
        let block = self.g.block_bytes();
        let border = if end == 0 { 0 } else { random.below(end) / block * block };
        let offset = match random.below(10) {
            0 => 0,
            1 => random.pick(&EXTREMES),
            2 => end.saturating_sub(random.below(3)),
            3 => end.saturating_add(random.below(3)),
            4 | 5 => border.saturating_sub(random.below(20)),
            6 => border,
            _ => random.below(end.saturating_add(1).max(1)),
        };
        let left = end.saturating_sub(offset);
        let bytes = match random.below(10) {
            0 => 0,
            1 => left,
            2 => left.saturating_add(1),
            3 => block - offset % block,
            4 => block - offset % block + 1,
            5 => random.between(1, 2 * block),
            _ => random.between(1, 40),
        };
        let inside = if random.percent(70) && left > 0 { left } else { u64::MAX };
        (offset, bytes.min(inside).min(limits.bytes) as usize)
    }
}

/// A call, and the bytes of the buffer lent to it. Early in a history most calls open books and make them grow.
pub fn draw(view: &View<'_>, early: bool, limits: &Limits, random: &mut Random) -> (Call, usize) {
    let book = view.book(random);
    let (offset, bytes) = view.stretch(u64::from(book.region), limits, random);
    let growth = view.growth(u64::from(book.region), limits, random);
    match random.below(if early { 200 } else { 100 }) {
        0..14 | 100..140 => (Call::Open, 0),
        14..34 | 140..200 => (Call::Grow { book, pages: growth }, 0),
        34..56 => (Call::Load { book, offset }, bytes),
        56..76 => (Call::Store { book, offset }, bytes),
        76..84 => (Call::Size { book }, 0),
        84..91 => (Call::Release { book }, 0),
        91..97 => (Call::Recover, 0),
        97 => (Call::Move { pages: view.older(random) }, 0),
        _ => (Call::Lay(random.pick(&Version::ALL)), 0),
    }
}
