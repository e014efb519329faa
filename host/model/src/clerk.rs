//! Demand 3's clerk, as request R-12 of document 02 has it: keeps the books by region and edition, from the calls and their
//! answers alone, and says what every later call must answer. Of the tables it knows nothing but the books that an image comes
//! with.

use std::collections::{BTreeMap, BTreeSet};

use crate::calls::{Limits, View, draw};
use crate::geometries::Named;
use crate::paper::{Book, Call, Geometry, LAST_EDITION, Lent, Manager, Tables, Version, apart};
use crate::random::Random;
use crate::tables::{Wanted, drawn};

const STEPS: u64 = 150;
const EARLY: u64 = 20;

/// What the clerk has noted down.
struct Clerk {
    g: Geometry,
    version: Version,
    /// K: the blocks that the image has room for.
    room: u64,
    /// The bytes of each book that is open, those of the kept-back regions too.
    books: BTreeMap<Book, Vec<u8>>,
    /// The edition that each region's book has, or its next one: of version 3, one more for each release.
    editions: BTreeMap<u32, u64>,
    /// Every book that was given.
    given: BTreeSet<Book>,
    /// Every book that was released.
    gone: BTreeSet<Book>,
}

impl Clerk {
    /// After a lay.
    fn fresh(g: Geometry, version: Version, image_bytes: usize) -> Clerk {
        Clerk::found(g, &Tables::empty(g, version), &vec![0; image_bytes])
    }

    /// The books that an image comes with. Region 1 is nobody's book.
    fn found(g: Geometry, tables: &Tables, image: &[u8]) -> Clerk {
        let mut clerk = Clerk {
            g,
            version: tables.version,
            room: g.capacity(image.len()),
            books: BTreeMap::new(),
            editions: (0..).zip(tables.editions.iter().copied()).collect(),
            given: BTreeSet::new(),
            gone: BTreeSet::new(),
        };
        for (region, pages) in (0..).zip(&tables.books).filter(|(region, _)| *region != 1) {
            if let Some(pages) = pages {
                let book = Book { region, edition: tables.editions[region as usize] as u32 };
                clerk.books.insert(book, bytes_of(g, tables, image, u64::from(region), *pages));
            }
        }
        clerk
    }

    fn pages(&self, book: Book) -> u64 {
        self.books[&book].len() as u64 / self.g.page
    }

    /// The blocks that all books need.
    fn needed(&self) -> u128 {
        self.books.keys().map(|book| self.g.need(u128::from(self.pages(*book)))).sum()
    }

    fn open_in(&self, region: u32) -> Option<Book> {
        let editions = Book { region, edition: 0 }..=Book { region, edition: u32::MAX };
        self.books.range(editions).next().map(|(book, _)| *book)
    }

    /// The books that open may give: regions that have no book, at the edition that they have come to, if it is not the last.
    fn to_give(&self) -> Vec<Book> {
        let edition = |region: u32| self.editions[&region];
        let free = |region: &u32| self.open_in(*region).is_none() && edition(*region) < LAST_EDITION;
        let regions = (16..self.g.entries as u32 - 1).filter(free);
        regions.map(|region| Book { region, edition: edition(region) as u32 }).collect()
    }

    /// Whether a call may name this book: 8, or straight after it 18.
    fn named(&self, book: Book) -> Result<(), u64> {
        let callers = book.region == 0 || book.region >= 16;
        match self.open_in(book.region).filter(|_| callers) {
            None => Err(8),
            Some(open) if open != book => Err(18),
            Some(_) => Ok(()),
        }
    }

    fn within(&self, book: Book, offset: u64, bytes: usize) -> Result<(), u64> {
        self.named(book)?;
        let beyond = u128::from(offset) + bytes as u128 > self.books[&book].len() as u128;
        if beyond { Err(9) } else { Ok(()) }
    }

    /// The value or the refusal that a call must answer. Of an open that is not refused the value is left open.
    fn says(&self, call: Call, bytes: usize) -> Result<Option<u64>, u64> {
        match call {
            Call::Lay(_) => Err(12),
            Call::Move { .. } => panic!("a move is no call of a history"),
            Call::Open if self.to_give().is_empty() => Err(11),
            Call::Open => Ok(None),
            Call::Grow { book, pages } => {
                self.named(book)?;
                let old = self.pages(book);
                let need = |pages: u128| self.g.need(pages);
                let then = self.needed() - need(u128::from(old)) + need(u128::from(old) + u128::from(pages));
                if then > u128::from(self.room) { Err(10) } else { Ok(Some(old)) }
            }
            Call::Load { book, offset } | Call::Store { book, offset } => {
                self.within(book, offset, bytes).map(|()| Some(0))
            }
            Call::Size { book } => self.named(book).map(|()| Some(self.pages(book))),
            Call::Release { book } if book.region == 0 => Err(8),
            Call::Release { book } => self.named(book).map(|()| Some(0)),
            Call::Recover => Ok(Some(0)),
        }
    }

    /// Notes an accepted call down, and says what is wrong with it, if anything is.
    fn note(&mut self, call: Call, buffer: &[u8], value: u64) -> Result<(), String> {
        match call {
            Call::Open => {
                let book = Book::opened(value);
                if !self.to_give().contains(&book) {
                    return Err(format!("gave {book:?}"));
                }
                if !self.given.insert(book) && self.version == Version::Three {
                    return Err(format!("gave {book:?} a second time"));
                }
                self.books.insert(book, Vec::new());
            }
            Call::Grow { book, pages } => {
                let grown = self.books[&book].len() + (pages * self.g.page) as usize;
                self.books.entry(book).and_modify(|bytes| bytes.resize(grown, 0));
            }
            Call::Load { book, offset } => {
                let from = offset as usize;
                if self.books[&book][from..from + buffer.len()] != *buffer {
                    return Err("other bytes than the book's".to_string());
                }
            }
            Call::Store { book, offset } => {
                let from = offset as usize;
                let bytes = self.books.get_mut(&book).expect("a book that is open");
                bytes[from..from + buffer.len()].copy_from_slice(buffer);
            }
            Call::Release { book } => {
                self.books.remove(&book);
                self.gone.insert(book);
                let raised = u64::from(self.version == Version::Three);
                self.editions.entry(book.region).and_modify(|edition| *edition += raised);
            }
            Call::Lay(_) | Call::Move { .. } | Call::Size { .. } | Call::Recover => {}
        }
        Ok(())
    }
}

/// A book's bytes as they stand in an image.
fn bytes_of(g: Geometry, tables: &Tables, image: &[u8], region: u64, pages: u64) -> Vec<u8> {
    let page_at = |page: u64| g.data_at(tables.block_of(region, page / g.pages)) + (page % g.pages * g.page) as usize;
    (0..pages).flat_map(|page| image[page_at(page)..page_at(page) + g.page as usize].to_vec()).collect()
}

/// How often what histories are to show was seen.
#[derive(Debug, Default, PartialEq, Eq)]
pub struct Seen {
    pub calls: u64,
    /// Opens that gave a region whose book had been released.
    pub given_again: u64,
    /// Calls that named a book that was gone: the region closed, or open for another.
    pub gone_closed: u64,
    pub gone_reopened: u64,
    /// Of version 2: calls that named a book that was gone, accepted since its region was opened again.
    pub taken_for_another: u64,
    /// Releases that brought a region to its last edition, and opens that were refused though not every region had a book.
    pub worn_out: u64,
    pub only_worn_out: u64,
}

struct Hall<Name> {
    manager: Manager<Name>,
    name: Name,
    g: Geometry,
    random: Random,
    image: Vec<u8>,
    index: Vec<u8>,
    clerk: Clerk,
    seen: Seen,
}

/// Makes so many histories of calls at one geometry, each in one of the versions, from a laid image or from one with books, and
/// holds every answer and every book to the clerk's.
pub fn kept<Name: Named>(manager: Manager<Name>, name: Name, histories: u64, seed: u64) -> Seen {
    let mut seen = Seen::default();
    for history in 0..histories {
        let mut hall = Hall::new(manager, name, Random::new(seed + history), seen);
        hall.history().unwrap_or_else(|fault| panic!("history {history} of seed {seed}: {fault}"));
        seen = hall.seen;
    }
    seen
}

impl<Name: Named> Hall<Name> {
    fn new(manager: Manager<Name>, name: Name, mut random: Random, seen: Seen) -> Hall<Name> {
        let g: Geometry = name.into();
        let blocks = random.between(0, g.blocks.min(16));
        let mut image = vec![0; g.data_at(blocks) + random.below(g.block_bytes()) as usize];
        random.fill(&mut image[g.block_bytes() as usize..]);
        let index = vec![0; g.index_bytes()];
        let version = random.pick(&Version::ALL);
        let clerk = Clerk::fresh(g, version, image.len());
        Hall { manager, name, g, random, image, index, clerk, seen }
    }

    fn history(&mut self) -> Result<(), String> {
        if self.random.percent(50) {
            let answer = self.answer(Call::Lay(self.clerk.version), &mut []);
            assert_eq!(answer, (0, 0), "a lay");
        } else {
            let wanted = Wanted::any(self.g, self.clerk.room, &mut self.random);
            let tables = drawn(self.g, &wanted, &mut self.random);
            tables.write(self.g, &mut self.image);
            self.clerk = Clerk::found(self.g, &tables, &self.image);
            let answer = self.answer(Call::Recover, &mut []);
            assert_eq!(answer, (0, 0), "recovery of drawn tables");
        }
        for step in 0..STEPS {
            let (call, mut buffer) = self.drawn(step < EARLY);
            self.make(call, &mut buffer)?;
            self.try_one_gone()?;
            if step % 15 == 0 {
                self.hold_books()?;
            }
        }
        self.hold_books()
    }

    /// A call that a history may have.
    fn drawn(&mut self, early: bool) -> (Call, Vec<u8>) {
        let view = View::new(self.g, &self.image);
        let limits = Limits { pages: u64::MAX, bytes: 20 * self.g.block_bytes() };
        loop {
            let (call, bytes) = draw(&view, early, &limits, &mut self.random);
            if !matches!(call, Call::Move { .. }) {
                let mut buffer = vec![0; bytes];
                self.random.fill(&mut buffer);
                return (call, buffer);
            }
        }
    }

    fn answer(&mut self, call: Call, buffer: &mut [u8]) -> (u64, u64) {
        let lent = Lent { image: &mut self.image, index: &mut self.index, buffer };
        apart((self.manager)(self.name, call, lent))
    }

    /// Makes one call, and holds its answer to what the clerk says; a refused one has changed nothing.
    fn make(&mut self, call: Call, buffer: &mut [u8]) -> Result<(), String> {
        let said = self.clerk.says(call, buffer.len());
        let before = (self.image.clone(), self.index.clone(), buffer.to_vec());
        let (refusal, value) = self.answer(call, buffer);
        let answered = if refusal == 0 { Ok(value) } else { Err(refusal) };
        let right = match said {
            Ok(None) => answered.is_ok(),
            Ok(Some(value)) => answered == Ok(value),
            Err(refusal) => answered == Err(refusal) && value == 0,
        };
        if !right {
            return Err(format!("{call:?} answered {answered:?}, where the clerk says {said:?}"));
        }
        if answered.is_err() && (&before.0, &before.1, &before.2[..]) != (&self.image, &self.index, &*buffer) {
            return Err(format!("{call:?} was refused with {refusal} and changed something"));
        }
        self.see(call, answered);
        match answered {
            Ok(value) => self.clerk.note(call, buffer, value).map_err(|fault| format!("{call:?} {fault}")),
            Err(_) => Ok(()),
        }
    }

    fn see(&mut self, call: Call, answered: Result<u64, u64>) {
        let (clerk, seen) = (&self.clerk, &mut self.seen);
        seen.calls += 1;
        match (call, answered) {
            (Call::Open, Ok(value)) => {
                let region = Book::opened(value).region;
                seen.given_again += u64::from(clerk.gone.iter().any(|book| book.region == region));
            }
            (Call::Open, Err(_)) => {
                let regions = 16..clerk.g.entries as u32 - 1;
                seen.only_worn_out += u64::from(!regions.into_iter().all(|region| clerk.open_in(region).is_some()));
            }
            (Call::Release { book }, Ok(_)) => seen.worn_out += u64::from(u64::from(book.edition) + 1 == LAST_EDITION),
            _ => {}
        }
    }

    /// Tries every call on a book that was released. In version 3 none of them is ever accepted again.
    fn try_one_gone(&mut self) -> Result<(), String> {
        let gone: Vec<Book> = self.clerk.gone.iter().copied().collect();
        if gone.is_empty() || !self.random.percent(30) {
            return Ok(());
        }
        let book = self.random.pick(&gone);
        let named = self.clerk.named(book);
        match named {
            Err(8) => self.seen.gone_closed += 1,
            Err(_) => self.seen.gone_reopened += 1,
            Ok(()) if self.clerk.version == Version::Three => return Err(format!("{book:?} is open again")),
            Ok(()) => self.seen.taken_for_another += 1,
        }
        let offset = self.random.below(3);
        self.make(Call::Size { book }, &mut [])?;
        self.make(Call::Load { book, offset }, &mut [7])?;
        self.make(Call::Store { book, offset }, &mut [7])?;
        self.make(Call::Grow { book, pages: offset }, &mut [])?;
        if named.is_err() { self.make(Call::Release { book }, &mut []) } else { Ok(()) }
    }

    /// Every book that a caller may name has the clerk's length and bytes, and the image alone gives the index back.
    fn hold_books(&mut self) -> Result<(), String> {
        let callers = |book: &Book| book.region == 0 || book.region >= 16;
        let books: Vec<Book> = self.clerk.books.keys().copied().filter(callers).collect();
        for book in books {
            self.make(Call::Size { book }, &mut [])?;
            let mut buffer = vec![0; self.clerk.books[&book].len()];
            self.make(Call::Load { book, offset: 0 }, &mut buffer)?;
        }
        let index = self.index.clone();
        self.random.fill(&mut self.index);
        self.make(Call::Recover, &mut [])?;
        if self.index == index { Ok(()) } else { Err("recovery gave another index".to_string()) }
    }
}
