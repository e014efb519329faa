//! The calls as document 01 tells them, and as the requests of document 02 amend them.

use std::collections::BTreeMap;
use std::ops::Range;

/// Page bytes S, pages in a block P, blocks B, region entries E.
#[derive(Clone, Copy, Debug, PartialEq)]
pub struct Geometry {
    pub page: u64,
    pub pages: u64,
    pub blocks: u64,
    pub entries: u64,
}

pub const BENCH: Geometry = Geometry { page: 64, pages: 8, blocks: 16, entries: 24 };
pub const HOUSE: Geometry = Geometry { page: 65_536, pages: 128, blocks: 32_768, entries: 32_768 };

/// Each number at its ceiling.
pub const WIDEST: Geometry = Geometry { page: 65_536, pages: 128, blocks: 65_535, entries: 65_536 };

/// The geometry that a host names by this number. One that names none gives a geometry that is not allowed.
impl From<u32> for Geometry {
    fn from(number: u32) -> Geometry {
        match number {
            0 => BENCH,
            1 => HOUSE,
            _ => Geometry { page: 0, pages: 0, blocks: 0, entries: 0 },
        }
    }
}

impl Geometry {
    /// Whether it is allowed, with the ceilings of blocks and region entries as request R-7 of document 02 has them. The sum
    /// and the product are made of numbers within their bounds, so that neither wraps.
    pub fn allowed(self) -> bool {
        (1..=65_536).contains(&self.page)
            && (1..=128).contains(&self.pages)
            && (1..=65_535).contains(&self.blocks)
            && (18..=65_536).contains(&self.entries)
            && 16 + 4 * self.blocks + 8 * self.entries <= self.block_bytes()
    }

    pub fn block_bytes(self) -> u64 {
        self.page * self.pages
    }

    /// Header and both tables.
    pub fn front_bytes(self) -> usize {
        (16 + 4 * self.blocks + 8 * self.entries) as usize
    }

    /// The rest of the reserve, between the tables and its end.
    pub fn unused(self) -> Range<usize> {
        self.front_bytes()..self.block_bytes() as usize
    }

    pub fn index_bytes(self) -> usize {
        (2 * (self.entries + 1 + self.blocks)) as usize
    }

    /// Where block b's entry stands.
    pub fn entry_at(self, block: u64) -> usize {
        (16 + 4 * block) as usize
    }

    /// Where the region's entry stands.
    pub fn region_at(self, region: u64) -> usize {
        (16 + 4 * self.blocks + 8 * region) as usize
    }

    /// Where its page count stands: in all eight bytes of the entry, or in the low four that version 3 leaves for it.
    pub fn pages_at(self, version: Version, region: u64) -> Range<usize> {
        let at = self.region_at(region);
        match version {
            Version::Two => at..at + 8,
            Version::Three => at..at + 4,
        }
    }

    /// Where version 3 has the edition: in the high four.
    pub fn edition_at(self, region: u64) -> Range<usize> {
        let at = self.region_at(region);
        at + 4..at + 8
    }

    pub fn data_at(self, block: u64) -> usize {
        ((block + 1) * self.block_bytes()) as usize
    }

    pub fn need(self, pages: u128) -> u128 {
        pages.div_ceil(u128::from(self.pages))
    }

    /// K: the data blocks that an image of so many bytes, a reserve at least, has room for.
    pub fn capacity(self, image_bytes: usize) -> u64 {
        self.blocks.min(image_bytes as u64 / self.block_bytes() - 1)
    }

    pub fn most_book_pages(self) -> u64 {
        self.blocks * self.pages
    }
}

/// The versions that an image can have: request R-12 of document 02 adds the third.
#[derive(Clone, Copy, Debug, PartialEq, Eq)]
pub enum Version {
    Two,
    Three,
}

impl Version {
    pub const ALL: [Version; 2] = [Version::Two, Version::Three];

    pub fn number(self) -> u64 {
        match self {
            Version::Two => 2,
            Version::Three => 3,
        }
    }

    /// The version that a header tells, if it tells one of these.
    pub fn told(image: &[u8]) -> Option<Version> {
        let told = number(&image[4..8]);
        Version::ALL.into_iter().find(|version| version.number() == told)
    }

    /// What stands for "not open" in the place of a page count: all ones.
    pub fn not_open(self) -> u64 {
        match self {
            Version::Two => u64::MAX,
            Version::Three => u64::from(u32::MAX),
        }
    }
}

/// At this edition a region is never opened again.
pub const LAST_EDITION: u64 = 4_294_967_295;

/// How calls name a book, and open gives it.
#[derive(Clone, Copy, Debug, PartialEq, Eq, PartialOrd, Ord)]
pub struct Book {
    pub region: u32,
    pub edition: u32,
}

impl Book {
    /// The book that open's value tells: region + 65,536 × edition.
    pub fn opened(value: u64) -> Book {
        Book { region: (value % 65_536) as u32, edition: (value / 65_536) as u32 }
    }

    /// Open's value for it.
    pub fn value(self) -> u64 {
        u64::from(self.region) + 65_536 * u64::from(self.edition)
    }
}

/// A call, with the numbers it is given. The memory that it works on is lent beside it.
#[derive(Clone, Copy, Debug, PartialEq)]
pub enum Call {
    Lay(Version),
    Move { pages: u64 },
    Open,
    Grow { book: Book, pages: u64 },
    Load { book: Book, offset: u64 },
    Store { book: Book, offset: u64 },
    Size { book: Book },
    Release { book: Book },
    Recover,
}

/// What is lent to a call. A load fills the buffer and a store reads it.
pub struct Lent<'a> {
    pub image: &'a mut [u8],
    pub index: &'a mut [u8],
    pub buffer: &'a mut [u8],
}

/// A book manager: a geometry as it is named to this one, a call, what is lent; answers refusal × 2^56 + value.
pub type Manager<Name> = fn(Name, Call, Lent<'_>) -> u64;

macro_rules! reasons {
    ($($name:ident: $number:literal,)*) => {
        /// Every condition under which the desk says no.
        #[derive(Clone, Copy, Debug, PartialEq, Eq, PartialOrd, Ord)]
        pub enum Why { $($name,)* }

        impl Why {
            pub const ALL: &[Why] = &[$(Why::$name,)*];

            /// The refusal's number.
            pub fn number(self) -> u64 {
                match self { $(Why::$name => $number,)* }
            }
        }
    };
}

// A rule's reasons begin with its letter. Those of 16 tell where the first byte stands that is not zero: at either end or
// between. Rule b holds for the books kept back as for any: they have a reason of their own so that it is seen to come. An
// edition is wrong in three ways: it is of a book that was released, or of one that is still to come, or is not 0 in version 2.
reasons! {
    Geometry: 1,
    IndexLength: 2,
    ShortImage: 3,
    Marker: 4,
    Version: 4,
    Spare: 4,
    TakenAboveBlocks: 4,
    CounterOutside: 4,
    TailMissing: 5,
    AFixedNotOpen: 6,
    AOpenFromCounter: 6,
    AOpenAtLastEdition: 6,
    AFixedEdition: 6,
    AEditionFromCounter: 6,
    BKeptBackTooManyPages: 6,
    BTooManyPages: 6,
    BReclaimedPart: 6,
    CSum: 6,
    DRegionNotOpen: 6,
    DPositionBeyondNeed: 6,
    DSamePair: 6,
    EUntaken: 6,
    BookTooManyPages: 6,
    IndexDiffers: 7,
    SlotBeyondBlocks: 7,
    SlotNotTaken: 7,
    SlotOfAnother: 7,
    RegionKeptBack: 8,
    RegionNone: 8,
    RegionNotOpen: 8,
    ReleaseAnonymous: 8,
    BeyondBook: 9,
    NoBlocksLeft: 10,
    NoRegionLeft: 11,
    OnlyLastEditions: 11,
    NotBlank: 12,
    MoveShortImage: 13,
    MoveAboveBlocks: 13,
    UnusedFirst: 16,
    UnusedLast: 16,
    UnusedBetween: 16,
    EditionGone: 18,
    EditionToCome: 18,
    EditionOfVersion2: 18,
}

/// What an accepted call answers, and the bytes past the tables that it read or wrote.
pub struct Done {
    pub value: u64,
    pub touched: Vec<Range<usize>>,
}

pub type Outcome = Result<Done, Why>;

/// The bits of a host's answer that hold the value. Those above hold the refusal.
pub const VALUE_BITS: u32 = 56;

/// The one number that a host is answered.
pub fn answered(outcome: &Outcome) -> u64 {
    match outcome {
        Ok(done) => done.value,
        Err(why) => why.number() << VALUE_BITS,
    }
}

/// Refusal and value of such a number.
pub fn apart(answer: u64) -> (u64, u64) {
    (answer >> VALUE_BITS, answer & ((1 << VALUE_BITS) - 1))
}

fn done(value: u64) -> Outcome {
    Ok(Done { value, touched: Vec::new() })
}

fn refuse(condition: bool, why: Why) -> Result<(), Why> {
    if condition { Err(why) } else { Ok(()) }
}

/// The little-endian number in these bytes.
pub fn number(bytes: &[u8]) -> u64 {
    bytes.iter().rev().fold(0, |so_far, byte| so_far * 256 + u64::from(*byte))
}

/// Writes a number little-endian over all of these bytes.
pub fn put(bytes: &mut [u8], mut value: u64) {
    for byte in bytes {
        *byte = (value % 256) as u8;
        value /= 256;
    }
}

pub const UNUSED_SLOT: u64 = 65_535;

/// The regions that are kept back. They may hold pages, which came with the image.
pub const KEPT_BACK: Range<usize> = 2..16;

/// The version, the counts and both tables of an image. A book that is not open has no page count. In version 2 every edition
/// is 0.
#[derive(Clone, Debug, PartialEq)]
pub struct Tables {
    pub version: Version,
    pub taken: u64,
    pub counter: u64,
    pub blocks: Vec<(u64, u64)>,
    pub books: Vec<Option<u64>>,
    pub editions: Vec<u64>,
}

impl Tables {
    pub fn empty(g: Geometry, version: Version) -> Tables {
        Tables {
            version,
            taken: 0,
            counter: 16,
            blocks: vec![(g.entries - 1, 0); g.blocks as usize],
            books: (0..g.entries).map(|region| (region < 16).then_some(0)).collect(),
            editions: vec![0; g.entries as usize],
        }
    }

    /// A header that tells no version is read as one of version 2.
    pub fn read(g: Geometry, image: &[u8]) -> Tables {
        let entry = |block| {
            let at = g.entry_at(block);
            (number(&image[at..at + 2]), number(&image[at + 2..at + 4]))
        };
        Tables {
            version: version_of(image),
            taken: number(&image[8..10]),
            counter: number(&image[10..12]),
            blocks: (0..g.blocks).map(entry).collect(),
            books: (0..g.entries).map(|region| pages_of(g, image, region)).collect(),
            editions: (0..g.entries).map(|region| edition_of(g, image, region)).collect(),
        }
    }

    /// Writes the whole header and both tables.
    pub fn write(&self, g: Geometry, image: &mut [u8]) {
        put(&mut image[0..4], 0);
        put(&mut image[4..8], self.version.number());
        put(&mut image[8..10], self.taken);
        put(&mut image[10..12], self.counter);
        put(&mut image[12..16], 0);
        for (block, (region, position)) in (0..).zip(&self.blocks) {
            let at = g.entry_at(block);
            put(&mut image[at..at + 2], *region);
            put(&mut image[at + 2..at + 4], *position);
        }
        let not_open = self.version.not_open();
        for (region, pages) in (0..).zip(&self.books) {
            assert!(pages.is_none_or(|pages| pages < not_open), "a page count that an entry has no room for");
            put(&mut image[g.pages_at(self.version, region)], pages.unwrap_or(not_open));
        }
        if self.version == Version::Three {
            (0..).zip(&self.editions).for_each(|(region, edition)| put(&mut image[g.edition_at(region)], *edition));
        }
    }

    pub fn need_of(&self, g: Geometry, region: u64) -> u128 {
        self.books[region as usize].map_or(0, |pages| g.need(u128::from(pages)))
    }

    /// Refusal 6: rules a to e, with rule a as request R-12 of document 02 has it and rule b as R-4 does.
    pub fn well_formed(&self, g: Geometry) -> Result<(), Why> {
        let open = |region: u64| self.books.get(region as usize).is_some_and(|book| book.is_some());
        let edition = |region: u64| self.editions[region as usize];
        refuse(!(0..16).all(open), Why::AFixedNotOpen)?;
        refuse((self.counter..g.entries).any(open), Why::AOpenFromCounter)?;
        refuse((0..16).any(|region| edition(region) != 0), Why::AFixedEdition)?;
        refuse((self.counter..g.entries).any(|region| edition(region) != 0), Why::AEditionFromCounter)?;
        let at_last = |region: u64| open(region) && edition(region) >= LAST_EDITION;
        refuse((0..g.entries).any(at_last), Why::AOpenAtLastEdition)?;
        let too_many = |book: &Option<u64>| book.is_some_and(|pages| pages > g.most_book_pages());
        refuse(self.books[KEPT_BACK].iter().any(too_many), Why::BKeptBackTooManyPages)?;
        refuse(self.books.iter().any(too_many), Why::BTooManyPages)?;
        refuse(self.books[1].is_some_and(|pages| pages % g.pages != 0), Why::BReclaimedPart)?;
        let needs: u128 = (0..g.entries).map(|region| self.need_of(g, region)).sum();
        refuse(needs != u128::from(self.taken), Why::CSum)?;
        let mut seen = BTreeMap::new();
        for (block, (region, position)) in self.blocks[..self.taken as usize].iter().enumerate() {
            refuse(!open(*region), Why::DRegionNotOpen)?;
            refuse(u128::from(*position) >= self.need_of(g, *region), Why::DPositionBeyondNeed)?;
            refuse(seen.insert((*region, *position), block).is_some(), Why::DSamePair)?;
        }
        let untaken = |entry: &(u64, u64)| *entry == (g.entries - 1, 0);
        refuse(!self.blocks[self.taken as usize..].iter().all(untaken), Why::EUntaken)
    }

    /// The index of well-formed tables.
    pub fn recovered(&self, g: Geometry) -> Vec<u8> {
        let mut numbers = vec![0];
        for region in 0..g.entries {
            numbers.push(numbers[region as usize] + self.need_of(g, region) as u64);
        }
        // A map hands its keys out in order: region by region, and by position.
        let taken = self.blocks[..self.taken as usize].iter().zip(0..);
        let by_place: BTreeMap<(u64, u64), u64> = taken.map(|(entry, block)| (*entry, block)).collect();
        numbers.extend(by_place.values());
        numbers.resize((g.entries + 1 + g.blocks) as usize, UNUSED_SLOT);
        numbers.iter().flat_map(|number| (*number as u16).to_le_bytes()).collect()
    }

    pub fn block_of(&self, region: u64, position: u64) -> u64 {
        let found = self.blocks[..self.taken as usize].iter().position(|entry| *entry == (region, position));
        found.expect("well-formed tables have a block for each position") as u64
    }
}

/// The version of an image, 2 where its header tells none.
pub fn version_of(image: &[u8]) -> Version {
    Version::told(image).unwrap_or(Version::Two)
}

/// The pages of a book, if it is open.
pub fn pages_of(g: Geometry, image: &[u8], region: u64) -> Option<u64> {
    let version = version_of(image);
    let pages = number(&image[g.pages_at(version, region)]);
    (pages != version.not_open()).then_some(pages)
}

/// The edition of a region's book, or of the next one if it is not open.
pub fn edition_of(g: Geometry, image: &[u8], region: u64) -> u64 {
    match version_of(image) {
        Version::Two => 0,
        Version::Three => number(&image[g.edition_at(region)]),
    }
}

// The table of refusals, row by row.

fn check_1(g: Geometry) -> Result<(), Why> {
    refuse(!g.allowed(), Why::Geometry)
}

fn check_2(g: Geometry, index: &[u8]) -> Result<(), Why> {
    refuse(index.len() != g.index_bytes(), Why::IndexLength)
}

fn check_3(g: Geometry, image: &[u8]) -> Result<(), Why> {
    refuse((image.len() as u64) < g.block_bytes(), Why::ShortImage)
}

fn check_4(g: Geometry, image: &[u8]) -> Result<(), Why> {
    refuse(number(&image[0..4]) != 0, Why::Marker)?;
    refuse(Version::told(image).is_none(), Why::Version)?;
    refuse(number(&image[12..16]) != 0, Why::Spare)?;
    refuse(number(&image[8..10]) > g.blocks, Why::TakenAboveBlocks)?;
    let counter = number(&image[10..12]);
    refuse(counter < 16 || counter > g.entries - 1, Why::CounterOutside)
}

fn check_5(g: Geometry, image: &[u8]) -> Result<(), Why> {
    refuse(g.capacity(image.len()) < number(&image[8..10]), Why::TailMissing)
}

/// Request R-9 of document 02.
fn check_16(g: Geometry, image: &[u8]) -> Result<(), Why> {
    let unused = &image[g.unused()];
    match unused.iter().position(|byte| *byte != 0) {
        None => Ok(()),
        Some(0) => Err(Why::UnusedFirst),
        Some(place) if place + 1 == unused.len() => Err(Why::UnusedLast),
        Some(_) => Err(Why::UnusedBetween),
    }
}

fn checks_3_to_5(g: Geometry, image: &[u8]) -> Result<(), Why> {
    check_3(g, image)?;
    check_4(g, image)?;
    check_5(g, image)
}

fn check_6(g: Geometry, image: &[u8]) -> Result<Tables, Why> {
    let tables = Tables::read(g, image);
    tables.well_formed(g)?;
    Ok(tables)
}

fn check_6_book(g: Geometry, pages: u64) -> Result<(), Why> {
    refuse(pages > g.most_book_pages(), Why::BookTooManyPages)
}

fn check_7(g: Geometry, tables: &Tables, index: &[u8]) -> Result<(), Why> {
    refuse(tables.recovered(g) != index, Why::IndexDiffers)
}

/// A stretch of a book that lies in one block: where in the image, and where in what is asked.
struct Stretch {
    image: Range<usize>,
    buffer: Range<usize>,
}

/// Refusal 7 of a load or store; where it does not apply, the stretches that are asked for.
fn check_7_touched(
    g: Geometry,
    image: &[u8],
    index: &[u8],
    region: u64,
    offset: u64,
    bytes: u64,
) -> Result<Vec<Stretch>, Why> {
    let numbered = |place: u64| number(&index[2 * place as usize..2 * place as usize + 2]);
    let mut stretches = Vec::new();
    let mut past = 0;
    while past < bytes {
        let position = (offset + past) / g.block_bytes();
        let within = (offset + past) % g.block_bytes();
        let slot = numbered(region) + position;
        refuse(slot >= g.blocks, Why::SlotBeyondBlocks)?;
        let block = numbered(g.entries + 1 + slot);
        refuse(block >= number(&image[8..10]), Why::SlotNotTaken)?;
        let entry = g.entry_at(block);
        let named = (number(&image[entry..entry + 2]), number(&image[entry + 2..entry + 4]));
        refuse(named != (region, position), Why::SlotOfAnother)?;
        let count = (bytes - past).min(g.block_bytes() - within);
        let from = g.data_at(block) + within as usize;
        stretches.push(Stretch { image: from..from + count as usize, buffer: past as usize..(past + count) as usize });
        past += count;
    }
    Ok(stretches)
}

/// Refusals 8 and 18, which comes straight after it; where neither applies, the book's pages.
fn checks_8_and_18(g: Geometry, image: &[u8], book: Book) -> Result<u64, Why> {
    let pages = check_8(g, image, book.region)?;
    check_18(g, image, book)?;
    Ok(pages)
}

/// Refusal 8; where it does not apply, the book's pages.
fn check_8(g: Geometry, image: &[u8], region: u32) -> Result<u64, Why> {
    let region = u64::from(region);
    refuse((1..=15).contains(&region), Why::RegionKeptBack)?;
    refuse(region >= g.entries - 1, Why::RegionNone)?;
    pages_of(g, image, region).ok_or(Why::RegionNotOpen)
}

fn check_9(g: Geometry, pages: u64, offset: u64, bytes: usize) -> Result<(), Why> {
    let end = u128::from(offset) + bytes as u128;
    refuse(end > u128::from(pages) * u128::from(g.page), Why::BeyondBook)
}

fn check_12(image: &[u8]) -> Result<(), Why> {
    refuse(image[..16].iter().any(|byte| *byte != 0), Why::NotBlank)
}

/// Refusal 13 of request R-2 of document 02; where it does not apply, the blocks that the older memory needs.
fn check_13(g: Geometry, image: &[u8], pages: u64) -> Result<u64, Why> {
    let k = g.need(u128::from(pages));
    refuse(k > u128::from(g.blocks), Why::MoveAboveBlocks)?;
    refuse(image.len() as u128 / u128::from(g.block_bytes()) < k + 1, Why::MoveShortImage)?;
    Ok(k as u64)
}

/// Refusal 18 of request R-12 of document 02, of a region that is open.
fn check_18(g: Geometry, image: &[u8], book: Book) -> Result<(), Why> {
    let (edition, named) = (edition_of(g, image, u64::from(book.region)), u64::from(book.edition));
    refuse(named != edition && version_of(image) == Version::Two, Why::EditionOfVersion2)?;
    refuse(named < edition, Why::EditionGone)?;
    refuse(named > edition, Why::EditionToCome)
}

/// Makes the call on the paper's terms.
pub fn call(g: Geometry, call: Call, lent: Lent<'_>) -> Outcome {
    let Lent { image, index, buffer } = lent;
    match call {
        Call::Lay(version) => lay(g, version, image, index),
        Call::Move { pages } => move_over(g, image, index, pages),
        Call::Open => open(g, image, index),
        Call::Grow { book, pages } => grow(g, image, index, book, pages),
        Call::Load { book, offset } => load(g, image, index, book, offset, buffer),
        Call::Store { book, offset } => store(g, image, index, book, offset, buffer),
        Call::Size { book } => size(g, image, book),
        Call::Release { book } => release(g, image, index, book),
        Call::Recover => recover(g, image, index),
    }
}

fn lay(g: Geometry, version: Version, image: &mut [u8], index: &mut [u8]) -> Outcome {
    check_1(g)?;
    check_2(g, index)?;
    check_3(g, image)?;
    check_12(image)?;
    let tables = Tables::empty(g, version);
    tables.write(g, image);
    image[g.unused()].fill(0);
    index.copy_from_slice(&tables.recovered(g));
    Ok(Done { value: 0, touched: vec![g.unused()] })
}

/// Request R-2 of document 02. R-12 has it make version 2.
fn move_over(g: Geometry, image: &mut [u8], index: &mut [u8], pages: u64) -> Outcome {
    check_1(g)?;
    check_2(g, index)?;
    check_3(g, image)?;
    let k = check_13(g, image, pages)?;
    let mut tables = Tables::empty(g, Version::Two);
    tables.taken = k;
    tables.books[0] = Some(pages);
    let mut touched = vec![g.unused()];
    if k > 0 {
        tables.blocks[k as usize - 1] = (0, 0);
        (1..k).for_each(|position| tables.blocks[position as usize - 1] = (0, position));
        let last = g.data_at(k - 1)..g.data_at(k);
        image.copy_within(..g.block_bytes() as usize, last.start);
        touched.push(last);
    }
    tables.write(g, image);
    image[g.unused()].fill(0);
    index.copy_from_slice(&tables.recovered(g));
    Ok(Done { value: 0, touched })
}

fn checks_1_to_7(g: Geometry, image: &[u8], index: &[u8]) -> Result<Tables, Why> {
    check_1(g)?;
    check_2(g, index)?;
    checks_3_to_5(g, image)?;
    let tables = check_6(g, image)?;
    check_7(g, &tables, index)?;
    Ok(tables)
}

/// The tables of an image that recovery accepts, at an allowed geometry.
pub fn accepted(g: Geometry, image: &[u8]) -> Result<Tables, Why> {
    check_3(g, image)?;
    check_4(g, image)?;
    check_16(g, image)?;
    check_5(g, image)?;
    check_6(g, image)
}

fn recover(g: Geometry, image: &[u8], index: &mut [u8]) -> Outcome {
    check_1(g)?;
    check_2(g, index)?;
    let tables = accepted(g, image)?;
    index.copy_from_slice(&tables.recovered(g));
    done(0)
}

fn open(g: Geometry, image: &mut [u8], index: &mut [u8]) -> Outcome {
    let mut tables = checks_1_to_7(g, image, index)?;
    let region = if tables.counter < g.entries - 1 {
        tables.counter += 1;
        tables.counter - 1
    } else {
        let closed = |region: &u64| tables.books[*region as usize].is_none();
        let openable = |region: &u64| closed(region) && tables.editions[*region as usize] != LAST_EDITION;
        let left = (16..=g.entries - 2).any(|region| closed(&region));
        let none = if left { Why::OnlyLastEditions } else { Why::NoRegionLeft };
        (16..=g.entries - 2).find(openable).ok_or(none)?
    };
    let edition = tables.editions[region as usize];
    tables.books[region as usize] = Some(0);
    tables.write(g, image);
    index.copy_from_slice(&tables.recovered(g));
    done(Book { region: region as u32, edition: edition as u32 }.value())
}

fn grow(g: Geometry, image: &mut [u8], index: &mut [u8], book: Book, pages: u64) -> Outcome {
    let mut tables = checks_1_to_7(g, image, index)?;
    let old = checks_8_and_18(g, image, book)?;
    let region = u64::from(book.region);
    let held = g.need(u128::from(old));
    let new = g.need(u128::from(old) + u128::from(pages)) - held;
    let room = tables.need_of(g, 1) + u128::from(g.capacity(image.len()) - tables.taken);
    refuse(new > room, Why::NoBlocksLeft)?;
    for position in held as u64..(held + new) as u64 {
        let block = take_block(g, &mut tables);
        tables.blocks[block as usize] = (region, position);
    }
    tables.books[region as usize] = Some(old + pages);
    tables.write(g, image);
    index.copy_from_slice(&tables.recovered(g));
    let mut touched = Vec::new();
    for page in old..old + pages {
        let from = g.data_at(tables.block_of(region, page / g.pages)) + (page % g.pages * g.page) as usize;
        image[from..from + g.page as usize].fill(0);
        touched.push(from..from + g.page as usize);
    }
    Ok(Done { value: old, touched })
}

/// A block for a book that grows: region 1's highest, or else block N.
fn take_block(g: Geometry, tables: &mut Tables) -> u64 {
    let reclaimed = tables.need_of(g, 1) as u64;
    if reclaimed > 0 {
        let block = tables.block_of(1, reclaimed - 1);
        tables.books[1] = tables.books[1].map(|pages| pages - g.pages);
        block
    } else {
        tables.taken += 1;
        tables.taken - 1
    }
}

/// The checks of load and store, in their order; then the stretches.
fn checks_of_bytes(
    g: Geometry,
    image: &[u8],
    index: &[u8],
    book: Book,
    offset: u64,
    bytes: usize,
) -> Result<Vec<Stretch>, Why> {
    check_1(g)?;
    check_2(g, index)?;
    checks_3_to_5(g, image)?;
    let pages = checks_8_and_18(g, image, book)?;
    check_6_book(g, pages)?;
    check_9(g, pages, offset, bytes)?;
    check_7_touched(g, image, index, u64::from(book.region), offset, bytes as u64)
}

fn load(g: Geometry, image: &[u8], index: &[u8], book: Book, offset: u64, buffer: &mut [u8]) -> Outcome {
    let stretches = checks_of_bytes(g, image, index, book, offset, buffer.len())?;
    for stretch in &stretches {
        buffer[stretch.buffer.clone()].copy_from_slice(&image[stretch.image.clone()]);
    }
    Ok(Done { value: 0, touched: stretches.into_iter().map(|stretch| stretch.image).collect() })
}

fn store(g: Geometry, image: &mut [u8], index: &[u8], book: Book, offset: u64, bytes: &[u8]) -> Outcome {
    let stretches = checks_of_bytes(g, image, index, book, offset, bytes.len())?;
    for stretch in &stretches {
        image[stretch.image.clone()].copy_from_slice(&bytes[stretch.buffer.clone()]);
    }
    Ok(Done { value: 0, touched: stretches.into_iter().map(|stretch| stretch.image).collect() })
}

fn size(g: Geometry, image: &[u8], book: Book) -> Outcome {
    check_1(g)?;
    checks_3_to_5(g, image)?;
    let pages = checks_8_and_18(g, image, book)?;
    check_6_book(g, pages)?;
    done(pages)
}

fn release(g: Geometry, image: &mut [u8], index: &mut [u8], book: Book) -> Outcome {
    let mut tables = checks_1_to_7(g, image, index)?;
    refuse(book.region == 0, Why::ReleaseAnonymous)?;
    checks_8_and_18(g, image, book)?;
    let region = u64::from(book.region);
    let reclaimed = tables.need_of(g, 1) as u64;
    let held = tables.need_of(g, region) as u64;
    for entry in tables.blocks.iter_mut().filter(|entry| entry.0 == region) {
        *entry = (1, reclaimed + entry.1);
    }
    tables.books[1] = tables.books[1].map(|pages| pages + held * g.pages);
    tables.books[region as usize] = None;
    if tables.version == Version::Three {
        tables.editions[region as usize] += 1;
    }
    tables.write(g, image);
    index.copy_from_slice(&tables.recovered(g));
    done(0)
}
