//! An ordinary book manager in plain Rust: the checks, answers and bytes of the paper, in both versions, with no proof. Passes
//! over the tables are linear, the lent index is its own witness, and a bitmap finds pairs that are named twice. The calls are
//! never inlined, as those of an archive cannot be.

use std::ops::Range;

use jaaturbal_model::paper::{Book, Call, Lent, VALUE_BITS, Version};

const FIXED_REGIONS: usize = 16;
const NO_BLOCK: u16 = u16::MAX;
const LAST_EDITION: u64 = u32::MAX as u64;

/// Page bytes, pages in a block, blocks, region entries.
#[derive(Clone, Copy)]
pub struct Geometry {
    page: usize,
    pages: usize,
    blocks: usize,
    entries: usize,
}

const BENCH: Geometry = Geometry { page: 64, pages: 8, blocks: 16, entries: 24 };
const HOUSE: Geometry = Geometry { page: 65_536, pages: 128, blocks: 32_768, entries: 32_768 };
/// Each number at its ceiling.
pub const WIDEST: Geometry = Geometry { page: 65_536, pages: 128, blocks: 65_535, entries: 65_536 };

/// A value, or the refusal's number.
type Answer<T> = Result<T, u64>;

fn u16_at(bytes: &[u8], at: usize) -> usize {
    usize::from(u16::from_le_bytes([bytes[at], bytes[at + 1]]))
}

fn set_u16(bytes: &mut [u8], at: usize, value: usize) {
    bytes[at..at + 2].copy_from_slice(&(value as u16).to_le_bytes());
}

fn u64_of(bytes: &[u8]) -> u64 {
    u64::from_le_bytes(bytes.try_into().expect("eight bytes"))
}

/// The bits of a region's entry that hold its page count: all of them, or in version 3 the lower half. All ones is "not open".
/// The others hold the edition.
#[derive(Clone, Copy)]
struct SizeMask(u64);

impl SizeMask {
    fn of(version: Version) -> SizeMask {
        match version {
            Version::Two => SizeMask(u64::MAX),
            Version::Three => SizeMask(u64::from(u32::MAX)),
        }
    }

    /// Of an image whose header is in order.
    fn told(image: &[u8]) -> SizeMask {
        SizeMask::of(if image[4] == 3 { Version::Three } else { Version::Two })
    }

    fn pages(self, entry: u64) -> u64 {
        entry & self.0
    }

    fn open(self, entry: u64) -> bool {
        self.pages(entry) != self.0
    }

    /// 0 in version 2, which has no bits for it.
    fn edition(self, entry: u64) -> u64 {
        (entry & !self.0) >> 32
    }

    fn with_pages(self, entry: u64, pages: u64) -> u64 {
        entry & !self.0 | pages
    }

    /// The entry of a region that is not open, its edition one higher where there is one.
    fn closed(self, entry: u64) -> u64 {
        (entry & !self.0) + (!self.0 & 1 << 32) | self.0
    }
}

impl Geometry {
    fn numbered(number: u32) -> Answer<Geometry> {
        match number {
            0 => Ok(BENCH),
            1 => Ok(HOUSE),
            _ => Err(1),
        }
    }

    fn block_bytes(self) -> usize {
        self.page * self.pages
    }

    fn regions_at(self) -> usize {
        16 + 4 * self.blocks
    }

    fn slots_at(self) -> usize {
        2 * (self.entries + 1)
    }

    fn index_bytes(self) -> usize {
        2 * (self.entries + 1 + self.blocks)
    }

    fn most_book_pages(self) -> u64 {
        (self.blocks * self.pages) as u64
    }

    fn need(self, pages: u64) -> usize {
        pages.div_ceil(self.pages as u64) as usize
    }

    fn region_entry(self, image: &[u8], region: usize) -> u64 {
        let at = self.regions_at() + 8 * region;
        u64_of(&image[at..at + 8])
    }

    fn set_region_entry(self, image: &mut [u8], region: usize, entry: u64) {
        let at = self.regions_at() + 8 * region;
        image[at..at + 8].copy_from_slice(&entry.to_le_bytes());
    }

    fn pages_of(self, image: &[u8], mask: SizeMask, region: usize) -> u64 {
        mask.pages(self.region_entry(image, region))
    }

    fn set_pages(self, image: &mut [u8], mask: SizeMask, region: usize, pages: u64) {
        let entry = self.region_entry(image, region);
        self.set_region_entry(image, region, mask.with_pages(entry, pages));
    }

    fn set_entry(self, image: &mut [u8], block: usize, region: usize, position: usize) {
        set_u16(image, 16 + 4 * block, region);
        set_u16(image, 16 + 4 * block + 2, position);
    }

    fn slot(self, index: &[u8], slot: usize) -> usize {
        u16_at(index, self.slots_at() + 2 * slot)
    }

    /// The rest of the reserve, between the tables and its end.
    fn unused(self) -> Range<usize> {
        self.regions_at() + 8 * self.entries..self.block_bytes()
    }

    /// Refusals 3 and 4: the blocks taken, the counter and the capacity.
    fn head(self, image: &[u8]) -> Answer<Header> {
        if image.len() < self.block_bytes() {
            return Err(3);
        }
        let (taken, counter) = (u16_at(image, 8), u16_at(image, 10));
        let marks = matches!(u64_of(&image[0..8]), 0x2_0000_0000 | 0x3_0000_0000) && image[12..16] == [0; 4];
        if !marks || taken > self.blocks || !(FIXED_REGIONS..self.entries).contains(&counter) {
            return Err(4);
        }
        let capacity = self.blocks.min(image.len() / self.block_bytes() - 1);
        Ok(Header { taken, counter, capacity, mask: SizeMask::told(image) })
    }

    /// Refusals 3 to 5.
    fn header(self, image: &[u8]) -> Answer<Header> {
        self.head(image)?.whole()
    }

    fn lent(self, image: &[u8], index: &[u8]) -> Answer<Header> {
        self.right_length(index)?;
        self.header(image)
    }

    fn right_length(self, index: &[u8]) -> Answer<()> {
        if index.len() == self.index_bytes() { Ok(()) } else { Err(2) }
    }
}

struct Header {
    taken: usize,
    counter: usize,
    capacity: usize,
    mask: SizeMask,
}

impl Header {
    fn whole(self) -> Answer<Header> {
        if self.capacity < self.taken { Err(5) } else { Ok(self) }
    }
}

/// Whether every byte is zero. With no exit before the end the loop becomes vector steps.
#[inline(never)]
pub fn all_zero(bytes: &[u8]) -> bool {
    bytes.iter().fold(0, |set, byte| set | byte) == 0
}

/// One pass over the region table: rules a, b and c. `each_start` sees where each region's slots start, the end last.
fn regions_in_order(g: Geometry, image: &[u8], header: &Header, mut each_start: impl FnMut(usize, usize)) -> bool {
    let table = &image[g.regions_at()..g.regions_at() + 8 * g.entries];
    let mask = header.mask;
    let mut start = 0;
    for (region, entry) in table.chunks_exact(8).enumerate() {
        each_start(region, start);
        let entry = u64_of(entry);
        let (pages, edition) = (mask.pages(entry), mask.edition(entry));
        if edition != 0 && (region < FIXED_REGIONS || region >= header.counter) {
            return false;
        }
        if !mask.open(entry) {
            if region < FIXED_REGIONS {
                return false;
            }
            continue;
        }
        let odd = region == 1 && !pages.is_multiple_of(g.pages as u64);
        if region >= header.counter || pages > g.most_book_pages() || odd || edition == LAST_EDITION {
            return false;
        }
        start += g.need(pages);
        if start > header.taken {
            return false;
        }
    }
    each_start(g.entries, start);
    start == header.taken
}

/// Rule e.
fn untaken_in_order(g: Geometry, image: &[u8], taken: usize) -> bool {
    let blank = ((g.entries - 1) as u32).to_le_bytes();
    image[16 + 4 * taken..g.regions_at()].chunks_exact(4).all(|entry| entry == blank)
}

/// Rule d with the starts at hand, and a bit for each slot.
fn taken_in_order(g: Geometry, image: &[u8], taken: usize, starts: &[u16]) -> bool {
    let mut named = vec![0u64; g.blocks.div_ceil(64)];
    image[16..16 + 4 * taken].chunks_exact(4).all(|entry| {
        let (owner, place) = (u16_at(entry, 0), u16_at(entry, 2));
        if owner >= g.entries || place >= usize::from(starts[owner + 1] - starts[owner]) {
            return false;
        }
        let slot = usize::from(starts[owner]) + place;
        let fresh = named[slot / 64] & 1 << (slot % 64) == 0;
        named[slot / 64] |= 1 << (slot % 64);
        fresh
    })
}

/// Refusal 6; where it does not apply, the starts.
fn checked_starts(g: Geometry, image: &[u8], header: &Header) -> Answer<Vec<u16>> {
    let mut starts = vec![0; g.entries + 1];
    let well_formed = regions_in_order(g, image, header, |region, start| starts[region] = start as u16)
        && taken_in_order(g, image, header.taken, &starts)
        && untaken_in_order(g, image, header.taken);
    if well_formed { Ok(starts) } else { Err(6) }
}

/// The lent index witnesses rule d: each block's slot names that block, so no two blocks name one pair.
fn witnessed(g: Geometry, image: &[u8], index: &[u8], header: &Header) -> bool {
    let mut starts_right = true;
    let regions = regions_in_order(g, image, header, |region, start| {
        starts_right &= u16_at(index, 2 * region) == start;
    });
    if !regions || !starts_right || !untaken_in_order(g, image, header.taken) {
        return false;
    }
    let slots = &index[g.slots_at()..];
    let taken = image[16..16 + 4 * header.taken].chunks_exact(4).enumerate().all(|(block, entry)| {
        let (owner, place) = (u16_at(entry, 0), u16_at(entry, 2));
        if owner >= g.entries {
            return false;
        }
        let start = u16_at(index, 2 * owner);
        start + place < u16_at(index, 2 * owner + 2) && u16_at(slots, 2 * (start + place)) == block
    });
    taken && slots[2 * header.taken..].chunks_exact(2).all(|slot| slot == NO_BLOCK.to_le_bytes())
}

/// Refusals 1 to 7.
fn checked(geometry: u32, image: &[u8], index: &[u8]) -> Answer<(Geometry, Header)> {
    let g = Geometry::numbered(geometry)?;
    let header = g.lent(image, index)?;
    if witnessed(g, image, index, &header) {
        return Ok((g, header));
    }
    checked_starts(g, image, &header)?;
    Err(7)
}

/// Writes the index of well-formed tables.
fn write_index(g: Geometry, image: &[u8], index: &mut [u8], taken: usize) {
    let mask = SizeMask::told(image);
    let mut start = 0;
    let table = &image[g.regions_at()..g.regions_at() + 8 * g.entries];
    for (region, entry) in table.chunks_exact(8).enumerate() {
        set_u16(index, 2 * region, start);
        let entry = u64_of(entry);
        if mask.open(entry) {
            start += g.need(mask.pages(entry));
        }
    }
    set_u16(index, 2 * g.entries, start);
    let (starts, slots) = index.split_at_mut(g.slots_at());
    for (block, entry) in image[16..16 + 4 * taken].chunks_exact(4).enumerate() {
        let slot = u16_at(starts, 2 * u16_at(entry, 0)) + u16_at(entry, 2);
        set_u16(slots, 2 * slot, block);
    }
    slots[2 * taken..].fill(u8::MAX);
}

/// Refusals 8 and 18; where neither applies, the region and its pages.
fn named(g: Geometry, image: &[u8], mask: SizeMask, book: Book) -> Answer<(usize, u64)> {
    let region = book.region as usize;
    if (1..FIXED_REGIONS).contains(&region) || region >= g.entries - 1 {
        return Err(8);
    }
    let entry = g.region_entry(image, region);
    if !mask.open(entry) {
        return Err(8);
    }
    if mask.edition(entry) != u64::from(book.edition) {
        return Err(18);
    }
    Ok((region, mask.pages(entry)))
}

/// Refusals 1, 2 and 3.
fn new_image(geometry: u32, image: &[u8], index: &[u8]) -> Answer<Geometry> {
    let g = Geometry::numbered(geometry)?;
    g.right_length(index)?;
    if image.len() < g.block_bytes() { Err(3) } else { Ok(g) }
}

/// A whole reserve, with no block taken.
fn write_reserve(g: Geometry, version: Version, image: &mut [u8]) {
    image[..16].copy_from_slice(&[0, 0, 0, 0, version.number() as u8, 0, 0, 0, 0, 0, 16, 0, 0, 0, 0, 0]);
    let blank = ((g.entries - 1) as u32).to_le_bytes();
    image[16..g.regions_at()].chunks_exact_mut(4).for_each(|entry| entry.copy_from_slice(&blank));
    let (fixed, rest) = image[g.regions_at()..g.regions_at() + 8 * g.entries].split_at_mut(8 * FIXED_REGIONS);
    fixed.fill(0);
    let not_open = SizeMask::of(version).0.to_le_bytes();
    rest.chunks_exact_mut(8).for_each(|entry| entry.copy_from_slice(&not_open));
    image[g.unused()].fill(0);
}

#[inline(never)]
pub fn lay(geometry: u32, version: Version, image: &mut [u8], index: &mut [u8]) -> Answer<u64> {
    let g = new_image(geometry, image, index)?;
    if image[..16].iter().any(|byte| *byte != 0) {
        return Err(12);
    }
    write_reserve(g, version, image);
    write_index(g, image, index, 0);
    Ok(0)
}

#[inline(never)]
pub fn move_over(geometry: u32, image: &mut [u8], index: &mut [u8], pages: u64) -> Answer<u64> {
    let g = new_image(geometry, image, index)?;
    let k = pages.div_ceil(g.pages as u64);
    if k > g.blocks as u64 || (image.len() / g.block_bytes()) as u64 <= k {
        return Err(13);
    }
    let k = k as usize;
    image.copy_within(..g.block_bytes(), k * g.block_bytes());
    write_reserve(g, Version::Two, image);
    set_u16(image, 8, k);
    (0..k).for_each(|block| g.set_entry(image, block, 0, (block + 1) % k));
    g.set_region_entry(image, 0, pages);
    write_index(g, image, index, k);
    Ok(0)
}

pub fn recover(geometry: u32, image: &[u8], index: &mut [u8]) -> Answer<u64> {
    recover_at(Geometry::numbered(geometry)?, image, index)
}

/// At an allowed geometry.
#[inline(never)]
pub fn recover_at(g: Geometry, image: &[u8], index: &mut [u8]) -> Answer<u64> {
    g.right_length(index)?;
    let header = g.head(image)?;
    if !all_zero(&image[g.unused()]) {
        return Err(16);
    }
    let header = header.whole()?;
    checked_starts(g, image, &header)?;
    write_index(g, image, index, header.taken);
    Ok(0)
}

#[inline(never)]
pub fn open(geometry: u32, image: &mut [u8], index: &mut [u8]) -> Answer<u64> {
    let (g, header) = checked(geometry, image, index)?;
    let mask = header.mask;
    let openable = |entry: u64| !mask.open(entry) && mask.edition(entry) != LAST_EDITION;
    let region = if header.counter < g.entries - 1 {
        set_u16(image, 10, header.counter + 1);
        header.counter
    } else {
        (FIXED_REGIONS..g.entries - 1).find(|region| openable(g.region_entry(image, *region))).ok_or(11u64)?
    };
    // A book with no pages holds no blocks, so the index stays.
    g.set_pages(image, mask, region, 0);
    let edition = mask.edition(g.region_entry(image, region));
    Ok(Book { region: region as u32, edition: edition as u32 }.value())
}

#[inline(never)]
pub fn grow(geometry: u32, image: &mut [u8], index: &mut [u8], book: Book, pages: u64) -> Answer<u64> {
    let (g, mut header) = checked(geometry, image, index)?;
    let mask = header.mask;
    let (region, old) = named(g, image, mask, book)?;
    let mut reclaimed = g.need(g.pages_of(image, mask, 1));
    let held = g.need(old);
    let grown = old.checked_add(pages).ok_or(10u64)?;
    let new = g.need(grown) - held;
    if new > reclaimed + header.capacity - header.taken {
        return Err(10);
    }
    let reclaimed_start = u16_at(index, 2);
    for position in held..held + new {
        let block = if reclaimed > 0 {
            reclaimed -= 1;
            g.slot(index, reclaimed_start + reclaimed)
        } else {
            header.taken += 1;
            header.taken - 1
        };
        g.set_entry(image, block, region, position);
    }
    g.set_pages(image, mask, 1, (reclaimed * g.pages) as u64);
    g.set_pages(image, mask, region, grown);
    set_u16(image, 8, header.taken);
    if new > 0 {
        write_index(g, image, index, header.taken);
    }
    let start = u16_at(index, 2 * region);
    let (mut at, end) = (old as usize * g.page, grown as usize * g.page);
    while at < end {
        let (position, within) = (at / g.block_bytes(), at % g.block_bytes());
        let count = (end - at).min(g.block_bytes() - within);
        let from = (g.slot(index, start + position) + 1) * g.block_bytes() + within;
        image[from..from + count].fill(0);
        at += count;
    }
    Ok(old)
}

#[inline(never)]
pub fn release(geometry: u32, image: &mut [u8], index: &mut [u8], book: Book) -> Answer<u64> {
    let (g, header) = checked(geometry, image, index)?;
    let mask = header.mask;
    if book.region == 0 {
        return Err(8);
    }
    let (region, pages) = named(g, image, mask, book)?;
    let reclaimed = g.pages_of(image, mask, 1);
    let (first, held) = (g.need(reclaimed), g.need(pages));
    let start = u16_at(index, 2 * region);
    for position in 0..held {
        let block = g.slot(index, start + position);
        g.set_entry(image, block, 1, first + position);
    }
    g.set_pages(image, mask, 1, reclaimed + (held * g.pages) as u64);
    let entry = g.region_entry(image, region);
    g.set_region_entry(image, region, mask.closed(entry));
    if held > 0 {
        write_index(g, image, index, header.taken);
    }
    Ok(0)
}

#[inline(never)]
pub fn size(geometry: u32, image: &[u8], book: Book) -> Answer<u64> {
    let g = Geometry::numbered(geometry)?;
    let header = g.header(image)?;
    let (_, pages) = named(g, image, header.mask, book)?;
    if pages > g.most_book_pages() { Err(6) } else { Ok(pages) }
}

/// What a load or store works on: a book that holds the bytes asked for.
struct Stretches {
    g: Geometry,
    region: usize,
    start: usize,
    taken: usize,
    offset: usize,
    bytes: usize,
}

impl Stretches {
    /// Refusals 1 to 5, 8, 18, 6 and 9.
    fn asked(geometry: u32, image: &[u8], index: &[u8], book: Book, offset: u64, bytes: usize) -> Answer<Stretches> {
        let g = Geometry::numbered(geometry)?;
        let header = g.lent(image, index)?;
        let (region, pages) = named(g, image, header.mask, book)?;
        if pages > g.most_book_pages() {
            return Err(6);
        }
        let end = pages * g.page as u64;
        if offset > end || bytes as u64 > end - offset {
            return Err(9);
        }
        let start = u16_at(index, 2 * region);
        Ok(Stretches { g, region, start, taken: header.taken, offset: offset as usize, bytes })
    }

    /// Refusal 7, for every position before any byte is copied.
    fn check(&self, image: &[u8], index: &[u8]) -> Answer<()> {
        if self.bytes == 0 {
            return Ok(());
        }
        let block_bytes = self.g.block_bytes();
        for position in self.offset / block_bytes..=(self.offset + self.bytes - 1) / block_bytes {
            let slot = self.start + position;
            if slot >= self.g.blocks {
                return Err(7);
            }
            let block = self.g.slot(index, slot);
            let entry = 16 + 4 * block;
            if block >= self.taken || (u16_at(image, entry), u16_at(image, entry + 2)) != (self.region, position) {
                return Err(7);
            }
        }
        Ok(())
    }

    /// Where in the image the stretch lies that begins so many bytes past the offset.
    fn at(&self, index: &[u8], past: usize) -> Range<usize> {
        let block_bytes = self.g.block_bytes();
        let (position, within) = ((self.offset + past) / block_bytes, (self.offset + past) % block_bytes);
        let from = (self.g.slot(index, self.start + position) + 1) * block_bytes + within;
        from..from + (self.bytes - past).min(block_bytes - within)
    }
}

#[inline(never)]
pub fn load(geometry: u32, image: &[u8], index: &[u8], book: Book, offset: u64, buffer: &mut [u8]) -> Answer<u64> {
    let asked = Stretches::asked(geometry, image, index, book, offset, buffer.len())?;
    asked.check(image, index)?;
    let mut past = 0;
    while past < asked.bytes {
        let stretch = &image[asked.at(index, past)];
        buffer[past..past + stretch.len()].copy_from_slice(stretch);
        past += stretch.len();
    }
    Ok(0)
}

#[inline(never)]
pub fn store(geometry: u32, image: &mut [u8], index: &[u8], book: Book, offset: u64, bytes: &[u8]) -> Answer<u64> {
    let asked = Stretches::asked(geometry, image, index, book, offset, bytes.len())?;
    asked.check(image, index)?;
    let mut past = 0;
    while past < asked.bytes {
        let stretch = &mut image[asked.at(index, past)];
        stretch.copy_from_slice(&bytes[past..past + stretch.len()]);
        past += stretch.len();
    }
    Ok(0)
}

/// The one number that a host is answered.
pub fn packed(answer: Answer<u64>) -> u64 {
    answer.unwrap_or_else(|refusal| refusal << VALUE_BITS)
}

/// The calls by one door, as the comparison with the model makes them.
pub fn make(geometry: u32, call: Call, lent: Lent<'_>) -> u64 {
    let Lent { image, index, buffer } = lent;
    packed(match call {
        Call::Lay(version) => lay(geometry, version, image, index),
        Call::Move { pages } => move_over(geometry, image, index, pages),
        Call::Open => open(geometry, image, index),
        Call::Grow { book, pages } => grow(geometry, image, index, book, pages),
        Call::Load { book, offset } => load(geometry, image, index, book, offset, buffer),
        Call::Store { book, offset } => store(geometry, image, index, book, offset, buffer),
        Call::Size { book } => size(geometry, image, book),
        Call::Release { book } => release(geometry, image, index, book),
        Call::Recover => recover(geometry, image, index),
    })
}
