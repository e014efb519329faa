//! Damage to an image's header and tables, and to an index: each kind breaks one rule, or none.

use crate::calls::View;
use crate::paper::{Geometry, LAST_EDITION, Tables, number, put, version_of};
use crate::random::Random;

/// Damages something: the tables, mostly, or the index. An image too short to have tables stays.
pub fn anything(g: Geometry, focus: Option<u64>, image: &mut [u8], index: &mut [u8], random: &mut Random) {
    if random.percent(30) {
        damage_index(View { g, image, focus }, index, random);
    } else if image.len() >= g.front_bytes() {
        damage_front(g, focus, image, random);
    }
}

fn damage_front(g: Geometry, focus: Option<u64>, image: &mut [u8], random: &mut Random) {
    match random.below(13) {
        0 => header(g, image, random),
        1..5 => entry(g, focus, image, random),
        5..8 => book(g, focus, image, random),
        8 => kept_back(g, focus, image, random),
        9 | 10 => edition(g, focus, image, random),
        11 => {
            if let Some(at) = unused(g, random).filter(|at| *at < image.len()) {
                image[at] ^= random.between(1, 255) as u8;
            }
        }
        _ => {
            let at = random.below(g.front_bytes() as u64) as usize;
            image[at] = random.draw() as u8;
        }
    }
}

fn header(g: Geometry, image: &mut [u8], random: &mut Random) {
    let taken = number(&image[8..10]);
    let counter = number(&image[10..12]);
    match random.below(4) {
        0 => {
            let at = random.pick(&[0, 1, 2, 3, 4, 5, 6, 7, 12, 13, 14, 15]);
            image[at] ^= random.between(1, 255) as u8;
        }
        3 => {
            // The other version among them: its tables say something else then.
            let version = random.pick(&[0, 1, 2, 3, 3, 2, 4, 2 << 16, 3 << 24]);
            put(&mut image[4..8], version);
        }
        1 => {
            let drawn = random.pick(&[taken + 1, taken.wrapping_sub(1), 0, g.blocks, g.blocks + 1, 65_535]);
            put(&mut image[8..10], drawn);
        }
        _ => {
            let e = g.entries;
            let drawn = random.pick(&[0, 15, 16, 17, counter + 1, counter.wrapping_sub(1), e - 2, e - 1, e, 65_535]);
            put(&mut image[10..12], drawn);
        }
    }
}

/// A block's entry. Most blocks that are chosen are taken ones.
fn entry(g: Geometry, focus: Option<u64>, image: &mut [u8], random: &mut Random) {
    let view = View { g, image, focus };
    let taken = view.taken().clamp(1, g.blocks);
    let among = if random.percent(80) { taken } else { g.blocks };
    let (one, other) = (g.entry_at(random.below(among)), g.entry_at(random.below(among)));
    let owner = number(&image[one..one + 2]);
    let place = number(&image[one + 2..one + 4]);
    match random.below(5) {
        0 => image.copy_within(other..other + 4, one),
        1 => (0..4).for_each(|byte| image.swap(one + byte, other + byte)),
        2 | 3 => {
            let (closed, open) = (view.some_closed(random), view.some_book(random));
            let drawn = random.pick(&[0, 1, 2, 15, closed, open, g.entries - 1, g.entries, 65_535]);
            put(&mut image[one..one + 2], drawn);
        }
        _ => {
            let need = view.need(owner);
            let drawn = random.pick(&[0, need, need.wrapping_sub(1), place + 1, place.wrapping_sub(1), 65_535]);
            put(&mut image[one + 2..one + 4], drawn);
        }
    }
}

/// A region's page count.
fn book(g: Geometry, focus: Option<u64>, image: &mut [u8], random: &mut Random) {
    let view = View { g, image, focus };
    let some = [
        0,
        1,
        1,
        random.below(16),
        view.some_book(random),
        view.some_book(random),
        view.some_closed(random),
        random.below(g.entries),
    ];
    let region = random.pick(&some);
    let pages = view.pages(region);
    let most = g.most_book_pages();
    let less = pages.wrapping_sub(random.between(1, g.pages));
    let version = version_of(image);
    let not_open = version.not_open();
    let drawn = match random.below(4) {
        0 => random.pick(&[0, not_open, most, most + 1, not_open - 1, not_open / 2 + 1, 1 << 32]),
        1 => random.pick(&[pages.wrapping_add(1), less]),
        2 => random.pick(&[pages.wrapping_add(g.pages), pages.wrapping_sub(g.pages)]),
        _ => random.pick(&[0, not_open]),
    };
    put(&mut image[g.pages_at(version, region)], drawn);
    if random.percent(30) {
        // Another book gives what this one gained, so that the needs may still sum to the blocks taken.
        let giver = g.pages_at(version, View { g, image, focus }.some_book(random));
        let pages = number(&image[giver.clone()]);
        put(&mut image[giver], pages.wrapping_sub(g.pages));
    }
}

/// A region's edition: of one that is always open, of one that was not given out yet, of a book, or of one that was released.
/// In version 2 the same bytes are the upper half of a page count.
fn edition(g: Geometry, focus: Option<u64>, image: &mut [u8], random: &mut Random) {
    let view = View { g, image, focus };
    let beyond = random.between(view.counter().min(g.entries - 1), g.entries - 1);
    let some = [random.below(16), beyond, g.entries - 1, view.some_book(random), view.some_closed(random)];
    let region = random.pick(&some);
    let before = view.edition(region);
    let drawn = random.pick(&[0, 1, before + 1, before.wrapping_sub(1), LAST_EDITION - 1, LAST_EDITION, LAST_EDITION]);
    put(&mut image[g.edition_at(region)], drawn);
}

/// A book that is kept back: more pages than any may have; or an open book's pages and blocks, which breaks no rule where it had
/// none.
fn kept_back(g: Geometry, focus: Option<u64>, image: &mut [u8], random: &mut Random) {
    let from = View { g, image, focus }.some_book(random);
    let (to, most) = (random.between(2, 15), g.most_book_pages());
    let mut tables = Tables::read(g, image);
    let largest = tables.version.not_open() - 1;
    if random.percent(50) {
        tables.books[to as usize] = Some(random.pick(&[most + 1, most + g.pages, largest / 2 + 1, largest]));
    } else if let Some(pages) = tables.books[from as usize] {
        tables.books[to as usize] = Some(pages);
        tables.books[from as usize] = Some(0);
        tables.blocks.iter_mut().filter(|entry| entry.0 == from).for_each(|entry| entry.0 = to);
    }
    tables.write(g, image);
}

/// A byte between the tables and the end of the reserve, where there is one: the first, the last, or any.
pub fn unused(g: Geometry, random: &mut Random) -> Option<usize> {
    let bytes = g.unused().len();
    let drawn = random.below(bytes.max(1) as u64) as usize;
    let place = random.pick(&[0, bytes.saturating_sub(1), drawn]);
    g.unused().nth(place)
}

/// An index: a slot of some book, mostly.
fn damage_index(view: View<'_>, index: &mut [u8], random: &mut Random) {
    let g = view.g;
    if index.len() < g.index_bytes() {
        return;
    }
    let start_at = |region: u64| 2 * region as usize;
    let slot_at = |slot: u64| (2 * (g.entries + 1 + slot.min(g.blocks - 1))) as usize;
    let book = view.some_book(random);
    let start = number(&index[start_at(book)..start_at(book) + 2]);
    let one = slot_at(start + random.below(view.need(book).clamp(1, g.blocks)));
    let taken = view.taken();
    match random.below(7) {
        0 => {
            let at = random.below(index.len() as u64) as usize;
            index[at] ^= random.between(1, 255) as u8;
        }
        1 | 2 => {
            let region = if random.percent(80) { book } else { random.below(g.entries + 1) };
            let at = start_at(region);
            let drawn = random.pick(&[start + 1, start.wrapping_sub(1), g.blocks, g.blocks - 1, 65_535, 0]);
            put(&mut index[at..at + 2], drawn);
        }
        3 => {
            let other = slot_at(random.below(taken.clamp(1, g.blocks)));
            (0..2).for_each(|byte| index.swap(one + byte, other + byte));
        }
        4 => {
            let drawn = random.pick(&[taken, taken.wrapping_sub(1), g.blocks, 65_535, 0]);
            put(&mut index[one..one + 2], drawn);
        }
        5 => {
            let last = slot_at(g.blocks - 1);
            put(&mut index[last..last + 2], random.below(65_536));
        }
        _ => random.fill(index),
    }
}

/// A length at which an image may be cut: around the last block taken, mostly.
pub fn cut_image(view: &View<'_>, random: &mut Random) -> usize {
    let block = view.g.block_bytes();
    let taken = view.taken();
    let drawn = match random.below(9) {
        0 | 1 => random.pick(&[0, 1, 15, 16, block - 1]),
        2 => random.pick(&[block, block + 1, 2 * block - 1]),
        3 | 4 => (taken + 1) * block - 1,
        5 => (taken + 1) * block,
        6 => taken * block,
        _ => random.between(0, view.image.len() as u64),
    };
    drawn.min(view.image.len() as u64) as usize
}

/// A length for an index: nearly right, mostly.
pub fn index_bytes(g: Geometry, random: &mut Random) -> usize {
    let right = g.index_bytes();
    let drawn = random.below(right as u64) as usize;
    random.pick(&[0, right - 1, right + 1, right - 2, right + 2, 2 * (g.entries as usize + 1), drawn])
}
