//! Loads and stores at HOUSE, in a book whose blocks are adjacent and in one whose blocks are scattered.

use std::cell::RefCell;
use std::hint::black_box;

use jaaturbal_model::memory::{Guarded, Side};
use jaaturbal_model::paper::{Book, HOUSE, Tables, Version};
use jaaturbal_model::random::Random;

use crate::manager::{Both, ByteCall};
use crate::timing::{Compared, Subject, compare};

/// The blocks of each of the two books.
const BLOCKS: u64 = 8;

/// Where a book's blocks lie.
#[derive(Clone, Copy)]
pub enum Lie {
    Adjacent,
    Scattered,
}

impl Lie {
    pub fn name(self) -> &'static str {
        match self {
            Lie::Adjacent => "adjacent",
            Lie::Scattered => "scattered",
        }
    }

    fn book(self) -> Book {
        match self {
            Lie::Adjacent => Book { region: 16, edition: 0 },
            Lie::Scattered => Book { region: 17, edition: 3 },
        }
    }
}

/// A full image of version 3: the two books, and the anonymous one with the rest of the blocks.
pub struct Sheets {
    image: Guarded,
    index: Vec<u8>,
}

impl Sheets {
    pub fn drawn() -> Sheets {
        let mut random = Random::new(11);
        let first = random.below(HOUSE.blocks - BLOCKS);
        let adjacent: Vec<u64> = (first..first + BLOCKS).collect();
        let mut others: Vec<u64> = (0..HOUSE.blocks).filter(|block| !adjacent.contains(block)).collect();
        random.shuffle(&mut others);
        let scattered = others.split_off(others.len() - BLOCKS as usize);

        let mut tables = Tables::empty(HOUSE, Version::Three);
        tables.taken = HOUSE.blocks;
        tables.counter = 18;
        for Book { region, edition } in [Lie::Adjacent, Lie::Scattered].map(Lie::book) {
            tables.editions[region as usize] = u64::from(edition);
        }
        for (region, blocks) in [(0, &others), (16, &adjacent), (17, &scattered)] {
            tables.books[region] = Some(blocks.len() as u64 * HOUSE.pages);
            for (position, block) in (0..).zip(blocks) {
                tables.blocks[*block as usize] = (region as u64, position);
            }
        }
        tables.well_formed(HOUSE).expect("every block has its place");

        let mut sheets = Sheets { image: Guarded::new(HOUSE.data_at(HOUSE.blocks)), index: tables.recovered(HOUSE) };
        let (image, _) = sheets.lent();
        tables.write(HOUSE, image);
        for block in adjacent.iter().chain(&scattered) {
            random.fill(&mut image[HOUSE.data_at(*block)..HOUSE.data_at(block + 1)]);
        }
        sheets
    }

    fn lent(&mut self) -> (&mut [u8], &[u8]) {
        (self.image.part(HOUSE.data_at(HOUSE.blocks), Side::Front), &self.index)
    }
}

/// Calls at many offsets of one book.
struct Pass<'a> {
    call: ByteCall,
    sheets: &'a RefCell<Sheets>,
    book: Book,
    offsets: &'a [u64],
    buffer: Vec<u8>,
}

impl Subject for Pass<'_> {
    fn calls(&self) -> usize {
        self.offsets.len()
    }

    fn run(&mut self) {
        let mut sheets = self.sheets.borrow_mut();
        let (image, index) = sheets.lent();
        for offset in self.offsets {
            let answer = (self.call)(image, index, self.book, black_box(*offset), &mut self.buffer);
            assert_eq!(answer, 0);
        }
    }
}

/// Offsets in a book, every other one of a stretch that crosses from one block to the next.
fn offsets(bytes: u64) -> Vec<u64> {
    let mut random = Random::new(12);
    let count = if bytes > 65_536 { 16 } else { 256 };
    let inside = |random: &mut Random| random.below(BLOCKS * HOUSE.block_bytes() - bytes);
    let across = |random: &mut Random| random.between(1, BLOCKS - 1) * HOUSE.block_bytes() - bytes / 2;
    (0..count).map(|turn| if turn % 2 == 0 { inside(&mut random) } else { across(&mut random) }).collect()
}

pub fn measured(sheets: &RefCell<Sheets>, call: Both<ByteCall>, lie: Lie, bytes: usize) -> Compared {
    let offsets = offsets(bytes as u64);
    let mut buffer = vec![0; bytes];
    Random::new(13).fill(&mut buffer);
    let pass = |call| Pass { call, sheets, book: lie.book(), offsets: &offsets, buffer: buffer.clone() };
    let (mut proved, mut plain) = (pass(call.proved), pass(call.plain));
    let compared = compare(&mut proved, &mut plain);
    assert!(proved.buffer == plain.buffer, "{} of {bytes} bytes: the two differ", call.name);
    compared
}
