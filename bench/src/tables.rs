//! The calls that work on the tables: many books, the blocks of each in any order, in an image of version 3.

use std::cell::RefCell;

use jaaturbal_model::memory::{Guarded, Side};
use jaaturbal_model::paper::{Book, Geometry, Tables, Version, apart};
use jaaturbal_model::random::Random;
use jaaturbal_model::tables::{Wanted, drawn};

use crate::manager::{Both, TableCall};
use crate::timing::{Compared, Subject, compare};

/// An image with so many blocks, all taken. Data pages are mapped and, but for what growth makes zero, never touched.
pub struct Ledger {
    image: Guarded,
    bytes: usize,
    index: Vec<u8>,
    front: Vec<u8>,
    right_index: Vec<u8>,
    /// A book that holds several blocks, all of them full.
    book: Book,
}

impl Ledger {
    pub fn drawn(g: Geometry, blocks: u64) -> Ledger {
        let wanted = Wanted {
            version: Version::Three,
            taken: blocks,
            opened: blocks / 2,
            released: 5,
            worn_out: 0,
            share: 8,
            kept_share: 0,
            kept_back: (2, 15),
        };
        let mut tables = drawn(g, &wanted, &mut Random::new(21));
        reclaim_one(g, &mut tables);
        tables.well_formed(g).expect("tables as they are drawn");
        let full = |region: &u64| tables.books[*region as usize].is_some_and(|pages| pages == 6 * g.pages);
        let region = (16..tables.counter).find(full).expect("among so many books, one of six full blocks");
        let book = Book { region: region as u32, edition: tables.editions[region as usize] as u32 };
        let bytes = g.data_at(blocks);
        let mut front = vec![0; g.front_bytes()];
        tables.write(g, &mut front);
        let right_index = tables.recovered(g);
        let mut image = Guarded::new(bytes);
        // The rest of the reserve is memory of its own, as in an image that was laid, and not a page of zeros over and over.
        image.part(bytes, Side::Front)[g.unused()].fill(0);
        Ledger { image, bytes, index: right_index.clone(), front, right_index, book }
    }

    /// Puts tables and index back to what they were drawn as.
    fn restore(&mut self) {
        self.image.part(self.front.len(), Side::Front).copy_from_slice(&self.front);
        self.index.copy_from_slice(&self.right_index);
    }

    fn make(&mut self, call: TableCall) -> u64 {
        call(self.image.part(self.bytes, Side::Front), &mut self.index, self.book)
    }

    /// What a call answers and leaves.
    fn left_by(&mut self, call: TableCall) -> (u64, Vec<u8>, Vec<u8>) {
        self.restore();
        let answer = self.make(call);
        (answer, self.image.part(self.front.len(), Side::Front).to_vec(), self.index.clone())
    }
}

/// Gives the blocks of the first book that has any to region 1, so that growth finds a block there.
fn reclaim_one(g: Geometry, tables: &mut Tables) {
    let region = (16..tables.counter).find(|region| tables.need_of(g, *region) > 0).expect("a book with pages");
    let reclaimed = tables.need_of(g, 1) as u64;
    let held = tables.need_of(g, region) as u64;
    for entry in tables.blocks.iter_mut().filter(|entry| entry.0 == region) {
        *entry = (1, reclaimed + entry.1);
    }
    tables.books[1] = Some((reclaimed + held) * g.pages);
    tables.books[region as usize] = None;
}

struct Turn<'a> {
    call: TableCall,
    ledger: &'a RefCell<Ledger>,
}

impl Subject for Turn<'_> {
    fn calls(&self) -> usize {
        1
    }

    fn ready(&mut self) {
        self.ledger.borrow_mut().restore();
    }

    fn run(&mut self) {
        let answer = self.ledger.borrow_mut().make(self.call);
        assert_eq!(apart(answer).0, 0);
    }
}

pub fn measured(ledger: &RefCell<Ledger>, call: Both<TableCall>) -> Compared {
    let left = [call.proved, call.plain].map(|call| ledger.borrow_mut().left_by(call));
    assert!(left[0] == left[1], "{}: the two differ", call.name);
    compare(&mut Turn { call: call.proved, ledger }, &mut Turn { call: call.plain, ledger })
}
