//! Images of version 3 made up around one region: open or not, below C or from C on, with an edition at each edge. Each
//! sentence that request R-12 of document 02 adds to rule a is broken by some of them, which break nothing else.

use crate::calls::View;
use crate::compare::{Asked, judge};
use crate::geometries::Named;
use crate::paper::{Book, Call, Geometry, LAST_EDITION, Lent, Manager, Tables, Version};
use crate::tally::{Tally, kinds};

/// The editions at which something changes.
pub const EDGES: [u64; 4] = [0, 1, LAST_EDITION - 1, LAST_EDITION];

/// All regions below the counter are open, empty and of edition 0, but for this one.
#[derive(Clone, Copy, Debug)]
pub struct MadeUp {
    pub counter: u64,
    pub region: u64,
    pub open: bool,
    pub edition: u64,
}

impl MadeUp {
    pub fn all(g: Geometry) -> Vec<MadeUp> {
        let mut all = Vec::new();
        for counter in [16, 17, g.entries - 2, g.entries - 1] {
            let mut regions = vec![0, 1, 2, 15, 16, 17, counter - 1, counter, g.entries - 2, g.entries - 1];
            regions.sort_unstable();
            regions.dedup();
            for (region, open) in regions.iter().flat_map(|region| [(*region, false), (*region, true)]) {
                all.extend(EDGES.map(|edition| MadeUp { counter, region, open, edition }));
            }
        }
        all
    }

    pub fn tables(&self, g: Geometry) -> Tables {
        let mut tables = Tables::empty(g, Version::Three);
        tables.counter = self.counter;
        (16..self.counter).for_each(|region| tables.books[region as usize] = Some(0));
        tables.books[self.region as usize] = self.open.then_some(0);
        tables.editions[self.region as usize] = self.edition;
        tables
    }

    /// The calls that are made on it: those that name its region do so by each edge, by its own edition and by those beside it.
    pub fn calls(&self) -> Vec<Call> {
        let mut editions: Vec<u32> = EDGES.iter().map(|edition| *edition as u32).collect();
        let edition = self.edition as u32;
        editions.extend([edition, edition.wrapping_sub(1), edition.wrapping_add(1)]);
        let mut calls = vec![Call::Recover, Call::Open];
        for edition in editions {
            let book = Book { region: self.region as u32, edition };
            calls.extend([0, 1].map(|offset| Call::Load { book, offset }));
            calls.extend([0, 1].map(|offset| Call::Store { book, offset }));
            calls.extend([0, 1, u64::MAX].map(|pages| Call::Grow { book, pages }));
            calls.extend([Call::Size { book }, Call::Release { book }]);
        }
        calls
    }
}

/// Makes every call on every such image, each image with the index that its tables would have, and counts the answers.
pub fn tried<Name: Named>(manager: Manager<Name>, name: Name) -> Tally {
    let g = name.into();
    let mut tally = Tally::default();
    for made_up in MadeUp::all(g) {
        let tables = made_up.tables(g);
        let mut lent_image = vec![0; 2 * g.block_bytes() as usize];
        tables.write(g, &mut lent_image);
        let lent_index = tables.recovered(g);
        for call in made_up.calls() {
            let (mut image, mut index) = (lent_image.clone(), lent_index.clone());
            let (mut our_image, mut our_index) = (image.clone(), index.clone());
            let ours = Lent { image: &mut our_image, index: &mut our_index, buffer: &mut [] };
            let model = Lent { image: &mut image, index: &mut index, buffer: &mut [] };
            let asked = Asked { geometry: name, call, compared: usize::MAX };
            let outcome = judge(manager, &asked, ours, model).unwrap_or_else(|fault| panic!("{made_up:?}: {fault}"));
            tally.count(call, kinds(&View::new(g, &lent_image)), &outcome);
        }
    }
    tally
}
