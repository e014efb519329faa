//! Random histories at a geometry with large tables. The image is mapped without reserving memory, and stands in two copies
//! that are kept alike.

use crate::calls::{Limits, View, draw};
use crate::compare::{Asked, judge};
use crate::damage;
use crate::geometries::Named;
use crate::memory::{Guarded, Side};
use crate::paper::{Call, Geometry, Lent, Manager, Version};
use crate::random::Random;
use crate::tables::{Wanted, drawn};
use crate::tally::{Tally, kinds};

const MOST_BUFFER: usize = 20 << 20;
const STEPS: u64 = 40;
const EARLY: u64 = 12;

struct Mapped<Name> {
    manager: Manager<Name>,
    name: Name,
    g: Geometry,
    random: Random,
    tally: Tally,
    ours: Guarded,
    model: Guarded,
    bytes: usize,
    index: Vec<u8>,
    rooms: [Guarded; 2],
    limits: Limits,
    compared: usize,
}

/// Images of few blocks, every byte compared after every call.
pub fn small<Name: Named>(manager: Manager<Name>, name: Name, histories: u64, seed: u64) -> Tally {
    let block = name.into().block_bytes();
    let mut tally = Tally::default();
    for history in 0..histories {
        let part = [0, 1, 4_096, 70_000][(history / 4 % 4) as usize];
        let blocks = if history % 9 == 0 { 0 } else { 1 + history % 4 };
        let bytes = ((blocks + 1) * block + part) as usize;
        let limits = Limits { pages: u64::MAX, bytes: MOST_BUFFER as u64 };
        let mut mapped = Mapped::new(manager, name, bytes, seed + history, limits, usize::MAX);
        for room in [&mut mapped.ours, &mut mapped.model] {
            // The data differ from zero, so that what growth must make zero is seen.
            let mut random = Random::new(seed + history);
            random.fill(&mut room.part(bytes, Side::Front)[block as usize..]);
        }
        mapped.history(false).unwrap_or_else(|fault| panic!("small history {history} of seed {seed}: {fault}"));
        tally.absorb(mapped.tally);
    }
    tally
}

/// The largest image: tables, and the data bytes that calls touch. Its pages are compared too, as to which were touched. The
/// first history starts with every block taken.
pub fn full<Name: Named>(manager: Manager<Name>, name: Name, histories: u64, seed: u64) -> Tally {
    let g = name.into();
    let bytes = ((g.blocks + 1) * g.block_bytes()) as usize;
    let limits = Limits { pages: 200, bytes: 300_000 };
    let mut mapped = Mapped::new(manager, name, bytes, seed, limits, g.front_bytes() + 4_096);
    for history in 0..histories {
        let made = mapped.history(history == 0);
        made.unwrap_or_else(|fault| panic!("full history {history} of seed {seed}: {fault}"));
        assert!(mapped.same_pages_touched(), "full history {history} of seed {seed}: other pages were touched");
        mapped.ours.clear();
        mapped.model.clear();
    }
    mapped.tally
}

impl<Name: Named> Mapped<Name> {
    fn new(
        manager: Manager<Name>,
        name: Name,
        bytes: usize,
        seed: u64,
        limits: Limits,
        compared: usize,
    ) -> Mapped<Name> {
        let g = name.into();
        Mapped {
            manager,
            name,
            g,
            random: Random::new(seed),
            tally: Tally::default(),
            ours: Guarded::new(bytes),
            model: Guarded::new(bytes),
            bytes,
            index: vec![0; g.index_bytes()],
            rooms: [2 * g.index_bytes(), MOST_BUFFER].map(Guarded::new),
            limits,
            compared,
        }
    }

    fn history(&mut self, all_taken: bool) -> Result<(), String> {
        let version = self.random.pick(&Version::ALL);
        self.make(Call::Lay(version), 0, self.bytes)?;
        let g = self.g;
        let capacity = g.capacity(self.bytes);
        if all_taken || self.random.percent(70) {
            let wanted = Wanted::any(g, capacity, &mut self.random);
            let taken = if all_taken { capacity } else { wanted.taken };
            let tables = drawn(g, &Wanted { taken, ..wanted }, &mut self.random);
            tables.write(g, self.ours.part(self.bytes, Side::Front));
            tables.write(g, self.model.part(self.bytes, Side::Front));
            self.make(Call::Recover, 0, self.bytes)?;
        }
        for step in 0..STEPS {
            if self.random.percent(50) { self.trial()? } else { self.step(None, step < EARLY, self.bytes)? }
        }
        Ok(())
    }

    /// A call on a damaged reserve or a damaged index, or with lengths that are wrong; what was damaged is then as before.
    fn trial(&mut self) -> Result<(), String> {
        let g = self.g;
        let front = g.front_bytes();
        let saved = self.model.part(front, Side::Front).to_vec();
        let saved_index = self.index.clone();
        let focus = Some(View::new(g, &saved).some_book(&mut self.random));
        for _ in 0..self.random.pick(&[1, 1, 2]) {
            let model = self.model.part(front, Side::Front);
            damage::anything(g, focus, model, &mut self.index, &mut self.random);
        }
        let damaged = self.model.part(front, Side::Front);
        self.ours.part(front, Side::Front).copy_from_slice(damaged);
        let unused = damage::unused(g, &mut self.random).filter(|_| self.random.percent(25));
        self.set_byte(unused, 1);
        let mut bytes = self.bytes;
        if self.random.percent(20) {
            bytes = damage::cut_image(&View::new(g, self.model.part(bytes, Side::Front)), &mut self.random);
        }
        if self.random.percent(6) {
            self.index.resize(damage::index_bytes(g, &mut self.random), 0);
        }
        self.step(focus, false, bytes)?;
        self.set_byte(unused, 0);
        self.index = saved_index;
        self.ours.part(front, Side::Front).copy_from_slice(&saved);
        self.model.part(front, Side::Front).copy_from_slice(&saved);
        Ok(())
    }

    /// The same byte in both copies, where a place is given.
    fn set_byte(&mut self, at: Option<usize>, byte: u8) {
        if let Some(at) = at {
            self.ours.part(self.bytes, Side::Front)[at] = byte;
            self.model.part(self.bytes, Side::Front)[at] = byte;
        }
    }

    fn step(&mut self, focus: Option<u64>, early: bool, bytes: usize) -> Result<(), String> {
        let view = View { g: self.g, image: self.model.part(bytes, Side::Front), focus };
        let (call, buffer) = draw(&view, early, &self.limits, &mut self.random);
        self.make(call, buffer, bytes)
    }

    /// Makes one call on both sides, with the first bytes of the image lent: all of them stand between both guards.
    fn make(&mut self, call: Call, buffer: usize, bytes: usize) -> Result<(), String> {
        let random = &mut self.random;
        let geometry = if random.percent(3) { self.name.refused(random) } else { self.name };
        let mut buffer = vec![0; buffer];
        random.fill(&mut buffer);
        let mut side = || random.pick(&[Side::Front, Side::Back]);
        let [index_room, buffer_room] = &mut self.rooms;
        let ours = Lent {
            image: self.ours.part(bytes, Side::Front),
            index: index_room.copy_of(&self.index, side()),
            buffer: buffer_room.copy_of(&buffer, side()),
        };
        let image = self.model.part(bytes, Side::Front);
        let on = kinds(&View::new(self.g, image));
        let model = Lent { image, index: &mut self.index, buffer: &mut buffer };
        let asked = Asked { geometry, call, compared: self.compared };
        let outcome = judge(self.manager, &asked, ours, model)?;
        self.tally.count(call, on, &outcome);
        Ok(())
    }

    fn same_pages_touched(&self) -> bool {
        let pages = |room: &Guarded| {
            let mut touched = Vec::new();
            room.touched_pages(|page| touched.push(page));
            touched
        };
        pages(&self.ours) == pages(&self.model)
    }
}
