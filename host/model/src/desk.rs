//! Random histories on images of few blocks, every byte compared after every call.

use crate::calls::{Limits, View, draw};
use crate::compare::{Asked, judge};
use crate::damage;
use crate::geometries::{self, EDGES, Named};
use crate::memory::{Guarded, Side};
use crate::paper::{Call, Geometry, Lent, Manager, Version};
use crate::random::Random;
use crate::tables::{Wanted, drawn};
use crate::tally::{Tally, kinds};

const STEPS: u64 = 60;
const EARLY: u64 = 15;

/// What a call is made on.
#[derive(Clone, Default)]
struct State {
    image: Vec<u8>,
    index: Vec<u8>,
}

struct Desk<Name> {
    manager: Manager<Name>,
    name: Name,
    g: Geometry,
    random: Random,
    tally: Tally,
    /// Blocks, the reserve among them, of an image that is long enough for all that is tried.
    full: u64,
    rooms: [Guarded; 3],
}

/// Blocks of an image past those that are of any use.
const BEYOND: u64 = 3;

/// Makes at least so many calls at one geometry, in histories of some dozens each, and counts the answers.
pub fn at_one<Name: Named>(manager: Manager<Name>, name: Name, calls: u64, seed: u64) -> Tally {
    let mut desk = Desk::new(manager, name, 16, Random::new(seed));
    let mut history = 0;
    while desk.tally.total() < calls {
        desk.history(STEPS).unwrap_or_else(|fault| panic!("history {history} of seed {seed}: {fault}"));
        history += 1;
    }
    desk.tally
}

/// A history at each of so many geometries: the edges first, with few blocks and calls, then those drawn.
pub fn at_each(manager: Manager<Geometry>, geometries: u64, seed: u64) -> Tally {
    let mut random = Random::new(seed);
    let drawn: Vec<Geometry> = (0..geometries).map(|_| geometries::drawn(&mut random)).collect();
    let edges = EDGES.iter().map(|g| (*g, 2, 20));
    let mut tally = Tally::default();
    for (nth, (g, blocks, steps)) in edges.chain(drawn.into_iter().map(|g| (g, 8, 40))).enumerate() {
        let mut desk = Desk::new(manager, g, blocks, Random::new(seed + nth as u64));
        desk.history(steps).unwrap_or_else(|fault| panic!("geometry {nth} of seed {seed}: {fault}"));
        tally.absorb(desk.tally);
    }
    tally
}

impl<Name: Named> Desk<Name> {
    /// For images of so many data blocks, or of all that the geometry has.
    fn new(manager: Manager<Name>, name: Name, blocks: u64, random: Random) -> Desk<Name> {
        let g = name.into();
        let full = blocks.min(g.blocks) + 1;
        let most = ((full + BEYOND) * g.block_bytes()) as usize;
        let rooms = [most, g.index_bytes() + 2, most].map(Guarded::new);
        Desk { manager, name, g, random, tally: Tally::default(), full, rooms }
    }

    fn history(&mut self, mut steps: u64) -> Result<(), String> {
        let early = steps - EARLY;
        let mut state = self.fresh();
        match self.random.below(10) {
            0..5 => {
                let version = self.random.pick(&Version::ALL);
                self.make(Call::Lay(version), 0, &mut state)?;
            }
            5 => {
                let pages = View::new(self.g, &state.image).older(&mut self.random);
                self.make(Call::Move { pages }, 0, &mut state)?;
            }
            _ => {
                self.draw_tables(&mut state);
                self.make(Call::Recover, 0, &mut state)?;
            }
        }
        while steps > 0 {
            steps -= 1;
            if !self.random.percent(40) {
                self.step(None, steps > early, &mut state)?;
                continue;
            }
            let mut damaged = state.clone();
            let focus = View::new(self.g, &state.image).some_book(&mut self.random);
            self.damage(focus, &mut damaged);
            self.step(Some(focus), false, &mut damaged)?;
            if self.random.percent(8) {
                // The history goes on from the damaged state, which soon has nothing more to show.
                state = damaged;
                steps = steps.min(8);
            }
        }
        Ok(())
    }

    fn fresh(&mut self) -> State {
        let Desk { g, full, ref mut random, .. } = *self;
        let block = g.block_bytes();
        let bytes = match random.below(20) {
            0 => random.below(block),
            1..6 => random.between(1, full) * block,
            6..10 => random.between(block, full * block),
            10 | 11 => random.between(full * block, (full + BEYOND) * block),
            _ => full * block,
        };
        let mut state = State { image: vec![0; bytes as usize], index: vec![0; g.index_bytes()] };
        if random.percent(80) {
            random.fill(&mut state.image);
            random.fill(&mut state.index);
            let blank = if random.percent(95) { state.image.len().min(16) } else { 0 };
            state.image[..blank].fill(0);
        }
        if random.percent(10) && state.image.len() >= 16 {
            state.image[random.below(16) as usize] = random.between(1, 255) as u8;
        }
        state
    }

    fn draw_tables(&mut self, state: &mut State) {
        let g = self.g;
        if state.image.len() as u64 >= g.block_bytes() {
            let wanted = Wanted::any(g, g.capacity(state.image.len()), &mut self.random);
            drawn(g, &wanted, &mut self.random).write(g, &mut state.image);
            if self.random.percent(95) {
                state.image[g.unused()].fill(0);
            }
        }
    }

    fn damage(&mut self, focus: u64, state: &mut State) {
        let Desk { g, ref mut random, .. } = *self;
        for _ in 0..random.pick(&[1, 1, 1, 2, 3]) {
            damage::anything(g, Some(focus), &mut state.image, &mut state.index, random);
        }
        if random.percent(12) {
            let cut = damage::cut_image(&View::new(g, &state.image), random);
            state.image.truncate(cut);
        }
        if random.percent(4) {
            state.index.resize(damage::index_bytes(g, random), 0);
        }
    }

    fn step(&mut self, focus: Option<u64>, early: bool, state: &mut State) -> Result<(), String> {
        let view = View { g: self.g, image: &state.image, focus };
        let limits = Limits { pages: u64::MAX, bytes: (self.full + BEYOND) * self.g.block_bytes() };
        let (call, buffer) = draw(&view, early, &limits, &mut self.random);
        self.make(call, buffer, state)
    }

    /// Makes one call on both sides. The manager's side is lent against guards, now before and now behind.
    fn make(&mut self, call: Call, buffer: usize, state: &mut State) -> Result<(), String> {
        let random = &mut self.random;
        let geometry = if random.percent(1) { self.name.refused(random) } else { self.name };
        let mut buffer = vec![0; buffer];
        random.fill(&mut buffer);
        let [image_room, index_room, buffer_room] = &mut self.rooms;
        let mut side = || random.pick(&[Side::Front, Side::Back]);
        let ours = Lent {
            image: image_room.copy_of(&state.image, side()),
            index: index_room.copy_of(&state.index, side()),
            buffer: buffer_room.copy_of(&buffer, side()),
        };
        let on = kinds(&View::new(self.g, &state.image));
        let model = Lent { image: &mut state.image, index: &mut state.index, buffer: &mut buffer };
        let asked = Asked { geometry, call, compared: usize::MAX };
        let outcome = judge(self.manager, &asked, ours, model)?;
        self.tally.count(call, on, &outcome);
        Ok(())
    }
}
