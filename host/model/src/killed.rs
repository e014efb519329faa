//! A process that makes calls on an image in a mapped file, killed at some moment; and what is then found in the file.

use std::ffi::{c_int, c_long, c_void};
use std::fs::{self, File};
use std::io::Error;
use std::os::fd::AsRawFd;
use std::ptr;
use std::slice;
use std::sync::atomic::{AtomicU32, Ordering};
use std::time::{Duration, Instant};

use crate::cut::{Cut, Found, Instants};
use crate::geometries::Named;
use crate::paper::{self, Book, Call, Geometry, Lent, Manager, Version};
use crate::random::Random;

unsafe extern "C" {
    fn mmap(at: *mut c_void, bytes: usize, protection: c_int, flags: c_int, file: c_int, offset: c_long)
    -> *mut c_void;
    fn munmap(at: *mut c_void, bytes: usize) -> c_int;
    fn fork() -> c_int;
    fn kill(process: c_int, signal: c_int) -> c_int;
    fn waitpid(process: c_int, status: *mut c_int, options: c_int) -> c_int;
    fn _exit(status: c_int) -> !;
}

// As Linux numbers them, on x86-64 and on Arm alike.
const READ_WRITE: c_int = 3;
const SHARED: c_int = 1;
const SHARED_ANONYMOUS: c_int = 0x1 | 0x20;
const KILL: c_int = 9;

/// Memory that a process shares with those that it forks.
struct Shared {
    base: *mut u8,
    bytes: usize,
}

impl Shared {
    fn new(bytes: usize, flags: c_int, file: c_int) -> Shared {
        // SAFETY: a fresh mapping that nothing else knows of.
        let base = unsafe { mmap(ptr::null_mut(), bytes, READ_WRITE, flags, file, 0) };
        assert_ne!(base as isize, -1, "{}", Error::last_os_error());
        Shared { base: base.cast(), bytes }
    }

    /// A file of so many bytes, which has no name any more: it is gone with the mapping.
    fn file(bytes: usize) -> Shared {
        let path = std::env::temp_dir().join(format!("jaaturbal-killed-{}", std::process::id()));
        let file = File::options().read(true).write(true).create_new(true).open(&path).expect("a file to map");
        fs::remove_file(&path).expect("the file's name removed");
        file.set_len(bytes as u64).expect("a file of that length");
        Shared::new(bytes, SHARED, file.as_raw_fd())
    }

    fn bytes(&mut self) -> &mut [u8] {
        // SAFETY: the whole mapping; whoever else writes to it has been waited for.
        unsafe { slice::from_raw_parts_mut(self.base, self.bytes) }
    }
}

impl Drop for Shared {
    fn drop(&mut self) {
        // SAFETY: the whole mapping, made in `new`; no slice of it outlives it.
        unsafe { munmap(self.base.cast(), self.bytes) };
    }
}

/// A call to be killed in: what it is lent, and the books before and after it.
struct Case {
    call: Call,
    image: Vec<u8>,
    index: Vec<u8>,
    buffer: Vec<u8>,
    cut: Cut,
}

struct Desk<Name> {
    manager: Manager<Name>,
    name: Name,
    g: Geometry,
    image: Vec<u8>,
    index: Vec<u8>,
}

impl<Name: Named> Desk<Name> {
    /// Makes a call that is carried to its end.
    fn make(&mut self, call: Call, bytes: &mut [u8]) -> u64 {
        let lent = Lent { image: &mut self.image, index: &mut self.index, buffer: bytes };
        let (refusal, value) = paper::apart((self.manager)(self.name, call, lent));
        assert_eq!(refusal, 0, "{call:?}");
        value
    }

    fn opened(&mut self) -> Book {
        Book::opened(self.make(Call::Open, &mut []))
    }

    fn case(&self, call: Call, mut buffer: Vec<u8>) -> Case {
        let (mut after, mut index) = (self.image.clone(), self.index.clone());
        let lent = Lent { image: &mut after, index: &mut index, buffer: &mut buffer };
        assert!(paper::call(self.g, call, lent).is_ok(), "{call:?}");
        let cut = Cut::new(self.g, call, &self.image, &after);
        Case { call, image: self.image.clone(), index: self.index.clone(), buffer, cut }
    }

    /// A book with bytes in every page, released; another that has begun to grow over its blocks. Then the calls to be killed
    /// in, the growth by reused pages first: some of them in the block that the book holds, the others in reclaimed ones.
    fn cases(&mut self, random: &mut Random) -> Vec<Case> {
        self.make(Call::Lay(Version::Three), &mut []);
        let first = self.opened();
        self.make(Call::Grow { book: first, pages: HELD + GROWTH }, &mut []);
        let mut bids = vec![0; ((HELD + GROWTH) * self.g.page) as usize];
        random.fill(&mut bids);
        bids.iter_mut().for_each(|byte| *byte |= 1);
        self.make(Call::Store { book: first, offset: 0 }, &mut bids);
        self.make(Call::Release { book: first }, &mut []);
        let second = self.opened();
        self.make(Call::Grow { book: second, pages: HELD }, &mut []);
        let growth = Call::Grow { book: second, pages: GROWTH };
        let cut_in_growth = self.case(growth, Vec::new());
        self.make(growth, &mut []);
        let half = bids.len() / 2;
        let cut_in_store = self.case(Call::Store { book: second, offset: 7 }, bids[..half].to_vec());
        let cut_in_release = self.case(Call::Release { book: second }, Vec::new());
        vec![cut_in_growth, cut_in_store, cut_in_release]
    }
}

/// The pages that the second book has, and those by which it grows.
const HELD: u64 = 32;
const GROWTH: u64 = 300;

/// Kills so many processes that make a call on an image in a mapped file, four of five in a growth by reused pages. Answers
/// what was found, and how many of the calls were not done yet.
pub fn kills<Name: Named>(
    manager: Manager<Name>,
    name: Name,
    tries: u64,
    seed: u64,
) -> Result<(Instants, u64), String> {
    let g: Geometry = name.into();
    let mut random = Random::new(seed);
    let bytes = ((g.need(u128::from(HELD + GROWTH)) as u64 + 1) * g.block_bytes()) as usize;
    let mut desk = Desk { manager, name, g, image: vec![0; bytes], index: vec![0; g.index_bytes()] };
    let cases = desk.cases(&mut random);
    let mut file = Shared::file(bytes);
    let page = Shared::new(4_096, SHARED_ANONYMOUS, -1);
    // SAFETY: the page's first four bytes, which are only ever used so, and no longer than the page is there.
    let state = unsafe { &*page.base.cast::<AtomicU32>() };
    let mut whole = |case: &Case| {
        file.bytes().copy_from_slice(&case.image);
        let took = run(manager, name, case, &mut file, state, None);
        let found = case.cut.judge(file.bytes());
        assert_eq!(found, Ok(Found::New), "{:?} carried to its end", case.call);
        took
    };
    let quickest: Vec<Duration> =
        cases.iter().map(|case| (0..RUNS).map(|_| whole(case)).min().expect("some runs")).collect();
    let mut instants = Instants::default();
    let mut cut_short = 0;
    for kill in 0..tries {
        let nth = if random.below(5) < 4 { 0 } else { random.below(cases.len() as u64) as usize };
        let case = &cases[nth];
        file.bytes().copy_from_slice(&case.image);
        let wait = quickest[nth].mul_f64(random.below(1_000) as f64 / 1_000.0);
        run(manager, name, case, &mut file, state, Some(wait));
        cut_short += u64::from(state.load(Ordering::SeqCst) != DONE);
        let found = case.cut.judge(file.bytes()).map_err(|fault| format!("kill {kill}, {:?}: {fault}", case.call))?;
        instants.count(case.call, &[found]);
    }
    Ok((instants, cut_short))
}

/// Runs of a call that are carried to their end, to know how long it takes.
const RUNS: u64 = 5;

const NOT_BEGUN: u32 = 0;
const BEGUN: u32 = 1;
const DONE: u32 = 2;

/// Makes the call in a process of its own, which is killed so long after it began, or not at all. Answers how long it had.
fn run<Name: Named>(
    manager: Manager<Name>,
    name: Name,
    case: &Case,
    file: &mut Shared,
    state: &AtomicU32,
    killed: Option<Duration>,
) -> Duration {
    let (mut index, mut buffer) = (case.index.clone(), case.buffer.clone());
    let image = file.bytes();
    state.store(NOT_BEGUN, Ordering::SeqCst);
    // SAFETY: the child makes one call on memory that is there already, and ends; it asks for none and takes no lock.
    let child = unsafe { fork() };
    assert_ne!(child, -1, "{}", Error::last_os_error());
    if child == 0 {
        state.store(BEGUN, Ordering::SeqCst);
        manager(name, case.call, Lent { image, index: &mut index, buffer: &mut buffer });
        state.store(DONE, Ordering::SeqCst);
        // SAFETY: the child's end.
        unsafe { _exit(0) };
    }
    until(|| state.load(Ordering::SeqCst) != NOT_BEGUN);
    let begun = Instant::now();
    match killed {
        Some(wait) => {
            until(|| begun.elapsed() >= wait);
            // SAFETY: the child, which nobody has waited for yet.
            unsafe { kill(child, KILL) };
        }
        None => until(|| state.load(Ordering::SeqCst) == DONE),
    }
    let took = begun.elapsed();
    let mut status = 0;
    // SAFETY: as above.
    assert_eq!(unsafe { waitpid(child, &mut status, 0) }, child, "{}", Error::last_os_error());
    took
}

/// Waits without a rest, since what is waited for comes within microseconds.
fn until(come: impl Fn() -> bool) {
    while !come() {
        std::hint::spin_loop();
    }
}
