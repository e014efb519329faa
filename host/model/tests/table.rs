//! The model itself, held to the bench table of document 01, case by case, and to what document 02 adds.

use jaaturbal_model::paper::{
    BENCH, Book, Call, Geometry, HOUSE, Lent, Outcome, Tables, Version, WIDEST, Why, answered, apart, call, number,
};

/// A book of version 2, or the first of its region in version 3.
fn first(region: u32) -> Book {
    Book { region, edition: 0 }
}

#[derive(Clone)]
struct Bench {
    image: Vec<u8>,
    index: Vec<u8>,
}

impl Bench {
    fn new() -> Bench {
        Bench { image: vec![0; 8_704], index: vec![0; BENCH.index_bytes()] }
    }

    fn with(&mut self, made: Call, buffer: &mut [u8]) -> Outcome {
        call(BENCH, made, Lent { image: &mut self.image, index: &mut self.index, buffer })
    }

    /// Refusal and value.
    fn make(&mut self, made: Call) -> (u64, u64) {
        apart(answered(&self.with(made, &mut [])))
    }

    fn load(&mut self, offset: u64, bytes: usize) -> u64 {
        apart(answered(&self.with(Call::Load { book: first(16), offset }, &mut vec![0; bytes]))).0
    }

    fn entry(&self, block: u64) -> &[u8] {
        &self.image[BENCH.entry_at(block)..BENCH.entry_at(block) + 4]
    }

    fn index_numbers(&self) -> Vec<u64> {
        self.index.chunks(2).map(number).collect()
    }

    /// An image whose region 2, kept back, has so many pages, in the first blocks. Its bytes are not zero; no index is made.
    fn with_region_2(pages: u64) -> Bench {
        let mut bench = Bench::new();
        let mut tables = Tables::empty(BENCH, Version::Two);
        tables.books[2] = Some(pages);
        tables.taken = pages.div_ceil(8).min(16);
        (0..tables.taken).for_each(|block| tables.blocks[block as usize] = (2, block));
        tables.write(BENCH, &mut bench.image);
        bench.image[512..].fill(7);
        bench
    }

    /// Cases 1 to 3.
    fn third_case() -> Bench {
        let mut bench = Bench::new();
        assert_eq!(bench.make(Call::Lay(Version::Two)), (0, 0));
        assert_eq!(bench.image[..16], [0, 0, 0, 0, 2, 0, 0, 0, 0, 0, 16, 0, 0, 0, 0, 0]);
        assert!((0..16).all(|block| bench.entry(block) == [0x17, 0, 0, 0]));
        assert_eq!(bench.make(Call::Lay(Version::Two)), (12, 0));
        assert_eq!(bench.make(Call::Open), (0, 16));
        assert_eq!(bench.make(Call::Open), (0, 17));
        assert_eq!(bench.make(Call::Grow { book: first(16), pages: 8 }), (0, 0));
        assert_eq!(bench.make(Call::Grow { book: first(17), pages: 8 }), (0, 0));
        assert_eq!(bench.make(Call::Grow { book: first(16), pages: 1 }), (0, 8));
        assert_eq!(number(&bench.image[8..10]), 3);
        assert_eq!(bench.entry(2), [0x10, 0, 1, 0]);
        bench
    }
}

#[test]
fn index_of_case_4() {
    let starts = [vec![0; 17], vec![2], vec![3; 7]].concat();
    let slots = [vec![0, 2, 1], vec![65_535; 13]].concat();
    assert_eq!(Bench::third_case().index_numbers(), [starts, slots].concat());
}

#[test]
fn bytes_of_cases_5_and_6() {
    let mut bench = Bench::third_case();
    let before = bench.image.clone();
    assert!(bench.with(Call::Store { book: first(16), offset: 510 }, &mut [1, 2, 3, 4]).is_ok());
    let changed: Vec<usize> = (0..8_704).filter(|at| bench.image[*at] != before[*at]).collect();
    assert_eq!(changed, [1_022, 1_023, 1_536, 1_537]);
    assert_eq!([bench.load(575, 1), bench.load(576, 0), bench.load(576, 1), bench.load(577, 0)], [0, 0, 9, 9]);
}

#[test]
fn cut_of_case_7() {
    let mut bench = Bench::third_case();
    bench.image.truncate(2_048);
    assert_eq!(bench.make(Call::Recover), (0, 0));
    bench.image.truncate(2_047);
    assert_eq!(bench.make(Call::Recover), (5, 0));
}

#[test]
fn release_and_growth_of_cases_8_to_10() {
    let mut bench = Bench::third_case();
    bench.image[1_536..1_600].fill(9);
    assert_eq!(bench.make(Call::Release { book: first(16) }), (0, 0));
    assert_eq!([bench.entry(0), bench.entry(2)], [[1, 0, 0, 0], [1, 0, 1, 0]]);
    assert_eq!(number(&bench.image[BENCH.pages_at(Version::Two, 1)]), 16);
    assert_eq!(bench.make(Call::Grow { book: first(17), pages: 1 }), (0, 8));
    assert_eq!(bench.entry(2), [0x11, 0, 1, 0]);
    assert_eq!(number(&bench.image[8..10]), 3);
    assert_eq!(bench.image[1_536..1_600], [0; 64]);
    assert_eq!(bench.make(Call::Grow { book: first(17), pages: 120 }), (10, 0));
    assert_eq!(bench.make(Call::Grow { book: first(17), pages: u64::MAX }), (10, 0));
    assert_eq!(bench.make(Call::Grow { book: first(17), pages: 0 }), (0, 9));
    assert_eq!(bench.make(Call::Grow { book: first(17), pages: 119 }), (0, 9));
}

#[test]
fn regions_of_case_11() {
    let mut bench = Bench::new();
    bench.make(Call::Lay(Version::Two));
    assert!((16..=22).all(|region| bench.make(Call::Open) == (0, region)));
    assert_eq!(bench.make(Call::Open), (11, 0));
    assert_eq!(bench.make(Call::Release { book: first(18) }), (0, 0));
    assert_eq!(bench.make(Call::Open), (0, 18));
}

#[test]
fn repeat_of_case_12() {
    let mut bench = Bench::third_case();
    bench.image[16..20].copy_from_slice(&[0x11, 0, 0, 0]);
    assert_eq!(bench.with(Call::Recover, &mut []).err(), Some(Why::DSamePair));
}

#[test]
fn region_2_is_found_and_not_called() {
    for pages in [1, 8, 9, 127, 128] {
        let mut bench = Bench::with_region_2(pages);
        assert_eq!(bench.make(Call::Recover), (0, 0));
        let blocks = pages.div_ceil(8);
        let slots: Vec<u64> = (0..blocks).chain((blocks..16).map(|_| 65_535)).collect();
        assert_eq!(bench.index_numbers(), [vec![0; 3], vec![blocks; 22], slots].concat());
        let before = bench.clone();
        for made in [
            Call::Size { book: first(2) },
            Call::Grow { book: first(2), pages: 0 },
            Call::Grow { book: first(2), pages: 1 },
            Call::Load { book: first(2), offset: 0 },
            Call::Store { book: first(2), offset: 0 },
            Call::Release { book: first(2) },
        ] {
            assert_eq!(bench.make(made), (8, 0), "{made:?}");
        }
        assert!(bench.image == before.image && bench.index == before.index);
    }
    let too_many = Bench::with_region_2(129).with(Call::Recover, &mut []).err();
    assert_eq!(too_many, Some(Why::BKeptBackTooManyPages));
}

/// Growth beside region 2 is refused exactly when its blocks and the grown book's exceed K. Region 2 stays as it was found.
#[test]
fn growth_beside_region_2() {
    for (pages, growth) in (0..=128).flat_map(|pages| (0..=136).map(move |growth| (pages, growth))) {
        let mut bench = Bench::with_region_2(pages);
        assert_eq!(bench.make(Call::Recover), (0, 0));
        assert_eq!(bench.make(Call::Open), (0, 16));
        let exceed = u64::div_ceil(pages, 8) + u64::div_ceil(growth, 8) > 16;
        assert_eq!(bench.make(Call::Grow { book: first(16), pages: growth }), if exceed { (10, 0) } else { (0, 0) });
        assert_eq!(bench.make(Call::Release { book: first(16) }), (0, 0));
        let blocks = u64::div_ceil(pages, 8);
        assert!((0..blocks).all(|block| bench.entry(block) == [2, 0, block as u8, 0]));
        assert_eq!(Tables::read(BENCH, &bench.image).books[2], Some(pages));
        assert!(bench.image[512..512 * (1 + blocks as usize)].iter().all(|byte| *byte == 7));
    }
}

/// Between the tables and the end of the reserve lay leaves zeros, and recovery refuses a byte that is none, wherever it stands. No other
/// call looks at it.
#[test]
fn unused_reserve_of_request_9() {
    let mut bench = Bench::new();
    bench.image[16..].fill(7);
    assert_eq!(bench.make(Call::Lay(Version::Two)), (0, 0));
    assert!(BENCH.unused() == (272..512) && bench.image[272..512] == [0; 240]);
    assert!(bench.image[512..].iter().all(|byte| *byte == 7));
    assert_eq!(bench.make(Call::Recover), (0, 0));
    for at in 272..512 {
        let mut spoilt = bench.clone();
        spoilt.image[at] = 1;
        assert_eq!(spoilt.make(Call::Recover), (16, 0), "byte {at}");
        assert_eq!(spoilt.make(Call::Open), (0, 16));
        assert_eq!(spoilt.make(Call::Grow { book: first(16), pages: 9 }), (0, 0));
        assert_eq!(spoilt.image[at], 1);
        // 16 comes before 5, and after 4.
        spoilt.image.truncate(512);
        assert_eq!(spoilt.make(Call::Recover), (16, 0));
        spoilt.image[4] = 1;
        assert_eq!(spoilt.make(Call::Recover), (4, 0));
    }
}

/// Tables that end where the reserve does leave nothing to look at.
#[test]
fn no_unused_reserve() {
    let g = Geometry { page: 164, pages: 1, blocks: 1, entries: 18 };
    let (mut image, mut index) = (vec![7; 328], vec![7; g.index_bytes()]);
    image[..16].fill(0);
    for made in [Call::Lay(Version::Two), Call::Recover] {
        assert!(call(g, made, Lent { image: &mut image, index: &mut index, buffer: &mut [] }).is_ok());
    }
    assert!(g.unused().is_empty() && image[164..] == [7; 164]);
}

/// An older memory of any page count that fits, moved over, reads as it did; and the history goes on from there.
#[test]
fn older_memories_of_request_2() {
    let memory: Vec<u8> = (0..9_216_usize).map(|place| (place % 251) as u8).collect();
    for (pages, bytes) in
        (0..=136).flat_map(|pages| [0, 1, 511, 512].map(|more| (pages, u64::div_ceil(pages, 8) * 512 + more)))
    {
        let mut bench = Bench { image: memory[..bytes as usize].to_vec(), index: vec![7; 82] };
        let k = u64::div_ceil(pages, 8);
        let before = bench.clone();
        let refusal = match (bytes, k) {
            (..512, _) => 3,
            (_, 17..) => 13,
            _ if bytes < (k + 1) * 512 => 13,
            _ => 0,
        };
        assert_eq!(bench.make(Call::Move { pages }), (refusal, 0), "{pages} pages in {bytes} bytes");
        if refusal != 0 {
            assert!(bench.image == before.image && bench.index == before.index);
            continue;
        }
        let index = bench.index.clone();
        assert_eq!(bench.make(Call::Recover), (0, 0));
        assert_eq!(bench.index, index);
        assert_eq!(bench.make(Call::Size { book: first(0) }), (0, pages));
        let mut book = vec![0; pages as usize * 64];
        assert!(bench.with(Call::Load { book: first(0), offset: 0 }, &mut book).is_ok());
        assert!(book == memory[..book.len()], "{pages} pages in {bytes} bytes");
        assert_eq!(bench.make(Call::Open), (0, 16));
    }
    let mut bench = Bench { image: memory, index: vec![7; 82] };
    assert_eq!(bench.make(Call::Move { pages: u64::MAX }), (13, 0));
}

#[test]
fn ceilings_of_request_7() {
    assert!(BENCH.allowed() && HOUSE.allowed() && WIDEST.allowed());
    for beyond in [
        Geometry { page: 65_537, ..WIDEST },
        Geometry { pages: 129, ..WIDEST },
        Geometry { blocks: 65_536, ..WIDEST },
        Geometry { entries: 65_537, ..WIDEST },
        Geometry { page: u64::MAX, pages: u64::MAX, blocks: u64::MAX, entries: u64::MAX },
        Geometry { page: 1 << 32, pages: 1 << 32, blocks: 1 << 62, entries: 1 << 61 },
    ] {
        assert!(!beyond.allowed(), "{beyond:?}");
    }
    // The smallest tables have 164 bytes.
    let smallest = Geometry { page: 2, pages: 82, blocks: 1, entries: 18 };
    assert!(smallest.allowed());
    assert!(!Geometry { pages: 81, ..smallest }.allowed());
    assert!(!Geometry { entries: 17, ..smallest }.allowed());
}
