//! Versions and editions, request R-12 of document 02: the model held to the request's sentences.

use jaaturbal_model::clerk::{self, Seen};
use jaaturbal_model::made_up::MadeUp;
use jaaturbal_model::paper::{
    BENCH, Book, Call, Geometry, LAST_EDITION, Lent, Outcome, Tables, Version, Why, answered, apart, call, number,
};

const LAST: u32 = u32::MAX;

fn named(region: u32, edition: u32) -> Book {
    Book { region, edition }
}

#[derive(Clone, PartialEq)]
struct Bench {
    image: Vec<u8>,
    index: Vec<u8>,
}

impl Bench {
    fn laid(version: Version) -> Bench {
        let mut bench = Bench { image: vec![0; 8_704], index: vec![7; BENCH.index_bytes()] };
        assert_eq!(bench.make(Call::Lay(version)), (0, 0));
        bench
    }

    fn of(tables: &Tables) -> Bench {
        let mut bench = Bench { image: vec![0; 8_704], index: tables.recovered(BENCH) };
        tables.write(BENCH, &mut bench.image);
        bench
    }

    fn with(&mut self, made: Call, buffer: &mut [u8]) -> Outcome {
        call(BENCH, made, Lent { image: &mut self.image, index: &mut self.index, buffer })
    }

    /// Refusal and value.
    fn make(&mut self, made: Call) -> (u64, u64) {
        apart(answered(&self.with(made, &mut [])))
    }

    fn open(&mut self) -> Book {
        let (refusal, value) = self.make(Call::Open);
        assert_eq!(refusal, 0);
        Book::opened(value)
    }

    /// Releases a book and opens its region anew, so many times.
    fn open_again(&mut self, book: Book, times: u32) -> Book {
        (0..times).fold(book, |book, _| {
            assert_eq!(self.make(Call::Release { book }), (0, 0));
            self.open()
        })
    }

    fn region_entry(&self, region: u64) -> &[u8] {
        &self.image[BENCH.region_at(region)..BENCH.region_at(region + 1)]
    }
}

/// Every call that names this book, each with what would be refused after 18 as well: 9 or 10, where the call has one of them.
fn naming(book: Book) -> [Call; 5] {
    [
        Call::Size { book },
        Call::Load { book, offset: 1 << 40 },
        Call::Store { book, offset: 1 << 40 },
        Call::Grow { book, pages: 1 << 40 },
        Call::Release { book },
    ]
}

#[test]
fn entries_of_both_versions() {
    let mut two = Bench::laid(Version::Two);
    let mut three = Bench::laid(Version::Three);
    assert_eq!([number(&two.image[4..8]), number(&three.image[4..8])], [2, 3]);
    for region in 0..24 {
        let (of_two, of_three) =
            if region < 16 { ([0; 8], [0; 8]) } else { ([255; 8], [255, 255, 255, 255, 0, 0, 0, 0]) };
        assert_eq!((two.region_entry(region), three.region_entry(region)), (&of_two[..], &of_three[..]));
    }
    // Nothing else differs: not the blocks' entries, not the index.
    assert!(two.image[8..80] == three.image[8..80] && two.index == three.index);
    for bench in [&mut two, &mut three] {
        let book = bench.open();
        assert_eq!(book, named(16, 0));
        assert_eq!(bench.make(Call::Grow { book, pages: 9 }), (0, 0));
        assert_eq!(bench.region_entry(16), [9, 0, 0, 0, 0, 0, 0, 0]);
        assert_eq!(bench.make(Call::Release { book }), (0, 0));
    }
    assert_eq!(two.region_entry(16), [255; 8]);
    assert_eq!(three.region_entry(16), [255, 255, 255, 255, 1, 0, 0, 0]);
}

/// Case 11, amended for version 3.
#[test]
fn case_11_of_version_3() {
    let mut bench = Bench::laid(Version::Three);
    assert!((16..=22).all(|region| bench.open() == named(region, 0)));
    assert_eq!(bench.make(Call::Open), (11, 0));
    assert_eq!(bench.make(Call::Release { book: named(18, 0) }), (0, 0));
    assert_eq!(bench.make(Call::Open), (0, 18 + 65_536));
    assert_eq!(bench.open_again(named(18, 1), 400), named(18, 401));
}

/// A clerk stored into region 18 after it had been released and opened for another sale.
#[test]
fn the_clerk_of_the_request() {
    let mut bench = Bench::laid(Version::Three);
    (16..=22).for_each(|region| assert_eq!(bench.open(), named(region, 0)));
    let mut gone = Vec::new();
    for edition in 0..20 {
        let sale = named(18, edition);
        assert_eq!(bench.make(Call::Grow { book: sale, pages: 2 }), (0, 0));
        assert!(bench.with(Call::Store { book: sale, offset: 0 }, &mut [edition as u8; 128]).is_ok());
        let before = bench.clone();
        for stale in gone.iter().copied().flat_map(naming) {
            assert_eq!(bench.make(stale), (18, 0), "{stale:?}");
        }
        assert!(bench == before);
        assert_eq!(bench.make(Call::Release { book: sale }), (0, 0));
        gone.push(sale);
        let before = bench.clone();
        for stale in gone.iter().copied().chain([named(18, edition + 1)]).flat_map(naming) {
            assert_eq!(bench.make(stale), (8, 0), "{stale:?}: the region is not open, whatever the edition");
        }
        assert!(bench == before);
        assert_eq!(bench.open(), named(18, edition + 1));
    }
}

/// 18 comes straight after 8, so before 6 of one book, 9, 7 and 10; and after 7 where the whole tables are asked first.
#[test]
fn order_of_18() {
    let mut bench = Bench::laid(Version::Three);
    let book = bench.open();
    let wrong = named(16, 1);
    assert_eq!(bench.make(Call::Grow { book, pages: 9 }), (0, 0));
    for made in naming(wrong) {
        assert_eq!(bench.clone().make(made), (18, 0), "{made:?}");
    }
    // 9 and 10 once the edition is right.
    let answers = naming(book).map(|made| bench.clone().make(made));
    assert_eq!(answers, [(0, 9), (9, 0), (9, 0), (10, 0), (0, 0)]);

    let mut spoilt = bench.clone();
    spoilt.index.fill(0);
    let mut load = |book| apart(answered(&spoilt.with(Call::Load { book, offset: 536 }, &mut [0; 8]))).0;
    assert_eq!((load(wrong), load(book)), (18, 7));
    // Grow and release ask 7 first, of the whole index.
    for made in [Call::Grow { book: wrong, pages: 1 }, Call::Release { book: wrong }] {
        assert_eq!(spoilt.make(made), (7, 0), "{made:?}");
    }

    // More pages than a book may have: 6 for load, store and size, after 8 and 18; for grow and release before them.
    let mut many = bench.clone();
    many.image[BENCH.region_at(16)] = 129;
    assert_eq!(naming(wrong).map(|made| many.clone().make(made).0), [18, 18, 18, 6, 6]);
    assert_eq!(naming(book).map(|made| many.clone().make(made).0), [6; 5]);

    // 8 before 18: kept back, no region, not open, and for release region 0.
    for region in [1, 2, 15, 17, 22, 23, 24, 65_535, 65_552, u32::MAX] {
        for edition in [0, 1, LAST] {
            for made in naming(named(region, edition)) {
                assert_eq!(bench.clone().make(made), (8, 0), "{made:?}");
            }
        }
    }
    let answers = naming(named(0, 1)).map(|made| bench.clone().make(made).0);
    assert_eq!(answers, [18, 18, 18, 18, 8]);
}

#[test]
fn version_2_takes_edition_0_only() {
    let mut bench = Bench::laid(Version::Two);
    (16..=22).for_each(|region| assert_eq!(bench.open(), named(region, 0)));
    for edition in [1, 2, LAST - 1, LAST] {
        for made in naming(named(18, edition)) {
            assert_eq!(bench.clone().with(made, &mut []).err(), Some(Why::EditionOfVersion2), "{made:?}");
        }
    }
    // The region is given again by the same name: what the request is about.
    assert_eq!(bench.make(Call::Release { book: named(18, 0) }), (0, 0));
    assert_eq!(bench.open(), named(18, 0));
    // The upper half of a page count is none of an edition's.
    bench.image[BENCH.edition_at(18)].fill(1);
    assert_eq!(bench.make(Call::Size { book: named(18, 0x0101_0101) }), (18, 0));
    assert_eq!(bench.make(Call::Size { book: named(18, 0) }), (6, 0));
}

/// Recovery's answer on images made up around one region, told by the sentences of rule a one by one.
#[test]
fn rule_a_of_made_up_images() {
    let mut answers = [0; 2];
    for made_up in MadeUp::all(BENCH) {
        let MadeUp { counter, region, open, edition } = made_up;
        let fixed_not_open = region < 16 && !open;
        let open_from_counter = region >= counter && open;
        let at_last = open && edition == 4_294_967_295;
        let not_released = region < 16 || region >= counter;
        let wrong = fixed_not_open || open_from_counter || at_last || (not_released && edition != 0);
        let mut bench = Bench::of(&made_up.tables(BENCH));
        assert_eq!(bench.make(Call::Recover), (if wrong { 6 } else { 0 }, 0), "{made_up:?}");
        answers[usize::from(wrong)] += 1;
    }
    assert!(answers.iter().all(|images| *images > 40), "{answers:?}");
}

/// And each new sentence by an image that breaks it alone.
#[test]
fn each_new_sentence_alone() {
    let alone = |counter, region, open, edition| {
        let made_up = MadeUp { counter, region, open, edition };
        made_up.tables(BENCH).well_formed(BENCH).err()
    };
    for edition in [1, LAST_EDITION - 1] {
        assert!((0..16).all(|region| alone(20, region, true, edition) == Some(Why::AFixedEdition)));
        assert!((20..24).all(|region| alone(20, region, false, edition) == Some(Why::AEditionFromCounter)));
        assert!((16..20).all(|region| alone(20, region, true, edition).is_none()));
    }
    assert!((16..20).all(|region| alone(20, region, true, LAST_EDITION) == Some(Why::AOpenAtLastEdition)));
    assert!((16..20).all(|region| alone(20, region, false, LAST_EDITION).is_none()));
}

/// What open gives, and what calls by any edition answer, on those made-up images that recovery accepts.
#[test]
fn calls_on_made_up_images() {
    let mut opened = [0; 3];
    for made_up in MadeUp::all(BENCH) {
        let MadeUp { counter, region, open, edition } = made_up;
        let mut bench = Bench::of(&made_up.tables(BENCH));
        if bench.make(Call::Recover).0 != 0 {
            continue;
        }
        let gives = match () {
            () if counter < 23 => (0, counter),
            () if (16..=22).contains(&region) && !open && edition < LAST_EDITION => (0, region + 65_536 * edition),
            () => (11, 0),
        };
        assert_eq!(bench.clone().make(Call::Open), gives, "{made_up:?}");
        opened[if counter < 23 { 0 } else { 1 + usize::from(gives.0 == 11) }] += 1;
        for called in [0, 1, LAST - 1, LAST] {
            let right = if (1..16).contains(&region) || region == 23 || !open {
                (8, 0)
            } else if u64::from(called) != edition {
                (18, 0)
            } else {
                (0, 0)
            };
            let size = Call::Size { book: named(region as u32, called) };
            assert_eq!(bench.clone().make(size), right, "{made_up:?}, {size:?}");
        }
    }
    assert!(opened.iter().all(|images| *images > 0), "{opened:?}");
}

/// Open passes over a region at its last edition; a release at the last but one brings it there.
#[test]
fn the_last_edition() {
    let mut tables = MadeUp { counter: 23, region: 18, open: true, edition: LAST_EDITION - 1 }.tables(BENCH);
    tables.books[20] = None;
    tables.editions[20] = 5;
    let mut bench = Bench::of(&tables);
    assert_eq!(bench.make(Call::Release { book: named(18, LAST - 1) }), (0, 0));
    assert_eq!(bench.region_entry(18), [255; 8]);
    assert_eq!(bench.make(Call::Recover), (0, 0));
    assert_eq!(bench.open(), named(20, 5));
    assert_eq!(bench.with(Call::Open, &mut []).err(), Some(Why::OnlyLastEditions));
    for edition in [0, LAST - 1, LAST] {
        assert_eq!(bench.make(Call::Size { book: named(18, edition) }), (8, 0));
    }
    assert_eq!(bench.make(Call::Release { book: named(20, 5) }), (0, 0));
    assert_eq!(bench.open(), named(20, 6));
}

/// Version 2's tables under a header of version 3, and the other way round: rule a refuses both.
#[test]
fn versions_are_not_mistaken() {
    for (version, other) in [(Version::Two, 3), (Version::Three, 2)] {
        let mut bench = Bench::laid(version);
        bench.image[4] = other;
        assert_eq!(bench.make(Call::Recover), (6, 0));
    }
    let mut bench = Bench::laid(Version::Three);
    for told in [0, 1, 4, 255] {
        bench.image[4] = told;
        assert_eq!(bench.make(Call::Recover), (4, 0));
    }
}

#[test]
fn a_move_makes_version_2() {
    for mut bench in Version::ALL.map(Bench::laid) {
        assert_eq!(bench.make(Call::Move { pages: 9 }), (0, 0));
        assert_eq!(number(&bench.image[4..8]), 2);
        assert_eq!(bench.make(Call::Size { book: named(0, 0) }), (0, 9));
        assert_eq!(bench.make(Call::Size { book: named(0, 1) }), (18, 0));
        assert_eq!(bench.region_entry(16), [255; 8]);
    }
}

fn model(g: Geometry, made: Call, lent: Lent<'_>) -> u64 {
    answered(&call(g, made, lent))
}

/// The model's own answers, held to what they say: books by region and edition.
#[test]
fn the_clerk_keeps_the_books() {
    let few = Geometry { page: 7, pages: 30, blocks: 3, entries: 19 };
    for g in [BENCH, few] {
        let seen = clerk::kept(model, g, 200, 1);
        let Seen { calls, given_again, gone_closed, gone_reopened, taken_for_another, worn_out, only_worn_out } = seen;
        assert!(calls > 10_000, "{seen:?}");
        let all = [given_again, gone_closed, gone_reopened, taken_for_another, worn_out, only_worn_out];
        assert!(all.iter().all(|times| *times > 0), "{seen:?}");
    }
}
