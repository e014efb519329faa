//! `Books` and the bench table of document 01 through it; and how an answer is taken apart.

use jaaturbal::calls::{VALUE_BITS, answer};
use jaaturbal::{Book, Books, Geometry, Offset, Pages, Refusal};

/// The books after the table's third case: 16 with 9 pages, 17 with 8.
fn third_case() -> Books {
    let mut books = Books::new(Geometry::Bench, 16).unwrap();
    assert_eq!(books.open(), Ok(Book::first(16)));
    assert_eq!(books.open(), Ok(Book::first(17)));
    assert_eq!(books.grow(Book::first(16), Pages(8)), Ok(Pages(0)));
    assert_eq!(books.grow(Book::first(17), Pages(8)), Ok(Pages(0)));
    assert_eq!(books.grow(Book::first(16), Pages(1)), Ok(Pages(8)));
    books
}

#[test]
fn bytes_cross_blocks() {
    let mut books = third_case();
    books.store(Book::first(16), Offset(510), &[1, 2, 3, 4]).unwrap();
    let image = books.image();
    assert_eq!([image[1022], image[1023], image[1536], image[1537]], [1, 2, 3, 4]);
    let mut bytes = [0; 6];
    books.load(Book::first(16), Offset(509), &mut bytes).unwrap();
    assert_eq!(bytes, [0, 1, 2, 3, 4, 0]);
}

#[test]
fn the_end_of_a_book() {
    let books = third_case();
    let load = |offset, bytes: usize| books.load(Book::first(16), Offset(offset), &mut vec![0; bytes]);
    assert_eq!([load(575, 1), load(576, 0)], [Ok(()), Ok(())]);
    assert_eq!([load(576, 1), load(577, 0), load(u64::MAX, 1)], [Err(Refusal::BeyondBook); 3]);
}

#[test]
fn a_cut_image() {
    let image = third_case().into_image();
    assert_eq!(Books::recover(Geometry::Bench, &mut image.clone()[..2047]).err(), Some(Refusal::TailMissing));
    assert!(Books::recover(Geometry::Bench, &mut image.clone()[..2048]).is_ok());
    assert_eq!(Books::lay(Geometry::Bench, image).err(), Some(Refusal::NotBlank));
}

#[test]
fn released_blocks_are_used_again() {
    let mut books = third_case();
    books.store(Book::first(16), Offset(512), &[9; 64]).unwrap();
    books.release(Book::first(16)).unwrap();
    assert_eq!(books.size(Book::first(16)), Err(Refusal::RegionNotUsable));
    assert_eq!(books.grow(Book::first(17), Pages(1)), Ok(Pages(8)));
    assert_eq!(books.image()[1536..1600], [0; 64]);
    assert_eq!(books.grow(Book::first(17), Pages(120)), Err(Refusal::NoBlocksLeft));
    assert_eq!(books.grow(Book::first(17), Pages(u64::MAX)), Err(Refusal::NoBlocksLeft));
    assert_eq!(books.grow(Book::first(17), Pages(119)), Ok(Pages(9)));
}

#[test]
fn regions_run_out() {
    let mut books = Books::new(Geometry::Bench, 16).unwrap();
    let opened: Vec<_> = (0..7).map(|_| books.open()).collect();
    assert_eq!(opened, (16..=22).map(|region| Ok(Book::first(region))).collect::<Vec<_>>());
    assert_eq!(books.open(), Err(Refusal::NoRegionLeft));
    books.release(Book::first(18)).unwrap();
    assert_eq!(books.open(), Ok(Book { region: 18, edition: 1 }));
}

/// A name that was released is refused, by 8 and then, when its region is opened for another, by 18. In version 2 it comes to
/// mean that other.
#[test]
fn stale_names() {
    for (version_2, laid) in [(false, Books::lay as fn(_, _) -> _), (true, Books::lay_version_2)] {
        let mut books = laid(Geometry::Bench, vec![0; 8_704]).unwrap();
        let sales: Vec<Book> = (0..7).map(|_| books.open().unwrap()).collect();
        let stale = sales[2];
        books.grow(stale, Pages(1)).unwrap();
        books.release(stale).unwrap();
        assert_eq!(books.store(stale, Offset(0), b"bid"), Err(Refusal::RegionNotUsable));
        let other = books.open().unwrap();
        books.grow(other, Pages(1)).unwrap();
        assert_eq!((other.region, other == stale), (stale.region, version_2));
        let (named, refused) =
            if version_2 { (Book { edition: 1, ..stale }, Ok(())) } else { (stale, Err(Refusal::EditionWrong)) };
        assert_eq!(books.store(stale, Offset(0), b"bid"), refused);
        let before = books.image().to_vec();
        assert_eq!(books.store(named, Offset(0), b"bad"), Err(Refusal::EditionWrong));
        assert_eq!(books.load(named, Offset(0), &mut [0; 3]), Err(Refusal::EditionWrong));
        assert_eq!(books.size(named), Err(Refusal::EditionWrong));
        assert_eq!(books.grow(named, Pages(u64::MAX)), Err(Refusal::EditionWrong));
        assert_eq!(books.release(named), Err(Refusal::EditionWrong));
        assert_eq!(books.image(), before);
    }
}

/// An older memory of 17 pages, moved over, reads as it did, and can grow.
#[test]
fn an_older_memory() {
    let memory: Vec<u8> = (0..2_048).map(|place| (place % 251) as u8).collect();
    assert_eq!(
        Books::move_over(Geometry::Bench, &mut memory.clone()[..2_047], Pages(17)).err(),
        Some(Refusal::TooFewBlocks)
    );
    let mut books = Books::move_over(Geometry::Bench, memory.clone(), Pages(17)).unwrap();
    let mut bytes = vec![0; 17 * 64];
    books.load(Book::ANONYMOUS, Offset(0), &mut bytes).unwrap();
    assert_eq!(bytes, memory[..17 * 64]);
    assert_eq!(books.size(Book::ANONYMOUS), Ok(Pages(17)));
    assert_eq!(books.grow(Book::ANONYMOUS, Pages(7)), Ok(Pages(17)));
    assert_eq!(books.grow(Book::ANONYMOUS, Pages(1)), Err(Refusal::NoBlocksLeft));
    let again = Books::recover(Geometry::Bench, books.into_image()).unwrap();
    assert_eq!(again.size(Book::ANONYMOUS), Ok(Pages(24)));
}

#[test]
fn answers_are_taken_apart() {
    let largest = (1 << VALUE_BITS) - 1;
    assert_eq!([answer(0), answer(1 << 32), answer(largest)], [Ok(0), Ok(1 << 32), Ok(largest)]);
    assert_eq!(answer(1 << VALUE_BITS), Err(Refusal::GeometryNotAllowed));
    assert_eq!(answer(12 << VALUE_BITS), Err(Refusal::NotBlank));
    assert_eq!(answer(18 << VALUE_BITS), Err(Refusal::EditionWrong));
    // The largest region and the last edition but one, which is the largest that open gives.
    let value = 65_534 + 65_536 * u64::from(u32::MAX - 1);
    assert_eq!(answer(value).map(Book::opened), Ok(Book { region: 65_534, edition: u32::MAX - 1 }));
    assert_eq!(Book::opened(18 + 65_536).to_string(), "region 18, edition 1");
}

#[test]
fn refusals_have_words() {
    let words: Vec<String> =
        (1..=13).chain([16, 18]).map(|number| Refusal::numbered(number).unwrap().to_string()).collect();
    assert!(words.iter().all(|words| words.len() > 10));
    assert_eq!((Refusal::numbered(0), Refusal::numbered(17)), (None, None));
}
