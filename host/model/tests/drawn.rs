//! The tables that are drawn: well-formed all, and of every kind as to the books kept back and the editions.

use jaaturbal_model::made_up::EDGES;
use jaaturbal_model::paper::{BENCH, KEPT_BACK, LAST_EDITION, Tables, Version};
use jaaturbal_model::random::Random;
use jaaturbal_model::tables::{Wanted, drawn};

/// Pages of a book, or none.
fn pages(tables: &Tables, region: usize) -> u64 {
    tables.books[region].unwrap_or(0)
}

fn many(seed: u64) -> Vec<Tables> {
    let mut random = Random::new(seed);
    let mut all = Vec::new();
    for _ in 0..4_000 {
        let wanted = Wanted::any(BENCH, 16, &mut random);
        let tables = drawn(BENCH, &wanted, &mut random);
        assert_eq!(tables.well_formed(BENCH), Ok(()));
        all.push(tables);
    }
    all
}

/// Each edge in open regions and in such that are not, but for the last edition, at which no region is open; the largest region
/// among them.
#[test]
fn editions_of_all_kinds() {
    let all = many(5);
    let (two, three): (Vec<&Tables>, Vec<&Tables>) = all.iter().partition(|tables| tables.version == Version::Two);
    assert!(two.iter().all(|tables| tables.editions.iter().all(|edition| *edition == 0)));
    let some = |region: usize, open: bool, edition: u64| {
        three.iter().any(|tables| tables.books[region].is_some() == open && tables.editions[region] == edition)
    };
    for (region, edition) in [16, 17, 22].into_iter().flat_map(|region| EDGES.map(|edition| (region, edition))) {
        assert!(some(region, false, edition), "region {region}, edition {edition}, not open");
        assert_eq!(some(region, true, edition), edition != LAST_EDITION, "region {region}, edition {edition}, open");
    }
    // Every region given out, and none that could be opened.
    let worn_out =
        |region: usize, tables: &Tables| tables.books[region].is_some() || tables.editions[region] == LAST_EDITION;
    let none_left = |tables: &&Tables| tables.counter == 23 && (16..23).all(|region| worn_out(region, tables));
    assert!(
        three
            .iter()
            .filter(|tables| none_left(tables))
            .any(|tables| (16..23).any(|region| tables.books[region].is_none()))
    );
}

#[test]
fn books_kept_back() {
    let all = many(4);
    let some = |kind: fn(&Tables) -> bool| all.iter().any(kind);
    assert!(KEPT_BACK.into_iter().all(|region| all.iter().any(|tables| pages(tables, region) > 0)));
    assert!(some(|tables| KEPT_BACK.into_iter().all(|region| pages(tables, region) == 0) && tables.taken == 16));
    assert!(some(|tables| pages(tables, 2) > 0 && pages(tables, 15) > 0));
    assert!(some(|tables| pages(tables, 15) > 0 && pages(tables, 1) > 0 && pages(tables, 16) > 0));
    // Regions that have the whole image to themselves, with as many pages as a book may have, and with a part of a block.
    assert!(some(|tables| pages(tables, 15) == BENCH.most_book_pages()));
    assert!(some(|tables| tables.taken == 16 && (121..128).contains(&pages(tables, 2))));
}
