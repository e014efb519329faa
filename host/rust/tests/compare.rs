//! The proved calls against the model of documents 01 and 02, in both versions: every answer, and every byte of image, index
//! and buffer. And against their own answers, as a clerk notes them down.

mod proved;

use jaaturbal_model::clerk::{self, Seen};
use jaaturbal_model::paper::{Geometry, WIDEST};
use jaaturbal_model::tally::Tally;
use jaaturbal_model::{desk, made_up, mapped};
use proved::{BENCH, HOUSE};

/// The fewest regions that a geometry can have: 16 is the only one that open gives.
const ONE_REGION: Geometry = Geometry { page: 164, pages: 1, blocks: 1, entries: 18 };

/// The widest tables, in a reserve that is hardly larger: every block can be mapped.
const WIDE_TABLES: Geometry = Geometry { page: 6_145, ..WIDEST };

fn report(title: &str, tally: &Tally) {
    print!("{title}: {} calls, by answer\n{tally}", tally.total());
    assert_eq!(tally.missing(), Vec::<String>::new(), "an answer that can be had was never given");
}

#[test]
fn bench_histories() {
    report("BENCH", &desk::at_one(proved::make, BENCH, 1_000_000, 1));
}

/// Version 3 around one region, with an edition at each edge.
#[test]
fn made_up_images() {
    let mut tally = made_up::tried(proved::make, BENCH);
    tally.absorb(made_up::tried(jaaturbal_any::make, ONE_REGION));
    print!("made-up images: {} calls, by answer\n{tally}", tally.total());
    assert!(tally.total() > 20_000);
}

#[test]
fn books_by_region_and_edition() {
    for seen in [clerk::kept(proved::make, BENCH, 1_000, 7), clerk::kept(jaaturbal_any::make, ONE_REGION, 1_000, 8)] {
        println!("{seen:?}");
        let Seen { calls, given_again, gone_closed, gone_reopened, taken_for_another, worn_out, only_worn_out } = seen;
        let all = [given_again, gone_closed, gone_reopened, taken_for_another, worn_out, only_worn_out];
        assert!(calls > 100_000 && all.iter().all(|times| *times > 0), "something was never seen");
    }
}

#[test]
fn house_images() {
    let mut tally = mapped::small(proved::make, HOUSE, 60, 2);
    tally.absorb(mapped::full(proved::make, HOUSE, 100, 3));
    report("HOUSE", &tally);
}

#[test]
fn any_geometry() {
    let mut tally = desk::at_each(jaaturbal_any::make, 20_000, 4);
    tally.absorb(mapped::small(jaaturbal_any::make, WIDEST, 4, 5));
    tally.absorb(mapped::full(jaaturbal_any::make, WIDE_TABLES, 12, 6));
    report("any geometry", &tally);
}
