//! The plain manager gives the paper's answers, in both versions: a comparison with one that does less would flatter.

use jaaturbal_bench::plain;
use jaaturbal_model::{desk, made_up, mapped};

const BENCH: u32 = 0;
const HOUSE: u32 = 1;

#[test]
fn bench_histories() {
    let tally = desk::at_one(plain::make, BENCH, 200_000, 1);
    print!("{tally}");
    assert_eq!(tally.missing(), Vec::<String>::new());
}

#[test]
fn made_up_images() {
    assert!(made_up::tried(plain::make, BENCH).total() > 10_000);
}

#[test]
fn house_images() {
    let tally = mapped::small(plain::make, HOUSE, 16, 2);
    print!("{tally}");
    let tally = mapped::full(plain::make, HOUSE, 16, 3);
    print!("{tally}");
}
