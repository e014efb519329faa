//! The proved calls cut short: at every write of the compiled code, and by the kill of the process that makes them.
//!
//! That a wrong order of writes is noticed is seen in the model's own test of this name, which plays the old order of growth
//! each time that it runs. An archive from before the order was changed can be put in the place of today's:
//! `JAATURBAL_ARCHIVE=/path/to/libhost.a cargo test --test cut`, and both tests fail.

mod proved;

use jaaturbal_model::cut::{Found, Instants};
use jaaturbal_model::paper::Geometry;
use jaaturbal_model::{killed, stepped, watched};
use proved::{BENCH, HOUSE};

/// Page counts of two bytes, so that one written byte by byte would be seen in the middle.
const LONG_COUNTS: Geometry = Geometry { page: 2, pages: 128, blocks: 16, entries: 18 };

/// What has to have been found of each call: that it is cut before, within and after what recovery refuses.
const WANTED: [(&str, &[Found]); 6] = [
    ("lay", &[Found::Refused, Found::New]),
    ("move", &[Found::Refused, Found::New]),
    ("open", &[Found::Old, Found::New]),
    ("grow", &[Found::Refused, Found::Old, Found::New]),
    ("store", &[Found::New, Found::Mixed]),
    ("release", &[Found::Refused, Found::New]),
];

fn report(title: &str, instants: Result<Instants, String>) {
    let instants = instants.unwrap_or_else(|fault| panic!("{title}: {fault}"));
    print!("{title}, cut after each write\n{instants}");
    for (call, wanted) in WANTED {
        let missing: Vec<_> = wanted.iter().filter(|found| instants.of(Some(call), **found) == 0).collect();
        assert!(missing.is_empty(), "{title}: no {call} was cut where recovery finds {missing:?}");
    }
}

#[test]
fn at_every_write() {
    if !watched::SEEN {
        println!("no writes are seen on this machine: the trap flag is x86-64's");
        return;
    }
    report("BENCH", stepped::compiled(proved::make, BENCH, 16, 400, 7));
    report("long page counts", stepped::compiled(jaaturbal_any::make, LONG_COUNTS, 16, 100, 8));
}

#[test]
fn by_a_kill() {
    let kills = 300;
    let (instants, cut_short) = killed::kills(proved::make, HOUSE, kills, 9).unwrap_or_else(|fault| panic!("{fault}"));
    print!("HOUSE in a mapped file, {kills} kills, {cut_short} of them before the call was done\n{instants}");
    assert!(cut_short > 0, "no call was cut short");
}
