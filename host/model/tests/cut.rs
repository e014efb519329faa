//! That the judge of calls cut short notices a wrong order of writes: the growths of the model, played in both orders.

use jaaturbal_model::cut::Found;
use jaaturbal_model::paper::BENCH;
use jaaturbal_model::stepped::{Order, played};

#[test]
fn zeros_first_shows_nothing() {
    let instants = played(BENCH, Order::ZerosFirst, 16, 200, 1).unwrap_or_else(|fault| panic!("{fault}"));
    print!("growths of the model, zeros first\n{instants}");
    assert!([Found::Refused, Found::Old, Found::New].iter().all(|found| instants.of(Some("grow"), *found) > 0));
}

/// The old order, which let a released book's bytes be read in the new one.
#[test]
fn tables_first_is_noticed() {
    let faults = (0..200).filter_map(|seed| played(BENCH, Order::TablesFirst, 16, 1, seed).err());
    let (bytes, pages): (Vec<String>, Vec<String>) = faults.partition(|fault| fault.contains(" shows "));
    println!("growths of the model, tables first: of 200 histories {} show bytes of before", bytes.len());
    println!("and {} a page count that no call gave", pages.len());
    assert!(bytes.iter().chain(&pages).all(|fault| fault.contains("Grow")), "a fault of another call");
    for fault in [&bytes, &pages] {
        println!("  {}", fault.first().expect("a growth that writes its tables first and its zeros last is noticed"));
    }
}
