//! One sale: a book is opened and bids are added to it; the index is lost; the image alone brings every bid back.

use std::error::Error;

use jaaturbal::{Book, Books, Geometry, Offset, Pages, Refusal};

const BID_BYTES: u64 = 16;

/// A bid as it stands in the book: lot, bidder and amount.
#[derive(Debug, PartialEq)]
struct Bid {
    lot: u32,
    bidder: u32,
    amount: u64,
}

impl Bid {
    fn bytes(&self) -> [u8; BID_BYTES as usize] {
        let mut bytes = [0; BID_BYTES as usize];
        bytes[..4].copy_from_slice(&self.lot.to_le_bytes());
        bytes[4..8].copy_from_slice(&self.bidder.to_le_bytes());
        bytes[8..].copy_from_slice(&self.amount.to_le_bytes());
        bytes
    }

    fn from_bytes(bytes: [u8; BID_BYTES as usize]) -> Bid {
        let [l0, l1, l2, l3, b0, b1, b2, b3, amount @ ..] = bytes;
        Bid {
            lot: u32::from_le_bytes([l0, l1, l2, l3]),
            bidder: u32::from_le_bytes([b0, b1, b2, b3]),
            amount: u64::from_le_bytes(amount),
        }
    }
}

/// Adds a bid after so many others. The book grows by a page when it is full.
fn append(books: &mut Books, sale: Book, before: u64, bid: &Bid) -> Result<(), Refusal> {
    let at = Offset(before * BID_BYTES);
    if let Err(Refusal::BeyondBook) = books.store(sale, at, &bid.bytes()) {
        books.grow(sale, Pages(1))?;
        books.store(sale, at, &bid.bytes())?;
    }
    Ok(())
}

/// Opens books until one has this region: a region is opened again when all others were given out.
fn opened_in(books: &mut Books, region: u32) -> Result<Book, Refusal> {
    loop {
        let book = books.open()?;
        if book.region == region {
            return Ok(book);
        }
    }
}

fn main() -> Result<(), Box<dyn Error>> {
    let mut books = Books::new(Geometry::Bench, 16)?;
    let sale = books.open()?;
    let bids: Vec<Bid> =
        (0..50).map(|n| Bid { lot: 7, bidder: 100 + n % 3, amount: 1_000 + 25 * u64::from(n) }).collect();
    for (before, bid) in (0..).zip(&bids) {
        append(&mut books, sale, before, bid)?;
    }
    println!("{} bids in {sale}, {} pages", bids.len(), books.size(sale)?.0);

    let image = books.into_image();
    println!("the index is thrown away; {} bytes of image remain", image.len());

    let mut books = Books::recover(Geometry::Bench, image)?;
    for (before, bid) in (0..).zip(&bids) {
        let mut bytes = [0; BID_BYTES as usize];
        books.load(sale, Offset(before * BID_BYTES), &mut bytes)?;
        if Bid::from_bytes(bytes) != *bid {
            return Err(format!("bid {before} was not read back").into());
        }
    }
    println!("all {} bids read back", bids.len());

    let refused = books.load(sale, Offset(0), &mut [0; 4_096]);
    println!("a load that is too long: {}", refused.expect_err("the book is shorter"));

    books.release(sale)?;
    let other = opened_in(&mut books, sale.region)?;
    books.grow(other, Pages(1))?;
    let refused = books.store(sale, Offset(0), &bids[0].bytes());
    println!("{other} is another sale; a bid for {sale}: {}", refused.expect_err("the name is stale"));
    Ok(())
}
