//! The two managers, call by call, at HOUSE; and recovery at the widest geometry.

use jaaturbal::calls;
use jaaturbal_model::paper::{self as model, Book, Call, Lent, Version, WIDEST};

use crate::plain::{self, packed};

/// The geometry's number.
const HOUSE: u32 = 1;

/// A load or a store.
pub type ByteCall = fn(image: &mut [u8], index: &[u8], book: Book, offset: u64, buffer: &mut [u8]) -> u64;

/// A call that works on the tables. Lay, move, open and recover make nothing of the book.
pub type TableCall = fn(image: &mut [u8], index: &mut [u8], book: Book) -> u64;

/// A call as both make it.
#[derive(Clone, Copy)]
pub struct Both<Call> {
    pub name: &'static str,
    pub proved: Call,
    pub plain: Call,
}

pub const LOAD: Both<ByteCall> = Both {
    name: "load",
    proved: |image, index, book, offset, buffer| {
        calls::load(HOUSE, image, index, book.region, book.edition, offset, buffer)
    },
    plain: |image, index, book, offset, buffer| packed(plain::load(HOUSE, image, index, book, offset, buffer)),
};

pub const STORE: Both<ByteCall> = Both {
    name: "store",
    proved: |image, index, book, offset, bytes| {
        calls::store(HOUSE, image, index, book.region, book.edition, offset, bytes)
    },
    plain: |image, index, book, offset, bytes| packed(plain::store(HOUSE, image, index, book, offset, bytes)),
};

/// Of version 3, over a header that is zeroed first, on both sides alike.
pub const LAY: Both<TableCall> = Both {
    name: "lay",
    proved: |image, index, _| {
        image[..16].fill(0);
        calls::lay(HOUSE, image, index)
    },
    plain: |image, index, _| {
        image[..16].fill(0);
        packed(plain::lay(HOUSE, Version::Three, image, index))
    },
};

/// An older memory that takes up all of the image but its last block, to which its first goes.
pub const MOVE: Both<TableCall> = Both {
    name: "move",
    proved: |image, index, _| {
        let pages = older(image);
        calls::move_over(HOUSE, image, index, pages)
    },
    plain: |image, index, _| {
        let pages = older(image);
        packed(plain::move_over(HOUSE, image, index, pages))
    },
};

fn older(image: &[u8]) -> u64 {
    (image.len() as u64 / model::HOUSE.block_bytes() - 1) * model::HOUSE.pages
}

pub const OPEN: Both<TableCall> = Both {
    name: "open",
    proved: |image, index, _| calls::open(HOUSE, image, index),
    plain: |image, index, _| packed(plain::open(HOUSE, image, index)),
};

/// One page, for which the book needs a new block.
pub const GROW: Both<TableCall> = Both {
    name: "grow",
    proved: |image, index, book| calls::grow(HOUSE, image, index, book.region, book.edition, 1),
    plain: |image, index, book| packed(plain::grow(HOUSE, image, index, book, 1)),
};

pub const RELEASE: Both<TableCall> = Both {
    name: "release",
    proved: |image, index, book| calls::release(HOUSE, image, index, book.region, book.edition),
    plain: |image, index, book| packed(plain::release(HOUSE, image, index, book)),
};

pub const RECOVER: Both<TableCall> = Both {
    name: "recover",
    proved: |image, index, _| calls::recover(HOUSE, image, index),
    plain: |image, index, _| packed(plain::recover(HOUSE, image, index)),
};

/// At the widest geometry, which a host cannot name: both are told its four numbers.
pub const RECOVER_WIDEST: Both<TableCall> = Both {
    name: "recover",
    proved: |image, index, _| jaaturbal_any::make(WIDEST, Call::Recover, Lent { image, index, buffer: &mut [] }),
    plain: |image, index, _| packed(plain::recover_at(plain::WIDEST, image, index)),
};
