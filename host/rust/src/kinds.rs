//! Numbers of different kinds, which cannot be passed for one another.

use std::fmt;

/// How an image is divided.
#[derive(Clone, Copy, Debug, PartialEq, Eq, Hash)]
pub enum Geometry {
    /// Small, for trying things out: blocks of 8 pages of 64 bytes.
    Bench,
    /// The house's own: blocks of 128 pages of 64 KiB.
    House,
}

impl Geometry {
    /// The number by which the calls know it.
    pub const fn number(self) -> u32 {
        match self {
            Geometry::Bench => 0,
            Geometry::House => 1,
        }
    }

    pub const fn page_bytes(self) -> usize {
        match self {
            Geometry::Bench => 64,
            Geometry::House => 65_536,
        }
    }

    pub const fn pages_in_block(self) -> usize {
        match self {
            Geometry::Bench => 8,
            Geometry::House => 128,
        }
    }

    /// The most blocks that an image may hold.
    pub const fn blocks(self) -> usize {
        match self {
            Geometry::Bench => 16,
            Geometry::House => 32_768,
        }
    }

    /// The entries of the region table. Books that are opened have regions from 16 to this less 2.
    pub const fn regions(self) -> usize {
        match self {
            Geometry::Bench => 24,
            Geometry::House => 32_768,
        }
    }

    pub const fn block_bytes(self) -> usize {
        self.page_bytes() * self.pages_in_block()
    }

    /// The bytes of an image with room for so many blocks: one more block is reserved.
    pub const fn image_bytes(self, blocks: usize) -> usize {
        (blocks + 1) * self.block_bytes()
    }

    /// The bytes of the index.
    pub const fn index_bytes(self) -> usize {
        2 * (self.regions() + 1 + self.blocks())
    }
}

/// The name of a book: a region, and the edition of the book there, which counts how many were released from it before.
///
/// In an image of version 3 no name is given twice: that of a book that was released is refused for ever. An image of version 2 has
/// edition 0 only, and names a region's next book as it named the last.
#[derive(Clone, Copy, Debug, PartialEq, Eq, PartialOrd, Ord, Hash)]
pub struct Book {
    pub region: u32,
    pub edition: u32,
}

impl Book {
    /// The book that is there from the start and cannot be released.
    pub const ANONYMOUS: Book = Book::first(0);

    /// The first book of a region: in version 2 the only name that it has.
    pub const fn first(region: u32) -> Book {
        Book { region, edition: 0 }
    }

    /// The book that [`open`](crate::calls::open) answers: region + 65,536 × edition.
    pub const fn opened(value: u64) -> Book {
        Book { region: (value & 0xffff) as u32, edition: (value >> 16) as u32 }
    }
}

impl fmt::Display for Book {
    fn fmt(&self, out: &mut fmt::Formatter<'_>) -> fmt::Result {
        write!(out, "region {}, edition {}", self.region, self.edition)
    }
}

/// A count of pages.
#[derive(Clone, Copy, Debug, PartialEq, Eq, PartialOrd, Ord, Hash)]
pub struct Pages(pub u64);

/// A place in a book, in bytes from its start.
#[derive(Clone, Copy, Debug, PartialEq, Eq, PartialOrd, Ord, Hash)]
pub struct Offset(pub u64);
