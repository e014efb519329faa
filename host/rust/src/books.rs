//! An image with its index.

use crate::calls::{self, answer};
use crate::{Book, Geometry, Offset, Pages, Refusal};

/// An image of books, and the index that goes with it.
///
/// The image is anything that holds bytes: a `Vec<u8>`, memory mapped from a file, or a `&mut [u8]` that is only lent.
/// Lend it, or keep a copy, if it is to be at hand after [`Books::lay`] or [`Books::recover`] was refused.
#[derive(Clone, Debug)]
pub struct Books<I = Vec<u8>> {
    geometry: Geometry,
    image: I,
    index: Vec<u8>,
}

impl Books {
    /// Empty books in a fresh image of version 3 with room for so many blocks.
    pub fn new(geometry: Geometry, blocks: usize) -> Result<Books, Refusal> {
        Books::lay(geometry, vec![0; geometry.image_bytes(blocks)])
    }
}

impl<I: AsRef<[u8]> + AsMut<[u8]>> Books<I> {
    /// Empty books in an image whose first 16 bytes are zero, of version 3.
    pub fn lay(geometry: Geometry, mut image: I) -> Result<Books<I>, Refusal> {
        let mut index = vec![0; geometry.index_bytes()];
        answer(calls::lay(geometry.number(), image.as_mut(), &mut index))?;
        Ok(Books { geometry, image, index })
    }

    /// The same of version 2, for those who read nothing newer. Its books are all of edition 0: a name that was released comes
    /// to mean the next book of its region.
    pub fn lay_version_2(geometry: Geometry, mut image: I) -> Result<Books<I>, Refusal> {
        let mut index = vec![0; geometry.index_bytes()];
        answer(calls::lay_version_2(geometry.number(), image.as_mut(), &mut index))?;
        Ok(Books { geometry, image, index })
    }

    /// The books of an older memory, which has no header and no tables: so many pages of bytes from the first byte on. They
    /// become [`Book::ANONYMOUS`], byte for byte, in an image of version 2; it must have one whole block more than they need.
    ///
    /// The memory's first block is copied past its last one, and then its place becomes the header and the tables. A call that is
    /// cut short after the copy has destroyed the memory's own first block: move a copy.
    pub fn move_over(geometry: Geometry, mut image: I, pages: Pages) -> Result<Books<I>, Refusal> {
        let mut index = vec![0; geometry.index_bytes()];
        answer(calls::move_over(geometry.number(), image.as_mut(), &mut index, pages.0))?;
        Ok(Books { geometry, image, index })
    }

    /// The books that an image of either version holds: the index is worked out anew.
    pub fn recover(geometry: Geometry, image: I) -> Result<Books<I>, Refusal> {
        let mut index = vec![0; geometry.index_bytes()];
        answer(calls::recover(geometry.number(), image.as_ref(), &mut index))?;
        Ok(Books { geometry, image, index })
    }

    /// Opens an empty book.
    pub fn open(&mut self) -> Result<Book, Refusal> {
        answer(calls::open(self.geometry.number(), self.image.as_mut(), &mut self.index)).map(Book::opened)
    }

    /// Appends so many zeroed pages to a book, and tells how many it had.
    pub fn grow(&mut self, book: Book, pages: Pages) -> Result<Pages, Refusal> {
        let number = self.geometry.number();
        let Book { region, edition } = book;
        answer(calls::grow(number, self.image.as_mut(), &mut self.index, region, edition, pages.0)).map(Pages)
    }

    /// Fills the buffer with the book's bytes from an offset on.
    pub fn load(&self, book: Book, from: Offset, buffer: &mut [u8]) -> Result<(), Refusal> {
        let number = self.geometry.number();
        let Book { region, edition } = book;
        answer(calls::load(number, self.image.as_ref(), &self.index, region, edition, from.0, buffer)).map(drop)
    }

    /// Writes these bytes into the book from an offset on.
    pub fn store(&mut self, book: Book, at: Offset, bytes: &[u8]) -> Result<(), Refusal> {
        let number = self.geometry.number();
        let Book { region, edition } = book;
        answer(calls::store(number, self.image.as_mut(), &self.index, region, edition, at.0, bytes)).map(drop)
    }

    /// The pages of a book.
    pub fn size(&self, book: Book) -> Result<Pages, Refusal> {
        answer(calls::size(self.geometry.number(), self.image.as_ref(), book.region, book.edition)).map(Pages)
    }

    /// Closes a book. Its blocks are given to books that grow later, and in version 3 its name to none.
    pub fn release(&mut self, book: Book) -> Result<(), Refusal> {
        let number = self.geometry.number();
        let Book { region, edition } = book;
        answer(calls::release(number, self.image.as_mut(), &mut self.index, region, edition)).map(drop)
    }

    pub fn geometry(&self) -> Geometry {
        self.geometry
    }

    pub fn image(&self) -> &[u8] {
        self.image.as_ref()
    }

    /// The image without its index, which [`Books::recover`] can work out again.
    pub fn into_image(self) -> I {
        self.image
    }
}
