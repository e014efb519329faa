//! The proved calls as they are: numbers and byte slices.
//!
//! A geometry is a number, 0 for BENCH and 1 for HOUSE; any other is refused. Each call answers one number, the refusal's
//! number × 2^56 plus the value, which [`answer`] takes apart. After a refusal no lent byte has changed. The slices may hold
//! anything and have any length.
//!
//! A book is named by its region and its edition, as open gave them. In an image of version 2 the edition is always 0.

use crate::Refusal;

mod proved {
    unsafe extern "C" {
        pub fn book_lay(geometry: u32, image: *mut u8, image_bytes: usize, index: *mut u8, index_bytes: usize) -> u64;
        pub fn book_lay_version_2(
            geometry: u32,
            image: *mut u8,
            image_bytes: usize,
            index: *mut u8,
            index_bytes: usize,
        ) -> u64;
        pub fn book_move(
            geometry: u32,
            image: *mut u8,
            image_bytes: usize,
            index: *mut u8,
            index_bytes: usize,
            pages: u64,
        ) -> u64;
        pub fn book_open(geometry: u32, image: *mut u8, image_bytes: usize, index: *mut u8, index_bytes: usize) -> u64;
        pub fn book_grow(
            geometry: u32,
            image: *mut u8,
            image_bytes: usize,
            index: *mut u8,
            index_bytes: usize,
            region: u32,
            edition: u32,
            pages: u64,
        ) -> u64;
        pub fn book_load(
            geometry: u32,
            image: *const u8,
            image_bytes: usize,
            index: *const u8,
            index_bytes: usize,
            region: u32,
            edition: u32,
            offset: u64,
            buffer: *mut u8,
            buffer_bytes: usize,
        ) -> u64;
        pub fn book_store(
            geometry: u32,
            image: *mut u8,
            image_bytes: usize,
            index: *const u8,
            index_bytes: usize,
            region: u32,
            edition: u32,
            offset: u64,
            bytes: *const u8,
            bytes_bytes: usize,
        ) -> u64;
        pub fn book_size(geometry: u32, image: *const u8, image_bytes: usize, region: u32, edition: u32) -> u64;
        pub fn book_release(
            geometry: u32,
            image: *mut u8,
            image_bytes: usize,
            index: *mut u8,
            index_bytes: usize,
            region: u32,
            edition: u32,
        ) -> u64;
        pub fn book_recover(
            geometry: u32,
            image: *const u8,
            image_bytes: usize,
            index: *mut u8,
            index_bytes: usize,
        ) -> u64;
    }
}

// Every call below is sound for one reason: it lends slices, each with its own length; those that may be written are
// borrowed by nobody else, so that they overlap with no other; and the calls keep none of them.

/// The bits of an answer that hold the value. Those above hold the refusal's number.
pub const VALUE_BITS: u32 = 56;

/// The value of an answer, or its refusal.
pub fn answer(answered: u64) -> Result<u64, Refusal> {
    match (answered >> VALUE_BITS) as u32 {
        0 => Ok(answered),
        number => Err(Refusal::numbered(number).expect("a refusal of the table")),
    }
}

/// Writes header and tables of an empty image of version 3, and its index. Refused if the image's first 16 bytes are not zero.
pub fn lay(geometry: u32, image: &mut [u8], index: &mut [u8]) -> u64 {
    unsafe { proved::book_lay(geometry, image.as_mut_ptr(), image.len(), index.as_mut_ptr(), index.len()) }
}

/// The same of version 2, whose books are all of edition 0: a region that was released is opened again by the same name.
pub fn lay_version_2(geometry: u32, image: &mut [u8], index: &mut [u8]) -> u64 {
    unsafe { proved::book_lay_version_2(geometry, image.as_mut_ptr(), image.len(), index.as_mut_ptr(), index.len()) }
}

/// Makes an image of version 2 of an older memory of so many pages, which become the book of region 0. Answers 0.
///
/// The memory's first block is copied past its last one, and then its place becomes the header and the tables. A call that is
/// cut short after the copy has destroyed the memory's own first block: move a copy.
pub fn move_over(geometry: u32, image: &mut [u8], index: &mut [u8], pages: u64) -> u64 {
    let (image, image_bytes) = (image.as_mut_ptr(), image.len());
    let (index, index_bytes) = (index.as_mut_ptr(), index.len());
    unsafe { proved::book_move(geometry, image, image_bytes, index, index_bytes, pages) }
}

/// Opens an empty book, and answers region + 65,536 × edition, which [`Book::opened`](crate::Book::opened) takes apart.
pub fn open(geometry: u32, image: &mut [u8], index: &mut [u8]) -> u64 {
    unsafe { proved::book_open(geometry, image.as_mut_ptr(), image.len(), index.as_mut_ptr(), index.len()) }
}

/// Appends zeroed pages to a book, and answers how many it had.
pub fn grow(geometry: u32, image: &mut [u8], index: &mut [u8], region: u32, edition: u32, pages: u64) -> u64 {
    let (image, image_bytes) = (image.as_mut_ptr(), image.len());
    let (index, index_bytes) = (index.as_mut_ptr(), index.len());
    unsafe { proved::book_grow(geometry, image, image_bytes, index, index_bytes, region, edition, pages) }
}

/// Fills the buffer from a book, and answers 0.
pub fn load(
    geometry: u32,
    image: &[u8],
    index: &[u8],
    region: u32,
    edition: u32,
    offset: u64,
    buffer: &mut [u8],
) -> u64 {
    let (image, image_bytes) = (image.as_ptr(), image.len());
    let (index, index_bytes) = (index.as_ptr(), index.len());
    let (buffer, buffer_bytes) = (buffer.as_mut_ptr(), buffer.len());
    unsafe {
        proved::book_load(
            geometry,
            image,
            image_bytes,
            index,
            index_bytes,
            region,
            edition,
            offset,
            buffer,
            buffer_bytes,
        )
    }
}

/// Writes bytes into a book, and answers 0.
pub fn store(
    geometry: u32,
    image: &mut [u8],
    index: &[u8],
    region: u32,
    edition: u32,
    offset: u64,
    bytes: &[u8],
) -> u64 {
    let (image, image_bytes) = (image.as_mut_ptr(), image.len());
    let (index, index_bytes) = (index.as_ptr(), index.len());
    let (bytes, bytes_bytes) = (bytes.as_ptr(), bytes.len());
    unsafe {
        proved::book_store(
            geometry,
            image,
            image_bytes,
            index,
            index_bytes,
            region,
            edition,
            offset,
            bytes,
            bytes_bytes,
        )
    }
}

/// Answers the pages of a book. Takes no index.
pub fn size(geometry: u32, image: &[u8], region: u32, edition: u32) -> u64 {
    unsafe { proved::book_size(geometry, image.as_ptr(), image.len(), region, edition) }
}

/// Closes a book: its blocks go to others that grow, and in version 3 its region's next book is of the next edition. Answers 0.
pub fn release(geometry: u32, image: &mut [u8], index: &mut [u8], region: u32, edition: u32) -> u64 {
    let (image, image_bytes) = (image.as_mut_ptr(), image.len());
    let (index, index_bytes) = (index.as_mut_ptr(), index.len());
    unsafe { proved::book_release(geometry, image, image_bytes, index, index_bytes, region, edition) }
}

/// Writes the whole index from the image, and answers 0. What the index held before has no influence.
pub fn recover(geometry: u32, image: &[u8], index: &mut [u8]) -> u64 {
    unsafe { proved::book_recover(geometry, image.as_ptr(), image.len(), index.as_mut_ptr(), index.len()) }
}
