//! Books kept in one stored image: a safe interface to the proved book manager.
//!
//! An image holds many books, each a run of pages that grows on its own. [`Books`] owns an image and the index that makes
//! loads and stores quick, and offers the manager's calls. The calls themselves are proved: whatever bytes an image holds,
//! each answers exactly as its paper says, and a refused call changes nothing. [`calls`] has them as they are, on slices.
//!
//! A [`Book`] is named by region and edition, so that the name of a book that was released never comes to mean another.
//!
//! ```
//! use jaaturbal::{Books, Geometry, Offset, Pages, Refusal};
//!
//! # fn main() -> Result<(), Refusal> {
//! let mut books = Books::new(Geometry::Bench, 16)?;
//! let book = books.open()?;
//! books.grow(book, Pages(2))?;
//! books.store(book, Offset(100), b"lot 7: 120")?;
//!
//! let mut bid = [0; 10];
//! books.load(book, Offset(100), &mut bid)?;
//! assert_eq!(&bid, b"lot 7: 120");
//! assert_eq!(books.load(book, Offset(119), &mut bid), Err(Refusal::BeyondBook));
//! books.release(book)?;
//! assert_eq!(books.load(book, Offset(100), &mut bid), Err(Refusal::RegionNotUsable));
//! # Ok(())
//! # }
//! ```

mod books;
pub mod calls;
mod kinds;
mod refusal;

pub use books::Books;
pub use kinds::{Book, Geometry, Offset, Pages};
pub use refusal::Refusal;
