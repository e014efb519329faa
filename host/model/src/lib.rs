//! Documents 01 and 02 in plain Rust, and the comparison of a book manager with them.
//!
//! [`paper`] is the model: direct, slow, and written from the documents alone. The rest makes calls at random, on images of
//! every kind, and holds each answer and each lent byte of a manager to the model's. [`clerk`] holds a manager to what its
//! own answers say, and knows nothing of tables. [`cut`] tells what an image may show that a call left in the middle:
//! [`stepped`] stops calls after each write, and [`killed`] kills a process that makes them.

pub mod calls;
pub mod clerk;
pub mod compare;
pub mod cut;
pub mod damage;
pub mod desk;
pub mod geometries;
pub mod killed;
pub mod made_up;
pub mod mapped;
pub mod memory;
pub mod paper;
pub mod random;
pub mod stepped;
pub mod tables;
pub mod tally;
pub mod watched;
