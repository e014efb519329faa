//! The proved calls, as the model's comparisons ask for them.

use jaaturbal::calls;
use jaaturbal_model::paper::{Book, Call, Lent, Version};

pub const BENCH: u32 = 0;
pub const HOUSE: u32 = 1;

pub fn make(geometry: u32, call: Call, lent: Lent<'_>) -> u64 {
    let Lent { image, index, buffer } = lent;
    match call {
        Call::Lay(Version::Three) => calls::lay(geometry, image, index),
        Call::Lay(Version::Two) => calls::lay_version_2(geometry, image, index),
        Call::Move { pages } => calls::move_over(geometry, image, index, pages),
        Call::Open => calls::open(geometry, image, index),
        Call::Grow { book: Book { region, edition }, pages } => {
            calls::grow(geometry, image, index, region, edition, pages)
        }
        Call::Load { book: Book { region, edition }, offset } => {
            calls::load(geometry, image, index, region, edition, offset, buffer)
        }
        Call::Store { book: Book { region, edition }, offset } => {
            calls::store(geometry, image, index, region, edition, offset, buffer)
        }
        Call::Size { book: Book { region, edition } } => calls::size(geometry, image, region, edition),
        Call::Release { book: Book { region, edition } } => calls::release(geometry, image, index, region, edition),
        Call::Recover => calls::recover(geometry, image, index),
    }
}
