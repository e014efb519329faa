//! The proved calls at any geometry, allowed or not, for tests and measurements alone.

use jaaturbal_model::paper::{Book, Call, Geometry, Lent, Version};

mod proved {
    unsafe extern "C" {
        pub fn any_lay(
            page: u64,
            pages: u64,
            blocks: u64,
            entries: u64,
            image: *mut u8,
            image_bytes: usize,
            index: *mut u8,
            index_bytes: usize,
        ) -> u64;
        pub fn any_lay_version_2(
            page: u64,
            pages: u64,
            blocks: u64,
            entries: u64,
            image: *mut u8,
            image_bytes: usize,
            index: *mut u8,
            index_bytes: usize,
        ) -> u64;
        pub fn any_move(
            page: u64,
            pages: u64,
            blocks: u64,
            entries: u64,
            image: *mut u8,
            image_bytes: usize,
            index: *mut u8,
            index_bytes: usize,
            old: u64,
        ) -> u64;
        pub fn any_open(
            page: u64,
            pages: u64,
            blocks: u64,
            entries: u64,
            image: *mut u8,
            image_bytes: usize,
            index: *mut u8,
            index_bytes: usize,
        ) -> u64;
        pub fn any_grow(
            page: u64,
            pages: u64,
            blocks: u64,
            entries: u64,
            image: *mut u8,
            image_bytes: usize,
            index: *mut u8,
            index_bytes: usize,
            region: u32,
            edition: u32,
            more: u64,
        ) -> u64;
        pub fn any_load(
            page: u64,
            pages: u64,
            blocks: u64,
            entries: u64,
            image: *const u8,
            image_bytes: usize,
            index: *const u8,
            index_bytes: usize,
            region: u32,
            edition: u32,
            offset: u64,
            buffer: *mut u8,
            buffer_bytes: usize,
        ) -> u64;
        pub fn any_store(
            page: u64,
            pages: u64,
            blocks: u64,
            entries: u64,
            image: *mut u8,
            image_bytes: usize,
            index: *const u8,
            index_bytes: usize,
            region: u32,
            edition: u32,
            offset: u64,
            bytes: *const u8,
            bytes_bytes: usize,
        ) -> u64;
        pub fn any_size(
            page: u64,
            pages: u64,
            blocks: u64,
            entries: u64,
            image: *const u8,
            image_bytes: usize,
            region: u32,
            edition: u32,
        ) -> u64;
        pub fn any_release(
            page: u64,
            pages: u64,
            blocks: u64,
            entries: u64,
            image: *mut u8,
            image_bytes: usize,
            index: *mut u8,
            index_bytes: usize,
            region: u32,
            edition: u32,
        ) -> u64;
        pub fn any_recover(
            page: u64,
            pages: u64,
            blocks: u64,
            entries: u64,
            image: *const u8,
            image_bytes: usize,
            index: *mut u8,
            index_bytes: usize,
        ) -> u64;
    }
}

/// Makes the call. Sound for one reason: each slice is lent with its own length, those that may be written are borrowed by
/// nobody else, and the calls keep none of them.
pub fn make(geometry: Geometry, call: Call, lent: Lent<'_>) -> u64 {
    let Geometry { page: s, pages: p, blocks: b, entries: e } = geometry;
    let (image, image_bytes) = (lent.image.as_mut_ptr(), lent.image.len());
    let (index, index_bytes) = (lent.index.as_mut_ptr(), lent.index.len());
    let (buffer, buffer_bytes) = (lent.buffer.as_mut_ptr(), lent.buffer.len());
    unsafe {
        match call {
            Call::Lay(Version::Three) => proved::any_lay(s, p, b, e, image, image_bytes, index, index_bytes),
            Call::Lay(Version::Two) => proved::any_lay_version_2(s, p, b, e, image, image_bytes, index, index_bytes),
            Call::Move { pages } => proved::any_move(s, p, b, e, image, image_bytes, index, index_bytes, pages),
            Call::Open => proved::any_open(s, p, b, e, image, image_bytes, index, index_bytes),
            Call::Grow { book: Book { region, edition }, pages } => {
                proved::any_grow(s, p, b, e, image, image_bytes, index, index_bytes, region, edition, pages)
            }
            Call::Load { book: Book { region, edition }, offset } => proved::any_load(
                s,
                p,
                b,
                e,
                image,
                image_bytes,
                index,
                index_bytes,
                region,
                edition,
                offset,
                buffer,
                buffer_bytes,
            ),
            Call::Store { book: Book { region, edition }, offset } => proved::any_store(
                s,
                p,
                b,
                e,
                image,
                image_bytes,
                index,
                index_bytes,
                region,
                edition,
                offset,
                buffer,
                buffer_bytes,
            ),
            Call::Size { book: Book { region, edition } } => {
                proved::any_size(s, p, b, e, image, image_bytes, region, edition)
            }
            Call::Release { book: Book { region, edition } } => {
                proved::any_release(s, p, b, e, image, image_bytes, index, index_bytes, region, edition)
            }
            Call::Recover => proved::any_recover(s, p, b, e, image, image_bytes, index, index_bytes),
        }
    }
}
