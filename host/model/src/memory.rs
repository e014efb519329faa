//! Memory between two unmapped pages, so that a step outside a lent slice ends the test.

use std::ffi::{c_int, c_long, c_void};
use std::io::Error;
use std::ptr;
use std::slice;

unsafe extern "C" {
    fn mmap(at: *mut c_void, bytes: usize, protection: c_int, flags: c_int, file: c_int, offset: c_long)
    -> *mut c_void;
    fn mprotect(at: *mut c_void, bytes: usize, protection: c_int) -> c_int;
    fn munmap(at: *mut c_void, bytes: usize) -> c_int;
    fn madvise(at: *mut c_void, bytes: usize, advice: c_int) -> c_int;
    fn mincore(at: *mut c_void, bytes: usize, resident: *mut u8) -> c_int;
    fn sysconf(name: c_int) -> c_long;
}

// As Linux numbers them, on x86-64 and on Arm alike.
const READ_WRITE: c_int = 3;
const NO_ACCESS: c_int = 0;
const PRIVATE_ANONYMOUS_NO_RESERVE: c_int = 0x2 | 0x20 | 0x4000;
const DONT_NEED: c_int = 4;
const NO_HUGE_PAGES: c_int = 15;
const PAGE_SIZE: c_int = 30;

/// The guard that a lent slice stands against.
#[derive(Clone, Copy, Debug)]
pub enum Side {
    Front,
    Back,
}

/// Zeroed room between two unmapped pages. Memory is taken as its pages are first written.
pub struct Guarded {
    base: *mut u8,
    page: usize,
    room: usize,
}

fn must(answer: c_int) {
    assert_eq!(answer, 0, "{}", Error::last_os_error());
}

impl Guarded {
    /// Room for so many bytes, rounded up to whole pages.
    pub fn new(bytes: usize) -> Guarded {
        // SAFETY: a fresh mapping that nothing else knows of, of which the inner pages alone are made accessible.
        unsafe {
            let page = sysconf(PAGE_SIZE) as usize;
            let room = bytes.next_multiple_of(page).max(page);
            let base = mmap(ptr::null_mut(), room + 2 * page, NO_ACCESS, PRIVATE_ANONYMOUS_NO_RESERVE, -1, 0);
            assert_ne!(base as isize, -1, "mapping {room} bytes without reserving them: {}", Error::last_os_error());
            let guarded = Guarded { base: base.cast(), page, room };
            must(mprotect(guarded.start().cast(), room, READ_WRITE));
            // Residency is compared page by page. A kernel without huge pages refuses the advice, and needs none.
            madvise(guarded.start().cast(), room, NO_HUGE_PAGES);
            guarded
        }
    }

    fn start(&self) -> *mut u8 {
        self.base.wrapping_add(self.page)
    }

    /// So many bytes of the room, flush with one guard.
    pub fn part(&mut self, bytes: usize, side: Side) -> &mut [u8] {
        assert!(bytes <= self.room);
        let skipped = match side {
            Side::Front => 0,
            Side::Back => self.room - bytes,
        };
        // SAFETY: the range lies in the accessible pages, and is borrowed as the room is.
        unsafe { slice::from_raw_parts_mut(self.start().add(skipped), bytes) }
    }

    /// A copy of these bytes, flush with one guard.
    pub fn copy_of(&mut self, bytes: &[u8], side: Side) -> &mut [u8] {
        let part = self.part(bytes.len(), side);
        part.copy_from_slice(bytes);
        part
    }

    /// Gives the memory back: all is zero again.
    pub fn clear(&mut self) {
        // SAFETY: no slice of the room is lent while it is borrowed here.
        must(unsafe { madvise(self.start().cast(), self.room, DONT_NEED) });
    }

    /// Calls `report` with the number of each page of the room that was touched since it was last cleared.
    pub fn touched_pages(&self, mut report: impl FnMut(usize)) {
        const AT_ONCE: usize = 1 << 18;
        let pages = self.room / self.page;
        let mut resident = vec![0; AT_ONCE];
        for first in (0..pages).step_by(AT_ONCE) {
            let count = AT_ONCE.min(pages - first);
            // SAFETY: the range is mapped, and `resident` has a byte for each of its pages.
            must(unsafe {
                mincore(self.start().add(first * self.page).cast(), count * self.page, resident.as_mut_ptr())
            });
            let touched = resident[..count].iter().enumerate().filter(|(_, state)| *state & 1 == 1);
            touched.for_each(|(place, _)| report(first + place));
        }
    }
}

impl Drop for Guarded {
    fn drop(&mut self) {
        // SAFETY: the whole mapping, made in `new`; no slice of it outlives the room.
        unsafe { munmap(self.base.cast(), self.room + 2 * self.page) };
    }
}
