//! The leaves against plain Rust: the copy against copy_from_slice, and the look for a byte that is not zero.

use std::hint::black_box;

use crate::plain;
use crate::timing::{Compared, Subject, compare};

unsafe extern "C" {
    fn leaf_copy(from: *const u8, from_bytes: usize, to: *mut u8, to_bytes: usize) -> u32;
    fn leaf_all_zero(bytes: *const u8, count: usize) -> u32;
}

fn proved_copy(from: &[u8], to: &mut [u8]) {
    // SAFETY: two slices that do not overlap, each lent with its length.
    let answer = unsafe { leaf_copy(from.as_ptr(), from.len(), to.as_mut_ptr(), to.len()) };
    assert_eq!(answer, 0);
}

fn plain_copy(from: &[u8], to: &mut [u8]) {
    to.copy_from_slice(from);
}

struct Copies {
    copy: fn(&[u8], &mut [u8]),
    from: Vec<u8>,
    to: Vec<u8>,
}

impl Subject for Copies {
    fn calls(&self) -> usize {
        8
    }

    fn run(&mut self) {
        for _ in 0..self.calls() {
            (self.copy)(black_box(&self.from), black_box(&mut self.to));
        }
    }
}

pub fn copies(bytes: usize) -> Compared {
    let from: Vec<u8> = (0..bytes).map(|place| (place * 167 + 13) as u8).collect();
    let copies = |copy| Copies { copy, from: from.clone(), to: vec![0; bytes] };
    let (mut proved, mut plain) = (copies(proved_copy), copies(plain_copy));
    let compared = compare(&mut proved, &mut plain);
    assert_eq!((&proved.to, &plain.to), (&from, &from));
    compared
}

fn proved_all_zero(bytes: &[u8]) -> bool {
    // SAFETY: a slice, lent with its length.
    unsafe { leaf_all_zero(bytes.as_ptr(), bytes.len()) == 1 }
}

struct Looks {
    all_zero: fn(&[u8]) -> bool,
    bytes: Vec<u8>,
}

impl Subject for Looks {
    fn calls(&self) -> usize {
        1
    }

    fn run(&mut self) {
        assert!((self.all_zero)(black_box(&self.bytes)));
    }
}

pub fn looks(bytes: usize) -> Compared {
    // Written, so that every page is memory of its own.
    let mut zeros = vec![1; bytes];
    zeros.fill(black_box(0));
    let looks = |all_zero| Looks { all_zero, bytes: zeros.clone() };
    compare(&mut looks(proved_all_zero), &mut looks(plain::all_zero))
}
