//! Why a call was refused.

use std::error::Error;
use std::fmt;

macro_rules! refusals {
    ($($name:ident = $number:literal, $words:literal;)*) => {
        /// Why a call was refused. A refused call changed nothing.
        #[derive(Clone, Copy, Debug, PartialEq, Eq, Hash)]
        #[repr(u32)]
        pub enum Refusal {
            $(#[doc = $words] $name = $number,)*
        }

        impl Refusal {
            /// The refusal with this number, if there is one.
            pub const fn numbered(number: u32) -> Option<Refusal> {
                match number {
                    $($number => Some(Refusal::$name),)*
                    _ => None,
                }
            }

            /// The refusal's number on paper.
            pub const fn number(self) -> u32 {
                self as u32
            }
        }

        impl fmt::Display for Refusal {
            fn fmt(&self, out: &mut fmt::Formatter<'_>) -> fmt::Result {
                out.write_str(match self {
                    $(Refusal::$name => $words,)*
                })
            }
        }
    };
}

refusals! {
    GeometryNotAllowed = 1, "the geometry is not allowed";
    IndexLength = 2, "the index has not the length that the geometry asks for";
    ImageTooShort = 3, "the image is shorter than one block";
    HeaderWrong = 4, "the image's header is not one of a book image";
    TailMissing = 5, "the image ends before the last block that is taken";
    TablesNotWellFormed = 6, "the image's tables contradict each other";
    IndexNotRecovered = 7, "the index is not the image's own: recover it";
    RegionNotUsable = 8, "the region is kept back, out of range or not open";
    BeyondBook = 9, "the bytes asked for reach beyond the end of the book";
    NoBlocksLeft = 10, "the image has too few blocks left for this growth";
    NoRegionLeft = 11, "every region is open, or has come to its last edition";
    NotBlank = 12, "the image is not blank: its first 16 bytes are not zero";
    TooFewBlocks = 13, "the image has no whole block more than the older memory needs, or the geometry has too few blocks";
    NewerRelease = 16, "the image comes from a newer release, which uses bytes that this one keeps zero: open it with that release";
    EditionWrong = 18, "the region's book is of another edition: the one that was named is gone, or never was";
}

impl Error for Refusal {}
