// SPDX-License-Identifier: MIT OR Apache-2.0
//! Why an input is rejected, and what became of the rows of a column.
use alloc::vec::Vec;
use core::fmt;

/// What became of an input or of a row. The constants are those of this version; later ones add more inside the
/// classes, so ask for the class.
#[derive(Clone, Copy, Eq, Hash, PartialEq)]
#[repr(transparent)]
pub struct Status(u8);

macro_rules! statuses {
    ($($name:ident = $number:literal, $text:literal;)*) => {
        impl Status {
            $(
                #[doc = concat!("“", $text, "”")]
                pub const $name: Status = Status($number);
            )*

            /// Returns the text of the status, in one line.
            #[must_use]
            pub fn text(self) -> &'static str {
                match self {
                    $(Status::$name => $text,)*
                    _ => "the call failed",
                }
            }
        }
    };
}

statuses! {
    OK = 0, "ok";
    TOO_MANY_ROWS = 4, "there are more rows than a count of four bytes holds";
    NULL_ROW = 16, "the row is null";
    BAD_OFFSETS = 17,
        "the row's offsets are negative, decrease or pass the end of the data, or it begins before a row ends";
    BAD_LEVELS = 18, "the row's levels don't fit its kind or each other";
    SHORT_HEADER = 32, "the input ends inside a header or before a count";
    INVALID_BYTE_ORDER = 33, "a byte order is neither 0 nor 1";
    CODE_OUT_OF_RANGE = 34, "unknown geometry type code";
    INCORRECT_TYPE = 35, "a member has the wrong kind, dimension or SRID for its multi geometry";
    NESTING_DEPTH_EXCEEDED = 36, "a collection is inside 128 others";
    SHORT_POINT = 48, "the input ends inside a point";
    SHORT_LINE_STRING = 49, "the input ends inside a line string";
    SHORT_MULTI_POINT = 50, "the input ends inside a multi point";
    SHORT_LINEAR_RING = 51, "the input ends inside a ring";
}

impl Status {
    /// The status with a number that a proved call has returned: all fit a byte.
    pub(crate) fn of(number: u32) -> Status {
        Status(number as u8)
    }

    /// Those with the numbers of rows, in the same memory.
    pub(super) fn all(numbers: Vec<u8>) -> Vec<Status> {
        numbers.into_iter().map(Status).collect()
    }

    /// Returns the number, that of `wkb_status` in `c/wkb.h`.
    #[must_use]
    pub fn number(self) -> u8 {
        self.0
    }

    /// Tells whether the input is a geometry, or the row has its result.
    #[must_use]
    pub fn is_ok(self) -> bool {
        self == Status::OK
    }

    /// Tells whether the input is rejected.
    #[must_use]
    pub fn is_refusal(self) -> bool {
        self.0 >= 32
    }

    /// Tells whether the input ends before its geometry does, so that bytes are missing.
    #[must_use]
    pub fn is_short(self) -> bool {
        self == Status::SHORT_HEADER || self.0 >= 48
    }
}

impl fmt::Debug for Status {
    fn fmt(&self, f: &mut fmt::Formatter<'_>) -> fmt::Result {
        write!(f, "Status({}: {})", self.0, self.text())
    }
}

impl fmt::Display for Status {
    fn fmt(&self, f: &mut fmt::Formatter<'_>) -> fmt::Result {
        f.pad(self.text())
    }
}
