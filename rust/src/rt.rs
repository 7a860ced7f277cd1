// SPDX-License-Identifier: MIT OR Apache-2.0
//! What the sources take from Rattle's std, byteorder and thiserror, over core and alloc: allocation that may fail,
//! numbers in bytes, a writer, and the texts of the errors.

pub use alloc::vec::Vec;

use crate::wkb_geom::error::{General, Overflow, WkbError};
use core::fmt;

/// An allocation failed.
#[derive(Debug, Clone, Copy, PartialEq, Eq, Hash)]
pub struct AllocError;

impl fmt::Display for AllocError {
    fn fmt(&self, f: &mut fmt::Formatter<'_>) -> fmt::Result {
        f.write_str("out of memory")
    }
}

/// A copy, which may allocate.
pub trait TryClone: Sized {
    /// Copies it.
    ///
    /// # Errors
    ///
    /// An allocation fails.
    fn try_clone(&self) -> Result<Self, AllocError>;
}

impl<T: TryClone> TryClone for Vec<T> {
    fn try_clone(&self) -> Result<Vec<T>, AllocError> {
        let mut copy = Vec::try_with_room(self.len())?;
        for item in self {
            copy.push_reserved(item.try_clone()?);
        }
        Ok(copy)
    }
}

impl TryClone for usize {
    fn try_clone(&self) -> Result<usize, AllocError> {
        Ok(*self)
    }
}

/// The calls of a vector that allocate.
pub trait TryVec<T>: Sized {
    fn try_with_room(n: usize) -> Result<Self, AllocError>;
    fn try_push(&mut self, item: T) -> Result<(), AllocError>;
    /// For an item that there is room for.
    fn push_reserved(&mut self, item: T);
}

/// Those that copy items.
pub trait TryCopy<T>: Sized {
    fn try_extend_from_slice(&mut self, items: &[T]) -> Result<(), AllocError>;
    fn try_resize(&mut self, n: usize, item: T) -> Result<(), AllocError>;
    fn from_slice(items: &[T]) -> Result<Self, AllocError>;
}

impl<T> TryVec<T> for Vec<T> {
    #[inline]
    fn try_with_room(n: usize) -> Result<Vec<T>, AllocError> {
        let mut items = Vec::new();
        items.try_reserve_exact(n).map_err(|_| AllocError)?;
        Ok(items)
    }

    #[inline(always)]
    fn try_push(&mut self, item: T) -> Result<(), AllocError> {
        self.try_reserve(1).map_err(|_| AllocError)?;
        self.push_reserved(item);
        Ok(())
    }

    #[inline(always)]
    fn push_reserved(&mut self, item: T) {
        assert!(self.len() < self.capacity());
        self.push(item);
    }
}

impl<T: Copy> TryCopy<T> for Vec<T> {
    #[inline]
    fn try_extend_from_slice(&mut self, items: &[T]) -> Result<(), AllocError> {
        self.try_reserve(items.len()).map_err(|_| AllocError)?;
        self.extend_from_slice(items);
        Ok(())
    }

    #[inline]
    fn try_resize(&mut self, n: usize, item: T) -> Result<(), AllocError> {
        self.try_reserve(n.saturating_sub(self.len())).map_err(|_| AllocError)?;
        self.resize(n, item);
        Ok(())
    }

    #[inline]
    fn from_slice(items: &[T]) -> Result<Vec<T>, AllocError> {
        let mut copy = Vec::try_with_room(items.len())?;
        copy.extend_from_slice(items);
        Ok(copy)
    }
}

/// A vector of so many equal items.
#[inline]
pub fn try_filled<T: Copy>(item: T, n: usize) -> Result<Vec<T>, AllocError> {
    let mut items = Vec::try_with_room(n)?;
    items.resize(n, item);
    Ok(items)
}

macro_rules! try_vec {
    ($item:expr; $n:expr) => {
        crate::rt::try_filled($item, $n)
    };
}
pub(crate) use try_vec;

/// The calls of `CoordTrait` that have a default.
macro_rules! coord_calls {
    () => {
        /// Returns the word at an index.
        ///
        /// # Panics
        ///
        /// If there is none; so do the calls below for the words that they return.
        #[inline]
        fn word_at(&self, n: usize) -> u64 {
            self.nth_word(n).expect("an index below the number of words")
        }
        /// Returns the first word.
        #[inline]
        fn x_word(&self) -> u64 {
            self.word_at(0)
        }
        /// Returns the second word.
        #[inline]
        fn y_word(&self) -> u64 {
            self.word_at(1)
        }
        /// Returns the first two words.
        #[inline]
        fn x_y_words(&self) -> (u64, u64) {
            (self.x_word(), self.y_word())
        }
        /// Returns the number at an index, if there is one: x, y, and then z, m or both.
        #[inline]
        fn nth(&self, n: usize) -> Option<f64> {
            self.nth_word(n).map(f64::from_bits)
        }
        /// Returns the number at an index.
        #[inline]
        fn nth_or_panic(&self, n: usize) -> f64 {
            f64::from_bits(self.word_at(n))
        }
        /// Returns the first number.
        #[inline]
        fn x(&self) -> f64 {
            f64::from_bits(self.x_word())
        }
        /// Returns the second number.
        #[inline]
        fn y(&self) -> f64 {
            f64::from_bits(self.y_word())
        }
        /// Returns the first two numbers.
        #[inline]
        fn x_y(&self) -> (f64, f64) {
            (self.x(), self.y())
        }
    };
}
pub(crate) use coord_calls;

/// The call of `LineStringTrait` that has a default.
macro_rules! line_calls {
    () => {
        /// Returns the coordinate at an index.
        ///
        /// # Panics
        ///
        /// If there is none.
        #[inline]
        fn coord_at(&self, i: usize) -> Self::CoordType {
            self.coord(i).expect("an index below the number of coordinates")
        }
    };
}
pub(crate) use line_calls;

impl From<AllocError> for io::Error {
    fn from(_: AllocError) -> io::Error {
        io::Error::from(io::ErrorKind::OutOfMemory)
    }
}

#[cfg(feature = "std")]
pub use std::io;

/// The part of std's `io` that a sink needs.
#[cfg(not(feature = "std"))]
pub mod io {
    use core::fmt;

    /// Why a write or a read failed.
    #[derive(Debug, Clone, Copy, PartialEq, Eq, Hash)]
    #[non_exhaustive]
    pub enum ErrorKind {
        /// The input ends too early.
        UnexpectedEof,
        /// Nothing was written.
        WriteZero,
        /// An allocation failed.
        OutOfMemory,
        /// It was interrupted, and may be tried again.
        Interrupted,
        /// Another reason.
        Other,
    }

    /// An error of a [`Write`], made of its kind.
    #[derive(Debug)]
    pub struct Error(ErrorKind);

    /// A result, or such an error.
    pub type Result<T> = core::result::Result<T, Error>;

    impl Error {
        /// Returns its kind.
        #[must_use]
        pub fn kind(&self) -> ErrorKind {
            self.0
        }
    }

    impl From<ErrorKind> for Error {
        fn from(kind: ErrorKind) -> Error {
            Error(kind)
        }
    }

    impl fmt::Display for Error {
        fn fmt(&self, f: &mut fmt::Formatter<'_>) -> fmt::Result {
            f.write_str(match self.0 {
                ErrorKind::UnexpectedEof => "unexpected end of file",
                ErrorKind::WriteZero => "write zero",
                ErrorKind::OutOfMemory => "out of memory",
                ErrorKind::Interrupted => "operation interrupted",
                ErrorKind::Other => "other error",
            })
        }
    }

    /// What takes bytes.
    pub trait Write {
        /// Takes some of the bytes, and returns how many.
        ///
        /// # Errors
        ///
        /// None was taken.
        fn write(&mut self, bytes: &[u8]) -> Result<usize>;
    }

    impl Write for super::Vec<u8> {
        fn write(&mut self, bytes: &[u8]) -> Result<usize> {
            super::TryCopy::try_extend_from_slice(self, bytes)?;
            Ok(bytes.len())
        }
    }
}

impl crate::wkb_geom::Endianness {
    /// The machine's byte order.
    pub(crate) const MACHINE: Self = if cfg!(target_endian = "big") { Self::BigEndian } else { Self::LittleEndian };
}

/// The part of the crate byteorder that the sources use.
pub mod byteorder {
    pub trait ByteOrder {
        fn read_u32(bytes: &[u8]) -> u32;
        fn read_u64(bytes: &[u8]) -> u64;
        fn write_u32(bytes: &mut [u8], n: u32);
        fn write_u64(bytes: &mut [u8], n: u64);
    }

    pub enum BigEndian {}
    pub enum LittleEndian {}

    macro_rules! order {
        ($name:ident, $from:ident, $to:ident) => {
            impl ByteOrder for $name {
                #[inline(always)]
                fn read_u32(bytes: &[u8]) -> u32 {
                    u32::$from(bytes[..4].try_into().unwrap())
                }

                #[inline(always)]
                fn read_u64(bytes: &[u8]) -> u64 {
                    u64::$from(bytes[..8].try_into().unwrap())
                }

                #[inline(always)]
                fn write_u32(bytes: &mut [u8], n: u32) {
                    bytes[..4].copy_from_slice(&n.$to());
                }

                #[inline(always)]
                fn write_u64(bytes: &mut [u8], n: u64) {
                    bytes[..8].copy_from_slice(&n.$to());
                }
            }
        };
    }

    order!(BigEndian, from_be_bytes, to_be_bytes);
    order!(LittleEndian, from_le_bytes, to_le_bytes);
}

impl fmt::Display for General {
    fn fmt(&self, f: &mut fmt::Formatter<'_>) -> fmt::Result {
        let (name, data, end, len) = match *self {
            General::UnsupportedDimensions(n) => {
                return write!(f, "Unsupported number of dimensions: {n}");
            }
            General::CodeOutOfRange(code) => {
                return write!(f, "WKB type code out of range. Got: {code}");
            }
            General::InvalidByteOrder => return f.write_str("Invalid byte order"),
            General::ShortPoint { end, len } => ("Point", "geometry", end, len),
            General::ShortLineString { end, len } => ("LineString", "geometry", end, len),
            General::ShortLinearRing { end, len } => ("LinearRing", "data", end, len),
            General::ShortMultiPoint { end, len } => ("MultiPoint", "geometry", end, len),
        };
        write!(f, "Invalid buffer length for {name}: {data} would end at byte {end}, but buffer length is {len}.")
    }
}

impl fmt::Display for Overflow {
    fn fmt(&self, f: &mut fmt::Formatter<'_>) -> fmt::Result {
        f.write_str(match self {
            Overflow::Count => "count does not fit 32 bits",
            Overflow::Size => "size does not fit usize",
        })
    }
}

impl fmt::Display for WkbError {
    fn fmt(&self, f: &mut fmt::Formatter<'_>) -> fmt::Result {
        match self {
            WkbError::IncorrectType(what) => write!(f, "Incorrect type passed to operation: {what}"),
            WkbError::NotYetImplemented(what) => write!(f, "Not yet implemented: {what}"),
            WkbError::General(general) => write!(f, "General error: {general}"),
            WkbError::NestingDepthExceeded(most) => {
                write!(f, "WKB nesting depth exceeds the maximum of {most}")
            }
            WkbError::IOError(e) => e.fmt(f),
            WkbError::OverflowError(overflow) => overflow.fmt(f),
            WkbError::Memory(e) => e.fmt(f),
        }
    }
}
