// SPDX-License-Identifier: MIT OR Apache-2.0
//! What a rejection says.
use crate::check::{Cause, Refused};
use crate::columns::Status;
use crate::error::{General, WkbError};
use crate::wkb_abi::fault::status_of_cause;
use core::fmt;

impl Refused {
    /// Returns what is wrong, as the status of a row.
    #[must_use]
    pub fn status(&self) -> Status {
        Status::of(status_of_cause(self.cause))
    }

    /// Returns how many bytes the part needs, and how many there are from its first one on, if the input ends inside
    /// its coordinates: a stream may wait for the rest. None for any other fault, also if the input ends inside a
    /// header or before a count, of which [`Status::is_short`] is true, too.
    #[must_use]
    pub fn ends(&self) -> Option<(u64, usize)> {
        match self.cause {
            Cause::General(
                General::ShortPoint { end, len }
                | General::ShortLineString { end, len }
                | General::ShortLinearRing { end, len }
                | General::ShortMultiPoint { end, len },
            ) => Some((end, len)),
            _ => None,
        }
    }
}

/// The name of a code that isn't read, by OGC 06-103r4, whatever its dimension and its SRID.
fn unread_kind(code: u32) -> Option<&'static str> {
    const FIRST: u32 = 8;
    const NAMES: [&str; 10] = [
        "a circular string",
        "a compound curve",
        "a curve polygon",
        "a multi curve",
        "a multi surface",
        "a curve",
        "a surface",
        "a polyhedral surface",
        "a TIN",
        "a triangle",
    ];
    let number = code & 0x1fff_ffff;
    let kind = (number % 1000).checked_sub(FIRST).filter(|_| number < 4000)?;
    NAMES.get(kind as usize).copied()
}

/// One line, which says all that the fields hold.
impl fmt::Display for Refused {
    fn fmt(&self, f: &mut fmt::Formatter<'_>) -> fmt::Result {
        f.write_str(self.status().text())?;
        if let Cause::General(General::CodeOutOfRange(code)) = self.cause {
            write!(f, " {code}")?;
            if let Some(name) = unread_kind(code) {
                write!(f, ", {name}, which this library does not read")?;
            }
        }
        write!(f, ", at byte {} (part {})", self.offset, self.part)?;
        match self.ends() {
            Some((end, len)) => write!(f, ": it needs {end} bytes and has {len}"),
            None => Ok(()),
        }
    }
}

/// The error of a reader that rejects the same bytes.
impl From<Refused> for WkbError {
    fn from(refused: Refused) -> WkbError {
        refused.cause.into()
    }
}
