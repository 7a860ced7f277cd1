// SPDX-License-Identifier: MIT OR Apache-2.0
//! The worked cases over the erased sources, as tests: those of crates/rows, and the tests of wkb_tests, which
//! `tools/erase --cases` makes of their sources; here is what they take of Rattle's std, of its tests and of hex. The
//! tests in rust/cases are not proved.

/// A line of what the program prints.
macro_rules! println {
    ($rt:ident; $($words:tt)*) => { $rt.print(std::format!($($words)*)) };
}

/// A text, which may allocate.
macro_rules! format {
    ($($words:tt)*) => { Ok::<_, crate::rt::AllocError>(crate::rt::String(std::format!($($words)*))) };
}

extern crate alloc;

mod calls;

#[path = "out/whole"]
mod erased {
    pub mod wkb;
    pub mod wkb_read;
    pub mod wkb_view;
}
#[path = "out/cases"]
mod cases {
    pub mod rows;
    pub mod wkb_cases;
    pub mod wkb_clients;
    pub mod wkb_command;
    pub mod wkb_tests;
}

#[path = "cases/clients.rs"]
mod clients;
#[path = "cases/program.rs"]
mod program;
#[path = "cases/reading.rs"]
mod reading;
#[path = "cases/writing.rs"]
mod writing;

use calls::{below, erased::*};
use cases::*;
use erased::*;

mod rt {
    pub use crate::calls::erased::rt::*;
    use std::cell::RefCell;
    pub use std::collections::hash_map::DefaultHasher;
    use std::fmt::{Display, Formatter};
    pub use std::hash::{Hash, Hasher};
    use std::ops::Deref;

    /// Why a test failed.
    #[derive(Debug)]
    pub struct Fail(std::string::String);

    impl Fail {
        pub fn new(why: impl Display) -> Fail {
            Fail(why.to_string())
        }
    }

    impl<E: Display> From<E> for Fail {
        fn from(why: E) -> Fail {
            Fail(why.to_string())
        }
    }

    /// A text, whose calls say whether there was memory.
    #[derive(Debug, Default)]
    pub struct String(pub std::string::String);

    impl String {
        pub fn new() -> String {
            String::default()
        }

        pub fn from_str(text: &str) -> Result<String, AllocError> {
            Ok(String(text.to_string()))
        }

        pub fn try_push(&mut self, it: char) -> Result<(), AllocError> {
            self.0.push(it);
            Ok(())
        }

        pub fn push_str(&mut self, text: &str) -> Result<(), AllocError> {
            self.0.push_str(text);
            Ok(())
        }
    }

    impl Deref for String {
        type Target = std::string::String;

        fn deref(&self) -> &std::string::String {
            &self.0
        }
    }

    pub trait ToText: Display {
        fn try_to_string(&self) -> Result<String, AllocError> {
            Ok(String(self.to_string()))
        }
    }

    impl<T: Display> ToText for T {}

    impl Display for crate::wkb_command::calls::HexFault {
        fn fmt(&self, f: &mut Formatter<'_>) -> std::fmt::Result {
            write!(f, "{self:?}")
        }
    }

    /// What a program prints, and is given: the rows.
    #[derive(Clone, Copy)]
    pub struct HostRuntime<'a>(&'a RefCell<std::string::String>);

    impl HostRuntime<'_> {
        pub fn lines(self) -> impl Iterator<Item = io::Result<String>> {
            include_str!("../crates/rows/stdin").lines().map(|it| Ok(String(it.to_string())))
        }

        pub fn print(self, line: std::string::String) -> io::Result<()> {
            self.0.borrow_mut().push_str(&(line + "\n"));
            Ok(())
        }
    }

    /// Each row of crates/rows has its answer, but for two that are wrong on purpose.
    pub fn each_row(main: fn(HostRuntime<'_>) -> io::Result<()>) {
        let out = RefCell::default();
        main(HostRuntime(&out)).unwrap();
        assert_eq!(out.into_inner(), include_str!("../crates/rows/stdout"));
    }

    pub mod hex {
        #[derive(Debug)]
        pub enum FromHexError {
            NotHex,
            OutOfMemory,
        }

        impl std::fmt::Display for FromHexError {
            fn fmt(&self, f: &mut std::fmt::Formatter<'_>) -> std::fmt::Result {
                f.write_str("not hex")
            }
        }

        fn digit(it: u8) -> Result<u8, FromHexError> {
            char::from(it).to_digit(16).map(|it| it as u8).ok_or(FromHexError::NotHex)
        }

        pub fn decode<T: AsRef<[u8]>>(text: T) -> Result<Vec<u8>, FromHexError> {
            let mut bytes = vec![0; text.as_ref().len() / 2];
            decode_to_slice(text.as_ref(), &mut bytes)?;
            Ok(bytes)
        }

        pub fn decode_to_slice(text: &[u8], bytes: &mut [u8]) -> Result<(), FromHexError> {
            if text.len() != 2 * bytes.len() {
                return Err(FromHexError::NotHex);
            }
            for (pair, byte) in text.chunks(2).zip(bytes) {
                *byte = digit(pair[0])? << 4 | digit(pair[1])?;
            }
            Ok(())
        }

        pub fn encode_to_slice<T: AsRef<[u8]>>(bytes: T, text: &mut [u8]) -> Result<(), FromHexError> {
            for (byte, pair) in bytes.as_ref().iter().zip(text.chunks_mut(2)) {
                pair.copy_from_slice(std::format!("{byte:02x}").as_bytes());
            }
            Ok(())
        }
    }
}
