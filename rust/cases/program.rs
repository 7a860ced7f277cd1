//! The program over readers and writers that fail or take little, and with an input cut short.

use crate::rt::io::{self, ErrorKind, Read, Write};
use crate::rt::{Fail, String};
use crate::wkb_cases::spelled::digits_of;
use crate::wkb_cases::texts::nested_in;
use crate::wkb_command::program::run;

/// The most digits of an input that gives one a read: the last of 16777216 reads finds the end.
const MOST_DIGITS: u32 = 16_777_215;

/// A point of 1.0, 2.0 and 3.0 with the SRID 4326.
const POINT: &str = "01e9030020e6100000000000000000f03f00000000000000400000000000000840";

/// Two points that are the same, the second big endian and with an SRID.
const TWO_LINES: &str =
    "0101000000000000000000f03f0000000000000040\n0020000001000010e63ff00000000000004000000000000000";

/// Each word, an input, and the line that is written.
const ANSWERS: [(&str, &str, &str); 7] = [
    ("le", POINT, "01e9030000000000000000f03f00000000000000400000000000000840\n"),
    ("be", POINT, "00000003e93ff000000000000040000000000000004008000000000000\n"),
    ("ewkb-le", POINT, "01010000a0e6100000000000000000f03f00000000000000400000000000000840\n"),
    ("ewkb-be", POINT, "00a0000001000010e63ff000000000000040000000000000004008000000000000\n"),
    ("srid", POINT, "srid 4326\n"),
    ("cost", POINT, "accepted turns 0 slots 0\n"),
    ("same", TWO_LINES, "same\n"),
];

/// The line for a point that isn't all there, up to its numbers.
const SHORT_POINT: &str = "refused: General error: Invalid buffer length for Point: geometry would end at byte";

fn run_on<R: Read, W: Write>(word: &str, mut input: R, out: &mut W) -> u8 {
    run(&[String(word.to_owned())], &mut input, out)
}

fn assert_ends<R: Read>(word: &str, input: R, status: u8, line: &str) {
    let mut out = Vec::new();
    assert_eq!((run_on(word, input, &mut out), out.as_slice()), (status, line.as_bytes()), "{word}");
}

/// Gives one digit a read. After a number of digits it ends; or it fails once, and goes on with as many more.
struct Digits {
    left: u32,
    after_failure: Option<u32>,
}

impl Read for Digits {
    fn read(&mut self, buf: &mut [u8]) -> io::Result<usize> {
        if self.left == 0 {
            return match self.after_failure.take() {
                Some(more) => {
                    self.left = more;
                    Err(ErrorKind::Interrupted.into())
                }
                None => Ok(0),
            };
        }
        self.left -= 1;
        buf[0] = b'0';
        Ok(1)
    }
}

// The case program-io: a reader that fails at its second call, also if it would then go on, since no read is tried
// again.
#[test]
fn failing_readers() {
    for (word, _, _) in ANSWERS {
        for more in [0, 1] {
            assert_ends(word, Digits { left: 1, after_failure: Some(more) }, 3, "");
        }
    }
}

// As many digits as are read before the end, and one more. Each takes a read, which an emulator takes minutes for.
#[test]
#[cfg(target_arch = "x86_64")]
fn most_reads() {
    assert_ends("le", Digits { left: MOST_DIGITS, after_failure: None }, 2, "not hex\n");
    assert_ends("le", Digits { left: MOST_DIGITS + 1, after_failure: None }, 3, "");
}

/// Takes a byte a call, fails once after so many, which keeps the byte that it was offered, and would then go on.
struct Narrow {
    taken: Vec<u8>,
    room: usize,
    refused: Option<u8>,
}

impl Write for Narrow {
    fn write(&mut self, bytes: &[u8]) -> io::Result<usize> {
        if self.taken.len() == self.room && self.refused.is_none() {
            self.refused = bytes.first().copied();
            return Err(ErrorKind::Interrupted.into());
        }
        self.taken.extend(bytes.first());
        Ok(bytes.len().min(1))
    }

    fn flush(&mut self) -> io::Result<()> {
        Ok(())
    }
}

// The case program-io: a writer that takes nothing, a byte, or the whole line before it fails. It is offered no byte
// twice.
#[test]
fn failing_writers() {
    for (word, input, line) in ANSWERS {
        let line = line.as_bytes();
        for room in [0, 1, line.len()] {
            let mut out = Narrow { taken: Vec::new(), room, refused: None };
            let status = run_on(word, input.as_bytes(), &mut out);
            assert_eq!(status, if room < line.len() { 3 } else { 0 }, "{word} {room}");
            assert_eq!((out.taken.as_slice(), out.refused), (&line[..room], line.get(room).copied()), "{word} {room}");
        }
    }
}

// rust/tests/lasting.rs reads the same prefixes as bytes.
#[test]
fn cut_nested() -> Result<(), Fail> {
    let digits = digits_of(nested_in(128)?.as_slice())?;
    for len in 0..1173 {
        let input = &digits.as_slice()[..2 * len];
        if len < 1157 {
            assert_ends("le", input, 1, "refused: end of input\n");
        } else {
            let line = std::format!("{SHORT_POINT} 21, but buffer length is {}.\n", len - 1152);
            assert_ends("le", input, 1, &line);
        }
    }
    Ok(())
}
