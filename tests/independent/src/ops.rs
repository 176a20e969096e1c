//! The ops protocol: its operations, as texts and as values.
//!
//! What is an operation, to the byte (everything else is answered `?` and does nothing):
//! - A line ends in LF; the last one may lack it. A line of no bytes is passed over without an answer.
//! - One operation has at most 131072 bytes, its LF not counted.
//! - It is a word and its fields, divided by single spaces: a space before the word, after the last
//!   field or twice in a row, a tab or a CR makes it no operation, and so does a field too few or too
//!   many. Words are in small letters.
//! - A number is one or more of the digits 0 to 9 and nothing else; any number of leading zeros is
//!   allowed. Its value is at most what the table below says.
//! - HEX is an even number, at least 2, of the digits 0 to 9 and a to f, or `-` for no bytes.
//! - HH has exactly 2 such digits, W exactly 8.
//! - NAME is a field's name, of a list with `.` and one part's place, and VALUE as `dump` writes it.
//!
//! | Number | At most |
//! |---|---|
//! | SERIAL, PORT, N, I, CAP | 4294967295 (PORT above 1 is an unknown port) |
//! | LEN1, LEN2 | 16384 |
//! | ROOM | 131072 |
//! | LIA, ERR | 255 |
//! | MARK | 1 |
//! | T | 2, and at least 1 |
//! | VALUE | what the field that NAME names holds; of a setting with a minus too |

pub mod band;
pub mod compare;
pub mod dump;
pub mod field;
pub mod met;
pub mod runs;
mod session;
pub mod shrink;

pub use session::Session;

use crate::hex;
use field::{Field, Value};
use std::fmt;

/// The most bytes of an operation.
pub const MOST_OPERATION_BYTES: usize = 131_072;

/// The longest trace, and the largest room for a reply.
pub const MOST_LENGTH: usize = 16_384;
pub const MOST_ROOM: usize = 131_072;

/// A start, a call of the module, a change of its state or traces, a view of them, or a check.
#[derive(Clone, Debug, PartialEq, Eq)]
pub enum Operation {
    /// A fresh module over two traces of these lengths.
    Start { serial: u32, port: u32, lengths: [usize; 2] },
    /// A line handed over whole, with room for its replies.
    Line { line: Vec<u8>, room: usize },
    /// One byte that comes in, with an end mark or without.
    Byte { byte: u8, end_mark: bool, room: usize },
    /// Bytes in one call, an end mark on the last of them or none.
    Run { bytes: Vec<u8>, end_mark: bool, room: usize },
    /// The words of a new latest pair.
    Pair([u32; 2]),
    /// A tick of the sample rate.
    Tick,
    /// A trigger from outside.
    Trigger,
    /// A measured external frequency in units of 0.1 mHz.
    Measured(u32),
    /// LIA and ERR bits that are raised.
    Raise { lia: u8, err: u8 },
    /// A word that somebody else writes into a slot of trace 0 or 1.
    Poke { trace: usize, slot: usize, word: u32 },
    /// Another value in a field of the state that the next call is handed.
    Alter { field: Field, value: Value },
    /// A view of the state and both traces.
    Dump,
    /// A serial poll of the status byte.
    Poll,
    /// The check of a script for modules of a capacity.
    Check { capacity: usize, script: Vec<u8> },
}

impl Operation {
    /// The operation of a text; nothing where it is none.
    pub fn read(text: &[u8]) -> Option<Operation> {
        if text.len() > MOST_OPERATION_BYTES {
            return None;
        }
        let fields: Vec<&str> = std::str::from_utf8(text).ok()?.split(' ').collect();
        Some(match fields[..] {
            ["start", serial, port, first, second] => Operation::Start {
                serial: number(serial, u32::MAX)?,
                port: number(port, u32::MAX)?,
                lengths: [length(first, MOST_LENGTH)?, length(second, MOST_LENGTH)?],
            },
            ["line", line, room] => Operation::Line { line: bytes(line)?, room: length(room, MOST_ROOM)? },
            ["byte", byte, mark, room] => {
                Operation::Byte { byte: digits(byte, 2)? as u8, end_mark: flag(mark)?, room: length(room, MOST_ROOM)? }
            }
            ["run", run, mark, room] => {
                Operation::Run { bytes: bytes(run)?, end_mark: flag(mark)?, room: length(room, MOST_ROOM)? }
            }
            ["pair", first, second] => Operation::Pair([digits(first, 8)?, digits(second, 8)?]),
            ["tick"] => Operation::Tick,
            ["trigger"] => Operation::Trigger,
            ["measured", frequency] => Operation::Measured(number(frequency, u32::MAX)?),
            ["raise", lia, err] => Operation::Raise { lia: number(lia, 255)? as u8, err: number(err, 255)? as u8 },
            ["poke", trace, slot, word] => Operation::Poke {
                trace: length(trace, 2)?.checked_sub(1)?,
                slot: number(slot, u32::MAX)? as usize,
                word: digits(word, 8)?,
            },
            ["alter", name, value] => alteration(name, value)?,
            ["dump"] => Operation::Dump,
            ["poll"] => Operation::Poll,
            ["check", capacity, script] => {
                Operation::Check { capacity: number(capacity, u32::MAX)? as usize, script: bytes(script)? }
            }
            _ => return None,
        })
    }
}

impl fmt::Display for Operation {
    fn fmt(&self, f: &mut fmt::Formatter) -> fmt::Result {
        match self {
            Operation::Start { serial, port, lengths: [first, second] } => {
                write!(f, "start {serial} {port} {first} {second}")
            }
            Operation::Line { line, room } => write!(f, "line {} {room}", hex::field(line)),
            Operation::Byte { byte, end_mark, room } => write!(f, "byte {byte:02x} {} {room}", u8::from(*end_mark)),
            Operation::Run { bytes, end_mark, room } => {
                write!(f, "run {} {} {room}", hex::field(bytes), u8::from(*end_mark))
            }
            Operation::Pair([first, second]) => write!(f, "pair {first:08x} {second:08x}"),
            Operation::Tick => write!(f, "tick"),
            Operation::Trigger => write!(f, "trigger"),
            Operation::Measured(frequency) => write!(f, "measured {frequency}"),
            Operation::Raise { lia, err } => write!(f, "raise {lia} {err}"),
            Operation::Poke { trace, slot, word } => write!(f, "poke {} {slot} {word:08x}", trace + 1),
            Operation::Alter { field, value } => write!(f, "alter {field} {value}"),
            Operation::Dump => write!(f, "dump"),
            Operation::Poll => write!(f, "poll"),
            Operation::Check { capacity, script } => write!(f, "check {capacity} {}", hex::field(script)),
        }
    }
}

/// A field of the state and a value that it holds.
fn alteration(name: &str, value: &str) -> Option<Operation> {
    let field = Field::named(name)?;
    Some(Operation::Alter { field, value: field.read(value)? })
}

/// A number of at most `most`.
fn number(text: &str, most: u32) -> Option<u32> {
    if text.is_empty() || !text.bytes().all(|byte| byte.is_ascii_digit()) {
        return None;
    }
    text.parse().ok().filter(|&value| value <= most)
}

/// A length or a room of at most `most`.
fn length(text: &str, most: usize) -> Option<usize> {
    number(text, most as u32).map(|value| value as usize)
}

/// Whether a number of 0 or 1 is 1.
fn flag(text: &str) -> Option<bool> {
    number(text, 1).map(|value| value == 1)
}

/// The value of exactly `count` hex digits.
fn digits(text: &str, count: usize) -> Option<u32> {
    let value = hex::decode(text).filter(|_| text.len() == count)?;
    Some(value.into_iter().fold(0, |value, byte| value << 8 | u32::from(byte)))
}

/// The bytes of hex; none for `-`.
fn bytes(text: &str) -> Option<Vec<u8>> {
    match text {
        "-" => Some(Vec::new()),
        "" => None,
        _ => hex::decode(text),
    }
}

#[cfg(test)]
mod tests {
    use super::*;

    /// Texts that are no operations.
    const NO_OPERATIONS: &[&str] = &[
        "dump ",
        " dump",
        "dump\r",
        "Dump",
        "dump 1",
        "poll 1",
        "tick\t",
        "start 1 1 4",
        "start 1 1 4 4 4",
        "start 1  4 4",
        "start 1 1 16385 4",
        "start 4294967296 1 4 4",
        "start +1 1 4 4",
        "start -1 1 4 4",
        "line 2A 4",
        "line 2 4",
        "line  4",
        "line 2a4",
        "line 2a 131073",
        "line 2a4g 4",
        "line -- 4",
        "byte a 0 4",
        "byte 0a0 0 4",
        "byte 0a 2 4",
        "byte - 0 4",
        "run 0a 2 4",
        "run 0a 0 131073",
        "run 0a 4",
        "run 0a 0 4 4",
        "run 0 0 4",
        "run 0A 0 4",
        "run  0 4",
        "run -0a 0 4",
        "runs 0a 0 4",
        "pair 0 0",
        "pair 00000000 0000000",
        "pair 00000000 0000000G",
        "measured",
        "measured 4294967296",
        "measured 1.0",
        "raise 256 0",
        "raise 0",
        "poke 0 0 00000000",
        "poke 3 0 00000000",
        "poke 1 4294967296 00000000",
        "alter",
        "alter ",
        "alter harm",
        "alter harm ",
        "alter  harm 1",
        "alter harm 1 1",
        "alter ddef 1",
        "alter t1 00000000",
        "alter HARM 1",
        "alter harm 1.0",
        "alter harm 4294967296",
        "alter range",
        "alter range 1",
        "alter range LOWER",
        "check 4",
        "check x 2a",
        "?",
        "\u{663}",
    ];

    /// The text of an operation is the one that it was read from; leading zeros are no part of it.
    #[test]
    fn operations_are_read_as_written() {
        for text in [
            "start 42 1 8 8",
            "start 4294967295 4294967295 16384 0",
            "line 2a49444e3f 40",
            "line - 131072",
            "byte 0a 1 0",
            "run 484152 0 131072",
            "run - 1 0",
            "pair 00ec8000 ffffffff",
            "tick",
            "trigger",
            "measured 4294967295",
            "raise 255 0",
            "poke 2 4294967295 0000000f",
            "alter oexp.2 -10500",
            "alter pair.0 00ec8000",
            "alter storage paused",
            "alter range lower",
            "alter queue 0d0a",
            "dump",
            "poll",
            "check 4 2a525354",
        ] {
            assert_eq!(Operation::read(text.as_bytes()).map(|operation| operation.to_string()), Some(text.to_string()));
        }
        assert_eq!(Operation::read(b"measured 000000000000000000007"), Some(Operation::Measured(7)));
        assert_eq!(Operation::read(b"byte ff 00 00"), Some(Operation::Byte { byte: 255, end_mark: false, room: 0 }));
        let run = Operation::Run { bytes: vec![255], end_mark: true, room: 7 };
        assert_eq!(Operation::read(b"run ff 01 007"), Some(run));
    }

    /// A text with anything about its word, the number of its fields or a field that is not as it should be.
    #[test]
    fn texts_that_are_no_operations() {
        for text in NO_OPERATIONS {
            assert_eq!(Operation::read(text.as_bytes()), None, "{text:?}");
        }
        assert_eq!(Operation::read(b"dump\xff"), None);
        let at_most = format!("measured {}7", "0".repeat(MOST_OPERATION_BYTES - 10));
        assert!(Operation::read(at_most.as_bytes()).is_some());
        assert!(Operation::read(at_most.replace(' ', " 0").as_bytes()).is_none());
    }
}
