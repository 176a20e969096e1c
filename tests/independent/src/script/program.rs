//! The check program: a capacity on line one of its input, then a script; one line of output.

use super::{check, has_traces, No};
use crate::module::MOST_CAPACITY;
use crate::refusal::Refusal;

/// The most bytes of a script; the bound is the program's own.
pub const MOST_SCRIPT_BYTES: usize = 60_000;

/// The capacity and the script of an input. Without an LF it has no script.
pub fn parts(input: &[u8]) -> (usize, &[u8]) {
    match input.iter().position(|&byte| byte == b'\n') {
        Some(end) => (capacity(&input[..end]), &input[end + 1..]),
        None => (capacity(input), &[]),
    }
}

/// The number that digits spell, or just above every capacity where it is larger; 0 for anything else.
fn capacity(text: &[u8]) -> usize {
    if !text.iter().all(u8::is_ascii_digit) {
        return 0;
    }
    text.iter().fold(0, |value, digit| (10 * value + usize::from(digit - b'0')).min(MOST_CAPACITY + 1))
}

/// What the program says to an input.
pub fn verdict(input: &[u8]) -> Result<(), No> {
    let (capacity, script) = parts(input);
    if has_traces(capacity) && script.len() > MOST_SCRIPT_BYTES {
        return Err(No { line: 0, place: 0, refusal: Refusal::ScriptLine });
    }
    check(capacity, script)
}

#[cfg(test)]
mod tests {
    use super::*;
    use crate::script::text;

    /// What the program writes for an input.
    fn said(input: &[u8]) -> String {
        text(&verdict(input))
    }

    /// First lines that name a capacity, and others.
    #[test]
    fn first_lines() {
        for (first, expected) in [
            ("4", "ok"),
            ("0004", "ok"),
            ("16383", "ok"),
            ("16384", "no 0 0 9"),
            ("4294967300", "no 0 0 9"),
            ("18446744073709551620", "no 0 0 9"),
            ("0", "no 0 0 9"),
            ("", "no 0 0 9"),
            ("\r", "no 0 0 9"),
            ("4\r", "no 0 0 9"),
            ("4 ", "no 0 0 9"),
            (" 4", "no 0 0 9"),
            ("+4", "no 0 0 9"),
            ("-4", "no 0 0 9"),
            ("4x", "no 0 0 9"),
            ("4.0", "no 0 0 9"),
        ] {
            assert_eq!(said(format!("{first}\n*RST").as_bytes()), expected, "{first:?}");
        }
        assert_eq!(said(["0".repeat(100_000).as_bytes(), b"4\n*RST"].concat().as_slice()), "ok");
        assert_eq!(said(["9".repeat(100_000).as_bytes(), b"\n*RST"].concat().as_slice()), "no 0 0 9");
    }

    /// Inputs that end within or right after their first line.
    #[test]
    fn without_a_script() {
        for (input, expected) in [("", "no 0 0 9"), ("4", "no 1 1 7"), ("4\n", "no 1 1 7"), ("*RST", "no 0 0 9")] {
            assert_eq!(said(input.as_bytes()), expected, "{input:?}");
        }
    }

    /// A script of the most bytes, and one that is longer, which 8 refuses after 9.
    #[test]
    fn most_bytes() {
        let input = |capacity: &str, bytes: usize| [capacity, "\n*RST", &"\n".repeat(bytes - 4)].concat();
        assert_eq!(said(input("4", MOST_SCRIPT_BYTES).as_bytes()), "ok");
        assert_eq!(said(input("4", MOST_SCRIPT_BYTES + 1).as_bytes()), "no 0 0 8");
        assert_eq!(said(input("0", MOST_SCRIPT_BYTES + 1).as_bytes()), "no 0 0 9");
        assert_eq!(said("4\nHARM".repeat(20_000).as_bytes()), "no 0 0 8");
    }
}
