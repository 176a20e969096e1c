//! The programs over the script check: `script_check` says what the independent program says, byte for byte, and
//! `script_why` says it too and shows each refusal by 3, by operations that are replayed to both ops programs.

mod common;

use common::running::shown;
use common::verdicts::{is_by_state, verdict_line, Agreed};
use common::{example, script_check};
use independent::hex::printable;
use independent::random::deep::{self, Case, Scripts};
use std::io::Write;
use std::process::{Command, Stdio};
use std::thread;
use std::time::Duration;

/// The seed of the random scripts and how many there are; how many of the first are all tried, while of the others only
/// those refused by 3 are; and how many witnesses there must be at least.
const SEED: u64 = 5;
const SCRIPTS: usize = 900;
const SCRIPTS_ALL_TRIED: usize = 200;
const LEAST_WITNESSES: usize = 300;

/// The seed of the scripts about as long as they may be, and their bytes.
const LONG_SEED: u64 = 1;
const LONG_BYTES: [usize; 4] = [59_999, 60_000, 60_001, 1_000_000];

/// The bytes after which the example's input stops for a while, and for how long.
const PIECES_END: [usize; 2] = [1, 25];
const PAUSE: Duration = Duration::from_millis(100);

/// How many digits the longest first lines begin with.
const MANY_DIGITS: usize = 100_000;

/// First lines in digits, divided by spaces: capacities, and numbers that are none.
const NUMERALS: &str = "4 04 000000000004 0 00 1 5 16383 0000016383 16384 16385 65535 65536 65540 2147483652 \
    4294967295 4294967296 4294967300 18446744073709551615 18446744073709551616 18446744073709551620 \
    340282366920938463463374607431768211460";

/// First lines that are no number in digits; the last three are a 4 with bit 7 set, and an Arabic and a wide 4 in
/// UTF-8.
const NO_NUMERALS: [&[u8]; 21] = [
    b"",
    b"\r",
    b" ",
    b"4 ",
    b" 4",
    b"+4",
    b"-4",
    b"4\r",
    b"4\t",
    b"\t4",
    b"4x",
    b"x",
    b"0x4",
    b"4e0",
    b"4.0",
    b"4,",
    b"4;",
    b"*RST",
    b"\xb4",
    b"\xd9\xa4",
    b"\xef\xbc\x94",
];

/// What follows a first line: nothing of a script, a script that holds four points where it can, and no LF even.
const AFTER_FIRST_LINES: [&[u8]; 3] = [b"\n", b"\n*RST;SRAT 14;STRT;TRIG;TRIG;TRIG;TRIG;TRIG\nTRCL?1,0,4", b""];

/// The example's verdict is the one of its file, by both programs.
#[test]
fn the_example_gets_the_verdict_of_its_file() {
    let (input, expected) = (example("script-check.input"), example("script-check.output"));
    let own = verdict_line(&input);
    assert!(own.as_bytes() == expected, "the independent program's verdict on the example is {own}");
    let mut agreed = Agreed::default();
    agreed.compare("the example", &input);
    agreed.say();
}

/// Input that comes in pieces is taken as a whole.
#[test]
fn the_example_in_pieces_gets_the_same_verdict() {
    let input = example("script-check.input");
    let mut command = Command::new(script_check());
    let mut child = command.stdin(Stdio::piped()).stdout(Stdio::piped()).spawn().expect("it runs");
    let mut pipe = child.stdin.take().expect("a pipe");
    let [first, second] = PIECES_END;
    for piece in [&input[..first], &input[first..second], &input[second..]] {
        // A program that ends early closes its input; what it has said decides.
        let _ = pipe.write_all(piece);
        thread::sleep(PAUSE);
    }
    drop(pipe);
    let output = child.wait_with_output().expect("it ends");
    assert!(output.status.success(), "script_check ended with {}", output.status);
    assert!(output.stdout == example("script-check.output"), "script_check says {}", shown(&output.stdout));
}

/// First lines that are a capacity, and first lines that are none; with an LF, and without it.
#[test]
fn first_lines_are_read_alike() {
    let mut agreed = Agreed::default();
    agreed.compare("no input", b"");
    let first_lines = NUMERALS.split_whitespace().map(str::as_bytes).chain(NO_NUMERALS);
    for first in first_lines {
        for rest in AFTER_FIRST_LINES {
            let title = format!("line one {}, then {}", printable(first), printable(rest));
            agreed.compare(&title, &[first, rest].concat());
        }
    }
    agreed.compare("line one with a NUL", b"4\0\n*RST");
    agreed.say();
}

/// A capacity may have any number of leading zeros; as many nines are too large.
#[test]
fn first_lines_of_very_many_digits_are_read_alike() {
    let mut agreed = Agreed::default();
    for digit in [b'0', b'9'] {
        for rest in [&b"4\n*RST"[..], b"\n*RST", b"4"] {
            let title = format!("{MANY_DIGITS} digits {}, then {}", char::from(digit), printable(rest));
            agreed.compare(&title, &[&vec![digit; MANY_DIGITS][..], rest].concat());
        }
    }
    agreed.say();
}

/// Scripts about as long as they may be: ones that pass, and ones refused by 2 and by 3 at their very end.
#[test]
fn scripts_about_as_long_as_they_may_be_are_checked_alike() {
    let mut agreed = Agreed::default();
    for bytes in LONG_BYTES {
        for last in ["", "\nHARM 0", "\nTRCL?1,16383,1"] {
            let begin = deep::long(LONG_SEED, bytes - last.len()).expect("a script may be as long");
            for capacity in ["4", "16383", "0", "16384", "x"] {
                let title = format!("{bytes} bytes, capacity {capacity}, at the end {last:?}");
                agreed.compare(&title, &[capacity.as_bytes(), b"\n", &begin, last.as_bytes()].concat());
            }
        }
    }
    agreed.say();
}

/// Scripts as long that are one byte again and again.
#[test]
fn single_bytes_repeated_are_checked_alike() {
    let mut agreed = Agreed::default();
    for bytes in LONG_BYTES {
        for byte in *b"\n; \rA\0\xff" {
            let title = format!("{bytes} bytes {}", printable(&[byte]));
            agreed.compare(&title, &[&b"4\n"[..], &vec![byte; bytes]].concat());
        }
    }
    agreed.say();
}

/// Random scripts: all of the first ones, and of the others those refused by 3.
#[test]
fn random_scripts_get_the_same_verdict_and_witnesses_that_hold() {
    let mut agreed = Agreed::default();
    for (number, input) in (1..).zip(Scripts::new(SEED).take(SCRIPTS).map(Case::input)) {
        if number <= SCRIPTS_ALL_TRIED || is_by_state(&verdict_line(&input)) {
            agreed.compare(&format!("random script {number}"), &input);
        }
    }
    assert!(agreed.witnesses >= LEAST_WITNESSES, "only {} witnesses were tested", agreed.witnesses);
    agreed.say();
}
