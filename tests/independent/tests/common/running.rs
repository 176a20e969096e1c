//! Running a program within limits of time and stack.

use super::scratch::Scratch;
use std::ffi::OsStr;
use std::fs::File;
use std::path::Path;
use std::process::{Command, Output, Stdio};

/// The seconds after which a program is stopped.
pub const SECONDS_PER_RUN: u32 = 300;

/// The stack of a program that is tried with a small one, in KiB.
pub const SMALL_STACK_KIB: u32 = 128;

/// What a program may take.
#[derive(Clone, Copy)]
pub struct Limits {
    /// The seconds after which it is stopped.
    pub seconds: u32,
    /// The stack in KiB; nothing for the usual one.
    pub stack_kib: Option<u32>,
}

/// The limits of most runs.
pub const USUAL: Limits = Limits { seconds: SECONDS_PER_RUN, stack_kib: None };

/// Runs a program on these bytes; how it ended and what it wrote.
pub fn run<A: AsRef<OsStr>>(limits: Limits, program: &Path, arguments: &[A], input: &[u8]) -> Output {
    run_in(Path::new("."), limits, program, arguments, input)
}

/// The same in a folder.
pub fn run_in<A: AsRef<OsStr>>(folder: &Path, limits: Limits, program: &Path, arguments: &[A], input: &[u8]) -> Output {
    let stack = limits.stack_kib.map_or(String::new(), |kib| format!("ulimit -s {kib} && "));
    let words = format!("{stack}exec timeout {} \"$@\"", limits.seconds);
    let mut command = Command::new("sh");
    command.args(["-c", &words, "sh"]).arg(program).args(arguments).stdin(standard_input(input));
    command.current_dir(folder).output().unwrap_or_else(|error| panic!("{}: {error}", program.display()))
}

/// What a program writes to these bytes within the limits; the test fails unless it ends with status 0.
pub fn written(title: &str, limits: Limits, program: &Path, input: &[u8]) -> Vec<u8> {
    let output = run::<&str>(limits, program, &[], input);
    assert_ended_well(title, program, &output);
    output.stdout
}

/// Fails the test where a program did not end with status 0.
pub fn assert_ended_well(title: &str, program: &Path, output: &Output) {
    let complaint = shown(&output.stderr);
    assert!(output.status.success(), "{title}: {} ended with {} {complaint}", program.display(), output.status);
}

/// A file of these bytes as standard input, so that a read gets as many as it asks for.
fn standard_input(bytes: &[u8]) -> Stdio {
    if bytes.is_empty() {
        return Stdio::null();
    }
    let scratch = Scratch::new();
    File::open(scratch.file("input", bytes)).expect("the file was just written").into()
}

/// The most letters of a line that are shown.
const MOST_SHOWN: usize = 4_000;

/// A text to read, with its lines cut where they are very long.
pub fn shown(text: &[u8]) -> String {
    let text = String::from_utf8_lossy(text);
    let cut: Vec<String> = text.lines().map(|line| line.chars().take(MOST_SHOWN).collect()).collect();
    cut.join("\n")
}
