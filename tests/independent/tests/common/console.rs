//! The two programs in C over the script check, and what the console is to write.

use super::running::{run_in, shown, Limits, SMALL_STACK_KIB};
use super::scratch::Scratch;
use super::{root, variable};
use std::path::{Path, PathBuf};
use std::process::Command;

/// The seconds after which a program in C, or `ops` beside it, is stopped.
const SECONDS: u32 = 120;

/// What a run of the console may take, and one of the program that writes numbers.
const WITH_SMALL_STACK: Limits = Limits { seconds: SECONDS, stack_kib: Some(SMALL_STACK_KIB) };
pub const WITH_USUAL_STACK: Limits = Limits { seconds: SECONDS, stack_kib: None };

/// How programs in C are compiled.
const FLAGS: [&str; 6] = ["-std=c99", "-Wall", "-Wextra", "-Werror", "-pedantic", "-O2"];

/// The static library: the one that ARCHIVE names, or else the one that `tests/build` puts there.
fn archive() -> PathBuf {
    let archive = variable("ARCHIVE").unwrap_or_else(|| root().join("target/staticlib/libc_interface.a"));
    assert!(archive.is_file(), "{} is no static library; tests/build puts it there", archive.display());
    archive
}

/// Builds a program from a source of the repository and the static library.
pub fn build(source: &str, program: &Path) {
    let mut command = Command::new(variable("CC").unwrap_or_else(|| "gcc".into()));
    command.args(FLAGS).arg("-I").arg(root().join("include"));
    let output = command.arg(root().join(source)).arg(archive()).arg("-o").arg(program).output();
    let output = output.unwrap_or_else(|error| panic!("the C compiler: {error}"));
    assert!(output.status.success(), "{source} was not built:\n{}", shown(&output.stderr));
}

/// The console of `examples/console.c`, and the files that it reads.
pub struct Console {
    /// The folder that it is run in.
    pub scratch: Scratch,
    /// The path of the built console.
    program: PathBuf,
    /// How many runs have been as expected.
    pub runs: usize,
}

impl Console {
    /// The console, just built.
    pub fn new() -> Console {
        let scratch = Scratch::new();
        let program = scratch.folder().join("console");
        build("examples/console.c", &program);
        Console { scratch, program, runs: 0 }
    }

    /// Expects a verdict on a file of the console's folder: lines on standard output, and the exit status, 0 for `fine`.
    pub fn expect_verdict(&mut self, capacity: &str, script: &str, lines: &str) {
        let status = if lines.starts_with("fine") { 0 } else { 1 };
        self.expect(status, &format!("{lines}\n"), "", &[capacity, script]);
    }

    /// Expects a complaint about the arguments.
    pub fn expect_complaint(&mut self, arguments: &[&str], words: &str) {
        self.expect(2, "", &format!("{words}\n"), arguments);
    }

    /// The path of a file of the console's folder.
    pub fn path(&self, name: &str) -> String {
        self.scratch.folder().join(name).to_str().expect("the path is text").to_string()
    }

    /// Runs the console in its folder with a small stack; its exit status, standard output and standard error are these.
    fn expect(&mut self, status: i32, output: &str, error: &str, arguments: &[&str]) {
        let given = run_in(self.scratch.folder(), WITH_SMALL_STACK, &self.program, arguments, b"");
        let title = format!("console {arguments:?} ended with {}", given.status);
        let [written, complaint] = [&given.stdout, &given.stderr].map(|bytes| String::from_utf8_lossy(bytes));
        assert_eq!(given.status.code(), Some(status), "{title}, and wrote {written:?} {complaint:?}");
        assert_eq!(written, output, "{title}: standard output");
        assert_eq!(complaint, error, "{title}: standard error");
        self.runs += 1;
    }
}

/// The lines behind a refusal by 3: how a course that shows it is written and replayed. The file is a shell's word.
pub fn course(capacity: &str, line: usize, file: &str) -> String {
    format!(
        "for a course that shows it, which script_why writes and ops replays:\n  \
        {{ echo {capacity}; head -n {line} {file}; }} | target/bin/script_why | tail -n +2 | target/bin/ops"
    )
}

/// A script, and the lines that the console writes of it at capacity 4, its file named `script`.
pub struct Case {
    pub script: Vec<u8>,
    pub lines: String,
}

/// The cases of a text, which are divided by empty lines. Lines behind `#` are passed over, those behind `script:` make
/// the script, and the others are the console's.
pub fn cases(text: &str) -> Vec<Case> {
    text.split("\n\n").map(case).filter(|case| !case.script.is_empty()).collect()
}

/// The case of some lines.
fn case(text: &str) -> Case {
    let lines = text.lines().filter(|line| !line.starts_with('#'));
    let (script, lines): (Vec<&str>, Vec<&str>) = lines.partition(|line| line.starts_with("script:"));
    let script = script.iter().flat_map(|line| unescaped(&line["script:".len()..])).collect();
    Case { script, lines: lines.join("\n").trim_end_matches('\n').to_string() }
}

/// The bytes of a text in which `\n` is LF, `\r` CR and `\xHH` any byte.
fn unescaped(text: &str) -> Vec<u8> {
    let mut parts = text.split('\\');
    let mut bytes = parts.next().unwrap_or_default().as_bytes().to_vec();
    for part in parts {
        let (escape, rest) = part.split_at(if part.starts_with('x') { 3 } else { 1 });
        bytes.push(match escape {
            "n" => b'\n',
            "r" => b'\r',
            _ => u8::from_str_radix(&escape[1..], 16).unwrap_or_else(|_| panic!("no escape: {escape}")),
        });
        bytes.extend(rest.as_bytes());
    }
    bytes
}
