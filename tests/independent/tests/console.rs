//! The script check called from C: `examples/console.c` and `tests/console.c` are built against the static library;
//! what the console writes and its exit status are compared, and the numbers that the check gives, as read by the
//! header and by this file, with what `ops` answers.

mod common;

use common::console::{build, cases, course, Console, WITH_USUAL_STACK};
use common::operations::text;
use common::running::{shown, written};
use common::scratch::Scratch;
use common::{contents, counts, example, ops, root};
use independent::ops::compare::{lines, readable};
use independent::ops::Operation;
use independent::random::generator::Generator;

/// The seed of the random scripts, and how many there are.
const SEED: u64 = 1;
const RANDOM_SCRIPTS: usize = 2_000;

/// The capacities at which each named script is checked, and those of the random ones.
const CAPACITIES: [usize; 3] = [4, 1, 0];
const RANDOM_CAPACITIES: [usize; 7] = [1, 2, 4, 4, 16_383, 0, 16_384];

/// The most pieces of a random script, and one more.
const PIECES_END: usize = 30;

/// Commands, and bytes between them, that the random scripts are made of, divided by `|`.
const PIECES: &str =
    "FREQ 100|FREQ 60000|FREQ 102000.1|HARM 2|HARM 3|HARM 102|HARM 19999|FMOD 0|FMOD 1|FMOD 2|OFLT 13|\
    OFLT 14|OFLT 19|STRT|PAUS|REST|TRIG|SEND 0|SEND 1|SRAT 14|SRAT 4|TSTR 1|TRCB?1,0,1|TRCL?2,0,2|TRCL?3,0,1|*RST|*rst|\
    *CLS|*ESR?|*STB?9|PHAS 729.99|PHAS?|SLVL 1.001|OUTX?|DDEF 9,X,0| |;|;|;|\r";

/// The lines of the long script: more than 2^24.
const MANY_LINES: usize = 17_000_000;

/// The most bytes of a script that the check program takes.
const MOST_BYTES: usize = 60_000;

/// The words for a number of runs.
const AGREE: &str = "runs of the console agree";

/// What the console says in words.
const FINE: &str = "fine: no bench can refuse a command of this script";
const UNKNOWN: &str = "refused by 1, no command of this module, or not in its form";
const RANGE: &str = "refused by 2, a value out of range or not whole";
const NOT_ALLOWED: &str = "refused by 3, not allowed in some state that a bench can be in";
const NO_RESET: &str = "line 1, command 1: refused by 7, the script does not begin with *RST";

/// Capacities, scripts by name, and the lines that the console writes.
fn verdicts() -> Vec<(&'static str, &'static str, String)> {
    let not_allowed = |capacity, line: usize, place, name, shown| {
        let course = course(capacity, line, name);
        (capacity, name, format!("line {line}, command {place}: {NOT_ALLOWED}\n{shown}\n{course}"))
    };
    let fine = |capacity, name| (capacity, name, FINE.to_string());
    let no_capacity =
        |capacity| (capacity, "reset", format!("refused by 9, the capacity {capacity} is not 1 to 16383"));
    let [spaces, ends, column] = [" ".repeat(94), ";".repeat(93), " ".repeat(97)];
    vec![
        not_allowed("4", 5, 1, "example", "  OFLT 19\n  ^~~~~~~"),
        not_allowed("1", 2, 1, "two-points", "  TRCB?1,0,2\n  ^~~~~~~~~~"),
        not_allowed("4", 11_999, 4, "60000-state", "  ;;;SEND 1\n     ^~~~~~"),
        ("4", "empty", format!("{NO_RESET}: it has no command")),
        ("4", "no-command", format!("{NO_RESET}: it has no command")),
        ("4", "late-reset", format!("{NO_RESET}\n  FREQ 100\n  ^~~~~~~~")),
        ("4", "range", format!("line 1, command 2: {RANGE}\n  *RST;FREQ 102001\n       ^~~~~~~~~~~")),
        ("4", "range-before-long", format!("line 1, command 2: {RANGE}\n  *RST;HARM 2000000\n       ^~~~~~~~~~~~")),
        ("4", "unknown", format!("line 2, command 3: {UNKNOWN}\n  ;;OUTX? 1\n    ^~~~~~~")),
        ("4", "place-256", format!("line 2, command 256: {UNKNOWN}\n  ..{ends}X\n{column}^")),
        ("4", "60000-name", format!("line 59996, command 1: {UNKNOWN}\n  X\n  ^")),
        (
            "4",
            "line-of-257",
            format!("line 3: refused by 8, the line has 257 bytes, and 256 is the most\n  {spaces}.."),
        ),
        no_capacity("0"),
        no_capacity("16384"),
        no_capacity("4294967295"),
        fine("4", "reset"),
        fine("2", "two-points"),
        fine("4", "line-of-256"),
        fine("4", "60000-fine"),
        fine("1", "reset"),
        fine("0016383", "reset"),
    ]
}

/// The scripts by name.
fn scripts() -> Vec<(&'static str, Vec<u8>)> {
    let text = |parts: &[&str]| parts.concat().into_bytes();
    vec![
        ("example", contents(&root().join("examples/scripts/chopper.txt"))),
        ("empty", text(&[])),
        ("reset", text(&["*RST"])),
        ("no-command", text(&["\n ;\r;\n"])),
        ("late-reset", text(&["FREQ 100\n*RST\n"])),
        ("range", text(&["*RST;FREQ 102001"])),
        ("unknown", text(&["*RST\n;;OUTX? 1"])),
        ("two-points", text(&["*RST;SRAT 14;STRT;TRIG;TRIG\nTRCB?1,0,2"])),
        ("line-of-256", text(&["*RST\nSTRT\n", &" ".repeat(256), "\nSTRT"])),
        ("line-of-257", text(&["*RST\nSTRT\n", &" ".repeat(257), "\nSTRT"])),
        ("place-256", text(&["*RST\n", &";".repeat(255), "X"])),
        ("range-before-long", text(&["*RST;HARM 2000000\n", &";".repeat(300)])),
        ("60000-fine", text(&["*RST\n", &"STRT\n".repeat(11_999)])),
        ("60000-state", text(&["*RST\n", &"STRT\n".repeat(11_997), ";;;SEND 1\n"])),
        ("60000-name", text(&["*RST", &"\n".repeat(59_995), "X"])),
    ]
}

/// Each verdict is written in words, and the exit status tells fine from refused.
#[test]
fn the_console_says_each_verdict_in_words() {
    let mut console = Console::new();
    for (name, script) in scripts() {
        assert!(!name.starts_with("60000") || script.len() == MOST_BYTES, "{name} has {} bytes", script.len());
        console.scratch.file(name, &script);
    }
    for (capacity, script, lines) in verdicts() {
        console.expect_verdict(capacity, script, &lines);
    }
    counts::say(console.runs, AGREE);
}

/// The command that is refused is marked in its line, wherever it stands and whatever bytes are about it.
#[test]
fn the_console_marks_the_refused_command() {
    let mut console = Console::new();
    let text = String::from_utf8(example("console.cases")).expect("the cases are text");
    for case in cases(&text) {
        console.scratch.file("script", &case.script);
        console.expect_verdict("4", "script", &case.lines);
    }
    counts::say(console.runs, AGREE);
}

/// Behind a refusal by 3 a file's name stands as a shell reads it.
#[test]
fn the_console_writes_a_file_name_as_a_shell_word() {
    let mut console = Console::new();
    for (file, word) in [("it's", "'it'\\''s'"), ("a b", "'a b'"), ("-x", "./-x")] {
        console.scratch.file(file, b"*RST\nSTRT;SEND 1");
        let course = course("4", 2, word);
        let lines = format!("line 2, command 2: {NOT_ALLOWED}\n  STRT;SEND 1\n       ^~~~~~\n{course}");
        console.expect_verdict("4", file, &lines);
    }
    counts::say(console.runs, AGREE);
}

/// Where the script up to the refused line is longer than `script_why` takes, the console says so.
#[test]
fn the_console_names_no_course_past_what_script_why_takes() {
    let mut console = Console::new();
    let script = ["*RST\n", &"STRT\n".repeat(11_997), ";;; SEND 1\n"].concat();
    assert_eq!(script.len(), MOST_BYTES + 1, "the script's bytes");
    console.scratch.file("script", script.as_bytes());
    let none =
        "script_why can show no course for it: it takes at most 60000 bytes, and the script has 60001 up to here";
    let lines = format!("line 11999, command 4: {NOT_ALLOWED}\n  ;;; SEND 1\n      ^~~~~~\n{none}");
    console.expect_verdict("4", "script", &lines);
    counts::say(console.runs, AGREE);
}

/// A script past what `ops` and the check program take, with a line number past 2^24.
#[test]
fn the_console_names_a_line_past_two_to_the_24() {
    let mut console = Console::new();
    console.scratch.file("long", &[&b"*RST"[..], &vec![b'\n'; MANY_LINES - 1], b"X"].concat());
    console.expect_verdict("4", "long", &format!("line {MANY_LINES}, command 1: {UNKNOWN}\n  X\n  ^"));
    counts::say(console.runs, AGREE);
}

/// Arguments and files that the console does not take.
#[test]
fn the_console_complains_of_mistakes_in_arguments() {
    let usage = "usage: console CAPACITY FILE";
    let mut console = Console::new();
    console.scratch.file("reset", b"*RST");
    let [reset, none] = ["reset", "none"].map(|name| console.path(name));
    let folder = console.scratch.folder().to_str().expect("the path is text").to_string();
    console.expect_complaint(&[], usage);
    console.expect_complaint(&["4"], usage);
    console.expect_complaint(&["4", &reset, "4"], usage);
    console.expect_complaint(&["4", &none], &format!("console: {none}: No such file or directory"));
    console.expect_complaint(&["4", &folder], &format!("console: {folder}: Is a directory"));
    for bad in ["", " 4", "4 ", "-1", "+4", "0x4", "4.0", "four", "4294967296", "18446744073709551620"] {
        let words = format!("console: the capacity '{bad}' is not a number from 0 to 4294967295 in digits");
        console.expect_complaint(&[bad, &reset], &words);
    }
    counts::say(console.runs, AGREE);
}

/// The numbers that a caller in C gets are what `ops` answers.
#[test]
fn numbers_from_c_are_what_ops_answers() {
    let scratch = Scratch::new();
    let program = scratch.folder().join("numbers");
    build("tests/console.c", &program);
    let operations = operations();
    let stream = text(operations.clone());
    let numbers = written("tests/console.c", WITH_USUAL_STACK, &program, &stream);
    let answers = written("ops beside the console", WITH_USUAL_STACK, &ops(), &stream);
    let (numbers, answers) = (lines(&numbers), lines(&answers));
    assert_eq!([numbers.len(), answers.len()], [operations.len(); 2], "the answers from C and of ops");
    for ((operation, numbers), answer) in operations.iter().zip(numbers).zip(answers) {
        let shown_operation = shown(readable(operation).as_bytes());
        assert_eq!(read_numbers(numbers), String::from_utf8_lossy(answer), "from C, and by ops: {shown_operation}");
    }
    counts::say(operations.len(), AGREE);
}

/// The number read by hand, as `ops` writes a verdict; the header reads the same.
fn read_numbers(text: &[u8]) -> String {
    let text = String::from_utf8_lossy(text);
    let numbers: Vec<u64> = text.split(' ').map(|word| word.parse().expect("numbers alone")).collect();
    let [number, by_header @ ..] = &numbers[..] else { panic!("a line without a number") };
    let by_hand = [number >> 24, number >> 8 & 65_535, number & 255];
    assert_eq!(by_header, by_hand, "the line, place and refusal that the header reads off {number}");
    match by_hand {
        [0, 0, 0] => "ok".to_string(),
        [line, place, refusal] => format!("no {line} {place} {refusal}"),
    }
}

/// Check operations: of the named scripts, of the examples, and of random scripts.
fn operations() -> Vec<Vec<u8>> {
    let named = scripts();
    let named = named.iter().flat_map(|(_, script)| CAPACITIES.map(|capacity| check(capacity, script)));
    let examples = example("check.ops");
    let examples = lines(&examples).into_iter().filter(|line| is_check(line)).map(<[u8]>::to_vec);
    let mut generator = Generator::new(SEED);
    let random = (0..RANDOM_SCRIPTS).map(|_| {
        let script = random_script(&mut generator);
        check(generator.pick(&RANDOM_CAPACITIES), &script)
    });
    named.chain(examples).chain(random).collect()
}

/// The check of a script as an operation's text.
fn check(capacity: usize, script: &[u8]) -> Vec<u8> {
    Operation::Check { capacity, script: script.to_vec() }.to_string().into_bytes()
}

/// Whether a line is a check operation, which alone the program in C answers.
fn is_check(line: &[u8]) -> bool {
    matches!(Operation::read(line), Some(Operation::Check { .. }))
}

/// A script of random pieces, a line each or divided by `;`. Seven of eight begin with *RST.
fn random_script(generator: &mut Generator) -> Vec<u8> {
    let pieces: Vec<&str> = PIECES.split('|').collect();
    let mut script = if generator.below(8) == 0 { Vec::new() } else { b"*RST\n".to_vec() };
    for _ in 0..generator.below(PIECES_END) {
        script.extend(generator.pick(&pieces).as_bytes());
        script.push(generator.pick(b"\n\n;"));
    }
    script
}
