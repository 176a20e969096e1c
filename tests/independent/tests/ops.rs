//! The whole module through operations: what the proved program `ops` answers is what the independent program answers.

mod common;

use common::operations::{compare, compare_and_give, text, text_of, Agreed};
use common::{contents, handed_over, ops, root};
use independent::ops::compare::{first_difference, lines, report};
use independent::ops::met::CALLS;
use independent::ops::Session;
use independent::random::{damaged, operations};
use independent::table;
use std::fs;
use std::io::{BufRead, BufReader, Write};
use std::path::{Path, PathBuf};
use std::process::{Command, Stdio};
use std::sync::mpsc;
use std::thread;
use std::time::Duration;

/// Seeds of random operations, and how many of each: over 1,500 runs and 25,000 others, though some lines are empty and
/// get no answer.
const OPERATION_SEEDS: [u64; 12] = [1, 2, 3, 4, 5, 6, 7, 8, 9, 10, 11, 12];
const OPERATIONS_PER_SEED: usize = 28_600;

/// Seeds of lines that are mostly no operations, and how many of each.
const DAMAGED_SEEDS: [u64; 2] = [1, 2];
const LINES_PER_DAMAGED_SEED: usize = 5_000;

/// The fields by which each call meets refusal 11: all 53 but for the three enables that hold any byte.
const FIELDS_REFUSED: usize = 50;

/// The time in which an operation is answered.
const TIME_TO_ANSWER: Duration = Duration::from_secs(10);

/// The words for a number of answers.
const AGREE: &str = "answers to operations agree";

/// An operation is answered before the next one comes, and the end of the input ends the program.
#[test]
fn an_operation_is_answered_before_the_next_comes() {
    let program = ops();
    let mut session = Command::new(&program).stdin(Stdio::piped()).stdout(Stdio::piped()).spawn().expect("it runs");
    let mut input = session.stdin.take().expect("a pipe");
    let mut output = BufReader::new(session.stdout.take().expect("a pipe"));
    let (sender, receiver) = mpsc::channel();
    thread::spawn(move || {
        let mut answer = String::new();
        let read = output.read_line(&mut answer);
        let _ = sender.send(read.map(|_| answer));
    });
    input.write_all(b"tick\n").expect("it takes an operation");
    let Ok(answer) = receiver.recv_timeout(TIME_TO_ANSWER) else {
        session.kill().expect("it was running");
        panic!("{} does not answer at once", program.display());
    };
    assert_eq!(answer.expect("its answer is text"), "A 0\n", "the answer to tick");
    drop(input);
    let status = session.wait().expect("it ends");
    assert!(status.success(), "{} ended with {status}", program.display());
}

/// Each worked example has its answers beside it; both programs give them, byte for byte.
#[test]
fn examples_are_answered_as_their_files_say() {
    let examples = examples();
    assert!(!examples.is_empty(), "there are no examples");
    examples.iter().map(|path| compare_example(path)).fold(Agreed::default(), Agreed::and).say(AGREE);
}

/// The files of operations among the examples.
fn examples() -> Vec<PathBuf> {
    let folder = fs::read_dir(root().join("tests/examples")).expect("there are examples");
    let mut paths: Vec<PathBuf> = folder.map(|entry| entry.expect("the folder can be read").path()).collect();
    paths.retain(|path| path.extension().is_some_and(|extension| extension == "ops"));
    paths.sort();
    paths
}

/// Compares both programs' answers to an example with those of its file.
fn compare_example(path: &Path) -> Agreed {
    let title = path.display().to_string();
    let operations = contents(path);
    let expected = contents(&path.with_extension("answers"));
    if Session::new().answers(&operations).as_bytes() != expected {
        let difference = first_difference(&lines(&operations), &lines(&expected)).err();
        let shown = difference.map_or("the last line is not ended".to_string(), |difference| report(&difference));
        panic!("{title}: the independent program has other answers than the file (given)\n{shown}");
    }
    let (agreed, given) = compare_and_give(&title, &operations);
    assert!(given == expected, "{title}: {} does not give the file's answers, byte for byte", ops().display());
    agreed
}

/// Lines, values and points that are easily taken wrongly.
#[test]
fn the_table_of_worked_values_is_answered_alike() {
    compare("table", &text_of(table::operations())).say(AGREE);
}

/// Each field of the state is altered in turn, and every call is made after it: all meet refusal 11 there.
#[test]
fn every_call_meets_refusal_11_by_each_field() {
    let agreed = compare("altered", &text_of(table::altered::operations()));
    for call in CALLS {
        let fields = agreed.met.keys().filter(|(met, _)| *met == call).count();
        assert_eq!(fields, FIELDS_REFUSED, "the fields by which {call} meets 11");
    }
    agreed.say(AGREE);
}

/// Random operations, chosen beside a module that they are performed on.
#[test]
fn random_operations_are_answered_alike() {
    let compared = OPERATION_SEEDS.map(|seed| compare_random(seed, OPERATIONS_PER_SEED));
    let agreed = compared.into_iter().fold(Agreed::default(), Agreed::and);
    agreed.say(AGREE);
    agreed.say_runs();
    agreed.say_band();
}

/// Compares the answers to random operations.
fn compare_random(seed: u64, count: usize) -> Agreed {
    let operations = text(operations::Operations::new(seed).take(count));
    compare(&format!("operations, seed {seed}"), &operations)
}

/// Bytes of any kind, damaged operations, and some whole ones among them.
#[test]
fn damaged_lines_are_answered_alike() {
    let compared = DAMAGED_SEEDS.map(|seed| {
        let lines = text(damaged::Lines::new(seed).take(LINES_PER_DAMAGED_SEED));
        compare(&format!("damaged lines, seed {seed}"), &lines)
    });
    compared.into_iter().fold(Agreed::default(), Agreed::and).say(AGREE);
}

/// As many random operations as one likes, from any seed.
#[test]
#[ignore = "tests/run --more-ops SEED COUNT runs it"]
fn more_random_operations_are_answered_alike() {
    compare_random(handed_over("MORE_SEED"), handed_over("MORE_COUNT")).say(AGREE);
}
