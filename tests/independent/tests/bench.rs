//! The bench program: bytes in, replies out. The whole run has a stack of 128 KiB, and the buffers of `bench` take 72
//! of them, so that one call has less than 64.

mod common;

use common::running::{shown, written, Limits, SECONDS_PER_RUN, SMALL_STACK_KIB};
use common::{counts, example};
use independent::random;
use std::io::{Read, Write};
use std::process::{Command, Stdio};
use std::sync::mpsc;
use std::thread;
use std::time::Duration;

/// Seeds of random lines, and how many of each.
const SEEDS: [u64; 4] = [1, 2, 3, 4];
const LINES_PER_SEED: usize = 2_000;

/// Seeds of lines with many queries, and how many bytes of each: several times what is read at once, with replies many
/// times as long as the room for them.
const QUERY_SEEDS: [u64; 3] = [1, 2, 3];
const QUERY_BYTES: usize = 250_000;

/// The pieces in which a session comes in, each with the replies to it, which come before the next piece is sent.
const SESSION: [(&[u8], &[u8]); 4] = [
    (b"*IDN?\nPH", b"LOCKIN,M1,s/n00042,ver1.000\n"),
    (b"AS 541;PHAS?\n", b"-179.00\n"),
    (b"HARM?\nHARM 2;HARM?\nHARM 3;HARM", b"1\n2\n"),
    (b"?\n*ESR?", b"3\n"),
];

/// The time in which a piece is replied to.
const TIME_TO_REPLY: Duration = Duration::from_secs(10);

/// What a run of the bench program may take.
const LIMITS: Limits = Limits { seconds: SECONDS_PER_RUN, stack_kib: Some(SMALL_STACK_KIB) };

/// The example's replies are those of its file, by both programs.
#[test]
fn bench_writes_the_example_replies_within_a_small_stack() {
    let (input, expected) = (example("bench.input"), example("bench.output"));
    let own = own_replies(&input);
    assert_eq!(shown(&own), shown(&expected), "the independent program's replies to the example");
    assert!(own == expected, "the independent program does not write examples/bench.output, byte for byte");
    counts::say(compare("the example", &input, &expected), "reply bytes agree");
}

/// Without input there is no reply.
#[test]
fn bench_writes_nothing_to_no_input() {
    assert_eq!(compare("no input", b"", b""), 0);
}

/// Compares the replies to the input of each seed, and says how many bytes agree.
fn compare_seeds(kind: &str, seeds: &[u64], input_of: impl Fn(u64) -> Vec<u8>) {
    let compared = seeds.iter().map(|&seed| {
        let input = input_of(seed);
        compare(&format!("{kind}, seed {seed}"), &input, &own_replies(&input))
    });
    counts::say(compared.sum(), "reply bytes agree");
}

/// Random lines, well formed and not, with line ends of several kinds.
#[test]
fn bench_replies_to_random_lines_alike_within_a_small_stack() {
    compare_seeds("lines", &SEEDS, |seed| random::bench::input(seed, LINES_PER_SEED));
}

/// Lines of many queries: what is read at once has more replies than the room holds, so that each has to be written
/// before the next ones find room.
#[test]
fn bench_replies_to_many_queries_alike_within_a_small_stack() {
    compare_seeds("queries", &QUERY_SEEDS, |seed| random::bench::queries(seed, QUERY_BYTES));
}

/// Bytes are replied to as they come in, also where a line comes in pieces.
#[test]
fn bench_replies_to_a_line_before_the_next_comes() {
    let program = common::bench();
    let mut session = Command::new(&program).stdin(Stdio::piped()).stdout(Stdio::piped()).spawn().expect("it runs");
    let mut input = session.stdin.take().expect("a pipe");
    let mut output = session.stdout.take().expect("a pipe");
    let (sender, receiver) = mpsc::channel();
    thread::spawn(move || {
        for (_, expected) in SESSION {
            let mut replies = vec![0; expected.len()];
            let read = output.read_exact(&mut replies);
            let _ = sender.send(read.map(|()| replies));
        }
    });
    for (piece, expected) in SESSION {
        input.write_all(piece).expect("it takes a piece");
        let Ok(replies) = receiver.recv_timeout(TIME_TO_REPLY) else {
            session.kill().expect("it was running");
            panic!("{} does not reply to {} at once", program.display(), shown(piece));
        };
        assert_eq!(shown(&replies.expect("it replies")), shown(expected), "the replies to {}", shown(piece));
    }
    drop(input);
    let status = session.wait().expect("it ends");
    assert!(status.success(), "{} ended with {status}", program.display());
}

/// The replies of the independent program.
fn own_replies(input: &[u8]) -> Vec<u8> {
    let mut replies = Vec::new();
    independent::bench::bench(input, &mut replies).expect("memory can be written");
    replies
}

/// Compares the proved program's replies with those expected; how many bytes they have.
fn compare(title: &str, input: &[u8], expected: &[u8]) -> usize {
    let given = written(title, LIMITS, &common::bench(), input);
    if given != expected {
        let same = given.iter().zip(expected).take_while(|(given, expected)| given == expected).count();
        let line = expected[..same].iter().filter(|&&byte| byte == b'\n').count();
        let [given, expected] = [&given[..], expected].map(|bytes| line_of(bytes, line));
        panic!("bench, {title}: reply line {} is {given:?} and not {expected:?}", line + 1);
    }
    expected.len()
}

/// The text of a line, counted from 0; its end too.
fn line_of(bytes: &[u8], line: usize) -> String {
    let line = bytes.split_inclusive(|&byte| byte == b'\n').nth(line).unwrap_or_default();
    String::from_utf8_lossy(line).into_owned()
}
