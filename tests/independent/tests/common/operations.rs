//! Comparing what the proved program answers to operations with what is answered here.

use super::running::{assert_ended_well, run, shown, Limits, USUAL};
use super::scratch::Scratch;
use super::{counts, ops};
use independent::ops::compare::{first_difference, lines, report};
use independent::ops::met::{met, Met, ALTER, CALLS};
use independent::ops::{band, runs, Operation};
use std::path::Path;

/// The seconds in which a short stream that shows a difference is looked for.
const SECONDS_TO_SHRINK: u32 = 120;

/// What has agreed so far.
#[derive(Default)]
pub struct Agreed {
    /// How many answers are the same.
    pub answers: usize,
    /// The alterations, and the calls refused by 11.
    pub met: Met,
    /// The runs of each kind.
    pub runs: runs::Counts,
    /// The calls of each kind that meet the band.
    pub band: band::Counts,
}

impl Agreed {
    /// With what has agreed elsewhere.
    pub fn and(mut self, other: Agreed) -> Agreed {
        self.answers += other.answers;
        for (call, times) in other.met {
            *self.met.entry(call).or_default() += times;
        }
        let counts = self.runs.iter_mut().chain(&mut self.band);
        for (count, more) in counts.zip(other.runs.into_iter().chain(other.band)) {
            *count += more;
        }
        self
    }

    /// Prints the number of answers, in these words, and for the sum over all tests how often 11 refused each call.
    pub fn say(&self, words: &str) {
        counts::say(self.answers, words);
        for word in [ALTER].into_iter().chain(CALLS) {
            let times = self.met.iter().filter(|((call, _), _)| *call == word).map(|(_, times)| times);
            counts::say_in_all(times.sum(), word);
        }
    }

    /// Fails the test where some kind of runs did not come up, and prints how many there are of each.
    pub fn say_runs(&self) {
        for (count, words) in runs::with_words(self.runs) {
            assert!(count > 0, "of the runs none {words}");
            counts::say(count, words);
        }
    }

    /// Fails the test where some way to meet the band did not come up, and prints how many calls there are of each.
    pub fn say_band(&self) {
        for (count, words) in band::with_words(self.band) {
            assert!(count > 0, "of the calls none {words}");
            counts::say(count, words);
        }
    }
}

/// Lines as one text.
pub fn text(lines: impl IntoIterator<Item = Vec<u8>>) -> Vec<u8> {
    lines.into_iter().flat_map(|line| [&line[..], b"\n"].concat()).collect()
}

/// Operations as one text.
pub fn text_of(operations: impl IntoIterator<Item = Operation>) -> Vec<u8> {
    text(operations.into_iter().map(|operation| operation.to_string().into_bytes()))
}

/// Compares the answers to some operations.
pub fn compare(title: &str, operations: &[u8]) -> Agreed {
    compare_and_give(title, operations).0
}

/// Compares the answers to some operations, and gives those of the proved program too.
pub fn compare_and_give(title: &str, operations: &[u8]) -> (Agreed, Vec<u8>) {
    let program = ops();
    let output = run::<&str>(USUAL, &program, &[], operations);
    let (asked, given) = (lines(operations), lines(&output.stdout));
    let answers = first_difference(&asked, &given).unwrap_or_else(|difference| {
        let report = shown(report(&difference).as_bytes());
        let status = format!("{} ended with {}", program.display(), output.status);
        panic!("{title}: the two programs differ ({status})\n{report}\n{}", shortest(&program, operations))
    });
    assert_ended_well(title, &program, &output);
    let met = met(&asked, &given);
    let runs = runs::counts(&asked, &given);
    let band = band::counts(&asked);
    (Agreed { answers, met, runs, band }, output.stdout)
}

/// A short stream of operations that a program answers differently, and both answers to its last one.
fn shortest(program: &Path, operations: &[u8]) -> String {
    let scratch = Scratch::new();
    let file = scratch.file("operations", operations);
    let limits = Limits { seconds: SECONDS_TO_SHRINK, stack_kib: None };
    let independent = Path::new(env!("CARGO_BIN_EXE_independent"));
    let output = run(limits, independent, &["ops-shrink".as_ref(), program.as_os_str(), file.as_os_str()], b"");
    let found = shown(&[output.stderr, output.stdout].concat());
    match output.status.success() {
        true => format!("a short stream that shows a difference, and both answers to its last operation:\n{found}"),
        false => format!("no short stream was found in {SECONDS_TO_SHRINK} seconds: {found}"),
    }
}
