//! Comparing what `script_check` and `script_why` say to an input with the independent program's verdict.

use super::running::{shown, written, USUAL};
use super::{counts, ops, script_check, script_why};
use independent::course::witness;
use independent::ops::Session;
use independent::script::{self, program};

/// What has agreed so far.
#[derive(Clone, Copy, Debug, Default, PartialEq, Eq)]
pub struct Agreed {
    /// Verdicts of both programs.
    pub verdicts: usize,
    /// Courses of `script_why` that show a refusal by 3.
    pub witnesses: usize,
}

impl Agreed {
    /// Prints how many verdicts agree, and how many witnesses hold.
    pub fn say(self) {
        counts::say(self.verdicts, "verdicts of script_check and script_why agree");
        counts::say(self.witnesses, "witnesses of script_why hold");
    }

    /// Compares what both programs say to one more input.
    pub fn compare(&mut self, title: &str, input: &[u8]) {
        let expected = verdict_line(input);
        let given = written(title, USUAL, &script_check(), input);
        assert!(given == expected.as_bytes(), "script_check, {title}: {:?} and not {expected:?}", begin(&given));
        self.verdicts += 1;
        self.witnesses += usize::from(test_why(title, input, &expected));
    }
}

/// What the independent program says to an input of the check program.
pub fn verdict_line(input: &[u8]) -> String {
    script::text(&program::verdict(input)) + "\n"
}

/// Whether a verdict is a refusal by 3, which `script_why` shows by a course.
pub fn is_by_state(verdict: &str) -> bool {
    verdict.starts_with("no") && verdict.ends_with(" 3\n")
}

/// Tests what `script_why` says: the verdict, and after a refusal by 3 the operations of a course that shows it, to
/// both programs. Whether there is such a course.
fn test_why(title: &str, input: &[u8], expected: &str) -> bool {
    let said = written(title, USUAL, &script_why(), input);
    if !is_by_state(expected) {
        assert!(said == expected.as_bytes(), "script_why, {title}: {:?} and not {expected:?}", begin(&said));
        return false;
    }
    let verdict = said.split_inclusive(|&byte| byte == b'\n').next().unwrap_or_default();
    let operations = &said[verdict.len()..];
    let answers = written(title, USUAL, &ops(), operations);
    test_replay(title, "ops", input, &said, &answers);
    test_replay(title, "the independent program", input, &said, Session::new().answers(operations).as_bytes());
    true
}

/// Tests that a program's answers to the operations that `script_why` wrote bear it out.
fn test_replay(title: &str, program: &str, input: &[u8], said: &[u8], answers: &[u8]) {
    if let Err(why) = witness::test(input, said, answers) {
        let [input, said, why] = [input, said, why.as_bytes()].map(shown);
        panic!(
            "script_why, {title}: the answers of {program} do not bear it out: {why}\ninput:\n{input}\nsaid:\n{said}"
        );
    }
}

/// The begin of what a program said.
fn begin(said: &[u8]) -> String {
    String::from_utf8_lossy(&said[..said.len().min(200)]).into_owned()
}
