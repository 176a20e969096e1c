//! Comparing another program's answers to operations with the ones given here.

use super::{Operation, Session};
use crate::hex;

/// A difference: the operations that show it, and both answers to the last of them.
#[derive(Debug, PartialEq, Eq)]
pub struct Difference {
    /// The texts of the operations.
    pub operations: Vec<Vec<u8>>,
    /// The answer given here.
    pub expected: String,
    /// The other program's answer; nothing where it gave none.
    pub given: Option<String>,
}

/// The lines of a text; the last may lack its LF.
pub fn lines(text: &[u8]) -> Vec<&[u8]> {
    text.split_inclusive(|&byte| byte == b'\n').map(|line| line.strip_suffix(b"\n").unwrap_or(line)).collect()
}

/// How many answers agree, or the first difference.
pub fn first_difference(operations: &[&[u8]], answers: &[&[u8]]) -> Result<usize, Difference> {
    let mut session = Session::new();
    let mut answers = answers.iter();
    let mut start = 0;
    let mut agreed = 0;
    for (at, text) in operations.iter().enumerate() {
        if let Some(Operation::Start { .. }) = Operation::read(text) {
            start = at;
        }
        let Some(expected) = session.answer(text) else { continue };
        agreed += 1;
        let given = answers.next();
        if given.copied() != Some(expected.as_bytes()) {
            let shown = operations[start..=at].iter().filter(|text| !text.is_empty());
            let operations = shown.map(|text| text.to_vec()).collect();
            let given = given.map(|text| String::from_utf8_lossy(text).into_owned());
            return Err(Difference { operations, expected, given });
        }
    }
    match answers.next() {
        None => Ok(agreed),
        Some(given) => Err(Difference {
            operations: Vec::new(),
            expected: "no more answers".to_string(),
            given: Some(String::from_utf8_lossy(given).into_owned()),
        }),
    }
}

/// The difference as lines to read. The operations stand as they are, to be cut out and run.
pub fn report(difference: &Difference) -> String {
    let mut lines = vec!["operations from the last start on:".to_string()];
    for text in &difference.operations {
        lines.push(String::from_utf8_lossy(text).into_owned());
    }
    if let Some(last) = difference.operations.last() {
        lines.push(format!("the last of them: {}", readable(last)));
    }
    lines.push(answers(difference));
    lines.join("\n")
}

/// Both answers, and where they differ first.
pub fn answers(difference: &Difference) -> String {
    let given = difference.given.as_deref().unwrap_or("no answer");
    format!("expected: {}\ngiven:    {given}\nfirst at: {}", difference.expected, first_field(difference))
}

/// An operation with the text that its hex stands for.
pub fn readable(text: &[u8]) -> String {
    match Operation::read(text) {
        Some(Operation::Line { line, room }) => format!("line {} {room}", hex::printable(&line)),
        Some(Operation::Byte { byte, end_mark, room }) => {
            format!("byte {} {} {room}", hex::printable(&[byte]), u8::from(end_mark))
        }
        Some(Operation::Run { bytes, end_mark, room }) => {
            format!("run {} {} {room}", hex::printable(&bytes), u8::from(end_mark))
        }
        Some(Operation::Check { capacity, script }) => format!("check {capacity} {}", hex::printable(&script)),
        Some(operation) => operation.to_string(),
        None => format!("no operation: {}", hex::printable(text)),
    }
}

/// The first field in which the answers differ.
fn first_field(difference: &Difference) -> String {
    let expected = difference.expected.split(' ').map(Some).chain(std::iter::repeat(None));
    let given = difference.given.as_deref().unwrap_or("").split(' ');
    let pair = expected.zip(given).find(|(expected, given)| *expected != Some(given));
    match pair {
        Some((expected, given)) => format!("{} / {given}", expected.unwrap_or("nothing")),
        None => "the end".to_string(),
    }
}

#[cfg(test)]
mod tests {
    use super::*;

    const OPERATIONS: &[u8] = b"start 1 1 2 2\ntick\nstart 1 1 0 0\n\ntrigger\nx\nstart 2 0 1 1\n";

    #[test]
    fn answers_that_agree() {
        let answers = b"R 0\nA 0\nR 9\nA 0\n?\nR 0\n";
        assert_eq!(first_difference(&lines(OPERATIONS), &lines(answers)), Ok(6));
    }

    #[test]
    fn a_difference_is_told_from_the_last_start_on() {
        for answers in [&b"R 0\nA 0\nR 9\nA 0\nA 0\nR 0\n"[..], b"R 0\nA 0\nR 9\nA 0\n"] {
            let difference = first_difference(&lines(OPERATIONS), &lines(answers)).unwrap_err();
            assert_eq!(difference.operations, [&b"start 1 1 0 0"[..], b"trigger", b"x"]);
            assert_eq!(difference.expected, "?");
            assert!(report(&difference).contains("start 1 1 0 0\ntrigger\nx\n"));
        }
        let blank = b"R 0\nA 0\nR 9\n\nA 0\n?\nR 0\n";
        assert_eq!(first_difference(&lines(OPERATIONS), &lines(blank)).unwrap_err().given.as_deref(), Some(""));
        let more = b"R 0\nA 0\nR 9\nA 0\n?\nR 0\nR 0\n";
        assert_eq!(first_difference(&lines(OPERATIONS), &lines(more)).unwrap_err().given.as_deref(), Some("R 0"));
    }
}
