//! Witnesses of refusals by 3: the operations of a course that refuses the command named.
//!
//! What a program says to an input of the check program is a verdict line, and after a refusal by 3 a
//! start at serial 0 on GPIB, and then each line of the script up to the one named, events before it.

use super::search::{self, PORT, SERIAL};
use crate::ops::compare::lines;
use crate::ops::{Operation, MOST_ROOM};
use crate::refusal::Refusal;
use crate::script::{self, program, No};

/// The verdict and the witness that a search finds.
pub fn why(input: &[u8]) -> Result<String, String> {
    let verdict = program::verdict(input);
    let mut texts = vec![script::text(&verdict)];
    if let Some(no) = by_state(verdict) {
        let (capacity, script) = program::parts(input);
        let lines: Vec<&[u8]> = script::lines(script).collect();
        let events = search::find(capacity, &lines, no).ok_or("no course was found")?;
        texts.push(start(capacity).to_string());
        for (events, line) in events.iter().zip(lines) {
            texts.extend(events.iter().map(Operation::to_string));
            texts.push(Operation::Line { line: line.to_vec(), room: MOST_ROOM }.to_string());
        }
    }
    Ok(texts.into_iter().map(|text| text + "\n").collect())
}

/// The command that a verdict refuses by 3; nothing for any other verdict.
fn by_state(verdict: Result<(), No>) -> Option<No> {
    verdict.err().filter(|no| no.refusal == Refusal::State)
}

/// The start that every witness begins with.
fn start(capacity: usize) -> Operation {
    Operation::Start { serial: SERIAL, port: PORT, lengths: [capacity; 2] }
}

/// Tests what a program said to an input, with the answers that an ops program gave to the operations
/// of it; how many those are.
pub fn test(input: &[u8], said: &[u8], answers: &[u8]) -> Result<usize, String> {
    let verdict = program::verdict(input);
    if !said.ends_with(b"\n") {
        return Err("the last line is not ended".to_string());
    }
    let said = lines(said);
    let (first, operations) = said.split_first().ok_or("there is no verdict")?;
    let expected = script::text(&verdict);
    if *first != expected.as_bytes() {
        return Err(format!("the verdict is {} and not {expected}", String::from_utf8_lossy(first)));
    }
    let answers = lines(answers);
    if answers.len() != operations.len() {
        return Err(format!("{} operations, {} answers", operations.len(), answers.len()));
    }
    match by_state(verdict) {
        Some(no) => test_operations(program::parts(input), no, operations, &answers)?,
        None if operations.is_empty() => {}
        None => return Err("operations follow a verdict that needs none".to_string()),
    }
    Ok(operations.len())
}

/// Tests that the operations are a course of the script, and that it refuses the command named.
fn test_operations(
    (capacity, script): (usize, &[u8]),
    no: No,
    operations: &[&[u8]],
    answers: &[&[u8]],
) -> Result<(), String> {
    let mut script_lines = script::lines(script).take(no.line).zip(1..);
    for (at, (text, answer)) in operations.iter().zip(answers).enumerate() {
        let operation = Operation::read(text);
        let wrong = |what: &str| {
            Err(format!("{what}: {} answered {}", String::from_utf8_lossy(text), String::from_utf8_lossy(answer)))
        };
        match (at, operation) {
            (0, operation) if operation == Some(start(capacity)) && *answer == b"R 0" => {}
            (0, _) => return wrong("no such start"),
            (_, Some(Operation::Line { line, .. })) => {
                let Some((expected, number)) = script_lines.next() else { return wrong("a line too many") };
                let (refusal, place) = if number == no.line { (3, no.place) } else { (0, 0) };
                if line != expected {
                    return wrong("not the script's line");
                }
                if !answer.starts_with(format!("A {refusal} {place} ").as_bytes()) {
                    return wrong(&format!("not refusal {refusal} at place {place}"));
                }
            }
            (_, Some(operation)) if is_event(&operation) && [&b"A 0"[..], b"A 6"].contains(answer) => {}
            _ => return wrong("no event or line of a course"),
        }
    }
    let is_line_last = operations.last().is_some_and(|text| text.starts_with(b"line "));
    match script_lines.next() {
        None if is_line_last => Ok(()),
        None => Err("events follow the last line".to_string()),
        Some((_, number)) => Err(format!("line {number} of the script is missing")),
    }
}

/// Whether an operation is an event, which may fall before a line.
fn is_event(operation: &Operation) -> bool {
    use Operation::{Measured, Pair, Raise, Tick, Trigger};
    matches!(operation, Measured(_) | Pair(_) | Raise { .. } | Tick | Trigger)
}

#[cfg(test)]
mod tests {
    use super::*;
    use crate::ops::Session;
    use crate::random::deep::{Case, Scripts};

    /// The answers to all that follows the verdict.
    fn answers(said: &str) -> String {
        let operations = said.split_once('\n').map_or("", |(_, operations)| operations);
        Session::new().answers(operations.as_bytes())
    }

    #[test]
    fn witnesses_of_random_scripts() {
        let mut witnesses = 0;
        for input in Scripts::new(4).take(300).map(Case::input) {
            let said = why(&input).unwrap();
            let operations = test(&input, said.as_bytes(), answers(&said).as_bytes()).unwrap();
            witnesses += usize::from(operations > 0);
        }
        assert!(witnesses > 60, "{witnesses}");
    }

    const INPUT: &str = "4\n*RST;TSTR 1\n\nSEND 1\nSPTS?";
    const LINES: [&str; 3] = ["line 2a5253543b545354522031 9", "line - 9", "line 53454e442031 0"];

    /// Whether a text passes as a witness, with the answers given here, save where `other` replaces one.
    fn passes(said: &str, other: Option<(&str, &str)>) -> bool {
        let mut given = answers(said);
        if let Some((old, new)) = other {
            assert!(given.contains(old));
            given = given.replacen(old, new, 1);
        }
        test(INPUT.as_bytes(), said.as_bytes(), given.as_bytes()).is_ok()
    }

    #[test]
    fn texts_that_are_no_witnesses() {
        let [first, second, third] = LINES;
        let begin = "no 3 1 3\nstart 0 1 4 4\n";
        let whole = format!("{begin}{first}\ntick\nraise 255 0\n{second}\nmeasured 10\ntrigger\n{third}\n");
        assert!(passes(&whole, None));
        assert!(passes(&format!("{begin}{first}\ntrigger\n{second}\n{third}\n"), None));
        for wrong in [
            String::new(),
            begin.to_string(),
            "no 3 1 3\n".to_string(),
            "no 3 1 3".to_string(),
            whole.trim_end().to_string(),
            format!("{begin}{first}\n{second}\n{third}\n"),
            format!("{begin}{first}\ntrigger\n{third}\n"),
            format!("{begin}{first}\ntrigger\n{second}\n"),
            format!("{whole}tick\n"),
            format!("{whole}line - 9\n"),
            format!("{whole}\n"),
            format!("tick\n{whole}"),
            whole.replace("tick", "dump"),
            whole.replace("tick", "poke 1 0 00000000"),
            whole.replace("tick", "byte 0a 0 9"),
            whole.replace("tick", "tick "),
            whole.replace("tick", "start 0 1 4 4"),
            whole.replace("start 0 1", "start 0 0"),
            whole.replace("start 0 1", "start 1 1"),
            whole.replace("4 4", "3 3"),
            whole.replace("no 3 1 3", "no 3 1 2"),
            whole.replace("no 3 1 3", "ok"),
            whole.replace("line - 9", "line 20 9"),
            whole.replace("line 53454e442031", "line 73454e442031"),
        ] {
            assert!(!passes(&wrong, None), "{wrong}");
        }
    }

    #[test]
    fn answers_that_show_no_refusal_there() {
        let [first, second, third] = LINES;
        let whole = format!("no 3 1 3\nstart 0 1 4 4\n{first}\ntick\n{second}\ntrigger\n{third}\n");
        for (old, new) in [
            ("R 0", "R 9"),
            ("A 3 1 0", "A 0 0 0"),
            ("A 3 1 0", "A 3 2 0"),
            ("A 3 1 0", "A 2 1 0"),
            ("A 0 0 0", "A 3 1 0"),
            ("A 0\n", "?\n"),
            ("A 0\n", ""),
            ("A 3 1 0 -\n", "A 3 1 0 -\nA 0\n"),
        ] {
            assert!(!passes(&whole, Some((old, new))), "{old} {new}");
        }
    }
}
