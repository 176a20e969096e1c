//! Making a stream of operations small on which another program answers differently.

use super::compare::{first_difference, lines, Difference};
use super::Operation;
use std::io::Write;
use std::process::{Command, Stdio};
use std::thread;

/// Another program, run anew on each stream.
pub struct Other<'a> {
    /// The path by which it is run.
    pub program: &'a str,
}

impl Other<'_> {
    /// What it answers to a stream of operations.
    fn answers(&self, operations: &[Vec<u8>]) -> Result<Vec<u8>, String> {
        let told = |error: std::io::Error| format!("{}: {error}", self.program);
        let mut child =
            Command::new(self.program).stdin(Stdio::piped()).stdout(Stdio::piped()).spawn().map_err(told)?;
        let mut input = child.stdin.take().expect("its standard input is a pipe");
        let stream: Vec<u8> = operations.iter().flat_map(|text| [&text[..], b"\n"].concat()).collect();
        // A program that ends early closes its input; what it has answered decides.
        let writer = thread::spawn(move || input.write_all(&stream));
        let output = child.wait_with_output().map_err(told)?;
        let _ = writer.join();
        Ok(output.stdout)
    }

    /// A difference on this stream, shown by the whole of it.
    fn difference(&self, stream: &[Vec<u8>]) -> Result<Option<Difference>, String> {
        let answers = self.answers(stream)?;
        let operations: Vec<&[u8]> = stream.iter().map(Vec::as_slice).collect();
        let difference = first_difference(&operations, &lines(&answers)).err();
        Ok(difference.map(|difference| Difference { operations: stream.to_vec(), ..difference }))
    }

    /// The first difference on this stream, shown from the last start before it on where that will do.
    fn first_difference(&self, stream: &[Vec<u8>]) -> Result<Option<Difference>, String> {
        let answers = self.answers(stream)?;
        let operations: Vec<&[u8]> = stream.iter().map(Vec::as_slice).collect();
        match first_difference(&operations, &lines(&answers)) {
            Ok(_) => Ok(None),
            Err(first) => match self.difference(&first.operations)? {
                None => Ok(Some(Difference { operations: stream.to_vec(), ..first })),
                from_start => Ok(from_start),
            },
        }
    }
}

/// A stream from which no operation can be left out without the difference going away, nor a line or
/// command of a line, run or script, and its difference; nothing where the programs agree.
pub fn shrink(other: &Other, operations: &[u8]) -> Result<Option<Difference>, String> {
    let whole: Vec<Vec<u8>> = lines(operations).into_iter().map(<[u8]>::to_vec).collect();
    let Some(mut shown) = other.first_difference(&whole)? else { return Ok(None) };
    let mut width = shown.operations.len().div_ceil(2);
    while width > 0 {
        let mut end = shown.operations.len();
        while end > 0 {
            let begin = end.saturating_sub(width);
            let fewer = [&shown.operations[..begin], &shown.operations[end..]].concat();
            shown = other.difference(&fewer)?.unwrap_or(shown);
            end = begin;
        }
        width /= 2;
    }
    for at in 0..shown.operations.len() {
        while let Some(simpler) = simplify(other, &shown.operations, at)? {
            shown = simpler;
        }
    }
    Ok(Some(shown))
}

/// A difference on the stream with one line or command of the operation at a place left out.
fn simplify(other: &Other, stream: &[Vec<u8>], at: usize) -> Result<Option<Difference>, String> {
    for operation in with_a_command_less(&stream[at]) {
        let mut simpler = stream.to_vec();
        simpler[at] = operation.to_string().into_bytes();
        if let Some(difference) = other.difference(&simpler)? {
            return Ok(Some(difference));
        }
    }
    Ok(None)
}

/// The operations of a line, run or script with each of its lines and commands left out in turn.
fn with_a_command_less(text: &[u8]) -> Vec<Operation> {
    match Operation::read(text) {
        Some(Operation::Line { line, room }) => {
            without_each(&line, b';').into_iter().map(|line| Operation::Line { line, room }).collect()
        }
        Some(Operation::Run { bytes, end_mark, room }) => without_lines_or_commands(&bytes)
            .into_iter()
            .map(|bytes| Operation::Run { bytes, end_mark, room })
            .collect(),
        Some(Operation::Check { capacity, script }) => {
            without_lines_or_commands(&script).into_iter().map(|script| Operation::Check { capacity, script }).collect()
        }
        _ => Vec::new(),
    }
}

/// The bytes of some lines with each of the lines, then each of the commands, left out in turn.
fn without_lines_or_commands(bytes: &[u8]) -> Vec<Vec<u8>> {
    [b'\n', b'\r', b';'].into_iter().flat_map(|divider| without_each(bytes, divider)).collect()
}

/// The bytes with each of their parts left out in turn; none where there is one part only.
fn without_each(bytes: &[u8], divider: u8) -> Vec<Vec<u8>> {
    let parts: Vec<&[u8]> = bytes.split(|&byte| byte == divider).collect();
    let kept = |left_out| [&parts[..left_out], &parts[left_out + 1..]].concat().join(&divider);
    (0..parts.len()).filter(|_| parts.len() > 1).map(kept).collect()
}

#[cfg(test)]
mod tests {
    use super::*;

    #[test]
    fn parts_are_left_out_in_turn() {
        assert_eq!(without_each(b"A;B;;C", b';'), [&b"B;;C"[..], b"A;;C", b"A;B;C", b"A;B;"]);
        assert!(without_each(b"A", b';').is_empty());
        assert_eq!(with_a_command_less(b"line 413b42 4").len(), 2);
        assert_eq!(with_a_command_less(b"run 413b420a43 1 4").len(), 4);
        assert!(with_a_command_less(b"tick").is_empty());
    }

    /// A program that echoes its input differs at once, and one operation shows it.
    #[test]
    fn one_operation_is_left() {
        let operations = b"start 1 1 1 1\ntick\nline 413b42 4\ndump\n";
        let difference = shrink(&Other { program: "cat" }, operations).unwrap().unwrap();
        assert_eq!(difference.operations.len(), 1);
    }
}
