//! What kinds of runs a stream of operations makes, by the answers to them.

use super::Operation;
use crate::refusal::Refusal;

/// A run, and what its answer tells.
struct Run<'a> {
    bytes: &'a [u8],
    end_mark: bool,
    /// How many of its bytes were taken.
    taken: usize,
    /// The number of its first refusal; 0 for none.
    refusal: usize,
    /// The line of its first refusal, from 1; 0 where no line is refused.
    line: usize,
    /// What the run before it has not taken.
    rest_before: &'a [u8],
}

/// A kind of runs in words, and which are of that kind.
type Kind = (&'static str, fn(&Run) -> bool);

/// How many kinds there are.
const COUNT: usize = 13;

/// The kinds that are counted.
const KINDS: [Kind; COUNT] = [
    ("are runs", |_| true),
    ("stop", |run| run.is_admitted() && run.taken < run.bytes.len()),
    ("go on with the rest of one that stopped", |run| {
        !run.rest_before.is_empty() && run.bytes.starts_with(run.rest_before) && run.is_admitted()
    }),
    ("stop before a marked byte", |run| run.end_mark && run.is_admitted() && run.taken + 1 == run.bytes.len()),
    ("meet 4 in their first line", |run| run.is_refused_by(Refusal::Room) && run.line == 1),
    ("meet 4 first and then stop", |run| run.is_refused_by(Refusal::Room) && run.taken < run.bytes.len()),
    ("are refused in a later line", |run| run.line > 1),
    ("meet 5", |run| run.is_refused_by(Refusal::Length)),
    ("meet 5 in a later line", |run| run.is_refused_by(Refusal::Length) && run.line > 1),
    ("are refused by 11", |run| run.is_refused_by(Refusal::Module)),
    ("are refused by 9", |run| run.is_refused_by(Refusal::Traces)),
    ("end within a line", |run| run.ends_within_a_line()),
    ("have no byte", |run| run.bytes.is_empty()),
];

impl Run<'_> {
    /// Whether its first refusal is this one.
    fn is_refused_by(&self, refusal: Refusal) -> bool {
        self.refusal == refusal.number()
    }

    /// Whether neither 11 nor 9 refuses it.
    fn is_admitted(&self) -> bool {
        !self.is_refused_by(Refusal::Module) && !self.is_refused_by(Refusal::Traces)
    }

    /// Whether it is taken up to a last byte that ends no line on either port.
    fn ends_within_a_line(&self) -> bool {
        let is_inside = self.bytes.last().is_some_and(|byte| !b"\r\n".contains(byte));
        is_inside && !self.end_mark && self.taken == self.bytes.len()
    }
}

/// How many runs there are of each kind.
pub type Counts = [usize; COUNT];

/// Counts with what their runs do, in words.
pub fn with_words(counts: Counts) -> impl Iterator<Item = (usize, &'static str)> {
    counts.into_iter().zip(KINDS.map(|(words, _)| words))
}

/// What the answers to operations show.
pub fn counts(operations: &[&[u8]], answers: &[&[u8]]) -> Counts {
    let mut counts = Counts::default();
    let mut rest = Vec::new();
    let asked = operations.iter().filter(|text| !text.is_empty());
    for (text, answer) in asked.zip(answers) {
        let Some(Operation::Run { bytes, end_mark, .. }) = Operation::read(text) else { continue };
        let [taken, refusal, line] = numbers(answer);
        let run = Run { bytes: &bytes, end_mark, taken, refusal, line, rest_before: &rest };
        for (count, (_, is_of_kind)) in counts.iter_mut().zip(KINDS) {
            *count += usize::from(is_of_kind(&run));
        }
        rest = bytes[taken.min(bytes.len())..].to_vec();
    }
    counts
}

/// The bytes taken, the refusal and its line, of a run's answer.
fn numbers(answer: &[u8]) -> [usize; 3] {
    let text = String::from_utf8_lossy(answer);
    let mut fields = text.split(' ').skip(1).map(|field| field.parse().expect("a run's answer"));
    [(); 3].map(|()| fields.next().expect("a run's answer"))
}

#[cfg(test)]
mod tests {
    use super::*;
    use crate::ops::compare::lines;
    use crate::ops::Session;

    /// One run of each kind, some of several.
    #[test]
    fn runs_are_counted_by_kind() {
        let operations = [
            b"tick\nstart 42 1 4 4\n\nrun 464f4f0a464f4f0a 0 0\nrun - 1 0\nrun 0a 0 z\n".to_vec(),
            b"run 0a2a49444e3f0a 0 4\nrun 0a5048 0 4\nrun 41533f 1 4\nrun 2a49444e3f0a0a504841533f0a 0 3\n".to_vec(),
            [&b"alter queue -\nrun 0a"[..], &b"20".repeat(257), b" 1 4\nrun ", &b"20".repeat(257), b" 1 4\n"].concat(),
            b"run 0a2a49444e3f 1 4\nalter harm 0\nrun 3f 1 4\nalter harm 1\nalter cap 5\nrun 3f 1 4\n".to_vec(),
        ]
        .concat();
        let answers = Session::new().answers(&operations);
        let found = counts(&lines(&operations), &lines(answers.as_bytes()));
        assert_eq!(found, [11, 3, 2, 1, 3, 1, 1, 2, 1, 1, 1, 1, 1], "{answers}");
    }
}
