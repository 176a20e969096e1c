//! Which calls a stream of operations makes meet refusal 11, and by which altered field.

use super::field::Field;
use super::Operation;
use crate::refusal::Refusal;
use std::collections::BTreeMap;

/// The word for the operations that alter the state.
pub const ALTER: &str = "alter";

/// How often each field was altered, under `alter`; and under each call how often 11 refused it, by the
/// field that was altered last.
pub type Met = BTreeMap<(&'static str, String), usize>;

/// The calls that a state is handed to.
pub const CALLS: [&str; 9] = ["line", "byte", "run", "pair", "tick", "trigger", "measured", "raise", "poll"];

/// What the answers to operations show.
pub fn met(operations: &[&[u8]], answers: &[&[u8]]) -> Met {
    let mut met = Met::new();
    let mut last: Option<Field> = None;
    let asked = operations.iter().filter(|text| !text.is_empty());
    for (text, answer) in asked.zip(answers) {
        let Some(operation) = Operation::read(text) else { continue };
        if let Operation::Alter { field, .. } = operation {
            last = Some(field);
        }
        if let (Some(call), Some(field)) = (counted(text, answer), last) {
            *met.entry((call, field.to_string())).or_default() += 1;
        }
    }
    met
}

/// The call that the answer refuses by 11, or `alter`.
fn counted(text: &[u8], answer: &[u8]) -> Option<&'static str> {
    let is_first = |word: &&str| text.split(|&byte| byte == b' ').next() == Some(word.as_bytes());
    if is_first(&ALTER) {
        return Some(ALTER);
    }
    let call = CALLS.into_iter().find(is_first)?;
    // The answer of a run tells the bytes taken first.
    let before = if call == "run" { 2 } else { 1 };
    let number = answer.split(|&byte| byte == b' ').nth(before)?;
    (number == Refusal::Module.number().to_string().as_bytes()).then_some(call)
}

#[cfg(test)]
mod tests {
    use super::*;
    use crate::ops::compare::lines;

    #[test]
    fn refusals_are_counted_by_call_and_field() {
        let operations =
            b"tick\nalter harm 0\ntick\nline 41 1\n\nalter t1 0\npoll\nalter harm 1\ntick\nalter port 9\nraise 0 0\n\
            run 41 0 1\nalter port 1\nrun 4141414141414141414141 0 0\n";
        let answers = b"A 0\nK\nA 11\nA 11 0 0 aa\n?\nS 11 0\nK\nA 0\nK\nA 11\nB 0 11 0 0 0 aa\nK\nB 11 0 0 0 0 -\n";
        let met = met(&lines(operations), &lines(answers));
        let found: Vec<String> = met.iter().map(|((call, field), count)| format!("{call} {field} {count}")).collect();
        assert_eq!(
            found,
            ["alter harm 2", "alter port 2", "line harm 1", "poll harm 1", "raise port 1", "run port 1", "tick harm 1"]
        );
    }
}
