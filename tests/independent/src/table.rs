//! The table of worked values, as operations: lines, values and points, each on a module of its own; and
//! the state altered field by field.

pub mod altered;
mod lines;
mod numbers;
mod values;

use crate::frequency::{Range, LEAST};
use crate::module::storage::Phase;
use crate::ops::field::{self, Place, Value};
use crate::ops::Operation;
use crate::setting::FREQ;
use std::collections::HashSet;

/// Room for the replies of every line here.
const ROOM: usize = 200;

/// All operations of the table, in a fixed order.
pub fn operations() -> Vec<Operation> {
    let whole: Vec<Vec<u8>> = [lines::lines(), numbers::lines()].concat();
    let alone = whole.iter().flat_map(|line| line.split(|&byte| byte == b';')).map(<[u8]>::to_vec);
    let mut seen = HashSet::new();
    let lines: Vec<Vec<u8>> = whole.iter().cloned().chain(alone).filter(|line| seen.insert(line.clone())).collect();
    lines.into_iter().flat_map(tried).chain(values::operations()).collect()
}

/// A line on a module where each value in its range is taken: at the least frequency, in the lower range,
/// with a point in each trace for the lines that read one. What it sets is shown.
fn tried(line: Vec<u8>) -> Vec<Operation> {
    let mut operations = vec![start(1), alter(Place::Entry(FREQ), Value::Number(LEAST)), ranged(Range::Lower)];
    if line.to_ascii_uppercase().starts_with(b"TRC") {
        operations.extend(with_points(1));
    }
    operations.extend([Operation::Line { line, room: ROOM }, Operation::Dump]);
    operations
}

/// A fresh GPIB module of a capacity.
fn start(capacity: usize) -> Operation {
    Operation::Start { serial: 42, port: 1, lengths: [capacity; 2] }
}

/// Another value at a place of the state.
fn alter(place: Place, value: Value) -> Operation {
    Operation::Alter { field: field::at(place), value }
}

/// Another range in the state.
fn ranged(range: Range) -> Operation {
    alter(Place::Range, Value::Range(range))
}

/// Storage paused with `held` points.
fn with_points(held: i64) -> [Operation; 2] {
    [alter(Place::Phase, Value::Phase(Phase::Paused)), alter(Place::Held, Value::Number(held))]
}

/// A line handed over whole.
fn line(text: &str) -> Operation {
    Operation::Line { line: text.as_bytes().to_vec(), room: ROOM }
}

#[cfg(test)]
mod tests {
    use super::*;
    use crate::ops::Session;

    /// Each answer to a line comes up often enough in the table, so that it is no run of refusals.
    #[test]
    fn lines_are_taken_and_refused() {
        let mut session = Session::new();
        let operations = operations();
        let is_line = |operation: &&Operation| matches!(operation, Operation::Line { .. });
        let lines = operations.iter().filter(is_line).count();
        assert!(lines > 4_000, "{lines}");
        let answers: Vec<String> = operations.iter().map(|operation| session.perform(operation)).collect();
        for (start, least) in
            [("A 0 0", 1_500), ("A 1 ", 1_000), ("A 2 ", 500), ("A 3 ", 10), ("A 5 0", 7), ("A 11 ", 50)]
        {
            let found = answers.iter().filter(|answer| answer.starts_with(start)).count();
            assert!(found >= least, "{start}: {found}");
        }
    }
}
