//! The state and the traces as text.

use super::field;
use crate::module::state::State;
use crate::point::Point;

/// The state's fields and the words of both traces, behind which the range comes.
pub fn dump(state: &State, traces: &[Vec<Point>; 2]) -> String {
    let (before, behind) = field::around_traces();
    let [first, second] = [&traces[0], &traces[1]].map(|trace| words(trace));
    format!("{} t1={first} t2={second} {}", field::text(state, before), field::text(state, behind))
}

/// The words of a trace in hex, divided by commas.
fn words(points: &[Point]) -> String {
    let texts: Vec<String> = points.iter().map(|point| format!("{:08x}", point.word)).collect();
    texts.join(",")
}
