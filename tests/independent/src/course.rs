//! Courses of a script: an allowed state, events before each line, and what the lines answer.

pub mod confirm;
pub mod search;
pub mod witness;

use crate::module::Module;
use crate::ops::Operation;
use crate::script::No;

/// The events before each line up to the first that something is refused of, and that refusal.
#[derive(Clone, Debug)]
pub struct Course {
    /// The module before all events and lines.
    pub start: Module,
    /// One list of events for each line.
    pub events: Vec<Vec<Operation>>,
    /// The first refusal; nothing where no command is refused.
    pub refused: Option<No>,
}

/// What a line handed over whole, with room for all replies, is refused by; nothing where it answers 0.
pub fn refusal_of(module: &mut Module, line: usize, text: &[u8]) -> Option<No> {
    let answer = module.line(text, usize::MAX);
    answer.refusal.map(|refusal| No { line, place: answer.place, refusal })
}
