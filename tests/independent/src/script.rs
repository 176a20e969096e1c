//! The script check: whether a script is refused in no course of events, and if not, where first.

mod courses;
mod externals;
mod numbers;
pub mod program;

use crate::command::{self, Command, Reading, MOST_LINE_BYTES};
use crate::module::MOST_CAPACITY;
use crate::refusal::Refusal;
pub use courses::Courses;
use std::fmt;

/// What the check says no to: a line and a place from 1 (0 where none is meant), and the refusal.
#[derive(Clone, Copy, Debug, PartialEq, Eq)]
pub struct No {
    pub line: usize,
    pub place: usize,
    pub refusal: Refusal,
}

impl fmt::Display for No {
    fn fmt(&self, f: &mut fmt::Formatter) -> fmt::Result {
        write!(f, "no {} {} {}", self.line, self.place, self.refusal.number())
    }
}

/// What the check says, as its program writes it.
pub fn text(verdict: &Result<(), No>) -> String {
    match verdict {
        Ok(()) => "ok".to_string(),
        Err(no) => no.to_string(),
    }
}

/// Whether there are traces of a capacity.
fn has_traces(capacity: usize) -> bool {
    (1..=MOST_CAPACITY).contains(&capacity)
}

/// Checks a script for modules of a capacity.
pub fn check(capacity: usize, script: &[u8]) -> Result<(), No> {
    if !has_traces(capacity) {
        return Err(No { line: 0, place: 0, refusal: Refusal::Traces });
    }
    let mut walk = Walk::new(capacity);
    for (before, text) in lines(script).enumerate() {
        let line = before + 1;
        if text.len() > MOST_LINE_BYTES {
            return Err(No { line, place: 0, refusal: Refusal::ScriptLine });
        }
        walk.begin_line();
        for (before, reading) in command::read_line(text).iter().enumerate() {
            let place = before + 1;
            walk.take(reading).map_err(|refusal| No { line, place, refusal })?;
        }
    }
    match walk.courses {
        Some(_) => Ok(()),
        None => Err(No { line: 1, place: 1, refusal: Refusal::NoReset }),
    }
}

/// The lines of a script; the last may lack its LF.
pub fn lines(script: &[u8]) -> impl Iterator<Item = &[u8]> {
    script.split_inclusive(|&byte| byte == b'\n').map(|line| line.strip_suffix(b"\n").unwrap_or(line))
}

/// A check under way, command by command.
#[derive(Clone, Debug)]
pub struct Walk {
    capacity: usize,
    /// Nothing is known before the first *RST, and everything that decides a refusal after it.
    courses: Option<Courses>,
}

impl Walk {
    /// A check at the beginning of a script.
    pub fn new(capacity: usize) -> Walk {
        Walk { capacity, courses: None }
    }

    /// All courses once *RST has begun them.
    pub fn courses(&self) -> Option<&Courses> {
        self.courses.as_ref()
    }

    /// The events before a line fall.
    pub fn begin_line(&mut self) {
        self.courses.iter_mut().for_each(Courses::let_events_fall);
    }

    /// One place of a line.
    pub fn take(&mut self, reading: &Reading) -> Result<(), Refusal> {
        match (reading, &mut self.courses) {
            (Reading::Empty, _) => Ok(()),
            (Reading::Command(Command { name: "*RST", .. }), courses) => {
                *courses = Some(Courses::after_reset(self.capacity));
                Ok(())
            }
            (_, None) => Err(Refusal::NoReset),
            (Reading::Refused(refusal), Some(_)) => Err(*refusal),
            (Reading::Command(command), Some(courses)) => courses.run(command),
        }
    }
}

#[cfg(test)]
mod tests;
