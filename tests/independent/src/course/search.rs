//! A search through the courses of a fresh module for one that refuses a certain command.
//!
//! Before each line there falls nothing, or a measured frequency, a trigger, or both. The frequency is the
//! highest that can be measured, one below the band, or one inside it, which keeps the range, also after
//! one of the others. Of the courses that come to the same settings, range, phase and points held, one
//! goes on.

use super::refusal_of;
use crate::frequency::{beside_band, LIMIT};
use crate::module::storage::Phase;
use crate::module::Module;
use crate::ops::{Operation, Session};
use crate::script::No;
use crate::setting::{Settings, HARM};
use std::collections::HashSet;

/// The start of every course here: serial 0, GPIB.
pub const SERIAL: u32 = 0;
pub const PORT: u32 = 1;

/// A course under way.
#[derive(Clone)]
struct Path {
    /// Where the course has come to.
    module: Module,
    /// The events before each line so far.
    events: Vec<Vec<Operation>>,
}

/// The events before each line of a course that refuses the command wanted.
pub fn find(capacity: usize, lines: &[&[u8]], wanted: No) -> Option<Vec<Vec<Operation>>> {
    let module = Module::start(SERIAL, PORT, [capacity; 2]).ok()?;
    let mut paths = vec![Path { module, events: Vec::new() }];
    for (text, line) in lines.iter().take(wanted.line).zip(1..) {
        let mut seen = HashSet::new();
        let mut next = Vec::new();
        for mut path in paths.iter().flat_map(branches) {
            match refusal_of(&mut path.module, line, text) {
                Some(no) if no == wanted => return Some(path.events),
                Some(_) => {}
                None if seen.insert(deciding(&path.module)) => next.push(path),
                None => {}
            }
        }
        paths = next;
    }
    None
}

/// All that decides later refusals.
fn deciding(module: &Module) -> (Settings, Phase, usize) {
    (module.settings.clone(), module.phase(), module.storage.held())
}

/// The course with each choice of events.
fn branches(path: &Path) -> Vec<Path> {
    let mut branches = Vec::new();
    for measured in measured(&path.module) {
        let triggered = [&measured[..], &[Operation::Trigger]].concat();
        branches.extend([measured, triggered].map(|events| path.with(events)));
    }
    branches
}

/// No measured frequency, or some that take the range up, down, or nowhere; none where they would be ignored.
fn measured(module: &Module) -> Vec<Vec<Operation>> {
    if module.settings.reference().is_internal {
        return vec![vec![]];
    }
    let harmonic = module.settings.entries[HARM];
    let [below, _, inside, _] = beside_band(harmonic);
    let [highest, below, inside] = [LIMIT / harmonic, below, inside].map(|units| Operation::Measured(units as u32));
    let kept = [&highest, &below].map(|first| vec![first.clone(), inside.clone()]);
    [vec![vec![], vec![highest], vec![below], vec![inside]], kept.to_vec()].concat()
}

impl Path {
    /// The course after these events.
    fn with(&self, events: Vec<Operation>) -> Path {
        let mut session = Session::of(self.module.clone());
        for event in &events {
            session.perform(event);
        }
        let mut path = Path { module: session.module, events: self.events.clone() };
        path.events.push(events);
        path
    }
}

#[cfg(test)]
mod tests {
    use super::*;
    use crate::frequency::Range;
    use crate::refusal::Refusal;
    use crate::script;

    /// The events of a course that refuses a command by 3, divided by `/` where lines come.
    fn found(capacity: usize, script: &str, line: usize, place: usize) -> Option<String> {
        let lines: Vec<&[u8]> = script::lines(script.as_bytes()).collect();
        let events = find(capacity, &lines, No { line, place, refusal: Refusal::State })?;
        let shown: Vec<String> =
            events.iter().map(|events| events.iter().map(Operation::to_string).collect::<Vec<_>>().join(",")).collect();
        Some(shown.join("/"))
    }

    #[test]
    fn events_are_found() {
        let script = "*RST;FREQ 100;HARM 2\nOFLT 14\nHARM 3\nFMOD 0\nOFLT 19";
        assert_eq!(found(4, script, 5, 1).as_deref(), Some("////"));
        assert_eq!(found(4, script, 4, 1), None);
        assert_eq!(found(4, "*RST;FMOD 0\nHARM 2", 2, 1).as_deref(), Some("/measured 1020000000"));
        assert_eq!(found(4, "*RST;TSTR 1\n\nSEND 1", 3, 1).as_deref(), Some("//trigger"));
        assert_eq!(
            found(4, "*RST;HARM 50;FMOD 0\nFMOD 1;HARM 51\nFMOD 0", 3, 1).as_deref(),
            Some("/measured 20400000/")
        );
        assert_eq!(found(2, "*RST;STRT\nTRCL?1,0,1", 2, 1).as_deref(), Some("/"));
        assert_eq!(found(2, "*RST;SRAT 14;STRT;TRIG;TRIG\nTRCB?1,0,2", 2, 1), None);
    }

    /// Inside the band the way there decides.
    #[test]
    fn time_constants_are_refused_where_a_course_is_upper() {
        let inside = "*RST;FREQ 100;FREQ 200;FMOD 0\nFMOD 1;OFLT 14";
        assert_eq!(found(4, inside, 2, 2).as_deref(), Some("/"));
        assert_eq!(found(4, "*RST;FREQ 1;FMOD 0\nFMOD 1;FREQ 200;OFLT 14", 2, 3), None);
        assert_eq!(found(4, "*RST;FREQ 203.12;OFLT 14", 1, 3).as_deref(), Some(""));
        assert_eq!(found(4, "*RST;FREQ 199.2;FREQ 203.12;OFLT 14", 1, 4), None);
    }

    /// Whatever the range was, events bring it up, down, and to either range inside the band.
    #[test]
    fn events_move_the_range_both_ways_and_keep_it_inside() {
        for commands in ["FMOD 0", "HARM 7;FMOD 0", "FREQ 1;HARM 19999;FREQ?;HARM 50;FMOD 0"] {
            let mut module = Module::start(SERIAL, PORT, [1; 2]).unwrap();
            module.line(commands.as_bytes(), usize::MAX);
            let first = Path { module, events: Vec::new() };
            for path in branches(&first) {
                let found: HashSet<(Range, bool)> = branches(&path).iter().map(standing).collect();
                assert_eq!(found.len(), 4, "{commands} {:?}: {found:?}", path.events);
            }
        }
    }

    /// The range that a course has come to, and whether it is inside the band.
    fn standing(path: &Path) -> (Range, bool) {
        let settings = &path.module.settings;
        let detection = settings.reference().detection();
        (settings.range, Range::ALL.into_iter().all(|range| range.stands_at(detection)))
    }
}
