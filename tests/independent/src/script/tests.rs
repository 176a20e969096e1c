//! Tests of the check: document 01's examples, and a search through courses of the module itself.

use super::*;
use crate::frequency::{beside_band, Range, LEAST, LIMIT};
use crate::module::status::Registers;
use crate::module::storage::Phase;
use crate::module::Module;
use crate::random::generator::Generator;
use crate::random::scripts;
use crate::setting::HARM;

/// What the check says of a script.
fn said(capacity: usize, script: &str) -> String {
    text(&check(capacity, script.as_bytes()))
}

/// Scripts that pass, and others that 3 or 7 refuses.
#[test]
fn worked_examples() {
    let script = "*RST;FREQ 100;HARM 2\nOFLT 14\nHARM 3\nFMOD 0\nOFLT 19\n";
    assert_eq!(said(4, script), "no 5 1 3");
    let script = "*RST;SRAT 14;STRT;TRIG;TRIG\nTRCB?1,0,2";
    assert_eq!(said(2, script), "ok");
    assert_eq!(said(1, script), "no 2 1 3");
    assert_eq!(said(1, "*RST"), "ok");
    assert_eq!(said(1, ""), "no 1 1 7");
}

/// Time constants inside the band, by what came before.
#[test]
fn the_range_of_every_course_decides() {
    for (script, expected) in [
        ("*RST;FREQ 1;FMOD 0\nFMOD 1;FREQ 200;OFLT 14", "ok"),
        ("*RST;FREQ 100;FREQ 200;FMOD 0\nFMOD 1;OFLT 14", "no 2 2 3"),
        ("*RST;FREQ 100;FREQ 200;FMOD 0;FMOD 1;OFLT 14", "no 1 6 3"),
        ("*RST;FREQ 100;FREQ 200;OFLT 14\nFREQ 203.12;OFLT 19\nFREQ 203.13\nFREQ 200;OFLT 14", "no 4 2 3"),
        ("*RST;HARM 2;FREQ 100;OFLT 14", "no 1 4 3"),
        ("*RST;FREQ 100.01;HARM 2;OFLT 14", "ok"),
        ("*RST;FREQ 199.2;OFLT 14", "ok"),
        ("*RST;FREQ 199.21;OFLT 14", "no 1 3 3"),
        ("*RST;FREQ 203.13;OFLT 14", "no 1 3 3"),
        ("*RST;FREQ 199.2;FREQ 203.12;OFLT 14", "ok"),
        ("*RST;FREQ 199.2;FREQ 203.13;OFLT 14", "no 1 4 3"),
        ("*RST;FREQ 1;OFLT 14;*RST;FREQ 200;OFLT 14", "no 1 6 3"),
        ("*RST;FREQ 1;FMOD 0;FMOD 1\nFREQ 200;OFLT 14", "ok"),
    ] {
        assert_eq!(said(4, script), expected, "{script:?}");
    }
}

#[test]
fn order_of_refusals() {
    let long = " ".repeat(257);
    for (capacity, script, expected) in [
        (0, "", "no 0 0 9"),
        (16_384, "*RST", "no 0 0 9"),
        (16_383, "*RST", "ok"),
        (1, "\n\n;;*RST\n", "ok"),
        (1, "\n\n;;\n", "no 1 1 7"),
        (1, ";;HARM 5\n*RST", "no 1 3 7"),
        (1, "*RST 1", "no 1 1 7"),
        (1, "*RST?", "no 1 1 7"),
        (1, "*R S\rT;HARM 0", "no 1 2 2"),
        (1, "*RST;HARM X;HARM 0", "no 1 2 1"),
        (1, &format!("{long}\n*RST"), "no 1 0 8"),
        (1, &format!("HARM 5\n{long}"), "no 1 1 7"),
        (1, &format!("*RST\n{}", &long[1..]), "ok"),
        (1, &format!("*RST\n{long}"), "no 2 0 8"),
        (1, &format!("*RST\n{}\r\n", &long[1..]), "no 2 0 8"),
    ] {
        assert_eq!(said(capacity, script), expected, "{script:?}");
    }
}

#[test]
fn events_fall_between_lines_and_not_inside() {
    for (script, expected) in [
        ("*RST;FMOD 0;HARM 102", "ok"),
        ("*RST;FMOD 0\nHARM 1", "ok"),
        ("*RST;FMOD 0\nHARM 2", "no 2 1 3"),
        ("*RST;FMOD 0;FMOD 1\nHARM 102;FMOD 0", "ok"),
        ("*RST;FMOD 0\nFMOD 1;HARM 2;FMOD 0", "no 2 3 3"),
        ("*RST;HARM 50;FMOD 0\nFMOD 1;HARM 51\nFMOD 0", "no 3 1 3"),
        ("*RST;FREQ 1;FMOD 0;OFLT 13\nOFLT 14", "no 2 1 3"),
        ("*RST;HARM 19999", "no 1 2 3"),
        ("*RST;STRT;SEND 0", "no 1 3 3"),
        ("*RST;STRT;PAUS;REST;SEND 0", "ok"),
        ("*RST;TSTR 1;SEND 1", "ok"),
        ("*RST;TSTR 1\nSEND 1", "no 2 1 3"),
        ("*RST;STRT\nTRCL?1,0,1", "no 2 1 3"),
        ("*RST;SRAT 14;TSTR 1;TRIG;PAUS\nTRCL?2,0,1", "ok"),
        ("*RST;SRAT 14;TSTR 1;TRIG;PAUS\nTRCL?2,0,2", "no 2 1 3"),
    ] {
        assert_eq!(said(2, script), expected, "{script:?}");
    }
}

/// The courses that a search reaches, and the check's view of them, line after line.
struct Search {
    capacity: usize,
    /// One module for each course.
    modules: Vec<Module>,
    walk: Walk,
}

impl Search {
    /// A fresh module, and a check at the beginning of a script.
    fn new(capacity: usize) -> Search {
        let modules = vec![Module::start(1, 1, [capacity; 2]).unwrap()];
        Search { capacity, modules, walk: Walk::new(capacity) }
    }

    /// Every event that can matter, in any order, until no new state comes; then the line. The first
    /// refusal of any course, as the search and as the check have it.
    fn line(&mut self, text: &[u8]) -> [Option<(usize, Refusal)>; 2] {
        close_under_events(&mut self.modules);
        self.walk.begin_line();
        let answers = self.modules.iter_mut().map(|module| module.line(text, usize::MAX));
        let refused = answers.filter_map(|answer| answer.refusal.map(|refusal| (answer.place, refusal)));
        let found = refused.min_by_key(|&(place, _)| place);
        let mut places = command::read_line(text).into_iter().zip(1..);
        let checked = places.find_map(|(reading, place)| self.walk.take(&reading).err().map(|no| (place, no)));
        [found, checked]
    }

    /// Whether the check's sets, once there are any, are those that the search has.
    fn sets_agree(&self) -> bool {
        self.walk.courses().is_none_or(|courses| self.points_agree(courses) && self.ranges_agree(courses))
    }

    /// Whether the sets hold exactly the phases and points that the search has.
    fn points_agree(&self, courses: &Courses) -> bool {
        let phases = [Phase::Reset, Phase::Running, Phase::Paused, Phase::Done];
        phases.into_iter().all(|phase| {
            (0..=self.capacity).all(|held| {
                let has = |module: &Module| module.phase() == phase && module.storage.held() == held;
                courses.can_hold(phase, held) == self.modules.iter().any(has)
            })
        })
    }

    /// Whether the sets hold exactly the ranges, and each external frequency, that the search has, and none higher.
    fn ranges_agree(&self, courses: &Courses) -> bool {
        let settings = || self.modules.iter().map(|module| &module.settings);
        Range::ALL.into_iter().all(|range| courses.can_be(range) == settings().any(|found| found.range == range))
            && settings().all(|found| courses.can_have(found.range, found.external))
            && settings().map(|found| found.external).max() == Some(courses.reference().external)
    }
}

/// The module after each event that can matter: a tick, a trigger, frequencies at the ends and beside the band.
fn after_events(module: &Module) -> Vec<Module> {
    let harmonic = module.settings.entries[HARM];
    let frequencies = [&[LEAST][..], &beside_band(harmonic), &[LIMIT / harmonic]].concat();
    let with = |event: &dyn Fn(&mut Module)| {
        let mut after = module.clone();
        event(&mut after);
        after
    };
    let mut after = vec![with(&Module::tick_event), with(&Module::trigger_event)];
    if !module.settings.reference().is_internal {
        after.extend(frequencies.into_iter().map(|frequency| with(&|module| module.measured(frequency as u32))));
    }
    after
}

/// All modules that events lead to from some.
fn close_under_events(modules: &mut Vec<Module>) {
    let mut at = 0;
    while at < modules.len() {
        for mut module in after_events(&modules[at]) {
            module.registers = Registers::start();
            module.storage.forget_turns();
            if !modules.contains(&module) {
                modules.push(module);
            }
        }
        at += 1;
    }
}

#[test]
fn the_check_agrees_with_a_search_through_courses() {
    let mut generator = Generator::new(11);
    let (mut passed, mut refused_by_state) = (0, 0);
    for _ in 0..3_000 {
        let capacity = 1 + generator.below(3);
        let script = scripts::script(&mut generator);
        if check(capacity, &script).is_err_and(|no| no.refusal == Refusal::NoReset) {
            continue;
        }
        let shown = format!("{capacity} {:?}", String::from_utf8_lossy(&script));
        let mut search = Search::new(capacity);
        let mut first = None;
        for (text, line) in lines(&script).zip(1..).filter(|(text, _)| text.len() <= MOST_LINE_BYTES) {
            let [found, checked] = search.line(text);
            assert_eq!(found, checked, "{shown}");
            first = found.map(|(place, refusal)| No { line, place, refusal });
            if first.is_some() {
                break;
            }
            assert!(search.sets_agree(), "{shown}");
        }
        if lines(&script).all(|text| text.len() <= MOST_LINE_BYTES) {
            assert_eq!(check(capacity, &script).err(), first, "{shown}");
        }
        passed += usize::from(first.is_none());
        refused_by_state += usize::from(first.is_some_and(|no| no.refusal == Refusal::State));
    }
    assert!(passed > 300 && refused_by_state > 300, "{passed} {refused_by_state}");
}
