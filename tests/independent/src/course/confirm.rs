//! Confirming the check's verdicts: by the text where it decides, else by courses of the module.

use super::{search, Course};
use crate::command::MOST_LINE_BYTES;
use crate::hex;
use crate::module::MOST_CAPACITY;
use crate::ops;
use crate::random::courses;
use crate::random::deep::{self, Case};
use crate::random::generator::Generator;
use crate::refusal::Refusal;
use crate::script::{self, No};
use std::cmp::Ordering;
use std::fmt;

/// The most lines of a script up to where it is refused.
const MOST_LINES: usize = 4;

/// How much has been confirmed.
#[derive(Debug, Default)]
pub struct Tally {
    scripts: usize,
    courses: usize,
    /// Commands named by 1 to 3, and how many of them a random course has refused.
    named: usize,
    met_by_chance: usize,
}

impl fmt::Display for Tally {
    fn fmt(&self, f: &mut fmt::Formatter) -> fmt::Result {
        let Tally { scripts, courses, named, met_by_chance } = self;
        write!(f, "{scripts} scripts, {courses} courses: every verdict confirmed ")?;
        write!(f, "({named} commands named, {met_by_chance} of them refused by a random course, all by some course)")
    }
}

/// Confirms the verdicts on `count` small random scripts by `tries` random courses of each.
pub fn confirm(seed: u64, count: usize, tries: usize) -> Result<Tally, String> {
    let mut generator = Generator::new(seed);
    let mut tally = Tally::default();
    for _ in 0..count {
        let case = deep::case(&mut generator, MOST_LINES);
        let verdict = script::check(case.capacity, &case.script);
        confirm_verdict(&mut generator, &case, verdict, tries, &mut tally).map_err(|why| {
            let shown = hex::printable(&case.script);
            format!("capacity {}, script {shown}: {}\n{why}", case.capacity, script::text(&verdict))
        })?;
        tally.scripts += 1;
    }
    Ok(tally)
}

/// Confirms a verdict, or says what speaks against it.
fn confirm_verdict(
    generator: &mut Generator,
    case: &Case,
    verdict: Result<(), No>,
    tries: usize,
    tally: &mut Tally,
) -> Result<(), String> {
    let lines: Vec<&[u8]> = script::lines(&case.script).collect();
    let too_long = match by_text(case.capacity, &lines) {
        Err(no) if verdict == Err(no) => return Ok(()),
        Err(no) => return Err(format!("the text says {no}")),
        Ok(too_long) => too_long,
    };
    let wanted = wanted(verdict, too_long)?;
    let mut is_met = wanted.is_none();
    for _ in 0..tries {
        let course = courses::course(generator, case.capacity, &lines);
        tally.courses += 1;
        if speaks_against(course.refused, wanted) {
            return Err(shown(&course));
        }
        is_met |= course.refused == wanted;
    }
    let Some(no) = wanted.filter(|no| no.refusal != Refusal::Length) else { return Ok(()) };
    tally.named += 1;
    tally.met_by_chance += usize::from(is_met);
    if is_met || search::find(case.capacity, &lines, no).is_some() {
        return Ok(());
    }
    Err("no course refuses there".to_string())
}

/// What the text decides alone: 9, then 7 or 8 up to the first command that is not empty. Where that
/// is *RST, the first line that is too long.
fn by_text(capacity: usize, lines: &[&[u8]]) -> Result<Option<usize>, No> {
    if capacity == 0 || capacity > MOST_CAPACITY {
        return Err(No { line: 0, place: 0, refusal: Refusal::Traces });
    }
    for (text, line) in lines.iter().zip(1..) {
        if text.len() > MOST_LINE_BYTES {
            return Err(No { line, place: 0, refusal: Refusal::ScriptLine });
        }
        for (command, place) in text.split(|&byte| byte == b';').zip(1..) {
            let letters: Vec<u8> = command.iter().filter(|byte| !b" \r".contains(byte)).copied().collect();
            if letters.eq_ignore_ascii_case(b"*RST") {
                return Ok(lines.iter().position(|text| text.len() > MOST_LINE_BYTES).map(|before| before + 1));
            }
            if !letters.is_empty() {
                return Err(No { line, place, refusal: Refusal::NoReset });
            }
        }
    }
    Err(No { line: 1, place: 1, refusal: Refusal::NoReset })
}

/// The first refusal that courses must come to: of the command named, or 5 of a line too long.
fn wanted(verdict: Result<(), No>, too_long: Option<usize>) -> Result<Option<No>, String> {
    let before_long = |line: usize| too_long.is_none_or(|long| line < long);
    match verdict {
        Ok(()) if too_long.is_none() => Ok(None),
        Err(no) if no.refusal == Refusal::ScriptLine && too_long == Some(no.line) && no.place == 0 => {
            Ok(Some(No { refusal: Refusal::Length, ..no }))
        }
        Err(no) if matches!(no.refusal, Refusal::Form | Refusal::Value | Refusal::State) && before_long(no.line) => {
            Ok(Some(no))
        }
        _ => Err(format!("the script begins with *RST, and its first line over 256 bytes is {too_long:?}")),
    }
}

/// Whether a course's first refusal shows that another verdict was due. Only a refusal by 3 hangs on
/// the course; any other comes in all of them.
fn speaks_against(refused: Option<No>, wanted: Option<No>) -> bool {
    match (refused, wanted) {
        (None, None) => false,
        (Some(_), None) => true,
        (None, Some(wanted)) => wanted.refusal != Refusal::State,
        (Some(refused), Some(wanted)) => match (refused.line, refused.place).cmp(&(wanted.line, wanted.place)) {
            Ordering::Less => true,
            Ordering::Equal => refused.refusal != wanted.refusal,
            Ordering::Greater => wanted.refusal != Refusal::State,
        },
    }
}

/// A course to read: its start, its events line by line, and what it refuses.
fn shown(course: &Course) -> String {
    let mut text = format!("start: {}\n", ops::dump::dump(&course.start.state(), &course.start.traces));
    for (events, line) in course.events.iter().zip(1..) {
        let events: Vec<String> = events.iter().map(|event| event.to_string()).collect();
        text.push_str(&format!("before line {line}: {}\n", events.join(", ")));
    }
    match course.refused {
        None => text.push_str("this course refuses nothing"),
        Some(no) => text.push_str(&format!("this course says {no}")),
    }
    text
}

#[cfg(test)]
mod tests {
    use super::*;

    const TRIES: usize = 60;

    /// Whether a verdict, as the check program writes it, is confirmed.
    fn confirms(capacity: usize, script: &str, verdict: &str) -> bool {
        let numbers: Vec<usize> = verdict.split(' ').skip(1).map(|number| number.parse().unwrap()).collect();
        let verdict = match numbers[..] {
            [line, place, number] => Err(No { line, place, refusal: Refusal::from_number(number).unwrap() }),
            _ => Ok(()),
        };
        let case = Case { capacity, script: script.as_bytes().to_vec() };
        confirm_verdict(&mut Generator::new(1), &case, verdict, TRIES, &mut Tally::default()).is_ok()
    }

    /// The right verdict alone is confirmed.
    fn only(capacity: usize, script: &str, verdict: &str, wrong: &[&str]) {
        assert!(confirms(capacity, script, verdict), "{script:?} {verdict}");
        for wrong in wrong {
            assert!(!confirms(capacity, script, wrong), "{script:?} {wrong}");
        }
    }

    #[test]
    fn wrong_verdicts_are_not_confirmed() {
        let example = "*RST;FREQ 100;HARM 2\nOFLT 14\nHARM 3\nFMOD 0\nOFLT 19\n";
        only(4, example, "no 5 1 3", &["ok", "no 4 1 3", "no 2 1 3", "no 6 1 3", "no 5 2 3", "no 5 1 2", "no 1 1 7"]);
        let points = "*RST;SRAT 14;STRT;TRIG;TRIG\nTRCB?1,0,2";
        only(2, points, "ok", &["no 2 1 3", "no 2 1 1", "no 1 1 7", "no 0 0 9", "no 2 0 8"]);
        only(1, points, "no 2 1 3", &["ok", "no 1 5 3", "no 2 1 2"]);
        only(2, "*RST;FMOD 0\nHARM 2", "no 2 1 3", &["ok"]);
        only(2, "*RST;FMOD 0;HARM 102", "ok", &["no 1 3 3"]);
        only(2, "*RST;HARM 0;HARM 103", "no 1 2 2", &["ok", "no 1 3 3", "no 1 2 1", "no 1 2 3"]);
        only(2, "*RST;TSTR 1\nSEND 0", "no 2 1 3", &["ok"]);
    }

    /// Refusals by 7, 8 and 9, which no event changes.
    #[test]
    fn what_the_text_decides() {
        let long = format!("*RST\nHARM 1\n{}\nHARM 0", " ".repeat(257));
        only(1, &long, "no 3 0 8", &["ok", "no 4 1 2", "no 2 0 8", "no 3 1 8", "no 3 0 5"]);
        only(1, &format!("\n{}", &long[12..]), "no 2 0 8", &["ok", "no 1 1 7"]);
        only(1, "*RST 1", "no 1 1 7", &["ok", "no 1 1 1"]);
        only(1, ";\n;HARM 0;*RST", "no 2 2 7", &["ok", "no 2 2 2", "no 1 1 7"]);
        only(1, "", "no 1 1 7", &["ok"]);
        only(1, " * r\rst", "ok", &["no 1 1 7"]);
        only(0, "", "no 0 0 9", &["ok", "no 1 1 7"]);
        only(16_384, "*RST", "no 0 0 9", &["ok"]);
    }

    /// Every verdict is confirmed, and random courses refuse most of the commands named.
    #[test]
    fn random_scripts() {
        let tally = confirm(3, 150, 40).unwrap();
        assert!(tally.scripts == 150 && tally.courses > 4_000 && tally.named > 30, "{tally:?}");
        assert!(tally.met_by_chance * 10 > tally.named * 9, "{tally:?}");
    }
}
