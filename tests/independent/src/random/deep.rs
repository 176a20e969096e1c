//! Random scripts that are lawful nearly to their end, near the rules that a state decides.

use super::generator::Generator;
use super::{lines, near, scripts};
use crate::argument::Argument;
use crate::command::{self, FORMS, MOST_LINE_BYTES};
use crate::decimal::Decimal;
use crate::frequency::{Reference, BAND_HIGH, BAND_LOW, DECIMALS, LIMIT};
use crate::module::Module;
use crate::ops::Operation;
use crate::refusal::Refusal;
use crate::script::{Courses, Walk};

/// The most lines of a script up to where it is refused.
const MOST_LINES: usize = 12;

/// How often another command is tried before an empty one is taken.
const TRIES: usize = 12;

/// Commands right after *RST, with which points are held, or a frequency is near its limit or in the band.
const FIRST_COMMANDS: &[&str] = &[
    "SRAT 14;STRT;TRIG;TRIG",
    "SRAT 14;STRT;TRIG;PAUS;TRIG",
    "SRAT 14;STRT",
    "SRAT 14",
    "SRAT 14;TSTR 1;TRIG",
    "SRAT 14;TSTR 1",
    "SEND 0;SRAT 14;STRT;TRIG",
    "SEND 0;SRAT 14;TSTR 1;TRIG;PAUS",
    "SEND 0;TSTR 1",
    "STRT",
    "FMOD 0",
    "FMOD 0;FMOD 1",
    "HARM 102;FMOD 0",
    "FREQ 100;HARM 2;OFLT 14",
    "FREQ 199.2;FREQ 203.12;OFLT 14",
    "FREQ 199.21",
    "FREQ 203.12",
    "FREQ 101.56;HARM 2;OFLT 19",
    "FREQ 100;FREQ 200;FMOD 0",
    "FREQ 199.2;FREQ 199.21;FMOD 0;FMOD 1",
    "FREQ 51000;HARM 2",
    "FREQ 5.1;HARM 19999",
    "FREQ .001;HARM 19999",
];

/// Commands after which the events before the next line decide.
const LEFT_TO_EVENTS: &[&str] =
    &["FMOD 0", "FMOD 0", "HARM 1;FMOD 0", "HARM 20;FMOD 0;TSTR 1", "TSTR 1", "REST;TSTR 1", "REST;TSTR 1;SRAT 14"];

/// Commands that points come and go by.
const POINT_COMMANDS: &[&str] =
    &["STRT", "PAUS", "PAUS", "TRIG", "TRIG", "TRIG", "TRIG", "TSTR 1", "TSTR 0", "SRAT 14", "SRAT 5", "REST", "SPTS?"];

/// Texts that look like *RST and are not.
const DAMAGED_RESETS: &[&str] =
    &["*RST?", "*RST 1", "*RST,", "*RS", "RST", "*RSTT", "*RST*", "*CLS", "**RST", "*RST\t", "\0*RST", "*RST=", "*"];

/// What a script is meant to come to.
#[derive(Clone, Copy, Debug, PartialEq, Eq)]
enum Aim {
    /// No course refuses a command.
    Pass,
    /// A command refused by 1, 2 or 3.
    Refused(Refusal),
    /// A line over 256 bytes.
    TooLong,
    /// No well-formed *RST at its beginning.
    NotBegun,
    /// A capacity that no traces have.
    NoTraces,
    /// Whatever random commands come to.
    Anything,
}

/// What most of a script's commands have to do with.
#[derive(Clone, Copy, Debug, PartialEq, Eq)]
enum Theme {
    /// The detection frequency, and what it decides.
    Frequency,
    /// How points are stored.
    Points,
    /// Nothing in particular.
    All,
}

/// A script and the capacity that it is checked for.
#[derive(Clone, Debug, PartialEq, Eq)]
pub struct Case {
    pub capacity: usize,
    pub script: Vec<u8>,
}

impl Case {
    /// The check of it, as an operation.
    pub fn operation(self) -> Operation {
        Operation::Check { capacity: self.capacity, script: self.script }
    }

    /// It as the check program reads it.
    pub fn input(self) -> Vec<u8> {
        [format!("{}\n", self.capacity).into_bytes(), self.script].concat()
    }
}

/// An endless course of scripts, the same for the same seed.
pub struct Scripts {
    generator: Generator,
}

impl Scripts {
    /// The scripts of a seed.
    pub fn new(seed: u64) -> Scripts {
        Scripts { generator: Generator::new(seed) }
    }
}

impl Iterator for Scripts {
    type Item = Case;

    fn next(&mut self) -> Option<Case> {
        Some(case(&mut self.generator, MOST_LINES))
    }
}

/// A script of at most `most_lines` lines up to where it is refused.
pub fn case(generator: &mut Generator, most_lines: usize) -> Case {
    let aim = match generator.below(100) {
        0..=35 => Aim::Pass,
        36..=69 => Aim::Refused(Refusal::State),
        70..=75 => Aim::Refused(Refusal::Form),
        76..=81 => Aim::Refused(Refusal::Value),
        82..=86 => Aim::TooLong,
        87..=92 => Aim::NotBegun,
        93 | 94 => Aim::NoTraces,
        _ => Aim::Anything,
    };
    let capacity = match (aim, generator.below(20)) {
        (Aim::NoTraces, _) => generator.pick(&[0, 16_384, 65_540, u32::MAX as usize]),
        (_, 0) => generator.pick(&[6, 8, 100, 16_383]),
        _ => 1 + generator.below(5),
    };
    let script = match aim {
        Aim::Anything => scripts::script(generator),
        _ => Writer::new(generator, capacity).script(aim, most_lines),
    };
    Case { capacity, script }
}

/// A lawful script of exactly `bytes` bytes, for capacity 4; nothing where these are too few.
pub fn long(seed: u64, bytes: usize) -> Option<Vec<u8>> {
    let mut generator = Generator::new(seed);
    let mut writer = Writer::new(&mut generator, 4);
    writer.offer(b"*RST");
    while writer.script.len() + 2 * MOST_LINE_BYTES < bytes {
        writer.lawful_commands();
        writer.next_line();
    }
    let mut script = writer.script;
    if script.is_empty() {
        script.extend(b"*RST");
    }
    while script.len() < bytes {
        let end = bytes.min(script.len() + MOST_LINE_BYTES / 2);
        script.resize(end - 1, b' ');
        script.push(b'\n');
    }
    (script.len() == bytes).then_some(script)
}

/// A script being written, what the check knows at its end, and a module in a course without events.
struct Writer<'a> {
    generator: &'a mut Generator,
    walk: Walk,
    /// The module of the course without events.
    quiet: Module,
    theme: Theme,
    /// The lines that are ended.
    script: Vec<u8>,
    /// The line under way, and how many commands it has.
    line: Vec<u8>,
    commands: usize,
    /// What ends each line: LF, or CR and LF.
    line_end: &'static [u8],
}

impl Writer<'_> {
    /// An empty script for a capacity, with a theme and a line end.
    fn new(generator: &mut Generator, capacity: usize) -> Writer<'_> {
        let line_end = generator.pick(&[&b"\n"[..], b"\n", b"\n", b"\n", b"\r\n"]);
        let quiet = Module::start(0, 1, [capacity; 2]).unwrap_or_else(|_| Module::refused());
        let theme = generator.pick(&[Theme::Frequency, Theme::Points, Theme::All]);
        let walk = Walk::new(capacity);
        Writer { generator, walk, quiet, theme, script: Vec::new(), line: Vec::new(), commands: 0, line_end }
    }

    /// A whole script that is to come to its aim after at most so many lines.
    fn script(mut self, aim: Aim, most_lines: usize) -> Vec<u8> {
        self.begin(aim);
        for _ in 0..self.generator.below(most_lines) {
            self.lawful_commands();
            self.next_line();
        }
        self.lawful_commands();
        match aim {
            Aim::Refused(Refusal::State) => self.refused_by_state(),
            Aim::Refused(refusal) => self.refused_by(refusal),
            Aim::TooLong => self.too_long(),
            _ => {}
        }
        if aim != Aim::Pass && self.generator.chance(60) {
            self.anything();
        }
        self.end()
    }

    /// Mostly *RST, with nothing but empty commands before it.
    fn begin(&mut self, aim: Aim) {
        if self.generator.chance(20) {
            for _ in 0..1 + self.generator.below(3) {
                let text = self.generator.pick(&[&b""[..], b" ", b";", b"\r", b"; ;", b"", b""]);
                self.put(text);
                if self.generator.chance(60) {
                    self.next_line();
                }
            }
        }
        if aim == Aim::NotBegun {
            return self.begin_otherwise();
        }
        let mut text = b"*RST".to_vec();
        self.dress(&mut text);
        self.offer(&text);
        if self.generator.chance(50) {
            let first = self.generator.pick(FIRST_COMMANDS).as_bytes();
            self.offer(first);
        }
    }

    /// Nothing, a damaged *RST, or *RST after another command.
    fn begin_otherwise(&mut self) {
        match self.generator.below(4) {
            0 => {}
            1 | 2 => {
                let text = self.generator.pick(DAMAGED_RESETS);
                self.put(text.as_bytes());
                self.anything();
            }
            _ => {
                let first = scripts::command(self.generator);
                self.put(&first);
                self.put(b"*RST");
                self.anything();
            }
        }
    }

    /// What the check knows after a text's commands, or their first refusal.
    fn after(&self, text: &[u8]) -> Result<Walk, Refusal> {
        let mut walk = self.walk.clone();
        command::read_line(text).iter().try_for_each(|reading| walk.take(reading))?;
        Ok(walk)
    }

    /// Puts a text where it fits and no course refuses any of it.
    fn offer(&mut self, text: &[u8]) -> bool {
        let after = self.after(text).ok().filter(|_| self.fits(text));
        let Some(walk) = after else { return false };
        self.walk = walk;
        self.quiet.line(text, usize::MAX);
        self.put(text);
        true
    }

    /// Puts a text behind the commands of the line, whatever it comes to.
    fn put(&mut self, text: &[u8]) {
        if self.commands > 0 {
            self.line.push(b';');
        }
        self.line.extend(text);
        self.commands += 1;
    }

    /// The most bytes of a line before its end's LF.
    fn most_bytes(&self) -> usize {
        MOST_LINE_BYTES + 1 - self.line_end.len()
    }

    /// Whether a command can be put without a line end inside it or a line too long.
    fn fits(&self, text: &[u8]) -> bool {
        self.line.len() + 1 + text.len() <= self.most_bytes() && !text.contains(&b'\n')
    }

    /// Ends the line, now and then filled to about 256 bytes, and begins the next.
    fn next_line(&mut self) {
        if self.generator.chance(3) && self.line.len() + 2 <= self.most_bytes() {
            let filler = self.generator.pick(b"  ;\r");
            let length = self.most_bytes() - self.generator.below(2);
            self.line.resize(length, filler);
        }
        self.script.append(&mut self.line);
        self.script.extend(self.line_end);
        self.commands = 0;
        self.walk.begin_line();
    }

    /// Commands that no course refuses, once the script has begun.
    fn lawful_commands(&mut self) {
        if self.walk.courses().is_none() {
            return;
        }
        let count = self.generator.pick(&[0, 1, 1, 1, 2, 2, 3, 4, 6]);
        (0..count).for_each(|_| self.lawful_command());
    }

    /// A command that no course refuses; an empty one where none is found.
    fn lawful_command(&mut self) {
        let is_put = (0..TRIES).any(|_| {
            let text = self.state_command();
            self.offer(&text)
        });
        if !is_put {
            self.offer(b"");
        }
    }

    /// A command that is refused by 3, one time in two only where certain events have fallen.
    fn refused_by_state(&mut self) {
        let by_events = self.generator.chance(50);
        if by_events {
            self.leave_to_events();
        }
        let kind = if by_events { 1 + self.generator.below(3) } else { self.generator.below(4) };
        for _ in 0..10 * TRIES {
            let text = self.state_text(kind);
            let is_refused = self.fits(&text) && self.after(&text).is_err_and(|found| found == Refusal::State);
            if is_refused && (!by_events || self.quiet.clone().line(&text, usize::MAX).refusal.is_none()) {
                return self.put(&text);
            }
        }
        self.refused_by(Refusal::State);
    }

    /// A text that may be refused by 3, of one of four kinds.
    fn state_text(&mut self, kind: usize) -> Vec<u8> {
        let courses = self.walk.courses().expect("the script has begun");
        let text = match kind {
            0 => near::trace_read(self.generator, courses.fewest_held()),
            1 => format!("SEND {}", self.generator.between(0, 1)),
            2 => at_limit(self.generator, &courses.reference()),
            _ => near::reference(self.generator, &courses.reference()),
        };
        let mut text = text.into_bytes();
        self.dress(&mut text);
        text
    }

    /// Comes to where the events before a line decide, and at times goes a line or two on.
    fn leave_to_events(&mut self) {
        let text = self.generator.pick(LEFT_TO_EVENTS).as_bytes();
        self.offer(text);
        self.next_line();
        if self.generator.chance(40) {
            let reference = self.walk.courses().expect("the script has begun").reference();
            let harmonic = LIMIT / reference.external + self.generator.between(0, 2);
            self.offer(format!("FMOD 1;HARM {harmonic}").as_bytes());
        }
        for _ in 0..self.generator.below(3) {
            self.lawful_commands();
            self.next_line();
        }
    }

    /// A command that is refused by 1, 2 or 3.
    fn refused_by(&mut self, refusal: Refusal) {
        for _ in 0..10 * TRIES {
            let text = match refusal {
                Refusal::State => self.state_command(),
                _ => lines::command(self.generator),
            };
            if self.fits(&text) && self.after(&text).is_err_and(|found| found == refusal) {
                return self.put(&text);
            }
        }
        self.next_line();
        self.put(if refusal == Refusal::State { b"TRCL?1,16383,1" } else { b"HARM" });
    }

    /// Fills the line to over 256 bytes and ends it.
    fn too_long(&mut self) {
        let more = self.generator.pick(&[1, 1, 2, 30, 3_000]);
        let filler = self.generator.pick(b" ;\r0");
        let length = self.most_bytes() + more;
        self.line.resize(length, filler);
        self.next_line();
    }

    /// Commands and lines without regard to what they come to.
    fn anything(&mut self) {
        for _ in 0..self.generator.below(6) {
            let text = scripts::command(self.generator);
            self.put(&text);
            if self.generator.chance(40) {
                self.next_line();
            }
        }
    }

    /// The whole script; its last line may lack its end.
    fn end(mut self) -> Vec<u8> {
        match self.generator.below(8) {
            0..=3 => self.next_line(),
            4..=6 => self.script.append(&mut self.line),
            _ => {
                self.next_line();
                self.next_line();
            }
        }
        self.script
    }

    /// A command chosen with an eye on what every course has.
    fn state_command(&mut self) -> Vec<u8> {
        let courses = self.walk.courses().expect("the script has begun");
        let mut text = near_courses(self.generator, courses, self.theme);
        self.dress(&mut text);
        text
    }

    /// Now and then another case, and spaces.
    fn dress(&mut self, text: &mut Vec<u8>) {
        if self.generator.chance(10) {
            lines::space_out(self.generator, text);
        }
        if self.generator.chance(10) {
            lines::change_case(self.generator, text);
        }
    }
}

/// A command of the theme, or one near what decides in these courses.
fn near_courses(generator: &mut Generator, courses: &Courses, theme: Theme) -> Vec<u8> {
    let reference = courses.reference();
    match (theme, generator.chance(50)) {
        (Theme::Frequency, true) => return near::reference(generator, &reference).into_bytes(),
        (Theme::Points, true) => return generator.pick(POINT_COMMANDS).as_bytes().to_vec(),
        _ => {}
    }
    match generator.below(20) {
        0..=4 => near::reference(generator, &reference).into_bytes(),
        5 | 6 => at_limit(generator, &reference).into_bytes(),
        7..=13 => near::storage(generator).into_bytes(),
        14..=17 => near::trace_read(generator, courses.fewest_held()).into_bytes(),
        18 => generator.pick(&["", " ", "SPTS?", "FREQ?", "OFLT?", "*STB?", "*CLS", "*IDN?"]).as_bytes().to_vec(),
        _ => {
            let form = &FORMS[generator.below(FORMS.len())];
            lines::lawful(generator, form)
        }
    }
}

/// A frequency, harmonic or time constant on one side or the other of the limit or an end of the band.
fn at_limit(generator: &mut Generator, reference: &Reference) -> String {
    let limit = generator.pick(&[LIMIT, LIMIT, BAND_LOW - 1, BAND_HIGH]);
    match generator.below(5) {
        0 | 1 => format!("FREQ {}", beside(generator, limit / reference.harmonic).plain()),
        2 | 3 => {
            let other = Reference { is_internal: !reference.is_internal, ..*reference }.in_force();
            format!("HARM {}", (limit / other + generator.between(0, 1)).max(1))
        }
        _ => format!("OFLT {}", generator.pick(&[13, 14, 19])),
    }
}

/// The last step of FREQ up to a frequency, the next one, or about half way between.
fn beside(generator: &mut Generator, frequency: i64) -> Decimal {
    let step = Argument::frequency().step_at(frequency);
    let tenth_units = 10 * i128::from(step);
    let offset = generator.pick(&[0, tenth_units / 2 - 1, tenth_units / 2, tenth_units / 2 + 1, tenth_units]);
    Decimal::new(i128::from(frequency - frequency % step), DECIMALS).finer(1).plus(offset)
}

#[cfg(test)]
mod tests {
    use super::*;
    use crate::course;
    use crate::script::{self, program, No};
    use std::collections::BTreeMap;

    #[test]
    fn the_same_seed_gives_the_same_scripts() {
        let first: Vec<Case> = Scripts::new(7).take(200).collect();
        assert_eq!(first, Scripts::new(7).take(200).collect::<Vec<_>>());
        assert_ne!(first, Scripts::new(8).take(200).collect::<Vec<_>>());
    }

    /// Whether the first refusal of the course without events is this one.
    fn is_met_without_events(Case { capacity, script }: &Case, no: No) -> bool {
        let mut module = Module::start(0, 1, [*capacity; 2]).unwrap();
        let mut lines = script::lines(script).zip(1..);
        lines.find_map(|(text, line)| course::refusal_of(&mut module, line, text)) == Some(no)
    }

    /// Every verdict comes up, a quarter pass, a quarter are refused by 3, many of these late and many
    /// only after certain events.
    #[test]
    fn verdicts_are_spread() {
        let mut verdicts = BTreeMap::new();
        let (mut late, mut by_events) = (0, 0);
        for case in Scripts::new(1).take(4_000) {
            let verdict = script::check(case.capacity, &case.script);
            let number = verdict.map_or_else(|no| no.refusal.number(), |()| 0);
            *verdicts.entry(number).or_insert(0) += 1;
            if let Some(no) = verdict.err().filter(|no| no.refusal == Refusal::State) {
                late += usize::from(no.line >= 4);
                by_events += usize::from(!is_met_without_events(&case, no));
            }
        }
        for (number, least) in [(0, 1_000), (1, 150), (2, 150), (3, 1_000), (7, 150), (8, 100), (9, 40)] {
            assert!(verdicts[&number] >= least, "{verdicts:?}");
        }
        assert!(late >= 800 && by_events >= 250, "{late} {by_events} {verdicts:?}");
    }

    /// Lines of 255, 256 and 257 bytes come up, CR LF, and last lines with and without their end.
    #[test]
    fn lines_are_of_every_kind() {
        let scripts: Vec<Vec<u8>> = Scripts::new(2).take(2_000).map(|case| case.script).collect();
        for length in [MOST_LINE_BYTES - 1, MOST_LINE_BYTES, MOST_LINE_BYTES + 1] {
            let found = scripts.iter().flat_map(|script| script::lines(script)).filter(|line| line.len() == length);
            assert!(found.count() >= 20, "{length}");
        }
        for (end, least) in [(&b"\n"[..], 500), (b"\r\n", 100), (b"\n\n", 100), (b"T", 5)] {
            assert!(scripts.iter().filter(|script| script.ends_with(end)).count() >= least);
        }
        assert!(scripts.iter().filter(|script| !script.ends_with(b"\n")).count() >= 400);
    }

    #[test]
    fn long_scripts_pass() {
        for bytes in [4, 5, 100, 511, 512, 513, 6_000, program::MOST_SCRIPT_BYTES] {
            let script = long(3, bytes).unwrap();
            assert_eq!((script.len(), script::check(4, &script)), (bytes, Ok(())));
        }
        assert_eq!(long(3, 3), None);
    }
}
