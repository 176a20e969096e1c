//! Random operations of the ops protocol, chosen beside a module that they are performed on.

use super::generator::Generator;
use super::{alterations, near, runs, scripts};
use super::{damaged, lines, point};
use crate::command::MOST_LINE_BYTES;
use crate::frequency::{LEAST, LIMIT};
use crate::module::port::Port;
use crate::module::Module;
use crate::ops::{Operation, Session, MOST_ROOM};
use crate::point::Point;
use crate::setting::HARM;
use std::collections::VecDeque;

/// The capacity from which the state is shown but seldom.
const SHORT_TRACE: usize = 64;

/// An endless course of operations' texts, the same for the same seed.
pub struct Operations {
    generator: Generator,
    /// The module that all operations so far were performed on.
    session: Session,
    /// Operations that follow at once.
    next: VecDeque<Operation>,
}

impl Operations {
    /// The operations of a seed.
    pub fn new(seed: u64) -> Operations {
        let first = Operation::Dump;
        Operations { generator: Generator::new(seed), session: Session::new(), next: VecDeque::from([first]) }
    }

    /// Chooses the next operation, or several that belong together.
    fn plan(&mut self) {
        let Operations { generator, session, next } = self;
        match generator.below(1_110) {
            0..=44 => next.extend(start(generator)),
            45..=459 => {
                let line = line(generator, &session.module);
                let room = room_near(generator, session, &line);
                next.push_back(Operation::Line { line, room });
            }
            460..=479 => {
                let line = line(generator, &session.module);
                next.extend(bytes(generator, session, line));
            }
            480..=579 => burst(generator, next),
            580..=669 => next.push_back(measured(generator, session)),
            670..=719 => next.push_back(pair(generator)),
            720..=749 => next.push_back(raise(generator)),
            750..=779 => next.push_back(poke(generator, session)),
            780..=799 => next.push_back(Operation::Poll),
            800..=834 => next.push_back(check(generator)),
            835..=894 => next.extend(alter(generator, session)),
            895..=898 => next.extend(alterations::to_another_state(generator, session)),
            899..=918 => next.extend(read_back(generator, session)),
            1_000.. => next.extend(runs::runs(generator, &session.module)),
            _ => next.push_back(Operation::Dump),
        }
    }

    /// Shows the state after what has changed it, mostly where that is short.
    fn plan_dump(&mut self) {
        let percent = if self.session.module.storage.capacity() <= SHORT_TRACE { 15 } else { 1 };
        if self.generator.chance(percent) {
            self.next.push_front(Operation::Dump);
        }
    }

    /// Goes on with the rest of a run that has stopped, mostly.
    fn plan_rest(&mut self, operation: Operation, answer: &str) {
        let Operation::Run { bytes, end_mark, .. } = operation else { return };
        let taken = answer.split(' ').nth(1).and_then(|taken| taken.parse().ok()).unwrap_or(0);
        if (1..bytes.len()).contains(&taken) && self.generator.chance(80) {
            let rest = bytes[taken..].to_vec();
            let room = runs::room_near(&mut self.generator, &self.session.module, &rest, end_mark);
            self.next.push_front(Operation::Run { bytes: rest, end_mark, room });
        }
    }
}

impl Iterator for Operations {
    type Item = Vec<u8>;

    fn next(&mut self) -> Option<Vec<u8>> {
        while self.next.is_empty() {
            self.plan();
            let is_long = self.session.module.storage.capacity() > SHORT_TRACE;
            if is_long && self.generator.chance(90) {
                self.next.retain(|operation| *operation != Operation::Dump);
            }
        }
        let operation = self.next.pop_front()?;
        let mut text = operation.to_string().into_bytes();
        // Bytes are damaged but seldom, for else no long line would come through.
        let is_byte = matches!(operation, Operation::Byte { .. });
        if self.generator.below(1_000) < if is_byte { 1 } else { 25 } {
            text = damaged::operation(&mut self.generator, &text);
        }
        let answer = self.session.answer(&text).unwrap_or_default();
        let changes = operation != Operation::Dump;
        self.plan_rest(operation, &answer);
        if changes {
            self.plan_dump();
        }
        Some(text)
    }
}

/// Lines that bring a fresh module to where the rules of its storage and frequency bite.
const FIRST_LINES: &[&str] = &[
    "",
    "STRT",
    "SEND 0;STRT",
    "SEND 0;SRAT 14;TSTR 1",
    "SRAT 14;TSTR 1",
    "SEND 0;SRAT 14;STRT;TRIG",
    "FMOD 0",
    "FMOD 0;SEND 0;TSTR 1",
    "FREQ 100;HARM 2;OFLT 14;FMOD 0",
    "FREQ 100;HARM 2;OFLT 14",
    "FREQ 199.2;OFLT 19;FREQ 203.12",
    "FREQ 199.21",
    "FREQ 203.12",
    "FREQ 101.56;HARM 2;OFLT 15",
    "HARM 2;FREQ 99.6;FREQ 101.56",
    "*ESE 255;*SRE 255;LIAE 255;ERRE 255",
];

/// A start, and often a first line.
fn start(generator: &mut Generator) -> Vec<Operation> {
    let capacity = match generator.below(40) {
        0..=32 => 1 + generator.below(5),
        33..=37 => 9 + generator.below(32),
        38 => generator.pick(&[0, 16_384]),
        _ => generator.pick(&[16_383, 5, 6, 7, 8]),
    };
    let other = if generator.chance(6) { generator.pick(&[0, 1, 2, 16_384]) } else { capacity };
    let serial = generator.pick(&[0, 1, 42, 12_345, 99_999, 99_999, 7, 42, 42, 42, 42, 100_000]);
    let serial = if generator.chance(1) { generator.bits() as u32 } else { serial };
    let port =
        if generator.chance(3) { generator.pick(&[2, 3, 255, 256, u32::MAX]) } else { generator.below(2) as u32 };
    let first_line = generator.pick(FIRST_LINES).as_bytes().to_vec();
    let mut operations = vec![Operation::Start { serial, port, lengths: [capacity, other] }];
    if !first_line.is_empty() {
        operations.push(Operation::Line { line: first_line, room: room(generator) });
    }
    operations
}

/// A line of one to six commands; a few are of another kind, or about as long as a line may be.
pub fn line(generator: &mut Generator, module: &Module) -> Vec<u8> {
    let mut line = match generator.below(40) {
        0 | 1 => lines::line(generator),
        2 => lines::odd_line(generator),
        3..=12 => lines::set_and_query(generator),
        _ => {
            let count = 1 + generator.below(6);
            let commands: Vec<Vec<u8>> = (0..count).map(|_| near::command(generator, module)).collect();
            commands.join(&b';')
        }
    };
    if generator.chance(4) {
        let length = MOST_LINE_BYTES - 2 + generator.below(5);
        let filler = generator.pick(b" ;\r 0");
        line.resize(length, filler);
    }
    if generator.chance(2) {
        lines::damage(generator, &mut line);
    }
    line
}

/// A room for a reply, mostly a small one.
pub fn room(generator: &mut Generator) -> usize {
    match generator.below(50) {
        0..=44 => generator.below(41),
        45..=48 => generator.below(400),
        _ => 400 + generator.below(2_000),
    }
}

/// A room for a line's reply, often just enough or just too small for it or for a part of it.
fn room_near(generator: &mut Generator, session: &Session, line: &[u8]) -> usize {
    if generator.chance(40) {
        return room(generator);
    }
    let mut module = session.module.clone();
    let needed = module.line(line, MOST_ROOM).written.len();
    match generator.below(6) {
        0 => needed.saturating_sub(1),
        1 => needed.saturating_sub(1 + generator.below(6)),
        2 => needed,
        _ => needed + generator.below(20),
    }
    .min(MOST_ROOM)
}

/// A line byte by byte with its end, and now and then an end mark.
fn bytes(generator: &mut Generator, session: &Session, mut line: Vec<u8>) -> Vec<Operation> {
    let is_gpib = session.module.port == Port::Gpib;
    line.retain(|&byte| byte != b'\n');
    let mut marked = None;
    if generator.chance(12) {
        let length = MOST_LINE_BYTES - 1 + generator.below(20);
        line.resize(length.max(line.len()), generator.pick(b" ;0"));
        let too_many = MOST_LINE_BYTES - session.module.input.queue.len();
        let dropped = too_many + 1 + generator.below(6);
        marked = generator.pick(&[None, Some(too_many), Some(dropped)]);
    }
    if generator.chance(95) {
        let end: &[u8] = match (is_gpib, generator.below(6)) {
            (_, 0) => b"\r\n",
            (true, 1) => b"",
            (true, _) => b"\n",
            (false, 1..=3) => b"\r",
            (false, _) => b"\n",
        };
        line.extend(end);
    }
    let marks_last = is_gpib && generator.chance(20);
    let mark_percent = if marked.is_some() { 0 } else { generator.pick(&[0, 0, 0, 1, 5]) };
    let steady_room = room(generator).max(generator.pick(&[0, 40, 100]));
    let last = line.len().saturating_sub(1);
    line.into_iter()
        .enumerate()
        .map(|(at, byte)| {
            let end_mark = marked == Some(at) || (marks_last && at == last) || generator.chance(mark_percent);
            let room = if at == last { steady_room } else { steady_room.min(4) };
            Operation::Byte { byte, end_mark, room }
        })
        .collect()
}

/// Ticks and triggers with new pairs between them, so that loops turn.
fn burst(generator: &mut Generator, next: &mut VecDeque<Operation>) {
    for _ in 0..1 + generator.below(9) {
        next.push_back(match generator.below(8) {
            0..=2 => Operation::Tick,
            3..=5 => Operation::Trigger,
            _ => pair(generator),
        });
    }
}

/// Two points, mostly legal.
pub fn pair(generator: &mut Generator) -> Operation {
    let legal = generator.chance(85);
    let mut word = || match point(generator) {
        point if legal && !point.is_legal() => Point::new(point.m(), point.e() / 2).word,
        point => point.word,
    };
    Operation::Pair([word(), word()])
}

/// A measured frequency, legal or not, near a limit of the session's harmonic.
pub fn measured(generator: &mut Generator, session: &Session) -> Operation {
    let harmonic = session.module.settings.entries[HARM];
    let frequency = match generator.below(10) {
        0 => LEAST + generator.between(-2, 2),
        1 => LIMIT + generator.between(-2, 2),
        2 => generator.of_any_size(LIMIT),
        3 => generator.between(0, u32::MAX.into()),
        _ => near::frequency(generator, harmonic),
    };
    Operation::Measured(frequency as u32)
}

/// Raised bits, legal or not.
pub fn raise(generator: &mut Generator) -> Operation {
    let [lia, err] = [generator.bits() as u8, generator.bits() as u8];
    match generator.below(4) {
        0 => Operation::Raise { lia, err },
        1 => Operation::Raise { lia: 1 << generator.below(8), err: 0 },
        2 => Operation::Raise { lia: 0, err: 1 << generator.below(8) },
        _ => Operation::Raise { lia: lia & 0x0f, err: err & 0xf6 },
    }
}

/// A word into a slot, now and then into one that is not there.
fn poke(generator: &mut Generator, session: &Session) -> Operation {
    let capacity = session.module.storage.capacity();
    let slot =
        if generator.chance(5) { generator.pick(&[16_384, u32::MAX as usize]) } else { generator.below(capacity + 1) };
    Operation::Poke { trace: generator.below(2), slot, word: point(generator).word }
}

/// A word into a slot that a point is held in, and what the trace reads send of the trace then.
fn read_back(generator: &mut Generator, session: &Session) -> Vec<Operation> {
    let (trace, slot) = (generator.below(2), generator.below(session.module.storage.capacity()));
    let held = session.module.storage.held();
    let poke = Operation::Poke { trace, slot, word: point(generator).word };
    if held == 0 || held > SHORT_TRACE {
        return vec![poke];
    }
    let line = format!("TRCB?{0},0,{held};TRCL?{0},0,{held}", trace + 1).into_bytes();
    vec![poke, Operation::Line { line, room: 8 * held }]
}

/// Alterations that mostly break a rule, a few operations that meet them, and mostly the way back.
fn alter(generator: &mut Generator, session: &Session) -> Vec<Operation> {
    let changes = alterations::changes(generator, &session.state());
    let back: Vec<Operation> = changes.iter().rev().map(|change| change.back.clone()).collect();
    let queries: Vec<String> = changes.iter().filter_map(alterations::Change::query).collect();
    let mut operations: Vec<Operation> = changes.into_iter().map(|change| change.there).collect();
    if generator.chance(50) {
        operations.push(Operation::Line { line: queries.join(";").into_bytes(), room: 64 });
    }
    if generator.chance(50) {
        operations.push(runs::one(generator, &session.module));
    }
    for _ in 0..1 + generator.below(7) {
        operations.push(call(generator, session));
    }
    if generator.chance(85) {
        operations.extend(back);
    }
    operations
}

/// Any call, or the state.
fn call(generator: &mut Generator, session: &Session) -> Operation {
    match generator.below(10) {
        0 => Operation::Line { line: line(generator, &session.module), room: room(generator) },
        1 => {
            let byte = generator.pick(b"A;1?\r\n");
            Operation::Byte { byte, end_mark: generator.chance(20), room: generator.below(41) }
        }
        2 => pair(generator),
        3 => Operation::Tick,
        4 => Operation::Trigger,
        5 => measured(generator, session),
        6 => raise(generator),
        7 => Operation::Poll,
        8 => runs::one(generator, &session.module),
        _ => Operation::Dump,
    }
}

/// The check of a random script, mostly for a small capacity.
fn check(generator: &mut Generator) -> Operation {
    let capacity = match generator.below(20) {
        0 => generator.pick(&[0, 16_384, u32::MAX as usize]),
        1 => generator.pick(&[16_383, 8, 100]),
        _ => 1 + generator.below(4),
    };
    Operation::Check { capacity, script: scripts::script(generator) }
}

#[cfg(test)]
mod tests {
    use super::*;
    use crate::ops::band;
    use crate::ops::runs::{counts, with_words};

    #[test]
    fn the_same_seed_gives_the_same_operations() {
        let first: Vec<Vec<u8>> = Operations::new(7).take(500).collect();
        assert_eq!(first, Operations::new(7).take(500).collect::<Vec<_>>());
        assert_ne!(first, Operations::new(8).take(500).collect::<Vec<_>>());
    }

    /// Each answer that the protocol has comes up often enough among the random operations.
    #[test]
    fn every_refusal_and_phase_comes_up() {
        let mut session = Session::new();
        let answers: Vec<String> = Operations::new(1).take(20_000).filter_map(|text| session.answer(&text)).collect();
        let least = |start: &str, part: &str, expected: usize| {
            let found = answers.iter().filter(|text| text.starts_with(start) && text.contains(part)).count();
            assert!(found >= expected, "{start} {part}: {found}");
        };
        for (start, expected) in [
            ("A 0", 2_000),
            ("A 1 ", 200),
            ("A 2 ", 100),
            ("A 3 ", 100),
            ("A 4 ", 100),
            ("A 5 0 0", 20),
            ("A 6", 50),
            ("A 9", 5),
            ("A 11", 400),
            ("S 0", 100),
            ("S 11 0", 50),
            ("R 0", 150),
            ("R 9", 10),
            ("R 10", 10),
            ("K", 100),
            ("?", 100),
            ("ok", 50),
            ("no ", 100),
        ] {
            least(start, "", expected);
        }
        for phase in ["reset", "running", "paused", "done"] {
            least("serial", &format!("storage={phase}"), 50);
        }
        least("serial", "fmod=0", 300);
        least("serial", "dropping=1", 5);
    }

    /// Each fault of a range, each range inside the band, and each way that a range can move comes up often enough.
    #[test]
    fn every_way_to_meet_the_band_comes_up() {
        let operations: Vec<Vec<u8>> = Operations::new(1).take(20_000).collect();
        let operations: Vec<&[u8]> = operations.iter().map(Vec::as_slice).collect();
        for (found, kind) in band::with_words(band::counts(&operations)) {
            assert!(found >= 15, "{kind}: {found}");
        }
    }

    /// Runs that stop, are gone on with, and are refused in each way come up often enough.
    #[test]
    fn every_kind_of_run_comes_up() {
        let operations: Vec<Vec<u8>> = Operations::new(1).take(20_000).filter(|text| !text.is_empty()).collect();
        let mut session = Session::new();
        let answers: Vec<String> = operations.iter().filter_map(|text| session.answer(text)).collect();
        let operations: Vec<&[u8]> = operations.iter().map(Vec::as_slice).collect();
        let answers: Vec<&[u8]> = answers.iter().map(String::as_bytes).collect();
        for (found, kind) in with_words(counts(&operations, &answers)) {
            let least = match kind {
                "are runs" => 900,
                "stop" | "end within a line" | "go on with the rest of one that stopped" => 100,
                "are refused by 9" | "meet 5 in a later line" | "stop before a marked byte" => 3,
                _ => 20,
            };
            assert!(found >= least, "{kind}: {found}");
        }
    }
}
