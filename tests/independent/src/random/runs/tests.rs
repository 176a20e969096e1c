//! Runs against their bytes taken singly, and the rule by which they stop, on modules in any allowed state.

use super::*;
use crate::module::line::Answer;
use crate::random::states;
use crate::refusal::Refusal;

/// How many runs are tried.
const RUNS: usize = 10_000;

/// What stands in a room before.
const UNTOUCHED: u8 = 0xaa;

/// The entry of PHAS, in units of 0.01.
const PHAS: usize = 0;

/// A run, and the module before it.
struct Case {
    module: Module,
    bytes: Vec<u8>,
    end_mark: bool,
    room: usize,
}

impl Case {
    /// A run on a module in any allowed state.
    fn random(generator: &mut Generator) -> Case {
        let capacity = 1 + generator.below(5);
        let module = states::module(generator, capacity);
        match one(generator, &module) {
            Operation::Run { bytes, end_mark, room } => Case { module, bytes, end_mark, room },
            other => panic!("{other} is no run"),
        }
    }

    /// How many bytes the run takes.
    fn taken(&self) -> usize {
        self.module.clone().run(&self.bytes, self.end_mark, &mut vec![UNTOUCHED; self.room]).taken
    }

    /// Whether the byte at a place carries the end mark.
    fn is_marked(&self, at: usize) -> bool {
        self.end_mark && at + 1 == self.bytes.len()
    }

    /// Whether the byte at a place ends a line and is none of its bytes.
    fn is_end(&self, at: usize) -> bool {
        self.bytes[at] == b'\n' || (self.module.port == Port::Rs232 && self.bytes[at] == b'\r')
    }

    /// Whether a line ends with the byte at a place.
    fn ends(&self, at: usize) -> bool {
        self.is_end(at) || (self.module.port == Port::Gpib && self.is_marked(at))
    }

    /// The line that the byte at a place is in, from 1.
    fn line_of(&self, at: usize) -> usize {
        1 + (0..at).filter(|&before| self.ends(before)).count()
    }

    /// The bytes of the line that ends at a place, on a module that has taken those before; none of a dropped one.
    fn line_at(&self, module: &Module, at: usize) -> Vec<u8> {
        let last = if self.is_end(at) || module.input.dropping { &[][..] } else { &self.bytes[at..=at] };
        [&module.input.queue[..], last].concat()
    }

    /// What its first `count` bytes do singly, each lent the room from the lengths told before it.
    fn singly(&self, count: usize) -> Singly {
        let mut module = self.module.clone();
        let mut room = vec![UNTOUCHED; self.room];
        let mut replies = Vec::new();
        let mut first = None;
        for at in 0..count {
            let left = &mut room[replies.len()..];
            let Answer { refusal, place, length, written } =
                module.byte(self.bytes[at], self.is_marked(at), left.len());
            left[..written.len()].copy_from_slice(&written);
            replies.extend(&written[..length]);
            first = first.or(refusal.map(|refusal| (refusal, self.line_of(at), place)));
        }
        Singly { module, room, replies, first }
    }
}

/// What single bytes come to: the module, the room, the replies told, and the first refusal with its line and place.
struct Singly {
    module: Module,
    room: Vec<u8>,
    replies: Vec<u8>,
    first: Option<(Refusal, usize, usize)>,
}

/// Whether 4 drops the rest of a line, so that a command behind it is not done; nothing where the line is too long for
/// one more command.
fn drops_the_rest(module: &Module, line: &[u8], room: usize) -> Option<bool> {
    let is_done = |degrees: i64| {
        let mut module = module.clone();
        module.line(&[line, format!(";PHAS {degrees}").as_bytes()].concat(), room);
        module.settings.entries[PHAS] == 100 * degrees
    };
    (line.len() + 7 <= MOST_LINE_BYTES).then(|| !is_done(7) || !is_done(8))
}

/// In room enough it is done, whatever else is refused; where 4 drops the rest it is not.
#[test]
fn a_command_behind_a_line_shows_whether_4_drops_the_rest() {
    let module = Module::start(42, 1, [4; 2]).unwrap();
    assert_eq!(drops_the_rest(&module, b"PHAS 7;HARM?", 2), Some(false));
    assert_eq!(drops_the_rest(&module, b"PHAS 7;HARM?", 1), Some(true));
    assert_eq!(drops_the_rest(&module, b"FOO;HARM 0", 0), Some(false));
    assert_eq!(drops_the_rest(&module, b"FOO;HARM?", 0), Some(true));
    assert_eq!(drops_the_rest(&module, &[b' '; 250], 0), None);
}

/// Module, room, joined replies and first refusal are those of the bytes taken.
#[test]
fn a_run_does_what_its_bytes_do_singly() {
    let mut generator = Generator::new(21);
    for _ in 0..RUNS {
        let case = Case::random(&mut generator);
        let mut module = case.module.clone();
        let mut room = vec![UNTOUCHED; case.room];
        let told = module.run(&case.bytes, case.end_mark, &mut room);
        let singly = case.singly(told.taken);
        assert_eq!(module, singly.module);
        assert_eq!(room, singly.room);
        assert_eq!((told.length, &room[..told.length]), (singly.replies.len(), &singly.replies[..]));
        match singly.first {
            Some((refusal, line, place)) => {
                assert_eq!((told.refusal, told.line, told.place), (Some(refusal), line, place));
            }
            None => assert_eq!((told.refusal, told.line, told.place), (None, 0, 0)),
        }
    }
}

/// A run stops before the end of a line that is not its first and would meet 4 there, and nowhere else.
#[test]
fn a_run_stops_where_a_later_line_would_meet_4() {
    let mut generator = Generator::new(22);
    let (mut stopped, mut passed) = (0, 0);
    for _ in 0..RUNS {
        let case = Case::random(&mut generator);
        let taken = case.taken();
        for at in 0..case.bytes.len().min(taken + 1) {
            if !case.ends(at) || case.line_of(at) == 1 {
                assert!(at < taken, "a run stops at {at}");
                continue;
            }
            let before = case.singly(at);
            let line = case.line_at(&before.module, at);
            let drops = drops_the_rest(&before.module, &line, case.room - before.replies.len());
            assert_eq!(drops.unwrap_or(at == taken), at == taken, "the line {line:?} ends at {at}");
            stopped += usize::from(drops == Some(true));
            passed += usize::from(drops == Some(false));
        }
    }
    assert!(stopped > 2_000 && passed > 20_000, "{stopped} stopped, {passed} passed");
}
