//! How a stream of operations meets the band and the ranges: what calls do in the states that they are given.

use super::met::CALLS;
use super::Session;
use crate::frequency::Range::{self, Lower, Upper};
use crate::frequency::UPPER_MOST_TIME_CONSTANT;
use crate::module::state::State;
use crate::setting::{Settings, OFLT};

/// A call's state, and the one that it has left.
struct Call {
    before: State,
    after: State,
}

/// A kind of calls in words, and which are of that kind.
type Kind = (&'static str, fn(&Call) -> bool);

/// How many kinds there are.
const COUNT: usize = 10;

/// The kinds that are counted; each fault is counted where there is no other.
const KINDS: [Kind; COUNT] = [
    ("are refused above the band in lower", |call| call.is_refused_outside(Lower)),
    ("are refused below the band in upper", |call| call.is_refused_outside(Upper)),
    ("are refused in upper by the time constant", |call| call.is_refused_by_time_constant()),
    ("are taken inside the band in upper", |call| call.is_taken_inside(Upper)),
    ("are taken inside the band in lower", |call| call.is_taken_inside(Lower)),
    ("keep a long time constant inside the band", |call| call.is_taken_inside(Lower) && call.keeps_a_long_one()),
    ("take the range down", |call| call.moves(Upper, Lower)),
    ("take the range up", |call| call.moves(Lower, Upper)),
    ("take the range up and shorten the time constant", |call| call.moves(Lower, Upper) && call.shortens()),
    ("move the frequency inside the band and keep lower", |call| call.is_taken_inside(Lower) && call.moves_inside()),
];

/// Whether a detection frequency is inside the band: either range stands there.
fn is_inside(settings: &Settings) -> bool {
    Range::ALL.into_iter().all(|range| range.stands_at(settings.reference().detection()))
}

impl Call {
    /// Whether its state is in this range, which does not stand at the detection frequency, and has no other fault.
    fn is_refused_outside(&self, range: Range) -> bool {
        let Settings { range: found, .. } = self.before.settings;
        let mut amended = self.before.clone();
        amended.settings.range = found.at(self.before.settings.reference().detection());
        found == range && amended.settings.range != range && amended.is_allowed()
    }

    /// Whether its state has a time constant that its range does not take, and no other fault.
    fn is_refused_by_time_constant(&self) -> bool {
        let mut amended = self.before.clone();
        amended.settings.entries[OFLT] = UPPER_MOST_TIME_CONSTANT;
        let Settings { range, entries, .. } = &self.before.settings;
        !range.allows(entries[OFLT]) && amended.is_allowed()
    }

    /// Whether its state is allowed, in this range, and it leaves the detection frequency inside the band.
    fn is_taken_inside(&self, range: Range) -> bool {
        self.before.is_allowed() && self.after.settings.range == range && is_inside(&self.after.settings)
    }

    /// Whether the time constant is a long one before and after it.
    fn keeps_a_long_one(&self) -> bool {
        [&self.before, &self.after].into_iter().all(|state| !Upper.allows(state.settings.entries[OFLT]))
    }

    /// Whether it takes the range from one to another.
    fn moves(&self, from: Range, to: Range) -> bool {
        self.before.is_allowed() && (self.before.settings.range, self.after.settings.range) == (from, to)
    }

    /// Whether it leaves a smaller time constant than it was given.
    fn shortens(&self) -> bool {
        self.after.settings.entries[OFLT] < self.before.settings.entries[OFLT]
    }

    /// Whether it changes the detection frequency.
    fn moves_inside(&self) -> bool {
        self.before.settings.reference().detection() != self.after.settings.reference().detection()
    }
}

/// How many calls there are of each kind.
pub type Counts = [usize; COUNT];

/// Counts with what their calls do, in words.
pub fn with_words(counts: Counts) -> impl Iterator<Item = (usize, &'static str)> {
    counts.into_iter().zip(KINDS.map(|(words, _)| words))
}

/// The calls of each kind among operations, from before the first start on.
pub fn counts(operations: &[&[u8]]) -> Counts {
    let mut counts = Counts::default();
    let mut session = Session::new();
    for text in operations {
        let before = session.state();
        session.answer(text);
        let word = text.split(|&byte| byte == b' ').next().unwrap_or_default();
        if !CALLS.iter().any(|call| call.as_bytes() == word) {
            continue;
        }
        let call = Call { before, after: session.state() };
        for (count, (_, is_of_kind)) in counts.iter_mut().zip(KINDS) {
            *count += usize::from(is_of_kind(&call));
        }
    }
    counts
}

#[cfg(test)]
mod tests {
    use super::*;
    use crate::hex;
    use crate::ops::compare::lines;

    /// One call of each kind, some of several.
    #[test]
    fn calls_are_counted_by_kind() {
        let lines_of = |texts: &[&str]| {
            let lines = texts.iter().map(|text| format!("line {} 99\n", hex::encode(text.as_bytes())));
            lines.collect::<String>()
        };
        let operations = [
            "start 42 1 4 4\nalter range lower\ntick\nalter freq 10\nalter range upper\npoll\ndump\n",
            "alter freq 2000000\nalter oflt 14\ntick\nalter range lower\ntrigger\nalter ext 0\ntick\nstart 42 1 4 4\n",
            &lines_of(&["FREQ 203.12", "FREQ 199.2", "OFLT 19", "FREQ 199.21", "OFLT?", "FREQ 203.13", "OFLT 3"]),
            &lines_of(&["FREQ 5", "FREQ 500"]),
        ]
        .concat();
        let found = counts(&lines(operations.as_bytes()));
        assert_eq!(found, [1, 1, 1, 1, 3, 3, 2, 2, 1, 1], "{operations}");
    }
}
