//! Random alterations of the state: a field or several that decide together, to values that a state may
//! hold and to values that it may not.

use super::generator::Generator;
use super::{near, point, settings, states};
use crate::frequency::Range;
use crate::module::state::State;
use crate::module::storage::Phase;
use crate::ops::field::{self, Field, Place, Value, FIELDS};
use crate::ops::{Operation, Session};
use crate::setting::{self, FMOD, FREQ, HARM, OFLT, SEND, VALUES};

/// Fields that a rule reads together.
const TOGETHER: &[&[Place]] = &[
    &[Place::Entry(FMOD), Place::Entry(FREQ), Place::External, Place::Entry(HARM), Place::Entry(OFLT), Place::Range],
    &[Place::Entry(HARM), Place::External],
    &[Place::Entry(OFLT), Place::Entry(FREQ)],
    &[Place::Entry(FREQ), Place::Range],
    &[Place::Entry(FREQ), Place::Range, Place::Entry(OFLT)],
    &[Place::External, Place::Range],
    &[Place::Range, Place::Entry(OFLT)],
    &[Place::Range],
    &[Place::Entry(OFLT)],
    &[Place::Phase, Place::Held, Place::Next, Place::Entry(SEND)],
    &[Place::Phase, Place::Held, Place::Next],
    &[Place::Held, Place::Next],
    &[Place::Queue, Place::Dropping],
    &[Place::Port, Place::Queue],
    &[Place::Capacity, Place::Held, Place::Next],
    &[Place::Capacity],
    &[Place::Capacity],
];

/// How many bytes wait.
const LENGTHS: &[usize] = &[0, 1, 2, 5, 16, 17, 255, 256, 257, 300];

/// An alteration, and the one that takes it back.
pub struct Change {
    pub there: Operation,
    pub back: Operation,
}

impl Change {
    /// The query that shows a setting.
    pub fn query(&self) -> Option<String> {
        match self.there {
            Operation::Alter { field: Field { place: Place::Entry(entry), .. }, .. } => Some(setting::query(entry)),
            _ => None,
        }
    }
}

/// One to a few alterations.
pub fn changes(generator: &mut Generator, state: &State) -> Vec<Change> {
    let places: Vec<Place> = match generator.below(10) {
        0..=2 => generator.pick(TOGETHER).to_vec(),
        _ => vec![FIELDS[generator.below(FIELDS.len())].place],
    };
    let fields = places.into_iter().map(field::at);
    fields.map(|field| change(field, state, value(generator, &field, state))).collect()
}

/// An alteration of each field, which lead to another allowed state of the same capacity.
pub fn to_another_state(generator: &mut Generator, session: &Session) -> Vec<Operation> {
    let other = states::module(generator, session.module.storage.capacity()).state();
    let from = session.state();
    let differ = FIELDS.iter().filter(|field| field.get(&from) != field.get(&other));
    differ.map(|field| Operation::Alter { field: *field, value: field.get(&other) }).collect()
}

/// The alteration of a field to a value, and back to what the state holds.
fn change(field: Field, state: &State, value: Value) -> Change {
    let back = Operation::Alter { field, value: field.get(state) };
    Change { there: Operation::Alter { field, value }, back }
}

/// A value for a field, about as often one that a state may hold as one that it may not.
fn value(generator: &mut Generator, field: &Field, state: &State) -> Value {
    let (low, high) = field.ends();
    let number = match field.place {
        Place::Phase => {
            return Value::Phase(generator.pick(&[Phase::Reset, Phase::Running, Phase::Paused, Phase::Done]))
        }
        Place::Range => return Value::Range(generator.pick(&Range::ALL)),
        Place::Latest(_) => return Value::Word(point(generator).word),
        Place::Queue => return Value::Bytes(queue(generator)),
        _ if generator.chance(4) => generator.pick(&[low, high]),
        _ if generator.chance(4) => generator.between(low, high),
        Place::Serial => generator.pick(&[0, 1, 42, 99_999, 100_000]),
        Place::Port => generator.pick(&[0, 1, 0, 1, 2, 3]),
        Place::Capacity => {
            let capacity = i64::from(state.capacity);
            generator.pick(&[capacity, capacity - 1, capacity + 1, 1, 16_383, 16_384, 0])
        }
        Place::Entry(entry) => units(generator, entry, state),
        Place::External => match generator.below(2) {
            0 => near::frequency(generator, state.settings.entries[HARM].max(1)),
            _ => settings::external(generator),
        },
        Place::Held | Place::Next => {
            let capacity = i64::from(state.capacity.min(u32::MAX / 2));
            generator.pick(&[0, 1, capacity - 1, capacity, capacity + 1, capacity / 2])
        }
        Place::Events(_) | Place::Enables(_) => match generator.below(2) {
            0 => 1 << generator.below(8),
            _ => generator.between(0, 255),
        },
        Place::Dropping => generator.between(0, 1),
    };
    Value::Number(number.clamp(low, high))
}

/// A value for a setting, often near what the others leave it.
fn units(generator: &mut Generator, entry: usize, state: &State) -> i64 {
    let reference = state.settings.reference();
    match (entry, generator.below(3)) {
        (FREQ, 0) => near::settable(generator, reference.harmonic.max(1)),
        (FREQ, 1) => near::frequency(generator, reference.harmonic.max(1)),
        (HARM, 0) => near::frequency(generator, reference.in_force().max(1)),
        (OFLT, 0) => generator.between(12, 15),
        _ => settings::near(generator, &VALUES[entry]),
    }
}

/// Waiting bytes, now and then with a line's end among them.
fn queue(generator: &mut Generator) -> Vec<u8> {
    let length = generator.pick(LENGTHS);
    let bytes: &[u8] = generator.pick(&[&b"HARM 1;?*\x00\xff"[..], b"HARM? ;", b"HARM 1;?\r\n"]);
    let mut queue: Vec<u8> = (0..length).map(|_| generator.pick(bytes)).collect();
    if length > 0 && generator.chance(30) {
        let at = generator.below(length);
        queue[at] = generator.pick(b"\r\n");
    }
    queue
}

#[cfg(test)]
mod tests {
    use super::*;
    use crate::module::Module;

    #[test]
    fn the_way_back_leads_back_and_another_state_is_reached() {
        let mut generator = Generator::new(11);
        let mut session = Session::of(Module::start(42, 1, [3; 2]).unwrap());
        let mut refused = 0;
        for _ in 0..2_000 {
            let before = session.state();
            let changes = changes(&mut generator, &before);
            changes.iter().for_each(|change| assert_eq!(session.perform(&change.there), "K"));
            refused += usize::from(!session.state().is_allowed());
            changes.iter().rev().for_each(|change| assert_eq!(session.perform(&change.back), "K"));
            assert_eq!(session.state(), before);
        }
        assert!((600..1_600).contains(&refused), "{refused}");
        for _ in 0..100 {
            for operation in to_another_state(&mut generator, &session) {
                session.perform(&operation);
            }
            assert!(session.state().is_allowed());
            assert_eq!(session.perform(&Operation::Tick), "A 0");
        }
    }
}
