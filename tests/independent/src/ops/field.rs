//! The fields of the state, as `dump` writes them and `alter` names and reads them.

use crate::frequency::Range;
use crate::hex;
use crate::module::state::State;
use crate::module::storage::Phase;
use crate::point::Point;
use crate::setting::{FREQ, SETTINGS, VALUES};
use std::fmt;
use std::sync::LazyLock;

/// The words for the phases of storage.
const PHASES: [(&str, Phase); 4] =
    [("reset", Phase::Reset), ("running", Phase::Running), ("paused", Phase::Paused), ("done", Phase::Done)];

/// The words for the ranges.
const RANGES: [(&str, Range); 2] = [("upper", Range::Upper), ("lower", Range::Lower)];

/// How many waiting bytes `dump` writes at most.
const MOST_SHOWN: usize = 256;

/// Where in the state a field lies.
#[derive(Clone, Copy, Debug, PartialEq, Eq, Hash)]
pub enum Place {
    /// The serial number.
    Serial,
    /// The port's number.
    Port,
    /// The length that both traces ought to have.
    Capacity,
    /// The value of a setting, by its entry.
    Entry(usize),
    /// The external frequency.
    External,
    /// The phase of storage.
    Phase,
    /// How many points are held.
    Held,
    /// The slot of the next point.
    Next,
    /// A point of the latest pair, 0 or 1.
    Latest(usize),
    /// The event register that a query of this name reads.
    Events(&'static str),
    /// The enables that a command of this name sets.
    Enables(&'static str),
    /// The bytes waiting for their line's end.
    Queue,
    /// Whether bytes are dropped up to the line's end.
    Dropping,
    /// The frequency range.
    Range,
}

/// A field, or a part of one that is a list.
#[derive(Clone, Copy, Debug, PartialEq, Eq, Hash)]
pub struct Field {
    /// Its name in `dump`.
    name: &'static str,
    /// The place in its list, from 0; nothing where it is no list.
    part: Option<usize>,
    pub place: Place,
}

/// What a field holds.
#[derive(Clone, Debug, PartialEq, Eq)]
pub enum Value {
    /// A number, of a setting in its units.
    Number(i64),
    /// The word of a point.
    Word(u32),
    /// A phase of storage, written as a word.
    Phase(Phase),
    /// Waiting bytes.
    Bytes(Vec<u8>),
    /// A frequency range, written as a word.
    Range(Range),
}

impl fmt::Display for Value {
    fn fmt(&self, f: &mut fmt::Formatter) -> fmt::Result {
        match self {
            Value::Number(number) => write!(f, "{number}"),
            Value::Word(word) => write!(f, "{word:08x}"),
            Value::Phase(phase) => write!(f, "{}", word_of(&PHASES, phase)),
            Value::Bytes(bytes) => write!(f, "{}", hex::field(bytes)),
            Value::Range(range) => write!(f, "{}", word_of(&RANGES, range)),
        }
    }
}

/// The word for one of several.
fn word_of<T: PartialEq>(words: &[(&'static str, T)], of: &T) -> &'static str {
    words.iter().find(|(_, other)| other == of).expect("each has its word").0
}

/// The one of several that a word stands for.
fn worded<T: Copy>(words: &[(&str, T)], text: &str) -> Option<T> {
    words.iter().find(|(word, _)| *word == text).map(|(_, of)| *of)
}

/// Every field in the order of `dump`: the settings' table is in that order too, save that the
/// external frequency comes after the internal one. The range comes after the traces, which are no fields.
pub static FIELDS: LazyLock<Vec<Field>> = LazyLock::new(|| {
    let single = |(name, place)| Field { name, part: None, place };
    let mut fields: Vec<Field> =
        [("serial", Place::Serial), ("port", Place::Port), ("cap", Place::Capacity)].map(single).to_vec();
    let mut entry = 0;
    for setting in &SETTINGS {
        let name: &'static str = setting.name.to_lowercase().leak();
        let count = setting.entries();
        for part in 0..count {
            let part = (count > 1).then_some(part);
            fields.push(Field { name, part, place: Place::Entry(entry) });
            if entry == FREQ {
                fields.push(single(("ext", Place::External)));
            }
            entry += 1;
        }
    }
    fields.extend([("storage", Place::Phase), ("held", Place::Held), ("next", Place::Next)].map(single));
    fields.extend([0, 1].map(|part| Field { name: "pair", part: Some(part), place: Place::Latest(part) }));
    fields.extend(
        [("esr", "*ESR"), ("lia", "LIAS"), ("err", "ERRS")].map(|(name, of)| single((name, Place::Events(of)))),
    );
    let enables = [("ese", "*ESE"), ("sre", "*SRE"), ("liae", "LIAE"), ("erre", "ERRE")];
    fields.extend(enables.map(|(name, of)| single((name, Place::Enables(of)))));
    fields.extend([("queue", Place::Queue), ("dropping", Place::Dropping), ("range", Place::Range)].map(single));
    fields
});

/// The field of a place.
pub fn at(place: Place) -> Field {
    *FIELDS.iter().find(|field| field.place == place).expect("a place of the state")
}

/// The field of an entry.
pub fn entry(entry: usize) -> Field {
    at(Place::Entry(entry))
}

/// The fields that `dump` writes before the traces, and those behind them.
pub fn around_traces() -> (&'static [Field], &'static [Field]) {
    let behind = FIELDS.iter().position(|field| field.place == Place::Range).expect("a place of the state");
    FIELDS.split_at(behind)
}

/// Fields of the state as `name=value`, divided by single spaces.
pub fn text(state: &State, fields: &[Field]) -> String {
    let mut text = String::new();
    for field in fields {
        let value = shown(field.get(state));
        match field.part {
            None | Some(0) => text.push_str(&format!("{}={value}", field.name)),
            Some(_) => {
                text.pop();
                text.push_str(&format!(",{value}"));
            }
        }
        text.push(' ');
    }
    text.pop();
    text
}

/// The value as far as `dump` writes it: of waiting bytes the first 256.
fn shown(value: Value) -> Value {
    match value {
        Value::Bytes(mut bytes) => {
            bytes.truncate(MOST_SHOWN);
            Value::Bytes(bytes)
        }
        other => other,
    }
}

impl fmt::Display for Field {
    fn fmt(&self, f: &mut fmt::Formatter) -> fmt::Result {
        match self.part {
            None => write!(f, "{}", self.name),
            Some(part) => write!(f, "{}.{part}", self.name),
        }
    }
}

impl Field {
    /// The field that is named so.
    pub fn named(name: &str) -> Option<Field> {
        FIELDS.iter().find(|field| field.to_string() == name).copied()
    }

    /// The least and the largest number that it holds. A setting has as many as a word, from the lowest
    /// that its command takes or 0 on.
    pub fn ends(&self) -> (i64, i64) {
        match self.place {
            Place::Port | Place::Events(_) | Place::Enables(_) => (0, u8::MAX.into()),
            Place::Dropping => (0, 1),
            Place::Entry(entry) => {
                let low = VALUES[entry].argument.low.min(0);
                (low, low + i64::from(u32::MAX))
            }
            _ => (0, u32::MAX.into()),
        }
    }

    /// The value that a text stands for.
    pub fn read(&self, text: &str) -> Option<Value> {
        match self.place {
            Place::Latest(_) => super::digits(text, 8).map(Value::Word),
            Place::Phase => worded(&PHASES, text).map(Value::Phase),
            Place::Range => worded(&RANGES, text).map(Value::Range),
            Place::Queue => super::bytes(text).map(Value::Bytes),
            _ => self.read_number(text).map(Value::Number),
        }
    }

    /// The number of a text, where the field holds it; only a setting's may have a minus.
    fn read_number(&self, text: &str) -> Option<i64> {
        let (low, high) = self.ends();
        let magnitude = |digits| super::number(digits, u32::MAX).map(i64::from);
        let number = match text.strip_prefix('-') {
            Some(digits) if matches!(self.place, Place::Entry(_)) => -magnitude(digits)?,
            _ => magnitude(text)?,
        };
        (low <= number && number <= high).then_some(number)
    }

    /// What the field holds in a state.
    pub fn get(&self, state: &State) -> Value {
        let mut registers = state.registers;
        Value::Number(match self.place {
            Place::Serial => state.serial.into(),
            Place::Port => state.port.into(),
            Place::Capacity => state.capacity.into(),
            Place::Entry(entry) => state.settings.entries[entry],
            Place::External => state.settings.external,
            Place::Phase => return Value::Phase(state.phase),
            Place::Held => state.held.into(),
            Place::Next => state.next.into(),
            Place::Latest(part) => return Value::Word(state.latest[part].word),
            Place::Events(name) => (*registers.events(name)).into(),
            Place::Enables(name) => (*registers.enables(name)).into(),
            Place::Queue => return Value::Bytes(state.input.queue.clone()),
            Place::Dropping => state.input.dropping.into(),
            Place::Range => return Value::Range(state.settings.range),
        })
    }

    /// Puts a value into the field of a state.
    pub fn set(&self, state: &mut State, value: &Value) {
        match (self.place, value) {
            (Place::Phase, Value::Phase(phase)) => state.phase = *phase,
            (Place::Latest(part), Value::Word(word)) => state.latest[part] = Point { word: *word },
            (Place::Queue, Value::Bytes(bytes)) => state.input.queue.clone_from(bytes),
            (Place::Range, Value::Range(range)) => state.settings.range = *range,
            (_, Value::Number(number)) => self.set_number(state, *number),
            _ => unreachable!("{self} holds no {value:?}"),
        }
    }

    /// Puts a number into the field of a state.
    fn set_number(&self, state: &mut State, number: i64) {
        match self.place {
            Place::Serial => state.serial = number as u32,
            Place::Port => state.port = number as u8,
            Place::Capacity => state.capacity = number as u32,
            Place::Entry(entry) => state.settings.entries[entry] = number,
            Place::External => state.settings.external = number,
            Place::Held => state.held = number as u32,
            Place::Next => state.next = number as u32,
            Place::Events(name) => *state.registers.events(name) = number as u8,
            Place::Enables(name) => *state.registers.enables(name) = number as u8,
            Place::Dropping => state.input.dropping = number == 1,
            place => unreachable!("{place:?} is no number"),
        }
    }
}

#[cfg(test)]
mod tests {
    use super::*;
    use crate::module::Module;
    use crate::setting::ENTRIES;

    #[test]
    fn fields_stand_once_each_and_are_found_by_name() {
        assert_eq!(FIELDS.len(), ENTRIES + 19);
        for field in FIELDS.iter() {
            assert_eq!(Field::named(&field.to_string()), Some(*field));
        }
        for name in [
            "ddef", "ddef.4", "ddef.00", "ddef.-1", "pair", "pair.2", "phas.0", "PHAS", "t1", "t2", "", "queue.0",
            "fpop.", "Range", "range.0",
        ] {
            assert_eq!(Field::named(name), None, "{name}");
        }
    }

    #[test]
    fn a_value_that_is_set_is_got() {
        let mut state = Module::refused().state();
        for (name, text) in [
            ("serial", "4294967295"),
            ("port", "255"),
            ("cap", "0"),
            ("phas", "-36000"),
            ("phas", "4294931295"),
            ("freq", "4294967295"),
            ("ext", "0"),
            ("oexp.4", "-10500"),
            ("oexp.5", "4294967295"),
            ("auxv.3", "4294956795"),
            ("storage", "done"),
            ("held", "4294967295"),
            ("next", "17"),
            ("pair.1", "ffffffff"),
            ("esr", "255"),
            ("sre", "64"),
            ("queue", "0a0d"),
            ("queue", "-"),
            ("dropping", "1"),
            ("range", "lower"),
            ("range", "upper"),
        ] {
            let field = Field::named(name).unwrap();
            let value = field.read(text).unwrap();
            field.set(&mut state, &value);
            assert_eq!(field.get(&state), value);
            assert_eq!(value.to_string(), text);
        }
        let queue = Field::named("queue").unwrap();
        queue.set(&mut state, &Value::Bytes(vec![65; 300]));
        assert!(text(&state, &FIELDS).contains(&format!("queue={} ", "41".repeat(256))));
    }

    #[test]
    fn values_that_a_field_does_not_hold() {
        for (name, text) in [
            ("serial", "4294967296"),
            ("serial", "-0"),
            ("port", "256"),
            ("phas", "-36001"),
            ("phas", "4294931296"),
            ("phas", "--1"),
            ("phas", "-"),
            ("phas", "+1"),
            ("fmod", "-1"),
            ("fmod", "4294967296"),
            ("oexp.0", "-10501"),
            ("oexp.1", "-1"),
            ("auxv.0", "4294956796"),
            ("storage", "0"),
            ("storage", "Reset"),
            ("storage", ""),
            ("pair.0", "0"),
            ("pair.0", "0000000G"),
            ("erre", "256"),
            ("queue", ""),
            ("queue", "4"),
            ("dropping", "2"),
            ("dropping", "true"),
            ("range", "0"),
            ("range", ""),
            ("range", "Upper"),
            ("range", "middle"),
        ] {
            assert_eq!(Field::named(name).unwrap().read(text), None, "{name} {text}");
        }
        assert_eq!(Field::named("fmod").unwrap().read("-0"), Some(Value::Number(0)));
    }
}
