//! The state altered field by field, to values just inside and just outside what a state may hold, from
//! several states; and after each alteration every call.

use super::{alter, line, ranged, start};
use crate::frequency::{beside_band, Range, BAND_HIGH, BAND_LOW, HERTZ, LEAST, LIMIT};
use crate::module::storage::Phase;
use crate::ops::field::{self, Field, Place, Value, FIELDS};
use crate::ops::Operation;
use crate::setting::{query, FMOD, FREQ, HARM, OFLT, SEND, VALUES};

/// The capacity of the traces.
const CAPACITY: usize = 4;

/// The entry of SLVL, whose step is 2.
const SLVL: usize = 5;

/// All operations: each field in turn, from each state.
pub fn operations() -> Vec<Operation> {
    let mut operations = Vec::new();
    for field in FIELDS.iter() {
        for value in edges(field) {
            for state in states() {
                operations.push(start(CAPACITY));
                operations.extend(state);
                operations.push(Operation::Alter { field: *field, value: value.clone() });
                operations.extend(calls(field));
            }
        }
    }
    operations.extend(no_capacity());
    operations
}

/// Storage that holds none, is full and done in one shot: only the capacity's own range refuses it.
fn no_capacity() -> Vec<Operation> {
    let [one_shot, done] =
        [alter(Place::Entry(SEND), Value::Number(0)), alter(Place::Phase, Value::Phase(Phase::Done))];
    let none = alter(Place::Capacity, Value::Number(0));
    [vec![start(CAPACITY), one_shot, done, none], calls(&field::at(Place::Capacity))].concat()
}

/// Every call, the polls and lines that show the field among them, and the state after them.
fn calls(field: &Field) -> Vec<Operation> {
    let shows = match field.place {
        Place::Entry(entry) => query(entry),
        _ => "*IDN?;SPTS?;*STB?;*ESE?;*SRE?;LIAE?;ERRE?;*ESR?;LIAS?;ERRS?;FREQ?".to_string(),
    };
    vec![
        Operation::Poll,
        line(&shows),
        Operation::Byte { byte: b'A', end_mark: false, room: 4 },
        Operation::Pair([0x007c_0001, 0x007b_fffd]),
        Operation::Tick,
        Operation::Trigger,
        Operation::Measured((100 * HERTZ) as u32),
        Operation::Raise { lia: 1, err: 2 },
        Operation::Byte { byte: b'\n', end_mark: false, room: 4 },
        Operation::Run { bytes: b"HARM?\nFREQ?\nSPTS?".to_vec(), end_mark: true, room: 8 },
        Operation::Dump,
        Operation::Poll,
    ]
}

/// A fresh state, and others near the rules that several fields decide together.
fn states() -> Vec<Vec<Operation>> {
    let number = |place, number| alter(place, Value::Number(number));
    let setting = |entry, number| alter(Place::Entry(entry), Value::Number(number));
    let stored = |phase, held, next| {
        vec![alter(Place::Phase, Value::Phase(phase)), number(Place::Held, held), number(Place::Next, next)]
    };
    vec![
        Vec::new(),
        vec![alter(Place::Queue, Value::Bytes(b"HARM\r".to_vec()))],
        stored(Phase::Running, 2, 2),
        stored(Phase::Paused, 4, 1),
        [vec![setting(SEND, 0)], stored(Phase::Done, 4, 0)].concat(),
        vec![setting(FMOD, 0), number(Place::External, LIMIT / 2), setting(HARM, 2)],
        vec![setting(FREQ, 100 * HERTZ), setting(HARM, 2), setting(OFLT, 14), ranged(Range::Lower)],
        vec![setting(FREQ, BAND_LOW)],
        vec![setting(FMOD, 0), number(Place::External, LEAST), ranged(Range::Lower)],
    ]
}

/// Values just inside and just outside what a state may hold, and the ends of what the field holds.
fn edges(field: &Field) -> Vec<Value> {
    let (low, high) = field.ends();
    let mut numbers = match field.place {
        Place::Phase => {
            return [Phase::Reset, Phase::Running, Phase::Paused, Phase::Done].map(Value::Phase).to_vec();
        }
        Place::Latest(_) => {
            let words = [0, 0x007c_0001, 0x00ec_8000, 0x00ed_0000, 0x00ff_ffff, 0x0100_0000, u32::MAX];
            return words.map(Value::Word).to_vec();
        }
        Place::Queue => return queues().into_iter().map(Value::Bytes).collect(),
        Place::Range => return Range::ALL.map(Value::Range).to_vec(),
        Place::Serial => vec![1, 42, 99_999, 100_000],
        Place::Port => vec![1, 2, 3, 128],
        Place::Capacity => vec![1, 3, 4, 5, 16_383, 16_384, 65_540],
        Place::Entry(entry) => entry_edges(entry),
        Place::External => {
            let ends = [LEAST - 1, LEAST, LIMIT / 2, LIMIT / 2 + 1, LIMIT, LIMIT + 1];
            [&ends[..], &beside_band(1), &beside_band(2)].concat()
        }
        Place::Held | Place::Next => vec![1, 2, 3, 4, 5, 65_536],
        Place::Events(_) | Place::Enables(_) => (0..8).map(|bit| 1 << bit).collect(),
        Place::Dropping => Vec::new(),
    };
    numbers.extend([low, high]);
    numbers.into_iter().filter(|number| (low..=high).contains(number)).map(Value::Number).collect()
}

/// Values of a setting at and beside its ends, and at what several settings decide together.
fn entry_edges(entry: usize) -> Vec<i64> {
    let value = &VALUES[entry];
    let (low, high) = (value.kept_low, value.kept_high);
    let mut numbers = vec![low - 1, low, low + 1, high - 1, high, high + 1, value.start];
    numbers.extend(match entry {
        FREQ => {
            let steps = [99_999, 100_001, 100_010, 999_995, 1_000_100, 12_345_678, LIMIT / 2];
            let band = [BAND_LOW - 100, BAND_LOW, BAND_HIGH, BAND_HIGH + 100, BAND_HIGH / 2, BAND_HIGH / 2 + 100];
            [&steps[..], &band].concat()
        }
        HARM => vec![2, 3, 102, 103, 204, 205],
        OFLT => vec![13, 14],
        SLVL => vec![999, 1_001, 1_002],
        _ => Vec::new(),
    });
    numbers
}

/// Waiting bytes: none, a line's end of either port at several places, and about as many as may wait.
fn queues() -> Vec<Vec<u8>> {
    let mut queues = vec![Vec::new(), b"A".to_vec(), b"\n".to_vec(), b"\r".to_vec(), b"HARM 5;\xff\0".to_vec()];
    for length in [15, 16, 17, 255, 256, 257, 300] {
        queues.push(vec![b'A'; length]);
        for at in [0, 14, 15, 16, 240, 254, 255, 256] {
            for end in [b'\n', b'\r'] {
                let mut bytes = vec![b' '; length];
                bytes.get_mut(at).into_iter().for_each(|byte| *byte = end);
                queues.push(bytes);
            }
        }
    }
    queues.sort();
    queues.dedup();
    queues
}

#[cfg(test)]
mod tests {
    use super::*;
    use crate::ops::met::{met, CALLS};
    use crate::ops::Session;

    /// Every call meets 11 by every field, but for the enables that hold any byte.
    #[test]
    fn every_call_meets_11_by_each_field() {
        let operations = operations();
        let mut session = Session::new();
        let answers: Vec<String> = operations.iter().map(|operation| session.perform(operation)).collect();
        let texts: Vec<String> = operations.iter().map(Operation::to_string).collect();
        let texts: Vec<&[u8]> = texts.iter().map(String::as_bytes).collect();
        let answers: Vec<&[u8]> = answers.iter().map(String::as_bytes).collect();
        let met = met(&texts, &answers);
        for field in FIELDS.iter() {
            let any_byte = matches!(field.place, Place::Enables("*ESE" | "LIAE" | "ERRE"));
            for call in CALLS {
                let times = met.get(&(call, field.to_string())).copied().unwrap_or(0);
                assert_eq!(times == 0, any_byte, "{call} {field}: {times}");
            }
        }
    }
}
