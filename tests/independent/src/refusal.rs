//! Refusals, their numbers and the standard event bits that they set.

/// Standard event bits.
pub const INP: u8 = 1 << 0;
pub const QRY: u8 = 1 << 2;
pub const EXE: u8 = 1 << 4;
pub const CMD: u8 = 1 << 5;

/// Why something is refused, numbered from 1 in this order.
#[derive(Clone, Copy, Debug, PartialEq, Eq)]
pub enum Refusal {
    /// 1: a name that is no command, a wrong form, count or number text, "?" missing or unwanted.
    Form,
    /// 2: a value out of range or not whole.
    Value,
    /// 3: not allowed in this state.
    State,
    /// 4: the reply exceeds the room left.
    Room,
    /// 5: a line over 256 bytes.
    Length,
    /// 6: an event value that is not legal.
    Event,
    /// 7: a script that does not begin with *RST.
    NoReset,
    /// 8: a script line over 256 bytes.
    ScriptLine,
    /// 9: traces unequal, empty, too long, or not of the state's capacity.
    Traces,
    /// 10: at start, a serial over 99999 or an unknown port.
    Start,
    /// 11: a state that is not allowed.
    Module,
}

#[cfg(test)]
const ALL: [Refusal; 11] = [
    Refusal::Form,
    Refusal::Value,
    Refusal::State,
    Refusal::Room,
    Refusal::Length,
    Refusal::Event,
    Refusal::NoReset,
    Refusal::ScriptLine,
    Refusal::Traces,
    Refusal::Start,
    Refusal::Module,
];

impl Refusal {
    /// The refusal of a number from 1 to 11; nothing for another.
    #[cfg(test)]
    pub fn from_number(number: usize) -> Option<Refusal> {
        ALL.get(number.checked_sub(1)?).copied()
    }

    /// Its number, from 1 to 11.
    pub fn number(self) -> usize {
        self as usize + 1
    }

    /// The standard event bits set.
    pub fn event_bits(self) -> u8 {
        match self {
            Refusal::Form => CMD,
            Refusal::Value | Refusal::State => EXE,
            Refusal::Room => QRY,
            Refusal::Length => INP,
            Refusal::Event
            | Refusal::NoReset
            | Refusal::ScriptLine
            | Refusal::Traces
            | Refusal::Start
            | Refusal::Module => 0,
        }
    }
}

#[cfg(test)]
mod tests {
    use super::*;

    /// Each refusal has its number and its standard event bits.
    #[test]
    fn numbers_and_bits() {
        let bits: Vec<u8> = (1..=11)
            .map(|number| {
                let refusal = Refusal::from_number(number).unwrap();
                assert_eq!(refusal.number(), number);
                refusal.event_bits()
            })
            .collect();
        assert_eq!(bits, [32, 16, 16, 4, 1, 0, 0, 0, 0, 0, 0]);
        assert_eq!(Refusal::from_number(0), None);
        assert_eq!(Refusal::from_number(12), None);
    }
}
