//! The module: its state with the two traces, and how it starts.

pub mod bytes;
pub mod events;
pub mod line;
mod perform;
pub mod port;
mod query;
pub mod run;
pub mod state;
pub mod status;
pub mod storage;

use crate::frequency;
use crate::point::Point;
use crate::refusal::Refusal;
use crate::setting::{Settings, OFLT, SEND};
use bytes::Input;
use port::Port;
use status::Registers;
use storage::{Phase, Storage};

/// The largest serial number.
pub const MOST_SERIAL: u32 = 99_999;

/// The largest capacity of a trace.
pub const MOST_CAPACITY: usize = 16_383;

/// A module and the traces lent to it.
#[derive(Clone, Debug, PartialEq, Eq)]
pub struct Module {
    /// The serial number in the reply to *IDN.
    pub serial: u32,
    pub port: Port,
    pub settings: Settings,
    /// How many points are stored, and whether more are.
    pub storage: Storage,
    /// The words of both traces, slot by slot.
    pub traces: [Vec<Point>; 2],
    /// The latest pair: the points that the next trigger or tick stores.
    pub latest: [Point; 2],
    /// The event registers and all enables.
    pub registers: Registers,
    pub input: Input,
}

impl Module {
    /// A fresh module over two traces of these lengths, all words 0.
    pub fn start(serial: u32, port: u32, lengths: [usize; 2]) -> Result<Module, Refusal> {
        let port = Port::from_number(port).ok_or(Refusal::Start)?;
        if serial > MOST_SERIAL {
            return Err(Refusal::Start);
        }
        if lengths[0] != lengths[1] || !(1..=MOST_CAPACITY).contains(&lengths[0]) {
            return Err(Refusal::Traces);
        }
        Ok(Module::fresh(serial, port, lengths[0]))
    }

    /// The module of a refused start.
    pub fn refused() -> Module {
        Module::fresh(0, Port::Gpib, 1)
    }

    /// A module right after its start, all words of its traces 0.
    fn fresh(serial: u32, port: Port, capacity: usize) -> Module {
        let zero = Point { word: 0 };
        Module {
            serial,
            port,
            settings: Settings::start(),
            storage: Storage::empty(capacity),
            traces: [vec![zero; capacity], vec![zero; capacity]],
            latest: [zero; 2],
            registers: Registers::start(),
            input: Input::default(),
        }
    }

    /// Whether storage ends when it is full, SEND 0, and is no loop.
    pub fn is_one_shot(&self) -> bool {
        self.settings.entries[SEND] == 0
    }

    /// The phase of storage.
    pub fn phase(&self) -> Phase {
        self.storage.phase(self.is_one_shot())
    }

    /// Sets the standard event bits of a refusal.
    fn note(&mut self, refusal: Refusal) {
        self.registers.standard.events |= refusal.event_bits();
    }

    /// Takes other settings over, with what their detection frequency makes of the range.
    fn adopt(&mut self, settings: Settings) {
        let detection = settings.reference().detection();
        let settled = frequency::settle(self.settings.range, detection, settings.entries[OFLT]);
        self.settings = settings;
        self.settings.range = settled.range;
        self.settings.entries[OFLT] = settled.time_constant;
        self.registers.lia.events |= settled.lia_bits;
    }
}

#[cfg(test)]
mod tests {
    use super::*;
    use crate::frequency::Range;

    #[test]
    fn starts_are_refused_by_10_before_9() {
        let refusal = |serial, port, lengths| Module::start(serial, port, lengths).err().map(Refusal::number);
        assert_eq!(refusal(99_999, 0, [1, 1]), None);
        assert_eq!(refusal(0, 1, [16_383, 16_383]), None);
        assert_eq!(refusal(100_000, 1, [4, 4]), Some(10));
        assert_eq!(refusal(1, 2, [4, 4]), Some(10));
        assert_eq!(refusal(100_000, 2, [0, 5]), Some(10));
        assert_eq!(refusal(1, 1, [0, 0]), Some(9));
        assert_eq!(refusal(1, 1, [4, 5]), Some(9));
        assert_eq!(refusal(1, 1, [16_384, 16_384]), Some(9));
    }

    #[test]
    fn a_refused_start_gives_serial_0_gpib_and_capacity_1() {
        let module = Module::refused();
        assert_eq!((module.serial, module.port, module.storage.capacity()), (0, Port::Gpib, 1));
        assert_eq!(module.registers.standard.events, 128);
        assert_eq!(module.phase(), Phase::Reset);
        assert_eq!((module.settings.range, module.registers.lia.events), (Range::Upper, 0));
    }
}
