//! The state as a caller hands it over: any numbers, those that refusal 11 tests among them.

use super::bytes::Input;
use super::events::ERR_RAISABLE;
use super::port::{Port, Role};
use super::status::{Registers, LIA_BITS, SERVICE_BITS, STANDARD_BITS};
use super::storage::{Phase, Storage};
use super::{Module, MOST_CAPACITY, MOST_SERIAL};
use crate::command::MOST_LINE_BYTES;
use crate::point::Point;
use crate::setting::{Settings, SEND};

/// All that a module keeps between calls but for its traces.
#[derive(Clone, Debug, PartialEq, Eq)]
pub struct State {
    pub serial: u32,
    /// The port's number, known or not.
    pub port: u8,
    /// The length that both traces ought to have.
    pub capacity: u32,
    pub settings: Settings,
    pub phase: Phase,
    /// How many points are held.
    pub held: u32,
    /// The slot of the next point.
    pub next: u32,
    /// The points that the next trigger or tick stores.
    pub latest: [Point; 2],
    pub registers: Registers,
    pub input: Input,
}

impl State {
    /// Whether the state is inside the ranges, steps and limits; else it is refused by 11.
    pub fn is_allowed(&self) -> bool {
        let Some(port) = self.known_port() else { return false };
        self.serial <= MOST_SERIAL
            && (1..=MOST_CAPACITY).contains(&(self.capacity as usize))
            && self.settings.are_allowed()
            && self.is_storage_allowed()
            && self.latest.iter().all(|point| point.is_legal())
            && self.are_registers_allowed()
            && self.is_input_allowed(port)
    }

    /// The port of the state's number; nothing where it is unknown.
    fn known_port(&self) -> Option<Port> {
        Port::from_number(self.port.into())
    }

    /// Points fill the slots from 0 on; full in one shot is done and nothing else is; reset holds none.
    fn is_storage_allowed(&self) -> bool {
        let is_full = self.held == self.capacity;
        let is_done = is_full && self.settings.entries[SEND] == 0;
        let next_allowed = match (is_full, is_done) {
            (false, _) => self.next == self.held,
            (true, false) => self.next < self.capacity,
            (true, true) => self.next == 0,
        };
        self.held <= self.capacity
            && next_allowed
            && (self.phase == Phase::Done) == is_done
            && (self.phase != Phase::Reset || self.held == 0)
    }

    /// No bit is set that nothing sets.
    fn are_registers_allowed(&self) -> bool {
        let Registers { standard, lia, err, service } = self.registers;
        standard.events & !STANDARD_BITS == 0
            && lia.events & !LIA_BITS == 0
            && err.events & !ERR_RAISABLE == 0
            && service & !SERVICE_BITS == 0
    }

    /// At most a line waits, without its end; none while bytes are dropped.
    fn is_input_allowed(&self, port: Port) -> bool {
        let Input { queue, dropping } = &self.input;
        queue.len() <= MOST_LINE_BYTES
            && queue.iter().all(|&byte| port.role(byte, false) != Role::End)
            && (!*dropping || queue.is_empty())
    }
}

impl Module {
    /// The state that the module is in.
    pub fn state(&self) -> State {
        State {
            serial: self.serial,
            port: self.port.number() as u8,
            capacity: self.storage.capacity() as u32,
            settings: self.settings.clone(),
            phase: self.phase(),
            held: self.storage.held() as u32,
            next: self.storage.next() as u32,
            latest: self.latest,
            registers: self.registers,
            input: self.input.clone(),
        }
    }

    /// The module of an allowed state over two traces of its capacity.
    pub fn of(state: State, traces: [Vec<Point>; 2]) -> Module {
        let capacity = state.capacity as usize;
        let points = if state.held < state.capacity { state.held } else { state.capacity + state.next };
        Module {
            serial: state.serial,
            port: state.known_port().expect("an allowed state"),
            settings: state.settings,
            storage: Storage::in_phase(capacity, state.phase, points as usize),
            traces,
            latest: state.latest,
            registers: state.registers,
            input: state.input,
        }
    }
}

#[cfg(test)]
mod tests {
    use super::*;

    #[test]
    fn a_state_gives_its_module_back() {
        for (phase, points, is_one_shot) in [
            (Phase::Reset, 0, false),
            (Phase::Running, 0, true),
            (Phase::Running, 3, false),
            (Phase::Paused, 2, true),
            (Phase::Running, 4, false),
            (Phase::Paused, 5, false),
            (Phase::Running, 7, false),
            (Phase::Done, 4, true),
        ] {
            let mut module = Module::start(7, 0, [4; 2]).unwrap();
            module.settings.entries[SEND] = i64::from(!is_one_shot);
            module.storage = Storage::in_phase(4, phase, points);
            let state = module.state();
            assert!(state.is_allowed(), "{phase:?} {points}");
            assert_eq!(Module::of(state, module.traces.clone()), module, "{phase:?} {points}");
        }
    }
}
