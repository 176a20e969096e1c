//! Status: the event registers with their enables, service request enables, and the status byte.

use crate::module::storage::Phase;

/// Standard event bit 7, the only one set at start.
const PON: u8 = 1 << 7;

/// LIA bits that the module itself sets, besides those of the range.
pub const LIA_NOT_TAKEN: u8 = 1 << 3;
pub const LIA_TRIGGERED: u8 = 1 << 6;

/// The bits of the standard and LIA registers that something sets, and those of *SRE.
pub const STANDARD_BITS: u8 = 0b1111_0101;
pub const LIA_BITS: u8 = 0b0111_1111;
pub const SERVICE_BITS: u8 = !SERVICE_REQUEST;

/// Bits of the status byte.
const STORAGE_IDLE: u8 = 1 << 0;
const NO_COMMAND: u8 = 1 << 1;
const ERR_EVENT: u8 = 1 << 2;
const LIA_EVENT: u8 = 1 << 3;
const REPLY_WAITING: u8 = 1 << 4;
const STANDARD_EVENT: u8 = 1 << 5;
const SERVICE_REQUEST: u8 = 1 << 6;

/// Bits that were set, and the mask of those that count in the status byte.
#[derive(Clone, Copy, Debug, Default, PartialEq, Eq)]
pub struct Register {
    pub events: u8,
    pub enables: u8,
}

impl Register {
    /// Whether some enabled bit is set.
    fn is_raised(self) -> bool {
        self.events & self.enables != 0
    }
}

/// The three event registers, and the enables for a service request.
#[derive(Clone, Copy, Debug, PartialEq, Eq)]
pub struct Registers {
    /// Read by *ESR, enabled by *ESE.
    pub standard: Register,
    /// Read by LIAS, enabled by LIAE.
    pub lia: Register,
    /// Read by ERRS, enabled by ERRE.
    pub err: Register,
    /// The bits of the status byte that request service, set by *SRE.
    pub service: u8,
}

impl Registers {
    /// Those of a start: PON is set and nothing else.
    pub fn start() -> Registers {
        let standard = Register { events: PON, enables: 0 };
        Registers { standard, lia: Register::default(), err: Register::default(), service: 0 }
    }

    /// The event register that a query reads.
    pub fn events(&mut self, name: &str) -> &mut u8 {
        match name {
            "*ESR" => &mut self.standard.events,
            "LIAS" => &mut self.lia.events,
            "ERRS" => &mut self.err.events,
            _ => unreachable!("{name} reads no event register"),
        }
    }

    /// The enables that a command sets.
    pub fn enables(&mut self, name: &str) -> &mut u8 {
        match name {
            "*ESE" => &mut self.standard.enables,
            "LIAE" => &mut self.lia.enables,
            "ERRE" => &mut self.err.enables,
            "*SRE" => &mut self.service,
            _ => unreachable!("{name} has no enables"),
        }
    }

    /// Sets the enables of a command to a value; service request enable 6 stays 0.
    pub fn enable(&mut self, name: &str, value: u8) {
        *self.enables(name) = if name == "*SRE" { value & SERVICE_BITS } else { value };
    }

    /// Clears the three event registers; the enables stay.
    pub fn clear_events(&mut self) {
        for register in [&mut self.standard, &mut self.lia, &mut self.err] {
            register.events = 0;
        }
    }

    /// The status byte within a reply.
    pub fn status_byte(&self, phase: Phase, reply_waiting: bool) -> u8 {
        self.byte_of(phase, false, reply_waiting)
    }

    /// The status byte between lines: no command is running and no reply is waiting.
    pub fn status_between_lines(&self, phase: Phase) -> u8 {
        self.byte_of(phase, true, false)
    }

    /// The status byte, where no command runs or one does, and a reply is waiting or not.
    fn byte_of(&self, phase: Phase, no_command: bool, reply_waiting: bool) -> u8 {
        let bits = [
            (matches!(phase, Phase::Reset | Phase::Done), STORAGE_IDLE),
            (no_command, NO_COMMAND),
            (self.err.is_raised(), ERR_EVENT),
            (self.lia.is_raised(), LIA_EVENT),
            (reply_waiting, REPLY_WAITING),
            (self.standard.is_raised(), STANDARD_EVENT),
        ];
        let byte = bits.into_iter().filter(|(is_set, _)| *is_set).fold(0, |byte, (_, bit)| byte | bit);
        if byte & self.service != 0 {
            byte | SERVICE_REQUEST
        } else {
            byte
        }
    }
}
