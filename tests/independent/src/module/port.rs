//! The two ports: what ends a line on each, and what ends a reply.

/// Where lines come in and replies go out.
#[derive(Clone, Copy, Debug, PartialEq, Eq)]
pub enum Port {
    /// CR or LF ends a line, and CR a reply.
    Rs232,
    /// LF or the end mark ends a line, and LF a reply.
    Gpib,
}

/// What a byte that comes in on a port is.
#[derive(Clone, Copy, Debug, PartialEq, Eq)]
pub enum Role {
    /// It belongs to the line.
    Inside,
    /// It belongs to the line and is its last byte.
    Last,
    /// It ends the line and does not belong to it.
    End,
}

impl Port {
    /// The port that a start names by a number; nothing where it is unknown.
    pub fn from_number(number: u32) -> Option<Port> {
        match number {
            0 => Some(Port::Rs232),
            1 => Some(Port::Gpib),
            _ => None,
        }
    }

    /// The number by which a start names it.
    pub fn number(self) -> u32 {
        match self {
            Port::Rs232 => 0,
            Port::Gpib => 1,
        }
    }

    /// What replies end in.
    pub fn terminator(self) -> u8 {
        match self {
            Port::Rs232 => b'\r',
            Port::Gpib => b'\n',
        }
    }

    /// What a byte is to its line; the end mark counts on GPIB only.
    pub fn role(self, byte: u8, end_mark: bool) -> Role {
        match (self, byte) {
            (_, b'\n') | (Port::Rs232, b'\r') => Role::End,
            (Port::Gpib, _) if end_mark => Role::Last,
            _ => Role::Inside,
        }
    }
}
