//! Bytes that come in one by one: the queue, the line's end, and lines that are too long.

use super::line::Answer;
use super::port::Role;
use super::Module;
use crate::command::MOST_LINE_BYTES;
use crate::refusal::Refusal;

/// What has come in of a line that has not ended.
#[derive(Clone, Debug, Default, PartialEq, Eq)]
pub struct Input {
    /// The bytes waiting for their line's end.
    pub queue: Vec<u8>,
    /// Whether bytes are dropped up to the line's end.
    pub dropping: bool,
}

impl Module {
    /// Takes one byte; where it ends a line, obeys that with this room for the replies.
    pub fn byte(&mut self, byte: u8, end_mark: bool, room: usize) -> Answer {
        let role = self.port.role(byte, end_mark);
        if self.input.dropping {
            self.input.dropping = role == Role::Inside;
            return Answer::default();
        }
        if role != Role::End {
            if self.input.queue.len() == MOST_LINE_BYTES {
                self.input.queue.clear();
                self.input.dropping = role == Role::Inside;
                self.note(Refusal::Length);
                return Answer::refused(Refusal::Length);
            }
            self.input.queue.push(byte);
        }
        if role == Role::Inside {
            return Answer::default();
        }
        let line = std::mem::take(&mut self.input.queue);
        self.line(&line, room)
    }
}
