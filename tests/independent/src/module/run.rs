//! A run of bytes in one call, with one room for all of its replies.

use super::line::Answer;
use super::port::Role;
use super::Module;
use crate::refusal::Refusal;

/// What a run answers.
#[derive(Clone, Debug, Default, PartialEq, Eq)]
pub struct RunAnswer {
    /// How many bytes were taken.
    pub taken: usize,
    /// The first refusal, its line, from 1 in the run, and its place there; all 0 where there is none.
    pub refusal: Option<Refusal>,
    pub line: usize,
    pub place: usize,
    /// The length of the joined replies.
    pub length: usize,
}

impl RunAnswer {
    /// A run of which no byte is taken.
    pub fn refused(refusal: Refusal) -> RunAnswer {
        RunAnswer { refusal: Some(refusal), ..RunAnswer::default() }
    }

    /// With one more byte of a line that is taken, and its answer.
    fn add(&mut self, line: usize, answer: &Answer) {
        self.taken += 1;
        self.length += answer.length;
        if self.refusal.is_none() && answer.refusal.is_some() {
            self.refusal = answer.refusal;
            self.line = line;
            self.place = answer.place;
        }
    }
}

impl Module {
    /// Takes bytes singly, the last of them with the end mark. Once a line has ended, a byte that would end another one
    /// is taken only if all replies of that line fit behind those before them.
    pub fn run(&mut self, bytes: &[u8], end_mark: bool, room: &mut [u8]) -> RunAnswer {
        let mut run = RunAnswer::default();
        let mut ended = 0;
        for (at, &byte) in bytes.iter().enumerate() {
            let end_mark = end_mark && at + 1 == bytes.len();
            let ends = self.port.role(byte, end_mark) != Role::Inside;
            let left = &mut room[run.length..];
            if ends && ended > 0 && !self.fits(byte, end_mark, left.len()) {
                break;
            }
            let answer = self.byte(byte, end_mark, left.len());
            left[..answer.written.len()].copy_from_slice(&answer.written);
            run.add(ended + 1, &answer);
            ended += usize::from(ends);
        }
        run
    }

    /// Whether all replies of the line that a byte would end fit a room.
    fn fits(&self, byte: u8, end_mark: bool, room: usize) -> bool {
        let mut tried = self.clone();
        tried.byte(byte, end_mark, usize::MAX).written.len() <= room
    }
}

#[cfg(test)]
mod tests;
