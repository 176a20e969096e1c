//! A line handed over whole: its commands in turn, its reply and its answer.

use super::Module;
use crate::command::{self, Command, Reading, MOST_LINE_BYTES};
use crate::refusal::Refusal;

/// What a line answers.
#[derive(Clone, Debug, Default, PartialEq, Eq)]
pub struct Answer {
    /// The first refusal and its place, from 1; place 0 where there is none, and for a line too long.
    pub refusal: Option<Refusal>,
    pub place: usize,
    /// The length reported.
    pub length: usize,
    /// All bytes written, also where the length reported is 0.
    pub written: Vec<u8>,
}

impl Answer {
    /// The answer where nothing of a line or byte is obeyed: a refusal at place 0.
    pub fn refused(refusal: Refusal) -> Answer {
        Answer { refusal: Some(refusal), ..Answer::default() }
    }

    /// Keeps a refusal with its place, unless an earlier one is kept.
    fn keep_first(&mut self, refusal: Refusal, place: usize) {
        if self.refusal.is_none() {
            self.refusal = Some(refusal);
            self.place = place;
        }
    }
}

impl Module {
    /// Obeys the commands of a line in turn, with this room for their replies.
    pub fn line(&mut self, line: &[u8], room: usize) -> Answer {
        if line.len() > MOST_LINE_BYTES {
            self.note(Refusal::Length);
            return Answer::refused(Refusal::Length);
        }
        let mut answer = Answer::default();
        for (before, reading) in command::read_line(line).into_iter().enumerate() {
            let outcome = match reading {
                Reading::Empty => Ok(()),
                Reading::Refused(refusal) => Err(refusal),
                Reading::Command(command) => self.obey(&command, room, &mut answer.written),
            };
            let Err(refusal) = outcome else { continue };
            self.note(refusal);
            answer.keep_first(refusal, before + 1);
            if refusal == Refusal::Room {
                return answer;
            }
        }
        answer.length = answer.written.len();
        answer
    }

    /// One command, whose reply goes behind what is written.
    fn obey(&mut self, command: &Command, room: usize, written: &mut Vec<u8>) -> Result<(), Refusal> {
        if !command.is_query {
            return self.carry_out(command);
        }
        let reply = self.reply(command, !written.is_empty())?;
        if reply.len() > room - written.len() {
            return Err(Refusal::Room);
        }
        written.extend(reply);
        self.after_reply(command);
        Ok(())
    }
}
