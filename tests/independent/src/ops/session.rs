//! A session of the ops protocol: one module, and the answer to each operation.

use super::compare::lines;
use super::Operation;
use crate::hex;
use crate::module::line::Answer;
use crate::module::run::RunAnswer;
use crate::module::state::State;
use crate::module::Module;
use crate::point::Point;
use crate::refusal::Refusal;
use crate::script;

/// What stands in a reply buffer before the call.
const UNTOUCHED: u8 = 0xaa;

/// The answer to what is no operation, and to a change that is no call.
pub const NO_OPERATION: &str = "?";
const DONE: &str = "K";

/// One module under operations.
pub struct Session {
    /// The module that the last call left, with its traces.
    pub module: Module,
    /// The state that the caller hands over instead.
    altered: Option<State>,
}

impl Default for Session {
    /// Before the first start: the module of a refused start.
    fn default() -> Session {
        Session::of(Module::refused())
    }
}

impl Session {
    /// A session before its first start.
    pub fn new() -> Session {
        Session::default()
    }

    /// A session of a module that has come to where it is.
    pub fn of(module: Module) -> Session {
        Session { module, altered: None }
    }

    /// The answer to a line; nothing for an empty one.
    pub fn answer(&mut self, text: &[u8]) -> Option<String> {
        if text.is_empty() {
            return None;
        }
        Some(match Operation::read(text) {
            Some(operation) => self.perform(&operation),
            None => NO_OPERATION.to_string(),
        })
    }

    /// The answers to a stream of operations, a line each.
    pub fn answers(&mut self, stream: &[u8]) -> String {
        let answers = lines(stream).into_iter().filter_map(|text| self.answer(text));
        answers.map(|answer| answer + "\n").collect()
    }

    /// The state that the next call is given.
    pub fn state(&self) -> State {
        self.altered.clone().unwrap_or_else(|| self.module.state())
    }

    /// The module that a call is given, unless 11 or 9 refuses it.
    fn admitted(&mut self) -> Result<&mut Module, Refusal> {
        let state = self.state();
        if !state.is_allowed() {
            return Err(Refusal::Module);
        }
        if self.module.traces.iter().any(|trace| trace.len() != state.capacity as usize) {
            return Err(Refusal::Traces);
        }
        if self.altered.take().is_some() {
            let traces = std::mem::take(&mut self.module.traces);
            self.module = Module::of(state, traces);
        }
        Ok(&mut self.module)
    }

    /// A line or a byte.
    fn line_call(&mut self, room: usize, call: impl FnOnce(&mut Module) -> Answer) -> String {
        let answer = self.admitted().map(call).unwrap_or_else(Answer::refused);
        line_text(&answer, room)
    }

    /// A run of bytes.
    fn run_call(&mut self, bytes: &[u8], end_mark: bool, room: usize) -> String {
        let mut buffer = vec![UNTOUCHED; room];
        let answer = self.admitted().map(|module| module.run(bytes, end_mark, &mut buffer));
        run_text(&answer.unwrap_or_else(RunAnswer::refused), &buffer)
    }

    /// An event that may be refused by 6.
    fn event(&mut self, call: impl FnOnce(&mut Module) -> Result<(), Refusal>) -> String {
        let outcome = self.admitted().and_then(call);
        format!("A {}", number(outcome.err()))
    }

    /// An event that always has its answer 0.
    fn sure_event(&mut self, call: impl FnOnce(&mut Module)) -> String {
        self.event(|module| {
            call(module);
            Ok(())
        })
    }

    /// A serial poll is lent no traces.
    fn poll(&self) -> String {
        let state = self.state();
        match state.is_allowed() {
            true => format!("S 0 {}", state.registers.status_between_lines(state.phase)),
            false => format!("S {} 0", Refusal::Module.number()),
        }
    }

    /// Another module in place of this one: the one asked for, or that of a refused start.
    fn start(&mut self, serial: u32, port: u32, lengths: [usize; 2]) -> String {
        let started = Module::start(serial, port, lengths);
        let refusal = started.as_ref().err().copied();
        *self = Session::of(started.unwrap_or_else(|_| Module::refused()));
        format!("R {}", number(refusal))
    }

    /// Does what an operation asks for; the answer to it.
    pub fn perform(&mut self, operation: &Operation) -> String {
        match operation {
            Operation::Start { serial, port, lengths } => self.start(*serial, *port, *lengths),
            Operation::Line { line, room } => self.line_call(*room, |module| module.line(line, *room)),
            Operation::Byte { byte, end_mark, room } => {
                self.line_call(*room, |module| module.byte(*byte, *end_mark, *room))
            }
            Operation::Run { bytes, end_mark, room } => self.run_call(bytes, *end_mark, *room),
            Operation::Pair(words) => self.event(|module| module.pair(words.map(|word| Point { word }))),
            Operation::Tick => self.sure_event(Module::tick_event),
            Operation::Trigger => self.sure_event(Module::trigger_event),
            Operation::Measured(frequency) => self.sure_event(|module| module.measured(*frequency)),
            Operation::Raise { lia, err } => self.event(|module| module.raise(*lia, *err)),
            Operation::Poke { trace, slot, word } => {
                self.module.poke(*trace, *slot, Point { word: *word });
                DONE.to_string()
            }
            Operation::Alter { field, value } => {
                let mut state = self.state();
                field.set(&mut state, value);
                self.altered = Some(state);
                DONE.to_string()
            }
            Operation::Dump => super::dump::dump(&self.state(), &self.module.traces),
            Operation::Poll => self.poll(),
            Operation::Check { capacity, script } => script::text(&script::check(*capacity, script)),
        }
    }
}

/// The number of a refusal; 0 for none.
fn number(refusal: Option<Refusal>) -> usize {
    refusal.map_or(0, Refusal::number)
}

/// The answer of a line with the whole reply buffer.
fn line_text(answer: &Answer, room: usize) -> String {
    let mut buffer = answer.written.clone();
    buffer.resize(room, UNTOUCHED);
    format!("A {} {} {} {}", number(answer.refusal), answer.place, answer.length, hex::field(&buffer))
}

/// The answer of a run with the whole reply buffer.
fn run_text(answer: &RunAnswer, buffer: &[u8]) -> String {
    let RunAnswer { taken, refusal, line, place, length } = answer;
    format!("B {taken} {} {line} {place} {length} {}", number(*refusal), hex::field(buffer))
}

#[cfg(test)]
mod tests;
