//! Random allowed states, with traces of any words.

use super::generator::Generator;
use super::{courses, near, settings};
use crate::module::bytes::Input;
use crate::module::events::ERR_RAISABLE;
use crate::module::port::Port;
use crate::module::status::{Register, Registers, LIA_BITS, SERVICE_BITS, STANDARD_BITS};
use crate::module::storage::{Phase, Storage};
use crate::module::{Module, MOST_SERIAL};
use crate::ops::Session;
use crate::point::{Point, MOST_EXPONENT};

/// The most bytes that wait in a random queue.
const MOST_WAITING: usize = 256;

/// A module in an allowed state of a capacity: made up at random, or come to by commands and events.
pub fn module(generator: &mut Generator, capacity: usize) -> Module {
    let mut module = made_up(generator, capacity);
    if generator.chance(10) {
        let mut session = Session::of(module);
        for _ in 0..1 + generator.below(3) {
            let line = near::command(generator, &session.module);
            session.module.line(&line, usize::MAX);
            courses::let_events_fall(generator, &mut session, 3);
        }
        module = session.module;
    }
    module
}

/// A module in an allowed state, each part of it random.
fn made_up(generator: &mut Generator, capacity: usize) -> Module {
    let port = generator.below(2) as u32;
    let serial = generator.between(0, MOST_SERIAL.into()) as u32;
    let mut module = Module::start(serial, port, [capacity; 2]).expect("a lawful start");
    module.settings = settings::surely_allowed(generator);
    module.storage = storage(generator, capacity, module.is_one_shot());
    for trace in &mut module.traces {
        trace.fill_with(|| Point { word: generator.bits() as u32 });
    }
    module.latest = [legal_point(generator), legal_point(generator)];
    module.registers = registers(generator);
    module.input = input(generator, module.port);
    module
}

/// Storage in any phase; a loop may have turned.
fn storage(generator: &mut Generator, capacity: usize, is_one_shot: bool) -> Storage {
    let last = if is_one_shot { Phase::Done } else { Phase::Paused };
    let phase = generator.pick(&[Phase::Reset, Phase::Running, Phase::Paused, last]);
    let end = if is_one_shot { capacity } else { 3 * capacity };
    Storage::in_phase(capacity, phase, generator.below(end))
}

/// Any legal point.
fn legal_point(generator: &mut Generator) -> Point {
    Point::new(generator.bits() as i16, generator.between(0, MOST_EXPONENT.into()) as u8)
}

/// Any bits that something sets, and any enables.
fn registers(generator: &mut Generator) -> Registers {
    let mut register = |bits: u8| Register { events: generator.bits() as u8 & bits, enables: generator.bits() as u8 };
    let [standard, lia, err] = [STANDARD_BITS, LIA_BITS, ERR_RAISABLE].map(&mut register);
    Registers { standard, lia, err, service: generator.bits() as u8 & SERVICE_BITS }
}

/// Bytes that wait for their line's end, or are dropped up to it.
fn input(generator: &mut Generator, port: Port) -> Input {
    let length = generator.pick(&[0, 0, 1, 5, MOST_WAITING]);
    let mut queue: Vec<u8> = (0..length).map(|_| generator.pick(b"HARM 1;?*\x00\xff\r")).collect();
    queue.retain(|&byte| byte != b'\r' || port == Port::Gpib);
    Input { dropping: queue.is_empty() && generator.chance(50), queue }
}

#[cfg(test)]
mod tests {
    use super::*;
    use crate::frequency::Range::{self, Lower, Upper};
    use crate::frequency::{BAND_HIGH, BAND_LOW};

    /// Every phase, both references and, inside the band and outside, both ranges come up.
    #[test]
    fn states_are_allowed_and_differ() {
        let mut generator = Generator::new(5);
        let modules: Vec<Module> = (0..2_000).map(|at| module(&mut generator, 1 + at % 5)).collect();
        assert!(modules.iter().all(|module| module.state().is_allowed()));
        for phase in [Phase::Reset, Phase::Running, Phase::Paused, Phase::Done] {
            assert!(modules.iter().filter(|module| module.phase() == phase).count() > 100);
        }
        assert!(modules.iter().filter(|module| !module.settings.reference().is_internal).count() > 300);
        assert!(modules.iter().filter(|module| module.input.dropping).count() > 100);
        for (range, is_inside, least) in
            [(Upper, false, 300), (Upper, true, 50), (Lower, false, 300), (Lower, true, 50)]
        {
            let found = modules.iter().filter(|module| standing(module) == (range, is_inside)).count();
            assert!(found > least, "{range:?} {is_inside}: {found}");
        }
    }

    /// The range, and whether the detection frequency is inside the band.
    fn standing(module: &Module) -> (Range, bool) {
        let detection = module.settings.reference().detection();
        (module.settings.range, (BAND_LOW..=BAND_HIGH).contains(&detection))
    }
}
