//! Random runs of bytes: several lines each, in rooms that are often too small for all of their replies.

use super::generator::Generator;
use super::{lines, operations};
use crate::command::MOST_LINE_BYTES;
use crate::module::port::{Port, Role};
use crate::module::Module;
use crate::ops::{Operation, MOST_ROOM};

/// Lines that reply, store points, read status or are refused.
const LINES: &[&str] = &[
    "FREQ?",
    "PHAS?",
    "*IDN?",
    "SPTS?",
    "*STB?",
    "*STB?;FREQ?;*STB?",
    "*ESR?",
    "*ESR?;*ESR? 2",
    "*CLS;LIAS?",
    "PHAS 5;PHAS?",
    "HARM 2;FREQ 100;HARM?",
    "SRAT 14;STRT;TRIG;FREQ?",
    "SRAT 14;TSTR 1;TRIG;TRIG;TRCL?1,0,1",
    "TRIG;TRCB?2,0,1;SPTS?",
    "REST;SPTS?",
    "*RST;*IDN?",
    "FOO",
    "FOO;*IDN?",
    "FREQ?;HARM 0",
    "SEND 0;*STB? 4",
    "",
    ";",
];

/// Some lines in one run or in several, now and then the first bytes of them singly.
pub fn runs(generator: &mut Generator, module: &Module) -> Vec<Operation> {
    let mut module = module.clone();
    let text = text(generator, &module);
    let (begin, rest) = text.split_at(first_length(generator, text.len()));
    let mut operations = Vec::new();
    if generator.chance(20) {
        let (end_mark, room) = (generator.chance(50), generator.below(9));
        operations.push(Operation::Run { bytes: Vec::new(), end_mark, room });
    }
    if begin.len() < 20 && generator.chance(30) {
        let room = operations::room(generator);
        operations.extend(begin.iter().map(|&byte| Operation::Byte { byte, end_mark: false, room }));
        begin.iter().for_each(|&byte| drop(module.byte(byte, false, room)));
    } else {
        operations.push(run(generator, &mut module, begin));
    }
    if !rest.is_empty() {
        operations.push(run(generator, &mut module, rest));
    }
    operations
}

/// The length of what is handed over first: mostly all of it.
fn first_length(generator: &mut Generator, length: usize) -> usize {
    match generator.below(6) {
        0 => generator.below(length + 1),
        1 => generator.below(length.min(8) + 1),
        _ => length,
    }
}

/// One run of some lines.
pub fn one(generator: &mut Generator, module: &Module) -> Operation {
    let text = text(generator, module);
    run(generator, &mut module.clone(), &text)
}

/// A run of bytes with a mark and a room, which is performed on the module.
fn run(generator: &mut Generator, module: &mut Module, bytes: &[u8]) -> Operation {
    let is_inside = bytes.last().is_some_and(|&byte| module.port.role(byte, false) == Role::Inside);
    let end_mark = match (module.port, is_inside) {
        (Port::Gpib, true) => generator.chance(50),
        _ => generator.chance(12),
    };
    let room = room_near(generator, module, bytes, end_mark);
    module.run(bytes, end_mark, &mut vec![0; room]);
    Operation::Run { bytes: bytes.to_vec(), end_mark, room }
}

/// A room for a run's replies, mostly for a part of them only.
pub fn room_near(generator: &mut Generator, module: &Module, bytes: &[u8], end_mark: bool) -> usize {
    let needed = module.clone().run(bytes, end_mark, &mut vec![0; MOST_ROOM]).length;
    let room = match generator.below(100) {
        0..=24 => operations::room(generator),
        25..=59 => generator.below(needed + 1),
        60..=69 => needed.saturating_sub(1 + generator.below(3)),
        70..=79 => needed,
        80..=93 => needed + generator.below(20),
        94 => generator.pick(&[8_192, 16_384, MOST_ROOM - 1, MOST_ROOM]),
        _ => 400 + generator.below(8_000),
    };
    room.min(MOST_ROOM)
}

/// The bytes of one to five lines, of which the last is mostly ended.
fn text(generator: &mut Generator, module: &Module) -> Vec<u8> {
    let mut module = module.clone();
    let mut text = Vec::new();
    for _ in 0..1 + generator.below(5) {
        let line = line(generator, &module);
        module.line(&line, MOST_ROOM);
        text.extend(line);
        text.extend(end(generator, module.port));
    }
    match generator.below(20) {
        0..=4 => text.extend(line(generator, &module)),
        5 => text.extend(vec![generator.pick(b" ;0"); MOST_LINE_BYTES + generator.below(3)]),
        6 | 7 => text.truncate(generator.below(text.len() + 1)),
        _ => {}
    }
    if generator.chance(5) {
        lines::damage(generator, &mut text);
    }
    text
}

/// A line without its end; a few are about as long as one may be.
fn line(generator: &mut Generator, module: &Module) -> Vec<u8> {
    let mut line = match generator.below(10) {
        0..=4 => generator.pick(LINES).as_bytes().to_vec(),
        5 => [generator.pick(LINES), generator.pick(LINES)].join(";").into_bytes(),
        _ => operations::line(generator, module),
    };
    if generator.chance(3) {
        line.resize(MOST_LINE_BYTES - 1 + generator.below(20), generator.pick(b" ;0\r"));
    }
    line
}

/// What ends a line on a port, now and then an empty one behind it.
fn end(generator: &mut Generator, port: Port) -> &'static [u8] {
    match port {
        Port::Gpib => generator.pick(&[&b"\n"[..], b"\n", b"\n", b"\n", b"\r\n", b"\n\n", b";\n", b"\n\r\n"]),
        Port::Rs232 => generator.pick(&[&b"\n"[..], b"\r", b"\n", b"\r", b"\r\n", b"\r\n", b"\n\r", b"\r\r"]),
    }
}

#[cfg(test)]
mod tests;
