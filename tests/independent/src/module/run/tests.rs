//! The worked table of runs, on fresh modules of capacity 4; `/` is LF.

use super::*;

/// What stands in a room before.
const UNTOUCHED: u8 = b'~';

/// A fresh module of a port.
fn fresh(port: u32) -> Module {
    Module::start(42, port, [4; 2]).unwrap()
}

/// Bytes taken, refusal, line, place and length of a run, and the room afterwards.
fn told(module: &mut Module, text: &str, end_mark: bool, room: usize) -> String {
    let mut room = vec![UNTOUCHED; room];
    let answer = module.run(text.replace('/', "\n").as_bytes(), end_mark, &mut room);
    let RunAnswer { taken, refusal, line, place, length } = answer;
    let room = String::from_utf8(room).unwrap().replace('\n', "/").replace('\r', "|");
    format!("{taken} {} {line} {place} {length} {room}", refusal.map_or(0, Refusal::number))
}

/// The bytes that wait, as text.
fn queue(module: &Module) -> String {
    String::from_utf8(module.input.queue.clone()).unwrap()
}

/// What a stop leaves waiting is done by the next run.
#[test]
fn replies_are_joined_and_a_line_that_does_not_fit_stops_the_run() {
    let mut module = fresh(1);
    assert_eq!(told(&mut module, "PHAS 1;PHAS?/FREQ?/", false, 24), "19 0 0 0 15 1.00/1000.0000/~~~~~~~~~");
    let mut module = fresh(1);
    assert_eq!(told(&mut module, "PHAS?/FREQ?/HARM?/", false, 8), "11 0 0 0 5 0.00/~~~");
    assert_eq!((queue(&module).as_str(), module.registers.standard.events), ("FREQ?", 128));
    assert_eq!(told(&mut module, "/HARM?/", false, 24), "7 0 0 0 12 1000.0000/1/~~~~~~~~~~~~");
}

/// Its length is 0, so that the next replies go over what it has left in the room.
#[test]
fn the_first_line_to_end_meets_4_and_the_run_goes_on() {
    let mut module = fresh(1);
    assert_eq!(told(&mut module, "*IDN?/PHAS?/", false, 6), "12 4 1 1 5 0.00/~");
    assert_eq!(module.registers.standard.events, 132);
    let text = "PHAS?;*IDN?/FREQ?/*IDN?/PHAS?/";
    assert_eq!(told(&mut fresh(1), text, false, 12), "23 4 1 2 10 1000.0000/~~");
    assert_eq!(told(&mut fresh(1), "PHAS?;*IDN?/HARM?/", false, 6), "18 4 1 2 2 1/00/~");
}

/// So a line behind it stops the run, and is itself the first to end in the next one.
#[test]
fn an_empty_line_is_the_first_to_end() {
    let mut module = fresh(1);
    assert_eq!(told(&mut module, "/*IDN?/", false, 3), "6 0 0 0 0 ~~~");
    assert_eq!(told(&mut module, "/", false, 3), "1 4 1 1 0 ~~~");
}

/// Neither its refusals' bits nor its settings and points are there before its end is taken.
#[test]
fn a_line_with_another_refusal_before_4_stops_too_and_does_nothing() {
    assert_eq!(told(&mut fresh(1), "FOO;*IDN?/FOO;*IDN?/", false, 3), "19 1 1 1 0 ~~~");
    let mut module = fresh(1);
    let mut expected = fresh(1);
    assert_eq!(told(&mut module, "FREQ?/SRAT 14;STRT;TRIG;FREQ?/PHAS?/", false, 12), "29 0 0 0 10 1000.0000/~~");
    expected.input.queue = b"SRAT 14;STRT;TRIG;FREQ?".to_vec();
    assert_eq!(module, expected);
}

/// They are told at byte 257; their end is one line's end, also where byte 257 is marked.
#[test]
fn lines_over_256_bytes_count_once() {
    let mut module = fresh(1);
    assert_eq!(told(&mut module, &format!("{}/FOO/", "A".repeat(257)), false, 4), "262 5 1 0 0 ~~~~");
    assert_eq!(module.registers.standard.events, 161);
    assert_eq!(told(&mut fresh(1), &format!("{}/FOO/", "A".repeat(256)), false, 4), "261 1 1 1 0 ~~~~");
    let mut module = fresh(1);
    assert_eq!(told(&mut module, &format!("/{}", "A".repeat(257)), true, 4), "258 5 2 0 0 ~~~~");
    assert_eq!(module.input, fresh(1).input);
    assert_eq!(told(&mut module, &" ".repeat(300), false, 4), "300 5 1 0 0 ~~~~");
    assert_eq!(told(&mut module, "/*IDN?/", false, 4), "6 0 0 0 0 ~~~~");
}

/// It is not taken where that byte is not, and is nothing where there is no byte.
#[test]
fn the_mark_belongs_to_the_last_byte() {
    let mut module = fresh(1);
    assert_eq!(told(&mut module, "PHAS?/PHAS?", true, 5), "10 0 0 0 5 0.00/");
    assert_eq!(queue(&module), "PHAS");
    assert_eq!(told(&mut module, "?", true, 5), "1 0 0 0 5 0.00/");
    assert_eq!(told(&mut module, "PH", false, 0), "2 0 0 0 0 ");
    assert_eq!(told(&mut module, "", true, 5), "0 0 0 0 0 ~~~~~");
    assert_eq!(queue(&module), "PH");
}

/// CR LF is a line's end and an empty line.
#[test]
fn both_of_cr_and_lf_end_a_line_on_rs232_and_the_mark_none() {
    let mut module = fresh(0);
    assert_eq!(told(&mut module, "PHAS?\r/FOO\r/", false, 8), "12 1 3 1 5 0.00|~~~");
    assert_eq!(told(&mut module, "PHAS?", true, 8), "5 0 0 0 0 ~~~~~~~~");
    assert_eq!(queue(&module), "PHAS?");
}
