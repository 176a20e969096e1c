//! Random lines: valid, nearly valid and damaged commands.

use super::generator::Generator;
use super::spelling;
use crate::command::{names, Form, FORMS, MOST_LINE_BYTES};
use crate::setting;

/// Names of document 001 that are no commands here.
const UNKNOWN_NAMES: &[&str] = &[
    "OUTX", "OVRM", "KCLK", "ALRM", "SSET", "RSET", "AGAN", "ARSV", "APHS", "AOFF", "OAUX", "OUTP", "TRCA", "FAST",
    "STRD", "LOCL",
];

/// Bytes that mean something in a line, or nearly do.
const BYTES: &[u8] = b"0123456789+-.,;?*Ee \r\n\t\0/:@[`{~AZaz\x7f\x80\xa0\xb0\xc8\xff";

/// A line of at most 256 bytes.
pub fn line(generator: &mut Generator) -> Vec<u8> {
    let commands = match generator.below(10) {
        0..=4 => 1,
        5..=7 => 1 + generator.below(3),
        8 => 1 + generator.below(8),
        _ => 0,
    };
    let mut line = match commands {
        0 => odd_line(generator),
        _ => {
            let texts: Vec<Vec<u8>> = (0..commands).map(|_| command(generator)).collect();
            texts.join(&b';')
        }
    };
    if generator.chance(5) {
        damage(generator, &mut line);
    }
    line.truncate(MOST_LINE_BYTES);
    line
}

/// A line that is no run of commands: bytes of any kind, or almost nothing.
pub fn odd_line(generator: &mut Generator) -> Vec<u8> {
    let length = generator.below(12);
    match generator.below(4) {
        0 => (0..length).map(|_| generator.bits() as u8).collect(),
        1 => (0..length).map(|_| generator.pick(b"; \r,?*")).collect(),
        2 => (0..length).map(|_| generator.pick(BYTES)).collect(),
        _ => {
            let mut line = generator.pick(&names()).as_bytes().to_vec();
            line.extend((0..length).map(|_| generator.pick(b"0123456789+-.,;?E ")));
            line
        }
    }
}

/// A command, one time in three not quite as it should be.
pub fn command(generator: &mut Generator) -> Vec<u8> {
    if generator.chance(4) {
        return vec![b' '; generator.below(3)];
    }
    let form = &FORMS[generator.below(FORMS.len())];
    let mut text = match generator.below(12) {
        0 => misshapen(generator, form),
        _ => lawful(generator, form),
    };
    if generator.chance(20) {
        for _ in 0..1 + generator.below(2) {
            damage(generator, &mut text);
        }
    }
    if generator.chance(30) {
        space_out(generator, &mut text);
    }
    if generator.chance(25) {
        change_case(generator, &mut text);
    }
    text
}

/// The form with a number for each argument.
pub fn lawful(generator: &mut Generator, form: &Form) -> Vec<u8> {
    let arguments: Vec<String> = form.arguments.iter().map(|argument| spelling::number(generator, argument)).collect();
    written(form.name, form.is_query, &arguments)
}

/// A set command and the query that shows what it has set.
pub fn set_and_query(generator: &mut Generator) -> Vec<u8> {
    let sets: Vec<&Form> = FORMS.iter().filter(|form| !form.is_query && !form.arguments.is_empty()).collect();
    let form = generator.pick(&sets);
    let arguments: Vec<String> = form.arguments.iter().map(|argument| spelling::number(generator, argument)).collect();
    let channels = setting::find(form.name).map_or(0, |(_, setting)| setting.channels.min(1) as usize);
    let mut line = written(form.name, false, &arguments);
    if generator.chance(5) {
        damage(generator, &mut line);
    }
    line.push(b';');
    line.extend(written(form.name, true, &arguments[..channels]));
    line
}

/// The text of a command: its name, "?" where it is a query, and its arguments.
fn written(name: &str, is_query: bool, arguments: &[String]) -> Vec<u8> {
    let mark = if is_query { "?" } else { "" };
    let gap = if arguments.is_empty() { "" } else { " " };
    format!("{name}{mark}{gap}{}", arguments.join(",")).into_bytes()
}

/// The form with another name, mark or number of arguments.
fn misshapen(generator: &mut Generator, form: &Form) -> Vec<u8> {
    let mut name = form.name;
    let mut is_query = form.is_query;
    let mut arguments: Vec<String> =
        form.arguments.iter().map(|argument| spelling::number(generator, argument)).collect();
    match generator.below(6) {
        0 => name = generator.pick(UNKNOWN_NAMES),
        1 => name = generator.pick(&names()),
        2 => is_query = !is_query,
        3 => arguments.push(generator.between(0, 9).to_string()),
        4 => {
            arguments.pop();
        }
        _ => arguments.insert(0, String::new()),
    }
    written(name, is_query, &arguments)
}

/// One change at a random place.
pub fn damage(generator: &mut Generator, text: &mut Vec<u8>) {
    if text.is_empty() {
        text.push(generator.pick(BYTES));
        return;
    }
    let at = generator.below(text.len());
    match generator.below(7) {
        0 => text[at] ^= 1 << generator.below(8),
        1 => text[at] = generator.bits() as u8,
        2 => text[at] = generator.pick(BYTES),
        3 => text.insert(at, generator.pick(BYTES)),
        4 => {
            text.remove(at);
        }
        5 => text.insert(at, text[at]),
        _ => {
            let other = generator.below(text.len());
            text.swap(at, other);
        }
    }
}

/// Spaces and CR anywhere.
pub fn space_out(generator: &mut Generator, text: &mut Vec<u8>) {
    for _ in 0..1 + generator.below(4) {
        let at = generator.below(text.len() + 1);
        text.insert(at, generator.pick(b"  \r"));
    }
}

/// All letters small, or each as chance has it.
pub fn change_case(generator: &mut Generator, text: &mut [u8]) {
    let all = generator.chance(50);
    for byte in text {
        if all || generator.chance(50) {
            byte.make_ascii_lowercase();
        }
    }
}
