//! Random lines that are no operations, or nearly none.

use super::generator::Generator;
use super::lines;
use super::operations::Operations;
use crate::ops::MOST_OPERATION_BYTES;

/// One operation in this many is left whole, so that damage to a state would show.
const WHOLE_EVERY: usize = 4;

/// An operation's text with something wrong with it, mostly.
pub fn operation(generator: &mut Generator, text: &[u8]) -> Vec<u8> {
    let mut fields: Vec<Vec<u8>> = text.split(|&byte| byte == b' ').map(<[u8]>::to_vec).collect();
    let at = generator.below(fields.len());
    match generator.below(10) {
        0 => fields.push(generator.pick(&[&b""[..], b"\r", b"0"]).to_vec()),
        1 => fields.insert(0, Vec::new()),
        2 => {
            fields.remove(at);
        }
        3 => fields[at].make_ascii_uppercase(),
        4 => fields[at].insert(0, b'0'),
        5 => fields[at] = generator.pick(&[&b"-"[..], b"", b"4294967296", b"99999999999999999999", b"-1"]).to_vec(),
        6 => fields[at] = generator.pick(&[&b"131073"[..], b"16385", b"256", b"+1", b"1.0", b"0x1", b"3"]).to_vec(),
        7 => fields.insert(at, b"1".to_vec()),
        _ => {
            let mut text = fields.join(&b' ');
            lines::damage(generator, &mut text);
            return without_line_ends(text);
        }
    }
    without_line_ends(fields.join(&b' '))
}

/// The text without LF, so that it is one line.
fn without_line_ends(mut text: Vec<u8>) -> Vec<u8> {
    text.retain(|&byte| byte != b'\n');
    text
}

/// An endless course of lines: bytes of any kind, damaged operations, and some whole ones.
pub struct Lines {
    generator: Generator,
    operations: Operations,
}

impl Lines {
    /// The lines of a seed.
    pub fn new(seed: u64) -> Lines {
        Lines { generator: Generator::new(!seed), operations: Operations::new(seed) }
    }
}

impl Iterator for Lines {
    type Item = Vec<u8>;

    fn next(&mut self) -> Option<Vec<u8>> {
        let text = self.operations.next()?;
        let generator = &mut self.generator;
        if generator.below(WHOLE_EVERY) == 0 {
            return Some(text);
        }
        Some(match generator.below(200) {
            0..=59 => {
                let length = generator.below(40);
                without_line_ends((0..length).map(|_| generator.bits() as u8).collect())
            }
            60 => at_most_bytes(generator),
            _ => operation(generator, &text),
        })
    }
}

/// An operation about as long as one may be.
fn at_most_bytes(generator: &mut Generator) -> Vec<u8> {
    let length = MOST_OPERATION_BYTES - 1 + generator.below(4);
    match generator.below(4) {
        0 => format!("measured {}7", "0".repeat(length - 10)).into_bytes(),
        1 => format!("line {} {}", "20".repeat((length - 7) / 2), length % 10).into_bytes(),
        2 => format!("run {} 0 {}", "0a".repeat((length - 8) / 2), "0".repeat(1 + length % 2)).into_bytes(),
        _ => vec![b'd'; length],
    }
}
