//! Random input of the bench program.

use super::generator::Generator;
use super::{lines, near};
use crate::command::MOST_LINE_BYTES;
use crate::module::Module;

/// Commands of which most reply with more bytes than they have.
const QUERIES: &[&str] = &[
    "*IDN?",
    "*IDN?",
    "*IDN?",
    "*IDN?",
    "*IDN?",
    "FREQ?",
    "PHAS?",
    "*STB?",
    "*ESR?",
    "SPTS?",
    "TRIG",
    "TRCL?1,0,8",
    "TRCB?2,0,4",
    "HARM 2",
    "HARM 1",
    "FOO",
    "",
];

/// Bytes of `count` lines; the last one is not ended.
pub fn input(seed: u64, count: usize) -> Vec<u8> {
    let mut generator = Generator::new(seed);
    let mut module = Module::start(42, 1, [8; 2]).expect("a lawful start");
    let mut bytes = Vec::new();
    for _ in 0..count {
        let commands: Vec<Vec<u8>> =
            (0..1 + generator.below(5)).map(|_| near::command(&mut generator, &module)).collect();
        let mut line = commands.join(&b';');
        if generator.chance(2) {
            line.extend(vec![b' '; 200 + generator.below(100)]);
        }
        module.line(&line, usize::MAX);
        bytes.extend(line);
        bytes.extend(generator.pick(&[&b"\n"[..], b"\n", b"\n", b"\r\n", b";\n\n"]));
    }
    bytes.extend(lines::line(&mut generator));
    bytes.extend(b"*IDN?");
    bytes
}

/// Lines of queries, of at least so many bytes together: all replies of a part of them that is read at once are many
/// times what one room holds.
pub fn queries(seed: u64, bytes: usize) -> Vec<u8> {
    let mut generator = Generator::new(seed);
    let mut input = b"SRAT 14;STRT\n".to_vec();
    while input.len() < bytes {
        let longest = if generator.chance(5) { MOST_LINE_BYTES + 20 } else { generator.pick(&[255, 255, 100, 20]) };
        input.extend(line_of_queries(&mut generator, longest));
        input.extend(generator.pick(&[&b"\n"[..], b"\n", b"\n", b"\r\n", b"\n\n"]));
    }
    input
}

/// A line of as many commands as `longest` bytes hold.
fn line_of_queries(generator: &mut Generator, longest: usize) -> Vec<u8> {
    let mut line = generator.pick(QUERIES).as_bytes().to_vec();
    loop {
        let command = generator.pick(QUERIES).as_bytes();
        if line.len() + 1 + command.len() > longest {
            return line;
        }
        line.push(b';');
        line.extend(command);
    }
}

#[cfg(test)]
mod tests {
    use super::*;
    use crate::bench::bench;

    /// Some lines are too long; all together reply with more than one and a half times their bytes.
    #[test]
    fn replies_to_queries_are_longer_than_these() {
        let input = queries(1, 100_000);
        let mut replies = Vec::new();
        bench(&input[..], &mut replies).unwrap();
        assert!(input.len() >= 100_000 && 2 * replies.len() > 3 * input.len(), "{} {}", input.len(), replies.len());
        let too_long = input.split(|&byte| byte == b'\n').filter(|line| line.len() > MOST_LINE_BYTES).count();
        assert!((10..100).contains(&too_long), "{too_long}");
    }
}
