//! The bench program: bytes in, replies out.

use crate::module::Module;
use std::io::{self, Read, Write};

const SERIAL: u32 = 42;
const GPIB: u32 = 1;
const CAPACITY: usize = 8;

/// Feeds bytes without end marks to a fresh module and writes the replies only.
pub fn bench(input: impl Read, output: &mut impl Write) -> io::Result<()> {
    let mut module = Module::start(SERIAL, GPIB, [CAPACITY; 2]).expect("a lawful start");
    for byte in io::BufReader::new(input).bytes() {
        output.write_all(&module.byte(byte?, false, usize::MAX).written)?;
    }
    output.flush()
}

#[cfg(test)]
mod tests {
    use super::*;
    use crate::random::bench::queries;

    /// The bytes of a run, and the room of its replies.
    const CHUNK: usize = 65_536;
    const ROOM: usize = 8_192;

    /// The replies to runs, each gone on with where it stops, and how often one stops.
    fn replies_to_runs(input: &[u8]) -> (Vec<u8>, usize) {
        let mut module = Module::start(SERIAL, GPIB, [CAPACITY; 2]).expect("a lawful start");
        let mut room = [0; ROOM];
        let (mut replies, mut stops) = (Vec::new(), 0);
        for mut chunk in input.chunks(CHUNK) {
            while !chunk.is_empty() {
                let answer = module.run(chunk, false, &mut room);
                replies.extend(&room[..answer.length]);
                chunk = &chunk[answer.taken..];
                stops += usize::from(!chunk.is_empty());
            }
        }
        (replies, stops)
    }

    /// Replies many times as long as the room are those to single bytes.
    #[test]
    fn runs_reply_as_single_bytes_do() {
        let input = queries(4, 3 * CHUNK);
        let mut singly = Vec::new();
        bench(&input[..], &mut singly).unwrap();
        let (replies, stops) = replies_to_runs(&input);
        assert!(replies == singly, "the replies differ");
        assert!(stops > 20, "{stops} stops");
    }

    /// A refusal shows in *ESR alone, and a last line without its end has no reply.
    #[test]
    fn worked_example() {
        let input = b"*IDN?\nPHAS 541\nPHAS?\nFREQ 102000.1\n*ESR?\nSLVL 1.001;SLVL?\nPHAS?";
        let mut output = Vec::new();
        bench(&input[..], &mut output).unwrap();
        assert_eq!(String::from_utf8(output).unwrap(), "LOCKIN,M1,s/n00042,ver1.000\n-179.00\n144\n1.002\n");
    }
}
