//! Random scripts for the check, near the rules that a state decides.

use super::generator::Generator;
use super::lines;

/// Commands that the refusals by 3 hang on.
const COMMANDS: &[&str] = &[
    "STRT",
    "STRT",
    "PAUS",
    "REST",
    "TRIG",
    "TRIG",
    "TRIG",
    "SRAT 14",
    "SRAT 14",
    "SRAT 4",
    "TSTR 1",
    "TSTR 0",
    "SEND 0",
    "SEND 0",
    "SEND 1",
    "TRCB?1,0,1",
    "TRCL?2,0,2",
    "TRCB?1,1,1",
    "TRCL?1,0,3",
    "TRCB?2,1,2",
    "SPTS?",
    "FMOD 0",
    "FMOD 0",
    "FMOD 1",
    "FMOD 1",
    "HARM 1",
    "HARM 2",
    "HARM 102",
    "HARM 103",
    "HARM 3",
    "HARM 19999",
    "FREQ 100",
    "FREQ 5.1",
    "FREQ 1000",
    "FREQ 102000",
    "FREQ 100.01",
    "FREQ 99.6",
    "FREQ 101.56",
    "FREQ 101.57",
    "FREQ 199.2",
    "FREQ 199.21",
    "FREQ 200",
    "FREQ 203.12",
    "FREQ 203.13",
    "FREQ .001",
    "OFLT 14",
    "OFLT 14",
    "OFLT 19",
    "OFLT 13",
    "*RST",
    "PHAS 90",
    "*ESR?",
    "",
    "",
];

/// First lines after which points are held, a frequency is open, or the range hangs on what came before.
const FIRST_LINES: &[&[u8]] = &[
    b"*RST;SRAT 14;STRT;TRIG;TRIG",
    b"*RST;SRAT 14;TSTR 1;TRIG",
    b"*RST;SRAT 14;SEND 0;TSTR 1;TRIG;PAUS",
    b"*RST;SEND 0;SRAT 14;STRT;TRIG\n\nTRIG",
    b"*RST;FREQ 100;HARM 2;OFLT 14",
    b"*RST;FREQ 199.2;FREQ 203.12",
    b"*RST;FREQ 101.56;HARM 2;FMOD 0\nFMOD 1",
    b"*RST;FREQ 1;FMOD 0\nFMOD 1;FREQ 200",
    b"*RST;FMOD 0;FREQ?;OFLT 3\nFMOD 1",
    b"*RST;HARM 102;FMOD 0\nFMOD 1;FREQ .001",
];

/// A script, mostly one that begins with *RST.
pub fn script(generator: &mut Generator) -> Vec<u8> {
    let mut script = match generator.below(12) {
        0 => generator.pick(&[&b""[..], b"\n", b"*RST?\n", b"*RS", b"STRT\n"]).to_vec(),
        1 => generator.pick(&[&b"\n\n*RST"[..], b"; ;*rst", b"\r\n *R ST", b"\n"]).to_vec(),
        2..=5 => generator.pick(FIRST_LINES).to_vec(),
        _ => b"*RST".to_vec(),
    };
    script.extend(after_reset(generator));
    if generator.chance(3) {
        lines::damage(generator, &mut script);
    }
    script
}

/// The rest of a line that has begun, and up to seven more.
fn after_reset(generator: &mut Generator) -> Vec<u8> {
    let mut script = Vec::new();
    for _ in 0..generator.below(3) {
        script.push(b';');
        script.extend(command(generator));
    }
    for _ in 0..generator.below(8) {
        script.push(b'\n');
        let commands: Vec<Vec<u8>> = (0..generator.below(3)).map(|_| command(generator)).collect();
        script.extend(commands.join(&b';'));
        if generator.chance(2) {
            script.extend(vec![b' '; 240 + generator.below(20)]);
        }
    }
    if generator.chance(50) {
        script.push(b'\n');
    }
    script
}

/// A command that a script's refusals may hang on, now and then any.
pub fn command(generator: &mut Generator) -> Vec<u8> {
    match generator.below(60) {
        0 => lines::command(generator),
        _ => generator.pick(COMMANDS).as_bytes().to_vec(),
    }
}
