//! Random commands near what decides in a state: the limit, the band, storage, status.

use super::generator::Generator;
use super::lines;
use crate::argument::Argument;
use crate::command::FORMS;
use crate::decimal::Decimal;
use crate::frequency::{Reference, BAND_HIGH, BAND_LOW, DECIMALS, HERTZ, LEAST, LIMIT};
use crate::module::Module;

/// A command chosen with an eye on the module's state.
pub fn command(generator: &mut Generator, module: &Module) -> Vec<u8> {
    let text = match generator.below(20) {
        0..=3 => return lines::command(generator),
        4 | 5 => {
            let form = &FORMS[generator.below(FORMS.len())];
            return lines::lawful(generator, form);
        }
        6..=8 => reference(generator, &module.settings.reference()),
        9..=13 => storage(generator),
        14 | 15 => trace_read(generator, module.storage.held()),
        16..=18 => status(generator),
        _ => generator.pick(&["*IDN?", "FREQ?", "OFLT?", "SPTS?", "*RST", "REST", "", "*CLS"]).to_string(),
    };
    let mut text = text.into_bytes();
    if generator.chance(10) {
        lines::space_out(generator, &mut text);
    }
    if generator.chance(10) {
        lines::change_case(generator, &mut text);
    }
    text
}

/// A frequency that meets the limit or an end of the band together with a factor, or just misses it.
pub fn frequency(generator: &mut Generator, factor: i64) -> i64 {
    let end = generator.pick(&[LIMIT, LIMIT, BAND_LOW, BAND_LOW, BAND_HIGH, BAND_HIGH, LEAST * factor, 1_000 * HERTZ]);
    (end / factor + generator.between(-1, 2)).max(0)
}

/// A frequency that FREQ can set, just inside the band or just outside it with a harmonic.
pub fn settable(generator: &mut Generator, harmonic: i64) -> i64 {
    let end = generator.pick(&[BAND_LOW, BAND_HIGH]) / harmonic;
    let step = Argument::frequency().step_at(end);
    (end - end % step + step * generator.between(-1, 1)).max(LEAST)
}

/// A command that changes the detection frequency, or is decided by it.
pub fn reference(generator: &mut Generator, reference: &Reference) -> String {
    match generator.below(8) {
        0 => format!("FMOD {}", generator.between(0, 1)),
        1 => "FMOD 0".to_string(),
        2 | 3 => {
            let near = frequency(generator, reference.harmonic);
            let settable = settable(generator, reference.harmonic);
            let wanted = generator.pick(&[near, near, settable, settable, 200 * HERTZ, 100 * HERTZ, 10 * HERTZ]);
            format!("FREQ {}", Decimal::new(i128::from(wanted), DECIMALS).plain())
        }
        4 | 5 => {
            let near = frequency(generator, reference.in_force());
            format!("HARM {}", generator.pick(&[near, near, 1, 2, 102]))
        }
        _ => format!("OFLT {}", generator.between(11, 20)),
    }
}

/// A command that stores points, or is decided by them.
pub fn storage(generator: &mut Generator) -> String {
    match generator.below(12) {
        0..=2 => "STRT".to_string(),
        3 => "PAUS".to_string(),
        4 => generator.pick(&["REST", "REST", "*RST"]).to_string(),
        5..=7 => "TRIG".to_string(),
        8 => format!("SEND {}", generator.between(0, 1)),
        9 => format!("SRAT {}", generator.pick(&[14, 14, 14, 13, 4, 0])),
        10 => format!("TSTR {}", generator.between(0, 1)),
        _ => "SPTS?".to_string(),
    }
}

/// A trace read that ends about where the points held end.
pub fn trace_read(generator: &mut Generator, held: usize) -> String {
    let held = held as i64;
    let count = generator.between(1, held.clamp(1, 12));
    let first = match generator.below(4) {
        0 => generator.between(0, held.max(1)),
        1 => 0,
        _ => (held - count + generator.between(-1, 1)).max(0),
    };
    let count = if generator.chance(3) { held + generator.between(0, 1) } else { count };
    let name = generator.pick(&["TRCL", "TRCB"]);
    format!("{name}? {},{first},{count}", generator.between(1, 2))
}

/// A command that reads, enables or clears status.
fn status(generator: &mut Generator) -> String {
    let bit = generator.between(0, 8).min(7 + i64::from(generator.chance(10)));
    match generator.below(12) {
        0 => "*ESR?".to_string(),
        1 => format!("*ESR? {bit}"),
        2 => "LIAS?".to_string(),
        3 => format!("LIAS? {bit}"),
        4 => generator.pick(&["ERRS?", "ERRS? 1", "ERRS? 7", "*CLS"]).to_string(),
        5..=7 => generator.pick(&["*STB?", "*STB?", "*STB? 0", "*STB? 4", "*STB? 6", "*STB?1"]).to_string(),
        8 | 9 => {
            let name = generator.pick(&["*ESE", "*SRE", "*SRE", "LIAE", "ERRE"]);
            format!("{name} {}", generator.pick(&[0, 1, 4, 16, 48, 64, 127, 255, 256, 53]))
        }
        10 => {
            let name = generator.pick(&["*ESE", "*SRE", "LIAE", "ERRE"]);
            format!("{name} {bit},{}", generator.between(0, 1))
        }
        _ => {
            let name = generator.pick(&["*ESE", "*SRE", "LIAE", "ERRE"]);
            format!("{name}? {bit}")
        }
    }
}
