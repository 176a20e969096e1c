//! Random settings: allowed ones, and values near the ends of what is kept.

use super::generator::Generator;
use crate::frequency::{Range, BAND_HIGH, BAND_LOW, FIRST_LONG_TIME_CONSTANT, LEAST, LIMIT};
use crate::setting::{Settings, Value, FREQ, HARM, OFLT, VALUES};

/// The largest harmonic, and a frequency beyond all that are allowed.
const MOST_HARMONIC: i64 = 19_999;
const MOST_FREQUENCY: i64 = 2_000_000_000;

/// A number of units at, near or between the ends of what is kept.
pub fn near(generator: &mut Generator, value: &Value) -> i64 {
    match generator.below(12) {
        0 => value.kept_low - 1,
        1 => value.kept_low + generator.between(0, 2),
        2 => value.kept_high - generator.between(0, 2),
        3 => value.kept_high + 1,
        4 => generator.between(-12, 12),
        5 => generator.of_any_size(MOST_FREQUENCY),
        6 => generator.between(value.kept_low, value.kept_high),
        _ => kept(generator, value),
    }
}

/// A value that a state may hold, of any size.
fn kept(generator: &mut Generator, value: &Value) -> i64 {
    let sign = generator.pick(&[-1, 1]);
    let wanted = (sign * generator.of_any_size(value.kept_high)).clamp(value.kept_low, value.kept_high);
    let on_step = wanted - wanted % value.argument.step_at(wanted);
    if value.allows(on_step) {
        on_step
    } else {
        value.start
    }
}

/// An external frequency, allowed or not.
pub fn external(generator: &mut Generator) -> i64 {
    match generator.below(6) {
        0 => LEAST + generator.between(-2, 2),
        1 => LIMIT + generator.between(-2, 2),
        _ => generator.of_any_size(MOST_FREQUENCY),
    }
}

/// Settings that a state may hold, often just at the limit or at an end of the band.
pub fn surely_allowed(generator: &mut Generator) -> Settings {
    loop {
        let settings = allowed(generator);
        if settings.are_allowed() {
            return settings;
        }
    }
}

/// Settings that are mostly allowed together, often just at the limit or at an end of the band.
fn allowed(generator: &mut Generator) -> Settings {
    let mut settings = Settings::start();
    for (entry, value) in VALUES.iter().enumerate() {
        settings.entries[entry] = kept(generator, value);
    }
    settings.external = generator.of_any_size(LIMIT).max(LEAST);
    let harmonic = generator.of_any_size(MOST_HARMONIC).max(1);
    let at_limit = generator.pick(&[LIMIT, BAND_LOW, BAND_HIGH]) / harmonic + generator.between(-1, 1);
    if generator.chance(30) {
        settings.external = at_limit.clamp(LEAST, LIMIT);
    }
    if generator.chance(30) {
        let value = &VALUES[FREQ];
        let on_step = at_limit - at_limit % value.argument.step_at(at_limit);
        settings.entries[FREQ] = on_step.clamp(LEAST, LIMIT);
    }
    let most_harmonic = (LIMIT / settings.reference().in_force()).clamp(1, MOST_HARMONIC);
    settings.entries[HARM] = match generator.below(8) {
        0 => most_harmonic,
        1 => (most_harmonic + 1).min(MOST_HARMONIC),
        2 => generator.between(1, most_harmonic),
        _ => harmonic.min(most_harmonic),
    };
    settings.range = generator.pick(&Range::ALL).at(settings.reference().detection());
    if !settings.range.allows(settings.entries[OFLT]) && generator.chance(80) {
        settings.entries[OFLT] -= FIRST_LONG_TIME_CONSTANT;
    }
    settings
}
